"""The editors' files: Vim and the TextMate grammar colour the same bytes of sessions alike."""
from __future__ import annotations

import json
import re
import shutil
import subprocess
import tempfile
import unittest
from pathlib import Path
from typing import Any, Iterator, Optional

from tests.places import EXAMPLES, ROOT

EDITORS = ROOT / "editors"
TEXTMATE = EDITORS / "textmate" / "syntaxes" / "cg-session.tmLanguage.json"
SESSIONS = EXAMPLES + sorted(ROOT.glob("examples/**/*.cg"))

# What Vim calls each class, and what TextMate calls it.
CLASSES = {
    "cgComment": "comment.line.number-sign.cg-session",
    "cgFormat": "meta.preprocessor.format.cg-session",
    "cgQuestion": "keyword.control.question.cg-session",
    "cgDefined": "entity.name.function.cg-session",
    "cgText": "string.quoted.double.cg-session",
    "cgGame": "support.type.game.cg-session",
    "cgName": "variable.other.name.cg-session",
    "cgNimber": "constant.language.nimber.cg-session",
    "cgArrow": "constant.language.arrow.cg-session",
    "cgNumber": "constant.numeric.cg-session",
    "cgOperator": "keyword.operator.cg-session",
    "cgDelimiter": "punctuation.separator.cg-session",
    "": "",
}

LETTERS = {
    "p": "cgFormat",
    "c": "cgComment",
    "d": "cgDelimiter",
    "o": "cgOperator",
    "n": "cgNumber",
    "k": "cgNimber",
    "a": "cgArrow",
    "f": "cgDefined",
    "x": "cgName",
    "t": "cgGame",
    "s": "cgText",
    "q": "cgQuestion",
    " ": "",
}

# A session, and below each of its lines the classes of its bytes, by these letters.
ROWS = """\
 cg 2
 pppp
  # a comment with "text" and value 1
  ccccccccccccccccccccccccccccccccccc
g2 := 2.{3,1/2||*2|^3} - -Tiny(1)
ff oo nodndnnnddkkdaad o ottttdnd
tall := Domineering("..|##") + v + vv - g2v
ffff oo tttttttttttdsssssssd o a o aa o xxx
compare v3 ; +-1/4^* + tempo
qqqqqqq aa d oonnnak o xxxxx
check g2 ; (tall) ;"(h0.g0.)"
qqqqq xx d dxxxxd dssssssssss
\tvalue Strip ( ".=1,0,0" , "." )
 qqqqq ttttt d sssssssss d sss d
value Octal("0.77",9)^^*
qqqqq tttttdssssssdndaak
values Col
axxxxx  xx
# 1
ccc
cg 2
xx n
"""


def scopes(line: str, first: bool) -> list[str]:
    """What the TextMate grammar calls each byte of a line, by the first pattern in each place."""
    found, at = [""] * len(line), 0
    while True:
        matches = [(match, pattern) for match, pattern in searches(line, at, first)]
        if not matches:
            return found
        match, pattern = min(matches, key=lambda pair: pair[0].start())
        group = 1 if "captures" in pattern else 0
        name = pattern["captures"]["1"]["name"] if group else pattern["name"]
        found[slice(*match.span(group))] = [name] * len(match[group])
        at = match.end()


def searches(line: str, at: int, first: bool) -> Iterator[tuple[re.Match[str], Any]]:
    """Where each pattern of the TextMate grammar matches next."""
    for pattern in json.loads(TEXTMATE.read_text())["patterns"]:
        match = re.compile(pattern["match"]).search(line, at)
        if match and (first or not pattern["match"].startswith("\\A")):
            yield match, pattern


def vim_groups(path: Path) -> tuple[str, list[list[str]]]:
    """The file type that Vim finds, and what it calls each byte of each line."""
    with tempfile.TemporaryDirectory() as folder:
        written, script = Path(folder, "written"), Path(folder, "script.vim")
        script.write_text(
            f"""
            set encoding=utf-8
            set runtimepath+={EDITORS}/vim
            filetype on
            syntax on
            edit {path}
            let said = [&filetype]
            for number in range(1, line('$'))
              let columns = range(1, len(getline(number)))
              call add(said, join(map(columns, 'synIDattr(synID(number, v:val, 1), "name")'), ','))
            endfor
            call writefile(said, '{written}')
            qall!
            """
        )
        words = ["vim", "-N", "-u", "NONE", "-i", "NONE", "-n", "-es", "-S", str(script)]
        subprocess.run(words, stdin=subprocess.DEVNULL, timeout=300, check=True)
        kind, *lines = written.read_text().split("\n")[:-1]
    return kind, [line.split(",") if line else [] for line in lines]


def why_no_vim() -> Optional[str]:
    """Why Vim can't be tried, or None."""
    if shutil.which("vim") is None:
        return "vim isn't there"
    said = subprocess.run(["vim", "--version"], capture_output=True, text=True, check=False)
    return None if "+syntax" in said.stdout else "this vim has no colours"


class TextMate(unittest.TestCase):
    """The TextMate grammar."""

    def test_rows(self) -> None:
        lines = ROWS.replace("\\t", "\t").splitlines()
        self.assertEqual([len(line) for line in lines[::2]], [len(line) for line in lines[1::2]])
        for number, (line, letters) in enumerate(zip(lines[::2], lines[1::2])):
            with self.subTest(line=line):
                classes = {CLASSES[name]: letter for letter, name in LETTERS.items()}
                found = "".join(classes[scope] for scope in scopes(line, number == 0))
                self.assertEqual(found, letters)

    def test_no_byte_of_the_examples_is_left_out(self) -> None:
        for path in SESSIONS:
            for number, line in enumerate(path.read_text().splitlines()):
                for byte, scope in zip(line, scopes(line, number == 0)):
                    with self.subTest(path=path.name, line=line):
                        self.assertTrue(scope or byte in " \t\r")

    def test_the_extension_names_the_grammar(self) -> None:
        extension = json.loads((EDITORS / "textmate" / "package.json").read_text())["contributes"]
        grammar = json.loads(TEXTMATE.read_text())
        self.assertEqual(extension["grammars"][0]["scopeName"], grammar["scopeName"])
        self.assertEqual(EDITORS / "textmate" / extension["grammars"][0]["path"], TEXTMATE)


class Vim(unittest.TestCase):
    """The Vim syntax file."""

    def groups(self, text: str) -> list[list[str]]:
        """What Vim calls the bytes of a session."""
        why = why_no_vim()
        if why:
            self.skipTest(why)
        with tempfile.TemporaryDirectory() as folder:
            session = Path(folder, "session.cg")
            session.write_text(text)
            kind, groups = vim_groups(session)
        self.assertEqual(kind, "cgsession")
        return groups

    def test_rows(self) -> None:
        lines = ROWS.replace("\\t", "\t").splitlines()
        groups = self.groups("".join(f"{line}\n" for line in lines[::2]))
        self.assertEqual(len(groups), len(lines[::2]))
        for line, letters, names in zip(lines[::2], lines[1::2], groups):
            with self.subTest(line=line):
                classes = {name: letter for letter, name in LETTERS.items()}
                self.assertEqual("".join(classes[name] for name in names), letters)

    def test_the_examples_are_coloured_as_by_the_other_grammar(self) -> None:
        for path in SESSIONS:
            text = path.read_text()
            groups = self.groups(text)
            self.assertEqual(len(groups), len(text.splitlines()))
            for number, (line, found) in enumerate(zip(text.splitlines(), groups)):
                with self.subTest(path=path.name, line=line):
                    self.assertEqual([CLASSES[group] for group in found], scopes(line, number == 0))
