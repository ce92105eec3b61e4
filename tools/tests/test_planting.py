"""plant-faults and the copies in which all must-fail edits stand."""
import contextlib
import io
import os
import shutil
import subprocess
import sys
import unittest

from test_checks import ROOT, Tried

sys.path.insert(0, os.path.join(ROOT, "tools"))
import switched  # noqa: E402

# Stands in for check-python: the tests fail where `right` isn't in the file.
TESTS = """#!/bin/sh
case "$*" in
nonesuch) echo "check-python: there is no such test"; exit 1;;
slow) exec sleep 9;;
esac
cd "$(dirname "$0")/../python/cgcalc" && exec grep -q right one.py
"""
FOUND = "one.py test_one\n- right\n+ wrong\n"
NOT_FOUND = "one.py test_one\n- # a comment\n+ # another\n"
CODE = '''/// A "word" {
pub fn one(number: u32) -> u32
    requires { number < 7 }
    ensures { returns == '{' }
{
    let brace = "}"; // {
    number + 1
}

fn two() -> u32;

fn three() -> u32 {
    fn within() -> u32 { 3 }
    within() + 1
}

const MOST: u32 = 1;
'''


class Planting(Tried):
    """plant-faults in a small repository, whose tests look for one word."""

    def repository(self, *faults):
        """The path of the repository with these faults."""
        top = self.copied()
        for part in ("python/cgcalc", "python/tests", "docs", "examples", "editors"):
            os.makedirs(os.path.join(top, part), exist_ok=True)
        shutil.copy(os.path.join(ROOT, "python", "tests", "faults.py"), os.path.join(top, "python", "tests"))
        for path, text in (("python/tests/__init__.py", ""), ("python/cgcalc/one.py", "right\n# a comment\n"),
                           ("python/tests/faults.txt", "# Faults.\n\n" + "\n".join(faults)), ("tools/check-python", TESTS)):
            with open(os.path.join(top, path), "w", encoding="utf-8") as file:
                file.write(text)
        return top

    def planted(self, wanted, told, *faults, words=(), seconds=None):
        """Plants these faults, and looks for a line."""
        shutil.rmtree(os.path.join(self.folder, "copy"), ignore_errors=True)
        top = self.repository(*faults)
        if seconds:
            path = os.path.join(top, "tools", "plant-faults")
            with open(path, encoding="utf-8") as file:
                text = file.read()
            with open(path, "w", encoding="utf-8") as file:
                file.write(text.replace("SECONDS = 300", f"SECONDS = {seconds}"))
        self.fails(told, "plant-faults", *words, top=top, status=wanted)

    def test_what_is_found(self):
        self.planted(0, "plant-faults: 1 faults, 1 found, 0 not, 0 wrong\n", FOUND)
        explained = NOT_FOUND + "explained: a comment says nothing to Python\n"
        self.planted(0, "plant-faults: 2 faults, 1 found, 1 not, 0 wrong\n", FOUND, explained)

    def test_what_is_not_found(self):
        self.planted(1, f"plant-faults: not found:\n{NOT_FOUND}", FOUND, NOT_FOUND)
        self.planted(1, "plant-faults: explained, and found:\n", FOUND + "explained: by mistake\n")

    def test_words_and_tests_that_are_none(self):
        self.planted(1, "plant-faults: 0 faults, 0 found, 0 not, 0 wrong\n", FOUND, words=("nonesuch",))
        self.planted(1, "plant-faults: there is no such test: nonesuch\n", FOUND.replace("test_one", "nonesuch"))

    def test_tests_without_end(self):
        self.planted(0, "plant-faults: no end within 1 s, which counts as found:\n", FOUND.replace("test_one", "slow"), seconds=1)


class Switched(Tried):
    """The copy with all edits behind choices."""

    def edit(self, name, number, *pairs):
        """An edit of the code."""
        path = os.path.join(self.folder, "crates", "one", "must-fail", f"{name}.edit")
        os.makedirs(os.path.dirname(path), exist_ok=True)
        with open(path, "w", encoding="utf-8") as file:
            file.write("file: src/lib.rt\n" + "".join(f"old: {old}\nnew: {new}\n" for old, new in pairs))
        edit = switched.Edit(path)
        edit.number = number
        self.assertEqual((str(edit), edit.pairs), (f"one {name}", [("src/lib.rt", old, new) for old, new in pairs]))
        return edit

    def test_words_are_no_code(self):
        code = switched.without_words(CODE)
        self.assertEqual((len(code), code.count("\n")), (len(CODE), CODE.count("\n")))
        self.assertEqual((code.count("{"), code.count("}"), code.count('"')), (5, 5, 0))

    def test_bodies(self):
        """A body begins behind the clauses; a function without one has none."""
        found = [CODE[start:end] for start, end in switched.bodies(CODE)]
        self.assertEqual(len(found), 3)
        self.assertTrue(found[0].startswith('{\n    let brace = "}";') and found[0].endswith("number + 1\n}"), found[0])
        self.assertTrue(found[1].startswith("{\n    fn within()") and found[1].endswith("within() + 1\n}"), found[1])
        self.assertEqual(found[2], "{ 3 }")

    def test_choices(self):
        """Each edit has its own body; what is outside the bodies can't be chosen."""
        edits = [self.edit("more", 4, ("number + 1", "number + 2")), self.edit("less", 9, ("number + 1", "number")),
                 self.edit("constant", 5, ("MOST: u32 = 1", "MOST: u32 = 2")), self.edit("clause", 7, ("number < 7", "number < 8"))]
        text, alone = switched.with_choices(CODE, [(edit, [pair[1:] for pair in edit.pairs]) for edit in edits])
        self.assertEqual([edit.name for edit in alone], ["constant", "clause"])
        self.assertRegex(text, r"(?s)\{ if cg_chosen::is\(4\) \{[^}]*\"\}\".*number \+ 2\n\} else if cg_chosen::is\(9\) \{.*"
                               r"    number\n\} else \{.*number \+ 1\n\} \}\n\nfn two\(\) -> u32;\n")
        self.assertIn("const MOST: u32 = 1;", text)
        self.assertIn("requires { number < 7 }", text)

    def test_an_old_text_that_stands_twice(self):
        for old in ("u32", "nonesuch"):
            with self.subTest(old=old), contextlib.redirect_stderr(io.StringIO()), self.assertRaises(SystemExit) as ended:
                switched.edited_bodies(CODE, [(old, "u64")])
            self.assertEqual(ended.exception.code, 2)

    def test_the_last_word_is_what_is_chosen(self):
        main = '\nint main(void) { for (int n = 0; n < 200; n++) if (cg_chosen_is(n)) printf("%d ", n); return 0; }\n'
        program = self.built(switched.IN_C + main)
        for words, wanted in ((["7"], b"7 "), (["9", "--workers", "12"], b"12 "), (["--workers"], b"0 "), ([], b"0 ")):
            done = subprocess.run([program, *words], capture_output=True, timeout=60, check=True)
            self.assertEqual(done.stdout, wanted, words)


if __name__ == "__main__":
    unittest.main()
