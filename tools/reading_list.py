"""The files of definitions that a contract rests on, found by following names from the contract through specs/.

A file is on the list where a definition in it is used by the contract, or by a definition that is. Definitions are taken by
paragraphs: what stands between two blank lines. What the kit defines, what code declares (as an enum or a struct) and what
proofs define is followed no further.
"""
import os
import re

from command import ROOT

THEOREM = (
    ("`run`", "crates/cg_session/src/session.rt", "pub fn run<"),
    ("`law_steps::steps`", "crates/cg_cells/src/law_steps.rt", "pub fn steps<"),
    ("the rule `Kept`", "crates/cg_shared/src/plays.rt", "impl<F: Facts> TableRule"),
    ("`Pass::same`", "crates/cg_shared/src/pass.rt", "pub fn same("),
    ("`cg_canon::equal`", "crates/cg_canon/src/equality.rt", "pub fn equal<"),
    ("`l1`", "crates/cg_form/src/laws.rt", "pub fn l1("),
)
"""What states the theorem: each as docs/PROOF.md calls it, its file, and how its contract begins there."""
IMPORT = re.compile(r"\s*(?:pub |ghost )*use Rattle\.(cg\w*)\.specs\.([\w.]+?)(?:\.\{([^}]*)\})?(?: as ([\w']+))?;?\s*$")
HEAD = re.compile(r"\s*((?:(?:pub|abbrev|unfoldable|mutual|data|record) +)*)([\w◌][^\s:(){},;]*)(?= *[:({]| +where)")
END = re.compile(r"\n *\{|\n\}")
WORD = re.compile(r"[^\s(){},;λ]+")


def parsed(text):
    """The imports of a text, each name with the file and the name that it stands for there (None for a whole file), and the
    paragraphs without them and without comments."""
    imports, paragraphs, paragraph = {}, [], []
    for line in text.split("\n"):
        found = IMPORT.match(line)
        if found:
            crate, module, names, alias = found.groups()
            path = f"crates/{crate}/specs/{module.replace('.', '/')}.antt"
            if alias:
                imports[alias] = (path, None)
            for name in re.split(r",\s*", names or ""):
                own, _, other = name.partition(" as ")
                imports[other or own] = (path, own)
        elif not line.strip():
            paragraphs.append(paragraph)
            paragraph = []
        elif not line.lstrip().startswith("--"):
            paragraph.append(line)
    return imports, [lines for lines in paragraphs + [paragraph] if lines]


def heads(lines):
    """The names that a paragraph defines, those of a record without its fields: each stands behind a mark or before a colon."""
    found = filter(None, map(HEAD.match, lines))
    names = [head[2] for head in found if head[1] or head.string[head.end():].startswith(" :")]
    return names[:1] if lines and "record" in lines[0].split() else names


def words_of(lines):
    return {word for line in lines for word in WORD.findall(line)}


class Spec:
    """A file of specs/: what names stand for in it, and for each name that it defines the words of its paragraphs."""

    def __init__(self, path):
        with open(os.path.join(ROOT, path), encoding="utf-8") as file:
            self.imports, paragraphs = parsed(file.read())
        self.words = {}
        module = set()
        for lines in paragraphs:
            words = words_of(lines)
            if lines[0].lstrip().startswith("module"):
                end = next(at for at, line in enumerate(lines, 1) if line.endswith("where"))
                module = words_of(lines[:end])
                lines = lines[end:]
                words = words_of(lines)
            for name in heads(lines):
                self.words.setdefault(name, set()).update(words | module if lines[0].startswith(" ") else words)

    def used(self, name):
        """What the definition of a name uses, in this file and in others."""
        for word in self.words[name]:
            yield from resolved(word, self.imports)
            if word in self.words:
                yield None, word


def resolved(word, imports):
    """What a word stands for: with points in it, the name of a file and one that it defines, or a name and its fields."""
    first, _, rest = word.partition(".")
    if first in imports:
        path, name = imports[first]
        yield path, name or rest.partition(".")[0]


def files_below(path, contract):
    """The files that a contract rests on: that of the function with this head in the file of code, or what an impl says."""
    with open(os.path.join(ROOT, path), encoding="utf-8") as file:
        text = file.read()
    imports, _ = parsed(text)
    start = text.index(contract)
    words = words_of([text[start:END.search(text, start).start()]])
    waiting = [use for word in words for use in resolved(word, imports)]
    specs, seen = {}, set()
    while waiting:
        use = waiting.pop()
        if use in seen or not os.path.exists(os.path.join(ROOT, use[0])):
            continue
        seen.add(use)
        here = use[0]
        spec = specs.setdefault(here, None) or Spec(here)
        specs[here] = spec
        if use[1] not in spec.words:
            continue
        waiting += [(other or here, name) for other, name in spec.used(use[1])]
    return sorted({here for here, name in seen if name in specs[here].words})
