"""The theory, a certificate of many kinds of questions, and certificates with a planted fault."""
from __future__ import annotations

import re
import shutil
import tempfile
import unittest
from concurrent.futures import Future, ThreadPoolExecutor
from pathlib import Path
from typing import ClassVar

from cgcalc.certify_coq import CLOSED, FORMAL, Coq, NotAccepted, check_text, compiled, files_of
from cgcalc.certify_files import file_text
from cgcalc.certify_questions import certificate_of
from cgcalc.session import Session

STRIP = 'Strip(".=1,0,0;A=0,0,0;L:..>AA;R:...>AAA","....")'
QUESTIONS = [
    'value Domineering("...|...")',
    'value Domineering("....|.#..|....") + ^',
    'value Clobber("xox|oxo") - 1/2',
    'value Toads("TT..FF")',
    f"value {STRIP}",
    "value 3.{2|-1} - {4||2|0} + *3",
    "value {2^|-1/4,*} + Tiny(1) + v3*",
    "compare ^ ; *",
    'compare Domineering("..|..") ; 2',
    "outcome {1|-1} - 1",
    "outcome 1/2 - 1",
    "outcome 2.^ - *",
    "proof ^^ ; *",
    "proof * ; 0",
]
SMALL = ['value Domineering("...|...") + *', 'compare Toads("TT.FF") ; 0']
THEOREMS = {
    "Order": ["leb_right", "le_conway", "le_difference", "equal_plus", "equal_options"],
    "Unique": ["canonical_unique", "means_unique"],
    "Dominoes": ["pieces_right"],
    "Empties": ["board_plays"],
    "Certified": ["first_fault_right", "answer"],
}
UNPROVED = re.compile(r"\b(Admitted|admit|Axiom|Parameter|Conjecture|Hypotheses|Unset Guard)\b")
MOST_BELIEVED = 300


def changed(folder: Path, name: str, old: str, new: str) -> Path:
    """A copy of the theory in which a text is replaced in one place."""
    shutil.copytree(FORMAL, folder, ignore=shutil.ignore_patterns("*.vo*", "*.glob", ".*", "tests"))
    text = (folder / name).read_text(encoding="utf-8")
    if text.count(old) != 1:
        raise AssertionError(f"{old!r} stands {text.count(old)} times in {name}")
    (folder / name).write_text(text.replace(old, new), encoding="utf-8")
    return folder


class Formal(unittest.TestCase):
    """What Coq accepts, and what it doesn't."""

    place: ClassVar[tempfile.TemporaryDirectory[str]]
    pool: ClassVar[ThreadPoolExecutor]
    coq: ClassVar[Coq]
    without_jump: ClassVar[Future[Coq]]
    small: ClassVar[str]

    @classmethod
    def setUpClass(cls) -> None:
        cls.place = tempfile.TemporaryDirectory()
        cls.pool = ThreadPoolExecutor(2)
        here = Path(cls.place.name)
        faulty = changed(here / "faulty", "Boards.v", '; ("TF.", ".FT")', "")
        cls.without_jump = cls.pool.submit(compiled, faulty, here / "cache")
        cls.coq = compiled(FORMAL, here / "cache")
        cls.small = file_text(certificate_of(SMALL, Session()))

    @classmethod
    def tearDownClass(cls) -> None:
        cls.pool.shutdown()
        cls.place.cleanup()

    def test_many_kinds_of_questions(self) -> None:
        told = check_text(file_text(certificate_of(QUESTIONS, Session())), self.coq)
        self.assertEqual(told.strip(), CLOSED)

    def test_nothing_is_assumed(self) -> None:
        names = [f"{file}.{name}" for file, names in THEOREMS.items() for name in names]
        lines = [f"Print Assumptions {name}." for name in names]
        told = check_text("\n".join([f"From CG Require {' '.join(THEOREMS)}.", *lines]), self.coq)
        self.assertEqual(told.split("\n"), [CLOSED] * len(names) + [""])

    def test_no_word_that_leaves_a_proof_out(self) -> None:
        files = files_of(FORMAL)
        self.assertEqual(sorted(files), sorted(path.name for path in FORMAL.glob("*.v")))
        for name in files:
            self.assertIsNone(UNPROVED.search((FORMAL / name).read_text(encoding="utf-8")), name)

    def test_what_has_to_be_believed_is_short(self) -> None:
        lines = 0
        for name in ("Games.v", "Boards.v", "Values.v"):
            text = (FORMAL / name).read_text(encoding="utf-8")
            self.assertNotRegex(text, r"(?m)^ *(Proof|Lemma|Theorem)\b")
            lines += len(text.splitlines())
        self.assertLessEqual(lines, MOST_BELIEVED)

    def refused(self, old: str, new: str, why: str) -> None:
        """A file with a planted fault is refused, and the message says why."""
        self.assertEqual(self.small.count(old), 1, old)
        with self.assertRaisesRegex(NotAccepted, why):
            check_text(self.small.replace(old, new), self.coq)

    def test_the_file_without_a_fault(self) -> None:
        self.assertEqual(check_text(self.small, self.coq).strip(), CLOSED)

    def test_exchanged_options(self) -> None:
        self.refused("([], [1]);", "([1], []);", "^row [0-9]+ of value_rows is no canonical form: ")

    def test_a_wrong_value_of_a_position(self) -> None:
        self.refused("(0x7, 3)", "(0x7, 2)", r"^row 3 of domineering_rows is wrong: \(0x7, 2\)$")

    def test_a_missing_position(self) -> None:
        self.refused("(0x3, 1);\n", "", r"^row 3 of domineering_rows is wrong: \(0x1f, 4\)$")

    def test_a_wrong_value_in_the_answer(self) -> None:
        old = self.small[self.small.index("Has_value") : self.small.index(";\n    Compares")]
        self.refused(old, old.replace("{2 + ∗", "{1 + ∗"), r"^row 1 of questions doesn't follow: ")

    def test_another_theorem_than_was_asked(self) -> None:
        start, end = map(self.small.index, ("Theorem answer_2", "answer _ _ _ checked 1"))
        old = self.small[start:end]
        self.refused(old, old.replace("∥", "=="), r"^Coq doesn't accept the file: ")

    def test_a_wrong_order(self) -> None:
        self.refused("Is_confused", "Is_less", r"^row 2 of questions doesn't follow: ")

    def test_a_ragged_text(self) -> None:
        text = self.small.replace('Domineering("...|...")', 'Domineering("...|..")')
        with self.assertRaisesRegex(NotAccepted, "^row 1 of questions doesn't follow: "):
            check_text(text, self.coq)

    def test_rules_that_leave_a_move_out(self) -> None:
        coq = self.without_jump.result()
        with self.assertRaisesRegex(NotAccepted, "^row [0-9]+ of toads_rows is wrong: "):
            check_text(self.small, coq)

    def test_rules_of_a_strip_that_leave_a_move_out(self) -> None:
        text = file_text(certificate_of([f"value {STRIP}"], Session()))
        check_text(text, self.coq)
        with self.assertRaisesRegex(NotAccepted, "^row 1 of strip_rows is wrong: "):
            check_text(text.replace(";R:...>AAA", ""), self.coq)


if __name__ == "__main__":
    unittest.main()
