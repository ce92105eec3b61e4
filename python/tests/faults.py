"""The faults that tools/plant-faults plants, as faults.txt lists them."""
from __future__ import annotations

from dataclasses import dataclass
from pathlib import Path

LIST = Path(__file__).with_name("faults.txt")


@dataclass(frozen=True)
class Fault:
    """A line of a file of the package with a wrong one in its place, and what must find that."""

    file: str
    tests: list[str]
    old: str
    new: str
    explained: str
    text: str


def read_faults() -> list[Fault]:
    """The faults of the list."""
    paragraphs = LIST.read_text(encoding="utf-8").split("\n\n")
    return [read_fault(text) for text in paragraphs if not text.startswith("#")]


def read_fault(text: str) -> Fault:
    """A fault of the list, by its paragraph."""
    head, old, new, *explained = text.strip("\n").split("\n")
    file, *tests = head.split(" ")
    said = [line.removeprefix("explained: ") for line in explained]
    return Fault(file, tests, old.removeprefix("- "), new.removeprefix("+ "), " ".join(said), text)
