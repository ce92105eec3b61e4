"""The list of planted faults fits the files that it names."""
from __future__ import annotations

from pathlib import Path

import pytest

from tests.faults import Fault, read_faults

PACKAGE = Path(__file__).parents[1] / "cgcalc"
FAULTS = read_faults()


def test_there_are_many() -> None:
    assert len(FAULTS) >= 60
    for file in ("batch", "runs", "part_file", "session", "game", "latex"):
        assert sum(fault.file == f"{file}.py" for fault in FAULTS) >= 3


@pytest.mark.parametrize("fault", FAULTS, ids=lambda fault: f"{fault.file}: {fault.old}")
def test_a_fault_fits(fault: Fault) -> None:
    lines = (PACKAGE / fault.file).read_text(encoding="utf-8").split("\n")
    fitting = [line for line in lines if line.strip() == fault.old]
    assert len(fitting) == 1
    assert fault.tests and fault.old != fault.new
