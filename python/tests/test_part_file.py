"""What is kept of a table that isn't whole: full disks, two commands at once, failed questions."""
from __future__ import annotations

import io
import subprocess
from pathlib import Path
from typing import Any

import pytest

from cgcalc import Value
from cgcalc.part_file import PartFile
from cgcalc.questions import Entry
from tests.places import command, environment, program, run, waits

WORDS = ["mean {columns}/2", "--columns", "1-5"]
HEADER = "cg-table --share 1048576 --positions 65536\n"
FIRST = "mean 1/2\t1/2\n"
WHOLE = "columns\tmean\n1\t1/2\n2\t1\n3\t3/2\n4\t2\n5\t5/2\n"
FAILS = 'cat > "$0.$$"; if grep -q "mean 3/2$" "$0.$$"; then exit 5; fi'
FAILS += '; exec "$REAL" "$@" < "$0.$$"'


@pytest.fixture(name="table")
def fixture_table(tmp_path: Path) -> Path:
    """Where the table goes."""
    return tmp_path / "table"


def part_of(table: Path) -> Path:
    """What is kept beside it."""
    return table.with_name("table.part")


@pytest.mark.parametrize("kept", ["", "cg-table --sha", HEADER, HEADER + "mean 1/"])
@pytest.mark.parametrize("option", ["--output", "--resume"])
def test_a_part_without_replies_is_begun_anew(table: Path, option: str, kept: str) -> None:
    part_of(table).write_text(kept)
    assert run("cg-table", [*WORDS, option, str(table)]) == (0, "", "")
    assert table.read_text() == WHOLE and not part_of(table).exists()


def test_a_part_with_replies_is_not_lost(table: Path) -> None:
    part_of(table).write_text(HEADER + FIRST)
    status, _, told = run("cg-table", [*WORDS, "--output", str(table)])
    assert status == 2 and "go on with --resume" in told
    assert part_of(table).read_text() == HEADER + FIRST
    wrong = FIRST.replace("\t1/2", "\t1/4")  # what is kept isn't asked again
    part_of(table).write_text(HEADER + wrong)
    assert run("cg-table", [*WORDS, "--resume", str(table)]) == (0, "", "")
    assert table.read_text() == WHOLE.replace("1\t1/2", "1\t1/4", 1)


def test_two_commands_do_not_work_at_once(table: Path) -> None:
    slow = {"CG": program(table.parent, 'touch "$0.began"; sleep 1000')}
    words = [*command("cg-table"), *WORDS, "--resume", str(table)]
    with subprocess.Popen(words, env=environment(**slow), stderr=subprocess.DEVNULL) as first:
        assert waits((table.parent / "program.began").exists)
        for option in ("--resume", "--output"):
            status, _, told = run("cg-table", [*WORDS, option, str(table)])
            assert status == 2 and f"another cg-table writes {part_of(table)} now" in told
        first.terminate()
    assert run("cg-table", [*WORDS, "--resume", str(table)]) == (0, "", "")


def test_failed_questions_are_asked_again(table: Path) -> None:
    failing = {"CG": program(table.parent, FAILS)}
    words = [*WORDS, "--keep-going"]
    status, _, told = run("cg-table", [*words, "--output", str(table)], changes=failing)
    assert status == 5 and f"--resume {table} --retry-failed asks again what failed" in told
    assert table.read_text() == WHOLE.replace("\t3/2", "\t! failed 5")
    resume = [*words, "--resume", str(table)]
    assert run("cg-table", resume)[0] == 5
    assert run("cg-table", [*resume, "--retry-failed"], changes=failing)[0] == 5
    assert run("cg-table", [*resume, "--retry-failed"]) == (0, "", "")
    assert table.read_text() == WHOLE and not part_of(table).exists()
    status, _, told = run("cg-table", [*words, "--retry-failed"])
    assert (status, told) == (2, "cg-table: --retry-failed goes with --resume\n")


def test_a_reply_that_was_asked_again_is_kept(table: Path) -> None:
    failed = "mean 2/2\t! failed 9\n"
    part_of(table).write_text(HEADER + FIRST + failed + "# 1\t1\n")
    assert run("cg-table", [*WORDS, "--resume", str(table)]) == (0, "", "")
    assert table.read_text() == WHOLE
    for wrong in ("# 1\tx\n", "# 7\t1\n", "# x\t1\n"):
        table.unlink(missing_ok=True)
        part_of(table).write_text(HEADER + FIRST + failed + wrong)
        status, _, told = run("cg-table", [*WORDS, "--resume", str(table)])
        assert status == 2 and "is spoilt" in told


class Short(io.FileIO):
    """A file that takes three bytes at a time."""

    def write(self, written: Any) -> int:
        """Writes what it takes."""
        return super().write(bytes(written)[:3])


def test_a_line_of_which_the_disk_takes_a_part_is_written_whole(table: Path) -> None:
    part = PartFile(table, "--share 1")
    part.begin()
    part.close()
    part._file = Short(part_of(table), "ab")
    part.add(Entry(["1"], "value 1"), Value("1"))
    part.add(Entry(["2"], "value 2"), Value("2"))
    part.close()
    assert part_of(table).read_text() == "cg-table --share 1\nvalue 1\t1\nvalue 2\t2\n"


FULL_DISK = """
mount -t tmpfs -o size=16k,mode=777 none "$0" || exit 99
"$@"; echo $?
cp "$0/table.part" "$0.kept"
"""
"""What is run where a folder is a disk of four pages of memory, and what is left of it."""


@pytest.mark.parametrize("count", [700, 3_000])
def test_a_full_disk(tmp_path: Path, count: int) -> None:
    """The smaller table is full when the whole is written, the larger one before."""
    folder = tmp_path / "disk"
    folder.mkdir()
    table = folder / "table"
    words = ["value {columns}", "--columns", f"1-{count}", "--share", "9"]
    mounted = ["unshare", "--mount", "--map-root-user", "sh", "-c", FULL_DISK, str(folder)]
    done = subprocess.run(
        [*mounted, *command("cg-table"), *words, "--output", str(table)],
        env=environment(),
        capture_output=True,
        timeout=300,
        check=False,
    )
    told = done.stderr.decode()
    assert done.stdout == b"4\n", told
    assert "writing failed: No space left on device, after " in told
    assert f" of {count} questions; --resume {table} goes on from there" in told
    assert (f"after {count} of" in told) == (count == 700)
    part_of(table).write_bytes(Path(f"{folder}.kept").read_bytes())
    assert run("cg-table", [*words, "--resume", str(table)]) == (0, "", "")
    wanted = "".join(f"{number}\t{number}\n" for number in range(1, count + 1))
    assert table.read_text() == "columns\tvalue\n" + wanted
