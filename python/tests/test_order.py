"""In which order a batch asks: the line that is wanted next first, and equal lines once."""
from __future__ import annotations

from pathlib import Path

from cgcalc import Session, Value
from tests.places import program

NOTE = 'cat > "$0.$$"; grep -h "^value" "$0.$$" >> "$0.lines"; exec "$REAL" "$@" < "$0.$$"'


def noting(folder: Path, **limits: int) -> Session:
    """A session whose runs write down their questions."""
    return Session(program=program(folder, NOTE), **limits)  # type: ignore[arg-type]


def asked(folder: Path) -> list[str]:
    """The questions of the runs, in their order."""
    return (folder / "program.lines").read_text().splitlines()


def test_equal_lines_are_asked_once(tmp_path: Path) -> None:
    lines = [f"value {number % 7}" for number in range(3_000)]
    session = noting(tmp_path, processes=2)
    with session.replies(lines) as replies:
        got = list(replies)
        assert replies.done == replies.total == 3_000
    assert got == [Value(str(number % 7)) for number in range(3_000)]
    assert sorted(asked(tmp_path)) == sorted(lines[:7])


def test_the_line_that_is_wanted_next_goes_before_others_at_high_shares(tmp_path: Path) -> None:
    """The first line is full twice, and many others once: it doesn't wait for them."""
    first = 'value Domineering("....|....|....|....")'
    others = [f'value Domineering("....|....|...#") + {number}' for number in range(600)]
    session = noting(tmp_path, share=65_536, cells=131_072, processes=1)
    with session.replies([first, *others]) as replies:
        next(replies)
        lines = asked(tmp_path)
    at = [number for number, line in enumerate(lines) if line == first]
    behind = lines[at[0] + 64 : at[-1]]
    assert len(at) >= 2 and len(behind) < 200, (at, len(lines))


def test_few_lines_are_begun_beyond_one_that_takes_long(tmp_path: Path) -> None:
    script = 'cat > "$0.$$"; echo >> "$0.runs"; grep -q "value 0$" "$0.$$" && sleep 3'
    slow = program(tmp_path, script + '; exec "$REAL" "$@" < "$0.$$"')
    session = Session(share=10, cells=10, processes=2, program=slow)
    with session.replies(f"value {number}" for number in range(100)) as replies:
        assert next(replies) == Value("0")
        assert len((tmp_path / "program.runs").read_text()) <= 6
