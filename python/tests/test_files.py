"""Files that the commands write: only a regular file is replaced, and none is seen half written."""
from __future__ import annotations

import os
import subprocess
import threading
from pathlib import Path
from unittest import mock

import pytest

from cgcalc.files import is_special, write_whole
from tests.places import command, environment, run


def plot(path: Path) -> None:
    """Draws a picture to a path."""
    assert run("cg-plot", ["{2|0}", "-o", str(path)]) == (0, "", "")


def test_a_device_stays_one(tmp_path: Path) -> None:
    device = tmp_path / "null"
    try:
        os.mknod(device, 0o020666, os.stat("/dev/null").st_rdev)
    except OSError:
        device = Path("/dev/null")  # only root makes devices, and nobody else can replace this one
    plot(device)
    assert device.is_char_device() and is_special(device)
    table = ["value {columns}", "--columns", "1-3", "--output", str(device)]
    assert run("cg-table", table) == (0, "", "")
    assert device.is_char_device()
    assert [path.name for path in tmp_path.iterdir() if path != device] == []


def test_a_link_stays_one_and_its_file_is_replaced(tmp_path: Path) -> None:
    (tmp_path / "far").mkdir()
    for name in ("there", "new"):
        (tmp_path / name).symlink_to(Path("far", name))
    (tmp_path / "far" / "there").write_text("old")
    (tmp_path / "far" / "there").chmod(0o640)
    for name in ("there", "new"):
        plot(tmp_path / name)
        assert (tmp_path / name).is_symlink()
        assert (tmp_path / "far" / name).read_text().startswith("<svg")
    assert (tmp_path / "far" / "there").stat().st_mode & 0o777 == 0o640
    assert sorted(os.listdir(tmp_path / "far")) == ["new", "there"]


def test_a_pipe_with_a_name_is_written_to(tmp_path: Path) -> None:
    pipe = tmp_path / "pipe"
    os.mkfifo(pipe)
    read: list[str] = []
    reader = threading.Thread(target=lambda: read.append(pipe.read_text()), daemon=True)
    reader.start()
    plot(pipe)
    reader.join(60)
    assert pipe.is_fifo() and read[0].startswith("<svg")


@pytest.mark.parametrize("append", [False, True])
def test_standard_output_by_its_name(tmp_path: Path, append: bool) -> None:
    path = tmp_path / "out"
    path.write_text("before\n")
    with open(path, "ab" if append else "wb") as file:
        words = [*command("cg-plot"), "{2|0}", "-o", "/dev/stdout"]
        subprocess.run(words, stdout=file, env=environment(), timeout=300, check=True)
    written = path.read_text()
    assert written.removeprefix("before\n").startswith("<svg")
    assert written.startswith("before\n") is append
    piped = subprocess.run(words, stdout=subprocess.PIPE, env=environment(), check=True)
    assert piped.stdout.decode() == written.removeprefix("before\n")


def test_files_are_on_the_disk_before_they_take_their_name(tmp_path: Path) -> None:
    calls = mock.Mock()
    with mock.patch("os.fsync", calls.sync), mock.patch("os.replace", calls.place):
        write_whole(tmp_path / "table", b"text")
    assert [call[0] for call in calls.mock_calls] == ["sync", "place", "sync"]


def test_nothing_is_left_where_writing_fails(tmp_path: Path) -> None:
    (tmp_path / "table").write_bytes(b"old")
    with mock.patch("os.replace", side_effect=OSError), pytest.raises(OSError):
        write_whole(tmp_path / "table", b"new")
    assert os.listdir(tmp_path) == ["table"] and (tmp_path / "table").read_bytes() == b"old"
