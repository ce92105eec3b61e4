"""Where the program is found, and how runs of it fail."""
from __future__ import annotations

import hashlib
import os
import subprocess
import sys
import tempfile
import unittest
from concurrent.futures import ThreadPoolExecutor
from pathlib import Path
from typing import Union
from unittest import mock

from cgcalc import (
    CgError,
    Failed,
    ProgramFailed,
    ProgramMissing,
    Reply,
    Session,
    WrongCall,
    find_program,
)
from cgcalc.version import RECORD, checksum, version_text
from tests.places import program


class FindProgram(unittest.TestCase):
    """The program is looked for in the environment, in the package, in its clone, on the path."""

    def setUp(self) -> None:
        holder = tempfile.TemporaryDirectory()
        self.addCleanup(holder.cleanup)
        self.folder = Path(holder.name).resolve()
        self.addCleanup(os.chdir, os.getcwd())
        os.chdir(self.folder)

    def made(self, *names: str) -> str:
        path = self.folder.joinpath(*names)
        path.parent.mkdir(parents=True, exist_ok=True)
        path.write_text("#!/bin/sh\n")
        path.chmod(0o755)
        return str(path)

    def found(self, **environment: str) -> str:
        package = self.folder / "clone" / "python" / "cgcalc"
        with mock.patch.dict(os.environ, {"PATH": "", "CG": "", **environment}):
            with mock.patch("cgcalc.program.__file__", str(package / "program.py")):
                return find_program()

    def test_each_place_in_its_turn(self) -> None:
        on_path = {"PATH": str(self.folder / "bin")}
        places = [("bin", "cg"), ("clone", "crates", "cg", "out", "cg")]
        for place in [*places, ("clone", "python", "cgcalc", "cg")]:
            with self.subTest(place):
                made = self.made(*place)
                self.assertEqual(self.found(**on_path), made)
        named = self.made("named")
        self.assertEqual(self.found(CG=named, **on_path), named)

    def test_nothing_is_run_from_above_the_working_directory(self) -> None:
        self.made("crates", "cg", "out", "cg")
        below = self.folder / "a" / "b"
        below.mkdir(parents=True)
        os.chdir(below)
        with self.assertRaises(ProgramMissing):
            self.found()

    def test_a_relative_name_stays_the_same_file(self) -> None:
        named = self.made("near", "it")
        self.assertEqual(self.found(CG="near/it"), named)
        os.chdir("/")
        self.assertEqual(self.found(CG="near/it"), named)

    def test_a_name_counts_from_where_the_package_was_loaded(self) -> None:
        named = self.made("near", "it")
        script = "import os, cgcalc; os.chdir('/'); print(cgcalc.find_program())"
        python = str(Path(find_program.__code__.co_filename).parents[1])
        done = subprocess.run(
            [sys.executable, "-c", script],
            capture_output=True,
            env={**os.environ, "CG": "./near/it", "PYTHONPATH": python},
            check=True,
        )
        self.assertEqual(done.stdout.decode(), f"{named}\n")

    def test_a_session_keeps_its_program(self) -> None:
        named = self.made("near", "it")
        ways: list[Union[str, Path]] = ["near/it", Path("near", "it"), named]
        for given in ways:
            self.assertEqual(Session(program=given).program, named)
        self.assertEqual(Session(program="it").program, "it")
        with mock.patch.dict(os.environ, {"PATH": os.path.dirname(named)}):
            self.assertEqual(Session(program="it").program, named)
        with self.assertRaisesRegex(WrongCall, "program is the path of one, not 3"):
            Session(program=3)  # type: ignore[arg-type]
        with ThreadPoolExecutor() as executor:
            session = Session(program="near/it", executor=executor)
        self.assertEqual(session.program, "near/it")

    def test_a_relative_folder_of_the_path(self) -> None:
        made = self.made("bin", "cg")
        self.assertEqual(self.found(PATH="bin"), made)

    def test_a_wrong_name_in_the_environment(self) -> None:
        for name, told in [("/nowhere", "/nowhere"), ("no/such", f"{self.folder}/no/such")]:
            with self.assertRaisesRegex(ProgramMissing, f"CG in the environment names {told}, "):
                self.found(CG=name)
        self.made("bin", "cg")
        with self.assertRaisesRegex(ProgramMissing, f"names {self.folder}/bin, which is no"):
            self.found(CG="./bin")

    def test_nothing_is_found(self) -> None:
        told = "the program cg isn't found: put it on the path, .*clone/python/cgcalc/cg"
        with self.assertRaisesRegex(ProgramMissing, told):
            self.found()


class Proofs(unittest.TestCase):
    """A program is known by its checksum."""

    def told(self, record: str, **named: str) -> list[str]:
        with tempfile.TemporaryDirectory() as name:
            built = Path(name) / "crates" / "cg" / "out"
            built.mkdir(parents=True)
            (built / "cg").write_text("#!/bin/sh\n")
            (built / "cg").chmod(0o755)
            (built / RECORD).write_text(record)
            module = str(Path(name) / "python" / "cgcalc" / "program.py")
            with mock.patch.dict(os.environ, {"PATH": "", "CG": "", **named}):
                with mock.patch("cgcalc.program.__file__", module):
                    return version_text("cg-shell").replace(name, "..").splitlines()

    def test_what_is_proved_and_what_is_not(self) -> None:
        digits = hashlib.sha256(b"#!/bin/sh\n").hexdigest()
        record = f"program: cg 9.8.7\ncommit: 0123\nkit: a kit\nsha256: {digits}\n\nsha256: 00\n"
        known = ["program: ../crates/cg/out/cg", f"sha256: {digits}"]
        unknown = "unknown program: no record of a proof has its checksum"
        proved = "proved: cg 9.8.7 by a kit, commit 0123"
        self.assertEqual(self.told(record)[1:], [*known, proved])
        for other in (record.replace(digits, digits[:-1]), "", f"\n\n{record}", "\0"):
            self.assertEqual(self.told(other)[1:], [*known, unknown])
        self.assertEqual(self.told(record, CG="/bin/true")[3], unknown)

    def test_there_is_none(self) -> None:
        self.assertRegex(self.told("", CG="/nowhere")[1], "^program: none; CG .* names /nowhere,")

    def test_a_changed_file_has_another_checksum(self) -> None:
        with tempfile.TemporaryDirectory() as name:
            path = Path(name, "file")
            for text in ("a", "bc"):
                path.write_text(text)
                self.assertEqual(checksum(str(path)), hashlib.sha256(text.encode()).hexdigest())


class Failures(unittest.TestCase):
    """Runs that give no answers."""

    def failed(self, script: str, question: str = "value 1") -> Reply:
        with tempfile.TemporaryDirectory() as folder:
            (reply,) = Session(program=program(Path(folder), script)).ask([question])
        return reply

    def test_each_status_has_its_meaning(self) -> None:
        words = {
            2: "words of the command line aren't accepted",
            3: "reading the input failed",
            4: "writing the output failed",
            5: "memory was wanting",
            6: "too long",
            7: "couldn't be got",
            99: "doesn't have",
        }
        for status, meaning in words.items():
            failed = self.failed(f"exit {status}")
            self.assertEqual(failed, Failed(status))
            assert isinstance(failed, Failed)
            self.assertRegex(failed.explain(), f"^cg ended with status {status}: .*{meaning}")

    def test_a_signal(self) -> None:
        failed = self.failed("kill -9 $$")
        assert isinstance(failed, Failed)
        self.assertEqual(failed.explain(), "cg was ended by signal 9")

    def test_the_last_line_of_standard_error_is_told(self) -> None:
        failed = self.failed("echo first >&2; echo last >&2; exit 5")
        assert isinstance(failed, Failed)
        self.assertEqual(failed.explain(), "cg ended with status 5: memory was wanting (last)")

    def test_a_session_that_is_too_long(self) -> None:
        failed = self.failed('exec "$REAL" "$@"', "value " + " " * 1_048_576 + "1")
        self.assertEqual(failed, Failed(6))

    def test_a_definition_that_fails(self) -> None:
        with tempfile.TemporaryDirectory() as folder:
            session = Session(program=program(Path(folder), "exit 5"))
            with self.assertRaises(ProgramFailed) as caught:
                session.define("g", "1")
        self.assertEqual((caught.exception.status, session.definitions), (5, {}))

    def test_another_program(self) -> None:
        for script, question, told in [
            ("exec cat", "value 1", "no answers to 1 lines: is it cg"),
            ("echo no GLIBC_9 >&2; exit 1", "value 1", r"1 lines \(no GLIBC_9\): is it cg"),
            ("echo 2: 3/0", "mean 1", "is no reply: '3/0'"),
        ]:
            with self.assertRaisesRegex(CgError, told):
                self.failed(script, question)

    def test_a_file_that_is_no_program(self) -> None:
        with tempfile.TemporaryDirectory() as folder:
            path = Path(folder, "broken")
            path.write_bytes(b"\x7fELF")
            path.chmod(0o755)
            for memory in (None, 1 << 30):
                with self.assertRaisesRegex(CgError, "broken can't be run: "):
                    Session(program=str(path), memory=memory).ask(["value 1"])
