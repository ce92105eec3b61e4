"""The package is built, installed and imported in a fresh environment, with nothing fetched."""
from __future__ import annotations

import shutil
import subprocess
import sys
import tarfile
import tempfile
import unittest
import venv
import zipfile
from importlib.util import find_spec
from pathlib import Path
from typing import Optional

import cgcalc
from cgcalc import find_program
from cgcalc.version import VERSION, checksum, proof_text
from tests.places import ROOT, environment

NEEDED = ("ensurepip", "setuptools", "wheel")
MISSING = [name for name in NEEDED if find_spec(name) is None]
COMMANDS = ("cg-plot", "cg-shell", "cg-table")
OFFLINE = ["--quiet", "--no-index", "--no-deps", "--no-build-isolation"]
IMPORTED = """
import cgcalc
print(cgcalc.__version__, cgcalc.__file__)
print(cgcalc.domineering("...|...").value, cgcalc.Game("{2|-1}") + 1 == cgcalc.Game("{3|0}"))
"""


@unittest.skipIf(MISSING, f"this Python has no {', '.join(MISSING)}")
class Installing(unittest.TestCase):
    """As a new user does it, from a copy of python/."""

    folder: Path
    bin: Path

    @classmethod
    def setUpClass(cls) -> None:
        holder = tempfile.TemporaryDirectory()
        cls.addClassCleanup(holder.cleanup)
        cls.folder = Path(holder.name).resolve()
        left_out = shutil.ignore_patterns("tests", "__pycache__", "build", "*.egg-info")
        shutil.copytree(ROOT / "python", cls.folder / "python", ignore=left_out)
        venv.create(cls.folder / "venv", with_pip=True, system_site_packages=True, symlinks=True)
        cls.bin = cls.folder / "venv" / "bin"

    def run_there(self, *words: str, typed: Optional[str] = None) -> str:
        """What a command of the environment prints."""
        done = subprocess.run(
            [str(self.bin / words[0]), *words[1:]],
            input=(typed or "").encode(),
            capture_output=True,
            cwd=self.folder,
            env=environment(PYTHONPATH="", PIP_DISABLE_PIP_VERSION_CHECK="1"),
            timeout=300,
            check=False,
        )
        self.assertEqual(done.returncode, 0, done.stdout.decode() + done.stderr.decode())
        return done.stdout.decode()

    def pip(self, *words: str) -> None:
        """Runs the environment's pip."""
        self.run_there("python", "-m", "pip", *words)

    def imported(self) -> str:
        """Where the package is imported from, which answers there."""
        told, answers = self.run_there("python", "-c", IMPORTED).splitlines()
        version, _, place = told.partition(" ")
        self.assertEqual((version, answers), (VERSION, "{2|-1/2} True"))
        return place

    def test_it_is_built_and_installed(self) -> None:
        self.pip("wheel", *OFFLINE, "--wheel-dir", "wheels", "./python")
        (wheel,) = (self.folder / "wheels").iterdir()
        self.assertEqual(wheel.name, f"cgcalc-{VERSION}-py3-none-any.whl")
        with zipfile.ZipFile(wheel) as archive:
            names = archive.namelist()
            metadata = archive.read(f"cgcalc-{VERSION}.dist-info/METADATA").decode()
        packed = sorted(name for name in names if name.startswith("cgcalc/"))
        python = self.folder / "python"
        sources = (path for path in (python / "cgcalc").rglob("*") if path.is_file())
        self.assertEqual(packed, sorted(str(path.relative_to(python)) for path in sources))
        self.assertIn("cgcalc/py.typed", packed)
        for licence in ("LICENSE-APACHE", "LICENSE-MIT"):
            self.assertTrue(any(name.endswith(licence) for name in names), licence)
            copy = (ROOT / "python" / licence).read_bytes()
            self.assertEqual(copy, (ROOT / licence).read_bytes())
        for line in (
            f"Version: {VERSION}",
            "Author: the authors of cg",
            "License: MIT OR Apache-2.0",
            "Requires-Python: >=3.9",
            "Classifier: Typing :: Typed",
        ):
            self.assertIn(f"{line}\n", metadata)
        self.assertNotRegex(metadata, "(?m)^Requires-Dist: (?!.*; extra ==)")

        self.pip("install", *OFFLINE, str(wheel))
        self.assertTrue(self.imported().startswith(str(self.folder / "venv")))
        for command in COMMANDS:
            told = self.run_there(command, "--version").splitlines()
            self.assertEqual(told[0], f"{command} (cgcalc) {VERSION}")
            program = find_program()
            self.assertEqual(told[1:3], [f"program: {program}", f"sha256: {checksum(program)}"])
            self.assertIn(told[3], (proof_text(program), UNKNOWN))
        self.assertEqual(self.run_there("cg-shell", typed="value {2,1|0}\n"), "{2|0}\n")
        self.assertEqual(self.run_there("cg-table", "mean {columns}", "--columns", "2"), TABLE)
        self.assertIn("</svg>", self.run_there("cg-plot", "{2|0}"))
        self.pip("uninstall", "--quiet", "--yes", "cgcalc")

        self.pip("install", *OFFLINE, "-e", "./python")
        self.assertTrue(self.imported().startswith(str(self.folder / "python" / "cgcalc")))
        self.assertEqual(self.run_there("cg-shell", typed="value {2,1|0}\n"), "{2|0}\n")

    def test_the_archive_of_sources(self) -> None:
        script = "from setuptools.build_meta import build_sdist; print(build_sdist('..'))"
        done = subprocess.run(
            [sys.executable, "-c", script],
            capture_output=True,
            cwd=self.folder / "python",
            env=environment(PYTHONPATH=""),
            timeout=300,
            check=True,
        )
        name = done.stdout.decode().splitlines()[-1]
        with tarfile.open(self.folder / name) as archive:
            names = archive.getnames()
        for path in ("pyproject.toml", "README.md", "LICENSE-MIT", "cgcalc/session.py"):
            self.assertIn(f"cgcalc-{VERSION}/{path}", names)


UNKNOWN = "unknown program: no record of a proof has its checksum"
TABLE = "columns\tmean\n2\t2\n"


class Version(unittest.TestCase):
    """The version is told once."""

    def test_the_version(self) -> None:
        self.assertEqual(cgcalc.__version__, VERSION)
        self.assertRegex(VERSION, r"^[0-9]+\.[0-9]+\.[0-9]+$")
        self.assertEqual((ROOT / "python/cgcalc/VERSION").read_text(), f"{VERSION}\n")
