"""What no package is made of: one sentence tells why, and nothing is written. And what a record of a proof has."""
import hashlib
import importlib.util
import os
import shutil
import subprocess
import sys
import tempfile
import unittest
from importlib.machinery import SourceFileLoader
from unittest import mock

TOOLS = os.path.dirname(os.path.dirname(os.path.abspath(__file__)))
sys.path.insert(0, TOOLS)

from release import Unfit, completions, manuals  # noqa: E402
from release.commands import manual_maker, program_parser  # noqa: E402
from release.place import left  # noqa: E402
from release.record import fields, verdict  # noqa: E402
from release.steps import glibc_of, trusted  # noqa: E402

ROOT = os.path.dirname(TOOLS)
LOG = """== cg_session
logic=proved functions=9 sum=ff
rt: cg_session proved
== cg
logic=proved functions=2 axioms=13
rt: cg proved
rt: ok; handles allowed: Threads, Wait
249 passed, 0 failed
"""


class Clone(unittest.TestCase):
    """A small clone with a program and a kit that stand in for the real ones."""

    def setUp(self):
        holder = tempfile.TemporaryDirectory()
        self.addCleanup(holder.cleanup)
        self.top = os.path.join(holder.name, "clone")
        self.bin = os.path.join(holder.name, "bin")
        shutil.copytree(TOOLS, os.path.join(self.top, "tools"), ignore=shutil.ignore_patterns("__pycache__", "tests", "reference"))
        self.write("python/cgcalc/VERSION", "1.2.3\n")
        self.write(".gitignore", "out/\n/dist/\n__pycache__/\n")
        self.write("crates/cg/out/cg", "#!/bin/sh\n", 0o755)
        self.write("../bin/rt", "#!/bin/sh\necho a kit\n", 0o755)
        self.write("../log", LOG)
        self.git("init", "--quiet")
        self.commit()

    def write(self, name, text, mode=0o644):
        path = os.path.join(self.top, name)
        os.makedirs(os.path.dirname(path), exist_ok=True)
        with open(path, "w", encoding="utf-8") as file:
            file.write(text)
        os.chmod(path, mode)

    def git(self, *words):
        who = ["-c", "user.name=A", "-c", "user.email=a@b.example", "-c", "commit.gpgsign=false"]
        subprocess.run(["git", *who, *words], cwd=self.top, check=True, capture_output=True)

    def commit(self):
        self.git("add", "--all")
        self.git("commit", "--quiet", "--allow-empty", "-m", "all")

    def ran(self, tool, *words, path=None):
        """The status of a tool and what it writes."""
        environment = dict(os.environ, PATH=path or f"{self.bin}:{os.environ['PATH']}", PYTHONDONTWRITEBYTECODE="1")
        command = [sys.executable, os.path.join(self.top, "tools", tool), *words]
        done = subprocess.run(command, cwd="/", env=environment, stdin=subprocess.DEVNULL, stdout=subprocess.PIPE,
                              stderr=subprocess.STDOUT, timeout=300, check=False)
        return done.returncode, done.stdout.decode()

    def recorded(self):
        """The text of the record of a run of the gate."""
        told = "record-proof: ../log can't be read or written: No such file or directory\n"
        self.assertEqual(self.ran("record-proof", "../log"), (2, told))
        status, said = self.ran("record-proof", os.path.join(self.top, "..", "log"))
        self.assertEqual((status, said), (0, "record-proof: crates/cg/out/PROVED.txt tells what was proved\n"))
        with open(os.path.join(self.top, "crates/cg/out/PROVED.txt"), encoding="utf-8") as file:
            return file.read()

    def refused(self, told, *words, **given):
        """No package is made, one line tells why, and nothing is left."""
        status, said = self.ran("make-packages", *words, **given)
        self.assertEqual(status, 2, said)
        self.assertRegex(said, rf"\Amake-packages: [^\n]*{told}[^\n]*\n\Z")
        self.assertFalse(os.path.exists(os.path.join(self.top, "dist")))

    def test_what_a_record_has(self):
        commit = subprocess.run(["git", "rev-parse", "HEAD"], cwd=self.top, check=True, capture_output=True).stdout.decode().strip()
        text = self.recorded()
        digits = hashlib.sha256(b"#!/bin/sh\n").hexdigest()
        self.assertEqual(fields(text), {"program": "cg 1.2.3", "commit": commit, "kit": "a kit", "sha256": digits})
        for line in ("logic=proved functions=2 axioms=13", "rt: ok; handles allowed: Threads, Wait", "249 passed, 0 failed"):
            self.assertIn(f"\n    {line}\n", text)
        self.assertNotIn("functions=9", text)

    def test_nothing_is_recorded_where_the_gate_failed(self):
        last = "249 passed, 0 failed\n"
        for log in (LOG.replace(" 0 failed", " 1 failed"), LOG.replace("249 passed", "0 passed"), "", f"{last}more\n"):
            self.write("../log", log)
            status, said = self.ran("record-proof", os.path.join(self.top, "..", "log"))
            self.assertEqual(status, 2, said)
            self.assertIn("nothing is recorded", said)
            self.assertFalse(os.path.exists(os.path.join(self.top, "crates/cg/out/PROVED.txt")))

    def test_changes_have_no_record(self):
        self.recorded()
        self.write("more", "")
        status, said = self.ran("record-proof", os.path.join(self.top, "..", "log"))
        self.assertEqual((status, said.startswith("record-proof: there is no record, since no commit has all")), (0, True), said)
        self.assertFalse(os.path.exists(os.path.join(self.top, "crates/cg/out/PROVED.txt")))

    def test_no_record(self):
        self.refused("no record says that the gate proved this commit .*: run .ci/run first")

    def test_another_commit(self):
        self.recorded()
        self.commit()
        self.refused(r"the gate proved the commit \w{12}, and this is \w{12}: run .ci/run first")

    def test_another_program(self):
        self.recorded()
        self.write("crates/cg/out/cg", "#!/bin/sh\n\n", 0o755)
        self.refused("isn't the program that the gate proved, by its checksum: run .ci/run first")
        os.remove(os.path.join(self.top, "crates/cg/out/cg"))
        self.refused(r"can't be read \(No such file or directory\)")

    def test_changes(self):
        self.recorded()
        self.write("more", "")
        self.refused("the tree has changes that no commit has, as in more: ")
        self.refused("the tree has changes that no commit has, as in more: ", "--prove")

    def test_no_kit(self):
        self.refused("rt isn't on the path", "--prove", path="/usr/bin:/bin")

    def test_a_gate_that_fails(self):
        self.write("../bin/rt", "#!/bin/sh\necho 3 passed, 1 failed\nexit 1\n", 0o755)
        status, said = self.ran("make-packages", "--prove")
        self.assertEqual((status, said), (2, "3 passed, 1 failed\nmake-packages: rt ci didn't pass, so no package is made\n"))

    def test_a_folder_that_cant_be_written(self):
        self.recorded()
        self.write("../file", "")
        self.refused("/file can't be written: ", "--output", os.path.join(self.top, "..", "file"))
        self.refused("/file/below can't be written: ", "--output", os.path.join(self.top, "..", "file", "below"))

    def test_no_clone(self):
        shutil.rmtree(os.path.join(self.top, ".git"))
        self.refused("not a git repository")

    def test_a_program_of_another_kind(self):
        self.refused("VERSION is no program", "--draft", os.path.join(self.top, "python/cgcalc/VERSION"))
        self.refused("readelf failed: ", "--draft", os.path.join(self.top, "crates/cg/out/cg"))


class Checks(unittest.TestCase):
    """What tools/check-packages finds."""

    def setUp(self):
        loader = SourceFileLoader("check_packages", os.path.join(TOOLS, "check-packages"))
        self.check = importlib.util.module_from_spec(importlib.util.spec_from_loader("check_packages", loader))
        loader.exec_module(self.check)

    def found(self, kit="", **changed):
        """What disagrees where files of the repository have other texts."""
        texts = {name.replace("_", "."): text for name, text in changed.items()}
        real = self.check.text_of

        def text_of(name):
            old, new = texts.get(os.path.basename(name), ("", ""))
            self.assertIn(old, real(name))
            return real(name).replace(old, new, 1) if old else real(name)

        record = f"kit: {kit}\n\n" if kit else None
        with mock.patch.object(self.check, "text_of", text_of):
            return "\n".join(self.check.versions(record))

    def test_one_version(self):
        version = self.check.version_of(ROOT)
        self.assertEqual(self.found(), "")
        other = (version, "0.1.2")
        self.assertIn("CITATION.cff has another version", self.found(CITATION_cff=other))
        self.assertIn("package.json has another version", self.found(package_json=other))
        self.assertIn("CHANGELOG.md doesn't begin with the version", self.found(CHANGELOG_md=(f"## {version} ", "## 0.1.2 ")))
        self.assertIn("CHANGELOG.md doesn't begin", self.found(CHANGELOG_md=("\n## ", "\n## Unreleased\n\n## ")))
        self.assertIn("another date", self.found(CITATION_cff=("date-released: ", "date-released: 1")))
        self.assertIn("names another kit", self.found(kit="another kit"))

    def test_what_is_left(self):
        with tempfile.TemporaryDirectory() as layer:
            for name in ("usr/bin/no-such-program", "etc/passwd", "var/lib/dpkg/status", "usr/share/no-such-folder/file"):
                os.makedirs(os.path.join(layer, os.path.dirname(name)), exist_ok=True)
                with open(os.path.join(layer, name), "w", encoding="utf-8") as file:
                    file.write("changed\n")
            shutil.copy("/etc/hostname", os.path.join(layer, "etc", "hostname"))
            folder = "/usr/share/no-such-folder"
            self.assertEqual(sorted(left(layer)), ["/etc/passwd", "/usr/bin/no-such-program", folder, f"{folder}/file"])


class Trial(unittest.TestCase):
    """What the trial of an installed package finds."""

    def found(self, **pages):
        """What is wrong with the links of pages that are installed."""
        with open(os.path.join(TOOLS, "release", "trial.py"), encoding="utf-8") as file:
            code = file.read()
        self.assertTrue(code.endswith("\nsys.exit(main())\n"))
        space = {"__name__": "trial"}
        with mock.patch.object(sys, "argv", ["trial", "/nowhere", "1.2.3"]):
            exec(code[: -len("sys.exit(main())\n")], space)
        with tempfile.TemporaryDirectory() as share:
            folder = os.path.join(share, "doc", "cg", "docs")
            os.makedirs(folder)
            for name, text in pages.items():
                with open(os.path.join(folder, f"{name}.md"), "w", encoding="utf-8") as page:
                    page.write(text)
            space["Place"]("deb", "/usr/bin", share).links()
        return space["wrong"]

    def test_links_of_installed_pages(self):
        text = "[a](page1.md) [b](page2.md#b) ![c](../docs/page3.md) [d](https://a.example/b) [e](#e)\n```\n[f](gone.md)\n```\n"
        pages = {f"page{n}": text for n in range(20)}
        self.assertEqual(self.found(**pages), [])
        gone = {**pages, "page1": text + "[g](../formal/Games.v)\n"}
        self.assertEqual(self.found(**gone), ["deb: docs/page1.md has a link to ../formal/Games.v, which isn't installed"])
        self.assertEqual(self.found(**{name: pages[name] for name in ("page1", "page2", "page3")}),
                         ["deb: 3 pages with 9 links are too few"])


class Parts(unittest.TestCase):
    """What the packages are made of."""

    def test_the_c_library_is_computed(self):
        self.assertRegex(".".join(map(str, glibc_of(os.environ["CG"]))), r"^2\.[0-9]+$")
        with self.assertRaisesRegex(Unfit, "needs .*lib.*, and not the C library alone"):
            glibc_of(shutil.which("git"))

    def test_what_is_trusted_is_that_of_the_page(self):
        self.assertGreater(len(trusted(ROOT)), 5)
        with tempfile.TemporaryDirectory() as top:
            os.mkdir(os.path.join(top, "docs"))
            with open(os.path.join(top, "docs", "PROOF.md"), "w", encoding="utf-8") as page:
                page.write("\n## What is trusted\n\nNothing.\n")
            with self.assertRaisesRegex(Unfit, "no table"):
                trusted(top)

    def test_the_gates_verdict_is_that_of_the_program(self):
        self.assertEqual(verdict(LOG), ["logic=proved functions=2 axioms=13"])
        self.assertEqual(verdict("249 passed, 0 failed\n"), [])

    def test_pages_and_completions_come_from_the_words(self):
        parser = program_parser(ROOT)
        parser.description, parser.epilog = "Answers lines; others wait.", "The status is 0."
        maker = manual_maker(ROOT)
        ((name, text),) = manuals.pages({"cg": parser}, {"cg": __name__}, maker, "1.2.3", "2026-12-01")
        self.assertEqual(name, "cg.1")
        for part in ('.TH CG 1 "2026-12-01" "cg 1.2.3"', "cg \\- answers lines\n", "\\fB\\-\\-workers\\fR N", "The status is 0."):
            self.assertIn(part, text)
        made = dict(completions.completions({"cg": parser}))
        self.assertEqual(len(made), 3)
        for text in made.values():
            self.assertRegex(text, r"workers|--workers")


if __name__ == "__main__":
    unittest.main()
