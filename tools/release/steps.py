"""What the packages are made of: the commit's files, the program with its record, and commands that make things of them."""
import os
import re
import shutil
import subprocess
import sys
import textwrap
import time

from release import Unfit
from release.record import GIT, PROGRAM, VERSION, commit_of, proved, said, version_of

GLIBC = re.compile(r"\bGLIBC_([0-9.]+)\b")
SMALLEST = (2, 5)
"""The oldest C library that pip has a name for."""
TRUSTED = ("Part", "Size", "What is trusted")
DRAFT = "program: cg {version}\n\nThis is a draft: no proof of this program is recorded. It is good for trials alone.\n"
AGAIN = """\
`sha256sum cg` prints the checksum that stands above at `sha256`. To prove the program anew you need the kit that is named
above and the sources at that commit, as {source} has them. There `rt ci` proves everything from nothing, in
about an hour on four cores, and leaves the program in crates/cg/out/cg.
"""
THEOREM = """\
For every session, table size and number of threads the output is exactly the text that the definitions give: for each line
the textbook's answer, or the one refusal that applies. If memory runs out or reading fails there are no answers, and the
exit status says so. docs/PROOF.md, which is in each package, has the theorem, and what a reviewer reads.
"""


def run(words, folder, **more):
    """Runs a command that has to end well."""
    try:
        done = subprocess.run(words, cwd=folder, stdin=subprocess.DEVNULL, stdout=subprocess.PIPE, stderr=subprocess.STDOUT,
                              env=dict(os.environ, **more), check=False)
    except OSError as fault:
        raise Unfit(f"{words[0]} can't be run ({fault.strerror}): tools/install-packages installs what is needed") from fault
    if done.returncode:
        lines = done.stdout.decode(errors="replace").strip().splitlines()[-12:]
        raise Unfit(f"{words[0]} failed with status {done.returncode}: " + "\n    ".join(lines))
    return done.stdout.decode(errors="replace")


def write(path, text, mode=0o644):
    """Writes a file, with the folders above it."""
    os.makedirs(os.path.dirname(path), exist_ok=True)
    with open(path, "w", encoding="utf-8") as file:
        file.write(text)
    os.chmod(path, mode)


def copy(source, place, mode=0o644):
    """Copies a file, with the folders above it."""
    os.makedirs(os.path.dirname(place), exist_ok=True)
    shutil.copyfile(source, place)
    os.chmod(place, mode)


def glibc_of(program):
    """The oldest version of the C library whose symbols the program can do with."""
    dynamic = said(["readelf", "--dynamic", "--wide", program], "/")
    needed = re.findall(r"\(NEEDED\).*\[(.*)\]", dynamic)
    if needed != ["libc.so.6"]:
        raise Unfit(f"the program needs {', '.join(needed) or 'no library'}, and not the C library alone")
    found = GLIBC.findall(said(["readelf", "--version-info", "--wide", program], "/"))
    return max([SMALLEST, *(tuple(map(int, version.split(".")[:2])) for version in found)])


def trusted(top):
    """What is trusted, in lines, from the table of docs/PROOF.md."""
    with open(os.path.join(top, "docs", "PROOF.md"), encoding="utf-8") as file:
        part = file.read().partition("\n## What is trusted\n")[2].partition("\n## ")[0]
    rows = [[cell.strip() for cell in line.strip("|").split("|")] for line in part.splitlines() if line.startswith("|")]
    if not rows or tuple(rows[0]) != TRUSTED:
        raise Unfit("docs/PROOF.md has no table of what is trusted")
    lines = (f"- {name}{f' ({size})' if size else ''}: {what}" for name, size, what in rows[2:])
    lines = (line.replace("the definitions below", "the definitions that docs/PROOF.md lists") for line in lines)
    return [textwrap.fill(line, 118, subsequent_indent="  ", break_on_hyphens=False) for line in lines]


class Source:
    """The files of a commit, taken to a folder, and the program that was proved at it."""

    def __init__(self, top, folder, draft=None):
        self.version, self.commit = version_of(top), commit_of(top)
        self.record = None if draft else proved(top)
        self.program = draft or os.path.join(top, PROGRAM)
        self.glibc = glibc_of(self.program)
        self.epoch = int(said([*GIT, "log", "-1", "--format=%ct", self.commit], top))
        self.tree, self.top = os.path.join(folder, "tree"), top
        if draft:
            self.version += "+draft"
        self.take()

    def take(self):
        """Takes the commit's files, with the draft's version where it is one, and with the theory for Coq in the package."""
        packed = os.path.join(os.path.dirname(self.tree), "tree.tar")
        run([*GIT, "archive", "--format=tar", "-o", packed, self.commit], self.top)
        os.makedirs(self.tree)
        run(["tar", "--extract", "--file", packed], self.tree)
        os.remove(packed)
        write(os.path.join(self.tree, VERSION), self.version + "\n")
        formal, inside = (os.path.join(self.tree, *parts, "formal") for parts in ((), ("python", "cgcalc")))
        if os.path.isdir(formal) and not os.path.exists(inside):
            shutil.copytree(formal, inside, ignore=shutil.ignore_patterns("tests", "*.vo*", "*.glob", ".*"))

    @property
    def date(self):
        """The day of the commit."""
        return time.strftime("%Y-%m-%d", time.gmtime(self.epoch))

    @property
    def archive(self):
        """The name of the archive of sources."""
        return f"cg-{self.version}.tar.gz"

    def proof(self):
        """The text of PROVED.txt."""
        if self.record is None:
            return DRAFT.format(version=self.version)
        parts = {"What is proved": THEOREM, "What is trusted": "\n".join(trusted(self.tree)) + "\n",
                 "How to check it again": AGAIN.format(source=self.archive)}
        return self.record + "".join(f"\n{name}\n\n{text}" for name, text in parts.items())


def reproducible(source):
    """The environment in which everything is made: nothing in it depends on the maker, the place or the time."""
    os.umask(0o022)
    keep = {name: os.environ[name] for name in ("PATH", "TMPDIR") if name in os.environ}
    os.environ.clear()
    os.environ.update(keep, LC_ALL="C.UTF-8", TZ="UTC", HOME="/nonexistent", COLUMNS="80", PYTHONHASHSEED="0",
                      PYTHONDONTWRITEBYTECODE="1", SOURCE_DATE_EPOCH=str(source.epoch))
    sys.dont_write_bytecode = True
