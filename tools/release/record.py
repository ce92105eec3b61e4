"""The record of a proof: which program the gate proved, at which commit, and what it said at its end.

It is crates/cg/out/PROVED.txt, beside the program. Each run of `rt ci` takes that folder away first, so the record never
outlives what it tells of. Its first lines are such as `sha256: ..`; the packages have the same lines.
"""
import hashlib
import os
import re
import subprocess

from release import Unfit

VERSION = os.path.join("python", "cgcalc", "VERSION")
RECORD, PROGRAM = os.path.join("crates", "cg", "out", "PROVED.txt"), os.path.join("crates", "cg", "out", "cg")
END = re.compile(r"[1-9][0-9]* passed, 0 failed")
RUN = "run .ci/run first, or tools/make-packages --prove"
GIT = ["git", "-c", "safe.directory=*"]
"""git, also where the clone is another user's."""
LAST = 2
"""How many last lines of the gate a record has."""


def said(words, folder):
    """What a command prints."""
    try:
        done = subprocess.run(words, cwd=folder, capture_output=True, check=False)
    except OSError as fault:
        raise Unfit(f"{words[0]} can't be run: {fault.strerror}") from fault
    if done.returncode:
        last = (done.stderr.decode(errors="replace").strip().splitlines() or ["it said nothing"])[-1]
        raise Unfit(f"{words[0]} failed: {last}")
    return done.stdout.decode(errors="replace")


def commit_of(top):
    """The commit of a clone."""
    return said([*GIT, "rev-parse", "--verify", "HEAD"], top).strip()


def changes(top):
    """What differs from the commit, as git tells it in lines."""
    return said([*GIT, "status", "--porcelain"], top).splitlines()


def version_of(top):
    """The version that the file VERSION of the Python package tells: it is told nowhere else."""
    with open(os.path.join(top, VERSION), encoding="ascii") as file:
        return file.read().strip()


def checksum(path):
    """The SHA-256 of a file."""
    try:
        with open(path, "rb") as file:
            return hashlib.sha256(file.read()).hexdigest()
    except OSError as fault:
        raise Unfit(f"{path} can't be read ({fault.strerror}): {RUN}") from fault


def verdict(log):
    """The lines by which the gate ends its proof of the program's crate."""
    part = re.search(r"^== cg\n(.*?)^rt: cg proved$", log, re.M | re.S)
    return re.findall(r"^logic=.*$", part[1], re.M) if part else []


def record_of(top, log):
    """The text of the record, from all that the gate wrote."""
    last = [line for line in log.splitlines() if line.strip()][-LAST:]
    if not last or not END.fullmatch(last[-1]):
        raise Unfit("the gate's last line isn't `N passed, 0 failed`: nothing is recorded")
    proved = verdict(log)
    head = [f"program: cg {version_of(top)}", f"commit: {commit_of(top)}", f"kit: {said(['rt', 'version'], top).strip()}",
            f"sha256: {checksum(os.path.join(top, PROGRAM))}"]
    lines = ["`rt ci` proved this program, and all that it stands on, at this commit."]
    if proved:
        lines += ["Of the program's own crate it said", "", *(f"    {line}" for line in proved), ""]
    lines += ["Its last lines were", "", *(f"    {line}" for line in last)]
    return "\n".join([*head, "", *lines, ""])


def fields(text):
    """What the first lines of a record say."""
    return dict(line.split(": ", 1) for line in text.partition("\n\n")[0].splitlines() if ": " in line)


def proved(top):
    """The text of the record where it is of this commit, of a tree without changes, and of the program that stands built."""
    differ = changes(top)
    if differ:
        raise Unfit(f"the tree has changes that no commit has, as in {differ[0][3:]}: commit them or take them back")
    try:
        with open(os.path.join(top, RECORD), encoding="utf-8") as file:
            text = file.read()
    except OSError as fault:
        raise Unfit(f"no record says that the gate proved this commit ({RECORD}): {RUN}") from fault
    told, commit = fields(text), commit_of(top)
    if told.get("commit") != commit:
        raise Unfit(f"the gate proved the commit {told.get('commit', '?')[:12]}, and this is {commit[:12]}: {RUN}")
    if told.get("sha256") != checksum(os.path.join(top, PROGRAM)):
        raise Unfit(f"{PROGRAM} isn't the program that the gate proved, by its checksum: {RUN}")
    return text
