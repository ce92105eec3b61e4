"""Makes the packages once more: in another folder, at another time, by another user with other habits."""
import os
import shutil
import subprocess

from release.record import GIT, PROGRAM, RECORD, said

NOBODY = 65534
OTHER = {"TZ": "Asia/Tokyo", "LC_ALL": "C", "LANG": "de_DE.UTF-8", "HOME": "/", "COLUMNS": "61", "SOURCE_DATE_EPOCH": "1"}


def give(folder, user):
    """Gives a folder, with all that is in it, to a user."""
    for at, folders, files in os.walk(folder):
        for name in [".", *folders, *files]:
            os.chown(os.path.join(at, name), user, user, follow_symlinks=False)


def copied(top, folder):
    """A clone in another folder, with the program and its record."""
    clone = os.path.join(folder, "somewhere", "else")
    said([*GIT, "clone", "--quiet", "--no-hardlinks", top, clone], folder)
    os.makedirs(os.path.join(clone, os.path.dirname(PROGRAM)))
    for path in (PROGRAM, RECORD):
        if os.path.exists(os.path.join(top, path)):
            shutil.copy(os.path.join(top, path), os.path.join(clone, path))
    os.makedirs(os.path.join(folder, "scratch"))
    return clone


def start(top, folder, words):
    """Starts a second making of the packages, and gives the process and the folder that it writes to."""
    clone, out = copied(top, folder), os.path.join(folder, "made")
    os.makedirs(out)
    give(folder, NOBODY)
    user = ["setpriv", f"--reuid={NOBODY}", f"--regid={NOBODY}", "--clear-groups"]
    command = ["sh", "-c", 'umask 077; exec "$@"', "", *user, os.path.join(clone, "tools", "make-packages"), "--output", out]
    environment = dict(os.environ, TMPDIR=os.path.join(folder, "scratch"), **OTHER)
    return subprocess.Popen([*command, *words], cwd="/", env=environment, stdin=subprocess.DEVNULL, stdout=subprocess.PIPE,
                            stderr=subprocess.STDOUT), out
