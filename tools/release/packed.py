"""The packages: a wheel, two packages of Debian's, an archive of the program, and one of the sources."""
import glob
import os
import shutil

from release import Unfit
from release.layout import DOC, LICENCES, PYTHON, lay_out, set_modes
from release.record import GIT, checksum
from release.steps import copy, run, write

MACHINE = "x86_64"
PURE, TAGGED = "Root-Is-Purelib: true\nTag: py3-none-any\n", "Root-Is-Purelib: false\nTag: {}\n"
BUILD = "import setuptools.build_meta as made; print(made.build_wheel({!r}))"
CHANGES = """cg ({version}) unstable; urgency=medium

  * The changes are in /usr/share/doc/cg/CHANGELOG.md.

 -- The authors of cg <maintainers@users.noreply.jakdriv.example>  {date}
"""


def pure_wheel(source, folder):
    """The wheel of the Python package alone."""
    run(["python3", "-c", BUILD.format(folder)], os.path.join(source.tree, "python"))
    return os.path.join(folder, f"cgcalc-{source.version}-py3-none-any.whl")


def tag_of(source):
    """The platform of a wheel with the program, by the symbols that the program needs."""
    major, minor = source.glibc
    return f"py3-none-manylinux_{major}_{minor}_{MACHINE}"


def wheel(source, laid, pure, folder, out):
    """The wheel with the program inside, which is also its command cg."""
    run(["python3", "-m", "wheel", "unpack", "--dest", folder, pure], "/")
    name = f"cgcalc-{source.version}"
    top = os.path.join(folder, name)
    data = os.path.join(top, f"{name}.data")
    for place in (os.path.join(top, "cgcalc", "cg"), os.path.join(data, "scripts", "cg")):
        copy(source.program, place, 0o755)
    write(os.path.join(top, "cgcalc", "PROVED.txt"), source.proof())
    shutil.copytree(os.path.join(laid, "share"), os.path.join(data, "data", "share"))
    path = os.path.join(top, f"{name}.dist-info", "WHEEL")
    with open(path, encoding="utf-8") as file:
        text = file.read()
    if PURE not in text:
        raise Unfit("the wheel of the Python package isn't one for every machine")
    write(path, text.replace(PURE, TAGGED.format(tag_of(source))))
    set_modes(top)
    run(["python3", "-m", "wheel", "pack", "--dest-dir", out, top], "/")


def debian(source, laid, folder, out):
    """The two packages of Debian's: cg, and python3-cgcalc."""
    shutil.copytree(os.path.join(source.tree, "packaging", "debian"), os.path.join(folder, "debian"))
    at = os.path.join(folder, "debian", "tmp", "usr")
    shutil.copytree(laid, at)
    for name in LICENCES:
        os.remove(os.path.join(at, DOC, name))
    shutil.move(os.path.join(at, PYTHON), os.path.join(at, "lib", "python3", "dist-packages"))
    for path in glob.glob(os.path.join(at, "bin", "cg-*")):
        with open(path, encoding="utf-8") as script:
            lines = [line for line in script.read().splitlines() if line.startswith(("import sys", "from ", "sys.exit("))]
        write(path, "\n".join(["#!/usr/bin/python3", *lines, ""]), 0o755)
    for path in glob.glob(os.path.join(at, "lib", "python3", "dist-packages", "*.dist-info", "RECORD")):
        os.remove(path)
    date = run(["date", "--utc", "--rfc-email", f"--date=@{source.epoch}"], "/").strip()
    write(os.path.join(folder, "debian", "changelog"), CHANGES.format(version=source.version, date=date))
    os.chmod(os.path.join(folder, "debian", "rules"), 0o755)
    run(["debian/rules", "binary", f"OUT={out}"], folder, DEB_RULES_REQUIRES_ROOT="no")


def archive(source, laid, folder, out):
    """The archive that is unpacked anywhere: the program and the commands, with all that belongs to them."""
    name = f"cg-{source.version}-{MACHINE}-linux"
    top = os.path.join(folder, name)
    shutil.copytree(laid, top)
    for licence in (*LICENCES, "PROVED.txt"):
        shutil.copyfile(os.path.join(top, DOC, licence), os.path.join(top, licence))
    inside = os.path.join(top, PYTHON, "cgcalc", "cg")
    os.symlink(os.path.relpath(os.path.join(top, "bin", "cg"), os.path.dirname(inside)), inside)
    for path in glob.glob(os.path.join(top, PYTHON, "*.dist-info")):
        shutil.rmtree(path)
    pack(["--directory", folder, name], source, os.path.join(out, f"{name}.tar.gz"))


def pack(words, source, path):
    """Packs files in the order of their names, with one owner and the commit's time."""
    options = ["--sort=name", f"--mtime=@{source.epoch}", "--owner=0", "--group=0", "--numeric-owner", "--format=gnu"]
    run(["tar", *options, "--create", "--file", path[: -len(".gz")], *words], "/")
    run(["gzip", "--no-name", "--best", path[: -len(".gz")]], "/")


def sources(source, folder, out):
    """The archive of the commit's files."""
    path = os.path.join(out, source.archive)
    tar = path[: -len(".gz")]
    run([*GIT, "archive", "--format=tar", f"--prefix=cg-{source.version}/", "-o", tar, source.commit], source.top)
    run(["gzip", "--no-name", "--best", tar], folder)


def make_all(source, folder, out):
    """Makes every package in a folder, and SHA256SUMS beside them."""
    laid = os.path.join(folder, "laid")
    for name in ("pure", "wheel", "debian", "archive"):
        os.makedirs(os.path.join(folder, name))
    pure = pure_wheel(source, os.path.join(folder, "pure"))
    lay_out(source, laid, pure)
    wheel(source, laid, pure, os.path.join(folder, "wheel"), out)
    debian(source, laid, os.path.join(folder, "debian", "cg"), out)
    archive(source, laid, os.path.join(folder, "archive"), out)
    sources(source, folder, out)
    lines = [f"{checksum(os.path.join(out, name))}  {name}\n" for name in sorted(os.listdir(out))]
    write(os.path.join(out, "SHA256SUMS"), "".join(lines))
