"""The folder from which each package takes its files: as they lie below /usr or below an unpacked archive."""
import os
import shutil
import stat

from release.commands import entries, manual_maker, parsers, program_parser
from release.completions import completions
from release.manuals import pages
from release.steps import copy, run, write

DOCUMENTS = ("README.md", "CHANGELOG.md", "CITATION.cff", "CONTRIBUTING.md", "docs", "examples", "formal", "notes",
             os.path.join("python", "README.md"))
UNREAD = shutil.ignore_patterns("cg.1", "tests", "out", "_CoqProject")
"""What no page leads to, in the folders of DOCUMENTS."""
LICENCES = ("LICENSE-APACHE", "LICENSE-MIT")
DOC, PYTHON = os.path.join("share", "doc", "cg"), os.path.join("lib", "cg")
SCRIPT = """#!/usr/bin/env python3
import os
import sys

if sys.version_info < (3, 9):
    sys.exit("{name}: Python 3.9 or later is needed")

sys.path.insert(0, os.path.join(os.path.dirname(os.path.dirname(os.path.realpath(__file__))), "lib", "cg"))

from {module} import {function}

sys.exit({function}())
"""


def lay_out(source, folder, wheel):
    """Lays out the program, the commands, the package from its wheel, the pages, completions, documents and editors' files."""
    copy(source.program, os.path.join(folder, "bin", "cg"), 0o755)
    modules = entries(source.tree)
    for name, (module, function) in modules.items():
        write(os.path.join(folder, "bin", name), SCRIPT.format(name=name, module=module, function=function), 0o755)
    run(["python3", "-m", "zipfile", "-e", wheel, os.path.join(folder, PYTHON)], "/")
    write(os.path.join(folder, PYTHON, "cgcalc", "PROVED.txt"), source.proof())
    for place, text in made_pages(source, {name: module for name, (module, _) in modules.items()}):
        write(os.path.join(folder, place), text)
    lay_documents(source, os.path.join(folder, DOC))
    vim = os.path.join(source.tree, "editors", "vim")
    shutil.copytree(vim, os.path.join(folder, "share", "vim", "vimfiles"))
    shutil.copytree(os.path.join(source.tree, "editors", "textmate"), os.path.join(folder, "share", "cg", "textmate"))
    set_modes(folder)


def made_pages(source, modules):
    """The manual pages and the completions of all commands, by their places."""
    found, maker = parsers(source.tree), manual_maker(source.tree)
    for name, text in pages(found, modules, maker, source.version, source.date):
        yield os.path.join("share", "man", "man1", name), text
    with open(os.path.join(source.tree, "docs", "cg.1"), encoding="utf-8") as page:
        yield os.path.join("share", "man", "man1", "cg.1"), page.read()
    yield from completions({**found, "cg": program_parser(source.tree)})


def lay_documents(source, folder):
    """Lays out what is there to read, as it lies in the sources, so that the links from one to the other hold."""
    for name in (*DOCUMENTS, *LICENCES):
        path, place = os.path.join(source.tree, name), os.path.join(folder, name)
        if os.path.isdir(path):
            shutil.copytree(path, place, ignore=UNREAD)
        else:
            copy(path, place)
    write(os.path.join(folder, "PROVED.txt"), source.proof())


def set_modes(folder):
    """Gives each file and folder the same mode, whoever makes them."""
    for at, _, files in os.walk(folder):
        os.chmod(at, 0o755)
        for name in files:
            path = os.path.join(at, name)
            os.chmod(path, 0o755 if os.stat(path).st_mode & stat.S_IXUSR else 0o644)
