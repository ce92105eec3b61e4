"""A copy of the repository in which all must-fail edits stand at once, each behind a choice that is made when a program runs.

A function that edits change gets a body for each of them: `if cg_chosen::is(7) { .. } else { .. }`, where 7 is the edit's number
and the last body is the function's own. What is chosen is the last word of the process's command line. An edit that changes
something outside the bodies of functions, as a constant, can't be chosen so: it gets a copy of its own.
"""
import glob
import os
import re
import shutil

from command import ROOT, refuse

CHOSEN = "cg_chosen"
SOURCE = """//! Whether an edit is chosen.

unsafe extern "C" {
    safe fn cg_chosen_is(number: u32) -> bool;
}

/// Returns whether the edit of this number is chosen.
pub fn is(number: u32) -> bool {
    cg_chosen_is(number)
}
"""
IN_C = r"""#include <stdbool.h>
#include <stdio.h>
#include <stdlib.h>

/* The last word of the command line is the number of the edit that is chosen. */
static unsigned chosen;

__attribute__((constructor)) static void choose(void) {
  char words[65536];
  FILE *file = fopen("/proc/self/cmdline", "r");
  size_t length = file ? fread(words, 1, sizeof words - 1, file) : 0;
  size_t start = length > 1 ? length - 1 : 0;
  if (file) fclose(file);
  words[start] = 0;
  while (start > 0 && words[start - 1] != 0) start--;
  chosen = strtoul(words + start, 0, 10);
}

bool cg_chosen_is(unsigned number) { return number == chosen; }
"""
NOT_CODE = re.compile(r'//[^\n]*|b?"(?:\\.|[^\\"])*"|b?\'(?:\\.[^\']*|[^\\\'\n])\'', re.DOTALL)
CLAUSE = re.compile(r"\s*(?:requires|ensures|decreases|maintains|where)\b|\s*\{")
WITHOUT = ("out", "must-fail", "stdin", "stdout", "data", "args", "status")


class Edit:
    """A must-fail edit: its crate, its name, and its pairs of old and new texts by the file."""

    def __init__(self, path):
        self.crate, self.name = path.split("/")[-3], os.path.basename(path)[: -len(".edit")]
        self.pairs, self.number = [], 0
        file = old = None
        with open(path, encoding="utf-8") as lines:
            for line in lines.read().split("\n"):
                word, _, text = line.partition(": ")
                if word == "file":
                    file = text.strip()
                elif word == "old":
                    old = text
                elif word == "new":
                    self.pairs.append((file, old, text))

    def __str__(self):
        return f"{self.crate} {self.name}"


def edits_of(names):
    """The edits of the crates, or the edits, that are named; all where nothing is."""
    paths = sorted(glob.glob(os.path.join(ROOT, "crates", "*", "must-fail", "*.edit")))
    found = [Edit(path) for path in paths]
    for number, edit in enumerate(found, 1):
        edit.number = number
    for name in names:
        if not any(name in (it.crate, it.name, f"{it.crate}/{it.name}") for it in found):
            refuse(f"there is no edit and no crate {name}")
    return [it for it in found if not names or {it.crate, it.name, f"{it.crate}/{it.name}"} & set(names)]


def without_words(text):
    """The text with blanks in place of comments, strings and characters, at the same places."""
    return NOT_CODE.sub(lambda found: re.sub(r"[^\n]", " ", found[0]), text)


def behind_brace(code, at):
    """The place behind the brace that closes the one at a place."""
    depth = 0
    for found in re.finditer(r"[{}]", code[at:]):
        depth += 1 if found[0] == "{" else -1
        if depth == 0:
            return at + found.end()
    return len(code)


def bodies(text):
    """The places of the bodies of all functions, from the brace that opens each to behind the one that closes it."""
    code, found = without_words(text), []
    for head in re.finditer(r"\bfn\s+\w+", code):
        ends = re.search(r"[{;]", code[head.end() :])
        start = head.end() + ends.start() if ends else len(code)
        if not ends or code[start] == ";":
            continue
        end = behind_brace(code, start)
        while CLAUSE.match(code[end:]):
            start = end + code[end:].index("{")
            end = behind_brace(code, start)
        found.append((start, end))
    return found


def edited_bodies(text, pairs):
    """The bodies that the edit gives to functions, by where the functions' own begin; or None where it changes something else."""
    changed, own = {}, bodies(text)
    for old, new in pairs:
        if text.count(old) != 1:
            refuse(f"an old text stands there {text.count(old)} times: {old}")
        at = text.index(old)
        inside = [(start, end) for start, end in own if start < at and at + len(old) < end]
        if not inside:
            return None
        start, end = max(inside)
        changed[start, end] = changed.get((start, end), text[start:end]).replace(old, new)
    return changed


def with_choices(text, edits):
    """The text with the bodies of these edits behind choices, and those edits that can't be chosen so."""
    choices, alone = {}, []
    for edit, pairs in edits:
        changed = edited_bodies(text, pairs)
        if changed is None:
            alone.append(edit)
            continue
        for place, body in changed.items():
            choices.setdefault(place, []).append((edit.number, body))
    for (start, end), all_bodies in sorted(choices.items(), reverse=True):
        arms = "".join(f"if {CHOSEN}::is({number}) {body} else " for number, body in all_bodies)
        text = f"{text[:start]}{{ {arms}{text[start:end]} }}{text[end:]}"
    return text, alone


def copy_crates(folder):
    """Copies the crates without what programs read and what was built, and sets the crate of the choice below them."""
    os.makedirs(folder)
    shutil.copytree(os.path.join(ROOT, "crates"), f"{folder}/crates", ignore=shutil.ignore_patterns(*WITHOUT))
    shutil.copy(os.path.join(ROOT, "HANDLES"), folder)
    os.makedirs(f"{folder}/crates/{CHOSEN}/src")
    os.makedirs(f"{folder}/crates/{CHOSEN}/c")
    for name, text in (("src/lib.rt", SOURCE), ("c/chosen.c", IN_C)):
        with open(f"{folder}/crates/{CHOSEN}/{name}", "w", encoding="utf-8") as file:
            file.write(text)
    with open(os.path.join(ROOT, "crates.txt"), encoding="utf-8") as file:
        lines = [re.sub(r"^(cg\w*(?: \S+)*?:)", rf"\1 {CHOSEN}", line) for line in file]
    with open(f"{folder}/crates.txt", "w", encoding="utf-8") as file:
        file.writelines([f"{CHOSEN}:\n", *lines])


def switched(folder, edits):
    """Makes the copy with all edits behind choices; gives back those that need a copy of their own."""
    copy_crates(folder)
    by_file, alone = {}, set()
    for edit in edits:
        for name in {file for file, _, _ in edit.pairs}:
            pairs = [(old, new) for file, old, new in edit.pairs if file == name]
            by_file.setdefault(f"{folder}/crates/{edit.crate}/{name}", []).append((edit, pairs))
    for path, changes in by_file.items():
        with open(path, encoding="utf-8") as file:
            text = file.read()
        text, refused = with_choices(text, changes)
        alone.update(refused)
        with open(path, "w", encoding="utf-8") as file:
            file.write(text)
    return [edit for edit in edits if edit in alone]


def copy_with(folder, edit):
    """Makes a copy with this edit in place of what it changes."""
    copy_crates(folder)
    for name, old, new in edit.pairs:
        path = f"{folder}/crates/{edit.crate}/{name}"
        with open(path, encoding="utf-8") as file:
            text = file.read()
        with open(path, "w", encoding="utf-8") as file:
            file.write(text.replace(old, new))
