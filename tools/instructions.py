"""Counts the instructions of sessions by valgrind, and compares them with the numbers in tools/instructions.txt."""
import concurrent.futures
import importlib.machinery
import importlib.util
import os
import re
import subprocess
import sys
import tempfile
import time

from command import PROGRAM, TOOLS

STORED = os.path.join(TOOLS, "instructions.txt")
MORE, LESS = 1.05, 0.90
SLACK = 2_000  # some hundred instructions differ from run to run
FRONT = """# How many instructions each session takes beyond `value 0`, with one worker, by valgrind. tools/bench --check compares
# these numbers with what the built program takes; tools/bench --store writes them, and the commit that changes them says why.
"""
# The C library chooses some of its functions, and the sizes from which on it uses them, by the processor. Here it takes those of
# x86-64-v2.
FEATURES = "glibc.cpu.hwcaps=-AVX,-AVX2,-AVX512F,-AVX512VL,-BMI1,-BMI2,-ERMS,-FSRM,-LZCNT,-MOVBE,-RTM"
SIZES = {"data_cache_size": "0x8000", "shared_cache_size": "0x100000", "non_temporal_threshold": "0x4000000",
         "rep_movsb_threshold": "0x4000", "rep_stosb_threshold": "0x4000"}
TUNED = ":".join([FEATURES, *(f"glibc.cpu.x86_{name}={size}" for name, size in SIZES.items()), "glibc.malloc.arena_max=1"])
ENVIRONMENT = {"GLIBC_TUNABLES": TUNED, "LC_ALL": "C", "PATH": "/usr/bin:/bin"}


# Inputs of tools/worst-inputs that take more than a third of a second, and so aren't counted; and those that are counted with
# fewer cells or positions, so that they take less.
SLOW = {
    "1,024 games of lists that begin alike", "4,083 expansions of 4,095 parts", "4,096 boards of amazons 8x8",
    "4,096 boards of clobber 8x8", "4,096 boards of domineering 8x8", "4,096 boards refused for their share",
    "4,096 boards refused for their share, the first 64", "4,096 comparisons", "4,096 strips of 64",
    "4,096 strips with 14 symbols", "4,096 sums", "4,096 thermographs", "a great nimber and hot games", "a multiple of one",
    "a multiple of tiny", "a multiple of tiny and star", "a nimber of 200 and hot games",
    "a nimber of 200 and three hot games", "bypass through nimbers twice", "hackenbush of 64 green edges",
    "nimbers with ups as options", "sum of ones", "sum of switches", "switches as many as fit",
    "the greatest nimber and hot games", "tinies as options", "two ups",
}
SMALLER = {
    "a multiple of a hot game": ["--cells", "400009"], "a multiple of a hot game with star": ["--cells", "400009"],
    "a multiple of star": ["--cells", "400009"], "amazons 3x4": ["--positions", "16384"],
    "difference of hot games": ["--positions", "4096"], "eight boards of clobber 8x8": ["--positions", "16384"],
    "sums of ups and a nimber as options": ["--cells", "400009"], "two boards of domineering 8x8": ["--positions", "16384"],
}


def tool(name):
    """The module of a tool."""
    loader = importlib.machinery.SourceFileLoader(name.replace("-", "_"), os.path.join(TOOLS, name))
    module = importlib.util.module_from_spec(importlib.util.spec_from_loader(loader.name, loader))
    loader.exec_module(module)
    return module


def worst_inputs():
    """The module of tools/worst-inputs."""
    return tool("worst-inputs")


def hostile_sessions():
    """The inputs of tools/worst-inputs that are counted, each with its words and what makes it."""
    worst = worst_inputs()
    return {name: (worst.WORDS.get(name, SMALLER.get(name, [])), lambda make=make: (make() or "").encode())
            for name, make in worst.INPUTS.items() if name not in SLOW}


class Miscounted(Exception):
    """A session whose instructions couldn't be counted."""


def instructions(words, data):
    """How many instructions a run with one worker takes. Neither the environment nor the path of the program changes that."""
    with tempfile.TemporaryDirectory() as folder, tempfile.TemporaryFile() as given:
        given.write(data)
        given.seek(0)
        os.symlink(PROGRAM, os.path.join(folder, "cg"))
        command = ["valgrind", "--tool=cachegrind", "--cache-sim=no", "--cachegrind-out-file=/dev/null", "./cg", "--workers", "1"]
        done = subprocess.run([*command, *words], stdin=given, stdout=subprocess.DEVNULL, stderr=subprocess.PIPE, check=False,
                              cwd=folder, env=ENVIRONMENT)
    counted = re.search(r"I +refs: +([\d,]+)", done.stderr.decode("utf-8", "replace"))
    if done.returncode not in (0, 1) or not counted:
        raise Miscounted(f"status {done.returncode}: {done.stderr.decode('utf-8', 'replace').strip()[-200:]}")
    return int(counted[1].replace(",", ""))


def stored():
    """The stored numbers, by the names of their sessions."""
    found = {}
    if os.path.exists(STORED):
        with open(STORED, encoding="utf-8") as file:
            for line in file:
                number, _, name = line.rstrip("\n").partition("\t")
                if not line.startswith("#"):
                    found[name] = int(number.replace(",", ""))
    return found


def store(numbers):
    """Writes these numbers."""
    with open(STORED, "w", encoding="utf-8") as file:
        file.write(FRONT + "".join(f"{number:,}\t{name}\n" for name, number in numbers.items()))


def start_of(words):
    """The words of the run whose instructions are taken off: that of one line, with the same table."""
    return tuple(words) if "--sample" not in words else ()


def counted(sessions):
    """The instructions of each session, by its name, less those of the line `value 0` with the same words; or why they couldn't be
    counted. As many are counted side by side as there are processors."""
    def one(words, data):
        try:
            return instructions(words, data() if callable(data) else data)
        except Miscounted as why:
            return str(why)
    with concurrent.futures.ThreadPoolExecutor(len(os.sched_getaffinity(0))) as pool:
        starts = {words: pool.submit(one, words, b"value 0\n") for words in {start_of(words) for words, _ in sessions.values()}}
        runs = {name: pool.submit(one, *session) for name, session in sessions.items()}
        for name, run in runs.items():
            total, start = run.result(), starts[start_of(sessions[name][0])].result()
            texts = [text for text in (total, start) if isinstance(text, str)]
            yield name, texts[0] if texts else total - start


def compared(found, known):
    """What is wrong with these numbers, beside those that are stored."""
    for name, number in found.items():
        if isinstance(number, str):
            yield f"{name}: {number}"
        elif name not in known:
            yield f"{name}: {number:,} instructions, and no number is stored (tools/bench --store)"
        elif number > MORE * known[name] + SLACK:
            yield f"{name}: {number:,} instructions are {number / known[name]:.3f} of the {known[name]:,} that are stored"
        elif number < LESS * known[name] - SLACK:
            yield (f"{name}: {number:,} instructions are {number / known[name]:.3f} of the {known[name]:,} that are stored: write "
                   "the better number (tools/bench --store)")


def check(sessions, is_all):
    """Compares the sessions' instructions with the stored numbers; where these are all sessions, no other number may be stored."""
    began, known = time.monotonic(), stored()
    found = dict(counted(sessions))
    wrong = list(compared(found, known))
    wrong += [f"{name}: a number is stored, and there is no such session" for name in known if is_all and name not in found]
    for text in wrong:
        print("bench: " + text)
    millions = sum(number for number in found.values() if not isinstance(number, str)) / 1e6
    print(f"bench: {len(found)} sessions, {millions:,.0f} million instructions, {time.monotonic() - began:.0f} seconds, "
          f"{len(wrong)} wrong")
    return 1 if wrong or not found else 0


def write(sessions, is_all):
    """Stores the sessions' instructions, and tells what changed."""
    known = stored()
    found = {}
    for name, number in counted(sessions):
        found[name] = number
        if isinstance(number, str):
            print(f"bench: {name}: {number}")
            return 1
        before = f"{number / known[name]:.3f} of {known[name]:,}" if name in known else "new"
        print(f"{number:15,}  {name}: {before}", flush=True)
    store(found if is_all else {**known, **found})
    return 0


def refuse_without_valgrind(where):
    """Ends the tool where valgrind isn't there."""
    if not where:
        print("bench: valgrind isn't there, which counts instructions (Debian's package valgrind)", file=sys.stderr)
        sys.exit(2)
