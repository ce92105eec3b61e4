"""Tries the packages as their users do, in a place that has neither the kit nor the sources nor a network.

    python3 - PACKAGES VERSION COMMAND .. < trial.py

It stands alone, since it runs where nothing else of the tools is. It prints what doesn't hold, and a line for each package; the
status is 1 where something doesn't hold.
"""
import glob
import os
import pty
import re
import select
import subprocess
import sys
import time

PACKAGES, VERSION, COMMANDS = sys.argv[1], sys.argv[2], sys.argv[3:]
TABLE = "rows\tcolumns\ttemp\n1\t1\t-1\n1\t2\t-1\n2\t1\t-1\n2\t2\t1\n"
ASKED = ["temp Domineering(\"{board}\")", "--rows", "1-2", "--columns", "1-2", "--fill", "."]
DRAFT = VERSION.endswith("+draft")
KNOWN = "(?m)^unknown program: no record" if DRAFT else rf"(?m)^proved: cg {re.escape(VERSION)} by .*, commit \w{{40}}$"
SECONDS = 30
LINK = re.compile(r"\]\(([^\s()#:]+)(?:#[^\s()]*)?\)")
wrong = []


def expect(what, found, wanted):
    """Takes note of what isn't as it has to be."""
    if found != wanted:
        wrong.append(f"{what}: {found!r}, and not {wanted!r}")


def matches(what, found, pattern):
    """Takes note of a text in which a pattern isn't found."""
    if not re.search(pattern, found):
        wrong.append(f"{what}: {found[-300:]!r} has no {pattern!r}")


def done(words, given="", environment=None, folder="/tmp"):
    """The status of a command and what it writes."""
    ran = subprocess.run(words, input=given.encode(), stdout=subprocess.PIPE, stderr=subprocess.STDOUT, cwd=folder,
                         env=environment or os.environ, timeout=600, check=False)
    return ran.returncode, ran.stdout.decode(errors="replace")


def well(words, **given):
    """What a command writes that has to end well."""
    status, said = done(words, **given)
    if status:
        wrong.append(f"{' '.join(words)} ended with {status}: {said[-400:]}")
    return said


def processor_time():
    """The processor's time that the commands have taken so far, which a machine with other work doesn't change."""
    times = os.times()
    return times.children_user + times.children_system


class Place:
    """A place where a package is installed: the folders of its commands and of what is shared."""

    def __init__(self, name, bins, share):
        self.name, self.share = name, share
        self.start, self.spent = time.monotonic(), processor_time()
        self.environment = dict(os.environ, PATH=f"{bins}:/usr/bin:/bin", XDG_DATA_DIRS=f"{share}:/usr/share:/usr/local/share",
                                MANPAGER="cat", TERM="dumb", HOME="/tmp/home", LC_ALL="C.UTF-8")
        self.environment.pop("CG", None)

    def done(self, *words, given=""):
        """The status of a command of the package and what it writes."""
        return done(list(words), given, self.environment)

    def answers(self):
        """The first answer, a refusal, a table, a thermograph and a session of the shell."""
        expect(f"{self.name}: first answer", self.done("cg", given="value {2,1|0}\n"), (0, "1: {2|0}\n"))
        took = time.monotonic() - self.start
        if processor_time() - self.spent > SECONDS:
            wrong.append(f"{self.name}: the first answer took {processor_time() - self.spent:.1f} s of a processor")
        expect(f"{self.name}: refusal", self.done("cg", given="value {\n"), (1, "1: ! syntax 8\n"))
        expect(f"{self.name}: table", self.done("cg-table", *ASKED), (0, TABLE))
        matches(f"{self.name}: thermograph", self.done("cg-plot", "{4||2|0}")[1], r"(?s)\A<svg .*</svg>\s*\Z")
        expect(f"{self.name}: shell", self.done("cg-shell", "-c", "g := {4||2|0}", "-c", "temp g"), (0, "{4|{2|0}}\n3/2\n"))
        return took

    def told(self, program):
        """Each command tells its version, and the program that came with it, as proved."""
        for command in COMMANDS:
            status, said = self.done(command, "--version")
            expect(f"{self.name}: {command} --version", (status, said.splitlines()[:2]),
                   (0, [f"{command} (cgcalc) {VERSION}", f"program: {program}"]))
            matches(f"{self.name}: {command} --version", said, KNOWN)

    def reads(self):
        """Each command has its manual page, which is this package's."""
        for command in ("cg", *COMMANDS):
            wanted = f"^{re.escape(self.share)}/man/man1/{command}[.]1"
            matches(f"{self.name}: man -w {command}", self.done("man", "-w", command)[1], wanted)
            matches(f"{self.name}: man {command}", self.done("man", command)[1], rf"NAME\s+{command}\s+-\s+\w+")

    def links(self):
        """Each link of a page leads to a file or a folder that is installed, too."""
        folder = os.path.join(self.share, "doc", "cg")
        pages = sorted(glob.glob(f"{folder}/**/*.md", recursive=True))
        count = 0
        for path in pages:
            with open(path, encoding="utf-8") as file:
                found = LINK.findall(re.sub(r"(?ms)^```.*?^```", "", file.read()))
            count += len(found)
            for link in found:
                if not os.path.exists(os.path.join(os.path.dirname(path), link)):
                    wrong.append(f"{self.name}: {os.path.relpath(path, folder)} has a link to {link}, which isn't installed")
        if len(pages) < 20 or count < 60:
            wrong.append(f"{self.name}: {len(pages)} pages with {count} links are too few")

    def completes(self):
        """What bash, zsh and fish make of words that are begun and a tab, as it is typed."""
        words = {command: "--version" for command in COMMANDS}
        words["cg"] = "--positions"
        zsh = os.path.join(self.share, "zsh", "vendor-completions" if self.share == "/usr/share" else "site-functions")
        bash = ["bash", "--norc", "--noprofile", "-i"], ". /usr/share/bash-completion/bash_completion"
        zed = ["zsh", "-f", "-i"], f"fpath=({zsh} $fpath); autoload -Uz compinit; compinit -u -d /tmp/shells/zcompdump"
        for shell, setting in (bash, zed):
            typed = [f"{command} {word[:5]}" for command, word in words.items()]
            for (command, word), line in zip(words.items(), typed_in(shell, setting, typed, self.environment)):
                matches(f"{self.name}: {shell[0]} completes {command}", line, rf"{command} {word}\s")
        for command, word in words.items():
            asked = f"source {self.share}/fish/vendor_completions.d/{command}.fish; complete -C '{command} {word[:5]}'"
            said = self.done("env", "HOME=/tmp/shells", "fish", "--no-config", "-c", asked)[1]
            matches(f"{self.name}: fish completes {command}", said, f"(?m)^{word}\t")


def typed_in(shell, setting, lines, environment):
    """What a shell at a terminal shows where lines are typed, each with a tab behind it."""
    child, handle = pty.fork()
    if child == 0:
        os.execvpe(shell[0], shell, {**environment, "HOME": "/tmp/shells", "TERM": "dumb"})
    shown = []
    until(handle, f"PS1=; PROMPT=; {setting}; echo re''ady\n", "ready\r")
    for number, line in enumerate(lines):
        os.write(handle, f"{line}\t".encode())
        time.sleep(0.3)
        shown.append(until(handle, f"\x15echo do''ne{number}\n", f"done{number}\r"))
    os.close(handle)
    os.waitpid(child, 0)
    return shown


def until(handle, typed, mark, seconds=60):
    """Types a text, and reads what is shown up to a mark."""
    os.write(handle, typed.encode())
    shown, end = "", time.monotonic() + seconds
    while mark not in shown and time.monotonic() < end:
        if select.select([handle], [], [], 0.5)[0]:
            try:
                shown += os.read(handle, 65_536).decode(errors="replace")
            except OSError:
                break
    return shown


def names_below(folder):
    """The names of all files below a folder, but what Python and pip keep there."""
    paths = (os.path.join(at, name) for at, folders, files in os.walk(folder) for name in [*folders, *files])
    return {os.path.relpath(path, folder) for path in paths if "__pycache__" not in path}


def try_place(place, program):
    """Tries all that an installed package has to do."""
    took = place.answers()
    place.told(program)
    place.reads()
    place.links()
    place.completes()
    print(f"    {place.name}: {took:.1f} s from the file to the first answer")


def try_debian():
    """dpkg installs both packages and takes them away; Vim knows the files."""
    place = Place("deb", "/usr/bin", "/usr/share")
    debs = sorted(glob.glob(f"{PACKAGES}/*.deb"))
    well(["dpkg", "--install", *debs])
    try_place(place, "/usr/lib/python3/dist-packages/cgcalc/cg")
    os.makedirs("/tmp/vim", exist_ok=True)
    asked = ("syntax on", "edit /tmp/vim/a.cg", "redir! > /tmp/vim/told", "silent echo &filetype b:current_syntax", "redir END")
    words = [word for command in (*asked, "qall!") for word in ("-c", command)]
    well(["vim", "-es", "-u", "/usr/share/vim/vim90/defaults.vim", *words])
    with open("/tmp/vim/told", encoding="utf-8") as file:
        matches("deb: Vim", file.read(), "cgsession cgsession")
    matches("deb: cgvg", well(["dpkg-query", "--show", "--showformat=${Conflicts}", "cg"]), r"\bcgvg\b")
    well(["dpkg", "--purge", "cg", "python3-cgcalc"])


def try_wheel():
    """pip installs the wheel in an environment of its own and takes it away."""
    well(["python3", "-m", "venv", "/tmp/venv"])
    before = names_below("/tmp/venv")
    place = Place("wheel", "/tmp/venv/bin", "/tmp/venv/share")
    (wheel,) = glob.glob(f"{PACKAGES}/*.whl")
    well(["/tmp/venv/bin/pip", "install", "--quiet", "--no-index", "--disable-pip-version-check", wheel])
    (program,) = glob.glob("/tmp/venv/lib/python3*/site-packages/cgcalc/cg")
    try_place(place, program)
    said = place.done("/tmp/venv/bin/python", "-c", "import cgcalc; print(cgcalc.__version__, cgcalc.Game('{2,1|0}').value)")
    expect("wheel: import", said, (0, f"{VERSION} {{2|0}}\n"))
    well(["/tmp/venv/bin/pip", "uninstall", "--quiet", "--yes", "cgcalc"])
    left = {name for name in names_below("/tmp/venv") - before if not os.path.isdir(os.path.join("/tmp/venv", name))}
    expect("wheel: what pip leaves", left, set())


def try_archive():
    """The archive is unpacked in a folder, which is all that there is of it."""
    os.makedirs("/tmp/unpacked")
    (archive,) = glob.glob(f"{PACKAGES}/cg-*-linux.tar.gz")
    top = os.path.join("/tmp/unpacked", os.path.basename(archive)[: -len(".tar.gz")])
    place = Place("archive", f"{top}/bin", f"{top}/share")
    well(["tar", "--extract", "--file", archive], folder="/tmp/unpacked")
    try_place(place, f"{top}/lib/cg/cgcalc/cg")
    well(["rm", "-r", top])


def main():
    for folder in ("/tmp/home", "/tmp/shells"):
        os.makedirs(folder)
    well(["sha256sum", "--check", "--quiet", "SHA256SUMS"], folder=PACKAGES)
    for name in ("rt", "rattle", "cg"):
        expect(f"{name} before anything is installed", done(["sh", "-c", f"command -v {name}"])[0] != 0, True)
    for attempt in (try_debian, try_wheel, try_archive):
        attempt()
    expect("what is left at home", names_below("/tmp/home"), set())
    for line in wrong:
        print(f"    {line}")
    return 1 if wrong else 0


sys.exit(main())
