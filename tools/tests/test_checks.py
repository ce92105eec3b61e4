"""Each check of .ci/run fails on what it is there for, and on nothing to check."""
import os
import re
import shlex
import shutil
import subprocess
import sys
import tempfile
import unittest

FOLDER = os.path.dirname(os.path.abspath(__file__))
ROOT = os.path.dirname(os.path.dirname(FOLDER))
REAL = os.environ["CG"]
GOOD_PAGE = "```console\n$ echo 1\n1\n```\n"


class Tried(unittest.TestCase):
    """A check, run in a folder of its own with programs that stand in for the real one."""

    def setUp(self):
        holder = tempfile.TemporaryDirectory()
        self.addCleanup(holder.cleanup)
        self.folder = holder.name

    def program(self, script):
        """A program that is a shell script, in which $REAL is the real one."""
        path = os.path.join(self.folder, "program")
        with open(path, "w", encoding="utf-8") as file:
            file.write(f"#!/bin/sh\nREAL={shlex.quote(REAL)}\n{script}\n")
        os.chmod(path, 0o755)
        return path

    def copied(self, *parts):
        """The tools with these parts of the repository, as a repository of its own."""
        top = os.path.join(self.folder, "copy")
        for part in ("tools", *parts):
            source, place = os.path.join(ROOT, part), os.path.join(top, part)
            os.makedirs(os.path.dirname(place), exist_ok=True)
            if os.path.isdir(source):
                shutil.copytree(source, place, ignore=shutil.ignore_patterns("out", "__pycache__", ".mypy_cache"))
            else:
                shutil.copy(source, place)
        return top

    def run_tool(self, *words, top=ROOT, program=REAL, path=None):
        """Runs a tool: its status, and all that it wrote."""
        environment = dict(os.environ, CG=program, **({"PATH": path} if path else {}))
        command = [sys.executable, "-B", os.path.join(top, "tools", words[0]), *words[1:]]
        done = subprocess.run(command, cwd=top, env=environment, capture_output=True, timeout=900, check=False)
        return done.returncode, done.stdout.decode() + done.stderr.decode()

    def fails(self, told, *words, status=1, **given):
        """A tool ends with the status, and says so; where it is bad use, in one line."""
        ended, written = self.run_tool(*words, **given)
        self.assertEqual(ended, status, written)
        self.assertIn(told, written)
        if status == 2:
            self.assertEqual(written.count("\n"), 1, written)

    def built(self, source, *words, kind="c", name="built"):
        """A program in C, or in assembler, built without improvements."""
        path = os.path.join(self.folder, name)
        with open(f"{path}.{kind}", "w", encoding="utf-8") as file:
            file.write(source)
        subprocess.run(["cc", "-O0", "-o", path, f"{path}.{kind}", *words], check=True)
        return path

    def spoilt(self, name, before, behind):
        """A copy of the tools in which a text of one of them is replaced."""
        shutil.rmtree(os.path.join(self.folder, "copy"), ignore_errors=True)
        top = self.copied()
        path = os.path.join(top, "tools", name)
        with open(path, encoding="utf-8") as file:
            text = file.read()
        self.assertEqual(text.count(before), 1, before)
        with open(path, "w", encoding="utf-8") as file:
            file.write(text.replace(before, behind))
        return top

    def page(self, text):
        """The path of a document."""
        path = os.path.join(self.folder, "page.md")
        with open(path, "w", encoding="utf-8") as file:
            file.write(text)
        return path


class BadUse(Tried):
    """One clear line, and status 2."""

    def test_words_that_are_none(self):
        for name in sorted(os.listdir(os.path.join(ROOT, "tools"))):
            path = os.path.join(ROOT, "tools", name)
            if os.path.isfile(path) and "." not in name:
                with self.subTest(name=name):
                    self.fails("--help tells the words)", name, "--nosuchword", status=2)
                    ended, written = self.run_tool(name, "--help")
                    self.assertEqual((ended, written[:6]), (0, "usage:"))

    def test_nothing_is_asked_for(self):
        self.fails("'0' is no whole number from 1 on", "compare-workers", "0", status=2)
        self.fails("'0' is no whole number from 1 on", "compare-workers", "5", "0", status=2)
        self.fails("'0' is no whole number from 1 on", "compare-reference", "--sessions", "0", status=2)
        self.fails("'0' is no number above 0", "compare-reference", "--minutes", "0", status=2)
        self.fails("'0' is no whole number from 1 on", "refuse-allocations", "0", status=2)
        self.fails("'0' is no whole number from 1 on", "refuse-input-output", "0", status=2)
        self.fails("unrecognized arguments: --session", "compare-reference", "--session", "5", status=2)
        self.fails("required: DOCUMENT", "check-examples", status=2)

    def test_a_program_that_is_not_there(self):
        documents = {"check-examples": [self.page(GOOD_PAGE)]}
        for name in ("check-examples", "check-python", "check-formal", "check-tools", "check-words", "compare-reference",
                     "compare-workers", "refuse-allocations", "refuse-input-output", "stack-bound", "memory-bound",
                     "fuzz-sessions", "bench", "board-sizes", "worst-inputs", "search-inputs"):
            with self.subTest(name=name):
                self.fails("/nowhere isn't built", name, *documents.get(name, []), program="/nowhere", status=2)


class Edits(Tried):
    """try-edits, where a program stands in for `rt` that answers what is stored, or something else where an edit is chosen."""

    def rt(self, answer):
        """The path of a folder with this `rt`, and the others."""
        with open(os.path.join(self.folder, "rt"), "w", encoding="utf-8") as file:
            file.write(f"#!{sys.executable}\nimport os, sys\nwords = sys.argv[1:]\nif '--cases' not in words:\n    sys.exit()\n"
                       "cases, crate = words[words.index('--cases') + 1], os.path.basename(os.getcwd())\n"
                       f"stored = open(os.path.join({ROOT!r}, 'crates', crate, 'stdout')).read()\n"
                       "for name in sorted(os.listdir(cases)):\n    if name.endswith('.args'):\n        number = name[:-5]\n"
                       f"        print('== ' + number)\n        print(stored if number == '0' else {answer}, end='')\n"
                       "        print('case=' + number + ' run=ended status=0', file=sys.stderr)\n")
        os.chmod(file.name, 0o755)
        return f"{self.folder}:{os.environ['PATH']}"

    def test_an_edit_that_is_not_there(self):
        self.fails("there is no edit and no crate nowhere", "try-edits", "nowhere", status=2)

    def test_an_edit_that_changes_nothing(self):
        path = self.rt("stored")
        self.fails("| cg_strip hop_left_out | nothing | equivalent |", "try-edits", "cg_strip/hop_left_out", path=path)

    def test_an_edit_that_is_told(self):
        copy = os.path.join(self.folder, "copies")
        path = self.rt("stored.replace('Toads left T', 'Toads right T')")
        ended, written = self.run_tool("try-edits", "--folder", copy, "hop_left_out", path=path)
        self.assertEqual(ended, 0, written)
        self.assertIn("| cg_strip hop_left_out | cg_call_rows | `Toads left T", written)
        with open(os.path.join(copy, "all", "crates", "cg_strip", "src", "hopping.rt"), encoding="utf-8") as file:
            text = file.read()
        self.assertRegex(text, r"cg_chosen::is\(\d+\) \{(?s:.*)next = cell \+ 3;(?s:.*)\} else \{(?s:.*)next = cell \+ 1;")


class Examples(Tried):
    """check-examples."""

    def test_a_good_page(self):
        self.assertEqual(self.run_tool("check-examples", self.page(GOOD_PAGE))[0], 0)

    def test_pages_without_examples(self):
        for told, text in [
            (":1: there is no console block", ""),
            (":1: there is no console block", "```\n$ echo 1\n1\n```\n"),
            (":2: the block begins with no command", "```console\n```\n"),
            (":2: the block begins with no command", "```console\n1\n$ echo 1\n1\n```\n"),
            (":1: the fence isn't closed", "```console\n$ echo 1\n1\n"),
            (":5: the fence isn't closed", GOOD_PAGE + "```console\n$ echo 1\n1\n"),
            (":1: the fence isn't closed before line 4", "```console\n$ echo 1\n1\n" + GOOD_PAGE),
            (":2: the fence is indented", "- a list\n  ```console\n  $ echo 1\n  1\n  ```\n" + GOOD_PAGE),
        ]:
            with self.subTest(text=text):
                self.fails(told, "check-examples", self.page(text))
                self.fails(told, "check-examples", "README.md", self.page(text))

    def test_a_page_that_is_not_there(self):
        self.fails("nowhere/*.md can't be read", "check-examples", "nowhere/*.md", status=2)

    def test_what_commands_do(self):
        for told, text in [
            ("wanted:\n2\nprinted, with status 0:\n1\n", "$ echo 1\n2\n"),
            ("wanted:\n2\nprinted, with status 0:\n1 $x\n", "$ cat\ncg> 1 $x\n2\n"),
            ("with status 3", "$ (exit 3)\n"),
            ("with status none", "$ exit 0\n$ echo 1\n1\n"),
            ("written to standard error:\n1\n", "$ echo 1 >&2\n"),
            ("with status 139", "$ (kill -11 $BASHPID)\n"),
        ]:
            with self.subTest(text=text):
                self.fails(told, "check-examples", self.page(f"```console\n{text}```\n"))


class Programs(Tried):
    """Programs that answer otherwise than they should."""

    CHECKS = (("compare-reference", "--rows"), ("compare-reference", "--sessions", "5"), ("compare-workers", "2"))

    def test_a_program_that_writes_to_standard_error(self):
        for check in self.CHECKS + (("check-words",),):
            with self.subTest(check=check):
                self.fails("", *check, program=self.program('echo "a word" >&2; exec "$REAL" "$@"'))
                self.fails("", *check, program=self.program('exec "$REAL" "$@" >&2'))

    def test_a_program_that_dies_of_a_signal(self):
        for check in self.CHECKS + (("check-words",), ("refuse-allocations", "1")):
            with self.subTest(check=check):
                self.fails("", *check, program=self.program('"$REAL" "$@"; kill -9 $$'))

    def test_a_program_with_another_status(self):
        for check in self.CHECKS[:2]:
            with self.subTest(check=check):
                self.fails("", *check, program=self.program('"$REAL" "$@"; exit 0'))

    def test_a_program_that_answers_nothing(self):
        for check in self.CHECKS[:2] + (("check-words",), ("refuse-allocations", "1")):
            with self.subTest(check=check):
                self.fails("", *check, program=self.program("cat > /dev/null"))

    def test_answers_that_depend_on_the_workers(self):
        script = '"$REAL" "$@" | case "$*" in *"--workers 64"*) sed "s/1/2/";; *) cat;; esac'
        self.fails("differs with 64 workers", "compare-workers", "3", program=self.program(script))

    def test_no_allocation_that_is_refused(self):
        program = self.program('unset LD_PRELOAD; exec "$REAL" "$@"')
        self.fails("no run ended for want of memory", "refuse-allocations", "1", program=program)


class Generator(Tried):
    """compare-reference, where the generator or the reference is spoilt."""

    def built(self, source, *words, kind="c", name="built"):
        """A program in C, or in assembler, built without improvements."""
        path = os.path.join(self.folder, name)
        with open(f"{path}.{kind}", "w", encoding="utf-8") as file:
            file.write(source)
        subprocess.run(["cc", "-O0", "-o", path, f"{path}.{kind}", *words], check=True)
        return path

    def spoilt(self, name, before, behind):
        """The tools, with a text of one file replaced."""
        top = self.copied()
        path = os.path.join(top, "tools", name)
        with open(path, encoding="utf-8") as file:
            text = file.read()
        self.assertEqual(text.count(before), 1, before)
        with open(path, "w", encoding="utf-8") as file:
            file.write(text.replace(before, behind))
        return top

    def test_a_generator_without_heaps(self):
        made = "kind(random.Random(seed))"
        top = self.spoilt("seeded/seeds.py", made, f'[one for one in {made} if "Octal" not in one[1]]')
        self.fails("cause 'octal', cause 'heap', game 'Octal'", "compare-reference", "--sessions", "400", top=top)

    def test_a_process_that_dies(self):
        dies = "    if seed > 20:\n        import os; os._exit(0)\n    turn, place ="
        top = self.spoilt("seeded/seeds.py", "    turn, place =", dies)
        self.fails("a process that compares died", "compare-reference", "--sessions", "400", top=top)

    def test_a_generator_that_fails(self):
        top = self.spoilt("seeded/seeds.py", "    turn, place =", "    turn, place = 1 // 0,")
        self.fails("can't be compared: ZeroDivisionError", "compare-reference", "--sessions", "5", top=top)

    def test_pieces_that_are_lost(self):
        top = self.spoilt("reference/boards.py", "found.append(piece)", "found[:] = [piece]")
        self.fails("Differs", "compare-reference", "--sessions", "100", top=top)

    def test_no_rows(self):
        top = self.copied()
        with open(os.path.join(top, "tools", "reference", "tests", "rows.txt"), "w", encoding="utf-8"):
            pass
        self.fails("there are no rows", "compare-reference", "--rows", top=top)


class Tests(Tried):
    """check-python, check-formal and check-tools."""

    def with_tests(self, text):
        """The repository with one file of tests for the package."""
        top = self.copied("python/cgcalc")
        os.makedirs(os.path.join(top, "python", "tests"))
        for name, written in [("__init__.py", ""), ("test_one.py", text)]:
            with open(os.path.join(top, "python", "tests", name), "w", encoding="utf-8") as file:
                file.write(written)
        return top

    def test_words_that_no_test_has(self):
        for check in ("check-python", "check-formal", "check-tools"):
            with self.subTest(check=check):
                self.fails("there is no such test", check, "nosuchword")

    def test_folders_without_tests(self):
        self.fails("there is no such test", "check-python", top=self.with_tests(""))

    def test_tests_that_fail_or_are_left_out_or_can_not_be_loaded(self):
        case = "import unittest\n\n\nclass One(unittest.TestCase):\n    def test_it(self):\n        "
        for told, text in [
            ("1 tests, 1 failed", case + "self.fail()\n"),
            ("is left out: no vim", case + "self.skipTest('no vim')\n"),
            ("can't be loaded", "import nosuchmodule\n"),
        ]:
            with self.subTest(told=told):
                self.fails(told, "check-python", top=self.with_tests(text))
                shutil.rmtree(os.path.join(self.folder, "copy"))
        self.assertEqual(self.run_tool("check-python", top=self.with_tests(case + "pass\n"))[0], 0)

    def test_a_missing_coq(self):
        needed = os.path.join(self.folder, "bin")
        os.mkdir(needed)
        for name in ("env", "python3"):
            os.symlink(shutil.which(name), os.path.join(needed, name))
        self.fails("coqc isn't found: install Coq 8.16 or later", "check-formal", path=needed)

    def test_a_missing_vim(self):
        places = [place for place in os.environ["PATH"].split(os.pathsep) if not os.path.exists(os.path.join(place, "vim"))]
        needed = os.path.join(self.folder, "bin")
        os.mkdir(needed)
        for name in ("sh", "env", "python3", "cat", "bash"):
            os.symlink(shutil.which(name), os.path.join(needed, name))
        path = os.pathsep.join([needed, *places])
        self.fails("is left out: vim isn't there", "check-python", "test_editors", path=path)

    def test_a_vim_that_shows_no_line(self):
        folder = os.path.join(self.folder, "bin")
        os.mkdir(folder)
        vim = os.path.join(folder, "vim")
        with open(vim, "w", encoding="utf-8") as file:
            file.write("""#!/bin/sh
if [ "$1" = --version ]; then echo +syntax; exit; fi
for script; do :; done
echo cgsession > "$(sed -n "s/.*writefile(said, '\\(.*\\)').*/\\1/p" "$script")"
""")
        os.chmod(vim, 0o755)
        path = folder + os.pathsep + os.environ["PATH"]
        self.fails("2 tests, 2 failed", "check-python", "test_editors.Vim", path=path)


class Pages(Tried):
    """check-pages."""

    def with_pages(self, **pages):
        """The tools with pages, whose names have two lines for a slash and lack their ending."""
        top = os.path.join(self.folder, "copy")
        shutil.rmtree(top, ignore_errors=True)
        self.copied()
        for name, text in pages.items():
            path = os.path.join(top, name.replace("__", os.sep) + ".md")
            os.makedirs(os.path.dirname(path), exist_ok=True)
            with open(path, "w", encoding="utf-8") as file:
                file.write(text)
        return top

    def test_nothing_to_check(self):
        self.fails("0 pages", "check-pages", top=self.with_pages(page="[a link](page.md)\n"))
        code = "```\n[a link](README.md)\n```\n`[one](README.md)`\n"
        self.fails("0 links", "check-pages", top=self.with_pages(README=code))

    def test_pages_without_an_entry(self):
        way = {"README": "[one](docs/one.md)\n", "docs__one": "[two](sub/two.md#two)\n", "docs__sub__two": "# Two\n"}
        self.assertEqual(self.run_tool("check-pages", top=self.with_pages(**way))[0], 0)
        told = "no page that a reader of README.md finds links to docs/"
        self.fails(told + "sub/three.md", "check-pages", top=self.with_pages(**way, docs__sub__three="[one](../one.md)\n"))
        self.fails(told + "sub/two.md", "check-pages", top=self.with_pages(**{**way, "docs__one": "`[two](sub/two.md)`\n"}))

    def test_links(self):
        headings = "# A `page`, it's said\n## Twice\n```\n# Code\n```\n## Twice\n### [A link](#twice) in it\n"
        good = ["other.md", "other.md#a-page-its-said", "other.md#twice", "other.md#twice-1", "#one", "../tools", "https://a.b/c",
                "../tools/command.py", "other.md#a-link-in-it", "<other.md#twice>", 'other.md "a title"']
        bad = ["nowhere.md", "other.md#code", "other.md#twice-2", "#two", "../..", "../tools/command.py#one", "other.md#Twice"]
        for link in good + bad:
            with self.subTest(link=link):
                entries = "[other](docs/other.md) [page](docs/page.md)\n"
                page = f"# One\n[`code`]({link}) [one](#one)\n"
                top = self.with_pages(README=entries, docs__other=headings, docs__page=page)
                ended, written = self.run_tool("check-pages", top=top)
                self.assertEqual(ended, int(link in bad), written)
                self.assertIs(f"docs/page.md:2: the link to {link} leads nowhere" in written, link in bad)


class Claims(Tried):
    """check-claims."""

    CODE = """/// The top call.
pub fn answer() -> u8
    ensures least { result ≡ 0 }
{
    0
}

pub trait Store {
    ghost kept: { Self → ℕ };

    fn claim(&mut self)
        ensures stands { result ≡ 1 };
}

impl<S: Store> Desk<S> {
    fn meet(&self) {}
}

pub enum Status {
    Done,
    Full(u8),
}
"""
    SPEC = """-- A game.
pub data Game : Type 0 where
  node : Game
pub record Given (g : Game) : Type 0 where
  pub made : Unit {0}
"""
    TOP = """ghost use Rattle.cg_low.specs.Games.{Given};

/// The top call.
pub fn run<G>(game: G)
    ensures { Given game }
{
}
"""
    USE = "ghost use Rattle.cg_low.specs.Rules.{Kept};\n\n"
    SECOND = {
        "crates/cg_cells/src/law_steps.rt": "pub fn steps<F>()\n    ensures { Unit {0} }\n{}\n",
        "crates/cg_shared/src/plays.rt": USE + "impl<F: Facts> TableRule for Rule {\n    ghost holds = { Kept };\n}\n",
        "crates/cg_shared/src/pass.rt": "impl Pass {\n    pub fn same(&self) -> bool\n    {\n        true\n    }\n}\n",
        "crates/cg_canon/src/equality.rt": "pub fn equal<S>() -> bool\n{\n    true\n}\n",
        "crates/cg_form/src/laws.rt": "pub fn l1()\n{}\n",
        "crates/cg_low/specs/Rules.antt": "pub Kept : Type 0\nKept = Unit {0}\n",
    }
    """What the second half of the theorem is stated by."""
    LISTING = "| Files |\n|---|\n| cg_low specs/ Games, Rules |\n"
    LINES = "| Files | Lines |\n|---|---|\n| cg_low specs/Games | {} |"
    BLOCK = "```rust crates/cg_low/src/sums.rt\npub enum Status {{\n    {}\n```"
    EDIT = "## Ten wrong bodies\n\n- an answer is less (cg_low `one_less`, `{}`)"
    GOOD = (
        "`answer`: `least`", "`cg_low::sums::answer`: `least`", "`Store`: `claim`, `kept` and `stands`", "`Store::claim`: `stands`",
        "`Desk::meet`", "`Status::Full`", "`Given`: `made`", "cg_low", "cg_low specs/Games; src/sums.rt", "`specs/Games`", "`_low`",
        "`tools/command.py --help`", "`{3|1}`", "crates/cg_low/src/sums.rt", EDIT.format("one_less"), LINES.format(5),
        LINES.format(5) + "\n| all | 5 |", BLOCK.format("Done,"), "```\ncg_low\n```",
    )
    BAD = (
        ("`answer`: `most`", "`answer` has no clause most"),
        ("`Store`: `made`", "`Store` has no clause made"),
        ("`cg_low::other::answer`: `least`", "`cg_low::other::answer` has no clause least"),
        ("`Status::meet`", "nothing is named Status::meet"),
        ("`nothing_such`", "nothing is named nothing_such"),
        ("cg_high", "there is no crate cg_high"),
        ("cg_low specs/ Games, Sums", "there is no crates/cg_low/specs/Sums.antt"),
        ("`tools/nothing --help`", "there is no tools/nothing"),
        ("docs/NOTHING.md", "there is no docs/NOTHING.md"),
        ("`_high`", "no crate's name ends in _high"),
        (EDIT.format("one_more"), "cg_low has no edit one_more"),
        (LINES.format(6), "the files have 5 lines, not 6"),
        (LINES.format(5) + "\n| all | 6 |", "the files have 5 lines, not 6"),
        (BLOCK.format("Full(u8),"), "the block above doesn't stand in"),
        ("```\ncg_high\n```", "there is no crate cg_high"),
    )

    def with_claims(self, text, listing=LISTING):
        """A repository with a crate and the top call, and with a page that has the text, one that has the listing, and four that
        name the crate."""
        top = os.path.join(self.folder, "copy")
        shutil.rmtree(top, ignore_errors=True)
        self.copied()
        pages = {f"docs/{name}.md": "cg_low\n" for name in ("DECISIONS", "DEVELOPING", "ADDING_A_GAME", "ADDING_A_QUESTION")}
        edit = "crates/cg_low/must-fail/one_less.edit"
        files = {"crates/cg_low/src/sums.rt": self.CODE, "crates/cg_low/specs/Games.antt": self.SPEC, edit: ""}
        files.update(self.SECOND, **{"crates/cg_session/src/session.rt": self.TOP})
        for name, content in {**pages, **files, "docs/PROOF.md": listing, "docs/CLAIMS.md": text}.items():
            path = os.path.join(top, name)
            os.makedirs(os.path.dirname(path), exist_ok=True)
            with open(path, "w", encoding="utf-8") as file:
                file.write(content)
        return top

    def test_what_is_there(self):
        for text in self.GOOD:
            with self.subTest(text=text):
                ended, written = self.run_tool("check-claims", top=self.with_claims(f"cg_low\n\n{text}\n"))
                self.assertEqual(ended, 0, written)

    def test_what_is_not_there(self):
        for text, told in self.BAD:
            with self.subTest(text=text):
                self.fails(told, "check-claims", top=self.with_claims(f"cg_low\n\n{text}\n"))

    def test_nothing_named(self):
        self.fails("docs/CLAIMS.md names nothing", "check-claims", top=self.with_claims("All is proved.\n"))

    def test_no_page(self):
        self.fails("there is no docs/PROOF.md", "check-claims", top=self.copied("crates/cg_dyadic"))

    def test_a_file_is_not_listed(self):
        for named, told in [("cg_low specs/Games\n", "Games.antt, on which `run` rests"),
                            ("| cg_low specs/Games |\n", "Rules.antt, on which the rule `Kept` rests")]:
            with self.subTest(named=named):
                top = self.with_claims("cg_low\n", named)
                self.fails(f"docs/PROOF.md lists no crates/cg_low/specs/{told}", "check-claims", top=top)

    def test_a_part_of_the_theorem_is_not_there(self):
        top = self.with_claims("cg_low\n")
        os.remove(os.path.join(top, "crates", "cg_shared", "src", "plays.rt"))
        self.fails("there is no crates/cg_shared/src/plays.rt", "check-claims", top=top)

    def test_lines_are_written(self):
        top = self.with_claims(self.LINES.format(6) + "\n")
        self.assertEqual(self.run_tool("check-claims", "--write", top=top)[0], 0)
        self.assertEqual(self.run_tool("check-claims", top=top)[0], 0)


class Manual(Tried):
    """make-manual."""

    def spoilt(self, before, behind):
        """The tools with the manual, in which a text is replaced."""
        top = self.copied("docs/LANGUAGE.md", "docs/cg.1")
        path = os.path.join(top, "docs", "LANGUAGE.md")
        with open(path, encoding="utf-8") as file:
            text = file.read()
        self.assertIn(before, text)
        with open(path, "w", encoding="utf-8") as file:
            file.write(text.replace(before, behind))
        return top

    def test_the_page_that_is_made(self):
        top = self.spoilt("| `mean E` | the mean |", "| `mean E` | the middle |")
        self.fails("docs/cg.1 isn't what docs/LANGUAGE.md says", "make-manual", "--check", top=top)
        self.assertEqual(self.run_tool("make-manual", top=top), (0, ""))
        self.assertEqual(self.run_tool("make-manual", "--check", top=top)[0], 0)
        with open(os.path.join(top, "docs", "cg.1"), encoding="utf-8") as file:
            self.assertIn("\nthe middle\n", file.read())
        os.remove(os.path.join(top, "docs", "cg.1"))
        self.fails("docs/cg.1 isn't what docs/LANGUAGE.md says", "make-manual", "--check", top=top)

    def test_parts_that_lack(self):
        for told, before, behind in [
            ("a section Questions", "## Questions\n", "## Asked\n"),
            ("a table of Question, Answer", "| Question | Answer |", "| Question | Reply |"),
            ("a list of expressions", "\n- `", "\n* `"),
            ("a table of Option, Range, Default, What it says", "| Option |", "| Word |"),
            ("a table of Status, Comes, Written", "| Status |", "| Number |"),
            ("a usage line", "\n```\ncg ", "\n```text\ncg "),
            ("the option `--cells` in its usage line", "[--cells N]", ""),
            ("an example", "```console", "```sh"),
        ]:
            with self.subTest(told=told):
                top = self.spoilt(before, behind)
                self.fails(f"docs/LANGUAGE.md lacks {told}", "make-manual", top=top)
                shutil.rmtree(top)

    def test_no_page(self):
        self.fails("docs/LANGUAGE.md can't be read", "make-manual", "--check", top=self.copied())


class Style(Tried):
    """check-style."""

    def test_nothing_to_count(self):
        top = self.copied("docs/DEVELOPING.md", "crates.txt")
        self.fails("no file .rt in src/ was found", "check-style", top=top)

    def test_a_count_that_the_page_does_not_state(self):
        top = self.copied("docs/DEVELOPING.md", "crates.txt", "crates/cg_dyadic")
        page = os.path.join(top, "docs", "DEVELOPING.md")
        with open(page, "w", encoding="utf-8"):
            pass
        self.fails("counts above what docs/DEVELOPING.md states", "check-style", top=top)

    def test_a_specification_that_imports_a_proof(self):
        top = self.copied("docs/DEVELOPING.md", "crates.txt", "crates/cg_dyadic")
        page = os.path.join(top, "docs", "DEVELOPING.md")
        with open(page, encoding="utf-8") as file:
            text = re.sub(r"(specifications that import proofs) \| [0-9]+", r"\1 | 0", file.read())
        with open(page, "w", encoding="utf-8") as file:
            file.write(text)
        with open(os.path.join(top, "crates", "cg_dyadic", "specs", "Spoilt.antt"), "w", encoding="utf-8") as file:
            file.write("use Rattle.std.proofs.Common.{arith}\n")
        self.fails("specifications that import proofs: 1 of at most 0", "check-style", top=top)


class Lint(Tried):
    """check-lint."""

    def test_what_is_spoilt(self):
        top = self.copied("python/cgcalc")
        for name, text in [
            ("python/cgcalc/spoilt.py", 'import os\nNUMBER: int = "one"\n'),
            ("python/cgcalc/untyped.py", "def untyped(number):\n    return number\n"),
            ("tools/spoilt.py", "import sys\n"),
        ]:
            with open(os.path.join(top, name), "w", encoding="utf-8") as file:
                file.write(text)
        ended, written = self.run_tool("check-lint", top=top)
        self.assertEqual(ended, 1)
        self.assertIn("./cgcalc/spoilt.py:1:1: F401 'os' imported but unused", written)
        self.assertIn("cgcalc/spoilt.py:2: error: Incompatible types in assignment", written)
        self.assertIn("cgcalc/untyped.py:1: error: Function is missing a type annotation", written)
        self.assertIn("./spoilt.py:1:1: F401 'sys' imported but unused", written)

    def test_linters_that_are_not_there(self):
        self.fails("flake8 isn't there (Debian's package flake8)", "check-lint", path="/nowhere", status=2)


class Gate(Tried):
    """`.ci/run` itself, with stand-ins for all that it runs."""

    def gate(self, python="exit 0", ends=(), prover=0):
        """Runs it: its status, what it wrote, and the tools that it ran. Each tool of `ends` ends with status 5."""
        top = os.path.join(self.folder, "gate")
        places = [os.path.join(top, ".ci"), os.path.join(top, "tools"), os.path.join(top, "bin")]
        for place in places:
            os.makedirs(place, exist_ok=True)
        with open(os.path.join(ROOT, ".ci", "run"), encoding="utf-8") as file:
            script = file.read()
        self.assertIn("PATH=/usr/bin:", script)
        scripts = {".ci/run": script.replace("PATH=/usr/bin:", f"PATH={top}/bin:"), "bin/rt": f"#!/bin/sh\nexit {prover}\n",
                   "bin/python3": f"#!/bin/sh\n{python}\n"}
        for name in os.listdir(os.path.join(ROOT, "tools")):
            scripts[f"tools/{name}"] = f'#!/bin/sh\necho "ran $0 $*"\nexit {5 if name in ends else 0}\n'
        for name, text in scripts.items():
            path = os.path.join(top, name)
            if os.path.isdir(os.path.join(ROOT, name)):
                continue
            with open(path, "w", encoding="utf-8") as file:
                file.write(text)
            os.chmod(path, 0o755)
        environment = dict(os.environ, PATH=os.path.join(top, "bin") + os.pathsep + os.environ["PATH"])
        done = subprocess.run([os.path.join(top, ".ci", "run")], env=environment, capture_output=True, timeout=60, check=False)
        written = done.stdout.decode()
        ran = [line.split()[1].rpartition("/")[2] for line in written.splitlines() if line.startswith("ran ")]
        return done.returncode, written, ran

    def test_the_prover_fails(self):
        self.assertEqual(self.gate(prover=3), (3, "", []))

    def test_an_old_python(self):
        ended, written, ran = self.gate(python="exit 1")
        self.assertEqual((ended, ran, written.count("\n")), (1, [], 1))
        self.assertIn("Python 3.9 or later is needed", written)

    def test_each_step_fails_the_gate(self):
        ended, _, steps = self.gate()
        self.assertEqual(ended, 0)
        for name in ("install-packages", "check-lint", "check-pages", "check-claims", "make-manual", "check-examples",
                     "check-python", "check-formal", "check-tools", "compare-reference", "check-words", "compare-workers",
                     "refuse-allocations", "refuse-input-output", "stack-bound", "memory-bound", "bench",
                     "check-style"):
            with self.subTest(name=name):
                self.assertIn(name, steps)
                ended, _, ran = self.gate(ends=[name])
                self.assertEqual((ended, ran[-1]), (5, name))


class Packages(Tried):
    """install-packages."""

    def tried(self, apt_get, known="exit 1"):
        """Runs it with stand-ins for apt-get, dpkg and dpkg-query."""
        folder = os.path.join(self.folder, "bin")
        os.makedirs(folder, exist_ok=True)
        for name, script in [("apt-get", apt_get), ("dpkg", "exit 0"), ("dpkg-query", known)]:
            with open(os.path.join(folder, name), "w", encoding="utf-8") as file:
                file.write(f"#!/bin/sh\n{script}\n")
            os.chmod(os.path.join(folder, name), 0o755)
        return self.run_tool("install-packages", path=folder + os.pathsep + os.environ["PATH"])

    def test_all_are_there(self):
        self.assertEqual(self.tried("exit 1", known="echo install ok installed"), (0, ""))

    def test_they_can_not_be_installed(self):
        ended, written = self.tried("echo no network; exit 100")
        self.assertEqual((ended, written.count("\n")), (1, 1))
        self.assertRegex(written, "^install-packages: apt-get couldn't install .*flake8 .*: no network$")

    def test_they_are_not_there_all_the_same(self):
        ended, written = self.tried("exit 0")
        self.assertEqual((ended, written.count("\n")), (1, 1))
