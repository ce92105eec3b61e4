"""bench --check, search-inputs, memory-bound and compare-workers --long fail on what they are there for."""
import os
import shutil
import signal
import subprocess
import sys
import time
import unittest

from test_checks import ROOT, Tried

NAME = "64 braces"


class Instructions(Tried):
    """bench --check, with other numbers than the program takes."""

    def stored(self, top, text):
        """Writes the stored numbers of a copy of the tools."""
        with open(os.path.join(top, "tools", "instructions.txt"), "w", encoding="utf-8") as file:
            file.write(text)

    def test_numbers_that_differ(self):
        top = self.copied()
        number = self.number(top)
        self.check(top, 0, "1 sessions, ")
        for part, ended, told in ((1.03, 0, "0 wrong"), (1 / 1.03, 0, "0 wrong"), (1.13, 1, "write the better number"),
                                  (1 / 1.07, 1, " instructions are 1.070 of the ")):
            with self.subTest(part=part):
                self.stored(top, f"{round(number * part):,}\t{NAME}\n")
                self.check(top, ended, told)
        self.stored(top, f"{number:,}\tanother session\n")
        self.check(top, 1, "and no number is stored")

    def check(self, top, wanted, told, **given):
        """Counts one session, and compares the number."""
        ended, written = self.run_tool("bench", "--check", "--only", NAME, top=top, **given)
        self.assertEqual(ended, wanted, written)
        self.assertIn(told, written)

    def number(self, top, **given):
        """Stores one session's number, and reads it."""
        self.stored(top, "")
        ended, written = self.run_tool("bench", "--store", "--only", NAME, top=top, **given)
        self.assertEqual(ended, 0, written)
        with open(os.path.join(top, "tools", "instructions.txt"), encoding="utf-8") as file:
            return int(file.readlines()[-1].split()[0].replace(",", ""))

    def test_numbers_do_not_depend_on_place_and_environment(self):
        """A few instructions may differ from run to run."""
        top = self.copied()
        before = self.number(top)
        longer = os.path.join(self.folder, "a/folder/with/a/long/name" * 3)
        os.makedirs(longer)
        program = os.path.join(longer, "another-name-of-the-program")
        os.symlink(os.environ["CG"], program)
        os.environ.update({"A_LONG_WORD": "x" * 5_000, "VALGRIND_OPTS": "--cache-sim=yes", "LANG": "de_DE.UTF-8"})
        self.addCleanup(lambda: [os.environ.pop(name) for name in ("A_LONG_WORD", "VALGRIND_OPTS", "LANG")])
        self.assertAlmostEqual(self.number(top, program=program), before, delta=100)

    def test_what_can_not_be_counted(self):
        top = self.copied()
        self.stored(top, f"1,000\t{NAME}\n")
        self.check(top, 1, f"{NAME}: status 3", program=self.program("exit 3"))
        self.fails("valgrind isn't there", "bench", "--check", path="/nowhere", status=2)
        self.fails("0 sessions", "bench", "--check", "--only", "no such session")


class Search(Tried):
    """search-inputs, with a program that breaks."""

    def test_a_session_that_breaks_the_program(self):
        self.fails("status -11: ", "search-inputs", "0.02", program=self.program("kill -11 $$"))
        self.fails("status 3: ", "search-inputs", "0.02", program=self.program("exit 3"))

    def test_what_is_found(self):
        ended, written = self.run_tool("search-inputs", "0.05")
        self.assertEqual(ended, 0, written)
        self.assertRegex(written, r"1: \d+ bytes, -?[\d,.]+ microseconds each: ")
        folder = written.split()[-1]
        self.addCleanup(shutil.rmtree, folder)
        self.assertIn("1.txt", os.listdir(folder))

    def test_sessions_that_take_memory(self):
        ended, written = self.run_tool("search-inputs", "--memory", "0.05")
        self.assertEqual(ended, 0, written)
        self.assertRegex(written, r"1: \d+ bytes, -?[\d,.]+ KB: ")
        shutil.rmtree(written.split()[-1])

    def test_sessions_that_take_more_memory_than_they_may(self):
        """The sessions are kept; those that write much are stopped, and count for nothing."""
        program = self.program('/usr/bin/python3 -c "b = bytearray(b\'1\') * (260 << 20)"; exec "$REAL" "$@"')
        ended, written = self.run_tool("search-inputs", "--memory", "0.01", program=program)
        self.assertEqual(ended, 1, written)
        self.assertRegex(written, r"search-inputs: 2\d\d MB, and may take [12]\d\d: ")
        self.assertIn("bad-1.txt", os.listdir(written.split()[-1]))
        shutil.rmtree(written.split()[-1])
        ended, written = self.run_tool("search-inputs", "--memory", "0.01", program=self.program("exec yes"))
        self.assertRegex(written, r"^search-inputs: \d+ runs, 0 ended badly;")
        shutil.rmtree(written.split()[-1])


class Memory(Tried):
    """memory-bound, with programs that take more."""

    def test_the_real_program(self):
        ended, written = self.run_tool("memory-bound", "long")
        self.assertEqual(ended, 0, written)
        self.assertIn("memory-bound: 2 sessions, 0 wrong", written)

    def test_a_program_that_takes_more(self):
        for megabytes, wanted in (200, 1), (20, 0):
            program = self.program(f'/usr/bin/python3 -c "b = bytearray(b\'1\') * ({megabytes} << 20)"; exec "$REAL" "$@"')
            ended, written = self.run_tool("memory-bound", "a sum as long", program=program)
            self.assertEqual(ended, wanted, written)
            self.assertEqual("it took more than its bound" in written, bool(wanted))

    def test_sessions_that_are_not_answered(self):
        self.fails("a sum as long as may be: status 5", "memory-bound", "a sum as long", program=self.program("exit 5"))
        self.fails("no session has such a name", "memory-bound", "nonesuch", status=2)


class Threads(Tried):
    """compare-workers --long, with programs that answer otherwise under some circumstances."""

    def differs(self, when, told):
        """The check fails where a program answers otherwise when this holds."""
        script = f'{when} && {{ "$REAL" "$@" | sed "s/1/2/"; exit; }}\nexec "$REAL" "$@"'
        self.fails(told, "compare-workers", "--long", "1", program=self.program(script))

    def test_the_real_program(self):
        ended, written = self.run_tool("compare-workers", "--long", "1")
        self.assertEqual(ended, 0, written)
        self.assertIn("19 runs, 0 wrong", written)

    def test_answers_that_depend_on_circumstances(self):
        self.differs('[ "$2" = 7 ]', "long session 1 differs with 7 workers\n")
        self.differs('[ "$(nproc)" = 1 ]', "long session 1 differs with 2 workers on one processor\n")
        self.differs('[ -n "$LD_PRELOAD" ]', "long session 1 differs with 3 workers and delays")

    def test_nothing_is_delayed(self):
        program = self.program('unset LD_PRELOAD; exec "$REAL" "$@"')
        self.fails("or nothing was delayed", "compare-workers", "--long", "1", program=program)

    def test_a_seed(self):
        """A piece of a long run begins with its own seed."""
        script = '[ "$2" = 3 ] && exit 1; exec "$REAL" "$@"'
        for words, first in ((("--long",), "long session 7"), ((), "session 7")):
            ended, written = self.run_tool("compare-workers", *words, "--seed", "7", "1", program=self.program(script))
            self.assertEqual(ended, 1, written)
            self.assertIn(f"compare-workers: {first} differs with 3 workers\n", written)
            self.assertNotIn("session 1 ", written)

    def test_sessions_side_by_side(self):
        """As many run at once as is said."""
        script = 'touch "$0-$$"; sleep 0.2; [ "$(ls "$0"-* | wc -l)" -gt 1 ] && touch "$0.both"\n"$REAL" "$@"; end=$?; rm "$0-$$"\n'
        for jobs, both in ("1", False), ("2", True):
            ended, written = self.run_tool("compare-workers", "--jobs", jobs, "2", program=self.program(script + "exit $end"))
            self.assertEqual(ended, 0, written)
            self.assertEqual(os.path.exists(os.path.join(self.folder, "program.both")), both)

    def test_a_run_without_end(self):
        top = self.spoilt("compare-workers", "SECONDS = 600", "SECONDS = 1")
        program = self.program('[ "$2" = 8 ] && exec sleep 9; exec "$REAL" "$@"')
        self.fails("session 1 differs with 8 workers", "compare-workers", "1", top=top, program=program)

    def test_an_end_before_the_end(self):
        """Ctrl-C ends it, with a tally of what was compared."""
        environment = dict(os.environ, CG=self.program('touch "$0.begun"; sleep 0.1; exec "$REAL" "$@"'))
        words = [sys.executable, "-B", os.path.join(ROOT, "tools", "compare-workers"), "--jobs", "1", "100000"]
        words = ["sh", "-c", 'trap "" INT; exec "$@"', "sh", *words]  # as a shell starts what runs in the background
        with subprocess.Popen(words, env=environment, stdout=subprocess.PIPE, stderr=subprocess.STDOUT) as started:
            for _ in range(600):
                if os.path.exists(os.path.join(self.folder, "program.begun")):
                    break
                time.sleep(0.1)
            started.send_signal(signal.SIGINT)
            written = started.stdout.read().decode()
        self.assertEqual(started.returncode, 130, written)
        self.assertRegex(written, r"compare-workers: \d+ sessions .*, 0 wrong, ended before its end\n$")


if __name__ == "__main__":
    unittest.main()
