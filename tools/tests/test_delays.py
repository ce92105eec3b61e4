"""The delays before the C library's calls for threads are delays, and they find what only delays show."""
import os
import subprocess
import sys
import unittest

from test_checks import ROOT, Tried

sys.path.insert(0, os.path.join(ROOT, "tools"))
import delays  # noqa: E402

# Prints ten numbers that are drawn, how many of 300 waits sleep, how many give up the processor, and the longest sleep.
DRAWN = """#define usleep slept
#define sched_yield gave_up
{delays}
#include <stdio.h>
static unsigned long longest, sleeps, yields;
int slept(unsigned number) {{ sleeps++; if (number > longest) longest = number; return 0; }}
int gave_up(void) {{ yields++; return 0; }}
int main(void) {{
    for (int n = 0; n < 10; n++) printf("%lu ", draw());
    for (int n = 0; n < 300; n++) wait_up_to(1000);
    printf("%lu %lu %lu\\n", sleeps, yields, longest);
}}
"""
# Three threads add what they are given; memory that grows keeps what stands in it.
THREADS = """#include <pthread.h>
#include <stdio.h>
#include <stdlib.h>
static long sum;
static pthread_mutex_t alone = PTHREAD_MUTEX_INITIALIZER;
static void *add(void *given) {
    pthread_mutex_lock(&alone);
    sum += (long)given;
    pthread_mutex_unlock(&alone);
    return given;
}
int main(void) {
    pthread_t threads[3];
    long back = 0, *room = 0;
    for (long n = 0; n < 3; n++) if (pthread_create(&threads[n], 0, add, (void *)(n + 1))) return 1;
    for (int n = 0; n < 3; n++) { void *result; if (pthread_join(threads[n], &result)) return 2; back += (long)result; }
    for (long n = 0; n < 500; n++) { room = realloc(room, (n + 1) * sizeof *room); room[n] = n; }
    for (long n = 0; n < 500; n++) if (room[n] != n) return 3;
    printf("%ld %ld %d\\n", sum, back, pthread_self() != 0);
    return 0;
}
"""
# A program that waits for its thread where it is one, and not for more of them.
HASTY = """#include <pthread.h>
#include <stdio.h>
#include <stdlib.h>
#include <unistd.h>
static volatile int done[64];
static void *work(void *given) { *(volatile int *)given = 1; return 0; }
int main(int n, char **words) {
    int workers = atoi(words[2]), all = 0;
    for (int n = 0; n < workers; n++) { pthread_t thread; pthread_create(&thread, 0, work, (void *)&done[n]); }
    while (workers == 1 && !done[0]) usleep(100);
    for (int n = 0; n < workers; n++) all += done[n];
    puts(all == workers ? "answered" : "some lines lack");
    fflush(stdout);
    _exit(0);
}
"""


class Delays(Tried):
    """The library of delays, as it stands and with faults."""

    def drawn(self, seed, text=delays.DELAYS):
        """What the library draws, and how it waits: how often it sleeps, how often it gives up the processor, the longest sleep."""
        program = self.built(DRAWN.format(delays=text), "-pthread", "-ldl", "-w")
        environment = {**os.environ, "DELAY_SEED": str(seed)} if seed is not None else {}
        done = subprocess.run([program], env=environment, capture_output=True, timeout=60, check=True)
        *numbers, sleeps, yields, longest = map(int, done.stdout.split())
        return numbers, sleeps, yields, longest

    def test_what_is_drawn(self):
        """Equal seeds draw equal numbers, different ones different numbers."""
        numbers = self.drawn(1)[0]
        self.assertEqual(len(set(numbers)), 10)
        self.assertEqual(self.drawn(1)[0], numbers)
        for seed in (None, 2, 3, 1_000_000):
            self.assertEqual(set(numbers) & set(self.drawn(seed)[0]), set(), seed)

    def assert_waits(self, seed, text=delays.DELAYS):
        """Two of three waits sleep, less long than they may and nearly as long, and each third gives up the processor."""
        _, sleeps, yields, longest = self.drawn(seed, text)
        self.assertEqual(sleeps + yields, 300)
        self.assertTrue(150 < sleeps < 250, sleeps)
        self.assertTrue(900 < longest < 1_000, longest)

    def test_how_it_waits(self):
        for seed in (1, 2, 77):
            self.assert_waits(seed)

    def test_waits_that_are_none(self):
        for before, behind in (("usleep(number / 3 % most);", ";"), (" % most", ""), (" % most", " % (most / 2)"),
                               ("number % 3)", "1)"), ("number % 3)", "0)")):
            self.assertEqual(delays.DELAYS.count(before), 1, before)
            with self.subTest(behind=behind), self.assertRaises(AssertionError):
                self.assert_waits(1, delays.DELAYS.replace(before, behind))

    def run_with_delays(self, seed=1):
        """How the program of three threads ends with the library, what it writes, and whether something was delayed."""
        program, library = self.built(THREADS, "-pthread"), delays.build(self.folder)
        told, tell = os.pipe()
        environment = dict(os.environ, LD_PRELOAD=library, DELAY_SEED=str(seed), DELAY_TELL=str(tell))
        done = subprocess.run([program], env=environment, capture_output=True, timeout=60, check=False, pass_fds=(tell,))
        os.close(tell)
        with open(told, "rb") as file:
            return done.returncode, done.stdout, file.read()

    def test_calls_do_what_they_did(self):
        for seed in (1, 2, 3):
            self.assertEqual(self.run_with_delays(seed), (0, b"6 6 1\n", b"d"))

    def test_a_program_that_is_hasty(self):
        self.fails("workers and delays", "compare-workers", "--long", "1",
                   program=self.built(HASTY, "-pthread"))

    def test_faults_of_the_library(self):
        """Delays that aren't told, and a library that breaks what it stands before."""
        for before, behind, told in (('(void)!write(atoi(tell), "d", 1);', ";", "or nothing was delayed"),
                                     ("return begun.run(begun.given);", "return 0;", "and delays")):
            with self.subTest(behind=behind):
                top = self.spoilt("delays.py", before, behind)
                self.fails(told, "compare-workers", "--long", "1", top=top)


if __name__ == "__main__":
    unittest.main()
