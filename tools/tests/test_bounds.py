"""refuse-input-output and stack-bound fail on what they are there for."""
import os
import shutil
import subprocess
import unittest

from test_checks import REAL, Tried


class InputOutput(Tried):
    """refuse-input-output, with programs that meet a fault otherwise than they should."""

    def fault(self, script, *told):
        """The check fails with the program that the script is, and tells these faults."""
        ended, written = self.run_tool("refuse-input-output", "1", program=self.program(script))
        self.assertEqual(ended, 1, written)
        for text in told:
            self.assertIn(text, written)

    def test_the_real_program(self):
        ended, written = self.run_tool("refuse-input-output", "2")
        self.assertEqual(ended, 0, written)
        self.assertIn("40 of them with calls that failed, 0 ended wrong", written)

    def test_a_status_that_is_lost(self):
        self.fault('"$REAL" "$@"; exit 0', "call 1 of read fails by EAGAIN: (0, b'', b'')",
                   "call 1 of write fails by EAGAIN: (0, b'', b'')", "a reader goes away at byte 0: (0, b'', b'')",
                   "/dev/full: (0, None, b'')", "a file of at most 0 bytes: (0, b'', b'')", "closed output: (0, b'', b'')",
                   "closed input: (0, b'', b'')", "an input that is a folder: (0, b'', b'')",
                   "call -1 of read fails by EBADF: (0, b'', b'')", "call -1 of write fails by EBADF: (0, b'', b'')",
                   "call 1 of write fails by ENOSPC: (0, b'', b'')", "a pipe that doesn't wait, and has 0 bytes: (0, b'', b'')",
                   "a pipe that doesn't wait, and has room for 0 bytes: (0, True, b'')")

    @unittest.skipUnless(os.geteuid() == 0, "only root mounts a file system")
    def test_a_file_system_that_is_full(self):
        self.fault('"$REAL" "$@"; exit 0', "a file system with room for 0 bytes: (0, b'', b'')",
                   "a file system with room for 1 bytes: (0, b'2', b'')")
        self.fault('"$REAL" "$@" | LD_PRELOAD= tr 2 3; exit 4', "a file system with room for 1 bytes: (4, b'3', b'")

    def test_a_pipe_with_little_room(self):
        """A program that writes what is no answer into the room that is left."""
        self.fault('"$REAL" "$@"; ended=$?; [ $ended = 4 ] && LD_PRELOAD= /usr/bin/printf x; exit $ended',
                   "a pipe that doesn't wait, and has room for 353 bytes: (4, False, b'')")

    def test_a_call_that_is_made_again(self):
        """A program that goes on after EINTR, EAGAIN or another error of one call."""
        self.fault('timeout 3 cat > "$0.$$"; FAIL_WRITE= "$REAL" "$@" < "$0.$$"', "call 1 of write fails by EINTR: (0, b'2: ^*")

    def test_another_status(self):
        self.fault('"$REAL" "$@"; ended=$?; [ $ended = 4 ] && exit 3; exit $ended', "/dev/full: (3, None, b'')")

    def test_words_on_standard_error(self):
        self.fault('"$REAL" "$@"; ended=$?; [ $ended = 3 ] && echo fault >&2; exit $ended',
                   "an input that is a folder: (3, b'', b'fault\\n')")

    def test_answers_that_are_others(self):
        self.fault('"$REAL" "$@" | sed "s/2/3/"; exit 4', "a file of at most 353 bytes: (4, b'3: ^*")

    def test_a_reader_that_goes_away(self):
        self.fault('"$REAL" "$@" > "$0.$$"; cat "$0.$$"', "a reader goes away at byte 0: (141, b'', b'')")

    def test_no_call_fails(self):
        self.fault('unset LD_PRELOAD; exec "$REAL" "$@"', "no call failed")

    def test_a_fault_that_is_not_told(self):
        """After a call that failed the answers are written anew."""
        self.fault('LD_PRELOAD= cat > "$0.$$"; "$REAL" "$@" < "$0.$$" > "$0.text.$$"; ended=$?; [ $ended = 4 ] || exit $ended\n'
                   'LD_PRELOAD= exec "$REAL" "$@" < "$0.$$"', "call 1 of write fails by EAGAIN: (0, b'2: ^*")


# A function that takes a size of the stack, some bytes of it at a time, as compilers do that touch each page.
PROBED = """
    .globl main
main:
    push %rbp
    mov %rsp,%rbp
    {size}
    mov %rsp,%rsi
    sub %rax,%rsi
1:  cmp %rsp,%rsi
    jge 2f
    xorq $0,(%rsp)
    sub $3072,%rsp
    jmp 1b
2:  {end}
    {behind}
    mov %rbp,%rsp
    pop %rbp
    ret
"""
# A function of many ways, which a table lists.
CASES = "".join(f"    case {n}: return g({n * n % 77}) + {n};\n" for n in range(20))
SWITCH = f"""int g(int);
int main(int n, char **w) {{
    switch (n) {{
{CASES}    }}
    return 0;
}}
int g(int n) {{ return n + 1; }}
"""


class Stack(Tried):
    """stack-bound, with programs that it can't answer for."""

    def probed(self, size="mov $0,%eax", end="mov %rsi,%rsp", behind=""):
        """A program that takes a size of the stack in steps."""
        return self.built(PROBED.format(size=size, end=end, behind=behind), "-Wl,-z,noexecstack", kind="s")

    def test_the_real_program(self):
        ended, written = self.run_tool("stack-bound", "--run")
        self.assertEqual(ended, 0, written)
        self.assertIn("the deepest inputs are answered at ulimit -s", written)

    def test_a_recursion_without_a_depth(self):
        top = self.spoilt("stack-bound", '    ("cg_eval::evaluate::", 1_024, "its measure: the levels of an expression"),\n', "")
        self.fails("cg_eval::evaluate::", "stack-bound", top=top)
        self.fails("NO DEPTH IS KNOWN", "stack-bound", top=top)

    def test_recursions_are_seen(self):
        source = "int g(int);\nint f(int n) { return n ? g(n - 1) + 1 : 0; }\nint g(int n) { return n ? f(n - 1) + 2 : 0; }\n"
        program = self.built(source + "int main(void) { return f(3); }\n")
        self.fails("0  f: NO DEPTH IS KNOWN", "stack-bound", program=program)

    def test_what_can_not_be_read(self):
        program = self.built("int main(int n, char **w) { int (*f)(int, char **) = w[n] ? main : 0; return f(n, w); }\n")
        self.fails("main has what can't be read: call", "stack-bound", program=program)
        program = self.built("int f(int n) { char a[n]; a[0] = 1; return a[0]; }\nint main(int n, char **w) { return f(n); }\n",
                             "-fno-stack-clash-protection")
        self.fails("f has what can't be read: sub", "stack-bound", program=program)

    def test_a_stack_pointer_that_is_moved(self):
        """One that is set to a known place can be read, and any other can't."""
        for size, told in ("xor %eax,%eax", 8 + 8), ("mov $48,%eax", 8 + 8 + 3072), ("mov $7000,%eax", 8 + 8 + 9216):
            program = self.probed(size)
            self.fails(f"the first thread needs at most {told + 65_536:,} bytes", "stack-bound", program=program)
            self.assertNotIn("can't be read", self.run_tool("stack-bound", program=program)[1])
        endless = "a stack pointer that goes on and on: "
        for part, words, told in (("size", "mov %rdi,%rax", endless + "cmp"), ("end", "mov %rdi,%rsp", "mov    %rdi,%rsp"),
                                  ("behind", "sub %rdi,%rsp", "sub    %rdi,%rsp"),
                                  ("behind", "mov 8(%rbp),%rsp", "mov    0x8(%rbp),%rsp"),
                                  ("behind", "xchg %rdi,%rsp", "xchg   %rdi,%rsp"),
                                  ("behind", "enter $8,$0", "enter  $0x8,$0x0"),
                                  ("behind", "3: push %rax; jmp 3b", endless + "push"),
                                  ("behind", "mov %rsp,%rbp", "48 bytes that stay: ret"),
                                  ("behind", "ret", "56 bytes that stay: ret"), ("behind", "ret $8", "ret    $0x8"),
                                  ("behind", "3: loop 3b", "loop"), ("behind", "jmp *%rdi", "jmp    *%rdi")):
            with self.subTest(words=words):
                program = self.probed(**{"size": "mov $48,%eax", part: words})
                self.fails("main has what can't be read: " + told, "stack-bound", program=program)

    def test_each_way_is_gone(self):
        """A function whose ways a table lists is read whole; instructions that no way reaches are told."""
        program = self.built(SWITCH, "-O2", "-fno-inline", "-fcf-protection=none")
        ended, written = self.run_tool("stack-bound", program=program)
        self.assertEqual(ended, 1)
        self.assertNotIn("can't be read", written)
        program = self.probed("jmp 4f; mov %rdi,%rsp; 4: mov $48,%eax")
        self.fails("main has what can't be read: no way reaches mov", "stack-bound", program=program)

    def test_a_program_without_names(self):
        path = os.path.join(self.folder, "stripped")
        shutil.copy(REAL, path)
        subprocess.run(["strip", path], check=True)
        self.fails("where the first thread begins can't be found", "stack-bound", program=path)

    def test_too_little_stack(self):
        top = self.spoilt("stack-bound", "twice = -(-most // 512)", "twice = 200")
        self.fails("sums by names, 64 workers: not answered at ulimit -s 200", "stack-bound", "--run", top=top)
