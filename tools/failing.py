"""A small library that stands before the C library's `read` and `write`: it gives and takes in pieces, and lets calls fail."""
import os
import shutil
import subprocess

from command import refuse

FAILING = r'''
#define _GNU_SOURCE
#include <dlfcn.h>
#include <errno.h>
#include <stdlib.h>
#include <sys/types.h>
#include <unistd.h>

/* Gives and takes at most PIECE bytes of the standard streams in a call, or 1, 2, 3 .. bytes in turn where PIECE is -1. The call
   whose number stands in FAIL_READ or FAIL_WRITE fails with the number in ERROR, and tells it by a byte to the file descriptor in
   TELL; with a number below 0 that call and all later ones do. Where the number is that of a closed file, the stream is closed. */
static long number(const char *name) {
    const char *text = getenv(name);
    return text ? atol(text) : 0;
}

static long reads, writes;

static size_t piece(long call, size_t size) {
    long most = number("PIECE");
    if (most < 0)
        most = call % 7 + 1;
    return most && (size_t)most < size ? (size_t)most : size;
}

static int fails(const char *name, long call, int stream) {
    long at = number(name);
    if (!at || (at > 0 ? call != at : call < -at))
        return 0;
    static ssize_t (*real)(int, const void *, size_t);
    if (!real)
        real = (ssize_t (*)(int, const void *, size_t))dlsym(RTLD_NEXT, "write");
    (void)!real((int)number("TELL"), "f", 1);
    if (number("ERROR") == EBADF)
        (void)close(stream);
    errno = (int)number("ERROR");
    return 1;
}

ssize_t read(int from, void *to, size_t size) {
    static ssize_t (*real)(int, void *, size_t);
    if (!real)
        real = (ssize_t (*)(int, void *, size_t))dlsym(RTLD_NEXT, "read");
    if (from != 0)
        return real(from, to, size);
    if (fails("FAIL_READ", ++reads, from))
        return -1;
    return real(from, to, piece(reads, size));
}

ssize_t write(int to, const void *from, size_t size) {
    static ssize_t (*real)(int, const void *, size_t);
    if (!real)
        real = (ssize_t (*)(int, const void *, size_t))dlsym(RTLD_NEXT, "write");
    if (to != 1)
        return real(to, from, size);
    if (fails("FAIL_WRITE", ++writes, to))
        return -1;
    return real(to, from, piece(writes, size));
}
'''


def build(folder):
    """Builds the library in a folder: its path."""
    compiler = shutil.which("cc") or refuse("there is no C compiler (Debian's packages gcc and libc6-dev)")
    source, library = os.path.join(folder, "failing.c"), os.path.join(folder, "failing.so")
    with open(source, "w", encoding="utf-8") as file:
        file.write(FAILING)
    subprocess.run([compiler, "-shared", "-fPIC", "-O1", "-o", library, source, "-ldl"], check=True)
    return library
