"""A small library that stands before the C library's calls for threads and memory, and lets each wait at random."""
import os
import shutil
import subprocess

from command import refuse

DELAYS = r'''
#define _GNU_SOURCE
#include <dlfcn.h>
#include <pthread.h>
#include <sched.h>
#include <stdatomic.h>
#include <stdint.h>
#include <stdlib.h>
#include <unistd.h>

/* Waits up to so many microseconds, or gives up the processor, as numbers say that are drawn by the seed in DELAY_SEED; those of
   neighbouring seeds have nothing in common. DELAY_TELL is a file descriptor to which the first delay writes a byte. */
static atomic_ulong drawn;
static int told;

static unsigned long draw(void) {
    static unsigned long seed;
    if (!seed) {
        const char *text = getenv("DELAY_SEED"), *tell = getenv("DELAY_TELL");
        seed = (text ? strtoul(text, 0, 10) : 0) * 2 + 1;
        if (tell && !told++)
            (void)!write(atoi(tell), "d", 1);
    }
    unsigned long number = (atomic_fetch_add(&drawn, 1) + seed * 0xD1342543DE82EF95ul) * 0x9E3779B97F4A7C15ul;
    return (number ^ number >> 29) * 0xBF58476D1CE4E5B9ul >> 33;
}

static void wait_up_to(unsigned long most) {
    unsigned long number = draw();
    if (number % 3)
        usleep(number / 3 % most);
    else
        sched_yield();
}

#define NEXT(type, name) static __typeof__(type) real; if (!real) real = (__typeof__(type))dlsym(RTLD_NEXT, name)

struct begun { void *(*run)(void *); void *given; };

static void *begin(void *of) {
    struct begun begun = *(struct begun *)of;
    free(of);
    wait_up_to(2000);
    return begun.run(begun.given);
}

int pthread_create(pthread_t *thread, const pthread_attr_t *how, void *(*run)(void *), void *given) {
    NEXT(int (*)(pthread_t *, const pthread_attr_t *, void *(*)(void *), void *), "pthread_create");
    struct begun *begun = malloc(sizeof *begun);
    if (!begun)
        return real(thread, how, run, given);
    *begun = (struct begun){run, given};
    wait_up_to(1000);
    int ended = real(thread, how, begin, begun);
    if (ended)
        free(begun);
    return ended;
}

int pthread_join(pthread_t thread, void **result) {
    NEXT(int (*)(pthread_t, void **), "pthread_join");
    wait_up_to(1000);
    return real(thread, result);
}

pthread_t pthread_self(void) {
    NEXT(pthread_t (*)(void), "pthread_self");
    wait_up_to(100);
    return real();
}

void *realloc(void *old, size_t size) {
    NEXT(void *(*)(void *, size_t), "realloc");
    if (draw() % 64 == 0)
        wait_up_to(100);
    return real(old, size);
}
'''


def build(folder):
    """Builds the library in a folder: its path."""
    compiler = shutil.which("cc") or refuse("there is no C compiler (Debian's packages gcc and libc6-dev)")
    source, library = os.path.join(folder, "delays.c"), os.path.join(folder, "delays.so")
    with open(source, "w", encoding="utf-8") as file:
        file.write(DELAYS)
    subprocess.run([compiler, "-shared", "-fPIC", "-O1", "-pthread", "-o", library, source, "-ldl"], check=True)
    return library
