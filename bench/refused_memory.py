#!/usr/bin/env python3
"""Refused memory: python3 bench/refused_memory.py PROGRAM [SCRIPT..]

Runs the built program over each script (without a name over three that stand here and in examples/) once for each of
its allocations, which is refused, and once more for each, where that one and all later ones are. Such a run ends with
status 7 and has written nothing, or it ends as the run that is not disturbed, with the same report. Prints how many
allocations were refused, and each run that ends otherwise; the status is then 1.

The refusals are those of malloc, calloc and realloc of the C library, by a small library that is compiled here and
loaded before it. Only runs on one thread are tried, where the order of allocations is the same each time."""
import os
import subprocess
import sys
import tempfile

REFUSER = r"""
#define _GNU_SOURCE
#include <dlfcn.h>
#include <errno.h>
#include <stdio.h>
#include <stdlib.h>

static void *(*real_malloc)(size_t);
static void *(*real_calloc)(size_t, size_t);
static void *(*real_realloc)(void *, size_t);
static long calls, first, last;

/* Counts from the program's start on: what the loader needs is given. */
__attribute__((constructor)) static void begin(void) {
    real_malloc = dlsym(RTLD_NEXT, "malloc");
    real_calloc = dlsym(RTLD_NEXT, "calloc");
    real_realloc = dlsym(RTLD_NEXT, "realloc");
    const char *from = getenv("REFUSE_FROM"), *to = getenv("REFUSE_TO");
    first = from ? atol(from) : 0;
    last = to ? atol(to) : 0;
    calls = 0;
}

/* A program that may start threads ends by _exit, where no destructor runs. */
static void end(void) {
    const char *path = getenv("REFUSE_COUNT");
    long counted = calls;
    first = last = 0;
    FILE *out = path ? fopen(path, "w") : NULL;
    if (out) {
        fprintf(out, "%ld", counted);
        fclose(out);
    }
}

void _exit(int status) {
    end();
    void (*real_exit)(int) = dlsym(RTLD_NEXT, "_exit");
    real_exit(status);
    abort();
}

__attribute__((destructor)) static void end_of_all(void) {
    end();
}

static int refused(void) {
    calls++;
    if (first == 0 || calls < first || calls > last) return 0;
    errno = ENOMEM;
    return 1;
}

void *malloc(size_t size) {
    if (!real_malloc) real_malloc = dlsym(RTLD_NEXT, "malloc");
    return refused() ? NULL : real_malloc(size);
}

void *calloc(size_t count, size_t size) {
    if (!real_calloc) real_calloc = dlsym(RTLD_NEXT, "calloc");
    return refused() ? NULL : real_calloc(count, size);
}

void *realloc(void *old, size_t size) {
    if (!real_realloc) real_realloc = dlsym(RTLD_NEXT, "realloc");
    return refused() ? NULL : real_realloc(old, size);
}
"""

HERE = os.path.dirname(os.path.abspath(__file__))
SCRIPTS = [HERE + "/../examples/first.script", HERE + "/../examples/crash_between_writes.script", HERE + "/five_indexes.script"]
FOR_EVER = 1 << 62


class Runs:
    """Runs of one program over one script."""

    def __init__(self, program, script, folder):
        self.program, self.script, self.library, self.count = program, script, folder + "/refuser.so", folder + "/count"

    def run(self, first=0, last=0):
        """The status, the report, and how many allocations were asked for."""
        env = dict(os.environ, LD_PRELOAD=self.library, REFUSE_FROM=str(first), REFUSE_TO=str(last), REFUSE_COUNT=self.count)
        with open(self.script, "rb") as script:
            done = subprocess.run([self.program, "run"], stdin=script, stdout=subprocess.PIPE, stderr=subprocess.DEVNULL, env=env, timeout=120)
        with open(self.count) as count:
            return done.returncode, done.stdout, int(count.read())

    def try_all(self):
        """How many runs end as they must not."""
        status, report, count = self.run()
        wants, unharmed, bad = 0, 0, 0
        for number in range(1, count + 1):
            for last in (number, FOR_EVER):
                ended, written, _ = self.run(number, last)
                if (ended, written) == (7, b""):
                    wants += 1
                elif (ended, written) == (status, report):
                    unharmed += 1
                else:
                    bad += 1
                    print("%s: allocation %d%s: status %d, %d bytes" % (
                        os.path.basename(self.script), number, " and all later" if last != number else "", ended, len(written)))
        print("%s: status %d; %d allocations refused, alone and with all later: %d runs out of memory, %d as undisturbed, %d wrong" % (
            os.path.basename(self.script), status, count, wants, unharmed, bad))
        return bad + (count == 0)


def main():
    program, scripts = os.path.abspath(sys.argv[1]), sys.argv[2:] or SCRIPTS
    with tempfile.TemporaryDirectory() as folder:
        with open(folder + "/refuser.c", "w") as source:
            source.write(REFUSER)
        subprocess.run(["cc", "-O1", "-shared", "-fPIC", "-o", folder + "/refuser.so", folder + "/refuser.c", "-ldl"], check=True)
        bad = sum([Runs(program, script, folder).try_all() for script in scripts])
    sys.exit(1 if bad else 0)


if __name__ == "__main__":
    main()
