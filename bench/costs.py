#!/usr/bin/env python3
"""What twice the size costs: python3 bench/costs.py PROGRAM PARTS

PROGRAM is the built program, PARTS the built `bench/parts`. Each line is a size, its processor time, that of twice the size,
and the quotient."""
import json
import os
import subprocess
import sys
import tempfile

from large_runs import settled

PARTS = [("joined_sets", 10000), ("apart_sets", 10000), ("queue", 20000), ("table", 20000), ("delays", 5000), ("basis", 5000)]


def seconds(words, stdin=subprocess.DEVNULL):
    """The processor time of the process."""
    run = subprocess.Popen(words, stdin=stdin, stdout=subprocess.DEVNULL)
    _, status, usage = os.wait4(run.pid, 0)
    return usage.ru_utime + usage.ru_stime


def tell(name, size, once, twice):
    print("%s: %d: %.3f s, twice: %.3f s, %.2f times" % (name, size, once, twice, twice / once))


def played(program, lines, words=()):
    """The processor time of the play of a script."""
    with tempfile.TemporaryFile("w+") as script:
        for line in lines:
            script.write(json.dumps(line) + "\n")
        script.seek(0)
        return seconds([program, "run", *words], script)


def main():
    program, parts = sys.argv[1:3]
    for name, size in PARTS:
        tell(name, size, seconds([parts, name, str(size)]), seconds([parts, name, str(2 * size)]))
    # The play of one wide Job: each of its syncs has a plan, which looks at all its pods.
    wide = [played(program, settled(1, completions=n, parallelism=n), ["--events", str(40 * n)]) for n in (2500, 5000)]
    tell("pods of one Job at once", 2500, *wide)
    # The report has the verdicts of all Jobs.
    many = [played(program, settled(100, completions=n, parallelism=5)) for n in (30, 60)]
    tell("100 Jobs, completions of each", 30, *many)
    jobs = [played(program, settled(n, completions=30, parallelism=5)) for n in (100, 200)]
    tell("Jobs of 30 completions", 100, *jobs)


if __name__ == "__main__":
    main()
