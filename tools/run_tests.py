#!/usr/bin/env python3
"""run_tests.py [PROGRAM..]: what `./jobctl test` runs: what the program prints, held to what is written down, and the tools' checks.

Without PROGRAM it takes the proved program of these sources where there is one, and else the one that is kept unproved, and tries
the stories of crates/jc_stories too. With PROGRAM, as in the gate, which has run the stories, it takes these. The last line is
'N passed, M failed': each story, each report and each check counts as one. The status is 0 where none failed, and else 1.
"""
import glob
import os
import re
import subprocess
import sys
import threading

sys.dont_write_bytecode = True
import programs
from programs import TOP, Failed, Interrupted, say

SECONDS = 300
# The checks that run a program.
ASKED = ("check_cookbook.py", "check_tools.py", "check_wrapper.py")


class Counts:
    """How many of all have passed and failed."""

    def __init__(self):
        self.passed = self.failed = 0

    def add(self, what, passed, failed, why=()):
        self.passed += passed
        self.failed += failed
        print(f"{what}: {passed} passed, {failed} failed", *(f"    {it}" for it in why), sep="\n", flush=True)


def bytes_of(file):
    if not os.path.isfile(file):
        return b""
    with open(file, "rb") as it:
        return it.read()


def printed(program, crate):
    """Returns what a program prints of the input beside its sources, and its status."""
    folder = f"{TOP}/crates/{crate}"
    args = bytes_of(f"{folder}/args").decode(errors="surrogateescape").splitlines()
    how = {"input": bytes_of(f"{folder}/stdin"), "stdout": subprocess.PIPE, "stderr": subprocess.STDOUT, "timeout": SECONDS}
    ran = subprocess.run([program, *args], **how)
    return ran.stdout, ran.returncode


def parts(text):
    """Returns the parts of what the stories print, by their heads."""
    found = {}
    for part in re.split(rb"(?m)^(?=== )", text):
        head = part.partition(b"\n")[0].partition(b":")[0].decode(errors="replace")
        if part:
            found[head] = found.get(head, b"") + part
    return found


def try_stories(counts, program):
    """Each story has the report, and each question the answer, that stands in the file stdout."""
    got, status = printed(program, "jc_stories")
    want = bytes_of(f"{TOP}/crates/jc_stories/stdout")
    wanted, found = parts(want), parts(got)
    bad = [it for it in wanted if found.get(it) != wanted[it]]
    bad += [it for it in found if it not in wanted]
    bad += ["all of them in this order"] * (not bad and got != want) + [f"status {status} and not 0"] * (status != 0)
    counts.add("stories", max(len(wanted) - len(bad), 0), len(bad), [f"differs: {it}" for it in bad[:20]])


def try_stored_run(counts, program):
    got, status = printed(program, "jobctl")
    is_well = status == 0 and got == bytes_of(f"{TOP}/crates/jobctl/stdout")
    counts.add("the stored run", int(is_well), int(not is_well), [] if is_well else [f"status {status}; it differs from crates/jobctl/stdout"])


def try_command(counts, words):
    """Runs a command whose last line says how many of all have held."""
    name = " ".join(os.path.relpath(it, TOP) if it.startswith(TOP) else it for it in words if it not in (sys.executable, "-B"))
    ran = subprocess.run(words, cwd=TOP, stdin=subprocess.DEVNULL, stdout=subprocess.PIPE, stderr=subprocess.STDOUT, text=True, errors="replace")
    lines = ran.stdout.rstrip("\n").split("\n")
    held = re.search(r"(\d+) checks? of .* held, (\d+) failed|(\d+) of (\d+) reports are equal", lines[-1])
    if held and held[1]:
        passed, failed = int(held[1]), int(held[2])
    elif held:
        passed, failed = int(held[3]), int(held[4]) - int(held[3])
    else:
        passed, failed = 0, 0
    failed = max(failed, int(ran.returncode != 0 or not held))
    counts.add(name, passed, failed, [f"status {ran.returncode}", *lines[-40:]] if failed else [])


def checks(counts, given):
    """Tries the examples and the checks of tools and documents by each of the programs."""
    for program in given:
        try_command(counts, [f"{TOP}/tools/check_examples.sh", program])
    own = sorted(glob.glob(f"{TOP}/tools/check_*.py"))
    for file in own:
        takes = [given[0]] if os.path.basename(file) in ASKED else []
        try_command(counts, [sys.executable, "-B", file, *takes])


def both_ready():
    """Returns the programs of the stories and jobctl, those that are not there built beside each other, and whether jobctl is proved."""
    found, failed = {}, []

    def make(name):
        try:
            found[name] = programs.ready(name)
        except Failed as why:
            failed.append(why)

    # (what takes over a proof does so for both)
    first = programs.NAMES[0]
    if not programs.proved(first) and not programs.kept_unproved(first):
        programs.adopt()
    others = [threading.Thread(target=make, args=(name,), daemon=True) for name in programs.NAMES]
    for it in others:
        it.start()
    try:
        for it in others:
            while it.is_alive():
                it.join(0.2)
    except Interrupted:
        programs.end_children()
        for it in others:
            it.join(5)
        raise
    if failed:
        raise failed[0]
    return found


def main():
    counts, given = Counts(), [os.path.abspath(it) for it in sys.argv[1:]]
    programs.catch_signals()
    try:
        if not given:
            found = both_ready()
            program, is_proved = found["jobctl"]
            say(f"testing the {'proved' if is_proved else 'unproved'} program {os.path.relpath(program, TOP)}")
            try_stories(counts, found["jc_stories"][0])
            given = [program]
        for program in given:
            try_stored_run(counts, program)
        checks(counts, given)
    except Interrupted as what:
        programs.end_children()
        sys.exit(128 + what.args[0])
    except (Failed, OSError, subprocess.TimeoutExpired) as why:
        say(str(why))
        counts.failed += 1
    print(f"{counts.passed} passed, {counts.failed} failed")
    sys.exit(1 if counts.failed else 0)


if __name__ == "__main__":
    main()
