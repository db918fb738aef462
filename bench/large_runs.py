#!/usr/bin/env python3
"""Time and peak memory of large runs: python3 bench/large_runs.py PROGRAM [NAME..]

Each run is a script that is made here; its report goes to /dev/null. The numbers of a run are those of its process."""
import json
import os
import resource
import subprocess
import sys
import tempfile
import time


def job(name, **spec):
    template = {"spec": {"restartPolicy": "Never", "containers": [{"name": "main"}]}}
    manifest = {"apiVersion": "batch/v1", "kind": "Job", "metadata": {"name": name}, "spec": dict(spec, template=template)}
    return {"do": "create", "job": manifest}


def fate(name, *exits):
    return {"do": "fate", "name": name, "ends": [{"exitCode": code} for code in exits]}


def settled(count, **spec):
    """So many Jobs, each of whose first pods fail and whose later ones succeed, and a settle."""
    for number in range(count):
        name = "job%d" % number
        yield job(name, **spec)
        yield fate(name, *([1] * (number % 3) + [0]))
    yield {"do": "settle"}


def many_commands():
    """200,000 commands, each its own event: one small Job that is counted, and deliveries that find nothing more."""
    yield job("pi", completions=3, parallelism=3)
    yield {"do": "list", "kind": "jobs"}
    yield {"do": "list", "kind": "pods"}
    yield {"do": "begin"}
    yield {"do": "step", "times": 5}
    for number in range(2, 5):
        yield {"do": "finish", "pod": number, "exit": 0}
    yield {"do": "deliver", "kind": "jobs", "times": 7}
    yield {"do": "deliver", "kind": "pods", "times": 7}
    yield {"do": "begin"}
    yield {"do": "step", "times": 6}
    for _ in range(19):
        yield {"do": "deliver", "kind": "pods", "times": 10000}
    yield {"do": "deliver", "kind": "jobs", "times": 9967}


def relists(count):
    """Each write leaves the window at once, so that a cache is listed again and again."""
    yield job("pi", completions=count, parallelism=50)
    yield fate("pi", 0)
    yield {"do": "settle"}


RUNS = {
    "100 Jobs of 20 pods, settled": (["run"], lambda: settled(100, completions=20, parallelism=5)),
    "one Job of 10,000 completions, 5,000 at once, settled": (["run"], lambda: settled(1, completions=10000, parallelism=5000)),
    "a script of 200,000 commands": (["run"], many_commands),
    "4 controllers of 16 workers, 40 Jobs, settled": (["run", "--controllers", "4", "--workers", "16"], lambda: settled(40, completions=10, parallelism=5)),
    "1,000 completions with a window of one entry, settled": (["run", "--window", "1"], lambda: relists(1000)),
}


def main():
    program, names = sys.argv[1], sys.argv[2:] or list(RUNS)
    for name in names:
        words, lines = RUNS[name]
        with tempfile.TemporaryFile("w+") as script:
            for line in lines():
                script.write(json.dumps(line) + "\n")
            script.seek(0)
            begun = time.time()
            run = subprocess.Popen([program] + words, stdin=script, stdout=subprocess.PIPE)
            events = sum(1 for line in run.stdout if line[:1].isdigit())
            _, status, usage = os.wait4(run.pid, 0)
            print("%s: status %d, %d events, %.2f s, %d MB" % (
                name, os.waitstatus_to_exitcode(status), events, usage.ru_utime + usage.ru_stime, usage.ru_maxrss // 1024))


if __name__ == "__main__":
    main()
