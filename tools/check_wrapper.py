#!/usr/bin/env python3
"""check_wrapper.py [PROGRAM [CHECK..]]: the checks of ./jobctl. Each prints a line where it fails; the last line says how many held.

They run in a copy of this checkout in which nothing is built or proved. Where ./jobctl would build the unproved program for minutes,
PROGRAM is put in its place; all else is what a newcomer meets, README.md's lines among it. Where proofs are tried, a kit that is made
here stands in the place of the real one. Without PROGRAM it is the one that ./jobctl would run. With CHECK, as `kept`, only those are
made.
"""
import glob
import os
import pty
import random
import re
import shutil
import signal
import stat
import subprocess
import sys
import tempfile
import threading
import time

sys.dont_write_bytecode = True
import programs
import tells
import words
from checks import TOP, Checks, text_of

checks = Checks("the wrapper")
holds = checks.holds
NOTE = "nothing in this program is proved"
SCRIPT = f"{TOP}/examples/first.script"
REPORT = text_of("examples/first.report")
# Stands in the place of bench/build_unproved.sh: it notes that it was called, and does what a file beside it says.
BUILDER = """#!/usr/bin/env bash
echo "$2" >>{room}/built
case $(cat {room}/how) in
slow) sleep 2 ;;
fails) echo "rt: jobctl has an error"; for ((i = 0; i < 30; i++)); do echo "line $i"; done; exit 3 ;;
hangs) setsid sleep 1000 & echo $! >{room}/hangs; mktemp >/dev/null; wait ;;
edits) echo "// one more line" >>{top}/crates/jobctl/src/main.rt ;;
esac
cp {program} "$1"
"""
# Stands in the place of the kit's rt: `rt ci` proves, or does not, as a file beside it says.
KIT = """#!/usr/bin/env bash
case $1 in
ci)
    how=$(cat {room}/how_ci)
    [ "$how" = hangs ] && {{ setsid sleep 1000 & echo $! >{room}/hangs; mktemp >/dev/null; wait; }}
    echo "rt: jc_io proved"
    sleep 0.7
    [ "$how" = fails ] && {{ echo "rt: jobctl NOT PROVED"; echo "1 passed, 1 failed"; exit 1; }}
    [ "$how" = edits ] && echo "// one more line" >>{top}/crates/jobctl/src/main.rt
    mkdir -p {top}/crates/jobctl/out
    [ "$how" = nothing ] || cp {program} {top}/crates/jobctl/out/jobctl
    echo "62 passed, 0 failed" ;;
help) echo "  rt ci                   the merge gate" ;;
version) echo "a kit of the checks" ;;
esac
"""
# A kit that keeps what it has proved, as far as adopt.py looks at it.
KEEPING = """#!/usr/bin/env python3
import os, shutil, types
TOP = {top!r}
class Crate:
    def __init__(self, name):
        self.name, self.folder, self.deps, self.is_program = name, f"{{TOP}}/crates/{{name}}", [], True
class Kept:
    def __init__(self, crates): pass
    def key(self, crate): return ""
    def is_built(self, crate): return True
    def give(self, crate, tests, key):
        os.makedirs(f"{{crate.folder}}/out", exist_ok=True)
        shutil.copy({program!r}, f"{{crate.folder}}/out/{{crate.name}}")
        return True
def handles_of(top): return ()
def crates_of(top): return [Crate("jobctl")]
rtlib = types.SimpleNamespace(lock=lambda crates: None)
"""


class Place:
    """A copy of this checkout with nothing in its out/ folders, and a room beside it."""

    def __init__(self, room, program):
        self.room, self.top, self.program = room, f"{room}/copy", program
        left_out = shutil.ignore_patterns("out", ".git", "__pycache__")
        shutil.copytree(TOP, self.top, ignore=left_out, symlinks=True)
        os.makedirs(f"{room}/kit/bin")
        os.makedirs(f"{room}/temporary")
        self.write("how", "")
        self.write("how_ci", "")
        self.write("builder", BUILDER.format(room=room, top=self.top, program=program), True)
        self.write("kit/bin/rt", KIT.format(room=room, top=self.top, program=program), True)
        self.write("kit/KIT-ID", "a kit of the checks\n")
        self.environment = {**os.environ, "JOBCTL_CHECKS_BUILDER": f"{room}/builder", "TMPDIR": f"{room}/temporary"}
        self.environment["PATH"] = f"{room}/kit/bin:{os.environ['PATH']}"

    def write(self, name, text, runs=False):
        with open(f"{self.room}/{name}", "w", encoding="utf-8") as it:
            it.write(text)
        if runs:
            os.chmod(f"{self.room}/{name}", 0o755)

    def start(self, given, **how):
        whole = [sys.executable, "-SB", f"{self.top}/tools/wrapper.py", *given]
        return subprocess.Popen(whole, cwd=self.top, env=self.environment, **{"stdout": subprocess.PIPE, "stderr": subprocess.PIPE, **how})

    def run(self, *given, text=b"", **how):
        """Runs the wrapper, and returns status, standard output and standard error."""
        started = self.start(given, stdin=subprocess.PIPE, **how)
        out, err = started.communicate(text.encode() if isinstance(text, str) else text, timeout=120)
        return started.returncode, (out or b"").decode(errors="replace"), (err or b"").decode(errors="replace")

    def built(self):
        """Returns how often something was built since this was asked last."""
        try:
            with open(f"{self.room}/built", encoding="utf-8") as it:
                return len(it.read().split())
        except FileNotFoundError:
            return 0
        finally:
            if os.path.exists(f"{self.room}/built"):
                os.remove(f"{self.room}/built")

    def forget(self):
        """Takes away what was built or proved."""
        for it in [f"{self.top}/out", *glob.glob(f"{self.top}/crates/*/out")]:
            shutil.rmtree(it, ignore_errors=True)
        self.built()

    def files(self):
        """Returns the files of the out/ folders but for locks, and those of the folder for temporary ones."""
        found = []
        for top in (f"{self.top}/out", f"{self.room}/temporary"):
            found += [f"{at}/{it}" for at, folders, files in os.walk(top) for it in [*folders, *files]]
        found += glob.glob(f"{self.top}/crates/*/out/*")
        return sorted(it for it in found if not it.endswith(".lock"))


# ---- words

VALUES = "0 1 4 5 16 17 200000 200001 007 +5 -1 x mutex turn fair Mutex =2 1=2 --threads 4294967296 99999999999 1,000 1_0 0x1 １".split()
VALUES += ["", " 1", "1 ", "1\n", "1970-01-01T00:00:00Z", "1969-12-31T23:59:59Z", "9999-12-31T23:59:59Z", "9999-12-31T23:59:60Z"]
VALUES += ["2023-02-29T00:00:00Z", "2024-02-29T00:00:00Z", "2100-02-29T00:00:00Z", "2000-02-29T23:59:59Z", "2024-1-01T00:00:00Z"]
VALUES += ["2024-01-01T24:00:00Z", "2024-01-01t00:00:00z", "2024-13-01T00:00:00Z", "2024-04-31T00:00:00Z", "2024-01-01T00:00:00.0Z"]
VALUES += ["2024-01-01T00:00:00+00:00", "2024-01-01"]


def random_words(dice):
    command = dice.choice(["run", "run", "reap", "audit", "audit", "generate", "walk", "Run", ""])
    if command == "generate":
        numbers = ["0", "1", "2", "20", "21", "100", "101", "01", "4294967295", "4294967296", "x", "", "-1"]
        return [command] + [dice.choice(numbers) for _ in range(dice.choice([0, 2, 3, 3, 3, 3, 4]))]
    found = [command]
    for _ in range(dice.randrange(4)):
        names = [it.name for it in words.OPTIONS] * 3 + ["--thread", "--", "--=", "-", "--Threads", "-t"]
        name = dice.choice(names)
        found += [f"{name}={dice.choice(VALUES)}"] if dice.random() < 0.5 else [name] + [dice.choice(VALUES)] * (dice.random() < 0.95)
    return found


def listed_words():
    """Each option of each command with each value, in both ways to write it; and limits."""
    for command in words.BATCH:
        yield [command]
        for option in words.OPTIONS:
            values = VALUES + [str(option.least - 1), str(option.least), str(option.most), str(option.most + 1)]
            yield from ([command, f"{option.name}={it}"] for it in values)
            yield from ([command, option.name, it] for it in VALUES[::7])
            yield [command, option.name]
            yield [command, f"{option.name}=1", f"{option.name}=1"]


def is_refused(given):
    """Returns whether the wrapper refuses words, or None where they are some that it has beyond the program."""
    try:
        order = words.read(given)
    except words.Refused:
        return True
    is_own = order.file is not None or order.command not in (*words.BATCH, "generate")
    return None if is_own else False


def check_words(place):
    """The wrapper refuses just what the program refuses."""
    program = place.program
    dice = random.Random(26)
    cases = [*listed_words(), *(random_words(dice) for _ in range(400)), [], [""], ["walk"], ["generate", "1", "1", "1"]]
    counts = {True: 0, False: 0, None: 0}
    for given in cases:
        refused = is_refused(given)
        counts[refused] += 1
        if refused is None:
            continue
        ran = subprocess.run([program, *given], stdin=subprocess.DEVNULL, capture_output=True)
        if (ran.returncode == 2) != refused:
            holds(f"{given}: the program's status is {ran.returncode}, and the wrapper {'refuses it' if refused else 'does not refuse it'}", False)
    holds(f"words were refused and not refused: {counts}", counts[True] > 300 and counts[False] > 100)
    holds("words that are no UTF-8", is_refused(["run", "\udcff"]) is True)


def check_table(_):
    """The options have the limits that docs/SCRIPT.md gives."""
    found = {row[0]: row for row in tells.rows("SCRIPT.md", "option")}
    holds("docs/SCRIPT.md has the same options", sorted(found) == sorted(it.name for it in words.OPTIONS))
    for option in words.OPTIONS:
        row = found.get(option.name, ["", "", ""])
        numbers = [int(it.replace(",", "")) for it in re.findall(r"[0-9][0-9,]*", row[1])] if option.most else []
        limits = [option.least, option.most]
        holds(f"docs/SCRIPT.md: the limits of {option.name}", not option.most or limits == [min(numbers or [-1]), max(numbers or [-1])])
        holds(f"docs/SCRIPT.md: what stands without {option.name}", row[2] == option.default)
        holds(f"docs/SCRIPT.md: the words of {option.name}", all(it in row[1] for it in option.allowed))


REFUSED = [
    ("run --thread 1", "did you mean --threads?"),
    ("rnu", "did you mean run?"),
    ("", "there is no word"),
    ("run --threads 17", "0 to 16"),
    ("audit --threads 1", "an option of run alone"),
    ("run --events", "has no value"),
    ("run --events=007", "written 7"),
    ("run --lock fair", "mutex or turn"),
    ("run a b", "two files"),
    ("examples/first.script", "did you mean ./jobctl run examples/first.script?"),
    ("run --workers 1 --workers=1", "given twice"),
    ("generate 1 2", "three numbers"),
    ("generate 1 101 2", "JOBS is 1 to 100"),
    ("prove x", "does not take x"),
    ("help rn", "did you mean run?"),
    ("run --start 2024-01-01", "2024-01-01T00:00:00Z"),
]


def check_refusals(place):
    """Bad words are refused at once, by name, with the usage and a near match, and nothing is built or kept."""
    for line, part in REFUSED:
        given = line.split()
        status, out, err = place.run(*given)
        is_well = status == 2 and not out and err.startswith("jobctl: bad words\n") and part in err and "usage: ./jobctl" in err
        holds(f"./jobctl {given} is refused, with {part!r}: {status} {err!r}", is_well)
    holds("nothing was built for bad words", not place.built() and not place.files())


def check_version(place):
    """version tells the commit of a checkout of git, and whether a file of it has changed since."""
    def git(*given):
        names = {f"GIT_{it}_{what}": "checks@localhost" for it in ("AUTHOR", "COMMITTER") for what in ("NAME", "EMAIL")}
        ran = subprocess.run(["git", "-C", place.top, *given], env={**os.environ, **names}, stdin=subprocess.DEVNULL, capture_output=True, text=True)
        return ran.stdout.strip()

    holds("version where there is no git", "commit unknown" in place.run("version")[1])
    git("init", "-q")
    git("add", "README.md", "jobctl")
    git("commit", "-q", "-m", "it")
    commit = git("rev-parse", "HEAD")
    said = place.run("version")[1]
    holds(f"version tells the commit {commit}: {said!r}", len(commit) >= 40 and said.startswith(f"commit {commit}\n"))
    os.rename(f"{place.top}/README.md", f"{place.top}/README.was")
    holds("version tells that a file has changed", "files that were changed" in place.run("version")[1])
    os.rename(f"{place.top}/README.was", f"{place.top}/README.md")
    shutil.rmtree(f"{place.top}/.git")


def check_help(place):
    for given in (["--help"], ["-h"], ["help"], ["run", "--help"], ["run", "-h"], ["help", "run"], ["help", "prove"], ["version"], ["--version"]):
        status, out, err = place.run(*given)
        holds(f"./jobctl {given} has status 0 and says something: {status} {err!r}", status == 0 and out and not err)
    text = place.run("help", "run")[1]
    holds("help run has all options with limits", all(it.name in text and it.form() in text and it.default in text for it in words.OPTIONS))
    whole = place.run("help")[1]
    holds("help names each command", all(f"./jobctl {it}" in whole for it in words.COMMANDS))
    holds("no line of a help is over 140 wide", all(len(it) <= 140 for of in ["", *words.COMMANDS] for it in words.help_of(of)))
    said = place.run("version")[1]
    is_well = "kit a kit of the checks" in said and "program none yet" in said and "commit " in said
    holds(f"version tells the kit, and that nothing is built: {said!r}", is_well)


# ---- README, input and output


def readme_lines():
    """Returns the command lines of README.md that begin with ./jobctl, each with the lines that are to come, if any stand there."""
    found = []
    for line in text_of("README.md").split("\n"):
        command = re.match(r"    (?:\$ )?(\./jobctl .*?)(?:  +#.*)?$", line)
        if command:
            found.append((command[1], []))
        elif found and found[-1] is not None and re.match(r"    \S", line):
            found[-1][1].append(line.strip())
        else:
            found.append(None)
    return [it for it in found if it and not re.match(r"\./jobctl (prove|test)\b", it[0]) and "FILE" not in it[0]]


def check_readme(place):
    """README.md's lines do what it says, in a fresh copy with nothing proved."""
    lines = readme_lines()
    audits = [it for it in lines if it[0].endswith("| ./jobctl audit")]
    runs = [it for it in lines if re.fullmatch(r"\./jobctl run (< )?examples/first\.script", it[0])]
    holds(f"README.md runs the first example, and audits a spoilt report: {lines}", len(audits) == 1 and runs)
    for line, wanted in lines:
        place.forget()
        if not all(it.strip().startswith(("./", "tools/")) or shutil.which(it.split()[0]) for it in line.split("|")):
            continue
        how = {"cwd": place.top, "env": place.environment, "stdin": subprocess.DEVNULL, "capture_output": True, "text": True}
        ran = subprocess.run(["bash", "-c", f"set -o pipefail; {line}"], **how)
        if line == audits[0][0]:
            holds(f"{line}: no 17 and status 9: {ran}", ran.stdout == "no 17\n" and ran.returncode == 9 and wanted[:1] == ["no 17"])
        else:
            holds(f"{line}: status 0: {ran}", ran.returncode == 0)
        if (line, wanted) in runs:
            holds(f"{line}: the report", ran.stdout == REPORT)
        holds(f"{line}: one build, and it is said that nothing is proved", place.built() == 1 and NOTE in ran.stderr)


def check_input(place):
    """Files, and standard input that is slow, empty, closed, a folder or too long."""
    script = text_of("examples/first.script")
    for given in (["run", SCRIPT], ["run", "-"], ["run"], ["run", "--workers=1", SCRIPT], ["run", SCRIPT, "--workers", "1"]):
        holds(f"./jobctl {given} < first.script", place.run(*given, text=script)[:2] == (0, REPORT))
    holds("audit FILE", place.run("audit", f"{TOP}/examples/first.report")[:2] == (0, "yes\n"))
    holds("reap FILE", place.run("reap", f"{TOP}/examples/collected.script")[:2] == (0, text_of("examples/collected.report")))
    for file, part in (("not-there", "No such file"), (place.room, "directory"), ("threads=4", "did you mean --threads=4?")):
        status, out, err = place.run("run", file)
        holds(f"run {file}: {status} {err!r}", status == 3 and not out and err.startswith("jobctl: read fault\n") and part in err)
    status, out, err = place.run("run")
    holds(f"an empty input is said to be empty: {status} {out!r} {err!r}", (status, out) == (0, "") and "standard input is empty" in err)
    started = place.start(["audit"], preexec_fn=lambda: os.close(0))
    out, err = started.communicate(timeout=60)
    holds(f"a closed input: {started.returncode} {out} {err}", started.returncode == 3 and not out and err.startswith(b"jobctl: read fault\n"))
    status, out, err = place.run("run", text=b"\n" * 67_108_865)
    holds(f"an input that is too long: {status} {err!r}", status == 8 and err.endswith("jobctl: input too long\n"))
    first, second = script.split("\n", 1)
    line = f"(echo {quoted(first)}; sleep 3; printf %s {quoted(second)}) | {quoted(sys.executable)} -B tools/wrapper.py run"
    ran = subprocess.run(["bash", "-c", line], cwd=place.top, env=place.environment, capture_output=True, text=True)
    holds(f"an input that is silent for three seconds is read to its end: {ran}", ran.stdout == REPORT)


def quoted(text):
    return "'" + text.replace("'", "'\\''") + "'"


def first_line(started):
    """Returns the first line of standard error; what says nothing for a minute is ended."""
    timer = threading.Timer(60, started.kill)
    timer.start()
    try:
        return started.stderr.readline()
    finally:
        timer.cancel()


def ended(started):
    """Returns the status of what has been sent a signal; where it does not end in a minute, it is ended by force."""
    try:
        return started.wait(60)
    except subprocess.TimeoutExpired:
        started.kill()
        return None


def check_terminal(place):
    """At a terminal it says that it waits for input, and an interrupt ends it."""
    ours, theirs = pty.openpty()
    started = place.start(["run"], stdin=theirs)
    said = first_line(started)
    holds(f"at a terminal it says that it reads: {said}", b"from the terminal" in said and b"Ctrl-D" in said)
    os.write(ours, text_of("examples/first.script").encode() + b"\x04")
    out, _ = started.communicate(timeout=60)
    holds("what is typed is played", out.decode() == REPORT)
    started = place.start(["run"], stdin=theirs)
    first_line(started)
    started.send_signal(signal.SIGINT)
    holds("an interrupt ends it while it waits", ended(started) == -signal.SIGINT)
    started.communicate()
    os.close(ours)
    os.close(theirs)


def check_output(place):
    """Statuses and the program's own lines come through, also where the output is closed or full."""
    status, out, err = place.run("run", "--events", "3", text=text_of("examples/first.script"))
    holds(f"a full history: {status} {err!r}", status == 6 and out.endswith("full\n") and err.endswith("jobctl: history full\n"))
    status, out, err = place.run("generate", "5", "100", "20")
    holds(f"the greatest run of generate: {status} {err!r}", status == 0 and out.count("\n") == 5)
    with open("/dev/full", "w", encoding="utf-8") as full:
        status, _, err = place.run("run", SCRIPT, stdout=full)
    holds(f"a full output: {status} {err!r}", status == 4 and err.endswith("jobctl: write fault\n"))
    for given in (["run", SCRIPT], ["help"]):
        started = place.start(given, stdin=subprocess.DEVNULL, stdout=None, preexec_fn=lambda: os.close(1))
        err = started.communicate(timeout=60)[1]
        holds(f"a closed output, {given}: {started.returncode} {err}", started.returncode == 4 and err.endswith(b"jobctl: write fault\n"))
    ran = subprocess.run([f"{place.top}/jobctl", "run", SCRIPT], env=place.environment, stdin=subprocess.DEVNULL, capture_output=True, text=True)
    holds(f"the shell script itself: {ran}", ran.stdout == REPORT and ran.returncode == 0 and ran.stderr.count("\n") == 1 and NOTE in ran.stderr)


# ---- what is built, and kept


def check_two_at_once(place):
    """Two runs at once with nothing built share one build, and each has its own input, report and status."""
    place.forget()
    place.write("how", "slow")
    spoilt = REPORT.replace("released v6", "released v7").encode()
    given = [(["run", SCRIPT], b""), (["audit"], spoilt), (["run"], b'{"do":"snyc"}\n')]
    started = [(place.start(it, stdin=subprocess.PIPE), text) for it, text in given]
    found = [None] * len(given)

    def end(number):
        out, err = started[number][0].communicate(started[number][1], timeout=60)
        found[number] = (started[number][0].returncode, out.decode(), err.decode())

    threads = [threading.Thread(target=end, args=(it,)) for it in range(len(given))]
    for it in threads:
        it.start()
    for it in threads:
        it.join()
    place.write("how", "")
    holds(f"three runs at once: {found}", [it[:2] for it in found] == [(0, REPORT), (9, "no 17\n"), (5, "")])
    holds("three runs at once: each says its own cause", "line 1: invalid do rule 29" in found[2][2] and "no at line 17" in found[1][2])
    holds("three runs at once: one build", place.built() == 1)
    holds(f"no log is left: {place.files()}", not [it for it in place.files() if it.endswith(".log") or "/temporary" in it])


def check_failed_build(place):
    place.forget()
    place.write("how", "fails")
    status, out, err = place.run("run", SCRIPT)
    named = re.search(r"\S+/out/build-\S+\.log", err)
    is_well = status == 1 and not out and "rt: jobctl has an error" in err and "line 29" in err and "Traceback" not in err
    holds(f"a build that fails: {status} {err!r}", is_well)
    holds("its log is kept", named and os.path.isfile(named[0]))
    place.write("how", "edits")
    status, out, err = place.run("run", SCRIPT)
    holds(f"a source that changes meanwhile: {status} {err!r}", status == 1 and not out and "source has changed" in err)
    place.write("how", "")
    holds("then it is built", place.run("run", SCRIPT)[:2] == (0, REPORT))


def check_kept(place):
    """What is kept is known by its sums."""
    place.forget()
    source = f"{place.top}/crates/jobctl/src/main.rt"
    place.run("run", SCRIPT)
    place.run("run", SCRIPT)
    holds("a second run builds nothing", place.built() == 1)
    os.utime(source)
    place.run("run", SCRIPT)
    holds("a source that is touched changes nothing", place.built() == 0)
    with open(f"{place.top}/README.md", "a", encoding="utf-8") as it:
        it.write("\n")
    place.run("run", SCRIPT)
    holds("what is no source changes nothing", place.built() == 0)
    for change in (source, f"{place.top}/crates/jc_moment/src/lib.rt", f"{place.room}/kit/KIT-ID"):
        with open(change, "r+", encoding="utf-8") as it:
            it.write("/// ")
        place.run("run", SCRIPT)
        holds(f"a change of {os.path.basename(change)} builds once", place.built() == 1)
    kept = [it for it in glob.glob(f"{place.top}/out/unproved/jobctl-*") if not it.endswith(".sums")]
    for it in kept:
        with open(it, "ab") as program:
            program.write(b"x")
    place.run("run", SCRIPT)
    holds(f"a kept program that is damaged is built again ({len(kept)} kept)", place.built() == 1)
    without = {**place.environment, "PATH": os.pathsep.join(it for it in os.environ["PATH"].split(os.pathsep) if not os.path.exists(f"{it}/rt"))}
    place.environment, before = without, place.environment
    status, out, err = place.run("run", SCRIPT)
    place.environment = before
    holds(f"without the kit: {status} {err!r}", status == 1 and not out and "the kit is missing" in err)


# ---- proofs


def check_prove(place):
    """`prove` says what it costs, keeps what was proved by sums, and nothing else is taken for proved."""
    place.forget()
    os.makedirs(f"{place.top}/crates/jobctl/out")
    shutil.copy(place.program, f"{place.top}/crates/jobctl/out/jobctl")
    holds("a stray program is not taken for proved", NOTE in place.run("run", SCRIPT)[2])
    for how, part in (("fails", "jobctl NOT PROVED"), ("nothing", "left no program"), ("edits", "did a source change")):
        place.write("how_ci", how)
        status, out, err = place.run("prove")
        holds(f"prove where rt ci {how}: {status} {err!r}", status == 1 and part in err and ".log" in err and "Traceback" not in err)
        if how == "edits":
            shutil.copy(f"{TOP}/crates/jobctl/src/main.rt", f"{place.top}/crates/jobctl/src/main.rt")
        holds(f"prove where rt ci {how}: nothing is proved", NOTE in place.run("run", SCRIPT)[2])
    for it in glob.glob(f"{place.top}/out/*.log"):
        os.remove(it)
    place.write("how_ci", "")
    status, out, err = place.run("prove")
    is_told = "minutes of the clock" in err and re.search(r"1 of [0-9]+ crates: jc_io is proved, .* left", err)
    holds(f"prove: {status} {err!r}", status == 0 and is_told)
    holds("prove leaves no log", not glob.glob(f"{place.top}/out/*.log"))
    status, out, err = place.run("run", SCRIPT)
    holds(f"the proved program runs, and says nothing: {err!r}", (status, out, err) == (0, REPORT, ""))
    holds("version says that it is proved", "program proved: crates/jobctl/out/jobctl" in place.run("version")[1])
    place.write("how_ci", "fails")
    holds("what is proved is not proved again", place.run("prove")[0] == 0 and place.run("run", SCRIPT)[2] == "")
    os.utime(f"{place.top}/crates/jobctl/src/main.rt")
    holds("a source that is touched stays proved", place.run("run", SCRIPT)[2] == "")
    check_changes(place)


def check_changes(place):
    """What was proved counts no more once a source, a proof or the program has changed, and again once it is as it was."""
    files = ["crates/jobctl/src/main.rt", "crates/jc_words/specs/Words.antt", "HANDLES", "crates.txt", "crates/jobctl/out/jobctl"]
    files += [os.path.relpath(it, place.top) for it in sorted(glob.glob(f"{place.top}/crates/jc_store/proofs/**/*.antt", recursive=True))[:1]]
    for name in files:
        file, mode = f"{place.top}/{name}", os.stat(f"{place.top}/{name}").st_mode
        with open(file, "rb") as it:
            was = it.read()
        more = b"\njc_more: jc_io\njobctl: jc_more\n" if name == "crates.txt" else b"\n"
        with open(file, "wb") as it:
            it.write(was + more)
        holds(f"a change of {name}: no more proved", NOTE in place.run("run", SCRIPT)[2])
        with open(file, "wb") as it:
            it.write(was)
        os.chmod(file, stat.S_IMODE(mode))
        holds(f"{name} as it was: proved", place.run("run", SCRIPT)[2] == "")
    with open(f"{place.top}/crates/jobctl/out/jobctl.sums", "w", encoding="utf-8") as it:
        it.write("sources\nprogram\n")
    holds("a spoilt file of sums: no more proved", NOTE in place.run("run", SCRIPT)[2])


def check_gate_words(place):
    """What .ci/run calls writes sums for the program that rt ci has left, and only where the sources are the same."""
    def call(*given):
        ran = subprocess.run([sys.executable, "-B", f"{place.top}/tools/programs.py", *given], env=place.environment, capture_output=True, text=True)
        return ran.returncode, ran.stdout.strip()

    place.forget()
    folder = f"{place.top}/crates/jobctl/out"
    os.makedirs(folder)
    shutil.copy(place.program, f"{folder}/jobctl")
    status, before = call("before")
    holds("before takes the program away", status == 0 and not os.path.exists(f"{folder}/jobctl"))
    holds("nothing is proved where nothing is left", call("proved", before)[0] == 1)
    shutil.copy(place.program, f"{folder}/jobctl")
    holds("nothing is proved with other sums", call("proved", before.replace("=", "=0"))[0] == 1)
    holds("what is left is proved", call("proved", before)[0] == 0 and place.run("run", SCRIPT)[2] == "")
    named = re.findall(r"programs\.py (\w+)", text_of(".ci/run"))
    holds(f".ci/run calls both: {named}", named == ["before", "proved"])


def check_kept_proofs(place):
    """What a kit has kept of a proof is taken over, and a kit that keeps nothing does no harm."""
    place.forget()
    os.makedirs(f"{place.room}/rattle-kept/proof-jobctl-1")
    status, out, err = place.run("run", SCRIPT)
    is_silent = "Traceback" not in err and "rror" not in err and not glob.glob(f"{place.top}/out/*.log")
    holds(f"a kit that keeps nothing: {err!r}", (status, out) == (0, REPORT) and NOTE in err and is_silent)
    place.forget()
    place.write("kit/bin/rt", KEEPING.format(top=place.top, program=place.program), True)
    status, out, err = place.run("run", SCRIPT)
    holds(f"a kit that keeps: {err!r}", (status, out, err) == (0, REPORT, "") and place.built() == 0)
    place.forget()
    status, out, err = place.run("prove")
    holds(f"prove by a kit that keeps: {err!r}", status == 0 and "has kept a proof" in err)
    shutil.rmtree(f"{place.room}/rattle-kept")
    place.write("kit/bin/rt", KIT.format(room=place.room, top=place.top, program=place.program), True)


# ---- interrupts


def lives(number):
    return os.path.exists(f"/proc/{number}") and not re.search(r"\) Z ", open(f"/proc/{number}/stat", encoding="utf-8").read())


def check_interrupt(place):
    """A signal ends what was started, all the way down, and leaves no files."""
    cases = [(signal.SIGINT, ["run", SCRIPT], "how"), (signal.SIGTERM, ["audit", SCRIPT], "how")]
    cases += [(signal.SIGHUP, ["prove"], "how_ci"), (signal.SIGTERM, ["prove"], "how_ci")]
    for number, given, how in cases:
        place.forget()
        place.write(how, "hangs")
        started = place.start(given, stdin=subprocess.DEVNULL)
        until = time.monotonic() + 30
        while not os.path.exists(f"{place.room}/hangs") and time.monotonic() < until:
            time.sleep(0.05)
        time.sleep(0.3)
        with open(f"{place.room}/hangs", encoding="utf-8") as it:
            below = int(it.read())
        holds(f"{given}: what was started lives", lives(below))
        started.send_signal(number)
        ended(started)
        if lives(below):
            time.sleep(1)
        is_left = lives(below)
        if is_left:
            os.kill(below, signal.SIGKILL)
        _, err = started.communicate()
        holds(f"{given}: signal {number} ends it: {started.returncode} {err}", started.returncode == -number and b"Traceback" not in err)
        holds(f"{given}: signal {number} ends what was started", not is_left)
        left = [it for it in place.files() if not it.endswith("/unproved")]
        holds(f"{given}: signal {number} leaves no files: {left}", not left)
        os.remove(f"{place.room}/hangs")
        place.write(how, "")


# ---- what is said of bad lines

BAD = [
    ('{"do":"snyc"}', "did you mean sync?"),
    ('{"do":"mark","pod":0}', "1 to 4,294,967,295"),
    ('{"do":"mark","pdo":2}', "mark has the members"),
    ('{"do":"fault","kind":"dorp"}', "did you mean drop?"),
    ("# a comment", "this is a comment"),
    ("apiVersion: batch/v1", "this is YAML"),
    ('{"kind":"Job"}', "tools/script_of.py"),
    ("\ufeff" + '{"do":"sync"}', "byte order mark"),
    ('{\n"apiVersion":"batch/v1",\n"kind":"Job"}', "manifest over several lines"),
    ('{"do":"sync",\n"times":1}', "jq -c"),
    ("1 @0 list 0 jobs -> listed v0", "the line of a report"),
    ('{"do":"fate","name":"x","ends":[{"exitCode":0},{"exitCode":256}]}', "0 to 255"),
    ('{"do":"create","job":{"apiVersion":"batch/v1","kind":"Job","metadata":{"name":"pi"},"spec":{"parallelism":5001}}}', "0 to 5,000"),
    ('{"do":"sync"} {"do":"sync"}', "no JSON value"),
]


def check_bad_lines(place):
    for text, part in BAD:
        status, out, err = place.run("run", text='{"do":"sync"}\n' * (not text.startswith("\ufeff")) + text + "\n")
        own = re.search(r"(?m)^jobctl: line [12]: .*$", err)
        behind = err[own.end() :] if own else ""
        holds(f"{text!r}: the line, and {part!r}: {err!r}", status == 5 and not out and part in behind and "^\n" in behind)
    status, _, err = place.run("run", text='{"do":"sync"}\n'.encode("utf-16"))
    holds(f"UTF-16: {err!r}", status == 5 and "this is UTF-16" in err)
    long = '{"do":"mark","pod":2,"x":"' + "y" * 3000 + '","z":1}'
    status, _, err = place.run("run", text=long)
    holds(f"a long line is cut: {err!r}", status == 5 and max(map(len, err.split("\n"))) < 300)
    deep = place.run("run", text="[" * 100_000)
    holds(f"a deep line: {deep[2][:300]!r}", deep[0] == 5 and "Traceback" not in deep[2])
    bad = [b"\xff\xfe\xfd", b"\0", b"{", b"}", b'{"do":1e999}', b'{"do":"clock","add":' + b"9" * 6000 + b"}", b'"\\ud800"', b"nul", b"'a'"]
    for it in bad:
        status, _, err = place.run("run", text=it)
        holds(f"{it[:20]}: {err[:300]!r}", status == 5 and "Traceback" not in err and "line 1:" in err)


def check_check(place):
    """All bad lines are told at once, with the numbers that they have in the file."""
    file = f"{place.room}/bad.script"
    lines = [text for text, _ in BAD if not text.startswith(("\ufeff", "apiV", "1 @0"))]
    with open(file, "w", encoding="utf-8") as it:
        it.write('{"do":"sync"}\n'.join(f"{line}\n" for line in lines))
    status, out, err = place.run("check", file)
    numbers, at = [], 1
    for line in lines:
        numbers.append(at)
        at += line.count("\n") + 2
    told = [int(it) for it in re.findall(rf"(?m)^{re.escape(file)}:([0-9]+): ", out)]
    holds(f"check tells all bad lines: {told} and not {numbers}", status == 5 and told == numbers and f"{len(lines)} bad lines in" in out)
    status, out, err = place.run("check", SCRIPT)
    holds(f"check of a good script: {status} {out!r}", status == 0 and out == f"no bad lines in {SCRIPT}\n")
    status, out, err = place.run("check", text='{"do":"snyc"}\n')
    holds(f"check of standard input: {status} {out!r}", status == 5 and "standard input:1: invalid do rule 29" in out)
    status, out, err = place.run("check", text='{"do":"list","kind":"jobs"}\n' * 5)
    holds(f"check plays nothing: {status} {out!r}", (status, out) == (0, "no bad lines in standard input\n"))
    status, out, err = place.run("check", text="x\n" * 1000)
    holds(f"check comes to an end: {out[-200:]!r}", status == 5 and f"{tells.MOST_BAD} bad lines" in out and "not looked at" in out)


def check_audits(place):
    """Of a report that is none, the line is shown, and what it should be where that can be told."""
    spoilt = [("released v6", "released v7", 17, "released v6"), ("12 -", "13 -", 12, "12 - deliver")]
    spoilt += [("succeeded 1 failed", "succeeded 2 failed", 21, "succeeded 1 failed")]
    for old, new, number, right in spoilt:
        status, out, err = place.run("audit", text=REPORT.replace(old, new))
        holds(f"{new}: no {number}: {err!r}", status == 9 and out == f"no {number}\n" and f"jobctl: no at line {number}\n  line {number} is:" in err)
        holds(f"{new}: the lines before it are right: {err!r}", f"lines 1 to {number - 1} are right" in err)
        if os.path.isfile(f"{place.top}/tools/replay.py"):
            holds(f"{new}: what it should be: {err!r}", re.search(rf"(?m)^  it should be: .*{re.escape(right)}", err))
    none = ["garbage\n", "1 @0 xx 0 -> done\n", REPORT + "more\n", REPORT[: len(REPORT) // 2], "\xff\n", "job x\n"]
    for text in [*none, REPORT.replace(" -> listed", " -> "), REPORT.replace("@0", "@7 "), "9" * 5000 + " - node -> idle\n"]:
        status, out, err = place.run("audit", text=text)
        holds(f"{text[:30]!r}: {err!r}", status == 9 and out.startswith("no ") and "Traceback" not in err and " is:" in err)


ALL = [check_table, check_words, check_refusals, check_help, check_version, check_readme, check_input, check_terminal, check_output]
ALL += [check_two_at_once, check_bad_lines, check_check, check_audits, check_failed_build, check_kept]
ALL += [check_prove, check_gate_words, check_kept_proofs, check_interrupt]


def main():
    # (what is started from the background ignores this signal, and so would what is started here)
    signal.signal(signal.SIGINT, signal.default_int_handler)
    given = sys.argv[1:]
    program = os.path.abspath(given[0]) if given else programs.proved("jobctl") or programs.kept_unproved("jobctl")
    if not program or not os.access(program, os.X_OK):
        sys.exit("check_wrapper: there is no program to check with: give one, or make one by ./jobctl run")
    with tempfile.TemporaryDirectory(prefix="jobctl-checks-") as room:
        place = Place(os.path.realpath(room), program)
        for check in ALL:
            if not given[1:] or check.__name__[len("check_") :] in given[1:]:
                check(place)
    checks.end(1 if given[1:] else 150)


if __name__ == "__main__":
    main()
