#!/usr/bin/env python3
"""programs.py: the programs of this checkout: the proved ones, those that are kept unproved, and how each comes to be.

A program is recognised by sums of files and not by times: beside it stands a file NAME.sums with the sum of the sources that
it was made of, its own sum, and the kit. `rt ci` leaves the proved ones in crates/NAME/out/. The unproved ones are made by
bench/build_unproved.sh, once for each state of the sources, and kept in out/unproved/.
  programs.py before          for what runs `rt ci`: takes away the programs that are there, and prints the sums of the sources
  programs.py proved SUMS     for what has just seen `rt ci` pass: writes NAME.sums of each program that it has left, where the
                              sources are still those that `before` has printed
"""
import fcntl
import glob
import hashlib
import os
import re
import shutil
import signal
import subprocess
import sys
import tempfile
import time

TOP = os.path.realpath(os.path.join(os.path.dirname(os.path.abspath(__file__)), ".."))
NAMES = ("jobctl", "jc_stories")
KEPT = f"{TOP}/out/unproved"
MOST_KEPT = 6
SIGNALS = (signal.SIGINT, signal.SIGTERM, signal.SIGHUP)
# What things cost. All proofs, edits and tests, by `rt ci`, from nothing:
PROCESSOR_MINUTES, CLOCK_MINUTES, CLOCK_PROCESSORS = 192, 90, 4
PROOF_TAKES = f"some {CLOCK_MINUTES} minutes on {CLOCK_PROCESSORS} processors"
# A build with nothing proved, on a free machine and on one that has other work, in minutes of the clock:
BUILD_MINUTES, BUSY_BUILD_MINUTES = 3, 6
HOW_LONG = f"some {BUILD_MINUTES} minutes, and {BUSY_BUILD_MINUTES} or more beside other work"


class Failed(Exception):
    """What was asked for cannot be done; the text says why, on one or more lines."""


class Interrupted(Exception):
    """A signal has come."""


# ---- what is said, and signals


def say(text):
    """Says something on standard error, which may be lost."""
    try:
        os.write(2, f"jobctl: {text}\n".encode("utf-8", "backslashreplace"))
    except OSError:
        pass


def catch_signals():
    """Has each of the signals that end a command raise Interrupted, once. One that the caller ignores stays ignored."""

    def interrupt(number, _):
        for it in SIGNALS:
            signal.signal(it, signal.SIG_IGN)
        raise Interrupted(number)

    for it in SIGNALS:
        if signal.getsignal(it) != signal.SIG_IGN:
            signal.signal(it, interrupt)


def processes():
    """Returns of each process its parent and the moment of its start."""
    found = {}
    for file in glob.glob("/proc/[0-9]*/stat"):
        try:
            with open(file, encoding="utf-8", errors="replace") as it:
                number, _, behind = it.read().partition(" (")
        except OSError:
            continue
        fields = behind.rpartition(")")[2].split()
        # (what has ended and waits for its parent counts no more)
        if fields and fields[0] != "Z":
            found[int(number)] = (int(fields[1]), fields[19])
    return found


def descendants():
    """Returns the processes below this one, with the moments of their starts."""
    known, found, last = processes(), {os.getpid(): None}, 0
    while len(found) > last:
        last = len(found)
        found.update({number: start for number, (parent, start) in known.items() if parent in found})
    del found[os.getpid()]
    return found


def left_of(found):
    known = processes()
    return [number for number, start in found.items() if known.get(number, (0, None))[1] == start]


def end_children():
    """Ends what this process has started, all the way down: by a signal that lets it tidy up, and after five seconds by force."""
    found = descendants()
    for number in (signal.SIGTERM, signal.SIGKILL):
        for it in left_of(found):
            try:
                os.kill(it, number)
            except OSError:
                pass
        until = time.monotonic() + 5
        while left_of(found) and time.monotonic() < until:
            time.sleep(0.02)


def call(words, log, tick, environment=None):
    """Runs a command with all that it says going to a log, and returns its status. A tick has the seconds that have passed."""
    with open(log, "ab") as out:
        how = {"stdin": subprocess.DEVNULL, "stdout": out, "stderr": subprocess.STDOUT, "cwd": TOP}
        child = subprocess.Popen(words, start_new_session=True, env={**os.environ, **(environment or {})}, **how)
    began = time.monotonic()
    while True:
        try:
            return child.wait(0.5)
        except subprocess.TimeoutExpired:
            tick(int(time.monotonic() - began))


def as_time(seconds):
    """Returns seconds as text."""
    if seconds < 60:
        return f"{seconds} s"
    if seconds < 3600:
        return f"{seconds // 60} min {seconds % 60} s"
    return f"{seconds // 3600} h {seconds % 3600 // 60} min"


def end_of(log):
    """Returns the lines of a log that tell why it failed: those of the kit, and the last ones."""
    with open(log, encoding="utf-8", errors="replace") as it:
        lines = [line.rstrip()[:300] for line in it if line.strip()]
    of_kit = [line for line in lines[:-12] if line.startswith("rt: ") and not re.search(r" (are )?proved$|trying its", line)]
    return [f"  {line}" for line in of_kit[-12:] + lines[-12:]]


def new_log(name):
    os.makedirs(f"{TOP}/out", exist_ok=True)
    handle, file = tempfile.mkstemp(".log", f"{name}-", f"{TOP}/out")
    os.close(handle)
    return file


# ---- sums


def crates():
    """Returns what each crate stands on, those of the kit among it, in the order of crates.txt."""
    found = {}
    with open(f"{TOP}/crates.txt", encoding="utf-8") as it:
        for line in it:
            name, colon, below = line.partition("#")[0].partition(":")
            if colon:
                found[name.split()[0]] = below.split()
    return found


def stands_on(name):
    """Returns the crates of this repository that a crate stands on, and the crate."""
    known, found = crates(), [name]
    for it in found:
        found += [below for below in known.get(it, ()) if below in known and below not in found]
    return sorted(found)


def sum_of_file(file):
    with open(file, "rb") as it:
        return hashlib.sha256(it.read()).hexdigest()


def sum_of_sources(name, parts, others=()):
    """Returns the sum of the files below these folders of all crates that a crate stands on, of their lines of crates.txt, and of
    other files."""
    whole, known = hashlib.sha256(), crates()
    for crate in stands_on(name):
        whole.update(f"{crate}: {' '.join(known.get(crate, ()))}\n".encode())
        for part in parts:
            for at, folders, files in os.walk(f"{TOP}/crates/{crate}/{part}"):
                folders.sort()
                for file in sorted(files):
                    path = os.path.relpath(f"{at}/{file}", TOP)
                    whole.update(f"{path} {sum_of_file(f'{TOP}/{path}')}\n".encode("utf-8", "surrogateescape"))
    for path in others:
        whole.update(f"{path} {sum_of_file(f'{TOP}/{path}')}\n".encode())
    return whole.hexdigest()


def kit():
    """Returns the line that names the kit, or nothing where there is none."""
    rt = shutil.which("rt")
    if not rt:
        return None
    file = os.path.join(os.path.dirname(os.path.dirname(os.path.realpath(rt))), "KIT-ID")
    if os.path.isfile(file):
        with open(file, encoding="utf-8") as it:
            return it.readline().strip()
    ran = subprocess.run(["rt", "version"], stdin=subprocess.DEVNULL, capture_output=True, text=True)
    return ran.stdout.partition("\n")[0].strip() or None


def sums_beside(program):
    """Returns what the file of sums beside a program says, by the first word of each line."""
    try:
        with open(f"{program}.sums", encoding="utf-8") as it:
            return dict(line.rstrip("\n").partition(" ")[::2] for line in it)
    except (OSError, ValueError):
        return {}


def is_of(program, sources, its_kit):
    """Returns whether a program is there, is the one of its file of sums, and was made of these sources by this kit, if there is
    a kit."""
    said = sums_beside(program)
    if said.get("sources") != sources or its_kit not in (None, said.get("kit")) or not os.access(program, os.X_OK):
        return False
    return said.get("program") == sum_of_file(program)


def write_sums(program, sources, its_kit):
    with open(f"{program}.sums.new", "w", encoding="utf-8") as it:
        it.write(f"sources {sources}\nprogram {sum_of_file(program)}\nkit {its_kit}\n")
    os.replace(f"{program}.sums.new", f"{program}.sums")


# ---- proved programs


def proved_place(name):
    return f"{TOP}/crates/{name}/out/{name}"


def sum_of_proof(name):
    """Returns the sum of all that a proof of a program is of."""
    others = [it for it in ("HANDLES",) if os.path.isfile(f"{TOP}/{it}")]
    return sum_of_sources(name, ("src", "specs", "proofs"), others)


def proved(name):
    """Returns the proved program of these sources, if it is there."""
    place = proved_place(name)
    return place if os.path.isfile(f"{place}.sums") and is_of(place, sum_of_proof(name), kit()) else None


def before_proof():
    """Takes away the programs that are there, so that what is there later is new, and returns the sums of the sources."""
    for name in NAMES:
        for ending in ("", ".by-rattle", ".sums"):
            if os.path.lexists(proved_place(name) + ending):
                os.remove(proved_place(name) + ending)
    return {name: sum_of_proof(name) for name in NAMES}


def after_proof(before):
    """Writes the sums of each program that a proof has left, where the sources are still those from before."""
    for name in NAMES:
        if os.path.isfile(proved_place(name)) and sum_of_proof(name) == before.get(name):
            write_sums(proved_place(name), before[name], kit())
    return proved(NAMES[0])


def adopt():
    """Takes over what the kit has kept of a proof of these very sources, where it keeps any; returns whether it did."""
    rt = shutil.which("rt")
    store = os.path.join(os.path.dirname(os.path.dirname(os.path.dirname(os.path.realpath(rt)))), "rattle-kept") if rt else ""
    if not glob.glob(f"{store}/proof-jobctl-*"):
        return False
    before, log = before_proof(), new_log("adopt")
    began = time.monotonic()

    def tick(seconds):
        if seconds > 300:
            end_children()
        elif seconds >= 10 and time.monotonic() - tick.last >= 10:
            tick.last = time.monotonic()
            say(f"looking for what the kit has kept, {as_time(seconds)} so far")

    tick.last = began
    try:
        status = call([sys.executable, "-B", f"{TOP}/tools/adopt.py", TOP], log, tick)
    finally:
        os.remove(log)
    return status == 0 and after_proof(before) is not None


# ---- proving


class Progress:
    """What of a run of `rt ci` is told: each crate that is proved, and what may be left."""

    def __init__(self, log):
        self.log, self.at, self.last = log, 0, 0
        known = crates()
        self.sizes = {it: 1 + sum(os.path.getsize(file) for file in self.files(it)) for it in known}
        self.done = set()

    @staticmethod
    def files(crate):
        return [f"{at}/{it}" for part in ("src", "specs", "proofs") for at, _, files in os.walk(f"{TOP}/crates/{crate}/{part}") for it in files]

    def left(self, seconds):
        """Returns what may be left, in seconds: by what all of it is expected to take at first, then by what is proved."""
        share = sum(self.sizes[it] for it in self.done) / sum(self.sizes.values())
        expected = 60 * expected_minutes()
        by_share = seconds * (1 - share) / share if share else expected
        guess = max(expected - seconds, 0) * (1 - share) + by_share * share
        return int(guess)

    def tick(self, seconds):
        """Tells of the crates that were proved since, and each half a minute how long it has taken."""
        with open(self.log, "rb") as it:
            it.seek(self.at)
            new = it.read()
        whole = new[: new.rfind(b"\n") + 1]
        self.at += len(whole)
        for name in re.findall(r"(?m)^rt: (\w+) proved$", whole.decode(errors="replace")):
            if name in self.sizes and name not in self.done:
                self.done.add(name)
                self.tell(f"{len(self.done)} of {len(self.sizes)} crates: {name} is proved", seconds)
        if seconds - self.last >= 30:
            self.tell(f"{len(self.done)} of {len(self.sizes)} crates are proved", seconds)

    def tell(self, what, seconds):
        self.last = seconds
        rest = "; edits and tests are left" if len(self.done) == len(self.sizes) else f", some {max(self.left(seconds) // 60, 1)} min left"
        say(f"{what}, {as_time(seconds)} so far{rest}")


def processors():
    return len(os.sched_getaffinity(0))


def expected_minutes():
    """Returns how many minutes of the clock a proof of everything may take here."""
    return max(CLOCK_MINUTES * CLOCK_PROCESSORS // processors(), CLOCK_MINUTES // 2)


def proof_command():
    """Returns the command that proves: `rt ci`, of what the program stands on alone where the kit takes names."""
    ran = subprocess.run(["rt", "help"], stdin=subprocess.DEVNULL, capture_output=True, text=True, errors="replace")
    return ["rt", "ci", *["jobctl"] * ("rt ci [NAME" in ran.stdout + ran.stderr)]


def prove():
    """Proves and builds the program, and returns it."""
    need_kit()
    if proved("jobctl"):
        say("the program of these sources is proved and built already")
        return proved("jobctl")
    if adopt():
        say("the kit has kept a proof of these very sources")
        return proved("jobctl")
    log = new_log("prove")
    say(f"proving {len(crates())} crates with their tests and edits, {processors()} at a time: from nothing some {PROCESSOR_MINUTES} minutes of")
    say(f"processor time, which is some {expected_minutes()} minutes of the clock here, and more beside other work. The log is {log}.")
    progress, before = Progress(log), before_proof()
    with tempfile.TemporaryDirectory(prefix="jobctl-", ignore_cleanup_errors=True) as room:
        # (the kit runs programs as nobody, who has to get to them)
        os.chmod(room, 0o711)
        try:
            status = call(proof_command(), log, progress.tick, {"TMPDIR": room})
        except BaseException:
            end_children()
            os.remove(log)
            raise
    if status:
        raise Failed("\n".join([f"the program is not proved: rt ci has ended with status {status}; of {log}:", *end_of(log)]))
    if not after_proof(before):
        raise Failed(f"rt ci has passed, but left no program of the sources as they are now: did a source change meanwhile? The log is {log}")
    os.remove(log)
    return proved("jobctl")


# ---- unproved programs


def need_kit():
    if not shutil.which("rt"):
        raise Failed('the kit is missing: there is no command rt on the PATH. README.md says under "Two commands" which kit this needs.')


def unproved_place(name, its_kit):
    """Returns where the unproved program of these sources is kept, and the sum of them."""
    sources = sum_of_sources(name, ("src",), ["bench/build_unproved.sh"])
    whole = hashlib.sha256(f"{sources} {its_kit}".encode()).hexdigest()
    return f"{KEPT}/{name}-{whole[:16]}", sources


def kept_unproved(name):
    """Returns the unproved program of these sources, if it is kept."""
    its_kit = kit()
    place, sources = unproved_place(name, its_kit)
    return place if its_kit and is_of(place, sources, its_kit) else None


def builder():
    """Returns what builds a program unproved. The checks put something else there, which takes no minutes."""
    return os.environ.get("JOBCTL_CHECKS_BUILDER") or f"{TOP}/bench/build_unproved.sh"


def tell_build(what):
    """Returns a tick that says every ten seconds that something goes on."""

    def tick(seconds):
        if seconds - tick.last >= 10:
            tick.last = seconds
            say(f"{what}, {as_time(seconds)} so far; it takes {HOW_LONG}")

    tick.last = 0
    return tick


def wait_for(lock, name):
    """Waits until no other run builds the same."""
    tick, began = tell_build(f"another run builds {name}, waiting for it"), time.monotonic()
    while True:
        try:
            return fcntl.flock(lock, fcntl.LOCK_EX | fcntl.LOCK_NB)
        except BlockingIOError:
            time.sleep(0.1)
            tick(int(time.monotonic() - began))


def drop_oldest():
    """Keeps the newest programs alone."""
    files = [it for it in glob.glob(f"{KEPT}/*-*") if re.fullmatch(r"[a-z_]+-[0-9a-f]{16}", os.path.basename(it))]
    for file in sorted(files, key=os.path.getmtime, reverse=True)[MOST_KEPT:]:
        for it in (file, f"{file}.sums"):
            if os.path.exists(it):
                os.remove(it)


def build(name):
    """Builds a program with nothing proved, keeps it, and returns it."""
    need_kit()
    os.makedirs(KEPT, exist_ok=True)
    with open(f"{KEPT}/{name}.lock", "w", encoding="utf-8") as lock:
        wait_for(lock, name)
        if kept_unproved(name):
            return kept_unproved(name)
        place, sources = unproved_place(name, kit())
        say(f"building {name} of these sources, once, with nothing proved: {HOW_LONG}")
        log = new_log("build")
        with tempfile.TemporaryDirectory(prefix="jobctl-", ignore_cleanup_errors=True) as room:
            try:
                status = call([builder(), f"{room}/program", name], log, tell_build(f"building {name}"), {"TMPDIR": room})
            except BaseException:
                end_children()
                os.remove(log)
                raise
            if status == -signal.SIGTERM:
                os.remove(log)
                raise Failed(f"{name} was not built: the build was ended from outside")
            if status or not os.access(f"{room}/program", os.X_OK):
                raise Failed("\n".join([f"{name} was not built, and nothing was run; of {log}:", *end_of(log)]))
            if unproved_place(name, kit())[0] != place:
                os.remove(log)
                raise Failed("a source has changed while the program was built, so nothing was run: once more, please")
            keep(f"{room}/program", place, sources)
        os.remove(log)
        return place


def keep(program, place, sources):
    """Puts a program that was built into its place."""
    shutil.copyfile(program, f"{place}.new")
    os.chmod(f"{place}.new", 0o755)
    os.replace(f"{place}.new", place)
    write_sums(place, sources, kit())
    drop_oldest()


def ready(name):
    """Returns the program to run, and whether it is proved: the proved one of these sources, or the unproved one, which is built
    if it is not there."""
    program = proved(name)
    if program:
        return program, True
    program = kept_unproved(name)
    if program:
        return program, False
    if kit() and adopt() and proved(name):
        return proved(name), True
    return build(name), False


def main():
    words = sys.argv[1:]
    if words == ["before"]:
        print(*(f"{name}={it}" for name, it in before_proof().items()))
    elif len(words) == 2 and words[0] == "proved":
        if not after_proof(dict(it.partition("=")[::2] for it in words[1].split())):
            sys.exit("programs.py: rt ci has left no program of the sources as they are now")
    else:
        sys.exit(__doc__.strip())


if __name__ == "__main__":
    main()
