#!/usr/bin/env python3
"""wrapper.py: what ./jobctl does with its words: docs/SCRIPT.md, "By ./jobctl".

The program is the proved one of these sources where it is there, and else one of which nothing is proved, that is built once and
kept (programs.py). Standard input, or the file that is named, is read to its end before anything else is done.
"""
import errno
import os
import signal
import subprocess
import sys
import tempfile

sys.dont_write_bytecode = True
import programs
import words
from programs import Failed, Interrupted, say

# One byte more than a program takes: it refuses that itself.
MOST_BYTES = 67_108_865
NOT_PROVED = f"nothing in this program is proved; ./jobctl prove proves it, in {programs.PROOF_TAKES}"


class ReadFault(Exception):
    """What is to be read cannot be; the text says why."""


def mend_streams():
    """Puts something that fails in the place of streams that are closed, so that no file that is opened later becomes one."""
    for number, flags in ((0, os.O_WRONLY), (1, os.O_RDONLY), (2, os.O_WRONLY)):
        try:
            os.fstat(number)
        except OSError:
            opened = os.open("/dev/null", flags)
            if opened != number:
                os.dup2(opened, number)
                os.close(opened)
            os.set_inheritable(number, True)
    sys.stdout = sys.stdout or open(1, "w", encoding="utf-8", closefd=False)


def copied(source, to):
    """Copies to the end of a source, or to where it is too long for the program."""
    length = 0
    while length < MOST_BYTES:
        part = os.read(source, min(1 << 20, MOST_BYTES - length))
        if not part:
            return length
        try:
            to.write(part)
        except OSError as error:
            raise Failed(f"what is read cannot be kept in {tempfile.gettempdir()}: {error.strerror}") from None
        length += len(part)
    return length


def read_whole(file, what):
    """Returns a file without a name that has all of standard input, or of the file that is named."""
    to = tempfile.TemporaryFile()
    if file in (None, "-"):
        source, name = 0, "standard input"
        if os.isatty(0):
            say(f"reading {what} from the terminal until its end, Ctrl-D on a line of its own; ./jobctl help says how to name a file")
    else:
        try:
            source, name = os.open(file, os.O_RDONLY | os.O_CLOEXEC), file
        except OSError as error:
            raise ReadFault(f"{words.shown(file)}: {error.strerror}{words.without_dashes(file)}") from None
    try:
        length = copied(source, to)
    except OSError as error:
        raise ReadFault(f"{words.shown(name)}: {'it is closed' if error.errno == errno.EBADF else error.strerror}") from None
    finally:
        if source:
            os.close(source)
    if not length:
        say(f"note: {words.shown(name)} is empty")
    to.flush()
    return to


def play(program, program_words, given):
    """Runs the program; returns its status, and its lines of standard error, which are passed on."""
    try:
        if given is not None:
            given.seek(0)
        how = {"stdin": subprocess.DEVNULL if given is None else given, "stderr": subprocess.PIPE, "start_new_session": True}
        child = subprocess.Popen([program, *program_words], **how)
    except OSError as error:
        raise Failed(f"{program} cannot be run: {error.strerror}") from None
    said = child.stderr.read()
    status = child.wait()
    try:
        os.write(2, said)
    except OSError:
        pass
    return status if status >= 0 else 128 - status, said.decode(errors="replace")


def run(order):
    """Does run, reap, audit and generate."""
    what = "a report" if order.command == "audit" else "a script"
    given = None if order.command == "generate" else read_whole(order.file, what)
    program, is_proved = programs.ready("jobctl")
    if not is_proved:
        say(NOT_PROVED)
    status, said = play(program, order.program_words, given)
    if status in (5, 9):
        name = order.file if order.file not in (None, "-") else "standard input"
        import tells

        try:
            tells.more(program, order, status, said, given, words.shown(name))
        except (ValueError, LookupError, RecursionError) as error:
            say(f"no more can be told of it: {error!r}")
    return status


def check(order):
    given = read_whole(order.file, "a script")
    name = order.file if order.file not in (None, "-") else "standard input"
    program, is_proved = programs.ready("jobctl")
    if not is_proved:
        say(NOT_PROVED)
    import tells

    return tells.check(program, given, words.shown(name))


def version():
    """Prints what this checkout is, what it was made with, and whether it is proved."""
    def git(*asked):
        try:
            ran = subprocess.run(["git", "-C", programs.TOP, *asked], stdin=subprocess.DEVNULL, capture_output=True, text=True)
        except OSError:
            return None
        return ran.stdout.strip() if ran.returncode == 0 else None

    is_ours = git("rev-parse", "--show-toplevel") == programs.TOP
    commit = git("rev-parse", "HEAD") if is_ours else None
    changed = git("status", "--porcelain", "--untracked-files=no") if commit else ""
    print(f"commit {commit or 'unknown: this is no checkout of git'}{', and files that were changed since' if changed else ''}")
    print(f"kit {programs.kit() or 'none: there is no command rt on the PATH'}")
    place = programs.proved("jobctl")
    if place:
        print(f"program proved: {os.path.relpath(place, programs.TOP)}")
    elif programs.kept_unproved("jobctl"):
        print(f"program not proved: {os.path.relpath(programs.kept_unproved('jobctl'), programs.TOP)}")
    else:
        print("program none yet of these sources: ./jobctl run builds one with nothing proved, ./jobctl prove a proved one")


def prove():
    say(f"the program is proved and built: {programs.prove()}")


def test():
    sys.stdout.flush()
    os.execv(sys.executable, [sys.executable, "-SB", f"{programs.TOP}/tools/run_tests.py"])


def refuse(why, of):
    """Says why words are refused, behind the line that the program has for that."""
    lines = ["jobctl: bad words", f"jobctl: {why}", *words.usage(of), "./jobctl help COMMAND names its options with their limits."]
    os.write(2, "".join(f"{it}\n" for it in lines).encode("utf-8", "backslashreplace"))
    return 2


def answer(given):
    """Does what the words ask for, and returns the status."""
    try:
        order = words.read(given)
    except words.Refused as why:
        return refuse(why, given[0] if given else "")
    if order.command == "help":
        print(*words.help_of(order.of), sep="\n")
        return 0
    does = {"check": lambda: check(order), "version": version, "prove": prove, "test": test}
    try:
        return does.get(order.command, lambda: run(order))() or 0
    except ReadFault as why:
        say("read fault")
        say(str(why))
        return 3
    except Failed as why:
        for line in str(why).split("\n"):
            say(line)
        return 1


def main():
    mend_streams()
    programs.catch_signals()
    try:
        status = answer(sys.argv[1:])
        sys.stdout.flush()
    except Interrupted as what:
        programs.end_children()
        signal.signal(what.args[0], signal.SIG_DFL)
        os.kill(os.getpid(), what.args[0])
    except OSError as error:
        programs.end_children()
        say(f"{error.filename}: {error.strerror}" if error.filename else "write fault")
        status = 1 if error.filename else 4
    # (what could not be written is not tried again)
    os._exit(status)


if __name__ == "__main__":
    main()
