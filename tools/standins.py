#!/usr/bin/env python3
"""standins.py check CRATE [FLAG..] | slow CRATE | build [--jobs N] [CRATE..]: checks a crate before those below it are proved.

A stand-in of a crate has its true types, contracts, definitions and lemma files, and no bodies. It builds in 10 to 90 s
where the crate is proved in minutes. What checks over stand-ins checks over the proved crates too, at the first or second
try; a stand-in itself proves nothing, and only rt ci decides.

  check CRATE [FLAG..]      builds the stand-ins below the crate that its text has none of yet, and checks the crate over
                            them. FLAGs go to the prover: --only a::f, --allow-holes, --jobs N. Status 0: proved
  slow CRATE                checks the crate anew, and prints its functions that took longest, in seconds of the clock
  build [--jobs N] [CRATE..]    builds the stand-ins of these crates, or of all, and of what is below them

A stand-in is kept under the sum of what it was made from, in $STANDINS (~/.cache/standins if unset), for all checkouts. A
change of bodies makes none anew; one of a contract makes those of the crate and of the crates above it.
"""
import concurrent.futures
import fcntl
import hashlib
import os
import re
import shutil
import subprocess
import sys
import tempfile

sys.dont_write_bytecode = True
from programs import TOP, crates

CACHE = os.environ.get("STANDINS") or os.path.join(os.environ.get("XDG_CACHE_HOME") or os.path.expanduser("~/.cache"), "standins")
VIEW = os.path.join(CACHE, "views", hashlib.sha256(TOP.encode()).hexdigest()[:12])
# What ends a contract's word before its clause, in braces.
CLAUSE = re.compile(r"(requires|ensures|measure|decreases|invariant)\*?(\s+[A-Za-z_][A-Za-z_0-9]*)?\s*$")
ABSURD = '\nunsafe extern "C" {\n    safe fn standin_absurd()\n        ensures { ⊥ };\n}\n'
BODY = "{\n    crate::standin_absurd();\n    unreachable!()\n}"


def kit():
    """Returns the kit's folder."""
    if not shutil.which("rt"):
        sys.exit("standins.py: there is no command rt on the PATH")
    return os.path.dirname(subprocess.run(["rt", "doc"], capture_output=True, text=True, check=True).stdout.split("\n")[0])


# ---- the text of a stand-in


def past_text(text, at):
    """Returns the place behind the string that begins here."""
    at += 1
    while text[at] != '"':
        at += 2 if text[at] == "\\" else 1
    return at + 1


def past_braces(text, at):
    """Returns the place behind the braces that open here."""
    depth = 0
    while at < len(text):
        if text.startswith("//", at):
            at = text.find("\n", at)
            continue
        if text[at] == '"':
            at = past_text(text, at)
            continue
        quoted = re.match(r"'(\\.|[^\\'])'", text[at : at + 12]) if text[at] == "'" else None
        if quoted:
            at += quoted.end()
            continue
        depth += {"{": 1, "}": -1}.get(text[at], 0)
        at += 1
        if depth == 0:
            return at
    raise ValueError("braces that do not close")


def body_of(text, at):
    """Returns where the body of the function whose head goes on here begins and ends, or None if it has none."""
    depth, since = 0, at
    while True:
        if text.startswith("//", at):
            at = text.find("\n", at)
        elif text[at] == ";" and depth == 0:
            return None
        elif text[at] == "{" and depth == 0:
            end = past_braces(text, at)
            if not CLAUSE.search(re.sub(r"//[^\n]*\n", "\n", text[since:at])):
                return at, end
            at = since = end
        else:
            depth += {"(": 1, "[": 1, ")": -1, "]": -1}.get(text[at], 0)
            at += 1


def without_bodies(text):
    """Returns the text with a body in the place of each function's that ends at once, by what is absurd."""
    parts, last = [], 0
    for head in re.finditer(r"(?<!\w)fn\s+[A-Za-z_]\w*", text):
        line = text.rfind("\n", 0, head.start()) + 1
        if head.start() < last or "//" in text[line : head.start()]:
            continue
        body = body_of(text, head.end())
        if body:
            parts += [text[last : body[0]], BODY]
            last = body[1]
    # (such a body calls nothing, so no cycle of calls is left to name)
    return re.sub(r"#\[cycle\(\w+\)\]\n", "", "".join([*parts, text[last:]]))


def standin(name):
    """Returns the files of a crate's stand-in, by their paths."""
    files = {}
    for part in ("src", "specs", "proofs"):
        for at, _, names in os.walk(f"{TOP}/crates/{name}/{part}"):
            for file in names:
                # (answers to goals of bodies that are not there)
                if part == "proofs" and file in ("Answers.antt", "Invariants.antt", "Proof.antt"):
                    continue
                with open(f"{at}/{file}", encoding="utf-8") as it:
                    text = it.read()
                path = os.path.relpath(f"{at}/{file}", f"{TOP}/crates/{name}")
                text = without_bodies(text) if part == "src" else text
                files[path] = text + ABSURD if path == "src/lib.rt" else text
    return files


# ---- what takes long


def slowest(crate, files):
    """Returns how long each function of a crate took and its name, the longest first, of the files that a check wrote.

    A check writes a file of a function as soon as it has made it; so it took from the file before on. FILES are
    moments and names."""
    times = {}
    ordered = sorted(files)
    for (before, _), (at, name) in zip(ordered, ordered[1:]):
        own = re.match(rf"Rattle-{crate}-proofs\.([a-z].*)\.[A-Z][-A-Za-z0-9]*(\.decls)?\.oantt$", name)
        if own:
            times[own[1]] = times.get(own[1], 0) + at - before
    return sorted(((time, function.replace(".", "::")) for function, time in times.items()), reverse=True)


# ---- building and checking


class Standins:
    def __init__(self):
        self.kit, self.below, self.sums, self.texts = kit(), crates(), {}, {}
        for folder in ("built", "rooms"):
            os.makedirs(f"{CACHE}/{folder}", exist_ok=True)
        os.makedirs(f"{VIEW}/rlibs", exist_ok=True)
        os.makedirs(f"{VIEW}/logs", exist_ok=True)
        with open(f"{self.kit}/KIT-ID", encoding="utf-8") as it:
            self.id = it.read()

    def own(self, name):
        """Returns the crates of the repository that it stands on itself."""
        return [it for it in self.below[name] if it in self.below]

    def order(self, names):
        """Returns these crates and all below them, each after those that it stands on."""
        found = []
        for name in names:
            for it in [*self.order(self.own(name)), name]:
                if it not in found:
                    found.append(it)
        return found

    def text(self, name):
        if name not in self.texts:
            self.texts[name] = standin(name)
        return self.texts[name]

    def sum(self, name):
        """Returns the sum of all that a stand-in is made from."""
        if name not in self.sums:
            below = [(it, self.sum(it)) for it in self.own(name)]
            made = repr((self.id, self.below[name], below, sorted(self.text(name).items())))
            self.sums[name] = hashlib.sha256(made.encode()).hexdigest()[:24]
        return self.sums[name]

    def place(self, name):
        return f"{CACHE}/built/{name}-{self.sum(name)}.rlib"

    def show(self, name):
        """Has the checkout's view show the crate's stand-in of now."""
        link = f"{VIEW}/rlibs/{name}.rlib"
        if os.path.realpath(link) != self.place(name):
            part = f"{link}.{os.getpid()}"
            os.symlink(self.place(name), part)
            os.replace(part, link)

    def words(self, name, root):
        """Returns the words of the prover for a crate, over the stand-ins of the view."""
        words = ["--crate-name", name, root, "--extern", f"std={self.kit}/rlibs/std.rlib"]
        words += ["-L", f"dependency={self.kit}/rlibs", "-L", f"dependency={VIEW}/rlibs"]
        for it in self.below[name]:
            words += ["--extern", f"{it}={VIEW if it in self.below else self.kit}/rlibs/{it}.rlib"]
        words += ["--antt-project", f"{self.kit}/rattle/logic/antt-project.json", "--logic-built", f"{self.kit}/logic_built"]
        return words

    def build(self, name):
        """Builds one stand-in, those below it being there, and returns whether it could."""
        if os.path.isdir(self.place(name)):
            self.show(name)
            return True
        with open(f"{CACHE}/rooms/{name}-{self.sum(name)}.lock", "w", encoding="utf-8") as lock:
            # (so that two checkouts do not make the same one side by side)
            fcntl.flock(lock, fcntl.LOCK_EX)
            return self.make(name)

    def make(self, name):
        """Makes one stand-in, unless another checkout has made it meanwhile, and returns whether it could."""
        if os.path.isdir(self.place(name)):
            self.show(name)
            return True
        log = f"{VIEW}/logs/{name}.standin.log"
        with tempfile.TemporaryDirectory(dir=f"{CACHE}/rooms") as room:
            for path, text in self.text(name).items():
                os.makedirs(os.path.dirname(f"{room}/{path}"), exist_ok=True)
                with open(f"{room}/{path}", "w", encoding="utf-8") as it:
                    it.write(text)
            words = [f"{self.kit}/bin/rattle", "build", *self.words(name, "src/lib.rt"), "--links", f"{name}=standin"]
            words += ["--jobs", "1", "--statements", "-o", f"{room}/made.rlib"]
            with open(log, "w", encoding="utf-8") as it:
                status = subprocess.run(words, cwd=room, stdout=it, stderr=subprocess.STDOUT).returncode
            if status == 0:
                try:
                    os.rename(f"{room}/made.rlib", self.place(name))
                except OSError:
                    # (another checkout has built the same meanwhile)
                    pass
        if os.path.isdir(self.place(name)):
            self.show(name)
        print(f"stand-in of {name}: {'built' if status == 0 else f'NOT BUILT, see {log}'}", flush=True)
        return status == 0

    def build_all(self, names, jobs):
        """Builds these stand-ins and those below them, side by side, and returns those that could not be built."""
        todo, done, failed, running = self.order(names), set(), set(), {}
        with concurrent.futures.ThreadPoolExecutor(jobs) as pool:
            while todo or running:
                failed |= {it for it in todo if failed & {*self.own(it)}}
                todo = [it for it in todo if it not in failed]
                for name in [it for it in todo if done >= {*self.own(it)}][: jobs - len(running)]:
                    todo.remove(name)
                    running[pool.submit(self.build, name)] = name
                for it in concurrent.futures.wait(running, return_when=concurrent.futures.FIRST_COMPLETED).done:
                    (done if it.result() else failed).add(running.pop(it))
        return failed

    def check(self, name, flags):
        """Checks a crate over stand-ins, and returns the prover's status."""
        failed = self.build_all(self.own(name), 2)
        if failed:
            sys.exit(f"standins.py: not built: {' '.join(sorted(failed))}")
        folder = f"{TOP}/crates/{name}"
        root = "src/lib.rt" if os.path.isfile(f"{folder}/src/lib.rt") else "src/main.rt"
        words = [f"{self.kit}/bin/rattle", "check", *self.words(name, root), "--links", f"{name}="]
        os.makedirs(f"{VIEW}/kept/{name}", exist_ok=True)
        words += ["--incremental", f"{VIEW}/kept/{name}", *([] if "--jobs" in flags else ["--jobs", "1"]), *flags]
        log = f"{VIEW}/logs/{name}.log"
        with open(log, "w", encoding="utf-8") as it:
            status = subprocess.run(words, cwd=folder, stdout=it, stderr=subprocess.STDOUT).returncode
        with open(log, encoding="utf-8", errors="replace") as it:
            lines = [line for line in it if not re.search(r": proved$|^statements |^logic /", line)]
        print(*lines[:150], sep="", end="")
        print(f"{name}: {'proved over stand-ins' if status == 0 else 'NOT PROVED'}; the whole log is {log}")
        return status


    def slow(self, name):
        """Checks a crate anew over stand-ins, prints its slowest functions, and returns the prover's status."""
        folder = f"{VIEW}/kept/{name}"
        shutil.rmtree(folder, ignore_errors=True)
        status = self.check(name, [])
        files = [(os.stat(f"{at}/{file}").st_mtime, file) for at, _, names in os.walk(folder) for file in names]
        for time, function in slowest(name, files)[:15]:
            print(f"{time:6.1f} {function}")
        return status


def main():
    words = sys.argv[1:]
    if words[:1] in (["check"], ["slow"]) and len(words) > 1:
        made = Standins()
        if words[1] not in made.below:
            sys.exit(f"standins.py: crates.txt has no crate {words[1]}")
        sys.exit(made.slow(words[1]) if words[0] == "slow" else made.check(words[1], words[2:]))
    if words[:1] == ["build"]:
        made, names, jobs = Standins(), words[1:], 2
        if names[:1] == ["--jobs"]:
            jobs, names = int(names[1]), names[2:]
        libraries = [it for it in made.below if not it.endswith("_tests") and os.path.isfile(f"{TOP}/crates/{it}/src/lib.rt")]
        sys.exit(1 if made.build_all(names or libraries, jobs) else 0)
    print(__doc__.strip())
    sys.exit(2)


if __name__ == "__main__":
    main()
