"""tells.py: what ./jobctl says behind the program's own line of a bad script and of a report that is none, and ./jobctl check.

The texts of rules, limits and allowed words are those of docs/SCRIPT.md and docs/MANIFEST.md.
"""
import difflib
import functools
import json
import os
import re
import subprocess
import sys
import tempfile

from programs import TOP, Failed, say

WIDEST = 200
MOST_BAD = 100
EVENT = re.compile(r"([0-9]+) (@[0-9]+|-) (.*) -> (.*)")
JOIN = "a command is one line: `jq -c . FILE` puts each object on a line of its own"
MANIFEST = "tools/script_of.py FILE makes a script of manifests"
FROM_YAML = "a script is JSON, one command a line: kubectl create --dry-run=client -o json -f FILE | tools/script_of.py"


# ---- a line and a place in it


def text_of(line):
    """Returns a line's text with one column for each character that cannot be printed."""
    return "".join(it if it.isprintable() else "\N{MIDDLE DOT}" for it in line.decode("utf-8", "replace").rstrip("\r"))


def pictured(text, column):
    """Returns a text, cut at a width, and a mark below the column, if there is one."""
    start = max(0, min((column or 0) - WIDEST // 2, len(text) - WIDEST))
    part = text[start : start + WIDEST]
    front, back = "... " if start else "", " ..." if start + WIDEST < len(text) else ""
    mark = [] if column is None else [" " * (len(front) + column - start) + "^"]
    return [front + part + back, *mark]


def skipped(text, at):
    while text[at] in " \t\r":
        at += 1
    return at


def inside(text, at):
    """Returns where each member of the object, or each item of the list, stands that begins there."""
    found, is_object = {}, text[at] == "{"
    if text[at] not in "{[":
        return found
    at = skipped(text, at + 1)
    while text[at] not in "}]":
        key = len(found)
        if is_object:
            key, at = json.decoder.scanstring(text, at + 1)
            at = skipped(text, skipped(text, at) + 1)
        found[key] = at
        at = skipped(text, json.JSONDecoder().raw_decode(text, at)[1])
        at = skipped(text, at + 1) if text[at] == "," else at
    return found


def column_of(line, cause):
    """Returns the column of what the cause names, that of the object where it is missing, or of the first byte that is no JSON."""
    text = line.decode("utf-8", "replace")
    if cause == "not json":
        try:
            json.loads(text)
        except json.JSONDecodeError as error:
            return min(error.pos, max(len(text.rstrip()) - 1, 0))
        except (ValueError, RecursionError):
            pass
        return None
    try:
        at = skipped(text, 0)
        for name in names_of(cause):
            found = inside(text, at)
            if name not in found:
                break
            at = found[name]
        return at
    except (ValueError, IndexError, RecursionError):
        return None


def path_of(cause):
    found = re.match(r"(?:missing|wrong type|out of range|invalid) (\S+)", cause)
    return found[1] if found else ""


def names_of(cause):
    """Returns the names and the places in lists that the cause's path has."""
    return [int(it[1:-1]) if it.startswith("[") else it for it in re.findall(r"\[[0-9]+\]|[^.\[\]]+", path_of(cause))]


# ---- what it means


@functools.lru_cache(maxsize=None)
def explained(cause):
    """Returns what tools/explain.py says of a cause."""
    ran = subprocess.run([sys.executable, "-SB", f"{TOP}/tools/explain.py", cause], stdin=subprocess.DEVNULL, capture_output=True, text=True)
    return ran.stdout.rstrip("\n").split("\n") if ran.returncode == 0 and ran.stdout.strip() else []


@functools.lru_cache(maxsize=None)
def rows(page, head):
    """Returns the rows of the table of a page whose head begins so."""
    found, is_in = [], False
    with open(f"{TOP}/docs/{page}", encoding="utf-8") as it:
        for line in it:
            cells = [cell.strip().replace("`", "") for cell in line.strip().strip("|").split(" | ")]
            if not line.startswith("|"):
                is_in = False
            elif cells[0] == head:
                is_in = True
            elif is_in and not set(line) <= set("|- \n"):
                found.append(cells)
    return found


def commands():
    return re.findall(r'\{"do":"(\w+)"', " ".join(row[0] for row in rows("SCRIPT.md", "command")))


def members(command):
    """Returns what each member of a command has to be, by its name."""
    mine = [row for row in rows("SCRIPT.md", "member") if row[1] == "every command" or command in re.findall(r"\w+", row[1])]
    return {"do": "one of " + ", ".join(commands()), **{row[0]: row[2] for row in mine}}


def near(word, known):
    found = difflib.get_close_matches(str(word), known, 1, 0.6)
    return f"; did you mean {found[0]}?" if found else ""


def value_at(line, names):
    """Returns the value that the names lead to, or nothing."""
    try:
        value = json.loads(line)
        for name in names:
            value = value[name]
        return value
    except (ValueError, LookupError, TypeError, RecursionError):
        return None


def in_manifest(cause):
    """Returns the row of docs/MANIFEST.md for a path below job."""
    path = re.sub(r"\[[0-9]+\]", "", path_of(cause)[len("job.") :])
    best = ("", "")
    for row in rows("MANIFEST.md", "member"):
        for name in re.findall(r"[\w.]+", row[0]):
            if (path == name or path.endswith("." + name.lstrip("."))) and len(name) > len(best[0]):
                best = (name, "; ".join(it for it in row[1:] if it))
    return f"{path_of(cause)}: {best[1]}" if best[1] else ""


def limits(line, cause):
    """Returns what the member of the cause has to be, or which members and words there are."""
    names = names_of(cause)
    if not path_of(cause) or not names:
        return []
    command = value_at(line, ["do"])
    if names[0] == "job" and len(names) > 1:
        return [it for it in [in_manifest(cause)] if it]
    if cause.endswith(" rule 28"):
        known = members(command) if len(names) == 1 else {}
        return [f"{command} has the members {', '.join(known)}{near(names[0], known)}"] if known else []
    if names[0] == "do":
        return [f"do is {members(command)['do']}{near(value_at(line, ['do']), commands())}"]
    shape = members(command).get(names[0])
    value = value_at(line, names)
    allowed = re.findall(r"\b[A-Za-z]+\b", shape or "") if isinstance(value, str) else []
    return [f"{names[0]}: {shape}{near(value, allowed)}"] if shape else []


def meaning(line, cause):
    """Returns what a cause means for a line: what explain.py says of it, and what that does not say of the member."""
    told = explained(cause)
    said = "\n".join(told)
    for it in limits(line, cause):
        body, sign, meant = it.partition("; did you mean ")
        is_said = ": " in body and body.partition(": ")[2].partition(";")[0] in said
        told = told + ([f"did you mean {meant}"] * bool(sign) if is_said else [it])
    return told


# ---- what is no script at all


def spans(lines, at):
    """Returns how many lines the JSON value has that begins at a line, where it has more than one, and the value."""
    text = b"\n".join(lines[at : at + 100_000]).decode("utf-8", "replace")
    try:
        value, end = json.JSONDecoder().raw_decode(text.lstrip())
    except (ValueError, RecursionError):
        return 0, None
    count = text[: len(text) - len(text.lstrip()) + end].count("\n") + 1
    return (count, value) if count > 1 else (0, None)


def kind_of(lines, at):
    """Returns what a line that is no JSON, or no command, is in truth, as words and how many lines it takes; 0: all that are left."""
    line = lines[at]
    head = line.lstrip()
    if at == 0 and line.startswith((b"\xff\xfe", b"\xfe\xff")) or b"\0" in line[:200]:
        return "this is UTF-16, and a script is UTF-8: iconv -f UTF-16 -t UTF-8 FILE", 0
    if line.startswith(b"\xef\xbb\xbf"):
        return "the line begins with a byte order mark, three bytes which JSON does not have: sed '1s/^\\xEF\\xBB\\xBF//' FILE takes them away", 1
    if head.startswith((b"#", b"//", b"/*", b";")):
        return "this is a comment, and a script has none: grep -v '^ *#' FILE leaves such lines out (empty lines are allowed)", 1
    count, value = spans(lines, at)
    if count:
        is_manifest = isinstance(value, dict) and "kind" in value
        what = "this begins a manifest over several lines" if is_manifest else "this begins one JSON value over several lines"
        return f"{what} ({at + 1} to {at + count}); {MANIFEST if is_manifest else JOIN}", count
    value = value_at(line, [])
    if isinstance(value, dict) and "do" not in value and "kind" in value:
        return f"this is a manifest, and no command; {MANIFEST}", 1
    if EVENT.fullmatch(line.decode("utf-8", "replace")):
        return "this is the line of a report, and a script is wanted: ./jobctl audit reads reports, tools/replay.py makes a script of one", 0
    if re.match(rb"(---|- |[A-Za-z]\w*: |[A-Za-z]\w*:\r?$)", head):
        return f"this is YAML; {FROM_YAML}", 0
    if head.startswith(b"{") and b"'" in head and b'"' not in head:
        return "JSON has texts in double quotes alone", 1
    return "", 1


def block(lines, at, cause):
    """Returns the lines that tell of a bad line: itself, where in it, and what is meant; and how many lines it takes."""
    column = column_of(lines[at], cause)
    hint, count = kind_of(lines, at) if cause in ("not json", "missing do", "wrong type .") else ("", 1)
    told = pictured(text_of(lines[at]), column)
    if hint:
        told.append(hint)
    else:
        told += meaning(lines[at], cause)
    return told, count


# ---- an audit


def script_of(events):
    """Returns the script that plays the events of a report, by tools/replay.py, or nothing where that refuses them. The numbers are
    set right before, and where the last reply is not one at all, another stands in its place, since what is played has its own."""
    if not events or not os.path.isfile(f"{TOP}/tools/replay.py"):
        return None
    numbered = [f"{number} {it[2]} {it[3]} -> {it[4]}" for number, it in enumerate(events, 1)]
    other = numbered[-1].rpartition(" -> ")[0] + " -> done"
    for lines in (numbered, [*numbered[:-1], other]):
        with tempfile.NamedTemporaryFile("w", encoding="utf-8", prefix="jobctl-") as it:
            it.write("".join(f"{line}\n" for line in lines))
            it.flush()
            how = {"stdin": subprocess.DEVNULL, "capture_output": True}
            ran = subprocess.run([sys.executable, "-SB", f"{TOP}/tools/replay.py", it.name], **how)
        if ran.returncode == 0:
            return ran.stdout
    return None


def replayed(program, options, lines):
    """Returns the lines that are printed where the events of a report are played as a script, or nothing where that cannot be."""
    script = script_of([parted(line) for line in lines])
    if script is None:
        return []
    ran = subprocess.run([program, "run", *options], input=script, capture_output=True)
    return ran.stdout.split(b"\n")[:-1] if ran.returncode in (0, 6) else []


def parted(line):
    return EVENT.fullmatch(line.decode("utf-8", "replace"))


def wanted(lines, at, played):
    """Returns what should stand at a line, if it is known, and what is to be said of it: of the report's lines, and of what is printed
    where their events are played."""
    has, want = parted(lines[at]) if at < len(lines) else None, parted(played[at]) if at < len(played) else None
    if at >= len(played):
        return None, "there should be no such line: the report ends before it"
    if has is None or want is None:
        is_first = at > 0 and parted(lines[at - 1]) is not None or at == 0
        return text_of(played[at]), "so it is where no further event comes" if is_first else ""
    if has[1] != str(at + 1):
        return f"{want[1]} {has[2]} {has[3]} -> {want[4]}", "events are numbered from 1 without a gap"
    if has[3] == want[3] and has[4] == want[4]:
        what = "nothing of the kind comes of itself there" if has[2] == "-" else "no such command can stand there"
        return None, f"the reply would be right for a command of a script, but {what}"
    return f"{has[1]} {has[2]} {want[3]} -> {want[4]}", ""


def stands(program, options, lines):
    """Returns whether the last of these lines of a report can stand where it does, by an audit of them."""
    how = {"input": b"".join(line + b"\n" for line in lines), "capture_output": True}
    said = subprocess.run([program, "audit", *options], **how).stdout.decode(errors="replace").split()
    return said == ["yes"] or said[:1] == ["no"] and int(said[1]) > len(lines)


def first_difference(a, b):
    return next((i for i, (x, y) in enumerate(zip(a, b)) if x != y), min(len(a), len(b)))


def tell_audit(program, options, lines, number):
    """Returns what an audit's no is about: the line, and what it should be."""
    at = number - 1
    has = text_of(lines[at]) if at < len(lines) else "(the report has ended)"
    # (with the numbers that they should have)
    events = [parted(line) for line in lines[:number] if parted(line)]
    front = [it[0].replace(it[1], str(i), 1).encode() for i, it in enumerate(events, 1)]
    played = replayed(program, options, front)
    want, why = wanted(lines, at, played) if played else (None, "")
    if want and not stands(program, options, [*lines[:at], want.encode()]):
        want, why = None, "this event cannot come there, whatever its reply"
    column = first_difference(has, want) if want else None
    is_line, should_be = f"line {number} is:", "it should be:"
    width = max(len(is_line), len(should_be)) + 1
    told = [f"{is_line:{width}}{pictured(has, column)[0]}"]
    if want:
        told += [f"{label:{width}}{it}" for label, it in zip((should_be, ""), pictured(want, column))]
    right = f"lines 1 to {at} are right" if at > 1 else "line 1 is right" if at else ""
    asks = "" if options else "an audit takes the options with which the report was printed; here were none"
    return told + [it for it in (why, right, asks) if it]


# ---- the two uses


def lines_of(given):
    given.seek(0)
    data = given.read()
    lines = data.split(b"\n")
    return lines[:-1] if lines and not lines[-1] else lines


def more(program, order, status, said, given, name):
    """Says more behind the program's line: of a bad script, or of a report that is none."""
    found = re.search(r"^jobctl: (?:line ([0-9]+): (.*)|no at line ([0-9]+))$", said, re.M)
    if not found:
        return
    lines = lines_of(given)
    if status == 9:
        told = tell_audit(program, order.program_words[1:], lines, int(found[3]))
    else:
        at = int(found[1]) - 1
        if at >= len(lines):
            return
        told = [f"{name}, line {at + 1}:", *block(lines, at, found[2])[0]]
        told.append("./jobctl check FILE names all bad lines at once")
    for it in told:
        os.write(2, f"  {it}\n".encode("utf-8", "replace"))


def next_bad(program, lines):
    """Returns the first bad line that is left and its cause, or nothing. One event is enough: lines are read before any is played."""
    with tempfile.TemporaryFile() as it:
        it.write(b"\n".join(lines))
        it.seek(0)
        ran = subprocess.run([program, "run", "--events", "1"], stdin=it, stdout=subprocess.DEVNULL, stderr=subprocess.PIPE)
    found = re.search(r"^jobctl: line ([0-9]+): (.*)$", ran.stderr.decode(errors="replace"), re.M)
    if found:
        return int(found[1]) - 1, found[2]
    if ran.returncode not in (0, 6):
        raise Failed(f"the script cannot be read: {ran.stderr.decode(errors='replace').strip().removeprefix('jobctl: ')} (status {ran.returncode})")
    return None


def check(program, given, name):
    """Prints each bad line of a script with what is meant, and returns the status."""
    lines, bad = lines_of(given), 0
    is_whole = True
    while bad < MOST_BAD:
        found = next_bad(program, lines)
        if not found or found[0] >= len(lines):
            break
        at, cause = found
        told, count = block(lines, at, cause)
        print(f"{name}:{at + 1}: {cause}", *(f"    {it}" for it in told), sep="\n")
        bad += 1
        if lines[at].startswith(b"\xef\xbb\xbf"):
            lines[at] = lines[at][3:]
            continue
        if not count or cause == "too many commands":
            is_whole = False
            break
        lines[at : at + count] = [b""] * count
    if bad == MOST_BAD or not is_whole:
        print("the lines behind it were not looked at")
    print(f"{bad or 'no'} bad line{'' if bad == 1 else 's'} in {name}")
    return 5 if bad else 0
