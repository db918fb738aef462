#!/usr/bin/env python3
"""explain.py WORD..: prints what something means that the program takes or prints, from the tables of docs/SCRIPT.md.

  explain.py 29                                     the rule of this number
  explain.py behind                                 what has this name: a reply, a command, a condition, a reason, a member
  explain.py "jobctl: line 3: invalid job.kind rule 2"      a line of standard error, with what the member may be
  explain.py out of range pod                       a cause of one
  explain.py "18 - step 0 0 -> status written v7"   a line of a report
  explain.py status 6                               an exit status
What a manifest's members may be is from docs/MANIFEST.md. Status 1 says that nothing of that kind is in the tables.
"""
import os
import re
import sys

sys.dont_write_bytecode = True
import reports

DOCUMENTS = os.path.join(os.path.dirname(os.path.abspath(__file__)), "..", "docs")
# The rule of a text that is none of a fixed set.
FIXED_SET = "29"
IS_STATUS = re.compile(r"(?:exit )?status ([0-9]+)")
_tables = {}


def cells_of(line):
    """Returns the cells of a table's row, or None of another line."""
    return [cell.strip() for cell in line.strip().strip("|").split(" | ")] if line.startswith("|") else None


def tables(page="SCRIPT.md"):
    """Returns each table of a page as its rows below the head, by the first cell of its head."""
    if page in _tables:
        return _tables[page]
    found, rows = {}, None
    with open(os.path.join(DOCUMENTS, page), encoding="utf-8") as it:
        for line in it:
            cells = cells_of(line)
            if not cells:
                rows = None
            elif rows is None:
                rows = found.setdefault(cells[0], [])
            elif not set(line) <= set("|- \n"):
                rows.append(cells)
    _tables[page] = found
    return found


def rules():
    return {int(row[0]): (row[1], row[2]) for row in tables()["rule"]}


def statuses():
    """Returns the meaning of each exit status, and what the program says on standard error with it."""
    found = {}
    for numbers, meaning, said in tables()["status"]:
        texts = re.findall(r"`jobctl: ([^`]+)`", said)
        for place, number in enumerate(numbers.split(", ")):
            found[int(number)] = (meaning, texts[min(place, len(texts) - 1)] if texts else None)
    return found


def forms(cell):
    """Returns the texts in backquotes of a cell."""
    return re.findall(r"`([^`]+)`", cell)


def begins_so(form, text):
    return form.partition(" ")[0] == text.partition(" ")[0]


def replies(text):
    """Returns what the replies say that begin as this text."""
    return [f"{forms(row[0])[0]}: {row[1]}" for row in tables()["reply"] if begins_so(forms(row[0])[0], text)]


def acts(text):
    """Returns what the commands do that have this name, in a script or in a report."""
    found = []
    for command, does, act, _ in tables()["command"]:
        name = re.search(r'"do":"(\w+)"', command)[1]
        if text.partition(" ")[0] == name or any(begins_so(it, text) for it in forms(act)):
            found.append(f"{forms(act)[0]} (the command {name}): {does}")
    return found


def conditions(text):
    """Returns where a Job gets a condition or a reason of this name."""
    found = [f"{it[1]} with {it[2]}: {it[0]}" for it in tables()["where"] if text in forms(it[1]) + forms(it[2])]
    others = [it for it in tables()["condition"] if text in forms(it[0]) + forms(it[1])]
    return found + [f"{condition}, its reason {reason}: {when}" for condition, reason, when in others]


def members(path):
    """Returns what the member at a path may be: one of a command, or of a manifest, where the longest name that fits is told."""
    parts = re.sub(r"\[[0-9]+\]", "", path).split(".")
    if parts[0] == "job" and len(parts) > 1:
        for start in range(1, len(parts)):
            name = ".".join(parts[start:])
            found = [row for row in tables("MANIFEST.md")["member"] if any(it.strip(".") == name for it in forms(row[0]))]
            if found:
                return [f"{name}: {row[1]}" for row in found]
    found = [row for row in tables()["member"] if parts[0] in forms(row[0])]
    return [f"{parts[0]} of {row[1]}: {row[2]}" for row in found]


def allowed(path):
    """Returns the words that a member of a fixed set may be."""
    if path == "do":
        names = [re.search(r'"do":"(\w+)"', row[0])[1] for row in tables()["command"]]
        return [f"do: one of {', '.join(names)}"]
    return members(path)


def of_event(text):
    """Explains a line of an event: where it comes from, what was done, and what it was answered."""
    event = reports.event_of(text)
    if not event:
        return []
    tag = "-" if event.lane is None else "@N"
    lines = [f"tag {row[0]}: {row[1]}" for row in tables()["tag"] if tag in forms(row[0])]
    if event.verb == "begin" and event.lane is None:
        lines += acts(event.act)[:1]
    else:
        lines += acts(event.act)
    request, answer = event.request
    for said in (request, answer) if request else (event.said,):
        lines += replies(" ".join(said))
    return lines


def of_last_line(text):
    """Explains one of the last lines of a report."""
    return [f"{forms(row[0])[0]}: {row[1]}" for row in tables()["last line"] if begins_so(forms(row[0])[0], text)]


def of_rule(text):
    """Explains the number of a rule, and of a cause that names one what its member may be."""
    found = re.fullmatch(r"(?:invalid (\S*) )?(?:rule )?([0-9]+)", text)
    if not found or int(found[2]) not in rules():
        return []
    where, path = rules()[int(found[2])]
    lines = [f"rule {found[2]} is broken where {where} ({found[1] or path})"]
    return lines + (allowed(found[1]) if found[1] and found[2] == FIXED_SET else [])


def of_status(text):
    """Explains an exit status."""
    found = IS_STATUS.fullmatch(text)
    if int(found[1]) not in statuses():
        return []
    return [f"status {found[1]}: {statuses()[int(found[1])][0]}"]


def of_error(text):
    """Explains a line of standard error that is not about a line of a script."""
    found = []
    for number, (meaning, said) in statuses().items():
        pattern = re.escape(said or "").replace("N", "[0-9]+")
        if said and re.fullmatch(pattern, text):
            found.append(f"{text} (status {number}): {meaning}")
    return found


def of_cause(text):
    """Explains why a line of a script was refused, and what the member at the path may be."""
    for form, meaning in ((forms(row[0])[0], row[1]) for row in tables()["cause"]):
        fixed = form.removesuffix(" PATH")
        path = text.removeprefix(fixed + " ") if text.startswith(fixed + " ") and form != fixed else ""
        if " rule N" not in form and (text == fixed or path):
            return [f"{text}: {meaning}", *members(path)]
    return []


def of_name(text):
    """Explains a name: of a reply, a command, a condition, a reason or a member."""
    return replies(text) + acts(text) + conditions(text) + members(text)


def told(words):
    """Returns the lines that explain these words."""
    text = re.sub(r"^(jobctl: )?(line [0-9]+: )?", "", " ".join(words).strip())
    ways = (of_event, of_rule, of_error, of_cause, of_last_line, of_name)
    for look in (of_status,) if IS_STATUS.fullmatch(text) else ways:
        lines = look(text)
        if lines:
            return [re.sub(r"\[([^]]*)\]\([^)]*\)", r"\1", line).replace("`", "") for line in lines]
    return []


def main():
    words = sys.argv[1:]
    if not words or words[0] in ("-h", "--help"):
        print(__doc__.strip())
        return
    lines = told(words)
    if not lines:
        raise reports.Refused(f"docs/SCRIPT.md has nothing on {' '.join(words)}")
    print(*lines, sep="\n")


if __name__ == "__main__":
    reports.run("explain.py", main)
