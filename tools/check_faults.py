#!/usr/bin/env python3
"""check_faults.py: holds docs/FAULTS.md to examples/faults/. Each failure is a line; the last line says how many held.

Each row of its tables is of one script, and each script of examples/faults/ has one row. What a row quotes as printed by Daxorrum
stands in the report, within one line, and something of it in no wrong report; what it quotes of a controller with the fault stands in
the wrong report, and something of it not in the right one; its `no N` is the verdict. The promises that it names are bold in README.md,
the clauses are in PROVED.md. That the reports and the verdicts are those of the program is what check_examples.sh holds.
"""
import glob
import os
import re
import sys

sys.dont_write_bytecode = True
from checks import TOP, Checks, text_of

PAGE = "docs/FAULTS.md"
FOLDER = "examples/faults"
PLAIN, FULL = ["fault", "script", "Daxorrum prints"], ["fault", "script", "Daxorrum prints", "excluded by", "with the fault"]
checks = Checks("faults")
holds = checks.holds


def cells(line):
    return [it.strip() for it in line.strip().strip("|").split(" | ")]


def tables():
    """Returns the tables of the page: of each its heads, and its rows of cells."""
    found, heads = [], None
    for line in text_of(PAGE).split("\n"):
        if not line.startswith("|"):
            heads = None
        elif heads is None:
            heads = cells(line)
            found.append((heads, []))
        elif not re.fullmatch(r"[|\- ]+", line):
            found[-1][1].append(cells(line))
    return found


def stands(quote, text):
    """Whether the quote stands in one line of the text, with no word going on before or behind it."""
    before = r"(?<!\w)" if re.match(r"\w", quote) else ""
    behind = r"(?!\w)" if re.search(r"\w$", quote) else ""
    return any(re.search(before + re.escape(quote) + behind, line) for line in text.split("\n"))


def quotes(cell):
    return re.findall(r"`([^`]+)`", cell)


def check_row(name, heads, row):
    """Holds a row to the files of its script."""
    here = f"{PAGE}: {name}"
    link = re.fullmatch(r"\[`(\w+)`\]\(\.\./(examples/(?:faults/)?(\w+))\.script\)", row[1])
    if not link or link[1] != link[3]:
        holds(f"{here}: its script is no link [`NAME`](../examples/faults/NAME.script)", False)
        return
    path = link[2]
    files = {end: os.path.exists(f"{TOP}/{path}.{end}") for end in ("script", "report", "wrong", "verdict")}
    holds(f"{here}: there is no {path}.script, or no report", files["script"] and files["report"])
    has_wrong = heads[-1] == FULL[-1]
    holds(f"{here}: it has a wrong report just where its table has a place for it", files["wrong"] == files["verdict"] == has_wrong)
    if not files["report"] or has_wrong and not (files["wrong"] and files["verdict"]):
        return
    report = text_of(f"{path}.report")
    said = quotes(row[2])
    holds(f"{here}: it quotes nothing that Daxorrum prints", bool(said))
    for quote in said:
        holds(f"{here}: `{quote}` is in no line of {path}.report", stands(quote, report))
    if not has_wrong:
        return
    wrong, verdict = text_of(f"{path}.wrong"), text_of(f"{path}.verdict").strip()
    told = quotes(row[4])
    holds(f"{here}: the verdict is {verdict}", [it for it in told if re.fullmatch(r"no \d+", it)] == [verdict])
    told = [it for it in told if it != verdict]
    for quote in told:
        holds(f"{here}: `{quote}` is in no line of {path}.wrong", stands(quote, wrong))
    holds(f"{here}: all that it quotes of Daxorrum is in {path}.wrong too", any(not stands(it, wrong) for it in said))
    holds(f"{here}: all that it quotes of the wrong report is in {path}.report too", any(not stands(it, report) for it in told))


def check_promises():
    """The promises and the clauses that the page names are there."""
    promises = re.findall(r"(?m)^- \*\*([^*]+?)\.?\*\*", text_of("README.md"))
    for promise in re.findall(r"\[([^\]`]+)\]\[readme\]", text_of(PAGE)):
        holds(f"{PAGE}: README.md has no promise '{promise}'", promise in promises)
    clauses = "\n".join(it for it in text_of("docs/PROVED.md").split("\n") if it.startswith("| [`"))
    for clause in re.findall(r"\[`(\w+)`\]\[proved\]", text_of(PAGE)):
        holds(f"{PAGE}: docs/PROVED.md has no clause {clause}", f"`{clause}`" in clauses)
    for label in sorted(set(re.findall(r"\]\[(\w+)\]", text_of(PAGE)))):
        holds(f"{PAGE}: [{label}] is not said", bool(re.search(rf"(?m)^\[{label}\]: \S+$", text_of(PAGE))))
    for label, path, anchor in re.findall(r"(?m)^\[(\w+)\]: (\S+)#(\S+)$", text_of(PAGE)):
        file = os.path.normpath(f"docs/{path}")
        heads = re.findall(r"(?m)^#+ (.*)$", text_of(file)) if os.path.exists(f"{TOP}/{file}") else []
        holds(f"{PAGE}: [{label}] leads nowhere", anchor in {it.lower().replace(" ", "-") for it in heads})


def main():
    named = []
    for heads, rows in tables():
        holds(f"{PAGE}: a table has other heads: {heads}", heads == FULL or heads[:3] == PLAIN and len(heads) == 4)
        for row in rows:
            name = row[1] if len(row) > 1 else row[0]
            holds(f"{PAGE}: {name}: {len(row)} cells where there are {len(heads)} heads", len(row) == len(heads))
            if len(row) == len(heads):
                check_row(re.sub(r"\W*\[`(\w+)`.*", r"\1", name), heads, row)
                named += re.findall(rf"\.\./{FOLDER}/(\w+)\.script", row[1])
    scripts = sorted(os.path.basename(it)[:-7] for it in glob.glob(f"{TOP}/{FOLDER}/*.script"))
    for name in scripts:
        holds(f"{PAGE}: {name} has {named.count(name)} rows", named.count(name) == 1)
    check_promises()
    checks.end(400)


main()
