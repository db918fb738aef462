#!/usr/bin/env python3
"""check_cookbook.py [PROGRAM [--draw]]: holds docs/COOKBOOK.md and docs/TUTORIAL.md to what they show. It says how much held.

Each story of examples/cookbook/ has one part of the cookbook, with links to its script and its report, and stands in
examples/README.md. Each line that a part shows stands in the script, where it is a command, or else in the report, and
behind the one before it. Two dots in a shown line stand for what is left out, and `   # ..` at its end is a remark. With a
PROGRAM the commands of the tutorial are run in their order, with the program in the place of ./jobctl: each prints what
the page shows, and the picture is the one of the page; --draw makes it so.
"""
import glob
import os
import re
import subprocess
import sys
import tempfile

sys.dont_write_bytecode = True
from checks import TOP, Checks, text_of

checks = Checks("cookbook")
holds = checks.holds


def shown(text):
    """Returns the lines of a page that stand in blocks, without their four spaces and their remarks."""
    return [line[4:].partition("   # ")[0] for line in text.split("\n") if line.startswith("    ")]


def like(line):
    """Returns the pattern of a shown line: two dots stand for what is left out."""
    return ".*".join(re.escape(piece.strip()) for piece in line.split("..")) if ".." in line else re.escape(line)


def check_part(folder, title, part):
    """Checks one part of a page of stories, and returns the name of its story."""
    links = re.findall(rf"\]\(\.\./{folder}/(\w+)\.(script|report)\)", part)
    name = links[0][0] if links else None
    holds(f"{title}: no links to one script and its report", links == [(name, "script"), (name, "report")])
    left, used = {}, set()
    for kind in ("script", "report"):
        is_there = os.path.exists(f"{TOP}/{folder}/{name}.{kind}")
        left[kind] = text_of(f"{folder}/{name}.{kind}").split("\n") if is_there else []
    for line in shown(part):
        kind = "script" if line.startswith("{") else "report"
        found = [at for at, it in enumerate(left[kind]) if re.fullmatch(like(line), it)]
        holds(f"{title}: not in {name}.{kind}, or not there: {line}", bool(found) and line.strip(". ") != "")
        left[kind] = left[kind][found[0] + 1:] if found else left[kind]
        used.add(kind)
    holds(f"{title}: it shows no line of the script, or none of the report", len(used) == 2)
    return name


def check_stories(page, folder):
    """Checks a page of stories: a part for each story of a folder, which examples/README.md lists."""
    _, *parts = re.split(r"(?m)^### ", text_of(page))
    told = [check_part(folder, *part.partition("\n")[::2]) for part in parts]
    there = sorted({os.path.basename(it).partition(".")[0] for it in glob.glob(f"{TOP}/{folder}/*")})
    holds(f"{page} and {folder}/ differ in {set(told) ^ set(there)}, or one is told twice", sorted(told, key=str) == there)
    listed = re.findall(rf"\]\({os.path.basename(folder)}/(\w+)\.script\)", text_of("examples/README.md"))
    holds(f"examples/README.md and {folder}/ differ in {set(listed) ^ set(there)}", sorted(listed) == there)


def commands(page):
    """Returns the commands of a page, each with the lines that it prints. A command that ends in <<END goes on to that line."""
    found, is_open = [], False
    for line in shown(page):
        if line.startswith("$ "):
            found.append([line[2:], []])
            is_open = line.endswith("<<END")
        elif is_open:
            found[-1][0] += "\n" + line
            is_open = line != "END"
        elif found:
            found[-1][1].append(line)
    return found


def check_tutorial(program, draws):
    holds("docs/TUTORIAL.md has commands", len(commands(text_of("docs/TUTORIAL.md"))) > 9)
    with tempfile.TemporaryDirectory() as room:
        for name in ("docs", "examples", "tools"):
            os.symlink(f"{TOP}/{name}", f"{room}/{name}")
        os.symlink(os.path.abspath(program), f"{room}/jobctl")
        how = {"cwd": room, "env": {**os.environ, "PYTHONDONTWRITEBYTECODE": "1", "JOBCTL": os.path.abspath(program)}, "text": True, "timeout": 60}
        for command, lines in commands(text_of("docs/TUTORIAL.md")):
            ran = subprocess.run(["bash", "-c", command], stdin=subprocess.DEVNULL, stdout=subprocess.PIPE, stderr=subprocess.STDOUT, **how)
            want = "".join("(.*\n)*" if line == ".." else like(line) + "\n" for line in lines)
            holds(f"docs/TUTORIAL.md: $ {command}\nprints\n{ran.stdout}", bool(re.fullmatch(want, ran.stdout)))
        drawn = "".join(text_of(it) for it in glob.glob(f"{room}/*.svg"))
    if draws:
        with open(f"{TOP}/docs/tutorial.svg", "w", encoding="utf-8") as it:
            it.write(drawn)
    holds("docs/tutorial.svg is what the tutorial draws", drawn == text_of("docs/tutorial.svg"))


def main():
    check_stories("docs/COOKBOOK.md", "examples/cookbook")
    if sys.argv[1:]:
        check_tutorial(sys.argv[1], sys.argv[2:] == ["--draw"])
    checks.end(200)


main()
