#!/usr/bin/env python3
"""check_documents.py: holds the documents to the repository. Each failure is a line; the last line says how many held.

Each link leads to a file, and to a heading where it names one. Each path in backquotes is there, and each name of code. MAP.md
and PROVED.md have the crates in the order of crates.txt, MAP.md all of them, and PROVED.md no call, clause or word that its
crate does not have. No crate stands on one that MAP.md keeps it apart from. The table of what is proved again in CHANGING.md is the
one of crates.txt, and its recipes name each file that has the word of their change. GLOSSARY.md names of each word a file that
has it, and DEFINITIONS.md names the files of the crates that their section names. Prose is at most 120 wide.
"""
import functools
import glob
import os
import re
import sys

sys.dont_write_bytecode = True
from checks import TOP, Checks, text_of
from programs import crates

PAGES = ["README.md", "bench/README.md", "crates/README.md", "tools/README.md", "examples/README.md"]
WIDTH = 120
# Those whose names with a `_` or `::` are all names of the code or of a tool.
NAMING = [f"docs/{it}.md" for it in ("CHANGING", "DECISIONS", "DEFINITIONS", "EVENTS", "MAP", "PROVED")]
# The recipes of CHANGING.md, each with the words of the change that it follows.
RECIPES = {
    "A new command of a script": r"PutFault|put_fault|\b[Vv]erb(?:::|\.)Fault\b",
    "A new field of a status": r"\bfailed_indexes\b",
    "A new member of a specification": r"\bmax_failed\b",
}
checks = Checks("documents")
holds = checks.holds


def pages():
    return PAGES + sorted(os.path.relpath(it, TOP) for it in glob.glob(f"{TOP}/docs/*.md"))


def anchors(path):
    """Returns the names by which links can lead to a page's headings."""
    heads = re.findall(r"(?m)^#+ (.*)$", text_of(path))
    return {re.sub(r"[^\w\- ]", "", it.lower()).replace(" ", "-") for it in heads}


def check_links(page):
    for text, to in re.findall(r"\[([^\]]*)\]\(([^)\s]+)\)", text_of(page)):
        if re.match(r"https?:", to):
            continue
        path, _, anchor = to.partition("#")
        file = os.path.normpath(os.path.join(os.path.dirname(page), path)) if path else page
        holds(f"{page}: [{text}]({to}) leads nowhere", os.path.exists(os.path.join(TOP, file)))
        if anchor and file.endswith(".md") and os.path.exists(os.path.join(TOP, file)):
            holds(f"{page}: {to}: no such heading", anchor in anchors(file))


def check_paths(page):
    """What looks like a file of the repository is one, from the top, from crates/ or beside another of the same crate."""
    for path in set(re.findall(r"`((?:[\w.]+/)+[\w.]+\.(?:antt|rt|md|py|sh|script|report|svg))`", text_of(page))):
        places = [path, f"crates/{path}", *glob.glob(f"{TOP}/crates/*/{path}")]
        holds(f"{page}: there is no {path}", any(os.path.exists(os.path.join(TOP, it)) for it in places))
    for name in set(re.findall(r"`([A-Z]\w+\.antt)`", text_of(page))):
        holds(f"{page}: there is no {name}", bool(glob.glob(f"{TOP}/crates/*/*/{name}") + glob.glob(f"{TOP}/crates/*/*/*/{name}")))


def check_width(page):
    in_code = False
    for number, line in enumerate(text_of(page).split("\n"), 1):
        in_code = in_code != line.startswith("```")
        is_prose = not in_code and not line.startswith(("|", "    ", "#", "!["))
        if is_prose and len(line) > WIDTH and " " in line.strip():
            holds(f"{page}:{number}: {len(line)} wide", False)
    holds(page, True)


def rows(text):
    """Returns the cells of each table row that begins with a crate."""
    found = []
    for line in text.split("\n"):
        first = re.match(r"\| \[?`(jc_\w+|jobctl)`", line)
        if first:
            found.append((first[1], [cell.strip() for cell in line.strip().strip("|").split(" | ")]))
    return found


def check_map():
    named = [name for name, _ in rows(section("docs/MAP.md", "The crates"))]
    holds(f"docs/MAP.md: its table has other crates than crates.txt, or another order: {set(named) ^ set(crates())}", named == [*crates()])
    picture = [it for layer, names in layers().items() if layer != "laws" for it in names]
    ordered = [it for it in crates() if it in picture]
    holds("docs/MAP.md: its picture has another order than crates.txt", picture == ordered)
    missing = [it for it in crates() if it not in picture and not it.endswith("_tests")]
    holds(f"docs/MAP.md: its picture lacks {missing}", not missing)
    chain = re.findall(r"jc_\w+|jobctl", section("docs/MAP.md", "The layers").partition("longest chain")[2])
    holds("docs/MAP.md: its longest chain is none, or another is longer", len(chain) == max(heights().values()) == len(set(heights()[it] for it in chain)))
    for name, cells in rows(section("docs/MAP.md", "The crates")):
        # (a law may cite other laws)
        has_code = any(not re.fullmatch(r"(\s*\w+\(\);)*\s*", body) for body in bodies(name))
        kinds = ("code", "tests", "stories") if has_code else ("laws",)
        holds(f"docs/MAP.md: {name} is no crate of {cells[1]}", cells[1] in kinds)


def section(page, heading):
    """Returns what stands below a heading of a page, up to the next one of its kind."""
    return text_of(page).partition(f"\n## {heading}\n")[2].partition("\n## ")[0]


def layers():
    """Returns the crates of each layer of the map's picture, and those of laws."""
    found = {"laws": [name for name, cells in rows(section("docs/MAP.md", "The crates")) if cells[1] == "laws"]}
    for line in section("docs/MAP.md", "The layers").split("\n"):
        if line.startswith("    "):
            found[line[:27].strip()] = re.findall(r"\bjc_\w+|\bjobctl\b", line[27:])
    return found


def heights():
    """Returns how many crates stand on one another up to each one."""
    found = {}
    for name, below in crates().items():
        found[name] = 1 + max([found[it] for it in below if it in found], default=0)
    return found


def check_folder():
    """crates/README.md has the crates of each layer of the map, in its order."""
    found, layer, laws = [], "", []
    for first, name, said in re.findall(r"(?m)^\| (.*?) ?\| \[`(\w+)`\]\(\2\) \| (\S.*)", text_of("crates/README.md")):
        layer = first or layer
        found.append((layer, name))
        laws += [name] if said.startswith("laws: ") else []
    wanted = [(layer, it) for layer, names in layers().items() if layer != "laws" for it in names]
    holds(f"crates/README.md: other layers or crates than in docs/MAP.md: {set(found) ^ set(wanted)}", found == wanted)
    holds("crates/README.md: other crates of laws than in docs/MAP.md", laws == layers()["laws"])
    holds(f"crates/README.md: other crates than crates.txt: {set(crates()) ^ {it for _, it in found}}", [it for _, it in found] == [*crates()])


def named_by(what, below):
    """Returns the crates that name a library of the kit, or have the path in their code."""
    if "::" not in what:
        return {it for it in below if what in below[it]}
    return {it for it in below if any(file.startswith("src/") and what in text for file, text in files_of(it))}


def check_layers():
    below, of_layer, under = crates(), layers(), {}
    for name in below:
        under[name] = {name}.union(*(under.get(it, {it}) for it in below[name]))
    for line in section("docs/MAP.md", "What a layer does not know").split("\n"):
        cells = [it.strip() for it in line.strip("|").split(" | ")]
        names = [re.findall("`([^`]+)`", it) for it in cells]
        if len(cells) == 3 and names[2]:
            for crate in names[0] or [it for layer in cells[0].split(", ") for it in of_layer[layer]]:
                holds(f"docs/MAP.md: {crate} stands on {under[crate] & set(names[2])}", not under[crate] & set(names[2]))
            holds(f"docs/MAP.md: what is named beside {cells[0]} is not there", set(names[2]) <= set(below).union(*below.values()))
        elif len(cells) == 2 and names[1]:
            users = set().union(*(named_by(what, below) for what in names[0]))
            found = [it for it in below if it in users]
            holds(f"docs/MAP.md: {cells[0]}: it is {' '.join(f'`{it}`' for it in found)} that name it", names[1] == found)


def bodies(name):
    """Returns the bodies of a crate's functions that stand at the left."""
    found = []
    for file in glob.glob(f"{TOP}/crates/{name}/src/*.rt"):
        with open(file, encoding="utf-8") as it:
            found += re.findall(r"(?m)^(?:    )?\{\n?((?:    .*\n|\n)*?)(?:    )?\}$", it.read())
    return found or ["code"]


def check_proved():
    order = [*crates()]
    named = [name for name, _ in rows(text_of("docs/PROVED.md"))]
    places = [order.index(it) for it in named if it in order]
    holds(f"docs/PROVED.md: crates that are not there: {set(named) - set(order)}", len(places) == len(named))
    holds("docs/PROVED.md: its crates have another order than crates.txt", places == sorted(places))
    without = {it for it in order if it not in named and not it.endswith("_tests")} - {"jobctl", "jc_stories"}
    holds(f"docs/PROVED.md: nothing on {sorted(without)}", not without)
    with open(f"{TOP}/crates/jc_stories/stdin", "rb") as it:
        stories = it.read()
    runs, questions = len(re.findall(rb"(?m)^== ", stories)), len(re.findall(rb"(?m)^\? ", stories))
    said = f"{runs + questions:,} cases, {runs:,} runs and {questions:,} questions"
    holds(f"docs/PROVED.md: it is {said}", said in " ".join(text_of("docs/PROVED.md").split()))
    for name, cells in rows(text_of("docs/PROVED.md")):
        source = "".join(text_of(it) for it in glob.glob(f"{TOP}/crates/{name}/src/*.rt") + glob.glob(f"{TOP}/crates/{name}/specs/*.antt"))
        for word in re.findall(r"`(?:\w+::)?(\w+)`", cells[1]):
            holds(f"docs/PROVED.md: {name} has no {word}", bool(re.search(rf"\b{word}\b", source)))


def check_names():
    """What looks like a name of the code stands in the code, in definitions, in a tool, or names an example."""
    texts = [text for crate in crates() for file, text in files_of(crate) if not file.startswith("proofs/")]
    paths = ["crates.txt"] + [os.path.relpath(it, TOP) for it in glob.glob(f"{TOP}/tools/*.*") + glob.glob(f"{TOP}/bench/*.py")]
    known = {word for text in texts + [text_of(it) for it in paths if not it.endswith(".md")] for word in re.findall(r"\w+", text)}
    known |= {os.path.basename(it).split(".")[0] for it in glob.glob(f"{TOP}/examples/*.script")} | set(crates())
    for page in NAMING:
        for name in sorted(set(re.findall(r"`((?:\w+::)*\w+)`", text_of(page)))):
            if "_" in name or "::" in name:
                holds(f"{page}: there is no {name}", name.split("::")[-1] in known)


def check_definitions():
    """A file that DEFINITIONS.md names stands in a crate that its section names, and in the one that it is said to be of."""
    page, owners = "docs/DEFINITIONS.md", {}
    for path in glob.glob(f"{TOP}/crates/*/*/**/*.antt", recursive=True):
        owners.setdefault(os.path.basename(path), set()).add(os.path.relpath(path, f"{TOP}/crates").split("/")[0])
    for part in text_of(page).split("\n## ")[1:]:
        heading, of_section = part.partition("\n")[0], set(re.findall(r"jc_\w+", part))
        for name in sorted(set(re.findall(r"`([A-Z]\w+\.antt)`", part))):
            holds(f"{page}: {heading}: no crate of it has {name}", bool(owners.get(name, set()) & of_section))
        for name, crate in re.findall(r"`([A-Z]\w+\.antt)`\s+of\s+`?(jc_\w+)", part):
            holds(f"{page}: {heading}: {crate} has no {name}", crate in owners.get(name, set()))


def check_counts():
    """bench/README.md says how many crates and edits there are."""
    edits = [it.split("/")[-3] for it in glob.glob(f"{TOP}/crates/*/must-fail/*.edit")]
    tests = [it for it in crates() if it == "jc_stories" or it.endswith("_tests")]
    said = f"There are {len(crates()) - len(tests)} crates, beside four of tests, and {len(edits)} edits in {len(set(edits))} crates."
    holds(f"bench/README.md: it is so: {said}", len(tests) == 4 and said in " ".join(text_of("bench/README.md").split()))


def check_glossary():
    """Each word of the code stands in one of the files that its row names."""
    for line in text_of("docs/GLOSSARY.md").split("\n"):
        cells = line.strip("|").split(" | ") if line.startswith("| ") else [""]
        paths = [os.path.normpath(f"{TOP}/docs/{it}") for it in re.findall(r"\]\(([^)#]+)", cells[-1])]
        # (of a folder its files, and of a crate its definitions)
        files = [file for it in paths for file in ([it] if os.path.isfile(it) else glob.glob(f"{it}/*.*t") + glob.glob(f"{it}/specs/*.antt"))]
        texts = "".join(text_of(os.path.relpath(it, TOP)) for it in files)
        # (the words of the code stand in front, but for proof engineers)
        for word in re.findall(r"`(?:\w+::)?(\w+)`", cells[0] if "`" in cells[0] or len(cells) > 3 else cells[1] if len(cells) > 1 else ""):
            holds(f"docs/GLOSSARY.md: {word} stands in none of {cells[-1].strip()}", bool(re.search(rf"\b{word}\b", texts)))


def above(name, below):
    """Returns how many crates stand on this one."""
    found, last = {name}, 0
    while len(found) > last:
        last = len(found)
        found |= {it for it, names in below.items() if found & set(names)}
    return len(found) - 1


def again():
    """Returns the lines of the table of what is proved again after a change of a crate."""
    below, groups = crates(), {}
    for name in below:
        groups.setdefault(above(name, below), []).append(name)
    return [f"| {count} | {', '.join(f'`{it}`' for it in groups[count])} |" for count in sorted(groups, reverse=True)]


def check_again():
    found = re.findall(r"(?m)^\| [0-9]+ \| `.*$", text_of("docs/CHANGING.md"))
    holds("docs/CHANGING.md: the table of crates above is not that of crates.txt: tools/check_documents.py --again prints it", found == again())


@functools.cache
def files_of(crate):
    """Returns the crate's files of code, definitions and lemmas, each with its text."""
    found = [it for kind in ("src", "specs", "proofs") for it in sorted(glob.glob(f"{TOP}/crates/{crate}/{kind}/**/*.*t", recursive=True))]
    return [(os.path.relpath(it, f"{TOP}/crates/{crate}"), text_of(os.path.relpath(it, TOP))) for it in found]


def files_with(words, crate):
    """Returns the crate's files that have one of the words."""
    return [file for file, text in files_of(crate) if re.search(words, text)]


def open_matches():
    """Returns the functions that match on commands or their words and end in `_ =>`, which no compiler names."""
    found = set()
    texts = [text for crate in crates() if not crate.endswith("_tests") for file, text in files_of(crate) if file.endswith(".rt")]
    for body in [it for text in texts for it in re.split(r"\bfn (?=\w+[(<])", text)[1:]]:
        is_on_commands = re.search(r"(?m)^ +(?:\| )?(?:Action1|Verb)::[^;]*? =>|=> Some\(Verb::", body)
        if is_on_commands and re.search(r"(?m)^ +_ =>", body):
            found.add(re.match(r"\w+", body)[0])
    return found


def check_recipes():
    """Each recipe's table names, in the order of crates.txt, exactly the files that have its words."""
    for heading, words in RECIPES.items():
        table = rows(section("docs/CHANGING.md", heading))
        named = {name: re.findall("`([^`]+)`", cells[-1]) for name, cells in table}
        holds(f"docs/CHANGING.md: {heading}: other crates than in crates.txt, or in another order", [*named] == [it for it in crates() if it in named])
        for crate in crates():
            found = files_with(words, crate)
            holds(f"docs/CHANGING.md: {heading}: {crate} has: {', '.join(f'`{it}`' for it in found)}", named.get(crate, []) == found)
    for name in open_matches():
        holds(f"docs/CHANGING.md: the compiler does not name the match of {name}, nor does the page", f"`{name}`" in text_of("docs/CHANGING.md"))


def main():
    if sys.argv[1:] == ["--again"]:
        print(*again(), sep="\n")
        return
    for page in pages():
        check_links(page)
        check_paths(page)
        check_width(page)
    check_map()
    check_layers()
    check_folder()
    check_proved()
    check_names()
    check_definitions()
    check_counts()
    check_glossary()
    check_again()
    check_recipes()
    checks.end(300)


main()
