#!/usr/bin/env python3
"""check_crates.py: holds the crates to what keeps them small and told once. Each failure is a line; the last line says how many held.

No word of specs/ stands in two files, and no lemma of proofs/ is stated twice, be it with other names of its variables. A crate has at
most 100 functions and 1,500 lines of src/, but one of plain data or of tests. No two types of crates that are not tests have one name,
but those of SHARED_NAMES, and no function has over six parameters, but those of WIDE. A line of crates.txt names at most ten crates of
this repository, and few paths lead down from a crate: some kits sum the files of a crate once for each. No two crates have a
specs file of one name. A line of a proof or of a definition has at most 250 columns, and a clause 300 characters, but for
those of LONG. A function whose result is a word of specs/ has that word's name, or the word goes on with what it is of
(`outcome`, `outcome_of`), or the function reads what the word says (`read_pod`, `pod_said`); but for those of OTHER_NAMES.
"""
import glob
import os
import re
import sys

sys.dont_write_bytecode = True
from checks import TOP, Checks, text_of

MOST_FUNCTIONS, MOST_LINES, MOST_CRATES, MOST_PATHS, MOST_PARAMETERS = 100, 1500, 10, 160_000, 6
MOST_COLUMNS, MOST_CHARACTERS = 250, 300
# Those whose functions copy and compare what they declare, and those of tests.
PLAIN = {"jc_types", "jc_stories"}
WORD = re.compile(r"(?m)^(?:(?:abbrev|unfoldable) )?pub (?:(?:record|data|abbrev) )?([A-Za-z_][\w'-]*)")
LEMMA = re.compile(r"(?m)^(?:pub )?([A-Za-z][\w'-]*) : (.*(?:\n +.*)*)")
MODULE = re.compile(r"(?m)^module _ (.*) where\n((?:(?:  .*)?\n)*)")
FUNCTION = re.compile(r"(?m)^\s*(?:pub(?:\([a-z]+\))? )?(?:const )?(?:ghost )?fn ")
TYPE = re.compile(r"(?m)^(?:pub(?:\([a-z]+\))? )?(?:struct|enum|trait|type) (\w+)")
# The names that several types have, with their crates and why each stands. A name that is taken from this table is held to one type.
SHARED_NAMES = {
    "Bytes": ("jc_io jc_types", "one alias of std's vector: jc_io stands on no crate, and hands it on to none"),
    "Change": ("jc_cache jc_core", "each is private to its crate"),
    "Numbers": ("jc_plan jc_rows", "that of jc_rows is private to one file"),
    "Plan": ("jc_io jc_plan", "that of jc_io is private to it"),
    "Said": ("jc_script jc_words", "that of jc_words is private to it"),
    "Taken": ("jc_team jc_turn", "that of jc_team is private to it"),
    "Verb": ("jc_reading jc_script", "each is private to its crate"),
    "Verdicts": ("jc_account jc_ledger", "that of jc_account is private to it"),
    "Want": ("jc_io jc_moment jc_ranges jc_types", "one alias of std's AllocError, in each crate that stands on no other"),
}
# The functions with more parameters, each with why.
WIDE = {
    "jc_control/src/controller.rt basis": "a basis has as many parts",
    "jc_store/src/new_objects.rt new_pod": "so has a pod",
    "jc_verdicts/src/counting.rt take_in": "each is a list or a number that it counts on, of another owner",
    "jc_verdicts/src/seen.rt go_on": "the same lists, one level down",
    "jc_verdicts/src/seen.rt look": "the same lists, one level down",
}
# The functions with a longer clause, each with why.
LONG = {
    "jc_store/src/new_objects.rt": "a pod by its thirteen fields",
}
# Functions that answer a word of another name, each with why.
OTHER_NAMES = {
    "held has_holders": "the call of a cluster; the word is of its registers",
    "held bytes_held": "what a sink in memory has taken; the word is of its model",
    "ready can_begin": "the call of a controller; `ready` is a field of a status",
    "at number_of": "the number at which a cache stands",
    "contains has": "std's name; the word is that of sets",
    "below count_below": "the call of a set; the word is that of lists, too",
    "is_dirty has_key": "of one list of the queue",
    "is_processing has_key": "of another",
    "take_due due_key": "it takes what `due` tells",
    "take_owner owner_in": "it takes out what the word tells",
    "store log_seen": "it hands out the store; the word is what its log says",
    "count_new gained": "the number without the list",
    "decide decision_of": "the call of a sync; the word is of what it counted",
    "is_due is_in": "in the list of those that are due, by halving",
    "is_rule_met is_met": "the rule of a policy, by a set",
    "start_at start_of": "of the Job of a basis",
    "read_of_system of_words": "what of them is a system's",
    "is_same_number same_option": "of two numbers that may be there",
    "cache_at number_of": "of a member's controller",
    "may_begin can_begin": "of a member's controller",
}
checks = Checks("crates")
holds = checks.holds


def texts(pattern):
    """Returns the files of the crates that the pattern finds, each with its text."""
    found = sorted(glob.glob(f"{TOP}/crates/{pattern}", recursive=True))
    return [(os.path.relpath(it, f"{TOP}/crates"), text_of(it)) for it in found]


def once(what, places):
    """Each of the things, with the files that have it, stands in one."""
    for it, files in sorted(places.items()):
        holds(f"{what} {it} stands more than once: {', '.join(files)}", len(files) == 1)


def check_words():
    places = {}
    for path, text in texts("*/specs/*.antt"):
        for word in set(WORD.findall(text)) - {"mod", "use"}:
            places.setdefault(word, []).append(path)
    once("the word", places)


def stated(text):
    """Returns the statement with its variables numbered as they are bound, or None where it is no statement but a type."""
    text = re.sub(r"\s+", " ", re.sub(r"--.*", "", text)).strip()
    text = re.sub(r"([)}]) → (?=[({][\w' -]+ : )", r"\1 ", text)
    bound = re.findall(r"[({] ?([\w'-]+(?: [\w'-]+)*) : ", text) + re.findall(r"λ \(?([\w']+(?: [\w']+)*)(?: :|\.)", text)
    numbers = {}
    for names in bound:
        for name in names.split():
            numbers.setdefault(name, f"v{len(numbers)}")
    if not re.search("[≡≤<⊥]", text) or not numbers:
        return None
    return re.sub(r"[\w'-]+", lambda it: numbers.get(it.group(0), it.group(0)), text)


def lemmas(text):
    """Returns the names and statements of a file's lemmas, those of a module with its variables in front."""
    yield from LEMMA.findall(text)
    for variables, body in MODULE.findall(text):
        for name, statement in LEMMA.findall(re.sub("(?m)^  ", "", body)):
            yield name, f"{variables} → {statement}"


def check_lemmas():
    places = {}
    for path, text in texts("*/proofs/**/*.antt"):
        for name, statement in lemmas(text):
            said = stated(statement)
            if said:
                places.setdefault(said, []).append(f"{path} {name}")
    once("the lemma", places)


def sources():
    """Returns the files of code of the crates that are not tests, each with its text."""
    found = [(path, text) for path, text in texts("*/src/**/*.rt") if not path.endswith("/tests.rt")]
    return [(path, text) for path, text in found if not re.match(r"jc_stories/|\w+_tests/", path)]


def check_types():
    places = {}
    for path, text in sources():
        for name in TYPE.findall(text):
            places.setdefault(name, []).append(path)
    for name, files in sorted(places.items()):
        crates = " ".join(sorted(it.partition("/")[0] for it in files))
        allowed, _ = SHARED_NAMES.get(name, (crates, ""))
        holds(f"the type {name} stands in {crates}", crates == allowed and (name in SHARED_NAMES or len(files) == 1))
    for name in sorted(SHARED_NAMES.keys() - places.keys()):
        holds(f"SHARED_NAMES has {name}, which no type is called", False)


def parameters(text, at):
    """Returns how many parameters the function has whose name ends here."""
    at = past_generics(text, at) if text[at] == "<" else at
    depth, count, is_empty = 0, 0, True
    for it in re.finditer(r"->|[(\[{<,)\]}>]|\w", text[at:]):
        if it[0] in "([{<":
            depth += 1
        elif it[0] in ")]}>":
            depth -= 1
            if depth == 0:
                return count + (not is_empty)
        elif it[0] == "," and depth == 1:
            count, is_empty = count + 1, True
        elif it[0] not in (",", "->"):
            is_empty = False
    raise ValueError("parameters that do not end")


def past_generics(text, at):
    """Returns the place behind the generics that begin here."""
    depth = 0
    for it in re.finditer(r"->|[<>]", text[at:]):
        depth += {"<": 1, ">": -1}.get(it[0], 0)
        if depth == 0:
            return at + it.end()
    raise ValueError("generics that do not close")


def check_parameters():
    wide = set()
    for path, text in sources():
        for it in FUNCTION.finditer(text):
            name = re.compile(r"\w+").match(text, it.end())[0]
            if parameters(text, it.end() + len(name)) > MOST_PARAMETERS:
                wide.add(f"{path} {name}")
            else:
                holds(name, True)
    for it in sorted(wide ^ WIDE.keys()):
        what = "has over" if it in wide else "is in WIDE, and has no more than"
        holds(f"{it} {what} {MOST_PARAMETERS} parameters", False)


CLAUSE = re.compile(r"(?m)^\s*(?:requires|ensures|invariant)(?: \w+)? \{")
RESULT = re.compile(r"result(?:\.now)? ≡ ([a-z][\w']*)((?: [\w.]+)+)$")


def clauses(text, at, end):
    """Returns the clauses between the places, without their braces."""
    found = []
    for it in CLAUSE.finditer(text, at, end):
        depth, place = 1, it.end()
        while depth:
            depth += {"{": 1, "}": -1}.get(text[place], 0)
            place += 1
        found.append(re.sub(r"\s+", " ", text[it.end() : place - 1]).strip())
    return found


def check_clauses():
    for path, text in sources():
        for clause in clauses(text, 0, len(text)):
            fits = len(clause) <= MOST_CHARACTERS or path in LONG
            holds(f"{path}: a clause of {len(clause)} characters: {clause[:60]}", fits)


def check_names():
    """A function whose result is one word over its parameters has the word's name."""
    words = {word for _, text in texts("*/specs/*.antt") for word in WORD.findall(text)}
    used = set()
    for path, text in sources():
        renamed = dict(re.findall(r"(\w+) as (\w+)", text))
        words_of = {late: early for early, late in renamed.items()}
        heads = list(FUNCTION.finditer(text))
        for it, after in zip(heads, heads[1:] + [None]):
            name = re.compile(r"\w+").match(text, it.end())[0]
            for clause in clauses(text, it.end(), after.start() if after else len(text)):
                result = RESULT.match(clause)
                word = result and words_of.get(result[1], result[1])
                if word not in words:
                    continue
                read = name == "new" or name.startswith("read_") and (word.endswith("_said") or name == f"read_printed_{word[:-8]}")
                is_named = word == name or word.startswith(f"{name}_") or read
                if not is_named and f"{name} {word}" in OTHER_NAMES:
                    used.add(f"{name} {word}")
                    is_named = True
                holds(f"{path}: {name} answers {word}", is_named)
    for it in sorted(OTHER_NAMES.keys() - used):
        holds(f"OTHER_NAMES has {it}, which no function needs", False)


def check_files():
    places = {}
    for path, text in texts("*/specs/*.antt"):
        if not path.endswith("/Lib.antt"):
            places.setdefault(os.path.basename(path), []).append(path)
    once("a specs file of the name", places)
    for path, text in texts("*/**/*.antt"):
        for number, line in enumerate(text.split("\n"), 1):
            if len(line) > MOST_COLUMNS:
                holds(f"{path}:{number} has {len(line)} columns", False)
        holds(path, True)


def check_sizes(crate):
    sources = texts(f"{crate}/src/**/*.rt")
    functions = sum(len(FUNCTION.findall(text)) for _, text in sources)
    lines = sum(text.count("\n") for _, text in sources)
    holds(f"{crate} has {functions} functions, more than {MOST_FUNCTIONS}", functions <= MOST_FUNCTIONS)
    holds(f"{crate} has {lines} lines of src/, more than {MOST_LINES}", lines <= MOST_LINES)


def paths(crate, below, known):
    """Returns how many paths lead from a crate to those below it, with that to itself."""
    if crate not in known:
        known[crate] = 1 + sum(paths(it, below, known) for it in below[crate] if it in below)
    return known[crate]


def check_paths():
    rows = [line.partition("#")[0].partition(":") for line in text_of("crates.txt").split("\n")]
    below, known = {name.split()[0]: names.split() for name, colon, names in rows if colon}, {}
    for crate in below:
        count = paths(crate, below, known)
        holds(f"{count} paths of crates.txt lead down from {crate}, more than {MOST_PATHS}: let a crate hand on what it has from below", count <= MOST_PATHS)


def check_crates():
    for line in text_of("crates.txt").split("\n"):
        name, colon, below = line.partition("#")[0].partition(":")
        if not colon:
            continue
        crate = name.split()[0]
        own = [it for it in below.split() if os.path.isdir(f"{TOP}/crates/{it}")]
        holds(f"{crate} names {len(own)} crates, more than {MOST_CRATES}", len(own) <= MOST_CRATES)
        if crate not in PLAIN and not crate.endswith("_tests"):
            check_sizes(crate)


check_words()
check_lemmas()
check_types()
check_files()
check_clauses()
check_names()
check_parameters()
check_crates()
check_paths()
checks.end(4000)
