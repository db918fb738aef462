#!/usr/bin/env python3
"""inline_hints.py MODULE.ll HINTED.ll KIT: puts the sources' hints of inlining on a module's functions.

`rt try`, which build_unproved.sh takes its module from, leaves out `#[inline]`, `#[inline(always)]`, `#[inline(never)]`
and `#[cold]`, and compiles for the oldest processor; the proved program has both the hints and x86-64-v2. The hints are
read from this checkout's crates and the kit's, and go to the functions of the same path. It prints how many it put.
"""
import collections
import os
import pathlib
import re
import sys

WORDS = {"inline": "inlinehint", "inline(always)": "alwaysinline", "inline(never)": "noinline", "cold": "cold noinline"}


def module_path(crate, root, file):
    """Returns the path of a file's module, as `jc_print::decimals`."""
    parts = [crate, *file.relative_to(root).with_suffix("").parts]
    return "::".join(parts[:-1] if parts[-1] in ("lib", "main", "mod") else parts)


def short(name):
    """Returns the last segment of a type's or a trait's path, without its arguments."""
    found = re.match(r"[\w:]+", name.strip())
    return found.group().split("::")[-1] if found else name


def label_of(lines):
    """Returns what a function's path has for the block that begins here: the type, and behind it the trait."""
    text = " ".join(line.strip() for line in lines).split("{")[0].split(" where ")[0]
    text = re.sub(r"^(unsafe )?impl\s*|^(pub(\([^)]*\))? )?(unsafe )?trait\s+", "", text)
    depth = 0
    for place, sign in enumerate(text if text.startswith("<") else ""):
        depth += (sign == "<") - (sign == ">" and text[place - 1] != "-")
        if depth == 0:
            text = text[place + 1 :]
            break
    found = re.match(r"(.+?) for (.+)$", text.strip())
    return short(found.group(2)) + short(found.group(1)) if found else short(text)


def hints_of(file):
    """Yields each function of a file: the label of its block, its name, and its hints."""
    lines, label, hints = file.read_text(encoding="utf-8").split("\n"), None, ()
    for number, line in enumerate(lines):
        text = line.strip()
        if re.match(r"((unsafe )?impl|(pub(\([^)]*\))? )?(unsafe )?trait)\b", text):
            label = label_of(lines[number : number + 6])
        hint = re.match(r"#\[((?:inline|cold)(?:\((?:always|never)\))?)\]", text)
        function = re.match(r'(pub(\([^)]*\))? )?(const )?(unsafe )?(extern "C" )?fn (\w+)', text)
        if hint:
            hints += (hint.group(1),)
        elif function:
            yield label if line.startswith(" ") else None, function.group(6), hints
            hints = ()
        elif text and not text.startswith(("#[", "//", "ghost")):
            hints = ()


def all_hints(folders):
    """Returns the hints by module and function, and by crate and function: lists of a label and its hints."""
    by_module, by_crate = collections.defaultdict(list), collections.defaultdict(list)
    for folder in folders:
        for crate in sorted(pathlib.Path(folder).iterdir()):
            for file in sorted((crate / "src").rglob("*.rt")):
                for label, name, hints in hints_of(file):
                    by_module[module_path(crate.name, crate / "src", file), name].append((label, hints))
                    by_crate[crate.name, name].append((label, hints))
    return by_module, by_crate


def only(rows):
    """Returns the hints of the rows where they are the same, or else none."""
    found = {hints for _, hints in rows}
    return found.pop() if len(found) == 1 else ()


def find(path, by_module, by_crate):
    """Returns the hints of the function of a path, as `std_alloc::vec::Vec::push::<#..>`."""
    parts = re.sub(r"::<.*$", "", path).split("::")
    for behind in (1, 2):
        rows = by_module.get(("::".join(parts[:-behind]), parts[-1]))
        if rows:
            label = None if behind == 1 else parts[-2]
            return only(rows) or only([row for row in rows if row[0] == label])
    return only([row for row in by_crate.get((parts[0], parts[-1]), []) if len(parts) > 2 and row[0] == parts[-2]])


def main():
    source, target, kit = sys.argv[1:4]
    top = os.path.dirname(os.path.dirname(os.path.abspath(__file__)))
    tables = all_hints([f"{kit}/rattle", f"{top}/crates"])
    groups, given = {}, {}
    count = 0
    with open(source, encoding="utf-8") as lines, open(target, "w", encoding="utf-8") as out:
        for line in lines:
            defined = re.match(r'(define .*@"([^"]+)"\(.*\)) #(\d+) \{$', line)
            hints = find(defined.group(2), *tables) if defined else ()
            if hints:
                count += 1
                group = groups.setdefault((defined.group(3), hints), 1000 + len(groups))
                line = f"{defined.group(1)} #{group} {{\n"
            attributes = re.match(r"attributes #(\d+) = \{ (.*)$", line)
            if attributes:
                line = line.replace('"target-cpu"="x86-64"', '"target-cpu"="x86-64-v2"')
                given[attributes.group(1)] = line.split("{ ", 1)[1]
            out.write(line)
        for (number, hints), group in groups.items():
            words = dict.fromkeys(" ".join(WORDS[hint] for hint in hints).split())
            out.write(f"attributes #{group} = {{ {' '.join(words)} {given[number]}")
    print(f"inline_hints: {count} functions with hints")


main()
