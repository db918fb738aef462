#!/usr/bin/env python3
"""Mutated scripts: python3 bench/mutated_scripts.py FOLDER COUNT SEED

Writes COUNT scripts to FOLDER, each as NUMBER.script with its words in NUMBER.args, one a line. Equal seeds give
equal scripts as long as the scripts of examples/ stay as they are. Each is a script of examples/ or a random one
(random_scripts.py) with one to three mutations: bytes changed, lines cut, doubled, moved or joined, deep nesting, long
numbers, surrogates, values of other kinds, duplicate or misspelt members, odd names, odd ends of lines. Every fourth
script gets one byte more: script 4 * N the byte N mod 256, so that 1,024 scripts have all bytes. The scripts hold any
bytes, so that most are not UTF-8 or not JSON in some line; others still are valid."""
import glob
import os
import random
import re
import sys

from random_scripts import Script

NUMBER = re.compile(rb"-?[0-9]+")
STRING = re.compile(rb'"([^"\\]*)"')
MEMBER = re.compile(rb'"([A-Za-z]+)":')
VALUE = re.compile(rb':\s*(-?[0-9]+|"[^"]*"|true|false|null)')

LONG_NUMBERS = [b"0", b"-0", b"-1", b"00", b"007", b"1.0", b"2.0", b"2.5", b"2e0", b"1E2", b"1e999", b"-1e999", b"0e999", b"1e-999",
                b"1.", b".5", b"+1", b"0x10", b"NaN", b"Infinity", b"255", b"256", b"2147483647", b"2147483648", b"-2147483649",
                b"4294967295", b"4294967296", b"9007199254740993", b"9223372036854775807", b"9223372036854775808",
                b"18446744073709551615", b"18446744073709551616", b"9" * 40, b"1" + b"0" * 400, b"0." + b"0" * 400 + b"1",
                b"5000", b"5001", b"10000", b"10001"]
OTHER_VALUES = [b"null", b"true", b"false", b'""', b'"0"', b'"pi"', b"[]", b"{}", b"[null]", b'{"":0}', b"1", b"1.5", b'["pods"]']
SURROGATES = [b"\\ud800", b"\\udc00", b"\\udfff", b"\\ud83d\\ude00", b"\\ude00\\ud83d", b"\\ud83dx", b"\\uD800\\u0041",
              b"\\u0000", b"\\u", b"\\u12", b"\\uzzzz", b"\\x41", b"\\/", b"\\b", b"\xed\xa0\x80", b"\xf0\x9f\x98\x80",
              b"\xc0\x80", b"\xf4\x90\x80\x80", b"\xc3\xa4", b"\xe2\x82"]
NAMES = [b"", b"-", b"a-", b"-a", b"A", b"a" * 63, b"a" * 64, b"a" * 253, b"a" * 254, b"a.b", b"a..b", b"a/b", b"a b", b"0", b"\\u0061",
         b"\\n", b"default/pi"]
BLANKS = [b" ", b"\t", b"\r", b"\n", b"\x0b", b"\x0c", b"\xc2\xa0", b"\xef\xbb\xbf", b"\x00", b"\r\r\n", b"\n\n", b"  \n"]
WORDS = [["--events", "5"], ["--events=0"], ["--controllers", "17"], ["--controllers=2"], ["--workers", "0"], ["--window", "1"],
         ["--window=-1"], ["--start", "2024-13-01T00:00:00Z"], ["--start="], ["run"], [""], ["--events"], ["--Events", "5"],
         ["--workers", "1", "--workers", "1"], ["--window", "18446744073709551616"], ["--events", "+7"], ["--events", "007"]]


def spot(r, text, pattern):
    """The span of one match, or none."""
    spans = [m.span(m.lastindex or 0) for m in pattern.finditer(text)]
    return r.choice(spans) if spans else None


def put(text, span, piece):
    return text[:span[0]] + piece + text[span[1]:] if span else text


def at(r, text):
    place = r.randint(0, len(text))
    return (place, place)


def with_lines(change):
    """A mutation of one line, or of the list of lines."""
    def mutate(r, text):
        lines = text.split(b"\n")
        change(r, lines, r.randrange(len(lines)))
        return b"\n".join(lines)
    return mutate


def flip(r, text):
    data = bytearray(text)
    for _ in range(r.randint(1, 4)):
        if data:
            place = r.randrange(len(data))
            data[place] = data[place] ^ (1 << r.randrange(8)) if r.random() < 0.7 else r.randrange(256)
    return bytes(data)


def drop_bytes(r, text):
    start, _ = at(r, text)
    return text[:start] + text[start + r.choice([1, 1, 1, 2, 5, 20]):]


def cut_line(r, lines, place):
    lines[place] = lines[place][:r.randint(0, len(lines[place]))]


def double_line(r, lines, place):
    lines[place:place] = [lines[place]] * r.choice([1, 1, 2, 10])


def move_line(r, lines, place):
    lines.insert(r.randint(0, len(lines) - 1), lines.pop(place))


def remove_line(r, lines, place):
    del lines[place]


def join_lines(r, lines, place):
    if place + 1 < len(lines):
        lines[place:place + 2] = [lines[place] + r.choice([b"", b" ", b",", b"\r"]) + lines[place + 1]]


def split_line(r, lines, place):
    start = r.randint(0, len(lines[place]))
    lines[place:place + 1] = [lines[place][:start], lines[place][start:]]


def pad_line(r, lines, place):
    """Blanks at an end, seldom as many as make the line too long."""
    count = 1048577 - r.choice([0, 1, len(lines[place]) + 1, len(lines[place])]) if r.random() < 0.02 else r.randint(1, 300)
    lines[place] = lines[place] + b" " * count if r.random() < 0.5 else b" " * count + lines[place]


def cut_text(r, text):
    return text[:r.randint(0, len(text))]


def nest(r, text):
    depth = r.choice([1, 2, 10, 120, 125, 126, 127, 128, 200, 5000])
    opens, closes = r.choice([(b"[", b"]"), (b'{"a":', b"}")])
    inner = r.choice([b"", b"0", b'"x"']) if opens == b"[" else b"0"
    tower = opens * depth + inner + closes * (depth if r.random() < 0.8 else depth - 1)
    how = r.random()
    if how < 0.4:
        return put(text, spot(r, text, VALUE), tower)
    if how < 0.7:
        return text.replace(b"{", b'{"more":' + tower + b",", 1)
    return put(text, spot(r, text, re.compile(rb"\n()")), tower + b"\n")


def long_number(r, text):
    return put(text, spot(r, text, NUMBER), r.choice(LONG_NUMBERS))


def other_value(r, text):
    return put(text, spot(r, text, VALUE), r.choice(OTHER_VALUES))


def surrogate(r, text):
    span = spot(r, text, STRING)
    if not span:
        return text
    place = r.randint(*span)
    return put(text, (place, place), r.choice(SURROGATES))


def escape(r, text):
    """A letter of a string by its number, which says the same."""
    span = spot(r, text, STRING)
    if not span or span[0] == span[1]:
        return text
    place = r.randrange(*span)
    return put(text, (place, place + 1), b"\\u%04x" % text[place])


def double_member(r, text):
    """A member twice in one object, the first or the last of them as it was."""
    span = spot(r, text, re.compile(rb'("[A-Za-z]+":\s*(?:-?[0-9]+|"[^"]*"|true|false))'))
    if not span:
        return text
    name = text[span[0]:span[1]].split(b":")[0]
    other = name + b":" + r.choice(OTHER_VALUES + LONG_NUMBERS[:5])
    both = [text[span[0]:span[1]], other if r.random() < 0.8 else text[span[0]:span[1]]]
    r.shuffle(both)
    return put(text, span, b",".join(both))


def misspell(r, text):
    span = spot(r, text, MEMBER)
    if not span:
        return text
    name = text[span[0]:span[1]]
    return put(text, span, r.choice([name.upper(), name.capitalize(), name[:-1], name + b" ", name + b"s", b"", b"do", b"lane", b"times"]))


def more_member(r, text):
    span = spot(r, text, re.compile(rb"\{()"))
    member = b'"%s":%s' % (r.choice([b"more", b"lane", b"times", b"do", b"version", b"worker", b""]), r.choice(OTHER_VALUES + LONG_NUMBERS))
    return put(text, span, member + r.choice([b",", b",", b",", b", ", b"", b",,"]))


def odd_name(r, text):
    return put(text, spot(r, text, re.compile(rb'"name":\s*"([^"]*)"')), r.choice(NAMES))


def blank(r, text):
    return put(text, at(r, text), r.choice(BLANKS))


def odd_start(r, text):
    return r.choice(BLANKS + [b"\xff\xfe", b"\x1f\x8b", b"//\n", b"#\n"]) + text


def many_times(r, text):
    line = r.choice([b'{"do":"node","times":%d}', b'{"do":"step","times":%d}', b'{"do":"deliver","kind":"pods","times":%d}'])
    return text.rstrip(b"\n") + b"\n" + b"\n".join([line % r.choice([1, 9999, 10000])] * r.choice([1, 2, 20, 21]))


MUTATIONS = [flip, flip, flip, drop_bytes, with_lines(cut_line), with_lines(double_line), with_lines(move_line), with_lines(remove_line),
             with_lines(join_lines), with_lines(split_line), with_lines(pad_line), cut_text, nest, nest, long_number, long_number,
             long_number, other_value, other_value, surrogate, surrogate, escape, escape, double_member, double_member, misspell,
             more_member, odd_name, blank, blank, odd_start, many_times]


def base(r, examples):
    """The bytes and the words that are mutated."""
    if r.random() < 0.3:
        return r.choice(examples), ["run", "--controllers", "2", "--events", str(r.choice([20, 300, 600]))]
    script = Script(r)
    return script.write().encode(), script.words()


def mutant(r, number, examples):
    text, words = base(r, examples)
    for _ in range(r.choice([1, 1, 1, 2, 3])):
        text = r.choice(MUTATIONS)(r, text)
    if number % 4 == 0:
        text = put(text, at(r, text), bytes([number // 4 % 256]))
    if r.random() < 0.03:
        words = words + r.choice(WORDS)
    return text, words


def main():
    folder, count, seed = sys.argv[1], int(sys.argv[2]), int(sys.argv[3])
    os.makedirs(folder, exist_ok=True)
    here = os.path.dirname(os.path.abspath(__file__))
    examples = []
    for path in sorted(glob.glob(here + "/../examples/*.script")):
        with open(path, "rb") as script:
            examples.append(script.read())
    for number in range(count):
        text, words = mutant(random.Random(seed * 1_000_003 + number), number, examples)
        with open("%s/%05d.script" % (folder, number), "wb") as out:
            out.write(text)
        with open("%s/%05d.args" % (folder, number), "w") as out:
            out.write("\n".join(words) + "\n")


if __name__ == "__main__":
    main()
