"""words.py: the words of ./jobctl: which there are, what is refused and why, and the help.

The words of the program itself are those of docs/SCRIPT.md, "The words": what is refused here is what the program refuses, and
check_wrapper.py holds the two together. The wrapper has some of its own: a FILE in the place of standard input, and help,
version, check, test and prove.
"""
import os
import re

BATCH = ("run", "reap", "audit")


class Option:
    """An option: a number from least to most, or one of some texts, or a moment."""

    def __init__(self, name, commands, default, text, least=0, most=0, allowed=()):
        self.name, self.commands, self.default, self.text = name, commands, default, text
        self.least, self.most, self.allowed = least, most, allowed

    def form(self):
        """Returns what a value has to be."""
        if self.name == "--start":
            return "a moment, as 2024-01-01T00:00:00Z"
        return " or ".join(self.allowed) if self.allowed else f"{self.least} to {self.most:,}"

    def takes(self, value):
        if self.name == "--start":
            return is_moment(value)
        return value in self.allowed if self.allowed else is_number(value, self.least, self.most)


OPTIONS = [
    Option("--controllers", BATCH, "1", "how many controllers there are", 1, 4),
    Option("--workers", BATCH, "1", "how many workers each controller has", 1, 16),
    Option("--window", BATCH, "1,000", "how many of the last entries of the log a cache can still be told", 1, 200_000),
    Option("--events", BATCH, "200,000", "how many events the history may have", 1, 200_000),
    Option("--start", BATCH, "2024-01-01T00:00:00Z", "the moment at which the clock stands at first"),
    Option("--threads", ("run",), "0", "0: one thread plays the script; else so many play it beside each other", 0, 16),
    Option("--lock", ("run",), "mutex", "how threads share the cluster", allowed=("mutex", "turn")),
]
NUMBERS = [
    Option("NUMBER", ("generate",), "", "by which the Jobs and pods are mixed", 0, 4_294_967_295),
    Option("JOBS", ("generate",), "", "how many Jobs there are", 1, 100),
    Option("PODS", ("generate",), "", "how many pods each Job has", 1, 20),
]
# Each command: its form, and what it does.
COMMANDS = {
    "run": ("run [FILE] [OPTIONS]", "plays a script and prints the report"),
    "reap": ("reap [FILE] [OPTIONS]", "plays a script, then deletes finished Jobs whose time to live is over, and prints the report"),
    "audit": ("audit [FILE] [OPTIONS]", "says whether a report is one: yes, or no with the first line that differs"),
    "generate": ("generate NUMBER JOBS PODS", "makes a script, plays it and prints a summary"),
    "check": ("check [FILE]", "names all bad lines of a script, with what they mean; plays nothing"),
    "test": ("test", "holds what the program prints to the stories and reports that are here, and tests the tools"),
    "prove": ("prove", "proves the program and builds it"),
    "version": ("version", "prints the commit, the kit, and whether the program is proved"),
    "help": ("help [COMMAND]", "prints this, or more of one command"),
}
MORE = {
    "run": """A script is one JSON object a line; without FILE, or with -, it is read from standard input. An example:
  ./jobctl run examples/first.script""",
    "reap": """Without FILE, or with -, the script is read from standard input. An example:
  ./jobctl reap examples/collected.script""",
    "audit": """It takes the options with which the report was printed, but for --threads and --lock. Without FILE, or with -, the
report is read from standard input. Where it is none, standard error says what its line should be. An example:
  ./jobctl audit examples/first.report""",
    "generate": "It reads nothing. An example:\n  ./jobctl generate 5 100 20",
    "check": "Without FILE, or with -, the script is read from standard input. Status 0 says that no line is bad, 5 that one is.",
    "test": """It takes the proved program where there is one of these sources, and else the one that is kept unproved.
The last line is 'N passed, M failed'; status 0 says that none failed, and 1 that one did.""",
    "prove": "What is proved is kept, until a source changes.",
    "version": "",
    "help": "",
}


class Order:
    """What the words ask for: a command, the words that the program gets, the file that is read, if one is named, and of which command
    help is wanted."""

    def __init__(self, command, program_words=(), file=None, of=""):
        self.command, self.program_words, self.file, self.of = command, list(program_words), file, of


class Refused(Exception):
    """The words are refused; the text says why."""


def is_number(text, least, most):
    return bool(re.fullmatch("0|[1-9][0-9]{0,9}", text, re.ASCII)) and least <= int(text) <= most


def is_moment(text):
    """Returns whether it is the text of a second from 1970 to 9999."""
    found = re.fullmatch("([0-9]{4})-([0-9]{2})-([0-9]{2})T([0-9]{2}):([0-9]{2}):([0-9]{2})Z", text, re.ASCII)
    if not found:
        return False
    year, month, day, hour, minute, second = map(int, found.groups())
    is_leap = year % 4 == 0 and (year % 100 != 0 or year % 400 == 0)
    days = (31, 29 if is_leap else 28, 31, 30, 31, 30, 31, 31, 30, 31, 30, 31)
    return year >= 1970 and 1 <= month <= 12 and 1 <= day <= days[month - 1] and hour < 24 and minute < 60 and second < 60


def near(word, known):
    """Returns the words that ask whether another was meant."""
    import difflib

    found = difflib.get_close_matches(word, known, 1, 0.6)
    return f": did you mean {found[0]}?" if found else ""


def without_dashes(file):
    """Returns the words that ask whether an option was meant by what is taken for a file."""
    is_option = f"--{file.partition('=')[0]}" in [it.name for it in OPTIONS]
    return f": did you mean --{shown(file)}?" if is_option else ""


def shown(word):
    """Returns a word as it can be printed on one line."""
    text = word.encode("utf-8", "backslashreplace").decode()
    text = "".join(it if it.isprintable() else repr(it)[1:-1] for it in text)
    return text if len(text) <= 60 else text[:57] + "..."


def read_option(command, word, behind):
    """Returns the option that a word begins, its value, and how many words these are."""
    name, sign, value = word.partition("=")
    names = [it.name for it in OPTIONS if command in it.commands]
    option = next((it for it in OPTIONS if it.name == name), None)
    if option is None:
        raise Refused(f"{command} has no option {shown(name)}{near(name, names)}")
    if command not in option.commands:
        raise Refused(f"{command} does not take {name}, which is an option of {' and '.join(option.commands)} alone")
    if not sign and not behind:
        raise Refused(f"{name} has no value: it takes {option.form()}")
    value = value if sign else behind[0]
    if not option.takes(value):
        raise Refused(f"{name} takes {option.form()}, and not {shown(value) or 'an empty word'}{without_zeros(option, value)}")
    return option, 1 if sign else 2


def without_zeros(option, value):
    is_near = option.most and re.fullmatch("[+]?0*[0-9,_]+", value, re.ASCII)
    plain = (re.sub("[+,_]", "", value).lstrip("0") or "0") if is_near else ""
    return f" (a number is written {plain})" if plain != value and is_number(plain, option.least, option.most) else ""


def read_batch(command, words):
    """Returns the order of run, reap or audit."""
    order, at, given = Order(command, [command]), 0, set()
    while at < len(words):
        word = words[at]
        if word in ("-h", "--help"):
            return Order("help", of=command)
        if word.startswith("-") and word != "-":
            option, count = read_option(command, word, words[at + 1 :])
            if option.name in given:
                raise Refused(f"{option.name} is given twice")
            given.add(option.name)
            order.program_words += words[at : at + count]
            at += count
            continue
        if not word:
            raise Refused("a word is empty")
        if order.file is not None:
            raise Refused(f"there are two files, {shown(order.file)} and {shown(word)}")
        order.file, at = word, at + 1
    return order


def read_generate(words):
    if any(it in ("-h", "--help") for it in words):
        return Order("help", of="generate")
    if len(words) != 3:
        raise Refused(f"generate takes three numbers, NUMBER JOBS PODS, and not {len(words)} words")
    for number, word in zip(NUMBERS, words):
        if not number.takes(word):
            raise Refused(f"{number.name} is {number.form()}, and not {shown(word) or 'an empty word'}{without_zeros(number, word)}")
    return Order("generate", ["generate", *words])


def read_own(command, words):
    """Returns the order of a command that the program does not have."""
    if words and words[0] in ("-h", "--help"):
        return Order("help", of=command)
    if command == "help" and len(words) == 1:
        if words[0] not in COMMANDS:
            raise Refused(f"there is no command {shown(words[0])}{near(words[0], COMMANDS)}")
        return Order("help", of=words[0])
    if command == "check" and len(words) == 1 and words[0] and (words[0] == "-" or not words[0].startswith("-")):
        return Order("check", file=words[0])
    if words:
        raise Refused(f"{command} does not take {shown(words[0]) or 'an empty word'}")
    return Order(command)


def read(words):
    """Returns what the words ask for, or says by Refused why they are refused."""
    if not words:
        raise Refused("there is no word")
    for word in words:
        try:
            word.encode()
        except UnicodeEncodeError:
            raise Refused(f"{shown(word)} is no UTF-8") from None
    command, behind = words[0], list(words[1:])
    if command in ("-h", "--help"):
        return read_own("help", behind)
    if command in ("-V", "--version"):
        return read_own("version", behind)
    if command in BATCH:
        return read_batch(command, behind)
    if command == "generate":
        return read_generate(behind)
    if command in COMMANDS:
        return read_own(command, behind)
    if os.path.isfile(command):
        raise Refused(f"{shown(command)} is a file, and no command: did you mean ./jobctl run {shown(command)}?")
    raise Refused(f"there is no command {shown(command) or 'of an empty word'}{near(command, COMMANDS)}")


def usage(of=""):
    """Returns the usage of a command, or of all, as lines."""
    names = [of] if of in COMMANDS else COMMANDS
    lines = [f"./jobctl {COMMANDS[it][0]}" for it in names]
    return [("usage: " if i == 0 else "       ") + line for i, line in enumerate(lines)]


def help_of(of):
    """Returns the help of a command, or of all, as lines."""
    if not of:
        width = max(len(form) for form, _ in COMMANDS.values())
        lines = ["jobctl plays a script of a small cluster with the proved Job controller in it.", ""]
        lines += [f"  ./jobctl {form:{width}}  {text}" for form, text in COMMANDS.values()]
        return lines + ["", "./jobctl help COMMAND names the options with their limits. The rest is in docs/SCRIPT.md."]
    form, text = COMMANDS[of]
    lines = [f"./jobctl {form}", f"  {text}", ""]
    values = [it for it in OPTIONS + NUMBERS if of in it.commands]
    if values:
        rows = [(it.name, it.form(), f"{it.text}{f' (without it: {it.default})' if it.default else ''}") for it in values]
        widths = [max(len(row[i]) for row in rows) for i in (0, 1)]
        lines += [f"  {name:{widths[0]}}  {value:{widths[1]}}  {what}" for name, value, what in rows]
        lines += ["", "Options are --NAME VALUE or --NAME=VALUE, each at most once; numbers have no sign and no zeros in front."] * (of in BATCH)
        lines += [""]
    return (lines + MORE[of].split("\n") if MORE[of] else lines[:-1])
