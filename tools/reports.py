"""reports.py: what the tools share that read a report: its lines as events, the pods that were made, and the last lines.

A report is what docs/SCRIPT.md says under "The report". What is none is Refused, with the line that says so.
"""
import contextlib
import dataclasses
import datetime
import json
import os
import re
import sys

# What a write of the store is answered. Other replies changed nothing there.
WRITTEN = ("created", "written", "removed", "released")
# What is answered where nothing was done.
REFUSALS = (
    "exists not-found not-tracked unchanged conflict immutable invalid final bad-step no-container clock-end expired not-synced "
    "worker-busy no-key behind unavailable"
).split()
# What a sync asks of one pod, and what begins so.
ASKED_OF_A_POD = ("create-pod", "mark", "let-go", "release")


LAST_LINE = re.compile(r"job [^ /]+/[^ /]+ [0-9a-f]{8}-[0-9a-f]{4}-[0-9a-f]{4}-[0-9a-f]{4}-[0-9a-f]{12} v[0-9]+ \{.*\}$")
# The words of an act, and of a reply.
NUMBER, UID, VERSION, KEY, PHASE = r"(?:0|[1-9][0-9]{0,11})", r"[1-9][0-9]{0,11}", r"v[0-9]{1,12}", r"[^ /]+/[^ /]+", r"[A-Z][a-z]+"
ACT = re.compile(
    rf"create {KEY} \{{.*|update {KEY} (any|{VERSION}) \{{.*|delete {KEY}|(mark|strip) {UID}|finish {UID} {NUMBER}|report {UID} \{{.*"
    rf"|fate {KEY} \[.*|node|clock {NUMBER}|(list|deliver) {NUMBER} (jobs|pods)|(begin|step) {NUMBER} {NUMBER}|restart {NUMBER}"
    rf"|fault {NUMBER} {NUMBER} (drop|lose)|settled"
)
ANSWER = (
    rf"created {UID} {VERSION}|exists|(written|unchanged|removed|released|conflict) {VERSION}|not-found|not-tracked|final {PHASE}|unavailable"
)
REPLY = re.compile(
    rf"{ANSWER}|(immutable|invalid|no-container) [^ ]+|bad-step {PHASE} {PHASE}|pod {UID} {PHASE} written {VERSION}|idle|now [^ ]+|clock-end"
    rf"|(listed|entry|expired) {VERSION}|up-to-date|not-synced|begun {KEY} jobs {VERSION} pods {VERSION}|worker-busy|no-key"
    rf"|behind (jobs|pods) need {VERSION} have {VERSION}|create-pod (-|{NUMBER}) ({ANSWER})|(mark|let-go|release) {UID} ({ANSWER})"
    rf"|status ({ANSWER})|ended|done"
)


class Refused(Exception):
    """What was given is not what the tool needs. The text says why."""


@dataclasses.dataclass(frozen=True)
class Event:
    """One line of a report. The lane is None for what came of itself."""

    number: int
    lane: int | None
    act: str
    reply: str
    line: str

    @property
    def words(self):
        return self.act.split(" ")

    @property
    def verb(self):
        return self.act.partition(" ")[0]

    @property
    def said(self):
        return self.reply.split(" ")

    @property
    def value(self):
        """Returns what the JSON at the act's end says."""
        return json.loads(self.act.split(" ", 3 if self.verb == "update" else 2)[-1])

    @property
    def seat(self):
        """Returns the controller and the worker of a begin, a step or a fault."""
        return int(self.words[1]), int(self.words[2])

    @property
    def request(self):
        """Returns what a step asked, and what it was answered, each as words; of what asked nothing, two empty lists."""
        if self.verb != "step" or self.said[0] in ("ended", "idle"):
            return [], []
        count = 2 if self.said[0] in ASKED_OF_A_POD else 1
        return self.said[:count], self.said[count:]

    @property
    def version(self):
        """Returns the version that the event wrote, or None."""
        answer = self.request[1] or self.said
        writes = answer[0] in WRITTEN or self.verb == "node" and answer[0] == "pod"
        return int(answer[-1][1:]) if writes else None

    @property
    def key(self):
        """Returns the key of the Job that the event is about, as far as its line names it."""
        if self.verb in ("create", "update", "delete", "fate"):
            return self.words[1]
        return self.said[1] if self.said[0] == "begun" else None

    @property
    def pod(self):
        """Returns the UID of the pod that the event is about, or None."""
        if self.verb in ("mark", "strip", "finish", "report"):
            return int(self.words[1])
        if self.verb == "node" and self.said[0] == "pod":
            return int(self.said[1])
        request, answer = self.request
        if request[:1] == ["create-pod"]:
            return int(answer[1]) if answer[0] == "created" else None
        return int(request[1]) if len(request) == 2 else None


@dataclasses.dataclass(frozen=True)
class LastLine:
    """The `job` line of a Job, with its verdicts."""

    key: str
    uid: str
    version: int
    status: dict
    verdicts: str


@dataclasses.dataclass(frozen=True)
class Report:
    """A report that was read."""

    events: list
    jobs: dict
    is_full: bool

    def until(self, number):
        """Returns the events up to this one."""
        return self.events[:number]


def is_refusal(event):
    """Returns whether the event was answered that nothing was done."""
    return (event.request[1] or event.said)[0] in REFUSALS


def event_of(line):
    """Returns the event of a line, or None where it is no line of an event."""
    found = re.fullmatch(r"([1-9][0-9]*) (-|@[0-9]+) (.+) -> (.+)", line)
    if not found:
        return None
    lane = None if found[2] == "-" else int(found[2][1:])
    return Event(int(found[1]), lane, found[3], found[4], line)


def read_lines(lines):
    """Returns the report of these lines. Its last lines may be missing."""
    events, jobs, is_full = [], {}, False
    for number, line in enumerate(lines, 1):
        event = event_of(line)
        words = line.split(" ", 4)
        if event and not jobs and event.number == len(events) + 1:
            events.append(event)
        elif LAST_LINE.match(line):
            jobs[words[1]] = LastLine(words[1], words[2], int(words[3][1:]), readable(words[4], number), "")
        elif words[0] == "verdicts" and len(words) > 1 and words[1] in jobs:
            jobs[words[1]] = dataclasses.replace(jobs[words[1]], verdicts=line.split(" ", 2)[2])
        elif line == "full" and number == len(lines):
            is_full = True
        else:
            raise Refused(f"this is no report: line {number} is {shortened(line)!r}")
    check(events)
    return Report(events, jobs, is_full)


def readable(text, number):
    """Returns the JSON value of a text."""
    try:
        return json.loads(text)
    except ValueError as error:
        raise Refused(f"this is no report: line {number} has no JSON: {error}") from None


def check(events):
    """Refuses events whose words are not as they have to be."""
    for event in events:
        try:
            is_one = bool(ACT.fullmatch(event.act) and REPLY.fullmatch(event.reply))
            if event.verb in ("create", "update", "report", "fate"):
                event.value
            if event.said[0] == "now":
                datetime.datetime.fromisoformat(event.said[1].removesuffix("Z"))
        except ValueError:
            is_one = False
        if not is_one:
            raise Refused(f"this is no report: line {event.number} is {shortened(event.line)!r}")


@contextlib.contextmanager
def going_together():
    """Refuses, in the place of an error of Python, what is read from lines that are well formed and do not go together."""
    try:
        yield
    except (KeyError, IndexError, TypeError, AttributeError, ValueError, OverflowError):
        raise Refused("this is no report: its lines do not go together") from None


def shortened(text, most=90):
    return text if len(text) <= most else text[: most - 2] + ".."


def read(text):
    """Returns the report of a text."""
    return read_lines(text.removesuffix("\n").split("\n") if text else [])


def text_of(name):
    """Returns the text of a file, or of standard input where the name is None or `-`."""
    try:
        if name in (None, "-"):
            return sys.stdin.buffer.read().decode("utf-8")
        with open(name, encoding="utf-8") as it:
            return it.read()
    except UnicodeDecodeError:
        raise Refused(f"{name or 'standard input'} is no text of UTF-8") from None
    except OSError as error:
        raise Refused(f"{name}: {error.strerror}") from None


def write(name, text):
    """Writes a text to a file, or to standard output where the name is None or `-`."""
    if name in (None, "-"):
        sys.stdout.write(text)
        return
    try:
        with open(name, "w", encoding="utf-8") as it:
            it.write(text)
    except OSError as error:
        raise Refused(f"{name}: {error.strerror}") from None


def without_lane(line):
    """Returns a line of a report without its lane."""
    return re.sub(r"^([0-9]+) (-|@[0-9]+) ", r"\1 ", line)


@dataclasses.dataclass(frozen=True)
class Birth:
    """Where a Job or a pod was made. A pod has the key of its Job, and its index where it has one."""

    uid: int
    kind: str
    key: str
    index: int | None
    number: int
    version: int | None
    is_lost: bool


def lost(events):
    """Returns the numbers of the events whose request was made and its answer lost."""
    found, faults = set(), {}
    for event in events:
        if event.verb == "fault":
            faults[event.seat] = event.words[3]
        elif event.verb == "restart":
            faults = {seat: kind for seat, kind in faults.items() if seat[0] != int(event.words[1])}
        elif event.request[1][:1] == ["unavailable"] and faults.pop(event.seat, None) == "lose":
            found.add(event.number)
    return found


def births(events):
    """Returns what was made, by UID. A creation whose answer was lost has the UID that was the next."""
    found, syncs, unheard = {}, {}, lost(events)
    for event in events:
        if event.verb == "create" and event.said[0] == "created":
            uid = int(event.said[1])
            found[uid] = Birth(uid, "job", event.key, None, event.number, event.version, False)
        elif event.verb == "begin" and event.said[0] == "begun":
            syncs[event.seat] = event.key
        request, answer = event.request
        if request[:1] == ["create-pod"] and (answer[0] == "created" or event.number in unheard):
            uid = int(answer[1]) if answer[0] == "created" else len(found) + 1
            index = None if request[1] == "-" else int(request[1])
            found[uid] = Birth(uid, "pod", syncs.get(event.seat), index, event.number, event.version, event.number in unheard)
    return found


def lengths(events):
    """Returns the length of the log before the first event and after each. A request whose answer was lost has written if a
    later line shows a version more, or if no later line shows any."""
    following, before_next = [], None
    for event in reversed(events):
        following.append(before_next)
        if event.version:
            before_next = event.version - 1
        elif event.said[0] == "listed":
            before_next = int(event.said[1][1:])
    found, unheard = [0], lost(events)
    for event, known in zip(events, reversed(following)):
        length = event.version or found[-1]
        if event.number in unheard and (known is None or length < known):
            length += 1
        found.append(length)
    return found


def caches(events):
    """Returns, before the first event and after each, the versions of the caches of each controller that has done anything."""
    found = [{}]
    for event in events:
        now = found[-1]
        if event.verb in ("list", "deliver"):
            controller, kind, answer = int(event.words[1]), event.words[2], event.said[0]
            at = dict(now.get(controller, {"jobs": None, "pods": None}))
            at[kind] = int(event.said[1][1:]) if answer in ("listed", "entry") else None if answer == "expired" else at[kind]
            now = {**now, controller: at}
        elif event.verb == "restart" or event.request[1][:1] == ["unavailable"]:
            now = {**now, int(event.words[1]): {"jobs": None, "pods": None}}
        found.append(now)
    return found


def syncs(events):
    """Returns the syncs in the order in which they began: the seat, the Job, the versions of the caches, and each request with its
    event and its answer; where it has ended, by which event and why."""
    found, under_way = [], {}
    for event in events:
        if event.verb == "begin" and event.said[0] == "begun":
            jobs, pods = int(event.said[3][1:]), int(event.said[5][1:])
            controller, worker = event.seat
            sync = {"controller": controller, "worker": worker, "key": event.key, "jobs": jobs, "pods": pods, "begin": event.number}
            under_way[event.seat] = {**sync, "end": None, "why": "", "steps": []}
            found.append(under_way[event.seat])
        elif event.verb == "restart":
            for seat in [it for it in under_way if it[0] == int(event.words[1])]:
                under_way.pop(seat).update(end=event.number, why="the controller was restarted")
        elif event.verb == "step" and event.seat in under_way:
            request, answer = event.request
            if request:
                under_way[event.seat]["steps"].append([event.number, " ".join(request), " ".join(answer)])
            if event.reply == "ended" or answer[:1] == ["unavailable"] or request == ["status"] and answer[0] in ("conflict", "not-found"):
                why = "nothing was left to ask" if event.reply == "ended" else " ".join(request + answer)
                under_way.pop(event.seat).update(end=event.number, why=why)
    return found


def moments(events, start):
    """Returns the moment at which the clock stands after each event, and before the first."""
    found = [start]
    for event in events:
        found.append(event.said[1] if event.verb == "clock" and event.said[0] == "now" else found[-1])
    return found


def run(tool, main):
    """Runs a tool's main function: what it refuses is one line on standard error, and status 1."""
    try:
        main()
        sys.stdout.flush()
    except Refused as error:
        sys.exit(f"{tool}: {error}")
    except BrokenPipeError:
        # (the reader of standard output has gone)
        os.dup2(os.open(os.devnull, os.O_WRONLY), 1)
        sys.exit(1)
    except KeyboardInterrupt:
        sys.exit(1)
