"""plays.py: what the tools share that play a script by the program: which program it is, and what a report's play has come to.

What the cluster holds behind event N of a report is asked of the program, and not worked out: the front of the report is
played up to there (replay.py), with further commands behind it whose replies tell how each pod stands. So each of these
answers is the program's own.
"""
import dataclasses
import json
import os
import subprocess
import sys

import replay
import reports
from checks import TOP

BUILT = os.path.join(TOP, "crates", "jobctl", "out", "jobctl")
WRAPPER = os.path.join(TOP, "jobctl")
# How many workers a controller may have: each that has no sync can be asked what it would begin.
MOST_WORKERS = 16
# How often one pod is asked.
QUESTIONS = 4


def program_at(path=None):
    """Returns the path of the program: the one that is given, or that of the environment, or the one that is built here, or
    else ./jobctl, which builds it."""
    path = path or os.environ.get("JOBCTL") or (BUILT if os.path.exists(BUILT) else WRAPPER)
    if not os.access(path, os.X_OK) or os.path.isdir(path):
        raise reports.Refused(f"there is no program {path}: build it by ./jobctl prove, or give --program PATH")
    if os.path.samefile(path, WRAPPER):
        print("no program is built, so ./jobctl plays, which may take minutes where it has kept nothing", file=sys.stderr)
    return os.path.abspath(path)


def add_program(words):
    """Adds the option --program to a tool's words."""
    words.add_argument("--program", metavar="PATH", help="the program (crates/jobctl/out/jobctl, else ./jobctl)")


def play(program, words, lines):
    """Returns what the program prints of a script, as text. Where it refuses the script, its line of standard error is told."""
    given = "".join(f"{line}\n" for line in lines)
    ran = subprocess.run([program, *words], input=given.encode("utf-8"), capture_output=True)
    if ran.returncode not in (0, 6):
        said = ran.stderr.decode("utf-8", "replace").strip().split("\n")[-1]
        raise reports.Refused(said or f"the program {program} ended with status {ran.returncode}")
    return ran.stdout.decode("utf-8")


@dataclasses.dataclass(frozen=True)
class Job:
    """A Job behind an event: the exact status that the store has, and when it was made."""

    key: str
    uid: int
    version: int
    status: dict
    spec: dict
    born: str


@dataclasses.dataclass(frozen=True)
class Pod:
    """A pod behind an event. The containers are their names, the restarts a number, and when the last of them was."""

    uid: int
    key: str
    index: int | None
    phase: str
    is_ready: bool
    is_marked: bool
    is_tracked: bool
    restarts: int
    last_restart: str | None
    containers: list
    born: str

    @property
    def name(self):
        namespace, _, name = self.key.partition("/")
        return f"{name}-{self.uid}" if self.index is None else f"{name}-{self.index}-{self.uid}"


@dataclasses.dataclass(frozen=True)
class State:
    """What the cluster holds behind an event. A queue says what a free worker of the controller would begin next."""

    number: int
    moment: str
    jobs: list
    pods: list
    queues: dict


def spec_history(events):
    """Returns, by UID, the specification of each Job that was made, with the events at which it became so."""
    found, of_key = {}, {}
    for event in events:
        if event.verb == "create" and event.said[0] == "created":
            of_key[event.key] = int(event.said[1])
            found[of_key[event.key]] = [(event.number, event.value)]
        elif event.verb == "update" and event.said[0] == "written":
            own = found[of_key[event.key]]
            own.append((event.number, {**own[-1][1], **event.value}))
    return found


def restart_history(events, first_containers):
    """Returns, by UID, how often the containers of each pod had restarted, with the events at which they did."""
    found, counts, running = {}, {}, set()
    for event in events:
        uid, given = event.pod, {}
        if event.verb == "report" and event.said[0] == "written":
            change = event.value
            given = {it["name"]: it["restartCount"] for it in change["containers"] if "restartCount" in it}
            running |= {uid} if change["phase"] == "Running" else set()
        elif event.verb == "node" and event.said[2:3] == ["Running"]:
            name = first_containers[uid]
            given = {name: counts.get((uid, name), 0) + 1} if uid in running else {}
            running.add(uid)
        counts |= {(uid, name): count for name, count in given.items()}
        if given:
            found.setdefault(uid, []).append((event.number, sum(it for (of, _), it in counts.items() if of == uid)))
    return found


def value_at(history, number):
    """Returns the last entry of a history up to an event, or None."""
    return next((it for it in reversed(history) if it[0] <= number), None)


def questions(uid):
    """Returns the commands whose replies tell how a pod stands."""
    lines = [
        {"do": "phase", "pod": uid, "phase": "Pending"},
        {"do": "phase", "pod": uid, "phase": "Running", "conditions": [{"type": "Ready"}]},
        {"do": "mark", "pod": uid},
        {"do": "strip", "pod": uid},
    ]
    return [json.dumps(it) for it in lines]


class Replayed:
    """A report, and the program that plays its front again. Options that are known need not be told by the report."""

    def __init__(self, report, program, **options):
        self.report, self.program, self.events = report, program, report.events
        self.script = [replay.line_of(event) for event in report.events]
        told = {**replay.told_of(report), **options}
        self.controllers, self.workers = told["controllers"], told["workers"]
        self.words = ["run", "--controllers", str(self.controllers), "--workers", str(MOST_WORKERS)]
        self.words += [f"--window={told['window']}"] if told["window"] else []
        self.words += [f"--start={told['start']}"] if told["start"] else []
        self.lines = self.checked()
        self.moments = reports.moments(report.events, told["start"] or replay.PLAIN["start"])
        self.births = reports.births(report.events)
        self.specs = spec_history(report.events)
        self.names = {it.uid: self.containers_of(it) for it in self.births.values() if it.kind == "pod"}
        self.restarts = restart_history(report.events, {uid: (names or [""])[0] for uid, names in self.names.items()})
        self.seats = [(controller, worker) for controller in range(self.controllers) for worker in range(MOST_WORKERS)]

    def checked(self):
        """Returns the lines of the play of the whole report, and refuses a report that comes out otherwise."""
        try:
            lines = play(self.program, self.words, self.script).split("\n")
        except reports.Refused as error:
            raise reports.Refused(f"this is no report: its play is refused: {error}") from None
        for event, line in zip(self.events, lines):
            again = reports.event_of(line)
            if (event.act, event.reply) != (again.act, again.reply):
                told = f"line {event.number} is {reports.shortened(event.line)!r}, and the program answers {again.reply!r}"
                raise reports.Refused(f"this is no report of this program: {told}")
        return lines[: len(self.events)]

    def containers_of(self, birth):
        """Returns the names of a pod's containers."""
        owners = [it for it in self.births.values() if it.kind == "job" and it.key == birth.key and it.number <= birth.number]
        return self.specs[owners[-1].uid][0][1]["template"]["containers"] if owners else []

    def state(self, number):
        """Returns what the cluster holds behind an event: the front is played, and behind it come questions."""
        asked = [f'{{"do":"begin","controller":{controller},"worker":{worker}}}' for controller, worker in self.seats]
        uids = [it.uid for it in self.births.values() if it.kind == "pod" and it.number <= number]
        more = [*asked, *(line for uid in uids for line in questions(uid))]
        lines = play(self.program, self.words, [*self.script[:number], *more]).split("\n")
        if lines[:number] != self.lines[:number]:
            raise reports.Refused(f"the program {self.program} plays the same script in several ways")
        if lines[-2:-1] == ["full"]:
            raise reports.Refused(f"a history has no room for event {number} and what is asked behind it")
        replies = [line.rpartition(" -> ")[2] for line in lines[number : number + len(more)]]
        told = {uid: replies[len(asked) + place * QUESTIONS :][:QUESTIONS] for place, uid in enumerate(uids)}
        last = reports.read_lines([line for line in lines[number + len(more) :] if line])
        return State(number, self.moments[number], self.jobs(number, last), self.pods(number, told), self.queues(replies))

    def statuses(self, number):
        """Returns the exact status of each Job behind an event, by key."""
        lines = play(self.program, self.words, self.script[:number]).split("\n")[number:]
        return {key: it.status for key, it in reports.read_lines([line for line in lines if line]).jobs.items()}

    def queues(self, replies):
        """Returns what the workers would begin, one after the other, by controller; None where the caches are not listed yet."""
        found = {}
        for (controller, _), reply in zip(self.seats, replies):
            words = reply.split(" ")
            queue = found.setdefault(controller, [])
            if words[0] == "not-synced":
                found[controller] = None
            elif words[0] == "begun":
                queue.append(words[1])
            elif words[0] == "behind" and reply not in queue:
                queue.append(reply)
        return found

    def jobs(self, number, last):
        """Returns the Jobs that are there, by key."""
        found = []
        for key, line in sorted(last.jobs.items()):
            uid = int(line.uid.replace("-", ""), 16)
            spec = value_at(self.specs[uid], number)[1]
            found.append(Job(key, uid, line.version, line.status, spec, self.moments[self.births[uid].number]))
        return found

    def pods(self, number, told):
        """Returns the pods that are there, by UID, from what they answered."""
        found = []
        for uid, (phase, ready, mark, strip) in sorted(told.items()):
            birth, words = self.births[uid], phase.split(" ")
            if phase != "not-found":
                stands = "Pending" if words[0] == "unchanged" else words[1]
                is_ready = stands == "Running" and ready.startswith("unchanged")
                is_marked, is_tracked = mark.startswith("unchanged"), strip.startswith("released")
                last, times = value_at(self.restarts.get(uid, []), number) or (None, 0)
                moments = self.moments[last] if last else None, self.names[uid], self.moments[birth.number]
                found.append(Pod(uid, birth.key, birth.index, stands, is_ready, is_marked, is_tracked, times, *moments))
        return found

    def writes(self):
        """Returns the numbers of the events by which something in the store may have changed."""
        unheard = reports.lost(self.events)
        return [event.number for event in self.events if event.version or event.number in unheard]
