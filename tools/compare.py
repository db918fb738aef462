#!/usr/bin/env python3
"""compare.py A [B] [--with MEMBER=VALUE] [--ends CODES] [--run OPTIONS]: two plays side by side.

  compare.py a.report b.report                            two reports
  compare.py a.script b.script --run "--controllers 2"    two scripts, played with these options of `run`
  compare.py job.yaml other.yaml --ends 1,0               two manifests, with these ends and a settle (as script_of.py)
  compare.py my.script --with spec.backoffLimit=2         a script or a manifest, as it is and with each Job's member changed
A table shows where each Job has come to on either side (one row where both are the same), and behind it stand the first write
of a status that differs, where something was played, and the first event at which they part. A VALUE is JSON, or else a text; null takes the member away. Reports need no program. Status 1 says that
there is no such file, or that it is refused.
"""
import argparse
import json
import os
import re
import shlex
import sys

sys.dont_write_bytecode = True
import get
import plays
import replay
import reports
import script_of

HEAD = ("NAME", "SIDE", "STATUS", "REASON", "COMPLETIONS", "FAILED", "ACTIVE", "PODS", "DURATION")
CONTEXT = 2


def script_lines(text, name, ends):
    """Returns the lines of a script: the text's own, or those of its manifests with their ends and a settle."""
    first = text.lstrip("\ufeff").lstrip().partition("\n")[0]
    if re.match(r'\{.*"do"\s*:', first):
        return text.split("\n")
    found, pods, _ = script_of.jobs(script_of.objects(text, name), name)
    if not found:
        raise reports.Refused(f"{name} is no report, no script and no manifest of a Job")
    return script_of.script(found, pods, ends, True)[0]


def changed(line, members):
    """Returns a line of a script with these members of the Job's manifest changed, where it creates one."""
    command = json.loads(line) if line.strip() else {}
    if not isinstance(command, dict) or command.get("do") != "create" or not isinstance(command.get("job"), dict):
        return line
    for path, value in members:
        *parents, last = path.split(".")
        at = command["job"]
        for parent in parents:
            at = at.setdefault(parent, {})
            if not isinstance(at, dict):
                raise reports.Refused(f"--with {path}: {parent} is no object")
        at[last] = value
    return script_of.line(command)


def with_changed(lines, members):
    """Returns the lines of a script, each Job's manifest with these members changed."""
    try:
        return [changed(line, members) for line in lines]
    except ValueError as error:
        raise reports.Refused(f"the script has a line that is no JSON: {error}") from None


def member(text):
    """Returns the path and the value of the option --with."""
    path, equals, value = text.partition("=")
    if not equals or not all(path.split(".")):
        raise argparse.ArgumentTypeError(f"this is no MEMBER=VALUE: {text}")
    try:
        return path, json.loads(value)
    except ValueError:
        return path, value


def key_row(key, report, specs, births):
    """Returns the cells of a Job, behind its name and the side."""
    status = report.jobs[key].status
    uid = int(report.jobs[key].uid.replace("-", ""), 16)
    spec = plays.value_at(specs[uid], len(report.events))[1]
    job = plays.Job(key, uid, report.jobs[key].version, status, spec, "")
    start = replay.start_of(report) or replay.PLAIN["start"]
    now = reports.moments(report.events, start)[-1]
    shown = get.status_of(job)
    reason = get.true_conditions(status).get(shown, "")
    ended = [it["lastTransitionTime"] for it in status.get("conditions", []) if it["type"] in ("Complete", "Failed")]
    began = status.get("startTime")
    duration = get.age(began, ended[0] if ended else now) if began else ""
    completions = get.completions_of(job)
    made = sum(it.kind == "pod" and it.key == key for it in births.values())
    return (shown, reason, completions, str(status.get("failed", 0)), str(status.get("active", 0)), str(made), duration)


def side(report):
    """Returns the cells of each Job of a report, by its key."""
    with reports.going_together():
        specs, births = plays.spec_history(report.events), reports.births(report.events)
        return {key: key_row(key, report, specs, births) for key in report.jobs}


def table(left, right):
    """Returns the lines of the table of Jobs."""
    sides, rows = (side(left), side(right)), [HEAD]
    nothing = ("not there", *("" for _ in HEAD[3:]))
    if not any(sides):
        return ["There is no Job at the end on either side."]
    for key in sorted({*sides[0], *sides[1]}):
        cells = [it.get(key, nothing) for it in sides]
        name = key.removeprefix("default/")
        rows += [(name, "both", *cells[0])] if cells[0] == cells[1] else [(name, "A", *cells[0]), ("", "B", *cells[1])]
    return [line.rstrip() for line in get.table(rows)]


def shown_specs(left, right):
    """Returns how the Jobs differ that both sides create at the same event."""
    lines = []
    for one, other in zip(left.events, right.events):
        if one.verb == other.verb == "create" and one.key == other.key:
            specs = one.value, other.value
            names = [it for it in sorted({*specs[0], *specs[1]}) if specs[0].get(it) != specs[1].get(it)]
            told = [f"{it} {json.dumps(specs[0].get(it))} in A, {json.dumps(specs[1].get(it))} in B" for it in names]
            lines += [f"{one.key} is created otherwise: {'; '.join(told)}"] if told else []
    return lines


def happened(event):
    """Returns what happened, without the lane, and of a creation without the specification."""
    return (event.verb, event.key, event.reply) if event.verb == "create" else (event.act, event.reply)


def same_events(left, right):
    """Returns how many events of two histories are the same, from the first on."""
    pairs = list(zip(left.events, right.events))
    return next((place for place, (one, other) in enumerate(pairs) if happened(one) != happened(other)), len(pairs))


def parting_statuses(left, right, program):
    """Returns the lines that tell which write of a status, of the events that are the same, is the first with another status."""
    both = [plays.Replayed(report, program) for report in (left, right)]
    for event in left.events[: same_events(left, right)]:
        if event.request[0] != ["status"] or not event.version:
            continue
        found = [play.statuses(event.number) for play in both]
        for key in sorted({*found[0], *found[1]}):
            sides = [it.get(key, {}) for it in found]
            names = [it for it in sorted({*sides[0], *sides[1]}) if sides[0].get(it) != sides[1].get(it)]
            if names:
                told = [json.dumps({it: side[it] for it in names if it in side}, separators=(",", ":")) for side in sides]
                return [f"The status of {key} parts at event {event.number}:", f"  A     {told[0]}", f"  B     {told[1]}"]
    return []


def parting(left, right):
    """Returns the lines that tell where two histories part."""
    same = same_events(left, right)
    if same == len(left.events) == len(right.events):
        return [f"All {same} events are the same."]
    lines = [f"They part at event {same + 1}:"]
    lines += [f"  both  {reports.shortened(reports.without_lane(it.line))}" for it in left.events[max(0, same - CONTEXT) : same]]
    for name, report in (("A", left), ("B", right)):
        line = report.events[same].line if same < len(report.events) else "(it has ended)"
        lines.append(f"  {name}     {reports.shortened(reports.without_lane(line))}")
    return lines + [f"A has {len(left.events)} events, B has {len(right.events)}."]


def read_words():
    words = argparse.ArgumentParser(description=__doc__, formatter_class=argparse.RawDescriptionHelpFormatter)
    words.add_argument("a", metavar="A")
    words.add_argument("b", nargs="?", metavar="B")
    words.add_argument("--with", dest="members", type=member, action="append", default=[], metavar="MEMBER=VALUE")
    words.add_argument("--ends", type=script_of.codes, default=[], metavar="CODES", help="how the pods of manifests end")
    words.add_argument("--run", default="", metavar="OPTIONS", help='options of run, as "--controllers 2"')
    plays.add_program(words)
    given = words.parse_args()
    if (given.b is None) != bool(given.members):
        words.error("either B is needed, or what is changed: --with MEMBER=VALUE")
    return given


def main():
    given = read_words()
    given.was_played = False

    def report_of(name, text, members=()):
        if reports.event_of(text.partition("\n")[0]):
            if members:
                raise reports.Refused(f"{name} is a report: --with needs a script or a manifest")
            return reports.read(text)
        given.was_played = True
        lines = with_changed(script_lines(text, os.path.basename(name), given.ends), members)
        return reports.read(plays.play(plays.program_at(given.program), ["run", *shlex.split(given.run)], lines))

    text = reports.text_of(given.a)
    left = report_of(given.a, text)
    right = report_of(given.b, reports.text_of(given.b)) if given.b else report_of(given.a, text, given.members)
    # (where something was played, there is a program to ask)
    statuses = parting_statuses(left, right, plays.program_at(given.program)) if given.was_played else []
    print(*table(left, right), "", *shown_specs(left, right), *statuses, *parting(left, right), sep="\n")


if __name__ == "__main__":
    reports.run("compare.py", main)
