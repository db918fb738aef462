#!/usr/bin/env python3
"""replay.py [REPORT] [--until N]: a report as a script whose play on one thread is the same history.

Each line of a report becomes a command, also what came of itself, so that the play has the same events one by one: a run on
threads, which comes out otherwise each time, can be played again, changed, and cut behind event N. The report of the play is
the one that was given, but for the lanes of what came of itself, and a last `full`. REPORT is standard input if left out.
Standard error says which options the play needs, and what of them the report does not tell.
"""
import argparse
import datetime
import json
import sys

sys.dont_write_bytecode = True
import reports

LAST_MOMENT = "9999-12-31T23:59:59Z"
# What stands where an option is not given.
PLAIN = {"controllers": 1, "workers": 1, "window": 1000, "events": 200000, "start": "2024-01-01T00:00:00Z"}
# The acts that name a controller, and those that name a worker behind it.
OF_A_CONTROLLER = ("list", "deliver", "begin", "step", "restart", "fault")
OF_A_WORKER = ("begin", "step", "fault")


def key_members(key):
    """Returns how a command names a Job."""
    namespace, _, name = key.partition("/")
    return {"name": name} if namespace == "default" else {"name": name, "namespace": namespace}


def manifest(key, spec):
    """Returns the manifest of a Job from its key and its specification as a report has it."""
    template = spec["template"]
    containers = {kind: [{"name": name} for name in template[kind]] for kind in ("containers", "initContainers")}
    spec = {**spec, "template": {"spec": {"restartPolicy": template["restartPolicy"], **containers}}}
    return {"apiVersion": "batch/v1", "kind": "Job", "metadata": key_members(key), "spec": spec}


def phase_members(change):
    """Returns the members of a command `phase` from the CHANGE of a report's line."""
    members = {"phase": change["phase"], "conditions": change["conditions"]}
    for member, of_a_container in (("exitCodes", "exitCode"), ("restartCounts", "restartCount")):
        members[member] = {it["name"]: it[of_a_container] for it in change["containers"] if of_a_container in it}
    return members


def seat_members(event):
    """Returns the controller and the worker of a command, where they are not 0."""
    words = event.words
    members = {"controller": int(words[1])} if words[1] != "0" else {}
    if event.verb in OF_A_WORKER and words[2] != "0":
        members["worker"] = int(words[2])
    return members


def store_members(event):
    """Returns the members of a command on the store, the node or the clock, without its name."""
    verb, words = event.verb, event.words
    if verb == "create":
        return {"job": manifest(words[1], event.value)}
    if verb == "update":
        version = {} if words[2] == "any" else {"version": int(words[2][1:])}
        return {**key_members(words[1]), **version, "spec": event.value}
    if verb == "delete":
        return key_members(words[1])
    if verb == "fate":
        return {**key_members(words[1]), "ends": event.value}
    if verb in ("mark", "strip"):
        return {"pod": int(words[1])}
    if verb == "finish":
        return {"pod": int(words[1]), "exit": int(words[2])}
    if verb == "report":
        return {"pod": int(words[1]), **phase_members(event.value)}
    if verb == "clock":
        return {"add": int(words[1])}
    if verb in ("node", "settled"):
        return {}
    raise reports.Refused(f"this is no report: there is no act {verb} (line {event.number})")


def command(event):
    """Returns the command whose play is this event."""
    lane = {"lane": event.lane} if event.lane else {}
    do = {"report": "phase", "settled": "settle"}.get(event.verb, event.verb)
    if event.verb not in OF_A_CONTROLLER:
        return {"do": do, **lane, **store_members(event)}
    kind = {"list": 2, "deliver": 2, "fault": 3}.get(event.verb)
    return {"do": do, **lane, **seat_members(event), **({"kind": event.words[kind]} if kind else {})}


def line_of(event):
    """Returns the line of a script whose play is this event."""
    try:
        return json.dumps(command(event), separators=(",", ":"), ensure_ascii=False)
    except (KeyError, IndexError, ValueError, TypeError, AttributeError):
        raise reports.Refused(f"this is no report: line {event.number} is {reports.shortened(event.line)!r}") from None


def script_of(lines):
    """Returns the lines of the script whose play on one thread is the history of these lines of a report."""
    return [line_of(event) for event in reports.read_lines(lines).events]


def added(moment, seconds):
    """Returns the moment so many seconds after another, or before it."""
    at = datetime.datetime.fromisoformat(moment.removesuffix("Z"))
    return (at + datetime.timedelta(seconds=seconds)).isoformat() + "Z"


def start_of(report):
    """Returns the moment at which the play began as far as the report tells it, and else None."""
    for event in report.events:
        if event.verb == "clock" and event.said[0] == "now":
            return added(event.said[1], -int(event.words[1]))
    for job in report.jobs.values():
        for moment in [job.status.get("startTime"), *(it["lastTransitionTime"] for it in job.status.get("conditions", []))]:
            if moment:
                return moment
    # (a clock that may not move stands close to the end)
    return LAST_MOMENT if any(event.said[0] == "clock-end" for event in report.events) else None


def windows_of(report):
    """Returns the window if the report tells it, and the least that will do: a cache was told what was so far behind."""
    caches, least = {}, 1
    for event, length in zip(report.events, reports.lengths(report.events)):
        if event.verb not in ("list", "deliver"):
            continue
        cache, answer = tuple(event.words[1:]), event.said[0]
        if answer == "expired":
            return length - int(event.said[1][1:]), 1
        if answer == "entry":
            least = max(least, length - caches.get(cache, length))
        if answer in ("entry", "listed"):
            caches[cache] = int(event.said[1][1:])
    return None, least


def told_of(report):
    """Returns what the report tells of each option, None where it tells nothing; of the window, what will do."""
    seats = [event.words for event in report.events if event.verb in OF_A_CONTROLLER]
    workers = [int(words[2]) for words in seats if words[0] in OF_A_WORKER]
    with reports.going_together():
        start, (window, least) = start_of(report), windows_of(report)
    return {
        "controllers": max([1, *(int(words[1]) + 1 for words in seats)]),
        "workers": max([1, *(worker + 1 for worker in workers)]),
        "window": window if window or least <= PLAIN["window"] else least,
        "events": len(report.events) if report.is_full else None,
        "start": start,
    }


def options_of_report(report):
    told = told_of(report)
    return [it for name, value in told.items() if value not in (None, PLAIN[name]) for it in (f"--{name}", str(value))]


def options_of(lines):
    """Returns the options that the play of a report's script needs, as words for the program; none where the plain ones do.

    What a report does not tell: a window of which it has no `expired` (then one is taken in which all comes out the same),
    controllers and workers that did nothing, how many events there was room for where it does not end in `full`, and the
    first moment where neither the clock moved nor a status has a moment.
    """
    return options_of_report(reports.read_lines(lines))


def tell(report):
    """Says on standard error which options the play needs, and what is not told."""
    told = told_of(report)
    words = " ".join(options_of_report(report))
    print(f"replay.py: play it by: run {words}".rstrip(), file=sys.stderr)
    unknown = [name for name, value in told.items() if value is None]
    if unknown:
        print(f"replay.py: not told by the report, and of no account for its play: {', '.join(unknown)}", file=sys.stderr)


def report_until(text, until):
    """Returns the report of a text; of one that is spoilt behind the event where it is to be cut, what stands before."""
    try:
        return reports.read(text)
    except reports.Refused:
        if until is None:
            raise
        return reports.read_lines(text.split("\n")[: max(until, 0)])


def main():
    words = argparse.ArgumentParser(description=__doc__, formatter_class=argparse.RawDescriptionHelpFormatter)
    words.add_argument("report", nargs="?", metavar="REPORT")
    words.add_argument("--until", type=int, metavar="N", help="cut behind event N")
    given = words.parse_args()
    report = report_until(reports.text_of(given.report), given.until)
    for event in report.events if given.until is None else report.until(max(given.until, 0)):
        print(line_of(event))
    tell(report)


if __name__ == "__main__":
    reports.run("replay.py", main)
