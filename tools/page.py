#!/usr/bin/env python3
"""page.py [REPORT] -o FILE.html [--from N] [--to M]: makes a page that steps through a report, one HTML file.

The page needs nothing else, and no network. Arrow keys and a slider go through the events: beside each line of the report
stand the Jobs with their exact statuses and conditions, the pods, and of each controller its caches, its queue and what its
syncs have asked. REPORT is standard input if left out, FILE standard output. What stands there is asked of the program at
each event (plays.py), so this needs one. --from and --to take these events alone; at most 2,000 go on one page. Status 1
says that there is no such report or program.
"""
import argparse
import json
import os
import sys

sys.dont_write_bytecode = True
import explain
import get
import plays
import reports

MOST_EVENTS = 2000
TEMPLATE = os.path.join(os.path.dirname(os.path.abspath(__file__)), "page.html")
PLACE = "/*DATA*/"


def history(found):
    """Returns, of (event, value) pairs, those at which the value is another than before."""
    kept = []
    for number, value in found:
        if not kept or kept[-1][1] != value:
            kept.append([number, value])
    return kept


def job_value(job):
    return {"version": job.version, "status": job.status, "spec": job.spec, "shown": get.status_of(job)}


def pod_value(pod):
    return {"phase": pod.phase, "ready": pod.is_ready, "marked": pod.is_marked, "tracked": pod.is_tracked, "restarts": pod.restarts}


def objects(states, births, kind):
    """Returns the Jobs or the pods that were there, each with its history; its value is null where it is gone."""
    found = []
    values = {state.number: {it.uid: it for it in (state.jobs if kind == "job" else state.pods)} for state in states}
    for uid in sorted({uid for there in values.values() for uid in there}):
        birth, value = births[uid], job_value if kind == "job" else pod_value
        own = [(number, value(there[uid]) if uid in there else None) for number, there in values.items()]
        while own and own[0][1] is None:
            own.pop(0)
        found.append({"uid": uid, "key": birth.key, "index": birth.index, "history": history(own)})
    return found


def controllers(play, states):
    """Returns the controllers, each with the histories of its caches and of its queue, and its workers."""
    caches = reports.caches(play.events)
    found = []
    for number in range(play.controllers):
        own = [(state.number, caches[state.number].get(number, {"jobs": None, "pods": None})) for state in states]
        queue = [(state.number, state.queues.get(number)) for state in states]
        found.append({"number": number, "caches": history(own), "queue": history(queue), "workers": list(range(play.workers))})
    return found


def meanings(events):
    """Returns what the lines say, each text once, and for each line which text is its own."""
    texts, means = {}, []
    for event in events:
        lines = explain.told(event.line.split(" "))
        text = "\n".join(lines)
        means.append(texts.setdefault(text, len(texts)))
    return list(texts), means


def data_of(play, first, last, title, tail):
    """Returns all that the page shows, of the events from the first to the last."""
    states = [play.state(number) for number in range(first - 1, last + 1)]
    shown = play.events[first - 1 : last]
    texts, means = meanings(shown)
    lengths = reports.lengths(play.events)
    return {
        "title": title,
        "first": first,
        "total": len(play.events),
        "lines": [event.line for event in shown],
        "wrote": [int(lengths[event.number] > lengths[event.number - 1]) for event in shown],
        "refused": [int(reports.is_refusal(event)) for event in shown],
        "texts": texts,
        "means": means,
        "moments": history((it.number, it.moment) for it in states),
        "lengths": history((it.number, lengths[it.number]) for it in states),
        "jobs": objects(states, play.births, "job"),
        "pods": objects(states, play.births, "pod"),
        "controllers": controllers(play, states),
        "syncs": [it for it in reports.syncs(play.events) if it["begin"] <= last and (it["end"] is None or it["end"] >= first)],
        "tail": tail,
    }


def page(data):
    """Returns the page. What would end its element is written as an escape."""
    text = json.dumps(data, separators=(",", ":"), ensure_ascii=False).replace("<", "\\u003c")
    with open(TEMPLATE, encoding="utf-8") as it:
        return it.read().replace(PLACE, text.replace("\u2028", "\\u2028"))


def main():
    words = argparse.ArgumentParser(description=__doc__, formatter_class=argparse.RawDescriptionHelpFormatter)
    words.add_argument("report", nargs="?", metavar="REPORT")
    words.add_argument("-o", dest="file", metavar="FILE.html")
    words.add_argument("--from", dest="first", type=int, default=1, metavar="N")
    words.add_argument("--to", dest="last", type=int, metavar="M")
    plays.add_program(words)
    given = words.parse_args()
    text = reports.text_of(given.report)
    report = reports.read(text)
    count = len(report.events)
    last = count if given.last is None else given.last
    if not 1 <= given.first <= last <= count:
        raise reports.Refused(f"there are no events {given.first} to {last} in this report: it has {count}")
    if last - given.first >= MOST_EVENTS:
        raise reports.Refused(f"{last - given.first + 1} events are too many for a page: give --from and --to, of {MOST_EVENTS} events at most")
    play = plays.Replayed(report, plays.program_at(given.program))
    tail = [line for line in text.split("\n") if line and not line[0].isdigit()]
    title = os.path.basename(given.report) if given.report not in (None, "-") else "a report"
    reports.write(given.file, page(data_of(play, given.first, last, title, tail)))


if __name__ == "__main__":
    reports.run("page.py", main)
