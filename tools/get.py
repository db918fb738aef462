#!/usr/bin/env python3
"""get.py KINDS [REPORT] [--at N] [-A | -n NAMESPACE] [-w] [-o json]: what a report holds, as kubectl prints it.

  get.py jobs,pods my.report              Jobs and pods at the end, as `kubectl get jobs,pods`
  get.py jobs my.report --at 18           behind event 18
  get.py pods my.report -w                one row for each change, with the event that brought it
  get.py jobs my.report -o json           a List with the exact statuses
  get.py events my.report                 the events as JSON, one a line, for jq
KINDS is jobs, pods, `jobs,pods` or events. REPORT is standard input if left out. The front of the report is played again by
the program, so this needs one, except for events. Ages are those of the cluster's clock. A pod has the name of its Job,
its index where it has one, and its UID. Status 1 says that there is no such report or program.
"""
import argparse
import datetime
import json
import sys

sys.dont_write_bytecode = True
import plays
import reports

HEADS = {"jobs": ("NAME", "STATUS", "COMPLETIONS", "DURATION", "AGE"), "pods": ("NAME", "READY", "STATUS", "RESTARTS", "AGE")}
PREFIXES = {"jobs": "job.batch/", "pods": "pod/"}
ENDED = {"Succeeded": "Completed", "Failed": "Error"}
# The conditions of a Job that kubectl shows as its status: the first of these that is true.
SHOWN = ("Complete", "Failed", "Suspended", "FailureTarget", "SuccessCriteriaMet")


def seconds_between(earlier, later):
    at = [datetime.datetime.fromisoformat(it.removesuffix("Z")) for it in (earlier, later)]
    return int((at[1] - at[0]).total_seconds())


def with_rest(count, name, rest, rest_name):
    return f"{count}{name}{rest}{rest_name}" if rest else f"{count}{name}"


def span(seconds):
    """Returns a duration as kubectl prints one: the longer, the coarser."""
    minutes, hours, days = seconds // 60, seconds // 3600, seconds // 86400
    if seconds < 120:
        return f"{max(seconds, 0)}s"
    if minutes < 10:
        return with_rest(minutes, "m", seconds % 60, "s")
    if minutes < 180:
        return f"{minutes}m"
    if hours < 8:
        return with_rest(hours, "h", minutes % 60, "m")
    if hours < 48:
        return f"{hours}h"
    if hours < 192:
        return with_rest(days, "d", hours % 24, "h")
    if days < 730:
        return f"{days}d"
    return with_rest(days // 365, "y", days % 365 if days < 2920 else 0, "d")


def age(earlier, later):
    return span(seconds_between(earlier, later))


def true_conditions(status):
    """Returns the true conditions of a status by type, with their reasons."""
    return {it["type"]: it["reason"] for it in status.get("conditions", []) if it["status"] == "True"}


def status_of(job):
    """Returns what kubectl shows as a Job's status."""
    conditions = true_conditions(job.status)
    return next((it for it in SHOWN if it in conditions), "Running")


def completions_of(job):
    """Returns how many pods have succeeded, of how many."""
    succeeded, wanted, parallelism = job.status.get("succeeded", 0), job.spec.get("completions"), job.spec["parallelism"]
    if wanted is not None:
        return f"{succeeded}/{wanted}"
    return f"{succeeded}/1" + (f" of {parallelism}" if parallelism > 1 else "")


def job_row(job, moment):
    """Returns the cells of a Job behind its name."""
    start = job.status.get("startTime")
    duration = age(start, job.status.get("completionTime", moment)) if start else ""
    return (status_of(job), completions_of(job), duration, age(job.born, moment))


def pod_row(pod, moment):
    """Returns the cells of a pod behind its name."""
    count = len(pod.containers)
    status = ENDED.get(pod.phase) or ("Terminating" if pod.is_marked else pod.phase)
    restarts = f"{pod.restarts} ({age(pod.last_restart, moment)} ago)" if pod.restarts else "0"
    return (f"{count if pod.is_ready else 0}/{count}", status, restarts, age(pod.born, moment))


def rows(state, kind, namespace):
    """Returns the rows of a kind, of all namespaces where none is given: the namespace, the name and the cells."""
    items = state.jobs if kind == "jobs" else state.pods
    found = []
    for item in sorted(items, key=lambda it: (it.key, it.uid)):
        own, _, name = item.key.partition("/")
        cells = job_row(item, state.moment) if kind == "jobs" else pod_row(item, state.moment)
        if namespace in (None, own):
            found.append((own, name if kind == "jobs" else item.name, *cells))
    return found


def table(rows):
    """Returns the lines of a table: each column but the last is three wider than its widest cell, and at least six."""
    widths = [max(6, *(len(row[place]) + 3 for row in rows)) for place in range(len(rows[0]))]
    return ["".join(cell.ljust(width) for cell, width in zip(row[:-1], widths)) + row[-1] for row in rows]


def head(kind, has_namespace):
    return (("NAMESPACE",) if has_namespace else ()) + HEADS[kind]


def shown(row, kind, kinds, has_namespace):
    """Returns a row as it is shown: with the namespace where all are shown, and with the kind where there are several."""
    name = (PREFIXES[kind] if len(kinds) > 1 else "") + row[1]
    return ((row[0],) if has_namespace else ()) + (name, *row[2:])


def tables(state, kinds, namespace):
    """Returns the lines of all tables, with an empty line between."""
    lines = []
    for kind in kinds:
        found = [shown(row, kind, kinds, namespace is None) for row in rows(state, kind, namespace)]
        if found:
            lines += [""] * bool(lines) + table([head(kind, namespace is None), *found])
    return lines


def stable(row, kind):
    """Returns the cells of a row that tell of a change: that time has passed is none."""
    restarts = row[4].partition(" ")[0] if kind == "pods" else ""
    return (*row[:4], restarts)


def changes(states, kinds, namespace):
    """Returns the lines of a table with a row for each change: what is there now otherwise than before, or is gone."""
    lines = []
    for kind in kinds:
        found, before = [], {}
        for state in states:
            now = {row[:2]: row for row in rows(state, kind, namespace)}
            changed = [row for at, row in now.items() if at not in before or stable(before[at], kind) != stable(row, kind)]
            gone = [(*at, *("" for _ in HEADS[kind][1:-1]), "gone") for at in before if at not in now]
            found += [(str(state.number), *shown(row, kind, kinds, namespace is None)) for row in changed + gone]
            before = now
        if found:
            lines += [""] * bool(lines) + table([("EVENT", *head(kind, namespace is None)), *found])
    return lines


def uuid(uid):
    return f"00000000-0000-0000-0000-{uid:012x}"


def job_object(job):
    """Returns a Job as an object. Its status is exactly what the store has."""
    namespace, _, name = job.key.partition("/")
    metadata = {"name": name, "namespace": namespace, "uid": uuid(job.uid), "resourceVersion": str(job.version)}
    metadata["creationTimestamp"] = job.born
    return {"apiVersion": "batch/v1", "kind": "Job", "metadata": metadata, "spec": job.spec, "status": job.status}


def pod_object(pod):
    """Returns a pod as an object."""
    namespace, _, name = pod.key.partition("/")
    metadata = {"name": pod.name, "namespace": namespace, "uid": uuid(pod.uid), "creationTimestamp": pod.born}
    metadata["labels"] = {"batch.kubernetes.io/job-name": name}
    metadata["annotations"] = {} if pod.index is None else {"batch.kubernetes.io/job-completion-index": str(pod.index)}
    metadata["finalizers"] = ["batch.kubernetes.io/job-tracking"] if pod.is_tracked else []
    status = {"phase": pod.phase, "ready": pod.is_ready, "restarts": pod.restarts, "markedForDeletion": pod.is_marked}
    return {"apiVersion": "v1", "kind": "Pod", "metadata": metadata, "status": status}


def listed(state, kinds, namespace):
    """Returns the List of all objects."""
    found = [(it.key, job_object(it)) for it in state.jobs if "jobs" in kinds]
    found += [(it.key, pod_object(it)) for it in state.pods if "pods" in kinds]
    items = [it for key, it in found if namespace in (None, key.partition("/")[0])]
    return {"apiVersion": "v1", "kind": "List", "items": items}


def event_object(event, births):
    """Returns an event as an object. What the line does not tell is left out."""
    birth = births.get(event.pod)
    members = {"number": event.number, "lane": event.lane, "act": event.act, "reply": event.reply, "version": event.version}
    members |= {"pod": event.pod, "index": birth.index if birth else None, "job": event.key or (birth.key if birth else None)}
    return {name: value for name, value in members.items() if value is not None or name == "lane"}


def read_words():
    words = argparse.ArgumentParser(description=__doc__, formatter_class=argparse.RawDescriptionHelpFormatter)
    words.add_argument("kinds", metavar="KINDS", choices=["jobs", "pods", "jobs,pods", "pods,jobs", "events"])
    words.add_argument("report", nargs="?", metavar="REPORT")
    words.add_argument("--at", type=int, metavar="N", help="behind event N; at the end if left out")
    words.add_argument("-A", "--all-namespaces", action="store_true")
    words.add_argument("-n", "--namespace", default="default")
    words.add_argument("-w", "--watch", action="store_true", help="one row for each change")
    words.add_argument("-o", "--output", choices=["json"])
    plays.add_program(words)
    return words.parse_args()


def main():
    given = read_words()
    report = reports.read(reports.text_of(given.report))
    at = len(report.events) if given.at is None else given.at
    if not 0 <= at <= len(report.events):
        raise reports.Refused(f"the report has no event {at}: it has {len(report.events)}")
    if given.kinds == "events":
        births = reports.births(report.events)
        print(*(json.dumps(event_object(it, births), ensure_ascii=False) for it in report.until(at)), sep="\n")
        return
    kinds, namespace = given.kinds.split(","), None if given.all_namespaces else given.namespace
    play = plays.Replayed(report, plays.program_at(given.program))
    if given.watch:
        lines = changes([play.state(it) for it in play.writes() if it <= at], kinds, namespace)
    elif given.output:
        lines = [json.dumps(listed(play.state(at), kinds, namespace), indent=4, ensure_ascii=False)]
    else:
        lines = tables(play.state(at), kinds, namespace)
    if lines:
        print(*lines, sep="\n")
    else:
        print("No resources found" + (f" in {namespace} namespace." if namespace else ""), file=sys.stderr)


if __name__ == "__main__":
    reports.run("get.py", main)
