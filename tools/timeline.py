#!/usr/bin/env python3
"""timeline.py [REPORT] [-o FILE] [--from N] [--to M] [--job KEY] [--pod UID,..] [--fold]: makes a picture of a report, as one SVG file.

Events go downwards. There is a column for the script; for each controller one for its caches, and one for each worker
with a bar for each sync; for the store with its versions; for each Job with its status as it changes; and for each pod,
with a bar from its creation over its end to the taking of its finalizer. Each line of the report shows where the mouse
rests. REPORT is standard input if left out, FILE standard output; --from and --to draw these events alone, --job and --pod
what is about these Jobs and pods. Folded, all Jobs share a column, and so do pods that come one after the other.

A report prints each Job's last status, and not those between. Where a program is there (--program, JOBCTL, or the one that
is built) they are asked of it, and the picture has their conditions with the reasons. Without one, or with --no-exact, they
are worked out by the rule of the ledger (a write of the status judges each pod of its Job that its sync saw ended and with
its finalizer), without conditions; standard error says so if that does not come to what the report's last lines say.
"""
import argparse
import bisect
import os
import re
import sys
from xml.sax.saxutils import escape

sys.dont_write_bytecode = True
import plays
import reports

ROW, TOP, SMALL = 17, 50, 5
COLOURS = {"Pending": "#c3ccd4", "Running": "#5aa2dc", "Succeeded": "#3d9950", "Failed": "#cf4a41"}
# How many UIDs the two lists of a status hold together.
MOST_LISTED = 500
# With more of them the columns are folded.
MOST_JOBS, MOST_PODS = 4, 24
FIXED = ("SuccessCriteriaMet", "FailureTarget")
# What a command is answered that changed nothing; those of a begin stand in its worker's column.
REFUSALS = "exists not-found not-tracked unchanged conflict immutable invalid final bad-step no-container idle clock-end".split()


class Pod:
    """What a report tells of a pod. Its states are (version, phase, exit codes, conditions, marked, tracked)."""

    def __init__(self, uid, owner, index, row, version, serial):
        self.uid, self.owner, self.index, self.serial = uid, owner, index, serial
        self.codes, self.conditions, self.marked, self.tracked, self.phase = {}, {}, False, True, "Pending"
        self.states, self.bars, self.marks, self.freed = [], [[row, "Pending"]], [], None
        self.keep(version)

    def keep(self, version):
        self.states.append((version, self.phase, dict(self.codes), dict(self.conditions), self.marked, self.tracked))

    def at(self, version):
        found = None
        for state in self.states:
            found = state if state[0] <= version else found
        return found


class Job:
    """What a report tells of a Job. Its lines are (row, version, text)."""

    def __init__(self, uid, key, spec, row, version):
        self.uid, self.key, self.spec, self.row, self.version = uid, key, spec, row, version
        self.judged, self.lines, self.last, self.gone, self.made = {}, [], None, None, 0
        # (the conditions that were shown last)
        self.shown = []
        self.done, self.completions = set(), [(version, spec.get("completions"))]
        self.lines.append((row, version, "created"))

    def is_indexed(self):
        return self.spec.get("completionMode") == "Indexed"


class Sync:
    """A sync under way."""

    def __init__(self, key, jobs_at, pods_at, row):
        self.key, self.jobs_at, self.pods_at, self.row = key, jobs_at, pods_at, row
        self.steps, self.end, self.created, self.stopped, self.freed = [], None, 0, set(), set()


def is_ignored(job, state):
    """Returns whether the first rule of the Job's failure policy that matches the failed pod is Ignore."""
    _, _, codes, conditions, _, _ = state
    for rule in (job.spec.get("podFailurePolicy") or {}).get("rules", []):
        asked = rule.get("onExitCodes")
        if asked:
            looked_at = [code for name, code in codes.items() if code and asked.get("containerName") in (None, name)]
            matches = any((code in asked["values"]) == (asked["operator"] == "In") for code in looked_at)
        else:
            matches = any(conditions.get(it["type"]) == it["status"] for it in rule.get("onPodConditions", []))
        if matches:
            return rule["action"] == "Ignore"
    return False


def outcome(job, state):
    """Returns Succeeded, Failed, Ignored or Alive: what the pod in this state has come to."""
    _, phase, _, _, marked, _ = state
    if phase == "Succeeded":
        return phase
    if phase == "Failed" or marked and job.spec["podReplacementPolicy"] == "TerminatingOrFailed":
        return "Ignored" if is_ignored(job, state) else "Failed"
    return "Alive"


def exact_text(status):
    """Returns what a status says, as the line of a Job."""
    uncounted = status.get("uncountedTerminatedPods", {})
    listed = sorted(int(it[-12:], 16) for uids in uncounted.values() for it in uids)
    counts = {"active": "active", "ready": "ready", "terminating": "ending"}
    parts = [f"{shown} {status[name]}" for name, shown in counts.items() if status.get(name)]
    parts += [f"listed {','.join(map(str, listed))}"] if listed else []
    parts += [f"{name} {status[name]}" for name in ("succeeded", "failed") if status.get(name)]
    return ", ".join(parts) or "no pods"


def step_text(request, answer):
    """Returns what a sync asked and was answered, without the version, which the store's column has."""
    if answer[0] == "created":
        return f"create-pod{'' if request[1] == '-' else ' ' + request[1]}: pod {answer[1]}"
    plain = answer[0] in ("written", "released")
    return " ".join(request) + ("" if plain else ": " + " ".join(answer))


class Story:
    """A report, read event by event. Where exact statuses are given, by the number of the event that wrote them and by key, the
    lines of the Jobs are theirs; else they are worked out."""

    def __init__(self, report, exact=None):
        self.report, self.exact = report, exact or {}
        self.rows, self.jobs, self.pods, self.fates = [], [], {}, {}
        self.caches, self.lanes, self.syncs, self.length = {}, {}, {}, 0
        self.unheard, self.versions_of_caches = reports.lost(report.events), reports.caches(report.events)
        self.births = {birth.number: birth for birth in reports.births(report.events).values()}
        with reports.going_together():
            for event in report.events:
                self.event(event)
            self.end()

    def row(self, event, kind, text):
        """Adds a row; neighbouring events of caches share one."""
        if kind == "cache" and self.rows and self.rows[-1]["kind"] == "cache":
            self.rows[-1]["lines"].append(event.line)
            self.rows[-1]["last"] = event.number
        else:
            row = {"kind": kind, "text": text, "lines": [event.line], "first": event.number, "last": event.number}
            self.rows.append({**row, "wrote": None, "keys": set(), "pods": set()})
        return len(self.rows) - 1

    def about(self, row, key=None, pod=None):
        """Notes which Job and which pod a row is about."""
        self.rows[row]["keys"] |= {key} if key else set()
        self.rows[row]["pods"] |= {pod} if pod else set()

    def wrote(self, version, what):
        """Notes that the store has a version more; versions that no line names were written without an answer."""
        self.length = max(self.length, version)
        self.rows[-1]["wrote"] = (version, what)

    def job_of(self, key):
        return next((it for it in reversed(self.jobs) if it.key == key and it.gone is None), None)

    def job_at(self, key, version):
        return next((it for it in reversed(self.jobs) if it.key == key and it.version <= version), None)

    def event(self, event):
        verb, said = event.verb, event.said
        shown = event.act if said[0] not in REFUSALS else f"{event.act if len(event.act) < 18 else verb}: {event.reply}"
        row = self.row(event, "cache" if verb in ("list", "deliver") else verb, shown if event.lane is not None else "")
        version = int(said[-1][1:]) if re.fullmatch(r"v[0-9]+", said[-1]) else None
        sync = self.syncs.get(event.seat) if verb == "step" else None
        pod = self.pods.get(event.pod)
        self.about(row, event.key or (sync.key if sync else pod.owner.key if pod else None), event.pod)
        if verb in ("list", "deliver", "restart") or event.request[1][:1] == ["unavailable"]:
            controller = int(event.words[1])
            self.caches.setdefault(controller, {})[row] = self.versions_of_caches[event.number][controller]
        getattr(self, "on_" + verb, lambda *given: None)(row, event, version)

    def on_list(self, row, event, version):
        if event.said[0] == "listed":
            self.length = max(self.length, version)

    def on_restart(self, row, event, version):
        for controller, worker in list(self.syncs):
            if controller == int(event.words[1]):
                self.close(controller, worker, row, "restart")

    def on_create(self, row, event, version):
        if event.said[0] == "created":
            self.jobs.append(Job(int(event.said[1]), event.key, event.value, row, version))
            self.wrote(version, f"Job {event.key}")

    def on_update(self, row, event, version):
        job = self.job_of(event.key)
        if event.said[0] == "written" and job:
            job.spec = {**job.spec, **event.value}
            job.completions.append((version, job.spec.get("completions")))
            job.lines.append((row, version, "spec updated"))
            self.wrote(version, f"Job {event.key}")

    def on_delete(self, row, event, version):
        job = self.job_of(event.key)
        if event.said[0] == "removed" and job:
            job.lines.append((row, version, "deleted"))
            self.wrote(version, f"Job {event.key} gone")
            job.gone = row

    def on_fate(self, row, event, version):
        self.fates[event.key] = event.value

    def on_clock(self, row, event, version):
        self.rows[-1]["moment"] = event.said[-1] if event.said[0] == "now" else None

    def containers(self, pod):
        template = pod.owner.spec["template"]
        return template["containers"], template["initContainers"]

    def finishes(self, pod, code):
        own, inits = self.containers(pod)
        pod.codes.update({name: 0 for name in [*own, *inits]})
        pod.codes[own[0]] = code

    def change(self, row, pod, version, phase=None):
        """The pod was written: in this phase, if one is given."""
        if phase and phase != pod.phase:
            pod.phase = phase
            pod.bars.append([row, phase])
        pod.keep(version)
        self.wrote(version, f"pod {pod.uid} {phase or ''}".strip())

    def on_mark(self, row, event, version):
        if event.said[0] == "written" and event.pod in self.pods:
            self.mark(row, self.pods[event.pod], version)

    def mark(self, row, pod, version):
        pod.marked = True
        pod.marks.append(row)
        self.change(row, pod, version)

    def on_strip(self, row, event, version):
        if event.said[0] == "released" and event.pod in self.pods:
            self.free(row, self.pods[event.pod], version)

    def free(self, row, pod, version):
        pod.tracked, pod.freed = False, row
        self.change(row, pod, version)

    def on_finish(self, row, event, version):
        pod, code = self.pods.get(event.pod), int(event.words[2])
        if event.said[0] == "written" and pod:
            self.finishes(pod, code)
            self.change(row, pod, version, "Failed" if code else "Succeeded")

    def on_report(self, row, event, version):
        pod = self.pods.get(event.pod)
        if event.said[0] == "written" and pod:
            told = event.value
            pod.codes.update({it["name"]: it["exitCode"] for it in told["containers"] if "exitCode" in it})
            pod.conditions.update({it["type"]: it["status"] for it in told["conditions"]})
            self.change(row, pod, version, told["phase"])

    def on_node(self, row, event, version):
        pod = self.pods.get(event.pod)
        if not pod:
            return
        said = event.said
        phase = said[2]
        if phase == "Failed" and pod.marked:
            own, _ = self.containers(pod)
            if pod.phase == "Running":
                pod.codes.update({name: 143 for name in own if name not in pod.codes})
        elif phase != "Running":
            ends = self.fates.get(pod.owner.key, [])
            end = ends[min(pod.serial, len(ends) - 1)] if ends else {"exitCode": 0}
            self.finishes(pod, end["exitCode"])
            if "condition" in end:
                pod.conditions[end["condition"]] = "True"
        elif pod.phase == "Pending":
            pod.conditions["Ready"] = "True"
        self.change(row, pod, version, phase)

    def on_begin(self, row, event, version):
        lane, said = self.lanes.setdefault(event.seat, []), event.said
        if said[0] == "begun":
            self.syncs[event.seat] = Sync(said[1], int(said[3][1:]), int(said[5][1:]), row)
            lane.append(self.syncs[event.seat])
        else:
            lane.append((row, " ".join(said)))

    def close(self, controller, worker, row, why):
        sync = self.syncs.pop((controller, worker), None)
        if sync:
            sync.end = row
            sync.steps.append((row, why))

    def on_step(self, row, event, version):
        sync, (request, answer) = self.syncs.get(event.seat), event.request
        if not sync or not request:
            self.close(*event.seat, row, event.said[0])
            return
        sync.steps.append((row, step_text(request, answer)))
        self.request(row, sync, event, self.length + 1 if event.number in self.unheard else version)
        if answer[0] == "unavailable":
            self.close(*event.seat, row, f"{request[0]}: no answer, ends")
        elif request[0] == "status" and answer[0] != "written":
            self.close(*event.seat, row, f"status: {answer[0]}, ends")

    def request(self, row, sync, event, version):
        """What a request of a sync wrote, if it wrote anything. A lost answer is taken for that of a request that was accepted."""
        (verb, *_), answer = event.request
        accepted = answer[0] in ("created", "written", "released", "unavailable") and version
        pod = self.pods.get(event.pod) if verb != "create-pod" else None
        if verb == "create-pod" and accepted:
            job, birth = self.job_at(sync.key, sync.jobs_at), self.births[event.number]
            self.pods[birth.uid] = Pod(birth.uid, job, birth.index, row, version, job.made)
            self.about(row, pod=birth.uid)
            job.made += 1
            sync.created += 1
            self.wrote(version, f"pod {birth.uid}")
        elif verb == "mark" and accepted and pod:
            self.mark(row, pod, version)
            sync.stopped.add(pod.uid)
        elif verb == "let-go" and accepted and pod:
            sync.stopped.add(pod.uid)
            self.free(row, pod, version)
        elif verb == "release":
            sync.freed.add(event.pod)
            if accepted and pod:
                self.free(row, pod, version)
        elif verb == "status" and accepted:
            self.status(row, sync, version)
            self.show_exact(event.number, sync.key)

    def show_exact(self, number, key):
        """Puts the exact status in the place of what was worked out, with the conditions that came with it."""
        job, status = self.job_of(key), self.exact.get(number, {}).get(key)
        if job and status is not None:
            known, job.shown = job.shown, status.get("conditions", [])
            came = [f"{it['type']}{'' if it['status'] == 'True' else ' no more'} ({it['reason']})" for it in job.shown if it not in known]
            row, version, _ = job.lines[-1]
            job.lines[-1] = (row, version, ": ".join([exact_text(status), *([", ".join(came)] if came else [])]))

    def status(self, row, sync, version):
        """A write of a Job's status: the pods that it judges, and what the status says of them."""
        job = self.job_at(sync.key, sync.jobs_at)
        seen = {uid: pod.at(sync.pods_at) for uid, pod in self.pods.items() if pod.owner is job and pod.at(sync.pods_at)}
        kinds = ("Failed",) if job.is_indexed() else ("Succeeded", "Failed")
        # (those that join a list, as many as it has room for; the others all)
        room = MOST_LISTED - sum(state[5] and job.judged.get(uid) in kinds for uid, state in seen.items())
        for uid, state in sorted(seen.items()):
            kind = outcome(job, state)
            if state[5] and uid not in job.judged and kind in ("Succeeded", "Failed") and (kind not in kinds or room > 0):
                job.judged[uid] = kind
                room -= kind in kinds
        if job.is_indexed():
            below = [number for version_of, number in job.completions if version_of <= sync.jobs_at][-1]
            done = {self.pods[uid].index for uid, state in seen.items() if state[5] and state[1] == "Succeeded" and job.judged.get(uid) != "Failed"}
            job.done = {it for it in job.done | done if it < below}
        listed = [uid for uid, kind in sorted(job.judged.items()) if kind in kinds and uid in seen and seen[uid][5] and uid not in sync.freed]
        active = sum(state[1] in ("Pending", "Running") and not state[4] and uid not in sync.stopped for uid, state in seen.items())
        is_open = [(uid, state) for uid, state in seen.items() if state[1] in ("Pending", "Running")]
        ending = sum(state[4] or uid in sync.stopped for uid, state in is_open)
        is_ready = sum(state[3].get("Ready") == "True" and not state[4] and uid not in sync.stopped for uid, state in is_open)
        parts = [f"active {active + sync.created}"] if active + sync.created else []
        parts += [f"ready {is_ready}"] if is_ready else []
        parts += [f"ending {ending}"] if ending else []
        parts += [f"listed {','.join(map(str, listed))}"] if listed else []
        for kind in ("Succeeded", "Failed"):
            total = sum(it == kind for uid, it in job.judged.items() if uid not in listed)
            if kind == "Succeeded" and job.is_indexed():
                total = len(job.done)
            parts += [f"{kind.lower()} {total}"] if total else []
        job.lines.append((row, version, ", ".join(parts) or "no pods"))
        self.wrote(version, f"status of {job.key}")

    def end(self):
        """Reads the last lines, and holds the pods that were judged to them."""
        self.doubts = []
        for key, line in self.report.jobs.items():
            job = self.job_of(key)
            if job:
                job.last = line.status
                found = [sum(it == kind for it in job.judged.values()) for kind in ("Succeeded", "Failed")]
                told = [int(it) for it in re.findall(r"(?:succeeded|failed) ([0-9]+)", line.verdicts)]
                if told and found != told and not self.exact:
                    self.doubts.append(f"{job.key}: the counts between could not be worked out from this report")


def shown_key(job):
    return job.key.removeprefix("default/")


class Picture:
    """The picture of a story, as SVG: of the events from the first to the last, of these Jobs and pods where some are named, and and with
    folded columns where that is asked for, or where it is not said and there are many."""

    def __init__(self, story, first, last, jobs=(), pods=(), folds=None):
        self.story, self.parts = story, []
        self.pods = {uid: pod for uid, pod in story.pods.items() if not pods and (not jobs or pod.owner.key in jobs) or uid in pods}
        owners = {id(pod.owner) for pod in self.pods.values()} if pods else set()
        self.jobs = [job for job in story.jobs if not (jobs or pods) or job.key in jobs or id(job) in owners]
        self.rows = [number for number, row in enumerate(story.rows) if row["last"] >= first and row["first"] <= last]
        if jobs or pods:
            self.rows = [number for number in self.rows if self.is_about(story.rows[number], pods)]
        self.row_set = set(self.rows)
        self.pods = {uid: pod for uid, pod in self.pods.items() if self.span(pod.bars[0][0], self.end_of(pod))}
        self.folds = len(self.jobs) > MOST_JOBS or len(self.pods) > MOST_PODS if folds is None else folds
        self.columns()
        self.bottom = TOP + ROW * len(self.rows)
        self.draw()

    def is_about(self, row, pods):
        """Returns whether a row is about the Jobs and pods that are shown, or is of what befalls all."""
        if pods and row["pods"]:
            return bool(row["pods"] & set(self.pods))
        return bool(row["keys"] & {job.key for job in self.jobs}) or row["kind"] in ("clock", "restart", "fault")

    def columns(self):
        """Gives each column its place."""
        story, at = self.story, 44
        self.script, at = at, at + 196
        self.heads = [(self.script, "script")]
        self.cache_x, self.lane_x = {}, {}
        for controller in sorted({*story.caches, *(it for it, _ in story.lanes)}):
            self.heads.append((at, f"controller {controller}"))
            self.cache_x[controller], at = at, at + 98
            for lane in sorted(it for it in story.lanes if it[0] == controller):
                self.lane_x[lane], at = at, at + 158
        self.heads.append((at, "store"))
        self.store, at = at, at + 148
        self.job_width = 222 + (130 if story.exact else 0)
        self.job_x, self.pod_x = {}, {}
        for job in self.jobs:
            if not self.folds or not self.job_x:
                self.heads.append((at, "Jobs" if self.folds else f"Job {shown_key(job)}"))
                start, at = at, at + self.job_width + (110 if self.folds else 0)
            self.job_x[id(job)] = start
        self.width = self.pod_columns(at) + 12

    def pod_columns(self, at):
        """Gives each pod its column, folded a column of a pod that has come to its end before; returns where the last one ends."""
        if self.folds and self.pods:
            self.heads.append((at + 4, "pods"))
        ends, width = [], 38 if self.folds else 48
        for uid, pod in self.pods.items():
            begin = pod.bars[0][0]
            free = next((place for place, end in enumerate(ends) if end < begin), len(ends)) if self.folds else len(ends)
            ends[free : free + 1] = [self.end_of(pod)]
            self.pod_x[uid] = at + 8 + width * free
        return at + width * len(ends)

    def end_of(self, pod):
        """Returns the last row at which a pod's column has something to show."""
        last, phase = pod.bars[-1]
        if pod.freed is None or phase in ("Pending", "Running"):
            return len(self.story.rows)
        return max(last, pod.freed, *pod.marks) + 1

    def y(self, row):
        return TOP + ROW * bisect.bisect_left(self.rows, row)

    def is_shown(self, row):
        return row in self.row_set

    def span(self, start, end):
        """Returns the part of the rows from start to end that is shown, as two heights, or None."""
        if not self.rows or end < self.rows[0] or start > self.rows[-1] or start > end:
            return None
        return self.y(start), self.y(end)

    def add(self, text):
        self.parts.append(text)

    def text(self, x, y, words, kind="", most=None, tip=None):
        words = words if most is None or len(words) <= most else words[: most - 1] + "…"
        tip = f"<title>{escape(tip)}</title>" if tip else ""
        self.add(f'<text x="{x}" y="{y}" class="{kind}">{escape(words)}{tip}</text>')

    def box(self, x, y, width, height, colour, more="", tip=None):
        tip = f"<title>{escape(tip)}</title>" if tip else ""
        self.add(f'<rect x="{x}" y="{y}" width="{width}" height="{height}" fill="{colour}" {more}>{tip}</rect>')

    def draw(self):
        story = self.story
        for x, name in self.heads:
            self.text(x, 22, name, "head")
        for controller, x in self.cache_x.items():
            self.text(x, 38, "jobs at", "soft")
            self.text(x + 46, 38, "pods at", "soft")
            for lane, at in self.lane_x.items():
                if lane[0] == controller:
                    self.text(at, 38, f"worker {lane[1]}", "soft")
        for pod in self.pods.values() if not self.folds else ():
            self.text(self.pod_x[pod.uid] - 4, 22, f"pod {pod.uid}", "head")
            if pod.index is not None:
                self.text(self.pod_x[pod.uid] - 4, 38, f"index {pod.index}", "soft")
        for place, number in enumerate(self.rows):
            self.event_row(place, number, story.rows[number])
        for controller, rows in story.caches.items():
            for row, at in rows.items():
                for place, it in enumerate(at.values()):
                    if self.is_shown(row):
                        told = "none" if it is None else f"v{it}"
                        self.text(self.cache_x[controller] + 46 * place, self.y(row) + 12, told, "soft")
        for lane, syncs in story.lanes.items():
            for sync in syncs:
                self.sync(self.lane_x[lane], sync)
        for job in self.jobs:
            self.job(self.job_x[id(job)], job)
        for pod in self.pods.values():
            self.pod(self.pod_x[pod.uid], pod)
        self.legend()

    def event_row(self, place, number, row):
        y = self.y(number)
        tip = "\n".join(it if len(it) < 400 else it[:400] + "…" for it in row["lines"])
        if place % 2:
            self.box(0, y, self.width, ROW, "#f5f7f9")
        self.box(0, y, self.width, ROW, "transparent", 'class="row"', tip)
        self.text(8, y + 12, str(row["first"]), "soft", tip=tip)
        text = row["text"] if row["kind"] != "cache" else ""
        text = text if not text.startswith("begin ") else text.replace("begin", "begin or sync", 1)
        self.text(self.script, y + 12, text, "", 33, tip)
        if row.get("moment"):
            self.text(self.script + (0 if not text else 100), y + 12, row["moment"], "soft", tip=tip)
        if row["wrote"]:
            version, what = row["wrote"]
            self.text(self.store, y + 12, f"v{version}", "bold")
            self.text(self.store + 34, y + 12, what, "", 20, tip)

    def sync(self, x, sync):
        if isinstance(sync, tuple):
            if self.is_shown(sync[0]):
                self.text(x + 14, self.y(sync[0]) + 12, sync[1], "soft", 26)
            return
        span = self.span(sync.row, (sync.end if sync.end is not None else len(self.story.rows) - 1) + 1)
        if span:
            tip = f"a sync of {sync.key}, begun on caches at jobs v{sync.jobs_at} and pods v{sync.pods_at}"
            self.box(x, span[0] + 3, 8, span[1] - span[0] - 6, "#8d6fb8", 'rx="3"', tip)
        if self.is_shown(sync.row):
            self.text(x + 14, self.y(sync.row) + 12, f"begins: {sync.key.removeprefix('default/')}", "", 24)
        for row, text in sync.steps:
            if self.is_shown(row) and (row, text) == [it for it in sync.steps if it[0] == row][-1]:
                self.text(x + 14, self.y(row) + 12, text, "", 25, text)

    def job(self, x, job):
        last = (job.gone if job.gone is not None else len(self.story.rows) - 1) + 1
        span = self.span(job.row, last)
        if span and not self.folds:
            self.box(x, span[0] + 3, 4, span[1] - span[0] - 6, "#b9862f", 'rx="2"', f"Job {job.key}, UID {job.uid}")
        for number, (row, version, text) in enumerate(job.lines):
            if self.is_shown(row):
                end = [it["type"] for it in (job.last or {}).get("conditions", []) if it["status"] == "True"]
                is_last = number == len(job.lines) - 1 and job.gone is None
                ended = [it for it in end if it not in FIXED] if not self.story.exact else []
                text += f": {', '.join(ended)}" if is_last and ended else ""
                text = f"{shown_key(job)}: {text}" if self.folds else text
                self.box(x, self.y(row) + 5, 8, 8, "#b9862f", 'rx="4"')
                most = (self.job_width + 110 * self.folds) // 6 - 3
                self.text(x + 13, self.y(row) + 12, text, "bold" if is_last else "", most, f"v{version}: {text}")

    def pod(self, x, pod):
        end = len(self.story.rows)
        if self.folds:
            begin = max(pod.bars[0][0], self.rows[0])
            name = f"{pod.uid}" if pod.index is None else f"{pod.uid}·{pod.index}"
            self.text(x + 17, self.y(begin) + 14, name, "soft", None, f"pod {pod.uid} of {pod.owner.key}")
        for number, (row, phase) in enumerate(pod.bars):
            until = pod.bars[number + 1][0] if number + 1 < len(pod.bars) else end
            bound = min(until, pod.freed if pod.freed is not None else end)
            tip = f"pod {pod.uid} of {pod.owner.key}: {phase}"
            span = self.span(row, bound)
            if span and bound > row:
                self.box(x, span[0] + SMALL, 14, span[1] - span[0], COLOURS[phase], "", tip + ", with its finalizer")
            if pod.freed is not None and until > pod.freed and phase in ("Pending", "Running"):
                span = self.span(max(row, pod.freed), until)
                if span:
                    self.box(x + 5, span[0] + SMALL, 4, span[1] - span[0], COLOURS[phase], "", tip + ", without its finalizer")
            if pod.freed is not None and row > pod.freed and phase in ("Succeeded", "Failed") and self.is_shown(row):
                self.box(x, self.y(row) + SMALL, 14, 7, COLOURS[phase], 'rx="2"', tip + ", without its finalizer")
        for row in pod.marks:
            if self.is_shown(row):
                self.add(f'<path d="M{x} {self.y(row) + 3} l14 10 m0 -10 l-14 10" class="mark"><title>marked for deletion</title></path>')
        if pod.freed is not None and self.is_shown(pod.freed):
            y = self.y(pod.freed) + SMALL
            self.add(f'<path d="M{x - 3} {y} h20" class="freed"><title>its finalizer is taken</title></path>')

    def legend(self):
        y, x = self.bottom + 24, 8
        for phase, colour in COLOURS.items():
            self.box(x, y - 9, 14, 10, colour)
            self.text(x + 18, y, phase, "soft")
            x += 92
        self.add(f'<path d="M{x} {y - 4} h20" class="freed"/>')
        self.text(x + 26, y, "its finalizer is taken", "soft")
        x += 152
        self.add(f'<path d="M{x} {y - 9} l14 10 m0 -10 l-14 10" class="mark"/>')
        self.text(x + 20, y, "marked for deletion", "soft")
        for number, doubt in enumerate(self.story.doubts):
            self.text(8, y + 20 + 16 * number, doubt, "bold")
        self.height = y + 16 + 18 * len(self.story.doubts)

    def svg(self):
        style = (
            "text{white-space:pre;font:11px system-ui,'DejaVu Sans',sans-serif;fill:#1c2733}.head{font-weight:600;font-size:12px}.bold{font-weight:600}"
            ".soft{fill:#6a7783}.mark{stroke:#1c2733;stroke-width:1.6;fill:none}.freed{stroke:#1c2733;stroke-width:3}"
            ".row:hover{fill:#dfe9f3}"
        )
        size = f'width="{self.width}" height="{self.height}" viewBox="0 0 {self.width} {self.height}"'
        body = "\n".join(self.parts)
        line = f'<path d="M0 46 h{self.width}" stroke="#c9d2da"/>'
        return (
            f'<svg xmlns="http://www.w3.org/2000/svg" {size}><style>{style}</style>'
            f'<rect width="100%" height="100%" fill="white"/>{line}\n{body}\n</svg>\n'
        )


def exact_statuses(report, program):
    """Returns, by the number of each event that wrote a status, the statuses of the Jobs behind it, by key."""
    play, unheard = plays.Replayed(report, program), reports.lost(report.events)
    written = [event for event in report.events if event.request[0] == ["status"] and (event.version or event.number in unheard)]
    return {event.number: play.statuses(event.number) for event in written}


def numbers_of(text):
    """Returns the UIDs of the option --pod."""
    words = text.split(",")
    if not all(it.isascii() and it.isdigit() for it in words):
        raise argparse.ArgumentTypeError(f"these are no UIDs with commas between: {text}")
    return [int(it) for it in words]


def read_words():
    words = argparse.ArgumentParser(description=__doc__, formatter_class=argparse.RawDescriptionHelpFormatter)
    words.add_argument("report", nargs="?", metavar="REPORT")
    words.add_argument("-o", dest="file", metavar="FILE")
    words.add_argument("--from", dest="first", type=int, default=1, metavar="N")
    words.add_argument("--to", dest="last", type=int, default=10**9, metavar="M")
    words.add_argument("--job", dest="jobs", action="append", default=[], metavar="KEY", help="this Job alone; may stand several times")
    words.add_argument("--pod", dest="pods", type=numbers_of, default=[], metavar="UID,UID..", help="these pods alone, with their Jobs")
    either, many = argparse.BooleanOptionalAction, f"more than {MOST_JOBS} Jobs or {MOST_PODS} pods"
    words.add_argument("--fold", action=either, help=f"fold the columns; so it is with {many}")
    words.add_argument("--exact", action=either, help="ask the program for the statuses; so it is where one is built or given")
    plays.add_program(words)
    return words.parse_args()


def main():
    given = read_words()
    report = reports.read(reports.text_of(given.report))
    if not report.events:
        raise reports.Refused("this report has no events")
    has_program = given.program or os.environ.get("JOBCTL") or os.path.exists(plays.BUILT)
    is_exact = has_program if given.exact is None else given.exact
    story = Story(report, exact_statuses(report, plays.program_at(given.program)) if is_exact else None)
    jobs = [it if "/" in it else f"default/{it}" for it in given.jobs]
    for kind, names, there in (("Job", jobs, {it.key for it in story.jobs}), ("pod", given.pods, set(story.pods))):
        for name in names:
            if name not in there:
                raise reports.Refused(f"this report has no {kind} {name}")
    for doubt in story.doubts:
        print(f"timeline.py: {doubt}", file=sys.stderr)
    reports.write(given.file, Picture(story, given.first, given.last, jobs, given.pods, given.fold).svg())


if __name__ == "__main__":
    reports.run("timeline.py", main)
