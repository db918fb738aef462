#!/usr/bin/env python3
"""Random scripts: python3 bench/random_scripts.py FOLDER COUNT SEED

Writes COUNT scripts to FOLDER, each as NUMBER.script with its words in NUMBER.args, one a line. Equal seeds give
equal scripts. They mix all commands, with one to four controllers, lagging caches, faults, restarts, narrow windows
and short histories, over Jobs of both modes with policies, limits (of each index too), deadlines and suspension, and
change the number of indexes; one in ten has a bad line."""
import json
import os
import random
import sys


def container(name="main"):
    return {"name": name}


def job(r, name):
    """The manifest of a Job."""
    spec = {"template": {"spec": {"restartPolicy": "Never", "containers": [container()]}}}
    pod = spec["template"]["spec"]
    indexed = r.random() < 0.45
    if indexed:
        spec["completionMode"] = "Indexed"
        spec["completions"] = r.choice([1, 2, 2, 3, 4, 5])
        if r.random() < 0.7:
            spec["parallelism"] = r.choice([1, 1, 2, 3, 5])
    else:
        if r.random() < 0.8:
            spec["completions"] = r.choice([0, 1, 1, 2, 3, 4])
        if r.random() < 0.7:
            spec["parallelism"] = r.choice([0, 1, 1, 2, 2, 3, 4])
    if r.random() < 0.3:
        pod["restartPolicy"] = "OnFailure"
    if r.random() < 0.3:
        pod["containers"].append(container("side"))
    if r.random() < 0.15:
        pod["initContainers"] = [container("first")]
    if r.random() < 0.5:
        spec["backoffLimit"] = r.choice([0, 1, 1, 2, 3])
    if r.random() < 0.2:
        spec["activeDeadlineSeconds"] = r.choice([0, 1, 10, 30, 100])
    if r.random() < 0.15:
        spec["suspend"] = True
    by_index = indexed and pod["restartPolicy"] == "Never" and r.random() < 0.5
    if by_index:
        spec["backoffLimitPerIndex"] = r.choice([0, 0, 1, 2])
        if r.random() < 0.4:
            spec["maxFailedIndexes"] = r.randint(0, spec["completions"])
    if pod["restartPolicy"] == "Never" and r.random() < 0.35:
        spec["podFailurePolicy"] = {"rules": [failure_rule(r, by_index) for _ in range(r.randint(1, 3))]}
    elif r.random() < 0.3:
        spec["podReplacementPolicy"] = r.choice(["Failed", "TerminatingOrFailed"])
    if indexed and r.random() < 0.3:
        spec["successPolicy"] = {"rules": [success_rule(r, spec["completions"])]}
    manifest = {"apiVersion": "batch/v1", "kind": "Job", "metadata": {"name": name}, "spec": spec}
    if r.random() < 0.1:
        manifest["metadata"]["namespace"] = "other"
    return manifest


def failure_rule(r, by_index):
    actions = ["FailJob", "Ignore", "Count", "Ignore"]
    rule = {"action": r.choice(actions + ["FailIndex", "FailIndex"] if by_index else actions)}
    if r.random() < 0.6:
        codes = {"operator": r.choice(["In", "NotIn"]), "values": sorted(r.sample([1, 2, 3, 42, 137], r.randint(1, 3)))}
        if r.random() < 0.3:
            codes["containerName"] = "main"
        rule["onExitCodes"] = codes
    else:
        pattern = {"type": "DisruptionTarget"}
        if r.random() < 0.3:
            pattern["status"] = r.choice(["True", "False"])
        rule["onPodConditions"] = [pattern]
    return rule


def success_rule(r, completions):
    if r.random() < 0.5:
        return {"succeededCount": r.randint(1, completions)}
    rule = {"succeededIndexes": "0" if completions == 1 else r.choice(["0", "0-%d" % (completions - 1)])}
    if r.random() < 0.3:
        rule["succeededCount"] = 1
    return rule


class Script:
    def __init__(self, r):
        self.r = r
        self.controllers = r.choice([1, 1, 1, 2, 2, 3, 4])
        self.workers = r.choice([1, 1, 2, 3])
        self.names = ["a", "b", "c", "d"][: r.randint(1, 3)]
        self.lanes = r.random() < 0.2
        self.lines = []

    def words(self):
        r = self.r
        words = ["run"]
        if self.controllers != 1 or r.random() < 0.1:
            words += ["--controllers", str(self.controllers)]
        if self.workers != 1:
            words += ["--workers=%d" % self.workers]
        if r.random() < 0.3:
            words += ["--window", str(r.choice([1, 1, 2, 3, 10]))]
        words += ["--events", str(r.choice([5, 20, 60, 300, 600, 600, 600]))]
        if r.random() < 0.05:
            words += ["--start", r.choice(["1970-01-01T00:00:00Z", "9999-12-31T23:59:30Z", "2030-06-01T12:00:00Z"])]
        return words

    def say(self, do, **members):
        line = {"do": do}
        line.update(members)
        if self.lanes and self.r.random() < 0.5:
            line["lane"] = self.r.randint(0, 3)
        self.lines.append(json.dumps(line, separators=self.r.choice([(",", ":"), (", ", ": ")])))

    def seat(self):
        r = self.r
        seat = {}
        if r.random() < 0.8 or self.controllers > 1:
            seat["controller"] = r.randrange(self.controllers)
        if self.workers > 1 and r.random() < 0.7:
            seat["worker"] = r.randrange(self.workers)
        return seat

    def pod(self):
        return self.r.choice([2, 2, 3, 3, 4, 5, 6, 7, 8, 9, 10, 12])

    def one(self):
        r = self.r
        kind = r.choice(["jobs", "pods"])
        controller = {"controller": r.randrange(self.controllers)} if r.random() < 0.8 else {}
        do = r.choices(
            ["create", "update", "delete", "mark", "strip", "finish", "phase", "fate", "clock", "list", "deliver",
             "begin", "sync", "step", "node", "restart", "fault", "settle"],
            [3, 3, 1, 2, 2, 8, 4, 3, 5, 4, 9, 5, 12, 9, 6, 2, 3, 3])[0]
        if do == "create":
            self.say(do, job=job(r, r.choice(self.names)))
        elif do == "update":
            spec = {}
            for member, values in (("parallelism", [0, 1, 2, 4]), ("completions", [1, 2, 3]), ("suspend", [True, False]),
                                   ("activeDeadlineSeconds", [5, 50]), ("backoffLimit", [0, 2])):
                if r.random() < 0.35:
                    spec[member] = r.choice(values)
            if r.random() < 0.3:
                spec["parallelism"] = spec["completions"] = r.randint(1, 5)
            more = {"version": r.randint(1, 12)} if r.random() < 0.3 else {}
            self.say(do, name=r.choice(self.names), spec=spec, **more)
        elif do == "delete":
            self.say(do, name=r.choice(self.names))
        elif do in ("mark", "strip"):
            self.say(do, pod=self.pod())
        elif do == "finish":
            self.say(do, pod=self.pod(), exit=r.choice([0, 0, 0, 1, 2, 42, 137]))
        elif do == "phase":
            members = {"pod": self.pod(), "phase": r.choice(["Running", "Running", "Succeeded", "Failed", "Pending"])}
            if r.random() < 0.5:
                members["exitCodes"] = {"main": r.choice([0, 1, 42, -1])}
            if r.random() < 0.3:
                members["restartCounts"] = {"main": r.randint(0, 4)}
            if r.random() < 0.3:
                members["conditions"] = [{"type": r.choice(["DisruptionTarget", "Ready"]), "status": r.choice(["True", "False", "Unknown"])}]
            self.say(do, **members)
        elif do == "fate":
            ends = []
            for _ in range(r.randint(1, 3)):
                end = {"exitCode": r.choice([0, 0, 1, 42])}
                if r.random() < 0.3:
                    end["restarts"] = r.randint(0, 3)
                if r.random() < 0.2:
                    end["condition"] = "DisruptionTarget"
                ends.append(end)
            self.say(do, name=r.choice(self.names), ends=ends)
        elif do == "clock":
            self.say(do, add=r.choice([0, 1, 1, 5, 10, 60, 600]))
        elif do == "list":
            self.say(do, kind=kind, **controller)
        elif do == "deliver":
            times = {"times": r.randint(1, 6)} if r.random() < 0.5 else {}
            self.say(do, kind=kind, **controller, **times)
        elif do in ("begin", "sync"):
            self.say(do, **self.seat())
        elif do == "step":
            times = {"times": r.randint(1, 8)} if r.random() < 0.5 else {}
            self.say(do, **self.seat(), **times)
        elif do == "node":
            times = {"times": r.randint(1, 5)} if r.random() < 0.5 else {}
            self.say(do, **times)
        elif do == "restart":
            self.say(do, **controller)
        elif do == "fault":
            self.say(do, kind=r.choice(["drop", "lose"]), **self.seat())
        else:
            self.say(do)

    def spoil(self):
        """One line that says nothing, or too much."""
        r = self.r
        place = r.randrange(len(self.lines))
        line = self.lines[place]
        how = r.randrange(8)
        if how == 0:
            line = line[:-1]
        elif how == 1:
            line = line.replace('"do"', '"du"')
        elif how == 2:
            line = line[:-1] + ',"more":1}'
        elif how == 3:
            line = '{"do":"sync","controller":%d}' % self.controllers
        elif how == 4:
            line = '{"do":"finish","pod":0,"exit":0}'
        elif how == 5:
            line = '{"do":"step","times":10001}'
        elif how == 6:
            line = '{"do":"create","job":{"apiVersion":"batch/v1","kind":"CronJob"}}'
        else:
            line = '[1, 2]'
        self.lines[place] = line

    def write(self):
        r = self.r
        self.say("create", job=job(r, self.names[0]))
        for _ in range(r.randint(3, 40)):
            self.one()
        if r.random() < 0.5:
            self.say("settle")
        if r.random() < 0.1:
            self.spoil()
        end = r.choice(["\n", "\n", "\n", "\r\n"])
        text = end.join(self.lines)
        return text + (end if r.random() < 0.8 else "")


def main():
    folder, count, seed = sys.argv[1], int(sys.argv[2]), int(sys.argv[3])
    os.makedirs(folder, exist_ok=True)
    for number in range(count):
        script = Script(random.Random(seed * 1_000_003 + number))
        text = script.write()
        with open("%s/%05d.script" % (folder, number), "w", newline="") as out:
            out.write(text)
        with open("%s/%05d.args" % (folder, number), "w") as out:
            out.write("\n".join(script.words()) + "\n")


if __name__ == "__main__":
    main()
