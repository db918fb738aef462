"""cluster.py: a cluster for tests. A Job, the ends of its pods, faults, and what came of it, asked of the program.

    from cluster import Cluster

    cluster = Cluster()
    cluster.job("train", completions=2, parallelism=2, podFailurePolicy={"rules": [..]})
    cluster.sync()
    cluster.finish(cluster.pods("train")[0], 42)
    cluster.settle()
    assert cluster.ending("train") == ("Failed", "PodFailurePolicy")

Each method that is a command of docs/SCRIPT.md adds it to the script, and returns the cluster. What one asks of the cluster
is answered by the play of the script so far, which takes the program some milliseconds; `script()` has its lines.
"""
import json
import os
import re
import sys

sys.path.insert(0, os.path.dirname(os.path.abspath(__file__)))
import plays
import replay
import reports

ENDS = ("Complete", "Failed")


class Cluster:
    """A cluster that is driven by commands, and can be looked at behind each. Options are those of `run`, as controllers=2."""

    def __init__(self, program=None, **options):
        unknown = set(options) - set(replay.PLAIN)
        if unknown:
            raise TypeError(f"a cluster has no option {', '.join(unknown)}, but {', '.join(replay.PLAIN)}")
        self.program, self.options = plays.program_at(program), options
        self.words = ["run", *(it for name, value in options.items() for it in (f"--{name}", str(value)))]
        self.lines = []
        self.played = None

    def do(self, command, **members):
        """Adds a command. A member that is None is left out."""
        members = {name: value for name, value in members.items() if value is not None}
        self.lines.append(json.dumps({"do": command, **members}, separators=(",", ":"), ensure_ascii=False))
        self.played = None
        return self

    def script(self):
        return list(self.lines)

    # Commands.

    def job(self, name, containers=("main",), restart="Never", namespace=None, **spec):
        """Creates a Job whose spec has these members, and whose pods have these containers."""
        template = {"spec": {"restartPolicy": restart, "containers": [{"name": it} for it in containers]}}
        metadata = {"name": name} if namespace is None else {"name": name, "namespace": namespace}
        return self.manifest({"apiVersion": "batch/v1", "kind": "Job", "metadata": metadata, "spec": {"template": template, **spec}})

    def manifest(self, job):
        """Creates a Job from its manifest."""
        return self.do("create", job=job)

    def ends(self, name, *codes, namespace=None):
        """Decides how the pods of a Job end: by exit codes, or objects as {"exitCode": 137, "condition": "DisruptionTarget"}."""
        ends = [{"exitCode": it} if isinstance(it, int) else it for it in codes]
        return self.do("fate", name=name, namespace=namespace, ends=ends)

    def update(self, name, namespace=None, version=None, **spec):
        return self.do("update", name=name, namespace=namespace, version=version, spec=spec)

    def delete(self, name, namespace=None):
        return self.do("delete", name=name, namespace=namespace)

    def finish(self, pod, code):
        """Ends a pod, which is given by its UID or as pods() has it."""
        return self.do("finish", pod=uid_of(pod), exit=code)

    def phase(self, pod, phase, **members):
        """Reports a pod's phase, with exitCodes, restartCounts and conditions where given."""
        return self.do("phase", pod=uid_of(pod), phase=phase, **members)

    def disrupt(self, pod, code=137):
        """Ends a pod as a node does that is drained: it fails, with the condition DisruptionTarget."""
        found = next(it for it in self.pods() if it.uid == uid_of(pod))
        return self.phase(pod, "Failed", exitCodes={found.containers[0]: code}, conditions=[{"type": "DisruptionTarget"}])

    def mark(self, pod):
        return self.do("mark", pod=uid_of(pod))

    def strip(self, pod):
        return self.do("strip", pod=uid_of(pod))

    def clock(self, seconds):
        return self.do("clock", add=seconds)

    def node(self, times=None):
        return self.do("node", times=times)

    def sync(self, controller=None, worker=None):
        return self.do("sync", controller=controller, worker=worker)

    def fault(self, kind, controller=None, worker=None):
        """The worker's next request is lost: `drop` before it is made, `lose` with its answer."""
        return self.do("fault", kind=kind, controller=controller, worker=worker)

    def restart(self, controller=None):
        return self.do("restart", controller=controller)

    def settle(self):
        return self.do("settle")

    # What came of it.

    def report(self):
        """Returns the report of the play so far, as text."""
        if self.played is None:
            try:
                self.played = plays.play(self.program, self.words, self.lines)
            except reports.Refused as error:
                found = re.search(r"line ([0-9]+):", str(error))
                raise reports.Refused(f"{error}{f': {self.lines[int(found[1]) - 1]}' if found else ''}") from None
        return self.played

    def events(self):
        return reports.read(self.report()).events

    def status(self, name, namespace="default"):
        """Returns the exact status of a Job, as the store has it."""
        jobs = reports.read(self.report()).jobs
        if f"{namespace}/{name}" not in jobs:
            raise KeyError(f"there is no Job {namespace}/{name}, but {', '.join(jobs) or 'none'}")
        return jobs[f"{namespace}/{name}"].status

    def condition(self, name, type, namespace="default"):
        """Returns the condition of this type that a Job has, or None."""
        return next((it for it in self.status(name, namespace).get("conditions", []) if it["type"] == type), None)

    def ending(self, name, namespace="default"):
        """Returns how a Job has ended, as its condition and the reason, or None."""
        found = [it for it in self.status(name, namespace).get("conditions", []) if it["type"] in ENDS and it["status"] == "True"]
        return (found[0]["type"], found[0]["reason"]) if found else None

    def pods(self, name=None, namespace="default"):
        """Returns the pods that are there, by UID, of one Job or of all: each with uid, key, index, phase, is_ready, is_marked,
        is_tracked (it has its finalizer) and restarts."""
        report = reports.read(self.report())
        state = plays.Replayed(report, self.program, **self.options).state(len(report.events))
        return [it for it in state.pods if name is None or it.key == f"{namespace}/{name}"]

    def open_pods(self, name=None, namespace="default"):
        """Returns the pods that have not ended."""
        return [it for it in self.pods(name, namespace) if it.phase in ("Pending", "Running")]


def uid_of(pod):
    return pod if isinstance(pod, int) else pod.uid
