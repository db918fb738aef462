#!/usr/bin/env python3
"""check_tools.py [PROGRAM]: the tools' own checks. Each prints a line where it fails; the last line says how many held.

PROGRAM is what plays scripts for them: the environment's JOBCTL if left out, or crates/jobctl/out/jobctl. Where there is none
a line says so, and what needs it is skipped; a PROGRAM that was given and is not there is a failure.
"""
import ast
import contextlib
import glob
import importlib.util
import io
import json
import os
import re
import shutil
import subprocess
import sys
import xml.etree.ElementTree

sys.dont_write_bytecode = True
sys.path.insert(0, os.path.dirname(os.path.abspath(__file__)))
import cluster
import explain
import get
import plays
import replay
import reports
import script_of
import standins
import timeline
from checks import TOP, Checks, text_of

checks = Checks("tools")
holds = checks.holds


def of(name):
    return timeline.Story(report_of(name))


def stories():
    """Returns the names of the examples that are reports with events."""
    names = [os.path.basename(it)[:-7] for it in sorted(glob.glob(f"{TOP}/examples/*.report"))]
    return [name for name in names if text_of(f"examples/{name}.report").startswith("1 ")]


def report_of(name):
    return reports.read(text_of(f"examples/{name}.report"))


def ran(tool, *words, given=""):
    """Runs a tool as a program of its own would run, in this process. Whatever it is given, it has no traceback."""
    main = importlib.import_module(tool.removesuffix(".py")).main
    out, err, kept = io.StringIO(), io.StringIO(), (sys.argv, sys.stdin)
    sys.argv, sys.stdin = [tool, *map(str, words)], io.TextIOWrapper(io.BytesIO(given.encode()), encoding="utf-8")
    status = 0
    try:
        with contextlib.redirect_stdout(out), contextlib.redirect_stderr(err):
            reports.run(tool, main)
    except SystemExit as end:
        status = end.code if isinstance(end.code, int) else 1
        err.write("" if isinstance(end.code, int) else f"{end.code}\n")
    except Exception as error:
        holds(f"{tool} {words}: no traceback, but {error!r}", False)
    finally:
        sys.argv, sys.stdin = kept
    return subprocess.CompletedProcess([tool, *words], status, out.getvalue(), err.getvalue())


def refuses(tool, *words, given="", status=1, says=""):
    """Holds that a tool refuses what it is given, in one line that begins with its name, or by its usage."""
    words = [str(it) for it in words]
    done = ran(tool, *words, given=given)
    lines = done.stderr.strip().split("\n")
    is_line = lines[-1].startswith(f"{tool}: ") and (status == 2 or len(lines) == 1)
    holds(f"{tool} {' '.join(words)}: refused", done.returncode == status and is_line and says in lines[-1] and not done.stdout)


def check_sources():
    """Each Python file and each shell script can be read."""
    for file in sorted(it for folder in ("tools", "bench", "examples") for it in glob.glob(f"{TOP}/{folder}/*.py")):
        with open(file, encoding="utf-8") as it:
            ast.parse(it.read(), file)
        holds(file, True)
    for file in sorted([*glob.glob(f"{TOP}/tools/*.sh"), *glob.glob(f"{TOP}/bench/*.sh"), f"{TOP}/jobctl", f"{TOP}/.ci/run"]):
        holds(f"bash reads {os.path.relpath(file, TOP)}", subprocess.run(["bash", "-n", file]).returncode == 0)


def check_timeline():
    """Each report of examples/ becomes a picture, whose counts come to what its last lines say."""
    holds("examples/ has reports", len(stories()) > 5)
    for name in stories():
        story = of(name)
        holds(f"{name}: the counts come to the last lines", story.doubts == [])
        picture = timeline.Picture(story, 1, 10**9).svg()
        root = xml.etree.ElementTree.fromstring(picture)
        names = [it.text for it in root.iter("{http://www.w3.org/2000/svg}text")]
        holds(f"{name}: each pod has a column", all(f"pod {uid}" in names for uid in story.pods))
        holds(f"{name}: nothing from outside", "href" not in picture and "url(" not in picture)
        lines = sum(len(row["lines"]) for row in story.rows)
        holds(f"{name}: each event is in a row", lines == len(report_of(name).events))
    first = of("first")
    texts = [(version, text) for _, version, text in first.jobs[0].lines]
    seven = [(1, "created"), (3, "active 1"), (5, "listed 2"), (7, "succeeded 1")]
    holds("first: the seven versions", texts == seven and first.length == 7)
    pod = first.pods[2]
    bars = [phase for _, phase in pod.bars]
    holds("first: pod 2 ends and loses its finalizer by version 6", bars == ["Pending", "Succeeded"] and pod.states[-1][0] == 6)
    lost = of("lost_status_reply").jobs[0]
    holds("a status whose answer is lost was written", (5, "listed 2") in [(version, text) for _, version, text in lost.lines])
    ignored = of("ignored_disruption").jobs[0]
    holds("an ignored pod is not judged", ignored.judged == {3: "Succeeded"})
    fresh = timeline.Picture(of("crash_between_writes"), 1, 10**9).svg()
    holds("docs/crash_between_writes.svg is what timeline.py makes", fresh == text_of("docs/crash_between_writes.svg"))


def check_parts():
    """Parts of a picture: some events, some Jobs and pods, folded columns; and what no picture is made of."""
    part = of("kubectl")
    holds("a part of a picture is lower", timeline.Picture(part, 40, 50).height < timeline.Picture(part, 1, 90).height)
    whole, own = (timeline.Picture(of("collected"), 1, 10**9, jobs, folds=folds) for jobs, folds in (((), False), (("default/soon",), False)))
    holds("one Job's picture is smaller", own.height < whole.height and own.width < whole.width and set(own.pods) == {5})
    one = timeline.Picture(of("two_controllers"), 1, 10**9, pods=[3])
    holds("one pod's picture has its Job", set(one.pods) == {3} and len(one.jobs) == 1 and "pod 2" not in [name for _, name in one.heads])
    folded = timeline.Picture(of("collected"), 1, 10**9, folds=True)
    holds("a folded picture is narrower", folded.width < whole.width - 400 and len(set(folded.job_x.values())) == 1)
    for text, says in (("", "no events"), ("no report\n", "line 1"), (text_of("examples/first.report").replace("7 -", "7 x"), "line 7")):
        refuses("timeline.py", "--no-exact", "-o", "/none/it.svg", given=text, says=says)
    refuses("timeline.py", "none.report", says="No such file")
    refuses("timeline.py", f"{TOP}/examples/first.report", "--no-exact", "-o", "/none/it.svg", says="/none/it.svg")
    refuses("timeline.py", f"{TOP}/examples/first.report", "--no-exact", "--job", "nobody", says="no Job default/nobody")
    refuses("timeline.py", f"{TOP}/examples/first.report", "--pod", "x", status=2)


def check_explain():
    """Each rule, reply, cause and status, and each line that a program can print, is explained."""
    numbers = sorted(explain.rules())
    holds("the rules go from 1 without a gap", numbers == list(range(1, len(numbers) + 1)) and len(numbers) >= 33)
    for name in stories():
        for line in text_of(f"examples/{name}.report").split("\n")[:-1]:
            # (a tag, an act and a reply; of a request of a sync, also its answer)
            event = reports.event_of(line)
            least = (4 if event.request[0] else 3) if event else 1
            holds(f"explain.py knows the line {line[:60]}", len(explain.told(line.split(" "))) >= least)
    said = ["bad words", "read fault", "write fault", "line 3: missing job", "history full", "no memory", "input too long", "no at line 17"]
    for line in said:
        holds(f"a line of standard error: {line}", explain.told([f"jobctl: {line}"]) and explain.told(line.split(" ")))
    holds("the statuses of these lines", [it for it in explain.statuses() if it in (2, 3, 4, 6, 7, 8, 9)] == [2, 3, 4, 6, 7, 8, 9])
    holds("each exit status", all(explain.told(["status", str(it)]) for it in range(10) if it != 1))
    causes = ["not json", "line too long", "too many commands", "wrong type ends[0].exitCode", "out of range job.spec.parallelism"]
    holds("each cause", all(explain.told([it]) for it in causes))
    holds("rule 2", explain.told(["invalid", "job.kind", "rule", "2"])[0].endswith("(job.kind)"))
    holds("a range", "1 to 4,294,967,295" in explain.told(["out of range pod"])[1])
    holds("a range of a manifest", "0 to 5,000" in explain.told(["out of range job.spec.parallelism"])[1])
    holds("the commands", "settle" in explain.told(["invalid do rule 29"])[1])
    holds("the words of a phase", "Succeeded" in explain.told(["invalid phase rule 29"])[1])
    reasons = {it["reason"] for name in stories() for job in report_of(name).jobs.values() for it in job.status.get("conditions", [])}
    types = {it["type"] for name in stories() for job in report_of(name).jobs.values() for it in job.status.get("conditions", [])}
    holds(f"reasons {reasons} and conditions {types}", len(reasons) > 3 and all(explain.told([it]) for it in reasons | types))
    for path in ("job.spec.template.spec.containers", "job.metadata.name", "job.spec.successPolicy.rules[1].succeededCount", "ends", "times"):
        holds(f"a member: {path}", bool(explain.members(path)))
    holds("what is nothing", all(explain.told([it]) == [] for it in ("nonsense", "999", "status 17", "rule 99")))
    refuses("explain.py", "nonsense", says="has nothing on nonsense")


YAML = """\
# two documents and a third
apiVersion: batch/v1
kind: Job
metadata: {name: pi}
spec: {backoffLimit: 0, template: {spec: {restartPolicy: Never, containers: [{name: main}]}}}
---
apiVersion: batch/v1
kind: CronJob
metadata: {name: nightly, namespace: night}
spec:
  schedule: "0 3 * * *"
  jobTemplate: {spec: {completions: 2, template: {spec: {restartPolicy: Never, containers: [{name: main}]}}}}
---
{apiVersion: v1, kind: ConfigMap, metadata: {name: settings}}
"""


def live_pod(number, code, **more):
    """Returns a pod of the Job `pi` as a cluster has it, which has ended with the code, or has not where that is None."""
    owner = {"apiVersion": "batch/v1", "controller": True, "kind": "Job", "name": "pi", "uid": "u-1"}
    metadata = {"name": f"pi-{number}", "namespace": "default", "ownerReferences": [owner]}
    metadata["creationTimestamp"] = f"2024-01-01T00:00:{number:02}Z"
    state = {"running": {}} if code is None else {"terminated": {"exitCode": code}}
    phase = "Running" if code is None else "Failed" if code else "Succeeded"
    status = {"phase": phase, "containerStatuses": [{"name": "main", "restartCount": 0, "state": state}], **more}
    return {"apiVersion": "v1", "kind": "Pod", "metadata": metadata, "spec": {"containers": [{"name": "main"}]}, "status": status}


def live():
    """Returns what `kubectl get jobs,pods -o json` prints of a Job whose pods ended in several ways, with a pod of nobody."""
    job = json.loads(text_of("examples/kubectl.script").split("\n")[0])["job"]
    job["metadata"]["uid"] = "u-1"
    disrupted = {"conditions": [{"type": "DisruptionTarget", "status": "True"}], "containerStatuses": [], "phase": "Failed"}
    pods = [live_pod(3, None), live_pod(1, 42), live_pod(2, 0, **disrupted), {"apiVersion": "v1", "kind": "Pod", "metadata": {"name": "other"}}]
    return json.dumps({"apiVersion": "v1", "kind": "List", "items": [*pods, job]})


def check_script_of():
    """What people have becomes lines: Jobs and CronJobs, of JSON and of YAML, and pods' ends; and nothing has a traceback."""
    want = text_of("examples/kubectl.script").split("\n")
    job = json.loads(want[0])["job"]
    holds("one manifest", ran("script_of.py", "--ends", "1,0", "--settle", given=json.dumps(job, indent=4)).stdout.split("\n") == want)
    many = {"kind": "List", "apiVersion": "v1", "items": [job, {"kind": "JobList", "apiVersion": "batch/v1", "items": [{**job, "kind": None}]}]}
    many["items"][1]["items"][0].pop("kind")
    holds("Lists", len(ran("script_of.py", given=json.dumps(many)).stdout.split("\n")) == 3)
    holds("many in one text", script_of.values('{"a":1}\n\n {"b":2}', "it") == [{"a": 1}, {"b": 2}])
    done = ran("script_of.py", given=live())
    ends = json.loads(done.stdout.split("\n")[1])["ends"]
    holds("the ends of pods", ends == [{"exitCode": 42}, {"exitCode": 137, "condition": "DisruptionTarget"}, {"exitCode": 0}])
    notes = ["pi-2 left no exit code", "pi-3 has not ended", "passed over: Pod other"]
    holds("what was guessed is told", all(it in done.stderr for it in notes))
    odd = {**job, "odd": "\ud800"}
    holds("half a pair", json.loads(ran("script_of.py", given=json.dumps(odd)).stdout)["job"] == odd)
    for text, says in (('{"kind":"Pod"}', "but Pod"), ("{", "no JSON"), ("[]", "but what has no kind"), ("", "no Job"), ("[" * 99999, "no JSON")):
        refuses("script_of.py", given=text, says=says)
    for text in ('{"kind":"Job","metadata":null}', '{"kind":"Job","metadata":{"name":7}}', '{"kind":"CronJob"}'):
        refuses("script_of.py", "--ends", "1", given=text, says="has no metadata.name")
    for text in ('{"kind":"List","items":5}', '{"kind":"List","items":[1]}', '{"kind":7}', '{"kind":"Job","x":NaN}', '{"kind":"Job","x":1e999}'):
        refuses("script_of.py", given=text)
    refuses("script_of.py", "none.json", says="none.json: No such file")
    refuses("script_of.py", f"{TOP}/tools", says="directory")
    refuses("script_of.py", "--ends", "a,b", status=2, says="these are no exit codes")
    refuses("script_of.py", "--ends", "256", status=2)


def check_yaml():
    """YAML becomes lines, by kubectl, by PyYAML, or else the error says both ways."""
    ways = {"kubectl": (script_of.by_kubectl, bool(shutil.which("kubectl"))), "PyYAML": (script_of.by_yaml, bool(importlib.util.find_spec("yaml")))}
    found = []
    for way, (reads, is_there) in ways.items():
        if is_there:
            found.append(reads(YAML, "it"))
        else:
            print(f"check_tools: SKIPPED, for there is no {way}: YAML by {way}")
    for values in found:
        made, _, others = script_of.jobs(values, "it")
        keys = [script_of.key_of(it, "it") for it in made]
        holds("the documents", keys == [("default", "pi"), ("night", "nightly")])
        holds("what is passed over", [script_of.named(it) for it in others] == ["ConfigMap settings"])
        holds("no label is left", "labels" not in made[0]["metadata"] and made[1]["spec"]["completions"] == 2)
    if len(found) == len(ways):
        holds("both ways say the same", found[0] == found[1])
    for text in ("a: [", "kind: Job\n\tx: y", "just a text"):
        refuses("script_of.py", given=text)
    path, reader = os.environ["PATH"], script_of.by_yaml
    os.environ["PATH"], script_of.by_yaml = "/nowhere", lambda *given: None
    refuses("script_of.py", given=YAML, says="either kubectl has to be on the PATH, or PyYAML")
    os.environ["PATH"], script_of.by_yaml = path, reader


def check_reports():
    """Each report of examples/ is read, line by line; what is none is refused with its line."""
    for name in stories():
        lines = text_of(f"examples/{name}.report").split("\n")
        report = report_of(name)
        holds(f"{name}: its events", [it.line for it in report.events] == [it for it in lines if it[:1].isdigit()])
        holds(f"{name}: its Jobs", len(report.jobs) == sum(it.startswith("job ") for it in lines))
        last = max([0, *(it.version for it in report.events if it.version)])
        holds(f"{name}: the length of its log", reports.lengths(report.events)[-1] == last)
    lost = report_of("lost_status_reply").events
    holds("a lost status", [lost[it - 1].reply for it in reports.lost(lost)] == ["status unavailable"])
    made = reports.births(report_of("two_controllers").events)
    holds("two pods of one index", [(it.key, it.index) for it in made.values()] == [("default/pi", None), ("default/pi", 0), ("default/pi", 0)])
    text = text_of("examples/first.report")
    spoilt = [text.replace("\n7 -", "\n8 -"), text.replace("7 -", "7 x", 1), text + "more\n", text.replace("verdicts", "verdict"), "no report"]
    spoilt += [text.replace('"backoffLimit"', "backoffLimit"), text.replace("step 0 0 ->", "step 0 ->")]
    spoilt += [text.replace('"succeeded":1}', '"succeeded":}'), text.replace("written v3", "written 3")]
    for number, it in enumerate(spoilt):
        try:
            reports.read(it)
            holds(f"spoilt report {number} is refused", False)
        except reports.Refused as error:
            holds(f"spoilt report {number}: {error}", "this is no report: line " in str(error))


def check_replay():
    """A report becomes a script of its events, and tells the options of its play."""
    lines = replay.script_of(text_of("examples/first.report").split("\n")[:-1])
    holds("first: a command an event", len(lines) == 19 and json.loads(lines[1]) == {"do": "list", "kind": "jobs"})
    holds("the options", replay.options_of_report(report_of("two_controllers")) == ["--controllers", "2"])
    holds("the start", replay.options_of_report(report_of("waiting")) == ["--start", "9999-12-31T23:58:45Z"])
    done = ran("replay.py", f"{TOP}/examples/first.report", "--until", "2")
    holds("cut behind event 2", done.stdout.split("\n")[:-1] == lines[:2] and "play it by: run" in done.stderr)
    spoilt = text_of("examples/first.report").replace("\n17 - ", "\n17 * ")
    holds("cut before a spoilt line", ran("replay.py", "--until", "16", given=spoilt).stdout.split("\n")[:-1] == lines[:16])
    refuses("replay.py", "--until", "17", given=spoilt, says="line 17")
    refuses("replay.py", "none.report", says="No such file")
    refuses("replay.py", "--until", "x", status=2)
    refuses("replay.py", given="1 @0 jump -> high\n", says="line 1")
    refuses("replay.py", given='1 @0 create default/a {"parallelism":1} -> created 1 v1\n', says="line 1")


def played_words(name):
    """Returns the words with which an example was played."""
    file = f"{TOP}/examples/{name}.args"
    return text_of(file).split() if os.path.exists(file) else ["run"]


def check_replayed(program):
    """The play of a report's script is the report, but for lanes and a last `full`: of stories, of runs on threads, of a reap."""
    texts = {name: text_of(f"examples/{name}.report") for name in stories()}
    for name in ("kubectl", "on_failure", "waiting"):
        words = ["run", "--controllers", "2", "--workers", "2", "--threads", "3", *played_words(name)[1:]]
        for lock in ("mutex", "turn"):
            texts[f"{name} on threads, {lock}"] = plays.play(program, [*words, "--lock", lock], text_of(f"examples/{name}.script").split("\n"))
    texts["kubectl, full"] = plays.play(program, ["run", "--events", "30"], text_of("examples/kubectl.script").split("\n"))
    for name, text in texts.items():
        lines = text.split("\n")[:-1]
        again = plays.play(program, ["run", *replay.options_of(lines)], replay.script_of(lines)).split("\n")[:-1]
        want = [reports.without_lane(it) for it in lines if it != "full"]
        holds(f"{name}: played again", len(want) > 15 and [reports.without_lane(it) for it in again] == want)


TABLES = """\
NAME           STATUS     COMPLETIONS   DURATION   AGE
job.batch/pi   Complete   1/1           10s        10s

NAME       READY   STATUS      RESTARTS   AGE
pod/pi-2   0/1     Error       0          10s
pod/pi-3   0/1     Completed   0          0s
"""
WATCHED = """\
EVENT   NAMESPACE   NAME     READY   STATUS      RESTARTS     AGE
6       default     pair-2   0/1     Pending     0            0s
9       default     pair-3   0/1     Pending     0            0s
18      default     pair-2   1/1     Running     0            0s
28      default     pair-2   1/1     Running     1 (0s ago)   0s
33      default     pair-2   0/1     Completed   1 (0s ago)   0s
49      default     pair-3   1/1     Running     0            0s
59      default     pair-3   0/1     Completed   0            0s
"""


def check_exact(program):
    """The statuses of a picture are those of the program: what is worked out without one is the same, but for conditions."""
    for name in stories():
        report = report_of(name)
        worked_out, exact = of(name), timeline.Story(report, timeline.exact_statuses(report, program))
        for one, other in zip(worked_out.jobs, exact.jobs):
            lines = [[text.partition(":")[0] for _, _, text in job.lines] for job in (one, other)]
            holds(f"{name}: {one.key}: {lines}", lines[0] == lines[1])
    text = ran("timeline.py", f"{TOP}/examples/limits_per_index.report", "--program", program).stdout
    holds("conditions and reasons", "FailureTarget (FailedIndexes)" in text and "Failed (FailedIndexes)" in text)


def check_get():
    """Durations as kubectl prints them, and the events as JSON."""
    times = {0: "0s", 119: "119s", 120: "2m", 125: "2m5s", 600: "10m", 10799: "179m", 10800: "3h", 14700: "4h5m", 86400: "24h"}
    times |= {172800: "2d", 180000: "2d2h", 700000: "8d", 63072000: "2y", 63158400: "2y1d", 252288000: "8y"}
    holds("durations", {it: get.span(it) for it in times} == times)
    done = ran("get.py", "events", f"{TOP}/examples/limits_per_index.report", "--at", "4")
    lines = [json.loads(it) for it in done.stdout.split("\n")[:-1]]
    holds("an event as JSON", lines[3]["act"] == "begin 0 0" and lines[3]["job"] == "default/pi" and lines[0]["lane"] == 0)
    refuses("get.py", "nodes", status=2)
    refuses("get.py", "events", f"{TOP}/examples/first.report", "--at", "99", says="no event 99")
    refuses("get.py", "jobs", f"{TOP}/examples/first.report", "--program", "/none", says="there is no program")


def check_live(program):
    """The script of a live cluster plays to the numbers that the cluster had."""
    lines = ran("script_of.py", "--settle", given=live()).stdout.split("\n")
    status = reports.read(plays.play(program, ["run"], lines)).jobs["default/pi"].status
    holds("a live cluster: two pods failed, one succeeded", status["succeeded"] == 1 and status["failed"] == 2)


def check_cluster(program):
    """A cluster for tests: what came of its commands, and examples/test_a_policy.py."""
    it = cluster.Cluster(program, controllers=2).job("pi", backoffLimit=0, namespace="team").ends("pi", 3, namespace="team")
    holds("nothing yet", it.pods() == [] and it.status("pi", "team") == {} and it.ending("pi", "team") is None)
    it.sync(controller=1).node(2)
    pods = [(pod.uid, pod.key, pod.phase, pod.is_tracked) for pod in it.pods("pi", "team")]
    holds("a pod that failed", pods == [(2, "team/pi", "Failed", True)])
    it.settle()
    holds("a Job that failed", it.ending("pi", "team") == ("Failed", "BackoffLimitExceeded"))
    holds("its condition", it.condition("pi", "FailureTarget", "team")["status"] == "True" and not it.condition("pi", "Complete", "team"))
    holds("its script", len(it.script()) == 5 and json.loads(it.script()[3]) == {"do": "node", "times": 2})
    wrong = {KeyError: lambda: it.status("qi"), TypeError: lambda: cluster.Cluster(program, threads=2)}
    wrong[reports.Refused] = lambda: it.clock(-1).report()
    for kind, does in wrong.items():
        try:
            does()
            holds(f"a cluster's {kind.__name__}", False)
        except kind as error:
            holds(f"a cluster's {error}", kind is not reports.Refused or "out of range add" in str(error) and '"add":-1' in str(error))
    words, environment = [sys.executable, "-B", f"{TOP}/examples/test_a_policy.py"], {**os.environ, "JOBCTL": program}
    done = subprocess.run(words, env=environment, capture_output=True, text=True)
    holds("examples/test_a_policy.py", done.returncode == 0 and "Ran 4 tests" in done.stderr)


def check_got(program):
    """Jobs and pods as kubectl prints them, and the exact statuses at each event."""
    def got(name, *words, text=None):
        return ran("get.py", words[0], "-", *words[1:], "--program", program, given=text or text_of(f"examples/{name}.report"))

    holds("get.py jobs,pods", got("kubectl", "jobs,pods").stdout == TABLES)
    holds("get.py pods -A -w", got("on_failure", "pods", "-A", "-w").stdout == WATCHED)
    holds("get.py -n, with none there", "No resources found in other namespace." in got("first", "jobs", "-n", "other").stderr)
    for name in stories():
        items = json.loads(got(name, "jobs", "-A", "-o", "json").stdout)["items"]
        found = {f"{it['metadata']['namespace']}/{it['metadata']['name']}": it["status"] for it in items}
        holds(f"{name}: the last statuses", found == {key: it.status for key, it in report_of(name).jobs.items()})
    middle = json.loads(got("first", "jobs,pods", "--at", "16", "-o", "json").stdout)["items"]
    holds("first: listed at event 16", middle[0]["status"]["uncountedTerminatedPods"]["succeeded"] == ["00000000-0000-0000-0000-000000000002"])
    holds("first: pod 2 at event 16", middle[1]["status"]["phase"] == "Succeeded" and len(middle[1]["metadata"]["finalizers"]) == 1)
    spoilt = got("first", "jobs", text=text_of("examples/first.report").replace("released v6", "released v7"))
    holds("get.py: a spoilt report", spoilt.returncode == 1 and "line 17" in spoilt.stderr and not spoilt.stdout)


def data_of(text):
    """Returns what a page shows."""
    return json.loads(re.search(r'<script type="application/json" id="data">(.*?)</script>', text, re.DOTALL)[1])


def check_page(program):
    """A page has each line of its report, and at the end and between the exact statuses; it asks nothing of any network."""
    holds("a page of one file", not re.search(r"(src|href)=|url\(|@import|import |fetch\(|https?:|XMLHttp", text_of("tools/page.html")))
    for name in ("first", "two_controllers", "lost_status_reply"):
        done = ran("page.py", f"{TOP}/examples/{name}.report", "--program", program)
        data, report = data_of(done.stdout), report_of(name)
        holds(f"{name}: its lines", data["lines"] == [it.line for it in report.events] and len(data["means"]) == len(report.events))
        last = {it["key"]: it["history"][-1][1]["status"] for it in data["jobs"]}
        holds(f"{name}: the last statuses", last == {key: it.status for key, it in report.jobs.items()})
        asked = sum(len(it["steps"]) for it in data["syncs"])
        holds(f"{name}: what the syncs asked", asked == sum(bool(it.request[0]) for it in report.events))
        if shutil.which("node"):
            check_page_script(name, done.stdout)
    if not shutil.which("node"):
        print("check_tools: SKIPPED, for there is no node: the script of a page")
    data = data_of(ran("page.py", f"{TOP}/examples/two_controllers.report", "--program", program).stdout)
    queues = [[it[1] for it in of["queue"]] for of in data["controllers"]]
    holds(f"two controllers: their queues {queues}", queues[1] == [None, ["default/pi"], []])
    refuses("page.py", f"{TOP}/examples/generated.report", "--program", program, says="line 1")
    refuses("page.py", f"{TOP}/examples/first.report", "--from", 9, "--to", 99, "--program", program, says="no events 9 to 99")
    refuses("page.py", f"{TOP}/examples/first.report", "-o", "/none/it.html", "--program", program, says="/none/it.html")
    refuses("page.py", "none.report", says="No such file")


def check_page_script(name, text):
    """The page's script draws each event, by node, on elements that stand in for a browser's."""
    script = re.findall(r"<script>(.*?)</script>", text, re.DOTALL)[0]
    stand_in = """
const element = () => ({ children: [], addEventListener() {}, dataset: {}, scrollIntoView() {} });
const elements = {}; globalThis.location = { hash: "#2" }; globalThis.history = { replaceState() {} };
globalThis.document = { getElementById: (id) => elements[id] ||= element(), addEventListener() {} }; globalThis.addEventListener = () => {};
elements.data = { textContent: DATA };
"""
    ending = """
const drawn = []; for (let it = first; it <= last; it++) { go(it); drawn.push(elements.state.innerHTML); }
const statuses = stateAt(last).jobs.map((it) => it.is.status), isOdd = drawn.some((it) => /undefined|NaN/.test(it));
console.log(JSON.stringify([drawn.length, statuses, isOdd, elements.at.textContent]));
"""
    data = json.dumps(json.dumps(data_of(text)))
    done = subprocess.run(["node", "-"], input=stand_in.replace("DATA", data) + script + ending, capture_output=True, text=True)
    holds(f"{name}: the page's script: {done.stderr[:300]}", done.returncode == 0)
    count = len(report_of(name).events)
    want = [count + 1, [it.status for it in report_of(name).jobs.values()], False, f"{count} of {count}"]
    holds(f"{name}: each event is drawn", done.returncode == 0 and json.loads(done.stdout) == want)


COMPARED = """\
NAME   SIDE   STATUS     REASON                 COMPLETIONS   FAILED   ACTIVE   PODS   DURATION
pi     A      Complete   CompletionsReached     1/1           1        0        2      10s
       B      Failed     BackoffLimitExceeded   0/1           1        0        1      0s

default/pi is created otherwise: backoffLimit 4 in A, 0 in B
The status of default/pi parts at event 29:
  A     {}
  B     {"conditions":[{"lastTransitionTime":"2024-01-01T00:00:00Z","reason":"BackoffLimitExceeded","status":"True","type":"FailureTarget"}]}
They part at event 41:
  both  39 begin 0 0 -> begun default/pi jobs v9 pods v9
  both  40 step 0 0 -> ended
  A     41 clock 10 -> now 2024-01-01T00:00:10Z
  B     41 settled -> done
A has 78 events, B has 41.
"""


def check_compare():
    """Two reports side by side, without a program."""
    first, other = f"{TOP}/examples/first.report", f"{TOP}/examples/crash_between_writes.report"
    same = ran("compare.py", first, first).stdout
    holds("a report and itself", "All 19 events are the same." in same and " both " in same)
    holds("two reports", "They part at event 17:" in ran("compare.py", first, other).stdout)
    refuses("compare.py", first, status=2)
    refuses("compare.py", first, "--with", "spec", status=2)
    refuses("compare.py", first, "--with", "spec.parallelism=1", says="is a report")
    refuses("compare.py", first, f"{TOP}/tools/compare.py", "--program", "/none")


def check_compared(program):
    """A script and the same with a changed member, and manifests."""
    script = f"{TOP}/examples/kubectl.script"
    holds("compare.py --with", ran("compare.py", script, "--with", "spec.backoffLimit=0", "--program", program).stdout == COMPARED)
    refuses("compare.py", script, "--with", "spec.backoffLimit=x", "--program", program, says="wrong type job.spec.backoffLimit")
    refuses("compare.py", script, "--with", "kind.x=1", "--program", program, says="kind is no object")
    manifest = json.dumps(json.loads(text_of("examples/kubectl.script").split("\n")[0])["job"], indent=2)
    done = ran("compare.py", "-", "--with", "spec.completions=2", "--ends", "0", "--program", program, given=manifest)
    holds("compare.py of a manifest on standard input", "2/2" in done.stdout)


def check_standins():
    """What a function took is told by the files that were written of it."""
    files = [(0.0, "rattle-last-used"), (1.0, "Rattle-it-specs.Words.decls.oantt"), (4.0, "Rattle-it-proofs.parts.made.Lts.oantt")]
    files += [(9.5, "Rattle-it-proofs.parts.made.Proof.decls.oantt"), (10.0, "Rattle-it-proofs.Facts.oantt"), (12.0, "Rattle-it-proofs.end.Tie.oantt")]
    holds("the slowest function", standins.slowest("it", files[::-1]) == [(8.5, "parts::made"), (2.0, "end")])


def check_stored_run():
    """The program's stored run is the first example."""
    holds("crates/jobctl/stdin", text_of("crates/jobctl/stdin") == text_of("examples/first.script"))
    holds("crates/jobctl/stdout", text_of("crates/jobctl/stdout") == text_of("examples/first.report"))


def check_jobctl():
    """The shell script refuses what it has no word for, and says where the kit is missing."""
    def run(words, **how):
        return subprocess.run([f"{TOP}/jobctl", *words], stdin=subprocess.DEVNULL, capture_output=True, text=True, **how)

    for words in ([], ["walk"], ["prove", "x"]):
        ran = run(words)
        holds(f"jobctl {words}", ran.returncode == 2 and ran.stderr.startswith("jobctl: bad words") and not ran.stdout)
    path = os.pathsep.join(it for it in os.environ["PATH"].split(os.pathsep) if not os.path.exists(f"{it}/rt"))
    if not os.path.exists(f"{TOP}/crates/jobctl/out/jobctl"):
        ran = run(["run"], env={**os.environ, "PATH": path})
        holds("jobctl without the kit", ran.returncode == 1 and "kit is missing" in ran.stderr)


def program():
    """Returns the program that plays scripts, or None where there is none; one that was asked for has to be there."""
    asked = sys.argv[1] if len(sys.argv) > 1 else os.environ.get("JOBCTL")
    path = asked or plays.BUILT
    if os.path.exists(path):
        return os.path.abspath(path)
    holds(f"there is a program {path}", not asked)
    return None


ALONE = (check_sources, check_timeline, check_parts, check_explain, check_script_of, check_yaml, check_reports, check_replay, check_get, check_compare, check_standins, check_stored_run, check_jobctl)
PLAYED = (check_replayed, check_exact, check_live, check_cluster, check_got, check_page, check_compared)


def main():
    for check in ALONE:
        check()
    path = program()
    for check in PLAYED if path else ():
        check(path)
    if not path:
        names = ", ".join(it.__name__ for it in PLAYED)
        print(f"check_tools: SKIPPED, for there is no program {plays.BUILT}: {names}")
    checks.end(60)


main()
