#!/usr/bin/env python3
"""script_of.py [FILE..] [--ends CODE,CODE..] [--settle]: makes a script of what people have.

Each FILE (standard input if none is given) has one or many objects of Kubernetes: as kubectl prints them in JSON, one after
the other or in Lists; or as YAML, of one or many documents, which is read by kubectl where it is there, without a cluster,
and else by PyYAML. Each Job becomes a create line, and each CronJob one of its jobTemplate, under its own name. Of the pods
of these Jobs, as in `kubectl get jobs,pods -o json` of a live cluster, the ends are taken that they really had: exit codes,
restarts and the condition DisruptionTarget. All else is passed over, and named on standard error.

--ends decides how each Job's further pods are to end, by exit codes: the first by the first, all behind the last by the last.
--settle plays on until nothing is left to do. What the manifest may say is decided when the script is read:
docs/MANIFEST.md. Status 1 says that a file cannot be read, or that there is no Job.
"""
import argparse
import json
import math
import shutil
import subprocess
import sys

sys.dont_write_bytecode = True
import reports

# (kubectl prints an object in JSON, without a cluster, where it is to put a label on it; the label is taken off again)
LABEL = "script-of/passing"
MOST_ENDS = 100
# What a container exits with that was killed and left no code.
KILLED = 137


def number(text):
    """Returns a number with a point or an exponent."""
    value = float(text)
    if not math.isfinite(value):
        raise ValueError(f"{text} is no number that can be kept")
    return value


def values(text, name):
    """Returns the JSON values that stand one after the other in a text."""
    found, at, reader = [], 0, json.JSONDecoder(parse_constant=number, parse_float=number)
    while True:
        while at < len(text) and text[at] in " \t\r\n":
            at += 1
        if at == len(text):
            return found
        try:
            value, at = reader.raw_decode(text, at)
        except (ValueError, RecursionError) as error:
            raise reports.Refused(f"{name}: no JSON: {error}") from None
        found.append(value)


def by_kubectl(text, name):
    """Returns the objects of a text of YAML as kubectl reads them."""
    words = ["kubectl", "label", "--local", "-f", "-", "-o", "json", f"{LABEL}=yes"]
    done = subprocess.run(words, input=text, capture_output=True, text=True)
    if done.returncode:
        raise reports.Refused(f"{name}: kubectl reads no manifest: {done.stderr.strip().splitlines()[-1:]}")
    found = [item for value in values(done.stdout, name) for item in (value["items"] if value.get("kind") == "List" else [value])]
    for value in found:
        labels = value.get("metadata", {}).get("labels", {})
        labels.pop(LABEL, None)
        if not labels:
            value.get("metadata", {}).pop("labels", None)
    return found


def by_yaml(text, name):
    """Returns the objects of a text of YAML as PyYAML reads them, with moments as texts, or None where there is no PyYAML."""
    try:
        import yaml
    except ImportError:
        return None

    class Loader(yaml.SafeLoader):
        """Reads a moment as its text."""

    Loader.add_constructor("tag:yaml.org,2002:timestamp", yaml.SafeLoader.construct_yaml_str)
    try:
        found = [it for it in yaml.load_all(text, Loader) if it is not None]
        return values(" ".join(json.dumps(it, allow_nan=False) for it in found), name)
    except (yaml.YAMLError, ValueError, TypeError, RecursionError) as error:
        raise reports.Refused(f"{name}: no YAML: {' '.join(str(error).split())}") from None


def objects(text, name):
    """Returns the objects of a text, of JSON or of YAML."""
    text = text.removeprefix("\ufeff")
    if text.lstrip()[:1] in ("{", "["):
        return values(text, name)
    kubectl_says = None
    if shutil.which("kubectl"):
        try:
            return by_kubectl(text, name)
        except reports.Refused as error:
            kubectl_says = error
    found = by_yaml(text, name)
    if found is not None:
        return found
    raise kubectl_says or reports.Refused(
        f"{name}: this is no JSON, and to read YAML either kubectl has to be on the PATH, or PyYAML (pip install pyyaml) in this Python"
    )


def member(value, name, kind=dict):
    """Returns a member of this type, or an empty one where it is absent, null or of another type."""
    found = value.get(name) if isinstance(value, dict) else None
    return found if isinstance(found, kind) else kind()


def items(value):
    """Returns the objects of a value: itself, or those of a List."""
    kind = member(value, "kind", str)
    if not kind.endswith("List"):
        return [value]
    # (the items of a JobList may leave out what its head says)
    own = {} if kind == "List" else {"apiVersion": value.get("apiVersion"), "kind": kind.removesuffix("List")}
    return [it for item in member(value, "items", list) for it in items({**own, **item} if isinstance(item, dict) else item)]


def named(value):
    """Returns an object's kind and name, to tell of it."""
    kind = member(value, "kind", str) or "what has no kind"
    return f"{kind} {member(member(value, 'metadata'), 'name', str)}".rstrip()


def job_of(value):
    """Returns the Job of an object, or None: itself, or the one that a CronJob makes."""
    kind = member(value, "kind", str)
    if kind == "CronJob":
        metadata = member(value, "metadata")
        kept = {name: metadata[name] for name in ("name", "namespace") if name in metadata}
        template = member(member(value, "spec"), "jobTemplate")
        return {"apiVersion": "batch/v1", "kind": "Job", "metadata": kept, "spec": member(template, "spec")}
    return value if kind == "Job" else None


def key_of(job, name):
    """Returns the namespace and the name of a Job."""
    metadata = member(job, "metadata")
    if not member(metadata, "name", str):
        raise reports.Refused(f"{name}: a {member(job, 'kind', str)} has no metadata.name (a generateName is none)")
    return member(metadata, "namespace", str) or "default", metadata["name"]


def jobs(found, name):
    """Returns the Jobs of the objects of a file, the pods beside them, and what is passed over."""
    made, pods, others = [], [], []
    for value in (it for value in found for it in items(value)):
        job = job_of(value)
        if job:
            key_of(job, name)
            made.append(job)
        elif member(value, "kind", str) == "Pod":
            pods.append(value)
        else:
            others.append(value)
    return made, pods, others


def is_pod_of(pod, job):
    """Returns whether a pod is a Job's: by the Job's UID, or where the file has none by its name."""
    key, uid = key_of(job, ""), member(member(job, "metadata"), "uid", str)
    metadata = member(pod, "metadata")
    if (member(metadata, "namespace", str) or "default") != key[0]:
        return False
    owners = [it for it in member(metadata, "ownerReferences", list) if member(it, "kind", str) == "Job"]
    return any(member(it, "uid", str) == uid if uid else member(it, "name", str) == key[1] for it in owners)


def age_of(pod):
    """Returns what orders a Job's pods as they were made: the moment, and within a second the index and the name."""
    metadata = member(pod, "metadata")
    index = member(metadata, "annotations").get("batch.kubernetes.io/job-completion-index")
    index = int(index) if str(index).isdigit() else 0
    return member(metadata, "creationTimestamp", str), index, member(metadata, "name", str)


def end_of(pod):
    """Returns how a pod ended, and what of it had to be guessed, or None."""
    status, containers = member(pod, "status"), member(member(pod, "spec"), "containers", list)
    phase, first = member(status, "phase", str), member((containers or [{}])[0], "name", str)
    if phase not in ("Succeeded", "Failed"):
        return {"exitCode": 0}, "has not ended; it is taken to succeed"
    stand = {member(it, "name", str): it for it in member(status, "containerStatuses", list)}
    codes = {name: member(member(it, "state"), "terminated").get("exitCode") for name, it in stand.items()}
    code, guess = codes.get(first), None
    if phase == "Failed" and not code:
        others = [(name, it) for name, it in codes.items() if it]
        code = others[0][1] if others else KILLED
        guess = f"left no exit code; {KILLED} is taken"
        if others:
            guess = f"failed by its container {others[0][0]}, whose code is told as the first one's"
    end = {"exitCode": code if phase == "Failed" else 0}
    if member(stand.get(first), "restartCount", int):
        end["restarts"] = stand[first]["restartCount"]
    conditions = [it for it in member(status, "conditions", list) if member(it, "type", str) == "DisruptionTarget"]
    if any(member(it, "status", str) == "True" for it in conditions):
        end["condition"] = "DisruptionTarget"
    return end, guess


def ends_of(job, pods, further):
    """Returns how a Job's pods end: those that are there as they did, all further ones by these codes; and what was guessed."""
    found, guesses = [], []
    for pod in sorted((it for it in pods if is_pod_of(it, job)), key=age_of):
        end, guess = end_of(pod)
        found.append(end)
        guesses += [f"{named(pod)} {guess}"] if guess else []
    found += [{"exitCode": code} for code in further]
    if len(found) > MOST_ENDS:
        guesses.append(f"{named(job)} has {len(found)} ends; the first {MOST_ENDS} are taken")
    return found[:MOST_ENDS], guesses


def line(value):
    """Returns a value as one line. Half a pair of surrogates has no other form than its escape."""
    text = json.dumps(value, separators=(",", ":"), ensure_ascii=False, allow_nan=False)
    try:
        text.encode("utf-8")
    except UnicodeEncodeError:
        text = json.dumps(value, separators=(",", ":"), allow_nan=False)
    return text


def script(found, pods, further, settles):
    """Returns the lines of the script: the Jobs, their fates, and the settle; and what was guessed."""
    lines, guesses = [line({"do": "create", "job": job}) for job in found], []
    for job in found:
        ends, guessed = ends_of(job, pods, further)
        namespace, name = key_of(job, "")
        key = {"name": name} if namespace == "default" else {"name": name, "namespace": namespace}
        lines += [line({"do": "fate", **key, "ends": ends})] if ends else []
        guesses += guessed
    return lines + [line({"do": "settle"})] * settles, guesses


def codes(text):
    """Returns the exit codes of the option --ends."""
    words = text.split(",") if text else []
    if not all(it.isascii() and it.isdigit() and int(it) < 256 for it in words):
        raise argparse.ArgumentTypeError(f"these are no exit codes from 0 to 255 with commas between: {text}")
    return [int(it) for it in words]


def main():
    words = argparse.ArgumentParser(description=__doc__, formatter_class=argparse.RawDescriptionHelpFormatter)
    words.add_argument("files", nargs="*", metavar="FILE")
    words.add_argument("--ends", type=codes, default=[], metavar="CODE,CODE..")
    words.add_argument("--settle", action="store_true")
    given = words.parse_args()
    found, pods, others = [], [], []
    for name in given.files or ["-"]:
        shown = "standard input" if name == "-" else name
        for kept, more in zip((found, pods, others), jobs(objects(reports.text_of(name), shown), shown)):
            kept += more
    others += [pod for pod in pods if not any(is_pod_of(pod, job) for job in found)]
    passed_over = ", ".join(named(it) for it in others)
    if not found:
        raise reports.Refused(f"there is no Job or CronJob{f', but {passed_over}' if passed_over else ''}")
    lines, guesses = script(found, pods, given.ends, given.settle)
    print(*lines, sep="\n")
    for text in guesses + ([f"passed over: {passed_over}"] if passed_over else []):
        print(f"script_of.py: {text}", file=sys.stderr)


if __name__ == "__main__":
    reports.run("script_of.py", main)
