"""Rows on findings in other forms: the logs of `nova check --sarif` and `nova build --sarif` have what the schema of SARIF 2.1.0 requires, and a
result for each object that `--json` prints."""
import json
import os
import re
import subprocess

from rows import BESIDE

# Sources with faults, with warnings and with neither, and one that isn't there. A name has a blank.
SOURCES = {
    "faults.nova": "layout e = { type: 16, rest: 16 };\nfun f[x: word]: word { y }\nfun main[x: word]: word { f[x, 1] }\n",
    "char.nova": "fun main[x: word]: word { x ? 1 : 2 }\n",
    "a b.nova": "fun main[x: word]: word { let y = 1; if (x & 15 == 16) 1 else 2 }\n",
    "good.nova": "fun main[x: word]: word { x }\n",
    "absent.nova": None,
}
# What an object of each kind has to have, by the schema, and the values that are allowed for some of its members.
REQUIRED = {
    "log": {"version": ("2.1.0",), "runs": list},
    "run": {"tool": dict, "results": list},
    "driver": {"name": str},
    "rule": {"id": str},
    "result": {"message": dict},
    "message": {"text": str},
    "place": {"physicalLocation": dict},
    "physical": {"artifactLocation": dict},
    "artifact": {"uri": str},
    "region": {"startLine": int},
}
ALLOWED = {
    "log": {"$schema", "version", "runs"},
    "run": {"tool", "results", "columnKind"},
    "driver": {"name", "version", "rules"},
    "rule": {"id", "defaultConfiguration", "help"},
    "result": {"ruleId", "level", "message", "locations"},
    "message": {"text"},
    "place": {"physicalLocation"},
    "physical": {"artifactLocation", "region"},
    "artifact": {"uri"},
    "region": {"startLine", "startColumn", "endLine", "endColumn"},
}
LEVELS = ("none", "note", "warning", "error")
# A reference in the form of RFC 3986.
ADDRESS = re.compile(r"(?:file://)?(?:[A-Za-z0-9/._~-]|%[0-9A-F]{2})+")


def faults_of(kind, it):
    """What an object of a kind lacks, or has that the schema doesn't know."""
    found = [f"{kind}: {name} is missing" for name in REQUIRED[kind] if name not in it]
    found += [f"{kind}: {name} is unknown" for name in it if name not in ALLOWED[kind]]
    for name, wanted in REQUIRED[kind].items():
        if name in it and (it[name] not in wanted if isinstance(wanted, tuple) else not isinstance(it[name], wanted)):
            found.append(f"{kind}: {name} is {it[name]!r}")
    return found


def faults_of_result(result, rules):
    found = faults_of("result", result) + faults_of("message", result["message"])
    found += [] if result["level"] in LEVELS else [f"level {result['level']}"]
    found += [] if result.get("ruleId") is None or result["ruleId"] in rules else [f"no rule {result['ruleId']}"]
    for place in result["locations"]:
        physical = place.get("physicalLocation", {})
        artifact = physical.get("artifactLocation", {})
        found += faults_of("place", place) + faults_of("physical", physical) + faults_of("artifact", artifact)
        found += [] if ADDRESS.fullmatch(artifact.get("uri", "")) else [f"uri {artifact.get('uri')!r}"]
        region = physical.get("region")
        if region is not None:
            found += faults_of("region", region)
            found += [f"{name} is {n!r}" for name, n in region.items() if not isinstance(n, int) or n < 1]
    return found


def faults_of_log(log):
    """What a log lacks by the schema, and what in it isn't as it should be."""
    found = faults_of("log", log)
    for run in log["runs"]:
        driver = run["tool"]["driver"]
        found += faults_of("run", run) + faults_of("driver", driver)
        found += [] if run["columnKind"] in ("utf16CodeUnits", "unicodeCodePoints") else [run["columnKind"]]
        rules = [it["id"] for it in driver["rules"]]
        found += [] if len(set(rules)) == len(rules) else [f"rules {rules}"]
        for rule in driver["rules"]:
            found += faults_of("rule", rule) + faults_of("message", rule["help"])
            found += [] if rule["defaultConfiguration"]["level"] in LEVELS else [f"rule {rule}"]
        for result in run["results"]:
            found += faults_of_result(result, rules)
    return found


class LogRow:
    """A log, beside the objects of `--json`."""

    where, wants = "tests/findings.py", ("nova",)

    def __init__(self, name, *words):
        self.name, self.words = f"the log of {name}", words

    def differences(self, _novac, at):
        for name, text in SOURCES.items():
            if text is not None:
                with open(os.path.join(at, name), "w", encoding="utf-8") as it:
                    it.write(text)

        def said(option):
            ran = subprocess.run([BESIDE["nova"], *self.words, option], cwd=at, capture_output=True, text=True, timeout=60)
            return ran.returncode, ran.stderr

        (status, text), (other, objects) = said("--sarif"), said("--json")
        log, objects = json.loads(text), [json.loads(line) for line in objects.splitlines()]
        results = [result for run in log["runs"] for result in run["results"]]
        found = faults_of_log(log) + ([] if status == other else [f"status {status}, and {other} with --json"])
        told = [(it.get("code"), it["severity"], it["message"], it.get("line")) for it in objects]
        logged = [(it.get("ruleId"), it["level"], it["message"]["text"].split("\n")[0], line_of(it)) for it in results]
        return found + ([] if told == logged else [f"{told} are told, and {logged} logged"])


def line_of(result):
    """The line of a result, if it has one."""
    for place in result["locations"]:
        return place["physicalLocation"].get("region", {}).get("startLine")
    return None


def all_rows():
    checks = [LogRow(f"`nova check` on {name}", "check", name) for name in SOURCES]
    builds = [LogRow(f"`nova build` on {name}", "build", name) for name in SOURCES]
    return [*checks, *builds, LogRow("`nova check` on several", "check", *SOURCES), LogRow("`nova check` without a name", "check"), LogRow("warnings that are denied", "build", "a b.nova", "--deny-warnings")]
