"""Spoiled configurations: which of them are no JSON, and what `check` prints of the others. Each is a run
of its own, which takes as long as the program takes to start."""
import json
import re

from .inputs import WHOLE
from .reading import NoJson, is_json, value_of

FAULT = rb"fault: (shape|limit|manager|attribute|pattern|repeated) .*\n"


def entries(value):
    """The rules of a trigger. A single rule may stand without a list."""
    return value if isinstance(value, list) else [] if value is None else [value]


def check_text(text):
    """What `check` prints of a configuration without a fault."""
    found = value_of(text)
    tenants = [entry.get("tenant") or entry for entry in found["tenants"] if entry.get("tenant") is not None or "name" in entry]
    names = {name for tenant in tenants for name in tenant.get("source") or {}}
    connections = sorted(names, key=str.encode)
    lines = [f"connection {number} {quoted(name)}" for number, name in enumerate(connections)]
    for number, tenant in enumerate(tenants):
        lines.append(f"tenant {number} {quoted(tenant['name'])}")
        items = found["config"].get(tenant["name"], [])
        for place, pipeline in enumerate(item["pipeline"] for item in items if item.get("pipeline") is not None):
            rules = sum(len(entries((pipeline.get("trigger") or {}).get(name))) for name in connections)
            lines.append(f"pipeline {number} {place} {quoted(pipeline['name'])} {pipeline['manager']} rules {rules}")
    return "".join(line + "\n" for line in lines).encode()


def quoted(name):
    return json.dumps(name, ensure_ascii=False)


def is_printed(text, stdout, first=b""):
    """Whether that is what `check` prints of this text, behind what it prints of the first document."""
    try:
        return stdout == first + check_text(text)
    except (NoJson, AttributeError, KeyError, TypeError):
        return False


def configurations(judge, texts):
    for text in texts:
        status, stdout, stderr = found = judge.run(["check", "config"], config=text)
        fault = b"fault: not-json\n" if not is_json(text) else FAULT
        is_named = status == 3 and not stdout and re.fullmatch(fault, stderr, re.DOTALL)
        judge.judge(is_named or status == 0 and not stderr and is_printed(text, stdout), f"the configuration {text}", found)


def later_configurations(judge, texts):
    first = check_text(WHOLE)
    for text in texts:
        status, stdout, stderr = found = judge.run(["check", "config,next"], config=WHOLE, next=text)
        fault = b"fault: not-json\n" if not is_json(text) else FAULT
        named = stderr.replace(b"fault: generation 1 ", b"fault: ", 1)
        is_named = status == 3 and not stdout and named != stderr and re.fullmatch(fault, named, re.DOTALL)
        judge.judge(is_named or status == 0 and not stderr and is_printed(text, stdout, first), f"the next document {text}", found)
