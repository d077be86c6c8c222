"""The streams and the configuration of `bench/load`, `bench/soak` and `bench/journal`, with the plain filter that says what each pipeline
is to process. Writing the streams takes as long as their bytes."""
import importlib.machinery
import importlib.util
from pathlib import Path

SIZE = 2048
SECONDS = 120

CONNECTIONS = [f"gerrit{number:02}" for number in range(16)]
# The projects of each tenant. No tenant lists `e`.
TENANTS = {"north": "ab", "east": "bc", "south": "cd", "west": "da"}
PIPELINES = {
    "check": ("independent", ["build"], {"event": "patchset-created"}),
    "gate": ("dependent", ["build"], {"event": "comment-added", "branch": "master"}),
    "post": ("independent", [], {"event": "change-merged"}),
    "stable": ("independent", ["build"], {"event": ["patchset-created", "comment-added"], "branch": "stable/"}),
}


def fields(connection, number):
    """The type, project and branch of a record."""
    turn = connection + number
    kind = ("patchset-created", "comment-added", "patchset-created", "change-merged")[turn % 4]
    return kind, "abcde"[turn % 5], "stable/1" if turn % 3 == 0 else "master"


def is_wanted(pipeline, kind, branch):
    """The plain filter: whether the rule of a pipeline selects such a record."""
    return {
        "check": kind == "patchset-created",
        "gate": kind == "comment-added" and branch == "master",
        "post": kind == "change-merged",
        "stable": kind in ("patchset-created", "comment-added") and branch == "stable/1",
    }[pipeline]


def wanted(tenant, pipeline, records):
    """The numbers of the records that a pipeline is to process, connection by connection."""
    numbers = []
    for connection in range(len(CONNECTIONS)):
        some = []
        for number in range(records):
            kind, project, branch = fields(connection, number)
            if project in TENANTS[tenant] and is_wanted(pipeline, kind, branch):
                some.append(number)
        numbers.append(some)
    return numbers


def config():
    source = {name: {"untrusted-projects": []} for name in CONNECTIONS}
    items = []
    for pipeline, (manager, _, rule) in PIPELINES.items():
        items.append({"pipeline": {"name": pipeline, "manager": manager, "trigger": {name: [rule] for name in CONNECTIONS}}})
    for project in "abcd":
        items.append({"project": {"name": project, **{name: {"jobs": jobs} for name, (_, jobs, _) in PIPELINES.items()}}})
    tenants = []
    for tenant, projects in TENANTS.items():
        tenants.append({"name": tenant, "source": {name: {"untrusted-projects": list(projects)} for name in source}})
    return {"tenants": tenants, "config": {tenant: items for tenant in TENANTS}}


def record(connection, number):
    kind, project, branch = fields(connection, number)
    change = f'"change":{{"project":"{project}","branch":"{branch}","number":{number}}},"patchSet":{{"number":1}}'
    people = '"uploader":{"username":"ada"},"author":{"username":"ada"},"submitter":{"username":"zuul"}'
    return f'{{"type":"{kind}",{change},{people},"eventCreatedOn":1676467816,"comment":"'.ljust(SIZE - 3, "x") + '"}\n'


def counts(line):
    """How many records, items and reports a line of `status` counts."""
    return [int(word) for word in line.split()[4:9:2]]


def posts(status, chance):
    """A result of some build set for each pipeline that has any."""
    lines = []
    for place, line in enumerate(status):
        _, items, reports = counts(line)
        if items + reports:
            how = "failure" if chance.randrange(7) == 0 else "success"
            lines.append(f"result {place // len(PIPELINES)} {place % len(PIPELINES)} {chance.randrange(items + reports)} {how} build\n")
    return lines


def load(name):
    """A script beside this one as a module."""
    loader = importlib.machinery.SourceFileLoader(name, str(Path(__file__).with_name(name)))
    module = importlib.util.module_from_spec(importlib.util.spec_from_loader(name, loader))
    loader.exec_module(module)
    return module
