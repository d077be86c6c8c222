"""The good inputs that are spoiled: a record, two configurations and a script. Importing the module makes them, and runs nothing."""
import json

from live.peers import ROOT

EVENT = (ROOT / "examples/events/patchset-created.json").read_bytes().strip()
PROJECT = json.loads(EVENT)["change"]["project"]
RULE = {
    "event": ["patchset-created"], "branch": "^.", "comment": ["a|b"], "ref": "x", "username": "u", "email": ["e$"],
    "approval": [{"Code-Review": 2}, {"Verified": "+1"}], "ignore-deletes": False,
}
JOBS = {"jobs": ["build", {"docs": {"voting": False}}]}


def document(rules, more=None):
    """A configuration of one pipeline, as one line."""
    source = {"gerrit": {"config-projects": ["base"], "untrusted-projects": [PROJECT, {"p": {}}, {"projects": ["q", {"r": 1}]}]}}
    pipeline = {"name": "check", "manager": "independent", "trigger": {"gerrit": rules}}
    items = [{"pipeline": pipeline}, {"project": {"name": PROJECT, "check": JOBS}}]
    return json.dumps({"tenants": [{"tenant": {"name": "main", "source": source}}], "config": {"main": items}} | (more or {})).encode()


CONFIG = document([{"event": "patchset-created"}])
WHOLE = document([RULE, {"event": "x"}])
SCRIPT = b"""# Every kind of line.
offer 0 {"type":"patchset-created","change":{"project":"demo"}}\r
oversize 0
renew 0
close 0
take 0
send 0
fetch 0 12
match 0
give 0
dequeue 0 0 change 0 -7
reset 0 0 ref 0 abc refs/heads/x a project
result 0 0 3 success a job
result 0 0 18446744073709551615 failure b

turn 0 0
show 0 0"""
