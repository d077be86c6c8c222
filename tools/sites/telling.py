"""The filter for jq that prints the queues of a journal. A case takes as long as jq takes for a short journal, some times."""
import json
import subprocess

from live.cases import same, with_jq
from live.peers import ROOT

EXAMPLE = ROOT / "examples/late-result/journal"


def items_of(lines):
    """The items of the example's pipeline after so many lines of its journal: the change, the build set, and the outcomes."""
    head = b"".join(EXAMPLE.read_bytes().splitlines(keepends=True)[:lines])
    told = subprocess.run(["jq", "-n", "-f", ROOT / "share/queue.jq"], input=head, capture_output=True, check=True).stdout
    queue = json.loads(told).get("main", {"gate": []})["gate"]
    return [(item["change"]["number"], item["set"], list(item["jobs"].values())) for item in queue]


@with_jq
def jq_prints_the_queue_at_any_line_of_a_journal():
    waits = "waiting"
    same(items_of(2), [])
    same(items_of(5), [(101, 0, [waits, waits]), (102, 1, [waits, waits]), (103, 2, [waits, waits])])
    # The first has failed, and what stands behind it has new build sets. Where they don't stand yet, the items have their places.
    same(items_of(8), [(101, 0, [False, waits]), (102, 1, [waits, waits]), (103, 2, [waits, waits])])
    same(items_of(10), [(101, 0, [False, waits]), (102, 3, [waits, waits]), (103, 4, [waits, waits])])
    same(items_of(13), [(102, 3, [waits, waits]), (103, 4, [waits, waits])])
    same(items_of(17), [(103, 4, [True, waits])])
    same(items_of(19), [(103, 5, [waits, waits])])
    same(items_of(24), [])
