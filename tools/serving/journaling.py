"""What the cases of journals and of the runner share: the example of examples/runner, and the lines of a journal. No case stands here:
the modules of the cases say how long they take."""
import json
import os
from contextlib import contextmanager

from live.cases import same
from live.peers import ROOT, awaited

from .shared import start

RUNNER = ROOT / "examples/runner"


def until(is_so, what):
    """Waits until something is so, and fails where that takes too long."""
    if not awaited(is_so, bool):
        raise AssertionError(f"wanted in the end: {what}")


def compact(value):
    """A value as a line of a journal has it: members in byte order, and no spaces."""
    return json.dumps(value, sort_keys=True, separators=(",", ":"), ensure_ascii=False)


def journal_of(text):
    """The values of a journal's lines. Each line is to be as `compact` writes it."""
    *lines, rest = text.split("\n")
    journal = [json.loads(line) for line in lines]
    same((lines, rest), ([compact(line) for line in journal], ""))
    return journal


def open_sets(journal):
    """The build sets of a pipeline that have begun and are neither cancelled nor reported, with their changes. They begin in the order of
    their numbers, and a change has one at a time."""
    begun, sets = 0, {}
    for line in journal:
        match line:
            case {"begin": number, "change": change}:
                same((number, change in sets.values()), (begun, False))
                begun += 1
                sets[number] = change
            case {"cancel": number} | {"report": number}:
                same((number, number in sets), (number, True))
                del sets[number]
    return sets


def members(journal, name, *others):
    """The values of these members in each line that has the first of them."""
    return [tuple(line.get(other) for other in (name, *others)) for line in journal if name in line]


def of_gerrit(number):
    """A change, or a record, as a line has it."""
    return {"connection": "gerrit", "number": number}


def of_gate(**said):
    """A line about the pipeline of the example."""
    return {**said, "p": 0, "pipeline": "gate", "t": 0, "tenant": "main"}


def report_of_example(count):
    """The report of the example with that many records. Its stream ends before the reader sees the stop."""
    done = " ".join(['done "main" "gate" "gerrit"', *map(str, range(count))])
    return f'connection "gerrit" accepted {count} ended\npipeline "main" "gate" finished\n{done}\n'


@contextmanager
def fed():
    """A FIFO in place of Gerrit, with the changes of the example. The stream goes on until the FIFO is closed."""
    os.mkfifo("gerrit.fifo")
    with open("gerrit.fifo", "r+b", buffering=0) as stream:
        stream.write((RUNNER / "stream").read_bytes())
        yield stream
    os.remove("gerrit.fifo")


def start_example(journal):
    return start("unix:status.sock", "gerrit=file:gerrit.fifo", config=str(RUNNER / "config.json"), journal=journal)
