"""Journals: what their lines say, and what happens where one can't be written or nobody reads it. A case takes as long as the program
takes to write the journal."""
import json
import os
import struct
import subprocess
from contextlib import contextmanager
from pathlib import Path

from live.cases import case, same
from live.peers import ROOT, SECONDS, server

from .journaling import RUNNER, compact, fed, journal_of, members, of_gate, of_gerrit, open_sets, report_of_example, start_example, until
from .shared import FILES, GERRIT, REPORT, Session, ends, faults, report, start, write_streams


class Telling:
    """What the journal of a run of the example has to say, line by line."""

    def __init__(self):
        self.lines = [{"start": 1}, {"gate": 2}]

    def begins(self, number, change, patchset, record=None):
        first = {"begin": number, "change": of_gerrit(change), "jobs": ["unit", "docs"], "patchset": patchset}
        self.lines.append(of_gate(**first, **({"record": of_gerrit(record)} if record is not None else {})))

    def results(self, number, job, success):
        self.lines.append(of_gate(result=number, job=job, success=success))

    def cancels(self, number, why):
        self.lines.append(of_gate(cancel=number, why=why))

    def reports(self, number, change, patchset, success):
        self.lines.append(of_gate(report=number, change=of_gerrit(change), patchset=patchset, success=success))

    def discards(self, what, why, **said):
        self.lines.append(of_gate(discard=what, why=why, **said))

    def is_told(self):
        """Waits until the journal has these lines, and nothing else. What comes next is asked for after that."""
        wanted = "".join(compact(line) + "\n" for line in self.lines)
        until(lambda: len(Path("journal").read_bytes()) >= len(wanted), f"{wanted!r}, found {Path('journal').read_text()!r}")
        same(Path("journal").read_text(), wanted)


def first_changes_begin(telling):
    telling.begins(0, 101, 2, 0)
    telling.begins(1, 102, 1, 1)
    telling.begins(2, 103, 1, 2)
    telling.is_told()


def results_come(session, telling):
    session.asks("result 0 0 1 failure unit", "ok")
    telling.results(1, "unit", False)
    telling.cancels(2, "ahead")
    telling.begins(3, 103, 1)
    session.asks("result 0 0 2 success unit", "ok")
    telling.discards("result", "not-current", set=2, job="unit")
    session.asks("result 0 0 1 success unit", "ok")
    telling.discards("result", "repeated", set=1, job="unit")
    session.asks("result 0 0 1 success lint", "ok")
    telling.discards("result", "no-job", set=1, job="lint")
    for number, job in (1, "docs"), (0, "unit"), (0, "docs"):
        session.asks(f"result 0 0 {number} success {job}", "ok")
        telling.results(number, job, True)
    telling.reports(0, 101, 2, True)
    telling.reports(1, 102, 1, False)
    telling.is_told()


def operators_reset_and_dequeue(session, telling):
    session.asks("reset 0 0 change 0 103", "ok")
    telling.cancels(3, "reset")
    telling.begins(4, 103, 1)
    session.asks("dequeue 0 0 change 0 101", "ok")
    telling.discards("dequeue", "no-item", change=of_gerrit(101))
    session.asks("reset 0 0 ref 0 abc refs/heads/master demo", "ok")
    ref = {"connection": "gerrit", "name": "refs/heads/master", "newrev": "abc", "project": "demo"}
    telling.discards("reset", "no-item", ref=ref)
    telling.is_told()


def changes_come_again(stream, telling):
    first, _, third = (RUNNER / "stream").read_bytes().splitlines(keepends=True)
    stream.write(third)
    telling.discards("trigger", "known", record=of_gerrit(3))
    stream.write(first)
    telling.begins(5, 101, 2, 4)
    stream.write(third.replace(b'"patchSet":{"number":1}', b'"patchSet":{"number":2}'))
    telling.cancels(4, "newer")
    telling.cancels(5, "ahead")
    telling.begins(6, 101, 2)
    telling.begins(7, 103, 2, 5)
    telling.is_told()


def one_is_dequeued(session, telling):
    session.asks("dequeue 0 0 change 0 101", "ok")
    telling.cancels(6, "removed")
    telling.cancels(7, "ahead")
    telling.begins(8, 103, 2)
    telling.is_told()


@case
def a_journal_tells_of_each_action_what_it_begins_cancels_reports_or_discards():
    telling = Telling()
    with fed() as stream:
        process = start_example("journal")
        session = Session("unix:status.sock")
        first_changes_begin(telling)
        results_come(session, telling)
        operators_reset_and_dequeue(session, telling)
        changes_come_again(stream, telling)
        one_is_dequeued(session, telling)
        same(open_sets(telling.lines), {8: of_gerrit(103)})
        session.shows("gate", "done 6 items 1 reports 2 running")
        session.stops()
    telling.lines.append(of_gate(end="finished", items=1))
    ends(process, report_of_example(6))
    telling.is_told()


# A configuration of two tenants with two pipelines each, its streams, and the journal of a script in which some results come besides.
SEVERAL = ROOT / "cases/journals/of-several-tenants"
REPORT_OF_SEVERAL = """\
connection "gerrit" accepted 3 ended
connection "review" accepted 1 ended
pipeline "main" "check" finished
done "main" "check" "gerrit" 0 2
pipeline "main" "post" finished
done "main" "post" "gerrit" 1
pipeline "other" "gate" finished
done "other" "gate" "gerrit" 0 1 2
done "other" "gate" "review"
pipeline "other" "release" finished
done "other" "release" "gerrit"
done "other" "release" "review" 0
"""


def by_pipeline(journal):
    """The lines of each pipeline, in order."""
    lines = {}
    for line in journal:
        lines.setdefault((line["t"], line["p"]), []).append(line)
    return lines


@case
def each_pipeline_of_each_tenant_has_lines_and_an_end_of_its_own():
    streams = [f"{name}=file:{SEVERAL / name}.stream" for name in ("gerrit", "review")]
    ends(start("none", *streams, config=str(SEVERAL / "config.json"), journal="journal"), REPORT_OF_SEVERAL)
    begin, version, *found = journal_of(Path("journal").read_text())
    same((begin, version), ({"start": 1}, {"gate": 2}))
    _, _, *wanted = journal_of((SEVERAL / "journal").read_text())
    wanted = [line for line in wanted if not {"end", "report", "result"} & line.keys()]
    # No result comes, so all items are left.
    for place, names, items in ((0, 0), ("main", "check"), 1), ((0, 1), ("main", "post"), 1), ((1, 0), ("other", "gate"), 2), ((1, 1), ("other", "release"), 1):
        wanted.append({"end": "finished", "items": items, "p": place[1], "pipeline": names[1], "t": place[0], "tenant": names[0]})
    same(by_pipeline(found), by_pipeline(wanted))


@contextmanager
def left_by_its_reader(place):
    """A run whose journal is a FIFO: somebody reads three lines of it and leaves. Gives the run and its stream, which is open."""
    listener, source = server("tcp")
    Path("empty").touch()
    os.mkfifo("journal")
    process = start(place, f"gerrit={source}", "review=file:empty", journal="journal")
    with open("journal") as reader:
        lines = reader.readline() + reader.readline()
        stream = listener.accept()[0]
        stream.settimeout(SECONDS)
        stream.sendall(GERRIT.splitlines(keepends=True)[0])
        lines += reader.readline()
    first = {"begin": 0, "change": of_gerrit(874312), "jobs": ["unit", "lint"], "patchset": 7, "record": of_gerrit(0)}
    same(journal_of(lines), [{"start": 1}, {"gate": 2}, {**of_gate(**first), "pipeline": "check"}])
    with stream:
        yield process, stream


def goes_on(stream, is_over, records=GERRIT):
    """Sends records until the run is over. A reader sees that the run is to stop when its stream brings something."""

    def is_over_then():
        try:
            stream.sendall(records)
        except ConnectionError:
            pass
        return is_over()

    until(is_over_then, "the end of the run")


def ends_by_its_journal(process):
    told, why = process.communicate(timeout=SECONDS)
    same((process.returncode, why), (1, "fault: journal journal\n"))
    # After the first record come those of the stream, over and over. The pipelines process each of them that was accepted.
    accepted = int(told.split()[3])
    check, gate = ([number for number in range(1, accepted) if (number - 1) % 6 in wanted] for wanted in ((0, 2), (4,)))
    # The other reader may have come to the end of its stream before that.
    same(told.replace("accepted 0 stopped", "accepted 0 ended"), report(f"{accepted} stopped", [0, *check], gate))


@case
def a_journal_whose_reader_leaves_ends_the_run():
    with left_by_its_reader("none") as (process, stream):
        goes_on(stream, lambda: process.poll() is not None)
    ends_by_its_journal(process)


@case
def a_stop_that_was_refused_memory_is_asked_for_again():
    """The run is to stop where its journal's reader leaves, and is refused the allocation behind the write that fails."""
    source = str(ROOT / "tools/refusals_malloc.c")
    subprocess.run(["cc", "-O1", "-shared", "-fPIC", "-o", "refusals_malloc.so", source, "-ldl"], check=True)
    Path("counts").write_bytes(bytes(24))
    listener, place = server("tcp")
    Path("empty").touch()
    os.mkfifo("journal")
    words = ["none", f"gerrit={place}", "review=file:empty"]
    before = "export LD_PRELOAD=$PWD/refusals_malloc.so REFUSE=0:0:0:1 REFUSE_COUNTS=counts;"
    process = start(*words, config=str(SEVERAL / "config.json"), before=before, journal="journal")
    with open("journal") as reader:
        same(reader.readline(), '{"start":1}\n')
        stream = listener.accept()[0]
    with stream:
        goes_on(stream, lambda: process.poll() is not None, (SEVERAL / "gerrit.stream").read_bytes())
    told, why = process.communicate(timeout=SECONDS)
    same((process.returncode, why, told.split()[4]), (1, "fault: journal journal\n", "stopped"))
    same(struct.unpack("QQQ", Path("counts").read_bytes())[1], 1)


@case
def a_run_with_a_port_waits_for_a_stop_where_its_journal_s_reader_leaves():
    with left_by_its_reader("unix:status.sock") as (process, stream):
        session = Session("unix:status.sock")
        goes_on(stream, lambda: all(line.endswith(" finished\n") for line in session.status()))
        same(process.poll(), None)
        session.stops()
    ends_by_its_journal(process)


@case
def a_journal_without_room_ends_in_half_a_line_and_the_next_start_stands_behind_it():
    for path in ("empty", "journal"):
        Path(path).touch()
    config = str(RUNNER / "config.json")
    with fed():
        # A file may have 512 bytes here, and a write beyond that fails.
        process = start("none", "gerrit=file:gerrit.fifo", config=config, before="trap '' XFSZ; ulimit -f 1;", journal="journal")
        until(lambda: len(Path("journal").read_bytes()) == 512, "a full journal")
    _, why = process.communicate(timeout=SECONDS)
    same((process.returncode, why), (1, "fault: journal journal\n"))
    *lines, rest = Path("journal").read_text().split("\n")
    same((members(map(json.loads, lines), "begin"), rest[:10]), ([(0,), (1,)], '{"begin":2'))
    start("none", "gerrit=file:empty", config=config, journal="journal").communicate(timeout=SECONDS)
    found = Path("journal").read_text().split("\n")
    same(found, [*lines, rest + '{"start":1}', '{"gate":2}', compact(of_gate(end="finished", items=0)), ""])


@case
def a_journal_that_can_t_be_written_is_journal_and_no_stream_is_opened():
    os.mkdir("folder")
    for path in ("/dev/full", "folder", "missing/journal"):
        for place in ("none", "unix:status.sock"):
            faults(start(place, "gerrit=file:missing", "review=file:missing", journal=path), f"journal {path}")
    same(os.listdir(), ["folder"])


@case
def a_journal_whose_path_isn_t_utf_8_is_usage():
    write_streams()
    for path in (b"\xff", b"journal\xe9"):
        faults(start("none", *FILES, journal=path), "usage", 2)
    same(sorted(os.listdir()), ["gerrit.stream", "review.stream"])


@case
def an_empty_journal_is_none():
    write_streams()
    ends(start("none", *FILES, journal=""), REPORT)
    same(sorted(os.listdir()), ["gerrit.stream", "review.stream"])
