"""The runner of examples/runner, which reads a journal, runs jobs and posts their results. A case takes as long as the jobs that it lets
end; those that it has killed would take 100 seconds."""
import os
import socket
from pathlib import Path

from live.cases import case, same
from live.peers import PROGRAM, SECONDS

from .journaling import RUNNER, compact, fed, journal_of, members, of_gate, of_gerrit, open_sets, report_of_example, start_example, until
from .shared import Session, ends, run


def start_runner(*words):
    return run([RUNNER / "runner.py", *words])


def shows(status):
    """Asks for the status until the pipeline of the example is so far. Each time is a session of its own, so that the runner gets its
    turn."""

    def is_shown():
        session = Session("unix:status.sock")
        found = session.status()
        session.asks("quit", "bye")
        session.is_over()
        return found == [f'pipeline "main" "gate" {status}\n']

    until(is_shown, status)


def is_gone(process_id):
    """Whether a process has ended, also where its parent hasn't waited for it yet."""
    try:
        return Path(f"/proc/{process_id}/stat").read_text().rpartition(")")[2].split()[0] == "Z"
    except (FileNotFoundError, ProcessLookupError):
        return True


@case
def the_runner_of_the_example_has_each_item_reported():
    process = run([RUNNER / "play"], GATE=PROGRAM)
    try:
        told, why = process.communicate(timeout=SECONDS)
    finally:
        # What `play` has started ends with `play`.
        process.terminate()
        process.wait()
    same((process.returncode, why), (0, ""))
    begin, end = told.index('{"start"'), told.index('connection "gerrit"')
    jobs, journal = told[:begin].splitlines(), journal_of(told[begin:end])
    same(told[end:], report_of_example(3))

    same((members(journal, "start"), journal[:2]), ([(1,)], [{"start": 1}, {"gate": 2}]))
    same((members(journal, "end"), journal[-1]), ([("finished",)], of_gate(end="finished", items=0)))
    begun = [(0, 101, 2, of_gerrit(0)), (1, 102, 1, of_gerrit(1)), (2, 103, 1, of_gerrit(2)), (3, 103, 1, None)]
    same(members(journal, "begin", "change", "patchset", "record"), [(n, of_gerrit(c), p, r) for n, c, p, r in begun])
    same(members(journal, "begin", "jobs"), [(number, ["unit", "docs"]) for number in range(4)])
    same(members(journal, "cancel", "why"), [(2, "ahead")])
    reported = [(0, 101, 2, True), (1, 102, 1, False), (3, 103, 1, True)]
    same(members(journal, "report", "change", "patchset", "success"), [(n, of_gerrit(c), p, s) for n, c, p, s in reported])
    results = [(number, job, (number, job) != (1, "unit")) for number in (0, 1, 3) for job in ("docs", "unit")]
    same(sorted(members(journal, "result", "job", "success")), results)
    # A result of build set 2 may come too late. No other result does.
    late = members(journal, "discard", "set", "why", "job")
    same(late, [("result", 2, "not-current", job) for *_, job in late])
    same(open_sets(journal), {})
    ran = {f"{job} of change {c}, patch set {p}, in build set {n}" for n, c, p, _ in reported for job in ("unit", "docs")}
    same(ran - set(jobs), set())


@case
def a_runner_reads_its_journal_through_a_fifo():
    os.mkfifo("journal")
    runner = start_runner("journal", "true")
    with fed():
        process = start_example("journal")
        shows("done 3 items 0 reports 3 running")
        Session("unix:status.sock").stops()
    ends(process, report_of_example(3))
    ends(runner, "")


def begun_jobs(count):
    """Waits until so many jobs have written a line to `begun`. Gives their processes, by build set and job."""
    until(lambda: Path("begun").read_text().count("\n") >= count, f"{count} jobs, found {Path('begun').read_text()!r}")
    words = [line.split() for line in Path("begun").read_text().splitlines()]
    same(len(words), count)
    return {(number, job): int(process_id) for number, job, process_id in words}


def lives(jobs, *numbers):
    """Waits until the jobs of these build sets live, and no others."""

    def live():
        return {number for (number, _), process_id in jobs.items() if not is_gone(process_id)}

    until(lambda: live() == set(numbers), f"live jobs of build sets {numbers}, found those of {live()}")


@case
def a_runner_kills_what_is_cancelled_and_what_a_killed_run_has_left():
    for path in ("begun", "journal"):
        Path(path).touch()
    # The runner is to kill what the shell has started, too. A job that lives on keeps nobody waiting for its output.
    command = 'exec >>begun 2>/dev/null; sleep 100 & echo "$GATE_SET $GATE_JOB $!"; wait'
    runner = start_runner("journal", "sh", "-c", command)
    with fed():
        process = start_example("journal")
        lives(begun_jobs(6), "0", "1", "2")
        session = Session("unix:status.sock")
        session.asks("reset 0 0 change 0 103", "ok")
        session.asks("quit", "bye")
        lives(old := begun_jobs(8), "0", "1", "3")
        process.kill()
        process.communicate()
    lives(old, "0", "1", "3")
    Path("begun").write_text("")
    # The program was killed while it wrote a line.
    with open("journal", "a") as journal:
        journal.write('{"begin":4,"change":{"connec')
    with fed():
        process = start_example("journal")
        lives(new := begun_jobs(6), "0", "1", "2")
        lives(old)
        Session("unix:status.sock").stops()
    ends(process, report_of_example(3))
    ends(runner, "")
    lives(new)


def asked(listener, answer="ok", begins=False):
    """Plays the port in the runner's next session, and gives the lines that the runner sends. Each result gets this answer. Another run
    may begin before the first answer: the journal then has its start and one build set."""
    lines = []
    with listener.accept()[0] as peer, peer.makefile("rw") as session:
        if begins:
            with open("journal", "a") as journal:
                begin = of_gate(begin=0, change=of_gerrit(101), jobs=["unit"], patchset=2, record=of_gerrit(0))
                journal.write('{"start":1}\n' + compact(begin) + "\n")
        for line in session:
            lines.append(line.removesuffix("\n"))
            status = 'pipeline "main" "gate" done 1 items 1 reports 0 running\nok'
            session.write({"status": status, "quit": "bye"}.get(lines[-1], answer) + "\n")
            session.flush()
    return lines


@case
def a_runner_posts_no_result_of_an_earlier_run_and_tries_again_where_there_is_no_room():
    with socket.socket(socket.AF_UNIX) as listener:
        listener.bind("status.sock")
        listener.listen()
        listener.settimeout(SECONDS)
        Path("journal").write_text(compact(of_gate(begin=0, change=of_gerrit(101), jobs=["unit"], patchset=1)) + "\n")
        runner = start_runner("journal", "true")
        same(asked(listener), ["status", "quit"])
        # The job has ended. Another run begins before the runner posts the result.
        same(asked(listener, begins=True), ["status", "quit"])
        same(asked(listener, "full"), ["status", "result 0 0 0 success unit", "quit"])
        same(asked(listener), ["status", "result 0 0 0 success unit", "quit"])
        with open("journal", "a") as journal:
            journal.write(compact(of_gate(end="finished")) + "\n")
        ends(runner, "")


@case
def a_runner_that_is_started_again_runs_no_job_that_has_its_result():
    begins = [of_gate(begin=number, change=of_gerrit(101 + number), jobs=["unit", "docs"], patchset=1) for number in range(3)]
    told = [of_gate(result=number, job=job, success=False) for number, job in ((0, "unit"), (2, "docs"))]
    Path("journal").write_text("".join(compact(line) + "\n" for line in ({"start": 1}, {"gate": 2}, *begins, *told)))
    Path("begun").touch()
    with socket.socket(socket.AF_UNIX) as listener:
        listener.bind("status.sock")
        listener.listen()
        listener.settimeout(SECONDS)
        runner = start_runner("journal", "sh", "-c", 'echo "$GATE_SET $GATE_JOB" >>begun; [ "$GATE_SET" = 0 ] || sleep 100')
        same(asked(listener), ["status", "quit"])
        same(asked(listener), ["status", "result 0 0 0 success docs", "quit"])
        until(lambda: Path("begun").read_text().count("\n") >= 4, "four jobs")
        # Somebody else posts how a job that still runs has ended: the runner kills it, and posts nothing of it.
        with open("journal", "a") as journal:
            journal.write("".join(compact(of_gate(result=1, job=job, success=True)) + "\n" for job in ("unit", "docs")))
            journal.write(compact(of_gate(cancel=2, why="removed")) + "\n" + compact(of_gate(end="finished")) + "\n")
        ends(runner, "")
    same(sorted(Path("begun").read_text().splitlines()), ["0 docs", "1 docs", "1 unit", "2 unit"])


@case
def a_runner_says_in_a_line_what_is_wrong():
    Path("journal").touch()
    for status, words, fault in (
        (1, ["missing", "true"], "missing: No such file or directory"),
        (1, [".", "true"], ".: Is a directory"),
        (2, ["journal"], "there is no COMMAND (--help says which words there are)"),
    ):
        ends(start_runner(*words), "", f"runner.py: fault: {fault}\n", status)
    with fed():
        process = start_example("journal")
        shows("done 3 items 3 reports 0 running")
        fault = "./missing can't be run: [Errno 2] No such file or directory: './missing'"
        ends(start_runner("journal", "./missing"), "", f"runner.py: fault: {fault}\n", 1)
        Session("unix:status.sock").stops()
    ends(process, report_of_example(3))
