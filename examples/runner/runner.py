#!/usr/bin/env python3
"""Runs the jobs that the journal of a `gate serve` asks for, and posts how they have ended.

JOURNAL is what GATE_JOURNAL names for the program: a FIFO, or a file, which the runner reads as it grows. JOURNAL has to be there. The
runner runs COMMAND for each job of each build set, all of them side by side. COMMAND finds its job in its environment:

  GATE_TENANT, GATE_PIPELINE, GATE_SET, GATE_JOB   the build set, by its number in the pipeline, and the job
  GATE_CONNECTION, GATE_PATCHSET                   where the change or the ref comes from; a ref has patch set 0
  GATE_CHANGE                                      the number of the change, or else
  GATE_REF, GATE_NEWREV, GATE_PROJECT              which ref was updated, and to which revision

A job whose status is 0 has succeeded, and any other has failed. A job that has its result in the journal isn't run, so a runner that is
started again goes on where the one before was. When a job ends, the processes that it leaves are killed. The jobs of a
build set that is cancelled are killed, and so are all jobs where a run begins or a pipeline ends. The runner ends when each pipeline of the
run has ended. It is a fault if the runner has something to post and the port gives no answer for 90 seconds.
"""
import argparse
import json
import os
import signal
import socket
import subprocess
import sys
import time
from collections.abc import Iterable, Iterator

PROGRAM = "runner.py"
START = b'{"start":1}'
# How many seconds the runner sleeps between two looks, and for how many the port may give no answer.
PAUSE, PATIENCE = 0.05, 90
STATUSES = "exit status: 0 each pipeline has ended; 1 fault; 2 command line. A fault is one line on standard error, and kills all jobs."

# The numbers of a tenant, of its pipeline, and of a build set there.
Key = tuple[int, int, int]


class Fault(Exception):
    """A fault, in a line, and the exit status that says so."""

    def __init__(self, text: str, status: int = 1):
        super().__init__(text)
        self.status = status


class Words(argparse.ArgumentParser):
    def error(self, message: str):
        raise Fault(f"{message} (--help says which words there are)", 2)


class Journal:
    """The lines of a FIFO, or of a file as it grows."""

    def __init__(self, path: str):
        # Opened so, a FIFO doesn't wait for its writer, and goes on when one run has ended and the next one opens it.
        self.file = os.open(path, os.O_RDONLY | os.O_NONBLOCK)
        self.rest = b""

    def lines(self) -> Iterator[bytes]:
        """The whole lines that have come since the last call."""
        while piece := self.piece():
            *lines, self.rest = (self.rest + piece).split(b"\n")
            yield from lines

    def piece(self) -> bytes:
        try:
            return os.read(self.file, 1 << 16)
        except BlockingIOError:
            return b""


class Session:
    """A session of the status port, which serves sessions one after another."""

    def __init__(self, port: str):
        form, _, where = port.partition(":")
        host, _, number = where.rpartition(":")
        if form == "unix":
            self.peer = socket.socket(socket.AF_UNIX)
            self.peer.settimeout(PATIENCE)
            self.peer.connect(where)
        else:
            self.peer = socket.create_connection((host.strip("[]"), int(number)), PATIENCE)
        self.replies = self.peer.makefile("r", encoding="utf-8", newline="\n")

    def __enter__(self) -> "Session":
        return self

    def __exit__(self, *_) -> None:
        self.replies.close()
        self.peer.close()

    def ask(self, line: str) -> str:
        self.peer.sendall(line.encode() + b"\n")
        return self.reply()

    def reply(self) -> str:
        line = self.replies.readline()
        if not line.endswith("\n"):
            raise ConnectionError("the session is over before all is said")
        return line.removesuffix("\n")

    def count_pipelines(self) -> int:
        count, line = 0, self.ask("status")
        while line.startswith("pipeline "):
            count, line = count + 1, self.reply()
        if line != "ok":
            raise ConnectionError(f"the answer to status is {line}")
        return count


class BuildSet:
    """The jobs of a line `begin`: those that wait, the processes of those that run, and a word for each that has ended."""

    def __init__(self, told: dict):
        self.told = told
        self.waiting: list[str] = list(told["jobs"])
        self.running: dict[str, subprocess.Popen] = {}
        self.results: dict[str, str] = {}

    def begin(self, command: list[str]) -> None:
        while self.waiting:
            job = self.waiting.pop(0)
            try:
                # A job has a session of its own, so the job and all that it starts are a process group.
                how = {"stdin": subprocess.DEVNULL, "start_new_session": True}
                self.running[job] = subprocess.Popen(command, env=environment(self.told, job), **how)
            except (OSError, ValueError) as error:
                raise Fault(f"{command[0]} can't be run: {error}") from None

    def collect(self) -> None:
        for job in [job for job, process in self.running.items() if has_ended(process)]:
            self.results[job] = "failure" if end(self.running.pop(job)) else "success"

    def leave(self, job: str) -> None:
        """Leaves a job that has its result, whoever posted it: this runner, one before it, or somebody else."""
        if job in self.waiting:
            self.waiting.remove(job)
        if process := self.running.pop(job, None):
            end(process)
        self.results.pop(job, None)

    def kill(self) -> None:
        for process in self.running.values():
            end(process)

    def line_of(self, job: str) -> str:
        """The line that posts the result of a job."""
        return f"result {self.told['t']} {self.told['p']} {self.told['begin']} {self.results[job]} {job}"


def environment(told: dict, job: str) -> dict[str, str]:
    """The environment of a job. It has no other variables of such names: a job that runs `gate` isn't to write to this journal."""
    own = {"tenant": told["tenant"], "pipeline": told["pipeline"], "set": told["begin"], "job": job, "patchset": told["patchset"]}
    match told:
        case {"change": {"connection": connection, "number": number}}:
            own |= {"connection": connection, "change": number}
        case {"ref": {"connection": connection, "name": name, "newrev": newrev, "project": project}}:
            own |= {"connection": connection, "ref": name, "newrev": newrev, "project": project}
    others = {name: value for name, value in os.environ.items() if not name.startswith("GATE_")}
    return others | {f"GATE_{name.upper()}": str(value) for name, value in own.items()}


def has_ended(process: subprocess.Popen) -> bool:
    """Whether a process has ended. It isn't waited for yet, so that no other process gets its number before its group is killed."""
    return os.waitid(os.P_PID, process.pid, os.WEXITED | os.WNOHANG | os.WNOWAIT) is not None


def end(process: subprocess.Popen) -> int:
    """Kills the rest of a process's group, and gives the status of the process."""
    os.killpg(process.pid, signal.SIGKILL)
    return process.wait()


class Runner:
    def __init__(self, journal: Journal, port: str, command: list[str]):
        self.journal, self.port, self.command = journal, port, command
        # The build sets that have begun, and were neither cancelled nor reported.
        self.sets: dict[Key, BuildSet] = {}
        # The pipelines of this run that have ended, and how many the run has, once its port has said so.
        self.ended: set[tuple[int, int]] = set()
        self.pipelines: int | None = None
        self.answered = time.monotonic()

    def run(self) -> None:
        try:
            while len(self.ended) != self.pipelines:
                self.step()
                time.sleep(PAUSE)
        finally:
            self.drop(list(self.sets))

    def step(self) -> None:
        self.read()
        if self.has_to_ask():
            self.try_to_post()
        else:
            self.answered = time.monotonic()
        # A journal may have lines of a run that is over. So no job begins before the port has answered.
        if self.pipelines is not None:
            for build_set in self.sets.values():
                build_set.begin(self.command)
                build_set.collect()

    def read(self) -> None:
        """Takes all lines that are there before any job begins. So no job begins whose build set is over some lines further on."""
        for line in self.journal.lines():
            # Where the run before was killed while it wrote, the start stands behind half a line.
            if line.endswith(START):
                self.drop(list(self.sets))
                self.ended, self.pipelines = set(), None
            else:
                self.take(json.loads(line))

    def take(self, told: dict) -> None:
        match told:
            case {"begin": number, "t": tenant, "p": pipeline}:
                self.sets[tenant, pipeline, number] = BuildSet(told)
            case {"result": number, "job": job, "t": tenant, "p": pipeline}:
                if build_set := self.sets.get((tenant, pipeline, number)):
                    build_set.leave(job)
            case {"cancel": number, "t": tenant, "p": pipeline} | {"report": number, "t": tenant, "p": pipeline}:
                self.drop([(tenant, pipeline, number)])
            case {"end": _, "t": tenant, "p": pipeline}:
                self.drop([key for key in self.sets if key[:2] == (tenant, pipeline)])
                self.ended.add((tenant, pipeline))

    def drop(self, keys: Iterable[Key]) -> None:
        """Drops these build sets, with all their jobs and results."""
        for key in keys:
            if build_set := self.sets.pop(key, None):
                build_set.kill()

    def results(self) -> list[tuple[BuildSet, str]]:
        return [(build_set, job) for build_set in self.sets.values() for job in build_set.results]

    def has_to_ask(self) -> bool:
        is_new = self.pipelines is None and bool(self.sets or self.ended)
        return is_new or bool(self.results())

    def try_to_post(self) -> None:
        try:
            with Session(self.port) as session:
                self.post(session)
            self.answered = time.monotonic()
        except OSError as error:
            self.read()
            if self.pipelines is None and self.ended:
                # The run had nothing to run, and it is over: its port has gone away after a pipeline's end.
                self.pipelines = len(self.ended)
            elif time.monotonic() - self.answered > PATIENCE:
                raise Fault(f"{self.port}: {error.strerror or error}") from None

    def post(self, session: Session) -> None:
        """Posts all results. A later session posts those for which there is no room."""
        pipelines = session.count_pipelines()
        # A run writes its `start` before its port answers. So the journal is read after the answer: that drops the build sets of an earlier
        # run, which had the same numbers.
        self.read()
        self.pipelines = pipelines
        for build_set, job in self.results():
            line = build_set.line_of(job)
            answer = session.ask(line)
            if answer in ("full", "memory"):
                break
            if answer != "ok":
                raise Fault(f"{self.port}: the answer to `{line}` is {answer}")
            del build_set.results[job]
        session.ask("quit")


def port_of(word: str) -> str:
    form, _, where = word.partition(":")
    host, _, number = where.rpartition(":")
    if (form == "unix" and where) or (form == "tcp" and host and number.isascii() and number.isdigit()):
        return word
    raise argparse.ArgumentTypeError(f"{word} is neither unix:PATH nor tcp:ADDR, as tcp:127.0.0.1:8001")


def main() -> None:
    layout = argparse.RawDescriptionHelpFormatter
    words = Words(prog=PROGRAM, description=__doc__, epilog=STATUSES, formatter_class=layout, allow_abbrev=False)
    words.add_argument("--port", metavar="PORT", type=port_of, default="unix:status.sock", help="unix:PATH or tcp:ADDR (%(default)s)")
    words.add_argument("journal", metavar="JOURNAL")
    words.add_argument("command", metavar="COMMAND", nargs=argparse.REMAINDER, help="with its words")
    given = words.parse_args()
    if not given.command:
        words.error("there is no COMMAND")
    # A signal ends the runner by an exception, so that no job stays then either.
    signal.signal(signal.SIGTERM, lambda *_: sys.exit(128 + signal.SIGTERM))
    try:
        Runner(Journal(given.journal), given.port, given.command).run()
    except OSError as error:
        raise Fault(f"{given.journal}: {error.strerror}") from None
    except json.JSONDecodeError as error:
        raise Fault(f"{given.journal}: a line of it is no JSON: {error.doc[:40]!r}") from None


if __name__ == "__main__":
    try:
        main()
    except Fault as fault:
        print(f"{PROGRAM}: fault: {fault}", file=sys.stderr)
        sys.exit(fault.status)
    except KeyboardInterrupt:
        sys.exit(130)
