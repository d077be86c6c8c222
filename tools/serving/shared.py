"""What the cases of `serve` share: the example that they run, the program, sessions of its status port. No case stands here:
the modules of the cases say how long they take."""
import os
import socket
import subprocess
import time
from pathlib import Path

from live.cases import same, started
from live.peers import PROGRAM, ROOT, SECONDS, awaited, connect, free_place

EXAMPLE = ROOT / "examples/serve"
CONFIG = str(EXAMPLE / "config.json")
REPORT = (EXAMPLE / "stdout").read_text()
GERRIT = (EXAMPLE / "gerrit.stream").read_bytes()
REVIEW = (EXAMPLE / "review.stream").read_bytes()
FILES = ["gerrit=file:gerrit.stream", "review=file:review.stream"]


def report(gerrit, check, gate):
    """The report of a run without a record of `review`: how `gerrit` ended, and which of its records each pipeline has processed."""
    lines = [f'connection "gerrit" accepted {gerrit}', 'connection "review" accepted 0 ended']
    for pipeline, numbers in (("check", check), ("gate", gate)):
        lines.append(f'pipeline "main" "{pipeline}" finished')
        lines.append(" ".join([f'done "main" "{pipeline}" "gerrit"', *map(str, numbers)]))
        lines.append(f'done "main" "{pipeline}" "review"')
    return "".join(line + "\n" for line in lines)


def start(*words, config=CONFIG, output=subprocess.PIPE, before="", redirected="", journal=""):
    """Starts the program with these words behind `serve CONFIG`, and with a journal where one is named."""
    command = ["sh", "-c", f'{before} exec "$@" {redirected}', "sh", PROGRAM, "serve", config, *words]
    return run(command, output=output, GATE_JOURNAL=journal)


def run(command, output=subprocess.PIPE, **settings):
    how = {"stdin": subprocess.DEVNULL, "stdout": output, "stderr": subprocess.PIPE, "text": True}
    process = subprocess.Popen(command, env={**os.environ, **settings}, **how)
    started.append(process)
    return process


def ends(process, stdout, stderr="", status=0):
    told = process.communicate(timeout=SECONDS)
    same((process.returncode, told[1], told[0]), (status, stderr, stdout))


def faults(process, fault, status=1):
    ends(process, "", f"fault: {fault}\n", status)


def port(kind):
    """A place for the status port."""
    return free_place() if kind == "tcp" else "unix:status.sock"


class Session:
    """A session of the port."""

    def __init__(self, place):
        self.peer = connect(place)
        self.lines = self.peer.makefile("r")

    def asks(self, line, *replies):
        self.peer.sendall(line.encode() + b"\n")
        for reply in replies:
            same(self.lines.readline(), reply + "\n")

    def status(self):
        """The lines of `status`, without the last one, which is `ok`."""
        self.peer.sendall(b"status\n")
        return list(iter(self.lines.readline, "ok\n"))

    def shows(self, pipeline, text):
        """Asks for the status until a pipeline is as far as that."""
        wanted = f'pipeline "main" "{pipeline}" {text}\n'
        found = awaited(self.status, lambda lines: wanted in lines)
        if wanted not in found:
            raise AssertionError(f"wanted {wanted!r} in the end, found {found!r}")

    def is_over(self):
        same(self.lines.read(), "")
        self.lines.close()
        self.peer.close()

    def waits(self):
        """Waits until each pipeline has processed all that the streams of the example have."""
        self.shows("check", "done 3 items 2 reports 0 finished")
        self.shows("gate", "done 2 items 2 reports 0 finished")

    def stops(self):
        self.asks("stop", "ok")
        self.is_over()


def ends_by_stop(process, place):
    session = Session(place)
    session.waits()
    session.stops()
    ends(process, REPORT)


def write_streams():
    Path("gerrit.stream").write_bytes(GERRIT)
    Path("review.stream").write_bytes(REVIEW)


def begin(place):
    """Starts the program with a port, and with files as streams."""
    write_streams()
    return start(place, *FILES)


def begun():
    """Gives the readers time to come to where they wait."""
    time.sleep(0.5)


def leave_socket(path):
    """Leaves a socket on which nobody listens."""
    with socket.socket(socket.AF_UNIX) as stale:
        stale.bind(path)
