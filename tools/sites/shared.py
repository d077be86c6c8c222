"""What the cases of the operators' scripts share: the examples, running a command, and a `serve` that is looked at. No case stands here:
the modules of the cases say how long they take."""
import os
import re
import subprocess
import time
from pathlib import Path

from live.cases import same, started
from live.peers import PROGRAM, ROOT, awaited, connect

SMALL = ROOT / "examples/site-small"
TENANTS = ROOT / "examples/site-tenants"
GERRIT = ROOT / "examples/gerrit"
SECONDS = 30


def has(found, part):
    if part not in found:
        raise AssertionError(f"wanted {part!r} in\n    {found!r}")


def run(*words, where=None, redirected="", **settings):
    """Runs a command. Gives its status, standard output and standard error."""
    command = ["sh", "-c", f'exec "$@" {redirected}', "sh", *map(str, words)]
    how = {"cwd": where, "stdin": subprocess.DEVNULL, "capture_output": True, "text": True, "timeout": SECONDS}
    done = subprocess.run(command, env={**os.environ, **settings}, **how)
    return done.returncode, done.stdout, done.stderr


def faults(told, status, part):
    """A fault is one line, and nothing else is said."""
    same((told[0], told[1], told[2].count("\n"), part in told[2] and "fault: " in told[2]), (status, "", 1, True))


def start(*words, **settings):
    process = subprocess.Popen(list(map(str, words)), stdin=subprocess.DEVNULL, stdout=subprocess.PIPE, stderr=subprocess.PIPE, **settings)
    started.append(process)
    return process


def write(files):
    for path, text in files.items():
        Path(path).parent.mkdir(parents=True, exist_ok=True)
        Path(path).write_text(text)


def serve(*sources, port="unix:status.sock"):
    return start(PROGRAM, "serve", GERRIT / "config.json", port, *sources)


def connected(path="status.sock"):
    return connect(f"unix:{path}", timeout=SECONDS)


def asks(line, reply):
    with connected() as peer:
        peer.sendall(line + b"\n")
        same(peer.recv(64), reply)


def watched(*words, **settings):
    return run(ROOT / "bin/gate-watch", *words, **settings)


def waits(wanted):
    """Waits until a look shows this."""
    until = time.monotonic() + SECONDS
    told = awaited(lambda: watched("--once", "unix:status.sock")[1], lambda told: re.search(wanted, told), until)
    if not re.search(wanted, told):
        raise AssertionError(f"wanted {wanted!r} in the end, found {told!r}")
