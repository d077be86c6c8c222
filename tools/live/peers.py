"""What tools and benchmarks share that run the program beside peers: the program itself, ports, streams, sessions of the status port, and
waiting. A place is `tcp:HOST:PORT` or `unix:PATH`, as in the words of `serve`. A wait takes SECONDS at the most, where its caller gives no
other time."""
import os
import socket
import struct
import subprocess
import sys
import time
from pathlib import Path

ROOT = Path(__file__).resolve().parent.parent.parent
BUILT = ROOT / "crates/gate_main/out/gate_main"
PROGRAM = str(Path(os.environ.get("GATE") or BUILT).resolve())
# How long a wait takes at the most, where its caller gives no other time.
SECONDS = 20


def build(crate="gate_main"):
    """Builds a program, unless GATE names another in its place."""
    is_given = crate == "gate_main" and os.environ.get("GATE")
    if not is_given and subprocess.run([ROOT / "bin/build", crate]).returncode:
        sys.exit(f"{Path(sys.argv[0]).resolve().relative_to(ROOT)}: {crate} isn't built")


def ended(process):
    """Waits for the end of a process, and gives what the process used."""
    _, status, used = os.wait4(process.pid, 0)
    process.returncode = os.waitstatus_to_exitcode(status)
    return used


def awaited(find, is_so, until=None, pause=0.01):
    """Looks again and again, until what is found is so or the time is up. Gives what was found last."""
    until = time.monotonic() + SECONDS if until is None else until
    while not is_so(found := find()) and time.monotonic() <= until:
        time.sleep(pause)
    return found


def free_place():
    """A place at which nobody listens."""
    with socket.create_server(("127.0.0.1", 0)) as listener:
        return f"tcp:127.0.0.1:{listener.getsockname()[1]}"


def server(kind="tcp", timeout=SECONDS):
    """A listener in place of Gerrit, and its place."""
    if kind == "tcp":
        listener = socket.create_server(("127.0.0.1", 0))
        place = f"tcp:127.0.0.1:{listener.getsockname()[1]}"
    else:
        listener = socket.socket(socket.AF_UNIX)
        path = f"peer{len(os.listdir())}.sock"
        listener.bind(path)
        listener.listen()
        place = f"unix:{path}"
    listener.settimeout(timeout)
    return listener, place


def connect(place, until=None, timeout=SECONDS):
    """A connection to a place. Tries until somebody listens there or the time is up."""
    until = time.monotonic() + timeout if until is None else until
    form, where = place.split(":", 1)
    host, _, number = where.rpartition(":")
    while True:
        peer = socket.socket(socket.AF_INET if form == "tcp" else socket.AF_UNIX)
        peer.settimeout(timeout)
        try:
            peer.connect((host, int(number)) if form == "tcp" else where)
            return peer
        except OSError:
            peer.close()
            if time.monotonic() > until:
                raise
            time.sleep(0.01)


def session(place, data, until=None, timeout=SECONDS):
    """All replies of a session that sends this."""
    with connect(place, until, timeout) as peer:
        peer.sendall(data)
        return b"".join(iter(lambda: peer.recv(65536), b""))


def reset(peer):
    """Breaks a TCP connection."""
    peer.setsockopt(socket.SOL_SOCKET, socket.SO_LINGER, struct.pack("ii", 1, 0))
    peer.close()
