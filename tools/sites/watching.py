"""bin/gate-watch over a program that runs, in a pseudo-terminal too. A case takes some looks, and the view looks once a second."""
import fcntl
import json
import os
import pty
import re
import select
import signal
import struct
import subprocess
import termios
import threading
import time

from live.cases import case, same, started
from live.peers import ROOT, free_place, server

from .shared import GERRIT, SECONDS, asks, connected, faults, has, run, serve, start, waits, watched


def served():
    process = serve(f"gerrit=file:{GERRIT / 'stream'}")
    waits("finished\nmain .* finished\n")
    return process


@case
def a_look_is_a_table_an_object_or_metrics():
    served()
    table = "tenant  pipeline  done  items  reports  state\nmain    check        2      1        0  finished\n"
    same(watched("--once", "unix:status.sock"), (0, f"{table}main    gate         1      1        0  finished\n", ""))
    found = json.loads(watched("--json", "unix:status.sock")[1])
    gate = {"tenant": "main", "pipeline": "gate", "done": 1, "items": 1, "reports": 0, "finished": True}
    same((found["port"], found["pipelines"][1], abs(found["time"] - time.time()) < SECONDS), ("unix:status.sock", gate, True))
    lines = watched("--prometheus", "unix:status.sock")[1].splitlines()
    same(len(lines), 16)
    has(lines, "# TYPE gate_pipeline_done_total counter")
    has(lines, 'gate_pipeline_done_total{tenant="main",pipeline="check"} 2')
    has(lines, 'gate_pipeline_finished{tenant="main",pipeline="gate"} 1')


@case
def a_view_in_a_terminal_shows_what_comes_and_leaves_on_q():
    os.mkfifo("fifo")
    serve("gerrit=file:fifo")
    with open("fifo", "wb") as stream:
        stream.write((GERRIT / "stream").read_bytes() * 2)
        stream.flush()
        waits("check +[34] .* running\nmain +gate +[12] ")
        process, ours = in_a_terminal("unix:status.sock")
        shown = reads(ours, rb"main    gate         [12]   0\.0      1        0  running")
        same(bool(re.search(rb"the last minute.*main    check        [34]   0\.0      1        0  running", shown, re.DOTALL)), True)
        stream.write((GERRIT / "stream").read_bytes())
        stream.flush()
        reads(ours, "\N{FULL BLOCK}".encode())
        # Between two looks there is room for another session, also while the view is there.
        asks(b"foo", b"unknown\n")
        os.write(ours, b"q")
        reads(ours, rb"\x1b\[\?1049l")
        same(process.wait(SECONDS), 0)
        os.close(ours)


@case
def a_view_leaves_on_q_while_a_look_waits_and_puts_the_terminal_back_behind_a_signal():
    served()
    for leaves in (lambda terminal, _: os.write(terminal, b"q"), lambda _, process: process.terminate()):
        process, ours = in_a_terminal("unix:status.sock")
        reads(ours, b"main    gate         1 ")
        time.sleep(0.2)
        with connected() as session:
            session.sendall(b"foo\n")
            same(session.recv(64), b"unknown\n")
            reads(ours, b"no answer for")
            leaves(ours, process)
            reads(ours, rb"\x1b\[\?1049l")
            same(process.wait(SECONDS) in (0, 128 + signal.SIGTERM), True)
        os.close(ours)


def in_a_terminal(*words):
    """Starts a view in a terminal. Gives the process, and a person's end of the terminal."""
    ours, its = pty.openpty()
    fcntl.ioctl(its, termios.TIOCSWINSZ, struct.pack("HHHH", 12, 100, 0, 0))
    settings = {"env": {**os.environ, "TERM": "xterm", "LC_ALL": "C.UTF-8"}, "start_new_session": True}
    process = subprocess.Popen([ROOT / "bin/gate-watch", *words], stdin=its, stdout=its, stderr=its, **settings)
    started.append(process)
    os.close(its)
    return process, ours


def reads(terminal, part):
    """Reads what a terminal shows, until it has shown this part."""
    shown, until = b"", time.monotonic() + SECONDS
    while not re.search(part, shown):
        if not select.select([terminal], [], [], max(0, until - time.monotonic()))[0]:
            raise AssertionError(f"wanted {part!r} in the end, found {shown!r}")
        shown += os.read(terminal, 65_536)
    return shown


@case
def without_a_terminal_there_are_lines_until_nobody_answers():
    process = served()
    watch = start(ROOT / "bin/gate-watch", "unix:status.sock")
    for name, counts in (("check", "done 2 rate 0.0 items 1"), ("gate", "done 1 rate 0.0 items 1")) * 2:
        line = watch.stdout.readline().decode()
        same(re.sub(r"^\d\d:\d\d:\d\d ", "", line), f"main {name} {counts} reports 0 finished\n")
    asks(b"stop", b"ok\n")
    same(process.wait(SECONDS), 0)
    told = watch.communicate(timeout=SECONDS)[1].decode()
    same((watch.returncode, told.startswith("bin/gate-watch: fault: unix:status.sock: "), told.count("\n")), (1, True, 1))


@case
def what_is_wrong_with_a_look_is_a_line():
    for words in (["foo"], ["tcp:x"], ["tcp:127.0.0.1:99999"], ["unix:"], [], ["--once", "--json", "unix:x"], ["unix:x", "y"]):
        faults(watched(*words), 2, "")
    for way in ("--once", "--json", "--prometheus"):
        faults(watched(way, "unix:none.sock"), 1, "unix:none.sock: No such file")
    faults(watched("--once", free_place()), 1, "Connection refused")
    served()
    for where in (">/dev/full", ">&-"):
        faults(run(ROOT / "bin/gate-watch", "--once", "unix:status.sock", redirected=where), 1, "standard output")
    reader, writer = os.pipe()
    os.close(reader)
    watch = subprocess.Popen([ROOT / "bin/gate-watch", "unix:status.sock"], stdout=writer, stderr=subprocess.PIPE, text=True)
    started.append(watch)
    os.close(writer)
    same((watch.communicate(timeout=SECONDS)[1], watch.returncode), ("bin/gate-watch: fault: standard output: Broken pipe\n", 1))


def answered(reply, *words, **settings):
    """Looks at a peer that gives this reply."""
    listener, place = server(timeout=SECONDS)

    def answer():
        with listener.accept()[0] as peer:
            peer.recv(64)
            peer.sendall(reply)

    thread = threading.Thread(target=answer)
    thread.start()
    told = watched(*words, place, **settings)
    thread.join()
    listener.close()
    return told


@case
def a_name_is_shown_as_it_is_and_an_answer_of_another_kind_is_a_fault():
    line = b'pipeline "a \\"b\\\\" "c\\nd" done 1 items 2 reports 3 running\nok\n'
    has(answered(line, "--prometheus")[1], 'gate_pipeline_items{tenant="a \\"b\\\\",pipeline="c\\nd"} 2\n')
    has(answered(line, "--once")[1], '\na "b\\   "c\\nd"       1      2        3  running\n')
    name = 'pipeline "\N{SNOWMAN}" "b" done 1 items 2 reports 3 running\nok\n'.encode()
    has(answered(name, "--once", PYTHONIOENCODING="latin-1")[1], "\n\\u2603")
    has(answered(name, "--prometheus", PYTHONIOENCODING="latin-1")[1], 'tenant="\N{SNOWMAN}"')
    for reply in OTHER_ANSWERS:
        faults(answered(reply, "--once"), 1, "tcp:127.0.0.1:")


OTHER_ANSWERS = [
    b"memory\n",
    b"",
    b"HTTP/1.1 400 Bad Request\r\n",
    b"pipeline x\nok\n",
    b'pipeline "a" 3 done 1 items 2 reports 3 running\nok\n',
    b'pipeline "a" "b" made 1 items 2 reports 3 running\nok\n',
    b'pipeline "a" "b" done x items 2 reports 3 running\nok\n',
    b'pipeline "a" "b" done 1 items 2 reports 3 resting\nok\n',
    b'pipeline "a" "b" done 1 items 2 reports 3\n',
]


@case
def a_look_waits_for_a_session_that_is_open():
    served()
    with connected():
        watch = start(ROOT / "bin/gate-watch", "--once", "unix:status.sock")
        time.sleep(1)
        same(watch.poll(), None)
    has(watch.communicate(timeout=SECONDS)[0].decode(), "main    gate         1 ")
    same(watch.returncode, 0)
