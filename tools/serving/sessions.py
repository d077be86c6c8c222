"""Sessions of the status port: their lines and the replies, several sessions in turn, and the stop. A case takes as long as the program
takes to answer; the one that halts the program waits for a second and a half."""
import os
import resource
import signal
import socket
from pathlib import Path

from live.cases import case, same
from live.peers import SECONDS, connect, server

from .shared import GERRIT, REPORT, Session, begin, begun, ends, ends_by_stop, port, report, start


def talks(kind):
    """Two sessions, one after the other, while streams are open. A status shows each pipeline as it is after its last action."""
    gerrit, gerrit_place = server(kind)
    review, review_place = server(kind)
    process = start(place := port(kind), f"gerrit={gerrit_place}", f"review={review_place}")
    one, other = gerrit.accept()[0], review.accept()[0]
    with one, other:
        session = Session(place)
        none = [f'pipeline "main" "{name}" done 0 items 0 reports 0 running' for name in ("check", "gate")]
        session.asks("status", *none, "ok")
        one.sendall(GERRIT * 2)
        session.shows("check", "done 4 items 1 reports 0 running")
        session.shows("gate", "done 2 items 1 reports 0 running")
        session.asks("dequeue 0 0 change 0 874312", "ok")
        session.shows("check", "done 4 items 0 reports 0 running")
        session.asks("result 0 0 0 success unit", "ok")
        session.asks("result 0 1 0 failure unit", "ok")
        session.shows("gate", "done 2 items 0 reports 1 running")
        session.asks("reset 0 1 change 0 874312", "ok")
        session.asks("\r\n\nfoo\r\n ", "unknown", "empty")
        session.asks("result 0 0 x success unit", "number")
        session.asks("result 0 2 0 success unit", "no-pipeline")
        session.asks("reset 0 0 change 0\nstatus ", "arguments", "arguments")
        session.asks("quit\nstatus", "bye")
        session.is_over()
        Session(place).stops()
        one.sendall(GERRIT)
    ends(process, report("12 stopped", [0, 2, 6, 8], [4, 10]))
    same(os.path.exists("status.sock"), False)


@case
def sessions_over_tcp():
    talks("tcp")


@case
def sessions_over_a_unix_socket():
    talks("unix")


@case
def the_report_comes_after_a_stop_alone():
    process = begin(place := port("unix"))
    session = Session(place)
    session.waits()
    session.asks("dequeue 0 0 change 0 874312", "ok")
    session.asks("quit", "bye")
    same(process.poll(), None)
    ends_by_stop(process, place)


@case
def sessions_are_served_one_after_the_other():
    process = begin(place := port("tcp"))
    first, second = Session(place), Session(place)
    first.waits()
    second.peer.sendall(b"stop")
    second.peer.shutdown(socket.SHUT_WR)
    second.peer.settimeout(0.3)
    try:
        found = second.peer.recv(8)
    except TimeoutError:
        found = "no reply"
    same(found, "no reply")
    first.lines.close()
    first.peer.close()
    second.peer.settimeout(SECONDS)
    same(second.peer.recv(8), b"ok\n")
    ends(process, REPORT)


def may_open(process, most=None):
    """Lets a process open no more files than that, or as many as it could at its start. What is open stays open."""
    _, hard = resource.prlimit(process.pid, resource.RLIMIT_NOFILE)
    resource.prlimit(process.pid, resource.RLIMIT_NOFILE, (hard if most is None else most, hard))


def serves_on(kind):
    """A session that can't be accepted, because the program may open no file, is served once it may."""
    process = begin(place := port(kind))
    first = Session(place)
    first.asks("foo", "unknown")
    may_open(process, 0)
    # From the end of this session on, the program tries in vain to accept the next one.
    first.asks("quit", "bye")
    first.is_over()
    second = Session(place)
    second.peer.sendall(b"foo\n")
    second.peer.settimeout(1)
    try:
        found = second.peer.recv(8)
    except TimeoutError:
        found = "no reply"
    same(found, "no reply")
    may_open(process)
    second.peer.settimeout(SECONDS)
    same(second.lines.readline(), "unknown\n")
    second.asks("quit", "bye")
    second.is_over()
    ends_by_stop(process, place)


@case
def a_tcp_port_that_couldn_t_accept_a_session_goes_on():
    serves_on("tcp")


@case
def a_unix_port_that_couldn_t_accept_a_session_goes_on():
    serves_on("unix")


@case
def a_stop_whose_reply_nobody_waits_for_ends_the_run():
    process = begin(place := port("unix"))
    first = Session(place)
    first.waits()
    with connect(place) as second:
        second.sendall(b"stop\n")
    first.asks("quit", "bye")
    ends(process, REPORT)
    same(os.path.exists("status.sock"), False)


@case
def a_program_that_was_halted_for_a_while_goes_on():
    listener, place = server("tcp")
    Path("empty").touch()
    process = start(status := port("unix"), f"gerrit={place}", "review=file:empty")
    with listener.accept()[0] as stream:
        session = Session(status)
        session.asks("foo", "unknown")
        begun()
        process.send_signal(signal.SIGSTOP)
        begun()
        process.send_signal(signal.SIGCONT)
        begun()
        session.asks("foo", "unknown")
        stream.sendall(GERRIT)
    session.shows("gate", "done 1 items 1 reports 0 finished")
    session.stops()
    ends(process, report("6 ended", [0, 2], [4]))


@case
def a_hundred_sessions_come_in_turn():
    process = begin(place := port("tcp"))
    sessions = [Session(place) for _ in range(100)]
    for session in sessions:
        session.peer.sendall(b"quit\n")
    for session in sessions:
        same(session.lines.readline(), "bye\n")
        session.is_over()
    ends_by_stop(process, place)
