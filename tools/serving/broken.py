"""Sessions of the status port that are slow or broken: random bytes, too many bytes, a client that goes away, that says nothing or that
never reads. Three of the cases wait until the program ends a session, which takes a minute. The two of streams beside a session wait for
a second, and the others until the program has read what they send."""
import random
import socket
import threading
import time

from live.cases import case, same, waiting
from live.peers import connect, reset, server

from .shared import GERRIT, REPORT, Session, begin, ends, ends_by_stop, port, start, write_streams

# How many seconds to wait for a session that another one keeps out for a minute, and how many have passed at the least. The program may
# see the end of the minute a little early.
LONG = 90
LEAST = 59


def goes_on_after(kind, breaks):
    """A session that does this ends no program: the program serves the next session."""
    process = begin(place := port(kind))
    peer = connect(place)
    try:
        breaks(peer)
    except ConnectionError:
        pass
    peer.close()
    ends_by_stop(process, place)


def sends(*pieces):
    """Sends these bytes, and reads all that comes."""

    def breaks(peer):
        sender = threading.Thread(target=lambda: send(peer, pieces))
        sender.start()
        try:
            while peer.recv(65_536):
                pass
        finally:
            sender.join()

    return breaks


def send(peer, pieces):
    try:
        for piece in pieces:
            peer.sendall(piece)
        peer.shutdown(socket.SHUT_WR)
    except OSError:
        pass


@case
def random_bytes_end_no_program():
    for seed in range(4):
        goes_on_after(("tcp", "unix")[seed % 2], sends(random.Random(seed).randbytes(1 << 16)))


@case
def a_session_of_too_many_bytes_is_over():
    for kind in ("tcp", "unix"):
        goes_on_after(kind, sends(b"x" * 3_000_000))
        goes_on_after(kind, sends(b"foo\n" * 300_000))


@case
def the_last_line_of_a_full_session_has_its_reply():
    process = begin(place := port("unix"))
    peer = connect(place)
    peer.sendall(b"x" * 1_048_569 + b"\nstatu\n")
    with peer.makefile() as lines:
        same(lines.read(), "unknown\nunknown\n")
    ends_by_stop(process, place)


@case
def a_session_that_goes_away_ends_no_program():
    def asks_and_leaves(peer):
        peer.sendall(b"status\n" * 1000)
        reset(peer)

    goes_on_after("tcp", asks_and_leaves)
    goes_on_after("tcp", reset)
    goes_on_after("unix", lambda peer: peer.sendall(b"status\n" * 1000))


def is_over_after_a_minute(kind, spoils):
    """A session that does this keeps out another one, which asks for a stop. After a minute, and no sooner, the program ends the first
    one."""
    process = begin(place := port(kind))
    first = Session(place)
    # The minute begins after this moment, and the second session has its reply after the minute.
    before = time.monotonic()
    first.waits()
    with connect(place) as second:
        second.settimeout(LONG)
        second.sendall(b"stop\n")
        spoils(first)
        same(second.recv(8), b"ok\n")
        passed = time.monotonic() - before
    same((f"{passed:.1f} seconds", passed >= LEAST), (f"{passed:.1f} seconds", True))
    ends(process, REPORT)


@waiting
def a_session_that_says_nothing_is_over_after_a_minute():
    def idles(session):
        time.sleep(2)
        session.asks("foo", "unknown")

    is_over_after_a_minute("tcp", idles)


@waiting
def a_session_that_never_ends_its_line_is_over_after_a_minute():
    def drips(session):
        try:
            for _ in range(LONG):
                session.peer.sendall(b"x")
                time.sleep(1)
        except ConnectionError:
            pass

    is_over_after_a_minute("unix", drips)


@waiting
def a_session_that_is_never_read_is_over_after_a_minute():
    def asks_and_asks(session):
        session.peer.settimeout(0.5)
        try:
            while True:
                session.peer.sendall(b"status\n" * 1000)
        except TimeoutError:
            pass

    is_over_after_a_minute("unix", asks_and_asks)


def flows_beside(spoils):
    """A session that does this holds up no stream: the pipelines are finished when the next session begins."""
    listener, place = server("tcp")
    write_streams()
    process = start(status := port("tcp"), f"gerrit={place}", "review=file:review.stream")
    peer = connect(status)
    with listener.accept()[0] as stream:
        spoils(peer)
        stream.sendall(GERRIT)
    time.sleep(1)
    reset(peer)
    with connect(status) as last, last.makefile() as lines:
        last.sendall(b"status\nstop\n")
        same(lines.read().count(" finished\n"), 2)
    ends(process, REPORT)


@case
def a_session_that_is_never_read_holds_up_no_stream():
    def asks_and_asks(peer):
        peer.settimeout(0.5)
        try:
            while True:
                peer.sendall(b"status\n" * 1000)
        except TimeoutError:
            pass

    flows_beside(asks_and_asks)


@case
def a_session_of_a_byte_at_a_time_holds_up_no_stream():
    def drips(peer):
        for byte in b"result 0 0 0 succ":
            peer.sendall(bytes([byte]))
            time.sleep(0.05)

    flows_beside(drips)
