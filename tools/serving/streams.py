"""Streams over TCP, over a Unix socket, through a FIFO and of files; streams that break; lines as long as they may be. A case takes as
long as the program takes to read its stream: the longest stream has 10,000 records, the longest line 1 MiB."""
import os
import time
from pathlib import Path

from live.cases import case, same
from live.peers import SECONDS, reset, server

from .shared import FILES, GERRIT, REPORT, REVIEW, Session, ends, faults, leave_socket, port, report, start, write_streams


def reports_the_same(kind):
    gerrit, gerrit_place = server(kind)
    review, review_place = server(kind)
    process = start("none", f"gerrit={gerrit_place}", f"review={review_place}")
    with gerrit.accept()[0] as one, review.accept()[0] as other:
        other.sendall(REVIEW)
        for begin in range(0, len(GERRIT), 100):
            one.sendall(GERRIT[begin : begin + 100])
    ends(process, REPORT)


@case
def streams_over_tcp_give_the_report_of_files():
    reports_the_same("tcp")


@case
def streams_over_unix_sockets_give_the_report_of_files():
    reports_the_same("unix")


@case
def a_stream_through_a_fifo_gives_the_report_of_a_file():
    write_streams()
    os.mkfifo("fifo")
    process = start("none", "gerrit=file:fifo", FILES[1])
    Path("fifo").write_bytes(GERRIT)
    ends(process, REPORT)


@case
def a_stream_may_have_more_records_than_a_queue_has_places():
    listener, place = server("tcp")
    Path("empty").touch()
    process = start("none", f"gerrit={place}", "review=file:empty")
    with listener.accept()[0] as peer:
        peer.sendall(GERRIT + b"{}\n" * 9988 + GERRIT)
    ends(process, report("10000 ended", [0, 2, 9994, 9996], [4, 9998]))


@case
def a_broken_stream_has_failed():
    listener, place = server("tcp")
    Path("empty").touch()
    process = start(status := port("unix"), f"gerrit={place}", "review=file:empty")
    peer = listener.accept()[0]
    peer.sendall(GERRIT)
    session = Session(status)
    session.shows("check", "done 2 items 1 reports 0 running")
    reset(peer)
    session.shows("check", "done 2 items 1 reports 0 finished")
    session.asks("stop", "ok")
    ends(process, report("6 failed", [0, 2], [4]))


@case
def a_line_that_a_broken_stream_has_begun_is_no_record():
    listener, place = server("tcp")
    Path("empty").touch()
    process = start("none", f"gerrit={place}", "review=file:empty")
    peer = listener.accept()[0]
    for piece in (b'{"type":"x"}\n', b'{"ty'):
        peer.sendall(piece)
        time.sleep(0.3)
    reset(peer)
    ends(process, report("1 failed", [], []))


@case
def a_line_of_1048576_bytes_is_read_and_a_longer_one_is_a_record_without_content():
    def line(size):
        record = b'{"type":"patchset-created","change":{"project":"docs/manual"},"comment":"@"}'
        return record.replace(b"@", b"x" * (size - len(record) + 1))

    most = 1_048_576
    Path("gerrit.stream").touch()
    ends_of_line = [(most, b"\n"), (most + 1, b"\n"), (most, b"\r\n"), (most, b"\r\r\n"), (most - 1, b"\r\r\n"), (most, b"\r")]
    Path("review.stream").write_bytes(b"".join(line(size) + end for size, end in ends_of_line))
    process = start("none", *FILES)
    told = process.communicate(timeout=SECONDS)[0].splitlines()
    same((told[1], told[4]), ('connection "review" accepted 6 ended', 'done "main" "check" "review" 0 2 4'))


@case
def a_socket_that_nobody_listens_on_is_connect():
    write_streams()
    leave_socket("stale.sock")
    faults(start("none", "gerrit=unix:stale.sock", FILES[1]), "connect gerrit=unix:stale.sock")
