"""Standard output that is closed, full, read slowly or read by nobody. A case takes as long as the program takes to print its report; the
slow reader waits for 10 ms at each 5,000 bytes."""
import os
import socket
import subprocess
import time
from pathlib import Path

from live.cases import case, same, started
from live.peers import PROGRAM, SECONDS, server

from .shared import CONFIG, FILES, GERRIT, faults, start, write_streams


@case
def an_output_without_room_is_write():
    write_streams()
    faults(start("none", *FILES, redirected=">/dev/full"), "write")


@case
def a_closed_output_is_write():
    write_streams()
    faults(start("none", *FILES, redirected=">&-"), "write")


@case
def a_report_doesn_t_go_to_a_stream_in_place_of_a_closed_output():
    write_streams()
    listener, place = server("tcp")
    process = start("none", f"gerrit={place}", FILES[1], redirected=">&-")
    with listener.accept()[0] as peer:
        peer.sendall(GERRIT)
        peer.shutdown(socket.SHUT_WR)
        same(peer.makefile().read(), "")
    faults(process, "write")


@case
def an_output_that_is_read_slowly_has_all():
    Path("script").write_text("turn 0 0\n" * 20_000)
    words = [PROGRAM, "replay", CONFIG, "script"]
    whole = subprocess.run(words, capture_output=True).stdout
    process = subprocess.Popen(words, stdout=subprocess.PIPE)
    started.append(process)
    pieces = []
    while piece := os.read(process.stdout.fileno(), 5000):
        pieces.append(piece)
        time.sleep(0.01)
    same((len(whole) > 100_000, b"".join(pieces) == whole, process.wait(SECONDS)), (True, True, 0))


@case
def an_output_that_nobody_reads_is_write():
    write_streams()
    reader, writer = os.pipe()
    os.close(reader)
    process = start("none", *FILES, output=writer)
    os.close(writer)
    same((process.communicate(timeout=SECONDS)[1], process.returncode), ("fault: write\n", 1))
