"""Where the status port listens: ports that are taken, sockets that were left, links, folders that are locked. Two cases wait for locked
folders, as long as the program does. The others take as long as the program takes to start and stop; one starts it 400 times."""
import fcntl
import os
import signal
import socket
import time
from contextlib import contextmanager
from pathlib import Path

from live.cases import case, same, started, waiting
from live.peers import awaited, connect, server

from .shared import CONFIG, FILES, Session, begin, ends_by_stop, faults, leave_socket, port, start, write_streams


@case
def a_port_that_is_taken_is_listen():
    listener, place = server("tcp")
    faults(begin(place), f"listen {place}")


@case
def a_unix_socket_that_somebody_listens_on_is_listen_and_stays():
    listener, place = server("unix")
    faults(begin(place), f"listen {place}")
    with connect(place) as peer:
        peer.sendall(b"x")
        found = b""
        # The program may have connected before, to see whether somebody listens.
        while not found:
            found = listener.accept()[0].recv(1)
    same(found, b"x")


@case
def a_stale_unix_socket_is_replaced_and_removed_at_the_end():
    leave_socket("status.sock")
    process = begin(place := port("unix"))
    ends_by_stop(process, place)
    same(os.path.exists("status.sock"), False)


@case
def a_killed_program_leaves_a_socket_that_a_new_one_replaces():
    killed = begin(place := port("unix"))
    Session(place).asks("foo", "unknown")
    killed.send_signal(signal.SIGKILL)
    killed.communicate()
    same(os.path.exists("status.sock"), True)
    process = start(place, *FILES)
    ends_by_stop(process, place)
    same(os.path.exists("status.sock"), False)


@case
def the_socket_is_removed_behind_a_fault_too():
    write_streams()
    faults(start("unix:status.sock", FILES[0], "review=unix:missing"), "connect review=unix:missing")
    same(os.path.exists("status.sock"), False)


def first_to_end(processes):
    ended = awaited(lambda: [it for it in processes if it.poll() is not None], bool, pause=0.001)
    if not ended:
        raise AssertionError("none has ended")
    return ended[0]


def begin_at_once(place, count):
    """Starts programs, and ends their configurations at one moment. Right after that each program begins to listen."""
    processes, writers = [], []
    for number in range(count):
        os.mkfifo(path := f"config{number}")
        processes.append(start(place, *FILES, config=path))
        writers.append(os.open(path, os.O_WRONLY))
        os.write(writers[-1], Path(CONFIG).read_bytes())
    time.sleep(0.002)
    for writer in writers:
        os.close(writer)
    for number in range(count):
        os.remove(f"config{number}")
    return processes


@case
def of_two_programs_that_start_at_once_over_a_stale_socket_one_serves():
    write_streams()
    for _ in range(200):
        leave_socket("status.sock")
        both = begin_at_once(place := port("unix"), 2)
        both.remove(refused := first_to_end(both))
        faults(refused, f"listen {place}")
        same(os.path.exists("status.sock"), True)
        ends_by_stop(*both, place)
        same(os.path.exists("status.sock"), False)
        started.clear()


@case
def a_datagram_socket_can_t_be_asked_whether_somebody_listens_and_stays():
    with socket.socket(socket.AF_UNIX, socket.SOCK_DGRAM) as other:
        other.bind("status.sock")
        faults(begin(place := port("unix")), f"listen {place}")
    same(os.path.exists("status.sock"), True)


@case
def a_link_to_a_socket_that_was_left_is_listen_and_both_stay():
    leave_socket("left.sock")
    os.symlink("left.sock", "status.sock")
    faults(begin(place := port("unix")), f"listen {place}")
    same((os.readlink("status.sock"), os.path.exists("left.sock")), ("left.sock", True))


@case
def a_program_that_may_open_too_few_files_leaves_no_socket():
    write_streams()
    # The program opens the folder, the socket, a second number for the socket, and then the streams. The first three numbers are taken.
    for most, fault in ((4, "listen unix:status.sock"), (5, "listen unix:status.sock"), (6, "file review.stream")):
        faults(start("unix:status.sock", *FILES, before=f"ulimit -n {most};"), fault)
        same(os.path.exists("status.sock"), False)


@contextmanager
def locked(folder):
    descriptor = os.open(folder, os.O_RDONLY)
    fcntl.flock(descriptor, fcntl.LOCK_EX)
    try:
        yield
    finally:
        os.close(descriptor)


@case
def a_socket_that_is_bound_and_not_listened_on_yet_is_not_abandoned():
    with socket.socket(socket.AF_UNIX) as other:
        with locked("."):
            other.bind("status.sock")
            process = begin(place := port("unix"))
            time.sleep(0.5)
            other.listen()
        faults(process, f"listen {place}")
    same(os.path.exists("status.sock"), True)


@case
def a_socket_that_took_the_place_of_the_program_s_own_stays():
    process = begin(port("unix"))
    Session("unix:status.sock").asks("quit", "bye")
    os.rename("status.sock", "moved.sock")
    leave_socket("status.sock")
    ends_by_stop(process, "unix:moved.sock")
    same(sorted(path for path in os.listdir() if path.endswith(".sock")), ["moved.sock", "status.sock"])


@case
def a_link_to_the_program_s_own_socket_in_its_place_stays():
    process = begin(port("unix"))
    Session("unix:status.sock").asks("quit", "bye")
    os.rename("status.sock", "moved.sock")
    os.symlink("moved.sock", "status.sock")
    ends_by_stop(process, "unix:moved.sock")
    same(os.readlink("status.sock"), "moved.sock")


@case
def a_unix_socket_may_be_in_any_folder():
    os.mkdir("run")
    os.symlink("run", "link")
    for place in ("unix:run/status.sock", "unix:link/status.sock", "unix:./status.sock", f"unix:{os.getcwd()}/status.sock"):
        ends_by_stop(begin(place), place)
    same((os.listdir("run"), os.path.exists("status.sock")), ([], False))


@case
def what_is_no_folder_and_a_link_in_the_socket_s_place_are_listen_and_stay():
    os.mkfifo("fifo")
    os.mkdir("run")
    os.symlink("nowhere", "link")
    before = sorted([*os.listdir(), "gerrit.stream", "review.stream"])
    for path in ("missing/status.sock", "fifo/status.sock", "link/status.sock", "link", "run", "run/"):
        faults(begin(f"unix:{path}"), f"listen unix:{path}")
    same(sorted(os.listdir()), before)


@waiting
def a_folder_that_another_program_keeps_locked_is_listen():
    with locked("."):
        faults(begin(place := port("unix")), f"listen {place}")
    same(os.path.exists("status.sock"), False)
    ends_by_stop(begin(place), place)


@waiting
def a_socket_stays_whose_folder_is_locked_at_the_end():
    process = begin(place := port("unix"))
    Session(place).asks("quit", "bye")
    with locked("."):
        ends_by_stop(process, place)
    same(os.path.exists("status.sock"), True)
    ends_by_stop(begin(place), place)
    same(os.path.exists("status.sock"), False)


@case
def a_port_is_free_again_behind_its_program():
    place = port("tcp")
    for _ in range(2):
        process = begin(place)
        Session(place).asks("foo", "unknown")
        ends_by_stop(process, place)
