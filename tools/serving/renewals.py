"""Generations of a configuration, and the renewals by which a session puts the next one in force. Most cases wait for half a
second, until the readers wait for their streams."""
import json
from pathlib import Path

from live.cases import case
from live.peers import connect, server

from .shared import CONFIG, GERRIT, REPORT, Session, begin, begun, ends, port, report, start


def next_config():
    """Writes a next generation of CONFIG, whose `check` asks for a comment `recheck` alone. Gives the word for both."""
    document = json.loads(Path(CONFIG).read_text())
    for item in document["config"]["main"]:
        if item.get("pipeline", {}).get("name") == "check":
            item["pipeline"]["trigger"] = {"gerrit": [{"event": "comment-added", "comment": "(?m)^recheck$"}]}
    Path("next.json").write_text(json.dumps(document))
    return f"{CONFIG},next.json"


def renewed(text, *numbers):
    """The report with a line of these renewals behind the line of connection `gerrit`."""
    first, rest = text.split("\n", 1)
    return "\n".join([first, " ".join(['renewed "gerrit"', *map(str, numbers)]), rest])


@case
def a_renewal_is_in_force_for_the_records_that_come_behind_it():
    listener, place = server("tcp")
    Path("empty").touch()
    process = start(status := port("unix"), f"gerrit={place}", "review=file:empty", config=next_config())
    with listener.accept()[0] as stream:
        session = Session(status)
        stream.sendall(GERRIT)
        session.shows("check", "done 2 items 1 reports 0 running")
        begun()
        session.asks("renew", "ok")
        stream.sendall(GERRIT)
    session.shows("gate", "done 2 items 1 reports 0 finished")
    session.stops()
    ends(process, renewed(report("12 ended", [0, 2, 8], [4, 10]), 6))


@case
def a_reader_that_waits_for_its_stream_goes_by_the_new_generation_from_the_next_record_on():
    listener, place = server("tcp")
    silent, silent_place = server("tcp")
    process = start(status := port("unix"), f"gerrit={place}", f"review={silent_place}", config=next_config())
    with listener.accept()[0] as stream, silent.accept()[0]:
        session = Session(status)
        begun()
        session.asks("renew", "ok")
        stream.sendall(GERRIT)
    session.shows("check", "done 1 items 1 reports 0 finished")
    session.stops()
    ends(process, renewed(report("6 ended", [2], [4]), 0))


@case
def a_stop_wins_over_a_renewal():
    listener, place = server("tcp")
    Path("empty").touch()
    process = start(status := port("unix"), f"gerrit={place}", "review=file:empty", config=next_config())
    with listener.accept()[0] as stream:
        session = Session(status)
        begun()
        session.asks("renew", "ok")
        session.stops()
        stream.sendall(GERRIT)
        ends(process, report("0 stopped", [], []))


@case
def renewals_are_asked_for_as_long_as_there_is_a_later_generation():
    listener, place = server("tcp")
    Path("empty").touch()
    words = [f"gerrit={place}", "review=file:empty"]
    process = start(status := port("unix"), *words, config=f"{next_config()},{CONFIG}")
    with listener.accept()[0] as stream:
        session = Session(status)
        begun()
        session.asks("renew x", "arguments")
        session.asks("renew ", "arguments")
        session.asks(" renew", "unknown")
        session.asks("renew", "ok")
        session.asks("quit", "bye")
        session = Session(status)
        session.asks("renew", "ok")
        session.asks("renew", "last")
        stream.sendall(GERRIT)
    session.shows("check", "done 2 items 1 reports 0 finished")
    session.stops()
    ends(process, renewed(report("6 ended", [0, 2], [4]), 0, 0))


def renews_twice(config, reply, text):
    """The first session asks for a renewal, and leaves without the reply. The second one asks again."""
    listener, place = server("tcp")
    Path("empty").touch()
    process = start(status := port("unix"), f"gerrit={place}", "review=file:empty", config=config)
    with listener.accept()[0] as stream:
        begun()
        with connect(status) as first:
            first.sendall(b"renew\n")
        session = Session(status)
        session.asks("renew", reply)
        session.asks("renew", "last")
        stream.sendall(GERRIT)
    session.shows("gate", "done 1 items 1 reports 0 finished")
    session.stops()
    ends(process, text)


@case
def with_two_documents_a_renewal_without_its_reply_may_be_repeated():
    renews_twice(next_config(), "last", renewed(report("6 ended", [2], [4]), 0))


@case
def with_three_documents_a_repeated_renewal_goes_a_generation_too_far():
    renews_twice(f"{next_config()},{CONFIG}", "ok", renewed(report("6 ended", [0, 2], [4]), 0, 0))


@case
def a_renewal_whose_reply_nobody_waits_for_is_in_force_on_each_connection():
    listener, place = server("tcp")
    other, other_place = server("tcp")
    process = start(status := port("unix"), f"gerrit={place}", f"review={other_place}", config=next_config())
    with listener.accept()[0] as stream, other.accept()[0] as review:
        first = Session(status)
        with connect(status) as second:
            second.sendall(b"renew\n")
        first.asks("quit", "bye")
        session = Session(status)
        session.asks("renew", "last")
        stream.sendall(GERRIT)
        review.sendall(b"no event\n")
    session.shows("check", "done 1 items 1 reports 0 finished")
    session.stops()
    found = renewed(report("6 ended", [2], [4]), 0)
    ends(process, found.replace('"review" accepted 0 ended\n', '"review" accepted 1 ended\nrenewed "review" 0\n'))


@case
def one_generation_is_the_last():
    process = begin(place := port("unix"))
    session = Session(place)
    session.asks("renew", "last")
    session.waits()
    session.stops()
    ends(process, REPORT)
