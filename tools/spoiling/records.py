"""Spoiled records, in scripts and in streams: which of them are events that a pipeline selects. A run has 2,000 of them,
and takes as long as the program takes to read them."""
from .inputs import CONFIG, PROJECT
from .reading import NoJson, value_of

BATCH = 2000
MAX_LINE = 1_048_576


def is_selected(record):
    """Whether a record is an event that the pipeline of CONFIG selects: its project is listed, and its type begins as the rule says."""
    try:
        event = value_of(record)
    except NoJson:
        return False
    if not isinstance(event, dict) or not isinstance(event.get("type"), str):
        return False
    places = [event.get(name) for name in ("change", "refUpdate")]
    named = [place["project"] for place in places if isinstance(place, dict) and isinstance(place.get("project"), str)]
    return named[:1] in ([PROJECT], ["p"], ["q"], ["r"], ["base"]) and event["type"].startswith("patchset-created")


def records_in_scripts(judge, texts):
    """Brings records from `offer` to `give` in scripts. Each gets its number, and `give` moves those that the pipeline selects."""
    texts = [text for text in texts if text and b"\n" not in text]
    for begin in range(0, len(texts), BATCH):
        batch = texts[begin : begin + BATCH]
        steps = b"".join(b"offer 0 %s\ntake 0\nsend 0\nfetch 0 1\nmatch 0\ngive 0\n" % without_cr(text) for text in batch)
        found = judge.run(["replay", "config", "script"], config=CONFIG, script=steps)
        answers = found[1].split(b"\n")
        if found[0] != 0 or found[2] or len(answers) < 6 * len(batch) + 3:
            judge.judge(False, f"a script of {len(batch)} records", found)
            continue
        for place, text in enumerate(batch):
            told = answers[6 * place : 6 * place + 6]
            given = b"moved" if is_selected(without_cr(text)) else b"idle"
            judge.judge(told[:2] == [b"accepted %d" % place, b"moved"] and told[5] == given, f"{text}, given {given}", told)


def without_cr(text):
    """The record with white space in place of a CR at its end: the reader of a script drops a CR before the LF of a line."""
    return text[:-1] + b" " if text.endswith(b"\r") else text


def lines_of(stream):
    """The records of a stream."""
    lines = [line.removesuffix(b"\r") for line in stream.split(b"\n")[:-1]] + [stream.split(b"\n")[-1]]
    return [line for line in lines if line]


def records_in_streams(judge, texts):
    """Gives records to `serve` as a stream, also some with LF in them. The report counts all lines, and lists those that the pipeline
    selects."""
    for begin in range(0, len(texts), BATCH):
        stream = b"\n".join(texts[begin : begin + BATCH])
        records = lines_of(stream)
        done = [number for number, text in enumerate(records) if len(text) <= MAX_LINE and is_selected(text)]
        wanted = b'connection "gerrit" accepted %d ended\npipeline "main" "check" finished\n' % len(records)
        wanted += b" ".join([b'done "main" "check" "gerrit"', *(b"%d" % number for number in done)]) + b"\n"
        found = judge.run(["serve", "config", "none", "gerrit=file:stream"], config=CONFIG, stream=stream)
        judge.judge(found == (0, wanted, b""), f"a stream of {len(records)} records", found)
