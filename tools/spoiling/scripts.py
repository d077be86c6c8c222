"""Spoiled scripts: which line is the first faulty one. Each is a run of its own, which takes as long as the program
takes to start."""
import re

from .inputs import CONFIG, WHOLE

KEY = rb'(change \d+ -?\d+|ref \d+ "[^\n]*" "[^\n]*" "[^\n]*")'
ANSWER = (
    rb"accepted \d+|closed|full|moved|idle|passed|turned (trigger \d+ \d+|result \d+|dequeue|reset) "
    rb"(applied|discarded (no-key|no-jobs|known|older|not-current|no-job|repeated|no-item|numbers))|shown \d+ \d+|"
    rb"item " + KEY + rb' patchset -?\d+ set \d+( "[^\n]*" (waiting|success|failure))*|'
    rb"report " + KEY + rb" patchset -?\d+ set \d+ (success|failure)"
)
PLAYED = (
    rb"((" + ANSWER + rb")\n)*"
    rb'connection "gerrit" accepted \d+ (open|ended)\n(renewed "gerrit" \d+\n)?pipeline "main" "check" (running|finished)\ndone "main" "check" "gerrit"( \d+)*\n'
)


def below(digits, bits):
    return re.fullmatch(rb"[0-9]+", digits) and len(kept := digits.lstrip(b"0")) < 25 and int(kept or b"0") < 2**bits


def is_text(text):
    try:
        return bool(text.decode())
    except UnicodeDecodeError:
        return False


def is_key(text):
    kind, _, rest = text.partition(b" ")
    words = rest.split(b" ", 3 if kind == b"ref" else -1)
    if kind == b"change" and len(words) == 2:
        return below(words[0], 32) and re.fullmatch(rb"[+-]?[0-9]+", words[1]) and -(2**63) <= int(words[1]) < 2**63
    return kind == b"ref" and len(words) == 4 and below(words[0], 32) and all(map(is_text, words[1:]))


def is_line(line):
    """Whether a line of a script stands for something."""
    if not line or line.startswith(b"#"):
        return True
    word, _, rest = line.partition(b" ")
    one, two = (b"oversize", b"close", b"renew", b"take", b"send", b"match", b"give"), (b"fetch", b"turn", b"show")
    count = dict.fromkeys(one, 1) | dict.fromkeys(two, 2)
    if word in count:
        words = rest.split(b" ")
        return len(words) == count[word] and all(below(number, 32) for number in words)
    if word == b"offer":
        number, _, record = rest.partition(b" ")
        return below(number, 32) and record
    fields = rest.split(b" ", 4 if word == b"result" else 2)
    if word == b"result" and len(fields) == 5:
        numbers = below(fields[0], 32) and below(fields[1], 32) and below(fields[2], 64)
        return numbers and fields[3] in (b"success", b"failure") and is_text(fields[4])
    return word in (b"dequeue", b"reset") and len(fields) == 3 and below(fields[0], 32) and below(fields[1], 32) and is_key(fields[2])


def scripts(judge, texts):
    for text in texts:
        ended = [line.removesuffix(b"\r") for line in text.split(b"\n")[:-1]]
        faulty = [number for number, line in enumerate([*ended, text.split(b"\n")[-1]], 1) if not is_line(line)]
        words = ["replay", "config,next", "script"]
        status, stdout, stderr = found = judge.run(words, config=CONFIG, next=WHOLE, script=text)
        if faulty:
            judge.judge(found == (3, b"", b"fault: script %d\n" % faulty[0]), f"the script {text}, fault {faulty[0]}", found)
        else:
            judge.judge(status == 0 and not stderr and re.fullmatch(PLAYED, stdout), f"the script {text}", found)
