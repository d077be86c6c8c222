"""A check of a crate's copy, and what it says of each function."""
import contextlib
import glob
import importlib.machinery
import importlib.util
import os
import re
import shutil
import signal
import subprocess
import sys
import tempfile
import time

KIT = os.path.dirname(os.path.realpath(shutil.which("rt") or sys.exit("tools/mutants: rt is not on PATH")))


def load(name):
    """Loads a program of the kit as a module."""
    loader = importlib.machinery.SourceFileLoader(name, f"{KIT}/{name}")
    made = importlib.util.module_from_spec(importlib.util.spec_from_loader(name, loader))
    loader.exec_module(made)
    return made


# rt knows a crate's libraries and the words of a check, rt-plant-bodies where functions stand.
rt, sources = load("rt"), load("rt-plant-bodies")
rtlib = rt.rtlib

UNPROVED = re.compile(r"(?m)^fn \S+: (not proved|no proof)")
GOAL = re.compile(r"note: \S+: (.*?) \(`(\S+)`\)(.*)")
LINE = re.compile(r"(fn|struct|enum|impl|trait|union|const|static|type) (\S+): ((?:not |could not |no )?\w.*)")
ERROR = re.compile(r"(?m)^(?:\./)?((?:src|specs|proofs)/\S+?):(\d+):\d+: error(.*(?:\n  .*)*)")
CALLEE = re.compile(r"(?:it calls|it passes|a call of|the call of)\b[^`]*`([^`]+)`")


class Verdict:
    """What a check says of a function: its words, and what it says of each goal that failed."""

    def __init__(self, words, goals):
        self.words, self.goals = words, goals
        self.is_proved = words.startswith("proved")

    def falls_through_callees(self):
        """Whether nothing of its own failed, and only what it calls isn't proved."""
        parts = self.words.split(": ", 1)[-1].split("; ")
        return not self.is_proved and not self.goals and all(map(CALLEE.match, parts))


class Said:
    """What a check said: of each function, of types and impls that aren't proved, and where it could not take a file."""

    def __init__(self, text, is_cut):
        self.text, self.functions, self.others, goals = text, {}, [], []
        self.errors = [(file, int(line), " ".join(said.split())) for file, line, said in ERROR.findall(text)]
        for line in text.split("\n"):
            goal, verdict = GOAL.match(line), LINE.match(line)
            if goal:
                goals.append(goal.groups())
            elif verdict and verdict[1] == "fn":
                self.functions[verdict[2]], goals = Verdict(verdict[3], goals), []
            elif verdict and not verdict[3].startswith("proved") and "it waits for the proof of" not in line:
                self.others.append(line)
        last = text.rstrip("\n").rpartition("\n")[2]
        self.is_proved = last.startswith("logic=proved ")
        is_whole = is_cut or self.is_proved or last.startswith("logic=not-proved")
        is_sure = not any("could not tell" in it.words for it in self.functions.values())
        self.is_judged = is_whole and is_sure and not rtlib.STALE.search(text)

    def first_error(self):
        found = re.search(r"(?m)^.*\berror\b.*$|^rattle: .*$", self.text)
        return found[0].strip()[:200] if found else "the check printed no verdict"

    def roots(self, symbol, seen=()):
        """Returns the functions that failed by themselves and through which this one falls."""
        verdict = self.functions.get(symbol)
        if verdict is None or verdict.is_proved:
            return set()
        below = {it for it in CALLEE.findall(verdict.words) if it not in seen}
        found = {it for name in below for it in self.roots(name, (*seen, symbol))}
        return found if verdict.falls_through_callees() and found else {symbol} | found


def end(pid):
    """Ends a process and those that it started."""
    for thread in glob.glob(f"/proc/{pid}/task/*/children"):
        for it in (rtlib.text_of(thread) or "").split():
            end(int(it))
    with contextlib.suppress(ProcessLookupError):
        os.kill(pid, signal.SIGKILL)


def check(crate, texts, kept, until=None):
    """Checks a copy of the crate with these texts, over what kept holds if it is given. Once each function's verdict is
    printed and one isn't proved the check is ended: lines to start proofs with, which follow, take half as long again. Where it
    isn't done by then, it is ended, too, and there is nothing to return."""
    with tempfile.TemporaryDirectory(prefix="mutants-") as room:
        for part in filter(lambda it: os.path.isdir(f"{crate.folder}/{it}"), rtlib.PARTS):
            shutil.copytree(f"{crate.folder}/{part}", f"{room}/{part}")
        for path, text in texts.items():
            os.makedirs(os.path.dirname(f"{room}/{path}"), exist_ok=True)
            with open(f"{room}/{path}", "w", encoding="utf-8") as it:
                it.write(text)
        words = crate.words(["--jobs", "1", "--stage-times", f"{room}/stages"], keeps=False)
        words = [*rtlib.guarded(), rtlib.RATTLE, "check", *words, *(["--incremental", kept] if kept else [])]
        how = {"cwd": room, "stdin": subprocess.DEVNULL, "stderr": subprocess.STDOUT}
        with open(f"{room}/said", "w") as said, subprocess.Popen(words, stdout=said, **how) as ran:
            is_cut = False
            while ran.poll() is None and not is_cut:
                time.sleep(0.2)
                has_verdicts = "stage lines " in (rtlib.text_of(f"{room}/stages") or "")
                is_cut = has_verdicts and bool(UNPROVED.search(rtlib.text_of(f"{room}/said")))
                if until is not None and time.monotonic() > until:
                    end(ran.pid)
                    return None
            if is_cut:
                end(ran.pid)
        return Said(rtlib.text_of(f"{room}/said"), is_cut)
