"""Mutants as edits of a crate's sources, and the functions that they change."""
import collections
import dataclasses
import os
import re
import subprocess
import tempfile

from .checks import KIT, rtlib, sources

# The names of goals of the function's own contract: its clauses, a loop's or a type's invariant. Others are of what it does
# on the way: a call, an index, a sum, an end.
OF_CONTRACT = re.compile(r"(\S+-)?(returns|invariant_of|loop-\S+-(init|preserved))(-|\Z)")


# What antt says where a goal is clear: of a kept answer whose names are all there, that its type and the goal's, computed as far as they
# go, aren't the same, or at which numbers the goal fails; of a search, that it has come to its end.
DIFFERS = re.compile(r"the two types (?:first )?differ|the goal does not follow from what it read\. All of that holds, and the goal fails")
ENDED = re.compile(r"Every way was tried: a deeper search would find nothing either|" + DIFFERS.pattern)
# What a check makes of a body's shape: its names, the arguments of a call. Where these differ, nothing is said of a value.
OF_SHAPE = re.compile(r"\.proofs\.\S+\.(?:Lts|View|Tie|Given|Goals)\b|\bborrow\.Fn\.|\.locals\b")


class Unfit(Exception):
    """Why an edit can't be judged as a mutant."""


@dataclasses.dataclass(frozen=True)
class Change:
    """New text in place of the bytes from start to end of a file."""

    file: str
    start: int
    end: int
    new: bytes

    def inner(self, data):
        """Returns the bytes that really change, less what the old and the new text begin and end with."""
        old = data[self.start : self.end]
        front = len(os.path.commonprefix([old, self.new]))
        back = len(os.path.commonprefix([old[front:][::-1], self.new[front:][::-1]]))
        return self.start + front, self.end - back


@dataclasses.dataclass(eq=False)
class Body:
    """A mutant, or a control."""

    name: str
    # The text of its edit, less the lines that say why its verdict is weak, and these.
    text: str
    why: str
    changes: list
    functions: list = dataclasses.field(default_factory=list)
    # Whether all that changes is the inside of one function, so that others can be tried beside it.
    is_inside: bool = False
    # The symbols of changed functions through which it fell in an earlier round.
    avoids: set = dataclasses.field(default_factory=set)
    # The proof files of its function without the answers that no longer fit, and these by their names: what antt says of the value
    # in which an answer differs, or nothing where the answer can't be read over the changed body.
    proofs: dict = dataclasses.field(default_factory=dict)
    stale: dict = dataclasses.field(default_factory=dict)
    # The goals at which a tactic gave up, which are searched alone then, and what antt says of a search that came to its end.
    probes: dict = dataclasses.field(default_factory=dict)
    # What a check said of its functions before.
    searched: dict = dataclasses.field(default_factory=dict)
    tries: int = 0

    def failed(self, verdict):
        """Returns the goals of the contract that failed. One whose answer was taken out is among them if the answer differs in a value,
        and one at which a tactic gave up if a search of it alone came to its end."""
        of_contract = [(name, how) for _, name, how in verdict.goals if OF_CONTRACT.match(name)]
        found = [name for name, how in of_contract if self.stale.get(name, "gave up" not in how)]
        return found + [name for name, said in self.probes.items() if said and name not in found]

    def answers(self, folder, file):
        """Yields each part of a proof file as it stands now: its text, its lines, and the name of the answer that it is, or nothing."""
        at = 1
        for part in re.split(r"(\n\n+)", self.proofs.get(file, rtlib.text_of(f"{folder}/{file}")) or ""):
            answer = re.match(r"(?:abbrev )?(?:pub )?(\S+) :", part)
            yield part, range(at, at + part.count("\n") + 1), answer and answer[1]
            at += part.count("\n")

    def drop_stale(self, folder, errors):
        """Takes the answers at these places out of the proof files, and says whether there were any. What antt says of a goal that is
        searched alone is learned."""
        before = len(self.stale)
        for file in dict.fromkeys(file for file, _, _ in errors):
            said, left = {line: text for it, line, text in reversed(errors) if it == file}, ""
            for part, lines, name in self.answers(folder, file):
                found = [said[line] for line in lines if line in said]
                if name in self.probes:
                    self.probes[name] = next((clear(ENDED, it) for it in found), "")
                elif name and found:
                    self.stale[name] = next(filter(None, (clear(DIFFERS, it) for it in found)), "")
                    continue
                left += part
            self.proofs[file] = left
        return len(self.stale) > before

    def probe(self, folder, symbol, function, verdict):
        """Has the goals of the function's contract at which a tactic gave up searched alone, and says whether there are any."""
        names = [name for _, name, how in verdict.goals if OF_CONTRACT.match(name) and "gave up" in how]
        names = [it for it in names if it not in self.stale and it not in self.probes]
        if not names:
            return False
        where, file = symbol.split("::"), f"proofs/{'/'.join(symbol.split('::')[1:])}/Answers.antt"
        goals = f"Rattle.{where[0]}.proofs.{'.'.join(where[1:])}.Goals"
        text = "".join(part for part, _, _ in self.answers(folder, file))
        if not self.probes:
            text = f"use Rattle.std.proofs.Common.{{rules as probed_rules}}\nuse {goals} as probed\n{text}"
        c = "g c" if is_generic(function) else "c"
        for it in names:
            text = f"{text.rstrip()}\n\npub {it} : probed.{it}\n{it} {c} = search probed_rules\n"
            self.probes[it] = ""
        self.proofs[file] = text
        return True


def clear(words, error):
    """Returns what an error says from such words on, or nothing where it says none, or where two types differ in a body's shape."""
    found = words.search(error)
    said = error[found.start() :] if found else ""
    return "" if said.startswith("the two types") and OF_SHAPE.search(said[:600]) else said


def is_generic(function):
    """Whether a proof of this function is one for all types, which it gets before what the goal speaks of."""
    of_block = function.block.generics if function.block else []
    takes_any = any("impl" in ty for _, ty in function.params)
    return takes_any or any(not it.startswith("'") for it in [*function.generics, *of_block])


def tokens(file, data):
    """Returns the kind and the text of each word of a source."""
    with tempfile.TemporaryDirectory(prefix="mutants-") as room:
        whole = f"{room}/{os.path.basename(file)}"
        with open(whole, "wb") as it:
            it.write(data)
        ran = subprocess.run([f"{KIT}/rattle", "fmt", "--tokens", whole], capture_output=True, encoding="utf-8")
    if ran.returncode:
        raise Unfit(f"the prover can't read the edited text: {ran.stderr.strip()[:160]}")
    return [tuple(it.split(" ", 4)[3:]) for it in ran.stdout.split("\n")[1:] if it]


class Sources:
    """A crate's sources, and its edits."""

    def __init__(self, crate):
        self.folder = f"{crate.folder}/mutants"
        self.read = sources.Source(crate.folder)
        self.read.read("src/lib.rt")
        self.bodies, self.controls, self.unfit = [], [], []
        for file in sorted(it for it in os.listdir(self.folder) if it != "verdicts"):
            name = file.removesuffix(".edit")
            try:
                body = self.body(name, file)
                (self.controls if name.startswith("control-") else self.bodies).append(body)
            except Unfit as why:
                self.unfit.append((name, str(why)))

    def body(self, name, file):
        if name == file:
            raise Unfit("its name doesn't end in .edit")
        with open(f"{self.folder}/{file}", encoding="utf-8", errors="replace") as it:
            edit = it.read()
        changes, path, old, why = [], None, None, []
        for line in filter(None, edit.split("\n")):
            word, _, text = line.partition(":")
            text = text.removeprefix(" ")
            if word == "why" and not old:
                why.append(text.strip())
            elif word == "file":
                path = text.strip()
            elif word == "old" and path:
                old = text
            elif word == "new" and old:
                changes.append(self.change(path, old.encode(), text.encode()))
                old = None
            else:
                raise Unfit("it has a line that is no file, old or new text or why at its turn")
        if not changes or old:
            raise Unfit("it has no pair of an old and a new text, or half a pair")
        text = "".join(line for line in edit.splitlines(keepends=True) if not line.startswith("why:"))
        return self.placed(Body(name, text, " ".join(why), changes))

    def change(self, path, old, new):
        if not path.startswith("src/"):
            raise Unfit(f"it edits {path}, and a mutant edits code below src/ alone")
        if path not in self.read.data:
            raise Unfit(f"there is no file {path}, or only tests have it")
        found = self.read.data[path].count(old)
        if found != 1:
            raise Unfit(f"an old text stands in {path} {found} times, and not once")
        start = self.read.data[path].index(old)
        return Change(path, start, start + len(old), new)

    def placed(self, body):
        """Finds the functions that the edit changes, and whether it changes the inside of one alone."""
        for file, data in self.edited([body]).items():
            was, now = tokens(file, self.read.data[file]), tokens(file, data)
            if was == now:
                raise Unfit("it changes no word of the code")
            clauses = [[it for it in words if it[0] in ("Head", "Antt")] for words in (was, now)]
            if clauses[0] != clauses[1]:
                raise Unfit("it changes a clause, a ghost item or an import of these, and not the code")
        body.is_inside = True
        for it in body.changes:
            start, end = it.inner(self.read.data[it.file])
            near = [f for f in self.read.functions if f.file == it.file and f.has_body]
            touched = [f for f in near if f.first < max(end, start + 1) and start < f.end]
            body.functions += [f for f in touched if f not in body.functions]
            body.is_inside &= len(touched) == 1 and touched[0].opens < start and end < touched[0].end
        body.is_inside &= len(body.functions) == 1 and not body.functions[0].in_cycle
        return body

    def edited(self, bodies):
        """Returns the files that these edits change, with all of them applied."""
        changes = collections.defaultdict(list)
        for it in (it for body in bodies for it in body.changes):
            changes[it.file].append(it)
        made = {}
        for file, found in changes.items():
            data, found = self.read.data[file], sorted(found, key=lambda it: it.start)
            if any(a.end > b.start for a, b in zip(found, found[1:])):
                raise Unfit("two of its old texts overlap")
            for it in reversed(found):
                data = data[: it.start] + it.new + data[it.end :]
            made[file] = data
        return made
