"""The mutants of a crate, judged in rounds."""
import os
import sys
import tempfile
import threading
import time
from concurrent.futures import ThreadPoolExecutor

from .checks import check, rt
from .edits import Sources
from .kept import Kept
from .slots import Slots

printing = threading.Lock()
# Checks go side by side, whichever crate they are of: one a processor, each with one job. With more, or over nothing that was
# kept, copies of rattle try failing proofs first, and then it tries them again.
slots = Slots(rt.processors())
# How many seconds before the time is up the last check of mutants may begin.
LAST = 480
# The fewest and the most mutants of a round, where there are as many: a third of a round of twelve goes into reading the
# libraries, and rounds go side by side.
FEWEST, MOST = 6, 24


def is_of(name, symbols):
    """Whether a check's name is that of one of these functions, or of a closure in it."""
    return any(name == it or name.startswith(f"{it}::") for it in symbols)


def folder_of(symbol):
    """Returns the folder of the function's own proof files."""
    return f"proofs/{'/'.join(symbol.split('::')[1:])}/"


class Judging:
    """A crate whose mutants are judged. Those that the repository records aren't, unless all of the crate are to be:
    anew, to be recorded, or as a sample, of which each verdict has to be as it is recorded."""

    def __init__(self, crate, is_anew=False, until=None, is_recording=False, is_sample=False):
        self.crate, self.name, self.sources = crate, crate.name, Sources(crate)
        self.kept = Kept(crate, is_anew or is_sample)
        self.is_recording, self.skips_recorded = is_recording, not (is_anew or is_recording or is_sample)
        self.is_sample = is_sample
        self.lines = crate.count(b"\n")
        # When all checks of mutants have to be done, by the monotonic clock, and how many of them were put off for that.
        self.until, self.put_off = until, 0
        # The crate's functions, by their names in a check.
        self.named = []
        self.refused, self.failed, self.old, self.recorded = 0, 0, 0, 0
        # The verdicts of this run and why, by the names of the mutants, and those that are recorded of what stands here.
        self.verdicts = {}
        self.records = {it.name: self.kept.record(it) for it in self.sources.bodies}
        # What the edits say of why their verdicts are weak, and which verdicts are.
        self.whys, self.weak = {it.name: it.why for it in self.sources.bodies}, set()
        self.is_controlled, self.asking = None, threading.Lock()

    def tell(self, name, verdict, why):
        recorded = self.records.get(name)
        if recorded and verdict != recorded:
            verdict, why = "FAILED", f"the record says {recorded}, and this is {verdict}, {why}"
        if verdict == "refused" and self.whys.get(name):
            verdict, why = "FAILED", f"its edit says why it is weak, and it is refused, {why}"
        if verdict == "weak":
            self.weak.add(name)
            why += f"; {self.whys[name]}" if self.whys[name] else ""
        with printing:
            print(f"{self.name}/{name}: {verdict}, {why}", flush=True)
        self.refused += verdict != "FAILED"
        self.failed += verdict == "FAILED"
        self.verdicts[name] = verdict, why

    def has_work(self):
        """Whether there is a mutant that is neither recorded nor judged by an earlier run on this machine."""
        left = [it for it in self.sources.bodies if not (self.skips_recorded and self.records[it.name])]
        return not self.sources.bodies or any(not self.kept.verdict(it) for it in left)

    def urgency(self):
        """The work that is left, by which crates take turns: a check of many lines takes longer, and so do many mutants."""
        return self.lines * (20 + sum(it.name not in self.verdicts for it in self.sources.bodies))

    def is_late(self):
        """Whether it is too late to begin a check of mutants."""
        return self.until is not None and time.monotonic() > self.until - LAST

    def note(self, text):
        """Tells on standard error how the work goes."""
        print(f"    {self.name}: {text}", file=sys.stderr, flush=True)

    def judge(self):
        """Judges the mutants, but for those that are recorded, or that an earlier run on this machine has judged."""
        bodies = self.sources.bodies
        self.leave_recorded()
        self.tell_kept()
        if self.sources.bodies or not bodies:
            self.judge_bodies()
        if self.is_recording and not self.failed and not self.put_off:
            self.kept.write([(it, self.verdicts[it.name][0]) for it in bodies])

    def leave_recorded(self):
        if self.skips_recorded:
            left = [it for it in self.sources.bodies if not self.records[it.name]]
            self.weak |= {it.name for it in self.sources.bodies if self.records[it.name] == "weak"}
            self.recorded = len(self.sources.bodies) - len(left)
            self.sources.bodies = left

    def judge_bodies(self):
        with tempfile.TemporaryDirectory(prefix="mutants-") as self.room, ThreadPoolExecutor() as self.pool:
            self.begin(f"{self.room}/kept")
            self.judge_all()

    def begin(self, kept):
        """Begins with what a check of this checkout kept: it saves the first check most of its time."""
        if not self.kept.is_anew and self.crate.has_kept():
            rt.linked(f"{self.crate.folder}/out/incremental", kept)

    def tell_kept(self):
        """Tells the verdicts of earlier runs, and leaves the other mutants to be judged."""
        found = {it: self.kept.verdict(it) for it in self.sources.bodies}
        for body, verdict in found.items():
            if verdict:
                self.tell(body.name, *verdict)
        self.sources.bodies = [it for it, verdict in found.items() if not verdict]
        self.old = len(found) - len(self.sources.bodies)

    def tell_unfit(self):
        """Tells which edits can't be judged, by their texts alone, and which lines of the record are of none."""
        for name, why in self.sources.unfit:
            self.tell(name, "FAILED", why)
        for line in self.kept.unread:
            self.tell("verdicts", "FAILED", f"the record has a line that isn't a name, a verdict and a sum: {line}")
        for name in sorted(self.kept.recorded.keys() - {it.name for it in self.sources.bodies}):
            self.tell(name, "FAILED", "the record has a line of it, and there is no such mutant")

    def judge_all(self):
        controls = self.sources.controls
        if not controls or not all(it.is_inside for it in controls):
            return self.tell("control", "FAILED", "there is no control-NAME.edit that changes the inside of one function")
        said = self.check([], in_time=True)
        if said is None:
            self.put_off += len(self.sources.bodies)
            return
        if not said.is_proved:
            return self.tell("control", "FAILED", "the crate itself isn't proved")
        self.named, self.left = [*said.functions], rt.listing(f"{self.room}/kept")
        waiting = [it for it in self.sources.bodies if self.is_for_rounds(it)]
        alone = [it for it in self.sources.bodies if it not in waiting]
        while waiting:
            batches, most = [], min(MOST, max(FEWEST, -(-len(waiting) // rt.processors())))
            while waiting:
                batch, waiting = self.batch(waiting, most)
                batches.append(batch)
            for later in self.pool.map(lambda it: self.round(it, alone), batches):
                waiting += later
        for _ in self.pool.map(self.judge_alone, alone):
            pass
        if rt.listing(f"{self.room}/kept") != self.left:
            return self.tell("control", "FAILED", "a round changed what was kept, so the rounds show nothing")
        if self.verdicts and not self.check([]).is_proved:
            return self.tell("control", "FAILED", "the crate itself isn't proved over what was kept, so the rounds show nothing")
        if self.is_controlled is not False:
            judged = [(it, *self.verdicts[it.name]) for it in self.sources.bodies if it.name in self.verdicts]
            self.kept.keep([it for it in judged if it[1] != "FAILED"])

    def is_for_rounds(self, body):
        """Whether it changes the inside of one function, which a check names and no control changes."""
        controlled = [f for it in self.sources.controls for f in it.functions]
        return body.is_inside and body.functions[0] not in controlled and self.symbol(body.functions[0]) is not None

    def batch(self, waiting, most):
        """Chooses so many mutants of different functions, none of which is one through which another fell."""
        batch, left, avoided, symbols, functions = [], [], set(), set(), set()
        for it in waiting:
            own = self.symbol(it.functions[0])
            if len(batch) == most or it.functions[0] in functions or own in avoided or symbols & it.avoids:
                left.append(it)
            else:
                batch.append(it)
                functions.add(it.functions[0])
                symbols.add(own)
                avoided |= it.avoids
        return batch, left

    def round(self, batch, alone):
        """Tries mutants of different functions at once, and returns those that are for a later round."""
        bodies = [*self.sources.controls, *batch]
        said = self.check(bodies, in_time=True)
        if said is None:
            self.put_off += len(batch)
            return []
        why_not = self.why_not(bodies, said)
        if why_not and not self.holds_control():
            self.put_off += len(batch) if self.is_controlled is None else 0
            return []
        if why_not and len(batch) == 1:
            alone += batch
            return []
        if why_not:
            self.note(f"this round shows nothing and is tried in halves: {why_not}")
            half = len(batch) // 2
            return self.round(batch[:half], alone) + self.round(batch[half:], alone)
        return [it for it in batch if self.is_for_later(it, said, alone)]

    def holds_control(self):
        """Whether the crate is proved with its control, as it is to be; it is tried once a round shows nothing. Where there is
        no time for that it stays unknown."""
        with self.asking:
            if self.is_controlled is None:
                said = self.check(self.sources.controls, in_time=True)
                self.is_controlled = said and said.is_proved
                if self.is_controlled is False:
                    why = "the crate isn't proved with it, so no round shows anything"
                    self.tell(self.sources.controls[0].name, "FAILED", why)
            return self.is_controlled

    def check(self, bodies, over_kept=True, in_time=False):
        """Checks the crate with these bodies, over a copy of what the check of the crate itself kept, so that none of them
        leaves anything behind: by links, since a check replaces such a file and changes none (which is looked at in the end). That check is the
        first one. Where it has to be done in time there may be nothing to return: it isn't begun late, and ended when the time is up."""
        texts = {file: data.decode() for file, data in self.sources.edited(bodies).items()}
        for it in bodies:
            texts.update(it.proofs)
        kept = f"{self.room}/kept"
        with slots.one(self.urgency()), tempfile.TemporaryDirectory(dir=self.room) as copy:
            if in_time and self.is_late():
                return None
            start = time.monotonic()
            if bodies and over_kept:
                rt.linked(kept, f"{copy}/kept")
                kept = f"{copy}/kept"
            said = check(self.crate, texts, kept if over_kept else None, self.until if in_time else None)
            took = time.monotonic() - start
        how = "s for" if said else "s, and not to its end, for"
        self.note(f"{took:.0f} {how} {', '.join(it.name for it in bodies) or 'the crate itself'}")
        return said

    def symbol(self, function):
        """Returns the name under which a check speaks of a function, or None where that isn't clear."""
        module, name = "::".join([self.name, *function.module]), function.name
        if function.in_trait:
            # a trait's method stands below its impl's module, and what is written of the impl is a word between the two
            parts = [(it, it.removeprefix(f"{module}::").split("::")) for it in self.named if it.startswith(f"{module}::")]
            found = [it for it, left in parts if len(left) == 2 and left[1] == name and function.block.fits(left[0])]
        elif function.block:
            # another method stands below its type's module, wherever the impl is
            found = [it for it in self.named if it.split("::")[-2:] == [function.owner, name]]
        else:
            found = [it for it in self.named if it == f"{module}::{name}"]
        return found[0] if len(found) == 1 else None

    def own(self, body):
        """Returns the names of what the body changes; of all, where it changes what belongs to no function."""
        found = [self.symbol(it) for it in body.functions]
        return found if found and None not in found else self.named

    def why_not(self, bodies, said):
        """Returns why a round doesn't count: what failed of a function that isn't changed, or of the control, or nothing."""
        changed = [it for body in bodies for it in self.own(body)]
        if not said.is_judged:
            return said.first_error()
        for name, it in said.functions.items():
            if not (it.is_proved or it.falls_through_callees() or is_of(name, changed)):
                return f"{name}: {it.words[:120]}"
        for name in (it for body in self.sources.controls for it in self.own(body)):
            if name not in said.functions or not said.functions[name].is_proved:
                return f"the control {name} isn't proved"
        folders = tuple(map(folder_of, changed))
        elsewhere = [f"{file}:{line}{text}" for file, line, text in said.errors if not file.startswith(folders)]
        return next(iter([*said.others, *elsewhere]), None)

    def fell(self, body, said):
        """Returns what was said of each function that the body changes, and of the closures in it, that isn't proved."""
        own = self.own(body)
        return {name: it for name, it in said.functions.items() if not it.is_proved and is_of(name, own)}

    def is_for_later(self, body, said, alone):
        """Tells the verdict on a mutant where the round shows it; else says whether it is for a later round, or alone."""
        fell = self.fell(body, said)
        body.tries += 1
        has_stale = self.drop_stale(body, said)
        if any(map(body.failed, fell.values())):
            self.tell_refused(body, fell)
            return False
        if fell and body.tries < 6:
            if all(it.falls_through_callees() for it in fell.values()):
                body.avoids |= {root for name in fell for root in said.roots(name)} - {*self.own(body)}
                return True
            if has_stale or self.probe(body, fell):
                return True
        if body.searched or any(it.goals for it in fell.values()):
            self.tell_weak(body, body.searched or fell)
        else:
            alone.append(body)
        return False

    def drop_stale(self, body, said):
        folders = tuple(map(folder_of, self.own(body)))
        errors = [it for it in said.errors if it[0].startswith(folders)]
        return body.drop_stale(self.crate.folder, errors)

    def probe(self, body, fell):
        """Has the goals at which a tactic gave up searched alone in the next try, and says whether there are any."""
        own = {self.symbol(it): it for it in body.functions}
        found = any([body.probe(self.crate.folder, name, own[name], it) for name, it in fell.items() if name in own])
        body.searched = fell if found else body.searched
        return found

    def tell_refused(self, body, fell):
        by = [(name, goal) for name, verdict in fell.items() for goal in body.failed(verdict)]
        goals = ", ".join(f"`{goal}`" for _, goal in by[:2])
        kept, searched = (next((it[goal] for _, goal in by[:2] if it.get(goal)), "")[:200] for it in (body.stale, body.probes))
        over = f"; over the kept answer {kept}" if kept else f"; by a search of it alone: {searched}" if searched else ""
        self.tell(body.name, "refused", f"by {by[0][0]}: {goals}{over}")

    def tell_weak(self, body, fell):
        name, (about, goal, how) = next((name, goal) for name, it in fell.items() for goal in it.goals)
        about = "the search gave up at a limit" if "gave up" in how else about.removeprefix("it is not proved that ")
        about = "a kept answer no longer fits" if goal in body.stale else about
        self.tell(body.name, "weak", f"{name}: {about} (`{goal}`)")

    def judge_alone(self, body):
        said = self.check_alone(body)
        while said and said.is_judged and not said.is_proved and body.tries < 8 and self.has_another_try(body, said):
            body.tries += 1
            said = self.check_alone(body)
        from_nothing = said and said.is_proved and self.check_alone(body, over_kept=False)
        if said is None or from_nothing is None:
            self.put_off += 1
            return
        fell = self.fell(body, said)
        words = next((it.words for it in fell.values() if not it.falls_through_callees()), None)
        if any(map(body.failed, fell.values())):
            self.tell_refused(body, fell)
        elif not said.is_judged:
            self.tell(body.name, "FAILED", f"the prover can't read the edited text: {said.first_error()}")
        elif said.is_proved and from_nothing.is_proved:
            self.tell(body.name, "FAILED", "the crate is still proved with it")
        elif said.is_proved:
            self.tell(body.name, "FAILED", "the crate is proved with it over what was kept, and not from nothing")
        elif body.searched or any(it.goals for it in fell.values()):
            self.tell_weak(body, body.searched or fell)
        elif said.errors or not words:
            self.tell(body.name, "FAILED", f"no goal of its own failed: {said.first_error()}")
        else:
            self.tell(body.name, "weak", words[:200])

    def has_another_try(self, body, said):
        """Whether the mutant is to be tried again: without answers that don't fit, or with goals that are searched alone."""
        fell = self.fell(body, said)
        return self.drop_stale(body, said) or not any(map(body.failed, fell.values())) and self.probe(body, fell)

    def check_alone(self, body, over_kept=True):
        return self.check([body], over_kept, in_time=True)
