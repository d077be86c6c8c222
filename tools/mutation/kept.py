"""Verdicts that were reached before: those that the repository records, and those of earlier runs on this machine, which lie in a
folder of the user's caches. Both have the sum of all that a verdict rests on, so none of them goes stale. A sum takes the reading of the
crate and of those below it."""
import contextlib
import functools
import glob
import hashlib
import json
import os
import re
import subprocess
import tempfile

from .checks import rtlib, sources

# The modules that make the verdicts.
JUDGING = ("checks", "edits", "rounds")
HERE = os.path.dirname(os.path.realpath(__file__))
CACHES = os.environ.get("XDG_CACHE_HOME") or os.path.expanduser("~/.cache")
LINE = re.compile(r"(\S+) (refused|weak) ([0-9a-f]{64})")
# An import of names into one file: what stands before them, and they.
IMPORT = re.compile(rb"^ *((?:ghost )?use [\w:.+]+?[.:])(\{[^}]*\}|\w+(?: as \w+)?);\n?", re.M)
# A line that says nothing to other crates.
SILENT = re.compile(rb"\s*(//|mod \w+;)")
PROOF = re.compile(rb"\bRattle\.(\w+)\.proofs((?:\.[\w+]+)+)")


def bytes_of(file):
    with open(file, "rb") as it:
        return it.read()


def files_in(folder, parts):
    """The files of these parts of a crate, each beside its path in it."""
    found = [file for part in parts for file in glob.glob(f"{glob.escape(folder)}/{part}/**/*", recursive=True)]
    return [(os.path.relpath(it, folder), bytes_of(it)) for it in sorted(found) if os.path.isfile(it)]


@functools.lru_cache(maxsize=None)
def kit():
    return subprocess.run(["rt", "version"], capture_output=True, check=True).stdout


def seen_of(folder):
    """What a check of a crate above sees of this one, beside its line of crates.txt: the definitions, and the code without functions that
    aren't public and without the bodies of the others."""
    files = [it for part in ("src", "specs") for it in glob.glob(f"{glob.escape(folder)}/{part}/**/*", recursive=True)]
    return seen_as(folder, tuple((it, os.stat(it).st_mtime_ns, os.stat(it).st_size) for it in sorted(files)))


@functools.lru_cache(maxsize=None)
def seen_as(folder, _files):
    read = sources.Source(folder)
    read.read("src/lib.rt")
    texts = []
    for file, data in sorted(read.data.items()):
        # (Where the kit doesn't say which functions are constants, each is taken for one.)
        plain = [it for it in read.functions if it.file == file and it.has_body and not getattr(it, "is_constant", True)]
        text, end = b"", 0
        for begin, closes in sorted((it.opens if it.is_pub else it.first, it.end) for it in plain):
            # A function that stands in another's body has gone with that.
            if begin >= end:
                text, end = text + data[end:begin], closes
        texts.append((file, code_in(text + data[end:])))
    return [(file, text) for file, text in texts if text], files_in(folder, ["specs"])


def code_in(text):
    """A file's code without comments and names of modules that aren't public, and without what is imported and stands nowhere in the
    rest."""
    text = b"\n".join(line for line in text.split(b"\n") if line.strip() and not SILENT.match(line))
    rest = IMPORT.sub(b"", text)

    def wanted(found):
        names = [name.strip() for name in found[2].strip(b"{}").split(b",") if name.strip()]
        used = b", ".join(name for name in names if is_used(name.split()[-1], rest))
        return used and found[1] + b"{" + used + b"};\n"

    return IMPORT.sub(wanted, text)


def is_used(name, text):
    """Whether an imported name stands in a text: a word, or an operator whose places are written as rings."""
    parts = [it for it in name.replace("\u25cc".encode(), b" ").split() if it]
    return all(re.search(rb"(?<!\w)" + re.escape(it) + rb"(?!\w)" if re.fullmatch(rb"\w+", it) else re.escape(it), text) for it in parts)


def cited(texts, folders):
    """The files of proofs of crates below that these texts import, and what those import in turn."""
    found, left = {}, [data for _, data in texts]
    while left:
        for name, path in PROOF.findall(left.pop()):
            file = f"{folders.get(name.decode())}/proofs{path.decode().replace('.', '/')}.antt"
            for it in (file, f"{os.path.dirname(file)}.antt"):
                if it not in found and os.path.isfile(it):
                    found[it] = bytes_of(it)
                    left.append(found[it])
    return [found[it] for it in sorted(found)]


class Kept:
    """What a crate's mutants came to, by the sum of all that a verdict rests on: the kit, what judges, the crate's own files
    and its controls, of the crates below what a check sees of them, and the edit itself."""

    def __init__(self, crate, is_anew):
        self.crate, self.is_anew = crate, is_anew
        self.at = f"{CACHES}/gate-mutants"
        self.file = f"{crate.folder}/mutants/verdicts"
        lines = (rtlib.text_of(self.file) or "").splitlines()
        found = [LINE.fullmatch(it) for it in lines]
        self.unread = [line for line, match in zip(lines, found) if not match]
        self.recorded = {match[1]: (match[2], match[3]) for match in found if match}
        self.begun = self.base()

    def base(self):
        """Returns what all of the crate's verdicts rest on, as it stands now."""
        below = self.crate.below()
        program = [bytes_of(f"{HERE}/{it}.py") for it in JUDGING]
        controls = [bytes_of(it) for it in sorted(glob.glob(f"{self.crate.folder}/mutants/control-*.edit"))]
        own = files_in(self.crate.folder, rtlib.PARTS)
        lines = [(it.name, it.said, [dep.name for dep in it.deps], list(it.of_kit)) for it in [*below, self.crate]]
        seen = [(it.name, seen_of(it.folder)) for it in below]
        proofs = cited(own, {it.name: it.folder for it in below})
        return hashlib.sha256(repr((kit(), program, controls, own, lines, seen, proofs)).encode()).digest()

    def key(self, body):
        return hashlib.sha256(self.begun + repr((body.name, body.text)).encode()).hexdigest()

    def record(self, body):
        """Returns the verdict on a mutant that the repository records, if it rests on what stands here."""
        verdict, key = self.recorded.get(body.name, (None, None))
        return verdict if key == self.key(body) else None

    def verdict(self, body):
        """Returns the verdict on a mutant and why, if an earlier run on this machine has kept it."""
        if not self.is_anew:
            with contextlib.suppress(TypeError, ValueError):
                verdict, why = json.loads(rtlib.text_of(f"{self.at}/{self.key(body)}"))
                return verdict, why

    def is_unchanged(self):
        return self.base() == self.begun

    def keep(self, verdicts):
        """Keeps verdicts, each with its mutant and why, unless a file that they rest on was changed meanwhile."""
        if not self.is_unchanged():
            return
        with contextlib.suppress(OSError):
            os.makedirs(self.at, exist_ok=True)
            for body, verdict, why in verdicts:
                with tempfile.NamedTemporaryFile("w", dir=self.at, delete=False, encoding="utf-8") as it:
                    json.dump([verdict, why], it)
                os.replace(it.name, f"{self.at}/{self.key(body)}")

    def write(self, verdicts):
        """Records verdicts in the repository, each with its mutant, in place of all that was recorded of the crate."""
        if self.is_unchanged():
            lines = sorted(f"{body.name} {verdict} {self.key(body)}\n" for body, verdict in verdicts)
            with open(self.file, "w", encoding="utf-8") as it:
                it.writelines(lines)
