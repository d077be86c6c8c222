"""What spoils a text, and what runs the program on spoiled inputs and counts. A run takes as long as the program takes to
start and to read the input, and SECONDS at the most."""
import random
import subprocess

from live.peers import PROGRAM

SECONDS = 20
SHOWN = 10
BYTES = b'"\\{}[],:09-+x \r\n\0\xff\x80'


def spoiled_texts(text):
    """The text, its prefixes, and it with each byte replaced."""
    yield text
    for end in range(len(text)):
        yield text[:end]
    for place, old in enumerate(text):
        for byte in BYTES:
            if byte != old:
                yield text[:place] + bytes([byte]) + text[place + 1 :]


def sample(text, count):
    """All of the spoiled texts, or so many of them, always the same."""
    texts = list(spoiled_texts(text))
    return texts if count is None or count >= len(texts) else [text, *random.Random(len(text)).sample(texts, count)]


class Judge:
    """Runs the program in a folder, and counts what passed and failed."""

    def __init__(self, scratch):
        self.scratch = scratch
        self.passed = self.failed = 0

    def run(self, words, **files):
        """The status, standard output and standard error of these words with these files."""
        for name, content in files.items():
            (self.scratch / name).write_bytes(content)
        try:
            done = subprocess.run([PROGRAM, *words], cwd=self.scratch, stdin=subprocess.DEVNULL, capture_output=True, timeout=SECONDS)
        except subprocess.TimeoutExpired:
            return None, b"", b"not done after %d seconds" % SECONDS
        return done.returncode, done.stdout, done.stderr

    def judge(self, is_right, what, found):
        if is_right:
            self.passed += 1
            return
        self.failed += 1
        if self.failed <= SHOWN:
            print(f"{what[:300]}\n    found {str(found)[:600]}")
