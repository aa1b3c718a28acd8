"""What the scripts beside this file share: copies in texts, and a run of the program in a folder of its own."""
import os
import re
import subprocess
import tempfile

CASES = os.path.dirname(os.path.dirname(os.path.abspath(__file__)))
COPIES = re.compile(r"\[\[(\d+)[|*]((?:(?!\[\[\d+[|*]).)*?)\]\]")


def expanded(text):
    """The text with `[[N|TEXT]]` and `[[N*TEXT]]` as N copies of TEXT, in which `#` is the number of the copy, from 0. Copies inside
    copies come first."""
    while COPIES.search(text):
        text = COPIES.sub(lambda m: "".join(m.group(2).replace("#", str(i)) for i in range(int(m.group(1)))), text)
    return text


def run(program, words, files=None, prepare=None):
    """The exit status, output and error line of the program, run on these words where these files lie. Where there is a script
    `with` among them, it starts the program, whose path is in PROGRAM."""
    with tempfile.TemporaryDirectory() as folder:
        for name, content in (files or {}).items():
            with open(os.path.join(folder, name), "wb") as f:
                f.write(content)
        if prepare:
            prepare(folder)
        way = ["bash", "./with"] if os.path.exists(os.path.join(folder, "with")) else [program]
        setting = dict(os.environ, PROGRAM=program)
        done = subprocess.run(way + words, cwd=folder, env=setting, stdin=subprocess.DEVNULL, capture_output=True, timeout=60)
    return done.returncode, done.stdout, done.stderr


class Tally:
    """Counts the cases, prints each that comes out otherwise, and says the sums in the last line."""

    def __init__(self):
        self.passed = self.failed = 0

    def add(self, name, want, got):
        if got == want:
            self.passed += 1
        else:
            self.failed += 1
            print("%s\n  want %r\n  got  %r" % (name, want, got))

    def status(self):
        print("%d passed, %d failed" % (self.passed, self.failed))
        return 1 if self.failed or not self.passed else 0
