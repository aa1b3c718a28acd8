"""Runs the blocks of a page, in order, in a folder of its own.

A block that opens with `adl NAME` is a file; `rows FILE N` has the rows of its report, which brute force has to find as well where
there are few structures; `console` has commands `$ luo ..` with what they write, where a line `..` means the rest; `python` is a
doctest."""
import doctest
import os
import re
import subprocess
import tempfile

from brute import Brute

BLOCK = re.compile(r"^```(adl|rows|console|python)([^\n]*)\n(.*?)^```$", re.M | re.S)
COMMAND = re.compile(r"^\$ luo (.*)\n((?:(?!\$ ).*\n)*)", re.M)
BRUTE = 500


def luo(program, words, folder):
    done = subprocess.run([program, *words], cwd=folder, stdin=subprocess.DEVNULL, stdout=subprocess.PIPE, stderr=subprocess.STDOUT,
                          timeout=60)
    return done.stdout.decode()


def same(want, got):
    return got.startswith(want[:-3]) if want.endswith("..\n") else got == want


def row_faults(program, file, last, want, folder):
    got = luo(program, ["analyse", file, last], folder)
    rows = "".join(line + "\n" for line in got.split("\n") if line[:1].isdigit())
    if rows != want:
        yield "the program writes %r" % (rows or got)
    with open(os.path.join(folder, file)) as f:
        brute = Brute(f.read())
    for line in want.splitlines():
        n, count, total = map(int, line.split()[:3])
        if count <= BRUTE and brute.row(n) != (count, total):
            yield "brute force finds %r at size %d" % (brute.row(n), n)


def block_faults(program, kind, words, body, folder, scope):
    if kind == "adl":
        with open(os.path.join(folder, words[0]), "w") as f:
            f.write(body)
    elif kind == "rows":
        yield from row_faults(program, words[0], words[1], body, folder)
    elif kind == "console":
        for command, want in COMMAND.findall(body):
            got = luo(program, [word.strip("'") for word in command.split()], folder)
            if not same(want, got):
                yield "%s writes %r" % (command, got)
    else:
        test = doctest.DocTestParser().get_doctest(body, scope, "block", None, 0)
        runner = doctest.DocTestRunner(verbose=False)
        said = []
        runner.run(test, out=said.append, clear_globs=False)
        scope.update(test.globs)
        yield from said


def page_faults(path, program):
    """Each block of a page and what is wrong with it."""
    with open(path) as f:
        page, scope = f.read(), {}
    with tempfile.TemporaryDirectory() as folder:
        for number, (kind, words, body) in enumerate(BLOCK.findall(page), 1):
            name = "%s, block %d (%s%s)" % (os.path.basename(path), number, kind, words)
            yield name, list(block_faults(program, kind, words.split(), body, folder, scope))
