"""luo-explain: the explanations that are kept, the examples of the page of the language, and the grammar."""

from __future__ import annotations

import os
import re
from pathlib import Path

import pytest
from conftest import EXAMPLES, PRODUCTIONS, TOP, one_line, run, tool
from mistakes import Mistake, expected, mistakes

from luo_tools.grammar import longest_prefix
from luo_tools.lexing import tokens_of
from luo_tools.rules import LIMITS, RULES

KEPT = expected()


@pytest.mark.parametrize("mistake", mistakes(), ids=lambda mistake: mistake.title)
def test_mistake(luo: str, mistake: Mistake) -> None:
    assert mistake.explained(luo).strip("\n") == KEPT[mistake.title].strip("\n")


def test_each_mistake_is_kept_once() -> None:
    titles = [mistake.title for mistake in mistakes()]
    assert sorted(titles) == sorted(KEPT) and len(titles) >= 49


@pytest.mark.parametrize("rule", [rule for rule in RULES if rule[0] in "YW"])
def test_examples_are_those_of_the_page(rule: str) -> None:
    page = re.sub(r" +", " ", (TOP / "docs" / "LANGUAGE.md").read_text())
    assert RULES[rule].wrong in page and RULES[rule].right in page


def test_each_rule_of_the_cases_is_explained(luo: str, tmp_path: Path) -> None:
    """Each wrong text of cases/rules has an explanation that says more than the rule."""
    for table in ("rules.txt", "founded.txt"):
        for block in (TOP / "cases" / "rules" / table).read_text().split("\n== ")[1:]:
            wrong = next(line[6:] for line in block.split("\n") if line.startswith("wrong "))
            if "[[" in wrong:
                continue
            (tmp_path / "f").write_text(wrong.replace("@", ""))
            done = tool("luo-explain", "f", folder=tmp_path)
            lines = done.stdout.decode().split("\n")
            assert done.returncode in (3, 4) and not done.stderr, (wrong, done.stderr)
            line = re.match(r"refused: ([YW]\d+)|limit: (\w+)", lines[0])
            assert line and (line[1] in RULES or line[2] in LIMITS), lines[0]
            assert line[2] or (sum("^" in shown for shown in lines) and len(lines) >= 7), (wrong, lines)


def test_each_prefix_goes_on_as_the_grammar_says(luo: str, tmp_path: Path) -> None:
    """At each token of a text the program refuses a word that isn't expected, at the place that the grammar here gives too."""
    tried = 0
    for path in PRODUCTIONS:
        text = path.read_bytes()
        tokens = tokens_of(text)
        for number in range(0, len(tokens), 7):
            cut = text[: tokens[number].start] + b" card "
            (tmp_path / "f").write_bytes(cut)
            line = run([luo, "format", tmp_path / "f"]).stderr.decode()
            here, prefix = longest_prefix(tokens_of(cut))
            if here == number and "card" not in prefix.expected():
                assert line == f"refused: G2 at token {number}, byte {tokens_of(cut)[number].start}\n"
                tried += 1
    assert tried > 40


@pytest.mark.parametrize("path", EXAMPLES, ids=lambda path: path.stem)
def test_examples_are_taken(luo: str, path: Path) -> None:
    assert longest_prefix(tokens_of(path.read_bytes()))[0] == len(tokens_of(path.read_bytes()))
    done = tool("luo-explain", path)
    assert done.returncode == 0 and done.stdout.decode() == f"{path}: nothing is refused\n"


def test_commands_pass_through(luo: str) -> None:
    path = TOP / "examples" / "perm.adl"
    assert tool("luo-explain", "analyse", path, 5).stdout == run([luo, "analyse", path, 5]).stdout
    assert tool("luo-explain", "run", path, "cycles", "[[#1]]").stdout == b"1\n"


def test_no_program() -> None:
    assert "no-such" in one_line(tool("luo-explain", "--luo", "/no-such", "f"))


def test_no_colours_in_a_pipe(luo: str, tmp_path: Path) -> None:
    assert "NO_COLOR" in os.environ or b"\x1b" not in tool("luo-explain", tmp_path).stdout
