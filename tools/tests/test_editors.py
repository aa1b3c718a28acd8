"""The grammars of Vim and TextMate, the completions of three shells, and the page of the manual."""

from __future__ import annotations

import json
import re
import subprocess
from pathlib import Path

import pytest
from conftest import EXAMPLES, PRODUCTIONS, TOOLS, TOP, run

from luo_tools.lexing import NAME, NUMBER, RESERVED, tokens_of

GROUPS = {
    "Universe": ("luoUniverse", "keyword.other.universe.luo", "labelled unlabelled"),
    "Definition": ("luoDefinition", "keyword.declaration.luo", "type measure procedure analyze"),
    "Construct": ("luoConstruct", "support.type.luo", "epsilon atom product sequence set cycle multiset powerset card"),
    "Statement": ("luoStatement", "keyword.control.luo", "begin end case of forall in do skip as"),
}
BY_WORD = {word: groups[:2] for *groups, words in GROUPS.values() for word in words.split()}
ODD = b"type a = 007 < > . <= >= .. \xc3\x84 & # % \xc3\x84 rest begin\n" + b"x" * 33 + b" " + b"y" * 32 + b" _ typed a_b 1..3\n"


def wanted(text: bytes) -> dict[int, tuple[str, str]]:
    """The groups of Vim and TextMate at the first and last byte of each token."""
    found = {}
    for token in tokens_of(text):
        groups = BY_WORD.get(token.kind)
        if token.kind == NAME:
            groups = ("luoName", "variable.other.luo")
        elif token.kind == NUMBER:
            groups = ("luoNumber", "constant.numeric.luo")
        for byte in (token.start, token.end - 1):
            found[byte] = groups or ("luoMark", "punctuation.luo")
    return found


def textmate(text: bytes) -> dict[int, str]:
    """The scope of each byte by the TextMate grammar: at each place the first match, and of those the first pattern."""
    grammar = json.loads((TOOLS / "editors/textmate/luo.tmLanguage.json").read_text())
    patterns = [(re.compile(p["match"].encode()), p["name"]) for p in grammar["patterns"]]
    scopes = {}
    start = 0
    for line in text.split(b"\n"):
        at = 0
        while at < len(line):
            match, name = min(((m, n) for p, n in patterns if (m := p.search(line, at))), key=lambda f: f[0].start(), default=(None, ""))
            if match is None:
                break
            scopes |= {start + byte: name for byte in range(match.start(), match.end())}
            at = match.end()
        start += len(line) + 1
    return scopes


def vim(paths: list[Path], folder: Path) -> list[dict[int, str]]:
    """The group of each byte of each file by Vim."""
    script = folder / "groups.vim"
    script.write_text(f"""set nocompatible encoding=utf-8
set runtimepath^={TOOLS}/editors/vim
syntax on
let out = []
for path in {json.dumps([str(path) for path in paths])}
  execute 'edit' path
  setfiletype luo
  for row in range(1, line('$'))
    for column in range(1, col([row, '$']) - 1)
      call add(out, (line2byte(row) + column - 2) . ' ' . synIDattr(synID(row, column, 0), 'name'))
    endfor
  endfor
  call add(out, 'end')
endfor
call writefile(out, '{folder}/groups')
qall!
""")
    run(["vim", "-e", "-s", "-N", "-u", "NONE", "-i", "NONE", "-n", "-S", script], folder=folder)
    found: list[dict[int, str]] = [{}]
    for line in (folder / "groups").read_text().split("\n")[:-1]:
        if line == "end":
            found.append({})
        else:
            byte, _, group = line.partition(" ")
            found[-1][int(byte)] = group
    return found[:-1]


def test_every_word_has_a_group() -> None:
    assert set(BY_WORD) == RESERVED


def test_grammars_on_all_programs(tmp_path: Path) -> None:
    paths = [*EXAMPLES, *PRODUCTIONS]
    for path, groups in zip(paths, vim(paths, tmp_path), strict=True):
        text = path.read_bytes()
        scopes = textmate(text)
        for byte, (group, scope) in wanted(text).items():
            assert (groups[byte], scopes[byte]) == (group, scope), (path, byte, text[byte : byte + 10])


def test_lexical_rules(tmp_path: Path) -> None:
    (tmp_path / "odd.adl").write_bytes(ODD)
    groups = vim([tmp_path / "odd.adl"], tmp_path)[0]
    scopes = textmate(ODD)
    for sign in (b"<", b">", b".", b"\xc3", b"&", b"#"):
        at = ODD.index(sign + b" ") if sign != b"\xc3" else ODD.index(sign)
        assert groups[at] == "luoBad" and scopes[at] == "invalid.illegal.luo", sign
    for sign in (b"<= ", b">= ", b".. "):
        assert groups[ODD.index(sign)] == "luoMark" and scopes[ODD.index(sign)] == "punctuation.luo"
    assert groups[ODD.index(b"rest")] == groups[ODD.index(b"begin")] == "luoComment"
    assert scopes[ODD.index(b"begin")] == "comment.line.percentage.luo"
    assert groups[ODD.index(b"xxx")] == "luoTooLong" and groups[ODD.index(b"yyy")] == "luoName"
    assert scopes[ODD.index(b"xxx")] == "invalid.illegal.name.luo" and scopes[ODD.index(b"yyy")] == "variable.other.luo"
    assert groups[ODD.index(b"typed")] == groups[ODD.index(b"a_b")] == "luoName" and groups[ODD.index(b"_ ")] == "luoMark"


def bash(words: list[str]) -> list[str]:
    """What bash offers for the last word."""
    listed = " ".join(f"'{word}'" for word in words)
    script = f"source {TOOLS}/completions/luo.bash; COMP_WORDS=({listed}); COMP_CWORD={len(words) - 1}; _luo; printf '%s\\n' \"${{COMPREPLY[@]}}\""
    return run(["bash", "--norc", "-c", script], folder=TOP / "examples").stdout.decode().split()


def fish(words: list[str]) -> list[str]:
    """What fish offers for the last word."""
    script = f"source {TOOLS}/completions/luo.fish; complete -C '{' '.join(words)}'"
    done = subprocess.run(["fish", "--no-config", "-c", script], cwd=TOP / "examples", capture_output=True, check=False)
    return [line.split("\t")[0] for line in done.stdout.decode().split("\n") if line]


def zsh(words: list[str]) -> list[str]:
    """What zsh's function offers, with the calls of the completion system written out."""
    listed = " ".join(f"'{word}'" for word in words)
    stubs = "compadd() { print -l -- ${(P)2} }; _files() { print -l -- *.adl }"
    script = f"{stubs}; words=({listed}); CURRENT={len(words)}; source {TOOLS}/completions/_luo"
    offered = run(["zsh", "-f", "-c", script], folder=TOP / "examples").stdout.decode().split()
    return [word for word in offered if word.startswith(words[-1])]


@pytest.mark.parametrize("shell", [bash, fish, zsh])
def test_completions(luo: str, tmp_path: Path, shell, monkeypatch: pytest.MonkeyPatch) -> None:
    (tmp_path / "luo").symlink_to(luo)
    monkeypatch.setenv("PATH", f"{tmp_path}:/usr/bin:/bin")
    assert shell(["luo", "an"]) == ["analyse"]
    assert "tree.adl" in shell(["luo", "analyse", "tr"])
    assert sorted(shell(["luo", "run", "networks.adl", ""])) == ["bunches", "compositions", "joints"]
    assert sorted(shell(["luo", "list", "sym.adl", "e"])) == ["expo", "expr"]
    assert shell(["luo", "run", "none.adl", ""]) == []


def test_page_of_the_manual() -> None:
    page = TOOLS / "man/luo.1"
    assert run(["mandoc", "-T", "lint", page]).stdout == b""
    done = run(["man", "--warnings", "-E", "UTF-8", "-l", "-Tutf8", "-Z", page])
    assert done.returncode == 0 and done.stderr == b""
