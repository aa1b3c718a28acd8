"""A listing in pieces: a plan of stretches of places, the work on one piece, and the join that checks each."""

from __future__ import annotations

import json
import os
import re
from collections.abc import Iterator
from dataclasses import asdict, dataclass

from .command import Failure, Progress
from .program import output_of
from .reports import read_report

STRETCH = 100_000
PLAN = "plan.json"
PLACE = re.compile(rb"(\d+) \S+\n")


@dataclass(frozen=True)
class Plan:
    """The structures of a type and size, cut into pieces of consecutive places of nearly equal number."""

    program: str
    file: str
    type: str
    size: int
    whole: int
    pieces: int

    def span(self, piece: int) -> tuple[int, int]:
        """The first place of a piece, and the one after its last."""
        return self.whole * piece // self.pieces, self.whole * (piece + 1) // self.pieces

    def stretches(self, piece: int) -> Iterator[tuple[int, int]]:
        """The first place and the number of structures of each run of `list` for a piece."""
        start, end = self.span(piece)
        for first in range(start, end, STRETCH):
            yield first, min(STRETCH, end - first)

    def name(self, piece: int) -> str:
        """The file of a piece."""
        return f"piece-{piece:0{len(str(self.pieces - 1))}}"


def count_of(program: str, file: str, kind: str, size: int, folder: str) -> int:
    """The number of structures that the row of `analyse` has: of a program with the same types, and one empty procedure."""
    lines = output_of(program, ["format", file]).split("\n")
    types = [line for line in lines if line.startswith(("labelled;", "unlabelled;", "type "))]
    named = set(re.findall(r"\w+", " ".join(types)))
    if kind not in named:
        raise Failure(f"{file} has no type {kind}")
    name = next(word for word in (f"count{i}" for i in range(len(named) + 1)) if word not in named)
    path = os.path.join(folder, "count.adl")
    with open(path, "w", encoding="ascii") as out:
        out.write("\n".join([*types, f"procedure {name}(x : {kind});", "begin", "end;", f"analyze {name};", ""]))
    report = output_of(program, ["analyse", path, str(size)])
    return read_report(report.encode()).tables[0].rows[size].count


def make_plan(program: str, file: str, kind: str, size: int, pieces: int, folder: str) -> Plan:
    """Makes a plan in a folder of its own."""
    output_of(program, ["list", file, kind, str(size), "0", "0"])
    try:
        os.makedirs(folder)
    except OSError as error:
        raise Failure(f"{folder}: {error.strerror}; a plan has a folder of its own") from error
    plan = Plan(program, os.path.abspath(file), kind, size, count_of(program, file, kind, size, folder), pieces)
    with open(os.path.join(folder, PLAN), "w", encoding="utf-8") as out:
        json.dump(asdict(plan), out, indent=1)
    return plan


def read_plan(folder: str) -> Plan:
    """The plan of a folder."""
    try:
        with open(os.path.join(folder, PLAN), encoding="utf-8") as file:
            return Plan(**json.load(file))
    except (OSError, ValueError, TypeError) as error:
        raise Failure(f"{folder} has no plan: {error}") from error


def work_on(folder: str, piece: int) -> bool:
    """Lists a piece, under another name until it is whole. False where it was there already."""
    plan = read_plan(folder)
    if not 0 <= piece < plan.pieces:
        raise Failure(f"the plan has the pieces 0 to {plan.pieces - 1}")
    path = os.path.join(folder, plan.name(piece))
    if os.path.exists(path):
        return False
    start, end = plan.span(piece)
    progress = Progress(plan.name(piece), end - start)
    part = f"{path}.part"
    with open(part, "wb") as out:
        for first, count in plan.stretches(piece):
            out.write(output_of(plan.program, ["list", plan.file, plan.type, str(plan.size), str(first), str(count)]).encode())
            progress.at(first + count - start)
    os.replace(part, path)
    progress.end()
    return True


def fault_of(plan: Plan, folder: str, piece: int) -> str | None:
    """What is wrong with a piece: it failed, was cut, or came twice; nothing where it is whole."""
    start, end = plan.span(piece)
    path = os.path.join(folder, plan.name(piece))
    if not os.path.exists(path):
        return "was cut off: its run didn't end" if os.path.exists(f"{path}.part") else "failed: there is no file"
    wanted = start
    with open(path, "rb") as file:
        for line in file:
            match = PLACE.fullmatch(line)
            if match is None:
                return f"was cut: its line for place {wanted} isn't whole"
            place = int(match[1])
            if place != wanted:
                return f"came twice: place {place} again after {wanted - 1}" if place < wanted else f"was cut: place {wanted} is missing"
            wanted += 1
    if wanted != end:
        return f"was cut: it ends before place {wanted}, and {end} is wanted" if wanted < end else f"came twice: it goes on past place {end - 1}"
    return None


def strangers(plan: Plan, folder: str) -> list[str]:
    """Files of the folder that look like pieces and are none of the plan: copies."""
    known = {plan.name(piece) for piece in range(plan.pieces)} | {plan.name(piece) + ".part" for piece in range(plan.pieces)}
    return sorted(name for name in os.listdir(folder) if name.startswith("piece-") and name not in known)


def faults(folder: str) -> tuple[Plan, list[tuple[int | None, str]]]:
    """The plan, and each piece with what is wrong with it, and files that are no pieces."""
    plan = read_plan(folder)
    found: list[tuple[int | None, str]] = []
    progress = Progress("pieces", plan.pieces)
    for piece in range(plan.pieces):
        progress.at(piece)
        fault = fault_of(plan, folder, piece)
        if fault:
            found.append((piece, f"{plan.name(piece)} {fault}"))
    progress.end()
    found += [(None, f"{name} is no piece of the plan: a piece came twice") for name in strangers(plan, folder)]
    return plan, found
