"""The sizes of a machine, which tell why a row waited, and whether a trace keeps them."""

import re
from collections import Counter

from files import Refusal
from pipetrace import MARKS

# The option, what a page calls the size, and the default.
SIZES = {
    "-fetch:ifqsize": ("ifq", 4), "-decode:width": ("decode", 4), "-issue:width": ("issue", 4),
    "-commit:width": ("commit", 4), "-ruu:size": ("ruu", 16), "-lsq:size": ("lsq", 8), "-res:ialu": ("alus", 4),
    "-res:imult": ("multipliers", 1), "-res:memport": ("ports", 2), "-issue:inorder": ("in_order", 0),
    "-issue:wrongpath": ("wrong_issue", 1),
}
OPTION_OF = {size: option for option, (size, _) in SIZES.items()}
POOL = {"alu": "alus", "multiply": "multipliers", "divide": "multipliers"}
IN_A_CYCLE = {"F": ("decode",), "D": ("decode",), "C": ("commit",), "I": ("issue",), "A": ("issue", "ports")}


def sizes(lines, name):
    """The sizes by the lines of a configuration, of which other options are passed over."""
    found = dict(SIZES.values())
    for number, line in enumerate(lines, 1):
        words = line.decode("ascii", "replace").split("#")[0].split()
        if not words or words[0] not in SIZES:
            continue
        value = {"true": "1", "false": "0"}.get("".join(words[1:]), "".join(words[1:]))
        if len(words) != 2 or not re.fullmatch("[0-9]{1,6}", value):
            raise Refusal(f"{name}: line {number}: {words[0]} has no such value")
        found[SIZES[words[0]][0]] = int(value)
    return found


def misfit(rows, machine, instruction_of, window):
    """Where the rows exceed a size in the window's cycles, in words, or nothing."""
    first, last = window or (0, float("inf"))
    counts = Counter()
    for row in rows:
        known = instruction_of(row)
        for cycle, code in row.marks:
            for size in counted(MARKS[code], known):
                counts[cycle, MARKS[code] if size == "decode" else "", size] += 1
    held = [((cycle, "", size), count) for cycle, size, count in occupancy(rows, instruction_of)]
    for (cycle, _, size), count in sorted([*counts.items(), *held]):
        if count > machine[size] and first <= cycle <= last:
            return f"in cycle {cycle} there are {count} for {OPTION_OF[size]} {machine[size]}"
    return ""


def counted(mark, known):
    """The sizes that bound how many such marks there are in a cycle."""
    pool = POOL.get(known.unit()) if known and mark == "I" else None
    return (*IN_A_CYCLE.get(mark, ()), *([pool] if pool else []))


def occupancy(rows, instruction_of):
    """How many rows are in the queue and in the unit, and loads and stores among these, at the end of each cycle in which
    that changes."""
    changes = Counter()
    for row in rows:
        known = instruction_of(row)
        at = {MARKS[code]: cycle for cycle, code in row.marks}
        inside = ("ruu", "lsq") if known and known.kind() in ("load", "store") else ("ruu",)
        leaves = min((at[mark] for mark in "CX" if mark in at), default=None)
        if "F" in at:
            span(changes, ("ifq",), at["F"], at.get("D", leaves))
        if "D" in at:
            span(changes, inside, at["D"], leaves)
    held = Counter()
    cycles = sorted({cycle for cycle, _ in changes})
    for cycle in cycles:
        for size in ("ifq", "ruu", "lsq"):
            held[size] += changes[cycle, size]
            yield cycle, size, held[size]


def span(changes, names, begins, ends):
    for size in names:
        changes[begins, size] += 1
        if ends is not None:
            changes[ends, size] -= 1
