"""Writes the log of Konata, the pipeline viewer, version 4: words of a line are parted by tabs.

Lane 0 has a stage for each of F, Q (where the words come after the fetch), D, I, W, C and X, which begins in the cycle
of that mark; lane 1 has the stage A of a load's access, which ends in the cycle of R. A row retires, or is flushed, in
the cycle behind its C or X, so that its last cell is seen.
"""

from pipetrace import MARKS

HEAD = "Kanata\t0004\n"
RETIRED, FLUSHED = 0, 1


def log(rows, name_of, detail_of):
    """The text of the log of these rows, whose names and details are given by two functions of a row."""
    lines = []
    for key, row in enumerate(sorted(rows, key=lambda row: (row.marks[0][0], row.number))):
        first = row.marks[0][0]
        lines.append((first, key, f"I\t{key}\t{row.number}\t0\n"))
        lines.append((first, key, f"L\t{key}\t0\t{name_of(row)}\n"))
        lines.append((first, key, f"L\t{key}\t1\t{detail_of(row)}\n"))
        lines += [(cycle, key, line) for cycle, line in stages(row, key)]
    lines.sort(key=lambda line: line[:2])
    return HEAD + "".join(with_cycles(with_retirements(lines)))


def stages(row, key):
    """The lines of a row's stages, with their cycles. A last line without its number retires or flushes the row."""
    marks = [(cycle, MARKS[code]) for cycle, code in row.marks]
    fetched = [cycle for cycle, mark in marks if mark == "F"]
    for cycle, mark in marks:
        if mark == "A":
            yield cycle, f"S\t{key}\t1\tA\n"
        elif mark == "R":
            yield cycle, f"E\t{key}\t1\tA\n"
        elif mark != "Q" or cycle not in fetched:
            yield cycle, f"S\t{key}\t0\t{mark}\n"
    ends = [mark for _, mark in marks if mark in "CX"]
    if ends:
        yield marks[-1][0] + 1, f"R\t{key}\t%d\t{RETIRED if ends[-1] == 'C' else FLUSHED}\n"


def with_retirements(lines):
    """The lines, with the numbers in which rows retire; a flushed row has the next one's."""
    retired = 0
    for cycle, _, line in lines:
        if line.startswith("R"):
            yield cycle, line % retired
            retired += line.endswith(f"\t{RETIRED}\n")
        else:
            yield cycle, line


def with_cycles(lines):
    """The lines, with a line in front of those of each further cycle."""
    now = None
    for cycle, line in lines:
        if now is None:
            yield f"C=\t{cycle}\n"
        elif cycle > now:
            yield f"C\t{cycle - now}\n"
        now = cycle
        yield line
