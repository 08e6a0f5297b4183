"""Reads pipetraces, exactly the texts of docs/pipetrace-format.md, and gives their rows."""

import re
from array import array
from functools import partial

# The marks of a text, by the group of a cycle in which they stand, and those of a picture, in the order of a cell:
# a fetch (+ in a text) is F, and Q is the cycle in which its words are there.
GROUP = {"C": 0, "W": 1, "R": 1, "X": 2, "I": 3, "A": 3, "D": 4, "+": 5}
MARKS = "CWRXIADFQ"
FETCHED, QUEUED = MARKS.index("F"), MARKS.index("Q")
CODE = {**{ord(mark): MARKS.index(mark) for mark in GROUP if mark != "+"}, ord("+"): FETCHED}
GROUP_OF = [GROUP["+" if mark in "FQ" else mark] for mark in MARKS]

NUMBER = rb"(0|[1-9][0-9]{0,18})"
EVENT = re.compile(rb"([CWRXIAD]) " + NUMBER + rb"\n")
FETCH = re.compile(rb"\+ " + NUMBER + rb" ([0-9a-f]{8}) ([0-9a-f]{8}) " + NUMBER + rb"\n")
CYCLE = re.compile(rb"@ " + NUMBER + rb"\n")
END = re.compile(rb"\. " + NUMBER + rb" (exited|budget|stopped)(?: (.*))?\n")
STOP = re.compile(rb"[0-9a-f]{8} " + NUMBER + rb" ([a-z-]+)(?: (.*))?")
FIELD = re.compile(rb"count|pc|r(0|[1-9][0-9]{0,2})|\[[0-9a-f]{8}\]")
PLAIN_CAUSES = (b"bad-fetch", b"illegal", b"overflow", b"divide-by-zero", b"break")
LIMIT = 2**62
LONGEST_LINE = 256

# Numbers up to here are exact in a page.
PAGE_LIMIT = 2**53


class BadLine(Exception):
    """The first line of a file that isn't as it has to be, from 1, and why."""

    def __init__(self, line, why):
        super().__init__(f"line {line}: {why}")


class Row:
    """A fetched instruction: its number, addresses, and marks as pairs of a cycle and a place in MARKS."""

    __slots__ = ("number", "pc", "next", "queued", "marks")

    def __init__(self, number):
        self.number, self.pc, self.next, self.queued, self.marks = number, None, None, None, []

    def has(self, mark):
        code = MARKS.index(mark)
        return any(it == code for _, it in self.marks)


class Trace:
    """A pipetrace: its events in order, and how the run ended."""

    def __init__(self):
        self.rows, self.cycles, self.codes = array("q"), array("q"), bytearray()
        self.pcs, self.nexts, self.queued = array("L"), array("L"), array("q")
        self.length, self.end = 0, ""

    def whole(self, limit):
        """All rows, in the order of their numbers; None where there are more than the limit."""
        if len(self.pcs) > limit or len(self.rows) > limit and len(set(self.rows)) > limit:
            return None
        return self.grouped(lambda row: True)

    def window(self, first, last, limit):
        """The rows that are there in one of these cycles, with all their marks."""
        begins, latest, ended = {}, {}, set()
        for row, cycle, code in zip(self.rows, self.cycles, self.codes):
            begins.setdefault(row, cycle)
            latest[row] = cycle
            if MARKS[code] in "CX":
                ended.add(row)
        kept = {row for row, cycle in begins.items() if cycle <= last and (row not in ended or latest[row] >= first)}
        return None if len(kept) > limit else self.grouped(kept.__contains__)

    def grouped(self, keeps):
        """The rows that are kept, each with its marks in the order of their cells."""
        found, fetches = {}, 0
        for number, cycle, code in zip(self.rows, self.cycles, self.codes):
            if keeps(number):
                row = found.get(number)
                if row is None:
                    row = found[number] = Row(number)
                row.marks.append((cycle, code))
                if code == FETCHED:
                    row.pc, row.next, row.queued = self.pcs[fetches], self.nexts[fetches], self.queued[fetches]
            fetches += code == FETCHED
        return [self.with_queued(found[number]) for number in sorted(found)]

    def with_queued(self, row):
        """The row with its Q among its marks, where that cycle came before the run's end and the row's squash."""
        squash = min((cycle for cycle, code in row.marks if MARKS[code] == "X"), default=self.length)
        if row.queued is not None and row.queued < self.length and row.queued <= squash:
            row.marks.append((row.queued, QUEUED))
            row.marks.sort()
        return row


def read(file):
    """The trace of a file that is open for bytes; BadLine where the text is no pipetrace."""
    trace, number, before, cycle, is_empty = Trace(), 0, None, None, False
    for line in iter(partial(file.readline, LONGEST_LINE), b""):
        number += 1
        found = EVENT.fullmatch(line)
        code = CODE[line[0]] if found else None
        if not found:
            found = FETCH.fullmatch(line)
            code = FETCHED if found else None
        if not found:
            if line[:1] == b"." or not is_cycle_line(line, number, cycle, is_empty):
                read_end(trace, line, number, cycle, is_empty)
                return nothing_behind(trace, file, number)
            cycle, before, is_empty = int(line[2:]), None, True
            continue
        row = int(found[2] if code != FETCHED else found[1])
        place = (GROUP_OF[code], row)
        if cycle is None or row >= LIMIT or before is not None and before >= place:
            raise BadLine(number, why_no_event(cycle, row, place, before))
        before, is_empty = place, False
        trace.rows.append(row)
        trace.cycles.append(cycle)
        trace.codes.append(code)
        if code == FETCHED:
            add_fetch(trace, found, number)
    raise BadLine(number + 1, "the text ends without its last line, `. CYCLES END`")


def add_fetch(trace, found, number):
    queued = int(found[4])
    if queued >= LIMIT:
        raise BadLine(number, "the cycle of the words isn't below 2^62")
    trace.pcs.append(int(found[2], 16))
    trace.nexts.append(int(found[3], 16))
    trace.queued.append(queued)


def why_no_event(cycle, row, place, before):
    if cycle is None:
        return "an event stands before the first line of a cycle"
    if row >= LIMIT:
        return "the row isn't below 2^62"
    if place[0] < before[0]:
        return "the events of a cycle don't stand in the order C, W and R, X, I and A, D, +"
    return f"row {row} doesn't come behind row {before[1]} in the events of one kind"


def is_cycle_line(line, number, cycle, is_empty):
    """True for a line that may open a cycle here, False for one that is no line of a cycle."""
    found = CYCLE.fullmatch(line)
    if not found:
        return line[:1] == b"@" and fail(number, line, "`@ CYCLE` with a decimal number below 2^62")
    if int(found[1]) >= LIMIT:
        raise BadLine(number, "the cycle isn't below 2^62")
    if is_empty:
        raise BadLine(number, f"cycle {cycle} has no event")
    if cycle is not None and int(found[1]) <= cycle:
        raise BadLine(number, f"cycle {int(found[1])} doesn't come behind cycle {cycle}")
    return True


def fail(number, line, wanted):
    """Refuses a line that begins as one of a kind and isn't."""
    if not line.endswith(b"\n"):
        raise BadLine(number, "the line is too long" if len(line) == LONGEST_LINE else "the line has no newline at its end")
    raise BadLine(number, f"{shown(line)} isn't {wanted}")


def shown(line):
    """A line as a message may show it."""
    text = line.rstrip(b"\n").decode("ascii", "backslashreplace")
    text = "".join(it if it.isprintable() else repr(it)[1:-1] for it in text)
    return f"`{text[:60]}{'..' if len(text) > 60 else ''}`"


def read_end(trace, line, number, cycle, is_empty):
    """Takes the last line, or tells what is wrong with a line of no kind."""
    if line[:1] == b"+":
        fail(number, line, "`+ ROW PC NEXT CYCLE`, with addresses of eight lower-case hexadecimal digits")
    if line[:1] in (b"C", b"W", b"R", b"X", b"I", b"A", b"D"):
        fail(number, line, f"`{chr(line[0])} ROW` with a decimal number below 2^62")
    if line[:1] != b".":
        fail(number, line, "a line of a pipetrace")
    found = END.fullmatch(line)
    if not found or not is_end(found[2], found[3]):
        fail(number, line, "`. CYCLES END` with `exited CODE`, `budget`, or `stopped PC COUNT CAUSE`")
    if is_empty:
        raise BadLine(number, f"cycle {cycle} has no event")
    trace.length, trace.end = int(found[1]), line[len(found[1]) + 3 : -1].decode("ascii")
    if trace.length >= LIMIT or cycle is not None and trace.length <= cycle:
        raise BadLine(number, "the number of cycles isn't above the last cycle's and below 2^62")


def nothing_behind(trace, file, number):
    if file.read(1):
        raise BadLine(number + 1, "something stands behind the last line")
    return trace


def is_below(text, limit):
    return bool(text and re.fullmatch(NUMBER, text)) and int(text) < limit


def is_end(word, rest):
    """Whether this is the text of an end."""
    if word != b"stopped":
        return is_below(rest, 2**32) if word == b"exited" else rest is None
    found = STOP.fullmatch(rest or b"")
    return bool(found) and int(found[1]) < LIMIT and is_cause(found[2], found[3])


def is_cause(cause, rest):
    """Whether this is the text of a cause for which a run stops."""
    if cause in PLAIN_CAUSES:
        return rest is None
    if rest is None:
        return False
    if cause == b"floating-point":
        return bool(re.fullmatch(rb"0000[0-9a-f]{4}", rest))
    if cause in (b"misaligned", b"text-write"):
        return bool(re.fullmatch(rb"[0-9a-f]{8}", rest))
    if cause == b"trace-end":
        return is_below(rest, 2**32)
    parts = rest.split(b" ")
    return cause == b"trace-mismatch" and len(parts) == 3 and is_field(parts[0]) and all(is_below(it, LIMIT) for it in parts[1:])


def is_field(text):
    found = FIELD.fullmatch(text)
    return bool(found) and int(found[1] or 0) < 256
