"""Statistics files, and the table that is made of those of several runs."""

import csv
import io
import re

from files import Refusal

STATISTIC = re.compile(r"([a-z][a-z0-9_.]*) (0|[1-9][0-9]*)")
END = re.compile(r"sim_end ([ -~]+)")
STATUS, ENDED = "status", "sim_end"


def read_statistics(text):
    """The statistics of a text by their names, its end among them; the first line that is none, from 1, where it isn't
    a text of statistics."""
    found = {}
    lines = text.split("\n")
    for number, line in enumerate(lines, 1):
        end, statistic = END.fullmatch(line), STATISTIC.fullmatch(line)
        if end and lines[number:] == [""]:
            return {**found, ENDED: end[1]}, None
        if not statistic or statistic[1] in found or statistic[1] == ENDED:
            return None, number
        found[statistic[1]] = int(statistic[2])
    return None, len(lines)


def rates(statistics):
    """What follows from the statistics: instructions a cycle, and the shares of misses and of mispredictions."""
    found = {}
    share(found, "ipc", statistics.get("sim_num_insn"), statistics.get("sim_cycle"))
    for name, misses in statistics.items():
        if name.endswith(".misses"):
            cache = name[: -len(".misses")]
            share(found, f"{cache}.miss_rate", misses, statistics.get(f"{cache}.accesses"))
    control = statistics.get("bpred.control", statistics.get("sim_num_branches"))
    if "bpred.addr_hits" in statistics and control is not None:
        share(found, "bpred.addr_miss_rate", control - statistics["bpred.addr_hits"], control)
    if "bpred.dir_hits" in statistics and "bpred.cond" in statistics:
        share(found, "bpred.dir_miss_rate", statistics["bpred.cond"] - statistics["bpred.dir_hits"], statistics["bpred.cond"])
    return found


def share(found, name, part, whole):
    if part is not None and whole:
        found[name] = part / whole


class Run:
    """A run of a table: its name, its values of the grid's options, its status or "", and its statistics."""

    def __init__(self, name, values, status, text):
        self.name, self.values, self.status = name, values, status
        self.statistics, self.bad_line = read_statistics(text)
        self.rates = rates(self.statistics) if self.statistics else {}
        # what a run said in place of statistics, which may be anything
        self.said = "" if self.statistics else "".join(it if " " <= it <= "~" else "?" for it in text.split("\n")[0])


def table(runs):
    """The text of the table: a line for each run, with its options, status, statistics, end and rates."""
    statistics = dict.fromkeys(name for run in runs for name in run.statistics or {} if name != ENDED)
    derived = dict.fromkeys(name for run in runs for name in run.rates)
    options = dict.fromkeys(option for run in runs for option in run.values)
    text = io.StringIO()
    writer = csv.writer(text, lineterminator="\n")
    writer.writerow(["run", *options, STATUS, *statistics, ENDED, *derived])
    for run in runs:
        counts = run.statistics or {ENDED: run.said}
        writer.writerow([run.name, *(run.values.get(it, "") for it in options), run.status, *(counts.get(it, "") for it in statistics),
                         counts[ENDED], *(f"{run.rates[it]:.6f}" if it in run.rates else "" for it in derived)])
    return text.getvalue()


def must_have_statistics(run, name):
    if run.statistics is None:
        raise Refusal(f"{name}: line {run.bad_line} isn't one of statistics")
    return run
