#!/usr/bin/env python3
"""The gate's time before and after a change, as a table for its note.

    times.py BEFORE AFTER [--least S]

BEFORE and AFTER are saved words of `rt ci`: target/gate.txt as ./test leaves
it, or the output of `rt ci` or of ./test. Times are only worth comparing if
both runs were made on one machine that did nothing else.

Printed is a table with a row for each crate, in order of change: what grew
most stands first. New crates and those that are gone follow, then the sums.
Today's `rt ci` gives no seconds for a crate: of its words, which ./test ends
with how long it took, the table has that one row. Of words of the older kit
seconds are by the clock and several provers run at once, so the sums are more
than the gate took; how long it took is a row of its own where the words tell
it (./test adds it). --least S puts crates that changed by less than S seconds
into one row.
"""

import argparse
import re
import sys

# as `rt` says it, and as ./test shows it
PROVED = re.compile(r"(?:rt|crate \d+ of \d+): (\w+) proved \((\d+) s\)$")
REFUSED = re.compile(r"(?:rt: must-fail|edit \d+ of \d+:) (\w+)/(\S+): refused, as it must be \((?:.*; )?(\d+) s\)$")
RAN = re.compile(r"(?:rt|program \d+ of \d+): (\w+) ran(?: as nobody)?, and wrote .*\((\d+) s\)$")
UNCHANGED = re.compile(r"(?:rt|crate \d+ of \d+): (\w+) proved \(unchanged ")
TALLY = re.compile(r"\d+ passed, (\d+) failed$")
TOOK = re.compile(r"rt ci: done \((\d+) s\)$")


class Run:
    def __init__(self, path):
        self.path = path
        self.crates, self.edits, self.programs = {}, {}, {}
        self.unchanged, self.tally, self.took = 0, None, None
        with open(path, encoding="utf-8", errors="replace") as lines:
            for line in lines:
                self.read(line.rstrip("\n"))

    def read(self, line):
        if m := PROVED.match(line):
            self.crates[m[1]] = int(m[2])
        elif m := REFUSED.match(line):
            self.edits[m[1], m[2]] = int(m[3])
        elif m := RAN.match(line):
            self.programs[m[1]] = int(m[2])
        elif UNCHANGED.match(line):
            self.unchanged += 1
        elif TALLY.match(line):
            self.tally = line
        elif m := TOOK.match(line):
            self.took = int(m[1])

    def faults(self):
        """Why its times are not those of a whole gate."""
        if self.tally is None:
            yield f"{self.path} has no last line 'N passed, 0 failed': the run did not end"
        elif not self.tally.endswith(" 0 failed"):
            yield f"{self.path} is of a run that failed: {self.tally}"
        if self.unchanged:
            yield f"{self.path} has {self.unchanged} crates that were not proved again: that is no run of rt ci"

    def edits_of(self, crate):
        """How many edits a crate has, and their seconds."""
        took = [s for (name, _), s in self.edits.items() if name == crate]
        return len(took), sum(took)


def signed(n):
    return f"{n:+,}" if n else "0"


def row(*cells):
    print("| " + " | ".join(str(cell) for cell in cells) + " |")


def edits_cell(run, crate):
    count, took = run.edits_of(crate)
    return f"{took} ({count})" if count else ""


def crate_row(before, after, crate, mark=""):
    old, new = before.crates.get(crate), after.crates.get(crate)
    row(mark + f"`{crate}`", "" if old is None else old, "" if new is None else new, signed((new or 0) - (old or 0)),
        edits_cell(before, crate), edits_cell(after, crate))


def sum_row(what, old, new):
    def named(times):
        return f"{sum(times.values()):,} ({len(times)})"
    row(what, named(old), named(new), signed(sum(new.values()) - sum(old.values())), "", "")


def clock(seconds):
    return f"{seconds // 60} min {seconds % 60} s"


def table(before, after, least):
    row("crate", "before, s", "after, s", "change", "its edits before, s (number)", "after")
    print("|---|---|---|---|---|---|")
    both = [c for c in after.crates if c in before.crates]
    change = {c: after.crates[c] - before.crates[c] for c in both}
    small = [c for c in both if abs(change[c]) < least]
    for crate in sorted((c for c in both if c not in small), key=lambda c: (-change[c], c)):
        crate_row(before, after, crate)
    if small:
        old, new = (sum(run.crates[c] for c in small) for run in (before, after))
        row(f"{len(small)} crates that changed by less than {least}", old, new, signed(new - old), "", "")
    for crate in sorted(c for c in after.crates if c not in before.crates):
        crate_row(before, after, crate, "new: ")
    for crate in sorted(c for c in before.crates if c not in after.crates):
        crate_row(before, after, crate, "gone: ")
    sum_row("all crates, s (number)", before.crates, after.crates)
    sum_row("all edits, s (number)", before.edits, after.edits)
    sum_row("programs run, s (number)", before.programs, after.programs)
    if before.took is not None and after.took is not None:
        row("the gate", clock(before.took), clock(after.took), signed(after.took - before.took), "", "")


def main():
    parser = argparse.ArgumentParser(description=__doc__, formatter_class=argparse.RawDescriptionHelpFormatter)
    parser.add_argument("before")
    parser.add_argument("after")
    parser.add_argument("--least", type=int, default=0, metavar="S")
    words = parser.parse_args()
    try:
        before, after = Run(words.before), Run(words.after)
    except OSError as fault:
        sys.exit(f"times.py: {fault}")
    if before.crates and after.crates:
        table(before, after, words.least)
    elif before.took is not None and after.took is not None:
        print("| | before, s | after, s | change |\n|---|---|---|---|")
        row("the gate", before.took, after.took, signed(after.took - before.took))
    else:
        sys.exit("times.py: a file has neither a line for each crate nor `rt ci: done (N s)`: these are not the words of ./test")
    faults = [fault for run in (before, after) for fault in run.faults()]
    for fault in faults:
        print(f"times.py: {fault}", file=sys.stderr)
    sys.exit(1 if faults else 0)


if __name__ == "__main__":
    main()
