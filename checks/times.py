"""Prints how long the parts of the gate took, crate by crate, from the log of a run of `.ci/run`.

usage, at the top of the repository: python3 -B -m checks.times LOG

The tables are Markdown, as docs/COSTS.md has them: the wall time and the processor time of each crate's proof, of its tests and of its edits, the
chain of crates whose proofs take longest one behind the other, and the edits that took most. What an earlier run had
passed was not made again, and has no times.
"""
import re
import sys
from collections import defaultdict
from pathlib import Path

from checks.crates import listed

TOP = Path(__file__).resolve().parent.parent
BEFORE_EDITS = "proof for edits"  # which the checks of a crate's edits begin with
LINE = re.compile(rf"^\.\. ([\d:]+)  (\w+): (proof|tests|program|{BEFORE_EDITS}|edit \S+) in ([\d:]+), ([\d:]+) of processor time$", re.M)
MOST_EDITS = 12  # that are listed


def spoken(now, crate, part, wall, used):
    """The line that says of a check when it ended and how long it took."""
    return f".. {clock(now)}  {crate}: {part} in {clock(wall)}, {clock(used)} of processor time\n"


def clock(seconds):
    minutes, seconds = divmod(round(seconds), 60)
    hours, minutes = divmod(minutes, 60)
    return f"{hours}:{minutes:02}:{seconds:02}" if hours else f"{minutes}:{seconds:02}"


def seconds_of(clock):
    total = 0
    for part in clock.split(":"):
        total = 60 * total + int(part)
    return total


class Times:
    """What the checks of a run took: wall and processor time by crate and part, the edits by name, and when the last check ended."""

    def __init__(self, log):
        self.wall, self.used, self.edits, self.ended = defaultdict(int), defaultdict(int), [], 0
        for now, crate, part, wall, used in LINE.findall(log):
            kind, _, edit = part.replace(BEFORE_EDITS, "edit").partition(" ")
            self.wall[crate, kind] += seconds_of(wall)
            self.used[crate, kind] += seconds_of(used)
            self.ended = max(self.ended, seconds_of(now))
            if edit:
                self.edits.append((seconds_of(used), f"{crate}/{edit}"))

    def row(self, crate):
        """The row of a crate: the edits have no wall time, since they run side by side."""
        columns = [(times, kind) for kind in ("proof", "tests") for times in (self.wall, self.used)] + [(self.used, "edit")]
        return row(crate, [clock(times[crate, kind]) if (crate, kind) in times else "" for times, kind in columns])

    def sums(self):
        whole = {part: sum(used for (_, kind), used in self.used.items() if kind == part) for part in ("proof", "tests", "edit")}
        return row("all", ["", clock(whole["proof"]), "", clock(whole["tests"]), clock(whole["edit"])])


def row(name, cells):
    return f"| {name} | {' | '.join(cells)} |"


def longest_chain(below, wall):
    """The crates whose proofs take longest one behind the other, lowest first."""
    chains = {}

    def chain(crate):
        if crate not in chains:
            before = max((chain(it) for it in below[crate]), key=lambda it: it[0], default=(0, []))
            chains[crate] = before[0] + wall.get((crate, "proof"), 0), [*before[1], crate]
        return chains[crate]

    return max((chain(it) for it in below), key=lambda it: it[0])


def shown(times, below):
    """The tables, where a check was made."""
    crates = [crate for crate in below if any(made == crate for made, _ in times.wall)]
    if not crates:
        return "No check was made, since earlier runs had passed all, or its times were not seen.\n"
    lines = [row("Crate", ["Proof", "processors", "Tests", "processors", "Edits, processors"]), "|---|---|---|---|---|---|"]
    lines += [*map(times.row, crates), times.sums(), ""]
    length, chain = longest_chain(below, times.wall)
    named = [f"{crate} {clock(times.wall[crate, 'proof'])}" for crate in chain if (crate, "proof") in times.wall]
    lines += [f"The longest chain of proofs took {clock(length)}: {', '.join(named)}."]
    lines += [f"The last check ended {clock(times.ended)} after the run began. The edits that took most processor time:", ""]
    lines += [f"- {edit} {clock(used)}" for used, edit in sorted(times.edits, reverse=True)[:MOST_EDITS]]
    return "\n".join(lines) + "\n"


def main():
    if len(sys.argv) != 2:
        print("usage: python3 -B -m checks.times LOG", file=sys.stderr)
        return 2
    log = Path(sys.argv[1]).read_text(encoding="utf-8", errors="replace")
    print(shown(Times(log), listed(TOP)), end="")
    return 0


if __name__ == "__main__":
    sys.exit(main())
