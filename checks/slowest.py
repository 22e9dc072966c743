"""Prints which functions of a crate take longest to prove.

usage, at the top of the repository, once `./sqljson build` has built the program: python3 -B -m checks.slowest CRATE

One process proves the crate once more, over the libraries of the build, and keeps a file for each module that it has checked. The time from one file to the
next is what the later one took. The table has the seconds by the clock for each function, and of these what its lifetimes and its goals took; the others
went into what is stated of its types and its contract. Functions that call each other have one proof. It is named by a plus sign.
"""
import argparse
import subprocess
import sys
import tempfile
import time
from collections import defaultdict
from pathlib import Path

from checks.build import TOP, Kit
from checks.crates import named
from checks.times import row

SHOWN = 30
LIFETIMES, GOALS, OTHERS = "lifetimes", "goals", "others"
PARTS = {"Lts": LIFETIMES, "Proof": GOALS, "Goals": GOALS, "Answers": GOALS, "Given": GOALS, "Invariants": GOALS}
PARTS |= dict.fromkeys(["Carried", "Code", "Kinds", "Layout", "Met", "Named", "Reads", "Statement", "Symbol", "TheLaws", "TheLink", "TheLinks", "Tie"], OTHERS)


def part_of(module, crate):
    """The function that a module is of, and the part. A module of lemmas or of definitions, and one of a library, is none's."""
    library, _, path = module.partition(".")
    steps = path.split(".")
    kinds = [step.partition("-")[0] for step in steps]
    for at, kind in enumerate(kinds):
        if kind in PARTS and library == f"Rattle-{crate}-proofs":
            return ".".join(steps[:at]) or library, PARTS[kind]
    return (f"{library}.{steps[0]}" if path else library), OTHERS


def times_of(began, files, crate):
    """The seconds of each function, by parts. The files are pairs of a time and a module."""
    times = defaultdict(lambda: defaultdict(float))
    for ended, module in sorted(files):
        function, part = part_of(module, crate)
        times[function][part] += ended - began
        began = ended
    return times


def shown(times):
    def cells(parts):
        return [f"{sum(parts.values()):.1f}", *(f"{parts[part]:.1f}" for part in (LIFETIMES, GOALS))]

    dearest = sorted(times, key=lambda it: -sum(times[it].values()))
    whole = {part: sum(parts[part] for parts in times.values()) for part in (LIFETIMES, GOALS, OTHERS)}
    rows = [row(f"`{it}`", cells(times[it])) for it in dearest[:SHOWN]]
    return "\n".join([row("Function", ["Seconds", "Lifetimes", "Goals"]), "|---|---|---|---|", *rows, row("all", cells(whole))])


def main():
    words = argparse.ArgumentParser(prog="checks.slowest", description="Prints which functions of a crate take longest to prove.")
    words.add_argument("crate", choices=named(TOP), metavar="CRATE", help="a crate of crates.txt")
    crate = words.parse_args().crate
    with tempfile.TemporaryDirectory() as kept:
        command = [*Kit().words("check", crate, named(TOP)[crate], 1), "--incremental", kept]
        began = time.time()
        if subprocess.run(command, cwd=TOP / "crates" / crate, stdin=subprocess.DEVNULL, stdout=sys.stderr).returncode:
            return 1
        files = [(it.stat().st_mtime, it.stem) for it in Path(kept).rglob("*.oantt") if it.parent.name != "records"]
    print(shown(times_of(began, files, crate)))
    return 0


if __name__ == "__main__":
    sys.exit(main())
