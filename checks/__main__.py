"""Runs the repository's own checks, and ends with the line `N passed, M failed`.

usage, at the top of the repository: python3 -m checks [--gate STATUS LOG] [PROGRAM]
                                     python3 -m checks --quick

With --gate the counts of `rt ci`, which ended with STATUS and wrote LOG, are added. PROGRAM is the program to run; with
none it is the one that `rt ci` or `./sqljson build` built. With --quick the examples, the rows of the tables and the
guide are tried by the checked program, which is compiled where it is missing or older than its source, and nothing is
proved. The exit status is 0 where nothing failed.
"""
import argparse
import sys
from pathlib import Path

from checks.additions import check_additions
from checks.allocations import check_allocations
from checks.called import check_called
from checks.checked import CHECKED, NotMade, is_stale, make
from checks.command import check_command, check_unbuilt
from checks.companions import check_companions
from checks.counters import check_counters
from checks.damage import check_damage
from checks.decimals import check_decimals
from checks.definitions import check_definitions
from checks.edges import check_edges
from checks.examples import check_examples
from checks.grouping import check_grouping
from checks.guide import check_guide
from checks.hard import check_hard
from checks.library import check_library
from checks.limits import check_limits
from checks.loading import check_loading
from checks.machines import check_machines
from checks.packaging import check_packaging
from checks.program import Program
from checks.reading import check_reading
from checks.recipes import check_recipes
from checks.refusals import check_refusals
from checks.rows import check_rows
from checks.scanning import check_scanning
from checks.show import check_show
from checks.tally import Tally
from checks.texts import check_texts
from checks.where import check_where

TOP = Path(__file__).resolve().parent.parent
BUILT = TOP / "crates" / "sqljson" / "out" / "sqljson"
MOST_BYTES = 20_000  # of a case that the checked program, which is slow, is tried with


def main():
    words = argparse.ArgumentParser(prog="checks", description="Runs the repository's own checks.")
    words.add_argument("--gate", nargs=2, metavar=("STATUS", "LOG"), help="add the counts of rt ci")
    words.add_argument("--quick", action="store_true", help="try the checked program, in some minutes")
    words.add_argument("program", nargs="?", help="the program to run")
    given = words.parse_args()
    tally = Tally()
    if given.quick:
        check_quick(tally)
    else:
        check_all(tally, given)
    print(f"{tally.passed} passed, {tally.failed} failed")
    return 1 if tally.failed else 0


def check_quick(tally):
    """The examples, the rows of the tables and the guide, by the checked program."""
    try:
        if is_stale():
            print("compiling the checked program, within a minute or two", flush=True)
            make()
    except (NotMade, OSError) as fault:
        tally.check("the checked program", str(fault))
        return
    program = Program(CHECKED)
    check_texts(tally, TOP)
    check_reading(tally, TOP)
    check_examples(tally, program, TOP / "examples")
    check_rows(tally, program, TOP / "checks" / "rows", MOST_BYTES)
    check_guide(tally, program, TOP)


def check_all(tally, given):
    if given.gate:
        status, log = given.gate
        tally.add_gate(int(status), Path(log).read_text(encoding="utf-8", errors="replace"))
    program = Program(given.program or BUILT)
    check_texts(tally, TOP)
    check_reading(tally, TOP)
    check_refusals(tally, TOP)
    check_definitions(tally, TOP)
    check_counters(tally, TOP)
    check_called(tally, TOP)
    check_additions(tally, TOP)
    if program.exists():
        check_examples(tally, program, TOP / "examples")
        check_rows(tally, program, TOP / "checks" / "rows")
        check_show(tally, program, TOP)
        check_grouping(tally, program)
        check_scanning(tally, program)
        check_decimals(tally, program)
        check_guide(tally, program, TOP)
        check_recipes(tally, program, TOP)
        check_companions(tally, program, TOP)
        check_where(tally, program, TOP)
        check_loading(tally, program, TOP)
        check_machines(tally, program, TOP)
        check_packaging(tally, program, TOP)
        check_library(tally, program, TOP)
        check_edges(tally, program)
        check_limits(tally, program)
        check_hard(tally, program)
        check_allocations(tally, program)
        check_damage(tally, program)
        check_unbuilt(tally, program, TOP)
        if not given.program:
            check_command(tally, TOP)
    else:
        tally.check("the program", "it was not built")


if __name__ == "__main__":
    sys.exit(main())
