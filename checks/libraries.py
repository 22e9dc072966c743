"""Makes, side by side, the libraries that `rt check` begins with in a crate, and builds the program over them: for those who change a crate.

usage, at the top of the repository: python3 -B -m checks.libraries

`rt` keeps whole libraries, with their proofs, and what a check can begin with after an edit. It lets one command at a time work in a crate's folder and those
below it. So each crate is proved in a room of its own, a small repository of the crate and those below it with their built libraries, and what was made there
then becomes the crate's own `out`, also where the build fails or is interrupted: the next one goes on with it. At last `rt run` builds the program, and proves
again whatever was changed meanwhile. `checks/build.py` takes less time, and leaves nothing that `rt check` can use.
"""
import os
import re
import shutil
import subprocess
import sys
import time

from checks.build import OUT, PROGRAM, SOURCES, TOP, held, main
from checks.crates import listed
from checks.schedule import Failed, Proof, Schedule, processors, say
from checks.times import clock

ROOMS = OUT / "rooms"
MADE = ["rlib", "incremental"]  # the library, and what a check of it can begin with


def start(crate, below, jobs, patience):
    """Furnishes a room for a crate, and starts the proof there."""
    for it in [*below, crate]:
        furnish(ROOMS / crate, it, MADE if it == crate else MADE[:1])
    lines = (TOP / "crates.txt").read_text(encoding="utf-8").splitlines(keepends=True)
    mine = [line for line in lines if re.split(r"[\s:]", line)[0] in {*below, crate}]
    (ROOMS / crate / "crates.txt").write_text("".join(mine), encoding="utf-8")
    return Proof(crate, ["rt", "lib", "--jobs", str(jobs)], ROOMS / crate / "crates" / crate, ROOMS / f"{crate}.log", patience)


def furnish(room, crate, parts):
    """Gives a room the files of a crate as they are now, and what of it was built before."""
    own, there = TOP / "crates" / crate, room / "crates" / crate
    for part in SOURCES:
        if (own / part).is_dir():
            shutil.copytree(own / part, there / part)
    with held(own):
        for part in parts:
            if (own / "out" / part).is_dir():
                shutil.copytree(own / "out" / part, there / "out" / part, copy_function=link)


def close(crate):
    """Makes what was built in the room of a crate the crate's own, and removes the room. A library is whole once it has a stamp."""
    own, made = TOP / "crates" / crate, ROOMS / crate / "crates" / crate / "out"
    with held(own):
        for part, sign in zip(MADE, ["stamp", ""]):
            if (made / part / sign).exists():
                shutil.rmtree(own / "out" / part, ignore_errors=True)
                (own / "out").mkdir(exist_ok=True)
                (made / part).rename(own / "out" / part)
    shutil.rmtree(ROOMS / crate, ignore_errors=True)


def link(one, other):
    """Gives what was built a second name: `rt` replaces such files and does not write into them. Its small notes, into which it may write, are copied."""
    is_fixed = one.endswith(".oantt") or f"{os.sep}rlib{os.sep}" in one
    (os.link if is_fixed else shutil.copy2)(one, other)


def build_program():
    """Builds the program over the libraries. `rt run` also runs it: over a file without statements it writes nothing."""
    log = ROOMS / f"{PROGRAM}.log"
    with open(log, "wb") as said:
        how = {"cwd": TOP / "crates" / PROGRAM, "stdin": subprocess.DEVNULL, "stdout": said, "stderr": subprocess.STDOUT}
        if subprocess.run(["rt", "run", "--jobs", str(processors()), "--", "run", os.devnull], **how).returncode:
            raise Failed(log)


def build():
    began = time.monotonic()
    ROOMS.mkdir(parents=True, exist_ok=True)
    with held(ROOMS):
        for crate in listed(TOP):
            if (ROOMS / crate).is_dir():
                close(crate)
        proofs = Schedule(TOP, PROGRAM, with_program=False)
        proofs.prove(lambda crate, *how: start(crate, proofs.below[crate], *how), lambda proof: close(proof.crate))
        build_program()
        say(f"the program is proved and built, {clock(time.monotonic() - began)} after the build began")


if __name__ == "__main__":
    sys.exit(main(build))
