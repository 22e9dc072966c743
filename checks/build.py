"""Proves the crates that the program is built from, side by side where none stands on another, and builds the program.

usage, at the top of the repository: python3 -B -m checks.build   (the script `sqljson` calls it)

Each crate is proved by `rattle build`, the kit's compiler, which writes what it builds only if the crate is proved: the library of a crate, and the object file
of the program, which `rattle-link` links. A library holds the statements of its crate and not the proofs, as in the gate, so that the crates above it have less
to read. Beside each stands a sum of all that it was made from. Where that is the same, also after a build that failed or was interrupted, it is taken again.
"""
import fcntl
import hashlib
import os
import shutil
import signal
import subprocess
import sys
import time
from contextlib import contextmanager
from pathlib import Path

from checks.crates import named
from checks.schedule import Failed, Proof, Schedule, end_of, say
from checks.times import clock

TOP = Path(__file__).resolve().parent.parent
PROGRAM = "sqljson"
OUT = TOP / "crates" / PROGRAM / "out"
MADE = OUT / "build"
SOURCES = ["src", "specs", "proofs"]
SIGNALS = [signal.SIGINT, signal.SIGTERM, signal.SIGHUP]
TARGET = "x86_64-unknown-linux-gnu"


class Kit:
    """The compiler, its libraries and its linker, which lie beside the command `rt`."""

    def __init__(self):
        self.folder = Path(shutil.which("rt")).resolve().parent.parent
        self.identity = subprocess.run(["rt", "version"], capture_output=True, check=True).stdout

    def path(self, name):
        return str(self.folder / name)

    def words(self, command, crate, stands_on, jobs):
        """A command on a crate, over the libraries of those below it."""
        words = [self.path("bin/rattle"), command, "--crate-name", crate, "src/main.rt" if crate == PROGRAM else "src/lib.rt"]
        words += ["--extern", f"std={self.path('rlibs/std.rlib')}", "-L", f"dependency={self.path('rlibs')}", "-L", f"dependency={MADE}"]
        for name in stands_on:
            folder = MADE if (TOP / "crates" / name).is_dir() else self.folder / "rlibs"
            words += ["--extern", f"{name}={folder / name}.rlib"]
        words += ["--antt-project", self.path("rattle/logic/antt-project.json"), "--logic-built", self.path("logic_built")]
        return [*words, "--links", f"{crate}=", "--jobs", str(jobs)]

    def words_to_build(self, crate, stands_on, jobs):
        """The command that proves a crate, and writes what it makes of it."""
        words = [*self.words("build", crate, stands_on, jobs), "-o", str(made_of(crate))]
        return [*words, "--toolchain", self.path("toolchain"), "--backend", "llvm"] if crate == PROGRAM else [*words, "--statements"]

    def words_to_link(self, program):
        words = [self.path("bin/rattle-link"), "--target", TARGET, "--toolchain", self.path("toolchain"), "-o", str(program), str(made_of(PROGRAM))]
        return [*words, *(self.path(f"c/{name}.a") for name in ("libos_c", "liblibc_c"))]


class Crates:
    """What each crate is made from, and what was made of it."""

    def __init__(self, kit):
        self.kit, self.stands_on, self.sums = kit, named(TOP), {}

    def sum_of(self, crate):
        """The sum of all that a crate is proved from: the kit, the crate's line of crates.txt, its files, and the same of the crates below it."""
        found = hashlib.sha256(self.kit.identity)
        for name in self.stands_on[crate]:
            found.update(f"\n{name} {self.sums.get(name, '')}".encode())
        folder = TOP / "crates" / crate
        for path in sorted(path for part in SOURCES for path in (folder / part).rglob("*") if path.is_file()):
            text = path.read_bytes()
            found.update(f"\n{path.relative_to(folder)} {len(text)}\n".encode() + text)
        return found.hexdigest()

    def start(self, crate, jobs, patience):
        """Starts the proof of a crate, unless what stands there was made from the same."""
        self.sums[crate] = self.sum_of(crate)
        if made_of(crate).exists() and read(stamp_of(crate)) == self.sums[crate]:
            return None
        stamp_of(crate).unlink(missing_ok=True)
        words = self.kit.words_to_build(crate, self.stands_on[crate], jobs)
        return Proof(crate, words, TOP / "crates" / crate, MADE / f"{crate}.log", patience)

    def keep(self, proof):
        """Puts down the sum of what was made. Where a file was changed meanwhile, the next build makes it again."""
        if proof.command.returncode == 0 and self.sum_of(proof.crate) == self.sums[proof.crate]:
            stamp_of(proof.crate).write_text(self.sums[proof.crate], encoding="utf-8")


def made_of(crate):
    return MADE / (f"{crate}.o" if crate == PROGRAM else f"{crate}.rlib")


def stamp_of(crate):
    return MADE / f"{crate}.sum"


def read(file):
    return file.read_text(encoding="utf-8") if file.exists() else None


@contextmanager
def held(folder):
    """Waits until no other command works in the folder, and keeps others out."""
    opened = os.open(folder, os.O_RDONLY)
    try:
        try:
            fcntl.flock(opened, fcntl.LOCK_EX | fcntl.LOCK_NB)
        except BlockingIOError:
            say(f"waiting for another command to finish in {folder}")
            fcntl.flock(opened, fcntl.LOCK_EX)
        yield
    finally:
        os.close(opened)


def link(kit):
    """Links the program, and puts it in its place once it is whole."""
    linked = MADE / PROGRAM
    log = MADE / f"{PROGRAM}.log"
    with open(log, "wb") as said:
        if subprocess.run(kit.words_to_link(linked), stdin=subprocess.DEVNULL, stdout=said, stderr=subprocess.STDOUT).returncode:
            raise Failed(log)
    log.unlink()
    linked.replace(OUT / PROGRAM)


def build():
    began = time.monotonic()
    kit = Kit()
    MADE.mkdir(parents=True, exist_ok=True)
    with held(MADE):
        crates = Crates(kit)
        Schedule(TOP, PROGRAM, with_program=True).prove(crates.start, crates.keep)
        link(kit)
        say(f"the program is proved and built, {clock(time.monotonic() - began)} after the build began")


def interrupt(*_):
    """Ends the build at the first signal. While its proofs are given up, further signals change nothing."""
    for it in SIGNALS:
        signal.signal(it, signal.SIG_IGN)
    raise KeyboardInterrupt


def main(work=build):
    for it in SIGNALS:
        if signal.getsignal(it) != signal.SIG_IGN:  # as under nohup
            signal.signal(it, interrupt)
    try:
        work()
    except KeyboardInterrupt:
        say("the build was interrupted, and the next one goes on from here")
        return 1
    except Failed as failed:
        end_of(failed)
        return 1
    return 0


if __name__ == "__main__":
    sys.exit(main())
