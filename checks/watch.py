"""Passes on what `rt ci` says, and says of each check that it makes when that ended and how long it took.

usage, at the top of the repository: rt ci 2>&1 | python3 -B -m checks.watch LOG SHELL

SHELL is the number of the process that both are children of. All that is said goes to standard output and to LOG. A check is a run of the prover over a
crate: its proof, its tests, one of the edits that must be refused, or the building of its program. Checks are found once a second among the
processes of the system, so their times are right to a second or two. A system that does not show its processes is told no times.
"""
import os
import sys
import threading
import time
from dataclasses import dataclass
from pathlib import Path

from checks.times import BEFORE_EDITS, spoken

TOP = Path(__file__).resolve().parent.parent
PROCESSES = Path("/proc")
TICKS = os.sysconf("SC_CLK_TCK")  # in a second of processor time
PAUSE = 1  # seconds


@dataclass
class Check:
    """A check that runs: of which crate, what of it, since when, and the processor time that it has taken."""

    crate: str
    part: str
    began: float
    used: float = 0.0


class Watch:
    """What a command has said and which checks it makes."""

    def __init__(self, log):
        self.log = log
        self.alone = threading.Lock()
        self.began = since_boot()
        self.running = {}

    def say(self, line):
        with self.alone:
            for file in (sys.stdout, self.log):
                file.write(line)
                file.flush()

    def look(self, shell):
        """Takes up the checks below the shell that have begun, and tells those that have ended."""
        now, seen = since_boot(), processes()
        found = dict(checks_below(shell, seen))
        for process in self.running.keys() - found.keys():
            check = self.running.pop(process)
            self.say(spoken(now - self.began, check.crate, check.part, now - check.began, check.used))
        for process, words in found.items():
            if process not in self.running:
                crate = words[words.index("--crate-name") + 1]
                self.running[process] = Check(crate, part_of(process, words, crate), seen[process].began)
            self.running[process].used = sum(seen[it].used for it in below(process, seen))


def since_boot():
    return time.clock_gettime(time.CLOCK_BOOTTIME)


@dataclass(frozen=True)
class Process:
    """A process of the system: its parent, the processor time that it and its children that have ended have used, and when it began."""

    parent: int
    used: float
    began: float


def processes():
    """The processes of the system by their numbers."""
    found = {}
    for folder in PROCESSES.glob("[0-9]*"):
        try:
            fields = (folder / "stat").read_text(errors="replace").rpartition(")")[2].split()
            found[int(folder.name)] = Process(int(fields[1]), sum(map(int, fields[11:15])) / TICKS, int(fields[19]) / TICKS)
        except (OSError, ValueError, IndexError):
            continue  # it has ended
    return found


def below(process, seen):
    """Yields the process and those that descend from it."""
    yield process
    for child in children(process, seen):
        yield from below(child, seen)


def children(process, seen):
    return [it for it, found in seen.items() if found.parent == process]


def checks_below(process, seen):
    """Yields each check that descends from the process, with its words."""
    for child in children(process, seen):
        words = words_of(child)
        if "--crate-name" in words[:-1]:
            yield child, words
        else:
            yield from checks_below(child, seen)


def words_of(process):
    try:
        return (PROCESSES / str(process) / "cmdline").read_text(errors="replace").split("\0")
    except OSError:
        return []


def part_of(process, words, crate):
    """Says what of the crate a check is."""
    if "--test" in words:
        return "tests"
    if "--crate-checked" in words:
        return "program"
    try:
        folder = Path(os.readlink(PROCESSES / str(process) / "cwd"))
    except OSError:
        return "proof"
    return edit_in(folder, crate) if folder.name.startswith("rt-edit") else "proof"


def edit_in(folder, crate):
    """Says which edit was made in this copy of the crate. In the copy that the checks of edits begin with none was."""
    for edit in sorted((TOP / "crates" / crate / "must-fail").glob("*.edit")):
        try:
            if is_made(edit.read_text(encoding="utf-8"), folder):
                return f"edit {edit.stem}"
        except (OSError, UnicodeDecodeError):
            continue
    return BEFORE_EDITS


def is_made(edit, folder):
    """Whether each new line of the edit stands in the folder's files, and no old line does."""
    text, old = "", ""
    for line in edit.splitlines():
        kind, _, rest = line.partition(": ")
        if kind == "file":
            text = (folder / rest.strip()).read_text(encoding="utf-8")
        elif kind == "old":
            old = rest
        elif kind == "new" and (rest not in text or old in text.replace(rest, "")):
            return False
    return True


def run(log, shell, said):
    """Passes on what is said until that ends, and tells each check below the shell when it has ended."""
    watch = Watch(log)
    ended = threading.Event()

    def look_often():
        while not ended.wait(PAUSE):
            watch.look(shell)

    looking = threading.Thread(target=look_often, daemon=True)
    looking.start()
    for line in said:
        watch.say(line)
    ended.set()
    looking.join()
    watch.look(shell)


def main():
    if len(sys.argv) != 3 or not sys.argv[2].isdigit():
        print("usage: rt ci 2>&1 | python3 -B -m checks.watch LOG SHELL", file=sys.stderr)
        return 2
    for stream in (sys.stdin, sys.stdout):
        stream.reconfigure(encoding="utf-8", errors="replace")
    with open(sys.argv[1], "w", encoding="utf-8") as log:
        run(log, int(sys.argv[2]), sys.stdin)
    return 0


if __name__ == "__main__":
    sys.exit(main())
