"""What the scripts of this folder share: the words that they take, how a program is run and measured, and how it is told."""
import argparse
import os
import select
import statistics
import subprocess
import sys
import time
from dataclasses import dataclass, field
from pathlib import Path

HERE = Path(__file__).resolve().parent
BUILT = HERE.parent / "crates" / "sqljson" / "out" / "sqljson"
MEGABYTE = 1_000_000
BETWEEN_LOOKS = 0.01  # seconds between two looks at a program's memory


@dataclass
class Tool:
    """A program that answers a question, and what its runs on one corpus took."""

    name: str
    words: list
    seconds: list = field(default_factory=list)  # by the clock
    busy: list = field(default_factory=list)  # seconds of processor time
    peak: int = 0  # kilobytes


def words_taken(about):
    """A reader of a script's words. `about` is what the script says of itself; each of them takes `--program`."""
    words = argparse.ArgumentParser(description=about, formatter_class=argparse.RawDescriptionHelpFormatter)
    words.add_argument("--program", type=Path, default=BUILT, help="the program to measure, if not the built one")
    return words


def take_size_and_rounds(words, rounds=3):
    """Lets a script take `--size` and `--rounds` too."""
    words.add_argument("--size", type=float, default=50, metavar="MB", help="the least size of a corpus (default: 50)")
    words.add_argument("--rounds", type=int, default=rounds, metavar="N", help=f"how often each is run (default: {rounds})")


def read(words):
    """The words that the script was given, if the program that they name is there."""
    given = words.parse_args()
    if not given.program.is_file():
        sys.exit("the program is not built: call ./sqljson build")
    given.program = given.program.resolve()
    return given


def with_orjson(loop):
    """The tool that runs this loop of with_orjson.py."""
    return Tool("orjson", [sys.executable, str(HERE / "with_orjson.py"), loop])


def build_with_simdjson(room):
    """The program with the loops over simdjson's DOM, built in the room, or None where simdjson's headers or a compiler are missing."""
    program, source = Path(room, "with_simdjson"), HERE / "with_simdjson.cpp"
    words = ["c++", "-O3", "-std=c++17", "-o", str(program), str(source), "-lsimdjson"]
    try:
        built = subprocess.run(words, capture_output=True).returncode == 0
    except OSError:
        built = False
    return program if built else None


def measure(tool, corpus, answers):
    """Runs a tool once over a corpus, and notes its time and its peak of memory."""
    with open(corpus, "rb") as given, open(answers, "wb") as wrote:
        begun = time.perf_counter()
        # (Popen returns once the new program has begun, so no look sees this one's memory)
        ran = subprocess.Popen(tool.words, stdin=given, stdout=wrote)
        ended = os.pidfd_open(ran.pid)
        while not select.select([ended], [], [], BETWEEN_LOOKS)[0]:
            tool.peak = max(tool.peak, peak_of(ran.pid))
        tool.seconds.append(time.perf_counter() - begun)
        os.close(ended)
    _, status, took = os.wait4(ran.pid, 0)
    ran.returncode = os.waitstatus_to_exitcode(status)
    tool.busy.append(took.ru_utime + took.ru_stime)
    if ran.returncode:
        sys.exit(f"{tool.name} ended with status {ran.returncode}")


def peak_of(process):
    """The peak of resident memory of a running process, in kilobytes, or 0 where it has just ended."""
    try:
        status = Path(f"/proc/{process}/status").read_text()
    except OSError:
        return 0
    return next((int(line.split()[1]) for line in status.split("\n") if line.startswith("VmHWM:")), 0)


def tell(found, written):
    """Prints what the runs of the tools took on a corpus of this many bytes. The first tool is the program. Its speed is told beside that
    of each other by the medians of the times by the clock, and by the least of the processor times."""
    print(f"  {'':10}{'MB/s':>10}{'sqljson/it':>12}{'processor':>11}{'peak MB':>10}")
    own, own_busy = statistics.median(found[0].seconds), min(found[0].busy)
    for tool in found:
        seconds, busy = statistics.median(tool.seconds), min(tool.busy)
        print(f"  {tool.name:10}{written / MEGABYTE / seconds:10.1f}{seconds / own:12.2f}{busy / own_busy:11.2f}{tool.peak / 1000:10.1f}")
