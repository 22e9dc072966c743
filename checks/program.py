"""Runs the built program, and says in what way a run differs from what is expected."""
import os
import resource
import socket
import subprocess
import threading
from contextlib import contextmanager
from dataclasses import dataclass
from pathlib import Path

LONGEST_RUN = 60  # seconds: a run that takes longer is killed
SHOWN = 300  # bytes of a text that is shown where it differs
# Where a run gives up, the rows of the lines that end among the last so many bytes taken may be missing.
HELD_BACK = 65_536
STREAMS = ("stdin", "stdout", "stderr")
CLOSED = object()  # stands for a stream that the program is started without


@dataclass(frozen=True)
class Ended:
    """How a run ended: its exit status and what it wrote. A status below 0 is that of the signal which ended it."""

    status: int
    output: bytes = b""
    note: bytes = b""


class Program:
    """The program at one path, run in a folder of the caller's choice."""

    def __init__(self, path):
        self.path = Path(path).resolve()

    def exists(self):
        return self.path.is_file()

    @contextmanager
    def start(self, words, folder, limits=(), **how):
        """A run that has begun, as a process that the block waits for. It is killed where it takes too long.

        A stream that `how` does not have is a pipe. `how` is that of `subprocess.Popen`, where a stream may be CLOSED
        too. `limits` are pairs of a limit of the module `resource` and the value that the run is held to.
        """
        how = {**dict.fromkeys(STREAMS, subprocess.PIPE), **how}
        closed = [number for number, name in enumerate(STREAMS) if how[name] is CLOSED]
        how.update({STREAMS[number]: None for number in closed})
        if closed or limits:
            how["preexec_fn"] = lambda: prepare(closed, limits)
        with subprocess.Popen([self.path, *words], cwd=folder, **how) as run:
            late = threading.Timer(LONGEST_RUN, run.kill)
            late.start()
            try:
                yield run
            except BaseException:
                run.kill()
                raise
            finally:
                late.cancel()

    def run(self, words, given=b"", folder=None, **how):
        """Runs the program to its end, with what is given on standard input where that is a pipe."""
        with self.start(words, folder, **how) as run:
            output, note = run.communicate(given if run.stdin else None)
        return Ended(run.returncode, output or b"", note or b"")

    def run_in_pieces(self, words, pieces, folder):
        """Runs the program on an input of which each read takes one of these pieces. What it writes has to fit a pipe."""
        ours, theirs = socket.socketpair(socket.AF_UNIX, socket.SOCK_SEQPACKET)
        with ours, self.start(words, folder, stdin=theirs) as run:
            theirs.close()
            try:
                for piece in pieces:
                    ours.sendall(piece)
            except (BrokenPipeError, ConnectionResetError):
                pass  # The run has ended. It is a reset where it left pieces unread.
            ours.close()
            output, note = run.communicate()
        return Ended(run.returncode, output, note)


def prepare(closed, limits):
    """Closes streams and sets limits, in the new process before the program begins."""
    for number in closed:
        os.close(number)
    for limit, value in limits:
        resource.setrlimit(limit, (value, value))


def difference(wanted, ended):
    """Says how a run differs from the one that is wanted, or nothing where it doesn't."""
    if ended.status != wanted.status:
        return f"it ended with status {ended.status}, and not {wanted.status}; it said: {shown(ended.note)}"
    if ended.output != wanted.output:
        return f"it wrote {shown(ended.output)}, and not {shown(wanted.output)}"
    if ended.note != wanted.note:
        return f"it said {shown(ended.note)}, and not {shown(wanted.note)}"
    return None


def status_fault(wanted, ended):
    """Says that a run ended with another status, or nothing."""
    return None if ended.status == wanted else f"it ended with {ended}, and not with {wanted}"


def front_problem(rows, lines, taken, output):
    """Says what is wrong with the output of a run that gave up when so many bytes of the lines were taken.

    It has to be a beginning of all rows, with at least those of the lines that end before the last bytes taken. A group is no
    row of a line.
    """
    if not rows.startswith(output):
        return f"it wrote {shown(output)}, which is no beginning of its rows"
    whole = lines[: max(taken - HELD_BACK, 0)].count(b"\n")
    owed = sum(len(row) + 1 for row in rows.split(b"\n")[:-1] if row[:1] != b"G" and int(row.partition(b"\t")[0]) <= whole)
    return f"it wrote {len(output)} bytes, and owed {owed}" if len(output) < owed else None


def shown(text):
    return repr(text if len(text) <= SHOWN else text[:SHOWN] + b"..")
