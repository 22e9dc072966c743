"""Proves crates side by side where none stands on another, those first that the longest chain of proofs waits for."""
import os
import re
import subprocess
import sys
import time
from pathlib import Path

from checks.crates import listed
from checks.times import clock

EACH_TAKES = 3_000_000_000  # bytes of memory for a crate that is being proved: about 1.5 GB for each of its jobs, and most have one
MINUTES = {  # of processor time: three quarters of what each took where six to eight checks ran side by side on four processors
    "sj_cursor": 12.4, "sj_bind": 8.5, "sj_sql": 7.4, "sj_path": 6.0, "sj_select_list": 5.6, "sj_sql_phrase": 4.7, "sj_select": 4.6, "sj_table": 4.0, "sj_run": 3.3,
    "sj_func": 3.1, "sj_read": 2.8, "sj_plain_path": 2.2, "sj_doc": 2.1, "sj_build": 1.9, "sj_decimal": 1.8, "sj_walk": 1.8, "sj_text": 1.8, "sj_rows": 1.8, "sj_path_token": 1.6,
    "sj_path_text": 1.5, "sj_sql_token": 1.5, "sj_sql_grammar": 1.5, "sj_item": 1.5, "sqljson": 1.4, "sj_value": 1.1, "sj_sql_tree": 1.0, "sj_bound": 0.8, "sj_method": 0.8, "sj_base": 0.8,
    "sj_path_grammar": 0.6, "sj_page": 0.5, "sj_fault_free": 0.5, "sj_generated": 0.4, "sj_stream": 0.4, "sj_batch": 0.4, "sj_step": 0.4, "sj_json": 0.3,
}
MINUTES_OF_OTHERS = 1.4
NEARLY = 2  # minutes: a chain that is shorter by less is as long as the longest
PATIENCE = 0.5  # how much later, by `nice`, the processors come to a proof for each minute that it may wait, up to MOST_PATIENCE
MOST_PATIENCE = 10
PAUSE = 0.2  # seconds
SHOWN = 20  # lines of a failed proof


class Failed(Exception):
    """A crate was not proved, or the program was not built; the log says why."""

    def __init__(self, log):
        super().__init__()
        self.log = log


class Proof:
    """The proof of a crate, by a command that runs in a folder and writes a log. It is given up with all that it started."""

    def __init__(self, crate, words, folder, log, patience):
        self.began, self.crate, self.log = time.monotonic(), crate, log
        with open(log, "wb") as said:
            # A process group of its own, to be given up by, and no `setsid`: Linux shares the processors evenly among what each `setsid` began (autogroup), however
            # many jobs that has and whatever `nice` says.
            how = {"cwd": folder, "stdin": subprocess.DEVNULL, "stdout": said, "stderr": subprocess.STDOUT, "process_group": 0}
            self.command = subprocess.Popen(["nice", "-n", str(patience), *words], **how)

    def has_ended(self):
        return self.command.poll() is not None

    def has_proved(self):
        return b"logic=proved" in self.log.read_bytes()

    def give_up(self):
        try:
            os.killpg(self.command.pid, 15)
        except ProcessLookupError:
            pass
        self.command.wait()

    def age(self):
        return time.monotonic() - self.began


class Schedule:
    """The crates that are to be proved, and those that are being proved or are done."""

    def __init__(self, top, program, with_program):
        stands_on = listed(top)
        self.below = {crate: below(crate, stands_on) for crate in [*below(program, stands_on), program]}
        self.behind = self.longest_behind(stands_on)
        self.left = sorted((it for it in self.below if with_program or it != program), key=lambda it: -self.behind[it])
        self.running, self.done = [], set()

    def longest_behind(self, stands_on):
        """How many minutes the longest chain takes from each crate up to the program."""
        found = {}
        for crate in sorted(self.below, key=lambda it: -len(self.below[it])):
            above = [found[it] for it in found if crate in stands_on[it]]
            found[crate] = MINUTES.get(crate, MINUTES_OF_OTHERS) + max(above, default=0)
        return found

    def prove(self, start, keep):
        """Proves each crate once those below it are: `start` begins a proof, or gives none where the crate was proved before, and `keep` takes what a proof that
        ended has made."""
        most = lanes()
        try:
            while self.left or self.running:
                for crate in self.ready()[: most - len(self.running)]:
                    self.start(crate, start)
                time.sleep(PAUSE)
                for proof in [it for it in self.running if it.has_ended()]:
                    self.running.remove(proof)
                    self.end(proof, keep)
        finally:
            for proof in self.running:
                proof.give_up()
                keep(proof)

    def ready(self):
        return [it for it in self.left if self.done.issuperset(self.below[it])]

    def start(self, crate, start):
        """Starts the proof of a crate. A second job takes processor time of its own, so most have one, and together they fill the processors. One for which the
        longest chain waits has two, or as many as no other proof would take. The longer a proof may wait and hold up nothing, the later it comes."""
        self.left.remove(crate)
        longest = max([self.behind[it] for it in [crate, *self.left]] + [self.behind[it.crate] - it.age() / 60 for it in self.running])
        may_wait = longest - self.behind[crate]
        beside = len(self.running) + len(self.ready())
        jobs = max(min(2, processors()), processors() - beside) if may_wait < NEARLY else 1
        proof = start(crate, jobs, min(MOST_PATIENCE, round(PATIENCE * may_wait)))
        if proof:
            self.running.append(proof)
        else:
            self.tell(crate, "was proved before")

    def end(self, proof, keep):
        keep(proof)
        if proof.command.returncode:
            raise Failed(proof.log)
        self.tell(proof.crate, f"is proved, in {clock(proof.age())}" if proof.has_proved() else "was proved before")
        proof.log.unlink()

    def tell(self, crate, what):
        self.done.add(crate)
        say(f"{len(self.done)} of {len(self.below)}: {crate} {what}")


def below(crate, stands_on):
    """All crates that a crate stands on."""
    found, left = set(), [crate]
    while left:
        new = set(stands_on[left.pop()]) - found
        found |= new
        left += new
    return found


def processors():
    return len(os.sched_getaffinity(0))


def lanes():
    """How many crates are proved at once: two more than there are processors, so that the longest chain does not wait for a place, where memory lasts."""
    free = re.search(r"^MemAvailable: +(\d+) kB", Path("/proc/meminfo").read_text(), re.M)
    return max(1, min(processors() + 2, 1024 * int(free[1]) // EACH_TAKES))


def say(what):
    print(f"sqljson: {what}", file=sys.stderr, flush=True)


def end_of(failed):
    """Says what a failed proof said at last."""
    print(*failed.log.read_text(errors="replace").splitlines()[-SHOWN:], sep="\n", file=sys.stderr)
    say(f"{failed.log.stem} is not proved, so the program was not built; the whole log is {failed.log}")
