"""Counts checks that passed and failed."""
import re

LAST_LINE = re.compile(r"^(\d+) passed, (\d+) failed", re.M)


class Tally:
    """Each check has a name; one that failed is printed with what is wrong."""

    def __init__(self):
        self.passed = 0
        self.failed = 0

    def check(self, name, problem):
        """Counts a check that passed, or failed where there is a problem."""
        if problem:
            self.failed += 1
            print(f"FAILED {name}: {problem}", flush=True)
        else:
            self.passed += 1

    def add_gate(self, status, said):
        """Adds the counts on the last line of `rt ci`, which ended with this status."""
        counts = LAST_LINE.findall(said)
        passed, failed = map(int, counts[-1]) if counts else (0, 0)
        self.passed += passed
        self.failed += failed
        if status and not failed:
            self.check("rt ci", f"it ended with status {status}")
        elif not counts:
            self.check("rt ci", "its output has no line of counts")
