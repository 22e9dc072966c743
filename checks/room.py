"""A scratch folder in which commands find the program and its companions by their names."""
import os
import shutil
import subprocess
import tempfile
from contextlib import contextmanager
from pathlib import Path

from checks.program import Ended

TOOLS = Path(__file__).resolve().parent.parent / "tools"
# Each script of Python there is a companion of the program.
COMPANIONS = sorted(it.name for it in TOOLS.iterdir() if it.is_file() and it.read_bytes().partition(b"\n")[0].endswith(b"python3"))
LONGEST_RUN = 60  # seconds


class Room:
    """A folder with a copy of the recipes and their inputs, and what a command sees of its surroundings."""

    def __init__(self, folder, names):
        self.folder = folder
        path = f"{names}{os.pathsep}{os.environ['PATH']}"
        self.surroundings = {**os.environ, "PATH": path, "LC_ALL": "C.UTF-8", "PYTHONDONTWRITEBYTECODE": "1"}

    def run(self, words, given=b"", **how):
        """Runs a command to its end."""
        ran = subprocess.run(words, input=given, capture_output=True, cwd=self.folder, env=self.surroundings, timeout=LONGEST_RUN, **how)
        return Ended(ran.returncode, ran.stdout, ran.stderr)

    def shown(self, command):
        """What a command of bash shows: what it writes and says, in turn."""
        how = {"stdin": subprocess.DEVNULL, "stdout": subprocess.PIPE, "stderr": subprocess.STDOUT}
        return subprocess.run(["bash", "-c", command], cwd=self.folder, env=self.surroundings, timeout=LONGEST_RUN, **how).stdout


@contextmanager
def room_of(program, top):
    """A room that is removed in the end."""
    with tempfile.TemporaryDirectory() as made:
        names, folder = Path(made, "names"), Path(made, "room")
        names.mkdir()
        (names / "sqljson").symlink_to(program.path)
        for companion in COMPANIONS:
            (names / f"sqljson-{companion}").symlink_to(top / "tools" / companion)
        shutil.copytree(top / "examples" / "recipes", folder)
        yield Room(folder, names)
