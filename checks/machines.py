"""Work over several machines: the recipes over_hosts.sh, over ssh to this machine, and with_dask.py, over a cluster of two
worker processes. In both a run dies in the middle, and what is written is what one run writes.

Each is passed over, and told, where what it needs is not installed.
"""
import getpass
import os
import shutil
import socket
import subprocess
import time
from contextlib import ExitStack, contextmanager

from checks.program import Ended, difference
from checks.recipes import has_package, lacking
from checks.room import room_of

TIMES = 20  # how often the lines of the recipes stand in the input
PIECE = "1000"  # bytes
PATIENCE = 60  # seconds until a server answers, or the first rows are there
PAUSE = 0.1  # seconds
HOSTS = "127.0.0.1,localhost"  # two names of this machine
REFUSED = Ended(2, note=b"statement 1: syntax error\n")
# Stands for the program: the fifth run writes a part of a row, and is killed with what started it.
DIES_ONCE = """#!/bin/sh
number=1
until mkdir "$0.$number" 2> /dev/null; do number=$((number + 1)); done
if [ $number -eq 5 ]; then
    printf '1\\t1\\tR\\tcut'
    kill -KILL $PPID $$
fi
exec '{program}' "$@"
"""
# Stands for the program: each run leaves its number, and takes its time.
SLOW = """#!/bin/sh
number=1
until mkdir "$0.$number" 2> /dev/null; do number=$((number + 1)); done
sleep 0.2
exec '{program}' "$@"
"""
BEGUN = "sqljson.6"  # once this is there, the work is in its middle
SERVER = """ListenAddress 127.0.0.1
Port {port}
HostKey {folder}/key
AuthorizedKeysFile {folder}/key.pub
PidFile none
StrictModes no
UsePAM no
PermitRootLogin prohibit-password
SetEnv PATH={path}
"""


def check_machines(tally, program, top):
    for name, check in [("over_hosts.sh", check_hosts), ("with_dask.py", check_workers)]:
        with room_of(program, top) as room, ExitStack() as ends:
            orders = room.folder / "orders.jsonl"
            orders.write_bytes(orders.read_bytes() * TIMES)
            room.surroundings.update(PIECE=PIECE)
            lacks = check(tally, room, program, ends)
        if lacks:
            print(f"passed over machines, {name}: {lacks}", flush=True)


def stand_in(room, program, text):
    """Has the name of the program be that of a script."""
    folder = room.folder / "names"
    folder.mkdir()
    script = folder / "sqljson"
    script.write_text(text.format(program=program.path), encoding="utf-8")
    script.chmod(0o755)
    room.surroundings["PATH"] = f"{folder}{os.pathsep}{room.surroundings['PATH']}"


def check_hosts(tally, room, program, ends):
    """GNU parallel over ssh. Gives what lacks for it, or nothing."""
    server = shutil.which("sshd", path=f"{os.environ['PATH']}:/usr/sbin")
    lacks = lacking(["parallel", "ssh", "ssh-keygen"]) or (None if server else "sshd")
    if lacks:
        return f"{lacks} is not installed"
    one = room.run(["sqljson", "run", "orders.sql"], (room.folder / "orders.jsonl").read_bytes())
    stand_in(room, program, DIES_ONCE)
    if not ends.enter_context(served(room, server)):
        return "sshd does not start, or lets nobody in"
    ended = room.run(["bash", "over_hosts.sh", HOSTS])
    tally.check("over_hosts.sh", difference(Ended(0, one.output), Ended(ended.status, ended.output)))
    died = (room.folder / "names" / "sqljson.5").is_dir()
    tally.check("over_hosts.sh, where a run dies", None if died else "no run died")
    (room.folder / "orders.sql").write_bytes(b"SELECT ;")
    tally.check("over_hosts.sh of a refused file", difference(REFUSED, room.run(["bash", "over_hosts.sh", HOSTS])))
    return None


@contextmanager
def served(room, server):
    """Whether a server of ssh on this machine takes the room's key, while the block runs."""
    folder = room.folder / "server"
    folder.mkdir()
    subprocess.run(["ssh-keygen", "-q", "-t", "ed25519", "-N", "", "-f", folder / "key"], check=True, stdin=subprocess.DEVNULL)
    port = free_port()
    (folder / "sshd_config").write_text(SERVER.format(port=port, folder=folder, path=room.surroundings["PATH"]), encoding="utf-8")
    words = f"ssh -p {port} -i {folder}/key -o IdentitiesOnly=yes -o LogLevel=ERROR -o StrictHostKeyChecking=no"
    words += f" -o UserKnownHostsFile={folder}/known -o BatchMode=yes -l {getpass.getuser()}"
    room.surroundings.update(PARALLEL_SSH=words, PARALLEL_HOME=str(room.folder))
    with open(folder / "log", "wb") as log:
        run = subprocess.Popen([server, "-D", "-e", "-f", folder / "sshd_config"], stdin=subprocess.DEVNULL, stdout=log, stderr=log)
    try:
        ready = lambda: room.run([*words.split(), "127.0.0.1", "true"]).status == 0
        yield within_patience(lambda: ready() or run.poll() is not None) and run.poll() is None
    finally:
        run.terminate()
        run.wait()


def check_workers(tally, room, program, ends):
    """A cluster of Dask, of which a worker is killed once rows have come. Gives what lacks for it, or nothing."""
    if not has_package("distributed"):
        return "distributed is not installed"
    one = room.run(["sqljson", "run", "orders.sql"], (room.folder / "orders.jsonl").read_bytes())
    stand_in(room, program, SLOW)
    place = f"127.0.0.1:{free_port()}"
    start = lambda *words: ends.enter_context(running(room, ["python3", "-m", *words]))
    start("distributed.cli.dask_scheduler", "--host", place, "--no-dashboard")
    workers = [start("distributed.cli.dask_worker", place, "--no-nanny", "--nthreads", "1", "--no-dashboard") for _ in range(2)]
    how = {"cwd": room.folder, "env": room.surroundings, "stdin": subprocess.DEVNULL, "stderr": subprocess.PIPE}
    with open(room.folder / "rows", "wb") as rows, subprocess.Popen(["python3", "with_dask.py", place], stdout=rows, **how) as run:
        came = within_patience(lambda: run.poll() is not None or (room.folder / "names" / BEGUN).exists())
        middle = run.poll() is None
        workers[0].kill()
        said = run.communicate()[1]
    ended = Ended(run.returncode, (room.folder / "rows").read_bytes())
    tally.check("with_dask.py", difference(Ended(0, one.output), ended) and f"{difference(Ended(0, one.output), ended)}; {said[-500:]}")
    tally.check("with_dask.py, where a worker dies", None if came and middle else "no worker was killed in the middle")
    (room.folder / "orders.sql").write_bytes(b"SELECT ;")
    tally.check("with_dask.py of a refused file", difference(REFUSED, room.run(["python3", "with_dask.py", place])))
    return None


@contextmanager
def running(room, words):
    """A server, until the end of the block."""
    how = {"stdin": subprocess.DEVNULL, "stdout": subprocess.DEVNULL, "stderr": subprocess.DEVNULL}
    run = subprocess.Popen(words, cwd=room.folder, env=room.surroundings, **how)
    try:
        yield run
    finally:
        run.kill()
        run.wait()


def within_patience(happened):
    """Whether something happens soon enough."""
    late = time.monotonic() + PATIENCE
    while not happened():
        if time.monotonic() > late:
            return False
        time.sleep(PAUSE)
    return True


def free_port():
    with socket.socket() as it:
        it.bind(("127.0.0.1", 0))
        return it.getsockname()[1]
