"""The man page, the completion for bash, tools/install, tools/debian and tools/release."""
import platform
import re
import shutil
import subprocess

from checks.program import Ended, difference, status_fault
from checks.room import COMPANIONS, room_of

VERSION = re.compile(r"\d+\.\d+\.\d+\n")
STATE = re.compile(r"^\| (22\w{3}) \| (.*) \|$", re.M)
STATUS = re.compile(r"^\| [^|]* \| (\d) \| (.*?) \|", re.M)
ENTRY = re.compile(r"^\.TP\n(\w+)\n(.*)$", re.M)
# What a user has typed behind the name of a command, and what it is completed to in the folder of the recipes.
COMPLETED = [
    ("sqljson", [""], "run check selfrun show group scan"),
    ("sqljson", ["c"], "check"),
    ("sqljson", ["run", "-"], "--unique-keys"),
    ("sqljson", ["run", "o"], "objects.sql orders.sql"),
    ("sqljson", ["check", "name"], "name.sql"),
    ("sqljson", ["show", "name"], "name.sql"),
    ("sqljson", ["group", "name"], "name.sql"),
    ("sqljson", ["selfrun", "1"], ""),
    ("sqljson", ["scan", "o"], ""),
    ("sqljson-where", ["ord"], "orders.sql"),
    ("sqljson-where", ["--p"], "--program"),
    ("sqljson-split-rows", ["--n"], "--null-columns --numbers"),
    ("sqljson-in-parallel", ["4", "orders.j"], "orders.jsonl"),
    ("sqljson-in-parallel", ["--pi"], "--piece"),
    ("sqljson-load", ["--t"], "--table --tables-only"),
    ("sqljson-load", ["x.db", "orders.s"], "orders.sql"),
    ("sqljson-why", ["--u"], "--unique-keys"),
    ("sqljson-why", ["orders.sql", "rows", "orders.j"], "orders.jsonl"),
]
ODD = ["-g.sql", "x y.sql", "x\nz.sql", "x.txt"]  # names of files, of which the second and third are completed
# Programs that can't be installed: none, what is none, and the whole of the installed one but its end.
WRONG_PROGRAMS = ["none", "orders.sql", "cut-off"]


def check_packaging(tally, program, top):
    version = (top / "VERSION").read_text(encoding="utf-8")
    tally.check("VERSION", None if VERSION.fullmatch(version) else f"{version!r} is no version")
    guide, page = ((top / "docs" / name).read_text(encoding="utf-8") for name in ("GUIDE.md", "sqljson.1"))
    check_page(tally, top, guide, page)
    with room_of(program, top) as room:
        check_completion(tally, room, top)
        check_install(tally, room, program, top, version.strip())
        check_release(tally, room, program, top, version.strip())
        if shutil.which("dpkg-deb"):
            check_package(tally, room, program, top, version.strip())
        else:
            print("passed over tools/debian: dpkg-deb is not installed", flush=True)


def check_page(tally, top, guide, page):
    """The man page has the SQLSTATEs and the statuses of the guide, in the same words, and is well formed."""
    entries = dict(ENTRY.findall(page.replace("\\-", "-")))
    plain = lambda text: text.replace("`", "")
    states = {state: plain(where) for state, where in STATE.findall(guide)}
    told = {name: text for name, text in entries.items() if len(name) == 5}
    tally.check("sqljson.1, SQLSTATEs", None if states and states == told else f"it has {told}, and the guide {states}")
    for status, message in STATUS.findall(guide.partition("## When something goes wrong")[2].partition("\n## ")[0]):
        message = plain(message)
        has = status in entries and (".." in message or message == "none" or entries[status].startswith(message))
        tally.check(f"sqljson.1, status {status}", None if has else f"it says {entries.get(status)}, and the guide {message}")
    if shutil.which("man"):
        words = ["man", "--warnings", "--local-file", str(top / "docs" / "sqljson.1")]
        ran = subprocess.run(words, capture_output=True, stdin=subprocess.DEVNULL)
        tally.check("sqljson.1", None if not ran.returncode and not ran.stderr else f"man says {ran.stderr}")


def check_completion(tally, room, top):
    """Words are completed as a user of bash has them."""
    for command, words, wanted in COMPLETED:
        function = "_sqljson" if command == "sqljson" else "_sqljson_companion"
        typed = " ".join(f"'{word}'" for word in [command, *words])
        script = f"source {top}/tools/sqljson.bash; COMP_WORDS=({typed}); COMP_CWORD={len(words)}; {function} {command}"
        script += "; echo \"${COMPREPLY[*]}\""
        got = sorted(room.run(["bash", "-c", script]).output.decode().split())
        tally.check(f"completion of {typed}", None if got == sorted(wanted.split()) else f"it is {got}")
    for name in ODD:
        (room.folder / "odd" / name).parent.mkdir(exist_ok=True)
        (room.folder / "odd" / name).write_bytes(b"")
    script = f"source {top}/tools/sqljson.bash; cd odd; COMP_WORDS=(sqljson run ''); COMP_CWORD=2; _sqljson; printf '%s\\0' \"${{COMPREPLY[@]}}\""
    got = room.run(["bash", "-c", script]).output.decode().split("\0")[:-1]
    tally.check("completion of odd names", None if sorted(got) == sorted(ODD[1:3]) else f"it is {got}")


def check_install(tally, room, program, top, version):
    """What is installed runs by itself."""
    prefix = room.folder / "prefix"
    ended = room.run([top / "tools" / "install", "--program", program.path, prefix])
    tally.check("tools/install", difference(Ended(0), ended))
    page = prefix / "share" / "man" / "man1" / "sqljson.1"
    has = page.is_file() and f"sqljson {version}" in page.read_text(encoding="utf-8")
    tally.check("the installed man page", None if has else "it lacks the version")
    tally.check("the installed program", run_fault(room, prefix))
    check_kept(tally, room, program, top, prefix)
    for tool in ["install", "debian", "release"]:
        for words in [[], ["--no-such-word"], ["one", "two"]]:
            ended = room.run([top / "tools" / tool, *words])
            tally.check(f"tools/{tool} {words}", None if ended.status == 1 and b"usage:" in ended.note else f"it ended with {ended}")
        helped = room.run([top / "tools" / tool, "--help"])
        tally.check(f"tools/{tool} --help", None if helped.status == 0 and b"usage:" in helped.output else f"it ended with {helped}")


def check_kept(tally, room, program, top, prefix):
    """What is installed stays and runs where the next one can't be put in its place, or is the same."""
    installed = prefix / "bin" / "sqljson"
    (room.folder / "cut-off").write_bytes(program.path.read_bytes()[:200_000])
    (room.folder / "cut-off").chmod(0o755)
    for given in WRONG_PROGRAMS:
        ended = room.run([top / "tools" / "install", "--program", given, prefix])
        tally.check(f"tools/install --program {given}", run_fault(room, prefix) or status_fault(1, ended))
    ended = room.run([top / "tools" / "install", "--program", installed, prefix])
    tally.check("tools/install of what is installed", run_fault(room, prefix) or status_fault(0, ended))
    # No file may grow past a part of the program, as on a full disk.
    ended = room.run(["bash", "-c", f"trap '' XFSZ; ulimit -f 200; '{top}/tools/install' --program '{program.path}' '{prefix}'"])
    tally.check("tools/install on a full disk", run_fault(room, prefix) or status_fault(1, ended))
    left = [it.name for it in prefix.rglob("*.new")]
    tally.check("tools/install leaves nothing behind", left and f"it left {left}")
    for tool in ["install", "debian", "release"] if shutil.which("dpkg-deb") else ["install", "release"]:
        script = f"cd '{top}' && export CDPATH=. && tools/{tool} --program '{program.path}' '{room.folder}/cdpath-{tool}'"
        tally.check(f"tools/{tool} with CDPATH", status_fault(0, room.run(["bash", "-c", script])))


def check_release(tally, room, program, top, version):
    """The archive has the right checksum, is the same the next time, and its program and companions run."""
    name = f"sqljson-{version}-{platform.machine()}"
    script = f"'{top}/tools/release' --program '{program.path}' %s && cd %s && sha256sum --check --quiet *.sha256"
    for folder in ["first", "second"]:
        ended = room.run(["bash", "-c", script % (folder, folder)])
        wanted = f"{folder}/{name}.tar.gz\n{folder}/{name}.tar.gz.sha256\n".encode()
        tally.check("tools/release", difference(Ended(0, wanted, ended.note), ended))
    first, second = (room.folder / folder / f"{name}.tar.gz" for folder in ["first", "second"])
    tally.check("the archive", None if first.read_bytes() == second.read_bytes() else "it is another the next time")
    room.run(["tar", "-xzf", first])
    tally.check("the program of the archive", run_fault(room, room.folder / name))


def run_fault(room, prefix):
    """Says what is wrong with the program and the companions below a prefix, or nothing."""
    found = f'export PATH="{prefix}/bin:$PATH"; '
    wanted = (room.folder / "orders.out").read_bytes()
    ended = room.run(["bash", "-c", found + "sqljson run orders.sql < orders.jsonl && sqljson-where orders.sql"])
    return difference(Ended(0, wanted + b"accepted 2\n"), ended)


def check_package(tally, room, program, top, version):
    """The package says what it is, and has the program, the companions and the man page."""
    ended = room.run([top / "tools" / "debian", "--program", program.path, "packages"])
    package = ended.output.decode().strip()
    tally.check("tools/debian", None if ended.status == 0 and version in package else f"it ended with {ended}")
    said = room.run(["dpkg-deb", "--field", package]).output.decode()
    for field in [f"Version: {version}\n", "Package: sqljson\n", "Depends: libc6 (>= 2."]:
        tally.check(f"the package's {field.split(':')[0]}", None if field in said else f"it says {said}")
    unpacked = room.folder / "unpacked"
    room.run(["dpkg-deb", "--extract", package, unpacked])
    files = ["bin/sqljson", *(f"bin/sqljson-{it}" for it in COMPANIONS), "share/man/man1/sqljson.1.gz", "share/doc/sqljson/CHANGELOG.md"]
    lacking = [it for it in files if not (unpacked / "usr" / it).is_file()]
    tally.check("the package", lacking and f"it lacks {lacking}")
    tally.check("the program of the package", run_fault(room, unpacked / "usr"))
