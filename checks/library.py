"""The library for other programs: its header declares what it exports, and its calls say what the command says.

The calls are made from Python over the shared library, on the statement files of the tables and of the examples, and from a
program in C that is linked with either form of the library. Where the library was not built or no compiler for C is
installed, that is said and nothing is tried.
"""
import ctypes
import re
import shutil
import subprocess
import tempfile
from pathlib import Path

from checks.show import example_files, table_files

EXPORT = re.compile(r'#\[unsafe\(no_mangle\)\]\npub extern "C" fn (\w+)\((.*?)\)(?: -> (\w+))?\n', re.S)
FIELD = re.compile(r"^    pub (\w+): (\w+),$", re.M)
INTERFACE = re.compile(r"const INTERFACE: u32 = (\d+);")
TYPES = {"u32": "uint32_t", "u64": "uint64_t", "usize": "size_t"}
WRITTEN = {"&[u8]": "const uint8_t *{0}, size_t {0}_len", "&mut [u8]": "uint8_t *{0}, size_t {0}_len", "&mut [u32]": "uint32_t *{0}, size_t {0}_len", "&mut Ended": "struct sqljson_ended *{0}"}
DONE, REFUSED, TOO_LONG, NO_ROOM = 0, 2, 8, 10
LONGEST = 1 << 21  # bytes of a canonical text
MOST_WIDTHS = 1 << 17  # statements
LINKED = 12  # files that the program in C is tried with, of each kind
SECONDS = 60
HEADING = "## In a program in C\n"  # of the guide


class Ended(ctypes.Structure):
    """How a call ended, as `sqljson.h` has it."""

    _fields_ = [("status", ctypes.c_uint32), ("statement", ctypes.c_uint32), ("count", ctypes.c_uint64)]

    def told(self):
        return self.status, self.statement, self.count


class Library:
    """The shared library in one folder."""

    def __init__(self, prefix):
        self.calls = ctypes.CDLL(str(prefix / "lib" / "libsqljson.so"))
        self.calls.sqljson_message.restype = ctypes.c_size_t

    def check(self, file):
        ended = Ended()
        self.calls.sqljson_check(file, ctypes.c_size_t(len(file)), ctypes.byref(ended))
        return ended.told()

    def show(self, file, room=LONGEST):
        ended, out = Ended(), ctypes.create_string_buffer(max(room, 1))
        self.calls.sqljson_show(file, ctypes.c_size_t(len(file)), out, ctypes.c_size_t(room), ctypes.byref(ended))
        return ended.told(), out.raw[: ended.count]

    def widths(self, file, room=MOST_WIDTHS):
        ended, out = Ended(), (ctypes.c_uint32 * max(room, 1))()
        self.calls.sqljson_widths(file, ctypes.c_size_t(len(file)), out, ctypes.c_size_t(room), ctypes.byref(ended))
        return ended.told(), list(out[: ended.count])

    def message(self, file, room=1000):
        out = ctypes.create_string_buffer(max(room, 1))
        length = self.calls.sqljson_message(file, ctypes.c_size_t(len(file)), out, ctypes.c_size_t(room))
        return out.raw[:length]


def check_library(tally, program, top):
    check_header(tally, top)
    built = top / "crates" / "sqljson_c" / "out" / "libsqljson_c.a"
    missing = [it for it in ("cc", "ar") if not shutil.which(it)] + ([] if built.is_file() else [str(built.relative_to(top))])
    if missing:
        print(f"passed over the library: there is no {', no '.join(missing)}", flush=True)
        return
    with tempfile.TemporaryDirectory() as made:
        room, prefix = Path(made), Path(made, "prefix")
        ran = subprocess.run([top / "tools" / "library", prefix], capture_output=True, text=True, timeout=SECONDS)
        tally.check("tools/library", f"it ended with status {ran.returncode}: {ran.stderr}" if ran.returncode else None)
        if not ran.returncode:
            files = [file for of in (table_files, example_files) for file, *_ in of(top)]
            check_calls(tally, Library(prefix), program, room, list(dict.fromkeys(files)))
            check_linked(tally, Library(prefix), prefix, room, top, files)
            check_example(tally, prefix, room, top)


def check_header(tally, top):
    """The header has the exports with their types, the fields of the struct, and the number of the interface, and no more."""
    source = {name: (top / "crates" / "sqljson_c" / "src" / f"{name}.rt").read_text(encoding="utf-8") for name in ("exports", "ended")}
    header = re.sub(r"/\*.*?\*/", " ", (top / "include" / "sqljson.h").read_text(encoding="utf-8"), flags=re.S)
    declared = {" ".join(it.split()) for it in re.findall(r"^\w[\w ]*?\bsqljson_\w+\([^;]*\);", header, re.M)}
    exported = {declaration(*it) for it in EXPORT.findall(source["exports"])}
    odd = declared ^ exported
    tally.check("sqljson.h, functions", None if exported and not odd else f"the header or the exports have alone: {'; '.join(sorted(odd)) or 'none'}")
    fields = [f"{TYPES[kind]} {name};" for name, kind in FIELD.findall(source["ended"])]
    struct = re.search(r"^struct sqljson_ended \{(.*?)^\};", header, re.M | re.S)
    same = struct and [" ".join(line.split()) for line in struct[1].split("\n") if line.strip()] == fields
    tally.check("sqljson.h, struct sqljson_ended", None if same else f"it has not these fields: {' '.join(fields)}")
    number = INTERFACE.search(source["exports"])[1]
    tally.check("sqljson.h, SQLJSON_INTERFACE", None if f"#define SQLJSON_INTERFACE {number}u\n" in header else f"it is not {number}")


def declaration(name, arguments, result):
    """What C has in place of an export. An allocator takes no place there."""
    pairs = [it.strip().split(": ", 1) for it in re.split(r",\s*", arguments) if it.strip()]
    written = [WRITTEN[kind].format(of) for of, kind in pairs if kind != "Global"]
    return f"{TYPES[result] if result else 'void'} {name}({', '.join(written) or 'void'});"


def check_calls(tally, library, program, room, files):
    """Each file is accepted or refused as the command does it, with the same text; and buffers of other sizes."""
    wrong, accepted = [], 0
    for file in files:
        (room / "f").write_bytes(file)
        ran, shown = program.run(["check", "f"], folder=room), program.run(["show", "f"], folder=room)
        ended, text = library.show(file)
        accepted += ran.status == DONE
        wanted = (DONE, 0, int(ran.output.split()[1])) if ran.status == DONE else (ran.status, statement_of(ran.note), 0)
        told = {"check": library.check(file) == wanted, "message": library.message(file) == ran.note}
        told["show"] = (ended[0], text) == (shown.status, shown.output)
        told["widths"] = ran.status != DONE or library.widths(file)[0] == wanted
        told["no room"] = not text or library.show(file, len(text) - 1) == ((NO_ROOM, 0, 0), b"")
        told["just room"] = not text or library.show(file, len(text)) == (ended, text)
        told["part of a message"] = library.message(file, 5) == ran.note[:5]
        wrong += [f"{name} of {file[:60]!r}" for name, right in told.items() if not right]
    few = None if accepted else "none of them is accepted"
    tally.check(f"the library: {len(files)} files, of which {accepted} are accepted", few or "; ".join(wrong[:5]))
    three = b"SELECT doc IS JSON, JSON_VALUE(doc, '$.a'), JSON_EXISTS(doc, '$'); SELECT JSON_VALUE(doc, '$.a');"
    tally.check("the library: widths", None if library.widths(three) == ((DONE, 0, 2), [3, 1]) else f"{library.widths(three)}")
    tally.check("the library: widths without room", None if library.widths(three, 1) == ((NO_ROOM, 0, 0), []) else f"{library.widths(three, 1)}")
    long = b" " * 1_048_577
    tally.check("the library: a file that is too long", None if library.check(long) == (TOO_LONG, 0, 0) else f"{library.check(long)}")


def statement_of(note):
    """The number of the statement that a message names."""
    named = re.match(rb"statement (\d+): ", note)
    return int(named[1]) if named else 0


def check_linked(tally, library, prefix, room, top, files):
    """A program in C over either form of the library writes the same."""
    for kind, words in [("libsqljson.a", [prefix / "lib" / "libsqljson.a"]), ("libsqljson.so", [f"-L{prefix / 'lib'}", "-lsqljson", f"-Wl,-rpath,{prefix / 'lib'}"])]:
        made = subprocess.run(["cc", "-std=c99", "-Wall", "-Werror", f"-I{prefix / 'include'}", top / "checks" / "library.c", "-o", room / "called", *words], capture_output=True, text=True, timeout=SECONDS)
        wrong = [made.stderr] if made.returncode else [file[:60] for file in some_of(files) if not same_linked(library, room, file)]
        tally.check(f"a program in C with {kind}", f"{wrong[:3]}" if wrong else None)


def check_example(tally, prefix, room, top):
    """The example of the guide writes what stands below it."""
    section = (top / "docs" / "GUIDE.md").read_text(encoding="utf-8").partition(HEADING)[2].partition("\n## ")[0]
    code, output = re.findall(r"^```\n(.*?)^```$", section, re.M | re.S)
    (room / "example.c").write_text(code, encoding="utf-8")
    made = subprocess.run(["cc", f"-I{prefix / 'include'}", room / "example.c", "-o", room / "example", prefix / "lib" / "libsqljson.a"], capture_output=True, text=True, timeout=SECONDS)
    ran = made if made.returncode else subprocess.run([room / "example"], capture_output=True, text=True, timeout=SECONDS)
    tally.check("GUIDE.md, the example in C", None if (ran.returncode, ran.stdout) == (0, output) else f"{ran.stderr}{ran.stdout}")


def some_of(files):
    return files[:: max(1, len(files) // LINKED)]


def same_linked(library, room, file):
    (room / "f").write_bytes(file)
    calls = {"check": (b"", library.check(file)), "show": library.show(file)[::-1], "widths": None, "message": (library.message(file), (0, 0, 0))}
    ended, widths = library.widths(file)
    calls["widths"] = "".join(f"{it}\n" for it in widths).encode(), ended
    return all(linked(room, word) == wanted for word, wanted in calls.items())


def linked(room, word):
    """What the program in C wrote, and how the call ended."""
    ran = subprocess.run([room / "called", word, room / "f", str(LONGEST)], capture_output=True, timeout=SECONDS)
    return ran.stdout, tuple(map(int, ran.stderr.split()))
