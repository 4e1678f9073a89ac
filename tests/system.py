"""Rows on files of the system: sizes round a buffer and round each limit, pipes, permissions, targets that fail, links, and
texts of several megabytes. The files are made here and not stored."""
import os
import resource
import signal
import stat
import subprocess
import threading
import time

from difference import difference

SECONDS = 300
NOBODY = 65534
HALT = bytes.fromhex("0600000000000000")
TEXT = b"params 0\nhalt 0 0\n"
NO_MEMORY = b"memory 0 0\nargs\n"


def header(count):
    return b"NVO1" + (0).to_bytes(4, "little") + count.to_bytes(4, "little")


def tagged(count):
    """An object of so many halts, and of as many exceptions with the longest names, and starts, as there can be."""
    numbers = (65535).to_bytes(4, "little") + (1 << 20).to_bytes(4, "little")
    exception = (7).to_bytes(4, "little") + bytes([64]) + b"n" * 64
    start = (count - 1).to_bytes(4, "little")
    return b"NVO2" + header(count)[4:] + numbers + HALT * count + exception * 65535 + start * (1 << 20)


def code(count):
    """An object of so many halts."""
    return header(count) + HALT * count


class Folder:
    """The folder of one row, the program, and what differed so far."""

    def __init__(self, novac, at):
        self.novac, self.at, self.found = novac, at, []

    def path(self, name):
        return os.path.join(self.at, name)

    def put(self, name, data, mode=None):
        with open(self.path(name), "wb") as it:
            it.write(data)
        if mode is not None:
            os.chmod(self.path(name), mode)

    def zeros(self, name, length):
        """A file of so many bytes of 0, which takes no room on the disk."""
        with open(self.path(name), "wb") as it:
            it.truncate(length)

    def get(self, name):
        with open(self.path(name), "rb") as it:
            return it.read()

    def runs(self, words, status, output=None, **how):
        """Runs the program, and notes where status or output isn't this."""
        ran = subprocess.run([self.novac, *words.split()], cwd=self.at, stdin=subprocess.DEVNULL, timeout=SECONDS,
                             **{"stdout": subprocess.PIPE, "stderr": subprocess.PIPE, **how})
        if ran.returncode != status:
            self.found.append(f"novac {words}: status {ran.returncode}, wanted {status}")
        if output is not None and ran.stdout != output.encode():
            self.found.append(difference(f"novac {words}: output", output.encode(), ran.stdout, is_exact=True))
        if ran.stderr:
            self.found.append(difference(f"novac {words}: standard error", b"", ran.stderr, is_exact=True))
        return ran.stdout

    def holds(self, fact, what):
        if not fact:
            self.found.append(what)

    def has(self, *names):
        """Notes where the folder has other names than these, such as a temporary file."""
        have = sorted(os.listdir(self.at))
        self.holds(have == sorted(names), f"the folder has {have}, wanted {sorted(names)}")


class SystemRow:
    where, wants = "tests/system.py", ("novac",)

    def __init__(self, name, body, given):
        self.name, self.body, self.given = name, body, given

    def differences(self, novac, at):
        folder = Folder(novac, at)
        self.body(folder, *self.given)
        return folder.found


ROWS = []


def row(name, *given):
    def add(body):
        ROWS.append(SystemRow(name, body, given))
        return body

    return add


# Sizes

SOURCE = b"fun main[]: word { 7 }"
SEVEN = "ended 00000007\nwrites 0\nmemory 0 0\n"


def sizes():
    def source(it, length):
        text = SOURCE[:length] if length < len(SOURCE) else b" " * (length - len(SOURCE)) + SOURCE
        it.put("s", text)
        it.put("m", NO_MEMORY)
        if length <= 1:
            it.runs("exec s m steps=1", 7 - length, "type 1 at 0 0\n" if length == 0 else "syntax syntax at 0\n")
        elif length <= 262144:
            it.runs("exec s m steps=1", 0, SEVEN)
        else:
            it.runs("exec s m steps=1", 8, "too large 262144\n")

    def cut(it, length):
        it.put("o", code(600)[:length])
        it.runs("lint o", 12, f"object {length}\n")

    def whole(it, count, over):
        it.put("o", code(count) + b"\0" * over)
        it.runs("lint o", 12 if over else 0, "object 8388620\n" if over else f"lawful {count}\n")

    def longest(it, count, over):
        it.put("o", tagged(count) + b"\0" * over)
        it.runs("lint o", 8 if over else 0, "too large 17104847\n" if over else f"lawful {count}\n")

    def zeros(it, words, length, status, output):
        it.zeros("z", length)
        it.put("o", code(1))
        it.runs(words, status, output)

    for length in (0, 1, 4095, 4096, 4097, 8191, 8192, 8193, 262144, 262145):
        row(f"a source of {length:,} bytes", length)(source)
    for length in (0, 1, 4095, 4096, 4097):
        row(f"an object cut behind {length:,} bytes", length)(cut)
    row("an object of 8,388,620 bytes", 1048576, 0)(whole)
    row("an object of 8,388,621 bytes", 1048576, 1)(whole)
    row("an object of 17,104,847 bytes", 1048576, 0)(longest)
    row("an object of 17,104,848 bytes", 1048576, 1)(longest)
    for what, words, limit, status, output in (
        ("a memory text", "run o z steps=1", 4 << 20, 13, "memory line 1\n"),
        ("an assembly text", "asm z p", 64 << 20, 6, "syntax text line 1\n"),
        ("a report", "check z", 64 << 20, 17, "report line 1\n"),
    ):
        row(f"{what} of {limit:,} bytes", words, limit, status, output)(zeros)
        row(f"{what} of {limit + 1:,} bytes", words, limit + 1, 8, f"too large {limit}\n")(zeros)


sizes()


def lets():
    """Blocks of many lets. The first kind has an expanded size of 3 for each let, and 5 besides; the second one of 7 for each, and 8
    besides."""

    def tried(it, text, size, given):
        it.put("s", text.encode())
        it.put("m", NO_MEMORY)
        if size <= 4096:
            outcome = f"ended {given:08x}\nwrites 0\nmemory 0 0\n"
            it.runs("exec s m steps=1", 0, outcome)
            it.runs("compile s o r", 0)
            it.runs("run o m steps=10000", 0, outcome)
        else:
            it.runs("exec s m steps=1", 8, f"too large {size}\n")
            it.runs("compile s o r", 8, f"too large {size}\n")

    for count, size in ((1363, 4094), (1364, 4097)):
        text = "fun main[]: word {" + " let _ = 7;" * count + " 8 }"
        row(f"{count:,} lets that bind nothing", text, size, 8)(tried)
    for count, size in ((580, 4068), (600, 4208)):
        text = "fun main[]: word { let x = 1;" + " let x = x + 1;" * count + " x }"
        row(f"{count:,} lets of one name", text, size, 1 + count)(tried)


lets()


@row("of 70 writes the first 64 are shown, and all are counted")
def many_writes(it):
    it.put("s", b"fun put[i: word]: word { if (i == 70) i else sram(i) <- i; put[i + 1] } fun main[]: word { put[0] }")
    it.put("m", b"memory 70 0\nargs\n")
    shown = "".join(f"write sram {at} {at:08x}\n" for at in range(64))
    held = "".join(f"sram {at} " + " ".join(f"{k:08x}" for k in range(at, min(at + 8, 70))) + "\n" for at in range(0, 70, 8))
    outcome = f"ended 00000046\nwrites 70\n{shown}memory 70 0\n{held}"
    it.runs("exec s m steps=100", 0, outcome)
    it.runs("compile s o r", 0)
    it.runs("run o m steps=10000", 0, outcome)


# Megabytes


@row("an assembly text and an object of megabytes are assembled, listed, looked at and run")
def megabytes_of_code(it):
    count = 150000
    lines = [f"immed A{at % 15} {at % 65536} 0\n" for at in range(count - 1)] + ["halt 0 1\n"]
    text = "params 0\n" + "".join(lines)
    it.put("t", text.encode())
    it.runs("asm t o", 0, f"assembled {count}\n")
    it.holds(os.path.getsize(it.path("o")) == 12 + 8 * count, "the object has another length")
    it.runs("dis o", 0, text)
    it.runs("lint o", 0, f"lawful {count}\n")
    it.put("m", NO_MEMORY)
    last = max(at for at in range(count - 1) if at % 15 == 0) % 65536
    it.runs(f"run o m steps={count}", 0, f"ended {last:08x}\nwrites 0\nmemory 0 0\n")
    it.has("t", "o", "m")


@row("a report of megabytes is checked")
def megabytes_of_report(it):
    count = 350000
    it.put("r", f"novareport 1\nslots 0\nbudget 1\ncolumns {count}\nrows 0\n".encode() + b"c 100\n" * count
           + b"verdict optimal 0\nx\ntree 1\nd 1\n")
    it.runs("check r", 0, "optimal 0\n")


@row("a report of more than a megabyte is saved, and checked")
def saved_report(it):
    stores = "".join(f"sram({at}) <- a + b; " for at in range(250))
    it.put("s", f"fun main[a: word, b: word]: () {{ {stores}() }}\n".encode())
    it.runs("compile s o r store=1048576", 0, "compiled 512 optimal 251\n")
    it.holds(os.path.getsize(it.path("r")) > 1 << 20, "the report is short")
    it.runs("check r", 0, "optimal 251\n")
    it.has("s", "o", "r")


@row("a memory text of megabytes, and an outcome with whole memories")
def megabytes_of_memory(it):
    def lines(memory, count):
        return [f"{memory} {at} " + " ".join(f"{at * step + 8 + k:08x}" for k in range(8)) + "\n"
                for step in (1,) for at in range(0, count, 4 if memory == "sdram" else 8)]

    sram, sdram = "".join(lines("sram", 65536)), "".join(lines("sdram", 65536))
    it.put("m", ("memory 65536 65536\nargs\n" + sram + sdram + sram).encode())
    it.put("o", code(1))
    it.put("s", b"fun main[]: () { () }")
    wanted = "ended\nwrites 0\nmemory 65536 65536\n" + sram + sdram
    it.runs("run o m steps=1", 0, wanted)
    it.runs("exec s m steps=1", 0, wanted)


# Pipes


def written_slowly(path, data, piece):
    with open(path, "wb", buffering=0) as it:
        for at in range(0, len(data), piece):
            it.write(data[at : at + piece])
            time.sleep(0.002)


@row("a pipe that gives short pieces is read whole")
def short_reads(it):
    text = b" " * 9000 + SOURCE
    it.put("m", NO_MEMORY)
    os.mkfifo(it.path("s"))
    writer = threading.Thread(target=written_slowly, args=(it.path("s"), text, 700), daemon=True)
    writer.start()
    it.runs("exec s m steps=1", 0, SEVEN)
    writer.join(10)


@row("a pipe as a target takes the object")
def pipe_as_target(it):
    it.put("t", TEXT)
    os.mkfifo(it.path("o"))
    taken = []

    def take():
        taken.append(it.get("o"))

    reader = threading.Thread(target=take, daemon=True)
    reader.start()
    it.runs("asm t o", 0, "assembled 1\n")
    reader.join(10)
    it.holds(taken == [code(1)], f"the pipe gave {taken}")
    it.has("t", "o")


# Targets


@row("a new file takes the mode that the process gives new files, a replaced one keeps its own")
def modes(it):
    it.put("t", TEXT)
    it.runs("asm t o", 0, "assembled 1\n", umask=0o027)
    it.holds(stat.S_IMODE(os.stat(it.path("o")).st_mode) == 0o640, "a new file has another mode")
    for mode in (0o600, 0o644, 0o751, 0o666):
        it.put("o", b"old", mode)
        it.runs("asm t o", 0, "assembled 1\n", umask=0o077)
        it.holds(stat.S_IMODE(os.stat(it.path("o")).st_mode) == mode, f"mode {mode:o} isn't kept")
        it.holds(it.get("o") == code(1), "the old bytes stay")
    it.has("t", "o")


def as_anybody():
    """How a run has no rights of an administrator."""
    return {"user": NOBODY, "group": NOBODY, "extra_groups": []} if os.geteuid() == 0 else {}


@row("a target that may not be written stays as it is")
def read_only(it):
    os.chmod(it.at, 0o777)
    it.put("t", TEXT, 0o644)
    it.put("o", b"old", 0o444)
    it.runs("asm t o", 4, "cannot write o\n", **as_anybody())
    it.holds(it.get("o") == b"old", "the file changed")
    it.has("t", "o")


@row("a file in a folder that takes no new one is written in place")
def closed_folder(it):
    it.put("t", TEXT, 0o644)
    it.put("o", b"a longer text that was there before", 0o666)
    os.chmod(it.at, 0o555)
    it.runs("asm t o", 0, "assembled 1\n", **as_anybody())
    it.runs("asm t new", 4, "cannot write new\n", **as_anybody())
    os.chmod(it.at, 0o755)
    it.holds(it.get("o") == code(1), "the file has other bytes")
    it.has("t", "o")


@row("another's file in a folder where only owners rename is written in place")
def sticky_folder(it):
    if os.geteuid() != 0:
        return
    it.put("t", TEXT, 0o644)
    it.put("o", b"a longer text that was there before", 0o666)
    os.chmod(it.at, 0o1777)
    it.runs("asm t o", 0, "assembled 1\n", **as_anybody())
    it.holds(it.get("o") == code(1), "the file has other bytes")
    it.has("t", "o")


def with_little_room():
    """The process may write files of 100 bytes, and a longer write is an error."""
    signal.signal(signal.SIGXFSZ, signal.SIG_IGN)
    resource.setrlimit(resource.RLIMIT_FSIZE, (100, 100))


@row("a write that fails half way leaves the old file and no temporary one")
def half_written(it):
    it.put("t", b"params 0\n" + b"halt 0 0\n" * 100)
    it.put("o", b"old")
    it.runs("asm t o", 4, "cannot write o\n", preexec_fn=with_little_room)
    it.holds(it.get("o") == b"old", "the file changed")
    it.runs("asm t new", 4, "cannot write new\n", preexec_fn=with_little_room)
    it.has("t", "o")


@row("targets that can't be files")
def impossible(it):
    it.put("t", TEXT)
    os.mkdir(it.path("d"))
    for name in ("d", "d/", "none/o", "t/o", "o/", "/dev/full", "x" * 256):
        it.runs(f"asm t {name}", 4, f"cannot write {name}\n")
    it.runs("asm t /dev/null", 0, "assembled 1\n")
    it.has("t", "d")
    it.holds(os.listdir(it.path("d")) == [], "the folder got a file")


@row("the longest name of a file")
def long_name(it):
    it.put("t", TEXT)
    it.runs(f"asm t {'x' * 255}", 0, "assembled 1\n")
    it.has("t", "x" * 255)


# Links


@row("a link stays a link, and the file that it leads to is replaced")
def link(it):
    os.mkdir(it.path("d"))
    it.put("t", TEXT)
    it.put("d/o", b"old", 0o604)
    os.symlink("d/o", it.path("one"))
    os.symlink("one", it.path("two"))
    before = os.stat(it.path("d/o")).st_ino
    it.runs("asm t two", 0, "assembled 1\n")
    it.holds(os.path.islink(it.path("one")) and os.path.islink(it.path("two")), "a link is gone")
    it.holds(it.get("d/o") == code(1), "the file has other bytes")
    it.holds(os.stat(it.path("d/o")).st_ino != before, "the file was written in place")
    it.holds(stat.S_IMODE(os.stat(it.path("d/o")).st_mode) == 0o604, "the mode isn't kept")
    it.has("t", "d", "one", "two")
    it.holds(os.listdir(it.path("d")) == ["o"], "a temporary file stays")


@row("a link that leads nowhere makes its file, and one that leads to itself can't be written")
def empty_links(it):
    it.put("t", TEXT)
    os.symlink("o", it.path("l"))
    it.runs("asm t l", 0, "assembled 1\n")
    it.holds(os.path.islink(it.path("l")) and it.get("o") == code(1), "the file isn't made")
    os.symlink("self", it.path("self"))
    it.runs("asm t self", 4, "cannot write self\n")
    it.has("t", "l", "o", "self")


@row("an output that is an input under another name replaces it")
def other_names(it):
    it.put("t", TEXT)
    it.put("u", TEXT)
    os.symlink("u", it.path("l"))
    it.runs("asm t ./t", 0, "assembled 1\n")
    it.runs("asm u l", 0, "assembled 1\n")
    it.holds(it.get("t") == code(1) and it.get("u") == code(1), "an input stays")
    it.holds(os.path.islink(it.path("l")), "the link is gone")
    it.has("t", "u", "l")


@row("temporary files that killed runs left are in nobody's way, and stay")
def leftovers(it):
    # A run's names begin at a random number of 64 bits, so none of these is likely to be taken again: that a name which is taken
    # fails no save is proved, and tried over a store that has it (test_libraries).
    it.put("t", TEXT)
    left = [f".novac-{first}-{number}.tmp" for first in (0, 1, 2**63, 2**64 - 1) for number in range(250)]
    for name in left:
        it.put(name, b"")
    it.runs("asm t o", 0, "assembled 1\n")
    it.has("t", "o", *left)


# Output


@row("an output that takes nothing gives 4, and what was saved stays")
def full_output(it):
    it.put("t", TEXT)
    with open("/dev/full", "wb") as full:
        it.runs("asm t o", 4, stdout=full)
        it.runs("dis o", 4, stdout=full)
        it.runs("dis absent", 4, stdout=full)
        it.runs("nothing", 4, stdout=full)
    it.holds(it.get("o") == code(1), "the object isn't saved")
    it.has("t", "o")


@row("inputs that can't be read")
def unreadable(it):
    it.put("t", TEXT, 0o000)
    os.chmod(it.at, 0o777)
    it.runs("asm t o", 3, "cannot read t\n", **as_anybody())
    os.mkdir(it.path("d"))
    it.runs("asm d o", 3, "cannot read d\n")
    it.runs("asm t/x o", 3, "cannot read t/x\n")
    it.has("t", "d")


# Words


@row("a word that isn't text is no command")
def no_text(it):
    it.put("t", TEXT)
    for words in [[b"asm", b"t", b"o\xff"], [b"\xff"], [b"lint", b"\xc3"], [b"asm", b"t", b"o", b"\xed\xa0\x80"]]:
        ran = subprocess.run([it.novac.encode(), *words], cwd=it.at, capture_output=True, timeout=SECONDS)
        it.holds((ran.returncode, ran.stdout, ran.stderr) == (2, b"usage\n", b""), f"{words}: {ran}")
    it.has("t")


@row("without memory for the words the status is 5, and nothing is printed")
def no_room(it):
    # Words that are longer than what a small process has besides: from the least address space in which the program begins
    # on, first their copies want memory, and then none does.
    words, seen = ["w" * 100000] * 15, []
    for kib in range(2048, 16384, 64):
        limit = kib * 1024

        def limited():
            resource.setrlimit(resource.RLIMIT_AS, (limit, limit))

        try:
            ran = subprocess.run([it.novac, *words], cwd=it.at, stdin=subprocess.DEVNULL, capture_output=True, timeout=SECONDS, preexec_fn=limited)
        except (OSError, subprocess.SubprocessError):
            continue
        # Below that the system can't start the program.
        if seen or ran.returncode in (2, 5):
            seen.append((ran.returncode, ran.stdout, ran.stderr))
        if ran.returncode == 2:
            break
    it.holds(len(seen) > 1 and set(seen[:-1]) == {(5, b"", b"")} and seen[-1] == (2, b"usage\n", b""), f"statuses and outputs {seen[:3]} .. {seen[-1:]}")


def all_rows():
    return ROWS
