#!/usr/bin/env python3
"""Runs the built program on deep, long and broken input, and checks the output and the status of each run.

    hostile.py [PATH] [--only WORD] [--size N] [--large]

PATH is the program (default: crates/spq/out/spq). A case is a command line, a document, and the expected
output and status. A case fails if a signal ends the program, if the program prints anything else, or if it
runs for longer than two minutes. The documents of `growth` are read at a size and at four times that size.
Time and memory may grow by twice that factor, but not by its square.
`--size N` scales the large documents to N percent of their full size, so that a first run is quick. `--large` adds a document of more
than 4 GiB, which needs 6 GB of memory.
Needs the Python 3 standard library, and cc for a case that replaces calls of the C library.
"""
import argparse
import contextlib
import ctypes
import fcntl
import itertools
import mmap
import os
import resource
import shutil
import signal
import socket
import struct
import subprocess
import sys
import tempfile
import termios
import time

HERE = os.path.dirname(os.path.abspath(__file__))
SECONDS = 120
MIB = 1 << 20
STATEMENT = b"<http://e/s> <http://e/p> <http://e/o> .\n"
# With these words two statements are two pieces, so a second worker starts. One piece is read by the caller.
TWO_PIECES = ["--piece", "1"]


class Failed(Exception):
    pass


def expect(holds, text):
    if not holds:
        raise Failed(text)


class Answer:
    def __init__(self, status, output, seconds, peak):
        self.status, self.output, self.seconds, self.peak = status, output, seconds, peak

    def is_exactly(self, status, line):
        shown = self.output[:200]
        expect(self.status == status, f"status {self.status} and {shown!r}, not {status}")
        expect(self.output == line, f"{shown!r}, not {line[:200]!r}")


class Program:
    """The program under test, and the folder for documents and outputs."""

    def __init__(self, path, folder, percent):
        self.path, self.folder, self.percent = path, folder, percent

    def scaled(self, n):
        return max(1, n * self.percent // 100)

    def file(self, parts):
        path = os.path.join(self.folder, "document")
        with open(path, "wb") as out:
            for part in parts:
                out.write(part)
        return path

    def run(self, words, document, limit=None, output=None):
        """Runs the program on a document, given as parts or as the path of a file. Stdout is read or goes to a file."""
        path = document if isinstance(document, str) else self.file(document)
        kept = os.path.join(self.folder, "output")
        with open(path, "rb") as source, open(output or kept, "wb") as sink:
            child = subprocess.Popen([self.path, *words], stdin=source, stdout=sink, preexec_fn=limit)
            status, seconds, peak = self.wait(child)
        with open(kept, "rb") as made:
            text = b"" if output else made.read()
        return Answer(status, text, seconds, peak)

    def wait(self, child):
        """Returns the status, the seconds of CPU time, and the peak memory in MiB."""
        peak, end = 0.0, time.monotonic() + SECONDS
        while time.monotonic() < end:
            peak = high_water(child.pid) or peak
            pid, raw, usage = os.wait4(child.pid, os.WNOHANG)
            if pid:
                child.returncode = os.waitstatus_to_exitcode(raw)
                if child.returncode < 0:
                    raise Failed(f"ended by {signal.Signals(-child.returncode).name}")
                return child.returncode, usage.ru_utime + usage.ru_stime, peak
            time.sleep(0.002)
        child.kill()
        child.wait()
        raise Failed(f"still running after {SECONDS} seconds")


def high_water(pid):
    """Returns the peak of a process so far. The peak of wait4 includes that of this script, from before the exec."""
    try:
        with open(f"/proc/{pid}/status") as lines:
            return next((int(line.split()[1]) / 1024 for line in lines if line.startswith("VmHWM:")), None)
    except OSError:
        return None


def repeated(part, count):
    """Yields a long document in parts of some megabytes."""
    whole = max(1, MIB // len(part))
    for _ in range(count // whole):
        yield part * whole
    yield part * (count % whole)


def counts(quads, terms, graphs):
    return b"ok %d quads %d terms %d graphs\n" % (quads, terms, graphs)


def bad_line(number):
    return b"error: line %d\n" % number


# ---- documents of a few bytes

SMALL = [
    ("an empty document", b"", 0, counts(0, 0, 0)),
    ("one line feed", b"\n", 0, counts(0, 0, 0)),
    ("no line feed", STATEMENT[:-1], 0, counts(1, 3, 0)),
    ("a malformed line without a line feed", STATEMENT + b"x", 1, bad_line(2)),
    ("a lone CR at the end", STATEMENT[:-1] + b"\r", 0, counts(1, 3, 0)),
    ("a NUL byte alone", b"\0", 1, bad_line(1)),
    ("a NUL byte after a statement", STATEMENT + STATEMENT[:-1] + b"\0\n", 1, bad_line(2)),
    ("a NUL byte in an IRI", b"<http://e/\0> <http://e/p> <http://e/o> .\n", 1, bad_line(1)),
    ("a NUL byte in a literal", b'<http://e/s> <http://e/p> "\0" .\n', 0, counts(1, 3, 0)),
    ("a byte that begins no character", STATEMENT + b'<http://e/s> <http://e/p> "\xff" .\n', 1, bad_line(2)),
    ("half a character at the end", STATEMENT + b'<http://e/s> <http://e/p> "\xe6\x9d', 1, bad_line(2)),
    ("a surrogate in UTF-8", b'<http://e/s> <http://e/p> "\xed\xa0\x80" .\n', 1, bad_line(1)),
    ("a surrogate as an escape", rb'<http://e/s> <http://e/p> "\ud800" .' + b"\n", 1, bad_line(1)),
    ("an overlong slash", b"<http:\xc0\xaf/e/s> <http://e/p> <http://e/o> .\n", 1, bad_line(1)),
    ("invalid UTF-8 in a comment", b"# \xff\n", 1, bad_line(1)),
    ("a byte order mark", b"\xef\xbb\xbf" + STATEMENT, 1, bad_line(1)),
    ("a quote that never closes", b'<http://e/s> <http://e/p> "x .\n' + STATEMENT, 1, bad_line(1)),
    ("an IRI that never closes", b"<http://e/s <http://e/p> <http://e/o> .\n", 1, bad_line(1)),
]


def small_documents(program):
    for name, document, status, line in SMALL:
        for words in (["check"], ["check", "--workers", "64", "--piece", "1"]):
            try:
                program.run(words, [document]).is_exactly(status, line)
            except Failed as fault:
                raise Failed(f"{name}, {' '.join(words)}: {fault}") from None


# ---- long lines and many of them

def a_line_of_blanks(program):
    parts = [*repeated(b" ", program.scaled(100 * MIB)), b"#\n", STATEMENT]
    program.run(["check"], parts).is_exactly(0, counts(1, 3, 0))


def a_long_comment(program):
    parts = [STATEMENT[:-1], b" # ", *repeated("é".encode(), program.scaled(50 * MIB)), b"\n"]
    program.run(["check"], parts).is_exactly(0, counts(1, 3, 0))


def a_long_bad_line(program):
    parts = [STATEMENT, *repeated(b"x", program.scaled(100 * MIB)), b"\n", STATEMENT]
    program.run(["check"], parts).is_exactly(1, bad_line(2))


def a_long_document_without_a_line_feed(program):
    parts = repeated(b"x", program.scaled(100 * MIB))
    program.run(["check"], parts).is_exactly(1, bad_line(1))


def a_long_literal(program):
    size = program.scaled(50 * MIB)
    parts = [b'<http://e/s> <http://e/p> "', *repeated(b"a", size), b'" .\n']
    answer = program.run(["terms"], parts)
    wanted = b'<http://e/s>\n<http://e/p>\n"' + b"a" * size + b'"\n'
    answer.is_exactly(0, wanted)


def a_long_literal_of_escapes(program):
    size = program.scaled(10 * MIB)
    parts = [b'<http://e/s> <http://e/p> "', *repeated(rb"\U0000000A", size), b'" .\n']
    answer = program.run(["terms"], parts)
    answer.is_exactly(0, b'<http://e/s>\n<http://e/p>\n"' + rb"\n" * size + b'"\n')


def a_long_iri_and_label_and_tag(program):
    size = program.scaled(10 * MIB)
    iri = b"<http://e/" + b"i" * size + b">"
    label = b"_:" + b"b." * size + b"b"
    literal = b'"x"@en' + b"-a" * size
    parts = [label, b" ", iri, b" ", literal, b" ", iri, b" .\n"]
    program.run(["terms"], parts).is_exactly(0, label + b"\n" + iri + b"\n" + literal + b"\n")


def a_label_of_dots(program):
    parts = [b"_:b", *repeated(b".", program.scaled(50 * MIB)), b" <http://e/p> _:c .\n"]
    program.run(["check"], parts).is_exactly(1, bad_line(1))


def many_empty_lines(program):
    lines = program.scaled(20_000_000)
    parts = [*repeated(b"\n", lines), b"x\n"]
    program.run(["check"], parts).is_exactly(1, bad_line(lines + 1))


def many_lone_returns(program):
    lines = program.scaled(20_000_000)
    parts = [*repeated(b"\r", lines), b"x"]
    program.run(["check"], parts).is_exactly(1, bad_line(lines + 1))


def one_statement_many_times(program):
    lines = program.scaled(1_000_000)
    program.run(["check"], repeated(STATEMENT, lines)).is_exactly(0, counts(1, 3, 0))


def many_graphs(program):
    graphs = program.scaled(1_000_000)
    parts = (b"<http://e/s> <http://e/p> <http://e/o> <http://e/g%d> .\n" % n for n in range(graphs))
    program.run(["check"], parts).is_exactly(0, counts(graphs, 3 + graphs, graphs))


# ---- many workers and pieces

def many_workers_over_many_pieces(program):
    lines = [b"<http://e/s%d> <http://e/p> _:b%d .\n" % (n, n % 7) for n in range(10_000)]
    for words in (["--workers", "64", "--piece", "1"], ["--workers", "1"], ["--workers", "64"]):
        program.run(["check", *words], lines).is_exactly(0, counts(10_000, 10_008, 0))


def many_workers_over_many_rows(program):
    """Checks that ten thousand rows of a join and an OPTIONAL, in tasks of one row, are those that one worker gives."""
    lines = [b"<http://e/s%d> <http://e/%s> <http://e/o%d> .\n" % (n, p, n % 97) for n in range(10_000) for p in (b"p", b"q")]
    query = "SELECT ?s ?o { { ?s <http://e/p> ?o } { ?s <http://e/q> ?o } OPTIONAL { ?s <http://e/q> ?r FILTER(?r = ?o) } }"
    answers = set()
    for words in (["--workers", "64", "--piece", "1", "--rows", "1"], ["--workers", "1"], ["--workers", "64", "--rows", "7"]):
        answer = program.run(["select", *words, "--query", query], lines)
        expect(answer.status == 0, f"status {answer.status} and {answer.output[:200]!r}")
        answers.add(answer.output)
    expect(len(answers) == 1, "not the same bytes each time")
    expect(answers.pop().count(b'{"o":{') == 10_000, "not ten thousand rows")


def the_least_of_many_bad_lines(program):
    lines = [STATEMENT] * 10_000
    for at in range(4321, 10_000, 3):
        lines[at] = b"x\n"
    for workers in ("1", "2", "64"):
        words = ["check", "--workers", workers, "--piece", "1"]
        program.run(words, lines).is_exactly(1, bad_line(4322))


# ---- devices

def a_full_output(program):
    for words in (["check"], ["terms"]):
        answer = program.run(words, [STATEMENT], output="/dev/full")
        expect(answer.status == 5, f"{words[0]}: status {answer.status}, not 5")


def a_reader_that_closes_early(program):
    path = program.file(b"<http://e/s%d> <http://e/p> _:b .\n" % n for n in range(200_000))
    with open(path, "rb") as source:
        child = subprocess.Popen([program.path, "terms"], stdin=source, stdout=subprocess.PIPE)
        expect(child.stdout.read(10) == b"<http://e/", "no terms came")
        child.stdout.close()
        status, _, _ = program.wait(child)
    expect(status == 5, f"status {status}, not 5")


def a_closed_output(program):
    answer = program.run(["check"], [STATEMENT], limit=lambda: os.close(1))
    expect(answer.status == 5, f"status {answer.status}, not 5")


def an_input_that_fails(program):
    kept = os.path.join(program.folder, "output")
    for what in ("a folder", "nothing"):
        with open(kept, "wb") as sink:
            source = os.open(program.folder, os.O_RDONLY)
            closed = (lambda: os.close(0)) if what == "nothing" else None
            child = subprocess.Popen([program.path, "check"], stdin=source, stdout=sink, preexec_fn=closed)
            os.close(source)
            status, _, _ = program.wait(child)
        with open(kept, "rb") as made:
            text = made.read()
        expect((status, text) == (5, b"error: input\n"), f"{what}: status {status} and {text[:200]!r}")


# ---- inputs that fail in mid-stream

A_LINE = b"<http://example/subject> <http://e/predicate> <http://e/%04d> .\n"
FAILED_INPUT = (5, b"error: input\n")
# The readers of documents parse at least this many bytes at a time, except at the end.
ROUND = 8 * MIB
# Larger than what this script maps while a program runs, so that the place after the bytes stays unmapped.
HOLE = 64 * MIB


def lines_of_64_bytes(size):
    """Returns a document of this many bytes, in lines of 64 bytes with ten distinct objects."""
    ten = b"".join(A_LINE % k for k in range(10))
    return ten * (size // len(ten)) + ten[:size % len(ten)]


@contextlib.contextmanager
def input_that_fails(document):
    """Opens an input that gives a document and then fails with EIO: the memory of this script, up to an unmapped page."""
    c = ctypes.CDLL(None, use_errno=True)
    c.mmap.restype = ctypes.c_void_p
    c.mmap.argtypes = [ctypes.c_void_p, ctypes.c_size_t, ctypes.c_int, ctypes.c_int, ctypes.c_int, ctypes.c_long]
    c.munmap.argtypes = [ctypes.c_void_p, ctypes.c_size_t]
    size = -(-len(document) // mmap.PAGESIZE) * mmap.PAGESIZE
    start = c.mmap(None, size + HOLE, mmap.PROT_READ | mmap.PROT_WRITE, mmap.MAP_PRIVATE | mmap.MAP_ANONYMOUS, -1, 0)
    end = start + size
    c.munmap(end, HOLE)
    source = os.open("/proc/self/mem", os.O_RDONLY)
    try:
        ctypes.memmove(end - len(document), document, len(document))
        os.lseek(source, end - len(document), os.SEEK_SET)
        yield source
    finally:
        os.close(source)
        if size:
            c.munmap(start, size)


def result_of(program, words, source):
    """Runs the program on an open input. Returns its status and output."""
    kept = os.path.join(program.folder, "output")
    with open(kept, "wb") as sink:
        child = subprocess.Popen([program.path, *words], stdin=source, stdout=sink)
        status, _, _ = program.wait(child)
    with open(kept, "rb") as made:
        return status, made.read()


def expect_result(what, got, *wanted):
    expect(got in wanted, f"{what}: status {got[0]} and {got[1][:200]!r}")


COMMANDS = [["check"], ["terms"], ["select", "--query", "SELECT * {}"]]


def an_input_that_fails_at_each_place(program):
    """Lets a read fail at the start, in the first blocks, at the end of the first round, between rounds, and later."""
    for size in (0, 64, 64 * 1024, 64 * 1024 + 8192, ROUND - 64, ROUND, ROUND + 64, ROUND + 8192, 2 * ROUND + 8192, 3 * ROUND):
        document = lines_of_64_bytes(size)
        for words, workers in itertools.product(COMMANDS, ("1", "4")):
            with input_that_fails(document) as source:
                got = result_of(program, [*words, "--workers", workers], source)
            expect_result(f"{words[0]}, {workers} workers, {size} bytes", got, FAILED_INPUT)
    with input_that_fails(lines_of_64_bytes(0)) as source:
        got = result_of(program, ["select", "--query", "SELECT * {"], source)
    expect_result("a malformed query", got, (2, b"error: query syntax\n"))


def an_input_that_fails_after_a_malformed_line(program):
    """Lets a read fail while the rest of a document is read. Only a document that was read to its end has a malformed line."""
    for before, after in itertools.product((0, 64 * 1024, ROUND + 8192), (0, 8192, 64 * 1024, ROUND + 64, 3 * ROUND)):
        document = lines_of_64_bytes(before) + b"x\n" + lines_of_64_bytes(after)
        for words, workers in itertools.product(COMMANDS, ("1", "4")):
            what = f"{words[0]}, {workers} workers, {before} bytes before and {after} after"
            with input_that_fails(document) as source:
                expect_result(what, result_of(program, [*words, "--workers", workers], source), FAILED_INPUT)
        answer = program.run(["check"], [document])
        expect_result("no failure", (answer.status, answer.output), (1, bad_line(before // 64 + 1)))


def a_connection_that_is_reset(program):
    """Lets the peer of a connection reset it after it sent a document: the read after its bytes fails."""
    for size, line in itertools.product((64, ROUND + 8192), (b"", b"x\n")):
        with socket.create_server(("127.0.0.1", 0)) as server:
            sender = socket.create_connection(server.getsockname())
            source, _ = server.accept()
        kept = os.path.join(program.folder, "output")
        with open(kept, "wb") as sink:
            child = subprocess.Popen([program.path, "check"], stdin=source, stdout=sink)
        source.close()
        sender.sendall(line + lines_of_64_bytes(size))
        while struct.unpack("i", fcntl.ioctl(sender, termios.TIOCOUTQ, bytes(4)))[0]:
            time.sleep(0.001)
        # (a connection that is closed without waiting is reset)
        sender.setsockopt(socket.SOL_SOCKET, socket.SO_LINGER, struct.pack("ii", 1, 0))
        sender.close()
        status, _, _ = program.wait(child)
        with open(kept, "rb") as made:
            expect_result(f"{line!r} and {size} bytes", (status, made.read()), FAILED_INPUT)


def a_file_that_is_truncated(program):
    """Truncates a file between two lines while it is read: the result is that of a beginning of the file."""
    whole, kept_lines = 4 * ROUND, ROUND // 64
    path = program.file([lines_of_64_bytes(whole)])
    kept = os.path.join(program.folder, "output")
    with open(path, "rb") as source, open(kept, "wb") as sink:
        child = subprocess.Popen([program.path, "check"], stdin=source, stdout=sink)
        os.truncate(path, 64 * kept_lines)
        status, _, _ = program.wait(child)
    with open(kept, "rb") as made:
        expect_result("a truncated file", (status, made.read()), (0, counts(10, 12, 0)))
    document = [lines_of_64_bytes(ROUND), b"x\n", lines_of_64_bytes(2 * ROUND)]
    with open(program.file(document), "rb") as source, open(kept, "wb") as sink:
        child = subprocess.Popen([program.path, "check"], stdin=source, stdout=sink)
        os.truncate(path, ROUND)
        status, _, _ = program.wait(child)
    with open(kept, "rb") as made:
        got = status, made.read()
    expect_result("a file without its malformed line", got, (0, counts(10, 12, 0)), (1, bad_line(kept_lines + 1)))


# ---- failures of the system

def documents_of_each_kind():
    """Yields documents of five blocks, each with its result: escapes, lone CRs, and a malformed line at each place of a block."""
    count, block = 5 * 1024, 1024
    lines = [b"<http://example/subject> <http://e/predicate> <http://e/%04d> .\n" % k for k in range(count)]
    escaped = [rb'<http://\u0065xample/subject> <http://e/predicate> "\u00e9%04d"@EN .' % k + b"\n" for k in range(count)]
    yield "escapes", escaped, (0, counts(count, count + 2, 0))
    returns = [line[:-1] + b"\r" for line in lines]
    yield "lone CRs", returns, (0, counts(count, count + 2, 0))
    mixed = [made[k % 3] for k, made in enumerate(zip(lines, escaped, returns))]
    yield "each of these in turn", mixed, (0, counts(count, count + 2, 0))
    for at in (0, 1, block // 2, block - 1, block, 2 * block, count - 1):
        for bad in (b"x\n", b"<http://e/s> <http://e/p> \"\\q\" .\n", b"\xff\r"):
            yield f"{bad!r} as line {at + 1}", [*lines[:at], bad, *lines[at + 1:]], (1, bad_line(at + 1))
            yield f"{bad!r} as line {at + 1}, with escapes", [*mixed[:at], bad, *mixed[at + 1:]], (1, bad_line(at + 1))


def little_memory_for_each_kind(program):
    """Checks documents of each kind under limits on the address space: the result is right, or the error is memory or worker."""
    seen = set()
    for what, document, wanted in documents_of_each_kind():
        path = program.file(document)
        for size, workers in itertools.product((6, 8, 10, 12, 16, 24, 48, 256, 2048), ("1", "4")):
            room = size * MIB
            limit = lambda: resource.setrlimit(resource.RLIMIT_AS, (room, room))
            answer = program.run(["check", "--workers", workers], path, limit=limit)
            got = (answer.status, answer.output)
            expect_result(f"{what}, {size} MiB, {workers} workers", got, wanted, (4, b"error: memory\n"), (4, b"error: worker\n"))
            seen.add(answer.status)
        expect_result(f"{what}, 2048 MiB", got, wanted)
    expect(seen == {0, 1, 4}, f"the statuses were {sorted(seen)}")


def little_memory(program):
    """Checks under limits on the address space that the result is right, or that the error is memory or worker."""
    lines = [b"<http://e/s%d> <http://e/p> _:b%d .\n" % (n, n) for n in range(20_000)]
    path = program.file(lines)
    answers = {
        (0, counts(20_000, 40_001, 0)),
        (4, b"error: memory\n"),
        (4, b"error: worker\n"),
    }
    seen = set()
    for size in (6, 8, 10, 12, 14, 16, 20, 24, 28, 32, 48, 64, 96, 128, 256, 512, 1024):
        for workers in ("1", "4", "64"):
            room = size * MIB
            limit = lambda: resource.setrlimit(resource.RLIMIT_AS, (room, room))
            answer = program.run(["check", "--workers", workers], path, limit=limit)
            got = (answer.status, answer.output)
            expect(got in answers, f"{size} MiB, {workers} workers: status {got[0]} and {got[1][:200]!r}")
            seen.add(got)
    expect(len(seen) > 1, "no limit was small enough to matter")


def few_processes(program):
    """Checks a system that starts no thread: one worker, the caller, gives the result; more may fail."""
    copied = shutil.copy(program.path, os.path.join(program.folder, "program"))
    program = Program(copied, program.folder, program.percent)

    def limit():
        if os.getuid() == 0:
            os.setgid(65534)
            os.setuid(65534)
        resource.setrlimit(resource.RLIMIT_NPROC, (1, 1))

    os.chmod(program.folder, 0o755)
    answered, refused = (0, counts(1, 3, 0)), (4, b"error: worker\n")
    seen = set()
    for workers, answers in ("1", [answered]), ("2", [answered, refused]), ("64", [answered, refused]):
        answer = program.run(["check", "--workers", workers, *TWO_PIECES], [STATEMENT] * 2, limit=limit)
        got = (answer.status, answer.output)
        expect(got in answers, f"{workers} workers: status {got[0]} and {got[1][:200]!r}")
        seen.add(got)
    expect(refused in seen, "the system started every thread")
    answer = program.run(["select", "--query", "SELECT * {}"], [STATEMENT], limit=limit)
    got = (answer.status, answer.output)
    expect(got == refused, f"select, on another thread: status {got[0]} and {got[1][:200]!r}")


def stand_in(program, name):
    """Compiles tests/NAME.c to a library that replaces calls of the C library."""
    library = os.path.join(program.folder, f"{name}.so")
    subprocess.run(["cc", "-O2", "-shared", "-fPIC", "-o", library, os.path.join(HERE, f"{name}.c")], check=True)
    return library


def blocks_left(program, library, words, document):
    """Runs the program, and returns how many blocks of memory it has not freed at its end."""
    with open(program.file(document), "rb") as source:
        preloaded = {**os.environ, "LD_PRELOAD": library}
        ran = subprocess.run([program.path, *words], stdin=source, capture_output=True, env=preloaded, timeout=SECONDS)
    # (the count comes last, after the messages of the program)
    return int(ran.stderr.splitlines()[-1].split()[0])


def nothing_left_behind(program):
    """Checks that every block of memory is freed, also of long chains. The C library keeps a block for each of up to eight threads.

    The memory of the terms that a query needs is left to the end of the process, at most two blocks for each. A query here
    needs those of all statements or of none, and adds at most four. The other commands keep no blocks for terms, but texts.
    """
    library = stand_in(program, "blocks")
    filters = [b"||1", b"&&1", b"&&!(1)", b"||?a=1", b"||?a IN(1,?b)", b"||STR(?a)", b"||BOUND(?a)", b"||sameTerm(?a,1)"]
    groups = [b"UNION{}", b"UNION{?a?b?c}", b"{}", b"{?a?b?c}", b"OPTIONAL{?a?b?c}", b"MINUS{?a?b?c}", b"GRAPH?g{?a?b?c}"]
    groups += [b"FILTER(?a)", b"VALUES?k{1}"]
    queries = [b"SELECT * { FILTER(1%s) }" % (part * 100) for part in filters]
    queries += [b"SELECT * { {}%s }" % (part * 100) for part in groups]
    queries += [b"SELECT DISTINCT ?e { GRAPH ?g { ?s ?p ?o } BIND(STR(?o) AS ?e) VALUES (?k ?l) { (1 UNDEF) } } LIMIT 3"]
    commands = [["check"], ["check", "--workers", "1"], ["terms"]] + [["select", "--query", it] for it in queries]
    lines = [b"<http://e/s%d> <http://e/p> \"x\"@en <http://e/g> .\n" % n for n in range(1000)]
    needed = ["SELECT * {}", "SELECT * { GRAPH ?g { ?s ?p ?o } }"]
    none, every = (blocks_left(program, library, ["select", "--query", it], lines) for it in needed)
    expect(none <= 8 and every <= 2 * 1003 + 2, f"{none} blocks are left of no terms, and {every} of 1003 terms")
    for words in commands:
        left, kept = blocks_left(program, library, words, lines), (none, every) if words[0] == "select" else (0,)
        expect(min(abs(left - it) for it in kept) <= 8, f"{words[0]} {words[-1][:60]!r}: {left} blocks are left, not {kept}")
    faulty = [["none"], ["select", "--query", b"SELECT"]]
    for words, last in [*itertools.product(commands, [b"x\n"]), *itertools.product(faulty, [b"", b"x\n"])]:
        left = blocks_left(program, library, words, [*lines, last])
        expect(left <= 8, f"{words[0]} {words[-1][:60]!r}: {left} blocks are left")


# ---- command lines

def wrong_words(program):
    lines = [
        [], [""], ["chek"], ["check", "x"], ["check", "--workers"], ["check", "--workers", ""],
        ["check", "--workers", "0"], ["check", "--workers", "65"], ["check", "--workers", "-1"],
        ["check", "--workers", "18446744073709551617"], ["check", "--workers", "9" * 100_000],
        ["check", "--piece", "0"], ["check", "--piece", "1073741825"], ["check", b"\xff"],
        ["check", "--" + "x" * 100_000], ["terms"] + ["x"] * 10_000, ["select"],
    ]
    for words in lines:
        answer = program.run(words, [STATEMENT])
        got = (answer.status, answer.output)
        expect(got == (3, b"error: command line\n"), f"{str(words)[:80]}: status {got[0]} and {got[1][:200]!r}")


# ---- growth

def distinct_statements(n):
    return (b'<http://e/s%d> <http://e/p> "%d" <http://e/g%d> .\n' % (k, k, k) for k in range(n))


def escaped_statements(n):
    return (rb'<http://e/\u0073%d> <http://e/p> "\t%d" .' % (k, k) + b"\n" for k in range(n))


def one_long_literal(n):
    return [b'<http://e/s> <http://e/p> "', *repeated(rb"\tab", 20 * n), b'" .\n']


def expect_near_linear(name, empty, less, more):
    """Checks that four times the input takes at most eight times the time and memory, less those of an empty document."""
    for what, start, a, b, least in (
        ("seconds", empty.seconds, less.seconds, more.seconds, 0.2),
        ("MiB", empty.peak, less.peak, more.peak, 16),
    ):
        expect(b - start <= 8 * max(a - start, least), f"{name}: {a:.2f} and {b:.2f} {what}")


def growth(program):
    empty = program.run(["check"], [b""])
    n = program.scaled(200_000)
    for made, line in (
        (distinct_statements, lambda k: counts(k, 3 * k + 1, k)),
        (escaped_statements, lambda k: counts(k, 2 * k + 1, 0)),
        (one_long_literal, lambda k: counts(1, 3, 0)),
    ):
        less = program.run(["check"], made(n))
        more = program.run(["check"], made(4 * n))
        less.is_exactly(0, line(n))
        more.is_exactly(0, line(4 * n))
        expect_near_linear(made.__name__, empty, less, more)


def terms_of_one_weak_hash(program):
    """Checks terms that have one hash if characters are summed up by powers of 31: they are no slower than others."""
    n = program.scaled(100_000)
    words = (b"".join(b"Aa" if k >> bit & 1 else b"BB" for bit in range(17)) for k in range(n))
    chosen = program.run(["check"], (b"<http://e/%s> <http://e/p> <http://e/o> .\n" % word for word in words))
    others = program.run(["check"], (b"<http://e/%034d> <http://e/p> <http://e/o> .\n" % k for k in range(n)))
    chosen.is_exactly(0, counts(n, n + 2, 0))
    others.is_exactly(0, counts(n, n + 2, 0))
    slower = f"{chosen.seconds:.2f} seconds, {others.seconds:.2f} for other terms"
    expect(chosen.seconds <= 8 * max(others.seconds, 0.2), slower)


def more_than_4_gib_of_terms(program):
    """Checks that terms beyond 4 GiB have the right places: 90,000 literals of 50 kB, of which the last thousand are repeated."""
    terms, again = program.scaled(90_000), program.scaled(1000)
    child = subprocess.Popen([program.path, "check"], stdin=subprocess.PIPE, stdout=subprocess.PIPE)
    with child.stdin as document:
        for n in itertools.chain(range(terms), range(terms - again, terms)):
            document.write(b'<http://e/s> <http://e/p> "%s%d" .\n' % (b"a" * 50_000, n))
    with child.stdout as printed:
        line = printed.read()
    status, _, _ = program.wait(child)
    expect((status, line) == (0, counts(terms, terms + 2, 0)), f"status {status} and {line!r}")


# ---- queries

NO_NAMES = b'{"head":{"vars":[]},"results":{"bindings":[{}]}}\n'


def brackets(program):
    """Checks that 100 levels are accepted, and 101 levels and the most of a command line are rejected as too deep."""
    for depth in (1, 99, 100, 101, 1000, 60_000):
        status, line = (0, NO_NAMES) if depth <= 100 else (2, b"error: query depth\n")
        for query in (
            "SELECT * " + "{" * depth + "}" * depth,
            "SELECT * { FILTER" + "(" * (depth - 1) + "true" + ")" * (depth - 1) + " }" if depth > 1 else "SELECT * {}",
        ):
            program.run(["select", "--query", query], [b""]).is_exactly(status, line)
    for query, line in (
        ("SELECT * " + "{" * 130_000, b"error: query depth\n"),
        ("SELECT * " + "}" * 130_000, b"error: query syntax\n"),
        ("SELECT ~ " + "{" * 130_000, b"error: query syntax\n"),
        ("SELECT * { FILTER(" + "!" * 100_000 + "true) }", b"error: query syntax\n"),
    ):
        program.run(["select", "--query", query], [STATEMENT]).is_exactly(2, line)


def chain(n):
    """Yields the statements s0 next s1, s1 next s2, ..; each subject has a size, every fourth one a note."""
    for k in range(n):
        yield b"<http://e/s%d> <http://e/next> <http://e/s%d> .\n" % (k, k + 1)
        yield b'<http://e/s%d> <http://e/size> "%d" .\n' % (k, k % 1000)
        if k % 4 == 0:
            yield b'<http://e/s%d> <http://e/note> "n" <http://e/g%d> .\n' % (k, k % 100)


def growing_answers(program):
    """Checks that joins by a key and row by row operators take time and memory near linear in their rows."""
    empty = program.run(["check"], [b""])
    n = program.scaled(40_000)
    for query, rows in (
        ("SELECT ?s { ?s e:next ?t . ?t e:next ?u . ?u e:size ?z }", lambda k: k - 2),
        ("SELECT ?s { { ?s e:next ?t } { ?s e:size ?z } }", lambda k: k),
        ("SELECT ?s { ?s e:next ?t OPTIONAL { ?t e:next ?u OPTIONAL { ?u e:next ?s } } }", lambda k: k),
        ("SELECT ?s { ?s e:next ?t MINUS { ?s e:size '7' } }", lambda k: k - (k + 992) // 1000),
        ("SELECT ?s { ?s e:next ?t GRAPH ?g { ?s e:note ?n } }", lambda k: (k + 3) // 4),
        ("SELECT DISTINCT ?s { { ?s ?p ?o } UNION { ?r e:next ?s } }", lambda k: k + 1),
        ("SELECT ?s { ?s e:next ?t BIND(STR(?t) AS ?x) FILTER(?x != '') }", lambda k: k),
        ("SELECT ?s { VALUES (?s ?z) { (UNDEF '7') (UNDEF '8') } ?s e:size ?z }", lambda k: 2 * (k // 1000)),
    ):
        answers = []
        for size in (n, 4 * n):
            size -= size % 1000
            answer = program.run(["select", "--query", "PREFIX e: <http://e/> " + query], chain(size))
            found = answer.output.count(b'{"s":{')
            expect(answer.status == 0, f"{query}: status {answer.status} and {answer.output[:200]!r}")
            expect(found == rows(size), f"{query}: {found} rows over {size}, not {rows(size)}")
            answers.append(answer)
        expect_near_linear(query, empty, *answers)


def many_graphs_in_turn(program):
    """Evaluates a group in one graph after the other."""
    graphs = program.scaled(50_000)
    parts = (b"<http://e/s> <http://e/p> <http://e/o> <http://e/g%d> .\n" % n for n in range(graphs))
    answer = program.run(["select", "--query", "SELECT ?g { GRAPH ?g { ?s ?p ?o } }"], parts)
    expect(answer.status == 0, f"status {answer.status} and {answer.output[:200]!r}")
    expect(answer.output.count(b'{"g":{') == graphs, "not one row for each graph")


def a_graph_within_many_graphs(program):
    """Evaluates a named graph inside one graph after the other."""
    graphs = program.scaled(50_000)
    parts = (b"<http://e/s> <http://e/p> <http://e/o> <http://e/g%d> .\n" % n for n in range(graphs))
    query = "SELECT ?g ?s { GRAPH ?g { GRAPH <http://e/g%d> { ?s ?p ?o } } }" % (graphs - 1)
    answer = program.run(["select", "--query", query], parts)
    expect(answer.status == 0, f"status {answer.status} and {answer.output[:200]!r}")
    expect(answer.output.count(b'{"g":{') == graphs, "not one row for each graph")


def long_lists(program):
    """Runs queries of some hundred kilobytes with long lists."""
    numbers = [b"%05d" % n for n in range(10_000)]
    integers = [b'{"x":{"datatype":"http://www.w3.org/2001/XMLSchema#integer","type":"literal","value":"%s"}}' % n for n in numbers]
    names = [b"v" + n for n in numbers]
    prefixes = b" ".join(b"PREFIX p%d: <http://e/%d/>" % (n, n) for n in range(3000))
    members = b", ".join(b"p%d:x" % n for n in range(3000))
    for query, line in (
        (b"SELECT ?x { VALUES ?x { %s } }" % b" ".join(numbers), results([b"x"], integers)),
        (b"SELECT * { FILTER(9999 IN (%s)) }" % b", ".join(numbers), NO_NAMES),
        (b"SELECT %s {}" % b" ".join(b"?" + name for name in names), results(names, [b"{}"])),
        (b"SELECT %s {}" % b" ".join([b"?x"] * 40_000), results([b"x"], [b"{}"])),
        (prefixes + b" SELECT * { FILTER(p2999:x IN (%s)) }" % members, NO_NAMES),
        (b"SELECT ?p { ?s ?p %s }" % b", ".join([b"[]"] * 10_000), results([b"p"], [b'{"p":{"type":"uri","value":"http://e/p"}}'])),
    ):
        try:
            program.run(["select", "--query", query], [STATEMENT]).is_exactly(0, line)
        except Failed as fault:
            raise Failed(f"{query[:60]!r}: {fault}") from None


def results(names, rows):
    """Returns the results in JSON, from names and printed rows."""
    names = b",".join(b'"%s"' % name for name in names)
    return b'{"head":{"vars":[%s]},"results":{"bindings":[%s]}}\n' % (names, b",".join(rows))


def a_query_before_a_bad_document(program):
    parts = [b"x\n"]
    program.run(["select", "--query", "SELECT * {"], parts).is_exactly(2, b"error: query syntax\n")
    program.run(["select", "--query", "SELECT * {}"], parts).is_exactly(1, bad_line(1))


# The largest number of bytes of an argument, without the NUL after it.
LONGEST_WORD = 32 * 4096 - 1


def longest(start, part, end):
    """Returns the longest query of a start, numbered parts and an end, and the number of its parts."""
    parts, room = [], LONGEST_WORD - len(start + end)
    for number in itertools.count():
        parts.append(part.replace("%", str(number)))
        room -= len(parts[-1])
        if room < 0:
            return start + "".join(parts[:-1]) + end, number


ONE = b'{"datatype":"http://www.w3.org/2001/XMLSchema#integer","type":"literal","value":"1"}'
TRUE = b'{"datatype":"http://www.w3.org/2001/XMLSchema#boolean","type":"literal","value":"true"}'
TRIPLE = results([b"s", b"p", b"o"], [
    b'{"o":{"type":"uri","value":"http://e/o"},"p":{"type":"uri","value":"http://e/p"},"s":{"type":"uri","value":"http://e/s"}}'
])


def bound_to_one(count):
    """Returns the results of one row in which `count` names have the value 1."""
    names = [b"v%d" % number for number in range(count)]
    return results(names, [b"{%s}" % b",".join(b'"%s":%s' % (name, ONE) for name in sorted(names))])


# Long queries without nested brackets: a start, a repeated part, an end, and the result, or a function from the
# count of the parts to the result.
CHAINS = [
    ("both", "SELECT * { FILTER(1", "&&1", ") }", NO_NAMES),
    ("either", "SELECT * { FILTER(1", "||0", ") }", NO_NAMES),
    ("either, the last of them", "SELECT * { FILTER(0", "||0", "||1) }", NO_NAMES),
    ("both and either", "SELECT * { FILTER(1", "&&1||0", ") }", NO_NAMES),
    ("none of them", "SELECT * { FILTER(0", "||0", ") }", results([], [])),
    ("an error among them", "SELECT * { FILTER(?x", "||0", ") }", results([], [])),
    ("both, bound to a name", "SELECT * { BIND(1", "&&1", " AS ?x) }", results([b"x"], [b'{"x":%s}' % TRUE])),
    ("both, as a condition", "SELECT * { OPTIONAL { FILTER(1", "&&1", ") } }", NO_NAMES),
    ("members", "SELECT * { FILTER(1 IN (0", ",0", ",1)) }", NO_NAMES),
    ("filters", "SELECT * {", "FILTER(1)", "}", NO_NAMES),
    ("binds", "SELECT * {", "BIND(1AS?v%)", "}", bound_to_one),
    ("groups", "SELECT * {", "{}", "}", NO_NAMES),
    ("groups, a hundred deep", "SELECT *" + "{" * 98, "{}", "}" * 98, NO_NAMES),
    ("groups with dots", "SELECT * {", "{}.", "}", NO_NAMES),
    ("groups of a triple", "SELECT * {", "{?s?p?o}", "}", TRIPLE),
    ("unions", "SELECT * {{}", "UNION{}", "}", lambda count: results([], [b"{}"] * (count + 1))),
    ("optional groups", "SELECT * {", "OPTIONAL{}", "}", NO_NAMES),
    ("minus", "SELECT * {", "MINUS{}", "}", NO_NAMES),
    ("graphs", "SELECT * {", "GRAPH?g{}", "}", results([b"g"], [])),
    ("tables", "SELECT * {", "VALUES(){()}", "}", NO_NAMES),
    ("triples", "SELECT * {", "?s?p?o.", "}", TRIPLE),
    ("objects", "SELECT * { ?s ?p ?o", ",?o", "}", TRIPLE),
    ("properties", "SELECT * { ?s ?p ?o", ";?p?o", "}", TRIPLE),
    ("prefixes", "", "PREFIX p%:<a:>", "SELECT * {}", NO_NAMES),
]


def long_queries(program):
    """Runs the longest queries of a command line, with 8 MiB of stack. Their trees are as deep as they have parts."""
    most = resource.getrlimit(resource.RLIMIT_STACK)[1]
    limit = lambda: resource.setrlimit(resource.RLIMIT_STACK, (8 * MIB, most))
    faults = []
    for name, start, part, end, line in CHAINS:
        query, count = longest(start, part, end)
        try:
            answer = program.run(["select", "--query", query], [STATEMENT], limit=limit)
            answer.is_exactly(0, line(count) if callable(line) else line)
        except Failed as fault:
            faults.append(f"{count} {name}: {fault}")
    expect(not faults, "; ".join(faults))


def long_queries_and_little_memory(program):
    """Checks long queries under limits on the address space: the result is right, or the error is memory or worker."""
    answers = {(0, NO_NAMES), (4, b"error: memory\n"), (4, b"error: worker\n")}
    for start, part, end in (("SELECT * { FILTER(1", "&&1", ") }"), ("SELECT * {", "OPTIONAL{}", "}")):
        query, _ = longest(start, part, end)
        seen = set()
        for size in (8, 16, 32, 64, 128, 256, 384, 512, 640, 768, 1024, 2048):
            room = size * MIB
            limit = lambda: resource.setrlimit(resource.RLIMIT_AS, (room, room))
            answer = program.run(["select", "--query", query], [STATEMENT], limit=limit)
            got = (answer.status, answer.output)
            expect(got in answers, f"{size} MiB: status {got[0]} and {got[1][:200]!r}")
            seen.add(got)
        expect(len(seen) > 1, "no limit was small enough to matter")


CASES = [
    small_documents, a_line_of_blanks, a_long_comment, a_long_bad_line, a_long_document_without_a_line_feed,
    a_long_literal, a_long_literal_of_escapes, a_long_iri_and_label_and_tag, a_label_of_dots, many_empty_lines,
    many_lone_returns, one_statement_many_times, many_graphs, many_workers_over_many_pieces,
    many_workers_over_many_rows, the_least_of_many_bad_lines, a_full_output, a_reader_that_closes_early,
    a_closed_output, an_input_that_fails, an_input_that_fails_at_each_place, an_input_that_fails_after_a_malformed_line,
    a_connection_that_is_reset, a_file_that_is_truncated, little_memory_for_each_kind, little_memory, few_processes,
    nothing_left_behind, wrong_words, growth, terms_of_one_weak_hash, brackets, growing_answers, many_graphs_in_turn,
    a_graph_within_many_graphs, long_lists, a_query_before_a_bad_document, long_queries, long_queries_and_little_memory,
]
LARGE = [more_than_4_gib_of_terms]


def main():
    words = argparse.ArgumentParser(description=__doc__.split("\n")[0])
    words.add_argument("program", nargs="?", default=os.path.join(HERE, "..", "crates", "spq", "out", "spq"))
    words.add_argument("--only", default="")
    words.add_argument("--size", type=int, default=100)
    words.add_argument("--large", action="store_true")
    given = words.parse_args()
    if not os.path.exists(given.program):
        sys.exit(f"no program at {given.program}: build it first (see README)")
    failed = 0
    with tempfile.TemporaryDirectory() as folder:
        program = Program(os.path.abspath(given.program), folder, given.size)
        for case in CASES + (LARGE if given.large else []):
            name = case.__name__.replace("_", " ")
            if given.only not in name:
                continue
            start = time.perf_counter()
            try:
                case(program)
                print(f"ok      {name} ({time.perf_counter() - start:.1f} s)", flush=True)
            except Failed as fault:
                failed += 1
                print(f"FAILED  {name}: {fault}", flush=True)
    sys.exit(1 if failed else 0)


if __name__ == "__main__":
    main()
