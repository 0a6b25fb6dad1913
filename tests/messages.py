#!/usr/bin/env python3
"""Runs the built program on failures and notes, and compares standard error, standard output and status.

    messages.py [PROGRAM] [--only WORD]

PROGRAM is the program (crates/spq/out/spq where none is given). A case is a command line, a standard input, and
what has to come. Standard output is a pipe in most cases, so standard error first has its line again; the cases
`at a terminal` run in a terminal. (tests/examples.py compares the messages for many lines and queries, and tests/tour.py those
of docs/DIAGNOSTICS.md.)
Python 3 standard library, and cc for two cases that replace calls of the C library.
"""
import argparse
import functools
import os
import re
import resource
import select
import subprocess
import sys
import tempfile
import termios
import time

import terminal

HERE = os.path.dirname(os.path.abspath(__file__))
ROOT = os.path.dirname(HERE)
# The seconds that a run may take. A run takes milliseconds; the limit is for a machine that is busy.
LIMIT = 120
STATEMENT = b"<http://e/a> <http://e/p> <http://e/b> .\n"
EMPTY_ROW = '{"head":{"vars":[]},"results":{"bindings":[{}]}}\n'
XSD = "http://www.w3.org/2001/XMLSchema#"
USAGE = """
Usage: spq select --query TEXT [--rows N] [--workers N] [--piece BYTES] < FILE
       spq check [--workers N] [--piece BYTES] < FILE
       spq terms [--workers N] [--piece BYTES] < FILE

For more information, try '--help'.
"""
NO_QUERY_THREAD = """error: worker
spq: the thread of the query could not be started
hint: see the limits of the system on threads and memory: ulimit -u, ulimit -v
"""


class Case:
    """A run: its words, its standard input, and the expected result."""

    def __init__(self, name, words, given, status, printed, said, **how):
        self.name, self.words, self.given = name, words, given
        self.status, self.printed, self.said, self.how = status, printed, said, how


def failed(name, words, given, status, line, said, **how):
    """A run that ends with this line on standard output, which standard error has again."""
    return Case(name, words, given, status, line + "\n", None if said is None else line + "\n" + said, **how)


# What some malformed lines are about, and the hints for them.
TURTLE = "this looks like Turtle; N-Quads has no prefixes and no abbreviations: write each term in full"
LATIN1 = "if the input is Latin-1 or Windows-1252, convert it: iconv -f CP1252 -t UTF-8 FILE | spq check"
NO_SUBJECT = "expected a subject (an IRI or a blank node), found "
NO_DOT = "missing '.' at the end of the statement"
OPEN_LITERAL = "the literal is not closed: expected '\"', found the end of the line"


def message(place, reason, shown, hint):
    return f"spq: {place}: {reason}\n{shown}\n" + (f"hint: {hint}\n" if hint else "")


def under(line, column):
    return line + "\n" + " " * (column - 1) + "^"


def bad_line(name, given, place, reason, shown, hint):
    """A document whose first line is malformed."""
    return failed(name, ["check"], given, 1, "error: line 1", message(f"line 1, {place}", reason, shown, hint))


def query(name, text, line, said):
    return failed(name, ["select", "--query", text], b"x\n", 2, line, said)


def warned(name, text, document, said):
    return Case(name, ["select", "--query", text], document, 0, None, said)


def lines():
    """Malformed lines of a document."""
    yield failed(
        "a malformed line", ["check"], STATEMENT + b'<http://e/a> "x" <http://e/b> .\n' + STATEMENT, 1, "error: line 2",
        'spq: line 2, column 14: a predicate must be an IRI, found a literal\n<http://e/a> "x" <http://e/b> .\n'
        "             ^\n")
    for piece in ("1", "7", "65536"):
        yield failed(
            f"a malformed line in blocks of {piece}", ["terms", "--piece", piece], STATEMENT * 500 + b"\r\n\r. y\nz", 1,
            "error: line 503",
            f"spq: line 503, column 1: {NO_SUBJECT}'.'\n. y\n^\nspq: line 504, column 1: {NO_SUBJECT}'z'\nz\n^\n"
            "spq: 2 malformed lines\n  2  expected a subject (an IRI or a blank node) (first: line 503, column 1)\n")
    long = b"<http://e/a> <http://e/p> \"" + b"a" * (3 << 20)
    yield failed(
        "a long line with an early mistake", ["check"], b"<http://e/a> x" + long + b"\n", 1, "error: line 1",
        "spq: line 1, column 14: expected a predicate (an IRI), found 'x'\n"
        "<http://e/a> x<http://e/a> <http://e/p> \"" + "a" * 38 + "\u2026\n             ^\n")
    yield failed(
        "a long line with a late mistake", ["check"], long + b"\n", 1, "error: line 1",
        "spq: line 1: this is not a line of N-Quads\n")
    yield from longest_lines()


def longest_lines():
    """Lines about as long as the part of a line that is kept: 1,048,576 bytes."""
    kept = 1 << 20
    whole = b'<a:s> <a:p> "'.ljust(kept, b"a")
    yield bad_line("a line of 1,048,576 bytes", whole + b"\n", f"column {kept + 1}", OPEN_LITERAL,
                   "\u2026" + "a" * 78 + "\n" + " " * 79 + "^", "write a line break inside a literal as \\n")
    unknown = "spq: line 1: this is not a line of N-Quads\n"
    yield failed("a line of 1,048,577 bytes", ["check"], whole + b"a\n", 1, "error: line 1", unknown)
    # A place is shown only if four bytes that are kept follow it.
    for after in (5, 3):
        line = b'<a:s> <a:p> "'.ljust(kept - after - 2, b"a") + b'" ,' + b"a" * 100
        shown = "\u2026" + line[kept - 78:kept].decode() + "\n" + " " * (79 - after) + "^"
        said = message(f"line 1, column {kept - after + 1}", "expected '.' or a graph name (an IRI or a blank node), found ','", shown, TURTLE)
        yield failed(f"a place {after} bytes before the last one that is kept", ["check"], line + b"\n", 1, "error: line 1", said if after == 5 else unknown)
    # The part that is kept ends inside a character, so it is no text.
    yield bad_line("a line that is cut inside a character", b'<a:s> "' + "\u00e9".encode() * kept + b"\n", "byte 7", OBJECT + "a literal",
                   '<a:s> "' + "\u00e9" * 72 + "\u2026\n" + " " * 6 + "^", None)


def distant_lines():
    """A byte that is not UTF-8, after text beyond ASCII in a round of blocks before the one of its line, also in a statement that a query
    does not need."""
    plain = b"<a:s> <a:p> <a:o> .\n" * 500_000
    for before, hint in ((b"", LATIN1), ("<a:s> <a:p> <a:\u00e9> .\n".encode(), "the text before this byte is UTF-8, so the byte is damaged: repair line {}")):
        number = 500_001 + (before != b"")
        for words in (["check"], ["select", "--query", "SELECT * { <a:x> ?p ?o }"]):
            yield failed(f"{words[0]}: a byte that is not UTF-8 after {len(before)} bytes and 500,000 lines", words, before + plain + b"\xe9x\n", 1, f"error: line {number}",
                         message(f"line {number}, byte 1", "invalid UTF-8: byte 0xE9", "\ufffdx\n^", hint.format(number)))


def beginnings():
    """Each beginning of a document of two lines, and malformed lines at each place of a document."""
    # The last line may lack its line feed.
    size = len(STATEMENT)
    whole = {0: "ok 0 quads 0 terms 0 graphs\n"} | {count: "ok 1 quads 3 terms 0 graphs\n" for count in (size - 1, size, 2 * size - 1, 2 * size)}
    for count in range(2 * size + 1):
        printed = whole.get(count, f"error: line {1 if count < size else 2}\n")
        yield Case(f"the first {count} bytes of a document", ["check", "--piece", "1"], (STATEMENT * 2)[:count], 0 if count in whole else 1, printed, None)
    for workers in ("1", "2", "8"):
        for bad in range(16):
            yield failed(f"line {bad + 1} of 16 with {workers} workers", ["check", "--workers", workers, "--piece", "1"],
                         STATEMENT * bad + b"x\n" + STATEMENT * (15 - bad), 1, f"error: line {bad + 1}", None)
    for piece in ("1", "65536"):
        yield failed(f"two of 1,000 lines in blocks of {piece}", ["check", "--workers", "8", "--piece", piece],
                     STATEMENT + b"x\n" + STATEMENT * 897 + b"x\n" + STATEMENT * 100, 1, "error: line 2", None)


SPACE = "a space is not allowed in an IRI"
OBJECT = "a predicate must be an IRI, found "


def spaced(number):
    """A malformed line with this number in it, and its message without the hint."""
    line = f"<http://e/a {number}> <a:p> <a:o> ."
    return line, lambda at: message(f"line {at}, column 12", SPACE, under(line, 12), None)


def several_lines():
    """Documents with several malformed lines: each message of the first twenty, a hint once for each reason, and the summary."""
    def listed(count):
        """A document whose odd lines are malformed, this many of them, and the messages of the first twenty."""
        found = [spaced(number) for number in range(count)]
        document = "".join(line + "\n" + STATEMENT.decode() for line, _ in found)
        said = [about(2 * at + 1) + ("hint: write a space in an IRI as %20\n" if at == 0 else "") for at, (_, about) in enumerate(found[:20])]
        return document.encode(), "".join(said)
    for count in (2, 20, 21, 1000):
        document, said = listed(count)
        shown = f"{count:,}"
        for words in (["check"], ["terms", "--workers", "1"], ["select", "--piece", "1", "--query", "SELECT * { ?s ?p ?o }"]):
            yield failed(f"{count} malformed lines, {words[0]}", words, document, 1, "error: line 1",
                         said + f"spq: {shown} malformed lines\n  {shown}  {SPACE} (first: line 1, column 12)\n")
    # Three reasons, of which the most frequent one comes last. What was found does not count.
    literal = '"x" <a:p> <a:o> .'
    other = [("<a:s> <a:p> <a:o>", 18, NO_DOT), ('<a:s> "x" <a:o> .', 7, OBJECT + "a literal"), ("<a:s> _:b <a:o> .", 7, OBJECT + "a blank node")]
    said = "".join(message(f"line {at}, column {column}", reason, under(line, column), None) for at, (line, column, reason) in enumerate(other, 2))
    document = STATEMENT.decode() + "".join(line + "\n" for line, _, _ in other) + STATEMENT.decode() * 1000 + (literal + "\n") * 1001
    said += "".join(message(f"line {at}, column 1", "a subject must be an IRI or a blank node, found a literal", under(literal, 1), None) for at in range(1005, 1022))
    yield failed("several reasons", ["check", "--piece", "100"], document.encode(), 1, "error: line 2", said
                 + "spq: 1,004 malformed lines\n"
                 "  1,001  a subject must be an IRI or a blank node (first: line 1005, column 1)\n"
                 "      2  a predicate must be an IRI (first: line 3, column 7)\n"
                 "      1  missing '.' at the end of the statement (first: line 2, column 18)\n")
    # A dot that is missing after a graph name counts as one that is missing without it.
    dots = [("<a:s> <a:p> <a:o>", 18), ("<a:s> <a:p> <a:o> <a:g>", 24)]
    said = "".join(message(f"line {at}, column {column}", NO_DOT, under(line, column), None) for at, (line, column) in enumerate(dots, 1))
    yield failed("dots that are missing", ["check"], "".join(line + "\n" for line, _ in dots).encode(), 1, "error: line 1", said
                 + f"spq: 2 malformed lines\n  2  {NO_DOT} (first: line 1, column 18)\n")
    # A byte that is not UTF-8 counts bytes, and its hint depends on the lines before.
    yield failed("several lines that are not UTF-8", ["check"], b"<a:s> <a:p> \"\xe9\" .\n" * 2, 1, "error: line 1",
                 message("line 1, byte 14", "invalid UTF-8: byte 0xE9", '<a:s> <a:p> "\ufffd" .\n             ^', LATIN1)
                 + message("line 2, byte 14", "invalid UTF-8: byte 0xE9", '<a:s> <a:p> "\ufffd" .\n             ^', None)
                 + "spq: 2 malformed lines\n  2  invalid UTF-8 (first: line 1, byte 14)\n")


def queries():
    """Rejected queries, whatever the document is. (tests/examples has the reasons and the hints.)"""
    # The line is cut round the place: 39 brackets before it and 39 after it.
    brackets = "SELECT * " + "{" * 101 + "}" * 101
    yield query("101 brackets", brackets, "error: query depth", message(
        "query, line 1, column 110", "brackets are nested over 100 deep at '{'", "\u2026" + "{" * 40 + "}" * 38 + "\u2026\n" + " " * 40 + "^", None))
    yield query("101 brackets that are not closed", "SELECT * " + "{" * 101, "error: query depth", None)
    yield query("100 brackets in a filter", "SELECT * { FILTER" + "(" * 100 + "true" + ")" * 100 + " }", "error: query depth", None)
    yield query("brackets after a place where no terminal begins", "SELECT ~ " + "{" * 101, "error: query syntax", None)
    for name, text in (("100 brackets", "SELECT * " + "{" * 100 + "}" * 100), ("99 brackets in a filter", "SELECT * { FILTER" + "(" * 99 + "true" + ")" * 99 + " }")):
        yield Case(name, ["select", "--query", text], b"", 0, EMPTY_ROW, "")
    whole = "SELECT ?n { ?s <http://e/t> <http://e/k> OPTIONAL { ?s <http://e/n> ?n FILTER(?n < 3) } }"
    for count in range(len(whole)):
        yield query(f"the first {count} characters of a query", whole[:count], "error: query syntax", None)
    yield query("a long chain", "SELECT * {" + "{}" * 60000, "error: query syntax", None)
    yield query("many operands", "SELECT * { FILTER(" + "?a=1&&" * 15000 + ") }", "error: query syntax", None)
    yield failed("a byte order mark before a query", ["select", "--query", "\ufeffSELECT * {}"], b"x\n", 2, "error: query syntax", None,
                 has="spq: query, line 1, column 1: ", ends="hint: remove this byte order mark (save the file as UTF-8 without one)\n")
    yield failed("nothing is read for a rejected query", ["select", "--query", "SELECT"], "folder", 2, "error: query syntax", None)


def command_lines():
    """Words that are no command."""
    line = "error: command line"
    yield failed("no words", [], b"", 3, line, "error: 'spq' requires a subcommand but one was not provided\n"
                 "  [subcommands: select, check, terms, help]\n" + USAGE)
    yield failed("a file", ["dump.nq"], b"", 3, line, "error: unrecognized subcommand 'dump.nq'\n" + USAGE
                 + "hint: spq reads standard input: use spq check < dump.nq\n")
    yield failed("version", ["--version"], b"", 3, line, "spq 0.1.0\n")
    yield failed("no UTF-8", [b"\xff"], b"", 3, line, "spq: command line: a word is not UTF-8\n")


def devices():
    """Devices that fail."""
    yield failed("a folder", ["check"], "folder", 5, "error: input", "spq: cannot read standard input: Is a directory\n")
    yield Case("a full device", ["check"], STATEMENT, 5, "", "error: output\nspq: cannot write standard output: No space left on device\n", output="/dev/full")
    yield Case("a closed pipe", ["check"], STATEMENT, 5, "", "error: output\nspq: cannot write standard output: Broken pipe\n", output="closed")
    yield Case("closed devices", ["check"], STATEMENT, 5, "", "error: output\nspq: cannot write standard output: Bad file descriptor\n", output="none")


def memory():
    """Allocations and threads that fail."""
    line = "error: memory"
    cost = "hint: docs/COST.md says how much memory a document and a query take\n"
    stages = ["preparing to read the document", "reading the document", "indexing the document", "evaluating the query", "printing the result"]
    yield Case("each allocation of a query", ["select", "--workers", "1", "--query", "SELECT ?o { ?s ?p ?o . ?s ?q ?o }"], STATEMENT, 4, line + "\n",
               [f"{line}\nspq: out of memory while {stage}\n{cost}" for stage in stages], growths=True)
    many = b"".join(b"<http://e/%d> <http://e/p> \"%d\" .\n" % (n, n) for n in range(200000))
    yield failed("memory while a document is read", ["check", "--workers", "1"], many, 4, line,
                 "spq: out of memory while reading the document\n" + cost, memory=20 << 20)
    # Threads have stacks, which count. The first thread writes to standard error: without it, messages come at the end.
    yield failed("no thread for messages", ["check", "--workers", "1"], b".\n" + STATEMENT + b"x\n", 1, "error: line 1",
                 message("line 1, column 1", NO_SUBJECT + "'.'", ".\n^", None) + message("line 3, column 1", NO_SUBJECT + "'x'", "x\n^", None)
                 + "spq: 2 malformed lines\n  2  expected a subject (an IRI or a blank node) (first: line 1, column 1)\n", start=1)
    yield failed("a worker", ["check", "--workers", "64", "--piece", "1"], STATEMENT * 200, 4, "error: worker",
                 "spq: a thread could not be started: 64 workers were asked for\nhint: use --workers 1\n", start=2)
    # The first thread is for messages, two threads load the document, and the next ones list its malformed lines.
    for words in (["check"], ["terms"]):
        yield failed(f"a worker while lines are listed, {words[0]}", [*words, "--workers", "2", "--piece", "1"], b".\n" + STATEMENT + b"x\n", 1, "error: line 1",
                     "spq: line 1: this is not a line of N-Quads\n"
                     "spq: there may be more malformed lines: memory or threads ran out before all were listed\n", start=4)
    yield Case("the thread of a query", ["select", "--workers", "1", "--query", "SELECT * {}"], STATEMENT, 4, "error: worker\n", NO_QUERY_THREAD, start=2)
    yield failed("a rejected query where no thread starts", ["select", "--query", "SELECT"], STATEMENT, 2, "error: query syntax", None, start=1)


def notes():
    """Rows that an error of an expression costs, and parts of a query that find nothing."""
    def literal(value, kind):
        return b'<http://e/a> <http://e/p> "%s"^^<%s> .\n' % (value.encode(), (XSD + kind).encode())

    def about(rows, why):
        return f"spq: note: FILTER at line 1, column 22: {rows} left out, since {why}\n"
    compared = "SELECT ?o { ?s ?p ?o FILTER(?o < 7) }"
    kinds = "two literals of different kinds, such as a string and a number, have no order and no inequality by value (compare STR(..))"
    floats = "values of xsd:%s are not compared (compare STR(..), if the order of the texts is that of the values)"
    for kind in ("double", "float"):
        yield warned(f"xsd:{kind} is compared", compared, literal("1", kind), about("1 row is", floats % kind))
        yield warned(f"xsd:{kind} is not compared", "SELECT ?o { ?s ?p ?o }", literal("1", kind), "")
    for kind in ("dateTime", "date", "string"):
        yield warned(f"a number and xsd:{kind}", compared, literal("1", kind), about("1 row is", kinds))
    yield warned("two causes, most rows first", compared, literal("1", "double") + literal("1", "date") + literal("2", "date"),
                 about("2 rows are", kinds) + about("1 row is", floats % "double"))
    twelve = "SELECT ?o { " + " UNION ".join("{ ?s ?p ?o FILTER(?o < %d) }" % n for n in range(12)) + " }"
    places = [found.start() + 1 for found in re.finditer("FILTER", twelve)]
    yield warned("at most ten notes on rows", twelve, literal("1", "double"), "".join(
        f"spq: note: FILTER at line 1, column {place}: 1 row is left out, since {floats % 'double'}\n" for place in places[:10]))
    yield warned("an equality of other kinds", "SELECT ?o { ?s ?p ?o FILTER(?o IN (1)) }", literal("2", "date"), "")
    yield warned("an integer", compared, literal("1", "integer"), "")
    yield warned("a variable that is nowhere", "SELECT ?o ?x { ?s ?p ?o }", STATEMENT,
                 "spq: note: ?x at line 1, column 11 is selected and occurs nowhere in the pattern\n")
    yield warned("a variable of a filter", "SELECT ?o ?x { ?s ?p ?o FILTER(!BOUND(?x)) }", STATEMENT,
                 "spq: note: ?x at line 1, column 39 occurs only in expressions, so it is never bound\n")
    named = b"<http://e/a> <http://e/p> <http://e/b> <http://e/g> .\n"

    def outside(column):
        return (f"spq: note: the pattern at line 1, column {column} finds nothing: "
                "it is outside of GRAPH, and all quads are in named graphs\n")
    yield warned("named graphs alone", "SELECT * { ?s ?p ?o }", named, outside(12))
    yield warned("named graphs, GRAPH and MINUS", "SELECT ?s { GRAPH ?g { ?s ?p ?o } MINUS { ?s ?p ?o } }", named, outside(43))
    yield warned("named graphs and GRAPH", "SELECT * { GRAPH <http://e/h> { ?s ?p ?o } }", named, "")
    yield warned("named graphs and a row", "SELECT * { VALUES ?a { 1 } }", named, "")
    yield warned("a default graph", "SELECT * { ?s <http://e/q> ?o }", named + STATEMENT, "")
    yield warned("no document", "SELECT * { ?s ?p ?o }", b"", "")


def silent():
    """Runs without a failure, which say nothing."""
    yield Case("a check", ["check"], STATEMENT, 0, "ok 1 quads 3 terms 0 graphs\n", "")
    yield Case("terms", ["terms", "--workers", "1"], STATEMENT, 0, "<http://e/a>\n<http://e/p>\n<http://e/b>\n", "")
    yield Case("a query", ["select", "--query", "SELECT ?o { ?s ?p ?o }"], STATEMENT * 5, 0, None, "")


ROWS = '{"head":{"vars":["o"]},"results":{"bindings":[{"o":{"type":"uri","value":"http://e/b"}}]}}\n'
MALFORMED = b".\n" * 3
SELECT = ["select", "--query", "SELECT ?o { ?s ?p ?o }"]


def errors():
    """Standard error that is closed, full or read by nobody, and standard output in trouble with a message due: output and status are
    right."""
    for name, words, given, status, printed in (
        ("a query", SELECT, STATEMENT, 0, ROWS), ("a note", ["select", "--query", "SELECT ?o ?x { ?s ?p ?o }"], STATEMENT, 0, None),
        ("malformed lines", ["check"], MALFORMED, 1, "error: line 1\n"), ("a rejected query", ["select", "--query", "SELECT"], b"", 2, "error: query syntax\n"),
        ("no command", [], b"", 3, "error: command line\n"), ("no UTF-8", [b"\xff"], b"", 3, "error: command line\n")):
        for kind in ("/dev/full", "closed", "none", "unread"):
            yield Case(f"standard error is {kind}, {name}", words, given, status, printed, "", error=kind)
        if status:
            for kind in ("/dev/full", "closed", "none"):
                yield Case(f"standard output is {kind}, {name}", words, given, status, "", None, output=kind, has=f"{printed}")


class Runner:
    def __init__(self, program, room):
        self.program, self.room = os.path.abspath(program), room
        self.refusals = os.path.join(room, "refusals.so")
        subprocess.run(["cc", "-O2", "-shared", "-fPIC", "-o", self.refusals, os.path.join(HERE, "refusals.c")], check=True)

    def source(self, case):
        if case.given == "folder":
            return os.open(self.room, os.O_RDONLY)
        path = os.path.join(self.room, "given")
        with open(path, "wb") as out:
            out.write(case.given)
        return os.open(path, os.O_RDONLY)

    def run(self, case):
        how = dict(case.how)
        words = dict(os.environ)
        if "start" in how:
            words.update(LD_PRELOAD=self.refusals, REFUSE_START=str(how["start"]))
        if "growth" in how:
            words.update(LD_PRELOAD=self.refusals, REFUSE_GROWTH=str(how["growth"]))
        output, error = self.device(how.get("output")), self.device(how.get("error"))

        def before():
            if "memory" in how:
                resource.setrlimit(resource.RLIMIT_AS, (how["memory"], how["memory"]))
            for name, number in (("output", 1), ("error", 2)):
                if how.get(name) == "none":
                    os.close(number)
        ran = subprocess.run([self.program, *case.words], stdin=self.source(case), stdout=output, stderr=error, env=words, preexec_fn=before, timeout=LIMIT)
        said = ran.stderr or b""
        self.has_failed = "LD_PRELOAD" in words and b"refused\n" in said
        return ran.returncode, ran.stdout or b"", said.replace(b"refused\n", b"", 1) if self.has_failed else said

    def device(self, kind):
        """A device to write to: a pipe that is read, or one that is `closed` or `unread`, no device (`none`), or a file."""
        if kind is None:
            return subprocess.PIPE
        if kind == "none":
            return subprocess.DEVNULL
        if kind not in ("closed", "unread"):
            return os.open(kind, os.O_WRONLY)
        read, written = os.pipe()
        if kind == "closed":
            os.close(read)
        return written

    def wrong_of_allocations(self, case):
        """What is wrong if the allocations of a run fail, one by one, until none is left to fail. (A run ends with status 0
        if the allocation is for a warning. The start of a thread allocates, too.)"""
        missing = set(case.said)
        for growth in range(1, 5000):
            status, printed, said = self.run(Case(case.name, case.words, case.given, 0, None, None, growth=growth))
            if not self.has_failed:
                return f"never said {missing}" if missing else ""
            if status == 0:
                continue
            if status == 4 and said.decode() == NO_QUERY_THREAD:
                continue
            if (status, printed.decode()) != (case.status, case.printed) or said.decode() not in case.said:
                return f"allocation {growth}: status {status}, standard output {printed!r}, standard error {said!r}"
            missing.discard(said.decode())
        return "no end of allocations"

    def wrong(self, case):
        """What is wrong of a case, or nothing."""
        if "growths" in case.how:
            return self.wrong_of_allocations(case)
        status, printed, said = self.run(case)
        printed, said = printed.decode(errors="replace"), said.decode(errors="replace")
        if status != case.status:
            return f"status {status}, not {case.status}; standard error {said[:300]!r}"
        if case.printed is not None and printed != case.printed:
            return f"standard output {printed[:300]!r}, not {case.printed[:300]!r}"
        if case.said is not None and said != case.said:
            return f"standard error\n{said[:1500]}\nnot\n{case.said[:1500]}"
        if case.how.get("has", "") not in said or not said.endswith(case.how.get("ends", "")):
            return f"standard error\n{said[:1500]}\nhas not {case.how}"
        return ""


def begins_with(text):
    return re.escape(text) + ".*"


DOT = "spq: line 1, column 1: expected a subject (an IRI or a blank node), found '.'\n.\n^\n"


def in_any_order(one, other):
    """The pattern of two texts, of which the one or the other is first. (A machine that is busy may be late with a message.)"""
    one, other = re.escape(one), re.escape(other)
    return f"({one}{other}|{other}{one})"


def at_the_keyboard(program):
    """Runs with all three devices at a terminal: the name, the words, what is typed, the status, and the pattern of
    what is shown."""
    notice = "spq: N-Quads is read from the terminal; end it with Ctrl-D\n"
    cases = [
        ("a check", ["check"], STATEMENT + b"\x04", 0, begins_with(notice + "ok 1 quads 3 terms 0 graphs\n")),
        ("a malformed line", ["check"], b".\n\x04", 1, re.escape(notice) + in_any_order(
            "error: line 1\n", DOT)),
        ("a rejected query", ["select", "--query", "SELECT"], b"", 2, begins_with("error: query syntax\nspq: query, line 1, column 7: ")),
    ]
    for name, words, typed, status, pattern in cases:
        def run(words=words, typed=typed):
            return terminal.run([program, *words], None, ("input", "output", "error"), typed, LIMIT)
        yield "at a terminal, " + name, run, status, pattern, {}


def slow(document):
    """Gives a document, and its end once a line of progress is shown."""
    def give(source, screen):
        source.write(document)
        source.flush()
        screen.wait_for(b", reading", LIMIT)
    return give


# A line of progress after 500,000 statements, which take from 1 to 50 seconds.
COUNTED = "spq: 20 MB read, [0-9]{5,6} statements a second, reading"


def counted(source, screen):
    """Gives a document of 500,000 statements, and its end once a line of progress counts them."""
    source.write(STATEMENT * 500_000)
    source.flush()
    end = time.monotonic() + LIMIT
    while not re.search(COUNTED.encode(), screen.shown) and time.monotonic() < end:
        time.sleep(0.02)


def before_the_end(source, screen):
    """Gives a document whose first line is malformed, and its end once that is shown. If it is not, a second line is malformed."""
    source.write(b".\n" + STATEMENT * 500_000)
    source.flush()
    screen.wait_for(b"spq: line 1, column 1", LIMIT)
    if b"spq: line 1, column 1" not in screen.shown:
        source.write(b".\n")


def one_dot(source, _screen):
    """Gives a malformed line."""
    source.write(b".\n")


def at_once(source, _screen):
    """Gives a document and its end."""
    source.write(STATEMENT)


def slow_unseen(source, _screen):
    """Gives a document that takes more than a second. Nothing is shown that could be waited for, so a longer time changes
    nothing."""
    source.write(STATEMENT)
    source.flush()
    time.sleep(1.5)


def progress(stages):
    """The pattern of lines of progress that show these stages, and are cleared. A stage after the first may be too short."""
    def lines(stage, count):
        return f"({re.escape(terminal.CLEAR)}spq: 0 MB read, [0-9]+ statements a second, {stage}){count}"
    return lines(stages[0], "+") + "".join(lines(stage, "*") for stage in stages[1:]) + re.escape(terminal.CLEAR)


def progress_or_nothing():
    """The pattern of lines of progress that are cleared, or of nothing."""
    return f"(({re.escape(terminal.CLEAR)}spq: [^\n\r]*, [a-z]+)*{re.escape(terminal.CLEAR)})?"


def with_progress(program):
    """Runs of which standard error is a terminal and standard input is none."""
    select = ["select", "--workers", "1", "--query", "SELECT ?o { ?s ?p ?o }"]
    rows = '{"head":{"vars":["o"]},"results":{"bindings":[{"o":{"type":"uri","value":"http://e/b"}}]}}\n'
    counts = "ok 1 quads 3 terms 0 graphs\n"
    error, both = ("error",), ("output", "error")
    four = progress(["reading", "indexing", "evaluating", "printing"])
    three = progress(["reading", "indexing", "printing"])
    cases = [
        ("a query", select, slow(STATEMENT), error, 0, four, {"output": rows}),
        ("a query with two workers", ["select", "--query", "SELECT ?o { ?s ?p ?o }"], slow(STATEMENT), error, 0, four, {"output": rows}),
        ("a query that is shown at the terminal", select, slow(STATEMENT), both, 0, four + re.escape(rows), {}),
        ("a check", ["check"], slow(STATEMENT), error, 0, three, {"output": counts}),
        ("a check of 500,000 statements", ["check"], counted, error, 0, f".*{re.escape(terminal.CLEAR)}{COUNTED}{re.escape(terminal.CLEAR)}.*", {"output": counts}),
        ("a check that is shown at the terminal", ["check"], slow(STATEMENT), both, 0, three + re.escape(counts), {}),
        ("a malformed line", ["check"], slow(STATEMENT + b".\n"), both, 1, progress(["reading", "indexing"]) + in_any_order(
            "error: line 2\n", "spq: line 2, column 1: expected a subject (an IRI or a blank node), found '.'\n.\n^\n"), {}),
        ("a malformed line before the end of the document", ["check"], before_the_end, error, 1, progress_or_nothing() + re.escape("error: line 1\n" + DOT) + progress_or_nothing(),
         {"output": "error: line 1\n"}),
        ("a note", ["select", "--query", "SELECT ?o ?x { ?s ?p ?o }"], slow(STATEMENT), error, 0,
         four + re.escape("spq: note: ?x at line 1, column 11 is selected and occurs nowhere in the pattern\n"), {}),
        ("a rejected query", ["select", "--query", "SELECT"], at_once, both, 2, begins_with("error: query syntax\nspq: query, "), {}),
        ("standard error alone", ["check"], one_dot, error, 1, progress_or_nothing() + re.escape("error: line 1\n" + DOT) + progress_or_nothing(), {"output": "error: line 1\n"}),
        ("standard output alone", ["check"], one_dot, ("output",), 1, re.escape("error: line 1\n"), {"error": DOT}),
        ("standard error alone, a rejected query", ["select", "--query", "SELECT"], at_once, error, 2, begins_with("error: query syntax\nspq: query, "),
         {"output": "error: query syntax\n"}),
        ("standard error is no terminal", select, slow_unseen, ("output",), 0, re.escape(rows), {"error": ""}),
    ]
    for name, words, give, at, status, pattern, pipes in cases:
        def run(words=words, give=give, at=at):
            return terminal.run([program, *words], give, at, seconds=LIMIT)
        yield "progress, " + name, run, status, pattern, pipes

    def run_fast():
        """A run in less than a second. If the machine is too busy for it, a line may be shown, which is cleared."""
        for _ in range(5):
            start = time.monotonic()
            status, shown, came = terminal.run([program, "check"], at_once, both, seconds=LIMIT)
            if time.monotonic() - start < 1:
                return status, shown, came
        return status, terminal.left_of(shown.decode()).encode(), came
    yield "progress, less than a second", run_fast, 0, re.escape(counts), {}


def wrong_at_a_terminal(run, status, pattern, pipes):
    """What is wrong of a run at a terminal, or nothing."""
    ended, shown, came = run()
    shown, came = shown.decode(errors="replace"), {name: text.decode(errors="replace") for name, text in came.items()}
    if ended != status:
        return f"status {ended}, not {status}; shown {shown[:500]!r}"
    if not re.fullmatch(pattern, shown, re.S):
        return f"shown\n{shown[:1500]!r}\nnot\n{pattern!r}"
    if any(came[name] != text for name, text in pipes.items()):
        return f"came {came}, not {pipes}"
    return ""


def output_of(process, output):
    """Reads the output of a run until this has come, or all of it."""
    came = b""
    while len(came) < len(output) and select.select([process.stdout], [], [], LIMIT)[0]:
        part = os.read(process.stdout.fileno(), 65536)
        if not part:
            return came
        came += part
    return came


def wrong_when_stopped(program, words, document, output, status, pattern):
    """What is wrong of a run if standard error is a terminal that is stopped (Ctrl-S) until the output has come, or nothing."""
    screen = terminal.Terminal()
    termios.tcflow(screen.follower, termios.TCOOFF)
    process = subprocess.Popen([program, *words], stdin=subprocess.PIPE, stdout=subprocess.PIPE, stderr=screen.follower)
    process.stdin.write(document)
    process.stdin.flush()
    # Time for a line of progress, which the terminal does not take.
    time.sleep(1.5)
    process.stdin.close()
    came = output_of(process, output)
    is_right = came == output and not select.select([screen.leader], [], [], 0)[0]
    termios.tcflow(screen.follower, termios.TCOON)
    os.close(screen.follower)
    screen.read_all(LIMIT)
    came += process.stdout.read()
    ended, shown = process.wait(timeout=LIMIT), screen.shown.decode()
    os.close(screen.leader)
    if not is_right or (ended, came) != (status, output):
        return f"status {ended}, standard output {came!r}, complete while the terminal was stopped: {is_right}"
    return "" if re.fullmatch(pattern, shown, re.S) else f"shown\n{shown!r}\nnot\n{pattern!r}"


def wrong_when_full(program, words, document, output, status):
    """What is wrong of a run if standard error is a full pipe that nobody reads, and that is closed when the output has come."""
    read, written = os.pipe()
    os.set_blocking(written, False)
    try:
        while os.write(written, b"x" * 512):
            pass
    except BlockingIOError:
        os.set_blocking(written, True)
    process = subprocess.Popen([program, *words], stdin=subprocess.PIPE, stdout=subprocess.PIPE, stderr=written)
    os.close(written)
    process.stdin.write(document)
    process.stdin.close()
    came = output_of(process, output)
    is_right = came == output
    os.close(read)
    came += process.stdout.read()
    ended = process.wait(timeout=LIMIT)
    if not is_right or (ended, came) != (status, output):
        return f"status {ended}, standard output {came!r}, complete while the pipe was full: {is_right}"
    return ""


def stopped(program):
    """Runs whose standard error takes nothing: the name, and a function that returns what is wrong, or nothing."""
    cases = (("a query", SELECT, STATEMENT, ROWS.encode(), 0, progress(["reading", "indexing", "evaluating", "printing"])),
             ("terms", ["terms"], STATEMENT, b"<http://e/a>\n<http://e/p>\n<http://e/b>\n", 0, progress(["reading", "indexing", "printing"])),
             ("a malformed line", ["check"], b".\n", b"error: line 1\n", 1, progress(["reading", "indexing"]) + re.escape("error: line 1\n" + DOT)),
             ("a rejected query", ["select", "--query", "SELECT"], b"", b"error: query syntax\n", 2, begins_with("error: query syntax\nspq: query, ")))
    for name, *case in cases:
        yield f"a stopped terminal, {name}", functools.partial(wrong_when_stopped, program, *case)
        yield f"a full pipe, {name}", functools.partial(wrong_when_full, program, *case[:4])


def cases(runner):
    """The name of each case, and a function that returns what is wrong of it, or nothing."""
    for kind in (lines, distant_lines, several_lines, beginnings, queries, command_lines, devices, errors, memory, notes, silent):
        for case in kind():
            yield case.name, functools.partial(runner.wrong, case)
    for kind in (at_the_keyboard, with_progress):
        for name, *case in kind(runner.program):
            yield name, functools.partial(wrong_at_a_terminal, *case)
    yield from stopped(runner.program)


def tried(found, only):
    """Runs the cases with this word in their name, prints what is wrong, and returns how many there are and how many are
    wrong."""
    count = bad = 0
    for name, wrong_of in found:
        if only in name:
            wrong = wrong_of()
            count, bad = count + 1, bad + bool(wrong)
            if wrong:
                print(f"{name}: {wrong}", flush=True)
    return count, bad


def main():
    words = argparse.ArgumentParser(description=__doc__.split("\n")[0])
    words.add_argument("program", nargs="?", default=os.path.join(ROOT, "crates", "spq", "out", "spq"))
    words.add_argument("--only", default="", help="the cases with this word in their name")
    given = words.parse_args()
    if not os.path.exists(given.program):
        sys.exit(f"no program at {given.program}: build it first (see README)")
    with tempfile.TemporaryDirectory() as room:
        count, bad = tried(cases(Runner(given.program, room)), given.only)
    print(f"{count - bad} of {count} cases say what they have to")
    sys.exit(1 if bad else 0)


if __name__ == "__main__":
    main()
