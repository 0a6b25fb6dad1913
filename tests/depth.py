#!/usr/bin/env python3
"""Runs the built program on queries that are nested or chained as deep as they may be, with one worker and with eight.

    depth.py [PROGRAM]

PROGRAM is the executable (default: crates/spq/out/spq). Each query makes one path of recursion as deep as brackets or the command
line allow, over rows that are split into tasks of one row, so that the stack of each worker is used. A query fails if a signal ends the
program, or if the result is another one than that of a short query with the same solutions.
Long texts are also checked alone, with a document that is malformed, so that nothing is evaluated. The main thread checks them, here
with 1 MiB of stack: a chain is read and dropped at constant depth, and in linear time, so a text takes milliseconds.
Afterwards the nested conditions run once more with workers that have 64 KiB of stack (stack.c) in place of 64 MiB. This must end the
program, or else the queries are not deep enough to show that the stack suffices. It needs a C compiler, and is left out without one.
Python 3 standard library only.
"""
import os
import resource
import shutil
import subprocess
import sys
import tempfile

HERE = os.path.dirname(os.path.abspath(__file__))
PREFIX = "PREFIX e: <http://e/> "
# Brackets are nested at most 100 deep; the group of the query is the first level.
DEPTH = 99
# The longest text of a query, below the 128 KiB of one argument. hostile.py has chains of operators of this length.
LONGEST, OPERATORS = 120_000, 20_000
ROWS = 24
# The bytes of stack of the main thread for a text that is only checked, of which the text itself takes some. The seconds for a text.
CHECK_STACK, CHECK_SECONDS = 1 << 20, 10
# With these words each row is a task.
TASKS = ["--rows", "1", "--piece", "1"]
ALL = "SELECT ?s ?o { ?s e:p ?o }"
NONE = "SELECT ?s ?o { ?s e:none ?o }"


def document():
    """Returns statements of the default graph, and as many of named graphs."""
    lines = [f'<http://e/s{n}> <http://e/p> "{n}" .\n<http://e/s{n}> <http://e/p> "{n}" <http://e/g{n % 3}> .\n' for n in range(ROWS)]
    return "".join(lines).encode()


def nested(start, inside, end, depth=DEPTH):
    return start * depth + inside + end * depth


def chain(start, part, end, length=LONGEST):
    """Returns a text with as many parts as fit."""
    return start + part * ((length - len(start) - len(end)) // len(part)) + end


def bracketed(inner):
    """Yields conditions with so many levels of brackets, with their value."""
    yield "brackets", nested("(", "?o = ?o", ")", inner), True
    yield "negations", nested("!(", "?o = ?o", ")", inner), inner % 2 == 0
    yield "and, or", nested("(true && (false || ", "?o = ?o", "))", inner // 2), True
    yield "or, to the left", nested("(", "?o = ?o", " || false)", inner), True
    yield "and, to the left", nested("(", "?o = ?o", " && true)", inner), True
    yield "an error in each level", nested("(?none || ", "?o = ?o", ")", inner), True
    yield "comparisons", nested("(true = ", "(?o = ?o)", ")", inner - 1), True
    yield "IN", nested("true IN (", "true", ")", inner), True
    yield "NOT IN", nested("false NOT IN (", "true", ")", 1 + (inner - 1) // 2 * 2), True
    yield "STR", "(" + nested("STR(", "?o", ")", inner - 1) + " = ?o)", True
    yield "sameTerm", nested("sameTerm(true, ", "true", ")", inner), True
    yield "isLiteral", nested("isLiteral(", "?o", ")", inner), True


def groups():
    """Yields groups that are nested as deep as brackets may be, with a short query that has the same solutions."""
    yield "groups", "SELECT ?s ?o " + nested("{", "?s e:p ?o", "}", DEPTH + 1), ALL
    yield "joined groups", "SELECT ?s ?o { " + nested("?s e:p ?o {", "?s e:p ?o", "}") + " }", ALL
    yield "OPTIONAL", "SELECT ?s ?o { " + nested("?s e:p ?o OPTIONAL {", "?s e:p ?o", "}") + " }", ALL
    yield "OPTIONAL with a condition", "SELECT ?s ?o { ?s e:p ?o " + nested("OPTIONAL { ?s e:p ?o FILTER(?s != e:x) ", "", "}", DEPTH - 1) + " }", ALL
    yield "MINUS, an even number", "SELECT ?s ?o { " + nested("?s e:p ?o MINUS {", "?s e:p ?o", "}", DEPTH - DEPTH % 2) + " }", ALL
    yield "MINUS, an odd number", "SELECT ?s ?o { " + nested("?s e:p ?o MINUS {", "?s e:p ?o", "}", DEPTH - 1 + DEPTH % 2) + " }", NONE
    yield "UNION, to the right", "SELECT DISTINCT ?s ?o { " + nested("{ ?s e:p ?o } UNION {", "?s e:p ?o", "}") + " }", ALL
    yield "UNION, to the left", "SELECT DISTINCT ?s ?o { " + nested("{", "{ ?s e:p ?o }", " UNION { ?s e:p ?o } }", DEPTH - 1) + " }", ALL
    yield "GRAPH of one name", "SELECT ?s ?o { " + nested("GRAPH e:g0 {", "?s e:p ?o", "}") + " }", "SELECT ?s ?o { GRAPH e:g0 { ?s e:p ?o } }"
    yield "GRAPH of a variable, then of names", "SELECT ?s ?o { GRAPH ?g { " + nested("GRAPH e:g0 {", "?s e:p ?o", "}", DEPTH - 1) + " } }", "SELECT ?s ?o { GRAPH e:g0 { ?s e:p ?o } GRAPH ?g {} }"
    yield "FILTER in each group", "SELECT ?s ?o " + nested("{ FILTER(?o = ?o) ", "{ ?s e:p ?o }", "}"), ALL
    levels = DEPTH - 2  # (with the brackets of BIND and STR)
    yield "BIND in each group", "SELECT ?s ?o { " + "{" * levels + "?s e:p ?o" + "".join(f" BIND(STR(?o) AS ?x{n}) }}" for n in range(levels)) + " }", ALL
    yield "VALUES in each group", "SELECT ?s ?o { " + nested("VALUES ?z { 1 } {", "?s e:p ?o", "}") + " }", ALL
    yield "all of them", "SELECT DISTINCT ?s ?o { " + nested("?s e:p ?o OPTIONAL { { ?s e:p ?o } UNION { ?s e:p ?o MINUS { ?s e:none ?o GRAPH e:g0 {", "?s e:p ?o", "} } } }", DEPTH // 4) + " }", ALL


def chains():
    """Yields queries with as many operands in a row as a command line has room for, with a short query that has the same solutions."""
    for name, part in (("&&", "&&1"), ("||", "||0"), ("&& and ||", "&&1||0")):
        yield name, chain("SELECT ?s ?o { ?s e:p ?o FILTER(1", part, ") }"), ALL
        yield f"{name} in OPTIONAL", chain("SELECT ?s ?o { ?s e:p ?o OPTIONAL { ?s e:p ?o FILTER(1", part, ") } }"), ALL
        yield f"{name} in BIND", chain("SELECT ?s ?o { ?s e:p ?o BIND(1", part, " AS ?x) }"), ALL
    yield "IN", chain("SELECT ?s ?o { ?s e:p ?o FILTER(1 IN (0", ",0", ",1)) }"), ALL


def operators():
    """Yields queries with many operators in a row, with a short query that has the same solutions."""
    for name, part in (("FILTER", "FILTER(1)"), ("groups", "{}"), ("OPTIONAL", "OPTIONAL{}"), ("MINUS", "MINUS{}"), ("triples", ".?s e:p ?o")):
        yield name, chain("SELECT ?s ?o { ?s e:p ?o ", part, " }", OPERATORS), ALL
    yield "UNION", chain("SELECT DISTINCT ?s ?o { { ?s e:p ?o } ", "UNION { ?s e:p ?o }", " }", OPERATORS), ALL


def texts():
    """Yields long texts, with the rule that rejects each, or None. The rules apply to the first part of a chain and to the last."""
    yield chain("SELECT * { { ?s ?p _:l }", " UNION { ?s ?p ?o }", " }"), None
    yield chain("SELECT * { { ?s ?p _:l }", " UNION {}", " UNION { ?s ?p _:l } }"), "blank label"
    yield chain("SELECT * { { ?s ?p ?o }", " UNION {}", " BIND(1 AS ?o) }"), "bind"
    yield chain("SELECT * { { ?s ?p ?o BIND(1 AS ?o) }", " UNION {}", " }"), "bind"
    for start, part, end in (("FILTER(?a", "||?a", ")"), ("FILTER(?a", "&&?a", ")"), ("FILTER(?a IN (1", ",1", "))"), ("VALUES ?a {", " 1", " }"),
                             ("?s ?p ?o", ".?s ?p ?o", ""), ("?s ?p ?o", ";?p ?o", ""), ("?s ?p ?o", ",?o", ""), ("", "OPTIONAL{}", "")):
        yield chain("SELECT * { " + start, part, end + " }"), None
    # Characters of names and dots, in which a name ends only at the last colon.
    yield chain("SELECT * { ?s ?p ", "a.", "a:b }"), "prefix"
    yield chain("SELECT * { ?s ?p ", "a.", ":b }"), "syntax"
    yield chain("SELECT * { ?s ?p 1e1", ".1e1", ":b }"), "syntax"
    yield chain("SELECT * { ?s ?p ?o", ".", ":b }"), "syntax"
    yield chain("", "PREFIX e: <a:> ", "SELECT * { e:a ?p ?o }"), None
    yield chain("SELECT * { # ", "(", "\n}"), None


def queries():
    """Yields the name of each query, its text, the words of the command with eight workers, and the short query."""
    for name, condition, value in bracketed(DEPTH - 1):
        yield f"FILTER: {name}", "SELECT ?s ?o { ?s e:p ?o FILTER(" + condition + ") }", TASKS, ALL if value else NONE
        yield f"BIND: {name}", "SELECT ?s ?o { ?s e:p ?o BIND(" + condition + " AS ?x) }", TASKS, ALL
    for name, condition, _ in bracketed(DEPTH - 2):
        yield f"OPTIONAL: {name}", "SELECT ?s ?o { ?s e:p ?o OPTIONAL { ?s e:p ?o FILTER(" + condition + ") } }", TASKS, ALL
    yield from ((name, query, TASKS, short) for name, query, short in [*groups(), *chains()])
    yield from ((name, query, [], short) for name, query, short in operators())


def result(program, query, words, preloaded=None):
    """Returns the status and the output of a run, or the signal that ended it."""
    variables = {**os.environ, "LD_PRELOAD": preloaded} if preloaded else None
    run = subprocess.run([program, "select", "--query", PREFIX + query, *words], input=document(), capture_output=True, timeout=120, env=variables)
    return (run.returncode, run.stdout) if run.returncode >= 0 else (f"signal {-run.returncode}", b"")


def checked(program, text):
    """Returns the status and the output for a text over a malformed document, on a main thread with little stack."""
    run = subprocess.run([program, "select", "--query", text], input=b"x\n", capture_output=True, timeout=CHECK_SECONDS,
                         preexec_fn=lambda: resource.setrlimit(resource.RLIMIT_STACK, (CHECK_STACK, CHECK_STACK)))
    return run.returncode, run.stdout


def notices_a_small_stack(program):
    """Returns whether a nested condition ends the program if workers have a small stack."""
    with tempfile.TemporaryDirectory() as folder:
        library = f"{folder}/stack.so"
        subprocess.run(["cc", "-O2", "-shared", "-fPIC", "-o", library, f"{HERE}/stack.c"], check=True)
        conditions = [condition for _, condition, _ in bracketed(DEPTH - 1)]
        return any(result(program, "SELECT ?s ?o { ?s e:p ?o FILTER(" + it + ") }", ["--workers", "8", *TASKS], library)[0] == "signal 11" for it in conditions)


def main():
    program = sys.argv[1] if len(sys.argv) > 1 else os.path.join(HERE, "..", "crates", "spq", "out", "spq")
    expected, count, wrong = {}, 0, 0
    for name, query, words, short in queries():
        if short not in expected:
            expected[short] = result(program, short, ["--workers", "1"])
        for workers, more in ((1, []), (8, words)):
            count += 1
            found = result(program, query, ["--workers", str(workers), *more])
            if found != expected[short]:
                wrong += 1
                print(f"{name}, {workers} workers: {found[0]} {found[1][:120]!r}, not {expected[short][0]} {expected[short][1][:120]!r}")
    for text, rule in texts():
        count += 1
        found, wanted = checked(program, text), (2, b"error: query %s\n" % rule.encode()) if rule else (1, b"error: line 1\n")
        if found != wanted:
            wrong += 1
            print(f"{text[:40]}..{text[-20:]}: {found[0]} {found[1][:120]!r}, not {wanted[0]} {wanted[1]!r}")
    print(f"{count - wrong} of {count} runs of deep queries have the right result")
    if shutil.which("cc") and not notices_a_small_stack(program):
        wrong += 1
        print("with 64 KiB of stack for each worker no query fails, so these queries do not show that the stack suffices")
    return 1 if wrong else 0


if __name__ == "__main__":
    sys.exit(main())
