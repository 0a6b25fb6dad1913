#!/usr/bin/env python3
"""Runs the built program with one failing call of the system at a time, and checks the output and the status of each run.

    failures.py [PROGRAM]

PROGRAM is the executable (default: crates/spq/out/spq). refusals.c lets the first allocation of a run fail, then the second, and
so on, until a run in which none fails. It does the same with the starts of threads, with the reads from standard input, and with
the writes to standard output. A read or a write moves one byte here.
- A run with a failed allocation or start ends with `error: memory` or `error: worker`, or it has its result: some of these
  calls are for messages only.
- A run with a failed read ends with `error: input`, also if a line before it is malformed.
- A run with a failed write writes no more of its result, only `error: output`. If it was the line of an error, it writes nothing more.
Needs the Python 3 standard library and a C compiler.
"""
import os
import subprocess
import sys
import tempfile

HERE = os.path.dirname(os.path.abspath(__file__))
MEMORY, WORKER, INPUT, OUTPUT_LINE = (4, b"error: memory\n"), (4, b"error: worker\n"), (5, b"error: input\n"), b"error: output\n"
# The calls of one kind that a run has at most.
MOST = 5000
# With these words each statement and each row is a task.
TASKS = ["--workers", "2", "--piece", "1", "--rows", "1"]
PIECES = TASKS[:4]
# A repeated statement, an escape, a blank node, a number and a named graph.
DOCUMENT = rb"""<a:s><a:p>_:b.
<a:s> <a:p> _:b .
_:b <a:q> "\u00e9"@EN <a:g> .
<a:t> <a:p> "2"^^<http://www.w3.org/2001/XMLSchema#integer> .
"""
MALFORMED = b"<a:s> <a:p> <a:b> .\nx\n.\n"
TERMS = '<a:s>\n<a:p>\n_:b\n<a:q>\n"é"@en\n<a:g>\n<a:t>\n"2"^^<http://www.w3.org/2001/XMLSchema#integer>\n'.encode()
# A pattern, OPTIONAL with a condition, a join, a computed term, GRAPH and MINUS.
QUERY = "SELECT ?x ?d { ?s <a:p> ?x OPTIONAL { ?s ?p ?x FILTER(?x < 3) } { ?s <a:p> ?x } GRAPH <a:g> { ?y ?q ?z } MINUS { ?s <a:q> ?x } BIND(DATATYPE(?x) AS ?d) }"
SOLUTIONS = (b'{"head":{"vars":["x","d"]},"results":{"bindings":[{"x":{"type":"bnode","value":"b"}},'
             b'{"d":{"type":"uri","value":"http://www.w3.org/2001/XMLSchema#integer"},'
             b'"x":{"datatype":"http://www.w3.org/2001/XMLSchema#integer","type":"literal","value":"2"}}]}}\n')
# Words, a document, and the status and the output of a run in which no call fails.
RUNS = [
    (["select", *TASKS, "--query", QUERY], DOCUMENT, (0, SOLUTIONS)),
    (["check", *PIECES], DOCUMENT, (0, b"ok 3 quads 8 terms 1 graphs\n")),
    (["check", *PIECES], MALFORMED, (1, b"error: line 2\n")),
    (["terms", *PIECES], DOCUMENT, (0, TERMS)),
    (["select", "--query", "SELECT"], b"", (2, b"error: query syntax\n")),
]


class Failed(Exception):
    pass


def expect(words, what, got, *wanted):
    if got not in wanted:
        raise Failed(f"{' '.join(words)}: {what}: status {got[0]} and {got[1][:200]!r}")


class Program:
    """The program with the library that lets calls fail."""

    def __init__(self, path, library):
        self.path, self.library = path, library

    def run(self, words, document, **settings):
        """Returns the status and the output of a run, and whether a call failed."""
        variables = {**os.environ, "LD_PRELOAD": self.library, **{name: str(number) for name, number in settings.items()}}
        ran = subprocess.run([self.path, *words], input=document, capture_output=True, env=variables, timeout=120)
        return (ran.returncode, ran.stdout), b"refused\n" in ran.stderr

    def each_failing(self, kind, words, document, result, **settings):
        """Lets each call of this kind fail in turn. Yields the number of each, and what the run then came to."""
        for n in range(1, MOST):
            got, has_failed = self.run(words, document, **settings, **{f"REFUSE_{kind}": n})
            if not has_failed:
                expect(words, f"no {kind} failed", got, result)
                return
            yield n, got
        raise Failed(f"{' '.join(words)}: more than {MOST} calls of the kind {kind}")


def check(program, words, document, result):
    """Lets each call of a run fail in turn. Returns the number of runs."""
    count, seen = 0, set()
    for kind, errors in (("GROWTH", [MEMORY, WORKER]), ("START", [WORKER])):
        for n, got in program.each_failing(kind, words, document, result):
            expect(words, f"{kind} {n}", got, result, *errors)
            seen.add(got)
            count += 1
    missing = {MEMORY, WORKER} - seen if "--workers" in words else {MEMORY} - seen
    if missing:
        raise Failed(f"{' '.join(words)}: never {missing}")
    for n, got in program.each_failing("READ", words, document, result, MOST_READ=1):
        expect(words, f"read {n}", got, INPUT)
        count += 1
    status, output = result
    for n, got in program.each_failing("WRITE", words, document, result, MOST_WRITTEN=1):
        expect(words, f"write {n}", got, (status, output[: n - 1]) if status else (5, output[: n - 1] + OUTPUT_LINE))
        count += 1
    expect(words, "writes of no byte", program.run(words, document, MOST_WRITTEN=0)[0], (status or 5, b""))
    return count


def check_a_late_read(program):
    """Lets a read fail after more than the first round of a document, which has at least 8 MiB."""
    words, document = ["check"], b"<a:s> <a:p> <a:b> .\n" * (9 << 16)
    expect(words, "a long document", program.run(words, document)[0], (0, b"ok 1 quads 3 terms 0 graphs\n"))
    expect(words, "a late read", program.run(words, document, MOST_READ=8192, REFUSE_READ=1100)[0], INPUT)


def main():
    path = sys.argv[1] if len(sys.argv) > 1 else os.path.join(HERE, "..", "crates", "spq", "out", "spq")
    with tempfile.TemporaryDirectory() as folder:
        library = f"{folder}/refusals.so"
        subprocess.run(["cc", "-O2", "-shared", "-fPIC", "-o", library, f"{HERE}/refusals.c"], check=True)
        program = Program(os.path.abspath(path), library)
        try:
            count = sum(check(program, *run) for run in RUNS)
            check_a_late_read(program)
        except Failed as fault:
            print(fault)
            return 1
    print(f"{count} runs, each with a failing call, end as they should")
    return 0


if __name__ == "__main__":
    sys.exit(main())
