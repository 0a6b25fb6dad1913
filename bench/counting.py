#!/usr/bin/env python3
"""Measures what it costs to count the rows over which expressions are errors, if there are none.

    counting.py BASELINE [--spq PATH] [--rows N] [--runs N] [--workers N]

BASELINE is a build that does not count: the same program with `None` in place of `counts` in the call of `evaluate_counted`
(crates/spq_core/src/answering.rt), built by `rt try` or `rt run`. Both run each query --runs times, in alternating order, and
the least CPU seconds count. The last column is the ratio of both without the time of a query that finds nothing.
Python 3 standard library only.
"""
import argparse
import os
import tempfile

import measure

INTEGER = "http://www.w3.org/2001/XMLSchema#integer"
NOTHING = "SELECT ?a { ?a <http://e/none> ?b }"
QUERIES = {
    "numbers": "SELECT ?a { ?a <http://e/n> ?x FILTER(?x >= 1000000000) }",
    "strings": 'SELECT ?a { ?a <http://e/l> ?x FILTER(?x = "none") }',
    "two filters": 'SELECT ?a { ?a <http://e/n> ?x ; <http://e/l> ?y FILTER(?x >= 0) FILTER(STR(?y) = "none") }',
    "groups by a number": "SELECT ?a { { ?a <http://e/n> ?x } { ?b <http://e/m> ?y } FILTER(?x = ?y) }",
    "groups by a string": "SELECT ?a { { ?a <http://e/l> ?x } { ?b <http://e/k> ?y } FILTER(?x = ?y) }",
}


def statements(n):
    """Each subject has two numbers and two strings. No number and no string of the first is one of the second."""
    for i in range(n):
        for name, term in (("n", f'"{i}"^^<{INTEGER}>'), ("m", f'"{n + i}"^^<{INTEGER}>'), ("l", f'"name {i}"'), ("k", f'"other {i}"')):
            yield f"<http://e/s{i}> <http://e/{name}> {term} .\n"


def main():
    words = argparse.ArgumentParser(description=__doc__.partition("\n")[0])
    words.add_argument("baseline")
    words.add_argument("--spq", default=measure.SPQ)
    words.add_argument("--rows", type=int, default=1_000_000)
    words.add_argument("--runs", type=int, default=9)
    words.add_argument("--workers", type=int, default=1)
    given = words.parse_args()
    programs = [os.path.abspath(it) for it in (given.spq, given.baseline)]
    with tempfile.TemporaryDirectory() as folder:
        document, output = os.path.join(folder, "document.nq"), os.path.join(folder, "output")
        with open(document, "w") as file:
            file.writelines(statements(given.rows))
        found = {}
        for turn in range(given.runs):
            for name, query in {"nothing": NOTHING, **QUERIES}.items():
                for program in programs if turn % 2 else reversed(programs):
                    ran = measure.run([program, "select", "--workers", str(given.workers), "--query", query], document, output, 600)
                    found.setdefault((name, program), []).append(ran.cpu)
    least = {it: min(seconds) for it, seconds in found.items()}
    print("| query | seconds beyond loading | without counting | ratio |\n|---|---|---|---|")
    for name in QUERIES:
        counted, plain = (least[name, it] - least["nothing", it] for it in programs)
        print(f"| {name} | {counted:.3f} | {plain:.3f} | {counted / plain:.3f} |")


if __name__ == "__main__":
    main()
