#!/usr/bin/env python3
"""Measures the ordering and printing of results of several sizes, and their peak memory.

    ordering.py [--spq PATH] [--rows N,N..] [--runs N] [--workers N]

A result has N rows of two bindings over N / 5 IRIs, which occur in the document in random order. The script uses the
probes of phases.py and has the same requirements. It prints the least time and the median of --runs runs. One more run
without probes measures the peak memory, which includes loading.
Python 3 standard library only.
"""
import argparse
import os
import random
import statistics
import tempfile

import measure
import phases

QUERY = "SELECT ?s ?o { ?s <http://library.example/terms#cites> ?o }"


def write_pairs(path, rows):
    """Writes `rows` statements of one predicate. Subjects and objects are drawn from `rows / 5` IRIs."""
    dice = random.Random(7)
    seen = set()
    with open(path, "w") as out:
        while len(seen) < rows:
            pair = dice.randrange(rows // 5), dice.randrange(rows // 5)
            if pair not in seen:
                seen.add(pair)
                subject, other = (f"<http://library.example/work/{it}>" for it in pair)
                out.write(f"{subject} <http://library.example/terms#cites> {other} .\n")


def line(options, folder, rows):
    path = f"{folder}/pairs.nq"
    write_pairs(path, rows)
    outputs = [phases.phases(options, path, folder, QUERY)[1] for _ in range(options.runs)]
    size = os.path.getsize(f"{folder}/output")
    command = [options.spq, "select", "--workers", options.workers, "--query", QUERY]
    peak = measure.run(command, path, f"{folder}/output", 600).peak
    return [f"{measure.rows(f'{folder}/output')}", f"{size / 1e6:.0f}", f"{min(outputs):.3f}",
            f"{statistics.median(outputs):.3f}", f"{peak:.0f}", f"{peak * 2 ** 20 / size:.1f}"]


def main():
    parser = argparse.ArgumentParser(description=__doc__.split("\n")[0])
    parser.add_argument("--spq", default=measure.SPQ)
    parser.add_argument("--rows", default="250000,500000,1000000,2000000")
    parser.add_argument("--runs", type=int, default=5)
    parser.add_argument("--workers", default="4")
    options = parser.parse_args()
    options.spq = measure.program(options.spq)
    phases.set_probes(options.spq)
    print(f"{measure.machine()}, {options.workers} workers, best of {options.runs}\n")
    head = ["rows", "MB of JSON", "seconds of ordering and printing", "median", "peak MiB", "peak / size of the JSON"]
    with tempfile.TemporaryDirectory() as folder:
        measure.table(head, [line(options, folder, rows) for rows in map(int, options.rows.split(","))])


if __name__ == "__main__":
    main()
