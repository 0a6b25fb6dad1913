#!/usr/bin/env python3
"""Measures the queries of queries.py with rdflib, on a dataset that rdflib parses once.

    rdflib_queries.py [--quads N] [--limit SECONDS] [--folder PATH]

compare.py measures every engine from document to JSON, so rdflib parses the document again for each query. With a
million quads that takes more than a minute per query. Here each query runs in a forked process that starts with the
parsed store and is killed after --limit seconds. `parse and query` is about the time of a run from document to JSON: it
leaves out the start of Python, but includes the copying of pages that the process writes to. The peak memory includes
the store.
Needs rdflib for this Python or the system's (Debian: python3-rdflib).
"""
import argparse
import os
import signal
import sys
import tempfile
import time

import measure
import peers
import rdflib_peer
from queries import PREFIX, QUERIES


def answer(dataset, query, output, limit):
    """Evaluates a query in a child process. Returns the seconds and the peak in MiB, or the failure."""
    start = time.perf_counter()
    child = os.fork()
    if child == 0:
        write_answer(dataset, query, output, limit)
    _, status, usage = os.wait4(child, 0)
    if os.waitstatus_to_exitcode(status) == -signal.SIGALRM:
        return measure.Failed(f"over {limit} s")
    if status:
        return measure.Failed("failed")
    return time.perf_counter() - start, usage.ru_maxrss / 1024


def write_answer(dataset, query, output, limit):
    """Runs in the child process, and ends it in any case: temporary folder and output belong to the parent."""
    status = 1
    try:
        signal.alarm(limit)
        with open(output, "wb") as out:
            out.write(dataset.query(PREFIX + query).serialize(format="json"))
        status = 0
    finally:
        os._exit(status)


def line(name, parsed, result, output):
    if isinstance(result, measure.Failed):
        return [name, "", f"{result}", "", ""]
    seconds, peak = result
    return [name, f"{measure.rows(output)}", f"{seconds:.2f}", f"{parsed + seconds:.2f}", f"{peak:.0f}"]


def main():
    parser = argparse.ArgumentParser(description=__doc__.split("\n")[0])
    parser.add_argument("--quads", type=int, default=1_000_000)
    parser.add_argument("--limit", type=int, default=120, help="seconds after which a query is killed")
    parser.add_argument("--folder", help="keep the dataset here (default: a temporary folder)")
    options = parser.parse_args()
    with tempfile.TemporaryDirectory() as folder:
        path, output = measure.dataset(options.folder or folder, options.quads), os.path.join(folder, "output")
        start = time.perf_counter()
        dataset = rdflib_peer.load(path)
        parsed = time.perf_counter() - start
        print(f"{measure.machine()}\n\n## {options.quads} quads, parsed in {parsed:.1f} s\n", flush=True)
        head = ["query", "rows", "seconds of the query", "parse and query", "peak MiB"]
        answers = ((name, answer(dataset, query, output, options.limit)) for name, query in QUERIES.items())
        measure.table(head, (line(name, parsed, result, output) for name, result in answers))


if __name__ == "__main__":
    python = peers.python_with("rdflib")
    if python is None:
        sys.exit("rdflib is not installed")
    if python != sys.executable:
        os.execv(python, [python, *sys.argv])
    main()
