#!/usr/bin/env python3
"""Measures two phases of `spq select`: the evaluation of a query, and the ordering and printing of its solutions.

    phases.py [--spq PATH] [--quads N,N..] [--runs N] [--workers N] [--only TEXT] [--folder PATH]

queries.py subtracts the time of loading, so a query that takes much less time than loading is lost in the noise. This
script sets probes on functions of the program. They record when the evaluation begins and ends, and when the last
byte of the result has been composed. Each query runs --runs times, and the least time of each phase counts.
Needs Linux, root, perf, tracefs at /sys/kernel/tracing, binutils, and an executable with symbols.
Python 3 standard library only.
"""
import os
import re
import subprocess
import sys
import tempfile

import measure
from queries import PAIRS, PREFIX, QUERIES

EVENTS = "/sys/kernel/tracing/uprobe_events"
EVALUATION, PRINTING = "sparql_eval::evaluator::Evaluator::solve", "result_json::results::to_json"


def output_of(*command):
    return subprocess.run(command, capture_output=True, text=True, check=True).stdout


def offset(program, function):
    """Returns the offset of a function's code in the program's file."""
    address = re.search(rf"(?m)^(\w+) t {re.escape(function)}\b", output_of("nm", program))
    segment = re.search(r"(?m)^\s*LOAD\s+(\w+)\s+(\w+)\s.*R E", output_of("readelf", "-lW", program))
    if not address or not segment:
        sys.exit(f"{program} has no symbol {function}")
    return int(address[1], 16) - int(segment[2], 16) + int(segment[1], 16)


def set_probes(program):
    """Sets probes at the start and the end of both functions, and removes all other probes."""
    lines = [""]
    for name, function in (("evaluation", EVALUATION), ("printing", PRINTING)):
        at = f"{os.path.abspath(program)}:0x{offset(program, function):x}"
        lines += [f"p:spq/{name}_begins {at}", f"r:spq/{name}_ends {at}"]
    for line in lines:
        subprocess.run(["sh", "-c", f"echo '{line}' {'>>' if line else '>'} {EVENTS}"], check=True)


def phases(options, path, folder, query):
    """Returns seconds of one run: from the first start of the evaluation to its last end, and on to the last byte."""
    record = ["perf", "record", "-q", "-o", f"{folder}/perf", "-e", "spq:*"]
    select = [options.spq, "select", "--workers", options.workers, "--query", query]
    with open(path, "rb") as document, open(f"{folder}/output", "wb") as output:
        subprocess.run(record + select, stdin=document, stdout=output, stderr=subprocess.DEVNULL, check=True)
    times = {}
    events = output_of("perf", "script", "-i", f"{folder}/perf", "-F", "time,event")
    for time, event in re.findall(r"([\d.]+):\s+spq:(\w+)", events):
        if event != "evaluation_begins" or event not in times:
            times[event] = float(time)
    evaluated = times["evaluation_ends"]
    return evaluated - times["evaluation_begins"], times["printing_ends"] - evaluated


def line(name, result, before):
    rows, evaluation, output = result
    cells = [name, f"{rows}", f"{evaluation:.3f}", f"{output:.3f}"]
    if before is None:
        return cells + ["", "", ""]
    return cells + [f"{rows / before[0]:.1f}", f"{evaluation / before[1]:.1f}", f"{output / before[2]:.1f}"]


def main():
    options = measure.query_options(__doc__.split("\n")[0], "1200000,3600000")
    set_probes(options.spq)
    print(f"{measure.machine()}\n")
    before = {}
    head = ["query", "rows", "evaluation", "ordering and printing"]
    head += [f"growth of {it}" for it in ("rows", "evaluation", "ordering and printing")]
    with tempfile.TemporaryDirectory() as folder:
        for quads in map(int, options.quads.split(",")):
            path = measure.dataset(options.folder or folder, quads)
            found = {}
            for name, query in {**QUERIES, **PAIRS}.items():
                if options.only in name:
                    runs = [phases(options, path, folder, PREFIX + query) for _ in range(options.runs)]
                    found[name] = measure.rows(f"{folder}/output"), *map(min, zip(*runs))
            print(f"## {quads} quads, {options.workers} workers, best of {options.runs}, seconds\n")
            measure.table(head, [line(name, result, before.get(name)) for name, result in found.items()])
            before = found


if __name__ == "__main__":
    main()
