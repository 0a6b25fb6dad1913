#!/usr/bin/env python3
"""Measures `spq select` on queries over datasets of several sizes, and prints how the time grows with the size.

    queries.py [--spq PATH] [--quads N,N..] [--runs N] [--workers N] [--only TEXT] [--folder PATH]

Each query runs --runs times on each dataset of datasets.py, and the least time counts. The time of `SELECT * {}`,
which reads the dataset, keeps no statement and returns one row, is subtracted; the rest is keeping the statements that
the query needs, the query, and its output. `SELECT * {}` runs before each query, and the least of all its times counts.
The growth is that of CPU seconds, which other work on the machine affects least. A query whose rows grow by ten should
take about ten times as long.
A dataset of 1,200,000 quads has about 97,000 works, so `join` joins two lists of 97,000 rows there.
Python 3 standard library only.
"""
import os
import sys
import tempfile

import measure

PREFIX = "PREFIX l: <http://library.example/terms#> "

# Queries whose time should be linear in their input and output. The last one mostly computes.
QUERIES = {
    "one triple": "SELECT ?w ?t { ?w l:title ?t }",
    "star of five": "SELECT ?w ?t ?i ?p ?c { ?w a l:Book ; l:title ?t ; l:issued ?i ; l:price ?p ; l:creator ?c }",
    "path of four": "SELECT ?a ?e { ?a l:cites ?b . ?b l:cites ?c . ?c l:creator ?d . ?d l:place ?e }",
    "triangle": "SELECT ?a ?b ?c { ?a l:cites ?b . ?b l:cites ?c . ?a l:cites ?c }",
    "optional, filter": "SELECT ?w ?p { ?w l:title ?t OPTIONAL { ?w l:price ?p FILTER(?p < 100.0) } }",
    "minus": "SELECT ?w { ?w l:title ?t MINUS { ?w l:summary ?s } }",
    "minus, nothing shared": "SELECT ?a { ?a a l:Map MINUS { ?b a l:Score } }",
    "join": "SELECT ?w ?t ?i { { ?w l:title ?t } { ?w l:issued ?i } }",
    "join, an open key": "SELECT ?a ?i { { { ?a a l:Map } UNION { <http://library.example/work/1> l:issued ?i } } { ?a l:issued ?i } }",
    "union, distinct": "SELECT DISTINCT ?x { { ?w l:creator ?x } UNION { ?x a l:Person } }",
    "graphs": "SELECT ?g ?c ?w { GRAPH ?g { ?c l:of ?w } }",
    "filter, graphs": "SELECT ?g ?w ?p { ?w l:price ?p FILTER(?p > 890) GRAPH ?g { ?c l:of ?w } }",
    "values, in": "SELECT ?w ?t { VALUES ?k { l:Map l:Score } ?w a ?k ; l:issued ?i ; l:title ?t FILTER(?i IN (1900, 1901)) }",
    "bind": "SELECT ?x { ?w l:title ?t BIND(STR(?w) AS ?x) }",
    "long filter": "SELECT ?w { ?w l:price ?p FILTER(?p IN (%s)) }" % ", ".join(f"{n}.0" for n in range(1, 100)),
}

# Queries whose solutions, or the pairs that a condition has to test, grow with the square of the dataset.
PAIRS = {
    "cross product": "SELECT ?a ?b { ?a l:issued 1900 . ?b l:issued 1901 }",
    "join by <": "SELECT ?a ?b { { ?a l:issued 1900 ; l:price ?p } { ?b l:issued 1901 ; l:price ?q } FILTER(?p < ?q) }",
}

# A join for which spq tests every pair of rows, although few are compatible: ?a and ?i are unbound in many rows.
NO_KEY = {
    "join, two open keys": "SELECT ?a ?i { { { ?a a l:Map } UNION { ?p l:place ?i } } { ?a l:issued ?i } }",
}


def measured(options, path, output, chosen):
    """Measures loading, and each query in addition to loading. A query maps to its figures or its failure."""

    def select(query):
        command = [options.spq, "select", "--workers", options.workers, "--query", query]
        return measure.best(command, path, output, options.runs)

    loads, answers = [], {}
    for name, query in chosen.items():
        try:
            loads.append(select("SELECT * {}"))
        except measure.Failed as failure:
            sys.exit(f"SELECT * {{}}: {failure}")
        try:
            answers[name] = select(PREFIX + query), measure.rows(output)
        except measure.Failed as failure:
            answers[name] = failure
    load = measure.least(loads)
    return load, {name: beyond(load, answer) for name, answer in answers.items()}


def beyond(load, answer):
    """Returns the number of rows, seconds and CPU seconds in addition to loading, and the peak; or the failure."""
    if isinstance(answer, measure.Failed):
        return answer
    it, rows = answer
    return rows, max(it.seconds - load.seconds, 0.0), max(it.cpu - load.cpu, 0.0), it.peak


def line(name, result, before):
    if isinstance(result, measure.Failed):
        return [name, str(result), "", "", "", "", ""]
    rows, seconds, cpu, peak = result
    cells = [name, f"{rows}", f"{seconds:.3f}", f"{cpu:.3f}", f"{peak:.0f}"]
    if before is None or isinstance(before, measure.Failed):
        return cells + ["", ""]
    # Below 0.02 seconds, most of the figure is the resolution of the clock.
    grown = f"{cpu / before[2]:.1f}" if before[2] >= 0.02 else "too short"
    return cells + [f"{rows / before[0]:.1f}" if before[0] else "", grown]


def main():
    options = measure.query_options(__doc__.split("\n")[0], "120000,1200000")
    chosen = {name: query for name, query in {**QUERIES, **PAIRS, **NO_KEY}.items() if options.only in name}
    print(f"{measure.machine()}\n")
    before = {}
    with tempfile.TemporaryDirectory() as folder:
        for quads in map(int, options.quads.split(",")):
            path = measure.dataset(options.folder or folder, quads)
            load, found = measured(options, path, os.path.join(folder, "output"), chosen)
            print(f"## {quads} quads, {options.workers} workers, best of {options.runs}")
            print(f"\nLoaded in {load.seconds:.3f} s, {load.cpu:.3f} s of CPU time, {load.peak:.0f} MiB.\n")
            head = ["query", "rows", "seconds", "CPU seconds", "peak MiB", "growth of rows", "growth of CPU seconds"]
            measure.table(head, [line(name, result, before.get(name)) for name, result in found.items()])
            before = found


if __name__ == "__main__":
    main()
