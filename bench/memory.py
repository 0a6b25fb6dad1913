"""The kinds of document for which compare.py measures peak memory, and the peaks.

A document has a number of distinct statements of one kind. `check` counts them. `select` runs a query that can match every
statement, but has few solutions, so that its peak is that of loading all, and not of rows.
"""
import os
import sys

import measure
from measure import Failed

WORKERS = "4"
# Each kind: how pages call it, and its shape (datasets.py).
KINDS = {
    "a catalogue: half of the statements have a new term": "catalogue",
    "links between 2,000 things: no new terms": "links",
    "a new short literal in each statement": "literals",
    "a new short subject and a new short object in each statement": "resources",
    "four new terms in each statement": "new",
}


def few_rows(path):
    """Returns a query that can match every statement, with the solutions of the subject of the first line."""
    with open(path, encoding="utf-8") as file:
        subject = file.readline().split(" ", 1)[0]
    group = f"{subject if subject.startswith('<') else '<http://example.org/none>'} ?p ?o . ?o ?q ?x"
    return f"SELECT ?p {{ {{ {group} }} UNION {{ GRAPH ?g {{ {group} }} }} }} LIMIT 1"


def peaks(spq, quads, folder):
    """Returns for each kind the size of the document and the peak of each command, in bytes for each statement."""
    found = {}
    for kind, shape in KINDS.items():
        print(f"{quads:,} quads: memory, {kind}", file=sys.stderr)
        path = measure.dataset(folder, quads, shape)
        commands = {"check": ["check"], "select": ["select", "--query", few_rows(path)]}
        found[kind] = {"document": os.path.getsize(path) / quads}
        for name, words in commands.items():
            try:
                peak = measure.run([spq, *words, "--workers", WORKERS], path, os.devnull, 600).peak
                found[kind][name] = peak * 2**20 / quads
            except Failed as fault:
                print(f"{name}, {kind}: {fault}")
    return found
