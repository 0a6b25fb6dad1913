#!/usr/bin/env python3
"""Measures `spq select` on queries whose results grow with the document, over N subjects and over 2N.

    growth.py [--spq PATH] [--subjects N] [--runs N] [--workers N] [--only TEXT]

Each query runs --runs times over each document, and the least time counts. The time of a query without solutions is
subtracted. The growth is that of the CPU seconds; a growth of 2 is linear. The last column marks queries that grow by
more than 2.6, or take more than a second; the exit status is 1 if there are any.
Python 3 standard library only.
"""
import argparse
import os
import sys
import tempfile

import measure

INTEGER = "http://www.w3.org/2001/XMLSchema#integer"
DECIMAL = "http://www.w3.org/2001/XMLSchema#decimal"
PREFIX = "PREFIX : <http://e/> "
NOTHING = "SELECT ?a { ?a :none ?b }"
MOST_GROWTH = 2.6
MOST_SECONDS = 1.0
LEVELS = 99


def statements(n):
    """Each subject has a number and a score below 1; some have a link, a name, or a class in one of n/10 named graphs."""
    for i in range(n):
        yield f'<http://e/s{i}> <http://e/n> "{i}"^^<{INTEGER}> .\n'
        yield f'<http://e/s{i}> <http://e/d> "0.{i:07}"^^<{DECIMAL}> .\n'
        if i % 2:
            yield f"<http://e/s{i}> <http://e/k> <http://e/s{i * 7 % n}> .\n"
        if i % 3 == 0:
            yield f'<http://e/s{i}> <http://e/l> "name {i}"@en .\n'
        if i % 5 == 0:
            yield f"<http://e/s{i}> <http://e/m> <http://e/c{i % 50}> <http://e/g{i // 10}> .\n"


def nested(opening, closing, inner, levels=LEVELS):
    return opening * levels + inner + closing * levels


def values(variable, terms):
    return f"VALUES ?{variable} {{ {' '.join(terms)} }}"


IN_GRAPHS = "GRAPH ?h { ?a :m ?d }"

QUERIES = {
    # joins, OPTIONAL, MINUS and UNION
    "join of groups": "{ ?a :n ?x } { ?a :k ?b }",
    "two optionals": "?a :n ?x OPTIONAL { ?a :k ?b } OPTIONAL { ?a :l ?l }",
    "optional, filter on the left": "?a :n ?x OPTIONAL { ?a :k ?b FILTER(?x > 10) }",
    "minus after optional": "?a :n ?x OPTIONAL { ?a :l ?l } MINUS { ?a :k ?b }",
    "minus, nothing shared": "?a :n ?x MINUS { ?c :k ?b }",
    "join after union": "{ { ?a :l ?x } UNION { ?a :k ?y } } { ?a :n ?z }",
    "long union": " UNION ".join(f"{{ ?a :n {i} }}" for i in range(300)),
    "optional in optional": nested("OPTIONAL { ?a :n ?x ", "}", "", 20),
    "path of three": "?a :k ?b . ?b :k ?c . ?c :n ?d",
    "blank nodes": "?a :k _:b . _:b :n ?x { ?c :k _:d . _:d :l ?y } FILTER(sameTerm(?a, ?c))",
    # VALUES and IN
    "values": values("x", map(str, range(3000))) + " ?a :n ?x",
    "values, undef": "VALUES (?a ?x) { " + " ".join(f"(:s{i} UNDEF)" for i in range(1000)) + " } ?a :n ?x",
    "long in": "?a :n ?x FILTER(?x IN (" + ",".join(map(str, range(0, 2000, 20))) + "))",
    # equalities
    "equality in optional": "?a :n ?x OPTIONAL { ?b :n ?y FILTER(?a = ?b && ?x = ?y) }",
    "equality of two groups": "{ ?a :n ?x } { ?b :n ?y } FILTER(?x = ?y)",
    "sameTerm of two groups": "{ ?a :k ?x } { ?y :n ?z } FILTER(?z > 5 && sameTerm(?x, ?y))",
    "equality of three groups": "{ ?a :n ?x } { ?b :k ?y } { ?c :l ?z } FILTER(?a = ?y && ?b = ?c)",
    "equality in a second filter": "{ ?a :n ?x } { ?b :n ?y } FILTER(?x > 3) FILTER(?x = ?y && ?y > 2)",
    "equality in parentheses": "{ ?a :n ?x } { ?b :n ?y } FILTER(?x > 3 && (?x = ?y && ?y > 2))",
    "filter over filter": "{ { ?a :n ?x } { ?b :n ?y } FILTER(?x > 3) } FILTER(?x = ?y)",
    "equality of scores": "{ ?a :d ?x } { ?b :d ?y } FILTER(?x = ?y)",
    "STR of two groups": "{ ?a :n ?x } { ?b :n ?y } FILTER(STR(?x) = STR(?y))",
    "STR and a variable": "{ ?a :l ?x BIND(STR(?x) AS ?t) } { ?b :l ?y } FILTER(STR(?y) = ?t)",
    "STR in optional": "?a :k ?x OPTIONAL { ?b :n ?y FILTER(STR(?x) = STR(?b)) }",
    "equality after optional": "{ ?a :n ?x OPTIONAL { ?a :k ?k } } { ?b :n ?y } FILTER(?x = ?y)",
    # named graphs
    "graphs": "GRAPH ?g { ?a :m ?c }",
    "optional in graphs": "GRAPH ?g { ?a :m ?c OPTIONAL { ?a :k ?d } }",
    "values in graphs": "GRAPH ?g { " + values("c", (f":c{i}" for i in range(50))) + " ?a :m ?c }",
    "graphs, joined by name": "GRAPH ?g { ?a :m ?c } ?a :n ?n",
    "graph in graph": "GRAPH ?g { ?a :m ?c " + IN_GRAPHS + " }",
    "the same graph in graph": "GRAPH ?g { ?a :m ?c GRAPH ?g { ?a :m ?d } }",
    "graphs in minus in graph": "?a :n ?x MINUS { GRAPH ?g { ?a :m ?c " + IN_GRAPHS + " } }",
    "union in graphs": "GRAPH ?g { { ?a :m ?c } UNION { ?a :k ?c } }",
    # depth
    "groups": nested("{ ", "}", "?a :m ?c . ?a :n ?x"),
    "graphs in graphs": nested("GRAPH ?g { ", "}", "?a :m ?c"),
    "minus in minus": "?a :n ?x " + nested("MINUS { ?a :n ?x ", "}", "", 30),
    "parentheses": "?a :n ?x FILTER" + nested("(", ")", "?x > 10"),
    "negations": "?a :n ?x FILTER(" + nested("!(", ")", "?x > 10", 98) + ")",
    "optionals in optionals": "?a :n ?x " + nested("OPTIONAL { ?a :n ?x ", "}", ""),
    "minuses in minuses": "?a :n ?x " + nested("MINUS { ?a :n ?x ", "}", ""),
    "unions in unions": nested("{ ?a :m ?c } UNION { ", "}", "?a :k ?c"),
    "filters in groups": nested("{ ", " FILTER(?x > 3) }", "?a :n ?x", 40),
    "a graph in a graph": nested("GRAPH :g7 { ", "}", "?a :m ?c"),
    # operators in named graphs
    "many values in graphs": "GRAPH ?g { " + values("a", (f":s{i}" for i in range(100))) + " ?a :m ?c }",
    "values of names": values("g", (f":g{i}" for i in range(1000))) + " GRAPH ?g { ?a :m ?c }",
    "optional of names": values("g", (f":g{i}" for i in range(1000))) + " OPTIONAL { GRAPH ?g { ?a :m ?c } }",
    "minus of names": values("g", (f":g{i}" for i in range(1000))) + " MINUS { GRAPH ?g { ?a :m :c0 } }",
    "optionals in graphs in minus": "?a :n ?x MINUS { GRAPH ?g { ?a :m ?c OPTIONAL { ?a :m ?d OPTIONAL { ?a :k ?e } } } }",
    "long union in graphs": "GRAPH ?g { " + " UNION ".join(f"{{ ?a :m :c{i} }}" for i in range(10)) + " }",
    "long union of graphs": " UNION ".join(f"{{ GRAPH :g{i} {{ ?a :m ?c }} }}" for i in range(300)),
    "minus in graphs": "GRAPH ?g { ?a :m ?c MINUS { ?a :m :c0 } }",
    "filter in graphs": "GRAPH ?g { ?a :m ?c . ?b :m ?d FILTER(?a != ?b) }",
    "bind in graphs": "GRAPH ?g { ?a :m ?c BIND(STR(?c) AS ?t) }",
    "graph next to graph": "GRAPH ?g { ?a :m ?c } GRAPH ?h { ?a :m ?d }",
    # a GRAPH below an operator below a GRAPH
    "graph and filter in graph": "GRAPH ?g { ?a :m ?c " + IN_GRAPHS + " FILTER(?c != :c1) }",
    "graph and bind in graph": "GRAPH ?g { ?a :m ?c " + IN_GRAPHS + " BIND(STR(?c) AS ?t) }",
    "graph and equality in graph": "GRAPH ?g { ?a :m ?c GRAPH ?h { ?b :m ?d } FILTER(?a = ?b) }",
    "graph and union in graph": "GRAPH ?g { { ?a :m ?c " + IN_GRAPHS + " } UNION { ?a :k ?c } }",
    "graph in optional in graph": "GRAPH ?g { ?a :m ?c OPTIONAL { " + IN_GRAPHS + " } }",
    "graph in minus in graph": "GRAPH ?g { ?a :m ?c MINUS { GRAPH ?h { ?a :m :c5 } } }",
    "graphs between patterns": "".join(f"GRAPH ?g{i} {{ ?a :m ?c{i} . " for i in range(5)) + "?a :m ?d" + " . ?a :m ?e }" * 5,
    # blank nodes
    "blank node path": "_:a :k _:b . _:b :k _:c . _:c :n ?x",
    "blank node with properties": "_:a :n ?x ; :k _:b . _:b :n ?y ; :l ?l",
    "blank nodes of two groups": "{ ?a :k _:b . _:b :n ?x } { ?a :n ?y . _:c :k ?a }",
    # the rest
    "distinct": "?a :n ?x",
    "bind, joined": "?a :n ?x BIND(STR(?x) AS ?t) ?b :n ?x",
    "filter, not bound": "?a :n ?x OPTIONAL { ?a :k ?b } FILTER(!BOUND(?b))",
}


def select(pattern):
    return f"{PREFIX}SELECT {'DISTINCT ?x' if pattern == QUERIES['distinct'] else '*'} {{ {pattern} }}"


def measured(options, path, output, query):
    command = [options.spq, "select", "--workers", options.workers, "--query", query]
    return measure.best(command, path, output, options.runs, 60)


def parsed():
    parser = argparse.ArgumentParser(description=__doc__.split("\n")[0])
    parser.add_argument("--spq", default=measure.SPQ)
    parser.add_argument("--subjects", type=int, default=40_000)
    parser.add_argument("--runs", type=int, default=3)
    parser.add_argument("--workers", default="4")
    parser.add_argument("--only", default="")
    return parser.parse_args()


def main():
    options = parsed()
    marked = 0
    with tempfile.TemporaryDirectory() as folder:
        output = os.path.join(folder, "output")
        paths = []
        for n in (options.subjects, 2 * options.subjects):
            paths.append(os.path.join(folder, f"{n}.nq"))
            with open(paths[-1], "w") as document:
                document.writelines(statements(n))
        loads = [measured(options, path, output, PREFIX + NOTHING) for path in paths]
        print("beyond a query without solutions:          CPU seconds            seconds")
        print(f"{'query':30} {'once':>8} {'twice':>8} {'growth':>7} {'most':>8}", flush=True)
        for name, pattern in QUERIES.items():
            if options.only not in name:
                continue
            try:
                runs = [measured(options, path, output, select(pattern)) for path in paths]
            except measure.Failed as failure:
                print(f"{name:30} {failure}", flush=True)
                marked += 1
                continue
            once, twice = (max(0.0, run.cpu - load.cpu) for run, load in zip(runs, loads))
            waited = max(0.0, *(run.seconds - load.seconds for run, load in zip(runs, loads)))
            # Below 0.02 seconds, most of the figure is the resolution of the clock.
            growth = twice / once if once >= 0.02 else 0.0
            mark = "<--" if growth > MOST_GROWTH or waited > MOST_SECONDS else ""
            marked += bool(mark)
            print(f"{name:30} {once:8.2f} {twice:8.2f} {growth:7.1f} {waited:8.2f}   {mark}", flush=True)
    sys.exit(1 if marked else 0)


if __name__ == "__main__":
    main()
