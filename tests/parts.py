#!/usr/bin/env python3
"""Checks docs/PARTS.md on random documents: the results for the parts of a document are the result for the document.

    parts.py [PROGRAM] [--count N] [--seed N]

Each case makes a small document, cuts it in one of the page's four ways, and makes a query that may be split in
that way. It compares the rows of all parts, with repeats, with the rows of the whole. It also compares the first
malformed line, and the lists of terms. Python 3 standard library only.
"""
import argparse
import collections
import json
import os
import random
import subprocess
import sys

HERE = os.path.dirname(os.path.abspath(__file__))
PREFIX = "PREFIX e: <http://e/> "


def node(dice):
    return dice.choice(["<http://e/a>", "<http://e/b>", "<http://e/c>", "_:x", "_:y"])


def quads(dice):
    """Returns distinct statements as their four N-Quads forms; the fourth is empty in the default graph."""
    objects = ['"1"', '"2"', '"x"@en', '"5"^^<http://www.w3.org/2001/XMLSchema#integer>']
    made = set()
    for _ in range(dice.choice([3, 8, 20])):
        thing = dice.choice(objects) if dice.randrange(2) else node(dice)
        graph = dice.choice(["", "", "<http://e/g>", "<http://e/h>", "_:g"])
        made.add((node(dice), dice.choice(["<http://e/p>", "<http://e/q>"]), thing, graph))
    return sorted(made, key=lambda _: dice.random())


def text(statements):
    return "".join(f"{s} {p} {o} {g}{' ' if g else ''}.\n" for s, p, o, g in statements)


def by(statements, key, dice):
    """Returns parts in which all quads of one key are together."""
    places = collections.defaultdict(lambda: dice.randrange(3))
    parts = [[], [], []]
    for quad in statements:
        parts[places[key(quad)]].append(quad)
    return parts


class Queries:
    """Random groups by the rules of the page."""

    def __init__(self, dice):
        self.dice = dice

    def variable(self):
        return self.dice.choice(["?a", "?b", "?c"])

    def place(self):
        return self.dice.choice([self.variable(), self.variable(), "e:a", "_:l", "[]", "'1'", "5"])

    def triple(self, subject):
        return f"{subject} {self.dice.choice(['e:p', 'e:q', '?b'])} {self.place()} ."

    def condition(self):
        return "FILTER(" + self.dice.choice(
            ["?a = ?b", "BOUND(?c)", "!BOUND(?a)", "?c < 7", "isIRI(?b) || ?a != ?c", "SAMETERM(?a, ?c)"]) + ")"

    def row_by_row(self):
        """Returns an element that depends on one row at a time."""
        return self.dice.choice(["", "", self.condition(), "VALUES ?a { e:a '1' UNDEF }", "BIND(STR(?a) AS ?z)"])

    def any_cut(self):
        """Returns a UNION with one triple, perhaps in GRAPH, on each side."""
        def side():
            one = self.triple(self.dice.choice(["?a", "_:k", "e:b"]))
            one = self.dice.choice([one, f"GRAPH ?g {{ {one} }}", f"GRAPH e:g {{ {one} }}"])
            return "{ " + one + " " + self.row_by_row() + " }"
        return " UNION ".join(side() for _ in range(self.dice.randint(1, 3)))

    def keyed(self, subject, depth, is_in_graph=False):
        """Returns a group in which each part begins with a triple of this subject. No GRAPH is in another."""
        made = self.triple(subject)
        for _ in range(self.dice.randrange(4)):
            if depth == 0:
                made += " " + self.triple(subject)
                continue
            inner = lambda is_graph=is_in_graph: "{ " + self.keyed(subject, depth - 1, is_graph) + " }"
            made += " " + self.dice.choice([
                self.triple(subject), self.condition(), "OPTIONAL " + inner(), "MINUS " + inner(), inner(),
                inner() + " UNION " + inner(), inner() if is_in_graph else "GRAPH ?g " + inner(True), "VALUES ?a { e:a '1' UNDEF }"])
        return made

    def free(self, depth):
        """Returns any group without GRAPH."""
        made = ""
        for _ in range(self.dice.randrange(4)):
            inner = lambda: "{ " + self.free(depth - 1) + " }" if depth else "{ " + self.triple("?a") + " }"
            made += " " + self.dice.choice([
                self.triple(self.variable()), self.condition(), "OPTIONAL " + inner(), "MINUS " + inner(), inner(),
                inner() + " UNION " + inner(), "VALUES ?b { e:a '1' UNDEF }"])
        return made

    def beside_the_default(self, depth):
        """Returns a group of the default graph and of GRAPH ?k."""
        named = "GRAPH ?k { " + self.free(1) + " }"
        front = self.triple(self.variable()) if self.dice.randrange(2) else ""
        if front and self.dice.randrange(3) == 0:
            front += " OPTIONAL { " + self.free(1) + " }"
        made = front + " " + named
        for _ in range(self.dice.randrange(4)):
            default = lambda: "{ " + self.free(1) + " }"
            inner = lambda: "{ " + (self.beside_the_default(depth - 1) if depth else named) + " }"
            made += " " + self.dice.choice([
                self.triple(self.variable()), self.condition(), "OPTIONAL " + default(), "MINUS " + default(), default(),
                "OPTIONAL " + inner(), "MINUS " + inner(), inner(), inner() + " UNION " + inner()])
        return made


def label_once(query):
    """Renames the labels, because a label may occur in only one basic graph pattern."""
    parts = query.split("_:l")
    return parts[0] + "".join(f"_:l{n}{part}" for n, part in enumerate(parts[1:]))


def case(dice):
    """Returns a document, its parts, and a query that may be split in this way."""
    statements, make = quads(dice), Queries(dice)
    kind = dice.randrange(5)
    if kind == 0:
        return kind, statements, by(statements, lambda quad: quad, dice), make.any_cut()
    if kind == 1:
        group = "GRAPH " + dice.choice(["?g", "e:g"]) + " { " + make.free(2) + " }"
        return kind, statements, by(statements, lambda quad: quad[3], dice), group
    if kind == 2:
        return kind, statements, by(statements, lambda quad: quad[0], dice), make.keyed("?k", 2)
    if kind == 3:
        group = make.keyed("?k", 2).replace("?k ", "?m ")
        group = "GRAPH ?k { " + group + " }"
        for _ in range(dice.randrange(3)):
            inner = "{ GRAPH ?k { " + make.free(1) + " } }"
            group += " " + dice.choice(["OPTIONAL ", "MINUS ", "", inner + " UNION "]) + inner
        group = group.replace("GRAPH ?g {", "{")
        return kind, statements, by(statements, lambda quad: quad[3], dice), group
    default = [quad for quad in statements if not quad[3]]
    named = by([quad for quad in statements if quad[3]], lambda quad: quad[3], dice)
    return kind, statements, [default + part for part in named], make.beside_the_default(1)


class Program:
    def __init__(self, path):
        self.path = path

    def run(self, words, document):
        ran = subprocess.run([self.path, *words], input=document.encode(), stdout=subprocess.PIPE)
        return ran.returncode, ran.stdout.decode()

    def rows(self, query, document):
        """Returns the rows of a result, each as its text, or None if the query is rejected."""
        status, said = self.run(["select", "--query", PREFIX + query], document)
        if status:
            return None
        return collections.Counter(json.dumps(row, sort_keys=True) for row in json.loads(said)["results"]["bindings"])


def try_case(program, dice, kinds):
    kind, statements, parts, group = case(dice)
    query = "SELECT * { " + label_once(group) + " }"
    whole = program.rows(query, text(statements))
    if whole is None:
        kinds["rejected"] += 1
        return None
    kinds[kind] += 1
    kinds[f"{kind} with rows"] += bool(whole)
    together = sum((program.rows(query, text(part)) for part in parts), collections.Counter())
    if together == whole:
        return None
    return f"{query}\n{text(statements)}parts: {parts}\nwhole: {whole}\nparts: {together}"


def try_lines(program, dice):
    """Compares the first malformed line and the terms of a document that is cut after line feeds."""
    lines = [text([quad]) for quad in quads(dice)]
    lines = [line[:-1] + dice.choice(["\n", "\n", "\r\n", "\r"]) for line in lines]
    for _ in range(dice.randrange(3)):
        lines.insert(dice.randrange(len(lines) + 1), dice.choice(["x\n", "\r\n", "x\r", "# c\n"]))
    pieces, begun = [], ""
    for line in lines:
        begun += line
        if line.endswith("\n") and dice.randrange(2):
            pieces, begun = pieces + [begun], ""
    pieces.append(begun)
    document = "".join(pieces)
    status, said = program.run(["terms"], document)
    listed, before = [], 0
    for piece in pieces:
        part_status, part_said = program.run(["terms"], piece)
        if part_status == 1:
            wanted = 1, f"error: line {before + int(part_said.split()[-1])}\n"
            break
        listed += part_said.splitlines()
        before += piece.count("\n") + piece.count("\r") - piece.count("\r\n")
    else:
        wanted = 0, "".join(f"{term}\n" for term in dict.fromkeys(listed))
    return None if wanted == (status, said) else f"{document!r}\n{pieces}\n{wanted}\n{(status, said)}"


def main():
    words = argparse.ArgumentParser(description=__doc__.split("\n")[0])
    words.add_argument("program", nargs="?", default=os.path.join(HERE, "..", "crates", "spq", "out", "spq"))
    words.add_argument("--count", type=int, default=1000)
    words.add_argument("--seed", type=int, default=1)
    given = words.parse_args()
    if not os.path.exists(given.program):
        sys.exit(f"no program at {given.program}: build it first (see README)")
    program, kinds, failed = Program(os.path.abspath(given.program)), collections.Counter(), 0
    for n in range(given.count):
        dice = random.Random(f"{given.seed}:{n}")
        for trouble in (try_case(program, dice, kinds), try_lines(program, dice)):
            if trouble:
                failed += 1
                print(f"case {n}: {trouble}\n", flush=True)
    print(f"{given.count} cases, {failed} differ; {dict(sorted(kinds.items(), key=str))}")
    sys.exit(1 if failed else 0)


if __name__ == "__main__":
    main()
