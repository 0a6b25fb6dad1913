#!/usr/bin/env python3
"""Writes an N-Quads dataset of a given size to standard output: the catalogue of a library, or another shape.

    datasets.py [--shape NAME] QUADS [SEED]

The same arguments give the same bytes. In the catalogue, works, persons and places are in the default graph. The records of each
branch library are in a named graph; a blank node names every fifth graph. It has plain, typed and language-tagged literals, blank
nodes, escapes and non-ASCII text. The other shapes are those of shapes.py; SEED is for the catalogue alone.
Python 3 standard library only.
"""
import argparse
import itertools
import random
import sys

import shapes

BASE = "http://library.example/"
XSD = "http://www.w3.org/2001/XMLSchema#"
TYPE = "<http://www.w3.org/1999/02/22-rdf-syntax-ns#type>"
WORDS = ("river stone amber letter signal orbit velvet harbor lantern garden winter Zürich déjà naïve "
         "Ångström Łódź Ελλάδα Москва 東京 北京 mañana coöperate fjörð").split()
NAMES = "Ana Bo Chloé Dmitri Éva Fátima Günther Hana Ivo José Kaja Liên Nia Olu Petra Søren Tomás".split()
TAGS = ["en", "de", "fr", "ja", "en-GB", "pt-BR"]


def iri(path):
    return f"<{BASE}{path}>"


def plain(text):
    return '"' + text.replace("\\", "\\\\").replace('"', '\\"').replace("\n", "\\n") + '"'


def typed(text, datatype):
    return f'"{text}"^^<{XSD}{datatype}>'


def phrase(dice, least, most):
    words = [dice.choice(WORDS) for _ in range(dice.randint(least, most))]
    odd = dice.randrange(10)
    if odd == 0:
        words.insert(1, 'called "so"')
    elif odd == 1:
        words.insert(1, "a\\b\nc")
    return " ".join(words)


def by_numbers(literal):
    """Replaces the non-ASCII characters of a literal with numeric escapes."""
    return "".join(
        c if ord(c) < 128 else f"\\u{ord(c):04X}" if ord(c) < 0x10000 else f"\\U{ord(c):08X}"
        for c in literal)


def literal(dice, least, most):
    text = plain(phrase(dice, least, most))
    if dice.randrange(10) == 0:
        text = by_numbers(text)
    return text if dice.randrange(2) else f"{text}@{dice.choice(TAGS)}"


def person(dice, n):
    me = f"_:person{n}" if n % 4 == 0 else iri(f"person/{n}")
    yield me, TYPE, iri("terms#Person"), ""
    yield me, iri("terms#name"), plain(f"{dice.choice(NAMES)} {dice.choice(WORDS)} {n}"), ""
    yield me, iri("terms#born"), typed(str(dice.randint(1700, 2000)), "integer"), ""
    yield me, iri("terms#place"), iri(f"place/{dice.randrange(n // 20 + 1)}"), ""


def author(dice, n):
    k = dice.randrange(n + 1)
    return f"_:person{k}" if k % 4 == 0 else iri(f"person/{k}")


def work(dice, n):
    me = iri(f"work/{n}")
    yield me, TYPE, iri("terms#" + dice.choice(["Book", "Score", "Map", "Letter"])), ""
    yield me, iri("terms#title"), literal(dice, 2, 8), ""
    yield me, iri("terms#issued"), typed(str(dice.randint(1800, 2020)), "integer"), ""
    yield me, iri("terms#price"), typed(f"{dice.randrange(1, 900)}.{dice.randrange(100):02}", "decimal"), ""
    for _ in range(dice.randint(1, 3)):
        yield me, iri("terms#creator"), author(dice, n // 3), ""
    for _ in range(dice.randrange(4)):
        yield me, iri("terms#cites"), iri(f"work/{dice.randrange(n + 1)}"), ""
    if dice.randrange(2):
        yield me, iri("terms#summary"), literal(dice, 15, 50), ""


def record(dice, n):
    branch = dice.randrange(n // 50 + 5)
    graph = f"_:branch{branch}" if branch % 5 == 0 else iri(f"branch/{branch}")
    me = iri(f"copy/{n}")
    yield me, iri("terms#of"), iri(f"work/{n}"), graph
    yield me, iri("terms#shelf"), plain(f"{branch}-{dice.randrange(100)}"), graph
    yield me, iri("terms#since"), typed(f"20{dice.randrange(25):02}-0{dice.randint(1, 9)}-11T00:00:00", "dateTime"), graph


def statements(dice):
    n = 0
    while True:
        if n % 3 == 0:
            yield from person(dice, n // 3)
        yield from work(dice, n)
        yield from record(dice, n)
        n += 1


def catalogue(seed):
    """Yields the lines of a catalogue without an end."""
    return (f"{s} {p} {o} {g}{' ' if g else ''}.\n" for s, p, o, g in statements(random.Random(seed)))


def main():
    parser = argparse.ArgumentParser(description=__doc__.split("\n")[0])
    parser.add_argument("--shape", choices=["catalogue", *shapes.SHAPES], default="catalogue")
    parser.add_argument("quads", type=int, metavar="QUADS")
    parser.add_argument("seed", type=int, nargs="?", default=1, metavar="SEED")
    given = parser.parse_args()
    lines = itertools.islice(catalogue(given.seed), given.quads) if given.shape == "catalogue" else shapes.lines(given.shape, given.quads)
    while block := "".join(itertools.islice(lines, 10000)):
        sys.stdout.buffer.write(block.encode())


if __name__ == "__main__":
    main()
