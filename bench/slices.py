#!/usr/bin/env python3
"""Counts the lines that the loader does not read by their slices, in each shape of document.

    slices.py [--spq PATH] [--quads N] [--workers N] [--shapes NAME,NAME..]

The loader splits a block into slices. If it cannot, or a slice denotes no term, `read_line` of nquads_core reads each line of the
block, which takes longer. gdb counts its calls while `spq check` runs. None is expected, except in the last document: it has a blank
before a language tag. The exit status is 1 if a count is not as expected. Needs gdb, and an executable with symbols.
Python 3 standard library only.
"""
import argparse
import os
import re
import subprocess
import sys
import tempfile

import measure
import shapes

READER = "nquads_core::line::read_line"
LAST = "a blank in a literal"


def slow_lines(options, path):
    """Returns how often `spq check` calls the reader of lines on a document."""
    check = f"run check --workers {options.workers} < {path} > {path}.out"
    words = ["set breakpoint pending off", f"break '{READER}'", "ignore 1 1000000000", check, "info breakpoints"]
    ran = subprocess.run(["gdb", "-q", "-batch", *(f"-ex={it}" for it in words), options.spq], capture_output=True, text=True)
    with open(f"{path}.out") as file:
        if "exited normally" not in ran.stdout or not file.read().startswith("ok "):
            sys.exit(f"gdb could not run {options.spq}: {ran.stderr.strip()[-200:]}")
    hits = re.search(r"breakpoint already hit (\d+) time", ran.stdout)
    return int(hits[1]) if hits else 0


def documents(options, folder):
    """Yields the name, the path and the number of lines of each document."""
    for shape in options.shapes:
        path = measure.dataset(folder, options.quads, shape)
        with open(path, "rb") as file:
            yield shape, path, sum(1 for _ in file)
    path = os.path.join(folder, "last")
    with open(path, "w") as file:
        file.write('<http://e/s> <http://e/p> "x" @en .\n')
    yield LAST, path, 1


def main():
    words = argparse.ArgumentParser(description=__doc__.partition("\n")[0])
    words.add_argument("--spq", default=measure.SPQ)
    words.add_argument("--quads", type=int, default=100_000)
    words.add_argument("--workers", type=int, default=4)
    words.add_argument("--shapes", type=lambda text: text.split(","), default=["catalogue", *shapes.SHAPES])
    options = words.parse_args()
    options.spq = measure.program(options.spq)
    wrong = 0
    with tempfile.TemporaryDirectory() as folder:
        print(measure.row(["document", "lines", "not read by their slices"]))
        print(measure.row(["---"] * 3))
        for name, path, lines in documents(options, folder):
            slow = slow_lines(options, path)
            wrong += slow != (lines if name == LAST else 0)
            print(measure.row([name, f"{lines}", f"{slow}"]), flush=True)
    sys.exit(1 if wrong else 0)


if __name__ == "__main__":
    main()
