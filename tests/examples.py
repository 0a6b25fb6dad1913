#!/usr/bin/env python3
"""Runs the examples of tests/examples on the built program.

    tests/examples.py SPQ [FILE ..]

A file tests/examples/TOPIC.toml has rows, and the names of their columns:

    name        what the row shows
    document    the standard input: a text, or a name in the file's table `documents`
    words       the words of the command line, as a list or with spaces between them
    query       the query, which is the word after these
    output      the whole standard output
    solutions   the solutions of a query in their order, each as `x=<http://e/a> y="1"` (N-Quads terms, unbound variables
                left out), with `; ` between them; a solution without bindings is `{}`, or nothing among others
    error       the whole standard error
    begins      how standard error begins
    has         texts that standard error has, as a list
    status      the exit status: 0 if a row does not say it

A column that all rows share is above the rows, as a key of the file. A file can have these keys, too:

    before      a text before each query, or before each document if there are no queries; likewise `after`
    ways        lists of words: each row is run once with each of them, as its last words. The result must be the same
    messages    a text in place of columns and rows: blocks of lines, with an empty line between two blocks. The first line is the
                query if the words end with `--query`, or else the document. The others are the whole standard error, of which the
                first one is the standard output, too; or `no message`, if the status is 0 and standard error is empty

In documents, queries and messages `‹E9›` is the byte E9, and `‹›` is no byte. The script prints each row that is wrong, and the
number of rows. The exit status is 1 if a row is wrong.
"""
import glob
import json
import os
import re
import subprocess
import sys
import tomllib
from concurrent.futures import ThreadPoolExecutor

ROOT = os.path.dirname(os.path.dirname(os.path.abspath(__file__)))
COLUMNS = {"name", "document", "words", "query", "output", "solutions", "error", "begins", "has", "status"}
ESCAPES = str.maketrans({"\\": "\\\\", '"': '\\"', "\n": "\\n", "\r": "\\r"})
# The seconds that a run may take. A run takes milliseconds; the limit is for a machine that is busy.
LIMIT = 120


def decoded(text):
    """Returns the bytes of a text: `‹E9›` is the byte E9, and `‹›` is no byte."""
    return b"".join(bytes.fromhex(part) if at % 2 else part.encode() for at, part in enumerate(re.split("‹([0-9A-F]*)›", text)))


def blocks(text, shared):
    """Returns the rows of a text of messages."""
    inputs = "query" if shared["words"].endswith("--query") else "document"
    for block in text.strip("\n").split("\n\n"):
        given, _, said = block.partition("\n")
        if not said:
            sys.exit(f"{given}: there is no message")
        if said == "no message":
            yield {inputs: given, "error": "", "status": 0}
        else:
            said = decoded(said).decode() + "\n"
            yield {inputs: given, "error": said} | ({"output": said.partition("\n")[0] + "\n"} if shared.get("status") else {})


def rows_of(path):
    """Returns the rows of a file, each as a table of its columns, once for each way."""
    with open(path, "rb") as file:
        read = tomllib.load(file)
    documents, ways = read.pop("documents", {}), read.pop("ways", [""])
    before, after = read.pop("before", ""), read.pop("after", "")
    columns, rows, messages = read.pop("columns", []), read.pop("rows", []), read.pop("messages", "")
    unknown = (set(read) | set(columns)) - COLUMNS
    if unknown or any(len(row) != len(columns) for row in rows):
        sys.exit(f"{path}: {f'unknown columns {unknown}' if unknown else 'a row is not as long as the columns'}")
    for row in [dict(zip(columns, row)) for row in rows] + (list(blocks(messages, read)) if messages else []):
        row = {"document": "", **read, **row}
        row["document"] = documents.get(row["document"], row["document"])
        inputs = "query" if "query" in row else "document"
        row[inputs] = before + row[inputs] + after
        for way in ways:
            yield row | {"way": way}


def term(cell):
    """Returns the N-Quads form of a term in the JSON of the results."""
    if cell["type"] == "uri":
        return f"<{cell['value']}>"
    if cell["type"] == "bnode":
        return f"_:{cell['value']}"
    tag = f"@{cell['xml:lang']}" if "xml:lang" in cell else f"^^<{cell['datatype']}>" if "datatype" in cell else ""
    return f'"{cell["value"].translate(ESCAPES)}"{tag}'


def solutions(output):
    """Returns the solutions in the JSON of the results, as a row writes them."""
    read = json.loads(output)
    names = read["head"]["vars"]
    return "; ".join(" ".join(f"{it}={term(found[it])}" for it in names if it in found) or "{}" for found in read["results"]["bindings"])


def words_of(row):
    """Returns the words of a command line."""
    words, query, way = (row.get(it, "") for it in ("words", "query", "way"))
    listed = [it.split() if isinstance(it, str) else list(it) for it in (words, way)]
    return listed[0] + ([decoded(query)] if "query" in row else []) + listed[1]


def wrong(program, row):
    """Runs a row. Returns the first of its columns that is wrong, with what was found, or None."""
    ran = subprocess.run([program, *words_of(row)], input=decoded(row["document"]), capture_output=True, timeout=LIMIT)
    output, error = ran.stdout.decode(), ran.stderr.decode()
    if ran.returncode != row.get("status", 0):
        return "status", ran.returncode, error
    for column, found in (("output", output), ("error", error)):
        if column in row and row[column] != found:
            return column, found, error
    if "begins" in row and not error.startswith(row["begins"]):
        return "begins", error, error
    if any(text not in error for text in row.get("has", [])):
        return "has", error, error
    if "solutions" in row and "; ".join(it or "{}" for it in row["solutions"].split("; ") if row["solutions"]) != solutions(output):
        return "solutions", solutions(output), error
    return None


def main():
    if len(sys.argv) < 2:
        sys.exit(__doc__.strip())
    program = os.path.abspath(sys.argv[1])
    paths = sys.argv[2:] or sorted(glob.glob(f"{ROOT}/tests/examples/*.toml"))
    named = [(os.path.basename(path), row) for path in paths for row in rows_of(path)]
    with ThreadPoolExecutor() as lanes:
        found = list(lanes.map(lambda it: wrong(program, it[1]), named))
    faults = [(path, row, fault) for (path, row), fault in zip(named, found) if fault]
    for path, row, (column, seen, error) in faults:
        print(f"{path}: {row.get('name') or row.get('query') or row['document']} {row['way']}\n  {column}: {seen!r}\n  expected: {row.get(column, 0)!r}\n  {error.strip()}")
    print(f"{len(named)} examples, {len(faults)} wrong")
    return 1 if faults or not named else 0


if __name__ == "__main__":
    sys.exit(main())
