#!/usr/bin/env python3
"""Runs the commands that the documents show, and compares what is printed with what they show.

    tour.py [PROGRAM] [--only WORD] [--write] [--gate]
    tour.py --covered

PROGRAM is the program (crates/spq/out/spq where none is given). The commands are those of the blocks that begin with
```console in the pages, which are all files *.md: a line `$ COMMAND`, which lines `> REST` continue, and below it what it
prints at a terminal, on standard output and on standard error. The commands of a page run in one shell, in a folder with the
files of docs/tour and with the program on the PATH as `spq`. They need jq, gzip, GNU parallel and serdi.
`--write` puts what was printed into the pages. With `--gate` one line says so if one of these programs is missing, and that is no error.

A block to paste begins with ```sh, and a block ```text right after it has what it prints. It runs in a shell of its own, in a
folder that has docs/tour, with the program in ~/.local/bin.

Each other block of commands has to be in NOT_RUN, with the reason why it is not run. `--covered` checks only this, and needs
no program.

The examples in the tables of docs/DIAGNOSTICS.md are run too: each line or query has to give the column and the
reason that its row says. Python 3 standard library only.
"""
import argparse
import os
import re
import shutil
import subprocess
import sys
import tempfile

import terminal

HERE = os.path.dirname(os.path.abspath(__file__))
ROOT = os.path.dirname(HERE)
MARK = "-- next command --"
NEEDED = ["jq", "gzip", "parallel", "serdi"]
# The blocks of commands that are not run: the page, a text that no other such block of the page has, and the reason.
NOT_RUN = [
    ("README.md", "./install ", "proves and builds the program"),
    ("README.md", ".ci/run ", "the gate itself"),
    ("bench/README.md", "apt-get install raptor2-utils", "installs packages"),
    ("bench/README.md", "bench/compare.py --tables shapes", "benchmarks"),
    ("bench/README.md", "bench/compare.py --baseline", "benchmarks"),
    ("bench/README.md", "just measure", "benchmarks"),
    ("bench/README.md", "bench/queries.py --only join", "benchmarks"),
    ("distributed/README.md", "spq-dask terms ", "the forms of the command line"),
    ("distributed/README.md", "apt-get install python3-distributed", "installs packages; needs Dask"),
    ("distributed/README.md", "dask-scheduler --host", "needs Dask and other machines"),
    ("distributed/README.md", "spq-dask check --scheduler", "needs Dask and other machines"),
    ("distributed/README.md", "distributed/tests/run out/spq out/spq-part", "the tests of spq-dask"),
    ("docs/PARTS.md", "spq-dask check --quiet", "distributed/tests/test_commands.py runs them; needs Dask"),
    ("docs/GUIDE.md", "systemd-run --user", "needs systemd"),
]
# A block of commands and what it holds. It may be in a list.
BLOCK = re.compile(r"^ *```(?:sh|bash|shell|console)\b[^\n]*\n(.*?)^ *```$", re.S | re.M)


class Command:
    def __init__(self, line, text, is_pasted=False):
        self.line, self.text, self.is_pasted, self.shown, self.printed = line, text, is_pasted, [], []
        self.head = line  # what is shown begins on the next line


def commands(lines):
    """The commands of a page, each with the lines that are shown below it."""
    found, inside = [], False
    for number, line in enumerate(lines, 1):
        if line.startswith("```"):
            inside = line == "```console"
        elif inside and line.startswith("$ "):
            found.append(Command(number, line[2:]))
        elif inside and line.startswith("> ") and not found[-1].shown:
            found[-1].text += "\n" + line[2:]
            found[-1].head += 1
        elif inside:
            found[-1].shown.append(line)
    return found


def pasted(lines):
    """The blocks to paste of a page, each with the lines that are shown in the block after it."""
    found = []
    for block in re.finditer(r"^```sh\n((?:(?!```).)*)\n```\n\n```text\n((?:(?!```).)*)\n```$", "\n".join(lines), re.S | re.M):
        command = Command(block.string.count("\n", 0, block.start(1)) + 1, block[1], is_pasted=True)
        command.head = block.string.count("\n", 0, block.start(2))
        command.shown = block[2].split("\n")
        found.append(command)
    return found


def pages():
    """Returns the paths of the pages. README.md comes first."""
    found = []
    for place, folders, files in os.walk(ROOT):
        folders[:] = [folder for folder in folders if folder not in (".git", "out")]
        found += [os.path.relpath(os.path.join(place, file), ROOT) for file in files if file.endswith(".md")]
    return sorted(found, key=lambda page: (page != "README.md", page))


def lines_of(page):
    with open(os.path.join(ROOT, page)) as source:
        return source.read().split("\n")


def found_in(lines):
    """Returns the commands and the blocks to paste of a page, in their order."""
    return sorted(commands(lines) + pasted(lines), key=lambda command: command.head)


def uncovered():
    """Returns how many blocks of commands are neither run nor in NOT_RUN, and how many entries are not of one block. Prints them."""
    total, left, blocks = 0, [], {entry: 0 for entry in NOT_RUN}
    for page in pages():
        lines = lines_of(page)
        run_lines = {command.line for command in found_in(lines)}
        text = "\n".join(lines)
        for block in BLOCK.finditer(text):
            total += 1
            first, last = (text.count("\n", 0, place) + 1 for place in block.span(1))
            if run_lines.intersection(range(first, last)):
                continue
            entries = [entry for entry in NOT_RUN if entry[0] == page and entry[1] in block[1]]
            for entry in entries:
                blocks[entry] += 1
            if not entries:
                left.append(f"{page}:{first}: is neither run nor in NOT_RUN: {lines[first - 1].strip()}")
    left += [f"NOT_RUN: {entry[:2]} is in {count} blocks that are not run" for entry, count in blocks.items() if count != 1]
    print("\n".join([*left, f"{total} blocks of commands: {len(NOT_RUN)} are in NOT_RUN, {len(left)} errors"]))
    return len(left)


def cell_text(cell):
    """The text of a cell of a table: without its backquotes, and with a bar for an escaped one."""
    cell = cell.strip().replace("\\|", "|")
    if cell.startswith("`") and cell.endswith("`"):
        return cell[1:-1]
    return cell.replace("`", "").replace("\\\\", "\\")


def examples(page):
    """The rows with a column in the tables of malformed lines and of rejected queries: the words, the document,
    and what standard error has to begin with, without its first line."""
    heading = ""
    for line in page.split("\n"):
        if line.startswith("#"):
            heading = line.strip("# ")
        if not line.startswith("|"):
            continue
        row = [cell_text(cell) for cell in re.split(r"(?<!\\)\|", line)[1:-1]]
        if heading == "Malformed lines" and len(row) == 3 and row[1].isdigit():
            yield ["check"], row[0] + "\n", f"spq: line 1, column {row[1]}: {row[2]}\n"
        elif heading == "Rejected queries" and len(row) == 4 and row[2].isdigit():
            yield ["select", "--query", row[1]], "", f"spq: query, line 1, column {row[2]}: {row[3]}\n"


def wrong_examples(page, spq):
    """How many examples of docs/DIAGNOSTICS.md say something else, which is printed."""
    count = wrong = 0
    for words, document, expected in examples(page):
        ran = subprocess.run([spq, *words], input=document.encode(), capture_output=True)
        said = ran.stderr.decode(errors="replace").split("\n", 1)[-1]
        count += 1
        if not said.startswith(expected):
            wrong += 1
            print(f"docs/DIAGNOSTICS.md: {words} {document!r}\n  says:  {said!r}\n  shown: {expected!r}")
    print(f"docs/DIAGNOSTICS.md: {count - wrong} of {count} examples say what is shown")
    return wrong


def run(page, found, spq):
    """Runs the commands of a page in one shell, and each block to paste in another, and notes what each printed."""
    with tempfile.TemporaryDirectory() as room:
        place, programs = os.path.join(room, "docs", "tour"), os.path.join(room, ".local", "bin")
        shutil.copytree(os.path.join(ROOT, "docs", "tour"), place)
        os.makedirs(programs)
        os.symlink(spq, os.path.join(programs, "spq"))
        os.makedirs(os.path.join(room, ".parallel"))
        open(os.path.join(room, ".parallel", "will-cite"), "w").close()
        words = dict(os.environ, PATH=programs + os.pathsep + os.environ["PATH"], HOME=room)

        def shell(folder, script):
            script = 'jq() { command jq -M "$@"; }\n' + script
            shown = terminal.run(["bash"], lambda source, _: source.write(script.encode()), ("output", "error"), cwd=folder, env=words)[1]
            return terminal.left_of(shown.decode(errors="replace"))

        for command in found:
            if command.is_pasted:
                command.printed = shell(room, command.text + "\n").splitlines()
        found = [command for command in found if not command.is_pasted]
        parts = shell(place, "".join(f"echo '{MARK}'\n{command.text}\n" for command in found)).split(MARK + "\n")[1:]
    if len(parts) != len(found):
        sys.exit(f"{page}: {len(parts)} of {len(found)} commands ran")
    for command, printed in zip(found, parts):
        command.printed = printed.splitlines()


def written(lines, found):
    """The page with what was printed in place of what it showed."""
    made, at = [], 0
    for command in found:
        made += lines[at : command.head] + command.printed
        at = command.head + len(command.shown)
    return made + lines[at:]


def main():
    words = argparse.ArgumentParser(description=__doc__.split("\n")[0])
    words.add_argument("program", nargs="?", default=os.path.join(ROOT, "crates", "spq", "out", "spq"))
    words.add_argument("--only", default="", help="the pages with this word in their path")
    words.add_argument("--write", action="store_true")
    words.add_argument("--gate", action="store_true", help="it is no error if a program that the commands need is missing")
    words.add_argument("--covered", action="store_true", help="check only that each block of commands is run or in NOT_RUN")
    given = words.parse_args()
    failed = uncovered()
    if given.covered:
        sys.exit(1 if failed else 0)
    lack = [it for it in NEEDED if not shutil.which(it)]
    if lack and given.gate:
        print(f"The commands of the pages need {', '.join(lack)}; they were skipped.")
        sys.exit(1 if failed else 0)
    if not os.path.exists(given.program):
        sys.exit(f"no program at {given.program}: build it first (see README)")
    with open(os.path.join(ROOT, "docs", "DIAGNOSTICS.md")) as source:
        failed += wrong_examples(source.read(), os.path.abspath(given.program))
    for page in pages():
        lines = lines_of(page)
        found = found_in(lines) if given.only in page else []
        if not found:
            continue
        run(page, found, os.path.abspath(given.program))
        wrong = [command for command in found if command.printed != command.shown]
        for command in wrong:
            print(f"{page}:{command.line}: {command.text}\n  printed: {command.printed}\n  shown:   {command.shown}")
        print(f"{page}: {len(found) - len(wrong)} of {len(found)} commands print what is shown")
        failed += len(wrong)
        if given.write:
            with open(os.path.join(ROOT, page), "w") as out:
                out.write("\n".join(written(lines, found)))
    sys.exit(1 if failed else 0)


if __name__ == "__main__":
    main()
