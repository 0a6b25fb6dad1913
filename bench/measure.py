"""Shared by the scripts of this folder: datasets, timed runs, Markdown tables.

A run reads its document from standard input and writes its output to a file. The peak memory that the system reports
for a child process includes that of its parent before `exec`. So a peak below that of this script, about 20 MiB,
cannot be measured; tables print an upper limit ("at most 20").
Python 3 standard library only.
"""
import argparse
import dataclasses
import datetime
import hashlib
import itertools
import os
import re
import resource
import shutil
import subprocess
import sys
import threading
import time

HERE = os.path.dirname(os.path.abspath(__file__))
SPQ = os.path.join(HERE, "..", "crates", "spq", "out", "spq")
COUNT_ROWS = "import json, sys; print(len(json.load(sys.stdin)['results']['bindings']))"


@dataclasses.dataclass(frozen=True)
class Command:
    """A named command line. `fresh`, if given, is a directory that it writes; it is removed before each run."""

    name: str
    arguments: list
    fresh: str = None


@dataclasses.dataclass(frozen=True)
class Measurement:
    """Wall-clock seconds, CPU seconds and peak memory in MiB: the best of a number of runs.

    The peak is an upper limit if `is_limit`. `rows` is the number of solutions of a query, if they were counted.
    """

    seconds: float
    cpu: float
    peak: float
    is_limit: bool = False
    runs: int = 1
    rows: int = None


class Failed(Exception):
    """A run that printed an error, was killed by a signal or exceeded the time limit."""


def run(arguments, document, output, limit):
    """Runs a command once and kills it after `limit` seconds."""
    with open(document, "rb") as source, open(output, "wb") as target:
        start = time.perf_counter()
        child = subprocess.Popen(arguments, stdin=source, stdout=target, stderr=subprocess.DEVNULL)
        timer = threading.Timer(limit, child.kill)
        timer.start()
        _, status, usage = os.wait4(child.pid, 0)
        seconds = time.perf_counter() - start
        timer.cancel()
    child.returncode = os.waitstatus_to_exitcode(status)
    if child.returncode < 0:
        raise Failed(f"over {limit} s" if seconds >= limit else f"signal {-child.returncode}")
    if child.returncode > 0:
        with open(output, errors="replace") as printed:
            raise Failed(printed.read(80).strip() or f"status {child.returncode}")
    is_limit = usage.ru_maxrss <= resource.getrusage(resource.RUSAGE_SELF).ru_maxrss
    return Measurement(seconds, usage.ru_utime + usage.ru_stime, usage.ru_maxrss / 1024, is_limit)


def best(arguments, document, output, runs=1, limit=600):
    """Runs a command several times in a row and returns the best of each figure."""
    return least([run(arguments, document, output, limit) for _ in range(runs)])


def sum_of(path):
    """Returns the SHA-256 sum of a file."""
    with open(path, "rb") as file:
        return hashlib.sha256(file.read()).hexdigest()


def least(measurements):
    """Returns the least seconds, the least CPU seconds and the highest peak, each on its own."""
    highest = max(measurements, key=lambda one: one.peak)
    return Measurement(min(one.seconds for one in measurements), min(one.cpu for one in measurements),
                       highest.peak, highest.is_limit, sum(one.runs for one in measurements))


def interleaved(commands, document, folder, options):
    """Measures commands in rounds. Each round runs every command once, every other round in reverse order.

    A command runs `options.runs` times, or fewer if its runs take `options.budget` seconds in total.
    Returns a dictionary from the name of each command to its best measurement, or to its failure.
    The output of the last run remains in the file `output_path(folder, name)`.
    """
    found = {command.name: [] for command in commands}
    for index in range(options.runs):
        for command in commands if index % 2 == 0 else reversed(commands):
            if is_due(found[command.name], options.budget):
                found[command.name].append(attempt(command, document, folder, options.limit))
    return {name: runs[-1] if isinstance(runs[-1], Failed) else least(runs) for name, runs in found.items()}


def is_due(runs, budget):
    return not any(isinstance(one, Failed) for one in runs) and sum(one.seconds for one in runs) < budget


def attempt(command, document, folder, limit):
    """Runs a command once and returns its measurement or its failure.

    What it has written is on disk at the end, so that writing it does not delay the next command.
    """
    if command.fresh:
        shutil.rmtree(command.fresh, ignore_errors=True)
    try:
        return run(command.arguments, document, output_path(folder, command.name), limit)
    except Failed as failure:
        return failure
    finally:
        os.sync()


def output_path(folder, name):
    return os.path.join(folder, f"output of {name}")


def rows(output):
    """Counts the solutions in a file of SPARQL JSON results, in a process of its own to keep this one small."""
    with open(output, "rb") as source:
        counted = subprocess.run([sys.executable, "-c", COUNT_ROWS], stdin=source, capture_output=True, check=True)
    return int(counted.stdout)


def dataset(folder, quads, shape="catalogue"):
    """Returns the path of a dataset of `datasets.py` in a folder. Writes the dataset if it does not exist."""
    path = os.path.join(folder, f"{shape}-{quads}.nq")
    if not os.path.exists(path):
        part = f"{path}.part"
        with open(part, "wb") as out:
            subprocess.run([sys.executable, os.path.join(HERE, "datasets.py"), "--shape", shape, str(quads)], stdout=out, check=True)
        os.rename(part, path)
        os.sync()
    return path


def query_options(description, quads):
    """Parses the options of a script that measures queries on datasets of several sizes."""
    parser = argparse.ArgumentParser(description=description)
    parser.add_argument("--spq", default=SPQ)
    parser.add_argument("--quads", default=quads)
    parser.add_argument("--runs", type=int, default=3)
    parser.add_argument("--workers", default="4")
    parser.add_argument("--only", default="", help="measure the queries whose name contains this text")
    parser.add_argument("--folder", help="keep the datasets here (default: a temporary folder)")
    options = parser.parse_args()
    options.spq = program(options.spq)
    return options


def program(path):
    """Returns the absolute path of a program, or exits if there is none."""
    if not os.path.exists(path):
        sys.exit(f"no program at {path}: build it first (see README)")
    return os.path.abspath(path)


def machine():
    """Describes the run: date, processors, memory, kernel, and the load average of the minute before."""
    with open("/proc/cpuinfo") as cpuinfo:
        model = re.search(r"model name\s*: (.*)", cpuinfo.read())
    memory = os.sysconf("SC_PAGE_SIZE") * os.sysconf("SC_PHYS_PAGES") / 2 ** 30
    return (f"{datetime.date.today()}, {os.cpu_count()} cores{f' ({model[1]})' if model else ''}, {memory:.0f} GiB, "
            f"Linux {os.uname().release}, load average {os.getloadavg()[0]:.1f} at the start")


def table(head, lines):
    """Prints a Markdown table row by row. A row is a list of cells."""
    for cells in itertools.chain([head, ["---"] * len(head)], lines):
        print(row(cells), flush=True)
    print(flush=True)


def markdown(head, lines):
    """Returns the text of a Markdown table."""
    return "".join(f"{row(cells)}\n" for cells in [head, ["---"] * len(head), *lines])


def row(cells):
    return f"| {' | '.join(cells)} |"


def ratio(part, whole):
    """Formats a ratio: two decimals from 1 on, three below."""
    if not whole:
        return ""
    return f"{part / whole:.2f}" if part >= whole else f"{part / whole:.3f}"
