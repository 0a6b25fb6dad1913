#!/usr/bin/env python3
"""Compares spq with the RDF programs that are installed, and with another build of spq.

    compare.py [--spq PATH] [--baseline PATH] [--oxigraph PATH] [--tables NAME,NAME..] [--only TEXT,TEXT..]
               [--quads N,N..] [--shape-quads N] [--growth N,N..] [--workers N,N..] [--runs N] [--budget SECONDS]
               [--limit SECONDS] [--rdflib-most QUADS] [--folder PATH] [--write FOLDER]

Prints tables of time and peak memory:

- memory: the peak of spq for the kinds of document of memory.py;
- loading: `spq check`, `spq terms` and the programs of peers.py that parse or load a document, on the catalogue of datasets.py;
- shapes: `spq check` and serdi on each shape of document of datasets.py;
- queries: `spq check` and the queries of queries.py with `spq select`, all in the same rounds;
- engines: these queries with the engines of peers.py, each from document to JSON;
- growth: loading of documents of increasing size;
- targets: the ratios and sizes for which the project has targets.

The commands of a table run in rounds. Each round runs every command once, so that noise affects all of them. A table
has the least time and the highest peak of each command. Compare ratios within a table, not seconds of different runs.
With --baseline, each command of spq also runs with that executable, and further tables show the change.
With --write, the figures of the measured tables replace those of results.json in a folder, with the SHA-256 sum of the
executable of spq, and the plots are drawn there.
results.json is the source of each figure of the pages: tests/pages.py --write puts them there.
Python 3 standard library only; the plots need matplotlib.
"""
import argparse
import dataclasses
import filecmp
import json
import os
import sys
import tempfile

import measure
import memory
import peers
import report
import targets
from measure import Command, Measurement
from queries import PREFIX, QUERIES
from report import Report, plain, workers

TABLES = ["memory", "loading", "shapes", "queries", "engines", "growth"]
# The shapes of document of the table of shapes. The other ones of shapes.py are for memory.py.
COMPARED = ["catalogue", "mix", "plain", "tabs", "no-spaces", "crlf", "comments", "graphs", "new", "escapes", "one-subject", "long"]


class Bench:
    """One dataset, and how commands are measured on it."""

    def __init__(self, options, tools, quads, folder, shape="catalogue"):
        self.options, self.tools, self.quads, self.folder = options, tools, quads, folder
        self.path = measure.dataset(options.folder or folder, quads, shape)

    def measure(self, task, commands):
        """Returns the results of the commands that --only and --rdflib-most keep, by name."""
        print(f"{self.quads:,} quads: {task}", file=sys.stderr)
        kept = [command for command in commands if self.is_kept(command.name)]
        results = measure.interleaved(kept, self.path, self.folder, self.options)
        for name, baseline in report.pairs(results):
            if not filecmp.cmp(self.output(name), self.output(baseline), shallow=False):
                print(f"{self.quads:,} quads, {task}: the output of {name} differs from that of the baseline.\n")
        return results

    def is_kept(self, name):
        if name.startswith("rdflib") and self.quads > self.options.rdflib_most:
            return False
        return any(text in name for text in self.options.only)

    def output(self, name):
        return measure.output_path(self.folder, name)

    def spq(self, label, *arguments):
        """Returns a command of spq, and the same command of the baseline if there is one."""
        return [Command(f"{name}{label}", [program, *arguments]) for name, program in self.options.programs.items()]


def load(bench):
    """Measures the commands that read the document, as far as the tables need them at this size."""
    commands = peers.loaders(bench.tools, bench.path, bench.folder)
    for n in bench.options.workers:
        commands += bench.spq(f" check, {workers(n)}", "check", "--workers", str(n))
    commands += bench.spq(f" terms, {workers(n)}", "terms", "--workers", str(n))
    needed = [command for command in commands if is_needed(command.name, bench.quads, bench.options)]
    return bench.measure("loading", needed)


def is_needed(name, quads, options):
    if quads in options.growth and name.startswith(report.GROWTH):
        return True
    return quads in options.quads and ("loading" in options.tables or "engines" in options.tables and name == peers.OXIGRAPH_LOAD)


def check_shape(bench, shape):
    """Measures `spq check` and serdi on a document of a shape."""
    commands = [it for it in peers.loaders(bench.tools, bench.path, bench.folder) if it.name.startswith("serdi")]
    for n in ends(bench.options):
        commands += bench.spq(f" check, {workers(n)}", "check", "--workers", str(n))
    return bench.measure(shape, commands)


def ends(options):
    """Returns the least and the highest number of workers."""
    return dict.fromkeys((options.workers[0], options.workers[-1]))


def answer(bench):
    """Measures `check` and the queries in the same rounds. Returns for each query, and for `check`, the results of spq."""
    tasks = {"check": ["check"], **{title: ["select", "--query", PREFIX + query] for title, query in QUERIES.items()}}
    commands = []
    for n in ends(bench.options):
        for title, words in tasks.items():
            commands += bench.spq(f" {title}, {workers(n)}", *words, "--workers", str(n))
    results = bench.measure("queries", commands)
    found = {}
    for title in tasks:
        names = {f"{program}, {workers(n)}": f"{program} {title}, {workers(n)}" for n in ends(bench.options) for program in bench.options.programs}
        kept = {short: results[name] for short, name in names.items() if name in results}
        if kept:
            found[title] = kept if title == "check" else counted(bench, kept, names)
    return found


def counted(bench, results, names):
    """Returns the results of a query of spq with the number of rows, which is that of the first number of workers."""
    first = next(iter(results))
    for name in results:
        if not filecmp.cmp(bench.output(names[first]), bench.output(names[name]), shallow=False):
            print(f"The output of {names[name]} differs from that of {names[first]}.\n")
    rows = count_rows(results[first], bench.output(names[first]))
    return {name: dataclasses.replace(it, rows=rows.rows) if isinstance(it, Measurement) else it for name, it in results.items()}


def answer_with_engines(bench, oxigraph_load):
    """Measures the queries with all engines. Returns for each query the results of the engines.

    Oxigraph queries its store, so its results include the measurement of its load. Without one it is left out.
    """
    answers = {}
    for title, query in QUERIES.items():
        results = bench.measure(f"{title}, all engines", engines(bench, PREFIX + query, oxigraph_load))
        with_rows = {name: count_rows(it, bench.output(name)) for name, it in results.items()}
        answers[title] = {name: plus(it, oxigraph_load) if name == "Oxigraph" else it for name, it in with_rows.items()}
        if "Oxigraph" in with_rows:
            answers[title]["Oxigraph, query alone"] = with_rows["Oxigraph"]
    return answers


def engines(bench, query, oxigraph_load):
    most = bench.options.workers[-1]
    commands = bench.spq(f", {workers(most)}", "select", "--workers", str(most), "--query", query)
    commands += peers.engines(bench.tools, bench.path, bench.folder, query)
    return [it for it in commands if it.name != "Oxigraph" or isinstance(oxigraph_load, Measurement)]


def count_rows(result, output):
    if not isinstance(result, Measurement):
        return result
    return dataclasses.replace(result, rows=measure.rows(output))


def plus(result, load):
    """Adds the time and memory of a load to the result of a query."""
    if not isinstance(result, Measurement):
        return result
    return dataclasses.replace(result, seconds=result.seconds + load.seconds, cpu=result.cpu + load.cpu,
                               peak=max(result.peak, load.peak))


def compare(options, folder):
    """Measures what the tables need, prints the tables and returns the report."""
    tools = peers.find_tools(folder, options.oxigraph)
    page = Report(heading(options, tools), measure.sum_of(options.programs["spq"]))
    if "memory" in options.tables:
        place = options.folder or folder
        page.record("memory", {quads: memory.peaks(options.programs["spq"], quads, place) for quads in options.quads[-1:]})
    loads = {}
    for quads in sorted({*options.quads, *options.growth}):
        compare_size(page, Bench(options, tools, quads, folder), loads)
    if "loading" in options.tables:
        page.record("loading", plain({quads: loads[quads] for quads in options.quads}))
    if options.growth:
        page.show("Loading by size", report.growth({quads: loads[quads] for quads in options.growth}))
        page.record("growth", plain({quads: loads[quads] for quads in options.growth}))
    if "shapes" in options.tables:
        compare_shapes(page, options, tools, folder)
    return page


def compare_size(page, bench, loads):
    """Measures loading and the queries at one size, and adds the results of loading to `loads`."""
    options, quads = bench.options, bench.quads
    page.megabytes[quads] = os.path.getsize(bench.path) / 1e6
    title = f"{quads:,} quads, {page.megabytes[quads]:.0f} MB"
    loads[quads] = load(bench)
    if quads not in options.quads:
        return
    if "loading" in options.tables:
        add(page, title, report.loading(loads[quads], quads), loads[quads])
    if "queries" in options.tables:
        found = answer(bench)
        add(page, title, report.queries(found, quads), report.by_query(found))
        page.record("queries", plain({quads: found}))
    if "engines" in options.tables and any(bench.tools[it] for it in peers.ENGINES):
        found = answer_with_engines(bench, loads[quads].get(peers.OXIGRAPH_LOAD))
        add(page, f"{title}, all engines", report.engines(found), {})
        page.record("engines", plain({quads: found}))


def compare_shapes(page, options, tools, folder):
    """Measures `spq check` on each shape. The document is removed afterwards, unless --folder keeps it."""
    found, sizes = {}, {}
    for shape in COMPARED:
        bench = Bench(options, tools, options.shape_quads, folder, shape)
        found[shape], sizes[shape] = check_shape(bench, shape), os.path.getsize(bench.path)
        if not options.folder:
            os.remove(bench.path)
    page.show(f"{options.shape_quads:,} quads of each shape", report.shapes(found, options.shape_quads))
    changed = {name.replace(",", f" {shape},", 1): it for shape, results in found.items() for name, it in results.items()}
    if report.pairs(changed):
        page.show("Shapes, change from the baseline", report.changes(changed))
    page.record("shapes", plain({options.shape_quads: found}))


def heading(options, tools):
    """One paragraph: the machine, what was run how often, and what is left out because it is not installed."""
    missing = [tool for tool, found in tools.items() if not found]
    lines = [measure.machine(), peers.versions(tools)]
    lines.append(f"Best of {options.runs} runs, or of fewer if they take {options.budget} seconds in total")
    if missing:
        lines.append(f"Left out, because the program or its compiler is not installed: {', '.join(missing)}")
    return "".join(f"{line}.\n" for line in lines if line)


def add(page, title, table, results):
    """Prints a table and, if there is a baseline, the table of the changes."""
    page.show(title, table)
    if report.pairs(results):
        page.show(f"{title}, change from the baseline", report.changes(results))


def numbers(text):
    return sorted(int(number) for number in text.split(",") if number)


def names(text):
    return text.split(",")


def parse_options():
    parser = argparse.ArgumentParser(description=__doc__.split("\n")[0])
    parser.add_argument("--spq", default=measure.SPQ)
    parser.add_argument("--baseline", help="another spq executable, measured in the same rounds")
    parser.add_argument("--oxigraph", default="oxigraph", help="Oxigraph's executable (default: the one on the PATH)")
    parser.add_argument("--tables", type=names, default=TABLES, help=f"some of {', '.join(TABLES)}")
    parser.add_argument("--only", type=names, default=[""], help="measure commands with one of these in their name")
    parser.add_argument("--quads", type=numbers, default=[1_000_000], help="sizes for loading, queries and memory")
    parser.add_argument("--shape-quads", type=int, default=500_000, help="the size for the table of shapes")
    parser.add_argument("--growth", type=numbers, default=[100_000, 300_000, 1_000_000, 3_000_000, 10_000_000],
                        help="sizes for the table of growth")
    parser.add_argument("--workers", type=numbers, default=[1, 2, 4])
    parser.add_argument("--runs", type=int, default=5)
    parser.add_argument("--budget", type=int, default=20, help="seconds after which a command is not run again")
    parser.add_argument("--limit", type=int, default=600, help="seconds after which a run is killed")
    parser.add_argument("--rdflib-most", type=int, default=100_000, help="largest dataset, in quads, for rdflib")
    parser.add_argument("--folder", help="keep the datasets here (default: a temporary folder)")
    parser.add_argument("--write", help="write results.json and the plots into this folder")
    options = parser.parse_args()
    if not set(options.tables) <= set(TABLES):
        parser.error(f"--tables: {', '.join(TABLES)}")
    options.programs = {"spq": measure.program(options.spq)}
    if options.baseline:
        options.programs["baseline"] = measure.program(options.baseline)
    if "growth" not in options.tables:
        options.growth = []
    if not {"memory", "loading", "queries", "engines"} & set(options.tables):
        options.quads = []
    return options


def main():
    options = parse_options()
    with tempfile.TemporaryDirectory() as folder:
        page = compare(options, folder)
    page.show("Targets", targets.table(json.loads(json.dumps(page.figures))))
    if options.write:
        page.write(options.write)


if __name__ == "__main__":
    main()
