"""The tables of compare.py, as Markdown, and the file of results that it writes. targets.py has the table of targets.

A result is the measurement of a command or its failure. Results are kept in dictionaries by the name of the command.
Python 3 standard library only; the plots need matplotlib.
"""
import dataclasses
import json
import math
import os
import subprocess

import measure
import peers
from measure import Failed, Measurement
from shapes import EACH

SERDI = "serdi, parse and print"
# How the names of commands begin: those of spq and the baseline, and those in the table of growth.
OWN = ("spq", "baseline")
GROWTH = ("lower bound", "serdi", "Oxigraph", "spq check", "baseline check")


class Report:
    """Prints the tables of a run and keeps its figures, by section: memory, loading, shapes, queries, engines, growth.

    `build` is the SHA-256 sum of the executable of spq that is measured.
    """

    def __init__(self, heading, build):
        print(f"{heading}\n")
        self.heading, self.build, self.megabytes, self.figures = heading, build, {}, {}

    def show(self, title, table):
        print(f"{title}:\n\n{table}", flush=True)

    def record(self, section, sizes):
        """Keeps the figures of a section, by number of quads."""
        if sizes:
            self.figures[section] = {"heading": self.heading.strip().split("\n"), "build": self.build, "sizes": sizes}

    def write(self, folder):
        """Replaces the sections of results.json in a folder that this run measured, and draws the plots."""
        os.makedirs(folder, exist_ok=True)
        path = os.path.join(folder, "results.json")
        results = {}
        if os.path.exists(path):
            with open(path) as source:
                results = json.load(source)
        results.setdefault("megabytes", {}).update({str(quads): round(size, 1) for quads, size in self.megabytes.items()})
        results.update(self.figures)
        with open(path, "w") as out:
            out.write(as_lines(results))
        draw(path, folder)


def as_lines(value, indent=""):
    """Returns a value as JSON with one line for each measurement."""
    is_flat = not isinstance(value, dict) or not any(isinstance(it, (dict, list)) for it in value.values())
    if is_flat:
        return json.dumps(rounded(value), ensure_ascii=False) + ("" if indent else "\n")
    inner = ",\n".join(f"{indent} {json.dumps(str(name), ensure_ascii=False)}: {as_lines(it, indent + ' ')}" for name, it in value.items())
    return f"{{\n{inner}\n{indent}}}" + ("" if indent else "\n")


def rounded(value):
    if isinstance(value, dict):
        return {name: rounded(it) for name, it in value.items() if it is not None and it is not False}
    return round(value, 4) if isinstance(value, float) else value


def draw(figures, folder):
    """Draws the plots if one of the Pythons has matplotlib."""
    python = peers.python_with("matplotlib")
    if python is None:
        print("matplotlib is not installed: no plots are drawn.")
        return
    subprocess.run([python, os.path.join(measure.HERE, "plots.py"), figures, folder], check=True)


def plain(results):
    """Returns results as JSON has them, without the failures."""
    if isinstance(results, Measurement):
        return dataclasses.asdict(results)
    return {name: plain(it) for name, it in results.items() if not isinstance(it, Failed)}


def workers(n):
    return "1 worker" if n == 1 else f"{n} workers"


def pairs(results):
    """Returns the name of each command of spq and of the same command of the baseline, if both are in the results."""
    names = [(name, name.replace("spq", "baseline", 1)) for name in results if name.startswith("spq")]
    return [(name, baseline) for name, baseline in names if baseline in results]


def loading(results, quads):
    """Time and memory of the commands that read a document.

    Times are relative to those of serdi, or of the first command if serdi was not measured.
    """
    measured = {name: it for name, it in results.items() if isinstance(it, Measurement)}
    first = next((name for name in measured if name.startswith("serdi")), next(iter(measured), "none"))
    head = ["command", "runs", "seconds", f"relative to {first}", "CPU seconds", "thousand quads per second"]
    head += ["peak MiB", "peak bytes per quad"]
    return measure.markdown(head, [loading_row(name, it, measured.get(first), quads) for name, it in results.items()])


def loading_row(name, it, first, quads):
    if isinstance(it, Failed):
        return [name, "", f"failed: {it}", "", "", "", "", ""]
    return [name, f"{it.runs}", f"{it.seconds:.3f}", seconds_ratio(it, first), f"{it.cpu:.3f}",
            f"{quads / it.seconds / 1000:.0f}", peak(it), per_quad(it, quads)]


def queries(answers, quads):
    """Time and memory of the queries with spq. `answers` has the results by query, and those of `check`."""
    check, names = answers.get("check", {}), list(next(iter(answers.values())))
    own = [name for name in names if name.startswith("spq")]
    head = ["query", "rows", *own, *(f"{name} / check" for name in own), *(f"peak bytes per quad, {name}" for name in own[-1:])]
    return measure.markdown(head, [
        [query, "" if query == "check" else row_counts(it), *(query_cell(it[name]) for name in own),
         *(seconds_ratio(it[name], check.get(name)) for name in own), *(per_quad(it[name], quads) for name in own[-1:])]
        for query, it in answers.items()])


def engines(answers):
    """Time and memory of the queries with spq and other engines, in seconds and MiB."""
    names = list(dict.fromkeys(name for it in answers.values() for name in it if not name.startswith("baseline")))
    spq = [name for name in names if name.startswith("spq")][-1:]
    others = [name for name in names if not name.startswith(OWN)]
    head = ["query", "rows", *map(column, names), *(f"{own} / {column(other)}" for own in spq for other in others)]
    return measure.markdown(head, [
        [query, row_counts(it), *(query_cell(it[name]) if name in it else "" for name in names),
         *(seconds_ratio(it[own], it.get(other)) for own in spq for other in others)]
        for query, it in answers.items()])


def shapes(found, quads):
    """Time of `spq check` relative to serdi, and its peak memory, by shape of document."""
    own = list(dict.fromkeys(name for it in found.values() for name in it if name.startswith("spq")))
    head = ["shape", "serdi, seconds", *(f"{name}, seconds" for name in own), *(f"{name} / serdi" for name in own)]
    head += [f"peak bytes per quad, {name}" for name in own[-1:]]
    return measure.markdown(head, [shape_row(shape, it, own, quads) for shape, it in found.items()])


def shape_row(shape, it, own, quads):
    serdi, count = it.get(SERDI), -(-quads // EACH.get(shape, 1))
    cells = [growth_cell(it[name]) if name in it else "" for name in [SERDI, *own]]
    return [shape, *cells, *(seconds_ratio(it.get(name), serdi) for name in own), *(per_quad(it.get(name), count) for name in own[-1:])]


def column(engine):
    return "Oxigraph, load and query" if engine == "Oxigraph" else engine


def query_cell(it):
    return f"failed: {it}" if isinstance(it, Failed) else f"{it.seconds:.2f} s, {peak(it)} MiB"


def row_counts(results):
    """The number of solutions: one number if the engines agree, otherwise one of each in the order of the columns."""
    counts = ["failed" if isinstance(it, Failed) else str(it.rows) for it in results.values()]
    distinct = set(counts) - {"failed"}
    return distinct.pop() if len(distinct) == 1 else " / ".join(counts)


def changes(results):
    """Each command of spq compared with the same command of the baseline."""
    head = ["command"]
    for figure in ("seconds", "CPU seconds", "peak MiB"):
        head += [f"{figure}, baseline", "spq", "spq / baseline"]
    return measure.markdown(head, [change_row(name.removeprefix("spq "), results[baseline], results[name])
                                   for name, baseline in pairs(results)])


def change_row(name, before, after):
    failed = [f"{which} failed: {it}" for which, it in (("baseline", before), ("spq", after)) if isinstance(it, Failed)]
    if failed:
        return [name, ", ".join(failed), *[""] * 8]
    is_limit = before.is_limit or after.is_limit
    return [name, f"{before.seconds:.3f}", f"{after.seconds:.3f}", measure.ratio(after.seconds, before.seconds),
            f"{before.cpu:.3f}", f"{after.cpu:.3f}", measure.ratio(after.cpu, before.cpu),
            peak(before), peak(after), "" if is_limit else measure.ratio(after.peak, before.peak)]


def by_query(answers):
    """Returns the results of spq and the baseline under names such as `spq one triple, 4 workers`."""
    return {name.replace(",", f" {query},", 1): it for query, results in answers.items()
            for name, it in results.items() if name.startswith(OWN)}


def growth(loads):
    """Loading by size. `loads` has for each number of quads the results of the commands."""
    names = [name for name in next(iter(loads.values())) if name.startswith(GROWTH)]
    lines = [[f"seconds: {name}", *(growth_cell(results[name]) for results in loads.values())] for name in names]
    lines += [[f"peak bytes per quad: {name}", *(per_quad(results[name], quads) for quads, results in loads.items())]
              for name in names if name.startswith(OWN)]
    return measure.markdown(["", *(f"{quads:,} quads" for quads in loads)], lines)


def growth_cell(it):
    return f"failed: {it}" if isinstance(it, Failed) else f"{it.seconds:.3f}"


def peak(it):
    return f"at most {math.ceil(it.peak)}" if it.is_limit else f"{it.peak:.0f}"


def per_quad(it, quads):
    """The peak in bytes per quad; empty if it was not measured."""
    return f"{it.peak * 2 ** 20 / quads:.0f}" if isinstance(it, Measurement) and not it.is_limit else ""


def seconds_ratio(part, whole):
    """The ratio of two times; empty if one of them was not measured."""
    if isinstance(part, Measurement) and isinstance(whole, Measurement):
        return measure.ratio(part.seconds, whole.seconds)
    return ""
