"""The ratios and sizes for which the project has targets, from the sections of results.json.

A ratio is of two figures of one section, so of one run. Python 3 standard library only.
"""
import math

import measure
import memory
from report import SERDI

ONE, MANY = "spq check, 1 worker", "spq check, 4 workers"
# Shapes with targets of their own; the others have one together.
USUAL, ALL_NEW = ("catalogue", "mix"), "new"


class Figures:
    """The figures of results.json, at the largest number of quads of each section."""

    def __init__(self, results):
        self.results = results

    def sizes(self, section):
        return {int(quads): it for quads, it in self.results.get(section, {}).get("sizes", {}).items()}

    def largest(self, section):
        """Returns the largest number of quads of a section, and its figures; 0 and nothing if it was not measured."""
        return max(self.sizes(section).items(), default=(0, {}), key=lambda pair: pair[0])

    def shape_ratios(self, name):
        """Returns the time of a command relative to serdi, by shape."""
        found = self.largest("shapes")[1]
        return {shape: it[name]["seconds"] / it[SERDI]["seconds"] for shape, it in found.items() if name in it and SERDI in it}

    def peak(self, shape):
        """Returns the peak of `check` in bytes for each statement of a shape, from the section on memory."""
        kind = next(kind for kind, it in memory.KINDS.items() if it == shape)
        return self.largest("memory")[1].get(kind, {}).get("check")

    def over_check(self):
        """Returns the time of each query relative to `check`, with four workers."""
        found = dict(self.largest("queries")[1])
        check = found.pop("check", {}).get("spq, 4 workers")
        return {query: it["spq, 4 workers"]["seconds"] / check["seconds"] for query, it in found.items() if check and "spq, 4 workers" in it}

    def over_oxigraph(self, column):
        found = self.largest("engines")[1]
        return {query: it["spq, 4 workers"]["seconds"] / it[column]["seconds"] for query, it in found.items() if column in it and "spq, 4 workers" in it}


def highest(ratios):
    """Returns the highest of some ratios and where it is."""
    return max(((ratio, name) for name, ratio in ratios.items()), default=None)


def mean(ratios):
    """Returns the geometric mean."""
    return math.exp(sum(map(math.log, ratios.values())) / len(ratios)) if ratios else None


def chosen(ratios, shapes):
    return {shape: it for shape, it in ratios.items() if shape in shapes}


def without(ratios, shapes):
    return {shape: it for shape, it in ratios.items() if shape not in shapes}


def rows(figures):
    """Yields what is measured, the figure (and where it is the highest), and the target."""
    for name, usual, most, new in ((ONE, 0.35, 0.45, 1.0), (MANY, 0.16, 0.25, 0.6)):
        ratios = figures.shape_ratios(name)
        yield f"{name} / serdi, catalogue and mix", highest(chosen(ratios, USUAL)), usual
        yield f"{name} / serdi, each other shape but new", highest(without(ratios, (*USUAL, ALL_NEW))), most
        yield f"{name} / serdi, new (every term is new)", ratios.get(ALL_NEW), new
    yield "peak bytes per quad: spq check, catalogue", figures.peak("catalogue"), 90
    yield "peak bytes per quad: spq check, new", figures.peak(ALL_NEW), 300
    yield "spq select / spq check, 4 workers, highest of the queries", highest(figures.over_check()), 1.6
    yield "spq select, 4 workers / Oxigraph's load and query, highest of the queries", highest(figures.over_oxigraph("Oxigraph")), 0.035
    yield "spq select, 4 workers / Oxigraph's query on a loaded store, geometric mean", mean(figures.over_oxigraph("Oxigraph, query alone")), 1.0


def cell(value, target):
    if value is None:
        return "not measured"
    value, where = value if isinstance(value, tuple) else (value, "")
    number = f"{value:.0f}" if target >= 10 else f"{value:.3f}" if target < 0.1 else f"{value:.2f}"
    return f"{number} ({where})" if where else number


def table(results):
    """Returns the table of targets as Markdown."""
    return measure.markdown(["", "measured", "target"], [[what, cell(value, target), f"at most {target}"] for what, value, target in rows(Figures(results))])
