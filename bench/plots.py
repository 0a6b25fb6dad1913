#!/usr/bin/env python3
"""Draws the figures of compare.py as SVG files: load-time.svg, peak-memory.svg and growth.svg.

    plots.py FIGURES FOLDER

FIGURES is the file results.json that `compare.py --write` writes. A plot without figures is left out.
Needs matplotlib (Debian: python3-matplotlib).
"""
import json
import math
import os
import sys

import matplotlib
from matplotlib.figure import Figure

STYLE = {
    "svg.fonttype": "none",
    "svg.hashsalt": "spq",
    "font.family": "sans-serif",
    "axes.spines.top": False,
    "axes.spines.right": False,
}


def bars(title, label, values, texts):
    """Draws a horizontal bar for each name, the shortest on top, with a text at its end."""
    names = sorted(values, key=values.get, reverse=True)
    figure = Figure(figsize=(9, 0.32 * len(names) + 1.2), layout="constrained")
    axes = figure.subplots()
    drawn = axes.barh(names, [values[name] for name in names], color=[bar_color(name) for name in names])
    axes.bar_label(drawn, [texts[name] for name in names], padding=3)
    axes.set(title=title, xlabel=label)
    axes.margins(x=0.1, y=0.02)
    return figure


def bar_color(name):
    return "tab:blue" if name.startswith("spq") else "darkgray"


def without_baseline(results):
    return {name: it for name, it in results.items() if not name.startswith("baseline")}


def load_time(quads, results):
    values = {name: it["seconds"] for name, it in without_baseline(results).items()}
    texts = {name: f"{seconds:.2f}" for name, seconds in values.items()}
    return bars(f"Time to load or parse {quads:,} quads", "seconds", values, texts)


def peak_memory(quads, results):
    shown = without_baseline(results)
    values = {name: it["peak"] for name, it in shown.items()}
    texts = {name: f"at most {math.ceil(it['peak'])}" if it.get("is_limit") else f"{it['peak']:.0f}" for name, it in shown.items()}
    return bars(f"Peak memory, {quads:,} quads", "MiB", values, texts)


def hungriest(answers):
    """Returns for each engine its result with the highest peak of all queries."""
    highest = {}
    for results in (it for query, it in answers.items() if query != "check"):
        for name, it in results.items():
            label = f"{name.replace(',', ' select,', 1)}, highest of the queries"
            highest[label] = max(it, highest.get(label, it), key=lambda one: one["peak"])
    return highest


def growth(sizes):
    """Draws time and peak memory per quad over the number of quads, a line for each command."""
    figure = Figure(figsize=(10, 5.5), layout="constrained")
    time, memory = figure.subplots(1, 2)
    for name in dict.fromkeys(name for results in sizes.values() for name in results):
        points = [(quads, results[name]) for quads, results in sizes.items() if name in results]
        time.plot([quads for quads, _ in points], [it["seconds"] for _, it in points], marker="o", label=name)
        peaks = [(quads, it["peak"] * 2 ** 20 / quads if not it.get("is_limit") else math.nan) for quads, it in points]
        memory.plot([quads for quads, _ in peaks], [it for _, it in peaks], marker="o")
    time.set(title="Time to load or parse", xlabel="quads", ylabel="seconds", xscale="log", yscale="log")
    memory.set(title="Peak memory per quad", xlabel="quads", ylabel="bytes per quad", xscale="log", ylim=(0, None))
    for axes in (time, memory):
        axes.grid(alpha=0.3)
    time.legend(loc="upper left", fontsize="small", frameon=False)
    return figure


def by_size(results, section):
    return {int(quads): it for quads, it in results.get(section, {}).get("sizes", {}).items()}


def main():
    with open(sys.argv[1]) as source:
        results = json.load(source)
    figures = {section: by_size(results, section) for section in ("loading", "queries", "growth")}
    plots = {}
    if figures["loading"]:
        quads, results = max(figures["loading"].items())
        plots["load-time"] = load_time(quads, results)
        plots["peak-memory"] = peak_memory(quads, {**results, **hungriest(figures["queries"].get(quads, {}))})
    if figures["growth"]:
        plots["growth"] = growth(figures["growth"])
    for name, figure in plots.items():
        figure.savefig(os.path.join(sys.argv[2], f"{name}.svg"), metadata={"Date": None})


if __name__ == "__main__":
    with matplotlib.rc_context(STYLE):
        main()
