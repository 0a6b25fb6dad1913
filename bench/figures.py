"""The figures of time and memory on the pages: each is taken from results.json, which compare.py writes.

A page has them in generated parts (`<!-- generated: NAME, by tests/pages.py -->`, tables and paragraphs) and in phrases
(`<!-- figure: NAME -->TEXT<!-- end -->`). `PARTS` and `PHRASES` make both, and `faults` reports a figure of time or memory that
is written by hand on one of the `PAGES`.
"""
import functools
import json
import os
import re

import report
import targets
from measure import Measurement, markdown, ratio
from report import SERDI
from targets import MANY, ONE, Figures, highest, without

HERE = os.path.dirname(os.path.abspath(__file__))
PAGES = ["README.md", "docs/COST.md", "docs/COMPARISON.md", "docs/USAGE.md", "bench/RESULTS.md", "distributed/README.md"]
# Texts that are no measurements but parts of the design, and those of one page.
CONSTANTS = ["64 MiB", "64 KiB", "4 MiB", "2 MiB", "4 KiB", "128 KiB", "131,072 bytes", "10 MB", "8 GB", "200 milliseconds"]
CONSTANTS_OF = {
    "distributed/README.md": ["30 seconds", "16 MiB", "256 MiB", "8 bytes for each quad", "a terabyte"],
    "docs/COST.md": ["65,536 bytes", "4 bytes for each variable", "16 bytes", "32 bytes"],
    "bench/RESULTS.md": ["100 kB", "4 bytes", "32 bytes"],
}
# A figure is a number with a unit, a relation such as `twice the memory`, or a share.
NAMED = r"(?:milli|micro)?seconds?|minutes?|hours?|days?|(?:kilo|mega|giga|tera)bytes?"
TIMES = r"times (?:faster|slower|longer|shorter|smaller|larger|as (?:long|fast|slow|much|large|small)|(?:its|the) (?:\w+ )?(?:size|time|memory))"
WORDS = "two|three|four|five|six|seven|eight|nine|ten|eleven|twelve|fifteen|(?:twen|thir|for|fif|six|seven|eigh|nine)ty|(?:a )?(?:hundred|thousand)"
DIGITS = r"\d[\d.,]*(?:(?: to | and |, | or |-)\d[\d.,]*)*"
FIGURE = re.compile(rf"\b(?:{DIGITS}|{WORDS})[ -]*(?:{NAMED}|bytes(?: each| (?:a|per|for each) \w+)?|{TIMES}|percent)(?!\w)"
                    rf"|\b{DIGITS}[ -]*(?:min|ms|µs|s|h|[kKMGT]B|[KMGT]iB|%)(?!\w)"
                    rf"|\b(?:half +)?(?:an?|one) +(?!seconds? [a-z])(?:{NAMED})(?!\w)"
                    r"|\b(?:twice|half) +(?:of )?(?:as (?:long|fast|slow|much|large|small)|(?:the|its) (?:\w+ )?(?:size|time|memory))\b", re.I)
PHRASE = re.compile(r"(<!-- figure: ([\w-]+) -->).*?(<!-- end -->)", re.S)
HIDDEN = re.compile(r"<!-- generated: .*?<!-- end of the generated part -->|<!-- figure: .*?<!-- end -->|\]\([^)\s]*\)|`[^`\n]*`", re.S)
# A block of commands and outputs: of these only the comments say how long something takes.
BLOCK, COMMENT = re.compile(r"^ *```.*?^ *```", re.S | re.M), re.compile(r"(?:^|(?<=\s))#\s.*")
LARGEST = "path of four"
OTHERS = {"serdi": SERDI, "serd": "serd's library, parse", "rapper": "rapper, parse", "riot": "riot, parse", "Oxigraph": "Oxigraph, load into its store"}
# Gigabytes of memory (10^9 bytes) for which the table says how many statements fit. A tenth is left to the system.
SIZES, SHARE = (8, 16, 64, 256), 0.9


@functools.lru_cache(maxsize=None)
def results():
    with open(f"{HERE}/results.json", encoding="utf-8") as file:
        return json.load(file)


def measured(value):
    """Returns the measurements of a dictionary from names."""
    return {name: Measurement(**it) for name, it in value.items()}


def section(name):
    """Returns the figures of a section by number of quads."""
    return {int(quads): it for quads, it in results()[name]["sizes"].items()}


def largest(name):
    """Returns the largest number of quads of a section, and its figures."""
    return max(section(name).items())


@functools.lru_cache(maxsize=None)
def loads():
    return measured(largest("loading")[1])


@functools.lru_cache(maxsize=None)
def answers():
    """Returns the results of spq by query, without those of `check`."""
    return {query: measured(it) for query, it in largest("queries")[1].items() if query != "check"}


@functools.lru_cache(maxsize=None)
def engines():
    """Returns the results of the engines by query."""
    return {query: measured(it) for query, it in largest("engines")[1].items()} if "engines" in results() else {}


@functools.lru_cache(maxsize=None)
def memory():
    """Returns the bytes for each statement by kind of document, or nothing if they were not measured."""
    return largest("memory")[1] if "memory" in results() else {}


def spq(n):
    return [it[f"spq, {report.workers(n)}"] for it in answers().values()]


def between(values, form):
    """Returns the least and the highest of some values, as `A to B`."""
    least, most = form.format(min(values)), form.format(max(values))
    return least if least == most else f"{least} to {most}"


def heading(name):
    return "\n".join(results()[name]["heading"])


def megabytes(quads):
    return f"{results()['megabytes'][str(quads)]:.0f} MB"


# The parts.


def readme_speed():
    """The table of README.md, the quickest first, and how spq compares with serdi on other shapes of document."""
    joined = answers()[LARGEST][f"spq, {report.workers(4)}"]
    rows = [
        ("`spq check`, 4 workers: parse, number the terms, sort", loads().get(MANY)),
        (f"`spq select`, 4 workers: index, a join of {joined.rows:,} rows{of_another_run('queries', joined.runs)}", joined),
        ("`spq check`, 1 worker", loads().get(ONE)),
        ("serd's library: parse", loads().get(OTHERS["serd"])),
        ("serdi: parse and print", loads().get(SERDI)),
    ]
    found = sorted(((text, it) for text, it in rows if it), key=lambda row: row[1].seconds)
    quads = largest("loading")[0]
    return [f"{quads:,} statements of a catalogue, {megabytes(quads)}, 4 cores, best of {most_runs('loading')}, one run ([all](bench/RESULTS.md)):", "",
            *markdown(["", "seconds", "peak MiB"], [[text, f"{it.seconds:.2f}", report.peak(it)] for text, it in found]).splitlines(), "",
            f"Time relative to serdi on the same document, for the catalogue and for the slowest other [shapes](bench/RESULTS.md#shapes-of-document){of_another_run('shapes', most_runs('shapes'))}:", "",
            *against_serdi()]


def against_serdi():
    """The time of `check` relative to serdi: the catalogue, the worst shape, and the worst but one."""
    lines = []
    for name in (ONE, MANY):
        ratios = Figures(results()).shape_ratios(name)
        others = sorted(without(ratios, ("catalogue",)).items(), key=lambda pair: -pair[1])
        lines.append([f"`{name.split(',')[0]}`,{name.split(',')[1]}", f"{ratios['catalogue']:.2f}", *(f"{it:.2f} ({shape})" for shape, it in others[:2])])
    return markdown(["", "catalogue", "slowest", "next"], lines).splitlines()


def comparison_queries():
    """What the other engines need for the queries, relative to spq with four workers in the same run."""
    if not engines():
        return ["Not measured."]
    quads, found = largest("engines")[0], engines()
    lines = [*other_run("engines"), f"{len(found)} queries over {quads:,} quads, each from the bytes of the document to the JSON:", ""]
    rows = [["spq, 4 workers", *spans([it["spq, 4 workers"] for it in found.values()]), "1"]]
    for engine in ("Oxigraph", "arq", "rdflib"):
        pairs = [(it[engine], it["spq, 4 workers"]) for it in found.values() if engine in it]
        if pairs:
            rows.append([report.column(engine), *spans([it for it, _ in pairs]), between([it.seconds / own.seconds for it, own in pairs], "{:.0f}")])
    return lines + markdown(["engine", "seconds", "peak MiB", "times as long as spq"], rows).splitlines()


def spans(found):
    return between([it.seconds for it in found], "{:.2f}"), between([it.peak for it in found], "{:.0f}")


def most_runs(name):
    """Returns how often the commands of a section ran at most."""
    found = largest(name)[1].values()
    return max(it["runs"] for part in found for it in ([part] if "runs" in part else part.values()))


def is_other_run(name):
    """Returns whether a section is from another run than that of loading."""
    return heading(name) != heading("loading")


def of_another_run(name, runs=None):
    """Returns a remark on a row or a table of a section that is from another run than that of loading, or an empty text."""
    remark = [f"best of {runs}"] * bool(runs) + [f"another run{hedge(name)}"]
    return f" ({', '.join(remark)})" if is_other_run(name) else ""


def hedge(name):
    """Returns a remark if the executable of a section is not known to be that of loading."""
    build = results()[name].get("build")
    return "" if build and build == results()["loading"].get("build") else ", in which spq can be an earlier build"


def other_run(name):
    """Returns a paragraph on the run of a section, with what differs, if it is another one than that of loading."""
    if not is_other_run(name):
        return []
    new = [it for it in facts(heading(name)) if it not in facts(heading("loading"))]
    return [f"From another run{hedge(name)} ({', '.join(new)}):", ""]


def facts(text):
    return [it.rstrip(".") for line in text.splitlines() for it in line.split(", ")]


def cost_memory():
    """Bytes for each statement by kind of document, and how many statements fit into a memory."""
    if not memory():
        return ["Not measured."]
    quads = largest("memory")[0]
    rows = [[kind, f"{it['document']:.0f}", f"{it['check']:.0f}", f"{it['select']:.0f}"] for kind, it in memory().items()]
    lines = [f"Peak memory, {quads:,} distinct statements of one kind, four workers, in bytes for each statement:", "",
             *markdown(["document", "size of the document", "`check`", "`select`"], rows).splitlines(), ""]
    lines += ["Millions of statements that fit into a memory of this size, if a tenth of it is left to the system:", ""]
    sizes = [[kind, *(" / ".join(f"{size * 1e9 * SHARE / it[name] / 1e6:.0f}" for name in ("check", "select")) for size in SIZES)] for kind, it in memory().items()]
    return lines + markdown(["document: `check` / `select`", *(f"{size} GB" for size in SIZES)], sizes).splitlines()


def results_targets():
    return [*targets.table(results()).splitlines(), "",
            "Each row is from the run of its table below; the peaks are from that of the [table of memory](../docs/COST.md#memory)."]


def results_loading():
    quads = largest("loading")[0]
    return [heading("loading"), "", f"{quads:,} quads, {megabytes(quads)}:", "", *report.loading(loads(), quads).splitlines(), "",
            "![load time](load-time.svg)", "", "![peak memory](peak-memory.svg)"]


def results_shapes():
    quads, found = largest("shapes")
    return [*other_run("shapes"), f"{quads:,} quads of each shape:", "", *report.shapes({shape: measured(it) for shape, it in found.items()}, quads).splitlines()]


def results_queries():
    quads, found = largest("queries")
    return [*other_run("queries"), f"{quads:,} quads, {megabytes(quads)}:", "", *report.queries({query: measured(it) for query, it in found.items()}, quads).splitlines()]


def results_engines():
    if not engines():
        return ["Not measured."]
    quads = largest("engines")[0]
    return [*other_run("engines"), f"{quads:,} quads, {megabytes(quads)}:", "", *report.engines(engines()).splitlines()]


def results_growth():
    if "growth" not in results():
        return ["Not measured."]
    sizes = {quads: measured(it) for quads, it in section("growth").items()}
    return [*other_run("growth"), "Loading by size:", "", *report.growth(sizes).splitlines(), "", "![growth](growth.svg)"]


PARTS = {
    "readme_speed": readme_speed, "comparison_queries": comparison_queries,
    "cost_memory": cost_memory, "results_targets": results_targets, "results_loading": results_loading, "results_shapes": results_shapes,
    "results_queries": results_queries, "results_engines": results_engines, "results_growth": results_growth,
}


# The phrases.


def memory_range(command):
    if not memory():
        return "several hundred bytes for each statement"
    return between([it[command] for it in memory().values()], "{:.0f}") + " bytes for each statement"


def minutes(name):
    """Returns the minutes on a number of cores, a range of a fast and a slow machine, as text."""
    times = results()["proof"][name]
    words = {"2": "two", "4": "four", "8": "eight"}
    return ", ".join(f"{it} minutes on {words[n]} cores" for n, it in sorted(times.items(), key=lambda pair: -int(pair[0])))


PHRASES = {
    "select-seconds": lambda: between([it.seconds for it in spq(4)], "{:.1f}") + " seconds",
    "select-memory": lambda: memory_range("select"),
    "check-memory": lambda: memory_range("check"),
    "install-minutes": lambda: minutes("install minutes"),
    "hosts-minutes": lambda: f"{results()['proof']['hosts minutes']} minutes",
    "gate-minutes": lambda: f"about {results()['proof']['gate processor minutes']} processor minutes",
    "serdi-memory": lambda: report.peak(loads()[SERDI]) + " MiB",
    "rapper-memory": lambda: report.peak(loads()[OTHERS["rapper"]]) + " MiB",
    "document-size": lambda: megabytes(largest("loading")[0]),
}


def filled(page):
    """Returns a page with its phrases as results.json has them."""
    return PHRASE.sub(lambda found: found[1] + PHRASES[found[2]]() + found[3], page)


def blank(found):
    """Returns marks in place of a text, with its line ends. No figure contains a mark."""
    return re.sub(r"[^\n]", "`", found[0])


def comments_of(block):
    """Returns a block of code with marks in place of all but its comments."""
    return "\n".join(re.sub(r".", "`", line[: len(line) - len(said)]) + said for line in block[0].split("\n") for said in ["".join(COMMENT.findall(line)[:1])])


def faults(path, page):
    """Returns a line for each figure of time or memory that is written by hand. A line end in a figure counts as a blank."""
    text = HIDDEN.sub(blank, BLOCK.sub(comments_of, page))
    found = []
    for hit in FIGURE.finditer(re.sub(r"(?<=[^\n])\n(?=[^\n])", " ", text)):
        figure = " ".join(hit[0].split())
        if figure not in CONSTANTS + CONSTANTS_OF.get(path, []):
            line = text.count("\n", 0, hit.start()) + 1
            found.append(f"{path}:{line}: the figure '{figure}' is written by hand; take it from bench/results.json (bench/figures.py)")
    return found


# Texts with a figure, and texts without one: they test `faults`.
FOUND = [
    "4\nbytes for each variable", "more than a\n  gigabyte", "```sh\nrun    # 20 minutes\n```", "half an hour", "a gigabyte", "about an hour", "it takes a second.",
    "12 s", "0.3s", "47 %", "2.6 times as fast", "three times faster", "twice the memory", "half of the time", "thirty seconds", "94 bytes each", "10 to 12 GB",
]
NOT_FOUND = [
    "a second proved program", "several times as long", "4\n\nbytes", "| 4 |\n| seconds |", "thousands of statements", "`--wait 30 s`", "```sh\nsleep 30 s\n```",
    "[parts](PARTS.md#what-a-terabyte-takes)", "<!-- figure: document-size -->132 MB<!-- end -->", "1,000,000 statements", "64 KiB",
]


def test_faults():
    """Returns a line for each text of FOUND and NOT_FOUND that `faults` takes for the other."""
    wrong = [it for it in FOUND if not faults("", it)] + [it for it in NOT_FOUND if faults("", it)]
    return [f"bench/figures.py: faults() is wrong about {it!r}" for it in wrong]
