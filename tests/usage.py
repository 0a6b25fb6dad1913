#!/usr/bin/env python3
"""Keeps docs/USAGE.md, the man page docs/spq.1, the completion and the sources in step.

    usage.py PROGRAM    runs the queries of the tables of docs/USAGE.md: those under `rejected` must be rejected as queries,
                        those under `write` must be accepted

`tests/pages.py` calls the rest: it generates docs/spq.1 from docs/USAGE.md, and compares the options with their limits
and defaults, the statuses, the lines of errors, the synopsis and the keywords with the sources.
"""
import re
import subprocess
import sys

sys.dont_write_bytecode = True
from sources import ROOT

PAGE, MAN, COMPLETION = "docs/USAGE.md", "docs/spq.1", "completions/spq.bash"
TEXTS, PROGRAM = "crates/spq_command/src/texts.rt", "crates/spq_command/src/program.rt"
REPORT, WORDS, GRAMMAR = "crates/spq_run/specs/Report.antt", "crates/sparql_lexer/specs/Words.antt", "crates/sparql_grammar/specs/Productions.antt"
DESCRIPTION = "evaluate a SPARQL SELECT query over an N-Quads document, or check the document"
# The constants of an option: the most, and the default.
LIMITS = {"workers": ("MOST_WORKERS", "WORKERS"), "piece": ("MOST_BYTES", "BYTES"), "rows": ("MOST_ROWS", "ROWS")}


def read(path):
    with open(f"{ROOT}/{path}", encoding="utf-8") as file:
        return re.sub(r"<!--.*?-->", "", file.read(), flags=re.S)


def tables(page):
    """Returns the tables of a page: the cells of the head, and those of each row."""
    found = []
    for block in re.findall(r"(?:^\|.*\n)+", page, re.M):
        rows = [[it.strip() for it in re.split(r"(?<!\\)\|", line)[1:-1]] for line in block.splitlines()]
        found.append((rows[0], rows[2:]))
    return found


def table(page, *head):
    """Returns the rows of the tables with this head."""
    return [row for columns, rows in tables(page) if columns == list(head) for row in rows]


# What the sources say.


def constants():
    """Returns the numbers that the command line's constants have."""
    found = re.findall(r"^pub\(crate\) const (\w+): u64 = (\d+)(?: << (\d+))?;$", read(PROGRAM), re.M)
    return {name: int(number) << int(shift or 0) for name, number, shift in found}


def options():
    """Returns the options with a number: `{name: (most, default)}`."""
    known = constants()
    return {name: (known[most], known[default]) for name, (most, default) in LIMITS.items()}


def errors():
    """Returns the line of each error and its status."""
    text = read(REPORT)
    lines = re.findall(r"^(?:query|fault)_line \(?([\w.]+)[^=]*\)? = codes \"(error: [^\"]*?)(?:\\n)?\"", text, re.M)
    statuses = dict(re.findall(r"^(?:query_status|status_of) \(?([\w.]+)[^=]*\)? = (\d+)$", text, re.M))
    return {(line + ("N" if line.endswith(" ") else ""), statuses[name]) for name, line in lines}


def keywords():
    return set(re.findall(r"^capitals_of keyword\.\w+ = codes \"(\w+)\"$", read(WORDS), re.M))


def synopsis():
    """Returns the command lines that the help shows."""
    text = re.search(r'pub const USAGE: &str = "(.*?)";', read(TEXTS), re.S)[1]
    return [it.strip() for it in text.split("\n")]


# The comparison.


def option_faults(page):
    found = {}
    for name, commands, limits, default, _ in table(page, "option", "commands", "range", "default", "meaning"):
        numbers = re.fullmatch(r"1 to (\d+)", limits)
        if numbers:
            found[re.match(r"`--(\w+)", name)[1]] = (int(numbers[1]), int(default))
    faults = [f"{PAGE}: the options are {found}, in {PROGRAM} {options()}"] if found != options() else []
    for name, (most, default) in options().items():
        help_line = re.search(rf'"{name}",\s*{LIMITS[name][0]},\s*"\w+",\s*"[^"]*?1 to (\d+) \[default: (\d+)\]"', read(PROGRAM))
        if not help_line or (int(help_line[1]), int(help_line[2])) != (most, default):
            faults.append(f"{PROGRAM}: the help does not say that --{name} is 1 to {most}, by default {default}")
        if f"--{name}" not in read(COMPLETION):
            faults.append(f"{COMPLETION}: --{name} is missing")
    return faults


def status_faults(page):
    rows = table(page, "status", "standard output", "meaning")
    found = {(line.strip("`"), status) for status, line, _ in rows if line.startswith("`error")}
    faults = [f"{PAGE}: has `{line}` with status {status}, but {REPORT} does not" for line, status in sorted(found - errors())]
    faults += [f"{PAGE}: lacks `{line}` with status {status} of {REPORT}" for line, status in sorted(errors() - found)]
    told = set(re.findall(r"^  (\d)  \w", read(TEXTS), re.M))
    if told != {status for status, _, _ in rows}:
        faults.append(f"{TEXTS}: the help has the statuses {sorted(told)}, {PAGE} has others")
    return faults


def query_faults(page):
    grammar = re.search(r"^## The query language\n(.*?)^## ", page, re.S | re.M)[1]
    words = {it.upper() for it in re.findall(r"'([A-Za-z]+)'", grammar)}
    faults = [f"{PAGE}: the grammar lacks the keyword {it} of {WORDS}" for it in sorted(keywords() - words)]
    return faults + [f"{PAGE}: {it} of the grammar is no keyword of {WORDS}" for it in sorted(words - keywords())]


def faults():
    """Returns a line for each place where the page and the sources differ."""
    page = read(PAGE)
    found = option_faults(page) + status_faults(page) + query_faults(page)
    shown = re.search(r"## Synopsis\n\n```text\n(.*?)\n```", page, re.S)[1].split("\n")
    if shown != synopsis():
        found.append(f"{PAGE}: the synopsis differs from USAGE of {TEXTS}")
    if read(MAN) != man_page():
        found.append(f"{MAN}: is not generated from {PAGE} as it is now")
    return found


# The man page.


def roff(text):
    """Returns a line of text for roff: code in bold, links as their text."""
    text = re.sub(r"\[([^\]]*)\]\((https?:[^)]*)\)", r"\1 (\2)", text)
    text = re.sub(r"\[([^\]]*)\]\(([^)]*)\)", r"\1", text).replace("\\|", "|")
    parts = re.split(r"(`[^`]+`|\*\*[^*]+\*\*)", text)
    made = ""
    for part in parts:
        mark = "`" if part.startswith("`") else "**" if part.startswith("**") else ""
        made += f"\\fB{escaped(part[len(mark) : -len(mark)])}\\fR" if mark else escaped(part)
    return f"\\&{made}" if made[:1] in ".'" else made


def escaped(text):
    return text.replace("\\", "\\e").replace("-", "\\-")


def man_lines(lines):
    """Translates lines of Markdown: headings, tables, lists, code blocks and paragraphs."""
    made, at = [], 0
    while at < len(lines):
        line = lines[at]
        at += 1
        if line.startswith("```"):
            end = lines.index("```", at)
            made += [".PP", ".nf", ".RS 2", *(f"\\&{escaped(it)}" for it in lines[at:end]), ".RE", ".fi"]
            at = end + 1
        elif line.startswith("## "):
            made.append(f".SH {line[3:].upper()}")
        elif line.startswith("### "):
            made.append(f".SS {line[4:]}")
        elif line.startswith("|"):
            end = next(it for it in range(at, len(lines) + 1) if it == len(lines) or not lines[it].startswith("|"))
            (head, rows), = tables("\n".join(lines[at - 1 : end]) + "\n")
            for row in rows:
                made += [".TP", roff(row[0])]
                named = [f"{name}: {cell}" if len(head) > 2 and place < len(head) - 2 else cell for place, (name, cell) in enumerate(zip(head[1:], row[1:])) if cell]
                made += "\n.br\n".join(roff(it) for it in named).split("\n")
            at = end
        elif not line.strip():
            made.append(".PP")
        else:
            end = next((it for it in range(at, len(lines)) if not lines[it].strip() or lines[it].startswith(("- ", "|", "#", "```"))), len(lines))
            text = " ".join(it.strip() for it in [line, *lines[at:end]])
            made += [".IP \\(bu 2", roff(text[2:])] if text.startswith("- ") else [roff(text)]
            at = end
    return made


def man_page():
    version = re.search(r'VERSION: &str = "([^"]+)"', read(TEXTS))[1]
    page = read(PAGE).split("\n")
    start = page.index("## Synopsis")
    lines = man_lines(page[start:])
    kept = [it for place, it in enumerate(lines) if it != ".PP" or place + 1 < len(lines) and not lines[place + 1].startswith((".PP", ".SH", ".SS", ".TP", ".IP"))]
    return "\n".join([
        f'.\\" Generated from {PAGE} by tests/pages.py.', f'.TH SPQ 1 "" "spq {version}" "User Commands"',
        ".SH NAME", f"spq \\- {escaped(DESCRIPTION)}", *kept, "",
    ])


# The queries of the tables.


def status_of(program, query):
    run = subprocess.run([program, "select", "--query", query], input=b"", capture_output=True, timeout=60)
    return run.returncode, run.stdout.decode().strip()


def codes(cell):
    return [it.replace("\\|", "|") for it in re.findall(r"`([^`]+)`", cell)]


def main():
    if len(sys.argv) != 2:
        sys.exit(__doc__)
    wrong, count = 0, 0
    for _, rejected, instead in table(read(PAGE), "SPARQL 1.1", "rejected", "write"):
        for query in codes(rejected):
            status, said = status_of(sys.argv[1], query)
            is_relative = "<p>" in query and "BASE" not in query
            if (status, said) != (2, "error: query relative iri" if is_relative else "error: query syntax"):
                print(f"not rejected as a query: {query} ({status}, {said})")
                wrong += 1
            count += 1
        for query in (it for it in codes(instead) if it.startswith("SELECT")):
            status, said = status_of(sys.argv[1], query)
            if status != 0:
                print(f"not accepted: {query} ({status}, {said})")
                wrong += 1
            count += 1
    print(f"{count - wrong} of {count} queries of {PAGE} are as it says")
    sys.exit(1 if wrong else 0)


if __name__ == "__main__":
    main()
