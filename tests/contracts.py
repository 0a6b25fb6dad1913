"""The table rows of docs/CONTRACTS.md, and the longer page out/CONTRACTS.md.

A row of the first has the promise, the calls and the clauses. The second adds three generated cells: the definitions that
these clauses cite, tests that call the calls, and mutants that change them.
"""
import re

PAGE, OUT = "docs/CONTRACTS.md", "out/CONTRACTS.md"
HEAD, LONG_HEAD = "| promise | call | clauses |", "| promise | call | clauses | definitions | tests | mutants |"
CALL = re.compile(r"`(\w+)::([\w:]+)`")
# The beginning of a link to another page.
PAGE_LINK = re.compile(r"\]\((?=[A-Z]|definitions)")
# How many tests and mutants a row names; it counts the others.
MOST = 2


def cells_of(line):
    return [it.strip() for it in re.split(r"(?<!\\)\|", line)[1:-1]]


def listed(names):
    more = f" and {len(names) - MOST} more" if len(names) > MOST else ""
    return ", ".join(f"`{it}`" for it in names[:MOST]) + more


def unique(items):
    return list(dict.fromkeys(items))


def rewritten(page, lookup):
    """Returns the page with the generated cells added, and a line for each fault of the others.

    `lookup(crate, path)` returns the clauses of a call with the definitions that each cites, its tests and its mutants, or
    None if there is no such call.
    """
    lines, faults, inside = [], [], False
    for number, line in enumerate(page.split("\n"), 1):
        inside = line == HEAD or inside and line.startswith("|")
        if not inside or line == HEAD or line.startswith("|---"):
            lines.append(LONG_HEAD if line == HEAD else line + "---|" * 3 if inside else PAGE_LINK.sub("](../docs/", line))
            continue
        promise, calls, clauses = cells_of(line)[:3]
        found = [(f"{crate}::{path}", lookup(crate, path)) for crate, path in CALL.findall(calls)]
        faults += [f"{PAGE}:{number}: there is no public call {name}" for name, call in found if not call]
        found = [(name, call) for name, call in found if call]
        named = re.findall(r"`(\w+)`", clauses)
        for clause in named:
            if not any(clause in call[0] for _, call in found):
                faults.append(f"{PAGE}:{number}: no call of the row has a clause {clause}")
        for name, call in found:
            if not any(clause in call[0] for clause in named):
                faults.append(f"{PAGE}:{number}: {name} has none of the clauses")
        definitions = unique(it for _, call in found for clause in named for it in call[0].get(clause, []))
        tests = unique(it for _, call in found for it in call[1])
        mutants = unique(it for _, call in found for it in call[2])
        cells = [PAGE_LINK.sub("](../docs/", promise), calls, clauses, ", ".join(definitions) or "none", listed(tests) or "none", listed(mutants) or "none"]
        lines.append("| " + " | ".join(cells) + " |")
    return "\n".join(lines), faults
