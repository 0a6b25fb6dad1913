"""The quotes and lists of docs/THEOREM.md, and the check that the page explains each quoted line.

A quote is generated. The explanations are rows of tables that a person writes: the first cell of a row says how one or more lines
of a quote begin. A quoted line without a row, and such a beginning that is not of exactly one quoted line, are reported.
Parameters, the type of a result, and the fields of a record need no row.
"""
import functools
import os
import re

from sources import ROOT, sources_of

PAGE = "docs/THEOREM.md"
OUTCOME = "crates/spq_core/specs/Outcome.antt"
# The two calls of the theorem.
CALLS = {"answer": "src/answering.rt", "run_words": "src/words.rt"}
USE = re.compile(r"^(?:pub )?use Rattle\.([\w.'-]+?)(?:\.\{[^}]*\}| as \w+)?$", re.M)
ROW = re.compile(r"^\| (`.+?`(?:, `.+?`)*) \| (.+) \|$", re.M)
# A parameter of a call, or the end of its parameters.
PARAMETER = re.compile(r"[a-z_]+: [^{}]*,$|>?\(.*\) ->|\) ->")
# A field of a record, or a constructor.
FIELD = re.compile(r"  (?:pub )?\w+ : ")


def read(path):
    with open(f"{ROOT}/{path}", encoding="utf-8") as file:
        return file.read()


# The quotes.


@functools.lru_cache(maxsize=None)
def call(name):
    """Returns the file and the function of a call of the theorem."""
    source = sources_of("spq_core")[CALLS[name]]
    return source, next(it for it in source.functions if it.path == name and it.is_public)


def contract(name):
    """Returns the signature and the clauses of a call, as they are in the source."""
    source, function = call(name)
    return source.text[function.start : function.body[0]].rstrip().split("\n")


def quote(name):
    source, _ = call(name)
    return [f"From [crates/spq_core/{source.path}](../crates/spq_core/{source.path}):", "", "```rust", *contract(name), "```", ""]


def outcome_part():
    """Returns the definition of a result as it is in the source, without its imports."""
    lines = [it for it in read(OUTCOME).rstrip("\n").split("\n") if not it.startswith("use ")]
    return [f"From [{OUTCOME}](../{OUTCOME}), without its imports:", "", "```text", *lines, "```", ""]


def logical_lines(lines, deepest):
    """Joins each line with the lines after it that are indented by more than `deepest`. Leaves out comments and imports."""
    found = []
    for line in lines:
        text = line.strip()
        if not text or text.startswith(("--", "use ", "//")):
            continue
        if found and (len(line) - len(line.lstrip()) > deepest):
            found[-1] += " " + text
        else:
            found.append(text)
    return found


def explained_lines():
    """Returns the lines that the page has to explain."""
    found = []
    for name in CALLS:
        found += [it for it in logical_lines(contract(name), 4) if not PARAMETER.match(it)]
    return found + logical_lines([it for it in read(OUTCOME).split("\n") if not FIELD.match(it)], 2)


# The definition files.


@functools.lru_cache(maxsize=None)
def file_of(module):
    """Returns the definition file of a module path, or None."""
    crate, _, rest = module.partition(".specs.")
    parts = rest.split(".")
    for count in range(len(parts), 0, -1):
        path = f"crates/{crate}/specs/{'/'.join(parts[:count])}.antt"
        if os.path.isfile(f"{ROOT}/{path}"):
            return path
    return None


@functools.lru_cache(maxsize=None)
def cited_by(path):
    """Returns the definition files whose names a definition file imports."""
    return sorted({file_of(it) for it in USE.findall(read(path))} - {None})


def cited_by_call(name):
    """Returns the definition files that the clauses of a call cite."""
    source, function = call(name)
    clauses = " ".join(text for _, _, text in function.clauses)
    modules = source.definitions_at(function)
    named = [module for it, module in modules.items() if re.search(rf"(?<![\w.'◌]){re.escape(it)}(?![\w'])", clauses)]
    return {file_of(it) for it in named} - {None}


def all_below(paths):
    """Returns these definition files and all that they depend on."""
    found, left = set(), list(paths)
    while left:
        path = left.pop()
        if path not in found:
            found.add(path)
            left += cited_by(path)
    return found


@functools.lru_cache(maxsize=None)
def height(path):
    return 1 + max((height(it) for it in cited_by(path)), default=0)


def count_lines(path):
    return len(read(path).splitlines())


def crate_of(path):
    return path.split("/")[1]


def layers(paths):
    """Returns the layer of each crate of some definition files. A crate is above those whose files its own files cite."""
    below = {}
    for path in paths:
        below.setdefault(crate_of(path), set()).update(crate_of(it) for it in cited_by(path))

    @functools.lru_cache(maxsize=None)
    def layer(crate):
        return 1 + max((layer(it) for it in below.get(crate, set()) - {crate} if it in below), default=0)

    return {crate: layer(crate) for crate in below}


def table_of(paths):
    """Returns a row for each crate, the lowest first, with its definition files. An asterisk marks those that only `run_words` needs."""
    layer, of_answer = layers(paths), all_below(cited_by_call("answer"))
    lines = ["| layer | crate | definition files | lines |", "|---|---|---|---|"]
    for crate in sorted(layer, key=lambda it: (layer[it], it)):
        own = sorted((it for it in paths if crate_of(it) == crate), key=lambda it: (height(it), it))
        names = [name_of(it) + ("" if it in of_answer else "*") for it in own]
        lines.append(f"| {layer[crate]} | {crate} | {', '.join(names)} | {sum(map(count_lines, own)):,} |")
    return lines


def name_of(path):
    return path.partition("/specs/")[2].removesuffix(".antt")


def files_part():
    """Returns the definition files on which the contracts of the two calls depend."""
    of_answer = all_below(cited_by_call("answer"))
    paths = of_answer | all_below(cited_by_call("run_words"))
    own = len(paths) - len(of_answer)
    total = f"{len(paths)} files `crates/CRATE/specs/NAME.antt`, {sum(map(count_lines, paths)):,} lines."
    return [f"{total} With an asterisk: {own} files that `run_words` depends on and `answer` does not.", "", *table_of(paths), ""]


PARTS = {
    "answer": lambda: quote("answer"),
    "run_words": lambda: quote("run_words"),
    "outcome": outcome_part,
    "files": files_part,
}


def faults(hand_written):
    """Returns a line for each quoted line that the page does not explain, and for each explanation of no quoted line.

    `hand_written` is the page without its generated parts.
    """
    tables = re.sub(r"^\| crate \|.*?(?=^[^|]|\Z)", "", hand_written, flags=re.S | re.M)  # (the table of names explains no line)
    rows, lines = [it for cell, _ in ROW.findall(tables) for it in re.findall(r"`([^`]+)`", cell)], explained_lines()
    begun = {row: [it for it in lines if it.startswith(row)] for row in rows}
    found = [f"{PAGE}: no row explains the line `{it}`" for it in lines if not any(it in begun[row] for row in rows)]
    return found + [f"{PAGE}: {len(begun[it])} quoted lines begin with `{it}`, and not one" for it in rows if len(begun[it]) != 1]
