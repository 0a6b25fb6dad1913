"""The public calls: which there are, what their clauses cite, which tests call them and which mutants change them.

`page` generates out/API.md, which leads from each call of the main interface to its contract, tests and mutants. `faults`
checks that each of these calls has documentation, a clause, a test and a mutant.
"""
import re

from calls import (
    INNER, call_at, callers, cited, defined_in, found_at, implementers, mutants_of, mutants_of_methods, re_exporters, spelled,
)

PAGE = "out/API.md"
# Tests that the page names for one call and one crate; it counts the others.
MOST_TESTS = 6
# The public calls and types, by the crate that offers them and by topic.
SECTIONS = [
    ("rdf_core", "Terms, quads and their N-Quads form", ["equality_is_identity", "order_is_by_parts", "Term::copy", "Quad::of", "Quad::copy", "write_term"], ["Term", "Text", "Quad"]),
    ("nquads_core", "Reading N-Quads", ["read_line", "read_piece", "read_term"], ["Piece", "RawStatement", "LineFault", "PieceFault"]),
    ("nquads_core", "Readers and writers", ["Source::read", "Sink::write"], ["Source", "Sink", "Device", "DeviceFailed"]),
    ("piece_board", "The claim board of the workers",
     ["Board::open", "Board::seats", "Board::draw", "Board::report", "Board::least", "Pass::skip", "Pass::last", "Pass::seen", "Pass::is_finished", "Board::close"],
     ["Board", "Pass", "Closed", "BoardFault"]),
    ("piece_pool", "Cutting a document in memory", ["Cuts::every", "Cuts::of", "Cuts::fits", "Cuts::pieces", "Cuts::piece"], ["Cuts"]),
    ("piece_pool", "Running a job in parallel",
     ["Job::run", "Gate::enter", "Gate::leave", "run_pieces", "work", "gather"],
     ["Job", "JobFault", "Gate", "OpenGate", "Outcome", "PoolFault", "Worked"]),
    ("piece_pool", "Reading a document block by block", ["Blocks::new", "Blocks::next"], ["Blocks", "BlockFault"]),
    ("dict_core", "The dictionary of terms", ["Dict::new", "Dict::intern", "Dict::number_of", "Dict::term", "Dict::len"], ["Dict"]),
    ("dict_core", "Numbering the quads of pieces", ["number_piece", "merge"], ["NumQuad", "LocalPiece"]),
    ("quad_index", "The index of quads", ["Index::build", "Index::scan", "Index::graphs", "Index::quads"], ["Index"]),
    ("sparql_read", "Reading a query", ["read_query"],
     ["Query", "Selection", "Element", "Triple", "VarOrTerm", "VarOrIri", "Expression", "Function", "Comparison", "QueryFault"]),
    ("sparql_algebra", "Translation to the algebra", ["translate"], ["Plan", "Operator", "TriplePattern", "PatternTerm", "GraphName"]),
    ("sparql_algebra", "Expressions", ["value", "Lookup::get", "truth", "compare"], ["Expr", "Lookup", "ExprFault", "Comparison", "Function"]),
    ("sparql_eval", "Rows of solutions", ["Rows::width", "Rows::len", "Rows::get"], ["Rows", "How", "EvalFault"]),
    ("sparql_eval", "Evaluation of a plan", ["evaluate"], []),
    ("sparql_eval", "The operators of the algebra",
     ["pattern", "join", "left_join", "union", "minus", "graph", "filter", "extend", "project", "distinct", "table"], ["Keyed"]),
    ("spq_core", "Loading a dataset",
     ["load", "load_blocks", "Store::dict", "Store::index", "Store::quads", "Store::terms", "Store::graphs"], ["Store", "LoadFault"]),
    ("dataset_load", "Loading from a reader", ["load_reader", "count_reader", "load_terms", "read_blocks"], ["LoadNotes", "Counted", "ReaderFault"]),
    ("spq_core", "Evaluating a query", ["answer"], ["Fault"]),
    ("spq_core", "The program", ["read_command", "run", "run_words"], ["Command", "CommandFault", "Ran"]),
    ("spq_run", "The end of the program", ["write_fault", "finish", "status"], ["RunFault"]),
]


# Calls that lack one of the four, and why.
EXEMPT = {
    "Gate::enter": "no contract mentions a gate: it only reports and stops",
    "Gate::leave": "no contract mentions a gate: it only reports and stops",
    "Lookup::get": "the types that implement it are rows of other crates, whose own mutants change it",
}


def first_sentence(doc):
    paragraph = " ".join(doc.split("\n\n")[0].split("\n"))
    plain = re.sub(r"\[(`[^`]+`)\](?:\([^)]*\))?", r"\1", paragraph).replace("|", "\\|")
    return re.split(r"(?<=[^.]\.)\s", plain, maxsplit=1)[0]


def clause_rows(source, function):
    rows = [f"| {kind} `{name}` | {', '.join(cited(source, function, text))} |" for kind, name, text in function.clauses]
    return ["| clause | definitions |", "|---|---|", *rows] if rows else ["It has no clause."]


def test_lines(crate, function):
    lines = []
    for tests, names in callers(crate, function).items():
        more = f" and {len(names) - MOST_TESTS} more" if len(names) > MOST_TESTS else ""
        lines.append(f"{tests}: {spelled(names[:MOST_TESTS])}{more}")
    return "; ".join(lines) or "no test"


def implementer_lines(trait):
    """Returns the lines that list the types that implement a trait: those of the program, and those of tests."""
    found = implementers(trait)
    lines = [f"- Implemented by: {spelled(sorted({name for crate, name in found if crate not in INNER})) or 'tests only'}"]
    for_tests = [f"`{name}` ({crate})" for crate, name in found if crate in INNER]
    return lines + ([f"- Implemented for tests by: {', '.join(for_tests)}"] if for_tests else [])


def call_lines(home, path):
    at = call_at(home, path)
    if not at:
        return [f"### `{path}`", "", "There is no such function.", ""]
    source, function = at
    crate = found_at(home, path.partition("::")[0])[0]
    exporters = re_exporters(crate, path.partition("::")[0])
    others = f", re-exported by {spelled(exporters)}" if exporters else ""
    lines = [f"### `{path}`", "", "```rust", *function.signature.split("\n"), "```", ""]
    lines += [f"Defined in [{crate}](../crates/{crate}/{source.path}){others}.", "", *clause_rows(source, function), ""]
    shown = mutants_of(crate, function.path)
    if function.owner and function.owner.kind == "trait":
        lines += implementer_lines(function.owner.name)
        shown = mutants_of_methods(function.owner.name, function.name)
    lines += [f"- Called by: {test_lines(crate, function)}"]
    return lines + [f"- Mutants: {', '.join(shown) or 'none'}", ""]


def type_row(home, name):
    crate, there, is_offered = found_at(home, name)
    if not is_offered:
        return f"| `{name}` | | | |"
    source, item = defined_in(crate, there)
    return f"| `{name}` | [{crate}](../crates/{crate}/{source.path}) | {spelled(re_exporters(crate, there))} | {first_sentence(source.doc_of(item))} |"


def calls_part():
    lines = []
    for home, topic, calls, types in SECTIONS:
        lines += [f"## {topic} (`{home}`)", ""]
        if types:
            lines += ["| type | defined in | re-exported by | what it is |", "|---|---|---|---|", *(type_row(home, it) for it in types), ""]
        for path in calls:
            lines += call_lines(home, path)
    return lines


HEAD = """# Public calls

This page leads from the calls of the main interface to their contracts, tests and mutants. The calls are grouped by the
crate that offers them to users and by topic. Other calls are public because another crate of this project uses them: they
are not on this page. [CONTRACTS.md](../docs/CONTRACTS.md) has the most important of these, and the source of each call has its contract.
`just api` generates this page.

- **Clauses** are the names of the contract's `requires` and `ensures`. Next to each clause are the definitions that it
  cites: files in the folder `specs` of a crate, or definitions that a trait declares. If there is none, the clause
  uses only its arguments and the standard library's definitions. [DEFINITIONS.md](../docs/DEFINITIONS.md) explains the definitions.
- **Called by** names the tests whose text, or the text of a helper that they use, calls the function. The search is by
  name, so it can list a test too many. For a method whose name other types have too, such as `len`, only calls on
  variables of the usual names count (`rows.len()`), so it can miss one. A method of a trait is called inside the library:
  there the list of the tests' own types that implement the trait shows how it is tested. A law runs no code, so it has no test.
- **Mutants** are edits that make the function wrong and that the prover must reject ([MUTANTS.md](../docs/MUTANTS.md)). An
  edit of a private function is listed if this call alone reaches it. A call with no such mutant has those of the private
  functions that it shares with other calls. For a method of a trait, the mutants are those of the types that implement it.
"""


def page():
    return "\n".join([HEAD, *calls_part()])


def lacking(home, path):
    """Returns what a call of the main interface lacks. A law runs no code; a method of a trait is tested by the types that implement it."""
    at = call_at(home, path)
    if not at:
        return ["a definition"]
    (source, function), crate = at, found_at(home, path.partition("::")[0])[0]
    of_trait = function.owner is not None and function.owner.kind == "trait"
    is_law = any(name == "law" for _, name, _ in function.clauses)
    has = {
        "documentation": source.doc_of(function), "a clause": function.clauses,
        "a test": is_law or (implementers(function.owner.name) if of_trait else callers(crate, function)),
        "a mutant": is_law or (mutants_of_methods(function.owner.name, function.name) if of_trait else mutants_of(crate, function.path)),
    }
    return [what for what, found in has.items() if not found]


def faults():
    """Returns a line for each call of the main interface that lacks documentation, a clause, a test or a mutant, and for each name
    that its crate does not offer."""
    found = []
    for home, _, calls, types in SECTIONS:
        found += [f"tests/api.py: {home} does not offer {it}" for it in types + calls if not found_at(home, it.partition("::")[0])[2]]
        for path in (it for it in calls if it not in EXEMPT):
            found += [f"tests/api.py: {home}::{path} lacks {what}" for what in lacking(home, path)]
    return found
