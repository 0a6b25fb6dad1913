"""All public calls: each has documentation, a clause, a test and a mutant, or a reason in EXEMPT.

A public call is a public function or method that a library crate offers: in a public module, or re-exported by the root of its crate.
A test counts if the call can be reached from it, perhaps through calls of other crates, and so does the program spq, which
tests/examples.py and tests/messages.py run. A mutant counts if it changes the call or a function of its crate that the call
reaches. A law runs no code, so it needs neither. All of it is found by text, as in calls.py: a call can count as tested that no
test reaches, but not the other way round.
"""
import functools
import re

from calls import INNER, PROGRAMS, by_name, code_of, defined_in, hidden, mutants_of, named_in, reached, root_of
from sources import crates, mutants

CLAUSE, TEST, MUTANT = "a clause", "a test", "a mutant"
MESSAGES = "it writes messages, on which there is no contract"
CLUSTER = "distributed/tests runs it in the program spq-part"
COUNTS = "no contract speaks of hashes and atomic counters"
EMPTY = "it has no contract: nothing depends on what it returns"
# What a call lacks, and why. A name without a call is a whole crate.
EXEMPT = {
    "cluster_parts": (CLUSTER, TEST), "part_core": (CLUSTER, TEST), "query_plan": (CLUSTER, TEST), "result_merge": (CLUSTER, TEST),
    "spq_command::message": (MESSAGES, CLAUSE), "query_notes::counts_of": (MESSAGES, CLAUSE), "query_notes::notes_on": (MESSAGES, CLAUSE),
    "query_notes::outline_of": (MESSAGES, CLAUSE), "spq_report::report": (MESSAGES, CLAUSE), "spq_report::Console::new": (MESSAGES, CLAUSE),
    "spq_report::Console::show": (MESSAGES, CLAUSE), "spq_report::Console::watch": (MESSAGES, CLAUSE),
    "spq_report::Console::end": (MESSAGES, CLAUSE), "spq_report::Console::is_watched": (MESSAGES, CLAUSE),
    "spq_report::Console::is_first_told": (MESSAGES, CLAUSE),
    "expression_errors::ErrorCounts::new": (COUNTS, CLAUSE, MUTANT), "expression_errors::ErrorCounts::place": (COUNTS, CLAUSE),
    "expression_errors::Place::note_partial": (COUNTS, CLAUSE, MUTANT), "expression_errors::Place::note_unseen": (COUNTS, CLAUSE, MUTANT),
    "expression_errors::Place::none": (COUNTS, MUTANT), "expression_errors::digest_of": (COUNTS, CLAUSE),
    "dataset_load::LoadNotes::new": (EMPTY, CLAUSE, MUTANT), "spq_run::Notes::new": (EMPTY, CLAUSE, MUTANT),
    "keyed_hash::HashState::new": (EMPTY, CLAUSE, MUTANT), "text_dict::TextDict::may_lack": ("an estimate, which decides nothing", CLAUSE),
}
# Methods whose names many types have: one counts as called only in a file that names its type.
COMMON = {"new", "len", "get", "copy", "of", "next", "push", "state", "text", "read", "run", "write", "last", "term", "quads", "piece", "index",
          "is_empty", "begin", "end", "place", "show", "name", "terms"}


def module_of(source):
    """Returns the module of the crate's root that a file belongs to."""
    return re.split(r"[/.]", source.path.removeprefix("src/"))[0]


@functools.lru_cache(maxsize=None)
def offered(crate):
    """Returns the public calls of a crate, with their files."""
    own = {it.name for it in root_of(crate).items if it.kind == "mod"}
    names = {there for path, there, is_public in root_of(crate).imports().values() if is_public and path.partition("::")[0] in own}
    modules = {it.name for it in root_of(crate).items if it.kind == "mod" and it.is_public} | {"lib"}
    found = []
    for source in code_of(crate):
        for it in source.functions:
            if it.is_public and it not in hidden(crate):
                name, home = (it.owner or it).name, defined_in(crate, (it.owner or it).name)
                if name in names or module_of(home[0] if home else source) in modules:
                    found.append((source, it))
    return found


@functools.lru_cache(maxsize=None)
def offered_by_name(crate):
    found = {}
    for source, it in offered(crate):
        found.setdefault(it.name, []).append((source, it))
    return found


@functools.lru_cache(maxsize=None)
def below(crate):
    """Returns the crates whose calls a crate can use: those that it names, and those that these re-export."""
    found = set()
    for other in (it for it in crates()[crate] if it in crates() and it not in PROGRAMS):
        found |= {other} | {path.partition("::")[0] for path, _, is_public in root_of(other).imports().values() if is_public}
    return found & crates().keys() - PROGRAMS


def methods_of(crate, source, function):
    """Returns the methods of the crate that a function may call, of types that its file names."""
    pairs = [pair for name in source.functions_used(function) & by_name(crate).keys() for pair in by_name(crate)[name]]
    return [(at, it) for at, it in pairs if it.owner and re.search(rf"\b{it.owner.name}\b", source.code)]


def called_below(crate, source, function):
    """Returns the public calls of other crates that a function may call."""
    imported = {there for _, there, _ in source.imports().values()}
    used, found = source.functions_used(function), []
    for other in below(crate):
        for name in used & offered_by_name(other).keys():
            for at, it in offered_by_name(other)[name]:
                if it.owner:
                    is_called = name not in COMMON or re.search(rf"\b{it.owner.name}\b", source.code)
                else:
                    is_called = name in imported or f"::{name}" in source.code
                if is_called:
                    found.append((other, at, it))
    return found


@functools.lru_cache(maxsize=None)
def tested():
    """Returns the functions that some test may reach, or the program spq.

    A trait's methods count as called where their file has a function that is.
    """
    left = [(crate, source, it) for crate in crates() if crate.endswith("_tests") for source in code_of(crate) for it in source.functions if source.is_test(it)]
    left += [("spq", source, it) for source in code_of("spq") for it in source.functions if it.name == "main"]
    found = set()
    while left:
        crate, source, function = left.pop()
        if function not in found:
            found.add(function)
            left += [(crate, *pair) for pair in named_in(crate, source, function) + methods_of(crate, source, function)]
            left += [(crate, source, it) for it in source.functions if it.owner and it.owner.kind == "impl" and it.owner.trait]
            left += called_below(crate, source, function)
    return found


@functools.lru_cache(maxsize=None)
def changed(crate):
    """Returns the functions of a crate that mutants change."""
    return {name for it in mutants() if it.crate == crate for name in it.names()}


def has_mutant(crate, source, function):
    return mutants_of(crate, function.path) or any(it.path in changed(crate) for it in reached(crate, [(source, function)]))


def is_law(source, function):
    """Returns whether a function only states a theorem: its body is empty, or calls other laws."""
    return source.path.startswith("src/laws") or source.path == "src/examples.rt" or any(name == "law" for _, name, _ in function.clauses)


def lacking(crate, source, function):
    has = {
        "documentation": source.doc_of(function), CLAUSE: function.clauses,
        TEST: is_law(source, function) or function in tested(), MUTANT: is_law(source, function) or has_mutant(crate, source, function),
    }
    excused = {what for name in (crate, f"{crate}::{function.path}") for what in EXEMPT.get(name, ("",))[1:]}
    return [what for what, found in has.items() if not found and what not in excused]


def faults():
    """Returns a line for each thing that a public call lacks."""
    found = []
    for crate in (it for it in crates() if it not in INNER):
        for source, it in offered(crate):
            found += [f"crates/{crate}/{source.path}: the public call {it.path} lacks {what}" for what in lacking(crate, source, it)]
    return found
