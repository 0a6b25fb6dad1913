"""Public calls as the sources have them: where a name comes from, what a clause cites, which tests call a function, and which
mutants change it. All of it is found by text (sources.py)."""
import functools
import os
import re

from sources import GHOST_MEMBER, ROOT, crates, mutants, prover_path, sources_of

# The programs, and the crate of tests: none of them offers a public call.
PROGRAMS = {it for it in crates() if not os.path.exists(f"{ROOT}/crates/{it}/src/lib.rt")}
INNER = PROGRAMS | {it for it in crates() if it.endswith("_tests")}
# Methods whose names standard types have too: a call counts only on a receiver with one of these names.
RECEIVERS = {
    "Term": "term", "Pass": "pass|a|b", "Dict": "dict|dictionary", "Rows": "rows|left|right", "Source": "source|reader|device",
    "Sink": "sink|writer|device", "Job": "job", "Lookup": "row", "Blocks": "blocks", "Cuts": "cuts", "Index": "index",
    "Store": "store", "LocalPiece": "piece|local", "QuadList": "list|gspo|gpos|gosp", "Quads": "quads|found",
}
# Types that a call returns, so that a file may use their methods without naming them.
INFERRED = {"Index", "Store"}
COMMON = {"copy", "get", "last", "len", "next", "quads", "read", "run", "term", "write", "piece", "index"}


def spelled(names):
    return ", ".join(f"`{it}`" for it in names)


def code_of(crate):
    return sources_of(crate).values()


@functools.lru_cache(maxsize=None)
def root_of(crate):
    return sources_of(crate)["src/lib.rt"]


# Where a name comes from.


@functools.lru_cache(maxsize=None)
def defined_in(crate, name):
    """Returns the file and the item of this public type or function of the crate, or None."""
    for source in code_of(crate):
        for item in source.items + [it for it in source.functions if not it.owner]:
            if item.name == name and item.is_public and item.kind not in ("impl", "mod", "const"):
                return source, item
    return None


@functools.lru_cache(maxsize=None)
def exported_from(crate, name):
    """Returns the crate and the name that this crate re-exports under a name, or None."""
    path, there, is_public = root_of(crate).imports().get(name, ("", "", False))
    first = path.partition("::")[0]
    return (first, there) if is_public and first in crates() else None


@functools.lru_cache(maxsize=None)
def origin(crate, name):
    """Returns the crate that defines what a crate offers under this name, and its name there, or None."""
    if defined_in(crate, name):
        return crate, name
    further = exported_from(crate, name)
    return origin(*further) if further else None


@functools.lru_cache(maxsize=None)
def found_at(home, name):
    """Returns the crate that defines the name that this crate should offer, its name there, and whether the crate offers it."""
    offered = origin(home, name)
    if offered:
        return *offered, True
    other = [it for it in crates() if it not in INNER and defined_in(it, name)]
    return (other[0] if len(other) == 1 else "", name, False)


@functools.lru_cache(maxsize=None)
def re_exporters(crate, name):
    """Returns the crates that re-export this name of the crate, also under another name."""
    others = [it for it in crates() if it not in INNER and it != crate]
    return [it for it in others if any(exported_from(it, here) and origin(it, here) == (crate, name) for here in root_of(it).imports())]


def call_at(home, path):
    """Returns the file and the function of a public call, or None."""
    name = path.partition("::")[0]
    crate, there, _ = found_at(home, name)
    if not crate:
        return None
    full = path.replace(name, there, 1)
    for source in code_of(crate):
        for it in source.functions:
            if it.path == full and (it.is_public or it.owner and it.owner.kind == "trait"):
                return source, it
    return None


# What a clause cites.


@functools.lru_cache(maxsize=None)
def trait_members():
    """Returns the definitions that traits of the repository declare: `[(member, file, trait), ..]`."""
    traits = [(source, it) for crate in crates() for source in code_of(crate) for it in source.items if it.kind == "trait"]
    return [(member, source, it.name) for source, it in traits for member in GHOST_MEMBER.findall(source.code, it.start, it.end)]


def bounds_at(source, function):
    """Returns the bounds of the type parameters of a function and of its block: `{letter: text}`."""
    block = source.code[function.owner.start : source.code.find("{", function.owner.start)] if function.owner else ""
    bounds = {}
    for letter, bound in re.findall(r"\b([A-Z]): ([^,>]*)", block + "\n" + function.signature):
        bounds[letter] = bounds.get(letter, "") + " " + bound
    return bounds


def mentions(name, clause):
    """Returns whether a clause uses a name, or all parts of an operator such as `◌≡◌`."""
    if name.endswith("."):
        return re.search(rf"(?<![\w.']){re.escape(name)}", clause) is not None
    return all(re.search(rf"(?<![\w.']){re.escape(part)}(?![\w'])" if part[0].isalnum() else re.escape(part), clause) for part in name.split("◌") if part.strip())


def definition_file(module):
    """Returns the crate and the name of the definition file of a module path, or None."""
    crate, _, rest = module.partition(".specs.")
    name = rest.partition(".")[0]
    return (crate, name) if os.path.isfile(f"{ROOT}/crates/{crate}/specs/{name}.antt") else None


def cited(source, function, clause):
    """Returns links to the definitions that a clause of the function cites."""
    modules = source.definitions_at(function)
    files = {definition_file(module) for name, module in modules.items() if mentions(name, clause)} - {None}
    links = [f"[{crate}/{name}](../crates/{crate}/specs/{name}.antt)" for crate, name in sorted(files)]
    traits, bounds = set(), bounds_at(source, function)
    for member, place, trait in trait_members():
        within = function.owner and function.owner.kind == "trait" and function.owner.name == trait
        letters = re.findall(rf"(?<![\w.'])([A-Z])\.{member}(?![\w'])", clause)
        if any(re.search(rf"\b{trait}\b", bounds.get(it, trait)) for it in letters) or within and re.search(rf"(?<![\w.']){member}(?![\w'])", clause):
            traits.add(f"[{trait}::{member}](../crates/{place.crate}/{place.path})")
    return links + sorted(traits)


# Who calls what, by text.


def reached(crate, start):
    """Returns the functions of the crate that these functions may call: every function of a name that occurs, of the same file where it has one."""
    found, left = set(), list(start)
    while left:
        source, function = left.pop()
        if function in found:
            continue
        found.add(function)
        left += [pair for pair in named_in(crate, source, function) if pair[1] not in found]
    return found


@functools.lru_cache(maxsize=None)
def by_name(crate):
    found = {}
    for source in code_of(crate):
        for it in source.functions:
            found.setdefault(it.name, []).append((source, it))
    return found


@functools.lru_cache(maxsize=None)
def named_in(crate, source, function):
    found = []
    for name in source.functions_used(function) & by_name(crate).keys():
        pairs = by_name(crate)[name]
        here = [pair for pair in pairs if pair[0] is source]
        found += here or [pair for pair in pairs if name in source.imports() or pair[1].owner or f"::{name}" in source.code]
    return found


def calls_it(source, text, crate, call):
    """Returns whether the body of a function, in a file of another crate, calls a public function."""
    if not call.owner:
        offering = [crate, *re_exporters(crate, call.name)]
        local = [here for here, (path, there, _) in source.imports().items() if there == call.name and path.partition("::")[0] in offering]
        names = local + [rf"{it}::{call.name}" for it in offering]
        return any(re.search(rf"(?<![\w.:]){it}\b", text) for it in names)
    kind, name = call.owner.name, call.name
    if re.search(rf"\b{kind}::{name}\b", text):
        return True
    rest = r"(?!\s*\))" if call.takes_more else r"\s*\)"
    receiver = rf"\b(?:\w+_)?(?:{RECEIVERS.get(kind, kind.lower())})" if name in COMMON else ""
    return re.search(rf"{receiver}\.{name}\({rest}", text) is not None and (name in COMMON or kind in INFERRED or re.search(rf"\b{kind}\b", source.code) is not None)


@functools.lru_cache(maxsize=None)
def tests_of(crate):
    """Returns the tests of a crate, under the names by which they are run, with the functions that each reaches."""
    place = {it: source for source in code_of(crate) for it in source.functions}
    tests = [(source, it) for it, source in place.items() if source.is_test(it)]
    named = [(prover_path(sources_of(crate), source.path, it), source, it) for source, it in tests]
    return [(name, [(place[other], other) for other in reached(crate, [(source, it)])]) for name, source, it in named]


@functools.lru_cache(maxsize=None)
def callers(crate, call):
    """Returns the tests that call a function, by crate: `{crate: [test, ..]}`."""
    found = {}
    for tests in (it for it in crates() if it.endswith("_tests")):
        calling = {it for source in code_of(tests) for it in source.functions if calls_it(source, source.body_of(it), crate, call)}
        names = [name for name, functions in tests_of(tests) if any(it in calling for _, it in functions)]
        if names:
            found[tests] = sorted(names)
    return found


# Mutants of a call.


@functools.lru_cache(maxsize=None)
def own_helpers(crate):
    """Returns the private functions that one other function alone reaches: `{name: path of that one}`."""
    private = hidden(crate)
    roots = [(source, it) for source in code_of(crate) for it in source.functions if it not in private]
    users = {}
    for source, root in roots:
        seen, left = set(), [(source, root)]
        while left:
            at, function = left.pop()
            for name in at.functions_used(function) & by_name(crate).keys():
                for pair in by_name(crate)[name]:
                    if pair[1] in private and pair[1] not in seen:
                        seen.add(pair[1])
                        left.append(pair)
        for it in seen:
            users.setdefault(it.path, set()).add(root.path)
    return {path: next(iter(it)) for path, it in users.items() if len(it) == 1}


@functools.lru_cache(maxsize=None)
def hidden(crate):
    """Returns the functions of a crate that no other crate can call."""
    sources = code_of(crate)
    types = {it.name for source in sources for it in source.items if it.kind in ("struct", "enum") and not it.is_public}
    functions = [it for source in sources for it in source.functions]
    return {it for it in functions if it.is_private or it.is_public and it.owner and it.owner.name in types}


def mutants_of(crate, path):
    """Returns the mutants that change a function, or a helper that it alone reaches, as the page shows them.

    If there are none: those of the private functions that it reaches and others reach too.
    """
    helpers = own_helpers(crate)
    shown = []
    for it in mutants():
        if it.crate != crate:
            continue
        inside = [name for name in it.names() if helpers.get(name) == path]
        if path in it.names():
            shown.append(f"`{it.name}`")
        elif inside:
            shown.append(f"`{it.name}` (in {spelled(inside)})")
    return shown or shared_mutants(crate, path)


def shared_mutants(crate, path):
    start = [(source, it) for source in code_of(crate) for it in source.functions if it.path == path]
    shared = {it.path for it in reached(crate, start) if it in hidden(crate)}
    found = [(it, [name for name in it.names() if name in shared]) for it in mutants() if it.crate == crate]
    shown = [f"`{it.name}` (in {spelled(names)})" for it, names in found if names]
    return ["of helpers that other calls use too: " + shown[0], *shown[1:]] if shown else []


@functools.lru_cache(maxsize=None)
def implementers(trait):
    """Returns the types that implement a trait of the repository, outside of programs, with their crates."""
    places = [(crate, source) for crate in crates() if crate not in INNER or crate.endswith("_tests") for source in code_of(crate)]
    return sorted({(crate, it.name) for crate, source in places for it in source.items if it.kind == "impl" and it.trait == trait})


def mutants_of_methods(trait, method):
    """Returns the mutants that change this method where a type implements the trait."""
    paths = {(crate, f"{name}::{method}") for crate, name in implementers(trait)}
    return [f"`{it.crate}/{it.name}` (in {spelled(it.names())})" for it in mutants() if any((it.crate, name) in paths for name in it.names())]


# The rows of CONTRACTS.md.


def tests_calling(crate, call):
    """Returns the tests that call a function, the one that reaches the fewest functions first."""
    found = []
    for tests, names in callers(crate, call).items():
        found += [(len(functions), f"{tests}::{name}") for name, functions in tests_of(tests) if name in names]
    return [name for _, name in sorted(found)]


@functools.lru_cache(maxsize=None)
def contract_of(crate, path):
    """Returns the clauses of a public function with the definitions that each cites, its tests and its mutants, or None."""
    if crate not in crates():
        return None
    for source in code_of(crate):
        for it in source.functions:
            if it.path == path and it.is_public:
                clauses = {name or kind: cited(source, it, text) for kind, name, text in it.clauses if kind == "ensures"}
                changing = [mutant for mutant in mutants() if mutant.crate == crate and any(own_helpers(crate).get(name, name) == path for name in mutant.names())]
                changing.sort(key=lambda mutant: (not mutant.in_gate, mutant.name))
                return clauses, tests_calling(crate, it), [f"{crate}/{mutant.name}" for mutant in changing]
    return None
