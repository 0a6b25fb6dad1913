#!/usr/bin/env python3
"""Runs the test suites of the W3C: RDF 1.1 N-Quads, and syntax and query evaluation of SPARQL 1.0 and 1.1.

    w3c.py DIR [PROGRAM]             runs the suites below DIR with the program (crates/spq/out/spq where none is given)
    w3c.py DIR [PROGRAM] --fetch     gets them from Debian's source package of rdflib first, if DIR has none

The suites are as the W3C publishes them, with manifests in Turtle. Reading them needs rdflib and serdi (Debian:
python3-rdflib, serdi). A test passes if

- a document or query that the W3C calls bad is rejected: status 1 and 2;
- a document that it calls good is accepted;
- a query that it calls good is accepted, or rejected as a query if it uses what the language of docs/USAGE.md leaves out;
- the solutions of a query are the expected multiset, up to the labels of blank nodes, and the notes on standard error are those of
  tests/w3c-notes.txt, or none.

w3c_queries.py says which queries are outside of the language, and writes some of them with the means of the language, with the
same solutions ('adapted': ORDER BY without LIMIT, an expression after SELECT, VALUES after the group, FROM, relative IRIs, ASK,
REDUCED). tests/w3c-left-out.txt lists the tests that are not run, each with the reason. A report in EARL goes to
out/w3c-earl.ttl. Exits with 1 if a test fails. --write puts the table into docs/COMPARISON.md.

With --gate a machine that lacks the programs or cannot get the suites is no error: one line says so. It is an error if
docs/COMPARISON.md has another table.
"""
import argparse
import collections
import concurrent.futures
import fnmatch
import os
import re
import shutil
import subprocess
import sys

sys.dont_write_bytecode = True
from w3c_fetch import Missing, fetch, install_packages

HERE = os.path.dirname(os.path.abspath(__file__))
ROOT = os.path.dirname(HERE)
LEFT_OUT, NOTES, EARL = f"{HERE}/w3c-left-out.txt", f"{HERE}/w3c-notes.txt", f"{ROOT}/out/w3c-earl.ttl"
PAGE = f"{ROOT}/docs/COMPARISON.md"
PART = re.compile(r"(<!-- generated: w3c, by tests/w3c\.py --write -->\n).*?(<!-- end of the generated part -->)", re.S)
PASSED, FAILED, OUTSIDE, UNTESTED = "passed", "failed", "inapplicable", "untested"
Outcome = collections.namedtuple("Outcome", "test outcome is_adapted detail")


def with_packages():
    """Returns the functions that read the suites. Runs this script again with Debian's Python if this one lacks rdflib."""
    try:
        import w3c_read
    except ImportError:
        if sys.executable != "/usr/bin/python3" and os.path.exists("/usr/bin/python3"):
            os.execv("/usr/bin/python3", ["/usr/bin/python3", *sys.argv])
        raise Missing("rdflib is not installed (Debian: python3-rdflib)")
    if not shutil.which("serdi"):
        raise Missing("serdi is not installed")
    return w3c_read


# Running a test.


def run_with_notes(program, words, document):
    """Runs the program and returns its status, what it wrote, and its notes."""
    ran = subprocess.run([program, *words], input=document, capture_output=True, timeout=120)
    notes = [it.removeprefix("spq: note: ") for it in ran.stderr.decode("utf-8", "replace").splitlines()]
    return ran.returncode, ran.stdout.decode("utf-8", "replace").rstrip("\n"), notes


def run(program, words, document):
    """Runs the program and returns its status and what it wrote."""
    return run_with_notes(program, words, document)[:2]


def selected(program, query, document=b""):
    return run(program, ["select", "--query", query], document)


def by_status(test, ran, wanted):
    status, said = ran
    return Outcome(test, PASSED if status == wanted else FAILED, False, f"status {status}, {said[:60]}, expected {wanted}")


def rejected_as_outside(test, ran, reasons):
    """A query with a part that the language leaves out is rejected as a query: by the syntax, or by the relative IRI if that is all."""
    line = "error: query relative iri" if reasons == {"a relative IRI"} else "error: query syntax"
    is_rejected = ran == (2, line)
    return Outcome(test, OUTSIDE if is_rejected else FAILED, False, f"{sorted(reasons)}: status {ran[0]}, {ran[1][:60]}")


def run_document(program, test, read):
    with open(test.path(test.query), "rb") as file:
        return by_status(test, run(program, ["check"], file.read()), 0 if test.kind == read.GOOD else 1)


def run_syntax(program, test, read, queries):
    ran = selected(program, test.text())
    if test.kind == read.BAD:
        return by_status(test, ran, 2)
    reasons = queries.outside(test.text())
    return rejected_as_outside(test, ran, reasons) if reasons else by_status(test, ran, 0)


def run_evaluation(program, test, read, queries):
    text = test.text()
    query, default, named = queries.adapted(text, str(test.query))
    reasons = queries.outside(query)
    if reasons:
        return rejected_as_outside(test, selected(program, query), reasons)
    if default or named:
        document = read.document(test, default, [(it, it) for it in named])
    else:
        document = read.document(test, test.data, test.named)
    status, said, notes = run_with_notes(program, ["select", "--query", query], document.encode())
    if status != 0:
        return Outcome(test, FAILED, query != text, f"status {status}, {said[:80]}")
    detail = difference(read, test, read.expected(test), read.of_json(said))
    if notes != EXPECTED_NOTES.get(test.name, []):
        detail = detail or f"the notes {notes}"
    return Outcome(test, FAILED if detail else PASSED, query != text, detail)


def difference(read, test, wanted, result):
    """Returns how the result differs from the expected one, or an empty text."""
    if isinstance(wanted, bool):
        return "" if wanted == bool(result[1]) else f"expected {wanted}, found {len(result[1])} solutions"
    if test.result.endswith(".csv"):
        result = read.as_csv(result)
    if set(wanted[0]) - set(result[0]) or test.result.endswith(".srx") and set(wanted[0]) != set(result[0]):
        return f"expected the variables {wanted[0]}, found {result[0]}"
    left, right = wanted[1], result[1]
    if test.is_lax:
        left, right = distinct(left), distinct(right)
    return "" if are_same(left, right) else f"expected {left}, found {right}"


def distinct(solutions):
    return [dict(it) for it in {tuple(sorted(row.items())) for row in solutions}]


def are_same(left, right):
    """Returns whether two multisets of solutions are equal up to a one-to-one renaming of their blank nodes."""
    if len(left) != len(right):
        return False
    order = sorted(left, key=lambda row: sum(term[0] == "bnode" for term in row.values()))
    return matched(order, list(right), {}, {})


def matched(left, right, there, back):
    """Matches the first solution with each of the others in turn, under the names found so far."""
    if not left:
        return True
    for place, row in enumerate(right):
        names = renamed(left[0], row, there, back)
        if names and matched(left[1:], right[:place] + right[place + 1 :], *names):
            return True
    return False


def renamed(row, other, there, back):
    """Returns the names of blank nodes with which two solutions are equal, or None."""
    if row.keys() != other.keys():
        return None
    there, back = dict(there), dict(back)
    for name, term in row.items():
        found = other[name]
        if term[0] == "bnode" and found[0] == "bnode":
            if there.setdefault(term[1], found[1]) != found[1] or back.setdefault(found[1], term[1]) != term[1]:
                return None
        elif term != found:
            return None
    return there, back


def run_test(program, test, read, queries, left_out):
    reason = next((why for name, why in left_out if fnmatch.fnmatchcase(test.name, name)), None)
    if reason:
        return Outcome(test, UNTESTED, False, reason)
    try:
        if test.suite == "RDF 1.1 N-Quads":
            return run_document(program, test, read)
        if test.kind == read.EVALUATION:
            return run_evaluation(program, test, read, queries)
        return run_syntax(program, test, read, queries)
    except (OSError, ValueError, KeyError, TypeError, subprocess.SubprocessError) as fault:
        return Outcome(test, FAILED, False, f"{type(fault).__name__}: {fault}")


# Reports.


def read_list(path):
    """Returns the tests of a list, each with what its line says of it."""
    with open(path, encoding="utf-8") as file:
        return [tuple(it.strip() for it in line.split(": ", 1)) for line in file if line.strip() and not line.startswith("#")]


EXPECTED_NOTES = {}
for name, note in read_list(NOTES):
    EXPECTED_NOTES.setdefault(name, []).append(note)


def table(outcomes):
    """Returns the numbers of tests of each suite, as a table in Markdown."""
    head = ["suite", "tests", "passed", "of these adapted", "outside of the language, and rejected", "left out", "failed"]
    rows = []
    for title, kinds in (("syntax", "good bad"), ("evaluation", "evaluation")):
        for suite in dict.fromkeys(it.test.suite for it in outcomes):
            found = [it for it in outcomes if it.test.suite == suite and it.test.kind in kinds.split()]
            if found:
                count = collections.Counter(it.outcome for it in found)
                rows.append([f"{suite}, {title}", len(found), count[PASSED], sum(it.is_adapted and it.outcome == PASSED for it in found), count[OUTSIDE], count[UNTESTED], count[FAILED]])
    lines = [head, ["---"] + ["---:"] * (len(head) - 1), *rows]
    return "\n".join("| " + " | ".join(str(cell) for cell in line) + " |" for line in lines)


def earl(outcomes):
    """Returns the report in the Evaluation and Report Language."""
    lines = ["@prefix earl: <http://www.w3.org/ns/earl#> .", "@prefix dct: <http://purl.org/dc/terms/> .", "@prefix doap: <http://usefulinc.com/ns/doap#> .", ""]
    lines += ["<#spq> a doap:Project, earl:Software, earl:TestSubject ;", '    doap:name "spq" ; doap:programming-language "Rattle" .', ""]
    lines += ["<#w3c.py> a earl:Software, earl:Assertor ; dct:title \"tests/w3c.py\" .", ""]
    for it in outcomes:
        note = "adapted to the language of spq" if it.is_adapted else "" if it.outcome == PASSED else re.sub(r"[^ -~]", "?", it.detail)
        text = note.replace("\\", "\\\\").replace('"', '\\"')
        lines.append("[] a earl:Assertion ; earl:assertedBy <#w3c.py> ; earl:subject <#spq> ; earl:mode earl:automatic ;")
        lines.append(f"    earl:test <{it.test.iri}> ;")
        lines.append(f"    earl:result [ a earl:TestResult ; earl:outcome earl:{it.outcome}" + (f' ; dct:description "{text}" ] .' if text else " ] ."))
    return "\n".join(lines) + "\n"


def put_into_page(made, is_written):
    """Puts the table into the page, or says if the page has another one. Returns whether it has."""
    with open(PAGE, encoding="utf-8") as file:
        page = file.read()
    new = PART.sub(lambda found: f"{found[1]}\n{made}\n\n{found[2]}", page)
    if is_written:
        with open(PAGE, "w", encoding="utf-8") as file:
            file.write(new)
    elif new != page:
        print("docs/COMPARISON.md has other numbers; w3c.py --write rewrites them")
    return not is_written and new != page


def unused(left_out, outcomes):
    """Returns a line for each entry of the two lists that names no test, or another number of tests than it says."""
    names = [it.test.name for it in outcomes]
    found = [(name, why, len(fnmatch.filter(names, name))) for name, why in left_out]
    wrong = [f"tests/w3c-left-out.txt: there is no test {name}" for name, _, count in found if not count]
    wrong += [f"tests/w3c-left-out.txt: {name} names {count} tests" for name, why, count in found if "*" in name and not why.startswith(f"{count} tests")]
    return wrong + [f"tests/w3c-notes.txt: there is no test {name}" for name in EXPECTED_NOTES if name not in names]


def run_suites(given):
    """Runs all tests, writes the report, prints the table, and returns the number of faults."""
    read = with_packages()
    import w3c_queries as queries
    if given.fetch and not read.tests_of(given.folder):
        fetch(given.folder)
    suites = read.tests_of(given.folder)
    if not suites:
        raise Missing(f"{given.folder} has no suite of the W3C")
    tests, left_out = [it for found in suites.values() for it in found], read_list(LEFT_OUT)
    with concurrent.futures.ThreadPoolExecutor(os.cpu_count()) as pool:
        outcomes = list(pool.map(lambda it: run_test(given.program, it, read, queries, left_out), tests))
    os.makedirs(os.path.dirname(EARL), exist_ok=True)
    with open(EARL, "w", encoding="utf-8") as file:
        file.write(earl(outcomes))
    for it in outcomes:
        if it.outcome == FAILED or given.list:
            print(f"{it.outcome}: {it.test.suite}, {it.test.name}{' (adapted)' if it.is_adapted else ''}: {it.detail}".rstrip(": "))
    faults = unused(left_out, outcomes) + [it for it in outcomes if it.outcome == FAILED]
    print("\n".join([*(it for it in faults if isinstance(it, str)), table(outcomes)]))
    is_other_table = put_into_page(table(outcomes), given.write)
    return len(faults) + (given.gate and is_other_table)


def main():
    words = argparse.ArgumentParser(description=__doc__.partition("\n")[0])
    words.add_argument("folder", metavar="DIR", help="a folder that has the suites somewhere below it")
    words.add_argument("program", nargs="?", default=f"{ROOT}/crates/spq/out/spq")
    words.add_argument("--fetch", action="store_true", help="get the suites from Debian's source package of rdflib if DIR has none")
    words.add_argument("--gate", action="store_true", help="install the packages if possible; it is no error if they or the suites are missing")
    words.add_argument("--list", action="store_true", help="print a line for each test")
    words.add_argument("--write", action="store_true", help="put the table into docs/COMPARISON.md")
    given = words.parse_args()
    if not os.path.exists(given.program):
        sys.exit(f"no program at {given.program}: build it first (see README)")
    given.program = os.path.abspath(given.program)
    try:
        if given.gate:
            install_packages()
        return 1 if run_suites(given) else 0
    except Missing as lack:
        print(f"W3C suites: {lack}{'; they were skipped' if given.gate else ''}.")
        return 0 if given.gate else 1


if __name__ == "__main__":
    sys.exit(main())
