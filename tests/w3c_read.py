"""Reads the test suites of the W3C for tests/w3c.py: manifests, data and expected results.

Manifests and RDF/XML are read with rdflib, Turtle with serdi, which keeps each lexical form as it is written. A term is
`("uri", IRI)`, `("bnode", label)` or `("literal", lexical form, datatype IRI, language tag)`.
"""
import csv
import glob
import json
import os
import re
import subprocess
import urllib.parse
import xml.etree.ElementTree

import rdflib
from rdflib.namespace import RDF, RDFS

rdflib.NORMALIZE_LITERALS = False
MF = rdflib.Namespace("http://www.w3.org/2001/sw/DataAccess/tests/test-manifest#")
QT = rdflib.Namespace("http://www.w3.org/2001/sw/DataAccess/tests/test-query#")
RDFT = rdflib.Namespace("http://www.w3.org/ns/rdftest#")
RS = rdflib.Namespace("http://www.w3.org/2001/sw/DataAccess/tests/result-set#")
XSD = "http://www.w3.org/2001/XMLSchema#"
# The suites: the title, the names that its folder has, and the IRI of a manifest that declares no prefix for its tests.
SUITES = [
    ("RDF 1.1 N-Quads", ("nquads", "rdf-n-quads"), "http://www.w3.org/2013/N-QuadsTests/manifest.ttl"),
    ("SPARQL 1.0", ("dawg-data-r2", "data-r2", "sparql10"), ""),
    ("SPARQL 1.1", ("sparql11", "data-sparql11"), ""),
]
GOOD, BAD, EVALUATION = "good", "bad", "evaluation"
KINDS = {
    RDFT.TestNQuadsPositiveSyntax: GOOD, RDFT.TestNQuadsNegativeSyntax: BAD,
    MF.PositiveSyntaxTest: GOOD, MF.PositiveSyntaxTest11: GOOD, MF.NegativeSyntaxTest: BAD, MF.NegativeSyntaxTest11: BAD,
    MF.QueryEvaluationTest: EVALUATION, MF.CSVResultFormatTest: EVALUATION,
}


class Test:
    """A test of a manifest: its suite, IRI, kind, name (folder and fragment), and the IRIs and paths of its files."""

    def __init__(self, suite, graph, test, kind, folder, base):
        self.suite, self.iri, self.kind, self.folder, self.base = suite, str(test), kind, folder, base
        self.name = f"{os.path.basename(folder)}/{str(test).rpartition('#')[2]}"
        action, result = graph.value(test, MF.action), graph.value(test, MF.result)
        self.is_lax = graph.value(test, MF.resultCardinality) == MF.LaxCardinality
        self.query = graph.value(action, QT.query) or action
        self.data = [str(it) for it in graph.objects(action, QT.data)]
        self.named = [named_graph(graph, it) for it in graph.objects(action, QT.graphData)]
        self.result = self.path(result) if isinstance(result, rdflib.URIRef) else None

    def path(self, iri):
        """Returns the file of an IRI of the manifest."""
        return os.path.normpath(os.path.join(self.folder, urllib.parse.unquote(os.path.relpath(str(iri), self.base))))

    def text(self):
        """Returns the text of the query. Its bytes decide, so an undecodable one is kept as it is."""
        with open(self.path(self.query), encoding="utf-8", errors="surrogateescape", newline="") as file:
            return file.read()


def named_graph(graph, node):
    """Returns the name of a named graph and the IRI of its file."""
    if isinstance(node, rdflib.URIRef):
        return str(node), str(node)
    return str(graph.value(node, RDFS.label)), str(graph.value(node, QT.graph))


def folder_of(place, names):
    """Returns the first folder below a place that has one of these names and manifests."""
    found = [it for name in names for it in glob.glob(f"{place}/**/{name}", recursive=True)]
    return next((it for it in sorted(found, key=len) if glob.glob(f"{it}/**/manifest*.ttl", recursive=True)), None)


def tests_of(place):
    """Returns the tests of each suite that is below a place: `{title: [test, ..]}`."""
    found = {}
    for title, names, base in SUITES:
        folder = folder_of(place, names)
        if folder:
            paths = sorted(glob.glob(f"{folder}/**/*manifest*.ttl", recursive=True))
            found[title] = [test for path in paths for test in manifest_tests(title, path, base)]
    return found


def manifest_tests(title, path, base):
    """Returns the tests of a manifest in their order. The prefix of the tests gives the IRI of the manifest."""
    with open(path, encoding="utf-8") as file:
        text = file.read()
    declared = re.search(r"@prefix\s+:\s*<([^>]*)#>", text)
    base = declared[1] if declared and not base else base
    if not base:
        return []
    graph = rdflib.Graph().parse(data=text, format="turtle", publicID=base)
    found = []
    for entries in graph.objects(None, MF.entries):
        for test in graph.items(entries):
            kind = KINDS.get(graph.value(test, RDF.type))
            if kind:
                found.append(Test(title, graph, test, kind, os.path.dirname(path), base.rpartition("/")[0]))
    return found


# Data.


def statements(path, base, prefix):
    """Returns the triples of a file as lines of N-Triples. The labels of its blank nodes begin with a prefix."""
    if path.endswith((".rdf", ".owl")):
        graph = rdflib.Graph().parse(path, format="xml", publicID=base)
        lines = graph.serialize(format="nt").splitlines(keepends=True)
        return [re.sub(r"^_:|(?<= )_:", f"_:{prefix}", it) for it in lines if it.strip()]
    run = subprocess.run(["serdi", "-q", "-i", "turtle", "-o", "ntriples", "-p", prefix, path, base], capture_output=True, check=True)
    return run.stdout.decode("utf-8").splitlines(keepends=True)


def document(test, default, named):
    """Returns the dataset of a test as N-Quads. Each use of a file has blank nodes of its own."""
    lines = []
    for number, iri in enumerate(default):
        lines += statements(test.path(iri), iri, f"d{number}x")
    for number, (name, iri) in enumerate(named):
        lines += [re.sub(r"\s*\.\s*$", f" <{name}> .\n", it) for it in statements(test.path(iri), iri, f"n{number}x")]
    return "".join(lines)


# Results: (variables, solutions) or a truth value. A solution is a dictionary.


def literal(text, datatype="", tag=""):
    return "literal", text, "" if datatype == XSD + "string" or tag else datatype or "", (tag or "").lower()


def of_json(text):
    """Reads a result in the JSON format, as spq writes it too."""
    result = json.loads(text)
    if "boolean" in result:
        return result["boolean"]
    solutions = [{name: of_json_term(term) for name, term in row.items()} for row in result["results"]["bindings"]]
    return result["head"]["vars"], solutions


def of_json_term(term):
    if term["type"] in ("uri", "bnode"):
        return term["type"], term["value"]
    return literal(term["value"], term.get("datatype"), term.get("xml:lang"))


def of_xml(text):
    """Reads a result in the XML format."""
    space = "{http://www.w3.org/2005/sparql-results#}"
    root = xml.etree.ElementTree.fromstring(text)
    truth = root.find(f"{space}boolean")
    if truth is not None:
        return truth.text.strip() == "true"
    names = [it.get("name") for it in root.iter(f"{space}variable")]
    rows = [{it.get("name"): of_xml_term(it[0], space) for it in row} for row in root.iter(f"{space}result")]
    return names, rows


def of_xml_term(term, space):
    text = term.text or ""
    if term.tag == f"{space}literal":
        return literal(text, term.get("datatype"), term.get("{http://www.w3.org/XML/1998/namespace}lang"))
    return term.tag.removeprefix(space), text.strip()


def of_graph(path, base):
    """Reads a result that is written as a graph with the vocabulary of result sets."""
    graph = rdflib.Graph().parse(data="".join(statements(path, base, "r")), format="nt")
    truth = next(graph.objects(None, RS.boolean), None)
    if truth is not None:
        return str(truth) == "true"
    (table,) = graph.subjects(RDF.type, RS.ResultSet)
    names = [str(it) for it in graph.objects(table, RS.resultVariable)]
    rows = []
    for row in graph.objects(table, RS.solution):
        bound = graph.objects(row, RS.binding)
        rows.append({str(graph.value(it, RS.variable)): of_rdflib(graph.value(it, RS.value)) for it in bound})
    return names, rows


def of_rdflib(term):
    if isinstance(term, rdflib.Literal):
        return literal(str(term), str(term.datatype or ""), term.language)
    return ("uri" if isinstance(term, rdflib.URIRef) else "bnode"), str(term)


TSV = re.compile(r'<(.*)>|_:(.*)|"(.*)"(?:\^\^<(.*)>|@(.*))?|([+-]?[0-9]+)|([+-]?[0-9]*\.[0-9]+)|([+-]?[0-9.]+[eE][+-]?[0-9]+)', re.S)


def of_tsv(text):
    lines = text.split("\n")
    names = [it.strip().lstrip("?") for it in lines[0].split("\t")]
    cells = [line.rstrip("\r").split("\t") for line in lines[1:] if line.strip()]
    return names, [{name: of_tsv_term(it) for name, it in zip(names, row) if it} for row in cells]


def of_tsv_term(cell):
    found = TSV.fullmatch(cell)
    if found[1] is not None:
        return "uri", found[1]
    if found[2] is not None:
        return "bnode", found[2]
    if found[3] is not None:
        text = re.sub(r"\\(.)", lambda it: {"t": "\t", "n": "\n", "r": "\r"}.get(it[1], it[1]), found[3])
        return literal(text, found[4], found[5])
    return literal(cell, XSD + ("integer" if found[6] else "decimal" if found[7] else "double"))


def of_csv(text):
    """Reads a result in the CSV format, which has the text of terms alone."""
    rows = list(csv.reader(text.splitlines()))
    return rows[0], [{name: ("bnode" if it.startswith("_:") else "text", it) for name, it in zip(rows[0], row) if it} for row in rows[1:]]


def as_csv(result):
    """Returns a result with the text of each term alone, as the CSV format has it."""
    names, rows = result
    return names, [{name: ("bnode", it[1]) if it[0] == "bnode" else ("text", it[1]) for name, it in row.items()} for row in rows]


def expected(test):
    """Returns the expected result of a test, or None if it is a graph (as of CONSTRUCT)."""
    kind = os.path.splitext(test.result)[1]
    if kind in (".ttl", ".rdf", ".n3", ".nt"):
        base = f"{test.base}/{os.path.basename(test.result)}"
        return of_graph(test.result, base)
    with open(test.result, encoding="utf-8-sig", newline="") as file:
        text = file.read()
    return {".srx": of_xml, ".srj": of_json, ".tsv": of_tsv, ".csv": of_csv}[kind](text)
