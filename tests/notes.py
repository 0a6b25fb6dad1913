#!/usr/bin/env python3
"""Compares the notes on queries of daily work, and on random queries over random documents, with a plain model that counts errors.

    notes.py [PROGRAM] [--count N] [--seed S]

PROGRAM is the program (crates/spq/out/spq where none is given). Each case runs with 1 worker and with 8, and standard error
has to be that of the model: the rows, the place, the cause and the consequence of each note, and their order. If a FILTER with an
equality is above a join with a FILTER of its own, notes may be missing, or say `at least` and a smaller number. The model
evaluates SPARQL 1.1 Query Language, sections 17 and 18, over lists of dictionaries. docs/DIAGNOSTICS.md says when a note comes.
Python 3 standard library.
"""
import argparse
import concurrent.futures
import math
import os
import random
import re
import subprocess
import sys

ROOT = os.path.dirname(os.path.dirname(os.path.abspath(__file__)))
XSD = "http://www.w3.org/2001/XMLSchema#"
STRING, BOOLEAN, DECIMAL = XSD + "string", XSD + "boolean", XSD + "decimal"
INTEGERS = {XSD + it for it in "integer int byte nonNegativeInteger".split()}
FLOATS = {XSD + "double", XSD + "float"}
MOST_ROWS, MOST_NOTES = 4000, 10
# The rows of two groups paired by an equality, with those of further groups, up to which no note on a common cause is missing.
MOST_PAIRED = 1000


class Error(Exception):
    """The value of an expression is an error."""


class TooLarge(Exception):
    """The model would take too long."""


# Terms: ("iri", IRI), ("blank", label), ("literal", lexical form, datatype, language tag or None).


def literal(lexical, datatype=STRING, tag=None):
    return ("literal", lexical, datatype, tag)


TRUE, FALSE = literal("true", BOOLEAN), literal("false", BOOLEAN)
NAMES = [("iri", f"http://e/{it}") for it in "abc"] + [("blank", "n")]
LITERALS = (
    [literal(it, XSD + "integer") for it in ("0", "1", "7", "07", "many")] + [literal("7", XSD + "byte"), literal("7.0", DECIMAL), literal("7.5", DECIMAL), literal("x", DECIMAL)]
    + [literal(it) for it in ("", "a", "b", "7", "7.5")] + [literal("a", "", "en"), literal("b", "", "de"), literal("7", "", "en")]
    + [literal("7", XSD + "double"), literal("1e0", XSD + "double"), literal("7", XSD + "float")]
    + [TRUE, literal("1", BOOLEAN), literal("yes", BOOLEAN), literal("2026-01-01", XSD + "date"), literal("2026", XSD + "gYear"), literal("x", "http://e/t")])
PREDICATES = [("iri", f"http://e/{it}") for it in "pq"]
GRAPHS = [("iri", "http://e/g"), ("iri", "http://e/h")]


def written(term):
    if term[0] == "iri":
        return f"<{term[1]}>"
    if term[0] == "blank":
        return "_:" + term[1]
    _, lexical, datatype, tag = term
    return f'"{lexical}"' + (f"@{tag}" if tag else "" if datatype == STRING else f"^^<{datatype}>")


def number(term):
    """Returns the value of an integer or a decimal as a whole number of tenths, or None. (The terms here have one digit of fraction at most.)"""
    if term[0] == "literal" and term[3] is None:
        pattern = r"[+-]?\d+" if term[2] in INTEGERS else r"[+-]?\d+(\.\d)?" if term[2] == DECIMAL else None
        if pattern and re.fullmatch(pattern, term[1]):
            return round(float(term[1]) * 10)
    return None


def known_value(term):
    """Returns the kind and the value of a number, a string or a boolean, or None."""
    if number(term) is not None:
        return ("number", number(term))
    if term[0] == "literal" and term[3] is None and term[2] == STRING:
        return ("string", term[1])
    if term[0] == "literal" and term[2] == BOOLEAN and term[1] in ("true", "1", "false", "0"):
        return ("boolean", term[1] in ("true", "1"))
    return None


def compared(sign, one, other):
    """Returns the truth of a comparison (section 17.3)."""
    left, right = known_value(one), known_value(other)
    is_known = left and right and left[0] == right[0]
    if sign in ("=", "!="):
        if is_known or one == other or "literal" != one[0] or "literal" != other[0]:
            return (left == right if is_known else one == other) == (sign == "=")
        raise Error
    if not is_known:
        raise Error
    return {"<": left < right, ">": left > right, "<=": left <= right, ">=": left >= right}[sign]


def effective(term):
    """Returns the effective boolean value (section 17.2.2)."""
    if term[0] != "literal":
        raise Error
    if term[3] or term[2] == STRING:
        return term[1] != ""
    if known_value(term):
        return bool(known_value(term)[1])
    if term[2] in INTEGERS | {DECIMAL, BOOLEAN}:
        return False
    raise Error


# Expressions: ("var", name, [occurrence]), ("term", term), ("not", e), ("and", e, e), ("or", e, e), ("compare", sign, e, e),
# ("in", is negated, e, [e, ..]), ("bound", variable), ("same", e, e), (function, e).

FUNCTIONS = ("STR", "LANG", "DATATYPE", "isIRI", "isLITERAL", "isBLANK")


def value(e, row):
    """Returns the term that an expression is (section 17.4)."""
    kind = e[0]
    if kind == "term":
        return e[1]
    if kind == "var":
        if e[1] not in row:
            raise Error
        return row[e[1]]
    if kind in ("STR", "LANG", "DATATYPE"):
        term = value(e[1], row)
        if term[0] == "blank" or kind != "STR" and term[0] != "literal":
            raise Error
        return literal(term[1]) if kind == "STR" else literal(term[3] or "") if kind == "LANG" else ("iri", datatype_of(term))
    return TRUE if boolean(e, row) else FALSE


def datatype_of(term):
    return "http://www.w3.org/1999/02/22-rdf-syntax-ns#langString" if term[3] else term[2]


def boolean(e, row):
    kind = e[0]
    if kind == "not":
        return not truth(e[1], row)
    if kind in ("and", "or"):
        sides = [truth_or_none(it, row) for it in e[1:]]
        if (kind == "or") in sides:
            return kind == "or"
        if None in sides:
            raise Error
        return kind == "and"
    if kind == "compare":
        return compared(e[1], value(e[2], row), value(e[3], row))
    if kind == "in":
        return truth(as_comparisons(e), row)
    if kind == "bound":
        return e[1][1] in row
    if kind == "same":
        return value(e[1], row) == value(e[2], row)
    return value(e[1], row)[0] == {"isIRI": "iri", "isLITERAL": "literal", "isBLANK": "blank"}[kind]


def as_comparisons(e):
    """Returns the comparisons that IN or NOT IN is short for (section 17.4.1.9)."""
    made = ("term", FALSE)
    for member in e[3]:
        made = ("or", made, ("compare", "=", e[2], member))
    return ("not", made) if e[1] else made


def truth(e, row):
    return effective(value(e, row))


def truth_or_none(e, row):
    try:
        return truth(e, row)
    except Error:
        return None


def has_value(e, row):
    try:
        value(e, row)
        return True
    except Error:
        return False


# Causes: (name, detail). What is not worth a note has none.

COMMON = ("unbound", "call", "name")


def causes(e, row, sense):
    """Returns the causes of an expression that is an error, in the order of their search. `sense` is 1 where the condition gets
    truer with the expression, -1 where it gets less true, and 0 below a comparison, a function or BIND."""
    kind = e[0]
    if has_value(e, row):
        term = value(e, row)
        return [("name", None)] if term[0] != "literal" else [("truth", datatype_of(term))]
    if kind == "var":
        return [("unbound", e[1])]
    if kind == "not":
        return causes(e[1], row, -sense)
    if kind in ("and", "or"):
        return [cause for it in e[1:] if truth_or_none(it, row) is None for cause in causes(it, row, sense)]
    if kind == "in" and has_value(e[2], row):
        sense = -sense if e[1] else sense
        good = [it for it in e[3] if has_value(it, row)]
        found = [cause for it in good for cause in causes_of_pair("=", value(e[2], row), value(it, row), sense)]
        return found or [cause for it in reversed(e[3]) if it not in good for cause in causes(it, row, 0)]
    operands = [it for it in e[1:] if isinstance(it, tuple)]
    wrong = next((it for it in operands if not has_value(it, row)), None)
    if wrong:
        return causes(wrong, row, 0)
    return causes_of_pair(e[1], *(value(it, row) for it in operands), sense) if kind == "compare" else [("call", None)]


def cause_of_value(e, row, sense=0):
    """Returns the first cause that is not common, or else the first one, or None."""
    found = causes(e, row, sense)
    return next((it for it in found if it[0] not in COMMON), next(iter(found), None))


def cause_of_condition(e, row):
    """Returns the cause of a condition that is an error. An operand of `&&` without one leaves the row out in any case, and one with
    a common cause, too."""
    found = [cause_of_value(it, row, 1) for it in operands_of_and(e) if truth_or_none(it, row) is None]
    return None if None in found else next((it for it in found if it[0] in COMMON), found[0])


def operands_of_and(e):
    return operands_of_and(e[1]) + [e[2]] if e[0] == "and" else [e]


def causes_of_pair(sign, one, other, sense):
    """Returns the cause of a comparison if it is an error that costs something."""
    try:
        compared(sign, one, other)
        return []
    except Error:
        pass
    if not one[0] == other[0] == "literal":
        return [("name", None)]
    floats = [it[2] in FLOATS for it in (one, other)]
    if (sign, sense) in (("=", 1), ("!=", -1)) and (one[3] and other[3] or one[1] != other[1] and not any(floats)):
        return []
    if one[3] or other[3]:
        return [("tag", None)]
    for it in (one, other):
        if it[2] in INTEGERS | {DECIMAL, BOOLEAN} and not known_value(it):
            return [("form", it[2])]
    numbers = [number(it) is not None for it in (one, other)]
    if any(floats) and all(map(max, floats, numbers)) or one[2] == other[2]:
        return [("datatype", other[2] if numbers[0] else one[2])]
    return [("kinds", None)]


# Elements of a group: ("group", group), ("triples", [(s, p, o), ..]), ("filter", e, site), ("bind", e, name, site), ("optional", group, site), ("minus", group),
# ("union", group, group), ("graph", name, group), ("values", name, [term, ..]). A site is filled when the query is written.


class Site:
    """The place of a FILTER or BIND in the text, and where it is in the order of notes."""

    def __init__(self):
        self.place, self.consequence, self.order = None, None, None


def filters(group):
    return [it for it in group if it[0] == "filter"]


# Rows with which all rows are compatible.
NO_OTHERS = [{}]


class Model:
    """An evaluation that counts errors. GRAPH with a variable that all rows bind with which it is joined goes over their names alone."""

    def __init__(self, quads):
        self.quads = quads
        # (owner, expressions) -> sites of each FILTER, the FILTERs with a value over some row, and {(FILTER, kind of cause): {causes: rows}}.
        self.sites, self.valued, self.counts = {}, {}, {}

    def note(self, owner, expressions, row):
        """Counts a row over which a condition or a value is an error."""
        key = (owner, tuple(plain(it) for it in expressions))
        is_value = owner[0] == "bind"
        results = [has_value(it, row) or None if is_value else truth_or_none(it, row) for it in expressions]
        self.valued.setdefault(key, set()).update(at for at, it in enumerate(results) if it is not None)
        if None not in results or False in results:
            return
        found = [(at, cause_of_value(expressions[0], row) if is_value else cause_of_condition(expressions[at], row)) for at, it in enumerate(results) if it is None]
        if all(cause for _, cause in found):
            wrong, (name, detail) = next((it for it in found if it[1][0] in COMMON), found[0])
            counts = self.counts.setdefault((key, wrong, name, None if name == "unbound" else detail), [0, set()])
            counts[0] += 1
            counts[1].add(detail)

    def passes(self, owner, conditions, row):
        self.note(owner, conditions, row)
        return all(truth_or_none(it, row) for it in conditions)

    def group(self, group, graph, others=NO_OTHERS):
        """Returns the rows of a group. Of a group without FILTER, only those are needed that are compatible with one of the others."""
        conditions = [it[1] for it in filters(group)]
        if not conditions:
            return self.patterns(group, graph, others)
        return [it for it in self.patterns(group, graph, is_filtered=True) if self.passes(("filter",), conditions, it)]

    def patterns(self, group, graph, others=NO_OTHERS, is_filtered=False):
        rows = [{}]
        for element in group:
            if element[0] == "filter":
                continue
            rows = self.element(element, rows, graph, others, is_filtered)
            others = rows
            if len(rows) > MOST_ROWS:
                raise TooLarge
        return rows

    def element(self, element, rows, graph, others, is_filtered):
        kind = element[0]
        if kind == "bind":
            return [self.extended(row, element) for row in rows]
        if kind == "optional":
            return self.left_joined(rows, self.patterns(element[1], graph, rows), [it[1] for it in filters(element[1])])
        if kind == "minus":
            right = self.group(element[1], graph, rows)
            return [row for row in rows if not any(row.keys() & it.keys() and is_compatible(row, it) for it in right)]
        if kind == "group" and is_filtered:
            others = NO_OTHERS
        return joined(rows, self.solutions(element, graph, others))

    def solutions(self, element, graph, others):
        kind = element[0]
        if kind == "triples":
            return self.matches(element[1], graph)
        if kind == "union":
            return [row for it in element[1:] for row in self.group(it, graph)]
        if kind == "values":
            return [{element[1]: it} for it in element[2]]
        if kind == "group":
            return self.group(element[1], graph, others)
        if element[1][0] != "var":
            return self.group(element[2], element[1]) if any(it[3] == element[1] for it in self.quads) else []
        name = element[1][1]
        names = {it[3] for it in self.quads} - {None}
        if all(name in row for row in others):
            names &= {row[name] for row in others}
        return [row for it in sorted(names) for row in joined(self.group(element[2], it), [{name: it}])]

    def matches(self, triples, graph):
        rows = [{}]
        for triple in triples:
            found = []
            for quad in self.quads:
                if quad[3] == graph:
                    bound, is_match = {}, True
                    for place, term in zip(triple, quad):
                        if place[0] == "var":
                            is_match &= bound.setdefault(place[1], term) == term
                        else:
                            is_match &= place == term
                    if is_match:
                        found.append(bound)
            rows = joined(rows, found)
        return rows

    def extended(self, row, element):
        self.note(("bind", element[2]), [element[1]], row)
        try:
            return {**row, element[2]: value(element[1], row)}
        except Error:
            return row

    def left_joined(self, rows, others, conditions):
        made = []
        for row in rows:
            pairs = [{**row, **it} for it in others if is_compatible(row, it)]
            kept = [it for it in pairs if not conditions or self.passes(("optional",), conditions, it)]
            made += kept or [row]
            if len(made) > MOST_ROWS:
                raise TooLarge
        return made

    def notes(self, sites):
        """Returns the notes on rows. `sites` has the sites of each key, in the order of the text."""
        found = []
        for (key, at, name, detail), (rows, details) in self.counts.items():
            if name in COMMON and at in self.valued[key]:
                continue
            of_filter = [it[at] for it in sites[key]]
            word, places = ("BIND" if key[0][0] == "bind" else "FILTER"), ", ".join(it.place for it in of_filter)
            many = len({it.consequence for it in of_filter}) > 1
            text = f"{word} at {places}: {lost(of_filter[0].consequence, rows, many)}, since {reason(name, detail, details)}"
            found.append((-rows, of_filter[0].order, at, text))
        return [f"spq: note: {it[3]}" for it in sorted(found)[:MOST_NOTES]]


def plain(e):
    """Returns an expression without the places of its variables."""
    if isinstance(e, tuple):
        return e[:2] if e[:1] == ("var",) else tuple(plain(it) for it in e)
    return tuple(plain(it) for it in e) if isinstance(e, list) else e


def is_compatible(one, other):
    return all(other.get(name, term) == term for name, term in one.items())


def joined(rows, others):
    if len(rows) * len(others) > 40 * MOST_ROWS:
        raise TooLarge
    return [{**row, **it} for row in rows for it in others if is_compatible(row, it)]


def short(iri):
    return "xsd:" + iri[len(XSD):] if iri.startswith(XSD) else f"<{iri}>"


def lost(consequence, rows, is_mixed):
    one, many = {
        "filter": ("is left out", "are left out"), "minus": ("removes nothing", "remove nothing"),
        "optional": ("is treated as no match", "are treated as no match")}.get(consequence, (f"leaves ?{consequence} unbound", f"leave ?{consequence} unbound"))
    if is_mixed:
        one, many = "is left out, or removes nothing in MINUS", "are left out, or remove nothing in MINUS"
    return f"1 row {one}" if rows == 1 else f"{rows} rows {many}"


def reason(name, detail, details):
    if name == "unbound":
        names = sorted(details, key=lambda it: NUMBERS[it])
        return f"?{names[0]} is unbound" if len(names) == 1 else f"?{names[0]} or another variable is unbound"
    return {
        "call": "LANG and DATATYPE have a value only for literals, and STR has none for blank nodes",
        "name": "an IRI or a blank node has no order and no effective boolean value",
        "tag": "a literal with a language tag has no order and no inequality by value (compare STR(..), or LANG(..))",
        "kinds": "two literals of different kinds, such as a string and a number, have no order and no inequality by value (compare STR(..))",
        "form": f"the text of a literal is no {short(detail or '')}",
        "truth": f"a literal of {short(detail or '')} has no effective boolean value",
        "datatype": f"values of {short(detail or '')} are not compared (compare STR(..), if the order of the texts is that of the values)",
    }[name]


# Writing a query. NUMBERS has the variables in the order of their first occurrences.

NUMBERS = {}


class Writer:
    """The text of a query, and the places in it."""

    def __init__(self, draw):
        self.draw, self.text, self.sites, self.orders = draw, "", {}, 0
        self.variables, self.pattern = {}, None
        NUMBERS.clear()

    def place(self):
        line = self.text.rpartition("\n")[2]
        return f"line {self.text.count(chr(10)) + 1}, column {len(line) + 1}"

    def put(self, *words):
        for word in words:
            self.text += word + self.draw.choice([" ", " ", " ", "\n", "  "])

    def variable(self, name, is_in_expression=False):
        NUMBERS.setdefault(name, len(NUMBERS))
        self.variables.setdefault(name, []).append((len(self.text), self.place(), is_in_expression))
        self.put("?" + name)

    def term(self, term):
        self.variable(term[1]) if term[0] == "var" else self.put(written(term))

    def expression(self, e):
        kind = e[0]
        if kind == "var":
            self.variable(e[1], True)
        elif kind == "term":
            self.put(written(e[1]))
        elif kind == "not":
            self.put("!")
            self.bracket(e[1])
        elif kind in ("and", "or", "compare"):
            # A chain on the left needs no parentheses, and is then one condition with FILTERs of the same text.
            self.expression(e[1]) if e[1][:1] == (kind,) and kind != "compare" else self.bracket(e[-2])
            self.put({"and": "&&", "or": "||"}.get(kind) or e[1])
            self.bracket(e[-1])
        elif kind == "in":
            self.bracket(e[2])
            self.put(*(["NOT"] if e[1] else []), "IN", "(")
            for at, member in enumerate(e[3]):
                self.put(*([","] if at else []))
                self.expression(member)
            self.put(")")
        else:
            self.put({"bound": "BOUND", "same": "sameTerm"}.get(kind, kind), "(")
            for at, operand in enumerate(e[1:]):
                self.put(*([","] if at else []))
                self.expression(operand)
            self.put(")")

    def bracket(self, e):
        if e[0] in ("var", "term", "bound", "same", *FUNCTIONS):
            return self.expression(e)
        self.put("(")
        self.expression(e)
        self.put(")")

    def group(self, group, purpose, is_in_minus, is_in_graph):
        self.put("{")
        for element in group:
            self.element(element, is_in_minus, is_in_graph)
        self.put("}")
        own = filters(group)
        if own or purpose == "optional":
            self.orders += 1
        if own:
            for _, _, site in own:
                site.consequence, site.order = purpose if purpose == "optional" else "minus" if is_in_minus else "filter", self.orders
            owner = ("optional",) if purpose == "optional" else ("filter",)
            self.add(owner, [it[1] for it in own], [it[2] for it in own])

    def add(self, owner, expressions, sites):
        self.sites.setdefault((owner, tuple(plain(it) for it in expressions)), []).append(sites)

    def element(self, element, is_in_minus, is_in_graph):
        kind = element[0]
        if kind == "triples":
            for triple in element[1]:
                if not is_in_graph and not self.pattern:
                    self.pattern = self.place()
                for term in triple:
                    self.term(term)
                self.put(".")
        elif kind == "filter":
            element[2].place = self.place()
            self.put("FILTER", "(")
            self.expression(element[1])
            self.put(")")
        elif kind == "bind":
            element[3].place, element[3].consequence = self.place(), element[2]
            self.orders += 1
            element[3].order = self.orders
            self.put("BIND", "(")
            self.expression(element[1])
            self.put("AS")
            self.variable(element[2])
            self.put(")")
            self.add(("bind", element[2]), [element[1]], [element[3]])
        elif kind in ("optional", "minus"):
            self.put(kind.upper())
            self.group(element[1], kind, is_in_minus or kind == "minus", is_in_graph)
        elif kind == "union":
            self.group(element[1], "", is_in_minus, is_in_graph)
            self.put("UNION")
            self.group(element[2], "", is_in_minus, is_in_graph)
        elif kind == "group":
            self.group(element[1], "", is_in_minus, is_in_graph)
        elif kind == "graph":
            self.put("GRAPH")
            self.term(element[1])
            self.group(element[2], "", is_in_minus, True)
        else:
            self.put("VALUES")
            self.variable(element[1])
            self.put("{", *map(written, element[2]), "}")

    def notes(self, quads):
        """Returns the notes on the query alone."""
        never = sorted(it[0] + (len(it),) for it in self.variables.values() if all(use[2] for use in it))
        found = [f"?{self.text[at + 1:].split()[0]} at {place} " + ("occurs nowhere else, so it is never bound" if many == 1 else "occurs only in expressions, so it is never bound")
                 for at, place, _, many in never]
        if self.pattern and quads and all(it[3] for it in quads):
            found.append(f"the pattern at {self.pattern} finds nothing: it is outside of GRAPH, and all quads are in named graphs")
        return [f"spq: note: {it}" for it in found]


# Random documents and queries.


def drawn_quads(draw):
    is_named = draw.random() < 0.1
    objects = draw.sample(NAMES, 2) + draw.sample(LITERALS, 6)
    quads = {(draw.choice(NAMES), draw.choice(PREDICATES), draw.choice(objects if draw.random() < 0.8 else LITERALS), draw.choice(GRAPHS) if is_named or draw.random() < 0.2 else None)
             for _ in range(draw.randrange(4, 16))}
    return sorted(quads, key=str)


def drawn_term(draw, quads):
    return draw.choice(quads)[2] if draw.random() < 0.4 else draw.choice(LITERALS)


def drawn_operand(draw, quads, scope):
    if draw.random() < 0.25:
        return (draw.choice(["STR", "LANG", "DATATYPE"]), drawn_variable(draw, scope))
    if draw.random() < 0.45:
        term = drawn_term(draw, quads)
        return ("term", term if term[0] != "blank" else TRUE)
    return drawn_variable(draw, scope)


def drawn_variable(draw, scope):
    return ("var", draw.choice(scope) if draw.random() < 0.97 else draw.choice(["nowhere", "never"]))


def drawn_expression(draw, quads, scope, depth=2):
    kind = draw.random()
    if depth and kind < 0.3:
        sides = [drawn_expression(draw, quads, scope, depth - 1) for _ in range(2)]
        return (draw.choice(["and", "or"]), *sides)
    if depth and kind < 0.4:
        return ("not", drawn_expression(draw, quads, scope, depth - 1))
    if kind < 0.78:
        left, right = drawn_operand(draw, quads, scope), drawn_operand(draw, quads, scope)
        return ("compare", draw.choice(["=", "=", "!=", "<", ">", "<=", ">="]), left, right)
    if kind < 0.88:
        return ("in", draw.random() < 0.4, drawn_operand(draw, quads, scope), [drawn_operand(draw, quads, scope) for _ in range(draw.randrange(1, 4))])
    if kind < 0.92:
        return ("bound", drawn_variable(draw, scope))
    if kind < 0.94:
        return (draw.choice(["isIRI", "isLITERAL", "isBLANK"]), drawn_variable(draw, scope))
    if kind < 0.96:
        return ("same", ("STR", drawn_variable(draw, scope)), drawn_operand(draw, quads, scope))
    return drawn_operand(draw, quads, scope)


class Drawer:
    """A random query. Each group has a triple pattern, so that none is the same in every graph."""

    def __init__(self, draw, quads):
        self.draw, self.quads, self.fresh, self.is_nested, self.paired_rows = draw, quads, 0, False, 1
        self.expressions = []

    def new(self):
        self.fresh += 1
        return f"x{self.fresh}"

    def expression(self, scope):
        """Returns an expression, sometimes one that occurs already."""
        if self.expressions and self.draw.random() < 0.15:
            return self.draw.choice(self.expressions)
        self.expressions.append(drawn_expression(self.draw, self.quads, scope))
        return self.expressions[-1]

    def triple(self, scope):
        draw = self.draw
        subject = ("var", draw.choice(["s", "t"])) if draw.random() < 0.9 else draw.choice(NAMES[:3])
        predicate = draw.choice(PREDICATES)
        kind = draw.random()
        item = ("var", self.new() if kind < 0.6 else "o") if kind < 0.9 else drawn_term(draw, self.quads)
        item = item if item[0] != "blank" else NAMES[0]
        scope.update(it[1] for it in (subject, item) if it[0] == "var")
        return (subject, predicate, item)

    def group(self, outer, depth, is_in_graph):
        draw, scope = self.draw, set()
        group = [("triples", [self.triple(scope) for _ in range(draw.choice([1, 1, 2]))])]
        for _ in range(draw.randrange(4)):
            kind = draw.random()
            seen = sorted(scope | (outer if draw.random() < 0.5 else set())) or ["s"]
            if kind < 0.35:
                group.append(("filter", self.expression(seen), Site()))
            elif kind < 0.5:
                name = self.new()
                group.append(("bind", self.expression(seen), name, Site()))
                scope.add(name)
            elif kind < 0.55:
                name = draw.choice(["s", "o", "g", self.new()])
                terms = NAMES[:3] if name == "s" else GRAPHS if name == "g" else LITERALS + NAMES[:2]
                values = ("values", name, [draw.choice(terms) for _ in range(draw.randrange(1, 3))])
                group.insert(draw.choice([0, len(group)]), values)
                scope.add(name)
            elif depth and kind < 0.72:
                inner, found = self.group(scope | outer, depth - 1, is_in_graph)
                group.append(("optional", inner, None))
                scope |= found
            elif depth and kind < 0.8:
                group.append(("minus", self.group(scope | outer, depth - 1, is_in_graph)[0]))
            elif depth and kind < 0.9:
                sides = [self.group(outer, depth - 1, is_in_graph) for _ in range(2)]
                group.append(("union", sides[0][0], sides[1][0]))
                scope |= sides[0][1] | sides[1][1]
            elif depth and not is_in_graph:
                name = draw.choice([("var", "g"), draw.choice(GRAPHS)])
                inner, found = self.group(outer, depth - 1, True)
                group.append(("graph", name, inner))
                scope |= found | ({"g"} if name[0] == "var" else set())
        return group, scope


    def paired(self):
        """Returns a group that pairs the rows of two groups, or of a group and an OPTIONAL, by `?x = ?y`, perhaps with STR."""
        draw = self.draw

        def part(subject, item):
            subject = draw.choice(["s", subject]) if draw.random() < 0.3 else subject
            predicate = draw.choice(PREDICATES)
            self.paired_rows *= sum(it[1] == predicate for it in self.quads)
            return ("triples", [(("var", subject), predicate, ("var", item))])

        sides = [("STR", it) if draw.random() < 0.3 else it for it in (("var", "x"), ("var", "y"))]
        equal = ("compare", "=", *sides)
        more = drawn_expression(draw, self.quads, ["s", "t", "x", "y"], 1)
        condition = draw.choice([equal, equal, ("and", equal, more), ("and", more, equal), ("and", equal, ("compare", "=", ("var", "y"), ("var", "x")))])
        filters = [("filter", condition, Site())] + ([("filter", more, Site())] if draw.random() < 0.2 else [])
        first, second, third = part("s", "x"), ("group", [part("t", "y")]), ("group", [part("u", "z")])
        if draw.random() < 0.3:
            return [first, ("optional", [part("t", "y"), *filters], None)]
        if draw.random() < 0.2:
            inner = draw.choice([more, ("compare", draw.choice(["=", "!=", "<"]), ("var", "x"), ("var", draw.choice(["y", "z"])))])
            self.is_nested = True
            below = ("group", draw.choice([[first, second], [first, third, second]]) + [("filter", inner, Site())])
            return draw.choice([[below], [below, third], [third, below]]) + filters
        if draw.random() < 0.2:
            second = ("values", "y", draw.sample(LITERALS, 3))
        return draw.choice([[first, second], [first, second], [first, second, third], [first, third, second]]) + filters


def case(seed):
    """Returns a random document, a query, its notes, and whether some of them may be missing."""
    while True:
        draw = random.Random(seed)
        quads = drawn_quads(draw)
        drawer = Drawer(draw, quads)
        group = drawer.paired() if draw.random() < 0.2 else drawer.group(set(), 2, False)[0]
        if drawer.paired_rows > MOST_PAIRED:
            # (`everywhere` has cases with more)
            seed += 1_000_000_007
            continue
        writer, model = Writer(draw), Model(quads)
        writer.put("SELECT", "*")
        writer.group(group, "", False, False)
        try:
            model.group(group, None)
        except TooLarge:
            seed += 1_000_000_007
            continue
        document = "".join(" ".join(written(it) for it in quad if it) + " .\n" for quad in quads)
        return document, writer.text, writer.notes(quads) + model.notes(writer.sites), 0 if drawer.is_nested else None


# Queries of daily work, over a small document in the shape of a catalogue of audio plugins and its ontologies.

LV2, RDFS, OWL, TERMS = "http://lv2plug.in/ns/lv2core#", "http://www.w3.org/2000/01/rdf-schema#", "http://www.w3.org/2002/07/owl#", "http://purl.org/dc/terms/"
TYPE = ("iri", "http://www.w3.org/1999/02/22-rdf-syntax-ns#type")
LABEL, MINIMUM, DEFAULT = ("iri", RDFS + "label"), ("iri", LV2 + "minimum"), ("iri", LV2 + "default")
CREATED, ISSUED, SEE = ("iri", TERMS + "created"), ("iri", TERMS + "issued"), ("iri", RDFS + "seeAlso")
CLASSES = [("iri", OWL + "Class"), ("iri", RDFS + "Class")]


def daily_quads():
    """Returns 12 plugins in the default graph: a third of them with a label in English and French, a third with a plain label; numbers of
    three datatypes; dates and years. Each of two named graphs has classes."""
    numbers = [literal("0.5", DECIMAL), literal("1", XSD + "integer"), literal("0.5", XSD + "double"), literal("-10", XSD + "integer")]
    quads = []
    for i in range(12):
        plugin = ("iri", f"http://e/plugin{i}")
        labels = [[literal(f"Gain {i}", "", "en"), literal(f"Gain {i}", "", "fr")], [literal(f"Filter {i}", "", "en")], [literal(f"Delay {i}")]][i % 3]
        quads += [(plugin, TYPE, ("iri", LV2 + "Plugin"), None), *((plugin, LABEL, it, None) for it in labels)]
        quads += [(plugin, MINIMUM, numbers[i % 4], None), (plugin, DEFAULT, numbers[(i + i // 4) % 4], None)]
        quads.append((plugin, CREATED, literal(f"20{10 + i}-01-01", XSD + "date"), None))
        if i % 2:
            quads += [(plugin, ISSUED, literal(f"{2000 + i}", XSD + "gYear"), None), (plugin, SEE, ("iri", f"http://e/home{i}"), None)]
    for i in range(8):
        name = ("iri", f"http://e/class{i}")
        quads.append((name, TYPE, CLASSES[i % 2], GRAPHS[i % 2]))
        if i % 4:
            quads.append((name, LABEL, literal(f"Class {i}", "", "en"), GRAPHS[i % 2]))
    return quads


def var(name):
    return ("var", name)


def having(*pairs, subject="p"):
    """Returns the triple patterns of a plugin with these predicates and variables."""
    return ("triples", [(var(subject), predicate, var(name)) for predicate, name in pairs])


def where(*e):
    return ("filter", e, Site())


def compare(sign, one, other):
    return ("compare", sign, *(it if isinstance(it, tuple) else var(it) for it in (one, other)))


def value_of(lexical, datatype=STRING):
    return ("term", literal(lexical, datatype))


def daily_queries():
    """Yields queries, each with the number of its notes. A query without notes loses no row that its writer wants."""
    labels, minima, dates = having((LABEL, "l")), having((MINIMUM, "n")), having((CREATED, "d"))
    date, year = value_of("2015-01-01", XSD + "date"), value_of("2005", XSD + "gYear")
    zero, one = value_of("0", XSD + "integer"), value_of("1", XSD + "integer")
    yield [labels, where(*compare("=", ("LANG", var("l")), value_of("fr")))], 0
    yield [labels, where(*compare("!=", "l", value_of("")))], 1
    yield [labels, where(*compare("=", "l", value_of("Delay 2")))], 0
    yield [labels, where(*compare("=", "l", value_of("Gain 3")))], 1
    yield [labels, where(*compare("=", ("STR", var("l")), value_of("Gain 3")))], 0
    yield [labels, where("in", True, var("l"), [value_of(""), value_of("Delay 2")])], 1
    yield [having((LABEL, "l"), (LABEL, "m")), where(*compare("!=", "l", "m"))], 1
    yield [minima, where(*compare(">=", "n", zero))], 1
    yield [minima, where(*compare("!=", ("DATATYPE", var("n")), ("term", ("iri", XSD + "integer"))))], 0
    yield [minima, where(*compare("<", "n", value_of("1e3", XSD + "double")))], 1
    yield [minima, where(*compare("=", "n", value_of("0.0", DECIMAL)))], 1
    yield [minima, where("not", compare("<", "n", one))], 1
    yield [("union", [minima], [having((DEFAULT, "n"))]), where(*compare("<", "n", one))], 1
    yield [having((MINIMUM, "n"), (DEFAULT, "m")), where("or", compare("<", "m", "n"), compare(">", "m", one))], 1
    yield [minima, where(*var("n"))], 1
    yield [dates, where(*compare(">", "d", date))], 1
    yield [dates, where(*compare("<", ("STR", var("d")), value_of("2015")))], 0
    yield [dates, where(*compare("<", "d", value_of("2015")))], 1
    yield [dates, where("and", compare(">", ("STR", var("d")), value_of("2015")), compare("<", ("STR", var("d")), one))], 1
    yield [dates, ("minus", [having((CREATED, "e"), subject="q"), where(*compare("=", "e", "d"))])], 1
    yield [dates, ("optional", [having((CREATED, "e"), subject="q"), where(*compare("<", "e", "d"))], None)], 1
    yield [having((ISSUED, "y")), where(*compare(">=", "y", year))], 1
    yield [having((TYPE, "t")), where("in", False, var("t"), [("term", it) for it in CLASSES])], 0
    yield [minima, ("minus", [minima, where(*compare(">=", "n", value_of("-1000000", XSD + "integer")))])], 1
    yield [labels, ("optional", [minima, where(*compare(">", "n", zero))], None)], 1
    yield [having((MINIMUM, "n"), (DEFAULT, "m")), ("bind", compare("<=", "n", "m"), "ok", Site())], 1
    yield [labels, ("optional", [having((ISSUED, "y"))], None), where("bound", var("y"))], 0
    yield [labels, ("optional", [having((SEE, "h"))], None), where(*compare("!=", "h", "p"))], 0
    yield [labels, ("optional", [having((SEE, "h"))], None), where(*compare("=", "title", value_of("Gain 3")))], 2
    yield [having((TYPE, "t"), (SEE, "h")), where(*compare("!=", "t", "h"))], 0
    yield [("group", [having((MINIMUM, "n"))]), ("group", [having((DEFAULT, "m"), subject="q")]), where(*compare("=", "n", "m"))], 1
    yield [("group", [labels]), ("group", [having((LABEL, "m"), subject="q")]), where(*compare("=", "l", "m"))], 0
    yield [labels, where("and", compare("=", ("LANG", var("l")), value_of("en")), compare("!=", ("STR", var("l")), value_of("")))], 0
    yield [minima, where("or", compare("<", "n", one), ("isLITERAL", var("n")))], 0
    yield [labels, where("and", compare(">=", "l", value_of("Gain 2")), compare("<", "l", value_of("Gain 5")))], 1
    yield [minima, where("in", False, var("n"), [zero, one])], 1
    yield [minima, where("in", True, var("n"), [zero, one])], 1
    is_decimal = compare("=", ("DATATYPE", var("n")), ("term", ("iri", DECIMAL)))
    yield [minima, where("and", is_decimal, compare("<", "n", one))], 0
    yield [minima, where(*is_decimal), where(*compare("<", "n", one))], 0
    yield [minima, ("bind", compare("<", "n", one), "low", Site()), where(*var("low"))], 1
    yield [labels, ("optional", [having((SEE, "h"))], None), where("or", ("not", ("bound", var("h"))), compare("=", "h", ("term", ("iri", "http://e/home1"))))], 0
    yield [dates, ("optional", [having((ISSUED, "y")), where(*compare("<", "y", "d"))], None)], 1
    yield [having((SEE, "h")), ("bind", ("STR", var("h")), "text", Site()), where("isLITERAL", var("h"))], 0
    # VALUES excludes rows later, or before GRAPH.
    unequal = [having((LABEL, "l"), subject="c"), where(*compare("!=", "l", value_of("")))]
    yield [("group", [labels, where(*compare("!=", "l", value_of("")))]), ("values", "p", [("iri", "http://e/plugin0")])], 1
    yield [("graph", var("g"), unequal), ("values", "g", GRAPHS[:1])], 1
    yield [("values", "g", GRAPHS[:1]), ("graph", var("g"), unequal)], 1
    classes = ("triples", [(var("c"), TYPE, CLASSES[0])])
    unlabelled = ("minus", [having((LABEL, "l"), subject="c")])
    yield [("graph", var("g"), [classes, unlabelled])], 0
    yield [("graph", var("g"), [classes]), ("graph", var("h"), [having((LABEL, "l"), subject="c")]), where(*compare("!=", "g", "h"))], 0
    yield [("graph", var("g"), [classes]), unlabelled], 0, True
    yield [("graph", var("g"), [classes]), unlabelled], 1, False
    yield [("values", "g", [GRAPHS[0]]), ("graph", var("g"), [classes]), ("optional", [("graph", var("h"), [having((LABEL, "l"), subject="c")])], None)], 0, False


def daily():
    """Returns the cases of daily work: the document, a query, and the notes of the model."""
    cases = []
    for group, many, *kept in daily_queries():
        quads = [it for it in daily_quads() if it[3] or kept != [False]]
        writer, model = Writer(random.Random(len(cases))), Model(quads)
        writer.put("SELECT", "*")
        writer.group(group, "", False, False)
        model.group(group, None)
        notes = writer.notes(quads) + model.notes(writer.sites)
        assert len(notes) == many, (writer.text, notes)
        document = "".join(" ".join(written(it) for it in quad if it) + " .\n" for quad in quads)
        cases.append((document, writer.text, notes))
    return cases


def large():
    """Returns cases with 160,000 pairs of an xsd:double and an integer. All are counted, but below another join only the first 100,000."""
    document = '<http://e/c> <http://e/r> "z" .\n' + "".join(
        f'<http://e/a{i}> <http://e/p> "{i}"^^<{XSD}double> .\n<http://e/b{i}> <http://e/q> "{i}"^^<{XSD}integer> .\n' for i in range(400))
    pairs = "SELECT ?c { { ?a <http://e/p> ?x } { ?b <http://e/q> ?y } "
    for more, rows in (("", "160000 rows"), ("{ ?c <http://e/r> ?z } ", "at least 100000 rows")):
        note = f"spq: note: FILTER at line 1, column {len(pairs + more) + 1}: {rows} are left out, since {reason('datatype', XSD + 'double', None)}"
        missing = [] if more else ["spq: note: ?c at line 1, column 8 is selected and occurs nowhere in the pattern"]
        yield document, f"{pairs}{more}FILTER(?x = ?y) }}", [*missing, note]


def further():
    """Yields cases with two groups that are joined to others before `?x = ?y` is tested. They have too many pairs for all of them to be tested.
    No term of one is equal to a term of the other, so without the pairs over which `=` is an error nothing would be tested at all."""
    most = 1_000_000
    double, whole = (lambda at: literal(f"{at}.5e0", XSD + "double")), (lambda at: literal(str(at), XSD + "integer"))
    xs, ys, blank = [whole(at) for at in range(300)], [whole(at) for at in range(1000, 1300)], ("blank", "b")
    equal, texts = compare("=", "x", "y"), compare("=", ("STR", var("x")), ("STR", var("y")))
    both, is_literal = ("and", equal, compare("=", "y", "x")), ("isLITERAL", var("x"))
    for condition, left, right, groups, *inner in (
            (equal, [double(0), *xs[1:]], ys, [50]), (equal, xs, [*ys[:299], double(0)], [50]), (both, [*xs[:150], double(0), *xs[151:]], ys, [50]),
            (equal, [double(at) for at in range(9)] + xs[9:], [*ys[2:], double(10), double(11)], [50]), (equal, [double(0), *xs[1:]], ys, [40, 30]),
            (equal, xs, [double(0), *ys[1:]], [2, 3, 4, 5]), (equal, [double(at) for at in range(300)], ys, [50]), (equal, xs, ys, [50]),
            (equal, [double(0), *xs[1:]], ys, [50], is_literal), (texts, [blank, *xs[1:]], ys, [50]), (texts, xs, [*ys[1:], blank], [20, 5])):
        quads = [(("iri", f"http://e/{name}{at}"), ("iri", f"http://e/{name}"), it, None) for name, terms in (("p", left), ("q", right)) for at, it in enumerate(terms)]
        quads += [(("iri", "http://e/r"), ("iri", f"http://e/r{which}"), whole(at), None) for which, rows in enumerate(groups) for at in range(rows)]
        parts = [("p", "x"), ("q", "y"), *((f"r{which}", f"z{which}") for which in range(len(groups)))]
        group = [("group", [("triples", [(var(f"s{name}"), ("iri", f"http://e/{name}"), var(item))])]) for name, item in parts]
        if inner:
            group = [("group", [*group[:2], where(*inner[0])]), *group[2:]]
        writer, model, each = Writer(random.Random(1)), Model(quads), math.prod(groups)
        writer.put("SELECT", "*")
        writer.group([*group, where(*condition)], "", False, False)
        for x in left:
            for y in right:
                model.note(("filter",), [condition], {"x": x, "y": y})
        pairs = sum(count for count, _ in model.counts.values())
        for count in model.counts.values():
            count[0] *= each
        notes = model.notes(writer.sites)
        document = "".join(" ".join(written(it) for it in quad if it) + " .\n" for quad in quads)
        # (pairs whose keys happen to be equal are tested, too)
        yield document, writer.text, writer.notes(quads) + notes, most // each * each if pairs * each > most else None


def everywhere():
    """Yields cases with a FILTER by which rows are paired, and one that is an error over every row, with a common cause. It has its note up to
    the limit of pairs and of the rows that other groups make of them."""
    integer = XSD + "integer"
    for left, right, groups in ((10, 10, [10]), (10, 10, [11]), (5, 20, [2, 5]), (5, 20, [3, 4]), (25, 40, []), (25, 41, [])):
        parts = [("p", "x", left), ("q", "y", right), *((f"r{at}", f"z{at}", rows) for at, rows in enumerate(groups))]
        quads = [(("iri", f"http://e/{name}{at}"), ("iri", f"http://e/{name}"), literal(str(at), integer), None) for name, _, rows in parts for at in range(rows)]
        group = [("group", [("triples", [(var(f"s{name}"), ("iri", f"http://e/{name}"), var(item))])]) for name, item, _ in parts]
        group += [where(*compare("=", "x", "y")), where(*compare(">", "sq", value_of("1", integer)))]
        writer, model = Writer(random.Random(1)), Model(quads)
        writer.put("SELECT", "*")
        writer.group(group, "", False, False)
        model.group(group, None)
        notes = model.notes(writer.sites)
        assert len(notes) == 1, (writer.text, notes)
        document = "".join(" ".join(written(it) for it in quad if it) + " .\n" for quad in quads)
        yield document, writer.text, notes if left * right * math.prod(groups) <= MOST_PAIRED else []


def tags():
    """Returns cases with language tags in capitals, of which each that LANG, or a variable bound to it, is compared with has a note."""
    start = "SELECT ?s { ?s <http://e/label> ?l "
    document = '<http://e/a> <http://e/label> "x"@en-US .\n'
    for rest, found in (('FILTER(LANG(?l) = "en-US")', ["en-US"]), ('FILTER("EN" != LANG(?l))', ["EN"]),
                        ('FILTER(LANG(?l) IN ("en", "en-US", "DE") || ?l = "A"@DE)', ["en-US", "DE"]),
                        ('FILTER(LANG(?l) NOT IN ("FR") && STR(?l) != "FR")', ["FR"]), ('FILTER(LANG(?l) = "en-us" && STR(?l) IN ("EN"))', []),
                        ('BIND(LANG(?l) AS ?x) FILTER(?x = "en-US" || "DE" = ?x || ?x = "en")', ["en-US", "DE"]),
                        ('BIND(lang(?l) AS ?x) FILTER(?x NOT IN ("en", "FR")) FILTER(?l != "EN"@EN || true)', ["FR"]),
                        ('BIND(LANG(?l) AS ?x) BIND(?x = "EN" AS ?y)', ["EN"]), ('BIND(STR(?l) AS ?x) FILTER(?x = "EN")', []),
                        ('VALUES ?x { "EN" } FILTER(?x = "EN" && LANG(?l) = "en-us")', []),
                        ('{ VALUES ?x { "EN" } } UNION { ?y <http://e/label> ?z BIND(LANG(?z) AS ?x) } FILTER(?x = "EN")', [])):
        yield document, f"{start}{rest} }}", [
            f'spq: note: "{tag}" at line 1, column {len(start) + rest.index(f"{chr(34)}{tag}{chr(34)}") + 1} is never a value of LANG: '
            f'tags are in lower case (write "{tag.lower()}")' for tag in found]


def are_among(said, wanted, least):
    """Returns whether each note is one of the others, with at most its number of rows, and so many at least. If that is not 0, none is missing."""
    def split(note):
        parts = re.fullmatch(r"(.*: )(?:at least )?(\d+) rows? (?:is |are )?(.*)", note)
        return (parts[1] + re.sub("^(leave|treat|remove)s", r"\1", parts[3]), int(parts[2])) if parts else (note, 0)
    most = dict(map(split, wanted))
    return all(most.get(name, -1) >= rows >= least for name, rows in map(split, said)) and (least == 0 or len(said) == len(wanted))


def wrong(program, document, query, wanted, least=None):
    """Returns what is wrong of a case, or nothing. The notes are the wanted ones, or if a number is given, as in `are_among`."""
    for words in (["--workers", "1"], ["--workers", "8", "--rows", "1", "--piece", "1"]):
        ran = subprocess.run([program, "select", *words, "--query", query], input=document.encode(), stdout=subprocess.DEVNULL, stderr=subprocess.PIPE, timeout=120)
        said = ran.stderr.decode().splitlines()
        if ran.returncode or not (said == wanted if least is None else are_among(said, wanted, least)):
            return f"{' '.join(words)}: status {ran.returncode}\n{query}\n{document[:4000]}" + "\n".join(["found:", *said, "expected:", *wanted])
    return ""


def main():
    words = argparse.ArgumentParser(description=__doc__.partition("\n")[0])
    words.add_argument("program", nargs="?", default=f"{ROOT}/crates/spq/out/spq")
    words.add_argument("--count", type=int, default=300, help="the number of random cases")
    words.add_argument("--seed", type=int, default=1, help="the number of the first case")
    given = words.parse_args()
    if not os.path.exists(given.program):
        sys.exit(f"no program at {given.program}: build it first (see README)")
    made = {f"query {at}": it for at, it in enumerate([*daily(), *large(), *further(), *everywhere(), *tags()], 1)}
    made |= {f"case {seed}": case(seed) for seed in range(given.seed, given.seed + given.count)}
    with concurrent.futures.ThreadPoolExecutor(os.cpu_count()) as pool:
        found = list(pool.map(lambda it: wrong(os.path.abspath(given.program), *it), made.values()))
    bad = [f"{name}: {it}" for name, it in zip(made, found) if it]
    lines = sum(len(it[2]) for it in made.values())
    print("\n\n".join([*bad[:5], f"{len(made) - len(bad)} of {len(made)} queries have the notes of the model, {lines} in all"]))
    return 1 if bad else 0


if __name__ == "__main__":
    sys.exit(main())
