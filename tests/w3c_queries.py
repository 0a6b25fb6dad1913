"""Reads the text of a SPARQL query as far as tests/w3c.py needs it.

`outside` names what a query uses that the language of docs/USAGE.md leaves out. `adapted` writes a query of the W3C's with
the means of that language where the solutions stay the same. Both work on tokens, and share no code with spq.
"""
import re
import urllib.parse

TOKEN = re.compile(r"""
    (?P<space>\s+|\#[^\n\r]*)
  | (?P<iri><[^<>"{}|^`\\\x00-\x20]*>|<(?:[^<>"{}|^`\x00-\x20]|\\[uU])*>)
  | (?P<text>'''(?:'{0,2}(?:[^'\\]|\\.))*'''|\"""(?:"{0,2}(?:[^"\\]|\\.))*\"""|'(?:[^'\\\n\r]|\\.)*'|"(?:[^"\\\n\r]|\\.)*")
  | (?P<variable>[?$]\w[\w\u00b7]*)
  | (?P<tag>@[A-Za-z]+(?:-[A-Za-z0-9]+)*)
  | (?P<blank>_:\w(?:[\w.\u00b7-]*[\w\u00b7-])?)
  | (?P<number>[+-]?(?:[0-9]+\.[0-9]*[eE][+-]?[0-9]+|\.?[0-9]+[eE][+-]?[0-9]+|[0-9]*\.[0-9]+|[0-9]+))
  | (?P<name>(?:[^\W\d_](?:[\w.\u00b7-]*[\w\u00b7-])?)?:(?:(?:[\w:]|%[0-9A-Fa-f]{2}|\\[^uU])(?:(?:[\w:.\u00b7-]|%[0-9A-Fa-f]{2}|\\[^uU])*
        (?:[\w:\u00b7-]|%[0-9A-Fa-f]{2}|\\[^uU]))?)?)
  | (?P<word>[A-Za-z_][\w]*)
  | (?P<sign>\^\^|&&|\|\||!=|<=|>=|.)
""", re.X | re.S)
SCHEME = re.compile(r"<[A-Za-z][A-Za-z0-9+.-]*:")
# The words of the language.
WORDS = set("""
    PREFIX SELECT DISTINCT WHERE LIMIT OFFSET OPTIONAL GRAPH BIND AS VALUES UNDEF MINUS UNION FILTER IN NOT STR LANG DATATYPE
    ISIRI ISBLANK ISLITERAL BOUND SAMETERM TRUE FALSE A""".split())
TERMS = {"iri", "text", "variable", "tag", "blank", "number", "name"}


class Token:
    """A token of a query: its kind, its text and its place."""

    def __init__(self, kind, text, start):
        self.kind, self.text, self.start, self.end = kind, text, start, start + len(text)
        self.word = text.upper() if kind == "word" else ""


def tokens(query):
    """Returns the tokens of a query without space and comments."""
    found = [Token(it.lastgroup, it[0], it.start()) for it in TOKEN.finditer(query)]
    return [it for it in found if it.kind != "space"]


def depths(found, opening, closing):
    """Returns the number of open brackets before each token."""
    depth, made = 0, []
    for it in found:
        depth -= it.text == closing
        made.append(depth)
        depth += it.text == opening
    return made


def outside(query):
    """Returns the parts of SPARQL 1.1 that a query uses and the language leaves out, or an empty set."""
    found = tokens(query)
    braces, brackets = depths(found, "{", "}"), depths(found, "(", ")")
    reasons = {f"the word {it.word}" for it in found if it.word and it.word not in WORDS}
    if sum(it.word == "SELECT" for it in found) > 1:
        reasons.add("a subquery")
    in_values = data_blocks(found)
    for place, it in enumerate(found):
        before = found[place - 1] if place else it
        after = found[place + 1] if place + 1 < len(found) else it
        reasons |= reasons_at(it, before, after, braces[place], brackets[place], place in in_values)
    return reasons


def reasons_at(it, before, after, brace, bracket, is_data):
    """Returns why a token is outside of the language, from the tokens around it and the number of open brackets."""
    if it.kind == "iri":
        return set() if SCHEME.match(it.text) else {"a relative IRI"}
    if it.kind == "number":
        is_sum = it.text[0] in "+-" and bracket > 0 and not is_data and (before.kind in TERMS or before.text == ")")
        return {"arithmetic"} if is_sum else set()
    if it.word == "VALUES":
        return {"VALUES after the group"} if brace == 0 else set()
    if it.kind != "sign" or is_data:
        return set()
    if it.text == "*":
        return set() if before.word in ("SELECT", "DISTINCT") else {"arithmetic or a path"}
    if it.text in ("+", "-", "/", "|", "^", "?"):
        return {"arithmetic or a path"}
    if it.text == "!":
        return {"a path"} if bracket == 0 else set()
    if it.text == "\\":
        return {"an escape outside of IRIs and strings"}
    if it.text == "[":
        return {"a blank node with properties"} if after.text != "]" else set()
    if it.text == "(":
        return opening_reasons(before, brace)
    return {"a path"} if it.text == "{" and after.kind == "number" else set()


def opening_reasons(before, brace):
    """Returns why an opening bracket is outside of the language: it begins a collection, a call by IRI or an expression after SELECT."""
    if brace == 0:
        return {"an expression after SELECT"}
    if before.kind in ("iri", "name"):
        return {"a collection or a call by IRI"}
    is_collection = before.kind in TERMS or before.word in ("A", "TRUE", "FALSE") or before.text in tuple("{}.;,])")
    return {"a collection"} if is_collection and before.text != "," else set()


def data_blocks(found):
    """Returns the places of the tokens in the data of VALUES."""
    inside, place = set(), 0
    while place < len(found):
        if found[place].word == "VALUES":
            end = next((at for at in range(place, len(found)) if found[at].text == "}"), len(found) - 1)
            inside.update(range(place + 1, end + 1))
            place = end
        place += 1
    return inside


# Adapting a query.


def replaced(query, edits):
    """Returns a query with other text at some places: `[(start, end, text), ..]`."""
    for start, end, text in sorted(edits, reverse=True):
        query = query[:start] + text + query[end:]
    return query


def resolved(base, iri):
    """Resolves an IRI against a base. (`urljoin` leaves out an empty fragment.)"""
    whole = urllib.parse.urljoin(base, iri)
    return f"{whole}#" if iri.endswith("#") and not whole.endswith("#") else whole


def without_relative_iris(query, base):
    """Resolves relative IRIs against the BASE of the query, or else against this base."""
    found, edits = tokens(query), []
    for place, it in enumerate(found):
        if it.kind == "iri" and place and found[place - 1].word == "BASE":
            base = resolved(base, it.text[1:-1])
            edits.append((found[place - 1].start, it.end, ""))
        elif it.kind == "iri" and not SCHEME.match(it.text):
            edits.append((it.start, it.end, f"<{resolved(base, it.text[1:-1])}>"))
    return replaced(query, edits)


def without_dataset(query):
    """Returns the query without FROM clauses, the IRIs of its default graph, and those of its named graphs."""
    found, edits, default, named = tokens(query), [], [], []
    for place, it in enumerate(found):
        if it.word == "FROM" and place + 2 < len(found):
            is_named = found[place + 1].word == "NAMED"
            iri = found[place + 1 + is_named]
            if iri.kind == "iri":
                (named if is_named else default).append(iri.text[1:-1])
                edits.append((it.start, iri.end, ""))
    return replaced(query, edits), default, named


def group_of(found):
    """Returns the places of the brackets of the outermost group, or None."""
    braces = depths(found, "{", "}")
    first = next((place for place, it in enumerate(found) if it.text == "{"), None)
    last = next((place for place, it in enumerate(found) if it.text == "}" and braces[place] == 0), None)
    return None if first is None or last is None else (first, last)


def without_order(query):
    """Leaves out an ORDER BY without LIMIT and OFFSET: it decides no solution."""
    found = tokens(query)
    group = group_of(found)
    after = found[group[1] + 1 :] if group else []
    if after and after[0].word == "ORDER" and not any(it.word in ("LIMIT", "OFFSET", "VALUES", "BINDINGS") for it in after):
        return query[: after[0].start]
    return query


def with_values_inside(query):
    """Moves VALUES (or BINDINGS, as a draft of SPARQL 1.1 called it) from after the group into it."""
    found = tokens(query)
    group = group_of(found)
    after = found[group[1] + 1 :] if group else []
    start = next((it for it in after if it.word in ("VALUES", "BINDINGS")), None)
    if start is None:
        return query
    block = query[start.start :].rstrip()
    if start.word == "BINDINGS":
        block = re.sub(r"(?i)^BINDINGS\s+([^{]*)\{", lambda it: f"VALUES ({it[1].strip()}) {{", block)
    first, last = found[group[0]], found[group[1]]
    return f"{query[: first.start]}{{ {query[first.start : last.end]} {block} }}{query[last.end : start.start]}"


def with_bindings_inside(query):
    """Writes the expressions after SELECT as BIND at the end of the group."""
    found = tokens(query)
    group = group_of(found)
    head = [it.word for it in found[: group[0]]] if group else []
    if "SELECT" not in head or not any(it.text == "(" for it in found[: group[0]]):
        return query
    edits, binds, place = [], [], head.index("SELECT")
    brackets = depths(found, "(", ")")
    while place < group[0]:
        if found[place].text == "(":
            end = next(at for at in range(place + 1, group[0]) if found[at].text == ")" and brackets[at] == brackets[place])
            binds.append(f"BIND{query[found[place].start : found[end].end]}")
            edits.append((found[place].start, found[end].end, found[end - 1].text))
            place = end
        place += 1
    first, last = found[group[0]], found[group[1]]
    edits.append((first.start, last.end, f"{{ {query[first.start : last.end]} {' '.join(binds)} }}"))
    return replaced(query, edits)


def as_select(query):
    """Writes ASK as SELECT, and leaves out REDUCED."""
    found = tokens(query)
    form = next((it for it in found if it.word in ("ASK", "SELECT")), None)
    if form is not None and form.word == "ASK":
        query = replaced(query, [(form.start, form.end, "SELECT *")])
    reduced = next((it for it in tokens(query) if it.word == "REDUCED"), None)
    return replaced(query, [(reduced.start, reduced.end, "")]) if reduced else query


def adapted(query, base):
    """Returns a query in the language with the same solutions if these steps give one, and the IRIs of the graphs of its dataset."""
    changed, default, named = without_dataset(without_relative_iris(query, base))
    changed = with_bindings_inside(with_values_inside(without_order(as_select(changed))))
    return changed, default, named
