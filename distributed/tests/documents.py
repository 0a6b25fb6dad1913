"""Random documents: the statements of tests/parts.py, written in many ways."""
import random
import re

import parts

XSD_STRING = "^^<http://www.w3.org/2001/XMLSchema#string>"


def numbered(dice: random.Random, text: str) -> str:
    """Writes a character of the last IRI or literal by its number."""
    places = [match.start() for match in re.finditer(r"(?<=[/\"])[a-z0-9]", text)]
    if not places:
        return text
    place = dice.choice(places)
    escape = dice.choice(["\\u{:04X}", "\\U{:08x}"]).format(ord(text[place]))
    return text[:place] + escape + text[place + 1 :]


def term(dice: random.Random, text: str) -> str:
    """Writes a term, perhaps in another way."""
    kind = dice.randrange(12)
    if kind == 0 and not text.startswith("_:"):
        return numbered(dice, text)
    if kind == 1 and text.endswith('"'):
        return text + XSD_STRING
    if kind == 2 and "@" in text:
        return text.replace("@", dice.choice([" @", "@"])).replace("en", "EN")
    if kind == 3 and "^^" in text:
        return text.replace("^^", dice.choice([" ^^", "^^ ", "\t^^  "]))
    return text


def line(dice: random.Random, quad: tuple[str, str, str, str]) -> str:
    """Writes a statement, without a line end."""
    usual = dice.randrange(3)
    blank = lambda: " " if usual else dice.choice([" ", "  ", "\t", " \t "])
    terms = [term(dice, text) for text in quad if text]
    written = terms[0]
    for before, after in zip(terms, terms[1:]):
        glued = not usual and not before.startswith("_:") and not before.rpartition('"')[2].startswith("@")
        written += ("" if glued and dice.randrange(4) == 0 else blank()) + after
    end = dice.choice([" .", " .", ".", " . ", " . # <c> .", " .# _:c .", "\t."]) if not usual else " ."
    return dice.choice(["", "", " "] if not usual else [""]) + written + end


def document(dice: random.Random, statements: list, repeats: bool, line_ends: list) -> bytes:
    """Writes statements as a document, with comments and blank lines, and perhaps with statements that come again."""
    written = [line(dice, quad) for quad in statements]
    if repeats:
        written += [line(dice, dice.choice(statements)) for _ in range(dice.randrange(4))]
        dice.shuffle(written)
    for _ in range(dice.randrange(3)):
        written.insert(dice.randrange(len(written) + 1), dice.choice(["", "# c", " ", '# <a> <b> "c" .']))
    text = "".join(one + dice.choice(line_ends) for one in written)
    return (text[:-1] if dice.randrange(4) == 0 else text).encode()


def more_terms(dice: random.Random, statements: list) -> list:
    """Puts literals and labels of more kinds in the place of some objects."""
    made = ['"a\\"b"', '"\\\\u0041"', '"<x> <y>"', '"}},{\\"o\\":{"', '"é\u2028𝄞"', '"tab\there"', '"a\\nb"', "_:é.1:x", "_:b.c",
            '"x"@de-ch', "<http://e/é#f>", '"\\r\\\\"', '"_:g ."', '" . # "']
    return [(s, p, dice.choice(made) if dice.randrange(3) == 0 else o, g) for s, p, o, g in statements]


def case(dice: random.Random) -> tuple:
    """Returns a kind of split, statements, and a query that may be split in this way."""
    kind, statements, _, group = parts.case(dice)
    options = {
        0: ["--split", "lines"],
        1: ["--split", "graph"],
        2: ["--split", "subject"],
        3: ["--split", "graph"],
        4: ["--split", "graph", "--replicate-default-graph"],
    }[kind]
    distinct = dice.choice(["", "", "DISTINCT "])
    variables = dice.choice(["*", "*", "?c ?a", "?k ?b ?z ?a"])
    modifiers = dice.choice(["", "", " LIMIT 2", " LIMIT 3 # OFFSET 9", " OFFSET 1", " OFFSET 2 LIMIT 2"])
    query = f"{parts.PREFIX}SELECT {distinct}{variables} {{ {parts.label_once(group)} }}{modifiers}"
    return options, statements, query
