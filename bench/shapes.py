"""The shapes of document that datasets.py writes, apart from the catalogue: each is a function from the number of a statement, and of
all statements, to a line without its line end.

The first ones have the same statements in several layouts. In the others the layout is that of canonical N-Quads, and the terms differ:
how many are new, how long they are, how they are escaped. Python 3 standard library only.
"""
XSD = "http://www.w3.org/2001/XMLSchema#"


def terms(n, count):
    """Returns the terms of statement n of `plain`: an eighth as many subjects as statements, 23 predicates, 97 graphs."""
    things = max(count // 8, 1)
    kind = n % 4
    if kind == 0:
        value = f"<http://data.example/item/{n * 7919 % things}>"
    elif kind == 1:
        value = f'"value {n % 5000}"'
    elif kind == 2:
        value = f'"{n % 900}"^^<{XSD}integer>'
    else:
        value = f'"nom {n % 3000}"@fr'
    return f"<http://data.example/item/{n % things}>", f"<http://vocab.example/p{n % 23}>", value, f"<http://data.example/graph/{n % 97}>"


def plain(n, count):
    return " ".join(terms(n, count)) + " ."


def tabs(n, count):
    return "\t".join(terms(n, count)) + "\t."


def no_spaces(n, count):
    return "".join(terms(n, count)) + "."


def crlf(n, count):
    return plain(n, count) + "\r"


def comments(n, count):
    return plain(n, count) if n % 2 else f"# comment {n}"


def graphs(n, count):
    """A named graph of its own for each statement."""
    return " ".join(terms(n, count)[:3]) + f" <http://data.example/graph/{n}> ."


def new(n, count):
    """Every term is new."""
    return f'<http://data.example/s/{n}> <http://vocab.example/p{n}> "text {n} {n * 31}" <http://data.example/g/{n}> .'


def escapes(n, count):
    """A numeric escape for each character of a literal."""
    text = "".join(f"\\u{0x400 + n * place % 600:04X}" for place in range(1, 13))
    return f'<http://data.example/s/{n % 5000}> <http://vocab.example/p{n % 9}> "{text}"@ru .'


def one_subject(n, count):
    return f"<http://data.example/hub> <http://vocab.example/has> <http://data.example/item/{n}> ."


def long(n, count):
    """Literals of 100 kB, a statement for every 500 of the other shapes."""
    return f'<http://data.example/s/{n}> <http://vocab.example/text> "{"lorem ipsum " * 8000}{n}" .'


def mix(n, count):
    """Records of staff, offers and articles in turn, ten statements each; a third of the statements is in named graphs."""
    record, field = divmod(n, 10)
    return (staff, offer, article)[record % 3](record // 3, field)


def staff(number, field):
    unit = number // 8
    me = f"<http://univ.example/unit{unit}/person{number}>"
    graph = f"_:unit{unit}" if unit % 5 == 0 else f"<http://univ.example/unit{unit}>"
    values = (
        "<http://univ.example/terms#Professor>", f"<http://univ.example/unit{unit}>", f'"Zoë Müller {number}"',
        f'"person{number}@unit{unit}.example" {graph}', f'"{1940 + number % 60}"^^<{XSD}integer>', f"<http://univ.example/course/{number * 7 % 5000}> {graph}",
        f"<http://univ.example/unit{number * 31 % (unit + 1)}>", f'"Lecture on \\"{number % 300}\\"" {graph}', f'"Straße {number % 90}"@de', f"<http://univ.example/unit{unit}/person{max(number - 1, 0)}>",
    )
    return f"{me} <http://univ.example/terms#field{field}> {values[field]} ."


def offer(number, field):
    graph = f"<http://shop.example/vendor/{number % 40}>"
    values = (
        f"<http://shop.example/product/{number * 17 % (number + 1)}>", f'"{number * 37 % 90000 / 100:.2f}"^^<{XSD}decimal> {graph}', f'"product {number} amber letter signal"@en',
        f'"20{number % 25:02}-0{number % 9 + 1}-11T00:00:00"^^<{XSD}dateTime> {graph}', f"<http://shop.example/country/{number % 30}>", f'"{number % 14}"^^<{XSD}integer>',
        f'"{"ready for dispatch, in its box, with a bill " * (1 + number % 4)}{number}"', f"_:review{number}", f'"line {number}\\nbreak" {graph}', f'"\\u00E9t\\u00E9 {number % 700}"@fr',
    )
    return f"_:offer{number} <http://shop.example/terms#field{field}> {values[field]} ."


def article(number, field):
    me = f"<http://articles.example/{1940 + number % 80}/article{number}>"
    graph = f"<http://articles.example/journal{number // 50}>"
    values = (
        f'"On the {number} rivers of stone"', f"<http://articles.example/{1940 + number * 7 % 80}/article{number * 13 % (number + 1)}>", f'"{1940 + number % 80}"^^<http://www.w3.org/2001/XMLSchema#gYear> {graph}',
        f"_:author{number % 9000}", f"_:author{number * 11 % 9000}", f"<http://articles.example/journal{number // 50}> {graph}", f'"{number % 400}"^^<{XSD}integer>',
        f'"東京 {number % 2000}"@ja {graph}', f"<http://pages.example/articles/{number}.html>", "<http://articles.example/terms#Article>",
    )
    return f"{me} <http://articles.example/terms#field{field}> {values[field]} ."


def thing(number):
    return f"<http://e.example/{number:07}>"


# The terms of statement n about numbered things.
OF_THINGS = {
    # Links between 2,000 things: nearly no term is new.
    "links": lambda n: (thing(n // 2000 % 2000), thing(2000 + n // 4000000), thing(n % 2000)),
    # A new short literal in each statement.
    "literals": lambda n: (thing(n % 1000), thing(1000), f'"value {n}"'),
    # A new short subject and a new short object in each statement.
    "resources": lambda n: (thing(2 * n), thing(1), thing(2 * n + 3)),
}


def of_things(terms_of):
    return lambda n, count: " ".join(terms_of(n)) + " ."


# By the name that datasets.py has for each.
SHAPES = {it.__name__.replace("_", "-"): it for it in (mix, plain, tabs, no_spaces, crlf, comments, graphs, new, escapes, one_subject, long)}
SHAPES |= {name: of_things(terms_of) for name, terms_of in OF_THINGS.items()}
EACH = {"long": 500}


def lines(name, count):
    """Yields the lines of a document of a shape, `count` of them (or fewer, if the shape has long lines)."""
    shape = SHAPES[name]
    return (f"{shape(n, count)}\n" for n in range(-(-count // EACH.get(name, 1))))
