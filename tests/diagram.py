"""Draws docs/architecture.svg: the crates and how data flows through them. `tests/pages.py --write` writes it."""

DIAGRAM = "docs/architecture.svg"
WIDTH, HEIGHT = 1080, 892
STYLE = """  <style>
    text { font-family: "DejaVu Sans", "Helvetica Neue", Arial, sans-serif; font-size: 12px; fill: #1f2933; }
    .name { font-size: 14px; font-weight: bold; }
    .datatext { font-size: 13px; font-style: italic; }
    .crate { fill: #ffffff; stroke: #52606d; }
    .types { fill: #ffffff; stroke: #52606d; stroke-dasharray: 4 3; }
    .program { fill: #e3edf7; stroke: #52606d; }
    .frame { fill: #f2f6fa; stroke: #9fb3c8; }
    .data { fill: #fdf3d8; stroke: #c9a227; }
    .base { fill: #eaf4ea; stroke: #6b9a6b; }
    .arrow { fill: none; stroke: #52606d; stroke-width: 1.6; marker-end: url(#head); }
  </style>
  <defs>
    <marker id="head" viewBox="0 0 10 10" refX="9" refY="5" markerWidth="7" markerHeight="7" orient="auto">
      <path d="M0 0 L10 5 L0 10 z" fill="#52606d"/>
    </marker>
  </defs>"""


def rectangle(kind, x, y, width, height, radius=6):
    return f'  <rect class="{kind}" x="{x}" y="{y}" width="{width}" height="{height}" rx="{radius}"/>'


def text(x, y, words, kind="caption", anchor="middle"):
    return f'  <text class="{kind}" x="{x:g}" y="{y}" text-anchor="{anchor}">{words}</text>'


def box(x, y, width, name, *lines, kind="crate", height=0):
    """A crate: its name, and lines on what it does."""
    middle = x + width / 2
    drawn = [rectangle(kind, x, y, width, height or 30 + 16 * len(lines)), text(middle, y + 20, name, "name")]
    return drawn + [text(middle, y + 38 + 16 * place, line) for place, line in enumerate(lines)]


def frame(x, y, width, height, name, line):
    """A crate that calls those inside it."""
    label = f'  <text x="{x + 14}" y="{y + 21}"><tspan class="name">{name}</tspan><tspan dx="8">{line}</tspan></text>'
    return [rectangle("frame", x, y, width, height, 10), label]


def data(x, y, width, words):
    return [rectangle("data", x, y, width, 32, 16), text(x + width / 2, y + 21, words, "datatext")]


def arrow(*points):
    return [f'  <path class="arrow" d="M{" L".join(f"{x} {y}" for x, y in points)}"/>']


def parts():
    """Yields the elements of the drawing, from top to bottom."""
    yield box(40, 20, 1000, "spq, spq_command, spq_core, spq_run",
              "main passes arguments, standard input and standard output to run_words, which reads the command line, checks the query, loads, evaluates and writes",
              kind="program")
    # A document becomes a dataset.
    yield data(40, 92, 420, "N-Quads document, standard input")
    yield frame(40, 150, 420, 218, "dataset_load", "a dataset, or the first malformed line")
    yield box(60, 186, 180, "piece_cuts", "blocks of whole lines")
    yield box(260, 186, 180, "nquads_core", "lines to statements;", "nquads_scan: to slices")
    yield box(260, 296, 180, "dict_core", "terms to numbers; text_dict,", "text_pieces, keyed_hash")
    yield box(60, 296, 180, "quad_index", "sorted lists, scans")
    yield arrow((250, 124), (250, 149))
    yield arrow((240, 209), (259, 209))
    yield arrow((350, 248), (350, 295))
    yield arrow((260, 319), (241, 319))
    yield [text(40, 396, "A box is a crate. A frame is the crate that calls those inside it.", anchor="start")]
    yield [text(40, 414, "A dashed box has data types. A yellow box is an input or the output.", anchor="start")]
    yield [text(40, 432, "An arrow shows where data goes. Most crates use the green boxes.", anchor="start")]
    yield [text(40, 450, "The blue boxes are the program, and its messages on standard error.", anchor="start")]
    # A query becomes a plan.
    yield data(620, 92, 420, "query text, --query")
    yield frame(620, 150, 420, 218, "sparql_read", "a syntax tree, or the first rule that rejects it")
    yield box(640, 186, 180, "sparql_lexer", "text to terminals")
    yield box(840, 186, 180, "sparql_grammar", "productions, prefixes")
    yield box(640, 296, 180, "sparql_expression", "terms and expressions")
    yield box(840, 296, 180, "sparql_parse", "patterns and the query")
    yield box(620, 400, 200, "sparql_tree", "the syntax tree", kind="types")
    yield box(840, 400, 200, "sparql_algebra", "plans; expression_values,", "term_values, expression_errors")
    yield arrow((830, 124), (830, 149))
    yield arrow((730, 232), (730, 295))
    yield arrow((820, 319), (839, 319))
    yield arrow((930, 232), (930, 295))
    yield arrow((720, 368), (720, 399))
    yield arrow((820, 423), (839, 423))
    # Which quads of the document the plan needs.
    yield box(480, 226, 120, "needed_quads", "quads of a plan;", "quad_filter")
    yield arrow((840, 455), (590, 455), (590, 289))
    yield arrow((480, 257), (461, 257))
    # Rows and results.
    yield frame(40, 490, 1000, 96, "sparql_eval", "a plan becomes rows of numbers, operator by operator")
    yield box(60, 526, 225, "row_pattern", "basic graph patterns by scans")
    yield box(305, 526, 225, "row_join", "hash joins")
    yield box(550, 526, 225, "row_pieces", "operators over tasks of rows")
    yield box(795, 526, 225, "row_core", "rows of numbers", kind="types")
    yield arrow((460, 319), (530, 319), (530, 489))
    yield arrow((940, 462), (940, 489))
    yield box(40, 618, 480, "result_json", "rows are sorted, sliced and printed, in blocks")
    yield data(600, 625, 440, "SPARQL 1.1 Query Results JSON, standard output")
    yield arrow((280, 586), (280, 617))
    yield arrow((520, 641), (599, 641))
    # What the others use, and the messages, which only the program uses.
    yield box(40, 692, 240, "rdf_core", "terms, quads, lexical forms", kind="base", height=102)
    yield box(293, 692, 240, "algebra_model", "definitions and laws", "of the SPARQL algebra", kind="base", height=102)
    yield box(546, 692, 240, "piece_pool", "worker threads run the", "tasks of a job; numbers from", "piece_board, a lock-free counter", kind="base", height=102)
    yield box(799, 692, 241, "spq_report", "messages: line_diagnosis,", "query_diagnosis, excerpt,", "query_notes, malformed_lines", kind="program", height=102)
    yield box(40, 814, 1000, "spq_part", "what spq-dask runs for parts of a document: part_core; cluster_parts splits and counts, query_plan plans, result_merge merges;",
              "query_split, query_parts, row_merge and partition_laws: the laws of splitting and merging", kind="program")


def svg():
    head = f'<svg xmlns="http://www.w3.org/2000/svg" viewBox="0 0 {WIDTH} {HEIGHT}" width="{WIDTH}" height="{HEIGHT}" role="img" aria-labelledby="title">'
    title = '  <title id="title">The crates of spq and how data flows through them</title>'
    lines = [line for part in parts() for line in part]
    return "\n".join([head, title, STYLE, f'  <rect width="{WIDTH}" height="{HEIGHT}" fill="#ffffff"/>', *lines, "</svg>", ""])
