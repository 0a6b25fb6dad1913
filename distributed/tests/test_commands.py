"""The three commands over documents that are cut in many ways."""
import gzip
import os
import random
import re
import subprocess
import sys
import unittest
import urllib.request
from unittest import mock

import testing
from testing import ROOT, SCRIPT, file, spq, spq_dask

CATALOGUE = os.path.join(ROOT, "docs", "tour", "library.nq")
PREFIX = "PREFIX dct: <http://purl.org/dc/terms/> PREFIX lib: <http://library.example/terms#> "
QUERIES = [
    (["--split", "lines"], "SELECT ?title { ?w dct:title ?title } LIMIT 4"),
    (["--split", "lines"], "SELECT DISTINCT ?g { GRAPH ?g { ?a ?b ?c } }"),
    (["--split", "subject"], "SELECT ?w ?t ?p { ?w dct:title ?t OPTIONAL { ?w lib:price ?p } MINUS { ?w a lib:Map } }"),
    (["--split", "subject"], "SELECT ?shelf ?w { GRAPH ?g { ?c lib:of ?w ; lib:shelf ?shelf } }"),
    (["--split", "graph"], "SELECT ?g ?w ?due { GRAPH ?g { ?c lib:of ?w OPTIONAL { ?c lib:due ?due } } }"),
    (["--split", "graph", "--replicate-default-graph"], "SELECT * { GRAPH ?g { ?c lib:of ?w OPTIONAL { ?c lib:due ?due } } ?w dct:title ?title }"),
]


class Catalogue(unittest.TestCase):
    def test_check_terms_select(self):
        with open(CATALOGUE, "rb") as source:
            text = source.read()
        for size in ["700", "3KiB", "256MiB"]:
            for command in ["check", "terms"]:
                with self.subTest(command=command, size=size):
                    self.assertEqual(spq_dask([command, "--blocksize", size], CATALOGUE)[:2], spq([command], text))
            for options, query in QUERIES:
                with self.subTest(query=query, size=size):
                    asked = ["select", "--query", PREFIX + query]
                    self.assertEqual(spq_dask([*asked, *options, "--blocksize", size], CATALOGUE), (*spq(asked, text), ""))

    def test_program(self):
        """The program itself, with the scheduler of the tests and with one of its own."""
        program = os.path.join(ROOT, "distributed", "spq-dask")
        query = "SELECT * { GRAPH ?g { ?a ?b ?c } }"
        for words, status, said in [
            (["check", "--scheduler", testing.ADDRESS, "--blocksize", "2KiB", CATALOGUE], 0, b"ok 64 quads 74 terms 3 graphs\n"),
            (["check", "--processes", "2", "--blocksize", "4KiB", CATALOGUE], 0, b"ok 64 quads 74 terms 3 graphs\n"),
            (["check", "--processes", "1", "--quiet", file(b"\n\n\nx\n")], 1, b"error: line 4\n"),
            (["select", "--scheduler", testing.ADDRESS, "--query", query, "--split", "graph", CATALOGUE], 0, None),
            (["terms", "--scheduler", testing.ADDRESS, "missing.nq"], 5, b"error: input\n"),
            (["check", "--blocksize", "many", CATALOGUE], 3, b"error: command line\n"),
        ]:
            ran = subprocess.run([program, words[0], "--spq", testing.SPQ, "--spq-part", testing.PART, *words[1:]], capture_output=True)
            if said is None:
                with open(CATALOGUE, "rb") as source:
                    said = spq(["select", "--query", query], source.read())[1]
            with self.subTest(words=words):
                self.assertEqual((ran.returncode, ran.stdout), (status, said), ran.stderr)
                self.assertEqual(b"dashboard: http" in ran.stderr, status != 3 and "--quiet" not in words)
                if "--quiet" in words:
                    self.assertRegex(ran.stderr, rb"^spq-dask: \S*document.nq: line 4\n$")
                self.assertNotIn(b"Traceback", ran.stderr)

    def test_page(self):
        """The commands of docs/PARTS.md that run spq-dask print what the page shows."""
        with open(os.path.join(ROOT, "docs", "PARTS.md")) as page:
            text = page.read().partition("```shell-session\n")[2].partition("```")[0]
        commands = re.findall(r"^\$ (.*(?:\n> .*)*)\n((?:[^$].*\n)*)", text, re.MULTILINE)
        self.assertGreater(len(commands), 5)
        place = os.path.dirname(file(open(CATALOGUE, "rb").read(), "library.nq"))
        mark = "-- next --\n"
        lines = "exec 2>&1\n" + "".join(f"{command}\nprintf '%s' '{mark}'\n" for command, _ in commands).replace("\n> ", "\n")
        ran = subprocess.run(["bash"], input=lines, capture_output=True, text=True, cwd=place, env=testing.environment())
        self.assertEqual(ran.stdout.split(mark)[:-1], [shown for _, shown in commands])

    def test_two_versions(self):
        """Two versions of the script, whose tasks differ, on the same workers."""
        program = os.path.join(ROOT, "distributed", "spq-dask")
        with open(program, "rb") as source:
            text = source.read()
        other = file(text.replace(b"int(run(distinct", b"1000 + int(run(distinct"), "spq-dask")
        for path, said in [(program, b"ok 64 quads 74 terms 3 graphs\n"), (other, b"ok 64 quads 2074 terms 2003 graphs\n")] * 2:
            words = ["check", "--quiet", "--scheduler", testing.ADDRESS, "--spq", testing.SPQ, "--spq-part", testing.PART, "--blocksize", "4KiB"]
            ran = subprocess.run([sys.executable, path, *words, CATALOGUE], stdout=subprocess.PIPE)
            self.assertEqual((ran.returncode, ran.stdout), (0, said))

    def test_dashboard(self):
        link = testing.CLIENT.dashboard_link.removesuffix("/status")
        with urllib.request.urlopen(link + "/health") as answer:
            self.assertEqual(answer.read(), b"ok")
        with urllib.request.urlopen(link + "/info/main/workers.html") as answer:
            page = answer.read().decode()
        for address in testing.workers():
            self.assertIn(address, page)


class Forms(unittest.TestCase):
    """Line ends, files that are compressed or empty, and several files."""

    TEXT = b"".join(b"<a:s%d> <a:p> \"%d\" <a:g%d> .\n" % (k % 7, k % 11, k % 3) for k in range(60))

    def same(self, text: bytes, *files: str, sizes=("150", "1MiB")):
        query = "SELECT * { GRAPH ?g { ?s ?p ?o } }"
        for size in sizes:
            for words, options in [(["check"], []), (["terms"], []), (["select", "--query", query], ["--split", "graph"])]:
                with self.subTest(words=words, size=size):
                    self.assertEqual(spq_dask([*words, *options, "--blocksize", size], *files), (*spq(words, text), ""))

    def test_empty(self):
        self.same(b"", file(b""))
        self.same(b"", file(gzip.compress(b""), "x.nq.gz"), sizes=["1MiB"])

    def test_blank_lines_and_comments(self):
        text = b"\n# c\n\r\n \t\r# d" * 20
        self.same(text, file(text))

    def test_gzip(self):
        self.same(self.TEXT, file(gzip.compress(self.TEXT), "x.nq.gz"))

    def test_several_files(self):
        parts = [self.TEXT[:500].rpartition(b"\n")[0] + b"\n", b"", self.TEXT[500:].partition(b"\n")[2]]
        self.same(b"".join(parts), file(parts[0]), file(parts[1]), file(gzip.compress(parts[2]), "x.gz"))

    def test_line_ends(self):
        dice = random.Random(4)
        text = b"".join(line[:-1] + dice.choice([b"\r", b"\r\n", b"\n", b"\n"]) for line in self.TEXT.splitlines(True))
        self.same(text, file(text))
        self.same(text[:-1], file(text[:-1]))

    def test_equal_terms_in_different_forms(self):
        """Literals that differ by a tag or an escape alone, and one quad in many forms, in different blocks."""
        objects = ['"chat"', '"chat"@fr', '"chat"^^<http://www.w3.org/2001/XMLSchema#string>', '"a\\u005Cb"', '"a\\\\b"', '"a\\b"', '"\\u0078"', '"x"', '"x"@EN', '"x"@en']
        lines = [f"<a:s> <a:p> {o} {g} .\n" for g in ["", "<a:g>", "<a:\\u0067>", "_:g"] for o in objects * 2]
        random.Random(7).shuffle(lines)
        text = "".join(lines).encode()
        self.same(text, file(text), sizes=["180", "1MiB"])

    def test_repeated_quads(self):
        """Quads that are in several blocks, once or more in each."""
        dice = random.Random(6)
        text = b"".join(b'<a:s%d> <a:p> "%d" .\n' % (dice.randrange(9), dice.randrange(9)) for _ in range(300))
        self.same(text, file(text), sizes=["500", "3KiB"])

    def test_quad_in_two_blocks(self):
        """With --split lines no quad is in two blocks, in any form, unless the query has DISTINCT."""
        lines = [b'<a:s%d> <a:p> "x%d" .\n' % (k % 9, k) for k in range(40)]
        once, again, other = b"".join(lines), lines[7], b'<a:s\\u0037> <a:p>"\\u00787"^^<http://www.w3.org/2001/XMLSchema#string>.'
        query, distinct = "SELECT * { ?s ?p ?o }", "SELECT DISTINCT ?s { ?s ?p ?o } OFFSET 2"
        words = ["--split", "lines", "--blocksize"]
        for text in [once + again, once + other, once + once]:
            for size, command in [("300", distinct), ("64KiB", distinct), ("64KiB", query)]:
                with self.subTest(text=text, size=size, query=command):
                    asked = ["select", "--query", command]
                    self.assertEqual(spq_dask([*asked, *words, size], file(text)), (*spq(asked, text), ""))
            status, said, told = spq_dask(["select", "--query", query, *words, "300"], file(text))
            self.assertEqual((status, said), (3, b"error: command line\n"))
            self.assertRegex(told, "^spq-dask: a quad is in two blocks")
        parts = [once[: once.index(lines[20])] + lines[3], once[once.index(lines[20]) :] + lines[30]]  # again, but in its own block
        asked = ["select", "--query", query]
        self.assertEqual(spq_dask([*asked, *words, "1KiB"], *map(file, parts)), (*spq(asked, b"".join(parts)), ""))

    def test_large_block(self):
        """A block of more than 8 MiB, with and without a malformed last line."""
        text = b"".join(b'<a:s%d> <a:p> "%d" <a:g%d> .\n' % (k, k % 9, k % 5) for k in range(300_000))
        for document in [text, text + b"x"]:
            for command in ["check", "terms"]:
                self.assertEqual(spq_dask([command, "--blocksize", "64MiB"], file(document))[:2], spq([command], document))

    def test_many_rows(self):
        """A part of more rows than are sent at once, and limits beyond 64 bits."""
        text = b"".join(b'<a:s%d> <a:p> "%d" .\n' % (k, k % 99) for k in range(12_000))
        for query in ["SELECT * { ?s ?p ?o }", "SELECT ?o { ?s ?p ?o } LIMIT 9223372036854775808", "SELECT DISTINCT ?o { ?s ?p ?o } LIMIT 99999999999999999999999",
                      "SELECT * { ?s ?p ?o } LIMIT 10 OFFSET 11000", "SELECT DISTINCT ?o { ?s ?p ?o } OFFSET 90"]:
            asked = ["select", "--query", query]
            for split in ["lines", "subject"]:
                self.assertEqual(spq_dask([*asked, "--split", split, "--blocksize", "1MiB"], file(text))[:2], spq(asked, text))

    def test_many_partitions(self):
        """More partitions than workers, and blocks of several pieces."""
        query = "SELECT * { GRAPH ?g { ?s ?p ?o } }"
        commands = [(["check"], []), (["terms"], []), *((["select", "--query", query], ["--split", how]) for how in ["lines", "subject", "graph"])]
        commands.append((["select", "--query", "SELECT * { GRAPH ?g { ?s ?p ?o } ?a ?b ?c }"], ["--split", "graph", "--replicate-default-graph"]))
        commands += [(["select", "--query", f"{query} LIMIT 30"], ["--split", how]) for how in ["lines", "graph"]]
        for many, most in [(5, 1_000), (64, 3)]:
            with mock.patch.multiple(SCRIPT, COUNTED=1 << 23, EVALUATED=1 << 23, MOST_PAIRS=most, MANY=many, AT_ONCE=2):
                for words, options in commands:
                    with self.subTest(words=words, many=many, most=most):
                        self.assertEqual(spq_dask([*words, *options, "--blocksize", "150"], file(self.TEXT)), (*spq(words, self.TEXT), ""))
                for words in [["check"], ["terms"]]:
                    bad = file(self.TEXT), file(self.TEXT[:1000].rpartition(b"\n")[0] + b"\nx\n"), file(self.TEXT)
                    status, said, told = spq_dask([*words, "--blocksize", "200"], *bad)
                    whole = b"".join(open(path, "rb").read() for path in bad)
                    self.assertEqual((status, said), spq(words, whole))
                    line = open(bad[1], "rb").read().count(b"\n")
                    self.assertEqual(told, f"spq-dask: {bad[1]}: line {line}\n")

    def test_no_line_feed(self):
        text = self.TEXT.replace(b"\n", b"\r")
        self.same(text, file(text))


class Malformed(unittest.TestCase):
    def test_in_each_block(self):
        dice = random.Random(5)
        lines = [line[:-1] + dice.choice([b"\n", b"\n", b"\r\n", b"\r"]) for line in Forms.TEXT.splitlines(True)[:40]]
        for place in range(0, 40, 3):
            bad = [*lines]
            bad[place] = b"<a:b> bad" + bad[place][-1:]
            if place % 2:
                bad[39] = b"x"
            text = b"".join(bad)
            asked = ["select", "--query", "SELECT * { ?s ?p ?o }"]
            for words, options in [(["check"], []), (["terms"], []), (asked, ["--split", "subject"]), (asked, ["--split", "lines"])]:
                if place % 9 and words != ["check"]:
                    continue
                with self.subTest(place=place, words=words):
                    self.assertEqual(spq_dask([*words, *options, "--blocksize", "150"], file(text))[:2], spq(words, text))

    def test_lines_of_files_without_line_feed(self):
        said = spq_dask(["check"], file(b"# a\r# b"), file(b"# c\n# d"), file(b"\r\nx"))
        self.assertEqual(said[:2], (1, b"error: line 6\n"))
