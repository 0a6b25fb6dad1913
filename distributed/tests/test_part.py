"""The commands of `spq-part`, without Dask: what blocks give together is what one `spq` gives."""
import itertools
import random
import subprocess
import unittest
from concurrent.futures import ThreadPoolExecutor

import documents
import testing
from testing import spq

PARTITIONS = 3
FORMS = ['"chat"', '"chat"@fr', '"chat"^^<http://www.w3.org/2001/XMLSchema#string>', '"a\\u005Cb"', '"a\\\\b"', '"a\\b"', '"\\u0078"', '"x"', '"x"@EN', '"x"@en', "<a:>", "_:b"]


def part(*words: str, text: bytes = b"") -> tuple[int, bytes]:
    """Runs `spq-part`."""
    ran = subprocess.run([testing.PART, *words], input=text, stdout=subprocess.PIPE)
    return ran.returncode, ran.stdout


def texts(*words: str, text: bytes = b"") -> list[bytes]:
    """Returns the sealed texts that `spq-part` writes."""
    status, said = part(*words, text=text)
    assert status == 0, said
    found = []
    while said:
        length = said.index(b"\n") + 17
        length += int.from_bytes(said[length - 16 : length - 8], "little")
        found.append(said[:length])
        said = said[length:]
    return found


def number(text: bytes) -> int:
    """Returns the number that is sealed."""
    return int.from_bytes(text[-8:], "little")


def numbers(text: bytes) -> list[int]:
    """Returns the numbers of a sealed list, which has the number of bytes of a difference, and the differences."""
    place = text.index(b"\n") + 17
    width = text[place]
    differences = [text[start:start + width] for start in range(place + 1, len(text), width)]
    return list(itertools.accumulate(int.from_bytes(difference, "little") for difference in differences))


def blocks(dice: random.Random, text: bytes) -> list[bytes]:
    """Cuts a document into blocks of whole lines."""
    lines = text.splitlines(True)
    cuts = sorted(dice.sample(range(len(lines) + 1), min(len(lines), dice.randrange(5))))
    return [b"".join(lines[start:end]) for start, end in zip([0, *cuts], [*cuts, len(lines)])]


def terms(cut: list[bytes]) -> bytes:
    """Composes the terms of a document from those of its blocks."""
    splits = [texts("split", "terms", str(PARTITIONS), text=block)[1:] for block in cut]
    firsts = [texts("first", text=b"".join(split[1 + number] for split in splits)) for number in range(PARTITIONS)]
    return b"".join(part("keep", text=b"".join([split[0], *new]))[1] for split, *new in zip(splits, *firsts))


def check(cut: list[bytes]) -> bytes:
    """Composes the counts of a document from those of its blocks."""
    splits = [texts("split", "check", str(PARTITIONS), text=block)[1:] for block in cut]
    columns = [b"".join(split[place] for split in splits) for place in range(3 * PARTITIONS)]
    once, *repeated = zip(*(texts("repeated", text=columns[place]) for place in range(2, 3 * PARTITIONS, 3)))
    none = len(once[0]) - 7  # the length of a list without a hash: it has one byte, and `once` has eight
    again = [
        texts("again", str(PARTITIONS), text=b"".join(hashes) + block)
        for hashes, block in zip(repeated, cut)
        if any(len(some) > none for some in hashes)
    ]
    count = lambda some: sum(int(part("count", text=text)[1]) for text in some)
    quads = sum(map(number, once)) + count(b"".join(those) for those in zip(*again))
    return b"ok %d quads %d terms %d graphs\n" % (quads, count(columns[0::3]), count(columns[1::3]))


class Part(unittest.TestCase):
    def compare(self, seed: int) -> None:
        """Compares both commands over a random document, at random cuts, and the quads by subject and by graph name."""
        dice = random.Random(f"part:{seed}")
        _, statements, query = documents.case(dice)
        text = documents.document(dice, statements, True, ["\n"])
        cut = blocks(dice, text)
        needed = [part("needed", str(len(query.encode())), text=query.encode() + block) for block in cut]
        wanted = spq(["select", "--query", query], text)
        self.assertEqual({status for status, _ in needed}, {wanted[0]}, (seed, query))  # some queries are rejected
        if not wanted[0]:
            self.assertEqual(spq(["select", "--query", query], b"".join(said for _, said in needed)), wanted, (seed, text))
        self.assertEqual((0, terms(cut)), spq(["terms"], text), (seed, text))
        self.assertEqual((0, check(cut)), spq(["check"], text), (seed, text))
        for key in ["subject", "graph"]:
            split = texts("split", key, str(PARTITIONS), text=text)
            again = [part("unseal", text=one)[1] for one in split[1:]]
            self.assertEqual(spq(["check"], b"".join(again)), spq(["check"], text), (seed, text))
            firsts = [{line.split(b" ")[0] for line in one.splitlines()} for one in again[1:]]
            if key == "subject":
                self.assertEqual(len(set().union(*firsts)), sum(map(len, firsts)), (seed, text))

    def test_documents(self):
        with ThreadPoolExecutor(4) as pool:
            list(pool.map(self.compare, range(40)))

    def test_forms(self):
        """A tag, an escape, an xsd:string or a capital alone, in different blocks; each term of the statements of terms."""
        text = "".join(f"<a:> <a:> {o} {g} .\n" for g in ["", "<a:g>", "<a:\\u0067>", "_:g"] for o in FORMS).encode()
        text = text.replace(b'"a\\b"', b'"a\\u0008"')
        cut = text.splitlines(True)
        self.assertEqual((0, terms(cut)), spq(["terms"], text))
        self.assertEqual((0, check(cut)), spq(["check"], text))

    def test_repeats(self):
        """A block sends the hash of a quad once, also if it has the quad in two forms, and it is not repeated."""
        text = b'<a:> <a:> "x" .\n<a:> <a:> "y" .\n<a:> <a:> "\\u0078" .\n<a:> <a:> "x" .\n'
        hashes = texts("split", "check", "1", text=text)[3]
        self.assertEqual(len(set(numbers(hashes))), 2)
        self.assertLess(max(numbers(hashes)), 1 << 60)
        once, again = texts("repeated", text=hashes)
        self.assertEqual((number(once), numbers(again)), (2, []))
        once, *again = texts("repeated", text=hashes + hashes)
        self.assertEqual((number(once), again), (0, [hashes, hashes]))
        once, *again = texts("repeated", text=hashes + texts("split", "check", "1", text=text[:16])[3])
        self.assertEqual((number(once), *map(len, map(numbers, again))), (1, 1, 1))

    def test_needed(self):
        """Quads that the query does not need are left out, and repeats are not."""
        query = b"SELECT * { ?s <a:p> ?o }"
        text = b'<a:s> <a:p> "\\u0078" .\n# c\n<a:s> <a:q> "x" .\n<a:s> <a:p> "x" <a:g> .\n<a:s> <a:p> "x" .\n'
        self.assertEqual(part("needed", str(len(query)), text=query + text), (0, b'<a:s> <a:p> "x" .\n' * 2))

    def test_numbers_of_lines(self):
        for text, count in [(b"", 0), (b"\n", 1), (b"# c\r\n\r# d", 3)]:
            for what in ["check", "terms", "subject", "graph"]:
                self.assertEqual(number(texts("split", what, "1", text=text)[0]), count)

    def test_faults(self):
        sealed = part("split", "terms", "1", text=b"<a:b> <a:b> <a:b> .\n")[1]
        damaged = sealed[:-2] + b"x" + sealed[-1:]
        for words, text, status, line in [
            (["split", "terms", "2"], b"\nx\n", 1, b"error: line 2\n"),
            (["split", "subject", "2"], b"x", 1, b"error: line 1\n"),
            (["split", "check", "0"], b"", 3, b"error: command line\n"),
            (["split", "check", "65537"], b"", 3, b"error: command line\n"),
            (["split", "object", "2"], b"", 3, b"error: command line\n"),
            ([], b"", 3, b"error: command line\n"),
            (["keep"], b"", 5, b"error: version\n"),
            (["first"], b"spq-part 1 0.1.0\n", 5, b"error: version\n"),
            (["first"], damaged, 5, b"error: damaged\n"),
            (["unseal"], sealed[:-1], 5, b"error: damaged\n"),
            (["repeated"], sealed, 5, b"error: damaged\n"),
            (["repeated"], texts("split", "terms", "1")[1], 5, b"error: damaged\n"),
            (["again", "1"], texts("split", "terms", "1")[1], 5, b"error: damaged\n"),
            (["needed", "21"], b"SELECT * { ?s ?p ?o }\nx\n", 1, b"error: line 2\n"),
            (["needed", "21"], b"SELECT * { ?s ?p ?o }", 0, b""),
            (["needed", "20"], b"SELECT * { ?s ?p ?o }", 2, b"error: query\n"),
            (["needed", "1"], b"\xff", 2, b"error: query\n"),
            (["needed", "22"], b"SELECT * { ?s ?p ?o }", 5, b"error: damaged\n"),
            (["needed", "-1"], b"", 3, b"error: command line\n"),
            (["first"], b"", 0, b""),
            (["split", "graph", "65536"], b"", 0, None),
        ]:
            with self.subTest(words=words):
                ran = part(*words, text=text)
                self.assertEqual(ran, (status, ran[1] if line is None else line))
