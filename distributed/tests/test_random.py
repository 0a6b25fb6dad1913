"""Random documents and queries of the kinds of tests/parts.py, at random block sizes."""
import random
import unittest
from collections import Counter
from concurrent.futures import ThreadPoolExecutor

import documents
from testing import file, spq, spq_dask

COUNT = 100
SPLITS = ["--split lines", "--split subject", "--split graph", "--split graph --replicate-default-graph"]


def compare(seed: int) -> tuple[str, str]:
    """Runs one query and another command over one document. Returns what differs, and what was compared."""
    for attempt in range(8):
        dice = random.Random(f"random:{seed}:{attempt}")
        options, statements, query = documents.case(dice)
        repeats = options != ["--split", "lines"] or "DISTINCT" in query
        text = documents.document(dice, statements, repeats, dice.choice([["\n"], ["\n", "\r\n", "\r"]]))
        if dice.randrange(10) == 0:
            text += dice.choice([b"\nx", b"\rx\n", b"\n<a:b>\r\n"])
        status, said = spq(["select", "--query", query], text)
        if status == 1 or b'"value"' in said:
            break
    path = file(text)
    commands = [(["select", "--query", query], options), ([["check"], ["terms"]][seed % 2], [])]
    for words, more in commands:
        size = max(dice.randrange(1, len(text) + 1), len(text) // 12 + 1)
        wanted = spq(words, text)
        found = spq_dask([*words, *more, "--blocksize", str(size)], path)
        if found[:2] != wanted:
            return f"{seed}: {words} {more} {size}\n{text!r}\nspq:      {wanted}\nspq-dask: {found}", ""
        if words[0] == "select":
            rows = wanted[1].count(b'"value"') > 0
            kind = f"{' '.join(options)}: status {wanted[0]}{', with rows' if rows else ''}"
    return "", kind


class Random(unittest.TestCase):
    def test_all(self):
        with ThreadPoolExecutor(4) as pool:
            results = list(pool.map(compare, range(COUNT)))
        different = [text for text, _ in results if text]
        self.assertEqual(different, [], "\n".join(different[:5]))
        kinds = Counter(kind for _, kind in results)
        print(dict(sorted(kinds.items())))
        for split in SPLITS:
            self.assertGreater(kinds[f"{split}: status 0, with rows"], 4)
