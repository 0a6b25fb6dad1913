#!/usr/bin/env python3
"""Finds a dozen words that are wrong in this field, in pages and comments: each has a standard term.

    words.py [PART]     prints path, line and word of each, for the files with PART in their path; exits with 1 if there is one

It reads the pages (*.md) and the comments in crates/*/src, specs, proofs and wrong-bodies. It skips code, quotations, links and
the generated parts of pages.
"""
import glob
import os
import re
import sys

ROOT = os.path.dirname(os.path.dirname(os.path.abspath(__file__)))
# Each word, as a regular expression, and what to write.
WORDS = {
    r"growths? (?:is|was|were|are) refused|refused growths?": "an allocation fails",
    r"refus(?:e|es|ed|ing|als?)": "reject; fail",
    r"bad lines?": "malformed line",
    r"spell(?:s|ed|ings?)?": "N-Quads form",
    r"wrong bod(?:y|ies)": "mutant",
    r"lent|lends?|lending": "borrow",
    r"judg(?:e|es|ed|ing)": "check",
    r"by (?:one |all )?workers?(?! thread)": "with one worker; in parallel",
    r"reads? back": "round-trip",
    r"our own|own choices?": "a choice of this project",
    r"never come(?:s)?": "cannot occur",
    r"dear|dearer|dearest": "expensive",
}
PATTERN = re.compile("|".join(rf"(?<![\w-])(?P<w{place}>{word})(?![\w-])" for place, word in enumerate(WORDS)), re.I)
# What is no prose on a page: generated parts, blocks and spans of code, quotations, and the targets of links.
HIDDEN = [
    re.compile(r"<!-- generated: .*?<!-- end of the generated part -->", re.S), re.compile(r"^ *```.*?^ *```", re.S | re.M),
    re.compile(r"(``?)(?:[^`\n]|\n(?![^\S\n]*\n))+\1"), re.compile(r'"[^"\n]*"|“[^”]*”'),
    re.compile(r"\]\([^)\s]*\)|https?://\S+|\b[\w/]+\.(?:antt|c|md|py|rs|rt|sh)\b"),
]
# A string or a character, or else a comment.
COMMENT = {
    ".rt": re.compile(r"""(?P<text>"(?:\\.|[^"\\])*"|(?:\bb|(?<![\w']))'(?:\\[^'\n]*'?|[^\\'\n])')|(?P<comment>//[^\n]*)""", re.S),
    ".antt": re.compile(r"(?P<text>\"(?:\\.|[^\"\\])*\")|(?P<comment>--[^\n]*)", re.S),
    ".edit": re.compile(r"^(?P<text>(?:file|old|new):[^\n]*)|^(?P<comment>[^\n]+)", re.M),
}
FILES = ["*.md", "docs/**/*.md", "bench/*.md", "distributed/*.md", "crates/*/src/**/*.rt", "crates/*/specs/**/*.antt",
         "crates/*/proofs/**/*.antt", "crates/*/wrong-bodies/**/*.edit"]


def blanked(found):
    return re.sub(r"[^\n]", " ", found[0])


def prose(path, text):
    """Returns a file with spaces in place of what is no prose."""
    comment = COMMENT.get(os.path.splitext(path)[1])
    if comment:
        kept, last = [], 0
        for found in comment.finditer(text):
            kept += [re.sub(r"[^\n]", " ", text[last : found.start()]), found[0] if found["comment"] else blanked(found)]
            last = found.end()
        text = "".join(kept)
    for pattern in HIDDEN:
        text = pattern.sub(blanked, text)
    return text


def main():
    part = sys.argv[1] if len(sys.argv) > 1 else ""
    paths = {os.path.relpath(path, ROOT) for pattern in FILES for path in glob.glob(f"{ROOT}/{pattern}", recursive=True)}
    count = 0
    for path in sorted(it for it in paths if part in it and not it.endswith("/Lib.antt")):
        with open(f"{ROOT}/{path}", encoding="utf-8") as file:
            lines = prose(path, file.read()).split("\n")
        for number, line in enumerate(lines, 1):
            for found in PATTERN.finditer(line):
                print(f"{path}:{number}: {found[0].lower()} -> {list(WORDS.values())[int(found.lastgroup[1:])]}")
                count += 1
    return 1 if count else 0


if __name__ == "__main__":
    sys.exit(main())
