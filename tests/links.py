"""Checks the links of the pages: each file exists, and so does each heading that a link names."""
import functools
import glob
import os
import re

from sources import ROOT

PAGES = ["*.md", "docs/**/*.md", "bench/*.md", "distributed/*.md"]
LINK, HEADING = re.compile(r"\]\(([^)\s]+)\)"), re.compile(r"^#+ (.*)$", re.M)
CODE = re.compile(r"^ *```.*?^ *```|`[^`\n]*`", re.S | re.M)
# A bracket with a bracket after it that is no link, as in `card[Ω](μ)`: it has no dot, slash or number sign.
IS_LINK = re.compile(r"[./#]")


def anchor(heading):
    """Returns the name that a heading has in links."""
    text = re.sub(r"\[([^\]]*)\]\([^)]*\)", r"\1", heading).replace("`", "").replace("*", "")
    return re.sub(r"[^\w\- ]", "", text.lower()).replace(" ", "-")


@functools.lru_cache(maxsize=None)
def anchors(path):
    with open(path, encoding="utf-8") as file:
        text = re.sub(r"^ *```.*?^ *```", "", file.read(), flags=re.S | re.M)
    return {anchor(it) for it in HEADING.findall(text)}


def fault_of(path, link):
    """Returns what is wrong with a link of a page, or an empty text."""
    file, _, name = link.partition("#")
    target = os.path.normpath(os.path.join(os.path.dirname(path), file)) if file else path
    if not os.path.exists(target):
        return "there is no such file"
    return "" if not name or not target.endswith(".md") or name in anchors(target) else "the page has no such heading"


def pages():
    """Returns the paths of the pages, from the top of the repository."""
    return sorted({os.path.relpath(it, ROOT) for pattern in PAGES for it in glob.glob(f"{ROOT}/{pattern}", recursive=True)})


def faults():
    """Returns a line for each link to a file or a heading that does not exist."""
    found = []
    for path in (f"{ROOT}/{it}" for it in pages()):
        with open(path, encoding="utf-8") as file:
            text = CODE.sub(lambda it: re.sub(r"[^\n]", " ", it[0]), file.read())
        for link in LINK.findall(text):
            if not link.startswith(("http", "mailto")) and IS_LINK.search(link) and fault_of(path, link):
                found.append(f"{os.path.relpath(path, ROOT)}: {link}: {fault_of(path, link)}")
    return found
