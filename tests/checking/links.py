"""Links between the pages: each leads to a file that is there, and to a heading of it; and each path that a page names is there."""
import functools
import os
import re

from ..shared import ROOT, text_of
from .program import Check, line_of

FENCED = re.compile(r"^```.*?^```", re.MULTILINE | re.DOTALL)
HEADING = re.compile(r"^#+ +(.*?) *$", re.MULTILINE)
LINK = re.compile(r"\]\(([^)\s]+)\)")
PATH = re.compile(r"`((?:rb_\w+|crates|docs|examples|bench|tests|view|tools)/[\w./]*\w|[\w/]+\.(?:antt|rt))`")


def without_blocks(text):
    """A page with its blocks taken out, on as many lines."""
    return FENCED.sub(lambda block: "\n" * block.group().count("\n"), text)


def anchors(page):
    """The anchors of a page's headings, as the usual readers of Markdown make them."""
    made = []
    for heading in HEADING.findall(without_blocks(text_of(page))):
        plain = re.sub(r"[^\w\- ]", "", heading.lower()).replace(" ", "-")
        made.append(plain if plain not in made else f"{plain}-{made.count(plain)}")
    return made


def wrong_link(page, target):
    """What is wrong with a link of a page."""
    file, _, anchor = target.partition("#")
    path = os.path.normpath(os.path.join(os.path.dirname(page), file)) if file else page
    if not os.path.exists(os.path.join(ROOT, path)):
        return f"{target} leads to no file"
    has_headings = path.endswith(".md")   # what stands behind `#` of play/rbl.html, test_playground.py looks after
    return f"{target} leads to no heading" if has_headings and anchor and anchor not in anchors(path) else None


@functools.cache
def all_files():
    """All files of the repository and their folders, each with a slash in front; without what is built, and wrong bodies."""
    found = []
    for folder, inside, files in os.walk(ROOT):
        inside[:] = [name for name in inside if name not in ("out", ".git", "must-fail")]
        found += [os.path.relpath(os.path.join(folder, name), ROOT) for name in inside + files]
    return "".join(f"/{path}\n" for path in found)


def wrong_path(path):
    """What is wrong with a path that a page names: it may leave out where it begins, and its `.antt`."""
    ends = (f"/{path}\n", f"/{path}.antt\n")
    return None if any(end in all_files() for end in ends) else f"{path} is no file"


def links(page):
    """A check of each link and of each named path of a page."""
    text = without_blocks(text_of(page))
    for link in LINK.finditer(text):
        if "://" not in link.group(1):
            yield Check(f"{page}:{line_of(text, link.start())}", wrong_link(page, link.group(1)))
    for path in PATH.finditer(text):
        if "NAME" in path.group(1):
            continue  # it stands for any
        yield Check(f"{page}:{line_of(text, path.start())}", wrong_path(path.group(1)))
