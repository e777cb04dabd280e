"""The tables of faults and of causes in docs/LANGUAGE.md, which are made of the stored texts of `rblview explain`: its first line says what each is.

    python3 -m tests.checking.faults_table

writes them anew, each between its two marks.
"""
import os
import re

from ..explained import faults_and_causes
from ..shared import ROOT, text_of, write

PAGE = "docs/LANGUAGE.md"
HEADS = {"faults": ("fault", "{}"), "causes": ("cause", "`{}`")}


def between(name):
    """A form of what stands on the page between the marks of a table, the marks with it."""
    return re.compile(rf"<!-- {name}: made of examples/explained -->\n(.*?)<!-- end of {name} -->\n", re.DOTALL)


def meaning(word):
    """What a fault or a cause is: what stands behind its name in the first line of its text."""
    first = text_of(f"examples/explained/{word}.txt").split("\n")[0]
    name, _, means = first.partition(": ")
    assert name == word and means, f"the text of {word} begins otherwise"
    return means


def table(name):
    """The table of the faults or of the causes."""
    words = dict(zip(HEADS, faults_and_causes()))[name]
    kind, form = HEADS[name]
    rows = [f"| {form.format(word)} | {meaning(word)} |\n" for word in words]
    return "".join([f"\n| {kind} | when |\n", "|---|---|\n", *rows, "\n"])


def wrong_table(name):
    """What is wrong with a table of the page, or nothing."""
    found = between(name).search(text_of(PAGE))
    if not found:
        return f"{PAGE} has no marks of the table of {name}"
    return None if found.group(1) == table(name) else "python3 -m tests.checking.faults_table writes another one"


def write_tables():
    """Writes both tables anew."""
    page = text_of(PAGE)
    for name in HEADS:
        found = between(name).search(page)
        page = page[: found.start(1)] + table(name) + page[found.end(1) :]
    write(os.path.join(ROOT, PAGE), page.encode())


if __name__ == "__main__":
    write_tables()
