#!/usr/bin/env python3
"""Joins the files of this folder to one page, page.html. With `--check`, tells whether page.html is what they make.

The scripts stand in order.txt, each on those before it. They have one scope: so no two of them may give one name to what they have on their own.
"""
import os
import re
import sys

sys.dont_write_bytecode = True
from bare import bare

HERE = os.path.dirname(os.path.abspath(__file__))
DECLARED = re.compile(r"^(?:async )?(?:function|class) (\w+)|^(?:const|let) (\w+)(?= =)|^let (.*);$", re.MULTILINE)


def read(name):
    with open(os.path.join(HERE, name), encoding="utf-8") as file:
        return file.read().rstrip("\n")


def scripts():
    """The names of the scripts, in their order."""
    return read("order.txt").split("\n")


def names_of(script):
    """What a script has on its own: functions, classes and constants that stand at the beginning of a line."""
    for one, other, several in DECLARED.findall(script):
        yield from [one or other] if one or other else re.findall(r"(\w+) =", several)


def twice():
    """The names that two scripts have."""
    seen, found = {}, []
    for script in scripts():
        for name in names_of(read(script)):
            if name in seen:
                found.append(f"{name}: {seen[name]} and {script}")
            seen[name] = script
    return found


def joined():
    """The page: the texts are put in the places of the marks in one pass, so that none of them can hold a mark."""
    texts = {"STYLE": "\n".join(map(read, ["style.css", "narrow.css"])), "HELP": read("help.html"), "SCRIPT": "\n".join(bare(read(name)) for name in scripts())}
    return re.sub("%(STYLE|HELP|SCRIPT)%", lambda mark: texts[mark[1]], read("shell.html")) + "\n"


def main():
    found, page = twice(), joined()
    if found:
        sys.exit("\n".join(found))
    if "--check" in sys.argv[1:]:
        if page.rstrip("\n") != read("page.html"):
            sys.exit("view/page.html is not what view/join.py makes")
        return
    with open(os.path.join(HERE, "page.html"), "w", encoding="utf-8") as file:
        file.write(page)


main()
