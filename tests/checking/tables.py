"""The exit statuses, as a table of docs/LANGUAGE.md tells them."""
import os
import re

from ..shared import ROOT, text_of
from .program import Check, answer

PAGE = "docs/LANGUAGE.md"


def statuses():
    """A check of each exit status that needs nothing but words, and that the table has all of them."""
    first, schedule = "examples/first.rbl", "examples/first.schedule"
    cases = [
        (0, ["check", first], "accepted\n", ""),
        (1, ["check", schedule], "refused Y1 at 1:1\n", f"{schedule}:1:1: Y1: "),
        (1, ["run", schedule, "no such file"], "refused Y1 at 1:1\n", f"{schedule}:1:1: Y1: "),
        (2, [], None, "rbl: a command is missing\n"),
        (2, ["--help"], None, "  run SOURCE SCHEDULE: "),
        (2, ["check", first, schedule], None, "rbl: `check` takes SOURCE, and no more\n"),
        (3, ["check", "no such file"], "", "rbl: cannot read no such file: "),
        (3, ["run", first, "examples"], "", "rbl: cannot read examples: "),
        (6, ["check", b"\xff"], "", ""),
    ]
    for status, words, out, told in cases:
        real = answer(words, ROOT)
        usage = real.out.startswith("usage: rbl ") and real.out.count("\n") == 1
        right = real.status == status and (usage if out is None else real.out == out) and bool(real.err) == bool(told)
        right = right and real.err.startswith(told)
        yield Check("exit statuses", None if right else f"{words}: status {real.status}, {real.out!r}, {real.err!r}")
    if os.path.exists("/dev/full"):
        with open("/dev/full", "wb") as full:
            real = answer(["check", first], ROOT, full)
        right = real.status == 4 and real.err.startswith("rbl: cannot write to standard output: ")
        yield Check("exit statuses", None if right else f"where nothing can be written: status {real.status}, {real.err!r}")
    table = [int(n) for n in re.findall(r"^\| (\d) \|", text_of(PAGE), re.MULTILINE)]
    yield Check(PAGE, None if set(table[-7:]) == set(range(7)) else "its table of exit statuses lacks one")
