"""Stored runs: the programs, as each of the two compilers built them, on worked rows and at the limits of the language.

The rows stand in tests/runs/*.rows. There `=== TITLE` begins a row, `$ WORDS` are its words, `--- NAME` begins the text of a file, and
`--- STATUS` what is written, with the status. A file's text has no newline at its end, but where an empty line ends it; ␍ stands for a
carriage return, and ␡ for the byte 7f. Behind `--- NAME hex` or `--- STATUS hex` stand bytes, two digits each. Rows of views.rows are of
`rblview`, all others of `rbl`. What reaches a limit is made by limit_runs.py.
"""
import glob
import os
import re
import shlex

from . import limit_runs
from .limit_runs import Parts, Run
from .shared import HERE, Cases, answer, builds, folder_of, text_of

TABLES = sorted(glob.glob(os.path.join(HERE, "runs/*.rows")))


def content(heading, text):
    """The name, or the status, of a part of a row, and the part's bytes, without the newline at its end that a file has not."""
    name, _, form = heading.partition(" ")
    if form:
        return name, bytes.fromhex(text)
    return name, text if name.isdecimal() else text.removesuffix("\n").replace("␍", "\r").replace("␡", "\x7f")


def row_of(program, text):
    """A row of a table."""
    head, *parts = re.split(r"^--- (.*)\n", text, flags=re.MULTILINE)
    title, words = head.rstrip("\n").split("\n$ ")
    *files, (status, written) = map(content, parts[::2], parts[1::2])
    return Run(title, shlex.split(words), dict(files), int(status), written, program)


def rows(table):
    """The rows of a table."""
    program = "rblview" if os.path.basename(table) == "views.rows" else "rbl"
    return [row_of(program, text) for text in re.split(r"^=== ", text_of(table), flags=re.MULTILINE)[1:]]


def unwanted(written, wanted):
    """What is wrong with what was written, or nothing: it is what is wanted, or has its parts."""
    if isinstance(wanted, Parts):
        begins, has, ends = (part.encode() for part in wanted)
        return None if written.startswith(begins) and has in written and written.endswith(ends) else f"writes {written[:60]!r}"
    wanted = wanted if isinstance(wanted, bytes) else wanted.encode()
    if written == wanted:
        return None
    same = len(os.path.commonprefix([written, wanted]))
    return f"from byte {same} on it writes {written[same:same + 60]!r}, and not {wanted[same:same + 60]!r}"


def fault(program, run):
    """What is wrong with a run of a program, or nothing."""
    with folder_of(run.files) as folder:
        real = answer(run.words, folder, program)
    if run.status not in (None, real.status):
        return f"status {real.status}, and not {run.status}"
    return unwanted(real.out, run.written)


def by_each_build(place, runs):
    """The runs by each build of their program, with their names."""
    return [(f"{place}: {run.title}, by {os.path.basename(program)}", program, run) for run in runs for program in builds(run.program)]


class StoredRuns(Cases):
    def test_rows(self):
        """Each table has rows, and each row comes out as it stands there."""
        self.assertTrue(TABLES, "there is no table")
        for table in TABLES:
            self.each(by_each_build(os.path.basename(table), rows(table)), fault)

    def test_made(self):
        """The runs that limit_runs.py makes, of each kind, come out as it tells."""
        for kind in limit_runs.KINDS:
            self.each(by_each_build(kind.__name__, kind()), fault)
