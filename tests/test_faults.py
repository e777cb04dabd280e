"""What `rblview faults` tells: first the reason of `rbl check`, the others behind it in their order; and of what is accepted that it is.

It alone refuses no source for a fault, so it is none of the commands of `commands.py`.
"""
import glob
import re

from .shared import MOST, ROOT, Cases, answer, answer_over, read
from .told import cases, place

THREE = "examples/faults/three.rbl"
# Where its faults are, with their names.
FAULTS = [("3:18", "S2"), ("4:3", "S1"), ("5:17", "S1")]


def sources():
    """The cases that check a source, but the one that is too long: its name, and what is told of it."""
    for name, words, files in cases():
        if words[0] == "check" and words[1] in files and name != "L0":
            yield name, words[1], files, read(place(name))


def mistold(source, files, reason):
    """What is wrong with the faults of a source of which `check` tells this, or nothing."""
    real = answer_over(["faults", source], files)
    is_right = real.out.startswith(reason) if reason else real.out == b"accepted\n"
    return None if is_right and (real.status, real.err) == (0, b"") else f"status {real.status}, {real.out[:100]!r}, {real.err[:100]!r}"


def unaccepted(source):
    """What is wrong with the faults of an example that is accepted, or nothing."""
    real = answer(["faults", source])
    return None if real == (0, b"accepted\n", b"") or answer(["check", source]).status == 1 else f"{real}"


class Faults(Cases):
    def test_reasons(self):
        self.each(sources(), mistold)

    def test_accepted(self):
        found = sorted(glob.glob("examples/**/*.rbl", root_dir=ROOT, recursive=True))
        self.each([(source, source) for source in found], unaccepted)

    def test_three(self):
        """All three are told, in their order, and the first is that of `check`."""
        real = answer(["faults", THREE])
        self.assertEqual(re.findall(rf"^{THREE}:([\d:]+): (\w+): ", real.out.decode(), re.M), FAULTS)
        self.assertTrue(real.out.startswith(answer(["check", THREE]).err))
        self.assertEqual((real.status, real.err), (0, b""))

    def test_refused(self):
        """A text that is too long is refused, and a file that is not there can't be read."""
        long = answer_over(["faults", "source"], {"source": " " * (MOST + 1)})
        self.assertEqual((long.status, long.out), (1, b"refused L0\n"))
        self.assertEqual(answer_over(["faults", "source"], {}).status, 3)
