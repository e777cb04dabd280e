"""What the programs tell on standard error: of a text for every fault, and of texts of a special kind, what stands in examples/reasons.

Where nothing is refused it has to be empty. `python3 -m tests.told` writes these files anew.
"""
import os
import subprocess
import unittest

from .shared import PATIENCE, Cases, folder_of, program, read
from .told import SMALL, WANTED, cases, place, told


def fault(name, words, files):
    """What is wrong with what is told of a case, or nothing."""
    if not os.path.exists(place(name)):
        return f"{place(name)} is missing"
    real = told(words, files)
    return None if real == read(place(name)) else f"tells {real!r}"


class ReasonsTold(Cases):
    def test_cases(self):
        self.each([(case[0], *case) for case in cases()], fault)

    def test_files(self):
        """Each file is that of a case."""
        names = {os.path.basename(place(name)) for name, _, _ in cases()}
        self.each([(file, file) for file in os.listdir(WANTED)], lambda file: None if file in names else "no case has this name")

    @unittest.skipUnless(os.path.exists("/dev/stdin"), "no /dev/stdin here")
    def test_pipe(self):
        """A text that came through a pipe has the reason that it has in a file, though it says nothing a second time."""
        wrong = SMALL[:-1] + b";"
        words = {"capture_output": True, "timeout": PATIENCE, "check": False}
        with folder_of({"one": wrong}) as folder:
            stored = subprocess.run([program("rbl"), "check", "one"], cwd=folder, **words)
        piped = subprocess.run([program("rbl"), "check", "/dev/stdin"], input=wrong, **words)
        self.assertEqual((piped.returncode, piped.stdout), (1, stored.stdout))
        self.assertEqual(stored.stderr[:4], b"one:")
        self.assertEqual(piped.stderr, b"/dev/stdin" + stored.stderr[3:])
