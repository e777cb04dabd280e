"""What a run takes of the heap, as `valgrind` counts it: no more for more turns, neither in calls nor in bytes.

A program that copied a state at an entry, or walked the tree with copies, would take memory more often in the longer run, which enters more
recovery blocks. One that noted its turns, as `survive` has to, would take more bytes.
"""
import re
import shutil
import subprocess
import unittest

from .shared import ROOT, Cases, program, tell, text_of

SCHEDULES = ("bench/nested_10.schedule", "bench/nested_23.schedule")
USED = re.compile(r"total heap usage: ([\d,]+) allocs, [\d,]+ frees, ([\d,]+) bytes allocated")


def taken(command, schedule):
    """How often a command takes memory over a schedule, and how many bytes in all."""
    words = ["valgrind", program("rbl"), command, "bench/nested.rbl", schedule]
    told = subprocess.run(words, cwd=ROOT, stdin=subprocess.DEVNULL, stdout=subprocess.DEVNULL, stderr=subprocess.PIPE, text=True, check=True).stderr
    return tuple(int(number.replace(",", "")) for number in USED.search(told).groups())


@unittest.skipUnless(shutil.which("valgrind"), "no valgrind here")
class Allocations(Cases):
    def test_turns(self):
        """10 turns of each process and 23 of them take as much. The texts of both schedules have as many bytes, so these take as much too."""
        self.assertEqual(*(len(text_of(schedule)) for schedule in SCHEDULES))
        short, long = (taken("run", schedule) for schedule in SCHEDULES)
        tell(f"{short[0]} calls for {short[1]} bytes over 10 turns of each process, {long[0]} for {long[1]} over 23")
        self.assertEqual(short, long)

    def test_survivors(self):
        """Of `survive` it is counted that it notes its turns, so that the count above would show it of `run`: 16 bytes a turn at least."""
        (short, few), (long, more) = (taken("survive", schedule) for schedule in SCHEDULES)
        turns = 2 * (23 - 10)
        self.assertEqual(short, long)
        self.assertGreaterEqual(more - few, 16 * turns)
