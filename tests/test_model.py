"""The model of the page: what it says at a turn is what `rbl run` and `rbl survive` write of a schedule that ends there."""
import unittest

from .in_node import HAS_NODE, Told

# How many random programs there are, and how many of them are tried at a time.
PROGRAMS, AT_A_TIME = 100, 20


@unittest.skipUnless(HAS_NODE, "no node here")
class Model(Told):
    def test_programs(self):
        """The examples, and random programs."""
        random = [["view/test_model.js", str(first), str(first + AT_A_TIME - 1)] for first in range(1, PROGRAMS, AT_A_TIME)]
        self.told(["view/test_model.js"], *random)

    def test_questions(self):
        """What it answers to questions is what they mean, said plainly."""
        self.told(["view/test_questions.js"])
