"""The page that shows runs: that page.html is made of its files, that its colours can be told apart, and the page in a browser."""
import os
import subprocess
import sys
import unittest

from .in_node import CHROMIUM, HAS_NODE, Told
from .shared import ROOT


class Page(Told):
    PROGRAMS = ()

    def test_joined(self):
        """page.html is what view/join.py makes."""
        ran = subprocess.run([sys.executable, "-B", os.path.join(ROOT, "view/join.py"), "--check"], capture_output=True, text=True, check=False)
        self.assertEqual((ran.returncode, ran.stderr), (0, ""))

    @unittest.skipUnless(HAS_NODE, "no node here")
    def test_colours(self):
        self.told(["view/test_colours.js"])

    @unittest.skipUnless(HAS_NODE, "no node here")
    def test_pictures(self):
        """The picture that is drawn without a browser; and those of the docs are what it draws now."""
        self.told(["view/test_svg.js"], ["view/pictures.js", "--check"])

    @unittest.skipUnless(HAS_NODE, "no node here")
    @unittest.skipUnless(CHROMIUM, "no Chromium here")
    def test_in_browser(self):
        """Each turn of the examples; what the page answers, and how it is seen; and long runs."""
        for script in ("page", "asking", "looks", "long", "time"):
            self.told([f"view/test_{script}.js"])
