"""The playground: that its page is made of its parts, how large it is, which programs it lists, and the page in two browsers."""
import glob
import os
import re
import subprocess
import sys
import unittest

from .checking.program import PAGES
from .in_node import CHROMIUM, FIREFOX, HAS_NODE, Told
from .shared import ROOT, read, text_of

PAGE = os.path.join(ROOT, "play/rbl.html")
HAS_PAGE = os.path.exists(PAGE)
MOST = 600_000
sys.path.insert(0, os.path.join(ROOT, "play"))


def listed():
    """The entries of the page's list, by the path of their program and their schedule."""
    import lessons
    folders = {lessons.CLASSICS: "examples/classics"}
    return {f"{folders.get(one['group'], 'examples')}/{one['name']}.schedule": one for one in lessons.lessons()}


class Playground(Told):
    PROGRAMS = ()

    def test_lessons(self):
        """Each example and each classic is listed over each of its schedules, with a question, and nothing else is."""
        found = listed()
        sources = [path[:-4] for folder in ("examples", "examples/classics") for path in glob.glob(os.path.join(ROOT, folder, "*.rbl"))]
        schedules = {os.path.relpath(path, ROOT) for source in sources for path in glob.glob(f"{source}.*schedule")}
        self.assertEqual(set(found), schedules)
        self.each(list(found.items()), lambda one: None if len(one["question"]) > 15 and one["title"] else f"it is asked {one['question']!r}")

    def test_named(self):
        """Each example that a page of docs/ opens in the playground is listed."""
        names = {one["name"] for one in listed().values()}
        links = [(page, name) for page in PAGES for name in re.findall(r"play/rbl\.html#example=([\w.]+)", text_of(page))]
        self.each([(f"{name} in {page}", name) for page, name in links], lambda name: None if name in names else "it is not listed")

    @unittest.skipUnless(HAS_PAGE, "no play/rbl.html here")
    def test_joined(self):
        """play/rbl.html is what play/join.py makes of the parts and the module that is in it."""
        words = [sys.executable, "-B", os.path.join(ROOT, "play/join.py"), "--check", PAGE]
        ran = subprocess.run(words, capture_output=True, text=True, check=False)
        self.assertEqual((ran.returncode, ran.stderr), (0, ""))

    @unittest.skipUnless(HAS_PAGE, "no play/rbl.html here")
    def test_size(self):
        """The page is small enough to be handed on; a module that is not proved is a larger one."""
        import join
        if b"not proved" in join.module_of(text_of("play/rbl.html")):
            self.skipTest("the module in play/rbl.html is not proved")
        self.assertLessEqual(os.path.getsize(PAGE), MOST)

    @unittest.skipUnless(HAS_PAGE, "no play/rbl.html here")
    def test_policy(self):
        """The page's policy is the first thing that it says, and lets nothing out."""
        begin = r'<!doctype html>\n<html [^>]*>\n<head>\n<meta charset="utf-8">\n<meta http-equiv="Content-Security-Policy" content="([^"]*)">'
        rules = dict(rule.split(" ", 1) for rule in re.match(begin, read(PAGE).decode())[1].split("; "))
        for what in ("default-src", "connect-src", "form-action", "base-uri"):
            self.assertEqual(rules[what], "'none'", what)
        self.assertEqual(rules["worker-src"], "blob:")
        self.assertNotRegex(rules["script-src"], r"unsafe-inline|'unsafe-eval'|https?:|\*")

    def test_licence(self):
        """The editor has its licence beside it."""
        self.assertIn("Permission is hereby granted, free of charge", text_of("play/vendor/LICENSE"))

    @unittest.skipUnless(HAS_PAGE, "no play/rbl.html here")
    @unittest.skipUnless(HAS_NODE, "no node here")
    @unittest.skipUnless(CHROMIUM, "no Chromium here")
    def test_in_chromium(self):
        self.told(["play/test_playground.js"])

    @unittest.skipUnless(HAS_PAGE, "no play/rbl.html here")
    @unittest.skipUnless(HAS_NODE, "no node here")
    @unittest.skipUnless(FIREFOX, "no Firefox here")
    def test_in_firefox(self):
        self.told(["play/test_in_firefox.js"])
