"""Tests that are written in JavaScript (view/test_*.js, play/test_*.js): each of their cases is a line, `ok NAME` or `not ok NAME -- WHY`."""
import os
import re
import shutil
import subprocess

from .shared import PATIENCE, ROOT, Cases, program, tell

HAS_NODE = shutil.which("node") is not None
CHROMIUM = os.environ.get("CHROMIUM") or next(filter(None, map(shutil.which, ("chromium", "chromium-browser", "google-chrome"))), None)
FIREFOX = os.environ.get("FIREFOX") or next(filter(None, map(shutil.which, ("firefox-esr", "firefox"))), None)
CASE = re.compile(r"^(?:not )?ok (.*?)(?: -- (.*))?$")


def ran(words):
    """What a script says, and its exit status."""
    named = {"RBL": program("rbl"), "RBLVIEW": program("rblview"), "CHROMIUM": CHROMIUM or "", "FIREFOX": FIREFOX or ""}
    return subprocess.run(["node", *words], cwd=ROOT, env={**os.environ, **named}, stdin=subprocess.DEVNULL, stdout=subprocess.PIPE, stderr=subprocess.STDOUT,
                          text=True, timeout=2 * PATIENCE, check=False)


class Told(Cases):
    def told(self, *scripts):
        """Each case that the scripts tell, each with its words; they run at once. Each has cases, and goes to its end."""
        said = {}
        self.each([(" ".join(words), words, said) for words in scripts], unended)
        for run in said.values():
            for line in run.stdout.splitlines():
                if not CASE.match(line):
                    tell(line, if_asked=True)
        self.each([CASE.match(line).groups() for run in said.values() for line in run.stdout.splitlines() if CASE.match(line)], lambda why: why)


def unended(words, said):
    """What is wrong with how a script ended, or nothing; what it said is kept."""
    run = said[" ".join(words)] = ran(words)
    lines = run.stdout.splitlines()
    wrong = any(line.startswith("not ok ") for line in lines)
    return None if run.returncode == wrong and any(map(CASE.match, lines)) else f"status {run.returncode}: {run.stdout[-1000:]}"
