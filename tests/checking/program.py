"""What the program answers to an example, and what a check comes to."""
import os
import subprocess
from collections import namedtuple

from .. import shared
from ..shared import ROOT, Answer, folder_of

FOLDERS = ("docs", "docs/lessons", "docs/lessons/answers")
PAGES = ["README.md", *(f"{folder}/{name}" for folder in FOLDERS for name in sorted(os.listdir(os.path.join(ROOT, folder))) if name.endswith(".md"))]

# Where a check stands, and what is wrong there: None where nothing is.
Check = namedtuple("Check", "where wrong")


def line_of(text, at):
    """The line on which a place of a text lies."""
    return text.count("\n", 0, at) + 1


def answer(words, folder=ROOT, out=subprocess.PIPE):
    """What `rbl` answers to these words in a folder, as texts."""
    real = shared.answer(words, folder, shared.program("rbl"), out)
    return Answer(real.status, real.out.decode(), real.err.decode())


def answer_of(command, texts):
    """What a command answers to these texts, as files in their order."""
    files = {str(number): text for number, text in enumerate(texts)}
    with folder_of(files) as folder:
        return answer([command, *files], folder)


def wanted(shown, real):
    """What is wrong with an answer, where a page shows all that stands on standard output: a refusal alone has status 1, and its reason."""
    status = 1 if shown.startswith("refused ") else 0
    if real.out != shown:
        return "the program writes something else: " + (real.out.split("\n")[0] or "nothing")
    reason = f": {shown.split()[1]}: " if status else ""
    if real.status != status or bool(real.err) != bool(reason) or reason not in real.err:
        return f"status {real.status} for {status}, and on standard error: {real.err or 'nothing'}"
    return None
