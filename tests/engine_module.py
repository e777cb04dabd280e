"""The engine's WebAssembly module: what RBL_MODULE names, or that of the page play/rbl.html; and questions to it by node."""
import base64
import functools
import gzip
import json
import os
import re
import shutil
import subprocess
import tempfile

from .shared import HERE, PATIENCE, ROOT, folder_of, read, write

OLDEST_NODE = 18
PAGE = os.path.join(ROOT, "play/rbl.html")
MODULE = re.compile(rb'<script\b[^>]*\bid="module"[^>]*>([^<]*)<')


@functools.cache
def lacks():
    """Why nothing can be asked, or nothing: node is missing or too old, or there is no module."""
    if shutil.which("node") is None:
        return "no node here"
    version = subprocess.run(["node", "--version"], stdout=subprocess.PIPE, text=True, check=True).stdout
    if int(re.match(r"v(\d+)", version)[1]) < OLDEST_NODE:
        return f"node is {version.strip()}, and {OLDEST_NODE} is needed"
    return None if "RBL_MODULE" in os.environ or os.path.exists(PAGE) else "there is no play/rbl.html"


@functools.cache
def _kept():
    return tempfile.TemporaryDirectory()


@functools.cache
def module():
    """Where the module stands."""
    if "RBL_MODULE" in os.environ:
        return os.path.abspath(os.environ["RBL_MODULE"])
    made = os.path.join(_kept().name, "engine.wasm")
    write(made, gzip.decompress(base64.b64decode(MODULE.search(read(PAGE))[1])))
    return made


def said(script, questions):
    """The lines that a script of tests says to questions of the module."""
    with folder_of({"questions": json.dumps(questions)}) as folder:
        words = ["node", os.path.join(HERE, script), module(), os.path.join(folder, "questions")]
        ran = subprocess.run(words, stdin=subprocess.DEVNULL, stdout=subprocess.PIPE, text=True, timeout=4 * PATIENCE, check=False)
    return ran.stdout.splitlines()


def asked(cases, folder, **more):
    """What the module answers to cases, each a name, a program, words, and files by their names, which are put into the folder; and more of each."""
    questions = []
    for number, (_, program, words, files) in enumerate(cases):
        texts = []
        for name in words[1:4]:
            if name not in files:
                break
            texts.append(os.path.join(folder, f"{number}.{len(texts)}"))
            write(texts[-1], files[name])
        questions.append({"program": program, "words": words, "texts": texts, **more})
    return [json.loads(line) for line in said("ask_module.js", questions)]
