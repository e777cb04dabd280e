#!/usr/bin/env python3
"""Joins the playground to one file: join.py MODULE OUT, or join.py --check PAGE

MODULE is the engine's WebAssembly module. The same parts and the same module give the same bytes. What the page may do stands in it as a
policy, which names each script by its hash; the scripts of view/page.html are among them, since the picture's frame has the page's policy.
With --check, it tells whether a page is made of the parts that stand here, and of the module that is in the page.
"""
import base64
import hashlib
import html
import json
import os
import re
import shutil
import subprocess
import sys
import tempfile
import zlib

sys.dont_write_bytecode = True
sys.path.append(os.path.join(os.path.dirname(os.path.dirname(os.path.abspath(__file__))), "view"))
import lessons
from bare import bare

GRAMMARS = {"program": "editors/vscode/syntaxes/rbl.tmLanguage.json", "schedule": "editors/vscode/syntaxes/rbl-schedule.tmLanguage.json"}
# Each script stands on those before it: those that come before anything is seen, and those of the page. The worker's run in the engine's thread.
FIRST_SCRIPTS = ["view/parts/palette.js", "play/page/keeping.js", "play/page/theme.js", "play/page/packed.js"]
SCRIPTS = ["view/parts/drawn.js"] + [f"play/page/{name}.js" for name in (
    "page", "bytes", "grammar", "editors", "marks", "thread", "reason", "outcome", "picture", "schedules", "tabs", "running", "lessons", "links",
    "files", "printing", "start")]
WORKER = ["play/engine.js", "play/page/packed.js", "play/page/worker.js"]


def text_of(path):
    """A text of the repository, without the ends of line behind it."""
    return lessons.text_of(path).rstrip("\n")


def deflated(content):
    """Bytes as they are packed, by zopfli where it is there: it packs some four in a hundred closer."""
    if shutil.which("zopfli"):
        with tempfile.NamedTemporaryFile() as file:
            file.write(content)
            file.flush()
            return subprocess.run(["zopfli", "-c", "--deflate", file.name], check=True, stdout=subprocess.PIPE).stdout
    deflate = zlib.compressobj(9, zlib.DEFLATED, -15)
    return deflate.compress(content) + deflate.flush()


def packed(content):
    """Bytes as gzip and base64, without a time and the name of a system."""
    ends = [b"\x1f\x8b\x08\0\0\0\0\0\x02\xff", zlib.crc32(content).to_bytes(4, "little") + len(content).to_bytes(4, "little")]
    return base64.b64encode(deflated(content).join(ends)).decode("ascii")


def unpacked(page):
    """A page with the hash of what is packed in each place: compressors differ, and what they pack does not."""
    packed_parts = r'(<script type="application/octet-stream" id="\w+">)([^<]*)'
    return re.sub(packed_parts, lambda part: part[1] + hashlib.sha256(content_of(part[2])).hexdigest(), page)


def content_of(text):
    """What was packed."""
    return zlib.decompress(base64.b64decode(text), 31)


def module_of(page):
    """The module that is in a page."""
    return content_of(re.search(r'<script type="application/octet-stream" id="module">([^<]*)', page)[1])


def data(value):
    """A value as JSON that can stand in a script element."""
    return json.dumps(value, ensure_ascii=True, separators=(",", ":")).replace("<", "\\u003c")


def hashed(script):
    """How a policy names a script."""
    return "'sha256-" + base64.b64encode(hashlib.sha256(script.encode()).digest()).decode("ascii") + "'"


def policy(scripts):
    """What the page may do: run these scripts, compile the module, and nothing that goes out."""
    return "; ".join(["default-src 'none'", "script-src 'wasm-unsafe-eval' " + " ".join(map(hashed, scripts)), "style-src 'unsafe-inline'",
                      "worker-src blob:", "connect-src 'none'", "base-uri 'none'", "form-action 'none'"])


def together(paths):
    """Scripts of the repository, one behind the other."""
    return "\n" + "\n".join(bare(text_of(path)) for path in paths) + "\n"


def scripts_of(page):
    """The scripts of a page that run."""
    return re.findall(r"<script>(.*?)</script>", page, re.DOTALL)


def joined(module):
    """The page."""
    view, editor = text_of("view/page.html") + "\n", text_of("play/vendor/codemirror.min.js")
    script = f'(function () {{\n"use strict";{together(SCRIPTS)}}})();\n'
    texts = {
        "STYLE": text_of("play/vendor/codemirror.css") + "\n" + text_of("play/page/style.css"),
        "HELP": text_of("play/page/help.html"),
        "LICENCE": html.escape(text_of("play/vendor/LICENSE")),
        "MODULE": packed(module), "VIEW": packed(view.encode()), "EDITOR": packed(editor.encode()),
        "LESSONS": packed(data(lessons.lessons()).encode()),
        "GRAMMARS": data({name: json.loads(text_of(path)) for name, path in GRAMMARS.items()}),
        "FIRST": together(FIRST_SCRIPTS), "CHECKS": together(["play/page/checks.js"]), "WORKER": together(WORKER),
        "BEGIN": together(["play/page/begin.js"]), "PAGE": packed(script.encode()),
    }
    page = re.sub("%([A-Z]+)%", lambda mark: texts[mark[1]], text_of("play/page/shell.html")) + "\n"
    return page.replace("@POLICY@", policy([*scripts_of(page), script, editor, *scripts_of(view)]), 1)


def check(path):
    """Tells where a page is not made of what stands here."""
    with open(path, encoding="utf-8", newline="") as file:
        page = file.read()
    if unpacked(page) != unpacked(joined(module_of(page))):
        sys.exit(f"{path} is not what play/join.py makes of the parts that stand here")


def write(module, out):
    """Writes the page."""
    with open(module, "rb") as file:
        page = joined(file.read())
    with open(out, "w", encoding="utf-8", newline="") as file:
        file.write(page)


def main():
    """Writes or checks a page."""
    if len(sys.argv) != 3:
        sys.exit(__doc__.splitlines()[0])
    if sys.argv[1] == "--check":
        check(sys.argv[2])
    else:
        write(*sys.argv[1:])


if __name__ == "__main__":
    main()
