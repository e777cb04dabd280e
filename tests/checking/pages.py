"""The examples that stand in the pages: fenced blocks by their kind, and command lines of `./rbl`.

A block `rbl` is a source and a block `schedule` behind it its schedule; a block `given` is a record that somebody wrote, and `history` a
history. Of these `output` is what `run` writes, `record` what `survive` does, `plain` what `plain` does of the last record, `standing` what
`stuck` does, `refused` what `check` does, `code` what `code` does, and `left` what `domino` does; `trial` is what `trial` writes of the number
in its first line. A block `session` is a session, and `shown` is what `session` writes of it. A name of a file behind the kind says that the file
holds the block's text; a block `diff` names two files, and shows what changes from the first to the second.

A block `sh` that is one command line of `./rbl` is run at the top of the repository, and the next block is all that it writes. In other
such blocks a line's comment begins with `accepted` or `refused ..` where it tells a verdict; each line is run.
"""
import re

from ..shared import ROOT, text_of
from .changes import changes
from .program import Check, answer, answer_of, line_of, wanted

FENCE = re.compile(r"^```(\w*) ?([^\n]*)\n(.*?)^```", re.MULTILINE | re.DOTALL)
ALONE = re.compile(r"^```sh\n\./rbl ([^\n#]*)\n```\n+```\n(.*?)^```", re.MULTILINE | re.DOTALL)
BESIDE = re.compile(r"^\./rbl ([^\n#]*?) +# ([^\n]*)", re.MULTILINE)
VERDICT = re.compile(r"accepted|refused \w+(?: at [\d:]*\d)?")
WRITES = {
    "output": ["run", "source", "schedule"],
    "record": ["survive", "source", "schedule"],
    "plain": ["plain", "source", "record"],
    "standing": ["stuck", "source", "schedule"],
    "refused": ["check", "source"],
    "code": ["code", "source"],
    "left": ["domino", "history"],
    "shown": ["session", "source", "schedule", "session"],
}
GIVES = {"rbl": "source", "schedule": "schedule", "given": "record", "record": "record", "history": "history", "session": "session"}


def blocks(page):
    """A check of each block of a page that shows what the program writes, or a file."""
    text, texts = text_of(page), {}
    for block in FENCE.finditer(text):
        kind, file, body = block.groups()
        where = f"{page}:{line_of(text, block.start())}"
        if file and kind in {*GIVES, *WRITES}:
            yield Check(where, None if text_of(file) == body else f"{file} holds another text")
        if kind == "diff":
            yield Check(where, None if body == changes(*map(text_of, file.split())) else f"{file} differ otherwise")
        if kind not in {"", "sh", "trial", "diff", *GIVES, *WRITES}:
            yield Check(where, f"no block is of the kind {kind}")
        if kind == "rbl":
            texts = {}
        if kind in WRITES:
            command, *names = WRITES[kind]
            yield Check(where, wanted(body, answer_of(command, [texts.get(name, "") for name in names])))
        if kind == "trial":
            yield Check(where, wanted(body, answer(body.split("\n")[0].split(" "))))
        if kind in GIVES:
            texts[GIVES[kind]] = body


def command_lines(page):
    """A check of each command line of a page."""
    text = text_of(page)
    for line in ALONE.finditer(text):
        yield Check(f"{page}:{line_of(text, line.start())}", wanted(line.group(2), answer(line.group(1).split(), ROOT)))
    for line in BESIDE.finditer(text):
        real, told = answer(line.group(1).split(), ROOT), VERDICT.match(line.group(2))
        shown = told.group() + "\n" if told else real.out
        yield Check(f"{page}:{line_of(text, line.start())}", wanted(shown, real))


def listed_code(page):
    """A check of each instruction with its address in the tables of a page: the last source that was shown or named has it in its listing."""
    text, listing = text_of(page), []
    for part in re.finditer(r"^```rbl[^\n]*\n(.*?)^```|`(examples/\w+\.rbl)`|^\| (`\d+ [^\n]*)", text, re.MULTILINE | re.DOTALL):
        source, file, row = part.groups()
        if not row:
            listing = answer_of("code", [source or text_of(file)]).out.split("\n")
            continue
        for one in re.findall(r"`(\d+ [^`]*)`", row.split(" |")[0]):
            yield Check(f"{page}:{line_of(text, part.start())}", None if one in listing else f"the code has no line {one}")
