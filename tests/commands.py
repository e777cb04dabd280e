"""Each command of both programs, over small files that are accepted."""
from .shared import answer_over

SOURCE = "program a; process p { var x; while 1 { x := 1; } } end.\n"
FILES = {"source": SOURCE, "schedule": "p 2\n", "record": "1 p\n2 p\n", "session": "step 1\nshow p\n", "history": "process p\nfail p\n",
         "page": "<p>@SOURCE@ @SCHEDULE@ @TRACE@</p>\n"}
COMMANDS = ["run source schedule", "survive source schedule", "plain source record", "check source", "code source", "compile source", "load image schedule",
            "session source schedule session", "domino history", "stuck source schedule", "trial 0", "trace source schedule", "page page source schedule", "explain S1",
            "explain", "explore source"]


def commands():
    """Each command with its files, all of which are there, in their order."""
    whole = {**FILES, "image": answer_over(["compile", "source"], FILES).out}
    for line in COMMANDS:
        words = line.split()
        yield line, words, {name: whole[name] for name in words[1:] if name in whole}
