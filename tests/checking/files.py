"""The files of `examples`: each is shown or named by a page, its comment tells what it prints, and what survived it ends alike."""
import glob
import os
import re

from ..shared import ROOT, text_of
from .program import Check, answer, answer_of

TOLD = {".rbl": re.compile(r"^# It prints:\n#\n((?:#   .*\n)+)", re.MULTILINE),
        ".history": re.compile(r"^# It leaves:\n#\n((?:#   .*\n)+)", re.MULTILINE)}


def below(pattern):
    """The files of `examples` with a name of this pattern, however deep, in order."""
    found = glob.glob(os.path.join(ROOT, "examples/**", pattern), recursive=True)
    return sorted(os.path.relpath(path, ROOT) for path in found)


def schedules_of(source):
    """The schedules of a source: with its own name, or with a word more between its name and the end."""
    name = os.path.splitext(os.path.basename(source))[0]
    return [path for path in below(f"{name}.*schedule") if os.path.dirname(path) == os.path.dirname(source)]


def outs(text):
    """The `out` lines of a text."""
    return [line for line in text.split("\n") if " out " in line]


def values(text):
    """The lines of variables and of channels behind the turns of a text."""
    return [line for line in text.split("\n") if re.match(r"\w+\.\w+ = |\w+ sent \d+ taken \d+$", line)]


def replay(source, schedule):
    """What is wrong where the survivors of a run, run alone, have other lines or values than the run."""
    run, record = answer(["run", source, schedule]), answer(["survive", source, schedule])
    alone = answer_of("plain", [text_of(source), record.out])
    if [run.status, record.status, alone.status] != [0, 0, 0] or run.err + record.err + alone.err:
        return "`run`, `survive` and `plain` do not end well"
    if outs(run.out) != outs(alone.out):
        return "what survived has other lines, run alone"
    return None if values(run.out) == values(alone.out) else "what survived has other values, run alone"


def replays():
    """A check of each source with each of its schedules."""
    for source in below("*.rbl"):
        schedules = schedules_of(source)
        refused = answer(["check", source]).status
        if not schedules and not refused:
            yield Check(source, "it has no schedule")
        for schedule in schedules:
            yield Check(schedule, replay(source, schedule))


def told():
    """A check of each text that a file tells of itself in a comment, in the first of its schedules."""
    for file in below("*.rbl") + below("*.history"):
        kind = os.path.splitext(file)[1]
        schedules = schedules_of(file)
        words = ["domino", file] if kind == ".history" else ["run", file, schedules[0]] if schedules else ["check", file]
        for block in TOLD[kind].finditer(text_of(file)):
            shown = "".join(line[4:] + "\n" for line in block.group(1).splitlines())
            yield Check(file, None if answer(words).out == shown else "it tells another text of itself than the program")


def named(pages):
    """A check of each file: some page names it, or it is a schedule of a source that is named. What the tests of reasons want, those count."""
    text = "".join(map(text_of, pages))
    for file in below("*.*"):
        if file.startswith(("examples/reasons/", "examples/explained/")):
            continue
        source = re.sub(r"(\.\w+)?\.schedule$", ".rbl", file)
        yield Check(file, None if file in text or (source != file and source in text) else "no page names it")
