"""The engine's WebAssembly module against the programs of this machine, byte by byte: status, output, and what standard error is told."""
import base64
import hashlib
import os
import re
import unittest

from . import limit_runs, told, worst_texts
from .checking.files import below, schedules_of
from .commands import FILES
from .engine_module import asked, lacks, said
from .in_node import CASE
from .shared import ROOT, VIEWS, Answer, Cases, answer, answer_over, folder_of, measured, program, read, tell, text_of
from .test_stored_runs import TABLES, rows

# A million turns in node may take so much more processor time than by the program of this machine.
SLOWER = 2.6
ROUNDS = 8
# What the system said of a file that is missing, which no module is told.
SYSTEM = re.compile(rb": [^:\n]+ \(os error \d+\)\n\Z")
# The engine holds at most so many bytes after a small run.
SMALL_RUN = 20_000_000


def of_rows():
    """The stored runs, and those at the limits."""
    for table in TABLES:
        yield from rows(table)
    for kind in limit_runs.KINDS:
        yield from kind()


def of_examples():
    """Every command over the examples: its words, and the files of the repository."""
    for source in below("*.rbl"):
        stem = os.path.splitext(source)[0]
        yield from ([command, source] for command in ("check", "code", "compile"))
        for schedule in schedules_of(source):
            yield from ([command, source, schedule] for command in ("run", "survive", "stuck", "trace"))
            yield ["page", "view/page.html", source, schedule]
            yield ["session", source, schedule, f"{stem}.session"]
        yield from (["plain", source, f"{stem}.{kind}"] for kind in ("record", "wrong"))
    yield from (["domino", history] for history in below("*.history"))


def cases():
    """All cases: a name, the program, its words, and the files by their names."""
    for run in of_rows():
        yield f"{run.title}: {' '.join(run.words)[:60]}", run.program, run.words, run.files
    for command, *places in of_examples():
        files = {os.path.basename(place): read(os.path.join(ROOT, place)) for place in places if os.path.exists(os.path.join(ROOT, place))}
        yield " ".join([command, *places]), "rblview" if command in VIEWS else "rbl", [command, *map(os.path.basename, places)], files
    for name, words, files in told.cases():
        yield f"reason: {name}", "rblview" if words[0] in VIEWS else "rbl", words, files
    for name, words, files, *_ in worst_texts.cases():
        yield f"worst text: {name}", "rbl", words, files


def unlike(real, other):
    """What is wrong where the module answers otherwise than the program, or nothing."""
    if "trap" in other:
        return other["trap"]
    if real.status != other["status"]:
        return f"status {other['status']} for {real.status}"
    if hashlib.sha256(real.out).hexdigest() != other["hash"]:
        return f"writes {other['length']} other bytes for {len(real.out)}"
    reason, wanted = base64.b64decode(other["reason"]), SYSTEM.sub(b"\n", real.err)
    return None if reason == wanted else f"tells {reason[:200]!r} for {wanted[:200]!r}"


def against_native(case, other):
    """What is wrong with an answer of the module, or nothing."""
    _, name, words, files = case
    with folder_of(files) as folder:
        return unlike(answer(words, folder, program(name)), other)


@unittest.skipIf(lacks(), lacks())
class Module(Cases):
    def test_answers(self):
        """Stored runs and those at the limits, examples, reasons and the worst texts, all by one engine."""
        every = list(cases())
        with folder_of({}) as folder:
            answers = asked(every, folder)
        self.assertEqual(len(answers), len(every))
        self.each([(case[0], case, other) for case, other in zip(every, answers)], against_native)
        slowest, largest = (max(range(len(every)), key=lambda at, kind=kind: answers[at].get(kind, 0)) for kind in ("took", "memory"))
        tell(f"{len(every)} answers; the slowest took {answers[slowest]['took'] / 1000:.2f} s of processor time ({every[slowest][0]}); "
             f"the memory came to {answers[largest]['memory'] / 1e6:.0f} MB")

    def test_room(self):
        """Where the output needs more room than there may be, the status is 4, and what is written is its front."""
        whole = answer_over(["run", "source", "schedule"], FILES).out
        for room in (0, 1, len(whole) - 1):
            with folder_of({}) as folder:
                [cut] = asked([("a run", "rbl", ["run", "source", "schedule"], FILES)], folder, largest=room)
            with self.subTest(f"room for {room} of {len(whole)} bytes"):
                self.assertIsNone(unlike(Answer(4, whole[:room], b"rbl: cannot write to standard output\n"), cut))

    def test_want_of_memory(self):
        """Where memory ends too soon, the status is 5, nothing is written or told, and the next call answers as a first one does."""
        source, schedule = text_of("examples/conversation.rbl"), text_of("examples/conversation.schedule")
        both = {"texts": [source, schedule], "program": "rbl"}
        wrong, session = FILES["source"].replace("x :=", "y :="), "step 4\nshow buyer\n"
        questions = [{"name": "run", "words": ["run", "a", "b"], **both}, {"name": "trace", "words": ["trace", "a", "b"], **both, "program": "rblview"},
                     {"name": "compile", "words": ["compile", "a"], **both, "texts": [source]},
                     {"name": "a name that is none", "words": ["check", "a"], **both, "texts": [wrong]},
                     {"name": "session", "words": ["session", "a", "b", "c"], **both, "texts": [source, schedule, session], "mayWrite": True}]
        lines = said("ask_short.js", questions)
        self.assertEqual(len(lines), len(questions))
        self.each([CASE.match(line).groups() for line in lines], lambda why: why)

    def test_speed(self):
        """A million turns of bench/one. Other work on a machine slows the two differently, so they are measured anew where it seems too much."""
        words = ["run", "bench/one.rbl", "bench/one.schedule"]
        files = {name: text_of(name) for name in words[1:]}
        for _ in range(ROUNDS):
            with folder_of({}) as folder:
                answers = asked([("one", "rbl", words, files)] * 12, folder)
            here = min(answer["took"] for answer in answers) / 1000
            there = min(measured(words, ROOT, 60).seconds for _ in range(5))
            if here < SLOWER * there:
                break
        tell(f"a million turns take {here:.3f} s of processor time in node, and {there:.3f} s by the program of this machine")
        self.assertLess(here, SLOWER * there)

    def test_memory(self):
        """What the engine holds at the start, and after a small run."""
        with folder_of({}) as folder:
            held = asked([("no words", "rbl", [], {}), ("a run", "rbl", ["run", "source", "schedule"], FILES)], folder)
        tell(f"the engine holds {held[0]['memory'] / 1e6:.1f} MB after a call without words, and {held[1]['memory'] / 1e6:.1f} MB after a small run")
        self.assertLess(held[1]["memory"], SMALL_RUN)
