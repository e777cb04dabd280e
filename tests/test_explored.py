"""All schedules: what `rblview explore` counts in the examples, and that each schedule it writes leads to the outcome it is written for.

The outcomes are held against what `rbl run` writes of the schedules; the counts of the lesson on all schedules against its table and its blocks.
"""
import os
import re

from .checking.program import line_of
from .shared import ROOT, Cases, answer, answer_over, read, text_of

# Of each source how many worlds it has, and after how many turns its outcomes come, with their words.
COUNTS = {
    "examples/first.rbl": (3, ["ended after 2"]),
    "examples/deadlock.rbl": (1, ["stuck after 0"]),
    "examples/step4.rbl": (2316, ["ended after 27", "ended after 38"]),
    "examples/step5.rbl": (716, ["ended after 15", "ended after 69"]),
    "examples/step7.rbl": (1, ["stuck after 0"]),
    "examples/agreement.rbl": (2337, ["ended after 18", "ended after 30"]),
    "examples/classics/retry.rbl": (131, ["ended after 13", "ended after 21"]),
    "examples/classics/waiting.rbl": (4, ["stuck after 2"]),
}
LESSON = "docs/lessons/13-all-schedules.md"
ROW = re.compile(r"^\| `([\w/.]+)` \| \[[^|]*\| ([\d,]+) \| (\d+) \| ([^|]*) \|$", re.MULTILINE)
SHOWN = re.compile(r"^```sh\n\./rblview (explore [\w/.]+)\n```\n+```\n(.*?)^```", re.MULTILINE | re.DOTALL)
# How many outcomes a row lists one by one.
LISTED = 9
OUTCOME = re.compile(r"^outcome (\d+) (\w+ after (\d+))\n(.*?)(?=^outcome |\Z)", re.MULTILINE | re.DOTALL)


def explored(source):
    """What is written of a source, and its outcomes: number, word with length, length, and text."""
    written = answer(["explore", source]).out.decode()
    return written, OUTCOME.findall(written)


def miscounted(source, states, told):
    """What is wrong with the counts of a source, or nothing."""
    written, outcomes = explored(source)
    first, second, *_ = written.split("\n")
    if not re.fullmatch(f"states {states} turns \\d+ complete", first) or second != "ends always":
        return f"{first}, {second}"
    return None if [one[1] for one in outcomes] == told else f"{[one[1] for one in outcomes]}"


def cell(outcomes):
    """What the table of the lesson says of outcomes: the turns to each, or of many the fewest, the most and how many are stuck."""
    ends = [one[1].split(" after ") for one in outcomes]
    if len(ends) > LISTED:
        return f"{ends[0][1]} to {ends[-1][1]}; {sum(word == 'stuck' for word, _ in ends)} of them stuck"
    return ", ".join(length + (" (stuck)" if word == "stuck" else "") for word, length in ends)


def wrong_row(source, states, many, told):
    """What is wrong with a row of the table of the lesson, or nothing."""
    written, outcomes = explored(source)
    first = re.match(r"states (\d+) turns \d+ complete\nends always\n", written)
    real = (f"{int(first[1]):,}", str(len(outcomes)), cell(outcomes)) if first else written[:80]
    return None if real == (states, many, told) else f"{real}"


def wrong_block(words, text):
    """What is wrong with a block that shows what `rblview` writes, or nothing."""
    return None if answer(words.split()).out.decode() == text else f"{words} writes something else"


def rests(text):
    """The lines of an outcome, with a process that waits as `run` tells it: it is open, outside of every level."""
    return [re.sub(r"^(\w+) waits for .*$", r"\1 open 0", line) for line in text.splitlines()]


def rests_of_run(written):
    """The lines of the outcome that a run has come to: how many messages are left is how many were sent and not taken."""
    lines = written[written.index("end "):].splitlines()[1:]
    return [re.sub(r"^(\w+) sent (\d+) taken (\d+)$", lambda m: f"{m[1]} left {int(m[2]) - int(m[3])}", line) for line in lines]


def led_elsewhere(source, number, length, text):
    """What is wrong with the schedule of an outcome, or nothing: its run takes so many turns, and has come to the outcome."""
    schedule = answer(["explore", source, number])
    run = answer_over(["run", "source", "schedule"], {"source": read(os.path.join(ROOT, source)), "schedule": schedule.out})
    ran = run.out.decode()
    if schedule.status != 0 or f"end {length}\n" not in ran:
        return f"status {schedule.status}, {ran[-200:]!r}"
    return None if rests_of_run(ran) == rests(text) else f"{ran[-300:]!r}"


class Explored(Cases):
    def test_counts(self):
        self.each([(source, source, *told) for source, told in COUNTS.items()], miscounted)

    def test_table(self):
        self.each([(row[1], *row.groups()) for row in ROW.finditer(text_of(LESSON))], wrong_row)

    def test_shown(self):
        text = text_of(LESSON)
        self.each([(f"{LESSON}:{line_of(text, block.start())}", *block.groups()) for block in SHOWN.finditer(text)], wrong_block)

    def test_schedules(self):
        self.each([(f"{source} {number}", source, number, length, text) for source in COUNTS for number, _, length, text in explored(source)[1]],
                  led_elsewhere)
