"""What the programs answer where one allocation, one read or one write after another is refused.

An allocation that is refused is status 5, with nothing written, but that `plain` and `session` may have written a prefix; a read is status 3
with nothing written; a write is status 4 with a prefix. Where nothing is refused any more the answer is whole. Where the text itself is
refused, what is wanted after its line was written costs the reason on standard error, and neither the line nor status 1.
"""
import contextlib
import os
import unittest
from collections import Counter

from .shared import Cases, answer, answer_over, c_compiler, folder_of, hook, hooked, tell, text_of

STATUS = {"memory": 5, "read": 3, "write": 4}
# No command makes so many calls.
MOST_CALLS = 100_000
SECOND = """edition 2;
program second;
channel c from p to q size 2;
process p { var a[4]; var i; i := 0;
  while i < 4 { ensure a[i] = i * i within 9 by { a[i] := i + i; } else by { a[i] := i * i; send c a[i]; } else error; i := i + 1; }
  print "sum", (sum k from 0 to 3 : a[k]); }
process q { var x; var n; n := 0; while n < 9 { receive c x else { x := 0; } print x; n := n + 1; } }
end.
"""

# The sources, each with one of its processes and a schedule.
SOURCES = {
    "first edition": ("buyer", text_of("examples/conversation.rbl"), text_of("examples/conversation.schedule")),
    "nested": ("p", text_of("bench/nested.rbl"), text_of("bench/nested_10.schedule")),
    "second edition": ("p", SECOND, "all 40\n"),
}
# The commands over each of them: its record is `r`, its image `i`.
COMMANDS = ["run a b", "survive a b", "plain a r", "check a", "code a", "stuck a b", "session a b c", "compile a", "load i b", "trace a b", "page page a b"]

# Those that have none, and the search over all schedules, of a program with few worlds.
ALONE = ["domino h", "trial 0", "explain N4", "explain", "explore s", "explore s 1", "faults s"]

# Texts that are refused, by the names of the files: the reason of each takes another way.
REFUSED = {
    "a name": (["check", "a"], {"a": "program a; process p { x := 1; } end.\n"}),
    "a stray token": (["check", "a"], {"a": "program a; process p { var x; x := ; } end.\n"}),
    "a process": (["run", "a", "b"], {"a": "program a; process p { } end.\n", "b": "q 1\n"}),
    "a record": (["plain", "a", "b"], {"a": "program a; process p { } end.\n", "b": "3 p\n"}),
    "an image": (["load", "a", "b"], {"a": "no image", "b": "p 1\n"}),
    "a history": (["domino", "a"], {"a": "process p\nfail q\n"}),
    "an outcome": (["explore", "a", "2"], {"a": "program a; process p { } end.\n"}),
}

# Small files, which are read and written one byte at a time, and the commands over them.
SMALL = {
    "a": 'program a; process p { var x; x := 1; print "x", x; } end.',
    "b": "p 2",
    "r": "1 p\n2 p",
    "s": "show p\nstep 2\nshow p",
    "h": "process p\npoint p\nfail p",
}
BYTEWISE = ["run a b", "survive a b", "plain a r", "check a", "code a", "stuck a b", "session a b s", "domino h", "compile a", "load i b", "trial 0",
            "explore a", "explore a 1", "run a a", "go"]


def with_image(files):
    """The files, and the image of the source among them."""
    return {**files, "i": answer_over(["compile", "a"], files).out}


def files_of(process, source, schedule):
    """All files that a command may read, of a source."""
    files = {"a": source, "b": schedule, "c": f"step 4\nshow {process}\nback 2\nshow {process}\nshow {process}\n", "page": text_of("view/page.html")}
    return with_image({**files, "r": answer_over(["survive", "a", "b"], files).out})


def refusing(words, folder, refuse, number, **asked):
    """What is answered where one call of a kind is refused: that of this number, from 0."""
    return answer(words, folder, environment=hooked(refuse=refuse, refused=number, **asked))


def is_right(words, refuse, real, whole):
    """Whether an answer in which a call was refused is one that may come."""
    if real.status != STATUS[refuse]:
        return False
    if refuse == "write" or (refuse == "memory" and words[0] in ("plain", "session")):
        return whole.startswith(real.out) and (refuse == "memory" or real.out != whole)
    return real.out == b""


def refused_in_turn(words, folder, refuse):
    """How many calls were refused until none was left, and the first that was answered wrongly, if there is one."""
    status, whole, _ = answer(words, folder)
    if status != 0:
        return 0, f"status {status} with nothing refused"
    for number in range(MOST_CALLS):
        real = refusing(words, folder, refuse, number)
        if real[:2] == (0, whole):
            return number, None
        if not is_right(words, refuse, real, whole):
            return number, f"{refuse} {number}: status {real.status}, {len(real.out)} bytes"
    return 0, "no end"


def reason_refused_in_turn(words, folder, refuse):
    """The same for a command whose text is refused."""
    whole = answer(words, folder)
    if whole.status != 1 or not whole.err:
        return 0, f"status {whole.status} with nothing refused"
    for number in range(MOST_CALLS):
        real = refusing(words, folder, refuse, number)
        if real == whole:
            return number, None
        if real[:2] != whole[:2] and not is_right(words, refuse, real, whole.out):
            return number, f"{refuse} {number}: status {real.status}, {len(real.out)} bytes"
    return 0, "no end"


def bytes_refused_in_turn(words, folder, refuse):
    """How many of the calls that each move one byte were refused until none was left, and the first that was answered wrongly, if there is
    one. Each byte that is written is one call, and each that is read, with one more at the end of each file."""
    whole = answer(words, folder)
    files = [os.path.join(folder, word) for word in words[1:] if word in SMALL or word == "i"]
    calls = len(whole.out) if refuse == "write" else sum(os.path.getsize(file) + 1 for file in files)
    for number in range(MOST_CALLS):
        real = refusing(words, folder, refuse, number, piece=1)
        if real[:2] == whole[:2]:
            return number, None if number == calls else f"{number} calls, and not {calls}"
        if real[:2] != (STATUS[refuse], whole.out[:number] if refuse == "write" else b""):
            return number, f"{refuse} {number} of one byte: status {real.status}, {len(real.out)} bytes"
    return 0, "no end"


@unittest.skipUnless(c_compiler(), "no C compiler here")
class Refusals(Cases):
    @classmethod
    def setUpClass(cls):
        super().setUpClass()
        hook()

    def refused(self, cases, in_turn):
        """Refuses each kind of call in turn, for each case: its name, its words, its folder and which kinds."""
        counted = Counter()

        def fault(words, folder, refuse):
            number, wrong = in_turn(words, folder, refuse)
            counted[refuse] += number
            return wrong

        self.each([(f"{name}: {refuse}", words, folder, refuse) for name, words, folder, kinds in cases for refuse in kinds], fault)
        tell(", ".join(f"{counted[refuse]} of {refuse}" for refuse in STATUS) + " refused one by one")

    def test_commands(self):
        """Each command over each source, and those that have none."""
        with contextlib.ExitStack() as folders:
            there = {name: folders.enter_context(folder_of(files_of(*source))) for name, source in SOURCES.items()}
            alone = folders.enter_context(folder_of({"h": text_of("examples/domino.history"), "s": SMALL["a"]}))
            cases = [(f"{line}, {name}", line.split(), folder, STATUS) for name, folder in there.items() for line in COMMANDS]
            self.refused(cases + [(line, line.split(), alone, STATUS) for line in ALONE], refused_in_turn)

    def test_refused_texts(self):
        """Texts that are refused: each reason takes another way."""
        with contextlib.ExitStack() as folders:
            cases = [(name, words, folders.enter_context(folder_of(files)), STATUS) for name, (words, files) in REFUSED.items()]
            self.refused(cases, reason_refused_in_turn)

    def test_bytewise(self):
        """Each read and each write moves one byte."""
        with folder_of(with_image(SMALL)) as folder:
            cases = [(line, line.split(), folder, ["write"] if line == "run a a" else ["write", "read"]) for line in BYTEWISE]
            self.refused(cases, bytes_refused_in_turn)

    def test_longer_runs(self):
        """A longer run takes memory as often as a short one."""
        runs = [{"a": SOURCES["nested"][1], "b": text_of(f"bench/nested_{turns}.schedule")} for turns in (10, 23)]
        self.alike(["run", "a", "b"], runs)

    def test_sessions(self):
        """A session that goes back and shows takes memory as often as one of as many turns and bytes that does neither."""
        source = "program r; process p { var x; x := 5; ensure x > 6 within 9 by { x := x + 1; } else by { x := x + 2; } else error; } end."
        shows = "step 4\nshow p\nback 2\nshow p\nshow p\n"
        sessions = [{"a": source, "b": "p 20\n", "c": session} for session in (shows, ("step 4\n#" + "." * len(shows))[: len(shows)])]
        self.alike(["session", "a", "b", "c"], sessions)

    def alike(self, words, both):
        """Two runs of a command take memory as often."""
        taken = []
        for files in both:
            with folder_of(files) as folder:
                number, wrong = refused_in_turn(words, folder, "memory")
            self.assertIsNone(wrong)
            taken.append(number)
        self.assertEqual(*taken)
