"""Runs at the limits of the language: each limit that a text can reach, at its number and one past it, the largest texts, words that
give no command, and a program that is cut short.

Like the rows of tests/runs these are data: `test_stored_runs.py` runs them.
"""
from collections import namedtuple

from .shared import MOST, MOST_OF_IMAGE

# What a run is of, its words, its files by their names, its status (None: whichever), what it writes (the whole text, or parts of it), and
# by which program.
Run = namedtuple("Run", "title words files status written program", defaults=["rbl"])
# How a text begins, what stands somewhere in it, and how it ends.
Parts = namedtuple("Parts", "begins has ends", defaults=["", "", ""])
EMPTY = "program a; process p { } end."
RUN_WORDS = ["run", "a", "b"]
BLOCK = "ensure 1 within 9999 by { if n > 0 { call f(n - 1); } } else error;"
LINE = "0123456789" * 25 + "01234"


def same(piece):
    """The same text again and again."""
    return lambda count: piece * count


def numbered(left, right):
    """Two texts with the number of the piece between them."""
    return lambda count: "".join(f"{left}{n}{right}" for n in range(count))


def around(opening, inside, closing):
    """So many brackets of one kind around a text."""
    return lambda count: opening * count + inside + closing * count


# What stands before and behind the pieces (`str`: their number itself), how many there may be at most, and how the text begins with one more.
BRACKETS = [
    ("program a; process p { var x; var a[1]; x := ", around("(", "1", ")"), "; } end.", 99, "refused Y2 at 1:145\n"),
    ("program a; process p { var x; var a[1]; ", around("a[", "0", "]"), " := 1; } end.", 99, "refused Y2 at 1:"),
    ("program a; process p { var x; var a[1]; ", around("while 0 {", "", "}"), "} end.", 99, "refused Y2 at 1:"),
    ("program a; process p { var x; var a[1]; ", around("if 1 {", "", "}"), "} end.", 99, "refused Y2 at 1:"),
]
NAMES = [
    ("program ", same("x"), "; process p { } end.", 64, "refused X5 at 1:"),
    ("program a; process p { var ", same("x"), "; } end.", 64, "refused X5 at 1:"),
    ("program a; channel ", same("x"), " from p to q size 1; process q { } process p { } end.", 64, "refused X5 at 1:"),
    ("program a; process p { procedure ", same("x"), "() { } } end.", 64, "refused X5 at 1:"),
    ("program a; process p { procedure f(", same("x"), ") { } } end.", 64, "refused X5 at 1:"),
    ("program a; process ", same("x"), " { } process p { } end.", 64, "refused X5 at 1:"),
    ("edition 2; program a; process p { print (sum ", same("x"), " from 0 to 1 : 1); } end.", 64, "refused X5 at 1:"),
    ('program a; process p { print "', same("x"), '"; } end.', 256, "refused X4 at 1:"),
    ("program a; process p { var ", same("x"), "[2]; } end.", 64, "refused X5 at 1:"),
]
SIZES = [
    ("program a; process p { } ", numbered("process p", " { } "), "end.", 31, "refused S7 at 1:"),
    ("edition 2; program a; process p { } ", numbered("process p", " { } "), "end.", 63, "refused S7 at 1:"),
    ("program a; ", numbered("channel c", " from p to q size 1; "), "process q { } process p { } end.", 64, "refused S7 at 1:"),
    ("program a; process p { procedure f(x", numbered(", a", ""), ") { } } end.", 15, "refused S7 at 1:"),
    ("program a; process p { print 1", same(", 1"), "; } end.", 15, "refused S7 at 1:"),
    ("program a; process p { ", numbered("var v", "; "), "} end.", 2_048, "refused S10 at 1:"),
    ("edition 2; program a; process p { ", numbered("var v", "; "), "} end.", 4_096, "refused S10 at 1:"),
    ("edition 2; program a; process p { print ", around("(sum i from 0 to 0 : ", "1", ")"), "; } end.", 2, "refused S11 at 1:"),
    ("edition 2; program a; process p { print ", around("(every i from 0 to 0 : ", "1", ")"), "; } end.", 2, "refused S11 at 1:"),
    ("edition 2; program a; process p { print ", around("(some i from 0 to 0 : ", "1", ")"), "; } end.", 2, "refused S11 at 1:"),
    ("program a; process p { ", same(" "), "} end.", MOST - 29, "refused L0\n"),
]
NUMBERS = [
    ("program a; process p { var a[", str, "]; } end.", 1_024, "refused S6 at 1:"),
    ("program a; channel c from p to q size ", str, "; process q { } process p { } end.", 65_536, "refused S8 at 1:"),
    ("program a; process p { ensure 1 within ", str, " by { } else error; } end.", 1_000_000, "refused S9 at 1:"),
    ("program a; process p { var x; x := ", str, "; } end.", 9_223_372_036_854_775_807, "refused X3 at 1:"),
    ("edition 2; program a; process p { print (sum i from 1 to ", str, " : i); } end.", 1_024, "1 error p range\n"),
    ("program a; process p { procedure f(n) { if n > 0 { call f(n - 1); } } call f(", str, "); } end.", 255, "513 error p calls\n"),
    ("program a; process p { var a[1024]; var x; ensure 1 within 9 by { var b[", str, "]; } else error; } end.", 1_023, "2 reject p ensure 1 1 stack\n"),
    ("program a; process p { procedure f(n) { var a[1000]; if n > 0 { call f(n - 1); } } call f(", str, "); } end.", 1, "5 error p stack\n"),
]
DEPTHS = [
    ("program a; process p { ", around("ensure 1 within 9999 by {", "", "} else error; "), "} end.", 32, "65 reject p ensure 1 1 depth\n"),
    (f"program a; process p {{ procedure f(n) {{ {BLOCK} }} call f(", str, "); } end.", 31, "130 reject p ensure 1 1 depth\n"),
    (
        "program a; process p { var i; ensure 1 within 9999 by { while i < ",
        str,
        f' {{ i := i + 1; print "{LINE}"; }} }} else error; }} end.',
        256,
        "773 reject p ensure 1 1 hold\n",
    ),
]
# The same of schedules.
SCHEDULES = [
    ("p ", str, "", 1_000_000, "refused T3 at 1\n"),
    ("p 999000\np ", str, "", 1_000, "refused T4 at 2\n"),
    ("p 9", same(" "), "", MOST - 3, "refused L0\n"),
    ("p 9\n#", same("c"), "", MOST - 5, "refused L0\n"),
    ("p 9", same("\n"), "", MOST - 3, "refused L0\n"),
]


def limits():
    """Each limit at its number, where the run goes to its end, and one past it."""
    rows = [*BRACKETS, *NAMES, *SIZES, *NUMBERS, *DEPTHS, *SCHEDULES]
    for number, (before, pieces, after, most, past) in enumerate(rows):
        texts = [before + pieces(count) + after for count in (most, most + 1)]
        in_schedule = number >= len(rows) - len(SCHEDULES)
        within, beyond = [{"a": EMPTY, "b": text} if in_schedule else {"a": text, "b": "p 9999"} for text in texts]
        yield Run(f"limit {number} at {most}", RUN_WORDS, within, 0, Parts(has="p done\n"))
        yield Run(f"limit {number} past {most}", RUN_WORDS, beyond, None, Parts(begins=past))


def filled(before):
    """A text of the most bytes, by a comment that it opens at its end."""
    return before + "c" * (MOST - len(before))


def largest():
    """The longest files and names, and the most turns, variables and held bytes."""
    variables = "".join(f"var v{n};" for n in range(2048))
    yield Run("the most variables", RUN_WORDS, {"a": f"program a; process p {{ {variables} }} end.", "b": "p 1"}, 0, Parts(ends="p.v2047 = 0\n"))
    yield Run("the most turns", RUN_WORDS, {"a": EMPTY, "b": "p 1000000"}, 0, Parts(ends="end 1000000\np done\n"))
    yield Run("a name of 64 bytes", RUN_WORDS, {"a": f"program a; process p {{ var {'x' * 64}; }} end.", "b": "p 1"}, 0, Parts(ends=f"p.{'x' * 64} = 0\n"))
    text = "x" * 256
    yield Run("a text of 256 bytes", RUN_WORDS, {"a": f'program a; process p {{ print "{text}"; }} end.', "b": "p 1"}, 0, f"1 out p {text}\n1 done p\nend 1\np done\n")
    names = [f"a_rather_long_name_of_variable_{n:04}" for n in range(2048)]
    source = "program a;\nprocess p {\n" + "".join(f"  var {name};\n" for name in names) + "}\nend.\n"
    whole = "0 done p\nend 0\np done\n" + "".join(f"p.{name} = 0\n" for name in names)
    yield Run("long names", RUN_WORDS, {"a": source, "b": ""}, 0, whole)
    # 15 lines of 16 texts of 256 bytes count 4,112 bytes each, one of 15 such texts and an empty one 3,856: 65,536; an empty line counts 1.
    line = "".join(f'"{text}", ' for _ in range(15))
    held = f'print {line}"{text}"; ' * 15 + f'print {line}""; '
    source = f'program h; process p {{ ensure 0 < 1 within 99 by {{ {held}print ""; }} else by {{ print "ok"; }} else error; }} end.'
    whole = "19 reject p ensure 1 1 hold\n22 out p ok\n22 done p\nend 22\np done\n"
    yield Run("the most held bytes", RUN_WORDS, {"a": source, "b": "p 22"}, 0, whole)


def longest_files():
    """Each command over a file of the most bytes, and over one with a byte more, which is refused."""
    commands = [
        (RUN_WORDS, "p 1 #"),
        (["run", "b", "s"], f"{EMPTY} #"),
        (["survive", "a", "b"], "p 1 #"),
        (["stuck", "a", "b"], "p 1 #"),
        (["plain", "a", "b"], "#"),
        (["session", "a", "s", "b"], "#"),
        (["session", "a", "b", "e"], "p 1 #"),
        (["domino", "b"], "process p\nfail p\n#"),
        (["check", "b"], f"{EMPTY} #"),
        (["code", "b"], f"{EMPTY} #"),
        (["compile", "b"], f"{EMPTY} #"),
    ]
    for words, start in commands:
        files = {"a": EMPTY, "b": filled(start), "s": "p 1", "e": ""}
        yield Run(f"{words[0]} over the most bytes", words, files, 0, Parts())
        yield Run(f"{words[0]} over a byte more", words, {**files, "b": filled(start) + "c"}, 1, "refused L0\n")


def nested(members, depth, inside, schedule, begins, ends):
    """So many processes in so many conversations, one inside the other; in the innermost the first process does something of its own."""
    every = ", ".join(f"p{n}" for n in range(1, members + 1))
    conversations = "".join(f"conversation C{n} ({every}); " for n in range(1, depth + 1))
    entries = "".join(f"converse C{n} ensure 1 within 100 by {{ " for n in range(1, depth + 1))
    processes = "".join(f"process p{n} {{ {entries}{inside if n == 1 else ''}{'} else error; ' * depth}}} " for n in range(1, members + 1))
    files = {"a": f"program d; {conversations}{processes}end.", "b": schedule}
    return Run(f"{members} members of {depth} conversations, {schedule}", RUN_WORDS, files, None, Parts(begins=begins, ends=ends))


def conversations():
    """How deep conversations may be, and what one failure does to 32 members of eight of them."""
    yield nested(2, 8, "", "all 99", "34 pass C8 1\n", "p2 done\n")
    yield nested(2, 9, "", "all 99", "refused N13 at 1:", "\n")
    rejected = "513 reject C8 1 by p1 fail\n" + "".join(f"513 reject C{n} 1 by p1 inner\n" for n in range(7, 0, -1))
    failed = rejected + "513 error p1 inner\n513 error p2 inner\n"
    yield nested(32, 8, "fail; ", "all 16", "end 512\np1 open 8\n", "p32 open 8\n")
    yield nested(32, 8, "fail; ", "all 17", failed, "p32 failed\n")
    yield nested(32, 8, "fail; ", "all 18", failed, "p32 failed\n")


def listings():
    """Listings of the largest codes."""

    def processes(before, count, inside):
        return before + "".join(f"process p{n} {{ {inside} }} " for n in range(count)) + "end."

    two = "edition 2; program a; "
    statements = two + "process p { " + "fail;" * ((MOST - 64) // 5) + " } end."
    arrays = "var a[1024]; var b[1024]; var c[1024]; var d[1024]; a[d[1023]] := b[c[0]];"
    fewer = "var a[1024]; var b[1024]; a[b[1023]] := b[a[0]];"
    brackets = two + "process p { var a[9]; a[0] := " + "1 < 1 + 2 * (" * 98 + "3" + ")" * 98 + "; } end."
    blocks = two + "process p { " + "ensure 1 within 9 by { var v[9]; " * 32 + "} else error; " * 32 + "} end."
    for source, ends in [
        (statements, "419402 turn\n419403 fail\n419404 done\n"),
        (processes(two, 64, arrays), "\n767 done\n"),
        (processes("program a; ", 32, fewer), "\n383 done\n"),
        (brackets, "592 storeat g 0\n593 done\n"),
        (blocks, "block 31 line 1 ensure within 9 restart 157 test 161 alternates 159\n"),
    ]:
        yield Run(f"the code of {len(source):,} bytes", ["code", "a"], {"a": source}, 0, Parts(ends=ends))


USAGE = (
    "usage: rbl run SOURCE SCHEDULE | survive SOURCE SCHEDULE | plain SOURCE RECORD | check SOURCE | code SOURCE | trial NUMBER"
    " | compile SOURCE | load IMAGE SCHEDULE | session SOURCE SCHEDULE SESSION | domino HISTORY | stuck SOURCE SCHEDULE\n"
)


def no_commands():
    """Words that give no command."""
    fewer = [[], ["check"], ["run", "a"], ["survive", "a"], ["trial"], ["session", "a", "b"], ["domino"], ["stuck", "a"], ["compile"], ["load", "a"]]
    more = [["check", "a", "a"], ["run", "a", "a", "a"], ["plain", "a", "a", "a"], ["trial", "0", "0"], ["session", "a", "b", "c", "d"]]
    options = [["check", "-a"], ["check", "--help"], ["check", "--", "a"], ["run", "-h", "a"], ["--help"], ["--version"]]
    no_words = [["check", ""], ["run", "a", ""], ["", "a"], ["help"], ["help", "check"], ["chec", "a"], ["Check", "a"]]
    no_numbers = [["trial", "x"], ["trial", "18446744073709551616"], ["trial", "000000000000000000000"]]
    for words in [*fewer, *more, *options, *no_words, *no_numbers]:
        yield Run(f"usage: {' '.join(words)}", words, {"a": EMPTY}, 2, USAGE)


# A program, and the first and the last length at which a front of it is refused so. Every other front ends too early, behind its last byte.
CUT = """program k;
channel c from p to q size 4;
conversation C (p, q);
process p { var a;
converse C ensure a > 0 within 20 by { a := 1; send c 5; print "p1"; }
else by { a := 2; send c 6; print "p2"; } else error; }
process q { var b;
converse C ensure b = 6 within 20 by { receive c b; print "q", b; }
else by { receive c b; print "q", b; } else error; }
end."""
CUTS = [
    (1, 6, "Y1 at 1:1"), (12, 17, "Y1 at 2:1"), (22, 24, "Y1 at 2:11"), (29, 29, "Y1 at 2:18"), (34, 36, "Y1 at 2:23"),
    (42, 52, "Y1 at 3:1"), (65, 70, "Y1 at 4:1"), (95, 99, "Y1 at 5:12"), (108, 112, "Y1 at 5:25"), (118, 118, "Y1 at 5:35"),
    (125, 125, "X1 at 5:42"), (147, 149, "X2 at 5:64"), (155, 157, "Y1 at 6:1"), (160, 160, "Y1 at 6:6"), (167, 167, "X1 at 6:13"),
    (189, 191, "X2 at 6:35"), (197, 199, "Y1 at 6:43"), (202, 205, "Y1 at 6:48"), (211, 216, "Y1 at 7:1"), (241, 245, "Y1 at 8:12"),
    (254, 258, "Y1 at 8:25"), (264, 264, "Y1 at 8:35"), (288, 289, "X2 at 8:59"), (298, 300, "Y1 at 9:1"), (303, 303, "Y1 at 9:6"),
    (327, 328, "X2 at 9:30"), (337, 339, "Y1 at 9:40"), (342, 345, "Y1 at 9:45"), (351, 352, "Y1 at 10:1"),
]


def cuts():
    """A program that is cut short before each of its bytes: a name where a word was begun, half a mark, a text that is still open, or an early end."""
    for length in range(len(CUT)):
        front = CUT[:length]
        early = f"Y1 at {front.count(chr(10)) + 1}:{length - front.rfind(chr(10))}"
        fault = next((fault for first, last, fault in CUTS if first <= length <= last), early)
        yield Run(f"cut at {length}", ["check", "a"], {"a": front}, 1, f"refused {fault}\n")
    yield Run("not cut", ["check", "a"], {"a": CUT}, 0, "accepted\n")


def trials():
    """Trials of the numbers 0 to 99, the texts of which are accepted, and of larger ones: each round has 60 turns of a process, and 8 more for each process."""
    for number in [*range(100), 1_549, 18_446_744_073_709_551_615]:
        processes, rounds = 2 + number % 31, 1 + number // 31 % 50
        turns = processes * rounds * (60 + 8 * processes)
        yield Run(f"trial {number}", ["trial", str(number)], {}, 0, Parts(begins=f"trial {number}\nprocesses {processes}\nturns {turns}\nout "))


def record(turns):
    """A record in which process p takes all turns up to this one."""
    return "".join(f"{turn} p\n" for turn in range(1, turns + 1))


def deepest():
    """A process with as many levels, words and channels as there can be, which goes back to the fourth level; as many open calls in a run as in a
    plain run, and the longest sum and record."""
    channels = "".join(f"channel c{n} from p to q size 1; " for n in range(64))
    entries = "".join(f'\nensure 1 within 9999 by {{ d[1023] := {n}; print "line"; ' for n in range(1, 33))
    again = '} else by { print "again", d[1023]; '
    ends = "".join(f"{again if n == 4 else ''}}} else error; " for n in range(32, 0, -1))
    variables = "var a[1024]; var b[1024]; var c[1024]; var d[1024];"
    source = f"edition 2; program g; {channels}process q {{ }} process p {{ {variables} {entries}fail; {ends}}} end."
    back = "129 reject p ensure 33 1 fail\n" + "".join(f"129 reject p ensure {n + 1} 1 inner\n" for n in range(31, 3, -1))
    lines = "135 out p line\n" * 3 + "135 out p again 3\n135 done p\nend 135\n"
    yield Run("32 levels over 4,096 words and 64 channels", RUN_WORDS, {"a": source, "b": "p 135"}, 0, Parts(f"0 done q\n{back}{lines}", " 0 3\nc0 sent 0 taken 0\n", "c63 sent 0 taken 0\n"))
    calls = "program a; process p { procedure f(n) { if n > 0 { call f(n - 1); } } call f(255); } end."
    yield Run("the most open calls of a plain run", ["plain", "a", "b"], {"a": calls, "b": record(512)}, 0, "")
    sum_of = "program a; process p { var x; x := 1" + " + x" * 200_000 + "; } end."
    yield Run("the longest sum", ["check", "a"], {"a": sum_of}, 0, "accepted\n")
    turns = 126_000
    waits = f"program a; process p {{ var i; while i < {turns // 2} {{ i := i + 1; }} print i; }} end."
    yield Run("a long record", ["plain", "a", "b"], {"a": waits, "b": record(turns + 2)}, 0, Parts(begins=f"{turns + 2} out p {turns // 2}\n"))
    both = "program a; process p { while 1 { } } process q { while 1 { } } end."
    yield Run("the most turns of two", RUN_WORDS, {"a": both, "b": "all 400000\np 200000"}, 0, "end 1000000\np open 0\nq open 0\n")


def longest_pages():
    """A page of the most bytes, and one with a byte more, which is refused."""
    files = {"a": "c" * MOST, "b": EMPTY, "c": "p 1"}
    yield Run("a page of the most bytes", ["page", "a", "b", "c"], files, 0, Parts(begins="c" * MOST), "rblview")
    yield Run("a page of a byte more", ["page", "a", "b", "c"], {**files, "a": "c" * (MOST + 1)}, 1, "refused L0\n", "rblview")


def longest_images():
    """Bytes that are no image, as many as an image may have, and one more, which are not looked at; whether there is a schedule or not."""
    for schedule, files in (("a schedule", {"b": ""}), ("no schedule", {})):
        for length, fault in ((MOST_OF_IMAGE, "I1"), (MOST_OF_IMAGE + 1, "L0")):
            yield Run(f"{length:,} zeros as an image, and {schedule}", ["load", "a", "b"], {"a": bytes(length), **files}, 1, f"refused {fault}\n")


# All kinds of them.
KINDS = (limits, largest, longest_files, longest_pages, longest_images, conversations, listings, no_commands, cuts, trials, deepest)
