"""The worst texts that the limits let through: sources, schedules, sessions and histories of a mebibyte, and runs of a million turns."""
from .shared import MOST


def fill(before, piece, after, most=MOST):
    """As many pieces between two texts as fit; a piece may be made of its number."""
    made, size, n = [], len(before) + len(after), 0
    while True:
        one = piece(n) if callable(piece) else piece
        if size + len(one) > most:
            return before + "".join(made) + after
        made.append(one)
        size += len(one)
        n += 1


def sources():
    """Sources of a mebibyte, with the edition and the status of `check`."""
    process = "program h; process p { var x; "
    deep = "(" * 99
    yield "one sum of 500,000 operators", 1, 0, fill(process + "x := 1", "+1", "; } end.")
    yield "one chain of 260,000 signs", 1, 1, fill(process + "x := ", "- ", "1; } end.")
    yield "brackets as deep as they may be, again and again", 1, 0, fill(process, "x := " + deep + "1" + ")" * 99 + ";", "} end.")
    yield "one bracket too many, at the end", 1, 1, fill(process, "x := 1;", "x := " + "(" * 101 + "1" + ")" * 101 + "; } end.")
    yield "brackets that nobody closes", 1, 1, fill(process + "x := ", "(", "")
    yield "150,000 uses of a name", 1, 0, fill(process, "x:=x;", "} end.")
    yield "names of 64 letters", 1, 1, fill("program h; process p { ", lambda n: f"var {'n' * 57}{n:07};", "} end.")
    yield "80,000 declarations of short names", 1, 1, fill("program h; process p { ", lambda n: f"var v{n};", "} end.")
    yield "80,000 names that nobody declares", 1, 1, fill(process, lambda n: f"x:=v{n};", "} end.")
    yield "80,000 processes", 1, 1, fill("program h; ", lambda n: f"process p{n} {{}}", "end.")
    yield "30,000 channels", 1, 1, fill("program h; ", lambda n: f"channel c{n} from p to q size 1;", "process p {} process q {} end.")
    yield "30,000 procedures", 1, 0, fill("program h; process p { ", lambda n: f"procedure f{n}() {{}}", "} end.")
    yield "procedures that call the one before", 1, 0, fill("program h; process p { procedure f0() {} ", lambda n: f"procedure f{n + 1}() {{ call f{n}(); }}", "} end.")
    yield "texts of 256 bytes", 1, 0, fill(process, "print \"" + "t" * 256 + "\";", "} end.")
    yield "recovery blocks side by side", 1, 0, fill(process, "ensure 1 within 9 by {} else error;", "} end.")
    yield "one recovery block of 80,000 alternates", 1, 0, fill(process + "ensure 0 within 9 by {}", "else by {}", "else error; } end.")
    yield "loops inside each other, as deep as brackets let them", 1, 0, fill(process, "while 0 {" * 97 + "}" * 97, "} end.")
    yield "blanks", 1, 0, fill("program h; process p {", " ", "} end.")
    yield "a comment", 1, 0, fill("program h; process p {} end. #", "c", "")
    yield "lines without anything", 1, 0, fill("program h; process p {", "\n", "} end.")
    yield "digits of one number", 1, 1, fill(process + "x := ", "9", "; } end.")
    yield "zeros before a number", 1, 0, fill(process + "x := ", "0", "1; } end.")
    yield "quantified expressions of edition 2", 2, 0, fill("edition 2; program h; process p { var x; ", "x := sum i from 0 to 9 : i;", "} end.")


def runs():
    """Runs over long schedules: the words, the texts, the edition and the status."""
    ring = "".join(f"channel c{n} from p{n} to p{(n + 1) % 64} size 1;" for n in range(64))
    waiting = "".join(f"process p{n} {{ var x; receive c{(n + 63) % 64} x; }}" for n in range(64))
    done = "".join(f"process p{n} {{}}" for n in range(64))
    all_wait = f"edition 2; program w; {ring} {waiting} end."
    all_done = f"edition 2; program d; {done} end."
    nested = "ensure 0 within 99 by {" * 31 + "fail;" + "} else error;" * 31
    rejections = "program r; process p { var x; while 1 { x := 0; ensure x within 9 by { } else by { x := 1; } else error; } } end."
    cascade = f"program c; process p {{ {nested} }} end."
    words = "program m; " + "".join(f"process p{n} {{ var a[1024]; var b[1023]; while 1 {{ a[0] := a[0] + 1; }} }}" for n in range(32)) + " end."
    turns = f"all {1_000_000 // 64}\n"
    yield "a million turns of 64 processes that wait", "run", all_wait, turns, 2, 0
    yield "a million turns of 64 processes that are done", "run", all_done, turns, 2, 0
    yield "a million turns, of which one in eight rejects", "run", rejections, "p 1000000\n", 1, 0
    yield "a cascade of 31 levels, and then nothing", "run", cascade, "p 1000000\n", 1, 0
    yield "a million turns of 32 processes with all words", "run", words, f"all {1_000_000 // 32}\n", 1, 0
    yield "the same, and which survived", "survive", words, f"all {1_000_000 // 32}\n", 1, 0
    yield "a schedule of blanks", "run", all_done, fill("", " ", ""), 2, 0
    yield "a schedule of empty lines", "run", all_done, fill("", "\n", ""), 2, 0
    yield "a schedule of 149,000 lines", "run", all_done, fill("", "p63 6\n", "", 149_000 * 6), 2, 0
    yield "a schedule of comments", "run", all_done, fill("", "# all 9\n", ""), 2, 0
    yield "a count of a mebibyte of digits", "run", all_done, fill("p0 ", "9", ""), 2, 1
    yield "a name of a mebibyte", "run", all_done, fill("", "p", " 1"), 2, 1
    yield "who waits, of 64", "stuck", all_wait, turns, 2, 0
    yield "a record of a mebibyte", "plain", rejections, fill("", lambda n: f"{n + 1} p\n", ""), 1, 1


def sessions():
    """Sessions of a mebibyte, over a million turns."""
    rejections = "program r; process p { var x; while 1 { x := 0; ensure x within 9 by { } else by { x := 1; } else error; } } end."
    there_and_back = fill("", "step 1000000\nback 1000000\n", "show p\n")
    yield "a million turns forth and back, and the beginning shown", rejections, "p 1000000\n", there_and_back, 0
    yield "a million turns forth and back, with all shown at the end", rejections, "p 1000000\n", "step 1000000\nshow p\nback 1000000\nshow p\n", 0
    yield "one place again and again", rejections, "p 1000000\n", fill("step 9\n", "show p\n", ""), 0
    yield "comments", rejections, "p 1000000\n", fill("", "# show p\n", ""), 0


def histories():
    """Histories of a mebibyte."""
    yield "each drop breaks the next message", 0, fill("process p\nprocess q\n", lambda n: f"point p\nsend a{n} p q\ntake a{n}\npoint q\nsend b{n} q p\ntake b{n}\n", "send z p q\ntake z\nfail p\n")
    yield "one process takes from all", 0, fill("process p\n", lambda n: f"process q{n}\nsend m{n} q{n} p\ntake m{n}\npoint p\nsend r{n} p q{n}\ntake r{n}\npoint q{n}\n", "fail p\n")
    yield "recovery points alone", 0, fill("process p\n", "point p\n", "fail p\n")
    yield "messages that nobody takes", 0, fill("process p\n", lambda n: f"send m{n} p p\n", "fail p\n")
    yield "one name again and again", 1, fill("process p\n", "process p\n", "")


def cases():
    """Each case: its name, its words, its texts, its edition and its status."""
    for name, edition, status, text in sources():
        for command in ["check", "code"] if status == 0 else ["check"]:
            yield f"{command}: {name}", [command, "a"], {"a": text}, edition, status
    for name, command, source, second, edition, status in runs():
        yield f"{command}: {name}", [command, "a", "b"], {"a": source, "b": second}, edition, status
    for name, source, schedule, text, status in sessions():
        yield f"session: {name}", ["session", "a", "b", "c"], {"a": source, "b": schedule, "c": text}, 1, status
    for name, status, text in histories():
        yield f"domino: {name}", ["domino", "a"], {"a": text}, 1, status
    yield "trial: the largest number", ["trial", "18446744073709551615"], {}, 1, 0
