"""What the exercises of docs/lessons ask for: of each what the file is, what it is made from, and what is wanted of it.

Each want takes a student's work, and gives what differs, or nothing.
"""
import re
from collections import namedtuple

CLASSICS = "examples/classics/"
SORTED = "(every k from 0 to 3 : a[k] <= a[k + 1]) and (sum k from 0 to 4 : a[k]) = (sum k from 0 to 4 : prior a[k])"
MOVED = "process sensor {\n  send reading 18; send reading 40; send reading 41; send reading 41; send reading 42;\n}"

# `kind` is `program`, `schedule` or `history`; `start` is the lesson's file of that kind; `beside` is the lesson's program of a schedule,
# and a text that the program is run over where the exercise names one.
Exercise = namedtuple("Exercise", "kind start beside wants")


def has(pattern, meaning):
    """Some line of the run is so from its begin, or from behind the number of its turn."""
    return lambda work: None if re.search(rf"^(?:\d+ )?(?:{pattern})$", work.out, re.MULTILINE) else f"wanted is that {meaning}"


def lacks(pattern, meaning):
    """No line of the run is so."""
    def differs(work):
        found = re.search(rf"^.*(?:{pattern}).*$", work.out, re.MULTILINE)
        return f"wanted is that {meaning}, and there is `{found[0]}`" if found else None
    return differs


def refused(fault):
    """The program is refused for this fault."""
    def differs(work):
        told = work.out.split("\n")[0]
        return None if told.startswith(f"refused {fault} ") else f"wanted is that it is refused for {fault}, and there is `{told}`"
    return differs


def says(pattern, meaning):
    """The text itself, without its comments, has such a place."""
    return lambda work: None if re.search(pattern, work.code) else f"wanted is that {meaning}"


def bounds(work, many):
    """The first bounds of a program."""
    return [int(one) for one in re.findall(r"\bwithin\s+(\d+)", work.code)[:many]]


def with_bounds(work, many, bound):
    """The program with another number in its first bounds."""
    return re.sub(r"\bwithin\s+\d+", f"within {bound}", work.code, count=many)


def least_bound(pattern, meaning, many=1):
    """The first bounds are one number, with which the run has such a line, and with one less it has none."""
    def differs(work):
        if len(set(bounds(work, many))) != 1:
            return f"the bounds that are asked for are not one number: {bounds(work, many)}"
        bound = bounds(work, many)[0]
        if wrong := has(pattern, meaning)(work):
            return f"with the bound {bound} {wrong}"
        less = work.run(with_bounds(work, many, bound - 1))
        return f"{bound} is not the least bound: with {bound - 1} it is still so that {meaning}" if re.search(pattern, less) else None
    return differs


def cheats(work):
    """The first alternate passes the test of the lesson without sorting."""
    out = work.run(re.sub(r"\bensure\b.*?\bwithin\b", f"ensure {SORTED} within", work.code, count=1, flags=re.DOTALL))
    if re.search(r"reject sorter ensure \d+ 1 ", out):
        return "the test of the lesson refuses the first alternate: it has to pass that test without sorting"
    return "under the test of the lesson the first alternate sorts" if "sorter.a = 1 2 3 4 5\n" in out else None


def changed(old, new, pattern, meaning):
    """The run of the program with another text in one place has such a line."""
    def differs(work):
        if old not in work.code:
            return f"`{old}` is not there any more"
        out = work.run(work.code.replace(old, new, 1))
        return None if re.search(pattern, out) else f"with `{new}` in place of `{old}` wanted is that {meaning}"
    return differs


def asks_for_a_rise(work):
    """Where the price stays at 15, the outer test refuses the way by rail."""
    raised = work.code.replace("ensure", "price := 15; ensure", 1).replace("price := price + 12;", "price := price;")
    return None if "sender failed\n" in work.run(raised) else "where the price is 15 before and after, the outer test accepts it: it has not risen"


def one_point_more(work):
    """The history is that of the lesson with one point more."""
    lines, first = work.code.split("\n"), work.start_code.split("\n")
    without = [lines[:at] + lines[at + 1:] for at, line in enumerate(lines) if line.startswith("point ")]
    return None if first in without else "it is not the history of the lesson with one point more"


def two_right(work):
    """Of the three versions two are right at the end."""
    right = re.findall(r"^(?:newton|search|guess)\.x = 7$", work.out, re.MULTILINE)
    return None if len(right) >= 2 else "none of the versions that were wrong is right at the end"


def believes(work):
    """Over readings that move from 18 to 40 there are three doubts, and then the value moves."""
    out = work.run(re.sub(r"process sensor \{.*?\n\}", MOVED, work.code, count=1, flags=re.DOTALL))
    doubts = len(re.findall(r"reject control ensure \d+ 1 test", out))
    if doubts != 3:
        return f"over the readings 18, 40, 41, 41 and 42 there are {doubts} doubts, and not 3"
    return None if re.search(r"out control value 4\d ", out) else "after three doubts the value is still the old one"


def counts_tries(work):
    """One variable of the client is how many tries there were, and one is 1, since it was undone."""
    tries = len(re.findall(r"reject client", work.out)) + 1
    values = re.findall(r"^client\.\w+ = (-?\d+)$", work.out, re.MULTILINE)
    if tries == 1:
        return "no try is rejected, so there is nothing to count"
    missing = [number for number in (str(tries), "1") if number not in values]
    return f"there were {tries} tries, and no variable of the client is {' or '.join(missing)} at the end" if missing else None


def keeps(process):
    """One process, on its one line, is that of the lesson."""
    def differs(work):
        line = re.search(rf"^process {process} .*$", work.start_code, re.MULTILINE)[0]
        return None if line in work.code else f"the process {process} is not that of the lesson any more"
    return differs


def waits_for_ever(work):
    """`stuck` tells that the reader waits."""
    standing = work.standing()
    fits = standing.startswith("stuck\n") and "reader waits" in standing
    return None if fits else f"wanted is that the reader waits for ever, and `stuck` writes `{standing.split()[0]}`"


def program(name, *wants, over=""):
    """An exercise that asks for a program, over the schedule of the lesson if no other is named."""
    return Exercise("program", f"examples/{name}.rbl", over, wants)


def schedule(name, *wants):
    """An exercise that asks for a schedule of a program."""
    return Exercise("schedule", f"examples/{name}.schedule", f"examples/{name}.rbl", wants)


def failed(*names):
    """Each of these processes has failed."""
    return [has(f"{name} failed", f"{name} fails") for name in names]


def done(*names):
    """Each of these processes comes to its end."""
    return [has(f"done {name}", f"{name} comes to its end") for name in names]


EXERCISES = {
    "1a": program("classics/sorting", cheats, has(r"reject sorter ensure \d+ 1 test", "your test refuses the first alternate"),
                  has(r"sorter\.a = 1 2 3 4 5", "the numbers are sorted at the end")),
    "1b": program("classics/sorting", least_bound("done sorter", "the sorter comes to its end")),
    "2a": program("classics/nested", says(r"\A[^{]*\{[^{]*within 8\b", "the outer bound is 8"), lacks(" inner", "no cause is `inner`"),
                  has(r"reject sender ensure \d+ 1 overrun", "the first way is ended by its bound"), *done("sender")),
    "2b": program("classics/nested", changed("days := 1;", "days := 1; price := price + 1;", r"reject sender ensure \d+ 2 inner",
                                             "the inner test refuses another price"), asks_for_a_rise, *done("sender")),
    "3a": Exercise("history", CLASSICS + "domino.history", "", [one_point_more, has("line r now", "r keeps everything")]),
    "3b": program("classics/domino_tamed", *failed("p", "q"), *done("r")),
    "4a": program("classics/figures", has(r"reject Inner 2 by \w+ \w+", "Inner fails in its second alternate"),
                  has(r"reject Outer 1 by \w+ inner", "Outer goes back with the cause `inner`"), has("pass Outer 2", "Outer passes in the end")),
    "4b": program("classics/figures", refused("N3")),
    "5a": program("classics/late", *failed("ann", "bob"), has("error eve broken", "eve finds the meeting broken")),
    "5b": program("classics/late", has(r"eve\.errands = 10", "eve has ten errands"), least_bound(r"pass Meeting \d", "all three meet", many=2)),
    "6a": program("classics/deadline", has("out tracker steps 16 about 128", "16 steps are estimated"),
                  least_bound("out tracker steps 8 exact 36", "8 steps are exact")),
    "6b": program("classics/deadline", says(r"within 80\b", "there is a bound of 80"), says(r"within 30\b", "each round has its bound of 30"),
                  has(r"reject tracker ensure \d+ 1 overrun", "a bound is passed"), lacks("out tracker steps", "no line of a round comes out")),
    "7a": program("classics/deserter", has("reject Check 1 by chief overrun", "the chief's bound is passed"), *failed("chief"),
                  lacks("by clerk|done clerk|clerk failed", "the clerk never enters")),
    "7b": program("classics/deserter", has("reject Check 1 by clerk overrun", "the clerk's bound is passed"),
                  has("pass Check 2", "the second alternate passes"), says(r"(?s)within 100\b.*within 12\b", "the bounds are 100 and 12")),
    "8a": program("classics/voting", has(r"newton\.x = 5", "newton answers 5, as guess does"),
                  has("reject Vote 1 by judge test", "the judge refuses the vote"), has(r"judge\.root = 7", "the judge finds the root in the end")),
    "8b": program("classics/voting", has("reject Vote 1 by judge test", "the first vote is refused"),
                  has("pass Vote 2", "the second alternate passes"), two_right),
    "9a": program("classics/transfer", refused("N10")),
    "9b": program("classics/transfer", has("reject Transfer 1 by left fail", "left fails in the first alternate"),
                  has("pass Transfer 2", "the second one passes"), has(r"left\.balance = 40", "left has 40"),
                  has(r"right\.balance = 60", "right has 60")),
    "10a": program("classics/producer", says(r"channel box [^;]*size [12];", "the channel is no larger"),
                   *done("maker", "eater"), has("box sent 3 taken 3", "three boxes are sent and taken"), over="maker 60\nall 600\n"),
    "10b": program("classics/waiting", has("out ada .*", "ada eats"), has("out ben .*", "ben eats"), *done("ada", "ben")),
    "11a": program("classics/control", believes),
    "11b": program("classics/control", has(r"reject control ensure \d+ 1 overrun", "a reading does not come in time"), *done("control")),
    "12a": program("classics/retry", has(r"reject client ensure \d+ 1 test", "the first try is refused"),
                   has(r"reject client ensure \d+ 2 test", "the second try is refused"),
                   says(r"(?s)\A(?!.*receive\s+answer\s+\w+\s+else)", "each try waits for an answer, without `else` behind its `receive`")),
    "12b": program("classics/retry", counts_tries),
    "13a": schedule("step4", *failed("buyer", "shop")),
    "13b": schedule("classics/retry", *failed("client")),
    "13c": schedule("classics/transfer", waits_for_ever),
    "14a": program("step1", *failed("p"), has(r"reject p ensure \d+ 1 overrun", "the bound of the first alternate is passed"),
                   lacks(" test", "no alternate comes to its test")),
    "14b": program("step1", least_bound("done p", "the second alternate is accepted")),
    "15a": program("step3", has("out q got 10", "q gets 10"), lacks("reject", "nothing is rejected")),
    "15b": schedule("step3", *done("p", "q"), has("end 10", "the schedule has ten turns")),
    "16a": program("step4", has("pass Deal 1", "the first alternate passes"), has(r"buyer\.rest = 60", "the buyer has 60 left")),
    "16b": program("step4", *failed("buyer", "shop"), lacks("reject Deal 2", "there is no second alternate")),
    "17a": program("step7", has("out p .*", "p prints"), has("out q .*", "q prints"), *done("p", "q")),
    "17b": program("step7", keeps("q"), has(r"reject p ensure \d+ \d+ overrun", "the bound ends the wait of p"), *done("p", "q")),
}
