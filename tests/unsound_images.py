"""Images that are not sound, one for each clause of each rule of sound code, and odd ones that are.

A case of code is one text with places `{good|bad}`: with all the good ones it is sound, with all the bad ones it isn't. A case of the lists is
a change of one value of a sound image.
"""
import re

from .image_bytes import assemble

# Processes of four words, a channel from p to q and one back, and labels: `q` is where q begins, `s` where a third process does, `fNAME` a
# procedure of p, and for block N `rN` its restart, `tN` its test, `aN..` its alternates.
ENDING = "; q: done"


def variable(name, at, size=None):
    return {"name": name, "at": at, "size": size}


def block(labels, number, conversation):
    alternates = sorted(label for label in labels if re.fullmatch(rf"a{number}\D?", label))
    return {"line": 1, "conversation": conversation, "bound": 9, "restart": labels[f"r{number}"], "test": labels[f"t{number}"],
            "alternates": [labels[label] for label in alternates]}


def build(source, edition=2, conversations=(), groups=()):
    """The image of a text; block number N is one of `conversations[N]`."""
    instrs, labels = assemble(source if "q:" in source else source + ENDING)
    procedures = [{"name": label.encode(), "start": at} for label, at in labels.items() if label[0] == "f"]
    count = sum(re.fullmatch(r"r\d+", label) is not None for label in labels)
    joined = list(conversations) + [None] * count
    others = [label for label in "qs" if label in labels]
    return {
        "edition": edition, "instrs": instrs,
        "processes": [{"start": 0, "words": 4, "channels": [0, 1], "procedures": procedures},
                      *[{"start": labels[label], "words": 4, "channels": [0, 1] if label == "q" else [], "procedures": []} for label in others]],
        "blocks": [block(labels, number, joined[number]) for number in range(count)],
        "channels": [{"sender": 0, "receiver": 1, "size": 1}, {"sender": 1, "receiver": 0, "size": 1}],
        "texts": [b"t"],
        "names": [{"name": b"p", "variables": [variable(b"x", 0), variable(b"y", 1, 3)]}, *[{"name": label.encode(), "variables": []} for label in others]],
        "channel_names": [b"c", b"d"], "conversation_names": [b"k%d" % n for n in range(len(groups))],
        "groups": [{"members": [0, 1], "parent": parent, "alternates": alternates} for parent, alternates in groups],
    }


def choose(source, place):
    return re.sub(r"\{([^|}]*)\|([^}]*)\}", lambda found: found[1 + place], source)


OPERANDS = """turn; {push 1|}; store g0; done
turn; push 1; {push 1|}; add; drop 0; jumpzero end; end: done
turn; {push 1|}; jumpzero end; end: done
turn; {push 1|}; item; print; done
turn; room 0; {push 1|}; put 0; done
turn; {push 1|}; bound 4; jumpzero end; end: done
turn; {push 1|}; neg; jumpzero end; end: done
turn; {push 1|}; not; jumpzero end; end: done
turn; {push 1|}; bool; jumpzero end; end: done
turn; {push 1|}; push 1; eq; jumpzero end; end: done
turn; {push 1; bound 4|}; loadat g0; jumpzero end; end: done
turn; push 1; bound 4; {push 1|}; storeat g0; done
turn; push 1; {push 1|}; range 0 end; again 0 4; end: done
turn; enter 0; r0: turn; start 0; a0: t0: turn; {push 1|}; test 0; done
turn; {|push 1}; done
turn; {|text 0}; done
turn; {|push 1}; turn; done
turn; {|text 0}; turn; done
turn; push 1; push 1; range 0 end; L: {|turn}; again 0 L; end: done
turn; call f 0 0; done; f: {|push 1}; return
turn; call f 0 0; done; f: {|text 0}; return
turn; call f 0 0; done; f: turn; enter 0; r0: turn; start 0; a0: t0: turn; push 1; {test 0|jumpzero n; n:}; return; {|test 0}
turn; push 1; {|push 1}; call f 1 0; done; f: return
turn; {|text 0}; call f 0 0; done; f: return
turn; push 1; push 1; range 0 end; L: {jump n|call f 0 0}; n: again 0 L; end: done; x: turn; call f 0 0; done; f: return
turn; enter 0; r0: turn; start 0; a0: t0: turn; {|push 1}; push 1; test 0; done
turn; enter 0; r0: turn; start 0; a0: t0: turn; {|text 0}; push 1; test 0; done
turn; enter 0; r0: turn; start 0; a0: t0: turn; push 1; {|push 1; push 1; range 0 end; L:}; test 0; {|again 0 L}; end: done
turn; push 1; jumpzero b; {|push 1}; b: done
turn; push 1; jumpzero b; frame {0|1}; b: done
turn; push 1; jumpzero b; {|text 0}; b: done
turn; push 1; jumpzero b; turn; enter 0; r0: turn; start 0; a0: {|b:} t0: turn; push 1; test 0; {b:|} done""".split("\n")

BODIES = """turn; call {f|n} 0 0; n: done; f: return
turn; call f 0 {1|2}; turn; call f 0 1; done; f: return
turn; push 1; call f {1 0|0 1}; done; f: return
turn; call f 0 0; {done|turn}; f: return
turn; call f 0 0; turn; call f2 0 0; done; f: {return|jump f2}; f2: return
turn; {done|jump q}; q: done
turn; {done|return}
turn; call f 0 0; done; f: {return|done}
turn; {done|fail}
turn; call f 0 0; {|push 1; neg; store g0}; done; f: return
turn; call f 0 0; done; f: {turn|}; push 1; neg; drop 0; jumpzero b; b: return
turn; fail; {|store g0}; done
turn; frame 1; turn; jump {n|0}; n: done
turn; push 1; jumpzero {3|2}; jump end; end: done
turn; done; q: turn; jump {q|0}""".split("\n")

MODES = """turn; {|push 1; jumpzero n; n:}; room 0; push 1; put 0; done
turn; {room 0|}; push 1; put 0; done
turn; room {0|0; turn}; push 1; put 0; done
turn; room 0; push 1; put {0|1}; done
turn; there 1; take {1|0}; store g0; done
turn; {there 1|}; take 1; store g0; done
turn; {|fail; jump n; n:}; there 1; take 1; store g0; done
turn; {|push 1; jumpzero n; n:}; absent 1 n; take 1; store g0; n: done
turn; absent 1 {A|n}; n: take 1; store g0; A: done
turn; {|jump n; n:}; enter 0; r0: turn; start 0; a0: t0: turn; push 1; test 0; done
turn; enter 0; r0: turn; {|jump n; n:}; start 0; a0: t0: turn; push 1; test 0; done
turn; room 0; push 1; {|store g0; push 1}; put 0; done
turn; {there 1|room 0}; take 1; store g0; done
turn; room {0|1}; done
turn; there {1|0}; done
turn; absent {1|0} n; n: done
turn; call f 0 0; done; f: turn; {|room 0}; return
turn; call f 0 0; done; f: turn; {|there 1}; return
turn; call f 0 0; done; f: turn; {|absent 1 n; n:}; return""".split("\n")

LOOPS = """turn; push 1; push 1; range 0 end; L: counter {0|1}; store g0; again 0 L; end: done
turn; push 1; push 1; range 0 end; L: again {0|1} L; end: done
turn; push 1; push 1; range 0 end; L: again 0 L; {|counter 0; store g0}; end: done
turn; push 1; push 1; range 0 A; L: again 0 L; turn; A: {|counter 0; store g0}; done
turn; push 1; push 1; range 0 end; L: push 1; push 1; range {1|0} b; M: again {1|0} M; b: again 0 L; end: done
turn; push 1; push 1; range 0 end; {L:|}; jump M; {M:|L: M:}; again 0 L; end: done
turn; push 1; push 1; range 0 end; L: again 0 L; {|again 0 L}; end: done
turn; push 1; push 1; range 0 end; L: {|jump n}; n: again 0 {L|n}; end: done
turn; push 1; push 1; range 0 end; L: {again 0 L|drop 0}; end: done
turn; push 1; push 1; range 0 end; L: again 0 {L|end}; end: done
turn; push 1; jumpzero {a|M}; a: push 1; push 1; range 0 end; L: jump M; M: again 0 L; end: done
turn; push 1; push 1; range 0 end; L: {|enter 0; r0: turn; start 0; a0: t0: turn; push 1; test 0}; again 0 L; end: done; {turn; enter 0; r0: turn; start 0; a0: t0: turn; push 1; test 0; done|}
turn; push 1; push 1; range 0 {end|3}; L: again 0 L; end: done
turn; {push 1; push 1; range 0 end; L:|jump L; L:} again 0 L; end: done
turn; push 1; push 1; range {0|2} end; L: again 0 L; end: done
turn; push 1; push 1; range 0 end; L: push 1; push 1; range 1 b; M: {|push 1; push 1; range 0 c; N: again 0 N; c:} again 1 M; b: again 0 L; end: done""".split("\n")

TRAPS = [f"turn; push 1; push 1; {{|drop 0}}; {word}; jumpzero end; end: done" for word in ("add", "sub", "mul", "div", "rem")]
TRAPS += """turn; push 1; {|drop 0}; neg; jumpzero end; end: done
turn; push 1; {|drop 0}; bound 4; jumpzero end; end: done
turn; {|drop 0}; text 0; print; done
turn; {|drop 0}; call f 0 0; done; f: return
turn; {|drop 0}; fail; done
turn; push 1; push 1; {|drop 0}; range 0 end; L: again 0 L; end: done
turn; enter 0; r0: turn; start 0; a0: t0: turn; {|drop 0}; push 1; test 0; done
turn; {|drop 0}; frame 1; done
turn; push 1; {|frame 0}; neg; jumpzero end; end: done
turn; push 1; {|push 1; store g0}; neg; jumpzero end; end: done
turn; push 1; {|push 1; bound 4; push 1; storeat g0}; neg; jumpzero end; end: done
turn; push 1; {|print}; neg; jumpzero end; end: done
turn; room 0; push 1; {|put 0; push 1}; neg; jumpzero end; end: done
turn; there 1; {|take 1; store g0}; push 1; neg; jumpzero end; end: done
{turn|}; push 1; neg; jumpzero end; end: done
turn; enter 0; r0: {turn; start 0; a0: t0: turn; push 1|turn; start 0; t0: turn; a0: push 1}; test 0; done
turn; enter 0; r0: turn; start 0; a0: {|push 1; neg; jumpzero n; n:}; t0: turn; push 1; test 0; done
turn; enter 0; r0: turn; start 0; a0: frame 0; t0: turn; push 1; test 0; {|push 1; neg; store g0}; done""".split("\n")

PLACES = """turn; load g{3|4}; store g0; done
turn; push 1; store g{3|4}; done
turn; frame 2; turn; load l{1|2}; store g0; done
turn; frame 2; push 1; store l{1|2}; done
turn; push 1; {bound 4|}; loadat g0; store g0; done
turn; push 1; bound {3|4}; loadat g1; store g0; done
turn; push 1; bound 3; loadat {g1|g2}; store g0; done
turn; push 1; bound {2|3}; push 1; storeat g2; done
turn; push 1; {bound 2|}; push 1; storeat g2; done
turn; push 1; jumpzero n; push 1; bound 4; jump m; n: push 1; bound {4|5}; m: loadat g0; store g0; done
turn; enter 0; r0: turn; start 0; a0: t0: turn; prior g{3|4}; test 0; done
turn; enter 0; r0: turn; start 0; a0: t0: turn; push 1; bound {4|5}; priorat g0; test 0; done
turn; enter 0; r0: turn; start 0; a0: t0: turn; push 1; {bound 4|}; priorat g0; test 0; done
turn; frame 1; turn; enter 0; r0: turn; start 0; a0: t0: turn; prior l{0|1}; test 0; done
turn; frame 1; turn; enter 0; r0: turn; start 0; a0: frame 1; turn; prior l{0|1}; store g0; drop 1; t0: turn; push 1; test 0; done
turn; {load|prior} g0; store g0; done
turn; push 1; bound 4; {loadat|priorat} g0; store g0; done
turn; frame 2; drop {2|3}; done
turn; frame 1; turn; enter 0; r0: turn; start 0; a0: drop {0|1}; turn; frame {0|1}; t0: turn; push 1; test 0; done""".split("\n")

BLOCKS = """turn; enter 0; {r0:|} turn; {|r0:} turn; start 0; a0: t0: turn; push 1; test 0; done
turn; enter 0; r0: {turn|drop 0}; turn; start 0; a0: t0: turn; push 1; test 0; done
turn; enter 0; r0: turn; {|frame 1; turn}; start 0; a0: {|drop 1}; t0: turn; push 1; test 0; done
turn; enter 0; r0: turn; start 0; a0: frame 1; {drop 1|}; t0: turn; push 1; test 0; done
turn; {enter 0|jump r0}; r0: turn; start 0; a0: t0: turn; push 1; test 0; done; {|enter 0}
turn; {enter 0; r0: turn; start 0|r0:}; a0: t0: turn; push 1; test 0; done; {|enter 0; start 0}
turn; enter 0; r0: turn; start 0; a0: turn; enter 1; r1: turn; start 1; a1: t1: turn; push 1; test {1|0}; t0: turn; push 1; test {0|1}; done
turn; enter 0; r0: turn; start {0|1}; a0: turn; enter 1; r1: turn; start {1|0}; a1: t1: turn; push 1; test 1; t0: turn; push 1; test 0; done
turn; enter 0; r0: turn; start 0; a0: t0: turn; push 1; test 0; done; {|enter 0}
turn; enter 0; r0: turn; start 0; a0: t0: turn; push 1; test 0; done; {|start 0}
turn; enter 0; r0: turn; start 0; a0: t0: turn; push 1; test 0; done; {|test 0}
turn; enter 0; r0: turn; {start 0|}; a0: t0: turn; push 1; test 0; done
turn; enter 0; r0: turn; start 0; a0: a0b: t0: turn; push 1; test 0; {|a0c: turn}; done
turn; push 1; jumpzero {x|m}; turn; enter 0; r0: turn; m: start 0; a0: t0: turn; push 1; test 0; x: done
turn; enter 0; r0: turn; start 0; a0: t0: turn; push 1; {test 0|jumpzero n; n:}; done; {|test 0}""".split("\n")

LINES = """turn; {16|17} * text 0; print; done
turn; {16|17} * push 1; {16|17} * item; print; done
L: {turn|}; jump {L|L}
turn; {L: turn|L: drop 0}; push 1; jumpzero L; done
turn; absent 1 {0|1}; take 1; store g0; done
turn; {512|513} * push 1; {511|512} * eq; jumpzero end; end: done""".split("\n")


def code_cases():
    for rule, sources in (("operands", OPERANDS), ("bodies", BODIES), ("modes", MODES), ("loops", LOOPS), ("traps", TRAPS), ("places", PLACES),
                          ("blocks", BLOCKS), ("lines", LINES)):
        for source in sources:
            yield f"{rule}: {source}", build(choose(source, 0)), build(choose(source, 1))
