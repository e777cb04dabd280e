"""Images whose lists are not those of sound code, one for each clause, and odd images that are sound."""
import copy

from .unsound_images import build, variable

ENTERED = "{1}turn; enter {0}; r{0}: turn; start {0}; a{0}: {2}t{0}: turn; push 1; test {0}; "


def entered(number, inside="", before=""):
    """A block, and what stands in its alternate."""
    return ENTERED.format(number, before, inside)


def conversing(parents, nested=False):
    """p and q both enter a block of each conversation, one after another or inside each other."""
    count = len(parents)
    bodies = []
    for first in (0, count):
        body = ""
        for number in reversed(range(first, first + count)):
            body = entered(number, body) if nested else entered(number) + body
        bodies.append(body)
    numbers = list(range(count)) * 2
    return build(f"{bodies[0]}done; q: {bodies[1]}done", conversations=numbers, groups=[(parent, 1) for parent in parents])


def crowd(count, edition):
    """So many processes that are done."""
    image = build("done", edition)
    image["instrs"] = [("done",)] * count
    image["processes"] = [{"start": at, "words": 4, "channels": [0, 1] if at < 2 else [], "procedures": []} for at in range(count)]
    image["names"] = [{"name": b"p%d" % at, "variables": []} for at in range(count)]
    return image


def connected(count):
    """So many channels from p to q."""
    image = build("turn; done")
    image["channels"] = [{"sender": 0, "receiver": 1, "size": 1}] * count
    image["channel_names"] = [b"c%d" % number for number in range(count)]
    for process in image["processes"]:
        process["channels"] = list(range(count))
    return image


def changed(image, path, value):
    """The image with another value at a place, told as `list.number.field`; a value `DROP` takes the item away."""
    image = copy.deepcopy(image)
    *before, last = [int(part) if part.isdigit() else part for part in path.split(".")]
    spot = image
    for part in before:
        spot = spot[part]
    if value is DROP:
        del spot[last]
    else:
        spot[last] = value
    return image


DROP = object()
PLAIN = build("turn; call f 0 0; turn; text 0; print; done; f: return")
BLOCK = build(entered(0) + "done")
PAIR = conversing([None])
SIBLINGS = conversing([None, None])
INNER = conversing([None, 0], nested=True)
BAD_NAMES = [b"", b"1x", b"x-y", b"x y", b"x\xe4", b"x" * 65, b"while", b"every", b"sum"]

CHANGES = {
    "processes": (PLAIN, [
        ("processes.0.words", 4097), ("processes.0.start", 7), ("processes.1.start", 0), ("processes.0.procedures.0.start", 8),
        ("processes.0.procedures", []), ("processes.0.channels", [0]), ("processes.0.channels", [1, 0]), ("processes.0.channels", [0, 1, 1]),
        ("processes.0.channels", [0, 1, 2]), ("processes.1.channels", [])]),
    "channels": (PLAIN, [
        ("channels.0.sender", 1), ("channels.0.sender", 2), ("channels.1.receiver", 2), ("channels.0.size", 0), ("channels.0.size", 65_537)]),
    "names": (PLAIN, [("names.1", DROP), ("channel_names.1", DROP), ("conversation_names", [b"k"]), ("names.1.name", b"p"),
                      ("channel_names.0", b"q"), ("channel_names.1", b"c")]
              + [(place, name) for name in BAD_NAMES for place in ("names.0.name", "names.0.variables.0.name", "channel_names.0",
                                                                  "processes.0.procedures.0.name")]),
    "variables": (PLAIN, [("names.0.variables.0.at", 4), ("names.0.variables.1.at", 2), ("names.0.variables.1.size", 4),
                          ("names.1.variables", [variable(b"x", 4294967295, 1)])]),
    "texts": (PLAIN, [("texts.0", b"\""), ("texts.0", b"\x1f"), ("texts.0", b"\x7f"), ("texts.0", b"x" * 257)]),
    "numbers": (PLAIN, [("instrs.3", ("text", 1)), ("instrs.3", ("jump", 8)), ("instrs.5", ("jumpzero", 8))]),
    "unreached": (build("turn; done; jump 1; jumpzero 1; text 0; room 0; put 0; there 0; take 0; absent 0 1; call 1 0 0; range 0 1; again 0 1; counter 0"), [
        ("instrs.2", ("jump", 15)), ("instrs.3", ("jumpzero", 15)), ("instrs.4", ("text", 1)), ("instrs.5", ("room", 2)), ("instrs.6", ("put", 2)),
        ("instrs.7", ("there", 2)), ("instrs.8", ("take", 2)), ("instrs.9", ("absent", 2, 1)), ("instrs.9", ("absent", 0, 15)),
        ("instrs.10", ("call", 15, 0, 0)), ("instrs.11", ("range", 2, 1)), ("instrs.11", ("range", 0, 15)), ("instrs.12", ("again", 2, 1)),
        ("instrs.12", ("again", 0, 15)), ("instrs.13", ("counter", 2)), ("instrs.13", ("enter", 0)), ("instrs.13", ("start", 0)),
        ("instrs.13", ("test", 0))]),
    "blocks": (BLOCK, [
        ("blocks.0.bound", 0), ("blocks.0.bound", 1_000_001), ("blocks.0.alternates", []), ("blocks.0.restart", 9), ("blocks.0.restart", 3),
        ("blocks.0.test", 9), ("blocks.0.alternates.0", 9), ("blocks.0.conversation", 0), ("instrs.1", ("enter", 1)), ("instrs.3", ("start", 1)),
        ("instrs.6", ("test", 1))]),
    "conversations": (PAIR, [
        ("groups.0.members", [0]), ("groups.0.members", [0, 0]), ("groups.0.members", [0, 2]), ("groups.0.members", []),
        ("groups.0.parent", 0), ("groups.0.parent", 1), ("groups.0.alternates", 2), ("groups.0.alternates", 0), ("groups", []),
        ("blocks.1.conversation", None), ("conversation_names.0", b"p"), ("conversation_names.0", b"c"), ("conversation_names.0", b"end"),
        ("blocks.0.alternates", [4, 4])]),
    "one after another": (SIBLINGS, [("groups.1.parent", 0), ("blocks.1.conversation", 0), ("conversation_names.1", b"k0")]),
    "inside each other": (INNER, [("groups.1.parent", None), ("blocks.0.conversation", None), ("blocks.0.conversation", 1), ("groups.0.members", [1])]),
}


def third_member():
    """Three processes, of which two converse; and the same where the third one does too, and is no member."""
    image = build(f"{entered(0)}done; q: {entered(1)}done; s: {entered(2)}done", conversations=[0, 0, None], groups=[(None, 1)])
    return image


def apart():
    """A conversation inside one that lacks a member of it."""
    body = lambda n: entered(n, entered(n + 1))
    image = build(f"{body(0)}done; q: {body(2)}done; s: {entered(4)}done", conversations=[0, 1, 0, 1, 0], groups=[(None, 1), (0, 1)])
    image["groups"][0]["members"] = [0, 1, 2]
    return image


def list_cases():
    """Each case: its name, a sound image, and one that isn't."""
    for name, (image, changes) in CHANGES.items():
        for path, value in changes:
            yield f"{name}: {path} = {'gone' if value is DROP else value}"[:90], image, changed(image, path, value)
    yield "33 processes of edition 1", crowd(32, 1), crowd(33, 1)
    yield "65 processes of edition 2", crowd(64, 2), crowd(65, 2)
    yield "33 processes, and edition 1 in place of 2", crowd(33, 2), changed(crowd(33, 2), "edition", 1)
    yield "2,049 words of edition 1", changed(crowd(2, 1), "processes.0.words", 2048), changed(crowd(2, 1), "processes.0.words", 2049)
    wide = changed(changed(PLAIN, "processes.0.words", 2000), "names.0.variables.1.size", 1024)
    yield "an array of 1,025", wide, changed(wide, "names.0.variables.1.size", 1025)
    yield "65 channels", connected(64), connected(65)
    yield "65 conversations", conversing([None] * 64), conversing([None] * 65)
    chain = lambda count: conversing([None, *range(count - 1)], nested=True)
    yield "a chain of nine", chain(8), chain(9)
    yield "a block of a conversation of others", third_member(), changed(third_member(), "blocks.2.conversation", 0)
    yield "a member that the parent lacks", apart(), changed(apart(), "groups.0.members", [0, 2])
    twice = build(f"{entered(0)}{entered(1)}done; q: {entered(2)}done", conversations=[0, None, 0], groups=[(None, 1)])
    yield "a member with two blocks", twice, changed(twice, "blocks.1.conversation", 0)
    called = build(f"{entered(0)}turn; call f 0 0; done; f: {entered(1)}return; q: {entered(2)}done", conversations=[0, None, 0], groups=[(None, 1)])
    yield "a block of a conversation in a procedure", called, changed(called, "blocks.1.conversation", 0)
    others = build("turn; call f 0 0; done; f: return; q: done")
    yield "a procedure of another process", others, changed(changed(others, "processes.1.procedures", others["processes"][0]["procedures"]),
                                                            "processes.0.procedures", [])


def empty():
    return {"edition": 1, "instrs": [], "processes": [], "blocks": [], "channels": [], "texts": [], "names": [], "channel_names": [],
            "conversation_names": [], "groups": []}


def odd_cases():
    """Sound images that one might take for others."""
    yield "no process", empty()
    yield "a procedure that nobody calls, and that is none", build("turn; done; f: add; drop 9; return; jump f")
    yield "counters in edition 1", build("turn; push 1; push 3; range 0 end; L: counter 0; store g0; again 0 L; end: done", 1)
    yield "`absent` in edition 1", build("turn; absent 1 n; take 1; store g0; n: done", 1)
    yield "a name that the second edition reserves", changed(build("done", 1), "names.0.name", b"every")
    yield "two variables of one name", changed(PLAIN, "names.0.variables.1.name", b"x")
    yield "a variable named as its process", changed(PLAIN, "names.0.variables.1.name", b"p")
    yield "two procedures of one name at one address", changed(PLAIN, "processes.0.procedures", [{"name": b"f", "start": 6}] * 2)
    yield "an array of nothing behind the last word", changed(PLAIN, "names.0.variables.1", variable(b"y", 4, 0))
    yield "variables that share words", changed(PLAIN, "names.0.variables.1", variable(b"y", 0, 4))
    yield "a text of nothing", changed(PLAIN, "texts.0", b"")
    yield "overlapping loops, of which one is left", build(
        "turn; push 0; push 1; range 0 end; L: push 0; push 1; range 1 end; M: again 0 L; jump end; again 1 M; end: done")
    yield "an end of a loop that is not reached", build("turn; push 0; push 1; range 0 end; L: jump end; again 0 L; end: done")
    yield "a block that is jumped over", build("jump n; enter 0; start 0; test 0; n: r0: a0: t0: turn; done")
    yield "an alternate before its start", build("jump n; a0: frame 0; jump t0; n: turn; enter 0; r0: turn; start 0; t0: turn; push 1; test 0; done")
    yield "one alternate twice", build("turn; enter 0; r0: turn; start 0; a0: a0b: t0: turn; push 1; test 0; done")
    yield "a message behind `fail`", build("turn; fail; there 1; take 1; store g0; done")
    yield "words below zero of them", build("turn; push 1; bound 0; loadat g4; store g0; done")
    yield "no `turn` at all", build("push 1; store g0; done")
    yield "a restart, a test and alternates that nobody reaches", changed(build(entered(0) + "done; done"), "blocks.0.test", 8)
    yield "512 operands", build("turn; 512 * push 1; " + "".join(f"jumpzero n{n}; n{n}: " for n in range(512)) + "done")
