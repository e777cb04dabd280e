"""The worst images that 16 MiB can hold, and their makers. Each has its status: 0 sound, 1 not, 5 where the budget of the search ends."""
import struct

from .image_bytes import instr, number, numbers, write
from .shared import MOST_OF_IMAGE
from .unsound_images import build

MOST_INSTRUCTIONS = 8_388_608


def image_of(pieces, **lists):
    """An image of pairs of a number of instructions and their bytes. Its first process begins at 0, the second one at the end."""
    count = sum(n for n, _ in pieces)
    image = build("done")
    image["instrs"] = (count, b"".join(data for _, data in pieces))
    image.update(lists)
    image["processes"][1]["start"] = count - 1
    return write(image)


def packed(form, rows):
    """The bytes of many rows of numbers."""
    pack = struct.Struct(form).pack
    return b"".join([pack(*row) for row in rows])


def code(*instrs):
    return len(instrs), b"".join(map(instr, instrs))


def times(count, *instrs):
    return count * len(instrs), count * b"".join(map(instr, instrs))


ENDS = code(("done",), ("done",))


def straight(count, word):
    return image_of([code(("turn",)), times(count - 3, (word,)), ENDS])


def jumps(count):
    """Each jump goes to the next one."""
    return image_of([(count, packed(">BQ", ((23, n + 1) for n in range(count)))), ENDS])


def jumps_back(count):
    """Pairs of `turn` and a jump to the pair before, where a run begins at the last of them."""
    pairs = packed(">BBQ", ((0, 23, max(2, 2 * n)) for n in range(count)))
    return image_of([code(("jump", 2 * count), ("done",)), (2 * count, pairs), ENDS])


def into_one(count):
    """`count` ways to one address, each with its own 500 operands but one, so that all are compared."""
    head = [code(("turn",), ("push", 1), ("jumpzero", 504)), times(500, ("push", 1)), code(("jump", 1005 + 2 * count))]
    body = [times(500, ("push", 1)), times(count, ("push", 1), ("jumpzero", 1005 + 2 * count))]
    start = 504 + 500 + 2 * count
    tail = [code(("jump", start + 1)), drops(start + 1, 500), ENDS]
    return image_of([*head, *body, *tail])


def drops(at, count):
    """Takes operands away."""
    return count, packed(">BQ", ((24, at + n + 1) for n in range(count)))


def weak_at(depth, place):
    """So many operands, all of them below 5 but one."""
    bounded = (("push", 1), ("bound", 5))
    return [times(place, *bounded), code(("push", 1), ("not",)), times(depth - place - 1, *bounded)]


def joined(stacks, depth=500):
    """Each of some lists of operands meets each of others at an address of its own; in each, another operand is plain."""
    width = 2 * depth + 2 * stacks + 1
    meetings = 1 + 2 * (2 * stacks) + 2 * stacks * width
    ending = meetings + stacks * stacks
    pieces = [code(("turn",))]
    at = 1
    starts = 1 + 2 * (2 * stacks)
    for n in range(2 * stacks):
        pieces.append(code(("push", 1), ("jumpzero", starts + n * width)))
    pieces[-1] = code(("push", 1), ("jumpzero", starts + (2 * stacks - 1) * width))
    for n in range(2 * stacks):
        own, side = n % stacks, n // stacks
        pieces += weak_at(depth, (2 * own + side) % depth)
        targets = [meetings + (own * stacks + m if side == 0 else m * stacks + own) for m in range(stacks)]
        pieces.append((2 * stacks, b"".join(b"\x01" + number(1) + b"\x18" + number(target) for target in targets)))
        pieces.append(code(("jump", ending)))
    pieces.append(times(stacks * stacks, ("jump", ending)))
    return image_of([*pieces, drops(ending, depth), ENDS])


def procedures(count, calls):
    """So many procedures, all at one address but the last one, and calls of that one."""
    first = 2 * calls + 1
    pieces = [times(calls, ("turn",), ("call", first + 1, 0, 0)), code(("done",), ("return",), ("return",), ("done",))]
    processes = build("done")["processes"]
    own = (count - 1) * (number(1) + b"f" + number(first)) + number(1) + b"f" + number(first + 1)
    processes[0]["procedures"] = (count, own)
    return image_of(pieces, processes=processes)


def each_called(count):
    """So many procedures, and a call of each."""
    first = 2 * count + 1
    calls = packed(">BBQQQ", ((0, 34, first + n, 0, 0) for n in range(count)))
    own = packed(">QBQ", ((1, 102, first + n) for n in range(count)))
    processes = build("done")["processes"]
    processes[0]["procedures"] = (count, own)
    return image_of([(2 * count, calls), code(("done",)), times(count, ("return",)), code(("done",))], processes=processes)


def ways(depth, tail):
    """As many ways as operands into a long tail of `fail`, each with another operand plain."""
    width = 2 * depth + 1
    starts = 1 + 2 * depth
    ending = starts + depth * width + 1
    pieces = [code(("turn",)), (2 * depth, packed(">BQBQ", ((1, 1, 24, starts + n * width) for n in range(depth))))]
    for n in range(depth):
        pieces += [*weak_at(depth, n), code(("jump", ending))]
    rest = [code(("done",)), times(tail, ("fail",)), times(depth - 1, ("eq",)), code(("jumpzero", ending + tail + depth))]
    return image_of([*pieces, *rest, ENDS])


def blocks_within(count):
    """Blocks, each in the alternate of the one before."""
    entries = packed(">BBQBBQB", ((0, 37, n, 0, 38, n, 0) for n in range(count)))
    tests = packed(">BBQBQ", ((0, 1, 1, 39, n) for n in reversed(range(count))))
    table = packed(">QQQQQQQ", ((1, 0, 9, 5 * n + 2, 5 * n + 4, 1, 5 * n + 4) for n in range(count)))
    return image_of([(5 * count, entries), (3 * count, tests), ENDS], blocks=(count, table))


def alternates(count):
    """One block of many alternates, which are one."""
    table = numbers(1, 0, 9, 2, 4, count) + count * number(4)
    block = code(("turn",), ("enter", 0), ("turn",), ("start", 0), ("turn",), ("push", 1), ("test", 0))
    return image_of([block, ENDS], blocks=(1, table))


def chained(count):
    """Conversations, each with the one before as its parent."""
    groups = packed(">QQQQQQ", ((2, 0, 1, 1, n, 1) for n in range(count)))
    return image_of([ENDS], groups=(count, groups), conversation_names=(count, count * (number(1) + b"k")))


def joinings(count):
    """Blocks of one conversation, which one process enters one after another."""
    body = packed(">BBQBBQBBQBQ", ((0, 37, n, 0, 38, n, 0, 1, 1, 39, n) for n in range(count)))
    table = packed(">QQQQQQQQ", ((1, 1, 0, 9, 7 * n + 2, 7 * n + 4, 1, 7 * n + 4) for n in range(count)))
    group = [{"members": [0, 1], "parent": None, "alternates": 1}]
    return image_of([(7 * count, body), ENDS], blocks=(count, table), groups=group, conversation_names=[b"k"])


def loops_within(count):
    """Loops within each other, none of them reached."""
    ranges = packed(">BQQ", ((41, n & 1, 1 + 2 * count) for n in range(count)))
    ways = packed(">BQQ", ((42, n & 1, 2 + n) for n in reversed(range(count))))
    return image_of([code(("jump", 1 + 2 * count)), (count, ranges), (count, ways), ENDS])


def nots(count):
    """A loop whose operands stand on one that is plain from the second round on, so that all are noted twice."""
    end = count + 7
    pieces = [code(("turn",), ("push", 1), ("bound", 5), ("push", 0), ("push", 1), ("range", 0, end + 1), ("push", 1)), times(count - 1, ("not",))]
    return image_of([*pieces, code(("eq",), ("again", 0, 6), ("jumpzero", end + 2)), ENDS])


def alike(count):
    """Variables of one name."""
    names = build("done")["names"]
    names[0]["variables"] = (count, count * (number(64) + b"x" * 64 + numbers(0, 0)))
    return image_of([ENDS], names=names)


def channels_alike(count):
    """Channels of one name."""
    lists = {"channels": count * numbers(0, 1, 1), "channel_names": count * (number(1) + b"c")}
    return image_of([ENDS], **{name: (count, data) for name, data in lists.items()})


def bomb():
    """A list of so many items that nothing follows."""
    return write(build("done"))[:12] + number(1 << 31)


def worst():
    """Each image: its name, its maker, and its status."""
    yield "16 MiB of `turn`", lambda: straight(MOST_OF_IMAGE - 700, "turn"), 0
    yield "8,388,608 of `turn`", lambda: straight(MOST_INSTRUCTIONS, "turn"), 0
    yield "8,388,608 of `fail`", lambda: straight(MOST_INSTRUCTIONS, "fail"), 0
    yield "8,388,608 of `add`, without operands", lambda: straight(MOST_INSTRUCTIONS, "add"), 1
    yield "1,800,000 jumps, each to the next", lambda: jumps(1_800_000), 0
    yield "1,600,000 jumps, each to the one before", lambda: jumps_back(1_600_000), 0
    yield "900,000 ways to one address, with 500 operands", lambda: into_one(900_000), 0
    yield "30,000 joins of 500 operands", lambda: joined(170), 0
    yield "160,000 joins of 500 operands", lambda: joined(400), 5
    yield "500 ways into a tail of 6,000,000", lambda: ways(500, 6_000_000), 0
    yield "operands noted twice, 8,388,000 times", lambda: nots(MOST_INSTRUCTIONS - 20), 5
    yield "60,000 procedures, and a call of each", lambda: each_called(60_000), 0
    yield "300,000 procedures, and a call of each", lambda: each_called(300_000), 0
    yield "400,000 procedures, and 350,000 calls of the last", lambda: procedures(400_000, 350_000), 0
    yield "150,000 blocks within each other", lambda: blocks_within(150_000), 0
    yield "a block of 2,000,000 alternates", lambda: alternates(2_000_000), 0
    yield "280,000 conversations in a chain", lambda: chained(280_000), 1
    yield "60,000 blocks of one conversation", lambda: joinings(60_000), 1
    yield "66,000 blocks of one conversation", lambda: joinings(66_000), 1
    yield "470,000 loops within each other, not reached", lambda: loops_within(470_000), 0
    yield "180,000 variables of one name", lambda: alike(180_000), 0
    yield "500,000 channels of one name", lambda: channels_alike(500_000), 1
    yield "a list of 2^31 instructions, and nothing", bomb, 1
