"""The bytes of compiled images (docs/MACHINE.md): a reader, a writer, and an assembler for small codes.

An image is a dict of lists. An instruction is a tuple of its word and its operands; a word of memory as an operand is (0 or 1, place).
"""
import re

MAGIC = b"RBL2"
# The word of each instruction, at the place of its number, and its operands: n a number of 32 bits, w one of 64 with a sign, v a word of memory.
WORDS = """turn; push w; load v; prior v; bound n; loadat v; priorat v; store v; storeat v; add; sub; mul; div; rem; eq; ne; lt; le; gt; ge; neg;
not; bool; jump n; jumpzero n; frame n; drop n; text n; item; print; room n; put n; there n; take n; call nnn; return; fail; enter n; start n;
test n; done; range nn; again nn; counter n; absent nn"""
KINDS = [(one.split() + [""])[:2] for one in WORDS.replace("\n", " ").split(";")]
NUMBERS = {word: number for number, (word, _) in enumerate(KINDS)}


class NoImage(Exception):
    """These bytes are no image."""


class Reader:
    def __init__(self, data):
        self.data, self.at = data, 0

    def bytes(self, length):
        if length > len(self.data) - self.at:
            raise NoImage("a length beyond the end")
        self.at += length
        return self.data[self.at - length:self.at]

    def signed(self):
        return int.from_bytes(self.bytes(8), "big", signed=True)

    def natural(self):
        number = self.signed()
        if not 0 <= number < 1 << 32:
            raise NoImage("a number out of its range")
        return number

    def optional(self):
        there = self.natural()
        if there > 1:
            raise NoImage("neither there nor not")
        return self.natural() if there else None

    def text(self):
        return self.bytes(self.length())

    def length(self):
        number = self.signed()
        if not 0 <= number <= len(self.data):
            raise NoImage("a length beyond the end")
        return number

    def list(self, item):
        return [item() for _ in range(self.length())]

    def operand(self, kind):
        if kind == "w":
            return self.signed()
        if kind == "n":
            return self.natural()
        area = self.natural()
        if area > 1:
            raise NoImage("no such words")
        return (area, self.natural())

    def instr(self):
        number = self.bytes(1)[0]
        if number >= len(KINDS):
            raise NoImage("no such instruction")
        word, kinds = KINDS[number]
        return (word, *[self.operand(kind) for kind in kinds])

    def process(self):
        return {"start": self.natural(), "words": self.natural(), "channels": self.list(self.natural),
                "procedures": self.list(lambda: {"name": self.text(), "start": self.natural()})}

    def block(self):
        return {"line": self.natural(), "conversation": self.optional(), "bound": self.natural(), "restart": self.natural(),
                "test": self.natural(), "alternates": self.list(self.natural)}

    def channel(self):
        return {"sender": self.natural(), "receiver": self.natural(), "size": self.natural()}

    def names(self):
        variable = lambda: {"name": self.text(), "at": self.natural(), "size": self.optional()}
        return {"name": self.text(), "variables": self.list(variable)}

    def group(self):
        return {"members": self.list(self.natural), "parent": self.optional(), "alternates": self.natural()}


def read(data):
    """The image of these bytes."""
    source = Reader(data)
    if source.bytes(4) != MAGIC:
        raise NoImage("other first bytes")
    image = {"edition": source.natural()}
    if image["edition"] not in (1, 2):
        raise NoImage("no such edition")
    items = {"instrs": source.instr, "processes": source.process, "blocks": source.block, "channels": source.channel, "texts": source.text,
             "names": source.names, "channel_names": source.text, "conversation_names": source.text, "groups": source.group}
    for name, item in items.items():
        image[name] = source.list(item)
    if source.at != len(data):
        raise NoImage("something follows")
    return image


def number(n):
    return n.to_bytes(8, "big", signed=n < 1 << 63)


def numbers(*all_of_them):
    return b"".join(map(number, all_of_them))


def optional(n):
    return number(0) if n is None else numbers(1, n)


def text(data):
    return number(len(data)) + data


def items_of(item, items):
    """A list; where it is long, a pair of the number of its items and their bytes."""
    if isinstance(items, tuple):
        return number(items[0]) + items[1]
    return number(len(items)) + b"".join(map(item, items))


def instr(one):
    word, *operands = one
    return bytes([NUMBERS[word]]) + b"".join(numbers(*n) if isinstance(n, tuple) else number(n) for n in operands)


def procedure(one):
    return text(one["name"]) + number(one["start"])


def process(one):
    return numbers(one["start"], one["words"]) + items_of(number, one["channels"]) + items_of(procedure, one["procedures"])


def block(one):
    return (number(one["line"]) + optional(one["conversation"]) + numbers(one["bound"], one["restart"], one["test"])
            + items_of(number, one["alternates"]))


def channel(one):
    return numbers(one["sender"], one["receiver"], one["size"])


def variable(one):
    return text(one["name"]) + number(one["at"]) + optional(one["size"])


def names(one):
    return text(one["name"]) + items_of(variable, one["variables"])


def group(one):
    return items_of(number, one["members"]) + optional(one["parent"]) + number(one["alternates"])


def write(image):
    """The bytes of an image."""
    parts = [(instr, "instrs"), (process, "processes"), (block, "blocks"), (channel, "channels"), (text, "texts"), (names, "names"), (text, "channel_names"),
             (text, "conversation_names"), (group, "groups")]
    return MAGIC + number(image["edition"]) + b"".join(items_of(item, image[name]) for item, name in parts)


def operand(kind, given, labels):
    if kind == "v":
        return ("gl".index(given[0]), int(given[1:]))
    return labels[given] if given in labels else int(given)


def assemble(source):
    """The instructions of a text, `label: word operand ..; ..`, and where its labels stand. `N * ..` stands for N of the same."""
    lines = []
    labels = {}
    for line in filter(None, map(str.strip, source.split(";"))):
        while found := re.match(r"(\w+):\s*", line):
            labels[found[1]] = len(lines)
            line = line[found.end():]
        times = re.match(r"(\d+) \*\s*", line)
        if line:
            lines += [(line[times.end():] if times else line).split()] * (int(times[1]) if times else 1)
    instrs = []
    for word, *given in lines:
        instrs.append((word, *[operand(kind, one, labels) for kind, one in zip(KINDS[NUMBERS[word]][1], given, strict=True)]))
    return instrs, labels
