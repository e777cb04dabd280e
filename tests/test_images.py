"""Compiled images: what `compile` writes, what `load` refuses, and what the worst images take.

Images are read and written again by a reader of their own (image_bytes.py).
"""
import functools
import glob
import os
import time

from . import image_bytes
from .shared import MOST_OF_IMAGE, ROOT, Cases, answer, answer_over, folder_of, measured, tell, tell_most
from .unsound_images import build, code_cases
from .unsound_lists import list_cases, odd_cases
from .worst_images import worst
from .worst_texts import fill

ACCEPTED, REFUSED, UNSOUND, LONG = (0, None), (1, b"refused I1\n"), (1, b"refused I2\n"), (1, b"refused L0\n")
SECONDS = 10
MEGABYTES = 1500
HONEST_SECONDS = 0.3
HONEST_MEGABYTES = 100
# The processor seconds that `loop` takes on the machine for which these bounds are given.
LOOP_SECONDS = 0.3
# A program of one empty process, and its image: 134 bytes.
SMALLEST = b"program a; process p { } end."
ITS_IMAGE = b"RBL2" + b"".join(number.to_bytes(8, "big") + text for number, text in (
    (1, b""), (1, b"\x28"), (1, b""), *[(0, b"")] * 7, (1, b""), (1, b"p"), *[(0, b"")] * 4))


def load(image, schedule=""):
    """The status with which bytes are loaded over a schedule, and what is written."""
    return answer_over(["load", "image", "schedule"], {"image": image, "schedule": schedule})[:2]


def fault(image, due, schedule=""):
    """What is wrong with the answer on an image, or nothing."""
    status, written = load(image, schedule)
    return None if status == due[0] and due[1] in (None, written) else f"status {status}, {written[:60]!r}, and {due} is due"


@functools.cache
def sources():
    """Our sources."""
    places = ("examples/*.rbl", "examples/classics/*.rbl", "examples/classics/solutions/*.rbl", "examples/solutions/*.rbl", "bench/*.rbl")
    found = [sorted(glob.glob(os.path.join(ROOT, place))) for place in places]
    assert all(found), "a folder of sources is empty"
    return [source for some in found for source in some]


def fault_of_source(source):
    """What is wrong with the image of a source, or nothing: it is read as an image, and runs as the source."""
    status, image, _ = answer(["compile", source])
    if status != 0:
        return None if answer(["check", source])[:2] == (status, image) else f"compile: status {status}"
    if image_bytes.write(image_bytes.read(image)) != image:
        return "its image reads as another"
    with folder_of({"image": image}) as folder:
        for schedule in [os.devnull, *sorted(glob.glob(source.removesuffix(".rbl") + "*.schedule"))]:
            if answer(["load", "image", schedule], folder) != answer(["run", source, schedule]):
                return f"load and run differ with {os.path.basename(schedule)}"
    return None


def unsound():
    """Sound images and those that aren't, one change away; and odd images that are sound."""
    for name, sound, other in [*code_cases(), *list_cases()]:
        yield name, image_bytes.write(sound), ACCEPTED
        yield f"{name}, which is not sound", image_bytes.write(other), UNSOUND
    for name, image in odd_cases():
        yield name, image_bytes.write(image), ACCEPTED


def is_image(data):
    """Whether bytes are an image, sound or not."""
    try:
        image_bytes.read(data)
    except image_bytes.NoImage:
        return False
    return True


def mutants(data):
    """Bytes near those of an image."""
    for length in [*range(0, len(data), 7), *range(len(data) - 17, len(data))]:
        yield f"its first {length} bytes", data[:length]
    yield "a byte more", data + b"\0"
    for at, byte in enumerate(data):
        for other in {byte + 1 & 255, 255} | ({45} if at == 20 else set()) - {byte}:
            yield f"byte {at} is {other}", data[:at] + bytes([other]) + data[at + 1:]


def fault_of_mutant(data):
    """What is wrong with the answer on bytes near an image: I1 exactly where they are none, and otherwise whether they are sound."""
    status, written = load(data)
    return f"status {status}, {written[:60]!r}" if ((status, written) == REFUSED) == is_image(data) or status not in (0, 1) else None


def filled(size):
    """A sound image of so many bytes: texts that no instruction names fill it up."""
    image = build("turn; done")
    left = size - len(image_bytes.write({**image, "texts": []}))
    count = left // 100 - 1
    image["texts"] = [b"t" * 92] * count + [b"t" * (left - 100 * count - 8)]
    data = image_bytes.write(image)
    assert len(data) == size
    return data


def lengths(data):
    """A short image, an image of the most bytes and one of a byte more, and as many bytes that are no image."""
    yield "a short image", data, ACCEPTED
    yield "a sound image of the most bytes", filled(MOST_OF_IMAGE), ACCEPTED
    yield "a sound image of a byte more", filled(MOST_OF_IMAGE + 1), LONG
    yield "no image, of the most bytes", data + bytes(MOST_OF_IMAGE - len(data)), REFUSED
    yield "no image, of a byte more", data + bytes(MOST_OF_IMAGE + 1 - len(data)), LONG


def done(turns):
    """The answer that the smallest program is due after so many turns."""
    return 0, b"0 done p\nend %d\np done\n" % turns


def smallest():
    """Bytes near the smallest image, the answer that is due, and the schedule."""
    image = ITS_IMAGE
    yield from (("itself", image, done(0), ""), ("2 turns", image, done(2), "p 2"), ("another process", image, (1, b"refused T2 at 1\n"), "q 2"))
    yield from (("no bytes", b"", REFUSED), ("a byte short", image[:-1], REFUSED), ("a source", SMALLEST, REFUSED))
    # Another first byte, an edition 3, no instruction 45; one process more than there is, and more names than bytes are left for. Then a
    # trap after which nothing stands, a start behind the code, a name with no letter at its front. The second edition has this code too.
    for at, byte, due in ((0, 0x53, REFUSED), (11, 3, REFUSED), (20, 45, REFUSED), (28, 2, REFUSED), (92, 255, REFUSED),
                          (20, 36, UNSOUND), (36, 1, UNSOUND), (101, 0x31, UNSOUND), (11, 2, done(0))):
        yield f"byte {at} is {byte}", image[:at] + bytes([byte]) + image[at + 1:], due


def loop():
    return sum(i * i % 7 for i in range(3_000_000))


def slowness():
    """How many times longer this machine takes for the same work as that of the bounds; 1 where it is not slower."""
    begun = time.process_time()
    loop()
    return max(1, (time.process_time() - begun) / LOOP_SECONDS)


def honest():
    """The largest image of our sources, and those of some sources of a mebibyte: of assignments, and of a sum, of which each byte is an
    instruction. Each with its maker and its status, as the worst ones."""
    images = {os.path.basename(source): answer(["compile", source]).out for source in sources()}
    largest = max(images, key=lambda name: len(images[name]))
    yield largest, lambda: images[largest], 0
    for name, before, piece, after in (("assignments", "", "x:=x;", ""), ("sum of numbers", "x:=", "1+", "1; "), ("sum of words", "x:=", "x+", "x; ")):
        image = answer_over(["compile", "source"], {"source": fill(f"program h; process p {{ var x; {before}", piece, f"{after}}} end.")}).out
        yield name, lambda image=image: image, 0


class Images(Cases):
    def test_sources(self):
        """The image of each of our sources reads as an image, and runs as the source."""
        self.each([(os.path.relpath(source, ROOT), source) for source in sources()], fault_of_source)

    def test_soundness(self):
        """Sound images are accepted, and those that are one change away are not."""
        self.each(unsound(), fault)

    def test_forms(self):
        """Bytes near an image are refused exactly where they are none, or where it is not sound."""
        data = image_bytes.write(build("turn; enter 0; r0: turn; start 0; a0: t0: turn; prior g1; test 0; done; f: return; q: done"))
        self.each(mutants(data), fault_of_mutant)
        self.each(lengths(data), fault)

    def test_smallest(self):
        """The image of the smallest program stands here byte by byte, and bytes near it have their answers."""
        with self.subTest("its bytes"):
            self.assertEqual(answer_over(["compile", "source"], {"source": SMALLEST})[:2], (0, ITS_IMAGE))
        self.each(smallest(), fault)

    def test_honest(self):
        """The image of a large source is cheap. A machine that is slow now may not be slow a moment later, so the bound is not strict."""
        self.take(honest(), 2 * HONEST_SECONDS * slowness(), HONEST_MEGABYTES, at_once=1)

    def test_worst(self):
        """The worst images end within 10 seconds and 1.5 GB, with the status that is named."""
        self.take(worst(), SECONDS * slowness(), MEGABYTES, at_once=2)

    def take(self, cases, seconds, megabytes, at_once):
        """Images, by their makers, are loaded with their statuses, and take so many seconds and megabytes at most."""
        taken = []

        def fault_of_taken(name, make, status):
            image = make()
            assert len(image) <= MOST_OF_IMAGE, name
            with folder_of({"image": image}) as folder:
                real = measured(["load", "image", os.devnull], folder, 10 * SECONDS)
            taken.append((real, name))
            line = f"status {real.status} for {status}, {real.seconds:.2f} s, {real.megabytes:.0f} MB"
            tell(f"{name}: an image of {len(image)} bytes, {line}", if_asked=True)
            return None if real.status == status and real.seconds <= seconds and real.megabytes <= megabytes else line

        self.each([(case[0], *case) for case in cases], fault_of_taken, at_once)
        tell_most(taken)
