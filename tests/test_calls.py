"""How often the programs call the system: how many writes there are, and that no file is opened twice or read behind its end."""
import os
import unittest
from collections import namedtuple

from .commands import SOURCE, commands
from .shared import MOST, Cases, answer, c_compiler, folder_of, hook, hooked, read

STANDARD_OUTPUT = 1
# How many bytes stand before the output.
BUFFER = 65_536

# A call, the number of its file, and what it gave; for an open its name.
Call = namedtuple("Call", "what file given")


def calls(words, files):
    """What a command answers, and its calls in order."""
    with folder_of(files) as folder, folder_of({}) as beside:
        notes = os.path.join(beside, "notes")
        real = answer(words, folder, environment=hooked(noted=notes))
        noted = [line.split(" ", 2) for line in read(notes).decode().splitlines()]
    return real, [Call(what, int(file), given if what == "open" else int(given)) for what, file, given in noted]


def opened_again(words, files):
    """What is wrong with how a command opens and reads its files, or nothing: each once, in their order, and not behind its end."""
    real, made = calls(words, files)
    if real.status != 0:
        return f"status {real.status}"
    opened = [call.given for call in made if call.what == "open"]
    if opened != list(files):
        return f"opens {opened}"
    return behind_end(made)


def behind_end(made):
    """What is read behind the end of a file, or of no file, or nothing."""
    ended = {}
    for what, file, given in made:
        if what == "open":
            ended[file] = False
        elif what == "read" and ended.get(file, True):
            return f"a read of file {file} behind its end"
        elif what == "read":
            ended[file] = given == 0
    return None if all(ended.values()) else "a file that is not read to its end"


def writes(words, files):
    """What a command writes, and how many bytes each call of it takes."""
    real, made = calls(words, files)
    return real.out, [call.given for call in made if call[:2] == ("write", STANDARD_OUTPUT)]


def printing(lines, text):
    """A source that prints a text so often, and a schedule that lets it end."""
    source = f'program w; process p {{ var i; while i < {lines} {{ i := i + 1; print "{text}"; }} }} end.\n'
    return {"source": source, "schedule": f"p {3 * lines + 1}\n"}


def written_apart(words, files):
    """What is wrong with how a command writes, or nothing: every call but the last one takes a full buffer."""
    out, sizes = writes(words, files)
    wanted = [BUFFER] * (len(out) // BUFFER) + [len(out) % BUFFER] * (len(out) % BUFFER > 0)
    return None if sizes == wanted else f"{len(out)} bytes by writes of {sizes[:9]}"


@unittest.skipUnless(c_compiler(), "no C compiler here")
class Calls(Cases):
    @classmethod
    def setUpClass(cls):
        super().setUpClass()
        hook()

    def test_one_write(self):
        """76 lines are one write."""
        out, sizes = writes(["run", "source", "schedule"], printing(72, "a line"))
        self.assertEqual(out.count(b"\n"), 76)
        self.assertEqual(sizes, [len(out)])

    def test_full_buffers(self):
        """A long text is written by full buffers, and short ones at once."""
        long = [("a long run", ["run", "source", "schedule"], printing(900, "t" * 250)), ("as it survived", ["survive", "source", "schedule"], printing(9000, "t"))]
        self.each(long + list(commands()), written_apart)

    def test_opens(self):
        """No file is opened twice, where none is refused, and none is read behind its end."""
        long = {"source": f"{SOURCE}#{'c' * 9000}\n", "schedule": f"p 2\n#{'c' * (MOST - 5)}"}
        self.each([*commands(), ("long files", ["run", "source", "schedule"], long)], opened_again)
