"""The examples of the faults and the causes, as `rblview explain` tells them.

An example `image` is the bytes themselves; one `image of` is a source, of whose image a byte is changed.
"""
import functools
import re

from .shared import answer, answer_over, text_of

TEXT = re.compile(r"(?P<word>\w+): (?P<means>.+)\nusually: .+\nmend: .+\n(?P<files>(?s:.*?))shows: (?P<shows>.+)\n")
KINDS = ("source", "schedule", "record", "session", "history", "blanks", "image", "image of")
BYTE = re.compile(r"byte (\d+): (\d+)\n\Z")
# Which command shows a fault or a cause, by the files of its example.
COMMANDS = {"source": "check", "blanks": "check", "source schedule": "run", "source record": "plain",
            "source schedule session": "session", "history": "domino", "image schedule": "load"}


@functools.cache
def faults_and_causes():
    """The faults and the causes that the language has: those of its definition, and L0, which no definition of a text knows."""
    words = text_of("crates/rb_base/specs/Words.antt")
    faults = ["L0", *re.findall(r'^fault_word \w+ = codes "(\w+)"', words, re.MULTILINE)]
    causes = re.findall(r'^cause_word \w+ = codes "(\w+)"', words, re.MULTILINE)
    assert faults[1:] and causes, "the definition of faults or of causes has another form"
    return faults, causes


def files_of(text):
    """The files of an example by their kinds, in order."""
    files, kind = {}, None
    for line in text.split("\n")[:-1]:
        if line[:-1] in KINDS and line.endswith(":"):
            kind = line[:-1]
            files[kind] = ""
        else:
            files[kind] += line + "\n"
    if "blanks" in files:
        files["blanks"] = " " * int(files["blanks"])
    if "image of" in files:
        files["image"] = changed_image(files.pop("image of"))
    if "image" in files:
        files["schedule"] = ""
    return files


def changed_image(text):
    """The image of a source, with the byte changed that is told behind the source."""
    at, byte = map(int, BYTE.search(text).groups())
    image = answer_over(["compile", "source"], {"source": BYTE.sub("", text)}).out
    return image[:at] + bytes([byte]) + image[at + 1:]


def words_over(files):
    """The words of the command that shows an example."""
    return [COMMANDS[" ".join(files)], *files]


def explained(word):
    """The text of a word in its parts, or nothing where it has another form."""
    match = TEXT.fullmatch(answer(["explain", word]).out.decode())
    return match if match and match["word"] == word else None
