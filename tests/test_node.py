"""play/rbl.js, which runs both programs by node, against the programs of this machine: each a process, over files, pipes and what can't be read
or written.
"""
import os
import subprocess
import unittest

from .commands import FILES, commands
from .engine_module import lacks
from .shared import MOST, MOST_OF_IMAGE, PATIENCE, ROOT, VIEWS, Answer, Cases, folder_of, program, tell

SCRIPT = os.path.join(ROOT, "play/rbl.js")
# The files of a long run: two lines of 250 bytes for each of some thousand turns.
LONG = {"source": f'program w; process p {{ var i; while i < 9000 {{ i := i + 1; print "{"t" * 250}"; }} }} end.\n', "schedule": "p 30000\n"}
NO_COMMANDS = [[], [""], ["", ""], ["--help"], ["run"], ["run", "--", "source"], ["run", "source", "schedule", "more"], ["trial", "x"],
               ["explain", "Z9"], [b"\xff"], ["check", b"a\xed\xa0\x80"]]
UNREAD = [["check", "grün"], ["check", "\ufffd"], ["check", ""], ["run", "source", "missing"], ["run", "missing", "schedule"], ["check", "folder"],
          ["run", "source", "folder"], ["check", "source/below"], ["check", "closed"], ["check", "round"], ["check", "n" * 300],
          ["page", "missing", "source", "schedule"], ["page", "page", "source", "missing"], ["session", "source", "schedule", "missing"]]
TOO_LONG = [["check", "/dev/zero"], ["load", "/dev/zero", "schedule"], ["check", "long"], ["load", "large", "schedule"]]


def by_node(name):
    """The words that run a program by node."""
    return ["node", SCRIPT, name]


def both(words):
    """A program, and the words that run it here and by node."""
    name = "rblview" if words and words[0] in VIEWS else "rbl"
    return [program(name)], by_node(name)


def ended(line, folder, out=subprocess.PIPE, given=b""):
    """What comes of a line of words."""
    ran = subprocess.run(line, cwd=folder, input=given, stdout=out, stderr=subprocess.PIPE, timeout=PATIENCE, check=False)
    return Answer(ran.returncode, ran.stdout, ran.stderr)


def unlike(here, there):
    """What is wrong where two answers are not the same, or nothing."""
    if here == there:
        return None
    bytes_there, bytes_here = (len(one.out or b"") for one in (there, here))
    return f"status {there.status} for {here.status}, {bytes_there} bytes for {bytes_here}, tells {there.err[:200]!r} for {here.err[:200]!r}"


def over_files(words, files):
    """What is wrong with an answer over files, or nothing; some can't be read."""
    with folder_of(files) as folder:
        os.mkdir(os.path.join(folder, "folder"))
        os.symlink("round", os.path.join(folder, "round"))
        with open(os.path.join(folder, "closed"), "wb") as file:
            os.chmod(file.fileno(), 0)
        return unlike(*(ended([*line, *words], folder) for line in both(words)))


def into(words, files, place):
    """What is wrong with an answer where standard output is such a place, or nothing."""
    with folder_of(files) as folder, open(place, "wb") as out:
        return unlike(*(ended([*line, *words], folder, out) for line in both(words)))


def into_closed(words, files):
    """What is wrong with the status and with what is told where nobody reads the output, or nothing."""
    with folder_of(files) as folder:
        answers = []
        for line in both(words):
            reading, writing = os.pipe()
            os.close(reading)
            answers.append(ended([*line, *words], folder, writing))
            os.close(writing)
    return unlike(*answers)


def through_pipe(words, given):
    """What is wrong with an answer where a file comes through a pipe, or nothing."""
    return unlike(*(ended([*line, *words], ROOT, given=given) for line in both(words)))


@unittest.skipIf(lacks(), lacks())
class Node(Cases):
    def test_words(self):
        """Each command, words that are no command or no text, and files that are missing, can't be read or are too long."""
        files = {**FILES, "long": "#" * (MOST + 1), "large": bytes(MOST_OF_IMAGE + 1)}
        self.each([(" ".join(map(str, words))[:60], words, files) for words in [*NO_COMMANDS, *UNREAD, *TOO_LONG, ["run", "source", "source"]]],
                  over_files)
        self.each(commands(), over_files)

    def test_long_outputs(self):
        """An output of some megabytes, whole, into a pipe that is closed and onto a full disk."""
        run = [f"{command} source schedule".split() for command in ("run", "survive", "trace")]
        self.each([(words[0], words, LONG) for words in run], over_files)
        self.each([(f"{words[0]}, closed", words, LONG) for words in [*run, ["trial", "x"]]], into_closed)
        if os.path.exists("/dev/full"):
            self.each([(f"{words[0]}, full", words, LONG, "/dev/full") for words in [*run, ["check", "missing"], ["check", "schedule"]]], into)

    @unittest.skipUnless(os.path.exists("/dev/stdin"), "no /dev/stdin here")
    def test_pipes(self):
        """A file that comes through a pipe, also one that is too long; what is not needed is not waited for."""
        source = FILES["source"].encode()
        self.each([("a source", ["check", "/dev/stdin"], source), ("no source", ["check", "/dev/stdin"], b""),
                   ("too long", ["check", "/dev/stdin"], b"#" * (3 * MOST)),
                   ("a page", ["page", "/dev/stdin", "examples/step4.rbl", "examples/step4.schedule"], FILES["page"].encode())], through_pipe)

    def test_started_wrongly(self):
        """Where the module is missing or is none, or no program is named, the status is 70, with one line on standard error."""
        with folder_of({"none": "no module"}) as folder:
            modules = [(name, by_node("rbl"), {"RBL_MODULE": os.path.join(folder, name)}) for name in ("missing", "none")]
            self.each([*modules, ("no program", ["node", SCRIPT], {})], cannot_run)

    def test_start(self):
        """How long a small command takes with the start of node."""
        taken = min(seconds_of([*by_node("rbl"), "trial", "0"]) for _ in range(5))
        tell(f"rbl.js takes {taken:.2f} s of processor time for a small command, the start of node among it")


def cannot_run(line, environment):
    """What is wrong where the engine can't be run, or nothing."""
    ran = subprocess.run([*line, "trial", "0"][:5], env={**os.environ, **environment}, capture_output=True, check=False)
    well = ran.returncode == 70 and not ran.stdout and ran.stderr.count(b"\n") == 1
    return None if well else f"status {ran.returncode}, tells {ran.stderr[:200]!r}"


def seconds_of(line):
    """The processor time of a line of words, in seconds."""
    before = os.times()
    subprocess.run(line, stdout=subprocess.DEVNULL, check=True)
    after = os.times()
    return after.children_user + after.children_system - before.children_user - before.children_system
