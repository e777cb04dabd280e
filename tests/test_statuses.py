"""The exit statuses of both programs, and what they tell on standard error: which file is missing, or is refused.

Each command is tried with each of its files in turn: without that file, with a folder in its place, and with one that is refused.
"""
import os
import re
import subprocess
import unittest

from .commands import FILES, commands
from .limit_runs import USAGE
from .shared import MOST, MOST_OF_IMAGE, PATIENCE, ROOT, VIEWS, Cases, answer, answer_over, c_compiler, folder_of, hook, hooked, program

# A file of each kind that is refused, and the fault with its place.
REFUSED = {
    "source": ("program a;\nprocess p { x := 1; }\nend.\n", "S1", "2:13"),
    "schedule": ("p 1\nq 1\n", "T2", "2"),
    "record": ("2 p\n1 p\n", "V3", "2"),
    "session": ("step 1\nshow q\n", "B2", "2"),
    "history": ("process p\nfail q\n", "H2", "2"),
    "page": ("c" * (MOST + 1), "L0", ""),
    "image": ("no image", "I1", ""),
}
USAGES = {"rbl": USAGE, "rblview": "usage: rblview explain [NAME] | trace SOURCE SCHEDULE | page PAGE SOURCE SCHEDULE | explore SOURCE [K] "
          "| faults SOURCE | help [NAME] | version\n"}
# What both programs tell of their version, behind their name.
VERSION = ("1.0.0, of rattle-kit-13f: each function is proved to meet its contract, where rt built it "
           "(a program that was compiled without proofs says `not proved` beside this line)")
# Words that are no command of a program, and the first line that it tells of them.
UNKNOWN = {
    "rbl": {
        "": "rbl: a command is missing",
        "rum source schedule": "rbl: there is no command `rum`; did you mean `run`?",
        "explain S1": "rbl: there is no command `explain`; did you mean `plain`?",
        "trace source schedule": "rbl: there is no command `trace`",
        "page page source schedule": "rbl: there is no command `page`",
        "explore source": "rbl: there is no command `explore`",
        "run source": "rbl: `run` takes SOURCE and SCHEDULE; SCHEDULE is missing",
        "session source": "rbl: `session` takes SOURCE, SCHEDULE and SESSION; SCHEDULE and SESSION are missing",
        "run source schedule schedule": "rbl: `run` takes SOURCE and SCHEDULE, and no more",
        "check source source": "rbl: `check` takes SOURCE, and no more",
        "check --source": "rbl: `--source` is no word for a command",
        "--version": "rbl " + VERSION,
        "version": "rbl " + VERSION,
        "--version source": "rbl: `--version` is no word for a command",
        "version source": "rbl: there is no command `version`; did you mean `session`?",
        "trial x": "rbl: `trial` takes a NUMBER of at most twenty digits and 64 bits",
        "--help": "  run SOURCE SCHEDULE: what a program prints, turn by turn over a schedule",
        "-h trial": "  trial NUMBER: a run of a program that is made from a number",
        "trial --help": "  trial NUMBER: a run of a program that is made from a number",
        "trial -h": "  trial NUMBER: a run of a program that is made from a number",
        "trial help": "rbl: `trial` takes a NUMBER of at most twenty digits and 64 bits",
        "trial --help 7": "rbl: `--help` is no word for a command",
        "rum --help": "rbl: there is no command `rum`; did you mean `run`?",
        "help rum": "rbl: there is no command `rum`; did you mean `run`?",
    },
    "rblview": {
        "": "rblview: a command is missing",
        "rum source schedule": "rblview: there is no command `rum`",
        "run source schedule": "rblview: there is no command `run`",
        "trace source": "rblview: `trace` takes SOURCE and SCHEDULE; SCHEDULE is missing",
        "trace source schedule schedule": "rblview: `trace` takes SOURCE and SCHEDULE, and no more",
        "page page source": "rblview: `page` takes PAGE, SOURCE and SCHEDULE; SCHEDULE is missing",
        "explain S1 S2": "rblview: `explain` takes NAME or nothing, and no more",
        "explain --all": "rblview: `--all` is no word for a command",
        "explain Z9": "rblview: there is no fault or cause `Z9`",
        "explain overun": "rblview: there is no fault or cause `overun`; did you mean `overrun`?",
        "explore": "rblview: `explore` takes SOURCE and perhaps NUMBER; SOURCE is missing",
        "explore source one": "rblview: `explore` takes a NUMBER of at most twenty digits and 64 bits",
        "explore source 1 1": "rblview: `explore` takes SOURCE and perhaps NUMBER, and no more",
        "faults": "rblview: `faults` takes SOURCE; SOURCE is missing",
        "help trase": "rblview: there is no command `trase`; did you mean `trace`?",
        "trase --help": "rblview: there is no command `trase`; did you mean `trace`?",
        "--help run": "rblview: there is no command `run`",
        "help trace page": "  trace SOURCE SCHEDULE: what each turn of a run did",
        "trace --help source": "rblview: `--help` is no word for a command",
        "version source": "rblview: `version` takes nothing, and no more",
        "--version source": "rblview: `--version` is no word for a command",
    },
}
# Words of which one is no text.
NO_TEXTS = {"rbl": [[b"\xff"], ["check", b"\xff"], [b"run\xc3", "source", "schedule"], ["session", "source", "schedule", b"a\xed\xa0\x80"]],
            "rblview": [[b"\xff"], ["trace", "source", b"\xff"], ["page", b"\x80page", "source", "schedule"], ["explain", b"S1\xc3"], ["explore", b"\xff"]]}


def each_file():
    """Each command with each of its files: the words, the files, and the file."""
    for line, words, files in commands():
        for name in files:
            yield f"{line}: {name}", words, files, name


def unfinished(words, files):
    """What is wrong where a command has all of its files."""
    real = answer_over(words, files)
    return differs(real, 0, real.out, b"") or (None if real.out else "writes nothing")


def program_name(words):
    """The name by which the program of these words tells of itself."""
    return "rblview" if words[0] in VIEWS else "rbl"


def differs(real, status, out, err):
    """What is wrong with an answer, or nothing: its status, all that it writes, and how it begins on standard error (nothing: it is empty)."""
    is_right = real[:2] == (status, out) and real.err.startswith(err) and bool(real.err) == bool(err)
    return None if is_right else f"status {real.status} for {status}, {real.out[:60]!r}, {real.err[:100]!r}"


def unreadable(words, files, name, is_folder):
    """What is wrong where a file is missing, or a folder stands in its place."""
    with folder_of({each: text for each, text in files.items() if each != name}) as folder:
        if is_folder:
            os.mkdir(os.path.join(folder, name))
        return differs(answer(words, folder), 3, b"", f"{program_name(words)}: cannot read {name}: ".encode())


def refused_for(words, files, name, text, fault, place):
    """What is wrong where a file has this text, and is refused: the line, or the reason, which is to be that of this file."""
    line = f"refused {fault}" + (f" at {place}" if place else "")
    real = answer_over(words, {**files, name: text})
    told = f": {fault}: ".encode() in real.err.split(b"\n")[0]
    return differs(real, 1, f"{line}\n".encode(), f"{name}:{place}{':' if place else ' '}".encode()) or (None if told else f"tells {real.err!r}")


def refused(words, files, name):
    """The same of the text of its kind."""
    return refused_for(words, files, name, *REFUSED[name])


def too_long(words, files, name):
    """The same where it has a byte more than it may have."""
    return refused_for(words, files, name, "#" * ((MOST_OF_IMAGE if name == "image" else MOST) + 1), "L0", "")


def both_refused(words, files, name):
    """The same where every later file is refused too."""
    later = list(files)[list(files).index(name) + 1:]
    return refused(words, {**files, **{each: REFUSED[each][0] for each in later}}, name)


def unwritable(words, files):
    """What is wrong where nothing can be written."""
    with folder_of(files) as folder, open("/dev/full", "wb") as full:
        real = answer(words, folder, out=full)
    return differs(real, 4, b"", f"{program_name(words)}: cannot write to standard output: ".encode())


def without_memory(words, files):
    """What is wrong where the first piece of memory is refused."""
    with folder_of(files) as folder:
        return differs(answer(words, folder, environment=hooked(refuse="memory", refused=0)), 5, b"", b"")


def misunderstood(name, words, line):
    """What is wrong with the answer of a program to words that are no command of its own, whatever there may be of files."""
    with folder_of(FILES) as folder:
        return differs(answer(words, folder, program(name)), 2, USAGES[name].encode(), f"{line}\n".encode())


def helped(name):
    """The help of a program: that of rbl, to which help is no command, stands on standard error."""
    with folder_of({}) as folder:
        real = answer(["help"], folder, program(name))
    return (real.err if name == "rbl" else real.out).decode()


def examples(name):
    """The lines for a shell that the help of a program shows."""
    return [line.strip() for line in helped(name).split("\n") if line.startswith("      ")]


def misanswered(words, out):
    """What is wrong with what rblview answers to words for which no file is read."""
    with folder_of({}) as folder:
        return differs(answer(words, folder, program("rblview")), 0, out.encode(), b"")


def unrunnable(line):
    """What is wrong where an example does not run."""
    named = "".join(f'{name}() {{ "{program(name)}" "$@"; }}; ' for name in USAGES)
    with folder_of({}) as folder:
        for each in ("examples", "view"):
            os.symlink(os.path.join(ROOT, each), os.path.join(folder, each))
        ran = subprocess.run(["bash", "-o", "pipefail", "-c", named + line], cwd=folder, capture_output=True, timeout=PATIENCE, check=False)
    return None if (ran.returncode, ran.stderr) == (0, b"") else f"status {ran.returncode}, {ran.stderr[:100]!r}"


def misread(name, words):
    """What is wrong with the answer of a program to words of which one is no text: nothing is read, written or told."""
    with folder_of(FILES) as folder:
        return differs(answer(words, folder, program(name)), 6, b"", b"")


class Statuses(Cases):
    def test_done(self):
        """Each command answers its files with 0, and tells nothing."""
        self.each(commands(), unfinished)

    def test_missing(self):
        self.each([(name, *case, False) for name, *case in each_file()], unreadable)

    def test_folder(self):
        self.each([(name, *case, True) for name, *case in each_file()], unreadable)

    def test_refused(self):
        self.each(each_file(), refused)
        self.each(each_file(), both_refused)

    def test_too_long(self):
        self.each(each_file(), too_long)

    @unittest.skipUnless(os.path.exists("/dev/full"), "no /dev/full here")
    def test_unwritable(self):
        self.each(commands(), unwritable)

    @unittest.skipUnless(c_compiler(), "no C compiler here")
    def test_memory(self):
        hook()
        self.each(commands(), without_memory)

    def test_unknown(self):
        for name, lines in UNKNOWN.items():
            self.each([(f"{name} {words}", name, words.split(), line) for words, line in lines.items()], misunderstood)

    def test_examples(self):
        """The help of each program has an example of each command, and each runs."""
        self.assertEqual([len(examples(name)) for name in ("rbl", "rblview")], [11, 7])
        self.each([(line, line) for name in USAGES for line in examples(name)], unrunnable)

    def test_help(self):
        """rblview answers words for help: all of it, or the part of a command."""
        whole = helped("rblview")
        asked = [(words, whole) for words in ("help", "--help", "-h")]
        for part in re.split(r"\n(?=  \w)", whole.removesuffix("\n")):
            command = re.split("[ :]", part[2:])[0]
            words = [f"help {command}", f"--help {command}", f"{command} --help", f"{command} -h"]
            asked += [(each, f"{part}\n") for each in (words[:2] if command == "help" else words)]
        self.each([(words, words.split(), out) for words, out in asked], misanswered)

    def test_version(self):
        self.each([(words, [words], f"rblview {VERSION}\n") for words in ("version", "--version")], misanswered)

    def test_no_texts(self):
        for name, lines in NO_TEXTS.items():
            self.each([(f"{name} {words}", name, words) for words in lines], misread)
