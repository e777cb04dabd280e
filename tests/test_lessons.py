"""The lessons: their list says what they say, and tools/check_exercise takes each solution and says of the unchanged file what differs."""
import glob
import os
import re
import subprocess
import sys

from .shared import ROOT, Cases, folder_of, program, text_of

sys.path.insert(0, os.path.join(ROOT, "tools"))
from exercises import EXERCISES

ASKED = re.compile(r"^\((\w)\) .* `tools/check_exercise (\w+) FILE`$", re.MULTILINE)
SOLVED = re.compile(r"^\*\*\((\w)\)\*\* .*?^```(?:diff \S+|schedule) (\S+)$", re.MULTILINE | re.DOTALL)
# The first exercise is solved too by what solves the second one.
STRONGER = {("17a", "17b")}
# Of exercises what is changed in the solution, so that it is none, and what is said then.
NEAR = [
    ("1a", "(sum m from 0 to 4 : a[m] = a[k]) = (sum m from 0 to 4 : prior a[m] = a[k])", "1", "your test refuses the first alternate"),
    ("1b", "within 113", "within 114", "114 is not the least bound: with 113"),
    ("1b", "within 113", "within 112", "with the bound 112 wanted is that the sorter comes to its end"),
    ("2b", "price > prior price", "price > 0", "it has not risen"),
    ("3a", "point q\nsend d p q\ntake d\n", "send d p q\ntake d\npoint q\n", "r keeps everything"),
    ("4b", "conversation Inner (p, q, r);", "conversation Inner (p, q);", "it is refused for N3, and there is `refused N2 at"),
    ("5b", "plan = 2 within 22", "plan = 2 within 23", r"are not one number: \[23, 22\]"),
    ("10a", "size 2", "size 3", "the channel is no larger"),
    ("11a", "prior doubts = 3", "prior doubts = 2", "there are 2 doubts, and not 3"),
    ("12b", "tries := 2", "tries := 7", "no variable of the client is 2 at the end"),
    ("13a", "buyer 21", "buyer 20", "buyer fails"),
    ("15b", "p 8", "p 9", "the schedule has ten turns"),
    ("17b", "receive question x; send answer x + 1", "send answer 1; receive question x", "the process q is not that of the lesson"),
]


def pages(folder="docs/lessons"):
    """The name and the text of each page of a lesson, or of its answers."""
    paths = sorted(glob.glob(os.path.join(ROOT, folder, "[0-9]*.md")))
    return [(os.path.basename(path), text_of(os.path.relpath(path, ROOT))) for path in paths]


def asked():
    """The exercises that the lessons ask: lesson with letter, and the name that they say."""
    return [(f"{int(file[:2])}{letter}", name) for file, text in pages() for letter, name in ASKED.findall(text)]


def solved():
    """The solution of each exercise, as the answers name it."""
    return {f"{int(page[:2])}{letter}": file for page, text in pages("docs/lessons/answers") for letter, file in SOLVED.findall(text)}


def checked(*words):
    """What the script answers."""
    return subprocess.run([os.path.join(ROOT, "tools/check_exercise"), *words], cwd=ROOT, env={**os.environ, "RBL": program("rbl")},
                          stdout=subprocess.PIPE, stderr=subprocess.PIPE, text=True, check=False)


def told(words, status, pattern):
    """What is wrong with an answer, or nothing: the status, and the whole text."""
    ran = checked(*words)
    fits = ran.returncode == status and re.fullmatch(pattern, ran.stdout, re.DOTALL) and bool(ran.stderr) == (status == 2 and not ran.stdout)
    return None if fits else f"status {ran.returncode}, {ran.stdout + ran.stderr!r}"


def listed(file, number, title, level, minutes):
    """What is wrong with the row of a lesson in their list, or nothing: it has its title, level and minutes, and leads to its answers."""
    row = f"| [{number}. {title}]({file}) | {level} | {minutes} | "
    rows = [line for line in text_of("docs/lessons/INDEX.md").splitlines() if line.startswith(row)]
    return None if len(rows) == 1 and rows[0].endswith(f"| [answers](answers/{file}) |") else f"the list has no row {row}"


def near(name, old, new, said):
    """What is wrong with what is said of a solution that is changed in one place, or nothing."""
    text = text_of(solved()[name])
    if text.count(old) != 1:
        return f"the solution has not one `{old}`"
    with folder_of({"near": text.replace(old, new)}) as folder:
        return told([name, os.path.join(folder, "near")], 1, rf"(?:{name}: [^\n]+\n)*{name}: [^\n]*{said}.*")


class Lessons(Cases):
    PROGRAMS = ("rbl",)

    def test_list(self):
        """Each lesson begins with its number, its title, its level and its minutes, and is listed so."""
        begin = re.compile(r"# (\d+)\. (.*)\n\nLevel ([123]) of 3, (\d+) minutes")
        self.each([(file, file, *begin.match(text).groups()) for file, text in pages()], listed)

    def test_all_are_there(self):
        """Each exercise of a lesson has its name, its wants and a solution, and no others are there."""
        self.assertEqual([place for place, _ in asked()], [name for _, name in asked()])
        self.assertEqual({name for _, name in asked()}, set(EXERCISES))
        self.assertEqual(set(solved()), set(EXERCISES))

    def test_solutions(self):
        self.each([(name, [name, file], 0, f"{name}: as wanted\n") for name, file in solved().items()], told)

    def test_unchanged(self):
        self.each([(name, [name, one.start], 1, rf"(?:{name}: \S[^\n]{{10,}}\n)+") for name, one in EXERCISES.items()], told)

    def test_near(self):
        self.each([(f"{name} {new}", name, old, new, said) for name, old, new, said in NEAR], near)

    def test_others(self):
        """What solves one exercise solves no other one that begins with the same file, unless it is a stronger one."""
        files = solved()
        pairs = [(name, other) for name, one in EXERCISES.items() for other, two in EXERCISES.items() if name != other and one.start == two.start]
        self.each([(f"{other} as {name}", [name, files[other]], 1, rf"(?:{name}: [^\n]+\n)+")
                   for name, other in pairs if (name, other) not in STRONGER], told)

    def test_refused(self):
        """A text that is refused for nothing that is asked is told with its reason."""
        with folder_of({"slip.rbl": text_of("examples/step1.rbl").replace("price := 7", "prise := 7")}) as folder:
            self.each([("slip", ["14b", os.path.join(folder, "slip.rbl")], 1, r"14b: refused S1 at 4:3\n14b: /\S*/slip\.rbl:4:3: S1: .*prise.*")], told)

    def test_words(self):
        lists = r"usage: tools/check_exercise EXERCISE FILE\n.*\n1a .*\n17b .*"
        self.each([("no words", [], 2, lists), ("no exercise", ["99a", "README.md"], 2, lists), ("no file", ["1a", "no file"], 2, "")], told)
