"""The programs that the playground lists: those of examples/ and examples/classics, each with its schedule, and with the title and the question
of the lesson that it belongs to: a section of the walk, or a page of docs/lessons."""
import glob
import os
import re

ROOT = os.path.dirname(os.path.dirname(os.path.abspath(__file__)))
WALK, CLASSICS, SMALL = "A walk through recovery", "Classics", "Small examples"
# What is asked by the programs that no lesson tells of, and that do not begin with a comment.
ASKED = {
    "agreement": "The receiver accepts one of two messages alone. What becomes of the other, and of who sent it?",
    "deadlock": "Each waits for what the other one has. Who notices?",
}


def text_of(path):
    """A text of the repository."""
    with open(os.path.join(ROOT, path), encoding="utf-8", newline="") as file:
        return file.read()


def plain(markdown):
    """A paragraph without its marks."""
    return re.sub(r"\[([^\]]*)\]\([^)]*\)|[*`]", lambda mark: mark[1] or "", " ".join(markdown.split()))


def sections(page):
    """The number, the title and the text of each lesson of a page."""
    parts = re.split(r"^## (?:(\d+)\. )?(.*)$", text_of(page), flags=re.MULTILINE)[1:]
    return [(number, title, body) for number, title, body in zip(*[iter(parts)] * 3) if number]


def told_in(found, shown, asked):
    """Of each program that one of the lessons shows: the title of the lesson, and what it asks."""
    return {name: (f"{number}. {title}", plain(re.search(asked, body, re.MULTILINE)[1]))
            for number, title, body in found for name in re.findall(shown, body)}


def pages():
    """The lessons that have a page of their own."""
    paths = sorted(glob.glob(os.path.join(ROOT, "docs/lessons/[0-9]*.md")))
    return [re.fullmatch(r"# (\d+)\. (.*?)\n(.*)", text_of(path), re.DOTALL).groups() for path in paths]


def told_of_itself(name):
    """The title and the question of a program that no lesson tells of."""
    comment = re.match(r"# (.*)", text_of(f"examples/{name}.rbl"))
    return name, ASKED[name] if name in ASKED else comment[1]


def programs(folder):
    """The names of the programs of a folder."""
    return sorted(os.path.basename(path)[:-4] for path in glob.glob(os.path.join(ROOT, folder, "*.rbl")))


def entries(folder, name, group, title, question):
    """A program with each of its schedules."""
    schedules = sorted(os.path.basename(path) for path in glob.glob(os.path.join(ROOT, folder, f"{name}.*schedule")))
    source = text_of(f"{folder}/{name}.rbl")
    return [{"group": group, "name": schedule.removesuffix(".schedule"), "title": title, "question": question,
             "program": source, "schedule": text_of(f"{folder}/{schedule}")} for schedule in sorted(schedules, key=len)]


def lessons():
    """All that is listed, in the order of the list."""
    walk = told_in(sections("docs/TUTORIAL.md"), r"```rbl examples/(\w+)\.rbl", r"\A\s*(\S.*)$")
    classics = told_in(pages(), r"```rbl examples/classics/(\w+)\.rbl", r"^\*\*Question\.\*\* (.*)$")
    found = []
    for folder, group, told in (("examples", WALK, walk), ("examples/classics", CLASSICS, classics)):
        for name in sorted(told, key=lambda name: (int(told[name][0].split(".")[0]), list(told).index(name))):
            found += entries(folder, name, group, *told[name])
    for name in programs("examples"):
        if name not in walk:
            found += entries("examples", name, SMALL, *told_of_itself(name))
    return found
