"""The pages for readers: how many words they have at most, where links lead, that each crate has a page, that what it names is there, and that the
tables of faults and causes are those that the texts of `rblview explain` give."""
import functools
import glob
import os
import re
import shutil
import subprocess
import unittest

from .checking import faults_table, links
from .checking.program import PAGES, line_of
from .shared import ROOT, Cases, text_of

# The most words of a page, of those that are not named here, and of all together but for lessons and the pages of crates.
MOST_WORDS = {"README.md": 1_100, "docs/LANGUAGE.md": 12_000, "docs/MACHINE.md": 6_000, "docs/PROOFS.md": 5_000}
MOST_OF_OTHERS = 4_000
MOST_OF_ALL = 45_000
MOST_IN = {"crates/": 800, "docs/lessons/": 1_200}
# The paragraph in which the page of each crate tells what may be changed there, and what that costs above.
TOUCHED = re.compile(r"^\*\*What may be touched\*\*: \w.+\.$", re.MULTILINE)
# The page whose example is a change that was made elsewhere: what that names is not here.
NAMES_A_CHANGE = "docs/CHANGING.md"
# Where the oldest node is told that will do, and how.
OLDEST_NODE = {"README.md": r"node (\d+) or later", "play/rbl.js": r"OLDEST = (\d+)", "tools/program.sh": r'"\$\{version%%\.\*\}" -ge (\d+)'}

CRATE = re.compile(r"^(\w+)[^:\n]*:", re.MULTILINE)
PATH = re.compile(r"`((?:src|specs|proofs|must-fail|rb_\w+)/[\w./*-]*)`")
NAME = re.compile(r"`((?:\w+::)*\w+)`")
WORD = re.compile(r"\w+")


def is_there(page):
    """Whether a page stands there."""
    return os.path.exists(os.path.join(ROOT, page))


def wanted_pages():
    """The page that each crate of crates.txt is to have."""
    listed = re.sub(r"^#.*\n", "", text_of("crates.txt"), flags=re.MULTILINE)
    return [f"crates/{name}/README.md" for name in CRATE.findall(listed)]


def pages_of_crates():
    """Those of them that are there."""
    return list(filter(is_there, wanted_pages()))


@functools.cache
def words_of_sources():
    """All words of the sources of all crates, of the programs and of their definitions and proofs, and the names of these and some other files."""
    found = set()
    for places in ("crates/*/must-fail/*", "bench/*", "tests/*.py"):
        for path in glob.glob(os.path.join(ROOT, places)):
            found.add(os.path.basename(path).split(".")[0].removeprefix("test_"))
    for kind in ("rt", "antt"):
        for path in glob.glob(os.path.join(ROOT, f"crates/*/*/**/*.{kind}"), recursive=True):
            if "/out/" not in path:
                found.update(WORD.findall(text_of(path)), [os.path.splitext(os.path.basename(path))[0]])
    return found


def words_of(page):
    """How many words a page has."""
    return len(text_of(page).split())


def length(page):
    """What is wrong with the length of a page."""
    words = words_of(page)
    of_its_kind = [most for folder, most in MOST_IN.items() if page.startswith(folder)]
    most = MOST_WORDS.get(page, *of_its_kind or [MOST_OF_OTHERS])
    return f"it has {words} words, and may have {most}" if words > most else None


def touched(page):
    """What is wrong with what the page of a crate tells of changes there."""
    told = len(TOUCHED.findall(text_of(page)))
    return None if told == 1 else f"it has {told} paragraphs of what may be touched"


def wrong_path(page, path):
    """What is wrong with a path that the page of a crate names: it begins in the crate, or with the name of another one."""
    top = "crates" if path.startswith("rb_") else os.path.dirname(page)
    return None if glob.glob(os.path.join(ROOT, top, path)) or glob.glob(os.path.join(ROOT, top, f"{path}.antt")) else f"{path} is no file"


def wrong_name(name):
    """What is wrong with a name in backquotes: each of its words that looks like one of code stands in the sources."""
    words = [word for word in name.split("::") if "_" in word or re.search(r"[a-z][A-Z]", word)]
    missing = [word for word in words if word not in words_of_sources() and not os.path.exists(os.path.join(ROOT, "crates", word))]
    return f"no source has {missing}" if missing else None


def paths_of(page):
    """The paths that the page of a crate names, each with what is wrong with it."""
    text = links.without_blocks(text_of(page))
    for path in PATH.finditer(text):
        yield f"{page}:{line_of(text, path.start())}", wrong_path(page, path.group(1))


def names_of(page):
    """The names of code on a page, each with what is wrong with it."""
    text = links.without_blocks(text_of(page))
    for name in NAME.finditer(text):
        yield f"{page}:{line_of(text, name.start())}", wrong_name(name.group(1))


class Pages(Cases):
    PROGRAMS = ()

    def test_lengths(self):
        self.each([(page, page) for page in [*PAGES, *pages_of_crates()]], length)

    def test_length_of_all(self):
        words = sum(words_of(page) for page in PAGES if not page.startswith(tuple(MOST_IN)))
        self.assertLessEqual(words, MOST_OF_ALL, "words of all pages together")

    def test_tables_of_faults(self):
        self.each([(name, name) for name in faults_table.HEADS], faults_table.wrong_table)

    def test_crates_have_pages(self):
        self.each([(page, page) for page in wanted_pages()], lambda page: None if is_there(page) else "it is not there")

    def test_crates_tell_what_may_be_touched(self):
        self.each([(page, page) for page in pages_of_crates()], touched)

    def test_crates_are_listed(self):
        listed = text_of("docs/CRATES.md")
        self.each([(page, f"(../{page}) |") for page in wanted_pages()], lambda link: None if link in listed else "no row of it")

    def test_paths_of_crates(self):
        self.each([case for page in pages_of_crates() for case in paths_of(page)], lambda wrong: wrong)

    def test_names(self):
        pages = [page for page in [*PAGES, *pages_of_crates()] if page != NAMES_A_CHANGE]
        self.each([case for page in pages for case in names_of(page)], lambda wrong: wrong)

    def test_oldest_node(self):
        """The page and the scripts ask for one version."""
        self.assertEqual(1, len({re.search(form, text_of(path)).group(1) for path, form in OLDEST_NODE.items()}))

    @unittest.skipUnless(shutil.which("rt"), "the toolchain is not here")
    def test_toolchain(self):
        """The page names the one that is here."""
        kit = subprocess.run(["rt", "version"], stdout=subprocess.PIPE, text=True, check=True).stdout.split()[0]
        self.assertEqual(kit, re.search(r"`rt version`: ([\w-]+)", text_of("README.md")).group(1))

    def test_links(self):
        self.each([check for page in [*PAGES, *pages_of_crates()] for check in links.links(page)], lambda wrong: wrong)
