"""The folder share/: what `man` and shells read of both programs is what tools/share writes from the texts of the programs' help.

The commands, and what each takes, are those that the programs print themselves. Each place of each command is tried in each shell that is here:
bash and zsh by their functions, fish by its own command, and some places as they are typed, on a terminal that this makes.
"""
import contextlib
import functools
import os
import pty
import re
import select
import shutil
import signal
import subprocess
import sys
import time
import unittest
from importlib.machinery import SourceFileLoader
from importlib.util import module_from_spec, spec_from_loader

from .shared import PATIENCE, ROOT, Cases, answer, folder_of, program, read, text_of, write
from .told import words_of_all

PROGRAMS = ("rbl", "rblview")
SHARE = os.path.join(ROOT, "share")
# The files of which one is to be found for each word, by its ending; and one that no command asks for.
ENDINGS = {"SOURCE": "rbl", "SCHEDULE": "schedule", "RECORD": "record", "IMAGE": "image", "SESSION": "session", "HISTORY": "history", "PAGE": "html"}
FILES = {**{f"one.{ending}": "" for ending in ENDINGS.values()}, "any.txt": "", "two words.rbl": ""}
# What is read of the repository to write the folder.
READ = ("tools/share", "crates/rb_asking/src/guides.rt", "crates/rb_reasons/src/listed.rt", "docs/LANGUAGE.md")
ROW = re.compile(r"  (\w+)((?: \[?[A-Z]+\]?)*): (.+)\n      (.+)\n")
# A place behind a program, in each shell: the function is called as the shell calls it, and what it offers is written line by line.
IN_BASH = '. "$0/bash-completion/completions/$1"; COMP_WORDS=("$@"); COMP_CWORD=$(($# - 1)); "_$1"; printf "%s\\n" "${COMPREPLY[@]}"'
IN_ZSH = """
_describe() { print -l ${${(P)4}%%:*} }; _message() { }; _files() { print -l ${~2} folder }; _wanted() { shift $argv[(i)--]; print -l $@ }
fpath=($0/zsh/site-functions); autoload -Uz _$1; words=("$@"); CURRENT=$#; _$1
"""
# What bash and fish offer where a word is begun, in letters of either case; zsh asks for all and chooses by itself.
BEGUN = {"rbl st": {"stuck"}, "rbl check tw": {"two words.rbl"}, "rbl load fol": {"folder"}, "rblview explain v": {"V1", "V2", "V3", "V4"},
         "rblview explain s1": {"S1", "S10", "S11"}, "rblview explain OVERR": {"overrun"}, "rbl help c": {"check", "code", "compile"}}
# How a shell on a terminal gets to know the completions, and what it writes when it is ready.
READY = "here> "
BEGINS = {
    "bash --norc --noprofile -i": "for name in rbl rblview; do . ~/.local/share/bash-completion/completions/$name; done; PS1='he''re> '\n",
    "zsh -f -i": "fpath=(~/.local/share/zsh/site-functions $fpath); autoload -Uz compinit; compinit -u -D; PS1='he''re> '\n",
}
# What is typed, and what stands in its place when the tab key was pressed.
TYPED = {
    "rbl ru": "rbl run ", "rbl help st": "rbl help stuck ", "rbl run one.rbl o": "rbl run one.rbl one.schedule ",
    "./rbl domino on": "./rbl domino one.history ", "rbl check an": "rbl check any.txt ", "rbl code one.rbl > an": "rbl code one.rbl > any.txt ",
    "rbl check tw": "rbl check two\\ words.rbl ", "rblview explain overr": "rblview explain overrun ", "rblview page o": "rblview page one.html ",
}


@functools.cache
def share():
    """The script, as a module."""
    loader = SourceFileLoader("share", os.path.join(ROOT, "tools/share"))
    module = module_from_spec(spec_from_loader("share", loader))
    loader.exec_module(module)
    return module


@functools.cache
def told(name):
    """What a program tells of its commands, without the line of usage."""
    with folder_of({}) as folder:
        real = answer(["help"], folder, program(name))
    return "".join(line for line in (real.out + real.err).decode().splitlines(keepends=True) if not line.startswith("usage: "))


@functools.cache
def commands(name):
    """The commands that a program tells of, each with the words that it takes."""
    return {row[0]: re.findall("[A-Z]+", row[1]) for row in ROW.findall(told(name))}


def wanted(name, command, word):
    """What is offered for a word of a command: all files of its ending and the folder, or words."""
    if word in ENDINGS:
        return {file for file in FILES if file.endswith(f".{ENDINGS[word]}")} | {"folder"}
    return {"NUMBER": set(), "NAME": set(commands(name)) if command == "help" else set(words_of_all())}[word]


def places():
    """Each place of each command: its name, the words up to it, and what is offered there."""
    for name in PROGRAMS:
        yield f"{name} ..", [name, ""], {*commands(name), *{"help", "version"}.intersection(commands("rblview"))}
        yield f"{name} help ..", [name, "help", ""], set(commands(name))
        for command, takes in commands(name).items():
            for number, word in enumerate(takes):
                before = [name, command, *["one"] * number]
                yield f"{' '.join(before)} {word}", [*before, ""], wanted(name, command, word)
            yield f"{name} {command} and all its words", [name, command, *["one"] * len(takes), ""], set()


def places_and_words():
    """The same, and words that are begun."""
    yield from places()
    for words, offered in BEGUN.items():
        yield words, words.split(), offered


def homely(folder):
    """The environment of a shell whose home is a folder, where share/ is installed beside two programs of these names."""
    shutil.copytree(SHARE, os.path.join(folder, ".local/share"))
    os.makedirs(os.path.join(folder, "bin"))
    for name in PROGRAMS:
        os.symlink(shutil.which("true"), os.path.join(folder, "bin", name))
    kept = {name: what for name, what in os.environ.items() if not name.startswith(("XDG_", "ZDOTDIR", "BASH_ENV"))}
    return {**kept, "HOME": folder, "TERM": "dumb", "PATH": f"{folder}/bin:{os.environ['PATH']}"}


def lines_of(words, folder, environment=None):
    """The lines that a shell writes, and what it tells."""
    ran = subprocess.run(words, cwd=folder, env=environment, stdin=subprocess.DEVNULL, capture_output=True, timeout=PATIENCE, check=False)
    return list(filter(None, ran.stdout.decode().split("\n"))), ran.stderr.decode()


def misoffered(shell, words, offered):
    """What is wrong with what bash or zsh offers for the last of some words."""
    with folder_of(FILES) as folder:
        os.mkdir(os.path.join(folder, "folder"))
        real, err = lines_of([*shell, SHARE, *words], folder)
    return f"{sorted(real)} for {sorted(offered)} {err}" if err or set(real) != offered else None


def misoffered_in_fish(words, offered):
    """What is wrong with what fish offers there: first the files of the ending, and then all others."""
    with folder_of({}) as home, folder_of(FILES) as folder:
        os.mkdir(os.path.join(folder, "folder"))
        lines, err = lines_of(["fish", "-c", "complete -C $argv[1]", " ".join(words)], folder, homely(home))
    real = [line.split("\t")[0].rstrip("/") for line in lines]
    others = {*FILES} if "folder" in offered else set()
    is_right = set(real[:len(offered)]) == offered and set(real[len(offered):]) <= others
    return None if is_right and not err else f"{real} for {sorted(offered)} {err}"


class Terminal:
    """A shell on a terminal of its own, for some minutes."""

    def __init__(self, words, folder, environment):
        self.until = time.monotonic() + PATIENCE
        self.process, self.end = pty.fork()
        if self.process == 0:
            os.chdir(folder)
            os.execvpe(words[0], words, environment)

    def shows(self, typed, awaited):
        """Types a text, and gives what comes until what is awaited stands there, or no more comes."""
        os.write(self.end, typed.encode())
        come = ""
        while awaited not in come and select.select([self.end], [], [], max(0, self.until - time.monotonic()))[0]:
            try:
                come += os.read(self.end, 65536).decode(errors="replace")
            except OSError:
                break
        return come

    def close(self):
        """Hangs up."""
        os.close(self.end)
        os.kill(self.process, signal.SIGKILL)
        os.waitpid(self.process, 0)


@contextlib.contextmanager
def terminal(shell):
    """A shell that is ready on a terminal, in a folder with the files."""
    with folder_of({}) as home, folder_of(FILES) as folder:
        one = Terminal(shell.split(), folder, homely(home))
        try:
            yield one
        finally:
            one.close()


def spelled(page):
    """A page as `man` shows it in letters, with one blank between words."""
    shown = subprocess.run(["mandoc", "-T", "ascii", page], stdout=subprocess.PIPE, check=True).stdout.decode()
    return " ".join(re.sub(".\x08", "", shown).split())


def unread(row, told_there):
    """What is wrong where a row has to stand in a text."""
    return None if row in told_there else f"{row!r} is not told"


def unwritten(path, text):
    """What is wrong with a file that has to have a text."""
    return None if text_of(path) == text else "tools/share writes another one"


class Share(Cases):
    def test_help(self):
        """The table that the script reads is what the programs print."""
        for name in PROGRAMS:
            rows = [f"  {' '.join([guide.name, *share().words_of(guide)])}: {guide.does}\n      {guide.example}\n" for guide in share().guides(name)]
            self.each([(f"{name}: {row.split(':')[0].strip()}", row, told(name)) for row in rows], unread)
            self.assertEqual(told(name), "".join(rows))

    def test_names(self):
        """The names of faults and causes are those of the definition."""
        self.assertEqual(sorted(share().names()), sorted(words_of_all()))

    def test_written(self):
        """Each file is what the script writes, and there is no other one."""
        made = share().files()
        self.each([(path, path, text) for path, text in made.items()], unwritten)
        there = [os.path.relpath(os.path.join(folder, name), ROOT) for folder, _, names in os.walk(SHARE) for name in names]
        self.assertEqual(sorted(there), sorted(made))

    def test_check(self):
        """The script tells which file is another one, and then writes it."""
        with folder_of({}) as folder:
            for path in [*READ, *share().files()]:
                os.makedirs(os.path.dirname(os.path.join(folder, path)), exist_ok=True)
                shutil.copyfile(os.path.join(ROOT, path), os.path.join(folder, path))
            script, guides = ([sys.executable, os.path.join(folder, READ[0])], os.path.join(folder, READ[1]))
            self.assertEqual(lines_of([*script, "--check"], folder), ([], ""))
            write(guides, read(guides).replace(b"a program as an image", b"a program as it is"))
            others = [path for path in share().files() if "rblview" not in path and "bash" not in path]
            self.assertEqual(lines_of([*script, "--check"], folder), ([f"{path} is not what tools/share writes" for path in others], ""))
            self.assertEqual(lines_of(script, folder), ([], ""))
            self.assertEqual(lines_of([*script, "--check"], folder), ([], ""))

    @unittest.skipUnless(shutil.which("mandoc"), "no mandoc here, so no page is tried")
    def test_pages(self):
        """The pages are well formed, and show each command with its example."""
        for name in PROGRAMS:
            page = os.path.join(SHARE, f"man/man1/{name}.1")
            with self.subTest(f"{name}.1"):
                self.assertEqual(lines_of(["mandoc", "-T", "lint", "-W", "warning", page], ROOT), ([], ""))
            shown = spelled(page)
            rows = [f"{command}{takes} {does[0].upper()}{does[1:]}. {example} " for command, takes, does, example in ROW.findall(told(name))]
            self.each([(f"{name}.1: {row.split(' ')[0]}", row, shown) for row in rows], unread)

    @unittest.skipUnless(shutil.which("bash"), "no bash here")
    def test_bash(self):
        self.each([(f"bash: {name}", ["bash", "-c", IN_BASH], *place) for name, *place in places_and_words()], misoffered)

    @unittest.skipUnless(shutil.which("zsh"), "no zsh here")
    def test_zsh(self):
        self.each([(f"zsh: {name}", ["zsh", "-f", "-c", IN_ZSH], *place) for name, *place in places()], misoffered)

    @unittest.skipUnless(shutil.which("fish"), "no fish here")
    def test_fish(self):
        self.each([(f"fish: {name}", *place) for name, *place in places_and_words()], misoffered_in_fish)

    def typed(self, shell):
        """On a terminal, the tab key makes what is typed longer."""
        with terminal(shell) as one:
            self.assertIn(READY, one.shows(BEGINS[shell], READY))
            for typed, stands in TYPED.items():
                with self.subTest(f"{shell.split()[0]}: {typed}"):
                    self.assertIn(stands, one.shows(f"\x15{typed}\t", stands))

    @unittest.skipUnless(shutil.which("bash") and os.path.exists("/dev/ptmx"), "no bash here, or no terminal can be made")
    def test_typed_in_bash(self):
        self.typed("bash --norc --noprofile -i")

    @unittest.skipUnless(shutil.which("zsh") and os.path.exists("/dev/ptmx"), "no zsh here, or no terminal can be made")
    def test_typed_in_zsh(self):
        self.typed("zsh -f -i")
