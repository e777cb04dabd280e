"""tools/watch: it runs `rbl` at each save of a file among its words, however the file is saved, and ends after as many runs as it is asked for."""
import contextlib
import os
import subprocess
import time

from .shared import PATIENCE, ROOT, Cases, answer, folder_of, program, read, write

WATCH = os.path.join(ROOT, "tools/watch")
SOURCE = "program a;\nprocess p { var x; x := 1; }\nend.\n"
ACCEPTED, REFUSED = "p 1\n", "p 1\nq 1\n"
WORDS = ["run", "a source.rbl", "a.schedule"]
MISUSED = [[], ["run"], ["-n"], ["-n", "2"], ["-n", "0", "run", "a"], ["-n", "x", "run", "a"], ["-n", "2", "run"], ["-n", "-1", "run", "a"]]
# In place of inotifywait: it notes its words, and tells that nothing was saved, or that it can't wait.
STAND_IN = '#!/bin/sh\necho "$@" >> "$NOTED"\nsleep 0.1\nexit {status}\n'


def misuse(words):
    """What is wrong with the answer to words that are none of its own."""
    told = answer(words, said_to=WATCH)
    return None if told == (2, b"", b"usage: tools/watch [-n RUNS] COMMAND FILE..\n") else f"{told}"


def in_place(path, text):
    write(path, text)


def by_name(path, text):
    """As many editors save: a new file takes the place of the old one."""
    write(f"{path}~", text)
    os.replace(f"{path}~", path)


@contextlib.contextmanager
def watching(folder, runs, **environment):
    """A watch that ends after so many runs, and the file that has what it writes; it is ended if the test goes wrong."""
    shown = os.path.join(folder, "shown")
    with open(shown, "wb") as file, subprocess.Popen([WATCH, "-n", str(runs), *WORDS], cwd=folder, stdin=subprocess.DEVNULL, stdout=file,
                                                     stderr=subprocess.STDOUT, env={**os.environ, "RBL": program("rbl"), **environment}) as watch:
        try:
            yield watch, shown
        finally:
            watch.kill()


def awaited(shown, runs):
    """Waits until so many runs are shown."""
    until = time.monotonic() + PATIENCE
    while read(shown).count(b"watch: status ") < runs:
        if time.monotonic() > until:
            raise AssertionError(f"no run {runs}: {read(shown)!r}")
        time.sleep(0.05)


def wanted(folder):
    """What it shows of a run over the files as they are."""
    told = answer(WORDS, folder)
    return f"watch: rbl {' '.join(WORDS)}\n".encode() + told.out + told.err + f"watch: status {told.status}\n".encode()


def shown_of(save, **environment):
    """What it shows of a run without a schedule, one with an accepted schedule, and one with a refused one; what it should show; its status."""
    with folder_of({"a source.rbl": SOURCE}) as folder, watching(folder, 3, **environment) as (watch, shown):
        path, all_wanted = os.path.join(folder, "a.schedule"), b""
        for runs, text in enumerate((None, ACCEPTED, REFUSED), 1):
            if text is not None:
                save(path, text)
            awaited(shown, runs)
            all_wanted += wanted(folder)
        return read(shown), all_wanted, watch.wait(PATIENCE)


class Watch(Cases):
    PROGRAMS = ("rbl",)

    def test_usage(self):
        self.each([(" ".join(words) or "no words", words) for words in MISUSED], misuse)

    def test_saves(self):
        """However a file is saved, what is shown is what `rbl` writes of it."""
        for save in (in_place, by_name):
            with self.subTest(save.__name__):
                shown, whole, status = shown_of(save)
                self.assertEqual((shown, status), (whole, 1))

    def test_waiting(self):
        """It waits by inotifywait for what is saved in the folder, and by itself where that can't wait."""
        for status in (1, 2):
            with self.subTest(f"inotifywait ends with {status}"), folder_of({"inotifywait": STAND_IN.format(status=status)}) as tools:
                os.chmod(os.path.join(tools, "inotifywait"), 0o755)
                noted = os.path.join(tools, "noted")
                shown, whole, _ = shown_of(by_name, PATH=f"{tools}:{os.environ['PATH']}", NOTED=noted)
                self.assertEqual(shown, whole)
                self.assertEqual(set(read(noted).decode().splitlines()), {"-qq -t 1 -e close_write -e moved_to -e delete -- . ."})

    def test_unsaved(self):
        """It rests where nothing is saved: a run over files that stay as they are is not run again."""
        with folder_of({"a source.rbl": SOURCE, "a.schedule": ACCEPTED}) as folder, watching(folder, 2) as (watch, shown):
            awaited(shown, 1)
            write(os.path.join(folder, "other.rbl"), SOURCE)
            time.sleep(2)
            self.assertEqual((watch.poll(), read(shown)), (None, wanted(folder)))
