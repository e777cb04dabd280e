"""What the tests share: the repository, the programs, runs of them with what these took, and cases, which are counted one by one."""
import contextlib
import functools
import glob
import os
import shutil
import subprocess
import sys
import tempfile
import unittest
from collections import namedtuple
from concurrent.futures import ThreadPoolExecutor

ROOT = os.path.dirname(os.path.dirname(os.path.abspath(__file__)))
HERE = os.path.dirname(os.path.abspath(__file__))
# The commands that are those of `rblview`.
VIEWS = ("trace", "page", "explain", "explore", "faults")
# The most bytes of a file, and of an image.
MOST = 1_048_576
MOST_OF_IMAGE = 16_777_216
# How many seconds a run may take by the clock, on a machine that has much else to do.
PATIENCE = 300

# Whether each case is told (`./test -v`).
TELLS_EACH = False

Answer = namedtuple("Answer", "status out err")
Measured = namedtuple("Measured", "status seconds megabytes")


@functools.cache
def _told(name):
    """What tools/program.sh tells of a program, which it compiles where it has to."""
    return subprocess.run([os.path.join(ROOT, "tools/program.sh"), name, "native"], stdout=subprocess.PIPE, text=True, check=False)


def program(name):
    """Where a program stands: what RBL or RBLVIEW names, or one of this machine, which is compiled if it does not stand."""
    if name.upper() in os.environ:
        return os.path.abspath(os.environ[name.upper()])
    told = _told(name)
    if told.returncode != 0:
        raise AssertionError(f"there is no {name}: tools/program.sh ends with {told.returncode}")
    return told.stdout.rstrip("\n")


def builds(name):
    """The program, and beside it what the other compiler made of the same sources, where that stands there."""
    other = f"{program(name)}.by-rattle"
    return [program(name), other] if os.path.exists(other) else [program(name)]


def program_of(words):
    """The program to which words are said."""
    return program("rblview" if words and words[0] in VIEWS else "rbl")


def read(path):
    """The bytes of a file."""
    with open(path, "rb") as file:
        return file.read()


def text_of(path):
    """The text of a file of the repository."""
    return read(os.path.join(ROOT, path)).decode()


def write(path, content):
    """Writes bytes, or a text, to a file."""
    with open(path, "wb") as file:
        file.write(content if isinstance(content, bytes) else content.encode())


@contextlib.contextmanager
def folder_of(files):
    """A folder with such files alone, by their names, which is there for a while."""
    with tempfile.TemporaryDirectory() as folder:
        for name, content in files.items():
            write(os.path.join(folder, name), content)
        yield folder


def answer(words, folder=ROOT, said_to=None, out=subprocess.PIPE, environment=()):
    """What a program answers to words, in a folder: the one whose words they are, if no other is named."""
    ran = subprocess.run([said_to or program_of(words), *words], cwd=folder, env={**os.environ, **dict(environment)}, stdin=subprocess.DEVNULL,
                         stdout=out, stderr=subprocess.PIPE, timeout=PATIENCE, check=False)
    return Answer(ran.returncode, ran.stdout or b"", ran.stderr)


def answer_over(words, files):
    """What a program answers to words over files by their names."""
    with folder_of(files) as folder:
        return answer(words, folder)


def measured(words, folder, seconds):
    """The status of a run, its processor seconds and its peak memory; it is ended after so many seconds."""
    told = subprocess.run([sys.executable, "-IS", os.path.join(HERE, "measure.py"), str(seconds), program_of(words), *words], cwd=folder,
                          stdin=subprocess.DEVNULL, stdout=subprocess.PIPE, text=True, check=True).stdout.split()
    return Measured(int(told[0]), float(told[1]), int(told[2]) / 1024)


def c_compiler():
    """A C compiler of this machine, or that of the toolchain; or nothing."""
    for name in ("cc", "gcc", "clang"):
        if shutil.which(name):
            return [name]
    tool = shutil.which("rt")
    beside = glob.glob(os.path.join(os.path.dirname(os.path.realpath(tool)), "../toolchain/bin/clang")) if tool else []
    return [*beside, "--target=x86_64-unknown-linux-gnu", "-fuse-ld=lld"] if beside else []


@functools.cache
def _kept():
    """A folder that is there as long as the tests run."""
    return tempfile.TemporaryDirectory()


@functools.cache
def hook():
    """The library that refuses and notes calls of a program (hook.c)."""
    made = os.path.join(_kept().name, "hook.so")
    subprocess.run([*c_compiler(), "-shared", "-fPIC", "-O1", "-o", made, os.path.join(HERE, "hook.c")], check=True)
    return made


def hooked(**asked):
    """The environment in which a program is run under the hook, with what is asked of it."""
    return {"LD_PRELOAD": hook(), **{name.upper(): str(what) for name, what in asked.items()}}


class Cases(unittest.TestCase):
    """Tests of many cases, of which each is counted, of programs that are there."""

    PROGRAMS = ("rbl", "rblview")

    @classmethod
    def setUpClass(cls):
        for name in cls.PROGRAMS:
            program(name)

    def each(self, cases, wrong, at_once=os.cpu_count()):
        """Each case is a name and what `wrong` takes, which gives what is wrong with the case, or nothing. Some are asked at once."""
        with ThreadPoolExecutor(at_once) as pool:
            asked = [(name, pool.submit(wrong, *given)) for name, *given in cases]
            self.assertTrue(asked, "there is no case")
            for name, one in asked:
                with self.subTest(name):
                    if told := one.result():
                        self.fail(told)


def tell(line, if_asked=False):
    """Tells what was seen beside that nothing failed; some of it only where each case is told."""
    if TELLS_EACH or not if_asked:
        print(f"    {line}", flush=True)


def tell_most(taken):
    """Tells the slowest and the largest of runs with their names."""
    slowest, its_name = max(taken, key=lambda one: one[0].seconds)
    largest, name = max(taken, key=lambda one: one[0].megabytes)
    tell(f"the slowest took {slowest.seconds:.2f} s ({its_name}), the largest {largest.megabytes:.0f} MB ({name})")
