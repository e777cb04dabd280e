"""Runs a command, with nothing to read and nothing shown, and tells its status, its processor seconds and its peak memory in kB.

    measure.py SECONDS PROGRAM WORDS..

It is ended after so many processor seconds. It is started from here, and not from a test, since the peak that the system tells of a program
is at least that of whoever started it, and this is small.
"""
import os
import resource
import sys

most, *words = sys.argv[1:]
resource.setrlimit(resource.RLIMIT_CPU, (int(most), int(most)))
none = os.open(os.devnull, os.O_RDWR)
child = os.posix_spawn(words[0], words, os.environ, file_actions=[(os.POSIX_SPAWN_DUP2, none, stream) for stream in (0, 1, 2)])
_, state, usage = os.wait4(child, 0)
print(os.waitstatus_to_exitcode(state), usage.ru_utime + usage.ru_stime, usage.ru_maxrss)
