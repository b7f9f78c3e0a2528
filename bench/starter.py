"""Runs one program and writes what it took.

    python3 -I -S starter.py OUTPUT PROGRAM [WORD ..]

The program's standard output goes into the file OUTPUT. Written are its status, the seconds that passed, the seconds of
processor time in the program itself and in the system, its greatest resident set, and that of this process, in bytes.

Linux counts the resident set of the process that starts a program into that of the program. So this process is a small
one, and what is below its own size isn't told apart.
"""
import os
import sys
import time


def resident():
    """The greatest resident set of this process itself."""
    with open("/proc/self/status") as told:
        return next(int(line.split()[1]) for line in told if line.startswith("VmHWM:")) * 1024


output, program = sys.argv[1], sys.argv[2]
file = os.open(output, os.O_WRONLY | os.O_CREAT | os.O_TRUNC, 0o644)
begin = time.perf_counter()
child = os.posix_spawn(program, sys.argv[2:], os.environ, file_actions=[(os.POSIX_SPAWN_DUP2, file, 1)])
_, ended, used = os.wait4(child, 0)
wall = time.perf_counter() - begin
status = os.WEXITSTATUS(ended) if os.WIFEXITED(ended) else 128 + os.WTERMSIG(ended)
print(status, wall, used.ru_utime, used.ru_stime, used.ru_maxrss * 1024, resident())
