"""Timed runs of a program, and the tables of the pages of bench/.

A script of this folder is called as

    python3 bench/NAME.py PROGRAM [TABLE ..] [--small]

and prints tables of the page NAME.md as Markdown: those that are named, or all. PROGRAM is the file of the program as
it is proved and built. With --small all sizes are small, which is for trying the script. Python 3.8 or later on Linux.

Each script works in a temporary folder of its own, which it removes.
"""
import datetime
import math
import os
import platform
import re
import subprocess
import sys
import tempfile
import time
from typing import NamedTuple

STARTER = os.path.join(os.path.dirname(os.path.abspath(__file__)), "starter.py")


class Took(NamedTuple):
    """What a run took: seconds and bytes. FLOOR is the memory below which runs aren't told apart."""

    wall: float
    user: float
    system: float
    memory: int
    floor: int


def run(*words):
    """The status and the standard output of a run that isn't timed."""
    done = subprocess.run(words, stdout=subprocess.PIPE, stderr=subprocess.PIPE)
    assert done.stderr == b"", done.stderr
    return done.returncode, done.stdout


def timed(words, status=0, times=3, output="output"):
    """What each of so many runs took. The status of each is the given one; the last output is left in a file."""
    return [timed_once(words, status, output) for _ in range(times)]


def timed_once(words, status, output):
    told = subprocess.run([sys.executable, "-I", "-S", STARTER, output, *words], stdout=subprocess.PIPE, check=True)
    ended, *numbers = told.stdout.decode().split()
    assert int(ended) == status, (words, ended)
    wall, user, system, memory, floor = numbers
    return Took(float(wall), float(user), float(system), int(memory), int(floor))


def best(runs):
    """The run that took the least time."""
    return min(runs)


def seconds(number):
    return f"{number:.2f} s" if number < 10 else f"{number:.0f} s"


def megabytes(number):
    return f"{number / 1e6:.0f} MB"


def memory(took):
    """The greatest resident set of a run."""
    if took.memory <= took.floor:
        return f"below {math.ceil(took.floor / 5e6) * 5} MB"
    return megabytes(took.memory)


def thousands(number):
    return f"{number:,}"


def text_of(name):
    """The bytes of a file."""
    with open(name, "rb") as file:
        return file.read()


def compiled(source):
    """The file of a C program of this folder, which is compiled by cc."""
    words = ["cc", "-O2", "-Wall", "-o", os.path.splitext(source)[0], os.path.join(os.path.dirname(STARTER), source)]
    if platform.machine() in ("x86_64", "AMD64"):
        words.insert(1, "-mpopcnt")
    subprocess.run(words, check=True)
    return os.path.abspath(words[-2])


def processors():
    """How many processors this process may use, and their clock where Linux tells it."""
    count = len(os.sched_getaffinity(0))
    with open("/proc/cpuinfo") as file:
        clock = re.search(r"cpu MHz\s*: ([\d.]+)", file.read())
    return f"{count} processors" + (f" of {float(clock.group(1)) / 1000:.1f} GHz" if clock else "")


def busy():
    """The seconds of processor time that all programs have had since the system's start, and those of this script."""
    with open("/proc/stat") as file:
        ticks = [int(word) for word in file.readline().split()[1:9]]
    idle = ticks[3] + ticks[4]
    return (sum(ticks) - idle) / os.sysconf("SC_CLK_TCK"), sum(os.times()[:4])


class OtherLoad:
    """How many processors other programs have kept busy since this was made."""

    def __init__(self):
        self.begin, self.all, self.own = time.perf_counter(), *busy()

    def processors(self):
        now, own = busy()
        others = (now - self.all) - (own - self.own)
        return min(max(others / (time.perf_counter() - self.begin), 0), os.cpu_count())


def print_table(heads, rows):
    print("| " + " | ".join(heads) + " |")
    print("|" + "---|" * len(heads))
    for row in rows:
        print("| " + " | ".join(row) + " |", flush=True)


def head_line(name, scale, others):
    """What stands above a table: its command, the date and the machine."""
    small = " --small" if scale > 1 else ""
    command = f"`python3 bench/{os.path.basename(sys.argv[0])} PROGRAM {name}{small}`"
    return f"{command}, {datetime.date.today()}, {processors()}, {others:.1f} of them busy with other programs:"


def main(doc, tables):
    """Prints the tables that the words of the script ask for.

    TABLES has a function for each name: of the program and of a number by which sizes are divided. It gives the heads
    and the rows of the table.
    """
    words = [word for word in sys.argv[1:] if word != "--small"]
    scale = 100 if "--small" in sys.argv else 1
    if not words or not set(words[1:]) <= set(tables):
        sys.exit(doc)
    program = os.path.abspath(words[0])
    home = os.getcwd()
    with tempfile.TemporaryDirectory() as folder:
        os.chdir(folder)
        for name in words[1:] or tables:
            others = OtherLoad()
            heads, rows = tables[name](program, scale)
            print(head_line(name, scale, others.processors()) + "\n")
            print_table(heads, rows)
            print(flush=True)
        os.chdir(home)
