"""Runs generated workloads (`make SEED N S`), compares each line with what it must be, and prints what they take.

    python3 bench/make.py PROGRAM counts [--small]    small workloads, and numbers that are refused
    python3 bench/make.py PROGRAM growth [--small]    one session with more and more units, until a run takes a minute
    python3 bench/make.py PROGRAM order [--small]     what the order of withdrawals costs, by `run`

Without one of these words all three tables are printed. The large workloads are run once.
"""
import random

from measuring import best, main, memory, seconds, text_of, thousands, timed
from request_lines import unit, write

FACTOR, STEP = 6364136223846793005, 1442695040888963407

# The words of each row.
SMALL = [(1, 16, 1), (7, 1000, 4), (7, 6250, 16), (1, 0, 1), (1, 1000001, 1)]

# How many units one session declares.
GROWTH = [50000, 100000, 250000, 500000, 1000000]

MINUTE = 60


def numbers(seed):
    """The numbers behind a seed."""
    while True:
        seed = (seed * FACTOR + STEP) % 2**64
        yield seed


def hit_count(seed, units):
    """How many pairs of a centre and a unit differ in one bit or none."""
    rest = numbers(seed)
    centres = [next(rest) for _ in range(16)]
    bodies = [centres[i % 16] ^ 1 << (next(rest) >> 58) for i in range(units)]
    return sum(bin(body ^ centre).count("1") <= 1 for body in bodies for centre in centres)


def wanted(seed, each, sessions):
    """The line of a workload, and its status."""
    units = each * sessions
    if not (each > 0 and 1 <= sessions <= 16 and units <= 1_000_000):
        return "fault 2 words", 2
    ended = units // 2
    calls, accepted, live = units + 16 + ended, units + ended, units - ended
    return f"made calls {calls} accepted {accepted} live {live} hits {hit_count(seed, units)}", 0


def served(program, words, times):
    """The row of a workload, and what its best run took."""
    line, status = wanted(*words)
    took = best(timed([program, "make", *map(str, words)], status, times))
    assert text_of("output").decode() == line + "\n", text_of("output")
    shown = f"`make {words[0]} {words[1]} {words[2]}`"
    return [shown, f"`{line}`", str(status), seconds(took.wall), seconds(took.user), memory(took)], took


HEADS = ["words", "line", "status", "time", "user", "memory"]


def counts(program, scale):
    return HEADS, [served(program, words, 3)[0] for words in SMALL]


def growth(program, scale):
    """Stops behind the first run that takes a minute."""
    rows, last = [], 0
    for units in GROWTH:
        if last > MINUTE / scale:
            break
        row, took = served(program, (1, units // scale, 1), 3 if last < 5 else 1)
        rows.append(row)
        last = took.wall
    return HEADS, rows


def order(program, scale):
    """The same declarations, and then other withdrawals in the next round."""
    rng, number = random.Random(1), 100_000 // scale
    half = number // 2
    write("declares", ["declare " + unit(rng) for _ in range(number)])
    cases = [
        ("one `count`", ["count"]),
        (f"the {thousands(half)} lowest ids are withdrawn, by rising id", [f"withdraw {i}" for i in range(half)]),
        (f"the {thousands(half)} highest, by falling id", [f"withdraw {number - 1 - i}" for i in range(half)]),
    ]
    rows = []
    for what, items in cases:
        words = ["--entries", str(number), "--log", str(number), "declares", "/", write("second", items)]
        took = best(timed([program, "run", *words]))
        rows.append([what, seconds(took.wall), seconds(took.user)])
    return [f"behind {thousands(number)} declarations", "time", "user"], rows


if __name__ == "__main__":
    main(__doc__, {"counts": counts, "growth": growth, "order": order})
