"""Checks long histories (`check FILE`), and prints what it takes.

    python3 bench/check.py PROGRAM histories [--small]    lawful histories, which histories.c writes
    python3 bench/check.py PROGRAM lines [--small]        lines of 2^28 bytes that can't stand
    python3 bench/check.py PROGRAM bodies [--small]       a query by the body, beside the loop alone in C (scan.c)

Without one of these words all three tables are printed. A C compiler that is called `cc` is needed.
"""
import os
import subprocess

from measuring import best, compiled, main, megabytes, memory, run, seconds, text_of, thousands, timed

HEADS = ["history", "bytes", "time", "user", "memory"]


def checked(program, what, told, status=0):
    """The row of a history that stands in the file `history`, and what the best run took."""
    took = best(timed([program, "check", "history"], status))
    assert text_of("output").decode() == told + "\n", text_of("output")
    size = megabytes(os.path.getsize("history"))
    return [what, size, seconds(took.wall), seconds(took.user), memory(took)], took


def write_history(*words):
    """Writes the file `history` with histories.c."""
    with open("history", "wb") as file:
        subprocess.run([compiled("histories.c"), *map(str, words)], stdout=file, check=True)


def queries(program, declares, count, radius, kinds):
    write_history("queries", declares, count, radius, kinds)
    asked = f"{thousands(count)} queries of radius {radius}" if count else "no queries"
    what = f"{thousands(declares)} declarations of {kinds} kind{'s' * (kinds > 1)}, {asked}"
    return checked(program, what, f"lawful rows {declares + count} live {declares}")


def withdrawals(program, declares, ended, counts, order):
    write_history("withdrawals", declares, ended, counts, order)
    how = {"rising": "by rising id", "random": "in random order"}[order]
    what = f"{thousands(declares)} declarations, {thousands(ended)} withdrawals {how}, {thousands(counts)} counts"
    return checked(program, what, f"lawful rows {declares + ended + counts} live {declares - ended}")


def histories(program, scale):
    declares = 1_000_000 // scale
    rows = [
        queries(program, 100_000 // scale, 10_000 // scale, 8, 1)[0],
        queries(program, 200_000 // scale, 100_000 // scale, 4, 5)[0],
        queries(program, declares, 20_000 // scale, 8, 5)[0],
        queries(program, declares, 0, 8, 5)[0],
        withdrawals(program, declares, 900_000 // scale, 200_000 // scale, "rising")[0],
        withdrawals(program, declares, 900_000 // scale, 200_000 // scale, "random")[0],
    ]
    return HEADS, rows


def write_long(front, byte, size):
    """Writes the file `history`: a front, and then one byte again and again up to the size."""
    with open("history", "wb") as file:
        file.write(front)
        for _ in range(size >> 16):
            file.write(byte * (1 << 16))
        file.truncate(size)


def lines(program, scale):
    size, head = 2**28 // scale, b"iscc-history 1\n"
    first = head + b"round 0 base 0 entries 8 log 8 callers 1\n0.0 @0 near ISCC:AAAQAAAAAAAAAAAA 1 = hits 9"
    write_long(head, b"x", size)
    rows = [checked(program, "a line of letters behind the first line", "fault 10 line 2 form", 10)[0]]
    write_long(first, b" ", size)
    rows.append(checked(program, "a row of spaces behind `hits 9`", "fault 10 line 3 form", 10)[0])
    return HEADS, rows


def bodies(program, scale):
    """One query is a pass over the bodies of its kind, a fifth of all."""
    declares, count = 1_000_000 // scale, 20_000 // scale
    with_queries = queries(program, declares, count, 8, 5)[1]
    without = queries(program, declares, 0, 8, 5)[1]
    passed = declares // 5 * count
    nanoseconds = (with_queries.user - without.user) * 1e9 / passed
    rows = [["`check`, with its queries less without them", f"{nanoseconds:.2f} ns"]]
    for words in (1, 4):
        status, told = run(compiled("scan.c"), str(declares // 5), str(count), str(words))
        assert status == 0
        rows.append([f"the loop in C, a body in each {8 * words} bytes", f"{float(told.split()[0]):.2f} ns"])
    return [f"{thousands(count)} passes over {thousands(declares // 5)} bodies", "user time a body"], rows


if __name__ == "__main__":
    main(__doc__, {"histories": histories, "lines": lines, "bodies": bodies})
