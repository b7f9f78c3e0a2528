"""Serves request files of random lines (`run FILE ..`), checks what is written, and prints what it takes.

    python3 bench/sessions.py PROGRAM many [--small]        the same calls by 1, 2, 4 and 16 sessions
    python3 bench/sessions.py PROGRAM large [--small]       runs of 16 large files, and of eight rounds
    python3 bench/sessions.py PROGRAM compared [--small]    2,000 small runs: checked, and replies against rows
    python3 bench/sessions.py PROGRAM ends                  words that end in different ways

Without one of these words all four tables are printed.
"""
import os
import random

from measuring import best, main, megabytes, memory, run, seconds, text_of, thousands, timed
from request_lines import lines, unit, write


def rows_by_session(history, rounds):
    """The numbers and replies of the rows of each session. ROUNDS has the number of sessions of each round."""
    rows, at = [[[] for _ in range(sessions)] for sessions in rounds], -1
    for row in history.split("\n"):
        if row.startswith("round "):
            at += 1
        elif " = " in row:
            place, reply = row.split(" = ", 1)
            session, number = place.split(" ", 1)[0].split(".")
            rows[at][int(session)].append((int(number), reply))
    return rows


def replies_are_rows(output, rounds):
    """Whether the reply lines of each session are the replies of its rows, in order."""
    head, history = output.decode().split("iscc-history 1\n", 1)
    told = {}
    for part in head.split("replies ")[1:]:
        place, *replies = part.split("\n")[:-1]
        told[place] = [reply for reply in replies if not reply.startswith("bad ")]
    rows = rows_by_session(history, rounds)
    return told == {
        f"{r} {s}": [reply for _, reply in sorted(rows[r][s])] for r in range(len(rounds)) for s in range(rounds[r])
    }


def accepted(program, rounds):
    """How many rows `check` tells of the file `output`, whose replies must be those of its rows."""
    status, told = run(program, "check", "output")
    assert status == 0, told
    assert replies_are_rows(text_of("output"), rounds)
    return int(told.split()[2])


# ---- many


def many_files(rng, units, form, calls, sessions):
    """The files of sessions that make so many calls together. Before queries each declares its share of the units."""
    names = []
    for s in range(sessions):
        own = units[s * len(units) // sessions : (s + 1) * len(units) // sessions]
        items = ["declare " + text for text in own] if form == "near" else []
        tail = " 3" if form == "near" else ""
        items += [f"{form} {rng.choice(units)}{tail}" for _ in range(calls // sessions)]
        names.append(write(f"s{s}", items))
    return names


def many(program, scale):
    """The best and the worst of three runs of each."""
    rng = random.Random(9)
    units = [unit(rng) for _ in range(4096)]
    declares, queries = 480_000 // scale, 40_000 // scale
    forms = [
        ("declare", declares, f"{thousands(declares)} `declare`, of which 4,096 find an entry"),
        ("near", queries, f"4,096 `declare`, then {thousands(queries)} `near` of radius 3"),
    ]
    rows = []
    for form, calls, what in forms:
        row = [what]
        for sessions in (1, 2, 4, 16):
            runs = timed([program, "run", *many_files(rng, units, form, calls, sessions)])
            row.append(f"{min(runs).wall:.2f} to {max(runs).wall:.2f} s")
        rows.append(row)
    return ["requests, in all", "1 session", "2", "4", "16"], rows


# ---- large


def served(program, what, words, rounds):
    """The row of a run: what it takes, what it writes, and what `check` takes for that."""
    took = best(timed([program, "run", *words]))
    size = os.path.getsize("output")
    check = best(timed([program, "check", "output"], output="checked"))
    rows = accepted(program, rounds)
    written = megabytes(size) if size >= 1_000_000 else f"{thousands(size)} bytes"
    return [what, seconds(took.wall), memory(took), written, thousands(rows), seconds(check.wall)]


def comment_file(name, size):
    """A file of comments and empty lines, cut at a size."""
    part = b"# " + b"abcdefghij" * 6 + b"\n\n"
    with open(name, "wb") as file:
        file.write((part * (size // len(part) + 1))[:size])
    return name


def growing(rng, most):
    """The words of 8 rounds of one session, each with twice the entries of the one before, all of which it fills."""
    entries = most >> 7
    words = ["--entries", str(entries), "--log", str(entries)]
    for r in range(8):
        fresh = entries if r == 0 else entries // 2
        words += [f"/{entries}:{fresh}"] * (r > 0) + [write(f"g{r}", ["declare " + unit(rng) for _ in range(fresh)])]
        entries *= 2
    return words


def large(program, scale):
    rng, count, most = random.Random(8), 30_000 // scale, 2**20 // scale
    units = [unit(rng) for _ in range(2000)]
    files = [[write(f"r{r}s{s}", lines(rng, units, count)) for s in range(16)] for r in range(8)]
    rounds = files[0] + [word for names in files[1:] for word in ["/"] + names]
    comments = [comment_file(f"c{s}", 2**24 // scale) for s in range(16)]
    every = f"files of {thousands(count)} lines of every form"
    rows = [
        served(program, f"16 {every}", files[0], [16]),
        served(program, f"16 files of {thousands(2**24 // scale)} bytes of comments", comments, [16]),
        served(program, f"8 rounds of 1 session, up to {thousands(most)} entries", growing(rng, most), [1] * 8),
        served(program, f"8 rounds of 16 {every}", rounds, [16] * 8),
    ]
    return ["run", "time", "memory", "output", "rows", "`check`"], rows


# ---- compared


def changes(output):
    """How often the history changes from one session to another."""
    sessions = [row.split(".")[0] for row in output.decode().split("\n") if " @" in row and " = " in row]
    return sum(a != b for a, b in zip(sessions, sessions[1:]))


def run_into_output(program, *words):
    """The status and the output of a run, which is left in the file `output`."""
    status, output = run(program, "run", *words)
    with open("output", "wb") as file:
        file.write(output)
    return status, output


def small_runs(program, count):
    rng, mixed = random.Random(7), 0
    for _ in range(count):
        sessions, units = rng.randrange(4, 17), [unit(rng) for _ in range(6)]
        names = [write(f"s{s}", lines(rng, units, 50)) for s in range(sessions)]
        status, output = run_into_output(program, *names)
        assert status == 0, output
        accepted(program, [sessions])
        mixed += changes(output) >= sessions
    told = f"{thousands(count)} accepted, in {mixed} of them as many changes of session as sessions or more"
    return [f"{thousands(count)} runs of 4 to 16 files", told]


def random_rounds(rng):
    """The words of 1 to 8 rounds of sizes of their own, and the number of sessions of each."""
    units = [unit(rng) for _ in range(6)]
    words = ["--entries", str(rng.randrange(1, 20)), f"--log={rng.randrange(1, 80)}"]
    rounds = [rng.randrange(1, 5) for _ in range(rng.randrange(1, 9))]
    for r, sessions in enumerate(rounds):
        if r > 0:
            words.append(rng.choice(["/", f"/{rng.randrange(1, 20)}:{rng.randrange(1, 80)}"]))
        words += [write(f"r{r}s{s}", lines(rng, units, 30)) for s in range(sessions)]
    return words, rounds


def small_rounds(program, count):
    rng, refused = random.Random(10), 0
    for _ in range(count):
        words, rounds = random_rounds(rng)
        status, output = run_into_output(program, *words)
        if status == 8:
            _, _, _, _, _, live, _, entries = output.decode().split()
            assert output.startswith(b"fault 8 round ") and int(live) > int(entries), output
            refused += 1
        else:
            assert status == 0, output
            accepted(program, rounds)
    told = f"{count - refused} accepted, {refused} refused for a round with fewer entries than are live"
    return [f"{thousands(count)} runs of 1 to 8 rounds of 1 to 4 files", told]


def compared(program, scale):
    return ["runs", "outcome"], [small_runs(program, 1000 // scale), small_rounds(program, 1000 // scale)]


# ---- ends


def write_ends():
    """Writes the files that the words of `ends` name."""
    declare = "declare ISCC:AAAQAAAAAAAAAAAA"
    write("three", [declare] * 3)
    write("one", ["count"])
    write("turns", [item for i in range(100) for item in (declare, f"withdraw {2 * i}")] + [declare] * 4)
    comment_file("huge", 2**24 + 1)
    os.mkdir("folder")


def ends(program, scale):
    """The status of different words, and the line of the fault, or what `check` says of the output."""
    write_ends()
    cases = [
        ("`run` with one file 16 times", "one " * 16, 0),
        ("with one file 17 times", "one " * 17, 2),
        ("with a folder as the second file", "one folder", 4),
        ("with a second file that isn't there", "one absent", 3),
        ("with a second file of 2^24 + 1 bytes", "one huge", 7),
        ("`--entries 4`: 100 times a declaration and its withdrawal, then 4 declarations", "--entries 4 turns", 0),
        ("three declarations, then the mark `/2:64`", "three /2:64 one", 8),
    ]
    rows = []
    for what, words, wanted in cases:
        status, output = run_into_output(program, *words.split())
        line = output if status else run(program, "check", "output")[1]
        assert status == wanted and b" = full " not in output, output
        rows.append([what, str(status), f"`{line.decode().strip()}`"])
    return ["words", "status", "line of the fault, or of `check`"], rows


if __name__ == "__main__":
    main(__doc__, {"many": many, "large": large, "compared": compared, "ends": ends})
