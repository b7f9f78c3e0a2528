"""Saves and loads images (`run --save NAME`, `run --load NAME`), and prints what it takes and what is refused.

    python3 bench/images.py PROGRAM greatest [--small]    times of loading and saving 2^20 declarations
    python3 bench/images.py PROGRAM changed [--small]     10,000 images with a changed byte, bit, length or count
    python3 bench/images.py PROGRAM kept [--small]        100 chains of runs that load what the one before has saved
    python3 bench/images.py PROGRAM ends                  names under which nothing can be saved, or another file is

Without one of these words all four tables are printed. No BLAKE3 hash is made here: a change in what the hash is of
must be told as a wrong hash, where nothing before it is told.
"""
import os
import random

from measuring import best, main, megabytes, memory, run, seconds, text_of, thousands, timed
from request_lines import random_bytes, unit, write

MOST = 1 << 20


# ---- greatest


def greatest(program, scale):
    rng, half = random.Random(3), MOST // 2 // scale
    entries = ["--entries", str(2 * half), "--log", str(2 * half)]
    first, second = (write(name, ["declare " + unit(rng) for _ in range(half)]) for name in ("first", "second"))
    declares, count = [first, "/", second], [write("count", ["count"])]
    cases = [
        (f"two rounds of {thousands(half)} `declare` each", 2 * half, declares),
        ("the same, and the image is saved", 2 * half, ["--save", "great.img", *declares]),
        ("one `count` over the loaded image", 1, ["--load", "great.img", *count]),
        ("the same, and the image is saved again", 1, ["--load", "great.img", "--save", "again.img", *count]),
    ]
    rows = []
    for what, calls, words in cases:
        took = best(timed([program, "run", *entries, *words]))
        assert text_of("output").endswith(f"\nend {calls} live {2 * half}\n".encode())
        rows.append([what, seconds(took.wall), memory(took), megabytes(os.path.getsize("output"))])
    assert os.path.getsize("great.img") == 60 + 17 * 2 * half
    # What stands behind the image is asked last: so all of it is read, and nothing is served or printed.
    with open("great.img", "ab") as image:
        image.write(b"0")
    took = best(timed([program, "run", *entries, "--load", "great.img", *count], status=9))
    assert text_of("output") == f"fault 9 image trailing at {60 + 17 * 2 * half}\n".encode()
    rows.append(["the image with a byte more is read, and refused", seconds(took.wall), memory(took), "0 MB"])
    return ["run", "time", "memory", "output"], rows


# ---- changed


def fault(image):
    """The first fault that is asked before the declarations, where the hash is right in the unchanged image only."""
    if len(image) < 28:
        return f"short at {len(image)}"
    if image[:8] != b"ISCCREGI":
        return "magic at 0"
    if int.from_bytes(image[8:12], "big") != 1:
        return "version at 8"
    if int.from_bytes(image[12:20], "big") > 1 << 34:
        return "range at 12"
    count = int.from_bytes(image[20:28], "big")
    if count > MOST:
        return "range at 20"
    if len(image) < 60 + 17 * count:
        return f"short at {len(image)}"
    return None


def change(rng, image):
    """The image with one change."""
    other = bytearray(image)
    form = rng.randrange(7)
    if form == 0:
        other[rng.randrange(len(image))] ^= 1 << rng.randrange(8)
    elif form == 1:
        other[rng.randrange(len(image))] = rng.randrange(256)
    elif form == 2:
        other = other[: rng.randrange(len(image))]
    elif form == 3:
        other += random_bytes(rng, rng.randrange(1, 40))
    elif form == 4:
        counts = [0, 1, MOST, MOST + 1, rng.getrandbits(64), rng.randrange(50)]
        other[20:28] = rng.choice(counts).to_bytes(8, "big")
    elif form == 5:
        bases = [0, 1 << 34, (1 << 34) + 1, rng.getrandbits(64)]
        other[12:20] = rng.choice(bases).to_bytes(8, "big")
    else:
        at = rng.randrange(len(image))
        other[at : at + 8] = random_bytes(rng, 8)
    return bytes(other)


def fault_of_changed(image, other):
    """The fault that a changed image has, if it has one."""
    if other == image:
        return None
    count = int.from_bytes(other[20:28], "big")
    behind = f"trailing at {60 + 17 * count}" if other[: len(image)] == image else f"sum at {28 + 17 * count}"
    return fault(other) or behind


def some_image(program, rng):
    """The image of a run of random declarations and withdrawals."""
    forms = [f"declare {unit(rng)}" if rng.randrange(4) else f"withdraw {rng.randrange(20)}" for _ in range(40)]
    status, _ = run(program, "run", "--save", "some.img", write("some", forms[: rng.randrange(40)]))
    assert status == 0
    return text_of("some.img")


def is_refused(program, image, other):
    """Loads a changed image: whether it is refused, as it must be; else it must be saved again byte by byte."""
    with open("other.img", "wb") as file:
        file.write(other)
    status, output = run(program, "run", "none", "--load", "other.img", "--save", "left.img")
    found = fault_of_changed(image, other)
    if found is None:
        assert status == 0 and text_of("left.img") == other, (status, output)
    else:
        assert (status, output) == (9, f"fault 9 image {found}\n".encode()), (found, status, output)
    return found is not None


def changed(program, scale):
    rng, number, refused = random.Random(7), 10_000 // scale, 0
    write("none", [])
    for i in range(number):
        if i % 100 == 0:
            image = some_image(program, rng)
        refused += is_refused(program, image, change(rng, image))
    rows = [
        ["refused with status 9, and the fault and place of the format", thousands(refused)],
        ["left as they were by the change: loaded, and saved again byte by byte", thousands(number - refused)],
    ]
    return [f"{thousands(number)} changed images", "number"], rows


# ---- kept


def day_line(rng, units):
    return rng.choice([f"declare {rng.choice(units)}", f"withdraw {rng.randrange(40)}", f"near {rng.choice(units)} 15"])


def served_day(program, rng, units, base, words):
    """A run of two rounds that is loaded and saved, and checked: the base that it leaves."""
    write("day", [day_line(rng, units) for _ in range(30)])
    status, output = run(program, "run", *words, "--save", "day.img", "day", "/", "day")
    assert status == 0, output
    with open("saved", "wb") as file:
        file.write(output)
    assert run(program, "check", "saved")[0] == 0
    history = output[output.index(b"iscc-history 1\n") :]
    assert f"\nround 0 base {base} ".encode() in history
    replies = [line.split(b" = ")[1] for line in history.split(b"\n") if b" = " in line]
    base += sum(reply.startswith((b"id ", b"withdrawn ")) for reply in replies)
    image, live = text_of("day.img"), int(history.rsplit(b" live ", 1)[1])
    assert len(image) == 60 + 17 * live and int.from_bytes(image[12:20], "big") == base
    return base


def kept(program, scale):
    rng, number, accepted = random.Random(11), max(100 // scale, 2), 0
    for _ in range(number):
        units = [unit(rng) for _ in range(6)]
        base = served_day(program, rng, units, 0, [])
        for _ in range(5):
            base = served_day(program, rng, units, base, ["--load", "day.img"])
        accepted += 6
    told = f"{accepted} accepted by `check`, ids go on, each image has the base and as many declarations as are live"
    return ["runs", "outcome"], [[f"{number} chains of 6", told]]


# ---- ends


def all_files():
    """The bytes of each file of the folder."""
    return {name: text_of(name) for name in os.listdir(".") if os.path.isfile(name)}


def ends(program, scale):
    """The status of different names, and the line of the fault; no other file may be touched."""
    os.mkdir("folder")
    write("one", ["declare ISCC:AAAQAAAAAAAAAAAA"])
    assert run(program, "run", "--save", "day.img", "one")[0] == 0
    cases = [
        ("saved under the name of a folder", "--save folder one", 5),
        ("saved into a folder that isn't there", "--save absent/day.img one", 5),
        ("saved into `/dev/full`", "--save /dev/full one", 5),
        ("a folder is loaded", "--load folder one", 4),
        ("the loaded image is saved over", "--load day.img --save day.img one", 0),
        ("the request file is saved over", "--save one one", 0),
    ]
    rows = []
    for what, words, wanted in cases:
        before = all_files()
        status, output = run(program, "run", *words.split())
        after, saved = all_files(), words.split()[-2]
        assert status == wanted, output
        assert after == (before if status else {**before, saved: after[saved]})
        assert status or after[saved].startswith(b"ISCCREGI")
        rows.append([what, str(status), f"`{output.decode().strip()}`" if status else "the file has the image"])
    return ["run", "status", "outcome"], rows


if __name__ == "__main__":
    main(__doc__, {"greatest": greatest, "changed": changed, "kept": kept, "ends": ends})
