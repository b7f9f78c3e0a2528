"""Request lines and request files at random."""
import base64

# The headers of units of 64 bits of six kinds.
HEADS = [b"\x00\x01", b"\x10\x01", b"\x20\x01", b"\x21\x01", b"\x30\x01", b"\x40\x01"]


def random_bytes(rng, count):
    return bytes(rng.randrange(256) for _ in range(count))


def unit(rng):
    """The text of a random unit of 64 bits, of one of six kinds."""
    bits = rng.choice(HEADS) + rng.getrandbits(64).to_bytes(8, "big")
    return "ISCC:" + base64.b32encode(bits).decode().rstrip("=")


def line(rng, units):
    """A request line of any form, some of them refused or skipped."""
    form = rng.randrange(14)
    if form < 4:
        return "declare " + rng.choice(units)
    if form < 6:
        return f"near {rng.choice(units)} {rng.randrange(16)}"
    return [
        f"withdraw {rng.randrange(60)}",
        f"show {rng.randrange(60)}",
        "count",
        f"after {rng.randrange(80)}",
        "instance " + random_bytes(rng, rng.randrange(5)).hex(),
        rng.choice(["bad", "near x", "declare", "withdraw -1", "near AAAQAAAAAAAAAAAA 99", "instance 0g"]),
        rng.choice(["", "# a comment", "  "]),
        "declare ISCC:KUAAAAAAAAAAAAAAAAAAAAAAAAAAA",
    ][form - 6]


def lines(rng, units, count):
    """So many request lines of any form."""
    return [line(rng, units) for _ in range(count)]


def write(name, items):
    """Writes a file of these lines, and gives its name."""
    with open(name, "w") as file:
        file.writelines(item + "\n" for item in items)
    return name
