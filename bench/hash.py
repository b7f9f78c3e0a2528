"""Makes Instance-Codes of files (`instance FILE`), and prints what it takes.

    python3 bench/hash.py PROGRAM [sizes] [--small]

Byte i of a file is i modulo 251, as in the test vectors of BLAKE3. Where there is the command `b3sum` or the Python
module `blake3`, it hashes the same files on one processor, its time stands beside, and the codes must be those of its
hashes.
"""
import base64
import importlib.util
import shutil
import sys

from measuring import best, main, megabytes, memory, seconds, text_of, thousands, timed

SIZES = [0, 1, 2**20, 2**24, 2**28]

# The first bytes of the hashes of the files of 0 and 1 bytes, from the test vectors of BLAKE3.
KNOWN = {0: "af1349b9f5f9a1a6", 1: "2d3adedff11b61f1"}

PATTERN = bytes(i % 251 for i in range(251 << 12))


def write_file(size):
    with open("file", "wb") as file:
        for begin in range(0, size, len(PATTERN)):
            file.write(PATTERN[: size - begin])


def code(hash_begin):
    """The text of the Instance-Code with these first 64 bits of a hash."""
    return "ISCC:" + base64.b32encode(b"\x40\x01" + bytes.fromhex(hash_begin[:16])).decode()


def other():
    """The name and the words of another program that hashes the file."""
    if shutil.which("b3sum"):
        return "b3sum", [shutil.which("b3sum"), "--num-threads", "1", "file"]
    if importlib.util.find_spec("blake3"):
        script = "import blake3; print(blake3.blake3(open('file', 'rb').read()).hexdigest())"
        return "Python's blake3", [sys.executable, "-c", script]
    return "b3sum or Python's blake3", None


def row(program, size, words):
    write_file(size)
    took = best(timed([program, "instance", "file"]))
    told = text_of("output").decode()
    beside = "not there"
    if size in KNOWN:
        assert told == code(KNOWN[size]) + "\n", told
    if words:
        beside = seconds(best(timed(words, output="hash")).wall)
        assert told == code(text_of("hash").decode()) + "\n", told
    return [thousands(size), seconds(took.wall), seconds(took.user), memory(took), speed(size, took), beside]


def speed(size, took):
    """Of small files the time is that of the start, and tells no speed."""
    return f"{megabytes(size / took.wall)}/s" if size >= 2**24 else ""


def sizes(program, scale):
    name, words = other()
    heads = ["bytes", "time", "user", "memory", "speed", name]
    return heads, [row(program, size // scale if size > 1 else size, words) for size in SIZES]


if __name__ == "__main__":
    main(__doc__, {"sizes": sizes})
