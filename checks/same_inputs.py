"""Compares two programs on seeded random inputs: same_inputs.py OLD NEW INPUTS SEED.

An input is a few lines of line protocol, well formed or hostile, with texts whose lengths lie around those at which a
program may keep them in another way. The two programs read the same file with the same batch and limit, some of them
with an output that takes nothing; every other case is a run of a random configuration over one to three such files, with
filters, processors and several outputs. A moment, which is that of the run, counts as `now`.
"""

import os
import random
import re
import subprocess
import sys
import tempfile
import time
from concurrent.futures import ThreadPoolExecutor

from same_configurations import configuration

SECONDS = 20
SHOWN = 5
LENGTHS = [0, 1, 2, 7, 8, 9, 15, 16, 17, 21, 22, 23, 24, 25, 30, 31, 32, 33, 40, 63, 64, 65, 255, 256, 257]
CHARACTERS = ["a", "b", "Z", "0", "_", "-", ".", ":", "/", "%", "é", "ß", "€", "語", "😀", "\u07ff", "\uffff"]
MARKS = [",", "=", " ", '"', "\\", "\\\\", "\\,", "\\=", "\\ ", '\\"', "\\n", "#", "\t", "\r", "\0", "\x7f", ";", "|"]
DIGITS = [1, 2, 7, 8, 9, 15, 16, 17, 18, 19, 20, 21, 40]
SOUND = [
    "0", "-0", "+1", "1i", "-1i", "+7i", "1u", "+1u", "1.", ".5", "-.5", "1e3", "1E-3", "2.5e9", "1e-10", "5e-10", "15e-10",
    "1e+2", "1e-400", "0e999", "00", "007i", "9223372036854775807i", "-9223372036854775808i", "18446744073709551615u",
    "18446744073709551615", "-18446744073709551615.999999999", "18446744073.709551615", "18446744073.709551616",
    "0.000000001", "0.0000000005", "0.0000000015", "0.00000000250", "99999999", "999999999", "12345678",
    "1234567890123456", "0.123456789", "0.1234567891", "0.12345678949999999999999999999999",
]
NUMBERS = SOUND + [
    "i", "u", "-", "+", ".", "-.", "1e", "1e+", "e1", "-1u", "1e28", "1e29", "1e400", "9223372036854775808i",
    "-9223372036854775809i", "18446744073709551616u", "18446744073709551616", "18446744073709551615.9999999996",
    "123456789012345678901234567890", "NaN", "inf", "-inf", "1_000", "0x10", "1 ", "1iu", "--1", "+-1i", "1.2.3",
]
WORDS = ["t", "T", "true", "True", "TRUE", "f", "F", "false", "False", "FALSE", "tRUE", "tr", "truei", "falsE"]
TIMES = [
    "", "0", "-1", "+1", "1", "1790000000000000000", "9223372036854775807", "-9223372036854775808", "0001",
    "9223372036854775808", "-9223372036854775809", "1.5", "1i", "x", "12 ", "12 13", "000000000000000000000000000001",
]
BROKEN = [b"\xff", b"\xc3", b"\xe2\x82", b"\xf0\x9f\x98", b"\xed\xa0\x80", b"\xc0\xaf", b"\x80"]


def text(rng, marks):
    """A text of a length around a boundary, in bytes, of characters of one to four bytes, perhaps with marks."""
    length = rng.choice(LENGTHS)
    plain = rng.random() < 0.6
    made, size = [], 0
    while size < length:
        one = "x" if plain else rng.choice(CHARACTERS)
        if marks and rng.random() < 0.05:
            one = rng.choice(MARKS)
        if size + len(one.encode()) > length:
            one = "y"
        made.append(one)
        size += len(one.encode())
    if length and not plain and rng.random() < 0.3:
        # The last character ends just at the length.
        made[-1] = "z"
    return "".join(made)


def word(rng, clean):
    """A name, a key or the value of a tag: mostly short and plain. A clean one is filled and has no marks."""
    if rng.random() < 0.5:
        return rng.choice(["cpu", "host", "a", "b", "v", "usage_idle", "region", "time", "c_1", "k%d" % rng.randrange(12)])
    if clean:
        return text(rng, False) or "k"
    return text(rng, rng.random() < 0.3) or rng.choice(["k", ""])


def number(rng, clean):
    kind = rng.random()
    if kind < 0.4:
        return rng.choice(SOUND if clean else NUMBERS)
    longest = 9 if clean else 13
    digits = "".join(rng.choice("0123456789") for _ in range(rng.choice(DIGITS[:longest])))
    if kind < 0.7:
        sign = "" if clean else rng.choice(["", "-", "+"])
        return sign + digits + rng.choice(["", "i", "u"])
    at = rng.randrange(len(digits) + 1)
    power = rng.choice(["", "", "", "e%d" % rng.randrange(-40, 2 if clean else 40)])
    return rng.choice(["", "-"]) + digits[:at] + "." + digits[at:] + power


def value(rng, clean):
    kind = rng.random()
    if kind < 0.6:
        return number(rng, clean)
    if kind < 0.7:
        return rng.choice(WORDS[:10] if clean else WORDS)
    if kind < 0.97 or clean:
        return '"' + text(rng, not clean and rng.random() < 0.4) + '"'
    return text(rng, True)


def line(rng):
    """A line as bytes without its end. A clean one is read; another has a fault most times."""
    clean = rng.random() < 0.7
    many = rng.random()
    tags = rng.choice([63, 64, 65, 70]) if many < 0.01 else rng.choice([0, 0, 1, 1, 2, 3, 5, 8, 9, 17])
    fields = rng.choice([255, 256, 257, 300]) if many > 0.99 else rng.choice([1, 1, 1, 2, 3, 8, 9, 16, 17])
    head = [word(rng, clean) or "m"]
    head += ["%s=%s" % ("t%d" % i if tags > 60 else word(rng, clean), word(rng, clean)) for i in range(tags)]
    body = ["%s=%s" % ("f%d" % i if fields > 200 else word(rng, clean), value(rng, clean)) for i in range(fields)]
    made = ",".join(head) + rng.choice([" ", " ", " ", "  "]) + ",".join(body)
    if rng.random() < 0.8:
        made += " " + rng.choice(TIMES[:9] if clean else TIMES) + rng.choice(["", "", "", " ", "  "])
    return made.encode()


def harmed(rng, made):
    """The line with a few of its bytes changed, put in, or left out."""
    made = bytearray(made)
    for _ in range(rng.randint(1, 4)):
        at = rng.randrange(len(made) + 1)
        kind = rng.random()
        if kind < 0.4:
            made[at:at] = rng.choice(MARKS).encode()
        elif kind < 0.6:
            made[at:at] = rng.choice(BROKEN)
        elif kind < 0.8:
            del made[at:at + rng.choice([1, 1, 2, 10])]
        else:
            made[at:at + 1] = bytes([rng.randrange(256)])
    return bytes(made)


def lines(rng):
    """A whole input."""
    made = []
    for _ in range(rng.choice([0, 1, 1, 2, 5, 12, 20])):
        kind = rng.random()
        if kind < 0.05:
            made.append(rng.choice([b"", b"   ", b"# a comment", b"  # one more", b"#\xff", b"\r"]))
        elif kind < 0.25:
            made.append(harmed(rng, line(rng)))
        elif kind < 0.27:
            made.append(bytes(rng.randrange(256) for _ in range(rng.randrange(60))))
        elif kind < 0.30:
            made.append(line(rng) + b"\r")
        else:
            made.append(line(rng))
    if rng.random() < 0.01:
        made *= 60
    end = b"" if rng.random() < 0.2 else b"\n"
    return b"\n".join(made) + end


class Case:
    """An input with the words of its run."""

    def __init__(self, seed, number):
        rng = random.Random("same %s %d" % (seed, number))
        self.number = number
        self.files = {"input": lines(rng)}
        limit = rng.choice([1, 2, 3, 10, 100, 10000])
        batch = rng.randint(1, min(limit, 50))
        refusing = rng.random() < 0.05
        self.words = ["pipe", "input", "/dev/full" if refusing else "output", str(batch), str(limit)]
        self.written = ["output"]
        if number % 2:
            self.files.update({"input%d" % more: lines(rng) for more in range(rng.choice([0, 0, 1, 2]))})
            text, self.written = configuration(rng, list(self.files), refusing)
            self.files["agent.toml"] = text.encode()
            self.words = ["run", "agent.toml"]

    def size(self):
        return sum(len(content) for content in self.files.values())


def without_moments(content, began, ended):
    """The bytes with `now` in place of each number that is a moment of the run, in nanoseconds or in seconds."""

    def plain(found):
        return b"now" if began <= int(found.group()) <= ended else found.group()

    def seconds(found):
        return b"now" if began // 10**9 <= int(found.group(1)) <= ended // 10**9 else found.group()

    content = re.sub(rb"(?<!\d)\d{19}(?!\d)", plain, content)
    return re.sub(rb"(?<!\d)(\d{10})(\.\d{1,9})?(?!\d)", seconds, content)


def left_by(program, case, folder):
    """What a program leaves of a case, by name."""
    os.mkdir(folder)
    for name, content in case.files.items():
        with open(os.path.join(folder, name), "wb") as out:
            out.write(content)
    began = time.time_ns() - 2_000_000_000
    ran = subprocess.run(
        [program, *case.words], cwd=folder, stdin=subprocess.DEVNULL, capture_output=True, timeout=SECONDS, check=False,
    )
    ended = time.time_ns() + 2_000_000_000
    left = {"status": ran.returncode, "report": ran.stdout, "standard error": ran.stderr}
    for name in (*case.written, "agent.journal"):
        path = os.path.join(folder, name)
        if os.path.exists(path):
            with open(path, "rb") as got:
                left[name] = without_moments(got.read(), began, ended)
    return left


def compare(old, new, case, top):
    """What differs, and how many metrics the old program read; the folders stay where something differs."""
    folder = os.path.join(top, str(case.number))
    os.mkdir(folder)
    first = left_by(old, case, os.path.join(folder, "old"))
    second = left_by(new, case, os.path.join(folder, "new"))
    read = first.get("agent.journal", b"").count(b"\nm ")
    differing = sorted(name for name in first.keys() | second.keys() if first.get(name) != second.get(name))
    if not differing:
        subprocess.run(["rm", "-rf", folder], check=True)
    return case, differing, read


def main(old, new, inputs, seed):
    top = tempfile.mkdtemp(prefix="hogzent-same-")
    differ, read, size = 0, 0, 0
    with ThreadPoolExecutor(max_workers=4) as pool:
        cases = (Case(seed, number) for number in range(int(inputs)))
        for case, differing, metrics in pool.map(lambda case: compare(old, new, case, top), cases):
            read += metrics
            size += case.size()
            if differing:
                differ += 1
                if differ <= SHOWN:
                    print("same: input %d: %s differs (%s)" % (
                        case.number, ", ".join(differing), os.path.join(top, str(case.number))))
    print("same: %s bytes of input, of which %s metrics were read" % (format(size, ","), format(read, ",")))
    print("same: %d alike, %d differ" % (int(inputs) - differ, differ))
    if not differ:
        os.rmdir(top)
    return 1 if differ else 0


if __name__ == "__main__":
    sys.exit(main(*sys.argv[1:]))
