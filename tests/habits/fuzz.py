#!/usr/bin/env python3
"""A hundred thousand odd lines, and an answer to each. Usage: fuzz.py PROGRAM INPUT ..

The lines are made at random, always the same ones: bytes that are no text, mutilated commands of the inputs, options
with odd values, hundreds of words, quotation marks, lines of megabytes, the last one without an end. The program must
end with status 0 and say nothing on standard error, in text and in JSON. Every line that is neither blank nor a comment
must have exactly one answer, the same in both (tests/cli/objects.py), and commands between the odd lines their own
answer. Prints what is wrong, and exits with 1 if anything is; before that programs that stop early, drop an answer or
panic must be seen to do so.
"""
import random
import re
import subprocess
import sys
from pathlib import Path

sys.dont_write_bytecode = True  # a test leaves nothing beside the sources
sys.path.insert(0, str(Path(__file__).resolve().parent.parent / "cli"))
import objects

COUNT = 100_000
SECONDS = 60
# every so many lines stands a command whose answer is known
EVERY, SENTINEL = 100, b"check 313233343536373839"
ANSWER = b'"answer":0,"name":"accepted","check":"C2B7"}'

PRINTED = "0123456789ABCDEFabcdefGxX   \t\"\"''##==++**::--__,.;|\\/$`{}[]()éäß€漢"
CHARACTERS = PRINTED + "\0\x01\x1b\x7f\r\x0b\x0c\x85\xa0\u2028\u202e\ufeff"
NUMBERS = ["0", "1", "8", "15", "255", "1024", "8192", "65536", "65537", "4294967296", "18446744073709551615",
           "18446744073709551616", "9" * 40, "-1", "0x10", "0xFFFFFFFFFFFFFFFF", "0x", "1e3", "", "١", "0000001"]
OPTIONS = ["room", "fill", "show", "start", "allowance", "count", "upto", "received", "number", "fly", "", "=", "Room"]
CODES = ["nrz", "three-of-six", "manchester", "NRZ", "six"]
# a command that is nearly right: its words, by the kind of each
SHAPES = [
    "receive bytes", "manchester bytes", "send kind bytes", "search bytes", "read format bytes", "write format bytes",
    "change format bytes number byte", "size format number", "write-correction format bytes", "check-bytes bytes",
    "correction-header bytes", "mend format bytes", "mend format bytes bytes", "check bytes",
    "damage format bytes bytes", "update word byte byte number", "decode code bytes number number", "encode code bytes",
    "word code bytes number", "header bytes", "write-header ci byte byte word bytes", "access byte", "letters option",
    "filter bytes bytes bytes option", "channel number number", "band format", "help number", "help code",
    "picture fly bytes", "store bytes number",
]


class Maker:
    """Makes lines, always the same ones for the same inputs."""

    def __init__(self, real):
        self.real, self.random = real, random.Random(16)
        self.ways = [self.noise, self.characters, self.mutilated, self.mutilated, self.damaged, self.damaged,
                     self.damaged, self.cut_off, self.mixed, self.with_options, self.shaped, self.shaped, self.quoted,
                     self.skipped]

    def text(self, characters, most):
        return "".join(self.random.choices(characters, k=self.random.randint(0, most)))

    def hex(self, most):
        return self.random.randbytes(self.random.randint(0, most)).hex().upper() or "-"

    def noise(self):
        return self.random.randbytes(self.random.randint(0, 60))

    def characters(self):
        return self.text(CHARACTERS, 60).encode()

    def mutilated(self):
        """A real command with something odd in it."""
        line = bytearray(self.random.choice(self.real))
        for _ in range(self.random.randint(1, 4)):
            at = self.random.randint(0, len(line))
            printed, others = self.text(PRINTED, 3).encode(), self.text(CHARACTERS, 3).encode()
            odd = [self.noise()[:3], others, b"", b"0", printed, printed, printed, printed]
            line[at : at + self.random.choice([0, 0, 1, 1, 2, 9])] = self.random.choice(odd)
        return bytes(line)

    def damaged(self):
        """A real command that is still understood, mostly: some of its digits are others."""
        line = bytearray(self.random.choice(self.real))
        digits = [at for at, b in enumerate(line) if b in b"0123456789ABCDEF"]
        for at in self.random.choices(digits, k=self.random.randint(1, 6)) if digits else []:
            line[at] = self.random.choice(b"0123456789" if line[at] < 65 else b"ABCDEF")
        return bytes(line)

    def cut_off(self):
        line = self.random.choice(self.real)
        return line[: self.random.randint(0, len(line))]

    def mixed(self):
        words = self.random.choice(self.real).split() + self.random.choice(self.real).split()
        self.random.shuffle(words)
        return self.random.choice([b" ", b"  ", b"\t"]).join(words)

    def option(self):
        value = self.random.choice([self.random.choice(NUMBERS), self.hex(4), "lent", self.text(PRINTED, 4)])
        return f"{self.random.choice(OPTIONS)}={value}"

    def with_options(self):
        options = [self.option().encode() for _ in range(self.random.randint(1, 3))]
        return b" ".join([self.random.choice(self.real), *options])

    def word(self, kind):
        choice = self.random.choice
        repeated = f"{self.hex(3)}+{choice(NUMBERS)}*{self.hex(1)}"
        spaced = f'"{self.hex(9)} {self.hex(9)}"'
        return {
            "bytes": choice([self.hex(20), self.hex(60), self.hex(300), "0x" + self.hex(4), repeated, spaced]),
            "byte": self.hex(1), "word": self.hex(2), "number": choice(NUMBERS), "format": choice("AABBabCD"),
            "code": choice(CODES), "kind": choice(["T-A", "C-A", "C-B", "Manchester-A", "X"]), "option": self.option(),
            "ci": choice(["8C", "8D", "8E", "8F", "86"]),
        }.get(kind, kind)

    def shaped(self):
        words = [self.word(kind) for kind in self.random.choice(SHAPES).split()]
        words += [self.option() for _ in range(self.random.choice([0, 0, 0, 1, 2]))]
        return " ".join(words).encode()

    def quoted(self):
        mark = self.random.choice(["\"", "'", "\"'", "\"\" "])
        return f"check {mark * self.random.randint(1, 40)}{self.hex(9)}{mark * self.random.randint(0, 40)}".encode()

    def skipped(self):
        """A comment, or blank."""
        return self.random.choice([b"", b" \t ", b"\r", b"#", b"  # " + self.noise(), b"# " + self.characters()])

    def drawn(self):
        return b"picture " + self.damaged()

    def many_words(self):
        return b" ".join(self.cut_off() for _ in range(300))[: objects.LONGEST]

    def line(self):
        # these two make long lines and long answers, and are few
        seldom = self.random.choice([self.many_words, self.drawn])
        way = seldom if self.random.random() < 0.004 else self.random.choice(self.ways)
        end = self.random.choice([b"", b"", b"", b"\r", b" ", b" # " + self.noise()])
        return (way() + end).replace(b"\n", b" ")


def long_lines(sizes):
    for size in sizes:
        for part in [b"0", b" ", b"#", b"check 00 ", b"\"", b"\0\xff"]:
            yield (part * size)[:size]
    # the longest check, and one that asks for a hundred megabytes
    yield b"check " + b"0" * (objects.LONGEST - len("check "))
    yield b"check " + b"+65536*00 " * 1600


def made(real, count, sizes):
    """So many lines, with long ones of these sizes among them; the last one has no line feed."""
    maker = Maker(real)
    lines = [maker.line() for _ in range(count)]
    long = list(long_lines(sizes))
    for number, line in enumerate(long):
        lines[(2 * number + 1) * count // (2 * len(long))] = line
    lines[EVERY - 1 :: EVERY] = [SENTINEL] * (count // EVERY)
    return b"\n".join(lines)


def run(command, flag, data, seconds):
    """What the program printed, and what is wrong with how it ended."""
    try:
        ended = subprocess.run([*command, flag], input=data, capture_output=True, timeout=seconds)
    except subprocess.TimeoutExpired:
        return b"", [f"{flag}: no end after {seconds} s"]
    wrong = [f"{flag}: status {ended.returncode}"] if ended.returncode else []
    return ended.stdout, wrong + ([f"{flag}: it says {ended.stderr[:300]}"] if ended.stderr else [])


def watched(command, data, seconds=SECONDS):
    text, found = run(command, "--numbered", data, seconds)
    answers, wrong = run(command, "--json", data, seconds)
    found += wrong
    if not found:
        found += objects.differences(data, text, answers)
    asked = [number for number, line in enumerate(data.split(b"\n"), 1) if line == SENTINEL]
    answered = [int(number) for number in re.findall(rb'^\{"line":(\d+),' + re.escape(ANSWER) + b"$", answers, re.M)]
    if not set(asked) <= set(answered) or not asked:
        found.append(f"the right answer is missing to the lines {sorted(set(asked) - set(answered))[:9]}")
    return found


# programs that are wrong, around the right one, "$0"
PLANTED = {
    "stops early": 'head -c 100000 | "$0" "$1"',
    "drops an answer": '"$0" "$1" | sed 500d',
    "answers a line twice": '"$0" "$1" | sed 500p',
    "cuts its output off": '"$0" "$1" | head -c -5',
    "takes a long line for two": 'fold -b -w 16384 | "$0" "$1"',
    "takes a NUL for an end": 'tr "\\0" "\\n" | "$0" "$1"',
    "drops a line without an end": '(cat; echo "check 00") | "$0" "$1"',
    "panics at the end": '"$0" "$1"; exit 101',
    "says something": '"$0" "$1"; echo panicked >&2',
    "does not end": '"$0" "$1"; exec sleep 9',
    "answers another check": '"$0" "$1" | sed s/C2B7/C2B8/',
    "shows bytes in JSON only": '"$0" "$1" | sed "/^{/!s/content=[0-9A-F]*/content=-/"',
}


def self_test(program, data):
    missed = [f"without an error: {why}" for why in watched([program], data)]
    for what, script in PLANTED.items():
        seconds = 1 if what == "does not end" else SECONDS
        if not watched(["bash", "-c", script, program], data, seconds):
            missed.append(f"planted and not seen: {what}")
    return missed


def main():
    program = str(Path(sys.argv[1]).resolve())
    inputs = b"\n".join(Path(name).read_bytes() for name in sys.argv[2:])
    real = [line for line in inputs.split(b"\n") if line.strip() and not line.startswith(b"#") and len(line) < 2_000]
    limit = objects.LONGEST
    found = self_test(program, made(real, 1_500, [limit + 1, 50_000]))
    found += watched([program], made(real, COUNT, [limit - 1, limit, limit + 1, 70_000, 500_000, 3_000_000]))
    for line in found:
        print(line)
    return 1 if found else 0


sys.exit(main())
