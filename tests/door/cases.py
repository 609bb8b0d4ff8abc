"""Cases: lines that read a frame, and what the program's other commands say of the same chips or bytes."""
import functools
import json
import subprocess
from collections import namedtuple

SYNC = 16
SYNC_WORD = f"{0x543D:016b}"
# What a kind of frame is, and the words for it (docs/RULES.md, 5 and 7). A tail of None is the frame's own beginning.
Kind = namedtuple("Kind", "code format tail width a_byte words")
KINDS = {
    "T-A": Kind("three-of-six", "A", None, 6, 12, "mode T: three-of-six, six chips for half a byte, format A"),
    "C-A": Kind("nrz", "A", f"{0x54CD:016b}", 8, 8, "mode C: NRZ, one chip for a bit, format A"),
    "C-B": Kind("nrz", "B", f"{0x543D:016b}", 8, 8, "mode C: NRZ, one chip for a bit, format B"),
    "Manchester-A": Kind("manchester", "A", None, 2, 16, "Manchester: two chips for a bit, format A"),
}
OF_MODE_C = "010101"
LONGEST = 290
# Bytes in a row of a drawing, and as many are shown of a frame whose length byte tells nothing.
A_ROW = 12
# The first block and the others, with their checks (docs/RULES.md, 9).
BLOCKS = {"A": (12, 18), "B": (128, 128)}
BEFORE_BODY = ["C", "M", "M"] + 6 * ["A"]
HEADER_FIELDS = ("cc", "acc", "m2", "a2", "sn", "crc")
# Behind these stands the CI of the next layer; behind 8D and 8F what is encrypted.
OPEN_HEADERS = ("8C", "8E")
COLOURS = {"L": "length", "C": "control", "M": "maker", "A": "address", "CI": "ci", "data": "data", "check": "check",
           "not judged": "not-judged"}


class Program:
    """The program's answers: each line is asked once, and many in one process."""

    def __init__(self, path):
        self.path, self.known = path, {}

    def learn(self, lines):
        new = [line for line in dict.fromkeys(lines) if line not in self.known]
        asked = "".join(f"{line}\n" for line in new)
        run = subprocess.run([self.path, "--json"], input=asked, capture_output=True, text=True, check=True)
        for line, answer in zip(new, map(json.loads, run.stdout.splitlines()), strict=True):
            del answer["line"]
            self.known[line] = answer

    def __getitem__(self, line):
        return self.known[line]


def bits(digits):
    return "".join(f"{int(digit, 16):04b}" for digit in digits)


def digits(bits):
    """Bits as bytes; what is left of the last one is 0."""
    whole = bits.ljust((len(bits) + 7) // 8 * 8, "0")
    return f"{int('1' + whole, 2):X}"[1:] if whole else "-"


def counted(count, thing):
    return f"{count} {thing}{'' if count == 1 else 's'}"


class Case:
    """A line, and what the program's commands say of it: first what was received, then where the frame is."""

    def __init__(self, line):
        self.line, (self.command, *words) = line, line.split()
        self.options = dict(word.split("=", 1) for word in words if "=" in word)
        given = [word for word in words if "=" not in word]
        self.format = given.pop(0).upper() if self.command == "read" and given else None
        self.notation = " ".join(["encode nrz"] + given)
        self.first, self.frame, self.sync, self.kind = 0, None, None, None

    def option(self, name):
        text = self.options.get(name, "0")
        return int(text, 16 if text.lower().startswith("0x") else 10)

    def received(self, program):
        """Reads the answers to `first_questions`."""
        self.plain, self.drawn = program[self.line], program[f"picture {self.line}"]
        self.number = self.plain["answer"]
        self.bits = bits(program[self.notation]["chips"])

    def first_questions(self):
        return [self.line, f"picture {self.line}", self.notation]

    def search(self):
        given = [f"{name}={self.options[name]}" for name in ("start", "allowance") if name in self.options]
        return " ".join(["search", digits(self.bits)] + given)

    def place(self, program):
        """Where the frame is, as far as the search and the tail tell it. Out of range there is nothing to be told."""
        if self.command == "read" or self.number == 10:
            return
        if self.command == "manchester":
            self.first, self.kind = self.option("start"), "Manchester-A"
            return
        self.sync = program[self.search()].get("place")
        if self.sync is not None:
            self.kind = kind_of(self.bits[self.sync + SYNC:self.sync + 2 * SYNC])
            self.first = self.sync + (SYNC if self.kind == "T-A" else 2 * SYNC)

    def chips_of_bytes(self):
        """The chips of each byte that came whole."""
        a_byte = KINDS[self.kind].a_byte if self.kind else 8
        came = (len(self.bits) - self.first) // a_byte
        return [self.bits[self.first + k * a_byte:self.first + (k + 1) * a_byte] for k in range(min(came, LONGEST))]

    @functools.cache
    def decodings(self):
        code = KINDS[self.kind].code if self.kind else "nrz"
        return [f"decode {code} {digits(chips)} 0 1" for chips in self.chips_of_bytes()]

    def has_frame(self):
        return self.kind is not None or self.command == "read"

    def writing(self):
        """What to ask for the frame of an accepted content."""
        return f"write {self.format or KINDS[self.kind].format} {self.plain['content']}"


def kind_of(tail):
    """The kind of frame behind a sync word, or None."""
    of_mode_c = [name for name, kind in KINDS.items() if kind.tail == tail]
    if len(tail) < SYNC or tail.startswith(OF_MODE_C) and not of_mode_c:
        return None
    return of_mode_c[0] if of_mode_c else "T-A"


class Frame:
    """The bytes of a frame, each as two digits, `?` if its chips stand for nothing, None if it is missing."""

    def __init__(self, case, program):
        self.format = case.format or KINDS[case.kind].format
        came = [program[line].get("bytes", "?") for line in case.decodings()]
        self.size = size_of(program, self.format, came[0]) if came and came[0] != "?" else None
        self.cells = (came + LONGEST * [None])[:self.size] if self.size else came[:A_ROW] or [None]
        first, others = BLOCKS[self.format]
        ends = list(range(first, self.size, others)) + [self.size] if self.size else []
        self.blocks = list(zip([0] + ends, ends))
        self.checks = {at for _, end in self.blocks for at in (end - 2, end - 1)}

    def content(self):
        """The bytes that are neither L nor a check."""
        return [cell for at, cell in enumerate(self.cells) if at and at not in self.checks]

    def body(self):
        """CI and what follows. CI alone tells how long a header is, so that 00 can stand for what did not come."""
        return "".join(cell if known([cell]) else "00" for cell in self.content()[len(BEFORE_BODY):]) or "-"

    def span(self, block):
        """What to ask for the check of a block; None if a byte of it is not known."""
        cells = self.cells[slice(*block)]
        return f"check {''.join(cells[:-2])}" if known(cells) else None

    def there(self, block):
        return "".join(self.cells[block[1] - 2:block[1]])

    def makers(self):
        """What to ask of each pair of neighbours for what it says as M, or as M2 wherever a header has it."""
        pairs = zip(self.cells, self.cells[1:2 * A_ROW])
        return [maker_of(pair) for pair in pairs if known(pair)]

    def questions(self):
        spans = [self.span(block) for block in self.blocks]
        return [span for span in spans if span] + [f"header {self.body()}"] + self.makers()

    def right(self, program, block):
        """Whether a block's check is what its bytes give; None if they are not all known."""
        span = self.span(block)
        return None if span is None else program[span]["check"] == self.there(block)

    def fields(self, program):
        """What each byte is, by the name that stands under it."""
        if not self.size:
            return ["L"] + (len(self.cells) - 1) * ["not judged"]
        names = iter(BEFORE_BODY + ["CI"] + self.header(program) + LONGEST * ["data"])
        return ["L"] + ["check" if at in self.checks else next(names) for at in range(1, self.size)]

    def header(self, program):
        """The names of the bytes behind CI, if an extended header begins there."""
        answer = program[f"header {self.body()}"]
        if answer["name"] == "body-too-short":
            return LONGEST * ["header, not whole"]
        sizes = [(name.upper(), len(answer[name]) // 2) for name in HEADER_FIELDS if name in answer]
        named = [name for name, size in sizes for _ in range(size)]
        return named + ["next CI"] if answer.get("ci") in OPEN_HEADERS and answer["answer"] == 0 else named


def known(cells):
    return all(cell and cell != "?" for cell in cells)


def size_of(program, format, length):
    return program[f"size {format} 0x{length}"].get("size")


def maker_of(pair):
    """What to ask for the letters of M, and whether its address is hard or soft."""
    return f"letters received={pair[0]}{pair[1]}"


@functools.cache
def word_of(code, chips):
    return f"word {code} {digits(chips)} 0"


def cases_of(program, lines):
    """The cases of lines that were understood, with all that will be asked of the program known."""
    cases = [Case(line) for line in dict.fromkeys(lines)]
    program.learn(question for case in cases for question in case.first_questions())
    cases = [case for case in cases if "answer" in program[case.line]]
    for case in cases:
        case.received(program)
    program.learn(case.search() for case in cases if case.command == "receive" and case.number != 10)
    for case in cases:
        case.place(program)
    program.learn(line for case in cases for line in case.decodings())
    for case in cases:
        case.frame = Frame(case, program) if case.has_frame() else None
    program.learn(question for case in cases if case.frame for question in case.frame.questions())
    program.learn(case.writing() for case in cases if case.number == 0)
    return cases
