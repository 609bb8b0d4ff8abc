"""Lines made for the test: frames of all kinds, whole, cut, with wrong checks and bad words, and noise."""
import random
import re

from cases import BLOCKS, KINDS, SYNC_WORD, bits, digits, word_of


def tables():
    """What is asked of every code and format, whatever the lines are."""
    bytes_ = [f"{byte:02X}" for byte in range(256)]
    codes = {(kind.code, kind.width) for kind in KINDS.values()}
    words = [word_of(code, f"{word:0{width}b}") for code, width in codes for word in range(2 ** width)]
    encodings = [f"encode {code} {byte}" for code, _ in codes for byte in bytes_]
    return words + encodings + [f"size {format} 0x{length}" for format in BLOCKS for length in bytes_]


class Maker:
    """Makes lines, at random but always the same ones."""

    SIZES = {"A": (10, 15, 26, 125, 126, 251, 255), "B": (10, 15, 26, 125, 126, 251)}
    HEADERS = {"8C": 2, "8D": 8, "8E": 10, "8F": 16}
    # Words that stand for nothing; in NRZ there are none.
    BAD_WORDS = {"three-of-six": ("000111", "010101", "111111", "000000"), "manchester": ("00", "11"), "nrz": ()}

    def __init__(self, program):
        self.program, self.random, self.lines = program, random.Random(13757), []
        program.learn(tables())

    def content(self, size, ci="78"):
        body = bytes([int(ci, 16)]) + self.random.randbytes(size)
        return (self.random.randbytes(9) + body)[:size].hex().upper()

    def chips(self, count):
        return "".join(self.random.choice("01") for _ in range(count))

    def contents(self):
        """Every size, and every extended header: in the middle of a content, at its end, and longer than it."""
        sizes = {(size, "78") for sizes in self.SIZES.values() for size in sizes}
        ends = (-1, 0, 1, 20)
        headers = {(10 + size + end, ci) for ci, size in self.HEADERS.items() for end in ends}
        return sorted(sizes | headers)

    def made(self):
        """Lines with frames of each kind, frames in bytes, and receptions without a frame."""
        contents = [(size, ci, self.content(size, ci)) for size, ci in self.contents()]
        writes = {(format, content): f"write {format} {content}" for format in BLOCKS for *_, content in contents}
        self.program.learn(writes.values())
        for size, ci, content in contents:
            for name, kind in KINDS.items():
                if size <= self.SIZES[kind.format][-1]:
                    frame = self.program[writes[kind.format, content]]["frame"]
                    self.of_frame(name, re.findall("..", frame), size, ci != "78")
        for name in KINDS:
            self.odd(name)
        self.without_frame()
        return self.lines

    def encoded(self, kind, frame):
        """A frame's chips, as a list with those of each byte."""
        a_byte = KINDS[kind].a_byte
        return [bits(self.program[f"encode {KINDS[kind].code} {byte}"]["chips"])[:a_byte] for byte in frame]

    def line(self, kind, chips, options="", before="", behind=""):
        """A line that receives these chips of a frame."""
        if kind == "Manchester-A":
            started = f" start={len(before)}" if before else ""
            self.lines.append(f"manchester {digits(before + chips + behind)}{started}{options}")
        else:
            sync = SYNC_WORD + (KINDS[kind].tail or "")
            self.lines.append(f"receive {digits(before + sync + chips + behind)}{options}")

    def of_frame(self, kind, frame, size, with_header):
        """A frame between other chips, cut, with wrong checks, with bad words; more of a short one, which is quick."""
        cells, short = self.encoded(kind, frame), size <= 26
        chips = "".join(cells)
        before, behind = (self.chips(self.random.randrange(1, 60)) for _ in range(2))
        self.line(kind, chips, before=before, behind=behind)
        self.cut(kind, cells, (12, 16) if with_header else (len(cells) - 2, len(cells)))
        self.wrong(kind, frame)
        self.bad_words(kind, cells, and_cut=short)
        self.lines.append(f"read {KINDS[kind].format} {''.join(frame)}")
        if short and not with_header:
            self.of_short_frame(kind, frame, size, cells)

    def of_short_frame(self, kind, frame, size, cells):
        chips = "".join(cells)
        self.line(kind, chips)
        self.line(kind, chips, f" room={size - 1}")
        self.cut(kind, cells, (0, 2))
        self.cut(kind, cells, (2, len(cells)))
        self.lines.append(f"read {KINDS[kind].format} {''.join(frame[:self.random.randrange(1, len(frame))])}")
        self.lines.append(f"read {KINDS[kind].format} {''.join(self.changed(frame))}00FF")
        self.lines.append(f"read {KINDS[kind].format} {''.join(frame)} room={size - 1}")

    def cut(self, kind, cells, between):
        """Cut behind one of these bytes or within it, as far as whole bytes of chips can be cut off."""
        chips = "".join(cells)
        end = self.random.randrange(between[0] * len(cells[0]), between[1] * len(cells[0]))
        self.line(kind, chips[:end // 8 * 8])

    def changed(self, frame):
        """A frame with two wrong bits behind its length byte, perhaps in two blocks, and often not in the first."""
        frame, least = list(frame), self.random.choice((1, min(12, len(frame) - 1)))
        for at in sorted({self.random.randrange(least, len(frame)) for _ in range(2)}):
            frame[at] = f"{int(frame[at], 16) ^ 1 << self.random.randrange(8):02X}"
        return frame

    def wrong(self, kind, frame):
        self.line(kind, "".join(self.encoded(kind, self.changed(frame))))

    def bad_words(self, kind, cells, and_cut):
        """Two words behind the length byte that stand for nothing, of which the first decides; NRZ has none."""
        width, bad = KINDS[kind].width, self.BAD_WORDS[KINDS[kind].code]
        if not bad:
            return
        chips = "".join(cells)
        for at in self.random.sample(range(len(cells[0]) // width, len(chips) // width), 2):
            chips = chips[:at * width] + self.random.choice(bad) + chips[(at + 1) * width:]
        self.line(kind, chips)
        # What is missing comes first, so that the bad words of a cut frame decide nothing.
        if and_cut:
            self.line(kind, chips[:(len(chips) - 1) // 8 * 8 - 8])

    def odd(self, kind):
        """Frames whose length byte is not allowed or not known."""
        for length in ("09", "80" if KINDS[kind].format == "B" else "00"):
            frame = [length] + re.findall("..", self.random.randbytes(14).hex().upper())
            self.line(kind, "".join(self.encoded(kind, frame)))
            self.line(kind, "".join(self.encoded(kind, frame[:3])))
            self.lines.append(f"read {KINDS[kind].format} {''.join(frame)}")
        cells = self.encoded(kind, ["1E"] + 20 * ["44"])
        for bad in self.BAD_WORDS[KINDS[kind].code]:
            self.line(kind, bad + "".join(cells)[len(bad):])
        for came in range(0, len(cells[0]) + 9, 4):
            self.line(kind, cells[0][:came])

    def without_frame(self):
        """Tails that are not whole or not known, chips without a sync word, and starts that are out of range."""
        for tail in ("", "5", "54C", "54CC", "5400", "57FF"):
            self.lines.append(f"receive {digits(self.chips(5) + SYNC_WORD + bits(tail))}")
        self.lines += ["receive -", "receive 00 start=9", "manchester 00 start=9", "read A -", "read B -"]
        for size in (1, 2, 18, 40, 150, 1024):
            noise = digits(self.chips(8 * size))
            for start in {0, 8 * size // 3, 8 * size}:
                self.lines += [f"receive {noise} start={start}", f"receive {noise} start={start} allowance={size}"]
