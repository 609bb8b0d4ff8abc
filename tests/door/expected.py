"""What a drawing must say of a case, under the keys under which drawing.py says what it has."""
import re
from itertools import groupby

from cases import A_ROW, COLOURS, KINDS, SYNC, counted, digits, known, maker_of, word_of
from drawing import IN_ORDER, KEYS

LEFT, BYTE, CHIP = 70, 72, 6
CHIPS_A_ROW, MOST_ROWS = 144, 8
BYTES_A_LINE = 32
NOTHING = ("bad", "No content is handed over")
# What of an answer is not in its headline: the bytes, which are drawn, and what stands below it.
NOT_IN_HEADLINE = ("answer", "name", "content", "lent", "from")
# What these classes show is red, and nothing else is.
RED = {"bad", "bad-box", "bad-line", "gone"}


class Expected:
    """What a drawing must say, as drawing.py tells it."""

    def __init__(self, case, program):
        self.case, self.program = case, program
        self.said = {key: [] for key in KEYS}
        self.unit = BYTE / KINDS[case.kind].a_byte if case.kind else None
        if case.sync is not None:
            self.lead()
        elif case.kind:
            self.add("lead", LEFT, "", f"{KINDS[case.kind].words}, from chip {case.first} on")
        elif case.command == "receive" and case.number != 10:
            self.noise()
        if case.frame:
            self.rows()
            self.end()
        elif case.number:
            self.add("end", *NOTHING)
        for key in KEYS:
            if key not in IN_ORDER:
                self.said[key].sort()

    def add(self, key, *what):
        self.said[key].append(what)

    def headline(self):
        plain = self.case.plain
        fields = [f" {name}={plain[name]}" for name in plain if name not in NOT_IN_HEADLINE]
        return f"{plain['answer']} {plain['name']}{''.join(fields)}"

    def lead(self):
        """Sync word and tail."""
        case, x = self.case, LEFT
        self.add("lanes", "chips")
        if case.sync:
            self.add("lead", x, "lane", f"{counted(case.sync, 'chip')} before")
            x += 100
        self.sixteen(x, case.sync, "sync word", "box sync")
        x += CHIP * SYNC
        if case.kind != "T-A":
            self.sixteen(x, case.sync + SYNC, "tail", "box sync" if case.kind else "bad-box")
            x += CHIP * SYNC
        tried = f", {counted(case.plain['tried'], 'place')} tried" if "tried" in case.plain else ""
        self.add("lead", x + 16, "", f"sync word at chip {case.sync}{tried}")
        self.add("lead", x + 16, "", KINDS[case.kind].words if case.kind else "no kind of frame is told")

    def sixteen(self, x, at, name, box):
        chips = self.case.bits[at:at + SYNC]
        if chips:
            self.add("waves", 0, x, runs(chips, CHIP))
            self.add("digits", 0, x + CHIP * len(chips) / 2, "digits", chips)
        missing = SYNC - len(chips)
        text = f"{missing} missing" if missing else f"{name} {digits(chips)}"
        self.add("sixteen", x, CHIP * SYNC, "gone" if missing else box)
        self.add("labels", x + CHIP * SYNC / 2, "bad" if missing or box == "bad-box" else "", text)

    def noise(self):
        """From the row of the start on, as many rows as there is room for."""
        case, start = self.case, self.case.option("start")
        begin, end = start // CHIPS_A_ROW * CHIPS_A_ROW, start + case.plain["tried"]
        for row, first in enumerate(range(begin, len(case.bits), CHIPS_A_ROW)[:MOST_ROWS]):
            self.add("lanes", f"chip {first}")
            self.add("waves", row, LEFT, runs(case.bits[first:first + CHIPS_A_ROW], CHIP))
            tried = max(start, first), min(end, first + CHIPS_A_ROW)
            if tried[0] < tried[1]:
                self.add("tried", row, *(LEFT + CHIP * (at - first) for at in tried))
        more = len(case.bits) - begin - MOST_ROWS * CHIPS_A_ROW
        if more > 0:
            self.add("lanes", f"and {counted(more, 'chip')} more")

    def rows(self):
        """What stands in each row of bytes. Lines of chips count from that of the sync word on, if there is one."""
        frame = self.case.frame
        self.fields = frame.fields(self.program)
        for row, start in enumerate(range(0, len(frame.cells), A_ROW)):
            end = min(start + A_ROW, len(frame.cells))
            if self.case.kind:
                self.signal(row + (self.case.sync is not None), start, end)
            self.bytes(row, start, end)
            self.names(row, start, end)
            self.brackets(row, start, end)
        for number, block in enumerate(frame.blocks, 1):
            self.add("blocks", number, *self.of_block(number, block))

    def signal(self, line, start, end):
        case, kind = self.case, KINDS[self.case.kind]
        chips = case.bits[case.first + start * kind.a_byte:case.first + end * kind.a_byte]
        self.said["lanes"] += [("chips",)] if kind.code == "nrz" else [("chips",), ("words",)]
        if chips:
            self.add("waves", line, LEFT, runs(chips, self.unit))
        for k in range(0, len(chips), kind.width):
            self.word(line, start * kind.a_byte // kind.width + k // kind.width, k, chips[k:k + kind.width])

    def word(self, line, index, k, chips):
        """A word: every second one is shaded, that which decided is red, and only a whole one stands for something."""
        kind, decided = KINDS[self.case.kind], self.decided(index)
        x, width = LEFT + self.unit * k, self.unit * len(chips)
        if decided or index % 2 == 0:
            self.add("words", line, x, width, "bad-box" if decided else "word")
        red = " bad" if decided else ""
        if kind.code != "manchester":
            self.add("digits", line, x + width / 2, f"digits{red}", chips)
        if kind.code != "nrz" and len(chips) == kind.width:
            self.add("values", line, x + width / 2, f"mono{red}", self.value(kind.code, chips))

    def value(self, code, chips):
        answer = self.program[word_of(code, chips)]
        return f"{answer['value']:X}" if answer["answer"] == 0 else "?"

    def decided(self, index):
        return self.case.number == 6 and self.case.plain["word"] == index

    def decided_in(self, at):
        """Whether the word that decided is one of this byte's."""
        kind = KINDS[self.case.kind]
        return self.case.number == 6 and self.case.plain["word"] * kind.width // kind.a_byte == at

    def bytes(self, row, start, end):
        self.add("lanes", "bytes")
        for at in range(start, end):
            cell, x = self.case.frame.cells[at], LEFT + BYTE * (at - start)
            self.add("boxes", row, x, BYTE, self.box(at))
            kind = "bad" if cell is None else "byte bad" if cell == "?" and self.decided_in(at) else "byte"
            self.add("bytes", row, x + BYTE / 2, kind, cell or "missing")

    def box(self, at):
        """The colour of a byte. What decided is red, what did not come has no colour."""
        number, frame = self.case.number, self.case.frame
        if frame.cells[at] is None:
            return "gone"
        wrong = frame.blocks[self.case.plain["block"] - 1] if number == 3 else (0, 0)
        if number == 2 and at == 0 or at in frame.checks and wrong[0] <= at < wrong[1]:
            return "bad-box"
        return f"box {COLOURS.get(self.fields[at], 'extended')}"

    def names(self, row, start, end):
        self.add("lanes", "fields")
        for _, run in groupby(range(start, end), key=lambda at: self.fields[at]):
            run = list(run)
            self.add("names", row, LEFT + BYTE * (run[0] - start + len(run) / 2), "", self.name(run))

    def name(self, run):
        cells, name = [self.case.frame.cells[at] for at in run], self.fields[run[0]]
        if name == "L" and known(cells):
            return f"L: {int(cells[0], 16)}"
        if name in ("M", "M2") and known(cells) and len(cells) == 2:
            said = self.program[maker_of(cells)]
            return f"{name}: {said['letters'] or 'no letters'}, {said['address']}"
        return "A: address" if name == "A" else name

    def brackets(self, row, start, end):
        blocks, number = self.case.frame.blocks, self.case.number
        if blocks:
            self.add("lanes", "blocks")
        for index, (first, last) in enumerate(blocks, 1):
            part = max(first, start), min(last, end)
            if part[0] < part[1]:
                x, to = (LEFT + BYTE * (at - start) for at in part)
                kind = "bad-line" if number == 3 and self.case.plain["block"] == index else "line"
                self.add("brackets", row, x + 3, to - 3, part[0] == first, part[1] == last, kind)

    def of_block(self, number, block):
        frame, right = self.case.frame, self.case.frame.right(self.program, block)
        if right:
            return "good", f"block {number}: check {frame.there(block)} is right"
        if right is None and None in frame.cells[slice(*block)]:
            return "bad", f"block {number} is not whole"
        if right is None:
            return "lane", f"block {number} cannot be checked"
        decided = self.case.number == 3 and self.case.plain["block"] == number
        give = self.program[frame.span(block)]["check"]
        return "bad" if decided else "lane", f"block {number}: check {frame.there(block)}, but its bytes give {give}"

    def end(self):
        """What the caller got, and chips behind a whole frame."""
        case, content = self.case, self.case.plain.get("content")
        if case.number:
            self.add("end", *NOTHING)
        else:
            self.add("lanes", "content")
            for at in range(0, len(content), 2 * BYTES_A_LINE):
                self.add("end", "mono", " ".join(re.findall("..", content[at:at + 2 * BYTES_A_LINE])))
            self.add("end", "lane", counted(len(content) // 2, "byte"))
        whole = case.frame.size and case.kind
        behind = len(case.bits) - case.first - case.frame.size * KINDS[case.kind].a_byte if whole else 0
        if behind > 0:
            self.add("end", "lane", f"{counted(behind, 'chip')} behind the frame")


def runs(chips, unit):
    return tuple((level, unit * len(list(run))) for level, run in groupby(chips))


def under_its_block(said, frame):
    """What is said of blocks, each with the number of the block under a part of which it stands, or 0."""
    for row, x, kind, text in said:
        number = re.match(r"block (\d+)", text)
        start, end = frame.blocks[int(number[1]) - 1] if number and 0 < int(number[1]) <= len(frame.blocks) else (0, 0)
        first, last = max(start, row * A_ROW), min(end, (row + 1) * A_ROW)
        at_home = first < last and x == LEFT + BYTE * ((first + last) / 2 - row * A_ROW)
        yield int(number[1]) if at_home else 0, kind, text
