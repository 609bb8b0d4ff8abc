#!/usr/bin/env python3
"""What the program draws is what it answers. Usage: pictures.py PROGRAM FILE ..

Each line of the files that reads a frame (`receive`, `manchester`, `read`) is drawn, and some hundred lines made here:
frames of all kinds, whole, cut, with wrong checks and bad words, with and without extended headers. Each drawing is
read (drawing.py) and must say what the program's other commands say of the same chips, all of it and nothing else:

  - its answer is the plain one, field by field, in the object, in the first line and in the title; the sender below it
    is the content's (letters);
  - the signal, the digits below it and the words are the chips that were received, each at its place (search, word);
  - the bytes are what these chips stand for (decode), as many as the length byte says (size), or those that came;
  - fields are named under their bytes (letters, header), blocks stand where the format has them, and what is said of a
    block is what its bytes give (check);
  - red is what decided and nothing else: the length byte for 2, the two bytes of the wrong check for 3, the word for 6,
    the tail for 8, what is missing for 1, the places tried for 7 and 14;
  - the content is the answer's and, written anew, gives the bytes drawn (write); a refused frame hands nothing over.

Prints each fault, and exits with 1 if there is one; before that it plants faults and exits with 1 if one is not found.
"""
import re
import sys
import xml.etree.ElementTree as ET
from pathlib import Path

sys.dont_write_bytecode = True  # a test leaves nothing beside the sources
from cases import KINDS, SYNC, Program, cases_of, maker_of, word_of
from drawing import KEYS, Drawing
from expected import RED, Expected, under_its_block
from made import Maker
from planted import ANSWERS, DRAWN_ANSWERS, PLANTED, SAMPLES, planted


def answer_faults(case, program):
    """What is wrong with the answer itself, since a true drawing of a wrong answer is worth nothing."""
    frame, number, plain = case.frame, case.number, case.plain
    place = case.first if case.sync is None else case.sync
    if number == 0 and (plain.get("place", 0), plain.get("kind")) != (place, case.kind):
        yield f"has its frame at {place} as {case.kind}"
    if number == 0 and program[case.writing()]["frame"] != "".join(frame.cells):
        yield f"gives other bytes than writing its content: {program[case.writing()]['frame']}"
    if plain.get("from") != sender(case, program):
        yield f"has the sender {sender(case, program)}"
    if number in (0, 3, 4):
        wrong = [k for k, block in enumerate(frame.blocks, 1) if not frame.right(program, block)]
        if wrong[:1] != ([plain["block"]] if number == 3 else []):
            yield f"has wrong checks in the blocks {wrong}"
    if number == 1 and {name: plain[name] for name in plain if name.startswith("missing")} != missing(case):
        yield f"lacks {missing(case)}"
    if number == 2 and (frame.size or plain["l"] != int(frame.cells[0], 16)):
        yield f"has the length byte {frame.cells[0]}"
    if number == 6 and plain["word"] != first_bad_word(case, program):
        yield f"has its first bad word at {first_bad_word(case, program)}"


def sender(case, program):
    """What stands below an accepted answer: M and A of its content, what M says, and A as it is printed."""
    if case.number:
        return None
    m_low, m_high, *a = re.findall("..", case.plain["content"][2:18])
    said = program[maker_of((m_low, m_high))]
    return {"sender": case.plain["content"][2:18], "letters": said["letters"], "address": said["address"],
            "id": "".join(reversed(a[:4])), "version": a[4], "type": a[5]}


def missing(case):
    """What is missing to the frame's end, or at least to the next that tells more: the tail or the length byte."""
    came = len(case.bits)
    if not case.frame:
        return {"missing-chips-at-least": case.sync + 2 * SYNC - came}
    at_least = "" if case.frame.size else "-at-least"
    size = case.frame.size or 1
    if not case.kind:
        return {f"missing-bytes{at_least}": size - came // 8}
    return {f"missing-chips{at_least}": case.first + size * KINDS[case.kind].a_byte - came}


def first_bad_word(case, program):
    kind, chips = KINDS[case.kind], case.bits[case.first:]
    words = [chips[at:at + kind.width] for at in range(0, len(chips) - kind.width + 1, kind.width)]
    return next((index for index, word in enumerate(words) if program[word_of(kind.code, word)]["answer"]), None)


def faults(case, program, drawn):
    """What is wrong with a drawing, under what it is."""
    fields = {name: value for name, value in drawn.items() if name != "picture"}
    if fields != case.plain:
        yield "answer", f"{fields} and not {case.plain}"
    try:
        drawing = Drawing(drawn.get("picture", ""))
    except (ET.ParseError, ValueError, TypeError, IndexError) as why:
        yield "drawing", f"that cannot be read: {why}"
        return
    expected, said = Expected(case, program), drawing.said
    yield from head_faults(drawing, case, expected.headline())
    if case.frame:
        said["blocks"] = sorted(under_its_block(said["blocks"], case.frame))
    expected.said["red"] = [(kind,) for kind in drawing.kinds if RED & set(kind.split())]
    for key in KEYS:
        if said[key] != expected.said[key]:
            yield key, difference(said[key], expected.said[key])
    yield from (("answer", fault) for fault in answer_faults(case, program))


def head_faults(drawing, case, headline):
    verdict = "good" if case.number == 0 else "bad"
    head = drawing.head + 2 * [("", "")]
    if head[0] != (f"answer {verdict}", headline) or head[1][0] != verdict or not head[1][1]:
        yield "head", f"{head[:2]} and not {headline}"
    told = {str(value) for value in case.plain.values()} | {str(SYNC), str(case.option("start"))}
    if not set(re.findall("[0-9]+", head[1][1])) <= told:
        yield "head", f"a number in its sentence that the answer does not have: {head[1][1]}"
    if drawing.title != f"{head[0][1]}: {head[1][1]}":
        yield "title", drawing.title


def difference(said, expected):
    more = [what for what in said if what not in expected]
    less = [what for what in expected if what not in said]
    return f"{(more or ['nothing'])[0]} and not {(less or ['nothing'])[0]}, of {len(said)} and {len(expected)}"


def self_test(program):
    """Planted faults that are not found, or not as what they are."""
    cases = dict(zip(SAMPLES, cases_of(program, SAMPLES.values()), strict=True))
    for what, case, drawn, key in planted(cases):
        if drawn == case.drawn:
            yield f"cannot be planted: {what}"
        elif key not in {found for found, _ in faults(case, program, drawn)}:
            yield f"planted and not found: {what}"


# The answers that must have been drawn: with a frame of each kind, of bytes, and without a frame.
COVERED = {(kind, number) for kind in ("bytes", *KINDS) for number in (0, 1, 2, 3, 4)} | {
    ("T-A", 6), ("Manchester-A", 6)} | {("none", number) for number in (1, 7, 8, 10, 14)}
MOST_PRINTED = 20
DRAWN = ("receive ", "manchester ", "read ")


def lines_of(files):
    read = [line for file in files for line in Path(file).read_text(encoding="utf-8", errors="replace").splitlines()]
    return [line.split(" #")[0] for line in read if line.startswith(DRAWN) and line.isprintable()]


def main():
    program = Program(str(Path(sys.argv[1]).resolve()))
    cases = cases_of(program, [*lines_of(sys.argv[2:]), *Maker(program).made(), *SAMPLES.values()])
    found = []
    for case in cases:
        found += [f"picture {case.line} has {key}: {fault}" for key, fault in faults(case, program, case.drawn)]
    covered = {(case.kind or ("bytes" if case.command == "read" else "none"), case.number) for case in cases}
    found += [f"no line of these has the answer {number} with a frame of {kind}" for kind, number in COVERED - covered]
    # A drawing that is wrong itself says nothing of what is planted in it.
    found = found or list(self_test(program))
    for fault in found[:MOST_PRINTED]:
        print(f"tests/door: {fault}")
    if len(found) > MOST_PRINTED:
        print(f"tests/door: and {len(found) - MOST_PRINTED} faults more")
    if not found:
        faults_planted = len(PLANTED) + len(DRAWN_ANSWERS) + len(ANSWERS)
        print(f"tests/door: {len(cases)} drawings show what the program answers, with {len(covered)} pairs of kind and",
              f"answer; {faults_planted} planted faults are found")
    return 1 if found else 0


sys.exit(main())
