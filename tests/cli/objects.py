#!/usr/bin/env python3
"""JSON answers say what the text says. Usage: objects.py PROGRAM INPUT ..

Each input is run with --json and with --numbered. Every line of JSON must be one object without a key twice, and the
objects must answer exactly those lines of the input that are neither blank nor a comment. From each object the text is
made that it stands for, and it must be the text that was printed: the same fields, in the same order, with the same
values. Prints each difference, and exits with 1 if there is one; before that it plants differences and exits with 1 if
one of them is not found.
"""
import json
import re
import subprocess
import sys
from decimal import Decimal
from itertools import groupby, zip_longest
from pathlib import Path

# A longer line is answered with an error, be it a comment or blank.
LONGEST = 16384
# The text does not show whether 2104 is a number or bytes, and none a word or nothing: these fields are bytes,
BYTES = set("a2 acc byte bytes cc check check-bytes chips ci content crc frame header id length-byte lent m2 meter"
            " proposed received sender sent sn type version".split())
# and in these none is a word.
NONE_IS_A_WORD = {"access"}


class Wrong(Exception):
    """An object that stands for no text."""


def once(pairs):
    keys = [key for key, _ in pairs]
    if len(set(keys)) < len(keys):
        raise Wrong(f"a key stands there twice: {keys}")
    return dict(pairs)


def no_number(word):
    raise Wrong(f"{word} is no JSON")


def parsed(line):
    try:
        found = json.loads(line.decode(), object_pairs_hook=once, parse_float=Decimal, parse_constant=no_number)
    except ValueError as why:
        raise Wrong(f"no JSON: {why}") from None
    if not isinstance(found, dict) or next(iter(found), None) != "line" or type(found["line"]) is not int:
        raise Wrong("no object that begins with its line's number")
    return found


def shown(name, value):
    """A field's value as the text shows it."""
    if name in BYTES:
        if not isinstance(value, str) or not re.fullmatch("([0-9A-F]{2})*", value):
            raise Wrong(f"{name} must be bytes and is {value!r}")
        return value or "-"
    if isinstance(value, bool):
        return "yes" if value else "no"
    if value is None:
        return "none"
    if isinstance(value, (int, Decimal)):
        return str(value)
    not_words = "[0-9.]*|yes|no" if name in NONE_IS_A_WORD else "[0-9.]*|yes|no|none"
    if not isinstance(value, str) or re.fullmatch(not_words, value):
        raise Wrong(f"{name} is {value!r}")
    return value


def fields(members):
    return "".join(f" {name}={shown(name, value)}" for name, value in members)


def head(reply):
    own = [member for member in list(reply.items())[2:] if not isinstance(member[1], (list, dict))]
    return f"{reply['answer']} {reply['name']}" + fields(own)


def answer_lines(reply):
    """The lines of an answer: its own, then one for each thing below it; what is below an inner one is set in more."""
    if list(reply)[:2] != ["answer", "name"] or type(reply["answer"]) is not int:
        raise Wrong("answer and name do not come first")
    lines, below = [head(reply)], False
    for name, value in list(reply.items())[2:]:
        if below and not isinstance(value, (list, dict)):
            raise Wrong(f"the field {name} stands behind what is below the answer")
        below = below or isinstance(value, (list, dict))
        if isinstance(value, list):
            lines += [" " + fields(row.items()) for row in value]
        elif isinstance(value, dict) and "answer" in value:
            own, *inner = answer_lines(value)
            lines += [f"  {name}={own}", *(f"  {line}" for line in inner)]
        elif isinstance(value, dict):
            lines.append(" " + fields(value.items()))
    return lines


def text_lines(text):
    if not isinstance(text, str):
        raise Wrong(f"{text!r} is no text")
    return text.removesuffix("\n").split("\n")


def text_of(found):
    """The lines of text that an object stands for. A drawing is printed in place of its answer."""
    members = {name: value for name, value in found.items() if name != "line"}
    if "answer" in members:
        drawing = members.pop("picture", None)
        lines = answer_lines(members)
        return lines if drawing is None else text_lines(drawing)
    if "error" in members:
        if list(members) != [name for name in ("error", "word", "usage") if name in members]:
            raise Wrong(f"an error has the members {list(members)}")
        word = f"word {members['word']}: " if "word" in members else ""
        usage = f"; usage: {members['usage']}" if "usage" in members else ""
        return [f"error {word}{members['error']}{usage}"]
    if len(members) != 1:
        raise Wrong(f"neither an answer nor an error nor a text: {list(members)}")
    return text_lines(*members.values())


def asked(data):
    """The numbers of the lines that are answered."""
    lines = data.removeprefix(b"\xEF\xBB\xBF").split(b"\n")
    bare = [line.strip(b" \t\r\f") for line in lines]
    skipped = [len(line) <= LONGEST and text[:1] in (b"", b"#") for line, text in zip(lines, bare)]
    return [number for number, skip in enumerate(skipped, 1) if not skip]


def numbered(text):
    """Line numbers with the lines of text that answer them. Comments, which JSON does not have, are left out."""
    split = [line.split(": ", 1) for line in text.decode().split("\n")[:-1]]
    for number, lines in groupby(split, key=lambda parts: parts[0]):
        lines = [line[1] for line in lines]
        if not lines[0].startswith("#"):
            yield int(number), lines


def differences(data, text, objects):
    """What is wrong with the two outputs for an input."""
    found, expected = [], []
    for at, line in enumerate(objects.removesuffix(b"\n").split(b"\n") if objects else [], 1):
        try:
            answer = parsed(line)
            expected.append((answer["line"], text_of(answer)))
        except Wrong as why:
            found.append(f"line {at} of the JSON: {why}: {line[:200].decode(errors='replace')}")
    lines = asked(data)
    if [number for number, _ in expected] != lines and not found:
        wrong = sorted(set(lines) ^ {number for number, _ in expected})[:9]
        found.append(f"lines that are answered and should not be, or the other way round: {wrong}; if there are none, "
                     "one is answered twice or too early")
    for from_json, printed in zip_longest(expected, numbered(text)):
        if from_json != printed and not found:
            found.append(f"JSON stands for {from_json} and the text is {printed}")
    return found


def run(program, data, flag):
    ended = subprocess.run([program, flag], input=data, capture_output=True, check=True)
    return ended.stdout


def of_input(program, data):
    return differences(data, run(program, data, "--numbered"), run(program, data, "--json"))


RECEIVED = "0F44AE0C7856341201074447780B134465871E6D2104" \
           "84EA276958EC76A29678BF51DFED7661D46D36B8523BAE787CEFFD7B007EC9C6"
SENT, CAME = ("0F44AE0C7856341201074447780B13" + value + "1E6D" for value in ("436587", "4258E2"))
EXAMPLE = f"""# a comment
write A +10*00 room=16 show=lent
search - allowance=0
letters received=0000
letters received=4384
access 00

channel 5 0
filter 44AE0C785634120107 AE0C785634120107
read A {SENT} room=16
band B
mend A {RECEIVED}
damage A {SENT} {CAME}
check -  # behind a command
decode nrz - 0 0
read A 4
help 3
picture read A 09
""".encode()
FIRST = b'"frame":"0A000000000000000000692400FFFF"'
SENDER = b',"from":{"sender":"AE0C785634120107","letters":"CEN","address":"hard",' \
         b'"id":"12345678","version":"01","type":"07"}'
# what is read, and mended and read, with its sender below
READ = b'"content":"44AE0C785634120107780B13436587"'
# what is planted: a part of the JSON, and what stands there instead
PLANTED = {
    "a number as a string": (b'"size":15', b'"size":"15"'),
    "another number": (b'"size":15', b'"size":16'),
    "another name": (b'"left":1', b'"right":1'),
    "a field that is missing": (b',"left":1', b""),
    "a field more": (b'"left":1', b'"left":1,"right":1'),
    "another order": (FIRST + b',"left":1', b'"left":1,' + FIRST),
    "a key twice": (b'"left":1', b'"left":1,"left":1'),
    "other bytes": (b"FFFF00", b"FFFF01"),
    "bytes in small letters": (b"FFFF00", b"ffff00"),
    "half a byte": (b"FFFF00", b"FFFF0"),
    "bytes as a number": (b'"check":"FFFF"', b'"check":65535'),
    "no bytes as a minus sign": (b'"bytes":""', b'"bytes":"-"'),
    "nothing as a word": (b"null", b'"none"'),
    "yes as a word": (b"true", b'"yes"'),
    "yes as a number": (b"true", b"1"),
    "a real number as a string": (b"169481.25,", b'"169481.25",'),
    "another real number": (b"169481.25,", b"169481.250,"),
    "no number at all": (b"169481.25,", b"NaN,"),
    "a row that is missing": (b',{"index":6,"channel":0,"hertz":169481250}', b""),
    "another answer below": (b'"reading":{"answer":0', b'"reading":{"answer":3'),
    "a soft address as a hard one": (b'"address":"soft"', b'"address":"hard"'),
    "an identification number as a number": (b'"id":"12345678"', b'"id":12345678'),
    "a sender below that is missing": (READ + b',"left":1' + SENDER, READ + b',"left":1'),
    "a sender below an answer below that is missing": (READ + SENDER, READ),
    "another sender below an answer below": (READ + SENDER, READ + SENDER.replace(b"hard", b"soft")),
    "a field behind what is below": (b'"covered":false}', b'"covered":false},"size":1'),
    "a truth turned over": (b'"length-byte-changed":false', b'"length-byte-changed":true'),
    "another message": (b"a byte is two", b"a byte is four"),
    "a message without its word": (b',"word":3', b""),
    "a message without usage": (b',"usage":', b',"use":'),
    "another drawing": (b"<svg", b"<jpg"),
    "a drawing that is no text": (b'"picture":"', b'"picture":1,"pixels":"'),
    "another help text": (b"3 wrong-check", b"3 right-check"),
    "another line's number": (b'{"line":3,', b'{"line":4,'),
    "no line's number": (b'{"line":3,', b"{"),
    "the line's number in the middle": (b'{"line":3,"answer":7,', b'{"answer":7,"line":3,'),
    "an answer to a comment": (b'{"line":2,', b'{"line":1,"help":"# a comment"}\n{"line":2,'),
    "an answer twice": (b'{"line":2,', b'{"line":3,"answer":7,"name":"no-sync","tried":0}\n{"line":2,'),
    "an answer that is missing": (b'{"line":3,"answer":7,"name":"no-sync","tried":0}\n', b""),
    "two objects on a line": (b'}\n{"line":3', b'} {"line":3'),
    "an object that is cut off": (b'"tried":0}', b'"tried":0'),
    "bytes that are no text": (b"3 wrong-check", b"3 \xff-check"),
}


def self_test(program):
    text, objects = run(program, EXAMPLE, "--numbered"), run(program, EXAMPLE, "--json")
    missed = [f"without an error: {why}" for why in differences(EXAMPLE, text, objects)]
    for what, (there, instead) in PLANTED.items():
        if objects.count(there) < 1 or not differences(EXAMPLE, text, objects.replace(there, instead, 1)):
            missed.append(f"planted and not found: {what}")
    return missed


def main():
    program = Path(sys.argv[1]).resolve()
    found = self_test(program)
    for name in sys.argv[2:]:
        found += [f"{name}: {why}" for why in of_input(program, Path(name).read_bytes())]
    for line in found:
        print(line)
    return 1 if found else 0


if __name__ == "__main__":
    sys.exit(main())
