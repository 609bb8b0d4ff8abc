#!/usr/bin/env python3
"""docs/RULES.md and `Refusal` of crates/answers name the same answers: number, case and value's name.

The page is what the Rust wrapper takes its words from. Every case of specs/Refusals.antt has exactly one row, and every row
but that of 0, acceptance, its case. Prints each difference, and exits with 1 if there is one; with `self-test` it plants
differences and exits with 1 if one of them is not found.
"""
import re
import sys
from pathlib import Path

PAGE = Path("docs/RULES.md")
SOURCE = Path("crates/answers/specs/Refusals.antt")
ROW = re.compile(r"\| *(\d+) *\| *`([a-z-]+)` *\| *(?:`(\w+)`)? *\| *(?:`(\w+)`)? *\| *\S")
NUMBER = re.compile(r"^number_of \(?(\w+)(?: \w+)?\)? = (\d+)$", re.M)
VALUE = re.compile(r"^value_of \(?(\w+)(?: \w+)?\)? = (\w+)$", re.M)


def on_the_page(text):
    """The rows of the numbers as (number, case, value's name), the names empty where there are none; and the words."""
    rows = [match.groups() for line in text.splitlines() if (match := ROW.match(line))]
    return [(int(number), case or "", value or "") for number, _, case, value in rows], [row[1] for row in rows]


def in_the_source(text):
    """The cases in the same form, acceptance with them. A value that is 0 is none."""
    values = {case: "" if value == "0" else value for case, value in VALUE.findall(text)}
    return [(0, "", "")] + [(int(number), case, values.get(case, "no value_of")) for case, number in NUMBER.findall(text)]


def differences(page, source):
    rows, words = on_the_page(page)
    cases = in_the_source(source)
    found = [f"{PAGE}: {row} stands in no case of {SOURCE}" for row in rows if row not in cases]
    found += [f"{SOURCE}: {case} has no row in {PAGE}" for case in cases if case not in rows]
    for what, names in [("number", [row[0] for row in rows]), ("word", words)]:
        found += [f"{PAGE}: the {what} {name} stands twice" for name in sorted(set(names)) if names.count(name) > 1]
    if len(cases) < 2:
        found.append(f"{SOURCE}: no case was found; this test looks in the wrong place")
    return found


def self_test(page, source):
    row = next(line for line in page.splitlines() if line.startswith("| 3 |"))
    planted = {
        "a row is missing": (page.replace(row + "\n", ""), source),
        "a row stands twice": (page.replace(row, row + "\n" + row), source),
        "a row has another number": (page.replace(row, row.replace("| 3 |", "| 15 |", 1)), source),
        "a row names another value": (page.replace(row, row.replace("`block`", "`word`")), source),
        "a word stands twice": (page.replace("`too-short`", "`no-room`"), source),
        "a case has no row": (page, source.replace("number_of NoRoom = 4", "number_of NoRoom = 4\nnumber_of Other = 15")),
        "a case has another number": (page, source.replace("number_of NoRoom = 4", "number_of NoRoom = 15")),
        "the page is empty": ("", source),
        "the source is empty": (page, ""),
    }
    return [f"planted and not found: {what}" for what, texts in planted.items() if not differences(*texts)]


def main():
    page, source = PAGE.read_text(encoding="utf-8"), SOURCE.read_text(encoding="utf-8")
    found = self_test(page, source) if sys.argv[1:] == ["self-test"] else differences(page, source)
    for line in found:
        print(line)
    if not sys.argv[1:]:
        print(f"tests/answers: {len(in_the_source(source))} answers, {len(found)} differences between the page and the sources")
    return 1 if found else 0


sys.exit(main())
