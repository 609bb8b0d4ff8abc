#!/usr/bin/env python3
"""Each entry point's contract names the definition that the page of demands uses for it.

A promise about a definition says nothing of a function whose contract is about another. The page
(crates/demands/specs/Demands.antt) has records of statements; in the one for demand 1, a comment directly above each
field begins with `-- by ` and names the entry points for which the field speaks (a line that ends in a comma goes on in
the next). This fails where
  - an entry point is named by no field, a field of such a record names none, or a name is no entry point's;
  - a field that names an entry point lacks the definition that this entry point's contract is an equation with. An
    exported function tells what a definition below it gives, and its field may have that: `call_read f s d` is defined
    over `reading_of`, `told_size (size_for f l)` has `size_for` in it.
  - an exported function that is named for a code, format, kind or header has another one in its contract, as
    `kusikhut_read_a` would with `Format.B`.
Entry points are the public functions of the crates below, and the exported ones (crates/kusikhut_c). What is compared are names; that calls
are judged as the page says is proved of the functions of crates/entry. With `self-test` it exits with 1 if a fault that
is planted in a small page is not found.
"""
import re
import sys
from collections import namedtuple
from pathlib import Path

from settled import ASKING, WORD, Function, equation, functions, head_of, imports, trait_functions

PAGE = Path("crates/demands/specs/Demands.antt")
CRATES = ("address", "channels", "chipreader", "correction", "crc", "filter", "frame", "header", "line", "mending",
          "radio", "store", "sync")
# public functions that are no entry points: the CI byte of a header's kind, and check bytes as they are, which
# `correction::check_bytes` writes
INNER = {"header::HeaderKind::ci", "correction::checks"}
BELOW = re.compile(r"Rattle\.(?!kusikhut\.|std\.)\w+\.specs\.(?!declared\.)")

# what an exported function is named for, and what its contract must then have
NAMED = [
    (r"_nrz$", "Nrz"), (r"_three_of_six$", "ThreeOfSix"), (r"(decode|encode|word)_manchester$", "Manchester"),
    (r"_(read|write|change|frame_size)_a$", "Format.A"), (r"_(read|write|change|frame_size)_b$", "Format.B"),
    (r"_send_t_a$", "TWithA"), (r"_send_c_a$", "CWithA"), (r"_send_c_b$", "CWithB"),
    (r"_send_manchester_a$", "ManchesterWithA"), (r"_8c$", "Plain"), (r"_8d$", "Secured"), (r"_8e$", "Addressed"),
    (r"_8f$", "AddressedSecured"),
]

# a field of the page: its record, its name, the entry points named above it, the words of its statement
Field = namedtuple("Field", "record name by words")


def fields(page):
    """The fields of the page's records."""
    found, record, by, current = [], "", "", None
    for line in page.splitlines():
        code, _, comment = (part.strip() for part in line.partition("--"))
        field = re.match(r"  (?:pub )?([^\s:()]+) :(?:\s|$)", line)
        if code and not line.startswith("  ") or not line.strip():
            head = re.match(r"(?:pub )?record (\S+)", line)
            record, by, current = head[1] if head else record, "", None
        elif not code:
            by = comment[len("by "):] if comment.startswith("by ") else by + comment if by.endswith(",") else by
        elif field:
            current = Field(record, field[1], {x.strip() for x in by.split(",") if x.strip()}, set())
            found.append(current)
            by = ""
        if code and current:
            current.words.update(re.findall(r"[^\s(){},;.]+", code))
    return found


def over(function, calls):
    """The definitions by which a field may speak of a function; `calls` is the text of kusikhut/specs."""
    right = equation(function)[0] or ""
    head = head_of(right)
    if not function.exported:
        return [head]
    homes = {**imports("kusikhut", calls), **function.imports}
    body = " ".join(re.findall(rf"^{head} .*(?:\n .*)*", calls, re.M))
    return [head] + [w for w in WORD.findall(right + " " + body) if BELOW.match(homes.get(w, ""))][:1]


def entry_points():
    """The entry points by the name that the page uses: `crate::function`, an exported one without its crate."""
    found = {}
    for path in sorted(Path("crates").glob("*/src/**/*.rt")):
        text = path.read_text(encoding="utf-8")
        for f in [*functions(path.parts[1], text), *trait_functions(path.parts[1], text)]:
            if f.exported or path.parts[1] in CRATES and f.name not in ASKING | INNER:
                found[f.name.replace("kusikhut_c::", "")] = f
    return found


def another(name, function):
    """The constant that a function is named for, where its contract lacks it."""
    words = WORD.findall(equation(function)[0] or "")
    wanted = [constant for pattern, constant in NAMED if function.exported and re.search(pattern, name)]
    return [constant for constant in wanted if constant not in words and constant.split(".")[-1] not in words]


def faults(page, entries, calls):
    """What is wrong with the page, in words."""
    all_fields = fields(page)
    naming = {field.record for field in all_fields if field.by}
    silent = [field for field in all_fields if field.record in naming and not field.by]
    found = [f"{field.name}: no line `-- by` above it" for field in silent]
    for field in all_fields:
        for name in sorted(field.by):
            if name not in entries:
                found.append(f"{field.name}: `{name}` is no entry point")
            elif not field.words & set(over(entries[name], calls)):
                found.append(f"{field.name}: lacks {' and '.join(over(entries[name], calls))}, which `{name}` is by")
    found += [f"`{name}` is not by {c}" for name, function in entries.items() for c in another(name, function)]
    named = {name for field in all_fields for name in field.by}
    return found + [f"`{name}` is named by no field" for name in entries if name not in named]


SMALL = """pub record Answers : Type 0 where
  -- any bytes have a check
  -- by crc::check, kusikhut_check
  -- (12.5.7)
  pub checking : (s : List ℕ) → Word (check_of s)
  -- by frame::read,
  -- kusikhut_read_a
  pub reading :
      (s : List ℕ) → Harmless (reading_of s)

pub record Later : Type 0 where
  pub unnamed : (s : List ℕ) → check_of s ≡ check_of s
"""
CALLS = "use Rattle.frame.specs.Reads.{reading_of}\n\ncall_read s =\n    tells told_frame (reading_of s)\n"
ENTRIES = {
    name: Function(name, name.startswith("kusikhut"), f"(s: u8) -> u8 ensures {{ result ≡ {head} s }}", {})
    for name, head in (("crc::check", "check_of"), ("kusikhut_check", "check_of"), ("frame::read", "reading_of"),
                       ("kusikhut_read_a", "call_read Format.A"))
}
# what stands in the small page or in its calls, what is planted there, a word of the fault that must be found
PLANTED = [
    ("Word (check_of s)", "Word (reg_of s)", "lacks check_of"),
    ("Word (check_of s)", "Word s  -- check_of", "lacks check_of"),
    ("  -- by crc::check, kusikhut_check\n", "", "no line `-- by`"),
    ("crc::check, ", "", "`crc::check` is named by no field"),
    ("crc::check", "crc::chek", "`crc::chek` is no entry point"),
    (",\n  -- kusikhut_read_a", "", "`kusikhut_read_a` is named by no field"),
    ("Harmless (reading_of s)", "Harmless (writing_of s)", "lacks call_read and reading_of, which `kusikhut_read_a`"),
    ("tells told_frame (reading_of s)", "tells told_frame s", "lacks call_read, which `kusikhut_read_a`"),
]


def self_test():
    wrong = [f"taken for a fault: {fault}" for fault in faults(SMALL, ENTRIES, CALLS)]
    read = ENTRIES["kusikhut_read_a"]
    other = {**ENTRIES, "kusikhut_read_a": read._replace(head=read.head.replace("Format.A", "Format.B"))}
    if "`kusikhut_read_a` is not by Format.A" not in faults(SMALL, other, CALLS):
        wrong.append("not found: format B behind the name of A")
    for old, new, word in PLANTED:
        found = faults(SMALL.replace(old, new), ENTRIES, CALLS.replace(old, new))
        if old not in SMALL + CALLS or not any(word in fault for fault in found):
            wrong.append(f"not found, {word}: {found}")
    for line in wrong:
        print(line)
    return 1 if wrong else 0


def main():
    calls = "\n".join(p.read_text(encoding="utf-8") for p in sorted(Path("crates/kusikhut/specs").glob("*.antt")))
    entries = entry_points()
    found = faults(PAGE.read_text(encoding="utf-8"), entries, calls)
    for line in found:
        print(f"{PAGE}: {line}")
    print(f"tests/contracts: {len(entries)} entry points held against the page, {len(found)} faults")
    return 1 if found or not entries else 0


if __name__ == "__main__":
    sys.exit(self_test() if sys.argv[1:] == ["self-test"] else main())
