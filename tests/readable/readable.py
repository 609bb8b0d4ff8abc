#!/usr/bin/env python3
"""Whether the Rattle and antt text of crates/ can be read.

  readable.py [--crate NAME] [--list]

Fails on: a line of more than 120 characters (imports aside); a path of four or more steps that stands twice in one
answer (Answers.antt, Invariants.antt, Proof.antt); a law of more than 20 lines; more than one law in ten of over 8
lines (cases in a row with one right side count as one line). Fails also on a line of a must-fail edit that rt passes
over: a text of several lines is one replacement for each. With --list it also names the laws of over 8 lines.
"""
import argparse, collections, glob, os, re, sys

WIDEST, STEPS, LONGEST, USUAL = 120, 4, 20, 8
EDIT = ("#", "file: ", "old: ", "new:")
ANSWERS = ("/Answers.antt", "/Invariants.antt", "/Proof.antt")
IMPORT = re.compile(r"\s*(ghost )?(pub )?use ")
PATH = re.compile(r"(?<![\w.'-])[a-z][\w'-]*((?:\.[\w'-]+){%d,})" % STEPS)
HEAD = re.compile(r"^( *)(?:(?:abbrev|unfoldable|pub|opaque) )*([^\s:=(]+)\s*(?::|$)")


def files(crate):
    for top, dirs, names in os.walk("crates"):
        dirs[:] = sorted(d for d in dirs if d not in ("must-fail", "out"))
        for n in sorted(names):
            path = os.path.join(top, n)
            if n.endswith((".rt", ".antt")) and (not crate or path.split("/")[1] == crate):
                yield path


def blocks(lines):
    """The declarations of an antt file: (first line number, name, lines), comments and blank lines left out."""
    out, current = [], None
    for no, line in enumerate(lines, 1):
        code = line.split("--")[0].rstrip() if line.lstrip().startswith("--") else line.rstrip()
        if not code.strip() or IMPORT.match(code) or re.match(r"\s*(pub )?mod ", code) or re.match(r"\s*module ", code):
            if not code.strip() and not line.lstrip().startswith("--"):
                current = None
            continue
        if current is None:
            m = HEAD.match(code)
            current = (no, m.group(2) if m else code.split()[0], [])
            out.append(current)
        current[2].append(code)
    return out


def size(lines):
    """How many lines a law has; cases one behind the other with the same right side are read as one."""
    rights = [line.partition(" = ")[2] for line in lines]
    return sum(not right or right != before for right, before in zip(rights, [""] + rights))


def twice(lines):
    """Paths of four or more steps that stand more than once in one answer: counted over every prefix of a path."""
    seen = collections.Counter()
    for line in lines:
        for m in PATH.finditer(line):
            steps = m.group(0).split(".")
            for n in range(STEPS, len(steps)):
                seen[".".join(steps[:n + 1])] += 1
    return [p for p, k in seen.items() if k > 1]


def main():
    p = argparse.ArgumentParser()
    p.add_argument("--crate")
    p.add_argument("--list", action="store_true")
    a = p.parse_args()
    wrong, laws, long = [], 0, []
    for path in files(a.crate):
        lines = open(path, encoding="utf-8").read().splitlines()
        for no, line in enumerate(lines, 1):
            if len(line) > WIDEST and not IMPORT.match(line):
                wrong.append(f"{path}:{no}: {len(line)} characters")
        if path.endswith(ANSWERS):
            for no, name, text in blocks(lines):
                for q in twice(text):
                    wrong.append(f"{path}:{no}: {name}: twice {q}")
        elif "/proofs/" in path and not path.endswith("/Lib.antt"):
            for no, name, text in blocks(lines):
                laws += 1
                if size(text) > USUAL:
                    long.append(f"{path}:{no}: {name}: {size(text)} lines")
                if size(text) > LONGEST:
                    wrong.append(f"{path}:{no}: {name}: {size(text)} lines")
    for edit in sorted(glob.glob(f"crates/{a.crate or '*'}/must-fail/*.edit")):
        for no, line in enumerate(open(edit, encoding="utf-8").read().splitlines(), 1):
            if line.strip() and not line.startswith(EDIT):
                wrong.append(f"{edit}:{no}: rt passes over this line: the texts of an edit have one line each")
    if not a.crate and len(long) * 10 > laws:
        wrong.append(f"{len(long)} of {laws} laws have more than {USUAL} lines")
    for line in (long if a.list else []) + wrong:
        print(line)
    print(f"tests/readable: {laws} laws, {len(long)} of over {USUAL} lines; {len(wrong)} things to mend")
    sys.exit(1 if wrong else 0)


main()
