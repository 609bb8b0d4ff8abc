#!/usr/bin/env python3
"""That believed.py can fail: each fault is planted in a copy of the crates, and it must be named.

Says nothing where every fault is found, and fails otherwise.
"""
import re
import shutil
import subprocess
import sys
import tempfile
from pathlib import Path

SCRIPT = Path(__file__).resolve().with_name("believed.py")
PUBLISHED = "docs/BELIEVED.md"


def replace(root, old, new):
    """Every citation of a module under another name."""
    for path in [*root.rglob("*.antt"), *root.rglob("*.rt")]:
        text = path.read_text(encoding="utf-8")
        if old in text:
            path.write_text(text.replace(old, new), encoding="utf-8")


def unread(root):
    path = root / "crates/answers/specs/Outcome.antt"
    path.write_text(path.read_text(encoding="utf-8") + "\npub unread : ℕ\nunread = 0\n", encoding="utf-8")


def among_the_proofs(root):
    (root / "crates/answers/specs/Outcome.antt").rename(root / "crates/answers/proofs/Outcome.antt")
    replace(root, "Rattle.answers.specs.Outcome", "Rattle.answers.proofs.Outcome")


def inner(root):
    (root / "crates/answers/specs/Outcome.antt").rename(root / "crates/answers/specs/Inner.antt")
    replace(root, "Rattle.answers.specs.Outcome", "Rattle.answers.specs.Inner")


def lost(root):
    replace(root, "Rattle.answers.specs.Outcome", "Rattle.answers.specs.Lost")


def other_figures(root):
    path = root / PUBLISHED
    text = path.read_text(encoding="utf-8")
    path.write_text(re.sub(r"\| the demands \| \d+", "| the demands | 1", text), encoding="utf-8")


def other_order(root):
    path = root / PUBLISHED
    text = path.read_text(encoding="utf-8")
    row = "crates/crc/specs/Check.antt) | 12 |"
    path.write_text(text.replace(row, row.replace("12", "2")), encoding="utf-8")


def other_sum(root):
    path = root / "README.md"
    path.write_text(path.read_text(encoding="utf-8").replace("lines of definitions", "lines"), encoding="utf-8")


FAULTS = [
    (unread, "`unread` is reached by nothing"),
    (among_the_proofs, "`Outcome` stands in crates/answers/proofs/Outcome.antt, not in specs/"),
    (inner, "`Outcome` of crates/answers/specs/Inner.antt has to be believed after all"),
    (lost, "`Outcome` cannot be followed"),
    (other_figures, f"{PUBLISHED} lacks the line: | the demands | "),
    (other_order, f"{PUBLISHED} lacks the line: | [crates/crc/specs/Check.antt]"),
    (other_sum, "README.md does not say "),
]


def main():
    missed = 0
    for plant, words in FAULTS:
        with tempfile.TemporaryDirectory() as folder:
            root = Path(folder)
            shutil.copytree("crates", root / "crates", ignore=shutil.ignore_patterns("out"))
            (root / "docs").mkdir()
            for page in (PUBLISHED, "README.md", "crates.txt"):
                shutil.copy(page, root / page)
            plant(root)
            run = subprocess.run([sys.executable, SCRIPT], cwd=root, capture_output=True, text=True)
        if run.returncode != 1 or words not in run.stdout:
            missed += 1
            print(f"tests/believed: not found: {plant.__name__}\n{run.stdout}{run.stderr}")
    return 1 if missed else 0


sys.exit(main())
