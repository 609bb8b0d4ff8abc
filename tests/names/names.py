#!/usr/bin/env python3
"""Every name that the documents use is found in the repository.

Looks at README.md, CONTRIBUTING.md and docs/**/*.md, blocks of code aside:
  crate/specs/File, crate/proofs/File, crate/must-fail/edit    the file is there; names in backticks behind it, in the same
                                cell or sentence, stand in it. A file's own name may stand without its crate
  `crate::function`             the crate's sources declare it
  `path/with/slashes`, links    the path is there
  `name`                        any other single word stands somewhere in the sources
A change's note (docs/changes), the port's pages (docs/PORT*.md) and the design pass (docs/DESIGN-PASS.md) name what is
gone: there, only paths of links are looked at.
Prints what is not found, and exits with 1 if there is anything.
"""
import re
import sys
from pathlib import Path

ROOT = Path(".")
SOURCES = ("crates", "rust", "include", "tests", "bench", "examples", "tools", ".ci")
TEXT = {}
for top in SOURCES:
    for path in sorted(ROOT.glob(f"{top}/**/*")):
        if path.is_file() and not {"target", "out"} & set(path.parts):
            TEXT[path.as_posix()] = path.read_text(encoding="utf-8", errors="replace")
for name in ("kusikhut", "crates.txt"):
    if Path(name).is_file():
        TEXT[name] = Path(name).read_text(encoding="utf-8")
ALL = "\n".join([*TEXT.values(), *(Path(p).stem for p in TEXT)])
CRATES = {p.name for p in ROOT.glob("crates/*")}
FILES = {}
for path in TEXT:
    m = re.match(r"crates/(\w+)/(specs|proofs)/(\w+)\.antt$", path)
    if m:
        FILES.setdefault(m.group(3), []).append(path)

TOKEN = re.compile(
    r"(?P<file>\b[a-z]\w*/(?:specs|proofs|must-fail)/[\w-]+)"
    r"|`(?P<tick>[^`]+)`"
    r"|\]\((?P<link>[^)#\s]+)[^)]*\)"
    r"|(?P<bare>\b[A-Z]\w+(?= `))"
    r"|(?P<end>[|;.](?=\s|$))"
)
WORD = r"(?<![\w-]){}(?![\w-])"


def stands(name, text):
    return re.search(WORD.format(re.escape(name)), text) is not None


def file_of(name):
    crate, folder, stem = name.split("/")
    path = f"crates/{crate}/{folder}/{stem}"
    proofs = (f"{path}/{name}.antt" for name in ("Proof", "Answers", "Invariants"))
    return next((p for p in (f"{path}.antt", f"{path}.edit", *proofs) if p in TEXT), None)


def ticked(text, current):
    """What is wrong with the words between two backticks; `current` is the file that was named before them."""
    text = text.strip()
    m = re.fullmatch(r"([a-z]\w*/(?:specs|proofs|must-fail)/\w+)(?: ([\w-]+))?", text)
    if m:
        path = file_of(m.group(1))
        return path is not None and (not m.group(2) or stands(m.group(2), TEXT[path]))
    m = re.fullmatch(r"(\w+)::(\w+)(?:::(\w+))?", text)
    if m and m.group(1) in CRATES:
        source = "\n".join(t for p, t in TEXT.items() if p.startswith(f"crates/{m.group(1)}/src/"))
        return all(re.search(rf"\b{w}\b", source) for w in m.groups()[1:] if w)
    m = re.fullmatch(r"rt (?:must-fail|ci) (\w+)", text)
    if m:
        return m.group(1) in CRATES or m.group(1).isupper()
    if re.fullmatch(r"[\w.-]+(?:/[\w.*-]+)+/?", text):
        # capitals stand for any name, and a crate's path may begin with the crate
        return bool(re.search(r"\b(?:CRATE|NN|NAME|DIR)\b", text)) or text.startswith("target/") or any(
            any(ROOT.glob(top + text.rstrip("/"))) for top in ("", "crates/"))
    if re.fullmatch(r"[A-Za-z][\w'-]{2,}", text) and not re.fullmatch(r"[0-9A-F]+", text):
        return stands(text, TEXT[current]) if current else stands(text, ALL) or text in CRATES
    return True


def faults(path, text):
    text = re.sub(r"```.*?```", lambda m: "\n" * m.group().count("\n"), text, flags=re.S)
    found, links_only = [], "changes" in path.parts or path.name.startswith(("PORT", "DESIGN-PASS"))
    for no, line in enumerate(text.splitlines(), 1):
        if line.startswith("    "):
            continue
        current = None
        for m in TOKEN.finditer(line):
            wrong = None
            if m.group("link"):
                link = m.group("link")
                if "://" not in link and not (path.parent / link).exists():
                    wrong = link
            elif links_only:
                continue
            elif m.group("file"):
                current = file_of(m.group("file"))
                wrong = None if current else m.group("file")
            elif m.group("tick"):
                near = current if current and not current.endswith(".edit") else None
                if not ticked(m.group("tick"), near):
                    wrong = m.group("tick") + (f" (in {near})" if near else "")
            elif m.group("bare"):
                if len(FILES.get(m.group("bare"), [])) == 1:
                    current = FILES[m.group("bare")][0]
            else:
                current = None
            if wrong:
                found.append(f"{path}:{no}: not found: {wrong}")
    return found


def main():
    pages = [Path("README.md"), Path("CONTRIBUTING.md"), *sorted(Path("docs").glob("**/*.md"))]
    wrong = [f for page in pages if page.is_file() for f in faults(page, page.read_text(encoding="utf-8"))]
    for line in wrong:
        print(line)
    print(f"tests/names: {len(pages)} documents, {len(wrong)} names not found")
    return 1 if wrong else 0


sys.exit(main())
