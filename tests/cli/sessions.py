#!/usr/bin/env python3
"""Sessions at the shell print what the files say. Usage: sessions.py PROGRAM FILE ..

A line that begins with `$ ` is a command; what it prints stands below it, up to the next command, a comment or a line
without text. In a page (.md) this holds for what is set in by four, and only there. The commands of a file run one
after the other in a folder of their own, where ./kusikhut is the program and target/ a folder. Prints each difference,
and exits with 1 if there is one; before that it plants differences and exits with 1 if one of them is not found.
"""
import subprocess
import sys
import tempfile
from pathlib import Path


def steps(text, page):
    """The commands as (line number, command, lines that it prints)."""
    found, open_step = [], False
    for number, line in enumerate(text.splitlines(), 1):
        inside = line.startswith("    ") if page else True
        line = line[4:] if page and inside else line
        if inside and line.startswith("$ "):
            found.append((number, line[2:], []))
            open_step = True
        elif not inside or not line.strip() or line.startswith("#"):
            open_step = False
        elif open_step:
            found[-1][2].append(line)
    return found


def differences(program, name, text):
    found = []
    commands = steps(text, name.endswith(".md"))
    if not commands:
        return [f"{name}: there is no command in it"]
    with tempfile.TemporaryDirectory() as folder:
        (Path(folder) / "kusikhut").symlink_to(program)
        (Path(folder) / "target").mkdir()
        for number, command, expected in commands:
            run = subprocess.run(["bash", "-c", command], cwd=folder, stdin=subprocess.DEVNULL,
                                 stdout=subprocess.PIPE, stderr=subprocess.STDOUT, text=True, errors="replace")
            printed = run.stdout.splitlines()
            if printed != expected:
                found.append("\n".join([f"{name}:{number}: {command}", *(f"  - {line}" for line in expected),
                                        *(f"  + {line}" for line in printed)]))
    return found


def self_test(program):
    right = "$ ./kusikhut check 00\n0 accepted check=FFFF\n"
    planted = {
        "another answer": right.replace("FFFF", "0000"),
        "an answer that does not come": right + "0 accepted\n",
        "an answer that is missing": right.splitlines()[0],
        "no command": "0 accepted check=FFFF\n",
    }
    missed = [f"planted and not found: {what}" for what, text in planted.items() if not differences(program, "x", text)]
    page = "text\n\n" + "".join(f"    {line}\n" for line in right.splitlines()) + "text\n"
    return missed + differences(program, "x", right) + differences(program, "x.md", page)


def main():
    program = Path(sys.argv[1]).resolve()
    found = self_test(program)
    for name in sys.argv[2:]:
        found += differences(program, name, Path(name).read_text(encoding="utf-8"))
    for line in found:
        print(line)
    return 1 if found else 0


sys.exit(main())
