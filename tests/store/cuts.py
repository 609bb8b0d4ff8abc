#!/usr/bin/env python3
"""A store's file stays whole, and no number is printed twice, wherever a command is cut off.

cuts.py PROGRAM SHIM: every command that changes a file is cut off before each of its steps, as tests/store/cut.c
counts them, by a kill and by power cuts that lose what was not flushed. After each cut the file is the old store or
the new one, whole; what was printed stays true; and the next command works on what is left. Then programs with errors,
in tests/store/careless.py, must be seen to have them. Last, programs that share a store wait for each other. Prints
what is wrong, and exits with 1 if anything is.
"""
import fcntl
import os
import re
import subprocess
import sys
import tempfile
from pathlib import Path

PROGRAM, SHIM = (Path(name).resolve() for name in sys.argv[1:])
CARELESS = Path(__file__).resolve().parent / "careless.py"
METER, OTHER = "AE0C785634120107", "0000000000000001"
NUMBER = re.compile(r"0 accepted number=(\d+)\n")
LOSSES = ["", "bytes", "renames", "bytes,renames"]
# the store that a command works on, the file that it changes, its words
COMMANDS = [
    ("fresh", "fresh", ["new"]),
    ("desk", "desk", ["add", OTHER, "C", "B"]),
    ("desk", "desk", ["hear", METER, "5000"]),
    ("desk", "desk", ["issue", METER]),
    ("desk", "desk", ["allowance", "7"]),
    ("desk", "desk", ["restore", "{folder}/monday"]),
    ("desk", "fresh", ["backup", "{folder}/fresh"]),
]
WRONG_WAYS = ["in-place", "cut-first", "no-flush", "no-folder", "print-first", "second-file"]


def run(words, **settings):
    env = {**os.environ, **settings}
    return subprocess.run(words, env=env, stdin=subprocess.DEVNULL, capture_output=True, text=True)


def store(file, *words):
    return run([PROGRAM, "store", file, *words]).stdout


def prepared():
    """The files that every folder begins with: a store with a meter that is sure at 1000, a backup that knows more."""
    files = {}
    with tempfile.TemporaryDirectory() as folder:
        for name, number in [("desk", 1000), ("monday", 2000)]:
            path = Path(folder) / name
            store(path, "new")
            store(path, "add", METER, "T", "A")
            store(path, "hear", METER, str(number))
            files[name] = path.read_bytes()
    return files


FILES = prepared()


def content(path):
    return path.read_bytes() if path.exists() else None


def cut_off(words, folder, at, losses):
    """Runs the command with a cut before step `at`. What it printed, and whether the cut came."""
    ended = run(words, LD_PRELOAD=str(SHIM), CUT_FOLDER=str(folder), CUT_AT=str(at), CUT_LOSES=losses,
                CUT_KEPT=str(folder.parent / "kept"))
    if ended.returncode not in (0, -9):
        raise SystemExit(f"{words}: status {ended.returncode}: {ended.stderr}")
    return ended.stdout, ended.returncode == -9


def in_a_new_folder(check, *arguments):
    with tempfile.TemporaryDirectory() as top:
        folder = Path(top).resolve() / "folder"
        folder.mkdir()
        for name, held in FILES.items():
            (folder / name).write_bytes(held)
        return check(folder, *arguments)


def what_it_makes(folder, command, name):
    run(command(folder))
    return content(folder / name)


def after_a_cut(folder, command, name, new, at, losses):
    """What is wrong after one cut, and whether the cut came."""
    path, old = folder / name, content(folder / name)
    printed, was_cut = cut_off(command(folder), folder, at, losses)
    found = []
    if content(path) not in (old, new):
        found.append("the file is neither the old store nor the new one")
    if "accepted" in printed and content(path) != new:
        found.append("it said that it was done, and the file is as before")
    before = [int(number) for number in NUMBER.findall(printed)]
    after = [int(number) for number in NUMBER.findall(store(folder / "desk", "issue", METER))]
    if len(after) != 1 or any(number >= after[0] for number in before):
        found.append(f"printed {before} before the cut and {after} after it")
    if name == "fresh" and content(path) is None and not run(command(folder)).stdout.startswith("0 accepted"):
        found.append("the same command does not work afterwards")
    if list(folder.glob("*.being-written")):
        found.append("something is left beside")
    return found, was_cut


def cuts(command, name):
    """Every cut of a command, one by one: what is wrong after it. The last of each kind comes after its end."""
    new = in_a_new_folder(what_it_makes, command, name)
    for losses in LOSSES:
        at, was_cut = 1, True
        while was_cut:
            wrong, was_cut = in_a_new_folder(after_a_cut, command, name, new, at, losses)
            yield [f"step {at}, losing {losses or 'nothing'}: {what}" for what in wrong]
            at += 1


def ours(file, words):
    return lambda folder: [PROGRAM, "store", folder / file, *(word.format(folder=folder) for word in words)]


def careless(way):
    return lambda folder: [sys.executable, CARELESS, way, folder / "desk"]


def steps_of(folder):
    """The steps of issuing a number, as the shim sees them: none may escape it."""
    log = folder.parent / "log"
    run([PROGRAM, "store", folder / "desk", "issue", METER], LD_PRELOAD=str(SHIM), CUT_FOLDER=str(folder),
        CUT_KEPT=str(folder.parent / "kept"), CUT_LOG=str(log))
    return [line.replace(str(folder), "FOLDER").strip() for line in log.read_text().splitlines()]


EXPECTED_STEPS = """
open FOLDER/desk.being-written
lock FOLDER/desk.being-written
open FOLDER/desk
write FOLDER/desk.being-written
flush FOLDER/desk.being-written
rename FOLDER/desk
open FOLDER
flush FOLDER
print
end
""".split("\n")[1:-1]


def in_this_order(some, steps):
    rest = iter(steps)
    return all(step in rest for step in some)


def waits(folder):
    """Another program has the lock, and replaces the store: a number is issued only then, and above its numbers."""
    desk, beside = folder / "desk", folder / "desk.being-written"
    with open(beside, "wb") as file:
        fcntl.flock(file, fcntl.LOCK_EX)
        waiting = subprocess.Popen([PROGRAM, "store", desk, "issue", METER], stdout=subprocess.PIPE, text=True)
        try:
            waiting.wait(0.3)
            return ["a program did not wait for the lock"]
        except subprocess.TimeoutExpired:
            pass
        file.write((folder / "monday").read_bytes())
        file.flush()
        beside.rename(desk)
    printed = waiting.communicate()[0]
    return [] if printed == "0 accepted number=2001\n" else [f"a change of another program was lost: {printed}"]


def at_once(folder):
    """Four programs issue 25 numbers each."""
    many = f"for k in $(seq 25); do '{PROGRAM}' store '{folder}/desk' issue {METER}; done"
    programs = [subprocess.Popen(["bash", "-c", many], stdout=subprocess.PIPE, text=True) for _ in range(4)]
    numbers = sorted(int(n) for program in programs for n in NUMBER.findall(program.communicate()[0]))
    return [] if numbers == list(range(1001, 1101)) else [f"four programs at once: {numbers}"]


def main():
    found, count = [], 0
    steps = in_a_new_folder(steps_of)
    if not in_this_order(EXPECTED_STEPS, steps):
        found.append("the shim does not see how a number is saved: " + ", ".join(steps))
    for file, changed, words in COMMANDS:
        for wrong in cuts(ours(file, words), changed):
            found += [f"{words[0]}: {what}" for what in wrong]
            count += 1
    found += [f"without an error: {what}" for wrong in cuts(careless("right"), "desk") for what in wrong]
    found += [f"planted and not seen: {way}" for way in WRONG_WAYS if not any(cuts(careless(way), "desk"))]
    found += in_a_new_folder(waits) + in_a_new_folder(at_once)
    for line in found:
        print(line)
    print(f"tests/store: {len(COMMANDS)} commands cut off at {count} moments, {len(WRONG_WAYS)} planted errors, "
          f"programs that share a store: {len(found)} faults")
    return 1 if found else 0


sys.exit(main())
