#!/usr/bin/env python3
"""What a tool's user tries first works as he expects it. Usage: habits.py PROGRAM

Exit statuses, flags, help, inputs, standard error, a closed pipe, a full disk, and a talk through pipes. Prints what is
wrong, and exits with 1 if anything is; before that, programs with an error each must be seen to have it.
"""
import json
import os
import pty
import re
import select
import subprocess
import sys
import tempfile
from pathlib import Path

ACCEPTED, REFUSED = "0 accepted check=FFFF\n", "2 length-not-allowed l=9\n"
UNKNOWN = "error word 1: there is no command fly; help lists them\n"
# an accepted line, a refused one, one that is not understood, and an accepted one
LINES = "check 00\nread A 09\n\nfly 44\n# the end\ncheck 00\n"
ANSWERS = ACCEPTED + REFUSED + UNKNOWN + "# the end\n" + ACCEPTED
# where it is no device, or missing, as in some containers, root would write a file
FULL_DISK = Path("/dev/full")
FULL = "kusikhut: the answer could not be written: No space left on device (os error 28)\n"
# taken by mending, and refused by reading
WRONG_CHECK = "0F44AE0C7856341201074447780B134465871E6D2104" \
              "644E675EBDF8AA2CCAAE741FA7EC0DEE26CDE1D76F03F0DA508744A67E042C7B"


class Habits:
    """The program's habits, in a folder of files. `wrong` holds each case that went wrong, and how."""

    def __init__(self, program, folder, patience):
        self.program, self.folder, self.patience, self.wrong = program, Path(folder), patience, []
        (self.folder / "sub").mkdir(exist_ok=True)
        for name in ["lines", "a file's name", "--json"]:
            (self.folder / name).write_text(LINES)

    def run(self, *words, given="", **streams):
        given = given if isinstance(given, bytes) else given.encode()
        streams = {"stdout": subprocess.PIPE, "stderr": subprocess.PIPE, **streams}
        return subprocess.run([self.program, *words], input=given, cwd=self.folder, **streams, timeout=60)

    def expect(self, case, wanted, found):
        if wanted != found:
            self.wrong.append((case, f"expected {wanted!r}, found {found!r}"))

    def case(self, case, words, status, out="", err="", given=""):
        """Status and both streams, each as it must be, to the letter."""
        ended = self.run(*words, given=given)
        found = (ended.returncode, ended.stdout.decode(errors="replace"), ended.stderr.decode(errors="replace"))
        self.expect(f"{case}: {' '.join(map(str, words))}", (status, out, err), found)

    def commands_from_arguments(self):
        self.case("accepted", ["check", "00"], 0, ACCEPTED)
        self.case("refused", ["read", "A", "09"], 1, REFUSED)
        self.case("not understood", ["fly", "44"], 2, err=UNKNOWN)
        fault = "error word 2: BYTES has 1 hex digit; a byte is two; usage: check BYTES\n"
        self.case("not understood", ["check", "4"], 2, err=fault)
        self.case("a line as one argument", ["check 00 # so"], 0, ACCEPTED)
        self.case("a line as one argument", ["read A 09"], 1, REFUSED)
        self.case("spaces in an argument", ["change", "A", "0F 44", "0", "44"], 1, "1 too-short missing-bytes=18\n")
        self.case("no command", [""], 2,
                  err='error word 1: there is no command "", and no file of this name; help lists the commands\n')
        self.expect("refused below", 1, self.run("mend", "A", WRONG_CHECK).returncode)
        longest = self.run("encode", "manchester", "+65536*00").stdout.decode()
        self.expect("the longest argument", "0 accepted size=131072 chips=" + "AA" * 131_072 + "\n", longest)
        for odd in [b"\xff", b"4\x1b", b"\xe2\x80", b"=", b"\"", b"\n"]:
            ended = self.run("check", odd)
            self.expect("odd arguments", (2, b"", False), (ended.returncode, ended.stdout, b"\x1b" in ended.stderr))

    def inputs(self):
        self.case("standard input", [], 0, ANSWERS, given=LINES)
        self.case("standard input", ["-"], 0, ANSWERS, given=LINES)
        self.case("a file", ["lines"], 0, ANSWERS)
        self.case("a file", [self.folder / "a file's name"], 0, ANSWERS)
        self.case("no input", [], 0)
        self.case("a missing file", ["fly"], 2,
                  err="error word 1: there is no command fly, and no file of this name; help lists the commands\n")
        self.case("a folder", ["sub"], 2, err="kusikhut: sub cannot be read: Is a directory (os error 21)\n")
        self.case("CR and LF", [], 0, ANSWERS, given=LINES.replace("\n", "\r\n"))
        self.case("a byte order mark", [], 0, ANSWERS, given="\ufeff" + LINES)
        self.case("a byte order mark", [], 0, ACCEPTED, given="\ufeffcheck 00")
        self.case("no line feed at the end", [], 0, ANSWERS, given=LINES.rstrip("\n"))
        odd = "error character 1 is no UTF-8 text\n"
        self.case("bytes that are no text", [], 0, odd + ACCEPTED, given=b"\xff\ncheck 00")

    def strict(self):
        for status, given in [(0, "check 00\n# fly\n\n"), (1, "check 00\nread A 09\nfly\n"), (2, "check 4"),
                              (2, "check 00\nfly\nread A 09\n"), (1, "read A 09\ncheck 00\n"), (2, "x" * 20_000)]:
            self.expect(f"strict: {given[:30]!r}", status, self.run("--strict", given=given).returncode)
            self.expect(f"not strict: {given[:30]!r}", 0, self.run(given=given).returncode)
        self.case("strict", ["--strict", "lines"], 1, ANSWERS)

    def flags(self):
        answer = '{"line":1,"answer":0,"name":"accepted","check":"FFFF"}\n'
        for words in [["--json", "check", "00"], ["check", "--json", "00"], ["check", "00", "--json", "--numbered"]]:
            self.case("flags anywhere", words, 0, answer)
        self.case("numbered", ["--numbered", "check", "00"], 0, "1: " + ACCEPTED)
        numbered = f"1: {ACCEPTED}2: {REFUSED}4: {UNKNOWN}5: # the end\n6: {ACCEPTED}"
        self.case("numbered", ["lines", "--numbered"], 0, numbered)
        self.case("-- ends flags", ["--", "--json"], 0, ANSWERS)
        self.case("-- ends flags", ["--numbered", "--", "check", "00"], 0, "1: " + ACCEPTED)
        self.case("-- ends flags", ["check", "--", "--json"], 2,
                  err="error word 2: BYTES has - as character 1, which is no hex digit; usage: check BYTES\n")
        self.case("an unknown flag", ["check", "00", "--fast"], 2,
                  err="error word 3: there is no flag --fast; --help lists them\n")
        fault = '{"line":1,"error":"there is no command fly; help lists them","word":1}\n'
        self.case("not understood, in JSON", ["--json", "fly", "44"], 2, fault)

    def help(self):
        overview = self.run("--help").stdout.decode()
        self.expect("help", True, "kusikhut [FLAG ..] COMMAND" in overview and "\n  receive " in overview)
        for words in [["--help"], ["-h"], ["help"], ["help", "--help"], ["-h", "--numbered", "--", "help"]]:
            lead = "1: " if "--numbered" in words else ""
            self.case("help", words, 0, "".join(lead + line for line in overview.splitlines(keepends=True)))
        one = self.run("help", "check").stdout.decode()
        self.expect("help on a command", True, one.startswith("check BYTES\n") and "0 accepted check=C2B7\n" in one)
        for words in [["check", "--help"], ["-h", "check"], ["help", "check"], ["help check"], ["check", "4", "-h"]]:
            self.case("help on a command", words, 0, one)
        self.case("help in a stream", [], 0, ACCEPTED + one + ACCEPTED, given="check 00\nhelp check\ncheck 00\n")
        in_json = json.dumps({"line": 1, "help": one}, separators=(",", ":"), ensure_ascii=False) + "\n"
        self.case("help in JSON", ["--json"], 0, in_json, given="help check\n")
        fault = "error word {}: there is no help on fly; help lists the commands\n"
        self.case("no such help", ["help", "fly"], 2, err=fault.format(2))
        self.case("no such help", ["fly", "--help"], 2, err=fault.format(1))
        for flag in ["--version", "-V"]:
            self.expect("version", True, bool(re.fullmatch(rb"kusikhut \d+\.\d+\.\d+\n", self.run(flag).stdout)))
        for flag in ["--man-page", "--bash-completion"]:
            ended = self.run(flag)
            self.expect(flag, (0, b"", True), (ended.returncode, ended.stderr, len(ended.stdout) > 1000))

    def full_disk(self):
        if not FULL_DISK.is_char_device():
            return
        for words, given in [(["check", "00"], ""), (["help"], ""), ([], LINES), ([], "check 00\n" * 100_000)]:
            with open(FULL_DISK, "wb") as full:
                ended = self.run(*words, given=given, stdout=full)
                self.expect("a full disk", (2, FULL), (ended.returncode, ended.stderr.decode()))
                self.expect("nowhere to write", 2, self.run(*words, given=given, stdout=full, stderr=full).returncode)
        with open(FULL_DISK, "wb") as full:
            self.expect("nowhere to complain", 2, self.run("fly", "44", stderr=full).returncode)

    def closed_pipe(self):
        """As `kusikhut | head -1` has it: one answer is read of a million. It is no error."""
        million = self.folder / "million"
        million.write_text("check 00\n" * 1_000_000)
        for flag in ["--numbered", "--json"]:
            pipes = {"stdout": subprocess.PIPE, "stderr": subprocess.PIPE}
            with open(million, "rb") as given, subprocess.Popen([self.program, flag], stdin=given, **pipes) as talk:
                talk.stdout.readline()
                talk.stdout.close()
                self.expect("a closed pipe", (b"", 0), (talk.stderr.read(), talk.wait(60)))

    def talk(self):
        """An answer comes before the next line is asked for, whatever was asked before it."""
        rows = "0 accepted count=2\n  index=5 channel=0 hertz=169481250\n  index=6 channel=0 hertz=169481250\n"
        asked = [("check 00\n", ACCEPTED), ("fly 44\n", UNKNOWN), ("band B\n", rows), ("# so\n", "# so\n"),
                 ("check 00\nread A 09\nche", ACCEPTED + REFUSED), ("ck 00\n", ACCEPTED),
                 ("\n\ncheck 00\r\n", ACCEPTED)]
        self.talk_of("a talk in text", [], asked)
        answer = '{{"line":{},"answer":0,"name":"accepted","check":"FFFF"}}\n'
        asked = [("check 00\n", answer.format(1)), ("# so\ncheck 00\n", answer.format(3)),
                 ("check 00\nch", answer.format(4)), ("eck 00\n", answer.format(5))]
        self.talk_of("a talk in JSON", ["--json"], asked)

    def talk_of(self, case, flags, asked):
        pipes = {"stdin": subprocess.PIPE, "stdout": subprocess.PIPE}
        with subprocess.Popen([self.program, *flags], **pipes, cwd=self.folder) as talk:
            for line, answer in asked:
                talk.stdin.write(line.encode())
                talk.stdin.flush()
                found = self.read(talk.stdout, len(answer))
                self.expect(case, answer, found)
                if found != answer:
                    break
            talk.stdin.close()

    def read(self, stream, size):
        """So many bytes, or what comes of them while patience lasts."""
        found = b""
        while len(found) < size and select.select([stream], [], [], self.patience)[0]:
            part = os.read(stream.fileno(), size - len(found))
            if not part:
                break
            found += part
        return found.decode()

    def terminal(self):
        """A person who types is told what to do; nobody else is."""
        ours, theirs = pty.openpty()
        os.write(ours, b"check 00\n\x04")
        ended = subprocess.run([self.program], stdin=theirs, capture_output=True, timeout=60)
        os.close(ours)
        os.close(theirs)
        told = b"A command a line; help lists them, and an end of file (Ctrl-D) ends it.\n"
        self.expect("a terminal", (ACCEPTED.encode(), told), (ended.stdout, ended.stderr))

    def all(self):
        for habit in [self.commands_from_arguments, self.inputs, self.strict, self.flags, self.help, self.full_disk,
                      self.closed_pipe, self.talk, self.terminal]:
            habit()
        return self.wrong


def without(flag):
    return f'for word; do shift; [ "$word" = {flag} ] || set -- "$@" "$word"; done; "$real" "$@"'


# programs with an error, around the right one: the habits and the case that must find it
H = Habits
PLANTED = [
    (H.commands_from_arguments, "accepted", '"$real" "$@"; status=$?; echo done >&2; exit $status'),
    (H.commands_from_arguments, "refused", '"$real" "$@"; exit 0'),
    (H.commands_from_arguments, "refused below", '"$real" "$@" || [ "$1" = mend ]'),
    (H.commands_from_arguments, "not understood", '"$real" "$@" 2>&1'),
    (H.commands_from_arguments, "a line as one argument", '"$real" "${1%% *}" "${@:2}"'),
    (H.commands_from_arguments, "odd arguments", '"$real" "$@" || printf "\\e" >&2'),
    (H.inputs, "standard input", '[ "$1" = - ] || "$real" "$@"'),
    (H.inputs, "a file", '"$real" $@'),
    (H.inputs, "a missing file", '"$real" "$@" 2>/dev/null'),
    (H.inputs, "a folder", '[ -d "$1" ] || "$real" "$@"'),
    (H.inputs, "CR and LF", 'sed "s/\\r/ \\r0/" | "$real" "$@"'),
    (H.inputs, "a byte order mark", 'sed "1s/^/\\xef\\xbb\\xbf/" | "$real" "$@"'),
    (H.inputs, "no line feed at the end", 'while read -r line; do echo "$line"; done | "$real" "$@"'),
    (H.strict, "strict", without("--strict")),
    (H.strict, "not strict", '"$real" --strict "$@"'),
    (H.flags, "flags anywhere", '[ "$1" = check ] && set -- --numbered "$@"; "$real" "${@/--json/--numbered}"'),
    (H.flags, "numbered", without("--numbered")),
    (H.flags, "-- ends flags", without("--")),
    (H.flags, "not understood, in JSON", '"$real" "$@" >&2'),
    (H.help, "help", '[ "$1" != -h ] && "$real" "$@"'),
    (H.help, "help on a command", '[ "$2" != --help ] && "$real" "$@"'),
    (H.help, "version", '"$real" "$@" | sed "s/[.].*//"'),
    (H.full_disk, "a full disk", '"$real" "$@" | cat 2>/dev/null'),
    (H.full_disk, "nowhere to write", '"$real" "$@" || { status=$?; echo >&2 && exit $status; exit 101; }'),
    (H.closed_pipe, "a closed pipe", '"$real" "$@"; echo broken >&2'),
    (H.closed_pipe, "a closed pipe", '"$real" "$@" | cat; exit "${PIPESTATUS[1]}"'),
    (H.talk, "a talk in text", '"$real" "$@" | sort'),
    (H.talk, "a talk in JSON", '[ "$1" = --json ] && "$real" "$@" | sort; "$real" "$@"'),
    (H.terminal, "a terminal", 'cat | "$real" "$@"'),
]


def in_a_folder(habits, program, patience):
    with tempfile.TemporaryDirectory() as folder:
        tried = Habits(program, folder, patience)
        habits(tried)
        return tried.wrong


def self_test(program):
    missed = []
    with tempfile.TemporaryDirectory() as folder:
        for habits, case, script in PLANTED:
            if habits == Habits.full_disk and not FULL_DISK.is_char_device():
                continue
            planted = Path(folder) / "planted"
            planted.write_text(f"#!/usr/bin/env bash\nreal='{program}'\n{script}\n")
            planted.chmod(0o755)
            if not any(found.split(":")[0] == case for found, _ in in_a_folder(habits, planted, 0.3)):
                missed.append((case, f"planted and not found: {script}"))
    return missed


def main():
    program = Path(sys.argv[1]).resolve()
    if not FULL_DISK.is_char_device():
        print(f"tests/habits: there is no device {FULL_DISK} here, so a full disk was skipped")
    found = self_test(program) + in_a_folder(Habits.all, program, 10)
    for case, what in found:
        print(f"{case}: {what}")
    return 1 if found else 0


sys.exit(main())
