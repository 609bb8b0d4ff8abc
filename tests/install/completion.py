"""completion.py FILE PROGRAM: the completion for bash in FILE, asked directly and through a bash that is typed at; and
PROGRAM has help on all that is offered behind help. Then the test itself is tried: each fault, planted in a copy of
FILE, is found."""
import os
import pty
import re
import select
import subprocess
import sys
import tempfile
import time
from pathlib import Path

# What is typed, a | before each place where bash breaks words, and what is offered for the last word.
OFFERED = [
    ("kusikhut|rec", "receive"),
    ("kusikhut|--json|wr", "write write-correction write-header"),
    ("kusikhut|--", "--json --numbered --strict --help --version --man-page --bash-completion"),
    ("kusikhut|check|00|--n", "--numbered"),
    ("kusikhut|nowhere", ""),
    ("kusikhut|read|", "A B"),
    ("kusikhut|read|room|=|3|", "A B"),
    ("kusikhut|encode|", "nrz three-of-six manchester"),
    ("kusikhut|send|C", "C-A C-B"),
    ("kusikhut|band|", "A B C D"),
    ("kusikhut|write-header|", "8C 8D 8E 8F"),
    ("kusikhut|receive|00|", "start= allowance= room= fill= show=lent"),
    ("kusikhut|receive|00|room|=|3|", "start= allowance= fill= show=lent"),
    ("kusikhut|receive|0F|:|44|al", "allowance="),
    ("kusikhut|read|A|00|show|=", "lent"),
    ("kusikhut|read|A|00|show|=|l", "lent"),
    ("kusikhut|read|A|00|room|=", ""),
    ("kusikhut|letters|re", "received="),
    ("kusikhut|check|", ""),
    ("kusikhut|picture|", "receive manchester read"),
    ("kusikhut|picture|read|", "A B"),
    ("kusikhut|picture|receive|00|st", "start="),
    ("kusikhut|help|h", "header"),
    ("kusikhut|help|st", "store"),
    ("kusikhut|help|r", "receive read rules"),
    ("kusikhut|help|1", "1 10 11 12 13 14 17 18 19"),
    ("kusikhut|store|", ""),
    ("kusikhut|store|a|=|b|l", "look-up"),
    ("kusikhut|store|desk.store|", "new show add hear issue look-up allowance backup restore"),
    ("kusikhut|--json|store|desk.store|r", "restore"),
    ("kusikhut|store|desk.store|add|AE0C785634120107|", "R S T C N F"),
    ("kusikhut|store|desk.store|add|AE0C785634120107|T|", "A B"),
    ("kusikhut|store|desk.store|issue|", ""),
]

# What is typed at a bash, \t for the key that completes, and the words that the program is then called with.
TYPED = [
    ("kusikhut rec\t00", "receive 00"),
    ("kusikhut receive 00 al\t5", "receive 00 allowance=5"),
    ("kusikhut filter 0F:44 co\t1", "filter 0F:44 count=1"),
    ("kusikhut read A 00 sh\t--j\t", "read A 00 show=lent --json"),
    ("kusikhut read A 00 show=\t", "read A 00 show=lent"),
    ("kusikhut read A 00 show=l\t", "read A 00 show=lent"),
    ("./kusikhut enc\tth\t", "encode three-of-six"),
    ("kusikhut my\t", "my_capture,_old.txt"),
    ("kusikhut my\\ c\t", "my_capture,_old.txt"),
    ("kusikhut 'my \t", "my_capture,_old.txt"),
    ("kusikhut store desk.s\tba\tfold\tx", "store desk.store backup folder/x"),
    ("kusikhut check my\t", "check my"),
]


def offers(file, *all_typed):
    """What the function itself offers, given the words as bash hands them over."""
    lines = ["complete() { :; }", f". '{file}'"]
    for typed in all_typed:
        words = " ".join(f"'{word}'" for word in typed.split("|"))
        lines.append(f'COMP_WORDS=({words}) COMP_CWORD={typed.count("|")}; _kusikhut; echo "${{COMPREPLY[*]}}"')
    done = subprocess.run(["bash", "-u"], input="\n".join(lines), capture_output=True, text=True)
    return [*done.stdout.splitlines(), done.stderr]


def asked(file):
    *offered, complaint = offers(file, *(typed for typed, _ in OFFERED))
    if complaint:
        yield f"bash says {complaint}"
    for (typed, expected), words in zip(OFFERED, offered):
        if words != expected:
            yield f"{typed} offers: {words}, and should: {expected}"


def helped(file, program):
    commands, topics, numbers, _ = offers(file, "kusikhut|", "kusikhut|help|", "kusikhut|help|0")
    for topic in [*topics.split(), *numbers.split()]:
        if subprocess.run([program, "help", topic], capture_output=True).returncode:
            yield f"help {topic} is offered, and there is none"
    if {*commands.split()} - {*topics.split()} != {"help"}:
        yield "there is no help on a command that is offered"


class Typist:
    """A bash at a terminal of its own, in a folder of its own."""

    def __init__(self, file, folder):
        environment = {"PATH": os.environ["PATH"], "TERM": "dumb", "HOME": folder, "INPUTRC": "/dev/null"}
        self.process, self.terminal = pty.fork()
        if self.process == 0:
            os.chdir(folder)
            os.execvpe("bash", ["bash", "--norc", "--noprofile", "-i"], environment)
        show = 'show() { local w; printf "GOT"; for w in "$@"; do printf " %s" "${w// /_}"; done; echo " END"; }'
        self.type(f"{show}; kusikhut() {{ show \"$@\"; }}; ./kusikhut() {{ show \"$@\"; }}; . '{file}'; show ready\r")
        self.read()

    def type(self, text):
        os.write(self.terminal, text.encode())

    def read(self):
        """The words of the next call, or what there was instead."""
        seen, until = "", time.monotonic() + 10
        while time.monotonic() < until:
            if select.select([self.terminal], [], [], 0.1)[0]:
                seen += os.read(self.terminal, 4096).decode(errors="replace")
            if match := re.search(r"^GOT ?(.*) END\r$", seen, re.M):
                return match.group(1)
        return f"nothing: {seen!r}"

    def end(self):
        os.close(self.terminal)
        os.waitpid(self.process, 0)


def typed_at(file):
    with tempfile.TemporaryDirectory() as folder:
        for name in ("my capture, old.txt", "desk.store"):
            (Path(folder) / name).touch()
        (Path(folder) / "folder").mkdir()
        typist = Typist(file, folder)
        try:
            for typed, expected in TYPED:
                typist.type(typed + "\r")
                words = typist.read()
                if words != expected:
                    yield f"{typed!r} typed at bash calls it with: {words}, and should: {expected}"
        finally:
            typist.end()


def faults(file):
    yield from asked(file)
    yield from typed_at(file)


PLANTED = [
    ("a command that is missing", "'receive ", "'"),
    ("words that stay broken at =", "[=:]* ||", "[:]* ||"),
    ("an option twice", 'given+="', 'ignored="'),
    ("a space behind =", "-o nospace", "-o dirnames"),
    ("all of the word again behind =", "[@]#*=}", "[@]}"),
    ("no names of files", "complete -o default", "complete"),
    ("names of files where none belong", "+o default", "-o default"),
]


def self_test(file):
    text = Path(file).read_text()
    for name, old, new in PLANTED:
        assert old in text, f"{old} is not in {file}"
        with tempfile.NamedTemporaryFile("w") as planted:
            planted.write(text.replace(old, new, 1))
            planted.flush()
            if next(faults(planted.name), None) is None:
                sys.exit(f"tests/install: not found: {name}")


def main(file, program):
    if found := [*faults(file), *helped(file, program)]:
        sys.exit("\n".join(f"tests/install: {fault}" for fault in found))
    self_test(file)
    print(len(OFFERED) + len(TYPED), len(PLANTED))


main(*map(os.path.abspath, sys.argv[1:]))
