"""What ./install has put in place is whole, and fits together.

installed.py ROOT PREFIX: the files stand below ROOT (DESTDIR and prefix), and speak of PREFIX.
installed.py flags ROOT PREFIX: what a compiler needs to know, for a shell, by pkg-config if it is there.
installed.py self-test ROOT PREFIX: each fault, planted in a copy of ROOT, is found.
Called in the repository's own folder."""
import os
import re
import shlex
import shutil
import subprocess
import sys
import tempfile
from pathlib import Path

MODES = {
    "bin/kusikhut": 0o755,
    "include/kusikhut.h": 0o644,
    "lib/libkusikhut.a": 0o644,
    "lib/pkgconfig/kusikhut.pc": 0o644,
    "share/bash-completion/completions/kusikhut": 0o644,
    "share/man/man1/kusikhut.1": 0o644,
}
SAME = {
    "include/kusikhut.h": "include/kusikhut.h",
    "lib/libkusikhut.a": "target/staticlib/libkusikhut.a",
    "bin/kusikhut": "target/cargo/release/kusikhut",
}
SECTIONS = ["NAME", "SYNOPSIS", "DESCRIPTION", "EXIT STATUS", "FLAGS", "COMMANDS", "STORES", "ANSWERS", "SEE ALSO"]
MACROS = {"TH", "SH", "PP", "TP", "B", "br", "nf", "fi", "nh", "ad"}
ESCAPES = re.compile(r"\\(?:-|e|&|f[BIR]|\((?:ha|ti|ga)|\[u[0-9A-F]{4,6}\])")


def version():
    """The one place that says it."""
    return re.search(r'^version = "(.*)"$', Path("rust/cli/Cargo.toml").read_text(), re.M).group(1)


def printed_by(program, *words):
    return subprocess.run([program, *words], check=True, capture_output=True, text=True).stdout


def files(root, _prefix):
    there = {str(path.relative_to(root)) for path in root.rglob("*") if not path.is_dir()}
    yield from (f"{name} is missing" for name in sorted(MODES.keys() - there))
    yield from (f"{name} is nobody's" for name in sorted(there - MODES.keys()))
    for name in sorted(MODES.keys() & there):
        mode = (root / name).stat().st_mode & 0o777
        if mode != MODES[name]:
            yield f"{name} has the mode {mode:o}"
        if name in SAME and (root / name).read_bytes() != Path(SAME[name]).read_bytes():
            yield f"{name} is not {SAME[name]}"


def package(root):
    """The fields of the .pc file, with ${..} put in."""
    fields, variables = {}, {}
    for line in (root / "lib/pkgconfig/kusikhut.pc").read_text().splitlines():
        line = re.sub(r"\$\{(\w+)\}", lambda m: variables[m.group(1)], line)
        if match := re.match(r"(\w+)=(.*)", line):
            variables[match.group(1)] = match.group(2)
        elif match := re.match(r"(\w+): (.*)", line):
            fields[match.group(1)] = match.group(2)
    return variables, fields


def pkg_config(root, *words):
    """What pkg-config says, or None where there is none."""
    found = shutil.which("pkg-config")
    if not found:
        return None
    # none of the caller's own folders and roots, which could have another kusikhut.pc
    environment = {name: value for name, value in os.environ.items() if not name.startswith("PKG_CONFIG_")}
    environment["PKG_CONFIG_LIBDIR"] = str(root / "lib/pkgconfig")
    done = subprocess.run([found, *words, "kusikhut"], capture_output=True, text=True, env=environment)
    return (done.stdout + done.stderr).strip()


def packaged(root, prefix):
    variables, fields = package(root)
    folders = {"prefix": prefix, "includedir": f"{prefix}/include", "libdir": f"{prefix}/lib"}
    if variables != folders:
        yield f"kusikhut.pc has {variables}"
    if fields.keys() != {"Name", "Description", "Version", "Libs", "Cflags"}:
        yield f"kusikhut.pc has the fields {sorted(fields)}"
        return
    if fields["Version"] != version():
        yield f"kusikhut.pc has the version {fields['Version']}, not {version()}"
    flags = [f"-I{prefix}/include", f"-L{prefix}/lib", "-lkusikhut"]
    if shlex.split(fields["Cflags"]) + shlex.split(fields["Libs"]) != flags:
        yield f"kusikhut.pc has {fields['Cflags']} and {fields['Libs']}"
    said = pkg_config(root, "--cflags", "--libs"), pkg_config(root, "--modversion")
    if said != (None, None) and (shlex.split(said[0]), said[1]) != (flags, version()):
        yield f"pkg-config says {said}"


def program(root, _prefix):
    where = root / "bin/kusikhut"
    if str(Path.cwd()).encode() in where.read_bytes():
        yield "bin/kusikhut names the folder that it was built in"
    with tempfile.TemporaryDirectory() as empty:
        command = [where, "check", "313233343536373839"]
        answer = subprocess.run(command, cwd=empty, env={}, capture_output=True, text=True)
        if (answer.returncode, answer.stdout, answer.stderr) != (0, "0 accepted check=C2B7\n", ""):
            yield f"bin/kusikhut in an empty folder: {answer}"
    if printed_by(where, "--version") != f"kusikhut {version()}\n":
        yield "bin/kusikhut has another version"
    for name, flag in (("share/man/man1/kusikhut.1", "--man-page"),
                       ("share/bash-completion/completions/kusikhut", "--bash-completion")):
        if (root / name).read_text() != printed_by(where, flag):
            yield f"{name} is not what bin/kusikhut {flag} prints"


def escaped(text):
    return text.replace("\\", "\\e").replace("-", "\\-")


def commands(where):
    """Usage and example of every command, from `help all`: a line at the margin, and below it lines that are set in."""
    lines = printed_by(where, "help", "all").splitlines()
    for above, below in zip(lines, lines[1:]):
        if above and not above.startswith(" ") and below.startswith("    "):
            usage = above
        if above.startswith("    $ "):
            yield usage, above.strip()


def manual(root, _prefix):
    page = (root / "share/man/man1/kusikhut.1").read_text()
    lines = page.splitlines()
    if lines[0] != f'.TH KUSIKHUT 1 "" "kusikhut {version()}" "Wireless M\\-Bus"':
        yield f"the man page begins with {lines[0]}"
    sections = [line[4:] for line in lines if line.startswith(".SH ")]
    if sections != SECTIONS:
        yield f"the man page has the sections {sections}"
    for line in lines:
        macro = re.match(r"\.(\w*)", line)
        if line.startswith("'") or (macro and macro.group(1) not in MACROS):
            yield f"the man page has no such macro: {line}"
        rest = ESCAPES.sub("", line)
        if "\\" in rest or "-" in rest or not rest.isascii() or not rest.isprintable():
            yield f"the man page has something unescaped: {line}"
    known = list(commands(root / "bin/kusikhut"))
    if len(known) < 30:
        yield f"help all has {len(known)} commands, which cannot be all"
    for usage, example in known:
        if f"\n.TP\n\\fB{escaped(usage)}\\fR\n" not in page or f"\n.nf\n{escaped(example)}\n.fi\n" not in page:
            yield f"the man page lacks {usage}, or its example"
    yield from rendered(root / "share/man/man1/kusikhut.1", known)


def rendered(page, known):
    """As a reader sees it, where there is a formatter: no complaint, every usage, every example on one line."""
    if not shutil.which("groff"):
        return
    command = ["groff", "-man", "-Tascii", "-P-cbou", "-ww", "-rLL=78n", page]
    done = subprocess.run(command, capture_output=True, text=True)
    if done.stderr or done.returncode:
        yield f"groff says {done.stderr}"
    text = re.sub(r"\s+", " ", done.stdout)
    for usage, example in known:
        if usage not in text or not re.search(rf"^ *{re.escape(example)}$", done.stdout, re.M):
            yield f"the man page as it is read lacks {usage}, or its example"


def faults(root, prefix):
    missing = list(files(root, prefix))
    if any("missing" in fault for fault in missing):
        return missing
    return [*missing, *packaged(root, prefix), *program(root, prefix), *manual(root, prefix)]


def change(name, old, new):
    def plant(root):
        text = (root / name).read_text()
        assert old in text, f"{old} is not in {name}"
        (root / name).write_text(text.replace(old, new, 1))
    return plant


PACKAGE = "lib/pkgconfig/kusikhut.pc"
PAGE = "share/man/man1/kusikhut.1"
COMPLETION = "share/bash-completion/completions/kusikhut"

# What is planted, and which of the checks above must find it by itself.
PLANTED = [
    ("a header that is missing", files, lambda root: (root / "include/kusikhut.h").unlink()),
    ("a file too many", files, lambda root: (root / "lib/kusikhut.h.new").touch()),
    ("a program that others cannot run", files, lambda root: (root / "bin/kusikhut").chmod(0o700)),
    ("a library of another build", files, lambda root: (root / "lib/libkusikhut.a").write_bytes(b"!<arch>\n")),
    ("a version that is out of date", packaged, change(PACKAGE, f"Version: {version()}", "Version: 0.0.9")),
    ("a prefix of elsewhere", packaged, change(PACKAGE, "prefix=", "prefix=/elsewhere")),
    ("no flag for the library", packaged, change(PACKAGE, " -lkusikhut", "")),
    ("a completion of another program", program, change(COMPLETION, "receive", "recieve")),
    ("a man page of another program", program, change(PAGE, "receive", "recieve")),
    ("an unknown macro", manual, change(PAGE, "\n.PP\n", "\n.PQ\n")),
    ("a line that is obeyed", manual, change(PAGE, "\n.PP\n", "\n.PP\n'tis\n")),
    ("a hyphen that is no minus", manual, change(PAGE, "\\-\\-json", "--json")),
    ("a section that is missing", manual, change(PAGE, ".SH EXIT STATUS\n", "")),
    ("a usage that is missing", manual, change(PAGE, "\\fBsize FORMAT L\\fR", "\\fBsize\\fR")),
    ("an example that is broken in two", manual, change(PAGE, "$ kusikhut size", "$ kusikhut\nsize")),
]


def self_test(root, prefix):
    for name, check, plant in PLANTED:
        with tempfile.TemporaryDirectory() as work:
            copy = Path(work) / "root"
            shutil.copytree(root, copy)
            plant(copy)
            if not list(check(copy, prefix)):
                sys.exit(f"tests/install: not found: {name}")
    print(len(PLANTED))


def main(words):
    task = words.pop(0) if words[0] in ("flags", "self-test") else "check"
    root, prefix = Path(words[0]), words[1]
    if task == "self-test":
        self_test(root, prefix)
    elif task == "flags":
        _, fields = package(root)
        print(pkg_config(root, "--cflags", "--libs") or f"{fields['Cflags']} {fields['Libs']}")
    elif found := faults(root, prefix):
        sys.exit("\n".join(f"tests/install: {fault}" for fault in found))


main(sys.argv[1:])
