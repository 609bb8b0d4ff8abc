#!/usr/bin/env python3
"""What a reader must believe: the definitions that the demands and the public contracts stand on.

  believed.py [--list] [--write]

Proofs are the checker's business; definitions are the reader's. This starts from the page of demands
(crates/demands/specs/Demands.antt: the fields of its records), follows every name to
where it is defined, and goes on from there until nothing new is met. It does the same from the starred table
(Starred.antt, both sides of it) and from the contracts of all public functions (`pub fn` of crates/*/src: signature,
`requires`, `ensures`). Counted are

  definitions          functions, records and data types of the antt files, crates/*/specs/*.antt
  enums and structs    those of crates/*/src that are met on the way
  lines, files         of either, comments and blank lines left out (imports stand in no definition)

The pages themselves are not counted, nor what the kit defines (lists, numbers, floats).

It fails where
  - a page or the table reaches a definition of a proofs/ folder;
  - a definition of specs/ is reached neither from them nor from a public contract. A file Inner.antt (or one that begins
    so, where it speaks of a type whose ghost field has words of Inner.antt) is for those that only contracts of inner
    functions and ghost fields reach: nobody has to believe them;
  - a definition of such a file is reached from any of them;
  - a name of the project cannot be followed, or is a definition and a variable of the same text;
  - docs/BELIEVED.md does not have the figures that are counted, or the files to read for frames in their order, or
    README.md not the sum of those.
--list prints what is reached and what names it, --write puts the figures into docs/BELIEVED.md. can_fail.py plants each
fault.
"""
import re
import sys
from collections import namedtuple
from pathlib import Path

DEMANDS, STARRED = "crates/demands/specs/Demands.antt", "crates/demands/proofs/Starred.antt"
PUBLISHED, README = Path("docs/BELIEVED.md"), Path("README.md")
# What is promised of a frame: demand 2 in bytes and chips, and demand 3.
OF_FRAMES = ("InBytes", "InChips", "Changes")
MARKS = r"(?:(?:pattern|abbrev|unfoldable|pub|opaque) )*"
SIGNATURE = re.compile(rf"^{MARKS}([^\s(){{}};,.]+)\s*:(?:\s|$)")
INNER = re.compile(r"/specs/Inner\w*\.antt$")
TYPE = re.compile(rf"^{MARKS}(?:record|data) ([^\s(){{}}]+)")
IMPORT = re.compile(r"^(?:ghost )?(?:unfoldable )?(?:pub )?use ([^\s{;]+?)(?:\.\{([^}]*)\}| as ([^\s;]+))?;?$")
GROUP = re.compile(r"^(?:pub )?use ([\w:]+)::\{([^{}]*)\};", re.M)
WORD = re.compile(r"[^\s(){}⌜⌝⟦⟧,;]+")
LABEL = re.compile(r"([{;]\s*)[^\s=;{}()]+ = |^(\s+)(?:pub )?[^\s:(){}]+ :(?=\s|$)", re.M)
BINDERS = [re.compile(x) for x in (r"[({]([^\s(){}:]+(?: [^\s(){}:]+)*) :", r"λ ([^.()]+)\.", r"\blet ([^\s=:(]+)")]

# A declaration: where it stands, its name, and its text without comments.
Item = namedtuple("Item", "path name text")


def code(path):
    """A file's lines, comments and blank lines taken out."""
    mark = "//" if path.suffix == ".rt" else "--"
    lines = (re.sub(rf"(^|\s){mark}.*$", "", line).rstrip() for line in path.read_text(encoding="utf-8").splitlines())
    return [line for line in lines if line]


def imports(path):
    """What a file brings: names as (module, name), and modules under a short name."""
    names, modules = {}, {}
    for module, listed, short in (m.groups() for m in map(IMPORT.match, code(path)) if m):
        if listed is not None:
            for part in filter(None, (x.strip() for x in listed.split(","))):
                name, _, other = part.partition(" as ")
                names[other or name] = (module, name)
        elif "::" in module:
            names[short or module.split("::")[-1]] = (module, "")
        else:
            modules[short or module.split(".")[-1]] = module
    for module, listed in GROUP.findall("\n".join(code(path))):
        for part in filter(None, (x.strip() for x in listed.split(","))):
            name, _, other = part.partition(" as ")
            names[other or name.split("::")[-1]] = (f"{module}::{name}", "")
    return names, modules


def declarations(path):
    """The declarations of an antt file, in order."""
    out = []
    for line in code(path):
        if IMPORT.match(line) or re.match(r"(pub )?mod ", line):
            continue
        m = TYPE.match(line) or SIGNATURE.match(line)
        if m:
            out.append(Item(str(path), m.group(1), [line]))
        elif out:
            out[-1].text.append(line)
    return out


def constructors(item):
    """The constructors of a data type."""
    data = re.match(r"(?:pub )?data ", item.text[0])
    return [m.group(1) for m in map(re.compile(r"  (\w+) :").match, item.text[1:]) if m] if data else []


def rust_types(path):
    """The enums and structs of a source file."""
    lines = code(path)
    for no, line in enumerate(lines):
        m = re.match(r"(?:pub(?:\(crate\))? )?(?:enum|struct) (\w+)", line)
        if m:
            end = no if line.endswith((";", "}")) else lines.index("}", no)
            yield Item(str(path), m.group(1), lines[no:end + 1])


def functions(path, public):
    """The public or the inner functions of a source file: their signatures and contracts, without the bodies."""
    lines = code(path)
    for no, line in enumerate(lines):
        m = re.match(r'(\s*)(pub )?(?:pub\(crate\) )?(?:extern "C" )?fn (\w+)', line)
        if m and bool(m.group(2)) == public:
            last = re.compile(rf"{m.group(1)}(\S.*)?\{{$")
            end = next(k for k in range(no, len(lines)) if last.match(lines[k]))
            yield Item(str(path), m.group(3), lines[no:end + 1])


def ghosts(path, public):
    """The ghost fields and ghost members of a source file: what a type, a trait or an impl promises of itself. They are
    public where the type, or the type that the impl is for, and the trait are."""
    lines = code(path)
    inner = re.findall(r"^(?:pub\(crate\) )?(?:struct|enum|trait) (\w+)", "\n".join(lines), re.M)
    holder = ""
    for no, line in enumerate(lines):
        holder = line if re.match(r"(pub|struct|enum|trait|impl)", line) else holder
        m = re.match(r"\s+ghost (\w+)\s*[:=]", line)
        if m:
            end = next(k for k in range(no, len(lines)) if lines[k].endswith((";", ",")))
            if public != any(re.search(rf"\b{name}\b", holder) for name in inner):
                yield Item(str(path), m.group(1), lines[no:end + 1])


class House:
    """Every definition of the crates, and what each file calls by which name."""

    def __init__(self):
        self.defined, self.types, self.files, self.made = {}, {}, {}, {}
        self.public, self.inner, self.open = [], [], []
        crates = Path("crates")
        self.crates = {path.name for path in crates.iterdir()}
        sources = sorted(crates.glob("*/src/**/*.rt"))
        for path in sources:
            below = ".".join(path.parts[3:])[:-len(".rt")]
            inner = "" if below in ("lib", "main") else below + "."
            for item in rust_types(path):
                key = f"Rattle.{path.parts[1]}.specs.declared.{inner}{item.name}", item.name
                self.defined[key] = item
                self.types[path.parts[1], item.name] = key
            self.public += [*functions(path, True), *ghosts(path, True)]
            self.inner += [*functions(path, False), *ghosts(path, False)]
        read = []
        for path in sorted(crates.glob("*/specs/*.antt")) + sorted(crates.glob("*/proofs/*.antt")):
            module = f"Rattle.{path.parts[1]}.{path.parts[2]}" + ("" if path.stem == "Lib" else "." + path.stem)
            items = declarations(path)
            self.defined.update({(module, item.name): item for item in items})
            self.made.update({(module, c): (module, item.name) for item in items for c in constructors(item)})
            read.append((path, {item.name: (module, item.name) for item in items}))
        for path, own in read:
            self.file(path, own)
        for path in sources:
            self.file(path, {name: key for (crate, name), key in self.types.items() if crate == path.parts[1]})

    def file(self, path, own):
        names, modules = imports(path)
        crate = path.parts[1]
        known = {**own, **{n: self.home(crate, *v) for n, v in names.items()}}
        # an operator of words, `◌when◌else◌` or `◌and_then◌`, is used by its first word
        known.update({n.split("◌")[1]: key for n, key in known.items() if re.match(r"◌\w+◌(\w+◌)?$", n)})
        self.files[str(path)] = known, modules

    def home(self, crate, module, name):
        """A name of the project as (module, name), a constructor as its type; None for any other."""
        if "::" in module:
            parts = module.split("::")
            return self.types.get((crate if parts[0] == "crate" else parts[0], parts[-1]))
        if not module.startswith("Rattle.") or module.split(".")[1] not in self.crates:
            return None
        if module.endswith(".TheVariants"):
            module = module[:-len(".TheVariants")]
            name = module.split(".")[-1]
        return self.made.get((module, name), (module, name))

    def is_type(self, key):
        return key in self.types.values() or key in self.made.values()

    def names(self, item):
        """The definitions of the project that a text names."""
        named, modules = self.files[item.path]
        crate, rust = item.path.split("/")[1], item.path.endswith(".rt")
        text = "\n".join(item.text)
        bound = {x for binder in BINDERS for hit in binder.findall(text) for x in hit.split()}
        for line in item.text:
            if not rust and line.startswith(item.name + " ") and " = " in line + " ":
                patterns = WORD.findall((line + " ").split(" = ")[0])[1:]
                bound |= {x for x in patterns if named.get(x) in self.defined and not self.is_type(named[x])}
        for word in WORD.findall(LABEL.sub(r"\1\2", text)):
            head, _, rest = word.lstrip("&").partition("::" if "::" in word else ".")
            if "::" in word and head not in named:
                key = self.types.get((head, rest.split("::")[-1]))
            elif head in modules and rest:
                key = self.home(crate, modules[head], rest.split(".")[0])
            else:
                key = named.get(head)
                if key in self.defined and head in bound:
                    self.open.append(f"{item.path}: {item.name}: `{head}` is a definition and a variable")
            if key in self.defined:
                yield key
            elif key:
                self.open.append(f"{item.path}: {item.name}: `{word}` cannot be followed")

    def reached(self, texts):
        """Everything that the texts stand on, each with what named it first. The pages do not lead into themselves."""
        found, todo = {}, [(key, item) for item in texts for key in self.names(item)]
        while todo:
            key, by = todo.pop()
            if key not in found and self.defined[key].path not in (DEMANDS, STARRED):
                found[key] = by
                todo += [(k, self.defined[key]) for k in self.names(self.defined[key])]
        return found

    def figures(self, keys):
        """Definitions, lines, files; then enums and structs, lines, files."""
        out = []
        for kind in (False, True):
            items = [self.defined[k] for k in keys if self.is_type(k) == kind]
            out += [len(items), sum(len(i.text) for i in items), len({i.path for i in items})]
        return out


def statements(path):
    """What a page says: its records, the types of its theorems, and whole what these types name on the page."""
    items = declarations(Path(path))
    whole, said = {i.name for i in items if TYPE.match(i.text[0])}, []
    for item in items:
        end = next((k for k, line in enumerate(item.text) if line.split()[0] in (item.name, "unfolding")), None)
        said.append(Item(item.path, item.name, item.text[:end or 1]))
    while True:
        text = {w for i, s in zip(items, said) for w in WORD.findall(" ".join((i if i.name in whole else s).text[0:]))
                if w != i.name}
        more = whole | {i.name for i in items if i.name in text}
        if more == whole:
            return [i if i.name in whole else s for i, s in zip(items, said)]
        whole = more


def table(rows):
    head = "| To believe | read definitions | lines | files | enums and structs | lines | files |"
    return [head, "|---|---|---|---|---|---|---|"] + [
        f"| {name} | " + " | ".join(map(str, numbers)) + " |" for name, numbers in rows
    ]


def reading_order(house, keys):
    """The files that have these definitions, and in how many lines: each behind those whose definitions it names, and
    the lowest crate first."""
    crates = [re.split("[ :]", line)[0] for line in Path("crates.txt").read_text(encoding="utf-8").splitlines()]
    lines, named = {}, {}
    for key in keys:
        item = house.defined[key]
        lines[item.path] = lines.get(item.path, 0) + len(item.text)
        named.setdefault(item.path, set()).update(house.defined[k].path for k in house.names(item) if k in keys)
    order = []

    def visit(paths, above=()):
        for path in sorted(paths, key=lambda path: (crates.index(path.split("/")[1]), path)):
            if path not in order and path not in above:
                visit(named[path], (*above, path))
                order.append(path)

    visit(lines)
    return [(path, lines[path]) for path in order]


def order_table(order):
    return ["| File | lines |", "|---|---|"] + [f"| [{path}](../{path}) | {lines} |" for path, lines in order]


def with_tables(page, tables):
    """The page's lines with its tables replaced, the first by the first and so on."""
    lines, tables = [], iter(tables)
    for before, line in zip([""] + page, page):
        if not line.startswith("|"):
            lines.append(line)
        elif not before.startswith("|"):
            lines += next(tables)
    return lines


def misplaced(house, believed):
    """The definitions that do not stand where a reader looks for them, and the names that lead nowhere."""
    for key, by in sorted(believed.items()):
        item = house.defined[key]
        if "/proofs/" in item.path:
            yield f"{by.path}: {by.name}: `{item.name}` stands in {item.path}, not in specs/"
        if INNER.search(item.path):
            yield f"{by.path}: {by.name}: `{item.name}` of {item.path} has to be believed after all"
    inner = house.reached(house.inner)
    for key, item in sorted(house.defined.items()):
        cited = key in believed or INNER.search(item.path) and key in inner
        if "/specs/" in item.path and not cited and item.path != DEMANDS:
            yield f"{item.path}: `{item.name}` is reached by nothing"
    yield from sorted(set(house.open))


def unpublished(tables):
    """The rows that docs/BELIEVED.md does not have."""
    published = PUBLISHED.read_text(encoding="utf-8").splitlines()
    return [f"{PUBLISHED} lacks the line: {row}" for rows in tables for row in rows if row not in published]


def unsaid(order):
    """The sum of what is to be read for frames, if README.md has another."""
    of_frames = f"{sum(lines for _, lines in order)} lines of definitions in {len(order)} files"
    said = of_frames in " ".join(README.read_text(encoding="utf-8").split())
    return [] if said else [f"{README} does not say {of_frames}"]


def publish(tables):
    lines = with_tables(PUBLISHED.read_text(encoding="utf-8").splitlines(), tables)
    PUBLISHED.write_text("\n".join(lines) + "\n", encoding="utf-8")


def main(arguments):
    house = House()
    demands = house.reached(statements(DEMANDS))
    starred = house.reached(statements(STARRED))
    pages = {**starred, **demands}
    contracts = house.reached(house.public)
    believed = {**contracts, **pages}
    faults = list(misplaced(house, believed))
    records = [item for item in statements(DEMANDS) if TYPE.match(item.text[0])]
    rows = table([(f"`{item.name}`", house.figures(house.reached([item]))) for item in records] + [
        ("the demands", house.figures(demands)),
        ("the starred table", house.figures(starred)),
        ("both pages", house.figures(pages)),
        ("the contracts of all public functions", house.figures(contracts)),
        ("all of these", house.figures(believed)),
    ])
    order = reading_order(house, {key for item in records if item.name in OF_FRAMES for key in house.reached([item])})
    tables = [rows, order_table(order)]
    if "--list" in arguments:
        for key, by in sorted(believed.items()):
            print(f"{house.defined[key].path}: {key[1]}, named by {by.path}: {by.name}")
    if "--write" in arguments:
        publish(tables)
    faults += unpublished(tables) + unsaid(order)
    for fault in faults:
        print(fault)
    definitions, lines, files = house.figures(demands)[:3]
    print(f"tests/believed: the demands stand on {definitions} definitions of {lines} lines in {files} files; "
          f"{len(faults)} faults")
    return 1 if faults else 0


sys.exit(main(sys.argv[1:]))
