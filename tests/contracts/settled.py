#!/usr/bin/env python3
"""Every public contract settles the result and every lent byte (document 01, "No room for a hollow program").

A contract settles where it is one equation, LEFT ≡ RIGHT, and
  - LEFT is made of the result and of what each `&mut` parameter holds at exit, all of them, in a form of `lefts`;
  - RIGHT has none of these: it is a definition of some specs/ for the parameters and what they hold at entry;
  - nothing stands before the equation or beside it: no hypothesis, no second fact, no `requires` but those of D23.
Two outcomes that such a contract allows have LEFTs that equal the same RIGHT, so they are equal (answers/proofs/Settled
`settled`), and with them the results and the lent bytes they are made of (`settled_outcome` there, and
kusikhut/proofs/ToldLaws `settled_told`, `settled_shown`). That every public contract has this shape is what this test
looks at, in the text of crates/*/src; docs/SETTLED.md says what follows. It looks, too, whether each exported function
has the parameters and clauses of kusikhut's function of the same name.
Prints each function that is not settled so, and exits with 1 if there is one. With `self-test` it exits with 1 if a
contract that leaves something open is not found, or found for another reason, or one that settles is taken for open.
"""
import re
import sys
from collections import namedtuple
from pathlib import Path

# public functions that may ask something of their caller (D23); none of them is an entry point or exported
ASKING = {"chips::word", "chips::narrow", "chips::bytes", "blocks::copy", "blocks::Cut::first_wrong", "blocks::Cut::take_out",
          "blocks::Cut::put_all", "blocks::Cut::set_byte", "frame::FormatA::length_byte", "frame::FormatB::length_byte",
          "frame::FormatA::size", "frame::FormatB::size", "address::two_at", "address::name_at", "address::put_four", "address::put_name",
          "address::four_at", "address::key_at", "address::put_number", "address::put_key",
          "products::Tables::times_power", "products::Tables::ratio", "products::Tables::value_at",
          "products::Tables::combine", "repairing::repair"}
# clauses beside the equation, by name: document 01's own words on the update (D20); they allow no other answer
BESIDE = {("crc::update", "mends")}
# facts that settle and are no equation with a definition, word for word (products/proofs/SettledLaws)
OTHERWISE = {"products::Tables::ratio": ["mul result b ≡ a"],
             "products::Tables::new": ["TablesOk result.powers result.logs"]}
# public functions that leave something open, and on purpose (D111): nobody sees it but the crate above. None of them is
# an entry point or exported
LEFT_OPEN = {"locating::locate", "repairing::repair"}
# words of the toolchain that may stand in a RIGHT; HEADS may also begin it, as the bytes that are stored from a place on
KIT, HEADS = {"length", "drop", "replicate"}, {"sets"}
# where the words that equations are made of must come from
HOMES = {"◌≡◌": "Rattle.std.specs.Prelude", "leaving": "Rattle.answers.specs.Outcome",
         "told": "Rattle.kusikhut.specs.Told", "shown": "Rattle.kusikhut.specs.Told"}

FUNCTION = re.compile(r'^( *)pub (extern "C" )?fn (\w+)(.*?)\s\{\n', re.S | re.M)
TRAIT = re.compile(r"^pub trait (\w+) \{\n(.*?)^\}", re.S | re.M)
METHOD = re.compile(r"^    fn (\w+)(.*?);$", re.S | re.M)
PUBLIC = re.compile(r'^\s*pub\b[^(\n]*\bfn ', re.M)
IMPORT = re.compile(r"^(?:ghost )?use ([^\s{;]+)\.\{([^}]*)\};?$", re.M)
CLAUSE = re.compile(r"\s*(requires|ensures)(?: (\w+))? \{")
WORD = re.compile(r"[^\s()]+")

# a public function: its name with its crate, whether it is exported, its head up to the body, what its file imports
Function = namedtuple("Function", "name exported head imports")


def imports(crate, text):
    """The names that a source file has for contracts, each with its module: its own types, and what it imports."""
    own = re.findall(r"^pub (?:enum|struct) (\w+)", text, re.M)
    found = {name: f"Rattle.{crate}.specs.declared.{name}" for name in own}
    for module, names in IMPORT.findall(text):
        found.update({name.split(" as ")[-1].strip(): module for name in names.split(",")})
    return found


def functions(crate, text):
    """The public functions of a source file; a method has its type's name before its own."""
    for m in FUNCTION.finditer(text):
        types = re.findall(r"^impl(?:<[^>]*>)? (\w+)", text[:m.start()], re.M) if m[1] else []
        yield Function("::".join([crate, *types[-1:], m[3]]), bool(m[2]), m[4], imports(crate, text))


def trait_functions(crate, text):
    """The functions of a source file's public traits, once for each type that has them: the trait has their contracts,
    over ghost members that each type gives."""
    for name, body in TRAIT.findall(text):
        given = {ghost: f"Rattle.{crate}.specs.declared.{name}" for ghost in re.findall(r"^    ghost (\w+):", body, re.M)}
        for of in re.findall(rf"^impl {name} for (\w+)", text, re.M):
            for method, head in METHOD.findall(body):
                yield Function(f"{crate}::{of}::{method}", False, head, {**imports(crate, text), **given})


def parts(head):
    """The signature of a head and its clauses, each with its word, name and text; none where one cannot be read."""
    signature = re.split(r"\b(?:requires|ensures)\b", head)[0]
    clauses, rest = [], head[len(signature):]
    while rest.strip():
        m = CLAUSE.match(rest)
        if not m:
            return signature, []
        depth, end = 1, m.end()
        while depth:
            depth += {"{": 1, "}": -1}.get(rest[end], 0)
            end += 1
        clauses.append((m[1], m[2], " ".join(rest[m.end():end - 1].replace("«", "").replace("»", "").split())))
        rest = rest[end:]
    return signature, clauses


def facts(clauses):
    """What the ensures clauses say, fact by fact."""
    return [fact.strip("() ") for word, _, text in clauses if word == "ensures" for fact in text.split(" × ")]


def lefts(returns, lent):
    """The left sides that have the result and all lent memory in them; where more is lent, none."""
    after = [f"{x}.new" for x in lent]
    if not returns:
        return after if len(after) == 1 else []
    if not after:
        return ["result"]
    if len(after) == 1:
        return [f"leaving result {after[0]}", f"told result {after[0]}"]
    return [f"shown result {x} {y}" for x, y in (after, after[::-1])] if len(after) == 2 else []


def equation(function):
    """The right side of a function's equation, and what is wrong with the left side."""
    signature, clauses = parts(function.head)
    settling = [text for word, name, text in clauses if word == "ensures" and (function.name, name) not in BESIDE]
    if len(settling) != 1:
        return None, f"it has {len(settling)} settling clauses, not one"
    returns = re.search(r"\)\s*->\s*(.+)", signature)
    lent = re.findall(r"(\w+): &(?:'\w+ )?mut ", signature) + re.findall(r"&(?:'\w+ )?mut (self)\b", signature)
    allowed = lefts(returns, lent)
    for left in allowed:
        if settling[0].startswith(f"{left} ≡ "):
            return settling[0].removeprefix(f"{left} ≡ "), None
    return None, f"its clause is no equation of {' or '.join(allowed) or 'all that is lent'}"


def defined(name, home):
    """Whether a name that comes from `home` is a definition of a crate's specs/, its Inner.antt aside (D75)."""
    m = re.fullmatch(r"Rattle\.(\w+)\.specs\.(?!Inner)(\w+)", home)
    path = m and Path(f"crates/{m[1]}/specs/{m[2]}.antt")
    return bool(path) and path.is_file() and re.search(
        rf"^(?:(?:abbrev|unfoldable|pub) )+{re.escape(name)} :", path.read_text(encoding="utf-8"), re.M) is not None


def head_of(right):
    """The definition that a right side begins with, words of the toolchain aside."""
    return next((w for w in WORD.findall(right) if w not in KIT and not w.isdigit()), "")


def wrong_right(function, right, is_defined):
    """What is wrong with the right side of an equation."""
    parameters = set(re.findall(r"(\w+):", parts(function.head)[0])) | {"self"}
    if "result" in parameters:
        return "its result has a parameter's name"
    words = WORD.findall(right)
    if any(word.split(".")[0] == "result" or "new" in word.split(".")[1:] for word in words):
        return "its right side speaks of the result or of memory at exit"
    depths = [right[:k].count("(") - right[:k].count(")") for k in range(len(right) + 1)]
    if min(depths) < 0 or depths[-1]:
        return "its right side is more than one term"
    for word in words:
        first = word.split(".")[0]
        plain = word.isdigit() or word in KIT | HEADS | {"∷", "[]", "++", "+", "*"} or first in parameters
        home = function.imports.get(first, "")
        if not (plain or word.startswith(".") or is_defined(word, home) or ".specs.declared." in home):
            return f"`{word}` of its right side is neither a parameter nor a definition"
    head = head_of(right)
    if head not in HEADS and (head.split(".")[0] in parameters or not is_defined(head, function.imports.get(head, ""))):
        return "its right side begins with no definition of specs/"
    return None


def faults(function, is_defined=defined):
    """What the contract of a function leaves open, in words."""
    _, clauses = parts(function.head)
    asks = any(word == "requires" for word, _, _ in clauses)
    found = ["it asks something of its caller"] if asks and (function.exported or function.name not in ASKING) else []
    settled = facts(clauses) == OTHERWISE.get(function.name)
    if settled or function.name in LEFT_OPEN and not function.exported:
        return found
    right, wrong = equation(function)
    wrong = wrong or wrong_right(function, right, is_defined)
    foreign = [w for w, home in HOMES.items() if w.strip("◌") in function.head and function.imports.get(w, home) != home]
    return found + [wrong] * bool(wrong) + [f"`{w}` is not that of {HOMES[w]}" for w in foreign]


def apart(met):
    """The exported functions that have not the parameters and clauses of kusikhut's function of the same name."""
    heads = {f.name: re.sub(r",?\s*\)", ")", re.sub(r"\(\s+", "(", " ".join(f.head.split()))) for f in met}
    return [f"{f.name} has not the parameters and clauses of kusikhut's function" for f in met
            if f.exported and heads.get(f.name.replace("kusikhut_c::", "kusikhut::")) != heads[f.name]]


ONE, LENT = "(s: &[u8]) -> u8", "(s: &[u8], d: &mut [u8]) -> u8"
ITSELF = "leaving result d.new"
# heads that leave something open, each with a word of the fault that must be found
OPEN = [
    (ONE, "0 settling"),
    (ONE + " ensures { result ≡ result }", "speaks of the result"),
    (ONE + " ensures { result ≡ (result) }", "speaks of the result"),
    (ONE + " ensures { result ≡ bit_xor 0 result }", "speaks of the result"),
    (ONE + " ensures { result ≡ meaning result.size }", "speaks of the result"),
    (ONE + " ensures { result ≡ bit_xor 0 0 }", "`bit_xor`"),
    (ONE + " ensures { result ≡ 0 }", "no definition"),
    ("(meaning: u8) -> u8 ensures { result ≡ meaning }", "no definition"),
    ("(meaning: &u8) -> u8 ensures { result ≡ meaning.now }", "no definition"),
    (ONE + " ensures { result ≡ length s.now }", "no definition"),
    (ONE + " ensures { result ≤ meaning s.now }", "no equation of result"),
    (ONE + " ensures { 1 ≡ 0 → result ≡ meaning s.now }", "no equation of result"),
    (ONE + " ensures { (0 < length s.now → result ≡ meaning s.now) }", "no equation of result"),
    (ONE + " ensures { result ≡ meaning s.now ⊎ ⊤ }", "`⊎`"),
    (ONE + " ensures { result ≡ meaning (λ x. x) }", "`λ`"),
    (ONE + " ensures { result ≡ meaning s.now ∨ 0 ≡ 0 }", "`∨`"),
    (ONE + " ensures { (result ≡ meaning s.now) ∨ (0 ≡ 0) }", "no equation of result"),
    (ONE + " ensures { result ≡ meaning s.now } ensures more { result ≡ result }", "2 settling"),
    (ONE + " ensures { told 0 s.now ≡ meaning }", "no equation of result"),
    ("(result: u8) -> u8 ensures { result ≡ meaning result }", "a parameter's name"),
    (ONE + " requires { 1 ≡ 0 } ensures { result ≡ meaning s.now }", "asks something"),
    (LENT + " ensures { result ≡ meaning s.now }", "no equation of leaving"),
    (LENT + " ensures { told result s.now ≡ meaning d.new }", "no equation of leaving"),
    (LENT + " ensures { told result d.new ≡ meaning d.new }", "memory at exit"),
    (LENT + " ensures { told result d.new ≡ meaning (d).new }", "memory at exit"),
    (LENT + " ensures { leaving 0 d.new ≡ meaning }", "no equation of leaving"),
    (LENT + " ensures { leaving result d.old ≡ meaning }", "no equation of leaving"),
    (LENT + f" ensures {{ {ITSELF} ≡ {ITSELF} }}", "speaks of the result"),
    (LENT + f" ensures {{ {ITSELF} ≡ meaning (d).new }}", "memory at exit"),
    (LENT + f" ensures {{ ◌≡◌ {{A = ⊤}} ({ITSELF}) (meaning) }}", "no equation of leaving"),
    (LENT + f" ensures {{ {ITSELF} ≡ meaning) × (meaning }}", "more than one term"),
    ("(d: &mut [u8], e: &mut [u8]) ensures { d.new ≡ meaning }", "all that is lent"),
    ("(&mut self) -> u8 ensures { result ≡ meaning }", "no equation of leaving"),
]
SETTLED = [
    ONE + " ensures { result ≡ meaning s.now }",
    "(v: &mut [f64; 3]) ensures { v.new ≡ meaning }",
    LENT + f" ensures {{ {ITSELF} ≡ meaning }}",
    LENT + " ensures { told result d.new ≡ meaning d.old }",
    "(d: &mut [u8], v: &mut [u64; 1]) -> u8 ensures { shown result v.new d.new ≡ meaning }",
]
ASKS = " requires { 1 ≡ 0 } ensures { result ≡ meaning s.now }"
# faults planted in copies of source files: file, what stands there, what is planted, the function that is then open
PLANTED = [
    ("frame/src/lib.rt", "reading_of f s.now out.old", "leaving result out.new", "frame::read"),
    ("crc/src/lib.rt", "result ≡ check_of s.now", "1 ≡ 0 → result ≡ check_of s.now", "crc::check"),
    ("header/src/access.rt", "{ result ≡ access_of cc }", "{ result ≡ bit_xor 0 result }", "header::announced"),
    ("kusikhut_c/src/crc_calls.rt", "ensures { result ≡", "requires { 1 ≡ 0 }\n    ensures { result ≡",
     "kusikhut_c::kusikhut_check"),
    ("frame/src/lib.rt", "result ≡ size_for format l }", "result ≡ size_for format result }", "frame::FormatA::frame_size"),
    ("channels/src/plan.rt", "specs.Plan.{float, row_of,", "specs.Made.{float, row_of,", "channels::row_at"),
]
# what is planted in an exported function alone, so that it is kusikhut's no longer
OTHER = [("check_of s.now", "reg_of 0 s.now"), ("s: &[u8]", "t: &[u8]"), ("kusikhut_check(", "kusikhut_chek(")]


def self_test():
    def found(head, name="made::up", exported=False):
        return faults(Function(name, exported, head, {}), lambda word, home: word == "meaning")

    wrong = [f"not found, {word}: {head}" for head, word in OPEN if not any(word in fault for fault in found(head))]
    wrong += [f"taken for open: {head}" for head in SETTLED if found(head)]
    wrong += [] if found(ONE + ASKS, "chips::word", True) else ["an exported function may ask something"]
    wrong += ["a function of D23 may ask nothing"] if found(ONE + ASKS, "chips::word") else []
    for file, old, new, name in PLANTED:
        text = Path("crates", file).read_text(encoding="utf-8")
        crate, planted = file.split("/")[0], text.replace(old, new)
        opened = {f.name for f in [*functions(crate, planted), *trait_functions(crate, planted)] if faults(f)}
        if old not in text or name not in opened:
            wrong.append(f"planted in {file} and not found: {new}")
    ours = list(functions("kusikhut", Path("crates/kusikhut/src/crc_calls.rt").read_text(encoding="utf-8")))
    text = Path("crates/kusikhut_c/src/crc_calls.rt").read_text(encoding="utf-8")
    wrong += [f"taken for another: {fault}" for fault in apart(ours + list(functions("kusikhut_c", text)))]
    wrong += [f"not found in an exported function: {new}" for old, new in OTHER
              if old not in text or not apart(ours + list(functions("kusikhut_c", text.replace(old, new, 1))))]
    for line in wrong:
        print(line)
    print(f"tests/contracts: {len(OPEN)} open contracts and {len(PLANTED + OTHER)} planted faults, {len(wrong)} not told")
    return 1 if wrong else 0


def main():
    met, wrong = [], []
    for path in sorted(Path("crates").glob("*/src/**/*.rt")):
        text = path.read_text(encoding="utf-8")
        here = list(functions(path.parts[1], text))
        if len(here) != len(PUBLIC.findall(text)):
            wrong.append(f"{path}: a public function's head was not found; heads are read as rt fmt lays them out")
        here += trait_functions(path.parts[1], text)
        met += here
        wrong += [f"{path}: {function.name}: {fault}" for function in here for fault in faults(function)]
    wrong += apart(met)
    for names, clause in ((ASKING, "requires"), ({name for name, _ in BESIDE} | OTHERWISE.keys(), "ensures")):
        having = {f.name for f in met if clause in f.head}
        wrong += [f"{name} is listed in this test and has no {clause}" for name in sorted(names - having)]
    for line in wrong:
        print(line)
    print(f"tests/contracts: {len(met)} public functions, {len(wrong)} left open")
    return 1 if wrong else 0


if __name__ == "__main__":
    sys.exit(self_test() if sys.argv[1:] == ["self-test"] else main())
