"""Faults to be planted in drawings and answers, to see that the test finds them."""
import copy
import functools
import re

# Frames for the planted faults: that of Annex C.2 and one with an extended header, and what can happen to them.
PLAIN = "0F44AE0C7856341201074447780B134365871E6D"
T = "543D5A971C9B25B44EC65A2DC34E58D59371C7134EC5A334B70B699B133726B1"
SAMPLES = {
    "bytes": f"read A {PLAIN}",
    # soft addresses: M has letters, M2 has none
    "soft": "read A 1A44AE8C78563412010729FD8E2027FFFF785634120107780B13436535948737A8",
    "whole": f"receive 55{T}5555",
    "mode C": "receive 55555555543D543D1444AE0C7856341201078C2027780B134365877AC5",
    "manchester": "manchester AA559A9A6656AA5A956A9996A59AA9A6AAA9AA959A9A9A95956AAA65A9A59AA596996A95A9569659",
    "cut": f"receive {T[:-6]}",
    "wrong": f"receive {T.replace('C5A334', 'C5B434')}",
    "bad words": f"receive {T.replace('5A2D', '552D').replace('0B699B', '07699B')}",
    "length": "read A 09" + PLAIN[2:],
    "tail": "receive 543D54CC0F44",
    "short tail": "receive 543D54",
    "noise": "receive 3333333333333333333333333333333333333333 start=5 allowance=20",
}


def other(old, new, count=1):
    """An edit of the SVG: what the pattern finds is another, as re.sub does it; title and style stay."""
    def edit(svg):
        above, drawn = svg.split("</style>")
        return f"{above}</style>{re.sub(old, new, drawn, count=count)}"
    return edit


def no(pattern):
    return other(pattern, "")


def more(element):
    return other("</svg>", f"{element}</svg>")


def exchanged(one, two):
    """An edit of the SVG: the first of each is in the other's place."""
    return both(other(one, "@"), other(two, one), other("@", two))


def both(*edits):
    return lambda svg: functools.reduce(lambda edited, edit: edit(edited), edits, svg)


def above(old, new):
    """An edit of title or style."""
    return lambda svg: svg.replace(old, new, 1)


def upside_down(nth):
    """An edit of the SVG: the nth wave is low where it was high."""
    def edit(svg):
        wave = re.findall('d="([^"]*)" class="wave"', svg)[nth - 1]
        high, low = sorted({float(y) for y in re.findall(r"(?:V|^M\S+ )([\d.]+)", wave)})
        turned = re.sub(r"(V|^M\S+ )([\d.]+)", lambda step: f"{step[1]}{high + low - float(step[2]):g}", wave)
        return svg.replace(wave, turned)
    return edit


# What is planted, in which sample, and as what it must be found.
PLANTED = [
    ("the sync word upside down", "whole", "waves", upside_down(1)),
    ("the wave upside down in mode T", "whole", "waves", upside_down(2)),
    ("the last wave upside down in mode T", "whole", "waves", upside_down(3)),
    ("the tail upside down", "mode C", "waves", upside_down(2)),
    ("the wave upside down in mode C", "mode C", "waves", upside_down(3)),
    ("the wave upside down in Manchester", "manchester", "waves", upside_down(1)),
    ("noise upside down", "noise", "waves", upside_down(1)),
    ("a step one chip late", "whole", "waves", other(r"(M70 \d+)H76V", r"\1H82V")),
    ("a wave that begins further right", "manchester", "waves", other('d="M70 ', 'd="M79 ')),
    ("a wave that is lower", "manchester", "waves", other('d="M70 [0-9]+', 'd="M70 99')),
    ("no wave", "cut", "waves", no('<path [^>]*class="wave"/>')),
    ("other digits", "cut", "digits", other(">010110<", ">111111<")),
    ("digits under the next word", "cut", "digits", other('x="88"( [^>]*class="digits")', r'x="124"\1')),
    ("red digits", "cut", "digits", other('class="digits"', 'class="digits bad"')),
    ("another half of a byte", "cut", "values", other(">F<", ">E<")),
    ("another bit", "manchester", "values", other('class="mono">0<', 'class="mono">1<')),
    ("a bad word that stands for something", "bad words", "values", other(r">\?<", ">5<")),
    ("a shade at the next word", "whole", "words", other('x="142"( [^>]*class="word")', r'x="178"\1')),
    ("a red word in a right frame", "whole", "words", other('class="word"', 'class="bad-box"')),
    ("the bad word not red", "bad words", "words", other('class="bad-box"', 'class="word"')),
    ("red on the second bad word", "bad words", "words", other('x="[0-9]+"( [^>]*class="bad-box")', r'x="502"\1')),
    ("red that is too wide", "bad words", "words", other('width="36"( [^>]*class="bad-box")', r'width="72"\1')),
    ("the byte of the bad word not red", "bad words", "bytes", other("byte bad", "byte")),
    ("the byte of the second bad word red", "bad words", "bytes", other(r'class="byte">\?', 'class="byte bad">?')),
    ("another byte", "bytes", "bytes", other(">43<", ">44<")),
    ("bytes in each other's place", "bytes", "bytes", exchanged(">AE<", ">0C<")),
    ("a byte instead of a missing one", "cut", "bytes", other(">missing<", ">1E<")),
    ("a red box in a right frame", "bytes", "boxes", other("box length", "bad-box")),
    ("the colour of another field", "bytes", "boxes", other("box maker", "box address")),
    ("red on the length byte instead of the wrong check", "wrong", "boxes",
     both(other("bad-box", "box check", 2), other("box length", "bad-box"))),
    ("red on the length byte and the wrong check", "wrong", "boxes", other("box length", "bad-box")),
    ("red on half of the wrong check", "wrong", "boxes", other("bad-box", "box check")),
    ("red on the right check too", "wrong", "boxes", other("box check", "bad-box", 2)),
    ("the length byte not red", "length", "boxes", other("bad-box", "box length")),
    ("red on the byte behind the length byte", "length", "boxes", exchanged("bad-box", "box not-judged")),
    ("a byte that came as missing", "cut", "boxes", other("box data", "gone")),
    ("a missing byte as one that came", "cut", "boxes", other("gone", "box check")),
    ("a missing byte that is not there", "cut", "boxes", no('<rect [^>]*class="gone"/>')),
    ("one more missing byte", "cut", "boxes", other('(<rect )x="574"([^>]*"gone"/>)', r'\1x="574"\2\1x="646"\2')),
    ("other letters of the maker", "bytes", "names", other("M: CEN", "M: CEM")),
    ("no letters of the maker", "bytes", "names", other("M: CEN", "M: no letters")),
    ("hard for soft", "soft", "names", other("M: CEN, soft", "M: CEN, hard")),
    ("soft for hard", "bytes", "names", other("M: CEN, hard", "M: CEN, soft")),
    ("hard for soft in a header", "soft", "names", other("M2: no letters, soft", "M2: no letters, hard")),
    ("nothing said of hard or soft", "bytes", "names", other("M: CEN, hard", "M: CEN")),
    ("another length", "bytes", "names", other("L: 15", "L: 16")),
    ("fields in each other's place", "mode C", "names", exchanged(">CC<", ">ACC<")),
    ("the next CI as data", "mode C", "names", other(">next CI<", ">data<")),
    ("a field name under the next byte", "bytes", "names", other('x="178"( [^>]*>C<)', r'x="250"\1')),
    ("a field without a name", "bytes", "names", no("<text [^>]*>CI</text>")),
    ("a red field name", "bytes", "names", other('class=""(>CI<)', r'class="bad"\1')),
    ("a right check called wrong", "whole", "blocks", other("is right<", "is wrong<")),
    ("a right check in red", "whole", "blocks", other('class="good"(>block)', r'class="bad"\1')),
    ("another check", "whole", "blocks", other("check 4447", "check 4448")),
    ("a wrong check called right", "wrong", "blocks", other(", but its bytes give [0-9A-F]+", " is right")),
    ("another check that its bytes give", "wrong", "blocks", other("(bytes give) [0-9A-F]+", r"\1 0000")),
    ("a cut block called right", "cut", "blocks", other(" is not whole", ": check 1E6D is right")),
    ("a block that cannot be checked as right", "bad words", "blocks", other(" cannot be checked", " is right")),
    ("nothing said of a block", "whole", "blocks", no("<text [^>]*>block 2[^<]*</text>")),
    ("what is said of a block under another one", "whole", "blocks", exchanged(">block 1:", ">block 2:")),
    ("a block that ends elsewhere", "whole", "brackets", other("H931V", "H859V")),
    ("a block that does not end", "whole", "brackets", other("H931V[0-9]+", "H931")),
    ("a block without a bracket", "whole", "brackets", no('<path [^>]*class="line"/>')),
    ("a red bracket", "whole", "brackets", other('class="line"', 'class="bad-line"')),
    ("red at the bracket of another block", "wrong", "brackets", exchanged('class="line"', 'class="bad-line"')),
    ("another place of the sync word", "whole", "lead", other("at chip 8", "at chip 9")),
    ("another count of places", "whole", "lead", other("9 places tried", "8 places tried")),
    ("another count of chips before", "whole", "lead", other("8 chips before", "9 chips before")),
    ("another kind", "whole", "lead", other("mode T: three-of-six", "mode C: NRZ")),
    ("another format", "mode C", "lead", other("format B", "format A")),
    ("another start", "manchester", "lead", other("from chip 0 on", "from chip 2 on")),
    ("a kind where none is told", "tail", "lead", other("no kind of frame is told", "mode C: NRZ")),
    ("another sync word", "whole", "labels", other("sync word 543D", "sync word 543C")),
    ("another tail", "mode C", "labels", other("tail 543D", "tail 54CD")),
    ("fewer chips missing in the tail", "short tail", "labels", other(">8 missing<", ">1 missing<")),
    ("the unknown tail not red", "tail", "sixteen", other("bad-box", "box sync")),
    ("red on the sync word instead of the tail", "tail", "sixteen", exchanged("bad-box", "box sync")),
    ("a known tail in red", "mode C", "sixteen", other("box sync", "bad-box", 2)),
    ("a short tail as a whole one", "short tail", "sixteen", other("gone", "box sync")),
    ("red under other places", "noise", "tried", other("M100( [0-9]+H)", r"M106\1")),
    ("red under one place less", "noise", "tried", other("H220", "H214")),
    ("nothing red under the places", "noise", "tried", no('<path [^>]*class="bad-line"/>')),
    ("noise from another chip on", "noise", "lanes", other(">chip 0<", ">chip 144<")),
    ("another name at the left", "whole", "lanes", other(">bytes<", ">fields<")),
    ("another content", "whole", "end", other("(44 AE 0C 78 56 34) 12", r"\1 13")),
    ("no content", "whole", "end", no("<text [^>]*>44 AE 0C[^<]*</text>")),
    ("another length of the content", "whole", "end", other(">15 bytes", ">16 bytes")),
    ("another count of chips behind", "whole", "end", other(">16 chips behind", ">8 chips behind")),
    ("nothing said of the chips behind", "whole", "end", no("<text [^>]*>16 chips behind[^<]*</text>")),
    ("a refused content handed over", "wrong", "end", other("No content", "The content")),
    ("nothing said of a refused content", "cut", "end", no("<text [^>]*>No content[^<]*</text>")),
    ("a refused content in bytes", "wrong", "end", more('<text x="70" y="400" class="mono">44 AE</text>')),
    ("another answer", "bytes", "head", other(">0 accepted", ">3 wrong-check")),
    ("another value of the answer", "cut", "head", other("missing-chips=24", "missing-chips=12")),
    ("a refusal in green", "cut", "head", other("answer bad", "answer good")),
    ("another number in the sentence", "wrong", "head", other('(class="bad">[^<0-9]*)[0-9]+', r"\g<1>99")),
    ("another title", "bytes", "title", above("<title>0", "<title>3")),
    ("no red", "wrong", "red", above("#ffd6d6; stroke: #c00000", "#fbdcb0; stroke: #888888")),
    ("everything red", "bytes", "red", above(".box { stroke: #888888", ".box { stroke: #c00000")),
    ("red that digits do not show", "bad words", "red", above(".wave {", ".digits { fill: #555555 }\n.wave {")),
    ("a page that is too low", "bytes", "stray", above('height="', 'height="1" data-height="')),
    ("a box that means nothing", "bytes", "stray", more('<rect x="70" y="80" width="9" height="9" class="bad"/>')),
    ("a line that means nothing", "bytes", "stray", more('<path d="M70 80H90V90H99" class="bad-line"/>')),
    ("a colour without a class", "bytes", "stray", other('class=""', 'class="" fill="red"')),
    ("a circle", "bytes", "stray", more('<circle r="9" class="bad"/>')),
    ("a text that means nothing", "bytes", "end", more('<text x="70" y="150" class="bad">too short</text>')),
    ("half a drawing", "bytes", "drawing", lambda svg: svg[:len(svg) // 2]),
    ("no drawing", "bytes", "drawing", lambda svg: ""),
]


# The sender of the soft sample, with a lie in it.
TOLD_AS_HARD = {"sender": "AE8C785634120107", "letters": "CEN", "address": "hard", "id": "12345678", "version": "01",
                "type": "07"}
# Wrong answers: only drawn, and given as well.
DRAWN_ANSWERS = [("another size", "whole", {"size": 21}), ("another block", "wrong", {"block": 1})]
ANSWERS = [
    ("another place", "whole", {"place": 9}),
    ("another kind", "whole", {"kind": "C-A"}),
    ("another wrong block", "wrong", {"block": 1}),
    ("another bad word", "bad words", {"word": 2}),
    ("another length byte", "length", {"l": 8}),
    ("other chips missing", "cut", {"missing-chips": 12}),
    ("other chips missing in the tail", "short tail", {"missing-chips-at-least": 16}),
    ("a soft sender told as hard", "soft", {"from": TOLD_AS_HARD}),
    ("a sender not turned round", "soft", {"from": TOLD_AS_HARD | {"address": "soft", "id": "78563412"}}),
    ("no sender", "soft", {"from": None}),
    ("a sender of a refused frame", "cut", {"from": TOLD_AS_HARD}),
]


def planted(cases):
    """What is planted, the case with it, its drawn answer, and as what it must be found."""
    for what, sample, key, edit in PLANTED:
        drawn = cases[sample].drawn
        yield what, cases[sample], drawn | {"picture": edit(drawn["picture"])}, key
    for what, sample, change in DRAWN_ANSWERS:
        yield what, cases[sample], cases[sample].drawn | change, "answer"
    for what, sample, change in ANSWERS:
        liar = copy.copy(cases[sample])
        liar.plain = liar.plain | change
        yield what, liar, liar.drawn | change, "answer"
