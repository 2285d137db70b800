#!/usr/bin/python3
"""The cases of crates/compare, what HarfBuzz 6.0.0 answers to them, and what compare must print. HarfBuzz is that of
Debian 12 (apt-get install libharfbuzz0b); what we answer is told by tools/shaping_model.py, not by the program.

    /usr/bin/python3 tools/harfbuzz_cases.py FOLDER                       writes FOLDER/stdin and FOLDER/stdout
    /usr/bin/python3 tools/harfbuzz_cases.py FOLDER random SEED TABLES    the same of random tables, for a longer look

Where the model answers otherwise than HarfBuzz, a case names the rules that make the difference: the fewest ways of
HarfBuzz's by which the model comes to HarfBuzz's answer. Tables that we refuse have theirs written here.
"""
import collections
import itertools
import pathlib
import random
import struct
import sys

import harfbuzz
import table_cases
from shaping_model import Font, Ligatures, Lookup, Reverse, Rules, Sets, Single, WAYS, classes, cov, rule, shape, shifted

# Glyphs by letter: bases, ligatures, marks, a component, one without a class, and what bases are turned into.
LETTERS = {letter: number for number, letter in enumerate("abcdefghLMwxyzknABCDEFGH", 1)}
CLASS_OF = {glyph: {"L": 2, "M": 2, "k": 4}.get(letter, 3 if letter in "wxyz" else 1)
            for letter, glyph in LETTERS.items() if letter != "n"}
MARK_CLASSES = {LETTERS[letter]: number for letter, number in zip("wxy", (1, 2, 1))}
GLYPHS = len(LETTERS)
NAMES = {glyph: letter for letter, glyph in LETTERS.items()}


def glyphs(letters):
    """The glyphs of letters; a question mark is a character that the font lacks."""
    return [LETTERS.get(letter, 40) for letter in letters]


def glyph(letter):
    return LETTERS[letter]


def mapped(pairs):
    """`ab:c` a glyph for each: a to c, b to c."""
    of = (pair.split(":") for pair in pairs.split())
    return {glyph(letter): glyphs(to) for letters, to in of for letter in letters}


def one_each(pairs):
    return {key: to[0] for key, to in mapped(pairs).items()}


def single(pairs, **more):
    return Single(one_each(pairs), **more)


def multiple(pairs, **more):
    return Sets(2, mapped(pairs), **more)


def alternate(pairs, **more):
    return Sets(3, mapped(pairs), **more)


def ligature(*rows, **more):
    """`ab:L` joins a and b; a set for each first glyph, in the order of the rows."""
    of = {}
    for row in rows:
        letters, to = row.split(":")
        of.setdefault(glyph(letters[0]), []).append((glyphs(letters[1:]), glyph(to)))
    return Ligatures(of, **more)


def reverse(pairs, back="", look="", **more):
    return Reverse(one_each(pairs), sets(back), sets(look), **more)


def sets(words):
    return [glyphs(word) for word in words.split()]


def context(form, *rows, kind=5, **more):
    """`b|ac|d 0>1 1>2`: backtrack b (from the glyph outward), input a and c, lookahead d, and records. In format 3 a place
    is a set of letters, parted from the next by a comma."""
    rules, of = {}, {}
    for row in rows:
        pattern, *records = row.split()
        parts = pattern.split("|") if "|" in pattern else ["", pattern, ""]
        records = [tuple(map(int, record.split(">"))) for record in records]
        if form == 3:
            back, ahead, look = ([glyphs(place) for place in part.split(",") if place] for part in parts)
            return Rules(kind, 3, rule(ahead, records, back, look), **more)
        back, ahead, look = map(glyphs if form == 1 else lambda part: list(map(int, part)), parts)
        rules.setdefault(ahead[0], []).append(rule(ahead[1:], records, back, look))
    if form == 1:
        return Rules(kind, 1, rules, **more)
    return Rules(kind, 2, rules, **more)


def chaining(form, *rows, **more):
    return context(form, *rows, kind=6, **more)


def class_numbers(words):
    """`ab:1 c:2`."""
    of = (word.split(":") for word in words.split())
    return {glyph(letter): int(number) for letters, number in of for letter in letters}


class Setting:
    """A font for both: what a case's font line says, and the GDEF table that HarfBuzz reads."""

    def __init__(self, class_of=CLASS_OF, mark_classes=MARK_CLASSES, sets=None, guessed=False):
        self.font = Font(class_of, mark_classes, sets)
        offsets = [0 if guessed else classes(class_of), 0, 0, classes(mark_classes)]
        self.gdef = bytes_of([1, 0, *offsets] if sets is None else [1, 2, *offsets, mark_sets(sets)])

    def line(self):
        if self.font.sets is not None:
            return f"tables | {in_words(harfbuzz.groups(GLYPHS))} | {in_words(self.gdef)}"
        rows = ((harfbuzz.PRIVATE_USE + g, g, self.font.class_of.get(g, 0), self.font.mark_classes.get(g, 0), 0)
                for g in range(1, GLYPHS + 1))
        return "label | " + "".join("\\t".join(map(str, row)) + "\\n" for row in rows)


def mark_sets(of):
    return [1, len(of), *[(cov(each),) for each in of]]


def bytes_of(structure):
    every = list(table_cases.laid_out(structure))
    return struct.pack(f">{len(every)}H", *every)


def in_words(table):
    return " ".join(map(str, struct.unpack(f">{len(table) // 2}H", table)))


LABEL = Setting()
MARK_SETS = Setting(sets=[glyphs("w"), glyphs("xy"), []])
HIGH_MARKS = Setting(mark_classes={glyph("w"): 1, glyph("x"): 257, glyph("y"): 2})
NO_CLASSES = Setting(class_of={}, guessed=True)


class Table:
    def __init__(self, name, lookups, cases, setting=LABEL, refused=None):
        """Cases are `PLAN TEXT TEXT ..`; a plan `0,2=3` is a lookup with value 1 and one with value 3. Refused: the lookup of a table that has a fault."""
        self.name, self.lookups, self.setting = name, lookups, setting
        self.cases = cases if isinstance(cases, list) else [cases]
        structure = [refused] if refused else [each.structure() for each in lookups]
        self.bytes = bytes_of(harfbuzz.with_features(structure))
        self.fault = fault_of(self.bytes) if refused else None

    def line(self):
        return f"table | {self.name} | {in_words(self.bytes)}"

    def answers(self):
        """Plan, text, what we answer, what HarfBuzz does, and why they differ."""
        font = harfbuzz.Font(self.bytes, self.setting.gdef, GLYPHS)
        for case in self.cases:
            plan, *texts = case.split()
            for text in map(glyphs, texts):
                try:
                    yield self.answer(font, plan_of(plan), text)
                except OverflowError:  # A random table whose runs grow and grow.
                    pass
        font.close()

    def answer(self, font, plan, text):
        theirs = font.shape(plan, text)
        if len(theirs) > 200:
            raise OverflowError
        said = " ".join(f"{number}={value}" if value != 1 else str(number) for number, value in plan), " ".join(map(str, text))
        if self.fault:
            return *said, self.fault, told(theirs), "a table that is refused"
        known = [n if n <= GLYPHS else 0 for n in text]
        why = difference(self.setting.font, self.lookups, plan, known, theirs)
        return *said, told(shape(self.setting.font, self.lookups, plan, known)), told(theirs), why


def told(answer):
    return " ".join(f"{each}:{cluster}{'!' if unsafe else ''}" for each, cluster, unsafe in answer)


def fault_of(table):
    gsub = table_cases.Gsub(table)
    try:
        gsub.walk()
    except table_cases.Fault as fault:
        return table_cases.told_of(fault, "GSUB", gsub.lookup, gsub.subtable)


def plan_of(words):
    of = (word.partition("=") for word in words.split(","))
    return [(int(number), int(value or 1)) for number, _, value in of]


def difference(font, lookups, plan, text, theirs):
    """The fewest of HarfBuzz's ways by which the model comes to its answer; nothing where they agree."""
    for count in range(len(WAYS) + 1):
        for ways in itertools.combinations(WAYS, count):
            try:
                if shape(font, lookups, plan, text, ways) == theirs:
                    return " and ".join(ways)
            except OverflowError:
                pass
    raise ValueError(f"no way of HarfBuzz's is known that answers {theirs}: plan {plan}, text {text}")


# The tables. Texts are written in letters.

def singles():
    yield Table("single 1: a delta", [Lookup(shifted(glyphs("abc"), 16))], "0 abcd xaby ? a")
    yield Table("single 1: ranges", [Lookup(shifted(glyphs("abdef"), 16, ranged=True))], "0 abcdefg gfedcba")
    yield Table("single 1: below 0", [Lookup(shifted(glyphs("abc"), -3))], "0 abcd")
    yield Table("single 1: past 65535", [Lookup(shifted([2, 65535], 65533)), Lookup(shifted([65535], 3))], ["0 abc", "0,1 abc"])
    yield Table("single 2", [Lookup(single("a:A b:L c:x"))], "0 abcd cba wa")
    yield Table("single 2: ranges", [Lookup(single("a:b b:c c:a e:e x:a", ranged=True))], "0 abcdef xyx")
    yield Table("single 2: glyph 0 is covered", [Lookup(Single({0: 1, 1: 0}))], "0 a?b ??")
    yield Table("two subtables: the first that covers", [Lookup(single("a:A"), single("a:B b:C"))], "0 abc")
    yield Table("lookups in order", [Lookup(single("a:b")), Lookup(single("b:c")), Lookup(single("c:a"))],
                ["0 abc", "1 abc", "0,1 abc", "0,1,2 abc", "0,2 abc"])


def multiples():
    yield Table("multiple", [Lookup(multiple("a:AB b:C c:ABC"))], "0 abcd aa wcw abcabc")
    yield Table("multiple: ranges", [Lookup(multiple("ab:ab c:ccc", ranged=True))], "0 abc dcb")
    yield Table("multiple: with marks", [Lookup(multiple("a:aw w:wx L:aLb"))], "0 aw wa La aLw")
    yield Table("multiple: twice", [Lookup(multiple("a:bb")), Lookup(multiple("b:cd"))], ["0,1 aab", "1 aab", "0 aab"])
    yield Table("multiple: two subtables", [Lookup(multiple("a:bc"), multiple("ab:de"))], "0 ab ba")


def alternates():
    yield Table("alternate", [Lookup(alternate("a:ABC b:D"))], ["0 abc", "0=2 abc", "0=3 abc", "0=4 abc"])
    yield Table("alternate: the next subtable", [Lookup(alternate("a:A b:BC"), alternate("ab:DEF"))],
                ["0 ab", "0=2 ab", "0=3 ab", "0=4 ab"])
    yield Table("alternate: an empty set", [Lookup(alternate("a: b:B"), alternate("a:E"))], ["0 ab", "0=2 ab"])
    yield Table("alternate: values of two lookups", [Lookup(alternate("a:bcd")), Lookup(alternate("bcd:ABC"))],
                ["0=2,1=3 abcd", "0,1=2 abcd", "0=3,1 abcd"])
    yield Table("alternate: values of records",
                [Lookup(alternate("ab:ABC")), Lookup(context(1, "ab 0>0 1>0"))], ["1=2 abab", "1=3 ab", "0=2,1=3 aab"])


def ligatures():
    yield Table("ligature", [Lookup(ligature("ab:L", "abc:M"))], "0 abc ab a aab abab acb")
    yield Table("ligature: longest first", [Lookup(ligature("abc:M", "ab:L", "bc:C"))], "0 abc abab abd bcabc ab")
    yield Table("ligature: ranges", [Lookup(ligature("ab:L", "ba:M", "ca:A", ranged=True))], "0 abc ba cab bab")
    yield Table("ligature: one component", [Lookup(ligature("a:A", "bc:B", "b:C"))], "0 abc bb")
    yield Table("ligature: of itself", [Lookup(ligature("ab:a", "aa:L"))], "0 abb aba abab aaab")
    yield Table("ligature: four components", [Lookup(ligature("abcd:L", "abc:M"))], "0 abcd abcabcd abce")
    yield Table("ligature: again by the next lookup", [Lookup(ligature("ab:L")), Lookup(ligature("Lc:M"))],
                ["0,1 abc", "0,1 abcab", "1 Lc"])
    yield Table("ligature: marks passed over", [Lookup(ligature("ab:L", "abc:M"), flag=8)],
                "0 awb awxb wawbw awbxcy abwc")
    yield Table("ligature: of marks", [Lookup(ligature("wx:z", "xw:y"))], "0 awxb axw wx")
    yield Table("ligature: of a base and a mark", [Lookup(ligature("aw:A", "bwx:B"))], "0 awb awx bwx bw")
    yield Table("ligature: clusters that were spread", [Lookup(multiple("a:ab")), Lookup(ligature("ba:L", "bab:M"))],
                ["0,1 aa", "0,1 aaa", "0,1 caac", "0,1 aab"])
    yield Table("ligature: clusters after a ligature", [Lookup(ligature("bc:L"), flag=8), Lookup(ligature("aL:M"))],
                ["0,1 abwc", "0,1 aabwcx", "0,1 abc"])


def contexts(kind, name):
    def of(form, *rows, **more):
        return context(form, *rows, kind=kind, **more)
    yield Table(f"{name} 1", [Lookup(of(1, "ab 0>1", "abc 1>1", "bc 1>1 0>1")), Lookup(single("a:A b:B c:C"))],
                "0 abc ab bc abab cbc a")
    yield Table(f"{name} 1: the first rule that matches", [Lookup(of(1, "abc 2>1", "ab", "a 0>1")), Lookup(single("a:A b:B c:C"))],
                "0 abc ab ac aab")
    yield Table(f"{name} 1: ranges and two subtables",
                [Lookup(of(1, "ab 0>1", "ba 0>1", ranged=True), of(1, "ac 1>1")), Lookup(single("a:A b:B c:C"))],
                "0 abac bac acab")
    yield Table(f"{name} 2", [Lookup(of(2, "12 0>1", "11 1>1", "02 1>1", cover=glyphs("abcd"), definitions=[class_numbers("ab:1 c:2")] * 3)),
                              Lookup(single("a:A b:B c:C d:D"))], "0 ac aab dc ccc abdc")
    yield Table(f"{name} 2: a row of classes",
                [Lookup(of(2, "120 2>1 0>1", "3 0>1", cover=glyphs("abc"), definitions=[class_numbers("a:1 b:2 c:3")] * 3, ranged=False)),
                 Lookup(single("abcde:A"))], "0 abd abc cab abe")
    yield Table(f"{name} 2: no classes",
                [Lookup(of(2, "000 1>1", cover=glyphs("ab"))), Lookup(single("abc:A"))], "0 abc cab aab")
    yield Table(f"{name} 2: a class that is not covered",
                [Lookup(of(2, "11 0>1", cover=glyphs("a"), definitions=[class_numbers("abc:1")] * 3)), Lookup(single("abc:A"))],
                "0 ab bb cba")
    yield Table(f"{name} 3", [Lookup(of(3, "ab,cd 0>1 1>1")), Lookup(single("abcd:A"))], "0 ac bd ab acbd cab")
    yield Table(f"{name} 3: ranges", [Lookup(of(3, "abc,abc,d 1>1", ranged=True)), Lookup(single("abc:A"))], "0 abd abcd aad")
    yield Table(f"{name} 3: subtables in order",
                [Lookup(of(3, "a,b,c 0>1"), of(3, "a,b"), of(3, "a 0>1")), Lookup(single("a:A"))], "0 abc ab ac aabc")
    yield Table(f"{name}: no records", [Lookup(of(1, "abc")), Lookup(single("a:A"))], ["0 abc", "0,1 abc", "0 ababc"])
    yield Table(f"{name}: marks passed over",
                [Lookup(of(1, "abc 0>1 1>1 2>1"), flag=8), Lookup(single("a:A b:B c:C"))], "0 awbc abwxc awbxcy wabc awb")
    yield Table(f"{name}: goes on behind the match", [Lookup(of(1, "aa 0>1")), Lookup(single("a:A"))], "0 aa aaa aaaa aaaaa")


def chainings():
    abc = Lookup(single("a:A b:B c:C d:D w:x"))
    yield Table("chaining: backtrack", [Lookup(chaining(1, "b|a| 0>1", "cb|a| 0>1")), abc], "0 ba a cba bca aba")
    yield Table("chaining: backtrack from the glyph outward", [Lookup(chaining(1, "bc|a| 0>1")), abc], "0 bca cba acba")
    yield Table("chaining: lookahead", [Lookup(chaining(1, "|a|b 0>1", "|a|cd 0>1")), abc], "0 ab a acd acb aab")
    yield Table("chaining: all three", [Lookup(chaining(1, "b|ac|d 0>1 1>1")), abc], "0 bacd acd bac bbacdd bacdbacd")
    yield Table("chaining: what it made is behind it", [Lookup(chaining(1, "a|a| 0>1")), abc], "0 aaaa aa")
    yield Table("chaining: with marks passed over", [Lookup(chaining(1, "b|ac|d 0>1 1>1"), flag=8), abc],
                "0 bwawcwd wbacd bawxcyd bacdw wbwacxd")
    yield Table("chaining 2: three definitions",
                [Lookup(chaining(2, "1|12|1 0>1", "2|1|0 0>1", "|2| 0>1", cover=glyphs("abcd"),
                                 definitions=[class_numbers("a:1 b:2"), class_numbers("ab:1 c:2"), class_numbers("d:1")])), abc],
                "0 aacd bac bbca caad acdacd")
    yield Table("chaining 2: one definition for all",
                [Lookup(chaining(2, "1|1|1 0>1", "2|1| 0>1", cover=glyphs("abc"), definitions=[class_numbers("ab:1 c:2")] * 3)), abc],
                "0 aaaa cab abab bcb")
    yield Table("chaining 2: a row of classes",
                [Lookup(chaining(2, "1|2|3 0>1", cover=glyphs("b"), definitions=[class_numbers("a:1 b:2 c:3")] * 3, ranged=False)), abc],
                "0 abc abcabc bc ab")
    yield Table("chaining 3: sets", [Lookup(chaining(3, "ab,cd|a,bc|d,wx 0>1 1>1")), abc], "0 cbacdw dabbx dbabdx cabdw abdw")
    yield Table("chaining 3: glyphs in several sets", [Lookup(chaining(3, "abc|abc|abc 0>1")), abc], "0 abcabc aaa aba")
    yield Table("chaining 3: ends of the text", [Lookup(chaining(3, "a|b| 0>1"), chaining(3, "|b|a 0>1")), abc], "0 b ab ba bb abba")


def reverses():
    yield Table("reverse", [Lookup(reverse("a:A b:B"))], "0 abc cba")
    yield Table("reverse: backtrack", [Lookup(reverse("b:B", back="a b"))], "0 bab bbab abab")
    yield Table("reverse: lookahead", [Lookup(reverse("a:b", look="b"))], "0 aaab aab ab aaa")
    yield Table("reverse: both", [Lookup(reverse("a:A b:B c:C", back="abc", look="ABCd"))], "0 abcd aabcd d")
    yield Table("reverse: sets and ranges", [Lookup(reverse("abc:A", back="ab cd", look="ef gh", ranged=True))], "0 cabeg dacfh")
    yield Table("reverse: two subtables", [Lookup(reverse("a:A", look="b"), reverse("a:B", look="c"))], "0 abac aab")
    yield Table("reverse: marks passed over", [Lookup(reverse("a:b", look="b", back="a"), flag=8)], "0 awawb aawb wab")
    yield Table("reverse: between other lookups",
                [Lookup(single("a:b")), Lookup(reverse("b:c", look="c")), Lookup(ligature("cc:L"))], ["0,1,2 abc", "0,1 abbc", "1,2 abbc"])


def extensions():
    abc = Lookup(single("a:A b:B c:C"))
    yield Table("moved: single", [Lookup(shifted(glyphs("ab"), 16), single("c:C"), moved=True)], "0 abc")
    yield Table("moved: multiple", [Lookup(multiple("a:bc"), moved=True)], "0 aba")
    yield Table("moved: alternate", [Lookup(alternate("a:ABC"), moved=True)], "0=2 ab")
    yield Table("moved: ligature", [Lookup(ligature("ab:L"), moved=True, flag=8)], "0 awb abc")
    yield Table("moved: context", [Lookup(context(1, "ab 1>1"), moved=True), abc], "0 abab")
    yield Table("moved: chaining", [Lookup(chaining(3, "a|b|c 0>1"), moved=True), abc], "0 abc abab")
    yield Table("moved: reverse", [Lookup(reverse("a:b", look="b"), moved=True)], "0 aab")
    yield Table("moved: a record's lookup", [Lookup(context(1, "ab 0>1 1>2")), Lookup(ligature("ab:L"), moved=True), Lookup(single("b:B"), moved=True)],
                ["0 ab", "0 cabab", "1 abb"])
    yield Table("moved: a reverse that a record names", [Lookup(context(1, "ab 0>1 1>2")), Lookup(reverse("a:A", look="b"), moved=True), abc],
                ["0 ab", "0,1 abab"])


FLAGS = [(2, None), (4, None), (8, None), (6, None), (10, None), (12, None), (14, None), (1, None), (0x100, None), (0x200, None),
         (0x300, None), (0x102, None), (0x108, None), (0x204, None), (0x10, 0), (0x10, 1), (0x10, 2), (0x10, 3), (0x12, 1), (0x18, 0), (0x110, 1), (0x210, 0)]


def flags():
    """A lookup of each kind under each flag."""
    for flag, mark_set in FLAGS:
        def under(*subtables):
            return Lookup(*subtables, flag=flag, mark_set=mark_set)
        lookups = [
            under(single("a:A L:M w:x k:a n:b")), under(multiple("a:aw w:xx L:ab")), under(ligature("ab:L", "aL:M", "ax:A", "nk:n")),
            under(context(3, "an,bk 0>6 1>6")), under(chaining(1, "L|a|b 0>6", "w|x|y 0>6", "a|a|a 0>6")), under(reverse("a:b w:x", back="aLw", look="bLx")),
            Lookup(single("a:A b:B x:z n:C k:D")),
        ]
        name = f"flag {flag:#x}" + (f", set {mark_set}" if mark_set is not None else "")
        yield Table(name, lookups, ["0 aLwkn", "1 aLw", "2 awxLb aLb axb nwk", "3 awxb nLk ak", "4 LwawLxb wyxzy aLawa", "5 awb aLb Lwx"],
                    MARK_SETS)


def chain_of(length, *behind):
    """Contexts of one glyph, each of which runs the next, and then what is behind."""
    return [Lookup(context(1, f"a 0>{number + 1}")) for number in range(length)] + list(behind)


def nested():
    abc = Lookup(single("a:A b:B c:C"))
    both = "ab 0>1 1>1"
    yield Table("records: in order", [Lookup(context(1, "ab 0>1 0>2")), Lookup(single("a:b b:a")), Lookup(single("b:c a:d"))], "0 ab abab")
    yield Table("records: one index twice, one past the input",
                [Lookup(context(1, "ab 1>1 1>1 2>2 0>1 9>2")), Lookup(single("a:b b:c c:d")), abc], "0 ab abab")
    yield Table("records: backward through the input", [Lookup(context(1, "abc 2>1 1>1 0>1")), Lookup(single("ab:c c:b"))], "0 abc aabc")
    yield Table("records: a glyph that grows, before others",
                [Lookup(context(1, "abc 0>1 1>2 3>2")), Lookup(multiple("a:ab")), Lookup(single("b:B c:C"))], "0 abc abcabc")
    yield Table("records: a glyph that grows, behind others",
                [Lookup(context(1, "abc 2>1 3>2 0>2")), Lookup(multiple("c:bc")), abc], "0 abc abcabc")
    yield Table("records: all of them grow", [Lookup(context(1, "aa 0>1 2>1 1>2")), Lookup(multiple("a:bac")), Lookup(single("a:A"))], "0 aa aaa aaaa")
    yield Table("records: two glyphs join", [Lookup(context(1, "abcd 0>1 1>2 2>2")), Lookup(ligature("ab:L")), Lookup(single("c:C d:D"))], "0 abcd abcdabcd")
    yield Table("records: the last two join", [Lookup(context(1, "abc 1>1 1>2 2>2 0>2")), Lookup(ligature("bc:L")), Lookup(single("a:A L:M c:C"))],
                "0 abc abcabc")
    yield Table("records: a ligature over a mark in between",
                [Lookup(context(1, "abc 0>1 1>2", "ab 0>1"), flag=8), Lookup(ligature("ab:L"), flag=8), Lookup(single("c:C"))],
                "0 awbxc awbc awbx abwc")
    yield Table("records: a glyph behind the match joins", [Lookup(context(1, "ab 1>1")), Lookup(ligature("bc:L")), abc], ["0 abc abcabc abab", "0,1 abcbc"])
    yield Table("records: grown and joined", [Lookup(context(1, "ab 0>1 0>2 1>3")), Lookup(multiple("a:ac")), Lookup(ligature("ac:L")), Lookup(single("b:B"))],
                "0 ab abab")
    yield Table("records: contexts of contexts", [Lookup(context(1, both)), Lookup(context(1, "a 0>2", "bc 1>3")), Lookup(single("a:d")), abc],
                "0 abc abab aabc")
    yield Table("records: chaining in chaining",
                [Lookup(chaining(1, "c|ab|c 1>1 0>2")), Lookup(chaining(1, "a|b|c 0>3")), Lookup(chaining(1, "c|a|B 0>3", "c|a| 0>4")), abc, Lookup(single("a:d"))],
                "0 cabc cabcabc abc")
    yield Table("records: what is passed over outside, and seen inside",
                [Lookup(context(1, "ab 0>1"), flag=8), Lookup(context(1, "aw 0>2 1>2")), Lookup(single("a:A w:x b:B"))], "0 awb ab awwb")
    yield Table("records: what is seen outside, and passed over inside",
                [Lookup(context(1, "awb 0>1")), Lookup(context(1, "ab 0>2 1>2"), flag=8), Lookup(single("a:A b:B w:x"))], "0 awb awbwb")
    yield Table("records: a mark of a set", [Lookup(context(1, "axb 1>1"), flag=16, mark_set=1), Lookup(single("x:y w:z"))],
                "0 axb awxb axwb aywb", MARK_SETS)
    yield Table("records: a reverse lookup", [Lookup(context(1, "ab 0>1 1>2")), Lookup(reverse("a:A")), abc], ["0 ab", "0,1 aab"])
    yield Table("records: the value of the plan's entry", [Lookup(context(1, "ab 0>1 1>2")), Lookup(alternate("a:ABC")), Lookup(context(1, "b 0>3")), Lookup(alternate("b:EFG"))],
                ["0 abab", "0=2 ab", "0=3 abab", "0=4 ab"])
    for length in (1, 2, 4, 5):
        yield Table(f"{length + 1} levels", chain_of(length, Lookup(single("a:A b:B"))), "0 ab aa")
    yield Table("a lookup that runs itself at the next glyph", [Lookup(context(1, "aa 0>1 1>0")), Lookup(single("a:b"))], "0 aa aaaa aab aaaaab")
    yield Table("64 inputs", [Lookup(context(3, ",".join(["ab"] * 64) + " 0>1 63>1 31>1")), Lookup(single("a:A b:B"))],
                "0 " + "ab" * 33 + " " + "ab" * 31)
    yield Table("64 components", [Lookup(ligature("a" * 64 + ":L", "aa:M"))], "0 " + "a" * 64 + " " + "a" * 66 + " aaa")
    yield Table("64 records", [Lookup(context(1, "a" + " 0>1" * 64)), Lookup(shifted(glyphs("abcdefgh"), 1))], "0 a aba")


def ties():
    """Where a text may be broken: matches that change nothing, context far away, and clusters that come together later."""
    yield Table("ties: a match without records", [Lookup(context(1, "abc", "bcd"))], "0 abcd abab aabcd bcd")
    yield Table("ties: backtrack and lookahead", [Lookup(chaining(1, "cb|a|de"))], "0 bcade cbade abcadeb cad")
    yield Table("ties: what is passed over lies inside", [Lookup(chaining(1, "a|b|c"), flag=8)], "0 awbxc wawbwc abcx")
    yield Table("ties: a match that fails ties nothing", [Lookup(context(1, "abcd 0>1")), Lookup(single("a:A"))], "0 abc abce")
    yield Table("ties: single glyphs tie nothing", [Lookup(single("a:A")), Lookup(multiple("b:cd"))], "0,1 abab")
    yield Table("ties: reverse", [Lookup(reverse("b:B", back="a", look="c d"))], "0 abcd abc babcd")
    yield Table("ties: a ligature of tied glyphs", [Lookup(context(1, "bc")), Lookup(ligature("ab:L", "cd:M"))], ["0,1 abcd", "0,1 abc", "0 abcd"])
    yield Table("ties: a ligature that takes a tied cluster", [Lookup(chaining(1, "a|b|")), Lookup(ligature("bc:L", "ab:M"))], ["0,1 abc", "0,1 ab"])
    yield Table("ties: a cluster of two glyphs", [Lookup(multiple("a:bc")), Lookup(context(1, "cd", "bc"))], ["0,1 ad", "0,1 aa", "0,1 da"])
    yield Table("ties: by records", [Lookup(context(1, "ab 1>1")), Lookup(context(1, "bcd"))], "0 abcd abc")


def differences():
    """For each rule by which we differ on purpose, tables that show it."""
    a_to_A = Lookup(single("a:A"))
    for length in (6, 7, 12):
        yield Table(f"nesting: {length + 1} levels", chain_of(length, a_to_A), "0 a aba")
    yield Table("nesting: a lookup that runs itself", [Lookup(context(1, "a 0>0 0>1")), Lookup(single("a:b b:c c:d d:e e:f f:g g:h"))], "0 a")
    yield Table("nesting: one glyph further each time", [Lookup(context(1, "aa 1>0", "ab 0>1")), a_to_A], "0 aaaab aaaaaaaab")
    yield Table("passed over: a mark", [Lookup(context(1, "aw 1>1")), Lookup(single("w:x a:A"), flag=8)], "0 awaw aw")
    yield Table("passed over: a base, by a ligature", [Lookup(context(1, "ab 0>1")), Lookup(ligature("ab:L", "aw:M"), flag=2)], "0 ab abw")
    yield Table("passed over: after it became a mark", [Lookup(context(1, "ab 0>1 0>2")), Lookup(single("a:w")), Lookup(single("w:x"), flag=8)], "0 ab abab")
    yield Table("passed over: a mark of another class", [Lookup(context(1, "axw 1>1 2>1")), Lookup(single("wx:z"), flag=0x100)], "0 axw")
    yield Table("passed over: by a context of records", [Lookup(context(1, "ab 0>1")), Lookup(context(1, "ab 1>2", "a 0>2"), flag=2), Lookup(single("a:A b:B"))], "0 ab abb")
    inside = [Lookup(context(1, "abc 0>1 1>2"), flag=8), Lookup(ligature("aw:L")), Lookup(single("b:B c:C"))]
    yield Table("positions: a ligature of a glyph that is in no list", inside, "0 awbc abc awbwc")
    yield Table("positions: a mark between them grows", [Lookup(context(1, "abc 0>1 1>3 2>3"), flag=8), Lookup(context(1, "aw 1>2")), Lookup(multiple("w:wx")), Lookup(single("b:B c:C w:z"))],
                "0 awbc abc awbxc")
    yield Table("positions: a glyph behind the first grows", [Lookup(context(1, "abc 0>1 1>3 2>3 3>3")), Lookup(context(1, "ab 1>2")), Lookup(multiple("b:bd")), Lookup(single("b:B c:C d:D"))],
                "0 abc abcabc")
    yield Table("positions: ligatures that leave one out", [Lookup(context(1, "awb 0>1 1>2 2>2")), Lookup(ligature("ab:L"), flag=8), Lookup(single("a:A b:B w:x"))],
                "0 awb awbawb")
    yield Table("end: glyphs behind it join", [Lookup(context(1, "ab 1>1 1>2", "c 0>4")), Lookup(context(1, "bcd 1>3")), Lookup(single("b:c")), Lookup(ligature("cd:L")), Lookup(single("c:C"))],
                "0 abcdab abcd abd")
    yield Table("end: a glyph behind it grows", [Lookup(context(1, "ab 1>1", "c 0>3", "d 0>3")), Lookup(context(1, "bc 1>2")), Lookup(multiple("c:cd")), Lookup(single("c:C d:D"))],
                "0 abc abcabc")
    yield Table("end: a ligature over what was not matched", [Lookup(context(1, "a 0>1", "L 0>2", "b 0>2")), Lookup(ligature("ac:M"), flag=4), Lookup(single("L:A b:B"))],
                "0 aLcb aLLcbL acb")
    joined = [Lookup(ligature("ab:L"), flag=8), Lookup(ligature("wx:z", "wy:z")), Lookup(context(1, "wx 0>3", "xy 0>3", "zc 1>3")), Lookup(single("w:y x:z c:C"))]
    yield Table("components: marks of two of them do not join", joined, ["0,1 awbx", "0,1 awxb", "0,1 abwx", "1 wx", "0,1 awbyx", "0,1 awbcwx"])
    yield Table("components: nor are they a context", joined, ["0,2 awbx", "0,2 awxb", "0,2 abwx", "0,2 awbyc", "0,2 axby"])
    yield Table("components: a mark that joined and one that did not", joined, ["0,1 wawbx", "0,1,2 awbxc", "0,1 abwcx"])
    yield Table("mark classes: 257 is 1", [Lookup(single("wxy:z"), flag=0x100), Lookup(context(1, "ab 0>2"), flag=0x100), a_to_A],
                ["0 wxy", "1 axb", "1 awb", "1 ayb"], HIGH_MARKS)
    many = Sets(3, {glyph("a"): [100 + number for number in range(300)]})
    yield Table("values: 256 and more", [Lookup(many)], ["0=255 ab", "0=256 ab", "0=257 ab", "0=300 a", "0=301 a"])
    yield Table("operations: 16,384 and more", [Lookup(context(1, "a" + " 0>1" * 64)), Lookup(context(1, "a" + " 0>2" * 64, "b" + " 0>2" * 64)),
                                                Lookup(context(1, *(f"{letter} 0>3 0>4 0>3 0>4 0>3 0>4" for letter in "ab"))), Lookup(single("a:b")), Lookup(single("b:a"))],
                "0 a")
    yield Table("64 positions: the list grows past them", [Lookup(context(3, ",".join(["ab"] * 64) + " 0>1 1>2 2>2")), Lookup(multiple("a:ac")), Lookup(single("b:B c:C"))],
                "0 " + "ab" * 32)
    shared, other = class_numbers("ab:1 c:2"), class_numbers("a:3 b:2 c:1 d:1 ef:2")
    yield Table("a cache of classes", [Lookup(chaining(2, "1|1|1 0>1", "2|2| 0>1", cover=glyphs("abc"), definitions=[shared, shared, other], ranged=True)), Lookup(single("a:A b:B c:C"))],
                "0 aac aaac baadc aab")
    yield Table("guessed classes", [Lookup(single("a:A"), flag=2), Lookup(ligature("ab:L"), flag=8), Lookup(context(1, "ab 0>3"), flag=4), Lookup(single("a:A"))],
                ["0 ab", "1 awb ab", "2 aLb ab"], NO_CLASSES)


def refused():
    """Tables that we refuse and HarfBuzz runs."""
    cover = cov(glyphs("a"))
    for name, subtable, plan in (
            ("a glyph that becomes none", [2, 0, 1, [1, cover, 1, [0]]], "0 aba"),
            ("a coverage that repeats a glyph", [1, 0, 1, [1, [1, 3, 1, 1, 2], 16]], "0 abc"),
            ("more glyphs covered than there are sets", [2, 0, 1, [1, cov(glyphs("ab")), 1, [1, 17]]], "0 ab"),
            ("ranges whose start index is wrong", [1, 0, 1, [2, [2, 1, 1, 2, 1], 3, 17, 18, 19]], "0 ab"),
            ("a record of a lookup that is not there", [5, 0, 1, [3, 1, 1, cover, 0, 7]], "0 ab"),
            ("65 inputs", [5, 0, 1, [3, 65, 0, *[cover] * 65]], "0 aa")):
        yield Table(f"refused: {name}", [], plan, refused=subtable)


# Random tables

class Chance:
    def __init__(self, seed):
        self.random = random.Random(seed).random

    def below(self, count):
        return int(self.random() * count)

    def one(self, of):
        return of[self.below(len(of))]

    def some(self, of, least, most):
        """That many of them, each at most once."""
        left, count = list(of), least + self.below(most - least + 1)
        return [left.pop(self.below(len(left))) for _ in range(min(count, len(left)))]

    def row(self, of, least, most):
        return [self.one(of) for _ in range(least + self.below(most - least + 1))]


KINDS = [1, 1, 2, 2, 3, 4, 4, 4, 5, 5, 6, 6, 6, 8]
SOME_FLAGS = [0] * 6 + [2, 4, 8, 8, 8, 6, 10, 12, 14, 0x100, 0x200, 0x300, 0x102, 0x10, 0x10, 0x12, 0x110]


def random_rule(chance, of, kind, lookups, first=0):
    """First: how many inputs are among the entries that the key does not say."""
    back, look = (chance.row(of, 0, 2) if kind == 6 else [] for _ in range(2))
    ahead = chance.row(of, first, first + 2)
    inputs = len(ahead) + 1 - first
    records = [(chance.below(inputs + 1), chance.below(lookups)) for _ in range(chance.below(4))]
    return rule(ahead, records, back, look)


def random_subtable(chance, kind, of, lookups):
    ranged = chance.below(2) == 0

    def for_each(most, value):
        return {glyph: value() for glyph in chance.some(of, 1, most)}

    def rules(first=0, entries=of):
        return [random_rule(chance, entries, kind, lookups, first) for _ in range(1 + chance.below(2))]

    if kind == 1:
        return Single(for_each(6, lambda: chance.one(of)), ranged)
    if kind in (2, 3):
        return Sets(kind, for_each(4, lambda: chance.row(of, 3 - kind if kind == 3 else 1, 3)), ranged)
    if kind == 4:
        return Ligatures(for_each(4, lambda: [(chance.row(of, 0, 3), chance.one(of)) for _ in range(1 + chance.below(2))]), ranged)
    places = [chance.some(of, 2, 10) for _ in range(4)]
    if kind == 8:
        return Reverse(for_each(6, lambda: chance.one(of)), chance.row(places, 0, 2), chance.row(places, 0, 2), ranged)
    form = 1 + chance.below(3)
    if form == 1:
        return Rules(kind, 1, for_each(5, rules), ranged=ranged)
    if form == 3:
        return Rules(kind, 3, random_rule(chance, places, kind, lookups, 1), ranged=ranged)
    definitions = [{glyph: chance.below(4) for glyph in chance.some(of, 3, 16)} for _ in range(3)]
    if chance.below(3) == 0:
        definitions = definitions[:1] * 3
    numbers = list(range(4))
    by_class = {number: rules(entries=numbers) for number in chance.some(numbers, 1, 4)}
    return Rules(kind, 2, by_class, chance.some(of, 3, 16), definitions, ranged)


def random_lookup(chance, of, lookups):
    kind, flag = chance.one(KINDS), chance.one(SOME_FLAGS)
    subtables = [random_subtable(chance, kind, of, lookups) for _ in range(chance.one([1, 1, 2]))]
    return Lookup(*subtables, flag=flag, mark_set=chance.below(4) if flag & 16 else None, moved=chance.below(7) == 0)


def random_table(name, seed, of, texts):
    chance = Chance(seed)
    count = 1 + chance.below(4)
    lookups = [random_lookup(chance, of, count) for _ in range(count)]
    cases = []
    for _ in range(texts):
        plan = [f"{number}={chance.one([1, 1, 1, 2, 3])}" for number in range(count) if chance.below(5)] or ["0"]
        cases.append(",".join(plan) + " " + "".join(NAMES[glyph] for glyph in chance.row(of, 1, 10)))
    return Table(name, lookups, cases, MARK_SETS)


FEW = glyphs("abcLwx")


def randoms(seed, count, texts):
    for number in range(count):
        of = FEW if number % 2 else list(range(1, 17))
        yield random_table(f"random {seed}.{number}", f"{seed}.{number}", of, texts)


def write(folder, tables):
    given, wanted, setting, tally = [], [], None, collections.Counter()
    for table in tables:
        if table.setting is not setting:
            setting = table.setting
            given.append(setting.line())
        given.append(table.line())
        for plan, text, ours, theirs, why in table.answers():
            given.append(f"case | {plan} | {text} | {theirs} | {why}".rstrip())
            tally[why] += 1
            if why:
                wanted.append(f"{table.name}, plan {plan}, text {text}: {ours}; HarfBuzz {theirs}: {why}")
    wanted.append(f"{tally['']} agree, {tally.total() - tally['']} differ by a rule that is named, 0 fail")
    for name, lines in ("stdin", given), ("stdout", wanted):
        (folder / name).write_text("".join(line + "\n" for line in lines))
    print(*(f"{count} {why or 'agree'}" for why, count in tally.most_common()), sep="\n")


def main(folder, *words):
    if words:
        tables = randoms(int(words[1]), int(words[2]), 5)
    else:
        tables = itertools.chain(
            singles(), multiples(), alternates(), ligatures(), contexts(5, "context"), contexts(6, "chaining"), chainings(),
            reverses(), extensions(), nested(), ties(), differences(), refused(), flags(), randoms(1, 60, 2))
    write(pathlib.Path(folder), tables)


if __name__ == "__main__":
    main(*sys.argv[1:])
