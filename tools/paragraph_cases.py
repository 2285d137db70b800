#!/usr/bin/env python3
"""The cases of crates/command_cases: calls of the program, the files that they read, and what they print.

    python3 tools/paragraph_cases.py write               writes stdin, stdout and data/ of crates/command_cases,
                                                         and the sample of crates/mitqorad/data
    python3 tools/paragraph_cases.py try PROGRAM N SEED  N random calls of the program beside the second one

Answers are those of the second mitqorad, paragraph.py, but for calls whose words are wrong or whose files
cannot be read: those have theirs here, by hand.
"""
import os
import random
import shutil
import subprocess
import sys
import tempfile

from paragraph import case, said_of, words_of
from table_cases import cov, laid_out, lookup, ranges, table_of

CRATES = os.path.join(os.path.dirname(os.path.abspath(__file__)), "..", "crates")
FOLDER = os.path.join(CRATES, "command_cases")


def packed(root):
    return b"".join(word.to_bytes(2, "big") for word in laid_out(root))


def label(*rows):
    return "".join("\t".join(map(str, row)) + "\n" for row in rows).encode()


# Subtables

def listed(*items):
    return [len(items), *items]


def delta(coverage, added):
    return [1, coverage, added % 65536]


def of_sets(sets, form=1, head=()):
    """An entry for each covered glyph, or for each class with the coverage and the class definitions given."""
    glyphs = sorted(sets)
    return [form, *(head or [cov(*glyphs)]), len(glyphs), *(sets[glyph] for glyph in glyphs)]


def single(puts):
    return of_sets(puts, form=2)


def ligature(to, *further):
    return [to, 1 + len(further), *further]


def flat(records):
    return [number for record in records for number in record]


def context(inputs, *records):
    """A rule of type 5: the inputs from the second on, and records of an index and a lookup."""
    return [1 + len(inputs), len(records), *inputs, *flat(records)]


def chain(back, inputs, ahead, *records):
    return [*listed(*back), 1 + len(inputs), *inputs, *listed(*ahead), len(records), *flat(records)]


def covered_context(inputs, *records):
    return [3, len(inputs), len(records), *inputs, *flat(records)]


def covered_chain(back, inputs, ahead, *records):
    return [3, *listed(*back), *listed(*inputs), *listed(*ahead), len(records), *flat(records)]


def reverse(back, puts, ahead):
    glyphs = sorted(puts)
    return [1, cov(*glyphs), *listed(*back), *listed(*ahead), len(glyphs), *(puts[glyph] for glyph in glyphs)]


def moved(kind, *subtables):
    return lookup(7, *([1, kind, (subtable,)] for subtable in subtables))


# Fonts. In the first f is 1, i is 2, the mark m 3, the ligature fi 4 and x 5; in the others the glyph of a is 1, of b
# 2 and so on to h. There c is a base, d a ligature, and e, f and g are marks, of mark classes 1, 2 and 0.

A, B, C, D, E, F, G, H = range(1, 9)
CLASSES = {C: 1, D: 2, E: 3, F: 3, G: 3}
MARK_CLASSES = {E: 1, F: 2}
FILES = {
    "fi.label": label((0, 0, 0, 0, 7), (102, 1, 1, 0, 300), (105, 2, 1, 0, 250), (109, 3, 3, 1, 0), (0, 4, 2, 0, 540),
                      (120, 5, 1, 0, 500)),
    "abc.label": label(*((96 + glyph, glyph, CLASSES.get(glyph, 0), MARK_CLASSES.get(glyph, 0), 100 + glyph)
                         for glyph in range(1, 9))),
    "abc.cmap": packed([12, 0, 0, 28, 0, 0, 0, 1, 0, 97, 0, 104, 0, 1]),
    "abc.gdef": packed([1, 2, [1, 3, 5, 1, 2, 3, 3, 3], 0, 0, [2, 2, 5, 5, 1, 6, 6, 2],
                        [1, 2, (cov(E),), (ranges(6, 7, 0),)]]),
    "abc.hmtx": packed([number for glyph in range(9) for number in (100 + glyph, 0)]),
    "marks.gdef": packed([1, 0, [2, 1, 5, 7, 3], 0, 0, 0]),
    "capitals.pairs": b"65\t97\n66\t98\n",
    "many.pairs": b"65\t97\n" * 33,
    "one.pairs": b"65 97\n",
    "bad.label": b"102\t1\t1\t0\t300\n105\t2\t5\t0\t250\n",
    "latin1.txt": b"caf\xe9\n",
    "numbers.txt": b"97\n98\n\n99\n",
    "long.txt": b"x" * 65536,
}
FI_FONT = "--label fi.label"
ABC = "--label abc.label"
ABC_TABLES = "--cmap abc.cmap --hmtx abc.hmtx --metrics 9 --gdef abc.gdef"


# A sample for the demo: e and an acute join into one glyph, f and i join past marks, and a slash between figures makes
# a fraction of them. Its glyphs, by number: space, slash, 1, 2, a, c, e, f, i, n, acute; fi, e with acute; 1 and 2 as
# numerators, as denominators, and the fraction's bar.

(SLASH, ONE, TWO, SMALL_E, SMALL_F, SMALL_I, ACUTE, JOINED_FI, E_ACUTE, ONE_ABOVE, TWO_ABOVE, ONE_BELOW, TWO_BELOW,
 BAR) = 2, 3, 4, 7, 8, 9, 11, 12, 13, 14, 15, 16, 17, 18
WIDTHS = (250, 280, 500, 500, 440, 440, 440, 330, 280, 560, 0, 560, 440, 320, 320, 320, 320, 170)
SAMPLE = {
    "word.label": label(*((ord(character), glyph, 3 if glyph == ACUTE else 1, 0, WIDTHS[glyph - 1])
                          for glyph, character in enumerate(" /12acefin\u0301", 1)),
                        *((0, glyph, 1, 0, WIDTHS[glyph - 1]) for glyph in range(12, 19))),
    "word.gsub": packed(table_of(
        lookup(4, of_sets({SMALL_E: listed(ligature(E_ACUTE, ACUTE))})),
        lookup(4, of_sets({SMALL_F: listed(ligature(JOINED_FI, SMALL_I))}), flag=8),
        lookup(6, covered_chain([], [cov(ONE, TWO), cov(SLASH), cov(ONE, TWO)], [], (0, 3), (1, 4), (2, 5))),
        lookup(1, single({ONE: ONE_ABOVE, TWO: TWO_ABOVE})), lookup(1, single({SLASH: BAR})),
        lookup(1, single({ONE: ONE_BELOW, TWO: TWO_BELOW})))),
    "word.txt": "cafe\u0301 f\u0301in 1/2\n".encode(),
}


# Cases: a call, and what it prints where that is said by hand

def write_files(files, folder):
    for name, content in files.items():
        with open(os.path.join(folder, name), "wb") as file:
            file.write(content)


class Cases:
    def __init__(self):
        self.files, self.lines = FILES | SAMPLE, []

    def file(self, name, content):
        assert self.files.setdefault(name, content) == content, name
        return name

    def text(self, text):
        return self.file(f"{text or 'nothing'}.txt", text.encode())

    def table(self, name, *lookups):
        return self.file(f"{name}.gsub", packed(table_of(*lookups)))

    def call(self, line, error=None):
        """An error is what the second mitqorad does not say."""
        self.lines.append((line, None if error is None else f"$ {line}\nerror: {error}\nstatus: 1"))

    def answer(self, line, page):
        self.lines.append((line, f"$ {line}\n{page}\nstatus: 0"))

    def answers(self, folder):
        return [case(line, folder) if answer is None else answer for line, answer in self.lines]


def shape_cases(cases):
    def shape(name, plan, texts, *lookups, font=ABC, options=""):
        table = cases.table(name, *lookups)
        for text in texts.split(" "):
            file = cases.text(text.replace("''", ""))
            cases.call(" ".join(f"shape {font} --gsub {table} --plan {plan} {options} {file}".split()))

    # The worked examples.
    fi = [lookup(4, of_sets({1: listed(ligature(4, 2))}))]
    past_marks = [lookup(4, of_sets({1: listed(ligature(4, 2))}), flag=8)]
    to_x = lookup(1, single({2: 5}))
    after_f = [lookup(6, covered_chain([cov(1)], [cov(2)], [], (0, 1))), to_x]
    kept = [lookup(6, of_sets({2: listed(chain([1], [], []), chain([], [], [], (0, 1)))})), to_x]
    twice = [lookup(2, of_sets({5: listed(5, 5)}))]
    before_i = [lookup(8, reverse([], {2: 5}, [cov(2)]))]
    shape("fi", "0", "'' fix fmi ffii", *fi, font=FI_FONT)
    shape("fi-past-marks", "0", "fmi fmmix fm mfi", *past_marks, font=FI_FONT)
    shape("x-after-f", "0", "fi ii", *after_f, font=FI_FONT)
    shape("i-after-f", "0", "fi i", *kept, font=FI_FONT)
    shape("x-twice", "0", "x fxi", *twice, font=FI_FONT)
    shape("before-i", "0", "iii ifi", *before_i, font=FI_FONT)
    for options in ("--limit 1", "--limit 2", "--limit 0"):
        shape("x-after-f", "0", "fi", *after_f, font=FI_FONT, options=options)
    for options in ("--room 1", "--room 2"):
        shape("x-twice", "0", "x", *twice, font=FI_FONT, options=options)

    # Limits, and plans that are refused.
    shape("fi", "0", "fix", *fi, font=FI_FONT, options="--room 2")
    shape("fi", "0", "fix", *fi, font=FI_FONT, options="--room 3")
    shape("fi", "0", "''", *fi, font=FI_FONT, options="--room 0 --limit 0")
    shape("x-twice", "0", "xx", *twice, font=FI_FONT, options="--room 3 --limit 1")
    shape("x-twice", "0", "xx", *twice, font=FI_FONT, options="--room 2 --limit 0")
    shape("fi", "0", "fix", *fi, font=FI_FONT, options="--limit 1000000 --room 65535")
    for options in ("--limit 1000001", "--room 65536", "--room 4294967295 --limit 4294967295"):
        shape("fi", "0", "fix", *fi, font=FI_FONT, options=options)
    cases.call("shape --label fi.label --gsub fi.gsub --plan 0 long.txt")
    cases.call("shape --label fi.label --gsub fi.gsub --plan 1 long.txt")
    for plan in ("1", "0,0", "0=0", "0,65535", "0=65535", "''"):
        shape("fi", plan, "fi", *fi, font=FI_FONT)
    shape("i-after-f", "1,0", "fi", *kept, font=FI_FONT)
    shape("i-after-f", "0,1", "fi", *kept, font=FI_FONT)
    shape("i-after-f", "1", "fi", *kept, font=FI_FONT, options="--limit 1000001")
    shape("fi", "1", "fix", *fi, font=FI_FONT, options="--room 1")
    many = [to_x] * 65
    shape("many", ",".join(map(str, range(64))), "i", *many, font=FI_FONT)
    shape("many", ",".join(map(str, range(65))), "i", *many, font=FI_FONT)

    # What is put: types 1 to 4, and where what they need is not there.
    shape("deltas", "0,1", "abch", lookup(1, delta(cov(A, C), 7)), lookup(1, delta(ranges(7, 10, 0), -9)))
    shape("below-0", "0", "ab!", lookup(1, delta(cov(0, A), -1)))
    shape("ranges", "0", "abcdef", lookup(1, [2, ranges(1, 2, 0, 4, 5, 2), *listed(20, 21, 22, 23)]))
    shape("many-for-one", "0", "abc", lookup(2, of_sets({A: listed(H, H, H), C: listed(B)})))
    alternates = [lookup(3, of_sets({A: listed(B, C), B: listed()}), of_sets({A: listed(D, E, F)}))]
    for plan in ("0", "0=2", "0=3", "0=4"):
        shape("alternates", plan, "ab", *alternates)
    ligatures = listed(ligature(20, B, C), ligature(21, B), ligature(22))
    shape("ligatures", "0", "abc abd acb aabc", lookup(4, of_sets({A: ligatures})))
    shape("shorter-first", "0", "abc", lookup(4, of_sets({A: listed(ligature(21, B), ligature(20, B, C))})))
    shape("second-subtable", "0", "ab ac b", lookup(4, of_sets({A: listed(ligature(20, C))}), of_sets({A: listed(ligature(21, B))})))
    shape("nothing-covered", "0", "abc", lookup(1, [2, cov(), 0]), lookup(2))
    shape("no-subtables", "0,1", "abc", lookup(4), lookup(7))
    shape("one-then-other", "0,2", "ab", lookup(1, single({A: B})), lookup(1, single({A: C})), lookup(1, single({B: D})))

    # What is passed over, with a font of tables for mark sets.
    joined = [ligature(20, B)]
    for name, flag, behind, texts in (
            ("bases", 2, (), "ab acb adb"), ("ligated", 4, (), "adb acb"), ("marks", 8, (), "aefgb acb"),
            ("class-1", 0x100, (), "aeb afb agb afgb"), ("class-2", 0x200, (), "aeb afb"), ("class-255", 0xFF00, (), "aefgb"),
            ("set-0", 16, (0,), "aeb afb agb"), ("set-1", 16, (1,), "aeb afb agb"), ("set-2", 16, (2,), "aefgb"),
            ("set-over-class", 0x210, (0,), "aeb afb"), ("marks-over-set", 24, (0,), "aeb"), ("all", 14, (), "acdefgb")):
        shape(name, "0", texts, lookup(4, of_sets({A: listed(*joined)}), flag=flag, behind=behind), font=ABC_TABLES)
    shape("itself-passed-over", "0", "ec ca", lookup(1, single({C: A, E: B}), flag=2))
    shape("set-0", "0", "aeb", lookup(4, of_sets({A: listed(*joined)}), flag=16, behind=(0,)),
          font="--cmap abc.cmap --hmtx abc.hmtx --metrics 2 --gdef marks.gdef")
    shape("marks", "0", "aeb", lookup(4, of_sets({A: listed(*joined)}), flag=8), font="--cmap abc.cmap --hmtx abc.hmtx --metrics 1")

    # Contexts of all forms; class 0, no rule set, a class past the count.
    up = lookup(1, delta(ranges(1, 8, 0), 20))
    shape("context-1", "0", "abc ab acb", lookup(5, of_sets({A: listed(context([B, C], (2, 1), (0, 1)), context([B], (1, 1)))})), up)
    kinds = ranges(1, 2, 1, 3, 3, 2)
    shape("context-2", "0", "abc cab hab cc", lookup(5, of_sets({0: 0, 1: listed(context([1, 2], (1, 1))), 2: listed(context([0], (0, 1)), context([2], (1, 1)))},
                                                                form=2, head=[ranges(1, 8, 0), kinds])), up)
    shape("no-classes", "0", "ab", lookup(5, of_sets({0: listed(context([0], (1, 1)))}, form=2, head=[cov(A), 0])), up)
    shape("class-past-count", "0", "ca", lookup(5, of_sets({0: listed(context([], (0, 1)))}, form=2, head=[ranges(1, 8, 0), kinds])), up)
    shape("context-3", "0", "abc acb", lookup(5, covered_context([cov(A), cov(B, C), cov(C)], (1, 1))), up)
    shape("chain-1", "0", "habcd hhbcd habcc", lookup(6, of_sets({B: listed(chain([A, H], [C], [D], (0, 1), (1, 1)))})), up)
    shape("chain-2", "0", "abcde abcce acbde", lookup(6, of_sets({1: listed(chain([1, 0], [2], [3, 0], (1, 1)))}, form=2,
                                                                  head=[cov(C), ranges(2, 2, 1), ranges(3, 3, 1, 4, 4, 2), ranges(5, 5, 3)])), up)
    shape("chain-2-ahead", "0", "abcdeh abcdhe", lookup(6, of_sets({0: listed(chain([1], [0], [3, 0], (1, 1)))}, form=2,
                                                                    head=[cov(C), ranges(2, 2, 1), 0, ranges(5, 5, 3)])), up)
    shape("chain-3", "0", "habcd abcd", lookup(6, covered_chain([cov(A), cov(H)], [cov(B), cov(C)], [cov(D)], (1, 1))), up)
    shape("chain-past-marks", "0", "aebfcgd", lookup(6, covered_chain([cov(A)], [cov(B), cov(C)], [cov(D)], (1, 1)), flag=8), up)
    shape("ahead-past-the-end", "0", "ab b", lookup(6, covered_chain([], [cov(B)], [cov(C)], (0, 1)), covered_chain([cov(A)], [cov(B)], [], (0, 1))), up)

    # Records: order, what they change, depth, the list of positions.
    shape("records-in-order", "0", "ab", lookup(5, covered_context([cov(A), cov(B)], (0, 1), (0, 2), (9, 1))), lookup(1, single({A: B})), lookup(1, single({B: C})))
    grow = lookup(2, of_sets({A: listed(A, A), B: listed(C)}))
    shape("grown", "0", "abc", lookup(5, covered_context([cov(A), cov(B), cov(C)], (0, 1), (3, 2), (2, 2))), grow, up)
    shrink = lookup(4, of_sets({A: listed(ligature(20, B))}))
    shape("joined", "0", "abcabc", lookup(5, covered_context([cov(A), cov(B), cov(C)], (0, 1), (1, 2))), shrink, up)
    shape("joined-past-the-end", "0", "abab", lookup(5, covered_context([cov(A)], (0, 1))), shrink)
    shape("twice-at-once", "0", "aab", lookup(5, covered_context([cov(A), cov(A)], (0, 1), (0, 1), (0, 1))), grow)
    shape("itself", "0", "a aa", lookup(5, covered_context([cov(A)], (0, 0), (0, 1))), lookup(1, single({A: B, B: C, C: D, D: E, E: F, F: G, G: H})))
    shape("itself-grown", "0", "a", lookup(5, covered_context([cov(A)], (0, 1), (1, 0))), grow)
    shape("seven-deep", "0", "a", *(lookup(5, covered_context([ranges(1, 8, 0)], (0, 7), (0, number))) for number in range(1, 8)),
          lookup(1, single({A: B, B: C, C: D, D: E, E: F, F: G, G: H})))
    shape("backward-by-record", "0", "ab", lookup(5, covered_context([cov(A), cov(B)], (0, 1), (1, 2))), lookup(8, reverse([], {A: C}, [])), up)
    shape("moved-backward-by-record", "0", "ab", lookup(5, covered_context([cov(A), cov(B)], (0, 1), (1, 2))), moved(8, reverse([], {A: C}, [])), up)
    shape("record-at-passed-over", "0", "ae", lookup(5, covered_context([cov(A), cov(E)], (1, 1), (0, 1))), lookup(1, single({A: B, E: F}), flag=8))
    shape("alternate-by-record", "0=2", "ab", lookup(5, covered_context([cov(A), cov(B)], (1, 1))), lookup(3, of_sets({B: listed(C, D)})))
    long = "a" * 64
    shape("cut-to-64", "0", long, lookup(5, covered_context([cov(A)] * 64, (0, 1), (63, 2), (64, 2), (62, 2))), grow, up)
    shape("full-64", "0", long, lookup(5, covered_context([cov(A)] * 64, (63, 1))), up)
    shape("inner-positions-outer", "0", "abab", lookup(5, covered_context([cov(A), cov(B), cov(A)], (0, 1), (1, 2), (3, 3))),
          lookup(5, covered_context([cov(A), cov(B)], (0, 4), (2, 3))), lookup(1, single({A: G, B: G})), up, grow)
    shape("end-moves", "0", "abb", lookup(5, covered_context([cov(A), cov(B)], (0, 1))), grow)
    shape("grown-past-the-end", "0", "ab", lookup(5, covered_context([cov(A)], (0, 1))), lookup(5, covered_context([cov(A), cov(B)], (1, 2))), lookup(2, of_sets({B: listed(A, B)})),
          options="--limit 20")
    shape("refused-by-record", "0", "ab", lookup(5, covered_context([cov(A), cov(B)], (0, 1), (0, 1))), grow, options="--limit 2")
    shape("refused-by-record", "0", "ab", lookup(5, covered_context([cov(A), cov(B)], (0, 1), (0, 1))), grow, options="--room 3")

    # Backward passes, and what extensions move.
    shape("backward", "0", "habcd hhbcd", lookup(8, reverse([cov(A), cov(H)], {B: F}, [cov(C), cov(D)])))
    shape("backward-chain", "0", "aaab", lookup(8, reverse([], {A: B}, [cov(B)])))
    shape("backward-after", "0,1", "aab", lookup(1, single({A: C})), lookup(8, reverse([cov(C)], {C: D}, [])))
    shape("moved", "0,1,2,3,4,5", "abcdh", moved(1, single({A: B})), moved(2, of_sets({B: listed(B, C)})), moved(3, of_sets({C: listed(D)})),
          moved(4, of_sets({D: listed(ligature(A, D))})), moved(5, covered_context([cov(A)], (0, 0))), moved(6, covered_chain([], [cov(B)], [], (0, 0))))
    shape("moved-backward", "0", "aaab", moved(8, reverse([], {A: B}, [cov(B)]), reverse([], {B: C}, [])))

    # Sources of text and of glyphs.
    cases.call("shape --label word.label --gsub word.gsub --plan 0,1,2 word.txt")
    cases.call("shape --label fi.label --gsub fi.gsub --plan 0 - < fix.txt")
    cases.call("shape --label fi.label --gsub - --plan 0 fix.txt < fi.gsub")
    cases.file("codes.txt", b"102\n105\n4294967295\n0\n120\n")
    cases.call("shape --codes --label fi.label --gsub fi.gsub --plan 0 codes.txt")
    cases.file("feed.txt", b"\n")
    cases.file("feeds.txt", b"fi\n\n")
    cases.call("shape --label fi.label --gsub fi.gsub --plan 0 feed.txt")
    cases.call("shape --label fi.label --gsub fi.gsub --plan 0 feeds.txt")
    cases.file("capitals.txt", "AbÅ".encode())
    cases.call("shape --label abc.label --stand-in capitals.pairs --gsub ligatures.gsub --plan 0 capitals.txt")
    cases.call(f"shape {ABC_TABLES} --stand-in capitals.pairs --gsub ligatures.gsub --plan 0 capitals.txt")
    cases.call("glyphs --label abc.label --stand-in capitals.pairs capitals.txt")
    cases.call(f"glyphs {ABC_TABLES} abc.txt")
    cases.call("glyphs --label abc.label - < abc.txt")
    cases.call("glyphs --label abc.label long.txt")
    cases.call("check --gsub ligatures.gsub --gdef abc.gdef")


def lines_cases(cases):
    def lines(table, breaks, texts, font=FI_FONT, options=""):
        for text in texts.split(" "):
            breaking = f"--breaks {breaks}" if breaks else ""
            file = text if text.endswith(".txt") else cases.text(text.replace("''", ""))
            cases.call(" ".join(f"lines {font} --gsub {table}.gsub --plan 0 {options} {breaking} {file}".split()))

    cases.call("lines --label word.label --gsub word.gsub --plan 0,1,2 --breaks 6,11 word.txt")
    cases.call("lines --label word.label --gsub word.gsub --plan 0,1,2 --breaks 4,6,8,12 word.txt")
    for breaks in ("", "''", "1", "2", "1,2", "0", "3", "1,1", "2,1", "4", "2,4294967295"):
        lines("fi", breaks, "fix")
    lines("fi", "", "''")
    lines("fi", "1", "''")
    lines("fi", "0", "''")
    lines("fi", "1", "fix", options="--limit 0")
    lines("fi", "1", "fix", options="--room 2")
    lines("fi", "2,1", "fix", options="--limit 0")
    lines("fi-past-marks", "2,3", "fmmix")
    lines("i-after-f", "1", "fi", options="--limit 1")
    lines("i-after-f", "1", "fi", options="--limit 2")
    cases.file("room.gsub", packed(table_of(
        lookup(6, of_sets({2: listed(chain([1], [], []), chain([], [], [], (0, 1)))})), lookup(2, of_sets({2: listed(5, 5, 5)})))))
    lines("room", "1", "fi", options="--room 2")
    lines("room", "1", "fi", options="--room 3")
    lines("x-twice", "1,2", "fxi")
    lines("before-i", "1,2", "iii")
    lines("chain-3", "1,3,4", "habcd", font=ABC)
    lines("joined", "1,2,3,4,5", "abcabc", font=ABC)
    lines("joined", "3", "abcabc", font=ABC_TABLES)
    lines("fi", "0,1,9", "fix")


def calls_cases(cases):
    def calls(name, table, text, script, font=FI_FONT, options="", plan="0"):
        file = cases.file(f"{name}.script", script.replace("; ", "\n").encode() + b"\n")
        cases.call(" ".join(f"calls {font} --gsub {table}.gsub --plan {plan} {options} {cases.text(text)} {file}".split()))

    calls("given-out", "fi", "fix", "shape; line 0 2; line 0 1; pay 1; line 2 3; line 0 3; clear")
    calls("blank", "fi", "fix", "line 0 1; pay 1; waive 1; clear; shape; shape; clear; clear; shape")
    calls("numbers-go-on", "fi", "fix", "shape; line 0 1; line 1 3; waive 2; pay 2; waive 2; pay 1; pay 1; clear; shape; line 1 2; pay 2; pay 3; clear")
    calls("owed", "fi", "fix", "shape; line 0 1; clear; line 1 2; waive 1; clear; shape; waive 2; clear; line 0 1")
    calls("left-over", "fi", "fix", "shape; line 0 1; line 0 1; line 1 2; pay 2")
    calls("no-such-line", "fi", "fix", "line 1 1; shape; line 0 0; line 2 2; line 2 1; line 0 4; line 3 3; line 4294967295 4294967295; line 0 4294967295; line 0 3")
    calls("hit-limit", "fi", "fix", "shape; line 0 1; shape; clear", options="--limit 0")
    calls("no-room", "fi", "fix", "shape; line 0 1", options="--room 2")
    calls("no-room-later", "x-twice", "xx", "shape; shape", options="--room 3")
    calls("wrong-plan", "fi", "fix", "shape; line 0 1; shape", plan="0,0")
    calls("wrong-size", "fi", "fix", "shape; shape", options="--limit 1000001")
    calls("pay-refused-7", "i-after-f", "fi", "shape; line 1 2; pay 1; pay 1; clear; waive 1; clear; shape; line 1 2; line 0 1; pay 3", options="--limit 1")
    calls("pay-refused-8", "room", "fi", "shape; line 1 2; line 0 1; pay 1; pay 2; clear; waive 1; clear", options="--room 2")
    calls("nothing", "fi", "", "shape; line 0 0; line 0 1; clear; shape; line 1 0")
    calls("no-slip", "fi", "fix", "shape; pay 0; waive 0; pay 1; waive 4294967295; line 0 1; pay 0; pay 01; pay 1")
    calls("past-marks", "fi-past-marks", "fmmix", "shape; line 0 4; line 1 4; line 2 3; pay 1; pay 2; line 0 5; line 4 5")
    calls("grown", "x-twice", "fxi", "shape; line 0 1; line 1 2; line 0 3; line 2 3; clear")
    calls("from-the-end", "before-i", "iii", "shape; line 0 1; line 1 3; line 2 3; pay 1; pay 2; pay 3; clear")
    calls("nested", "joined", "abcabc", "shape; line 0 3; line 3 6; line 1 2; line 2 3; line 0 1; pay 1; pay 2; pay 3", font=ABC)
    cases.file("empty.script", b"")
    cases.file("no-feed.script", b"shape\r\nline 0 2\r\nclear")
    for name in ("empty", "no-feed"):
        cases.call(f"calls --label fi.label --gsub fi.gsub --plan 0 fix.txt {name}.script")
    cases.call("calls --label fi.label --gsub fi.gsub --plan 0 fix.txt - < no-feed.script")
    for number, (line, at) in enumerate((("shape\nshapes", 2), ("line 0", 1), ("line 0 1 2", 1), ("line  0 1", 1), ("shape ", 1), (" shape", 1), ("pay", 1),
                                         ("pay x", 1), ("pay +1", 1), ("waive -1", 1), ("clear 1", 1), ("pay 4294967296", 1), ("shape\n\nclear", 2), ("SHAPE", 1)), 1):
        name = cases.file(f"bad-{number}.script", line.encode() + b"\n")
        cases.call(f"calls --label fi.label --gsub fi.gsub --plan 0 fix.txt {name}",
                   f"mitqorad: line {at} of {name} is not a call: shape, line A B, pay K, waive K or clear")


def refused_cases(cases):
    mean = " (mitqorad --help says more)"

    def usage(line, error):
        cases.call(line, f"mitqorad: {error}{mean}")

    shape = "shape --label fi.label --gsub fi.gsub --plan"
    for plan in ("0,", ",0", ",", "a", "+0", "-1", "0=", "=1", "0=1=2", "0==1", "0=-1", "65536", "0=65536", "0;1", "0x1", "00000000000000000000,x"):
        usage(f"{shape} {plan} fix.txt", f"--plan takes lookup numbers parted by commas, each alone or with =VALUE, and not {plan}")
    cases.call(f"{shape} 00000000000000000000=01 fix.txt")
    usage("shape --label fi.label --gsub fi.gsub fix.txt", "shape needs --plan LOOKUPS")
    usage("shape --label fi.label --plan 0 fix.txt", "shape needs --gsub FILE")
    usage("shape --gsub fi.gsub --plan 0 fix.txt", "shape needs --label FILE")
    usage("shape --label fi.label --gsub fi.gsub --plan 0", "shape needs a text")
    usage(f"{shape} 0 fix.txt fi.txt", "more than one text: fi.txt")
    usage(f"{shape} 0 --limit x fix.txt", "--limit takes a number, and not x")
    usage(f"{shape} 0 --limit 4294967296 fix.txt", "--limit takes a number, and not 4294967296")
    usage(f"{shape} 0 --room -1 fix.txt", "--room takes a number, and not -1")
    usage(f"{shape} 0 fix.txt --room", "the last option has no number")
    usage("shape fix.txt --plan", "the last option has no plan")
    usage(f"{shape} 0 --breaks 1 fix.txt", "unknown option --breaks")
    usage("shape --label - --gsub fi.gsub --plan 0 - < fi.label", "standard input can be one file only")
    usage("shape --label fi.label --gsub - --plan 0 - < fi.label", "standard input can be one file only")
    usage("shape --label fi.label --cmap abc.cmap --gsub fi.gsub --plan 0 fix.txt", "a font is --label or --cmap, and not both")
    usage("glyphs --label fi.label --plan 0 fix.txt", "unknown option --plan")
    usage("glyphs --label fi.label --gsub fi.gsub fix.txt", "unknown option --gsub")
    usage("glyphs --label fi.label", "glyphs needs a text")
    usage("glyphs fix.txt", "glyphs needs --label FILE")
    usage("glyphs --cmap abc.cmap fix.txt", "--cmap needs --hmtx FILE")
    usage("glyphs --cmap abc.cmap --hmtx abc.hmtx fix.txt", "--cmap needs --metrics N")
    usage("glyphs --cmap abc.cmap --hmtx abc.hmtx --metrics 65536 fix.txt", "--metrics takes a number from 0 to 65535, and not 65536")
    usage("glyphs --label fi.label --metrics 1 fix.txt", "--label is a whole font, and takes no --metrics")
    usage("glyphs --label fi.label -x fix.txt", "unknown option -x")
    usage("check --gdef abc.gdef", "check needs --gsub FILE")
    usage("check fi.gsub", "check takes tables by --gsub and --gdef, and not fi.gsub")
    usage("break fi.gsub", "unknown command break")
    for breaks in ("1,", ",1", "a", "1;2", "-1", "+1", "4294967296"):
        usage(f"lines --label fi.label --gsub fi.gsub --plan 0 --breaks {breaks} fix.txt", f"--breaks takes places parted by commas, and not {breaks}")
    usage("lines --label fi.label --gsub fi.gsub --plan 0 --breaks", "the last option has no places")
    usage("lines --label fi.label --gsub fi.gsub fix.txt", "lines needs --plan LOOKUPS")
    usage("calls --label fi.label --gsub fi.gsub --plan 0 fix.txt", "calls needs a script")
    usage("calls --label fi.label --gsub fi.gsub --plan 0", "calls needs a text")
    usage("calls --label fi.label --gsub fi.gsub --plan 0 fix.txt empty.script empty.script", "more than one text: empty.script")
    usage("calls --label fi.label --gsub fi.gsub --plan 0 --breaks 1 fix.txt empty.script", "unknown option --breaks")
    usage("''", "unknown command ")
    cases.answer("--version", "mitqorad 0.1.0")

    def unread(line, error):
        cases.call(line, f"mitqorad: {error}")

    unread(f"{shape} 0 no.txt", "cannot read no.txt: No such file or directory (os error 2)")
    unread("shape --label fi.label --gsub no.gsub --plan 0 fix.txt", "cannot read no.gsub: No such file or directory (os error 2)")
    unread(f"{shape} 0 latin1.txt", "latin1.txt is not UTF-8")
    unread(f"{shape} 0 --codes numbers.txt", "line 3 of numbers.txt is not a character's number")
    unread("glyphs --label fi.label --stand-in one.pairs fix.txt", "line 1 of one.pairs is not two characters' numbers, parted by a tab")
    cases.file("cut.gsub", packed(table_of(lookup(1, single({1: 2}))))[:-1])
    cases.call("shape --label fi.label --gsub cut.gsub --plan 0 fix.txt")
    cases.call("shape --label bad.label --gsub fi.gsub --plan 0 fix.txt")
    cases.call("shape --label abc.label --stand-in many.pairs --gsub fi.gsub --plan 0 fix.txt")
    cases.call("shape --cmap abc.hmtx --hmtx abc.hmtx --metrics 9 --gsub fi.gsub --plan 0 fix.txt")
    cases.call("shape --cmap abc.cmap --hmtx abc.hmtx --metrics 10 --gsub fi.gsub --plan 0 fix.txt")
    cases.call("shape --cmap abc.cmap --hmtx abc.hmtx --metrics 9 --gdef abc.hmtx --gsub fi.gsub --plan 0 fix.txt")
    cases.call("check --gsub fi.gsub --gdef abc.hmtx")
    cases.call("check --gsub fix.txt")


# Random tables

class Maker:
    """Tables over few glyphs, so that much matches."""

    def __init__(self, seed):
        self.random = random.Random(seed)

    def some(self, least, most, glyphs=range(0, 10)):
        return sorted(self.random.sample(glyphs, self.random.randint(least, most)))

    def coverage(self):
        glyphs = self.some(1, 5)
        if self.random.random() < 0.3:
            first = self.random.randint(0, 8)
            last = self.random.randint(first, 9)
            return ranges(first, last, 0)
        return cov(*glyphs)

    def definition(self):
        chosen = self.random.random()
        if chosen < 0.1:
            return 0
        if chosen < 0.5:
            return [1, 1, *listed(*(self.random.randint(0, 2) for _ in range(8)))]
        return ranges(*(number for glyph in self.some(1, 6) for number in (glyph, glyph, self.random.randint(0, 3))))

    def glyphs(self, least, most):
        return [self.random.randint(1, 9) for _ in range(self.random.randint(least, most))]

    def records(self, count):
        return [(self.random.randint(0, 3), self.random.randrange(count)) for _ in range(self.random.choice((0, 1, 1, 1, 2, 3)))]

    def entries(self, most, kind):
        number = self.random.randint(0, most)
        if kind == 3:
            return [self.coverage() for _ in range(number)]
        return [self.random.randint(0, 3) if kind == 2 else self.random.randint(1, 8) for _ in range(number)]

    def rule(self, kind, form, count):
        if kind == 5:
            return context(self.entries(2, form), *self.records(count))
        return chain(self.entries(2, form), self.entries(2, form), self.entries(2, form), *self.records(count))

    def subtable(self, kind, count):
        if kind == 1:
            if self.random.random() < 0.5:
                return delta(self.coverage(), self.random.randint(-3, 3))
            return single({glyph: self.random.randint(0, 9) for glyph in self.some(1, 5)})
        if kind == 2:
            return of_sets({glyph: listed(*self.glyphs(1, 3)) for glyph in self.some(1, 3)})
        if kind == 3:
            return of_sets({glyph: listed(*self.glyphs(0, 3)) for glyph in self.some(1, 5)})
        if kind == 4:
            return of_sets({glyph: listed(*(ligature(self.random.randint(1, 9), *self.glyphs(0, 2)) for _ in range(self.random.randint(1, 3))))
                            for glyph in self.some(1, 4)})
        if kind == 8:
            puts = {glyph: self.random.randint(1, 9) for glyph in self.some(1, 5)}
            return reverse(self.entries(2, 3), puts, self.entries(2, 3))
        form = self.random.choice((1, 2, 3))
        if form == 3:
            inputs = [self.coverage(), *self.entries(2, 3)]
            if kind == 5:
                return covered_context(inputs, *self.records(count))
            return covered_chain(self.entries(2, 3), inputs, self.entries(2, 3), *self.records(count))
        keys = self.some(1, 4) if form == 1 else range(self.random.randint(1, 4))
        sets = {key: 0 if self.random.random() < 0.1 else listed(*(self.rule(kind, form, count) for _ in range(self.random.randint(1, 3))))
                for key in keys}
        if form == 1:
            return of_sets(sets)
        return of_sets(sets, form=2, head=[self.coverage(), *(self.definition() for _ in range(1 if kind == 5 else 3))])

    def lookup(self, count):
        kind = self.random.choice((1, 1, 2, 3, 4, 4, 5, 5, 6, 6, 6, 8))
        flag = self.random.choice((0, 0, 0, 0, 2, 4, 8, 8, 0x100, 0x200, 0x10, 0x10, 0x210, 0xE))
        behind = [self.random.randint(0, 2)] if flag & 0x10 else []
        subtables = [self.subtable(kind, count) for _ in range(self.random.choice((1, 1, 2)))]
        if self.random.random() < 0.15:
            return lookup(7, *([1, kind, (subtable,)] for subtable in subtables), flag=flag, behind=behind)
        return lookup(kind, *subtables, flag=flag, behind=behind)

    def table(self):
        count = self.random.randint(1, 6)
        return table_of(*(self.lookup(count) for _ in range(count))), count

    def plan(self, count):
        entries = self.some(1, count, range(count))
        return ",".join(f"{number}={self.random.randint(1, 3)}" if self.random.random() < 0.3 else str(number) for number in entries)

    def text(self, least=0, most=12):
        return "".join(self.random.choice("aaabbbccdefgh!") for _ in range(self.random.randint(least, most)))

    def options(self):
        chosen = self.random.random()
        if chosen < 0.15:
            return f"--limit {self.random.randint(0, 12)}"
        if chosen < 0.3:
            return f"--room {self.random.randint(0, 16)}"
        return "--limit 200"

    def breaks(self, text):
        if self.random.random() < 0.1:
            return ",".join(str(self.random.randint(0, len(text) + 1)) for _ in range(self.random.randint(1, 3)))
        return ",".join(map(str, self.some(0, max(0, min(len(text) - 1, 5)), range(1, max(len(text), 1)))))

    def script(self, text):
        calls, given = [], 0
        for _ in range(self.random.randint(6, 16)):
            chosen = self.random.random()
            if not calls or chosen < 0.12:
                calls.append("shape")
            elif chosen < 0.7:
                start = self.random.randint(0, len(text))
                calls.append(f"line {start} {self.random.randint(min(start + 1, len(text)), len(text) + self.random.choice((0, 0, 0, 1)))}")
                given += 1
            elif chosen < 0.82:
                calls.append(f"pay {self.random.randint(1, max(1, given))}")
            elif chosen < 0.92:
                calls.append(f"waive {self.random.randint(1, max(1, given))}")
            else:
                calls.append("clear")
        return "".join(f"{call}\n" for call in calls).encode()


def random_call(maker, cases, name, kind):
    root, count = maker.table()
    text = maker.text()
    table = cases.file(f"{name}.gsub", packed(root))
    file = cases.file(f"{name}.txt", text.encode())
    font = maker.random.choice((ABC, ABC_TABLES, ABC_TABLES))
    line = f"{kind} {font} --gsub {table} --plan {maker.plan(count)} {maker.options()}"
    if kind == "lines":
        line += f" --breaks {maker.breaks(text) or chr(39) * 2}"
    line += f" {file}"
    if kind == "calls":
        line += f" {cases.file(f'{name}.script', maker.script(text))}"
    cases.call(line)


def answered(cases):
    """The answer of the second mitqorad to the last call."""
    with tempfile.TemporaryDirectory() as folder:
        write_files(cases.files, folder)
        return said_of(words_of(cases.lines[-1][0]), folder)


def random_cases(cases):
    """Of lines and lists of calls, those where a slip is paid."""
    maker = Maker(20)
    for kind, times, wanted in (("shape", 20, ""), ("lines", 10, " paid "), ("calls", 12, "\npaid ")):
        number = 0
        while number < times:
            tried = Cases()
            random_call(maker, tried, f"random-{kind}-{number}", kind)
            if wanted in answered(tried)[0]:
                cases.files |= tried.files
                cases.lines += tried.lines
                number += 1


def write():
    cases = Cases()
    shape_cases(cases)
    lines_cases(cases)
    calls_cases(cases)
    refused_cases(cases)
    random_cases(cases)
    data = os.path.join(FOLDER, "data")
    shutil.rmtree(data, ignore_errors=True)
    os.makedirs(data)
    write_files(cases.files, data)
    write_files(SAMPLE, os.path.join(CRATES, "mitqorad", "data"))
    with open(os.path.join(FOLDER, "stdin"), "w") as file:
        file.writelines(f"{line}\n" for line, _ in cases.lines)
    with open(os.path.join(FOLDER, "stdout"), "w") as file:
        file.writelines(f"{answer}\n" for answer in cases.answers(data))


def try_random(program, times, seed, kinds):
    """Prints the random calls that the program answers otherwise."""
    maker, told = Maker(seed), {}
    with tempfile.TemporaryDirectory() as folder:
        for number in range(times):
            cases = Cases()
            random_call(maker, cases, "random", maker.random.choice(kinds))
            write_files(cases.files, folder)
            words = words_of(cases.lines[0][0])
            wanted = said_of(words, folder)
            ran = subprocess.run([os.path.abspath(program), *words], cwd=folder, capture_output=True, text=True)
            kind = wanted[1].split(":")[0] or words[0]
            told[kind] = told.get(kind, 0) + 1
            if (ran.stdout, ran.stderr, ran.returncode) != wanted:
                print("differs:", number, cases.lines[0][0], cases.files["random.txt"], cases.files["random.gsub"].hex(), wanted, ran, sep="\n  ")
    print(told)


if __name__ == "__main__":
    if sys.argv[1:] == ["write"]:
        write()
    elif len(sys.argv) >= 5 and sys.argv[1] == "try":
        try_random(sys.argv[2], int(sys.argv[3]), int(sys.argv[4]), sys.argv[5:] or ["shape"])
    else:
        sys.exit(__doc__)
