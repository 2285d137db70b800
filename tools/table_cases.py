#!/usr/bin/env python3
"""A second checker of OpenType tables, and a table of GSUB cases.

The checker is written from docs/ alone and shares nothing with the crates: it says what
the case programs must print, so that a slip in one of the two shows.

    python3 tools/table_cases.py expect KIND < crates/KIND_cases/stdin    what the case program prints
    python3 tools/table_cases.py gsub                                     the lines of the GSUB cases

KIND is layout, class, table_font or gsub.
"""
import copy
import itertools
import sys

NONE = 65535  # no lookup, no subtable


# Structures

class Fault(Exception):
    def __init__(self, number, start, byte):
        super().__init__(number, start, byte)
        self.number, self.start, self.byte = number, start, byte


class Structure:
    """A structure of a table, read field by field. Reading past the table is fault 1."""

    def __init__(self, table, start):
        self.table, self.start, self.at = table, start, start

    def fault(self, number, byte):
        return Fault(number, self.start, byte)

    def field(self, size=2):
        at, self.at = self.at, self.at + size
        if self.at > len(self.table):
            raise self.fault(1, at)
        return int.from_bytes(self.table[at:self.at], "big")

    def known(self, *values):
        """A version, a format or a type."""
        value = self.field()
        if value not in values:
            raise self.fault(2, self.at - 2)
        return value

    def count(self, least, most):
        value = self.field()
        if not least <= value <= most:
            raise self.fault(4, self.at - 2)
        return value

    def array(self, count, size=2):
        return [self.field(size) for _ in range(count)]

    def rows(self, count, size=2):
        """Entries of three fields."""
        return [self.array(3, size) for _ in range(count)]

    def links(self, count, size=2):
        """Offsets, each with the byte where it stands."""
        at = self.at
        return list(zip(itertools.count(at, size), self.array(count, size)))

    def target(self, link):
        """Where an offset leads that may not be 0."""
        byte, offset = link
        if offset == 0:
            raise self.fault(2, byte)
        return self.start + offset


def in_order(here, rows, size=2):
    """Tests that rows of first, last and third field rise, and hands each on with the third one's byte."""
    at, before = here.at - 3 * size * len(rows), -1
    for first, last, third in rows:
        if first <= before:
            raise here.fault(3, at)
        if first > last:
            raise here.fault(3, at + size)
        yield at + 2 * size, first, last, third
        at, before = at + 3 * size, last


def coverage(table, start):
    """First glyph, last glyph and first index of each entry."""
    here = Structure(table, start)
    if here.known(1, 2) == 1:
        glyphs = here.array(here.field())
        for number, (before, glyph) in enumerate(zip(glyphs, glyphs[1:]), 1):
            if glyph <= before:
                raise here.fault(3, start + 4 + 2 * number)
        return [(glyph, glyph, index) for index, glyph in enumerate(glyphs)]
    rows, covered = here.rows(here.field()), 0
    for byte, first, last, index in in_order(here, rows):
        if index != covered:
            raise here.fault(3, byte)
        covered += last - first + 1
    return rows


def class_definition(table, start):
    """First glyph, last glyph and class of each entry."""
    here = Structure(table, start)
    if here.known(1, 2) == 1:
        first = here.field()
        classes = here.array(here.field())
        return [(glyph, glyph, value) for glyph, value in enumerate(classes, first)]
    rows = here.rows(here.field())
    list(in_order(here, rows))
    return rows


def glyph_count(entries):
    return sum(last - first + 1 for first, last, _ in entries)


def entry_of(entries, key):
    return next((entry for entry in entries if entry[0] <= key <= entry[1]), None)


def index_of(entries, key):
    """The third field counts on through an entry: a coverage index, a glyph of the cmap."""
    entry = entry_of(entries, key)
    return None if entry is None else entry[2] + key - entry[0]


def class_of(entries, glyph):
    entry = entry_of(entries, glyph)
    return 0 if entry is None else entry[2]


# Tables

def check_length(table):
    if len(table) > 16_777_215:
        raise Fault(4, 0, 0)


def cmap(table):
    """First character, last character and first glyph of each group."""
    check_length(table)
    here = Structure(table, 0)
    here.known(12)
    here.field()
    length, _, count = here.array(3, 4)
    if length != 16 + 12 * count:
        raise here.fault(4, 4)
    rows = here.rows(count, 4)
    for byte, first, last, glyph in in_order(here, rows, 4):
        if glyph + last - first > 65535:
            raise here.fault(4, byte)
    return rows


def mark_sets(table, start):
    here = Structure(table, start)
    here.known(1)
    links = here.links(here.field(), 4)
    return [coverage(table, here.target(link)) for link in links]


def gdef(table):
    """The entries of the glyph classes, of the mark classes and of each mark set."""
    check_length(table)
    if not table:
        return [], [], []
    here = Structure(table, 0)
    here.known(1)
    minor = here.known(0, 2, 3)
    glyphs, _, _, marks = here.array(4)
    sets = here.field() if minor >= 2 else 0
    return (class_definition(table, glyphs) if glyphs else [],
            class_definition(table, marks) if marks else [],
            mark_sets(table, sets) if sets else [])


def hmtx(table, metrics):
    """The advances."""
    check_length(table)
    here = Structure(table, 0)
    if metrics == 0:
        raise here.fault(4, 0)
    return here.array(2 * metrics)[::2]


class Gsub:
    """A walk through a GSUB table. After a fault, lookup and subtable say where the walk was."""

    def __init__(self, table):
        self.table = table
        self.lookup = self.subtable = NONE
        self.lookups = self.subtables = 0

    def walk(self):
        check_length(self.table)
        here = Structure(self.table, 0)
        here.known(1)
        here.known(0, 1)
        here.array(2)
        self.lookup_list(here.target(here.links(1)[0]))

    def lookup_list(self, start):
        here = Structure(self.table, start)
        links = here.links(here.field())
        self.lookups = len(links)
        for number, link in enumerate(links):
            to = here.target(link)
            self.lookup = number
            self.walk_lookup(to)
            self.lookup = NONE

    def walk_lookup(self, start):
        here = Structure(self.table, start)
        kind = here.known(*range(1, 9))
        flag = here.field()
        links = here.links(here.field())
        if flag & 0x0010:
            here.field()
        self.subtables += len(links)
        self.moved = None
        for number, link in enumerate(links):
            to = here.target(link)
            self.subtable = number
            self.walk_subtable(kind, to)
            self.subtable = NONE

    def walk_subtable(self, kind, start):
        here = Structure(self.table, start)
        form = here.known(*{1: (1, 2), 5: (1, 2, 3), 6: (1, 2, 3)}.get(kind, (1,)))
        walk = {1: self.single, 5: self.context, 6: self.chaining, 7: self.extension, 8: self.reverse}
        walk.get(kind, self.sets)(here, kind, form)

    def covered(self, here, link, byte, count):
        """Walks a coverage; an array with its count at the byte has an entry for each of its glyphs."""
        if count < glyph_count(coverage(self.table, here.target(link))):
            raise here.fault(4, byte)

    def coverages(self, here, links):
        for link in links:
            coverage(self.table, here.target(link))

    def single(self, here, kind, form):
        link, byte, count = here.links(1)[0], here.at, here.field()
        if form == 1:  # the third field is no count but a delta
            return self.coverages(here, [link])
        here.array(count)
        self.covered(here, link, byte, count)

    def sets(self, here, kind, form):
        link, byte, count = here.links(1)[0], here.at, here.field()
        sets = here.links(count)
        self.covered(here, link, byte, count)
        for each in sets:
            inner = Structure(self.table, here.target(each))
            if kind == 4:
                self.each(inner, self.ligature)
            else:
                inner.array(inner.count(1, 64) if kind == 2 else inner.field())

    def each(self, here, walk):
        """A set of structures: count, [structure]."""
        for link in here.links(here.field()):
            walk(Structure(self.table, here.target(link)))

    def ligature(self, here):
        here.field()
        here.array(here.count(1, 64) - 1)

    def rule_sets(self, here, class_definitions, rule):
        link, classes = here.links(1)[0], here.links(class_definitions)
        byte, count = here.at, here.field()
        sets = here.links(count)
        self.covered(here, link, byte, 65536 if classes else count)
        for _, offset in classes:
            if offset:
                class_definition(self.table, here.start + offset)
        for _, offset in sets:
            if offset:
                self.each(Structure(self.table, here.start + offset), rule)

    def records(self, here, count):
        records = here.links(2 * count)
        for byte, lookup in records[1::2]:
            if lookup >= self.lookups:
                raise here.fault(5, byte)

    def context(self, here, kind, form):
        if form < 3:
            return self.rule_sets(here, form - 1, self.context_rule)
        inputs, records = here.count(1, 64), here.count(0, 64)
        links = here.links(inputs)
        self.records(here, records)
        self.coverages(here, links)

    def context_rule(self, here):
        inputs, records = here.count(1, 64), here.count(0, 64)
        here.array(inputs - 1)
        self.records(here, records)

    def chaining(self, here, kind, form):
        if form < 3:
            return self.rule_sets(here, 3 * (form - 1), self.chaining_rule)
        links = [link for least in (0, 1, 0) for link in here.links(here.count(least, 64))]
        self.records(here, here.count(0, 64))
        self.coverages(here, links)

    def chaining_rule(self, here):
        here.array(here.count(0, 64))
        here.array(here.count(1, 64) - 1)
        here.array(here.count(0, 64))
        self.records(here, here.count(0, 64))

    def extension(self, here, kind, form):
        moved = here.known(*([self.moved] if self.moved else [1, 2, 3, 4, 5, 6, 8]))
        self.moved = moved
        self.walk_subtable(moved, here.target(here.links(1, 4)[0]))

    def reverse(self, here, kind, form):
        link = here.links(1)[0]
        links = [each for _ in range(2) for each in here.links(here.count(0, 64))]
        byte, count = here.at, here.field()
        here.array(count)
        self.covered(here, link, byte, count)
        self.coverages(here, links)


# What the case programs print

def number(word, most=65535, otherwise=0):
    word = word.strip()
    return int(word) if word.isascii() and word.isdigit() and int(word) <= most else otherwise


def bytes_of(words, length=None):
    table = bytearray()
    for word in words.split():
        times, star, value = word.partition("*")
        times, value = (number(times, sys.maxsize), value) if star else (1, word)
        table += number(value).to_bytes(2, "big") * times
    return bytes(table[:length])


def told(fault):
    return f"fault {fault.number} structure {fault.start} byte {fault.byte}"


def told_of(fault, table, lookup=NONE, subtable=NONE):
    return (f"fault {fault.number} table {table} lookup {lookup} subtable {subtable}"
            f" structure {fault.start} byte {fault.byte}")


def expect_layout(line, kind="coverage", count=False):
    name, words, length, start, glyphs = (line.split("|") + [""] * 4)[:5]
    table = bytes_of(words, number(length, sys.maxsize))
    check = class_definition if kind == "classes" else coverage
    try:
        entries = check(table, number(start, sys.maxsize))
    except Fault as fault:
        return f"{name.strip()}: {told(fault)}"
    answer = f"{name.strip()}: accepted"
    if count and kind != "classes":
        answer += f", {glyph_count(entries)} glyphs"
    for glyph in map(number, glyphs.split()):
        value = class_of(entries, glyph) if kind == "classes" else index_of(entries, glyph)
        answer += f", {glyph}: {'not covered' if value is None else value}"
    return answer


def expect_class(line):
    kind, _, rest = line.partition("|")
    return expect_layout(rest, kind.strip(), count=True)


def answer_of(question, groups, definitions, advances):
    glyph_classes, mark_classes, sets = definitions
    kind, _, of = question.partition(":")
    if kind == "glyph":
        return index_of(groups, number(of, 4294967295)) or 0
    if kind == "class":
        value = class_of(glyph_classes, number(of))
        return value if value <= 4 else 0
    if kind == "mark":
        return class_of(mark_classes, number(of))
    if kind == "advance":
        return advances[min(number(of), len(advances) - 1)]
    chosen, _, glyph = of.partition(":")
    chosen = sets[number(chosen):][:1]
    return "yes" if chosen and entry_of(chosen[0], number(glyph)) else "no"


def expect_table_font(line):
    name, *tables, metrics, lengths, questions = (line.split("|") + [""] * 6)[:7]
    lengths = [number(word, sys.maxsize, None) for word in lengths.split()] + [None] * 3
    tables = [bytes_of(words, length).ljust(length or 0, b"\0") for words, length in zip(tables, lengths)]
    try:
        tag = "cmap"
        groups = cmap(tables[0])
        tag = "GDEF"
        definitions = gdef(tables[1])
        tag = "hmtx"
        advances = hmtx(tables[2], number(metrics))
    except Fault as fault:
        return f"{name.strip()}: {told_of(fault, tag)}"
    answers = (f", {question} {answer_of(question, groups, definitions, advances)}" for question in questions.split())
    return f"{name.strip()}: accepted" + "".join(answers)


def expect_gsub(line):
    name, words, length = (line.split("|") + [""] * 2)[:3]
    if length.strip() == "each":
        lengths = range(len(bytes_of(words)) + 1)
        return "\n".join(expect_gsub(f"{name.strip()}, cut to {length} | {words} | {length}") for length in lengths)
    gsub = Gsub(bytes_of(words, number(length, sys.maxsize, None)))
    try:
        gsub.walk()
    except Fault as fault:
        return f"{name.strip()}: {told_of(fault, 'GSUB', gsub.lookup, gsub.subtable)}"
    return f"{name.strip()}: accepted, {gsub.lookups} lookups, {gsub.subtables} subtables"


EXPECT = {"layout": expect_layout, "class": expect_class, "table_font": expect_table_font, "gsub": expect_gsub}


# GSUB cases. A structure is a list of its words; a list inside is an offset to that structure, in a tuple an
# offset of 32 bits. A list that is met twice is laid out once, so it is shared.

def led_to(item):
    item = item[0] if isinstance(item, tuple) else item
    return item if isinstance(item, list) else None


def laid_out(root):
    """The words of a structure and of all that it leads to, each behind what leads to it."""
    order, met = [], set()

    def visit(part):
        if part is not None and id(part) not in met:
            met.add(id(part))
            for item in reversed(part):
                visit(led_to(item))
            order.insert(0, part)

    visit(root)
    sizes = (sum(4 if isinstance(item, tuple) else 2 for item in part) for part in order)
    starts = dict(zip(map(id, order), itertools.accumulate(sizes, initial=0)))
    for part in order:
        for item in part:
            to = led_to(item)
            offset = item if to is None else starts[id(to)] - starts[id(part)]
            assert offset < 65536 or isinstance(item, tuple)
            yield from divmod(offset, 65536) if isinstance(item, tuple) else (offset,)


def line_of(name, root, length=""):
    runs = [(value, len(list(run))) for value, run in itertools.groupby(laid_out(root))]
    words = (f"{times}*{value}" if times > 4 else " ".join([str(value)] * times) for value, times in runs)
    return f"{name} | {' '.join(words)} | {length}".rstrip()


def table_of(*lookups, minor=0):
    return [1, minor, 0, 0, [len(lookups), *lookups]]


def lookup(kind, *subtables, flag=0, behind=()):
    return [kind, flag, len(subtables), *subtables, *behind]


def of_one(kind, *subtables):
    return table_of(lookup(kind, *subtables))


def cov(*glyphs):
    return [1, len(glyphs), *glyphs]


def ranges(*rows):
    return [2, len(rows) // 3, *rows]


COVER, TWICE, CLASSES, SET = cov(5), cov(5, 5), ranges(5, 5, 1), [1, 7]
RULE, CHAIN = [2, 1, 6, 0, 0], [1, 4, 2, 6, 1, 8, 1, 0, 0]
SAMPLES = {  # the type and a subtable of each format
    "single 1": (1, [1, cov(5), 3]),
    "single 2": (1, [2, cov(5), 1, 7]),
    "multiple": (2, [1, cov(5), 1, SET]),
    "alternate": (3, [1, cov(5), 1, SET]),
    "ligature": (4, [1, cov(5), 1, [1, [7, 2, 6]]]),
    "context 1": (5, [1, cov(5), 1, [1, RULE]]),
    "context 2": (5, [2, cov(5), CLASSES, 1, [1, RULE]]),
    "context 3": (5, [3, 1, 1, cov(5), 0, 0]),
    "chaining 1": (6, [1, cov(5), 1, [1, CHAIN]]),
    "chaining 2": (6, [2, cov(5), CLASSES, ranges(6, 6, 1), ranges(7, 7, 1), 1, [1, CHAIN]]),
    "chaining 3": (6, [3, 1, cov(4), 1, cov(5), 1, cov(6), 1, 0, 0]),
    "reverse": (8, [1, cov(5), 1, cov(4), 1, cov(6), 1, 7]),
}
COVERED = [name for name in SAMPLES if name not in ("context 3", "chaining 3")]
ARRAYS = {"single 2": 2, "multiple": 2, "alternate": 2, "ligature": 2, "context 1": 2, "chaining 1": 2, "reverse": 6}
RULED = {"context 1": 3, "context 2": 4, "chaining 1": 3, "chaining 2": 6}  # where the rule set is
FEW, MORE = (0, 64, 65), (0, 1, 64, 65)
EDGES = (  # a sample, what is counted, counts that no sample has, where it stands, and the words there for a count
    ("multiple", "glyphs", FEW, (3, slice(0, 2)), lambda n: [n] + [7] * n),
    ("ligature", "components", MORE, (3, 1, slice(1, 3)), lambda n: [n] + [6] * (n - 1)),
    ("context 1", "inputs", MORE, (3, 1, slice(0, 3)), lambda n: [n, 1] + [6] * (n - 1)),
    ("context 1", "records", FEW, (3, 1, slice(1, 5)), lambda n: [n, 6] + [0] * (2 * n)),
    ("context 3", "inputs", FEW, (slice(1, 4),), lambda n: [n, 1] + [COVER] * n),
    ("context 3", "records", FEW, (slice(2, 6),), lambda n: [n, COVER] + [0] * (2 * n)),
    ("chaining 1", "backtracks", FEW, (3, 1, slice(0, 2)), lambda n: [n] + [4] * n),
    ("chaining 1", "inputs", MORE, (3, 1, slice(2, 4)), lambda n: [n] + [6] * (n - 1)),
    ("chaining 1", "lookaheads", FEW, (3, 1, slice(4, 6)), lambda n: [n] + [8] * n),
    ("chaining 1", "records", FEW, (3, 1, slice(6, 9)), lambda n: [n] + [0] * (2 * n)),
    ("chaining 3", "backtracks", FEW, (slice(1, 3),), lambda n: [n] + [COVER] * n),
    ("chaining 3", "inputs", FEW, (slice(3, 5),), lambda n: [n] + [COVER] * n),
    ("chaining 3", "lookaheads", FEW, (slice(5, 7),), lambda n: [n] + [COVER] * n),
    ("chaining 3", "records", FEW, (slice(7, 10),), lambda n: [n] + [0] * (2 * n)),
    ("reverse", "backtracks", FEW, (slice(2, 4),), lambda n: [n] + [COVER] * n),
    ("reverse", "lookaheads", FEW, (slice(4, 6),), lambda n: [n] + [COVER] * n),
)


def sub(name):
    return copy.deepcopy(SAMPLES[name][1])


def sample(name):
    return lookup(SAMPLES[name][0], sub(name))


def moved(name):
    return [1, SAMPLES[name][0], (sub(name),)]


def changed(name, *changes):
    """A table of one sample, changed: paths of field numbers, each with what stands there now."""
    subtable = sub(name)
    for path, value in changes:
        part = subtable
        for step in path[:-1]:
            part = part[step]
        part[path[-1]] = value
    return of_one(SAMPLES[name][0], subtable)


def accepted():
    yield "empty", [1, 0, 0, 0, [0]]
    yield "minor version 1", table_of(minor=1)
    yield "scripts and features are not followed", [1, 0, 65535, 65535, [0]]
    yield "lookups of all types without subtables", table_of(*map(lookup, range(1, 9)))
    yield "all formats", table_of(*map(sample, SAMPLES))
    for name in SAMPLES:
        yield name, table_of(sample(name))
    for name in COVERED:
        if not name.endswith("2"):
            yield f"{name}, moved", of_one(7, moved(name))
    yield "a mark set number", table_of(lookup(1, sub("single 1"), flag=16, behind=[65535]))
    yield "every other flag bit", table_of(lookup(1, sub("single 1"), flag=65535 - 16))
    yield "single 2: an empty coverage", changed("single 2", ((1,), cov()), ((slice(2, 4),), [0]))
    yield "reverse: an empty coverage", changed("reverse", ((1,), ranges()), ((slice(6, 8),), [0]))
    yield "a coverage of ranges with as many entries", changed("single 2", ((1,), ranges(5, 6, 0, 9, 9, 2)), ((slice(2, 4),), [3, 7, 8, 9]))
    yield "a delta for all glyphs", changed("single 1", ((1,), ranges(0, 65535, 0)), ((2,), 65535))
    for name in ("alternate", "ligature", "context 1", "chaining 2"):
        yield f"{name}: an empty set", changed(name, ((-1,), [0]))
    for name in RULED:
        yield f"{name}: no rule set", changed(name, ((-1,), 0))
    yield "context 2: no class definition", changed("context 2", ((2,), 0))
    yield "chaining 2: no class definitions", changed("chaining 2", ((slice(2, 5),), [0, 0, 0]))
    yield "chaining 2: a row of classes", changed("chaining 2", ((3,), [1, 65535, 2, 1, 2]))
    yield "context 2: fewer rule sets than glyphs", changed("context 2", ((1,), ranges(0, 65535, 0)))
    yield "chaining 2: fewer rule sets than glyphs", changed("chaining 2", ((1,), cov(5, 6, 7)))
    yield "a record of the last lookup", table_of(lookup(5, [3, 1, 1, COVER, 65535, 1]), lookup(1))


def outer_faults():
    yield "major version 0", [0, 0, 0, 0, [0]]
    yield "major version 2 before a missing minor one", [2]
    yield "minor version 2 before missing offsets", [1, 2]
    yield "no lookup list", [1, 1, 0, 0, 0]
    yield "a lookup list past the end", [1, 0, 0, 0, 65535]
    yield "a lookup list a byte before the end", [1, 0, 0, 0, 9]
    yield "too few lookups before a NULL one", [1, 0, 0, 0, [3, 0, 0]]
    yield "a NULL lookup before the next one's type", table_of(0, lookup(9))
    yield "a second NULL lookup", table_of(sample("single 1"), 0)
    yield "a lookup's type before the next NULL one", table_of(lookup(9), 0)
    yield "a second lookup past the end", table_of(lookup(1), 60000)
    for kind in (0, 9):
        yield f"type {kind}", of_one(kind)
    yield "an unknown type before a missing flag", table_of([9])
    yield "too few subtables before a NULL one", table_of([1, 0, 2, 0])
    yield "no mark set number", table_of([1, 16, 0])
    yield "no mark set number before a NULL subtable", table_of([1, 16, 1, 0])
    yield "a NULL subtable before a mark set number", table_of(lookup(1, 0, flag=16, behind=[9]))
    yield "a third NULL subtable in a second lookup", table_of(lookup(1), lookup(1, sub("single 1"), sub("single 2"), 0))
    yield "a second subtable past the end", of_one(1, sub("single 1"), 60000)
    yield "type 1: format 0", of_one(1, [0])
    for kind, form in enumerate((3, 2, 2, 2, 4, 4, 2, 2), 1):
        yield f"type {kind}: format {form}", of_one(kind, [form])


def inner_faults():
    for name in COVERED:
        yield f"{name}: a NULL coverage", changed(name, ((1,), 0))
        yield f"{name}: a glyph twice", changed(name, ((1,), TWICE))
    for name, what, at in (("context 3", "input", 3), ("chaining 3", "backtrack", 2), ("chaining 3", "input", 4),
                           ("chaining 3", "lookahead", 6), ("reverse", "backtrack", 3), ("reverse", "lookahead", 5)):
        yield f"{name}: a NULL {what} coverage", changed(name, ((at,), 0))
        yield f"{name}: a start index of the {what} coverage", changed(name, ((at,), ranges(5, 5, 1)))
    for name, what, at in (("context 2", "classes", 2), ("chaining 2", "backtrack classes", 2),
                           ("chaining 2", "input classes", 3), ("chaining 2", "lookahead classes", 4)):
        yield f"{name}: {what} that do not rise", changed(name, ((at,), ranges(5, 6, 1, 6, 7, 2)))
    for name, at in ARRAYS.items():
        yield f"{name}: fewer entries than glyphs", changed(name, ((1,), cov(5, 6)))
        yield f"{name}: more entries than glyphs", changed(name, ((at,), 2), ((slice(at + 2, at + 2),), [sub(name)[-1]]))
    yield "fewer glyphs than the ranges cover", changed("single 2", ((1,), ranges(5, 6, 0, 9, 9, 2)), ((slice(2, 4),), [2, 7, 8]))
    yield "the most glyphs for all glyphs", of_one(1, [2, 6, 65535, *ranges(0, 65535, 0)] + [7] * 65530)
    yield "a coverage of an unknown format", changed("multiple", ((1,), [3]))
    yield "a coverage past the end", changed("multiple", ((1,), 60000))
    yield "a coverage's ranges: extent before order", changed("single 1", ((1,), [2, 2, 9, 5, 0, 3]))
    yield "a coverage's range that ends before it begins", changed("single 1", ((1,), ranges(6, 5, 0)))
    yield "classes of an unknown format", changed("context 2", ((2,), [3, 0]))
    yield "classes that end before they begin", changed("chaining 2", ((4,), ranges(6, 5, 1)))
    yield "a single without a delta", of_one(1, [1, 0])
    yield "a single with too few glyphs", of_one(1, [2, 0, 2, 7])
    for name in ("multiple", "alternate", "ligature"):
        yield f"{name}: a NULL set", changed(name, ((3,), 0))
    yield "a ligature with too few components", changed("ligature", ((3, 1), [7, 3, 6]))
    yield "a NULL ligature", changed("ligature", ((3, 1), 0))
    for name, at in RULED.items():
        yield f"{name}: a NULL rule", changed(name, ((at, 1), 0))
        yield f"{name}: a missing lookup", changed(name, ((at, 1, -1), 1))
    yield "context 3: a missing lookup", changed("context 3", ((-1,), 65535))
    yield "chaining 3: a missing lookup in the second record", changed("chaining 3", ((slice(7, 10),), [2, 9, 0, 9, 1]))


def edges():
    for name, what, counts, path, words in EDGES:
        for count in counts:
            yield f"{name}: {count} {what}", changed(name, (path, words(count)))
    yield "alternate: 65 glyphs", changed("alternate", ((3,), [65] + [7] * 65))


def extensions():
    single, other = moved("single 1"), moved("multiple")
    for kind in (0, 7, 9):
        yield f"extension of type {kind}", of_one(7, [1, kind, (sub("single 1"),)])
    yield "an extension of an unknown type before a missing offset", of_one(7, [1, 7])
    yield "half an offset of an extension", of_one(7, [1, 1, 0])
    yield "an extension of NULL", of_one(7, [1, 1, 0, 0])
    yield "the farthest extension", of_one(7, [1, 1, 65535, 65535])
    yield "an extension past 65535", of_one(7, [1, 1, (sub("single 1"),)] + [0] * 32768)
    yield "a fault in what is moved", of_one(7, single, [1, 1, ([3],)])
    yield "a missing lookup in what is moved", of_one(7, [1, 6, ([3, 0, 1, 0, 0, 1, 0, 1],)])
    yield "moved formats of one type", of_one(7, single, moved("single 2"))
    yield "moved types of two lookups", table_of(lookup(7, single), lookup(7, moved("reverse")))
    yield "another type than the first subtable's", of_one(7, single, moved("single 2"), other)
    yield "another type before a missing offset", of_one(7, single, [1, 2])
    yield "another type before a NULL offset", of_one(7, single, [1, 2, 0, 0])
    yield "a fault of the first subtable before another type", of_one(7, [1, 1, 0, 0], other)
    yield "an extension twice", of_one(7, single, single)
    yield "an extension in a lookup of another type", table_of(lookup(7, single), lookup(7, other, single))
    yield "a subtable that is moved and is not", table_of(lookup(1, single[2][0]), lookup(7, single))


def two_faults():
    yield "an array's extent before a NULL coverage", of_one(2, [1, 0, 2, 0])
    yield "a coverage before a NULL set", changed("multiple", ((1,), TWICE), ((3,), 0))
    yield "a coverage before fewer entries", changed("single 2", ((1,), cov(5, 6, 6)))
    yield "fewer entries before a NULL set", changed("ligature", ((1,), cov(5, 6)), ((3,), 0))
    yield "a coverage that lies behind the sets", of_one(2, [1, 14, 1, 8, 0, 0, 0, 1, 2, 5, 5])
    yield "a deep fault before the next NULL", changed("ligature", ((slice(2, 4),), [2, [1, [7, 0]], 0]))
    yield "a NULL before the next deep fault", changed("ligature", ((slice(2, 4),), [2, 0, [1, [7, 0]]]))
    yield "a lookup's deep fault before the next one's type", table_of(lookup(4, [1, COVER, 1, [1, [7, 65]]]), lookup(0))
    yield "a subtable's deep fault before the next NULL", of_one(2, [1, COVER, 1, [0]], 0)
    yield "a coverage before classes", changed("context 2", ((1,), 0), ((2,), [3]))
    yield "classes before rule sets", changed("context 2", ((2,), ranges(6, 5, 1)), ((4,), 60000))
    yield "backtrack classes before input classes", changed("chaining 2", ((2,), [3]), ((3,), [0]))
    yield "input classes before lookahead classes", changed("chaining 2", ((3,), [3]), ((4,), [0]))
    yield "lookahead classes before rule sets", changed("chaining 2", ((4,), [3]), ((6, 1), 0))
    yield "an input count before a record count", changed("context 1", ((3, 1), [0, 65]))
    yield "a record count before missing inputs", changed("context 1", ((3, 1), [3, 65]))
    yield "more inputs than there are bytes", changed("context 1", ((3, 1), [9, 1, 6, 0, 9]))
    yield "half a record before a missing lookup", changed("context 1", ((3, 1), [1, 2, 0, 9, 0]))
    yield "a backtrack count before an input count", changed("chaining 1", ((3, 1), [65, 0]))
    yield "an input count before a lookahead count", changed("chaining 1", ((3, 1), [0, 0, 65]))
    yield "a lookahead count before a record count", changed("chaining 1", ((3, 1), [0, 1, 65, 65]))
    yield "context 3: counts before missing coverages", of_one(5, [3, 64, 65])
    yield "context 3: a missing lookup before a NULL coverage", changed("context 3", ((3,), 0), ((-1,), 1))
    yield "chaining 3: a count before a coverage", of_one(6, [3, 1, TWICE, 65])
    yield "chaining 3: missing inputs before a NULL coverage", of_one(6, [3, 1, 0, 2, 0])
    yield "chaining 3: half a record before a NULL coverage", of_one(6, [3, 1, 0, 1, 0, 0, 1, 0])
    yield "chaining 3: a missing lookup before a NULL coverage", changed("chaining 3", ((2,), 0), ((-1,), 1))
    yield "chaining 3: backtracks before inputs", changed("chaining 3", ((2,), TWICE), ((4,), 0))
    yield "reverse: a count before a NULL coverage", of_one(8, [1, 0, 0, 65])
    yield "reverse: missing glyphs before a NULL coverage", of_one(8, [1, 0, 0, 0, 1])
    yield "reverse: fewer glyphs before a NULL backtrack", changed("reverse", ((1,), cov(5, 6)), ((3,), 0))
    yield "reverse: backtracks before lookaheads", changed("reverse", ((3,), [3]), ((5,), [0]))


def shared():
    single, ligatures, pair, late = sub("single 1"), sample("ligature"), cov(5, 6), cov(4, 9)
    rules, no_rule, chains, empty = [1, [1, 0]], [1, [0, 1]], [1, [0, 1, 0, 0]], [0]
    yield "a subtable three times", table_of(lookup(1, single, single), lookup(1, single))
    yield "a lookup twice", table_of(ligatures, ligatures)
    yield "a fault that is met twice", table_of(lookup(2), *[lookup(1, [1, TWICE, 3])] * 2)
    yield "a rule set twice", of_one(5, [1, pair, 2, rules, rules])
    yield "one class definition for all", of_one(6, [2, pair, CLASSES, CLASSES, CLASSES, 2, 0, chains])
    yield "a coverage for enough and for too few", of_one(1, [2, pair, 2, 7, 8], [2, pair, 1, 7])
    for name, kind, other, of in (("an alternate's empty set for a multiple", 3, 2, empty),
                                  ("a multiple's set for ligatures", 2, 4, SET), ("ligatures for rules", 4, 5, no_rule),
                                  ("rules for ligatures", 5, 4, rules), ("rules for chains", 5, 6, rules),
                                  ("chains for rules", 6, 5, chains)):
        yield name, table_of(lookup(kind, [1, COVER, 1, of]), lookup(other, [1, COVER, 1, of]))
    yield "an alternate's subtable for a multiple", table_of(lookup(3, both := [1, COVER, 1, empty]), lookup(2, both))
    yield "a single's subtable for a multiple", table_of(lookup(1, both := [1, COVER, 0]), lookup(2, both))
    yield "classes for a coverage", table_of(lookup(5, [2, COVER, CLASSES, 0]), lookup(1, [1, CLASSES, 3]))
    yield "a coverage for classes", of_one(5, [2, late, late, 0])
    yield "a lookup list in the header", [1, 0, 0, 0, 2]
    yield "a lookup list on its own offset", [1, 0, 0, 0, 8]
    yield "a lookup on its own offset", [1, 0, 0, 0, [1, 2, 0, 0]]
    yield "a subtable on its own offset", table_of([1, 0, 1, 6])
    yield "a coverage in its subtable", of_one(1, [1, 4, 1, 1, 5])
    yield "structures at odd bytes", [1, 0, 0, 0, 11, 0, 256, 1024, 256, 0, 256, 2048, 256, 1536, 768, 256, 256, 1280]


def truncated():
    for name, whole in (("marked", table_of(lookup(4, flag=16, behind=[9]))), ("moved", of_one(7, moved("single 1"))),
                        ("chain", table_of(sample("chaining 1")))):
        for length in range(2 * len(list(laid_out(whole))) + 1):
            yield f"{name}, cut to {length}", whole, length


def everything():
    """All types and formats in one table, with a mark set, cut to every length."""
    lookups = [sample(name) for name in SAMPLES]
    yield "everything", table_of(*lookups, lookup(7, moved("multiple"), moved("multiple"), flag=16, behind=[3])), "each"


def print_cases():
    for case in itertools.chain(accepted(), outer_faults(), inner_faults(), edges(), extensions(), two_faults(),
                                shared(), truncated(), everything()):
        print(line_of(*case))
    print("the longest table | 1 0 0 0 10 8388603*0 | 16777215")
    print("a table that is too long before its version | 8388608*0 |")


if __name__ == "__main__":
    if sys.argv[1:] == ["gsub"]:
        print_cases()
    elif len(sys.argv) == 3 and sys.argv[1] == "expect" and sys.argv[2] in EXPECT:
        for case_line in sys.stdin:
            print(EXPECT[sys.argv[2]](case_line.rstrip("\n")))
    else:
        sys.exit(__doc__)
