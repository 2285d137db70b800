#!/usr/bin/env python3
"""A second mitqorad: shapes texts and gives out their lines, by the rules in docs/.

It is written from docs/ and shares nothing with the crates; it reads tables with the second
checker, table_cases.py. It says what the program prints where the words of the call
are right.

    python3 tools/paragraph.py COMMAND ..              what mitqorad COMMAND .. prints
    python3 tools/paragraph.py cases FOLDER < stdin    what the program of cases prints, with FOLDER for its data
"""
import os
import sys

from table_cases import (Fault, Gsub, Structure, class_definition, class_of, cmap, coverage, entry_of, gdef, hmtx,
                         index_of, told_of)

MOST, MOST_HITS, MOST_ENTRIES, MOST_SLIPS, DEEPEST, LIST = 65535, 1_000_000, 64, 65535, 6, 64
BASES, LIGATURES, MARKS, MARK_SET = 2, 4, 8, 16
MEANING = {
    5: "the plan has more than 64 entries, does not rise, names a missing lookup, or has an alternate value of 0",
    6: "a text or room over 65535, or a hit limit over 1000000",
    7: "hit limit spent",
    8: "the glyphs do not fit the room",
    9: "no such line: it is empty or ends past the text",
    10: "not a slip of this paragraph",
    11: "slips are owed",
    13: "more than 32 stand-in pairs",
}
FIELDS = (
    "not a character from 0 to 1114111 and a tab, or a 257th row",
    "not a glyph from 0 to 65535, above the last row's, and a tab",
    "not a class from 0 to 4 and a tab",
    "not a mark class from 0 to 65535 and a tab",
    "not an advance from 0 to 65535 and a line feed",
)
FAULTS = {
    1: "the structure ends past its table",
    2: "unknown version, format or type, or an offset of 0 where a structure must be",
    3: "entries do not rise, a range ends before it begins, or a wrong start index",
    4: "a count, length or glyph number beyond its bounds",
    5: "no such lookup",
}


class Refused(Exception):
    def __init__(self, number, where="", meaning=None):
        super().__init__(f"refused {number}{where}: {meaning or MEANING[number]}")


class Faulty(Exception):
    """A fault of a table, as it is told."""


# Fonts

class LabelFont:
    def __init__(self, text):
        self.rows, at, before = [], 0, -1
        while at < len(text):
            row, line = [], len(self.rows) + 1
            for field, most in enumerate((1_114_111, 65535, 4, 65535, 65535), 1):
                start = at
                while at < len(text) and text[at:at + 1].isdigit():
                    at += 1
                digits = text[start:at]
                ends = text[at:at + 1] == (b"\n" if field == 5 else b"\t")
                low = before + 1 if field == 2 else 0
                if line == 257 or not 1 <= len(digits) <= 7 or not ends or not low <= int(digits) <= most:
                    raise Refused(12, f" line {line} field {field}", FIELDS[field - 1])
                row.append(int(digits))
                at += 1
            before = row[1]
            self.rows.append(row)

    def row(self, glyph):
        return next((row for row in self.rows if row[1] == glyph), [0] * 5)

    def glyph(self, character):
        return next((row[1] for row in self.rows if row[0] == character != 0), 0)

    def class_of(self, glyph):
        return self.row(glyph)[2]

    def mark_class(self, glyph):
        return self.row(glyph)[3]

    def in_mark_set(self, number, glyph):
        return False

    def advance(self, glyph):
        return self.row(glyph)[4]


def checked(tag, read, *table):
    try:
        return read(*table)
    except Fault as fault:
        raise Faulty(f"{told_of(fault, tag)}: {FAULTS[fault.number]}") from None


class TableFont:
    def __init__(self, cmap_table, gdef_table, hmtx_table, metrics):
        self.groups = checked("cmap", cmap, cmap_table)
        self.classes, self.mark_classes, self.sets = checked("GDEF", gdef, gdef_table)
        self.advances = checked("hmtx", hmtx, hmtx_table, metrics)

    def glyph(self, character):
        return index_of(self.groups, character) or 0

    def class_of(self, glyph):
        value = class_of(self.classes, glyph)
        return value if value <= 4 else 0

    def mark_class(self, glyph):
        return class_of(self.mark_classes, glyph)

    def in_mark_set(self, number, glyph):
        return number < len(self.sets) and entry_of(self.sets[number], glyph) is not None

    def advance(self, glyph):
        return self.advances[min(glyph, len(self.advances) - 1)]


class StandIns:
    """A font with characters that stand in for those that it lacks."""

    def __init__(self, font, pairs):
        if len(pairs) > 32:
            raise Refused(13)
        self.font, self.pairs = font, pairs

    def glyph(self, character):
        found = self.font.glyph(character)
        if found:
            return found
        return next((self.font.glyph(to) for of, to in self.pairs if of == character), 0)

    def __getattr__(self, question):
        return getattr(self.font, question)


def width(font, glyphs):
    if len(glyphs) > MOST:
        raise Refused(6, meaning="more than 65535 characters")
    return sum(map(font.advance, glyphs))


# Lookups

class Rule:
    """Tests of glyphs around a position, and what to do there: put glyphs, join into one, or run records."""

    def __init__(self, back=(), further=(), ahead=(), put=None, join=None, records=()):
        self.back, self.further, self.ahead = back, further, ahead
        self.put, self.join, self.records = put, join, records


def equal(glyphs):
    return [lambda glyph, wanted=wanted: glyph == wanted for wanted in glyphs]


class Lookup:
    def __init__(self, table, start):
        self.table = table
        here = Structure(table, start)
        self.kind, self.flag = here.array(2)
        self.subtables = [start + offset for offset in here.array(here.field())]
        self.mark_set = here.field() if self.flag & MARK_SET else 0
        if self.kind == 7:
            moved = []
            for subtable in self.subtables:
                here = Structure(table, subtable)
                _, self.kind = here.array(2)
                moved.append(subtable + here.field(4))
            self.subtables = moved

    def passes_over(self, font, glyph):
        kind = font.class_of(glyph)
        if kind in (1, 2):
            return bool(self.flag & (BASES if kind == 1 else LIGATURES))
        if kind != 3:
            return False
        if self.flag & MARKS:
            return True
        if self.flag & MARK_SET:
            return not font.in_mark_set(self.mark_set, glyph)
        wanted = self.flag >> 8
        return wanted != 0 and font.mark_class(glyph) != wanted

    def index(self, here, offset, glyph):
        return index_of(coverage(self.table, here.start + offset), glyph)

    def covers(self, here, offsets):
        covered = [coverage(self.table, here.start + offset) for offset in offsets]
        return [lambda glyph, entries=entries: entry_of(entries, glyph) is not None for entries in covered]

    def classes(self, here, offset):
        entries = class_definition(self.table, here.start + offset) if offset else []
        return lambda glyph: class_of(entries, glyph)

    def parts(self, here, offset):
        """The structures that a set lists; none where there is no set."""
        if not offset:
            return []
        inner = Structure(self.table, here.start + offset)
        return [Structure(self.table, inner.start + to) for to in inner.array(inner.field())]

    def rules(self, glyph, alternate):
        """The rules for a glyph, subtable by subtable."""
        for start in self.subtables:
            here = Structure(self.table, start)
            form = here.field()
            if self.kind in (5, 6) and form == 3:
                yield from self.of_coverages(here, glyph)
                continue
            index = self.index(here, here.field(), glyph)
            if index is None:
                continue
            if self.kind == 1:
                yield Rule(put=[(glyph + here.field()) % 65536 if form == 1 else here.array(here.field())[index]])
            elif self.kind in (2, 3):
                inner = Structure(self.table, start + here.array(here.field())[index])
                glyphs = inner.array(inner.field())
                if self.kind == 2:
                    yield Rule(put=glyphs)
                elif alternate <= len(glyphs):
                    yield Rule(put=[glyphs[alternate - 1]])
            elif self.kind == 4:
                for ligature in self.parts(here, here.array(here.field())[index]):
                    joined = ligature.field()
                    yield Rule(further=equal(ligature.array(ligature.field() - 1)), join=joined)
            elif self.kind == 8:
                back, ahead = (here.array(here.field()) for _ in range(2))
                glyphs = here.array(here.field())
                yield Rule(self.covers(here, back), (), self.covers(here, ahead), put=[glyphs[index]])
            else:
                yield from self.of_sets(here, form, index, glyph)

    def of_sets(self, here, form, index, glyph):
        """Contexts of glyphs, and of their classes."""
        tests = [equal] * 3
        if form == 2:
            definitions = [self.classes(here, here.field()) for _ in range(1 if self.kind == 5 else 3)]
            definitions *= 3 if self.kind == 5 else 1
            tests = [lambda values, kind=kind: [lambda glyph, v=v: kind(glyph) == v for v in values]
                     for kind in definitions]
            index = definitions[1](glyph)
        sets = here.array(here.field())
        if index >= len(sets):
            return
        for rule in self.parts(here, sets[index]):
            if self.kind == 5:
                inputs, records = rule.array(2)
                entries = [], rule.array(inputs - 1), []
            else:
                back = rule.array(rule.field())
                entries = back, rule.array(rule.field() - 1), rule.array(rule.field())
                records = rule.field()
            yield Rule(*(test(values) for test, values in zip(tests, entries)), records=self.records(rule, records))

    def of_coverages(self, here, glyph):
        if self.kind == 5:
            inputs, records = here.array(2)
            offsets = [], here.array(inputs), []
        else:
            offsets = [here.array(here.field()) for _ in range(3)]
            records = here.field()
        back, (first, *further), ahead = (self.covers(here, each) for each in offsets)
        if first(glyph):
            yield Rule(back, further, ahead, records=self.records(here, records))

    def records(self, here, count):
        return [here.array(2) for _ in range(count)]


def lookups_of(table):
    checked("GSUB", lambda: walk(table))
    header = Structure(table, 0)
    here = Structure(table, header.array(5)[4])
    return [Lookup(table, here.start + offset) for offset in here.array(here.field())]


def walk(table):
    gsub = Gsub(table)
    try:
        gsub.walk()
    except Fault as fault:
        raise Faulty(f"{told_of(fault, 'GSUB', gsub.lookup, gsub.subtable)}: {FAULTS[fault.number]}") from None
    return gsub


# Shaping

class OpenMatch:
    def __init__(self, positions, end):
        self.positions, self.end = positions[:LIST], end

    def changed(self, at, count):
        """The glyph at a position gave way to some."""
        moved = []
        for position in self.positions:
            if position == at:
                moved += range(at, at + count)
            else:
                moved.append(position if position < at else position + count - 1)
        self.positions = moved[:LIST]
        if self.end > at:
            self.end += count - 1


class Inputs:
    """All that shaping reads but the text."""

    def __init__(self, font, lookups, plan, limit):
        self.font, self.lookups, self.plan, self.limit = font, lookups, plan, limit

    def shape(self, text, room):
        """Glyphs with their clusters, marks and hits."""
        if max(len(text), room) > MOST or self.limit > MOST_HITS:
            raise Refused(6)
        numbers = [number for number, _ in self.plan]
        rises = all(a < b for a, b in zip(numbers, numbers[1:]))
        known = all(number < len(self.lookups) and 1 <= value <= 65535 for number, value in self.plan)
        if len(self.plan) > MOST_ENTRIES or not rises or not known:
            raise Refused(5)
        if len(text) > room:
            raise Refused(8)
        shaping = Shaping(self, text, room)
        for number, value in self.plan:
            shaping.go_through(self.lookups[number], value)
        marks = [0 if place not in shaping.tied else 1 if any(c == place for _, c in shaping.run) else 2
                 for place in range(len(text))]
        return [tuple(record) for record in shaping.run], marks, shaping.hits


class Shaping:
    def __init__(self, inputs, text, room):
        self.inputs, self.room = inputs, room
        self.run = [[inputs.font.glyph(character), place] for place, character in enumerate(text)]
        self.tied, self.hits, self.open = set(), 0, []

    def go_through(self, lookup, value):
        if lookup.kind == 8:
            for position in reversed(range(len(self.run))):
                self.attempt(lookup, position, value, 0)
            return
        position = 0
        while position < len(self.run):
            end = self.attempt(lookup, position, value, 0)
            position = position + 1 if end is None else end

    def met(self, lookup, position, step, tests):
        """Where tests are met one after the other from a position on, or nothing."""
        places = []
        for test in tests:
            position += step
            while 0 <= position < len(self.run) and lookup.passes_over(self.inputs.font, self.run[position][0]):
                position += step
            if not 0 <= position < len(self.run) or not test(self.run[position][0]):
                return None
            places.append(position)
        return places

    def attempt(self, lookup, position, value, depth):
        """The end of the match, or nothing where there is none."""
        glyph = self.run[position][0]
        if depth == DEEPEST or lookup.passes_over(self.inputs.font, glyph):
            return None
        for rule in lookup.rules(glyph, value):
            further = self.met(lookup, position, 1, rule.further)
            if further is None:
                continue
            ahead = self.met(lookup, ([position] + further)[-1], 1, rule.ahead)
            back = self.met(lookup, position, -1, rule.back)
            if ahead is None or back is None:
                continue
            return self.hit(rule, [position] + further, back + ahead, value, depth)
        return None

    def hit(self, rule, inputs, context, value, depth):
        if self.hits == self.inputs.limit:
            raise Refused(7)
        grown = len(rule.put) - 1 if rule.put else 0
        if len(self.run) + grown > self.room:
            raise Refused(8)
        self.hits += 1
        places = [self.run[at][1] for at in inputs + context]
        self.tied |= set(range(min(places) + 1, max(places) + 1))
        match = OpenMatch(inputs, inputs[-1] + 1)
        self.open.append(match)
        if rule.put:
            self.change(inputs[0], rule.put)
        elif rule.join is not None:
            self.join(rule.join, inputs)
        for index, number in rule.records:
            named = self.inputs.lookups[number]
            if index < len(match.positions) and named.kind != 8:
                self.attempt(named, match.positions[index], value, depth + 1)
        self.open.pop()
        return match.end

    def change(self, at, glyphs):
        self.run[at:at + 1] = [[glyph, self.run[at][1]] for glyph in glyphs]
        for match in self.open:
            match.changed(at, len(glyphs))

    def join(self, ligature, inputs):
        first, last = self.run[inputs[0]][1], self.run[inputs[-1]][1]
        self.change(inputs[0], [ligature])
        for at in reversed(inputs[1:]):
            self.change(at, [])
        for record in self.run:
            if first <= record[1] <= last:
                record[1] = first


# Paragraphs

class Slip:
    def __init__(self, start, end):
        self.start, self.end = start, end


class Paragraph:
    """Blank, or shaped with what it keeps. The slips that are owed are in hand; all are its own."""

    def __init__(self):
        self.shaped, self.owed = False, 0

    def shape(self, inputs, text, room):
        self.run, self.marks, self.hits = inputs.shape(text, room)
        self.limit, self.length, self.shaped = inputs.limit, len(text), True
        return self.run, self.marks, self.hits

    def free(self, place):
        return place == self.length or self.marks[place] == 0

    def line(self, start, end):
        """First record and count of a kept line, or a slip."""
        if start >= end or end > self.length:
            raise Refused(9)
        if self.free(start) and self.free(end):
            inside = [number for number, (_, place) in enumerate(self.run) if start <= place < end]
            return (inside[0] if inside else sum(place < start for _, place in self.run)), len(inside)
        if self.owed == MOST_SLIPS:
            raise Refused(11)
        self.owed += 1
        return Slip(start, end)

    def kept(self, start, end, first, count):
        return [(glyph, place - start) for glyph, place in self.run[first:first + count]], self.marks[start:end]

    def pay(self, slip, inputs, text, room):
        alone = Inputs(inputs.font, inputs.lookups, inputs.plan, self.limit)
        paid = alone.shape(text[slip.start:slip.end], room)
        self.owed -= 1
        return paid

    def waive(self, slip):
        self.owed -= 1

    def clear(self):
        if self.owed:
            raise Refused(11)
        self.shaped = False


# What the program prints

def listed(title, items):
    return " ".join([title, *map(str, items)])


def records(run):
    return listed("glyphs:", (f"{glyph}:{place}" for glyph, place in run))


def glyphs_of(run):
    return [glyph for glyph, _ in run]


def shape_command(call):
    run, marks, hits = call.inputs().shape(call.text(), call.room)
    yield records(run)
    yield listed("marks:", marks)
    yield f"hits: {hits}"
    yield f"width: {width(call.font, glyphs_of(run))}"


def lines_command(call):
    inputs, text = call.inputs(), call.text()
    paragraph, kept, paid = Paragraph(), 0, 0
    whole, _, hits = paragraph.shape(inputs, text, call.room)
    ends = call.breaks + [len(text)] if text or call.breaks else []
    for start, end in zip([0] + call.breaks, ends):
        answer = paragraph.line(start, end)
        if isinstance(answer, Slip):
            word, (run, marks, _) = "paid", paragraph.pay(answer, inputs, text, call.room)
            paid += 1
        else:
            word, (run, marks) = "kept", paragraph.kept(start, end, *answer)
            kept += 1
        yield (f"{start}-{end} {word} {records(run)} {listed('marks:', marks)}"
               f" width: {width(call.font, glyphs_of(run))}")
    yield (f"lines: {kept + paid}, kept: {kept}, paid: {paid}, hits: {hits},"
           f" width: {width(call.font, glyphs_of(whole))}")


def calls_command(call):
    inputs, text, script = call.inputs(), call.text(), call.script()
    paragraph, slips, given = Paragraph(), {}, 0
    for name, *numbers in script:
        if (name == "shape") == paragraph.shaped:
            yield f"unknown: {name} on a {'shaped' if paragraph.shaped else 'blank'} paragraph"
            continue
        if name in ("pay", "waive") and numbers[0] not in slips:
            yield f"unknown: slip {numbers[0]} is not in hand"
            continue
        try:
            if name == "shape":
                run, marks, hits = paragraph.shape(inputs, text, call.room)
                yield f"shaped {records(run)} {listed('marks:', marks)} hits: {hits}"
            elif name == "line":
                answer = paragraph.line(*numbers)
                if isinstance(answer, Slip):
                    given += 1
                    slips[given] = answer
                    yield f"slip {given}"
                else:
                    yield "kept first {} count {}".format(*answer)
            elif name == "pay":
                run, marks, hits = paragraph.pay(slips[numbers[0]], inputs, text, call.room)
                del slips[numbers[0]]
                yield f"paid {records(run)} {listed('marks:', marks)} hits: {hits}"
            elif name == "waive":
                paragraph.waive(slips.pop(numbers[0]))
                yield "waived"
            else:
                paragraph.clear()
                yield "cleared"
        except Refused as refusal:
            yield str(refusal)
    if slips:
        yield f"end: waived {len(slips)}"


def glyphs_command(call):
    glyphs = [call.font.glyph(character) for character in call.text()]
    total = width(call.font, glyphs)
    yield listed("glyphs:", glyphs)
    yield f"width: {total}"


def check_command(call):
    found = walk(call.file("--gsub"))
    if "--gdef" in call.options:
        checked("GDEF", gdef, call.file("--gdef"))
    yield "accepted"
    yield f"lookups: {found.lookups}"
    yield f"subtables: {found.subtables}"


COMMANDS = {"shape": shape_command, "lines": lines_command, "calls": calls_command, "glyphs": glyphs_command,
            "check": check_command}


class Call:
    """The words of a call, which are taken to be right."""

    def __init__(self, words, folder=""):
        self.name, self.options, self.names, self.folder, self.given = words[0], {}, [], folder, None
        rest = iter(words[1:])
        for word in rest:
            if word == "<":
                self.given = next(rest)
            elif word == "--codes":
                self.options[word] = ""
            elif word.startswith("--"):
                self.options[word] = next(rest)
            else:
                self.names.append(word)
        self.room = int(self.options.get("--room", MOST))
        self.breaks = [int(word) for word in self.options.get("--breaks", "").split(",") if word]
        if self.name != "check":
            self.font = self.read_font()

    def read(self, name):
        if name == "-":
            if self.given is None:
                return sys.stdin.buffer.read()
            name = self.given
        with open(os.path.join(self.folder, name), "rb") as file:
            return file.read()

    def file(self, option):
        return self.read(self.options[option])

    def read_font(self):
        if "--label" in self.options:
            font = LabelFont(self.file("--label"))
        else:
            metrics = int(self.options["--metrics"])
            gdef_table = self.file("--gdef") if "--gdef" in self.options else b""
            font = TableFont(self.file("--cmap"), gdef_table, self.file("--hmtx"), metrics)
        if "--stand-in" not in self.options:
            return font
        lines = self.file("--stand-in").decode().splitlines()
        return StandIns(font, [tuple(map(int, line.split("\t"))) for line in lines])

    def plan(self):
        entries = (word.partition("=") for word in self.options["--plan"].split(",") if word)
        return [(int(number), int(value) if sign else 1) for number, sign, value in entries]

    def inputs(self):
        limit = int(self.options.get("--limit", MOST_HITS))
        return Inputs(self.font, lookups_of(self.file("--gsub")), self.plan(), limit)

    def text(self):
        text = self.read(self.names[0]).decode()
        if "--codes" in self.options:
            return [int(line) for line in text.split("\n") if line]
        return [ord(character) for character in text.removesuffix("\n")]

    def script(self):
        words = (line.split() for line in self.read(self.names[1]).decode().split("\n") if line)
        return [(name, *map(int, numbers)) for name, *numbers in words]


def said_of(words, folder=""):
    """What goes to standard output, what goes to standard error, and the status."""
    try:
        call = Call(words, folder)
        return "".join(f"{line}\n" for line in list(COMMANDS[call.name](call))), "", 0
    except (Refused, Faulty) as error:
        return "", f"{error}\n", 1


def words_of(line):
    return ["" if word == "''" else word for word in line.split()]


def case(line, folder):
    output, error, status = said_of(words_of(line), folder)
    return f"$ {line}\n{output}{''.join(f'error: {each}' for each in error.splitlines(True))}status: {status}"


if __name__ == "__main__":
    if len(sys.argv) == 3 and sys.argv[1] == "cases":
        for case_line in sys.stdin:
            print(case(case_line.rstrip("\n"), sys.argv[2]))
    elif len(sys.argv) > 1 and sys.argv[1] in COMMANDS:
        printed, told, ended = said_of(sys.argv[1:])
        sys.stdout.write(printed)
        sys.stderr.write(told)
        sys.exit(ended)
    else:
        sys.exit(__doc__)
