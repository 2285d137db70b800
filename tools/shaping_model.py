"""A second shaping, written from docs/DEFINITIONS.md alone, over tables that are built here; tools/harfbuzz_cases.py uses it.

It can go HarfBuzz's way at one rule or several (WAYS), so that it shows which rule makes an answer differ. What it
does on a way follows what HarfBuzz 6.0.0 does there; the rest is our definitions. No crate depends on it.
"""
import collections

WAYS = (
    "nesting depth",
    "passed-over record",
    "positions after a change",
    "end behind the match",
    "ligature components",
    "mark classes of 8 bits",
    "alternate values of 8 bits",
    "operations counted",
    "more than 64 positions",
    "class cache",
    "guessed classes",
)


# Tables. A subtable gives its structure (a list of words; a list inside is an offset to that structure) and, of a glyph,
# its candidates: backtrack, further input and lookahead, as tests of what stands in the run, and the action.

Candidate = collections.namedtuple("Candidate", "back ahead look action")


def cov(glyphs, ranged=False):
    """A coverage, of glyphs or of ranges."""
    glyphs = sorted(glyphs)
    if not ranged:
        return [1, len(glyphs), *glyphs]
    rows = stretches(glyphs, lambda glyph: 0)
    return [2, len(rows)] + [word for first, last, _ in rows for word in (first, last, glyphs.index(first))]


def stretches(glyphs, value):
    """First, last and value of each stretch of neighbours with one value."""
    rows = []
    for glyph in sorted(glyphs):
        if rows and rows[-1][1] == glyph - 1 and rows[-1][2] == value(glyph):
            rows[-1][1] = glyph
        else:
            rows.append([glyph, glyph, value(glyph)])
    return rows


def classes(of, ranged=True):
    """A class definition, of ranges or of a row of classes."""
    if ranged:
        rows = stretches(of, of.get)
        return [2, len(rows)] + [word for row in rows for word in row]
    first = min(of)
    return [1, first, max(of) - first + 1] + [of.get(glyph, 0) for glyph in range(first, max(of) + 1)]


def equal(glyph):
    return lambda each: each.glyph == glyph


def of_class(of, value):
    return lambda each: of.get(each.glyph, 0) == value


def of_cached_class(of, value):
    def test(each):
        if each.cached is None:
            each.cached = of.get(each.glyph, 0)
        return each.cached == value
    return test


def covered(glyphs):
    return lambda each: each.glyph in glyphs


class Single:
    """Type 1: a glyph for each. Format 1 where they all differ by a delta."""
    kind = 1

    def __init__(self, glyphs, ranged=False, delta=None):
        self.glyphs, self.ranged, self.delta = glyphs, ranged, delta

    def structure(self):
        covering = cov(self.glyphs, self.ranged)
        if self.delta is not None:
            return [1, covering, self.delta % 65536]
        return [2, covering, len(self.glyphs), *(self.glyphs[glyph] for glyph in sorted(self.glyphs))]

    def candidates(self, glyph, alternate):
        if glyph in self.glyphs:
            yield Candidate([], [], [], ("put", [self.glyphs[glyph]]))


def shifted(glyphs, delta, ranged=False):
    return Single({glyph: (glyph + delta) % 65536 for glyph in glyphs}, ranged, delta)


class Sets:
    """Types 2 and 3: some glyphs for each."""

    def __init__(self, kind, glyphs, ranged=False):
        self.kind, self.glyphs, self.ranged = kind, glyphs, ranged

    def structure(self):
        sets = ([len(self.glyphs[glyph]), *self.glyphs[glyph]] for glyph in sorted(self.glyphs))
        return [1, cov(self.glyphs, self.ranged), len(self.glyphs), *sets]

    def candidates(self, glyph, alternate):
        glyphs = self.glyphs.get(glyph)
        if glyphs is not None and self.kind == 2:
            yield Candidate([], [], [], ("put", glyphs))
        elif glyphs is not None and 1 <= alternate <= len(glyphs):
            yield Candidate([], [], [], ("put", [glyphs[alternate - 1]]))


class Ligatures:
    """Type 4: for a first component, further components and the ligature."""
    kind = 4

    def __init__(self, glyphs, ranged=False):
        self.glyphs, self.ranged = glyphs, ranged

    def structure(self):
        def of(rows):
            return [len(rows), *([ligature, len(rest) + 1, *rest] for rest, ligature in rows)]
        sets = (of(self.glyphs[glyph]) for glyph in sorted(self.glyphs))
        return [1, cov(self.glyphs, self.ranged), len(self.glyphs), *sets]

    def candidates(self, glyph, alternate):
        for rest, ligature in self.glyphs.get(glyph, []):
            yield Candidate([], [equal(each) for each in rest], [], ("join", ligature))


Rule = collections.namedtuple("Rule", "back ahead look records")


def rule(ahead=(), records=(), back=(), look=()):
    return Rule(list(back), list(ahead), list(look), list(records))


class Rules:
    """Types 5 and 6. Format 1: rules by glyph. Format 2: rules by class, and what is covered. Format 3: one rule of sets of glyphs."""

    def __init__(self, kind, form, rules, cover=None, definitions=None, ranged=False):
        self.kind, self.form, self.rules, self.ranged = kind, form, rules, ranged
        self.cover = rules if form == 1 else cover
        self.definitions = definitions or ({}, {}, {})

    def written(self, each, entry=lambda value: value):
        records = [word for record in each.records for word in record]
        inputs = len(each.ahead) + (self.form != 3)
        back, ahead, look = (list(map(entry, part)) for part in (each.back, each.ahead, each.look))
        if self.kind == 5:
            return [inputs, len(each.records), *ahead, *records]
        return [len(back), *back, inputs, *ahead, len(look), *look, len(each.records), *records]

    def rule_set(self, key):
        rules = self.rules.get(key)
        return 0 if rules is None else [len(rules), *map(self.written, rules)]

    def structure(self):
        if self.form == 3:
            return [3, *self.written(self.rules, lambda glyphs: cov(glyphs, self.ranged))]
        covering = cov(self.cover, self.ranged)
        if self.form == 1:
            return [1, covering, len(self.rules), *map(self.rule_set, sorted(self.rules))]
        shared = {}
        written = [shared.setdefault(id(of), classes(of, self.ranged)) if of else 0 for of in self.definitions]
        sets = [self.rule_set(key) for key in range(max(self.rules) + 1)]
        return [2, covering, *(written[1:2] if self.kind == 5 else written), len(sets), *sets]

    def caches(self):
        """On the way 'class cache': which of backtrack, input and lookahead share one cache of classes, and what it saves."""
        if (self.kind, self.form) != (6, 2) or not self.definitions[2]:
            return [False] * 3, 0
        back, ahead, look = (id(of) if of else None for of in self.definitions)
        cost = (len(classes(self.definitions[2], self.ranged)) // 3).bit_length() if self.ranged else 1
        return [back == ahead, ahead == look, True], cost * (max(self.rules) + 1)

    def candidates(self, glyph, alternate, cached=False):
        if self.form == 3:
            if glyph in self.rules.ahead[0]:
                tests = (list(map(covered, part)) for part in (self.rules.back, self.rules.ahead[1:], self.rules.look))
                yield Candidate(*tests, ("nest", self.rules.records))
            return
        if glyph not in self.cover:
            return
        key = glyph if self.form == 1 else self.definitions[1].get(glyph, 0)
        for each in self.rules.get(key, []):
            parts = zip((each.back, each.ahead, each.look), self.definitions, self.caches()[0])
            tests = ([equal(x) if self.form == 1 else of_cached_class(of, x) if cached and cache else of_class(of, x)
                      for x in part] for part, of, cache in parts)
            yield Candidate(*tests, ("nest", each.records))


class Reverse:
    """Type 8: a glyph for each, between sets of glyphs."""
    kind = 8

    def __init__(self, glyphs, back=(), look=(), ranged=False):
        self.glyphs, self.back, self.look, self.ranged = glyphs, back, look, ranged

    def structure(self):
        parts = ([len(part), *(cov(glyphs, self.ranged) for glyphs in part)] for part in (self.back, self.look))
        glyphs = (self.glyphs[glyph] for glyph in sorted(self.glyphs))
        return [1, cov(self.glyphs, self.ranged), *(word for part in parts for word in part), len(self.glyphs), *glyphs]

    def candidates(self, glyph, alternate):
        if glyph in self.glyphs:
            tests = (list(map(covered, part)) for part in (self.back, [], self.look))
            yield Candidate(*tests, ("put", [self.glyphs[glyph]]))


class Lookup:
    def __init__(self, *subtables, flag=0, mark_set=None, moved=False):
        self.kind, self.subtables, self.moved = subtables[0].kind, subtables, moved
        self.flag, self.mark_set = flag, mark_set

    def structure(self):
        subtables = [each.structure() for each in self.subtables]
        if self.moved:
            subtables = [[1, self.kind, (each,)] for each in subtables]
        behind = [] if self.mark_set is None else [self.mark_set]
        return [7 if self.moved else self.kind, self.flag, len(subtables), *subtables, *behind]

    def candidates(self, glyph, alternate, cached=False):
        costs = [each.caches()[1] if isinstance(each, Rules) else 0 for each in self.subtables]
        for each, cost in zip(self.subtables, costs):
            if cached and cost >= 4 and cost == max(costs):
                yield from each.candidates(glyph, alternate, True)
            else:
                yield from each.candidates(glyph, alternate)


class Font:
    """The class of each glyph, the mark class of each, and mark sets. Character 57344 + n has glyph n."""

    def __init__(self, class_of, mark_classes, sets=None):
        self.class_of, self.mark_classes, self.sets = class_of, mark_classes, sets


# Shaping

class Glyph:
    def __init__(self, glyph, cluster, joined=None, component=0, parts=1):
        self.glyph, self.cluster = glyph, cluster
        # On the way 'ligature components': which ligature it is or belongs to, its component there, and how many parts it has.
        self.joined, self.component, self.parts = joined, component, parts
        self.cached = None  # On the way 'class cache'.


class Frame:
    """An open match: positions and end."""

    def __init__(self, positions, end):
        self.positions, self.end = positions, end

    def tell(self, at, count):
        moved = []
        for p in self.positions:
            moved += [p] if p < at else range(at, at + count) if p == at else [p + count - 1]
        self.positions = moved[:64]
        if self.end > at:
            self.end += count - 1


class Shaping:
    def __init__(self, font, lookups, text, ways=()):
        self.font, self.lookups, self.ways = font, lookups, ways
        self.run = [Glyph(glyph, cluster) for cluster, glyph in enumerate(text)]
        self.tied, self.open, self.serial = set(), [], 0
        self.operations = max(16384, 64 * len(text))

    def class_of(self, glyph):
        guessed = "guessed classes" in self.ways and not self.font.class_of
        return self.font.class_of.get(glyph, 1 if guessed else 0)

    def passes_over(self, lookup, glyph):
        kind, flag = self.class_of(glyph), lookup.flag
        if kind != 3:
            return bool(flag & {1: 2, 2: 4}.get(kind, 0))
        if flag & 8:
            return True
        if flag & 16:
            return lookup.mark_set >= len(self.font.sets or ()) or glyph not in self.font.sets[lookup.mark_set]
        mark_class = self.font.mark_classes.get(glyph, 0)
        if "mark classes of 8 bits" in self.ways:
            mark_class %= 256
        return flag >> 8 not in (0, mark_class)

    def seek(self, lookup, tests, places):
        """Where the tests are met, one after the other, or None."""
        met, places = [], iter(places)
        for test in tests:
            for p in places:
                if not self.passes_over(lookup, self.run[p].glyph):
                    break
            else:
                return None
            if not test(self.run[p]):
                return None
            met.append(p)
        return met

    def match(self, lookup, p, candidate):
        """The places of backtrack, input and lookahead, or None."""
        ahead = self.seek(lookup, candidate.ahead + candidate.look, range(p + 1, len(self.run)))
        back = self.seek(lookup, candidate.back, range(p - 1, -1, -1))
        if ahead is None or back is None:
            return None
        inputs = [p] + ahead[:len(candidate.ahead)]
        if len(inputs) > 1 and "ligature components" in self.ways and not self.may_join(lookup, inputs):
            return None
        return back, inputs, ahead[len(candidate.ahead):]

    def attempt(self, number, alternate, p, level=0):
        """Whether the lookup hits, and then the match's end."""
        lookup = self.lookups[number]
        if level == (65 if "nesting depth" in self.ways else 6):
            return None
        if level:
            self.operations -= 1
            if self.operations < 0 and "operations counted" in self.ways:
                return None
            if self.operations < -100_000:
                raise OverflowError
        glyph = self.run[p].glyph
        if self.passes_over(lookup, glyph) and not (level and "passed-over record" in self.ways):
            return None
        cached = level == 0 and "class cache" in self.ways
        for candidate in lookup.candidates(glyph, alternate, cached):
            met = self.match(lookup, p, candidate)
            if met is not None:
                return self.strike(candidate.action, met, alternate, level)
        return None

    def strike(self, action, met, alternate, level):
        back, inputs, look = met
        clusters = [self.run[p].cluster for p in back + inputs + look]
        self.tied.update(range(min(clusters) + 1, max(clusters) + 1))
        frame = Frame(inputs, inputs[-1] + 1)
        self.open.append(frame)
        kind, what = action
        if kind == "put":
            self.put(inputs[0], what)
        elif kind == "join":
            self.join(inputs, what)
        else:
            self.nest(what, frame, alternate, level)
        self.open.pop()
        return frame.end

    def edited(self, at, count):
        for frame in self.open:
            frame.tell(at, count)

    def put(self, p, glyphs):
        old = self.run[p]
        multiplied = len(glyphs) > 1 and not old.joined
        self.run[p:p + 1] = [Glyph(glyph, old.cluster, old.joined, i if multiplied else old.component, old.parts)
                             for i, glyph in enumerate(glyphs)]
        self.edited(p, len(glyphs))

    def join(self, inputs, ligature):
        if len(inputs) > 1:
            self.number_components(inputs)
        first, last = self.run[inputs[0]].cluster, self.run[inputs[-1]].cluster
        self.run[inputs[0]].glyph, self.run[inputs[0]].cached = ligature, None
        for each in self.run:
            if first <= each.cluster <= last:
                each.cluster = first
        for p in reversed(inputs[1:]):
            del self.run[p]
            self.edited(p, 0)

    def nest(self, records, frame, alternate, level):
        theirs, end = list(frame.positions), frame.end
        for index, number in records:
            places = theirs if "positions after a change" in self.ways else frame.positions
            if index >= len(places) or places[index] >= len(self.run):
                continue
            before = len(self.run)
            lookup = self.lookups[number]
            if lookup.kind == 8 or self.attempt(number, alternate, places[index], level + 1) is None:
                continue
            delta = len(self.run) - before
            if delta and index < len(theirs):
                # What HarfBuzz makes of it: it guesses where glyphs came or went.
                end += delta
                if end < theirs[index]:
                    delta, end = delta + theirs[index] - end, theirs[index]
                behind = index + 1
                if delta > 0:
                    if delta + len(theirs) > 64:
                        if "more than 64 positions" in self.ways:
                            break
                        continue
                    theirs[behind:] = [theirs[index] + 1 + i for i in range(delta)] + [p + delta for p in theirs[behind:]]
                else:
                    delta = max(delta, behind - len(theirs))
                    theirs[behind:] = [p + delta for p in theirs[behind - delta:]]
        if "end behind the match" in self.ways:
            frame.end = end

    # HarfBuzz's ligature components: glyphs passed over by a ligature belong to one of its components.

    def may_join(self, lookup, inputs):
        first = self.run[inputs[0]]
        for p in inputs[1:]:
            this = self.run[p]
            if first.joined and first.component:
                if (first.joined, first.component) != (this.joined, this.component):
                    if not self.base_is_passed_over(lookup, inputs[0], first.joined):
                        return False
            elif this.joined and this.component and this.joined != first.joined:
                return False
        return True

    def base_is_passed_over(self, lookup, p, joined):
        while p and self.run[p - 1].joined == joined:
            p -= 1
            if self.run[p].component == 0:
                return self.passes_over(lookup, self.run[p].glyph)
        return False

    def parts(self, each):
        return each.parts if self.class_of(each.glyph) == 2 and each.parts > 1 else 1

    def number_components(self, inputs):
        kinds = [self.class_of(self.run[p].glyph) for p in inputs]
        all_marks = set(kinds) == {3}
        ligates = not all_marks and not (kinds[0] == 1 and set(kinds[1:]) == {3})
        first = self.run[inputs[0]]
        last_joined, last_parts = first.joined, self.parts(first)
        total, so_far = sum(self.parts(self.run[p]) for p in inputs), last_parts
        if ligates:
            self.serial += 1
            first.joined, first.component, first.parts = self.serial, 0, total
        for before, p in zip(inputs, inputs[1:]):
            for each in self.run[before + 1:p] if ligates else ():
                component = min(each.component or last_parts, last_parts)
                each.joined, each.component = self.serial, so_far - last_parts + component
            last_joined, last_parts = self.run[p].joined, self.parts(self.run[p])
            so_far += last_parts
        if not all_marks and last_joined:
            for each in self.run[inputs[-1] + 1:]:
                if each.joined != last_joined or not each.component:
                    break
                each.joined = self.serial if ligates else None
                each.component = so_far - last_parts + min(each.component, last_parts)

    def sweep(self, number, alternate):
        if "alternate values of 8 bits" in self.ways:
            alternate %= 256
            if alternate == 0:
                return
        for each in self.run:
            each.cached = None
        if self.lookups[number].kind == 8:
            for p in reversed(range(len(self.run))):
                self.attempt(number, alternate, p)
            return
        p = 0
        while p < len(self.run):
            end = self.attempt(number, alternate, p)
            p = p + 1 if end is None else end
            if len(self.run) > 1000:
                raise OverflowError

    def answer(self):
        return [(each.glyph, each.cluster, each.cluster in self.tied) for each in self.run]


def shape(font, lookups, plan, text, ways=()):
    """Glyph, cluster, and whether it is unsafe to break before the cluster."""
    shaping = Shaping(font, lookups, text, ways)
    for number, alternate in plan:
        shaping.sweep(number, alternate)
    return shaping.answer()
