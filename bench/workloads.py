#!/usr/bin/python3
"""Writes what bench/run shapes: for each workload its tables, plan and text, as files in a folder.

    workloads.py FOLDER

NAME.gsub NAME.gdef NAME.cmap (a subtable of format 12) NAME.plan (16 bits each) NAME.text (32 bits each), all big-endian
but the last two, which are the machine's. The GSUB's lookups are the font's, byte for byte; scripts and features are new:
one feature that has the plan's lookups, so that HarfBuzz runs these and no others.
"""
import ctypes
import itertools
import pathlib
import struct
import sys

from fontTools.ttLib import TTFont

sys.path.insert(0, str(pathlib.Path(__file__).parent.parent / "tools"))
import harfbuzz  # noqa: E402
import shaping_model as model  # noqa: E402
import table_cases  # noqa: E402

LATIN = "/usr/share/fonts/opentype/linux-libertine/LinLibertine_R.otf"
ARABIC = "/usr/share/fonts/opentype/fonts-hosny-amiri/Amiri-Regular.ttf"
ENGLISH = "/usr/share/common-licenses/GPL-3"
LENGTH = 65535
PLANE_15 = 0xF0000
# The first articles of the Universal Declaration of Human Rights, one of them with vowel marks.
DECLARATION = """
يولد جميع الناس أحرارا متساوين في الكرامة والحقوق، وقد وهبوا عقلا وضميرا وعليهم أن يعامل بعضهم بعضا بروح الإخاء.
يُولَدُ جَمِيعُ النَّاسِ أَحْرَارًا مُتَسَاوِينَ فِي الْكَرَامَةِ وَالْحُقُوقِ، وَقَدْ وُهِبُوا عَقْلًا وَضَمِيرًا.
لكل إنسان حق التمتع بكافة الحقوق والحريات الواردة في هذا الإعلان، دون أي تمييز، كالتمييز بسبب العنصر أو اللون أو الجنس أو اللغة أو الدين أو الرأي السياسي.
لكل فرد الحق في الحياة والحرية وسلامة شخصه. لا يجوز استرقاق أو استعباد أي شخص، ويحظر الاسترقاق وتجارة الرقيق بكافة أوضاعهما.
"""
# What HarfBuzz applies unasked; in Arabic also init, medi, fina and isol, before the others.
FEATURES = ("ccmp", "locl", "rlig", "calt", "clig", "liga", "rclt")
AFTER_JOINING = ("rlig", "calt", "clig", "liga", "rclt")


def lookups_of(font, script, wanted):
    table = font["GSUB"].table
    language = next(each.Script.DefaultLangSys for each in table.ScriptList.ScriptRecord if each.ScriptTag == script)
    features = (table.FeatureList.FeatureRecord[index] for index in language.FeatureIndex)
    return sorted({lookup for each in features if each.FeatureTag in wanted for lookup in each.Feature.LookupListIndex})


def covered(font, plan):
    """The glyphs at which a lookup of the plan may match."""
    glyphs = set()
    for lookup in plan:
        for subtable in font["GSUB"].table.LookupList.Lookup[lookup].SubTable:
            subtable = getattr(subtable, "ExtSubTable", subtable)
            for covers in "mapping", "alternates", "ligatures":  # as fontTools reads types 1 to 4
                glyphs.update(getattr(subtable, covers, ()))
            first = getattr(subtable, "InputCoverage", None) or getattr(subtable, "Coverage", None) or []
            for each in (first if isinstance(first, list) else [first])[:1]:
                glyphs.update(each.glyphs)
    return glyphs


def words(structure):
    every = list(table_cases.laid_out(structure))
    return struct.pack(f">{len(every)}H", *every)


def lists_of(plan):
    """Scripts and features: one feature, which has the plan."""
    language = [0, 65535, 1, 0]
    scripts = words([1, *harfbuzz.words(harfbuzz.tag(b"DFLT")), [language, 0]])
    features = words([1, *harfbuzz.words(harfbuzz.tag(b"plan")), [0, len(plan), *plan]])
    return scripts, features


def with_plan(gsub, plan):
    scripts, features = lists_of(plan)
    lookups = gsub[struct.unpack_from(">H", gsub, 8)[0]:]
    starts = 10, 10 + len(scripts), 10 + len(scripts) + len(features)
    return struct.pack(">HHHHH", 1, 0, *starts) + scripts + features + lookups


def cmap_of(pairs):
    """A cmap subtable of format 12, from characters and glyphs that rise with the character."""
    groups = []
    for character, glyph in sorted(pairs):
        if groups and groups[-1][1] + 1 == character and groups[-1][2] + character - groups[-1][0] == glyph:
            groups[-1][1] = character
        else:
            groups.append([character, character, glyph])
    return struct.pack(">HHIII", 12, 0, 16 + 12 * len(groups), 0, len(groups)) + b"".join(struct.pack(">III", *each) for each in groups)


def filled(text):
    return list(itertools.islice(itertools.cycle(text), LENGTH))


def write(folder, name, gsub, gdef, cmap, plan, text):
    files = {"gsub": gsub, "gdef": gdef, "cmap": cmap,
             "plan": struct.pack(f"={2 * len(plan)}H", *(word for lookup in plan for word in (lookup, 1))),
             "text": struct.pack(f"={len(text)}I", *text)}
    for kind, content in files.items():
        (folder / f"{name}.{kind}").write_bytes(content)


def latin(folder):
    font = TTFont(LATIN)
    plan = lookups_of(font, "latn", FEATURES)
    gsub, gdef = with_plan(font.reader["GSUB"], plan), font.reader["GDEF"]
    cmap = cmap_of((character, font.getGlyphID(glyph)) for character, glyph in font.getBestCmap().items())
    text = filled(map(ord, " ".join(pathlib.Path(ENGLISH).read_text().split()) + " "))
    write(folder, "latin", gsub, gdef, cmap, plan, text)
    # The same words without the letters at which a lookup may match.
    maps, ruled_out = font.getBestCmap(), covered(font, plan)
    text = filled([character for character in text if maps.get(character) not in ruled_out])
    write(folder, "nothing", gsub, gdef, cmap, plan, text)


def joined(path, text):
    """The glyphs of an Arabic text after init, medi, fina and isol, in the order of the characters."""
    blob = harfbuzz.hb.hb_blob_create(path.read_bytes(), path.stat().st_size, 0, None, None)
    harfbuzz.declare(ctypes.c_void_p, "hb_face_create", ctypes.c_void_p, ctypes.c_uint)
    font = harfbuzz.hb.hb_font_create(harfbuzz.hb.hb_face_create(blob, 0))
    buffer = harfbuzz.hb.hb_buffer_create()
    harfbuzz.hb.hb_buffer_set_direction(buffer, 5)
    harfbuzz.hb.hb_buffer_set_script(buffer, harfbuzz.tag(b"Arab"))
    characters = (ctypes.c_uint32 * len(text))(*map(ord, text))
    harfbuzz.hb.hb_buffer_add_codepoints(buffer, characters, len(text), 0, len(text))
    off = [harfbuzz.Feature(harfbuzz.tag(tag.encode()), 0, 0, 0xFFFFFFFF) for tag in AFTER_JOINING + ("mset", "kern")]
    harfbuzz.hb.hb_shape(font, buffer, (harfbuzz.Feature * len(off))(*off), len(off))
    length = ctypes.c_uint()
    infos = harfbuzz.hb.hb_buffer_get_glyph_infos(buffer, ctypes.byref(length))
    return [infos[i].codepoint for i in reversed(range(length.value))]


def arabic(folder):
    font = TTFont(ARABIC)
    plan = lookups_of(font, "arab", AFTER_JOINING)
    glyphs = joined(pathlib.Path(ARABIC), " ".join(DECLARATION.split()) + " ")
    cmap = cmap_of((PLANE_15 + glyph, glyph) for glyph in range(1, font["maxp"].numGlyphs))
    write(folder, "arabic", with_plan(font.reader["GSUB"], plan), font.reader["GDEF"], cmap, plan, filled([PLANE_15 + glyph for glyph in glyphs]))


def made(folder, name, lookup, text):
    scripts, features = lists_of([0])
    gsub = with_plan(words([1, 0, 0, 0, [1, lookup.structure()]]), [0])
    gdef = words([1, 0, model.classes({1: 1, 2: 1, 3: 1}), 0, 0, 0])
    write(folder, name, gsub, gdef, cmap_of((PLANE_15 + glyph, glyph) for glyph in range(1, 9)), [0], [PLANE_15 + glyph for glyph in text])


def main(folder):
    folder = pathlib.Path(folder)
    folder.mkdir(parents=True, exist_ok=True)
    latin(folder)
    arabic(folder)
    made(folder, "joins", model.Lookup(model.Ligatures({1: [([2], 3)]})), filled([1, 2]))
    made(folder, "grows", model.Lookup(model.Sets(2, {1: [2, 3]})), [1] * 32767)


main(sys.argv[1])
