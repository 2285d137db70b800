"""HarfBuzz by ctypes, as a judge: what it answers for a text over a GSUB table, with the lookups of a plan and no others.

It needs Debian's libharfbuzz0b; 6.0.0 is the one that the repository's cases were recorded from.
"""
import ctypes
import struct

hb = ctypes.CDLL("libharfbuzz.so.0")
TABLE = ctypes.CFUNCTYPE(ctypes.c_void_p, ctypes.c_void_p, ctypes.c_uint32, ctypes.c_void_p)
PRIVATE_USE, UNSAFE_TO_BREAK, MONOTONE_CHARACTERS, LEFT_TO_RIGHT = 57344, 1, 1, 4


class Feature(ctypes.Structure):
    _fields_ = [("tag", ctypes.c_uint32), ("value", ctypes.c_uint32), ("start", ctypes.c_uint), ("end", ctypes.c_uint)]


class Info(ctypes.Structure):
    _fields_ = [("codepoint", ctypes.c_uint32), ("mask", ctypes.c_uint32), ("cluster", ctypes.c_uint32),
                ("var1", ctypes.c_uint32), ("var2", ctypes.c_uint32)]


def declare(result, names, *arguments):
    for name in names.split():
        function = getattr(hb, name)
        function.restype, function.argtypes = result, arguments


declare(ctypes.c_void_p, "hb_blob_create", ctypes.c_char_p, ctypes.c_uint, ctypes.c_int, ctypes.c_void_p, ctypes.c_void_p)
declare(ctypes.c_void_p, "hb_face_create_for_tables", TABLE, ctypes.c_void_p, ctypes.c_void_p)
declare(ctypes.c_void_p, "hb_font_create", ctypes.c_void_p)
declare(ctypes.c_void_p, "hb_buffer_create")
declare(None, "hb_face_destroy hb_font_destroy hb_buffer_destroy", ctypes.c_void_p)
declare(None, "hb_buffer_set_cluster_level hb_buffer_set_direction", ctypes.c_void_p, ctypes.c_int)
declare(None, "hb_buffer_set_script", ctypes.c_void_p, ctypes.c_uint32)
declare(None, "hb_buffer_set_language", ctypes.c_void_p, ctypes.c_void_p)
declare(ctypes.c_void_p, "hb_language_from_string", ctypes.c_char_p, ctypes.c_int)
declare(None, "hb_buffer_add_codepoints", ctypes.c_void_p, ctypes.POINTER(ctypes.c_uint32), ctypes.c_int, ctypes.c_uint, ctypes.c_int)
declare(None, "hb_shape", ctypes.c_void_p, ctypes.c_void_p, ctypes.POINTER(Feature), ctypes.c_uint)
declare(ctypes.POINTER(Info), "hb_buffer_get_glyph_infos", ctypes.c_void_p, ctypes.POINTER(ctypes.c_uint))
declare(ctypes.c_char_p, "hb_version_string")


def tag(name):
    return struct.unpack(">I", name)[0]


def tag_of(lookup):
    """The tag of the feature that has this lookup alone."""
    return b"L%03d" % lookup


def words(number):
    return list(divmod(number, 65536))


def with_features(lookups):
    """A GSUB table in which each lookup has a feature of its own, so that a plan can be asked for."""
    count = len(lookups)
    features = [count]
    for number in range(count):
        features += words(tag(tag_of(number))) + [[0, 1, number]]
    language = [0, 65535, count, *range(count)]
    scripts = [1, *words(tag(b"DFLT")), [language, 0]]
    return [1, 0, scripts, features, [count, *lookups]]


def cmap(glyphs):
    """A cmap table of one subtable, of format 12: character 57344 + n has glyph n."""
    return struct.pack(">HHHHI", 0, 1, 3, 10, 12) + groups(glyphs)


def groups(glyphs):
    return struct.pack(">HHIII", 12, 0, 28, 0, 1) + struct.pack(">III", PRIVATE_USE + 1, PRIVATE_USE + glyphs, 1)


class Font:
    def __init__(self, gsub, gdef, glyphs):
        tables = {
            b"GSUB": gsub, b"GDEF": gdef, b"cmap": cmap(glyphs), b"maxp": struct.pack(">IH", 0x5000, glyphs + 1),
            b"head": struct.pack(">IIIIHHQQhhhhHHhhh", 0x10000, 0x10000, 0, 0x5F0F3CF5, 0, 1000, 0, 0, 0, 0, 0, 0, 0, 8, 2, 0, 0),
        }
        self.tables = {tag(name): table for name, table in tables.items()}
        self.give = TABLE(self.blob)  # kept, since HarfBuzz calls it later
        self.face = hb.hb_face_create_for_tables(self.give, None, None)
        self.font = hb.hb_font_create(self.face)
        self.language = hb.hb_language_from_string(b"en", -1)

    def blob(self, face, name, data):
        table = self.tables.get(name)
        return hb.hb_blob_create(table, len(table), 0, None, None) if table is not None else None

    def close(self):
        hb.hb_font_destroy(self.font)
        hb.hb_face_destroy(self.face)

    def shape(self, plan, text):
        """Glyph, cluster, and whether it is unsafe to break before the cluster."""
        buffer = hb.hb_buffer_create()
        hb.hb_buffer_set_cluster_level(buffer, MONOTONE_CHARACTERS)
        hb.hb_buffer_set_direction(buffer, LEFT_TO_RIGHT)
        hb.hb_buffer_set_script(buffer, tag(b"Latn"))
        hb.hb_buffer_set_language(buffer, self.language)
        characters = (ctypes.c_uint32 * len(text))(*(PRIVATE_USE + n for n in text))
        hb.hb_buffer_add_codepoints(buffer, characters, len(text), 0, len(text))
        features = (Feature * len(plan))(*(Feature(tag(tag_of(lookup)), value, 0, 0xFFFFFFFF) for lookup, value in plan))
        hb.hb_shape(self.font, buffer, features, len(plan))
        length = ctypes.c_uint()
        infos = hb.hb_buffer_get_glyph_infos(buffer, ctypes.byref(length))
        answer = [(infos[i].codepoint, infos[i].cluster, bool(infos[i].mask & UNSAFE_TO_BREAK)) for i in range(length.value)]
        hb.hb_buffer_destroy(buffer)
        return answer
