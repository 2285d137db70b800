/* Shaping by our static library and by HarfBuzz in one process: the same lookups, font and text. Prints a row for each
   workload and length. See bench/run. */
#include <hb.h>
#include <stdbool.h>
#include <stdint.h>
#include <stdio.h>
#include <stdlib.h>
#include <string.h>
#include <time.h>

/* crates/shape_c; docs/FORMATS.md describes it. */
typedef struct { uint16_t lookup, alternate; } Entry;
typedef struct { uint16_t glyph; uint32_t cluster; } Glyph;
typedef struct { uint32_t kind, number, table, lookup, subtable, hits; size_t glyphs, structure, byte; } Answer;
extern Answer mitqorad_shape(const uint8_t *gsub, size_t gsub_length, const uint8_t *cmap, size_t cmap_length,
                             const uint8_t *gdef, size_t gdef_length, const Entry *plan, size_t plan_length,
                             uint32_t limit, const uint32_t *text, size_t length,
                             Glyph *run, size_t room, uint8_t *marks, size_t marks_length);

enum { ROOM = 65535, LIMIT = 1000000 };

typedef struct { uint8_t *bytes; size_t length; } File;

static File gsub, cmap, gdef, plan, text;
static Glyph run[ROOM];
static uint8_t marks[ROOM];

static File file(const char *folder, const char *name, const char *kind) {
    char path[4096];
    snprintf(path, sizeof path, "%s/%s.%s", folder, name, kind);
    FILE *in = fopen(path, "rb");
    if (!in) { perror(path); exit(1); }
    File read = {malloc(1 << 24), 0};
    read.length = fread(read.bytes, 1, 1 << 24, in);
    fclose(in);
    return read;
}

static double now(void) {
    struct timespec time;
    clock_gettime(CLOCK_MONOTONIC, &time);
    return time.tv_sec + time.tv_nsec * 1e-9;
}

/* Ours. Each call checks the tables, which calls with an empty text do alone: their time is taken off (`seconds`). */

static Answer ours(size_t length) {
    return mitqorad_shape(gsub.bytes, gsub.length, cmap.bytes, cmap.length, gdef.bytes, gdef.length,
                          (Entry *)plan.bytes, plan.length / sizeof(Entry), LIMIT,
                          (uint32_t *)text.bytes, length, run, ROOM, marks, ROOM);
}

static void time_ours(size_t length, uint32_t times) {
    while (times--) ours(length);
}

/* HarfBuzz */

static hb_font_t *font;
static hb_buffer_t *buffer;
static hb_feature_t feature = {0, 1, HB_FEATURE_GLOBAL_START, HB_FEATURE_GLOBAL_END};

static hb_blob_t *blob(const void *bytes, size_t length) {
    return hb_blob_create(bytes, length, HB_MEMORY_MODE_READONLY, NULL, NULL);
}

static hb_blob_t *table(hb_face_t *face, hb_tag_t tag, void *data) {
    static uint8_t maxp[6] = {0, 0, 0x50, 0, 0xFF, 0xFF}, whole[1 << 20] = {0, 0, 0, 1, 0, 3, 0, 10, 0, 0, 0, 12};
    (void)face, (void)data;
    switch (tag) {
    case HB_TAG('G', 'S', 'U', 'B'): return blob(gsub.bytes, gsub.length);
    case HB_TAG('G', 'D', 'E', 'F'): return blob(gdef.bytes, gdef.length);
    case HB_TAG('m', 'a', 'x', 'p'): return blob(maxp, sizeof maxp);
    case HB_TAG('c', 'm', 'a', 'p'): memcpy(whole + 12, cmap.bytes, cmap.length); return blob(whole, 12 + cmap.length);
    default: return NULL;
    }
}

static void time_harfbuzz(size_t length, uint32_t times) {
    while (times--) {
        hb_buffer_clear_contents(buffer);
        hb_buffer_set_direction(buffer, HB_DIRECTION_LTR);
        hb_buffer_set_script(buffer, HB_SCRIPT_LATIN);
        hb_buffer_set_language(buffer, hb_language_from_string("en", -1));
        hb_buffer_set_cluster_level(buffer, HB_BUFFER_CLUSTER_LEVEL_MONOTONE_CHARACTERS);
        hb_buffer_add_codepoints(buffer, (uint32_t *)text.bytes, length, 0, length);
        hb_shape(font, buffer, &feature, 1);
    }
}

/* The least time of seven that so many calls took. */
static double least(void shape(size_t, uint32_t), size_t length, uint32_t times) {
    double best = 1e9;
    for (int round = 0; round < 7; round++) {
        double begin = now();
        shape(length, times);
        double spent = now() - begin;
        if (spent < best) best = spent;
    }
    return best;
}

/* Seconds of one shaping: so many calls with the text, less as many with an empty text, of which each does what a call
   does besides shaping. So many are made that they can be told from what surrounds them. */
static double seconds(void shape(size_t, uint32_t), size_t length) {
    uint32_t times = 1;
    for (;; times *= 2) {
        double begin = now();
        shape(length, times);
        if (now() - begin > 0.1 || times > 1 << 20) break;
    }
    return (least(shape, length, times) - least(shape, 0, times)) / times;
}

/* How many glyphs differ in glyph, cluster, or whether it is unsafe to break before the cluster. */
static size_t differences(size_t glyphs) {
    unsigned count;
    hb_glyph_info_t *infos = hb_buffer_get_glyph_infos(buffer, &count);
    if (count != glyphs) return SIZE_MAX;
    size_t differ = 0;
    for (size_t i = 0; i < glyphs; i++) {
        bool unsafe = infos[i].mask & HB_GLYPH_FLAG_UNSAFE_TO_BREAK;
        differ += infos[i].codepoint != run[i].glyph || infos[i].cluster != run[i].cluster
                  || unsafe != (marks[run[i].cluster] != 0);
    }
    return differ;
}

int main(int count, char **words) {
    const char *folder = words[1];
    printf("| workload | characters | glyphs | hits | ours ns/char | HarfBuzz ns/char | ratio | its lookups alone | ratio | glyphs that differ |\n"
           "|---|---|---|---|---|---|---|---|---|---|\n");
    feature.tag = HB_TAG('p', 'l', 'a', 'n');
    for (int word = 2; word < count; word++) {
        char name[64];
        size_t length;
        if (sscanf(words[word], "%63[a-z]:%zu", name, &length) != 2) return 1;
        gsub = file(folder, name, "gsub"), cmap = file(folder, name, "cmap"), gdef = file(folder, name, "gdef");
        plan = file(folder, name, "plan"), text = file(folder, name, "text");
        hb_face_t *face = hb_face_create_for_tables(table, NULL, NULL);
        font = hb_font_create(face);
        buffer = hb_buffer_create();
        double us = seconds(time_ours, length), whole = seconds(time_harfbuzz, length);
        Answer answer = ours(length);
        if (answer.kind) { printf("%s: kind %u, number %u\n", name, answer.kind, answer.number); return 1; }
        feature.value = 1;
        time_harfbuzz(length, 1);
        size_t differ = differences(answer.glyphs);
        feature.value = 0;
        double rest = seconds(time_harfbuzz, length), per = 1e9 / length;
        feature.value = 1;
        printf("| %s | %zu | %zu | %u | %.1f | %.1f | %.2f | %.1f | %.2f | %zd |\n", name, length, answer.glyphs, answer.hits, us * per,
               whole * per, us / whole, (whole - rest) * per, us / (whole - rest), (ssize_t)differ);
        fflush(stdout);
        hb_buffer_destroy(buffer), hb_font_destroy(font), hb_face_destroy(face);
    }
    return 0;
}
