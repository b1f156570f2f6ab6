#include "fields.h"
#include "factors.h"
#include "guide.h"
#include "words.h"
#include <stdarg.h>
#include <stdlib.h>
#include <string.h>
#include <strings.h>

#define COUNT(a) (sizeof (a) / sizeof (a)[0])

/* ---- The tables. */

const struct mode modes[] = {
    { 1, 60, "640x480p", "4:3" },
    { 2, 60, "720x480p", "4:3" },
    { 3, 60, "720x480p", "16:9" },
    { 4, 60, "1280x720p", "16:9" },
    { 5, 60, "1920x1080i", "16:9" },
    { 16, 60, "1920x1080p", "16:9" },
    { 17, 50, "720x576p", "4:3" },
    { 18, 50, "720x576p", "16:9" },
    { 19, 50, "1280x720p", "16:9" },
    { 20, 50, "1920x1080i", "16:9" },
    { 31, 50, "1920x1080p", "16:9" },
    { 32, 24, "1920x1080p", "16:9" },
    { 34, 30, "1920x1080p", "16:9" },
    { 60, 24, "1280x720p", "16:9" },
    { 62, 30, "1280x720p", "16:9" },
};
const size_t number_of_modes = COUNT(modes);

double frame_rate(const struct mode *m, uint8_t family) { return family == 1 ? m->rate / 1.001 : m->rate; }

/* What an ID is made of, each by a word; `separate` and `1x` where none is given. */
enum { RGB_444, YCBCR_422, COLOURS };
enum { SEPARATE, EMBEDDED, SYNCS };
enum { ONCE, DOUBLED, BOTH_EDGES, DOUBLED_BY_EDGES, CLOCKS };
enum trait { COLOUR, SYNC, CLOCK, TRAITS };
static const struct { const char *word, *says; } traits[TRAITS][CLOCKS] = {
    [COLOUR] = { [RGB_444] = { "rgb444", "RGB" }, [YCBCR_422] = { "422", "YCbCr 4:2:2" } },
    [SYNC] = { [SEPARATE] = { "separate", "separate syncs" }, [EMBEDDED] = { "embedded", "embedded syncs" } },
    [CLOCK] = { [ONCE] = { "1x", "a clock for each pixel" }, [DOUBLED] = { "2x", "two clocks for each pixel" },
                [BOTH_EDGES] = { "ddr", "both edges of the clock" },
                [DOUBLED_BY_EDGES] = { "2x-ddr", "the pins of 2x, both edges of the clock" } },
};

/* The codes of Table 28: a set of them has a bit for each. */
enum { BITS_10 = 1, BITS_12, BITS_8, STYLE_2 = 1, STYLE_1, STYLE_3, EVEN = 0, RIGHT, LEFT };
enum {
    EACH_DEPTH = 1 << BITS_8 | 1 << BITS_10 | 1 << BITS_12, TWO_STYLES = 1 << STYLE_1 | 1 << STYLE_2, EACH_STYLE = TWO_STYLES | 1 << STYLE_3,
    EACH_SIDE = 1 << EVEN | 1 << RIGHT | 1 << LEFT
};
const struct wiring wirings[] = {
    { 0, RGB_444, SEPARATE, ONCE, 1 << BITS_8, 1, 1 << EVEN, "16", 165 },
    { 1, YCBCR_422, SEPARATE, ONCE, EACH_DEPTH, EACH_STYLE, EACH_SIDE, "17-19", 165 },
    { 2, YCBCR_422, EMBEDDED, ONCE, EACH_DEPTH, EACH_STYLE, EACH_SIDE, "17-19", 165 },
    { 3, YCBCR_422, SEPARATE, DOUBLED, EACH_DEPTH, TWO_STYLES, EACH_SIDE, "20-22", 82.5 },
    { 4, YCBCR_422, EMBEDDED, DOUBLED, EACH_DEPTH, TWO_STYLES, EACH_SIDE, "20-22", 82.5 },
    { 5, RGB_444, SEPARATE, BOTH_EDGES, EACH_DEPTH, EACH_STYLE, 1 << EVEN, "23-24", 82.5 },
    { 6, YCBCR_422, SEPARATE, BOTH_EDGES, EACH_DEPTH, EACH_STYLE, EACH_SIDE, "25-27", 82.5 },
    { 7, YCBCR_422, SEPARATE, DOUBLED_BY_EDGES, EACH_DEPTH, TWO_STYLES, EACH_SIDE, "20-22", 82.5 },
    { 8, YCBCR_422, EMBEDDED, DOUBLED_BY_EDGES, EACH_DEPTH, TWO_STYLES, EACH_SIDE, "20-22", 82.5 },
};
const size_t number_of_wirings = COUNT(wirings);

const struct wiring *wiring_of_id(int id) { return id >= 0 && id < (int)COUNT(wirings) ? &wirings[id] : NULL; }
int is_embedded(const struct wiring *w) { return w->syncs == EMBEDDED; }
int is_rgb(const struct wiring *w) { return w->colour == RGB_444; }

/* The sections in their order. One that is opened by a word may be left out. Its count is that of its fields' bytes, and of the numbers
 * after them, two bytes each; a section of which the last fields may be left out is without them that short. */
enum { IN_WIRING, IN_VIDEO, IN_AUDIO, IN_MATRIX, SECTIONS };
static const struct { const char *name, *opens; size_t short_count, numbers; } sections[SECTIONS] = {
    [IN_WIRING] = { "wiring", "input", 4, 0 },
    [IN_VIDEO] = { "video", NULL, 0, 0 },
    [IN_AUDIO] = { "audio", "audio", 0, 0 },
    [IN_MATRIX] = { "matrix", "matrix", 0, COEFFICIENTS_OF_A_TABLE },
};

/* A field: its section, its byte there and its bits in that byte, or 16 for two bytes, the high one first; its name; the word that it has
 * where none is given, or NULL where it must be given; its words, of which the first for a value is the one that is printed. A field with no
 * words is its name and a number. NAME=NUMBER gives any field any number. */
struct word { const char *word; uint8_t value; const char *says; };
static const struct field {
    uint8_t section, at, shift, bits;
    const char *name, *usual;
    struct word words[8];
} fields[] = {
    { IN_WIRING, 0, 0, 8, "id", NULL, { { NULL, 0, NULL } } },
    { IN_WIRING, 1, 0, 8, "width", NULL,
      { { "8bit", BITS_8, "8 bits of each colour" }, { "10bit", BITS_10, "10 bits of each colour" },
        { "12bit", BITS_12, "12 bits of each colour" } } },
    { IN_WIRING, 2, 0, 8, "style", NULL, { { "style1", STYLE_1, "style 1" }, { "style2", STYLE_2, "style 2" }, { "style3", STYLE_3, "style 3" } } },
    { IN_WIRING, 3, 0, 8, "justified", "even",
      { { "even", EVEN, "evenly distributed" }, { "right", RIGHT, "right justified" }, { "left", LEFT, "left justified" } } },
    { IN_WIRING, 4, 0, 16, "h-placement", NULL, { { NULL, 0, NULL } } },
    { IN_WIRING, 6, 0, 16, "h-duration", NULL, { { NULL, 0, NULL } } },
    { IN_WIRING, 8, 0, 16, "v-placement", NULL, { { NULL, 0, NULL } } },
    { IN_WIRING, 10, 0, 16, "v-duration", NULL, { { NULL, 0, NULL } } },
    { IN_VIDEO, 0, 0, 8, "vic", NULL, { { NULL, 0, NULL } } },
    { IN_VIDEO, 1, 0, 8, "family", "whole", { { "whole", 0, "whole frame rate" }, { "/1.001", 1, "frame rate divided by 1.001" } } },
    { IN_VIDEO, 2, 0, 8, "encoding", NULL, { { "rgb", 0, "RGB" }, { "ycbcr422", 1, "YCbCr 4:2:2" }, { "ycbcr444", 2, "YCbCr 4:4:4" } } },
    { IN_VIDEO, 3, 0, 8, "link", NULL, { { "dvi", 0, "DVI" }, { "hdmi", 1, "HDMI" } } },
    { IN_VIDEO, 4, 0, 8, "range", "limited",
      { { "limited", 0, "limited: RGB from 16 to 235; of YCbCr nothing is said" }, { "full", 1, "full: RGB from 0 to 255" } } },
    { IN_VIDEO, 5, 0, 4, "depth", "24bit",
      { { "24bit", 0, "24 bits a pixel" }, { "30bit", 1, "30 bits a pixel, deep colour" },
        { "36bit", 2, "36 bits a pixel, deep colour" } } },
    { IN_VIDEO, 5, 4, 4, "repetition", "once",
      { { "once", 0, "none, each pixel once" }, { "twice", 1, "each pixel twice" }, { "four-times", 2, "each pixel four times" } } },
    { IN_VIDEO, 6, 0, 2, "edition", "861-d", { { "861-d", 0, "CEA-861-D" }, { "861-e", 1, "CEA-861-E" } } },
    { IN_VIDEO, 6, 2, 2, "quantisation", "ycc-limited",
      { { "ycc-limited", 0, "limited, or nothing said of it" }, { "ycc-full", 1, "full: YCbCr from 0 to 255" } } },
    { IN_VIDEO, 6, 4, 2, "content", "no-type",                  /* 861-E has 0 for graphics, so that is the same as no type */
      { { "no-type", 0, "no type; in CEA-861-E 0 is graphics" }, { "photo", 1, "photo" }, { "cinema", 2, "cinema" }, { "game", 3, "game" },
        { "graphics", 0, "graphics" } } },
    { IN_VIDEO, 6, 6, 2, "reserved", "reserved=0", { { "reserved=0", 0, "0, as it must be" } } },
    { IN_AUDIO, 0, 0, 8, "rate", NULL,
      { { "32kHz", 0, "32 kHz" }, { "44.1kHz", 1, "44.1 kHz" }, { "48kHz", 2, "48 kHz" }, { "88.2kHz", 3, "88.2 kHz" },
        { "96kHz", 4, "96 kHz" }, { "176.4kHz", 5, "176.4 kHz" }, { "192kHz", 6, "192 kHz" } } },
    { IN_AUDIO, 1, 0, 8, "channels", NULL, { { "2", 2, "two channels" }, { "8", 8, "eight channels" }, { "stereo", 2, "two channels" } } },
    { IN_AUDIO, 2, 0, 8, "coherent", "not-coherent",
      { { "not-coherent", 0, "not coherent with the picture's clock: the chip measures CTS" },
        { "coherent", 1, "coherent with the picture's clock: N and CTS are exact" } } },
    { IN_MATRIX, 0, 0, 8, "mode", NULL,
      { { "0", 0, "factors below 1" }, { "1", 1, "factors below 2" }, { "2", 2, "factors below 4" } } },
};
enum { FIELDS = COUNT(fields), WORDS_OF_A_FIELD = COUNT(fields[0].words), BYTE = 255 };

/* The end of a field's bytes in its section. */
static size_t end_of(const struct field *f) { return f->at + (f->bits > 8 ? 2u : 1u); }

static size_t bytes_of_fields(int section) {
    size_t bytes = 0;
    for (size_t f = 0; f < FIELDS; f++)
        if (fields[f].section == section && end_of(&fields[f]) > bytes) bytes = end_of(&fields[f]);
    return bytes;
}

/* One of those that a short section is without: the sync values. */
static int may_be_left_out(const struct field *f) { return sections[f->section].short_count && f->at >= sections[f->section].short_count; }

static int value_in(const struct field *f, const uint8_t *body) {
    return f->bits > 8 ? 256 * body[f->at] + body[f->at + 1] : body[f->at] >> f->shift & ((1 << f->bits) - 1);
}

static void put(const struct field *f, int value, uint8_t *body) {
    int mask = ((1 << f->bits) - 1) << f->shift;
    if (f->bits > 8) body[f->at] = (uint8_t)(value >> 8), body[f->at + 1] = (uint8_t)value;
    else body[f->at] = (uint8_t)((body[f->at] & ~mask) | (value << f->shift & mask));
}

static size_t count_of(int section) { return bytes_of_fields(section) + 2 * sections[section].numbers; }

static const struct field *field_of(const char *name) {
    size_t f = 0;
    while (strcmp(fields[f].name, name)) f++;
    return &fields[f];
}

/* The first word of a field's value, or NULL. */
static const struct word *row_of(const struct field *f, int value) {
    for (size_t w = 0; w < WORDS_OF_A_FIELD && f->words[w].word; w++)
        if (f->words[w].value == value) return &f->words[w];
    return NULL;
}

/* ---- Words to bytes. */

/* The words of a field, one for each value, for a message. */
static const char *words_of_field(const struct field *f, char *text, size_t room) {
    size_t used = 0;
    *text = 0;
    for (size_t w = 0; w < WORDS_OF_A_FIELD && f->words[w].word && used < room; w++)
        if (row_of(f, f->words[w].value) == &f->words[w])
            used += (size_t)snprintf(text + used, room - used, "%s%s", w ? ", " : "", f->words[w].word);
    if (!f->words[0].word)
        snprintf(text, room, "%s and a number, or %s", f->name, f->section == IN_WIRING ? "words such as 422 embedded 2x" : "a mode such as 1080p60");
    return text;
}

/* The value that a word, or two, gives a field, and at `used` how many it took; -1 where they are not for it. */
static int value_of(const struct field *f, int count, char **words, int *used) {
    size_t name = strlen(f->name);
    long most = (1L << f->bits) - 1;
    *used = 1;
    if (!strncmp(words[0], f->name, name) && words[0][name] == '=')
        return (int)number_of_word(words[0] + name + 1, f->name, 0, most);
    for (size_t w = 0; w < WORDS_OF_A_FIELD && f->words[w].word; w++)
        if (!strcasecmp(words[0], f->words[w].word)) return f->words[w].value;
    if (f->words[0].word || strcmp(words[0], f->name)) return -1;
    if (count < 2) misuse("%s has no number after it", f->name);
    *used = 2;
    return (int)number_of_word(words[1], f->name, 0, most);
}

int value_of_word(const char *name, char *word) {
    int used;
    return value_of(field_of(name), 1, &word, &used);
}

/* Words that are being read: in which section we are, what was given so far, of the ID the words, the numbers as bytes. */
struct reading {
    int section, given[SECTIONS], value[FIELDS], set[FIELDS], trait[TRAITS], is_by_traits;
    size_t numbers;
    uint8_t number[2 * COEFFICIENTS_OF_A_TABLE];
};

const char *words_of_wiring(const struct wiring *w, char text[WORDS_OF_A_WIRING]) {
    snprintf(text, WORDS_OF_A_WIRING, "%s %s%s%s", traits[COLOUR][w->colour].word, traits[SYNC][w->syncs].word, w->clock == ONCE ? "" : " ",
             w->clock == ONCE ? "" : traits[CLOCK][w->clock].word);
    return text;
}

/* Which IDs have the words that were given: the first of them, and all in a text. Today's board has no words. */
static size_t ids_of(const int given[TRAITS], int *id, char *text, size_t room) {
    char words[WORDS_OF_A_WIRING];
    size_t found = 0;
    *text = 0;
    for (const struct wiring *w = wirings + 1; w < wirings + COUNT(wirings); w++) {
        const int has[TRAITS] = { [COLOUR] = w->colour, [SYNC] = w->syncs, [CLOCK] = w->clock };
        int fits = 1;
        for (int t = 0; t < TRAITS; t++) fits &= given[t] < 0 || given[t] == has[t];
        if (!fits) continue;
        if (!found++) *id = w->id;
        snprintf(text + strlen(text), room - strlen(text), "%sid %u is %s", found > 1 ? ", " : "", w->id, words_of_wiring(w, words));
    }
    return found;
}

/* The ID from its words. */
static int id_of_words(const struct reading *r) {
    static const int none[TRAITS] = { -1, -1, -1 };
    int given[TRAITS], id = 0;
    char all[300], some[300];
    size_t found;
    memcpy(given, r->trait, sizeof given);
    ids_of(none, &id, all, sizeof all);
    if (!r->is_by_traits) misuse("the id is missing: %s", all);
    found = ids_of(given, &id, some, sizeof some);
    if (found > 1 && given[SYNC] < 0) given[SYNC] = SEPARATE;
    if (found > 1 && given[CLOCK] < 0) given[CLOCK] = ONCE;
    if (found > 1) found = ids_of(given, &id, some, sizeof some);
    if (found != 1) misuse(found ? "these words do not tell the id: %s" : "no id has all these words: %s", found ? some : all);
    return id;
}

/* The section is over: its fields that nobody gave have their usual value. */
static void close_section(struct reading *r) {
    char text[TEXT_OF_A_REQUEST], *usual;
    size_t syncs = 0, given = 0;
    if (r->section == IN_WIRING && !r->set[0]) r->value[0] = id_of_words(r), r->set[0] = 1;
    for (size_t f = 0; f < FIELDS; f++)
        if (fields[f].section == r->section && may_be_left_out(&fields[f])) syncs++, given += r->set[f] != 0;
    if (given && given < syncs) misuse("%u of the %u sync values are given", (unsigned)given, (unsigned)syncs);
    for (size_t f = 0; f < FIELDS; f++) {
        int used;
        if (fields[f].section != r->section || r->set[f] || may_be_left_out(&fields[f])) continue;
        usual = (char *)fields[f].usual;
        if (!usual)
            misuse("the %s is missing: %s%s", fields[f].name, words_of_field(&fields[f], text, sizeof text),
                   r->section == IN_MATRIX ? ", or 'tableNN', or 'factors' and twelve numbers" : "");
        r->value[f] = value_of(&fields[f], 1, &usual, &used);
        r->set[f] = 1;
    }
    if (r->numbers < sections[r->section].numbers)
        misuse("the %s has %u numbers, and not %u", sections[r->section].name, (unsigned)r->numbers,
               (unsigned)sections[r->section].numbers);
}

/* A whole matrix, its mode and twelve coefficients, for which a word stands. */
static void take_matrix(struct reading *r, const char *word, const uint8_t *body) {
    for (size_t f = 0; f < FIELDS; f++) {
        if (fields[f].section != IN_MATRIX) continue;
        if (r->set[f] || r->numbers) misuse("'%.80s' stands beside another matrix", word);
        r->value[f] = body[0];
        r->set[f] = 1;
    }
    memcpy(r->number, body + 1, sizeof r->number);
    r->numbers = COEFFICIENTS_OF_A_TABLE;
}

/* "tableNN": the matrix of a table of the guide, its misprints corrected. */
static int take_table(struct reading *r, const char *word) {
    uint8_t body[1 + 2 * COEFFICIENTS_OF_A_TABLE];
    if (r->section != IN_MATRIX || strncasecmp(word, "table", 5)) return 0;
    long number = number_of_word(word + 5, "table of the guide", tables[0].number, tables[COUNT(tables) - 1].number);
    for (size_t t = 0; t < COUNT(tables); t++) {
        if (tables[t].number != number) continue;
        body_of(&tables[t], 1, body);
        take_matrix(r, word, body);
        return 1;
    }
    misuse("table %ld of the guide is not at hand", number);
    return 0;
}

/* "factors" and twelve numbers as a colour meter has them: the library makes the matrix. How many words that took, 0 where it is another word.
 * Numbers that the library refuses have no bytes, and end the program. */
static int take_factors(struct reading *r, int count, char **words) {
    float numbers[STATION_METER], more;
    uint8_t body[STATION_MATRIX];
    char name[3], text[SHOWN];
    if (r->section != IN_MATRIX || strcasecmp(words[0], "factors")) return 0;
    for (int n = 0; n < STATION_METER; n++) {
        if (n + 1 == count) misuse("'%s' has %d numbers after it, and not %d", words[0], n, STATION_METER);
        const char *wrong = float_of_word(words[n + 1], &numbers[n]);
        if (wrong) misuse("'%s', for %s, %s", shown(words[n + 1], text), name_of_number((size_t)n, name), wrong);
    }
    if (STATION_METER + 1 < count && !float_of_word(words[STATION_METER + 1], &more))
        misuse("'%s' has more than %d numbers after it", words[0], STATION_METER);
    struct station_count c = station_meter(numbers, STATION_METER, body, sizeof body);
    if (c.refusal) {
        explain_refused(stderr, numbers, c.refusal);
        exit(REFUSED);
    }
    take_matrix(r, words[0], body);
    return 1 + STATION_METER;
}

/* A number with a point or an exponent in a matrix is a colour meter's. */
static void look_for_factor(const struct reading *r, const char *word) {
    float number;
    char text[SHOWN];
    if (r->section == IN_MATRIX && strpbrk(word, ".eE") && !float_of_word(word, &number))
        misuse("'%s' is no whole number: a colour meter's numbers stand behind the word 'factors'", shown(word, text));
}

/* Does a word name a mode by its lines and its frame rate: 1080p60, or of the other family 1080p59.94, 1080p23.976, 1080p23.98? */
static int is_mode(const char *word, const struct mode *m, int family) {
    char text[32], shorter[32];
    const char *lines = strchr(m->lines, 'x') + 1;
    if (strncasecmp(word, lines, strlen(lines))) return 0;      /* most words: no rate is printed for them */
    snprintf(text, sizeof text, "%s%.5g", lines, frame_rate(m, (uint8_t)family));
    snprintf(shorter, sizeof shorter, "%s%.4g", lines, frame_rate(m, (uint8_t)family));
    return !strcasecmp(word, text) || !strcasecmp(word, shorter);
}

static size_t modes_of_name(const char *word) {
    size_t found = 0;
    for (size_t m = 0; m < COUNT(modes); m++)
        for (int f = 0; f < 2; f++) found += (size_t)is_mode(word, &modes[m], f);
    return found;
}

const char *name_of_mode(const struct mode *m, uint8_t family, char text[NAME_OF_A_MODE]) {
    snprintf(text, NAME_OF_A_MODE, "%s%.5g", strchr(m->lines, 'x') + 1, frame_rate(m, family));
    if (modes_of_name(text) > 1) *text = 0;
    return text;
}

int mode_of_word(const char *word, uint8_t *vic, uint8_t *family) {
    char all[64] = "";
    size_t found = 0;
    for (size_t m = 0; m < COUNT(modes); m++)
        for (int f = 0; f < 2; f++) {
            if (!is_mode(word, &modes[m], f)) continue;
            *vic = modes[m].vic;
            *family = (uint8_t)f;
            snprintf(all + strlen(all), sizeof all - strlen(all), "%s%u", found++ ? " or " : "", modes[m].vic);
        }
    if (found > 1) misuse("'%.80s' is vic %s: say which (tools/modes)", word, all);
    return found == 1;
}

/* Such a word sets the VIC, and where it is of the other family that too. */
static int take_mode(struct reading *r, const char *word) {
    size_t vic = (size_t)(field_of("vic") - fields), family = (size_t)(field_of("family") - fields);
    uint8_t value, divided;
    if (r->section != IN_VIDEO || !mode_of_word(word, &value, &divided)) return 0;
    if (r->set[vic] || (divided && r->set[family])) misuse("'%.80s': that field is given twice", word);
    r->value[vic] = value;
    r->set[vic] = 1;
    if (divided) r->value[family] = divided, r->set[family] = 1;
    return 1;
}

/* Is it a word of an ID? Where it is, of which kind, and which of these. */
static int is_trait(const char *word, int *trait, int *value) {
    for (*trait = 0; *trait < TRAITS; ++*trait)
        for (*value = 0; *value < CLOCKS; ++*value)
            if (traits[*trait][*value].word && !strcasecmp(word, traits[*trait][*value].word)) return 1;
    return 0;
}

static int take_trait(struct reading *r, const char *word) {
    int trait, value;
    if (r->section != IN_WIRING || !is_trait(word, &trait, &value)) return 0;
    if (r->trait[trait] >= 0) misuse("'%.80s' and '%s' exclude each other", word, traits[trait][r->trait[trait]].word);
    if (r->set[0]) misuse("'%.80s' stands beside an id: that says it already", word);
    r->trait[trait] = value;
    r->is_by_traits = 1;
    return 1;
}

/* "syncs" and four numbers: how many words that took, 0 where it is another word. */
static int take_syncs(struct reading *r, int count, char **words) {
    int used = 1;
    if (r->section != IN_WIRING || strcasecmp(words[0], "syncs")) return 0;
    for (size_t f = 0; f < FIELDS; f++) {
        if (fields[f].section != IN_WIRING || !may_be_left_out(&fields[f])) continue;
        if (r->set[f]) misuse("'%s': %s is given twice", words[0], fields[f].name);
        if (used == count) misuse("'%s' has %d numbers after it, and not 4: %s", words[0], used - 1, SYNC_VALUES);
        r->value[f] = (int)number_of_word(words[used++], "sync value", 0, LARGEST_SYNC_VALUE);
        r->set[f] = 1;
    }
    return used;
}

/* Is it a word, or the name, of a field of this section? */
static int is_of_section(int section, const char *word) {
    int trait, value;
    if (section == IN_WIRING && (is_trait(word, &trait, &value) || !strcasecmp(word, "syncs"))) return 1;
    for (size_t f = 0; f < FIELDS; f++) {
        size_t name = strlen(fields[f].name);
        if (fields[f].section != section) continue;
        if (!strncmp(word, fields[f].name, name) && (word[name] == '=' || (!word[name] && !fields[f].words[0].word))) return 1;
        for (size_t w = 0; w < WORDS_OF_A_FIELD && fields[f].words[w].word; w++)
            if (!strcasecmp(word, fields[f].words[w].word)) return 1;
    }
    return 0;
}

static void no_word(const struct reading *r, const char *word) {
    if (r->section != IN_WIRING && is_of_section(IN_WIRING, word))
        misuse("'%.80s' is a word of the wiring: that stands in front of all others, behind '%s'", word, sections[IN_WIRING].opens);
    misuse("'%.80s' is no word of the %s section", word, r->section == IN_WIRING ? "wiring or the video" : sections[r->section].name);
}

/* Reads a field, or a number after the last field: how many words that took. */
static int take(struct reading *r, int count, char **words) {
    int whole = 1, used, twice = 0;
    for (size_t f = 0; f < FIELDS; f++) {
        if (fields[f].section != r->section) continue;
        whole = whole && r->set[f];
        if (r->set[f] && r->numbers < sections[r->section].numbers) continue;
        int value = value_of(&fields[f], count, words, &used);
        if (value < 0) continue;
        if (r->set[f]) {
            twice = 1;
            continue;
        }
        if (r->is_by_traits && r->section == IN_WIRING && f == 0) misuse("'%.80s' stands beside words of an id: those say it already", words[0]);
        r->value[f] = value;
        r->set[f] = 1;
        return used;
    }
    look_for_factor(r, words[0]);
    if (whole && r->numbers < sections[r->section].numbers) {
        long number = number_of_word(words[0], "coefficient", -4096, 4095);
        r->number[2 * r->numbers] = (uint8_t)(((unsigned long)number & 0xFFFF) >> 8);
        r->number[2 * r->numbers + 1] = (uint8_t)((unsigned long)number & 0xFF);
        r->numbers++;
        return 1;
    }
    if (twice) misuse("'%.80s': that field is given twice", words[0]);
    no_word(r, words[0]);
    return 0;
}

/* The sections before this one are over. */
static void go_to(struct reading *r, int section) {
    for (; r->section < section; r->section++)
        if (r->given[r->section]) close_section(r);
}

struct request request_of_words(int count, char **words) {
    struct request q = { { 0 }, 0 };
    struct reading r;
    size_t longest = 0;
    for (int s = 0; s < SECTIONS; s++) longest += 1 + count_of(s);
    if (longest != STATION_REQUEST) misuse("the longest request has %u bytes, and by station.h %u", (unsigned)longest, STATION_REQUEST);
    memset(&r, 0, sizeof r);
    for (int t = 0; t < TRAITS; t++) r.trait[t] = -1;
    r.given[IN_VIDEO] = 1;
    for (int w = 0, used; w < count; ) {
        int opens = -1;
        for (int s = 0; s < SECTIONS; s++)
            if (sections[s].opens && !strcasecmp(words[w], sections[s].opens)) opens = s;
        if (opens >= 0) {
            if (opens < r.section || r.given[opens]) misuse("'%s' stands twice, or behind a later section", words[w]);
            go_to(&r, opens);
            r.given[opens] = 1;
            w++;
            continue;
        }
        /* No word opens the video section: the first that is not of the wiring does. */
        if (r.section == IN_WIRING && !(r.given[IN_WIRING] && is_of_section(IN_WIRING, words[w]))) {
            if (r.given[IN_WIRING] && !is_of_section(IN_VIDEO, words[w]) && !modes_of_name(words[w])) no_word(&r, words[w]);
            go_to(&r, IN_VIDEO);
        }
        if (take_trait(&r, words[w]) || take_table(&r, words[w]) || take_mode(&r, words[w])) w++;
        else if ((used = take_syncs(&r, count - w, words + w)) || (used = take_factors(&r, count - w, words + w))) w += used;
        else w += take(&r, count - w, words + w);
    }
    go_to(&r, SECTIONS);
    for (int s = 0; s < SECTIONS; s++) {
        size_t bytes = 0;
        uint8_t *at = q.bytes + q.length + 1;
        for (size_t f = 0; f < FIELDS; f++) {
            if (fields[f].section != s || !r.given[s] || !r.set[f]) continue;
            put(&fields[f], r.value[f], at);
            if (end_of(&fields[f]) > bytes) bytes = end_of(&fields[f]);
        }
        if (r.given[s]) memcpy(at + bytes, r.number, 2 * sections[s].numbers), bytes += 2 * sections[s].numbers;
        q.bytes[q.length] = (uint8_t)bytes;
        q.length += 1 + bytes;
    }
    return q;
}

struct request request_of_text(const char *format, ...) {
    char text[TEXT_OF_A_REQUEST], *words[TEXT_OF_A_REQUEST / 2];
    int count = 0;
    va_list list;
    va_start(list, format);
    vsnprintf(text, sizeof text, format, list);
    va_end(list);
    for (char *word = strtok(text, " "); word; word = strtok(NULL, " ")) words[count++] = word;
    return request_of_words(count, words);
}

/* Where the byte of a field stands in a request; 0, where no field's does, if its section is left out. */
static size_t place_of(const struct request *q, const struct field *f) {
    size_t at = 0;
    for (int s = 0; s < f->section && at < q->length; s++) at += 1u + q->bytes[at];
    return at < q->length && q->bytes[at] >= end_of(f) && at + end_of(f) < q->length ? at + 1u + f->at : 0;
}

int value_of_field(const struct request *q, const char *name) {
    const struct field *f = field_of(name);
    size_t at = place_of(q, f);
    return at ? value_in(f, q->bytes + at - f->at) : -1;
}

struct request with_field(struct request q, const char *name, int value) {
    const struct field *f = field_of(name);
    size_t at = place_of(&q, f);
    if (at) put(f, value, q.bytes + at - f->at);
    return q;
}

const uint8_t *matrix_of_request(const struct request *q) {
    size_t at = place_of(q, field_of("mode"));
    return at ? q->bytes + at : NULL;
}

struct request as_read_back(struct request q) {
    q = with_field(q, "family", 0);
    if (value_of_field(&q, "quantisation") == 0 && value_of_field(&q, "content") == 0 && value_of_field(&q, "reserved") == 0)
        q = with_field(q, "edition", 0);
    return q;
}

const struct wiring *wiring_of_request(const struct request *q) {
    int id = value_of_field(q, "id");
    return id < 0 ? &wirings[0] : id > 0 ? wiring_of_id(id) : NULL;
}

struct request with_wiring(struct request q, const struct request *of) {
    struct request r = *of;
    r.length = 1u + of->bytes[0];
    memcpy(r.bytes + r.length, q.bytes + 1 + q.bytes[0], q.length - 1 - q.bytes[0]);
    r.length += q.length - 1 - q.bytes[0];
    return r;
}

/* The set of codes that a wiring has of a field; all where it is a field of another kind. */
static unsigned codes_of(const struct wiring *w, const struct field *f) {
    return f == field_of("width") ? w->widths : f == field_of("style") ? w->styles : f == field_of("justified") ? w->sides : ~0u;
}

static int is_defined(const struct wiring *w, const struct field *f, int value) {
    return f->bits > 8 ? value <= LARGEST_SYNC_VALUE : codes_of(w, f) == ~0u || (value < 8 && codes_of(w, f) >> value & 1);
}

int is_wiring(const struct request *q) {
    const struct wiring *w = wiring_of_request(q);
    if (q->bytes[0] == 0) return 1;
    if (!w || q->bytes[0] != (is_embedded(w) ? count_of(IN_WIRING) : sections[IN_WIRING].short_count)) return 0;
    for (size_t f = 0; f < FIELDS; f++)
        if (fields[f].section == IN_WIRING && end_of(&fields[f]) <= q->bytes[0] &&
            !is_defined(w, &fields[f], value_in(&fields[f], q->bytes + 1))) return 0;
    return 1;
}

int is_code_of_wiring(const struct wiring *w, const char *name, int code) { return is_defined(w, field_of(name), code); }

const char *words_of_codes(const struct wiring *w, const char *name, char text[WORDS_OF_CODES]) {
    const struct field *f = field_of(name);
    *text = 0;
    for (size_t k = 0; k < WORDS_OF_A_FIELD && f->words[k].word; k++)
        if (is_defined(w, f, f->words[k].value))
            snprintf(text + strlen(text), WORDS_OF_CODES - strlen(text), "%s%s", *text ? ", " : "", f->words[k].word);
    return text;
}

void registers_of_syncs(const uint16_t values[SYNC_VALUES_OF_A_ROW], uint8_t left[SYNC_REGISTERS]) {
    uint8_t image[STATION_IMAGE] = { 0 }, writes[STATION_WRITES];
    struct request q = request_of_text("input 422 embedded 8bit style1 syncs %u %u %u %u vic 4 ycbcr422 hdmi", values[0], values[1],
                                       values[2], values[3]);
    struct station_count n = station_plan(q.bytes, q.length, image, sizeof image, writes, sizeof writes);
    for (uint32_t i = 0; i < n.count; i++) image[writes[2 * i]] = writes[2 * i + 1];
    memcpy(left, image + FIRST_SYNC_REGISTER, SYNC_REGISTERS);
}

/* ---- Bytes to words. */

static int number_in(const uint8_t *bytes) {
    int value = 256 * bytes[0] + bytes[1];
    return value < 32768 ? value : value - 65536;
}

/* Which table of the guide a matrix is: its number, or 0. */
static unsigned table_of(const uint8_t *matrix) {
    uint8_t body[1 + 2 * COEFFICIENTS_OF_A_TABLE];
    for (size_t t = 0; t < COUNT(tables); t++) {
        body_of(&tables[t], 1, body);
        if (!memcmp(body, matrix, sizeof body)) return tables[t].number;
    }
    return 0;
}

static void add(char *text, const char *format, ...) {
    size_t used = strlen(text);
    va_list list;
    va_start(list, format);
    vsnprintf(text + used, TEXT_OF_A_REQUEST - used, format, list);
    va_end(list);
}

/* The word of a field's value, or NULL. */
static const char *word_of(const struct field *f, int value) {
    const struct word *w = row_of(f, value);
    return w ? w->word : NULL;
}

const char *word_of_value(const char *name, int value) { return word_of(field_of(name), value); }

static int is_count_of(int section, size_t count) {
    return count == count_of(section) || (sections[section].short_count && count == sections[section].short_count);
}

int words_of_request(const uint8_t *request, size_t length, char text[TEXT_OF_A_REQUEST]) {
    size_t at = 0;
    *text = 0;
    for (int s = 0; s < SECTIONS; s++) {
        if (at == length) return 0;
        size_t count = request[at++];
        const uint8_t *body = request + at;
        int are_small = 1;
        if (count == 0 && sections[s].opens) continue;
        if (!is_count_of(s, count) || length - at < count) return 0;
        if (sections[s].opens) add(text, " %s", sections[s].opens);
        at += count;
        if (s == IN_MATRIX && table_of(body)) {
            add(text, " table%u", table_of(body));
            continue;
        }
        for (size_t f = 0; f < FIELDS; f++)
            if (fields[f].section == s && fields[f].bits > 8 && end_of(&fields[f]) <= count)
                are_small &= value_in(&fields[f], body) <= LARGEST_SYNC_VALUE;
        for (size_t f = 0, syncs = 0; f < FIELDS; f++) {
            if (fields[f].section != s || end_of(&fields[f]) > count) continue;
            int value = value_in(&fields[f], body);
            const char *word = word_of(&fields[f], value);
            if (fields[f].bits > 8) {
                if (are_small) add(text, syncs++ ? " %d" : " syncs %d", value);
                else add(text, " %s=%d", fields[f].name, value);
                continue;
            }
            if (f == 0 && value > 0 && wiring_of_id(value)) {
                char words[WORDS_OF_A_WIRING];
                add(text, " %s", words_of_wiring(wiring_of_id(value), words));
                continue;
            }
            if (word && fields[f].usual && !strcmp(word, fields[f].usual)) continue;
            if (word) add(text, " %s", word);
            else add(text, fields[f].words[0].word ? " %s=%d" : " %s %d", fields[f].name, value);
        }
        for (size_t n = 0; n < sections[s].numbers; n++) add(text, " %d", number_in(body + bytes_of_fields(s) + 2 * n));
    }
    memmove(text, text + 1, strlen(text));
    return at == length;
}

void text_of_mode(uint8_t vic, uint8_t family, char *text, size_t room) {
    snprintf(text, room, "no mode that is listed");
    for (size_t m = 0; m < COUNT(modes); m++)
        if (modes[m].vic == vic) snprintf(text, room, "%s %.5g Hz, %s", modes[m].lines, frame_rate(&modes[m], family), modes[m].aspect);
}

/* What a field's value means. */
static void meaning(const struct field *f, const uint8_t *body, size_t there, char *text, size_t room) {
    int value = value_in(f, body);
    const struct word *w = row_of(f, value);
    const struct wiring *of = f->section == IN_WIRING && body[0] ? wiring_of_id(body[0]) : NULL;
    if (w) snprintf(text, room, of && !is_defined(of, f, value) ? "%s, which id %u has not" : "%s", w->says, body[0]);
    else if (f->bits > 8 && value <= LARGEST_SYNC_VALUE) snprintf(text, room, "%d", value);
    else snprintf(text, room, "%d, outside its range", value);
    if (f == field_of("id")) {
        if (of) snprintf(text, room, "%d: %s, %s, %s", value, traits[COLOUR][of->colour].says, traits[SYNC][of->syncs].says,
                         traits[CLOCK][of->clock].says);
        else snprintf(text, room, value ? "%d, outside its range" : "%d: today's board, which has no section", value);
    }
    if (f == field_of("vic")) {
        const struct field *family = field_of("family");
        char mode[64];
        text_of_mode((uint8_t)value, there > family->at ? (uint8_t)value_in(family, body) : 0, mode, sizeof mode);
        snprintf(text, room, "%d: %s", value, mode);
    }
}

/* The columns of a line: a name, bytes in hex, what they mean. */
#define NAMED "  %-12s  "
#define LINE NAMED "%-7s  "
enum { BYTES = 16 };

/* A field's byte in hex; where it has not the whole byte, with its bits. */
static const char *digits_of(const struct field *f, const uint8_t *body, char text[BYTES]) {
    if (f->bits > 8) snprintf(text, BYTES, "%02x %02x", body[f->at], body[f->at + 1]);
    else if (f->bits == 8) snprintf(text, BYTES, "%02x", body[f->at]);
    else snprintf(text, BYTES, "%02x[%d:%d]", body[f->at], f->shift + f->bits - 1, f->shift);
    return text;
}

void explain_request(FILE *to, const uint8_t *request, size_t length) {
    size_t at = 0;
    char text[128], digits[BYTES], name[3];
    for (int s = 0; s < SECTIONS; s++) {
        if (at == length) {
            fprintf(to, LINE "no count: the bytes end here\n", sections[s].name, "--");
            return;
        }
        size_t count = request[at], want = is_count_of(s, count) ? count : count_of(s), there = length - at - 1;
        int left_out = count == 0 && sections[s].opens;
        snprintf(digits, sizeof digits, "%02x", request[at]);
        fprintf(to, LINE "%s\n", sections[s].name, digits,
                left_out ? (s == IN_WIRING ? "none: today's board, RGB of 24 bits" : "none")
                         : count == want ? "its count" : "a count that is not allowed");
        at++;
        if (left_out) continue;
        if (count != want) return;
        if (there > want) there = want;
        for (size_t f = 0; f < FIELDS; f++) {
            if (fields[f].section != s || end_of(&fields[f]) > there) continue;
            meaning(&fields[f], request + at, there, text, sizeof text);
            fprintf(to, LINE "%s\n", fields[f].name, digits_of(&fields[f], request + at, digits), text);
        }
        for (size_t n = 0, first = bytes_of_fields(s); n < sections[s].numbers && first + 2 * n + 1 < there; n++) {
            const uint8_t *bytes = request + at + first + 2 * n;
            int value = number_in(bytes);
            snprintf(digits, sizeof digits, "%02x %02x", bytes[0], bytes[1]);
            fprintf(to, LINE "%d%s\n", name_of_number(n, name), digits, value, value < -4096 || value > 4095 ? ", outside its range" : "");
        }
        if (there < want) {
            fprintf(to, "  the bytes end inside the %s section: %u of %u\n", sections[s].name, (unsigned)there, (unsigned)want);
            return;
        }
        at += want;
    }
    if (at < length) fprintf(to, "  and %u bytes more\n", (unsigned)(length - at));
}

/* A field's value as a word or a number; "none" in a section that is left out. */
static void short_of(const struct field *f, const uint8_t *section, char *text, size_t room) {
    const char *word = section[0] >= end_of(f) ? word_of(f, value_in(f, section + 1)) : "none";
    if (word) snprintf(text, room, "%s", word);
    else snprintf(text, room, "%d", value_in(f, section + 1));
}

int explain_changes(FILE *to, const uint8_t *before, const uint8_t *after) {
    char was[32], is[32], name[3];
    int changes = 0;
    for (int s = 0; s < SECTIONS; before += 1 + before[0], after += 1 + after[0], s++) {
        if (before[0] == 0 && after[0] == 0) continue;
        for (size_t f = 0; f < FIELDS; f++) {
            if (fields[f].section != s) continue;
            short_of(&fields[f], before, was, sizeof was);
            short_of(&fields[f], after, is, sizeof is);
            if (strcmp(was, is)) fprintf(to, NAMED "%s -> %s\n", fields[f].name, was, is), changes++;
        }
        for (size_t n = 0; n < sections[s].numbers && before[0] && after[0]; n++) {
            size_t at = 1 + bytes_of_fields(s) + 2 * n;
            int old = number_in(before + at), new = number_in(after + at);
            if (old != new) fprintf(to, NAMED "%d -> %d\n", name_of_number(n, name), old, new), changes++;
        }
    }
    return changes;
}

void explain_words(FILE *to) {
    char text[TEXT_OF_A_REQUEST];
    for (size_t f = 0, syncs = 0; f < FIELDS; f++) {
        if (may_be_left_out(&fields[f])) {
            if (!syncs++) fprintf(to, "  %-6s %-12s %s\n", "", "syncs", "syncs and four numbers, 0 to 1023, where embedded");
            continue;
        }
        fprintf(to, "  %-6s %-12s %s%s%s%s\n", f == 0 || fields[f].section != fields[f - 1].section ? sections[fields[f].section].name : "",
                fields[f].name, words_of_field(&fields[f], text, sizeof text), fields[f].usual ? " (" : "",
                fields[f].usual ? fields[f].usual : "", fields[f].usual ? " where none is given)" : "");
    }
}
