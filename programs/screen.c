#include "screen.h"
#include "clocks.h"
#include "fields.h"
#include "fits.h"
#include "guide.h"
#include "words.h"
#include <stdarg.h>
#include <string.h>

#define COUNT(a) (sizeof (a) / sizeof (a)[0])

/* Where things stand: in the base block, and in an extension. Document 02, request 12, and CEA-861-D have the rest. */
enum { MAKER = 8, DESCRIPTORS = 54, OF_A_DESCRIPTOR = 18, NUMBER_OF_DESCRIPTORS = 4, COUNTED = 126, SUM = 127 };
enum { TAG = 0, REVISION = 1, OFFSET = 2, FLAGS = 3, FIRST = 4, LAST_OFFSET = 127, CEA = 2, WITH_DATA_BLOCKS = 3 };
enum { AUDIO = 1, VIDEO, VENDOR, SPEAKERS, EXTENDED = 7, OF_AN_AUDIO = 3, PCM = 1, SET_OF_RATES = 0x7F, NATIVE = 0x80, VIC_OF = 0x7F };
enum { LAST_NATIVE = 192, VICS_OF_ANSWER = 64 };

/* ---- The walk. */

static uint8_t sum_of(const uint8_t *block) {
    unsigned sum = 0;
    for (size_t k = 0; k < OF_A_BLOCK; k++) sum += block[k];
    return (uint8_t)sum;
}

static int has_length(size_t length) { return length == OF_A_BLOCK || length == STATION_EDID; }
static int has_header(const uint8_t *edid, size_t length) { return length >= HEADER && !memcmp(edid, header_of_edid, HEADER); }
static int is_offset_good(unsigned offset) { return offset == 0 || (offset >= FIRST && offset <= LAST_OFFSET); }
static const uint8_t *extension_of(const struct screen *s) { return s->length > OF_A_BLOCK ? s->edid + OF_A_BLOCK : NULL; }

static int format_of(const uint8_t *descriptor) { return descriptor[0] >> 3 & 15; }
static int channels_of(const uint8_t *descriptor) { return (descriptor[0] & 7) + 1; }

/* The data blocks, to the offset: whether each ends there or before. */
static int walk(struct screen *s, const uint8_t *x) {
    unsigned end = x[REVISION] < WITH_DATA_BLOCKS ? 0 : x[OFFSET];
    for (unsigned at = FIRST; at < end; at += 1 + s->block[s->number - 1].length) {
        struct data_block *b = &s->block[s->number++];
        *b = (struct data_block){ at, x[at] >> 5, x[at] & 31 };
        if (at + 1 + b->length > end) return 0;
    }
    return 1;
}

static void take(struct screen *s, const struct data_block *b) {
    const uint8_t *body = s->edid + OF_A_BLOCK + b->at + 1;
    for (unsigned k = 0; b->tag == VIDEO && k < b->length; k++)
        if (body[k] & VIC_OF) s->listed[body[k] & VIC_OF] |= body[k];
    for (unsigned k = 0; b->tag == AUDIO && k + OF_AN_AUDIO <= b->length; k += OF_AN_AUDIO) {
        if (format_of(body + k) != PCM) continue;
        if (channels_of(body + k) >= FEW_CHANNELS) s->rates[FEW] |= body[k + 1] & SET_OF_RATES;
        if (channels_of(body + k) >= MANY_CHANNELS) s->rates[MANY] |= body[k + 1] & SET_OF_RATES;
    }
}

struct screen screen_of(const uint8_t *edid, size_t length) {
    struct screen s;
    memset(&s, 0, sizeof s);
    s.edid = edid;
    s.length = length;
    if (!has_length(length) || !has_header(edid, length)) s.refusal = STATION_EDID_LENGTH;
    for (size_t at = 0; !s.refusal && at < length; at += OF_A_BLOCK)
        if (sum_of(edid + at)) s.refusal = STATION_EDID_SUM;
    const uint8_t *x = extension_of(&s);
    if (s.refusal || !x) return s;
    if (x[TAG] != CEA || !is_offset_good(x[OFFSET]) || !walk(&s, x)) s.refusal = STATION_EDID_BLOCK;
    for (size_t k = 0; !s.refusal && k < s.number; k++) take(&s, &s.block[k]);
    return s;
}

int is_same(const struct screen *s, struct station_monitor m) {
    uint32_t vics[2] = { 0, 0 };
    for (int vic = 0; vic < VICS_OF_ANSWER; vic++)
        if (s->listed[vic]) vics[vic / 32] |= (uint32_t)1 << vic % 32;
    return m.refusal == s->refusal && m.vics_low == vics[0] && m.vics_high == vics[1] && m.rates_2 == s->rates[FEW] && m.rates_8 == s->rates[MANY];
}

int is_listed(const struct screen *s, int vic) { return vic >= 0 && vic < OF_A_BLOCK && s->listed[vic]; }

int is_covered(const struct screen *s, int rate, int channels) {
    return rate >= 0 && rate < RATES && (channels == FEW_CHANNELS || channels == MANY_CHANNELS) && s->rates[channels == MANY_CHANNELS] >> rate & 1;
}

/* ---- Words. */

enum { WIDTH = 79 };
void tell(FILE *to, int in, const char *format, ...) {
    char text[TEXT];
    int used = 0;
    va_list list;
    va_start(list, format);
    vsnprintf(text, sizeof text, format, list);
    va_end(list);
    char *at = text;
    for (; *at == ' '; at++, used++) fputc(' ', to);
    for (char *word = strtok(at, " "); word; word = strtok(NULL, " ")) {
        int length = (int)strlen(word), is_first = word == at;
        if (!is_first && used + 1 + length > WIDTH) used = fprintf(to, "\n%*s", in, "") - 1;
        else if (!is_first) used += fprintf(to, " ");
        used += fprintf(to, "%s", word);
    }
    fprintf(to, "\n");
}

const char *text_of_rates(uint8_t set, char text[TEXT_OF_RATES]) {
    snprintf(text, TEXT_OF_RATES, set & SET_OF_RATES ? "" : "none");
    for (int rate = 0; rate < RATES; rate++)
        if (set >> rate & 1) snprintf(text + strlen(text), TEXT_OF_RATES - strlen(text), "%s%g", *text ? ", " : "", hertz[rate] / 1000.0);
    if (set & SET_OF_RATES) snprintf(text + strlen(text), TEXT_OF_RATES - strlen(text), " kHz");
    return text;
}

/* A table of names by number; what is not there is reserved, or later than these. */
struct named { unsigned number; const char *name; };
static const char *name_in(const struct named *table, size_t rows, unsigned number, const char *other) {
    for (size_t k = 0; k < rows; k++)
        if (table[k].number == number) return table[k].name;
    return other;
}
#define NAME_IN(table, number, other) name_in(table, COUNT(table), number, other)

static const char *name_of_block(unsigned tag) {
    static const struct named tags[] = {
        { AUDIO, "audio" }, { VIDEO, "video" }, { VENDOR, "vendor-specific" }, { SPEAKERS, "speaker allocation" },
        { 5, "VESA display transfer characteristic" }, { EXTENDED, "extended" },
    };
    return NAME_IN(tags, tag, "reserved");
}

static const char *name_of_extended(unsigned code) {
    static const struct named codes[] = {
        { 0, "video capability" }, { 1, "vendor-specific video" }, { 2, "VESA display device" }, { 3, "VESA video timing" }, { 5, "colorimetry" },
        { 6, "HDR static metadata" }, { 7, "HDR dynamic metadata" }, { 13, "video format preference" }, { 14, "YCbCr 4:2:0 video" },
        { 15, "YCbCr 4:2:0 capability map" }, { 17, "vendor-specific audio" }, { 19, "room configuration" }, { 20, "speaker location" },
        { 32, "InfoFrame" }, { 120, "HDMI Forum EDID extension override" }, { 121, "HDMI Forum sink capability" },
    };
    return NAME_IN(codes, code, "reserved");
}

static const char *name_of_format(int format) {
    static const char *const formats[] = {
        "reserved", "linear PCM", "AC-3", "MPEG-1", "MP3", "MPEG-2", "AAC", "DTS", "ATRAC", "one bit audio", "enhanced AC-3", "DTS-HD", "MAT", "DST",
        "WMA Pro", "an extended format",
    };
    return formats[format];
}

void add_words(char text[TEXT], const char *format, ...) {
    size_t used = strlen(text);
    va_list list;
    va_start(list, format);
    vsnprintf(text + used, TEXT - used, format, list);
    va_end(list);
}

static const char *name_of_extension(uint8_t tag) {
    static const struct named kinds[] = {
        { CEA, "a CEA-861 extension" }, { 0x10, "video timings" }, { 0x40, "display information" }, { 0x50, "localised strings" },
        { 0x60, "a digital packet link" }, { 0x70, "DisplayID" }, { 0xF0, "a block map" }, { 0xFF, "of the maker" },
    };
    return NAME_IN(kinds, tag, "of no kind that is known here");
}

const char *text_of_extensions(const struct dump *d, size_t but, char text[TEXT]) {
    enum { NAMED = 8 };
    size_t named = 0, more = 0;
    *text = 0;
    for (size_t b = 1; b < d->length / OF_A_BLOCK; b++) {
        uint8_t tag = d->bytes[b * OF_A_BLOCK];
        if (b == but || named == NAMED) more += b != but;
        else add_words(text, "%s%u (%s, tag 0x%02x)", named++ ? ", " : "", (unsigned)b, name_of_extension(tag), tag);
    }
    if (more) add_words(text, " and %u more", (unsigned)more);
    return text;
}

/* The letters of a text descriptor end with a line feed. What could mislead an eye or a terminal is shown by its number, and so is a blank beside
 * another. */
static void add_letters(char *text, const uint8_t *letters, size_t count) {
    while (count > 0 && letters[count - 1] == ' ') count--;
    for (size_t k = 0; k < count; k++) {
        int is_plain = letters[k] > ' ' && letters[k] <= '~' && !strchr("<>'\\", letters[k]), is_blank = letters[k] == ' ' && k > 0 && letters[k - 1] != ' ';
        add_words(text, is_plain || is_blank ? "%c" : "<0x%02x>", letters[k]);
    }
}

const char *text_of_name(const uint8_t *edid, char text[TEXT]) {
    static const uint8_t of_a_name[] = { 0, 0, 0, 0xFC, 0 };
    unsigned maker = edid[MAKER] * 256u + edid[MAKER + 1], letter[3] = { maker >> 10 & 31, maker >> 5 & 31, maker & 31 };
    int is_maker = maker < 0x8000;
    for (int k = 0; k < 3; k++) is_maker &= letter[k] >= 1 && letter[k] <= 26;
    if (is_maker) snprintf(text, TEXT, "%c%c%c", '@' + letter[0], '@' + letter[1], '@' + letter[2]);
    else snprintf(text, TEXT, "A maker <0x%04x>", maker);
    for (int k = 0; k < NUMBER_OF_DESCRIPTORS; k++) {
        const uint8_t *at = edid + DESCRIPTORS + k * OF_A_DESCRIPTOR, *letters = at + sizeof of_a_name;
        size_t most = OF_A_DESCRIPTOR - sizeof of_a_name;
        if (memcmp(at, of_a_name, sizeof of_a_name)) continue;
        const uint8_t *end = memchr(letters, '\n', most);
        add_words(text, " '");
        add_letters(text, letters, end ? (size_t)(end - letters) : most);
        add_words(text, "'");
    }
    return text;
}

/* ---- What the station can show there. */

int is_of_station(int vic) {
    for (size_t m = 0; m < number_of_modes; m++)
        if (modes[m].vic == vic) return 1;
    return 0;
}

const char *word_of_wish(uint8_t vic, uint8_t family, char text[NAME_OF_A_MODE]) {
    *text = 0;
    for (const struct mode *m = modes; m < modes + number_of_modes && family < FAMILIES; m++)
        if (m->vic == vic) name_of_mode(m, family, text);
    if (!*text) snprintf(text, NAME_OF_A_MODE, family ? "%u/%u" : "%u", vic, family);
    return text;
}

static void print_modes(FILE *to, const struct screen *s) {
    char text[TEXT] = "", others[TEXT] = "";
    int later = 0, some = 0;
    for (const struct mode *m = modes; m < modes + number_of_modes; m++) {
        char lead[48], rates[48] = "", wishes[80] = "", name[NAME_OF_A_MODE];
        if (!is_listed(s, m->vic)) {
            add_words(text, "%s%u", *text ? ", " : "", m->vic);
            continue;
        }
        if (!some++) fprintf(to, "\nModes of the station that it lists, and the wishes that name them:\n");
        snprintf(lead, sizeof lead, "%s %s", m->lines, m->aspect);
        for (uint8_t family = 0; family < FAMILIES && pixel_clock(m->vic, family).over; family++) {
            snprintf(rates + strlen(rates), sizeof rates - strlen(rates), "%s%.5g", family ? ", " : "", frame_rate(m, family));
            snprintf(wishes + strlen(wishes), sizeof wishes - strlen(wishes), "%s%s", family ? ", " : "", word_of_wish(m->vic, family, name));
        }
        fprintf(to, "%5u  %-16s %s Hz%*s%s%s\n", m->vic, lead, rates, (int)(12 - strlen(rates)), "", wishes,
                s->listed[m->vic] & NATIVE ? " (native)" : "");
    }
    if (!some) fprintf(to, "\nOf the modes of the station it lists none.\n");
    else if (*text) tell(to, 2, "It does not list VIC %s.", text);
    for (int vic = 1; vic < OF_A_BLOCK; vic++) {
        if (!is_listed(s, vic) || is_of_station(vic)) continue;
        add_words(others, "%s%d", *others ? ", " : "", vic);
        if (s->listed[vic] > LAST_NATIVE) add_words(others, "*"), later = 1;
    }
    if (*others) tell(to, 2, "It lists, and no request can have, VIC %s.", others);
    if (later) tell(to, 2, "* in later editions of CEA-861 that byte is a VIC of its own, 128 more.");
}

/* Eight channels that are covered, and do not fit into the blanking of a mode that is listed. */
static void print_room(FILE *to, const struct screen *s) {
    for (const struct mode *m = modes; m < modes + number_of_modes; m++) {
        int highest = highest_rate(m->vic, 0, MANY_CHANNELS);
        uint8_t above = (uint8_t)(s->rates[MANY] >> (highest + 1) << (highest + 1));
        char rates[TEXT_OF_RATES], text[TEXT] = "";
        if (!is_listed(s, m->vic) || !above) continue;
        for (int r = 1; r < REPETITIONS; r++)
            if (highest_rate(m->vic, r, MANY_CHANNELS) > highest)
                add_words(text, "; each pixel %s, up to %g", word_of_value("repetition", r), hertz[highest_rate(m->vic, r, MANY_CHANNELS)] / 1000.0);
        tell(to, 2, "VIC %u has no room for %d channels at %s (refusal 20): up to %g%s", m->vic, MANY_CHANNELS, text_of_rates(above, rates),
             hertz[highest] / 1000.0, text);
    }
}

static void print_sound(FILE *to, const struct screen *s) {
    char rates[TEXT_OF_RATES];
    int some = 0;
    if (!s->rates[FEW]) {
        fprintf(to, "\nNo short audio descriptor of linear PCM covers a sound that a request can have.\n");
    } else {
        fprintf(to, "\nSound that it covers, linear PCM:\n");
        fprintf(to, "  %d channels  %s\n", FEW_CHANNELS, text_of_rates(s->rates[FEW], rates));
        fprintf(to, "  %d channels  %s\n", MANY_CHANNELS, text_of_rates(s->rates[MANY], rates));
    }
    for (size_t k = 0; k < s->number; k++)
        for (unsigned a = 0; s->block[k].tag == AUDIO && a + OF_AN_AUDIO <= s->block[k].length; a += OF_AN_AUDIO) {
            const uint8_t *d = extension_of(s) + s->block[k].at + 1 + a;
            int channels = channels_of(d);
            if (format_of(d) != PCM || channels == FEW_CHANNELS || channels >= MANY_CHANNELS) continue;
            if (!some++) fprintf(to, "A request has %d channels or %d, so of these descriptors\n", FEW_CHANNELS, MANY_CHANNELS);
            tell(to, 4, "  %d channel%s at %s: %s", channels, channels == 1 ? "" : "s", text_of_rates(d[1], rates),
                 channels < FEW_CHANNELS || !(d[1] & SET_OF_RATES) ? "covers none" : "covers two channels alone");
        }
    print_room(to, s);
}

/* ---- What was passed over. */

static void print_rest_of_block(FILE *to, const uint8_t *x, const struct data_block *b) {
    const uint8_t *body = x + b->at + 1;
    unsigned rest = b->tag == AUDIO ? b->length % OF_AN_AUDIO : 0, nothing = 0;
    for (unsigned k = 0; b->tag == AUDIO && k + OF_AN_AUDIO <= b->length; k += OF_AN_AUDIO)
        if (format_of(body + k) != PCM)
            fprintf(to, "  0x%02x  sound that is not linear PCM: %s, %d channel%s\n", b->at + 1 + k, name_of_format(format_of(body + k)),
                    channels_of(body + k), channels_of(body + k) == 1 ? "" : "s");
    if (rest) fprintf(to, "  0x%02x  %u byte%s of an audio block: a descriptor has three\n", b->at + 1 + b->length - rest, rest, rest == 1 ? "" : "s");
    for (unsigned k = 0; b->tag == VIDEO && k < b->length; k++) nothing += !(body[k] & VIC_OF);
    if (nothing) fprintf(to, "  0x%02x  %u short video descriptor%s with VIC 0, which is none\n", b->at, nothing, nothing == 1 ? "" : "s");
    if (b->tag == VIDEO || b->tag == AUDIO) return;
    if (b->tag == VENDOR && b->length >= 3) {
        static const struct named vendors[] = { { 0x000C03, ", of HDMI" }, { 0xC45DD8, ", of the HDMI Forum" } };
        unsigned id = (unsigned)(body[2] << 16 | body[1] << 8 | body[0]);
        fprintf(to, "  0x%02x  the vendor-specific data block %06x%s\n", b->at, id, NAME_IN(vendors, id, ""));
    } else if (b->tag == EXTENDED && b->length)
        fprintf(to, "  0x%02x  the %s data block (extended tag %u)\n", b->at, name_of_extended(body[0]), body[0]);
    else fprintf(to, "  0x%02x  the %s data block (tag %u)\n", b->at, name_of_block(b->tag), b->tag);
}

static void print_passed_over(FILE *to, const struct screen *s) {
    static const struct { uint8_t bit; const char *says; } flags[] = {
        { 0x40, "basic audio, which is no descriptor and covers no sound" }, { 0x20, "YCbCr 4:4:4" }, { 0x10, "YCbCr 4:2:2" },
    };
    const uint8_t *x = extension_of(s);
    fprintf(to, "\nPassed over, for the library does not look at it:\n");
    fprintf(to, "  all of the base block but its header and its sum, so its timings too\n");
    if (!x) return;
    for (size_t k = 0; x[REVISION] >= 2 && k < COUNT(flags); k++)
        if (x[FLAGS] & flags[k].bit) fprintf(to, "  0x%02x  %s\n", FLAGS, flags[k].says);
    for (size_t k = 0; k < s->number; k++) print_rest_of_block(to, x, &s->block[k]);
    for (unsigned k = x[OFFSET] ? x[OFFSET] : SUM; k < SUM; k++)
        if (x[k]) {
            fprintf(to, "  0x%02x  what stands behind the data blocks: detailed timings\n", x[OFFSET]);
            break;
        }
    fprintf(to, "Numbers in front are addresses in the extension.\n");
}

void explain_screen(FILE *to, const struct screen *s) {
    char name[TEXT];
    const uint8_t *x = extension_of(s);
    unsigned counted = s->edid[COUNTED];
    text_of_name(s->edid, name);
    if (x) tell(to, 0, "%s: an EDID of %u bytes, the base block and a CEA-861 extension of revision %u.", name, (unsigned)s->length, x[REVISION]);
    else tell(to, 0, "%s: an EDID of %u bytes, the base block alone, which lists nothing.", name, (unsigned)s->length);
    if (!x && counted)
        tell(to, 0, "Its byte %d counts %u extension%s, and none is here: read the EDID whole. The library goes by the length alone.", COUNTED,
             counted, counted == 1 ? "" : "s");
    if (x && x[REVISION] < WITH_DATA_BLOCKS) tell(to, 0, "Before revision %d an extension has no data blocks, so it lists nothing.", WITH_DATA_BLOCKS);
    else if (x && !x[OFFSET]) tell(to, 0, "Its offset (byte 2 of the extension) is 0: it has no data blocks, and lists nothing.");
    print_modes(to, s);
    print_sound(to, s);
    print_passed_over(to, s);
    tell(to, 0, "Whether the screen takes 30 or 36 bits, and whether it knows CEA-861-E, these descriptors do not tell: docs/HOST.md, points 16 and 17.");
}

/* ---- Why it is refused. */

static void explain_length(FILE *to, const struct dump *d) {
    size_t blocks = d->length / OF_A_BLOCK, at = 0, wrong = 0;
    char text[TEXT];
    if (!has_length(d->length)) {
        tell(to, 2, "It has %u bytes, and an EDID has %u, or with one extension %u.", (unsigned)d->length, (unsigned)OF_A_BLOCK, (unsigned)STATION_EDID);
        if (d->length % OF_A_BLOCK)
            tell(to, 2, "Mend: read it again, whole. Here are %u block%s and %u byte%s: is something cut off, or added at the end?", (unsigned)blocks,
                 blocks == 1 ? "" : "s", (unsigned)(d->length % OF_A_BLOCK), d->length % OF_A_BLOCK == 1 ? "" : "s");
        else {
            tell(to, 2, "That is a base block and %u extensions, block %s; the library takes one.", (unsigned)blocks - 1, text_of_extensions(d, 0, text));
            tell(to, 2, "Mend: --first takes the base block and the first CEA-861 extension, and leaves the others out.");
        }
    }
    if (has_header(d->bytes, d->length)) return;
    while (wrong < HEADER && wrong < d->length && d->bytes[wrong] == header_of_edid[wrong]) wrong++;
    if (wrong < d->length)
        tell(to, 2, "Byte %u is 0x%02x, and must be 0x%02x: an EDID begins with 00 ff ff ff ff ff ff 00.", (unsigned)wrong, d->bytes[wrong],
             header_of_edid[wrong]);
    for (at = 1; at + HEADER <= d->length && !has_header(d->bytes + at, HEADER); at++) continue;
    if (at + HEADER <= d->length) tell(to, 2, "That stands further on, from byte %u. Mend: leave out what is in front of it.", (unsigned)at);
    else tell(to, 2, "Mend: see that it is an EDID; where it is, read it again.");
}

/* The last byte is as far off as the sum. */
static void explain_sum(FILE *to, const struct screen *s) {
    for (size_t at = 0; at < s->length; at += OF_A_BLOCK) {
        uint8_t sum = sum_of(s->edid + at), last = s->edid[at + SUM];
        if (sum)
            tell(to, 2, "%s: its bytes sum to 0x%02x modulo 256, and not to 0. Its last byte, %u, is 0x%02x; with 0x%02x the sum would be 0.",
                 at ? "The extension" : "The base block", sum, (unsigned)(at + SUM), last, (uint8_t)(last - sum));
    }
    tell(to, 2, "Mend: read it again, for any byte may be the wrong one. Write another last byte only where you have changed the block by hand.");
}

static void explain_block(FILE *to, const struct screen *s) {
    const uint8_t *x = extension_of(s);
    if (x[TAG] != CEA) {
        tell(to, 2, "The extension is %s: its tag, byte 0 of it, is 0x%02x, and the library takes 0x%02x, CEA-861, alone.", name_of_extension(x[TAG]),
             x[TAG], CEA);
        tell(to, 2, "Mend: --first leaves it out; a base block alone lists nothing.");
        return;
    }
    if (!is_offset_good(x[OFFSET])) {
        tell(to, 2, "The offset, byte 2 of the extension, is %u: it says where the data blocks end, and is 0, or from %d to %d.", x[OFFSET], FIRST,
             LAST_OFFSET);
    } else {
        const struct data_block *b = &s->block[s->number - 1];
        tell(to, 2, "The %s data block (tag %u) at 0x%02x of the extension, byte %u of the EDID, has length %u: its last byte would stand at "
             "0x%02x, and the data blocks end before the offset, 0x%02x. Its length could be %u at the most.", name_of_block(b->tag), b->tag, b->at,
             OF_A_BLOCK + b->at, b->length, b->at + b->length, x[OFFSET], x[OFFSET] - b->at - 1);
    }
    tell(to, 2, "Its sum is right, so it was made so. Mend: newer firmware of the screen; or an EDID that is written by hand.");
}

void explain_refusal(FILE *to, const struct dump *d, const struct screen *s) {
    if (s->refusal == STATION_EDID_LENGTH) explain_length(to, d);
    if (s->refusal == STATION_EDID_SUM) explain_sum(to, s);
    if (s->refusal == STATION_EDID_BLOCK) explain_block(to, s);
    if (s->refusal != STATION_EDID_LENGTH && s->length > OF_A_BLOCK && s->edid[COUNTED] == 0)
        tell(to, 2, "Byte %d of the base block counts no extension: are the last %d bytes of the EDID? The library goes by the length alone.", COUNTED,
             OF_A_BLOCK);
    fprintf(to, "Read as %s, %u bytes.\n", d->form, (unsigned)d->length);
}

/* ---- Base block and first CEA-861 extension. */

/* Of whole blocks: which is the first such extension, or how many blocks there are. */
static size_t first_of(const struct dump *d) {
    size_t b = 1;
    while (b < d->length / OF_A_BLOCK && d->bytes[b * OF_A_BLOCK] != CEA) b++;
    return b;
}

void leave_out(const struct dump *d, struct dump *taken) {
    size_t blocks = d->length / OF_A_BLOCK, first = first_of(d);
    if (d->length % OF_A_BLOCK || blocks < 2) return;
    taken->length = first < blocks ? STATION_EDID : OF_A_BLOCK;
    if (first < blocks) memcpy(taken->bytes + OF_A_BLOCK, d->bytes + first * OF_A_BLOCK, OF_A_BLOCK);
}

void tell_left_out(FILE *to, const struct dump *d) {
    size_t blocks = d->length / OF_A_BLOCK, first = first_of(d);
    char text[TEXT];
    if (d->length % OF_A_BLOCK) return;
    text_of_extensions(d, first, text);
    if (!*text) return;
    if (first < blocks) tell(to, 2, "--first: the base block and block %u are taken. LEFT OUT, and not looked at: block %s.", (unsigned)first, text);
    else tell(to, 2, "--first: there is no CEA-861 extension, and the base block alone is taken. LEFT OUT, and not looked at: block %s.", text);
    tell(to, 2, "What the screen lists there is not told here. The base block's own count of extensions, %u in byte %d, is not looked at.", d->bytes[COUNTED],
         COUNTED);
}
