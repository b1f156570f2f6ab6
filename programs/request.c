/* A request from words to bytes, and from bytes to words. Whether it is accepted, and by which rule not, the library says. */
#include "clocks.h"
#include "fields.h"
#include "fits.h"
#include "guide.h"
#include "station_text.h"
#include "words.h"
#include <stdlib.h>
#include <string.h>

const char *program = "tools/request";

enum { LINES_OF_SDTV = 576 };

static const char help[] =
    "tools/request WORDS..\n"
    "tools/request --explain BYTES..\n"
    "\n"
    "Prints the bytes of a request that is given in words; with --explain, says a\n"
    "request's bytes in words, and whether it is accepted. A byte is exactly two hex\n"
    "digits, with or without blanks between.\n"
    "\n"
    "In front, where the camera is not wired as on today's board, stands 'input' and\n"
    "the words of its wiring. Then follow the words of the video section; then, where\n"
    "there is sound, 'audio' and its words; then, where there is a matrix, 'matrix'\n"
    "and one of these: its mode and twelve whole numbers from -4096 to 4095, A1 to\n"
    "A4, B1 to B4, C1 to C4; 'tableNN' (a table of the programming guide, 39 to 64,\n"
    "its misprints corrected); 'factors' and twelve numbers as a colour meter has\n"
    "them, such as 1.25, in the same order (tools/meter reads a meter's file, and\n"
    "says more of them). Within a section the fields may stand in any order:\n"
    "\n",
    more[] =
    "\n"
    "The words of an ID are 422 or rgb444 for its colours, separate or embedded for\n"
    "its syncs, and 1x, 2x, ddr or 2x-ddr for its clock; separate and 1x where none\n"
    "is given. So 'input 422 embedded' is id 2; tools/modes --wirings lists them all,\n"
    "what is defined for each, and the sync values of the modes.\n"
    "A mode may be named by its lines and its frame rate: 1080p60, 720p50, 1080i50,\n"
    "1080p59.94 (with /1.001). 'stereo' is 2 channels.\n"
    "Quantisation and content are of edition E: 861-e stands beside their words.\n"
    "'graphics', for which CEA-861-E has 0, is the same as no-type. NAME=NUMBER gives\n"
    "a field any number, also one that is refused. tools/modes lists the VICs, their\n"
    "clocks by depth and repetition, and the sound that fits. The status is 0 for a\n"
    "request that is accepted, 1 for one that is refused (its bytes are printed, the\n"
    "rule is said on the error stream) and for factors that are refused (18, 19;\n"
    "there are no bytes then), 2 for a command that is not as above.\n"
    "\n"
    "  tools/request vic 16 rgb hdmi audio 48kHz 2 coherent\n"
    "  tools/request 1080p60 rgb hdmi audio 48kHz stereo coherent\n"
    "  tools/request vic 4 /1.001 ycbcr444 hdmi matrix table43\n"
    "  tools/request vic 32 rgb hdmi 36bit audio 48kHz 8 coherent\n"
    "  tools/request vic 16 rgb hdmi 861-e photo\n"
    "  tools/request vic 1 rgb dvi matrix 1 2048 0 0 0 0 2048 0 0 0 0 2048 0\n"
    "  tools/request vic 1 rgb dvi matrix factors 1 0 0 0 0 .98 0 0 0 0 1.05 -2.5\n"
    "  tools/request input 422 embedded 10bit style2 left syncs 110 40 5 5 \\\n"
    "    vic 4 ycbcr422 hdmi\n"
    "  tools/request --explain " EXAMPLE "\n";

static int tell(FILE *to, struct station_pair p, int of_sound) {
    if (p.refusal) {
        fprintf(to, "refused %u: %s\n", (unsigned)p.refusal, station_text(p.refusal));
        return REFUSED;
    }
    if (of_sound) fprintf(to, "accepted: N %u, CTS %u%s\n", (unsigned)p.n, (unsigned)p.cts, p.cts ? "" : ", measured by the chip");
    return ACCEPTED;
}

/* The clock of a request of which no rule before that of the clock is broken. */
static void tell_clock(const struct request *q) {
    char factor[48];
    uint8_t vic = (uint8_t)value_of_field(q, "vic"), family = (uint8_t)value_of_field(q, "family");
    int depth = value_of_field(q, "depth"), repetition = value_of_field(q, "repetition");
    printf("  TMDS clock             %.9g MHz: %.9g times %s times %d, at most %d\n",
           megahertz(tmds_clock(vic, family, depth, repetition)), megahertz(pixel_clock(vic, family)),
           text_of_clock(of_depth(depth), factor, sizeof factor), (int)of_repetition(repetition).over, HIGHEST_CLOCK / 1000000);
}

/* ---- Which clause of a refusal applies, and its mend. The number is the library's; all sections are whole by then. */

static void tell_mode(FILE *to, const struct request *q) {
    int vic = value_of_field(q, "vic"), is_listed = 0;
    for (size_t m = 0; m < number_of_modes; m++) is_listed |= modes[m].vic == vic;
    if (is_listed) {
        fprintf(to, "vic %d does not offer family %d: leave '/1.001' out\n", vic, value_of_field(q, "family"));
        return;
    }
    fprintf(to, "vic %d is not listed:", vic);
    for (size_t m = 0; m < number_of_modes; m++) fprintf(to, "%s %u", m ? "," : "", modes[m].vic);
    fprintf(to, " are (tools/modes)\n");
}

/* A wiring section that is not defined: each of its fields that its ID does not have, and what it has. */
static void tell_wiring(FILE *to, const struct request *q) {
    static const char *const coded[] = { "width", "style", "justified" },
        *const values[] = { "h-placement", "h-duration", "v-placement", "v-duration" };
    const struct wiring *w = wiring_of_request(q);
    const struct sync_row *row = syncs_of_mode(value_of_field(q, "vic"));
    char text[WORDS_OF_CODES];
    int id = value_of_field(q, "id"), has_values = value_of_field(q, values[0]) >= 0;
    if (!w && id) fprintf(to, "id %d is none: 1 to 8 are (tools/modes --wirings)\n", id);
    if (!w && !id) fprintf(to, "id 0 is today's board, which has no section: leave 'input' and its words out\n");
    if (!w) return;
    if (is_embedded(w) && !has_values) {
        fprintf(to, "id %d has embedded syncs, and four sync values must follow: ", id);
        if (row) fprintf(to, "syncs %u %u %u %u by Table 32 of the guide\n", row->values[0], row->values[1], row->values[2], row->values[3]);
        else fprintf(to, SYNC_VALUES "\n");
    }
    if (!is_embedded(w) && has_values) fprintf(to, "id %d has separate syncs: leave 'syncs' and its four numbers out\n", id);
    for (size_t k = 0; k < sizeof coded / sizeof coded[0]; k++) {
        int code = value_of_field(q, coded[k]);
        const char *word = word_of_value(coded[k], code);
        if (is_code_of_wiring(w, coded[k], code)) continue;
        if (word) fprintf(to, "id %d has no %s, but %s\n", id, word, words_of_codes(w, coded[k], text));
        else fprintf(to, "%s=%d is none: id %d has %s\n", coded[k], code, id, words_of_codes(w, coded[k], text));
    }
    for (size_t k = 0; k < sizeof values / sizeof values[0]; k++)
        if (value_of_field(q, values[k]) > LARGEST_SYNC_VALUE)
            fprintf(to, "%s is %d: a sync value is %d at the most\n", values[k], value_of_field(q, values[k]), LARGEST_SYNC_VALUE);
}

/* The guide's table for a matrix that is missing: from RGB of limited range, or to RGB of the range that is asked for; of up to 576 lines SDTV. */
static unsigned table_between(const struct request *q) {
    enum space from = HDTV_LIMITED, to = RGB_LIMITED;
    for (size_t m = 0; m < number_of_modes; m++)
        if (modes[m].vic == value_of_field(q, "vic") && atoi(strchr(modes[m].lines, 'x') + 1) <= LINES_OF_SDTV) from = SDTV_LIMITED;
    if (value_of_field(q, "encoding")) to = from, from = RGB_LIMITED;
    else if (value_of_field(q, "range")) to = RGB_FULL;
    for (size_t t = 0; t < sizeof tables / sizeof tables[0]; t++)
        if (tables[t].from == from && tables[t].to == to) return tables[t].number;
    return 0;
}

static void tell_combination(FILE *to, const struct request *q) {
    int encoding = value_of_field(q, "encoding"), is_dvi = value_of_field(q, "link") == 0, is_deep = value_of_field(q, "depth") > 0;
    int from_rgb = is_rgb(wiring_of_request(q)), has_matrix = matrix_of_request(q) != NULL;
    if (from_rgb && encoding && !has_matrix)
        fprintf(to, "YCbCr needs a matrix that makes it of the camera's RGB: matrix table%u\n", table_between(q));
    if (!from_rgb && !encoding && !has_matrix)
        fprintf(to, "RGB needs a matrix that makes it of the camera's YCbCr: matrix table%u\n", table_between(q));
    if (encoding && value_of_field(q, "range"))
        fprintf(to, "'full' is said of RGB: with YCbCr leave it out; 861-e and ycc-full say it of YCbCr\n");
    if (is_dvi && value_of_field(q, "rate") >= 0) fprintf(to, "DVI carries no sound: hdmi, or no audio\n");
    if (is_dvi && encoding) fprintf(to, "DVI carries RGB alone: hdmi, or rgb\n");
    if (is_deep && encoding == 1) fprintf(to, "YCbCr 4:2:2 has 24 bits: 24bit, or ycbcr444\n");
    if (is_deep && is_dvi) fprintf(to, "DVI has 24 bits: 24bit, or hdmi\n");
    if (value_of_field(q, "edition") == 0 && (value_of_field(q, "quantisation") || value_of_field(q, "content")))
        fprintf(to, "quantisation and content type are of edition E: say 861-e too\n");
}

static void tell_rates(FILE *to, const struct request *q) {
    uint8_t vic = (uint8_t)value_of_field(q, "vic"), family = (uint8_t)value_of_field(q, "family");
    int depth = value_of_field(q, "depth"), repetition = value_of_field(q, "repetition"), some = 0;
    double clock = megahertz(tmds_clock(vic, family, depth, repetition));
    fprintf(to, "%g kHz has no exact pair at %.9g%s MHz;", hertz[value_of_field(q, "rate")] / 1000.0, family ? clock * 1.001 : clock,
            family ? "/1.001" : "");
    for (int rate = 0; word_of_value("rate", rate); rate++) {
        if (is_mended(q, "rate", rate)) fprintf(to, "%s %g", some++ ? "," : "", hertz[rate] / 1000.0);
    }
    fprintf(to, some ? " kHz %s. Or leave 'coherent' out: the chip then measures CTS\n" : " no rate has. Leave 'coherent' out: the chip then measures CTS\n",
            some == 1 ? "has" : "have");
}

/* Each repetition, from the highest down, and each mode with which the library accepts it. */
static void tell_clock_above(FILE *to, const struct request *q) {
    uint8_t vic = (uint8_t)value_of_field(q, "vic"), family = (uint8_t)value_of_field(q, "family");
    int depth = value_of_field(q, "depth"), repetition = value_of_field(q, "repetition"), some = 0;
    fprintf(to, "the TMDS clock would be %.9g MHz, and the highest is %d:", megahertz(tmds_clock(vic, family, depth, repetition)), HIGHEST_CLOCK / 1000000);
    for (int r = repetition - 1; r >= 0; r--)
        if (is_mended(q, "repetition", r)) fprintf(to, "%s each pixel %s", some++ ? ", or" : "", word_of_value("repetition", r));
    for (size_t m = 0, named = 0; m < number_of_modes; m++) {
        if (!is_mended(q, "vic", modes[m].vic)) continue;
        if (named++) fprintf(to, ", %u", modes[m].vic);
        else fprintf(to, "%s vic %u", some++ ? ", or" : "", modes[m].vic);
    }
    fprintf(to, some ? "\n" : " no change of one field is accepted\n");
}

/* Bytes that would be accepted, or refused by a later rule, with the count of today's board in front. */
static void tell_older(FILE *to, const struct request *q) {
    struct request r = { { 0 }, q->length + 1 };
    if (q->length >= STATION_REQUEST) return;
    memcpy(r.bytes + 1, q->bytes, q->length);
    uint32_t refusal = station_ncts(r.bytes, r.length).refusal;
    if (refusal != STATION_INPUT_ENDS && refusal != STATION_COUNT_NOT_ALLOWED && refusal != STATION_BYTES_AFTER)
        fprintf(to, "the wiring section comes first; a request of before version 6.0.0 has none: put 00 in front\n");
}

static void tell_clause(FILE *to, const uint8_t *bytes, size_t length, uint32_t refusal) {
    struct request q = { { 0 }, length };
    char text[TEXT_OF_A_FIT];
    if (length > STATION_REQUEST) return;
    if (length) memcpy(q.bytes, bytes, length);
    if (refusal == STATION_COUNT_NOT_ALLOWED) tell_older(to, &q);
    if (refusal == STATION_MODE_NOT_OFFERED) tell_mode(to, &q);
    if (refusal == STATION_FIELD_OUT_OF_RANGE && !is_wiring(&q)) tell_wiring(to, &q);
    if (refusal == STATION_COMBINATION) tell_combination(to, &q);
    if (refusal == STATION_CLOCK_ABOVE) tell_clock_above(to, &q);
    if (refusal == STATION_SOUND_TOO_MUCH) fprintf(to, "%s\n", text_of_fit(&q, text));
    if (refusal == STATION_NO_EXACT_PAIR) tell_rates(to, &q);
}

static void tell_colour(const uint8_t *matrix, const char *name, uint32_t a, uint32_t b, uint32_t c) {
    struct station_pixel p = station_preview(matrix, STATION_MATRIX, a, b, c);
    printf("  %-12s  %4u %4u %4u becomes %4u %4u %4u\n", name, (unsigned)a, (unsigned)b, (unsigned)c, (unsigned)p.a, (unsigned)p.b, (unsigned)p.c);
}

/* What a matrix makes of black, grey, white and the primaries, in 12-bit codes; of a YCbCr input, of black, white and grey. */
static void tell_colours(const struct request *q) {
    static const struct { const char *name; uint32_t a, b, c; } colours[] = {
        { "black", 0, 0, 0 }, { "grey", 2048, 2048, 2048 }, { "white", 4095, 4095, 4095 },
        { "red", 4095, 0, 0 }, { "green", 0, 4095, 0 }, { "blue", 0, 0, 4095 },
    };
    const uint8_t *matrix = matrix_of_request(q);
    if (!matrix) return;
    for (size_t k = 0; k < sizeof colours / sizeof colours[0] && is_rgb(wiring_of_request(q)); k++)
        tell_colour(matrix, colours[k].name, colours[k].a, colours[k].b, colours[k].c);
    for (int l = 0; l < LEVELS && !is_rgb(wiring_of_request(q)); l++) {
        const uint32_t *code = spaces[HDTV_LIMITED].code[l];
        tell_colour(matrix, levels[l], code[0], code[1], code[2]);
    }
}

int main(int count, char **words) {
    for (int i = 1; i < count; i++)
        if (!strcmp(words[i], "--help")) {
            printf("%s", help);
            explain_words(stdout);
            printf("%s", more);
            return 0;
        }
    if (count < 2) misuse("no words");
    if (!strcmp(words[1], "--explain")) {
        char text[TEXT_OF_A_REQUEST];
        size_t length;
        uint8_t *request = request_of_command(count - 1, words + 1, help, NULL, 0, &length);
        if (words_of_request(request, length, text)) printf("%s\n", text);
        explain_request(stdout, request, length);
        struct station_pair p = station_ncts(request, length);
        if (p.refusal == 0 || p.refusal == STATION_CLOCK_ABOVE || p.refusal == STATION_SOUND_TOO_MUCH || p.refusal == STATION_NO_EXACT_PAIR) {
            struct request q = { { 0 }, length };
            memcpy(q.bytes, request, length);
            tell_colours(&q);
            tell_clock(&q);
        }
        tell_clause(stdout, request, length, p.refusal);
        int status = tell(stdout, p, 1);
        free(request);
        return printed(status);
    }
    if (words[1][0] == '-') misuse("%.80s is no option", words[1]);
    struct request q = request_of_words(count - 1, words + 1);
    for (size_t i = 0; i < q.length; i++) printf("%s%02x", i ? " " : "", q.bytes[i]);
    printf("\n");
    struct station_pair p = station_ncts(q.bytes, q.length);
    int status = tell(stderr, p, 0);
    tell_clause(stderr, q.bytes, q.length, p.refusal);
    return printed(status);
}
