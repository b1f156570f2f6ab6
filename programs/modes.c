/* The modes that a request may name: names from the table, families, clocks, N and CTS, the sound that fits, as the library answers for a
 * request made for each. What it prints is compared with modes.out. */
#include "clocks.h"
#include "fields.h"
#include "fits.h"
#include "guide.h"
#include "words.h"
#include <string.h>

const char *program = "tools/modes";

static const char help[] =
    "tools/modes [DEPTH] [REPETITION]\n"
    "tools/modes --wirings\n"
    "\n"
    "Lists the modes that a request may name: VIC, name, family, frame rate and TMDS\n"
    "clock, which is the pixel clock times 1, 5/4 or 3/2 by the depth, times 1, 2 or\n"
    "4 by the repetition; the clock as an exact fraction and in MHz. Then for each\n"
    "pixel clock the TMDS clock at every depth and repetition, '-' where it is above\n"
    "225 MHz (refusal 17); and for each clock of the list N and CTS of coherent audio\n"
    "at each rate, '-' where no pair is exact (refusal 9). Last, for each mode and\n"
    "repetition the highest rate that fits into its blanking (above that: refusal 20)\n"
    "with two and with eight channels, '-' where the clock is above. What it says of\n"
    "families, refusals, N, CTS and what fits is the library's answer.\n"
    "\n"
    "DEPTH is 24bit, 30bit or 36bit, REPETITION once, twice or four-times, as in\n"
    "tools/request; where none is given, 24bit and once: the pixel clock.\n"
    "\n"
    "  --wirings  lists the input IDs instead: the words of each, its colours, the\n"
    "             count of its section, every width, style and justification that\n"
    "             the library takes with it, how many these make, the highest input\n"
    "             clock by Table 15 of the programming guide (no rule of a request),\n"
    "             and which tables draw it. Then for each mode the four sync values\n"
    "             of Table 32, the registers that they make, and 0x17[6:5] as Table\n"
    "             35 has it, which is the board's; '-' where there is no row\n"
    "\n"
    "The status is 0; 1 where what the library answers does not rest on these clocks,\n"
    "or is not what these tables have; 2 for a command that is not as above.\n"
    "\n"
    "  tools/modes\n"
    "  tools/modes 30bit twice\n"
    "  tools/modes --wirings\n";

enum { CLOCKS = 32, KHZ_48 = 2 };

/* The first mode of each pixel clock. */
static struct row_of_clock { uint8_t vic, family; } clocks[CLOCKS];
static size_t number;

static int depth, repetition, wrong;

static void keep(uint8_t vic, uint8_t family) {
    struct clock c = pixel_clock(vic, family), known;
    for (size_t k = 0; k < number; k++) {
        known = pixel_clock(clocks[k].vic, clocks[k].family);
        if (known.over == c.over && known.under == c.under) return;
    }
    if (number < CLOCKS) clocks[number++] = (struct row_of_clock){ vic, family };
}

/* Does the library refuse the clock? */
static int refused(uint8_t vic, uint8_t family, int d, int r) {
    int is = ask(vic, family, d, r, KHZ_48, 0).refusal == STATION_CLOCK_ABOVE;
    wrong |= is != is_above(tmds_clock(vic, family, d, r));
    return is;
}

static void print_mode(const struct mode *m, uint8_t family) {
    char lead[48], text[48];
    struct clock c = tmds_clock(m->vic, family, depth, repetition);
    snprintf(lead, sizeof lead, "%s %s", m->lines, m->aspect);
    printf("%3u  %-16s %6u  %7.5g Hz  %-16s %10.6f%s\n", m->vic, lead, family, frame_rate(m, family), text_of_clock(c, text, sizeof text),
           megahertz(c), refused(m->vic, family, depth, repetition) ? " refused 17" : "");
}

static void print_clocks(void) {
    printf("\nTMDS clock in MHz, by repetition and depth; the first is the pixel clock:\n");
    for (int r = 0; r < REPETITIONS; r++) printf(r ? "%24s" : "%8s", word_of_value("repetition", r));
    printf("\n");
    for (int r = 0; r < REPETITIONS; r++)
        for (int d = 0; d < DEPTHS; d++) printf("%8s", word_of_value("depth", d));
    printf("\n");
    for (size_t k = 0; k < number; k++) {
        for (int r = 0; r < REPETITIONS; r++)
            for (int d = 0; d < DEPTHS; d++) {
                if (refused(clocks[k].vic, clocks[k].family, d, r)) printf("%8s", "-");
                else printf("%8.3f", megahertz(tmds_clock(clocks[k].vic, clocks[k].family, d, r)));
            }
        printf("\n");
    }
}

static void print_pairs(const char *lead, const char *of, const struct row_of_clock *k, int coherent, int cts) {
    struct clock c = tmds_clock(k->vic, k->family, depth, repetition);
    printf("%-18s%-4s", lead, of);
    for (int r = 0; r < RATES; r++) {
        struct station_pair p = ask(k->vic, k->family, depth, repetition, r, coherent);
        wrong |= coherent && !p.refusal && !rests_on(p, r, c);
        if (p.refusal) printf("%8s", "-");
        else printf("%8u", (unsigned)(cts ? p.cts : p.n));
    }
    printf("\n");
}

/* The family and the depth do not count. */
static void print_sounds(void) {
    static const int channels[] = { FEW_CHANNELS, MANY_CHANNELS };
    printf("\nThe highest rate in kHz that fits (above it: 20), by channels, mode and\nrepetition; - where the clock is above %d MHz (17):\n%29d channels%19d channels\n",
           HIGHEST_CLOCK / 1000000, FEW_CHANNELS, MANY_CHANNELS);
    printf("%3s  %-16s", "VIC", "mode");
    for (size_t c = 0; c < sizeof channels / sizeof channels[0]; c++)
        for (int r = 0; r < REPETITIONS; r++) printf(r + 1 < REPETITIONS ? "%8s" : "%12s", word_of_value("repetition", r));
    printf("\n");
    for (const struct mode *m = modes; m < modes + number_of_modes; m++) {
        char lead[48];
        snprintf(lead, sizeof lead, "%s %s", m->lines, m->aspect);
        printf("%3u  %-16s", m->vic, lead);
        for (size_t c = 0; c < sizeof channels / sizeof channels[0]; c++)
            for (int r = 0; r < REPETITIONS; r++) {
                int width = r + 1 < REPETITIONS ? 8 : 12, rate = highest_rate(m->vic, r, channels[c]);
                if (rate < 0) printf("%*s", width, "-");
                else printf("%*g", width, hertz[rate] / 1000.0);
            }
        printf("\n");
    }
}

/* ---- The wirings. */

enum { CODES = 4 };
#define VALUES_OF_720P "h-placement=110 h-duration=40 v-placement=5 v-duration=5"

static const char *const coded[] = { "width", "style", "justified" };
enum { FIELDS_WITH_CODES = sizeof coded / sizeof coded[0] };
#define OF_A_WIRING "%2s %-19s %-5s %5s %-7s %-6s %-15s %3s %4s %s\n"

/* Does the library take these codes with an ID, in a section of either count? No matrix is needed from YCbCr to YCbCr, nor from RGB to RGB. */
static int is_taken(int id, int is_long, const int code[FIELDS_WITH_CODES]) {
    int is_some = 0;
    for (int encoding = 0; encoding < 2; encoding++) {
        struct request q = request_of_text("input id=%d width=%d style=%d justified=%d %s vic 4 encoding=%d hdmi", id, code[0], code[1], code[2],
                                           is_long ? VALUES_OF_720P : "", encoding);
        is_some |= station_ncts(q.bytes, q.length).refusal == 0;
    }
    return is_some;
}

/* The words of a field that an ID has, without what is the same in all. */
static const char *bare_words(const struct wiring *w, const char *name, const char *same, char text[WORDS_OF_CODES]) {
    char *at;
    words_of_codes(w, name, text);
    while (*same && (at = strstr(text, same))) memmove(at, at + strlen(same), strlen(at + strlen(same)) + 1);
    while ((at = strchr(text, ','))) memmove(at, at + 1, strlen(at));
    return text;
}

/* A row; and whether the library takes with each ID what the table has, and nothing else. How many combinations it takes. */
static unsigned print_wiring(const struct wiring *w) {
    char words[WORDS_OF_A_WIRING] = "(no section)", widths[WORDS_OF_CODES], styles[WORDS_OF_CODES], sides[WORDS_OF_CODES], id[8], all[8], clock[16];
    unsigned taken = 0;
    for (int k = 0; k < 2 * CODES * CODES * CODES; k++) {
        int is_long = k % 2, code[FIELDS_WITH_CODES] = { k / 2 / CODES / CODES, k / 2 / CODES % CODES, k / 2 % CODES };
        int is_of_table = w->id && is_long == is_embedded(w), is = is_taken(w->id, is_long, code);
        for (int f = 0; f < FIELDS_WITH_CODES; f++) is_of_table &= is_code_of_wiring(w, coded[f], code[f]);
        wrong |= is != is_of_table;
        taken += (unsigned)is;
    }
    if (w->id) words_of_wiring(w, words);
    snprintf(id, sizeof id, "%u", w->id);
    snprintf(all, sizeof all, "%u", taken);
    snprintf(clock, sizeof clock, "%.4g", w->megahertz);
    printf(OF_A_WIRING, id, words, is_rgb(w) ? "RGB" : "YCbCr", !w->id ? "0" : is_embedded(w) ? "12" : "4", bare_words(w, "width", "bit", widths),
           w->id ? bare_words(w, "style", "style", styles) : "-", w->id ? bare_words(w, "justified", "", sides) : "-",
           w->id ? all : "-", clock, w->tables);
    return taken;
}

static void print_syncs(const struct mode *m) {
    const struct sync_row *s = syncs_of_mode(m->vic);
    char lead[48];
    uint8_t left[SYNC_REGISTERS];
    snprintf(lead, sizeof lead, "%s %s", m->lines, m->aspect);
    printf("%3u  %-16s %6.5g Hz", m->vic, lead, frame_rate(m, 0));
    if (!s) {
        printf("  -\n");
        return;
    }
    registers_of_syncs(s->values, left);
    wrong |= memcmp(left, s->registers, sizeof left) != 0;
    printf("  syncs %3u %2u %u %u  ", s->values[0], s->values[1], s->values[2], s->values[3]);
    for (int k = 0; k < SYNC_REGISTERS; k++) printf(" %02x", left[k]);
    printf("   %u%u\n", s->polarity >> 1, s->polarity & 1);
}

static int print_wirings(void) {
    unsigned all = 0;
    printf(OF_A_WIRING, "ID", "words", "in", "count", "widths", "styles", "justified", "all", "MHz", "of");
    for (size_t k = 0; k < number_of_wirings; k++) all += print_wiring(&wirings[k]);
    printf("All are %u. In a request 8bit is 3, 10bit 1, 12bit 2; style1 2, style2 1,\n"
           "style3 3; even 0, right 1, left 2. ID 0 is today's board. MHz: the highest input\n"
           "clock of Table 15; of: the guide's tables that draw it.\n", all);
    printf("\nWhere syncs are embedded: the sync values of Table 32, a starting point; 0x30 to\n"
           "0x34 as the library writes them; 0x17[6:5] of Table 35, for the board to set:\n");
    for (size_t m = 0; m < number_of_modes; m++) print_syncs(&modes[m]);
    if (wrong) fprintf(stderr, "%s: WHAT THE LIBRARY TAKES IS NOT WHAT THESE TABLES HAVE\n", program);
    return printed(wrong ? REFUSED : ACCEPTED);
}

static void take(char *word) {
    static int given[2];
    int d = value_of_word("depth", word), r = d < 0 ? value_of_word("repetition", word) : -1;
    if ((d < 0 && r < 0) || d >= DEPTHS || r >= REPETITIONS) misuse("'%.80s' is neither a depth nor a repetition", word);
    if (given[d < 0]++) misuse("'%.80s': that field is given twice", word);
    if (d < 0) repetition = r;
    else depth = d;
}

int main(int count, char **words) {
    char text[48];
    for (int i = 1; i < count; i++)
        if (!strcmp(words[i], "--help")) {
            printf("%s", help);
            return printed(ACCEPTED);
        }
    if (count > 1 && !strcmp(words[1], "--wirings")) {
        if (count > 2) misuse("--wirings stands alone");
        return print_wirings();
    }
    for (int i = 1; i < count; i++) take(words[i]);

    printf("%3s  %-16s %6s  %10s  %-16s %s\n", "VIC", "mode", "family", "frame rate", "TMDS clock in Hz", "in MHz");
    for (size_t m = 0; m < number_of_modes; m++)
        for (uint8_t family = 0; family < FAMILIES; family++) {
            if (!pixel_clock(modes[m].vic, family).over) continue;
            print_mode(&modes[m], family);
            keep(modes[m].vic, family);
        }
    print_clocks();

    printf("\nN and CTS of coherent audio, by the TMDS clock and the rate in kHz:\n%-22s", "clock in Hz");
    for (int r = 0; r < RATES; r++) printf("%8g", hertz[r] / 1000.0);
    printf("\n");
    for (size_t k = 0; k < number; k++) {
        if (refused(clocks[k].vic, clocks[k].family, depth, repetition)) continue;
        struct clock c = tmds_clock(clocks[k].vic, clocks[k].family, depth, repetition);
        print_pairs(text_of_clock(c, text, sizeof text), "N", &clocks[k], 1, 0);
        print_pairs("", "CTS", &clocks[k], 1, 1);
    }
    print_pairs("not coherent", "N", &clocks[0], 0, 0);
    printf("%-18s%-4s%s\n", "", "CTS", " 0: the chip measures it");
    print_sounds();
    if (wrong) fprintf(stderr, "%s: WHAT THE LIBRARY ANSWERS DOES NOT REST ON THESE CLOCKS\n", program);
    return printed(wrong ? REFUSED : ACCEPTED);
}
