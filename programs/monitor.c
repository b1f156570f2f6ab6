/* What a screen says of itself, its EDID, in words; and of a request and wishes the first that fits the screen. The answers are the library's; what
 * is told of them is found here, by a walk of our own (screen.c), and where the two differ no answer is given. What it prints of the screens in
 * programs/screens is compared with what is stored there. */
#include "clocks.h"
#include "dump.h"
#include "fields.h"
#include "fits.h"
#include "guide.h"
#include "screen.h"
#include "station_text.h"
#include "words.h"
#include <stdlib.h>
#include <string.h>
#include <strings.h>

const char *program = "tools/monitor";

static const char help[] =
    "tools/monitor [OPTIONS] [FILE]\n"
    "tools/monitor [OPTIONS] [FILE] --wish WISH [--wish WISH ..] -- REQUEST\n"
    "\n"
    "Says what a screen says of itself in its EDID, as far as it concerns a request:\n"
    "the modes of the station that it lists, the sound that it covers, what else it\n"
    "lists, and what was passed over. With wishes and a request it prints the request\n"
    "with the first wish that fits in place of its own VIC and family, as bytes for\n"
    "tools/desk and tools/request --explain; and on the error stream why each wish\n"
    "before it does not.\n"
    "\n"
    "FILE, or with - or without it the standard input, has one of these:\n"
    "\n"
    "  the bytes themselves: /sys/class/drm/card0-HDMI-A-1/edid, say\n"
    "  bytes in hex, with or without blanks and line ends between ('xxd -p'); a # at\n"
    "    the front of a word begins a comment\n"
    "  what 'xxd', 'xxd -g1', 'hexdump -C' or 'i2cdump -y BUS 0x50 b' prints\n"
    "  what 'edid-decode' prints: the lines of 16 bytes behind 'edid-decode (hex):'\n"
    "  what 'xrandr --props' or '--verbose' prints: the lines of 32 hex digits behind\n"
    "    'EDID:'\n"
    "\n"
    "A text that has what is no byte, or can be read in two ways, is not taken, and\n"
    "its line is said. Empty is the kernel's file where no screen is plugged in.\n"
    "\n"
    "  --first        of an EDID with more, or other, extensions take the base block\n"
    "                 and the first CEA-861 extension. The rest is left out, and not\n"
    "                 looked at; nor is the base block's count of extensions\n"
    "  --output NAME  of several screens in a text of xrandr this one: HDMI-1, say\n"
    "  --wish WISH    at most sixteen, the most wanted first: a mode by its name,\n"
    "                 1080p60 or 1080p59.94; a VIC, 16; a VIC and a family, 16/1\n"
    "\n"
    "REQUEST is a request's bytes in hex, a byte exactly two digits, with or without\n"
    "blanks between; or its words as tools/request has them, where the mode may be\n"
    "left out: it is the wishes that say it. A first word of hex digits alone is of\n"
    "bytes. Without a wish it is refused (24), and what would fit is said. What is\n"
    "refused prints a line that begins with 'refused', at which tools/desk stops.\n"
    "\n"
    "The status is 0; 1 for an EDID that is refused (21, 22 or 23) and where no wish\n"
    "fits (24): then it says why, where, and how it is mended; 2 for a file or a\n"
    "command that is not as above; 3 where what the library answers is not what this\n"
    "EDID says: then trust neither.\n"
    "\n"
    "  tools/monitor programs/screens/desk.hex\n"
    "  tools/monitor programs/screens/desk.hex --wish 1080p24 --wish 720p50 -- \\\n"
    "    rgb hdmi audio 48kHz stereo coherent\n"
    "  tools/monitor programs/screens/desk.hex --wish 16 --wish 4/1 -- \\\n"
    "    " EXAMPLE "\n";

enum { DIFFERS = 3, OF_A_WISH = 2, MOST_WISHES = STATION_WISHES / OF_A_WISH };

/* ---- The words of the command. */

static const char *file = "-";
static void take_name(const char *word, void *into) {
    if (!*word) misuse("a file without a name");
    if ((*(int *)into)++) misuse("more than one file; a request stands behind '--'");
    file = word;
}

static void take_output(const char *word, struct option *o) { *(const char **)o->into = word; }

/* The wishes, as the library takes them; there may be too many for it, but not more than words. */
struct wishes { uint8_t *bytes; size_t number; };
static void take_wish(const char *word, struct option *o) {
    struct wishes *w = o->into;
    uint8_t *at = w->bytes + OF_A_WISH * w->number++;
    char vic[4] = "";
    size_t digits = strspn(word, "0123456789");
    o->given = 0;                                               /* there may be many */
    at[1] = 0;
    if (mode_of_word(word, &at[0], &at[1])) return;
    if (!digits || digits > 3 || (word[digits] && word[digits] != '/'))
        misuse("'%.80s' is no wish: a mode such as 1080p60 or 1080p59.94, a VIC, or a VIC and a family such as 16/1 (tools/modes)", word);
    memcpy(vic, word, digits);
    at[0] = (uint8_t)number_of_word(vic, "VIC", 0, 255);
    if (word[digits]) at[1] = (uint8_t)number_of_word(word + digits + 1, "family", 0, 255);
}

struct asked { const uint8_t *bytes; size_t length; };

/* Words of a request, in which the mode may be left out: then a VIC is put at the end of the video section, for the wishes to take its place. */
static struct asked request_in_words(int count, char **words) {
    static struct request q;
    static char any[] = "vic=1";
    char **all = calloc((size_t)count + 1, sizeof *all);
    int has_mode = 0, end = 0;
    if (!all) misuse("no memory");
    for (int i = 0; i < count; i++) {
        uint8_t vic, family;
        has_mode |= !strcmp(words[i], "vic") || !strncmp(words[i], "vic=", 4) || mode_of_word(words[i], &vic, &family);
    }
    while (end < count && (has_mode || (strcasecmp(words[end], "audio") && strcasecmp(words[end], "matrix")))) end++;
    memcpy(all, words, (size_t)end * sizeof *all);
    if (!has_mode) all[end] = any;
    memcpy(all + end + !has_mode, words + end, (size_t)(count - end) * sizeof *all);
    q = request_of_words(count + !has_mode, all);
    free(all);
    return (struct asked){ q.bytes, q.length };
}

/* The words from "--" on. */
static struct asked request_of(int count, char **words) {
    struct asked a = { NULL, 0 };
    if (count < 2) misuse("no request behind '--'");
    if (words[1][strspn(words[1], "0123456789abcdefABCDEF ")]) return request_in_words(count - 1, words + 1);
    a.bytes = request_of_command(count, words, help, NULL, 0, &a.length);
    return a;
}

/* ---- The wishes. */

/* A request with a wish in place of its VIC and family, where it is long enough to have them. */
static size_t place_of_vic(struct asked a) { return a.length ? 2u + a.bytes[0] : 0; }
static struct request with_wish(struct asked a, uint8_t vic, uint8_t family) {
    struct request q = { { 0 }, a.length };
    size_t at = place_of_vic(a);
    if (a.length > STATION_REQUEST) misuse("a request of %u bytes", (unsigned)a.length);
    memcpy(q.bytes, a.bytes, a.length);
    if (at && at + 1 < a.length) q.bytes[at] = vic, q.bytes[at + 1] = family;
    return q;
}

/* What stands against a wish. Of a request without sound nothing need be covered. */
struct against { int is_listed, is_covered; uint32_t refusal; };
static struct against against_of(const struct screen *s, struct asked a, uint8_t vic, uint8_t family) {
    struct against g = { is_listed(s, vic), 1, 0 };
    if (a.length > STATION_REQUEST) {
        g.refusal = station_ncts(a.bytes, a.length).refusal;
        return g;
    }
    struct request q = with_wish(a, vic, family);
    int rate = value_of_field(&q, "rate");
    g.refusal = station_ncts(q.bytes, q.length).refusal;
    g.is_covered = rate < 0 || is_covered(s, rate, value_of_field(&q, "channels"));
    return g;
}
static int fits_all(struct against g) { return g.is_listed && g.is_covered && !g.refusal; }

/* Refused whatever the wish: its sections are not whole. */
static int is_no_request(uint32_t refusal) { return refusal && refusal <= STATION_BYTES_AFTER; }

static const char *text_of_sound(struct asked a, char text[80]) {
    struct request q = with_wish(a, 0, 0);
    int rate = value_of_field(&q, "rate"), channels = value_of_field(&q, "channels");
    const char *word = word_of_value("rate", rate);
    if (word) snprintf(text, 80, "%d channels at %s", channels, word);
    else snprintf(text, 80, "%d channels at rate %d", channels, rate);
    return text;
}

/* Why a wish does not fit, all that stands against it; a refusal has its text where it is met first. */
static void tell_wish(FILE *to, const struct screen *s, struct asked a, size_t n, const uint8_t wish[OF_A_WISH]) {
    static uint32_t told;
    struct against g = against_of(s, a, wish[0], wish[1]);
    char mode[64], sound[80], few[TEXT_OF_RATES], many[TEXT_OF_RATES], text[TEXT] = "";
    if (!g.is_listed) add_words(text, "; the screen does not list it");
    if (!g.is_covered)
        add_words(text, "; the screen does not cover its sound, %s: with %d channels it covers %s, with %d %s", text_of_sound(a, sound), FEW_CHANNELS,
            text_of_rates(s->rates[FEW], few), MANY_CHANNELS, text_of_rates(s->rates[MANY], many));
    if (g.refusal) add_words(text, "; the request with it is refused %u", (unsigned)g.refusal);
    if (g.refusal && !(told >> g.refusal % 32 & 1)) add_words(text, ": %s", station_text(g.refusal));
    told |= (uint32_t)1 << g.refusal % 32;
    text_of_mode(wish[0], wish[1], mode, sizeof mode);
    tell(to, 2, "wish %u, VIC %u family %u (%s): %s", (unsigned)n + 1, wish[0], wish[1], is_of_station(wish[0]) ? mode : "no mode of the station",
         *text ? text + 2 : "it fits");
}

static void tell_wishes(FILE *to, const struct screen *s, struct asked a, const struct wishes *w, size_t number) {
    for (size_t n = 0; n < number; n++) tell_wish(to, s, a, n, w->bytes + OF_A_WISH * n);
}

/* The modes that the screen lists and the request could have, as wishes: how many. */
static int tell_modes(FILE *to, const struct screen *s, struct asked a, const char *lead) {
    char text[TEXT] = "", word[NAME_OF_A_MODE];
    int some = 0;
    for (const struct mode *m = modes; m < modes + number_of_modes; m++)
        for (uint8_t family = 0; family < FAMILIES; family++)
            if (fits_all(against_of(s, a, m->vic, family))) add_words(text, "%s%s", some++ ? ", " : "", word_of_wish(m->vic, family, word));
    if (some) tell(to, 2, "Mend: wishes that would fit%s: %s.", lead, text);
    return some;
}

/* The request without its sound: the audio section is behind the video section, of which the VIC is the first byte behind the count. */
static struct request without_sound(struct asked a) {
    struct request q = with_wish(a, 0, 0);
    size_t video = place_of_vic(a) - 1, audio = video + 1 + q.bytes[video], count = q.bytes[audio];
    memmove(q.bytes + audio + 1, q.bytes + audio + 1 + count, q.length - audio - 1 - count);
    q.bytes[audio] = 0;
    q.length -= count;
    return q;
}

/* Other sounds with which the request could have a mode that the screen lists: of each number of channels the highest rate; and none. */
static int tell_sounds(FILE *to, const struct screen *s, struct asked a) {
    static const int channels[] = { FEW_CHANNELS, MANY_CHANNELS };
    struct request q = with_wish(a, 0, 0);
    int some = 0;
    char lead[80];
    if (value_of_field(&q, "rate") < 0) return 0;
    for (size_t c = 0; c < sizeof channels / sizeof channels[0]; c++)
        for (int rate = RATES - 1, found = 0; rate >= 0 && !found; rate--) {
            q = with_field(with_field(q, "rate", rate), "channels", channels[c]);
            snprintf(lead, sizeof lead, " with %d channels at %s", channels[c], word_of_value("rate", rate));
            some += found = tell_modes(to, s, (struct asked){ q.bytes, q.length }, lead);
        }
    q = without_sound(a);
    return some + tell_modes(to, s, (struct asked){ q.bytes, q.length }, " without sound");
}

/* 24: why each wish does not fit, and what would. */
static void explain_none(FILE *to, const struct screen *s, struct asked a, const struct wishes *w) {
    uint32_t refusal = station_ncts(a.bytes, a.length).refusal;
    const struct mode *listed = modes;
    if (is_no_request(refusal)) {
        tell(to, 2, "The request is refused %u whatever the wish: %s. Mend: tools/request --explain and its bytes show where.", (unsigned)refusal,
             station_text(refusal));
        return;
    }
    if (!w->number) tell(to, 2, "There is no wish.");
    tell_wishes(to, s, a, w, w->number);
    if (tell_modes(to, s, a, "") || tell_sounds(to, s, a)) return;
    while (listed < modes + number_of_modes && !is_listed(s, listed->vic)) listed++;
    if (listed == modes + number_of_modes) {
        tell(to, 2, "The screen lists no mode of the station. Mend: see whether its EDID was read whole; or another screen.");
        return;
    }
    struct request q = with_wish(a, listed->vic, 0);
    tell(to, 2, "The request is refused in each mode that the screen lists. Mend: this command says how, of VIC %u:", listed->vic);
    fprintf(to, "  tools/request --explain");
    for (size_t i = 0; i < q.length; i++) fprintf(to, " %02x", q.bytes[i]);
    fprintf(to, "\n");
}

/* The library's choice, and whether it is not ours. */
struct choice { struct station_choice is; int differs; };
static struct choice choice_of(const struct screen *s, const struct dump *d, struct asked a, const struct wishes *w) {
    struct choice c = { station_choose(d->bytes, d->length, a.bytes, a.length, w->bytes, OF_A_WISH * w->number), 0 };
    size_t first = 0;
    while (first < w->number && !fits_all(against_of(s, a, w->bytes[OF_A_WISH * first], w->bytes[OF_A_WISH * first + 1]))) first++;
    uint32_t want = w->number > MOST_WISHES ? STATION_EDID_LENGTH : s->refusal ? s->refusal : first == w->number ? STATION_NO_WISH_FITS : 0;
    c.differs = c.is.refusal != want || c.is.place != (want ? 0 : first) || c.is.at != (want ? 0 : place_of_vic(a));
    return c;
}

static void print_chosen(struct asked a, const struct wishes *w, size_t place) {
    struct request q = with_wish(a, w->bytes[OF_A_WISH * place], w->bytes[OF_A_WISH * place + 1]);
    for (size_t i = 0; i < q.length; i++) printf("%s%02x", i ? " " : "", q.bytes[i]);
    printf("\n");
}

int main(int count, char **words) {
    static struct dump read, d;
    struct wishes w = { calloc((size_t)count + 1, OF_A_WISH), 0 };
    const char *output = NULL;
    int files = 0, first = 0, end = 1;
    struct option options[] = { { "--first", NULL, &first, 0, 0 }, { "--output", take_output, &output, 0, 0 }, { "--wish", take_wish, &w, 0, 0 } };
    if (!w.bytes) misuse("no memory");
    while (end < count && strcmp(words[end], "--")) end++;
    for (int i = end; i < count; i++)
        if (!strcmp(words[i], "--help")) end = count;
    words_of_command(end, words, help, options, sizeof options / sizeof options[0], take_name, &files);
    int is_choice = end < count;
    if (w.number && !is_choice) misuse("wishes, and no request: that stands behind '--'");
    struct asked a = { NULL, 0 };
    if (is_choice) a = request_of(count - end, words + end);
    FILE *to = is_choice ? stderr : stdout;
    dump_of_file(file, output, &read);
    d = read;
    if (first) leave_out(&read, &d);
    struct station_monitor m = station_edid(d.bytes, d.length);
    struct screen s = screen_of(d.bytes, d.length);
    struct choice c = { { 0, 0, 0 }, 0 };
    if (is_choice) c = choice_of(&s, &d, a, &w);
    if (!is_same(&s, m) || c.differs) {
        fprintf(stderr, "%s: WHAT THE LIBRARY ANSWERS IS NOT WHAT THIS EDID SAYS: TRUST NEITHER\n", program);
        return DIFFERS;
    }
    uint32_t refusal = is_choice ? c.is.refusal : s.refusal;
    if (refusal) printf("refused %u: %s\n", (unsigned)refusal, station_text(refusal));
    else if (is_choice) print_chosen(a, &w, c.is.place);
    int status = printed(refusal ? REFUSED : ACCEPTED);
    if (first) tell_left_out(to, &read);
    if (w.number > MOST_WISHES) tell(to, 2, "There are %u wishes, and sixteen are the most. Mend: leave the last ones out.", (unsigned)w.number);
    if (s.refusal) explain_refusal(to, &d, &s);
    else if (refusal == STATION_NO_WISH_FITS) explain_none(to, &s, a, &w);
    else if (!is_choice) explain_screen(to, &s);
    else if (!refusal) tell_wishes(to, &s, a, &w, c.is.place + 1);
    return printed(status);
}
