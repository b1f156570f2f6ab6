/* A reviewer's reading of a vendor's list: the library's verdict, each finding with its mend, the list pair by pair as listing.c prints
 * ours, what it begins and ends in. The list and the registers may be a stranger's. What it prints of the lists in lists/ is compared with
 * the files there. */
#include "review.h"
#include "fits.h"
#include "registers.h"
#include "station_text.h"
#include "table.h"
#include "words.h"
#include <stdarg.h>
#include <stdio.h>
#include <stdlib.h>
#include <string.h>

const char *program = "tools/review";

static const char help[] =
    "tools/review --image FILE [OPTIONS] LIST\n"
    "\n"
    "Says whether a list of writes that somebody brings may be run on a chip as it\n"
    "stands: the verdict first and last; each finding once, with the pairs that have\n"
    "it and how to mend it; every pair with its line: the register, its byte before\n"
    "and after, the fields that the write sets, and what is in use after it: old,\n"
    "new, same where the two are the same, torn where it is neither; waiting where\n"
    "new coefficients wait for Vsync. One Vsync is taken to come just before the last\n"
    "pair: whoever runs the list waits there. Then the request that the list ends\n"
    "in, or the nearest to its end, with its bytes; and what changes. Places are\n"
    "counted from 0, as the library does.\n"
    "\n"
    "  --image FILE         the chip's registers as they stand, 256 bytes, as\n"
    "                       tools/image makes them; they must be given, for a list\n"
    "                       keeps their free bits\n"
    "  --zeros              in place of it: registers of zeros, of no real chip\n"
    "  --packet FILE        its packet buffer, 32 bytes; zeros where it is not given\n"
    "  --coefficients FILE  its coefficient buffer, 24 bytes; likewise\n"
    "  --mark N             its waiting mark: 0 for none; 1 to 255: a change waits\n"
    "  --hex, --decimal     what numbers are in that have neither 0x nor h\n"
    "  --html               prints the same as a page, to be filed, mailed, printed\n"
    "  --date TEXT          a date for the page\n"
    "  --mended             prints the list as it was mended, and nothing else\n"
    "  --vet-input          prints the input of 'tools/program vet', bytes\n"
    "\n"
    "LIST is a file, or - for the standard input; it is text, of lines such as these:\n"
    "\n",
    more[] =
    "\n"
    "The status is 0 for a list that is accepted, 1 for one that is refused, 2 for a\n"
    "command or a text that is not as above, 3 where the reasons found here and the\n"
    "library's verdict do not agree: then trust neither. --mended ends with 0 where\n"
    "the library accepts what it prints, --vet-input where the text was read.\n"
    "\n"
    "  tools/review --image chip.image vendor.txt\n"
    "  tools/review --image chip.image --html --date 2026-11-17 vendor.txt >page.html\n"
    "  tools/review --image chip.image --mended vendor.txt >mended.txt\n";

enum { DIFFERS = 3, COLUMNS = 80 };

/* A text in lines of at most 80 columns, broken at blanks; the first begins at `at`, those after it are indented. */
static void print_wrapped(int at, int indent, const char *text) {
    while (*text) {
        size_t room = (size_t)(COLUMNS - at), length = strlen(text);
        if (length > room) {
            length = room;
            while (length > 0 && text[length] != ' ') length--;
        }
        printf("%.*s\n", (int)length, text);
        text += length;
        while (*text == ' ') text++;
        if (*text) printf("%*s", indent, "");
        at = indent;
    }
}

static void add(char *text, size_t room, const char *format, ...) {
    size_t used = strlen(text);
    va_list list;
    va_start(list, format);
    vsnprintf(text + used, room - used, format, list);
    va_end(list);
}

/* ---- What text and page share. */

const struct request *request_of_review(const struct review *v) {
    return v->ends ? &v->end : v->is_run && v->mend.has_nearest ? &v->mend.nearest.asked : NULL;
}

/* Does a request end in these registers? Its own list would then change nothing. */
static int stands(const uint8_t image[STATION_IMAGE], const struct request *q) {
    uint8_t writes[STATION_WRITES];
    struct chip c = { { 0 }, { 0 }, { 0 }, { 0 } };
    memcpy(c.image, image, STATION_IMAGE);
    struct station_count n = station_plan(q->bytes, q->length, image, STATION_IMAGE, writes, STATION_WRITES);
    chip_run(&c, writes, n.count);
    return n.refusal == 0 && !memcmp(c.image, image, STATION_IMAGE);
}

const char *text_of_frame(const uint8_t image[STATION_IMAGE], const struct request *q, char text[TEXT_OF_A_MODE]) {
    char one[64], other[64];
    int family = value_of_field(q, "family");
    struct request q_other = with_field(*q, "family", 1 - family);
    text_of_mode((uint8_t)value_of_field(q, "vic"), (uint8_t)family, one, sizeof one);
    text_of_mode((uint8_t)value_of_field(q, "vic"), (uint8_t)(1 - family), other, sizeof other);
    if (stands(image, &q_other)) snprintf(text, TEXT_OF_A_MODE, "%s, or %s: no register tells which", one, other);
    else snprintf(text, TEXT_OF_A_MODE, "%s", one);
    return text;
}

uint32_t pairs_of_fault(const struct review *v, int fault, uint32_t *first) {
    uint32_t pairs = 0;
    for (uint32_t i = v->j.count; i-- > 0; )
        if (v->j.pairs[i].broken[fault]) pairs++, *first = i;
    return pairs;
}

/* Numbers that rise, in stretches: "34 to 36, 40". Where there are many, the last ones are "..". */
static void add_stretches(char *text, size_t room, const unsigned long *numbers, uint32_t count) {
    enum { MOST = 6 };
    int stretches = 0;
    for (uint32_t i = 0; i < count; ) {
        uint32_t end = i;
        while (end + 1 < count && numbers[end + 1] <= numbers[end] + 1) end++;
        if (stretches++ == MOST) {
            add(text, room, ", ..");
            return;
        }
        add(text, room, numbers[end] > numbers[i] ? "%s%lu to %lu" : "%s%lu", i ? ", " : "", numbers[i], numbers[end]);
        i = end + 1;
    }
}

const char *text_of_places(const struct review *v, int fault, char text[TEXT_OF_PLACES]) {
    unsigned long places[LIST_PAIRS], lines[LIST_PAIRS];
    uint32_t count = 0;
    for (uint32_t i = 0; i < v->j.count; i++) {
        if (!v->j.pairs[i].broken[fault]) continue;
        places[count] = i;
        lines[count++] = v->list.line[i];
    }
    snprintf(text, TEXT_OF_PLACES, "at ");
    add_stretches(text, TEXT_OF_PLACES, places, count);
    add(text, TEXT_OF_PLACES, lines[0] == lines[count - 1] ? " (line " : " (lines ");
    add_stretches(text, TEXT_OF_PLACES, lines, count);
    add(text, TEXT_OF_PLACES, ")");
    return text;
}

/* Does another pair stand in the same line, before this one or after it? */
static int is_beside(const struct review *v, uint32_t place, int before, int after) {
    const unsigned long *line = v->list.line;
    return (before && place > 0 && line[place - 1] == line[place]) ||
           (after && place + 1 < v->j.count && line[place + 1] == line[place]);
}

/* The line of a pair; where others stand in it, its place too. */
static void add_line(const struct review *v, char *text, uint32_t place) {
    add(text, TEXT_OF_A_CHANGE, is_beside(v, place, 1, 1) ? "line %lu (at %u)" : "line %lu", v->list.line[place], (unsigned)place);
}

/* Pairs that are put into one place, and are told of by more than one finding: after which of them this one stands. */
static void add_order(const struct review *v, const struct mended *p, char *text) {
    int others = 0;
    for (const struct mended *k = p; k-- > v->mend.pairs && k->change == PUT_IN && k->place == p->place && k->after == p->after; )
        others |= k->why != p->why;
    if (others) add(text, TEXT_OF_A_CHANGE, ", behind %02x %02x", p[-1].address, p[-1].value);
}

const char *text_of_change(const struct review *v, const struct mended *p, char text[TEXT_OF_A_CHANGE]) {
    *text = 0;
    switch (p->change) {
        case PUT_IN:
            add(text, TEXT_OF_A_CHANGE, "put %02x %02x ", p->address, p->value);
            if (v->j.count == 0) add(text, TEXT_OF_A_CHANGE, "into it");
            else if (!is_beside(v, p->place, !p->after, p->after))
                add(text, TEXT_OF_A_CHANGE, "%s line %lu", p->after ? "after" : "before", v->list.line[p->place]);
            else add(text, TEXT_OF_A_CHANGE, "into line %lu, %s %02x %02x (at %u)", v->list.line[p->place], p->after ? "after" : "before",
                     v->list.bytes[2 * p->place], v->list.bytes[2 * p->place + 1], (unsigned)p->place);
            add_order(v, p, text);
            break;
        case CHANGED:
            add(text, TEXT_OF_A_CHANGE, "write %02x %02x, not %02x %02x, in ", p->address, p->value, p->address, p->was);
            add_line(v, text, p->place);
            break;
        case LEFT_OUT:
            add(text, TEXT_OF_A_CHANGE, "leave out %02x %02x in ", p->address, p->value);
            add_line(v, text, p->place);
            if (p->why == NO_GROUP)
                add(text, TEXT_OF_A_CHANGE, " (%s: bring-up is the host's)", name_of_register(p->address));
            break;
        case KEPT: break;
    }
    return text;
}

enum { GC = 0x4B, OPEN = 0x80, MUTE_BITS = 0xC0, REPETITION = 0x3B, AVI_BYTE_4 = 0x58, AVI_BYTE_5 = 0x59, COLOUR_DEPTH = 0x4C,
       INPUT_ID = 0x15, VIDEO_FORMAT = 0x16, CONVERTER = 0x18, AVI_BYTE_1 = 0x55 };

/* Where registers say what sound there is: the rate's code, the channels, the inputs, the enables, HDMI. */
static const struct { uint8_t address, bits; } sounding[] = { { 0x15, 0xF0 }, { 0x73, 0x07 }, { 0x0C, 0x3C }, { 0x44, 0x68 }, { 0xAF, 0x02 } };

static int sounds_alike(const uint8_t *one, const uint8_t *other) {
    for (size_t i = 0; i < sizeof sounding / sizeof sounding[0]; i++)
        if ((one[sounding[i].address] ^ other[sounding[i].address]) & sounding[i].bits) return 0;
    return 1;
}

/* Registers that have the mode, the repetition and the sound of requests that are refused 20: one of these. What sound they have is told by what
 * the library plans for VIC 16, where all sound fits. */
static int is_too_much(const uint8_t image[STATION_IMAGE], struct request *q) {
    uint8_t writes[STATION_WRITES];
    for (int rate = 0; word_of_value("rate", rate); rate++) {
        struct chip c = { { 0 }, { 0 }, { 0 }, { 0 } };
        *q = request_of_text("vic 16 rgb hdmi audio rate=%d channels=%d", rate, MANY_CHANNELS);
        chip_run(&c, writes, station_plan(q->bytes, q->length, c.image, STATION_IMAGE, writes, STATION_WRITES).count);
        if (!sounds_alike(c.image, image)) continue;
        *q = with_field(with_field(*q, "vic", image[AVI_BYTE_4] & 0x7F), "repetition", image[REPETITION] >> 1 & 3);
        return station_ncts(q->bytes, q->length).refusal == STATION_SOUND_TOO_MUCH;
    }
    return 0;
}

/* Registers that are of no wiring: what they would have to be. */
static const char *text_of_wiring(const uint8_t image[STATION_IMAGE], char *text, size_t room) {
    unsigned id = image[INPUT_ID] & 0x0F;
    if (!id) snprintf(text, room, "input ID 0 is today's board, and that has 1100 in 0x16[5:2], 00 in 0x48[4:3] and 0 in 0x30 to 0x34");
    else if (!wiring_of_id((int)id)) snprintf(text, room, "0x15[3:0], the input ID, is %u: none above 8 is defined", id);
    else snprintf(text, room, "0x16[5:2], 0x48[4:3] and 0x30 to 0x34 are not what input ID %u can have (tools/modes --wirings)", id);
    return text;
}

static int is_without_matrix(const uint8_t image[STATION_IMAGE]) {
    int is_ycbcr = (image[AVI_BYTE_1] >> 5 & 3) != 0;
    return !(image[CONVERTER] & 0x80) && is_rgb(wiring_of_id(image[INPUT_ID] & 0x0F)) == is_ycbcr;
}

/* Registers in which a request ends but for the input's width, which versions before 6.0.0 did not write. */
static int is_of_older_version(const uint8_t image[STATION_IMAGE]) {
    uint8_t with_width[STATION_IMAGE], request[STATION_REQUEST];
    memcpy(with_width, image, STATION_IMAGE);
    with_width[VIDEO_FORMAT] |= 0x30;
    return (image[INPUT_ID] & 0x0F) == 0 && (image[VIDEO_FORMAT] & 0x30) != 0x30 &&
           station_decode(with_width, STATION_IMAGE, request, sizeof request).refusal == 0;
}

int tell_bad_end(const struct chip *c, void (*tell)(const char *text)) {
    static const struct { uint8_t address, mask; const char *name; } holds[] = {
        { 0x4A, 0x40, "the AVI hold, 0x4A[6]" }, { 0x4A, 0x20, "the audio hold, 0x4A[5]" }, { 0x1A, 0x20, "the coefficient hold, 0x1A[5]" },
    };
    static const struct { uint8_t first, last, header; const char *name; } packets[] = {
        { 0x52, 0x61, 0x82, "AVI" }, { 0x70, 0x7C, 0x84, "audio" },
    };
    char text[160];
    int told = 0;
    if ((c->image[GC] & MUTE_BITS) != OPEN) tell("the picture is not open: 0x4B[7:6] is not 10"), told++;
    for (size_t h = 0; h < sizeof holds / sizeof holds[0]; h++) {
        if (!(c->image[holds[h].address] & holds[h].mask)) continue;
        snprintf(text, sizeof text, "%s, is up", holds[h].name);
        tell(text), told++;
    }
    for (int a = 0; a < STATION_IMAGE; a++) {
        struct station_masks m = station_class((uint8_t)a);
        if (m.mandated == 0 || !is_of_a_group((uint8_t)a) || (c->image[a] & m.mandated) == m.value) continue;
        snprintf(text, sizeof text, "the mandated bits of 0x%02X are not as the table says", (unsigned)a);
        tell(text), told++;
    }
    for (size_t p = 0; p < sizeof packets / sizeof packets[0]; p++) {
        uint8_t sum = packets[p].header;
        for (int a = packets[p].first; a <= packets[p].last; a++) sum = (uint8_t)(sum + (c->image[a] & station_class((uint8_t)a).named));
        if (!sum) continue;
        snprintf(text, sizeof text, "the sum of the %s InfoFrame is not 0", packets[p].name);
        tell(text), told++;
    }
    uint8_t pll = c->image[REPETITION] >> 3 & 3, value = c->image[REPETITION] >> 1 & 3, repeats = c->image[AVI_BYTE_5] & 0x0F;
    if (pll != value || value > 2 || repeats != (1 << value) - 1)
        tell("0x3B[4:3], 0x3B[2:1] and PR (0x59[3:0]) are of no one repetition"), told++;
    if (c->image[AVI_BYTE_5] >> 6 > 1) tell("YQ (0x59[7:6]), the YCC quantisation, is none of 00 and 01"), told++;
    uint8_t depth = c->image[COLOUR_DEPTH] & 0x0F;
    if (depth != 0 && depth != 5 && depth != 6) tell("0x4C[3:0], the colour depth, is none of 0000, 0101 and 0110"), told++;
    if (!has_wiring(c->image)) tell(text_of_wiring(c->image, text, sizeof text)), told++;
    else if (is_without_matrix(c->image))
        tell("input and output are of different colour kinds, by 0x15[3:0] and 0x55[6:5], and the converter is off, 0x18[7]"), told++;
    struct request q;
    char fit[TEXT_OF_A_FIT];
    if (is_too_much(c->image, &q)) tell(text_of_room(&q, fit)), told++;
    return told;
}

int tell_worth_knowing(const struct review *v, void (*tell)(const char *text)) {
    const struct judgement *j = &v->j;
    char text[TEXT_OF_FAULTS];
    unsigned pairs = 0, first = 0, told = 0;
    for (uint32_t i = j->count; i-- > 0; )
        if (j->pairs[i].early) pairs++, first = i;
    if (pairs) {
        snprintf(text, sizeof text, "a Vsync that comes earlier than just before the last pair, after the pair at %u%s, puts torn coefficients "
                 "into use: some are written after the hold is lowered. No rule forbids it.", first, pairs > 1 ? " or a later one" : "");
        tell(text), told++;
    }
    if (j->count == 1 && j->old.mute == STATION_OPEN && !v->verdict.refusal)
        tell("the list is one pair, and the picture is open: one pair need not mute, so whoever looks sees it act. No rule forbids it."), told++;
    if (j->count == 0) tell("the list is empty: it writes nothing, and what is judged is the registers as they stand."), told++;
    struct request q;
    if (!v->begins && is_too_much(v->chip.image, &q))
        tell("the sound in the registers at the beginning does not fit, so they are those of no request; versions before 5.5.0 planned such sound."), told++;
    if (!v->begins && is_of_older_version(v->chip.image))
        tell("the input's width in the registers at the beginning, 0x16[5:4], is not 11, so they are those of no request; versions before 6.0.0 did not write it."), told++;
    return (int)told;
}

/* Holds, the mute and the sums follow from the rest, so a mend of these takes nothing back. */
int text_of_taken_back(const struct review *v, char text[TEXT_OF_FAULTS]) {
    int told = 0;
    snprintf(text, TEXT_OF_FAULTS, "This changes what the list sets:");
    for (uint32_t i = 0; i < v->mend.count; i++) {
        const struct mended *p = &v->mend.pairs[i];
        uint32_t named = station_class(p->address).named;
        if (p->address == 0x1A) named &= ~0x20u;
        if (p->address == 0x4A || p->address == 0x4B || p->address == 0x54 || p->address == 0x72 || p->change != CHANGED) continue;
        if (!((p->was ^ p->value) & named)) continue;
        if (told < 6) add(text, TEXT_OF_FAULTS, "%s %s (0x%02X) from %02X to %02X", told ? "," : "", name_of_register(p->address), p->address, p->was, p->value);
        told++;
    }
    if (told > 6) add(text, TEXT_OF_FAULTS, ", and %d more", told - 6);
    add(text, TEXT_OF_FAULTS, ". See that it is what the vendor means.");
    return told;
}

int tell_notes(const struct review *v, void (*tell)(const char *text)) {
    int told = 0;
    if (!v->registers.name) tell("The registers are zeros (--zeros): this says nothing of a real chip."), told++;
    if (!v->packet.name && (v->chip.image[0x4A] & 0x70)) tell("A packet hold is up, and --packet was not given: zeros."), told++;
    if (!v->coefficients.name && (v->chip.image[0x1A] & 0x20))
        tell("The coefficient hold is up, and --coefficients was not given: zeros."), told++;
    else if (!v->coefficients.name && v->chip.mark[0])
        tell("A change of the coefficients waits, and --coefficients was not given: zeros."), told++;
    return told;
}

/* ---- The review. */

static int decode(const uint8_t image[STATION_IMAGE], struct request *q) {
    memset(q, 0, sizeof *q);
    struct station_count n = station_decode(image, STATION_IMAGE, q->bytes, STATION_REQUEST);
    q->length = n.count;
    if (n.refusal) return 0;
    struct request divided = with_field(*q, "family", 1);
    if (!stands(image, q) && stands(image, &divided)) *q = divided;     /* decoding answers family 0 */
    return 1;
}

/* The verdict in a line that fits a mail's subject. */
static void set_subject(struct review *v) {
    char *text = v->subject;
    struct request q;
    uint32_t i = v->verdict.place;
    *text = 0;
    if (!v->is_read) add(text, TEXT_OF_A_SUBJECT, "not read: line %lu: %s", v->list.wrong_line, v->list.wrong);
    else if (!v->agrees) add(text, TEXT_OF_A_SUBJECT, "NO VERDICT: the reasons and the library differ");
    else if (!v->verdict.refusal) add(text, TEXT_OF_A_SUBJECT, "accepted");
    else if (v->verdict.refusal == STATION_BAD_PAIR) {
        add(text, TEXT_OF_A_SUBJECT, "refused %u at %u (line %lu, 0x%02X = %02X): ", (unsigned)v->verdict.refusal, (unsigned)i, v->list.line[i],
            v->list.bytes[2 * i], v->list.bytes[2 * i + 1]);
        for (int f = 0, some = 0; f < FAULTS; f++)
            if (v->j.pairs[i].broken[f]) add(text, TEXT_OF_A_SUBJECT, "%s%s", some++ ? ", " : "", fault_words[f]);
    } else if (v->verdict.refusal == STATION_BAD_END)
        add(text, TEXT_OF_A_SUBJECT, "refused %u: ends in %s; nearest: %u register%s differ%s", (unsigned)v->verdict.refusal,
            v->list.all && is_too_much(v->j.last.image, &q) ? "sound that does not fit" : "no request", v->mend.nearest.registers, v->mend.nearest.registers == 1 ? "" : "s", v->mend.nearest.registers == 1 ? "s" : "");
    else if (v->verdict.refusal == STATION_LIST_LENGTH)
        add(text, TEXT_OF_A_SUBJECT, "refused %u: %lu pairs, more than %u", (unsigned)v->verdict.refusal, (unsigned long)v->list.all / 2, LIST_PAIRS);
    else add(text, TEXT_OF_A_SUBJECT, "refused %u: %s", (unsigned)v->verdict.refusal, station_text(v->verdict.refusal));
    if (v->is_read && v->agrees && v->list.all == 0) add(text, TEXT_OF_A_SUBJECT, " (the list is empty)");
}

static void judge_list(struct review *v) {
    if (v->is_read) {
        judge(&v->chip, v->list.bytes, v->list.length, &v->j);
        v->verdict = vet(&v->chip, v->list.bytes, v->list.length);
        v->agrees = v->verdict.refusal == v->j.verdict.refusal && v->verdict.place == v->j.verdict.place;
        v->is_run = v->j.verdict.refusal != STATION_HOLDS_UP && v->j.verdict.refusal != STATION_LIST_LENGTH;
        v->begins = decode(v->chip.image, &v->begin);
    }
    if (v->is_read && v->is_run) {
        v->ends = decode(v->j.last.image, &v->end);
        mend_list(&v->chip, v->list.bytes, &v->j, v->begins ? &v->begin : NULL, &v->mend);
    }
    set_subject(v);
}

/* ---- The text. */

static void tell_indented(const char *text) { print_wrapped(printf("    "), 6, text); }
static void tell_line(const char *text) { print_wrapped(0, 2, text); }
static void tell_worth(const char *text) { print_wrapped(printf("\nWorth knowing: ") - 1, 2, text); }

static const char *text_of_given(const struct given *g, char *text, size_t room) {
    char sum[TEXT_OF_SHA256];
    if (g->name) snprintf(text, room, "%s, sha256 %.16s", g->name, text_of_sha256(g->sha256, sum));
    else snprintf(text, room, "zeros, of no real chip");
    return text;
}

static void print_top(const struct review *v) {
    char text[400], sum[TEXT_OF_SHA256];
    const struct list *l = &v->list;
    print_wrapped(0, 2, v->subject);
    snprintf(text, sizeof text, "%s, %lu pair%s%s, sha256 %.16s", l->name, (unsigned long)l->all / 2, l->all == 2 ? "" : "s",
             !l->bare ? "" : l->base == DECIMAL ? ", read as decimal" : ", read as hex", text_of_sha256(l->sha256, sum));
    print_wrapped(printf("List: "), 2, text);
    print_wrapped(printf("Registers: "), 2, text_of_given(&v->registers, text, sizeof text));
    tell_notes(v, tell_line);
    printf("\n");
}

static int print_mends(const struct review *v, uint32_t why) {
    char text[TEXT_OF_A_CHANGE];
    const char *front = "    mend: ";
    for (uint32_t i = 0; i < v->mend.count; i++) {
        const struct mended *p = &v->mend.pairs[i];
        if (p->change == KEPT || p->why != why) continue;
        print_wrapped(printf("%s", front), 12, text_of_change(v, p, text));
        front = "          ";
    }
    return front[4] == ' ';
}

/* The rules are those of the vendor's list; what is mended beside them, because of a mend or of the end, comes last. */
static void print_findings(const struct review *v) {
    unsigned findings = 0, bad = 0, number = 0;
    uint32_t first = 0;
    char text[TEXT_OF_PLACES];
    for (uint32_t i = 0; i < v->j.count; i++) bad += is_bad(&v->j.pairs[i]) != 0;
    for (int f = 0; f < FAULTS; f++) findings += pairs_of_fault(v, f, &first) > 0;
    if (!v->ends) findings++;
    if (!findings) return;
    printf("%u finding%s, in %u of %u pairs%s.\n", findings, findings == 1 ? "" : "s", bad, (unsigned)v->j.count, v->ends ? "" : " and at the end");
    for (int f = 0; f < FAULTS; f++) {
        if (!pairs_of_fault(v, f, &first)) continue;
        char line[TEXT_OF_PLACES + TEXT_OF_FAULTS];
        snprintf(line, sizeof line, "%s %s: %s", fault_words[f], text_of_places(v, f, text), fault_says[f]);
        print_wrapped(printf("%2u. ", ++number), 4, line);
        if (!print_mends(v, (uint32_t)f) && v->mend.accepted) printf("    mend: by the changes of the others\n");
    }
    if (!v->ends) {
        printf("%2u. the end: no request ends in the registers that the list leaves\n", ++number);
        tell_bad_end(&v->j.last, tell_indented);
        if (v->mend.has_nearest) {
            char words[TEXT_OF_A_REQUEST], line[TEXT_OF_A_REQUEST + 80];
            words_of_request(v->mend.nearest.asked.bytes, v->mend.nearest.asked.length, words);
            snprintf(line, sizeof line, "nearest: %s", words);
            for (int a = 0; a < STATION_IMAGE; a++)
                if (v->mend.nearest.image[a] != v->j.last.image[a])
                    add(line, sizeof line, "; 0x%02X is %02X, wants %02X", (unsigned)a, v->j.last.image[a], v->mend.nearest.image[a]);
            tell_indented(line);
        }
    }
    print_mends(v, FAULTS);
    for (int f = 0; f < FAULTS; f++)
        if (!pairs_of_fault(v, f, &first)) print_mends(v, (uint32_t)f);
    if (v->mend.accepted)
        printf("With %s the library accepts it; --mended prints the list so.\n", v->mend.changes == 1 ? "this change" : "these changes");
    else printf("No changes were found with which the library accepts it: send the request below\ninstead.\n");
    char taken_back[TEXT_OF_FAULTS];
    if (v->mend.accepted && text_of_taken_back(v, taken_back)) print_wrapped(0, 0, taken_back);
    printf("\n");
}

/* The findings of a pair, by their numbers. */
static void print_bad(const struct review *v, uint32_t place, uint32_t end) {
    char text[TEXT_OF_FAULTS] = "";
    text_of_faults(v->list.bytes[2 * place], &v->j.pairs[place], text);
    if (end > place + 1) add(text, sizeof text, " (to %u)", (unsigned)end - 1);
    print_wrapped(printf("    BAD: "), 9, text);
}

static int same_faults(const struct judged *a, const struct judged *b) {
    return !memcmp(a->broken, b->broken, sizeof a->broken) && !a->mandated && !b->mandated && !a->moved && !b->moved;
}

/* Below the first pair of a stretch with the same faults stands what they are. */
static void print_table(const struct review *v) {
    const struct judgement *j = &v->j;
    table_head_with_lines();
    for (uint32_t i = 0, told = 0; i < j->count; i++) {
        const struct judged *p = &j->pairs[i];
        if (waits_before(i, j->end)) table_vsync_with_lines(&j->turned_over, &j->old, &j->new);
        table_row_with_line((unsigned)i, v->list.line[i], v->list.bytes[2 * i], p->before, p->after, i < j->end ? &p->now : NULL, &j->old, &j->new);
        if (!is_bad(p) || i < told) continue;
        for (told = i + 1; told < j->count && same_faults(p, &j->pairs[told]); told++) {}
        print_bad(v, i, told);
    }
}

static void print_request(const char *what, const uint8_t image[STATION_IMAGE], const struct request *q) {
    char words[TEXT_OF_A_REQUEST], mode[TEXT_OF_A_MODE];
    words_of_request(q->bytes, q->length, words);
    print_wrapped(printf("%s ", what), 4, words);
    print_wrapped(printf("    "), 4, text_of_frame(image, q, mode));
}

static void print_ends(const struct review *v) {
    const struct request *q = request_of_review(v);
    printf("\n");
    if (v->begins) print_request("Begins in:", v->chip.image, &v->begin);
    else printf("Begins in: no request\n");
    if (v->j.end < v->j.count) printf("The list ends before place %u.\n", (unsigned)v->j.end);
    if (v->ends) print_request("Ends in:", v->j.last.image, &v->end);
    else if (q) print_request("Ends in: no request. Nearest:", v->mend.nearest.image, q);
    else printf("Ends in: no request\n");
    if (q) {
        char text[4 * STATION_REQUEST] = "";
        for (size_t i = 0; i < q->length; i++) add(text, sizeof text, i ? " %02x" : "%02x", q->bytes[i]);
        print_wrapped(printf("As a request: "), 4, text);
    }
    if (v->begins && q) {
        printf("What changes%s:\n", v->ends ? "" : ", were it that one");
        if (!explain_changes(stdout, v->begin.bytes, q->bytes)) printf("  nothing that a request names\n");
    }
}

static void print_text(const struct review *v) {
    char text[200];
    print_top(v);
    if (v->is_run) {
        print_findings(v);
        print_table(v);
        tell_worth_knowing(v, tell_worth);
        print_ends(v);
    } else if (v->verdict.refusal == STATION_HOLDS_UP)
        print_wrapped(0, 2, "No list runs on this chip as it stands: run a list of ours first (tools/listing), which lowers the holds.");
    printf("\n");
    print_wrapped(printf("Judged on "), 2, text_of_given(&v->registers, text, sizeof text));
    print_wrapped(0, 2, v->subject);
}

/* ---- Other outputs. */

static void print_mended(const struct review *v) {
    const struct mend *m = &v->mend;
    char text[TEXT_OF_A_CHANGE], registers[200];
    printf("# %s, mended: %u change%s. The library %s it so on %s\n", v->list.name, (unsigned)m->changes, m->changes == 1 ? "" : "s",
           m->accepted ? "accepts" : "REFUSES", text_of_given(&v->registers, registers, sizeof registers));
    for (uint32_t i = 0; i < m->count; i++) {
        const struct mended *p = &m->pairs[i];
        const char *sign = p->change == LEFT_OUT ? "# " : "";
        if (p->change == KEPT) printf("0x%02x 0x%02x\n", p->address, p->value);
        else printf("%s0x%02x 0x%02x  # %s\n", sign, p->address, p->value, text_of_change(v, p, text));
    }
}

static void print_vet_input(const struct review *v) {
    fwrite(v->chip.image, 1, STATION_IMAGE, stdout);
    fwrite(v->chip.packet, 1, STATION_PACKET, stdout);
    fwrite(v->chip.coefficients, 1, STATION_COEFFICIENTS, stdout);
    fwrite(v->chip.mark, 1, STATION_MARK, stdout);
    fwrite(v->list.bytes, 1, v->list.length, stdout);
}

/* ---- The command. */

enum { BY_IMAGE, BY_PACKET, BY_COEFFICIENTS, BY_MARK, BY_ZEROS, BY_HEX, BY_DECIMAL, BY_HTML, BY_DATE, BY_MENDED, BY_VET, OPTIONS };

static void take_name(const char *word, void *into) {
    const char **name = into;
    if (*name) misuse("more than one list");
    if (!*word) misuse("a word with nothing in it");
    *name = word;
}

static void take_word(const char *word, struct option *o) { *(const char **)o->into = word; }

/* A file's name, in one line whatever stands in it. */
static const char *without_folders(const char *name) {
    char *copy = strdup(strrchr(name, '/') ? strrchr(name, '/') + 1 : name);
    if (!copy) misuse("no memory");
    for (char *at = copy; *at; at++)
        if ((uint8_t)*at < ' ' || *at == 0x7F) *at = '?';
    return copy;
}

/* The file of an option, by its name and its sum. */
static struct given take_given(const struct option *o, const char *name, uint8_t *bytes, size_t length) {
    struct given g = { NULL, { 0 } };
    if (!o->given) return g;
    bytes_of_file(name, bytes, length);
    sha256(bytes, length, g.sha256);
    g.name = without_folders(name);
    return g;
}

int main(int count, char **words) {
    static struct review v;
    const char *name = NULL, *image = NULL, *packet = NULL, *coefficients = NULL;
    long mark = 0;
    int marks[OPTIONS] = { 0 };
    struct option options[OPTIONS] = {
        [BY_IMAGE] = { "--image", take_word, &image, 0, 0 },
        [BY_PACKET] = { "--packet", take_word, &packet, 0, 0 },
        [BY_COEFFICIENTS] = { "--coefficients", take_word, &coefficients, 0, 0 },
        [BY_MARK] = { "--mark", take_number, &mark, UINT8_MAX, 0 },
        [BY_ZEROS] = { "--zeros", NULL, &marks[BY_ZEROS], 0, 0 },
        [BY_HEX] = { "--hex", NULL, &marks[BY_HEX], 0, 0 },
        [BY_DECIMAL] = { "--decimal", NULL, &marks[BY_DECIMAL], 0, 0 },
        [BY_HTML] = { "--html", NULL, &marks[BY_HTML], 0, 0 },
        [BY_DATE] = { "--date", take_word, &v.date, 0, 0 },
        [BY_MENDED] = { "--mended", NULL, &marks[BY_MENDED], 0, 0 },
        [BY_VET] = { "--vet-input", NULL, &marks[BY_VET], 0, 0 },
    };
    for (int i = 1; i < count; i++)
        if (!strcmp(words[i], "--help")) {
            printf("%s%s%s", help, list_help, more);
            return printed(ACCEPTED);
        }
    words_of_command(count, words, help, options, OPTIONS, take_name, &name);
    if (!name) misuse("no list");
    if (marks[BY_HEX] && marks[BY_DECIMAL]) misuse("--hex and --decimal exclude each other");
    if (marks[BY_HTML] + marks[BY_MENDED] + marks[BY_VET] > 1) misuse("--html, --mended and --vet-input exclude each other");
    if (v.date && !marks[BY_HTML]) misuse("--date is for the page, --html");
    if (image && marks[BY_ZEROS]) misuse("--image and --zeros exclude each other");
    if (!image && !marks[BY_ZEROS]) misuse("which chip? Give its registers, --image FILE (tools/image makes it), or say --zeros");
    v.registers = take_given(&options[BY_IMAGE], image, v.chip.image, STATION_IMAGE);
    v.packet = take_given(&options[BY_PACKET], packet, v.chip.packet, STATION_PACKET);
    v.coefficients = take_given(&options[BY_COEFFICIENTS], coefficients, v.chip.coefficients, STATION_COEFFICIENTS);
    v.chip.mark[0] = (uint8_t)mark;
    v.is_read = list_of_file(name, marks[BY_HEX] ? HEX : marks[BY_DECIMAL] ? DECIMAL : NOT_SAID, &v.list);
    v.list.name = without_folders(v.list.name);
    if (!v.is_read && !marks[BY_HTML]) misuse("line %lu: %s", v.list.wrong_line, v.list.wrong);
    if (marks[BY_VET]) {
        print_vet_input(&v);
        return printed(ACCEPTED);
    }
    judge_list(&v);
    if (marks[BY_MENDED]) {
        if (!v.is_run) misuse("%s: nothing can be mended", v.subject);
        print_mended(&v);
        return printed(v.mend.accepted ? ACCEPTED : REFUSED);
    }
    if (marks[BY_HTML]) print_page(&v);
    else print_text(&v);
    if (printed(0) == 0 && v.is_read && !v.agrees) {
        fprintf(stderr, "%s: THE LIBRARY'S VERDICT IS %u AT %u, AND BY THE REASONS IT IS %u AT %u: TRUST NEITHER\n", program,
                (unsigned)v.verdict.refusal, (unsigned)v.verdict.place, (unsigned)v.j.verdict.refusal, (unsigned)v.j.verdict.place);
        return DIFFERS;
    }
    return !v.is_read ? MISUSE : v.verdict.refusal ? REFUSED : ACCEPTED;
}
