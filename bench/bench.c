/* The benchmark: planning, decoding, the vet of a list and a meter's matrix, the library and plain C, by the C compiler and by clang, in one
 * run: ns for each call, and the ratio to the faster of the two. The sides take turns, and each keeps its best round. A round is short, so
 * that some are not disturbed on a busy machine, and its time is the processor's.
 *   bench                      the times, and whether the bars are met: the status is 1 where they are not; then as bench bus
 *   bench check                only compares the answers
 *   bench bus                  the writes and the bus time of typical changes, the list whole and as it is planned
 *   bench count SIDE CALL N    N calls and nothing else, for a tool that counts instructions: SIDE library, plain, rule or, where plain C
 *                              was built by clang too, clang; CALL plan, plan_few, decode, refused, vet, vet_long or meter */
#include "plain.h"
#include "../programs/fields.h"
#include "../programs/may.h"
#include "../programs/words.h"
#include <stdlib.h>
#include <string.h>
#include <time.h>

const char *program = "bench";

enum { INPUTS = 64, ROUNDS = 1000, CHANGES = 200 };

/* A list of pairs, its length in bytes. */
struct pairs { uint8_t bytes[STATION_LIST + 2]; size_t length; };

/* A request in words, part by part, but for the last two bytes of the video section, the depth byte and the edition byte. `ycbcr`: its
 * input is, by its wiring. */
struct parts { unsigned ycbcr, vic, family, encoding, range, depth, edition; char wiring[160], sound[64], matrix[TEXT_OF_A_REQUEST / 2]; };

static struct {
    struct parts parts;
    struct request request;
    uint8_t start[STATION_IMAGE], finished[STATION_IMAGE], damaged[STATION_IMAGE], near[STATION_IMAGE];
} in[INPUTS];
static struct { uint8_t packet[STATION_PACKET], coefficients[STATION_COEFFICIENTS], mark; struct pairs own, longest; } lists[INPUTS];
static float exports[INPUTS][STATION_METER];
static uint8_t room[STATION_WRITES];
static uint32_t sum;    /* keeps the calls alive */

static uint32_t noise(void) {
    static uint32_t x = 2463534242u;
    x ^= x << 13, x ^= x >> 17, x ^= x << 5;
    return x;
}

static void put_in(struct pairs *l, size_t at, uint8_t address, uint8_t value) {
    memmove(l->bytes + 2 * at + 2, l->bytes + 2 * at, l->length - 2 * at);
    l->bytes[2 * at] = address;
    l->bytes[2 * at + 1] = value;
    l->length += 2;
}

static int has(const struct pairs *l, uint8_t address) {
    for (size_t i = 0; i < l->length; i += 2)
        if (l->bytes[i] == address) return 1;
    return 0;
}

/* A passing list as long as a list may be: N and CTS, which are in no group, written again and again after the mute with any value; of
 * them those that the list makes right later. */
static void make_longest(struct pairs *l) {
    static const uint8_t named[] = { 0x02, 0x03, 0x08, 0x09 };
    const struct pairs own = *l;
    while (l->length < STATION_LIST) {
        uint32_t at = 1 + noise() % 30;
        uint8_t address = named[noise() % 4], value = (uint8_t)noise();
        if (has(&own, address)) put_in(l, at, address, value);
    }
}

/* Three of four requests have sound, half of these coherent. */
static void draw_sound(struct parts *p) {
    p->sound[0] = 0;
    if (noise() % 4) {
        unsigned rate = noise() % 7, channels = noise() % 2 ? 8 : 2, coherent = noise() % 2;
        snprintf(p->sound, sizeof p->sound, "audio rate=%u channels=%u coherent=%u", rate, channels, coherent);
    }
}

static void draw_matrix(struct parts *p) {
    int used = snprintf(p->matrix, sizeof p->matrix, "matrix mode=%u", noise() % 3);
    for (int k = 0; k < 12; k++) used += snprintf(p->matrix + used, sizeof p->matrix - used, " %d", (int)(noise() % 8192) - 4096);
}

/* Another wiring than today's, each ID by turns, sync values where it has them. */
static void draw_wiring(struct parts *p, unsigned id) {
    int embedded = id == 2 || id == 4 || id == 8, of_rgb = id == 5;
    int used = snprintf(p->wiring, sizeof p->wiring, "input id=%u width=%u style=%u justified=%u", id, 1 + noise() % 3, 1 + noise() % 2,
                        of_rgb ? 0 : noise() % 3);
    if (embedded)
        snprintf(p->wiring + used, sizeof p->wiring - (size_t)used, " h-placement=%u h-duration=%u v-placement=%u v-duration=%u",
                 noise() % 1024, noise() % 1024, noise() % 1024, noise() % 1024);
    p->ycbcr = !of_rgb;
}

static unsigned draw_vic(void) { return modes[noise() % number_of_modes].vic; }

static struct request request_of(const struct parts *p) {
    struct request r = request_of_text("%s vic %u family=%u encoding=%u hdmi range=%u %s %s", p->wiring, p->vic, p->family, p->encoding,
                                       p->range, p->sound, p->matrix);
    uint8_t *video = r.bytes + 1 + r.bytes[0];
    video[video[0] - 1] = (uint8_t)p->depth;
    video[video[0]] = (uint8_t)p->edition;
    return r;
}

/* The image that a request ends in, from another one. Answers 0 where it is refused. */
static int finish(const struct request *r, const uint8_t *from, uint8_t *to) {
    uint8_t list[STATION_WRITES];
    struct station_count c = plain_plan(r->bytes, r->length, from, STATION_IMAGE, list, STATION_WRITES);
    memcpy(to, from, STATION_IMAGE);
    for (uint32_t w = 0; w < c.count; w++) to[list[2 * w]] = list[2 * w + 1];
    return c.refusal == 0;
}

/* An edition byte of CEA-861-E with a quantisation, a content type or both. */
static unsigned draw_edition(void) {
    unsigned bits = 1 + noise() % 7, quantisation = bits & 1, type = bits >> 1;
    return 1 | quantisation << 2 | type << 4;
}

/* Requests over HDMI that are accepted, one of eight with another wiring than today's, half of them with a matrix, half of those with RGB in
 * full range, one of eight with depth or repetition, one of eight with what 861-E has; an image of noise; the image that each ends in; and
 * that image with one mandated bit turned over. */
static void make_inputs(void) {
    for (int i = 0; i < INPUTS; ) {
        struct parts *p = &in[i].parts;
        unsigned with_matrix = noise() % 2;
        p->vic = draw_vic();
        p->family = noise() % 2;
        p->wiring[0] = 0, p->ycbcr = 0;
        if (i % 8 == 5) draw_wiring(p, 1 + (unsigned)i / 8 % 8);
        p->encoding = with_matrix ? noise() % 3 : p->ycbcr ? 1 + noise() % 2 : 0;
        p->range = p->encoding ? 0 : noise() % 2;
        p->depth = i % 8 == 7 ? 1 + noise() % 0x22 : 0;
        p->edition = i % 8 == 3 ? draw_edition() : 0;
        draw_sound(p);
        p->matrix[0] = 0;
        if (with_matrix) draw_matrix(p);
        in[i].request = request_of(p);
        for (int a = 0; a < STATION_IMAGE; a++) in[i].start[a] = (uint8_t)noise();
        in[i].start[0x4A] &= noise() % 2 ? 0xCF : 0xAF;
        if (!finish(&in[i].request, in[i].start, in[i].finished)) continue;
        memcpy(in[i].damaged, in[i].finished, STATION_IMAGE);
        in[i].damaged[0xE0] ^= 1;
        i++;
    }
}

/* The image that another request ends in, which has another mode, another sound or another matrix, and is the same otherwise. */
static void make_near(void) {
    for (int i = 0; i < INPUTS; ) {
        struct parts p = in[i].parts;
        switch (i % 3) {
        case 0: p.vic = draw_vic(); break;
        case 1: draw_sound(&p); break;
        default: draw_matrix(&p); break;
        }
        struct request r = request_of(&p);
        int other = r.length != in[i].request.length || memcmp(r.bytes, in[i].request.bytes, r.length);
        if (other && finish(&r, in[i].start, in[i].near)) i++;
    }
}

/* The list of each request on its image, the longest that passes, and buffers and a waiting mark of noise. */
static void make_lists(void) {
    for (int i = 0; i < INPUTS; i++) {
        struct pairs *own = &lists[i].own;
        const struct request *r = &in[i].request;
        own->length = 2 * plain_plan(r->bytes, r->length, in[i].start, STATION_IMAGE, own->bytes, STATION_WRITES).count;
        lists[i].longest = *own;
        make_longest(&lists[i].longest);
        for (int k = 0; k < STATION_PACKET; k++) lists[i].packet[k] = (uint8_t)noise();
        for (int k = 0; k < STATION_COEFFICIENTS; k++) lists[i].coefficients[k] = (uint8_t)noise();
        lists[i].mark = noise() % 2 ? (uint8_t)noise() : 0;
    }
}

/* Exports of a meter that are accepted, in each mode by turns; a quarter of their factors are 0. */
static void make_exports(void) {
    for (int i = 0; i < INPUTS; i++)
        for (int k = 0; k < STATION_METER; k++) {
            float part = (float)((int)(noise() % 16000001) - 8000000) / 8001000;        /* below 1 in size */
            exports[i][k] = part * (k % 4 == 3 ? 4095 : noise() % 4 ? 1 : 0) * (float)(1 << i % 3);
            if (k == 0 && i % 3) exports[i][k] = i % 3 == 2 ? -2.5f : 1.25f;
        }
}

/* plain.c by clang, as bench/clang names its functions. */
PLAIN_SIDE(clang);
PLAIN_SIDE(clang_rule);
struct station_count clang_meter(const float *numbers, size_t count, uint8_t *matrix, size_t matrix_length);

/* The sides, and what is called. A meter's matrix has no N and CTS, and one plain side. */
enum {
    LIBRARY, PLAIN, RULE,
#ifdef CLANG
    BY_CLANG, RULE_BY_CLANG,
#endif
    SIDES
};
enum { PLAN, PLAN_FEW, DECODE, NO_REQUEST, VET, VET_LONG, METER, WHATS };
static const struct {
    const char *name;
    struct station_count (*plan)(const uint8_t *, size_t, const uint8_t *, size_t, uint8_t *, size_t);
    struct station_count (*decode)(const uint8_t *, size_t, uint8_t *, size_t);
    struct station_verdict (*vet)(const uint8_t *, size_t, const uint8_t *, size_t, const uint8_t *, size_t, uint8_t, const uint8_t *,
                                  size_t);
    struct station_count (*meter)(const float *, size_t, uint8_t *, size_t);
} sides[SIDES] = {
    [LIBRARY] = { "library", station_plan, station_decode, station_vet, station_meter },
    [PLAIN] = { "plain", plain_plan, plain_decode, plain_vet, plain_meter },
    [RULE] = { "rule", rule_plan, rule_decode, rule_vet, plain_meter },
#ifdef CLANG
    [BY_CLANG] = { "clang", clang_plan, clang_decode, clang_vet, clang_meter },
    [RULE_BY_CLANG] = { "clang_rule", clang_rule_plan, clang_rule_decode, clang_rule_vet, clang_meter },
#endif
};
/* `bar`: 0 where none was asked for; `turns` over the inputs make a round; `clears`: whether a cleared buffer is tried too. */
static const struct { const char *name, *title; double bar; int turns, clears; } whats[WHATS] = {
    [PLAN] = { "plan", "planning", 1.5, 10, 1 },
    [PLAN_FEW] = { "plan_few", "planning, few changes", 1.7, 10, 1 },
    [DECODE] = { "decode", "decoding", 1.5, 10, 1 },
    [NO_REQUEST] = { "refused", "decoding, refused 11", 1.5, 10, 1 },
    [VET] = { "vet", "a list of ours", 1.4, 4, 0 },
    [VET_LONG] = { "vet_long", "a list of 512 pairs", 1.4, 1, 0 },
    [METER] = { "meter", "matrix of a meter", 0, 10, 0 },
};

static inline struct station_verdict vetted(int side, int i, const struct pairs *l) {
    return sides[side].vet(in[i].start, STATION_IMAGE, lists[i].packet, STATION_PACKET, lists[i].coefficients, STATION_COEFFICIENTS,
                           lists[i].mark, l->bytes, l->length);
}

static inline struct station_count call(int side, int what, int i) {
    if (what == METER) return sides[side].meter(exports[i], STATION_METER, room, sizeof room);
    if (what == VET || what == VET_LONG) {
        struct station_verdict v = vetted(side, i, what == VET ? &lists[i].own : &lists[i].longest);
        return (struct station_count){ v.refusal, v.place };
    }
    if (what == PLAN || what == PLAN_FEW)
        return sides[side].plan(in[i].request.bytes, in[i].request.length, what == PLAN ? in[i].start : in[i].near, STATION_IMAGE, room,
                                sizeof room);
    return sides[side].decode(what == NO_REQUEST ? in[i].damaged : in[i].finished, STATION_IMAGE, room, sizeof room);
}

static double now(void) {
    struct timespec t;
    clock_gettime(CLOCK_PROCESS_CPUTIME_ID, &t);
    return (double)t.tv_sec * 1e9 + (double)t.tv_nsec;
}

static double time_of(int side, int what, int clear) {
    double from = now();
    int calls = whats[what].turns * INPUTS;
    for (int k = 0; k < calls; k++) {
        if (clear) memset(room, 0, sizeof room);
        sum += call(side, what, k % INPUTS).count + room[1];
    }
    return (now() - from) / calls;
}

/* A list with some pairs taken out, put in, exchanged or with a bit turned over; now and then cut off after a coefficient, so that its
 * Vsync comes just before that. */
static struct pairs changed(const struct pairs *from) {
    struct pairs l = *from;
    for (uint32_t n = noise() % 4; n > 0; n--) {
        size_t pairs = l.length / 2, at = noise() % (pairs - 1);
        uint8_t *pair = l.bytes + 2 * at, put[2] = { pair[2], pair[3] };
        switch (noise() % 4) {
        case 0: pair[noise() % 2] ^= (uint8_t)(1u << noise() % 8); break;
        case 1: memmove(pair, pair + 2, l.length - 2 * at - 2), l.length -= 2; break;
        case 2: memcpy(pair + 2, pair, 2), memcpy(pair, put, 2); break;
        default:
            if (l.length < STATION_LIST) put_in(&l, at, noise() % 2 ? 0x4A : put[0], (uint8_t)noise());
            break;
        }
    }
    if (noise() % 8 == 0) {
        l.length = 2 + 2 * (noise() % (l.length / 2));
        l.bytes[l.length - 2] = (uint8_t)(0x1B + noise() % 21);
    }
    return l;
}

/* The sides' answers on lists with every kind of change, some of an odd length. */
static int vets_alike(void) {
    for (int i = 0; i < INPUTS; i++)
        for (int k = 0; k < CHANGES; k++) {
            struct pairs l = changed(k % 8 ? &lists[i].own : &lists[i].longest);
            l.length -= k % 32 == 31;
            struct station_verdict a = vetted(LIBRARY, i, &l);
            for (int side = PLAIN; side < SIDES; side++) {
                struct station_verdict b = vetted(side, i, &l);
                if (a.refusal != b.refusal || a.place != b.place) return 0;
            }
        }
    return 1;
}

/* A number of an export that is near a tie or a limit, or any 32 bits. */
static float other_number(void) {
    uint32_t bits = noise();
    float x;
    if (noise() % 4) {
        int size = (int)(noise() % 3 ? noise() % 8200 : 8190 + noise() % 5);
        float halves = (float)(noise() % 2 ? size : -size);                 /* of a field's unit */
        memcpy(&bits, &halves, sizeof bits);
        if (halves != 0) bits += (uint32_t)((int)(noise() % 3) - (noise() % 4 ? 13 : 1)) << 23;
        bits += noise() % 3 - 1;
    }
    memcpy(&x, &bits, sizeof x);
    return x;
}

/* The sides' answers on exports with other numbers in some places, now and then one number or one byte less. */
static int meters_alike(void) {
    for (int i = 0; i < INPUTS; i++)
        for (int k = 0; k < CHANGES; k++) {
            float numbers[STATION_METER];
            uint8_t ours[STATION_MATRIX + 1], theirs[STATION_MATRIX + 1];
            size_t count = STATION_METER - (noise() % 32 == 0), length = STATION_MATRIX + 1 - noise() % 32 / 30 * 2;
            memcpy(numbers, exports[i], sizeof numbers);
            for (uint32_t n = 1 + noise() % 3; n > 0; n--) numbers[noise() % STATION_METER] = other_number();
            memset(ours, 0x5A, sizeof ours);
            memset(theirs, 0x5A, sizeof theirs);
            struct station_count a = station_meter(numbers, count, ours, length), b = plain_meter(numbers, count, theirs, length);
            if (a.refusal != b.refusal || a.count != b.count || memcmp(ours, theirs, sizeof ours)) return 0;
        }
    return 1;
}

/* The sides must answer alike before their times are worth anything; and what is vetted for its time passes, as a meter's exports do. */
static int alike(void) {
    uint8_t kept[STATION_WRITES];
    for (int i = 0; i < INPUTS; i++)
        for (int what = 0; what < WHATS; what++) {
            memset(room, 0x5A, sizeof room);
            struct station_count a = call(LIBRARY, what, i);
            memcpy(kept, room, sizeof room);
            for (int side = PLAIN; side < SIDES; side++) {
                memset(room, 0x5A, sizeof room);
                struct station_count b = call(side, what, i);
                if (a.refusal != b.refusal || a.count != b.count || memcmp(kept, room, sizeof room)) return 0;
            }
            if (what >= VET && a.refusal) return 0;
        }
    return vets_alike() && meters_alike();
}

/* The compilers of plain C. */
#define TEXT(word) #word
#define TEXT_OF(word) TEXT(word)
#ifdef CLANG
#define COMPILERS "gcc " __VERSION__ " -O2 and by clang " TEXT_OF(CLANG) " -O2"
#else
#define COMPILERS "gcc " __VERSION__ " -O2 alone, for no clang was found"
#endif

static double less(double a, double b) { return a < b ? a : b; }

/* The best round of each side. */
static void time_sides(int what, int clear, double *best) {
    double t;
    for (int side = 0; side < SIDES; side++) best[side] = 1e18;
    for (int r = 0; r < ROUNDS; r++)
        for (int side = 0; side < SIDES; side++)
            if ((t = time_of(side, what, clear)) < best[side]) best[side] = t;
}

/* Times, in rounds by turns; the ratios are to the faster plain C, and to the faster plain C that finds N and CTS by the rule. */
static int measured(void) {
    double worst[WHATS] = { 0 };
    int met = 1;
    printf("best of %d rounds, each over %d requests, images, lists and exports; the sides in turns\n", ROUNDS, INPUTS);
    printf("plain C by " COMPILERS "; the ratio is to the faster\n");
    printf("%-22s %-12s %10s %10s %10s %7s %5s %12s %7s\n", "", "buffer", "library", "gcc", "clang", "ratio", "bar", "by the rule", "ratio");
    for (int what = 0; what < WHATS; what++)
        for (int clear = 0; clear <= whats[what].clears; clear++) {
            double best[SIDES];
            time_sides(what, clear, best);
            double plain = best[PLAIN], rule = best[RULE];
            printf("%-22s %-12s %7.1f ns %7.1f ns ", whats[what].title, !whats[what].clears ? "" : clear ? "cleared" : "not cleared",
                   best[LIBRARY], best[PLAIN]);
#ifdef CLANG
            printf("%7.1f ns", best[BY_CLANG]);
            plain = less(plain, best[BY_CLANG]);
            rule = less(rule, best[RULE_BY_CLANG]);
#else
            printf("%10s", "-");
#endif
            double ratio = best[LIBRARY] / plain;
            printf(" %7.2f", ratio);
            if (whats[what].bar == 0) printf(" %5s", "-");
            else printf(" %5.1f", whats[what].bar);
            printf(" %9.1f ns %7.2f\n", rule, best[LIBRARY] / rule);
            if (ratio > worst[what]) worst[what] = ratio;
        }
    for (int what = 0; what < WHATS; what++) {
        double bar = whats[what].bar;
        int good = bar == 0 || worst[what] <= bar;
        met &= good;
        printf("%s: %.2f times plain C at most, ", whats[what].title, worst[what]);
        if (bar == 0) printf("no bar\n");
        else printf("the bar is %.1f: %s\n", bar, good ? "met" : "NOT MET");
    }
    return met;
}

/* ---- The bus. */

/* A write over I2C, in periods of the bus clock: start, three bytes with an acknowledge each (the chip's address, the register, the value),
 * stop; start and stop count as one period each. A read of registers in a row as host/i2c.c has it: start, two bytes, start again, the
 * chip's address and the row, stop. What the host waits, between two transfers and for Vsync, is not counted. */
enum { BYTE = 8 + 1, OF_A_WRITE = 1 + 3 * BYTE + 1, OF_A_TRANSFER = 1 + 2 * BYTE + 1 + BYTE + 1, ROW = 32 };

/* What a read-back takes, of all registers or as host/i2c.c has it: of the rows that planning looks at and of three of its own. A
 * register between two of them is read in passing where that takes less than a new transfer. */
struct read_back { uint32_t registers, transfers, periods; };
static struct read_back reading(int all) {
    static const uint8_t rows[][2] = STATION_ROWS;
    uint8_t wanted[STATION_IMAGE] = { [0x41] = 1, [0x42] = 1, [0xA1] = 1 };
    struct read_back r = { 0, 0, 0 };
    int last = -STATION_IMAGE, first = last;
    for (size_t k = 0; k < sizeof rows / sizeof rows[0]; k++) memset(wanted + rows[k][0], 1, rows[k][1]);
    for (int a = 0; a < STATION_IMAGE; a++) {
        if (!all && !wanted[a]) continue;
        if ((a - last - 1) * BYTE < OF_A_TRANSFER && a - first < ROW) r.registers += (uint32_t)(a - last);
        else r.registers++, r.transfers++, first = a;
        last = a;
    }
    r.periods = r.registers * BYTE + r.transfers * OF_A_TRANSFER;
    return r;
}

/* The map's defaults (000, section 5) of the registers that a list writes, where they are not 0. */
static const uint8_t powered_up[STATION_IMAGE] = {
    [0x0A] = 0x01, [0x0C] = 0xBC, [0x18] = 0x46, [0x19] = 0x62, [0x1A] = 0x04, [0x1B] = 0xA8, [0x1E] = 0x1C, [0x1F] = 0x84, [0x20] = 0x1C,
    [0x21] = 0xBF, [0x22] = 0x04, [0x23] = 0xA8, [0x24] = 0x1E, [0x25] = 0x70, [0x26] = 0x02, [0x27] = 0x1E, [0x2A] = 0x04, [0x2B] = 0xA8,
    [0x2C] = 0x08, [0x2D] = 0x12, [0x2E] = 0x1B, [0x2F] = 0xAC, [0x3B] = 0x80, [0x44] = 0x79, [0x4A] = 0x80, [0x52] = 0x02, [0x53] = 0x0D,
    [0x70] = 0x01, [0x71] = 0x0A, [0x98] = 0x0B, [0x9C] = 0x5A, [0x9D] = 0x60, [0xA2] = 0x80, [0xA3] = 0x80, [0xAF] = 0x14, [0xE0] = 0x80,
    [0xF9] = 0x7C,
};

/* What is shown before, NULL at power-up, and what is asked for. */
#define CAMERA "input 422 embedded 10bit style2 left syncs 110 40 5 5 vic 4 ycbcr422 hdmi audio 48kHz 2 coherent"
#define SHOWN "vic 16 ycbcr444 hdmi audio 48kHz 2 coherent matrix table43"
static const struct { const char *title, *shown, *asked; } changes[] = {
    { "the same request again", SHOWN, SHOWN },
    { "same mode, other matrix", SHOWN, "vic 16 ycbcr444 hdmi audio 48kHz 2 coherent matrix table44" },
    { "same picture, other sound", SHOWN, "vic 16 ycbcr444 hdmi audio 96kHz 8 coherent matrix table43" },
    { "other mode", SHOWN, "vic 4 ycbcr444 hdmi audio 48kHz 2 coherent matrix table43" },
    { "mode, sound and matrix", MAY_BEFORE, MAY_ASKED },
    { "from power-up", NULL, SHOWN },
    { "a camera board, power-up", NULL, CAMERA },
    { "a camera board, other mode", CAMERA, "input 422 embedded 10bit style2 left syncs 88 44 4 5 vic 16 ycbcr422 hdmi audio 48kHz 2 coherent" },
};

static uint32_t writes_on(const uint8_t *image, const struct request *r) {
    return station_plan(r->bytes, r->length, image, STATION_IMAGE, room, sizeof room).count;
}

/* With nothing left out: on registers none of which is right, for each bit of the finished ones is turned over; no hold is up. */
static uint32_t writes_in_all(const struct request *r) {
    uint8_t image[STATION_IMAGE];
    finish(r, powered_up, image);
    for (int a = 0; a < STATION_IMAGE; a++) image[a] = (uint8_t)~image[a];
    image[0x4A] = 0;
    return writes_on(image, r);
}

static void tell_time(uint32_t periods) { printf(" %11.2f %8.2f", periods / 100.0, periods / 400.0); }

static void bus_time(void) {
    printf("writes, and ms on the bus at 100 and 400 kHz; before: every register is written, after: those that are right are left out\n");
    printf("%-26s %7s %11s %8s %9s %11s %8s\n", "", "before", "100 kHz", "400 kHz", "after", "100 kHz", "400 kHz");
    for (size_t c = 0; c < sizeof changes / sizeof changes[0]; c++) {
        uint8_t image[STATION_IMAGE];
        struct request asked = request_of_text("%s", changes[c].asked);
        memcpy(image, powered_up, sizeof image);
        if (changes[c].shown) {
            struct request shown = request_of_text("%s", changes[c].shown);
            finish(&shown, powered_up, image);
        }
        uint32_t before = writes_in_all(&asked), after = writes_on(image, &asked);
        printf("%-26s %7u", changes[c].title, (unsigned)before);
        tell_time(before * OF_A_WRITE);
        printf(" %9u", (unsigned)after);
        tell_time(after * OF_A_WRITE);
        printf("\n");
    }
    printf("a write is %d clock periods: start, three bytes of eight bits and an acknowledge (chip, register, value), stop\n", OF_A_WRITE);
    printf("what a host waits, between two transfers and for Vsync, is not counted\n");
    for (int all = 0; all < 2; all++) {
        struct read_back r = reading(all);
        printf("to read back %s: %u registers in %u transfers, %u periods, %.2f ms at 100 kHz, %.2f ms at 400 kHz\n",
               all ? "all registers, as no host need" : "what planning looks at, as host/i2c.c does", (unsigned)r.registers,
               (unsigned)r.transfers, (unsigned)r.periods, r.periods / 100.0, r.periods / 400.0);
    }
}

static int counted(const char *side, const char *what, const char *number) {
    int s = 0, w = 0;
    while (s < SIDES && strcmp(side, sides[s].name)) s++;
    while (w < WHATS && strcmp(what, whats[w].name)) w++;
    if (s == SIDES || w == WHATS) return 2;
    for (long k = 0, n = strtol(number, NULL, 10); k < n; k++) sum += call(s, w, (int)(k % INPUTS)).count;
    return 0;
}

int main(int count, char **words) {
    make_inputs();
    make_lists();
    make_near();
    make_exports();
    if (count == 5 && !strcmp(words[1], "count")) return counted(words[2], words[3], words[4]);
    if (!alike()) {
        puts("the library and plain C answer differently");
        return 1;
    }
    if (count == 2 && !strcmp(words[1], "check")) return 0;
    int only_bus = count == 2 && !strcmp(words[1], "bus");
    if (count > 1 && !only_bus) {
        fputs("bench [check | bus | count SIDE CALL N]\n", stderr);
        return 2;
    }
    int met = only_bus || measured();
    bus_time();
    return met ? 0 : 1;
}
