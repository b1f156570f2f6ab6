/* Wrong N and CTS, wrong previews, a wrong class. */
#include "wrong.h"

#define NCTS(name) static struct station_pair name(const uint8_t *r, size_t rl)
#define RIGHT model_ncts(r, rl)

/* The error list's "reading CTS to the nearest whole and calling it exact". */
NCTS(cts_rounded) {
    struct station_pair p = RIGHT;
    return p.refusal == 9 ? (struct station_pair){ 0, 11648, 210938 } : p;
}
PUT(ncts, cts_rounded)

NCTS(misprint) {
    struct station_pair p = RIGHT;
    if (p.cts == 165000) p.cts = 16500;
    return p;
}
PUT(ncts, misprint)

NCTS(family_ignored) {
    uint8_t other[LONGEST];
    struct fields f = asked(r, rl);
    if (RIGHT.refusal) return RIGHT;
    f.family = 0;
    return model_ncts(other, model_bytes(&f, other));
}
PUT(ncts, family_ignored)

NCTS(other_row) {
    struct station_pair p = RIGHT;
    if (!p.refusal && asked(r, rl).vic == 60 && p.cts) p.n = 6144;
    return p;
}
PUT(ncts, other_row)

NCTS(measured_cts) {
    struct station_pair p = RIGHT;
    if (!p.refusal && !p.cts && asked(r, rl).sound) p.cts = p.n;
    return p;
}
PUT(ncts, measured_cts)

NCTS(off_is_zero) {
    struct station_pair p = RIGHT;
    if (!p.refusal && !asked(r, rl).sound) p.n = 0;
    return p;
}
PUT(ncts, off_is_zero)

NCTS(count_before_end) { return rl == 0 ? (struct station_pair){ 2, 0, 0 } : RIGHT; }
PUT(ncts, count_before_end)

NCTS(five_before_four) {
    struct station_pair p = RIGHT;
    if (p.refusal == 4 && asked(r, rl).encoding > 2) p.refusal = 5;
    return p;
}
PUT(ncts, five_before_four)

NCTS(six_before_five) {
    struct station_pair p = RIGHT;
    struct fields f = asked(r, rl);
    if (p.refusal == 5 && f.range > 1 && f.encoding != 0) p.refusal = 6;
    return p;
}
PUT(ncts, six_before_five)

NCTS(long_request_cut) { return model_ncts(r, rl > LONGEST ? LONGEST : rl); }
PUT(ncts, long_request_cut)

/* By multiples of the ratio in lowest terms, with a fault in the ratio or in its quotients. */
static uint64_t quotient(uint64_t a, uint64_t b, enum ratio fault) {
    return a / b - (fault == ONE_LESS_AT_MULTIPLES && a % b == 0 && a != 0);
}
struct station_pair nearest_pair(struct clock c, int rate, enum ratio fault) {
    uint64_t reference = 128 * model_rate(rate), u = c.top, v = reference * c.bottom, x = u, y = v;
    if (fault == TWOS_KEPT) {
        while (x % 2 == 0) x /= 2;
        while (y % 2 == 0) y /= 2;
    }
    while (fault == STOPS_EARLY ? y != 0 && x % y != 0 : y != 0) {
        uint64_t rest = x % y;
        x = y, y = rest;
    }
    u = quotient(u, x, fault), v = quotient(v, x, fault);
    uint64_t least = quotient(reference + 1500 * v - 1, 1500 * v, fault);
    uint64_t most = quotient(reference, 300 * v, fault), fits = quotient(1048575, u, fault), k = quotient(reference, 1000 * v, fault);
    if (fits < most) most = fits;
    if (most < least) return (struct station_pair){ 9, 0, 0 };
    if (k < most && 1000 * (k + 1) * v - reference < reference - 1000 * k * v) k++;
    if (k > most) k = most;
    if (k < least) k = least;
    return (struct station_pair){ 0, (uint32_t)(k * v), (uint32_t)(k * u) };
}
/* Only where no recommended pair is exact: VIC 60 but for 30 bits, whose clocks the tables do not have, and where there is no pair. */
static struct station_pair nearest_by(const uint8_t *r, size_t rl, enum ratio fault) {
    struct station_pair p = RIGHT;
    struct fields f = asked(r, rl);
    if ((p.refusal && p.refusal != 9) || !f.coherent || ((f.vic != 60 || f.depth == 1) && !p.refusal)) return p;
    return nearest_pair(model_clock(f.vic, f.family, f.depth, f.repetition), f.rate, fault);
}
NCTS(twos_kept) { return nearest_by(r, rl, TWOS_KEPT); }
PUT(ncts, twos_kept)
NCTS(stops_early) { return nearest_by(r, rl, STOPS_EARLY); }
PUT(ncts, stops_early)
NCTS(one_less_at_multiples) { return nearest_by(r, rl, ONE_LESS_AT_MULTIPLES); }
PUT(ncts, one_less_at_multiples)

#define PREVIEW(name) static struct station_pixel name(const uint8_t *m, size_t ml, uint32_t a, uint32_t b, uint32_t c)

PREVIEW(rounds_up) {
    struct station_pixel p = model_preview(m, ml, a, b, c);
    if (!p.refusal && p.b > 0 && p.b < 4095) {
        int64_t k[4];
        for (int i = 0; i < 4; i++) k[i] = model_coefficient(m + 9 + 2 * i);
        p.b = (uint32_t)(((a * k[0] + b * k[1] + c * k[2] + 4096 * k[3]) * (1 << m[0]) + 2048) >> 12);
    }
    return p;
}
PUT(preview, rounds_up)

PREVIEW(mode_3) {
    uint8_t two[MATRIX_BYTES];
    if (ml != sizeof two || m[0] != 3) return model_preview(m, ml, a, b, c);
    memcpy(two, m, sizeof two);
    two[0] = 2;
    return model_preview(two, sizeof two, a, b, c);
}
PUT(preview, mode_3)

PREVIEW(input_of_4096) { return model_preview(m, ml, a == 4096 ? 4095 : a, b, c); }
PUT(preview, input_of_4096)

PREVIEW(twelve_before_five) {
    struct station_pixel p = model_preview(m, ml, a, b, c);
    if (p.refusal == 5 && a > 4095) p.refusal = 12;
    return p;
}
PUT(preview, twelve_before_five)

static struct station_masks class_off(uint8_t address) {
    struct station_masks c = model_class(address);
    if (address == 0xDE) c.mandated = 0xF7, c.free_bits = 0x08;
    return c;
}
PUT(class_of, class_off)

const struct wrong wrong_numbers[] = {
    { "CTS rounded and called exact", put_cts_rounded, 0 },
    { "the guide's misprint, CTS 16500", put_misprint, 0 },
    { "the family ignored", put_family_ignored, 0 },
    { "the row Other for coherent audio", put_other_row, 0 },
    { "a CTS for audio that is not coherent", put_measured_cts, 0 },
    { "N 0 with sound off", put_off_is_zero, 0 },
    { "refusal 2 for an empty request", put_count_before_end, 0 },
    { "refusal 5 before 4", put_five_before_four, 0 },
    { "refusal 6 before 5", put_six_before_five, 0 },
    { "a long request read only as far as the longest", put_long_request_cut, 0 },
    { "the ratio's common power of two forgotten", put_twos_kept, 0 },
    { "the ratio's divisor one step too early", put_stops_early, 0 },
    { "a quotient one too small at exact multiples", put_one_less_at_multiples, 0 },
    { "a preview that rounds to the nearest", put_rounds_up, 0 },
    { "a preview that takes mode 3", put_mode_3, 0 },
    { "a preview that takes an input of 4096", put_input_of_4096, 0 },
    { "refusal 12 before 5", put_twelve_before_five, 0 },
    { "a class of a bit that the map does not list", put_class_off, 0 },
    { NULL, NULL, 0 },
};
