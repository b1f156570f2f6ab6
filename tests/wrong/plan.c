/* Wrong planners. Most take the model's full list and spoil it before writes are left out of it. */
#include "wrong.h"

#define PLAN(name) static struct station_count name(PLAN_ARGUMENTS)
#define RIGHT model_plan(r, rl, i, il, w, wl)
#define ANSWER answered(r, rl, i, il, wl)

/* A full list, the image that it is for, and the request. */
struct spoilt { struct list l; const uint8_t *image; struct fields f; };

static struct station_count left_out(void (*spoil)(struct spoilt *), PLAN_ARGUMENTS) {
    struct spoilt s = { .image = i, .f = asked(r, rl) };
    struct list l;
    if (ANSWER.refusal) return ANSWER;
    full_list_of(r, rl, i, &s.l);
    spoil(&s);
    model_leave_out(&s.l, i, &l);
    memcpy(w, l.pairs, 2 * l.count);
    return (struct station_count){ 0, l.count };
}

#define SPOIL(name) \
    static void name(struct spoilt *); \
    PLAN(plan_##name) { return left_out(name, r, rl, i, il, w, wl); } \
    static void put_##name(struct face *f) { f->plan = plan_##name; } \
    static void name(struct spoilt *s)

/* The n-th write to an address, which the full list has. */
static uint32_t place(const struct list *l, uint8_t address, int n) {
    uint32_t k = 0;
    while (l->pairs[2 * k] != address || n-- > 0) k++;
    return k;
}
static uint8_t *value(struct spoilt *s, uint8_t address, int n) { return &s->l.pairs[2 * place(&s->l, address, n) + 1]; }

static void take_out(struct list *l, uint32_t from, uint32_t to) {
    memmove(l->pairs + 2 * from, l->pairs + 2 * to, 2 * (l->count - to));
    l->count -= to - from;
}

/* The error list's "raising the AVI hold over an audio hold left by a cut". */
PLAN(avi_first) {
    uint8_t image[256];
    if (ANSWER.refusal) return ANSWER;
    memcpy(image, i, 256);
    image[0x4A] &= 0x9F;
    return model_plan(r, rl, image, 256, w, wl);
}
PUT(plan, avi_first)

/* The error list's "clearing mute before 0x3C is written". */
SPOIL(early_open) {
    uint32_t vic = place(&s->l, 0x3C, 0), last = s->l.count - 1;
    uint8_t open = s->l.pairs[2 * last + 1];
    memmove(s->l.pairs + 2 * vic + 2, s->l.pairs + 2 * vic, 2 * (last - vic));
    s->l.pairs[2 * vic] = 0x4B;
    s->l.pairs[2 * vic + 1] = open;
}

/* The error list's "Table 39's 0x08 for 0x1A drops the hold at the third byte". */
SPOIL(hold_dropped) { *value(s, 0x1A, 1) &= 0xDF; }
SPOIL(register_missed) { take_out(&s->l, place(&s->l, 0x16, 0), place(&s->l, 0x16, 0) + 1); }
SPOIL(matrix_not_written_when_off) {
    if (!s->f.matrix) take_out(&s->l, place(&s->l, 0x1A, 0), place(&s->l, 0x1A, 2) + 1);
}
SPOIL(free_bits_not_kept) { *value(s, 0x0C, 0) &= 0x3F; }
SPOIL(copy_protection_touched) { *value(s, 0xAF, 0) &= 0x7F; }
SPOIL(mandated_not_set) { *value(s, 0x9D, 0) &= 0x0F; }

SPOIL(addresses_not_rising) {
    uint8_t *a2 = s->l.pairs + 2 * place(&s->l, 0xA2, 0), pair[2] = { a2[0], a2[1] };
    memmove(a2, a2 + 2, 2);
    memcpy(a2 + 2, pair, 2);
}

SPOIL(other_hold_kept) { *value(s, 0x4A, 2) |= s->image[0x4A] & 0x60; }

/* The writes to 0x1A are there, the hold is not. */
SPOIL(hold_never_raised) {
    for (int n = 0; n < 3; n++) *value(s, 0x1A, n) &= 0xDF;
}

/* No place for the Vsync between the lowered hold and the opening write. */
SPOIL(lowered_after_open) {
    uint32_t fall = place(&s->l, 0x1A, 2);
    uint8_t pair[2] = { s->l.pairs[2 * fall], s->l.pairs[2 * fall + 1] };
    take_out(&s->l, fall, fall + 1);
    memcpy(s->l.pairs + 2 * s->l.count, pair, 2);
    s->l.count++;
}

/* The hold is lowered among the coefficients, and A2 comes first: all is well unless a Vsync comes among them. */
SPOIL(lowered_first) {
    uint8_t *first = s->l.pairs + 2 * place(&s->l, 0x18, 0), *third = first + 4, pair[2] = { third[0], third[1] & 0xDF };
    memmove(first + 2, first, 4);
    memcpy(first, pair, 2);
}

/* The error list's checksum 256 shows in no request today: no packet's sum is already zero. So a plain wrong one. */
SPOIL(checksum_off) { --*value(s, 0x54, 0); }
SPOIL(colorimetry_always) {
    if (s->f.encoding == 0) *value(s, 0x56, 0) |= 0x80;
}

/* Planning of another request in place of the lent one. */
static struct station_count in_place(struct fields f, const uint8_t *i, size_t il, uint8_t *w, size_t wl) {
    uint8_t other[LONGEST];
    return model_plan(other, model_bytes(&f, other), i, il, w, wl);
}

PLAN(ranges_exchanged) {
    struct fields f = asked(r, rl);
    if (ANSWER.refusal || f.encoding != 0) return RIGHT;
    f.range = !f.range;
    return in_place(f, i, il, w, wl);
}
PUT(plan, ranges_exchanged)

/* Q as a list has it, and the checksum with it. */
static void set_q(struct spoilt *s, int q) {
    uint8_t *byte = value(s, 0x57, 0), *sum = value(s, 0x54, 0), was = *byte;
    *byte = (uint8_t)((was & ~0x0C) | q << 2);
    *sum = (uint8_t)(*sum + was - *byte);
}

SPOIL(range_of_ycbcr) {
    if (s->f.encoding != 0) set_q(s, 1);
}
SPOIL(no_range_with_dvi) {
    if (s->f.link == 0) set_q(s, 0);
}
/* By CEA-861-D a screen takes RGB with Q 0 as full with VIC 1, as limited with the others. */
SPOIL(usual_range_not_said) {
    if (s->f.encoding == 0 && s->f.range == (s->f.vic == 1)) set_q(s, 0);
}

PLAN(range_in_bit_0) {
    struct fields f = asked(r, rl);
    struct station_count c = RIGHT;
    if (c.refusal != 5) return c;
    f.range &= 1;
    return in_place(f, i, il, w, wl);
}
PUT(plan, range_in_bit_0)

PLAN(full_ycbcr) {
    struct fields f = asked(r, rl);
    struct station_count c = RIGHT;
    if (c.refusal != 6 || f.range != 1) return c;
    f.range = 0;
    return in_place(f, i, il, w, wl);
}
PUT(plan, full_ycbcr)

PLAN(count_invented) {
    struct station_count c = RIGHT;
    if (!c.refusal) c.count++;
    return c;
}
PUT(plan, count_invented)

PLAN(rest_cleared) {
    struct station_count c = RIGHT;
    if (!c.refusal) memset(w + 2 * c.count, 0, wl - 2 * c.count);
    return c;
}
PUT(plan, rest_cleared)

PLAN(refusal_writes) {
    struct station_count c = RIGHT;
    if (c.refusal == 9 && wl) w[0] ^= 1;
    return c;
}
PUT(plan, refusal_writes)

PLAN(count_beside_refusal) {
    struct station_count c = RIGHT;
    if (c.refusal == 8) c.count = 1;
    return c;
}
PUT(plan, count_beside_refusal)

PLAN(buffer_before_pair) {
    struct station_count c = RIGHT;
    if (c.refusal == 9 && wl < 256) c.refusal = 10;
    return c;
}
PUT(plan, buffer_before_pair)

PLAN(longer_image) { return il == 257 ? model_plan(r, rl, i, 256, w, wl) : RIGHT; }
PUT(plan, longer_image)

PLAN(shorter_buffer) {
    uint8_t all[256];
    struct station_count c = RIGHT;
    if (c.refusal != 10) return c;
    struct station_count d = model_plan(r, rl, i, il, all, 256);
    if (d.refusal || wl < 2 * d.count) return c;
    memcpy(w, all, 2 * d.count);
    return d;
}
PUT(plan, shorter_buffer)

PLAN(gc_hold_passed) {
    struct station_count c = RIGHT;
    if (c.refusal != 8 || (i[0x4A] & 0x60) == 0x60) return c;
    uint8_t image[256];
    memcpy(image, i, 256);
    image[0x4A] &= 0xEF;
    return model_plan(r, rl, image, 256, w, wl);
}
PUT(plan, gc_hold_passed)

PLAN(refuses_all) {
    (void)r, (void)rl, (void)i, (void)il, (void)w, (void)wl;
    return (struct station_count){ 1, 0 };
}
PUT(plan, refuses_all)

PLAN(input_changed) {
    struct station_count c = RIGHT;
    if (!c.refusal) ((uint8_t *)i)[0x4A] |= 0x80;
    return c;
}
PUT(plan, input_changed)

static volatile uint8_t eye;

PLAN(reads_past_request) {
    eye = r[rl];
    return RIGHT;
}
PUT(plan, reads_past_request)

PLAN(reads_before_image) {
    eye = i[-1];
    return RIGHT;
}
PUT(plan, reads_before_image)

PLAN(writes_past_buffer) {
    struct station_count c = RIGHT;
    if (!c.refusal) w[wl] = 0;
    return c;
}
PUT(plan, writes_past_buffer)

PLAN(never_ends) {
    while (rl > 2000) eye = 0;
    return RIGHT;
}
PUT(plan, never_ends)

/* The useless versions that document 01 names. */
PLAN(one_list) {
    if (ANSWER.refusal) return ANSWER;
    return in_place((struct fields){ .vic = 16, .link = 1 }, i, il, w, wl);
}
PUT(plan, one_list)

SPOIL(one_group) {
    for (uint8_t a = 0x70; a <= 0x7C; a++) *value(s, a, 0) = s->image[a];
}

const struct wrong wrong_plans[] = {
    { "AVI before audio over a held audio packet", put_avi_first, 1 },
    { "mute cleared before 0x3C is written", put_early_open, 1 },
    { "the hold dropped at 0x1A", put_hold_dropped, 1 },
    { "a register missed (0x16)", put_register_missed, 1 },
    { "the matrix not written when it is off", put_matrix_not_written_when_off, 1 },
    { "free bits not kept (0x0C[7:6])", put_free_bits_not_kept, 1 },
    { "a copy-protection bit cleared (0xAF[7])", put_copy_protection_touched, 1 },
    { "mandated bits of the map not set (0x9D[7:4])", put_mandated_not_set, 1 },
    { "addresses that do not rise in a step", put_addresses_not_rising, 0 },
    { "a hold write that keeps the other hold", put_other_hold_kept, 1 },
    { "the coefficient hold never raised", put_hold_never_raised, 1 },
    { "the coefficient hold lowered after the opening write", put_lowered_after_open, 1 },
    { "the coefficient hold lowered before they are written", put_lowered_first, 1 },
    { "a checksum one too small", put_checksum_off, 1 },
    { "colorimetry given for RGB", put_colorimetry_always, 1 },
    { "Q 1 and 2 exchanged", put_ranges_exchanged, 1 },
    { "Q set for YCbCr too", put_range_of_ycbcr, 1 },
    { "Q 0 with DVI", put_no_range_with_dvi, 1 },
    { "Q 0 for the range that a screen takes anyway", put_usual_range_not_said, 1 },
    { "the range taken from bit 0 of its byte", put_range_in_bit_0, 0 },
    { "full range with YCbCr accepted", put_full_ycbcr, 0 },
    { "an invented count", put_count_invented, 0 },
    { "the buffer cleared after the list", put_rest_cleared, 0 },
    { "a refusal that writes the buffer", put_refusal_writes, 0 },
    { "a count beside a refusal", put_count_beside_refusal, 0 },
    { "refusal 10 before 9", put_buffer_before_pair, 0 },
    { "an image of 257 bytes accepted", put_longer_image, 0 },
    { "a buffer as long as the list accepted", put_shorter_buffer, 0 },
    { "the GC hold not refused", put_gc_hold_passed, 0 },
    { "every request refused", put_refuses_all, 1 },
    { "one list for every request", put_one_list, 1 },
    { "one group written, another's hold only raised", put_one_group, 1 },
    { "the lent image changed", put_input_changed, 0 },
    { "a read one byte past the request", put_reads_past_request, 0 },
    { "a read one byte before the image", put_reads_before_image, 0 },
    { "a write one byte past the buffer", put_writes_past_buffer, 0 },
    { "a call that does not end on a long request", put_never_ends, 0 },
    { NULL, NULL, 0 },
};
