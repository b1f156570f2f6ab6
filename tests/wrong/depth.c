/* Wrong depth and repetition: document 02, request 06. One library, which spoils what the model does, with a place for each fault; a fault
 * is a row of FAULTS. What shows in nothing is not here. No clock of ours lies between 222,750,000 Hz and 237,600,000 / 1.001 Hz, so the
 * limit may be anything between these two, and may be allowed itself or not; it may be held against the clock in family 0, or without the
 * depth, which lifts no clock above it. And a write carries the image's read-only bits, so these may be compared or not. */
#include "wrong.h"

/* FAULT(name, must demand 3 catch it by itself?, in words) */
#define FAULTS(FAULT) \
    FAULT(older_count, 0, "a request of before its depth byte taken") \
    FAULT(depth_in_two_bits, 0, "the depth taken from two bits of its half") \
    FAULT(repetition_in_two_bits, 0, "the repetition taken from two bits of its half") \
    FAULT(upper_half_ignored, 1, "the upper half of the depth byte ignored") \
    FAULT(upper_half_refused, 1, "a depth byte above 2 refused") \
    FAULT(halves_exchanged, 1, "the halves of the depth byte exchanged") \
    FAULT(depth_3_taken, 0, "a depth of 3 taken as 36 bits") \
    FAULT(repetition_3_taken, 0, "a repetition of 3 taken as four times") \
    FAULT(deep_422_taken, 0, "more than 24 bits accepted with 4:2:2") \
    FAULT(deep_dvi_taken, 0, "more than 24 bits accepted with DVI") \
    FAULT(deep_444_refused, 1, "more than 24 bits refused with 4:4:4") \
    FAULT(repeated_422_refused, 0, "repetition refused with 4:2:2") \
    FAULT(repeated_dvi_refused, 0, "repetition refused with DVI") \
    FAULT(limit_222, 0, "222.75 MHz refused") \
    FAULT(limit_165, 1, "the limit at 165 MHz") \
    FAULT(limit_237, 0, "237.6 MHz / 1.001 accepted") \
    FAULT(limit_238, 0, "237.6 MHz accepted") \
    FAULT(limit_340, 0, "the limit at 340 MHz") \
    FAULT(limit_without_repetition, 0, "the repetition forgotten for the limit") \
    FAULT(limit_in_32_bits, 0, "the clock held against its limit in 32 bits") \
    FAULT(limit_of_deep, 0, "the limit for more than 24 bits alone") \
    FAULT(limit_of_sound, 0, "the limit for coherent sound alone") \
    FAULT(limit_of_hdmi, 0, "the limit for HDMI alone") \
    FAULT(five_for_seventeen, 0, "refusal 5 for a clock above the limit") \
    FAULT(six_before_five, 0, "refusal 6 before 5 at a depth of 3 over DVI") \
    FAULT(seventeen_before_four, 0, "refusal 17 before 4") \
    FAULT(seventeen_before_five, 0, "refusal 17 before 5") \
    FAULT(seventeen_before_six, 0, "refusal 17 before 6") \
    FAULT(seven_before_seventeen, 0, "refusal 7 before 17") \
    FAULT(eight_before_seventeen, 0, "refusal 8 before 17") \
    FAULT(nine_before_seventeen, 0, "refusal 9 before 17") \
    FAULT(ten_before_seventeen, 0, "refusal 10 before 17") \
    FAULT(seventeen_in_planning_alone, 0, "refusal 17 in planning alone") \
    FAULT(seventeen_in_numbers_alone, 0, "refusal 17 in N and CTS alone") \
    FAULT(seventeen_writes, 0, "refusal 17 writes the buffer") \
    FAULT(count_beside_seventeen, 0, "a count beside refusal 17") \
    FAULT(by_pixel_clock, 1, "N and CTS by the pixel clock") \
    FAULT(depth_forgotten, 1, "the depth forgotten in N and CTS") \
    FAULT(depth_forgotten_in_0, 0, "the depth forgotten in family 0") \
    FAULT(depth_forgotten_in_1, 0, "the depth forgotten in family 1") \
    FAULT(repetition_forgotten, 1, "the repetition forgotten in N and CTS") \
    FAULT(one_factor, 0, "the repetition forgotten beside a depth") \
    FAULT(factors_exchanged, 1, "5/4 and 3/2 exchanged") \
    FAULT(four_as_three, 0, "four times taken as three in the clock") \
    FAULT(whole_hertz, 0, "the clock in whole Hz") \
    FAULT(row_by_vic, 0, "the recommended row by VIC") \
    FAULT(row_of_24_bits, 0, "recommended rows for 24 bits alone") \
    FAULT(row_of_54_missed, 0, "no recommended row for 54 MHz") \
    FAULT(other_by_clock, 1, "N by the clock for audio that is not coherent") \
    FAULT(code_of_24_bits, 1, "24 bits as 0100") \
    FAULT(codes_exchanged, 1, "the codes of 30 and 36 bits exchanged") \
    FAULT(code_is_number, 1, "the number of the depth for its code") \
    FAULT(clock_not_set, 1, "0x3B[4:3] left 0") \
    FAULT(told_not_set, 1, "0x3B[2:1] left 0") \
    FAULT(repeats_in_3b, 0, "PR's number in 0x3B") \
    FAULT(manual_if_repeated, 1, "0x3B[6:5] 2 only where pixels are repeated") \
    FAULT(pr_2_for_four, 1, "PR 2 for four times") \
    FAULT(pr_counts_pixels, 1, "PR counts the pixels and not the repeats") \
    FAULT(pr_not_set, 1, "PR left 0") \
    FAULT(pr_in_upper_half, 1, "PR in the upper half of its byte") \
    FAULT(pr_not_summed, 1, "the AVI checksum without PR") \
    FAULT(no_pr_with_dvi, 0, "PR 0 with DVI") \
    FAULT(depth_left_out, 1, "0x4C never written") \
    FAULT(depth_always_written, 0, "0x4C always written") \
    FAULT(read_only_as_zero, 0, "0x4C compared with its read-only bits as 0") \
    FAULT(read_only_cleared, 0, "0x4C written with its read-only bits as 0") \
    FAULT(depth_last, 0, "0x4C after 0xAF") \
    FAULT(depth_first, 1, "0x4C before the mute") \
    FAULT(depth_under_avi_hold, 0, "0x4C with the AVI registers") \
    FAULT(depth_under_gc_hold, 1, "0x4C under the GC hold") \
    FAULT(code_ignored, 1, "decoding ignores 0x4C") \
    FAULT(other_codes_ignored, 0, "decoding takes codes of no depth for 24 bits") \
    FAULT(code_0100_taken, 0, "decoding takes 0100 for 24 bits") \
    FAULT(depth_not_answered, 1, "decoding answers 24 bits always") \
    FAULT(repetition_not_answered, 1, "decoding answers no repetition always") \
    FAULT(clock_not_compared, 0, "decoding ignores 0x3B[4:3]") \
    FAULT(told_not_compared, 0, "decoding ignores 0x3B[2:1]") \
    FAULT(pr_not_compared, 0, "decoding ignores PR") \
    FAULT(above_decoded, 0, "decoding takes a clock above the limit") \
    FAULT(deep_422_decoded, 0, "decoding takes more than 24 bits with 4:2:2") \
    FAULT(deep_dvi_decoded, 0, "decoding takes more than 24 bits with DVI") \
    FAULT(answer_refused, 0, "decoding refuses an answer that is refused 9") \
    FAULT(decoded_by_pixel_clock, 1, "decoding by the pixel clock") \
    FAULT(depth_read_only, 1, "a machine with 0x4C read-only") \
    FAULT(phase_written, 0, "a machine that writes 0x4C[7:4]") \
    FAULT(gc_hold_copies_depth, 0, "a GC hold that copies 0x4C too") \
    FAULT(class_named, 0, "0x4C named whole") \
    FAULT(class_read_only, 0, "0x4C read-only whole")

#define NUMBER(name, on_cuts, words) name##_fault,
enum fault { right_fault, FAULTS(NUMBER) };     /* the first is no fault */

/* Reading: refusals 1 to 6, 17 and 20. -------------------------------------------------------------------------------------------------- */

/* The depth byte as it is taken. */
static void take(enum fault fault, struct fields *f) {
    int depth = f->depth;
    switch (fault) {
    case depth_in_two_bits_fault: f->depth &= 3; break;
    case repetition_in_two_bits_fault: f->repetition &= 3; break;
    case upper_half_ignored_fault: f->repetition = 0; break;
    case halves_exchanged_fault: f->depth = f->repetition, f->repetition = depth; break;
    case depth_3_taken_fault: if (f->depth == 3) f->depth = 2; break;
    case repetition_3_taken_fault: if (f->repetition == 3) f->repetition = 2; break;
    default: break;
    }
}

static int in_range(const struct fields *f) { return f->depth < DEPTHS && f->repetition < REPETITIONS; }

static int is_above(enum fault fault, const struct fields *f) {
    struct clock c = model_clock(f->vic, f->family, f->depth, f->repetition);
    switch (fault) {
    case limit_222_fault: return c.top >= 222750000 * c.bottom;
    case limit_165_fault: return c.top > 165000000 * c.bottom;
    case limit_237_fault: return c.top > 237500000 * c.bottom;
    case limit_238_fault: return c.top > 237600000 * c.bottom;
    case limit_340_fault: return c.top > 340000000 * c.bottom;
    case limit_without_repetition_fault: return model_above_limit(model_clock(f->vic, f->family, f->depth, 0));
    case limit_in_32_bits_fault: return (uint32_t)c.top > (uint32_t)(225000000 * c.bottom);
    case limit_of_deep_fault: return f->depth && model_above_limit(c);
    case limit_of_sound_fault: return f->coherent && model_above_limit(c);
    case limit_of_hdmi_fault: return f->link && model_above_limit(c);
    default: return model_above_limit(c);
    }
}

/* The number for a combination that the model refuses 6 by its depth alone, or not at all. */
static uint32_t combined(enum fault fault, const struct fields *f, uint32_t refusal) {
    struct fields plain = *f;
    plain.depth = 0;
    int by_depth = refusal == 6 && refusal_of(&plain) != 6, fair = refusal == 0 || refusal == 17;
    switch (fault) {
    case deep_422_taken_fault: return by_depth && f->encoding == 1 ? 0 : refusal;
    case deep_dvi_taken_fault: return by_depth && f->link == 0 ? 0 : refusal;
    case deep_444_refused_fault: return fair && f->depth && f->encoding == 2 ? 6 : refusal;
    case repeated_422_refused_fault: return fair && f->repetition && f->encoding == 1 ? 6 : refusal;
    case repeated_dvi_refused_fault: return fair && f->repetition && f->link == 0 ? 6 : refusal;
    default: return refusal;
    }
}

/* Two that apply, the wrong one first. */
static uint32_t ordered(enum fault fault, const struct fields *f, uint32_t refusal) {
    struct fields whole = *f;
    whole.family = 0;
    int above = in_range(f) && is_above(fault, &whole);
    switch (fault) {
    case five_for_seventeen_fault: return refusal == 17 ? 5 : refusal;
    case six_before_five_fault: return refusal == 5 && f->depth > 2 && f->link == 0 ? 6 : refusal;
    case seventeen_before_four_fault: return refusal == 4 && above ? 17 : refusal;
    case seventeen_before_five_fault: return refusal == 5 && above ? 17 : refusal;
    case seventeen_before_six_fault: return refusal == 6 && above ? 17 : refusal;
    default: return refusal;
    }
}

/* The depth byte is the last but one. */
enum { SINCE = 2, OLDER = VIDEO_BYTES - SINCE };

static uint32_t reads(enum fault fault, const uint8_t *r, size_t rl, struct fields *f) {
    uint8_t whole[LONGEST] = { 0 };
    size_t at = video_at(r, rl);
    if (fault == older_count_fault && rl > at + OLDER && rl + SINCE <= LONGEST && r[at] == OLDER) {
        memcpy(whole, r, at + 1 + OLDER);
        whole[at] = VIDEO_BYTES;
        memcpy(whole + at + 1 + VIDEO_BYTES, r + at + 1 + OLDER, rl - at - 1 - OLDER);
        r = whole, rl += SINCE;
    }
    uint32_t refusal = model_read(r, rl, f);
    if (refusal > 0 && refusal < 4) return refusal;
    struct fields was = *f;
    take(fault, f);
    if (was.depth != f->depth || was.repetition != f->repetition) refusal = refusal_of(f);
    if (fault == upper_half_refused_fault && refusal != 4 && f->repetition) refusal = 5;
    refusal = combined(fault, f, refusal);
    if (refusal == 0 || refusal == 17) refusal = is_above(fault, f) ? 17 : 0;
    return ordered(fault, f, refusal);
}

/* N and CTS. ------------------------------------------------------------------------------------------------------------------------ */

/* The clock that they rest on. */
static struct clock clock_of(enum fault fault, const struct fields *f) {
    static const int exchanged[DEPTHS] = { 0, 2, 1 };
    int depth = f->depth, repetition = f->repetition;
    struct clock c = model_clock(f->vic, f->family, depth, repetition);
    switch (fault) {
    case by_pixel_clock_fault: depth = repetition = 0; break;
    case depth_forgotten_fault: depth = 0; break;
    case depth_forgotten_in_0_fault: if (f->family == 0) depth = 0; break;
    case depth_forgotten_in_1_fault: if (f->family == 1) depth = 0; break;
    case repetition_forgotten_fault: repetition = 0; break;
    case one_factor_fault: if (depth) repetition = 0; break;
    case factors_exchanged_fault: depth = exchanged[depth]; break;
    case four_as_three_fault: return repetition == 2 ? (struct clock){ 3 * c.top, 4 * c.bottom } : c;
    case whole_hertz_fault: return depth || repetition ? (struct clock){ c.top / c.bottom, 1 } : c;
    default: break;
    }
    return model_clock(f->vic, f->family, depth, repetition);
}

/* Is the row of this clock, if there is one, not found? */
static int row_missed(enum fault fault, const struct fields *f, struct clock c) {
    uint64_t kilohertz = c.top / c.bottom / 1000;
    switch (fault) {
    case row_by_vic_fault: return f->depth || f->repetition;
    case row_of_24_bits_fault: return f->depth != 0;
    case row_of_54_missed_fault: return kilohertz == 54000 || kilohertz == 54054;
    default: return 0;
    }
}

static struct pair pair_of(enum fault fault, const struct fields *f) {
    struct clock right = model_clock(f->vic, f->family, f->depth, f->repetition), c = clock_of(fault, f);
    struct pair p = model_pair(f);
    if (fault == other_by_clock_fault && f->sound && !f->coherent && f->depth) {
        struct pair coherent = model_coherent(c, f->rate);
        return coherent.exists ? (struct pair){ 1, coherent.n, 0 } : p;
    }
    if (!f->coherent) return p;
    if (row_missed(fault, f, c)) {
        struct station_pair n = nearest_pair(c, f->rate, RIGHT_RATIO);
        return (struct pair){ n.refusal == 0, n.n, n.cts };
    }
    return c.top * right.bottom == right.top * c.bottom ? p : model_coherent(c, f->rate);
}

static struct station_pair numbers(enum fault fault, const uint8_t *r, size_t rl) {
    struct fields f;
    uint32_t refusal = reads(fault, r, rl, &f);
    if (refusal == 17 && fault == seventeen_in_planning_alone_fault) refusal = 0;
    if (refusal == 17 && fault == nine_before_seventeen_fault && !model_pair(&f).exists) refusal = 9;
    if (refusal) return (struct station_pair){ refusal, 0, 0 };
    struct pair p = pair_of(fault, &f);
    return p.exists ? (struct station_pair){ 0, p.n, p.cts } : (struct station_pair){ 9, 0, 0 };
}

/* Planning. ------------------------------------------------------------------------------------------------------------------------- */

/* Data byte 5, and PR in it; the checksum with it. */
static void set_byte_5(uint8_t *wanted, int byte) {
    wanted[0x54] = (uint8_t)(wanted[0x54] + wanted[0x59] - byte);
    wanted[0x59] = (uint8_t)byte;
}
static void set_pr(uint8_t *wanted, int pr) { set_byte_5(wanted, (wanted[0x59] & 0xF0) | pr); }

static void spoil_wanted(enum fault fault, const struct fields *f, uint8_t *wanted) {
    static const uint8_t exchanged[DEPTHS] = { 0x0, 0x6, 0x5 };
    int pr = wanted[0x59] & 15;
    switch (fault) {
    case code_of_24_bits_fault: if (f->depth == 0) wanted[0x4C] = 4; break;
    case codes_exchanged_fault: wanted[0x4C] = exchanged[f->depth]; break;
    case code_is_number_fault: wanted[0x4C] = (uint8_t)f->depth; break;
    case clock_not_set_fault: wanted[0x3B] &= 0xE7; break;
    case told_not_set_fault: wanted[0x3B] &= 0xF9; break;
    case repeats_in_3b_fault: wanted[0x3B] = (uint8_t)(0x40 | pr << 3 | pr << 1); break;
    case manual_if_repeated_fault: if (f->repetition == 0) wanted[0x3B] = 0; break;
    case pr_2_for_four_fault: set_pr(wanted, f->repetition); break;
    case pr_counts_pixels_fault: set_pr(wanted, pr ? pr + 1 : 0); break;
    case pr_not_set_fault: set_pr(wanted, 0); break;
    case pr_in_upper_half_fault: set_byte_5(wanted, (wanted[0x59] & 0xF0) | pr << 4); break;
    case pr_not_summed_fault: wanted[0x54] = (uint8_t)(wanted[0x54] + pr); break;
    case no_pr_with_dvi_fault: if (f->link == 0) set_pr(wanted, 0); break;
    default: break;
    }
}

static uint32_t place(const struct list *l, uint8_t address) {
    uint32_t k = 0;
    while (l->pairs[2 * k] != address) k++;
    return k;
}

static void put_in(struct list *l, uint32_t at, uint8_t address, uint8_t value) {
    memmove(l->pairs + 2 * at + 2, l->pairs + 2 * at, 2 * (l->count - at));
    l->pairs[2 * at] = address;
    l->pairs[2 * at + 1] = value;
    l->count++;
}

static uint8_t take_out(struct list *l, uint32_t at) {
    uint8_t value = l->pairs[2 * at + 1];
    memmove(l->pairs + 2 * at, l->pairs + 2 * at + 2, 2 * (l->count - at - 1));
    l->count--;
    return value;
}

/* The write to 0x4C elsewhere, or otherwise, in the full list. */
static void spoil_list(enum fault fault, const uint8_t *image, struct list *l) {
    uint32_t at = place(l, 0x4C);
    uint8_t value = l->pairs[2 * at + 1], holds = image[0x4A] & 0x1F;
    switch (fault) {
    case depth_left_out_fault: take_out(l, at); break;
    case read_only_cleared_fault: l->pairs[2 * at + 1] &= 0x0F; break;
    case depth_last_fault: take_out(l, at), put_in(l, place(l, 0xAF) + 1, 0x4C, value); break;
    case depth_first_fault: take_out(l, at), put_in(l, 0, 0x4C, value); break;
    case depth_under_avi_hold_fault: take_out(l, at), put_in(l, place(l, 0x52), 0x4C, value); break;
    case depth_under_gc_hold_fault:
        put_in(l, at + 1, 0x4A, 0x80 | holds);
        put_in(l, at, 0x4A, 0x90 | holds);
        break;
    default: break;
    }
}

/* What is left out of it. */
static void shorten(enum fault fault, const uint8_t *image, const struct list *full, struct list *l) {
    uint8_t bare = image[0x4C];
    l->count = 0;
    for (const uint8_t *pair = full->pairs; pair < full->pairs + 2 * full->count; pair += 2) {
        uint8_t mask = (uint8_t)~model_classes[pair[0]].read_only;
        int stands = ((image[pair[0]] ^ pair[1]) & mask) == 0 && !model_stays(pair[0]);
        if (pair[0] == 0x4C && fault == depth_always_written_fault) stands = 0;
        if (pair[0] == 0x4C && fault == read_only_as_zero_fault) stands = bare == (pair[1] & 0x0F);
        if (!stands) put_in(l, l->count, pair[0], pair[1]);
    }
}

static uint32_t refused_later(enum fault fault, const struct fields *f, const uint8_t *i, size_t il, size_t wl) {
    int up = il == 256 && ((i[0x4A] & 0x10) || (i[0x4A] & 0x60) == 0x60);
    if (fault == seven_before_seventeen_fault && il != 256) return 7;
    if (fault == eight_before_seventeen_fault && up) return 8;
    if (fault == nine_before_seventeen_fault && !model_pair(f).exists) return 9;
    if (fault == ten_before_seventeen_fault && wl < 256) return 10;
    return fault == seventeen_in_numbers_alone_fault ? 0 : 17;
}

static struct station_count planned(enum fault fault, PLAN_ARGUMENTS) {
    struct fields f;
    struct list full, l;
    uint8_t wanted[256];
    uint32_t refusal = reads(fault, r, rl, &f);
    if (refusal == 17) {
        if (fault == seventeen_writes_fault && wl) w[0] ^= 1;
        if (fault == count_beside_seventeen_fault) return (struct station_count){ 17, 1 };
        refusal = refused_later(fault, &f, i, il, wl);
    }
    if (refusal) return (struct station_count){ refusal, 0 };
    if (il != 256) return (struct station_count){ 7, 0 };
    if ((i[0x4A] & 0x10) || (i[0x4A] & 0x60) == 0x60) return (struct station_count){ 8, 0 };
    struct pair p = pair_of(fault, &f);
    if (!p.exists) return (struct station_count){ 9, 0 };
    if (wl < 256) return (struct station_count){ 10, 0 };
    model_wanted(&f, p, wanted);
    spoil_wanted(fault, &f, wanted);
    model_full_list(wanted, i, &full);
    spoil_list(fault, i, &full);
    shorten(fault, i, &full, &l);
    memcpy(w, l.pairs, 2 * l.count);
    return (struct station_count){ 0, l.count };
}

/* Decoding. ------------------------------------------------------------------------------------------------------------------------- */

/* An image that is like the lent one but for what is ignored. */
static void ignore(enum fault fault, uint8_t *image) {
    static const uint8_t of_clock[4] = { 0, 1, 3, 3 };
    int code = image[0x4C] & 15, clock = image[0x3B] >> 3 & 3, told = image[0x3B] >> 1 & 3;
    if (fault == code_ignored_fault || (fault == code_0100_taken_fault && code == 4)) image[0x4C] &= 0xF0;
    if (fault == other_codes_ignored_fault && code != 5 && code != 6) image[0x4C] &= 0xF0;
    if (fault == clock_not_compared_fault) image[0x3B] = (uint8_t)((image[0x3B] & 0xE7) | told << 3);
    if (fault == told_not_compared_fault) image[0x3B] = (uint8_t)((image[0x3B] & 0xF9) | clock << 1);
    if (fault == pr_not_compared_fault) set_pr(image, of_clock[clock]);
}

/* A request that its own rules refuse by depth and clock alone, and that would end in the image in one of its families. */
static int ends_all_the_same(enum fault fault, const uint8_t *image, struct fields *f) {
    if (!shown_by(image, f)) return 0;
    struct fields plain = *f;
    plain.depth = 0;
    uint32_t refusal = refusal_of(f);
    int by_depth = refusal == 6 && refusal_of(&plain) != 6;
    if (!(fault == above_decoded_fault && refusal == 17) && !(fault == deep_422_decoded_fault && by_depth && f->encoding == 1) &&
        !(fault == deep_dvi_decoded_fault && by_depth && f->link == 0))
        return 0;
    return ends_in_any(image, f);
}

/* Does the image have N and CTS by the pixel clock of its request, in one of its families? */
static int of_pixel_clock(const uint8_t *image, struct fields f) {
    uint32_t n = image[1] % 16 * 65536u + image[2] * 256u + image[3], cts = image[7] % 16 * 65536u + image[8] * 256u + image[9];
    f.depth = f.repetition = 0;
    for (f.family = 0; f.family < 2; f.family++) {
        struct pair p = model_pair(&f);
        if (model_offers(f.vic, f.family) && p.exists && p.n == n && p.cts == cts) return 1;
    }
    return 0;
}

static struct station_count decoded(enum fault fault, const uint8_t *i, size_t il, uint8_t *b, size_t bl) {
    uint8_t image[256], back[LONGEST];
    struct fields f;
    if (il != 256 || bl < LONGEST) return model_decode(i, il, b, bl);
    memcpy(image, i, 256);
    ignore(fault, image);
    struct station_count c = model_decode(image, 256, back, LONGEST);
    if (c.refusal == 11 && ends_all_the_same(fault, image, &f)) c = (struct station_count){ 0, (uint32_t)model_bytes(&f, back) };
    else if (!c.refusal) f = asked(back, c.count);
    if (!c.refusal && fault == answer_refused_fault && !model_pair(&f).exists) return (struct station_count){ 11, 0 };
    if (!c.refusal && fault == decoded_by_pixel_clock_fault && !of_pixel_clock(i, f)) return (struct station_count){ 11, 0 };
    if (c.refusal) return c;
    if (fault == depth_not_answered_fault) f.depth = 0;
    if (fault == repetition_not_answered_fault) f.repetition = 0;
    model_bytes(&f, b);
    return c;
}

/* The machine and the class. -------------------------------------------------------------------------------------------------------- */

static uint32_t writes(enum fault fault, WRITE_ARGUMENTS) {
    uint8_t was = il == 256 ? i[0x4C] : 0, rises = il == 256 ? (uint8_t)~i[0x4A] & value & 0x10 : 0;
    uint32_t refusal = model_write(i, il, p, pl, c, cl, m, ml, address, value);
    if (refusal) return refusal;
    if (address == 0x4C && fault == depth_read_only_fault) i[0x4C] = was;
    if (address == 0x4C && fault == phase_written_fault) i[0x4C] = value;
    if (address == 0x4A && rises && fault == gc_hold_copies_depth_fault) p[1] = i[0x4C];
    return 0;
}

static struct station_masks class_of(enum fault fault, uint8_t address) {
    struct station_masks k = model_class(address);
    if (address == 0x4C && fault == class_named_fault) k.named = 0xFF, k.read_only = 0;
    if (address == 0x4C && fault == class_read_only_fault) k.named = 0, k.read_only = 0xFF;
    return k;
}

#define LIBRARY(name, on_cuts, words) \
    static struct station_count plan_##name(PLAN_ARGUMENTS) { return planned(name##_fault, r, rl, i, il, w, wl); } \
    static struct station_pair ncts_##name(const uint8_t *r, size_t rl) { return numbers(name##_fault, r, rl); } \
    static struct station_count decode_##name(const uint8_t *i, size_t il, uint8_t *b, size_t bl) { \
        return decoded(name##_fault, i, il, b, bl); \
    } \
    static uint32_t write_##name(WRITE_ARGUMENTS) { return writes(name##_fault, i, il, p, pl, c, cl, m, ml, address, value); } \
    static struct station_masks class_##name(uint8_t address) { return class_of(name##_fault, address); } \
    static void put_##name(struct face *f) { \
        f->plan = plan_##name, f->ncts = ncts_##name, f->decode = decode_##name, f->write = write_##name, f->class_of = class_##name; \
    }
FAULTS(LIBRARY)

LIBRARY(right, 0, "")
void put_right_depths(struct face *f) { put_right(f); }

#define ROW(name, on_cuts, words) { words, put_##name, on_cuts },
const struct wrong wrong_depths[] = { FAULTS(ROW) { NULL, NULL, 0 } };
