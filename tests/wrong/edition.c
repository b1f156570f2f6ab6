/* Wrong editions of the InfoFrame: document 02, request 11. One library, which spoils what the model does, with a place for each fault; a
 * fault is a row of FAULTS. */
#include "wrong.h"

/* FAULT(name, must demand 3 catch it by itself?, in words) */
#define FAULTS(FAULT) \
    FAULT(older_count, 0, "a request without its edition byte taken") \
    FAULT(bytes_exchanged, 1, "the edition byte and the depth byte exchanged") \
    FAULT(edition_2_taken, 0, "edition 2 taken as E") \
    FAULT(edition_3_taken, 0, "edition 3 taken as E") \
    FAULT(edition_in_bit_0, 0, "the edition taken from bit 0 alone") \
    FAULT(e_refused, 1, "E refused 5") \
    FAULT(e_for_nothing_refused, 0, "an E that asks for nothing refused 6") \
    FAULT(quantisation_2_taken, 0, "quantisation 2 taken") \
    FAULT(quantisation_3_taken, 0, "quantisation 3 taken as 1") \
    FAULT(quantisation_in_bit_2, 0, "the quantisation taken from bit 2 alone") \
    FAULT(quantisation_1_refused, 1, "quantisation 1 refused 5") \
    FAULT(type_3_refused, 1, "type 3 refused 5") \
    FAULT(types_above_1_refused, 1, "types above 1 refused 5") \
    FAULT(bits_7_6_ignored, 0, "bits 7:6 ignored") \
    FAULT(bit_7_ignored, 0, "bit 7 ignored") \
    FAULT(bit_6_ignored, 0, "bit 6 ignored") \
    FAULT(asked_exchanged, 1, "type and quantisation exchanged in the request") \
    FAULT(d_with_type_as_e, 0, "D with a type taken as E") \
    FAULT(d_with_type_ignored, 0, "D with a type taken, the type left out") \
    FAULT(d_with_quantisation_as_e, 0, "D with a quantisation taken as E") \
    FAULT(d_with_quantisation_ignored, 0, "D with a quantisation taken, left out") \
    FAULT(quantisation_with_rgb_refused, 1, "quantisation refused with RGB") \
    FAULT(quantisation_with_full_refused, 0, "quantisation refused with RGB of full range") \
    FAULT(quantisation_with_ycbcr_refused, 1, "quantisation refused with YCbCr") \
    FAULT(quantisation_with_dvi_refused, 0, "quantisation refused with DVI") \
    FAULT(type_with_rgb_refused, 1, "a type refused with RGB") \
    FAULT(type_with_422_refused, 0, "a type refused with 4:2:2") \
    FAULT(type_with_dvi_refused, 0, "a type refused with DVI") \
    FAULT(deep_refused, 0, "E's bits refused with more than 24 bits") \
    FAULT(repeated_refused, 0, "E's bits refused with repetition") \
    FAULT(silent_refused, 0, "E's bits refused without sound") \
    FAULT(five_for_six, 0, "refusal 5 for E's bits under D") \
    FAULT(six_for_edition, 0, "refusal 6 for an edition above 1") \
    FAULT(six_for_quantisation, 0, "refusal 6 for a quantisation above 1") \
    FAULT(six_for_bits_7_6, 0, "refusal 6 for bits 7:6") \
    FAULT(six_before_five, 0, "refusal 6 for E's bits under D before 5") \
    FAULT(five_before_four, 0, "refusal 5 by the edition byte before 4") \
    FAULT(six_before_four, 0, "refusal 6 for E's bits under D before 4") \
    FAULT(seventeen_before_six, 0, "refusal 17 before 6 for E's bits under D") \
    FAULT(seven_before_six, 0, "refusal 7 before 6 for E's bits under D") \
    FAULT(eight_before_five, 0, "refusal 8 before 5 by the edition byte") \
    FAULT(nine_before_six, 0, "refusal 9 before 6 for E's bits under D") \
    FAULT(ten_before_six, 0, "refusal 10 before 6 for E's bits under D") \
    FAULT(six_in_planning_alone, 0, "E's bits under D refused in planning alone") \
    FAULT(six_in_numbers_alone, 0, "E's bits under D refused in N and CTS alone") \
    FAULT(five_in_planning_alone, 0, "the edition byte's range in planning alone") \
    FAULT(six_writes, 0, "refusal 6 for E's bits writes the buffer") \
    FAULT(count_beside_six, 0, "a count beside refusal 6 for E's bits under D") \
    FAULT(places_exchanged, 1, "type in 0x59[7:6], quantisation in 0x59[5:4]") \
    FAULT(pr_overwritten, 1, "E's bits in place of PR") \
    FAULT(as_the_request_has_them, 1, "E's bits in 0x59 where the request has them") \
    FAULT(quantisation_not_set, 1, "the quantisation left out of 0x59") \
    FAULT(type_not_set, 1, "the type left out of 0x59") \
    FAULT(quantisation_in_bit_7, 1, "quantisation 1 written as 2") \
    FAULT(type_in_yq, 1, "the type in YQ") \
    FAULT(type_in_one_bit, 1, "one bit of the type") \
    FAULT(types_from_0, 1, "types counted from 0 with 1") \
    FAULT(quantisation_in_q, 1, "the quantisation of YCbCr in Q") \
    FAULT(quantisation_of_range, 1, "YQ 1 with RGB of full range under E") \
    FAULT(no_quantisation_with_rgb, 1, "no quantisation written with RGB") \
    FAULT(no_bits_with_dvi, 0, "E's bits not written with DVI") \
    FAULT(e_told, 1, "E that asks for nothing told by quantisation 2") \
    FAULT(itc_with_type, 1, "ITC set with a type") \
    FAULT(itc_with_e, 1, "ITC set with E") \
    FAULT(version_3_with_e, 1, "version 3 with E") \
    FAULT(q_0_with_e, 1, "Q 0 with E") \
    FAULT(sum_of_d, 1, "the checksum of the D packet kept") \
    FAULT(sum_without_type, 1, "the AVI checksum without the type") \
    FAULT(byte_5_after_hold, 1, "0x59 after the AVI hold") \
    FAULT(byte_5_before_hold, 1, "0x59 before the AVI hold") \
    FAULT(two_packets, 1, "the D packet first, E's bits under a second hold") \
    FAULT(pr_alone_compared, 1, "0x59 left out where PR stands") \
    FAULT(always_written, 0, "0x59 always written under E") \
    FAULT(e_always, 1, "decoding answers E always") \
    FAULT(e_remembered, 1, "decoding answers E where such an E was planned") \
    FAULT(d_always, 1, "decoding answers D always, without E's bits") \
    FAULT(edition_not_answered, 1, "decoding answers edition 0 beside E's bits") \
    FAULT(quantisation_not_answered, 1, "decoding answers quantisation 0 always") \
    FAULT(answer_exchanged, 1, "decoding exchanges type and quantisation") \
    FAULT(upper_half_ignored, 1, "decoding ignores 0x59[7:4]") \
    FAULT(quantisation_2_decoded, 0, "decoding answers quantisation 2") \
    FAULT(quantisation_3_decoded, 0, "decoding takes quantisation 3 for 1") \
    FAULT(e_not_decoded, 1, "decoding knows D alone") \
    FAULT(type_3_not_decoded, 1, "decoding refuses type 3") \
    FAULT(quantisation_with_rgb_not_decoded, 1, "decoding refuses a quantisation with RGB") \
    FAULT(repeated_not_decoded, 1, "decoding refuses E's bits beside PR") \
    FAULT(pr_ignored_with_e, 0, "decoding ignores PR beside E's bits") \
    FAULT(itc_decoded, 0, "decoding takes ITC with a type") \
    FAULT(version_3_decoded, 0, "decoding takes version 3 with E's bits") \
    FAULT(sum_of_d_decoded, 0, "decoding takes E's bits with the checksum of D") \
    FAULT(upper_half_read_only, 1, "a machine with 0x59[7:4] read-only") \
    FAULT(hold_copies_d, 1, "an AVI hold that copies no bit of 0x59[7:4]") \
    FAULT(class_mandated, 0, "0x59[7:4] mandated as 0") \
    FAULT(vet_reserved, 0, "a list that writes 0x59[7:4] refused 15") \
    FAULT(vet_knows_d, 0, "a list that ends in E refused 16") \
    FAULT(vet_takes_quantisation_2, 0, "a list that ends in quantisation 2 taken")

#define NUMBER(name, on_cuts, words) name##_fault,
enum fault { right_fault, FAULTS(NUMBER) };     /* the first is no fault */

static int e_for_nothing_planned;               /* what a library may not remember: whether the last list was for such an E */

/* Reading: refusals 1 to 6, 17 and 20. -------------------------------------------------------------------------------------------------- */

static int under_d(const struct fields *f) { return f->edition == 0 && model_asks_of_e(f); }
static int outside(const struct fields *f) { return f->edition > 1 || f->quantisation > 1 || f->bits_7_6; }
static struct fields as_d(const struct fields *f) {
    struct fields d = *f;
    d.edition = d.quantisation = d.content = d.bits_7_6 = 0;
    return d;
}

/* The depth byte takes the place of the edition byte, and that of the depth byte. */
static void exchange_bytes(struct fields *f) {
    int of_depth = f->depth | f->repetition << 4, of_edition = f->edition | f->quantisation << 2 | f->content << 4 | f->bits_7_6 << 6;
    f->depth = of_edition & 15, f->repetition = of_edition >> 4;
    f->edition = of_depth & 3, f->quantisation = of_depth >> 2 & 3, f->content = of_depth >> 4 & 3, f->bits_7_6 = of_depth >> 6;
}

/* The edition byte as it is taken. */
static void take(enum fault fault, struct fields *f) {
    int quantisation = f->quantisation;
    switch (fault) {
    case bytes_exchanged_fault: exchange_bytes(f); break;
    case edition_2_taken_fault: if (f->edition == 2) f->edition = 1; break;
    case edition_3_taken_fault: if (f->edition == 3) f->edition = 1; break;
    case edition_in_bit_0_fault: f->edition &= 1; break;
    case quantisation_3_taken_fault: if (f->quantisation == 3) f->quantisation = 1; break;
    case quantisation_in_bit_2_fault: f->quantisation &= 1; break;
    case bits_7_6_ignored_fault: f->bits_7_6 = 0; break;
    case bit_7_ignored_fault: f->bits_7_6 &= 1; break;
    case bit_6_ignored_fault: f->bits_7_6 &= 2; break;
    case asked_exchanged_fault: f->quantisation = f->content, f->content = quantisation; break;
    case d_with_type_as_e_fault: if (f->edition == 0 && f->content) f->edition = 1; break;
    case d_with_type_ignored_fault: if (f->edition == 0) f->content = 0; break;
    case d_with_quantisation_as_e_fault: if (f->edition == 0 && f->quantisation == 1) f->edition = 1; break;
    case d_with_quantisation_ignored_fault: if (f->edition == 0 && f->quantisation == 1) f->quantisation = 0; break;
    default: break;
    }
}

/* Is a request that the model accepts refused, and by which number? */
static uint32_t refused_too(enum fault fault, const struct fields *f) {
    int bits = model_asks_of_e(f), rgb = f->encoding == 0;
    switch (fault) {
    case e_refused_fault: return f->edition == 1 ? 5 : 0;
    case quantisation_1_refused_fault: return f->quantisation == 1 ? 5 : 0;
    case type_3_refused_fault: return f->content == 3 ? 5 : 0;
    case types_above_1_refused_fault: return f->content > 1 ? 5 : 0;
    case e_for_nothing_refused_fault: return f->edition == 1 && !bits ? 6 : 0;
    case quantisation_with_rgb_refused_fault: return f->quantisation && rgb ? 6 : 0;
    case quantisation_with_full_refused_fault: return f->quantisation && f->range ? 6 : 0;
    case quantisation_with_ycbcr_refused_fault: return f->quantisation && !rgb ? 6 : 0;
    case quantisation_with_dvi_refused_fault: return f->quantisation && !f->link ? 6 : 0;
    case type_with_rgb_refused_fault: return f->content && rgb ? 6 : 0;
    case type_with_422_refused_fault: return f->content && f->encoding == 1 ? 6 : 0;
    case type_with_dvi_refused_fault: return f->content && !f->link ? 6 : 0;
    case deep_refused_fault: return bits && f->depth ? 6 : 0;
    case repeated_refused_fault: return bits && f->repetition ? 6 : 0;
    case silent_refused_fault: return bits && !f->sound ? 6 : 0;
    default: return 0;
    }
}

/* Another number, or two that apply and the wrong one first. */
static uint32_t renumbered(enum fault fault, const struct fields *f, uint32_t refusal) {
    struct fields d = as_d(f);
    uint32_t without = refusal_of(&d);
    int by_range = refusal == 5 && without != 5, by_bits = refusal == 6 && under_d(f);
    switch (fault) {
    case five_for_six_fault: return by_bits && without != 6 ? 5 : refusal;
    case six_for_edition_fault: return by_range && f->edition > 1 ? 6 : refusal;
    case six_for_quantisation_fault: return by_range && f->quantisation > 1 ? 6 : refusal;
    case six_for_bits_7_6_fault: return by_range && f->bits_7_6 ? 6 : refusal;
    case six_before_five_fault: return refusal == 5 && under_d(f) ? 6 : refusal;
    case five_before_four_fault: return refusal == 4 && outside(f) ? 5 : refusal;
    case six_before_four_fault: return refusal == 4 && under_d(f) ? 6 : refusal;
    case seventeen_before_six_fault: return by_bits && without == 17 ? 17 : refusal;
    default: return refusal;
    }
}

/* A request as it was before: without the last byte of the video section. */
static const uint8_t *with_last_byte(const uint8_t *r, size_t *rl, uint8_t *whole) {
    size_t at = video_at(r, *rl);
    if (*rl < at + VIDEO_BYTES || *rl >= LONGEST || r[at] != VIDEO_BYTES - 1) return r;
    memset(whole, 0, LONGEST);
    memcpy(whole, r, at + VIDEO_BYTES);
    whole[at] = VIDEO_BYTES;
    memcpy(whole + at + 1 + VIDEO_BYTES, r + at + VIDEO_BYTES, *rl - at - VIDEO_BYTES);
    ++*rl;
    return whole;
}

static uint32_t reads(enum fault fault, const uint8_t *r, size_t rl, struct fields *f) {
    uint8_t whole[LONGEST];
    if (fault == older_count_fault) r = with_last_byte(r, &rl, whole);
    uint32_t refusal = model_read(r, rl, f);
    if (refusal > 0 && refusal < 4) return refusal;
    struct fields judged = *f;
    take(fault, &judged);
    *f = judged;
    if (fault == quantisation_2_taken_fault && f->quantisation == 2) judged.quantisation = 1;
    refusal = refusal_of(&judged);
    if ((refusal == 0 || refusal == 17) && refused_too(fault, f)) return refused_too(fault, f);
    return renumbered(fault, f, refusal);
}

static struct station_pair numbers(enum fault fault, const uint8_t *r, size_t rl) {
    struct fields f;
    uint32_t refusal = reads(fault, r, rl, &f);
    int by_bits = refusal == 6 && under_d(&f), by_range = refusal == 5 && outside(&f);
    if ((by_bits && fault == six_in_planning_alone_fault) || (by_range && fault == five_in_planning_alone_fault)) {
        f = as_d(&f);
        refusal = refusal_of(&f);
    }
    if (refusal == 6 && under_d(&f) && fault == nine_before_six_fault) {
        struct fields d = as_d(&f);
        if (refusal_of(&d) == 0 && !model_pair(&d).exists) refusal = 9;
    }
    if (refusal) return (struct station_pair){ refusal, 0, 0 };
    struct pair p = model_pair(&f);
    return p.exists ? (struct station_pair){ 0, p.n, p.cts } : (struct station_pair){ 9, 0, 0 };
}

/* Planning. ------------------------------------------------------------------------------------------------------------------------- */

/* A byte of the AVI packet, the checksum with it. */
static void set_byte(uint8_t *wanted, int address, int byte) {
    wanted[0x54] = (uint8_t)(wanted[0x54] + wanted[address] - byte);
    wanted[address] = (uint8_t)byte;
}

/* Data byte 5, of quantisation, type and PR as they stand in it. */
static void set_byte_5(uint8_t *wanted, int quantisation, int type, int pr) { set_byte(wanted, 0x59, quantisation << 6 | type << 4 | pr); }

static void spoil_wanted(enum fault fault, const struct fields *f, uint8_t *wanted) {
    int q = f->quantisation, type = f->content, pr = wanted[0x59] & 15, bits = model_asks_of_e(f);
    switch (fault) {
    case places_exchanged_fault: set_byte_5(wanted, type, q, pr); break;
    case pr_overwritten_fault: if (bits) set_byte_5(wanted, q, type, 0); break;
    case as_the_request_has_them_fault: set_byte(wanted, 0x59, q << 2 | type << 4 | pr); break;
    case quantisation_not_set_fault: set_byte_5(wanted, 0, type, pr); break;
    case type_not_set_fault: set_byte_5(wanted, q, 0, pr); break;
    case quantisation_in_bit_7_fault: set_byte_5(wanted, 2 * q, type, pr); break;
    case type_in_yq_fault: if (type) set_byte_5(wanted, type, 0, pr); break;
    case type_in_one_bit_fault: set_byte_5(wanted, q, type & 1, pr); break;
    case types_from_0_fault: if (type) set_byte_5(wanted, q, type - 1, pr); break;
    case quantisation_in_q_fault:
        if (f->encoding) set_byte_5(wanted, 0, type, pr), set_byte(wanted, 0x57, wanted[0x57] | q << 2);
        break;
    case quantisation_of_range_fault: if (f->edition && f->range) set_byte_5(wanted, 1, type, pr); break;
    case no_quantisation_with_rgb_fault: if (f->encoding == 0) set_byte_5(wanted, 0, type, pr); break;
    case no_bits_with_dvi_fault: if (f->link == 0) set_byte_5(wanted, 0, 0, pr); break;
    case e_told_fault: if (f->edition && !bits) set_byte_5(wanted, 2, 0, pr); break;
    case itc_with_type_fault: if (type) set_byte(wanted, 0x57, wanted[0x57] | 0x80); break;
    case itc_with_e_fault: if (f->edition) set_byte(wanted, 0x57, wanted[0x57] | 0x80); break;
    case version_3_with_e_fault: if (bits) set_byte(wanted, 0x52, 3); break;
    case q_0_with_e_fault: if (f->edition) set_byte(wanted, 0x57, wanted[0x57] & 0xF3); break;
    case sum_of_d_fault: wanted[0x54] = (uint8_t)(wanted[0x54] + (q << 6 | type << 4)); break;
    case sum_without_type_fault: wanted[0x54] = (uint8_t)(wanted[0x54] + (type << 4)); break;
    default: break;
    }
}

/* The n-th write to an address, which the full list has. */
static uint32_t place(const struct list *l, uint8_t address, int n) {
    uint32_t k = 0;
    while (l->pairs[2 * k] != address || n-- > 0) k++;
    return k;
}

static void put_in(struct list *l, uint32_t at, uint8_t address, uint8_t value) {
    memmove(l->pairs + 2 * at + 2, l->pairs + 2 * at, 2 * (l->count - at));
    l->pairs[2 * at] = address;
    l->pairs[2 * at + 1] = value;
    l->count++;
}

static void take_out(struct list *l, uint32_t at) {
    memmove(l->pairs + 2 * at, l->pairs + 2 * at + 2, 2 * (l->count - at - 1));
    l->count--;
}

/* The write to 0x59 elsewhere in the full list, or made twice. The AVI hold's two writes are those around the packet. */
static void spoil_list(enum fault fault, const struct fields *f, struct list *l) {
    uint32_t at = place(l, 0x59, 0), first = place(l, 0x52, 0), last = place(l, 0x61, 0);
    uint8_t value = l->pairs[2 * at + 1], sum = l->pairs[2 * place(l, 0x54, 0) + 1], down = l->pairs[2 * last + 3];
    uint8_t upper = (uint8_t)(f->quantisation << 6 | f->content << 4);
    switch (fault) {
    case byte_5_after_hold_fault: put_in(l, last + 2, 0x59, value), take_out(l, at); break;
    case byte_5_before_hold_fault: take_out(l, at), put_in(l, first - 1, 0x59, value); break;
    case two_packets_fault:
        if (!upper) break;
        l->pairs[2 * at + 1] = value & 15;
        l->pairs[2 * place(l, 0x54, 0) + 1] = (uint8_t)(sum + upper);
        put_in(l, last + 2, 0x4A, down);
        put_in(l, last + 2, 0x59, value);
        put_in(l, last + 2, 0x54, sum);
        put_in(l, last + 2, 0x4A, down | 0x40);
        break;
    default: break;
    }
}

/* What is left out of it. */
static void shorten(enum fault fault, const struct fields *f, const uint8_t *image, const struct list *full, struct list *l) {
    l->count = 0;
    for (const uint8_t *pair = full->pairs; pair < full->pairs + 2 * full->count; pair += 2) {
        uint8_t differs = (image[pair[0]] ^ pair[1]) & (uint8_t)~model_classes[pair[0]].read_only;
        int stands = differs == 0 && !model_stays(pair[0]);
        if (fault == two_packets_fault && f->edition) stands = 0;
        if (pair[0] == 0x59 && fault == pr_alone_compared_fault) stands = (differs & 15) == 0;
        if (pair[0] == 0x59 && fault == always_written_fault && f->edition) stands = 0;
        if (!stands) put_in(l, l->count, pair[0], pair[1]);
    }
}

/* The number that comes too early where the edition byte is refused, or none. */
static uint32_t too_early(enum fault fault, const struct fields *f, uint32_t refusal, const uint8_t *i, size_t il, size_t wl) {
    int by_bits = refusal == 6 && under_d(f), by_range = refusal == 5 && outside(f);
    struct fields d = as_d(f);
    if (by_bits && fault == seven_before_six_fault && il != 256) return 7;
    if (by_range && fault == eight_before_five_fault && il == 256 && ((i[0x4A] & 0x10) || (i[0x4A] & 0x60) == 0x60)) return 8;
    if (by_bits && fault == nine_before_six_fault && refusal_of(&d) == 0 && !model_pair(&d).exists) return 9;
    if (by_bits && fault == ten_before_six_fault && wl < 256) return 10;
    return 0;
}

static struct station_count planned(enum fault fault, PLAN_ARGUMENTS) {
    struct fields f;
    struct list full, l;
    uint8_t wanted[256];
    uint32_t refusal = reads(fault, r, rl, &f);
    if (refusal == 6 && under_d(&f)) {
        if (fault == six_writes_fault && wl) w[0] ^= 1;
        if (fault == count_beside_six_fault) return (struct station_count){ 6, 1 };
        if (fault == six_in_numbers_alone_fault) f = as_d(&f), refusal = refusal_of(&f);
    }
    if (refusal > 3 && too_early(fault, &f, refusal, i, il, wl)) refusal = too_early(fault, &f, refusal, i, il, wl);
    if (refusal) return (struct station_count){ refusal, 0 };
    if (il != 256) return (struct station_count){ 7, 0 };
    if ((i[0x4A] & 0x10) || (i[0x4A] & 0x60) == 0x60) return (struct station_count){ 8, 0 };
    struct pair p = model_pair(&f);
    if (!p.exists) return (struct station_count){ 9, 0 };
    if (wl < 256) return (struct station_count){ 10, 0 };
    model_wanted(&f, p, wanted);
    spoil_wanted(fault, &f, wanted);
    model_full_list(wanted, i, &full);
    spoil_list(fault, &f, &full);
    shorten(fault, &f, i, &full, &l);
    memcpy(w, l.pairs, 2 * l.count);
    e_for_nothing_planned = f.edition == 1 && !model_asks_of_e(&f);
    return (struct station_count){ 0, l.count };
}

/* Decoding. ------------------------------------------------------------------------------------------------------------------------- */

/* An image that is like the lent one but for what is ignored. */
static void ignore(enum fault fault, uint8_t *image) {
    static const uint8_t pr_of_clock[4] = { 0, 1, 3, 3 };
    int q = image[0x59] >> 6, type = image[0x59] >> 4 & 3, pr = image[0x59] & 15, clock = image[0x3B] >> 3 & 3;
    switch (fault) {
    case upper_half_ignored_fault: set_byte_5(image, 0, 0, pr); break;
    case quantisation_2_decoded_fault: if (q == 2) set_byte_5(image, 1, type, pr); break;
    case quantisation_3_decoded_fault: if (q == 3) set_byte_5(image, 1, type, pr); break;
    case pr_ignored_with_e_fault: if (q || type) set_byte_5(image, q, type, pr_of_clock[clock]); break;
    case itc_decoded_fault: if (type) set_byte(image, 0x57, image[0x57] & 0x7F); break;
    case version_3_decoded_fault: if ((q || type) && (image[0x52] & 7) == 3) set_byte(image, 0x52, image[0x52] - 1); break;
    default: break;
    }
}

static int not_decoded(enum fault fault, const struct fields *f) {
    switch (fault) {
    case e_not_decoded_fault: return f->edition;
    case type_3_not_decoded_fault: return f->content == 3;
    case quantisation_with_rgb_not_decoded_fault: return f->quantisation && f->encoding == 0;
    case repeated_not_decoded_fault: return f->edition && f->repetition;
    default: return 0;
    }
}

/* The edition byte's fields as they are answered. */
static void answer(enum fault fault, const uint8_t *image, struct fields *f) {
    int quantisation = f->quantisation;
    switch (fault) {
    case e_always_fault: f->edition = 1; break;
    case e_remembered_fault: if (e_for_nothing_planned) f->edition = 1; break;
    case d_always_fault: *f = as_d(f); break;
    case edition_not_answered_fault: f->edition = 0; break;
    case quantisation_not_answered_fault: f->quantisation = 0; break;
    case answer_exchanged_fault: f->quantisation = f->content, f->content = quantisation; break;
    case quantisation_2_decoded_fault: if (image[0x59] >> 6 == 2) f->quantisation = 2; break;
    default: break;
    }
}

static struct station_count decoded(enum fault fault, const uint8_t *i, size_t il, uint8_t *b, size_t bl) {
    uint8_t image[256], back[LONGEST];
    if (il != 256 || bl < LONGEST) return model_decode(i, il, b, bl);
    memcpy(image, i, 256);
    ignore(fault, image);
    struct station_count c = model_decode(image, 256, back, LONGEST);
    if (c.refusal && fault == sum_of_d_decoded_fault) {
        image[0x54] -= image[0x59] & 0xF0;
        c = model_decode(image, 256, back, LONGEST);
    }
    if (c.refusal) return c;
    struct fields f = asked(back, c.count);
    if (not_decoded(fault, &f)) return (struct station_count){ 11, 0 };
    answer(fault, i, &f);
    model_bytes(&f, b);
    return c;
}

/* The machine, the class and the vet. ----------------------------------------------------------------------------------------------- */

static uint32_t writes(enum fault fault, WRITE_ARGUMENTS) {
    uint8_t was = il == 256 ? i[0x59] : 0, rises = il == 256 ? (uint8_t)~i[0x4A] & value & 0x40 : 0;
    uint32_t refusal = model_write(i, il, p, pl, c, cl, m, ml, address, value);
    if (refusal) return refusal;
    if (address == 0x59 && fault == upper_half_read_only_fault) i[0x59] = (uint8_t)((was & 0xF0) | (value & 0x0F));
    if (address == 0x4A && rises && fault == hold_copies_d_fault) p[0x59 - 0x52] &= 0x0F;
    return 0;
}

static struct station_masks class_of(enum fault fault, uint8_t address) {
    struct station_masks k = model_class(address);
    if (address == 0x59 && fault == class_mandated_fault) k.named = 0x0F, k.mandated = 0xF0;
    return k;
}

static struct station_verdict vets(enum fault fault, VET_ARGUMENTS) {
    struct station_verdict v = model_vet(i, il, p, pl, c, cl, mark, l, ll);
    struct chip end = { .mark = mark };
    struct fields f;
    uint32_t count = (uint32_t)(ll / 2), first = 0;
    if (v.refusal == 7 || v.refusal == 8 || v.refusal == 14) return v;
    while (first < count && (l[2 * first] != 0x59 || !(l[2 * first + 1] & 0xF0))) first++;
    if (fault == vet_reserved_fault && first < count && (v.refusal != 15 || v.place > first)) return (struct station_verdict){ 15, first };
    memcpy(end.image, i, 256);
    for (uint32_t k = 0; k < count; k++) model_run(&end, l[2 * k], l[2 * k + 1]);
    if (fault == vet_knows_d_fault && v.refusal == 0 && end.image[0x59] >> 4) return (struct station_verdict){ 16, 0 };
    if (fault == vet_takes_quantisation_2_fault && v.refusal == 16 && end.image[0x59] >> 6 == 2) {
        set_byte(end.image, 0x59, end.image[0x59] & 0x3F);
        if (model_ends(end.image, NONE_FREE, &f)) v.refusal = 0;
    }
    return v;
}

static void put_library(struct face *f, struct station_count (*plan)(PLAN_ARGUMENTS)) {
    e_for_nothing_planned = 0;
    f->plan = plan;
}

#define LIBRARY(name, on_cuts, words) \
    static struct station_count plan_##name(PLAN_ARGUMENTS) { return planned(name##_fault, r, rl, i, il, w, wl); } \
    static struct station_pair ncts_##name(const uint8_t *r, size_t rl) { return numbers(name##_fault, r, rl); } \
    static struct station_count decode_##name(const uint8_t *i, size_t il, uint8_t *b, size_t bl) { \
        return decoded(name##_fault, i, il, b, bl); \
    } \
    static uint32_t write_##name(WRITE_ARGUMENTS) { return writes(name##_fault, i, il, p, pl, c, cl, m, ml, address, value); } \
    static struct station_masks class_##name(uint8_t address) { return class_of(name##_fault, address); } \
    static struct station_verdict vet_##name(VET_ARGUMENTS) { return vets(name##_fault, i, il, p, pl, c, cl, mark, l, ll); } \
    static void put_##name(struct face *f) { \
        put_library(f, plan_##name); \
        f->ncts = ncts_##name, f->decode = decode_##name, f->write = write_##name, f->class_of = class_##name, f->vet = vet_##name; \
    }
FAULTS(LIBRARY)

LIBRARY(right, 0, "")
void put_right_editions(struct face *f) { put_right(f); }

#define ROW(name, on_cuts, words) { words, put_##name, on_cuts },
const struct wrong wrong_editions[] = { FAULTS(ROW) { NULL, NULL, 0 } };
