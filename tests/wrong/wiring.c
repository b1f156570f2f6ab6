/* Wrong wirings: document 02, request 02. One library, which reads a wiring section by itself, with a place for each fault; a fault is a row
 * of FAULTS. */
#include "wrong.h"

/* FAULT(name, in words) */
#define FAULTS(FAULT) \
    FAULT(id_1_missed, "no row for ID 1") \
    FAULT(id_2_missed, "no row for ID 2") \
    FAULT(id_3_missed, "no row for ID 3") \
    FAULT(id_4_missed, "no row for ID 4") \
    FAULT(id_5_missed, "no row for ID 5") \
    FAULT(id_6_missed, "no row for ID 6") \
    FAULT(id_7_missed, "no row for ID 7") \
    FAULT(id_8_missed, "no row for ID 8") \
    FAULT(id_0_taken, "ID 0 taken in a section of 4") \
    FAULT(id_0_as_today, "ID 0 taken in a section of 4 with today's codes") \
    FAULT(id_0_with_syncs, "ID 0 taken in a section of 12") \
    FAULT(id_9_taken, "ID 9 taken") \
    FAULT(id_by_four_bits, "an ID by its low four bits") \
    FAULT(style_3_of_3, "style 3 taken of ID 3") \
    FAULT(style_3_of_4, "style 3 taken of ID 4") \
    FAULT(style_3_of_7, "style 3 taken of ID 7") \
    FAULT(style_3_of_8, "style 3 taken of ID 8") \
    FAULT(style_3_not_of_1, "style 3 refused of ID 1") \
    FAULT(style_3_not_of_5, "style 3 refused of ID 5") \
    FAULT(style_3_not_of_6, "style 3 refused of ID 6") \
    FAULT(style_1_not_of_8, "style 1, code 2, refused of ID 8") \
    FAULT(justified_5, "each justification taken of ID 5") \
    FAULT(left_5, "left taken of ID 5") \
    FAULT(right_not_of_3, "right refused of ID 3") \
    FAULT(depth_0, "depth 00 taken") \
    FAULT(depth_0_of_5, "depth 00 taken of ID 5") \
    FAULT(depth_4, "depth 4 taken for 1") \
    FAULT(style_0, "style 00 taken") \
    FAULT(style_4, "a style by its low two bits") \
    FAULT(justification_3, "justification 11 taken") \
    FAULT(justification_4, "a justification by its low two bits") \
    FAULT(twelve_bit_missed, "12 bit refused") \
    FAULT(eight_bit_missed_of_8, "8 bit refused of ID 8") \
    FAULT(four_with_embedded, "4 taken with an ID of embedded syncs") \
    FAULT(four_with_8, "4 taken with ID 8") \
    FAULT(twelve_with_separate, "12 taken with an ID of separate syncs") \
    FAULT(twelve_with_5, "12 taken with ID 5") \
    FAULT(seven_embedded, "ID 7 embedded, and ID 8 not") \
    FAULT(three_embedded, "ID 3 embedded, and ID 4 not") \
    FAULT(sync_1024, "1024 taken") \
    FAULT(sync_1024_as_last, "1024 taken as the last of the four") \
    FAULT(first_sync_held, "the first sync value alone held to 1023") \
    FAULT(sync_masked, "ten bits of a sync value taken, whatever the rest") \
    FAULT(sync_signed, "sync values of two's complement: from 32768 on taken") \
    FAULT(sync_1023, "1023 refused") \
    FAULT(sync_0, "a sync value of 0 refused") \
    FAULT(vsync_by_byte, "a Vsync duration above 255 refused") \
    FAULT(six_for_wiring, "6 for a wiring that is not defined") \
    FAULT(two_for_count, "2 for a count that does not fit the ID") \
    FAULT(four_for_id, "4 for an ID that there is not") \
    FAULT(five_for_matrix, "5 for the matrix that is missing") \
    FAULT(six_before_five, "6 by the colours before 5 by the wiring") \
    FAULT(five_before_four, "5 by the wiring before 4") \
    FAULT(five_after_six, "5 by the wiring after 6 by DVI") \
    FAULT(seventeen_before_six, "17 before 6 by the colours") \
    FAULT(twenty_before_six, "20 before 6 by the colours") \
    FAULT(in_planning_alone, "a wiring judged in planning alone") \
    FAULT(not_in_planning, "a wiring not judged in planning") \
    FAULT(rgb_6, "ID 6 as RGB") \
    FAULT(rgb_1, "ID 1 as RGB") \
    FAULT(rgb_embedded, "embedded syncs as RGB") \
    FAULT(ycbcr_5, "ID 5 as YCbCr") \
    FAULT(ycbcr_0, "today's board as YCbCr") \
    FAULT(old_row_6, "a matrix asked for each encoding but 0") \
    FAULT(ycbcr_needs_none, "YCbCr to RGB without a matrix taken") \
    FAULT(needs_always, "a matrix asked for YCbCr to YCbCr") \
    FAULT(needs_422_to_444, "a matrix asked for 4:2:2 to 4:4:4") \
    FAULT(needs_none_dvi, "YCbCr to RGB over DVI without a matrix taken") \
    FAULT(dvi_of_ycbcr, "YCbCr over DVI taken from YCbCr input") \
    FAULT(matrix_too_much, "a matrix refused where none is needed") \
    FAULT(low_byte_first, "low byte first") \
    FAULT(high_byte_lost, "the high byte of a sync value lost") \
    FAULT(syncs_exchanged, "placement and duration exchanged") \
    FAULT(h_and_v_exchanged, "Hsync and Vsync exchanged") \
    FAULT(first_sync_everywhere, "the first sync value four times") \
    FAULT(depth_and_style_exchanged, "depth and style exchanged in 0x16") \
    FAULT(style_and_justification_exchanged, "style and justification exchanged") \
    FAULT(depth_00_today, "depth 00 for today's board") \
    FAULT(depth_kept_today, "the image's depth for today's board") \
    FAULT(style_kept_today, "the image's style for today's board") \
    FAULT(justification_kept_today, "the image's justification for today's board") \
    FAULT(syncs_kept_today, "the image's sync values for today's board") \
    FAULT(syncs_kept_of_4, "sync values not cleared with count 4") \
    FAULT(last_sync_kept_of_4, "0x34 not cleared with count 4") \
    FAULT(justification_kept_of_5, "the image's justification for ID 5") \
    FAULT(id_kept, "the image's ID") \
    FAULT(id_0_always, "ID 0 written") \
    FAULT(depth_always_8, "8 bit written for each depth") \
    FAULT(style_not_written, "the style not written") \
    FAULT(justification_not_written, "the justification not written") \
    FAULT(syncs_not_written, "the sync values not written") \
    FAULT(rate_lost, "the rate lost beside the ID") \
    FAULT(output_lost, "the output format lost beside the depth") \
    FAULT(output_is_input, "4:2:2 output for 4:2:2 input") \
    FAULT(syncs_by_bytes, "each duration in a byte of its own") \
    FAULT(sync_low_bits_lost, "0x31[7:6] lost") \
    FAULT(edge_cleared, "0x16[1] cleared") \
    FAULT(colour_of_black, "0x16[0] set for YCbCr") \
    FAULT(alignment_set, "0x48[5] set for ID 5") \
    FAULT(bus_order_cleared, "0x48[6] cleared") \
    FAULT(pulse_written, "0xD0 written for IDs 5 to 8") \
    FAULT(high_placement_written, "0xFA written with embedded syncs") \
    FAULT(syncs_in_front, "sync values before the coefficients") \
    FAULT(justification_late, "0x48 after the registers behind it") \
    FAULT(justification_left_out, "0x48 left out where it is 0") \
    FAULT(syncs_left_out, "sync values left out where they are 0") \
    FAULT(today_as_section, "today's board read back in a section of 4") \
    FAULT(embedded_as_4, "embedded syncs read back with count 4") \
    FAULT(separate_as_12, "separate syncs read back with count 12") \
    FAULT(five_as_today, "ID 5 read back as today's board") \
    FAULT(section_dropped, "the wiring not read back") \
    FAULT(syncs_read_low_first, "sync values read back low byte first") \
    FAULT(sync_high_bits_lost, "the high bits of a sync value not read back") \
    FAULT(depth_read_as_8, "8 bit read back for each depth") \
    FAULT(style_read_as_1, "style 1 read back for style 2") \
    FAULT(old_image_decoded, "an image with depth 00 decoded as today's") \
    FAULT(any_depth_decoded, "an image with any depth decoded as today's") \
    FAULT(any_style_decoded, "an image with any style decoded as today's") \
    FAULT(justification_not_looked_at, "decoding does not look at the justification of ID 5 and today's") \
    FAULT(syncs_not_looked_at, "decoding does not look at sync values of separate syncs") \
    FAULT(last_sync_not_looked_at, "decoding does not look at 0x34 of separate syncs") \
    FAULT(id_9_decoded, "ID 9 decoded as 1") \
    FAULT(embedded_not_decoded, "embedded syncs not decoded") \
    FAULT(zero_syncs_not_decoded, "embedded syncs of 0 not decoded") \
    FAULT(without_matrix_decoded, "YCbCr to RGB without a matrix decoded") \
    FAULT(syncs_free, "0x30 to 0x34 free as before") \
    FAULT(last_sync_free, "0x34 free as before") \
    FAULT(depth_free, "0x16[5:4] free as before") \
    FAULT(style_free, "0x16[3:2] free as before") \
    FAULT(justification_free, "0x48[4:3] free as before") \
    FAULT(edge_named, "0x16[1] named too") \
    FAULT(alignment_named, "0x48[5] named too") \
    FAULT(vet_sync_refused, "a pair to 0x30 to 0x34 refused 15") \
    FAULT(vet_justification_refused, "a pair to 0x48 refused 15") \
    FAULT(vet_depth_kept, "a pair that changes 0x16[5:4] refused 15") \
    FAULT(vet_alignment_taken, "a pair that changes 0x48[5] taken") \
    FAULT(vet_syncs_left, "a list that leaves sync values beside separate syncs taken")

#define NUMBER(name, words) name##_fault,
enum fault { right_fault, FAULTS(NUMBER) };     /* the first is no fault */

/* Reading. -------------------------------------------------------------------------------------------------------------------------- */

enum { EMBEDDED_IDS = 1 << 2 | 1 << 4 | 1 << 8, RGB_IDS = 1 << 0 | 1 << 5, TWO_STYLES = 1 << 3 | 1 << 4 | 1 << 7 | 1 << 8 };
static int one_of(int ids, int id) { return id >= 0 && id < 16 && (ids >> id & 1); }

static int is_embedded(enum fault fault, int id) {
    if (fault == seven_embedded_fault && id >= 7) return id == 7;
    if (fault == three_embedded_fault && (id == 3 || id == 4)) return id == 3;
    return one_of(EMBEDDED_IDS, id);
}

/* Fields as this library takes them. */
static void take(enum fault fault, struct fields *f) {
    if (f->wiring == NO_WIRING) return;
    if (fault == id_by_four_bits_fault) f->input &= 15;
    if (fault == depth_4_fault && f->input_depth == 4) f->input_depth = 1;
    if (fault == style_4_fault) f->style &= 3;
    if (fault == justification_4_fault) f->justification &= 3;
    for (int i = 0; i < SYNCS && f->wiring > WIRING_BYTES; i++) {
        if (fault == low_byte_first_fault) f->sync[i] = f->sync[i] % 256 * 256 + f->sync[i] / 256;
        if (fault == high_byte_lost_fault) f->sync[i] %= 256;
        if (fault == sync_masked_fault) f->sync[i] &= MOST_SYNC;
        if (fault == sync_signed_fault && f->sync[i] >= 32768) f->sync[i] = 0;
    }
}

static int in_range(enum fault fault, const struct fields *f) {
    for (int i = 0; i < SYNCS; i++) {
        int most = fault == sync_1023_fault ? MOST_SYNC - 1 : MOST_SYNC;
        if (fault == sync_1024_fault || (fault == sync_1024_as_last_fault && i == 3)) most = MOST_SYNC + 1;
        if (fault == first_sync_held_fault && i) most = 65535;
        if (fault == vsync_by_byte_fault && i == 3) most = 255;
        if (f->sync[i] > most || (fault == sync_0_fault && f->sync[i] == 0)) return 0;
    }
    return 1;
}

static int count_fits(enum fault fault, const struct fields *f) {
    int with_syncs = f->wiring > WIRING_BYTES, embedded = is_embedded(fault, f->input);
    if (fault == four_with_embedded_fault && !with_syncs) return 1;
    if (fault == four_with_8_fault && !with_syncs && f->input == 8) return 1;
    if (fault == twelve_with_separate_fault && with_syncs) return 1;
    if (fault == twelve_with_5_fault && with_syncs && f->input == 5) return 1;
    return with_syncs == embedded;
}

static int is_defined(enum fault fault, const struct fields *f) {
    int id = f->input, depth = f->input_depth, style = f->style, justification = f->justification, two = one_of(TWO_STYLES, id);
    if (f->wiring == NO_WIRING) return 1;
    if (fault >= id_1_missed_fault && fault <= id_8_missed_fault && id == 1 + (int)(fault - id_1_missed_fault)) return 0;
    if (id == 0) {
        int today = depth == 3 && style == 0 && justification == 0 && f->wiring == WIRING_BYTES;
        if (fault == id_0_as_today_fault) return today;
        if (fault == id_0_with_syncs_fault && f->wiring == WIRING_BYTES) return 0;
        if (fault != id_0_taken_fault && fault != id_0_with_syncs_fault) return 0;
    }
    if (id > 8 + (fault == id_9_taken_fault)) return 0;
    if (!count_fits(fault, f) && !(id == 0 && fault == id_0_with_syncs_fault)) return 0;
    if (f->wiring > WIRING_BYTES && !in_range(fault, f)) return 0;
    if (depth > 3 || (depth == 0 && fault != depth_0_fault && !(fault == depth_0_of_5_fault && id == 5))) return 0;
    if ((fault == twelve_bit_missed_fault && depth == 2) || (fault == eight_bit_missed_of_8_fault && depth == 3 && id == 8)) return 0;
    if ((fault == style_3_of_3_fault && id == 3) || (fault == style_3_of_4_fault && id == 4) || (fault == style_3_of_7_fault && id == 7) ||
        (fault == style_3_of_8_fault && id == 8))
        two = 0;
    if ((fault == style_3_not_of_1_fault && id == 1) || (fault == style_3_not_of_5_fault && id == 5) ||
        (fault == style_3_not_of_6_fault && id == 6))
        two = 1;
    if (fault == style_1_not_of_8_fault && id == 8 && style == 2) return 0;
    if (style > 3 || (style == 3 && two) || (style == 0 && fault != style_0_fault)) return 0;
    if (fault == right_not_of_3_fault && id == 3 && justification == 1) return 0;
    if (id == 5 && justification && fault != justified_5_fault && !(fault == left_5_fault && justification == 2)) return 0;
    return justification < 3 || (justification == 3 && fault == justification_3_fault);
}

static int needs_matrix(enum fault fault, const struct fields *f) {
    int rgb = f->wiring == NO_WIRING || one_of(RGB_IDS, f->input), out = f->encoding == 0, ycbcr = !rgb;
    if (fault == rgb_6_fault && f->input == 6) rgb = 1;
    if (fault == rgb_1_fault && f->input == 1) rgb = 1;
    if (fault == rgb_embedded_fault && f->wiring > WIRING_BYTES) rgb = 1;
    if (fault == ycbcr_5_fault && f->input == 5) rgb = 0;
    if (fault == ycbcr_0_fault && f->wiring == NO_WIRING) rgb = 0;
    if (fault == old_row_6_fault) return !out;
    if (fault == ycbcr_needs_none_fault && ycbcr) return 0;
    if (fault == needs_always_fault && ycbcr) return 1;
    if (fault == needs_422_to_444_fault && ycbcr && f->encoding == 2) return 1;
    if (fault == needs_none_dvi_fault && ycbcr && f->link == 0) return 0;
    return rgb != out;
}

/* Refusals 1 to 6, 17 and 20: the wiring's by this library, the rest by the model, as if there were no wiring and a matrix. */
static uint32_t reads(enum fault fault, const uint8_t *r, size_t rl, struct fields *f) {
    uint32_t refusal = model_read(r, rl, f);
    if (refusal > 0 && refusal < 4) return refusal;
    take(fault, f);
    struct fields rest = *f;
    rest.wiring = NO_WIRING, rest.matrix = 1;
    int of_ycbcr = f->wiring && !one_of(RGB_IDS, f->input);
    if (fault == dvi_of_ycbcr_fault && of_ycbcr && f->link == 0 && f->encoding && !f->sound && !f->depth) rest.link = 1;
    uint32_t other = refusal_of(&rest);
    int five = !is_defined(fault, f), six = !f->matrix && needs_matrix(fault, f);
    if (fault == matrix_too_much_fault && f->wiring && f->matrix && !needs_matrix(fault, f)) six = 1;
    if (fault == five_before_four_fault && other == 4 && five) return 5;
    if (other == 4) return 4;
    if (fault == five_after_six_fault && other == 6) return 6;
    if (fault == six_before_five_fault && six) return 6;
    if (five && other != 5) {
        if (fault == six_for_wiring_fault) return 6;
        if (fault == two_for_count_fault && f->input >= 1 && f->input <= 8 && !count_fits(fault, f)) return 2;
        if (fault == four_for_id_fault && (f->input == 0 || f->input > 8)) return 4;
    }
    if (other == 5 || five) return 5;
    if (six && other == 17 && fault == seventeen_before_six_fault) return 17;
    if (six && other == 20 && fault == twenty_before_six_fault) return 20;
    if (six && other != 6 && fault == five_for_matrix_fault) return 5;
    return other == 6 || six ? 6 : other;
}

static struct station_pair numbers(enum fault fault, const uint8_t *r, size_t rl) {
    struct fields f;
    uint32_t refusal = reads(fault, r, rl, &f);
    if (refusal == 5 && fault == in_planning_alone_fault && !is_defined(fault, &f)) {
        f.wiring = NO_WIRING, f.matrix = 1;
        refusal = refusal_of(&f);
    }
    if (refusal) return (struct station_pair){ refusal, 0, 0 };
    struct pair p = model_pair(&f);
    return p.exists ? (struct station_pair){ 0, p.n, p.cts } : (struct station_pair){ 9, 0, 0 };
}

/* Planning. ------------------------------------------------------------------------------------------------------------------------- */

static void keep(uint8_t *wanted, const uint8_t *image, int first, int last, int bits) {
    for (int a = first; a <= last; a++) wanted[a] = (uint8_t)((wanted[a] & ~bits) | (image[a] & bits));
}

static void exchange(int *a, int *b) {
    int was = *a;
    *a = *b, *b = was;
}

/* What is wanted, of fields that are exchanged or of bits that are kept. */
static void wants(enum fault fault, struct fields f, const uint8_t *image, uint8_t *wanted) {
    int none = f.wiring == NO_WIRING, separate = f.wiring == WIRING_BYTES;
    if (fault == syncs_exchanged_fault) exchange(&f.sync[0], &f.sync[1]), exchange(&f.sync[2], &f.sync[3]);
    if (fault == h_and_v_exchanged_fault) exchange(&f.sync[0], &f.sync[2]), exchange(&f.sync[1], &f.sync[3]);
    if (fault == first_sync_everywhere_fault) f.sync[1] = f.sync[2] = f.sync[3] = f.sync[0];
    if (fault == depth_and_style_exchanged_fault && !none) exchange(&f.input_depth, &f.style);
    if (fault == style_and_justification_exchanged_fault) exchange(&f.style, &f.justification);
    if (fault == depth_always_8_fault) f.input_depth = 3;
    if (fault == id_0_always_fault) f.input = 0;
    if (fault == twelve_with_separate_fault && !is_embedded(fault, f.input)) memset(f.sync, 0, sizeof f.sync);
    model_wanted(&f, model_pair(&f), wanted);
    switch (fault) {
    case depth_00_today_fault: if (none) wanted[0x16] &= 0xCF; break;
    case depth_kept_today_fault: if (none) keep(wanted, image, 0x16, 0x16, 0x30); break;
    case style_kept_today_fault: if (none) keep(wanted, image, 0x16, 0x16, 0x0C); break;
    case justification_kept_today_fault: if (none) keep(wanted, image, 0x48, 0x48, 0x18); break;
    case syncs_kept_today_fault: if (none) keep(wanted, image, 0x30, 0x34, 0xFF); break;
    case syncs_kept_of_4_fault: if (separate) keep(wanted, image, 0x30, 0x34, 0xFF); break;
    case last_sync_kept_of_4_fault: if (separate) keep(wanted, image, 0x34, 0x34, 0xFF); break;
    case justification_kept_of_5_fault: if (f.input == 5) keep(wanted, image, 0x48, 0x48, 0x18); break;
    case id_kept_fault: keep(wanted, image, 0x15, 0x15, 0x0F); break;
    case style_not_written_fault: keep(wanted, image, 0x16, 0x16, 0x0C); break;
    case justification_not_written_fault: keep(wanted, image, 0x48, 0x48, 0x18); break;
    case syncs_not_written_fault: keep(wanted, image, 0x30, 0x34, 0xFF); break;
    case rate_lost_fault: if (!none) wanted[0x15] &= 0x0F; break;
    case output_lost_fault: if (!none) wanted[0x16] &= 0x7F; break;
    case output_is_input_fault: if (!none && f.input != 5) wanted[0x16] |= 0x80; break;
    case syncs_by_bytes_fault: wanted[0x31] = (uint8_t)f.sync[1], wanted[0x33] = (uint8_t)f.sync[3]; break;
    case sync_low_bits_lost_fault: wanted[0x31] &= 0x3F; break;
    default: break;
    }
}

/* The list with nothing left out, each write as this library has it. */
static void spoil(enum fault fault, const struct fields *f, struct list *l) {
    for (uint32_t k = 0; k < l->count; k++) {
        uint8_t *value = &l->pairs[2 * k + 1];
        switch (l->pairs[2 * k]) {
        case 0x16:
            if (fault == edge_cleared_fault) *value &= 0xFD;
            if (fault == colour_of_black_fault && f->wiring && f->input != 5) *value |= 0x01;
            break;
        case 0x48:
            if (fault == alignment_set_fault && f->input == 5) *value |= 0x20;
            if (fault == bus_order_cleared_fault) *value &= 0xBF;
            break;
        default: break;
        }
    }
}

static uint32_t place_of(const struct list *l, uint8_t address) {
    uint32_t k = 0;
    while (k < l->count && l->pairs[2 * k] != address) k++;
    return k;
}

static void move_to(struct list *l, uint32_t from, uint32_t to) {
    uint8_t pair[2] = { l->pairs[2 * from], l->pairs[2 * from + 1] };
    for (; from > to; from--) memcpy(l->pairs + 2 * from, l->pairs + 2 * from - 2, 2);
    for (; from < to; from++) memcpy(l->pairs + 2 * from, l->pairs + 2 * from + 2, 2);
    memcpy(l->pairs + 2 * to, pair, 2);
}

static void drop(struct list *l, uint32_t at) {
    move_to(l, at, l->count - 1);
    l->count--;
}

static void put_last_but_one(struct list *l, uint8_t address, uint8_t value) {
    memcpy(l->pairs + 2 * l->count, l->pairs + 2 * l->count - 2, 2);
    l->pairs[2 * l->count - 2] = address, l->pairs[2 * l->count - 1] = value;
    l->count++;
}

/* The list as it is planned, in another order or with other writes. */
static void reorder(enum fault fault, const struct fields *f, const uint8_t *image, struct list *l) {
    uint32_t of_48 = place_of(l, 0x48);
    switch (fault) {
    case syncs_in_front_fault:
        for (uint8_t a = 0x34; a >= 0x30; a--)
            if (place_of(l, a) < l->count) move_to(l, place_of(l, a), 1);
        break;
    case justification_late_fault: if (of_48 < l->count) move_to(l, of_48, l->count - 2); break;
    case justification_left_out_fault: if (of_48 < l->count && f->justification == 0) drop(l, of_48); break;
    case syncs_left_out_fault:
        for (uint8_t a = 0x30; a <= 0x34; a++)
            if (place_of(l, a) < l->count && l->pairs[2 * place_of(l, a) + 1] == 0) drop(l, place_of(l, a));
        break;
    case pulse_written_fault: if (f->input >= 5 && (image[0xD0] & 0x0C) != 0x0C) put_last_but_one(l, 0xD0, image[0xD0] | 0x0C); break;
    case high_placement_written_fault: if (f->wiring > WIRING_BYTES && image[0xFA] >> 5) put_last_but_one(l, 0xFA, image[0xFA] & 0x1F); break;
    default: break;
    }
}

static struct station_count planned(enum fault fault, PLAN_ARGUMENTS) {
    struct fields f;
    struct list full, l;
    uint8_t wanted[256];
    uint32_t refusal = reads(fault, r, rl, &f);
    if (refusal == 5 && fault == not_in_planning_fault && !is_defined(fault, &f)) {
        f.wiring = NO_WIRING, f.input = f.input_depth = f.style = f.justification = 0, f.matrix = 1;
        memset(f.sync, 0, sizeof f.sync);
        refusal = refusal_of(&f);
    }
    if (refusal) return (struct station_count){ refusal, 0 };
    if (il != 256) return (struct station_count){ 7, 0 };
    if ((i[0x4A] & 0x10) || (i[0x4A] & 0x60) == 0x60) return (struct station_count){ 8, 0 };
    if (!model_pair(&f).exists) return (struct station_count){ 9, 0 };
    if (wl < 256) return (struct station_count){ 10, 0 };
    wants(fault, f, i, wanted);
    model_full_list(wanted, i, &full);
    spoil(fault, &f, &full);
    model_leave_out(&full, i, &l);
    reorder(fault, &f, i, &l);
    memcpy(w, l.pairs, 2 * l.count);
    return (struct station_count){ 0, l.count };
}

/* Decoding. ------------------------------------------------------------------------------------------------------------------------- */

/* What decoding does not look at is as it should be. */
static void ignore(enum fault fault, uint8_t *image) {
    int id = image[0x15] & 15, depth = image[0x16] >> 4 & 3, separate = !one_of(EMBEDDED_IDS, id);
    if (fault == old_image_decoded_fault && id == 0 && depth == 0) image[0x16] |= 0x30;
    if (fault == any_depth_decoded_fault && id == 0) image[0x16] |= 0x30;
    if (fault == any_style_decoded_fault && id == 0) image[0x16] &= 0xF3;
    if (fault == justification_not_looked_at_fault && one_of(RGB_IDS, id)) image[0x48] &= 0xE7;
    if ((fault == syncs_not_looked_at_fault || fault == vet_syncs_left_fault) && separate) memset(image + 0x30, 0, 5);
    if (fault == last_sync_not_looked_at_fault && separate) image[0x34] = 0;
    if (fault == id_9_decoded_fault && id == 9) image[0x15] &= 0xF1;
}

/* As decoding answers: the count and what it does not carry, or values as they are misread. */
static void misread(enum fault fault, struct fields *f) {
    int none = f->wiring == NO_WIRING;
    if (fault == today_as_section_fault && none) f->wiring = WIRING_BYTES, f->input_depth = 3;
    if (fault == embedded_as_4_fault && !none) f->wiring = WIRING_BYTES;
    if (fault == separate_as_12_fault && !none) f->wiring = WIRING_BYTES + SYNC_BYTES;
    if ((fault == five_as_today_fault && f->input == 5) || fault == section_dropped_fault) f->wiring = NO_WIRING;
    if (fault == depth_read_as_8_fault) f->input_depth = 3;
    if (fault == style_read_as_1_fault && f->style == 1) f->style = 2;
    for (int i = 0; i < SYNCS; i++) {
        if (fault == syncs_read_low_first_fault) f->sync[i] = f->sync[i] % 256 * 256 + f->sync[i] / 256;
        if (fault == sync_high_bits_lost_fault) f->sync[i] %= 256;
    }
}

static struct station_count decoded(enum fault fault, const uint8_t *i, size_t il, uint8_t *b, size_t bl) {
    uint8_t image[256], back[LONGEST];
    struct fields f;
    if (il != 256 || bl < LONGEST) return model_decode(i, il, b, bl);
    memcpy(image, i, 256);
    ignore(fault, image);
    struct station_count c = model_decode(image, 256, back, LONGEST);
    if (c.refusal && fault == without_matrix_decoded_fault && shown_by(image, &f) && !f.matrix && f.wiring && ends_in_any(image, &f)) {
        model_answer(&f, image);
        return (struct station_count){ 0, (uint32_t)model_bytes(&f, b) };
    }
    if (c.refusal) return c;
    f = asked(back, c.count);
    int syncs = f.sync[0] | f.sync[1] | f.sync[2] | f.sync[3];
    if (f.wiring > WIRING_BYTES && (fault == embedded_not_decoded_fault || (fault == zero_syncs_not_decoded_fault && !syncs)))
        return (struct station_count){ 11, 0 };
    misread(fault, &f);
    return (struct station_count){ 0, (uint32_t)model_bytes(&f, b) };
}

/* The class and the vet. ------------------------------------------------------------------------------------------------------------ */

static struct station_masks class_of(enum fault fault, uint8_t address) {
    struct station_masks k = model_class(address);
    uint32_t free = 0, named = 0;
    if (fault == syncs_free_fault && address >= 0x30 && address <= 0x34) free = 0xFF;
    if (fault == last_sync_free_fault && address == 0x34) free = 0xFF;
    if (fault == depth_free_fault && address == 0x16) free = 0x30;
    if (fault == style_free_fault && address == 0x16) free = 0x0C;
    if (fault == justification_free_fault && address == 0x48) free = 0x18;
    if (fault == edge_named_fault && address == 0x16) named = 0x02;
    if (fault == alignment_named_fault && address == 0x48) named = 0x20;
    k.named = (k.named & ~free) | named, k.free_bits = (k.free_bits & ~named) | free;
    return k;
}

/* The first pair to one of these registers, that changes one of these bits; or none. */
static uint32_t first_to(const uint8_t *image, const uint8_t *l, uint32_t count, int first, int last, int bits) {
    uint32_t k = 0;
    while (k < count && (l[2 * k] < first || l[2 * k] > last || (bits && !((l[2 * k + 1] ^ image[l[2 * k]]) & bits)))) k++;
    return k;
}

static struct station_verdict vetted(enum fault fault, VET_ARGUMENTS) {
    struct station_verdict v = model_vet(i, il, p, pl, c, cl, mark, l, ll);
    uint32_t count = (uint32_t)(ll / 2), bad = count;
    if (v.refusal == 7 || v.refusal == 8 || v.refusal == 14) return v;
    if (fault == vet_sync_refused_fault) bad = first_to(i, l, count, 0x30, 0x34, 0);
    if (fault == vet_justification_refused_fault) bad = first_to(i, l, count, 0x48, 0x48, 0);
    if (fault == vet_depth_kept_fault) bad = first_to(i, l, count, 0x16, 0x16, 0x30);
    if (bad < count && (v.refusal != 15 || bad < v.place)) return (struct station_verdict){ 15, bad };
    if (fault == vet_alignment_taken_fault && v.refusal == 15 && l[2 * v.place] == 0x48 && ll <= 2 * MOST_PAIRS) {
        uint8_t image[256], list[2 * MOST_PAIRS];
        memcpy(image, i, 256);
        memcpy(list, l, ll);
        for (size_t k = 0; k < ll; k += 2)
            if (list[k] == 0x48) list[k + 1] = (uint8_t)((list[k + 1] & ~0x20) | (i[0x48] & 0x20));
        return model_vet(image, il, p, pl, c, cl, mark, list, ll);
    }
    if (fault == vet_syncs_left_fault && v.refusal == 16) {
        struct chip end = { .mark = mark };
        struct fields f;
        memcpy(end.image, i, IMAGE_BYTES);
        for (size_t k = 0; k + 1 < ll; k += 2) model_run(&end, l[k], l[k + 1]);
        ignore(fault, end.image);
        if (model_ends(end.image, NONE_FREE, &f)) v.refusal = 0;
    }
    return v;
}

static struct station_piped ended(enum fault fault, uint8_t *pipe, size_t length) {
    int waits = length == PIPE_BYTES && pipe[COUNT_AT] <= LONGEST && pipe[ANSWER_AT] == 0;
    if (!waits) return model_pipe_end(pipe, length);
    uint32_t count = pipe[COUNT_AT], number = numbers(fault, pipe, count).refusal;
    pipe[ANSWER_AT] = (uint8_t)(number ? number : PIPE_ACCEPTED);
    return (struct station_piped){ number, 1, number ? 0 : count };
}

#define LIBRARY(name, words) \
    static struct station_count plan_##name(PLAN_ARGUMENTS) { return planned(name##_fault, r, rl, i, il, w, wl); } \
    static struct station_pair ncts_##name(const uint8_t *r, size_t rl) { return numbers(name##_fault, r, rl); } \
    static struct station_count decode_##name(const uint8_t *i, size_t il, uint8_t *b, size_t bl) { \
        return decoded(name##_fault, i, il, b, bl); \
    } \
    static struct station_masks class_##name(uint8_t address) { return class_of(name##_fault, address); } \
    static struct station_verdict vet_##name(VET_ARGUMENTS) { return vetted(name##_fault, i, il, p, pl, c, cl, mark, l, ll); } \
    static struct station_piped end_##name(uint8_t *pipe, size_t length) { return ended(name##_fault, pipe, length); } \
    static void put_##name(struct face *f) { \
        f->plan = plan_##name, f->ncts = ncts_##name, f->decode = decode_##name, f->class_of = class_##name, f->vet = vet_##name; \
        f->pipe_end = end_##name; \
    }
FAULTS(LIBRARY)

LIBRARY(right, "")
void put_right_wirings(struct face *f) { put_right(f); }

#define ROW(name, words) { words, put_##name, 0 },
const struct wrong wrong_wirings[] = { FAULTS(ROW) { NULL, NULL, 0 } };
