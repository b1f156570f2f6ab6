/* Wrong machines with a waiting mark: document 02, request 04. One machine, which spoils what the model does, with a place for each fault;
 * a fault is a row of FAULTS. */
#include "wrong.h"

/* FAULT(name, must demand 3 catch it by itself?, in words) */
#define FAULTS(FAULT) \
    FAULT(rise_in_wait_copies, 1, "the rise in a wait copies") \
    FAULT(rise_keeps_mark, 0, "the rise in a wait keeps the mark") \
    FAULT(rise_takes_change, 1, "the rise in a wait takes the change, as it stands after") \
    FAULT(rise_never_copies, 1, "a rise without a wait does not copy") \
    FAULT(rise_sets_mark, 0, "a rise sets the mark") \
    FAULT(fall_does_not_wait, 1, "the fall does not wait") \
    FAULT(fall_copies, 1, "the fall copies the registers to the buffer") \
    FAULT(fall_waits_if_different, 0, "the fall waits only where a coefficient differs") \
    FAULT(fall_turns_mark, 1, "a fall beside a mark drops it") \
    FAULT(fall_in_two, 1, "a wait of two Vsyncs") \
    FAULT(fall_of_audio_hold, 1, "the audio hold's fall sets the mark") \
    FAULT(rise_of_avi_hold, 1, "the AVI hold's rise ends the wait") \
    FAULT(write_drops, 1, "any write ends the wait") \
    FAULT(mute_ends_wait, 1, "muting ends the wait") \
    FAULT(open_ends_wait, 1, "opening ends the wait") \
    FAULT(table_14_ends_wait, 1, "a write to Table 14 ends the wait") \
    FAULT(coefficient_ends_wait, 0, "a coefficient written in a wait ends it") \
    FAULT(coefficient_acts, 0, "a coefficient written in a wait acts at once") \
    FAULT(coefficient_withheld, 0, "a coefficient written in a wait is not written") \
    FAULT(left_down_drops, 0, "0x1A written with the hold left down ends the wait") \
    FAULT(left_down_sets, 1, "a write with the hold left down sets the mark") \
    FAULT(left_up_sets, 0, "0x1A written with the hold left up sets the mark") \
    FAULT(left_up_drops, 0, "0x1A written with the hold left up drops the mark") \
    FAULT(left_up_copies, 1, "0x1A written with the hold left up copies") \
    FAULT(write_leaves_seven, 0, "a mark of 7 left as 7 by a write") \
    FAULT(vsync_leaves_seven, 0, "a mark of 7 left as 7 by a Vsync") \
    FAULT(mark_of_255, 0, "the mark set as 255") \
    FAULT(two_is_none_written, 1, "a mark of 2 taken for none by a write") \
    FAULT(two_is_none_in_vsync, 0, "a mark of 2 taken for none by a Vsync") \
    FAULT(two_is_none_seen, 1, "a mark of 2 taken for none by the view") \
    FAULT(two_is_none, 1, "a mark of 2 taken for none by all three") \
    FAULT(high_bits_are_none, 0, "a mark of 128 taken for none") \
    FAULT(thirteen_changes_mark, 0, "refusal 13 makes a mark of 7 one of 1") \
    FAULT(thirteen_sets_mark, 0, "refusal 13 sets the mark where the hold would fall") \
    FAULT(seven_changes_mark, 0, "refusal 7 makes a mark of 7 one of 1") \
    FAULT(vsync_seven_changes_mark, 0, "a Vsync that is refused 7 clears the mark") \
    FAULT(thirteen_before_seven, 0, "refusal 13 before 7 where the mark is too long") \
    FAULT(mark_of_no_byte, 0, "a write with a mark of no byte taken") \
    FAULT(mark_of_two_bytes, 0, "a write with a mark of two bytes taken") \
    FAULT(mark_not_looked_at, 0, "a write with a mark of more bytes taken") \
    FAULT(vsync_mark_of_no_byte, 0, "a Vsync with a mark of no byte taken") \
    FAULT(vsync_mark_of_two_bytes, 0, "a Vsync with a mark of two bytes taken") \
    FAULT(vsync_packet_of_31, 0, "a Vsync with a packet buffer of 31 bytes taken") \
    FAULT(vsync_coefficients_of_23, 0, "a Vsync with a coefficient buffer of 23 taken") \
    FAULT(vsync_image_of_257, 0, "a Vsync with an image of 257 bytes taken") \
    FAULT(reads_empty_mark, 0, "a mark of no byte read") \
    FAULT(reads_past_mark, 0, "a byte past the mark read by a Vsync") \
    FAULT(writes_past_mark, 0, "a byte past the mark written") \
    FAULT(vsync_nothing, 1, "a Vsync that does nothing") \
    FAULT(vsync_thirteen, 0, "a Vsync refused 13 where two holds are up") \
    FAULT(vsync_eight, 0, "a Vsync refused where the GC hold is up") \
    FAULT(vsync_acts_beside_hold, 1, "a Vsync beside a raised hold acts") \
    FAULT(vsync_acts_beside_mark, 1, "a Vsync beside a raised hold and a mark acts") \
    FAULT(vsync_lowers_hold, 1, "a Vsync lowers the coefficient hold") \
    FAULT(vsync_drops_beside_hold, 0, "a Vsync beside a raised hold drops the mark") \
    FAULT(vsync_sets, 1, "a Vsync without a wait sets the mark") \
    FAULT(vsync_sets_beside_hold, 0, "a Vsync beside a raised hold sets the mark") \
    FAULT(vsync_copies, 0, "a Vsync fills the buffer with what it takes") \
    FAULT(vsync_clears_buffer, 0, "a Vsync clears the buffer that it leaves") \
    FAULT(vsync_of_the_fall, 0, "the registers as they stood when the hold fell") \
    FAULT(vsync_of_the_buffer, 1, "a Vsync puts the buffer into the registers") \
    FAULT(vsync_ends_packet_holds, 1, "a Vsync lowers the packet holds") \
    FAULT(vsync_opens, 1, "a Vsync opens the picture") \
    FAULT(vsync_fills_packet, 1, "a Vsync fills the packet buffer of a held packet") \
    FAULT(vsync_waits_for_open, 1, "a Vsync takes nothing while the picture is muted") \
    FAULT(vsync_waits_for_mute, 1, "old fixed at the start: nothing taken before the mute") \
    FAULT(view_without_mark, 1, "the view ignores the mark") \
    FAULT(view_beside_hold, 1, "the view shows the registers beside a hold and a mark") \
    FAULT(view_of_mark, 1, "the view ignores the hold and goes by the mark") \
    FAULT(view_mode_held, 0, "the mode taken from the buffer in a wait") \
    FAULT(view_first_row, 1, "the view shows the first row of the registers in a wait")

#define NUMBER(name, on_cuts, words) name##_fault,
enum fault { NO_FAULT, FAULTS(NUMBER) };

static volatile uint8_t eye;
static int is_up(const uint8_t *image) { return image[0x1A] >> 5 & 1; }
static int is_two_none(enum fault fault, enum fault of_call, uint8_t mark) {
    return mark == 2 && (fault == two_is_none_fault || fault == of_call);
}

/* The coefficients of the registers are not those of the buffer. */
static int coefficients_differ(const uint8_t *i, const uint8_t *c) {
    for (int k = 0; k < 24; k++)
        if ((i[0x18 + k] ^ c[k]) & (k % 2 ? 0xFF : 0x1F)) return 1;
    return 0;
}

static uint8_t at_fall[24];     /* what a library may not remember */

/* After a write that was taken. */
static void spoil_hold(enum fault fault, const struct chip *was, uint8_t *i, uint8_t *c, uint8_t *m) {
    int rises = !is_up(was->image) && is_up(i), falls = is_up(was->image) && !is_up(i), waited = model_waits(was);
    if (falls) memcpy(at_fall, i + 0x18, 24);
    switch (fault) {
    case rise_in_wait_copies_fault: if (rises && waited) memcpy(c, was->image + 0x18, 24); break;
    case rise_takes_change_fault: if (rises && waited) memcpy(c, i + 0x18, 24); break;
    case rise_keeps_mark_fault: if (rises && waited) *m = 1; break;
    case rise_never_copies_fault: if (rises) memcpy(c, was->coefficients, 24); break;
    case rise_sets_mark_fault: if (rises) *m = 1; break;
    case fall_does_not_wait_fault: if (falls) *m = 0; break;
    case fall_copies_fault: if (falls) memcpy(c, i + 0x18, 24); break;
    case fall_waits_if_different_fault: if (falls) *m = (uint8_t)coefficients_differ(i, c); break;
    case fall_turns_mark_fault: if (falls && was->mark) *m = 0; break;
    case fall_in_two_fault: if (falls) *m = 2; break;
    case mark_of_255_fault: if (falls) *m = 255; break;
    default: break;
    }
}

static void spoil_write(enum fault fault, const struct chip *was, uint8_t *i, uint8_t *c, uint8_t *m, uint8_t address) {
    int of_1a = address == 0x1A, left_up = is_up(was->image) && is_up(i), left_down = !is_up(was->image) && !is_up(i);
    int of_matrix = address >= 0x18 && address <= 0x2F && left_down && model_waits(was);
    int falls_4a = was->image[0x4A] & ~i[0x4A], rises_4a = ~was->image[0x4A] & i[0x4A];
    switch (fault) {
    case fall_of_audio_hold_fault: if (falls_4a & 0x20) *m = 1; break;
    case rise_of_avi_hold_fault: if (rises_4a & 0x40) *m = 0; break;
    case write_drops_fault: if (left_down) *m = 0; break;
    case mute_ends_wait_fault: if (address == 0x4B && (i[0x4B] & 0xC0) == 0x40) *m = 0; break;
    case open_ends_wait_fault: if (address == 0x4B && (i[0x4B] & 0xC0) == 0x80) *m = 0; break;
    case table_14_ends_wait_fault: if (address >= 0x98 && address <= 0xA3) *m = 0; break;
    case coefficient_ends_wait_fault: if (of_matrix && !of_1a) *m = 0; break;
    case coefficient_acts_fault: if (of_matrix) c[address - 0x18] = i[address]; break;
    case coefficient_withheld_fault: if (of_matrix) i[address] = was->image[address]; break;
    case left_down_drops_fault: if (left_down && of_1a) *m = 0; break;
    case left_down_sets_fault: if (left_down) *m = 1; break;
    case left_up_sets_fault: if (left_up && of_1a) *m = 1; break;
    case left_up_drops_fault: if (left_up && of_1a) *m = 0; break;
    case left_up_copies_fault: if (left_up && of_1a) memcpy(c, was->image + 0x18, 24); break;
    case write_leaves_seven_fault: if ((left_up || left_down) && was->mark) *m = was->mark; break;
    default: spoil_hold(fault, was, i, c, m);
    }
}

/* A write with a mark of another length, or 7: the mark is taken from its first byte, where it has one. */
static uint32_t with_mark_of(enum fault fault, WRITE_ARGUMENTS) {
    uint8_t mark = 0;
    if (fault == reads_empty_mark_fault && ml == 0) eye = *m;
    if (fault == thirteen_before_seven_fault && ml > 1 && il == 256 && model_holds(i[0x4A]) > 1) return 13;
    if (fault == seven_changes_mark_fault && ml == 1) *m = *m != 0;
    int taken = (fault == mark_of_no_byte_fault && ml == 0) || (fault == mark_of_two_bytes_fault && ml == 2) ||
                (fault == mark_not_looked_at_fault && ml > 1);
    if (!taken) return 7;
    if (ml) mark = *m;
    uint32_t refusal = model_write(i, il, p, pl, c, cl, &mark, 1, address, value);
    if (ml) *m = mark;
    return refusal;
}

static uint32_t writes(enum fault fault, WRITE_ARGUMENTS) {
    if (il != 256 || pl != PACKET_BYTES || cl != COEFFICIENT_BYTES || ml != 1)
        return with_mark_of(fault, i, il, p, pl, c, cl, m, ml, address, value);
    struct chip was = { .mark = *m };
    memcpy(was.image, i, 256);
    memcpy(was.coefficients, c, COEFFICIENT_BYTES);
    if (is_two_none(fault, two_is_none_written_fault, *m) || (fault == high_bits_are_none_fault && *m == 128)) *m = 0;
    uint32_t refusal = model_write(i, il, p, pl, c, cl, m, ml, address, value);
    if (!refusal) spoil_write(fault, &was, i, c, m, address);
    else *m = was.mark;
    if (refusal && fault == thirteen_changes_mark_fault) *m = *m != 0;
    if (refusal && fault == thirteen_sets_mark_fault && address == 0x1A && is_up(i) && !(value & 0x20)) *m = 1;
    if (fault == writes_past_mark_fault) m[1] = 0;
    return refusal;
}

static void spoil_vsync(enum fault fault, const struct chip *was, uint8_t *i, uint8_t *p, uint8_t *c, uint8_t *m) {
    int up = is_up(was->image), waited = model_waits(was), muted = (i[0x4B] & 0xC0) == 0x40;
    switch (fault) {
    case vsync_nothing_fault: *m = was->mark; break;
    case vsync_leaves_seven_fault: if (up) *m = was->mark; break;
    case two_is_none_fault: case two_is_none_in_vsync_fault: if (was->mark == 2) *m = 0; break;
    case fall_in_two_fault: if (waited && was->mark > 1) *m = 1; break;
    case vsync_acts_beside_hold_fault: if (up) memcpy(c, i + 0x18, 24); break;
    case vsync_acts_beside_mark_fault: if (up && was->mark) memcpy(c, i + 0x18, 24); break;
    case vsync_lowers_hold_fault: i[0x1A] &= 0xDF; break;
    case vsync_drops_beside_hold_fault: if (up) *m = 0; break;
    case vsync_sets_fault: if (!up && !waited) *m = 1; break;
    case vsync_sets_beside_hold_fault: if (up) *m = 1; break;
    case vsync_copies_fault: if (waited) memcpy(c, i + 0x18, 24); break;
    case vsync_clears_buffer_fault: if (waited) memset(c, 0, 24); break;
    case vsync_of_the_fall_fault: if (waited) memcpy(i + 0x18, at_fall, 24); break;
    case vsync_of_the_buffer_fault: if (waited) memcpy(i + 0x18, c, 24), i[0x1A] &= 0xDF; break;
    case vsync_ends_packet_holds_fault: i[0x4A] &= 0x9F; break;
    case vsync_opens_fault: if (waited && muted) i[0x4B] ^= 0xC0; break;
    case vsync_fills_packet_fault: if ((i[0x4A] & 0x60) == 0x40) memcpy(p, i + 0x52, AVI_BYTES); break;
    case vsync_waits_for_open_fault: if (waited && muted) *m = 1; break;
    case vsync_waits_for_mute_fault: if (waited && !muted) *m = 1; break;
    default: break;
    }
}

/* A Vsync with slices of other lengths, or 7. */
static uint32_t vsync_of_lengths(enum fault fault, VSYNC_ARGUMENTS) {
    int image = il == 256 || (fault == vsync_image_of_257_fault && il == 257);
    int packet = pl == PACKET_BYTES || (fault == vsync_packet_of_31_fault && pl == PACKET_BYTES - 1);
    int coefficients = cl == COEFFICIENT_BYTES || (fault == vsync_coefficients_of_23_fault && cl == COEFFICIENT_BYTES - 1);
    int mark = ml == 1 || (fault == vsync_mark_of_no_byte_fault && ml == 0) || (fault == vsync_mark_of_two_bytes_fault && ml == 2);
    (void)p, (void)c;
    if (fault == vsync_seven_changes_mark_fault && ml == 1 && il == 256 && !is_up(i)) *m = 0;
    if (!image || !packet || !coefficients || !mark) return 7;
    if (ml) *m = is_up(i) && *m;
    return 0;
}

static uint32_t vsync(enum fault fault, VSYNC_ARGUMENTS) {
    if (il != 256 || pl != PACKET_BYTES || cl != COEFFICIENT_BYTES || ml != 1)
        return vsync_of_lengths(fault, i, il, p, pl, c, cl, m, ml);
    struct chip was = { .mark = *m };
    memcpy(was.image, i, 256);
    if (fault == vsync_thirteen_fault && model_holds(i[0x4A]) > 1) return 13;
    if (fault == vsync_eight_fault && (i[0x4A] & 0x70) == 0x10) return 8;
    if (fault == reads_past_mark_fault) eye = m[1];
    uint32_t refusal = model_vsync(i, il, p, pl, c, cl, m, ml);
    spoil_vsync(fault, &was, i, p, c, m);
    return refusal;
}

static struct station_count matrix(enum fault fault, MATRIX_ARGUMENTS) {
    uint8_t image[256], rows[MATRIX_BYTES];
    if (il != 256 || cl != COEFFICIENT_BYTES || ml < MATRIX_BYTES) return model_matrix(i, il, c, cl, mark, m, ml);
    int waited = mark && !is_up(i);
    memcpy(image, i, 256);
    if (fault == view_without_mark_fault || is_two_none(fault, two_is_none_seen_fault, mark)) mark = 0;
    if (fault == high_bits_are_none_fault && mark == 128) mark = 0;
    if (fault == view_beside_hold_fault && mark && is_up(i)) image[0x1A] &= 0xDF, mark = 0;
    if (fault == view_of_mark_fault) image[0x1A] &= 0xDF;
    struct station_count n = model_matrix(image, il, c, cl, mark, m, ml);
    if (fault == view_mode_held_fault && waited) m[0] = c[0] >> 5 & 3;
    if (fault == view_first_row_fault && waited) model_matrix(i, il, c, cl, 0, rows, sizeof rows), memcpy(m + 1, rows + 1, 8);
    return n;
}

#define MACHINE(name, on_cuts, words) \
    static uint32_t write_##name(WRITE_ARGUMENTS) { return writes(name##_fault, i, il, p, pl, c, cl, m, ml, address, value); } \
    static uint32_t vsync_##name(VSYNC_ARGUMENTS) { return vsync(name##_fault, i, il, p, pl, c, cl, m, ml); } \
    static struct station_count view_##name(MATRIX_ARGUMENTS) { return matrix(name##_fault, i, il, c, cl, mark, m, ml); } \
    static void put_##name(struct face *f) { f->write = write_##name, f->vsync = vsync_##name, f->matrix = view_##name; }
FAULTS(MACHINE)

static uint32_t right_write(WRITE_ARGUMENTS) { return writes(NO_FAULT, i, il, p, pl, c, cl, m, ml, address, value); }
static uint32_t right_vsync(VSYNC_ARGUMENTS) { return vsync(NO_FAULT, i, il, p, pl, c, cl, m, ml); }
static struct station_count right_matrix(MATRIX_ARGUMENTS) { return matrix(NO_FAULT, i, il, c, cl, mark, m, ml); }
void put_right_machine(struct face *f) { f->write = right_write, f->vsync = right_vsync, f->matrix = right_matrix; }

#define ROW(name, on_cuts, words) { words, put_##name, on_cuts },
const struct wrong wrong_marks[] = { FAULTS(ROW) { NULL, NULL, 0 } };
