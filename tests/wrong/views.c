/* Wrong views. */
#include "wrong.h"

#define SENT(name) static struct station_part name(const uint8_t *i, size_t il, const uint8_t *p, size_t pl, uint32_t which)

SENT(hold_ignored) {
    struct station_part s = model_sent(i, il, p, pl, which);
    return s.held ? (struct station_part){ 0, 0, which ? 0x70 : 0x52, s.len } : s;
}
PUT(sent, hold_ignored)

SENT(reserved_left_out) {
    struct station_part s = model_sent(i, il, p, pl, which);
    if (!s.refusal && which == 1) s.len = 8;
    return s;
}
PUT(sent, reserved_left_out)

SENT(length_before_number) {
    struct station_part s = model_sent(i, il, p, pl, which);
    if (s.refusal == 5 && il != 256) s.refusal = 7;
    return s;
}
PUT(sent, length_before_number)

SENT(number_in_one_byte) { return model_sent(i, il, p, pl, which & 0xFF); }
PUT(sent, number_in_one_byte)

SENT(part_beside_refusal) {
    struct station_part s = model_sent(i, il, p, pl, which);
    if (s.refusal == 13) s.len = 16;
    return s;
}
PUT(sent, part_beside_refusal)

static struct station_state gc_hold_ignored(const uint8_t *i, size_t il, const uint8_t *p, size_t pl) {
    struct station_state s = model_mute(i, il, p, pl);
    if (!s.refusal) s.mute = i[0x4B] >> 6;
    return s;
}
PUT(mute, gc_hold_ignored)

static struct station_state bits_swapped(const uint8_t *i, size_t il, const uint8_t *p, size_t pl) {
    struct station_state s = model_mute(i, il, p, pl);
    s.mute = s.mute == 1 ? 2 : s.mute == 2 ? 1 : s.mute;
    return s;
}
PUT(mute, bits_swapped)

#define MATRIX(name) static struct station_count name(MATRIX_ARGUMENTS)

MATRIX(mode_held) {
    struct station_count n = model_matrix(i, il, c, cl, mark, m, ml);
    if (!n.refusal && (i[0x1A] & 0x20)) m[0] = c[0] >> 5 & 3;
    return n;
}
PUT(matrix, mode_held)

MATRIX(sign_lost) {
    struct station_count n = model_matrix(i, il, c, cl, mark, m, ml);
    if (!n.refusal) m[1] &= 0x1F;
    return n;
}
PUT(matrix, sign_lost)

MATRIX(whole_bytes) {
    struct station_count n = model_matrix(i, il, c, cl, mark, m, ml);
    if (!n.refusal) m[7] = (mark || (i[0x1A] & 0x20) ? c : i + 0x18)[6];
    return n;
}
PUT(matrix, whole_bytes)

MATRIX(matrix_hold_ignored) {
    uint8_t image[256];
    if (il != 256) return model_matrix(i, il, c, cl, mark, m, ml);
    memcpy(image, i, 256);
    image[0x1A] &= 0xDF;
    return model_matrix(image, il, c, cl, mark, m, ml);
}
PUT(matrix, matrix_hold_ignored)

const struct wrong wrong_views[] = {
    { "the registers shown while the hold is up", put_hold_ignored, 1 },
    { "the audio packet without its reserved bytes", put_reserved_left_out, 0 },
    { "refusal 7 before 5", put_length_before_number, 0 },
    { "packet 256 taken for packet 0", put_number_in_one_byte, 0 },
    { "a part beside a refusal", put_part_beside_refusal, 0 },
    { "the mute read off 0x4B while GC is held", put_gc_hold_ignored, 0 },
    { "set and clear changed over", put_bits_swapped, 1 },
    { "the mode taken from the coefficient buffer", put_mode_held, 0 },
    { "a coefficient's sign lost in the view", put_sign_lost, 0 },
    { "a coefficient of 16 bits in the view", put_whole_bytes, 0 },
    { "the coefficient hold ignored in the view", put_matrix_hold_ignored, 1 },
    { NULL, NULL, 0 },
};
