/* Wrong decoders. */
#include "wrong.h"

#define DECODE(name) static struct station_count name(const uint8_t *i, size_t il, uint8_t *r, size_t rl)
#define RIGHT model_decode(i, il, r, rl)

/* Decoding of an image that is like the lent one but for some bits of one register. */
static struct station_count as_if(const uint8_t *i, size_t il, uint8_t *r, size_t rl, int address, uint8_t mask, uint8_t bits) {
    uint8_t other[256];
    if (il != 256) return RIGHT;
    memcpy(other, i, 256);
    other[address] = (uint8_t)((other[address] & ~mask) | bits);
    return model_decode(other, 256, r, rl);
}

DECODE(mandated_ignored) { return as_if(i, il, r, rl, 0xAF, 0x04, 0x04); }
PUT(decode, mandated_ignored)
DECODE(table_14_ignored) { return as_if(i, il, r, rl, 0xE0, 0xFF, 0xD0); }
PUT(decode, table_14_ignored)
DECODE(reserved_byte_ignored) { return as_if(i, il, r, rl, 0x7C, 0xFF, 0x00); }
PUT(decode, reserved_byte_ignored)
DECODE(hold_ignored) { return as_if(i, il, r, rl, 0x4A, 0x40, 0x00); }
PUT(decode, hold_ignored)
DECODE(muted_is_open) { return as_if(i, il, r, rl, 0x4B, 0xC0, 0x80); }
PUT(decode, muted_is_open)

/* By a shorter list: what the request that the image shows, without a matrix, leaves out of its list on zeros is not tested. */
DECODE(by_shorter_list) {
    uint8_t other[256], bytes[LONGEST], zeros[256] = { 0 };
    struct fields f;
    struct list full;
    if (il != 256 || i[0x18] >> 7 || !shown_by(i, &f)) return RIGHT;
    memcpy(other, i, 256);
    size_t length = model_bytes(&f, bytes);
    if (answered(bytes, length, zeros, 256, 256).refusal) return RIGHT;
    full_list_of(bytes, length, zeros, &full);
    for (const uint8_t *pair = full.pairs; pair < full.pairs + 2 * full.count; pair += 2)
        if (pair[1] == 0 && !model_stays(pair[0])) other[pair[0]] &= model_classes[pair[0]].free | model_classes[pair[0]].read_only;
    return model_decode(other, 256, r, rl);
}
PUT(decode, by_shorter_list)

DECODE(free_bits_count) {
    struct station_count c = { 11, 0 };
    return il == 256 && rl >= LONGEST && (i[0x4B] & 0x3F) ? c : RIGHT;
}
PUT(decode, free_bits_count)

DECODE(read_only_counts) {
    struct station_count c = { 11, 0 };
    return il == 256 && rl >= LONGEST && (i[0x4C] & 0x10) ? c : RIGHT;
}
PUT(decode, read_only_counts)

/* Is the image's CTS not that of the request in family 0? */
static int other_cts(const struct fields *f, const uint8_t *i) {
    return f->coherent && model_pair(f).cts != (uint32_t)(i[7] % 16 * 65536 + i[8] * 256 + i[9]);
}

DECODE(family_1) {
    struct station_count c = RIGHT;
    if (c.refusal) return c;
    struct fields f = asked(r, c.count);
    if (other_cts(&f, i)) {
        f.family = 1;
        model_bytes(&f, r);
    }
    return c;
}
PUT(decode, family_1)

DECODE(family_1_refused) {
    uint8_t back[LONGEST];
    if (il != 256 || rl < LONGEST) return RIGHT;
    struct station_count c = model_decode(i, 256, back, LONGEST);
    struct fields f = asked(back, c.count);
    return !c.refusal && other_cts(&f, i) ? (struct station_count){ 11, 0 } : RIGHT;
}
PUT(decode, family_1_refused)

/* An image as it was finished when Q was always 0. */
DECODE(no_range_is_limited) {
    uint8_t other[256];
    if (il != 256 || (i[0x55] & 0x60) || (i[0x57] & 0x0C)) return RIGHT;
    memcpy(other, i, 256);
    other[0x57] |= 0x04;
    other[0x54] -= 0x04;
    return model_decode(other, 256, r, rl);
}
PUT(decode, no_range_is_limited)

DECODE(range_dropped) {
    struct station_count c = RIGHT;
    if (c.refusal) return c;
    struct fields f = asked(r, c.count);
    f.range = 0;
    model_bytes(&f, r);
    return c;
}
PUT(decode, range_dropped)

DECODE(matrix_dropped) {
    struct station_count c = RIGHT;
    if (c.refusal) return c;
    struct fields f = asked(r, c.count);
    if (f.encoding == 0 && f.mode == 2) {
        f.matrix = 0;
        c.count = (uint32_t)model_bytes(&f, r);
    }
    return c;
}
PUT(decode, matrix_dropped)

DECODE(rest_cleared) {
    struct station_count c = RIGHT;
    if (!c.refusal) memset(r + c.count, 0, rl - c.count);
    return c;
}
PUT(decode, rest_cleared)

DECODE(refusal_writes) {
    struct station_count c = RIGHT;
    if (c.refusal == 11) r[1] = VIDEO_BYTES;
    return c;
}
PUT(decode, refusal_writes)

DECODE(short_buffer) {
    uint8_t back[LONGEST];
    if (il != 256 || rl != LONGEST - 1) return RIGHT;
    struct station_count c = model_decode(i, il, back, LONGEST);
    if (!c.refusal && c.count <= rl) memcpy(r, back, c.count);
    return c;
}
PUT(decode, short_buffer)

DECODE(sign_lost) {
    struct station_count c = RIGHT;
    if (!c.refusal && asked(r, c.count).matrix)
        for (uint32_t k = c.count - COEFFICIENT_BYTES; k < c.count; k += 2) r[k] &= 0x1F;
    return c;
}
PUT(decode, sign_lost)

DECODE(count_in_sections) {
    struct station_count c = RIGHT;
    if (!c.refusal) c.count = 3;
    return c;
}
PUT(decode, count_in_sections)

const struct wrong wrong_decodes[] = {
    { "decoding ignores a mandated bit (0xAF[2])", put_mandated_ignored, 0 },
    { "decoding ignores a Table 14 register (0xE0)", put_table_14_ignored, 0 },
    { "decoding ignores a reserved byte (0x7C)", put_reserved_byte_ignored, 0 },
    { "decoding ignores the AVI hold", put_hold_ignored, 0 },
    { "decoding takes a muted picture", put_muted_is_open, 0 },
    { "decoding by a list that leaves writes out", put_by_shorter_list, 0 },
    { "decoding minds free bits", put_free_bits_count, 0 },
    { "decoding minds read-only bits", put_read_only_counts, 0 },
    { "decoding answers family 1", put_family_1, 1 },
    { "decoding knows family 0 alone", put_family_1_refused, 1 },
    { "decoding answers range 0 for Q 0", put_no_range_is_limited, 0 },
    { "decoding answers range 0 for each Q", put_range_dropped, 1 },
    { "decoding drops a matrix of mode 2", put_matrix_dropped, 0 },
    { "decoding clears the rest of the buffer", put_rest_cleared, 0 },
    { "refusal 11 writes the buffer", put_refusal_writes, 0 },
    { "a buffer one byte too short accepted", put_short_buffer, 0 },
    { "a coefficient's sign lost", put_sign_lost, 0 },
    { "the decoded count counts sections", put_count_in_sections, 0 },
    { NULL, NULL, 0 },
};
