/* Wrong chip machines. */
#include "wrong.h"

#define WRITE(name) static uint32_t name(WRITE_ARGUMENTS)
#define RIGHT model_write(i, il, p, pl, c, cl, m, ml, address, value)

WRITE(copy_after) {
    int was_up = il == 256 && (i[0x1A] & 0x20);
    uint32_t refusal = RIGHT;
    if (!refusal && address == 0x1A && !was_up && (value & 0x20)) memcpy(c, i + 0x18, 24);
    return refusal;
}
PUT(write, copy_after)

WRITE(read_only_written) {
    uint32_t refusal = RIGHT;
    if (!refusal && address == 0xC7) i[0xC7] = value;
    return refusal;
}
PUT(write, read_only_written)

WRITE(fills_on_fall) {
    int was_up = il == 256 && (i[0x4A] & 0x40);
    uint32_t refusal = RIGHT;
    if (!refusal && address == 0x4A && was_up && !(value & 0x40)) memcpy(p, i + 0x52, 16);
    return refusal;
}
PUT(write, fills_on_fall)

WRITE(fills_while_up) {
    int was_up = il == 256 && (i[0x4A] & 0x20);
    uint32_t refusal = RIGHT;
    if (!refusal && address == 0x4A && was_up && (value & 0x20)) memcpy(p, i + 0x70, 13);
    return refusal;
}
PUT(write, fills_while_up)

WRITE(two_holds_left) {
    uint32_t refusal = RIGHT;
    if (refusal == 13 && address == 0x4A && model_holds(i[0x4A]) < 2) {
        i[0x4A] = value;
        return 0;
    }
    return refusal;
}
PUT(write, two_holds_left)

WRITE(gc_hold_not_counted) {
    uint32_t refusal = RIGHT;
    if (refusal == 13 && (i[0x4A] & 0x70) == 0x30 && address != 0x4A) {
        i[address] = (uint8_t)((i[address] & model_classes[address].read_only) | (value & ~model_classes[address].read_only));
        return 0;
    }
    return refusal;
}
PUT(write, gc_hold_not_counted)

WRITE(refusal_writes) {
    uint32_t refusal = RIGHT;
    if (refusal == 13) i[address] = value;
    return refusal;
}
PUT(write, refusal_writes)

WRITE(rest_of_packet_cleared) {
    int was_up = il == 256 && (i[0x4A] & 0x20);
    uint32_t refusal = RIGHT;
    if (!refusal && address == 0x4A && !was_up && (value & 0x20)) memset(p + 13, 0, 19);
    return refusal;
}
PUT(write, rest_of_packet_cleared)

WRITE(gc_packet_of_seven) {
    int was_up = il == 256 && (i[0x4A] & 0x10);
    uint32_t refusal = RIGHT;
    if (!refusal && address == 0x4A && !was_up && (value & 0x10)) memcpy(p, i + 0x4B, 7);
    return refusal;
}
PUT(write, gc_packet_of_seven)

WRITE(packet_of_31) { return pl == 31 ? 0 : RIGHT; }
PUT(write, packet_of_31)

WRITE(nothing_written) {
    (void)i, (void)il, (void)p, (void)pl, (void)c, (void)cl, (void)m, (void)ml, (void)address, (void)value;
    return 0;
}
PUT(write, nothing_written)

const struct wrong wrong_machines[] = {
    { "the copy taken after the write", put_copy_after, 1 },
    { "read-only bits written (0xC7)", put_read_only_written, 0 },
    { "the buffer filled when a hold falls", put_fills_on_fall, 0 },
    { "the buffer filled again while the hold is up", put_fills_while_up, 1 },
    { "a write that leaves two holds up accepted", put_two_holds_left, 0 },
    { "the GC hold not counted", put_gc_hold_not_counted, 0 },
    { "refusal 13 writes the image", put_refusal_writes, 0 },
    { "the rest of the packet buffer cleared", put_rest_of_packet_cleared, 0 },
    { "a GC packet of seven bytes", put_gc_packet_of_seven, 0 },
    { "a packet buffer of 31 bytes accepted", put_packet_of_31, 0 },
    { "nothing written", put_nothing_written, 1 },
    { NULL, NULL, 0 },
};
