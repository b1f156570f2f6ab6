/* The chip machine: one write, and one rising edge of Vsync (document 02, request 04). */
#include "model.h"

int model_holds(uint8_t byte_4a) { return (byte_4a >> 6 & 1) + (byte_4a >> 5 & 1) + (byte_4a >> 4 & 1); }

static int held(const struct chip *c) { return c->image[0x1A] >> 5 & 1; }

/* A mark beside a raised hold counts for nothing. */
int model_waits(const struct chip *c) { return !held(c) && c->mark != 0; }

const uint8_t *model_matrix_in_use(const struct chip *c) {
    if (held(c)) return c->coefficients;
    if (model_waits(c)) return c->coefficients;
    return c->image + 0x18;
}

uint32_t model_run(struct chip *c, uint8_t address, uint8_t value) {
    const struct chip before = *c;
    uint8_t fixed = model_classes[address].read_only;       /* read-only bits never change */
    uint8_t byte = (uint8_t)((before.image[address] & fixed) | (value & ~fixed));

    if (model_holds(before.image[0x4A]) >= 2) return 13;
    if (address == 0x4A && model_holds(byte) >= 2) return 13;

    c->image[address] = byte;
    c->mark = before.mark != 0;                             /* it stays as it was, and is 0 or 1 from now on */

    int rises_4a = ~before.image[0x4A] & c->image[0x4A];
    if (rises_4a & 0x40)
        for (int i = 0; i < AVI_BYTES; i++) c->packet[i] = before.image[0x52 + i];
    if (rises_4a & 0x20)
        for (int i = 0; i < AUDIO_BYTES; i++) c->packet[i] = before.image[0x70 + i];
    if (rises_4a & 0x10) c->packet[0] = before.image[0x4B];

    if (held(&before) && !held(c)) c->mark = 1;             /* the change waits */
    if (!held(&before) && held(c)) {                        /* a change that waits is dropped: the buffer has what is in use */
        if (!model_waits(&before))
            for (int i = 0; i < COEFFICIENT_BYTES; i++) c->coefficients[i] = before.image[0x18 + i];
        c->mark = 0;
    }
    return 0;
}

/* The registers come into use as they stand: nothing is copied. */
void model_edge(struct chip *c) {
    if (model_waits(c)) c->mark = 0;
    c->mark = c->mark != 0;
}
