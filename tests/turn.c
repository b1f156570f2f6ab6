/* Vsync and the waiting mark: document 02, request 04. */
#include "check.h"
#include <stdio.h>
#include <string.h>

/* By their own numbers, not the model's. A1's low byte is 0x11 in the registers and 0x22 in the buffer; the hold and the mark are as given.
 * Then, a letter each: U raises the hold, D lowers it (where it is so already, the write leaves it alone); V is a Vsync; c writes 0x33 to
 * A1; w writes elsewhere. At the end A1's low byte in use, in the registers, in the buffer, and the mark. */
static const struct { uint8_t hold, mark; const char *steps; uint8_t in_use, registers, buffer, left; } by_hand[] = {
    { 0, 0, "", 0x11, 0x11, 0x22, 0 },          /* what is in use */
    { 0, 1, "", 0x22, 0x11, 0x22, 1 },
    { 0, 2, "", 0x22, 0x11, 0x22, 2 },
    { 0, 255, "", 0x22, 0x11, 0x22, 255 },
    { 1, 0, "", 0x22, 0x11, 0x22, 0 },
    { 1, 7, "", 0x22, 0x11, 0x22, 7 },
    { 0, 0, "V", 0x11, 0x11, 0x22, 0 },         /* Vsync */
    { 0, 1, "V", 0x11, 0x11, 0x22, 0 },
    { 0, 2, "V", 0x11, 0x11, 0x22, 0 },
    { 0, 255, "V", 0x11, 0x11, 0x22, 0 },
    { 0, 1, "VV", 0x11, 0x11, 0x22, 0 },
    { 1, 0, "V", 0x22, 0x11, 0x22, 0 },         /* beside a raised hold */
    { 1, 1, "V", 0x22, 0x11, 0x22, 1 },
    { 1, 7, "V", 0x22, 0x11, 0x22, 1 },
    { 1, 7, "w", 0x22, 0x11, 0x22, 1 },
    { 1, 0, "U", 0x22, 0x11, 0x22, 0 },
    { 1, 255, "U", 0x22, 0x11, 0x22, 1 },
    { 1, 0, "c", 0x22, 0x33, 0x22, 0 },
    { 1, 0, "cV", 0x22, 0x33, 0x22, 0 },
    { 0, 7, "w", 0x22, 0x11, 0x22, 1 },         /* a wait goes on, whatever else is written */
    { 0, 2, "D", 0x22, 0x11, 0x22, 1 },
    { 0, 0, "D", 0x11, 0x11, 0x22, 0 },
    { 0, 1, "c", 0x22, 0x33, 0x22, 1 },
    { 0, 0, "c", 0x33, 0x33, 0x22, 0 },
    { 0, 0, "U", 0x11, 0x11, 0x11, 0 },         /* a rise copies, but not in a wait */
    { 0, 1, "U", 0x22, 0x11, 0x22, 0 },
    { 0, 2, "U", 0x22, 0x11, 0x22, 0 },
    { 0, 1, "VU", 0x11, 0x11, 0x11, 0 },
    { 0, 1, "cU", 0x22, 0x33, 0x22, 0 },
    { 0, 1, "UV", 0x22, 0x11, 0x22, 0 },
    { 1, 0, "D", 0x22, 0x11, 0x22, 1 },         /* a fall waits */
    { 1, 1, "D", 0x22, 0x11, 0x22, 1 },
    { 1, 255, "D", 0x22, 0x11, 0x22, 1 },
    { 1, 0, "DV", 0x11, 0x11, 0x22, 0 },
    { 1, 0, "cD", 0x22, 0x33, 0x22, 1 },
    { 1, 0, "cDV", 0x33, 0x33, 0x22, 0 },
    { 1, 0, "VD", 0x22, 0x11, 0x22, 1 },        /* a Vsync before the fall is not its Vsync */
    { 1, 0, "DcV", 0x33, 0x33, 0x22, 0 },       /* the registers as they then stand */
    { 1, 0, "DVc", 0x33, 0x33, 0x22, 0 },       /* and as they stand later */
    { 1, 0, "Dw", 0x22, 0x11, 0x22, 1 },
    { 1, 0, "DU", 0x22, 0x11, 0x22, 0 },        /* lowered and raised again: the old ones stay */
    { 1, 0, "DUV", 0x22, 0x11, 0x22, 0 },
    { 1, 0, "DcU", 0x22, 0x33, 0x22, 0 },
    { 1, 0, "DUD", 0x22, 0x11, 0x22, 1 },
    { 1, 0, "DUDV", 0x11, 0x11, 0x22, 0 },
    { 1, 0, "DVU", 0x11, 0x11, 0x11, 0 },
    { 1, 0, "DVUcD", 0x11, 0x33, 0x11, 1 },
    { 0, 0, "UcDV", 0x33, 0x33, 0x11, 0 },
    { 0, 0, "UcDU", 0x11, 0x33, 0x11, 0 },
    { 0, 0, "UD", 0x11, 0x11, 0x11, 1 },        /* no coefficient differs, and it waits */
    { 0, 0, "UDc", 0x11, 0x33, 0x11, 1 },
};

static uint32_t one_step(struct chip *c, char step) {
    if (step == 'V')
        return run.f->vsync(c->image, IMAGE_BYTES, c->packet, PACKET_BYTES, c->coefficients, COEFFICIENT_BYTES, &c->mark, MARK_BYTES);
    uint8_t address = step == 'c' ? 0x19 : step == 'w' ? 0x4A : 0x1A, value = step == 'c' ? 0x33 : step == 'U' ? 0x20 : 0;
    return run.f->write(c->image, IMAGE_BYTES, c->packet, PACKET_BYTES, c->coefficients, COEFFICIENT_BYTES, &c->mark, MARK_BYTES, address,
                        value);
}

static void marked_turns(void) {
    for (size_t i = 0; i < sizeof by_hand / sizeof by_hand[0]; i++) {
        struct chip c = { .mark = by_hand[i].mark };
        uint8_t matrix[MATRIX_BYTES] = { 0 };
        uint32_t refusal = 0;
        c.image[0x1A] = by_hand[i].hold ? 0x20 : 0, c.image[0x19] = 0x11, c.coefficients[1] = 0x22;
        run.now->cases++;
        for (const char *step = by_hand[i].steps; *step; step++) refusal += one_step(&c, *step);
        refusal += run.f->matrix(c.image, IMAGE_BYTES, c.coefficients, COEFFICIENT_BYTES, c.mark, matrix, sizeof matrix).refusal;
        if (refusal || matrix[2] != by_hand[i].in_use || c.image[0x19] != by_hand[i].registers || c.coefficients[1] != by_hand[i].buffer ||
            c.mark != by_hand[i].left)
            differs("hold %d, mark %d, then '%s': %02x in use, %02x in the registers, %02x in the buffer, mark %d", by_hand[i].hold,
                    by_hand[i].mark, by_hand[i].steps, matrix[2], c.image[0x19], c.coefficients[1], c.mark);
    }
}

/* Every mark beside a hold that is up and one that is down: Vsync, the view, and writes that raise, lower or leave the hold, write a
 * coefficient, or another register; with no packet hold up, one, or two (which Vsync and the view do not mind). */
static void every_mark(void) {
    static const uint8_t pairs[][2] = { { 0x1A, 0x20 }, { 0x1A, 0x00 }, { 0x1A, 0xFF }, { 0x1A, 0xDF }, { 0x18, 0xA5 }, { 0x2F, 0x5A },
                                        { 0x4A, 0x20 }, { 0x4A, 0x00 }, { 0x4B, 0x80 }, { 0x4B, 0x40 }, { 0x17, 0x20 }, { 0x35, 0x20 } };
    static const uint8_t holds[] = { 0x00, 0x20, 0x60, 0x70 };
    uint8_t matrix[MATRIX_BYTES] = { 0 };
    struct chip c;
    seed(0x1600000u);
    for (int mark = 0; mark < 256; mark += run.share < 1000 && mark > 8 && mark < 250 ? 13 : 1)
        for (int k = 0; k < 8; k++) {
            any_start(&c);
            c.image[0x1A] = (uint8_t)((c.image[0x1A] & 0xDF) | (k % 2 ? 0x20 : 0));
            c.image[0x4A] = (uint8_t)((c.image[0x4A] & 0x8F) | holds[k / 2]);
            c.mark = (uint8_t)mark;
            struct slices s = slices_of(&c);
            check_vsync(&s);
            check_matrix(&s, matrix, sizeof matrix);
            for (size_t p = 0; p < sizeof pairs / sizeof pairs[0]; p++) check_write(&s, pairs[p][0], pairs[p][1]);
        }
}

/* Writes and Vsync events in a row, on the library's machine and on the model's, by turns: a call may not remember what came before. */
static void same_run(struct chip *c) {
    struct chip model = *c;
    uint8_t matrix[MATRIX_BYTES];
    for (uint32_t n = 4 + any(40); n > 0; n--) {
        static const uint8_t often[] = { 0x1A, 0x1A, 0x1A, 0x19, 0x18, 0x2F, 0x4A, 0x4B };
        uint8_t address = any(8) ? often[any(sizeof often)] : (uint8_t)any(256), value = (uint8_t)any(256);
        uint32_t got = 0, want = 0;
        run.now->cases++;
        if (any(3) == 0) got = !turned(c), model_edge(&model);
        else {
            const uint8_t pair[2] = { address, value };
            got = !sent_to(c, pair, 0, 1), want = model_run(&model, address, value) != 0;
        }
        struct slices s = slices_of(c);
        any_bytes(matrix, sizeof matrix);
        check_matrix(&s, matrix, sizeof matrix);
        if (got != want || memcmp(c->image, model.image, 256) || memcmp(c->packet, model.packet, PACKET_BYTES) ||
            memcmp(c->coefficients, model.coefficients, COEFFICIENT_BYTES) || c->mark != model.mark)
            differs("another state in a row of writes and Vsync events");
        *c = model;
    }
}

void turns(void) {
    struct chip c;
    marked_turns();
    every_mark();
    for (uint32_t i = times(60000); i > 0; i--) {
        seed(0x1700000u + i);
        any_chip(&c);
        struct slices s = any_lengths(&c);
        check_vsync(&s);
    }
    for (uint32_t i = times(6000); i > 0; i--) {
        seed(0x1800000u + i);
        any_start(&c);
        same_run(&c);
    }
}
