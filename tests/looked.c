/* What planning, decoding and the reading of a vendor's list look at: the registers of STATION_ROWS, and no other. By the library's own calls
 * alone: with any bytes in the other registers each answer is the same; and each register of the rows changes some list. */
#include "check.h"
#include <string.h>

static uint8_t looked[256];
static uint32_t changes[256];                           /* how often a change of a register was met that changed an answer */

static void mark_rows(void) {
    static const uint8_t rows[][2] = STATION_ROWS;
    memset(looked, 0, sizeof looked);
    for (size_t r = 0; r < sizeof rows / sizeof rows[0]; r++) memset(looked + rows[r][0], 1, rows[r][1]);
}

/* The same rows, and in the other registers noise, each bit turned over, what bring-up leaves there, or one bit turned over. */
static void otherwise(const uint8_t *image, uint8_t *other) {
    uint32_t how = any(4);
    uint8_t one = (uint8_t)any(256);
    while (looked[one]) one = (uint8_t)any(256);
    memcpy(other, image, 256);
    if (how == 0) other[one] ^= (uint8_t)(1 << any(8));
    for (int a = 0; a < 256 && how; a++) {
        const struct model_class *k = &model_classes[a];
        uint8_t noise = (uint8_t)any(256);
        if (looked[a]) continue;
        other[a] = how == 1 ? (uint8_t)~image[a] : how == 2 ? noise : (uint8_t)((noise & ~k->mandated) | k->bits);
    }
}

/* A planned list, with the whole buffer: 1 where it is the same on both images. */
static int same_plan(const uint8_t *request, size_t rl, const uint8_t *image, const uint8_t *other) {
    uint8_t on_one[256 + 8], on_other[256 + 8];
    size_t wl = any(16) ? sizeof on_one - any(9) : any(256);
    any_bytes(on_one, sizeof on_one);
    memcpy(on_other, on_one, sizeof on_one);
    struct station_count c = run.f->plan(request, rl, image, 256, on_one, wl), d = run.f->plan(request, rl, other, 256, on_other, wl);
    return c.refusal == d.refusal && c.count == d.count && !memcmp(on_one, on_other, sizeof on_one);
}

/* Free and read-only bits of the rows do not count in decoding. */
static void decoded(const uint8_t *image, uint8_t *other) {
    uint8_t on_one[LONGEST + 5], on_other[LONGEST + 5];
    for (int a = 0; a < 256; a++) {
        uint8_t counts = model_classes[a].named | model_classes[a].mandated;
        if (looked[a]) other[a] = (uint8_t)((image[a] & counts) | (any(256) & (uint32_t)~counts));
    }
    any_bytes(on_one, sizeof on_one);
    memcpy(on_other, on_one, sizeof on_one);
    struct station_count c = run.f->decode(image, 256, on_one, sizeof on_one), d = run.f->decode(other, 256, on_other, sizeof on_other);
    run.now->cases++;
    if (c.refusal != d.refusal || c.count != d.count || memcmp(on_one, on_other, sizeof on_one))
        differs("decoding, with other registers otherwise: %u, %u, and %u, %u", c.refusal, c.count, d.refusal, d.count);
}

static struct station_verdict vetted(const struct chip *c, const uint8_t *image, const struct pairs *l) {
    return run.f->vet(image, 256, c->packet, PACKET_BYTES, c->coefficients, COEFFICIENT_BYTES, c->mark, l->bytes, l->length);
}

/* The rows are what a list writes on registers of which all is wrong. */
static void rows_are_written(void) {
    uint8_t bytes[LONGEST], image[256] = { 0 }, list[256], written[256] = { 0 };
    finish(image, &example);
    for (int a = 0; a < 256; a++) image[a] = (uint8_t)~image[a];
    image[0x4A] &= 0x8F;
    uint32_t count = run.f->plan(bytes, model_bytes(&example, bytes), image, 256, list, sizeof list).count;
    run.now->cases++;
    for (uint32_t w = 0; w < count && w < 128; w++) written[list[2 * w]] = 1;
    for (int a = 0; a < 256; a++)
        if (written[a] != looked[a]) differs("0x%02X is %s", (unsigned)a, looked[a] ? "in a row, and not written" : "written, and in no row");
}

void what_is_looked_at(void) {
    static uint8_t request[4096];
    static struct pairs l;
    uint8_t image[256], other[256];
    struct fields f;
    struct chip c;
    mark_rows();
    memset(changes, 0, sizeof changes);
    rows_are_written();
    for (uint32_t i = times(60000); i > 0; i--) {
        seed(0x1700000u + i);
        any_fields(&f);
        size_t rl = any(8) ? model_bytes(&f, request) : any_request(request, sizeof request);
        if (any(2)) any_image(image);
        else near_image(image, &f);
        otherwise(image, other);
        run.now->cases++;
        if (!same_plan(request, rl, image, other)) differs("planning, with other registers otherwise");
        uint8_t a = (uint8_t)any(256);
        while (!looked[a]) a = (uint8_t)any(256);
        memcpy(other, image, 256);
        other[a] ^= (uint8_t)(1 + any(255));
        changes[a] += !same_plan(request, rl, image, other);
    }
    for (uint32_t i = times(60000); i > 0; i--) {
        seed(0x1800000u + i);
        any_image(image);
        if (any(2)) {
            accepted_fields(&f);
            otherwise(image, other);
            memcpy(image, other, 256);
            finish(image, &f);
        }
        otherwise(image, other);
        decoded(image, other);
    }
    for (uint32_t i = times(20000); i > 0; i--) {
        seed(0x1900000u + i);
        any_vendors(&c, &l);
        otherwise(c.image, other);
        struct station_verdict v = vetted(&c, c.image, &l), w = vetted(&c, other, &l);
        run.now->cases++;
        if (v.refusal != w.refusal || v.place != w.place)
            differs("a verdict, with other registers otherwise: %u, %u, and %u, %u", v.refusal, v.place, w.refusal, w.place);
    }
    if (run.share >= 1000) {
        uint32_t met = 0;
        for (int a = 0; a < 256; a++) {
            met += changes[a] != 0;
            if (looked[a] && !changes[a]) differs("0x%02X changes no list", (unsigned)a);
        }
        never_met(met, "registers", "each of which changes some list");
    }
}
