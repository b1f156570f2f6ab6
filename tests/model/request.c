/* The request: four sections, each after a one-byte count, and refusals 1 to 6, 17 and 20. */
#include "model.h"

const int model_counts[PARTS] = { WIRING_BYTES + SYNC_BYTES, VIDEO_BYTES, SOUND_BYTES, MATRIX_BYTES };

int model_coefficient(const uint8_t *two) {
    int value = two[0] * 256 + two[1];
    return value < 32768 ? value : value - 65536;
}

/* Of the video section its count alone; of the others 0 too, and of a wiring also the four fields without sync values. */
int model_allowed(enum part s, int count) {
    return count == model_counts[s] || (s != OF_VIDEO && count == 0) || (s == OF_WIRING && count == WIRING_BYTES);
}

int model_count(const struct fields *f, enum part s) { return s == OF_WIRING ? f->wiring : model_has(f, s) ? model_counts[s] : 0; }

/* "YCbCr input needs a matrix only for RGB output", and RGB input for any other output: where the two are of different kinds. */
static int converts(const struct fields *f) { return model_rgb_input(f->input) != (f->encoding == 0); }

uint32_t model_read(const uint8_t *request, size_t length, struct fields *f) {
    const uint8_t *body[PARTS];
    int count[PARTS];
    size_t at = 0;

    /* 1 and 2: count present, count allowed, body present, section by section. */
    for (int s = 0; s < PARTS; s++) {
        if (at >= length) return 1;
        count[s] = request[at++];
        if (!model_allowed((enum part)s, count[s])) return 2;
        if (length - at < (size_t)count[s]) return 1;
        body[s] = request + at;
        at += (size_t)count[s];
    }
    if (at != length) return 3;

    *f = (struct fields){ .wiring = count[OF_WIRING], .sound = count[OF_SOUND] != 0, .matrix = count[OF_MATRIX] != 0 };
    for (const struct field *row = model_fields; row < model_fields + FIELDS; row++)
        if (model_has(f, row->section)) *model_field(f, row) = body[row->section][row->byte] >> row->low & ((1 << row->bits) - 1);
    for (int i = 0; f->wiring > WIRING_BYTES && i < SYNCS; i++)
        f->sync[i] = body[OF_WIRING][WIRING_BYTES + 2 * i] * 256 + body[OF_WIRING][WIRING_BYTES + 2 * i + 1];
    for (int i = 0; f->matrix && i < 12; i++) f->coefficient[i] = model_coefficient(body[OF_MATRIX] + MODE_BYTES + 2 * i);

    if (!model_offers(f->vic, f->family)) return 4;

    for (const struct field *row = model_fields; row < model_fields + FIELDS; row++)
        if (model_has(f, row->section) && !model_allows(row, *model_field(f, row))) return 5;
    for (int i = 0; i < 12; i++)
        if (f->coefficient[i] < -4096 || f->coefficient[i] > 4095) return 5;
    if (!model_wired(f)) return 5;

    if (converts(f) && !f->matrix) return 6;
    if (f->link == 0 && (f->sound || f->encoding != 0)) return 6;
    if (f->encoding != 0 && f->range != 0) return 6;
    if (f->depth != 0 && (f->encoding == 1 || f->link == 0)) return 6;
    if (f->edition == 0 && model_asks_of_e(f)) return 6;

    if (model_above_limit(model_clock(f->vic, f->family, f->depth, f->repetition))) return 17;      /* after 6, before 7 */
    if (f->sound && !model_fits(model_timing(f->vic), f->repetition, model_rate(f->rate), f->channels)) return 20;
    return 0;
}

size_t model_bytes(const struct fields *f, uint8_t *request) {
    struct fields g = *f;
    uint8_t *body[PARTS];
    size_t n = 0;
    for (int s = 0; s < PARTS; s++) {
        int count = model_count(f, (enum part)s);
        request[n++] = (uint8_t)count;
        body[s] = request + n;
        for (int i = 0; i < count; i++) request[n++] = 0;
    }
    for (const struct field *row = model_fields; row < model_fields + FIELDS; row++) {
        int value = *model_field(&g, row) & ((1 << row->bits) - 1);
        if (model_has(f, row->section)) body[row->section][row->byte] |= (uint8_t)(value << row->low);
    }
    for (int i = 0; f->wiring > WIRING_BYTES && i < SYNCS; i++) {
        body[OF_WIRING][WIRING_BYTES + 2 * i] = (uint8_t)(f->sync[i] >> 8);
        body[OF_WIRING][WIRING_BYTES + 2 * i + 1] = (uint8_t)f->sync[i];
    }
    for (int i = 0; f->matrix && i < 12; i++) {
        unsigned two = (unsigned)f->coefficient[i];
        body[OF_MATRIX][MODE_BYTES + 2 * i] = (uint8_t)(two >> 8);
        body[OF_MATRIX][MODE_BYTES + 2 * i + 1] = (uint8_t)two;
    }
    return n;
}
