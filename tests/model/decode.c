/* Decoding, as document 01 has it: is there a request, in one of its families, that ends in this image? Every request is tried whose fields
 * are as the image shows them; the harness tries the others too, and that none of them stands. The matrix and the sync values are read off
 * the image in any case, since no other values of them could stand there. Where the bits that 861-E has are 0, D is answered (document 02,
 * request 11). */
#include "model.h"

static int ends_in(const struct fields *f, const uint8_t *image) {
    uint8_t bytes[LONGEST], wanted[IMAGE_BYTES];
    struct fields again;
    if (model_read(bytes, model_bytes(f, bytes), &again) != 0) return 0;
    struct pair p = model_pair(f);
    if (!p.exists) return 0;
    model_wanted(f, p, wanted);
    return model_stands(wanted, image);
}

/* The fields from a row on, each with the values that it could have. */
static int tried(const uint8_t *image, int row, uint32_t free, struct fields *f) {
    if (row == FIELDS) return ends_in(f, image);
    const struct field *k = &model_fields[row];
    if (!model_has(f, k->section) || k->section == OF_MATRIX) return tried(image, row + 1, free, f);
    int shown = k->shown(image), every = (free >> row & 1) || shown == NO_REGISTER;
    for (int v = 0; v < k->count; v++) {
        if (!every && k->values[v] != shown) continue;
        *model_field(f, k) = k->values[v];
        if (tried(image, row + 1, free, f)) return 1;
    }
    return 0;
}

int model_ends(const uint8_t *image, uint32_t free, struct fields *f) {
    static const int wirings[] = { NO_WIRING, WIRING_BYTES, WIRING_BYTES + SYNC_BYTES };
    int input = image[0x15] & 15;
    for (int sections = 0; sections < 4 * 3; sections++) {
        *f = (struct fields){ .sound = sections & 1, .matrix = sections >> 1 & 1, .wiring = wirings[sections >> 2] };
        int shown = f->sound == (image[0x44] >> 5 & 1) && f->matrix == image[0x18] >> 7 && input <= 8 && f->wiring == model_wiring_of(input);
        if (!(free & SECTIONS_FREE) && !shown) continue;
        if (f->wiring > WIRING_BYTES) model_syncs_shown(image + SYNCS_AT, f->sync);
        if (f->matrix) {
            f->mode = image[0x18] >> 5 & 3;
            for (int i = 0; i < 12; i++) {
                int field = (image[0x18 + 2 * i] & 0x1F) * 256 + image[0x19 + 2 * i];
                f->coefficient[i] = field < 4096 ? field : field - 8192;
            }
        }
        if (tried(image, 0, free, f)) {
            model_answer(f, image);
            return 1;
        }
    }
    return 0;
}
