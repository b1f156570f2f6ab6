/* The table of fields.h as an array, and what is read off a row. */
#include "model.h"

static const int numbers[VALUES] = { 0, 1, 2, 3, 4, 5, 6, 7, 8, 9, 10, 11, 12, 13, 14, 15 }, two_or_eight[] = { 2, 8 };
static const int inputs[] = { 1, 2, 3, 4, 5, 6, 7, 8 }, one_to_three[] = { 1, 2, 3 };

static int rate_of_code(int code) {
    for (int r = 0; r < RATES; r++)
        if (model_rate_codes[r] == code) return r;
    return NO_VALUE;
}

static int depth_of_code(int code) {
    for (int d = 0; d < DEPTHS; d++)
        if (model_depth_codes[d] == code) return d;
    return NO_VALUE;
}

/* Of RGB, 1 is limited and 2 is full; YCbCr has 0, and its range is 0. */
static int range_of_q(int encoding, int q) {
    if (encoding != 0) return q == 0 ? 0 : NO_VALUE;
    return q == 1 ? 0 : q == 2 ? 1 : NO_VALUE;
}

#define SHOWN(section, byte, low, bits, name, values, shown) \
    static int shown_##name(const uint8_t *image) { return (void)image, shown; }
MODEL_FIELDS(SHOWN)

#define ONE_OF(list) sizeof list / sizeof *list, list
#define BELOW(n) n, numbers
#define ROW(section, byte, low, bits, name, values, shown) { section, byte, low, bits, offsetof(struct fields, name), values, shown_##name },
const struct field model_fields[FIELDS] = { MODEL_FIELDS(ROW) };

int *model_field(struct fields *f, const struct field *row) { return (int *)((char *)f + row->at); }

int model_has(const struct fields *f, enum part s) {
    return s == OF_VIDEO || (s == OF_WIRING && f->wiring != NO_WIRING) || (s == OF_SOUND && f->sound) || (s == OF_MATRIX && f->matrix);
}

int model_allows(const struct field *row, int value) {
    for (int i = 0; i < row->count; i++)
        if (row->values[i] == value) return 1;
    return 0;
}

int model_asks_of_e(const struct fields *f) { return f->quantisation != 0 || f->content != 0; }

void model_answer(struct fields *f, const uint8_t *image) {
    for (const struct field *row = model_fields; row < model_fields + FIELDS; row++)
        if (row->shown(image) == NO_REGISTER) *model_field(f, row) = 0;
    if (!model_asks_of_e(f)) f->edition = 0;
}
