/* A colour meter's numbers as a matrix: document 02, request 07. A number is the 32 bits of a float. */
#include "check.h"
#include "lent.h"
#include <math.h>
#include <stdio.h>
#include <string.h>

/* By their own numbers, not the model's: twelve numbers, 25 bytes, and more room than that; the places of the offsets are 3, 7 and 11. */
enum { TWELVE = 12, BYTES = 25, LENT = 32, MODES = 3, LEAST = -4096, MOST = 4095, PAINT = 0x5A };
enum { INFINITE = 0x7F800000, FRACTIONS = 0x800000 };
static const uint32_t minus_zero = 0x80000000;
static int is_offset(int place) { return place == 3 || place == 7 || place == 11; }
static uint8_t paint[LENT];

static uint32_t bits_of(float number) {
    uint32_t bits;
    memcpy(&bits, &number, sizeof bits);
    return bits;
}

static void put_field(uint8_t *matrix, int place, int field) {
    matrix[1 + 2 * place] = (uint8_t)((unsigned)field >> 8);
    matrix[2 + 2 * place] = (uint8_t)field;
}

/* What was met: answers by mode or number, and of the ties and the limits both ways. */
static struct { uint32_t modes[MODES], refused[20], to_zero, away, next_mode, least, most, minus_zero; } met;

/* Of the very many a small part for the wrong libraries. */
static uint32_t very_many(uint32_t n) { return run.share < 1000 ? times(n) / 20 + 1 : n; }

/* A number of any sign and fraction with this exponent, 127 for 1. */
static uint32_t with_exponent(uint32_t exponent) {
    uint32_t sign = any(2), fraction = any(FRACTIONS);
    return sign << 31 | exponent << 23 | fraction;
}

/* Any number that fits a mode at a place, now and then a zero; and twelve of which those at other places fit no smaller mode. */
static uint32_t any_number(int place, int mode) {
    uint32_t number, largest = 126 + (is_offset(place) ? 13 : 0) + (uint32_t)mode;
    int field;
    do number = with_exponent(largest - any(18));
    while (!model_metered(number, place, mode, &field));
    return any(12) ? number : number & minus_zero;
}

static void any_numbers(uint32_t *numbers, int mode, int place) {
    static const int factors[] = { 0, 1, 2, 4, 5, 6, 8, 9, 10 };
    int large = factors[any(9)], field;
    while (large == place) large = factors[any(9)];
    for (int i = 0; i < TWELVE; i++) numbers[i] = any_number(i, mode);
    do if (mode) numbers[large] = with_exponent(126 + (uint32_t)mode);
    while (!model_metered(numbers[large], large, mode, &field));
}

/* Rows of calls on buffers that are lent once: of twelve numbers one is changed at a time. What the other eleven say in each mode is found
 * once. */
static struct row {
    uint32_t numbers[TWELVE], *lent;
    uint8_t *matrix, right[MODES][LENT];
    int place, fit[MODES], field;
} row;

static void begin_row(const uint32_t *numbers, int place) {
    row.place = place;
    memcpy(row.numbers, numbers, sizeof row.numbers);
    row.lent = (uint32_t *)(void *)lend(NUMBERS, (const uint8_t *)numbers, sizeof row.numbers, any(2) ? ENDS : BEGINS);
    row.matrix = lend(MATRIX, paint, LENT, any(2) ? ENDS : BEGINS);
    for (int mode = 0; mode < MODES; mode++) {
        memcpy(row.right[mode], paint, LENT);
        row.right[mode][0] = (uint8_t)mode;
        row.fit[mode] = 1;
        for (int i = 0; i < TWELVE; i++) {
            int field = 0;
            if (i != place && !model_metered(numbers[i], i, mode, &field)) row.fit[mode] = 0;
            put_field(row.right[mode], i, field);
        }
    }
}

/* What is wrong at the end of a row was so in it: nothing beside the buffers has moved, and the numbers are as they were lent. The last of
 * them once more by itself, with the whole of the model. */
static void end_row(void) {
    row.numbers[row.place] = row.lent[row.place];
    if (!holds(NUMBERS, (const uint8_t *)row.numbers)) differs("the numbers were changed");
    if (!holds(MATRIX, paint)) differs("bytes beside the matrix were changed");
    check_meter(row.numbers, TWELVE, paint, LENT);
}

/* Are the bytes the same? In words of eight, for there are very many of them. */
static inline int same_bytes(const uint8_t *a, const uint8_t *b) {
    uint64_t one[LENT / 8], other[LENT / 8];
    memcpy(one, a, LENT);
    memcpy(other, b, LENT);
    return ((one[0] ^ other[0]) | (one[1] ^ other[1]) | (one[2] ^ other[2]) | (one[3] ^ other[3])) == 0;
}

/* Calls, and compares with the answer that should be: a mode or the number of a refusal. */
static inline void called_as(uint32_t number, uint32_t right, const uint8_t *bytes) {
    uint32_t refusal = right < MODES ? 0 : right, count = right < MODES ? BYTES : 0;
    row.lent[row.place] = number;
    run.now->cases++;
    struct station_count got = run.f->meter((const float *)(const void *)row.lent, TWELVE, row.matrix, LENT);
    if (got.refusal != refusal || got.count != count)
        differs("%08x at %d: %u, count %u, not %u, %u", number, row.place, got.refusal, got.count, refusal, count);
    else if (!same_bytes(row.matrix, bytes))
        differs("%08x at %d: mode %d, %02x%02x, not %d, %02x%02x", number, row.place, row.matrix[0], row.matrix[1 + 2 * row.place],
                row.matrix[2 + 2 * row.place], bytes[0], bytes[1 + 2 * row.place], bytes[2 + 2 * row.place]);
    if (bytes != paint) memcpy(row.matrix, paint, LENT);
}

/* One number in the row's place, by the model. Answers the mode, or the refusal's number; the field is in the row. */
static uint32_t tried(uint32_t number) {
    uint32_t mode = 0;
    if (!model_finite(number)) {
        met.refused[18]++;
        called_as(number, 18, paint);
        return 18;
    }
    while (mode < MODES && !(row.fit[mode] && model_metered(number, row.place, (int)mode, &row.field))) mode++;
    if (mode == MODES) {
        met.refused[19]++;
        called_as(number, 19, paint);
        return 19;
    }
    put_field(row.right[mode], row.place, row.field);
    met.modes[mode]++;
    met.least += row.field == LEAST, met.most += row.field == MOST, met.minus_zero += number == minus_zero;
    called_as(number, mode, row.right[mode]);
    return mode;
}

/* Marked cases. --------------------------------------------------------------------------------------------------------------------- */

/* One number, and its field in each mode; NONE where it does not fit. */
enum { NONE = 9999, FACTOR = 0, OFFSET = 1 };
static const struct { int kind; float number; int field[MODES]; } marked[] = {
    { FACTOR, 0.0f, { 0, 0, 0 } },
    { FACTOR, -0.0f, { 0, 0, 0 } },
    { FACTOR, 0.25f, { 1024, 512, 256 } },
    { FACTOR, -0.25f, { -1024, -512, -256 } },
    { FACTOR, 0x0.8p-12f, { 0, 0, 0 } },                    /* 0.5, 1.5, 2.5, 3.5 and 4.5 units of mode 0: ties go to the even one */
    { FACTOR, 0x1.8p-12f, { 2, 1, 0 } },
    { FACTOR, 0x2.8p-12f, { 2, 1, 1 } },
    { FACTOR, 0x3.8p-12f, { 4, 2, 1 } },
    { FACTOR, 0x4.8p-12f, { 4, 2, 1 } },
    { FACTOR, -0x0.8p-12f, { 0, 0, 0 } },
    { FACTOR, -0x1.8p-12f, { -2, -1, 0 } },
    { FACTOR, -0x2.8p-12f, { -2, -1, -1 } },
    { FACTOR, -0x3.8p-12f, { -4, -2, -1 } },
    { FACTOR, 0x1p-12f, { 1, 0, 0 } },                      /* 1, 2 and 3 units: ties of the other modes */
    { FACTOR, 0x2p-12f, { 2, 1, 0 } },
    { FACTOR, 0x3p-12f, { 3, 2, 1 } },
    { FACTOR, 0x6p-12f, { 6, 3, 2 } },
    { FACTOR, 0xAp-12f, { 10, 5, 2 } },
    { FACTOR, -0x3p-12f, { -3, -2, -1 } },
    { FACTOR, -0x6p-12f, { -6, -3, -2 } },
    { FACTOR, 0x0.7FFFFF8p-12f, { 0, 0, 0 } },              /* the float before and the one after a tie */
    { FACTOR, 0x0.800001p-12f, { 1, 0, 0 } },
    { FACTOR, 0x1.7FFFFEp-12f, { 1, 1, 0 } },
    { FACTOR, 0x1.800002p-12f, { 2, 1, 0 } },
    { FACTOR, -0x0.800001p-12f, { -1, 0, 0 } },
    { FACTOR, -0x1.7FFFFEp-12f, { -1, -1, 0 } },
    { FACTOR, 0x0.FFFFFFp0f, { NONE, 2048, 1024 } },        /* the largest float below 1: it rounds to 4096 */
    { FACTOR, -0x0.FFFFFFp0f, { -4096, -2048, -1024 } },
    { FACTOR, 0x0.FFF8p0f, { NONE, 2048, 1024 } },          /* 4095.5 / 4096, a tie that goes to 4096 */
    { FACTOR, 0x0.FFF7FFp0f, { 4095, 2048, 1024 } },
    { FACTOR, 0x0.FFFp0f, { 4095, 2048, 1024 } },
    { FACTOR, 0x0.FFE8p0f, { 4094, 2047, 1024 } },
    { FACTOR, -0x0.FFF8p0f, { -4096, -2048, -1024 } },
    { FACTOR, -0x0.FFF7FFp0f, { -4095, -2048, -1024 } },
    { FACTOR, 1.0f, { NONE, 2048, 1024 } },                 /* not below 1 */
    { FACTOR, -1.0f, { NONE, -2048, -1024 } },
    { FACTOR, 0x1.000002p0f, { NONE, 2048, 1024 } },
    { FACTOR, -0x1.000002p0f, { NONE, -2048, -1024 } },
    { FACTOR, 1.5f, { NONE, 3072, 1536 } },
    { FACTOR, 0x1.FFFFFEp0f, { NONE, NONE, 2048 } },        /* the largest float below 2 */
    { FACTOR, -0x1.FFFFFEp0f, { NONE, -4096, -2048 } },
    { FACTOR, 0x1.FFFp0f, { NONE, NONE, 2048 } },           /* 4095.5 units of mode 1 */
    { FACTOR, 0x1.FFEFFEp0f, { NONE, 4095, 2048 } },
    { FACTOR, 0x1.FFEp0f, { NONE, 4095, 2048 } },
    { FACTOR, 2.0f, { NONE, NONE, 2048 } },
    { FACTOR, -2.0f, { NONE, NONE, -2048 } },
    { FACTOR, 3.0f, { NONE, NONE, 3072 } },
    { FACTOR, 0x3.FFFFFCp0f, { NONE, NONE, NONE } },        /* the largest float below 4: it rounds to 4096 */
    { FACTOR, -0x3.FFFFFCp0f, { NONE, NONE, -4096 } },
    { FACTOR, 0x3.FFEp0f, { NONE, NONE, NONE } },           /* 4095.5 units of mode 2 */
    { FACTOR, 0x3.FFDFFCp0f, { NONE, NONE, 4095 } },
    { FACTOR, 4.0f, { NONE, NONE, NONE } },
    { FACTOR, -4.0f, { NONE, NONE, NONE } },
    { FACTOR, 5.0f, { NONE, NONE, NONE } },
    { FACTOR, -5.0f, { NONE, NONE, NONE } },
    { FACTOR, 0x1p32f, { NONE, NONE, NONE } },
    { FACTOR, 0x1p64f, { NONE, NONE, NONE } },
    { FACTOR, -0x1.FFFFFEp127f, { NONE, NONE, NONE } },     /* the largest float */
    { FACTOR, 0x1.FFFFFEp127f, { NONE, NONE, NONE } },
    { FACTOR, 0x1p-126f, { 0, 0, 0 } },                     /* the smallest normal one, the largest and the smallest subnormal */
    { FACTOR, 0x0.FFFFFEp-126f, { 0, 0, 0 } },
    { FACTOR, 0x1p-149f, { 0, 0, 0 } },
    { FACTOR, -0x1p-149f, { 0, 0, 0 } },
    { OFFSET, 0.0f, { 0, 0, 0 } },
    { OFFSET, -0.0f, { 0, 0, 0 } },
    { OFFSET, 0.5f, { 0, 0, 0 } },
    { OFFSET, 1.0f, { 1, 0, 0 } },
    { OFFSET, 1.5f, { 2, 1, 0 } },
    { OFFSET, 2.0f, { 2, 1, 0 } },
    { OFFSET, 2.5f, { 2, 1, 1 } },
    { OFFSET, 3.0f, { 3, 2, 1 } },
    { OFFSET, 3.5f, { 4, 2, 1 } },
    { OFFSET, 6.0f, { 6, 3, 2 } },
    { OFFSET, 10.0f, { 10, 5, 2 } },
    { OFFSET, -0.5f, { 0, 0, 0 } },
    { OFFSET, -1.5f, { -2, -1, 0 } },
    { OFFSET, -2.5f, { -2, -1, -1 } },
    { OFFSET, -3.0f, { -3, -2, -1 } },
    { OFFSET, 0x0.7FFFFF8p0f, { 0, 0, 0 } },
    { OFFSET, 0x0.800001p0f, { 1, 0, 0 } },
    { OFFSET, -0x0.800001p0f, { -1, 0, 0 } },
    { OFFSET, 4094.5f, { 4094, 2047, 1024 } },
    { OFFSET, 4095.0f, { 4095, 2048, 1024 } },
    { OFFSET, 0xFFF.7FFp0f, { 4095, 2048, 1024 } },         /* the float before 4095.5 */
    { OFFSET, 4095.5f, { NONE, 2048, 1024 } },
    { OFFSET, 0xFFF.801p0f, { NONE, 2048, 1024 } },
    { OFFSET, 4096.0f, { NONE, 2048, 1024 } },
    { OFFSET, -4095.5f, { -4096, -2048, -1024 } },
    { OFFSET, -4096.0f, { -4096, -2048, -1024 } },
    { OFFSET, -0x1000.7FEp0f, { -4096, -2048, -1024 } },
    { OFFSET, -4096.5f, { -4096, -2048, -1024 } },
    { OFFSET, -0x1000.802p0f, { NONE, -2048, -1024 } },     /* the float after -4096.5 */
    { OFFSET, -4097.0f, { NONE, -2048, -1024 } },
    { OFFSET, -4099.0f, { NONE, -2050, -1025 } },
    { OFFSET, 8190.0f, { NONE, 4095, 2048 } },
    { OFFSET, 0x1FFE.FFEp0f, { NONE, 4095, 2048 } },        /* the float before 8191 */
    { OFFSET, 8191.0f, { NONE, NONE, 2048 } },
    { OFFSET, -8193.0f, { NONE, -4096, -2048 } },
    { OFFSET, -0x2001.004p0f, { NONE, NONE, -2048 } },      /* the float after -8193 */
    { OFFSET, 16380.0f, { NONE, NONE, 4095 } },
    { OFFSET, 0x3FFD.FFCp0f, { NONE, NONE, 4095 } },        /* the float before 16382 */
    { OFFSET, 16382.0f, { NONE, NONE, NONE } },
    { OFFSET, -16386.0f, { NONE, NONE, -4096 } },
    { OFFSET, -0x4002.008p0f, { NONE, NONE, NONE } },       /* the float after -16386 */
    { OFFSET, 0x1p32f, { NONE, NONE, NONE } },
    { OFFSET, 0x1p64f, { NONE, NONE, NONE } },
    { OFFSET, -0x1.FFFFFEp127f, { NONE, NONE, NONE } },
    { OFFSET, 0x1p-126f, { 0, 0, 0 } },
    { OFFSET, 0x1p-149f, { 0, 0, 0 } },
    { OFFSET, -0x0.FFFFFEp-126f, { 0, 0, 0 } },
};

/* A whole export, the answer by its own numbers, and by the model. */
static void answered(const uint32_t *numbers, uint32_t refusal, int mode, const int *fields, const char *what) {
    uint8_t right[LENT], matrix[LENT];
    memcpy(right, paint, LENT);
    memcpy(matrix, paint, LENT);
    if (!refusal) right[0] = (uint8_t)mode;
    for (int i = 0; i < TWELVE && !refusal; i++) put_field(right, i, fields[i]);
    check_meter(numbers, TWELVE, paint, LENT);
    struct station_count got = run.f->meter((const float *)(const void *)numbers, TWELVE, matrix, LENT);
    if (got.refusal != refusal || got.count != (refusal ? 0 : BYTES)) differs("%s: %u, count %u", what, got.refusal, got.count);
    else if (memcmp(matrix, right, LENT)) differs("%s: mode %d, another matrix", what, matrix[0]);
    if (refusal) met.refused[refusal]++;
    else met.modes[mode]++;
}

/* Each of them at each place of its kind, the others 0; and beside a factor of 1, of 2 or of -2, which asks for mode 1 or 2. */
static void marked_numbers(void) {
    static const struct { float number; int least, field[MODES]; } beside[] = {
        { 0.0f, 0, { 0, 0, 0 } }, { 1.0f, 1, { NONE, 2048, 1024 } }, { 2.0f, 2, { NONE, NONE, 2048 } }, { -2.0f, 2, { NONE, NONE, -2048 } },
    };
    for (size_t k = 0; k < sizeof marked / sizeof marked[0]; k++)
        for (int place = 0; place < TWELVE; place++) {
            if (is_offset(place) != marked[k].kind) continue;
            for (size_t b = 0; b < sizeof beside / sizeof beside[0]; b++) {
                uint32_t numbers[TWELVE] = { 0 };
                int fields[TWELVE] = { 0 }, mode = beside[b].least, other = place < 4 ? 10 : 0;
                char what[40];
                while (mode < MODES && marked[k].field[mode] == NONE) mode++;
                numbers[place] = bits_of(marked[k].number), numbers[other] = bits_of(beside[b].number);
                if (mode < MODES) fields[place] = marked[k].field[mode], fields[other] = beside[b].field[mode];
                met.next_mode += marked[k].number == 0x0.FFFFFFp0f && mode == 1;
                snprintf(what, sizeof what, "%g at %d beside %g", marked[k].number, place, beside[b].number);
                answered(numbers, mode < MODES ? 0 : 19, mode, fields, what);
            }
        }
}

static void marked_matrices(void) {
    static const struct { float numbers[TWELVE]; int mode, fields[TWELVE]; } whole[] = {
        /* The guide's Table 39: its bytes come back. */
        { { 3155 / 2048.0f, 1, 0, -3156, -938 / 2048.0f, 1, -376 / 2048.0f, 1314, -1 / 2048.0f, 1, 3717 / 2048.0f, -3716 },
          1, { 3155, 2048, 0, -1578, -938, 2048, -376, 657, -1, 2048, 3717, -1858 } },
        { { 0 }, 0, { 0 } },
        { { 1, 0, 0, 0, 0, 1, 0, 0, 0, 0, 1, 0 }, 1, { 2048, 0, 0, 0, 0, 2048, 0, 0, 0, 0, 2048, 0 } },
        /* Decimals as a meter has them: to 4:4:4 of limited range, and back from full and from limited range. */
        { { 0.439216f, -0.398942f, -0.040274f, 2048, 0.182586f, 0.614231f, 0.062007f, 256, -0.100644f, -0.338572f, 0.439216f, 2048 },
          0, { 1799, -1634, -165, 2048, 748, 2516, 254, 256, -412, -1387, 1799, 2048 } },
        { { 1.402f, 1, 0, -2871.296f, -0.714136f, 1, -0.344136f, 2167.362f, 0, 1, 1.772f, -3629.056f },
          1, { 2871, 2048, 0, -1436, -1463, 2048, -705, 1084, 0, 2048, 3629, -1815 } },
        { { 1.792741f, 1.164384f, 0, -3969.616f, -0.532909f, 1.164384f, -0.213249f, 1230.064f, 0, 1.164384f, 2.112402f, -4624.282f },
          2, { 1836, 1192, 0, -992, -546, 1192, -218, 308, 0, 1192, 2163, -1156 } },
        /* Twelve fields, none like another, so that each is known by its place. */
        { { 0x001p-12f, 0x102p-12f, 0x203p-12f, 0x304, -0x105p-12f, -0x206p-12f, -0x307p-12f, -0x408, 0x909p-12f, 0xA0Ap-12f, 0xB0Bp-12f,
            -3084 },
          0, { 0x001, 0x102, 0x203, 0x304, -0x105, -0x206, -0x307, -0x408, 0x909, 0xA0A, 0xB0B, -3084 } },
        /* The ends of the fields, in one mode each. */
        { { 0x0.FFFp0f, -0x0.FFF8p0f, 0x0.FFFp0f, 4095, -0x0.FFF8p0f, 0x0.FFFp0f, 0, -4096, 0, 0, -0x0.FFF8p0f, -4096.5f },
          0, { 4095, -4096, 4095, 4095, -4096, 4095, 0, -4096, 0, 0, -4096, -4096 } },
        { { 0x3.FFCp0f, -0x3.FFFFFCp0f, 0, 16380, 0, 0, 0, -16384, 0, 0, 0, -16386 },
          2, { 4095, -4096, 0, 4095, 0, 0, 0, -4096, 0, 0, 0, -4096 } },
        /* What does not fit mode 0 is one number alone, the last: an offset, and a factor that rounds to 4096. */
        { { 0.5f, 0.5f, 0.5f, 5, 0.5f, 0.5f, 0.5f, 3, 0.5f, 0.5f, 0.5f, 4095.5f },
          1, { 1024, 1024, 1024, 2, 1024, 1024, 1024, 2, 1024, 1024, 1024, 2048 } },
        { { 0.5f, 0.5f, 0.5f, 5, 0.5f, 0.5f, 0.5f, 3, 0.5f, 0.5f, 0x0.FFF8p0f, 7 },
          1, { 1024, 1024, 1024, 2, 1024, 1024, 1024, 2, 1024, 1024, 2048, 4 } },
    };
    for (size_t k = 0; k < sizeof whole / sizeof whole[0]; k++) {
        uint32_t numbers[TWELVE];
        char what[40];
        for (int i = 0; i < TWELVE; i++) numbers[i] = bits_of(whole[k].numbers[i]);
        snprintf(what, sizeof what, "matrix %zu", k);
        answered(numbers, 0, whole[k].mode, whole[k].fields, what);
    }
}

/* What is not a number or infinite, by its bits, at each place; and beside one that fits no mode, at each other place. */
static void marked_not_finite(void) {
    static const uint32_t not_finite[] = {
        0x7FC00000, 0xFFC00000, 0x7FFFFFFF, 0xFFFFFFFF, 0x7F800001, 0xFF800001, 0x7FBFFFFF, 0xFF812345, 0x7F800000, 0xFF800000,
    };
    for (size_t k = 0; k < sizeof not_finite / sizeof not_finite[0]; k++)
        for (int place = 0; place < TWELVE; place++)
            for (int other = 0; other < TWELVE; other++) {
                uint32_t numbers[TWELVE] = { 0 };
                if (other != place) numbers[other] = bits_of(other % 2 ? 20000.0f : -20000.0f);
                if (other != place && k % 2) answered(numbers, 19, 0, NULL, "too large");
                numbers[place] = not_finite[k];
                answered(numbers, 18, 0, NULL, other == place ? "not finite" : "not finite, and another too large");
            }
}

/* Every length of both slices: 5 before 10 before 18 before 19. */
static void every_length(void) {
    static const size_t more_numbers[] = { 256 + TWELVE, 1000 }, more_bytes[] = { 256 + BYTES - 1, 256 + BYTES, 600 };
    static uint32_t numbers[1000];
    static uint8_t matrix[600];
    memset(matrix, 0xA7, sizeof matrix);
    for (int kind = 0; kind < 4; kind++) {
        memset(numbers, 0, sizeof numbers);
        for (size_t i = 0; i < sizeof numbers / sizeof numbers[0]; i++) numbers[i] = bits_of(i % 4 == 3 ? -100.0f : 0.75f);
        if (kind & 1) numbers[1] = bits_of(4.0f);
        if (kind & 2) numbers[11] = bits_of(NAN);
        for (size_t n = 0; n < 27; n++)
            for (size_t m = 0; m < 44; m++) {
                size_t count = n < 25 ? n : more_numbers[n - 25], length = m < 41 ? m : more_bytes[m - 41];
                uint32_t right = count != TWELVE ? 5 : length < BYTES ? 10 : kind & 2 ? 18 : kind & 1 ? 19 : 0;
                if (count != TWELVE && length > 2 && passed_over(4)) continue;
                if (kind && count < 10 && passed_over(4)) continue;
                uint32_t refusal = check_meter(numbers, count, matrix, length).refusal;
                if (refusal != right) differs("%zu numbers, %zu bytes: %u, not %u", count, length, refusal, right);
                met.refused[right]++;
            }
    }
}

/* Near ties and limits. ------------------------------------------------------------------------------------------------------------- */

/* The tie between a field and the next one, in a mode, and two floats on either side of it. */
static void near_tie(int mode, int n) {
    int offset = is_offset(row.place), twos = mode - (offset ? 1 : 13);
    uint32_t tie = bits_of((float)(2 * n + 1)) + ((uint32_t)twos << 23);
    for (int step = -2; step <= 2; step++) {
        int rises = n >= 0 ? step : -step, even = n % 2 ? n + 1 : n, right = rises < 0 ? n : rises > 0 ? n + 1 : even;
        int below = offset || (n >= LEAST && n <= MOST), fits = below && right >= LEAST && right <= MOST;
        uint32_t answer = tried(tie + (uint32_t)step);
        if (fits ? answer != (uint32_t)mode || row.field != right : answer <= (uint32_t)mode)
            differs("%d and a half in mode %d, %d: answered %u, %d", n, mode, step, answer, row.field);
        if (step == 0 && fits && right == (n >= 0 ? n : n + 1)) met.to_zero++;
        if (step == 0 && fits && right == (n >= 0 ? n + 1 : n)) met.away++;
    }
}

/* Each tie once as a factor and once as an offset in each mode, at the places in turn. */
static void near_ties(void) {
    for (int mode = 0; mode < MODES; mode++)
        for (int place = 0; place < TWELVE; place++) {
            uint32_t numbers[TWELVE];
            int step = is_offset(place) ? 3 : 9, first = is_offset(place) ? place / 4 : place - place / 4;
            any_numbers(numbers, mode, place);
            begin_row(numbers, place);
            for (int n = LEAST - 1 + first; n <= MOST + 2; n += step)
                if (n < LEAST + 12 || n > MOST - 12 || (n > -12 && n < 12) || !passed_over(20)) near_tie(mode, n);
            end_row();
        }
}

/* 2^mode and its neighbours, the whole numbers and halves of the field's last units, at every place. */
static void near_limits(void) {
    for (int place = 0; place < TWELVE; place++)
        for (int mode = 0; mode < MODES; mode++) {
            uint32_t numbers[TWELVE];
            any_numbers(numbers, mode, place);
            begin_row(numbers, place);
            for (uint32_t sign = 0; sign < 2; sign++) {
                for (int power = 0; power < 16; power++)
                    for (uint32_t step = 0; step < 9; step++) tried((sign << 31 | bits_of((float)(1 << power))) + step - 4);
                for (int units = 4090 * 4; units < 4100 * 4; units++) {
                    uint32_t limit = bits_of((float)units) + ((uint32_t)(mode - (is_offset(place) ? 2 : 14)) << 23);
                    for (uint32_t step = 0; step < 3; step++) tried((sign << 31 | limit) + step - 1);
                }
            }
            end_row();
        }
}

/* Each exponent, with fractions at both ends and between, at every place. */
static void every_exponent(void) {
    for (int place = 0; place < TWELVE; place++) {
        uint32_t numbers[TWELVE];
        any_numbers(numbers, place % MODES, place);
        begin_row(numbers, place);
        for (uint32_t exponent = 0; exponent < 512; exponent++) {       /* with the sign */
            const uint32_t fractions[] = { 0, 1, 0x400000, 0x7FFFFF, any(FRACTIONS) };
            for (size_t k = 0; k < sizeof fractions / sizeof fractions[0]; k++) tried(exponent << 23 | fractions[k]);
        }
        end_row();
    }
}

/* What the bytes are good for. ------------------------------------------------------------------------------------------------------ */

/* Where a preview may lie: its exact sum, by the floats, half a unit of each field away, then rounded down and held. */
static void shown_near(const float *numbers, int mode, const uint32_t *codes, uint32_t shown, int output) {
    const float *k = numbers + 4 * output;
    double exact = (double)k[0] * codes[0] + (double)k[1] * codes[1] + (double)k[2] * codes[2] + (double)k[3];
    double far = (0.5 * (codes[0] + codes[1] + codes[2]) / 4096 + 0.5) * (1 << mode) + 1e-6, low = exact - far, high = exact + far;
    int least = low < 0 ? 0 : low > 4095 ? 4095 : (int)low, most = high < 0 ? 0 : high > 4095 ? 4095 : (int)high;
    if ((int)shown < least || (int)shown > most) differs("output %d of a preview is %u, not from %d to %d", output, shown, least, most);
}

/* The 25 bytes as a request's matrix section: N and CTS take it, and its image gives the same bytes back; the preview takes it, and shows
 * what the numbers say. */
static void taken(const uint32_t *numbers) {
    static const struct fields picture = { .vic = 16, .link = 1 };
    uint8_t matrix[BYTES], request[LONGEST], back[LONGEST], again[BYTES], image[256] = { 0 }, writes[256] = { 0 };
    uint32_t codes[3];
    float floats[TWELVE];
    struct fields f;
    memcpy(floats, numbers, sizeof floats);
    for (int k = 0; k < 3; k++) codes[k] = any(4096);
    run.now->cases++;
    if (run.f->meter(floats, TWELVE, matrix, BYTES).refusal) return;
    size_t length = model_bytes(&picture, request) + BYTES;
    request[length - BYTES - 1] = BYTES;
    memcpy(request + length - BYTES, matrix, BYTES);
    struct station_pair p = run.f->ncts(request, length);
    struct station_count c = run.f->plan(request, length, image, 256, writes, 256);
    if (p.refusal || c.refusal) {
        differs("a request with a meter's matrix is refused %u and %u", p.refusal, c.refusal);
        return;
    }
    if (model_read(request, length, &f) || f.mode != matrix[0]) differs("a meter's matrix is of mode %d", matrix[0]);
    for (int i = 0; i < TWELVE; i++) {
        int field;
        if (!model_metered(numbers[i], i, f.mode, &field) || field != f.coefficient[i])
            differs("field %d of a meter's matrix reads as %d", i, f.coefficient[i]);
    }
    for (int a = 0; a < 256; a++) image[a] = (uint8_t)left_in((uint8_t)a, image, writes, c);
    struct station_count m = run.f->matrix(image, 256, writes, COEFFICIENT_BYTES, 0, again, BYTES);
    if (m.refusal || memcmp(again, matrix, BYTES)) differs("a meter's matrix in use is another");
    m = run.f->decode(image, 256, back, sizeof back);
    if (m.refusal || m.count != length || memcmp(back, request, length)) differs("a request with a meter's matrix reads back otherwise");
    struct station_pixel s = run.f->preview(matrix, BYTES, codes[0], codes[1], codes[2]);
    if (s.refusal) differs("the preview refuses a meter's matrix: %u", s.refusal);
    shown_near(floats, matrix[0], codes, s.a, 0);
    shown_near(floats, matrix[0], codes, s.b, 1);
    shown_near(floats, matrix[0], codes, s.c, 2);
}

static void all_taken(void) {
    for (uint32_t i = times(6000); i > 0; i--) {
        uint32_t numbers[TWELVE];
        any_numbers(numbers, (int)(i % MODES), TWELVE);
        taken(numbers);
        check_meter(numbers, TWELVE, paint, BYTES + any(8));
    }
}

/* The model's own short cuts. ------------------------------------------------------------------------------------------------------- */

/* Whole numbers of 320 bits, the lowest first: every float is so many times 2^-149. */
enum { LIMBS = 10 };
struct wide { uint32_t limb[LIMBS]; };

static struct wide wide(uint32_t n, int twos) {
    struct wide w = { { 0 } };
    uint64_t shifted = (uint64_t)n << twos % 32;
    w.limb[twos / 32] = (uint32_t)shifted;
    if (twos / 32 + 1 < LIMBS) w.limb[twos / 32 + 1] = (uint32_t)(shifted >> 32);
    return w;
}

static int compared(const struct wide *a, const struct wide *b) {
    for (int i = LIMBS - 1; i >= 0; i--)
        if (a->limb[i] != b->limb[i]) return a->limb[i] < b->limb[i] ? -1 : 1;
    return 0;
}

static struct wide distance(const struct wide *a, const struct wide *b) {
    const struct wide *more = compared(a, b) < 0 ? b : a, *less = more == a ? b : a;
    struct wide w;
    uint64_t borrow = 0;
    for (int i = 0; i < LIMBS; i++) {
        uint64_t d = (uint64_t)more->limb[i] - less->limb[i] - borrow;
        w.limb[i] = (uint32_t)d;
        borrow = d >> 63;
    }
    return w;
}

/* The rule by itself: the field fits exactly where the factor is below 2^mode and a number from -4096 to 4095 is nearest, half a unit away
 * at the most, and the even one where it is exactly that. */
static void by_definition(uint32_t number, int place, int mode) {
    int exponent = number >> 23 & 0xFF, offset = is_offset(place), field = 0, fits = model_metered(number, place, mode, &field);
    uint32_t digits = (number & 0x7FFFFF) + (exponent ? FRACTIONS : 0), size = (uint32_t)(field < 0 ? -field : field);
    int twos = (exponent ? exponent : 1) - 1, one = 149 + mode;         /* over 2^-149: the size is digits 2^twos, and 2^mode is 2^one */
    const struct wide value = wide(digits, twos), limit = wide(1, one), doubled = wide(digits, twos + (offset ? 1 : 13));
    int below = offset || compared(&value, &limit) < 0;
    run.now->cases++;
    if (fits) {
        const struct wide of_field = wide(size, one + 1), apart = distance(&doubled, &of_field);    /* twice the distance, against a unit */
        int half = compared(&apart, &limit);
        if (!below || half > 0 || (half == 0 && size % 2)) differs("the model's field of %08x in mode %d is %d", number, mode, field);
        if (field && (field < 0) != (int)(number >> 31)) differs("the model's field of %08x has another sign", number);
    } else {
        const struct wide end = wide(number >> 31 ? 8193 : 8191, one);      /* twice 4096.5, itself inside, and 4095.5, itself outside */
        int beyond = compared(&doubled, &end);
        if (below && (number >> 31 ? beyond <= 0 : beyond < 0)) differs("the model has no field of %08x in mode %d", number, mode);
    }
}

static void short_cuts(void) {
    for (int exponent = 0; exponent < 255; exponent++)
        for (int place = 2; place < 4; place++)
            for (int mode = 0; mode < MODES; mode++)
                for (uint32_t sign = 0; sign < 2; sign++) {
                    const uint32_t fractions[] = { 0, 1, 0x3FFFFF, 0x400000, 0x400001, 0x7FE000, 0x7FFFFF, any(FRACTIONS), any(FRACTIONS) };
                    for (size_t k = 0; k < sizeof fractions / sizeof fractions[0]; k++)
                        if (!passed_over(10)) by_definition(sign << 31 | (uint32_t)exponent << 23 | fractions[k], place, mode);
                }
    for (int n = LEAST - 1; n <= MOST + 2; n++)
        for (int place = 2; place < 4; place++)
            for (int mode = 0; mode < MODES && !passed_over(20); mode++) {
                uint32_t tie = bits_of((float)(2 * n + 1)) + ((uint32_t)(mode - (place == 3 ? 1 : 13)) << 23);
                for (uint32_t step = 0; step < 3; step++) by_definition(tie + step - 1, place, mode);
            }
}

void meters(void) {
    seed(0x1C00000u);
    memset(paint, PAINT, sizeof paint);
    memset(&met, 0, sizeof met);
    marked_matrices();
    marked_numbers();
    marked_not_finite();
    every_length();
    near_limits();
    near_ties();
    every_exponent();
    all_taken();
    short_cuts();
}

/* Very many. ------------------------------------------------------------------------------------------------------------------------ */

/* Any 32 bits at one place, beside eleven that fit. */
static void noise(void) {
    enum { OF_A_ROW = 1000, ROWS = 10000 };
    static uint32_t drawn[OF_A_ROW];
    for (uint32_t i = 0; i < very_many(ROWS); i++) {
        uint32_t numbers[TWELVE];
        seed(0x1D00000u + i);
        any_numbers(numbers, (int)any(MODES), (int)(i % TWELVE));
        begin_row(numbers, (int)(i % TWELVE));
        any_bytes((uint8_t *)drawn, sizeof drawn);
        for (int k = 0; k < OF_A_ROW; k++) tried(drawn[k]);
        end_row();
    }
}

/* Twelve at a time, of sizes about the limits of a mode; some of them not finite. */
static void whole_noise(void) {
    for (uint32_t i = very_many(200000); i > 0; i--) {
        seed(0x1E00000u + i);
        uint32_t numbers[TWELVE], size = 126 + any(3), spread = 1 + any(20);
        for (int place = 0; place < TWELVE; place++) {
            numbers[place] = with_exponent(size + (is_offset(place) ? 13 : 0) - any(spread));
            if (any(4) == 0) numbers[place] &= 0xFFF80000;          /* few digits, so that ties come */
        }
        if (any(16) == 0) numbers[i % TWELVE] = with_exponent(255) & (any(2) ? 0xFF800000 : 0xFFFFFFFF);
        check_meter(numbers, TWELVE, paint, BYTES + any(8));
    }
}

/* Every pattern of bits that is not a number, each at one place, the places in turn. */
static void every_nan(void) {
    uint32_t step = TWELVE * (run.share < 1000 ? 1009 : 1);
    for (int place = 0; place < TWELVE; place++)
        for (uint32_t sign = 0; sign < 2; sign++) {
            uint32_t numbers[TWELVE], nan = sign << 31 | INFINITE;
            any_numbers(numbers, place % MODES, place);
            begin_row(numbers, place);
            for (uint32_t fraction = 1 + (uint32_t)place; fraction < FRACTIONS; fraction += step) {
                called_as(nan | fraction, 18, paint);
                met.refused[18]++;
            }
            end_row();
        }
}

void many_meters(void) {
    static const struct { const uint32_t *count; const char *what; } all[] = {
        { &met.modes[0], "mode 0" }, { &met.modes[1], "mode 1" }, { &met.modes[2], "mode 2" }, { &met.refused[5], "refused 5" },
        { &met.refused[10], "refused 10" }, { &met.refused[18], "refused 18" }, { &met.refused[19], "refused 19" },
        { &met.to_zero, "a tie to the even field that is nearer to 0" }, { &met.away, "a tie to the even field that is farther from 0" },
        { &met.next_mode, "a factor below 1 that rounds to 4096: mode 1" }, { &met.least, "a field of -4096" },
        { &met.most, "a field of 4095" }, { &met.minus_zero, "minus zero" },
    };
    noise();
    whole_noise();
    every_nan();
    if (run.share < 1000) return;
    for (size_t k = 0; k < sizeof all / sizeof all[0]; k++) never_met(*all[k].count, "exports", all[k].what);
}
