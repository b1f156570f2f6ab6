/* A colour meter's numbers as a matrix (document 02, request 07). A float is taken apart by its bits: it is a whole number times a power of
 * two, and every test is over whole numbers. No float is computed with. */
#include "model.h"

int model_finite(uint32_t number) { return (number >> 23 & 0xFF) != 0xFF; }

/* The size of a finite number, times 2^twos. Two sizes are held: one of 2^43 or more, which no mode takes whatever it is, and one below
 * 2^-16, which is nearest to 0 whatever it is. The harness tries both short cuts against whole numbers as long as it takes. */
struct fraction model_size(uint32_t number, int twos) {
    int exponent = number >> 23 & 0xFF;
    uint64_t digits = number & 0x7FFFFF;
    if (exponent == 0) exponent = 1;            /* subnormal */
    else digits += 0x800000;
    twos += exponent - 150;
    if (twos > 20) twos = 20;
    if (twos < -40) twos = -40;
    return twos < 0 ? (struct fraction){ digits, (uint64_t)1 << -twos } : (struct fraction){ digits << twos, 1 };
}

/* A whole number is a nearest one where its distance is half a unit at the most. */
static int is_nearest(uint64_t n, struct fraction f) {
    uint64_t distance = n * f.bottom > f.top ? n * f.bottom - f.top : f.top - n * f.bottom;
    return 2 * distance <= f.bottom;
}

static int64_t nearest(struct fraction f) {
    uint64_t n = f.top / f.bottom;
    int lower = is_nearest(n, f), upper = is_nearest(n + 1, f);
    if (lower && upper) return (int64_t)(n % 2 ? n + 1 : n);        /* a tie: the even one */
    return (int64_t)(lower ? n : n + 1);
}

int model_is_offset(int place) { return place % 4 == 3; }

int model_metered(uint32_t number, int place, int mode, int *field) {
    struct fraction size = model_size(number, 0);
    int offset = model_is_offset(place);
    if (!offset && size.top >= size.bottom << mode) return 0;       /* a factor is below 2^mode */
    int64_t n = nearest(model_size(number, (offset ? 0 : 12) - mode));
    if (number >> 31) n = -n;
    *field = (int)n;
    return n >= -4096 && n <= 4095;
}

uint32_t model_matrix_of(const uint32_t *numbers, int *mode, int *fields) {
    for (int i = 0; i < 12; i++)
        if (!model_finite(numbers[i])) return 18;
    for (*mode = 0; *mode <= 2; ++*mode) {
        int fit = 0;
        for (int i = 0; i < 12; i++) fit += model_metered(numbers[i], i, *mode, &fields[i]);
        if (fit == 12) return 0;
    }
    return 19;
}
