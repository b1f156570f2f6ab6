/* The preview: three codes through a matrix. Exact arithmetic, rounded down once at the end, held within 0 to 4095. */
#include "model.h"

static uint32_t code(const int *k, int mode, int64_t a, int64_t b, int64_t c) {
    int64_t over_4096 = (a * k[0] + b * k[1] + c * k[2] + 4096 * (int64_t)k[3]) * (1 << mode);
    int64_t whole = over_4096 / 4096;
    if (over_4096 % 4096 < 0) whole--;
    return whole < 0 ? 0 : whole > 4095 ? 4095 : (uint32_t)whole;
}

struct station_pixel model_preview(const uint8_t *matrix, size_t length, uint32_t a, uint32_t b, uint32_t c) {
    int k[12];
    if (length != MATRIX_BYTES || matrix[0] > 2) return (struct station_pixel){ 5, 0, 0, 0 };
    for (int i = 0; i < 12; i++) {
        k[i] = model_coefficient(matrix + 1 + 2 * i);
        if (k[i] < -4096 || k[i] > 4095) return (struct station_pixel){ 5, 0, 0, 0 };
    }
    if (a > 4095 || b > 4095 || c > 4095) return (struct station_pixel){ 12, 0, 0, 0 };
    return (struct station_pixel){ 0, code(k, matrix[0], a, b, c), code(k + 4, matrix[0], a, b, c), code(k + 8, matrix[0], a, b, c) };
}
