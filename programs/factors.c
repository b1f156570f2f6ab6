#include "factors.h"
#include "station_text.h"
#include <stdlib.h>

enum { LEAST_FIELD = -4096, LARGEST_FIELD = 4095, ONE = 4096 };

const char *name_of_number(size_t n, char text[3]) {
    text[0] = "ABC"[n / 4], text[1] = "1234"[n % 4], text[2] = 0;
    return text;
}

int is_offset(size_t n) { return n % 4 == 3; }

/* Six digits come back from every float, nine tell each from the others. */
const char *text_of_number(float number, char text[TEXT_OF_A_NUMBER]) {
    int digits = 6;
    do snprintf(text, TEXT_OF_A_NUMBER, "%.*g", digits, number);
    while (strtof(text, NULL) != number && digits++ < 9);
    return text;
}

/* Powers of two, and a double has room for every float. */
double in_units(float number, size_t n, int mode) { return (double)number * (is_offset(n) ? 1 : ONE) / (1 << mode); }

double nearest(double units) {
    double size = units < 0 ? -units : units;
    if (!(size < 1e9)) return units;                                    /* whole, for a float has 24 bits; or none */
    long whole = (long)size;
    double rest = size - (double)whole;
    if (rest > 0.5 || (rest == 0.5 && whole % 2)) whole++;
    return units < 0 ? -(double)whole : (double)whole;
}

static int is_finite(float number) { return number - number == 0; }

const char *fault_of(float number, size_t n, int mode, char text[TEXT_OF_A_FAULT]) {
    int end = 1 << mode;
    double field = nearest(in_units(number, n, mode));
    if (!is_finite(number)) snprintf(text, TEXT_OF_A_FAULT, number == number ? "infinite" : "not a number");
    else if (!is_offset(n) && (number >= (float)end || number <= (float)-end))
        snprintf(text, TEXT_OF_A_FAULT, "a factor that is not below %d in size", end);
    else if (field > LARGEST_FIELD || field < LEAST_FIELD)
        snprintf(text, TEXT_OF_A_FAULT, "its field would be %.9g, %s %d", field, field < 0 ? "below" : "above",
                 field < 0 ? LEAST_FIELD : LARGEST_FIELD);
    else return NULL;
    return text;
}

/* In the largest mode a factor fits from above -4 to below (4095 + 1/2)/1024, for there the tie goes to 4096; an offset from -4 (4096 + 1/2), for
 * there the tie goes to -4096, to below 4 (4095 + 1/2). So much smaller all twelve would have to be, and a little more. */
#define FACTORS_END 3.99951171875
#define OFFSETS_BEGIN -16386
#define OFFSETS_END 16382
#define FAR_OFF 0.25                            /* no camera needs so much: the numbers are of another kind */
static double scale_of(const float *numbers) {
    char text[TEXT_OF_A_FAULT];
    double scale = 1;
    for (size_t n = 0; n < STATION_METER; n++) {
        if (!fault_of(numbers[n], n, LARGEST_MODE, text)) continue;
        double end = is_offset(n) ? (numbers[n] < 0 ? OFFSETS_BEGIN : OFFSETS_END) : numbers[n] < 0 ? -4 : FACTORS_END;
        if (end / numbers[n] < scale) scale = end / numbers[n];
    }
    return scale * 0.999;
}

void explain_refused(FILE *to, const float *numbers, uint32_t refusal) {
    char text[TEXT_OF_A_FAULT], name[3], number[TEXT_OF_A_NUMBER];
    fprintf(to, "refused %u: %s\n", (unsigned)refusal, station_text(refusal));
    for (size_t n = 0; n < STATION_METER; n++)
        if (fault_of(numbers[n], n, LARGEST_MODE, text) && (refusal != STATION_NOT_FINITE || !is_finite(numbers[n])))
            fprintf(to, "  %s %s: %s\n", name_of_number(n, name), text_of_number(numbers[n], number), text);
    if (refusal == STATION_NOT_FINITE) fprintf(to, "The meter has no value there: measure again, and do not put 0 in its place.\n");
    if (refusal != STATION_NO_MODE_FITS) return;
    double scale = scale_of(numbers);
    fprintf(to, "In mode %d, the largest, a factor lies above -4 and below %.12g, an\noffset from %d to below %d.\n", LARGEST_MODE, FACTORS_END,
            OFFSETS_BEGIN, OFFSETS_END);
    if (scale < FAR_OFF)
        fprintf(to, "That is far off: is a factor of 1 written as 1, not as 100 or 4096, and are the\noffsets in 12-bit codes?\n");
    fprintf(to, "All twelve times %.4g would fit; the picture is that much darker then.\n", scale);
}
