/* The planner, the decoder and the vet as a C programmer would write them with speed in mind: constant tables, one pass, two for a vendor's
 * list, and registers in a row that stand as wanted passed over at once; and a meter's matrix in doubles. Nothing is proved of it; the
 * tests compare its answers with the model's, the benchmark with the library's before it takes the time. */
#include "plain.h"
#include <math.h>
#include <string.h>

/* The places of the video section's fields from its count on, and that of the next count; those of a wiring's fields. The bytes of each
 * section, a wiring with or without its sync values, and of the longest request, with its four counts; the VICs have six bits. */
enum { VIC = 1, FAMILY, ENCODING, LINK, RANGE, DEPTH, EDITION, NEXT };
enum { ID, WIDTH, STYLE, JUSTIFIED, SYNCS };
enum { WIRING = 4, EMBEDDED = WIRING + 8, VIDEO = NEXT - 1, SOUND = 3, MATRIX = STATION_MATRIX };
enum { LONGEST = 4 + EMBEDDED + VIDEO + SOUND + MATRIX, VICS = 64, RATES = 7, DEPTHS = 3 };

/* For each input ID: the count of its wiring section, which is 0 for today's board, whether it is RGB, and the codes of depth, style and
 * justification that the guide draws, a bit each. */
enum { INPUTS = 9, TODAY = 0x30 };                          /* 0x16 of today's board: 8 bit */
static const struct { uint8_t count, rgb, codes[3]; } inputs[INPUTS] = {
    { 0, 1, { 0 } },                { WIRING, 0, { 14, 14, 7 } },   { EMBEDDED, 0, { 14, 14, 7 } },
    { WIRING, 0, { 14, 6, 7 } },    { EMBEDDED, 0, { 14, 6, 7 } },  { WIRING, 1, { 14, 14, 1 } },
    { WIRING, 0, { 14, 14, 7 } },   { WIRING, 0, { 14, 6, 7 } },    { EMBEDDED, 0, { 14, 6, 7 } },
};

/* For each VIC: its pixel clock, a row of `rows`, at family 0 and 1 (0 where it is not offered), 4:3, ITU-R 601, the rates that fit with
 * eight channels, by repetition, from the lowest on, and the clock at family 0 in Hz. */
#define ALL_FIT { 7, 7, 7 }
static const struct { uint8_t clock[2], narrow, itu601, fit[3]; uint32_t hertz; } modes[VICS] = {
    [1] = { { 1, 2 }, 1, 1, { 3, 7, 7 }, 25200000 },  [2] = { { 3, 4 }, 1, 1, { 3, 6, 7 }, 27027000 },
    [3] = { { 3, 4 }, 0, 1, { 3, 6, 7 }, 27027000 },  [4] = { { 5, 6 }, 0, 0, ALL_FIT, 74250000 },
    [5] = { { 5, 6 }, 0, 0, ALL_FIT, 74250000 },      [16] = { { 7, 8 }, 0, 0, ALL_FIT, 148500000 },
    [17] = { { 4, 0 }, 1, 1, { 3, 6, 7 }, 27000000 }, [18] = { { 4, 0 }, 0, 1, { 3, 6, 7 }, 27000000 },
    [19] = { { 5, 0 }, 0, 0, ALL_FIT, 74250000 },     [20] = { { 5, 0 }, 0, 0, ALL_FIT, 74250000 },
    [31] = { { 7, 0 }, 0, 0, ALL_FIT, 148500000 },    [32] = { { 5, 6 }, 0, 0, ALL_FIT, 74250000 },
    [34] = { { 5, 6 }, 0, 0, ALL_FIT, 74250000 },     [60] = { { 9, 10 }, 0, 0, ALL_FIT, 59400000 },
    [62] = { { 5, 6 }, 0, 0, ALL_FIT, 74250000 },
};

/* The row of `pairs` for the TMDS clock, by pixel clock, depth and repetition; 0 above 225 MHz, in both families alike. */
static const uint8_t rows[][DEPTHS][3] = {
    { { 0 } },
    { { 1, 29, 45 }, { 11, 35, 49 }, { 19, 39, 53 } }, { { 2, 30, 46 }, { 12, 36, 50 }, { 20, 40, 54 } },
    { { 3, 31, 47 }, { 13, 37, 51 }, { 21, 41, 55 } }, { { 4, 32, 48 }, { 14, 38, 52 }, { 22, 42, 56 } },
    { { 5, 7, 0 }, { 15, 17, 0 }, { 23, 25, 0 } }, { { 6, 8, 0 }, { 16, 18, 0 }, { 24, 26, 0 } },
    { { 7, 0, 0 }, { 17, 0, 0 }, { 25, 0, 0 } }, { { 8, 0, 0 }, { 18, 0, 0 }, { 26, 0, 0 } },
    { { 9, 33, 0 }, { 5, 7, 0 }, { 27, 43, 0 } }, { { 10, 34, 0 }, { 6, 8, 0 }, { 28, 44, 0 } },
};

/* N and CTS for coherent audio, by TMDS clock and rate; row 0 is for audio that is not coherent. N 0: no exact pair. */
static const struct { uint32_t n, cts; } pairs[][RATES] = {
    { { 4096, 0 }, { 6272, 0 }, { 6144, 0 }, { 12544, 0 }, { 12288, 0 }, { 25088, 0 }, { 24576, 0 } },
    { { 4096, 25200 }, { 6272, 28000 }, { 6144, 25200 }, { 12544, 28000 }, { 12288, 25200 }, { 25088, 28000 }, { 24576, 25200 } },
    { { 4576, 28125 }, { 7007, 31250 }, { 6864, 28125 }, { 14014, 31250 }, { 13728, 28125 }, { 28028, 31250 }, { 27456, 28125 } },
    { { 4096, 27027 }, { 6272, 30030 }, { 6144, 27027 }, { 12544, 30030 }, { 12288, 27027 }, { 25088, 30030 }, { 24576, 27027 } },
    { { 4096, 27000 }, { 6272, 30000 }, { 6144, 27000 }, { 12544, 30000 }, { 12288, 27000 }, { 25088, 30000 }, { 24576, 27000 } },
    { { 4096, 74250 }, { 6272, 82500 }, { 6144, 74250 }, { 12544, 82500 }, { 12288, 74250 }, { 25088, 82500 }, { 24576, 74250 } },
    { { 0, 0 }, { 17836, 234375 }, { 11648, 140625 }, { 35672, 234375 }, { 23296, 140625 }, { 71344, 234375 }, { 46592, 140625 } },
    { { 4096, 148500 }, { 6272, 165000 }, { 6144, 148500 }, { 12544, 165000 }, { 12288, 148500 }, { 25088, 165000 }, { 24576, 148500 } },
    { { 11648, 421875 }, { 8918, 234375 }, { 5824, 140625 }, { 17836, 234375 }, { 11648, 140625 }, { 35672, 234375 }, { 23296, 140625 } },
    { { 4096, 59400 }, { 5488, 57750 }, { 6144, 59400 }, { 10976, 57750 }, { 12288, 59400 }, { 21952, 57750 }, { 24576, 59400 } },
    { { 5824, 84375 }, { 4459, 46875 }, { 5824, 56250 }, { 8918, 46875 }, { 11648, 56250 }, { 17836, 46875 }, { 23296, 56250 } },
    { { 4096, 31500 }, { 5600, 31250 }, { 6144, 31500 }, { 11200, 31250 }, { 12288, 31500 }, { 22400, 31250 }, { 24576, 31500 } },
    { { 0, 0 }, { 14014, 78125 }, { 9152, 46875 }, { 28028, 78125 }, { 18304, 46875 }, { 56056, 78125 }, { 36608, 46875 } },
    { { 0, 0 }, { 5376, 32175 }, { 8192, 45045 }, { 10752, 32175 }, { 16384, 45045 }, { 21504, 32175 }, { 32768, 45045 } },
    { { 4096, 33750 }, { 6272, 37500 }, { 6144, 33750 }, { 12544, 37500 }, { 12288, 33750 }, { 25088, 37500 }, { 24576, 33750 } },
    { { 8192, 185625 }, { 6272, 103125 }, { 4096, 61875 }, { 12544, 103125 }, { 8192, 61875 }, { 25088, 103125 }, { 16384, 61875 } },
    { { 0, 0 }, { 0, 0 }, { 0, 0 }, { 0, 0 }, { 0, 0 }, { 0, 0 }, { 0, 0 } },
    { { 4096, 185625 }, { 6272, 206250 }, { 6144, 185625 }, { 12544, 206250 }, { 12288, 185625 }, { 25088, 206250 }, { 24576, 185625 } },
    { { 0, 0 }, { 0, 0 }, { 0, 0 }, { 0, 0 }, { 0, 0 }, { 0, 0 }, { 0, 0 } },
    { { 4096, 37800 }, { 5656, 37875 }, { 6144, 37800 }, { 11312, 37875 }, { 12288, 37800 }, { 22624, 37875 }, { 24576, 37800 } },
    { { 9152, 84375 }, { 7007, 46875 }, { 4576, 28125 }, { 14014, 46875 }, { 9152, 28125 }, { 28028, 46875 }, { 18304, 28125 } },
    { { 8192, 81081 }, { 5376, 38610 }, { 4096, 27027 }, { 10752, 38610 }, { 8192, 27027 }, { 21504, 38610 }, { 16384, 27027 } },
    { { 4096, 40500 }, { 5488, 39375 }, { 6144, 40500 }, { 10976, 39375 }, { 12288, 40500 }, { 21952, 39375 }, { 24576, 40500 } },
    { { 4096, 111375 }, { 6272, 123750 }, { 6144, 111375 }, { 12544, 123750 }, { 12288, 111375 }, { 25088, 123750 }, { 24576, 111375 } },
    { { 0, 0 }, { 0, 0 }, { 0, 0 }, { 0, 0 }, { 0, 0 }, { 0, 0 }, { 0, 0 } },
    { { 4096, 222750 }, { 6272, 247500 }, { 6144, 222750 }, { 12544, 247500 }, { 12288, 222750 }, { 25088, 247500 }, { 24576, 222750 } },
    { { 0, 0 }, { 17836, 703125 }, { 11648, 421875 }, { 35672, 703125 }, { 23296, 421875 }, { 71344, 703125 }, { 46592, 421875 } },
    { { 4096, 89100 }, { 5488, 86625 }, { 6144, 89100 }, { 10976, 86625 }, { 12288, 89100 }, { 21952, 86625 }, { 24576, 89100 } },
    { { 11648, 253125 }, { 8918, 140625 }, { 5824, 84375 }, { 17836, 140625 }, { 11648, 84375 }, { 35672, 140625 }, { 23296, 84375 } },
    { { 4096, 50400 }, { 5642, 50375 }, { 6144, 50400 }, { 11284, 50375 }, { 12288, 50400 }, { 22568, 50375 }, { 24576, 50400 } },
    { { 4576, 56250 }, { 7007, 62500 }, { 5720, 46875 }, { 14014, 62500 }, { 11440, 46875 }, { 21021, 46875 }, { 22880, 46875 } },
    { { 4096, 54054 }, { 6272, 60060 }, { 6144, 54054 }, { 12544, 60060 }, { 12288, 54054 }, { 25088, 60060 }, { 24576, 54054 } },
    { { 4096, 54000 }, { 6272, 60000 }, { 6144, 54000 }, { 12544, 60000 }, { 12288, 54000 }, { 25088, 60000 }, { 24576, 54000 } },
    { { 4096, 118800 }, { 5684, 119625 }, { 6144, 118800 }, { 11368, 119625 }, { 12288, 118800 }, { 22736, 119625 }, { 24576, 118800 } },
    { { 2912, 84375 }, { 4459, 93750 }, { 5824, 112500 }, { 13377, 140625 }, { 11648, 112500 }, { 26754, 140625 }, { 23296, 112500 } },
    { { 4096, 63000 }, { 5656, 63125 }, { 6144, 63000 }, { 11312, 63125 }, { 12288, 63000 }, { 22624, 63125 }, { 24576, 63000 } },
    { { 9152, 140625 }, { 7007, 78125 }, { 4576, 46875 }, { 14014, 78125 }, { 9152, 46875 }, { 28028, 78125 }, { 18304, 46875 } },
    { { 8192, 135135 }, { 5376, 64350 }, { 4096, 45045 }, { 10752, 64350 }, { 8192, 45045 }, { 21504, 64350 }, { 16384, 45045 } },
    { { 4096, 67500 }, { 5488, 65625 }, { 6144, 67500 }, { 10976, 65625 }, { 12288, 67500 }, { 21952, 65625 }, { 24576, 67500 } },
    { { 4096, 75600 }, { 5656, 75750 }, { 6144, 75600 }, { 11312, 75750 }, { 12288, 75600 }, { 22624, 75750 }, { 24576, 75600 } },
    { { 4576, 84375 }, { 7007, 93750 }, { 6864, 84375 }, { 14014, 93750 }, { 13728, 84375 }, { 28028, 93750 }, { 27456, 84375 } },
    { { 4096, 81081 }, { 5824, 83655 }, { 6144, 81081 }, { 11648, 83655 }, { 12288, 81081 }, { 23296, 83655 }, { 24576, 81081 } },
    { { 4096, 81000 }, { 5488, 78750 }, { 6144, 81000 }, { 10976, 78750 }, { 12288, 81000 }, { 21952, 78750 }, { 24576, 81000 } },
    { { 4096, 178200 }, { 5488, 173250 }, { 6144, 178200 }, { 10976, 173250 }, { 12288, 178200 }, { 21952, 173250 }, { 24576, 178200 } },
    { { 5824, 253125 }, { 4459, 140625 }, { 5824, 168750 }, { 8918, 140625 }, { 11648, 168750 }, { 17836, 140625 }, { 23296, 168750 } },
    { { 4096, 100800 }, { 5642, 100750 }, { 6144, 100800 }, { 11284, 100750 }, { 12288, 100800 }, { 22568, 100750 }, { 24576, 100800 } },
    { { 4576, 112500 }, { 7007, 125000 }, { 6292, 103125 }, { 14014, 125000 }, { 12584, 103125 }, { 21021, 93750 }, { 25168, 103125 } },
    { { 4096, 108108 }, { 5600, 107250 }, { 6144, 108108 }, { 11200, 107250 }, { 12288, 108108 }, { 22400, 107250 }, { 24576, 108108 } },
    { { 4096, 108000 }, { 5684, 108750 }, { 6144, 108000 }, { 11368, 108750 }, { 12288, 108000 }, { 22736, 108750 }, { 24576, 108000 } },
    { { 4096, 126000 }, { 5656, 126250 }, { 6144, 126000 }, { 11312, 126250 }, { 12288, 126000 }, { 22624, 126250 }, { 24576, 126000 } },
    { { 4576, 140625 }, { 7007, 156250 }, { 6864, 140625 }, { 14014, 156250 }, { 13728, 140625 }, { 28028, 156250 }, { 27456, 140625 } },
    { { 4096, 135135 }, { 5824, 139425 }, { 6144, 135135 }, { 11648, 139425 }, { 12288, 135135 }, { 23296, 139425 }, { 24576, 135135 } },
    { { 4096, 135000 }, { 5488, 131250 }, { 6144, 135000 }, { 10976, 131250 }, { 12288, 135000 }, { 21952, 131250 }, { 24576, 135000 } },
    { { 4096, 151200 }, { 5642, 151125 }, { 6144, 151200 }, { 11284, 151125 }, { 12288, 151200 }, { 22568, 151125 }, { 24576, 151200 } },
    { { 4576, 168750 }, { 7007, 187500 }, { 5720, 140625 }, { 14014, 187500 }, { 11440, 140625 }, { 21021, 140625 }, { 22880, 140625 } },
    { { 4096, 162162 }, { 5600, 160875 }, { 6144, 162162 }, { 11200, 160875 }, { 12288, 162162 }, { 22400, 160875 }, { 24576, 162162 } },
    { { 4096, 162000 }, { 5684, 163125 }, { 6144, 162000 }, { 11368, 163125 }, { 12288, 162000 }, { 22736, 163125 }, { 24576, 162000 } },
};

/* By the rule: the recommended pair of Tables 80 to 82 for this clock, top / bottom, where it is exact; else the exact pair whose N is
 * nearest to 128 fs / 1000. 128 fs is in `by_128`. */
static const uint32_t by_128[RATES] = { 4096000, 5644800, 6144000, 11289600, 12288000, 22579200, 24576000 };
static const struct { uint64_t top, bottom; struct { uint32_t n, cts; } pairs[RATES]; } recommended[] = {
    { 25200000000, 1001,
      { { 4576, 28125 }, { 7007, 31250 }, { 6864, 28125 }, { 14014, 31250 }, { 13728, 28125 }, { 28028, 31250 }, { 27456, 28125 } } },
    { 25200000, 1,
      { { 4096, 25200 }, { 6272, 28000 }, { 6144, 25200 }, { 12544, 28000 }, { 12288, 25200 }, { 25088, 28000 }, { 24576, 25200 } } },
    { 27000000, 1,
      { { 4096, 27000 }, { 6272, 30000 }, { 6144, 27000 }, { 12544, 30000 }, { 12288, 27000 }, { 25088, 30000 }, { 24576, 27000 } } },
    { 27027000, 1,
      { { 4096, 27027 }, { 6272, 30030 }, { 6144, 27027 }, { 12544, 30030 }, { 12288, 27027 }, { 25088, 30030 }, { 24576, 27027 } } },
    { 54000000, 1,
      { { 4096, 54000 }, { 6272, 60000 }, { 6144, 54000 }, { 12544, 60000 }, { 12288, 54000 }, { 25088, 60000 }, { 24576, 54000 } } },
    { 54054000, 1,
      { { 4096, 54054 }, { 6272, 60060 }, { 6144, 54054 }, { 12544, 60060 }, { 12288, 54054 }, { 25088, 60060 }, { 24576, 54054 } } },
    { 74250000000, 1001,
      { { 11648, 210937 }, { 17836, 234375 }, { 11648, 140625 }, { 35672, 234375 }, { 23296, 140625 }, { 71344, 234375 },
        { 46592, 140625 } } },
    { 74250000, 1,
      { { 4096, 74250 }, { 6272, 82500 }, { 6144, 74250 }, { 12544, 82500 }, { 12288, 74250 }, { 25088, 82500 }, { 24576, 74250 } } },
    { 148500000000, 1001,
      { { 11648, 421875 }, { 8918, 234375 }, { 5824, 140625 }, { 17836, 234375 }, { 11648, 140625 }, { 35672, 234375 },
        { 23296, 140625 } } },
    { 148500000, 1,
      { { 4096, 148500 }, { 6272, 165000 }, { 6144, 148500 }, { 12544, 165000 }, { 12288, 148500 }, { 25088, 165000 },
        { 24576, 148500 } } },
};

static const uint8_t rate_codes[RATES] = { 0x30, 0x00, 0x20, 0x80, 0xA0, 0xC0, 0xE0 };
static const uint8_t depth_codes[DEPTHS] = { 0, 5, 6 }, repeats[] = { 0, 1, 3 };

/* The registers that a list writes: those of Table 14; those of no group; and all, from which decoding tells whether a request stands. */
#define FOUR_FROM(a) a, a + 1, a + 2, a + 3
#define EIGHT_FROM(a) FOUR_FROM(a), FOUR_FROM(a + 4)
#define TABLE_14 0x98, 0x9A, 0x9C, 0x9D, 0xA2, 0xA3, 0xE0, 0xF9
#define OTHERS \
    0x01, 0x02, 0x03, 0x07, 0x08, 0x09, 0x0A, 0x0C, 0x15, 0x16, FOUR_FROM(0x30), 0x34, 0x3B, 0x3C, 0x40, 0x44, 0x48, 0x4C, 0xAF
static const uint8_t table_14[] = { TABLE_14 }, others[] = { OTHERS };
static const uint8_t all[] = {
    TABLE_14, EIGHT_FROM(0x18), EIGHT_FROM(0x20), EIGHT_FROM(0x28), 0x4A, EIGHT_FROM(0x52), EIGHT_FROM(0x5A), EIGHT_FROM(0x70),
    FOUR_FROM(0x78), 0x7C, OTHERS, 0x4B,
};

/* The bits of them that are kept from the image. */
static const uint8_t kept[256] = {
    [0x01] = 0xF0, [0x07] = 0xF0, [0x0A] = 0x03, [0x0C] = 0xC0, [0x16] = 0x03, [0x1A] = 0xC0, [0x1C] = 0xE0, [0x1E] = 0xE0, [0x20] = 0xE0,
    [0x22] = 0xE0, [0x24] = 0xE0, [0x26] = 0xE0, [0x28] = 0xE0, [0x2A] = 0xE0, [0x2C] = 0xE0, [0x2E] = 0xE0, [0x3C] = 0xC0, [0x40] = 0x7F,
    [0x44] = 0x01, [0x48] = 0x67, [0x4A] = 0x1F, [0x4B] = 0x3F, [0x4C] = 0xF0, [0x52] = 0xF8, [0x53] = 0xE0, [0x70] = 0xF8, [0x71] = 0xE0,
    [0x9A] = 0x01, [0x9D] = 0x0C, [0xAF] = 0x90,
};

/* The finished bytes that no request changes. */
static const uint8_t always[256] = {
    [0x3B] = 0xC0, [0x4A] = 0x80, [0x4B] = 0x80, [0x52] = 0x02, [0x53] = 0x0D, [0x70] = 0x01, [0x71] = 0x0A, [0x98] = 0x03,
    [0x9A] = 0xE0, [0x9C] = 0x30, [0x9D] = 0x61, [0xA2] = 0xA4, [0xA3] = 0xA4, [0xE0] = 0xD0, [0xAF] = 0x04,
};

/* The edition byte: E alone may ask for the YCC quantisation, 0 or 1, and the content type; the rest of it is 0. */
enum { IS_E = 0x01, QUANTISATION = 0x04, TYPE = 0x30, ALL_OF_E = IS_E | QUANTISATION | TYPE };

/* `row` is that of `pairs`, `of_e` the upper half of AVI data byte 5, in its place; `id` is 0 where there is no wiring. */
struct asked { uint8_t id, vic, family, encoding, link, range, depth, repetition, of_e, row; const uint8_t *wiring, *sound, *matrix; };

static inline uint8_t row_of(const struct asked *q) { return rows[modes[q->vic].clock[q->family]][q->depth][q->repetition]; }

/* Is this combination drawn, of an ID that has this count, and are the sync values below 1024? */
static inline int defined(const uint8_t *w, uint8_t count) {
    if (w[ID] >= INPUTS || inputs[w[ID]].count != count || w[WIDTH] > 3 || w[STYLE] > 3 || w[JUSTIFIED] > 3) return 0;
    const uint8_t *codes = inputs[w[ID]].codes;
    if (!(codes[0] >> w[WIDTH] & codes[1] >> w[STYLE] & codes[2] >> w[JUSTIFIED] & 1)) return 0;
    return count != EMBEDDED || (w[SYNCS] | w[SYNCS + 2] | w[SYNCS + 4] | w[SYNCS + 6]) <= 3;
}

static uint32_t read(const uint8_t *request, size_t length, struct asked *q) {
    size_t at = NEXT;
    if (length < 1) return 1;
    const uint8_t count = request[0], *r = request + 1 + count;
    if (count != 0 && count != WIRING && count != EMBEDDED) return 2;
    if (length < 2u + count) return 1;
    length -= 1u + count;
    q->wiring = count ? request + 1 : NULL;
    if (r[0] != VIDEO) return 2;
    if (length < at + 1) return 1;
    q->sound = q->matrix = NULL;
    if (r[at] == SOUND) {
        if (length < at + 1 + SOUND) return 1;
        q->sound = r + at + 1;
        at += SOUND;
    } else if (r[at] != 0) return 2;
    at++;
    if (length < at + 1) return 1;
    if (r[at] == MATRIX) {
        if (length < at + 1 + MATRIX) return 1;
        q->matrix = r + at + 1;
        at += MATRIX;
    } else if (r[at] != 0) return 2;
    at++;
    if (length != at) return 3;
    q->vic = r[VIC], q->family = r[FAMILY], q->encoding = r[ENCODING], q->link = r[LINK], q->range = r[RANGE];
    q->depth = r[DEPTH] & 15, q->repetition = r[DEPTH] >> 4;
    q->of_e = (uint8_t)((r[EDITION] & QUANTISATION) << 4 | (r[EDITION] & TYPE));
    if (q->vic >= VICS || q->family > 1 || !modes[q->vic].clock[q->family]) return 4;
    if (q->encoding > 2 || q->link > 1 || q->range > 1 || q->depth > 2 || q->repetition > 2 || (r[EDITION] & ~ALL_OF_E)) return 5;
    if (q->sound && (q->sound[0] > 6 || (q->sound[1] != 2 && q->sound[1] != 8) || q->sound[2] > 1)) return 5;
    if (q->matrix) {
        if (q->matrix[0] > 2) return 5;
        for (int k = 1; k < MATRIX; k += 2)
            if (q->matrix[k] > 0x0F && q->matrix[k] < 0xF0) return 5;
    }
    if (q->wiring && !defined(q->wiring, count)) return 5;
    q->id = q->wiring ? q->wiring[ID] : 0;
    if (!q->matrix && inputs[q->id].rgb == (q->encoding != 0)) return 6;
    if ((q->encoding && q->range) || (!q->link && (q->sound || q->encoding))) return 6;
    if ((q->depth && (q->encoding == 1 || !q->link)) || (q->of_e && !(r[EDITION] & IS_E))) return 6;
    q->row = row_of(q);
    if (!q->row) return 17;
    return q->sound && q->sound[1] == 8 && q->sound[0] >= modes[q->vic].fit[q->repetition] ? 20 : 0;
}

/* N and CTS of a request with sound; 0 where no exact pair exists. */
typedef int find_pair(const struct asked *q, uint32_t *n, uint32_t *cts);

static int looked_up(const struct asked *q, uint32_t *n, uint32_t *cts) {
    unsigned row = q->sound[2] ? q->row : 0;
    *n = pairs[row][q->sound[0]].n;
    *cts = pairs[row][q->sound[0]].cts;
    return *n != 0;
}

static uint64_t divisor(uint64_t a, uint64_t b) {
    while (b) {
        uint64_t rest = a % b;
        a = b, b = rest;
    }
    return a;
}

/* The clock is top / bottom, and N and CTS are exact where 128 fs CTS bottom = top N. */
static int by_rule(const struct asked *q, uint32_t *n, uint32_t *cts) {
    static const uint8_t depth_top[DEPTHS] = { 1, 5, 3 }, depth_bottom[DEPTHS] = { 1, 4, 2 };
    unsigned rate = q->sound[0];
    if (!q->sound[2]) {
        *n = pairs[0][rate].n, *cts = 0;
        return 1;
    }
    uint64_t top = (q->family ? 1000ull : 1) * modes[q->vic].hertz * depth_top[q->depth] << q->repetition, fs = by_128[rate];
    uint64_t bottom = (q->family ? 1001u : 1u) * depth_bottom[q->depth];
    for (size_t i = 0; i < sizeof recommended / sizeof recommended[0]; i++) {
        if (recommended[i].top * bottom != top * recommended[i].bottom) continue;
        *n = recommended[i].pairs[rate].n, *cts = recommended[i].pairs[rate].cts;
        if (fs * *cts * bottom == top * *n) return 1;
        break;
    }
    uint64_t g = divisor(top, fs * bottom), step = fs * bottom / g, turns = top / g;     /* N is a multiple of `step`, CTS of `turns` */
    uint64_t least = (fs + 1500 * step - 1) / (1500 * step), most = fs / (300 * step), k = fs / (1000 * step);
    if (most > 1048575 / turns) most = 1048575 / turns;
    if (k < least || 2 * fs > 1000 * step * (2 * k + 1)) k++;
    if (k < least) k = least;
    if (k > most) k = most;
    *n = (uint32_t)(k * step), *cts = (uint32_t)(k * turns);
    return least <= most;
}

/* The finished bytes for a request, free bits 0. Answers 0 where no exact pair exists. */
static inline int want(const struct asked *q, find_pair *find, uint8_t *b) {
    uint32_t n = 6144, cts = 0;
    unsigned sum;
    if (q->sound && !find(q, &n, &cts)) return 0;
    memcpy(b, always, 256);
    b[0x01] = (uint8_t)(n >> 16), b[0x02] = (uint8_t)(n >> 8), b[0x03] = (uint8_t)n;
    b[0x07] = (uint8_t)(cts >> 16), b[0x08] = (uint8_t)(cts >> 8), b[0x09] = (uint8_t)cts;
    b[0x15] = 0x20;
    if (q->sound) {
        b[0x0A] = (uint8_t)(q->sound[2] << 7);
        b[0x0C] = q->sound[1] == 2 ? 0x04 : 0x3C;
        b[0x15] = rate_codes[q->sound[0]];
        b[0x73] = (uint8_t)(q->sound[1] - 1);
        b[0x76] = q->sound[1] == 8 ? 0x13 : 0x00;
    }
    b[0x15] |= q->id;
    b[0x16] = q->encoding == 1 ? 0x80 : 0x00;
    if (q->wiring) {
        const uint8_t *w = q->wiring, *s = w + SYNCS;
        b[0x16] |= (uint8_t)(w[WIDTH] << 4 | w[STYLE] << 2);
        b[0x48] = (uint8_t)(w[JUSTIFIED] << 3);
        if (inputs[q->id].count == EMBEDDED) {              /* ten bits each, one after the other */
            b[0x30] = (uint8_t)(s[0] << 6 | s[1] >> 2);
            b[0x31] = (uint8_t)(s[1] << 6 | s[2] << 4 | s[3] >> 4);
            b[0x32] = (uint8_t)(s[3] << 4 | s[4] << 2 | s[5] >> 6);
            b[0x33] = (uint8_t)(s[5] << 2 | s[6]);
            b[0x34] = s[7];
        }
    } else b[0x16] |= TODAY;
    if (q->matrix) {
        memcpy(b + 0x18, q->matrix + 1, 24);
        for (int a = 0x18; a < 0x30; a += 2) b[a] &= 0x1F;
        b[0x18] |= (uint8_t)(0x80 | q->matrix[0] << 5);
    } else b[0x18] = 0x28, b[0x22] = 0x08, b[0x2C] = 0x08;
    b[0x3B] |= (uint8_t)(q->repetition << 3 | q->repetition << 1);
    b[0x3C] = q->vic;
    b[0x4C] = depth_codes[q->depth];
    if (q->link) b[0x40] = 0x80, b[0x44] = q->sound ? 0x78 : 0x10, b[0xAF] |= 0x02;
    b[0x55] = (uint8_t)(q->encoding << 5 | 0x10);
    b[0x56] = (uint8_t)((q->encoding ? modes[q->vic].itu601 ? 0x40 : 0x80 : 0) | (modes[q->vic].narrow ? 0x18 : 0x28));
    b[0x57] = q->encoding ? 0x00 : q->range ? 0x08 : 0x04;
    b[0x58] = q->vic;
    b[0x59] = q->of_e | repeats[q->repetition];
    sum = 0x82 + 0x02 + 0x0D + b[0x55] + b[0x56] + b[0x57] + b[0x58] + b[0x59];
    b[0x54] = (uint8_t)-sum;
    sum = 0x84 + 0x01 + 0x0A + b[0x73] + b[0x76];
    b[0x72] = (uint8_t)-sum;
    return 1;
}

/* A list is made from its front on: each of these puts its pairs where `w` stands and answers where the next one goes. A register whose
 * byte in the image is the finished one, in `b`, is left out. */
static inline uint8_t *pair(uint8_t *w, uint8_t address, uint8_t value) {
    w[0] = address, w[1] = value;
    return w + 2;
}

static inline uint8_t *made_right(uint8_t *w, const uint8_t *image, const uint8_t *b, const uint8_t *addresses, size_t count) {
    for (size_t k = 0; k < count; k++)
        if (b[addresses[k]] != image[addresses[k]]) w = pair(w, addresses[k], b[addresses[k]]);
    return w;
}

static inline uint8_t *row_made_right(uint8_t *w, const uint8_t *image, const uint8_t *b, int first, int last) {
    if (!memcmp(b + first, image + first, (size_t)(last - first + 1))) return w;
    for (int a = first; a <= last; a++)
        if (b[a] != image[a]) w = pair(w, (uint8_t)a, b[a]);
    return w;
}

static inline uint8_t *packet(uint8_t *w, const uint8_t *image, const uint8_t *b, uint8_t hold, int first, int last) {
    w = pair(w, 0x4A, b[0x4A] | hold);
    w = row_made_right(w, image, b, first, last);
    return pair(w, 0x4A, b[0x4A]);
}

static inline struct station_count plan(const uint8_t *request, size_t request_length, const uint8_t *image, size_t image_length,
                                        uint8_t *writes, size_t writes_length, find_pair *find) {
    struct asked q;
    uint8_t b[256], *w = writes;
    uint32_t refusal = read(request, request_length, &q);
    if (refusal) return (struct station_count){ refusal, 0 };
    if (image_length != 256) return (struct station_count){ 7, 0 };
    if ((image[0x4A] & 0x10) || (image[0x4A] & 0x60) == 0x60) return (struct station_count){ 8, 0 };
    if (!want(&q, find, b)) return (struct station_count){ 9, 0 };
    if (writes_length < 256) return (struct station_count){ 10, 0 };
    for (int a = 0; a < 256; a++) b[a] |= image[a] & kept[a];
    int audio_first = image[0x4A] & 0x20;
    w = pair(w, 0x4B, (image[0x4B] & 0x3F) | 0x40);
    w = made_right(w, image, b, table_14, sizeof table_14);
    w = pair(w, 0x1A, b[0x1A] | 0x20);
    w = row_made_right(w, image, b, 0x18, 0x19);
    w = pair(w, 0x1A, b[0x1A] | 0x20);
    w = row_made_right(w, image, b, 0x1B, 0x2F);
    w = pair(w, 0x1A, b[0x1A]);
    if (audio_first) w = packet(w, image, b, 0x20, 0x70, 0x7C);
    w = packet(w, image, b, 0x40, 0x52, 0x61);
    if (!audio_first) w = packet(w, image, b, 0x20, 0x70, 0x7C);
    w = made_right(w, image, b, others, sizeof others);
    w = pair(w, 0x4B, b[0x4B]);
    return (struct station_count){ 0, (uint32_t)(w - writes) / 2 };
}

static inline int stands(const struct asked *q, const uint8_t *image, find_pair *find) {
    uint8_t b[256], wrong = 0;
    if (!want(q, find, b)) return 0;
    for (size_t k = 0; k < sizeof all; k++) wrong |= (uint8_t)((image[all[k]] ^ b[all[k]]) & ~kept[all[k]]);
    return wrong == 0;
}

static inline struct station_count decode(const uint8_t *image, size_t image_length, uint8_t *request, size_t request_length,
                                          find_pair *find) {
    static const uint8_t rates[16] = { 1, 9, 2, 0, 9, 9, 9, 9, 3, 9, 4, 9, 5, 9, 6, 9 };
    static const uint8_t depths[16] = { 0, 9, 9, 9, 9, 1, 2, 9, 9, 9, 9, 9, 9, 9, 9, 9 };
    uint8_t whole[LONGEST], *r = whole + 1, id = image[0x15] & 15;
    size_t at = NEXT;
    struct asked q;
    if (image_length != 256) return (struct station_count){ 7, 0 };
    if (request_length < LONGEST) return (struct station_count){ 10, 0 };
    if (id >= INPUTS) return (struct station_count){ 11, 0 };
    whole[0] = inputs[id].count;
    if (id) {
        r[ID] = id;
        r[WIDTH] = image[0x16] >> 4 & 3;
        r[STYLE] = image[0x16] >> 2 & 3;
        r[JUSTIFIED] = image[0x48] >> 3 & 3;
        if (whole[0] == EMBEDDED) {
            const uint8_t *s = image + 0x30, syncs[] = {
                s[0] >> 6, (uint8_t)(s[0] << 2 | s[1] >> 6), s[1] >> 4 & 3, (uint8_t)(s[1] << 4 | s[2] >> 4),
                s[2] >> 2 & 3, (uint8_t)(s[2] << 6 | s[3] >> 2), s[3] & 3, s[4],
            };
            memcpy(r + SYNCS, syncs, sizeof syncs);
        }
        r += whole[0];
    }
    r[0] = VIDEO, r[FAMILY] = 0;
    r[VIC] = image[0x3C] & 0x3F;
    r[ENCODING] = image[0x55] >> 5 & 3;
    r[LINK] = image[0xAF] >> 1 & 1;
    r[RANGE] = image[0x57] >> 3 & 1;
    r[DEPTH] = (uint8_t)(depths[image[0x4C] & 15] | (image[0x3B] >> 3 & 3) << 4);
    r[EDITION] = image[0x59] >> 4 ? (uint8_t)(IS_E | (image[0x59] >> 4 & 0x0C) | (image[0x59] & TYPE)) : 0;
    if (image[0x44] & 0x20) {
        r[at++] = SOUND;
        r[at++] = rates[image[0x15] >> 4];
        r[at++] = (uint8_t)(image[0x73] + 1);
        r[at++] = image[0x0A] >> 7;
    } else r[at++] = 0;
    if (image[0x18] & 0x80) {
        r[at++] = MATRIX;
        r[at++] = image[0x18] >> 5 & 3;
        for (int a = 0x18; a < 0x30; a += 2) {
            r[at++] = (uint8_t)(((image[a] & 0x1F) ^ 0x10) - 0x10);
            r[at++] = image[a + 1];
        }
    } else r[at++] = 0;
    at += 1u + whole[0];
    if (read(whole, at, &q)) return (struct station_count){ 11, 0 };
    if (!stands(&q, image, find)) {
        q.family = 1;
        q.row = row_of(&q);
        if (!q.sound || !q.sound[2] || !modes[q.vic].clock[1] || !stands(&q, image, find)) return (struct station_count){ 11, 0 };
    }
    memcpy(request, whole, at);
    return (struct station_count){ 0, (uint32_t)at };
}

/* A vendor's list: the registers that it may write, their mandated and free bits. Read-only ones, of 0x4C, are not looked at. */
#define MANDATED(a, mask, value, free) [a] = { 1, mask, value, free }
#define FIXED(a, value) MANDATED(a, 0xFF, value, 0)
#define NAMED(a, free) MANDATED(a, 0, 0, free)
#define EIGHT(a) NAMED(a, 0)
#define FOUR(a) EIGHT(a), EIGHT(a + 1), EIGHT(a + 2), EIGHT(a + 3)
#define TWO_COEFFICIENTS(a) NAMED(a, 0xE0), EIGHT(a + 1), NAMED(a + 2, 0xE0), EIGHT(a + 3)
static const struct { uint8_t ours, mandated, value, free; } rules[256] = {
    NAMED(0x01, 0xF0), EIGHT(0x02), EIGHT(0x03), NAMED(0x07, 0xF0), EIGHT(0x08), EIGHT(0x09), NAMED(0x0A, 0x03), NAMED(0x0C, 0xC0),
    EIGHT(0x15), MANDATED(0x16, 0x40, 0, 0x03), EIGHT(0x18), EIGHT(0x19), NAMED(0x1A, 0xC0), EIGHT(0x1B),
    TWO_COEFFICIENTS(0x1C), TWO_COEFFICIENTS(0x20), TWO_COEFFICIENTS(0x24), TWO_COEFFICIENTS(0x28), TWO_COEFFICIENTS(0x2C),
    FOUR(0x30), EIGHT(0x34), MANDATED(0x3B, 0x81, 0x80, 0), NAMED(0x3C, 0xC0), NAMED(0x40, 0x7F), MANDATED(0x44, 0x86, 0, 0x01),
    MANDATED(0x48, 0x80, 0, 0x67),
    NAMED(0x4A, 0x1F), NAMED(0x4B, 0x3F), EIGHT(0x4C),
    NAMED(0x52, 0xF8), NAMED(0x53, 0xE0), EIGHT(0x54), EIGHT(0x55), FOUR(0x56), FOUR(0x5A), FOUR(0x5E),
    NAMED(0x70, 0xF8), NAMED(0x71, 0xE0), EIGHT(0x72), EIGHT(0x73), FOUR(0x74),
    FIXED(0x78, 0), FIXED(0x79, 0), FIXED(0x7A, 0), FIXED(0x7B, 0), FIXED(0x7C, 0),
    FIXED(0x98, 0x03), MANDATED(0x9A, 0xFE, 0xE0, 0x01), FIXED(0x9C, 0x30), MANDATED(0x9D, 0xF3, 0x61, 0x0C),
    FIXED(0xA2, 0xA4), FIXED(0xA3, 0xA4), MANDATED(0xAF, 0x6D, 0x04, 0x90), FIXED(0xE0, 0xD0), FIXED(0xF9, 0),
};

/* `waits`: a lowered coefficient hold waits for its Vsync. */
struct machine { uint8_t image[256], packet[STATION_PACKET], matrix[STATION_COEFFICIENTS], waits; };

/* One write. Read-only bits need not stay: no group and no request has them, and no rule looks at them. Answers 0, and writes nothing,
 * where two packet holds would be up. */
static inline int put(struct machine *m, uint8_t address, uint8_t value) {
    if (address == 0x4A) {
        uint8_t up = value & 0x70, rises = value & (uint8_t)~m->image[0x4A];
        if (up & (up - 1)) return 0;
        if (rises & 0x40) memcpy(m->packet, m->image + 0x52, 16);
        else if (rises & 0x20) memcpy(m->packet, m->image + 0x70, 13);
        else if (rises & 0x10) m->packet[0] = m->image[0x4B];
    } else if (address == 0x1A && ((value ^ m->image[0x1A]) & 0x20)) {
        if ((value & 0x20) && !m->waits) memcpy(m->matrix, m->image + 0x18, sizeof m->matrix);
        m->waits = !(value & 0x20);
    }
    m->image[address] = value;
    return 1;
}

/* The groups in use. */
static inline const uint8_t *avi(const struct machine *m) { return m->image[0x4A] & 0x40 ? m->packet : m->image + 0x52; }
static inline const uint8_t *audio(const struct machine *m) { return m->image[0x4A] & 0x20 ? m->packet : m->image + 0x70; }
static inline const uint8_t *matrix(const struct machine *m) { return m->image[0x1A] & 0x20 || m->waits ? m->matrix : m->image + 0x18; }

static inline int same_matrix(const uint8_t *a, const uint8_t *b) {
    unsigned other = 0;
    for (int k = 0; k < STATION_COEFFICIENTS; k += 2) other |= ((a[k] ^ b[k]) & 0x1Fu) | (unsigned)(a[k + 1] ^ b[k + 1]);
    return other == 0;
}

static inline int torn(const uint8_t *now, const uint8_t *old, const uint8_t *new) {
    return !same_matrix(now, old) && !same_matrix(now, new);
}

/* Whether a pair would leave two packet holds up. */
static inline int leaves_two(const uint8_t *pair) {
    uint8_t up = pair[1] & 0x70;
    return pair[0] == 0x4A && (up & (up - 1));
}

/* One pass for the end, one for the tests, each with a Vsync just before the last pair. A group is looked at after a write that may have
 * changed it, and the matrix where a wait ends, for its registers come into use. The GC hold needs no look: it is down at the start, and it
 * is a free bit. */
static inline struct station_verdict vet(const uint8_t *image, size_t image_length, const uint8_t *packet, size_t packet_length,
                                         const uint8_t *coefficients, size_t coefficients_length, uint8_t mark, const uint8_t *list,
                                         size_t list_length, find_pair *find) {
    struct machine start, now, last;
    uint8_t request[LONGEST];
    uint32_t count = (uint32_t)(list_length / 2), ends = 0;
    if (image_length != 256 || packet_length != sizeof start.packet || coefficients_length != sizeof start.matrix)
        return (struct station_verdict){ 7, 0 };
    if ((image[0x4A] & 0x10) || (image[0x4A] & 0x60) == 0x60) return (struct station_verdict){ 8, 0 };
    if (list_length % 2 || list_length > STATION_LIST) return (struct station_verdict){ 14, 0 };
    memcpy(start.image, image, sizeof start.image);
    memcpy(start.packet, packet, sizeof start.packet);
    memcpy(start.matrix, coefficients, sizeof start.matrix);
    start.waits = mark && !(image[0x1A] & 0x20);
    last = now = start;
    for (int more = count > 0 && !leaves_two(list); more; ends++) {
        more = ends + 1 < count && !leaves_two(list + 2 * ends + 2);
        if (!more) last.waits = 0;
        put(&last, list[2 * ends], list[2 * ends + 1]);
    }
    for (uint32_t i = 0; i < count; i++) {
        uint8_t a = list[2 * i], v = list[2 * i + 1];
        if (i + 1 == ends && now.waits) {
            now.waits = 0;
            if (i > 0 && torn(matrix(&now), matrix(&start), matrix(&last))) return (struct station_verdict){ 15, i - 1 };
        }
        if (!rules[a].ours || (v & rules[a].mandated) != rules[a].value || ((v ^ now.image[a]) & rules[a].free) || !put(&now, a, v))
            return (struct station_verdict){ 15, i };
        if (i + 1 >= ends) continue;
        if ((now.image[0x4B] & 0xC0) != 0x40) return (struct station_verdict){ 15, i };
        if (((a == 0x4A || (a >= 0x52 && a <= 0x61)) && memcmp(avi(&now), avi(&start), 16) && memcmp(avi(&now), avi(&last), 16)) ||
            ((a == 0x4A || (a >= 0x70 && a <= 0x7C)) && memcmp(audio(&now), audio(&start), 13) && memcmp(audio(&now), audio(&last), 13)) ||
            (a >= 0x18 && a <= 0x2F && torn(matrix(&now), matrix(&start), matrix(&last))))
            return (struct station_verdict){ 15, i };
    }
    return (struct station_verdict){ decode(last.image, 256, request, sizeof request, find).refusal ? 16 : 0, 0 };
}

#define PLAN(name, find) \
    struct station_count name(const uint8_t *r, size_t rl, const uint8_t *i, size_t il, uint8_t *w, size_t wl) { \
        return plan(r, rl, i, il, w, wl, find); \
    }
#define DECODE(name, find) \
    struct station_count name(const uint8_t *i, size_t il, uint8_t *r, size_t rl) { return decode(i, il, r, rl, find); }
#define VET(name, find) \
    struct station_verdict name(const uint8_t *i, size_t il, const uint8_t *p, size_t pl, const uint8_t *c, size_t cl, uint8_t m, \
                                const uint8_t *l, size_t ll) { \
        return vet(i, il, p, pl, c, cl, m, l, ll, find); \
    }
PLAN(plain_plan, looked_up)
PLAN(rule_plan, by_rule)
DECODE(plain_decode, looked_up)
DECODE(rule_decode, by_rule)
VET(plain_vet, looked_up)
VET(rule_vet, by_rule)

/* ---- A colour meter's matrix. A float times a power of two is exact as a double, and the processor rounds it to the nearest whole number,
 * to the even one on a tie. What rounds to a field lies from -4096.5, itself included, to 4095.5, which rounds to 4096. */

static inline int in_mode(const float *numbers, int mode, uint8_t *matrix) {
    const double limit = 1 << mode;
    long fields[STATION_METER];
    for (int i = 0; i < STATION_METER; i++) {
        double x = numbers[i];
        if (i % 4 != 3) {
            if (fabs(x) >= limit) return 0;
            x *= 4096;
        }
        x /= limit;
        if (x < -4096.5 || x >= 4095.5) return 0;
        fields[i] = lrint(x);
    }
    matrix[0] = (uint8_t)mode;
    for (int i = 0; i < STATION_METER; i++) matrix[1 + 2 * i] = (uint8_t)(fields[i] >> 8), matrix[2 + 2 * i] = (uint8_t)fields[i];
    return 1;
}

struct station_count plain_meter(const float *numbers, size_t count, uint8_t *matrix, size_t matrix_length) {
    if (count != STATION_METER) return (struct station_count){ 5, 0 };
    if (matrix_length < STATION_MATRIX) return (struct station_count){ 10, 0 };
    for (int i = 0; i < STATION_METER; i++)
        if (!isfinite(numbers[i])) return (struct station_count){ 18, 0 };
    for (int mode = 0; mode <= 2; mode++)
        if (in_mode(numbers, mode, matrix)) return (struct station_count){ 0, STATION_MATRIX };
    return (struct station_count){ 19, 0 };
}
