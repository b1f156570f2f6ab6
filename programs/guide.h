/* The tables of the programming guide (source document 000), each number as printed, misprints included; and the misprints, named.
 * N and CTS are Tables 80 to 82, the matrices are Tables 39 to 64, the syncs are Tables 32 and 35. */
#ifndef GUIDE_H
#define GUIDE_H

#include <stddef.h>
#include <stdint.h>

/* ---- N and CTS. */

enum { RATES = 7 };
static const char *const rates[RATES] = { "32.0", "44.1", "48.0", "88.2", "96.0", "176.4", "192.0" };   /* kHz */

/* A row: its clock, up to three modes that have this TMDS clock at a depth and a repetition (VIC 0: none), whether audio is coherent, N and
 * CTS at each rate. A CTS that is "measured" is 0. The last row, "Other", is for audio that is not coherent. */
static const struct row {
    const char *clock;
    struct at_clock { uint8_t vic, family, depth, repetition; } modes[3];
    uint8_t coherent;
    struct { uint32_t n, cts; } pairs[RATES];
} rows[] = {
    { "25.20 / 1.001 MHz", { { 1, 1, 0, 0 } }, 1,
      { { 4576, 28125 }, { 7007, 31250 }, { 6864, 28125 }, { 14014, 31250 }, { 13728, 28125 }, { 28028, 31250 }, { 27456, 28125 } } },
    { "25.20 MHz", { { 1, 0, 0, 0 } }, 1,
      { { 4096, 25200 }, { 6272, 28000 }, { 6144, 25200 }, { 12544, 28000 }, { 12288, 25200 }, { 25088, 28000 }, { 24576, 25200 } } },
    { "27.00 MHz", { { 17, 0, 0, 0 }, { 2, 1, 0, 0 } }, 1,
      { { 4096, 27000 }, { 6272, 30000 }, { 6144, 27000 }, { 12544, 30000 }, { 12288, 27000 }, { 25088, 30000 }, { 24576, 27000 } } },
    { "27.00 * 1.001 MHz", { { 2, 0, 0, 0 } }, 1,
      { { 4096, 27027 }, { 6272, 30030 }, { 6144, 27027 }, { 12544, 30030 }, { 12288, 27027 }, { 25088, 30030 }, { 24576, 27027 } } },
    { "54.00 MHz", { { 17, 0, 0, 1 }, { 2, 1, 0, 1 } }, 1,
      { { 4096, 54000 }, { 6272, 60000 }, { 6144, 54000 }, { 12544, 60000 }, { 12288, 54000 }, { 25088, 60000 }, { 24576, 54000 } } },
    { "54.00 * 1.001 MHz", { { 2, 0, 0, 1 } }, 1,
      { { 4096, 54054 }, { 6272, 60060 }, { 6144, 54054 }, { 12544, 60060 }, { 12288, 54054 }, { 25088, 60060 }, { 24576, 54054 } } },
    { "74.25 / 1.001 MHz", { { 4, 1, 0, 0 }, { 60, 1, 1, 0 } }, 1,
      { { 11648, 210937 }, { 17836, 234375 }, { 11648, 140625 }, { 35672, 234375 }, { 35672, 140625 }, { 71344, 234375 },
        { 46592, 140625 } } },
    { "74.25 MHz", { { 4, 0, 0, 0 }, { 60, 0, 1, 0 } }, 1,
      { { 4096, 74250 }, { 6272, 82500 }, { 6144, 74250 }, { 12544, 82500 }, { 12288, 74250 }, { 25088, 82500 }, { 24576, 74250 } } },
    { "148.50 / 1.001 MHz", { { 16, 1, 0, 0 }, { 4, 1, 0, 1 }, { 60, 1, 1, 1 } }, 1,
      { { 11648, 421875 }, { 8918, 234375 }, { 5824, 140625 }, { 17836, 234375 }, { 17836, 140625 }, { 35672, 234375 },
        { 23296, 140625 } } },
    { "148.50 MHz", { { 16, 0, 0, 0 }, { 4, 0, 0, 1 }, { 60, 0, 1, 1 } }, 1,
      { { 4096, 148500 }, { 6272, 16500 }, { 6144, 148500 }, { 12544, 16500 }, { 12288, 148500 }, { 25088, 16500 }, { 24576, 148500 } } },
    { "Other (audio not coherent)", { { 60, 0, 0, 0 } }, 0,
      { { 4096, 0 }, { 6272, 0 }, { 6144, 0 }, { 12544, 0 }, { 12288, 0 }, { 25088, 0 }, { 24576, 0 } } },
};

/* A misprint: which row and rate, and what HDMI 1.4 and document 01 have there. 74.25/1.001 MHz at 32 kHz has no exact pair (the guide
 * prints two CTS, the second as here); its N at 96 kHz, and that of 148.5/1.001 MHz, are the N of 88.2 kHz; at 148.5 MHz each CTS of
 * 44.1 kHz and its multiples has lost a digit. */
static const struct misprint { uint8_t row, rate; uint32_t refusal, n, cts; const char *also, *why; } misprints[] = {
    { 6, 0, 9, 0, 0, "-210938", "no pair is exact" },
    { 6, 4, 0, 23296, 140625, "", "misprint" },
    { 8, 4, 0, 11648, 140625, "", "misprint" },
    { 9, 1, 0, 6272, 165000, "", "misprint" },
    { 9, 3, 0, 12544, 165000, "", "misprint" },
    { 9, 5, 0, 25088, 165000, "", "misprint" },
};

/* ---- Syncs that are embedded. */

enum { SYNC_VALUES_OF_A_ROW = 4, FIRST_SYNC_REGISTER = 0x30, SYNC_REGISTERS = 5, VICS_OF_A_ROW = 2 };

/* A format: the modes that have it (VIC 0: none; of 1080p at 24 Hz the tables have frame packing alone, whose lines are the same); by Table 32 the
 * four sync values, as a request has them; by Table 35 the registers from 0x30 on, and 0x17[6:5]. */
static const struct sync_row {
    const char *format;
    uint8_t vics[VICS_OF_A_ROW];
    uint16_t values[SYNC_VALUES_OF_A_ROW];
    uint8_t registers[SYNC_REGISTERS], polarity;
} sync_rows[] = {
    { "480i", { 0 }, { 19, 62, 4, 3 }, { 0x04, 0xC3, 0xE0, 0x10, 0x03 }, 3 },
    { "576i", { 0 }, { 12, 63, 2, 3 }, { 0x03, 0x03, 0xF0, 0x08, 0x03 }, 3 },
    { "480p", { 2, 3 }, { 16, 62, 9, 6 }, { 0x04, 0x03, 0xE0, 0x24, 0x06 }, 3 },
    { "576p", { 17, 18 }, { 12, 64, 5, 5 }, { 0x03, 0x04, 0x00, 0x14, 0x05 }, 3 },
    { "720p-60", { 4 }, { 110, 40, 5, 5 }, { 0x1B, 0x82, 0x80, 0x14, 0x05 }, 0 },
    { "720p-50", { 19 }, { 440, 40, 5, 5 }, { 0x6E, 0x02, 0x80, 0x14, 0x05 }, 0 },
    { "1080i-30", { 5 }, { 88, 44, 2, 5 }, { 0x16, 0x02, 0xC0, 0x08, 0x05 }, 0 },
    { "1080i-25", { 20 }, { 528, 44, 2, 5 }, { 0x84, 0x02, 0xC0, 0x08, 0x05 }, 0 },
    { "1080p-60", { 16 }, { 88, 44, 4, 5 }, { 0x16, 0x02, 0xC0, 0x10, 0x05 }, 0 },
    { "1080p-50", { 31 }, { 528, 44, 4, 5 }, { 0x84, 0x02, 0xC0, 0x10, 0x05 }, 0 },
    { "1080p-24 (Frame Packing)", { 32 }, { 638, 44, 4, 5 }, { 0x9F, 0x82, 0xC0, 0x10, 0x05 }, 0 },
    { "720p-60 (Frame Packing)", { 0 }, { 110, 40, 5, 5 }, { 0x6E, 0x02, 0x80, 0x14, 0x05 }, 0 },
    { "720p-50 (Frame Packing)", { 0 }, { 440, 40, 5, 5 }, { 0x1B, 0x82, 0x80, 0x14, 0x05 }, 0 },
};

/* The rows of Table 35 that have each other's numbers. */
static const char *const exchanged[] = { "720p-60 (Frame Packing)", "720p-50 (Frame Packing)" };

/* The row of a mode, or NULL. */
static inline const struct sync_row *syncs_of_mode(int vic) {
    for (size_t r = 0; vic && r < sizeof sync_rows / sizeof sync_rows[0]; r++)
        for (int v = 0; v < VICS_OF_A_ROW; v++)
            if (sync_rows[r].vics[v] == vic) return &sync_rows[r];
    return NULL;
}

/* ---- Matrices. */

/* A colour space and its range. */
enum space { RGB_LIMITED, RGB_FULL, HDTV_LIMITED, HDTV_FULL, SDTV_LIMITED, SDTV_FULL, SPACES };

/* Black, white and the grey between them, as A (red or Cr), B (green or Y) and C (blue or Cb) of Table 38, in 12-bit codes: an 8-bit
 * code times 16. Limited range is 16 to 235, full range 0 to 255; the chroma of all three is neutral. */
enum { LEVELS = 3, COEFFICIENTS_OF_A_TABLE = 12 };
static const char *const levels[LEVELS] = { "black", "white", "grey" };
static const struct { const char *name; uint32_t code[LEVELS][3]; } spaces[SPACES] = {
    [RGB_LIMITED] = { "RGB limited", { { 256, 256, 256 }, { 3760, 3760, 3760 }, { 2008, 2008, 2008 } } },
    [RGB_FULL] = { "RGB full", { { 0, 0, 0 }, { 4080, 4080, 4080 }, { 2040, 2040, 2040 } } },
    [HDTV_LIMITED] = { "HDTV YCbCr limited", { { 2048, 256, 2048 }, { 2048, 3760, 2048 }, { 2048, 2008, 2048 } } },
    [HDTV_FULL] = { "HDTV YCbCr full", { { 2048, 0, 2048 }, { 2048, 4080, 2048 }, { 2048, 2040, 2048 } } },
    [SDTV_LIMITED] = { "SDTV YCbCr limited", { { 2048, 256, 2048 }, { 2048, 3760, 2048 }, { 2048, 2008, 2048 } } },
    [SDTV_FULL] = { "SDTV YCbCr full", { { 2048, 0, 2048 }, { 2048, 4080, 2048 }, { 2048, 2040, 2048 } } },
};

/* A table: its number, from which space to which, and its register pairs A1 to A4 (0x18 to 0x1F), B1 to B4 and C1 to C4 (to 0x2F).
 * Table 55 is left out: its first row has lost cells in our copy. Table 64, the identity, is taken from RGB to RGB. */
static const struct table { uint8_t number; enum space from, to; uint16_t pairs[COEFFICIENTS_OF_A_TABLE]; } tables[] = {
    { 39, HDTV_LIMITED, RGB_LIMITED,
      { 0xAC53, 0x0800, 0x0000, 0x19D6,  0x1C56, 0x0800, 0x1E88, 0x0291,  0x1FFF, 0x0800, 0x0E85, 0x18BE } },
    { 40, HDTV_LIMITED, RGB_FULL,
      { 0xE734, 0x04AD, 0x0000, 0x1C1B,  0x1DDC, 0x04AD, 0x1F24, 0x0135,  0x0000, 0x04AD, 0x087C, 0x1B77 } },
    { 41, SDTV_LIMITED, RGB_LIMITED,
      { 0xAAF8, 0x0800, 0x0000, 0x1A84,  0x1A6A, 0x0800, 0x1D50, 0x0423,  0x1FFC, 0x0800, 0x0DDE, 0x1913 } },
    { 42, SDTV_LIMITED, RGB_FULL,
      { 0xE669, 0x04AC, 0x0000, 0x1C81,  0x1CBC, 0x04AD, 0x1E6E, 0x0220,  0x1FFE, 0x04AD, 0x081A, 0x1BA9 } },
    { 43, RGB_LIMITED, HDTV_LIMITED,
      { 0x882E, 0x1893, 0x1F3F, 0x0800,  0x0367, 0x0B71, 0x0128, 0x0000,  0x1E21, 0x19B2, 0x082D, 0x0800 } },
    { 44, RGB_FULL, HDTV_LIMITED,
      { 0x86FF, 0x19A6, 0x1F5B, 0x0800,  0x02E9, 0x09CB, 0x00FD, 0x0100,  0x1E66, 0x1A9B, 0x06FF, 0x0800 } },
    { 45, RGB_LIMITED, SDTV_LIMITED,
      { 0x882E, 0x1926, 0x1EAC, 0x0800,  0x04C9, 0x0965, 0x01D2, 0x0000,  0x1D3F, 0x1A93, 0x082E, 0x0800 } },
    { 46, RGB_FULL, SDTV_LIMITED,
      { 0x86FF, 0x1A24, 0x1EDD, 0x0800,  0x0418, 0x080A, 0x018F, 0x0100,  0x1DA5, 0x1B5C, 0x06FF, 0x0800 } },
    { 47, HDTV_LIMITED, SDTV_LIMITED,
      { 0xA7DD, 0x0000, 0x1F6C, 0x005B,  0x0188, 0x0800, 0x00CB, 0x1ED6,  0x1F1D, 0x0000, 0x07EB, 0x007B } },
    { 48, HDTV_LIMITED, SDTV_FULL,
      { 0xA8EB, 0x0000, 0x1F58, 0x1FDE,  0x01C9, 0x0950, 0x00EC, 0x1F25,  0x1EFF, 0x0000, 0x08FA, 0x031F } },
    { 49, SDTV_LIMITED, HDTV_LIMITED,
      { 0xA833, 0x0000, 0x0099, 0x1F99,  0x1E56, 0x0800, 0x1F13, 0x014B,  0x00EA, 0x0000, 0x0826, 0x1F78 } },
    { 50, SDTV_FULL, HDTV_LIMITED,
      { 0xC39D, 0x0000, 0x0043, 0x0F26,  0x1F44, 0x036F, 0x1F97, 0x00D2,  0x0067, 0x0000, 0x0397, 0x004D } },
    { 51, SDTV_LIMITED, SDTV_FULL,
      { 0xA91B, 0x0000, 0x0000, 0x1F6E,  0x0000, 0x0950, 0x0000, 0x1F6B,  0x0000, 0x0000, 0x091B, 0x1F6E } },
    { 52, HDTV_FULL, SDTV_LIMITED,
      { 0x8E0D, 0x0000, 0x0000, 0x0100,  0x0000, 0x0DBC, 0x0000, 0x0100,  0x0000, 0x0000, 0x0E0D, 0x0100 } },
    { 53, RGB_FULL, RGB_LIMITED,
      { 0x8DBC, 0x0000, 0x0000, 0x0100,  0x0000, 0x0DBC, 0x0000, 0x0100,  0x0000, 0x0000, 0x0DBC, 0x0100 } },
    { 54, RGB_LIMITED, RGB_FULL,
      { 0xA950, 0x0000, 0x0000, 0x1F6B,  0x0000, 0x0950, 0x0000, 0x1F6B,  0x0000, 0x0000, 0x0950, 0x1F6B } },
    { 56, HDTV_LIMITED, RGB_LIMITED,
      { 0xAC53, 0x0800, 0x0000, 0x19D6,  0x1C56, 0x0800, 0x1E88, 0x0291,  0x1FFF, 0x0800, 0x0E85, 0x18BE } },
    { 57, HDTV_LIMITED, RGB_FULL,
      { 0xE734, 0x04AD, 0x0000, 0x1C1B,  0x1DDC, 0x04AD, 0x1F24, 0x0135,  0x0000, 0x04AD, 0x087C, 0x1B77 } },
    { 58, SDTV_LIMITED, RGB_LIMITED,
      { 0xAAF8, 0x0800, 0x0000, 0x1A84,  0x1A6A, 0x0800, 0x1D50, 0x0423,  0x1FFC, 0x0800, 0x0DDE, 0x1913 } },
    { 59, SDTV_LIMITED, RGB_FULL,
      { 0xE669, 0x04AC, 0x0000, 0x1C81,  0x1CBC, 0x04AD, 0x1E6E, 0x0220,  0x1FFE, 0x04AD, 0x081A, 0x1BA9 } },
    { 60, RGB_LIMITED, HDTV_LIMITED,
      { 0x882E, 0x1893, 0x1F3F, 0x0800,  0x0367, 0x0B71, 0x0128, 0x0000,  0x1E21, 0x19B2, 0x082D, 0x0800 } },
    { 61, RGB_FULL, HDTV_LIMITED,
      { 0x86FF, 0x19A6, 0x1F5B, 0x0800,  0x02E9, 0x09CB, 0x00FD, 0x0100,  0x1E66, 0x1A9B, 0x06FF, 0x0800 } },
    { 62, RGB_LIMITED, SDTV_LIMITED,
      { 0x882E, 0x1926, 0x1EAC, 0x0800,  0x04C9, 0x0965, 0x01D2, 0x0000,  0x1D3F, 0x1A93, 0x082E, 0x0800 } },
    { 63, RGB_FULL, SDTV_LIMITED,
      { 0x86FF, 0x1A24, 0x1EDD, 0x0800,  0x0418, 0x080A, 0x018F, 0x0100,  0x1DA5, 0x1B5C, 0x06FF, 0x0800 } },
    { 64, RGB_FULL, RGB_FULL,
      { 0xA800, 0x0000, 0x0000, 0x0000,  0x0000, 0x0800, 0x0000, 0x0000,  0x0000, 0x0000, 0x0800, 0x0000 } },
};

/* A misprinted register pair: the table, which of the twelve pairs, and one that gives the codes of the table's title. Tables 40, 42, 57
 * and 59 print mode 3 beside A1; in the map it has the range of mode 2. The offsets B4 and C4 of Table 48 and A4 and C4 of Table 50 do
 * not keep black and neutral chroma in place: each is worked out anew from the other three of its row. */
static const struct correction { uint8_t table, pair; uint16_t value; } corrections[] = {
    { 40, 0, 0xC734 },
    { 42, 0, 0xC669 },
    { 48, 7, 0x1E10 },
    { 48, 11, 0x0003 },
    { 50, 3, 0x0010 },
    { 50, 11, 0x0001 },
    { 57, 0, 0xC734 },
    { 59, 0, 0xC669 },
};

/* A register pair of a table: as printed, or, `again`, as corrected. */
static inline uint16_t pair_of(const struct table *t, size_t i, int again) {
    for (size_t k = 0; again && k < sizeof corrections / sizeof corrections[0]; k++)
        if (corrections[k].table == t->number && corrections[k].pair == i) return corrections[k].value;
    return t->pairs[i];
}

/* The matrix body of a request for a table: the mode beside A1, then the low 13 bits of each pair, as 16 bits in two's complement. */
static inline void body_of(const struct table *t, int again, uint8_t *body) {
    body[0] = pair_of(t, 0, again) >> 13 & 3;
    for (size_t i = 0; i < COEFFICIENTS_OF_A_TABLE; i++) {
        uint16_t pair = pair_of(t, i, again);
        uint8_t high = pair >> 8 & 0x1F;
        body[1 + 2 * i] = high & 0x10 ? high | 0xE0 : high;
        body[2 + 2 * i] = (uint8_t)pair;
    }
}

#endif
