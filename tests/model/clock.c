/* Modes and clocks; N and CTS. The exact pair is found by trying every N, once for each mode, depth, repetition and rate. */
#include "model.h"

const int model_vics[VICS] = { 1, 2, 3, 4, 5, 16, 17, 18, 19, 20, 31, 32, 34, 60, 62 };

uint32_t model_hertz(int vic) {
    switch (vic) {
    case 1: return 25200000;
    case 2: case 3: return 27027000;
    case 4: case 5: case 32: case 34: case 62: return 74250000;
    case 60: return 59400000;
    case 16: return 148500000;
    case 17: case 18: return 27000000;
    case 19: case 20: return 74250000;
    case 31: return 148500000;
    default: return 0;
    }
}

int model_offers(int vic, int family) {
    int only_0 = vic == 17 || vic == 18 || vic == 19 || vic == 20 || vic == 31;
    return model_hertz(vic) != 0 && (family == 0 || (family == 1 && !only_0));
}

/* 24, 30 and 36 bits: 1, 5/4 and 3/2; none, twice, four times. Not in lowest terms: clocks are compared crosswise. */
struct clock model_clock(int vic, int family, int depth, int repetition) {
    static const uint64_t depth_top[DEPTHS] = { 1, 5, 3 }, depth_bottom[DEPTHS] = { 1, 4, 2 }, times[REPETITIONS] = { 1, 2, 4 };
    struct clock c = { model_hertz(vic), 1 };
    if (family) c.top *= 1000, c.bottom *= 1001;
    c.top *= depth_top[depth] * times[repetition];
    c.bottom *= depth_bottom[depth];
    return c;
}

/* 225,000,000 Hz itself is allowed. */
int model_above_limit(struct clock c) { return c.top > 225000000 * c.bottom; }

uint64_t model_rate(int rate) {
    static const uint64_t rates[RATES] = { 32000, 44100, 48000, 88200, 96000, 176400, 192000 };
    return rates[rate];
}

/* The row "Other" of Tables 80 to 82. */
static const uint32_t other[RATES] = { 4096, 6272, 6144, 12544, 12288, 25088, 24576 };

/* Tables 80 to 82, all of their clocks, for 32, 44.1, 48, 88.2, 96, 176.4, 192 kHz. Where 000 misprints, HDMI 1.4's
 * numbers: CTS 165000 for 148.5 MHz at 44.1 kHz and its multiples (printed 16500), N 23296 and 11648 for 74.25/1.001 and 148.5/1.001 at
 * 96 kHz (printed 35672 and 17836). The clock is hertz * top / bottom. */
static const struct {
    uint64_t hertz, top, bottom;
    uint32_t n[RATES], cts[RATES];
} recommended[] = {
    { 25200000, 1000, 1001, { 4576, 7007, 6864, 14014, 13728, 28028, 27456 }, { 28125, 31250, 28125, 31250, 28125, 31250, 28125 } },
    { 25200000, 1, 1, { 4096, 6272, 6144, 12544, 12288, 25088, 24576 }, { 25200, 28000, 25200, 28000, 25200, 28000, 25200 } },
    { 27000000, 1, 1, { 4096, 6272, 6144, 12544, 12288, 25088, 24576 }, { 27000, 30000, 27000, 30000, 27000, 30000, 27000 } },
    { 27000000, 1001, 1000, { 4096, 6272, 6144, 12544, 12288, 25088, 24576 }, { 27027, 30030, 27027, 30030, 27027, 30030, 27027 } },
    { 54000000, 1, 1, { 4096, 6272, 6144, 12544, 12288, 25088, 24576 }, { 54000, 60000, 54000, 60000, 54000, 60000, 54000 } },
    { 54000000, 1001, 1000, { 4096, 6272, 6144, 12544, 12288, 25088, 24576 }, { 54054, 60060, 54054, 60060, 54054, 60060, 54054 } },
    { 74250000, 1000, 1001, { 11648, 17836, 11648, 35672, 23296, 71344, 46592 },
      { 210937, 234375, 140625, 234375, 140625, 234375, 140625 } },   /* 32 kHz is printed "210937 - 210938": not exact */
    { 74250000, 1, 1, { 4096, 6272, 6144, 12544, 12288, 25088, 24576 }, { 74250, 82500, 74250, 82500, 74250, 82500, 74250 } },
    { 148500000, 1000, 1001, { 11648, 8918, 5824, 17836, 11648, 35672, 23296 },
      { 421875, 234375, 140625, 234375, 140625, 234375, 140625 } },
    { 148500000, 1, 1, { 4096, 6272, 6144, 12544, 12288, 25088, 24576 }, { 148500, 165000, 148500, 165000, 148500, 165000, 148500 } },
};

/* 128 fs = clock N / CTS, CTS whole and at most 1,048,575, N from 128 fs / 1500 to 128 fs / 300. */
static int exact(struct clock c, uint64_t fs, uint64_t n, uint64_t cts) {
    return cts <= 1048575 && 128 * fs * cts * c.bottom == c.top * n && 1500 * n >= 128 * fs && 300 * n <= 128 * fs;
}

struct pair model_coherent(struct clock c, int rate) {
    uint64_t fs = model_rate(rate);
    for (size_t i = 0; i < sizeof recommended / sizeof recommended[0]; i++) {
        uint32_t n = recommended[i].n[rate], cts = recommended[i].cts[rate];
        int same_clock = c.top * recommended[i].bottom == recommended[i].hertz * recommended[i].top * c.bottom;
        if (same_clock && exact(c, fs, n, cts)) return (struct pair){ 1, n, cts };
    }
    struct pair best = { 0, 0, 0 };
    uint64_t best_distance = 0;
    for (uint64_t n = 1; 300 * n <= 128 * fs; n++) {
        uint64_t above = c.top * n, below = 128 * fs * c.bottom;
        if (above % below != 0 || !exact(c, fs, n, above / below)) continue;
        uint64_t distance = 1000 * n > 128 * fs ? 1000 * n - 128 * fs : 128 * fs - 1000 * n;
        if (!best.exists || distance < best_distance) {     /* rising N, so the smaller one stays on a tie */
            best = (struct pair){ 1, (uint32_t)n, (uint32_t)(above / below) };
            best_distance = distance;
        }
    }
    return best;
}

struct pair model_pair(const struct fields *f) {
    static struct known { int asked; struct pair pair; } known[64][2][DEPTHS][REPETITIONS][RATES];
    if (!f->sound) return (struct pair){ 1, 6144, 0 };
    if (!f->coherent) return (struct pair){ 1, other[f->rate], 0 };
    struct known *k = &known[f->vic][f->family][f->depth][f->repetition][f->rate];
    if (!k->asked) *k = (struct known){ 1, model_coherent(model_clock(f->vic, f->family, f->depth, f->repetition), f->rate) };
    return k->pair;
}
