/* Sound that fits (document 02, request 10): HDMI 1.4's blanking rule on CEA-861's timings. Both are from memory, for no source here has
 * them; tests/sound.c holds the timings to the clocks of document 01, and the rule to the rows that the standard prints. */
#include "model.h"

/* In each line's blanking the standard leaves 58 clocks to content protection for its re-synchronisation, though we never build it. The
 * rest has the island's two guard bands and a shortest control period, and packets of 32 clocks, 18 in one island at most; one island a
 * line is enough for every rate of ours. */
enum { RESYNCHRONISATION = 58, GUARD_BANDS = 2 + 2, CONTROL_PERIOD = 12, OF_A_PACKET = 32, OF_AN_ISLAND = 18 };

struct timing model_timing(int vic) {
    switch (vic) {
    case 1: return (struct timing){ 800, 640, 525, 60, 1 };
    case 2: case 3: return (struct timing){ 858, 720, 525, 60, 1 };
    case 4: return (struct timing){ 1650, 1280, 750, 60, 1 };
    case 5: return (struct timing){ 2200, 1920, 1125, 60, 2 };
    case 16: return (struct timing){ 2200, 1920, 1125, 60, 1 };
    case 17: case 18: return (struct timing){ 864, 720, 625, 50, 1 };
    case 19: return (struct timing){ 1980, 1280, 750, 50, 1 };
    case 20: return (struct timing){ 2640, 1920, 1125, 50, 2 };
    case 31: return (struct timing){ 2640, 1920, 1125, 50, 1 };
    case 32: return (struct timing){ 2750, 1920, 1125, 24, 1 };
    case 34: return (struct timing){ 2200, 1920, 1125, 30, 1 };
    case 60: return (struct timing){ 3300, 1280, 750, 24, 1 };
    case 62: return (struct timing){ 3300, 1280, 750, 30, 1 };
    default: return (struct timing){ 0, 0, 0, 0, 1 };
    }
}

uint64_t model_packets(struct timing t, int repetition) {
    uint64_t blanking = (t.total - t.active) << repetition, taken = RESYNCHRONISATION + GUARD_BANDS + CONTROL_PERIOD;
    uint64_t packets = blanking > taken ? (blanking - taken) / OF_A_PACKET : 0;
    return packets < OF_AN_ISLAND ? packets : OF_AN_ISLAND;
}

/* Packets of all lines of a second, those without a picture too; a packet has four samples of two channels, or one of eight. */
int model_fits(struct timing t, int repetition, uint64_t rate, int channels) {
    uint64_t samples = channels == 2 ? 4 : 1;
    return samples * model_packets(t, repetition) * t.lines * t.vertical >= rate * t.fields;
}
