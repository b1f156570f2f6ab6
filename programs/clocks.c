#include "clocks.h"
#include "fields.h"
#include <inttypes.h>

enum { TIMES = 128, KHZ_48 = 2 };
const uint32_t hertz[] = { 32000, 44100, 48000, 88200, 96000, 176400, 192000 };

struct station_pair ask(uint8_t vic, uint8_t family, int depth, int repetition, int rate, int coherent) {
    struct request q = request_of_text("vic %u family=%u rgb hdmi depth=%d repetition=%d audio rate=%d 2 coherent=%d", vic, family, depth,
                                       repetition, rate, coherent);
    return station_ncts(q.bytes, q.length);
}

static uint64_t divisor(uint64_t a, uint64_t b) { return b ? divisor(b, a % b) : a; }

static struct clock lowest(uint64_t over, uint64_t under) {
    uint64_t d = divisor(over, under);
    return d ? (struct clock){ over / d, under / d } : (struct clock){ 0, 1 };
}

static struct clock times(struct clock a, struct clock b) { return lowest(a.over * b.over, a.under * b.under); }

/* The clock that an exact pair rests on is 128 fs CTS / N. */
struct clock pixel_clock(uint8_t vic, uint8_t family) {
    struct station_pair p = ask(vic, family, 0, 0, KHZ_48, 1);
    return p.refusal ? (struct clock){ 0, 1 } : lowest((uint64_t)TIMES * hertz[KHZ_48] * p.cts, p.n);
}

struct clock of_depth(int depth) { return lowest(4 + (uint64_t)depth, 4); }
struct clock of_repetition(int repetition) { return lowest((uint64_t)1 << repetition, 1); }

struct clock tmds_clock(uint8_t vic, uint8_t family, int depth, int repetition) {
    return times(pixel_clock(vic, family), times(of_depth(depth), of_repetition(repetition)));
}

int is_above(struct clock c) { return c.over > HIGHEST_CLOCK * c.under; }

int rests_on(struct station_pair p, int rate, struct clock c) {
    return (uint64_t)TIMES * hertz[rate] * p.cts * c.under == c.over * p.n;
}

double megahertz(struct clock c) { return (double)c.over / (double)c.under / 1e6; }

const char *text_of_clock(struct clock c, char *text, size_t room) {
    if (c.under == 1) snprintf(text, room, "%" PRIu64, c.over);
    else snprintf(text, room, "%" PRIu64 "/%" PRIu64, c.over, c.under);
    return text;
}
