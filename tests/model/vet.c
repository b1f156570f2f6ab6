/* A vendor's list: document 02, requests 03 and 04, and their readings. */
#include "model.h"

struct in_use model_in_use(const struct chip *c) {
    struct in_use u;
    uint8_t holds = c->image[0x4A];
    u.gc = holds & 0x10 ? c->packet[0] : c->image[0x4B];
    for (int i = 0; i < AVI_BYTES; i++) u.avi[i] = holds & 0x40 ? c->packet[i] : c->image[0x52 + i];
    for (int i = 0; i < AUDIO_BYTES; i++) u.audio[i] = holds & 0x20 ? c->packet[i] : c->image[0x70 + i];
    for (int i = 0; i < 12; i++) {
        const uint8_t *two = model_matrix_in_use(c) + 2 * i;
        u.coefficient[i] = (two[0] & 0x1F) * 256 + two[1];      /* the low 13 bits of its pair */
    }
    return u;
}

int model_muted(const struct in_use *u) { return (u->gc >> 6 & 1) == 1 && (u->gc >> 7 & 1) == 0; }

static int same_bytes(const uint8_t *a, const uint8_t *b, int n) {
    for (int i = 0; i < n; i++)
        if (a[i] != b[i]) return 0;
    return 1;
}
int model_same_avi(const struct in_use *a, const struct in_use *b) { return same_bytes(a->avi, b->avi, AVI_BYTES); }
int model_same_audio(const struct in_use *a, const struct in_use *b) { return same_bytes(a->audio, b->audio, AUDIO_BYTES); }
int model_same_matrix(const struct in_use *a, const struct in_use *b) {
    for (int i = 0; i < 12; i++)
        if (a->coefficient[i] != b->coefficient[i]) return 0;
    return 1;
}

/* The rule that a pair itself breaks, on the state before it. */
static enum rule pair_breaks(const struct chip *before, uint8_t address, uint8_t value) {
    const struct model_class *c = &model_classes[address];
    struct chip after = *before;
    if (!model_written(address)) return OTHER_REGISTER;
    if ((value & c->mandated) != c->bits) return MANDATED_BITS;
    if ((value & c->free) != (before->image[address] & c->free)) return FREE_BITS;
    if (model_run(&after, address, value) != 0) return TWO_HOLDS;
    return NO_RULE;
}

/* The rule that a cut between the first pair and the last breaks. */
enum rule model_cut_breaks(const struct in_use *now, const struct in_use *old, const struct in_use *end) {
    if (!model_muted(now)) return NOT_MUTED;
    if (!model_same_avi(now, old) && !model_same_avi(now, end)) return AVI_GROUP;
    if (!model_same_audio(now, old) && !model_same_audio(now, end)) return AUDIO_GROUP;
    if (!model_same_matrix(now, old) && !model_same_matrix(now, end)) return MATRIX_GROUP;
    return NO_RULE;
}

/* So many pairs run: all of them, or those before the first that would leave two packet holds up. */
static uint32_t pairs_run(const struct chip *start, const uint8_t *list, uint32_t count) {
    struct chip c = *start;
    uint32_t n = 0;
    while (n < count && model_run(&c, list[2 * n], list[2 * n + 1]) == 0) n++;
    return n;
}

/* The state after them: one Vsync comes just before the last of them. */
static struct chip end_of(const struct chip *start, const uint8_t *list, uint32_t ends) {
    struct chip c = *start;
    for (uint32_t i = 0; i < ends; i++) {
        if (i + 1 == ends) model_edge(&c);
        model_run(&c, list[2 * i], list[2 * i + 1]);
    }
    return c;
}

/* The first bad pair, or `count`. */
static uint32_t first_bad(const struct chip *start, const uint8_t *list, uint32_t count, enum rule *rule) {
    uint32_t ends = pairs_run(start, list, count);
    struct chip last = end_of(start, list, ends), now = *start;
    struct in_use old = model_in_use(start), end = model_in_use(&last), at_cut;
    *rule = NO_RULE;
    for (uint32_t i = 0; i < count; i++) {
        *rule = pair_breaks(&now, list[2 * i], list[2 * i + 1]);
        if (*rule != NO_RULE) return i;
        model_run(&now, list[2 * i], list[2 * i + 1]);
        if (i + 1 >= ends) continue;                            /* no pair follows: no cut */
        at_cut = model_in_use(&now);
        *rule = model_cut_breaks(&at_cut, &old, &end);
        if (*rule != NO_RULE) return i;
        if (i + 2 < ends) continue;                             /* the last pair follows: between the Vsync and it is a cut too */
        model_edge(&now);
        at_cut = model_in_use(&now);
        *rule = model_cut_breaks(&at_cut, &old, &end);
        if (*rule == MATRIX_GROUP) *rule = MATRIX_AT_VSYNC;
        if (*rule != NO_RULE) return i;
    }
    return count;
}

struct station_verdict model_judge(const struct chip *c, const uint8_t *list, size_t length, enum rule *rule) {
    struct chip last = *c;
    struct fields f;
    uint32_t count = (uint32_t)(length / 2);
    *rule = NO_RULE;
    if ((c->image[0x4A] & 0x10) || (c->image[0x4A] & 0x60) == 0x60) return (struct station_verdict){ 8, 0 };
    if (length % 2 != 0 || length > 2 * MOST_PAIRS) return (struct station_verdict){ 14, 0 };
    uint32_t bad = first_bad(c, list, count, rule);
    if (bad < count) return (struct station_verdict){ 15, bad };
    for (uint32_t i = 0; i < count; i++) model_run(&last, list[2 * i], list[2 * i + 1]);
    if (!model_ends(last.image, NONE_FREE, &f)) return (struct station_verdict){ 16, 0 };
    return (struct station_verdict){ 0, 0 };
}

const char *const model_rules[RULES] = {
    "none", "register", "mandated bits", "free bits", "two holds", "not muted", "AVI group", "audio group", "coefficients",
    "coefficients at its Vsync",
};
