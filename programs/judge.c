#include "judge.h"
#include <stdarg.h>
#include <stdio.h>
#include <string.h>

const char *const fault_words[FAULTS] = {
    [NO_GROUP] = "a register of no group",
    [NOT_MANDATED] = "mandated bits",
    [FREE_MOVED] = "free bits moved",
    [TWO_HOLDS] = "two packet holds",
    [NOT_MUTED] = "not muted",
    [TORN_AVI] = "AVI torn",
    [TORN_AUDIO] = "audio torn",
    [TORN_MATRIX] = "matrix torn",
    [TORN_AT_VSYNC] = "matrix torn at the Vsync",
};

const char *const fault_says[FAULTS] = {
    [NO_GROUP] = "it holds no named bit, is in neither the AVI nor the audio packet and not in Table 14 of the guide; no list may write it",
    [NOT_MANDATED] = "the guide's tables fix these bits, and the value has them otherwise",
    [FREE_MOVED] = "these bits are nobody's here, and a list keeps them as they are before the pair",
    [TWO_HOLDS] = "it would leave two packet holds up, and the chip has one packet buffer. For the pairs before it the list ends before the "
                  "first such pair; those after it are tried by their own bits alone, on a chip that did not take it",
    [NOT_MUTED] = "after the first write and before the last the picture must be muted (0x4B in use, bit 6 is 1 and bit 7 is 0)",
    [TORN_AVI] = "the AVI InfoFrame in use is neither as it began nor as the list ends; its hold is 0x4A[6]",
    [TORN_AUDIO] = "the audio InfoFrame in use is neither as it began nor as the list ends; its hold is 0x4A[5]",
    [TORN_MATRIX] = "the twelve coefficients in use are neither as they began nor as the list ends; their hold is 0x1A[5]",
    [TORN_AT_VSYNC] = "a list has one Vsync, just before its last pair. There the coefficients that wait come into use, and they are "
                      "neither as they began nor as the list ends: the last pair must write none",
};

/* "touches only registers that hold a named bit, belong to the AVI or audio packet or stand in Table 14" */
int is_of_a_group(uint8_t address) {
    static const struct { uint8_t first, last; } others[] = {
        { 0x52, 0x61 }, { 0x70, 0x7C },
        { 0x98, 0x98 }, { 0x9A, 0x9A }, { 0x9C, 0x9C }, { 0x9D, 0x9D }, { 0xA2, 0xA3 }, { 0xE0, 0xE0 }, { 0xF9, 0xF9 },
    };
    for (size_t o = 0; o < sizeof others / sizeof others[0]; o++)
        if (address >= others[o].first && address <= others[o].last) return 1;
    return station_class(address).named != 0;
}

/* The rules of the pair itself, by the byte before it; and the write. A register of no group has no other rule. */
static void judge_pair(struct chip *c, const uint8_t *pair, struct judged *p) {
    struct station_masks m = station_class(pair[0]);
    memset(p, 0, sizeof *p);
    p->before = c->image[pair[0]];
    if (is_of_a_group(pair[0])) {
        p->mandated = (uint8_t)((pair[1] ^ m.value) & m.mandated);
        p->moved = (uint8_t)((pair[1] ^ p->before) & m.free_bits);
    } else p->broken[NO_GROUP] = 1;
    p->broken[NOT_MANDATED] = p->mandated != 0;
    p->broken[FREE_MOVED] = p->moved != 0;
    p->broken[TWO_HOLDS] = chip_write(c, pair) == STATION_TWO_HOLDS;
    p->after = p->broken[TWO_HOLDS] ? pair[1] : c->image[pair[0]];
    p->now = chip_sent(c);
}

int is_bad(const struct judged *p) {
    int bad = 0;
    for (int f = 0; f < FAULTS; f++) bad |= p->broken[f];
    return bad;
}

enum { PACKET_HOLDS = 0x4A, GC_HOLD = 0x10, OTHER_HOLDS = 0x60, ALL_HOLDS = 0x70 };

/* How many pairs come before the first that would leave two packet holds up. */
static uint32_t end_of(const uint8_t *list, uint32_t count) {
    for (uint32_t i = 0; i < count; i++) {
        uint8_t up = list[2 * i + 1] & ALL_HOLDS;
        if (list[2 * i] == PACKET_HOLDS && (up & (up - 1))) return i;
    }
    return count;
}

/* What would be in use if a Vsync came now, and what is old by then. */
static void look_ahead(struct chip c, struct beginning b, struct judged *p) {
    chip_vsync(&c);
    chip_follow(&b, &c, 1);
    p->then = chip_sent(&c);
    p->old_then = b.old;
}

/* The rules of the cuts: "as it began or as the list ends". What did not wait is after the Vsync as it was before. */
static void judge_cuts(struct judgement *j) {
    for (uint32_t i = 0; i + 1 < j->end; i++) {
        struct judged *p = &j->pairs[i];
        p->broken[NOT_MUTED] = p->now.mute != STATION_MUTED;
        for (int g = 0; g < GROUPS; g++) p->broken[TORN_AVI + g] = age((enum group)g, &p->now, &j->old, &j->new) == NEITHER;
        if (!p->now.waiting) continue;
        if (waits_before(i + 1, j->end)) p->broken[TORN_AT_VSYNC] = age(MATRIX, &p->then, &j->old, &j->new) == NEITHER;
        else p->early = age(MATRIX, &p->then, &p->old_then, &j->new) == NEITHER;
    }
}

static void run(const struct chip *start, const uint8_t *list, struct judgement *j) {
    struct chip c = *start;
    struct beginning b = chip_begin(start);
    j->last = c;
    j->old = b.old;
    for (uint32_t i = 0; i < j->count; i++) {
        if (waits_before(i, j->end)) {
            chip_vsync(&c);
            chip_follow(&b, &c, 1);
            j->turned_over = chip_sent(&c);
        }
        judge_pair(&c, list + 2 * i, &j->pairs[i]);
        chip_follow(&b, &c, 0);
        look_ahead(c, b, &j->pairs[i]);
        if (i < j->end) j->last = c;
    }
    j->new = chip_sent(&j->last);
}

void judge(const struct chip *start, const uint8_t *list, size_t length, struct judgement *j) {
    uint8_t request[STATION_REQUEST], holds = start->image[PACKET_HOLDS];
    memset(j, 0, sizeof *j);
    if ((holds & GC_HOLD) || (holds & OTHER_HOLDS) == OTHER_HOLDS) {
        j->verdict.refusal = STATION_HOLDS_UP;
        return;
    }
    if (length % 2 || length > STATION_LIST) {
        j->verdict.refusal = STATION_LIST_LENGTH;
        return;
    }
    j->count = (uint32_t)length / 2;
    j->end = end_of(list, j->count);
    run(start, list, j);
    judge_cuts(j);
    for (uint32_t i = 0; i < j->count; i++)
        if (is_bad(&j->pairs[i])) {
            j->verdict.refusal = STATION_BAD_PAIR;
            j->verdict.place = i;
            return;
        }
    if (station_decode(j->last.image, STATION_IMAGE, request, STATION_REQUEST).refusal) j->verdict.refusal = STATION_BAD_END;
}

static void add(char *text, const char *format, ...) {
    size_t used = strlen(text);
    va_list list;
    va_start(list, format);
    vsnprintf(text + used, TEXT_OF_FAULTS - used, format, list);
    va_end(list);
}

/* The bits of a mask, each stretch of them with its value. */
static void add_bits(char *text, uint8_t address, uint8_t mask, uint8_t value, const char *must) {
    const char *between = ": ";
    for (int high = 7; high >= 0; high--) {
        int low = high;
        if (!(mask >> high & 1)) continue;
        while (low > 0 && (mask >> (low - 1) & 1)) low--;
        if (low < high) add(text, "%s0x%02X[%d:%d] %s ", between, address, high, low, must);
        else add(text, "%s0x%02X[%d] %s ", between, address, high, must);
        for (int bit = high; bit >= low; bit--) add(text, "%d", value >> bit & 1);
        between = ", ";
        high = low;
    }
}

void text_of_faults(uint8_t address, const struct judged *p, char text[TEXT_OF_FAULTS]) {
    *text = 0;
    for (int f = 0; f < FAULTS; f++) {
        if (!p->broken[f]) continue;
        add(text, "%s%s", *text ? "; " : "", fault_words[f]);
        if (f == NOT_MANDATED) add_bits(text, address, p->mandated, (uint8_t)station_class(address).value, "must be");
        if (f == FREE_MOVED) add_bits(text, address, p->moved, p->before, "was");
    }
}

struct station_verdict vet(const struct chip *c, const uint8_t *list, size_t length) {
    return station_vet(c->image, STATION_IMAGE, c->packet, STATION_PACKET, c->coefficients, STATION_COEFFICIENTS, c->mark[0], list,
                       length);
}
