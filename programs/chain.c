#include "chain.h"
#include <stdarg.h>
#include <stdio.h>
#include <string.h>

enum { PACKET_HOLDS = 0x4A, THEIR_BITS = 0x70 };

/* ---- The generator, SplitMix64: whole numbers only, so a seed gives the same chain everywhere. Each draw is a statement of its own, for C
 * does not say which of two in one expression comes first. */

static uint32_t any(struct chain *c, uint32_t below) {
    uint64_t z = c->random += 0x9E3779B97F4A7C15u;
    z = (z ^ z >> 30) * 0xBF58476D1CE4E5B9u;
    z = (z ^ z >> 27) * 0x94D049BB133111EBu;
    return (uint32_t)((z ^ z >> 31) >> 32) % below;
}

static void any_bytes(struct chain *c, uint8_t *bytes, size_t length) {
    for (size_t i = 0; i < length; i++) bytes[i] = (uint8_t)any(c, 256);
}

/* ---- Requests. */

/* "": no matrix; one of the guide; or any numbers. */
static void any_matrix(struct chain *c, char *text, size_t room) {
    uint32_t how = any(c, 3), n = any(c, 16);
    *text = 0;
    if (how == 1) snprintf(text, room, "matrix table%u", (unsigned)(39 + n));
    if (how == 2) {
        size_t used = (size_t)snprintf(text, room, "matrix %u", (unsigned)(n % 3));
        for (int i = 0; i < 12; i++) used += (size_t)snprintf(text + used, room - used, " %d", (int)any(c, 8192) - 4096);
    }
}

/* "": today's board; or any ID with any codes, and sync values where it has them. */
static void any_wiring(struct chain *c, char *text, size_t room) {
    uint32_t is_other = any(c, 2), id = 1 + any(c, (uint32_t)number_of_wirings - 1), width = 1 + any(c, 3), style = 1 + any(c, 3), side = any(c, 3);
    uint32_t values[4];
    for (int k = 0; k < 4; k++) values[k] = any(c, LARGEST_SYNC_VALUE + 1);
    *text = 0;
    if (!is_other) return;
    size_t used = (size_t)snprintf(text, room, "input id=%u width=%u style=%u justified=%u", (unsigned)id, (unsigned)width, (unsigned)style,
                                   (unsigned)side);
    if (is_embedded(wiring_of_id((int)id)))
        snprintf(text + used, room - used, " syncs %u %u %u %u", (unsigned)values[0], (unsigned)values[1], (unsigned)values[2], (unsigned)values[3]);
}

/* Words that may stand together, or not: the library says. */
static struct request any_request(struct chain *c) {
    static const char *const families[] = { "whole", "/1.001" }, *const encodings[] = { "rgb", "ycbcr422", "ycbcr444" },
        *const wires[] = { "hdmi", "dvi" }, *const ranges[] = { "limited", "full" }, *const coherent[] = { "coherent", "not-coherent" },
        *const rates[] = { "32kHz", "44.1kHz", "48kHz", "88.2kHz", "96kHz", "176.4kHz", "192kHz" }, *const channels[] = { "2", "8" },
        *const depths[] = { "24bit", "30bit", "36bit" }, *const repetitions[] = { "once", "twice", "four-times" },
        *const editions[] = { "861-d", "861-e" }, *const quantisations[] = { "ycc-limited", "ycc-full" },
        *const contents[] = { "no-type", "photo", "cinema", "game" };
    char sound[40] = "", matrix[120], wiring[80];
    uint32_t mode = any(c, (uint32_t)number_of_modes), family = any(c, 4) == 0, encoding = any(c, 3), wire = any(c, 5) == 0;
    uint32_t range = any(c, 3) == 0, silent = any(c, 3) == 0, rate = any(c, 7), channel = any(c, 2), by = any(c, 2);
    uint32_t deep = any(c, 2), depth = any(c, 3), repeated = any(c, 2), repetition = any(c, 3);
    uint32_t edition = any(c, 2), quantisation = any(c, 2), content = any(c, 4);
    if (!deep) depth = 0;
    if (!repeated) repetition = 0;
    if (!edition) quantisation = content = 0;
    if (!silent) snprintf(sound, sizeof sound, "audio %s %s %s", rates[rate], channels[channel], coherent[by]);
    any_matrix(c, matrix, sizeof matrix);
    any_wiring(c, wiring, sizeof wiring);
    return request_of_text("%s vic %u %s %s %s %s %s %s %s %s %s %s %s", wiring, (unsigned)modes[mode].vic, families[family], encodings[encoding],
                           wires[wire], ranges[range], depths[depth], repetitions[repetition], editions[edition],
                           quantisations[quantisation], contents[content], sound, matrix);
}

static struct station_count plan(const struct request *q, const struct chip *c, uint8_t *list) {
    return station_plan(q->bytes, q->length, c->image, STATION_IMAGE, list, STATION_WRITES);
}

/* A request that is accepted on this chip, its list, and Vsyncs among the writes: none, few or many. `again` keeps the request. */
static void draw_link(struct chain *c, const struct chip *now, int again) {
    static const uint32_t most[] = { 0, 3, PLACES };
    struct link *l = &c->now;
    struct station_count n = { STATION_INPUT_ENDS, 0 };
    if (again) n = plan(&l->asked, now, l->list);
    while (n.refusal) {
        l->asked = any_request(c);
        n = plan(&l->asked, now, l->list);
    }
    uint32_t how = most[any(c, 3)];
    l->besides.count = how ? 1 + any(c, how) : 0;
    for (size_t i = 0; i < l->besides.count; i++) l->besides.at[i] = (long)any(c, n.count + 1);
    events_of(&l->events, n.count, &l->besides, -1);
}

/* ---- The chain. */

static int is_held(const struct chip *c) { return chip_holds(c, AVI) || chip_holds(c, AUDIO) || chip_holds(c, MATRIX); }

void chain_begin(struct chain *c, long seed) {
    static const uint8_t one_at_most[] = { 0, 0x40, 0x20 };
    struct chip left;
    int tries = 99;
    memset(c, 0, sizeof *c);
    c->random = (uint64_t)seed;
    any_bytes(c, c->start.image, STATION_IMAGE);
    c->start.image[PACKET_HOLDS] &= (uint8_t)~THEIR_BITS;
    c->start.image[PACKET_HOLDS] |= one_at_most[any(c, 3)];
    any_bytes(c, c->start.packet, STATION_PACKET);
    any_bytes(c, c->start.coefficients, STATION_COEFFICIENTS);
    uint32_t how = any(c, 8);
    c->left = how == 0 ? LEFT_NOISE : how < 4 ? LEFT_CUT : LEFT_FINISHED;
    if (c->left != LEFT_NOISE) {
        draw_link(c, &c->start, 0);
        chip_run(&c->start, c->now.list, c->now.events.writes);
    }
    if (c->left == LEFT_CUT) {
        draw_link(c, &c->start, 0);
        do {
            uint32_t happen = any(c, c->now.events.count + 1);
            left = c->start;
            for (uint32_t k = 0; k < happen; k++) chip_event(&left, &c->now.events.at[k], c->now.list);
        } while (--tries && (!is_held(&left) || chip_sent(&left).waiting));
        c->start = left;
    }
    uint32_t mark = any(c, 256);
    if (chip_holds(&c->start, MATRIX)) c->start.mark[0] = (uint8_t)mark;        /* beside a raised hold it counts for nothing */
    c->links = FEWEST_LINKS + any(c, LINKS - FEWEST_LINKS + 1);
    c->alone = c->start;
    c->asked[0] = chip_sent(&c->start);
    c->mute = c->asked[0].mute;
}

int chain_next(struct chain *c, const struct chip *now) {
    uint8_t list[STATION_WRITES];
    struct link *l = &c->now;
    if (c->number == c->links) return 0;
    int again = any(c, 4) == 0 && c->number > 0;                /* as a host that is started again by the same command */
    draw_link(c, now, again);
    uint32_t through = any(c, 5), happen = any(c, l->events.count + 1);
    c->number++;
    l->is_cut = through != 0 && c->number < c->links;
    l->happen = l->is_cut ? happen : l->events.count;
    c->alone = c->start;
    struct station_count n = plan(&l->asked, &c->start, list);
    chip_run(&c->alone, list, n.count);
    c->asked[c->number] = chip_sent(&c->alone);
    return 1;
}

void chain_follow(struct chain *c, uint32_t event) {
    const struct event *e = &c->now.events.at[event];
    if (e->kind == WRITE) c->mute = e->write + 1 == c->now.events.writes ? STATION_OPEN : STATION_MUTED;
}

/* ---- What must hold. */

static const char *const names[GROUPS] = { [AVI] = "the AVI InfoFrame", [AUDIO] = "the audio InfoFrame", [MATRIX] = "the coefficients" };

/* The first that does not hold is the one that is told. */
static void tell(char fault[TEXT_OF_A_FAULT], const char *format, ...) {
    va_list list;
    if (*fault) return;
    va_start(list, format);
    vsnprintf(fault, TEXT_OF_A_FAULT, format, list);
    va_end(list);
}

/* The bits of each register that no list moves: the free ones and the read-only ones. */
static const uint8_t *kept_bits(void) {
    static uint8_t kept[STATION_IMAGE];
    static int known;
    for (int a = 0; !known && a < STATION_IMAGE; a++) {
        struct station_masks m = station_class((uint8_t)a);
        kept[a] = (uint8_t)(m.free_bits | m.read_only);
    }
    known = 1;
    return kept;
}

static int is_of(const struct chain *c, enum group g, const struct sent *now, int k) {
    return k >= OF_THE_BEGINNING && age(g, now, &c->asked[k], &c->asked[k]) != NEITHER;
}

static int whose(const struct chain *c, enum group g, const struct sent *now) {
    for (int k = (int)c->number; k >= OF_THE_BEGINNING; k--)
        if (is_of(c, g, now, k)) return k;
    return MIXED;
}

static struct point point_of(const struct chain *c, const struct chip *now) {
    static const char *const mutes[4] = { "neither muted nor open", "muted", "open", "neither muted nor open" };
    struct point p = { .sent = chip_sent(now) };
    const uint8_t *kept = kept_bits();
    for (int g = 0; g < GROUPS; g++) {
        p.whose[g] = whose(c, (enum group)g, &p.sent);
        if (p.whose[g] == MIXED) tell(p.fault, "%s in use: neither as at the beginning nor whole as a request so far asked", names[g]);
    }
    for (int a = 0; a < STATION_IMAGE; a++)
        if ((now->image[a] ^ c->start.image[a]) & kept[a])
            tell(p.fault, "register 0x%02X: a free or read-only bit is not as at the beginning", (unsigned)a);
    if (p.sent.mute != c->mute) tell(p.fault, "the picture is %s, and must be %s", mutes[p.sent.mute & 3], mutes[c->mute & 3]);
    return p;
}

struct point chain_point(struct chain *c, const struct chip *now) {
    struct point p = point_of(c, now);
    for (int g = 0; g < GROUPS; g++) {
        if (is_of(c, (enum group)g, &p.sent, c->named[g])) p.whose[g] = c->named[g];
        c->named[g] = p.whose[g];
    }
    return p;
}

void chain_end(const struct chain *c, const struct chip *now, char fault[TEXT_OF_A_FAULT]) {
    struct point p = point_of(c, now);
    struct request last = as_read_back(c->now.asked);
    uint8_t back[STATION_REQUEST];
    *fault = 0;
    tell(fault, "%s", p.fault);
    for (int g = 0; g < GROUPS; g++)
        if (p.whose[g] != (int)c->number) tell(fault, "%s in use: not as the last request asked", names[g]);
    if (p.sent.waiting) tell(fault, "a change of the coefficients waits");
    for (int a = 0; a < STATION_IMAGE; a++)
        if (now->image[a] != c->alone.image[a]) tell(fault, "register 0x%02X: not as the last request alone makes it", (unsigned)a);
    struct station_count n = station_decode(now->image, STATION_IMAGE, back, sizeof back);
    if (n.refusal || n.count != last.length || memcmp(back, last.bytes, last.length)) tell(fault, "the last request does not read back");
}

/* ---- In words. */

const char *text_of_beginning(const struct chain *c) {
    static char text[96];
    static const char *const lefts[WAYS_LEFT] = { [LEFT_FINISHED] = "a finished request", [LEFT_CUT] = "a run that was cut",
                                             [LEFT_NOISE] = "nobody, its registers noise" };
    static const char *const holds[GROUPS] = { [AVI] = "AVI", [AUDIO] = "audio", [MATRIX] = "coefficient" };
    snprintf(text, sizeof text, "%s", lefts[c->left]);
    for (int g = 0; g < GROUPS; g++) {
        size_t used = strlen(text);
        if (chip_holds(&c->start, (enum group)g)) snprintf(text + used, sizeof text - used, ", the %s hold up", holds[g]);
    }
    return text;
}

uint32_t vsyncs_of(const struct link *l, uint32_t events) {
    uint32_t vsyncs = 0;
    for (uint32_t k = 0; k < events; k++) vsyncs += l->events.at[k].kind != WRITE;
    return vsyncs;
}
