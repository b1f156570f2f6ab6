#include "chip.h"
#include <string.h>

int chip_holds(const struct chip *c, enum group g) {
    static const struct { uint8_t address, bit; } holds[GROUPS] = {
        [AVI] = { 0x4A, 0x40 }, [AUDIO] = { 0x4A, 0x20 }, [MATRIX] = { 0x1A, 0x20 },
    };
    return (c->image[holds[g].address] & holds[g].bit) != 0;
}

static void packet(const struct chip *c, uint32_t which, uint8_t *bytes, size_t room) {
    struct station_part p = station_sent(c->image, STATION_IMAGE, c->packet, STATION_PACKET, which);
    if (p.len <= room) memcpy(bytes, (p.held ? c->packet : c->image) + p.start, p.len);
}

struct sent chip_sent(const struct chip *c) {
    struct sent s;
    uint8_t matrix[1 + sizeof s.matrix] = { 0 };        /* its mode is in front */
    memset(&s, 0, sizeof s);
    packet(c, STATION_AVI, s.avi, sizeof s.avi);
    packet(c, STATION_AUDIO, s.audio, sizeof s.audio);
    station_matrix(c->image, STATION_IMAGE, c->coefficients, STATION_COEFFICIENTS, c->mark[0], matrix, sizeof matrix);
    memcpy(s.matrix, matrix + 1, sizeof s.matrix);
    s.mute = station_mute(c->image, STATION_IMAGE, c->packet, STATION_PACKET).mute;
    s.waiting = c->mark[0] != 0 && !chip_holds(c, MATRIX);
    return s;
}

uint32_t chip_write(struct chip *c, const uint8_t *pair) {
    return station_write(c->image, STATION_IMAGE, c->packet, STATION_PACKET, c->coefficients, STATION_COEFFICIENTS, c->mark, STATION_MARK,
                         pair[0], pair[1]);
}

uint32_t chip_vsync(struct chip *c) {
    return station_vsync(c->image, STATION_IMAGE, c->packet, STATION_PACKET, c->coefficients, STATION_COEFFICIENTS, c->mark, STATION_MARK);
}

int waits_before(uint32_t write, uint32_t count) { return write + 1 == count; }

uint32_t chip_run(struct chip *c, const uint8_t *pairs, uint32_t count) {
    uint32_t refused = 0;
    for (uint32_t w = 0; w < count; w++) {
        if (waits_before(w, count)) chip_vsync(c);
        refused += chip_write(c, pairs + 2 * w) != 0;
    }
    return refused;
}

struct beginning chip_begin(const struct chip *c) {
    struct chip turned_over = *c;
    struct beginning b = { .old = chip_sent(c) };
    chip_vsync(&turned_over);
    b.waited = chip_sent(&turned_over);
    b.waits = (int)b.old.waiting;
    return b;
}

void chip_follow(struct beginning *b, const struct chip *c, int is_vsync) {
    if (b->waits && is_vsync) memcpy(b->old.matrix, b->waited.matrix, sizeof b->old.matrix);
    if (is_vsync || chip_holds(c, MATRIX)) b->waits = 0;
}

int age(enum group g, const struct sent *now, const struct sent *old, const struct sent *new) {
    static const struct { size_t at, length; } groups[GROUPS] = {
        [AVI] = { offsetof(struct sent, avi), sizeof now->avi },
        [AUDIO] = { offsetof(struct sent, audio), sizeof now->audio },
        [MATRIX] = { offsetof(struct sent, matrix), sizeof now->matrix },
    };
    const uint8_t *n = (const uint8_t *)now + groups[g].at;
    int is_old = !memcmp(n, (const uint8_t *)old + groups[g].at, groups[g].length);
    int is_new = !memcmp(n, (const uint8_t *)new + groups[g].at, groups[g].length);
    return (is_old ? OLD : 0) + (is_new ? NEW : 0);
}
