#include "events.h"
#include <string.h>

void take_places(const char *word, struct option *o) {
    struct places *p = o->into;
    char number[16];
    for (const char *at = word; ; at++) {
        size_t length = strcspn(at, ",");
        if (length >= sizeof number) misuse("'%.80s' is no list of numbers with commas between", word);
        memcpy(number, at, length);
        number[length] = 0;
        if (p->count == PLACES) misuse("%s has more than %d numbers", o->name, PLACES);
        p->at[p->count++] = number_of_word(number, "number of writes", 0, STATION_LIST / 2);
        at += length;
        if (!*at) return;
    }
}

static void add(struct events *e, enum kind kind, uint32_t write) { e->at[e->count++] = (struct event){ kind, write }; }

void events_of(struct events *e, uint32_t writes, const struct places *p, long cut) {
    e->count = 0;
    e->writes = writes;
    for (uint32_t w = 0; w <= writes; w++) {
        for (size_t i = 0; i < p->count; i++)
            if (p->at[i] == (long)w) add(e, VSYNC, w);
        if (waits_before(w, writes)) add(e, AWAITED, w);
        if (w < writes) add(e, WRITE, w);
    }
    for (size_t i = 0; i < p->count; i++)
        if (p->at[i] > (long)writes) misuse("--vsync %ld: the list has %u writes", p->at[i], (unsigned)writes);
    if (cut > (long)e->count)
        misuse("--cut %ld: the run has %u events: writes %u, Vsyncs %u", cut, (unsigned)e->count, (unsigned)writes,
               (unsigned)(e->count - writes));
}

uint32_t chip_event(struct chip *c, const struct event *e, const uint8_t *list) {
    return e->kind == WRITE ? chip_write(c, list + 2 * e->write) : chip_vsync(c);
}
