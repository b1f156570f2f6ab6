/* A run as events in their order: the writes of a list, the Vsync that the host waits for, and Vsyncs that come besides. For programs with
 * --vsync and --cut. */
#ifndef EVENTS_H
#define EVENTS_H

#include "chip.h"
#include "words.h"

/* Vsyncs that come besides, each after so many writes: the word of --vsync, numbers with commas between. */
enum { PLACES = 64 };
struct places { long at[PLACES]; size_t count; };
void take_places(const char *word, struct option *o);

/* `write` is counted from 0. Of Vsyncs at one place the one that the host waits for is the last. */
enum kind { WRITE, VSYNC, AWAITED };
struct event { enum kind kind; uint32_t write; };
enum { EVENTS = STATION_LIST / 2 + PLACES + 1 };
struct events { struct event at[EVENTS]; uint32_t count, writes; };

/* The events of a list's run. A place, or a cut, after its last is a misuse; a cut is counted in events, -1 is none. */
void events_of(struct events *e, uint32_t writes, const struct places *p, long cut);

/* One event of a list's run, on a chip; the number of its refusal. */
uint32_t chip_event(struct chip *c, const struct event *e, const uint8_t *list);

#endif
