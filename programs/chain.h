/* A chain of requests over one chip, each cut or finished and the last one finished, all from a seed; and what must hold at each of its
 * points (document 02, request 14). It is found by the exported calls alone. For programs that play a chain. */
#ifndef CHAIN_H
#define CHAIN_H

#include "chip.h"
#include "events.h"
#include "fields.h"

enum { FEWEST_LINKS = 2, LINKS = 6, MOST_SEEDS = 999999999, TEXT_OF_A_FAULT = 160 };

/* A link: its request, the list for it on the chip as it then stands, the events of its run with Vsyncs besides, and how many of these
 * happen. One that is not cut runs through; one that is may have all its events behind it. */
struct link {
    struct request asked;
    struct places besides;
    uint8_t list[STATION_WRITES];
    struct events events;
    uint32_t happen;
    int is_cut;
};

/* How the chip was left before the chain: by a finished request, by a run that was cut with a hold up, or by nobody of ours. Never with two
 * packet holds up or the GC hold, and no change of the coefficients waits. */
enum left { LEFT_FINISHED, LEFT_CUT, LEFT_NOISE, WAYS_LEFT };

struct chain {
    uint64_t random;                /* the generator's state */
    uint32_t links, number;         /* how many there are, and the number of the present one, from 1 */
    enum left left;
    struct chip start, alone;       /* the beginning; and what the present request, alone and finished, makes of it */
    struct sent asked[LINKS + 1];   /* in use at the beginning; and at the end of each request so far, so played alone */
    struct link now;                /* the present link */
    uint32_t mute;                  /* as the picture must be */
    int named[GROUPS];              /* whose each group was at the last point that was looked at */
};

/* The beginning of the chain of a seed: nothing has been asked. The same on every machine. */
void chain_begin(struct chain *c, long seed);

/* The next link, drawn for the chip as it stands; 0 where there is none. */
int chain_next(struct chain *c, const struct chip *now);

/* This event of the present link, counted from 0, happens: from its first write on the picture must be muted, from its last on open. */
void chain_follow(struct chain *c, uint32_t event);

/* A point: what is in use, and whose each group is: 0 as at the beginning, a link's number where it is whole as that request asked; else it
 * is mixed. A name stays while it is right, from point to point; then it is the latest link's. `fault` says what does not hold here, and is empty where all does: a mixed group, a free or read-only
 * bit that is not as at the beginning, the mute. */
enum { MIXED = -1, OF_THE_BEGINNING = 0 };
struct point { struct sent sent; int whose[GROUPS]; char fault[TEXT_OF_A_FAULT]; };
struct point chain_point(struct chain *c, const struct chip *now);

/* The end, where the last link has finished: what does not hold, empty where all does. Every group is the last request's, the registers are
 * those that it makes alone of the beginning, and it reads back (as_read_back of fields.h). */
void chain_end(const struct chain *c, const struct chip *now, char fault[TEXT_OF_A_FAULT]);

/* For a person: who left the chip, and the holds that are up at the beginning; how many of a link's first events are Vsyncs. */
const char *text_of_beginning(const struct chain *c);
uint32_t    vsyncs_of(const struct link *l, uint32_t events);

#endif
