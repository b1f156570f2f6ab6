/* A run, write by write, as a drawing in a page: what the chip machine has in use after each event. Plain HTML with its drawings in it, and no
 * file beside it. For the pages of picture.c and page.c. */
#ifndef DRAW_H
#define DRAW_H

#include "chain.h"
#include "chip.h"
#include "events.h"
#include "registers.h"

enum lane { PICTURE, LANE_AVI, LANE_AUDIO, LANE_MATRIX, LANE_WAITING, HOLD_MATRIX, HOLD_AVI, HOLD_AUDIO, LANES };

/* The picture: as station_mute has it; muted, and the GC packet that tells the screen so is not sent (0x40[7] is 0); shown where the rules
 * want it muted. */
enum { NOT_SENT = 4, SHOWN_WRONGLY = 5 };

/* Room for two lists of ours, and for the longest that somebody may bring. Of a moment: the number of its write, from 1, or whether it is a
 * Vsync; neither at the beginning and at a cut. `is_bad`: a cross stands above it. */
enum { REST = 8, MOMENTS = 2 * EVENTS + 8, NO_STEP = STEPS };
struct moment { int width, number, is_vsync, is_bad, step, value[LANES]; uint8_t address, before, after; };
struct run {
    struct chip chip;
    struct beginning begun;
    struct sent new;
    int count, cut;
    struct moment moments[MOMENTS];
    struct chain *chain;            /* of a link's run; its groups are shown by whose they are, the others' by their age */
    int points, from_0;             /* writes are counted from 0, as the library counts the pairs of a list */
    char fault[TEXT_OF_A_FAULT];    /* the first point of a chain that fails */
};

/* A run: its beginning; writes and Vsyncs, the last one of so many units' width; or the first events of a list's run; a cut, after which the
 * chip stays as it is; one more moment like the last. */
void           run_begin(struct run *r, const struct chip *c, const struct sent *new);
struct moment *run_write(struct run *r, const uint8_t *pairs, uint32_t write, int width);
void           run_vsync(struct run *r, int width);
void           run_events(struct run *r, const uint8_t *pairs, const struct events *e, uint32_t events);
void           run_cut(struct run *r);
void           run_stay(struct run *r, int width);

/* The places where a run may be cut, before its first event and after each; at how many of them something is torn; and at how many from the
 * first write on and before the last the picture is not muted. */
struct tally { int all, torn, shown; };
struct tally tally_of(const struct run *r);

/* The front of a page with its style, and `title` as it is; the drawing with no heading; what its looks mean, of a vendor's list or of ours; the same of a chain; what is in
 * use at a moment, in words. */
void print_head(const char *title, const char *more_style);
void draw_lanes(const struct run *r, const char *label, const char *of_cut);
void draw_key(int of_lists);
void draw_key_of_chain(uint32_t links);
void say_moment(const struct run *r, int moment);

const char *lane_name(enum lane l);
const char *word_of_lane(const struct run *r, enum lane l, int value);

/* Where in the drawing a moment begins and ends, and how wide and high it is. */
double at_moment(const struct run *r, int moment);
enum { DRAWING_WIDE = 1160 };
int drawing_high(void);

#endif
