/* The comparison of one implementation of the C face with the model. */
#ifndef HARNESS_H
#define HARNESS_H

#include "face.h"

struct section { const char *name; uint64_t cases; uint32_t failed; };

/* Runs the sections from `first` to the one before `end` on an implementation. ON_LOOKED is on what of an image is looked at, ON_DEPTHS on
 * depth and repetition, ON_EDITIONS on the editions of the InfoFrame, ON_SOUND on the sound that fits, ON_WIRINGS on the input wirings,
 * ON_METER on a colour meter's numbers, and the next on very many of them; ON_PIPES is on any bytes as a pipe, and ON_PARTS on requests that
 * are cut into parts; ON_EDID is on a screen's EDID and on wishes, by hand, and the next on any of them; from ON_LISTS on they are those on a
 * vendor's lists, from ON_CUTS on those on cuts, and ON_CHAINS, the last, is on chains of requests. `share` is the part of the random cases,
 * in 1/1000. With `stop`, the first difference ends it. `loud` prints each section and the first differences. Answers the number of sections
 * with a difference; `sections` gets their counts. */
enum {
    ALL = 0, ON_LOOKED = 6, ON_DEPTHS = 11, ON_EDITIONS = 12, ON_SOUND = 13, ON_WIRINGS = 14, ON_METER = 20, ON_PIPES = 22, ON_PARTS = 23,
    ON_EDID = 24, ON_LISTS = 26, ON_CUTS = 29, ON_CHAINS = 31, SECTIONS = 32
};
int harness(const struct face *f, int first, int end, unsigned share, int stop, int loud, struct section *sections);

extern char first_difference[160];  /* of the last run, in words */

#endif
