/* Lists of pairs as a vendor might bring them, and the states of the chip that they are tried on. */
#ifndef LISTS_H
#define LISTS_H

#include "gen.h"

/* A list, with room for more than is allowed. `length` is in bytes, for it may be odd. */
struct pairs { size_t length; uint8_t bytes[4 * MOST_PAIRS]; };

void   any_state(struct chip *c);                       /* zero, noise, finished or cut; every hold that refusal 8 lets pass; any mark */
void   finished_state(struct chip *c, const struct fields *f);      /* as a list leaves it: no hold is up; any mark; the rest is noise */
void   accepted_fields(struct fields *f);               /* of a request that planning accepts */
void   our_list(const struct chip *c, const struct fields *f, struct pairs *l);     /* as planned */
void   full_list(const struct chip *c, const struct fields *f, struct pairs *l);    /* with nothing left out */

size_t count_of(const struct pairs *l);
size_t last_place(const struct pairs *l, uint8_t address);          /* of a write to this register, or the count */
void   put_in(struct pairs *l, size_t at, uint8_t address, uint8_t value);
void   take_out(struct pairs *l, size_t from, size_t to);           /* the pairs from .. to - 1 */
void   exchange(struct pairs *l, size_t at);                        /* a pair and the next one */
void   add(struct pairs *l, const struct pairs *more, size_t from, size_t to);

uint8_t kept_value(const uint8_t *image, uint8_t address, uint8_t named);   /* mandated and free bits right, and these named bits */
void   any_bad_pair(const struct chip *c, uint8_t *pair);           /* one that is bad in most lists */
void   stretch(const struct chip *c, struct pairs *l, size_t count);        /* a passing list of ours to one of so many pairs */
void   other_steps(struct pairs *l);                                /* a list of ours with its steps in any order, fewer or more */
void   other_hold(const struct chip *c, struct pairs *l);           /* one with the coefficient hold otherwise */
void   any_vendors(struct chip *c, struct pairs *l);                /* a list of any kind, and a state for it */

#endif
