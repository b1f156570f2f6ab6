/* How a vendor's list could be mended: the request that its end is nearest to, and the pairs to put in, to change and to leave out. It is
 * advice beside the verdict. Whether the mended list is accepted the library says. */
#ifndef MEND_H
#define MEND_H

#include "fields.h"
#include "judge.h"

/* The wiring section that registers speak of, as the front of a request; and whether they are those of a wiring. */
struct request wiring_of_image(const uint8_t image[STATION_IMAGE]);
int            has_wiring(const uint8_t image[STATION_IMAGE]);

/* The request whose finished registers differ from these in the fewest places, and those registers. It is looked for among the requests
 * that the registers themselves speak of, field by field, with the VIC and the wiring of `begun` too where that is not NULL, with today's board
 * and the wiring that is nearest, and with every VIC where none of these is listed. 0 where there is none. */
struct nearest { struct request asked; uint8_t image[STATION_IMAGE]; unsigned registers; };
int nearest_request(const uint8_t image[STATION_IMAGE], const struct request *begun, struct nearest *n);

/* A pair of the mended list. `place` is the vendor's pair, or of one that is put in the vendor's pair that follows it (`after`: that it
 * follows). `why` is the rule that it mends, FAULTS for the end of the list. One that is left out stays here, for it is to be told. */
enum change { KEPT, CHANGED, LEFT_OUT, PUT_IN };
struct mended { uint8_t address, value, was; enum change change; uint32_t place, why; int after; };

/* The list with its changes: how many pairs stand here and how many of them are changes. `accepted`: the library accepts it so. And the
 * request that the end of the vendor's own list is nearest to. */
enum { MENDED = 1024 };
struct mend { struct mended pairs[MENDED]; uint32_t count, changes; int accepted; struct nearest nearest; int has_nearest; };
void mend_list(const struct chip *c, const uint8_t *list, const struct judgement *j, const struct request *begun, struct mend *m);

/* The mended list as bytes, of which there is room for MENDED pairs; how many pairs. */
uint32_t bytes_of_mend(const struct mend *m, uint8_t *bytes);

#endif
