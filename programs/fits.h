/* The sound that fits into the blanking of a mode, as the library answers: what does not is refused 20. */
#ifndef FITS_H
#define FITS_H

#include "fields.h"

/* The channels that a request may name. */
enum { FEW_CHANNELS = 2, MANY_CHANNELS = 8 };

/* The highest rate that fits with so many channels, as a request's field has it; -1 where the clock is refused. Neither the family nor the
 * depth counts. */
int highest_rate(uint8_t vic, int repetition, int channels);

/* Is a request accepted with this value in place of its own? */
int is_mended(const struct request *q, const char *name, int value);

/* Of a request that is refused 20: what would fit in its mode with its repetition; and then each change of one field with which the library
 * accepts it, of lower rates the highest. */
enum { TEXT_OF_A_FIT = 400 };
const char *text_of_room(const struct request *q, char text[TEXT_OF_A_FIT]);
const char *text_of_fit(const struct request *q, char text[TEXT_OF_A_FIT]);

#endif
