/* The twelve numbers of a colour meter, nine factors and three offsets, and the fields that stand for them in a matrix: why a number does not
 * fit a mode, and what is told of numbers that the library refuses. */
#ifndef FACTORS_H
#define FACTORS_H

#include "station.h"
#include <stdio.h>

enum { LARGEST_MODE = 2, TEXT_OF_A_FAULT = 80 };

/* A number's name by its place, A1 to C4; whether an offset stands there, A4, B4 or C4. */
const char *name_of_number(size_t n, char text[3]);
int         is_offset(size_t n);

/* A number in the fewest digits, from six on, of which it is the nearest float. */
enum { TEXT_OF_A_NUMBER = 24 };
const char *text_of_number(float number, char text[TEXT_OF_A_NUMBER]);

/* A number in units of its field: a factor times 4096, an offset as it is, both divided by 2^mode; no bit of it is lost. And the whole number
 * nearest to it, the even one on a tie. */
double in_units(float number, size_t n, int mode);
double nearest(double units);

/* Why a number does not fit a mode at its place, as what follows a colon; NULL where it fits. */
const char *fault_of(float number, size_t n, int mode, char text[TEXT_OF_A_FAULT]);

/* What station_meter refuses: the rule, a line for each number at fault, and how it is mended. */
void explain_refused(FILE *to, const float *numbers, uint32_t refusal);

#endif
