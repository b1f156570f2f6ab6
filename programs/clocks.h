/* The clocks of the modes, in Hz, exact. The TMDS clock is the pixel clock times 1, 5/4 or 3/2 by the depth, times 1, 2 or 4 by the
 * repetition; N and CTS rest on it. */
#ifndef CLOCKS_H
#define CLOCKS_H

#include "station.h"

/* In lowest terms. The highest that the station takes, and how many depths and repetitions a request may name, from 0 on. */
struct clock { uint64_t over, under; };
enum { HIGHEST_CLOCK = 225000000, DEPTHS = 3, REPETITIONS = 3, FAMILIES = 2 };

/* The pixel clock, by N and CTS that the library answers at 24 bits; 0 where the mode does not offer the family. And what it is multiplied
 * by. */
struct clock pixel_clock(uint8_t vic, uint8_t family);
struct clock of_depth(int depth);
struct clock of_repetition(int repetition);
struct clock tmds_clock(uint8_t vic, uint8_t family, int depth, int repetition);

/* Is it above the limit? Do N and CTS rest on it, exactly, at a rate of a request? */
int is_above(struct clock c);
int rests_on(struct station_pair p, int rate, struct clock c);
double megahertz(struct clock c);

/* As a number, or as a fraction. */
const char *text_of_clock(struct clock c, char *text, size_t room);

/* The rates of a request, in Hz. */
extern const uint32_t hertz[];

/* What the library answers for a mode with stereo sound. */
struct station_pair ask(uint8_t vic, uint8_t family, int depth, int repetition, int rate, int coherent);

#endif
