/* A simulated chip over the exported calls, and what it has in use. For programs that show a run. */
#ifndef CHIP_H
#define CHIP_H

#include "station.h"

/* What the chip holds. A host's own memory is lost with the host; this is not. */
struct chip { uint8_t image[STATION_IMAGE], packet[STATION_PACKET], coefficients[STATION_COEFFICIENTS], mark[STATION_MARK]; };

/* What it has in use: the two packets that are sent, the twelve coefficients as a request has them, the mute; and whether a change of the
 * coefficients waits for its Vsync. */
struct sent { uint8_t avi[16], audio[13], matrix[24]; uint32_t mute, waiting; };
enum group { AVI, AUDIO, MATRIX, GROUPS };

struct sent chip_sent(const struct chip *c);
int         chip_holds(const struct chip *c, enum group g);             /* is the group's hold up? */
uint32_t    chip_write(struct chip *c, const uint8_t *pair);            /* address and value; the number of the refusal */
uint32_t    chip_vsync(struct chip *c);                                 /* a rising edge of Vsync */

/* The host waits for one Vsync just before the last pair of a list: is that before this one, counted from 0? */
int waits_before(uint32_t write, uint32_t count);

/* All writes of a list, with that Vsync; answers how many of them the machine refused. */
uint32_t chip_run(struct chip *c, const uint8_t *pairs, uint32_t count);

/* What is old in a run: in use at its beginning. Where a change of the coefficients waits then, it is old once its Vsync has come, unless
 * the hold has risen before and dropped it. `chip_follow` is told of each event, after it. */
struct beginning { struct sent old, waited; int waits; };
struct beginning chip_begin(const struct chip *c);
void             chip_follow(struct beginning *b, const struct chip *c, int is_vsync);

/* A group in use beside what it was and what it will be: 0 neither, 1 old, 2 new, 3 both, for the two are the same. */
enum { NEITHER, OLD, NEW, BOTH };
int age(enum group g, const struct sent *now, const struct sent *old, const struct sent *new);

#endif
