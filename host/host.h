/* What the example host, the chains of it and its plug-ins share: the chip in its file, and a line for each point of a run. */
#ifndef HOST_H
#define HOST_H

#include "../programs/chip.h"
#include "../programs/events.h"
#include "../programs/fields.h"
#include <sys/types.h>

/* The chip, as it stands in its file: registers, buffers and waiting mark outlive every host, as a chip's do. On a real one `read_back` is
 * a read of registers, a write goes over the bus, and Vsync comes by itself: host/i2c.c. */
extern struct chip chip;
off_t    open_chip(const char *name);                                   /* how many bytes the file has; none: the chip is not made yet */
void     fetch_chip(void);                                              /* as the file has it now */
void     keep_chip(void);
void     read_back(uint8_t *image);
uint32_t happen(const struct event *e, const uint8_t *list);            /* an event; the number of the chip's refusal */

/* What is in use at a point: the picture, and a word for each group. A line of it: of an event, or of the beginning where there is none;
 * with `changes` only where it is not the state of the line before. */
enum { TEXT_OF_A_STATE = 64 };
void text_of_state(char state[TEXT_OF_A_STATE], const struct sent *s, const char *avi, const char *audio, const char *matrix);
void show_heading(void);
void show(uint32_t number, const struct event *e, const uint8_t *list, const char *state, int changes);

void show_request(const char *what, const uint8_t *request, size_t length);

/* Runs a command as a plug-in, a process of its own, and takes its request, all within so many ms. The status: ACCEPTED, and the request is
 * at `asked`; REFUSED; LATE, its time was up; FAILED, it exited with another status than 0, or by a signal. What came of it is printed, and
 * no process of its group is left. */
enum { LATE = 3, FAILED = 4 };          /* beside ACCEPTED, REFUSED and MISUSE */
int request_of_plugin(const char *command, long wait, struct request *asked);

/* Plays the chain of a seed, each link a process that is killed at its cut; or so many chains, in this process, for the totals. The
 * status. */
int play_chain(const char *file, long seed, int brief);
int play_chains(long seed, long count);

#endif
