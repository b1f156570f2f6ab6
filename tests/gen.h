/* Inputs: requests and images of every kind, from a fixed seed. */
#ifndef GEN_H
#define GEN_H

#include "model/model.h"

extern const struct fields example;             /* document 01's example */
extern const uint8_t table_39[MATRIX_BYTES];    /* the guide's Table 39 as a request's matrix */

enum { MORE = 40, LEAST_ROOM = LONGEST + MORE + 1 };    /* bytes after the last section: few, or as many as there is room for */

void     seed(uint64_t s);
uint32_t any(uint32_t below);                           /* 0 .. below - 1 */
void     any_bytes(uint8_t *bytes, size_t length);
size_t   from_hex(const char *text, uint8_t *bytes);    /* bytes as a text has them */
int      any_sync(void);                                /* a sync value, 0 to 1023, often at an edge */
void     fit_wiring(struct fields *f);                  /* the count that fits its ID; sync values where that has them and it had none */
uint8_t  any_written(void);                             /* a register that a list may write */
void     any_fields(struct fields *f);                  /* fields of a request that 1 to 6, 17 and 20 let pass (9 may apply) */
size_t   any_request(uint8_t *bytes, size_t room);      /* valid, damaged, cut, too long, or plain noise; `room` is LEAST_ROOM or more */
void     any_image(uint8_t *image);                     /* noise, finished, cut, damaged, bare; holds of every kind */
uint8_t  any_mark(void);                                /* none, 1, or another number that waits as well */
void     any_start(struct chip *c);                     /* a state that planning accepts, with any mark */
void     finish(uint8_t *image, const struct fields *f);
void     left_up(uint8_t *image);                       /* holds that refusal 8 lets pass, as a cut could leave them */
void     other_part(struct fields *f);                  /* another one, accepted, which differs in one section, or in one field */
void     near_image(uint8_t *image, const struct fields *f);    /* one that planning accepts, and that needs few writes for this request */

/* Every kind of request: each value of each field of the wiring, the video and the audio section, wiring, sound and matrix on or off; where
 * these are too many, a part of them by chance. A kind has a number below `kinds()`; many numbers are of requests that 1 to 6, 17 or 20
 * refuse, and for these the answer is 0. The matrix and the sync values are any. */
enum { MOST_KINDS = 40000 };
uint32_t kinds(void);
int      kind_of_request(uint32_t kind, struct fields *f);

#endif
