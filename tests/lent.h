/* Buffers lent to the library: each stands at the edge of a page that cannot be read, at its end or at its beginning. */
#ifndef LENT_H
#define LENT_H

#include <stddef.h>
#include <stdint.h>

enum slot { REQUEST, IMAGE, WRITES, PACKET, COEFFICIENTS, MARK, MATRIX, LIST, NUMBERS, PIPE, PART, EDID, WISHES, SLOTS };
enum { ENDS = 0, BEGINS = 1, ROOM = 1 << 17 };

void     lent_open(void);
uint8_t *lend(enum slot s, const uint8_t *bytes, size_t length, int side);  /* a copy of the bytes, at the edge */
int      holds(enum slot s, const uint8_t *expected);                       /* these bytes, and nothing beside them moved */

#endif
