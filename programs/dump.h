/* The bytes of an EDID, from what people have of them: raw, or as text in hex. A text that can be read in two ways, or has what is no byte, ends the
 * program with its line. */
#ifndef DUMP_H
#define DUMP_H

#include <stddef.h>
#include <stdint.h>

/* An EDID counts its extensions in a byte, so it has at most 256 blocks of 128 bytes. `form` says how it was read. */
enum { OF_A_BLOCK = 128, LONGEST_DUMP = 256 * OF_A_BLOCK, HEADER = 8 };
extern const uint8_t header_of_edid[HEADER];
struct dump { uint8_t bytes[LONGEST_DUMP]; size_t length; const char *form; };

/* The file of this name, or with "-" the standard input; `output` chooses one of several that xrandr prints, NULL none. */
void dump_of_file(const char *name, const char *output, struct dump *d);

#endif
