/* Bytes as i2cdump, xxd and hexdump print them: rows of an address and sixteen cells of two hex digits. */
#ifndef ROWS_H
#define ROWS_H

#include <stddef.h>
#include <stdint.h>

/* A row of a dump: so many hex digits of an address, a colon or none, then 16 cells of two hex digits, before each so many blanks; then the
 * end of the line, or two blanks and the same bytes as letters. */
enum { CELLS = 16 };
struct layout { const char *name; int digits, colon; const char *blanks; };

/* A text in lines, each without the blanks at its end; it is cut there. `lines` has room for one more than the text has letters. */
size_t lines_of_text(char *text, char **lines);

/* The layout of which a line is a row, NULL where it is none; the address of that row, with where its cells begin, -1 where it is no row of this
 * layout. */
const struct layout *layout_of(const char *line);
long                 address_of(const struct layout *l, const char *line, const char **cells);

/* How many of a row's cells are there, into `bytes`, with what stands in place of the next: of the layouts with such an address, by the one
 * that has most. */
int cells_of(const struct layout *l, const char *cells, uint8_t *bytes, const char **next);

/* The line above i2cdump's rows: the low digits of the addresses. */
int is_heading(const char *line);

#endif
