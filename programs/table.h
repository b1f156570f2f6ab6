/* A list of writes as a table, a line of at most 80 columns for each: the register, its byte before and after, the fields that the write
 * sets, and what is in use after it; beside the matrix, whether a change of it waits for its Vsync. */
#ifndef TABLE_H
#define TABLE_H

#include "chip.h"

/* The heading; `number` is what the first column counts. */
void table_head(const char *number);

/* A write: what is in use after it is `now`, beside what it was and what it will be at the list's end; NULL where nothing is to be said of
 * that. */
void table_row(unsigned number, uint8_t address, uint8_t before, uint8_t after, const struct sent *now, const struct sent *old,
               const struct sent *new);

/* The Vsync that the host waits for, and what is in use after it. */
void table_vsync(const struct sent *now, const struct sent *old, const struct sent *new);

/* The same with the line of a text beside each write. */
void table_head_with_lines(void);
void table_row_with_line(unsigned number, unsigned long line, uint8_t address, uint8_t before, uint8_t after, const struct sent *now,
                         const struct sent *old, const struct sent *new);
void table_vsync_with_lines(const struct sent *now, const struct sent *old, const struct sent *new);

/* What a write sets, in short words that have so much room: holds or the mute with their value, the other named fields, and whether there
 * are mandated bits. And the words of a picture and of a group in use. */
enum { TEXT_OF_SETS = 64 };
void        sets_of_write(char text[TEXT_OF_SETS], size_t width, uint8_t address, uint8_t old, uint8_t new);
const char *word_of_picture(uint32_t mute);
const char *word_of_age(int age);

#endif
