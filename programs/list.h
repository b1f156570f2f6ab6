/* A list of writes as vendors send it, read strictly from text. What could be read in two ways is not read: it is said with its line, and
 * with what to do. */
#ifndef LIST_H
#define LIST_H

#include "sha256.h"
#include "station.h"

/* What a number with neither 0x nor h is in. Where nobody says so it is hex if one of them has a letter; else the text is not read. */
enum base { NOT_SAID, HEX, DECIMAL };

/* Its bytes: as many as a list may have, and a pair more, which is enough to be refused (14); `all` counts those that were not kept too.
 * Of each pair the line that it stands on, counted from 1. The lines themselves are UTF-8 as far as the vendor's are, without their ends.
 * `bare`: numbers stand with neither 0x nor h, and were read as hex or decimal. `wrong`: why the text cannot be read, and what to do;
 * empty where it was read; `wrong_line` is 0 where no line is at fault. */
enum { LIST_PAIRS = STATION_LIST / 2, LIST_ROOM = STATION_LIST + 2, TEXT_OF_A_WRONG = 320 };
struct list {
    const char *name;
    uint8_t bytes[LIST_ROOM];
    size_t length, all;
    unsigned long line[LIST_PAIRS + 1], lines, wrong_line;
    char **text, wrong[TEXT_OF_A_WRONG];
    enum base base;
    int bare;
    uint8_t sha256[SHA256];
};

/* "-" is the standard input. Answers whether the text was read; a file that is not there ends the program. */
int list_of_file(const char *name, enum base base, struct list *l);

/* A line of the text by its number, from 1 on. */
const char *line_of(const struct list *l, unsigned long line);

/* What is read, in the words of --help. */
extern const char list_help[];

#endif
