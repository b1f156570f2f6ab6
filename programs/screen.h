/* What a screen says in its EDID, by a walk of our own: it explains the library's answer, and is held to it. */
#ifndef SCREEN_H
#define SCREEN_H

#include "dump.h"
#include "fields.h"
#include "station.h"
#include <stdio.h>

/* A data block: its address in the extension, its tag, and how many bytes follow its first. */
struct data_block { unsigned at, tag, length; };

/* The data blocks in their order, where one runs past the offset up to that one. By its VIC the byte of a short video descriptor, 0 where none lists
 * it. Of linear PCM the rates that are covered, a bit each, with two channels and with eight. */
enum { FEW, MANY, COVERS };
struct screen {
    const uint8_t *edid;
    size_t length, number;
    uint32_t refusal;
    struct data_block block[OF_A_BLOCK];
    uint8_t listed[OF_A_BLOCK], rates[COVERS];
};
struct screen screen_of(const uint8_t *edid, size_t length);

/* Is it what the library answers? */
int is_same(const struct screen *s, struct station_monitor m);

/* Is a VIC listed, is it one that a request may name; is a sound of a request covered? */
int is_of_station(int vic);
int is_listed(const struct screen *s, int vic);
int is_covered(const struct screen *s, int rate, int channels);

/* Words behind others; words in lines of less than 80 letters, all but the first set in by so many blanks. Both are made as printf makes them. */
enum { TEXT = 2000 };
void add_words(char text[TEXT], const char *format, ...);
void tell(FILE *to, int in, const char *format, ...);

/* A wish as a word: the name of its mode, or the VIC, and the family where that is not 0. */
const char *word_of_wish(uint8_t vic, uint8_t family, char text[NAME_OF_A_MODE]);

/* The rates of a set, "32, 44.1, 48 kHz"; "none". */
enum { TEXT_OF_RATES = 48 };
const char *text_of_rates(uint8_t set, char text[TEXT_OF_RATES]);

/* The extensions of an EDID of whole blocks, each with its number and its kind, all but one; no more than some are named. */
const char *text_of_extensions(const struct dump *d, size_t but, char text[TEXT]);

/* Who made it and its name, where it has one; a letter that is none is shown by its number. */
const char *text_of_name(const uint8_t *edid, char text[TEXT]);

/* What the station can show there, and what was passed over; or, of an EDID that is refused, why, where, and how it is mended. */
void explain_screen(FILE *to, const struct screen *s);
void explain_refusal(FILE *to, const struct dump *d, const struct screen *s);

/* Of an EDID of whole blocks the base block and the first CEA-861 extension, where it has one; and what was left out. */
void leave_out(const struct dump *d, struct dump *taken);
void tell_left_out(FILE *to, const struct dump *d);

#endif
