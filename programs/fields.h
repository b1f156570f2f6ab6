/* A request in words and in bytes, both by one table of its fields. */
#ifndef FIELDS_H
#define FIELDS_H

#include "station.h"
#include <stdio.h>

enum { TEXT_OF_A_REQUEST = 400, LARGEST_SYNC_VALUE = 1023 };
#define SYNC_VALUES "Hsync placement and duration in pixels, Vsync placement and duration in lines"

/* A request from its words; or from a text of them, with blanks between, which is made as printf makes it. Words that are none end the
 * program, and so do numbers of a colour meter that the library refuses (status REFUSED). A field that no word gives has its usual value. */
struct request { uint8_t bytes[STATION_REQUEST]; size_t length; };
struct request request_of_words(int count, char **words);
struct request request_of_text(const char *format, ...);

/* An accepted request as decoding answers it once it is finished: in family 0, for no register names it; and in edition D where E asks for
 * nothing, for then no bit of E is set. */
struct request as_read_back(struct request q);

/* A field of a whole request by its name: its value, -1 where its section is left out; and the request with another value there. */
int            value_of_field(const struct request *q, const char *name);
struct request with_field(struct request q, const char *name, int value);

/* The 25 bytes of its matrix, NULL where it has none. */
const uint8_t *matrix_of_request(const struct request *q);

/* A request in words, as request_of_words reads them: 0 where its sections are not whole. */
int words_of_request(const uint8_t *request, size_t length, char text[TEXT_OF_A_REQUEST]);

/* A line for each byte, as far as there are sections. */
void explain_request(FILE *to, const uint8_t *request, size_t length);

/* A line for each field that two requests, both whole, have otherwise, and for each number where both have the section; how many lines. */
int explain_changes(FILE *to, const uint8_t *before, const uint8_t *after);

/* The words that there are, a line for each field. */
void explain_words(FILE *to);

/* By a field's name: the value that a word gives it, -1 where the word is not for it; and the word of a value, NULL where it has none. */
int         value_of_word(const char *name, char *word);
const char *word_of_value(const char *name, int value);

/* The wirings that a request may name, by their input ID; 0 is today's board, which has no section. Of widths, styles and justifications the set
 * of codes that are defined, a bit for each code; which tables of the guide draw it; the highest input clock in MHz by its Table 15. */
struct wiring { uint8_t id, colour, syncs, clock, widths, styles, sides; const char *tables; double megahertz; };
extern const struct wiring wirings[];
extern const size_t number_of_wirings;
const struct wiring *wiring_of_id(int id);                      /* NULL for a number that is none */
int is_embedded(const struct wiring *w);
int is_rgb(const struct wiring *w);

/* The words of an ID, without today's board; its words of one field, with commas between; whether it has a code of that field. */
enum { WORDS_OF_A_WIRING = 32, WORDS_OF_CODES = 40 };
const char *words_of_wiring(const struct wiring *w, char text[WORDS_OF_A_WIRING]);
const char *words_of_codes(const struct wiring *w, const char *name, char text[WORDS_OF_CODES]);
int         is_code_of_wiring(const struct wiring *w, const char *name, int code);

/* Of a whole request: the wiring by its ID, NULL where that is none (0 in a section too); whether its section is one that is defined; the request
 * with the wiring section of another. */
const struct wiring *wiring_of_request(const struct request *q);
int                  is_wiring(const struct request *q);
struct request       with_wiring(struct request q, const struct request *of);

/* What the library leaves in 0x30 to 0x34, on registers of zeros, of four sync values. */
void registers_of_syncs(const uint16_t values[4], uint8_t left[5]);

/* The modes of CEA-861 that a request may name, in the order of their numbers. */
struct mode { uint8_t vic, rate; const char *lines, *aspect; };
extern const struct mode modes[];
extern const size_t number_of_modes;
double frame_rate(const struct mode *m, uint8_t family);

/* A mode by its lines and its frame rate, 1080p60, or of the other family 1080p59.94: 0 where a word names none. A name that several modes have
 * ends the program. And the name of a mode, "" where several have it. */
enum { NAME_OF_A_MODE = 32 };
int         mode_of_word(const char *word, uint8_t *vic, uint8_t *family);
const char *name_of_mode(const struct mode *m, uint8_t family, char text[NAME_OF_A_MODE]);

/* The mode of a VIC in words ("1920x1080p 60 Hz, 16:9"), with the frame rate of a family. */
void text_of_mode(uint8_t vic, uint8_t family, char *text, size_t room);

#endif
