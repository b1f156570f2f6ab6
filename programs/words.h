/* A command's words, read strictly. What is not as it should be ends the program with one line on the error stream and status MISUSE. */
#ifndef WORDS_H
#define WORDS_H

#include <stddef.h>
#include <stdint.h>

enum { ACCEPTED = 0, REFUSED = 1, MISUSE = 2 };

/* Document 01's example, for the texts of --help: the Makefile takes it from the head of station.h. */
#ifndef EXAMPLE
#define EXAMPLE "BYTES.."
#endif

extern const char *program;     /* its name, for that line */
void misuse(const char *format, ...);

/* The status, where all that was printed is written; a misuse where it is not, on a full disk say. */
int printed(int status);

/* The value of a hex digit, or -1. */
int hex_digit(int c);

/* The bytes of a word at `bytes`, which has room for half its letters: a byte is exactly two hex digits, and blanks may stand between. */
size_t bytes_of_word(const char *word, uint8_t *bytes);

/* A word for a message: its front, and two points where it goes on. */
enum { SHOWN = 44 };
const char *shown(const char *word, char text[SHOWN]);

/* A word that is a whole number from `least` to `most`, in decimal digits with at most a minus before them; `what` says what it is. */
long number_of_word(const char *word, const char *what, long least, long most);

/* A word that is a number as colour meters write it: decimal digits, a point among them or none, a sign and an exponent or none; or nan, inf
 * or infinity, which have their sign too. `number` is the float nearest to it. What is wrong with the word, as the rest of a line that names
 * it; NULL where it was read. */
const char *float_of_word(const char *word, float *number);

/* A file that has exactly so many bytes. */
void bytes_of_file(const char *name, uint8_t *bytes, size_t length);

/* The options of a command: each with a word after it that `take` reads into `into`, or a mark alone (take is NULL, `into` an int that
 * becomes 1). Each may be given once, anywhere; "--help" prints the help and ends the program. Every other word, and "-", goes to
 * `other`. */
struct option { const char *name; void (*take)(const char *word, struct option *o); void *into; size_t length; int given; };
void words_of_command(int count, char **words, const char *help, struct option *options, size_t number,
                      void (*other)(const char *word, void *into), void *into);

/* The same, where every other word is a byte of the request, which is handed back in memory of its own, its length at `length`. */
uint8_t *request_of_command(int count, char **words, const char *help, struct option *options, size_t number, size_t *length);
void take_file(const char *word, struct option *o);             /* exactly `length` bytes */
void take_number(const char *word, struct option *o);           /* a long, from 0 to `length` */

#endif
