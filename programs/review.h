/* A vendor's list as it was reviewed: what was read, on which registers, the verdict, the reasons and the mend. For the text and the page,
 * which print it and judge nothing. */
#ifndef REVIEW_H
#define REVIEW_H

#include "chip.h"
#include "fields.h"
#include "judge.h"
#include "list.h"
#include "mend.h"

/* A file that the caller gave: its name without the folders, and the sum of its bytes; `name` is NULL where none was given. */
struct given { const char *name; uint8_t sha256[SHA256]; };

enum { TEXT_OF_A_SUBJECT = 200, TEXT_OF_PLACES = 160, TEXT_OF_A_CHANGE = 200, TEXT_OF_A_MODE = 160 };

/* `is_read`: the text could be read; else nothing below is told but the list's own fault. `is_run`: the list has a run, for it is neither
 * refused 8 nor 14. `agrees`: the reasons lead to the library's verdict. `begins`, `ends`: a request ends in the registers. */
struct review {
    struct list list;
    struct chip chip;
    struct given registers, packet, coefficients;
    const char *date;
    int is_read, is_run, agrees, begins, ends;
    struct judgement j;
    struct station_verdict verdict;
    struct request begin, end;
    struct mend mend;
    char subject[TEXT_OF_A_SUBJECT];
};

/* The request that the list ends in, or the nearest; NULL where there is neither. */
const struct request *request_of_review(const struct review *v);

/* The mode of a request in words; where no register tells its family, both. `image`: the registers that it ends in. */
const char *text_of_frame(const uint8_t image[STATION_IMAGE], const struct request *q, char text[TEXT_OF_A_MODE]);

/* How many pairs break a rule, and the first; the places and the lines of them all. */
uint32_t    pairs_of_fault(const struct review *v, int fault, uint32_t *first);
const char *text_of_places(const struct review *v, int fault, char text[TEXT_OF_PLACES]);

/* A change of the mend in words. */
const char *text_of_change(const struct review *v, const struct mended *p, char text[TEXT_OF_A_CHANGE]);

/* What speaks against any request where none ends in the registers, each handed to `tell`; how many. */
int tell_bad_end(const struct chip *c, void (*tell)(const char *text));

/* What no rule forbids and a reviewer should know, likewise. */
int tell_worth_knowing(const struct review *v, void (*tell)(const char *text));

/* What the mends change of named bits that the list sets, in a sentence; how many registers. A mend makes a list acceptable, and not right. */
int text_of_taken_back(const struct review *v, char text[TEXT_OF_FAULTS]);

/* What was taken for what was not given, likewise. */
int tell_notes(const struct review *v, void (*tell)(const char *text));

/* The page. */
void print_page(const struct review *v);

#endif
