/* What the sections of the harness share: the run, the comparisons, and demand 3's view of the chip. */
#ifndef CHECK_H
#define CHECK_H

#include "harness.h"
#include "lists.h"

/* harness.c: what is tried, and how much of it. ------------------------------------------------------------------------------------ */

extern struct running {
    const struct face *f;
    unsigned share;
    int stop, loud, ended;              /* ended: a section half way, and what it would have met was never met */
    struct section *now;
} run;

enum { KINDS = 3000, EVERY = 24 };
void     differs(const char *text, ...);
uint32_t times(uint32_t n);                             /* the share of so many */
int      passed_over(uint32_t of);                      /* a part of the cases for the wrong libraries: all but one of so many */
size_t   any_length(size_t right, size_t room);         /* mostly the right one */
void     never_met(uint32_t count, const char *of, const char *what);       /* prints the count; a difference where it is 0 */
int      tries_kind(uint32_t number, uint32_t tried, struct fields *f);     /* is this kind of request among so many? */
void     every_value_met(void);                         /* of every field, among those that were tried */

/* The four slices of the chip machine as they are lent, of any lengths; and those of a state. */
struct slices {
    const uint8_t *image;
    size_t il;
    const uint8_t *packet;
    size_t pl;
    const uint8_t *coefficients;
    size_t cl;
    const uint8_t *mark;
    size_t ml;
};
struct slices slices_of(const struct chip *c);
struct slices any_lengths(const struct chip *c);        /* with noise after each part, in lengths that are mostly right */
void any_chip(struct chip *c);                          /* any holds, any mark */
/* Each lends, calls both, and compares the answer and every lent byte. */
void check_plan(const uint8_t *request, size_t rl, const uint8_t *image, size_t il, const uint8_t *writes, size_t wl);
void check_ncts(const uint8_t *request, size_t rl);
void check_decode(const uint8_t *image, size_t il, const uint8_t *buffer, size_t bl);
void check_write(const struct slices *s, uint8_t address, uint8_t value);
void check_vsync(const struct slices *s);
void check_matrix(const struct slices *s, const uint8_t *matrix, size_t length);
struct station_count check_meter(const uint32_t *numbers, size_t count, const uint8_t *matrix, size_t length);    /* answers the model's */
/* A pipe with a part, and with the end. Answer the model's; `after` gets the pipe as the model leaves it, and may be the pipe itself. */
struct station_piped check_take(const uint8_t *pipe, size_t pl, const uint8_t *part, size_t length, uint8_t *after);
struct station_piped check_end(const uint8_t *pipe, size_t pl, uint8_t *after);
int left_in(uint8_t address, const uint8_t *image, const uint8_t *writes, struct station_count c);  /* the byte that a list leaves there */
/* Demand 2: the request that an image must read back as which this one has finished; and whether it does. */
struct fields read_back(const struct fields *f);
int           reads_back(const uint8_t *image, const struct fields *f);

/* looked.c: sections, by the library's own calls. ----------------------------------------------------------------------------------- */

void what_is_looked_at(void);

/* depth.c: sections. --------------------------------------------------------------------------------------------------------------- */

void depths(void);

/* edition.c: sections. ------------------------------------------------------------------------------------------------------------- */

void editions(void);

/* sound.c: sections. --------------------------------------------------------------------------------------------------------------- */

void sounds(void);

/* wiring.c: sections. -------------------------------------------------------------------------------------------------------------- */

void wirings(void);

/* meter.c: sections. --------------------------------------------------------------------------------------------------------------- */

void meters(void);
void many_meters(void);

/* pipe.c: sections. ---------------------------------------------------------------------------------------------------------------- */

void pipes(void);
void cut_requests(void);

/* edid.c: sections. ---------------------------------------------------------------------------------------------------------------- */

void screens(void);
void many_screens(void);

/* turn.c: sections. ---------------------------------------------------------------------------------------------------------------- */

void turns(void);

/* cuts.c: by the library's own planning, machine and views. ------------------------------------------------------------------------- */

/* What is in use; `mute` is 1 for muted, 2 for open. */
struct groups { uint8_t avi[AVI_BYTES], audio[AUDIO_BYTES], matrix[24]; uint32_t mute; };
int look(const struct chip *c, struct groups *g);       /* 0 where a view refuses */
int old_or_new(const struct groups *g, const struct groups *old, const struct groups *new);
int same(const struct groups *a, const struct groups *b);       /* the three groups */
void coefficients_of(const uint8_t *bytes, uint8_t *matrix);    /* as a request has them, of 24 bytes as the chip has them */

struct station_count planned(const uint8_t *request, size_t rl, const struct chip *c, uint8_t *list);
int turned(struct chip *c);                             /* one Vsync; 0 where it is refused, as below */
int sent_to(struct chip *c, const uint8_t *list, uint32_t from, uint32_t to);
int sent_whole(struct chip *c, const uint8_t *list, uint32_t count);        /* with one Vsync just before the last pair */

/* Document 01's own words for the finished image, the groups in it, and the request that it decodes to. */
void finished(const uint8_t *bytes, size_t length, const struct fields *f, const struct chip *start, const struct chip *end,
              const struct groups *new);

/* Writes to the registers from one to another, but for the nine; and how often a list was met that leaves out a whole group. */
uint32_t others(const uint8_t *list, uint32_t count, int first, int last);
void     count_left_out(const uint8_t *image, const uint8_t *list, uint32_t count);
void     every_part_left_out(void);

void cuts(void);
void cuts_in_a_row(void);

/* chains.c: by the library's own calls, judged by the model. ------------------------------------------------------------------------- */

void chains(void);

#endif
