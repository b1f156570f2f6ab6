/* Wrong libraries: the model's face with one call replaced by one that has one fault. The harness must catch each. */
#ifndef WRONG_H
#define WRONG_H

#include "../model/model.h"
#include <string.h>

/* `alone`: what must catch it by itself. 1, `on_cuts` in the tables: the replay of the cuts. BY_CHAINS: the chains of requests; with
 * NOT_BY_CUTS the cuts, which plan the same request again, must not show it. BY_PARTS: requests cut into parts, without the model. BY_REST: any
 * bytes in the registers that no list writes, without the model. BY_HAND: the section of an EDID by hand, in which nothing is drawn by chance. */
struct wrong { const char *fault; void (*put)(struct face *); int alone; };
enum { BY_CUTS = 1, BY_CHAINS = 2, NOT_BY_CUTS = 4, BY_PARTS = 8, BY_REST = 16, BY_HAND = 32, BY_CHAINS_ALONE = BY_CHAINS | NOT_BY_CUTS };
extern const struct wrong wrong_plans[], wrong_fewer[], wrong_numbers[], wrong_decodes[], wrong_machines[], wrong_marks[], wrong_views[],
    wrong_vets[], wrong_chains[], wrong_depths[], wrong_editions[], wrong_sounds[], wrong_wirings[], wrong_meters[], wrong_pipes[],
    wrong_screens[], wrong_looks[];
/* The sets, the last without rows; `first` is the section of the harness to begin with. */
extern const struct wrong_set { const struct wrong *rows; int first; } wrong_sets[];
/* The planner of wrong/fewer.c, the machine of wrong/mark.c, the judge of wrong/vet.c, the libraries of wrong/chain.c, wrong/depth.c,
 * wrong/edition.c, wrong/sound.c and wrong/wiring.c, the matrices of wrong/meter.c, the pipe of wrong/pipe.c and the choices of
 * wrong/edid.c, without a fault: they must not be caught. */
void put_right_planner(struct face *f);
void put_right_machine(struct face *f);
void put_right_judge(struct face *f);
void put_right_library(struct face *f);
void put_right_depths(struct face *f);
void put_right_editions(struct face *f);
void put_right_sounds(struct face *f);
void put_right_wirings(struct face *f);
void put_right_meter(struct face *f);
void put_right_pipe(struct face *f);
void put_right_screens(struct face *f);

/* The argument lists that are long. */
#define PLAN_ARGUMENTS const uint8_t *r, size_t rl, const uint8_t *i, size_t il, uint8_t *w, size_t wl
#define VSYNC_ARGUMENTS uint8_t *i, size_t il, uint8_t *p, size_t pl, uint8_t *c, size_t cl, uint8_t *m, size_t ml
#define WRITE_ARGUMENTS VSYNC_ARGUMENTS, uint8_t address, uint8_t value
#define MATRIX_ARGUMENTS const uint8_t *i, size_t il, const uint8_t *c, size_t cl, uint8_t mark, uint8_t *m, size_t ml
#define VET_ARGUMENTS \
    const uint8_t *i, size_t il, const uint8_t *p, size_t pl, const uint8_t *c, size_t cl, uint8_t mark, const uint8_t *l, size_t ll

/* The fields of a request, as far as it has its sections. */
static inline struct fields asked(const uint8_t *r, size_t rl) {
    struct fields f = { 0 };
    model_read(r, rl, &f);
    return f;
}

/* The place of the video section's count, or the end where there is none. */
static inline size_t video_at(const uint8_t *r, size_t rl) { return rl && 1u + r[0] < rl ? 1u + r[0] : rl; }

/* The request that an image shows, in family 0, whether it is accepted or not; 0 where a field shows no value that is allowed. */
static inline int shown_by(const uint8_t *image, struct fields *f) {
    int input = image[0x15] & 15;
    if (input > 8) return 0;
    *f = (struct fields){ .wiring = model_wiring_of(input), .sound = image[0x44] >> 5 & 1, .matrix = image[0x18] >> 7 };
    if (f->wiring > WIRING_BYTES) model_syncs_shown(image + SYNCS_AT, f->sync);
    for (const struct field *row = model_fields; row < model_fields + FIELDS; row++) {
        if (!model_has(f, row->section) || row->shown(image) == NO_REGISTER) continue;
        *model_field(f, row) = row->shown(image);
        if (!model_allows(row, row->shown(image))) return 0;
    }
    for (int k = 0; f->matrix && k < 12; k++) {
        int field = (image[0x18 + 2 * k] & 0x1F) * 256 + image[0x19 + 2 * k];
        f->coefficient[k] = field < 4096 ? field : field - 8192;
    }
    return 1;
}

/* Would it end in the image, in one of its families, whatever refuses it? The family becomes 0. */
static inline int ends_in_any(const uint8_t *image, struct fields *f) {
    uint8_t wanted[256];
    int ends = 0;
    for (f->family = 0; f->family < 2 && !ends; f->family++) {
        struct pair p = model_pair(f);
        model_wanted(f, p, wanted);
        ends = model_offers(f->vic, f->family) && p.exists && model_stands(wanted, image);
    }
    f->family = 0;
    return ends;
}

/* The number of a request's own rules, 1 to 6, 17 and 20. */
static inline uint32_t refusal_of(const struct fields *f) {
    uint8_t bytes[LONGEST];
    struct fields again;
    return model_read(bytes, model_bytes(f, bytes), &again);
}

/* Planning's answer alone, with no lent byte changed; and the list with nothing left out, where it is accepted. */
static inline struct station_count answered(const uint8_t *r, size_t rl, const uint8_t *i, size_t il, size_t wl) {
    uint8_t writes[256];
    return model_plan(r, rl, i, il, writes, wl);
}
static inline void full_list_of(const uint8_t *r, size_t rl, const uint8_t *i, struct list *l) {
    struct fields f = asked(r, rl);
    uint8_t wanted[256];
    model_wanted(&f, model_pair(&f), wanted);
    model_full_list(wanted, i, l);
}

/* wrong/numbers.c: the nearest exact pair by another way than the model's, whatever the tables recommend, and faults in it. */
enum ratio { RIGHT_RATIO, TWOS_KEPT, STOPS_EARLY, ONE_LESS_AT_MULTIPLES };
struct station_pair nearest_pair(struct clock c, int rate, enum ratio fault);

/* put_NAME: the call of that name in place of the model's. */
#define PUT(call, name) static void put_##name(struct face *f) { f->call = name; }

#endif
