/* Replays the May accident on the chip machine: a new colour matrix, cut after its fifth coefficient. And our list, cut everywhere; what
 * the guide warns of, a hold that is lowered and raised again before Vsync; and our list with a Vsync more at any place, and with none.
 * It takes no argument. What it prints is compared with accident.out. */
#include "chip.h"
#include "fields.h"
#include "may.h"
#include "station_text.h"
#include "words.h"
#include <string.h>

const char *program = "accident";

struct list { uint32_t count; uint8_t pairs[STATION_WRITES]; };

static int plan(struct list *l, struct request q, const struct chip *c) {
    struct station_count n = station_plan(q.bytes, q.length, c->image, STATION_IMAGE, l->pairs, STATION_WRITES);
    l->count = n.count;
    if (n.refusal) printf("refused %u: %s\n", (unsigned)n.refusal, station_text(n.refusal));
    return n.refusal == 0;
}

/* The chip after the first writes of a list, with no Vsync. */
static struct chip after(struct chip c, const struct list *l, uint32_t writes) {
    for (uint32_t w = 0; w < writes; w++) chip_write(&c, l->pairs + 2 * w);
    return c;
}

/* The old way: the first registers of the converter as they are to be, with no hold. */
static struct chip without_hold(struct chip c, const struct chip *end, int registers) {
    for (int a = FIRST_COEFFICIENT; a < FIRST_COEFFICIENT + registers; a++) chip_write(&c, (const uint8_t[]){ (uint8_t)a, end->image[a] });
    return c;
}

/* The writes up to the first to an address, or to the last; that one too. */
static uint32_t writes_to(const struct list *l, uint8_t address, int to_last) {
    uint32_t writes = 0;
    for (uint32_t w = 0; w < l->count; w++)
        if (l->pairs[2 * w] == address && (to_last || !writes)) writes = w + 1;
    return writes;
}

static unsigned same_coefficients(const struct sent *a, const struct sent *b) {
    unsigned n = 0;
    for (size_t i = 0; i < sizeof a->matrix; i += 2) n += !memcmp(a->matrix + i, b->matrix + i, 2);
    return n;
}

static void tell_state(const char *how, struct chip now, const struct sent *old, const struct sent *new) {
    static const char *const mutes[] = { "neither muted nor open", "muted", "open", "neither muted nor open" };
    struct sent s = chip_sent(&now);
    printf("%s: %u coefficients new, %u old, picture %s\n", how, same_coefficients(&s, new), same_coefficients(&s, old), mutes[s.mute & 3]);
}

/* Each group at every cut of a run: before its first event, and after each; of the picture, open stands for old and muted for new. The
 * events are the writes, the Vsync that the host waits for, and one more after so many writes (-1: none). */
struct survey { unsigned cuts[GROUPS + 1][BOTH + 1]; };

static void look(struct survey *y, const struct chip *c, const struct sent *old, const struct sent *new) {
    static const int of_mute[] = { NEITHER, NEW, OLD, NEITHER };
    struct sent s = chip_sent(c);
    for (int g = 0; g < GROUPS; g++) y->cuts[g][age((enum group)g, &s, old, new)]++;
    y->cuts[GROUPS][of_mute[s.mute & 3]]++;
}

static void survey(struct survey *y, struct chip c, const struct list *l, long more, const struct sent *old, const struct sent *new) {
    look(y, &c, old, new);
    for (uint32_t w = 0; w <= l->count; w++) {
        for (int vsyncs = (more == (long)w) + waits_before(w, l->count); vsyncs > 0; vsyncs--) {
            chip_vsync(&c);
            look(y, &c, old, new);
        }
        if (w == l->count) return;
        chip_write(&c, l->pairs + 2 * w);
        look(y, &c, old, new);
    }
}

static void tell_survey(const struct survey *y) {
    static const struct { const char *name, *is_old, *is_new; } lines[GROUPS + 1] = {
        [AVI] = { "AVI InfoFrame", "all old", "all new" },
        [AUDIO] = { "audio InfoFrame", "all old", "all new" },
        [MATRIX] = { "twelve coefficients", "all old", "all new" },
        [GROUPS] = { "picture", "open", "muted" },
    };
    for (int g = 0; g <= GROUPS; g++)
        printf("  %s: %s at %u cuts, %s at %u, neither at %u\n", lines[g].name, lines[g].is_old, y->cuts[g][OLD] + y->cuts[g][BOTH],
               lines[g].is_new, y->cuts[g][NEW], y->cuts[g][NEITHER]);
}

/* With one Vsync more, before the first write, and after each in turn. */
static void tell_vsyncs(const struct chip *start, const struct list *l, const struct sent *old, const struct sent *new) {
    struct survey y = { { { 0 } } };
    unsigned cuts = 0, torn = 0;
    for (long more = 0; more <= (long)l->count; more++) survey(&y, *start, l, more, old, new);
    for (int a = 0; a <= BOTH; a++) cuts += y.cuts[MATRIX][a];
    for (int g = 0; g < GROUPS; g++) torn += y.cuts[g][NEITHER];
    printf("Our list with one Vsync more, at each of %u places: neither at %u of %u cuts\n", (unsigned)l->count + 1, torn, cuts);
}

/* What the guide warns of: the hold is lowered, and raised again before Vsync. */
static void tell_warning(const struct chip *start, const struct list *l, const struct sent *old, const struct sent *new) {
    uint32_t lowered = writes_to(l, COEFFICIENT_HOLD, 1), raised = writes_to(l, COEFFICIENT_HOLD, 0) - 1;
    struct chip waits = after(*start, l, lowered), at_once = waits;
    chip_vsync(&at_once);
    chip_write(&waits, l->pairs + 2 * raised);
    chip_write(&at_once, l->pairs + 2 * raised);
    printf("The coefficient hold lowered, and raised again before Vsync.\n");
    tell_state("If lowering it acted at once", at_once, old, new);
    tell_state("It waits, as the guide says", waits, old, new);
}

int main(void) {
    struct chip start = { { 0 }, { 0 }, { 0 }, { 0 } };
    struct list first, list;
    struct survey all = { { { 0 } } };
    if (!plan(&first, request_of_text(MAY_BEFORE), &start)) return 1;
    chip_run(&start, first.pairs, first.count);
    if (!plan(&list, request_of_text(MAY_ASKED), &start)) return 1;
    struct chip end = start;
    uint32_t refused = chip_run(&end, list.pairs, list.count);
    struct sent old = chip_sent(&start), new = chip_sent(&end);

    printf("A new colour matrix, cut after its fifth coefficient.\n");
    tell_state("The old way, no hold", without_hold(start, &end, FIVE), &old, &new);
    tell_state("Our list, the same cut", after(start, &list, writes_to(&list, FIRST_COEFFICIENT + FIVE - 1, 0)), &old, &new);
    printf("Our list of %u writes, of which the machine refuses %u, and the Vsync before the\n", (unsigned)list.count, (unsigned)refused);
    printf("last, cut after none of them, and after each in turn:\n");
    survey(&all, start, &list, -1, &old, &new);
    tell_survey(&all);
    tell_warning(&start, &list, &old, &new);
    tell_vsyncs(&start, &list, &old, &new);
    tell_state("Our list with no Vsync, at its end", after(start, &list, list.count), &old, &new);
    return printed(ACCEPTED);
}
