/* Demand 3 (document 02, request 04, in it): runs of a list's writes with Vsync events anywhere among them, cut at every place. */
#include "check.h"
#include "lent.h"
#include <stdio.h>
#include <string.h>

/* Twelve coefficients as a request has them, of 24 bytes as the chip has them: 13 bits each, two's complement. */
void coefficients_of(const uint8_t *bytes, uint8_t *matrix) {
    for (int i = 0; i < 24; i += 2) {
        matrix[i] = (uint8_t)((bytes[i] & 0x1F) | (bytes[i] & 0x10 ? 0xE0 : 0));
        matrix[i + 1] = bytes[i + 1];
    }
}

/* The chip lies at guard pages. */
int look(const struct chip *c, struct groups *g) {
    uint8_t matrix[MATRIX_BYTES];
    const uint8_t *image = lend(IMAGE, c->image, 256, ENDS), *packet = lend(PACKET, c->packet, PACKET_BYTES, ENDS);
    struct station_part avi = run.f->sent(image, 256, packet, PACKET_BYTES, 0), audio = run.f->sent(image, 256, packet, PACKET_BYTES, 1);
    struct station_state mute = run.f->mute(image, 256, packet, PACKET_BYTES);
    struct station_count m = run.f->matrix(image, 256, lend(COEFFICIENTS, c->coefficients, 24, ENDS), 24, c->mark, matrix, sizeof matrix);
    if (avi.refusal || audio.refusal || mute.refusal || m.refusal || avi.len != AVI_BYTES || audio.len != AUDIO_BYTES) return 0;
    memcpy(g->avi, (avi.held ? c->packet : c->image) + avi.start, AVI_BYTES);
    memcpy(g->audio, (audio.held ? c->packet : c->image) + audio.start, AUDIO_BYTES);
    memcpy(g->matrix, matrix + 1, 24);
    g->mute = mute.mute;
    return 1;
}

static int same_packets(const struct groups *a, const struct groups *b) {
    return !memcmp(a->avi, b->avi, AVI_BYTES) && !memcmp(a->audio, b->audio, AUDIO_BYTES);
}
static int same_matrix(const struct groups *a, const struct groups *b) { return !memcmp(a->matrix, b->matrix, 24); }
int same(const struct groups *a, const struct groups *b) { return same_packets(a, b) && same_matrix(a, b); }

int old_or_new(const struct groups *g, const struct groups *old, const struct groups *new) {
    return (!memcmp(g->avi, old->avi, AVI_BYTES) || !memcmp(g->avi, new->avi, AVI_BYTES)) &&
           (!memcmp(g->audio, old->audio, AUDIO_BYTES) || !memcmp(g->audio, new->audio, AUDIO_BYTES)) &&
           (same_matrix(g, old) || same_matrix(g, new));
}

struct station_count planned(const uint8_t *request, size_t rl, const struct chip *c, uint8_t *list) {
    return run.f->plan(request, rl, c->image, 256, list, 256);
}

int turned(struct chip *c) {
    return run.f->vsync(c->image, 256, c->packet, PACKET_BYTES, c->coefficients, COEFFICIENT_BYTES, &c->mark, MARK_BYTES) == 0;
}

int sent_to(struct chip *c, const uint8_t *list, uint32_t from, uint32_t to) {
    for (uint32_t w = from; w < to; w++)
        if (run.f->write(c->image, 256, c->packet, PACKET_BYTES, c->coefficients, COEFFICIENT_BYTES, &c->mark, MARK_BYTES, list[2 * w],
                         list[2 * w + 1]))
            return 0;
    return 1;
}

int sent_whole(struct chip *c, const uint8_t *list, uint32_t count) {
    return count == 0 || (sent_to(c, list, 0, count - 1) && turned(c) && sent_to(c, list, count - 1, count));
}

void finished(const uint8_t *bytes, size_t length, const struct fields *f, const struct chip *start, const struct chip *end,
              const struct groups *new) {
    uint8_t wanted[256], done[256], avi[AVI_BYTES], audio[AUDIO_BYTES], matrix[24];
    struct fields answer = read_back(f);
    model_wanted(f, model_pair(f), wanted);
    model_finished(wanted, start->image, done);
    model_avi(f, avi);
    model_audio(f, audio);
    coefficients_of(wanted + 0x18, matrix);
    if (memcmp(done, end->image, 256)) differs("VIC %d: the finished image is another", f->vic);
    /* The reserved bits beside version and length are free, so they are the image's. */
    if (memcmp(avi + 2, new->avi + 2, AVI_BYTES - 2) || (new->avi[0] & 7) != 2 || (new->avi[1] & 31) != 13)
        differs("the AVI group at the end");
    if (memcmp(audio + 2, new->audio + 2, AUDIO_BYTES - 2) || (new->audio[0] & 7) != 1 || (new->audio[1] & 31) != 10)
        differs("the audio group at the end");
    if (memcmp(new->matrix, f->matrix ? bytes + length - 24 : matrix, 24)) differs("the matrix group at the end");
    for (const struct field *row = model_fields; row < model_fields + FIELDS; row++) {
        int shown = row->shown(end->image);
        if (shown != NO_REGISTER && model_has(f, row->section) && shown != *model_field(&answer, row))
            differs("VIC %d: field %d is shown otherwise", f->vic, (int)(row - model_fields));
    }
    if (!reads_back(end->image, f)) differs("VIC %d: the finished image decodes otherwise", f->vic);
}

/* What is left out. ----------------------------------------------------------------------------------------------------------------- */

uint32_t others(const uint8_t *list, uint32_t count, int first, int last) {
    uint32_t n = 0;
    for (uint32_t w = 0; w < count; w++) n += list[2 * w] >= first && list[2 * w] <= last && !model_stays(list[2 * w]);
    return n;
}

/* A group left out whole, or all but the nine writes, with no hold up at the start and with one. */
static const struct { uint8_t first, last, address, hold; const char *what; } parts_left_out[] = {
    { 0x00, 0xFF, 0x4A, 0x60, "nine writes" },
    { 0x18, 0x2F, 0x1A, 0x20, "no coefficient" },
    { 0x52, 0x61, 0x4A, 0x40, "no AVI register" },
    { 0x70, 0x7C, 0x4A, 0x20, "no audio register" },
};
enum { PARTS_LEFT_OUT = sizeof parts_left_out / sizeof parts_left_out[0] };
static uint32_t times_left_out[PARTS_LEFT_OUT][2];

void count_left_out(const uint8_t *image, const uint8_t *list, uint32_t count) {
    for (int k = 0; k < PARTS_LEFT_OUT; k++)
        if (others(list, count, parts_left_out[k].first, parts_left_out[k].last) == 0 && (k == 0 || count > 9))
            times_left_out[k][(image[parts_left_out[k].address] & parts_left_out[k].hold) != 0]++;
}

void every_part_left_out(void) {
    for (int k = 0; run.share >= 1000 && k < PARTS_LEFT_OUT; k++)
        for (int held = 0; held < 2; held++) {
            char what[40];
            snprintf(what, sizeof what, "%s%s", parts_left_out[k].what, held ? ", a hold up" : "");
            never_met(times_left_out[k][held], "lists", what);
        }
    memset(times_left_out, 0, sizeof times_left_out);
}

/* Runs. ----------------------------------------------------------------------------------------------------------------------------- */

/* A list, and so many Vsync events after each number of its writes, from none of them to all. The coefficient hold is up after `rises`
 * writes, and down for good after `falls`; from there to the opening write, the last one, is the window: a run with an event in it is a
 * finished one. */
struct script { uint32_t count, rises, falls; uint8_t list[256], events[129]; };

static void one_event(struct script *s, uint32_t from, uint32_t to) { s->events[from + any(to - from + 1)]++; }
static void event_in_window(struct script *s) { one_event(s, s->falls, s->count - 1); }

static void any_events(struct script *s) {
    memset(s->events, 0, sizeof s->events);
    uint32_t how = any(10);
    switch (how) {
    case 0: break;
    case 1: event_in_window(s); break;
    case 2: one_event(s, 0, s->count); break;
    case 3: one_event(s, 0, 0); break;                      /* before the first write */
    case 4: one_event(s, 1, s->rises - 1); break;           /* before the hold rises */
    case 5: one_event(s, s->rises, s->falls - 1); break;    /* beside the raised hold */
    case 6: one_event(s, s->count, s->count); break;        /* after the opening write */
    default:                                                /* few, one after each write, many */
        for (uint32_t w = 0; w <= s->count; w++) s->events[w] = (uint8_t)(how == 7 ? any(8) == 0 : how == 8 ? 1 : any(4));
    }
    if (how > 1 && how < 6 && any(3) == 0) event_in_window(s);
}

/* The list for a state; 0 where there is none. Where the host waits: the last write to 0x1A lowers the hold, and the last pair opens. */
static int scripted(const uint8_t *bytes, size_t length, const struct chip *c, struct script *s) {
    struct station_count n = planned(bytes, length, c, s->list);
    if (n.refusal || n.count > 128) {
        differs("refused %u, count %u", n.refusal, n.count);
        return 0;
    }
    s->count = n.count, s->rises = s->falls = 0;
    for (uint32_t w = 0; w < n.count; w++) {
        if (s->list[2 * w] != 0x1A) continue;
        if (!s->rises) s->rises = w + 1;
        s->falls = w + 1;
    }
    int opens = n.count > 0 && s->list[2 * n.count - 2] == 0x4B && (s->list[2 * n.count - 1] & 0xC0) == 0x80;
    if (opens && s->rises > 1 && s->falls > s->rises && s->falls < n.count && !(s->list[2 * s->falls - 1] & 0x20)) return 1;
    differs("no place for the Vsync: 0x1A after %u and %u writes of %u", s->rises, s->falls, n.count);
    return 0;
}

/* What counts as old, and whether the change that waited at the start waits still. Until its Vsync old is what is in use at the start, from
 * then on the registers of the start. Where the hold rises first, the change is dropped. */
struct past { struct groups first, old; uint8_t registers[24]; int waits; };

static int past_of(const struct chip *start, struct past *p) {
    if (!look(start, &p->first)) return 0;
    coefficients_of(model_matrix_in_use(start), p->first.matrix);
    p->old = p->first;
    coefficients_of(start->image + 0x18, p->registers);
    p->waits = model_waits(start);
    return 1;
}

/* How often each situation was met. */
enum situation {
    STARTS_WAITING, STARTS_HELD_WITH_MARK, STARTS_WITH_NONE, TAKEN_BEFORE_FIRST, TAKEN_BEFORE_RISE, DROPPED, THREE_SETS, BESIDE_HOLD,
    IN_WINDOW, TWICE_IN_WINDOW, NOT_FINISHED, TAKEN_AFTER_LAST, OLD_IN_WAIT, AGAIN_IN_NEW_WAIT, AGAIN_IN_OLD_WAIT, AGAIN_BEHIND_OPEN,
    SITUATIONS
};
static const char *const situations[SITUATIONS] = {
    [STARTS_WAITING] = "a change waits at the start",
    [STARTS_HELD_WITH_MARK] = "a mark beside a raised hold at the start",
    [STARTS_WITH_NONE] = "no mark at the start",
    [TAKEN_BEFORE_FIRST] = "what waited at the start is taken before the first write",
    [TAKEN_BEFORE_RISE] = "it is taken after it, before the hold rises",
    [DROPPED] = "it is dropped by the rise",
    [THREE_SETS] = "in use, waiting and new: three sets, and the second in use",
    [BESIDE_HOLD] = "a Vsync beside the raised hold",
    [IN_WINDOW] = "a Vsync between the lowered hold and the opening write",
    [TWICE_IN_WINDOW] = "more than one there",
    [NOT_FINISHED] = "none there: open, and the old coefficients in use",
    [TAKEN_AFTER_LAST] = "and new after a later Vsync",
    [OLD_IN_WAIT] = "cut in the wait: the old ones in use, the new ones in the registers",
    [AGAIN_IN_NEW_WAIT] = "planned again, a change of the cut list waits",
    [AGAIN_IN_OLD_WAIT] = "planned again, what waited at the start waits still",
    [AGAIN_BEHIND_OPEN] = "planned again after a run that was not finished",
};
static uint32_t situations_met[SITUATIONS];
static void meets(enum situation s, int met) { situations_met[s] += met != 0; }

static void every_situation_met(void) {
    for (int s = 0; run.share >= 1000 && s < SITUATIONS; s++) never_met(situations_met[s], "times", situations[s]);
    memset(situations_met, 0, sizeof situations_met);
}

/* A run on its way: the state, the writes that were made, the events since the hold fell for good. */
struct walk {
    const uint8_t *bytes;
    size_t length;
    struct script s;
    struct chip start, now, end;
    struct past past;
    struct groups new;
    uint32_t writes, taken;
};

/* The list, the end of a finished run without a cut, and what is new. */
static int begins(struct walk *k, const uint8_t *bytes, size_t length, const struct chip *start) {
    k->bytes = bytes, k->length = length;
    k->start = k->now = k->end = *start;
    k->writes = k->taken = 0;
    if (!scripted(bytes, length, start, &k->s)) return 0;
    if (sent_whole(&k->end, k->s.list, k->s.count) && past_of(start, &k->past) && look(&k->end, &k->new)) return 1;
    differs("the machine refused");
    return 0;
}

static int turns_over(struct walk *k) {
    int differ = !same_matrix(&k->past.old, &k->new), in_window = k->writes >= k->s.falls && k->writes < k->s.count;
    meets(TAKEN_BEFORE_FIRST, k->past.waits && k->writes == 0);
    meets(TAKEN_BEFORE_RISE, k->past.waits && k->writes > 0);
    meets(BESIDE_HOLD, k->writes > k->s.rises && k->writes < k->s.falls && differ);
    meets(IN_WINDOW, in_window && k->taken == 0 && differ);
    meets(TWICE_IN_WINDOW, in_window && k->taken == 1 && differ);
    meets(TAKEN_AFTER_LAST, k->writes == k->s.count && k->taken == 0 && differ);
    if (k->past.waits) memcpy(k->past.old.matrix, k->past.registers, 24);
    k->past.waits = 0;
    k->taken += k->writes >= k->s.falls;
    return turned(&k->now);
}

static int writes_one(struct walk *k) {
    const uint8_t *pair = k->s.list + 2 * k->writes;
    int rises = pair[0] == 0x1A && (pair[1] & 0x20);
    meets(DROPPED, k->past.waits && rises);
    if (rises) k->past.waits = 0;
    k->writes++;
    return sent_to(&k->now, k->s.list, k->writes - 1, k->writes);
}

/* The events and the writes, to the end of the script or after so many writes and so many of the events there; `at` looks at each place. */
static void walked(struct walk *k, uint32_t writes, uint32_t events, void (*at)(struct walk *)) {
    for (k->writes = k->taken = 0;;) {
        uint32_t here = k->writes == writes && events < k->s.events[writes] ? events : k->s.events[k->writes];
        for (; here > 0; here--) {
            if (!turns_over(k)) differs("a Vsync refused after write %u", k->writes);
            at(k);
        }
        if (k->writes == writes) return;
        if (!writes_one(k)) differs("write %u refused", k->writes);
        at(k);
    }
}

/* The events and the writes with nothing looked at; 0 where one is refused. */
static int played(struct chip *c, const struct script *s) {
    int good = 1;
    for (uint32_t w = 0; w <= s->count; w++) {
        for (int n = s->events[w]; n > 0; n--) good &= turned(c);
        if (w < s->count) good &= sent_to(c, s->list, w, w + 1);
    }
    return good;
}

/* Planned again at a cut, with whatever waits there, and run to a finished end. */
static void planned_again(const struct walk *k) {
    struct chip c = k->now;
    struct groups g;
    struct script s;
    int waits = model_waits(&c), last = k->writes == k->s.count;
    if (!scripted(k->bytes, k->length, &c, &s)) return;
    any_events(&s);
    event_in_window(&s);
    meets(AGAIN_IN_NEW_WAIT, waits && k->writes >= k->s.falls && !last);
    meets(AGAIN_IN_OLD_WAIT, waits && k->past.waits);
    meets(AGAIN_BEHIND_OPEN, waits && last);
    if (!played(&c, &s) || !look(&c, &g)) differs("planned again after write %u: refused", k->writes);
    else if (memcmp(c.image, k->end.image, 256)) differs("planned again after write %u: another image", k->writes);
    else if (!same(&g, &k->new) || g.mute != 2) differs("planned again after write %u: another group", k->writes);
}

static void before_first(const struct walk *k, const struct groups *g) {
    if (memcmp(k->now.image, k->start.image, 256) || memcmp(k->now.packet, k->start.packet, PACKET_BYTES) ||
        memcmp(k->now.coefficients, k->start.coefficients, COEFFICIENT_BYTES))
        differs("a byte moved before the first write");
    if (!same(g, &k->past.old) || g->mute != k->past.old.mute) differs("a group moved before the first write, and not by Vsync");
}

static void between(const struct walk *k, const struct groups *g) {
    if (g->mute != 1) differs("not muted after write %u of %u", k->writes, k->s.count);
    if (!old_or_new(g, &k->past.old, &k->new)) differs("a group is neither old nor new after write %u of %u", k->writes, k->s.count);
}

/* All new and open; but in a run that is not finished the coefficients are old until the next Vsync. */
static void after_last(const struct walk *k, const struct groups *g) {
    if (g->mute != 2 || !same_packets(g, &k->new)) differs("not open or not new after the last write");
    if (memcmp(k->now.image, k->end.image, 256)) differs("the registers are not new after the last write");
    if (k->taken && !same_matrix(g, &k->new)) differs("coefficients that are not new after the last write");
    if (!k->taken && !same_matrix(g, &k->past.old)) differs("coefficients that are not old in a run without its Vsync");
}

static void at_cut(struct walk *k) {
    struct groups g;
    run.now->cases++;
    if (!look(&k->now, &g)) {
        differs("a view refused after write %u", k->writes);
        return;
    }
    (k->writes == 0 ? before_first : k->writes < k->s.count ? between : after_last)(k, &g);
    const struct groups *first = &k->past.first, *old = &k->past.old, *new = &k->new;
    int differ = !same_matrix(old, new), last = k->writes == k->s.count;
    meets(THREE_SETS, differ && !same_matrix(first, old) && !same_matrix(first, new) && same_matrix(&g, old));
    meets(OLD_IN_WAIT, differ && k->writes >= k->s.falls && !last && !k->taken);
    meets(NOT_FINISHED, differ && last && !k->taken);
    planned_again(k);
}

static void cuts_of(const struct fields *f, const struct chip *start) {
    static struct walk k;
    uint8_t bytes[LONGEST], list[256];
    size_t length = model_bytes(f, bytes);
    if (!model_pair(f).exists) {
        run.now->cases++;
        uint32_t refusal = planned(bytes, length, start, list).refusal;
        if (refusal != 9) differs("VIC %d: refusal %u for 9", f->vic, refusal);
        return;
    }
    if (!begins(&k, bytes, length, start)) return;
    finished(bytes, length, f, start, &k.end, &k.new);
    count_left_out(start->image, k.s.list, k.s.count);
    meets(STARTS_WAITING, model_waits(start));
    meets(STARTS_HELD_WITH_MARK, start->mark && !model_waits(start));
    meets(STARTS_WITH_NONE, !start->mark);
    any_events(&k.s);
    at_cut(&k);
    walked(&k, k.s.count, UINT32_MAX, at_cut);
}

/* Every kind of request, each on an image of any kind and on one that needs few writes; every hold that refusal 8 lets pass, any mark. */
void cuts(void) {
    struct fields f;
    struct chip start;
    for (uint32_t i = 0; i < kinds(); i++) {
        if (!tries_kind(i, times(KINDS), &f)) continue;
        for (int near = 0; near < 2; near++) {
            any_start(&start);
            if (near) near_image(start.image, &f), left_up(start.image);
            start.image[0x4A] = (uint8_t)((start.image[0x4A] & 0x8F) | (const uint8_t[]){ 0, 0x20, 0x40 }[i % 3]);
            cuts_of(&f, &start);
        }
    }
    every_part_left_out();
    every_situation_met();
    if (run.share >= 1000) every_value_met();
}

/* In a row of cuts the same past goes on. */
static void in_row(struct walk *k) {
    struct groups g;
    if (!look(&k->now, &g)) differs("a view refused after a cut");
    else if (k->writes > 0) between(k, &g);
    else if (!old_or_new(&g, &k->past.old, &k->new)) differs("a group is neither old nor new after more than one cut");
}

/* Cut, planned again, cut again, some times over, with events anywhere; then another request over the ruins, with what waits there. */
void cuts_in_a_row(void) {
    static struct walk k;
    for (uint32_t i = times(6000); i > 0; i--) {
        uint8_t bytes[LONGEST];
        struct chip start;
        struct fields f;
        seed(0xD00000u + i);
        any_start(&start);
        for (int turn = 0; turn < 2; turn++) {
            accepted_fields(&f);
            if (turn == 0 && i % 2) near_image(start.image, &f);
            if (!begins(&k, bytes, model_bytes(&f, bytes), &start)) break;
            for (uint32_t again = 1 + any(4); again > 0; again--) {
                run.now->cases++;
                if (!scripted(k.bytes, k.length, &k.now, &k.s)) break;
                any_events(&k.s);
                walked(&k, any(k.s.count), any(3), in_row);
            }
            planned_again(&k);
            start = k.now;
        }
    }
    memset(situations_met, 0, sizeof situations_met);
}
