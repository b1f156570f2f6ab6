/* Chains of requests (document 02, request 14): each link is planned on the registers as the one before left them, and is cut at any place
 * or run through, with Vsync events anywhere among its writes; the last one is finished. Played by the library's own calls; what each point
 * may show is the model's. */
#include "check.h"
#include "lent.h"
#include <stdio.h>
#include <string.h>

/* So many links at most in a chain. So many kinds of request, each of them the last one of two chains: more than there are, so that a
 * share of them is enough for the wrong libraries. */
enum { MOST_LINKS = 6, LAST_KINDS = 16000 };

enum part_in_use { IN_MATRIX, IN_AVI, IN_AUDIO, IN_USE };
static const struct { uint8_t address, hold, first, last; const char *name; } parts[IN_USE] = {
    [IN_MATRIX] = { 0x1A, 0x20, 0x18, 0x2F, "coefficients" },
    [IN_AVI] = { 0x4A, 0x40, 0x52, 0x61, "AVI" },
    [IN_AUDIO] = { 0x4A, 0x20, 0x70, 0x7C, "audio" },
};
static int is_held(const struct chip *c, int part) { return (c->image[parts[part].address] & parts[part].hold) != 0; }

static int same_part(int part, const struct groups *a, const struct groups *b) {
    if (part == IN_AVI) return !memcmp(a->avi, b->avi, AVI_BYTES);
    if (part == IN_AUDIO) return !memcmp(a->audio, b->audio, AUDIO_BYTES);
    return !memcmp(a->matrix, b->matrix, 24);
}

/* The groups as the registers have them; as they are in use, by the model; as a request asks, with the free bits of the beginning beside
 * version and length. */
static void of_registers(const uint8_t *image, struct groups *g) {
    memcpy(g->avi, image + 0x52, AVI_BYTES);
    memcpy(g->audio, image + 0x70, AUDIO_BYTES);
    coefficients_of(image + 0x18, g->matrix);
}

static void of_beginning(const struct chip *c, struct groups *g) {
    struct in_use u = model_in_use(c);
    memcpy(g->avi, u.avi, AVI_BYTES);
    memcpy(g->audio, u.audio, AUDIO_BYTES);
    coefficients_of(model_matrix_in_use(c), g->matrix);
    g->mute = (u.gc >> 6 & 1) + 2 * (u.gc >> 7 & 1);
}

static void of_request(const struct fields *f, const uint8_t *first, struct groups *g) {
    uint8_t wanted[256];
    model_avi(f, g->avi);
    g->avi[0] |= first[0x52] & 0xF8, g->avi[1] |= first[0x53] & 0xE0;
    model_audio(f, g->audio);
    g->audio[0] |= first[0x70] & 0xF8, g->audio[1] |= first[0x71] & 0xE0;
    model_wanted(f, (struct pair){ 0, 0, 0 }, wanted);
    coefficients_of(wanted + 0x18, g->matrix);
}

/* How often each situation was met. ------------------------------------------------------------------------------------------------- */

enum situation {
    CHAINS_PLAYED, QUIET, SIX_LINKS, LINKS_PLAYED, BEGINS_IN_MATRIX, BEGINS_IN_AVI, BEGINS_IN_AUDIO, BEGINS_WITH_MARK, BEGINS_WAITING,
    WAITED_IN_USE, BEFORE_FIRST,
    LEFT_IN_MATRIX, LEFT_IN_AVI, LEFT_IN_AUDIO, LEFT_WAITING, LEFT_OPEN, WAITS_OVER_A_LINK, TAKEN_LATER, DROPPED_LATER,
    TWICE_IN_MATRIX, TWICE_IN_AVI, TWICE_IN_AUDIO, THREE_TIMES, RIGHT_IN_MATRIX, RIGHT_IN_AVI, RIGHT_IN_AUDIO, FIRST_AFTER_TWO, OF_EARLIER,
    OF_THREE, AUDIO_BEFORE_AVI, THROUGH_DVI, FROM_D_TO_E, FROM_E_TO_D, TO_EMBEDDED, FROM_EMBEDDED, OTHER_ID, AGAIN_AFTER_OTHER, VENDORS,
    VENDORS_CUT, TORN_WITHIN, TORN_AFTER,
    TORN_CARRIED, MENDED,
    SITUATIONS
};
static const struct { const char *of, *what; } situations[SITUATIONS] = {
    [CHAINS_PLAYED] = { "chains", "played" },
    [QUIET] = { "chains", "with one call of planning for each link" },
    [SIX_LINKS] = { "chains", "of six links" },
    [LINKS_PLAYED] = { "links", "of accepted requests" },
    [BEGINS_IN_MATRIX] = { "chains", "begun with the coefficient hold up" },
    [BEGINS_IN_AVI] = { "chains", "begun with the AVI hold up" },
    [BEGINS_IN_AUDIO] = { "chains", "begun with the audio hold up" },
    [BEGINS_WITH_MARK] = { "chains", "begun with a mark beside the raised coefficient hold" },
    [BEGINS_WAITING] = { "chains", "begun while a change waits, which request 14 does not speak of" },
    [WAITED_IN_USE] = { "points", "and there what waited is in use, neither the beginning's nor a request's" },
    [BEFORE_FIRST] = { "links", "cut before the first write" },
    [LEFT_IN_MATRIX] = { "links", "begun under the coefficient hold, another request's half written" },
    [LEFT_IN_AVI] = { "links", "begun under the AVI hold, another request's packet half written" },
    [LEFT_IN_AUDIO] = { "links", "begun under the audio hold, another request's packet half written" },
    [LEFT_WAITING] = { "links", "begun while the change of a cut list waits" },
    [LEFT_OPEN] = { "links", "begun after a list that was run through without its Vsync" },
    [WAITS_OVER_A_LINK] = { "links", "begun while the change of a list before the last one waits" },
    [TAKEN_LATER] = { "times", "a Vsync in a later link takes what waits" },
    [DROPPED_LATER] = { "times", "the rise of a later link drops what waits" },
    [TWICE_IN_MATRIX] = { "links", "cut among the coefficients, as another request was before" },
    [TWICE_IN_AVI] = { "links", "cut in the AVI packet, as another request was before" },
    [TWICE_IN_AUDIO] = { "links", "cut in the audio packet, as another request was before" },
    [THREE_TIMES] = { "links", "cut in a group that two requests before were cut in" },
    [RIGHT_IN_MATRIX] = { "links", "whose coefficients are in use, with others in the registers" },
    [RIGHT_IN_AVI] = { "links", "whose AVI packet is in use, with another in the registers" },
    [RIGHT_IN_AUDIO] = { "links", "whose audio packet is in use, with another in the registers" },
    [FIRST_AFTER_TWO] = { "points", "in the third request or later, a group of the beginning in use" },
    [OF_EARLIER] = { "points", "a group of a request before the last one in use" },
    [OF_THREE] = { "points", "the groups in use are of three requests" },
    [AUDIO_BEFORE_AVI] = { "links", "audio before AVI, for the hold that another request left" },
    [THROUGH_DVI] = { "chains", "from HDMI over DVI to HDMI" },
    [FROM_D_TO_E] = { "links", "of what 861-E alone has, after writes of a request without" },
    [FROM_E_TO_D] = { "links", "without it, after writes of a request with it" },
    [TO_EMBEDDED] = { "links", "of embedded syncs, after writes of a request without" },
    [FROM_EMBEDDED] = { "links", "without them, after writes of a request with them" },
    [OTHER_ID] = { "links", "of an input ID, after writes of a request of another" },
    [AGAIN_AFTER_OTHER] = { "links", "a request again, after another one" },
    [VENDORS] = { "links", "a vendor's list that passes" },
    [VENDORS_CUT] = { "links", "a vendor's list that passes, cut" },
    [TORN_WITHIN] = { "times", "coefficients torn by a Vsync within a vendor's list" },
    [TORN_AFTER] = { "times", "coefficients torn by a Vsync after its cut, in a later link" },
    [TORN_CARRIED] = { "links", "begun with torn coefficients in use" },
    [MENDED] = { "links", "finished, and torn coefficients whole again" },
};
static uint32_t situations_met[SITUATIONS], refusals_met[STATION_SOUND_TOO_MUCH + 1];
static void meets(int s, int met) { situations_met[s] += met != 0; }

static const uint32_t own_numbers[] = { 1, 2, 3, 4, 5, 6, 17, 20, 9, 10 };
enum { OWN_NUMBERS = sizeof own_numbers / sizeof own_numbers[0] };

static void every_situation_met(void) {
    for (int s = 0; run.share >= 1000 && s < SITUATIONS; s++) never_met(situations_met[s], situations[s].of, situations[s].what);
    for (int k = 0; run.share >= 1000 && k < OWN_NUMBERS; k++) {
        char what[40];
        snprintf(what, sizeof what, "refused %u, which change nothing", (unsigned)own_numbers[k]);
        never_met(refusals_met[own_numbers[k]], "links", what);
    }
    memset(situations_met, 0, sizeof situations_met);
    memset(refusals_met, 0, sizeof refusals_met);
}

/* Chains and links. ----------------------------------------------------------------------------------------------------------------- */

/* `asked` has what was in use at the beginning, and then what each link asks. `left_by` is the link that was cut in a group last, where its
 * registers are torn under their hold, or 0; `left` counts the links in a row that were so. `waits_of` is the link whose change waits. */
struct chain {
    struct chip first, now;
    struct groups asked[1 + MOST_LINKS];
    struct fields by[1 + MOST_LINKS];
    uint32_t made[1 + MOST_LINKS];              /* writes */
    int links, since;                           /* so many; the last one that was finished, or 0 */
    uint32_t mute;                              /* as it must be */
    int quiet;                                  /* the library is asked for nothing but the links */
    int unclaimed, torn;                        /* a vendor's list came, and no request was finished since; it tore the coefficients */
    int waited;                                 /* a change waits at the beginning: the registers' coefficients may come into use */
    int left_by[IN_USE], left[IN_USE], waits_of;
};

/* The pairs, and so many Vsync events after each number of them. The coefficient hold is up after `rises` pairs, down for good after
 * `falls`; `taken` counts the events since. */
struct link {
    int vendors;
    uint8_t bytes[LONGEST];
    size_t length;
    struct pairs l;
    uint32_t count, rises, falls, writes, taken;
    uint8_t events[MOST_PAIRS + 1];
};

static void find_hold(struct link *k) {
    k->count = (uint32_t)count_of(&k->l), k->rises = k->falls = 0;
    for (uint32_t w = 0; w < k->count; w++) {
        if (k->l.bytes[2 * w] != 0x1A) continue;
        if (!k->rises) k->rises = w + 1;
        k->falls = w + 1;
    }
}

static void any_events(struct link *k) {
    uint32_t how = any(6);
    for (uint32_t w = 0; w <= k->count; w++)
        k->events[w] = (uint8_t)(how == 1 ? any(12) == 0 : how == 2 ? any(3) == 0 : how == 3 ? 1 : how == 4 ? any(4) : 0);
    if (how == 5) k->events[any(k->count + 1)] = 1;
}

/* So many writes are made where a link is cut: none; in a group, its hold up; while the change waits; any number. */
static uint32_t any_cut(const struct link *k) {
    uint32_t how = any(8), up = 0, w = 0;
    if (how == 0 || k->count == 0) return 0;
    if (how < 3 && k->falls > k->rises) return k->rises + any(k->falls - k->rises);
    if (how == 3 && k->count > k->falls) return k->falls + any(k->count - k->falls);
    if (how > 5) return any(k->count);
    for (; w < k->count && !up; w++)
        if (k->l.bytes[2 * w] == 0x4A && (k->l.bytes[2 * w + 1] & (how == 4 ? 0x40 : 0x20))) up = w + 1;
    while (w < k->count && k->l.bytes[2 * w] != 0x4A) w++;
    return up ? up + any(w + 1 - up) : any(k->count);
}

/* What a point must show. ----------------------------------------------------------------------------------------------------------- */

/* Refusals 1 to 6, 17, 20, 9 and 10 by the request and the room for the list alone. */
static uint32_t own_refusal(const uint8_t *bytes, size_t length, size_t room) {
    struct fields f;
    uint32_t refusal = model_read(bytes, length, &f);
    return refusal ? refusal : !model_pair(&f).exists ? 9 : room < 256 ? 10 : 0;
}

static void planning_on(const uint8_t *image, const uint8_t *bytes, size_t length, size_t room, const char *where) {
    uint8_t before[256];
    uint32_t own = own_refusal(bytes, length, room);
    any_bytes(before, sizeof before);
    struct station_count n = run.f->plan(lend(REQUEST, bytes, length, ENDS), length, lend(IMAGE, image, 256, ENDS), 256,
                                         lend(WRITES, before, room, ENDS), room);
    if (n.refusal != own) differs("%s: refused %u, by the request's own rules %u", where, n.refusal, own);
    else if (own && (n.count || !holds(WRITES, before))) differs("%s: refused %u, and something is answered beside it", where, own);
    else if (!holds(REQUEST, bytes) || !holds(IMAGE, image)) differs("%s: an input was changed", where);
}

/* Any request here, of any kind, and at the beginning. */
static void any_planned(const struct chain *c) {
    uint8_t bytes[LEAST_ROOM];
    struct fields f;
    size_t length, room = any(8) ? 256 : any(256);
    if (any(2) && kind_of_request(any(kinds()), &f)) length = model_bytes(&f, bytes);
    else length = any_request(bytes, sizeof bytes);
    planning_on(c->now.image, bytes, length, room, "in a chain");
    planning_on(c->first.image, bytes, length, room, "at the beginning");
}

/* The row of `asked` that a group in use is, the latest; -1 where it is none of them. The end of a finished link is itself the beginning of
 * a chain, so what came before that link is over. */
static int row_of(const struct chain *c, int part, const struct groups *g) {
    for (int row = c->links; row >= c->since; row--)
        if (same_part(part, g, &c->asked[row])) return row;
    return -1;
}

/* The beginning's row where the coefficients in use are those that waited there. */
static int waited_row(const struct chain *c, const struct groups *g) {
    struct groups registers;
    of_registers(c->first.image, &registers);
    int waited = same_part(IN_MATRIX, g, &registers);
    meets(WAITED_IN_USE, waited);
    return waited ? 0 : -1;
}

static void registers_kept(const struct chain *c) {
    for (int a = 0; a < 256; a++) {
        const struct model_class *k = &model_classes[a];
        uint8_t kept = model_written(a) ? k->free | k->read_only : 0xFF;
        if ((c->now.image[a] ^ c->first.image[a]) & kept) differs("link %d: register %02x moved where no list may", c->links, a);
    }
}

static void at_point(struct chain *c, struct link *k) {
    struct groups g;
    int rows[IN_USE];
    run.now->cases++;
    if (!look(&c->now, &g)) {
        differs("link %d: a view refused after write %u", c->links, k->writes);
        return;
    }
    for (int part = 0; part < IN_USE; part++) {
        rows[part] = row_of(c, part, &g);
        if (rows[part] < 0 && part == IN_MATRIX && c->waited) rows[part] = waited_row(c, &g);
        if (rows[part] < 0 && (part != IN_MATRIX || !c->unclaimed))
            differs("link %d: %s neither of the beginning nor of a request after write %u of %u", c->links, parts[part].name, k->writes,
                    k->count);
        meets(FIRST_AFTER_TWO, rows[part] == 0 && c->links > 2);
        meets(OF_EARLIER, rows[part] > 0 && rows[part] < c->links - 1);
    }
    meets(k->vendors ? TORN_WITHIN : TORN_AFTER, rows[IN_MATRIX] < 0 && !c->torn);
    if (rows[IN_MATRIX] < 0) c->torn = 1;
    meets(OF_THREE, rows[0] > 0 && rows[1] > 0 && rows[2] > 0 && rows[0] != rows[1] && rows[1] != rows[2] && rows[2] != rows[0]);
    if (g.mute != c->mute) differs("link %d: mute %u for %u after write %u of %u", c->links, g.mute, c->mute, k->writes, k->count);
    registers_kept(c);
    if (!c->quiet && any(3) == 0) any_planned(c);
}

/* Links. ---------------------------------------------------------------------------------------------------------------------------- */

static void turns_over(struct chain *c, struct link *k) {
    meets(TAKEN_LATER, model_waits(&c->now) && c->waits_of < c->links);
    k->taken += k->writes >= k->falls && k->writes < k->count;
    if (!turned(&c->now)) differs("link %d: a Vsync refused after write %u", c->links, k->writes);
}

static void writes_one(struct chain *c, struct link *k) {
    const uint8_t *pair = k->l.bytes + 2 * k->writes;
    int waits = model_waits(&c->now), held = is_held(&c->now, IN_MATRIX);
    if (!sent_to(&c->now, pair, 0, 1)) differs("link %d: write %u refused", c->links, k->writes);
    k->writes++;
    c->mute = k->writes < k->count ? 1 : 2;
    meets(DROPPED_LATER, waits && is_held(&c->now, IN_MATRIX) && c->waits_of < c->links);
    if (held && !is_held(&c->now, IN_MATRIX)) c->waits_of = c->links;
    if (k->vendors || k->writes < k->count || !k->taken) return;
    meets(MENDED, c->torn);                                 /* a finished request: from here on its coefficients are claimed again */
    c->unclaimed = c->torn = c->waited = 0;
    c->since = c->links;
}

/* The events and the writes, after so many writes and so many of the events there. Looked at before the first and after each. */
static void walked(struct chain *c, struct link *k, uint32_t writes, uint32_t events) {
    for (k->writes = k->taken = 0, at_point(c, k);;) {
        uint32_t here = k->writes == writes && events < k->events[writes] ? events : k->events[k->writes];
        for (; here > 0; here--) turns_over(c, k), at_point(c, k);
        if (k->writes == writes) break;
        writes_one(c, k), at_point(c, k);
    }
    c->made[c->links] = k->writes;
}

static int same_request(const struct chain *c, int row, int other) { return !memcmp(&c->by[row], &c->by[other], sizeof c->by[row]); }

static int left_by_other(const struct chain *c, int part) { return c->left_by[part] && !same_request(c, c->left_by[part], c->links); }

/* What the link finds: the chip as another left it. */
static void link_begins(const struct chain *c) {
    const struct groups *asked = &c->asked[c->links];
    struct groups registers, g;
    int waits = model_waits(&c->now), before = c->links - 1;
    of_registers(c->now.image, &registers);
    of_beginning(&c->now, &g);
    for (int part = 0; part < IN_USE; part++) {
        meets(LEFT_IN_MATRIX + part, left_by_other(c, part));
        meets(RIGHT_IN_MATRIX + part, same_part(part, &g, asked) && !same_part(part, &registers, asked) && before > 0);
    }
    meets(LEFT_WAITING, waits && c->mute == 1);
    meets(LEFT_OPEN, waits && c->mute == 2);
    meets(WAITS_OVER_A_LINK, waits && c->waits_of < before);
    meets(TORN_CARRIED, c->torn && row_of(c, IN_MATRIX, &g) < 0);
    int had_e = before > 0 && model_asks_of_e(&c->by[before]), has_e = model_asks_of_e(&c->by[c->links]);
    meets(FROM_D_TO_E, before > 0 && c->made[before] && !had_e && has_e);
    meets(FROM_E_TO_D, before > 0 && c->made[before] && had_e && !has_e);
    int had = before > 0 && c->made[before] ? c->by[before].input : 0, has = c->by[c->links].input, known = before > 0 && c->made[before];
    meets(TO_EMBEDDED, known && !model_embedded(had) && model_embedded(has));
    meets(FROM_EMBEDDED, known && model_embedded(had) && !model_embedded(has));
    meets(OTHER_ID, known && had != has && had && has);
    for (int row = 1; row < before; row++)
        meets(AGAIN_AFTER_OTHER, c->made[row] && c->made[before] && same_request(c, row, c->links) && !same_request(c, before, c->links));
}

/* What it leaves: a group cut under its hold, with registers that are of no request. */
static void link_ends(struct chain *c, const struct link *k) {
    struct groups registers;
    of_registers(c->now.image, &registers);
    for (int part = 0; part < IN_USE; part++) {
        int *by = &c->left_by[part], *left = &c->left[part], held = is_held(&c->now, part);
        if (held && others(k->l.bytes, k->writes, parts[part].first, parts[part].last) == 0) continue;     /* as it was found */
        if (!held || row_of(c, part, &registers) >= 0) {
            *by = *left = 0;
            continue;
        }
        int other = *by && !same_part(part, &c->asked[*by], &c->asked[c->links]);
        *left += other || !*by;
        *by = c->links;
        meets(TWICE_IN_MATRIX + part, other);
        meets(THREE_TIMES, other && *left > 2);
    }
}

/* The next row of `asked`; the link begins, and is in it. */
static void joins(struct chain *c, const struct fields *f) {
    c->links++;
    c->by[c->links] = *f;
    c->made[c->links] = 0;
    of_request(f, c->first.image, &c->asked[c->links]);
    link_begins(c);
}

enum ends { CUT, RUN_THROUGH, FINISHED };

/* The list, as planned; 0 where there is none. The last write to 0x1A lowers the hold, and the last pair opens. */
static int planned_link(const struct chain *c, const struct fields *f, struct link *k) {
    k->length = model_bytes(f, k->bytes);
    struct station_count n = planned(k->bytes, k->length, &c->now, k->l.bytes);
    if (n.refusal || n.count > 128) {
        differs("after link %d: refused %u, count %u", c->links, n.refusal, n.count);
        return 0;
    }
    k->vendors = 0;
    k->l.length = 2 * n.count;
    find_hold(k);
    int opens = n.count > 0 && k->l.bytes[2 * n.count - 2] == 0x4B && (k->l.bytes[2 * n.count - 1] & 0xC0) == 0x80;
    if (opens && k->rises > 1 && k->falls > k->rises && k->falls < n.count && !(k->l.bytes[2 * k->falls - 1] & 0x20)) return 1;
    differs("after link %d: no place for the Vsync, 0x1A after %u and %u writes of %u", c->links, k->rises, k->falls, n.count);
    return 0;
}

static int audio_first(const struct link *k) {
    uint32_t w = 0;
    while (k->l.bytes[2 * w] != 0x4A && w + 1 < k->count) w++;
    return (k->l.bytes[2 * w + 1] & 0x60) == 0x20;
}

static struct station_verdict vetted(const struct chain *c, const struct link *k) {
    return run.f->vet(c->now.image, 256, c->now.packet, PACKET_BYTES, c->now.coefficients, COEFFICIENT_BYTES, c->now.mark, k->l.bytes,
                      k->l.length);
}

/* A finished link, the last or one before: all is by its request, but for the free bits, and they are those of the beginning. */
static void all_finished(const struct chain *c, const struct link *k) {
    const struct groups *asked = &c->asked[c->links];
    struct groups g;
    if (!look(&c->now, &g)) {
        differs("link %d, finished: a view refused", c->links);
        return;
    }
    for (int part = 0; part < IN_USE; part++)
        if (!same_part(part, &g, asked)) differs("link %d, finished: %s not as its request asked", c->links, parts[part].name);
    if (g.mute != 2) differs("link %d, finished: not open", c->links);
    if (model_waits(&c->now)) differs("link %d, finished: a change waits", c->links);
    finished(k->bytes, k->length, &c->by[c->links], &c->first, &c->now, &g);
}

static int request_link(struct chain *c, const struct fields *f, enum ends ends, struct link *k) {
    if (!planned_link(c, f, k)) return 0;
    /* Document 02, request 03: the library's own lists always pass. */
    if (!c->quiet && any(4) == 0 && vetted(c, k).refusal) differs("after link %d: our own list does not pass", c->links);
    joins(c, f);
    meets(LINKS_PLAYED, 1);
    meets(AUDIO_BEFORE_AVI, left_by_other(c, IN_AUDIO) && audio_first(k));
    any_events(k);
    uint32_t writes = ends == CUT ? any_cut(k) : k->count, events = UINT32_MAX;
    if (ends == CUT) events = any(1u + k->events[writes]);
    if (ends == RUN_THROUGH || any(3) == 0) memset(k->events + k->falls, 0, k->count - k->falls);
    if (ends == FINISHED) k->events[k->falls + any(k->count - k->falls)]++;
    meets(BEFORE_FIRST, writes == 0);
    walked(c, k, writes, events);
    link_ends(c, k);
    if (ends == FINISHED) all_finished(c, k);
    return 1;
}

/* A request that its own rules refuse: nothing is written. */
static void refused_link(const struct chain *c) {
    uint8_t bytes[LEAST_ROOM];
    uint32_t number = own_numbers[any(OWN_NUMBERS)];
    size_t length, room = number == 10 ? any(256) : 256;
    do length = any_request(bytes, sizeof bytes); while (own_refusal(bytes, length, room) != number);
    run.now->cases++;
    refusals_met[number]++;
    planning_on(c->now.image, bytes, length, room, "a refused link");
}

/* A vendor's list. ------------------------------------------------------------------------------------------------------------------ */

/* The coefficient hold lowered somewhere among the coefficients: what is written after it waits for the one Vsync that a vet knows. */
static void lowered_early(struct pairs *l) {
    size_t first = 0, last = last_place(l, 0x1A);
    while (l->bytes[2 * first] != 0x1A) first++;
    put_in(l, first + 1 + any((uint32_t)(last - first)), 0x1A, l->bytes[2 * last + 1]);
}

/* Lists that a finished image lets pass with little in them. */
static void short_list(const struct chip *c, struct pairs *l) {
    uint32_t count = any(3);
    l->length = 0;
    if (count > 1) put_in(l, 0, 0x4B, kept_value(c->image, 0x4B, 0x40));
    if (count > 0) put_in(l, count_of(l), 0x4B, kept_value(c->image, 0x4B, 0x80));
}

static void any_vendors_list(const struct chip *c, struct pairs *l) {
    struct fields f;
    enum rule rule;
    for (int tries = 0; tries < 8; tries++) {
        if (any(2) && model_ends(c->image, NONE_FREE, &f)) short_list(c, l);
        else {
            accepted_fields(&f);
            (any(2) ? our_list : full_list)(c, &f, l);
            switch (any(6)) {
            case 0: break;
            case 1: stretch(c, l, count_of(l) + any(40)); break;
            case 2: other_steps(l); break;
            case 3: other_hold(c, l); break;
            default: lowered_early(l); break;
            }
        }
        if (!model_judge(c, l->bytes, l->length, &rule).refusal) return;
    }
    accepted_fields(&f);
    our_list(c, &f, l);
}

/* It passes at this state, with the one Vsync of a vet; it is run with Vsyncs anywhere. What it asks is the request that its end decodes
 * to. */
static void vendors_link(struct chain *c, struct link *k) {
    struct chip end = c->now;
    struct fields f;
    any_vendors_list(&c->now, &k->l);
    struct station_verdict v = vetted(c, k);
    for (size_t w = 0; w < count_of(&k->l); w++) model_run(&end, k->l.bytes[2 * w], k->l.bytes[2 * w + 1]);
    if (v.refusal || !model_ends(end.image, NONE_FREE, &f)) {
        differs("after link %d: a passing list is refused %u at %u", c->links, v.refusal, v.place);
        return;
    }
    k->vendors = 1;
    find_hold(k);
    c->unclaimed = 1;
    joins(c, &f);
    any_events(k);
    if (k->count && any(2)) k->events[k->count - 1] = 1;
    uint32_t writes = any(3) ? any_cut(k) : k->count;
    meets(VENDORS, 1);
    meets(VENDORS_CUT, writes > 0 && writes < k->count);
    walked(c, k, writes, UINT32_MAX);
    link_ends(c, k);
    if (writes == k->count && !reads_back(c->now.image, &f))
        differs("link %d: a vendor's list that was run through decodes otherwise", c->links);
}

/* Chains. --------------------------------------------------------------------------------------------------------------------------- */

/* Any state that planning does not refuse, and no change waits in it: a mark stands beside a raised hold alone. One in sixteen waits all
 * the same, so that it is seen what the request keeps out. */
static void any_beginning(struct chain *c, const struct fields *last) {
    memset(c, 0, sizeof *c);
    any_start(&c->first);
    if (any(8) == 0) memset(c->first.image, 0, 256);
    if (any(4) == 0) near_image(c->first.image, last);
    left_up(c->first.image);
    if (any(16) == 0) c->first.mark = (uint8_t)(1 + any(255)), c->first.image[0x1A] &= 0xDF;
    else if (model_waits(&c->first)) c->first.mark = 0;
    c->waited = model_waits(&c->first);
    c->now = c->first;
    c->quiet = (int)any(2);
    of_beginning(&c->first, &c->asked[0]);
    c->mute = c->asked[0].mute;
    for (int part = 0; part < IN_USE; part++) meets(BEGINS_IN_MATRIX + part, is_held(&c->first, part));
    meets(BEGINS_WITH_MARK, c->first.mark && !c->waited);
    meets(BEGINS_WAITING, c->waited);
    meets(CHAINS_PLAYED, 1);
    meets(QUIET, c->quiet);
}

/* With the GC hold up, or with two holds, a state is no beginning: every request is refused 8 there, if not by 1 to 6, 17 or 20. */
static void no_beginning(const struct chain *c, const struct fields *last) {
    static const uint8_t up[] = { 0x10, 0x10, 0x60, 0x70, 0x50, 0x30 };
    uint8_t image[256], bytes[LONGEST], list[256];
    memcpy(image, c->first.image, 256);
    image[0x4A] |= up[any(sizeof up)];
    run.now->cases++;
    uint32_t refusal = run.f->plan(bytes, model_bytes(last, bytes), image, 256, list, 256).refusal;
    if (refusal != 8) differs("holds %02x: refused %u for 8", image[0x4A] & 0x70, refusal);
}

/* The request of a link before the last: the last one already; one of a link before, or the one before the last link's; another one that
 * differs from it in one section or field; any kind that is accepted. */
static void any_asked(const struct chain *c, const struct fields *last, struct fields *f) {
    uint32_t how = any(8);
    *f = *last;
    if (how == 0) return;
    if (how < 4 && c->links) *f = c->by[1 + any((uint32_t)c->links)];
    if (how == 4 && c->links > 1) *f = c->by[c->links - 1];
    if (how == 3) other_part(f);
    if (how < 5 && model_pair(f).exists) return;
    while (!kind_of_request(any(kinds()), f) || !model_pair(f).exists) continue;
}

static int through_dvi(const struct chain *c) {
    int hdmi = 0, dvi = 0;
    for (int row = 1; row < c->links; row++) {
        hdmi |= c->made[row] && c->by[row].link;
        dvi |= c->made[row] && !c->by[row].link && hdmi;
    }
    return dvi && c->by[c->links].link;
}

/* A chain that ends with this request; 0 where it does not come to its end. */
static int played(struct chain *c, const struct fields *last) {
    static struct link k;
    struct fields f;
    any_beginning(c, last);
    if (!c->quiet) no_beginning(c, last);
    int vendors = any(4) == 0;
    for (uint32_t links = any(MOST_LINKS); links > 0; links--) {
        uint32_t how = any(8);
        if (how == 0) refused_link(c);
        else if (vendors && how < 4) vendors_link(c, &k);
        else {
            any_asked(c, last, &f);
            if (!request_link(c, &f, how == 1 ? RUN_THROUGH : how == 2 ? FINISHED : CUT, &k)) return 0;
        }
    }
    if (!request_link(c, last, FINISHED, &k)) return 0;
    meets(THROUGH_DVI, through_dvi(c));
    meets(SIX_LINKS, c->links == MOST_LINKS);
    return 1;
}

/* The named bits of two ends of the same request, in the registers and in the groups in use; mandated bits beside them are alike too. */
static void same_named(const struct chip *c, const struct chip *d) {
    struct groups g, h;
    if (!look(c, &g) || !look(d, &h)) {
        differs("a view refused at the end of a chain");
        return;
    }
    for (int a = 0; a < 256; a++) {
        uint8_t alike = model_written(a) ? model_classes[a].named | model_classes[a].mandated : 0, moved = c->image[a] ^ d->image[a];
        if (a >= 0x52 && a <= 0x61) moved |= g.avi[a - 0x52] ^ h.avi[a - 0x52];
        if (a >= 0x70 && a <= 0x7C) moved |= g.audio[a - 0x70] ^ h.audio[a - 0x70];
        if (moved & alike) differs("register %02x: not by the last request alone", a);
    }
    if (memcmp(g.matrix, h.matrix, 24)) differs("coefficients not by the last request alone");
}

/* Every kind of request as the last one, of two chains that have nothing else in common. */
void chains(void) {
    static struct chain c, d;
    struct fields last;
    for (uint32_t i = 0; i < kinds(); i++) {
        if (!tries_kind(i, times(LAST_KINDS), &last) || !model_pair(&last).exists) continue;
        seed(0x1900000u + i);
        int first = played(&c, &last), second = played(&d, &last);
        if (first && second) same_named(&c.now, &d.now);
    }
    every_situation_met();
    if (run.share >= 1000) every_value_met();
}
