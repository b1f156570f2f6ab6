/* A page that shows a run, write by write: what the chip machine has in use after each. Plain HTML with its drawings in it; no script, no
 * file beside it. The request and the registers may be a stranger's: they go through the exported calls and nowhere else. */
#include "chain.h"
#include "chip.h"
#include "draw.h"
#include "events.h"
#include "fields.h"
#include "may.h"
#include "registers.h"
#include "station_text.h"
#include "words.h"
#include <stdio.h>
#include <stdlib.h>
#include <string.h>

const char *program = "tools/picture";

static const char help[] =
    "tools/picture [OPTIONS] BYTES.. >run.html\n"
    "tools/picture --accident >run.html\n"
    "tools/picture --chain SEED >chain.html\n"
    "\n"
    "Writes a page that shows a run: time goes from the first write to the last, with\n"
    "a lane each for the picture, the AVI InfoFrame, the audio InfoFrame, the matrix,\n"
    "whether a new one waits for Vsync, and the holds, and the step that each write\n"
    "belongs to. Just before the last write comes the Vsync that the host waits for.\n"
    "BYTES is the request: a byte is exactly two hex digits, with or without blanks\n"
    "between.\n"
    "\n"
    "  --cut K              also the run that is cut after event K, writes and Vsyncs\n"
    "                       counted in their order, and planned again\n"
    "  --vsync AT,..        one Vsync more after each of these numbers of writes; 0\n"
    "                       is before the first, and a number may stand twice\n"
    "  --before BYTES       the request that the chip shows before, in one word;\n"
    "                       where none is given, 720p YCbCr 4:4:4 with eight\n"
    "                       channels and the matrix of Table 43\n"
    "  --image FILE         the chip's registers as they stand, 256 bytes\n"
    "  --packet FILE        its packet buffer, 32 bytes\n"
    "  --coefficients FILE  its coefficient buffer, 24 bytes\n"
    "  --mark N             its waiting mark: 0 for none; 1 to 255: a change waits\n"
    "  --accident           the accident of last May: a new matrix with no hold and\n"
    "                       no mute, cut after five coefficients; our list, cut at\n"
    "                       the same register; and cut before its Vsync, so that the\n"
    "                       hold is lowered and raised again\n"
    "  --chain SEED         the chain of requests that host/run --chain SEED plays:\n"
    "                       each link after the other with the place where its host\n"
    "                       is killed, and each group in the colour of the link whose\n"
    "                       request it is\n"
    "\n"
    "The page of a list that somebody brings is tools/review --html. The status is 0\n"
    "for a page, 1 for a request that is refused (it is said on the error stream) and\n"
    "for a chain with a point that fails (the page says what), 2 for a command that\n"
    "is not as above.\n"
    "\n"
    "  tools/picture --cut 25 " EXAMPLE " >run.html\n"
    "  tools/picture --chain 7 >chain.html\n";

/* ---- Parts of a page. */

static void draw_run(const struct run *r, const char *title, const char *of_cut) {
    printf("<h2>%s</h2>\n", title);
    draw_lanes(r, title, of_cut);
}

static void draw(const struct run *r, const char *title, const char *of_cut) {
    struct tally t = tally_of(r);
    draw_run(r, title, of_cut);
    printf("<p>Of %d places where this run may be cut, something in use is torn at <b>%d</b>; from the first write on and before "
           "the last the picture is not muted at <b>%d</b>.</p>\n", t.all, t.torn, t.shown);
}

/* Every event, for who wants to read them. */
static void table(const struct run *r) {
    printf("<details><summary>Every write, and Vsync</summary>\n<div class='wide'><table><tr><th>write<th>step<th>address<th>register<th>old<th>new");
    for (int l = 0; l < LANES; l++) printf("<th>%s", lane_name((enum lane)l));
    printf("</tr>\n");
    for (int m = 0; m < r->count; m++) {
        const struct moment *n = &r->moments[m];
        if (m == r->cut) printf("<tr><td colspan=%d><b>%s</b></tr>\n", 6 + LANES, r->chain ? "the host is killed" : "cut; planned again");
        if (n->is_vsync) printf("<tr><td><td colspan=5>Vsync");
        else if (n->number) printf("<tr><td>%d<td>%s<td>0x%02X<td>%s<td>%02X<td>%02X", n->number, step_words[n->step], n->address,
                                   name_of_register(n->address), n->before, n->after);
        else continue;
        for (int l = 0; l < LANES; l++) printf("<td>%s", word_of_lane(r, (enum lane)l, n->value[l]));
        printf("</tr>\n");
    }
    printf("</table></div></details>\n");
}

static void say_request(const char *what, const uint8_t *request, size_t length) {
    char text[TEXT_OF_A_REQUEST], mode[64];
    printf("<p>%s ", what);
    if (!words_of_request(request, length, text)) return;
    struct request q = { { 0 }, length };
    memcpy(q.bytes, request, length);
    text_of_mode((uint8_t)value_of_field(&q, "vic"), (uint8_t)value_of_field(&q, "family"), mode, sizeof mode);
    printf("<code>%s</code> (%s)</p>\n", text, mode);
}

/* ---- The pages. */

static uint32_t plan(const uint8_t *request, size_t length, const struct chip *c, uint8_t *pairs) {
    struct station_count n = station_plan(request, length, c->image, STATION_IMAGE, pairs, STATION_WRITES);
    if (n.refusal) {
        fprintf(stderr, "refused %u: %s\n", (unsigned)n.refusal, station_text(n.refusal));
        exit(REFUSED);
    }
    return n.count;
}

static void say_list(const uint8_t *pairs, uint32_t count) {
    printf("<p>Our list has %u writes; registers that are right already and are left out: %u.</p>\n", (unsigned)count,
           left_out(pairs, count));
}

static struct chip finished(struct chip c, const uint8_t *pairs, uint32_t count) {
    chip_run(&c, pairs, count);
    return c;
}

static const struct places none_besides = { .count = 0 };

/* Where a run is cut: after the last of its first events. */
static const char *text_of_cut(const struct events *e, uint32_t events) {
    static char text[48];
    if (!events) return "cut before the first write";
    if (e->at[events - 1].kind != WRITE) return "cut after Vsync";
    snprintf(text, sizeof text, "cut after write %u", (unsigned)e->at[events - 1].write + 1);
    return text;
}

/* A change: the chip before it, the request, our list for it and the events of its run, and what is in use at its end. */
struct change {
    struct chip start;
    const uint8_t *request;
    size_t length;
    uint8_t pairs[STATION_WRITES];
    uint32_t count;
    struct events events;
    struct sent new;
};

static void plan_change(struct change *g, const struct chip *start, const uint8_t *request, size_t length) {
    g->start = *start;
    g->request = request;
    g->length = length;
    g->count = plan(request, length, start, g->pairs);
    struct chip end = finished(*start, g->pairs, g->count);
    g->new = chip_sent(&end);
}

/* The run cut after so many events, and the second run; and whether that ends as a run without a cut. */
static void draw_cut(struct run *r, const struct change *g, uint32_t events, const char *title) {
    static struct events second;
    uint8_t again[STATION_WRITES];
    struct chip end = finished(g->start, g->pairs, g->count);
    run_begin(r, &g->start, &g->new);
    run_events(r, g->pairs, &g->events, events);
    run_cut(r);
    int at_cut = r->cut;
    uint32_t more = plan(g->request, g->length, &r->chip, again);
    events_of(&second, more, &none_besides, -1);
    run_events(r, again, &second, second.count);
    draw(r, title, text_of_cut(&g->events, events));
    printf("<p>At the cut: ");
    say_moment(r, at_cut);
    printf(" The second list has %u writes, for it leaves out what is right by then; after it the registers are %s.</p>\n", (unsigned)more,
           memcmp(end.image, r->chip.image, STATION_IMAGE) ? "<b>NOT</b> those of a run without a cut" : "those of a run without a cut");
    table(r);
}

/* The events up to the first write to an address, or to the last; that one too. */
static uint32_t events_to(const struct change *g, uint8_t address, int to_last) {
    uint32_t events = 0;
    for (uint32_t k = 0; k < g->events.count; k++) {
        const struct event *e = &g->events.at[k];
        if (e->kind == WRITE && g->pairs[2 * e->write] == address && (to_last || !events)) events = k + 1;
    }
    return events;
}

/* The old way: the first registers of the converter as they are to be, with no hold and no mute. */
static void draw_old_way(struct run *r, const struct change *g) {
    struct chip end = finished(g->start, g->pairs, g->count);
    uint8_t pairs[2 * FIVE];
    run_begin(r, &g->start, &g->new);
    for (uint32_t w = 0; w < FIVE; w++) {
        pairs[2 * w] = (uint8_t)(FIRST_COEFFICIENT + w);
        pairs[2 * w + 1] = end.image[FIRST_COEFFICIENT + w];
        run_write(r, pairs, w, 1);
    }
    run_cut(r);
    run_stay(r, 4 * REST);
    draw(r, "The old way: the new coefficients with no hold and no mute; the host dies after the fifth", "the host dies here");
    printf("<p>From the cut on, until somebody comes: ");
    say_moment(r, r->cut);
    printf("</p>\n");
}

static void page_of_accident(void) {
    static struct run r;
    static struct change g;
    struct chip none = { { 0 }, { 0 }, { 0 }, { 0 } };
    uint8_t pairs[STATION_WRITES];
    struct request before = request_of_text(MAY_BEFORE), asked = request_of_text(MAY_ASKED);
    struct chip start = finished(none, pairs, plan(before.bytes, before.length, &none, pairs));
    plan_change(&g, &start, asked.bytes, asked.length);
    events_of(&g.events, g.count, &none_besides, -1);

    print_head("A run, write by write", "");
    printf("<h1>The accident of last May, and the same change by our list</h1>\n");
    say_request("On show before:", before.bytes, before.length);
    say_request("Asked for:", asked.bytes, asked.length);
    say_list(g.pairs, g.count);
    draw_key(0);
    draw_old_way(&r, &g);
    draw_cut(&r, &g, events_to(&g, FIRST_COEFFICIENT + FIVE - 1, 0), "Our list, cut, and planned again from what the chip then had");
    draw_cut(&r, &g, events_to(&g, COEFFICIENT_HOLD, 1), "Our list, cut before Vsync; the second list raises the lowered hold again");
    printf("<p>A hold that rises before Vsync drops the change that waited: the old coefficients stay in use until the second list has "
           "its Vsync.</p>\n</body></html>\n");
}

/* A link of a chain: its run up to its cut, or to its end. */
static void draw_link(struct run *r, const struct chain *c) {
    const struct link *l = &c->now;
    char title[96], of_cut[64];
    snprintf(title, sizeof title, "Link %u of %u: %s", (unsigned)c->number, (unsigned)c->links,
             !l->is_cut ? "finished" : l->happen ? "its host is killed" : "its host is killed before it does anything");
    snprintf(of_cut, sizeof of_cut, "killed after event %u of %u", (unsigned)l->happen, (unsigned)l->events.count);
    run_begin(r, &r->chip, &c->asked[c->number]);
    run_events(r, l->list, &l->events, l->happen);
    if (l->is_cut) {
        run_cut(r);
        run_stay(r, 4 * REST);
    }
    r->points += 1 + (int)l->happen;
    draw_run(r, title, of_cut);
    say_request("Asked for:", l->asked.bytes, l->asked.length);
    printf("<p>The list has %u writes, and %u Vsyncs come beside the host's own; %u of %u events happen. After them: ",
           (unsigned)l->events.writes, (unsigned)l->besides.count, (unsigned)l->happen, (unsigned)l->events.count);
    say_moment(r, r->count - 1);
    printf("</p>\n");
    table(r);
}

static int page_of_chain(long seed) {
    static struct run r;
    static struct chain c;
    uint8_t request[STATION_REQUEST];
    char fault[TEXT_OF_A_FAULT];
    chain_begin(&c, seed);
    r.chip = c.start;
    r.chain = &c;
    print_head("A chain of requests, link by link", "");
    printf("<h1>A chain of requests, and hosts that are killed</h1>\n");
    printf("<p>Chain %ld, %u links: requests, Vsyncs and cuts are drawn from that number. Each host reads the registers back, plans its "
           "request on them, and is killed somewhere; the last one finishes. The chip was left by %s.</p>\n", seed, (unsigned)c.links,
           text_of_beginning(&c));
    struct station_count n = station_decode(c.start.image, STATION_IMAGE, request, sizeof request);
    if (!n.refusal) say_request("On show before:", request, n.count);
    draw_key_of_chain(c.links);
    while (chain_next(&c, &r.chip)) draw_link(&r, &c);
    chain_end(&c, &r.chip, fault);
    if (*r.fault || *fault) printf("<p>A point does <b>NOT</b> hold: %s.</p>\n</body></html>\n", *r.fault ? r.fault : fault);
    else printf("<p>%d points checked: at each the picture is as it must be, every free bit as at the beginning, and each group in use old "
                "or whole as one request asked; at the end all is as the last request asked.</p>\n</body></html>\n", r.points);
    return *r.fault || *fault ? REFUSED : ACCEPTED;
}

/* It was here up to 5.3.0. */
static void take_list(const char *word, struct option *o) {
    (void)o;
    misuse("%.80s: the page of a list is tools/review --html", word);
}

static void take_bytes(const char *word, struct option *o) {
    o->into = malloc(strlen(word) + 1);
    if (!o->into) misuse("no memory");
    o->length = bytes_of_word(word, o->into);
}

int main(int count, char **words) {
    static struct run r;
    static struct change g;
    struct chip c = { { 0 }, { 0 }, { 0 }, { 0 } };
    struct request before = request_of_text(MAY_ASKED);
    struct places besides = { .count = 0 };
    long cut_at = -1, mark = 0, seed = 0;
    int accident = 0;
    struct option options[] = {
        { "--image", take_file, c.image, STATION_IMAGE, 0 },
        { "--packet", take_file, c.packet, STATION_PACKET, 0 },
        { "--coefficients", take_file, c.coefficients, STATION_COEFFICIENTS, 0 },
        { "--mark", take_number, &mark, UINT8_MAX, 0 },
        { "--before", take_bytes, before.bytes, before.length, 0 },
        { "--cut", take_number, &cut_at, EVENTS, 0 },
        { "--vsync", take_places, &besides, 0, 0 },
        { "--list", take_list, NULL, 0, 0 },
        { "--accident", NULL, &accident, 0, 0 },
        { "--chain", take_number, &seed, MOST_SEEDS, 0 },
    };
    enum { BY_IMAGE, BY_PACKET, BY_COEFFICIENTS, BY_MARK, BY_BEFORE, BY_CUT, BY_VSYNC, BY_LIST, BY_ACCIDENT, BY_CHAIN, OPTIONS };
    size_t length;
    uint8_t *request = request_of_command(count, words, help, options, OPTIONS, &length), pairs[STATION_WRITES];
    if (accident) {
        if (count > 2) misuse("--accident stands alone");
        page_of_accident();
        return printed(ACCEPTED);
    }
    if (options[BY_CHAIN].given) {
        if (count > 3) misuse("--chain SEED stands alone");
        return printed(page_of_chain(seed));
    }
    if (options[BY_IMAGE].given && options[BY_BEFORE].given) misuse("--image and --before exclude each other");
    if (!options[BY_IMAGE].given && (options[BY_PACKET].given || options[BY_COEFFICIENTS].given || options[BY_MARK].given))
        misuse("a buffer or the mark is given, and no --image");
    c.mark[0] = (uint8_t)mark;
    if (!options[BY_IMAGE].given) c = finished(c, pairs, plan(options[BY_BEFORE].into, options[BY_BEFORE].length, &c, pairs));
    plan_change(&g, &c, request, length);
    events_of(&g.events, g.count, &besides, cut_at);

    print_head("A run, write by write", "");
    printf("<h1>A run, write by write</h1>\n");
    if (!options[BY_IMAGE].given) say_request("On show before:", options[BY_BEFORE].into, options[BY_BEFORE].length);
    say_request("Asked for:", request, length);
    say_list(g.pairs, g.count);
    draw_key(0);
    run_begin(&r, &c, &g.new);
    run_events(&r, g.pairs, &g.events, g.events.count);
    draw(&r, "Our list, from the first write to the last", "");
    table(&r);
    if (cut_at >= 0) draw_cut(&r, &g, (uint32_t)cut_at, "Our list, cut, and planned again from what the chip then had");
    printf("</body></html>\n");
    return printed(ACCEPTED);
}
