/* A chain of hosts over one chip: request after request, each host killed at any place or finished, the last one finished (document 02,
 * request 14). Each host is a process of its own: it reads the registers back, plans, and sends its events. Between two of them it waits
 * for a word of its parent, which looks at the chip's file, checks what must hold there, and kills it where the chain says so. */
#include "../programs/chain.h"
#include "../programs/words.h"
#include "host.h"
#include "station_text.h"
#include <signal.h>
#include <stdio.h>
#include <stdlib.h>
#include <string.h>
#include <sys/socket.h>
#include <sys/wait.h>
#include <unistd.h>

/* ---- The host of a link. */

struct hand { pid_t host; int wire; };

/* One event at a word, and a word after it: the number of the chip's refusal. */
static void host(const struct link *l, int wire) {
    static struct events events;
    uint8_t image[STATION_IMAGE], list[STATION_WRITES], word;
    fetch_chip();
    read_back(image);
    struct station_count n = station_plan(l->asked.bytes, l->asked.length, image, sizeof image, list, sizeof list);
    if (n.refusal || n.count != l->events.writes) _exit(REFUSED);
    events_of(&events, n.count, &l->besides, -1);
    for (uint32_t k = 0; k < events.count; k++) {
        if (recv(wire, &word, 1, 0) != 1) _exit(MISUSE);
        word = (uint8_t)happen(&events.at[k], list);
        if (send(wire, &word, 1, MSG_NOSIGNAL) != 1) _exit(MISUSE);
    }
    while (recv(wire, &word, 1, 0) == 1);                       /* nothing is left to do: until it is let go, or killed even so */
    _exit(ACCEPTED);
}

static void start_host(struct hand *h, const struct link *l) {
    int wires[2];
    fflush(stdout);
    if (socketpair(AF_UNIX, SOCK_STREAM, 0, wires) || (h->host = fork()) < 0) {
        perror(program);
        exit(MISUSE);
    }
    close(wires[h->host ? 1 : 0]);
    h->wire = wires[h->host ? 0 : 1];
    if (!h->host) host(l, h->wire);
}

/* The next event of that host: what went wrong, or NULL. */
static const char *let_happen(struct hand *h) {
    uint8_t word = 0;
    if (send(h->wire, &word, 1, MSG_NOSIGNAL) != 1 || recv(h->wire, &word, 1, 0) != 1) return "the host has ended by itself";
    fetch_chip();
    return word ? station_text(word) : NULL;
}

/* Killed, or at its end: did it end so? */
static int end_host(struct hand *h, int is_cut) {
    int status = 0;
    if (is_cut) kill(h->host, SIGKILL);
    else close(h->wire);
    int ended = waitpid(h->host, &status, 0) == h->host;
    if (is_cut) close(h->wire);
    return ended && (is_cut ? WIFSIGNALED(status) && WTERMSIG(status) == SIGKILL : WIFEXITED(status) && WEXITSTATUS(status) == ACCEPTED);
}

/* ---- Playing. */

/* What was met. Whose a group was at a point: of the beginning, of an earlier link, of the present one; `three` points had three hands in
 * them, each group another's. */
enum { BEGINNINGS, EARLIER, PRESENT, OWNERS };
struct totals {
    unsigned long chains, left[WAYS_LEFT], links, crashes, points, whose[GROUPS][OWNERS], three, waiting, held[GROUPS], faults;
};

static void count_point(struct totals *t, const struct chain *c, const struct point *p) {
    t->points++;
    for (int g = 0; g < GROUPS; g++) {
        if (p->whose[g] == OF_THE_BEGINNING) t->whose[g][BEGINNINGS]++;
        else if (p->whose[g] == (int)c->number) t->whose[g][PRESENT]++;
        else if (p->whose[g] != MIXED) t->whose[g][EARLIER]++;
    }
    t->three += p->whose[AVI] != p->whose[AUDIO] && p->whose[AUDIO] != p->whose[MATRIX] && p->whose[MATRIX] != p->whose[AVI];
}

static void show_point(const struct chain *c, const struct point *p, uint32_t events, int brief) {
    char words[GROUPS][16], state[TEXT_OF_A_STATE];
    for (int g = 0; g < GROUPS; g++) {
        if (p->whose[g] > OF_THE_BEGINNING) snprintf(words[g], sizeof words[g], "%d", p->whose[g]);
        else snprintf(words[g], sizeof words[g], "%s", p->whose[g] == MIXED ? "MIXED" : "old");
    }
    text_of_state(state, &p->sent, words[AVI], words[AUDIO], words[MATRIX]);
    show(events, events ? &c->now.events.at[events - 1] : NULL, c->now.list, state, brief && events);
}

static void show_link(const struct chain *c) {
    const struct link *l = &c->now;
    char text[TEXT_OF_A_REQUEST];
    words_of_request(l->asked.bytes, l->asked.length, text);
    printf("link %u of %u: %s\n", (unsigned)c->number, (unsigned)c->links, text);
    printf("planned: %u writes, one Vsync before the last, and %u besides\n", (unsigned)l->events.writes, (unsigned)l->besides.count);
    show_heading();
}

static void show_end(const struct link *l) {
    uint32_t vsyncs = vsyncs_of(l, l->happen);
    if (!l->is_cut) printf("finished\n");
    else printf("killed by SIGKILL after event %u of %u: %u of %u writes, Vsyncs %u\n", (unsigned)l->happen, (unsigned)l->events.count,
                (unsigned)(l->happen - vsyncs), (unsigned)l->events.writes, (unsigned)vsyncs);
}

/* How a chain is played: with a host for each link, over the file, in many words or few; or in this process. */
struct way { int has_hosts, is_silent, brief; };

static int failed(const struct chain *c, long seed, uint32_t events, const char *fault, struct totals *t) {
    printf("FAILED: chain %ld, link %u, after event %u: %s\n", seed, (unsigned)c->number, (unsigned)events, fault);
    t->faults++;
    return 0;
}

/* The present link, from its first point to its last; 0 where one fails. */
static int play_link(struct chain *c, long seed, const struct way *w, struct totals *t) {
    const struct link *l = &c->now;
    struct hand h = { 0, -1 };
    const char *fault = NULL;
    if (w->has_hosts) start_host(&h, l);
    for (uint32_t k = 0; ; k++) {
        struct point p = chain_point(c, &chip);
        count_point(t, c, &p);
        if (!w->is_silent) show_point(c, &p, k, w->brief);
        if (*p.fault && !fault) fault = p.fault;
        if (fault || k == l->happen) {
            int as_meant = !w->has_hosts || end_host(&h, l->is_cut || fault);
            if (!as_meant && !fault) fault = "the host did not end as it should";
            return !fault || failed(c, seed, k, fault, t);
        }
        if (w->has_hosts) fault = let_happen(&h);
        else {
            uint32_t refusal = chip_event(&chip, &l->events.at[k], l->list);
            if (refusal) fault = station_text(refusal);
        }
        chain_follow(c, k);
    }
}

static int play(long seed, const struct way *w, struct totals *t) {
    static struct chain c;
    char fault[TEXT_OF_A_FAULT];
    chain_begin(&c, seed);
    chip = c.start;
    if (w->has_hosts) keep_chip();
    if (!w->is_silent) printf("chain %ld: %u links; the chip was left by %s\n", seed, (unsigned)c.links, text_of_beginning(&c));
    t->chains++;
    t->left[c.left]++;
    while (chain_next(&c, &chip)) {
        t->links++;
        t->crashes += c.now.is_cut != 0;
        t->waiting += chip_sent(&chip).waiting;
        for (int g = 0; g < GROUPS; g++) t->held[g] += chip_holds(&chip, (enum group)g) != 0;
        if (!w->is_silent) show_link(&c);
        if (!play_link(&c, seed, w, t)) return 0;
        if (!w->is_silent) show_end(&c.now);
    }
    chain_end(&c, &chip, fault);
    return !*fault || failed(&c, seed, c.now.happen, fault, t);
}

int play_chain(const char *file, long seed, int brief) {
    struct totals t = { 0 };
    struct way w = { 1, 0, brief };
    if (open_chip(file)) misuse("%s is there already, and a chain begins with a chip of its own", file);
    if (!play(seed, &w, &t)) return printed(REFUSED);
    printf("%lu points checked: at each the picture, every group and every free bit as it must be; all is as the last request asked\n",
           t.points);
    return printed(ACCEPTED);
}

int play_chains(long seed, long count) {
    static const char *const names[GROUPS] = { [AVI] = "AVI", [AUDIO] = "audio", [MATRIX] = "matrix" };
    struct totals t = { 0 };
    struct way w = { 0, 1, 0 };
    for (long i = 0; i < count; i++) play(seed + i, &w, &t);
    printf("chains %lu (from finished %lu, cut %lu, noise %lu), links %lu, crashes %lu, points %lu; old/earlier/present:", t.chains,
           t.left[LEFT_FINISHED], t.left[LEFT_CUT], t.left[LEFT_NOISE], t.links, t.crashes, t.points);
    for (int g = 0; g < GROUPS; g++)
        printf(" %s %lu/%lu/%lu%s", names[g], t.whose[g][BEGINNINGS], t.whose[g][EARLIER], t.whose[g][PRESENT], g + 1 < GROUPS ? "," : ";");
    printf(" each another's %lu; links begun with a change waiting %lu, with a hold up: AVI %lu, audio %lu, matrix %lu; faults %lu\n",
           t.three, t.waiting, t.held[AVI], t.held[AUDIO], t.held[MATRIX], t.faults);
    return printed(t.faults ? REFUSED : ACCEPTED);
}
