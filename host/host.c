/* An example host. It reads the chip's registers back, plans a request on them and sends the list, write by write, with one Vsync awaited
 * just before the last. The chip is simulated, in a file: its registers, buffers and waiting mark outlive the host, as a chip's do. A host
 * that is killed after any event and started again reads back, plans again and finishes. After each event it shows whether the picture is
 * muted, and whether each group in use is as it was when this host started (old) or as the list ends (new). host/plugin.c takes the request
 * from a plug-in's process, host/chain.c plays many hosts in a row. */
#include "../programs/chain.h"
#include "../programs/words.h"
#include "host.h"
#include "station_text.h"
#include <fcntl.h>
#include <signal.h>
#include <stdio.h>
#include <stdlib.h>
#include <string.h>
#include <unistd.h>

const char *program = "host/run";

static const char help[] =
    "host/run [--chip FILE] [--cut K] [--vsync AT,..] [--brief] [BYTES..]\n"
    "host/run --plugin COMMAND [--wait MS] [--chip FILE] [--cut K] [--vsync AT,..] [--brief]\n"
    "host/run --chain SEED [--chip FILE] [--brief]\n"
    "host/run --chain SEED --chains COUNT\n"
    "\n"
    "Sends a request to a simulated chip, write by write, and waits for one Vsync just before the last. BYTES is the request: a byte is\n"
    "exactly two hex digits, with or without blanks between. Without BYTES it is 1080p, YCbCr 4:2:2, eight channels at 48 kHz, with a\n"
    "matrix.\n"
    "\n"
    "  --chip FILE     the chip's registers, buffers and waiting mark; where FILE is not there it is made, and shows 720p. Without it the\n"
    "                  chip is new\n"
    "  --vsync AT,..   one Vsync more after each of these numbers of writes; 0 is before the first, and a number may stand twice\n"
    "  --cut K         the host is killed (SIGKILL) after event K of the run, writes and Vsyncs counted in their order, 0 is before the\n"
    "                  first; and then started again without --cut and --vsync\n"
    "  --brief         only the Vsyncs and the writes after which something differs; of a chain only what makes a difference\n"
    "\n"
    "Of N writes the Vsync that the host waits for is event N and the last write event N + 1, with no more Vsyncs: so --cut N-1 is\n"
    "before that Vsync, --cut N at it, before the host opens the picture, and --cut N+1 after all.\n"
    "\n"
    "  --plugin COMMAND\n"
    "                  the request is what COMMAND writes to its standard output: the bytes themselves, not in hex. It runs by /bin/sh\n"
    "                  -c, in a process group of its own and in this directory, and has no descriptor of the host's: its input is\n"
    "                  empty, its error stream goes nowhere (2>FILE in COMMAND keeps it). The request counts once the output has ended\n"
    "                  and COMMAND has exited with status 0. What no later byte changes, 2 and 3, is refused at once. In the end what\n"
    "                  is left of the group is killed (SIGKILL). A host that is started again after --cut runs COMMAND again\n"
    "  --wait MS       the time for all that, 1 to 600000 ms; without it 2000\n"
    "\n"
    "  --chain SEED    a chain of 2 to 6 requests, all drawn from this number, 0 to 999999999: the chip at the beginning, the requests,\n"
    "                  the Vsyncs, where each host is killed. A host for each, a process of its own, reads back, plans and sends, and is\n"
    "                  killed (SIGKILL) at its place or finishes; the last one finishes. At each point the chip's file is looked at. A\n"
    "                  group is old, as at the beginning, or whole as a request asked, and then the number of that link is printed, the\n"
    "                  latest so far; what is neither is MIXED, and fails. So does a free bit that moved, a picture that is open or muted\n"
    "                  where it must not be, and an end that is not as the last request asked. A FILE that is named must not be there yet\n"
    "  --chains COUNT  so many chains, of SEED, SEED + 1 and so on, at most 1000000, and one line: how often each situation was met.\n"
    "                  They are played in one process, over no file, so a crash is only a cut: the rest of that list is not sent\n"
    "\n"
    "The status is 0 for a request that is on show, and for chains in which all holds; 1 for a request that is refused, and for a chain\n"
    "with a point that fails; 2 for a command that is not as above; 3 for a plug-in whose time is up; 4 for one that fails, by a status\n"
    "other than 0 or by a signal. But 2 and 3 are refused, 1, before it is looked at how the plug-in ends.\n"
    "\n"
    "  host/run --cut 25 --brief\n"
    "  host/run --vsync 0,22 --cut 30 --brief\n"
    "  host/run --plugin 'cat crates/desk/stdin' --brief\n"
    "  host/run --plugin 'cat crates/desk/stdin; sleep 60' --wait 500\n"
    "  host/run --chain 7 --brief\n"
    "  host/run --chain 1 --chains 4000\n";

/* ---- The chip in its file. */

struct chip chip;
static int chip_file;

off_t open_chip(const char *name) {
    chip_file = open(name, O_RDWR | O_CREAT | O_CLOEXEC, 0666);
    if (chip_file < 0) misuse("%s cannot be opened", name);
    return lseek(chip_file, 0, SEEK_END);
}

void fetch_chip(void) {
    if (pread(chip_file, &chip, sizeof chip, 0) == (ssize_t)sizeof chip) return;
    perror(program);
    exit(MISUSE);
}

void keep_chip(void) {
    if (pwrite(chip_file, &chip, sizeof chip, 0) == (ssize_t)sizeof chip) return;
    perror(program);
    exit(MISUSE);
}

/* A new chip shows 720p, stereo at 48 kHz. */
static void find_chip(const char *name) {
    struct request first = request_of_text("vic 4 rgb hdmi audio 48kHz 2 coherent");
    uint8_t list[STATION_WRITES];
    off_t length = open_chip(name);
    if (length != 0 && length != (off_t)sizeof chip) misuse("%s is no chip: that is a file of %u bytes", name, (unsigned)sizeof chip);
    if (length) fetch_chip();
    else {
        struct station_count n = station_plan(first.bytes, first.length, chip.image, STATION_IMAGE, list, sizeof list);
        chip_run(&chip, list, n.count);
    }
}

void read_back(uint8_t *image) { memcpy(image, chip.image, STATION_IMAGE); }

/* What is not refused has reached the file, as a whole, when this returns. */
uint32_t happen(const struct event *e, const uint8_t *list) {
    uint32_t refusal = chip_event(&chip, e, list);
    keep_chip();
    return refusal;
}

/* ---- What a person sees. */

static void text_of_event(const struct event *e, const uint8_t *list, char text[16]) {
    static const char *const vsyncs[] = { [VSYNC] = "Vsync", [AWAITED] = "its Vsync" };
    if (e->kind == WRITE) snprintf(text, 16, "%02x = %02x", list[2 * e->write], list[2 * e->write + 1]);
    else snprintf(text, 16, "%s", vsyncs[e->kind]);
}

void text_of_state(char state[TEXT_OF_A_STATE], const struct sent *s, const char *avi, const char *audio, const char *matrix) {
    static const char *const mutes[4] = { "neither", "muted", "open", "neither" };
    snprintf(state, TEXT_OF_A_STATE, "%-8s %-6s %-6s %s%s", mutes[s->mute & 3], avi, audio, matrix, s->waiting ? ", waiting" : "");
}

void show_heading(void) { printf("    #  %-9s %-8s %-6s %-6s %s\n", "event", "picture", "AVI", "audio", "matrix"); }

void show(uint32_t number, const struct event *e, const uint8_t *list, const char *state, int changes) {
    static char last[TEXT_OF_A_STATE];
    char what[16] = "";
    if (changes && !strcmp(state, last)) return;
    strcpy(last, state);
    if (e) text_of_event(e, list, what);
    printf("%5u  %-9s %s\n", (unsigned)number, what, state);
}

/* The age of each group. */
static void show_ages(uint32_t number, const struct event *e, const uint8_t *list, const struct sent *old, const struct sent *new,
                      int brief) {
    static const char *const ages[] = { [NEITHER] = "MIXED", [OLD] = "old", [NEW] = "new", [BOTH] = "same" };
    char state[TEXT_OF_A_STATE];
    struct sent s = chip_sent(&chip);
    text_of_state(state, &s, ages[age(AVI, &s, old, new)], ages[age(AUDIO, &s, old, new)], ages[age(MATRIX, &s, old, new)]);
    show(number, e, list, state, brief && e && e->kind == WRITE);
}

void show_request(const char *what, const uint8_t *request, size_t length) {
    printf("%-12s", what);
    for (size_t i = 0; i < length; i++) {
        if (i > 0 && i % 20 == 0) printf("\n%12s", "");
        printf(" %02x", request[i]);
    }
    printf("%s\n", length ? "" : " no request");
}

/* ---- The host. */

enum { MOST_CHAINS = 1000000, USUAL_WAIT = 2000, MOST_WAIT = 600000 };      /* of the two waits, ms */

static void take_name(const char *word, struct option *o) { *(const char **)o->into = word; }
static void take_wait(const char *word, struct option *o) { *(long *)o->into = number_of_word(word, o->name + 2, 1, (long)o->length); }

/* The events one after the other, as far as the cut. Old is what is in use now; new is what will be, found on a copy of the chip. */
static int run(const struct events *e, const uint8_t *list, long cut, int brief) {
    struct chip copy = chip;
    chip_run(&copy, list, e->writes);
    struct beginning b = chip_begin(&chip);
    struct sent new = chip_sent(&copy);
    show_heading();
    show_ages(0, NULL, list, &b.old, &new, brief);
    for (uint32_t k = 0; ; k++) {
        if (cut == (long)k) kill(getpid(), SIGKILL);
        if (k == e->count) return 1;
        const struct event *now = &e->at[k];
        uint32_t refusal = happen(now, list);
        if (refusal) {                                      /* never seen: the machine takes every write of a list */
            printf("the chip refused %02x = %02x: %s\n", list[2 * now->write], list[2 * now->write + 1], station_text(refusal));
            return 0;
        }
        chip_follow(&b, &chip, now->kind != WRITE);
        show_ages(k + 1, now, list, &b.old, &new, brief);
    }
}

static int host(int count, char **words) {
    static struct events events;
    struct request asked = request_of_text("vic 16 ycbcr422 hdmi audio 48kHz 8 coherent matrix table39");
    uint8_t image[STATION_IMAGE], list[STATION_WRITES], back[STATION_REQUEST];
    struct places besides = { .count = 0 };
    const char *file = NULL, *command = NULL;
    size_t length;
    long cut = -1, seed = 0, chains = 0, wait = USUAL_WAIT;
    int brief = 0;
    struct option options[] = {
        { "--chip", take_name, &file, 0, 0 },
        { "--cut", take_number, &cut, EVENTS, 0 },
        { "--vsync", take_places, &besides, 0, 0 },
        { "--brief", NULL, &brief, 0, 0 },
        { "--chain", take_number, &seed, MOST_SEEDS, 0 },
        { "--chains", take_number, &chains, MOST_CHAINS, 0 },
        { "--plugin", take_name, &command, 0, 0 },
        { "--wait", take_wait, &wait, MOST_WAIT, 0 },
    };
    enum { BY_CHIP, BY_CUT, BY_VSYNC, BY_BRIEF, BY_CHAIN, BY_CHAINS, BY_PLUGIN, BY_WAIT, OPTIONS };
    setvbuf(stdout, NULL, _IOLBF, 0);                       /* what was said before a kill is seen */
    uint8_t *given = request_of_command(count, words, help, options, OPTIONS, &length);
    if (options[BY_CHAIN].given && length) misuse("--chain and a request exclude each other");
    for (int o = 0; o < OPTIONS; o++) {
        if (options[BY_CHAIN].given && options[o].given && (o == BY_CUT || o == BY_VSYNC || o == BY_PLUGIN || o == BY_WAIT))
            misuse("--chain and %s exclude each other", options[o].name);
        if (options[BY_CHAINS].given && options[o].given && (o == BY_CHIP || o == BY_BRIEF))
            misuse("--chains and %s exclude each other", options[o].name);
    }
    if (options[BY_CHAINS].given && !options[BY_CHAIN].given) misuse("--chains is given, and no --chain with the first seed");
    if (options[BY_CHAINS].given && !chains) misuse("--chains 0: no chain is none to play");
    if (options[BY_PLUGIN].given && length) misuse("--plugin and a request exclude each other");
    if (options[BY_PLUGIN].given && !command[strspn(command, " \t\n")]) misuse("--plugin: a command with nothing in it");
    if (options[BY_WAIT].given && !options[BY_PLUGIN].given) misuse("--wait is given, and no --plugin to wait for");
    if (options[BY_CHAINS].given) return play_chains(seed, chains);
    if (!file) misuse("--chip FILE is missing");
    if (options[BY_CHAIN].given) return play_chain(file, seed, brief);
    if (length > sizeof asked.bytes) misuse("%u bytes, and the longest request has %u", (unsigned)length, STATION_REQUEST);
    if (length) {
        memcpy(asked.bytes, given, length);
        asked.length = length;
    }
    free(given);

    /* Before the chip is opened: nobody waits for a stranger with the chip in his hands. */
    if (command) {
        int status = request_of_plugin(command, wait, &asked);
        if (status != ACCEPTED) return status;
    }
    find_chip(file);

    /* Read back, ask the library, and keep the list until the last write or the first that fails. */
    read_back(image);
    struct station_count n = station_plan(asked.bytes, asked.length, image, sizeof image, list, sizeof list);
    if (n.refusal) {
        printf("refused %u: %s\n", (unsigned)n.refusal, station_text(n.refusal));
        return REFUSED;
    }
    events_of(&events, n.count, &besides, cut);

    struct station_count shown = station_decode(image, sizeof image, back, sizeof back);
    show_request("on show:", back, shown.count);
    show_request("asked for:", asked.bytes, asked.length);
    printf("planned: %u writes, and one Vsync before the last\n", (unsigned)n.count);
    if (!run(&events, list, cut, brief)) return REFUSED;

    /* The finished image reads back as the request, but for what no register names: its family, and an edition E that asks for nothing. */
    read_back(image);
    shown = station_decode(image, sizeof image, back, sizeof back);
    show_request("reads back:", back, shown.count);
    asked = as_read_back(asked);
    int good = shown.count == asked.length && !memcmp(back, asked.bytes, asked.length);
    printf("%s\n", good ? "finished, and the request reads back" : "FAILED: another request reads back");
    return good ? ACCEPTED : REFUSED;
}

/* An output that cannot be written is no answer. */
int main(int count, char **words) { return printed(host(count, words)); }
