/* Tries the reasons of judge.c against station_vet: on lists of ours, whole and damaged, from finished, cut and damaged chips,
 * do both come to the same verdict, number and place? It takes no argument; the seed is fixed. The status is 0 where none differs. */
#include "chip.h"
#include "fields.h"
#include "judge.h"
#include "words.h"
#include <string.h>

const char *program = "agree";

enum { LISTS = 30000 };

static uint32_t random_state = 2463534242u;
static uint32_t below(uint32_t bound) {
    random_state ^= random_state << 13;
    random_state ^= random_state >> 17;
    random_state ^= random_state << 5;
    return random_state % bound;
}

static struct request some_request(void) {
    static const char *const encodings[] = { "rgb hdmi", "rgb hdmi full", "rgb dvi", "ycbcr422 hdmi", "ycbcr444 hdmi" };
    static const char *const depths[] = { "", "", "30bit", "36bit" }, *const repetitions[] = { "", "", "twice", "four-times" };
    static const char *const editions[] = { "", "", "861-e photo", "861-e ycc-full game" };
    static const char *const sounds[] = { "", "audio 48kHz 2", "audio 48kHz 8 coherent", "audio 96kHz 8" };
    static const char *const matrices[] = { "", "matrix table39", "matrix table43", "matrix 0 1 2 3 4 5 6 7 8 9 10 11 -12" };
    static const char *const boards[] = { "", "", "input id 1 8bit style1", "input rgb444 12bit style3",
                                          "input 422 embedded 2x 10bit style2 left syncs 110 40 5 1023" };
    struct request q;
    do {
        uint32_t e = below(5), mode = below((uint32_t)number_of_modes), depth = below(4), repetition = below(4), sound = below(4);
        uint32_t edition = below(4), wiring = below(sizeof boards / sizeof boards[0]);
        q = request_of_text("%s vic %u %s %s %s %s %s %s", boards[wiring], modes[mode].vic, encodings[e], depths[depth], repetitions[repetition],
                            editions[edition], e == 2 ? "" : sounds[sound], matrices[e > 2 ? 1 + below(3) : below(4)]);
    } while (station_ncts(q.bytes, q.length).refusal);
    return q;
}

static uint32_t plan(const struct chip *c, uint8_t *writes) {
    struct request q = some_request();
    return station_plan(q.bytes, q.length, c->image, STATION_IMAGE, writes, STATION_WRITES).count;
}

/* A register that a list may have to do with: a hold, the mute, one of a group, or any. */
static uint8_t some_address(void) {
    static const uint8_t often[] = { 0x4A, 0x4A, 0x1A, 0x4B };
    if (below(2)) return often[below(sizeof often)];
    uint8_t address = (uint8_t)below(256);
    while (below(8) && !is_of_a_group(address)) address++;
    return address;
}

/* A chip of zeros or noise; with a list of ours finished, or cut; with a byte damaged, more often that of the packet holds, or another
 * waiting mark. */
static void some_chip(struct chip *c) {
    uint8_t writes[STATION_WRITES];
    memset(c, 0, sizeof *c);
    if (below(2)) for (size_t i = 0; i < sizeof *c; i++) ((uint8_t *)c)[i] = (uint8_t)below(256);
    if (below(4)) c->image[0x4A] &= 0x8F;
    if (below(8)) {
        uint32_t count = plan(c, writes), cut = below(3) ? count : below(count + 1);
        if (cut == count) chip_run(c, writes, count);
        else for (uint32_t w = 0; w < cut; w++) chip_write(c, writes + 2 * w);
    }
    if (!below(6)) c->mark[0] = (uint8_t)below(256);
    if (!below(6)) c->image[some_address()] ^= (uint8_t)(1 << below(8));
}

/* Cut off anywhere, with a coefficient for the last pair: the Vsync comes before that. */
static void end_in_coefficients(const struct chip *c, uint8_t *list, uint32_t *count) {
    uint8_t address = (uint8_t)(0x1B + below(21));
    *count = 2 + below(*count - 1);
    list[2 * *count - 2] = address;
    list[2 * *count - 1] = (uint8_t)(c->image[address] ^ (1 << below(5)));
}

/* A list: one of ours on this chip or on another, or none; then pairs changed, taken out, put in, changed places. */
static size_t some_list(const struct chip *c, uint8_t *list) {
    struct chip other;
    some_chip(&other);
    uint32_t count = below(12) ? plan(below(8) ? c : &other, list) : 0, damages = below(3) ? below(4) : 0;
    if (below(5) == 0) damages += below(20);
    for (uint32_t d = 0; d < damages; d++) {
        uint32_t at = below(count + 1), by = below(count + 1);
        uint8_t address = some_address(), pair[2] = { address, (uint8_t)(c->image[address] ^ (1 << below(8))) };
        switch (below(5)) {
            case 0: if (at < count) list[2 * at + 1] ^= (uint8_t)(1 << below(8)); break;
            case 1: if (at < count) memmove(list + 2 * at, list + 2 * at + 2, 2 * (--count - at)); break;
            case 2: if (at < count && by < count) {
                        memcpy(pair, list + 2 * at, 2);
                        memcpy(list + 2 * at, list + 2 * by, 2);
                        memcpy(list + 2 * by, pair, 2);
                    }
                    break;
            case 3: if (at < count) memcpy(pair, list + 2 * at, 2); /* fallthrough */
            default: memmove(list + 2 * by + 2, list + 2 * by, 2 * (count++ - by)); memcpy(list + 2 * by, pair, 2);
        }
    }
    if (count > 2 && !below(8)) end_in_coefficients(c, list, &count);
    for (uint32_t to = below(50) ? 0 : STATION_LIST / 2 + below(2); count < to; count++) {
        list[2 * count] = 0x4B;
        list[2 * count + 1] = 0x40;
    }
    return 2 * count - (count && !below(50));
}

int main(void) {
    static struct judgement j;
    static uint8_t list[STATION_LIST + 64];
    static const uint32_t refusals[] = { 0, STATION_HOLDS_UP, STATION_LIST_LENGTH, STATION_BAD_PAIR, STATION_BAD_END };
    unsigned by_refusal[sizeof refusals / sizeof refusals[0]] = { 0 }, by_fault[FAULTS] = { 0 }, differ = 0;
    for (int n = 0; n < LISTS; n++) {
        struct chip c;
        some_chip(&c);
        size_t length = some_list(&c, list);
        judge(&c, list, length, &j);
        struct station_verdict v = vet(&c, list, length);
        differ += v.refusal != j.verdict.refusal || v.place != j.verdict.place;
        for (size_t r = 0; r < sizeof refusals / sizeof refusals[0]; r++) by_refusal[r] += v.refusal == refusals[r];
        for (int f = 0; f < FAULTS && v.refusal == STATION_BAD_PAIR; f++) by_fault[f] += j.pairs[j.verdict.place].broken[f];
    }
    printf("%d lists: accepted %u", LISTS, by_refusal[0]);
    for (size_t r = 1; r < sizeof refusals / sizeof refusals[0]; r++) printf(", refused %u %u", (unsigned)refusals[r], by_refusal[r]);
    printf("\nthe first bad pair:");
    for (int f = 0; f < FAULTS; f++) printf("%s %s %u", f ? "," : "", fault_words[f], by_fault[f]);
    printf("\nverdicts that differ: %u\n", differ);
    return differ != 0;
}
