/* Real screens' EDIDs through station_edid, for tests/monitors/run.
 *   monitors FILE..               a line for each: its name, the refusal or 0, the VICs from 1 to 63, the rates with two channels, those with eight; and
 *                                 the VIC that station_choose takes for a silent request, for two channels and for eight at 48 kHz: '-' is 24
 *   monitors --damage DIR FILE..  damaged copies of each, into the folder: what is damaged stands behind the name
 * A file longer than 256 bytes is cut there: segment 0, which is what the chip has in its memory. */
#include <stdio.h>
#include <stdlib.h>
#include <string.h>
#include "station.h"

enum { BLOCK = STATION_EDID / 2, REVISION = BLOCK + 1, OFFSET = BLOCK + 2, FIRST = BLOCK + 4, NOISES = 20 };

static size_t read_edid(const char *name, uint8_t *edid) {
    FILE *f = fopen(name, "rb");
    if (!f) fprintf(stderr, "monitors: %s cannot be opened\n", name), exit(2);
    size_t length = fread(edid, 1, STATION_EDID, f);
    fclose(f);
    return length;
}

static void say_chosen(const uint8_t *edid, size_t edid_length) {
    static const uint8_t wishes[] = { 16, 0, 31, 0, 4, 0, 19, 0, 5, 0, 20, 0, 32, 0, 34, 0 };
    static const uint8_t silent[] = { 0, 7, 0, 0, 0, 1, 0, 0, 0, 0, 0 };
    uint8_t request[] = { 0, 7, 0, 0, 0, 1, 0, 0, 0, 3, 2, 0, 0, 0 };
    for (int k = 0; k < 3; k++) {
        request[11] = k == 1 ? 2 : 8;
        struct station_choice c = k ? station_choose(edid, edid_length, request, sizeof request, wishes, sizeof wishes)
                                    : station_choose(edid, edid_length, silent, sizeof silent, wishes, sizeof wishes);
        if (c.refusal == STATION_NO_WISH_FITS) printf(" -");
        else if (c.refusal) printf(" refused-%u", (unsigned)c.refusal);
        else printf(" %u", wishes[2 * c.place]);
    }
}

static void say(const char *name) {
    static const char *const rates[] = { "32", "44.1", "48", "88.2", "96", "176.4", "192" };
    const char *base = strrchr(name, '/');
    uint8_t edid[STATION_EDID];
    size_t length = read_edid(name, edid);
    struct station_monitor m = station_edid(edid, length);
    printf("%s %u", base ? base + 1 : name, (unsigned)m.refusal);
    for (unsigned v = 1; v < 64; v++)
        if ((v < 32 ? m.vics_low >> v : m.vics_high >> (v - 32)) & 1) printf(" %u", v);
    printf(" two");
    for (unsigned r = 0; r < 7; r++)
        if (m.rates_2 >> r & 1) printf(" %s", rates[r]);
    printf(" eight");
    for (unsigned r = 0; r < 7; r++)
        if (m.rates_8 >> r & 1) printf(" %s", rates[r]);
    printf(" chosen");
    say_chosen(edid, length);
    printf("\n");
}

/* ---- Damage. */

static const char *folder, *screen;
static uint8_t whole[STATION_EDID], damaged[STATION_EDID];
static size_t length;

static void sum(size_t from) {
    uint8_t left = 0;
    for (size_t k = 0; k < BLOCK - 1; k++) left = (uint8_t)(left - damaged[from + k]);
    damaged[from + BLOCK - 1] = left;
}

static void store(const char *what, int number) {
    char name[1000];
    snprintf(name, sizeof name, "%s/%s.%s%d", folder, screen, what, number);
    FILE *f = fopen(name, "wb");
    if (!f || fwrite(damaged, 1, length, f) != length || fclose(f)) fprintf(stderr, "monitors: %s cannot be written\n", name), exit(2);
    memcpy(damaged, whole, sizeof damaged);
}

/* One byte, with the sum of its block right or as it was. */
static void change(const char *what, int number, size_t at, uint8_t to, int with_sum) {
    damaged[at] = to;
    if (with_sum) sum(at < BLOCK ? 0 : BLOCK);
    store(what, number);
}

/* Every descriptor of the blocks of this tag: the first byte of each with these bits turned. */
static void turn(const char *what, unsigned tag, size_t step, uint8_t bits) {
    for (size_t at = FIRST; at < (size_t)BLOCK + damaged[OFFSET]; at += 1 + (whole[at] & 31))
        for (size_t k = 0; whole[at] >> 5 == tag && k + step <= (size_t)(whole[at] & 31) && at + k + step < STATION_EDID; k += step)
            damaged[at + 1 + k] ^= bits;
    sum(BLOCK);
    store(what, 0);
}

static void damage(const char *name) {
    static uint32_t noise = 1;
    const char *base = strrchr(name, '/');
    screen = base ? base + 1 : name;
    memset(whole, 0, sizeof whole);
    length = read_edid(name, whole);
    memcpy(damaged, whole, sizeof damaged);
    if (length != BLOCK && length != STATION_EDID) return;
    change("header", 0, 3, 0xFE, 1);
    change("sum", 0, 20, whole[20] ^ 0x10, 0);
    if (length == BLOCK) return;
    change("sum", 1, BLOCK + 90, whole[BLOCK + 90] ^ 0x10, 0);
    change("tag", 0, BLOCK, 0xF0, 1);
    change("tag", 1, BLOCK, 0x40, 1);
    /* What follows is about data blocks. */
    if (whole[BLOCK] != 2 || whole[REVISION] < 3 || whole[OFFSET] <= 4 || whole[OFFSET] > 127) return;
    size_t last = FIRST;
    while (last + 1 + (whole[last] & 31) < (size_t)BLOCK + whole[OFFSET]) last += 1 + (whole[last] & 31);
    if ((whole[last] & 31) < 31) change("past", 0, last, (uint8_t)(whole[last] + 1), 1);
    change("past", 1, OFFSET, (uint8_t)(whole[OFFSET] - 1), 1);
    change("revision", 1, REVISION, 1, 1);
    change("revision", 2, REVISION, 2, 1);
    change("offset", 0, OFFSET, 0, 1);
    turn("native", 2, 1, 0x80);
    turn("channels", 1, 3, 0x05);
    turn("format", 1, 3, 0x08);
    for (int k = 0; k < NOISES; k++) {
        noise = noise * 1664525 + 1013904223;
        change("noise", k, FIRST + (noise >> 16) % (whole[OFFSET] - 4u), (uint8_t)(noise >> 8), 1);
    }
}

int main(int count, char **words) {
    int at = 1;
    if (count > 3 && !strcmp(words[1], "--damage")) folder = words[2], at = 3;
    else if (count < 2 || words[1][0] == '-') return fprintf(stderr, "monitors: files, or --damage, a folder and files\n"), 2;
    for (; at < count; at++) folder ? damage(words[at]) : say(words[at]);
    return 0;
}
