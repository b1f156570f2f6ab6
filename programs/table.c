#include "table.h"
#include "registers.h"
#include <stdio.h>
#include <string.h>

/* The holds, by their bit; a write tells of those that are up before or after it, or that none is. */
static const struct { uint8_t address, mask; const char *name; } holds[] = {
    { 0x1A, 0x20, "hold " },
    { 0x4A, 0x40, "AVI " },
    { 0x4A, 0x20, "audio " },
};
static const char *const hold_words[2][2] = { { "down", "up" }, { "down", "kept" } };    /* before, after */

/* "Muted: set bit 1, clear bit 0. Open: set 0, clear 1." By 0x4B[7:6], as written and as station_mute has it. */
enum { GC = 0x4B, MUTE_SHIFT = 6 };
static const char *const mute_words[4] = { "neither", "mute", "open", "neither" };
static const char *const picture_words[4] = { "neither", "muted", "open", "neither" };

static const char *const age_words[] = { [NEITHER] = "torn", [OLD] = "old", [NEW] = "new", [BOTH] = "same" };

/* The width of the column, by itself and beside that of a line. */
enum { SETS = 18, SETS_BESIDE = 14, TEXT = TEXT_OF_SETS };

/* One more of the fields that a write sets, or those of several that fit. */
static void add(char *text, size_t width, const char *first, const char *second) {
    char more[TEXT];
    size_t length = strlen(text), used = (size_t)snprintf(more, sizeof more, "%s%s", first, second);
    while (used && length + (length ? 2 : 0) + used > width) {
        char *comma = strrchr(more, ',');
        if (comma) *comma = 0;
        used = comma ? strlen(more) : 0;
    }
    if (used) snprintf(text + length, TEXT - length, "%s%s", length ? ", " : "", more);
}

void sets_of_write(char text[TEXT_OF_SETS], size_t width, uint8_t address, uint8_t old, uint8_t new) {
    struct station_masks c = station_class(address);
    *text = 0;
    if (c.named) {
        int here = 0, told = 0;
        for (size_t h = 0; h < sizeof holds / sizeof holds[0]; h++) {
            if (holds[h].address != address) continue;
            here++;
            if (!((old | new) & holds[h].mask)) continue;
            add(text, width, holds[h].name, hold_words[(old & holds[h].mask) != 0][(new & holds[h].mask) != 0]);
            told++;
        }
        if (here && !told) add(text, width, here > 1 ? "holds " : "hold ", hold_words[0][0]);
        if (address == GC) add(text, width, mute_words[new >> MUTE_SHIFT & 3], "");
        add(text, width, registers[address].fields ? registers[address].fields : "named", "");
    }
    if (c.mandated) add(text, width, "mandated", "");
}

/* The columns: those of the write, and what is in use after it. */
#define OF_A_WRITE "%-4s %-13s %-3s %-2s %-*s"
#define IN_USE "%-7s %-4s %-5s %s%s\n"

static void print_head(int width) {
    printf(OF_A_WRITE " " IN_USE, "addr", "register", "was", "is", width, "sets", "picture", "AVI", "audio", "matrix", "");
}

void table_head(const char *number) {
    printf("%3s ", number);
    print_head(SETS);
}

void table_head_with_lines(void) {
    printf("%3s %4s ", "at", "line");
    print_head(SETS_BESIDE);
}

const char *word_of_picture(uint32_t mute) { return picture_words[mute & 3]; }
const char *word_of_age(int age) { return age_words[age]; }

static void print_in_use(const struct sent *now, const struct sent *old, const struct sent *new) {
    if (!now) printf(" " IN_USE, "-", "-", "-", "-", "");
    else printf(" " IN_USE, picture_words[now->mute & 3], age_words[age(AVI, now, old, new)], age_words[age(AUDIO, now, old, new)],
                age_words[age(MATRIX, now, old, new)], now->waiting ? " waiting" : "");
}

static void print_row(int width, uint8_t address, uint8_t before, uint8_t after, const struct sent *now, const struct sent *old,
                      const struct sent *new) {
    char text[TEXT], at[8], was[4], is[4];
    sets_of_write(text, (size_t)width, address, before, after);
    snprintf(at, sizeof at, "0x%02X", address);
    snprintf(was, sizeof was, "%02X", before);
    snprintf(is, sizeof is, "%02X", after);
    printf(OF_A_WRITE, at, name_of_register(address), was, is, width, text);
    print_in_use(now, old, new);
}

void table_row(unsigned number, uint8_t address, uint8_t before, uint8_t after, const struct sent *now, const struct sent *old,
               const struct sent *new) {
    printf("%3u ", number);
    print_row(SETS, address, before, after, now, old, new);
}

void table_row_with_line(unsigned number, unsigned long line, uint8_t address, uint8_t before, uint8_t after, const struct sent *now,
                         const struct sent *old, const struct sent *new) {
    printf("%3u %4lu ", number, line);
    print_row(SETS_BESIDE, address, before, after, now, old, new);
}

static void print_vsync(int width, const struct sent *now, const struct sent *old, const struct sent *new) {
    printf("%-*s", width, "wait for Vsync");
    print_in_use(now, old, new);
}

void table_vsync(const struct sent *now, const struct sent *old, const struct sent *new) {
    printf("%3s ", "");
    print_vsync(26 + SETS, now, old, new);
}

void table_vsync_with_lines(const struct sent *now, const struct sent *old, const struct sent *new) {
    printf("%3s %4s ", "", "");
    print_vsync(26 + SETS_BESIDE, now, old, new);
}
