#include "rows.h"
#include "words.h"
#include <string.h>

static const struct layout layouts[] = {
    { "i2cdump", 2, 1, "1111111111111111" },
    { "xxd", 8, 1, "1010101010101010" },
    { "xxd -g1", 8, 1, "1111111111111111" },
    { "hexdump -C", 8, 0, "2111111121111111" },
};
enum { LAYOUTS = sizeof layouts / sizeof layouts[0] };

static void trim(char *line) {
    size_t length = strlen(line);
    while (length > 0 && strchr(" \t\r", line[length - 1])) line[--length] = 0;
}

size_t lines_of_text(char *text, char **lines) {
    size_t number = 0;
    for (char *at = text; at; number++) {
        char *end = strchr(at, '\n');
        lines[number] = at;
        if (end) *end++ = 0;
        trim(at);
        at = end;
    }
    return number;
}

long address_of(const struct layout *l, const char *line, const char **cells) {
    long address = 0;
    for (int d = 0; d < l->digits; d++, line++) {
        int digit = hex_digit(*line);
        if (digit < 0) return -1;
        address = 16 * address + digit;
    }
    if (hex_digit(*line) >= 0 || (*line == ':') != l->colon) return -1;
    *cells = line + l->colon;
    return address;
}

/* Without a colon it is the two blanks that tell an address from bytes. */
const struct layout *layout_of(const char *line) {
    const char *cells;
    for (size_t k = 0; k < LAYOUTS; k++)
        if (address_of(&layouts[k], line, &cells) >= 0 && (layouts[k].colon || !strncmp(cells, "  ", 2))) return &layouts[k];
    return NULL;
}

static int cells_by(const struct layout *l, const char *at, uint8_t *bytes, const char **next) {
    int c = 0;
    for (; c < CELLS; c++) {
        int blanks = l->blanks[c] - '0', b = 0;
        while (b < blanks && at[b] == ' ') b++;
        if (b < blanks || hex_digit(at[b]) < 0 || hex_digit(at[b + 1]) < 0) break;
        bytes[c] = (uint8_t)(16 * hex_digit(at[b]) + hex_digit(at[b + 1]));
        at += b + 2;
    }
    *next = at;
    return c;
}

int cells_of(const struct layout *l, const char *cells, uint8_t *bytes, const char **next) {
    const struct layout *best = l;
    uint8_t row[CELLS];
    int most = -1;
    for (size_t k = 0; k < LAYOUTS; k++) {
        if (layouts[k].digits != l->digits || layouts[k].colon != l->colon) continue;
        int c = cells_by(&layouts[k], cells, row, next);
        if (c > most) {
            most = c;
            best = &layouts[k];
        }
    }
    return cells_by(best, cells, bytes, next);
}

int is_heading(const char *line) {
    static const char digits[] = "0 1 2 3 4 5 6 7 8 9 a b c d e f";
    for (const char *d = digits; *d; ) {
        while (*line == ' ') line++;
        while (*d == ' ') d++;
        if (*d && *line++ != *d++) return 0;
    }
    return *line == 0 || *line == ' ';
}
