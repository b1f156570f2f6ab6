/* The registers of a chip, from the text that people have of them to the 256 bytes that the tools take. */
#include "rows.h"
#include "station.h"
#include "words.h"
#include <stdio.h>
#include <stdlib.h>
#include <string.h>

const char *program = "tools/image";

static const char help[] =
    "tools/image [FILE] >IMAGE\n"
    "\n"
    "Writes the registers of a chip as the 256 bytes that --image takes, from FILE or\n"
    "the standard input, which has one of these:\n"
    "\n"
    "  what 'i2cdump -y BUS 0x39 b' prints, or for a chip at 0x3d with that address\n"
    "  what 'xxd', 'xxd -g1' or 'hexdump -v -C' prints\n"
    "  256 bytes in hex, with or without blanks and line ends between ('xxd -p')\n"
    "  the 256 bytes themselves\n"
    "\n"
    "Line ends may be those of DOS. A row that is missing or stands twice, a cell\n"
    "that could not be read (XX), a line that is no row, and any other number of\n"
    "bytes is said in one line on the error stream, and nothing is written. The\n"
    "status is 0, or 2 for such an input and for a command that is not as above.\n"
    "\n"
    "  i2cdump -y 1 0x39 b | tools/image >chip.image\n"
    "  tools/listing --image chip.image " EXAMPLE "\n";

enum { MOST = 1 << 16 };

static void read_rows(const struct layout *l, char **lines, size_t number, uint8_t *image) {
    int seen[STATION_IMAGE / CELLS] = { 0 };
    for (size_t n = 0; n < number; n++) {
        const char *cells, *next;
        long address = address_of(l, lines[n], &cells);
        if (!lines[n][0] || (address < 0 && is_heading(lines[n]))) continue;
        if (!strcmp(lines[n], "*")) misuse("line %u, '*', stands for rows that are left out: take hexdump -v -C", (unsigned)n + 1);
        if (address < 0) misuse("line %u, '%.40s', is no row of %s", (unsigned)n + 1, lines[n], l->name);
        if (address == STATION_IMAGE && !*cells) continue;              /* the last line of hexdump -C */
        if (address >= STATION_IMAGE || address % CELLS)
            misuse("line %u is a row 0x%02lx, and rows are 0x00, 0x10 and so on to 0xf0", (unsigned)n + 1, address);
        if (seen[address / CELLS]++) misuse("the row 0x%02lx stands twice", address);
        int most = cells_of(l, cells, image + address, &next);
        while (most < CELLS && *next == ' ') next++;
        if (most < CELLS && (next[0] == 'X' || next[0] == 'x') && (next[1] == 'X' || next[1] == 'x'))
            misuse("register 0x%02lx could not be read: its cell is XX", address + most);
        if (most < CELLS) misuse("the row 0x%02lx has no byte for register 0x%02lx", address, address + most);
        if (*next && strncmp(next, "  ", 2)) misuse("the row 0x%02lx goes on after its 16 bytes: '%.20s'", address, next);
    }
    for (int r = 0; r < STATION_IMAGE / CELLS; r++)
        if (!seen[r]) misuse("the row 0x%02x is missing", r * CELLS);
}

/* Nothing but hex digits, two for each byte. */
static void read_plain(char **lines, size_t number, uint8_t *image) {
    size_t count = 0;
    for (size_t n = 0; n < number; n++)
        for (const char *at = lines[n]; *at; ) {
            if (*at == ' ' || *at == '\t') {
                at++;
                continue;
            }
            if (hex_digit(at[0]) < 0 || hex_digit(at[1]) < 0)
                misuse("line %u, '%.40s', is no row of a dump, and has what is no byte of two hex digits", (unsigned)n + 1, lines[n]);
            if (count < STATION_IMAGE) image[count] = (uint8_t)(16 * hex_digit(at[0]) + hex_digit(at[1]));
            count++;
            at += 2;
        }
    if (count != STATION_IMAGE) misuse("%u bytes in hex, and not %u", (unsigned)count, (unsigned)STATION_IMAGE);
}

int main(int count, char **words) {
    static char text[MOST + 1], *lines[MOST + 1];
    static uint8_t image[STATION_IMAGE];
    FILE *from = stdin;
    for (int i = 1; i < count; i++)
        if (!strcmp(words[i], "--help")) {
            printf("%s", help);
            return printed(ACCEPTED);
        }
    if (count > 2) misuse("more than one file");
    if (count == 2 && words[1][0] == '-') misuse("%.80s is no option", words[1]);
    if (count == 2 && !(from = fopen(words[1], "rb"))) misuse("%.80s cannot be opened", words[1]);
    size_t length = fread(text, 1, MOST, from), number = 0;
    if (ferror(from)) misuse("the input cannot be read");
    if (length == MOST) misuse("the input has %u bytes or more: no such dump", (unsigned)MOST);
    if (length == STATION_IMAGE) memcpy(image, text, STATION_IMAGE);
    else {
        for (size_t i = 0; i < length; i++)
            if (!strchr("\t\r\n", text[i] ? text[i] : 'x') && (text[i] < ' ' || text[i] > '~'))
                misuse("%u bytes that are no text, and not %u", (unsigned)length, (unsigned)STATION_IMAGE);
        text[length] = 0;
        number = lines_of_text(text, lines);
        const struct layout *found = NULL;
        for (size_t n = 0; n < number && !found; n++) found = layout_of(lines[n]);
        if (found) read_rows(found, lines, number, image);
        else read_plain(lines, number, image);
    }
    fwrite(image, 1, STATION_IMAGE, stdout);
    return printed(ACCEPTED);
}
