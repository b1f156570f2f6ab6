#include "dump.h"
#include "rows.h"
#include "words.h"
#include <errno.h>
#include <stdio.h>
#include <string.h>

const uint8_t header_of_edid[HEADER] = { 0x00, 0xFF, 0xFF, 0xFF, 0xFF, 0xFF, 0xFF, 0x00 };

enum { MOST = 1 << 18, ROW_OF_XRANDR = 16 };
static const char of_edid_decode[] = "edid-decode (hex):", of_xrandr[] = "EDID:";

/* The text, line by line; messages count lines from 1. */
struct text { char *line[MOST + 1]; size_t lines; };

static void add(struct dump *d, const uint8_t *bytes, size_t count) {
    if (d->length + count > LONGEST_DUMP) misuse("more than %u bytes: no such EDID", (unsigned)LONGEST_DUMP);
    memcpy(d->bytes + d->length, bytes, count);
    d->length += count;
}

static const char *without_blanks(const char *line) { return line + strspn(line, " \t"); }

/* ---- Lines of bytes, two hex digits each, with or without blanks between. */

static size_t digits_of(const char *word) {
    size_t digits = 0;
    while (hex_digit(word[digits]) >= 0) digits++;
    return digits;
}

/* What is wrong with a word that is not of whole bytes. od and hexdump have addresses of seven digits, and may turn the bytes of a pair. */
static void no_byte(const char *word, size_t length, size_t line) {
    static char all[MOST];
    char text[SHOWN];
    size_t digits = digits_of(word);
    memcpy(all, word, length);
    all[length] = 0;
    shown(all, text);
    if (digits == length && digits == 7)
        misuse("line %u: '%s' looks like an address of od or hexdump; take xxd, hexdump -C, or od -An -v -tx1", (unsigned)line, text);
    if (digits == length) misuse("line %u: '%s' has %u hex digits, and a byte has two", (unsigned)line, text, (unsigned)digits);
    if (!strcmp(all, "*")) misuse("line %u: '*' stands for lines that are left out: dump it with -v", (unsigned)line);
    for (size_t k = 0; k < length; k++) {
        uint8_t c = (uint8_t)word[k];
        if (c == '\r') misuse("line %u: a carriage return inside a line: a line ends with a line feed", (unsigned)line);
        if (c < ' ' || c > '~') misuse("line %u: the byte 0x%02x is no text", (unsigned)line, c);
    }
    misuse("line %u: '%s' is no byte: that is two hex digits, with no 0x, comma or other word beside them", (unsigned)line, text);
}

/* The bytes of one line; a # at the front of a word begins a comment. */
static size_t bytes_of_line(struct dump *d, const char *at, size_t line) {
    size_t before = d->length;
    while (*(at = without_blanks(at)) && *at != '#') {
        size_t length = strcspn(at, " \t");
        if (digits_of(at) != length || length % 2) no_byte(at, length, line);
        for (const char *end = at + length; at < end; at += 2) add(d, &(uint8_t){ (uint8_t)(16 * hex_digit(at[0]) + hex_digit(at[1])) }, 1);
    }
    return d->length - before;
}

/* Zeros in front of bytes are an address: no EDID begins with two of them. */
static void look_for_address(const char *at, size_t line) {
    at = without_blanks(at);
    size_t zeros = strspn(at, "0"), digits = digits_of(at);
    const char *rest = without_blanks(at + digits);
    if (zeros == digits && digits >= 4 && rest > at + digits && digits_of(rest) == 2 && strchr(" \t", rest[2]))
        misuse("line %u: '%.*s' looks like an address; take xxd, hexdump -C, or od -An -v -tx1", (unsigned)line, digits < 20 ? (int)digits : 20, at);
}

static void read_plain(const struct text *t, struct dump *d) {
    d->form = "bytes in hex";
    for (size_t n = 0; n < t->lines; n++) {
        if (d->length == 0) look_for_address(t->line[n], n + 1);
        bytes_of_line(d, t->line[n], n + 1);
    }
    if (d->length == 0) misuse("the file has no byte");
}

/* ---- Rows with addresses, from 0 on. hexdump leaves out rows that are as the one before them, has a * for them, and ends with an address. */

static void read_rows(const struct text *t, const struct layout *l, struct dump *d) {
    uint8_t row[CELLS] = { 0 };
    size_t stars = 0, ended = 0, is_short = 0;
    d->form = l->name;
    for (size_t n = 0; n < t->lines; n++) {
        const char *cells, *next, *line = t->line[n];
        unsigned number = (unsigned)n + 1;
        char word[SHOWN];
        long address = address_of(l, line, &cells);
        if (!*line || (address < 0 && d->length == 0 && is_heading(line))) continue;
        if (!strcmp(line, "*") && d->length && !is_short && !stars && !ended) {
            stars = n + 1;
            continue;
        }
        if (address < 0 || ended) misuse("line %u, '%s', is no row of %s", number, shown(line, word), l->name);
        for (; stars && (long)d->length < address; ) add(d, row, CELLS);
        if ((size_t)address != d->length)
            misuse("line %u is the row 0x%02lx, and 0x%02x is due: is a row missing, or there twice?", number, address, (unsigned)d->length);
        stars = 0;
        if (!*cells && !l->colon) {
            ended = n + 1;
            continue;
        }
        if (is_short) misuse("line %u: the row before it has fewer than %u bytes", number, (unsigned)CELLS);
        int count = cells_of(l, cells, row, &next);
        const char *after = next + strspn(next, " ");
        if (count < CELLS && (after[0] == 'X' || after[0] == 'x') && after[1] == after[0])
            misuse("line %u: byte 0x%02lx could not be read: its cell is XX", number, address + count);
        if (count == 0 || (*next && strncmp(next, "  ", 2)) || (*next && !l->colon && *after != '|'))
            misuse("line %u: in place of byte 0x%02lx stands '%s'; a row is as of xxd, xxd -g1, hexdump -C or i2cdump", number, address + count,
                   shown(after, word));
        is_short = count < CELLS;
        add(d, row, (size_t)count);
    }
    if (stars) misuse("line %u: '*' stands for rows that are left out, and none follows that tells how many", (unsigned)stars);
}

/* ---- What edid-decode prints above its text: lines of sixteen bytes, to a line of dashes. */

static int is_dashes(const char *line) { return strlen(line) >= 4 && strspn(line, "-") == strlen(line); }

static void read_edid_decode(const struct text *t, size_t from, struct dump *d) {
    char word[SHOWN];
    d->form = "the hex dump of edid-decode";
    for (size_t n = from + 1; n < t->lines && !is_dashes(t->line[n]); n++) {
        const char *line = without_blanks(t->line[n]);
        if (!*line) continue;
        if (digits_of(line) != 2 || bytes_of_line(d, line, n + 1) != CELLS)
            misuse("line %u, '%s', is no line of %u bytes: such are all of edid-decode's dump, to its line of dashes", (unsigned)n + 1,
                   shown(line, word), (unsigned)CELLS);
    }
    if (d->length == 0) misuse("line %u: no byte behind '%s'", (unsigned)from + 1, of_edid_decode);
}

/* ---- What xrandr --props and --verbose print: "EDID:", set in below the line of its output, and then lines of 32 hex digits. */

static const char *output_of(const struct text *t, size_t at, char name[SHOWN]) {
    char front[SHOWN];
    while (at > 0 && strchr(" \t", t->line[at][0])) at--;
    snprintf(front, sizeof front, "%.*s", (int)strcspn(t->line[at], " \t"), t->line[at]);
    return shown(front, name);
}

/* All other lines of xrandr have a colon or blanks in them. */
static int is_of_xrandr(const char *line) { return *line && !strpbrk(line, " \t:"); }

static void read_xrandr(const struct text *t, size_t from, struct dump *d) {
    d->form = "lines of xrandr";
    for (size_t n = from + 1; n < t->lines && is_of_xrandr(without_blanks(t->line[n])); n++) {
        const char *line = without_blanks(t->line[n]);
        if (bytes_of_line(d, line, n + 1) != ROW_OF_XRANDR)
            misuse("line %u has %u hex digits, and a line of xrandr's EDID has %u", (unsigned)n + 1, (unsigned)strlen(line), 2u * ROW_OF_XRANDR);
    }
    if (d->length == 0) misuse("line %u: no byte behind '%s'", (unsigned)from + 1, of_xrandr);
}

/* Which of several EDIDs, by the name of its output. */
static size_t chosen_output(const struct text *t, size_t first, const char *output) {
    char all[300] = "", name[SHOWN];
    size_t found = 0, at = first, number = 0;
    for (size_t n = first; n < t->lines; n++) {
        if (strcmp(without_blanks(t->line[n]), of_xrandr)) continue;
        output_of(t, n, name);
        snprintf(all + strlen(all), sizeof all - strlen(all), "%s%s in line %u", number++ ? ", " : "", name, (unsigned)n + 1);
        if (output && strcmp(name, output)) continue;
        at = n;
        found++;
    }
    if (found == 0) misuse("no EDID of the output '%.40s': there is %s", output, all);
    if (found > 1) misuse("the EDIDs of several screens, %s: choose one by --output", all);
    return at;
}

/* ---- Which of these it is. */

static size_t lines_with(const struct text *t, const char *what, size_t *first) {
    size_t found = 0;
    for (size_t n = 0; n < t->lines; n++)
        if (!strcmp(without_blanks(t->line[n]), what) && !found++) *first = n;
    return found;
}

/* The first line that is neither empty nor i2cdump's heading is a row. In hexdump's, without a colon, an address is small. */
static const struct layout *rows_of(const struct text *t) {
    const char *cells;
    size_t n = 0;
    while (n < t->lines && (!*t->line[n] || is_heading(t->line[n]))) n++;
    const struct layout *l = n < t->lines ? layout_of(t->line[n]) : NULL;
    return l && (l->colon || address_of(l, t->line[n], &cells) < LONGEST_DUMP) ? l : NULL;
}

static void read_text(char *bytes, const char *output, struct dump *d) {
    static struct text t;
    size_t decoded = 0, props = 0;
    t.lines = lines_of_text(bytes, t.line);
    size_t of_decode = lines_with(&t, of_edid_decode, &decoded), of_props = lines_with(&t, of_xrandr, &props);
    const struct layout *rows = rows_of(&t);
    if (of_decode && of_props)
        misuse("lines of edid-decode (%u) and of xrandr (%u) in one text: keep one of them", (unsigned)decoded + 1, (unsigned)props + 1);
    if (output && !of_props) misuse("--output names an output of xrandr, and there is no line '%s'", of_xrandr);
    if (of_decode > 1) misuse("%u dumps of edid-decode in one text: keep one of them", (unsigned)of_decode);
    if (of_decode) read_edid_decode(&t, decoded, d);
    else if (of_props) read_xrandr(&t, chosen_output(&t, props, output), d);
    else if (rows) read_rows(&t, rows, d);
    else if (!strncmp(t.line[0], "Screen ", 7)) misuse("line 1 is of xrandr, and no line is '%s': xrandr --props prints it", of_xrandr);
    else read_plain(&t, d);
}

/* The first byte that no text has, or the length. A byte above 0x7e may stand in a part that is not read. */
static size_t text_before(const uint8_t *bytes, size_t length) {
    size_t at = 0;
    while (at < length && (bytes[at] >= ' ' || strchr("\t\r\n", bytes[at] ? bytes[at] : 'x')) && bytes[at] != 0x7F) at++;
    return at;
}

void dump_of_file(const char *name, const char *output, struct dump *d) {
    static uint8_t bytes[MOST + 1];
    static const uint8_t mark[] = { 0xEF, 0xBB, 0xBF };         /* of UTF-8 */
    int is_input = !strcmp(name, "-");
    FILE *from = is_input ? stdin : fopen(name, "rb");
    if (is_input) name = "the standard input";
    if (!from) misuse("%.80s cannot be opened: %s", name, strerror(errno));
    size_t length = fread(bytes, 1, MOST, from);
    if (ferror(from)) misuse("%.80s cannot be read: %s", name, strerror(errno));
    if (!is_input) fclose(from);
    if (length == MOST) misuse("%.80s has %u bytes or more: no such EDID", name, (unsigned)MOST);
    if (length == 0) misuse("%.80s is empty: the kernel's file is so where no screen is plugged in, or none has answered", name);

    d->length = 0;
    size_t no_text = text_before(bytes, length), lines = 1;
    int has_header = length >= HEADER && !memcmp(bytes, header_of_edid, HEADER);
    int is_wide = length > 1 && ((bytes[0] == 0xFF && bytes[1] == 0xFE) || (bytes[0] == 0xFE && bytes[1] == 0xFF));
    if (no_text < length && !has_header && (length % OF_A_BLOCK || is_wide)) {
        for (size_t k = 0; k < no_text; k++) lines += bytes[k] == '\n';
        misuse("line %u: the byte 0x%02x is no text, and raw bytes of an EDID are %u or %u, not %u%s", (unsigned)lines, bytes[no_text],
               (unsigned)OF_A_BLOCK, 2u * OF_A_BLOCK, (unsigned)length, is_wide ? "; it looks like UTF-16: save it as UTF-8" : "");
    }
    if (no_text < length) {
        if (output) misuse("--output names an output of xrandr, and these are raw bytes");
        d->form = "raw bytes";
        add(d, bytes, length);
        return;
    }
    size_t front = length >= sizeof mark && !memcmp(bytes, mark, sizeof mark) ? sizeof mark : 0;
    bytes[length] = 0;
    read_text((char *)bytes + front, output, d);
}
