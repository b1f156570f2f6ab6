#include "list.h"
#include "words.h"
#include <ctype.h>
#include <setjmp.h>
#include <stdarg.h>
#include <stdio.h>
#include <stdlib.h>
#include <string.h>

const char list_help[] =
    "  4b 40                         pairs of address and value in hex, a byte of one\n"
    "  0x4B, 0x40,                   or two digits. A line may have several pairs;\n"
    "  4Bh 40h                       no pair goes on in the next line\n"
    "  0x4B = 0x40\n"
    "  0x4B;0x40\n"
    "  {0x4B,0x40},                  rows of C, with or without the array around them\n"
    "  72 4B 40                      chip address, register, value, in every line\n"
    "  Address,Value,Comment         a sheet: its heading names the two columns\n"
    "  i2cset -y 1 0x39 0x4b 0x40    a pair; also with 'b' at the end\n"
    "  i2ctransfer -y 1 w2@0x39 0x4b 0x40\n"
    "                                a pair, as tools/listing --i2ctransfer prints it\n"
    "  sleep 1                       just before the last pair and nowhere else: the\n"
    "                                wait for Vsync. The verdict has one there,\n"
    "                                written or not; behind it may stand the look at\n"
    "                                0x41 that tools/listing prints\n"
    "\n"
    "The chip is 0x39 or, by its PD/AD pin, 0x3D (72 or 7A where the bit for reading\n"
    "is counted in). In a command a number has its 0x, for i2cset takes 40 for a\n"
    "decimal one; all commands are for one chip and one bus. Comments are those of\n"
    "#, //, /* */ and ;. Text is ASCII, UTF-8 or UTF-16 with its mark. A text that\n"
    "could be read in two ways is not read: --hex or --decimal says it of numbers\n"
    "that have neither a letter nor 0x nor h. Anything else, raw bytes too, is said\n"
    "with the number of its line and what to do.\n";

enum { MOST_BYTES = 1 << 24, WORD = 48, WORDS = 11, CELLS = 16, MARK_OF_UTF8 = 3 };

/* The chip on the bus by its PD/AD pin; with the bit for reading counted in, as the guide has it, 0x72 and 0x7A. */
static int chip_of(int address) {
    switch (address) {
        case 0x39: case 0x72: return 0x39;
        case 0x3D: case 0x7A: return 0x3D;
        default: return 0;
    }
}

/* Of a sheet: what parts its cells, and which of them are read, -1 for none; `parts` is 0 where there is no heading. */
struct columns { char parts; int address, value, chip; };

struct reader {
    struct list *l;
    jmp_buf end;
    unsigned long line, comment;                /* the present line; the one where an open comment begins, 0 for none */
    int chip, shape;                            /* which chip was named; how many bytes a write has, 2 or with the chip 3; 0 not yet */
    char bus[WORD];                             /* of the commands before */
    unsigned long waits, digits;                /* the line of a wait; of the first number that may be hex or decimal; 0 for none */
    size_t before_wait;
    int unended, letters;                       /* the last line has no end; a number with neither 0x nor h has a letter, so it is hex */
    enum { NO_ARRAY, AWAITED, INSIDE, CLOSED } array;
    struct columns columns;
};

static void fail(struct reader *r, const char *format, ...) __attribute__((format(printf, 2, 3), noreturn));
static void fail(struct reader *r, const char *format, ...) {
    va_list list;
    va_start(list, format);
    vsnprintf(r->l->wrong, sizeof r->l->wrong, format, list);
    va_end(list);
    for (char *at = r->l->wrong; *at; at++)
        if (*at < ' ' || *at > '~') *at = '?';
    r->l->wrong_line = r->line;
    longjmp(r->end, 1);
}

/* ---- The bytes of a file, and its lines. */

static uint8_t *bytes_of(FILE *from, const char *name, size_t *length) {
    size_t room = 1 << 16, got;
    uint8_t *bytes = malloc(room);
    *length = 0;
    while (bytes && (got = fread(bytes + *length, 1, room - *length, from)) > 0) {
        *length += got;
        if (*length > MOST_BYTES) misuse("%.80s has more than %u bytes: no list", name, (unsigned)MOST_BYTES);
        if (*length == room) bytes = realloc(bytes, room *= 2);
    }
    if (!bytes) misuse("no memory");
    if (ferror(from)) misuse("%.80s cannot be read", name);
    return bytes;
}

static size_t put_letter(char *to, unsigned long letter) {
    if (letter < 0x80) return to[0] = (char)letter, 1;
    int more = letter < 0x800 ? 1 : letter < 0x10000 ? 2 : 3;
    to[0] = (char)((0xF00 >> more & 0xFF) | letter >> 6 * more);
    for (int i = 1; i <= more; i++) to[i] = (char)(0x80 | (letter >> 6 * (more - i) & 0x3F));
    return 1 + (size_t)more;
}

/* A letter of UTF-8 at a text's front and its length; a byte that begins none is 0, of length 1. */
static unsigned long letter_at(const char *text, size_t *length) {
    const uint8_t *b = (const uint8_t *)text;
    int more = b[0] >= 0xF0 && b[0] < 0xF5 ? 3 : b[0] >= 0xE0 && b[0] < 0xF0 ? 2 : b[0] >= 0xC2 && b[0] < 0xE0 ? 1 : 0;
    unsigned long letter = b[0] & (0x3FUL >> more);
    *length = 1;
    if (b[0] < 0x80) return b[0];
    for (int i = 1; i <= more; i++) {
        if ((b[i] & 0xC0) != 0x80) return 0;
        letter = letter << 6 | (b[i] & 0x3F);
    }
    *length = 1 + (size_t)more;
    return more ? letter : 0;
}

static int is_control(int c) { return (c >= 0 && c < ' ' && !strchr("\t\r\n", c ? c : 'x')) || c == 0x7F; }

/* A text in UTF-16, with its mark in front, as one in UTF-8. */
static char *of_utf16(struct reader *r, const uint8_t *bytes, size_t length, size_t *now) {
    int high = bytes[0] == 0xFE ? 0 : 1;
    char *text = malloc(2 * length + 1);
    if (!text) misuse("no memory");
    if (length % 2) fail(r, "the text is UTF-16, and ends inside a letter: is the file whole?");
    *now = 0;
    for (size_t i = 2; i < length; i += 2) {
        unsigned long letter = (unsigned long)bytes[i + (size_t)high] << 8 | bytes[i + 1 - (size_t)high];
        if (letter >= 0xD800 && letter < 0xDC00 && i + 3 < length) {
            unsigned long low = (unsigned long)bytes[i + 2 + (size_t)high] << 8 | bytes[i + 3 - (size_t)high];
            if (low >= 0xDC00 && low < 0xE000) letter = 0x10000 + ((letter & 0x3FF) << 10 | (low & 0x3FF)), i += 2;
        }
        *now += put_letter(text + *now, letter);
    }
    return text;
}

/* Most of it is no text: somebody's raw bytes. */
static int is_raw(const char *text, size_t length) {
    size_t odd = 0, step;
    for (size_t i = 0; i < length; i += step) {
        int is_letter = letter_at(text + i, &step) != 0;
        odd += !is_letter || is_control((uint8_t)text[i]);
    }
    return odd > length / 8;
}

/* Every line, without its end; what is no text ends it. */
static void part_into_lines(struct reader *r, char *text, size_t length) {
    struct list *l = r->l;
    size_t lines = 1;
    int raw = is_raw(text, length);
    for (size_t i = 0; i < length; i++) lines += text[i] == '\n';
    if (!(l->text = malloc((lines + 1) * sizeof *l->text))) misuse("no memory");
    l->text[l->lines++] = text;
    for (size_t i = 0; i < length; i++) {
        int c = (uint8_t)text[i];
        r->line = l->lines;
        if (c == '\r' && i + 1 < length && text[i + 1] != '\n')
            fail(r, "a carriage return inside a line: save the text with the line ends of Unix or DOS");
        if (is_control(c))
            fail(r, "the byte 0x%02x is no text; %s", (unsigned)c,
                 i + 3 < length && !c && text[i + 1] && !text[i + 2] ? "it looks like UTF-16 without its mark: save it as UTF-8" :
                 raw ? "of a list of raw bytes 'od -An -v -tx1' makes one" : "take it out");
        if (!strncmp(text + i, "\xE2\x80\xA8", 3) || !strncmp(text + i, "\xE2\x80\xA9", 3) || !strncmp(text + i, "\xC2\x85", 2))
            fail(r, "a line end of Unicode's own: save the text with the line ends of Unix or DOS");
        if (c == '\r') text[i] = 0;
        if (c != '\n') continue;
        text[i] = 0;
        l->text[l->lines++] = text + i + 1;
    }
    text[length] = 0;
    if (!*l->text[l->lines - 1]) l->lines--;                    /* what follows the last line end is no line */
}

const char *line_of(const struct list *l, unsigned long line) { return line > 0 && line <= l->lines ? l->text[line - 1] : ""; }

/* ---- Numbers. */

/* A byte by its digits in hex, after 0x or before h, or by itself; -1 where the word is none. `bare`: by itself. */
static int byte_of(const char *word, enum base base, int *bare) {
    size_t length = strlen(word), digits = 0;
    int value = 0, has_0x = word[0] == '0' && (word[1] == 'x' || word[1] == 'X');
    int has_h = !has_0x && length > 1 && (word[length - 1] == 'h' || word[length - 1] == 'H');
    *bare = !has_0x && !has_h;
    if (has_0x) word += 2, length -= 2;
    if (has_h) length--;
    if (has_h && length == 3 && word[0] == '0' && isalpha((uint8_t)word[1])) word++, length--;      /* 0A0h, as assemblers have it */
    int is_decimal = *bare && base == DECIMAL;
    for (; digits < length; digits++) {
        int digit = hex_digit(word[digits]);
        if (digits == (is_decimal ? 3 : 2) || digit < 0 || (is_decimal && digit > 9)) return -1;
        value = (is_decimal ? 10 : 16) * value + digit;
    }
    return digits && value < 256 ? value : -1;
}

/* The same, where a byte must stand; and what is known by now of numbers that could be hex or decimal: 0 to 9 are the same in both. */
static int number(struct reader *r, const char *word) {
    char text[SHOWN];
    size_t length;
    int bare, value = byte_of(word, r->l->base, &bare);
    for (const char *at = word; *at; at += length)
        if (letter_at(at, &length) > '~')
            fail(r, "the letter U+%04lX stands where a byte should: a comment begins with #", letter_at(at, &length));
        else if ((uint8_t)*at > '~') fail(r, "the byte 0x%02x is no text: save the text as UTF-8", (unsigned)(uint8_t)*at);
    if (value < 0 && bare && r->l->base == DECIMAL) fail(r, "'%s' is no decimal number up to 255", shown(word, text));
    if (value < 0)
        fail(r, "'%s' is no byte in hex: %s", shown(word, text),
             strspn(word + (strncmp(word, "0x", 2) ? 0 : 2), "0123456789abcdefABCDEF") == 4 ? "part it where it is an address and its value"
             : bare && strspn(word, "0123456789") == 3 && word[3] == 0 ? "for decimal numbers say --decimal"
             : "a pair is as 4b 40 or 0x4B, 0x40, and a comment begins with #");
    if (!bare || (value < 10 && strspn(word, "0123456789") == strlen(word))) return value;
    if (strpbrk(word, "abcdefABCDEF")) r->letters = 1;
    else if (!r->digits) r->digits = r->line;
    return value;
}

static void add(struct reader *r, int address, int value) {
    struct list *l = r->l;
    if (l->length < LIST_ROOM) {
        l->line[l->length / 2] = r->line;
        l->bytes[l->length++] = (uint8_t)address;
        l->bytes[l->length++] = (uint8_t)value;
    }
    l->all += 2;
}

static void must_be_chip(struct reader *r, int address, const char *word) {
    int chip = chip_of(address);
    if (!chip) fail(r, "'%s' is another chip than 0x39 or 0x3D: take its lines out, they are not judged", word);
    if (r->chip && r->chip != chip) fail(r, "the chip is 0x%02X, and in a line before it 0x%02X: a list is for one chip", chip, r->chip);
    r->chip = chip;
}

static void must_be_shape(struct reader *r, int bytes) {
    if (r->shape && r->shape != bytes)
        fail(r, "a write of %d bytes, and in a line before it of %d: pairs, or chip address, register and value, in every line", bytes, r->shape);
    r->shape = bytes;
}

/* ---- A line without its comments. */

static int is_for_the_preprocessor(const char *at) {
    static const char *const words[] = { "#if", "#ifdef", "#ifndef", "#else", "#elif", "#endif", "#include" };
    size_t length = 1 + strspn(at + 1, "abcdefghijklmnopqrstuvwxyz");
    for (size_t w = 0; w < sizeof words / sizeof words[0]; w++)
        if (strlen(words[w]) == length && !strncmp(at, words[w], length)) return 1;
    return 0;
}

/* A blank of some kind at a text's front: its length; 0 where there is none. No-break spaces come with sheets and web pages. */
static size_t blank_at(const char *text) {
    size_t length;
    unsigned long letter = letter_at(text, &length);
    if ((uint8_t)*text == 0xA0) return 1;                       /* of Latin-1 */
    return strchr(" \t", *text ? *text : 'x') || letter == 0xA0 || letter == 0x202F || (letter >= 0x2000 && letter <= 0x200A) ||
           letter == 0xFEFF || letter == 0x3000 ? length : 0;
}

static char *code_of(struct reader *r, const char *line) {
    char *code = malloc(strlen(line) + 1);
    size_t used = 0, blank;
    if (!code) misuse("no memory");
    *code = 0;
    for (const char *at = line; *at; ) {
        if (r->comment) {
            if (!strncmp(at, "*/", 2)) r->comment = 0, at++;
            at++;
        } else if (!strncmp(at, "/*", 2)) {
            if (strchr(code, ';') && !strstr(at, "*/"))
                fail(r, "a /* behind a ';' that does not end in its line: are these words, or a comment of C? Take the /* out, or end it");
            r->comment = r->line;
            code[used++] = ' ';
            at += 2;
        } else if (!strncmp(at, "//", 2)) {
            if (line[strlen(line) - 1] == '\\') fail(r, "a comment that ends in \\: C would take the next line into it; take the \\ out");
            break;
        } else if (*at == '#' || (*at == ';' && strspn(code, " \t") == used)) {
            if (*at == '#' && is_for_the_preprocessor(at))
                fail(r, "a line for the C preprocessor: send the list as it is left by it, or put a blank after the # of a comment");
            break;
        } else if ((blank = blank_at(at))) {
            code[used++] = *at == '\t' ? '\t' : ' ';
            at += blank;
        } else code[used++] = *at++;
        code[used] = 0;
    }
    while (used > 0 && strchr(" \t", code[used - 1])) used--;
    code[used] = 0;
    return code;
}

/* ---- A line with a command: one pair, or a wait. */

static int byte_of_command(struct reader *r, const char *word) {
    char *end, text[SHOWN];
    int bare, value = byte_of(word, HEX, &bare);
    long taken = strtol(word, &end, 0);
    if (bare && !*end && end > word && taken >= 0 && taken < 256)
        fail(r, "'%s' has no 0x: a command takes it for %s number, 0x%02lX; write that, if it is meant", shown(word, text),
             word[0] == '0' && word[1] ? "an octal" : "a decimal", (unsigned long)taken);
    if (value >= 0 && bare) fail(r, "'%s' has no 0x: a command does not take it for hex", word);
    if (value < 0 || strpbrk(word, "hH")) fail(r, "'%s' is no byte in hex, as 0x4b", shown(word, text));
    return value;
}

/* A wait that was read stands where the verdict has its Vsync, just before the last pair: of so many bytes in all. */
static void must_wait_before(struct reader *r, size_t bytes) {
    if (!r->waits || r->before_wait + 2 == bytes) return;
    r->line = r->waits;
    fail(r, "'sleep' is read only just before the last pair, where the verdict has its Vsync: take it out");
}

static void read_wait(struct reader *r, const char *time) {
    if (strcmp(time, "1")) fail(r, "of waits only 'sleep 1' is read, just before the last pair");
    must_wait_before(r, r->l->all + 2);
    r->waits = r->line;
    r->before_wait = r->l->all;
}

/* The look of tools/listing, which stops the shell after a hot plug: as it is printed there, and just behind the wait. */
static void read_look(struct reader *r, char *words[], size_t count) {
    char has[SHOWN + WORDS * WORD] = "", look[3 * WORD];
    for (size_t w = 0; w < count; w++) snprintf(has + strlen(has), sizeof has - strlen(has), "%s%.60s", w ? " " : "", words[w]);
    snprintf(look, sizeof look, "test $(($(i2ctransfer -y %s w1@0x%02x 0x41 r1) & 0x40)) = 0", r->bus, (unsigned)r->chip);
    if (strcmp(has, look) || !r->waits || r->before_wait != r->l->all)
        fail(r, "of tests only that of 0x41[6] is read, behind the wait and for the same chip");
}

static void read_command(struct reader *r, char *code) {
    char *words[WORDS] = { code };
    size_t count = 0, at = 1;
    if (strchr(code, ',')) fail(r, "a comma in a command");
    if (strchr(code, ';')) fail(r, "a semicolon in a command: one command to a line");
    for (char *word = strtok(code, " \t"); word; word = strtok(NULL, " \t")) {
        if (count == WORDS) fail(r, "'%s' has more words than one pair takes", words[0]);
        words[count++] = word;
    }
    if (!strcmp(words[0], "set")) {
        if (count != 2 || strcmp(words[1], "-e")) fail(r, "of the shell's words only 'set -e' is read");
        return;
    }
    if (!strcmp(words[0], "sleep")) {
        read_wait(r, count == 2 ? words[1] : "");
        return;
    }
    if (!strcmp(words[0], "test")) {
        read_look(r, words, count);
        return;
    }
    int is_set = !strcmp(words[0], "i2cset");
    for (; at < count && words[at][0] == '-'; at++)
        if (strcmp(words[at], "-y") && strcmp(words[at], "-f")) fail(r, "the option '%.40s' is not read: one pair, one command", words[at]);
    if (is_set && count == at + 5 && !strcmp(words[count - 1], "b")) count--;
    if (is_set && count == at + 5) fail(r, "'%.40s' after the value is not read: one pair, one command", words[count - 1]);
    if (count != at + 4) fail(r, "'%s' is not of the form that is read: %s -y BUS %s0x39 0x4b 0x40", words[0], words[0], is_set ? "" : "w2@");
    if (strspn(words[at], "0123456789") != strlen(words[at])) fail(r, "'%.40s' is no number of a bus", words[at]);
    if (r->bus[0] && strcmp(r->bus, words[at])) fail(r, "the bus is %.20s, and in a line before it %.20s", words[at], r->bus);
    snprintf(r->bus, sizeof r->bus, "%s", words[at]);
    if (!is_set && strncmp(words[at + 1], "w2@", 3)) fail(r, "'%.40s' is no write of two bytes, w2@0x39: one pair, one command", words[at + 1]);
    const char *chip = words[at + 1] + (is_set ? 0 : 3);
    int address = byte_of_command(r, chip);
    must_be_chip(r, address == 0x39 || address == 0x3D ? address : 0, chip);            /* a command counts no bit for reading in */
    address = byte_of_command(r, words[at + 2]);
    add(r, address, byte_of_command(r, words[at + 3]));
}

/* ---- A sheet: cells, of which the heading says what they are. */

static size_t cells_of(char *row, char parts, char *cells[CELLS]) {
    size_t count = 0;
    for (char *at = row; at && count < CELLS; count++) {
        char *from = at, *to = at, *cell = at;
        int quoted = 0;
        for (; *from && (quoted || *from != parts); from++) {
            if (*from == '"') quoted = !quoted;
            else *to++ = *from;
        }
        at = *from ? from + 1 : NULL;
        *to = 0;
        while (*cell && strchr(" \t", *cell)) cell++;
        while (to > cell && strchr(" \t", to[-1])) *--to = 0;
        cells[count] = cell;
    }
    return count;
}

/* Which column a title names. */
enum column { NONE, ADDRESS, REGISTER, VALUE, CHIP };
static enum column column_of(const char *title) {
    static const struct { const char *word; enum column column; } titles[] = {
        { "address", ADDRESS }, { "addr", ADDRESS }, { "registeraddress", ADDRESS }, { "regaddress", ADDRESS }, { "regaddr", ADDRESS },
        { "subaddress", ADDRESS }, { "offset", ADDRESS }, { "register", REGISTER }, { "reg", REGISTER }, { "value", VALUE }, { "val", VALUE },
        { "data", VALUE }, { "registervalue", VALUE }, { "regvalue", VALUE }, { "byte", VALUE }, { "chip", CHIP }, { "device", CHIP },
        { "slave", CHIP }, { "slaveaddress", CHIP }, { "deviceaddress", CHIP }, { "chipaddress", CHIP }, { "i2caddress", CHIP },
    };
    char word[WORD];
    size_t used = 0, length;
    for (; *title && used + 1 < WORD; title++)
        if (isalnum((uint8_t)*title)) word[used++] = (char)tolower((uint8_t)*title);
    word[used] = 0;
    length = used > 3 && !strcmp(word + used - 3, "hex") ? used - 3 : used;
    for (size_t t = 0; t < sizeof titles / sizeof titles[0]; t++)
        if (strlen(titles[t].word) == length && !strncmp(word, titles[t].word, length)) return titles[t].column;
    return NONE;
}

/* A heading has titles of an address and of a value, one each. Of two words with blanks between, the rows are as any others. */
static int read_heading(struct reader *r, const char *code) {
    char *copy = strdup(code), *cells[CELLS];
    int found[CHIP + 1] = { 0 }, at[CHIP + 1] = { 0 }, bare;
    struct columns c = { strchr(code, '\t') ? '\t' : strchr(code, ';') ? ';' : strchr(code, ',') ? ',' : ' ', -1, -1, -1 };
    if (!copy) misuse("no memory");
    size_t count = cells_of(copy, c.parts, cells);
    for (size_t i = 0; i < count; i++) {
        enum column column = column_of(cells[i]);
        if (byte_of(cells[i], HEX, &bare) >= 0) return 0;
        if (found[column]++ == 0) at[column] = (int)i;
    }
    if (!found[ADDRESS] && !found[REGISTER] && !found[VALUE]) return 0;
    if (!found[ADDRESS]) found[ADDRESS] = found[REGISTER], at[ADDRESS] = at[REGISTER];
    if (found[ADDRESS] != 1 || found[VALUE] != 1 || found[CHIP] > 1)
        fail(r, "a heading that does not name one column Address and one Value: name them so");
    if (c.parts == ' ') {
        if (count != 2 || at[ADDRESS] != 0) fail(r, "a heading with blanks between: Address, then Value, or commas between the columns");
        return 1;
    }
    c.address = at[ADDRESS];
    c.value = at[VALUE];
    c.chip = found[CHIP] ? at[CHIP] : -1;
    r->columns = c;
    free(copy);
    return 1;
}

static void read_row(struct reader *r, char *code) {
    char *cells[CELLS];
    const struct columns *c = &r->columns;
    size_t quotes = 0;
    for (const char *at = code; *at; at++) quotes += *at == '"';
    if (quotes % 2) fail(r, "a quote that does not end in its line: put the row into one line");
    int count = (int)cells_of(code, c->parts, cells);
    const char *address = c->address < count ? cells[c->address] : "", *value = c->value < count ? cells[c->value] : "";
    if (!*address && !*value) return;
    if (!*address || !*value) fail(r, "a row with no %s: a pair has both", *address ? "value" : "address");
    if (c->chip >= 0) must_be_chip(r, number(r, c->chip < count ? cells[c->chip] : ""), c->chip < count ? cells[c->chip] : "");
    int first = number(r, address);
    add(r, first, number(r, value));
}

/* A row of a sheet that is a comment may be a pair with a mark in front. */
static void look_at_comment(struct reader *r, const char *line) {
    char *copy, *cells[CELLS];
    int bare;
    while (blank_at(line)) line += blank_at(line);
    if (!r->columns.parts || *line != '#') return;
    if (!(copy = strdup(line + 1))) misuse("no memory");
    int count = (int)cells_of(copy, r->columns.parts, cells);
    if (r->columns.address < count && r->columns.value < count && byte_of(cells[r->columns.address], HEX, &bare) >= 0 &&
        byte_of(cells[r->columns.value], HEX, &bare) >= 0)
        fail(r, "a row of the sheet behind a #: take the # out, or the row");
    free(copy);
}

/* ---- A line of bytes. */

/* The bytes of a line that stand in no braces: the first three wait, for they may be chip address, register and value. */
struct row { size_t count; int first[3], is_thirds; };

static void take_byte(struct reader *r, struct row *row, int value) {
    static const int chips[] = { 0x72, 0x7A };
    size_t n = row->count++;
    if (n % 3 == 0 && value != chips[0] && value != chips[1]) row->is_thirds = 0;
    if (n < 3) row->first[n] = value;
    else if (n == 3) {
        add(r, row->first[0], row->first[1]);
        add(r, row->first[2], value);
    } else if (n % 2 == 0) row->first[0] = value;
    else add(r, row->first[0], value);
}

/* Chip address, register, value. The chip's address is in hex, and so is the rest. */
static void take_three(struct reader *r, const int *bytes) {
    char text[8];
    snprintf(text, sizeof text, "%02X", (unsigned)bytes[0]);
    if (bytes[0] == 0x57 || bytes[0] == 0x61) fail(r, "'%s' in front of two bytes: where it is the chip's address in decimal, write all in hex", text);
    if (!chip_of(bytes[0]))
        fail(r, "three bytes: '%s' is not the chip's address (72 or 7A, 39 or 3D), and a pair has two. Is a byte lost, or one too many?", text);
    must_be_shape(r, 3);
    must_be_chip(r, bytes[0], text);
    if (r->l->base != DECIMAL) r->letters = 1;
    add(r, bytes[1], bytes[2]);
}

static void end_row(struct reader *r, struct row *row) {
    if (row->count == 0) return;
    if (row->count == 3) {
        take_three(r, row->first);
        return;
    }
    if (row->count % 2)
        fail(r, "an odd number of bytes, %lu: a pair is an address and a value, both in one line. Is a byte lost? Put each pair on a line of its own",
             (unsigned long)row->count);
    must_be_shape(r, 2);
    if (row->count == 2) add(r, row->first[0], row->first[1]);
    if (row->count % 3 == 0 && row->is_thirds)
        fail(r, "pairs, or three bytes at a time with the chip's address first? Put each write on a line of its own");
}

/* Words that could all be numbers. */
static int may_be_numbers(const char *text) {
    char *copy = strdup(text);
    int all = 1, some = 0, bare;
    if (!copy) misuse("no memory");
    for (char *word = strtok(copy, " \t,;={}"); word; word = strtok(NULL, " \t,;={}"), some = 1)
        all = all && byte_of(word, HEX, &bare) >= 0;
    free(copy);
    return all && some;
}

static void read_bytes(struct reader *r, const char *at) {
    struct row row = { 0, { 0, 0, 0 }, 1 };
    int after = 0, in_braces = 0, groups = 0, group[3], count = 0;
    if (r->array == CLOSED && strspn(at, "; \t") < strlen(at)) fail(r, "more after the array's end: one list in a text");
    while (*at) {
        char word[WORD];
        size_t length = strcspn(at, " \t,;={}");
        if (length) {
            snprintf(word, sizeof word, "%.*s", (int)length, at);
            int value = number(r, word);
            if (in_braces) {
                if (count == 3) fail(r, "braces around more than a pair: put braces around each pair, or an array's name and = before them");
                group[count++] = value;
            } else take_byte(r, &row, value);
            after = 1;
            at += length;
            continue;
        }
        char c = *at++;
        if (c == ' ' || c == '\t') continue;
        if (c == ',') {
            if (!after) fail(r, "a comma with no byte before it");
            after = 0;
        } else if (c == '=') {
            if (in_braces || !after || row.count % 2 == 0) fail(r, "'=' stands between an address and its value alone");
            after = 0;
        } else if (c == ';') {
            if (in_braces) fail(r, "a semicolon between braces");
            if (row.count == 1 && after) {
                after = 0;
                continue;
            }
            if (may_be_numbers(at)) fail(r, "more bytes behind a ';': is that a comment? Put # before it, or each pair on a line of its own");
            break;
        } else if (c == '{') {
            if (r->array == AWAITED) r->array = INSIDE;
            else if (in_braces && !count && r->array == NO_ARRAY && !groups) r->array = INSIDE;
            else if (in_braces) fail(r, "braces inside braces");
            else in_braces = 1, count = 0;
            after = 0;
        } else if (in_braces) {
            if (count == 3) take_three(r, group);
            else if (count != 2) fail(r, "braces around %d byte%s: a pair has two", count, count == 1 ? "" : "s");
            else must_be_shape(r, 2), add(r, group[0], group[1]);
            groups++;
            in_braces = 0;
            after = 1;
        } else if (r->array == INSIDE) r->array = CLOSED, after = 1;
        else fail(r, "a brace that nothing opened");
    }
    if (in_braces && (count || r->array != NO_ARRAY)) fail(r, "a brace that is not closed in its line");
    if (in_braces) r->array = INSIDE;
    if (groups && row.count) fail(r, "braces around some bytes of the line and not around others");
    end_row(r, &row);
}

/* "static const u8 list[][2] = {": what follows the brace; NULL where the line is none. */
static const char *array_of(struct reader *r, const char *code) {
    const char *is = strchr(code, '='), *row = NULL;
    if (!isalpha((uint8_t)code[0]) || !is) return NULL;
    for (const char *at = code; at < is; at++) {
        if (!isalnum((uint8_t)*at) && !strchr("_ \t*[]", *at)) return NULL;
        if (*at == '[') row = at;
    }
    if (!row) return NULL;
    is += 1 + strspn(is + 1, " \t");
    if (*is && *is != '{') return NULL;
    if (r->array != NO_ARRAY || r->l->all) fail(r, "a second array: one list in a text");
    if (strchr(code, '[') != row && isdigit((uint8_t)row[1]) && strncmp(row, "[2]", 3) && strncmp(row, "[3]", 3))
        fail(r, "an array with rows of '%.20s': a pair has two bytes", row);
    r->array = AWAITED;
    return is;
}

static int is_command(const char *code) {
    static const char *const commands[] = { "i2cset", "i2ctransfer", "set", "sleep", "test" };
    size_t length = strcspn(code, " \t");
    for (size_t c = 0; c < sizeof commands / sizeof commands[0]; c++)
        if (strlen(commands[c]) == length && !strncmp(code, commands[c], length)) return 1;
    return 0;
}

/* Letters alone in the first line, such as A and D, are bytes, or a heading. */
static int is_letters(const char *code) {
    int words = 0;
    for (; *code; code++) {
        if (strchr(" \t,;", *code)) continue;
        if (!isalpha((uint8_t)*code) || isalnum((uint8_t)code[1])) return 0;
        words++;
    }
    return words == 2;
}

/* A file that was cut: its last word has one digit, and no line end follows. */
static void look_at_end(struct reader *r, const char *code) {
    size_t length = strlen(code), from = length;
    while (from > 0 && !strchr(" \t,;={}", code[from - 1])) from--;
    const char *word = code + from + (!strncmp(code + from, "0x", 2) || !strncmp(code + from, "0X", 2) ? 2 : 0);
    if ((is_command(code) || may_be_numbers(code)) && strlen(word) == 1 && hex_digit(*word) >= 0)
        fail(r, "the text ends in '%c', half a byte: is the file whole? If it is, end its last line", *word);
}

static void read_line(struct reader *r, const char *line) {
    char *code = code_of(r, line), *at = code + strspn(code, " \t");
    const char *rest;
    int bare;
    char word[WORD];
    if (r->unended && r->line == r->l->lines && strlen(code) == strlen(line)) look_at_end(r, at);
    snprintf(word, sizeof word, "%.*s", (int)strcspn(at, " \t,;={}"), at);
    look_at_comment(r, line);
    if (!*at) {
    } else if (is_command(at)) read_command(r, at);
    else if (r->columns.parts) read_row(r, at == code ? code : at);
    else if ((rest = array_of(r, at))) read_bytes(r, rest);
    else if (!r->l->all && is_letters(at)) fail(r, "a heading, or a pair in hex? Name the columns Address and Value, or write 0x");
    else if (r->l->all || !*word || byte_of(word, HEX, &bare) >= 0 || !read_heading(r, at)) read_bytes(r, at);
    free(code);
}

int list_of_file(const char *name, enum base base, struct list *l) {
    static struct reader r;                     /* static, for it is set after setjmp */
    static uint8_t *bytes;
    static char *text;
    static size_t length;
    FILE *from = stdin;
    memset(l, 0, sizeof *l);
    memset(&r, 0, sizeof r);
    l->name = strcmp(name, "-") ? name : "the standard input";
    l->base = base;
    r.l = l;
    if (strcmp(name, "-") && !(from = fopen(name, "rb"))) misuse("%.80s cannot be opened", name);
    bytes = bytes_of(from, name, &length);
    if (from != stdin) fclose(from);
    sha256(bytes, length, l->sha256);
    if (setjmp(r.end)) return 0;
    r.line = 1;
    int marked = length >= MARK_OF_UTF8 && !memcmp(bytes, "\xEF\xBB\xBF", MARK_OF_UTF8) ? MARK_OF_UTF8 : 0;
    if (length >= 2 && ((bytes[0] == 0xFF && bytes[1] == 0xFE) || (bytes[0] == 0xFE && bytes[1] == 0xFF))) {
        text = of_utf16(&r, bytes, length, &length);
    } else {
        length -= (size_t)marked;
        if (!(text = malloc(length + 1))) misuse("no memory");
        memcpy(text, bytes + marked, length);
    }
    free(bytes);
    text[length] = 0;
    r.unended = length && text[length - 1] != '\n';
    part_into_lines(&r, text, length);
    for (r.line = 1; r.line <= l->lines; r.line++) read_line(&r, l->text[r.line - 1]);
    r.line = l->lines;
    if (r.comment) r.line = r.comment, fail(&r, "a comment that begins here does not end: */ is missing");
    if (r.array == INSIDE || r.array == AWAITED) fail(&r, "an array that does not end: is the file whole?");
    must_wait_before(&r, l->all);
    if (base == NOT_SAID && r.digits && !r.letters) {
        r.line = r.digits;
        fail(&r, "no number has a letter, 0x or h, so they may be hex or decimal: say --hex or --decimal");
    }
    l->bare = r.digits || r.letters;
    if (base == NOT_SAID) l->base = HEX;
    return 1;
}
