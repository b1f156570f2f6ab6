/* A colour meter's export as the matrix of a request: the bytes, the mode and why it is no smaller one, each number beside the field that
 * stands for it, and eight patches through both. The matrix is the library's; what is told of it is found here, from the export's own floats,
 * and where the two do not lead to each other no answer is given. What it prints of meter.txt is compared with meter.out. */
#include "factors.h"
#include "words.h"
#include <errno.h>
#include <stdarg.h>
#include <stdio.h>
#include <stdlib.h>
#include <string.h>

const char *program = "tools/meter";

static const char help[] =
    "tools/meter [OPTIONS] [FILE]\n"
    "\n"
    "Makes the matrix of a request from a colour meter's export, twelve numbers in\n"
    "the order A1 A2 A3 A4, B1 B2 B3 B4, C1 C2 C3 C4: A4, B4 and C4 are offsets in\n"
    "12-bit codes, the other nine are factors. A is red, B green, C blue. Prints\n"
    "\n"
    "  the words that tools/request takes, and in hex the bytes of the section as it\n"
    "    stands in a request: its count, 19, and the 25 bytes of the matrix;\n"
    "  the mode, and the numbers for which a smaller one would not do;\n"
    "  of each number the field, what that stands for, and how far off it is: at most\n"
    "    half a unit of the field;\n"
    "  eight patches through the matrix, beside what the numbers themselves give,\n"
    "    both rounded down and held within 0 to 4095; and how far they are apart,\n"
    "    the first less the second.\n"
    "\n"
    "FILE, or with - or without it the standard input, is text or raw:\n"
    "\n"
    "  text   twelve numbers such as 1, -0.02, .5 or 3e-3, or nan and inf, which are\n"
    "         refused. Blanks, line ends, or a comma or semicolon part two of them.\n"
    "         A # at the front of a line or after a blank or comma begins a comment.\n"
    "         The decimal point is a point; a comma as in 1,5 parts two numbers where\n"
    "         all of its line, four or twelve, are parted so, and is else refused.\n"
    "         Four lines of three are not taken: a row's offset is its fourth number.\n"
    "         Each number is taken as the float nearest to it; one beyond the largest\n"
    "         float, or so small that 0 is the nearest, is not taken.\n"
    "  raw    48 bytes: twelve floats of 32 bits (IEEE 754), the low byte first.\n"
    "\n"
    "A file of exactly 48 bytes that is no text is raw, any other is text, of less\n"
    "than 64 KiB. No text is what has control characters other than tabs and line\n"
    "ends or, outside comments, a byte above 0x7e. UTF-8's mark may stand in front.\n"
    "\n"
    "  --raw     it is raw\n"
    "  --text    it is text\n"
    "  --words   print the words alone, for a shell; and 'matrix refused', at which\n"
    "            tools/request stops, where there are none\n"
    "\n"
    "The status is 0 for a matrix; 1 for numbers that are refused, 18 or 19: then\n"
    "those at fault are named, and how it is mended; 2 for a file or a command that\n"
    "is not as above; 3 where what the library answers is not what these numbers ask\n"
    "for: then trust neither.\n"
    "\n"
    "  tools/meter programs/meter.txt\n"
    "  words=$(tools/meter --words programs/meter.txt) &&\n"
    "    tools/request vic 16 rgb hdmi $words\n";

enum { DIFFERS = 3, MOST = 1 << 16, ROW = 4, OF_A_FLOAT = 4, RAW = STATION_METER * OF_A_FLOAT, HIGHEST_CODE = 4095 };

/* ---- The export. */

static const char *file = "-";
static void take_name(const char *word, void *into) {
    if (!*word) misuse("a file without a name");
    if ((*(int *)into)++) misuse("more than one file");
    file = word;
}

static size_t read_file(uint8_t *bytes) {
    FILE *from = strcmp(file, "-") ? fopen(file, "rb") : stdin;
    if (!from) misuse("%.80s cannot be opened: %s", file, strerror(errno));
    size_t length = fread(bytes, 1, MOST, from);
    if (ferror(from)) misuse("%.80s cannot be read: %s", strcmp(file, "-") ? file : "the standard input", strerror(errno));
    if (length == MOST) misuse("the file has %u bytes or more: no such export", (unsigned)MOST);
    if (length == 0) misuse("the file is empty");
    if (from != stdin) fclose(from);
    return length;
}

/* A text as it is read, byte by byte: a mark of UTF-8 in front of it is passed over. */
struct reader { const uint8_t *at, *end; unsigned line; };
static struct reader reader_of(const uint8_t *bytes, size_t length) {
    static const uint8_t mark[] = { 0xEF, 0xBB, 0xBF };
    size_t front = length >= sizeof mark && !memcmp(bytes, mark, sizeof mark) ? sizeof mark : 0;
    return (struct reader){ bytes + front, bytes + length, 1 };
}

/* A carriage return stands before a line's end. Elsewhere it ends lines for some programs and not for others: with it a comment could swallow
 * numbers. */
static int is_return(const struct reader *r, size_t k) { return r->at[k] == '\r' && (r->at + k + 1 == r->end || r->at[k + 1] == '\n'); }
static int is_blank(const struct reader *r, size_t k) { return strchr(" \t\n", r->at[k] ? r->at[k] : 'x') || is_return(r, k); }
static int is_comma(int c) { return c == ',' || c == ';'; }
static int is_control(const struct reader *r, size_t k) { return (r->at[k] < ' ' && !is_blank(r, k)) || r->at[k] == 0x7F; }

/* The next blank, comma or word, and how long it is; a comment counts as a blank. At a byte that is no text the reader stands on it. */
enum next { NO_TEXT = -1, THE_END, A_BLANK, A_COMMA, A_WORD };
static enum next next_of(struct reader *r, size_t *length) {
    size_t k = 0;
    *length = 1;
    if (r->at == r->end) return THE_END;
    if (is_blank(r, 0)) return A_BLANK;
    if (is_comma(*r->at)) return A_COMMA;
    int comment = *r->at == '#';
    for (; r->at + k < r->end && (comment ? r->at[k] != '\n' : !is_blank(r, k) && !is_comma(r->at[k])); k++)
        if (is_control(r, k) || (!comment && r->at[k] > '~')) {
            r->at += k;
            return NO_TEXT;
        }
    *length = k;
    return comment ? A_BLANK : A_WORD;
}

static void pass(struct reader *r, size_t length) {
    r->line += *r->at == '\n';
    r->at += length;
}

static int is_text(const uint8_t *bytes, size_t length) {
    struct reader r = reader_of(bytes, length);
    size_t passed;
    enum next n;
    while ((n = next_of(&r, &passed)) > THE_END) pass(&r, passed);
    return n == THE_END;
}

/* What is wrong with a text, and what else the file may be. */
static void no_export(const uint8_t *bytes, size_t length, const char *format, ...) {
    char text[200];
    int turned = length > 1 && bytes[0] == 0xFE && bytes[1] == 0xFF, wide = length > 1 && bytes[0] == 0xFF && bytes[1] == 0xFE;
    va_list list;
    va_start(list, format);
    vsnprintf(text, sizeof text, format, list);
    va_end(list);
    misuse("%s%s", text, turned || wide ? "; it looks like UTF-16: save it as UTF-8"
           : length == RAW ? "; it has 48 bytes: where they are floats, say --raw" : length == 2 * RAW ? "; are its floats of 64 bits?" : "");
}

/* A line of numbers. In 1,5 no blank stands beside the comma, and no number has a point: a decimal comma, or a comma that parts two numbers. It is
 * the latter where all numbers of the line are parted so, and are a row or the whole matrix. */
struct line { unsigned numbers, decimals, parted; };
static int is_unclear(struct line l) { return l.decimals && (l.parted || (l.numbers != ROW && l.numbers != STATION_METER)); }

static void numbers_of_text(const uint8_t *bytes, size_t length, float *numbers) {
    struct reader r = reader_of(bytes, length);
    struct line l = { 0, 0, 0 };
    unsigned count = 0, too_many = 0, lines = 0, lines_of_three = 0;
    int after_number = 0, joined = 0, point = 0;     /* may a comma stand here; does it join two words; has the number before it a point */
    char name[3], text[SHOWN];
    size_t passed;
    enum next n;
    do {
        static char word[MOST + 1];
        float number;
        n = next_of(&r, &passed);
        if (n == NO_TEXT && *r.at == '\r') no_export(bytes, 0, "line %u: a carriage return inside a line: a line ends with a line feed", r.line);
        if (n == NO_TEXT && length == RAW) no_export(bytes, length, "line %u: the byte 0x%02x is no text", r.line, *r.at);
        if (n == NO_TEXT)
            no_export(bytes, length, "line %u: the byte 0x%02x is no text, and a raw export has %u bytes, not %u", r.line, *r.at, (unsigned)RAW,
                      (unsigned)length);
        if (n == THE_END || *r.at == '\n') {
            if (is_unclear(l))
                no_export(bytes, length, "line %u: is a comma here a decimal comma? The decimal point is a point; where commas part two numbers, put a "
                          "blank behind each", r.line);
            lines += l.numbers > 0;
            lines_of_three += l.numbers == ROW - 1;
            l = (struct line){ 0, 0, 0 };
        }
        if (n == A_COMMA) {
            if (!after_number) no_export(bytes, length, "line %u: a '%c' with no number before it", r.line, *r.at);
            after_number = 0;
        }
        joined = n == A_COMMA ? joined && *r.at == ',' : n == A_WORD && joined;
        if (n == A_WORD) {
            memcpy(word, r.at, passed);
            word[passed] = 0;
            const char *wrong = float_of_word(word, &number);
            if (wrong) no_export(bytes, length, "line %u: '%s' %s", r.line, shown(word, text), wrong);
            if (count < STATION_METER) numbers[count] = number;
            if (++count == STATION_METER + 1) too_many = r.line;
            int had = point;
            point = strchr(word, '.') != NULL;
            l.decimals += l.numbers && joined && !had && !point && word[0] >= '0' && word[0] <= '9';
            l.parted += l.numbers && !joined;
            l.numbers++;
            after_number = joined = 1;
        }
        if (n != THE_END) pass(&r, passed);
    } while (n != THE_END);
    if (count == 0) no_export(bytes, length, "the file has no number");
    if (count < STATION_METER)
        no_export(bytes, length, "%u numbers, and not %u: the last is %s; each of three rows has three factors and an offset", count, STATION_METER,
                  name_of_number(count - 1, name));
    if (count > STATION_METER) no_export(bytes, length, "%u numbers, and not %u: the first too many stands in line %u", count, STATION_METER, too_many);
    if (lines == lines_of_three)
        no_export(bytes, length, "four lines of three numbers: the offset of each row stands behind its three factors, A1 A2 A3 A4");
}

/* The low byte first; or, `turned`, the high one. */
static void numbers_of_raw(const uint8_t *bytes, size_t length, int turned, float *numbers) {
    if (length != RAW) misuse("%u bytes, and not %u: twelve floats of four bytes", (unsigned)length, (unsigned)RAW);
    for (size_t n = 0; n < STATION_METER; n++) {
        uint32_t bits = 0;
        for (size_t b = 0; b < OF_A_FLOAT; b++) bits = bits << 8 | bytes[OF_A_FLOAT * n + (turned ? b : OF_A_FLOAT - 1 - b)];
        memcpy(&numbers[n], &bits, sizeof numbers[n]);
    }
}

/* ---- The matrix. */

static int field_of(const uint8_t *matrix, size_t n) {
    int value = 256 * matrix[1 + 2 * n] + matrix[2 + 2 * n];
    return value < 32768 ? value : value - 65536;
}

/* Is it the matrix that the numbers ask for: the smallest mode that each fits, and the nearest fields? And are there none where it is refused? */
static int fits(const float *numbers, int mode) {
    char text[TEXT_OF_A_FAULT];
    for (size_t n = 0; n < STATION_METER; n++)
        if (fault_of(numbers[n], n, mode, text)) return 0;
    return 1;
}

static int is_asked_for(const float *numbers, struct station_count c, const uint8_t *matrix) {
    int mode = 0, finite = 1;
    for (size_t n = 0; n < STATION_METER; n++) finite &= numbers[n] - numbers[n] == 0;
    if (!finite) return c.refusal == STATION_NOT_FINITE;
    while (mode <= LARGEST_MODE && !fits(numbers, mode)) mode++;
    if (mode > LARGEST_MODE) return c.refusal == STATION_NO_MODE_FITS;
    if (c.refusal || c.count != STATION_MATRIX || matrix[0] != mode) return 0;
    for (size_t n = 0; n < STATION_METER; n++)
        if (field_of(matrix, n) != nearest(in_units(numbers[n], n, mode))) return 0;
    return 1;
}

static void print_words(const uint8_t *matrix) {
    printf("matrix %u", matrix[0]);
    for (size_t n = 0; n < STATION_METER; n++) printf(" %d", field_of(matrix, n));
    printf("\n");
}

static void print_bytes(const uint8_t *matrix) {
    printf("%02x", STATION_MATRIX);
    for (size_t i = 0; i < STATION_MATRIX; i++) printf(" %02x", matrix[i]);
    printf("\n");
}

/* What does not fit a mode does not fit a smaller one, so the next smaller one tells it all. */
static void print_mode(const float *numbers, int mode) {
    char text[TEXT_OF_A_FAULT], name[3], number[TEXT_OF_A_NUMBER];
    printf("\nMode %d: ", mode);
    if (mode == 0) printf("every number fits, and there is no smaller one.\n");
    else printf("%s too small for\n", mode == 1 ? "mode 0 is" : "modes 0 and 1 are");
    for (size_t n = 0; mode > 0 && n < STATION_METER; n++)
        if (fault_of(numbers[n], n, mode - 1, text))
            printf("  %s %s: %s\n", name_of_number(n, name), text_of_number(numbers[n], number), text);
}

/* How far off, for a person: eight decimals, or fewer digits of what is less; 0 for nothing at all. With eight a tie, 0.5, is told from every
 * other float. */
static const char *text_of_off(double off, char text[24]) {
    if (off == 0) snprintf(text, 24, "0");
    else snprintf(text, 24, off < 1e-6 && off > -1e-6 ? "%+.2e" : "%+.8f", off);
    return text;
}

/* The difference of a float and its field is exact: one that is not 0 lies within half a unit of the number, so a double has room for it. */
static void print_fields(const float *numbers, const uint8_t *matrix) {
    char name[3], by[24], itself[24], number[TEXT_OF_A_NUMBER];
    int mode = matrix[0];
    printf("\n%-4s%-18s%5s   %-18s%13s%15s\n", "", " number", "field", "stands for", "off, in units", "off");
    for (size_t n = 0; n < STATION_METER; n++) {
        int field = field_of(matrix, n);
        double unit = (is_offset(n) ? 1.0 : 1.0 / 4096) * (1 << mode), off = field - in_units(numbers[n], n, mode);
        text_of_number(numbers[n], number);
        printf("%-4s%s%-*s%5d  % -18.12g%14s%15s%s\n", name_of_number(n, name), *number == '-' ? "" : " ", *number == '-' ? 18 : 17, number, field,
               field * unit, text_of_off(off, by), text_of_off(off * unit, itself), off == 0.5 || off == -0.5 ? " tie" : "");
    }
    printf("A unit is 1/%d in a factor, %d in an offset. Off is what the field stands for,\nless the float nearest to the number.\n", 4096 >> mode, 1 << mode);
}

/* One output of three codes by the numbers themselves, of which none is above 2^15 in size, as document 01 has it: rounded down, and held
 * within 0 to 4095. Every float is a whole number of 2^-149. So is the sum, and its digits are of 16 bits, the lowest first, each with what is
 * to be carried. */
enum { DIGITS = 10, OF_A_DIGIT = 16, OF_THE_PART = 149 };
static int64_t down(int64_t value, int bits) { return value < 0 ? ~(~value >> bits) : value >> bits; }

static int code_of(const float *row, const uint32_t *codes) {
    int64_t digits[DIGITS] = { 0 }, carry = 0;
    for (size_t n = 0; n < 4; n++) {
        uint32_t bits;
        memcpy(&bits, &row[n], sizeof bits);
        uint32_t exponent = bits >> 23 & 0xFF, shift = exponent ? exponent - 1 : 0;
        int64_t size = (bits & 0x7FFFFF) | (exponent ? 0x800000 : 0);
        size = (size * (is_offset(n) ? 1 : codes[n])) << shift % OF_A_DIGIT;
        digits[shift / OF_A_DIGIT] += bits >> 31 ? -size : size;
    }
    for (size_t d = 0; d < DIGITS - 1; d++) carry = down(digits[d] + carry, OF_A_DIGIT);
    int64_t code = down(digits[DIGITS - 1] + carry, OF_THE_PART - (DIGITS - 1) * OF_A_DIGIT);
    return code < 0 ? 0 : code > HIGHEST_CODE ? HIGHEST_CODE : (int)code;
}

static void print_patches(const float *numbers, const uint8_t *matrix) {
    enum { BLUE = 1, GREEN = 2, RED = 4 };
    static const struct { const char *name; int lit; } patches[] = {
        { "black", 0 }, { "white", RED | GREEN | BLUE }, { "red", RED }, { "green", GREEN }, { "blue", BLUE },
        { "cyan", GREEN | BLUE }, { "magenta", RED | BLUE }, { "yellow", RED | GREEN },
    };
    printf("\n%-10s%12s%21s%21s%12s\n", "patch", "codes", "by the matrix", "by the numbers", "apart");
    printf("%-8s%5s%5s%5s %6s%5s%5s %6s%5s%5s %6s%5s%5s\n", "", "A", "B", "C", "A", "B", "C", "A", "B", "C", "A", "B", "C");
    for (size_t p = 0; p < sizeof patches / sizeof patches[0]; p++) {
        int lit = patches[p].lit;
        uint32_t in[3] = { lit & RED ? HIGHEST_CODE : 0, lit & GREEN ? HIGHEST_CODE : 0, lit & BLUE ? HIGHEST_CODE : 0 };
        struct station_pixel out = station_preview(matrix, STATION_MATRIX, in[0], in[1], in[2]);
        int by[3] = { (int)out.a, (int)out.b, (int)out.c }, want[3], apart = 0;
        for (size_t row = 0; row < 3; row++) {
            want[row] = code_of(numbers + 4 * row, in);
            apart |= by[row] != want[row];
        }
        printf("%-8s%5u%5u%5u %6d%5d%5d %6d%5d%5d", patches[p].name, (unsigned)in[0], (unsigned)in[1], (unsigned)in[2], by[0], by[1], by[2], want[0],
               want[1], want[2]);
        if (apart) printf(" %6d%5d%5d", by[0] - want[0], by[1] - want[1], by[2] - want[2]);
        printf("\n");
    }
}

/* How many fields of factors are not 0. */
static int factors_in(const uint8_t *matrix) {
    int factors = 0;
    for (size_t n = 0; n < STATION_METER; n++) factors += !is_offset(n) && field_of(matrix, n) != 0;
    return factors;
}

/* Would raw floats make a matrix, with the high byte of each first? */
static void tell_turned(FILE *to, const uint8_t *bytes) {
    float numbers[STATION_METER];
    uint8_t matrix[STATION_MATRIX];
    numbers_of_raw(bytes, RAW, 1, numbers);
    if (station_meter(numbers, STATION_METER, matrix, sizeof matrix).refusal == 0 && factors_in(matrix) > 0)
        fprintf(to, "With the high byte of each float first there is a matrix, in mode %u: has the\nexport that order? It is read with the low byte first.\n",
                matrix[0]);
}

static void tell_raw(FILE *to) { fprintf(to, "Read as raw: twelve floats, the low byte of each first. --text reads text.\n"); }

/* With --words the words end in another command, which would go on without a matrix: where there are none, this stops it. */
static int no_words = 1;
static void tell_no_words(void) {
    if (no_words) printf("matrix refused\n");
}

int main(int count, char **words) {
    static uint8_t bytes[MOST];
    float numbers[STATION_METER];
    uint8_t matrix[STATION_MATRIX] = { 0 };
    int files = 0, raw = 0, text = 0, alone = 0;
    struct option options[] = { { "--raw", NULL, &raw, 0, 0 }, { "--text", NULL, &text, 0, 0 }, { "--words", NULL, &alone, 0, 0 } };
    words_of_command(count, words, help, options, sizeof options / sizeof options[0], take_name, &files);
    if (alone) atexit(tell_no_words);
    if (raw && text) misuse("--raw and --text exclude each other");
    size_t length = read_file(bytes);
    if (!text && !raw) raw = length == RAW && !is_text(bytes, length);
    if (raw) numbers_of_raw(bytes, length, 0, numbers);
    else numbers_of_text(bytes, length, numbers);

    struct station_count c = station_meter(numbers, STATION_METER, matrix, sizeof matrix);
    FILE *to = alone ? stderr : stdout;
    if (!is_asked_for(numbers, c, matrix)) {
        fprintf(stderr, "%s: WHAT THE LIBRARY ANSWERS IS NOT WHAT THESE NUMBERS ASK FOR: TRUST NEITHER\n", program);
        return DIFFERS;
    }
    if (c.refusal) {
        explain_refused(to, numbers, c.refusal);
        if (raw) tell_raw(to);
        if (raw) tell_turned(to, bytes);
        return printed(REFUSED);
    }
    print_words(matrix);
    no_words = 0;
    if (!alone) {
        print_bytes(matrix);
        if (raw) tell_raw(to);
        print_mode(numbers, matrix[0]);
        print_fields(numbers, matrix);
        print_patches(numbers, matrix);
    }
    if (factors_in(matrix) == 0) {
        fprintf(to, "%sThe field of every factor is 0: whatever the camera sees, the picture is one\ncolour.\n", alone ? "" : "\n");
        if (raw) tell_turned(to, bytes);
    }
    return printed(ACCEPTED);
}
