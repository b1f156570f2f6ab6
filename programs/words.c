#include "words.h"
#include <errno.h>
#include <stdarg.h>
#include <stdio.h>
#include <stdlib.h>
#include <string.h>
#include <strings.h>

/* One line, whatever a stranger's word has in it. */
void misuse(const char *format, ...) {
    char text[400];
    va_list list;
    va_start(list, format);
    vsnprintf(text, sizeof text, format, list);
    va_end(list);
    for (char *at = text; *at; at++)
        if (*at < ' ' || *at > '~') *at = '?';
    /* An installed tool has a name of its own. */
    const char *name = strncmp(program_invocation_short_name, "station-", 8) ? program : program_invocation_short_name;
    fprintf(stderr, "%s: %s (%s --help)\n", name, text, name);
    exit(MISUSE);
}

int printed(int status) {
    if (fflush(stdout) || ferror(stdout)) misuse("the output cannot be written");
    return status;
}

int hex_digit(int c) {
    static const char digits[] = "0123456789abcdef0123456789ABCDEF";
    const char *at = c ? strchr(digits, c) : NULL;
    return at ? (int)(at - digits) % 16 : -1;
}

size_t bytes_of_word(const char *word, uint8_t *bytes) {
    size_t count = 0;
    for (const char *at = word; *at; ) {
        if (*at == ' ') {
            at++;
            continue;
        }
        int high = hex_digit(at[0]), low = high < 0 ? -1 : hex_digit(at[1]);
        if (low < 0) misuse("'%.80s' is no byte: a byte is exactly two hex digits", word);
        bytes[count++] = (uint8_t)(16 * high + low);
        at += 2;
    }
    if (count == 0) misuse("a word with nothing in it");
    return count;
}

const char *shown(const char *word, char text[SHOWN]) {
    snprintf(text, SHOWN, strlen(word) < SHOWN - 3 ? "%s" : "%.40s..", word);
    return text;
}

long number_of_word(const char *word, const char *what, long least, long most) {
    const char *digits = word + (word[0] == '-');
    size_t length = strlen(digits);
    long number = length > 0 && length < 10 && strspn(digits, "0123456789") == length ? strtol(word, NULL, 10) : least - 1;
    if (number < least || number > most) misuse("'%.80s' is no %s: a whole number from %ld to %ld", word, what, least, most);
    return number;
}

/* Digits, a point among them or none, an exponent or none: strtof reads that too, and blanks and hex besides. And whether a digit before the
 * exponent is not 0. */
static int is_decimal(const char *at, int *is_not_0) {
    size_t whole = strspn(at, "0123456789"), point = at[whole] == '.', part = point ? strspn(at + whole + 1, "0123456789") : 0;
    *is_not_0 = strspn(at, "0.") < whole + point + part;
    if (whole + part == 0) return 0;
    at += whole + point + part;
    if (*at != 'e' && *at != 'E') return *at == 0;
    at += 1 + (at[1] == '+' || at[1] == '-');
    return *at && strspn(at, "0123456789") == strlen(at);
}

const char *float_of_word(const char *word, float *number) {
    static const char *const not_finite[] = { "nan", "inf", "infinity" };
    const char *at = word + (word[0] == '+' || word[0] == '-');
    int is_not_0;
    *number = strtof(word, NULL);
    for (size_t k = 0; k < sizeof not_finite / sizeof not_finite[0]; k++)
        if (!strcasecmp(at, not_finite[k])) return NULL;
    if (!is_decimal(at, &is_not_0))
        return strchr(at, ',') ? "is no number: blanks part two of them here, and the decimal point is a point"
             : strchr(at, '#') ? "is no number: a comment's # stands behind a blank" : "is no number";
    if (*number - *number != 0) return "is beyond the largest float, 3.40282347e+38";
    return *number == 0 && is_not_0 ? "is not 0, and of the floats 0 is the nearest: write 0 where that is meant" : NULL;
}

void bytes_of_file(const char *name, uint8_t *bytes, size_t length) {
    uint8_t more;
    FILE *f = fopen(name, "rb");
    if (!f) misuse("%s cannot be opened", name);
    size_t got = fread(bytes, 1, length, f);
    int longer = got == length && fread(&more, 1, 1, f) == 1;
    if (ferror(f)) misuse("%s cannot be read", name);
    const char *of_dump = length == 256 ? ": tools/image makes them of a dump" : "";
    if (got < length) misuse("%s has %u bytes, and not %u%s", name, (unsigned)got, (unsigned)length, of_dump);
    if (longer) misuse("%s has more than %u bytes%s", name, (unsigned)length, of_dump);
    fclose(f);
}

void take_file(const char *word, struct option *o) { bytes_of_file(word, o->into, o->length); }

void take_number(const char *word, struct option *o) { *(long *)o->into = number_of_word(word, o->name + 2, 0, (long)o->length); }

void words_of_command(int count, char **words, const char *help, struct option *options, size_t number,
                      void (*other)(const char *word, void *into), void *into) {
    for (int i = 1; i < count; i++)
        if (!strcmp(words[i], "--help")) {
            printf("%s", help);
            exit(printed(ACCEPTED));
        }
    for (int i = 1; i < count; i++) {
        size_t o = 0;
        if (words[i][0] != '-' || !words[i][1]) {
            other(words[i], into);
            continue;
        }
        while (o < number && strcmp(words[i], options[o].name)) o++;
        if (o == number) misuse("%.80s is no option", words[i]);
        if (options[o].given++) misuse("%s is given twice", words[i]);
        if (!options[o].take) *(int *)options[o].into = 1;
        else if (++i == count) misuse("%s has nothing after it", options[o].name);
        else options[o].take(words[i], &options[o]);
    }
}

struct bytes { uint8_t *at; size_t length; };
static void more_bytes(const char *word, void *into) {
    struct bytes *b = into;
    b->length += bytes_of_word(word, b->at + b->length);
}

uint8_t *request_of_command(int count, char **words, const char *help, struct option *options, size_t number, size_t *length) {
    size_t letters = 1;
    for (int i = 1; i < count; i++) letters += strlen(words[i]);
    struct bytes b = { malloc(letters), 0 };
    if (!b.at) misuse("no memory");
    words_of_command(count, words, help, options, number, more_bytes, &b);
    *length = b.length;
    return b.at;
}
