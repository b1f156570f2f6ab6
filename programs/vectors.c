/* Runs the tables of the programming guide (guide.h) through the library, and compares: each number agrees, or differs by a misprint that
 * is named, or is unexplained. It takes no argument; the status is 1 where anything is unexplained. What it prints is compared with
 * vectors.out. */
#include "clocks.h"
#include "fields.h"
#include "guide.h"
#include "words.h"
#include <string.h>

const char *program = "vectors";

#define COUNT(array) (sizeof(array) / sizeof(array)[0])

enum verdict { AGREES, NAMED, UNEXPLAINED, VERDICTS };
struct tally { unsigned of[VERDICTS]; };

static void show(const struct tally *t) {
    printf("%u agree, %u named, %u unexplained\n", t->of[AGREES], t->of[NAMED], t->of[UNEXPLAINED]);
}

/* ---- Tables 80 to 82 against N and CTS of the library. */

/* The misprint of this row and rate that has what the library answers, or NULL. */
static const struct misprint *named(size_t row, size_t rate, struct station_pair p) {
    for (const struct misprint *m = misprints; m < misprints + COUNT(misprints); m++)
        if (m->row == row && m->rate == rate && m->refusal == p.refusal && m->n == p.n && m->cts == p.cts) return m;
    return NULL;
}

static enum verdict verdict_of(const struct row *r, size_t rate, struct station_pair p, const struct misprint *m) {
    if (p.refusal == 0 && p.n == r->pairs[rate].n && p.cts == r->pairs[rate].cts) return AGREES;
    return m ? NAMED : UNEXPLAINED;
}

/* A mode that has a row's clock, at the seven rates: the tally, then a line for each rate at which print and answer differ. */
static void run_mode(const struct row *r, const struct at_clock *m, struct tally *all) {
    struct tally t = { { 0 } };
    struct station_pair answers[RATES];
    const struct misprint *is[RATES];
    for (size_t k = 0; k < RATES; k++) {
        answers[k] = ask(m->vic, m->family, m->depth, m->repetition, (int)k, r->coherent);
        is[k] = named((size_t)(r - rows), k, answers[k]);
        t.of[verdict_of(r, k, answers[k], is[k])]++;
    }
    printf("%s, VIC %u, family %u", r->clock, m->vic, m->family);
    if (m->depth) printf(", %s", word_of_value("depth", m->depth));
    if (m->repetition) printf(", %s", word_of_value("repetition", m->repetition));
    printf(": ");
    show(&t);
    for (int v = 0; v < VERDICTS; v++) all->of[v] += t.of[v];
    for (size_t k = 0; k < RATES; k++) {
        enum verdict v = verdict_of(r, k, answers[k], is[k]);
        if (v == AGREES) continue;
        printf("  %s kHz: printed %u %u%s, answered ", rates[k], (unsigned)r->pairs[k].n, (unsigned)r->pairs[k].cts,
               is[k] ? is[k]->also : "");
        if (answers[k].refusal) printf("refusal %u", (unsigned)answers[k].refusal);
        else printf("%u %u", (unsigned)answers[k].n, (unsigned)answers[k].cts);
        if (v == NAMED) printf(": named%s %s\n", answers[k].refusal ? "," : "", is[k]->why);
        else printf(": UNEXPLAINED\n");
    }
}

static struct tally run_rows(void) {
    struct tally all = { { 0 } };
    printf("Tables 80 to 82: N and CTS as printed, and as the library answers\n");
    for (const struct row *r = rows; r < rows + COUNT(rows); r++)
        for (size_t m = 0; m < COUNT(r->modes); m++)
            if (r->modes[m].vic) run_mode(r, &r->modes[m], &all);
    printf("N and CTS: ");
    show(&all);
    return all;
}

/* ---- Tables 39 to 64 against the preview of the library. */

/* A table agrees where each code is within one step of an 8-bit code of the expected one. A refusal is farther off than any. */
enum { STEP = 16, FARTHEST = 4096 };

static uint32_t apart(uint32_t x, uint32_t y) { return x < y ? y - x : x - y; }
static uint32_t larger(uint32_t x, uint32_t y) { return x < y ? y : x; }

/* Black, white and grey through a table's matrix, a line each: the farthest that a code is off. */
static uint32_t run(const struct table *t, int again) {
    uint8_t body[1 + 2 * COEFFICIENTS_OF_A_TABLE];
    uint32_t farthest = 0;
    body_of(t, again, body);
    for (int l = 0; l < LEVELS; l++) {
        const uint32_t *in = spaces[t->from].code[l], *want = spaces[t->to].code[l];
        struct station_pixel p = station_preview(body, sizeof body, in[0], in[1], in[2]);
        uint32_t off = larger(apart(p.a, want[0]), larger(apart(p.b, want[1]), apart(p.c, want[2])));
        printf("  %-5s %u %u %u gives ", levels[l], (unsigned)in[0], (unsigned)in[1], (unsigned)in[2]);
        if (p.refusal) printf("refusal %u", (unsigned)p.refusal);
        else printf("%u %u %u", (unsigned)p.a, (unsigned)p.b, (unsigned)p.c);
        printf(", expected %u %u %u", (unsigned)want[0], (unsigned)want[1], (unsigned)want[2]);
        if (!p.refusal) printf(", off by %u", (unsigned)off);
        printf("\n");
        farthest = larger(farthest, p.refusal ? FARTHEST : off);
    }
    return farthest;
}

/* As printed; where that does not agree, again with the table's named misprints corrected. */
static enum verdict run_table(const struct table *t) {
    printf("Table %u: %s to %s\n", t->number, spaces[t->from].name, spaces[t->to].name);
    if (run(t, 0) <= STEP) return AGREES;
    printf("  differs; again with");
    for (const struct correction *k = corrections; k < corrections + COUNT(corrections); k++)
        if (k->table == t->number) printf(" %c%u = %04x", "ABC"[k->pair / 4], k->pair % 4 + 1u, k->value);
    printf(":\n");
    if (run(t, 1) <= STEP) return NAMED;
    printf("  UNEXPLAINED\n");
    return UNEXPLAINED;
}

static struct tally run_tables(void) {
    struct tally all = { { 0 } };
    printf("Tables 39 to 64: black, white and grey in 12-bit codes (A B C) through each matrix as printed.\n"
           "Limited range is 16 to 235 times 16. Full range is 0 to 255 times 16: Tables 48 and 50 to 54\n"
           "scale to that, and 40, 42, 44, 46, 57, 59, 61 and 63 to 0 to 4095. A table agrees where each\n"
           "code is within 16, one step of an 8-bit code, of the expected one.\n"
           "Named: 40, 42, 57 and 59 print mode 3, which is refused, and are run again with mode 2;\n"
           "48 (B4, C4) and 50 (A4, C4) print wrong offsets, and are run again with ones that fit.\n"
           "Table 55 is not run: its first row has lost cells in our copy. Table 64 is the identity too.\n");
    for (const struct table *t = tables; t < tables + COUNT(tables); t++) all.of[run_table(t)]++;
    printf("Matrices: ");
    show(&all);
    return all;
}

/* ---- Tables 32 and 35 against the registers that the library writes. */

static const struct sync_row *row_of_format(const char *format) {
    const struct sync_row *s = sync_rows;
    while (strcmp(s->format, format)) s++;
    return s;
}

/* Named are the two rows that have each other's registers. */
static enum verdict verdict_of_syncs(const struct sync_row *s, const uint8_t left[SYNC_REGISTERS]) {
    if (!memcmp(left, s->registers, SYNC_REGISTERS)) return AGREES;
    for (size_t k = 0; k < COUNT(exchanged); k++) {
        const struct sync_row *other = row_of_format(exchanged[COUNT(exchanged) - 1 - k]);
        if (!strcmp(s->format, exchanged[k]) && !memcmp(left, other->registers, SYNC_REGISTERS)) return NAMED;
    }
    return UNEXPLAINED;
}

static void print_bytes(const uint8_t *bytes, size_t count) {
    for (size_t k = 0; k < count; k++) printf(" %02x", bytes[k]);
}

static struct tally run_all_syncs(void) {
    struct tally all = { { 0 } };
    printf("Tables 32 and 35: embedded syncs, 0x30 to 0x34 as printed, and as the library writes Table 32's values\n");
    for (const struct sync_row *s = sync_rows; s < sync_rows + COUNT(sync_rows); s++) {
        uint8_t left[SYNC_REGISTERS];
        registers_of_syncs(s->values, left);
        enum verdict v = verdict_of_syncs(s, left);
        all.of[v]++;
        printf("%s, %u %u %u %u:", s->format, s->values[0], s->values[1], s->values[2], s->values[3]);
        print_bytes(left, sizeof left);
        if (v == AGREES) printf("\n");
        else {
            printf(", printed");
            print_bytes(s->registers, sizeof s->registers);
            printf(v == NAMED ? ": named, the two rows of 720p are exchanged\n" : ": UNEXPLAINED\n");
        }
    }
    printf("Syncs: ");
    show(&all);
    return all;
}

int main(void) {
    struct tally pairs = run_rows(), matrices = run_tables(), syncs = run_all_syncs();
    return pairs.of[UNEXPLAINED] || matrices.of[UNEXPLAINED] || syncs.of[UNEXPLAINED];
}
