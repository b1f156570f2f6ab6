/* tests: `tests lib` compares the library with the model; `tests self` the model with itself, which tries the harness; `tests wrong` runs
 * every wrong library of tests/wrong and says how many were caught, after fourteen right ones (the model, the two plain ones of bench/, and
 * the planner of wrong/fewer.c, the machine of wrong/mark.c, the judge of wrong/vet.c, the libraries of wrong/chain.c, wrong/depth.c,
 * wrong/edition.c, wrong/sound.c and wrong/wiring.c, the matrices of wrong/meter.c, the pipe of wrong/pipe.c and the choices of wrong/edid.c
 * without a fault).
 * `tests facts` is what station.h says of sizes, alignment, threads and stack. Each ends with 'N passed, M failed'. `tests line` and
 * `tests verdict` print what the programs `desk` and `vet` should print, `tests input` writes inputs for `vet`. */
#include "../bench/plain.h"
#include "facts.h"
#include "harness.h"
#include "lists.h"
#include "wrong/wrong.h"
#include <stdio.h>
#include <stdlib.h>
#include <string.h>

static const struct face model = { model_plan, model_decode, model_ncts,    model_write, model_vsync, model_sent,
                                   model_mute, model_matrix, model_preview, model_class, model_vet,
                                   model_meter, model_pipe_take, model_pipe_end, model_edid, model_choose };
static const struct face library = { station_plan, station_decode, station_ncts,    station_write, station_vsync, station_sent,
                                     station_mute, station_matrix, station_preview, station_class, station_vet,
                                     station_meter, station_pipe_take, station_pipe_end, station_edid, station_choose };

static int compared(const char *what, const struct face *f, unsigned share) {
    struct section s[SECTIONS];
    uint64_t cases = 0;
    int failed = 0;
    printf("%s against the model\n", what);
    harness(f, ALL, SECTIONS, share, 0, 1, s);
    for (int i = 0; i < SECTIONS; i++) {
        cases += s[i].cases;
        failed += s[i].failed != 0;
    }
    printf("  %llu cases in %d sections\n", (unsigned long long)cases, SECTIONS);
    printf("%d passed, %d failed\n", SECTIONS - failed, failed);
    return failed != 0;
}

/* The same run, with fewer cases, on the model itself and on each wrong library. */
enum { SHARE = 20, CONTROL = 3 * SHARE };

static void put_plain(struct face *f) { f->plan = plain_plan, f->decode = plain_decode, f->vet = plain_vet, f->meter = plain_meter; }
static void put_rule(struct face *f) { f->plan = rule_plan, f->decode = rule_decode, f->vet = rule_vet; }
static void put_nothing(struct face *f) { (void)f; }
static const struct { const char *what; void (*put)(struct face *); unsigned share; int first, end; } right[] = {
    { "the right one", put_nothing, SHARE, ALL, SECTIONS },
    { "the plain planner, decoder, vet and meter of bench/", put_plain, CONTROL, ALL, SECTIONS },
    { "the same, N and CTS by the rule", put_rule, CONTROL, ALL, SECTIONS },
    { "the planner of wrong/fewer.c without a fault", put_right_planner, CONTROL, ALL, SECTIONS },
    { "the machine of wrong/mark.c without a fault", put_right_machine, CONTROL, ALL, SECTIONS },
    { "the judge of wrong/vet.c without a fault", put_right_judge, CONTROL, ALL, SECTIONS },
    { "the library of wrong/chain.c without a fault", put_right_library, CONTROL, ALL, SECTIONS },
    { "the library of wrong/depth.c without a fault", put_right_depths, CONTROL, ALL, SECTIONS },
    { "the library of wrong/edition.c without a fault", put_right_editions, CONTROL, ALL, SECTIONS },
    { "the library of wrong/sound.c without a fault", put_right_sounds, CONTROL, ALL, SECTIONS },
    { "the library of wrong/wiring.c without a fault", put_right_wirings, CONTROL, ALL, SECTIONS },
    { "the matrices of wrong/meter.c without a fault", put_right_meter, CONTROL, ON_METER, ON_PIPES },
    { "the pipe of wrong/pipe.c without a fault", put_right_pipe, CONTROL, ON_PIPES, ON_EDID },
    { "the choices of wrong/edid.c without a fault", put_right_screens, CONTROL, ON_EDID, ON_LISTS },
};
enum { RIGHT = sizeof right / sizeof right[0] };

/* One wrong library on some sections: does a difference show? */
static int shown(const struct wrong *w, int first, int end, unsigned share) {
    struct section s[SECTIONS];
    struct face f = model;
    w->put(&f);
    return harness(&f, first, end, share, 1, 0, s) != 0;
}
/* A call that does not end is one difference, of its section alone: those after it are run in full. */
static struct station_masks never_ends(uint8_t address) {
    static volatile int end;
    while (address == 0xFF && !end) continue;
    return model_class(address);
}
static int ended_alone(void) {
    struct section whole[SECTIONS], s[SECTIONS];
    struct face f = model;
    int alone = harness(&f, ALL, ON_DEPTHS, SHARE, 0, 0, whole) == 0;
    f.class_of = never_ends;
    alone &= harness(&f, ALL, ON_DEPTHS, SHARE, 0, 0, s) == 1 && s[ALL].failed == 1 && s[ALL].cases < whole[ALL].cases;
    for (int i = ALL + 1; i < ON_DEPTHS; i++) alone &= s[i].cases == whole[i].cases;
    return alone;
}
static void say(int caught, const char *what) { printf("  %-6s %-48.48s %.100s\n", caught ? "caught" : "MISSED", what, first_difference); }

/* Of each `of` libraries, right ones and wrong ones, number `part`: so several processors may share them. */
static int caught(int part, int of) {
    struct section s[SECTIONS];
    int all = 0, missed = 0, cuts = 0, chains = 0, only = 0, parts = 0, rest = 0, hand = 0, control = 0, tried = 0, next = 0;
    printf("wrong libraries, each with one fault\n");
    for (int i = 0; i < RIGHT; i++) {
        struct face f = model;
        if (next++ % of != part) continue;
        tried++;
        right[i].put(&f);
        int bad = harness(&f, right[i].first, right[i].end, right[i].share, 1, 0, s);
        control += bad != 0;
        printf("  %s: %s\n", right[i].what, bad ? first_difference : "no difference");
    }
    if (next++ % of == part) {
        int alone = ended_alone();
        tried++;
        control += !alone;
        printf("  a call that does not end: %s\n", alone ? "its section is ended, and the next ones are whole" : "NOT its section alone");
    }
    for (const struct wrong_set *set = wrong_sets; set->rows; set++)
        for (const struct wrong *w = set->rows; w->fault; w++) {
            if (next++ % of != part) continue;
            all++;
            int by_chains = (w->alone & BY_CHAINS) != 0;    /* these by themselves, with more of them, for what they need is rare */
            int by_hand = (w->alone & BY_HAND) != 0;        /* these by their first section alone, in which nothing is by chance */
            int bad = by_chains ? shown(w, ON_CHAINS, SECTIONS, 10 * SHARE) : shown(w, set->first, by_hand ? set->first + 1 : SECTIONS, SHARE);
            say(bad, w->fault);
            chains += bad && by_chains;
            hand += bad && by_hand;
            if (bad && (w->alone & BY_CUTS)) {          /* demand 3 must show it too, without the model's list */
                bad = shown(w, ON_CUTS, ON_CHAINS, SHARE);
                cuts += bad;
                say(bad, "  the same, by demand 3 alone");
            }
            if (bad && (w->alone & NOT_BY_CUTS)) {      /* which a run of one request, planned again, does not show */
                bad = !shown(w, ON_CUTS, ON_CHAINS, 10 * SHARE);
                only += bad;
                if (!bad) say(bad, "  the same, which demand 3 should not show");
            }
            if (bad && (w->alone & BY_PARTS)) {         /* which requests cut into parts must show without the model */
                bad = shown(w, ON_PARTS, ON_EDID, SHARE);
                parts += bad;
                if (!bad) say(bad, "  the same, by cut requests alone");
            }
            if (bad && (w->alone & BY_REST)) {          /* and which any bytes in the other registers must */
                bad = shown(w, ON_LOOKED, ON_LOOKED + 1, SHARE);
                rest += bad;
                if (!bad) say(bad, "  the same, by what is looked at alone");
            }
            missed += bad == 0;
            fflush(stdout);
        }
    printf("  %d of %d wrong libraries caught, %d of them by demand 3 alone as well, %d by chains alone, %d of these not by demand 3, "
           "%d by cut requests alone, %d by what is looked at alone, %d by hand alone\n", all - missed, all, cuts, chains, only, parts, rest, hand);
    printf("%d passed, %d failed\n", all - missed + tried - control, missed + control);
    return missed != 0 || control != 0;
}

static uint8_t input[1 << 23];
static size_t whole_input(void) { return fread(input, 1, sizeof input, stdin); }

/* The line that the program `desk` prints for the standard input, by the model. */
static int line(void) {
    size_t length = whole_input();
    struct station_pair p = model_ncts(input, length);
    struct fields f;
    uint8_t avi[AVI_BYTES], audio[AUDIO_BYTES];
    if (p.refusal) return printf("refused %u\n", (unsigned)p.refusal) < 0;
    model_read(input, length, &f);
    model_avi(&f, avi);
    model_audio(&f, audio);
    return printf("accepted vic %u n %u cts %u avi %02x audio %02x\n", (unsigned)f.vic, (unsigned)p.n, (unsigned)p.cts, avi[2],
                  audio[2]) < 0;
}

/* The line of the program `vet`: registers, packet buffer, coefficient buffer, mark, list. A part that the input ends in, or before, is
 * short. */
static int verdict(void) {
    static const size_t bytes[4] = { IMAGE_BYTES, PACKET_BYTES, COEFFICIENT_BYTES, MARK_BYTES };
    const uint8_t *part[5];
    size_t left = whole_input(), length[5], from = 0;
    struct station_verdict v = { 7, 0 };
    for (int i = 0; i < 5; i++) {
        part[i] = input + from;
        length[i] = i < 4 && left > bytes[i] ? bytes[i] : left;
        from += length[i], left -= length[i];
    }
    if (length[3] == MARK_BYTES)
        v = model_vet(part[0], length[0], part[1], length[1], part[2], length[2], *part[3], part[4], length[4]);
    if (v.refusal == 0) return printf("accepted\n") < 0;
    if (v.refusal == 15) return printf("refused 15 at %u\n", (unsigned)v.place) < 0;
    return printf("refused %u\n", (unsigned)v.refusal) < 0;
}

static int usage(void) {
    fprintf(stderr, "usage: tests lib|self [SHARE OF THE RANDOM CASES IN 1/1000]\n       tests wrong [PART OF PARTS, FROM 0]\n       tests facts\n"
                    "       tests line <REQUEST\n       tests verdict <REGISTERS, BUFFERS, MARK AND LIST\n"
                    "       tests input noise|pairs|vendor|waits NUMBER\n");
    return 2;
}

/* On a finished image: two bytes of a coefficient without a hold, the second as it was. It passes in a wait alone. */
static void list_for_a_wait(struct chip *c, struct pairs *l, uint8_t mark) {
    static const uint8_t pairs[] = { 0x4B, 0x40, 0x19, 0x01, 0x19, 0x00, 0x4B, 0x80 };
    *c = (struct chip){ .mark = mark };
    finish(c->image, &example);
    l->length = sizeof pairs;
    memcpy(l->bytes, pairs, sizeof pairs);
}

/* Inputs for it, to the standard output: so many bytes of noise; a passing list of ours, stretched to so many pairs; the list of a vendor
 * that has this number; the list for a wait, with this mark. Each has its own seed. */
static int make_input(const char *what, uint32_t n) {
    static struct pairs l;
    struct chip c;
    struct fields f;
    seed(0x1300000u + n);
    if (!strcmp(what, "noise")) {
        size_t length = n < sizeof input ? n : sizeof input;
        any_bytes(input, length);
        return fwrite(input, 1, length, stdout) != length;
    }
    if (!strcmp(what, "pairs")) {
        accepted_fields(&f);
        any_state(&c);
        our_list(&c, &f, &l);
        stretch(&c, &l, n < 2 * MOST_PAIRS ? n : 2 * MOST_PAIRS);
    } else if (!strcmp(what, "vendor")) any_vendors(&c, &l);
    else if (!strcmp(what, "waits")) list_for_a_wait(&c, &l, (uint8_t)n);
    else return usage();
    fwrite(c.image, 1, IMAGE_BYTES, stdout);
    fwrite(c.packet, 1, PACKET_BYTES, stdout);
    fwrite(c.coefficients, 1, COEFFICIENT_BYTES, stdout);
    fwrite(&c.mark, 1, MARK_BYTES, stdout);
    return fwrite(l.bytes, 1, l.length, stdout) != l.length;
}

int main(int count, char **words) {
    unsigned share = count == 3 ? (unsigned)strtoul(words[2], NULL, 10) : 1000;
    if (count >= 2 && !strcmp(words[1], "lib")) return compared("the library", &library, share);
    if (count >= 2 && !strcmp(words[1], "self")) return compared("the model", &model, share);
    if (count == 2 && !strcmp(words[1], "wrong")) return caught(0, 1);
    if (count == 4 && !strcmp(words[1], "wrong")) {
        long part = strtol(words[2], NULL, 10), of = strtol(words[3], NULL, 10);
        if (0 <= part && part < of && of < 1000) return caught((int)part, (int)of);
    }
    if (count == 2 && !strcmp(words[1], "facts")) return facts();
    if (count == 2 && !strcmp(words[1], "line")) return line();
    if (count == 2 && !strcmp(words[1], "verdict")) return verdict();
    if (count == 4 && !strcmp(words[1], "input")) return make_input(words[2], (uint32_t)strtoul(words[3], NULL, 10));
    return usage();
}
