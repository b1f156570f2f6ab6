#include "check.h"
#include "lent.h"
#include <setjmp.h>
#include <signal.h>
#include <stdarg.h>
#include <stdio.h>
#include <string.h>
#include <sys/time.h>

char first_difference[160];

struct running run;

/* A call that touches a page it was not lent, or does not end, is a difference too. It has three seconds of processor time, for a loaded
 * machine is no fault of the call, and five minutes in all, should it sleep. */
enum { SECONDS = 3, MINUTES = 5 };
static sigjmp_buf out;
static volatile struct watch { uint64_t seen; int still; } busy, asleep;
static volatile sig_atomic_t why;

void differs(const char *text, ...) {
    char line[160];
    va_list list;
    va_start(list, text);
    vsnprintf(line, sizeof line, text, list);
    va_end(list);
    if (run.now->failed++ == 0) snprintf(first_difference, sizeof first_difference, "%.30s: %.120s", run.now->name, line);
    if (run.loud && run.now->failed <= 5)
        printf("    difference in %s, case %llu: %s\n", run.now->name, (unsigned long long)run.now->cases, line);
    if (run.stop) {
        why = 1;
        siglongjmp(out, 1);
    }
}

static void on_fault(int number) {
    (void)number;
    why = 2;
    siglongjmp(out, 1);
}

static void ticked(volatile struct watch *w, int most) {
    if (!run.now || run.now->cases != w->seen) {
        w->still = 0;
        w->seen = run.now ? run.now->cases : 0;
    } else if (++w->still >= most) {
        why = 3;
        siglongjmp(out, 1);
    }
}
static void on_tick(int number) {
    if (number == SIGPROF) ticked(&busy, SECONDS);
    else ticked(&asleep, MINUTES);
}

uint32_t times(uint32_t n) { return (uint32_t)((uint64_t)n * run.share / 1000) + 1; }

int passed_over(uint32_t of) { return run.share < 1000 && any(of) != 0; }

static int side(void) { return any(4) ? ENDS : BEGINS; }

/* Comparisons, one for each call: lend, call both, compare the answer and every lent byte. ------------------------------------------ */

static uint8_t expected[ROOM];

/* The number of writes by document 02's own sentence, of a request that is accepted. */
static uint32_t counted(const uint8_t *request, size_t length, const uint8_t *image) {
    uint8_t wanted[256];
    struct fields f;
    model_read(request, length, &f);
    model_wanted(&f, model_pair(&f), wanted);
    return model_short_count(wanted, image);
}

void check_plan(const uint8_t *request, size_t rl, const uint8_t *image, size_t il, const uint8_t *writes, size_t wl) {
    run.now->cases++;
    memcpy(expected, writes, wl);
    struct station_count want = model_plan(request, rl, image, il, expected, wl);
    struct station_count got = run.f->plan(lend(REQUEST, request, rl, side()), rl, lend(IMAGE, image, il, side()), il,
                                           lend(WRITES, writes, wl, side()), wl);
    if (got.refusal != want.refusal) differs("refusal %u, the model has %u", got.refusal, want.refusal);
    else if (got.count != want.count) differs("count %u, the model has %u", got.count, want.count);
    else if (!got.refusal && got.count != counted(request, rl, image)) differs("count %u, the registers give another", got.count);
    else if (!holds(WRITES, expected)) differs("the write buffer is another");
    else if (!holds(REQUEST, request) || !holds(IMAGE, image)) differs("an input was changed");
}

void check_ncts(const uint8_t *request, size_t rl) {
    run.now->cases++;
    struct station_pair want = model_ncts(request, rl), got = run.f->ncts(lend(REQUEST, request, rl, side()), rl);
    if (got.refusal != want.refusal || got.n != want.n || got.cts != want.cts)
        differs("%u, N %u, CTS %u, the model has %u, %u, %u", got.refusal, got.n, got.cts, want.refusal, want.n, want.cts);
    else if (!holds(REQUEST, request)) differs("the input was changed");
}

void check_decode(const uint8_t *image, size_t il, const uint8_t *buffer, size_t bl) {
    run.now->cases++;
    memcpy(expected, buffer, bl);
    struct station_count want = model_decode(image, il, expected, bl);
    struct station_count got = run.f->decode(lend(IMAGE, image, il, side()), il, lend(REQUEST, buffer, bl, side()), bl);
    if (got.refusal != want.refusal) differs("refusal %u, the model has %u", got.refusal, want.refusal);
    else if (got.count != want.count) differs("count %u, the model has %u", got.count, want.count);
    else if (!holds(REQUEST, expected)) differs("the request buffer is another");
    else if (!holds(IMAGE, image)) differs("the image was changed");
}

struct slices slices_of(const struct chip *c) {
    return (struct slices){ c->image, IMAGE_BYTES, c->packet, PACKET_BYTES, c->coefficients, COEFFICIENT_BYTES, &c->mark, MARK_BYTES };
}

/* The four slices, lent; and what the model leaves in them. */
struct lent { uint8_t *image, *packet, *coefficients, *mark; };
static uint8_t left[4][ROOM];

static struct lent lend_all(const struct slices *s) {
    return (struct lent){ lend(IMAGE, s->image, s->il, side()), lend(PACKET, s->packet, s->pl, side()),
                          lend(COEFFICIENTS, s->coefficients, s->cl, side()), lend(MARK, s->mark, s->ml, side()) };
}

static void leave_all(const struct slices *s) {
    memcpy(left[0], s->image, s->il);
    memcpy(left[1], s->packet, s->pl);
    memcpy(left[2], s->coefficients, s->cl);
    memcpy(left[3], s->mark, s->ml);
}

static void compare_all(const char *what, uint32_t got, uint32_t want) {
    static const struct { enum slot slot; const char *name; } four[4] = {
        { IMAGE, "image" }, { PACKET, "packet buffer" }, { COEFFICIENTS, "coefficient buffer" }, { MARK, "mark" },
    };
    if (got != want) differs("%s: refusal %u, the model has %u", what, got, want);
    for (int k = 0; k < 4 && got == want; k++)
        if (!holds(four[k].slot, left[k])) differs("%s: the %s is another", what, four[k].name);
}

void check_write(const struct slices *s, uint8_t address, uint8_t value) {
    static const char hex[] = "0123456789abcdef";
    char what[] = { hex[address >> 4], hex[address & 15], ' ', '=', ' ', hex[value >> 4], hex[value & 15], 0 };
    run.now->cases++;
    leave_all(s);
    uint32_t want = model_write(left[0], s->il, left[1], s->pl, left[2], s->cl, left[3], s->ml, address, value);
    struct lent l = lend_all(s);
    compare_all(what, run.f->write(l.image, s->il, l.packet, s->pl, l.coefficients, s->cl, l.mark, s->ml, address, value), want);
}

void check_vsync(const struct slices *s) {
    run.now->cases++;
    leave_all(s);
    uint32_t want = model_vsync(left[0], s->il, left[1], s->pl, left[2], s->cl, left[3], s->ml);
    struct lent l = lend_all(s);
    compare_all("Vsync", run.f->vsync(l.image, s->il, l.packet, s->pl, l.coefficients, s->cl, l.mark, s->ml), want);
}

static void check_sent(const uint8_t *image, size_t il, const uint8_t *packet, size_t pl, uint32_t which) {
    run.now->cases++;
    struct station_part want = model_sent(image, il, packet, pl, which);
    struct station_part got = run.f->sent(lend(IMAGE, image, il, side()), il, lend(PACKET, packet, pl, side()), pl, which);
    if (got.refusal != want.refusal || got.held != want.held || got.start != want.start || got.len != want.len)
        differs("packet %u: %u, held %u, %u +%u, the model has %u, %u, %u +%u", which, got.refusal, got.held, got.start, got.len,
                want.refusal, want.held, want.start, want.len);
    else if (!holds(IMAGE, image) || !holds(PACKET, packet)) differs("an input was changed");
}

static void check_mute(const uint8_t *image, size_t il, const uint8_t *packet, size_t pl) {
    run.now->cases++;
    struct station_state want = model_mute(image, il, packet, pl);
    struct station_state got = run.f->mute(lend(IMAGE, image, il, side()), il, lend(PACKET, packet, pl, side()), pl);
    if (got.refusal != want.refusal || got.mute != want.mute)
        differs("%u, mute %u, the model has %u, %u", got.refusal, got.mute, want.refusal, want.mute);
    else if (!holds(IMAGE, image) || !holds(PACKET, packet)) differs("an input was changed");
}

void check_matrix(const struct slices *s, const uint8_t *matrix, size_t ml) {
    run.now->cases++;
    memcpy(expected, matrix, ml);
    struct station_count want = model_matrix(s->image, s->il, s->coefficients, s->cl, *s->mark, expected, ml);
    struct station_count got = run.f->matrix(lend(IMAGE, s->image, s->il, side()), s->il,
                                             lend(COEFFICIENTS, s->coefficients, s->cl, side()), s->cl, *s->mark,
                                             lend(MATRIX, matrix, ml, side()), ml);
    if (got.refusal != want.refusal || got.count != want.count)
        differs("%u, count %u, the model has %u, %u", got.refusal, got.count, want.refusal, want.count);
    else if (!holds(MATRIX, expected)) differs("the matrix buffer is another");
    else if (!holds(IMAGE, s->image) || !holds(COEFFICIENTS, s->coefficients)) differs("an input was changed");
}

static void check_preview(const uint8_t *matrix, size_t ml, uint32_t a, uint32_t b, uint32_t c) {
    run.now->cases++;
    struct station_pixel want = model_preview(matrix, ml, a, b, c), got = run.f->preview(lend(MATRIX, matrix, ml, side()), ml, a, b, c);
    if (got.refusal != want.refusal || got.a != want.a || got.b != want.b || got.c != want.c)
        differs("%u: %u, %u, %u, the model has %u: %u, %u, %u", got.refusal, got.a, got.b, got.c, want.refusal, want.a, want.b, want.c);
    else if (!holds(MATRIX, matrix)) differs("the input was changed");
}

/* The numbers are the floats' bits. */
struct station_count check_meter(const uint32_t *numbers, size_t count, const uint8_t *matrix, size_t ml) {
    const uint8_t *bytes = (const uint8_t *)numbers;
    run.now->cases++;
    memcpy(expected, matrix, ml);
    struct station_count want = model_meter((const float *)(const void *)numbers, count, expected, ml);
    const float *lent = (const float *)(void *)lend(NUMBERS, bytes, 4 * count, side());
    struct station_count got = run.f->meter(lent, count, lend(MATRIX, matrix, ml, side()), ml);
    if (got.refusal != want.refusal || got.count != want.count)
        differs("%u, count %u, the model has %u, %u", got.refusal, got.count, want.refusal, want.count);
    else if (!holds(MATRIX, expected)) differs("the matrix buffer is another");
    else if (!holds(NUMBERS, bytes)) differs("the numbers were changed");
    return want;
}

/* The pipe is lent as it is; `after` gets what the model leaves of it, and may be the pipe itself. */
static void compare_pipe(const char *what, struct station_piped got, struct station_piped want) {
    if (got.refusal != want.refusal || got.answered != want.answered || got.count != want.count)
        differs("%s: %u, answered %u, count %u, the model has %u, %u, %u", what, got.refusal, got.answered, got.count, want.refusal,
                want.answered, want.count);
    else if (!holds(PIPE, expected)) differs("%s: the pipe is another", what);
}

struct station_piped check_take(const uint8_t *pipe, size_t pl, const uint8_t *part, size_t l, uint8_t *after) {
    run.now->cases++;
    memcpy(expected, pipe, pl);
    struct station_piped want = model_pipe_take(expected, pl, part, l);
    uint8_t *lent_pipe = lend(PIPE, pipe, pl, side()), *lent_part = lend(PART, part, l, side());
    compare_pipe("a part", run.f->pipe_take(lent_pipe, pl, lent_part, l), want);
    if (!holds(PART, part)) differs("the part was changed");
    memcpy(after, expected, pl);
    return want;
}

struct station_piped check_end(const uint8_t *pipe, size_t pl, uint8_t *after) {
    run.now->cases++;
    memcpy(expected, pipe, pl);
    struct station_piped want = model_pipe_end(expected, pl);
    uint8_t *lent_pipe = lend(PIPE, pipe, pl, side());
    compare_pipe("the end", run.f->pipe_end(lent_pipe, pl), want);
    memcpy(after, expected, pl);
    return want;
}

/* How often each verdict was met: by its number, 15 by the rule that is broken. */
enum { VERDICTS = 17 };
static uint32_t verdicts[VERDICTS], broken[RULES];

static void check_vet(const struct slices *s, const uint8_t *list, size_t ll) {
    run.now->cases++;
    struct station_verdict want = model_vet(s->image, s->il, s->packet, s->pl, s->coefficients, s->cl, *s->mark, list, ll);
    struct lent l = lend_all(s);
    struct station_verdict got = run.f->vet(l.image, s->il, l.packet, s->pl, l.coefficients, s->cl, *s->mark,
                                            lend(LIST, list, ll, side()), ll);
    verdicts[want.refusal]++;
    if (got.refusal != want.refusal || got.place != want.place)
        differs("%zu bytes: %u, place %u, the model has %u, place %u", ll, got.refusal, got.place, want.refusal, want.place);
    else if (!holds(IMAGE, s->image) || !holds(PACKET, s->packet) || !holds(COEFFICIENTS, s->coefficients) || !holds(LIST, list))
        differs("an input was changed");
}

/* On a state whose lengths are right: the library's verdict; and the comparison, with the rule that is broken, which answers the model's
 * number. */
static struct station_verdict vetted(const struct chip *c, const struct pairs *l) {
    return run.f->vet(c->image, 256, c->packet, PACKET_BYTES, c->coefficients, COEFFICIENT_BYTES, c->mark, l->bytes, l->length);
}

static uint32_t check_list(const struct chip *c, const struct pairs *l) {
    enum rule rule;
    struct slices s = slices_of(c);
    uint32_t refusal = model_judge(c, l->bytes, l->length, &rule).refusal;
    broken[rule] += refusal == 15;
    check_vet(&s, l->bytes, l->length);
    return refusal;
}

/* Sections. ------------------------------------------------------------------------------------------------------------------------- */

/* All 1,280 numbers, and the one rule of the table. */
static void classes(void) {
    for (int a = 0; a < 256; a++) {
        struct station_masks want = model_class((uint8_t)a), got = run.f->class_of((uint8_t)a);
        const uint32_t w[5] = { want.read_only, want.mandated, want.named, want.free_bits, want.value };
        const uint32_t g[5] = { got.read_only, got.mandated, got.named, got.free_bits, got.value };
        static const char *const names[5] = { "read-only", "mandated", "named", "free", "mandated bits" };
        for (int i = 0; i < 5; i++) {
            run.now->cases++;
            if (g[i] != w[i]) differs("%02x, %s: %02x, the model has %02x", a, names[i], g[i], w[i]);
        }
        if (g[0] + g[1] + g[2] + g[3] != 0xFF || (g[0] | g[1] | g[2] | g[3]) != 0xFF || (g[4] & ~g[1]))
            differs("%02x: the masks share a bit or do not cover", a);
    }
}

int left_in(uint8_t address, const uint8_t *image, const uint8_t *writes, struct station_count c) {
    int byte = image[address];
    for (uint32_t w = 0; w < c.count && w < 128; w++)
        if (writes[2 * w] == address) byte = writes[2 * w + 1];
    return byte;
}

/* "The same request, but for the frame-rate family, which no register names", and, by document 02, request 11, but for an E that asks for
 * nothing, which is D. */
struct fields read_back(const struct fields *f) {
    struct fields back = *f;
    back.family = 0;
    if (f->edition == 1 && f->quantisation == 0 && f->content == 0) back.edition = 0;
    return back;
}

int reads_back(const uint8_t *image, const struct fields *f) {
    const struct fields back = read_back(f);
    uint8_t asked[LONGEST], answered[LONGEST];
    size_t length = model_bytes(&back, asked);
    struct station_count d = run.f->decode(image, 256, answered, sizeof answered);
    return d.refusal == 0 && d.count == length && !memcmp(asked, answered, length);
}

/* Document 01's marked cases, as document 02 changes them: their own numbers, not the model's. */
static void marked_case(size_t number, const uint8_t *bytes, size_t length, uint32_t refusal, uint32_t n, uint32_t cts) {
    uint8_t image[256] = { 0 }, writes[256];
    run.now->cases++;
    struct station_pair p = run.f->ncts(bytes, length);
    struct station_count c = run.f->plan(bytes, length, image, 256, writes, 256);
    if (p.refusal != refusal || p.n != n || p.cts != cts) differs("case %zu, N and CTS", number);
    if (c.refusal != refusal) differs("case %zu, planning: %u", number, c.refusal);
}

static void marked(void) {
    static const struct { struct fields f; uint32_t refusal, n, cts; } cases[] = {      /* from 4 on */
        { { .vic = 19, .family = 1, .link = 1 }, 4, 0, 0 },
        { { .vic = 16, .encoding = 1, .link = 1 }, 6, 0, 0 },
        { { .vic = 16, .link = 1, .sound = 1, .rate = 2, .channels = 2, .coherent = 1 }, 0, 6144, 148500 },
        { { .vic = 60, .link = 1, .sound = 1, .rate = 1, .channels = 2, .coherent = 1 }, 0, 5488, 57750 },
        { { .vic = 60, .family = 1, .link = 1, .sound = 1, .rate = 0, .channels = 2, .coherent = 1 }, 0, 5824, 84375 },
        { { .vic = 4, .family = 1, .link = 1, .sound = 1, .rate = 0, .channels = 2, .coherent = 1 }, 9, 0, 0 },
    };
    uint8_t bytes[LONGEST + 1] = { 0 }, image[256] = { 0 }, writes[256], coefficients[24] = { 0 }, matrix[MATRIX_BYTES];
    size_t length = model_bytes(&(struct fields){ .vic = 16, .link = 1 }, bytes);
    marked_case(1, bytes, 2, 1, 0, 0);                      /* the first two counts alone */
    marked_case(3, bytes, length + 1, 3, 0, 0);             /* a byte more */
    bytes[1]++;
    marked_case(2, bytes, 2 + VIDEO_BYTES, 2, 0, 0);        /* the count of the video section one too large */
    for (size_t i = 0; i < sizeof cases / sizeof cases[0]; i++)
        marked_case(4 + i, bytes, model_bytes(&cases[i].f, bytes), cases[i].refusal, cases[i].n, cases[i].cts);
    /* 10 and 11: checksums, read off the list's bytes for 0x54 and 0x72. 10 is of limited range, the last row of full. */
    static const struct { struct fields f; uint8_t avi, audio; } sums[] = {
        { { .vic = 16, .link = 1, .sound = 1, .rate = 2, .channels = 8, .coherent = 1 }, 0x23, 0x57 },
        { { .vic = 16, .link = 1 }, 0x23, 0x71 },
        { { .vic = 16, .link = 1, .sound = 1, .rate = 2, .channels = 2, .coherent = 1 }, 0x23, 0x70 },
        { { .vic = 16, .link = 1, .range = 1, .sound = 1, .rate = 2, .channels = 2, .coherent = 1 }, 0x1F, 0x70 },
    };
    for (size_t i = 0; i < sizeof sums / sizeof sums[0]; i++) {
        run.now->cases++;
        struct station_count c = run.f->plan(bytes, model_bytes(&sums[i].f, bytes), image, 256, writes, 256);
        int avi = left_in(0x54, image, writes, c), audio = left_in(0x72, image, writes, c);
        if (avi != sums[i].avi) differs("case 10: AVI checksum %02x", avi);
        if (audio != sums[i].audio) differs("case 11: audio checksum %02x", audio);
    }
    /* 12: -1578 and -1 as the chip has them in 13 bits. */
    run.now->cases++;
    image[0x1E] = 0x19, image[0x1F] = 0xD6, image[0x28] = 0x1F, image[0x29] = 0xFF;
    struct station_count m = run.f->matrix(image, 256, coefficients, 24, 0, matrix, sizeof matrix);
    if (m.refusal != 0 || model_coefficient(matrix + 7) != -1578 || model_coefficient(matrix + 17) != -1) differs("case 12");
    run.now->cases++;
    struct station_pixel p = run.f->preview(table_39, sizeof table_39, 2048, 3760, 2048);
    if (p.refusal != 0 || p.a != 3759 || p.b != 3760 || p.c != 3760) differs("case 13: %u, %u, %u", p.a, p.b, p.c);
}

/* Whether a kind of request is tried: all of them where there are few, and else about so many of them, by chance. Every value of every
 * field comes among them, and both editions with all that they may ask for; `met` and `met_editions` count. */
enum { FREE_COMBINATIONS = 40000 };
static const char *const editions_asked[] = { "D", "E that asks for nothing", "E with quantisation", "E with a type", "E with both" };
enum { EDITIONS_ASKED = sizeof editions_asked / sizeof editions_asked[0] };
static uint32_t met[FIELDS][VALUES], met_editions[EDITIONS_ASKED];

static int is_kind(uint32_t number, struct fields *f) {
    seed(0x100000u + number);
    return kind_of_request(number, f);
}

int tries_kind(uint32_t number, uint32_t tried, struct fields *f) {
    static uint32_t all, chance[MOST_KINDS];                /* drawn once, for each run draws the same */
    if (!all) {
        uint32_t count = 0;
        for (uint32_t n = 0; n < kinds(); n++) count += (uint32_t)is_kind(n, f);
        for (uint32_t n = 0; n < kinds(); n++) chance[n] = is_kind(n, f) ? any(count) : UINT32_MAX;
        all = count;                                        /* when they are drawn, and not where the watch ends the section before */
    }
    if (chance[number] >= tried) return 0;
    is_kind(number, f), any(all);                           /* the draws after it are by its own seed */
    for (int i = 0; i < FIELDS; i++)
        for (int v = 0; v < model_fields[i].count; v++)
            met[i][v] += model_has(f, model_fields[i].section) && *model_field(f, &model_fields[i]) == model_fields[i].values[v];
    met_editions[f->edition ? 1 + (f->quantisation != 0) + 2 * (f->content != 0) : 0]++;
    return 1;
}

void never_met(uint32_t count, const char *of, const char *what) {
    if (run.loud) printf("    %9u %s: %s\n", count, of, what);
    if (!count && !run.ended) differs("none of the %s: %s", of, what);
}

void every_value_met(void) {
    for (int i = 0; i < FIELDS; i++)
        for (int v = 0; v < model_fields[i].count; v++)
            if (!met[i][v] && !run.ended) differs("value %d of field %d was never tried", model_fields[i].values[v], i);
    for (int e = 0; e < EDITIONS_ASKED; e++)
        if (!met_editions[e] && !run.ended) differs("%s was never tried", editions_asked[e]);
    memset(met, 0, sizeof met);
    memset(met_editions, 0, sizeof met_editions);
}

/* Every value of every byte, one at a time, in many kinds of request; every cut of each, and one byte more. */
static void fields(void) {
    uint8_t image[256] = { 0 }, writes[256] = { 0 };
    uint32_t count = 0;
    struct fields f;
    for (uint32_t i = 0; i < kinds(); i++) {
        uint8_t bytes[LONGEST + 1];
        if (!tries_kind(i, times(KINDS), &f)) continue;
        size_t length = model_bytes(&f, bytes);
        check_ncts(bytes, length);
        if (count++ % EVERY) continue;
        for (size_t cut = 0; cut <= length + 1; cut++) {
            if (cut == length + 1) bytes[length] = (uint8_t)any(256);
            check_ncts(bytes, cut);
            check_plan(bytes, cut, image, 256, writes, 256);
        }
        for (size_t at = 0; at < length; at++) {
            uint8_t was = bytes[at];
            for (int v = 0; v < 256; v++) {
                bytes[at] = (uint8_t)v;
                check_ncts(bytes, length);
            }
            bytes[at] = was;
        }
    }
    if (run.share >= 1000) every_value_met();
}

static void ncts(void) {
    static uint8_t bytes[ROOM];
    for (uint32_t i = times(100000); i > 0; i--) {
        seed(0x200000u + i);
        size_t length = any_request(bytes, 4096);
        check_ncts(bytes, length);
    }
    memset(bytes, VIDEO_BYTES, sizeof bytes);       /* a very long one */
    bytes[0] = NO_WIRING;
    check_ncts(bytes, ROOM - 64);
}

size_t any_length(size_t right, size_t room) {
    if (any(8)) return right;
    return any(2) ? right - 1 + any(3) : any((uint32_t)room);
}

static void plan(void) {
    static uint8_t request[4096], image[1024], writes[1024];
    for (uint32_t i = times(200000); i > 0; i--) {
        seed(0x300000u + i);
        struct fields f;
        size_t rl;
        any_fields(&f);
        if (any(3)) rl = model_bytes(&f, request);
        else rl = any_request(request, sizeof request);
        any_bytes(image + 256, 8);
        if (any(3)) any_image(image);
        else near_image(image, &f);
        if (any(2)) image[0x4A] &= any(2) ? 0xCF : 0xAF;
        memset(writes, (int)any(256), sizeof writes);
        size_t wl = any(2) ? 256 : any_length(256, sizeof writes);
        check_plan(request, rl, image, any_length(256, sizeof image), writes, wl);
    }
}

/* The calls on the machine with one of its slices of another length. */
static void lengths_of_state(const struct slices *s, const uint8_t *buffer, size_t n) {
    for (int which = 0; which < (n < 64 ? 4 : 1); which++) {
        struct slices t = *s;
        *(which == 0 ? &t.il : which == 1 ? &t.pl : which == 2 ? &t.cl : &t.ml) = n;
        check_write(&t, 0x4A, n % 2 ? 0xC0 : 0xA0);
        check_write(&t, 0x1A, n % 3 ? 0x20 : 0x00);
        check_vsync(&t);
        if (which == 3) continue;
        check_vet(&t, buffer, n % 4);
        check_matrix(&t, buffer, MATRIX_BYTES);
        check_matrix(&t, buffer, MATRIX_BYTES - 1);
        check_sent(t.image, t.il, t.packet, t.pl, n % 3);
        check_mute(t.image, t.il, t.packet, t.pl);
    }
}

/* Every length of every buffer up to 600, and the order of the refusals where two apply. */
static void lengths(void) {
    static uint8_t image[600], buffer[600], packet[64], coefficients[64], mark[64], pipe[PIPE_BYTES], after[600];
    static uint32_t numbers[600];                           /* zeros, but for one that fits no mode, and one that is none */
    const struct slices s = { image, 256, packet, 32, coefficients, 24, mark, 1 };
    uint8_t request[LONGEST];
    uint32_t step = 1 + 3 * (run.share < 1000);
    for (uint32_t i = 0; i < 6; i++) {
        struct fields f;
        seed(0x400000u + i);
        any_bytes(image, sizeof image);
        any_bytes(buffer, sizeof buffer);
        any_bytes(packet, sizeof packet);
        any_bytes(coefficients, sizeof coefficients);
        any_bytes(mark, sizeof mark);
        mark[0] = (const uint8_t[]){ 0, 1, 2, 7, 255, 128 }[i];
        numbers[5] = i % 3 == 1 ? 0x40800000 : 0, numbers[9] = i % 3 == 2 ? 0x7FC00000 : 0;
        do any_fields(&f); while (!model_pair(&f).exists);
        if (i % 3 == 1) f = (struct fields){ .vic = 4, .family = 1, .link = 1, .sound = 1, .rate = 0, .channels = 2, .coherent = 1 };
        if (i % 3 != 2) finish(image, &f), image[0x4A] &= 0x8F;
        size_t rl = model_bytes(&f, request);
        for (uint32_t n = 0; n < 600; n += n > 300 ? step : 1) {
            check_plan(request, rl, image, n, buffer, 256);
            check_plan(request, rl, image, n, buffer, 255);
            check_plan(request, rl, image, 256, buffer, n);
            check_plan(request, rl, image, 255, buffer, n);
            check_decode(image, n, buffer, LONGEST);
            check_decode(image, n, buffer, LONGEST - 1);
            check_decode(image, 256, buffer, n);
            check_decode(image, 257, buffer, n);
            check_matrix(&s, buffer, n);
            check_preview(buffer, n, 1, 2, 3);
            check_meter(numbers, n, buffer, MATRIX_BYTES);
            check_meter(numbers, n, buffer, MATRIX_BYTES - 1);
            check_meter(numbers, 12, buffer, n);
            check_meter(numbers, 11, buffer, n);
            check_vet(&s, buffer, n);
            check_take(buffer, n, request, rl, after);
            check_take(pipe, sizeof pipe, buffer, n, after);
            check_end(buffer, n, after);
            lengths_of_state(&s, buffer, n);
        }
    }
}

static void decode(void) {
    static uint8_t image[1024], buffer[256];
    for (uint32_t i = times(150000); i > 0; i--) {
        seed(0x500000u + i);
        any_bytes(image + 256, 8);
        any_image(image);
        any_bytes(buffer, sizeof buffer);
        size_t il = any(16) ? 256 : any_length(256, sizeof image);
        check_decode(image, il, buffer, any(4) ? LONGEST + any(30) : any_length(LONGEST, sizeof buffer));
    }
}

/* Each of the 2,048 bits of some finished images turned over. */
static void flips(void) {
    uint8_t image[256], buffer[LONGEST + 5];
    for (uint32_t i = times(24); i > 0; i--) {
        struct fields f;
        seed(0x600000u + i);
        any_bytes(image, 256);
        any_bytes(buffer, sizeof buffer);
        do any_fields(&f); while (!model_pair(&f).exists);
        finish(image, &f);
        check_decode(image, 256, buffer, sizeof buffer);
        for (int bit = 0; bit < 2048; bit++) {
            image[bit / 8] ^= (uint8_t)(1 << bit % 8);
            check_decode(image, 256, buffer, sizeof buffer);
            image[bit / 8] ^= (uint8_t)(1 << bit % 8);
        }
    }
}

/* Document 02, request 01, by its own numbers: the refusal of a range, and Q in the list, 0x57[3:2]. */
static void answered_range(const struct fields *f, uint32_t refusal, int q) {
    uint8_t bytes[LONGEST], image[256] = { 0 }, writes[256] = { 0 };
    size_t length = model_bytes(f, bytes);
    run.now->cases++;
    struct station_pair p = run.f->ncts(bytes, length);
    struct station_count c = run.f->plan(bytes, length, image, 256, writes, 256);
    if (p.refusal != refusal || c.refusal != refusal)
        differs("range %d, encoding %d: %u and %u, not %u", f->range, f->encoding, p.refusal, c.refusal, refusal);
    else if (!refusal && (left_in(0x57, image, writes, c) & 0x0C) != q << 2)
        differs("range %d, encoding %d: Q is %d, not %d", f->range, f->encoding, left_in(0x57, image, writes, c) >> 2 & 3, q);
}

/* A finished image with each Q in it, the checksum as it was and made right: RGB with 1 or 2 is a request's, and YCbCr with 0; no other is.
 * Planning takes any of them. */
static void every_q(const struct fields *f, const uint8_t *finished) {
    uint8_t bytes[LONGEST], image[256], writes[256] = { 0 }, buffer[LONGEST] = { 0 };
    size_t length = model_bytes(f, bytes);
    for (int q = 0; q < 4; q++)
        for (int right = 0; right < 2; right++) {
            struct fields back = *f;
            memcpy(image, finished, 256);
            image[0x57] = (uint8_t)((finished[0x57] & ~0x0C) | q << 2);
            if (right) image[0x54] = (uint8_t)(finished[0x54] + finished[0x57] - image[0x57]);
            int sum_is_right = right || image[0x57] == finished[0x57], of_a_request = f->encoding == 0 ? q == 1 || q == 2 : q == 0;
            uint32_t refusal = sum_is_right && of_a_request ? 0 : 11;
            check_decode(image, 256, buffer, sizeof buffer);
            check_plan(bytes, length, image, 256, writes, 256);
            struct station_count d = run.f->decode(image, 256, buffer, sizeof buffer);
            if (d.refusal != refusal) differs("encoding %d with Q %d is decoded as %u, not %u", f->encoding, q, d.refusal, refusal);
            else if (!refusal && (model_read(buffer, d.count, &back) != 0 || back.range != (f->encoding == 0 ? q - 1 : 0)))
                differs("encoding %d with Q %d is decoded as range %d", f->encoding, q, back.range);
        }
}

/* Every range, with every encoding and link and one beyond, with and without sound and matrix; VIC 1 is the one whose RGB a screen takes as
 * full where Q is 0. */
static void ranges(void) {
    static const struct { int encoding, link; } kinds_of_picture[] = { { 0, 0 }, { 0, 1 }, { 1, 1 }, { 2, 1 } };
    static const int vics[] = { 1, 16 };
    uint8_t bytes[LONGEST], image[256] = { 0 }, writes[256] = { 0 };
    struct fields f;
    for (int matrix = 0; matrix < 2; matrix++)
        for (int sound = 0; sound < 2; sound++)
            for (int v = 0; v < 2; v++) {
                f = (struct fields){ .vic = vics[v], .sound = sound, .channels = 2, .matrix = matrix };
                for (f.link = 0; f.link < 3; f.link++)
                    for (f.encoding = 0; f.encoding < 4; f.encoding++)
                        for (f.range = 0; f.range < (run.share < 1000 ? 4 : 256); f.range++) {
                            size_t length = model_bytes(&f, bytes);
                            check_ncts(bytes, length);
                            check_plan(bytes, length, image, 256, writes, 256);
                        }
                for (size_t k = 0; k < sizeof kinds_of_picture / sizeof kinds_of_picture[0]; k++) {
                    f.encoding = kinds_of_picture[k].encoding, f.link = kinds_of_picture[k].link, f.range = 0;
                    if ((f.encoding && !matrix) || (!f.link && sound)) continue;
                    answered_range(&f, 0, f.encoding ? 0 : 1);
                    f.range = 1;
                    answered_range(&f, f.encoding ? 6 : 0, 2);
                    for (f.range = 2; f.range < 256; f.range += 23) answered_range(&f, 5, 0);
                }
            }
    for (uint32_t i = times(30); i > 0; i--)
        for (size_t k = 0; k < sizeof kinds_of_picture / sizeof kinds_of_picture[0]; k++) {
            seed(0xC00000u + 4 * i + (uint32_t)k);
            any_bytes(image, 256);
            do any_fields(&f);
            while (f.encoding != kinds_of_picture[k].encoding || f.link != kinds_of_picture[k].link || !model_pair(&f).exists);
            finish(image, &f);
            image[0x4A] &= 0x8F;
            every_q(&f, image);
        }
}

/* The model's own short cut in decoding: against the search with one field free, for each field, with the sections free, and, on fewer
 * images, with both and as many fields free as have few combinations together, from any field on: all of them, where there are few. */
static void same_search(const uint8_t *image, uint32_t free) {
    uint8_t one[LONGEST], two[LONGEST];
    struct fields f, g;
    run.now->cases++;
    int short_cut = model_ends(image, NONE_FREE, &f), longer = model_ends(image, free, &g);
    if (short_cut != longer) differs("the model's two searches");
    else if (longer && (model_bytes(&f, one) != model_bytes(&g, two) || memcmp(one, two, model_bytes(&f, one)) != 0))
        differs("the model's two requests");
}

static uint32_t many_free(void) {
    uint32_t free = 0, from = any(FIELDS), combinations = 1;
    for (uint32_t n = 0; n < FIELDS; n++) {
        uint32_t field = (from + n) % FIELDS, count = (uint32_t)model_fields[field].count;
        if (combinations * count > FREE_COMBINATIONS) continue;
        combinations *= count;
        free |= 1u << field;
    }
    return free;
}

static void search(void) {
    uint8_t image[256];
    for (uint32_t i = times(1500); i > 0; i--) {
        seed(0x700000u + i);
        any_image(image);
        for (int field = 0; field < FIELDS; field++) same_search(image, 1u << field);
        same_search(image, SECTIONS_FREE);
        if (i <= times(100)) same_search(image, SECTIONS_FREE | many_free());
    }
}

void any_chip(struct chip *c) {
    any_image(c->image);
    any_bytes(c->packet, PACKET_BYTES);
    any_bytes(c->coefficients, COEFFICIENT_BYTES);
    c->mark = any_mark();
    if (any(4)) {
        static const uint8_t up[4] = { 0, 0x40, 0x20, 0x10 };
        c->image[0x4A] = (uint8_t)((c->image[0x4A] & 0x8F) | up[any(4)]);
    }
}

/* A state with noise after each of its parts, lent in lengths that are mostly right. */
struct slices any_lengths(const struct chip *c) {
    static uint8_t image[300], packet[64], coefficients[64], mark[64];
    any_bytes(image, sizeof image);
    any_bytes(packet, sizeof packet);
    any_bytes(coefficients, sizeof coefficients);
    any_bytes(mark, sizeof mark);
    memcpy(image, c->image, IMAGE_BYTES);
    memcpy(packet, c->packet, PACKET_BYTES);
    memcpy(coefficients, c->coefficients, COEFFICIENT_BYTES);
    mark[0] = c->mark;
    size_t il = any_length(256, sizeof image), pl = any_length(32, sizeof packet), cl = any_length(24, sizeof coefficients);
    return (struct slices){ image, il, packet, pl, coefficients, cl, mark, any_length(1, sizeof mark) };
}

static void writes(void) {
    static const uint8_t often[] = { 0x4A, 0x4A, 0x4A, 0x1A, 0x1A, 0x4B, 0x18 };
    struct chip c;
    struct slices s;
    for (uint32_t i = times(150000); i > 0; i--) {
        seed(0x800000u + i);
        any_chip(&c);
        s = any_lengths(&c);
        uint8_t address = any(2) ? often[any(sizeof often)] : (uint8_t)any(256);
        check_write(&s, address, (uint8_t)any(256));
    }
    /* Every address with every value, on some states. */
    for (uint32_t i = times(4); i > 0; i--) {
        seed(0x900000u + i);
        any_chip(&c);
        if (model_holds(c.image[0x4A]) > 1) c.image[0x4A] &= 0xCF;
        c.image[0x1A] = (uint8_t)((c.image[0x1A] & 0xDF) | (i % 2 ? 0x20 : 0));
        c.mark = (const uint8_t[]){ 0, 0, 1, 2 }[i % 4];
        s = slices_of(&c);
        for (int v = 0; v < 65536; v++) {
            int near = (v >> 8) == 0x4A || (v >> 8) == 0x1A;
            if (run.share < 1000 && !near && v % 7) continue;
            check_write(&s, (uint8_t)(v >> 8), (uint8_t)v);
        }
    }
}

static void views(void) {
    uint8_t matrix[64];
    struct chip c;
    for (uint32_t i = times(60000); i > 0; i--) {
        seed(0xA00000u + i);
        any_chip(&c);
        struct slices s = any_lengths(&c);
        any_bytes(matrix, sizeof matrix);
        check_sent(s.image, s.il, s.packet, s.pl, any(8) ? any(2) : any(3) ? 2 + any(2) : 1u << any(32));
        check_mute(s.image, s.il, s.packet, s.pl);
        check_matrix(&s, matrix, any(2) ? MATRIX_BYTES + any(20) : any_length(MATRIX_BYTES, sizeof matrix));
    }
}

static void preview(void) {
    uint8_t matrix[64], request[LONGEST];
    for (uint32_t i = times(100000); i > 0; i--) {
        struct fields f;
        uint32_t in[3];
        seed(0xB00000u + i);
        do any_fields(&f); while (!f.matrix);
        memcpy(matrix, request + model_bytes(&f, request) - MATRIX_BYTES, MATRIX_BYTES);
        if (any(8) == 0) matrix[any(MATRIX_BYTES)] ^= (uint8_t)(1u << any(8));
        if (any(16) == 0) matrix[0] = (uint8_t)(any(2) ? any(5) : any(256));    /* often one above the last mode */
        for (int c = 0; c < 3; c++) in[c] = any(8) ? any(4096) : any(2) ? 4095 + any(2) : any(4) * 0x55555555u + any(3);
        check_preview(matrix, any_length(MATRIX_BYTES, sizeof matrix), in[0], in[1], in[2]);
    }
}

/* Fewer writes: document 02, request 09. -------------------------------------------------------------------------------------------- */

/* The nine writes that stay, by the image that they leave and whether the audio hold was up. */
static void the_nine(const uint8_t *finished, int audio_first, struct pairs *l) {
    uint8_t mute = finished[0x4B] & 0x3F, down = finished[0x4A], first = audio_first ? 0x20 : 0x40, second = first ^ 0x60;
    uint8_t a2 = finished[0x1A];
    const uint8_t nine[18] = { 0x4B, mute | 0x40, 0x1A, a2 | 0x20, 0x1A, a2 | 0x20, 0x1A, a2, 0x4A, down | first, 0x4A, down,
                               0x4A, down | second, 0x4A, down, 0x4B, mute | 0x80 };
    memcpy(l->bytes, nine, sizeof nine);
    l->length = sizeof nine;
}

/* The library's list must be this one. */
static void is_planned(const struct fields *f, const uint8_t *image, const struct pairs *l, const char *what) {
    uint8_t bytes[LONGEST], writes[256] = { 0 };
    size_t length = model_bytes(f, bytes);
    struct station_count c = run.f->plan(bytes, length, image, 256, writes, 256);
    if (c.refusal || c.count != count_of(l)) differs("%s: refused %u, %u writes, not %zu", what, c.refusal, c.count, count_of(l));
    else if (memcmp(writes, l->bytes, l->length)) differs("%s: the writes are others", what);
    memset(writes, 0xA5, sizeof writes);
    check_plan(bytes, length, image, 256, writes, 256);
}

/* By their own numbers, not the model's: on an image that document 01's example has finished over zeros, with some bits of one register
 * turned over, the nine writes alone or with one more put in. */
enum { NO_MORE = 0xFF, EACH_WRITE = 91 };
static void marked_few(void) {
    static const struct { uint8_t address, bits, at, pair[2]; const char *what; } cases[] = {
        { 0x00, 0x00, NO_MORE, { 0 }, "nothing" },
        { 0x3C, 0x10, 8, { 0x3C, 0x10 }, "the VIC" },
        { 0x3C, 0xC0, NO_MORE, { 0 }, "free bits beside the VIC" },
        { 0x03, 0x01, 8, { 0x03, 0x00 }, "N" },
        { 0x3B, 0x18, 8, { 0x3B, 0xC0 }, "the clock of the repetition" },
        { 0x3B, 0x06, 8, { 0x3B, 0xC0 }, "the repetition that the screen is told" },
        { 0x4C, 0x05, 8, { 0x4C, 0x00 }, "the depth" },
        { 0x4C, 0xF0, NO_MORE, { 0 }, "read-only bits beside the depth" },
        { 0x4C, 0xA4, 8, { 0x4C, 0xA0 }, "the depth, and read-only bits beside it" },
        { 0xAF, 0x02, 8, { 0xAF, 0x06 }, "HDMI" },
        { 0xAF, 0x04, 8, { 0xAF, 0x06 }, "a mandated bit beside a named one" },
        { 0xAF, 0x90, NO_MORE, { 0 }, "copy protection" },
        { 0xE0, 0x01, 1, { 0xE0, 0xD0 }, "a register of Table 14" },
        { 0xF9, 0x80, 1, { 0xF9, 0x00 }, "a register of Table 14 that is to be 0" },
        { 0x9A, 0x01, NO_MORE, { 0 }, "a free bit of Table 14" },
        { 0x99, 0xFF, NO_MORE, { 0 }, "a register that is fixed by the map and not in Table 14" },
        { 0x3D, 0xFF, NO_MORE, { 0 }, "a register that is read-only" },
        { 0x15, 0x02, 8, { 0x15, 0x20 }, "the input ID" },
        { 0x16, 0x30, 8, { 0x16, 0x30 }, "the input depth" },
        { 0x16, 0x0C, 8, { 0x16, 0x30 }, "the input style" },
        { 0x16, 0x03, NO_MORE, { 0 }, "free bits beside the style" },
        { 0x16, 0x43, 8, { 0x16, 0x33 }, "a mandated bit beside the depth, and free bits" },
        { 0x30, 0x80, 8, { 0x30, 0x00 }, "Hsync placement" },
        { 0x32, 0xF0, 8, { 0x32, 0x00 }, "Hsync duration" },
        { 0x32, 0x0F, 8, { 0x32, 0x00 }, "Vsync placement" },
        { 0x34, 0x01, 8, { 0x34, 0x00 }, "Vsync duration" },
        { 0x48, 0x18, 8, { 0x48, 0x00 }, "the justification" },
        { 0x48, 0x80, 8, { 0x48, 0x00 }, "a mandated bit beside the justification" },
        { 0x48, 0x67, NO_MORE, { 0 }, "free bits beside the justification" },
        { 0x35, 0xFF, NO_MORE, { 0 }, "a register that is free" },
        { 0x17, 0x60, NO_MORE, { 0 }, "the polarity of syncs" },
        { 0x9D, 0x0C, NO_MORE, { 0 }, "the clock divide, free bits of Table 14" },
        { 0xD0, 0x0C, NO_MORE, { 0 }, "the sync pulse" },
        { 0xFA, 0xE0, NO_MORE, { 0 }, "the high bits of Hsync placement" },
        { 0x18, 0x20, 2, { 0x18, 0x28 }, "the matrix mode" },
        { 0x18, 0x80, 2, { 0x18, 0x28 }, "the converter" },
        { 0x19, 0x01, 2, { 0x19, 0x00 }, "A1" },
        { 0x1A, 0x01, NO_MORE, { 0 }, "A2, which 0x1A has" },
        { 0x1A, 0x20, NO_MORE, { 0 }, "the coefficient hold" },
        { 0x1B, 0x01, 3, { 0x1B, 0x00 }, "A2" },
        { 0x2E, 0xE0, NO_MORE, { 0 }, "free bits beside C4" },
        { 0x2F, 0x80, 3, { 0x2F, 0x00 }, "C4" },
        { 0x4A, 0x80, NO_MORE, { 0 }, "0x4A[7]" },
        { 0x4A, 0x40, NO_MORE, { 0 }, "the AVI hold" },
        { 0x4A, 0x20, NO_MORE, { 0 }, "the audio hold" },
        { 0x4B, 0xC0, NO_MORE, { 0 }, "the mute" },
        { 0x52, 0xF8, NO_MORE, { 0 }, "free bits beside the AVI version" },
        { 0x54, 0x01, 5, { 0x54, 0x23 }, "the AVI checksum" },
        { 0x59, 0x03, 5, { 0x59, 0x00 }, "PR" },
        { 0x59, 0x30, 5, { 0x59, 0x00 }, "the content type" },
        { 0x59, 0x80, 5, { 0x59, 0x00 }, "the YCC quantisation" },
        { 0x61, 0x01, 5, { 0x61, 0x00 }, "the last AVI register" },
        { 0x62, 0xFF, NO_MORE, { 0 }, "a register after the AVI packet" },
        { 0x72, 0x10, 7, { 0x72, 0x70 }, "the audio checksum" },
        { 0x7C, 0x01, 7, { 0x7C, 0x00 }, "a reserved register of the audio packet" },
    };
    uint8_t image[256] = { 0 }, turned[256];
    struct pairs l;
    finish(image, &example);
    for (size_t i = 0; i < sizeof cases / sizeof cases[0]; i++) {
        memcpy(turned, image, 256);
        turned[cases[i].address] ^= cases[i].bits;
        the_nine(image, turned[0x4A] & 0x20, &l);
        if (cases[i].at != NO_MORE) put_in(&l, cases[i].at, cases[i].pair[0], cases[i].pair[1]);
        is_planned(&example, turned, &l, cases[i].what);
    }
    /* On registers none of which is right, and no hold up: nothing is left out. */
    run.now->cases++;
    for (int a = 0; a < 256; a++) turned[a] = (uint8_t)~image[a];
    turned[0x4A] = 0;
    uint8_t bytes[LONGEST], writes[256];
    uint32_t count = run.f->plan(bytes, model_bytes(&example, bytes), turned, 256, writes, 256).count;
    if (count != EACH_WRITE) differs("%u writes where each is needed, and not %d", count, EACH_WRITE);
}

/* "Always made right": on the library's machine its list leaves the registers, and what is in use, as the list with nothing left out does.
 * Planned again after a cut, the list is shorter by what was written, but for the nine. */
static void made_right(const struct fields *f, const struct chip *start) {
    uint8_t bytes[LONGEST], list[256], again[256];
    struct chip c = *start, full = *start;
    struct groups g, of_full;
    struct pairs l;
    size_t length = model_bytes(f, bytes);
    struct station_count n = planned(bytes, length, start, list);
    full_list(start, f, &l);
    if (n.refusal || n.count > 128 || !sent_whole(&full, l.bytes, (uint32_t)count_of(&l)) || !look(&full, &of_full)) {
        differs("VIC %d: refused %u, count %u", f->vic, n.refusal, n.count);
        return;
    }
    count_left_out(start->image, list, n.count);
    for (uint32_t cut = 0; cut <= n.count; cut++) {
        run.now->cases++;
        if (cut && !sent_to(&c, list, cut - 1, cut)) differs("write %u refused", cut);
        struct station_count m = planned(bytes, length, &c, again);
        if (m.refusal || m.count + others(list, cut, 0x00, 0xFF) != n.count)
            differs("VIC %d: planned again after write %u of %u: %u writes", f->vic, cut, n.count, m.count);
    }
    if (memcmp(c.image, full.image, 256)) differs("VIC %d: a register is not made right", f->vic);
    c = *start;
    if (!sent_whole(&c, list, n.count) || !look(&c, &g) || !same(&g, &of_full) || g.mute != of_full.mute)
        differs("VIC %d: a group is not made right", f->vic);
}

/* Images that a request has finished itself, each of their bits turned over; images that need few writes. */
static void fewer(void) {
    uint8_t bytes[LONGEST], writes[256];
    struct chip c;
    struct fields f;
    struct pairs l;
    marked_few();
    for (uint32_t i = times(6000); i > 0; i--) {
        seed(0x1400000u + i);
        accepted_fields(&f);
        finished_state(&c, &f);
        the_nine(c.image, i % 3 == 1, &l);
        c.image[0x4A] |= (const uint8_t[]){ 0, 0x20, 0x40 }[i % 3];
        if (any(2)) c.image[0x1A] |= 0x20;
        if (any(4) == 0) c.image[0x4B] ^= 0xC0;         /* muted, as after a cut */
        is_planned(&f, c.image, &l, "finished already");
        size_t length = model_bytes(&f, bytes);
        any_bytes(writes, sizeof writes);
        for (int bit = 0; i <= times(24) && bit < 2048; bit++) {
            c.image[bit / 8] ^= (uint8_t)(1 << bit % 8);
            check_plan(bytes, length, c.image, 256, writes, 256);
            c.image[bit / 8] ^= (uint8_t)(1 << bit % 8);
        }
    }
    for (uint32_t i = times(6000); i > 0; i--) {
        seed(0x1500000u + i);
        accepted_fields(&f);
        any_start(&c);
        if (i % 8) near_image(c.image, &f);
        any_bytes(writes, sizeof writes);
        check_plan(bytes, model_bytes(&f, bytes), c.image, 256, writes, 256);
        made_right(&f, &c);
    }
    every_part_left_out();
}

/* A vendor's list: document 02, request 03. ----------------------------------------------------------------------------------------- */

/* This number and this place, by the library, and the same by the model. */
static void answered_list(const struct chip *c, const struct pairs *l, uint32_t refusal, uint32_t place, const char *what) {
    struct station_verdict v = vetted(c, l);
    if (v.refusal != refusal || v.place != place)
        differs("%s, mark %d: %u, place %u, not %u, place %u", what, c->mark, v.refusal, v.place, refusal, place);
    check_list(c, l);
}

/* By their own numbers, not the model's: on an image that document 01's example has finished over zeros, no hold up, no mark. */
static void marked_lists(void) {
    static const struct { uint32_t refusal, place; size_t length; uint8_t bytes[16]; const char *what; } cases[] = {
        { 0, 0, 0, { 0 }, "the empty list on a finished image" },
        { 0, 0, 2, { 0x4B, 0x80 }, "one pair, the opening write" },
        { 0, 0, 2, { 0x3C, 0x10 }, "one pair, and never muted: it has no cut" },
        { 16, 0, 2, { 0x4B, 0x40 }, "one pair, the mute" },
        { 16, 0, 2, { 0x3C, 0x04 }, "one pair, another VIC" },
        { 15, 0, 2, { 0x35, 0x00 }, "one pair, no register of ours" },
        { 15, 0, 2, { 0x4A, 0xE0 }, "one pair, two holds" },
        { 0, 0, 4, { 0x4B, 0x40, 0x4B, 0x80 }, "muted and opened" },
        { 15, 0, 4, { 0x4B, 0x80, 0x4B, 0x80 }, "not muted" },
        { 15, 0, 4, { 0x4B, 0x00, 0x4B, 0x80 }, "neither muted nor open" },
        { 15, 0, 4, { 0x4B, 0xC0, 0x4B, 0x80 }, "set and clear both 1" },
        { 16, 0, 4, { 0x4B, 0x40, 0x3C, 0x10 }, "muted to the end" },
        { 15, 0, 4, { 0x3C, 0x10, 0x4B, 0x40 }, "muted too late, and a bad end" },
        { 15, 1, 6, { 0x4B, 0x40, 0x3D, 0x00, 0x4B, 0x80 }, "a register that is read-only" },
        { 0, 0, 6, { 0x4B, 0x40, 0x4C, 0x00, 0x4B, 0x80 }, "the depth as it stands" },
        { 0, 0, 6, { 0x4B, 0x40, 0x4C, 0xF0, 0x4B, 0x80 }, "its read-only bits, which are not looked at" },
        { 0, 0, 8, { 0x4B, 0x40, 0x4C, 0x05, 0x4C, 0x00, 0x4B, 0x80 }, "a depth that is put right: no group has it" },
        { 16, 0, 6, { 0x4B, 0x40, 0x4C, 0x05, 0x4B, 0x80 }, "30 bits with the CTS of 24" },
        { 16, 0, 6, { 0x4B, 0x40, 0x4C, 0x04, 0x4B, 0x80 }, "24 bits by the code that no request has" },
        { 16, 0, 6, { 0x4B, 0x40, 0x3B, 0xCA, 0x4B, 0x80 }, "a repetition that PR does not say" },
        { 15, 1, 6, { 0x4B, 0x40, 0x62, 0x00, 0x4B, 0x80 }, "a register after the AVI packet" },
        { 15, 1, 6, { 0x4B, 0x40, 0x7D, 0x00, 0x4B, 0x80 }, "a register after the audio packet" },
        { 15, 1, 6, { 0x4B, 0x40, 0x99, 0x02, 0x4B, 0x80 }, "a register that is fixed by the map and not in Table 14" },
        { 0, 0, 6, { 0x4B, 0x40, 0x7C, 0x00, 0x4B, 0x80 }, "a reserved register of the audio packet" },
        { 0, 0, 6, { 0x4B, 0x40, 0xE0, 0xD0, 0x4B, 0x80 }, "a register of Table 14" },
        { 15, 1, 8, { 0x4B, 0x40, 0xE0, 0xD1, 0xE0, 0xD0, 0x4B, 0x80 }, "mandated bits, made right after" },
        { 15, 1, 8, { 0x4B, 0x40, 0x0C, 0x84, 0x0C, 0x04, 0x4B, 0x80 }, "a free bit, made right after" },
        { 15, 0, 4, { 0x4B, 0x41, 0x4B, 0x80 }, "a free bit of the mute register" },
        { 15, 1, 8, { 0x4B, 0x40, 0x4A, 0x90, 0x4A, 0x80, 0x4B, 0x80 }, "the GC hold raised" },
        { 0, 0, 8, { 0x4B, 0x40, 0x3C, 0x04, 0x3C, 0x10, 0x4B, 0x80 }, "a VIC that is put right: no group has it" },
        { 15, 1, 8, { 0x4B, 0x40, 0x55, 0x30, 0x55, 0x10, 0x4B, 0x80 }, "an AVI byte without its hold" },
        { 0, 0, 12, { 0x4B, 0x40, 0x4A, 0xC0, 0x55, 0x30, 0x55, 0x10, 0x4A, 0x80, 0x4B, 0x80 }, "the same, with its hold" },
        { 16, 0, 10, { 0x4B, 0x40, 0x4A, 0xC0, 0x55, 0x30, 0x4A, 0xA0, 0x4B, 0x80 }, "a new AVI group, and a bad end" },
        { 15, 3, 16, { 0x4B, 0x40, 0x4A, 0xC0, 0x55, 0x30, 0x4A, 0x80, 0x55, 0x10, 0x4A, 0xC0, 0x55, 0x30, 0x4B, 0x80 },
          "an AVI byte that ends in the registers and not in use" },
        { 15, 1, 8, { 0x4B, 0x40, 0x73, 0x07, 0x73, 0x01, 0x4B, 0x80 }, "an audio byte without its hold" },
        { 15, 1, 8, { 0x4B, 0x40, 0x18, 0x2C, 0x18, 0x28, 0x4B, 0x80 }, "a coefficient without its hold" },
        { 15, 1, 8, { 0x4B, 0x40, 0x18, 0x38, 0x18, 0x28, 0x4B, 0x80 }, "a coefficient's sign without its hold" },
        { 0, 0, 8, { 0x4B, 0x40, 0x18, 0x48, 0x18, 0x28, 0x4B, 0x80 }, "the matrix mode, which is in no group" },
        { 0, 0, 10, { 0x4B, 0x40, 0x4A, 0xC0, 0x4A, 0xA0, 0x4A, 0x80, 0x4B, 0x80 }, "the AVI hold, then the audio hold" },
        { 15, 2, 10, { 0x4B, 0x40, 0x4A, 0xC0, 0x4A, 0xE0, 0x4A, 0x80, 0x4B, 0x80 }, "the audio hold over the AVI hold" },
        { 15, 3, 10, { 0x4B, 0x40, 0x4A, 0xA0, 0x4B, 0x80, 0x4A, 0xE0, 0x4B, 0x80 }, "opened just before two holds: no cut there" },
        { 15, 1, 10, { 0x4B, 0x40, 0x4B, 0x80, 0x4A, 0xC0, 0x4A, 0xE0, 0x4B, 0x80 }, "opened earlier: a cut there" },
        { 15, 2, 10, { 0x4B, 0x40, 0x55, 0x30, 0x4A, 0xE0, 0x55, 0x10, 0x4B, 0x80 }, "two holds end the list: an AVI byte is new" },
        { 15, 1, 10, { 0x4B, 0x40, 0x55, 0x30, 0x35, 0x01, 0x55, 0x10, 0x4B, 0x80 }, "another bad pair does not end it" },
        { 0, 0, 6, { 0x4B, 0x40, 0x16, 0x30, 0x4B, 0x80 }, "the input depth as it stands" },
        { 16, 0, 6, { 0x4B, 0x40, 0x16, 0x00, 0x4B, 0x80 }, "today's board with the depth that is invalid" },
        { 16, 0, 6, { 0x4B, 0x40, 0x16, 0x20, 0x4B, 0x80 }, "today's board with 12 bit" },
        { 16, 0, 6, { 0x4B, 0x40, 0x16, 0x34, 0x4B, 0x80 }, "today's board with a style" },
        { 16, 0, 6, { 0x4B, 0x40, 0x48, 0x08, 0x4B, 0x80 }, "today's board with a justification" },
        { 16, 0, 6, { 0x4B, 0x40, 0x30, 0x01, 0x4B, 0x80 }, "today's board with a sync value" },
        { 0, 0, 8, { 0x4B, 0x40, 0x16, 0x24, 0x16, 0x30, 0x4B, 0x80 }, "a depth that is put right: no group has it" },
        { 15, 1, 8, { 0x4B, 0x40, 0x16, 0x32, 0x16, 0x30, 0x4B, 0x80 }, "the edge of DDR, a free bit" },
        { 15, 1, 8, { 0x4B, 0x40, 0x48, 0x20, 0x48, 0x00, 0x4B, 0x80 }, "the alignment of DDR, a free bit" },
        { 15, 1, 8, { 0x4B, 0x40, 0x48, 0x80, 0x48, 0x00, 0x4B, 0x80 }, "a mandated bit beside the justification" },
        { 0, 0, 10, { 0x4B, 0x40, 0x15, 0x25, 0x16, 0x34, 0x16, 0x38, 0x4B, 0x80 }, "ID 5, RGB as today's" },
        { 16, 0, 8, { 0x4B, 0x40, 0x15, 0x25, 0x48, 0x08, 0x4B, 0x80 }, "ID 5 without a style, justified" },
        { 16, 0, 8, { 0x4B, 0x40, 0x15, 0x21, 0x16, 0x38, 0x4B, 0x80 }, "ID 1 to RGB without a matrix" },
        { 15, 1, 6, { 0x4B, 0x40, 0xD0, 0x0C, 0x4B, 0x80 }, "the sync pulse, no register of ours" },
        { 15, 1, 10, { 0x4B, 0x40, 0x4A, 0x90, 0x4A, 0xD0, 0x4A, 0x80, 0x4B, 0x80 }, "the GC hold, then two" },
        { 14, 0, 1, { 0x4B }, "half a pair" },
        { 14, 0, 3, { 0x4B, 0x80, 0x4B }, "a pair and a half" },
    };
    struct chip c = { .mark = 0 };
    finish(c.image, &example);
    for (size_t i = 0; i < sizeof cases / sizeof cases[0]; i++) {
        struct pairs l = { .length = cases[i].length };
        memcpy(l.bytes, cases[i].bytes, sizeof cases[i].bytes);
        answered_list(&c, &l, cases[i].refusal, cases[i].place, cases[i].what);
        c.image[0x4A] |= 0x10;                          /* 8 comes before 14 and 15, 7 before 8 */
        answered_list(&c, &l, 8, 0, cases[i].what);
        struct slices s = slices_of(&c);
        s.pl--, check_vet(&s, l.bytes, l.length);
        c.image[0x4A] &= 0xEF;
    }
}

/* The same with the coefficient hold down and up and with any mark: request 04. The coefficients in the buffer are 0, those of the
 * registers the example's, A1 0x0800. `mark` is ANY where it does not matter. */
enum { ANY = 3 };
static void marked_waits(void) {
    static const struct { uint8_t hold, mark; uint32_t refusal, place; size_t length; uint8_t bytes[18]; const char *what; } cases[] = {
        { 0, ANY, 0, 0, 0, { 0 }, "the empty list" },
        { 1, ANY, 16, 0, 0, { 0 }, "the empty list, the hold up" },
        { 0, ANY, 0, 0, 2, { 0x4B, 0x80 }, "one pair: it has no cut" },
        { 0, ANY, 0, 0, 4, { 0x4B, 0x40, 0x4B, 0x80 }, "muted and opened: what waits is taken between" },
        { 0, 0, 15, 1, 8, { 0x4B, 0x40, 0x19, 0x01, 0x19, 0x00, 0x4B, 0x80 }, "a coefficient without its hold" },
        { 0, 1, 0, 0, 8, { 0x4B, 0x40, 0x19, 0x01, 0x19, 0x00, 0x4B, 0x80 }, "the same in a wait" },
        { 0, 2, 0, 0, 8, { 0x4B, 0x40, 0x19, 0x01, 0x19, 0x00, 0x4B, 0x80 }, "the same with a mark of 2" },
        { 1, ANY, 0, 0, 10, { 0x4B, 0x40, 0x19, 0x01, 0x19, 0x00, 0x1A, 0x00, 0x4B, 0x80 }, "beside a raised hold" },
        { 1, ANY, 0, 0, 10, { 0x4B, 0x40, 0x1A, 0x00, 0x19, 0x01, 0x19, 0x00, 0x4B, 0x80 }, "lowered first: written in the wait" },
        { 0, ANY, 0, 0, 12, { 0x4B, 0x40, 0x1A, 0x20, 0x19, 0x01, 0x1A, 0x00, 0x19, 0x00, 0x4B, 0x80 }, "lowered too early" },
        { 0, ANY, 0, 0, 16, { 0x4B, 0x40, 0x1A, 0x20, 0x19, 0x01, 0x1A, 0x00, 0x1A, 0x20, 0x19, 0x00, 0x1A, 0x00, 0x4B, 0x80 },
          "lowered and raised again: the old ones stay" },
        { 0, ANY, 16, 0, 8, { 0x4B, 0x40, 0x1A, 0x20, 0x19, 0x01, 0x1A, 0x00 }, "lowered by the last pair, after the Vsync" },
        { 0, ANY, 16, 0, 8, { 0x4B, 0x40, 0x1A, 0x20, 0x1A, 0x00, 0x1A, 0x20 }, "the Vsync ends the wait, the last pair copies" },
        { 0, 0, 16, 0, 6, { 0x4B, 0x40, 0x3C, 0x10, 0x19, 0x01 }, "a coefficient as the last pair" },
        { 0, 1, 15, 1, 6, { 0x4B, 0x40, 0x3C, 0x10, 0x19, 0x01 }, "the same in a wait: after the Vsync neither old nor as it ends" },
        { 1, ANY, 15, 2, 8, { 0x4B, 0x40, 0x19, 0x02, 0x1A, 0x00, 0x19, 0x01 }, "the same after a fall" },
        { 0, 1, 16, 0, 6, { 0x4B, 0x40, 0x19, 0x01, 0x19, 0x01 }, "a coefficient as the last pair that stands already" },
        { 0, 0, 15, 3, 10, { 0x4B, 0x40, 0x3C, 0x10, 0x19, 0x01, 0x4A, 0xE0, 0x4B, 0x80 }, "ended early by two holds" },
        { 0, 1, 15, 1, 10, { 0x4B, 0x40, 0x3C, 0x10, 0x19, 0x01, 0x4A, 0xE0, 0x4B, 0x80 }, "the same in a wait: its Vsync comes earlier" },
        { 0, 1, 15, 1, 6, { 0x19, 0x01, 0x4A, 0xE0, 0x4B, 0x80 }, "ended early after one pair, which has no cut" },
        { 0, 1, 15, 0, 4, { 0x4A, 0xE0, 0x4B, 0x80 }, "ended early before the first pair" },
    };
    static const uint8_t marks[] = { 0, 1, 2, 7, 128, 255 };
    struct chip c = { .mark = 0 };
    finish(c.image, &example);
    for (size_t i = 0; i < sizeof cases / sizeof cases[0]; i++) {
        struct pairs l = { .length = cases[i].length };
        memcpy(l.bytes, cases[i].bytes, sizeof cases[i].bytes);
        c.image[0x1A] = cases[i].hold ? 0x20 : 0x00;
        for (size_t k = 0; k < sizeof marks; k++) {
            if (cases[i].mark != ANY && cases[i].mark != marks[k]) continue;
            c.mark = marks[k];
            answered_list(&c, &l, cases[i].refusal, cases[i].place, cases[i].what);
        }
    }
}

/* The accident of May: Table 39's bytes, copied to 0x18 onward without a hold; and under a hold that the third byte drops. With one Vsync,
 * and that one just before the last pair, the second is no accident: what it drops waits. */
static void accident_of_may(void) {
    for (int held = 0; held < 2; held++) {
        struct chip c = { .mark = 0 };
        struct pairs l = { .length = 0 };
        finish(c.image, &example);
        put_in(&l, 0, 0x4B, 0x40);
        if (held) put_in(&l, 1, 0x1A, 0x20);
        for (uint8_t k = 0; k < 24; k++) {
            uint8_t byte = table_39[1 + k] & (k % 2 ? 0xFF : 0x1F);
            put_in(&l, count_of(&l), (uint8_t)(0x18 + k), k == 0 ? byte | 0xA0 : byte);
        }
        put_in(&l, count_of(&l), 0x4B, 0x80);
        answered_list(&c, &l, held ? 0 : 15, held ? 0 : 1, "the accident of May");
    }
}

/* At a cut of a passing list, another request is planned, accepted, and finishes as ever. */
static void planned_at(const struct chip *cut, uint32_t place) {
    uint8_t bytes[LONGEST], list[256];
    struct chip end = *cut;
    struct groups g;
    struct fields f;
    accepted_fields(&f);
    size_t length = model_bytes(&f, bytes);
    struct station_count n = planned(bytes, length, cut, list);
    if (n.refusal || n.count > 128 || !sent_whole(&end, list, n.count) || !look(&end, &g))
        differs("planned after pair %u of a passing list: refused %u", place, n.refusal);
    else finished(bytes, length, &f, cut, &end, &g);
}

/* What a passing list gives, by the library's own machine and views, with one Vsync just before its last pair: muted and old or new at each
 * cut and after the Vsync, a request at the end. */
static void gives(const struct chip *start, const struct pairs *l) {
    uint8_t bytes[LONGEST];
    struct chip c = *start, end = *start;
    struct groups old, new, g;
    uint32_t count = (uint32_t)count_of(l);
    if (!sent_whole(&end, l->bytes, count) || !look(start, &old) || !look(&end, &new)) {
        differs("a write of a passing list refused");
        return;
    }
    if (run.f->decode(end.image, 256, bytes, sizeof bytes).refusal) differs("a passing list ends in no request");
    for (uint32_t place = 1; place <= count; place++)
        for (int turn = place < count; turn < 2; turn++) {      /* the Vsync before the last pair; the pair */
            int went = turn == 0 ? turned(&c) : sent_to(&c, l->bytes, place - 1, place), last = place == count && turn == 1;
            run.now->cases++;
            if (!went || !look(&c, &g)) {
                differs("refused at pair %u of a passing list", place);
                return;
            }
            if (!last && count > 1 && g.mute != 1) differs("not muted at pair %u of a passing list of %u", place, count);
            if ((last || count > 1) && !old_or_new(&g, &old, &new)) differs("neither old nor new at pair %u of a passing list", place);
            planned_at(&c, place);
        }
}

/* Every kind of request, planned by the library on a state of every kind, and on images that need few writes: its own list passes, whether
 * a change waits or not. */
static void own_lists(void) {
    struct fields f;
    uint32_t count = 0;
    marked_lists();
    marked_waits();
    accident_of_may();
    for (uint32_t i = 0; i < kinds(); i++) {
        uint8_t bytes[LONGEST];
        struct chip c;
        struct pairs l;
        if (!tries_kind(i, times(KINDS), &f) || !model_pair(&f).exists) continue;
        any_state(&c);
        if (any(2)) near_image(c.image, &f);
        struct station_count n = planned(bytes, model_bytes(&f, bytes), &c, l.bytes);
        l.length = n.count <= 128 ? 2 * n.count : 0;
        for (int turn = 0; turn < 2; turn++, c.mark = !c.mark) {       /* with the other mark too */
            struct station_verdict v = vetted(&c, &l);
            if (n.refusal || v.refusal || v.place)
                differs("VIC %d: planned %u, our own list is refused %u at %u", f.vic, n.refusal, v.refusal, v.place);
            check_list(&c, &l);
        }
        if (count++ % EVERY == 0) gives(&c, &l);
    }
    if (run.share >= 1000) every_value_met();
}

/* A list of ours with one change at each place. */
static void changed_lists(void) {
    static const uint8_t holds_up[] = { 0x60, 0x50, 0x30, 0x70, 0x10 };     /* two of them, and the GC hold alone */
    for (uint32_t i = times(60); i > 0; i--) {
        struct chip c;
        struct pairs ours, l;
        struct fields f;
        uint8_t pair[2];
        seed(0xE00000u + i);
        accepted_fields(&f);
        any_state(&c);
        if (i % 3 == 0) near_image(c.image, &f);
        (i % 2 ? full_list : our_list)(&c, &f, &ours);
        size_t n = count_of(&ours);
        for (size_t at = 0; at < n; at++) {
            l = ours, take_out(&l, at, at + 1), check_list(&c, &l);
            l = ours, put_in(&l, at, ours.bytes[2 * at], ours.bytes[2 * at + 1]), check_list(&c, &l);
            if (at + 1 < n) l = ours, exchange(&l, at), check_list(&c, &l);
            for (int bit = 0; bit < 16; bit++) {
                if (i > times(6) && any(8)) continue;   /* every bit of some lists */
                l = ours, l.bytes[2 * at + (size_t)bit / 8] ^= (uint8_t)(1 << bit % 8), check_list(&c, &l);
            }
            l = ours, any_bad_pair(&c, pair), put_in(&l, at, pair[0], pair[1]), check_list(&c, &l);
            any_bad_pair(&c, pair), put_in(&l, any((uint32_t)n), pair[0], pair[1]), check_list(&c, &l);
            l = ours, put_in(&l, at, 0x4A, (uint8_t)((c.image[0x4A] & 0x8F) | holds_up[any(5)])), check_list(&c, &l);
            any_bad_pair(&c, pair), put_in(&l, any((uint32_t)n), pair[0], pair[1]), check_list(&c, &l);
            l = ours, l.length = 2 * at, check_list(&c, &l);        /* cut off */
            l.length++, check_list(&c, &l);                         /* in a pair */
        }
        l = ours, put_in(&l, n, 0x4A, (uint8_t)((c.image[0x4A] & 0x8F) | holds_up[any(5)])), check_list(&c, &l);
        /* Each register, with the byte that stands there, put in at one place. */
        for (int a = 0; a < 256; a++)
            l = ours, put_in(&l, any((uint32_t)n + 1), (uint8_t)a, kept_value(c.image, (uint8_t)a, c.image[a])), check_list(&c, &l);
        /* Passing lists as long as is allowed, and longer. */
        for (size_t count = MOST_PAIRS - 1; count <= MOST_PAIRS + 1; count++) {
            l = ours, stretch(&c, &l, count);
            if (check_list(&c, &l) != (count <= MOST_PAIRS ? 0 : 14)) differs("a list of %zu fair pairs is not what it should be", count);
            l.length++, check_list(&c, &l);
            l.length--, l.bytes[2 * (256 + any((uint32_t)count - 256))] = 0x35, check_list(&c, &l);     /* a place of more than a byte */
        }
    }
}

/* Lists of one pair: each address with each value, on some states, finished ones among them. */
static void single_pairs(void) {
    for (uint32_t i = times(2); i > 0; i--) {
        struct chip c;
        struct fields f;
        struct pairs l = { .length = 2 };
        seed(0x1200000u + i);
        accepted_fields(&f);
        any_state(&c);
        if (i % 2) finished_state(&c, &f);
        for (uint32_t v = run.share < 1000 ? any(13) : 0; v < 65536; v += run.share < 1000 ? 13 : 1) {
            l.bytes[0] = (uint8_t)(v >> 8), l.bytes[1] = (uint8_t)v;
            check_list(&c, &l);
        }
    }
}

/* Lists of every kind; the empty one against decoding; lengths that are wrong, more than one at a time. */
static void vendors(void) {
    static struct pairs l;
    static uint8_t longest[ROOM];
    struct slices s;
    struct chip c;
    for (uint32_t i = times(24000), given = times(500); i > 0; i--) {
        seed(0xF00000u + i);
        any_vendors(&c, &l);
        if (check_list(&c, &l) == 0 && given > 0 && any(4) == 0) given--, gives(&c, &l);
    }
    for (uint32_t i = times(6000); i > 0; i--) {
        struct station_count d;
        uint8_t bytes[LONGEST];
        seed(0x1000000u + i);
        any_image(c.image);
        l.length = 0;
        any_bytes(c.packet, PACKET_BYTES);
        any_bytes(c.coefficients, COEFFICIENT_BYTES);
        c.mark = any_mark();
        uint32_t refusal = check_list(&c, &l);
        d = run.f->decode(c.image, 256, bytes, sizeof bytes);
        if (refusal != 8 && (refusal == 0) != (d.refusal == 0)) differs("the empty list: %u, decoding: %u", refusal, d.refusal);
    }
    for (uint32_t i = times(6000); i > 0; i--) {
        seed(0x1100000u + i);
        any_vendors(&c, &l);
        if (any(2)) c.image[0x4A] |= (const uint8_t[]){ 0x60, 0x10, 0x70, 0x50 }[any(4)];
        s = any_lengths(&c);
        if (any(2)) l.length = any(2) ? l.length + 1 : 2 * MOST_PAIRS - 1 + any(4);
        check_vet(&s, l.bytes, l.length);
    }
    single_pairs();
    any_state(&c);
    s = slices_of(&c);
    for (size_t less = 0; less < 2; less++) check_vet(&s, longest, ROOM - 64 - less);      /* a very long one */
    if (run.share >= 1000) {
        static const struct { uint32_t number; const char *what; } numbers[] = {
            { 0, "accepted" }, { 7, "refused 7" }, { 8, "refused 8" }, { 14, "refused 14" }, { 16, "refused 16" },
        };
        for (size_t k = 0; k < sizeof numbers / sizeof numbers[0]; k++) never_met(verdicts[numbers[k].number], "lists", numbers[k].what);
        for (int rule = NO_RULE + 1; rule < RULES; rule++) {
            char what[48];
            snprintf(what, sizeof what, "refused 15, %s", model_rules[rule]);
            never_met(broken[rule], "lists", what);
        }
    }
    memset(verdicts, 0, sizeof verdicts);
    memset(broken, 0, sizeof broken);
}

static const struct { const char *name; void (*run)(void); } sections[SECTIONS] = {
    { "class table", classes },
    { "marked cases", marked },
    { "every field, every cut", fields },
    { "N and CTS", ncts },
    { "planning", plan },
    { "fewer writes", fewer },
    { "what is looked at", what_is_looked_at },
    { "every length", lengths },
    { "decoding", decode },
    { "every bit of finished images", flips },
    { "range and Q", ranges },
    { "depth and repetition", depths },
    { "editions of the InfoFrame", editions },
    { "sound that fits", sounds },
    { "the other input wirings", wirings },
    { "the model's search", search },
    { "machine writes", writes },
    { "Vsync and the mark", turns },
    { "views", views },
    { "preview", preview },
    { "a meter: by hand, near ties", meters },
    { "a meter: noise, every NaN", many_meters },
    { "a pipe: by hand, any bytes", pipes },
    { "a pipe: every cut", cut_requests },
    { "an EDID: by hand", screens },
    { "an EDID: each byte, any blocks", many_screens },
    { "lists: by hand, and our own", own_lists },
    { "lists of ours, a change each", changed_lists },
    { "lists of a vendor", vendors },
    { "every cut of every mode", cuts },
    { "more than one cut", cuts_in_a_row },
    { "chains of requests", chains },
};

int harness(const struct face *f, int first, int end, unsigned share, int stop, int loud, struct section *result) {
    static char stack[1 << 16];
    static int open;
    volatile int bad = 0;
    if (!open) {
        struct sigaction fault = { .sa_handler = on_fault, .sa_flags = SA_ONSTACK };
        struct sigaction tick = { .sa_handler = on_tick, .sa_flags = SA_RESTART };
        stack_t s = { .ss_sp = stack, .ss_size = sizeof stack };
        struct itimerval second = { { 1, 0 }, { 1, 0 } }, minute = { { 60, 0 }, { 60, 0 } };
        open = 1;
        lent_open();
        sigaltstack(&s, NULL);
        sigaction(SIGSEGV, &fault, NULL);
        sigaction(SIGBUS, &fault, NULL);
        sigaction(SIGPROF, &tick, NULL);
        setitimer(ITIMER_PROF, &second, NULL);      /* of processor time */
        sigaction(SIGALRM, &tick, NULL);
        setitimer(ITIMER_REAL, &minute, NULL);
    }
    run.f = f;
    run.share = share;
    run.stop = stop;
    run.loud = loud;
    run.ended = 0;
    first_difference[0] = 0;
    for (volatile int i = first; i < end; i++) {
        struct timeval from, to;
        result[i] = (struct section){ sections[i].name, 0, 0 };
        busy.still = asleep.still = 0;
        busy.seen = asleep.seen = UINT64_MAX;
        gettimeofday(&from, NULL);
        if (sigsetjmp(out, 1) == 0) {
            run.now = &result[i];
            sections[i].run();
        } else if (why > 1) {
            run.stop = 0;
            run.ended = 1;
            differs(why == 2 ? "a byte outside what was lent was touched" : "the call does not end");
            run.stop = stop;
        }
        gettimeofday(&to, NULL);
        bad += result[i].failed != 0;
        if (loud)
            printf("  %-30s %9llu cases %6.1f s  %s\n", result[i].name, (unsigned long long)result[i].cases,
                   (double)(to.tv_sec - from.tv_sec) + (double)(to.tv_usec - from.tv_usec) / 1e6, result[i].failed ? "FAILED" : "equal");
        fflush(stdout);
        if (stop && bad) break;
    }
    run.now = NULL;
    return bad;
}
