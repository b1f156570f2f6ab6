/* The library's sixteen calls at every alignment, in threads at a time, and on a painted stack; and the sizes and names of station.h
 * against what the calls take. A meter's numbers stand at a float's own alignment. */
#include "facts.h"
#include "lists.h"
#include "station_text.h"
#include <pthread.h>
#include <stdio.h>
#include <stdlib.h>
#include <string.h>
#include <ucontext.h>

/* ---- The calls, each on slices of one kind of input; an answer is its bytes. */

struct slices {
    uint8_t *request, *image, *packet, *coefficients, *mark, *matrix, *writes, *back, *list, *pipe, *part, *numbers, *edid, *wishes;
    size_t length, list_length, part_length, edid_length, wishes_length;
    uint8_t address, value;
};
struct answer { uint8_t bytes[32]; };
#define ANSWER(type, call) do { type t = call; memcpy(a->bytes, &t, sizeof t); } while (0)

static void plan(const struct slices *s, struct answer *a) {
    ANSWER(struct station_count, station_plan(s->request, s->length, s->image, STATION_IMAGE, s->writes, STATION_WRITES));
}
static void decode(const struct slices *s, struct answer *a) {
    ANSWER(struct station_count, station_decode(s->image, STATION_IMAGE, s->back, STATION_REQUEST));
}
static void ncts(const struct slices *s, struct answer *a) { ANSWER(struct station_pair, station_ncts(s->request, s->length)); }
static void preview(const struct slices *s, struct answer *a) {
    ANSWER(struct station_pixel, station_preview(s->matrix, STATION_MATRIX, s->value * 16u, s->address * 16u, 4095));
}
static void write_one(const struct slices *s, struct answer *a) {
    ANSWER(uint32_t, station_write(s->image, STATION_IMAGE, s->packet, STATION_PACKET, s->coefficients, STATION_COEFFICIENTS, s->mark,
                                   STATION_MARK, s->address, s->value));
}
static void vsync(const struct slices *s, struct answer *a) {
    ANSWER(uint32_t, station_vsync(s->image, STATION_IMAGE, s->packet, STATION_PACKET, s->coefficients, STATION_COEFFICIENTS, s->mark,
                                   STATION_MARK));
}
static void sent(const struct slices *s, struct answer *a) {
    ANSWER(struct station_part, station_sent(s->image, STATION_IMAGE, s->packet, STATION_PACKET, s->value % 2));
}
static void mute(const struct slices *s, struct answer *a) {
    ANSWER(struct station_state, station_mute(s->image, STATION_IMAGE, s->packet, STATION_PACKET));
}
static void matrix(const struct slices *s, struct answer *a) {
    ANSWER(struct station_count, station_matrix(s->image, STATION_IMAGE, s->coefficients, STATION_COEFFICIENTS, *s->mark, s->matrix,
                                                STATION_MATRIX));
}
static void class_of(const struct slices *s, struct answer *a) { ANSWER(struct station_masks, station_class(s->address)); }
static void vet(const struct slices *s, struct answer *a) {
    ANSWER(struct station_verdict, station_vet(s->image, STATION_IMAGE, s->packet, STATION_PACKET, s->coefficients, STATION_COEFFICIENTS,
                                               *s->mark, s->list, s->list_length));
}
static void meter(const struct slices *s, struct answer *a) {
    const float *numbers = (const float *)(const void *)s->numbers;
    ANSWER(struct station_count, station_meter(numbers, STATION_METER, s->matrix, STATION_MATRIX));
}
static void pipe_take(const struct slices *s, struct answer *a) {
    ANSWER(struct station_piped, station_pipe_take(s->pipe, STATION_PIPE, s->part, s->part_length));
}
static void pipe_end(const struct slices *s, struct answer *a) { ANSWER(struct station_piped, station_pipe_end(s->pipe, STATION_PIPE)); }

static void edid(const struct slices *s, struct answer *a) { ANSWER(struct station_monitor, station_edid(s->edid, s->edid_length)); }
static void choose(const struct slices *s, struct answer *a) {
    ANSWER(struct station_choice, station_choose(s->edid, s->edid_length, s->request, s->length, s->wishes, s->wishes_length));
}

static const struct { const char *name; void (*call)(const struct slices *, struct answer *); } calls[] = {
    { "station_plan", plan },       { "station_decode", decode },   { "station_ncts", ncts },
    { "station_preview", preview }, { "station_write", write_one }, { "station_vsync", vsync },
    { "station_sent", sent },       { "station_mute", mute },       { "station_matrix", matrix },
    { "station_class", class_of },  { "station_vet", vet },         { "station_meter", meter },
    { "station_pipe_take", pipe_take },                             { "station_pipe_end", pipe_end },
    { "station_edid", edid },       { "station_choose", choose },
};
enum { CALLS = sizeof calls / sizeof calls[0], INPUTS = 300, OFFSETS = 16, SLICES = 14, OF_NUMBERS = 11 };

/* ---- Inputs, and the slices of one, each at an offset of its own. */

static struct input {
    uint8_t request[LEAST_ROOM], matrix[STATION_MATRIX], pipe[STATION_PIPE], edid[STATION_EDID], wishes[STATION_WISHES];
    float numbers[STATION_METER];
    struct chip chip;
    size_t length, in_pipe, edid_length, wishes_length;
    uint8_t address, value;
    struct pairs list;
} inputs[INPUTS];

/* A list of ours for the image, some of them as long as a list may be. */
static void make_list(struct input *n, int longest) {
    struct fields f;
    accepted_fields(&f);
    our_list(&n->chip, &f, &n->list);
    if (longest) stretch(&n->chip, &n->list, MOST_PAIRS);
}

/* An export of a meter in each mode, some of them with a number that is too large, or that is none. */
static void make_export(struct input *n, int i) {
    for (int k = 0; k < STATION_METER; k++) {
        float part = (float)((int)any(16000001) - 8000000) / 8001000;
        n->numbers[k] = part * (k % 4 == 3 ? 4095 : 1) * (float)(1 << i % 3);
    }
    if (i % 9 == 7) n->numbers[i % STATION_METER] = 20000;
    if (i % 9 == 8) memset(&n->numbers[i % STATION_METER], 0xFF, sizeof n->numbers[0]);
}

/* The front of the request in a pipe, for its rest to come as a part: nothing, a part or all of it; some of them answered, or no pipe. */
static void make_pipe(struct input *n, int i) {
    size_t most = n->length < STATION_REQUEST ? n->length : STATION_REQUEST;
    n->in_pipe = i % 4 == 0 ? 0 : i % 4 == 1 ? most : any((uint32_t)most + 1);
    memset(n->pipe, 0, sizeof n->pipe);
    memcpy(n->pipe, n->request, n->in_pipe);
    n->pipe[STATION_REQUEST] = (uint8_t)n->in_pipe;
    if (i % 9 == 7) n->pipe[STATION_REQUEST + 1] = (uint8_t)any(256);
    if (i % 9 == 8) n->pipe[STATION_REQUEST] = (uint8_t)any(256);
}

/* Zero modulo 256 in each of two blocks. */
static void make_sums(uint8_t *edid) {
    for (int block = 0; block < STATION_EDID; block += STATION_EDID / 2) {
        uint8_t *last = edid + block + STATION_EDID / 2 - 1;
        *last = 0;
        for (uint8_t *byte = edid + block; byte < last; byte++) *last = (uint8_t)(*last - *byte);
    }
}

/* A screen with some modes and sound, some of them a base block alone or damaged; and wishes, none to sixteen, which do not all fit. */
static void make_screen(struct input *n, int i) {
    static const uint8_t header[] = { 0x00, 0xFF, 0xFF, 0xFF, 0xFF, 0xFF, 0xFF, 0x00 };
    enum { LISTED = 8, END = 4 + 1 + LISTED + 4 };
    const uint8_t front[] = { 2, 3, END, 0x40, 2 << 5 | LISTED }, sound[] = { 1 << 5 | 3, i % 4 ? 0x0F : 0x09, i % 3 ? 0x7F : 0x07, 7 };
    uint8_t *extension = n->edid + STATION_EDID / 2;
    any_bytes(n->edid, STATION_EDID);
    memcpy(n->edid, header, sizeof header);
    memcpy(extension, front, sizeof front);
    for (int k = 0; k < LISTED; k++) extension[sizeof front + (size_t)k] = (uint8_t)(model_vics[any(VICS)] | (i % 2 ? 0x80 : 0));
    memcpy(extension + END - sizeof sound, sound, sizeof sound);
    make_sums(n->edid);
    n->edid_length = i % 11 == 10 ? STATION_EDID / 2 : STATION_EDID;
    if (i % 9 == 8) n->edid[any(STATION_EDID)] ^= 1;
    n->wishes_length = STATION_WISHES - 2 * (size_t)(i % 7 == 0 ? any(17) : 0);
    for (size_t k = 0; k < n->wishes_length; k += 2) n->wishes[k] = (uint8_t)model_vics[any(VICS)], n->wishes[k + 1] = (uint8_t)any(2);
}

static void make_inputs(void) {
    seed(11);
    for (int i = 0; i < INPUTS; i++) {
        struct input *n = &inputs[i];
        any_start(&n->chip);
        if (i % 2) any_image(n->chip.image);                     /* finished ones, for decoding, among them */
        if (i % 3) {
            struct fields f;
            any_fields(&f);
            n->length = model_bytes(&f, n->request);
        } else n->length = any_request(n->request, sizeof n->request);
        memcpy(n->matrix, table_39, sizeof n->matrix);
        if (i % 4 == 0) any_bytes(n->matrix + 1, sizeof n->matrix - 1);
        n->address = i % 7 ? (uint8_t)any(256) : 0x1A, n->value = (uint8_t)any(256);
        make_list(n, i % 5 == 0);
        make_export(n, i);
        make_pipe(n, i);
        make_screen(n, i);
    }
}

struct room { uint8_t bytes[SLICES][STATION_LIST + 64]; } __attribute__((aligned(16)));

static struct slices lay(struct room *r, const struct input *n, int offset) {
    memset(r, 0x5A, sizeof *r);
    struct slices s = { .length = n->length, .list_length = n->list.length, .part_length = n->length - n->in_pipe,
                        .edid_length = n->edid_length, .wishes_length = n->wishes_length, .address = n->address, .value = n->value };
    uint8_t **const at[SLICES] = { &s.request, &s.image, &s.packet, &s.coefficients, &s.mark, &s.matrix,
                                   &s.writes, &s.back, &s.list, &s.pipe, &s.part, [OF_NUMBERS] = &s.numbers, &s.edid, &s.wishes };
    for (int k = 0; k < SLICES; k++) *at[k] = r->bytes[k] + (offset ? (offset + k) % OFFSETS : 0);
    s.numbers = r->bytes[OF_NUMBERS] + offset * sizeof(float) % OFFSETS;
    memcpy(s.request, n->request, n->length);
    memcpy(s.image, n->chip.image, STATION_IMAGE);
    memcpy(s.packet, n->chip.packet, STATION_PACKET);
    memcpy(s.coefficients, n->chip.coefficients, STATION_COEFFICIENTS);
    *s.mark = n->chip.mark;
    memcpy(s.matrix, n->matrix, sizeof n->matrix);
    memcpy(s.list, n->list.bytes, n->list.length);
    memcpy(s.pipe, n->pipe, sizeof n->pipe);
    memcpy(s.part, n->request + n->in_pipe, s.part_length);
    memcpy(s.numbers, n->numbers, sizeof n->numbers);
    memcpy(s.edid, n->edid, n->edid_length);
    memcpy(s.wishes, n->wishes, n->wishes_length);
    return s;
}

/* One call on one input: its answer, and what it left in the slices, brought to one place. */
struct outcome { struct answer a; uint8_t left[SLICES][STATION_IMAGE]; };
static void run_one(int call, const struct input *n, int offset, struct outcome *o) {
    struct room r;
    struct slices s = lay(&r, n, offset);
    const uint8_t *const at[SLICES] = { s.request, s.image, s.packet, s.coefficients, s.mark, s.matrix, s.writes, s.back, s.list, s.pipe,
                                        s.part, [OF_NUMBERS] = s.numbers, s.edid, s.wishes };
    memset(o, 0, sizeof *o);
    calls[call].call(&s, &o->a);
    for (int k = 0; k < SLICES; k++) memcpy(o->left[k], at[k], STATION_IMAGE);
}

static struct outcome aligned[CALLS][INPUTS];

static int passed, failed;
static void tell(int good, const char *what) {
    if (good) passed++;
    else failed++, printf("  NOT SO: %s\n", what);
}

/* ---- Alignment, threads, stack. */

static int any_alignment(void) {
    struct outcome o;
    for (int c = 0; c < CALLS; c++)
        for (int i = 0; i < INPUTS; i++)
            for (int offset = 1; offset < OFFSETS; offset++) {
                run_one(c, &inputs[i], offset, &o);
                if (memcmp(&o, &aligned[c][i], sizeof o)) return 0;
            }
    return 1;
}

enum { THREADS = 4, TURNS = 3 };
static void *thread(void *start) {
    struct outcome o;
    for (int turn = 0; turn < TURNS; turn++)
        for (int k = 0; k < CALLS * INPUTS; k++) {
            int at = (k + (int)(size_t)start * 677) % (CALLS * INPUTS), c = at % CALLS, i = at / CALLS;
            run_one(c, &inputs[i], 0, &o);
            if (memcmp(&o, &aligned[c][i], sizeof o)) return NULL;
        }
    return aligned;
}

static int in_threads(void) {
    pthread_t t[THREADS];
    int good = 1;
    for (size_t k = 0; k < THREADS; k++)
        if (pthread_create(&t[k], NULL, thread, (void *)k)) return 0;
    for (int k = 0; k < THREADS; k++) {
        void *answer;
        pthread_join(t[k], &answer);
        good &= answer != NULL;
    }
    return good;
}

/* The bytes of a painted stack that a call moves, below the frame of its caller. */
static uint8_t stack[1 << 16];
static ucontext_t here, there;
static int call_at;
static struct slices slices_at;
static struct answer answer_at;
static uint8_t *frame;

static void call_there(void) {
    frame = __builtin_frame_address(0);
    calls[call_at].call(&slices_at, &answer_at);
}

static void call_on_paint(void) {
    memset(stack, 0xA5, sizeof stack);
    getcontext(&there);
    there.uc_stack.ss_sp = stack, there.uc_stack.ss_size = sizeof stack, there.uc_link = &here;
    makecontext(&there, call_there, 0);
    swapcontext(&here, &there);
}

static unsigned stack_of(int call) {
    static struct room r;
    size_t most = 0;
    call_at = call;
    for (int i = 0; i < INPUTS; i++) {
        size_t clean = 0;
        slices_at = lay(&r, &inputs[i], 0);
        call_on_paint();
        while (clean < sizeof stack && stack[clean] == 0xA5) clean++;
        size_t moved = (size_t)(frame - (stack + clean));
        if (moved > most) most = moved;
    }
    return (unsigned)most;
}

/* ---- The names of station.h. */

/* The chip of the calls below, and a call on its machine with slices of these lengths. */
static struct chip chip;
#define STATE(of_packet, of_coefficients) chip.image, STATION_IMAGE, chip.packet, of_packet, chip.coefficients, of_coefficients
#define MACHINE STATE(STATION_PACKET, STATION_COEFFICIENTS), &chip.mark, STATION_MARK

static void names_of_the_machine(void) {
    tell(station_write(STATE(STATION_PACKET - 1, STATION_COEFFICIENTS), &chip.mark, STATION_MARK, 0, 0) == STATION_IMAGE_LENGTH,
         "STATION_PACKET is the packet buffer's length");
    tell(station_write(STATE(STATION_PACKET, STATION_COEFFICIENTS - 1), &chip.mark, STATION_MARK, 0, 0) == STATION_IMAGE_LENGTH,
         "STATION_COEFFICIENTS is the coefficient buffer's length");
    tell(station_write(STATE(STATION_PACKET, STATION_COEFFICIENTS), &chip.mark, STATION_MARK - 1, 0, 0) == STATION_IMAGE_LENGTH &&
             station_vsync(STATE(STATION_PACKET, STATION_COEFFICIENTS), &chip.mark, STATION_MARK - 1) == STATION_IMAGE_LENGTH,
         "STATION_MARK is the mark's length");
}

/* The list, with the Vsync where station.h says. */
static void run_list(const uint8_t *writes, uint32_t count) {
    for (uint32_t w = 0; w < count; w++) {
        uint32_t refusal = w + 1 == count ? station_vsync(MACHINE) : 0;
        refusal += station_write(MACHINE, writes[2 * w], writes[2 * w + 1]);
        struct station_state s = station_mute(chip.image, STATION_IMAGE, chip.packet, STATION_PACKET);
        if (refusal || s.mute != (w + 1 < count ? STATION_MUTED : STATION_OPEN)) {
            tell(0, "STATION_MUTED from the first write, STATION_OPEN after the last");
            break;
        }
    }
    tell(chip.mark == 0, "no change waits after a list that had its Vsync");
}

static void names_of_a_meter(void) {
    static const float zeros[STATION_METER + 1], large[STATION_METER] = { 4 };
    float none[STATION_METER];
    uint8_t m[STATION_MATRIX];
    memset(none, 0xFF, sizeof none);
    struct station_count c = station_meter(zeros, STATION_METER, m, STATION_MATRIX);
    tell(c.refusal == STATION_ACCEPTED && c.count == STATION_MATRIX, "STATION_METER numbers make STATION_MATRIX bytes");
    tell(station_meter(zeros, STATION_METER - 1, m, sizeof m).refusal == STATION_FIELD_OUT_OF_RANGE &&
             station_meter(zeros, STATION_METER + 1, m, sizeof m).refusal == STATION_FIELD_OUT_OF_RANGE,
         "STATION_METER is an export's length");
    tell(station_meter(zeros, STATION_METER, m, STATION_MATRIX - 1).refusal == STATION_BUFFER_SHORT, "STATION_MATRIX is a meter's least room");
    tell(station_meter(none, STATION_METER, m, sizeof m).refusal == STATION_NOT_FINITE, "STATION_NOT_FINITE");
    tell(station_meter(large, STATION_METER, m, sizeof m).refusal == STATION_NO_MODE_FITS, "STATION_NO_MODE_FITS");
}

static void names_of_a_pipe(void) {
    uint8_t request[LONGEST], pipe[STATION_PIPE + 1] = { 0 };
    size_t length = model_bytes(&example, request);
    tell(station_pipe_end(pipe, STATION_PIPE - 1).refusal == STATION_IMAGE_LENGTH &&
             station_pipe_end(pipe, STATION_PIPE + 1).refusal == STATION_IMAGE_LENGTH,
         "STATION_PIPE is a pipe's length");
    struct station_piped p = station_pipe_take(pipe, STATION_PIPE, request, length);
    tell(!p.answered && !memcmp(pipe, request, length) && pipe[STATION_REQUEST] == length && pipe[STATION_REQUEST + 1] == 0,
         "zeros are a fresh pipe; its front has the part, byte STATION_REQUEST the count");
    p = station_pipe_end(pipe, STATION_PIPE);
    tell(p.answered && p.refusal == STATION_ACCEPTED && p.count == length && pipe[STATION_REQUEST + 1] == 255, "255 is accepted");
    memset(pipe, 0, sizeof pipe);
    p = station_pipe_end(pipe, STATION_PIPE);
    tell(p.answered && p.refusal == STATION_INPUT_ENDS && pipe[STATION_REQUEST + 1] == STATION_INPUT_ENDS, "a refusal is its number");
    pipe[STATION_REQUEST] = STATION_REQUEST + 1;
    p = station_pipe_end(pipe, STATION_PIPE);
    tell(!p.answered && p.refusal == STATION_IMAGE_LENGTH, "STATION_REQUEST is the largest count");
}

static void names_of_a_screen(void) {
    static uint8_t edid[STATION_EDID + 1], wishes[STATION_WISHES + 2];
    uint8_t request[LONGEST];
    size_t length = model_bytes(&example, request);
#define CHOOSE(bytes) station_choose(edid, STATION_EDID, request, length, wishes, bytes)
    memcpy(edid, inputs[1].edid, STATION_EDID);
    edid[STATION_EDID / 2 + 5] = (uint8_t)example.vic;
    make_sums(edid);
    struct station_monitor m = station_edid(edid, STATION_EDID);
    tell(m.refusal == STATION_ACCEPTED && (m.vics_low >> example.vic & 1) && (m.rates_2 >> example.rate & 1),
         "STATION_EDID bytes are a screen; bit v is VIC v, bit r is rate r");
    tell(station_edid(edid, STATION_EDID / 2).refusal == STATION_ACCEPTED && station_edid(edid, STATION_EDID - 1).refusal == STATION_EDID_LENGTH &&
             station_edid(edid, STATION_EDID + 1).refusal == STATION_EDID_LENGTH,
         "STATION_EDID is two blocks");
    tell(CHOOSE(STATION_WISHES).refusal == STATION_NO_WISH_FITS, "STATION_NO_WISH_FITS");
    wishes[STATION_WISHES - 2] = (uint8_t)example.vic;
    struct station_choice c = CHOOSE(STATION_WISHES);
    tell(c.refusal == STATION_ACCEPTED && c.place == STATION_WISHES / 2 - 1 && request[c.at] == example.vic, "STATION_WISHES bytes are the most wishes");
    tell(CHOOSE(STATION_WISHES + 2).refusal == STATION_EDID_LENGTH, "STATION_EDID_LENGTH is of wishes too");
    edid[STATION_EDID / 2] ^= 1;
    tell(station_edid(edid, STATION_EDID).refusal == STATION_EDID_SUM, "STATION_EDID_SUM");
    make_sums(edid);
    tell(station_edid(edid, STATION_EDID).refusal == STATION_EDID_BLOCK, "STATION_EDID_BLOCK");
}

static void names(void) {
    uint8_t request[LONGEST], writes[STATION_WRITES], back[STATION_REQUEST], m[STATION_MATRIX];
    size_t length = model_bytes(&example, request);
    char version[32];
    memset(&chip, 0, sizeof chip);
    struct station_count c = station_plan(request, length, chip.image, STATION_IMAGE, writes, sizeof writes);
    tell(c.refusal == STATION_ACCEPTED && 2 * c.count <= STATION_WRITES, "a list fits into STATION_WRITES");
    tell(station_plan(request, length, chip.image, STATION_IMAGE, writes, STATION_WRITES - 1).refusal == STATION_BUFFER_SHORT,
         "STATION_WRITES is the least room");
    tell(station_plan(request, length, chip.image, STATION_IMAGE - 1, writes, sizeof writes).refusal == STATION_IMAGE_LENGTH,
         "STATION_IMAGE is an image's length");
    names_of_the_machine();
    run_list(writes, c.count);
    c = station_decode(chip.image, STATION_IMAGE, back, sizeof back);
    tell(c.count == length && !memcmp(back, request, length), "the request reads back");
    tell(station_decode(chip.image, STATION_IMAGE, back, STATION_REQUEST - 1).refusal == STATION_BUFFER_SHORT,
         "STATION_REQUEST is the least room");
    tell(STATION_REQUEST == LONGEST, "STATION_REQUEST is the longest request");
    tell(station_sent(chip.image, STATION_IMAGE, chip.packet, STATION_PACKET, STATION_AVI).len == AVI_BYTES, "STATION_AVI is the AVI packet");
    tell(station_sent(chip.image, STATION_IMAGE, chip.packet, STATION_PACKET, STATION_AUDIO).len == AUDIO_BYTES,
         "STATION_AUDIO is the audio packet");
    tell(station_matrix(chip.image, STATION_IMAGE, chip.coefficients, STATION_COEFFICIENTS, chip.mark, m, sizeof m).count == STATION_MATRIX,
         "STATION_MATRIX");
    tell(station_preview(m, STATION_MATRIX - 1, 0, 0, 0).refusal == STATION_FIELD_OUT_OF_RANGE, "STATION_MATRIX is a matrix's length");
    snprintf(version, sizeof version, "%d.%d.%d", STATION_MAJOR, STATION_MINOR, STATION_PATCH);
    tell(!strcmp(version, STATION_VERSION), "STATION_VERSION is of its three numbers");
    struct pairs l;
    finished_state(&chip, &example);
    our_list(&chip, &example, &l);
    stretch(&chip, &l, STATION_LIST / 2);
#define VET(length) station_vet(STATE(STATION_PACKET, STATION_COEFFICIENTS), chip.mark, l.bytes, length).refusal
    tell(VET(STATION_LIST) == STATION_ACCEPTED, "a list of STATION_LIST bytes passes");
    tell(VET(STATION_LIST + 2) == STATION_LIST_LENGTH, "STATION_LIST is the longest list");
    tell(strcmp(station_text(STATION_NO_WISH_FITS), station_text(STATION_NO_WISH_FITS + 1)) != 0, "station_text knows its last number");
    names_of_a_meter();
    names_of_a_pipe();
    names_of_a_screen();
}

int facts(void) {
    make_inputs();
    for (int c = 0; c < CALLS; c++)
        for (int i = 0; i < INPUTS; i++) run_one(c, &inputs[i], 0, &aligned[c][i]);
    names();
    tell(any_alignment(), "any alignment");
    printf("alignment: %d calls on %d inputs, each slice at each offset of %d\n", CALLS, INPUTS, OFFSETS);
    tell(in_threads(), "threads at a time");
    printf("threads: %d at a time, %d times the same calls\n", THREADS, TURNS);
    for (int c = 0; c < CALLS; c++) printf("stack: %s %u\n", calls[c].name, stack_of(c));
    printf("%d passed, %d failed\n", passed, failed);
    return failed != 0;
}
