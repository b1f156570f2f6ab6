/* The C face by the model: lengths, the order of the refusals, what is written to the lent buffers. */
#include "model.h"
#include <stdlib.h>
#include <string.h>

struct station_count model_plan(const uint8_t *request, size_t request_length, const uint8_t *image, size_t image_length, uint8_t *writes,
                                size_t writes_length) {
    struct fields f;
    struct pair p;
    struct list l;
    uint8_t wanted[256];
    uint32_t refusal = model_read(request, request_length, &f);
    if (refusal) return (struct station_count){ refusal, 0 };
    if (image_length != IMAGE_BYTES) return (struct station_count){ 7, 0 };
    if ((image[0x4A] & 0x10) || (image[0x4A] & 0x60) == 0x60) return (struct station_count){ 8, 0 };
    p = model_pair(&f);
    if (!p.exists) return (struct station_count){ 9, 0 };
    if (writes_length < 256) return (struct station_count){ 10, 0 };
    model_wanted(&f, p, wanted);
    model_short_list(wanted, image, &l);
    for (uint32_t i = 0; i < 2 * l.count; i++) writes[i] = l.pairs[i];
    return (struct station_count){ 0, l.count };
}

struct station_pair model_ncts(const uint8_t *request, size_t length) {
    struct fields f;
    uint32_t refusal = model_read(request, length, &f);
    if (refusal) return (struct station_pair){ refusal, 0, 0 };
    struct pair p = model_pair(&f);
    if (!p.exists) return (struct station_pair){ 9, 0, 0 };
    return (struct station_pair){ 0, p.n, p.cts };
}

struct station_count model_decode(const uint8_t *image, size_t image_length, uint8_t *request, size_t request_length) {
    struct fields f;
    if (image_length != IMAGE_BYTES) return (struct station_count){ 7, 0 };
    if (request_length < LONGEST) return (struct station_count){ 10, 0 };
    if (!model_ends(image, NONE_FREE, &f)) return (struct station_count){ 11, 0 };
    return (struct station_count){ 0, (uint32_t)model_bytes(&f, request) };
}

/* The state, from the host's buffers and back to them. A call that does not take the packet buffer has none. */
static struct chip taken(const uint8_t *image, const uint8_t *packet, const uint8_t *coefficients, uint8_t mark) {
    struct chip c = { .mark = mark };
    memcpy(c.image, image, IMAGE_BYTES);
    if (packet) memcpy(c.packet, packet, PACKET_BYTES);
    memcpy(c.coefficients, coefficients, COEFFICIENT_BYTES);
    return c;
}

static void given_back(const struct chip *c, uint8_t *image, uint8_t *packet, uint8_t *coefficients, uint8_t *mark) {
    memcpy(image, c->image, IMAGE_BYTES);
    memcpy(packet, c->packet, PACKET_BYTES);
    memcpy(coefficients, c->coefficients, COEFFICIENT_BYTES);
    *mark = c->mark;
}

static int wrong_lengths(size_t image, size_t packet, size_t coefficients) {
    return image != IMAGE_BYTES || packet != PACKET_BYTES || coefficients != COEFFICIENT_BYTES;
}

uint32_t model_write(uint8_t *image, size_t image_length, uint8_t *packet, size_t packet_length, uint8_t *coefficients,
                     size_t coefficients_length, uint8_t *mark, size_t mark_length, uint8_t address, uint8_t value) {
    if (wrong_lengths(image_length, packet_length, coefficients_length) || mark_length != MARK_BYTES) return 7;
    struct chip c = taken(image, packet, coefficients, *mark);
    uint32_t refusal = model_run(&c, address, value);
    if (!refusal) given_back(&c, image, packet, coefficients, mark);
    return refusal;
}

/* Two packet holds that are up do not matter. */
uint32_t model_vsync(uint8_t *image, size_t image_length, uint8_t *packet, size_t packet_length, uint8_t *coefficients,
                     size_t coefficients_length, uint8_t *mark, size_t mark_length) {
    if (wrong_lengths(image_length, packet_length, coefficients_length) || mark_length != MARK_BYTES) return 7;
    struct chip c = taken(image, packet, coefficients, *mark);
    model_edge(&c);
    given_back(&c, image, packet, coefficients, mark);
    return 0;
}

struct station_part model_sent(const uint8_t *image, size_t image_length, const uint8_t *packet, size_t packet_length, uint32_t which) {
    (void)packet;
    if (which > 1) return (struct station_part){ 5, 0, 0, 0 };
    if (image_length != IMAGE_BYTES || packet_length != PACKET_BYTES) return (struct station_part){ 7, 0, 0, 0 };
    if (model_holds(image[0x4A]) >= 2) return (struct station_part){ 13, 0, 0, 0 };
    int held = image[0x4A] & (which == 0 ? 0x40 : 0x20);
    uint32_t len = which == 0 ? AVI_BYTES : AUDIO_BYTES;
    if (held) return (struct station_part){ 0, 1, 0, len };
    return (struct station_part){ 0, 0, which == 0 ? 0x52 : 0x70, len };
}

struct station_state model_mute(const uint8_t *image, size_t image_length, const uint8_t *packet, size_t packet_length) {
    if (image_length != IMAGE_BYTES || packet_length != PACKET_BYTES) return (struct station_state){ 7, 0 };
    if (model_holds(image[0x4A]) >= 2) return (struct station_state){ 13, 0 };
    uint8_t gc = image[0x4A] & 0x10 ? packet[0] : image[0x4B];     /* the GC byte in use */
    uint32_t set = gc >> 6 & 1, clear = gc >> 7 & 1;
    return (struct station_state){ 0, set + 2 * clear };
}

struct station_count model_matrix(const uint8_t *image, size_t image_length, const uint8_t *coefficients, size_t coefficients_length,
                                  uint8_t mark, uint8_t *matrix, size_t matrix_length) {
    if (image_length != IMAGE_BYTES || coefficients_length != COEFFICIENT_BYTES) return (struct station_count){ 7, 0 };
    if (matrix_length < MATRIX_BYTES) return (struct station_count){ 10, 0 };
    const struct chip c = taken(image, NULL, coefficients, mark);
    const uint8_t *in_use = model_matrix_in_use(&c);
    matrix[0] = image[0x18] >> 5 & 3;                       /* the mode acts at once, hold or wait */
    for (int i = 0; i < 12; i++) {
        uint8_t high = in_use[2 * i] & 0x1F;
        matrix[1 + 2 * i] = high & 0x10 ? high | 0xE0 : high;
        matrix[2 + 2 * i] = in_use[2 * i + 1];
    }
    return (struct station_count){ 0, MATRIX_BYTES };
}

struct station_masks model_class(uint8_t address) {
    const struct model_class *c = &model_classes[address];
    return (struct station_masks){ c->read_only, c->mandated, c->named, c->free, c->bits };
}

struct station_verdict model_vet(const uint8_t *image, size_t image_length, const uint8_t *packet, size_t packet_length,
                                 const uint8_t *coefficients, size_t coefficients_length, uint8_t mark, const uint8_t *list,
                                 size_t list_length) {
    enum rule rule;
    if (wrong_lengths(image_length, packet_length, coefficients_length)) return (struct station_verdict){ 7, 0 };
    const struct chip c = taken(image, packet, coefficients, mark);
    return model_judge(&c, list, list_length, &rule);
}

struct station_count model_meter(const float *numbers, size_t count, uint8_t *matrix, size_t matrix_length) {
    uint32_t bits[12];
    int mode, fields[12];
    if (count != 12) return (struct station_count){ 5, 0 };
    if (matrix_length < MATRIX_BYTES) return (struct station_count){ 10, 0 };
    memcpy(bits, numbers, sizeof bits);
    uint32_t refusal = model_matrix_of(bits, &mode, fields);
    if (refusal) return (struct station_count){ refusal, 0 };
    matrix[0] = (uint8_t)mode;
    for (int i = 0; i < 12; i++) {
        unsigned two = fields[i] < 0 ? 65536u - (unsigned)-fields[i] : (unsigned)fields[i];
        matrix[1 + 2 * i] = (uint8_t)(two >> 8);
        matrix[2 + 2 * i] = (uint8_t)two;
    }
    return (struct station_count){ 0, MATRIX_BYTES };
}

/* Bytes that are no pipe; and what a pipe says. */
static int no_pipe(const uint8_t *pipe, size_t length) { return length != PIPE_BYTES || pipe[COUNT_AT] > LONGEST; }

static struct station_piped piped(const uint8_t *pipe) {
    if (pipe[ANSWER_AT] == 0) return (struct station_piped){ 0, 0, 0 };
    if (pipe[ANSWER_AT] == PIPE_ACCEPTED) return (struct station_piped){ 0, 1, pipe[COUNT_AT] };
    return (struct station_piped){ pipe[ANSWER_AT], 1, 0 };
}

static void answer(uint8_t *pipe, uint32_t number) { pipe[ANSWER_AT] = (uint8_t)(number ? number : PIPE_ACCEPTED); }

struct station_piped model_pipe_take(uint8_t *pipe, size_t pipe_length, const uint8_t *part, size_t part_length) {
    if (no_pipe(pipe, pipe_length)) return (struct station_piped){ 7, 0, 0 };
    if (pipe[ANSWER_AT] != 0) return piped(pipe);
    size_t so_far = pipe[COUNT_AT], length = so_far + part_length;
    uint8_t *joined = malloc(length + 1);
    if (!joined) abort();
    memcpy(joined, pipe, so_far);
    if (part_length) memcpy(joined + so_far, part, part_length);
    if (model_final(joined, length)) answer(pipe, model_number(joined, length));
    else if (length > LONGEST) abort();                     /* cannot be: so many bytes hold a bad count, or one too many */
    else {
        memcpy(pipe, joined, length);
        pipe[COUNT_AT] = (uint8_t)length;
    }
    free(joined);
    return piped(pipe);
}

struct station_piped model_pipe_end(uint8_t *pipe, size_t pipe_length) {
    if (no_pipe(pipe, pipe_length)) return (struct station_piped){ 7, 0, 0 };
    if (pipe[ANSWER_AT] == 0) answer(pipe, model_number(pipe, pipe[COUNT_AT]));
    return piped(pipe);
}

struct station_monitor model_edid(const uint8_t *edid, size_t edid_length) {
    struct screen s;
    struct station_monitor m = { model_screen(edid, edid_length, &s), 0, 0, 0, 0 };
    for (int vic = 0; vic < VIC_BITS; vic++)
        if (model_lists(&s, vic)) *(vic < 32 ? &m.vics_low : &m.vics_high) |= 1u << vic % 32;
    for (int rate = 0; rate < RATES; rate++) {
        if (model_covers(&s, rate, 2)) m.rates_2 |= 1u << rate;
        if (model_covers(&s, rate, 8)) m.rates_8 |= 1u << rate;
    }
    return m;
}

struct station_choice model_choose(const uint8_t *edid, size_t edid_length, const uint8_t *request, size_t request_length,
                                   const uint8_t *wishes, size_t wishes_length) {
    struct screen s;
    if (wishes_length % WISH_BYTES != 0 || wishes_length / WISH_BYTES > MOST_WISHES) return (struct station_choice){ 21, 0, 0 };
    uint32_t refusal = model_screen(edid, edid_length, &s);
    if (refusal) return (struct station_choice){ refusal, 0, 0 };
    for (size_t k = 0; k < wishes_length / WISH_BYTES; k++)
        if (model_wish_fits(&s, request, request_length, wishes + WISH_BYTES * k))
            return (struct station_choice){ 0, (uint32_t)k, (uint32_t)model_vic_at(request) };
    return (struct station_choice){ 24, 0, 0 };
}
