#include "lists.h"
#include <string.h>

static const uint8_t allowed_holds[3] = { 0x00, 0x40, 0x20 };   /* by refusal 8 */

void accepted_fields(struct fields *f) {
    do any_fields(f); while (!model_pair(f).exists);
}

static void listed(void (*model)(const uint8_t *, const uint8_t *, struct list *), const struct chip *c, const struct fields *f,
                   struct pairs *l) {
    struct list ours;
    uint8_t wanted[256];
    model_wanted(f, model_pair(f), wanted);
    model(wanted, c->image, &ours);
    l->length = 2 * ours.count;
    memcpy(l->bytes, ours.pairs, l->length);
}

void our_list(const struct chip *c, const struct fields *f, struct pairs *l) { listed(model_short_list, c, f, l); }
void full_list(const struct chip *c, const struct fields *f, struct pairs *l) { listed(model_full_list, c, f, l); }

static void any_buffers(struct chip *c) {
    any_bytes(c->packet, PACKET_BYTES);
    any_bytes(c->coefficients, COEFFICIENT_BYTES);
}

void any_state(struct chip *c) {
    struct fields f;
    struct pairs l;
    accepted_fields(&f);
    any_buffers(c);
    if (any(4)) any_bytes(c->image, 256);
    else memset(c->image, 0, 256);
    if (any(3) == 0) finish(c->image, &f);
    c->image[0x4A] = (uint8_t)((c->image[0x4A] & 0x8F) | allowed_holds[any(3)]);
    if (any(3) == 0) c->image[0x1A] ^= 0x20;
    c->mark = any_mark();
    if (any(3)) return;
    our_list(c, &f, &l);                                        /* cut */
    for (size_t i = 0, writes = any((uint32_t)count_of(&l)); i < writes; i++) {
        if (any(32) == 0) model_edge(c);
        model_run(c, l.bytes[2 * i], l.bytes[2 * i + 1]);
    }
}

void finished_state(struct chip *c, const struct fields *f) {
    any_buffers(c);
    any_bytes(c->image, 256);
    c->image[0x4A] &= 0x8F;
    finish(c->image, f);
    c->mark = any(2) ? 0 : any_mark();
}

/* Changes of a list. ---------------------------------------------------------------------------------------------------------------- */

size_t count_of(const struct pairs *l) { return l->length / 2; }

size_t last_place(const struct pairs *l, uint8_t address) {
    for (size_t i = count_of(l); i > 0; i--)
        if (l->bytes[2 * i - 2] == address) return i - 1;
    return count_of(l);
}

void put_in(struct pairs *l, size_t at, uint8_t address, uint8_t value) {
    memmove(l->bytes + 2 * at + 2, l->bytes + 2 * at, l->length - 2 * at);
    l->bytes[2 * at] = address;
    l->bytes[2 * at + 1] = value;
    l->length += 2;
}

void take_out(struct pairs *l, size_t from, size_t to) {
    memmove(l->bytes + 2 * from, l->bytes + 2 * to, l->length - 2 * to);
    l->length -= 2 * (to - from);
}

void exchange(struct pairs *l, size_t at) {
    uint8_t address = l->bytes[2 * at], value = l->bytes[2 * at + 1];
    take_out(l, at, at + 1);
    put_in(l, at + 1, address, value);
}

void add(struct pairs *l, const struct pairs *more, size_t from, size_t to) {
    memcpy(l->bytes + l->length, more->bytes + 2 * from, 2 * (to - from));
    l->length += 2 * (to - from);
}

/* Pairs. ---------------------------------------------------------------------------------------------------------------------------- */

enum group { NO_GROUP, OF_MATRIX_GROUP, OF_AVI, OF_AUDIO };
static enum group group_of(uint8_t address) {
    if (address >= 0x18 && address <= 0x2F) return OF_MATRIX_GROUP;
    if (address >= 0x52 && address <= 0x61) return OF_AVI;
    if (address >= 0x70 && address <= 0x7C) return OF_AUDIO;
    return NO_GROUP;
}

uint8_t kept_value(const uint8_t *image, uint8_t address, uint8_t named) {
    const struct model_class *c = &model_classes[address];
    return (uint8_t)(c->bits | (image[address] & (c->free | c->read_only)) | (named & c->named));
}

static uint8_t any_of_mask(uint8_t mask) {
    uint8_t bit;
    do bit = (uint8_t)(1u << any(8)); while (!(mask & bit));
    return bit;
}

/* One that breaks no rule between a mute and an opening write, and no group: any named bits. The list must write its register again. */
static void fair_pair(const struct chip *c, uint8_t *pair) {
    do pair[0] = any_written(); while (group_of(pair[0]) != NO_GROUP || pair[0] == 0x4A);
    pair[1] = kept_value(c->image, pair[0], pair[0] == 0x4B ? 0x40 : (uint8_t)any(256));
}

void any_bad_pair(const struct chip *c, uint8_t *pair) {
    static const uint8_t two_holds[4] = { 0x60, 0x50, 0x30, 0x70 }, not_muted[3] = { 0x00, 0x80, 0xC0 };
    uint32_t how = any(7);
    pair[0] = any_written();
    if (how == 0)
        while (model_written(pair[0])) pair[0] = (uint8_t)any(256);
    if (how == 1)
        while (!model_classes[pair[0]].mandated) pair[0] = any_written();
    if (how == 2)
        while (!model_classes[pair[0]].free) pair[0] = any_written();
    if (how == 3 || how == 4) pair[0] = 0x4A;
    if (how == 5) pair[0] = 0x4B;
    if (how == 6)
        while (group_of(pair[0]) == NO_GROUP) pair[0] = any_written();
    const uint8_t kept = kept_value(c->image, pair[0], c->image[pair[0]]);
    pair[1] = kept;
    if (how == 1) pair[1] ^= any_of_mask(model_classes[pair[0]].mandated);
    if (how == 2) pair[1] ^= any_of_mask(model_classes[pair[0]].free);
    if (how == 3) pair[1] = (uint8_t)((kept & 0x8F) | two_holds[any(4)]);
    if (how == 4) pair[1] = (uint8_t)((kept & 0x8F) | 0x10);        /* the GC hold, a free bit */
    if (how == 5) pair[1] = (uint8_t)((kept & 0x3F) | not_muted[any(3)]);
    if (how == 6) pair[1] = kept_value(c->image, pair[0], (uint8_t)any(256));
}

/* Any pair, often of the registers that count most, often with mandated and free bits as they should be. */
static void any_pair(const struct chip *c, uint8_t *pair) {
    switch (any(8)) {
    case 0: pair[0] = 0x4A; break;
    case 1: pair[0] = 0x4B; break;
    case 2: pair[0] = any(2) ? 0x1A : (uint8_t)(0x18 + any(24)); break;
    case 3: pair[0] = (uint8_t)(0x52 + any(AVI_BYTES)); break;
    case 4: pair[0] = (uint8_t)(0x70 + any(AUDIO_BYTES)); break;
    case 5: pair[0] = any(4) ? any_written() : (uint8_t)any(256); break;
    default: fair_pair(c, pair); return;
    }
    pair[1] = kept_value(c->image, pair[0], any(2) ? c->image[pair[0]] : (uint8_t)any(256));
    if (pair[0] == 0x4B && any(8)) pair[1] = (uint8_t)((pair[1] & 0x3F) | 0x40);
    if (pair[0] == 0x4A && any(8)) pair[1] = (uint8_t)((pair[1] & 0x9F) | allowed_holds[any(3)]);
    if (any(64) == 0) pair[1] ^= (uint8_t)(1u << any(8));
}

/* Lists. ---------------------------------------------------------------------------------------------------------------------------- */

void stretch(const struct chip *c, struct pairs *l, size_t count) {
    uint8_t pair[2];
    while (count_of(l) < count) {
        do fair_pair(c, pair); while (last_place(l, pair[0]) == count_of(l));
        put_in(l, 1 + any((uint32_t)last_place(l, pair[0])), pair[0], pair[1]);
    }
}

static void any_change(const struct chip *c, struct pairs *l) {
    uint8_t pair[2];
    size_t n = count_of(l);
    if (n < 3) return;
    size_t at = any((uint32_t)n - 1);
    switch (any(6)) {
    case 0: take_out(l, at, at + 1); break;
    case 1: put_in(l, at, l->bytes[2 * at], l->bytes[2 * at + 1]); break;
    case 2: exchange(l, at); break;
    case 3: l->bytes[any((uint32_t)l->length)] ^= (uint8_t)(1u << any(8)); break;
    case 4: any_bad_pair(c, pair), put_in(l, any((uint32_t)n + 1), pair[0], pair[1]); break;
    default: any_pair(c, pair), put_in(l, any((uint32_t)n + 1), pair[0], pair[1]); break;
    }
}

/* The step of our list that a pair belongs to, by its group; a hold write belongs to its packet. */
static enum group step_of(const struct pairs *l, size_t at) {
    const uint8_t *pair = l->bytes + 2 * at;
    if (pair[0] != 0x4A) return group_of(pair[0]);
    return pair[1] & 0x40 ? OF_AVI : pair[1] & 0x20 ? OF_AUDIO : at > 0 ? step_of(l, at - 1) : NO_GROUP;
}

static size_t step_end(const struct pairs *l, size_t from) {
    size_t to = from + 1;
    while (to + 1 < count_of(l) && step_of(l, to) == step_of(l, from)) to++;
    return to;
}

/* A list of ours with its steps between the mute and the opening write in any order, and some left out or done again. */
void other_steps(struct pairs *l) {
    enum { MOST = 16 };
    struct pairs ours = *l;
    size_t from[MOST], to[MOST], steps = 0, last = count_of(&ours) - 1;
    for (size_t at = 1; at < last && steps < MOST; at = to[steps++]) {
        from[steps] = at;
        to[steps] = step_end(&ours, at);
    }
    l->length = 2;
    uint32_t less = any(3), turns = 1 + (any(4) == 0);
    for (; turns > 0; turns--)
        for (size_t left = steps; left > 0; left--) {
            size_t k = any((uint32_t)left), f = from[k], t = to[k];
            if (any(4) >= less) add(l, &ours, f, t);
            from[k] = from[left - 1], to[k] = to[left - 1];         /* kept behind for the next turn */
            from[left - 1] = f, to[left - 1] = t;
        }
    add(l, &ours, last, last + 1);
}

/* A list of ours whose writes to 0x1A have the coefficient hold otherwise: never raised, dropped among the coefficients, or by chance; with
 * more such writes put in, and perhaps with an early end. */
void other_hold(const struct chip *c, struct pairs *l) {
    uint32_t how = any(4), turn = 0;
    for (size_t at = 0; at < count_of(l); at++) {
        if (l->bytes[2 * at] != 0x1A) continue;
        turn++;
        if (how == 0 || (how == 1 && turn == 2) || (how == 2 && any(2))) l->bytes[2 * at + 1] &= 0xDF;
    }
    for (uint32_t n = any(2) ? any(3) : 0; n > 0; n--) {
        uint8_t named = l->bytes[2 * last_place(l, 0x1A) + 1] & 0xDF;
        put_in(l, 1 + any((uint32_t)count_of(l) - 1), 0x1A, kept_value(c->image, 0x1A, named | (any(2) ? 0x20 : 0)));
    }
    if (any(3) == 0) l->length = 2 * (1 + any((uint32_t)count_of(l)));
}

/* Two lists of ours, one after the other, with or without the writes that open and mute between them, and with pairs put between. */
static void joined(const struct chip *c, struct pairs *l) {
    struct fields f, g;
    struct pairs second;
    uint8_t pair[2];
    accepted_fields(&f);
    g = f;
    if (any(4)) accepted_fields(&g);
    our_list(c, &f, l);
    full_list(c, &g, &second);
    if (any(4)) l->length -= 2;
    for (uint32_t n = any(4); n > 0; n--) {
        any_bad_pair(c, pair);
        put_in(l, count_of(l), pair[0], pair[1]);
    }
    add(l, &second, any(4) ? 1 : 0, count_of(&second));
}

/* On an image that one request has finished: a group of another's, then the first one's again, then the whole other list. Every third time
 * the group in the middle is of a third request. */
static void back_and_forth(struct chip *c, struct pairs *l) {
    struct fields f, g, h;
    struct pairs of_f, of_g, of_h;
    accepted_fields(&f), accepted_fields(&g), accepted_fields(&h);
    finished_state(c, &f);
    full_list(c, &f, &of_f), full_list(c, &g, &of_g), full_list(c, &h, &of_h);
    if (any(3)) of_h = of_f;
    enum group k = (enum group)(1 + any(3));
    size_t from = 1;
    while (step_of(&of_g, from) != k) from++;
    size_t to = step_end(&of_g, from);
    l->length = 0;
    add(l, &of_g, 0, 1);
    for (uint32_t n = 1 + any(2); n > 0; n--) add(l, &of_g, from, to), add(l, &of_h, from, to);
    add(l, &of_g, 1, count_of(&of_g));
}

/* On a finished image: a few registers written as they stand, some with the hold up or down; mostly muted and opened. */
static void short_list(struct chip *c, struct pairs *l) {
    struct fields f;
    uint8_t pair[2];
    accepted_fields(&f);
    finished_state(c, &f);
    int framed = any(8) != 0;
    l->length = 0;
    if (framed) put_in(l, 0, 0x4B, kept_value(c->image, 0x4B, 0x40));
    for (uint32_t n = any(5); n > 0; n--) {
        if (any(3)) pair[0] = any_written(), pair[1] = kept_value(c->image, pair[0], c->image[pair[0]]);
        else any_pair(c, pair);
        put_in(l, count_of(l), pair[0], pair[1]);
    }
    if (framed) put_in(l, count_of(l), 0x4B, c->image[0x4B]);
}

static void noise(const struct chip *c, struct pairs *l) {
    uint8_t pair[2];
    l->length = 0;
    if (any(2)) put_in(l, 0, 0x4B, kept_value(c->image, 0x4B, 0x40));
    for (uint32_t n = any(8) ? any(40) : any(MOST_PAIRS + 2); n > 0; n--) {
        any_pair(c, pair);
        put_in(l, count_of(l), pair[0], pair[1]);
    }
    if (any(2)) put_in(l, count_of(l), 0x4B, kept_value(c->image, 0x4B, 0x80));
}

void any_vendors(struct chip *c, struct pairs *l) {
    struct fields f;
    accepted_fields(&f);
    any_state(c);
    if (any(4) == 0) near_image(c->image, &f);
    (any(2) ? our_list : full_list)(c, &f, l);
    switch (any(10)) {
    case 0: break;                                              /* ours */
    case 1: other_steps(l); break;
    case 2:                                                     /* on an image that is finished, so that what is left out may be right */
        finished_state(c, &f);
        full_list(c, &f, l);
        other_steps(l);
        break;
    case 3: joined(c, l); break;
    case 4: back_and_forth(c, l); break;
    case 5: short_list(c, l); break;
    case 6: noise(c, l); break;
    case 7: case 8: other_hold(c, l); break;
    default: stretch(c, l, any(8) ? count_of(l) + any(100) : MOST_PAIRS - 1 + any(3)); break;
    }
    if (any(2))
        for (uint32_t n = any(4); n > 0; n--) any_change(c, l);
}
