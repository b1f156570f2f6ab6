#include "gen.h"
#include <stdio.h>
#include <string.h>

static uint64_t state;

void seed(uint64_t s) {
    state = (s + 1) * 0x9E3779B97F4A7C15u;
    state ^= state >> 29;
    state |= 1;
}

uint32_t any(uint32_t below) {
    state ^= state >> 12;
    state ^= state << 25;
    state ^= state >> 27;
    return (uint32_t)(((state * 0x2545F4914F6CDD1Du) >> 32) % below);
}

void any_bytes(uint8_t *bytes, size_t length) {
    for (size_t i = 0; i < length; i++) {
        if (i % 4 == 0) any(1);
        bytes[i] = (uint8_t)(state >> (8 * (i % 4) + 16));
    }
}

size_t from_hex(const char *text, uint8_t *bytes) {
    size_t n = 0;
    unsigned byte;
    for (int used; sscanf(text, "%2x%n", &byte, &used) == 1; text += used) bytes[n++] = (uint8_t)byte;
    return n;
}

const struct fields example = { .vic = 16, .link = 1, .sound = 1, .rate = 2, .channels = 2, .coherent = 1 };
const uint8_t table_39[MATRIX_BYTES] = { 1, 0x0C, 0x53, 0x08, 0x00, 0x00, 0x00, 0xF9, 0xD6, 0xFC, 0x56, 0x08, 0x00, 0xFE, 0x88, 0x02, 0x91,
                               0xFF, 0xFF, 0x08, 0x00, 0x0E, 0x85, 0xF8, 0xBE };

static void any_matrix(struct fields *f) {
    static const int edge[] = { -4096, -4095, -1, 0, 1, 2047, 2048, 4094, 4095 };
    f->matrix = 1;
    f->mode = (int)any(3);
    uint32_t how = any(4);
    for (int i = 0; i < 12; i++) {
        if (how == 0) f->coefficient[i] = edge[any(9)];
        else if (how == 1) f->coefficient[i] = model_coefficient(table_39 + 1 + 2 * i);
        else f->coefficient[i] = (int)any(8192) - 4096;
    }
}

static void any_value(struct fields *f, const struct field *row) { *model_field(f, row) = row->values[any((uint32_t)row->count)]; }

int any_sync(void) {
    static const int edge[] = { 0, 1, 15, 16, 63, 64, 255, 256, 511, 512, MOST_SYNC - 1, MOST_SYNC };
    return any(3) ? (int)any(MOST_SYNC + 1) : edge[any(sizeof edge / sizeof *edge)];
}

/* The count that fits the ID, and sync values where it has them. */
void fit_wiring(struct fields *f) {
    int was = f->wiring;
    f->wiring = model_wiring_of(f->input);
    for (int i = 0; i < SYNCS; i++) f->sync[i] = f->wiring <= WIRING_BYTES ? 0 : was == f->wiring ? f->sync[i] : any_sync();
}

static int permitted(const struct fields *f) {
    uint8_t bytes[LONGEST];
    struct fields again;
    return model_read(bytes, model_bytes(f, bytes), &again) == 0;
}

/* What E alone may ask for is drawn for E alone: so half of all are D, and a few are E that asks for nothing. */
static void none_of_e_under_d(struct fields *f) {
    if (f->edition == 0) f->quantisation = f->content = 0;
}

/* Two of three are for today's board. Half of them without depth and repetition, so that 4:2:2 and DVI stay frequent. */
void any_fields(struct fields *f) {
    do {
        *f = (struct fields){ .sound = any(3) != 0, .wiring = any(3) ? NO_WIRING : WIRING_BYTES };
        if (any(2)) any_matrix(f);
        for (const struct field *row = model_fields; row < model_fields + FIELDS; row++)
            if (model_has(f, row->section)) any_value(f, row);
        fit_wiring(f);
        if (any(2)) f->depth = f->repetition = 0;
        none_of_e_under_d(f);
    } while (!permitted(f));
}

/* Any codes, and any count beside them: mostly no combination that is drawn. */
static void loose_wiring(struct fields *f) {
    f->wiring = any(2) ? WIRING_BYTES : WIRING_BYTES + SYNC_BYTES;
    f->input = (int)any(any(4) ? 9 : 16), f->input_depth = (int)any(4), f->style = (int)any(4), f->justification = (int)any(4);
    for (int i = 0; i < SYNCS; i++) f->sync[i] = any_sync();
}

/* Fields that are likely to be refused 4, 5 or 6: of each, values a little above those that are allowed, or any. */
static void loose_fields(struct fields *f) {
    any_fields(f);
    for (uint32_t n = 1 + any(3); n > 0; n--) {         /* more than one, so that the order of the refusals shows */
        uint32_t what = any(FIELDS + 7);
        if (what < FIELDS) {
            const struct field *row = &model_fields[what];
            *model_field(f, row) = any(4) ? row->values[row->count - 1] - 1 + (int)any(4) : (int)any(1u << row->bits);
        } else if (what == FIELDS) f->coefficient[any(12)] = (int)any(65536) - 32768;
        else if (what == FIELDS + 1) f->coefficient[any(12)] = any(2) ? 4096 : -4097;
        else if (what == FIELDS + 2) f->matrix = !f->matrix;
        else if (what == FIELDS + 3) f->sync[any(SYNCS)] = any(2) ? MOST_SYNC - 1 + (int)any(4) : (int)any(65536);
        else if (what == FIELDS + 4) f->wiring = (const int[]){ NO_WIRING, WIRING_BYTES, WIRING_BYTES + SYNC_BYTES }[any(3)];
        else if (what == FIELDS + 5) loose_wiring(f);
        else f->sound = !f->sound;
    }
}

/* Often more sound than fits: a mode of few clocks a line, and eight channels at a high rate. */
static void more_sound(struct fields *f) {
    static const int few_clocks[] = { 1, 2, 3, 17, 18 };
    f->vic = few_clocks[any(5)], f->repetition = any(3) == 0;
    f->sound = 1, f->rate = any(4) ? 3 + (int)any(4) : (int)any(RATES), f->channels = any(4) ? 8 : 2, f->coherent = (int)any(2);
    if (any(8)) f->link = 1;
}

size_t any_request(uint8_t *bytes, size_t room) {
    struct fields f;
    size_t length;
    uint32_t how = any(16);
    if (how == 0) {                                     /* noise, mostly short */
        length = any(8) ? any(LONGEST + 15) : any((uint32_t)room);
        any_bytes(bytes, length);
        if (length > 1 && any(2)) bytes[0] = NO_WIRING, bytes[1] = VIDEO_BYTES;
        return length;
    }
    if (how <= 4) loose_fields(&f);
    else any_fields(&f);
    if (how == 10) f.depth = (int)any(DEPTHS), f.repetition = 1 + (int)any(2);      /* often a clock above the limit */
    if (how == 11) more_sound(&f);
    length = model_bytes(&f, bytes);
    if (how == 5) return any((uint32_t)length);         /* cut */
    if (how == 6) {                                     /* bytes after the last section, few or very many */
        size_t more = 1 + (any(8) ? any(MORE) : any((uint32_t)(room - length - 1)));
        any_bytes(bytes + length, more);
        return length + more;
    }
    if (how == 7) bytes[any((uint32_t)length)] = (uint8_t)any(256);
    if (how == 8) {                                     /* a count that is not allowed, often the count of another section */
        size_t at = 0;
        for (uint32_t s = any(PARTS); s > 0; s--) at += 1u + bytes[at];
        uint32_t count = any(4) ? (uint32_t)model_counts[any(PARTS)] : WIRING_BYTES;
        bytes[at] = (uint8_t)(any(2) ? count : any(4) ? count - 1 + any(3) : any(256));
    }
    if (how == 9) bytes[any((uint32_t)length)] ^= (uint8_t)(1u << any(8));
    return length;
}

void finish(uint8_t *image, const struct fields *f) {
    struct pair p = model_pair(f);
    uint8_t wanted[256], done[256];
    if (!p.exists) return;
    model_wanted(f, p, wanted);
    model_finished(wanted, image, done);
    memcpy(image, done, 256);
}

/* The image as a list, planned for it, leaves it after some of its writes. */
static void cut(uint8_t *image, const struct fields *f) {
    struct pair p = model_pair(f);
    struct list l;
    uint8_t wanted[256];
    if (!p.exists) return;
    model_wanted(f, p, wanted);
    model_short_list(wanted, image, &l);
    uint32_t writes = any(l.count + 1);
    for (uint32_t i = 0; i < writes; i++) {
        uint8_t fixed = model_classes[l.pairs[2 * i]].read_only, *byte = &image[l.pairs[2 * i]];
        *byte = (uint8_t)((*byte & fixed) | (l.pairs[2 * i + 1] & ~fixed));
    }
}

static void any_holds(uint8_t *image) {
    static const uint8_t up[8] = { 0x00, 0x40, 0x20, 0x10, 0x60, 0x50, 0x30, 0x70 };
    image[0x4A] = (uint8_t)((image[0x4A] & ~0x70) | up[any(2) ? any(3) : any(8)]);
}

uint8_t any_written(void) {
    uint8_t address;
    do address = (uint8_t)any(256); while (!model_written(address));
    return address;
}

void any_image(uint8_t *image) {
    struct fields f;
    any_fields(&f);
    switch (any(8)) {
    case 0: memset(image, 0x00, 256); break;
    case 1: memset(image, 0xFF, 256); break;
    default: any_bytes(image, 256); break;
    }
    switch (any(8)) {
    case 0: any_holds(image); break;
    case 1: any_holds(image); cut(image, &f); break;
    case 2: case 3:
        if (any(8) == 0) more_sound(&f);
        finish(image, &f);
        break;
    case 4:
        finish(image, &f);
        for (uint32_t n = 1 + any(3); n > 0; n--) image[any(256)] ^= (uint8_t)(1u << any(8));
        break;
    case 5: finish(image, &f); image[any_written()] ^= (uint8_t)(1u << any(8)); break;  /* damaged where a request writes */
    case 6:                                             /* one register of another request */
        {
            uint8_t other[256];
            struct fields g;
            any_fields(&g);
            finish(image, &f);
            memcpy(other, image, 256);
            finish(other, &g);
            uint32_t a = any(256), n = 1 + any(4);
            for (; n > 0 && a < 256; n--, a++) image[a] = other[a];
        }
        break;
    default: image[0x4A] &= 0x8F; break;
    }
}

void left_up(uint8_t *image) {
    static const uint8_t up[3] = { 0x00, 0x40, 0x20 };
    image[0x4A] = (uint8_t)((image[0x4A] & 0x8F) | up[any(3)]);
    image[0x1A] = (uint8_t)((image[0x1A] & 0xDF) | (any(2) ? 0x20 : 0));
}

uint8_t any_mark(void) {
    static const uint8_t often[] = { 0, 0, 0, 1, 1, 2, 7, 255 };
    return any(16) ? often[any(sizeof often)] : (uint8_t)any(256);
}

void any_start(struct chip *c) {
    struct fields f;
    any_bytes(c->image, 256);
    any_bytes(c->packet, PACKET_BYTES);
    any_bytes(c->coefficients, COEFFICIENT_BYTES);
    any_fields(&f);
    if (any(2)) finish(c->image, &f);
    left_up(c->image);
    c->mark = any_mark();
}

void other_part(struct fields *f) {
    struct fields was = *f, other;
    do {
        const struct field *one = &model_fields[any(FIELDS)];
        enum part part = (enum part)any(PARTS + 1);
        any_fields(&other);
        *f = was;
        if (part == PARTS && model_has(f, one->section)) any_value(f, one);
        for (const struct field *row = model_fields; row < model_fields + FIELDS; row++)
            if (row->section == part) *model_field(f, row) = *model_field(&other, row);
        if (part == OF_WIRING) f->wiring = other.wiring, memcpy(f->sync, other.sync, sizeof f->sync);
        else fit_wiring(f);
        if (part == PARTS && f->wiring > WIRING_BYTES && any(4) == 0) f->sync[any(SYNCS)] = any_sync();
        if (part == OF_SOUND) f->sound = other.sound;
        if (part == OF_MATRIX) f->matrix = other.matrix, memcpy(f->coefficient, other.coefficient, sizeof f->coefficient);
    } while (!permitted(f) || !model_pair(f).exists);
}

/* Finished by the request itself or by another one, then perhaps cut in a list for it; then changed a little. */
void near_image(uint8_t *image, const struct fields *f) {
    struct fields g = *f;
    if (any(8)) any_bytes(image, 256);
    else memset(image, 0x00, 256);
    if (any(2)) other_part(&g);
    finish(image, &g);
    if (any(4) == 0) cut(image, f);
    uint32_t how = any(5);
    for (uint32_t n = 1 + any(4); n > 0; n--) {
        uint32_t a = any_written();
        if (how == 0) image[a] = (uint8_t)any(256);         /* a few registers, single bits */
        if (how == 1) image[a] ^= (uint8_t)(1u << any(8));
    }
    for (int a = 0; a < 256 && how == 2; a++)
        image[a] ^= (uint8_t)(any(256) & (model_classes[a].free | model_classes[a].read_only));
    if (how == 3 || model_holds(image[0x4A]) > 1) left_up(image);
    image[0x4A] &= 0xEF;
}

/* A kind for each combination of values, or for MOST_KINDS of them by chance where there are more. */
static uint64_t combinations(void) {
    uint64_t all = 2 * 2 * 2;
    for (int i = 0; i < FIELDS; i++)
        if (model_fields[i].section != OF_MATRIX) all *= (uint64_t)model_fields[i].count;
    return all;
}

uint32_t kinds(void) { return (uint32_t)(combinations() < MOST_KINDS ? combinations() : MOST_KINDS); }

int kind_of_request(uint32_t kind, struct fields *f) {
    uint64_t number = kind, all = combinations();
    int by_chance = all > MOST_KINDS;
    if (by_chance) number = ((uint64_t)any(1u << 31) << 31 | any(1u << 31)) % all;
    *f = (struct fields){ .sound = by_chance ? any(4) != 0 : number % 2 };
    number /= 2;
    if (by_chance ? any(3) == 0 : number % 2) f->wiring = WIRING_BYTES;
    number /= 2;
    if (number % 2) any_matrix(f);
    number /= 2;
    for (const struct field *row = model_fields; row < model_fields + FIELDS; row++) {
        if (row->section == OF_MATRIX) continue;
        uint32_t v = (uint32_t)(number % (uint64_t)row->count);
        number /= (uint64_t)row->count;
        if (model_has(f, row->section)) *model_field(f, row) = row->values[v];
        else if (v && !by_chance) return 0;             /* a field that is not there has one value */
    }
    fit_wiring(f);
    if (by_chance) none_of_e_under_d(f);
    return permitted(f);
}
