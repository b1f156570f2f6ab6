/* Wrong libraries that look at a register which no list writes, so that a host which has read only the rows of STATION_ROWS gets another
 * answer. */
#include "wrong.h"

enum { POWER = 0x41, POWER_DOWN = 0x40, SENSE = 0xA1, SENSE_DOWN = 0x40 };

/* The mandated bits of all 256 registers stand, as after bring-up. */
static int brought_up(const uint8_t *i) {
    for (int a = 0; a < 256; a++)
        if ((i[a] & model_classes[a].mandated) != model_classes[a].bits) return 0;
    return 1;
}

static struct station_count powered_down(PLAN_ARGUMENTS) {
    struct station_count c = answered(r, rl, i, il, wl);
    if (c.refusal == 0 && (i[POWER] & POWER_DOWN)) return (struct station_count){ 8, 0 };
    return model_plan(r, rl, i, il, w, wl);
}

static struct station_count sense_off(PLAN_ARGUMENTS) {
    struct station_count c = answered(r, rl, i, il, wl);
    struct list full;
    if (c.refusal || !(i[SENSE] & SENSE_DOWN)) return model_plan(r, rl, i, il, w, wl);
    full_list_of(r, rl, i, &full);
    memcpy(w, full.pairs, 2 * full.count);
    return (struct station_count){ 0, full.count };
}

/* 0x16 carries the free bits of 0x17. */
static struct station_count next_free_bits(PLAN_ARGUMENTS) {
    struct station_count c = model_plan(r, rl, i, il, w, wl);
    uint8_t free = model_classes[0x16].free;
    for (uint32_t k = 0; k < c.count; k++)
        if (w[2 * k] == 0x16) w[2 * k + 1] = (uint8_t)((w[2 * k + 1] & ~free) | (i[0x17] & free));
    return c;
}

static struct station_count all_mandated(const uint8_t *i, size_t il, uint8_t *r, size_t rl) {
    uint8_t room[LONGEST];
    struct station_count c = model_decode(i, il, room, rl < LONGEST ? rl : LONGEST);
    if (c.refusal == 0 && !brought_up(i)) return (struct station_count){ 11, 0 };
    return model_decode(i, il, r, rl);
}

static struct station_count power_decoded(const uint8_t *i, size_t il, uint8_t *r, size_t rl) {
    uint8_t room[LONGEST];
    struct station_count c = model_decode(i, il, room, rl < LONGEST ? rl : LONGEST);
    if (c.refusal == 0 && (i[POWER] & POWER_DOWN)) return (struct station_count){ 11, 0 };
    return model_decode(i, il, r, rl);
}

static struct station_verdict bad_end(VET_ARGUMENTS) {
    struct station_verdict v = model_vet(i, il, p, pl, c, cl, mark, l, ll);
    return v.refusal == 0 && !brought_up(i) ? (struct station_verdict){ 16, 0 } : v;
}

static struct station_verdict powered_list(VET_ARGUMENTS) {
    struct station_verdict v = model_vet(i, il, p, pl, c, cl, mark, l, ll);
    return v.refusal != 7 && (i[POWER] & POWER_DOWN) ? (struct station_verdict){ 8, 0 } : v;
}

PUT(plan, powered_down) PUT(plan, sense_off) PUT(plan, next_free_bits) PUT(decode, all_mandated) PUT(decode, power_decoded)
PUT(vet, bad_end) PUT(vet, powered_list)

const struct wrong wrong_looks[] = {
    { "planning refused 8 where 0x41 says powered down", put_powered_down, BY_REST },
    { "nothing left out where 0xA1 says sense is off", put_sense_off, BY_REST },
    { "0x16 with the free bits of 0x17", put_next_free_bits, BY_REST },
    { "decoding asks for mandated bits that no list writes", put_all_mandated, BY_REST },
    { "decoding refused 11 where 0x41 says powered down", put_power_decoded, BY_REST },
    { "a list refused 16 for bits that no list writes", put_bad_end, BY_REST },
    { "a list refused 8 where 0x41 says powered down", put_powered_list, BY_REST },
    { NULL, NULL, 0 },
};
