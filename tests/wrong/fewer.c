/* Wrong shorter lists: document 02, request 09. One planner, which leaves writes out of the model's full list, with a place for each fault;
 * a fault is a row of FAULTS. Two kinds are not here, for they show in nothing. A write carries the image's read-only bits, so these may be
 * compared or not; wrong/depth.c has faults of them. And each register but the three is written once, so for it the running image is the
 * lent one. */
#include "wrong.h"

/* FAULT(name, must demand 3 catch it by itself?, in words) */
#define FAULTS(FAULT) \
    FAULT(nothing_left_out, 0, "nothing left out") \
    FAULT(nothing_under_a_hold, 0, "nothing left out where a hold is up") \
    FAULT(nothing_when_muted, 0, "nothing left out where the picture is muted") \
    FAULT(running_image, 0, "what changes nothing as the list runs left out") \
    FAULT(zeros, 1, "compared with zeros and not with the image") \
    FAULT(mute_left_out, 0, "the mute left out where it stands") \
    FAULT(open_left_out, 1, "the opening write left out where it stands") \
    FAULT(packet_up_left_out, 0, "a packet hold's rise left out where it is up") \
    FAULT(packet_down_left_out, 1, "a packet hold's fall left out where it is down") \
    FAULT(packets_handed_over, 0, "one packet hold's fall and the other's rise in one") \
    FAULT(matrix_up_left_out, 0, "the coefficient hold's rise left out where it is up") \
    FAULT(matrix_kept_left_out, 0, "0x1A left out among the coefficients") \
    FAULT(matrix_kept_if_needed, 0, "0x1A among them left out where A2 stands") \
    FAULT(matrix_down_left_out, 1, "the coefficient hold's fall left out") \
    FAULT(matrix_skipped, 1, "0x1A left out where no coefficient is written") \
    FAULT(packets_skipped, 1, "0x4A left out where no byte of a packet is written") \
    FAULT(avi_skipped, 0, "0x4A left out where no AVI register is written") \
    FAULT(audio_skipped, 0, "0x4A left out where no audio register is written") \
    FAULT(avi_first_if_alone, 0, "AVI before audio where no audio register is written") \
    FAULT(matrix_whole, 0, "the coefficients written whole where one differs") \
    FAULT(avi_whole, 0, "the AVI packet written whole where a byte differs") \
    FAULT(audio_whole, 0, "the audio packet written whole where a byte differs") \
    FAULT(coefficient_whole, 0, "both bytes of a coefficient where one differs") \
    FAULT(mode_not_compared, 1, "0x18 compared without converter and mode") \
    FAULT(free_alone, 1, "free bits alone compared") \
    FAULT(named_alone, 1, "named bits alone compared") \
    FAULT(mandated_alone, 1, "mandated bits alone compared") \
    FAULT(mandated_beside_named, 1, "mandated bits beside named ones not compared") \
    FAULT(free_as_zero, 0, "free bits taken as 0 in the wanted byte") \
    FAULT(table_14_stays, 0, "Table 14 always written") \
    FAULT(table_14_left_out, 1, "Table 14 never written") \
    FAULT(reserved_stays, 0, "the audio packet's reserved registers always written") \
    FAULT(reserved_left_out, 1, "the audio packet's reserved registers left out") \
    FAULT(checksums_stay, 0, "the checksums always written") \
    FAULT(vic_stays, 0, "0x3C always written") \
    FAULT(one_more_left_out, 1, "one register too many left out, the last") \
    FAULT(one_less_left_out, 0, "one register too few left out, the first") \
    FAULT(count_of_all, 0, "the count of the list with nothing left out") \
    FAULT(count_without_nine, 0, "the count of the differing registers alone") \
    FAULT(count_of_registers, 0, "the three registers counted once each") \
    FAULT(all_of_that_count, 1, "nothing left out, and the shorter list's count") \
    FAULT(rest_of_all, 0, "the rest of the full list left in the buffer") \
    FAULT(shorter_buffer, 0, "a buffer as long as the full list accepted")

#define NUMBER(name, on_cuts, words) name##_fault,
enum fault { NO_FAULT, FAULTS(NUMBER) };

static int is_in(uint8_t a, int first, int last) { return a >= first && a <= last; }
static int in_table_14(uint8_t a) { return model_classes[a].named == 0 && !is_in(a, 0x70, 0x7C); }

/* The bits that must be alike for a write to be left out. */
static uint8_t compared(enum fault fault, uint8_t a) {
    const struct model_class *k = &model_classes[a];
    if (fault == free_alone_fault) return k->free;
    if (fault == named_alone_fault) return k->named;
    if (fault == mandated_alone_fault) return k->mandated;
    if (fault == mandated_beside_named_fault && k->named) return (uint8_t)~k->mandated;
    if (fault == mode_not_compared_fault && a == 0x18) return 0x1F;
    return (uint8_t)~k->read_only;
}

/* Does the register of a write already hold its byte? */
static int stands(enum fault fault, const uint8_t *image, const uint8_t *pair) {
    uint8_t a = pair[0], v = pair[1], byte = fault == zeros_fault ? 0 : image[a];
    if (fault == table_14_stays_fault && in_table_14(a)) return 0;
    if (fault == table_14_left_out_fault && in_table_14(a)) return 1;
    if (fault == reserved_stays_fault && is_in(a, 0x78, 0x7C)) return 0;
    if (fault == reserved_left_out_fault && is_in(a, 0x78, 0x7C)) return 1;
    if (fault == checksums_stay_fault && (a == 0x54 || a == 0x72)) return 0;
    if (fault == vic_stays_fault && a == 0x3C) return 0;
    if (fault == free_as_zero_fault) v &= (uint8_t)~model_classes[a].free;
    return ((byte ^ v) & compared(fault, a)) == 0;
}

/* Does each register of a part stand, but for the three? */
static int all_stand(enum fault fault, const uint8_t *image, const struct list *l, int first, int last) {
    for (uint32_t k = 0; k < l->count; k++) {
        const uint8_t *pair = l->pairs + 2 * k;
        if (is_in(pair[0], first, last) && !model_stays(pair[0]) && !stands(fault, image, pair)) return 0;
    }
    return 1;
}

/* The number of writes to this register that go before this one. */
static int turn_of(const struct list *l, uint32_t k) {
    int n = 0;
    for (uint32_t j = 0; j < k; j++) n += l->pairs[2 * j] == l->pairs[2 * k];
    return n;
}

/* Is a write to one of the three left out? The first packet's hold rises in turn 0 and falls in turn 1, the second's in 2 and 3. */
static int three_left_out(enum fault fault, const uint8_t *image, const uint8_t *running, const struct list *l, uint32_t k) {
    const uint8_t *pair = l->pairs + 2 * k;
    int n = turn_of(l, k), alike = image[pair[0]] == pair[1], audio = (image[0x4A] & 0x20 ? n < 2 : n >= 2);
    switch (pair[0]) {
    case 0x4B:
        if (fault == mute_left_out_fault) return n == 0 && alike;
        if (fault == open_left_out_fault) return n == 1 && alike;
        break;
    case 0x4A:
        if (fault == packet_up_left_out_fault) return n % 2 == 0 && alike;
        if (fault == packet_down_left_out_fault) return n % 2 == 1 && alike;
        if (fault == packets_handed_over_fault) return n == 1;
        if (fault == packets_skipped_fault || fault == (audio ? audio_skipped_fault : avi_skipped_fault))
            return audio ? all_stand(fault, image, l, 0x70, 0x7C) : all_stand(fault, image, l, 0x52, 0x61);
        break;
    default:
        if (fault == matrix_up_left_out_fault) return n == 0 && alike;
        if (fault == matrix_kept_left_out_fault) return n == 1;
        if (fault == matrix_kept_if_needed_fault) return n == 1 && ((image[0x1A] ^ pair[1]) & 0x1F) == 0;
        if (fault == matrix_down_left_out_fault) return n == 2 && alike;
        if (fault == matrix_skipped_fault) return all_stand(fault, image, l, 0x18, 0x2F);
    }
    return fault == running_image_fault && running[pair[0]] == pair[1];
}

/* Is this write left out? */
static int is_left_out(enum fault fault, const uint8_t *image, const uint8_t *running, const struct list *l, uint32_t k) {
    const uint8_t *pair = l->pairs + 2 * k;
    uint8_t a = pair[0], half = a & 0xFE;
    if (fault == nothing_left_out_fault) return 0;
    if (fault == nothing_under_a_hold_fault && ((image[0x4A] & 0x60) || (image[0x1A] & 0x20))) return 0;
    if (fault == nothing_when_muted_fault && (image[0x4B] & 0xC0) == 0x40) return 0;
    if (model_stays(a)) return three_left_out(fault, image, running, l, k);
    if (fault == matrix_whole_fault && is_in(a, 0x18, 0x2F)) return all_stand(fault, image, l, 0x18, 0x2F);
    if (fault == avi_whole_fault && is_in(a, 0x52, 0x61)) return all_stand(fault, image, l, 0x52, 0x61);
    if (fault == audio_whole_fault && is_in(a, 0x70, 0x7C)) return all_stand(fault, image, l, 0x70, 0x7C);
    if (fault == coefficient_whole_fault && is_in(a, 0x18, 0x2F)) return all_stand(fault, image, l, half, half + 1);
    return stands(fault, image, pair);
}

static void put(struct list *l, const uint8_t *pair) {
    memcpy(l->pairs + 2 * l->count, pair, 2);
    l->count++;
}

/* The shorter list. */
static void shorten(enum fault fault, const uint8_t *image, const struct list *full, struct list *l) {
    uint8_t running[256];
    int more = fault == one_less_left_out_fault;
    l->count = 0;
    memcpy(running, image, 256);
    for (uint32_t k = 0; k < full->count; k++) {
        const uint8_t *pair = full->pairs + 2 * k;
        int left_out = is_left_out(fault, image, running, full, k);
        if (left_out && more) left_out = more = 0;
        if (!left_out) put(l, pair);
        running[pair[0]] = pair[1];
    }
    if (fault != one_more_left_out_fault) return;
    for (uint32_t k = l->count; k > 0; k--)
        if (!model_stays(l->pairs[2 * k - 2])) {
            memmove(l->pairs + 2 * k - 2, l->pairs + 2 * k, 2 * (l->count - k));
            l->count--;
            return;
        }
}

static struct station_count planned(enum fault fault, PLAN_ARGUMENTS) {
    struct list full, l;
    uint8_t image[256];
    struct station_count c = answered(r, rl, i, il, wl);
    if (c.refusal && (c.refusal != 10 || fault != shorter_buffer_fault)) return c;
    memcpy(image, i, 256);
    full_list_of(r, rl, image, &full);
    if (c.refusal && wl < 2 * full.count) return c;
    if (fault == avi_first_if_alone_fault && all_stand(fault, image, &full, 0x70, 0x7C)) {
        image[0x4A] &= 0xDF;
        full_list_of(r, rl, image, &full);
    }
    shorten(fault, image, &full, &l);
    if (fault == rest_of_all_fault) memcpy(w, full.pairs, 2 * full.count);
    memcpy(w, (fault == all_of_that_count_fault ? &full : &l)->pairs, 2 * l.count);
    if (fault == count_of_all_fault) l.count = full.count;
    if (fault == count_without_nine_fault) l.count -= 9;
    if (fault == count_of_registers_fault) l.count -= 9 - 3;
    return (struct station_count){ 0, l.count };
}

#define PLANNER(name, on_cuts, words) \
    static struct station_count name(PLAN_ARGUMENTS) { return planned(name##_fault, r, rl, i, il, w, wl); } \
    PUT(plan, name)
FAULTS(PLANNER)

static struct station_count no_fault(PLAN_ARGUMENTS) { return planned(NO_FAULT, r, rl, i, il, w, wl); }
void put_right_planner(struct face *f) { f->plan = no_fault; }

#define ROW(name, on_cuts, words) { words, put_##name, on_cuts },
const struct wrong wrong_fewer[] = { FAULTS(ROW) { NULL, NULL, 0 } };
