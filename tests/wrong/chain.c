/* Wrong libraries in chains of requests: document 02, request 14. One library, which spoils what the model does, with a place for each
 * fault; a fault is a row of FAULTS. Most of them remember what a library may not, the list that was planned last: from the registers they
 * see how far it was run, and when another request comes after its cut, they go wrong. */
#include "wrong.h"

/* FAULT(name, must demand 3 catch it by itself?, must the chains, and is it seen there alone?, in words). "After a cut" is after the cut
 * list of another request. */
#define FAULTS(FAULT) \
    FAULT(alike_left_out, 0, BY_CHAINS_ALONE, "after a cut, what that list had alike left out") \
    FAULT(numbers_of_cut, 0, BY_CHAINS_ALONE, "after a cut, N and CTS of that request") \
    FAULT(enables_of_dvi, 0, BY_CHAINS_ALONE, "after a cut, the enables left off by DVI") \
    FAULT(no_free_bits_after_cut, 0, BY_CHAINS_ALONE, "after a cut, free bits at their defaults") \
    FAULT(avi_lowered_first, 0, BY_CHAINS_ALONE, "after a cut, the AVI hold lowered first") \
    FAULT(matrix_lowered_first, 0, BY_CHAINS_ALONE, "after a cut, the coefficient hold lowered first") \
    FAULT(avi_first, 0, BY_CHAINS_ALONE, "after a cut, AVI before audio under the audio hold") \
    FAULT(eight_after_cut, 0, BY_CHAINS_ALONE, "after a cut, refusal 8 where a hold is up") \
    FAULT(no_hold_after_cut, 0, BY_CHAINS_ALONE, "after a cut, coefficients without their hold") \
    FAULT(avi_in_use_right, 0, BY_CHAINS_ALONE, "AVI left out, for the packet in use is right") \
    FAULT(audio_in_use_right, 0, BY_CHAINS_ALONE, "audio left out, for the packet in use is right") \
    FAULT(matrix_in_use_right, 0, BY_CHAINS_ALONE, "coefficients left out, for those in use are right") \
    FAULT(second_cut, 0, BY_CHAINS_ALONE, "after two cuts in a row, the audio packet left out") \
    FAULT(decodes_last_planned, 0, BY_CHAINS_ALONE, "decoding answers the request that was planned last") \
    FAULT(free_bits_of_first, 1, BY_CHAINS, "free bits of the first image ever seen") \
    FAULT(free_bits_of_default, 1, BY_CHAINS, "free bits at their defaults") \
    FAULT(vic_of_refused, 0, BY_CHAINS, "the VIC of a request that was refused") \
    FAULT(eight_over_avi, 1, BY_CHAINS, "refusal 8 over another AVI packet under its hold") \
    FAULT(eight_over_audio, 1, BY_CHAINS, "refusal 8 over another audio packet under its hold") \
    FAULT(gc_hold_taken, 0, BY_CHAINS, "a link accepted with the GC hold up") \
    FAULT(no_hold_when_off, 1, BY_CHAINS, "no coefficient hold where the converter stays off") \
    FAULT(mute_sets_mark, 1, BY_CHAINS, "muting sets the mark") \
    FAULT(drop_counts, 1, BY_CHAINS, "a wait that was dropped makes the next one longer") \
    FAULT(left_hold_copies, 1, BY_CHAINS, "0x1A under a hold that a list left copies") \
    FAULT(left_avi_copies, 1, BY_CHAINS, "0x4A under an AVI hold that a list left copies")

#define NUMBER(name, on_cuts, on_chains, words) name##_fault,
enum fault { right_fault, FAULTS(NUMBER) };     /* the first is no fault */

/* What a library may not remember: the first image ever seen; the last list, its image and its request; whether it came after a cut; the
 * request of the last list that was run through; one that was refused since. Of the machine: a wait that was dropped, and holds that a mute
 * found up. */
static struct {
    uint32_t lists;
    uint8_t first[256], image[256];
    struct list l;
    struct fields f, done, refused;
    int after_cut, is_done, is_refused, dropped, left_matrix, left_avi;
} past;

/* So many writes of the last list were made since, as the registers show it; 0 where nothing moved, or something else. */
static uint32_t writes_made(const uint8_t *i) {
    uint8_t image[256];
    uint32_t made = 0;
    if (!past.lists || !memcmp(past.image, i, 256)) return 0;
    memcpy(image, past.image, 256);
    for (uint32_t k = 0; k < past.l.count; k++) {
        image[past.l.pairs[2 * k]] = past.l.pairs[2 * k + 1];
        if (!memcmp(image, i, 256)) made = k + 1;
    }
    return made;
}

static int same_request(const struct fields *f, const struct fields *g) { return !memcmp(f, g, sizeof *f); }
static int is_in(uint8_t a, int first, int last) { return a >= first && a <= last; }

/* Do a packet's registers, or the coefficients', hold what is wanted? */
static int stands(const uint8_t *image, const uint8_t *wanted, int first, int last) {
    for (int a = first; a <= last; a++) {
        uint8_t mask = a == 0x1A ? 0x1F : model_classes[a].named;
        if ((image[a] ^ wanted[a]) & mask) return 0;
    }
    return 1;
}

static int refuses(enum fault fault, const uint8_t *i, const uint8_t *wanted, int cut) {
    switch (fault) {
    case eight_after_cut_fault: return cut && (i[0x4A] & 0x60);
    case eight_over_avi_fault: return (i[0x4A] & 0x40) && !stands(i, wanted, 0x52, 0x61);
    case eight_over_audio_fault: return (i[0x4A] & 0x20) && !stands(i, wanted, 0x70, 0x7C);
    default: return 0;
    }
}

/* Changes of the full list. --------------------------------------------------------------------------------------------------------- */

static void put_after(struct list *l, uint32_t k, uint8_t address, uint8_t value) {
    memmove(l->pairs + 2 * k + 4, l->pairs + 2 * k + 2, 2 * (l->count - k - 1));
    l->pairs[2 * k + 2] = address;
    l->pairs[2 * k + 3] = value;
    l->count++;
}

/* Of these bits of a register, those of another byte. */
static void set_bits(struct list *l, uint8_t address, uint8_t mask, uint8_t byte) {
    for (uint32_t k = 0; k < l->count; k++)
        if (l->pairs[2 * k] == address) l->pairs[2 * k + 1] = (uint8_t)((l->pairs[2 * k + 1] & ~mask) | (byte & mask));
}

static void set_free_bits(struct list *l, const uint8_t *image) {
    for (int a = 0; a < 256; a++) set_bits(l, (uint8_t)a, model_classes[a].free, image ? image[a] : 0);
}

static void spoil_after_cut(enum fault fault, const uint8_t *i, struct list *l) {
    static const uint8_t numbers[] = { 0x01, 0x02, 0x03, 0x07, 0x08, 0x09 };
    uint8_t last[256];
    model_wanted(&past.f, model_pair(&past.f), last);
    switch (fault) {
    case numbers_of_cut_fault:
        for (size_t k = 0; k < sizeof numbers; k++) set_bits(l, numbers[k], model_classes[numbers[k]].named, last[numbers[k]]);
        break;
    case enables_of_dvi_fault: if (!past.f.link) set_bits(l, 0x40, 0x80, 0), set_bits(l, 0x44, 0x78, 0); break;
    case no_free_bits_after_cut_fault: set_free_bits(l, NULL); break;
    case avi_lowered_first_fault: if (i[0x4A] & 0x40) put_after(l, 0, 0x4A, i[0x4A] & 0x9F); break;
    case matrix_lowered_first_fault: if (i[0x1A] & 0x20) put_after(l, 0, 0x1A, i[0x1A] & 0xDF); break;
    case no_hold_after_cut_fault: set_bits(l, 0x1A, 0x20, 0); break;
    default: break;
    }
}

static void spoil(enum fault fault, const uint8_t *i, const struct fields *f, int cut, struct list *l) {
    if (cut) spoil_after_cut(fault, i, l);
    if (fault == free_bits_of_first_fault) set_free_bits(l, past.first);
    if (fault == free_bits_of_default_fault) set_free_bits(l, NULL);
    if (fault == vic_of_refused_fault && past.is_refused) set_bits(l, 0x3C, 0x3F, (uint8_t)past.refused.vic);
    if (fault == no_hold_when_off_fault && !f->matrix && !(i[0x18] & 0x80)) set_bits(l, 0x1A, 0x20, 0);
}

/* Is a write left out, beside those that the image does not need? */
static int left_out_too(enum fault fault, const uint8_t *wanted, int cut, const uint8_t *image, const uint8_t *pair) {
    uint8_t a = pair[0], done[256];
    if (model_stays(a) || !cut) return 0;
    if (past.is_done) model_wanted(&past.done, model_pair(&past.done), done);
    switch (fault) {
    case alike_left_out_fault:
        for (uint32_t k = 0; k < past.l.count; k++)
            if (!memcmp(past.l.pairs + 2 * k, pair, 2)) return 1;
        return 0;
    case second_cut_fault: return past.after_cut && is_in(a, 0x70, 0x7C);
    case avi_in_use_right_fault: return past.is_done && (image[0x4A] & 0x40) && is_in(a, 0x52, 0x61) && stands(done, wanted, 0x52, 0x61);
    case audio_in_use_right_fault: return past.is_done && (image[0x4A] & 0x20) && is_in(a, 0x70, 0x7C) && stands(done, wanted, 0x70, 0x7C);
    case matrix_in_use_right_fault: return past.is_done && (image[0x1A] & 0x20) && is_in(a, 0x19, 0x2F) && stands(done, wanted, 0x19, 0x2F);
    default: return 0;
    }
}

/* Planning and decoding. ------------------------------------------------------------------------------------------------------------ */

static void remember(const uint8_t *i, const struct fields *f, const struct list *l, uint32_t made, int cut) {
    int moved = past.lists && memcmp(past.image, i, 256);
    if (!past.lists) memcpy(past.first, i, 256);
    if (made && made == past.l.count) past.done = past.f, past.is_done = 1;
    else if (moved && !made) past.is_done = 0;              /* another chip */
    if (moved || !past.lists) past.after_cut = cut;
    memcpy(past.image, i, 256);
    past.l = *l;
    past.f = *f;
    past.is_refused = 0;
    past.lists++;
}

static struct station_count planned(enum fault fault, PLAN_ARGUMENTS) {
    struct station_count c = answered(r, rl, i, il, wl);
    struct fields f = asked(r, rl);
    struct list full, l;
    uint8_t image[256], wanted[256];
    if (c.refusal == 8 && fault == gc_hold_taken_fault && (i[0x4A] & 0x60) != 0x60) {
        memcpy(image, i, 256);
        image[0x4A] &= 0xEF;
        return model_plan(r, rl, image, 256, w, wl);
    }
    if (c.refusal == 6 || c.refusal == 9) past.refused = f, past.is_refused = 1;
    if (c.refusal) return c;
    uint32_t made = writes_made(i);
    int cut = made > 0 && made < past.l.count && !same_request(&f, &past.f);
    model_wanted(&f, model_pair(&f), wanted);
    if (refuses(fault, i, wanted, cut)) return (struct station_count){ 8, 0 };
    memcpy(image, i, 256);
    if (fault == avi_first_fault && cut) image[0x4A] &= 0xDF;
    model_full_list(wanted, image, &full);
    if (!past.lists) memcpy(past.first, i, 256);
    spoil(fault, i, &f, cut, &full);
    model_leave_out(&full, i, &l);
    full = l, l.count = 0;
    for (uint32_t k = 0; k < full.count; k++)
        if (!left_out_too(fault, wanted, cut, i, full.pairs + 2 * k)) memcpy(l.pairs + 2 * l.count++, full.pairs + 2 * k, 2);
    memcpy(w, l.pairs, 2 * l.count);
    remember(i, &f, &l, made, cut);
    return (struct station_count){ 0, l.count };
}

static struct station_count decoded(enum fault fault, const uint8_t *i, size_t il, uint8_t *b, size_t bl) {
    struct station_count c = model_decode(i, il, b, bl);
    struct fields f = past.f;
    if (fault != decodes_last_planned_fault || c.refusal || !past.lists) return c;
    model_answer(&f, i);
    return (struct station_count){ 0, (uint32_t)model_bytes(&f, b) };
}

/* The machine. ---------------------------------------------------------------------------------------------------------------------- */

static uint32_t writes(enum fault fault, WRITE_ARGUMENTS) {
    struct chip was = { .mark = 0 };
    int right = il == 256 && pl == PACKET_BYTES && cl == COEFFICIENT_BYTES && ml == 1;
    if (right) memcpy(was.image, i, 256), was.mark = *m;
    uint32_t refusal = model_write(i, il, p, pl, c, cl, m, ml, address, value);
    if (!right || refusal) return refusal;
    int was_up = was.image[0x1A] >> 5 & 1, is_up = i[0x1A] >> 5 & 1, mutes = address == 0x4B && (value & 0xC0) == 0x40;
    int avi_up = (was.image[0x4A] & i[0x4A] & 0x40) != 0;
    if (mutes) past.left_matrix = is_up, past.left_avi = (i[0x4A] & 0x40) != 0;
    switch (fault) {
    case mute_sets_mark_fault: if (mutes && !is_up) *m = 1; break;
    case drop_counts_fault:
        if (!was_up && is_up) past.dropped = model_waits(&was);
        if (was_up && !is_up && past.dropped) *m = 2;
        else if (*m && was.mark == 2) *m = 2;
        break;
    case left_hold_copies_fault: if (address == 0x1A && was_up && is_up && past.left_matrix) memcpy(c, was.image + 0x18, 24); break;
    case left_avi_copies_fault: if (address == 0x4A && avi_up && past.left_avi) memcpy(p, was.image + 0x52, AVI_BYTES); break;
    default: break;
    }
    if (address == 0x1A) past.left_matrix = 0;
    if (address == 0x4A) past.left_avi = 0;
    return refusal;
}

static uint32_t vsync(enum fault fault, VSYNC_ARGUMENTS) {
    int longer = fault == drop_counts_fault && il == 256 && ml == 1 && *m == 2 && !(i[0x1A] & 0x20);
    uint32_t refusal = model_vsync(i, il, p, pl, c, cl, m, ml);
    if (!refusal && longer) *m = 1;
    return refusal;
}

static void put_library(struct face *f, struct station_count (*plan)(PLAN_ARGUMENTS)) {
    memset(&past, 0, sizeof past);
    f->plan = plan;
}

#define LIBRARY(name, on_cuts, on_chains, words) \
    static struct station_count plan_##name(PLAN_ARGUMENTS) { return planned(name##_fault, r, rl, i, il, w, wl); } \
    static struct station_count decode_##name(const uint8_t *i, size_t il, uint8_t *b, size_t bl) { \
        return decoded(name##_fault, i, il, b, bl); \
    } \
    static uint32_t write_##name(WRITE_ARGUMENTS) { return writes(name##_fault, i, il, p, pl, c, cl, m, ml, address, value); } \
    static uint32_t vsync_##name(VSYNC_ARGUMENTS) { return vsync(name##_fault, i, il, p, pl, c, cl, m, ml); } \
    static void put_##name(struct face *f) { \
        put_library(f, plan_##name); \
        f->decode = decode_##name, f->write = write_##name, f->vsync = vsync_##name; \
    }
FAULTS(LIBRARY)

LIBRARY(right, 0, 0, "")
void put_right_library(struct face *f) { put_right(f); }

#define ROW(name, on_cuts, on_chains, words) { words, put_##name, (on_cuts) | (on_chains) },
const struct wrong wrong_chains[] = { FAULTS(ROW) { NULL, NULL, 0 } };
