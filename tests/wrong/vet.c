/* Wrong judges of a vendor's list. One judge, by another way than the model's, with a place for each fault; a fault is a row of FAULTS. */
#include "wrong.h"

/* FAULT(name, in words) */
#define FAULTS(FAULT) \
    FAULT(seven_not_given, "a vet with a packet buffer of 31 bytes") \
    FAULT(eight_not_given, "a vet that does not refuse 8") \
    FAULT(eight_by_gc_alone, "a vet that refuses 8 for the GC hold alone") \
    FAULT(fourteen_before_eight, "refusal 14 before 8") \
    FAULT(odd_accepted, "a list of an odd length, its last byte ignored") \
    FAULT(pairs_513, "513 pairs accepted") \
    FAULT(pairs_511, "512 pairs refused") \
    FAULT(count_in_one_byte, "the number of pairs in one byte") \
    FAULT(place_from_1, "the place counted from 1") \
    FAULT(place_in_bytes, "the place counted in bytes") \
    FAULT(place_in_one_byte, "the place in one byte") \
    FAULT(place_beside_16, "a place beside 16") \
    FAULT(last_bad_pair, "the last bad pair named") \
    FAULT(sixteen_before_fifteen, "refusal 16 before 15") \
    FAULT(end_not_decoded, "the end not decoded") \
    FAULT(start_decoded, "the start decoded instead of the end") \
    FAULT(end_without_depth, "the end decoded without its depth") \
    FAULT(depth_not_run, "a vet whose pairs to 0x4C change nothing") \
    FAULT(empty_passes, "the empty list passes always") \
    FAULT(empty_refused, "the empty list never passes") \
    FAULT(read_only_register, "a register that is read-only let through (0x3D)") \
    FAULT(depth_refused, "0x4C refused, for it has read-only bits") \
    FAULT(read_only_looked_at, "read-only bits of a value looked at") \
    FAULT(free_register, "a register that is free let through (0x35)") \
    FAULT(fixed_register, "a register fixed by the map let through (0x99)") \
    FAULT(avi_to_its_end, "the AVI packet taken to run to 0x6F") \
    FAULT(reserved_refused, "the audio packet's reserved registers refused") \
    FAULT(table_14_refused, "the registers of Table 14 refused") \
    FAULT(mandated_not_looked_at, "mandated bits not looked at") \
    FAULT(mandated_of_the_map, "mandated bits beside named ones not looked at") \
    FAULT(free_not_looked_at, "free bits not looked at") \
    FAULT(free_at_the_end, "free bits looked at in the end image only") \
    FAULT(free_must_be_0, "free bits must be 0") \
    FAULT(gc_hold_raised, "the GC hold let rise") \
    FAULT(two_holds_let_through, "two holds let through") \
    FAULT(two_holds_one_later, "two holds found one pair later") \
    FAULT(two_holds_without_gc, "the GC hold not counted among two") \
    FAULT(two_holds_one_earlier, "two holds named at the pair before") \
    FAULT(holds_after_each_other, "a hold handed over in one write refused") \
    FAULT(two_holds_skipped, "the list runs on after two holds, without that pair") \
    FAULT(two_holds_written, "the list runs on after two holds, with that pair") \
    FAULT(two_holds_end_at_start, "a list with two holds ends as it began") \
    FAULT(cut_before_two_holds, "the end before two holds must be muted") \
    FAULT(bad_pair_stops, "a bad pair ends the list") \
    FAULT(bad_pair_skipped, "a bad pair is not run") \
    FAULT(first_cut_tested, "the first write must find a muted picture") \
    FAULT(last_cut_tested, "the picture must be muted after the last pair") \
    FAULT(cut_after_first_not_tested, "the cut after the first pair not looked at") \
    FAULT(cut_before_last_not_tested, "the cut before the last pair not looked at") \
    FAULT(muted_is_not_open, "muted taken as not open") \
    FAULT(muted_is_set, "muted taken as set, whatever clear is") \
    FAULT(pair_after_the_cut, "the pair after a bad cut named") \
    FAULT(old_of_registers, "the registers at the start for what is in use there") \
    FAULT(end_of_registers, "the registers at the end for what is in use there") \
    FAULT(now_of_registers, "the registers at a cut for what is in use there") \
    FAULT(old_only, "a group that is as the list ends refused") \
    FAULT(no_way_back, "a group that goes back refused") \
    FAULT(one_group, "the three groups compared as one") \
    FAULT(avi_not_looked_at, "the AVI group not looked at") \
    FAULT(audio_not_looked_at, "the audio group not looked at") \
    FAULT(matrix_not_looked_at, "the coefficients not looked at") \
    FAULT(audio_without_reserved, "the audio group without its reserved registers") \
    FAULT(avi_without_last, "the AVI group without its last register") \
    FAULT(matrix_of_24_bytes, "the coefficients compared as 24 bytes") \
    FAULT(matrix_of_12_bits, "the coefficients without their signs") \
    FAULT(image_changed, "the list run on the lent image") \
    FAULT(packet_changed, "the lent packet buffer filled") \
    FAULT(coefficients_changed, "the lent coefficient buffer filled") \
    FAULT(mark_ignored, "a vet that ignores the mark") \
    FAULT(mark_of_two_none, "a vet that takes a mark of 2 for none") \
    FAULT(mark_beside_hold, "a vet that takes the registers beside a hold and a mark") \
    FAULT(old_without_mark, "the registers at the start though a change waits") \
    FAULT(fall_at_once, "a vet whose lowered hold acts at once") \
    FAULT(rise_copies, "a vet whose rise in a wait copies") \
    FAULT(event_never, "a list without its Vsync") \
    FAULT(event_first, "the Vsync before the first pair") \
    FAULT(event_after_last, "the Vsync after the last pair") \
    FAULT(event_one_earlier, "the Vsync one pair earlier") \
    FAULT(event_before_each, "a Vsync before each pair") \
    FAULT(event_of_old_last, "a list that ends early without its Vsync") \
    FAULT(event_at_two_holds, "the Vsync of a list that ends early after its end") \
    FAULT(event_not_looked_at, "the state after the Vsync not looked at") \
    FAULT(event_of_one_pair, "the state after the Vsync of one pair looked at") \
    FAULT(event_names_last, "the last pair named where the Vsync is bad") \
    FAULT(event_moves_old, "old moved by the Vsync to the change that waited") \
    FAULT(event_for_the_end_alone, "the Vsync in the end alone, not at the cut") \
    FAULT(reads_past_list, "a read one byte past the list")

#define NUMBER(name, words) name##_fault,
enum fault { NO_FAULT, FAULTS(NUMBER) };

/* Whether a pair may stand in a list, but for the holds. */
static int touches_ours(enum fault fault, uint8_t a) {
    static const uint8_t table_14[] = { 0x98, 0x9A, 0x9C, 0x9D, 0xA2, 0xA3, 0xE0, 0xF9 };
    if (fault == table_14_refused_fault && memchr(table_14, a, sizeof table_14)) return 0;
    if (fault == reserved_refused_fault && a >= 0x78 && a <= 0x7C) return 0;
    if (fault == read_only_register_fault && a == 0x3D) return 1;
    if (fault == depth_refused_fault && a == 0x4C) return 0;
    if (fault == free_register_fault && a == 0x35) return 1;
    if (fault == fixed_register_fault && a == 0x99) return 1;
    if (fault == avi_to_its_end_fault && a >= 0x62 && a <= 0x6F) return 1;
    return model_written(a);
}

static int pair_is_good(enum fault fault, const struct chip *now, uint8_t a, uint8_t v) {
    struct model_class k = model_classes[a];
    uint8_t kept = fault == free_must_be_0_fault ? 0 : now->image[a];
    if (!touches_ours(fault, a)) return 0;
    if (fault == mandated_not_looked_at_fault || (fault == mandated_of_the_map_fault && k.named)) k.mandated = k.bits = 0;
    if (fault == free_not_looked_at_fault || fault == free_at_the_end_fault) k.free = 0;
    if (fault == read_only_looked_at_fault) k.free |= k.read_only;
    if (fault == gc_hold_raised_fault && a == 0x4A) k.free &= 0xEF;
    if (fault == holds_after_each_other_fault && a == 0x4A && (now->image[a] & 0x60) && (~now->image[a] & v & 0x60)) return 0;
    return (v & k.mandated) == k.bits && ((v ^ kept) & k.free) == 0;
}

/* One write; 0 where two holds would be up. */
static int goes(enum fault fault, struct chip *c, uint8_t a, uint8_t v) {
    const struct chip was = *c;
    if (fault == two_holds_without_gc_fault && a == 0x4A && (v & 0x10) && (v & 0x60) != 0x60) {
        if (v & 0x60 & ~c->image[a]) memcpy(c->packet, c->image + (v & 0x40 ? 0x52 : 0x70), v & 0x40 ? 16 : 13);
        c->image[a] = v;
        return 1;
    }
    if (model_run(c, a, v) != 0) return 0;
    if (fault == fall_at_once_fault && (was.image[0x1A] & ~c->image[0x1A] & 0x20)) c->mark = 0;
    if (fault == rise_copies_fault && (~was.image[0x1A] & c->image[0x1A] & 0x20)) memcpy(c->coefficients, was.image + 0x18, 24);
    return 1;
}

/* The image without its holds, so that the registers are in use. */
static struct in_use in_registers(const struct chip *c) {
    struct chip other = *c;
    other.image[0x4A] &= 0x9F;
    other.image[0x1A] &= 0xDF;
    other.mark = 0;
    return model_in_use(&other);
}

static struct in_use seen(enum fault fault, enum fault by_registers, const struct chip *c) {
    struct in_use u = fault == by_registers ? in_registers(c) : model_in_use(c);
    if (fault == mark_beside_hold_fault && c->mark && (c->image[0x1A] & 0x20)) u = in_registers(c);
    if (fault == matrix_of_24_bytes_fault) {
        const uint8_t *bytes = model_matrix_in_use(c);
        for (int i = 0; i < 12; i++) u.coefficient[i] = bytes[2 * i] * 256 + bytes[2 * i + 1];
    }
    for (int i = 0; fault == matrix_of_12_bits_fault && i < 12; i++) u.coefficient[i] &= 0xFFF;
    if (fault == audio_without_reserved_fault) memset(u.audio + 8, 0, AUDIO_BYTES - 8);
    if (fault == avi_without_last_fault) u.avi[AVI_BYTES - 1] = 0;
    if (fault == avi_not_looked_at_fault) memset(u.avi, 0, AVI_BYTES);
    if (fault == audio_not_looked_at_fault) memset(u.audio, 0, AUDIO_BYTES);
    for (int i = 0; fault == matrix_not_looked_at_fault && i < 12; i++) u.coefficient[i] = 0;
    return u;
}

static int muted(enum fault fault, const struct in_use *u) {
    if (fault == muted_is_not_open_fault) return (u->gc & 0xC0) != 0x80;
    if (fault == muted_is_set_fault) return (u->gc & 0x40) != 0;
    return model_muted(u);
}

static int same_groups(const struct in_use *a, const struct in_use *b) {
    return model_same_avi(a, b) && model_same_audio(a, b) && model_same_matrix(a, b);
}

/* The end of a list: the state there, how many of the pairs have run, and the place of the pair that its Vsync comes before. */
#define NONE UINT32_MAX
struct list_end { struct chip last; uint32_t pairs, event; };

static int turns_at(enum fault fault, const struct list_end *e, uint32_t at) { return at == e->event || fault == event_before_each_fault; }

static void run_to_end(enum fault fault, const struct chip *start, const uint8_t *l, uint32_t n, struct list_end *e) {
    e->last = *start;
    for (e->pairs = 0; e->pairs < n; e->pairs++) {
        uint8_t a = l[2 * e->pairs], v = l[2 * e->pairs + 1];
        int good = pair_is_good(fault, &e->last, a, v);
        if (!good && fault == bad_pair_stops_fault) break;
        if (turns_at(fault, e, e->pairs)) model_edge(&e->last);
        if (!good && fault == bad_pair_skipped_fault) continue;
        if (goes(fault, &e->last, a, v)) continue;
        if (fault == two_holds_written_fault) e->last.image[a] = v;
        else if (fault != two_holds_skipped_fault) break;
    }
    if (fault == event_after_last_fault) model_edge(&e->last);
    if (fault == two_holds_end_at_start_fault && e->pairs < n) e->last = *start;
}

/* The Vsync's place, where so many of the pairs run. A place that is not reached is none. */
static uint32_t event_place(enum fault fault, uint32_t n, uint32_t ends) {
    if (ends == 0 || fault == event_never_fault || fault == event_after_last_fault) return NONE;
    if (fault == event_first_fault) return 0;
    if (fault == event_one_earlier_fault && ends > 1) return ends - 2;
    if (fault == event_of_old_last_fault && ends < n) return NONE;
    if (fault == event_at_two_holds_fault && ends < n) return ends;
    return ends - 1;
}

static struct list_end end_of(enum fault fault, const struct chip *start, const uint8_t *l, uint32_t n) {
    struct list_end e = { .event = NONE };
    run_to_end(fault, start, l, n, &e);
    e.event = event_place(fault, n, e.pairs);
    run_to_end(fault, start, l, n, &e);
    return e;
}

struct groups_of_a_list { struct in_use old, end; int avi_was_new, waits; };

static int cut_is_good(enum fault fault, struct groups_of_a_list *g, const struct in_use *now) {
    struct in_use quiet = *now;
    quiet.gc = 0x40;
    if (!muted(fault, now)) return 0;
    if (fault == one_group_fault) return same_groups(now, &g->old) || same_groups(now, &g->end);
    if (fault == old_only_fault) return same_groups(now, &g->old);
    if (fault == no_way_back_fault && g->avi_was_new && !model_same_avi(now, &g->end)) return 0;
    g->avi_was_new = !model_same_avi(now, &g->old);
    return model_cut_breaks(&quiet, &g->old, &g->end) == NO_RULE;
}

/* Is the cut after this pair looked at? */
static int is_cut(enum fault fault, uint32_t at, uint32_t n, const struct list_end *e) {
    if (fault == cut_after_first_not_tested_fault && at == 0) return 0;
    if (fault == cut_before_last_not_tested_fault && at + 2 == n) return 0;
    if (fault == last_cut_tested_fault && at + 1 == n) return 1;
    if (fault == cut_before_two_holds_fault && e->pairs < n) return at + 1 <= e->pairs;
    return at + 1 < e->pairs;
}

/* The Vsync before this pair: is the state after it good? */
static int turn_is_good(enum fault fault, struct groups_of_a_list *g, struct chip *now, const struct chip *start, uint32_t at, uint32_t n) {
    if (fault == event_for_the_end_alone_fault) return 1;
    model_edge(now);
    if (fault == event_moves_old_fault && g->waits) memcpy(g->old.coefficient, in_registers(start).coefficient, sizeof g->old.coefficient);
    if (fault == event_not_looked_at_fault || (fault == cut_before_last_not_tested_fault && at + 1 == n)) return 1;
    if (at == 0 && fault != event_of_one_pair_fault) return 1;
    struct in_use u = seen(fault, now_of_registers_fault, now);
    return cut_is_good(fault, g, &u);
}

/* The place of the bad pair, or NONE. */
static uint32_t bad_place(enum fault fault, const struct chip *start, const uint8_t *l, uint32_t n, const struct list_end *e) {
    struct chip now = *start;
    struct groups_of_a_list g = { seen(fault, old_of_registers_fault, start), seen(fault, end_of_registers_fault, &e->last), 0,
                                  model_waits(start) };
    uint32_t place = NONE;
    if (fault == old_without_mark_fault && model_waits(start)) g.old = in_registers(start);
    if (fault == first_cut_tested_fault && n > 0 && !model_muted(&g.old)) return 0;
    for (uint32_t k = 0; k < n && (place == NONE || fault == last_bad_pair_fault); k++) {
        uint8_t a = l[2 * k], v = l[2 * k + 1];
        if (turns_at(fault, e, k) && k < e->pairs && !turn_is_good(fault, &g, &now, start, k, n)) {
            place = k == 0 || fault == event_names_last_fault ? k : k - 1;
            if (fault != last_bad_pair_fault) break;
        }
        int good = pair_is_good(fault, &now, a, v), went = goes(fault, &now, a, v);
        struct in_use u = seen(fault, now_of_registers_fault, &now);
        if (now.image[0x1A] & 0x20) g.waits = 0;
        if (!good) place = k;
        else if (!went && fault == two_holds_one_later_fault) place = k + 1;
        else if (!went && fault == two_holds_one_earlier_fault) place = k > 0 ? k - 1 : 0;
        else if (!went && fault != two_holds_let_through_fault) place = k;
        else if (is_cut(fault, k, n, e) && !cut_is_good(fault, &g, &u)) place = fault == pair_after_the_cut_fault ? k + 1 : k;
    }
    for (int a = 0; fault == free_at_the_end_fault && place == NONE && a < 256; a++)
        if (n > 0 && ((start->image[a] ^ e->last.image[a]) & model_classes[a].free)) place = n - 1;
    return place;
}

static uint32_t named_place(enum fault fault, uint32_t place) {
    if (fault == place_from_1_fault) return place + 1;
    if (fault == place_in_bytes_fault) return 2 * place;
    return fault == place_in_one_byte_fault ? place & 0xFF : place;
}

static volatile uint8_t eye;

static struct station_verdict judge(enum fault fault, VET_ARGUMENTS) {
    struct chip start = { .mark = mark };
    struct fields f;
    if (fault == seven_not_given_fault && pl == PACKET_BYTES - 1) pl++;
    if (il != IMAGE_BYTES || pl != PACKET_BYTES || cl != COEFFICIENT_BYTES) return (struct station_verdict){ 7, 0 };
    memcpy(start.image, i, IMAGE_BYTES);
    memcpy(start.packet, p, fault == seven_not_given_fault ? PACKET_BYTES - 1 : PACKET_BYTES);
    memcpy(start.coefficients, c, COEFFICIENT_BYTES);
    if (fault == mark_ignored_fault || (fault == mark_of_two_none_fault && mark == 2)) start.mark = 0;
    size_t most = fault == pairs_513_fault ? MOST_PAIRS + 1 : fault == pairs_511_fault ? MOST_PAIRS - 1 : MOST_PAIRS;
    int fourteen = (ll % 2 && fault != odd_accepted_fault) || ll / 2 > most;
    int eight = (i[0x4A] & 0x10) || (fault != eight_by_gc_alone_fault && (i[0x4A] & 0x60) == 0x60);
    if (fourteen && fault == fourteen_before_eight_fault) return (struct station_verdict){ 14, 0 };
    if (eight && fault != eight_not_given_fault) return (struct station_verdict){ 8, 0 };
    if (fourteen) return (struct station_verdict){ 14, 0 };
    if (fault == reads_past_list_fault) eye = l[ll];
    uint32_t n = (uint32_t)(ll / 2) & (fault == count_in_one_byte_fault ? 0xFF : 0xFFFF);
    struct list_end e = end_of(fault, &start, l, n);
    uint32_t place = bad_place(fault, &start, l, n, &e);
    if (fault == end_without_depth_fault) e.last.image[0x4C] &= 0xF0;
    if (fault == depth_not_run_fault) e.last.image[0x4C] = start.image[0x4C];
    int ends = fault == end_not_decoded_fault || model_ends(fault == start_decoded_fault ? start.image : e.last.image, NONE_FREE, &f);
    if (n == 0 && fault == empty_passes_fault) ends = 1;
    if (n == 0 && fault == empty_refused_fault) ends = 0;
    if (fault == image_changed_fault) memcpy((uint8_t *)i, e.last.image, IMAGE_BYTES);
    if (fault == packet_changed_fault) memcpy((uint8_t *)p, e.last.packet, PACKET_BYTES);
    if (fault == coefficients_changed_fault) memcpy((uint8_t *)c, e.last.coefficients, COEFFICIENT_BYTES);
    if (place != NONE && (ends || fault != sixteen_before_fifteen_fault)) return (struct station_verdict){ 15, named_place(fault, place) };
    if (!ends) return (struct station_verdict){ 16, fault == place_beside_16_fault ? n : 0 };
    return (struct station_verdict){ 0, 0 };
}

#define JUDGE(name, words) \
    static struct station_verdict name(VET_ARGUMENTS) { return judge(name##_fault, i, il, p, pl, c, cl, mark, l, ll); } \
    PUT(vet, name)
FAULTS(JUDGE)

static struct station_verdict no_fault(VET_ARGUMENTS) { return judge(NO_FAULT, i, il, p, pl, c, cl, mark, l, ll); }
void put_right_judge(struct face *f) { f->vet = no_fault; }

#define ROW(name, words) { words, put_##name, 0 },
const struct wrong wrong_vets[] = { FAULTS(ROW) { NULL, NULL, 0 } };
