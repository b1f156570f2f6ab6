/* Wrong sound that fits: document 02, request 10. One library, which counts packets by itself, with a place for each fault; a fault is a row
 * of FAULTS. What shows in nothing is not here. No request meets 9 and 20, nor 17 and 20, so either may come first. From 65 to 74 clocks a
 * line without a packet give the same answers; so does any number of packets an island from eleven on, or of islands a line. No mode has
 * just as many packets as a rate needs. Fields for frames would double the lines of 1080i, and what fits already would fit. */
#include "wrong.h"

/* FAULT(name, in words) */
#define FAULTS(FAULT) \
    FAULT(one_packet_more, "one packet a line more") \
    FAULT(one_packet_less, "one packet a line less") \
    FAULT(all_clocks, "packets in all clocks of the blanking") \
    FAULT(no_resynchronisation, "no clocks left to content protection") \
    FAULT(resynchronisation_alone, "no clocks left to guard bands and control period") \
    FAULT(second_period, "a second control period a line") \
    FAULT(nine_an_island, "nine packets a line at the most") \
    FAULT(field_for_frame, "the lines of a field for those of a frame") \
    FAULT(picture_alone, "the lines with a picture alone") \
    FAULT(two_by_eight, "two channels by the rule of eight") \
    FAULT(eight_by_two, "eight channels by the rule of two") \
    FAULT(two_samples, "two samples of eight channels a packet") \
    FAULT(family_counted, "family 1 counted as fewer clocks a line") \
    FAULT(family_0_alone, "20 in family 0 alone") \
    FAULT(repetition_not_counted, "the repetition not counted") \
    FAULT(four_as_two, "four times counted as twice") \
    FAULT(repeated_accepted, "20 without repetition alone") \
    FAULT(depth_counted, "the depth counted") \
    FAULT(deep_accepted, "20 with 24 bits alone") \
    FAULT(coherent_alone, "20 for coherent sound alone") \
    FAULT(not_coherent_alone, "20 for sound that is not coherent alone") \
    FAULT(rgb_alone, "20 for RGB alone") \
    FAULT(rate_lifts, "192 kHz accepted where less is refused") \
    FAULT(next_rate, "one rate more accepted") \
    FAULT(rate_88_2, "88.2 kHz accepted with 480p") \
    FAULT(vga_missed, "no row for VGA") \
    FAULT(wide_missed, "no row for VIC 3") \
    FAULT(vic_18_missed, "no row for VIC 18") \
    FAULT(twenty_at_its_section, "20 before 1 to 3, with the sound's last byte") \
    FAULT(twenty_before_four, "20 before 4") \
    FAULT(twenty_before_five, "20 before 5") \
    FAULT(twenty_before_six, "20 before 6") \
    FAULT(seven_before_twenty, "7 before 20") \
    FAULT(eight_before_twenty, "8 before 20") \
    FAULT(ten_before_twenty, "10 before 20") \
    FAULT(six_for_twenty, "6 for 20") \
    FAULT(seventeen_for_twenty, "17 for 20") \
    FAULT(nine_for_twenty, "9 for 20") \
    FAULT(in_planning_alone, "20 in planning alone") \
    FAULT(not_in_planning, "20 not in planning") \
    FAULT(not_at_the_end, "20 not at a pipe's end") \
    FAULT(twenty_writes, "20 writes the buffer") \
    FAULT(count_beside, "a count beside 20") \
    FAULT(n_beside, "N beside 20") \
    FAULT(count_at_the_end, "a count beside 20 at a pipe's end") \
    FAULT(decoded_too, "decoding takes more sound than fits") \
    FAULT(decoded_as_20, "decoding answers 20") \
    FAULT(eight_not_decoded, "decoding refuses eight channels of 480p") \
    FAULT(ended_too, "a list that ends in more sound than fits taken") \
    FAULT(ended_as_20, "a list that ends in more sound than fits refused 20")

#define NUMBER(name, words) name##_fault,
enum fault { right_fault, FAULTS(NUMBER) };     /* the first is no fault */

/* The packets of a line, and the samples of a second. ------------------------------------------------------------------------------- */

/* Clocks of a line that carry no packet, for content protection and for guard bands and a control period; and clocks of a packet. */
enum { PROTECTION = 58, AROUND = 16, SECOND_PERIOD = 12, PACKET = 32, AN_ISLAND = 18 };

static uint64_t packets_of(enum fault fault, const struct fields *f, struct timing t) {
    static const uint64_t deep[DEPTHS] = { 4, 5, 6 };
    uint64_t taken = PROTECTION + AROUND, most = fault == nine_an_island_fault ? 9 : AN_ISLAND;
    int repetition = f->repetition;
    if (fault == family_counted_fault && f->family) t.total = t.total * 1000 / 1001;
    if (fault == repetition_not_counted_fault) repetition = 0;
    if (fault == four_as_two_fault && repetition == 2) repetition = 1;
    uint64_t blanking = (t.total - t.active) << repetition;
    if (fault == depth_counted_fault) blanking = blanking * deep[f->depth] / deep[0];
    if (fault == all_clocks_fault) taken = 0;
    if (fault == no_resynchronisation_fault) taken = AROUND;
    if (fault == resynchronisation_alone_fault) taken = PROTECTION;
    if (fault == second_period_fault) taken += SECOND_PERIOD;
    uint64_t packets = (blanking - taken) / PACKET;
    if (packets > most) packets = most;
    return packets + (fault == one_packet_more_fault) - (fault == one_packet_less_fault);
}

static uint64_t lines_of(enum fault fault, struct timing t) {
    uint64_t without_picture = t.lines == 750 ? 30 : t.lines == 625 ? 49 : 45;
    if (fault == field_for_frame_fault) return t.lines / t.fields;
    return fault == picture_alone_fault ? t.lines - without_picture : t.lines;
}

/* Is a rate too high for a request that is otherwise like this one? */
static int above(enum fault fault, const struct fields *f, int rate) {
    struct timing t = model_timing(f->vic);
    uint64_t samples = f->channels == 2 ? 4 : 1;
    if (fault == two_by_eight_fault) samples = 1;
    if (fault == eight_by_two_fault) samples = 4;
    if (fault == two_samples_fault && f->channels == 8) samples = 2;
    return samples * packets_of(fault, f, t) * lines_of(fault, t) * t.vertical < model_rate(rate) * t.fields;
}

static int too_much(enum fault fault, const struct fields *f) {
    switch (fault) {
    case family_0_alone_fault: if (f->family) return 0; break;
    case repeated_accepted_fault: if (f->repetition) return 0; break;
    case deep_accepted_fault: if (f->depth) return 0; break;
    case coherent_alone_fault: if (!f->coherent) return 0; break;
    case not_coherent_alone_fault: if (f->coherent) return 0; break;
    case rgb_alone_fault: if (f->encoding) return 0; break;
    case rate_lifts_fault: if (f->rate == RATES - 1) return 0; break;
    case next_rate_fault: return f->rate > 0 && above(fault, f, f->rate - 1);
    case rate_88_2_fault: if (f->rate == 3 && f->vic < 4) return 0; break;
    case vga_missed_fault: if (f->vic == 1) return 0; break;
    case wide_missed_fault: if (f->vic == 3) return 0; break;
    case vic_18_missed_fault: if (f->vic == 18) return 0; break;
    default: break;
    }
    return above(fault, f, f->rate);
}

/* Reading: refusals 1 to 6, 17 and 20. ---------------------------------------------------------------------------------------------- */

static int has_sound(const struct fields *f) {
    return f->sound && model_hertz(f->vic) && f->depth < DEPTHS && f->repetition < REPETITIONS && f->rate < RATES &&
           (f->channels == 2 || f->channels == 8);
}

/* What the request's front up to its sound would be refused, without a matrix. */
static uint32_t refused_so_far(const uint8_t *r, size_t rl) {
    uint8_t front[LONGEST] = { 0 };
    size_t length = video_at(r, rl) + 1 + VIDEO_BYTES + 1 + SOUND_BYTES;
    struct fields f;
    if (rl < length || length >= LONGEST) return 0;
    memcpy(front, r, length);
    return model_read(front, length + 1, &f);
}

static uint32_t reads(enum fault fault, const uint8_t *r, size_t rl, struct fields *f) {
    uint32_t refusal = model_read(r, rl, f);
    if (refusal > 0 && refusal < 4) return fault == twenty_at_its_section_fault && refused_so_far(r, rl) == 20 ? 20 : refusal;
    if (!has_sound(f)) return refusal;
    if (refusal == 0 || refusal == 20) refusal = too_much(fault, f) ? 20 : 0;
    else if ((fault == twenty_before_four_fault && refusal == 4) || (fault == twenty_before_five_fault && refusal == 5) ||
             (fault == twenty_before_six_fault && refusal == 6))
        refusal = too_much(fault, f) ? 20 : refusal;
    if (refusal != 20) return refusal;
    return fault == six_for_twenty_fault ? 6 : fault == seventeen_for_twenty_fault ? 17 : fault == nine_for_twenty_fault ? 9 : 20;
}

static struct station_pair numbers(enum fault fault, const uint8_t *r, size_t rl) {
    struct fields f;
    uint32_t refusal = reads(fault, r, rl, &f);
    if (refusal == 20 && fault == in_planning_alone_fault) refusal = 0;
    if (refusal) return (struct station_pair){ refusal, refusal == 20 && fault == n_beside_fault ? 6144 : 0, 0 };
    struct pair p = model_pair(&f);
    return p.exists ? (struct station_pair){ 0, p.n, p.cts } : (struct station_pair){ 9, 0, 0 };
}

/* The other calls. ------------------------------------------------------------------------------------------------------------------ */

static struct station_count planned(enum fault fault, PLAN_ARGUMENTS) {
    struct fields f;
    struct list l;
    uint8_t wanted[256];
    uint32_t refusal = reads(fault, r, rl, &f), later = 0;
    if (refusal == 20) {
        if (fault == not_in_planning_fault) refusal = 0;
        if (fault == twenty_writes_fault && wl) w[0] ^= 1;
        if (fault == count_beside_fault) return (struct station_count){ 20, 1 };
    }
    if (refusal && refusal != 20) return (struct station_count){ refusal, 0 };
    if (il != 256) later = 7;
    else if ((i[0x4A] & 0x10) || (i[0x4A] & 0x60) == 0x60) later = 8;
    else if (!model_pair(&f).exists) later = 9;
    else if (wl < 256) later = 10;
    int first = (fault == seven_before_twenty_fault && later == 7) || (fault == eight_before_twenty_fault && later == 8) ||
                (fault == ten_before_twenty_fault && later == 10);
    if (refusal && !first) return (struct station_count){ refusal, 0 };
    if (later) return (struct station_count){ later, 0 };
    model_wanted(&f, model_pair(&f), wanted);
    model_short_list(wanted, i, &l);
    memcpy(w, l.pairs, 2 * l.count);
    return (struct station_count){ 0, l.count };
}

/* As decoding answers where the fault is in what fits, or in decoding alone. */
static struct station_count decoded(enum fault fault, const uint8_t *i, size_t il, uint8_t *b, size_t bl) {
    uint8_t back[LONGEST];
    struct fields f;
    struct station_count c = model_decode(i, il, back, bl < LONGEST ? bl : LONGEST);
    if (c.refusal == 7 || c.refusal == 10 || !shown_by(i, &f) || !f.sound) return model_decode(i, il, b, bl);
    uint32_t refusal = refusal_of(&f);
    int ends = (refusal == 0 || refusal == 20) && ends_in_any(i, &f), fits = !too_much(fault, &f) || fault == decoded_too_fault;
    if (fault == eight_not_decoded_fault && f.vic < 4 && f.channels == 8) fits = 0;
    if (ends && !fits) return (struct station_count){ fault == decoded_as_20_fault ? 20 : 11, 0 };
    if (!ends) return c;
    model_answer(&f, i);
    return (struct station_count){ 0, (uint32_t)model_bytes(&f, b) };
}

static struct station_verdict vetted(enum fault fault, VET_ARGUMENTS) {
    uint8_t back[LONGEST];
    struct chip end = { .mark = mark };
    struct station_verdict v = model_vet(i, il, p, pl, c, cl, mark, l, ll);
    if (v.refusal != 0 && v.refusal != 16) return v;
    memcpy(end.image, i, IMAGE_BYTES);
    for (size_t k = 0; k < ll; k += 2) model_run(&end, l[k], l[k + 1]);
    enum fault of_end = fault == ended_too_fault ? decoded_too_fault : fault == ended_as_20_fault ? decoded_as_20_fault : fault;
    if (fault == decoded_too_fault || fault == decoded_as_20_fault || fault == eight_not_decoded_fault) return v;
    uint32_t refusal = decoded(of_end, end.image, IMAGE_BYTES, back, LONGEST).refusal;
    return (struct station_verdict){ refusal == 11 ? 16 : refusal, 0 };
}

static struct station_piped ended(enum fault fault, uint8_t *pipe, size_t length) {
    int waits = length == PIPE_BYTES && pipe[COUNT_AT] <= LONGEST && pipe[ANSWER_AT] == 0;
    if (!waits) return model_pipe_end(pipe, length);
    uint32_t count = pipe[COUNT_AT], number = numbers(fault, pipe, count).refusal;
    if (number == 20 && fault == not_at_the_end_fault) number = 0;
    pipe[ANSWER_AT] = (uint8_t)(number ? number : PIPE_ACCEPTED);
    return (struct station_piped){ number, 1, !number || (number == 20 && fault == count_at_the_end_fault) ? count : 0 };
}

#define LIBRARY(name, words) \
    static struct station_count plan_##name(PLAN_ARGUMENTS) { return planned(name##_fault, r, rl, i, il, w, wl); } \
    static struct station_pair ncts_##name(const uint8_t *r, size_t rl) { return numbers(name##_fault, r, rl); } \
    static struct station_count decode_##name(const uint8_t *i, size_t il, uint8_t *b, size_t bl) { \
        return decoded(name##_fault, i, il, b, bl); \
    } \
    static struct station_verdict vet_##name(VET_ARGUMENTS) { return vetted(name##_fault, i, il, p, pl, c, cl, mark, l, ll); } \
    static struct station_piped end_##name(uint8_t *pipe, size_t length) { return ended(name##_fault, pipe, length); } \
    static void put_##name(struct face *f) { \
        f->plan = plan_##name, f->ncts = ncts_##name, f->decode = decode_##name, f->vet = vet_##name, f->pipe_end = end_##name; \
    }
FAULTS(LIBRARY)

LIBRARY(right, "")
void put_right_sounds(struct face *f) { put_right(f); }

#define ROW(name, words) { words, put_##name, 0 },
const struct wrong wrong_sounds[] = { FAULTS(ROW) { NULL, NULL, 0 } };
