#include "mend.h"
#include <string.h>

enum { GC = 0x4B, MUTE_BITS = 0xC0, MUTE = 0x40, HOLDS = 0x4A, PACKET_HOLDS = 0x70, MATRIX_HOLD = 0x1A, MATRIX_HOLD_BIT = 0x20, VIC = 0x3C,
       AVI_SUM = 0x54, AVI_VIC = 0x58, AUDIO_SUM = 0x72, AVI_BYTE_5 = 0x59, MODES = 3, EDITIONS = 3, YQ = 0xC0, CN = 0x30, OF_E = YQ | CN,
       CONVERTER = 0x18, WIRINGS = 3 };

static unsigned bits_of(unsigned byte) {
    unsigned n = 0;
    for (; byte; byte &= byte - 1) n++;
    return n;
}

/* Registers that differ count first; then the two checksums, which speak for a whole packet; then bits. */
static unsigned apart(const uint8_t *a, const uint8_t *b, unsigned *registers) {
    unsigned bits = 0, sums = (a[AVI_SUM] != b[AVI_SUM]) + (a[AUDIO_SUM] != b[AUDIO_SUM]);
    *registers = 0;
    for (int i = 0; i < STATION_IMAGE; i++) {
        *registers += a[i] != b[i];
        bits += bits_of(a[i] ^ b[i]);
    }
    return 16384 * *registers + 4096 * sums + bits;
}

/* ---- Wirings. */

enum { INPUT_ID = 0x15, OF_ID = 0x0F, VIDEO_FORMAT = 0x16, OF_FORMAT = 0x3C, INPUT_PIXELS = 0x48, OF_PIXELS = 0x18, FIRST_SYNC = 0x30, SYNCS = 5,
       VALUES = 4, VALUE_BITS = 10 };
static const char *const values_by_name[VALUES] = { "h-placement", "h-duration", "v-placement", "v-duration" };

/* The four sync values of ten bits lie one behind the other in five registers. */
static uint64_t bits_of_syncs(const uint8_t *image) {
    uint64_t bits = 0;
    for (int k = 0; k < SYNCS; k++) bits = bits << 8 | image[FIRST_SYNC + k];
    return bits;
}

static struct request wiring_of_codes(int id, int width, int style, int side, uint64_t syncs) {
    const struct wiring *w = wiring_of_id(id);
    struct request q = request_of_text("vic 1 rgb hdmi");
    if (id)
        q = request_of_text("input id=%d width=%d style=%d justified=%d %s vic 1 rgb hdmi", id, width, style, side,
                            w && is_embedded(w) ? "syncs 0 0 0 0" : "");
    for (int k = 0; k < VALUES; k++)
        q = with_field(q, values_by_name[k], (int)(syncs >> VALUE_BITS * (VALUES - 1 - k) & ((1 << VALUE_BITS) - 1)));
    q.length = 1u + q.bytes[0];
    return q;
}

struct request wiring_of_image(const uint8_t image[STATION_IMAGE]) {
    return wiring_of_codes(image[INPUT_ID] & OF_ID, image[VIDEO_FORMAT] >> 4 & 3, image[VIDEO_FORMAT] >> 2 & 3, image[INPUT_PIXELS] >> 3 & 3,
                           bits_of_syncs(image));
}

/* The registers of a wiring, those bits alone. */
static void image_of_wiring(const struct request *q, uint8_t image[STATION_IMAGE]) {
    uint64_t syncs = 0;
    int is_today = q->bytes[0] == 0;
    memset(image, 0, STATION_IMAGE);
    image[INPUT_ID] = is_today ? 0 : (uint8_t)value_of_field(q, "id");
    image[VIDEO_FORMAT] = (uint8_t)(is_today ? value_of_word("width", (char *)"8bit") << 4
                                             : value_of_field(q, "width") << 4 | value_of_field(q, "style") << 2);
    image[INPUT_PIXELS] = (uint8_t)(is_today ? 0 : value_of_field(q, "justified") << 3);
    for (int k = 0; k < VALUES; k++) {
        int value = value_of_field(q, values_by_name[k]);
        syncs = syncs << VALUE_BITS | (uint64_t)(value < 0 ? 0 : value);
    }
    for (int k = SYNCS; k-- > 0; syncs >>= 8) image[FIRST_SYNC + k] = (uint8_t)syncs;
}

/* How far registers are from those of a wiring: registers first, then bits. */
static unsigned apart_from_wiring(const uint8_t *image, const struct request *q) {
    static const struct { uint8_t address, bits; } of_wiring[] = {
        { INPUT_ID, OF_ID }, { VIDEO_FORMAT, OF_FORMAT }, { INPUT_PIXELS, OF_PIXELS },
        { 0x30, 0xFF }, { 0x31, 0xFF }, { 0x32, 0xFF }, { 0x33, 0xFF }, { 0x34, 0xFF },
    };
    uint8_t want[STATION_IMAGE];
    unsigned distance = 0;
    image_of_wiring(q, want);
    for (size_t k = 0; k < sizeof of_wiring / sizeof of_wiring[0]; k++) {
        unsigned differ = (unsigned)(image[of_wiring[k].address] ^ want[of_wiring[k].address]) & of_wiring[k].bits;
        distance += (differ ? 256 : 0) + bits_of(differ);
    }
    return distance;
}

int has_wiring(const uint8_t image[STATION_IMAGE]) {
    struct request q = wiring_of_image(image);
    return is_wiring(&q) && apart_from_wiring(image, &q) == 0;
}

/* Of two that are as near, the one with the registers' own ID. */
static struct request nearest_wiring(const uint8_t *image) {
    struct request best = wiring_of_codes(0, 0, 0, 0, 0);
    unsigned least = apart_from_wiring(image, &best), own = image[INPUT_ID] & OF_ID;
    for (unsigned n = 0; n < number_of_wirings; n++)
        for (int k = 0; k < 64; k++) {
            unsigned id = n ? n : own;
            struct request q = wiring_of_codes((int)id, k / 16, k / 4 % 4, k % 4, bits_of_syncs(image));
            if (!is_wiring(&q) || apart_from_wiring(image, &q) >= least) continue;
            least = apart_from_wiring(image, &q);
            best = q;
        }
    return best;
}

/* ---- The nearest request. */

struct search { const uint8_t *image; uint8_t base[STATION_IMAGE]; unsigned least; struct nearest *best; struct request wiring; };

static void look_at(struct search *s, const struct request *q) {
    uint8_t writes[STATION_WRITES], image[STATION_IMAGE];
    unsigned registers, distance;
    struct station_count n = station_plan(q->bytes, q->length, s->base, STATION_IMAGE, writes, STATION_WRITES);
    if (n.refusal) return;
    memcpy(image, s->base, STATION_IMAGE);
    for (uint32_t w = 0; w < n.count; w++) {
        uint8_t kept = (uint8_t)station_class(writes[2 * w]).read_only;
        image[writes[2 * w]] = (uint8_t)((image[writes[2 * w]] & kept) | (writes[2 * w + 1] & ~kept));
    }
    distance = apart(s->image, image, &registers);
    if (distance >= s->least) return;
    s->least = distance;
    s->best->asked = *q;
    s->best->registers = registers;
    memcpy(s->best->image, image, STATION_IMAGE);
}

/* Every rate, number of channels and coherence; where there is no sound, the request as it is. The highest rate comes first: of two that are
 * as near it is the one to keep, where sound that does not fit (20) must be lowered. */
static void look_at_sounds(struct search *s, const struct request *q) {
    int rates = 0;
    if (value_of_field(q, "rate") < 0) {
        look_at(s, q);
        return;
    }
    while (word_of_value("rate", rates)) rates++;
    for (int rate = rates; rate-- > 0; )
        for (int coherent = 0; coherent < 2; coherent++) {
            struct request r = with_field(with_field(*q, "rate", rate), "coherent", coherent);
            for (int channels = 2; channels <= 8; channels += 6) {
                r = with_field(r, "channels", channels);
                look_at(s, &r);
            }
        }
}

/* Every value of a field that is named here, and then the sounds. */
static void look_at_fields(struct search *s, struct request q, const char *const *names) {
    if (!*names) {
        look_at_sounds(s, &q);
        return;
    }
    for (int value = 0; word_of_value(*names, value); value++) look_at_fields(s, with_field(q, *names, value), names + 1);
}

/* Sections as registers have them: with sound and without, with their matrix, in each mode where theirs is none (3), and without. */
static void look_at_sections(struct search *s, int vic, int with_sound, int mode) {
    static const char *const names[] = { "family", "encoding", "link", "range", "depth", "repetition", NULL };
    char text[TEXT_OF_A_REQUEST] = "";
    uint8_t matrix[STATION_MATRIX], none[STATION_COEFFICIENTS] = { 0 };
    size_t used = 0;
    station_matrix(s->base, STATION_IMAGE, none, sizeof none, 0, matrix, sizeof matrix);
    if (mode >= 0) used = (size_t)snprintf(text, sizeof text, " matrix %d", mode);
    for (int n = 0; mode >= 0 && n < STATION_METER; n++) {
        int value = 256 * matrix[1 + 2 * n] + matrix[2 + 2 * n];
        used += (size_t)snprintf(text + used, sizeof text - used, " %d", value < 32768 ? value : value - 65536);
    }
    struct request q = with_wiring(request_of_text("vic %d rgb hdmi%s%s", vic, with_sound ? " audio 48kHz 2" : "", text), &s->wiring);
    for (int e = 0; e < EDITIONS; e++) {                        /* D; E with the registers' own bits; E with their content type alone */
        if ((e == 1 && !(s->image[AVI_BYTE_5] & OF_E)) || (e == 2 && (!(s->image[AVI_BYTE_5] & CN) || !(s->image[AVI_BYTE_5] & YQ)))) continue;
        q = with_field(q, "edition", e > 0);
        q = with_field(q, "quantisation", e == 1 ? s->image[AVI_BYTE_5] >> 6 & 1 : 0);
        q = with_field(q, "content", e > 0 ? s->image[AVI_BYTE_5] >> 4 & 3 : 0);
        look_at_fields(s, q, names);
    }
}

int nearest_request(const uint8_t image[STATION_IMAGE], const struct request *begun, struct nearest *n) {
    struct search s = { image, { 0 }, ~0u, n, { { 0 }, 0 } };
    struct request wirings_of[WIRINGS];
    size_t number = 0;
    wirings_of[number++] = nearest_wiring(image);
    if (wirings_of[0].bytes[0]) wirings_of[number++] = wiring_of_codes(0, 0, 0, 0, 0);
    if (begun && begun->bytes[0]) wirings_of[number++] = *begun;
    int own = image[CONVERTER] >> 5 & 3, vics[] = { image[AVI_VIC] & 0x7F, image[VIC] & 0x3F, begun ? value_of_field(begun, "vic") : -1 };
    memcpy(s.base, image, STATION_IMAGE);
    s.base[HOLDS] &= (uint8_t)~PACKET_HOLDS;                    /* planning refuses two packet holds */
    s.base[MATRIX_HOLD] &= (uint8_t)~MATRIX_HOLD_BIT;
    for (size_t m = 0; m < number_of_modes; m++) {
        int is_named = 0, none = 1;
        for (int v = 0; v < 3; v++) is_named |= modes[m].vic == vics[v];
        for (size_t k = 0; k < number_of_modes; k++) none &= modes[k].vic != vics[0] && modes[k].vic != vics[1] && modes[k].vic != vics[2];
        for (size_t w = 0; w < number; w++)
            for (int sound = 0; (is_named || none) && sound < 2; sound++)
                for (int mode = -1; mode < MODES; mode++) {
                    s.wiring = wirings_of[w];
                    if (mode < 0 || own == mode || own == MODES) look_at_sections(&s, modes[m].vic, sound, mode);
                }
    }
    return s.least != ~0u;
}

/* ---- The mended list. */

uint32_t bytes_of_mend(const struct mend *m, uint8_t *bytes) {
    uint32_t n = 0;
    for (uint32_t i = 0; i < m->count; i++) {
        if (m->pairs[i].change == LEFT_OUT) continue;
        bytes[2 * n] = m->pairs[i].address;
        bytes[2 * n++ + 1] = m->pairs[i].value;
    }
    return n;
}

/* The list that is being mended: its bytes as they are now, where each of them stands in `m`, what is wrong with them, and by the vendor's
 * own list whether its picture was shown. */
struct work {
    struct mend *m;
    const struct chip *start;
    uint8_t bytes[2 * MENDED];
    uint32_t at[MENDED], count;
    struct judgement j;
    int was_shown;
};

static int may_take_more(const struct mend *m) { return m->count < MENDED; }

/* One more pair before the one at `item`, or where `after`, behind it. */
static uint32_t put_in(struct work *w, uint32_t item, int after, uint8_t address, uint8_t value, uint32_t why) {
    struct mend *m = w->m;
    uint32_t to = item + (after ? 1 : 0);
    if (!may_take_more(m)) return to;
    const struct mended *beside = m->count ? &m->pairs[item < m->count ? item : m->count - 1] : NULL;
    uint32_t place = beside ? beside->place : 0;
    int behind = beside && beside->change == PUT_IN ? beside->after : after;
    memmove(m->pairs + to + 1, m->pairs + to, (m->count - to) * sizeof *m->pairs);
    m->pairs[to] = (struct mended){ address, value, 0, PUT_IN, place, why, behind };
    m->count++;
    return to;
}

static void change(struct work *w, uint32_t item, uint8_t value, uint32_t why) {
    struct mended *p = &w->m->pairs[item];
    if (p->value == value) return;
    if (p->change == KEPT) p->change = CHANGED, p->was = p->value, p->why = why;
    p->value = value;
}

/* A pair that was put in is taken back; the vendor's is left out. */
static void leave_out(struct work *w, uint32_t item, uint32_t why) {
    struct mended *p = &w->m->pairs[item];
    if (p->change != PUT_IN) {
        if (p->change == CHANGED) p->value = p->was;
        p->change = LEFT_OUT;
        p->why = why;
        return;
    }
    memmove(p, p + 1, (w->m->count - item - 1) * sizeof *p);
    w->m->count--;
}

/* A value with this chip's free bits, and the bits that the guide's tables fix. */
static uint8_t with_kept_bits(const struct work *w, uint8_t address, uint8_t value) {
    struct station_masks m = station_class(address);
    uint8_t kept = (uint8_t)(m.free_bits | m.read_only);
    return (uint8_t)((value & ~(m.mandated | kept)) | m.value | (w->start->image[address] & kept));
}

static void look(struct work *w) {
    w->count = 0;
    for (uint32_t i = 0; i < w->m->count; i++)
        if (w->m->pairs[i].change != LEFT_OUT) w->at[w->count++] = i;
    bytes_of_mend(w->m, w->bytes);
    judge(w->start, w->bytes, 2 * w->count, &w->j);
}

/* ---- A pair by itself. */

static int mend_pairs(struct work *w) {
    int done = 0;
    for (uint32_t i = w->count; i-- > 0; ) {                     /* from behind: nothing that is still to come moves */
        const uint8_t *broken = w->j.pairs[i].broken;
        uint8_t address = w->bytes[2 * i], value = w->bytes[2 * i + 1];
        if (broken[NO_GROUP]) leave_out(w, w->at[i], NO_GROUP), done = 1;
        else if (broken[NOT_MANDATED] || broken[FREE_MOVED])
            change(w, w->at[i], with_kept_bits(w, address, value), broken[NOT_MANDATED] ? NOT_MANDATED : FREE_MOVED), done = 1;
    }
    return done;
}

/* The packets: the registers, the hold. */
static const struct { uint8_t first, last, hold; } packets[] = { [AVI] = { 0x52, 0x61, 0x40 }, [AUDIO] = { 0x70, 0x7C, 0x20 } };
static int is_in(int g, uint8_t address) {
    return g == MATRIX ? address >= 0x18 && address <= 0x2F : address >= packets[g].first && address <= packets[g].last;
}

/* Two holds in one write: the one that is new stays, or the one whose packet is written next. */
static int mend_two_holds(struct work *w) {
    for (uint32_t i = 0; i < w->count; i++) {
        if (!w->j.pairs[i].broken[TWO_HOLDS]) continue;
        uint8_t value = w->bytes[2 * i + 1], up = value & (packets[AVI].hold | packets[AUDIO].hold), hold = up & (uint8_t)~w->j.pairs[i].before;
        for (uint32_t k = i + 1; bits_of(hold) != 1 && k < w->count; k++)
            for (int g = AVI; g <= AUDIO; g++)
                if (is_in(g, w->bytes[2 * k])) hold = packets[g].hold;
        if (bits_of(hold) != 1) hold = packets[AVI].hold;
        change(w, w->at[i], with_kept_bits(w, HOLDS, (uint8_t)((value & ~PACKET_HOLDS) | hold)), TWO_HOLDS);
        return 1;
    }
    return 0;
}

/* ---- The mute. */

static int mend_mute(struct work *w) {
    for (uint32_t i = 0; i < w->count; i++) {
        if (!w->j.pairs[i].broken[NOT_MUTED]) continue;
        uint32_t k = i + 1;
        while (k-- > 0 && w->bytes[2 * k] != GC) {}
        if (k == UINT32_MAX) {
            put_in(w, w->at[0], 0, GC, with_kept_bits(w, GC, (uint8_t)((w->start->image[GC] & ~MUTE_BITS) | MUTE)), NOT_MUTED);
            return 1;
        }
        uint8_t value = w->bytes[2 * k + 1];
        if ((value & MUTE_BITS) == MUTE) return 0;              /* it is held, and no list of ours is */
        if ((value & MUTE_BITS) == (MUTE_BITS & ~MUTE)) leave_out(w, w->at[k], NOT_MUTED);
        else change(w, w->at[k], (uint8_t)((value & ~MUTE_BITS) | MUTE), NOT_MUTED);
        return 1;
    }
    return 0;
}

/* ---- Holds. */

/* The byte of the packet holds before each pair. */
static uint8_t holds_before(const struct work *w, uint32_t i) {
    while (i-- > 0)
        if (w->bytes[2 * i] == HOLDS) return w->bytes[2 * i + 1];
    return w->start->image[HOLDS];
}

/* The pairs of a group from one on, as far as they stand without the hold's being touched, are taken to just behind another pair. */
static void move_behind(struct work *w, int g, uint32_t from, uint32_t behind, uint32_t why) {
    uint32_t items[MENDED], count = 0, to = w->at[behind];
    for (uint32_t i = from; i < behind; i++)
        if (is_in(g, w->bytes[2 * i])) items[count++] = w->at[i];
    for (uint32_t n = count; n-- > 0; ) {
        struct mended p = w->m->pairs[items[n]];
        put_in(w, to, 1, p.address, p.value, why);
    }
    for (uint32_t n = count; n-- > 0; ) leave_out(w, items[n], why);
}

/* A packet's writes without its hold get it; where another hold is up, they go behind it; where they stand in two stretches, the first goes
 * to the second. */
static int mend_packet(struct work *w, int g, uint32_t why) {
    uint8_t hold = packets[g].hold, other = (uint8_t)(PACKET_HOLDS & ~hold);
    uint32_t first = 0, end, last_of_all = 0;
    while (first < w->count && !(is_in(g, w->bytes[2 * first]) && !(holds_before(w, first) & hold))) first++;
    for (uint32_t i = 0; i < w->count; i++)
        if (is_in(g, w->bytes[2 * i])) last_of_all = i;
    if (first == w->count) {                                    /* all are held, and in more than one stretch */
        uint32_t from = 0;
        while (from < w->count && !is_in(g, w->bytes[2 * from])) from++;
        if (from >= last_of_all) return 0;
        uint32_t up = last_of_all;
        while (up-- > 0 && w->bytes[2 * up] != HOLDS) {}
        if (up == UINT32_MAX || up < from) return 0;
        move_behind(w, g, from, up, why);
        return 1;
    }
    uint8_t now = holds_before(w, first);
    for (end = first; end + 1 < w->count && w->bytes[2 * (end + 1)] != HOLDS; end++) {}
    if (now & other) {
        int is_needed = 0;                                      /* the other hold, from here on */
        for (uint32_t i = first; i <= end; i++) is_needed |= is_in(AVI + AUDIO - g, w->bytes[2 * i]);
        if (!is_needed) {
            put_in(w, w->at[first], 0, HOLDS, with_kept_bits(w, HOLDS, (uint8_t)((now & ~PACKET_HOLDS) | hold)), why);
            return 1;
        }
        if (end + 1 >= w->count) return 0;
        move_behind(w, g, first, end + 1, why);
        return 1;
    }
    while (!is_in(g, w->bytes[2 * end])) end--;
    put_in(w, w->at[end], 1, HOLDS, with_kept_bits(w, HOLDS, (uint8_t)(now & ~PACKET_HOLDS)), why);
    put_in(w, w->at[first], 0, HOLDS, with_kept_bits(w, HOLDS, (uint8_t)((now & ~PACKET_HOLDS) | hold)), why);
    return 1;
}

/* The coefficients: the hold is up from the first of them to the last, in the writes to its own register too, and comes down behind. */
static int mend_matrix(struct work *w, uint32_t why) {
    uint32_t first = 0, last = w->count;
    int done = 0;
    while (first < w->count && !is_in(MATRIX, w->bytes[2 * first])) first++;
    while (last > 0 && !is_in(MATRIX, w->bytes[2 * (last - 1)])) last--;
    if (first == w->count) return 0;
    last--;
    uint8_t before = w->start->image[MATRIX_HOLD], after = before;
    for (uint32_t i = 0; i <= last; i++)
        if (w->bytes[2 * i] == MATRIX_HOLD) after = w->bytes[2 * i + 1];
    if (w->bytes[2 * last] != MATRIX_HOLD || (after & MATRIX_HOLD_BIT)) {
        put_in(w, w->at[last], 1, MATRIX_HOLD, with_kept_bits(w, MATRIX_HOLD, (uint8_t)(after & ~MATRIX_HOLD_BIT)), why);
        done = 1;
        last++;
    }
    for (uint32_t i = last; i-- > first; )
        if (w->bytes[2 * i] == MATRIX_HOLD && !(w->bytes[2 * i + 1] & MATRIX_HOLD_BIT))
            change(w, w->at[i], w->bytes[2 * i + 1] | MATRIX_HOLD_BIT, why), done = 1;
    if (!(before & MATRIX_HOLD_BIT) && w->bytes[2 * first] != MATRIX_HOLD)
        put_in(w, w->at[first], 0, MATRIX_HOLD, with_kept_bits(w, MATRIX_HOLD, before | MATRIX_HOLD_BIT), why), done = 1;
    return done;
}

static int mend_torn(struct work *w) {
    for (uint32_t i = 0; i < w->count; i++) {
        const uint8_t *broken = w->j.pairs[i].broken;
        if (broken[TORN_AVI]) return mend_packet(w, AVI, TORN_AVI);
        if (broken[TORN_AUDIO]) return mend_packet(w, AUDIO, TORN_AUDIO);
        if (broken[TORN_MATRIX]) return mend_matrix(w, TORN_MATRIX);
        if (broken[TORN_AT_VSYNC]) return mend_matrix(w, TORN_AT_VSYNC);
    }
    return 0;
}

/* ---- The end. */

/* A register that the list does not write: behind the last one of its group, or with the hold before the last pair. */
static void put_register(struct work *w, uint8_t address, uint8_t value) {
    uint32_t last = w->count, opens = w->count && w->bytes[2 * (w->count - 1)] == GC;
    int g = 0;
    while (g < GROUPS && !is_in(g, address)) g++;
    for (uint32_t i = 0; g < GROUPS && i < w->count; i++)
        if (is_in(g, w->bytes[2 * i])) last = i;
    if (last < w->count) put_in(w, w->at[last], 1, address, value, FAULTS);
    else if (w->count == 0) put_in(w, w->m->count, 0, address, value, FAULTS);
    else put_in(w, w->at[w->count - 1], !opens, address, value, FAULTS);
}

static int mend_end(struct work *w, const struct request *begun) {
    const uint8_t *is = w->j.last.image;
    struct nearest n;
    if (!nearest_request(is, begun, &n)) return 0;
    for (int a = 0; a < STATION_IMAGE; a++) {
        uint8_t address = (uint8_t)a;
        uint32_t last = w->count;
        if (n.image[a] == is[a] || address == GC) continue;
        while (last > 0 && w->bytes[2 * (last - 1)] != address) last--;
        if (last > 0 && address != HOLDS) change(w, w->at[last - 1], n.image[a], FAULTS);
        else put_register(w, address, n.image[a]);
        look(w);
    }
    if (n.image[GC] != is[GC]) {
        uint32_t why = w->was_shown ? NOT_MUTED : FAULTS;
        if (w->count > 1 && w->bytes[2 * (w->count - 1)] == GC && (w->bytes[2 * w->count - 1] & MUTE_BITS) != MUTE)
            change(w, w->at[w->count - 1], n.image[GC], why);
        else put_in(w, w->count ? w->at[w->count - 1] : w->m->count, w->count != 0, GC, n.image[GC], why);
    }
    return 1;
}

/* ---- The whole: what is found first is mended first, and all is judged anew. */

enum { ROUNDS = 64 };

static int is_request(const uint8_t image[STATION_IMAGE]) {
    uint8_t request[STATION_REQUEST];
    return station_decode(image, STATION_IMAGE, request, sizeof request).refusal == 0;
}

void mend_list(const struct chip *c, const uint8_t *list, const struct judgement *j, const struct request *begun, struct mend *m) {
    static struct work w;
    m->count = j->count;
    m->changes = 0;
    m->accepted = 0;
    for (uint32_t i = 0; i < j->count; i++) m->pairs[i] = (struct mended){ list[2 * i], list[2 * i + 1], 0, KEPT, i, 0, 0 };
    m->has_nearest = !is_request(j->last.image) && nearest_request(j->last.image, begun, &m->nearest);
    w.m = m;
    w.start = c;
    w.was_shown = 0;
    for (uint32_t i = 0; i < j->count; i++) w.was_shown |= j->pairs[i].broken[NOT_MUTED];
    for (int round = 0; round < ROUNDS; round++) {
        look(&w);
        if (w.j.verdict.refusal == 0 || !may_take_more(m) || 2 * w.count > STATION_LIST) break;
        if (!mend_pairs(&w) && !mend_two_holds(&w) && !mend_mute(&w) && !mend_torn(&w) &&
            !(w.j.verdict.refusal == STATION_BAD_END && mend_end(&w, begun))) break;
    }
    look(&w);
    m->accepted = 2 * w.count <= STATION_LIST && vet(c, w.bytes, 2 * w.count).refusal == 0;
    for (uint32_t i = 0; i < m->count; i++) m->changes += m->pairs[i].change != KEPT;
}
