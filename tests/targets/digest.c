/* A digest of every call's answers, and of the bytes lent to it, over random and damaged input: two builds of the library that answer alike
 * have one digest. It divides nowhere and needs nothing but memcpy and memset, so it runs without a system too. */
#include "digest.h"
#include <station.h>
#include <string.h>

static uint32_t noise;
static struct digest d;

/* A number below n. It is drawn in statements of its own and never among the parameters of a call, whose order is the compiler's. */
static uint32_t any(uint32_t n) {
    noise ^= noise << 13, noise ^= noise >> 17, noise ^= noise << 5;
    return (uint32_t)((uint64_t)noise * n >> 32);
}
static int one_in(uint32_t n) { return any(n) == 0; }
static void fill(uint8_t *bytes, size_t length) {
    for (size_t i = 0; i < length; i++) bytes[i] = (uint8_t)any(256);
}

static void add(const uint8_t *bytes, size_t length) {
    for (size_t i = 0; i < length; i++) d.hash = (d.hash ^ bytes[i]) * 0x100000001b3u;
}
static void number(uint32_t n) {
    for (int k = 0; k < 32; k += 8) d.hash = (d.hash ^ (n >> k & 255)) * 0x100000001b3u;
}

/* A length that is mostly the right one. */
static size_t about(size_t right) { return !one_in(300) ? right : one_in(2) ? right - 1 : any((uint32_t)right); }

/* ---- Input. */

enum { ROOM = STATION_REQUEST + 26 };

/* A wiring section in one of three requests, mostly one that is defined; answers its input ID, 0 for today's board. */
static uint32_t any_wiring(uint8_t *q, size_t *n) {
    uint32_t id = one_in(3) ? 1 + any(8) : 0;
    int embedded = id == 2 || id == 4 || id == 8;
    q[(*n)++] = id == 0 ? 0 : embedded ? 12 : 4;
    if (id == 0) return 0;
    uint32_t depth = 1 + any(3), style = 1 + any(one_in(4) ? 3 : 2), justified = id == 5 ? 0 : any(3);
    q[(*n)++] = (uint8_t)id, q[(*n)++] = (uint8_t)depth, q[(*n)++] = (uint8_t)style, q[(*n)++] = (uint8_t)justified;
    for (int k = 0; embedded && k < 4; k++) {
        uint32_t sync = any(one_in(40) ? 1100 : 1024);
        q[(*n)++] = (uint8_t)(sync >> 8), q[(*n)++] = (uint8_t)sync;
    }
    return id;
}

static uint8_t any_vic(void) {
    static const uint8_t vics[] = { 1, 2, 3, 4, 5, 16, 17, 18, 19, 20, 31, 32, 34, 60, 62, 6 };
    return vics[any(16)];
}

/* A request that is accepted, more often than not, and in one of eight is damaged: a byte changed, cut, or longer. */
static size_t any_request(uint8_t *q) {
    static const uint8_t editions[] = { 0, 0, 0, 1, 0x05, 0x11, 0x21, 0x35 };
    int hdmi = !one_in(6), audio = hdmi && !one_in(4);
    uint8_t encoding = hdmi ? (uint8_t)any(3) : 0;
    size_t n = 0, at;
    uint32_t id = any_wiring(q, &n);
    q[n++] = 7, q[n++] = any_vic(), q[n++] = (uint8_t)one_in(3), q[n++] = encoding, q[n++] = (uint8_t)hdmi;
    q[n++] = encoding ? 0 : (uint8_t)any(2);
    uint32_t depth = one_in(3) ? any(3) : 0, repetition = one_in(3) ? any(3) : 0;
    q[n++] = (uint8_t)((hdmi && encoding != 1 ? depth : 0) | repetition << 4);
    q[n++] = editions[any(8)];
    q[n++] = audio ? 3 : 0;
    if (audio) q[n++] = (uint8_t)any(7), q[n++] = one_in(2) ? 2 : 8, q[n++] = (uint8_t)any(2);
    int converts = (id == 0 || id == 5) == (encoding != 0), matrix = converts || one_in(2);
    q[n++] = matrix ? 25 : 0;
    if (matrix) q[n++] = (uint8_t)any(3);
    for (int k = 0; matrix && k < 12; k++) {
        uint32_t field = any(8192) - 4096;
        q[n++] = (uint8_t)(field >> 8), q[n++] = (uint8_t)field;
    }
    switch (any(24)) {
    case 0: at = any((uint32_t)n), q[at] = (uint8_t)any(256); break;
    case 1: return any((uint32_t)n);
    case 2: q[n] = (uint8_t)any(256); return n + 1;
    }
    return n;
}

/* A meter's number by its bits: of a size that some mode takes, or of any. */
static float any_float(void) {
    uint32_t sign = any(2), exponent = one_in(60) ? any(256) : 100 + any(29), bits = sign << 31 | exponent << 23 | any(1u << 23);
    float f;
    memcpy(&f, &bits, sizeof f);
    return f;
}

/* A screen: up to four data blocks of any tags, mostly VICs and linear PCM, and now and then one that runs past; right sums, mostly. */
static size_t any_screen(uint8_t *e) {
    uint8_t *x = e + STATION_EDID / 2;
    uint32_t at = 4;
    fill(e, STATION_EDID);
    e[0] = e[7] = 0, memset(e + 1, 255, 6);
    for (int block = 0; block < 4; block++) {
        uint32_t tag = one_in(6) ? any(8) : 1u + (block & 1), bytes = 3 + any(25);
        x[at++] = (uint8_t)(tag << 5 | bytes);
        for (uint32_t k = 0, third = 0; k < bytes; k++, third = third == 2 ? 0 : third + 1, at++) {
            if (tag == 2) x[at] = any_vic();
            if (tag == 1 && third == 0 && !one_in(4)) x[at] = one_in(2) ? 0x0F : 0x09;
        }
    }
    x[0] = one_in(60) ? (uint8_t)any(4) : 2, x[1] = one_in(20) ? (uint8_t)any(5) : 3;
    x[2] = (uint8_t)(one_in(20) ? any(256) : one_in(30) ? at - 1 : at);
    for (int block = 0; block < STATION_EDID; block += STATION_EDID / 2) {
        uint8_t *last = e + block + STATION_EDID / 2 - 1;
        *last = 0;
        for (const uint8_t *b = e + block; b < last; b++) *last = (uint8_t)(*last - *b);
    }
    if (one_in(40)) at = any(STATION_EDID), e[at] ^= (uint8_t)(1u << any(8));
    return one_in(30) ? STATION_EDID / 2 : about(STATION_EDID);
}

/* ---- The calls. */

static uint8_t image[STATION_IMAGE], packet[STATION_PACKET], coefficients[STATION_COEFFICIENTS], mark[STATION_MARK];
static uint8_t request[ROOM], list[STATION_LIST + 2], matrix[STATION_MATRIX + 1], pipe[STATION_PIPE];
static size_t length;

/* The lengths that the next call is told. */
static size_t of_image, of_packet, of_coefficients, of_mark, of_matrix;
static void lengths(void) {
    of_image = about(STATION_IMAGE), of_packet = about(STATION_PACKET), of_coefficients = about(STATION_COEFFICIENTS);
    of_mark = about(STATION_MARK), of_matrix = about(STATION_MATRIX);
}
#define CHIP image, of_image, packet, of_packet, coefficients, of_coefficients

static void by_class(void) {
    for (uint32_t a = 0; a < STATION_IMAGE; a++) {
        struct station_masks m = station_class((uint8_t)a);
        number(m.read_only), number(m.mandated), number(m.named), number(m.free_bits), number(m.value);
    }
}

static void by_pipe(void) {
    struct station_piped p = { 0, 0, 0 };
    memset(pipe, 0, sizeof pipe);
    if (one_in(10)) fill(pipe, sizeof pipe);
    if (one_in(10)) pipe[STATION_REQUEST] = (uint8_t)any(STATION_REQUEST + 3);
    for (size_t from = 0, part; from < length; from += part) {
        size_t of_pipe = about(sizeof pipe);
        part = 1 + any((uint32_t)(length - from));
        p = station_pipe_take(pipe, of_pipe, request + from, part);
        number(p.refusal), number(p.answered), number(p.count), add(pipe, sizeof pipe);
    }
    p = station_pipe_end(pipe, about(sizeof pipe));
    number(p.refusal), number(p.answered), number(p.count), add(pipe, sizeof pipe);
    d.piped += p.answered && !p.refusal;
}

static void by_meter(void) {
    float numbers[STATION_METER];
    size_t count = about(STATION_METER);
    for (int k = 0; k < STATION_METER; k++) numbers[k] = any_float();
    fill(matrix, sizeof matrix);
    lengths();
    struct station_count c = station_meter(numbers, count, matrix, of_matrix);
    number(c.refusal), number(c.count), add(matrix, sizeof matrix);
    d.metered += !c.refusal;
    uint32_t a = any(4100), b = any(4096), e = any(4096);
    lengths();
    struct station_pixel x = station_preview(matrix, of_matrix, a, b, e);
    number(x.refusal), number(x.a), number(x.b), number(x.c);
}

static void by_screen(void) {
    static uint8_t edid[STATION_EDID], wishes[STATION_WISHES + 2];
    size_t of_edid = any_screen(edid), of_wishes = 2 * any(one_in(60) ? 18 : 17);
    if (one_in(60)) of_wishes |= 1;
    for (size_t k = 0; k < sizeof wishes; k += 2) wishes[k] = any_vic(), wishes[k + 1] = (uint8_t)one_in(4);
    struct station_monitor m = station_edid(edid, of_edid);
    number(m.refusal), number(m.vics_low), number(m.vics_high), number(m.rates_2), number(m.rates_8);
    d.listed += m.vics_low || m.vics_high;
    struct station_choice c = station_choose(edid, of_edid, request, length, wishes, of_wishes);
    number(c.refusal), number(c.place), number(c.at);
    add(edid, sizeof edid), add(request, length), add(wishes, sizeof wishes);
    d.chosen += !c.refusal;
}

static void judged(size_t of) {
    lengths();
    struct station_verdict v = station_vet(CHIP, mark[0], list, of);
    number(v.refusal), number(v.place);
    d.passed += !v.refusal;
}

/* Plans, has the list judged, whole and damaged, and runs a front of it with Vsyncs here and there. */
static void by_list(void) {
    struct station_pair p = station_ncts(request, length);
    number(p.refusal), number(p.n), number(p.cts);
    fill(list, sizeof list);
    lengths();
    size_t room = one_in(40) ? any(STATION_WRITES) : STATION_WRITES + any(3);
    struct station_count c = station_plan(request, length, image, of_image, list, room);
    number(c.refusal), number(c.count), add(list, sizeof list);
    d.planned += !c.refusal;
    judged(2 * c.count);
    if (one_in(6)) judged(any(sizeof list + 1));
    if (c.count && one_in(3)) {
        uint32_t at = any(2 * c.count);
        uint8_t was = list[at];
        list[at] ^= (uint8_t)(1u << any(8));
        judged(2 * c.count);
        list[at] = was;
    }
    for (uint32_t w = 0, end = one_in(3) ? any(c.count + 1) : c.count; w < end; w++) {
        lengths();
        if (w + 1 == c.count || one_in(20)) number(station_vsync(CHIP, mark, of_mark));
        lengths();
        number(station_write(CHIP, mark, of_mark, list[2 * w], list[2 * w + 1]));
    }
}

static void by_views(void) {
    uint8_t back[STATION_REQUEST + 2];
    add(image, sizeof image), add(packet, sizeof packet), add(coefficients, sizeof coefficients), add(mark, sizeof mark);
    for (uint32_t which = 0; which < 3; which++) {
        lengths();
        struct station_part s = station_sent(image, of_image, packet, of_packet, which);
        number(s.refusal), number(s.held), number(s.start), number(s.len);
    }
    lengths();
    struct station_state m = station_mute(image, of_image, packet, of_packet);
    number(m.refusal), number(m.mute);
    fill(matrix, sizeof matrix);
    lengths();
    struct station_count c = station_matrix(image, of_image, coefficients, of_coefficients, mark[0], matrix, of_matrix);
    number(c.refusal), number(c.count), add(matrix, sizeof matrix);
    fill(back, sizeof back);
    lengths();
    c = station_decode(image, of_image, back, sizeof back - any(4));
    number(c.refusal), number(c.count), add(back, sizeof back);
    d.decoded += !c.refusal;
}

struct digest digest(uint32_t seed, uint32_t rounds) {
    memset(&d, 0, sizeof d);
    d.hash = 0xcbf29ce484222325u, noise = seed * 2654435761u + 1;
    memset(image, 0, sizeof image), memset(packet, 0, sizeof packet), memset(coefficients, 0, sizeof coefficients), mark[0] = 0;
    by_class();
    for (uint32_t r = 0; r < rounds; r++) {
        if (one_in(4)) fill(image, sizeof image), fill(packet, sizeof packet), fill(coefficients, sizeof coefficients);
        if (one_in(5)) mark[0] = (uint8_t)any(256);
        if (!one_in(8)) image[0x4A] &= 0xAF;
        length = any_request(request);
        by_pipe();
        by_meter();
        by_screen();
        by_list();
        by_views();
    }
    return d;
}
