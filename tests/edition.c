/* Two editions of the InfoFrame: document 02, request 11. */
#include "check.h"
#include <stdlib.h>
#include <string.h>

/* By their own numbers, not the model's: the edition byte, and the upper half of data byte 5. */
enum { EDITION_OF = 0x03, OUTSIDE = 0xC0, BYTE_5 = 0x59, CHECKSUM = 0x54 };
static int quantisation_of(int byte) { return byte >> 2 & 3; }
static int type_of(int byte) { return byte >> 4 & 3; }
static int upper_half_of(int byte) { return quantisation_of(byte) << 6 | type_of(byte) << 4; }

/* D, E that asks for nothing, E with each of what it may ask for. */
static const uint8_t allowed[] = { 0x00, 0x01, 0x05, 0x11, 0x15, 0x21, 0x25, 0x31, 0x35 };
enum { ALLOWED = sizeof allowed, OF_D = 0x00 };

static struct fields with_byte(const struct fields *f, int byte) {
    struct fields g = *f;
    g.edition = byte & EDITION_OF, g.quantisation = quantisation_of(byte), g.content = type_of(byte), g.bits_7_6 = byte >> 6;
    return g;
}

static const struct picture { int encoding, link, range; } pictures[] = {
    { 0, 0, 0 }, { 0, 0, 1 }, { 0, 1, 0 }, { 0, 1, 1 }, { 1, 1, 0 }, { 2, 1, 0 },
};
enum { PICTURES = sizeof pictures / sizeof pictures[0] };

static struct fields with_picture(int vic, int picture, int repetition) {
    const struct picture *p = &pictures[picture];
    return (struct fields){ .vic = vic, .encoding = p->encoding, .link = p->link, .range = p->range, .repetition = repetition,
                            .matrix = p->encoding != 0 };
}

/* Is it within the limit of 225 MHz? The depth is 24 bits here. */
static int within_limit(const struct fields *f) { return (uint64_t)model_hertz(f->vic) << f->repetition <= 225000000; }

/* Marked cases. --------------------------------------------------------------------------------------------------------------------- */

/* Whole requests, byte by byte: the refusal, or data byte 5, the AVI checksum and the edition byte that reads back. */
static const struct { uint8_t length, bytes[16]; uint32_t refusal; int byte_5, sum, back; } marked[] = {
    { 14, { 0, 7, 0x10, 0, 0, 1, 0, 0, 0x00, 3, 2, 2, 1, 0 }, 0, 0x00, 0x23, 0x00 },       /* the worked example */
    { 11, { 0, 7, 0x10, 0, 0, 1, 0, 0, 0x00, 0, 0 }, 0, 0x00, 0x23, 0x00 },
    { 11, { 0, 7, 0x10, 0, 0, 1, 0, 0, 0x01, 0, 0 }, 0, 0x00, 0x23, 0x00 },                /* E that asks for nothing reads back as D */
    { 11, { 0, 7, 0x10, 0, 0, 1, 0, 0, 0x05, 0, 0 }, 0, 0x40, 0xE3, 0x05 },                /* quantisation */
    { 11, { 0, 7, 0x10, 0, 0, 1, 0, 0, 0x11, 0, 0 }, 0, 0x10, 0x13, 0x11 },                /* each type */
    { 11, { 0, 7, 0x10, 0, 0, 1, 0, 0, 0x21, 0, 0 }, 0, 0x20, 0x03, 0x21 },
    { 11, { 0, 7, 0x10, 0, 0, 1, 0, 0, 0x31, 0, 0 }, 0, 0x30, 0xF3, 0x31 },
    { 11, { 0, 7, 0x10, 0, 0, 1, 0, 0, 0x15, 0, 0 }, 0, 0x50, 0xD3, 0x15 },                /* both */
    { 11, { 0, 7, 0x10, 0, 0, 1, 0, 0, 0x25, 0, 0 }, 0, 0x60, 0xC3, 0x25 },
    { 11, { 0, 7, 0x10, 0, 0, 1, 0, 0, 0x35, 0, 0 }, 0, 0x70, 0xB3, 0x35 },
    { 11, { 0, 7, 0x10, 0, 0, 1, 1, 0, 0x35, 0, 0 }, 0, 0x70, 0xAF, 0x35 },                /* RGB of full range */
    { 11, { 0, 7, 0x10, 0, 0, 0, 0, 0, 0x35, 0, 0 }, 0, 0x70, 0xB3, 0x35 },                /* DVI */
    { 11, { 0, 7, 0x04, 0, 0, 1, 0, 0x10, 0x35, 0, 0 }, 0, 0x71, 0xBE, 0x35 },             /* each pixel twice, and four times */
    { 11, { 0, 7, 0x01, 0, 0, 1, 0, 0x20, 0x35, 0, 0 }, 0, 0x73, 0xCF, 0x35 },
    { 11, { 0, 7, 0x01, 0, 0, 1, 0, 0x22, 0x11, 0, 0 }, 0, 0x13, 0x2F, 0x11 },             /* 36 bits too */
    { 14, { 0, 7, 0x04, 1, 0, 1, 0, 0, 0x31, 3, 0, 2, 1, 0 }, 9, 0, 0, 0 },                /* the edition lifts no other refusal */
    { 11, { 0, 7, 0x10, 0, 0, 1, 0, 0, 0x04, 0, 0 }, 6, 0, 0, 0 },                         /* D with each of E's bits */
    { 11, { 0, 7, 0x10, 0, 0, 1, 0, 0, 0x10, 0, 0 }, 6, 0, 0, 0 },
    { 11, { 0, 7, 0x10, 0, 0, 1, 0, 0, 0x20, 0, 0 }, 6, 0, 0, 0 },
    { 11, { 0, 7, 0x10, 0, 0, 1, 0, 0, 0x34, 0, 0 }, 6, 0, 0, 0 },
    { 11, { 0, 7, 0x10, 0, 0, 1, 0, 0, 0x02, 0, 0 }, 5, 0, 0, 0 },                         /* edition 2 and 3 */
    { 11, { 0, 7, 0x10, 0, 0, 1, 0, 0, 0x03, 0, 0 }, 5, 0, 0, 0 },
    { 11, { 0, 7, 0x10, 0, 0, 1, 0, 0, 0x37, 0, 0 }, 5, 0, 0, 0 },
    { 11, { 0, 7, 0x10, 0, 0, 1, 0, 0, 0x09, 0, 0 }, 5, 0, 0, 0 },                         /* quantisation 2 and 3 */
    { 11, { 0, 7, 0x10, 0, 0, 1, 0, 0, 0x0D, 0, 0 }, 5, 0, 0, 0 },
    { 11, { 0, 7, 0x10, 0, 0, 1, 0, 0, 0x40, 0, 0 }, 5, 0, 0, 0 },                         /* bits 7:6 */
    { 11, { 0, 7, 0x10, 0, 0, 1, 0, 0, 0x41, 0, 0 }, 5, 0, 0, 0 },
    { 11, { 0, 7, 0x10, 0, 0, 1, 0, 0, 0x81, 0, 0 }, 5, 0, 0, 0 },
    { 11, { 0, 7, 0x10, 0, 0, 1, 0, 0, 0xFF, 0, 0 }, 5, 0, 0, 0 },
    { 11, { 0, 7, 0x10, 0, 0, 1, 0, 0, 0x08, 0, 0 }, 5, 0, 0, 0 },                         /* 5 before 6, both by this byte */
    { 11, { 0, 7, 0x10, 0, 0, 1, 0, 0, 0x50, 0, 0 }, 5, 0, 0, 0 },
    { 11, { 0, 7, 0x10, 0, 0, 1, 2, 0, 0x04, 0, 0 }, 5, 0, 0, 0 },                         /* 5 by the range, 6 by this byte */
    { 11, { 0, 7, 0x10, 0, 1, 1, 0, 0, 0x02, 0, 0 }, 5, 0, 0, 0 },                         /* 5 by this byte, 6 by the encoding */
    { 11, { 0, 7, 0x13, 1, 0, 1, 0, 0, 0xFF, 0, 0 }, 4, 0, 0, 0 },                         /* 4 before 5 and 6 */
    { 11, { 0, 7, 0x13, 1, 0, 1, 0, 0, 0x04, 0, 0 }, 4, 0, 0, 0 },
    { 11, { 0, 7, 0x10, 0, 0, 1, 0, 0x10, 0x04, 0, 0 }, 6, 0, 0, 0 },                      /* 6 before 17 */
    { 11, { 0, 7, 0x10, 0, 0, 1, 0, 0x10, 0x35, 0, 0 }, 17, 0, 0, 0 },
    { 12, { 0, 7, 0x10, 0, 0, 1, 0, 0, 0xFF, 0, 0, 0 }, 3, 0, 0, 0 },                      /* 1 to 3 before all that */
    { 10, { 0, 6, 0x10, 0, 0, 1, 0, 0, 0, 0 }, 2, 0, 0, 0 },                                /* as it was before this request */
    { 8, { 0, 7, 0x10, 0, 0, 1, 0, 0 }, 1, 0, 0, 0 },
    { 9, { 0, 7, 0x10, 0, 0, 1, 0, 0, 0x35 }, 1, 0, 0, 0 },
};

static void marked_editions(void) {
    for (size_t i = 0; i < sizeof marked / sizeof marked[0]; i++) {
        uint8_t image[256] = { 0 }, writes[256] = { 0 }, back[LONGEST] = { 0 };
        const uint8_t *bytes = marked[i].bytes;
        size_t length = marked[i].length;
        check_ncts(bytes, length);
        check_plan(bytes, length, image, 256, writes, 256);
        uint32_t refusal = run.f->ncts(bytes, length).refusal;
        struct station_count c = run.f->plan(bytes, length, image, 256, writes, 256);
        if (refusal != marked[i].refusal || c.refusal != marked[i].refusal)
            differs("VIC %d, edition byte %02x: %u and %u, not %u", bytes[2], bytes[8], refusal, c.refusal, marked[i].refusal);
        if (marked[i].refusal) continue;
        for (int a = 0; a < 256; a++) image[a] = (uint8_t)left_in((uint8_t)a, image, writes, c);
        if (image[BYTE_5] != marked[i].byte_5 || image[CHECKSUM] != marked[i].sum)
            differs("edition byte %02x: data byte 5 is %02x, the checksum %02x", bytes[8], image[BYTE_5], image[CHECKSUM]);
        check_decode(image, 256, back, sizeof back);
        struct station_count d = run.f->decode(image, 256, back, sizeof back);
        if (d.refusal || d.count != length || back[8] != marked[i].back || memcmp(back, bytes, 8) ||
            memcmp(back + 9, bytes + 9, length - 9))
            differs("edition byte %02x reads back as %u, %02x", bytes[8], d.refusal, back[8]);
    }
}

/* A request as it was before the video section had its last byte, or its last two or three: those are gone, and the count is less. */
static void older_requests(void) {
    static const struct fields silent = { .vic = 16, .link = 1 };
    const struct fields *const of[] = { &example, &silent };
    for (size_t less = 1; less <= 3; less++)
        for (int k = 0; k < 2; k++) {
            uint8_t bytes[LONGEST], image[256] = { 0 }, writes[256] = { 0 };
            size_t length = model_bytes(of[k], bytes) - less, kept = 2 + VIDEO_BYTES - less;
            bytes[1] = (uint8_t)(VIDEO_BYTES - less);
            memmove(bytes + kept, bytes + kept + less, length - kept);
            check_ncts(bytes, length);
            check_plan(bytes, length, image, 256, writes, 256);
            if (run.f->ncts(bytes, length).refusal != 2) differs("a count of %d is not refused 2", bytes[1]);
        }
}

/* Every value of the byte. ---------------------------------------------------------------------------------------------------------- */

/* The lists of a request and of the same under D, on one image: the first leaves E's bits in data byte 5 beside PR, and the checksum less
 * by them. All else is alike, in the same order; and where E asks for nothing, byte for byte. */
static void beside_d(const struct fields *f, int byte) {
    const struct fields asked[2] = { with_byte(f, byte), with_byte(f, OF_D) };
    uint8_t bytes[LONGEST], writes[2][256], rest[2][256] = { { 0 } };
    struct station_count c[2];
    struct chip start;
    size_t n[2] = { 0, 0 };
    int upper = upper_half_of(byte);
    any_start(&start);
    if (any(2)) near_image(start.image, f);
    memset(writes, 0xA5, sizeof writes);
    run.now->cases++;
    for (int k = 0; k < 2; k++) {
        c[k] = run.f->plan(bytes, model_bytes(&asked[k], bytes), start.image, 256, writes[k], 256);
        if (c[k].refusal || c[k].count > 128) {
            differs("edition byte %02x, encoding %d: refused %u", k ? OF_D : byte, f->encoding, c[k].refusal);
            return;
        }
        for (const uint8_t *pair = writes[k]; pair < writes[k] + 2 * c[k].count; pair += 2)
            if (pair[0] != BYTE_5 && pair[0] != CHECKSUM) memcpy(rest[k] + n[k], pair, 2), n[k] += 2;
    }
    for (int a = 0; a < 256; a++) {
        int e = left_in((uint8_t)a, start.image, writes[0], c[0]), d = left_in((uint8_t)a, start.image, writes[1], c[1]);
        int right = a == BYTE_5 ? upper | d : a == CHECKSUM ? (d - upper) & 0xFF : d;
        if (e != right) differs("edition byte %02x: %02x is %02x, and %02x under D", byte, a, e, d);
        if (a == BYTE_5 && d > 15) differs("data byte 5 is %02x under D", d);
    }
    if (n[0] != n[1] || memcmp(rest[0], rest[1], n[0])) differs("edition byte %02x: another list than under D", byte);
    if (!upper && (c[0].count != c[1].count || memcmp(writes[0], writes[1], 256))) differs("an E that asks for nothing has not D's list");
}

/* The number for a request that is refused so, or not, under D. */
static uint32_t refused_with(uint32_t under_d, int byte) {
    int edition = byte & EDITION_OF, quantisation = quantisation_of(byte), type = type_of(byte);
    if (under_d == 4) return 4;
    if (edition > 1 || quantisation > 1 || (byte & OUTSIDE) || under_d == 5) return 5;
    if (edition == 0 && (quantisation || type)) return 6;
    return under_d;
}

static void one_byte(const struct fields *f, uint32_t under_d, int byte) {
    const struct fields g = with_byte(f, byte);
    uint8_t bytes[LONGEST], image[256] = { 0 }, writes[256] = { 0 };
    size_t length = model_bytes(&g, bytes);
    uint32_t right = refused_with(under_d, byte);
    check_ncts(bytes, length);
    check_plan(bytes, length, image, 256, writes, 256);
    uint32_t refusal = run.f->ncts(bytes, length).refusal, planned = run.f->plan(bytes, length, image, 256, writes, 256).refusal;
    if (refusal != right || planned != right)
        differs("edition byte %02x, VIC %d, encoding %d, link %d: %u and %u, not %u", byte, f->vic, f->encoding, f->link, refusal, planned,
                right);
    else if (!right) beside_d(f, byte);
}

static void every_byte(void) {
    static const struct { struct fields f; uint32_t under_d; } refused[] = {
        { { .vic = 19, .family = 1, .link = 1 }, 4 },
        { { .vic = 16, .link = 1, .range = 2 }, 5 },
        { { .vic = 16, .link = 1, .encoding = 1 }, 6 },
        { { .vic = 16, .sound = 1, .rate = 2, .channels = 2 }, 6 },
        { { .vic = 16, .link = 1, .repetition = 1 }, 17 },
        { { .vic = 4, .family = 1, .link = 1, .sound = 1, .channels = 2, .coherent = 1 }, 9 },
    };
    static const struct { int vic, depth, repetition, sound; } modes[] = {
        { 1, 0, 2, 0 }, { 2, 0, 0, 1 }, { 16, 2, 0, 1 }, { 60, 1, 1, 0 },
    };
    for (int byte = 0; byte < 256; byte++) {
        if (byte > 0x3F && passed_over(4)) continue;
        for (size_t k = 0; k < sizeof refused / sizeof refused[0]; k++) one_byte(&refused[k].f, refused[k].under_d, byte);
        for (int p = 0; p < PICTURES; p++)
            for (size_t m = 0; m < sizeof modes / sizeof modes[0]; m++) {
                struct fields f = with_picture(modes[m].vic, p, modes[m].repetition);
                if (f.link && f.encoding != 1) f.depth = modes[m].depth;
                if (f.link) f.sound = modes[m].sound, f.rate = 2, f.channels = 8, f.coherent = 1;
                one_byte(&f, 0, byte);
            }
    }
}

/* 5 and 6 by this byte come before 7, 8 and 10, and each of these where it is allowed. */
static void before_7_to_10(void) {
    static const struct fields f = { .vic = 16, .link = 1 };
    static const uint8_t holds[] = { 0x00, 0x10, 0x60 };
    for (int byte = 0; byte < 0x40; byte++)
        for (size_t h = 0; h < sizeof holds; h++)
            for (size_t less = 0; less < 4; less++) {
                const struct fields g = with_byte(&f, byte);
                uint8_t bytes[LONGEST], image[256] = { [0x4A] = holds[h] }, writes[256] = { 0 };
                size_t length = model_bytes(&g, bytes), il = 256 - less % 2, wl = 256 - less / 2;
                uint32_t own = refused_with(0, byte), right = own ? own : il < 256 ? 7 : holds[h] ? 8 : wl < 256 ? 10 : 0;
                check_plan(bytes, length, image, il, writes, wl);
                uint32_t refusal = run.f->plan(bytes, length, image, il, writes, wl).refusal;
                if (refusal != right) differs("edition byte %02x, holds %02x, %zu and %zu bytes: %u", byte, holds[h], il, wl, refusal);
            }
}

/* Readers. -------------------------------------------------------------------------------------------------------------------------- */

/* A reader that knows 861-D alone, from its layout: version, length, checksum, data bytes 1 to 13. Of version and length the chip sends the
 * low bits; what 861-D reserves is not looked at. It answers 0 for a packet that it would not take. */
struct by_d { int y, c, ec, q, m, r, vic, pr; };
static int read_by_d(const uint8_t *packet, struct by_d *d) {
    const uint8_t version = packet[0] & 0x07, length = packet[1] & 0x1F, *data = packet + 2;
    uint8_t sum = (uint8_t)(0x82 + version + length);
    for (int i = 0; i <= 13; i++) sum = (uint8_t)(sum + data[i]);
    *d = (struct by_d){ .y = data[1] >> 5 & 3, .c = data[2] >> 6, .ec = data[3] >> 4 & 7, .q = data[3] >> 2 & 3, .m = data[2] >> 4 & 3,
                        .r = data[2] & 15, .vic = data[4] & 0x7F, .pr = data[5] & 15 };
    return sum == 0 && version == 2 && length == 13;
}

/* What was asked, as that reader should say it. */
static struct by_d asked_by_d(const struct fields *f) {
    static const int repeats[REPETITIONS] = { 0, 1, 3 };
    int itu601 = f->vic <= 3 || f->vic == 17 || f->vic == 18, narrow = f->vic <= 2 || f->vic == 17;
    return (struct by_d){ .y = f->encoding, .c = !f->encoding ? 0 : itu601 ? 1 : 2, .ec = 0, .q = f->encoding ? 0 : 1 + f->range,
                          .m = narrow ? 1 : 2, .r = 8, .vic = f->vic, .pr = repeats[f->repetition] };
}

/* The packet that is sent when a request is finished, by the library's own list, machine and view. */
static int sent_for(const struct fields *f, const struct chip *start, uint8_t *packet) {
    uint8_t bytes[LONGEST], list[256];
    struct chip c = *start;
    struct groups g;
    struct station_count n = planned(bytes, model_bytes(f, bytes), start, list);
    if (n.refusal || n.count > 128 || !sent_whole(&c, list, n.count) || !look(&c, &g)) {
        differs("VIC %d, edition %d: refused %u", f->vic, f->edition, n.refusal);
        return 0;
    }
    if (!reads_back(c.image, f)) differs("VIC %d, edition %d, quantisation %d, type %d: reads back otherwise", f->vic, f->edition,
                                         f->quantisation, f->content);
    memcpy(packet, g.avi, AVI_BYTES);
    return 1;
}

/* The reader that knows D alone says the same of both packets, and what was asked; one that knows E says what E asked for. The packets
 * differ in the checksum and in the upper half of data byte 5, and in nothing else. */
static void packets_of(const struct fields *f, int byte) {
    const struct fields e = with_byte(f, byte), d = with_byte(f, OF_D);
    const struct by_d asked = asked_by_d(f);
    uint8_t of_e[AVI_BYTES], of_d[AVI_BYTES];
    struct by_d from_e, from_d;
    struct chip start;
    any_start(&start);
    run.now->cases++;
    if (!sent_for(&e, &start, of_e) || !sent_for(&d, &start, of_d)) return;
    int taken = read_by_d(of_e, &from_e) && read_by_d(of_d, &from_d);
    if (!taken || memcmp(&from_e, &from_d, sizeof from_e)) differs("edition byte %02x: a reader of 861-D reads it otherwise than D", byte);
    else if (memcmp(&from_e, &asked, sizeof asked)) differs("edition byte %02x: a reader of 861-D does not read what was asked", byte);
    if (of_e[7] >> 6 != quantisation_of(byte) || (of_e[7] >> 4 & 3) != type_of(byte))
        differs("edition byte %02x: a reader of 861-E reads %02x", byte, of_e[7]);
    for (int i = 0; i < AVI_BYTES; i++)
        if ((of_e[i] ^ of_d[i]) & (i == 2 ? 0x00 : i == 7 ? 0x0F : 0xFF)) differs("edition byte %02x: byte %d of the packet", byte, i);
    if (upper_half_of(byte) && of_e[2] == of_d[2]) differs("edition byte %02x: the checksum of D", byte);
}

static void packets(void) {
    for (int v = 0; v < VICS; v++)
        for (int p = 0; p < PICTURES; p++)
            for (int repetition = 0; repetition < REPETITIONS; repetition++) {
                const struct fields f = with_picture(model_vics[v], p, repetition);
                if (!within_limit(&f) || passed_over(10)) continue;
                for (int k = 0; k < ALLOWED; k++) packets_of(&f, allowed[k]);
            }
}

/* Finished images. ------------------------------------------------------------------------------------------------------------------ */

static void put_byte_5(uint8_t *image, int byte, int right) {
    if (right) image[CHECKSUM] = (uint8_t)(image[CHECKSUM] + image[BYTE_5] - byte);
    image[BYTE_5] = (uint8_t)byte;
}

/* Each upper half of data byte 5 beside each PR, the checksum as it was and made right. It decodes exactly where PR is that of the request,
 * the quantisation 0 or 1 and the checksum right: as D where the bits are 0, and else as E with them. */
static void every_upper_half(const struct fields *f, const uint8_t *finished) {
    uint8_t image[256], buffer[LONGEST] = { 0 };
    for (int byte = 0; byte < 256; byte++)
        for (int right = 0; right < 2; right++) {
            int upper = byte >> 4, quantisation = upper >> 2, type = upper & 3, pr = byte & 15;
            memcpy(image, finished, 256);
            put_byte_5(image, byte, right);
            const struct fields back = with_byte(f, upper ? 1 | quantisation << 2 | type << 4 : OF_D);
            int taken = pr == (finished[BYTE_5] & 15) && quantisation < 2 && (right || byte == finished[BYTE_5]);
            check_decode(image, 256, buffer, sizeof buffer);
            struct station_count d = run.f->decode(image, 256, buffer, sizeof buffer);
            if (d.refusal != (taken ? 0u : 11u)) differs("data byte 5 of %02x is decoded as %u", byte, d.refusal);
            else if (taken && !reads_back(image, &back)) differs("data byte 5 of %02x is decoded as another request", byte);
        }
}

/* ITC stays 0 whatever the type, and the version 2: no image with another one is a request's. The checksum is made right. */
static void no_itc(const uint8_t *finished) {
    static const struct { uint8_t address, bits; } others[] = {
        { 0x57, 0x80 }, { 0x52, 0x01 }, { 0x52, 0x03 }, { 0x53, 0x03 }, { 0x57, 0x10 },
    };
    uint8_t image[256], buffer[LONGEST] = { 0 };
    for (size_t k = 0; k < sizeof others / sizeof others[0]; k++)
        for (int upper = 0; upper < 8; upper++) {
            uint8_t a = others[k].address;
            memcpy(image, finished, 256);
            put_byte_5(image, upper << 4 | (finished[BYTE_5] & 15), 1);
            image[a] ^= others[k].bits;
            image[CHECKSUM] = (uint8_t)(image[CHECKSUM] + finished[a] - image[a]);
            check_decode(image, 256, buffer, sizeof buffer);
            if (run.f->decode(image, 256, buffer, sizeof buffer).refusal != 11)
                differs("%02x with %02x beside data byte 5 of %02x is decoded", a, image[a], image[BYTE_5]);
        }
}

static void finished_images(void) {
    static const int vics[] = { 1, 16, 60 };
    for (size_t v = 0; v < sizeof vics / sizeof vics[0]; v++)
        for (int p = 0; p < PICTURES; p++)
            for (int repetition = 0; repetition < REPETITIONS; repetition++) {
                const struct fields f = with_picture(vics[v], p, repetition);
                uint8_t image[256];
                if (!within_limit(&f) || passed_over(4)) continue;
                any_bytes(image, 256);
                finish(image, &f);
                image[0x4A] &= 0x8F;
                every_upper_half(&f, image);
                no_itc(image);
            }
}

/* All of data byte 5 is named: 0x59[7:4], which is reserved in 861-D, too. */
static void class_of_byte_5(void) {
    struct station_masks k = run.f->class_of(BYTE_5);
    run.now->cases++;
    if (k.named != 0xFF || k.read_only || k.mandated || k.free_bits || k.value) differs("the class of 0x59");
}

/* Cuts. ----------------------------------------------------------------------------------------------------------------------------- */

/* From the finished image of one edition byte to that of another, cut after each write: the packet in use is all old or all new, and all
 * new at the end. Planned again at the cut, for the first byte, the registers are as at the start. */
static void cut_between(const struct fields *f, int from, int to) {
    const struct fields old = with_byte(f, from), new = with_byte(f, to);
    uint8_t bytes[LONGEST], list[256], back[256];
    struct chip start, c, again;
    struct groups first, last, g;
    finished_state(&start, &old);
    c = start;
    struct station_count n = planned(bytes, model_bytes(&new, bytes), &start, list);
    if (n.refusal || n.count > 128 || !sent_whole(&c, list, n.count) || !look(&start, &first) || !look(&c, &last)) {
        differs("edition byte %02x after %02x: refused %u", to, from, n.refusal);
        return;
    }
    if (!reads_back(start.image, &old) || !reads_back(c.image, &new))
        differs("edition byte %02x after %02x reads back otherwise", to, from);
    if ((memcmp(first.avi, last.avi, AVI_BYTES) != 0) != (upper_half_of(from) != upper_half_of(to)))
        differs("edition byte %02x after %02x: the packets are alike, or are not", to, from);
    c = start;
    for (uint32_t w = 0; w <= n.count; w++) {
        run.now->cases++;
        if ((w && !sent_to(&c, list, w - 1, w)) || !look(&c, &g)) {
            differs("edition byte %02x after %02x: refused after write %u", to, from, w);
            return;
        }
        if (w && g.mute != (w < n.count ? 1u : 2u)) differs("edition byte %02x after %02x: mute %u after write %u", to, from, g.mute, w);
        if (memcmp(g.avi, first.avi, AVI_BYTES) && memcmp(g.avi, last.avi, AVI_BYTES))
            differs("edition byte %02x after %02x: a packet in use that is neither, after write %u", to, from, w);
        if (w == n.count && memcmp(g.avi, last.avi, AVI_BYTES))
            differs("edition byte %02x after %02x: the old packet at the end", to, from);
        again = c;
        struct station_count m = planned(bytes, model_bytes(&old, bytes), &again, back);
        if (m.refusal || m.count > 128 || !sent_whole(&again, back, m.count) || memcmp(again.image, start.image, 256))
            differs("edition byte %02x again, cut after write %u to %02x: another image", from, w, to);
    }
}

static void cuts_between(void) {
    static const int vics[] = { 1, 16 };
    for (int v = 0; v < 2; v++)
        for (int p = 0; p < PICTURES; p++)
            for (int a = 0; a < ALLOWED; a++)
                for (int b = 0; b < ALLOWED; b++) {
                    const struct fields f = with_picture(vics[v], p, 0);
                    if (a != b && !passed_over(50)) cut_between(&f, allowed[a], allowed[b]);
                }
}

/* A vendor's list. ------------------------------------------------------------------------------------------------------------------ */

static void vetted_as(const struct chip *c, const uint8_t *list, size_t length, uint32_t refusal, uint32_t place, const char *what,
                      int upper) {
    struct station_verdict v = run.f->vet(c->image, 256, c->packet, PACKET_BYTES, c->coefficients, COEFFICIENT_BYTES, c->mark, list,
                                          length);
    run.now->cases++;
    if (v.refusal != refusal || v.place != place)
        differs("upper half %x, %s: %u, place %u, not %u", upper, what, v.refusal, v.place, refusal);
}

/* On an image that D has finished: E's bits and the checksum under the hold pass; without it, or without the checksum, they do not; nor
 * does a quantisation that no edition has, nor ITC beside a type. And back again. */
static void vendors_bits(void) {
    static const struct fields f = { .vic = 16, .link = 1 };
    for (int upper = 0; upper < 16; upper++) {
        struct chip c = { .mark = 0 }, e;
        finish(c.image, &f);
        e = c;
        const uint8_t d_sum = c.image[CHECKSUM], byte = (uint8_t)(upper << 4), sum = (uint8_t)(d_sum - byte);
        const uint8_t itc = c.image[0x57] | 0x80, itc_sum = (uint8_t)(sum - 0x80);
        const uint8_t held[] = { 0x4B, 0x40, 0x4A, 0xC0, CHECKSUM, sum, BYTE_5, byte, 0x4A, 0x80, 0x4B, 0x80 };
        const uint8_t bare[] = { 0x4B, 0x40, CHECKSUM, sum, BYTE_5, byte, 0x4B, 0x80 };
        const uint8_t no_sum[] = { 0x4B, 0x40, 0x4A, 0xC0, BYTE_5, byte, 0x4A, 0x80, 0x4B, 0x80 };
        const uint8_t with_itc[] = { 0x4B, 0x40, 0x4A, 0xC0, CHECKSUM, itc_sum, 0x57, itc, BYTE_5, byte, 0x4A, 0x80, 0x4B, 0x80 };
        const uint8_t back[] = { 0x4B, 0x40, 0x4A, 0xC0, CHECKSUM, d_sum, BYTE_5, 0x00, 0x4A, 0x80, 0x4B, 0x80 };
        int offered = upper >> 2 < 2;
        vetted_as(&c, held, sizeof held, offered ? 0 : 16, 0, "under the hold", upper);
        vetted_as(&c, bare, sizeof bare, upper ? 15 : 0, upper ? 1 : 0, "without the hold", upper);
        vetted_as(&c, no_sum, sizeof no_sum, upper ? 16 : 0, 0, "without the checksum", upper);
        vetted_as(&c, with_itc, sizeof with_itc, 16, 0, "with ITC", upper);
        put_byte_5(e.image, byte, 1);
        vetted_as(&e, back, sizeof back, 0, 0, "back to D", upper);
        vetted_as(&e, back, 0, offered ? 0 : 16, 0, "the empty list", upper);
    }
}

/* The library's own lists for E on any state. */
static void own_lists(void) {
    for (int p = 0; p < PICTURES; p++)
        for (int k = 0; k < ALLOWED; k++) {
            const struct fields plain = with_picture(4, p, 1), f = with_byte(&plain, allowed[k]);
            uint8_t bytes[LONGEST], list[256];
            struct chip c;
            any_state(&c);
            struct station_count n = planned(bytes, model_bytes(&f, bytes), &c, list);
            if (n.refusal || n.count > 128) differs("edition byte %02x: refused %u", allowed[k], n.refusal);
            else vetted_as(&c, list, 2 * n.count, 0, 0, "the library's own list", upper_half_of(allowed[k]) >> 4);
        }
}

/* Two requests that end in one image. ----------------------------------------------------------------------------------------------- */

/* The requests of a small grid, each with the image that it ends in. */
enum { GRID_VICS = 3, GRID_SOUNDS = 4, GRID = GRID_VICS * 2 * PICTURES * 2 * DEPTHS * REPETITIONS * GRID_SOUNDS * ALLOWED };
static struct ended { uint8_t image[256]; struct fields f; } ended[GRID];
static size_t count_ended;

static int by_image(const void *a, const void *b) {
    const struct ended *one = a, *other = b;
    return memcmp(one->image, other->image, sizeof one->image);
}

static void ends(const struct fields *f, const uint8_t *image) {
    uint8_t bytes[LONGEST], writes[256] = { 0 };
    struct ended *e = &ended[count_ended];
    struct station_count c = run.f->plan(bytes, model_bytes(f, bytes), image, 256, writes, 256);
    if (c.refusal || c.count > 128) return;
    memcpy(e->image, image, 256);
    for (uint32_t w = 0; w < c.count; w++) e->image[writes[2 * w]] = writes[2 * w + 1];
    e->f = *f;
    count_ended++;
}

static void each_sound(struct fields f, const uint8_t *image) {
    static const struct { int sound, rate, channels, coherent; } sounds[GRID_SOUNDS] = {
        { 0, 0, 0, 0 }, { 1, 2, 2, 1 }, { 1, 2, 2, 0 }, { 1, 1, 8, 1 },
    };
    for (int s = 0; s < GRID_SOUNDS; s++)
        for (int k = 0; k < ALLOWED; k++) {
            f.sound = sounds[s].sound, f.rate = sounds[s].rate, f.channels = sounds[s].channels, f.coherent = sounds[s].coherent;
            const struct fields g = with_byte(&f, allowed[k]);
            ends(&g, image);
        }
}

static void each_clock(struct fields f, const uint8_t *image) {
    for (f.family = 0; f.family < 2; f.family++)
        for (f.depth = 0; f.depth < DEPTHS; f.depth++)
            for (f.repetition = 0; f.repetition < REPETITIONS; f.repetition++)
                for (int matrix = f.encoding != 0; matrix < 2; matrix++) {
                    f.matrix = matrix, f.mode = matrix;
                    each_sound(f, image);
                }
}

/* Two accepted requests that end in one image read back as one: they differ in the family, or one is D and one an E that asks for nothing,
 * and they differ in nothing else. */
static void one_image(void) {
    static const int vics[GRID_VICS] = { 1, 60, 16 };
    uint32_t in_family = 0, in_edition = 0, images = 0;
    uint8_t image[256];
    any_bytes(image, 256);
    image[0x4A] &= 0x8F;
    count_ended = 0;
    for (int v = 0; v < (run.share < 1000 ? 1 : GRID_VICS); v++)
        for (int p = 0; p < PICTURES; p++) each_clock(with_picture(vics[v], p, 0), image);
    qsort(ended, count_ended, sizeof ended[0], by_image);
    for (size_t i = 0; i < count_ended; i++) {
        const struct fields *f = &ended[i].f;
        const struct fields back = read_back(f);
        run.now->cases++;
        if (!reads_back(ended[i].image, f)) differs("VIC %d, edition byte of %d: reads back otherwise", f->vic, f->edition);
        if (i == 0 || by_image(&ended[i - 1], &ended[i])) images++;
        for (size_t k = i; k > 0 && !by_image(&ended[k - 1], &ended[i]); k--) {
            const struct fields *g = &ended[k - 1].f;
            const struct fields other = read_back(g);
            if (memcmp(&back, &other, sizeof back)) differs("VIC %d and VIC %d: two requests that end in one image", f->vic, g->vic);
            in_family += f->family != g->family;
            in_edition += f->edition != g->edition;
        }
    }
    if (run.share < 1000) return;
    never_met(images, "images", "that a request of the grid ends in");
    never_met(in_family, "pairs", "of requests that end in one image and differ in the family");
    never_met(in_edition, "pairs", "of requests that end in one image, one D, one E that asks for nothing");
}

void editions(void) {
    seed(0x1B00000u);
    marked_editions();
    older_requests();
    every_byte();
    before_7_to_10();
    class_of_byte_5();
    vendors_bits();
    own_lists();
    packets();
    finished_images();
    cuts_between();
    one_image();
}
