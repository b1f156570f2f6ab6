/* The other input wirings: document 02, request 02. */
#include "check.h"
#include <stdlib.h>
#include <string.h>

/* By their own numbers, not the model's. A wiring's four codes and its sync values; the count says whether these are there. */
struct wiring { int count, id, depth, style, justification, sync[4]; };
enum { FOUR = 4, TWELVE = 12, LOWEST_ID = 1, HIGHEST_ID = 8, MOST = 1023, DEFINED = 162 };

/* What Tables 17 to 27 of 000 draw: the IDs of a table, its styles, and 0x48[4:3] as its title has it, 00 where it has none. Each draws
 * 12, 10 and 8 bits of a colour in each of its styles. */
static const struct { int table, ids[4], styles, justification; } drawn[] = {
    { 17, { 1, 2 }, 3, 2 }, { 18, { 1, 2 }, 3, 1 }, { 19, { 1, 2 }, 3, 0 },
    { 20, { 3, 4, 7, 8 }, 2, 2 }, { 21, { 3, 4, 7, 8 }, 2, 1 }, { 22, { 3, 4, 7, 8 }, 2, 0 },
    { 23, { 5 }, 3, 0 }, { 24, { 5 }, 3, 0 },
    { 25, { 6 }, 3, 1 }, { 26, { 6 }, 3, 2 }, { 27, { 6 }, 3, 0 },
};
/* Table 28: the codes of styles 1 to 3, and of 8, 10 and 12 bits. */
static const int style_codes[] = { 2, 1, 3 }, depth_codes[] = { 3, 1, 2 };
/* Table 15, IDs 0 to 8: "embedded syncs"; and by document 02 the RGB ones. */
static const int embedded[] = { 0, 0, 1, 0, 1, 0, 0, 0, 1 }, rgb[] = { 1, 0, 0, 0, 0, 1, 0, 0, 0 };

static int is_drawn(const struct wiring *w) {
    int depth = 0, found = 0;
    for (int d = 0; d < 3; d++) depth |= w->depth == depth_codes[d];
    for (size_t k = 0; k < sizeof drawn / sizeof drawn[0]; k++)
        for (int i = 0; i < 4; i++)
            for (int s = 0; s < drawn[k].styles; s++)
                found |= w->id && w->id == drawn[k].ids[i] && w->style == style_codes[s] && w->justification == drawn[k].justification;
    return depth && found;
}

/* The count that fits an ID of a section. */
static int count_for(int id) { return id <= HIGHEST_ID && embedded[id] ? TWELVE : FOUR; }

/* Is it defined, with the count that fits and sync values that are? */
static int is_defined(const struct wiring *w) {
    if (w->count == 0) return 1;
    if (!is_drawn(w) || w->count != count_for(w->id)) return 0;
    for (int i = 0; i < 4 && w->count == TWELVE; i++)
        if (w->sync[i] > MOST) return 0;
    return 1;
}

static int rgb_in(const struct wiring *w) { return w->count == 0 || rgb[w->id]; }

/* "0x30[7:0], 0x31[7:6]" and so on: four numbers of ten bits as five bytes. */
static void in_registers(const struct wiring *w, uint8_t *r) {
    const int *s = w->sync;
    memset(r, 0, 5);
    if (w->count != TWELVE) return;
    r[0] = (uint8_t)(s[0] >> 2);
    r[1] = (uint8_t)((s[0] & 3) << 6 | s[1] >> 4);
    r[2] = (uint8_t)((s[1] & 15) << 4 | s[2] >> 6);
    r[3] = (uint8_t)((s[2] & 63) << 2 | s[3] >> 8);
    r[4] = (uint8_t)s[3];
}

/* A request with this wiring, byte by byte: its length. Behind it 1080p over HDMI in an encoding, no sound, and a matrix or none. */
enum { ROOM_FOR = STATION_REQUEST + 1 };
static size_t put_wiring(const struct wiring *w, uint8_t *bytes) {
    const int four[] = { w->id, w->depth, w->style, w->justification };
    size_t n = 0;
    bytes[n++] = (uint8_t)w->count;
    for (int i = 0; i < 4 && w->count; i++) bytes[n++] = (uint8_t)four[i];
    for (int i = 0; i < 4 && w->count == TWELVE; i++) bytes[n++] = (uint8_t)(w->sync[i] >> 8), bytes[n++] = (uint8_t)w->sync[i];
    return n;
}

static size_t put_rest(uint8_t *bytes, size_t n, int encoding, int link, int matrix) {
    const uint8_t video[] = { 7, 16, 0, (uint8_t)encoding, (uint8_t)link, 0, 0, 0, 0, matrix ? 25 : 0 };
    memcpy(bytes + n, video, sizeof video);
    n += sizeof video;
    if (matrix) memcpy(bytes + n, table_39, sizeof table_39), n += sizeof table_39;
    return n;
}

static size_t asked(const struct wiring *w, int encoding, int link, int matrix, uint8_t *bytes) {
    return put_rest(bytes, put_wiring(w, bytes), encoding, link, matrix);
}

/* Planning, N and CTS and a pipe's end: this number, with nothing beside a refusal. */
static void answers(const uint8_t *bytes, size_t length, uint32_t number, const char *what, int value) {
    uint8_t image[256] = { 0 }, before[256], writes[256], pipe[STATION_PIPE] = { 0 };
    any_bytes(before, sizeof before);
    memcpy(writes, before, sizeof writes);
    check_ncts(bytes, length);
    check_plan(bytes, length, image, 256, before, 256);
    struct station_pair p = run.f->ncts(bytes, length);
    struct station_count c = run.f->plan(bytes, length, image, 256, writes, 256);
    run.f->pipe_take(pipe, sizeof pipe, bytes, length);
    struct station_piped e = run.f->pipe_end(pipe, sizeof pipe);
    if (p.refusal != number || c.refusal != number || e.refusal != number || !e.answered)
        differs("%s %d: %u, %u and %u, not %u", what, value, p.refusal, c.refusal, e.refusal, number);
    else if (number && (p.n || p.cts || c.count || memcmp(writes, before, sizeof writes)))
        differs("%s %d: something beside %u", what, value, number);
}

/* Bytes by hand. -------------------------------------------------------------------------------------------------------------------- */

/* Document 02's cases, in bare bytes. */
#define BOARD(id) 12, id, 1, 1, 2, 0, 110, 0, 40, 0, 5, 0, 5
#define RGB_OUT 7, 16, 0, 0, 1, 0, 0, 0, 0
#define OUT_422 7, 16, 0, 1, 1, 0, 0, 0, 0
#define OUT_444 7, 16, 0, 2, 1, 0, 0, 0, 0
#define WITH_39 25, 1, 0x0C, 0x53, 8, 0, 0, 0, 0xF9, 0xD6, 0xFC, 0x56, 8, 0, 0xFE, 0x88, 2, 0x91, 0xFF, 0xFF, 8, 0, 0x0E, 0x85, 0xF8, 0xBE
static const struct { uint8_t length, bytes[51]; uint32_t number; const char *what; } marked[] = {
    { 11, { 0, OUT_422, 0 }, 6, "document 01's case 5, for count 0" },
    { 11, { 0, RGB_OUT, 0 }, 0, "today's board" },
    { 23, { BOARD(2), OUT_422, 0 }, 0, "the board of the request" },
    { 23, { BOARD(4), OUT_422, 0 }, 0, "the board of the request, ID 4" },
    { 23, { BOARD(8), OUT_422, 0 }, 0, "the board of the request, ID 8" },
    { 23, { BOARD(2), OUT_444, 0 }, 0, "4:2:2 in, 4:4:4 out" },
    { 23, { BOARD(2), RGB_OUT, 0 }, 6, "YCbCr in and RGB out without a matrix" },
    { 48, { BOARD(2), RGB_OUT, WITH_39 }, 0, "the same with one" },
    { 48, { BOARD(2), OUT_422, WITH_39 }, 0, "YCbCr in and out with one" },
    { 15, { 4, 1, 3, 2, 0, OUT_422, 0 }, 0, "ID 1, YCbCr out" },
    { 15, { 4, 1, 3, 2, 0, RGB_OUT, 0 }, 6, "ID 1, RGB out" },
    { 15, { 4, 5, 3, 2, 0, RGB_OUT, 0 }, 0, "ID 5, RGB out" },
    { 15, { 4, 5, 3, 2, 0, OUT_444, 0 }, 6, "ID 5, YCbCr out" },
    { 40, { 4, 5, 3, 2, 0, OUT_444, WITH_39 }, 0, "the same with a matrix" },
    { 15, { 4, 0, 3, 0, 0, RGB_OUT, 0 }, 5, "ID 0 in a section of 4" },
    { 15, { 4, 0, 3, 2, 0, RGB_OUT, 0 }, 5, "ID 0 in a section of 4, with a style" },
    { 23, { BOARD(0), RGB_OUT, 0 }, 5, "ID 0 in a section of 12" },
    { 23, { BOARD(1), OUT_422, 0 }, 5, "12 with ID 1" },
    { 15, { 4, 2, 1, 1, 2, OUT_422, 0 }, 5, "4 with ID 2" },
    { 15, { 4, 9, 1, 1, 2, OUT_422, 0 }, 5, "ID 9" },
    { 15, { 4, 3, 1, 3, 2, OUT_422, 0 }, 5, "style 3 of ID 3" },
    { 15, { 4, 6, 1, 3, 2, OUT_422, 0 }, 0, "style 3 of ID 6" },
    { 15, { 4, 5, 1, 3, 0, RGB_OUT, 0 }, 0, "style 3 of ID 5" },
    { 15, { 4, 5, 1, 3, 1, RGB_OUT, 0 }, 5, "ID 5 justified" },
    { 15, { 4, 1, 0, 2, 0, OUT_422, 0 }, 5, "depth 00" },
    { 15, { 4, 1, 3, 0, 0, OUT_422, 0 }, 5, "style 00" },
    { 15, { 4, 1, 3, 2, 3, OUT_422, 0 }, 5, "justification 11" },
    { 23, { 12, 2, 1, 1, 2, 3, 255, 3, 255, 3, 255, 3, 255, OUT_422, 0 }, 0, "1023, four times" },
    { 23, { 12, 2, 1, 1, 2, 4, 0, 0, 40, 0, 5, 0, 5, OUT_422, 0 }, 5, "1024" },
    { 23, { 12, 2, 1, 1, 2, 0, 110, 0, 40, 0, 5, 4, 0, OUT_422, 0 }, 5, "1024 as the last" },
    { 14, { 3, 1, 3, 2, OUT_422, 0 }, 2, "count 3" },
    { 10, { OUT_422, 0 }, 2, "a request as it was before" },
    { 1, { 0 }, 1, "the first count alone" },
    { 2, { 0, 7 }, 1, "document 01's case 1" },
    { 6, { 0, 8, 16, 0, 0, 1 }, 2, "document 01's case 2" },
    { 12, { 0, RGB_OUT, 0, 0 }, 3, "document 01's case 3" },
    /* The order: 1 to 4 before 5, 5 before 6, 6 before 17 and 20. */
    { 14, { 4, 0, 3, 2, 0, OUT_422 }, 1, "1 before 5" },
    { 15, { 4, 0, 3, 2, 0, OUT_422, 1 }, 2, "2 before 5" },
    { 16, { 4, 0, 3, 2, 0, OUT_422, 0, 0 }, 3, "3 before 5" },
    { 15, { 4, 0, 3, 2, 0, 7, 6, 0, 1, 1, 0, 0, 0, 0, 0 }, 4, "4 before 5, though it stands behind it" },
    { 15, { 4, 0, 3, 2, 0, 7, 19, 1, 1, 1, 0, 0, 0, 0, 0 }, 4, "4 by the family before 5" },
    { 15, { 4, 1, 3, 0, 0, RGB_OUT, 0 }, 5, "5 before 6, both by the wiring" },
    { 15, { 4, 1, 3, 0, 0, 7, 16, 0, 1, 0, 0, 0, 0, 0, 0 }, 5, "5 by the wiring, 6 by DVI" },
    { 15, { 4, 1, 3, 2, 0, 7, 16, 0, 0, 1, 2, 0, 0, 0, 0 }, 5, "5 by the range, 6 by the wiring" },
    { 15, { 4, 1, 3, 2, 0, 7, 16, 0, 0, 1, 0, 16, 0, 0, 0 }, 6, "6 before 17" },
    { 15, { 4, 1, 3, 2, 0, 7, 16, 0, 1, 1, 0, 16, 0, 0, 0 }, 17, "17" },
    { 15, { 4, 1, 0, 2, 0, 7, 16, 0, 1, 1, 0, 16, 0, 0, 0 }, 5, "5 before 17" },
    { 18, { 4, 1, 3, 2, 0, 7, 2, 0, 0, 1, 0, 0, 0, 3, 6, 8, 0, 0 }, 6, "6 before 20" },
    { 18, { 4, 1, 3, 2, 0, 7, 2, 0, 1, 1, 0, 0, 0, 3, 6, 8, 0, 0 }, 20, "20" },
    { 18, { 4, 1, 3, 2, 0, 7, 4, 1, 0, 1, 0, 0, 0, 3, 0, 2, 1, 0 }, 6, "6 before 9" },
    { 18, { 4, 1, 3, 2, 0, 7, 4, 1, 1, 1, 0, 0, 0, 3, 0, 2, 1, 0 }, 9, "9" },
};

static void by_hand(void) {
    static const size_t lengths[] = { 0, 255, 256, 257 }, rooms[] = { 0, 255, 256 };
    static const uint8_t holds[] = { 0x00, 0x10, 0x60 };
    for (size_t k = 0; k < sizeof marked / sizeof marked[0]; k++)
        answers(marked[k].bytes, marked[k].length, marked[k].number, marked[k].what, (int)k);
    for (size_t k = 0; k < sizeof marked / sizeof marked[0]; k++)               /* 5 and 6 before 7, 8 and 10 */
        for (int c = 0; c < 4 * 3 * 3 && (marked[k].number == 5 || marked[k].number == 6); c++) {
            uint8_t image[257] = { [0x4A] = holds[c / 12] }, writes[256] = { 0 };
            check_plan(marked[k].bytes, marked[k].length, image, lengths[c % 4], writes, rooms[c / 4 % 3]);
            uint32_t got = run.f->plan(marked[k].bytes, marked[k].length, image, lengths[c % 4], writes, rooms[c / 4 % 3]).refusal;
            if (got != marked[k].number) differs("%s, image %zu, room %zu: %u", marked[k].what, lengths[c % 4], rooms[c / 4 % 3], got);
        }
}

/* Tables 32 and 35 of 000: the sync numbers of a format, and the registers that they are. Table 35 has the last two rows of Table 32, the
 * frame packing of 720p, in each other's place. */
static const struct { const char *format; int sync[4]; uint8_t registers[5]; } generation[] = {
    { "480i", { 19, 62, 4, 3 }, { 0x04, 0xC3, 0xE0, 0x10, 0x03 } },
    { "576i", { 12, 63, 2, 3 }, { 0x03, 0x03, 0xF0, 0x08, 0x03 } },
    { "480p", { 16, 62, 9, 6 }, { 0x04, 0x03, 0xE0, 0x24, 0x06 } },
    { "576p", { 12, 64, 5, 5 }, { 0x03, 0x04, 0x00, 0x14, 0x05 } },
    { "720p-60", { 110, 40, 5, 5 }, { 0x1B, 0x82, 0x80, 0x14, 0x05 } },
    { "720p-50", { 440, 40, 5, 5 }, { 0x6E, 0x02, 0x80, 0x14, 0x05 } },
    { "1080i-30", { 88, 44, 2, 5 }, { 0x16, 0x02, 0xC0, 0x08, 0x05 } },
    { "1080i-25", { 528, 44, 2, 5 }, { 0x84, 0x02, 0xC0, 0x08, 0x05 } },
    { "1080p-60", { 88, 44, 4, 5 }, { 0x16, 0x02, 0xC0, 0x10, 0x05 } },
    { "1080p-50", { 528, 44, 4, 5 }, { 0x84, 0x02, 0xC0, 0x10, 0x05 } },
    { "1080p-24 (Frame Packing)", { 638, 44, 4, 5 }, { 0x9F, 0x82, 0xC0, 0x10, 0x05 } },
    { "720p-60 (Frame Packing), as Table 35 has 720p-50", { 110, 40, 5, 5 }, { 0x1B, 0x82, 0x80, 0x14, 0x05 } },
    { "720p-50 (Frame Packing), as Table 35 has 720p-60", { 440, 40, 5, 5 }, { 0x6E, 0x02, 0x80, 0x14, 0x05 } },
};

/* The class of each bit that a wiring names, and of those beside them. */
static void classes(void) {
    static const struct { uint8_t address, mandated, named, free; } rows[] = {
        { 0x15, 0x00, 0xFF, 0x00 }, { 0x16, 0x40, 0xBC, 0x03 }, { 0x17, 0x98, 0x00, 0x67 }, { 0x2F, 0x00, 0xFF, 0x00 },
        { 0x30, 0x00, 0xFF, 0x00 }, { 0x31, 0x00, 0xFF, 0x00 }, { 0x32, 0x00, 0xFF, 0x00 }, { 0x33, 0x00, 0xFF, 0x00 },
        { 0x34, 0x00, 0xFF, 0x00 }, { 0x35, 0x00, 0x00, 0xFF }, { 0x48, 0x80, 0x18, 0x67 }, { 0x9D, 0xF3, 0x00, 0x0C },
        { 0xD0, 0x01, 0x00, 0xFE }, { 0xFA, 0x03, 0x00, 0xFC },
    };
    for (size_t k = 0; k < sizeof rows / sizeof rows[0]; k++) {
        struct station_masks m = run.f->class_of(rows[k].address);
        run.now->cases++;
        if (m.mandated != rows[k].mandated || m.named != rows[k].named || m.free_bits != rows[k].free || m.read_only)
            differs("0x%02x: mandated %02x, named %02x, free %02x", rows[k].address, m.mandated, m.named, m.free_bits);
    }
}

/* The image that the library's list leaves of another one, in the registers that the wiring has and in the free bits beside them. */
static const struct { uint8_t address, named; } places[] = {
    { 0x15, 0x0F }, { 0x16, 0x3C }, { 0x30, 0xFF }, { 0x31, 0xFF }, { 0x32, 0xFF }, { 0x33, 0xFF }, { 0x34, 0xFF }, { 0x48, 0x18 },
};
/* Free bits that the boards need, and no request writes. */
static const struct { uint8_t address, bits; } boards[] = {
    { 0x16, 0x03 }, { 0x48, 0x67 }, { 0x17, 0x67 }, { 0x9D, 0x0C }, { 0xD0, 0xFE }, { 0xFA, 0xFC },
};

/* A request with this wiring on an image: what its list leaves, and that it reads back byte for byte, its count and all. */
static void planned_and_back(const struct wiring *w, int encoding, int matrix, const uint8_t *before) {
    uint8_t bytes[ROOM_FOR], image[256], writes[256] = { 0 }, back[STATION_REQUEST + 8], right[8];
    size_t length = asked(w, encoding, 1, matrix, bytes);
    check_plan(bytes, length, before, 256, writes, 256);
    struct station_count c = run.f->plan(bytes, length, before, 256, writes, 256);
    if (c.refusal || c.count > 128) {
        differs("count %d, ID %d, codes %d %d %d: refused %u", w->count, w->id, w->depth, w->style, w->justification, c.refusal);
        return;
    }
    for (int a = 0; a < 256; a++) image[a] = (uint8_t)left_in((uint8_t)a, before, writes, c);
    right[0] = (uint8_t)w->id, right[1] = (uint8_t)(w->depth << 4 | w->style << 2), right[7] = (uint8_t)(w->justification << 3);
    if (w->count == 0) right[0] = 0, right[1] = 3 << 4, right[7] = 0;           /* "RGB, 24 bits, input ID 0" */
    in_registers(w, right + 2);
    for (int k = 0; k < 8; k++)
        if ((image[places[k].address] & places[k].named) != right[k])
            differs("count %d, ID %d: 0x%02x is %02x, not %02x of %02x", w->count, w->id, places[k].address, image[places[k].address], right[k],
                    places[k].named);
    for (size_t k = 0; k < sizeof boards / sizeof boards[0]; k++)
        if ((image[boards[k].address] ^ before[boards[k].address]) & boards[k].bits)
            differs("count %d, ID %d: a board's bit of 0x%02x changed", w->count, w->id, boards[k].address);
    memset(back, 0xA5, sizeof back);
    check_decode(image, 256, back, sizeof back);
    struct station_count d = run.f->decode(image, 256, back, sizeof back);
    if (d.refusal || d.count != length || memcmp(back, bytes, length) || back[length] != 0xA5)
        differs("count %d, ID %d, codes %d %d %d: reads back as %u, count %u, first %d", w->count, w->id, w->depth, w->style, w->justification,
                d.refusal, d.count, back[0]);
}

static void any_before(uint8_t *image) {
    any_bytes(image, 256);
    image[0x4A] &= 0x8F;
}

static void tables_32_and_35(void) {
    uint8_t image[256];
    for (size_t k = 0; k < sizeof generation / sizeof generation[0]; k++)
        for (int id = 2; id <= HIGHEST_ID; id *= 2) {                           /* 2, 4 and 8 */
            struct wiring w = { TWELVE, id, 3, 2, 0, { 0 } };
            uint8_t bytes[ROOM_FOR], zeros[256] = { 0 }, writes[256] = { 0 };
            memcpy(w.sync, generation[k].sync, sizeof w.sync);
            struct station_count c = run.f->plan(bytes, asked(&w, 1, 1, 0, bytes), zeros, 256, writes, 256);
            for (int r = 0; r < 5; r++)
                if (left_in((uint8_t)(0x30 + r), zeros, writes, c) != generation[k].registers[r])
                    differs("%s: 0x%02x is %02x", generation[k].format, 0x30 + r, left_in((uint8_t)(0x30 + r), zeros, writes, c));
            any_before(image);
            planned_and_back(&w, 1, 0, image);
        }
}

/* Every value. ---------------------------------------------------------------------------------------------------------------------- */

static struct wiring a_wiring(int id) {
    return (struct wiring){ count_for(id), id, 1, 2, 0, { embedded[id] * 110, embedded[id] * 40, embedded[id] * 5, embedded[id] * 5 } };
}

/* Every value of each of the four bytes, in a wiring of each ID; and of each of the eight that follow them. */
static void every_value(void) {
    static const char *const names[] = { "ID", "depth", "style", "justification" };
    for (int id = LOWEST_ID; id <= HIGHEST_ID; id++)
        for (int at = 0; at < 4 + 8 * embedded[id]; at++)
            for (int value = 0; value < 256; value++) {
                struct wiring w = a_wiring(id);
                uint8_t bytes[ROOM_FOR];
                if (value > 16 && value < 255 && passed_over(16)) continue;
                int *byte[] = { &w.id, &w.depth, &w.style, &w.justification };
                if (at < 4) *byte[at] = value;
                else if (at % 2 == 0) w.sync[at / 2 - 2] = value * 256 + w.sync[at / 2 - 2] % 256;
                else w.sync[at / 2 - 2] = w.sync[at / 2 - 2] / 256 * 256 + value;
                size_t length = asked(&w, 0, 1, 1, bytes);
                if (bytes[1 + at] != value) differs("byte %d of a wiring is not what it should be", at);
                answers(bytes, length, is_defined(&w) ? 0 : 5, at < 4 ? names[at] : "a byte of a sync value,", value);
            }
}

/* Every combination of the codes, and one beyond each, with both counts. */
static void every_combination(void) {
    int defined[2] = { 0, 0 };
    struct wiring w = { 0, 0, 0, 0, 0, { 88, 44, 4, 5 } };
    uint8_t bytes[ROOM_FOR];
    for (w.count = FOUR; w.count <= TWELVE; w.count += TWELVE - FOUR)
        for (w.id = 0; w.id <= 16; w.id++)
            for (w.depth = 0; w.depth <= 4; w.depth++)
                for (w.style = 0; w.style <= 4; w.style++)
                    for (w.justification = 0; w.justification <= 4; w.justification++) {
                        defined[w.count == TWELVE] += is_defined(&w);
                        if (passed_over(4)) continue;
                        answers(bytes, asked(&w, 0, 1, 1, bytes), is_defined(&w) ? 0 : 5, "a combination of ID", w.id);
                    }
    if (defined[0] + defined[1] != DEFINED || defined[1] != 27 + 18 + 18) differs("%d and %d combinations", defined[0], defined[1]);
}

/* Each of the 162, with sync values at their edges, on any image: read back with YCbCr out and with RGB out. */
static void every_one_back(void) {
    static const int edges[] = { 0, 1, MOST };
    uint8_t image[256];
    int tried = 0;
    struct wiring w = { 0 };
    for (w.id = 0; w.id <= HIGHEST_ID; w.id++)
        for (w.depth = 0; w.depth < 4; w.depth++)
            for (w.style = 0; w.style < 4; w.style++)
                for (w.justification = 0; w.justification < 4; w.justification++) {
                    w.count = count_for(w.id);
                    if (!is_drawn(&w)) continue;
                    tried++;
                    for (int matrix = 0; matrix < 2; matrix++)
                        for (int encoding = 0; encoding < 3; encoding++) {
                            if (!matrix && rgb[w.id] != (encoding == 0)) continue;
                            for (int i = 0; i < 4; i++) w.sync[i] = w.count == FOUR ? 0 : any(2) ? edges[any(3)] : (int)any(MOST + 1);
                            any_before(image);
                            planned_and_back(&w, encoding, matrix, image);
                        }
                }
    if (tried != DEFINED) differs("%d combinations were read back", tried);
    for (int times = 0; times < 8; times++) {                                   /* today's board */
        const struct wiring none = { 0 };
        any_before(image);
        planned_and_back(&none, 0, times % 2, image);
        planned_and_back(&none, 1 + times % 2, 1, image);
    }
}

/* Each sync value by itself: the edges, with each other one at an edge; then each of its 1,024 values, and what is above. */
static void every_sync(void) {
    static const int edges[] = { 0, 1, MOST, MOST + 1, 65535 };
    static const int above[] = { 1024, 1025, 1279, 1280, 2047, 2048, 4096, 8192, 16384, 32768, 65535 };
    uint8_t bytes[ROOM_FOR], image[256];
    struct wiring w = a_wiring(2);
    for (int k = 0; k < 5 * 5 * 5 * 5; k++) {
        for (int i = 0, left = k; i < 4; i++, left /= 5) w.sync[i] = edges[left % 5];
        answers(bytes, asked(&w, 1, 1, 0, bytes), is_defined(&w) ? 0 : 5, "sync values", k);
    }
    for (int i = 0; i < 4; i++) {
        for (int value = 0; value <= MOST; value++) {
            if (passed_over(64)) continue;
            w = a_wiring((const int[]){ 2, 4, 8 }[any(3)]);
            for (int other = 0; other < 4; other++) w.sync[other] = (int)any(MOST + 1);
            w.sync[i] = value;
            any_before(image);
            planned_and_back(&w, 1, 0, image);
        }
        for (size_t k = 0; k < sizeof above / sizeof above[0]; k++) {
            w = a_wiring(4);
            w.sync[i] = above[k];
            answers(bytes, asked(&w, 1, 1, 0, bytes), 5, "a sync value of", above[k]);
        }
    }
}

/* Every count, before as many bytes as it says, and before a whole request; a section that is cut at each place. */
static void every_count(void) {
    uint8_t bytes[512] = { 0 };
    for (int count = 0; count < 256; count++) {
        memset(bytes, 1, sizeof bytes);
        bytes[0] = (uint8_t)count;
        size_t length = put_rest(bytes, 1 + (size_t)count, 1, 1, 1);
        int allowed = count == 0 || count == FOUR || count == TWELVE;
        struct wiring w = { count, 1, 1, 1, 1, { 257, 257, 257, 257 } };
        check_ncts(bytes, length);
        if (run.f->ncts(bytes, length).refusal != (!allowed ? 2u : is_defined(&w) ? 0u : 5u)) differs("a wiring's count of %d", count);
        check_ncts(bytes, 1);
        if (run.f->ncts(bytes, 1).refusal != (allowed ? 1u : 2u)) differs("a wiring's count of %d alone", count);
    }
    for (int id = LOWEST_ID; id <= HIGHEST_ID; id++) {
        const struct wiring w = a_wiring(id);
        size_t length = asked(&w, 1, 1, 1, bytes);
        for (size_t cut = 0; cut < length; cut++) answers(bytes, cut, 1, "cut at", (int)cut);
    }
}

/* Row 6: "a matrix is needed exactly where input and output are of different colour kinds"; DVI is RGB alone, as ever. */
static void colours(void) {
    for (int id = 0; id <= HIGHEST_ID; id++)
        for (int encoding = 0; encoding < 3; encoding++)
            for (int link = 0; link < 2; link++)
                for (int matrix = 0; matrix < 2; matrix++) {
                    struct wiring w = { 0 };
                    uint8_t bytes[ROOM_FOR], image[256];
                    if (id) w = a_wiring(id);
                    int same_kind = rgb_in(&w) == (encoding == 0), refused = (!same_kind && !matrix) || (!link && encoding);
                    size_t length = asked(&w, encoding, link, matrix, bytes);
                    answers(bytes, length, refused ? 6 : 0, "colours of ID", id);
                    if (refused || !link) continue;
                    any_before(image);
                    planned_and_back(&w, encoding, matrix, image);
                }
}

/* Images. --------------------------------------------------------------------------------------------------------------------------- */

/* Today's board: on fresh registers 0x16 is written, and no other register of a wiring; an image as it was finished before, with the depth
 * that is "invalid" or any other, decodes to none, and its request's list has that one write beside the nine that stay. */
static void today(void) {
    const struct wiring none = { 0 };
    uint8_t bytes[ROOM_FOR], zeros[256] = { 0 }, image[256], writes[256] = { 0 }, back[STATION_REQUEST] = { 0 };
    size_t length = asked(&none, 0, 1, 0, bytes);
    struct station_count c = run.f->plan(bytes, length, zeros, 256, writes, 256);
    int of_16 = 0, others = 0;
    check_plan(bytes, length, zeros, 256, writes, 256);
    for (uint32_t k = 0; k < c.count && k < 128; k++) {
        uint8_t a = writes[2 * k];
        of_16 += a == 0x16 && writes[2 * k + 1] == 0x30;
        others += a == 0x48 || (a >= 0x30 && a <= 0x34);
    }
    if (c.refusal || of_16 != 1 || others) differs("today's board on fresh registers: %u, %d and %d writes", c.refusal, of_16, others);
    for (int a = 0; a < 256; a++) image[a] = (uint8_t)left_in((uint8_t)a, zeros, writes, c);
    for (int codes = 0; codes < 16; codes++) {
        int right = codes == 3 << 2;
        image[0x16] = (uint8_t)(codes << 2);
        check_decode(image, 256, back, sizeof back);
        check_plan(bytes, length, image, 256, writes, 256);
        struct station_count d = run.f->decode(image, 256, back, sizeof back), n = run.f->plan(bytes, length, image, 256, writes, 256);
        if (d.refusal != (right ? 0u : 11u)) differs("0x16 = %02x of today's board is decoded as %u", image[0x16], d.refusal);
        if (n.count != (right ? 9u : 10u) || (!right && (writes[16] != 0x16 || writes[17] != 0x30)))
            differs("0x16 = %02x of today's board: %u writes", image[0x16], n.count);
    }
}

/* A finished image with any codes of a wiring in it, and with sync values or without: it is a request's exactly where they are defined, and
 * its count follows from the ID. So the three counts never meet in one image. */
static void any_codes(int matrix) {
    uint8_t bytes[ROOM_FOR], zeros[256] = { 0 }, image[256], writes[256] = { 0 }, back[STATION_REQUEST];
    const struct wiring none = { 0 };
    struct station_count c = run.f->plan(bytes, asked(&none, 0, 1, matrix, bytes), zeros, 256, writes, 256);
    for (int a = 0; a < 256; a++) image[a] = (uint8_t)left_in((uint8_t)a, zeros, writes, c);
    for (int codes = 0; codes < 16 * 64; codes++)
        for (int syncs = 0; syncs < 3; syncs++) {
            struct wiring w = { 0, codes >> 6, codes >> 4 & 3, codes >> 2 & 3, codes & 3, { 0 } };
            uint8_t five[5] = { 0 };
            if (passed_over(4)) continue;
            w.count = w.id ? count_for(w.id) : 0;
            if (syncs == 1) five[any(5)] = (uint8_t)(1u << any(8));
            if (syncs == 2) any_bytes(five, 5), five[0] |= 1;
            w.sync[0] = five[0] << 2 | five[1] >> 6, w.sync[1] = (five[1] & 63) << 4 | five[2] >> 4;
            w.sync[2] = (five[2] & 15) << 6 | five[3] >> 2, w.sync[3] = (five[3] & 3) << 8 | five[4];
            image[0x15] = (uint8_t)((image[0x15] & 0xF0) | w.id);
            image[0x16] = (uint8_t)((image[0x16] & 0xC3) | w.depth << 4 | w.style << 2);
            image[0x48] = (uint8_t)((image[0x48] & 0xE7) | w.justification << 3);
            memcpy(image + 0x30, five, 5);
            int right = w.id == 0 ? w.depth == 3 && !w.style && !w.justification : w.id <= HIGHEST_ID && is_defined(&w);
            if (w.count != TWELVE && syncs) right = 0;
            if (right && !matrix && !rgb_in(&w)) right = 0;
            memset(back, 0, sizeof back);
            check_decode(image, 256, back, sizeof back);
            struct station_count d = run.f->decode(image, 256, back, sizeof back);
            size_t length = asked(&w, 0, 1, matrix, bytes);
            if (d.refusal != (right ? 0u : 11u))
                differs("ID %d, codes %d %d %d: decoded as %u", w.id, w.depth, w.style, w.justification, d.refusal);
            else if (right && (d.count != length || memcmp(back, bytes, length))) differs("ID %d: another request, its count %d", w.id, back[0]);
        }
}

/* Every wiring that is defined, and today's board, with four sets of sync values where it has them, each encoding, with and without a matrix:
 * no two of these requests end in one image. */
enum { SYNC_SETS = 4, OF_EMBEDDED = 27 + 18 + 18, WIRINGS = 1 + DEFINED + (SYNC_SETS - 1) * OF_EMBEDDED, OUTPUTS = 3 * 2 };
static uint8_t ends[WIRINGS * OUTPUTS][256];

static int by_image(const void *a, const void *b) { return memcmp(a, b, 256); }

static void one_image(void) {
    static const int sets[SYNC_SETS][4] = { { 0, 0, 0, 0 }, { 1, 0, 0, 0 }, { 0, 0, 0, 1 }, { MOST, MOST, MOST, MOST } };
    uint8_t before[256];
    size_t count = 0, requests = 0;
    any_before(before);
    for (int codes = 0; codes < (HIGHEST_ID + 1) * 64; codes++) {
        struct wiring w = { 0, codes >> 6, codes >> 4 & 3, codes >> 2 & 3, codes & 3, { 0 } };
        w.count = codes ? count_for(w.id) : 0;
        if (codes && !is_drawn(&w)) continue;
        for (int set = 0; set < (w.count == TWELVE ? SYNC_SETS : 1); set++)
            for (int out = 0; out < OUTPUTS; out++) {
                uint8_t bytes[ROOM_FOR], writes[256] = { 0 };
                memcpy(w.sync, sets[set], sizeof w.sync);
                if (out < 3 && rgb_in(&w) != (out % 3 == 0)) continue;
                struct station_count c = run.f->plan(bytes, asked(&w, out % 3, 1, out >= 3, bytes), before, 256, writes, 256);
                requests++, run.now->cases++;
                if (c.refusal || c.count > 128) continue;
                for (int a = 0; a < 256; a++) ends[count][a] = (uint8_t)left_in((uint8_t)a, before, writes, c);
                count++;
            }
    }
    qsort(ends, count, sizeof ends[0], by_image);
    for (size_t k = 1; k < count; k++)
        if (!by_image(ends[k - 1], ends[k])) differs("two requests of other wirings end in one image, its ID %d", ends[k][0x15] & 15);
    if (count != requests) differs("%zu of %zu requests of a wiring are accepted", count, requests);
}

/* A vendor's lists from one wiring to another, on an image that a request has finished over zeros. */
static const struct { struct wiring from, to; } changes[] = {
    { { 0 }, { FOUR, 5, 3, 2, 0, { 0 } } },
    { { FOUR, 5, 3, 2, 0, { 0 } }, { 0 } },
    { { FOUR, 1, 3, 2, 0, { 0 } }, { TWELVE, 2, 3, 2, 0, { 110, 40, 5, 5 } } },
    { { TWELVE, 2, 3, 2, 0, { 110, 40, 5, 5 } }, { FOUR, 1, 3, 2, 0, { 0 } } },
    { { TWELVE, 2, 3, 2, 0, { 110, 40, 5, 5 } }, { TWELVE, 8, 1, 1, 2, { 528, 44, 4, 5 } } },
    { { TWELVE, 4, 3, 2, 0, { 110, 40, 5, 5 } }, { 0 } },
    { { 0 }, { TWELVE, 4, 3, 2, 0, { 1023, 1023, 1023, 1023 } } },
};

static void vendors(void) {
    for (size_t k = 0; k < sizeof changes / sizeof changes[0]; k++) {
        uint8_t bytes[ROOM_FOR], list[256] = { 0 };
        struct chip c = { .mark = 0 }, end;
        size_t length = asked(&changes[k].from, 0, 1, 1, bytes);
        struct station_count n = run.f->plan(bytes, length, c.image, 256, list, 256);
        if (n.refusal || !sent_whole(&c, list, n.count)) differs("change %zu of wirings: the first is refused %u", k, n.refusal);
        length = asked(&changes[k].to, 0, 1, 1, bytes);
        n = run.f->plan(bytes, length, c.image, 256, list, 256);
        for (uint32_t out = 0; out <= n.count && n.count <= 128; out++) {       /* the whole list, and without each of its pairs */
            struct pairs l = { .length = 2 * n.count };
            memcpy(l.bytes, list, l.length);
            uint8_t address = out < n.count ? list[2 * out] : 0;
            int of_wiring = address == 0x15 || address == 0x16 || address == 0x48 || (address >= 0x30 && address <= 0x34);
            if (out < n.count) take_out(&l, out, out + 1);
            if (out < n.count && !of_wiring) continue;
            end = c;
            run.now->cases++;
            struct station_verdict v =
                run.f->vet(c.image, 256, c.packet, PACKET_BYTES, c.coefficients, COEFFICIENT_BYTES, c.mark, l.bytes, l.length);
            uint32_t right = model_vet(c.image, 256, c.packet, PACKET_BYTES, c.coefficients, COEFFICIENT_BYTES, c.mark, l.bytes,
                                       l.length).refusal;
            if (v.refusal != right || (out == n.count && v.refusal)) differs("change %zu of wirings, without pair %u: %u", k, out, v.refusal);
            if (!sent_whole(&end, l.bytes, (uint32_t)count_of(&l))) differs("change %zu of wirings: a write refused", k);
            uint32_t refusal = run.f->decode(end.image, 256, bytes, STATION_REQUEST).refusal;
            if ((refusal == 0) != (v.refusal == 0)) differs("change %zu of wirings, without pair %u: decoded as %u", k, out, refusal);
        }
    }
}

void wirings(void) {
    seed(0x2600000u);
    classes();
    by_hand();
    tables_32_and_35();
    colours();
    every_count();
    every_combination();
    every_value();
    every_one_back();
    every_sync();
    today();
    any_codes(1);
    any_codes(0);
    one_image();
    vendors();
}
