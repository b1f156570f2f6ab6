/* What a screen says of itself, and the first wish that fits (document 02, request 12, and its readings; the bytes are those of EDID 1.3 and of
 * CEA-861, from memory). All blocks of a collection are found first, and spoil it or not; then what is in them is looked for. */
#include "model.h"
#include <string.h>

/* Places in an extension, and in its data blocks; the last byte of either block is for its sum. */
enum { TAG = 0, REVISION = 1, OFFSET = 2, COLLECTION = 4, LAST_OFFSET = 127 };
enum { OF_CEA_861 = 2, WITH_DATA_BLOCKS = 3, OF_A_DESCRIPTOR = 3, LINEAR_PCM = 1 };

static int sums_to_zero(const uint8_t *block) {
    unsigned sum = 0;
    for (int i = 0; i < EDID_BLOCK; i++) sum += block[i];
    return sum % 256 == 0;
}

/* The bytes 4 to offset - 1, or none. */
static int end_of_collection(const uint8_t *extension) {
    return extension[REVISION] < WITH_DATA_BLOCKS || extension[OFFSET] == 0 ? COLLECTION : extension[OFFSET];
}

/* The number of data blocks; SPOILED where one runs past the end. */
enum { SPOILED = -1 };
static int blocks_of(const uint8_t *extension, struct data_block *blocks) {
    int count = 0, end = end_of_collection(extension), at = COLLECTION;
    while (at < end) {
        struct data_block b = { extension[at] >> 5, extension[at] & 31, extension + at + 1 };
        at += 1 + b.length;
        if (at > end) return SPOILED;
        blocks[count++] = b;
    }
    return count;
}

/* 21 to 23, in this order; and the data blocks. */
uint32_t model_screen(const uint8_t *edid, size_t length, struct screen *s) {
    static const uint8_t header[8] = { 0x00, 0xFF, 0xFF, 0xFF, 0xFF, 0xFF, 0xFF, 0x00 };
    s->count = 0;
    if (length != EDID_BLOCK && length != 2 * EDID_BLOCK) return 21;
    if (memcmp(edid, header, sizeof header) != 0) return 21;
    if (!sums_to_zero(edid)) return 22;
    if (length == EDID_BLOCK) return 0;
    const uint8_t *extension = edid + EDID_BLOCK;
    if (!sums_to_zero(extension)) return 22;
    if (extension[TAG] != OF_CEA_861) return 23;
    if ((extension[OFFSET] >= 1 && extension[OFFSET] <= 3) || extension[OFFSET] > LAST_OFFSET) return 23;
    int count = blocks_of(extension, s->blocks);
    if (count == SPOILED) return 23;
    s->count = count;
    return 0;
}

/* VIC 0 is no VIC. */
int model_lists(const struct screen *s, int vic) {
    for (int b = 0; b < s->count; b++)
        for (int i = 0; s->blocks[b].tag == SHORT_VIDEO && i < s->blocks[b].length; i++)
            if (vic != 0 && (s->blocks[b].bytes[i] & 0x7F) == vic) return 1;
    return 0;
}

/* One descriptor has all three: the format, the rate and the channels. */
int model_covers(const struct screen *s, int rate, int channels) {
    for (int b = 0; b < s->count; b++)
        for (int i = 0; s->blocks[b].tag == SHORT_AUDIO && i + OF_A_DESCRIPTOR <= s->blocks[b].length; i += OF_A_DESCRIPTOR) {
            const uint8_t *d = s->blocks[b].bytes + i;
            int format = d[0] >> 3 & 15, most = (d[0] & 7) + 1, rates = d[1] & 0x7F;
            if (format == LINEAR_PCM && channels <= most && (rates >> rate & 1)) return 1;
        }
    return 0;
}

/* After the wiring section and the video section's count. */
size_t model_vic_at(const uint8_t *request) { return 1u + request[0] + 1u; }

/* "Each a VIC and family put in its place": of a request that has no such place, or is too long, no wish makes an accepted one. */
int model_mended(const uint8_t *request, size_t length, const uint8_t *wish, struct fields *f) {
    uint8_t bytes[LONGEST];
    if (length == 0 || length > LONGEST || model_vic_at(request) + 2 > length) return 0;
    memcpy(bytes, request, length);
    bytes[model_vic_at(request)] = wish[0];
    bytes[model_vic_at(request) + 1] = wish[1];
    return model_read(bytes, length, f) == 0 && model_pair(f).exists;
}

int model_wish_fits(const struct screen *s, const uint8_t *request, size_t length, const uint8_t *wish) {
    struct fields f;
    return model_mended(request, length, wish, &f) && model_lists(s, f.vic) && (!f.sound || model_covers(s, f.rate, f.channels));
}
