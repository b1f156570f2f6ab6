/* What a screen says of itself, and the first wish that fits: document 02, request 12. By hand, in bare bytes and bare numbers; then against the
 * model; and the two calls against each other, and against N and CTS and planning, without it. */
#include "check.h"
#include "lent.h"
#include <stdio.h>
#include <string.h>

/* By their own numbers, not the model's. Places in an EDID of two blocks. */
enum { BLOCK = 128, BOTH = STATION_EDID, TAG = BLOCK, REVISION, OFFSET, COLLECTION = BLOCK + 4, SUM = BLOCK - 1, HEADER = 8 };
enum { FIRST = 4, LAST = 127, WISH = 2, SIXTEEN = STATION_WISHES / WISH };
static const uint8_t vics[] = { 1, 2, 3, 4, 5, 16, 17, 18, 19, 20, 31, 32, 34, 60, 62 };
enum { OF_VICS = sizeof vics, OF_RATES = 7 };
#define V(vic) (1u << (vic) % 32)

/* Lending. -------------------------------------------------------------------------------------------------------------------------- */

/* The chooser's slices at either edge: one combination after another. */
static unsigned sides;
static int side_of(int slice) { return sides >> slice & 1 ? BEGINS : ENDS; }

/* What was met: kinds of screens by each call; why a wish was passed over, by the number of the request with it, or NOT_LISTED, NOT_COVERED;
 * wishes that fit by their place, and by the place that they go to. */
enum kind {
    BASE_ALONE, OFFSET_0, BELOW_3, EMPTY, WITH_BLOCKS, OTHER_LENGTH, OTHER_HEADER, BASE_SUM, SECOND_SUM, OTHER_TAG, OFFSET_LOW, OFFSET_HIGH,
    RUNS_PAST, KINDS_OF
};
static const struct { uint32_t number; const char *what; } kinds_of[KINDS_OF] = {
    { 0, "a base block alone" }, { 0, "offset 0" }, { 0, "a revision below 3" }, { 0, "an empty collection" }, { 0, "data blocks" },
    { 21, "refused 21, another length" }, { 21, "refused 21, another header" }, { 22, "refused 22, the base block's sum" },
    { 22, "refused 22, the extension's sum" }, { 23, "refused 23, another tag" }, { 23, "refused 23, offset 1 to 3" },
    { 23, "refused 23, offset above 127" }, { 23, "refused 23, a block that runs past" },
};
enum { OF_NUMBERS = STATION_SOUND_TOO_MUCH + 1, NOT_LISTED = OF_NUMBERS, NOT_COVERED, REASONS, AT_MOST = 16 };
static struct {
    uint32_t screens[2][KINDS_OF], odd, too_many, no_wish, none, reasons[REASONS], places[SIXTEEN], at[AT_MOST], with_sound;
} met;

static int sum_of(const uint8_t *block) {
    int sum = 0;
    for (int i = 0; i < BLOCK; i++) sum = (sum + block[i]) % 256;
    return sum;
}

/* By a walk from the end of one block to the next, over the bytes as they stand. */
static enum kind kind_of(const uint8_t *edid, size_t length) {
    static const uint8_t header[HEADER] = { 0, 255, 255, 255, 255, 255, 255, 0 };
    if (length != BLOCK && length != BOTH) return OTHER_LENGTH;
    if (memcmp(edid, header, HEADER)) return OTHER_HEADER;
    if (sum_of(edid)) return BASE_SUM;
    if (length == BLOCK) return BASE_ALONE;
    if (sum_of(edid + BLOCK)) return SECOND_SUM;
    if (edid[TAG] != 2) return OTHER_TAG;
    if (edid[OFFSET] > LAST) return OFFSET_HIGH;
    if (edid[OFFSET] > 0 && edid[OFFSET] < FIRST) return OFFSET_LOW;
    if (edid[REVISION] < 3) return BELOW_3;
    if (edid[OFFSET] == 0) return OFFSET_0;
    int next = FIRST;
    while (next < edid[OFFSET]) next += 1 + edid[BLOCK + next] % 32;
    return next > edid[OFFSET] ? RUNS_PAST : next == FIRST ? EMPTY : WITH_BLOCKS;
}

/* The request with a wish in place of its VIC and family, where it has that place. */
static size_t with_wish(const uint8_t *request, size_t length, const uint8_t *wish, uint8_t *bytes) {
    memcpy(bytes, request, length);
    if (length > 0 && request[0] + 4u <= length) bytes[request[0] + 2] = wish[0], bytes[request[0] + 3] = wish[1];
    return length;
}

static void count_wishes(const uint8_t *edid, size_t el, const uint8_t *request, size_t rl, const uint8_t *wishes, size_t wl,
                         struct station_choice c) {
    uint8_t bytes[LEAST_ROOM];
    struct screen s;
    struct fields f;
    if (wl % WISH) met.odd++;
    else if (wl > STATION_WISHES) met.too_many++;
    else if (c.refusal == 24 && wl == 0) met.no_wish++;
    else if (c.refusal == 24) met.none++;
    if (c.refusal == 0) met.places[c.place]++, met.at[c.at]++;
    if ((c.refusal && c.refusal != 24) || rl > sizeof bytes || model_screen(edid, el, &s)) return;
    for (size_t k = 0; k < (c.refusal ? wl / WISH : c.place + 1); k++) {
        const uint8_t *wish = wishes + WISH * k;
        uint32_t number = model_number(bytes, with_wish(request, rl, wish, bytes));
        if (number) met.reasons[number]++;
        else if (!model_lists(&s, wish[0])) met.reasons[NOT_LISTED]++;
        else if (c.refusal || k < c.place) met.reasons[NOT_COVERED]++;
        else model_read(bytes, rl, &f), met.with_sound += f.sound != 0;
    }
}

/* Both lend, call both, and compare the answer and every lent byte; the overview at either edge. They answer the model's, which the kind of
 * screen must tell too. */
static struct station_monitor check_edid(const uint8_t *edid, size_t el) {
    enum kind kind = kind_of(edid, el);
    struct station_monitor want = model_edid(edid, el);
    met.screens[0][kind]++;
    if (want.refusal != kinds_of[kind].number) differs("%s: the model has %u", kinds_of[kind].what, want.refusal);
    for (int side = ENDS; side <= BEGINS; side++) {
        run.now->cases++;
        struct station_monitor got = run.f->edid(lend(EDID, edid, el, side), el);
        if (got.refusal != want.refusal || got.vics_low != want.vics_low || got.vics_high != want.vics_high || got.rates_2 != want.rates_2 ||
            got.rates_8 != want.rates_8)
            differs("%s: %u, %08x %08x, %02x, %02x, the model has %u, %08x %08x, %02x, %02x", kinds_of[kind].what, got.refusal, got.vics_low,
                    got.vics_high, got.rates_2, got.rates_8, want.refusal, want.vics_low, want.vics_high, want.rates_2, want.rates_8);
        else if (!holds(EDID, edid)) differs("the EDID was changed");
    }
    return want;
}

/* What is chosen is accepted by the library's own N and CTS, and planned on fresh registers. */
static void chosen_well(const uint8_t *request, size_t rl, const uint8_t *wish, uint32_t at) {
    static const uint8_t fresh[256] = { [0x4A] = 0x80 };
    uint8_t bytes[LONGEST], writes[256];
    if (rl > LONGEST || at + 2 > rl) {
        differs("a wish for byte %u of a request of %zu", at, rl);
        return;
    }
    memcpy(bytes, request, rl);
    bytes[at] = wish[0], bytes[at + 1] = wish[1];
    uint32_t number = run.f->ncts(bytes, rl).refusal, planned = run.f->plan(bytes, rl, fresh, 256, writes, 256).refusal;
    if (number || planned) differs("VIC %d, family %d is chosen: N and CTS %u, planning %u", wish[0], wish[1], number, planned);
}

static struct station_choice check_choose(const uint8_t *edid, size_t el, const uint8_t *request, size_t rl, const uint8_t *wishes, size_t wl) {
    run.now->cases++, sides++;
    struct station_choice want = model_choose(edid, el, request, rl, wishes, wl);
    const uint8_t *lent = lend(EDID, edid, el, side_of(0)), *also = lend(REQUEST, request, rl, side_of(1));
    struct station_choice got = run.f->choose(lent, el, also, rl, lend(WISHES, wishes, wl, side_of(2)), wl);
    if (got.refusal != want.refusal || got.place != want.place || got.at != want.at)
        differs("%u, place %u, at %u, the model has %u, place %u, at %u", got.refusal, got.place, got.at, want.refusal, want.place, want.at);
    else if (!holds(EDID, edid) || !holds(REQUEST, request) || !holds(WISHES, wishes)) differs("an input was changed");
    else if (got.refusal == 0) chosen_well(request, rl, wishes + WISH * got.place, got.at);
    if (run.share >= 1000) met.screens[1][kind_of(edid, el)]++, count_wishes(edid, el, request, rl, wishes, wl, want);
    return want;
}

/* Screens of our own. --------------------------------------------------------------------------------------------------------------- */

/* The base block: its header, the maker "DRK" that nobody is, product 1, 2020, EDID 1.3, digital; the rest zeros. */
#define OURS "00 FF FF FF FF FF FF 00 12 4B 01 00 01 00 00 00 01 1E 01 03 80 "
#define SIX_6 "06 06 06 06 06 06 "
#define THIRTY_6 SIX_6 SIX_6 SIX_6 SIX_6 SIX_6
#define TIMING "02 3A 80 18 71 38 2D 40 58 2C 45 00 00 00 00 00 00 1E "      /* 1080p at 60 Hz as a detailed timing: no data block */

static void make_sums(uint8_t *edid, size_t length) {
    for (size_t from = 0; from + BLOCK <= length; from += BLOCK) edid[from + SUM] = (uint8_t)(edid[from + SUM] - sum_of(edid + from));
}

/* An extension from byte 128 on, the rest zeros; NULL for none. Answers the length. */
static size_t make_edid(const char *extension, uint8_t *edid) {
    memset(edid, 0, BOTH);
    from_hex(OURS, edid);
    if (extension) from_hex(extension, edid + BLOCK);
    make_sums(edid, BOTH);
    return extension ? BOTH : BLOCK;
}

/* What each lists: VICs below 32, those above, rates of two channels and of eight. The first four are whole screens. */
enum { PLAIN, LOUD, DVI_ALONE, MIXED, OWN };
#define WITH(offset, block) "02 03 " offset " 40 41 10 " block " "      /* 1080p, and a block more; "basic audio" is set */
#define SOUND(descriptor) WITH("0A", "23 " descriptor)                  /* one short audio descriptor */
#define TWO_SOUNDS(one, two) WITH("0D", "26 " one " " two)
static const struct listed { const char *what, *extension; uint32_t low, high, two, eight; } listed[] = {
    [PLAIN] = { "1080p, and stereo up to 48 kHz", "02 03 17 F1 4A 90 04 03 02 01 13 1F 12 05 14 23 09 07 07 83 01 00 00 " TIMING,
                V(16) | V(4) | V(3) | V(2) | V(1) | V(19) | V(31) | V(18) | V(5) | V(20), 0, 0x07, 0 },
    [LOUD] = { "every mode of ours, eight channels up to 192 kHz",
               "02 03 2C F0 51 10 1F 04 13 05 14 03 02 12 11 01 20 22 3C 3E 3F 5D 29 0F 7F 07 3D 1E C0 17 50 00 67 03 0C 00 10 00 B8 2D "
               "83 7F 00 00 " TIMING TIMING,
               V(16) | V(31) | V(4) | V(19) | V(5) | V(20) | V(3) | V(2) | V(18) | V(17) | V(1), V(32) | V(34) | V(60) | V(62) | V(63), 0x7F, 0x7F },
    [DVI_ALONE] = { "a base block alone", NULL, 0, 0, 0, 0 },
    [MIXED] = { "vendor's, speakers' and extended blocks between",
                "02 03 2E 71 E2 00 10 83 4F 00 00 42 84 3E 65 03 0C 00 10 00 E3 05 41 10 26 17 7F 00 0D 54 07 E4 0E 10 1F 04 81 41 41 22 "
                "25 09 01 07 0F 7F 23 0F 7F 00 " TIMING,
                V(4), V(62) | V(34), 0x55, 0 },
    /* The collection. */
    { "an empty collection", "02 03 04 40 41 10", 0, 0, 0, 0 },
    { "offset 0", "02 03 00 40 41 10 23 0F 7F 00", 0, 0, 0, 0 },
    { "offset 0, and what would run past", "02 03 00 40 5F 10", 0, 0, 0, 0 },
    { "revision 0", "02 00 0A 40 41 10 23 0F 7F 00", 0, 0, 0, 0 },
    { "revision 1", "02 01 0A 40 41 10 23 0F 7F 00", 0, 0, 0, 0 },
    { "revision 2", "02 02 0A 40 41 10 23 0F 7F 00", 0, 0, 0, 0 },
    { "revision 2, offset 0", "02 02 00 40 41 10", 0, 0, 0, 0 },
    { "revision 1, and what would run past", "02 01 06 40 5F 10", 0, 0, 0, 0 },
    { "revision 2, and what would run past", "02 02 06 40 5F 10", 0, 0, 0, 0 },
    { "revision 4", "02 04 0A 40 41 10 23 0F 7F 00", V(16), 0, 0x7F, 0x7F },
    { "revision 255", "02 FF 0A 40 41 10 23 0F 7F 00", V(16), 0, 0x7F, 0x7F },
    { "a block that ends at the offset", "02 03 0A 40 41 10 23 09 04 00", V(16), 0, 0x04, 0 },
    { "a byte more, a block without bytes", "02 03 0B 40 41 10 23 09 04 00", V(16), 0, 0x04, 0 },
    { "blocks behind the offset", "02 03 06 40 41 10 41 04 23 0F 7F 00", V(16), 0, 0, 0 },
    { "what would run past, behind the offset", "02 03 06 40 41 10 5F 04", V(16), 0, 0, 0 },
    { "blocks without bytes", "02 03 0B 40 20 40 41 10 00 E0 40", V(16), 0, 0, 0 },
    { "a byte 0 before a block", "02 03 07 40 00 41 10", V(16), 0, 0, 0 },
    { "a block without bytes, and nothing else", "02 03 05 40 40 10", 0, 0, 0, 0 },
    { "a video block in other words of the flags", "02 03 06 00 41 10", V(16), 0, 0, 0 },
    { "a descriptor in byte 126", "02 03 7F 40 5F 06 " THIRTY_6 "5F 06 " THIRTY_6 "5F 06 " THIRTY_6 "5A 06 06 " SIX_6 SIX_6 SIX_6 "06 06 06 06 06 10",
      V(6) | V(16), 0, 0, 0 },
    { "a block in byte 126", "02 03 7F 40 5F 06 " THIRTY_6 "5F 06 " THIRTY_6 "5F 06 " THIRTY_6 "59 06 " SIX_6 SIX_6 SIX_6 "06 06 06 06 06 10 40",
      V(6) | V(16), 0, 0, 0 },
    /* Tags. */
    { "a VIC under each other tag", "02 03 10 40 01 10 61 10 81 10 A1 10 C1 10 E1 10", 0, 0, 0, 0 },
    { "sound under each other tag", "02 03 1E 40 41 10 03 0F 7F 00 63 0F 7F 00 83 0F 7F 00 A3 0F 7F 00 C3 0F 7F 00 E3 0F 7F 00", V(16), 0, 0, 0 },
    { "sound in a video block", "02 03 0C 40 41 10 45 09 04 00 0F 7F", V(16) | V(9) | V(4) | V(15), 0, 0, 0 },
    { "a VIC in an audio block", "02 03 08 40 23 10 10 10", 0, 0, 0, 0 },
    { "two video blocks", "02 03 08 40 41 04 41 10", V(4) | V(16), 0, 0, 0 },
    { "a vendor's block that looks like others", "02 03 0C 40 65 41 04 23 0F 7F 41 10", V(16), 0, 0, 0 },
    /* Video descriptors. */
    { "a native one", "02 03 06 40 41 90", V(16), 0, 0, 0 },
    { "a native one, and one that is not", "02 03 07 40 42 84 10", V(4) | V(16), 0, 0, 0 },
    { "VIC 0", "02 03 06 40 41 00", 0, 0, 0, 0 },
    { "VIC 0, native", "02 03 07 40 42 80 10", V(16), 0, 0, 0 },
    { "1, 31, 32 and 63", "02 03 09 40 44 01 1F 20 3F", V(1) | V(31), V(32) | V(63), 0, 0 },
    { "1, 31, 32 and 63, native", "02 03 09 40 44 81 9F A0 BF", V(1) | V(31), V(32) | V(63), 0, 0 },
    { "64", "02 03 06 40 41 40", 0, 0, 0, 0 },
    { "65, 80, 96 and 127", "02 03 09 40 44 41 50 60 7F", 0, 0, 0, 0 },
    { "64, 80 and 127, with bit 7", "02 03 08 40 43 C0 D0 FF", 0, 0, 0, 0 },
    { "3 and 34: their bits are in two words", "02 03 07 40 42 22 03", V(3), V(34), 0, 0 },
    { "31 of them", "02 03 24 40 5F " THIRTY_6 "10", V(6) | V(16), 0, 0, 0 },
    { "the same one twice", "02 03 09 40 42 10 10 41 90", V(16), 0, 0, 0 },
    /* Audio descriptors. */
    { "eight channels, all rates", SOUND("0F 7F 07"), V(16), 0, 0x7F, 0x7F },
    { "seven channels", SOUND("0E 7F 07"), V(16), 0, 0x7F, 0 },
    { "three channels", SOUND("0A 7F 07"), V(16), 0, 0x7F, 0 },
    { "two channels", SOUND("09 7F 07"), V(16), 0, 0x7F, 0 },
    { "one channel", SOUND("08 7F 07"), V(16), 0, 0, 0 },
    { "no rate", SOUND("0F 00 07"), V(16), 0, 0, 0 },
    { "all rates but one", SOUND("0F 7B 07"), V(16), 0, 0x7B, 0x7B },
    { "32 kHz alone", SOUND("0F 01 07"), V(16), 0, 0x01, 0x01 },
    { "192 kHz alone", SOUND("0F 40 07"), V(16), 0, 0x40, 0x40 },
    { "bit 7 of the first byte", SOUND("8F 7F 07"), V(16), 0, 0x7F, 0x7F },
    { "bit 7 of the second byte", SOUND("0F 84 07"), V(16), 0, 0x04, 0x04 },
    { "bit 7 of the second byte alone", SOUND("0F 80 07"), V(16), 0, 0, 0 },
    { "no number of bits", SOUND("0F 04 00"), V(16), 0, 0x04, 0x04 },
    { "any number of bits", SOUND("0F 04 FF"), V(16), 0, 0x04, 0x04 },
    { "format 0", SOUND("07 7F 07"), V(16), 0, 0, 0 },
    { "AC-3", SOUND("17 7F 07"), V(16), 0, 0, 0 },
    { "format 9", SOUND("4F 7F 07"), V(16), 0, 0, 0 },
    { "format 15", SOUND("7F 7F 07"), V(16), 0, 0, 0 },
    { "format 0 with bit 7", SOUND("87 7F 07"), V(16), 0, 0, 0 },
    { "\"basic audio\" and no descriptor", "02 03 06 F0 41 10", V(16), 0, 0, 0 },
    { "a descriptor and no \"basic audio\"", "02 03 0A 00 41 10 23 0F 04 00", V(16), 0, 0x04, 0x04 },
    { "linear PCM after AC-3", TWO_SOUNDS("17 7F 00", "09 04 00"), V(16), 0, 0x04, 0 },
    { "AC-3 after linear PCM", TWO_SOUNDS("09 04 00", "17 7F 00"), V(16), 0, 0x04, 0 },
    { "the right rate in another descriptor", TWO_SOUNDS("0F 01 00", "09 40 00"), V(16), 0, 0x41, 0x01 },
    { "the right rate in another one before", TWO_SOUNDS("09 40 00", "0F 01 00"), V(16), 0, 0x41, 0x01 },
    { "the right rate in another block", "02 03 0E 40 41 10 23 0F 01 00 23 09 40 00", V(16), 0, 0x41, 0x01 },
    { "the right channels in AC-3", TWO_SOUNDS("09 7F 00", "17 7F 00"), V(16), 0, 0x7F, 0 },
    { "the right rate in AC-3", TWO_SOUNDS("0F 00 00", "17 7F 00"), V(16), 0, 0, 0 },
    { "more channels in the second", TWO_SOUNDS("09 04 00", "0F 04 00"), V(16), 0, 0x04, 0x04 },
    { "more channels in the first", TWO_SOUNDS("0F 04 00", "09 44 00"), V(16), 0, 0x44, 0x04 },
    { "a rest of one byte", WITH("0B", "24 09 04 00 0F"), V(16), 0, 0x04, 0 },
    { "a rest of two bytes", WITH("0C", "25 09 04 00 0F 7F"), V(16), 0, 0x04, 0 },
    { "two bytes alone", WITH("09", "22 0F 7F"), V(16), 0, 0, 0 },
    { "two bytes alone, and one in the next block", WITH("0B", "22 0F 7F 21 00"), V(16), 0, 0, 0 },
    { "one byte alone", WITH("08", "21 0F"), V(16), 0, 0, 0 },
    { "ten descriptors, and a rest", "02 03 26 40 41 10 3F 17 7F 00 17 7F 00 17 7F 00 17 7F 00 17 7F 00 17 7F 00 17 7F 00 17 7F 00 17 7F 00 0F 40 00 0F",
      V(16), 0, 0x40, 0x40 },
    { "sound before the picture", "02 03 0A 40 23 0F 04 00 41 10", V(16), 0, 0x04, 0x04 },
    { "sound in byte 124 to 126", "02 03 7F 40 5F 10 " THIRTY_6 "5F 06 " THIRTY_6 "5E " THIRTY_6 "57 " SIX_6 SIX_6 SIX_6 "06 06 06 06 06 23 0F 20 00",
      V(6) | V(16), 0, 0x20, 0x20 },
};
enum { LISTED = sizeof listed / sizeof listed[0] };

/* Requests and wishes. -------------------------------------------------------------------------------------------------------------- */

/* RGB over HDMI, 24 bits, edition D; YCbCr 4:2:2 likewise; the wirings of the documents, separate and embedded; stereo at 48 kHz, coherent. */
#define RGB(vic, family) "07 " vic " " family " 00 01 00 00 00 "
#define YCBCR(vic, family) "07 " vic " " family " 01 01 00 00 00 "
#define TODAY "00 "
#define SEPARATE "04 01 03 02 00 "
#define EMBEDDED "0C 02 01 01 02 00 6E 00 28 00 05 00 05 "
#define STEREO "03 02 02 01 "
#define SILENT TODAY RGB("10", "00") "00 00"
#define TABLE_39 "19 01 0C 53 08 00 00 00 F9 D6 FC 56 08 00 FE 88 02 91 FF FF 08 00 0E 85 F8 BE "
#define NO "06 00 "                             /* VIC 6: no request has it */
#define THREE_NO NO NO NO
#define FIFTEEN_NO THREE_NO THREE_NO THREE_NO THREE_NO THREE_NO
static const struct wished { const char *what; int screen; const char *request, *wishes; uint32_t number, place, at; } wished[] = {
    { "no wish", LOUD, SILENT, "", 24, 0, 0 },
    { "no wish, and a base block alone", DVI_ALONE, SILENT, "", 24, 0, 0 },
    { "a base block alone", DVI_ALONE, SILENT, "10 00", 24, 0, 0 },
    { "a wish", LOUD, SILENT, "10 00", 0, 0, 2 },
    { "another VIC than the request's", LOUD, SILENT, "04 00", 0, 0, 2 },
    { "another family", LOUD, SILENT, "10 01", 0, 0, 2 },
    { "two that fit", LOUD, SILENT, "04 00 10 00", 0, 0, 2 },
    { "the same two", LOUD, SILENT, "10 00 04 00", 0, 0, 2 },
    { "the first is not listed", PLAIN, SILENT, "20 00 10 00", 0, 1, 2 },
    { "the second is not listed", PLAIN, SILENT, "10 00 20 00", 0, 0, 2 },
    { "the request's own VIC is listed, and the wish's is not", PLAIN, SILENT, "20 00", 24, 0, 0 },
    { "three, two of which fit", PLAIN, SILENT, "20 00 04 00 10 00", 0, 1, 2 },
    { "sixteen, the last fits", LOUD, SILENT, FIFTEEN_NO "10 00", 0, 15, 2 },
    { "sixteen, none fits", LOUD, SILENT, FIFTEEN_NO "06 00", 24, 0, 0 },
    { "sixteen, all fit", LOUD, SILENT, "10 00 10 00 10 00 10 00 10 00 10 00 10 00 10 00 10 00 10 00 10 00 10 00 10 00 10 00 10 00 10 00", 0, 0, 2 },
    { "seventeen", LOUD, SILENT, FIFTEEN_NO "10 00 10 00", 21, 0, 0 },
    { "seventeen, the first fits", LOUD, SILENT, "10 00 10 00 " FIFTEEN_NO, 21, 0, 0 },
    { "seventeen, and a base block alone", DVI_ALONE, SILENT, FIFTEEN_NO "10 00 10 00", 21, 0, 0 },
    { "a byte of a wish", LOUD, SILENT, "10", 21, 0, 0 },
    { "a wish and a half", LOUD, SILENT, "10 00 04", 21, 0, 0 },
    { "fifteen and a half", LOUD, SILENT, FIFTEEN_NO "10", 21, 0, 0 },
    { "sixteen and a half", LOUD, SILENT, "10 00 " FIFTEEN_NO "10", 21, 0, 0 },
    { "half a wish, and a base block alone", DVI_ALONE, SILENT, "10", 21, 0, 0 },
    /* VICs and families that no request has: 4. */
    { "a VIC that no request has", LOUD, SILENT, "3F 00 10 00", 0, 1, 2 },
    { "a VIC of bit 7", LOUD, SILENT, "90 00", 24, 0, 0 },
    { "a VIC of bit 6", LOUD, SILENT, "50 00", 24, 0, 0 },
    { "VIC 0", LOUD, SILENT, "00 00 10 00", 0, 1, 2 },
    { "family 1 of VIC 31", LOUD, SILENT, "1F 01", 24, 0, 0 },
    { "family 1 of VIC 31, and family 0", LOUD, SILENT, "1F 01 1F 00", 0, 1, 2 },
    { "family 2", LOUD, SILENT, "10 02", 24, 0, 0 },
    { "family 255, and family 1", LOUD, SILENT, "10 FF 10 01", 0, 1, 2 },
    { "the request's family is 1, and the wish's has none", LOUD, TODAY RGB("10", "01") "00 00", "1F 00", 0, 0, 2 },
    { "a request that is refused 4, its VIC", LOUD, TODAY RGB("06", "00") "00 00", "10 00", 0, 0, 2 },
    { "a request that is refused 4, VIC 0", LOUD, TODAY RGB("00", "00") STEREO "00", "10 00", 0, 0, 2 },
    { "a request that is refused 4, its family", LOUD, TODAY RGB("10", "07") "00 00", "10 01", 0, 0, 2 },
    { "a request that is refused 4, by VIC 31 in family 1", LOUD, TODAY RGB("1F", "01") "00 00", "1F 00", 0, 0, 2 },
    { "a request that is refused 4, and stays so", LOUD, TODAY RGB("06", "00") "00 00", "06 00 3F 00", 24, 0, 0 },
    /* What is refused with every wish. */
    { "nothing at all", LOUD, "", "10 00", 24, 0, 0 },
    { "a first count of 255", LOUD, "FF", "10 00", 24, 0, 0 },
    { "a first count of 255, and more", LOUD, "FF 07 10 00 00 01 00 00 00 00 00", "10 00", 24, 0, 0 },
    { "the first count", LOUD, "00", "10 00", 24, 0, 0 },
    { "the first two counts", LOUD, "00 07", "10 00", 24, 0, 0 },
    { "a request that ends after its VIC", LOUD, "00 07 10", "10 00", 24, 0, 0 },
    { "a request that ends after its family", LOUD, "00 07 10 00", "10 00", 24, 0, 0 },
    { "refused 1, the last count", LOUD, TODAY RGB("10", "00") "00", "10 00", 24, 0, 0 },
    { "refused 1, in the sound", LOUD, TODAY RGB("10", "00") "03 02 02", "10 00", 24, 0, 0 },
    { "refused 1, in a wiring", LOUD, "0C 02 01 01 02 00", "10 00", 24, 0, 0 },
    { "refused 2, the first count", LOUD, "05 01 03 02 00 00 " RGB("10", "00") "00 00", "10 00", 24, 0, 0 },
    { "refused 2, the second count", LOUD, "00 06 10 00 00 01 00 00 00 00", "10 00", 24, 0, 0 },
    { "refused 2, the third count", LOUD, TODAY RGB("10", "00") "01 00 00", "10 00", 24, 0, 0 },
    { "refused 2, as requests were before the wiring", LOUD, RGB("10", "00") "00 00", "10 00", 24, 0, 0 },
    { "refused 3", LOUD, SILENT " 00", "10 00", 24, 0, 0 },
    { "refused 3, after its matrix", LOUD, TODAY RGB("10", "00") "00 " TABLE_39 "10 00", "10 00", 24, 0, 0 },
    { "refused 5, encoding 3", LOUD, "00 07 10 00 03 01 00 00 00 00 00", "10 00 04 00", 24, 0, 0 },
    { "refused 5, rate 7", LOUD, TODAY RGB("10", "00") "03 07 02 00 00", "10 00", 24, 0, 0 },
    { "refused 5, four channels", LOUD, TODAY RGB("10", "00") "03 02 04 00 00", "10 00", 24, 0, 0 },
    { "refused 5, a wiring", LOUD, "04 00 03 00 00 " RGB("10", "00") "00 00", "10 00", 24, 0, 0 },
    { "refused 6, 4:2:2 without a matrix", LOUD, TODAY YCBCR("10", "00") "00 00", "10 00 04 00", 24, 0, 0 },
    { "refused 6, DVI with sound", LOUD, "00 07 10 00 00 00 00 00 00 03 02 02 00 00", "10 00", 24, 0, 0 },
    { "DVI", LOUD, "00 07 10 00 00 00 00 00 00 00 00", "10 00", 0, 0, 2 },
    /* What is refused with some wishes: 9, 17 and 20. */
    { "9, no exact pair in family 1", LOUD, TODAY RGB("10", "00") "03 00 02 01 00", "04 01", 24, 0, 0 },
    { "9, and family 0 has one", LOUD, TODAY RGB("10", "00") "03 00 02 01 00", "04 01 04 00", 0, 1, 2 },
    { "9 of the request itself, and family 0 has one", LOUD, TODAY RGB("04", "01") "03 00 02 01 00", "04 00", 0, 0, 2 },
    { "no 9, for it is not coherent", LOUD, TODAY RGB("10", "00") "03 00 02 00 00", "04 01 04 00", 0, 0, 2 },
    { "17, 1080p twice", LOUD, "00 07 10 00 00 01 00 10 00 00 00", "10 00", 24, 0, 0 },
    { "17, and 720p twice is not", LOUD, "00 07 10 00 00 01 00 10 00 00 00", "10 00 1F 00 04 00", 0, 2, 2 },
    { "17, 720p four times", LOUD, "00 07 02 00 00 01 00 20 00 00 00", "04 00 02 00", 0, 1, 2 },
    { "20, eight channels at 192 kHz over 480p", LOUD, TODAY RGB("10", "00") "03 06 08 00 00", "02 00", 24, 0, 0 },
    { "20, and 1080p has room", LOUD, TODAY RGB("02", "00") "03 06 08 00 00", "02 00 12 01 01 00 10 00", 0, 3, 2 },
    { "no 20, for there are two channels", LOUD, TODAY RGB("10", "00") "03 06 02 00 00", "02 00 10 00", 0, 0, 2 },
    /* The sound. */
    { "stereo at 48 kHz", PLAIN, TODAY RGB("10", "00") STEREO "00", "10 00", 0, 0, 2 },
    { "stereo at 88.2 kHz, which it has not", PLAIN, TODAY RGB("10", "00") "03 03 02 00 00", "10 00 04 00", 24, 0, 0 },
    { "eight channels, which it has not", PLAIN, TODAY RGB("10", "00") "03 02 08 00 00", "10 00 04 00", 24, 0, 0 },
    { "stereo at 96 kHz, between other blocks", MIXED, TODAY RGB("10", "00") "03 04 02 00 00", "10 00 04 00 3E 00", 0, 1, 2 },
    { "stereo at 44.1 kHz, between other blocks", MIXED, TODAY RGB("10", "00") "03 01 02 00 00", "10 00 04 00 3E 00", 24, 0, 0 },
    { "eight channels, between other blocks", MIXED, TODAY RGB("10", "00") "03 02 08 00 00", "04 00", 24, 0, 0 },
    /* The place of VIC and family. */
    { "a matrix", LOUD, TODAY YCBCR("10", "00") STEREO TABLE_39, "20 01", 0, 0, 2 },
    { "separate syncs", LOUD, SEPARATE YCBCR("10", "00") "00 00", "04 00", 0, 0, 6 },
    { "separate syncs, a request that is refused 4", LOUD, SEPARATE YCBCR("00", "09") STEREO "00", "3F 00 04 01", 0, 1, 6 },
    { "separate syncs, with a matrix", LOUD, SEPARATE RGB("10", "00") STEREO TABLE_39, "06 00 10 01", 0, 1, 6 },
    { "embedded syncs", LOUD, EMBEDDED YCBCR("10", "00") "00 00", "04 00", 0, 0, 14 },
    { "embedded syncs, a request that is refused 4", LOUD, EMBEDDED YCBCR("FF", "FF") STEREO "00", "1F 01 1F 00", 0, 1, 14 },
    { "the longest", LOUD, EMBEDDED RGB("10", "00") STEREO TABLE_39, "06 00 3F 00 10 01", 0, 2, 14 },
    { "the longest, and a byte", LOUD, EMBEDDED RGB("10", "00") STEREO TABLE_39 "00", "10 01", 24, 0, 0 },
    { "a wiring that is not defined", LOUD, "04 05 03 02 01 " RGB("10", "00") "00 00", "10 00", 24, 0, 0 },
    { "a wiring with another's count", LOUD, "04 02 01 01 02 " YCBCR("10", "00") "00 00", "10 00", 24, 0, 0 },
    { "a wiring whose bytes look like VIC and family", LOUD, "04 05 01 01 00 " RGB("00", "00") "00 00", "02 00", 0, 0, 6 },
};

/* EDIDs that are refused: 1080p and stereo, or another extension, with up to two bytes changed by so much before the sums are made, and up to
 * two after it; or in another length. */
struct change { int at, by; };
#define NOTHING { { 0, 0 } }
#define GOOD WITH("0A", "23 09 04 00")
static const struct { const char *what, *extension; struct change before[2], after[2]; size_t length; uint32_t number; } damaged[] = {
    { "the base block's sum", GOOD, NOTHING, { { 40, 1 } }, 0, 22 },
    { "the extension's sum", GOOD, NOTHING, { { 200, 1 } }, 0, 22 },
    { "the base block's sum byte", GOOD, NOTHING, { { 127, 1 } }, 0, 22 },
    { "the extension's sum byte", GOOD, NOTHING, { { 255, 255 } }, 0, 22 },
    { "the sum of a base block alone", NULL, NOTHING, { { 40, 128 } }, 0, 22 },
    { "sums that make zero together", GOOD, NOTHING, { { 40, 1 }, { 200, 255 } }, 0, 22 },
    { "sums that are both wrong", GOOD, NOTHING, { { 40, 1 }, { 200, 1 } }, 0, 22 },
    { "another tag", GOOD, { { TAG, 1 } }, NOTHING, 0, 23 },
    { "tag 1", GOOD, { { TAG, 255 } }, NOTHING, 0, 23 },
    { "a block that ends one byte too late", "02 03 09 40 41 10 23 09 04 00", NOTHING, NOTHING, 0, 23 },
    { "a block that runs past by many", "02 03 06 40 5F 10", NOTHING, NOTHING, 0, 23 },
    { "a block of one byte at the last place", "02 03 07 40 41 10 41 04", NOTHING, NOTHING, 0, 23 },
    { "a block that ends at byte 127", "02 03 7F 40 5F 06 " THIRTY_6 "5F 06 " THIRTY_6 "5F 06 " THIRTY_6 "5B", NOTHING, NOTHING, 0, 23 },
    { "a block that ends behind the extension", "02 03 7F 40 5F 06 " THIRTY_6 "5F 06 " THIRTY_6 "5F 06 " THIRTY_6 "5F", NOTHING, NOTHING, 0, 23 },
    { "a vendor's block that runs past", "02 03 0A 40 41 10 65 03 0C 00", NOTHING, NOTHING, 0, 23 },
    { "an extended block that runs past", "02 03 07 40 41 10 E1 04", NOTHING, NOTHING, 0, 23 },
    { "a block of tag 0 that runs past", "02 03 07 40 41 10 01 04", NOTHING, NOTHING, 0, 23 },
    { "an audio block whose rest runs past", "02 03 0A 40 41 10 24 09 04 00", NOTHING, NOTHING, 0, 23 },
    { "revision 4, a block that runs past", "02 04 09 40 41 10 23 09 04 00", NOTHING, NOTHING, 0, 23 },
    { "offset 3, revision 2", "02 02 03 40 41 10", NOTHING, NOTHING, 0, 23 },
    { "offset 1, revision 0", "02 00 01 40", NOTHING, NOTHING, 0, 23 },
    { "offset 128, revision 1", "02 01 80 40", NOTHING, NOTHING, 0, 23 },
    /* More than one at a time: the first in the order of the numbers. */
    { "a base block alone and a byte", GOOD, NOTHING, NOTHING, 129, 21 },
    { "both blocks but a byte, a sum", GOOD, NOTHING, { { 40, 1 } }, 255, 21 },
    { "both blocks and a byte, another tag", GOOD, { { TAG, 1 } }, NOTHING, 257, 21 },
    { "the header, and so the sum", GOOD, NOTHING, { { 0, 1 } }, 0, 21 },
    { "the header's last byte, and so the sum", GOOD, NOTHING, { { 7, 1 } }, 0, 21 },
    { "the header, and the extension's sum", GOOD, { { 3, 1 } }, { { 200, 1 } }, 0, 21 },
    { "the header of a base block alone", NULL, { { 6, 1 } }, NOTHING, 0, 21 },
    { "the header, and another tag", GOOD, { { 0, 1 }, { TAG, 1 } }, NOTHING, 0, 21 },
    { "the header, and a block that runs past", "02 03 06 40 5F 10", { { 1, 1 } }, NOTHING, 0, 21 },
    { "another tag, and so the sum", GOOD, NOTHING, { { TAG, 1 } }, 0, 22 },
    { "offset 2, and so the sum", GOOD, NOTHING, { { OFFSET, 248 } }, 0, 22 },
    { "offset 128, and so the sum", GOOD, NOTHING, { { OFFSET, 118 } }, 0, 22 },
    { "a block that runs past, and so the sum", GOOD, NOTHING, { { COLLECTION, 30 } }, 0, 22 },
    { "the base block's sum, and another tag", GOOD, { { TAG, 1 } }, { { 40, 1 } }, 0, 22 },
    { "the base block's sum, and a block that runs past", "02 03 06 40 5F 10", NOTHING, { { 40, 1 } }, 0, 22 },
    { "the extension's sum, revision 2", "02 02 0A 40 41 10 23 09 04 00", NOTHING, { { 200, 1 } }, 0, 22 },
    { "another tag, revision 2", "02 02 0A 40 41 10 23 09 04 00", { { TAG, 1 } }, NOTHING, 0, 23 },
    { "another tag, offset 0", "02 03 00 40", { { TAG, 254 } }, NOTHING, 0, 23 },
};

/* By hand. -------------------------------------------------------------------------------------------------------------------------- */

static int says(struct station_monitor m, uint32_t number, uint32_t low, uint32_t high, uint32_t two, uint32_t eight) {
    return m.refusal == number && m.vics_low == low && m.vics_high == high && m.rates_2 == two && m.rates_8 == eight;
}
static int chosen(struct station_choice c, uint32_t number, uint32_t place, uint32_t at) {
    return c.refusal == number && c.place == place && c.at == at;
}
static int fits(struct station_choice c, int fitting) { return fitting ? chosen(c, 0, 0, 2) : chosen(c, 24, 0, 0); }

/* 1080p without sound, and with sound that is not coherent; in other modes by their wishes. */
static const uint8_t silent[] = { 0, 7, 16, 0, 0, 1, 0, 0, 0, 0, 0 };
static size_t with_sound(int rate, int channels, uint8_t *request) {
    const uint8_t bytes[] = { 0, 7, 16, 0, 0, 1, 0, 0, 0, 3, (uint8_t)rate, (uint8_t)channels, 0, 0 };
    memcpy(request, bytes, sizeof bytes);
    return sizeof bytes;
}

/* The overview of a row; each VIC without sound, and VICs that no request has; each rate and number of channels in one of the modes that have
 * room for all. */
static void one_listed(const struct listed *l) {
    static const uint8_t roomy[] = { 16, 4, 62 }, others[] = { 0, 6, 7, 33, 35, 59, 61, 63, 64, 65, 80, 127, 128, 132, 144, 208, 255 };
    const uint32_t words[2] = { l->low, l->high };
    uint8_t edid[BOTH], request[LONGEST], wish[WISH] = { 0, 0 };
    size_t length = make_edid(l->extension, edid);
    if (!says(check_edid(edid, length), 0, l->low, l->high, l->two, l->eight)) differs("%s: the overview", l->what);
    for (int v = 0; v < OF_VICS; v++) {
        wish[0] = vics[v];
        if (!fits(check_choose(edid, length, silent, sizeof silent, wish, WISH), words[vics[v] / 32] >> vics[v] % 32 & 1))
            differs("%s: VIC %d", l->what, vics[v]);
    }
    for (size_t k = 0; k < sizeof others; k++) {
        wish[0] = others[k];
        if (!fits(check_choose(edid, length, silent, sizeof silent, wish, WISH), 0)) differs("%s: VIC %d", l->what, others[k]);
    }
    int vic = 0;
    for (size_t k = 0; k < sizeof roomy; k++)
        if (words[roomy[k] / 32] >> roomy[k] % 32 & 1) vic = wish[0] = roomy[k];
    for (int rate = 0; rate < OF_RATES; rate++)
        for (int channels = 2; channels <= 8; channels += 6) {
            size_t asked = with_sound(rate, channels, request);
            int covered = (channels == 2 ? l->two : l->eight) >> rate & 1;
            if (!fits(check_choose(edid, length, request, asked, wish, WISH), vic && covered))
                differs("%s: rate %d, %d channels", l->what, rate, channels);
        }
}

/* A refused EDID, by both calls: whatever the request and the wishes are, but for wishes of a bad length, which are 21. */
static void refused_edid(const char *what, const uint8_t *edid, size_t length, uint32_t number) {
    static const struct { const char *request, *wishes; int bad; } beside[] = {
        { SILENT, "10 00", 0 }, { SILENT, "", 0 }, { SILENT, "06 00", 0 }, { "", "10 00", 0 }, { SILENT " 00", "10 00", 0 },
        { TODAY RGB("10", "00") STEREO "00", "10 00", 0 }, { TODAY RGB("10", "00") "03 06 08 00 00", "10 00", 0 },
        { SILENT, "10", 1 }, { SILENT, "10 00 10", 1 }, { SILENT, "10 00 10 00 " FIFTEEN_NO, 1 }, { "", "10", 1 },
    };
    uint8_t request[LONGEST], wishes[2 * STATION_WISHES];
    if (!says(check_edid(edid, length), number, 0, 0, 0, 0)) differs("%s: the overview", what);
    for (size_t k = 0; k < sizeof beside / sizeof beside[0]; k++) {
        size_t rl = from_hex(beside[k].request, request), wl = from_hex(beside[k].wishes, wishes);
        if (!chosen(check_choose(edid, length, request, rl, wishes, wl), beside[k].bad ? 21 : number, 0, 0)) differs("%s: a choice", what);
    }
}

static void change(uint8_t *edid, const struct change *c) {
    for (int k = 0; k < 2; k++) edid[c[k].at] = (uint8_t)(edid[c[k].at] + c[k].by);
}

static void by_rows(void) {
    uint8_t edid[2 * BOTH], request[LONGEST + 8], wishes[2 * STATION_WISHES];
    for (size_t k = 0; k < LISTED; k++) one_listed(&listed[k]);
    for (size_t k = 0; k < sizeof wished / sizeof wished[0]; k++) {
        const struct wished *w = &wished[k];
        size_t length = make_edid(listed[w->screen].extension, edid), rl = from_hex(w->request, request), wl = from_hex(w->wishes, wishes);
        if (!chosen(check_choose(edid, length, request, rl, wishes, wl), w->number, w->place, w->at)) differs("%s", w->what);
    }
    for (size_t k = 0; k < sizeof damaged / sizeof damaged[0]; k++) {
        memset(edid, 0, sizeof edid);
        size_t length = make_edid(damaged[k].extension, edid);
        change(edid, damaged[k].before);
        make_sums(edid, length);
        change(edid, damaged[k].after);
        refused_edid(damaged[k].what, edid, damaged[k].length ? damaged[k].length : length, damaged[k].number);
    }
}

/* Each value of each byte of the header, of the tag, and of byte 126, with the sums made right; each byte by itself in both blocks, as it is. */
static void bytes_by_hand(void) {
    uint8_t edid[BOTH], was[BOTH];
    make_edid(GOOD, was);
    for (int at = 0; at < BOTH; at++) {
        int each = at < HEADER || at == TAG, counted = at == BLOCK - 2;
        for (int value = 0; value < 256 && (each || counted); value++) {
            memcpy(edid, was, BOTH);
            edid[at] = (uint8_t)value;
            make_sums(edid, BOTH);
            if (counted || value == was[at]) {
                int whole = says(check_edid(edid, BOTH), 0, V(16), 0, 4, 0), alone = says(check_edid(edid, BLOCK), 0, 0, 0, 0, 0);
                if (!whole || !alone || !fits(check_choose(edid, BOTH, silent, sizeof silent, (const uint8_t[]){ 16, 0 }, WISH), 1))
                    differs("byte %d is %d", at, value);
            } else if (value % 16 == was[at] % 16 || value == was[at] + 1 || value == was[at] - 1) {
                refused_edid("a byte of the header, or the tag", edid, BOTH, at < HEADER ? 21 : 23);
                if (at < HEADER) refused_edid("a byte of a base block's header", edid, BLOCK, 21);
            } else if (!says(check_edid(edid, BOTH), at < HEADER ? 21 : 23, 0, 0, 0, 0)) differs("byte %d is %d", at, value);
        }
        for (int bit = 1; bit < 256; bit *= 2) {
            memcpy(edid, was, BOTH);
            edid[at] ^= (uint8_t)bit;
            if (!says(check_edid(edid, BOTH), at < HEADER ? 21 : 22, 0, 0, 0, 0)) differs("byte %d, changed by %d", at, bit);
            if (!says(check_edid(edid, BLOCK), at < HEADER ? 21 : at < BLOCK ? 22 : 0, 0, 0, 0, 0)) differs("byte %d of a base block", at);
        }
    }
}

/* Every offset in some revisions, over blocks without bytes, which never run past: 23 from 1 to 3 and from 128 on, in any revision. */
static void offsets_by_hand(void) {
    static const uint8_t revisions[] = { 0, 1, 2, 3, 4, 255 };
    uint8_t edid[BOTH];
    for (size_t r = 0; r < sizeof revisions; r++)
        for (int offset = 0; offset < 256; offset++) {
            make_edid("02 03 00 40", edid);
            memset(edid + COLLECTION, 0x40, SUM - FIRST);
            edid[REVISION] = revisions[r], edid[OFFSET] = (uint8_t)offset;
            make_sums(edid, BOTH);
            if ((offset > 0 && offset < FIRST) || offset > LAST) refused_edid("an offset", edid, BOTH, 23);
            else if (!says(check_edid(edid, BOTH), 0, 0, 0, 0, 0)) differs("offset %d in revision %d", offset, revisions[r]);
        }
}

/* Every length of an EDID whose blocks are all good, some with lengths that one byte or two would not tell; and of wishes that all fit. */
static void lengths_by_hand(void) {
    static const size_t more[] = { 384, 512, 65536 + BLOCK, 65536 + BOTH, ROOM - 64 };
    static uint8_t edids[ROOM], wishes[ROOM];
    enum { EVERY_LENGTH = 301, OF_WISHES = 41 };
    for (size_t from = 0; from + BOTH <= sizeof edids; from += BOTH) make_edid(GOOD, edids + from);
    for (size_t k = 0; k < sizeof wishes; k++) wishes[k] = k % 2 ? 0 : 16;
    for (size_t n = 0; n < EVERY_LENGTH + sizeof more / sizeof more[0]; n++) {
        size_t length = n < EVERY_LENGTH ? n : more[n - EVERY_LENGTH];
        if (length != BLOCK && length != BOTH) refused_edid("a length", edids, length, 21);
    }
    for (size_t n = 0; n < OF_WISHES + 4; n++) {
        size_t length = n < OF_WISHES ? n : (const size_t[]){ 256, 258, 65536, 65538 }[n - OF_WISHES];
        struct station_choice c = check_choose(edids, BOTH, silent, sizeof silent, wishes, length);
        if (length % 2 || length > STATION_WISHES ? !chosen(c, 21, 0, 0) : !fits(c, length > 0)) differs("wishes of %zu bytes", length);
        if (!chosen(check_choose(edids, BLOCK, silent, sizeof silent, wishes, length), length % 2 || length > STATION_WISHES ? 21 : 24, 0, 0))
            differs("wishes of %zu bytes, for a base block alone", length);
    }
}

/* So many wishes, and one or two of them fit, at each place: the first of them; and none where the one that fits is behind the last. */
static void places_by_hand(void) {
    uint8_t edid[BOTH], wishes[STATION_WISHES + WISH];
    make_edid(GOOD, edid);
    for (size_t count = 0; count <= SIXTEEN; count++)
        for (size_t one = 0; one <= count; one++)
            for (size_t two = one; two <= count; two++) {
                for (size_t k = 0; k <= SIXTEEN; k++) wishes[WISH * k] = k == one || k == two ? 16 : 4, wishes[WISH * k + 1] = k == two;
                struct station_choice c = check_choose(edid, BOTH, silent, sizeof silent, wishes, WISH * count);
                if (one < count ? !chosen(c, 0, (uint32_t)one, 2) : !chosen(c, 24, 0, 0)) differs("%zu wishes, %zu and %zu fit", count, one, two);
            }
}

/* Every format and bit 7 with it; every number of channels; every rate by itself. */
static void sounds_by_hand(void) {
    uint8_t edid[BOTH];
    make_edid(GOOD, edid);
    for (int first = 0; first < 256; first++)
        for (int rate = 0; rate <= OF_RATES; rate++) {
            uint32_t rates = rate < OF_RATES ? 1u << rate : 0, pcm = first / 8 % 16 == 1, channels = (uint32_t)first % 8 + 1;
            edid[COLLECTION + 3] = (uint8_t)first, edid[COLLECTION + 4] = (uint8_t)(1u << rate);
            make_sums(edid, BOTH);
            if (!says(check_edid(edid, BOTH), 0, V(16), 0, pcm && channels >= 2 ? rates : 0, pcm && channels >= 8 ? rates : 0))
                differs("a descriptor %02x %02x", first, 1 << rate);
            uint8_t request[LONGEST];
            for (int eight = 0; eight < 2 && rate < OF_RATES; eight++) {
                size_t rl = with_sound(rate, eight ? 8 : 2, request);
                int covered = pcm && channels >= (eight ? 8u : 2u);
                if (!fits(check_choose(edid, BOTH, request, rl, (const uint8_t[]){ 16, 0 }, WISH), covered))
                    differs("a descriptor %02x %02x, %d channels", first, 1 << rate, eight ? 8 : 2);
            }
        }
}

/* Requests cut at each place, and with bytes behind: 24, and no byte of what is not lent is looked at. */
static void cuts_by_hand(void) {
    static const struct { const char *bytes; uint32_t at; } whole[] = {
        { SILENT, 2 }, { TODAY RGB("06", "09") STEREO "00", 2 }, { SEPARATE YCBCR("10", "00") "00 00", 6 }, { EMBEDDED RGB("10", "00") STEREO TABLE_39, 14 },
    };
    static uint8_t request[ROOM], wish[WISH] = { 4, 0 };
    uint8_t edid[BOTH];
    make_edid(listed[LOUD].extension, edid);
    for (size_t k = 0; k < sizeof whole / sizeof whole[0]; k++) {
        static const size_t more[] = { 1, 2, 40, 256, 65536 };
        size_t length = from_hex(whole[k].bytes, request);
        for (size_t n = 0; n <= length; n++) {
            struct station_choice c = check_choose(edid, BOTH, request, n, wish, WISH);
            if (n < length ? !chosen(c, 24, 0, 0) : !chosen(c, 0, 0, whole[k].at)) differs("request %zu, %zu bytes of it: %u", k, n, c.refusal);
        }
        memset(request + length, 0, sizeof request - length);
        for (size_t n = 0; n < sizeof more / sizeof more[0]; n++)
            if (!chosen(check_choose(edid, BOTH, request, length + more[n], wish, WISH), 24, 0, 0)) differs("request %zu and %zu bytes", k, more[n]);
    }
}

/* Empty slices, wherever they are said to lie. */
static void empty_slices(void) {
    const uint8_t *const at[] = { NULL, (const uint8_t *)1, (const uint8_t *)UINTPTR_MAX, lend(PART, NULL, 0, ENDS), lend(PART, NULL, 0, BEGINS) };
    static const uint8_t wish[WISH] = { 16, 0 };
    uint8_t edid[BOTH];
    make_edid(GOOD, edid);
    for (size_t k = 0; k < sizeof at / sizeof at[0]; k++) {
        run.now->cases += 4;
        if (!says(run.f->edid(at[k], 0), 21, 0, 0, 0, 0)) differs("an empty EDID, place %zu", k);
        if (!chosen(run.f->choose(at[k], 0, silent, sizeof silent, wish, WISH), 21, 0, 0)) differs("an empty EDID, place %zu", k);
        if (!chosen(run.f->choose(edid, BOTH, at[k], 0, wish, WISH), 24, 0, 0)) differs("an empty request, place %zu", k);
        if (!chosen(run.f->choose(edid, BOTH, silent, sizeof silent, at[k], 0), 24, 0, 0)) differs("no wishes, place %zu", k);
    }
}

/* Slices that cannot be written at all: constants, all bytes of a screen typed. */
static void constants(void) {
    static const uint8_t edid[BOTH] = {
        0x00, 0xFF, 0xFF, 0xFF, 0xFF, 0xFF, 0xFF, 0x00, 0x12, 0x4B, 0x01, 0x00, 0x01, [SUM] = 0xA7,
        [TAG] = 0x02, 0x03, 0x0A, 0x40, 0x41, 0x10, 0x23, 0x09, 0x04, 0x00, [BLOCK + SUM] = 0x30,
    };
    static const uint8_t stereo[] = { 0, 7, 6, 9, 0, 1, 0, 0, 0, 3, 2, 2, 1, 0 }, wishes[] = { 4, 0, 16, 2, 16, 1 };
    run.now->cases += 3;
    if (!says(run.f->edid(edid, BOTH), 0, V(16), 0, 4, 0)) differs("a constant screen");
    if (!chosen(run.f->choose(edid, BOTH, stereo, sizeof stereo, wishes, sizeof wishes), 0, 2, 2)) differs("constant wishes");
    if (!chosen(run.f->choose(edid, BOTH, stereo, sizeof stereo, wishes, 4), 24, 0, 0)) differs("constant wishes, none fits");
}

void screens(void) {
    memset(&met, 0, sizeof met);
    sides = 0;
    by_rows();
    bytes_by_hand();
    offsets_by_hand();
    lengths_by_hand();
    places_by_hand();
    sounds_by_hand();
    cuts_by_hand();
    empty_slices();
    constants();
}

/* Any screens, wishes and requests. ------------------------------------------------------------------------------------------------- */

static uint8_t any_vic(void) { return any(8) ? vics[any(OF_VICS)] : (uint8_t)any(128); }

/* A data block's bytes, as its tag has them or not. */
static void any_block(int tag, uint8_t *bytes, int length) {
    any_bytes(bytes, (size_t)length);
    if (any(16) == 0) return;
    for (int i = 0; i < length; i++) {
        int byte = tag == 1 ? i % 3 : 3;
        if (tag == 2) bytes[i] = (uint8_t)(any_vic() | (any(4) ? 0 : 0x80));
        if (byte == 0 && any(8)) bytes[i] = (uint8_t)(0x08 | (const uint8_t[]){ 1, 7, 7, 7 }[any(4)] | (any(16) ? 0 : 0x80));
        if (byte == 1 && any(2)) bytes[i] |= (uint8_t)(any(2) ? 0x7F : 0x07);
    }
}

/* Blocks up to the offset, short ones and long ones; a few run past it. Those of sound and picture are frequent. */
static void any_collection(uint8_t *extension, int offset) {
    for (int at = FIRST, length; at < offset; at += 1 + length) {
        int tag = any(6) ? 1 + (int)any(2) : (int)any(8), room = offset - at - 1, stays = any(64) != 0;
        length = (int)any(any(3) ? 10 : 32);
        if (length > room && stays) length = room < 32 ? room : 31;
        extension[at] = (uint8_t)(tag << 5 | length);
        any_block(tag, extension + at + 1, at + 1 + length < SUM ? length : SUM - at - 1);
    }
}

/* An EDID whose sums are right, mostly; with two blocks, mostly. Answers its length. */
static size_t any_edid(uint8_t *edid) {
    static const uint8_t edge[] = { 0, 1, 3, 4, 5, 126, 127, 128, 255 };
    static const uint8_t header[HEADER] = { 0, 255, 255, 255, 255, 255, 255, 0 };
    any_bytes(edid, BOTH);
    memcpy(edid, header, HEADER);
    edid[TAG] = 2, edid[REVISION] = (uint8_t)(any(16) ? 3 : any(6));
    int offset = any(16) ? FIRST + (int)any(LAST - FIRST + 1) : edge[any(sizeof edge)];
    edid[OFFSET] = (uint8_t)offset;
    if (any(32)) any_collection(edid + BLOCK, offset > FIRST && offset < LAST ? offset : LAST);
    if (any(32) == 0) edid[any(2) ? any(HEADER) : (uint32_t)TAG + any(3)] = (uint8_t)any(256);
    make_sums(edid, BOTH);
    if (any(48) == 0) edid[any(BOTH)] ^= (uint8_t)(1u << any(8));
    return any(48) ? BOTH : any(4) ? BLOCK : any(BOTH + 1);
}

static size_t any_wishes(uint8_t *wishes) {
    size_t length = any(64) ? WISH * any(SIXTEEN + 1) : any(2 * STATION_WISHES);
    any_bytes(wishes, length);
    for (size_t k = 0; k + 1 < length; k += WISH) {
        if (any(16)) wishes[k] = any_vic();
        if (any(16)) wishes[k + 1] = any(3) == 0;
    }
    return length;
}

/* Of all kinds, and often one that some wish makes accepted. */
static size_t any_asked(uint8_t *request) {
    struct fields f;
    if (any(4) == 0) return any_request(request, LEAST_ROOM);
    any_fields(&f);
    if (any(2)) f.depth = f.repetition = 0;
    if (any(4) == 0) f.vic = (int)any(256);
    return model_bytes(&f, request);
}

/* "The first": by the library's own answers to each wish alone, those before it do not fit, and it does. */
static void first_of_all(const uint8_t *edid, size_t el, const uint8_t *request, size_t rl, const uint8_t *wishes, size_t wl) {
    struct station_choice all = run.f->choose(edid, el, request, rl, wishes, wl);
    if (all.refusal && all.refusal != 24) return;
    size_t count = all.refusal ? wl / WISH : all.place + 1;
    for (size_t k = 0; k < count; k++) {
        struct station_choice alone = run.f->choose(edid, el, request, rl, wishes + WISH * k, WISH);
        int fitting = all.refusal == 0 && k + 1 == count;
        if (alone.refusal != (fitting ? 0u : 24u) || alone.place || alone.at != (fitting ? all.at : 0))
            differs("wish %zu of those up to %u by itself: %u", k, all.place, alone.refusal);
    }
}

static void any_screens(void) {
    for (uint32_t i = times(300000); i > 0; i--) {
        uint8_t edid[BOTH], request[LEAST_ROOM], wishes[2 * STATION_WISHES];
        seed(0x3000000u + i);
        size_t el = any_edid(edid), rl = any_asked(request), wl = any_wishes(wishes);
        check_edid(edid, el);
        check_choose(edid, el, request, rl, wishes, wl);
        if (i % 16 == 0) first_of_all(edid, el, request, rl, wishes, wl);
    }
}

/* The overview agrees with the chooser, by the library's own calls: a wish by itself fits exactly where its bit is set, where that of its sound
 * is, and where N and CTS accept the request with it. */
static void one_agrees(const uint8_t *edid, size_t el, const uint8_t *request, size_t rl, const uint8_t *wish, int covered) {
    const struct station_monitor m = run.f->edid(edid, el);
    uint8_t bytes[LEAST_ROOM];
    int has_bit = wish[0] < 64 && ((wish[0] < 32 ? m.vics_low : m.vics_high) >> wish[0] % 32 & 1);
    struct station_choice c = run.f->choose(edid, el, request, rl, wish, WISH);
    uint32_t accepted = run.f->ncts(bytes, with_wish(request, rl, wish, bytes)).refusal == 0;
    uint32_t number = m.refusal ? m.refusal : has_bit && covered && accepted ? 0 : 24;
    run.now->cases++;
    if (c.refusal != number) differs("VIC %d, family %d: chosen %u, the overview and N and CTS have %u", wish[0], wish[1], c.refusal, number);
}

static void agreement(void) {
    for (uint32_t i = times(1500); i > 0; i--) {
        uint8_t edid[BOTH], request[LEAST_ROOM], wish[WISH];
        seed(0x3100000u + i);
        size_t el = any_edid(edid);
        const struct station_monitor m = run.f->edid(edid, el);
        for (int v = 0; v < OF_VICS; v++)
            for (int family = 0; family < 2; family++) {
                wish[0] = vics[v], wish[1] = (uint8_t)family;
                one_agrees(edid, el, silent, sizeof silent, wish, 1);
                for (int eight = 0; eight < 2; eight++) {
                    int rate = (int)any(OF_RATES);
                    size_t rl = with_sound(rate, eight ? 8 : 2, request);
                    request[rl - 2] = (uint8_t)any(2);
                    one_agrees(edid, el, request, rl, wish, (eight ? m.rates_8 : m.rates_2) >> rate & 1);
                }
            }
    }
}

/* Each byte, each block, each offset. ----------------------------------------------------------------------------------------------- */

/* A request and wishes that some screens of ours take, with sound and without. */
static void any_choice(const uint8_t *edid, size_t el) {
    uint8_t request[LONGEST];
    const uint8_t wishes[] = { any_vic(), 0, vics[any(OF_VICS)], (uint8_t)any(2), 4, 0 };
    size_t rl = with_sound((int)any(OF_RATES), any(2) ? 8 : 2, request);
    if (any(3) == 0) rl = sizeof silent, memcpy(request, silent, rl);
    check_choose(edid, el, request, rl, wishes, sizeof wishes);
}

/* Every byte of our screens set to every value, as it is and with the sums made right. */
static void every_byte(void) {
    uint8_t edid[BOTH], was[BOTH];
    for (int own = 0; own < OWN; own++) {
        size_t el = make_edid(listed[own].extension, was);
        for (size_t at = 0; at < el; at++)
            for (int value = 0; value < 256; value++) {
                if (passed_over(64)) continue;
                memcpy(edid, was, BOTH);
                edid[at] = (uint8_t)value;
                check_edid(edid, el);
                if (value % 8 == 0) any_choice(edid, el);
                make_sums(edid, el);
                check_edid(edid, el);
                any_choice(edid, el);
            }
    }
}

/* A block of every tag and length at every place, which ends at the offset, one byte before it or one behind it; before it blocks without bytes,
 * or one that is as long. */
static void every_block(void) {
    uint8_t edid[BOTH];
    for (int place = FIRST; place < LAST; place++)
        for (int tag = 0; tag < 8; tag++)
            for (int length = 0; length < 32; length++) {
                if (passed_over(64)) continue;
                make_edid("02 03 00 40", edid);
                uint8_t *extension = edid + BLOCK;
                for (int at = FIRST; at < place; at++) extension[at] = (uint8_t)(any(8) << 5);
                int before = place - FIRST - 1;
                if (any(2) && before >= 0 && before < 32) extension[FIRST] |= (uint8_t)before;
                extension[place] = (uint8_t)(tag << 5 | length);
                int room = SUM - place - 1, end = place + 1 + length;
                any_block(tag, extension + place + 1, length < room ? length : room);
                for (int offset = end - 1; offset <= end + 1; offset++) {
                    extension[2] = (uint8_t)offset;
                    make_sums(edid, BOTH);
                    check_edid(edid, BOTH);
                    any_choice(edid, BOTH);
                }
            }
}

/* Every offset in every revision from 0 to 4, over our screens' blocks. */
static void every_offset(void) {
    uint8_t edid[BOTH];
    for (int own = 0; own < OWN; own++)
        for (int revision = 0; revision < 5 && listed[own].extension; revision++)
            for (int offset = 0; offset < 256; offset++) {
                if (passed_over(16)) continue;
                make_edid(listed[own].extension, edid);
                edid[REVISION] = (uint8_t)revision, edid[OFFSET] = (uint8_t)offset;
                make_sums(edid, BOTH);
                check_edid(edid, BOTH);
                any_choice(edid, BOTH);
            }
}

/* Every byte of a request and of a wish set to every value, on a screen that has every mode of ours. */
static void every_request(void) {
    static const char *const requests[] = { TODAY RGB("10", "00") STEREO "00", SEPARATE YCBCR("10", "00") "00 00", EMBEDDED RGB("10", "00") STEREO TABLE_39 };
    uint8_t edid[BOTH], request[LONGEST], was[LONGEST];
    make_edid(listed[LOUD].extension, edid);
    for (size_t k = 0; k < sizeof requests / sizeof requests[0]; k++) {
        size_t rl = from_hex(requests[k], was);
        for (size_t at = 0; at < rl; at++)
            for (int value = 0; value < 256; value++) {
                const uint8_t wishes[] = { 31, 1, any_vic(), (uint8_t)any(2), 32, 0 };
                if (passed_over(32)) continue;
                memcpy(request, was, rl);
                request[at] = (uint8_t)value;
                check_choose(edid, BOTH, request, rl, wishes, sizeof wishes);
            }
        for (int vic = 0; vic < 256; vic++)
            for (int family = 0; family < 256; family++) {
                const uint8_t wishes[] = { (uint8_t)vic, (uint8_t)family };
                if (family > 2 && (vic % 16 || passed_over(16))) continue;
                check_choose(edid, BOTH, was, rl, wishes, sizeof wishes);
            }
    }
}

static void all_met(void) {
    static const char *const calls[2] = { "screens", "choices" };
    static const uint32_t refused[] = { 1, 2, 3, 4, 5, 6, 9, 17, 20 };
    char what[64];
    for (int c = 0; c < 2; c++)
        for (int kind = 0; kind < KINDS_OF; kind++) never_met(met.screens[c][kind], calls[c], kinds_of[kind].what);
    never_met(met.odd, "choices", "refused 21, wishes of an odd length");
    never_met(met.too_many, "choices", "refused 21, more than sixteen wishes");
    never_met(met.no_wish, "choices", "refused 24, no wish");
    never_met(met.none, "choices", "refused 24, and there are wishes");
    for (uint32_t place = 0; place < SIXTEEN; place++) {
        snprintf(what, sizeof what, "place %u", place);
        never_met(met.places[place], "choices", what);
    }
    for (int at = 0; at < AT_MOST; at++) {
        snprintf(what, sizeof what, "a VIC for byte %d", at);
        if (at == 2 || at == 6 || at == 14) never_met(met.at[at], "choices", what);
        else if (met.at[at]) differs("%s", what);
    }
    never_met(met.with_sound, "choices", "sound that is covered");
    for (size_t k = 0; k < sizeof refused / sizeof refused[0]; k++) {
        snprintf(what, sizeof what, "the request with it is refused %u", refused[k]);
        never_met(met.reasons[refused[k]], "wishes", what);
    }
    never_met(met.reasons[NOT_LISTED], "wishes", "not listed");
    never_met(met.reasons[NOT_COVERED], "wishes", "its sound is not covered");
}

void many_screens(void) {
    seed(0x3200000u);
    every_byte();
    every_block();
    every_offset();
    every_request();
    agreement();
    any_screens();
    if (run.share >= 1000) all_met();
}
