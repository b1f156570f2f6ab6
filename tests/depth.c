/* Deep colour and pixel repetition: document 02, request 06. */
#include "check.h"
#include <string.h>

/* By their own numbers, not the model's: the code of a depth in 0x4C[3:0], and PR of a repetition. */
static const int codes[DEPTHS] = { 0x0, 0x5, 0x6 }, repeats[REPETITIONS] = { 0, 1, 3 };

/* Planning's number, on registers of zeros but for the holds. */
static uint32_t planned_as(const struct fields *f, uint8_t holds, size_t image_length, size_t room) {
    uint8_t bytes[LONGEST], image[256] = { [0x4A] = holds }, writes[256] = { 0 };
    size_t length = model_bytes(f, bytes);
    check_plan(bytes, length, image, image_length, writes, room);
    return run.f->plan(bytes, length, image, image_length, writes, room).refusal;
}

static void answers(const struct fields *f, uint32_t refusal, uint32_t n, uint32_t cts) {
    uint8_t bytes[LONGEST];
    size_t length = model_bytes(f, bytes);
    check_ncts(bytes, length);
    struct station_pair p = run.f->ncts(bytes, length);
    uint32_t planned = planned_as(f, 0, 256, 256);
    if (p.refusal != refusal || p.n != n || p.cts != cts || planned != refusal)
        differs("VIC %d, family %d, depth %d, repetition %d: %u, N %u, CTS %u, planning %u", f->vic, f->family, f->depth, f->repetition,
                p.refusal, p.n, p.cts, planned);
}

#define VIDEO(v, of_family, d, r) .vic = v, .family = of_family, .link = 1, .depth = d, .repetition = r
#define COHERENT(of_rate) .sound = 1, .rate = of_rate, .channels = 2, .coherent = 1
static void marked_depths(void) {
    static const struct { struct fields f; uint32_t refusal, n, cts; } cases[] = {
        { { VIDEO(16, 0, 2, 0), COHERENT(2) }, 0, 6144, 222750 },       /* 222.75 MHz, the highest clock below the limit */
        { { VIDEO(4, 0, 2, 1), COHERENT(2) }, 0, 6144, 222750 },        /* the same clock */
        { { VIDEO(16, 1, 2, 0), COHERENT(2) }, 0, 11648, 421875 },
        { { VIDEO(60, 1, 0, 2) }, 17, 0, 0 },                           /* 237.6 MHz / 1.001, the lowest above it */
        { { VIDEO(60, 0, 0, 2) }, 17, 0, 0 },
        { { VIDEO(16, 0, 0, 1) }, 17, 0, 0 },
        { { .vic = 16, .repetition = 1 }, 17, 0, 0 },                   /* DVI too */
        { { VIDEO(16, 1, 2, 2) }, 17, 0, 0 },                           /* the highest of all in family 1, and in family 0 */
        { { VIDEO(31, 0, 2, 2) }, 17, 0, 0 },
        { { VIDEO(60, 0, 1, 0), COHERENT(1) }, 0, 6272, 82500 },        /* 74.25 MHz, and its row */
        { { VIDEO(60, 1, 1, 0), COHERENT(1) }, 0, 17836, 234375 },      /* 74.25 MHz / 1.001, and its row */
        { { VIDEO(60, 1, 1, 0), COHERENT(0) }, 9, 0, 0 },               /* which is not exact at 32 kHz; with 24 bits there is a pair */
        { { VIDEO(60, 0, 1, 1), COHERENT(1) }, 0, 6272, 165000 },       /* 148.5 MHz, and its row */
        { { VIDEO(17, 0, 0, 1), COHERENT(1) }, 0, 6272, 60000 },        /* 54 MHz, and its row */
        { { VIDEO(2, 1, 0, 1), COHERENT(1) }, 0, 6272, 60000 },
        { { VIDEO(2, 0, 0, 1), COHERENT(1) }, 0, 6272, 60060 },         /* 54 MHz * 1.001, and its row */
        { { VIDEO(4, 1, 0, 0), COHERENT(0) }, 9, 0, 0 },
        { { VIDEO(4, 1, 0, 1), COHERENT(0) }, 0, 11648, 421875 },       /* twice: 148.5 MHz / 1.001, whose row is exact */
        { { VIDEO(2, 0, 2, 0), COHERENT(1) }, 0, 5376, 38610 },         /* no row: the exact pair that is nearest */
        { { VIDEO(1, 0, 2, 2), COHERENT(1) }, 0, 5642, 151125 },
        { { VIDEO(1, 1, 1, 0), COHERENT(2) }, 0, 9152, 46875 },
        { { VIDEO(17, 0, 1, 1), COHERENT(1) }, 0, 5488, 65625 },
        { { VIDEO(2, 0, 1, 0), COHERENT(0) }, 9, 0, 0 },                /* none in family 0 */
        { { VIDEO(2, 1, 1, 0), COHERENT(0) }, 0, 4096, 33750 },         /* one in family 1 */
        { { VIDEO(16, 0, 2, 0), .sound = 1, .rate = 3, .channels = 8 }, 0, 12544, 0 },  /* not coherent: the row Other */
        { { VIDEO(16, 0, 2, 0) }, 0, 6144, 0 },
        { { .vic = 1, .repetition = 2 }, 0, 6144, 0 },                  /* repetition over DVI */
        { { .vic = 1, .depth = 1 }, 6, 0, 0 },                          /* depth over DVI */
        { { .vic = 16, .depth = 2, .repetition = 1 }, 6, 0, 0 },        /* 6 before 17 */
        { { .vic = 16, .depth = 3, .repetition = 1 }, 5, 0, 0 },        /* 5 before 6 and 17 */
        { { VIDEO(16, 0, 0, 3) }, 5, 0, 0 },
        { { VIDEO(16, 0, 0, 1), .range = 2 }, 5, 0, 0 },                /* 5 of another field before 17 */
        { { VIDEO(19, 1, 2, 2) }, 4, 0, 0 },                            /* 4 before 17 */
        { { VIDEO(4, 1, 1, 2), COHERENT(0) }, 17, 0, 0 },               /* 17 before 9 */
        { { VIDEO(1, 0, 1, 0), .encoding = 1, .matrix = 1 }, 6, 0, 0 }, /* 4:2:2 */
        { { VIDEO(1, 0, 2, 2), .encoding = 1, .matrix = 1 }, 6, 0, 0 },
        { { VIDEO(1, 0, 0, 2), .encoding = 1, .matrix = 1 }, 0, 6144, 0 },
        { { VIDEO(1, 0, 2, 2), .encoding = 2, .matrix = 1 }, 0, 6144, 0 },      /* 4:4:4 */
    };
    static const uint8_t holds[] = { 0x00, 0x10, 0x60, 0x70 };
    for (size_t i = 0; i < sizeof cases / sizeof cases[0]; i++) answers(&cases[i].f, cases[i].refusal, cases[i].n, cases[i].cts);
    static const int without[] = { 4, 5, 32, 34, 62 };                  /* 30 and 36 bits, family 1: no exact pair at any rate */
    for (int rate = 0; rate < RATES; rate++)
        for (size_t v = 0; v < sizeof without / sizeof without[0]; v++)
            for (int depth = 1; depth < DEPTHS; depth++)
                answers(&(struct fields){ VIDEO(without[v], 1, depth, 0), COHERENT(rate) }, 9, 0, 0);
    for (size_t h = 0; h < sizeof holds; h++)                           /* 17 before 7, 8, 9 and 10, and each of these after it */
        for (size_t less = 0; less < 4; less++) {
            static const struct fields above = { VIDEO(4, 1, 1, 2), COHERENT(0) }, none = { VIDEO(4, 1, 1, 0), COHERENT(0) };
            uint32_t got = planned_as(&above, holds[h], 256 - less % 2, 256 - less / 2);
            uint32_t other = planned_as(&none, holds[h], 256 - less % 2, 256 - less / 2);
            if (got != 17) differs("a clock above the limit, holds %02x: %u", holds[h], got);
            if (other != (less % 2 ? 7u : holds[h] ? 8u : 9u)) differs("no exact pair, holds %02x: %u", holds[h], other);
        }
}

/* What a list leaves: both numbers of 0x3B, the code beside the image's read-only bits, PR beside nothing. */
static void in_the_list(const struct fields *f) {
    uint8_t bytes[LONGEST], image[256], writes[256] = { 0 };
    size_t length = model_bytes(f, bytes);
    any_bytes(image, 256);
    image[0x4A] &= 0x8F;
    check_plan(bytes, length, image, 256, writes, 256);
    struct station_count c = run.f->plan(bytes, length, image, 256, writes, 256);
    int repetition = left_in(0x3B, image, writes, c), code = left_in(0x4C, image, writes, c), pr = left_in(0x59, image, writes, c);
    int sum = 0x82;
    for (uint8_t a = 0x52; a <= 0x61; a++) sum += left_in(a, image, writes, c) & (a == 0x52 ? 0x07 : a == 0x53 ? 0x1F : 0xFF);
    if (repetition != (0xC0 | f->repetition << 3 | f->repetition << 1)) differs("repetition %d: 0x3B is %02x", f->repetition, repetition);
    if (code != ((image[0x4C] & 0xF0) | codes[f->depth])) differs("depth %d over %02x: 0x4C is %02x", f->depth, image[0x4C], code);
    if (pr != repeats[f->repetition]) differs("repetition %d: 0x59 is %02x", f->repetition, pr);
    if (sum % 256) differs("repetition %d: the AVI packet's sum is %02x", f->repetition, sum % 256);
}

/* The image that a request would end in, whether it is accepted or not, is decoded as this request and as nothing else; or, where its own
 * rules refuse it in each family, as none. */
static void decoded_as(const struct fields *f, int accepted) {
    uint8_t image[256], back[LONGEST] = { 0 };
    any_bytes(image, 256);
    finish(image, f);
    image[0x4A] &= 0x8F;
    check_decode(image, 256, back, sizeof back);
    uint32_t refusal = run.f->decode(image, 256, back, sizeof back).refusal;
    if (accepted && !reads_back(image, f))
        differs("VIC %d, family %d, depth %d, repetition %d is decoded as %u", f->vic, f->family, f->depth, f->repetition, refusal);
    if (!accepted && refusal != 11)
        differs("VIC %d, depth %d, repetition %d, refused, is decoded as %u", f->vic, f->depth, f->repetition, refusal);
}

/* Every mode, family, depth, repetition and rate, coherent or not. */
static void every_clock(void) {
    uint8_t bytes[LONGEST], image[256], writes[256] = { 0 };
    struct fields f = { .link = 1, .sound = 1, .channels = 2 };
    for (int v = 0; v < VICS; v++)
        for (f.family = 0; f.family < 2; f.family++)
            for (f.depth = 0; f.depth < DEPTHS; f.depth++)
                for (f.repetition = 0; f.repetition < REPETITIONS; f.repetition++)
                    for (f.rate = 0; f.rate < RATES; f.rate++)
                        for (f.coherent = 0; f.coherent < 2; f.coherent++) {
                            f.vic = model_vics[v];
                            size_t length = model_bytes(&f, bytes);
                            any_bytes(image, 256);
                            check_ncts(bytes, length);
                            check_plan(bytes, length, image, 256, writes, 256);
                            if (!model_offers(f.vic, f.family) || !model_pair(&f).exists) continue;
                            int above = run.f->ncts(bytes, length).refusal == 17;
                            decoded_as(&f, !above);
                            if (!above) in_the_list(&f);
                        }
}

static const struct { int encoding, link; } kinds_of_picture[] = { { 0, 0 }, { 0, 1 }, { 1, 1 }, { 2, 1 } };
enum { KINDS_OF_PICTURE = sizeof kinds_of_picture / sizeof kinds_of_picture[0] };

/* Every value of the byte, with each kind of picture, with sound and without, with a matrix and without; where 5 does not apply by it, the
 * pictures that 6 lets pass, and what they leave, decode. A share of the values is enough for the wrong libraries. */
static void every_byte(void) {
    static const int vics[] = { 1, 4, 16, 60 };
    uint8_t bytes[LONGEST], image[256] = { 0 }, writes[256] = { 0 };
    for (int value = 0; value < 256; value++) {
        int high = value >> 4, low = value & 15, outside = high > 2 || low > 2;
        if (run.share < 1000 && high > 4 && low > 4 && any(8)) continue;
        for (int k = 0; k < 4 * KINDS_OF_PICTURE; k++)
            for (size_t v = 0; v < sizeof vics / sizeof vics[0]; v++) {
                struct fields f = { .vic = vics[v], .encoding = kinds_of_picture[k / 4].encoding, .link = kinds_of_picture[k / 4].link,
                                    .depth = low, .repetition = high, .sound = k & 1, .channels = 2, .matrix = k >> 1 & 1 };
                size_t length = model_bytes(&f, bytes);
                check_ncts(bytes, length);
                check_plan(bytes, length, image, 256, writes, 256);
                uint32_t refusal = run.f->ncts(bytes, length).refusal;
                if ((refusal == 5) != outside) differs("a depth byte of %02x: %u", value, refusal);
                if (outside || (f.sound && !f.link) || (f.encoding && !f.matrix)) continue;
                int six = low && (f.encoding == 1 || !f.link);
                if ((refusal == 6) != six) differs("depth %d, encoding %d, link %d: %u", low, f.encoding, f.link, refusal);
                decoded_as(&f, refusal == 0);
            }
    }
}

/* A finished image with any code in 0x4C[3:0], any numbers in 0x3B[4:1] and any PR, the checksum as it was and made right. A silent
 * request has each of them free: it decodes exactly where the code is one of the three, the three numbers say the same repetition, and the
 * request so read is accepted. */
static void every_place(const struct fields *f, const uint8_t *finished) {
    uint8_t image[256], buffer[LONGEST] = { 0 };
    for (int numbers = 0; numbers < 16 * 16 * 16; numbers++) {
        int code = numbers & 15, clock = numbers >> 4 & 3, told = numbers >> 6 & 3, pr = numbers >> 8, depth = 0, repetition = 0;
        if (run.share < 1000 && pr > 4 && any(16)) continue;
        while (depth < DEPTHS && codes[depth] != code) depth++;
        while (repetition < REPETITIONS && repeats[repetition] != pr) repetition++;
        for (int right = 0; right < 2; right++) {
            struct fields back = *f;
            memcpy(image, finished, 256);
            image[0x4C] = (uint8_t)((any(256) & 0xF0) | (unsigned)code);
            image[0x3B] = (uint8_t)(0xC0 | clock << 3 | told << 1);
            image[0x59] = (uint8_t)pr;
            if (right) image[0x54] = (uint8_t)(finished[0x54] + finished[0x59] - pr);
            back.depth = depth, back.repetition = repetition;
            int agree = depth < DEPTHS && repetition < REPETITIONS && clock == repetition && told == repetition;
            int taken = agree && (right || pr == finished[0x59]) && planned_as(&back, 0, 256, 256) == 0;
            check_decode(image, 256, buffer, sizeof buffer);
            struct station_count d = run.f->decode(image, 256, buffer, sizeof buffer);
            if (d.refusal != (taken ? 0u : 11u)) differs("code %x, 0x3B[4:1] %d and %d, PR %d: %u", code, clock, told, pr, d.refusal);
            else if (taken && !reads_back(image, &back)) differs("code %x, PR %d: another request", code, pr);
        }
    }
}

static void places(void) {
    static const int vics[] = { 1, 16, 60 };
    for (size_t v = 0; v < sizeof vics / sizeof vics[0]; v++)
        for (int k = 0; k < KINDS_OF_PICTURE; k++) {
            uint8_t image[256];
            struct fields f = { .vic = vics[v], .encoding = kinds_of_picture[k].encoding, .link = kinds_of_picture[k].link };
            f.matrix = f.encoding != 0;
            any_bytes(image, 256);
            finish(image, &f);
            image[0x4A] &= 0x8F;
            every_place(&f, image);
        }
}

/* The class of 0x4C; and the machine: its lower half alone is written, and the GC hold copies 0x4B alone. */
static void written_depth(void) {
    struct station_masks k = run.f->class_of(0x4C);
    struct chip start, c;
    run.now->cases++;
    if (k.read_only != 0xF0 || k.named != 0x0F || k.mandated || k.free_bits || k.value) differs("the class of 0x4C");
    any_start(&start);
    start.image[0x4A] &= 0x8F;
    for (int value = 0; value < 256; value++) {
        const uint8_t pairs[] = { 0x4C, (uint8_t)value, 0x4A, (uint8_t)(start.image[0x4A] | 0x10) };
        struct slices s = slices_of(&start);
        start.image[0x4C] = (uint8_t)any(256);
        c = start;
        check_write(&s, 0x4C, (uint8_t)value);
        int went = sent_to(&c, pairs, 0, 1);
        if (!went || c.image[0x4C] != ((start.image[0x4C] & 0xF0) | (value & 0x0F)))
            differs("%02x written over %02x leaves %02x", value, start.image[0x4C], c.image[0x4C]);
        went = sent_to(&c, pairs, 1, 2);
        if (!went || c.packet[0] != c.image[0x4B] || memcmp(c.packet + 1, start.packet + 1, PACKET_BYTES - 1))
            differs("the GC hold copies more or less than 0x4B");
    }
}

/* A vendor may change the depth by one pair between mute and opening, where nothing else hangs on it; read-only bits are not looked at. */
static void vendors_depth(void) {
    for (int depth = 0; depth < DEPTHS; depth++)
        for (int value = 0; value < 256; value++) {
            struct fields f = { VIDEO(16, 0, depth, 0) };
            struct chip c = { .mark = 0 };
            finish(c.image, &f);
            c.image[0x4C] |= 0xA0;
            const uint8_t list[] = { 0x4B, 0x40, 0x4C, (uint8_t)value, 0x4B, 0x80 };
            struct station_verdict v = run.f->vet(c.image, 256, c.packet, PACKET_BYTES, c.coefficients, COEFFICIENT_BYTES, c.mark, list,
                                                  sizeof list);
            int low = value & 15, taken = low == codes[0] || low == codes[1] || low == codes[2];
            run.now->cases++;
            if (v.refusal != (taken ? 0u : 16u) || v.place) differs("0x4C = %02x in a list: %u", value, v.refusal);
        }
}

void depths(void) {
    seed(0x1A00000u);
    marked_depths();
    written_depth();
    vendors_depth();
    places();
    every_byte();
    every_clock();
}
