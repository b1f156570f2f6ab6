/* Sound that fits: document 02, request 10. */
#include "check.h"
#include <string.h>

/* The highest rate of eight channels that is accepted, in Hz, by repetition; ABOVE, a clock above the limit, is 17 whatever the sound. Two
 * channels fit at every rate. Bare numbers, not the model's. */
enum { ABOVE = 0 };
static const uint32_t hertz[RATES] = { 32000, 44100, 48000, 88200, 96000, 176400, 192000 };
static const struct { int vic; uint32_t highest[REPETITIONS]; } modes[VICS] = {
    { 1, { 48000, 192000, 192000 } },   { 2, { 48000, 176400, 192000 } },   { 3, { 48000, 176400, 192000 } },
    { 4, { 192000, 192000, ABOVE } },   { 5, { 192000, 192000, ABOVE } },   { 16, { 192000, ABOVE, ABOVE } },
    { 17, { 48000, 176400, 192000 } },  { 18, { 48000, 176400, 192000 } },  { 19, { 192000, 192000, ABOVE } },
    { 20, { 192000, 192000, ABOVE } },  { 31, { 192000, ABOVE, ABOVE } },   { 32, { 192000, 192000, ABOVE } },
    { 34, { 192000, 192000, ABOVE } },  { 60, { 192000, 192000, ABOVE } },  { 62, { 192000, 192000, ABOVE } },
};

/* The model's own account. ---------------------------------------------------------------------------------------------------------- */

/* Rows that HDMI 1.4 prints, with the highest rate of eight channels, as they are remembered. Those of 240 and 288 lines have the fewest
 * that CEA-861 lets them have. */
static const struct { const char *what; struct timing t; int repetition; uint64_t highest; } printed[] = {
    { "640x480p, 60 Hz", { 800, 640, 525, 60, 1 }, 0, 48000 },          { "1440x480i, 60 Hz", { 858, 720, 525, 60, 2 }, 1, 88200 },
    { "2880x480i, 60 Hz", { 858, 720, 525, 60, 2 }, 2, 192000 },        { "1440x240p, 60 Hz", { 858, 720, 262, 60, 1 }, 1, 88200 },
    { "2880x240p, 60 Hz", { 858, 720, 262, 60, 1 }, 2, 192000 },        { "720x480p, 60 Hz", { 858, 720, 525, 60, 1 }, 0, 48000 },
    { "1440x480p, 60 Hz", { 858, 720, 525, 60, 1 }, 1, 176400 },        { "2880x480p, 60 Hz", { 858, 720, 525, 60, 1 }, 2, 192000 },
    { "1280x720p, 60 Hz", { 1650, 1280, 750, 60, 1 }, 0, 192000 },      { "1920x1080i, 60 Hz", { 2200, 1920, 1125, 60, 2 }, 0, 192000 },
    { "1920x1080p, 60 Hz", { 2200, 1920, 1125, 60, 1 }, 0, 192000 },    { "1440x576i, 50 Hz", { 864, 720, 625, 50, 2 }, 1, 88200 },
    { "2880x576i, 50 Hz", { 864, 720, 625, 50, 2 }, 2, 192000 },        { "1440x288p, 50 Hz", { 864, 720, 312, 50, 1 }, 1, 88200 },
    { "2880x288p, 50 Hz", { 864, 720, 312, 50, 1 }, 2, 192000 },        { "720x576p, 50 Hz", { 864, 720, 625, 50, 1 }, 0, 48000 },
    { "1440x576p, 50 Hz", { 864, 720, 625, 50, 1 }, 1, 176400 },        { "2880x576p, 50 Hz", { 864, 720, 625, 50, 1 }, 2, 192000 },
    { "1280x720p, 50 Hz", { 1980, 1280, 750, 50, 1 }, 0, 192000 },      { "1920x1080i, 50 Hz", { 2640, 1920, 1125, 50, 2 }, 0, 192000 },
    { "1920x1080p, 50 Hz", { 2640, 1920, 1125, 50, 1 }, 0, 192000 },    { "1920x1080p, 24 Hz", { 2750, 1920, 1125, 24, 1 }, 0, 192000 },
    { "1920x1080p, 25 Hz", { 2640, 1920, 1125, 25, 1 }, 0, 192000 },    { "1920x1080p, 30 Hz", { 2200, 1920, 1125, 30, 1 }, 0, 192000 },
};

/* Each timing makes its clock, and the rule gives back the rows. */
static void timings(void) {
    for (int v = 0; v < VICS; v++) {
        struct timing t = model_timing(model_vics[v]);
        run.now->cases++;
        if (t.total * t.lines * t.vertical != model_hertz(model_vics[v]) * t.fields) differs("the model's timing of VIC %d", model_vics[v]);
    }
    for (size_t k = 0; k < sizeof printed / sizeof printed[0]; k++)
        for (int rate = 0; rate < RATES; rate++) {
            run.now->cases++;
            if (model_fits(printed[k].t, printed[k].repetition, hertz[rate], 8) != (hertz[rate] <= printed[k].highest) ||
                !model_fits(printed[k].t, printed[k].repetition, hertz[rate], 2))
                differs("the model's rule at %s, %u Hz", printed[k].what, hertz[rate]);
        }
}

/* Every call. ----------------------------------------------------------------------------------------------------------------------- */

/* Planning and N and CTS: this number, with nothing beside a refusal. */
static void planned_as(const uint8_t *bytes, size_t length, const uint8_t *image, size_t image_length, size_t room, uint32_t number) {
    uint8_t before[256], writes[256];
    any_bytes(before, sizeof before);
    memcpy(writes, before, sizeof writes);
    check_plan(bytes, length, image, image_length, before, room);
    struct station_count c = run.f->plan(bytes, length, image, image_length, writes, room);
    if (c.refusal != number) differs("VIC %d, depth byte %02x: planning %u, not %u", bytes[2], bytes[7], c.refusal, number);
    else if (number && (c.count || memcmp(writes, before, sizeof writes))) differs("planning: something beside %u", number);
}

static void counted_as(const uint8_t *bytes, size_t length, uint32_t number) {
    check_ncts(bytes, length);
    struct station_pair p = run.f->ncts(bytes, length);
    if (p.refusal != number) differs("VIC %d, depth byte %02x: N and CTS %u, not %u", bytes[2], bytes[7], p.refusal, number);
    else if (number && (p.n || p.cts)) differs("N and CTS: something beside %u", number);
}

/* A pipe says it at its end, and not before: 20 may still become 3. Its answer's byte alone changes. */
static void piped_as(const uint8_t *bytes, size_t length, uint32_t number) {
    uint8_t pipe[PIPE_BYTES] = { 0 }, right[PIPE_BYTES] = { 0 };
    check_take(pipe, sizeof pipe, bytes, length, right);
    check_end(right, sizeof right, right);
    struct station_piped taken = run.f->pipe_take(pipe, sizeof pipe, bytes, length);
    memcpy(right, pipe, sizeof pipe);
    struct station_piped p = run.f->pipe_end(pipe, sizeof pipe);
    right[ANSWER_AT] = (uint8_t)(number ? number : PIPE_ACCEPTED);
    if (taken.answered || taken.refusal) differs("a whole request as a part: %u", taken.refusal);
    if (p.answered != 1 || p.refusal != number || p.count != (number ? 0 : length)) differs("the end of a pipe: %u, not %u", p.refusal, number);
    if (memcmp(pipe, right, sizeof pipe) || pipe[COUNT_AT] != length || memcmp(pipe, bytes, length)) differs("a pipe after %u", number);
}

/* The image that a request would end in, whether it is accepted or not; and a list that ends there, from the same picture without sound. */
static void ended_as(const struct fields *f, int accepted) {
    struct fields silent = *f;
    struct pairs l;
    struct chip c;
    uint8_t back[LONGEST] = { 0 };
    silent.sound = silent.rate = silent.channels = silent.coherent = 0;
    finished_state(&c, &silent);
    our_list(&c, f, &l);
    run.now->cases++;
    struct station_verdict v =
        run.f->vet(c.image, 256, c.packet, PACKET_BYTES, c.coefficients, COEFFICIENT_BYTES, c.mark, l.bytes, l.length);
    if (v.refusal != (accepted ? 0u : 16u) || v.place) differs("VIC %d, a list that ends in its sound: %u", f->vic, v.refusal);
    finish(c.image, f);
    check_decode(c.image, 256, back, sizeof back);
    uint32_t refusal = run.f->decode(c.image, 256, back, sizeof back).refusal;
    if (accepted ? !reads_back(c.image, f) : refusal != 11)
        differs("VIC %d, repetition %d, rate %d, %d channels: decoded as %u", f->vic, f->repetition, f->rate, f->channels, refusal);
}

/* By the table above; 9 is left to what the model says of pairs. */
static uint32_t number_of(const struct fields *f, uint32_t highest) {
    if (!model_offers(f->vic, f->family)) return 4;
    if (highest == ABOVE) return 17;
    if (f->channels == 8 && hertz[f->rate] > highest) return 20;
    return model_pair(f).exists ? 0 : 9;
}

static void one_sound(const struct fields *f, uint32_t number) {
    uint8_t bytes[LONGEST], image[256];
    size_t length = model_bytes(f, bytes);
    any_bytes(image, sizeof image);
    image[0x4A] &= 0x8F;
    planned_as(bytes, length, image, 256, 256, number);
    counted_as(bytes, length, number);
    piped_as(bytes, length, number);
    if (number == 0 || number == 20) ended_as(f, number == 0);
    if (number == 20 && !model_pair(f).exists) differs("VIC %d, rate %d: a request that meets 9 and 20", f->vic, f->rate);
}

/* "More channels or a higher rate in the same mode never lifts this refusal", by the library's own numbers; and two channels never meet it. */
static void never_lifted(const struct fields *f, uint32_t got[2][RATES]) {
    for (int rate = 0; rate < RATES; rate++) {
        if (got[0][rate] == 20) differs("VIC %d, rate %d: two channels do not fit", f->vic, rate);
        for (int higher = rate; higher < RATES; higher++)
            for (int few = 0; few < 2; few++)
                for (int more = few; more < 2; more++)
                    if (got[few][rate] == 20 && got[more][higher] != 20) differs("VIC %d: %u where less is 20", f->vic, got[more][higher]);
    }
}

/* Any picture that 6 lets pass: it does not count. */
static void any_picture(struct fields *f) {
    f->encoding = f->depth ? 2 * (int)any(2) : (int)any(3);
    f->range = f->encoding == 0 && any(2);
    f->edition = (int)any(2), f->content = f->edition ? (int)any(4) : 0;
    f->matrix = f->encoding != 0 || any(2);
}

/* Every mode, family, depth and repetition, sound coherent or not: each number of channels at each rate. */
static void every_sound(void) {
    struct fields f = { .link = 1, .sound = 1 };
    uint8_t bytes[LONGEST];
    uint32_t got[2][RATES];
    for (int v = 0; v < VICS; v++)
        for (f.family = 0; f.family < 2; f.family++)
            for (f.depth = 0; f.depth < DEPTHS; f.depth++)
                for (f.repetition = 0; f.repetition < REPETITIONS; f.repetition++)
                    for (f.coherent = 0; f.coherent < 2; f.coherent++) {
                        f.vic = modes[v].vic;
                        for (int k = 0; k < 2 * RATES; k++) {
                            f.channels = k < RATES ? 2 : 8, f.rate = k % RATES;
                            any_picture(&f);
                            one_sound(&f, number_of(&f, modes[v].highest[f.repetition]));
                            got[k / RATES][f.rate] = run.f->ncts(bytes, model_bytes(&f, bytes)).refusal;
                        }
                        never_lifted(&f, got);
                    }
}

/* By hand. -------------------------------------------------------------------------------------------------------------------------- */

/* Eight channels at 192 kHz over 480p, not coherent, and what is changed of it: 20 loses to each of 1 to 6. */
static const uint8_t too_much[] = { 0, 7, 2, 0, 0, 1, 0, 0x00, 0x00, 3, 6, 8, 0, 0 };
enum { WHOLE = sizeof too_much, NOWHERE = 1 };
static const struct { uint8_t at, byte, length; uint32_t number; } changes[] = {
    { NOWHERE, 7, WHOLE, 20 },  { 2, 1, WHOLE, 20 },    { 2, 18, WHOLE, 20 },   { 3, 1, WHOLE, 20 },        /* VGA, 576p, family 1 */
    { 7, 0x01, WHOLE, 20 },     { 7, 0x02, WHOLE, 20 }, { 7, 0x10, WHOLE, 20 }, { 7, 0x12, WHOLE, 20 },     /* deeper; each pixel twice */
    { 7, 0x20, WHOLE, 0 },      { 7, 0x22, WHOLE, 0 },                                                      /* four times */
    { 10, 3, WHOLE, 20 },        { 10, 2, WHOLE, 0 },     { 11, 2, WHOLE, 0 },    { 12, 1, WHOLE, 20 },       /* 88.2, 48 kHz; two; coherent */
    { 2, 5, WHOLE, 0 },         { 2, 20, WHOLE, 0 },    { 2, 16, WHOLE, 0 },    { 2, 60, WHOLE, 0 },        /* 1080i, 1080p, 720p at 24 Hz */
    { 6, 1, WHOLE, 20 },        { 8, 0x01, WHOLE, 20 },                                                     /* full range; edition E */
    { NOWHERE, 7, WHOLE - 1, 1 },   { NOWHERE, 7, WHOLE - 2, 1 },
    { NOWHERE, 6, WHOLE, 2 },       { 9, 2, WHOLE, 2 },         { 13, 24, WHOLE, 2 },
    { 0, 7, WHOLE, 2 },             { 0, 3, WHOLE, 2 },
    { NOWHERE, 7, WHOLE + 1, 3 },
    { 2, 6, WHOLE, 4 },             { 3, 2, WHOLE, 4 },
    { 4, 3, WHOLE, 5 },             { 5, 2, WHOLE, 5 },         { 6, 2, WHOLE, 5 },         { 7, 0x03, WHOLE, 5 },
    { 7, 0x30, WHOLE, 5 },          { 8, 0x02, WHOLE, 5 },      { 10, 7, WHOLE, 5 },         { 11, 9, WHOLE, 5 },    { 12, 2, WHOLE, 5 },
    { 4, 1, WHOLE, 6 },             { 4, 2, WHOLE, 6 },         { 5, 0, WHOLE, 6 },         { 8, 0x04, WHOLE, 6 },  { 8, 0x10, WHOLE, 6 },
};

/* The requests of the table, and 20 before 7, 8 and 10, on registers with and without holds. No request meets 17 and 20, nor 9 and 20: what
 * comes first of these is stated, and shows in nothing. */
static void ordered(void) {
    static const uint8_t holds[] = { 0x00, 0x10, 0x60, 0x70 };
    static const size_t lengths[] = { 0, 255, 256, 257 }, rooms[] = { 0, 255, 256 };
    for (size_t k = 0; k < sizeof changes / sizeof changes[0]; k++) {
        uint8_t bytes[WHOLE + 1] = { 0 }, image[256] = { 0 };
        memcpy(bytes, too_much, WHOLE);
        bytes[changes[k].at] = changes[k].byte;
        counted_as(bytes, changes[k].length, changes[k].number);
        planned_as(bytes, changes[k].length, image, 256, 256, changes[k].number);
        if (changes[k].number != 2 && changes[k].number != 3) piped_as(bytes, changes[k].length, changes[k].number);
    }
    for (size_t h = 0; h < sizeof holds; h++)
        for (size_t l = 0; l < sizeof lengths / sizeof lengths[0]; l++)
            for (size_t r = 0; r < sizeof rooms / sizeof rooms[0]; r++) {
                uint8_t image[257] = { [0x4A] = holds[h] }, fits[WHOLE];
                memcpy(fits, too_much, WHOLE);
                fits[11] = 2;
                planned_as(too_much, WHOLE, image, lengths[l], rooms[r], 20);
                planned_as(fits, WHOLE, image, lengths[l], rooms[r], lengths[l] != 256 ? 7 : holds[h] ? 8 : rooms[r] < 256 ? 10 : 0);
            }
}

/* Lists that change the sound, or what it must fit into, on an image that a request has finished over zeros. Where the end does not fit, the
 * list is refused 16 and its image decoded as 11; the same list on another request ends well. */
#define ASKED(v, r, of_rate, of_channels) { .vic = v, .link = 1, .repetition = r, .sound = 1, .rate = of_rate, .channels = of_channels }
#define MUTED 0x4B, 0x40
#define OPEN 0x4B, 0x80
#define TO_88_2 { 8, { MUTED, 0x02, 0x31, 0x15, 0x80, OPEN } }
#define TO_48 { 8, { MUTED, 0x02, 0x18, 0x15, 0x20, OPEN } }
#define TO_192 { 8, { MUTED, 0x02, 0x60, 0x15, 0xE0, OPEN } }
#define TO_EIGHT { 16, { MUTED, 0x4A, 0xA0, 0x72, 0x57, 0x73, 0x07, 0x76, 0x13, 0x4A, 0x80, 0x0C, 0x3C, OPEN } }
#define TO_VIC_3 { 14, { MUTED, 0x4A, 0xC0, 0x54, 0x30, 0x58, 0x03, 0x4A, 0x80, 0x3C, 0x03, OPEN } }
#define TO_ONCE { 14, { MUTED, 0x4A, 0xC0, 0x54, 0x41, 0x59, 0x00, 0x4A, 0x80, 0x3B, 0xC0, OPEN } }
#define NOTHING { 0, { 0 } }
static const struct { struct fields from; struct { size_t length; uint8_t bytes[16]; } list; int fits; const char *what; } lists[] = {
    { ASKED(2, 0, 2, 8), NOTHING, 1, "480p, 48 kHz" },
    { ASKED(2, 0, 3, 8), NOTHING, 0, "480p, 88.2 kHz" },
    { ASKED(2, 0, 2, 8), TO_88_2, 0, "480p, to 88.2 kHz" },
    { ASKED(18, 0, 2, 8), TO_88_2, 0, "576p, to 88.2 kHz" },
    { ASKED(1, 0, 2, 8), TO_88_2, 0, "VGA, to 88.2 kHz" },
    { ASKED(2, 0, 2, 2), TO_88_2, 1, "480p, two channels, to 88.2 kHz" },
    { ASKED(2, 1, 2, 8), TO_88_2, 1, "480p, twice, to 88.2 kHz" },
    { ASKED(16, 0, 2, 8), TO_88_2, 1, "1080p, to 88.2 kHz" },
    { ASKED(2, 0, 6, 8), TO_48, 1, "480p, from 192 kHz to 48" },
    { ASKED(2, 0, 6, 8), TO_88_2, 0, "480p, from 192 kHz to 88.2" },
    { ASKED(2, 1, 5, 8), TO_192, 0, "480p, twice, to 192 kHz" },
    { ASKED(2, 2, 5, 8), TO_192, 1, "480p, four times, to 192 kHz" },
    { ASKED(5, 0, 5, 8), TO_192, 1, "1080i, to 192 kHz" },
    { ASKED(2, 0, 2, 2), TO_EIGHT, 1, "480p, 48 kHz, to eight channels" },
    { ASKED(2, 0, 3, 2), TO_EIGHT, 0, "480p, 88.2 kHz, to eight channels" },
    { ASKED(16, 0, 3, 2), TO_EIGHT, 1, "1080p, 88.2 kHz, to eight channels" },
    { ASKED(16, 0, 6, 8), TO_VIC_3, 0, "192 kHz, from 1080p to 480p" },
    { ASKED(16, 0, 2, 8), TO_VIC_3, 1, "48 kHz, from 1080p to 480p" },
    { ASKED(16, 0, 6, 2), TO_VIC_3, 1, "192 kHz, two channels, from 1080p to 480p" },
    { ASKED(2, 1, 5, 8), TO_ONCE, 0, "480p, 176.4 kHz, from twice to once" },
    { ASKED(2, 1, 2, 8), TO_ONCE, 1, "480p, 48 kHz, from twice to once" },
};

static void changed_sounds(void) {
    for (size_t k = 0; k < sizeof lists / sizeof lists[0]; k++) {
        const uint8_t *list = lists[k].list.bytes;
        size_t length = lists[k].list.length;
        uint8_t back[LONGEST] = { 0 };
        struct chip c = { .mark = 0 };
        finish(c.image, &lists[k].from);
        run.now->cases++;
        struct station_verdict v = run.f->vet(c.image, 256, c.packet, PACKET_BYTES, c.coefficients, COEFFICIENT_BYTES, c.mark, list, length);
        if (v.refusal != (lists[k].fits ? 0u : 16u) || v.place) differs("%s: a list refused %u at %u", lists[k].what, v.refusal, v.place);
        if (!sent_whole(&c, list, (uint32_t)length / 2)) differs("%s: a write refused", lists[k].what);
        check_decode(c.image, 256, back, sizeof back);
        uint32_t refusal = run.f->decode(c.image, 256, back, sizeof back).refusal;
        if (refusal != (lists[k].fits ? 0u : 11u)) differs("%s: decoded as %u", lists[k].what, refusal);
    }
}

void sounds(void) {
    seed(0x2500000u);
    timings();
    ordered();
    changed_sounds();
    every_sound();
}
