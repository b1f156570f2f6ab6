/* Requests through a pipe: document 02, request 08. What a call should answer is told three ways: by hand; by the model, from a pipe's
 * bytes; and, where a request is cut, by document 02's own words on the bytes that came. There the model is held to the same. */
#include "check.h"
#include "lent.h"
#include <stdio.h>
#include <string.h>

/* A pipe by station.h's own words. The answer's byte: none yet, accepted, or the refusal. */
enum { COUNT = STATION_REQUEST, ANSWER, BYTES = STATION_PIPE, NOT_YET = 0, YES = 255 };
enum call { TAKE, END, CALLS };

/* What a call says of a pipe with this count and this answer. */
static struct station_piped said(int answer, size_t count) {
    if (answer == NOT_YET) return (struct station_piped){ 0, 0, 0 };
    if (answer == YES) return (struct station_piped){ 0, 1, (uint32_t)count };
    return (struct station_piped){ (uint32_t)answer, 1, 0 };
}

static int same_piped(struct station_piped a, struct station_piped b) {
    return a.refusal == b.refusal && a.answered == b.answered && a.count == b.count;
}

/* The numbers of a request, and its kinds: by the section that it ends in (1) or whose count is bad (2), else by those that are there,
 * sound as 1, the matrix as 2 and a wiring as 4. */
enum { VARIANTS = 8 };
#define EVERY_KIND { 1, 1, 1, 1, 1, 1, 1, 1 }
#define EACH_SECTION { 1, 1, 1, 1, 0, 0, 0, 0 }
#define WITH_SOUND { 0, 1, 0, 1, 0, 1, 0, 1 }
static const struct { uint32_t number; const char *what; int is[VARIANTS]; } numbers[] = {
    { 0, "accepted", EVERY_KIND },  { 1, "refused 1", EACH_SECTION }, { 2, "refused 2", EACH_SECTION }, { 3, "refused 3", EVERY_KIND },
    { 4, "refused 4", EVERY_KIND }, { 5, "refused 5", EVERY_KIND },   { 6, "refused 6", EVERY_KIND },   { 17, "refused 17", EVERY_KIND },
    { 20, "refused 20", WITH_SOUND }, { 9, "refused 9", WITH_SOUND },
};
enum { NUMBERS_OF = sizeof numbers / sizeof numbers[0] };
static int answer_of(uint32_t number) { return number ? (int)number : YES; }
static int comes_at_once(int answer) { return answer == 2 || answer == 3; }

/* What was met: answers that were given and those that were there, by call and by the answer's byte; and bytes that are no pipe. */
static struct { uint32_t given[CALLS][256], there[CALLS][256], length[CALLS], count[CALLS]; } met;

static void count_met(enum call c, const uint8_t *pipe, size_t length, struct station_piped p) {
    if (length != BYTES) met.length[c]++;
    else if (pipe[COUNT] > STATION_REQUEST) met.count[c]++;
    else (pipe[ANSWER] ? met.there : met.given)[c][!p.answered ? NOT_YET : p.refusal ? p.refusal : YES]++;
}

/* Both calls, against the model; `pipe` becomes what they leave. Answer the model's. */
static struct station_piped take(uint8_t *pipe, size_t length, const uint8_t *part, size_t part_length) {
    uint8_t was[BYTES];
    memcpy(was, pipe, length < BYTES ? length : BYTES);
    struct station_piped p = check_take(pipe, length, part, part_length, pipe);
    count_met(TAKE, was, length, p);
    return p;
}

static struct station_piped end(uint8_t *pipe, size_t length) {
    uint8_t was[BYTES];
    memcpy(was, pipe, length < BYTES ? length : BYTES);
    struct station_piped p = check_end(pipe, length, pipe);
    count_met(END, was, length, p);
    return p;
}

/* By hand. -------------------------------------------------------------------------------------------------------------------------- */

/* Sections in bare bytes: 4:2:2 with separate syncs, 8 bit, style 1, evenly; with embedded ones, 10 bit, style 2, left, 110 40 5 5; 1080p
 * over HDMI, and the same for today's board; coherent stereo at 48 kHz; the guide's Table 39 (its last byte by itself too). */
#define SEPARATE "04 01 03 02 00 "
#define EMBEDDED "0C 02 01 01 02 00 6E 00 28 00 05 00 05 "
#define PICTURE "07 10 00 00 01 00 00 00 "
#define VIDEO "00 " PICTURE
#define SOUND "03 02 02 01 "
#define BUT_ONE "19 01 0C 53 08 00 00 00 F9 D6 FC 56 08 00 FE 88 02 91 FF FF 08 00 0E 85 F8 "
#define MATRIX_39 BUT_ONE "BE "
#define LONG EMBEDDED PICTURE SOUND

/* A pipe, as it is found or as it is left: its bytes so far and its answer; and what comes, a part or the end. */
#define THE_END NULL
struct step { const char *comes; int answer; const char *so_far; };
struct row { const char *what; struct step found, steps[12]; };       /* the last is none */
#define FRESH { "", NOT_YET, "" }
#define FOUND(so_far, answer) { "", answer, so_far }

static const struct row rows[] = {
    { "nothing at all", FRESH, { { THE_END, 1, "" }, { "00", 1, "" }, { "", 1, "" }, { THE_END, 1, "" } } },
    { "empty parts", FRESH,
      { { "", NOT_YET, "" }, { "", NOT_YET, "" }, { VIDEO, NOT_YET, VIDEO }, { "", NOT_YET, VIDEO }, { "00 00", NOT_YET, VIDEO "00 00" },
        { "", NOT_YET, VIDEO "00 00" }, { THE_END, YES, VIDEO "00 00" }, { "", YES, VIDEO "00 00" } } },
    { "an empty part, and the end", FRESH, { { "", NOT_YET, "" }, { THE_END, 1, "" }, { "", 1, "" } } },
    { "the example", FRESH,
      { { "00 07 10 00 00 01", NOT_YET, "00 07 10 00 00 01" }, { "00 00 00 03 02", NOT_YET, VIDEO "03 02" },
        { "02 01 00", NOT_YET, VIDEO SOUND "00" }, { THE_END, YES, VIDEO SOUND "00" }, { VIDEO, YES, VIDEO SOUND "00" },
        { THE_END, YES, VIDEO SOUND "00" } } },
    { "a byte at a time", FRESH,
      { { "00", NOT_YET, "00" }, { "07", NOT_YET, "00 07" }, { "10", NOT_YET, "00 07 10" }, { "00", NOT_YET, "00 07 10 00" },
        { "03", NOT_YET, "00 07 10 00 03" }, { "", NOT_YET, "00 07 10 00 03" }, { "01", NOT_YET, "00 07 10 00 03 01" },
        { THE_END, 1, "00 07 10 00 03 01" }, { "00 00 00 00 00", 1, "00 07 10 00 03 01" }, { THE_END, 1, "00 07 10 00 03 01" } } },
    { "a wiring, a byte at a time", FRESH,
      { { "04", NOT_YET, "04" }, { "01", NOT_YET, "04 01" }, { "03", NOT_YET, "04 01 03" }, { "02", NOT_YET, "04 01 03 02" },
        { "00", NOT_YET, SEPARATE }, { "07", NOT_YET, SEPARATE "07" }, { THE_END, 1, SEPARATE "07" } } },
    { "a sync value, cut", FRESH,
      { { "0C 02 01 01 02 00", NOT_YET, "0C 02 01 01 02 00" }, { "6E 00 28 00 05 00", NOT_YET, "0C 02 01 01 02 00 6E 00 28 00 05 00" },
        { "05", NOT_YET, EMBEDDED }, { PICTURE "00 " MATRIX_39, NOT_YET, EMBEDDED PICTURE "00 " MATRIX_39 },
        { THE_END, YES, EMBEDDED PICTURE "00 " MATRIX_39 } } },
    { "the end in a wiring", FRESH,
      { { "0C 02 01 01 02", NOT_YET, "0C 02 01 01 02" }, { THE_END, 1, "0C 02 01 01 02" }, { "00", 1, "0C 02 01 01 02" } } },
    { "a wiring that no request has, and a bad count", FRESH,
      { { "04 FF FF FF FF", NOT_YET, "04 FF FF FF FF" }, { "06", 2, "04 FF FF FF FF" }, { THE_END, 2, "04 FF FF FF FF" } } },
    { "a wiring that no request has", FRESH,
      { { "04 FF FF FF FF", NOT_YET, "04 FF FF FF FF" }, { PICTURE "00 00", NOT_YET, "04 FF FF FF FF " PICTURE "00 00" },
        { THE_END, 5, "04 FF FF FF FF " PICTURE "00 00" } } },
    { "a request as it was before the wiring", FRESH, { { PICTURE "00 00", 2, "" }, { THE_END, 2, "" } } },
    { "its first count alone", FRESH, { { "07", 2, "" }, { "10", 2, "" }, { THE_END, 2, "" } } },
    { "the first count", FRESH, { { "00", NOT_YET, "00" }, { THE_END, 1, "00" } } },
    { "the first two counts", FRESH, { { "00", NOT_YET, "00" }, { "07", NOT_YET, "00 07" }, { THE_END, 1, "00 07" } } },
    { "a bad first count", FRESH, { { "08", 2, "" }, { VIDEO, 2, "" }, { THE_END, 2, "" }, { "", 2, "" } } },
    { "a first count of 3", FRESH, { { "03", 2, "" }, { THE_END, 2, "" } } },
    { "a video count of 0", FRESH, { { "00", NOT_YET, "00" }, { "00", 2, "00" }, { THE_END, 2, "00" } } },
    { "a second wiring", FRESH, { { SEPARATE, NOT_YET, SEPARATE }, { SEPARATE, 2, SEPARATE }, { THE_END, 2, SEPARATE } } },
    { "a bad first count, and more", FRESH, { { "05 10 00 00 01", 2, "" }, { THE_END, 2, "" } } },
    { "a bad count of sound", FRESH, { { VIDEO, NOT_YET, VIDEO }, { "04", 2, VIDEO }, { "00", 2, VIDEO }, { THE_END, 2, VIDEO } } },
    { "a bad count of sound, within a part", FRESH,
      { { "00 07 10", NOT_YET, "00 07 10" }, { "00 00 01 00 00 00 01 02", 2, "00 07 10" }, { "", 2, "00 07 10" }, { THE_END, 2, "00 07 10" } } },
    { "another section's count", FRESH, { { VIDEO PICTURE "00 00", 2, "" }, { THE_END, 2, "" } } },
    { "a bad count of the matrix", FRESH,
      { { VIDEO SOUND, NOT_YET, VIDEO SOUND }, { "18", 2, VIDEO SOUND }, { THE_END, 2, VIDEO SOUND } } },
    { "one without sound", FRESH, { { VIDEO "00", NOT_YET, VIDEO "00" }, { "03 00 02 00", 2, VIDEO "00" }, { "", 2, VIDEO "00" } } },
    { "fields that no request has, and a bad count", FRESH,
      { { "00 07 FF FF FF FF FF FF", NOT_YET, "00 07 FF FF FF FF FF FF" }, { "FF", NOT_YET, "00 07 FF FF FF FF FF FF FF" },
        { "FF", 2, "00 07 FF FF FF FF FF FF FF" }, { THE_END, 2, "00 07 FF FF FF FF FF FF FF" } } },
    { "a bad count, and then too many bytes", FRESH,
      { { VIDEO "01 00 00 00" MATRIX_39 MATRIX_39, 2, "" }, { THE_END, 2, "" } } },
    { "a byte too many", FRESH,
      { { VIDEO "00", NOT_YET, VIDEO "00" }, { "00", NOT_YET, VIDEO "00 00" }, { "", NOT_YET, VIDEO "00 00" },
        { "00", 3, VIDEO "00 00" }, { "", 3, VIDEO "00 00" }, { "00", 3, VIDEO "00 00" }, { THE_END, 3, VIDEO "00 00" } } },
    { "a line feed", FRESH, { { VIDEO "00 00", NOT_YET, VIDEO "00 00" }, { "0A", 3, VIDEO "00 00" }, { THE_END, 3, VIDEO "00 00" } } },
    { "a byte too many, in one part", FRESH, { { VIDEO "00 00 00", 3, "" }, { THE_END, 3, "" } } },
    { "a byte too many, with the last count", FRESH, { { VIDEO SOUND, NOT_YET, VIDEO SOUND }, { "00 FF", 3, VIDEO SOUND } } },
    { "many too many", FRESH,
      { { "00 07", NOT_YET, "00 07" }, { "10 00 00 01 00 00 00 00 00 07 10 00 00 01 00 00 00 00 00", 3, "00 07" }, { THE_END, 3, "00 07" } } },
    { "the longest", FRESH,
      { { LONG, NOT_YET, LONG }, { BUT_ONE, NOT_YET, LONG BUT_ONE }, { "BE", NOT_YET, LONG MATRIX_39 }, { "", NOT_YET, LONG MATRIX_39 },
        { THE_END, YES, LONG MATRIX_39 }, { "00", YES, LONG MATRIX_39 }, { THE_END, YES, LONG MATRIX_39 } } },
    { "the longest, but for a byte", FRESH,
      { { LONG BUT_ONE, NOT_YET, LONG BUT_ONE }, { THE_END, 1, LONG BUT_ONE }, { "BE", 1, LONG BUT_ONE } } },
    { "the longest, and a byte", FRESH,
      { { LONG MATRIX_39, NOT_YET, LONG MATRIX_39 }, { "19", 3, LONG MATRIX_39 }, { THE_END, 3, LONG MATRIX_39 } } },
    { "the longest, and a byte with its last", FRESH,
      { { LONG BUT_ONE, NOT_YET, LONG BUT_ONE }, { "BE 00", 3, LONG BUT_ONE }, { THE_END, 3, LONG BUT_ONE } } },
    { "the longest for today's board", FRESH,
      { { VIDEO SOUND, NOT_YET, VIDEO SOUND }, { MATRIX_39, NOT_YET, VIDEO SOUND MATRIX_39 }, { "", NOT_YET, VIDEO SOUND MATRIX_39 },
        { "19", 3, VIDEO SOUND MATRIX_39 }, { THE_END, 3, VIDEO SOUND MATRIX_39 } } },
    /* What another hand wrote. */
    { "a bad count is there", FOUND("05", NOT_YET), { { "", 2, "05" }, { THE_END, 2, "05" } } },
    { "a bad count is there at the end", FOUND(VIDEO "05", NOT_YET), { { THE_END, 2, VIDEO "05" }, { "", 2, VIDEO "05" } } },
    { "a bad count is there, and a part", FOUND("05", NOT_YET), { { "10 00", 2, "05" }, { THE_END, 2, "05" } } },
    { "a bad count is there, and the pipe is full", FOUND("05 02 01 01 02 00 6E 00 28 00 05 00 05 " PICTURE SOUND MATRIX_39, NOT_YET),
      { { "00", 2, "05 02 01 01 02 00 6E 00 28 00 05 00 05 " PICTURE SOUND MATRIX_39 } } },
    { "a byte too many is there", FOUND(VIDEO "00 00 00", NOT_YET), { { "", 3, VIDEO "00 00 00" }, { THE_END, 3, VIDEO "00 00 00" } } },
    { "a byte too many is there at the end", FOUND(VIDEO "00 00 00", NOT_YET), { { THE_END, 3, VIDEO "00 00 00" } } },
    { "a part of a request is there", FOUND(VIDEO "03", NOT_YET),
      { { "02 02", NOT_YET, VIDEO "03 02 02" }, { "01 00", NOT_YET, VIDEO SOUND "00" }, { THE_END, YES, VIDEO SOUND "00" } } },
    { "accepted, with nothing", FOUND("", YES), { { VIDEO, YES, "" }, { THE_END, YES, "" } } },
    { "accepted, with anything", FOUND("FF FE", YES), { { "", YES, "FF FE" }, { "00", YES, "FF FE" }, { THE_END, YES, "FF FE" } } },
    { "a refusal that the bytes do not have", FOUND(VIDEO "00 00", 9), { { "00", 9, VIDEO "00 00" }, { THE_END, 9, VIDEO "00 00" } } },
    { "refused 7", FOUND(VIDEO, 7), { { "00", 7, VIDEO }, { THE_END, 7, VIDEO } } },
    { "a number that no call gives", FOUND(VIDEO "00 00", 254), { { "", 254, VIDEO "00 00" }, { THE_END, 254, VIDEO "00 00" } } },
    { "one with the highest bit alone", FOUND("", 128), { { VIDEO, 128, "" }, { THE_END, 128, "" } } },
};

/* Whole requests, and what the end answers. */
static const struct { const char *bytes; int answer; } whole[] = {
    { VIDEO "00 00", YES },
    { VIDEO SOUND "00", YES },
    { VIDEO "00 " MATRIX_39, YES },
    { VIDEO SOUND MATRIX_39, YES },
    { "00 07 13 01 00 01 00 00 00 00 00", 4 },             /* VIC 19 has no family 1 */
    { "00 07 00 00 00 01 00 00 00 " SOUND "00", 4 },
    { "00 07 10 00 03 01 00 00 00 00 00", 5 },             /* encoding 3 */
    { "00 07 10 00 00 01 00 00 00 03 07 02 01 00", 5 },    /* rate 7 */
    { VIDEO "00 19 03 0C 53 08 00 00 00 F9 D6 FC 56 08 00 FE 88 02 91 FF FF 08 00 0E 85 F8 BE", 5 },     /* mode 3 */
    { "00 07 10 00 01 01 00 00 00 00 00", 6 },             /* 4:2:2 without a matrix */
    { "00 07 10 00 00 00 00 00 00 " SOUND "00", 6 },       /* DVI with sound */
    { "00 07 10 00 00 01 00 10 00 00 00", 17 },            /* 297 MHz */
    { "00 07 10 00 00 01 00 02 00 " SOUND MATRIX_39, YES },    /* 222.75 MHz */
    { "00 07 02 00 00 01 00 00 00 03 06 08 00 00", 20 },   /* eight channels at 192 kHz over 480p */
    { "00 07 02 00 00 01 00 10 00 03 05 08 00 " MATRIX_39, YES },     /* at 176.4 kHz, each pixel twice */
    { "00 07 04 01 00 01 00 00 00 03 00 02 01 00", 9 },    /* no exact pair */
    { SEPARATE PICTURE SOUND MATRIX_39, YES },
    { EMBEDDED PICTURE SOUND MATRIX_39, YES },
    { EMBEDDED "07 10 00 01 01 00 00 00 00 00", YES },  /* YCbCr 4:2:2 in and out without a matrix */
    { SEPARATE "07 10 00 02 01 00 00 00 " SOUND "00", YES },
    { EMBEDDED PICTURE "00 00", 6 },                    /* YCbCr in and RGB out without one */
    { "04 05 03 02 00 " PICTURE "00 00", YES },         /* ID 5 is RGB */
    { "04 05 03 02 00 07 10 00 01 01 00 00 00 00 00", 6 },
    { "04 00 03 00 00 " PICTURE "00 00", 5 },           /* ID 0 in a section */
    { "04 02 01 01 02 " PICTURE "00 " MATRIX_39, 5 },   /* 4 with an ID of embedded syncs, 12 with one of separate ones */
    { "0C 01 01 01 02 00 6E 00 28 00 05 00 05 " PICTURE "00 " MATRIX_39, 5 },
    { "0C 02 01 01 02 04 00 00 28 00 05 00 05 " PICTURE "00 " MATRIX_39, 5 },   /* 1024 */
    { "0C 02 01 01 02 03 FF 03 FF 03 FF 03 FF " PICTURE "00 " MATRIX_39, YES },
    { "04 00 03 00 00 07 06 00 00 01 00 00 00 00 00", 4 },  /* 4 before 5, though it stands behind it */
};

static void lay_pipe(const struct step *s, int paint, uint8_t *pipe) {
    memset(pipe, paint, BYTES);
    pipe[COUNT] = (uint8_t)from_hex(s->so_far, pipe);
    pipe[ANSWER] = (uint8_t)s->answer;
}

/* Each step of a row, on a pipe whose other bytes are `paint`. */
static void run_row(const struct row *r, int paint) {
    uint8_t pipe[BYTES], right[BYTES], part[512];
    lay_pipe(&r->found, paint, pipe);
    for (int k = 0; r->steps[k].so_far; k++) {
        const struct step *s = &r->steps[k];
        size_t length = s->comes ? from_hex(s->comes, part) : 0;
        struct station_piped p = s->comes ? take(pipe, BYTES, part, length) : end(pipe, BYTES);
        lay_pipe(s, paint, right);
        if (!same_piped(p, said(s->answer, right[COUNT])))
            differs("%s, step %d: %u, answered %u, count %u", r->what, k, p.refusal, p.answered, p.count);
        else if (memcmp(pipe, right, BYTES)) differs("%s, step %d: the pipe is another", r->what, k);
    }
}

/* Each byte as the count of each section, after the bytes before it: 2 but for those that are allowed. */
static void every_count(void) {
    static const struct { const char *before; int allowed[3]; } counts[] = {
        { "", { 0, 4, 12 } }, { "00", { 7, 7, 7 } }, { SEPARATE, { 7, 7, 7 } }, { EMBEDDED, { 7, 7, 7 } }, { VIDEO, { 0, 3, 3 } },
        { SEPARATE PICTURE, { 0, 3, 3 } }, { VIDEO "00", { 0, 25, 25 } }, { VIDEO SOUND, { 0, 25, 25 } }, { LONG, { 0, 25, 25 } },
    };
    for (size_t k = 0; k < sizeof counts / sizeof counts[0]; k++)
        for (int count = 0; count < 256; count++) {
            const char *before = counts[k].before;
            char byte[8], bytes[128];
            const int *allowed = counts[k].allowed;
            int answer = count == allowed[0] || count == allowed[1] || count == allowed[2] ? NOT_YET : 2;
            snprintf(byte, sizeof byte, "%02X", (unsigned)count);
            snprintf(bytes, sizeof bytes, "%s %s", before, byte);
            const struct row alone = { bytes, FRESH, { { before, NOT_YET, before }, { byte, answer, answer ? before : bytes } } };
            const struct row together = { bytes, FRESH, { { bytes, answer, answer ? "" : bytes } } };
            run_row(&alone, 0);
            run_row(&together, 0);
        }
}

static void by_hand(void) {
    every_count();
    for (int paint = 0; paint < 256; paint += 85) {
        for (size_t k = 0; k < sizeof rows / sizeof rows[0]; k++) run_row(&rows[k], paint);
        for (size_t k = 0; k < sizeof whole / sizeof whole[0]; k++) {
            const char *w = whole[k].bytes;
            int answer = whole[k].answer;
            const struct row at_the_end = { w, FRESH, { { w, NOT_YET, w }, { "", NOT_YET, w }, { THE_END, answer, w }, { "00", answer, w },
                                                        { w, answer, w }, { THE_END, answer, w } } };
            const struct row one_more = { w, FRESH, { { w, NOT_YET, w }, { "00", 3, w }, { THE_END, 3, w } } };
            run_row(&at_the_end, paint);
            run_row(&one_more, paint);
        }
    }
}

/* Any bytes as a pipe. -------------------------------------------------------------------------------------------------------------- */

/* Every length, with a pipe in front: fresh, in the middle, answered, with a count above. 7, and nothing changed, but for the right one. */
static void every_length(void) {
    static const size_t more[] = { 256, 256 + BYTES, 1000, 65536, 65536 + BYTES, ROOM - 64 };
    static const struct { uint8_t count, answer; } found[] = { { 0, NOT_YET }, { 1, NOT_YET }, { 1, YES }, { 1, 3 }, { BYTES, NOT_YET } };
    static uint8_t pipe[ROOM], was[ROOM], part[STATION_REQUEST + 1];
    part[1] = VIDEO_BYTES;
    for (size_t n = 0; n < 2 * BYTES + 1 + sizeof more / sizeof more[0]; n++) {
        size_t length = n <= 2 * BYTES ? n : more[n - 2 * BYTES - 1];
        for (size_t k = 0; k < sizeof found / sizeof found[0]; k++)
            for (size_t part_length = 0; part_length <= sizeof part; part_length++) {
                if (part_length > 1 && passed_over(8)) continue;
                if (length > 1000 && part_length > 1) break;
                memset(pipe, 0, length);
                pipe[0] = WIRING_BYTES, pipe[COUNT] = found[k].count, pipe[ANSWER] = found[k].answer;
                memcpy(was, pipe, length);
                struct station_piped a = take(pipe, length, part, part_length), b = end(pipe, length);
                if (length == BYTES && found[k].count <= STATION_REQUEST) continue;
                if (!same_piped(a, (struct station_piped){ 7, 0, 0 }) || !same_piped(b, (struct station_piped){ 7, 0, 0 }))
                    differs("%zu bytes, count %u, are taken as a pipe", length, found[k].count);
                if (memcmp(pipe, was, length)) differs("%zu bytes, count %u: 7 changed a byte", length, found[k].count);
            }
    }
}

/* Every count byte with every answer byte: 7 by the count alone; an answer that is there stays, whatever it is. */
static void every_count_and_answer(void) {
    uint8_t request[LONGEST], pipe[BYTES], again[BYTES], was[BYTES], part[STATION_REQUEST];
    size_t length = model_bytes(&example, request);
    any_bytes(was, BYTES);
    memcpy(was, request, length);
    any_bytes(part, sizeof part);
    for (int count = 0; count < 256; count++)
        for (int answer = 0; answer < 256; answer++) {
            if (answer > 1 && answer < YES - 1 && passed_over(16)) continue;
            was[COUNT] = (uint8_t)count, was[ANSWER] = (uint8_t)answer;
            memcpy(pipe, was, BYTES);
            memcpy(again, was, BYTES);
            struct station_piped a = take(pipe, BYTES, part, any(sizeof part)), b = end(again, BYTES);
            struct station_piped right = said(answer, (size_t)count);
            if (count > STATION_REQUEST) right = (struct station_piped){ 7, 0, 0 };
            else if (answer == NOT_YET) continue;
            if (!same_piped(a, right) || !same_piped(b, right)) differs("count %d, answer %d: %u, %u", count, answer, a.refusal, b.refusal);
            if (memcmp(pipe, was, BYTES) || memcmp(again, was, BYTES)) differs("count %d, answer %d: the pipe is another", count, answer);
        }
}

/* A pipe that some hand wrote: a part of a request or noise, a count that is right or any, mostly no answer yet. Answers the bytes of the
 * request that are in it. */
static size_t any_pipe(uint8_t *pipe, const uint8_t *request, size_t length) {
    size_t count = any((uint32_t)(length < STATION_REQUEST ? length : STATION_REQUEST) + 1);
    any_bytes(pipe, BYTES);
    if (any(4) == 0) memset(pipe, 0, BYTES);
    if (any(8)) memcpy(pipe, request, count);
    pipe[COUNT] = (uint8_t)(any(8) ? count : any(2) ? any(STATION_REQUEST + 1) : any(256));
    pipe[ANSWER] = (uint8_t)(any(8) ? NOT_YET : any(4) ? answer_of(numbers[any(NUMBERS_OF)].number) : (int)any(256));
    return count;
}

static void any_pipes(void) {
    static uint8_t request[4096], noise[4096];
    for (uint32_t i = times(200000); i > 0; i--) {
        uint8_t pipe[BYTES];
        seed(0x1F00000u + i);
        size_t length = any_request(request, sizeof request), count = any_pipe(pipe, request, length);
        for (int calls = 1 + (int)any(3); calls > 0; calls--) {
            uint32_t how = any(8);
            size_t n = any(32) ? any(STATION_REQUEST + 4) : any(sizeof noise);
            if (how == 0) end(pipe, BYTES);
            else if (how == 1) any_bytes(noise, n), take(pipe, BYTES, noise, n);
            else if (how == 2) take(pipe, BYTES, noise, 0);
            else if (how < 6) take(pipe, BYTES, request + count, length - count), count = length;
            else n = any((uint32_t)(length - count) + 1), take(pipe, BYTES, request + count, n), count += n;
        }
    }
}

/* Empty parts, wherever they are said to lie: the pipe is looked at, and no byte of theirs. */
static void empty_parts(void) {
    static const struct step found[] = { FRESH, FOUND(VIDEO, NOT_YET), FOUND("05", NOT_YET), FOUND(VIDEO "00 00", YES), FOUND(VIDEO, 1) };
    const uint8_t *const ends = lend(PART, NULL, 0, ENDS), *const begins = lend(PART, NULL, 0, BEGINS);
    const uint8_t *const at[] = { NULL, (const uint8_t *)1, (const uint8_t *)UINTPTR_MAX, ends, begins };
    for (size_t k = 0; k < sizeof found / sizeof found[0]; k++)
        for (size_t j = 0; j < sizeof at / sizeof at[0]; j++) {
            uint8_t right[BYTES], *pipe;
            lay_pipe(&found[k], 0x5A, right);
            pipe = lend(PIPE, right, BYTES, ENDS);
            run.now->cases++;
            struct station_piped want = model_pipe_take(right, BYTES, at[j], 0), got = run.f->pipe_take(pipe, BYTES, at[j], 0);
            if (!same_piped(want, got) || !holds(PIPE, right)) differs("an empty part, place %zu, pipe %zu: %u", j, k, got.refusal);
        }
}

/* Very long parts, after each number of bytes: the rest of a request and bytes too many, so many that one byte, or two, would count the
 * rest alone. */
static void long_parts(void) {
    static const size_t more[] = { 0, 1, 255, 256, 512, 4096, 65536, 65536 + 256 };
    static uint8_t bytes[STATION_REQUEST + 65536 + 256];
    for (size_t k = 0; k < sizeof whole / sizeof whole[0]; k++)
        for (size_t m = 0; m < sizeof more / sizeof more[0]; m++) {
            if (more[m] > 4096 && passed_over(8)) continue;
            size_t length = from_hex(whole[k].bytes, bytes);
            if (any(2)) memset(bytes + length, (int)any(256), more[m]);
            else any_bytes(bytes + length, more[m]);
            for (size_t first = 0; first <= length; first++) {
                uint8_t pipe[BYTES] = { 0 };
                if (more[m] > 4096 && first % 4 && first + 1 < length) continue;
                int answer = more[m] ? 3 : NOT_YET;
                take(pipe, BYTES, bytes, first);
                struct station_piped p = take(pipe, BYTES, bytes + first, length - first + more[m]);
                if (!same_piped(p, said(answer, 0)) || pipe[COUNT] != (answer ? first : length))
                    differs("%zu bytes and %zu more, after %zu: answer %d, count %d", length, more[m], first, pipe[ANSWER], pipe[COUNT]);
                end(pipe, BYTES);
            }
        }
}

void pipes(void) {
    seed(0x1F80000u);
    memset(&met, 0, sizeof met);
    by_hand();
    every_length();
    every_count_and_answer();
    empty_parts();
    long_parts();
    any_pipes();
}

/* Requests, cut. -------------------------------------------------------------------------------------------------------------------- */

/* "Refusal 2 as soon as its count is read, refusal 3 at the first byte too many": what these bytes decide, by a walk. */
static int decided(const uint8_t *bytes, size_t length) {
    size_t at = 0;
    for (int s = 0; s < PARTS; s++) {
        if (at >= length) return NOT_YET;
        if (!model_allowed((enum part)s, bytes[at])) return 2;
        at += 1u + bytes[at];
    }
    return at < length ? 3 : NOT_YET;
}

/* A request as it comes: its bytes, how many of them have come, how many are kept, and the answer. `pipe` is what was made of `began`. */
struct stream { const uint8_t *bytes; size_t come, kept; int answer; uint8_t began[BYTES], pipe[BYTES]; };

static void begin(struct stream *s, const uint8_t *bytes, int paint) {
    *s = (struct stream){ .bytes = bytes };
    memset(s->began, paint, STATION_REQUEST);
    memcpy(s->pipe, s->began, BYTES);
}

static int any_paint(void) { return any(4) ? 0 : (int)any(256); }
static int any_side(void) { return any(2) ? ENDS : BEGINS; }

/* By the bytes that came, whatever the cuts were: what was said, and every byte of the pipe. Then the model is held to the same. */
static void as_told(struct stream *s, enum call c, struct station_piped got, const uint8_t *part, size_t length) {
    static const char *const names[CALLS] = { "a part", "the end" };
    const struct station_piped want = said(s->answer, s->kept);
    uint8_t right[BYTES], model[BYTES];
    memcpy(right, s->began, BYTES);
    memcpy(right, s->bytes, s->kept);
    right[COUNT] = (uint8_t)s->kept, right[ANSWER] = (uint8_t)s->answer;
    if (!same_piped(got, want))
        differs("%s, %zu bytes came: %u, answered %u, count %u, not %u, %u, %u", names[c], s->come, got.refusal, got.answered, got.count,
                want.refusal, want.answered, want.count);
    else if (!holds(PIPE, right)) differs("%s, %zu bytes came: the pipe is another", names[c], s->come);
    else if (c == TAKE && !holds(PART, part)) differs("the part was changed");
    memcpy(model, s->pipe, BYTES);
    count_met(c, s->pipe, BYTES, want);
    struct station_piped also = c == TAKE ? model_pipe_take(model, BYTES, part, length) : model_pipe_end(model, BYTES);
    if (!same_piped(also, want) || memcmp(model, right, BYTES)) differs("%s, %zu bytes came: the model has another", names[c], s->come);
    memcpy(s->pipe, right, BYTES);
}

static void next_part(struct stream *s, size_t length) {
    const uint8_t *part = s->bytes + s->come;
    uint8_t *lent_pipe = lend(PIPE, s->pipe, BYTES, any_side()), *lent_part = lend(PART, part, length, any_side());
    run.now->cases++;
    struct station_piped got = run.f->pipe_take(lent_pipe, BYTES, lent_part, length);
    s->come += length;
    if (!s->answer) s->answer = decided(s->bytes, s->come);
    if (!s->answer) s->kept = s->come;
    as_told(s, TAKE, got, part, length);
}

/* The bytes at the pipe's front are as good as the request: planning gives the same list for both. */
static void planned_alike(const struct stream *s, const uint8_t *pipe, uint32_t count) {
    uint8_t image[256], writes[256] = { 0 }, again[256] = { 0 };
    any_image(image);
    struct station_count a = run.f->plan(s->bytes, s->come, image, 256, writes, 256), b = run.f->plan(pipe, count, image, 256, again, 256);
    if (a.refusal != b.refusal || a.count != b.count || memcmp(writes, again, 256)) differs("the list of the pipe's front is another");
}

/* "The answer must equal that for the joined bytes." */
static void the_end(struct stream *s) {
    int before = s->answer;
    uint8_t *lent_pipe = lend(PIPE, s->pipe, BYTES, any_side());
    run.now->cases++;
    struct station_piped got = run.f->pipe_end(lent_pipe, BYTES);
    if (!before) s->answer = answer_of(run.f->ncts(s->bytes, s->come).refusal);
    as_told(s, END, got, NULL, 0);
    if (!before && s->answer == YES && any(16) == 0) planned_alike(s, lent_pipe, got.count);
}

/* A request, with bytes behind it that come after the end. */
enum { BEHIND = 8 };
struct request { size_t length; uint8_t bytes[4096 + BEHIND]; };

static void any_whole(struct request *r, size_t room) {
    r->length = any_request(r->bytes, room);
    any_bytes(r->bytes + r->length, BEHIND);
}

/* The end; and after it parts and the end again, in any order. */
static void finish_stream(struct stream *s) {
    the_end(s);
    for (int more = 0, left = BEHIND; more < 2; more++) {
        size_t length = any((uint32_t)left / 2);
        if (any(3) == 0) the_end(s);
        else next_part(s, length), left -= (int)length;
    }
}

/* Every cut into two parts; into three; a byte at a time, with and without empty parts between. */
static void two_parts(const struct request *r) {
    struct stream s;
    for (size_t cut = 0; cut <= r->length; cut++) {
        begin(&s, r->bytes, any_paint());
        next_part(&s, cut);
        next_part(&s, r->length - cut);
        finish_stream(&s);
    }
}

static void three_parts(const struct request *r) {
    struct stream s;
    for (size_t one = 0; one <= r->length; one++)
        for (size_t two = one; two <= r->length; two++) {
            if (passed_over(16)) continue;
            begin(&s, r->bytes, any_paint());
            next_part(&s, one);
            next_part(&s, two - one);
            next_part(&s, r->length - two);
            finish_stream(&s);
        }
}

static void bytes_alone(const struct request *r) {
    struct stream s;
    for (int empty = 0; empty < 2; empty++) {
        begin(&s, r->bytes, any_paint());
        while (s.come < r->length) {
            if (empty && any(2)) next_part(&s, 0);
            else next_part(&s, 1);
        }
        finish_stream(&s);
    }
}

/* Any number of parts, short or long, empty ones among them. */
static size_t any_part(size_t left) {
    uint32_t how = any(8);
    size_t length = how == 0 ? 0 : how < 3 ? 1 : how < 7 ? any(12) : any((uint32_t)left + 1);
    return length < left ? length : left;
}

static void many_parts(const struct request *r) {
    struct stream s;
    begin(&s, r->bytes, any_paint());
    while (s.come < r->length) {
        next_part(&s, any_part(r->length - s.come));
        if (s.answer && any(4) == 0) break;
    }
    finish_stream(&s);
}

static int kind_of(const struct request *r, uint32_t number) {
    size_t at = 0;
    int there = 0;
    for (int s = 0; s < PARTS; s++) {
        if (number == 1 && (at >= r->length || at + 1 + r->bytes[at] > r->length)) return s;
        if (number == 2 && !model_allowed((enum part)s, r->bytes[at])) return s;
        if (s != OF_VIDEO && r->bytes[at] != 0) there += s == OF_SOUND ? 1 : s == OF_MATRIX ? 2 : 4;
        at += 1u + r->bytes[at];
    }
    return there;
}

static void every_cut(void) {
    static struct request r;
    uint32_t cut[NUMBERS_OF][VARIANTS] = { { 0 } }, of_each = run.share < 1000 ? 1 : 12, left = 0;
    for (int k = 0; k < NUMBERS_OF; k++)
        for (int v = 0; v < VARIANTS; v++) left += of_each * (uint32_t)numbers[k].is[v];
    for (uint32_t i = 0; left > 0 && i < 60000; i++) {
        int k = 0;
        seed(0x2000000u + i);
        any_whole(&r, LEAST_ROOM);
        if (r.length > STATION_REQUEST + BEHIND) continue;
        uint32_t number = model_number(r.bytes, r.length);
        int v = kind_of(&r, number);
        while (k < NUMBERS_OF && numbers[k].number != number) k++;
        if (k == NUMBERS_OF || !numbers[k].is[v]) differs("number %u is given for kind %d", number, v);
        else if (cut[k][v]++ < of_each) three_parts(&r), left--;
    }
    if (left > 0) differs("%u requests less were cut into three parts", left);
}

/* Every kind of request that is accepted, and those of all sorts: every cut into two, bytes alone. */
static void every_kind(void) {
    static struct request r;
    struct fields f;
    for (uint32_t i = 0; i < kinds(); i++) {
        if (!tries_kind(i, times(KINDS), &f)) continue;
        r.length = model_bytes(&f, r.bytes);
        any_bytes(r.bytes + r.length, BEHIND);
        two_parts(&r);
        bytes_alone(&r);
    }
    if (run.share >= 1000) every_value_met();
    for (uint32_t i = times(10000); i > 0; i--) {
        seed(0x2100000u + i);
        any_whole(&r, LEAST_ROOM);
        two_parts(&r);
        bytes_alone(&r);
    }
    for (uint32_t i = times(200000); i > 0; i--) {
        seed(0x2200000u + i);
        any_whole(&r, 4096);
        many_parts(&r);
    }
}

/* Several pipes at a time, their parts in any order: what a pipe answers is in its own bytes. */
static void several(void) {
    enum { AT_A_TIME = 6 };
    static struct request r[AT_A_TIME];
    struct stream s[AT_A_TIME];
    for (uint32_t i = times(5000); i > 0; i--) {
        seed(0x2300000u + i);
        for (int k = 0; k < AT_A_TIME; k++) any_whole(&r[k], LEAST_ROOM), begin(&s[k], r[k].bytes, 0);
        for (int left = AT_A_TIME; left > 0;) {
            uint32_t k = any(AT_A_TIME);
            if (s[k].come < r[k].length) next_part(&s[k], any_part(r[k].length - s[k].come));
            else if (s[k].come == r[k].length) finish_stream(&s[k]), s[k].come = r[k].length + 1, left--;
        }
    }
}

/* "A refusal that no later byte can change is given at once", by the library's own N and CTS: after each number of bytes of a request, with
 * its rest, one byte, zeros, another request and noise behind them. Where a part is answered, all have its number; else one has another. */
enum { HIGHEST = STATION_SOUND_TOO_MUCH };
static uint32_t changed[HIGHEST + 1][HIGHEST + 1];

static void later_bytes(const struct request *r) {
    enum { REST, ONE, ZEROS, ANOTHER, NOISE, LATER = NOISE + 3 };
    static uint8_t more[2 * sizeof r->bytes];
    for (size_t n = 0; n <= r->length && n <= STATION_REQUEST + 1; n++) {
        static const uint8_t fresh[BYTES];
        uint8_t *pipe = lend(PIPE, fresh, BYTES, any_side()), *part = lend(PART, r->bytes, n, any_side());
        struct station_piped p = run.f->pipe_take(pipe, BYTES, part, n);
        uint32_t now = run.f->ncts(r->bytes, n).refusal;
        int stays = 1;
        memcpy(more, r->bytes, r->length);
        for (int k = REST; k < LATER; k++) {
            size_t length = k == REST ? r->length - n : k == ONE ? 1 : k == ZEROS ? STATION_REQUEST + 1 : any(STATION_REQUEST);
            if (k == ANOTHER) length = any_request(more + n, LEAST_ROOM);
            else if (k == ZEROS) memset(more + n, 0, length);
            else if (k != REST) any_bytes(more + n, length);
            uint32_t later = run.f->ncts(more, n + length).refusal;
            stays &= later == now;
            if (now <= HIGHEST && later <= HIGHEST) changed[now][later]++;
        }
        run.now->cases++;
        if ((int)p.answered != stays || (p.answered && (p.refusal != now || !comes_at_once((int)now))))
            differs("%zu bytes: answered %u, %u, and later bytes %s number %u", n, p.answered, p.refusal, stays ? "keep" : "change", now);
    }
}

static void every_later_byte(void) {
    static struct request r;
    memset(changed, 0, sizeof changed);
    for (uint32_t i = times(4000); i > 0; i--) {
        seed(0x2400000u + i);
        any_whole(&r, LEAST_ROOM);
        later_bytes(&r);
    }
}

/* The answers that were given, and those that were there; and the numbers that later bytes have changed. */
static void all_met(void) {
    static const char *const calls[CALLS] = { "parts", "ends" }, *const after[CALLS] = { "parts after an answer", "ends after an answer" };
    char what[64];
    for (int c = 0; c < CALLS; c++) {
        if (c == TAKE) never_met(met.given[c][NOT_YET], calls[c], "not answered yet");
        for (int k = 0; k < NUMBERS_OF; k++) {
            int answer = answer_of(numbers[k].number), at_once = comes_at_once(answer);
            snprintf(what, sizeof what, "%s%s", numbers[k].what, c == END && at_once ? ", by bytes of another hand" : "");
            if (c == END || at_once) never_met(met.given[c][answer], calls[c], what);
            else if (met.given[c][answer]) differs("a part was answered: %s", what);
        }
        never_met(met.length[c], calls[c], "refused 7, another length");
        never_met(met.count[c], calls[c], "refused 7, a count above");
    }
    for (int c = 0; c < CALLS; c++) {
        uint32_t others = 0;
        for (int answer = 1; answer < 256; answer++) others += met.there[c][answer];
        for (int k = 0; k < NUMBERS_OF; k++) {
            never_met(met.there[c][answer_of(numbers[k].number)], after[c], numbers[k].what);
            others -= met.there[c][answer_of(numbers[k].number)];
        }
        never_met(others, after[c], "a number that no call gives");
    }
    for (int k = 0; k < NUMBERS_OF; k++) {
        uint32_t number = numbers[k].number, other = 0;
        for (uint32_t later = 0; later <= HIGHEST; later++) other += later != number ? changed[number][later] : 0;
        snprintf(what, sizeof what, "%s, and later bytes change it", numbers[k].what);
        if (!comes_at_once((int)number)) never_met(other, "times", what);
        else if (other) differs("%s, %u times", what, other);
    }
}

void cut_requests(void) {
    every_cut();
    every_kind();
    several();
    every_later_byte();
    if (run.share >= 1000) all_met();
}
