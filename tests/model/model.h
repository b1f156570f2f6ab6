/* A model in C of document 01 and of the requests of document 02 that have landed, written from the documents, their readings and their
 * sources, and not from the library. It is slow on purpose: each rule stands as the documents have it. The harness compares the library
 * with it. */
#ifndef MODEL_H
#define MODEL_H

#include "../face.h"

/* Register classes: four masks that share no bit and cover all eight, and the mandated bits. */
struct model_class { uint8_t read_only, mandated, named, free, bits; };
extern const struct model_class model_classes[256];

/* fields.h: the table of the fields. Here the fields of one request; without a wiring, sound or matrix those of that section are 0. `wiring`
 * is the count of its section: none for today's board, the four fields, or these and the sync values. */
#include "fields.h"
enum part { OF_WIRING, OF_VIDEO, OF_SOUND, OF_MATRIX, PARTS };
enum { NO_WIRING = 0, SYNCS = 4, SYNC_BYTES = 2 * SYNCS, SYNC_BITS = 10, MOST_SYNC = 1023 };
#define MODEL_MEMBER(section, byte, low, bits, name, ...) int name;
struct fields {
    MODEL_FIELDS(MODEL_MEMBER)
    int wiring, sync[SYNCS], sound, matrix, coefficient[12];
};

/* A row of the table. `at` is the place in `struct fields`. */
struct field {
    enum part section;
    int byte, low, bits;
    size_t at;
    int count;
    const int *values;
    int (*shown)(const uint8_t *image);
};
enum { NO_REGISTER = -1000, NO_VALUE = -1 };   /* `shown`: no register names the field; the image shows no value of it */
#define MODEL_ROW(...) + 1
enum { FIELDS = MODEL_FIELDS(MODEL_ROW), VALUES = 16 };      /* so many rows; the most values that a field may have */
extern const struct field model_fields[FIELDS];
int *model_field(struct fields *f, const struct field *row);
int  model_has(const struct fields *f, enum part s);     /* is this section there? The video section always is. */
int  model_allows(const struct field *row, int value);
int  model_asks_of_e(const struct fields *f);            /* for bits of data byte 5 that are reserved in 861-D? */
/* As decoding answers: what no register names is 0, and an E that asks for nothing is D. */
void model_answer(struct fields *f, const uint8_t *image);

/* request.c: refusals 1 to 6, 17 and 20, 0 for none; and the bytes of a request. The counts of the sections, each byte counted at the row of
 * its lowest bit, and with these counts the longest request. */
#define MODEL_WIRING(section, byte, low, ...) + (section == OF_WIRING && low == 0)
#define MODEL_VIDEO(section, byte, low, ...) + (section == OF_VIDEO && low == 0)
#define MODEL_SOUND(section, byte, low, ...) + (section == OF_SOUND && low == 0)
#define MODEL_MATRIX(section, byte, low, ...) + (section == OF_MATRIX && low == 0)
enum {
    WIRING_BYTES = MODEL_FIELDS(MODEL_WIRING),
    VIDEO_BYTES = MODEL_FIELDS(MODEL_VIDEO),
    SOUND_BYTES = MODEL_FIELDS(MODEL_SOUND),
    MODE_BYTES = MODEL_FIELDS(MODEL_MATRIX),
    MATRIX_BYTES = MODE_BYTES + 2 * 12,
    LONGEST = PARTS + WIRING_BYTES + SYNC_BYTES + VIDEO_BYTES + SOUND_BYTES + MATRIX_BYTES
};
extern const int model_counts[PARTS];               /* the largest that is allowed */
int      model_allowed(enum part s, int count);
int      model_count(const struct fields *f, enum part s);
uint32_t model_read(const uint8_t *request, size_t length, struct fields *f);   /* also sets `f` where it answers 4 or more */
size_t   model_bytes(const struct fields *f, uint8_t *request);
int      model_coefficient(const uint8_t *two);     /* two's complement, high byte first */

/* wiring.c: the input IDs. Whether an ID is RGB, and whether its syncs are embedded; the count that fits it; whether a wiring is defined, else
 * refusal 5; and the four sync values as 0x30 to 0x34 have them. */
enum { SYNCS_AT = 0x30, SYNC_REGISTERS = 5, TODAY_DEPTH = 3 };          /* today's board: "RGB, 24 bits", code 11 of 8 bit */
int  model_rgb_input(int input);
int  model_embedded(int input);
int  model_wiring_of(int input);
int  model_wired(const struct fields *f);
void model_sync_registers(const int *sync, uint8_t *registers);
void model_syncs_shown(const uint8_t *registers, int *sync);

/* clock.c: the modes, N and CTS. `exists` is 0 where refusal 9 applies. */
struct pair { int exists; uint32_t n, cts; };
enum { VICS = 15, RATES = 7, DEPTHS = 3, REPETITIONS = 3 };
extern const int model_vics[VICS];
uint32_t    model_hertz(int vic);                   /* the pixel clock at family 0; 0 where the VIC is not listed */
uint64_t    model_rate(int rate);                   /* in Hz, of the rates 0 to 6 */
int         model_offers(int vic, int family);
struct pair model_pair(const struct fields *f);
/* The TMDS clock, top / bottom in Hz: the pixel clock times depth times repetition, of a mode that is offered; and refusal 17. */
struct clock { uint64_t top, bottom; };
struct clock model_clock(int vic, int family, int depth, int repetition);
int          model_above_limit(struct clock c);
struct pair  model_coherent(struct clock c, int rate);      /* for coherent audio, by the clock alone; slow */

/* sound.c: the timing of a mode, in clocks of a line and of its picture, lines of a frame, fields a second and fields of a frame; the
 * packets of sound that a line's blanking has room for; and whether sound of a rate in Hz fits, else refusal 20. */
struct timing { uint64_t total, active, lines, vertical, fields; };
struct timing model_timing(int vic);
uint64_t      model_packets(struct timing t, int repetition);
int           model_fits(struct timing t, int repetition, uint64_t rate, int channels);

/* frames.c: the registers of a packet, from its version to its last data byte. */
enum { AVI_BYTES = 16, AUDIO_BYTES = 13, PACKET_BYTES = 32, COEFFICIENT_BYTES = 24, IMAGE_BYTES = 256, MARK_BYTES = 1 };
void model_avi(const struct fields *f, uint8_t *registers);
void model_audio(const struct fields *f, uint8_t *registers);

/* plan.c: the named bits that a request wants; the write list with nothing left out, and the short one, which is planned: without the
 * writes that the image does not need; its count, found without a list; the finished image; the code of each rate in 0x15[7:4], and of
 * each depth in 0x4C[3:0]. */
extern const uint8_t model_rate_codes[RATES], model_depth_codes[DEPTHS];
struct list { uint32_t count; uint8_t pairs[256]; };
int  model_written(int address);                    /* does the full list write this register? */
int  model_stays(int address);                      /* the mute register, 0x4A and 0x1A, whose writes all stay */
void model_wanted(const struct fields *f, struct pair p, uint8_t *wanted);
void model_full_list(const uint8_t *wanted, const uint8_t *image, struct list *l);
void model_leave_out(const struct list *full, const uint8_t *image, struct list *l);
void model_short_list(const uint8_t *wanted, const uint8_t *image, struct list *l);
uint32_t model_short_count(const uint8_t *wanted, const uint8_t *image);
void model_finished(const uint8_t *wanted, const uint8_t *image, uint8_t *finished);
int  model_stands(const uint8_t *wanted, const uint8_t *image);

/* machine.c: the state of the chip; one write; one rising edge of Vsync; the number of packet holds that are up in a byte of 0x4A; whether a
 * change of the coefficients waits for its Vsync; and the 24 bytes in use, of the registers or of the buffer. */
struct chip { uint8_t image[IMAGE_BYTES], packet[PACKET_BYTES], coefficients[COEFFICIENT_BYTES], mark; };
uint32_t       model_run(struct chip *c, uint8_t address, uint8_t value);
void           model_edge(struct chip *c);
int            model_holds(uint8_t byte_4a);
int            model_waits(const struct chip *c);
const uint8_t *model_matrix_in_use(const struct chip *c);

/* decode.c: the request that ends in an image, as decoding answers it. Only the values that the image shows are tried; but all of each field
 * in the set `free`, bit by bit the rows of the table; and with the bit SECTIONS_FREE also sections that the image does not show, and
 * without those that it shows. */
enum { NONE_FREE = 0, SECTIONS_FREE = 1 << 30 };
int model_ends(const uint8_t *image, uint32_t free, struct fields *f);

/* vet.c: the verdict on a vendor's list, and the rule that its first bad pair breaks. What is in use: the GC byte, the two packets, and the
 * coefficients as numbers of 13 bits. */
enum { MOST_PAIRS = 512 };
enum rule {
    NO_RULE, OTHER_REGISTER, MANDATED_BITS, FREE_BITS, TWO_HOLDS, NOT_MUTED, AVI_GROUP, AUDIO_GROUP, MATRIX_GROUP, MATRIX_AT_VSYNC, RULES
};
extern const char *const model_rules[RULES];        /* in words */
struct in_use { uint8_t gc, avi[AVI_BYTES], audio[AUDIO_BYTES]; int coefficient[12]; };
struct in_use model_in_use(const struct chip *c);
int           model_muted(const struct in_use *u);
int           model_same_avi(const struct in_use *a, const struct in_use *b);
int           model_same_audio(const struct in_use *a, const struct in_use *b);
int           model_same_matrix(const struct in_use *a, const struct in_use *b);
enum rule     model_cut_breaks(const struct in_use *now, const struct in_use *old, const struct in_use *end);
struct station_verdict model_judge(const struct chip *c, const uint8_t *list, size_t length, enum rule *rule);     /* 8 and 14 to 16 */

/* meter.c: a meter's numbers, by the bits of the floats. The size of one times a power of two, as a fraction; the field of a finite one at
 * its place, of twelve, in a mode (0 where it does not fit); and refusal 18 or 19, or the mode and the twelve fields. */
struct fraction { uint64_t top, bottom; };
int             model_finite(uint32_t number);
struct fraction model_size(uint32_t number, int twos);
int             model_is_offset(int place);
int             model_metered(uint32_t number, int place, int mode, int *field);
uint32_t        model_matrix_of(const uint32_t *numbers, int *mode, int *fields);

/* pipe.c: the number that N and CTS give for these bytes, 0 for none; and whether it stays, whatever bytes come after them. The places in a
 * pipe, its length, and the answer that is no refusal. */
enum { COUNT_AT = LONGEST, ANSWER_AT, PIPE_BYTES, PIPE_ACCEPTED = 255 };
uint32_t model_number(const uint8_t *bytes, size_t length);
int      model_final(const uint8_t *bytes, size_t length);

/* edid.c: the data blocks of a screen's extension, none where it has none; refusals 21 to 23 of an EDID, 0 for none; whether a short video
 * descriptor lists a VIC, and whether a short audio one covers a rate and a number of channels. The place of a request's VIC; whether it is
 * accepted with a wish's two bytes there, with its fields then; and whether the wish fits. */
enum { EDID_BLOCK = 128, MOST_BLOCKS = EDID_BLOCK, SHORT_AUDIO = 1, SHORT_VIDEO = 2, WISH_BYTES = 2, MOST_WISHES = 16, VIC_BITS = 64 };
struct data_block { int tag, length; const uint8_t *bytes; };
struct screen { int count; struct data_block blocks[MOST_BLOCKS]; };
uint32_t model_screen(const uint8_t *edid, size_t length, struct screen *s);
int      model_lists(const struct screen *s, int vic);
int      model_covers(const struct screen *s, int rate, int channels);
size_t   model_vic_at(const uint8_t *request);
int      model_mended(const uint8_t *request, size_t length, const uint8_t *wish, struct fields *f);
int      model_wish_fits(const struct screen *s, const uint8_t *request, size_t length, const uint8_t *wish);

/* face.c: the C face, by the model. */
struct station_count model_plan(const uint8_t *, size_t, const uint8_t *, size_t, uint8_t *, size_t);
struct station_count model_decode(const uint8_t *, size_t, uint8_t *, size_t);
struct station_pair  model_ncts(const uint8_t *, size_t);
uint32_t             model_write(uint8_t *, size_t, uint8_t *, size_t, uint8_t *, size_t, uint8_t *, size_t, uint8_t, uint8_t);
uint32_t             model_vsync(uint8_t *, size_t, uint8_t *, size_t, uint8_t *, size_t, uint8_t *, size_t);
struct station_part  model_sent(const uint8_t *, size_t, const uint8_t *, size_t, uint32_t);
struct station_state model_mute(const uint8_t *, size_t, const uint8_t *, size_t);
struct station_count model_matrix(const uint8_t *, size_t, const uint8_t *, size_t, uint8_t, uint8_t *, size_t);
struct station_pixel model_preview(const uint8_t *, size_t, uint32_t, uint32_t, uint32_t);
struct station_masks model_class(uint8_t);
struct station_verdict model_vet(const uint8_t *, size_t, const uint8_t *, size_t, const uint8_t *, size_t, uint8_t, const uint8_t *,
                                 size_t);
struct station_count model_meter(const float *, size_t, uint8_t *, size_t);
struct station_piped model_pipe_take(uint8_t *, size_t, const uint8_t *, size_t);
struct station_piped model_pipe_end(uint8_t *, size_t);
struct station_monitor model_edid(const uint8_t *, size_t);
struct station_choice model_choose(const uint8_t *, size_t, const uint8_t *, size_t, const uint8_t *, size_t);

#endif
