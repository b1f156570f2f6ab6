/* Durokwanyi: the C face. C99, usable from C++. docs/HOST.md says what a host must do, docs/REQUEST.md what a request is, docs/ABI.md what
 * may change from version to version.
 *
 * A slice is a pointer and a size_t. Every call takes any bytes as it finds them, ends, and touches nothing outside what it was lent.
 * Not promised: slices that overlap, and pointers that do not point to as many bytes as the length beside them says. A null pointer with
 * length 0 was tried and behaves as an empty slice; it is not promised.
 *
 * A request is four sections in this order, each after a byte that counts its bytes:
 *   wiring  0        today's board: RGB, 24 bits, separate syncs
 *           4        how the camera is wired to the chip, in the registers' own codes: input ID (1 to 8: 5 is RGB, all others YCbCr 4:2:2; 2, 4
 *                    and 8 have embedded syncs); bits of each colour (1, 2, 3 for 10, 12, 8); style (1, 2, 3 for style 2, 1, 3: IDs 3, 4, 7
 *                    and 8 have no style 3); justification (0 evenly distributed, 1 right, 2 left: ID 5 has 0 alone)
 *           12       for an ID with embedded syncs, and for no other: these four, then four numbers from 0 to 1023, two bytes each, high byte
 *                    first: Hsync placement and duration in pixels, Vsync placement and duration in lines
 *   video   7        VIC (1 to 5, 16 to 20, 31, 32, 34, 60, 62); family (0 whole frame rate, 1 divided by 1.001, which VIC 17 to 20 and 31
 *                    do not offer); encoding (0 RGB, 1 YCbCr 4:2:2, 2 YCbCr 4:4:4); link (0 DVI, 1 HDMI); range (0 limited, 1 full: what
 *                    the screen is told of RGB; with YCbCr it is 0); depth and pixel repetition in one byte: in its lower half the depth (0,
 *                    1, 2 for 24, 30, 36 bits a pixel), in its upper half the repetition (0 none, 1 twice, 2 four times); the edition byte:
 *                    in bits 1:0 the edition of the AVI InfoFrame (0 CEA-861-D, 1 CEA-861-E), in bits 3:2 the YCC quantisation (0 limited,
 *                    1 full), in bits 5:4 the content type (0 none or graphics, 1 photo, 2 cinema, 3 game), both 0 with D; bits 7:6 are 0
 *   audio   0 or 3   rate (0 to 6 for 32, 44.1, 48, 88.2, 96, 176.4, 192 kHz); channels (2 or 8); coherent (0 or 1)
 *   matrix  0 or 25  mode (0 to 2); coefficients A1 to A4, B1 to B4, C1 to C4, two bytes each, high byte first, two's complement, from
 *                    -4096 to 4095
 * So 00 07 10 00 00 01 00 00 00 03 02 02 01 00 is 1080p at 60 Hz, RGB over HDMI, limited range, 24 bits, no repetition, edition D, coherent
 * stereo at 48 kHz, no matrix, from today's board. A matrix is needed exactly where input and output are of different colour kinds, RGB and
 * YCbCr; elsewhere it is allowed.
 * N and CTS rest on the TMDS clock: the pixel clock times 1, 5/4 or 3/2 by the depth, times 1, 2 or 4 by the repetition. It is 225,000,000 Hz
 * at the most.
 * Sound travels in the picture's blanking. Two channels fit at every rate, in every mode; eight channels fit up to a rate that the mode and the
 * repetition decide, the family and the depth do not (docs/REQUEST.md, "Sound that fits").
 */
#ifndef STATION_H
#define STATION_H

#include <stddef.h>
#include <stdint.h>

/* The version of this header, one for each landing; CHANGELOG.md says what came with it. */
#define STATION_VERSION "6.1.0"
#define STATION_MAJOR 6
#define STATION_MINOR 1
#define STATION_PATCH 0

/* Lengths in bytes. */
#define STATION_IMAGE 256       /* a register image, the bytes of registers 0x00 to 0xFF */
#define STATION_PACKET 32       /* the chip machine's packet buffer */
#define STATION_COEFFICIENTS 24 /* its coefficient buffer */
#define STATION_MARK 1          /* its waiting mark */
#define STATION_WRITES 256      /* the least room for a write list */
#define STATION_REQUEST 51      /* the longest request, and the least room for one */
#define STATION_MATRIX 25       /* a matrix as a request has it: its mode and twelve coefficients */
#define STATION_LIST 1024       /* the longest list that a vendor may bring, 512 pairs */
#define STATION_PIPE (STATION_REQUEST + 2) /* a pipe: the request so far, its count, its answer */
#define STATION_EDID 256        /* the longest EDID: the base block and one extension, 128 bytes each */
#define STATION_WISHES 32       /* the most wishes: sixteen, each a VIC and a family */

/* And in numbers. */
#define STATION_METER 12        /* a colour meter's export: nine factors and three offsets */

/* The registers that a list writes, in rows: the first of each, and how many. Planning, decoding and station_vet look at no other register of
 * an image (proved), so a host need read no other; what was not read may be any byte. The image has 256 bytes all the same. As a table:
 *   static const uint8_t rows[][2] = STATION_ROWS; */
#define STATION_ROWS \
    { { 0x01, 3 }, { 0x07, 4 }, { 0x0C, 1 }, { 0x15, 2 }, { 0x18, 29 }, { 0x3B, 2 }, { 0x40, 1 }, { 0x44, 1 }, { 0x48, 1 }, { 0x4A, 3 }, \
      { 0x52, 16 }, { 0x70, 13 }, { 0x98, 1 }, { 0x9A, 1 }, { 0x9C, 2 }, { 0xA2, 2 }, { 0xAF, 1 }, { 0xE0, 1 }, { 0xF9, 1 } }

#ifdef __cplusplus
extern "C" {
#endif

/* Why a call refuses. Of those that a call gives, the first that applies, in the order of their numbers, is given; but 17 and after it 20 are
 * checked after 6 and before 7. Then every other field of the answer is 0 (but for the place beside 15), and no lent byte is changed. A pipe
 * alone says beside a request's number that it is answered, and remembers it. station_text.h has these lines as strings. */
enum station_refusal {
    STATION_ACCEPTED = 0,           /* none */
    STATION_INPUT_ENDS = 1,         /* input ends before a count or inside a section */
    STATION_COUNT_NOT_ALLOWED = 2,  /* a count the section does not allow */
    STATION_BYTES_AFTER = 3,        /* bytes after the matrix section */
    STATION_MODE_NOT_OFFERED = 4,   /* VIC not listed, or family not offered by it */
    STATION_FIELD_OUT_OF_RANGE = 5, /* any other field outside its range (matrix mode, depth or repetition above 2; range, edition or quantisation above 1; bits 7:6 of the edition byte); input ID 0 or above 8, a wiring that is not defined for its ID or a count that does not fit it, a sync value above 1023; not twelve numbers of a meter */
    STATION_COMBINATION = 6,        /* RGB input and encoding not 0, or YCbCr input and encoding 0, without a matrix; encoding not 0 with range 1; DVI with audio or with encoding not 0; more than 24 bits with 4:2:2 or DVI; quantisation or content type under edition D */
    STATION_IMAGE_LENGTH = 7,       /* image not of 256 bytes; in the machine also packet buffer not of 32, coefficient buffer not of 24, mark not of 1; bytes that are no pipe: another length, or a count above the longest request */
    STATION_HOLDS_UP = 8,           /* GC hold up, or AVI and audio holds both up */
    STATION_NO_EXACT_PAIR = 9,      /* coherent audio, and no exact pair exists */
    STATION_BUFFER_SHORT = 10,      /* write buffer shorter than 256 bytes; request buffer shorter than STATION_REQUEST; matrix buffer shorter than 25 */
    STATION_NO_REQUEST = 11,        /* no request ends in this image */
    STATION_INPUT_ABOVE = 12,       /* an input above 4095 */
    STATION_TWO_HOLDS = 13,         /* two packet holds are up, or the write would leave two up */
    STATION_LIST_LENGTH = 14,       /* a list of an odd length, or of more than 512 pairs */
    STATION_BAD_PAIR = 15,          /* a bad pair in a list; the first one's place stands beside the number */
    STATION_BAD_END = 16,           /* a list that ends in an image in which no request ends */
    STATION_CLOCK_ABOVE = 17,       /* a TMDS clock above 225,000,000 Hz */
    STATION_NOT_FINITE = 18,        /* a meter's number that is not a number, or infinite */
    STATION_NO_MODE_FITS = 19,      /* a meter's numbers for which there is no mode: with each factor below 2^mode in size, and every rounded field from -4096 to 4095 */
    STATION_SOUND_TOO_MUCH = 20,    /* sound that does not fit into the blanking of its mode with its repetition: too high a rate for eight channels */
    STATION_EDID_LENGTH = 21,       /* an EDID of neither 128 nor 256 bytes, or without its header 00 FF FF FF FF FF FF 00; wishes of an odd length, or more than sixteen */
    STATION_EDID_SUM = 22,          /* a block of an EDID whose bytes do not sum to zero modulo 256 */
    STATION_EDID_BLOCK = 23,        /* an extension whose tag is not 2, whose offset is 1 to 3 or above 127, or in which a data block runs past the offset */
    STATION_NO_WISH_FITS = 24       /* no wish whose VIC the screen lists, whose sound it covers, and with which the request is accepted */
};

struct station_count { uint32_t refusal, count; };
struct station_pair { uint32_t refusal, n, cts; };
struct station_part { uint32_t refusal, held, start, len; };
struct station_pixel { uint32_t refusal, a, b, c; };
struct station_state { uint32_t refusal, mute; };
struct station_masks { uint32_t read_only, mandated, named, free_bits, value; };
struct station_verdict { uint32_t refusal, place; };
struct station_piped { uint32_t refusal, answered, count; };
struct station_choice { uint32_t refusal, place, at; };
struct station_monitor { uint32_t refusal, vics_low, vics_high, rates_2, rates_8; };

/* The write list of a request on a register image of 256 bytes: `count` pairs of address and value at the front of `writes`, which has at
 * least 256 bytes; the bytes after them stay. A register whose byte in the image is right already is left out, so lend the registers as
 * the chip holds them now; nine writes always stay, to 0x4B, 0x4A and 0x1A. Refusals 1 to 6, 17, 20, 7 to 10.
 * Send the pairs in order, and wait for one rising edge of Vsync just before the last pair. The last pair to 0x1A lowers the coefficient
 * hold, and the chip takes the new coefficients at the first Vsync after it; the last pair of the list opens the picture. Any place between
 * these two will do, and just before the last pair is always such a place. Without that Vsync the picture opens on the old coefficients. */
struct station_count station_plan(const uint8_t *request, size_t request_length, const uint8_t *image, size_t image_length,
                                  uint8_t *writes, size_t writes_length);

/* The request that ends in a register image of 256 bytes: `count` bytes at the front of `request`, which has at least STATION_REQUEST; the
 * bytes after them stay. Its family is answered as 0, for no register names it; where the request was finished in family 1, the one that is
 * answered may itself be refused 9. The edition is answered as D where no bit of E is set, so E that asks for nothing reads back as D. The
 * wiring section is answered as it was asked, count and all. Of registers whose sound does not fit (20) it is 11. Refusals 7, 10 and 11. */
struct station_count station_decode(const uint8_t *image, size_t image_length, uint8_t *request, size_t request_length);

/* N and CTS for a request. Refusals 1 to 6, 17, 20 and 9. */
struct station_pair station_ncts(const uint8_t *request, size_t length);

/* Three 12-bit codes through a colour matrix: its mode and twelve coefficients as a request has them, 25 bytes. Refusals 5 (also a
 * length other than 25) and 12. */
struct station_pixel station_preview(const uint8_t *matrix, size_t length, uint32_t a, uint32_t b, uint32_t c);

/* A colour meter's export as a matrix: twelve floats, the nine factors and three offsets in the order of a request's matrix (A4, B4 and C4
 * are the offsets, in 12-bit codes), become `count` 25 bytes at the front of `matrix`, as a request and station_preview take them; the bytes
 * after them stay. The mode is the smallest in which each factor is below 2^mode in size and every rounded field fits. A factor's field is
 * the whole number nearest to factor * 4096 / 2^mode, an offset's the nearest to offset / 2^mode, the even one on a tie, exactly: no float is
 * rounded on the way. Refusals 5 (not STATION_METER numbers), 10 (fewer than 25 bytes), 18 and 19. */
struct station_count station_meter(const float *numbers, size_t count, uint8_t *matrix, size_t matrix_length);

/* A request that arrives in parts, as a pipe delivers them. A pipe is STATION_PIPE bytes of the host's, all 0 for a fresh one: the request so
 * far, the count of its bytes in byte STATION_REQUEST, and in the byte after it the answer, 0 for none yet, 255 for accepted, else the refusal.
 * station_pipe_take takes a part of any length, an empty one too. station_pipe_end says that the input has ended, which the host alone knows.
 * `answered` 1: `refusal` is the one that station_ncts gives for the parts joined, or 0, and then `count` bytes at the front of the pipe are
 * the request, ready for station_plan(pipe, count, ..). `answered` 0 with `refusal` 0: none yet, go on. `count` is 0 wherever it is not that.
 * Refusals 2 and 3, which no later byte changes, are answered by the part that holds the deciding byte; every other answer, acceptance too, by
 * the end. An answer stays: parts and ends after it are ignored, and say it again. A part that is answered at once is not kept; the answer's
 * byte is the only one that changes. Who wants to show what was refused keeps the part.
 * Any bytes may be lent as a pipe. 7, with `answered` 0 and no byte changed: another length, or a count above STATION_REQUEST, which no call
 * makes; stop there. What another hand has written into a pipe is taken as it stands: its bytes so far are judged with the next part or at the
 * end, and an answer of its own is said as it is, any number; but `count` is never above STATION_REQUEST. station_plan reads the bytes again,
 * and trusts no pipe. To take another request make all its bytes 0. */
struct station_piped station_pipe_take(uint8_t *pipe, size_t pipe_length, const uint8_t *part, size_t part_length);
struct station_piped station_pipe_end(uint8_t *pipe, size_t pipe_length);

/* What a screen says of itself: an EDID, the base block of 128 bytes, or that and one CEA-861 extension, 256. Byte 126 of the base block, which
 * counts extensions, is not looked at: the length says it. Bit v % 32 of `vics_low` (v below 32) or `vics_high` is 1 where a short video
 * descriptor lists VIC v, from 1 to 63; bit r of `rates_2` and of `rates_8` where a short audio descriptor of linear PCM covers rate r (0 to 6,
 * as a request has it) with two channels and with eight: it has that rate and at least those channels. A base block alone lists nothing, nor
 * does an extension of a revision below 3, or with offset 0. Bit 7 of a video descriptor (native) is no part of its VIC; "basic audio" is no
 * descriptor. Refusals 21 to 23. */
struct station_monitor station_edid(const uint8_t *edid, size_t edid_length);

/* The first of up to sixteen wishes that fits a request and a screen. A wish is two bytes, a VIC and a family, and they stand for those of the
 * request. It fits where a short video descriptor lists its VIC, where a short audio descriptor covers the request's rate and channels (any,
 * where the request has no sound), and where the request with it is one that station_ncts accepts. `place` is that wish's, from 0; its VIC and
 * family go to request[at] and request[at + 1], by the host: no lent byte is changed. Refusals 21 to 24, and no other: a request that
 * station_ncts refuses with every wish is 24, and so is one with no wish. What planning asks beyond it (7, 8, 10) it still asks. */
struct station_choice station_choose(const uint8_t *edid, size_t edid_length, const uint8_t *request, size_t request_length,
                                     const uint8_t *wishes, size_t wishes_length);

/* The chip machine: a register image of 256 bytes, a packet buffer of 32, a coefficient buffer of 24 and a waiting mark of 1, all four the
 * host's. It stands for the chip in tests and simulations. Planning and decoding need the image alone.
 * The mark is 0 for none; any other value says that a lowered coefficient hold waits for its Vsync. While it waits, or the hold is up, the
 * coefficient buffer is in use; else the registers. Beside a raised hold the mark counts for nothing. A call that is taken leaves the mark 0
 * or 1 (a 7 that still waits becomes 1), a refused one as it was. Calls that only look take the mark as a number. */

/* One write: the byte at `address` takes the value, but for its read-only bits, and a buffer is filled where a hold rises. Where the
 * coefficient hold falls, the mark is set; where it rises, the mark is dropped, and if a change waited, nothing is copied. Returns the number
 * of the refusal, 7 or 13, or 0; a refused write changes no byte. */
uint32_t station_write(uint8_t *image, size_t image_length, uint8_t *packet, size_t packet_length, uint8_t *coefficients,
                       size_t coefficients_length, uint8_t *mark, size_t mark_length, uint8_t address, uint8_t value);

/* One rising edge of Vsync: a change that waits is taken, so that from now on the registers are in use, as they stand. No byte but the mark
 * changes. Returns the number of the refusal, 7, or 0. */
uint32_t station_vsync(uint8_t *image, size_t image_length, uint8_t *packet, size_t packet_length, uint8_t *coefficients,
                       size_t coefficients_length, uint8_t *mark, size_t mark_length);

/* The packet that is sent, by its number: `len` bytes from `start` on, of the image where `held` is 0, of the packet buffer where it is 1.
 * Refusals 5 (another number), 7 and 13. */
#define STATION_AVI 0
#define STATION_AUDIO 1
struct station_part station_sent(const uint8_t *image, size_t image_length, const uint8_t *packet, size_t packet_length, uint32_t which);

/* The mute bits in use: `mute` 1 for muted, 2 for open, 0 and 3 for neither. Refusals 7 and 13. */
#define STATION_MUTED 1
#define STATION_OPEN 2
struct station_state station_mute(const uint8_t *image, size_t image_length, const uint8_t *packet, size_t packet_length);

/* The mode and the twelve coefficients in use, as a request has them: `count` 25 bytes at the front of `matrix`; the bytes after them
 * stay. The mode is the register's two bits and may be 3, which no request has. Refusals 7 and 10. */
struct station_count station_matrix(const uint8_t *image, size_t image_length, const uint8_t *coefficients, size_t coefficients_length,
                                    uint8_t mark, uint8_t *matrix, size_t matrix_length);

/* Whether a list that a vendor brings, pairs of address and value, may be run on the chip from this state. It is accepted exactly if each
 * pair touches only registers that hold a named bit, belong to the AVI or audio packet or stand in Table 14, carries the mandated bits,
 * keeps the free bits and never leaves two packet holds up; at every cut after the first write and before the last the picture is muted; at
 * each cut each group in use is as it began or as the list ends; and a request ends in the image that the list leaves. The empty list
 * passes exactly where 8 does not apply and a request ends in the image already. At most 512 pairs, STATION_LIST bytes.
 * Refusals 7, 8, 14, 15 with the `place` of the first bad pair, counted from 0, and 16; beside any other number `place` is 0. A pair is bad
 * too where the cut after it, with another pair to follow, is not as above. Bad pairs count towards the end, but for a pair that would leave
 * two packet holds up: the list ends before that one, for the tests of the pairs before it. No lent byte is changed.
 * The list is read with one Vsync just before its last pair (or, where it ends early, before its new last pair): run it so. */
struct station_verdict station_vet(const uint8_t *image, size_t image_length, const uint8_t *packet, size_t packet_length,
                                   const uint8_t *coefficients, size_t coefficients_length, uint8_t mark,
                                   const uint8_t *list, size_t list_length);

/* The class of a register's bits: the masks of read-only, mandated, named and free bits, and the value of the mandated ones. */
struct station_masks station_class(uint8_t address);

#ifdef __cplusplus
}
#endif

#endif
