/* A host on a real bus: shows a request on the ADV7511 at address 0x39 or 0x3D of /dev/i2c-N. It brings the chip up where that is to be done, and
 * a hot plug at any moment finds it out. docs/HOST.md says why each step is as it is.
 *
 *   i2c [--chip 0x3d] DEVICE BYTE...                 bytes of a request in hex, as the text of --help has them
 *   i2c [--chip 0x3d] --wish BYTES DEVICE BYTE...    the same, with the first of up to sixteen wishes that fits the screen, a VIC and a family each
 *   i2c [--chip 0x3d] --edid FILE DEVICE             no request: the screen's EDID goes into the file
 *
 * Status 0: on show, or the EDID is stored; 1: refused, and no list was sent: without --wish the bus was not even opened, and with --edid what was
 * read is stored; 2: misuse; 3: the bus or the chip failed, no screen is there, or no EDID or no Vsync came, and the same command may be given
 * again. */
#include <errno.h>
#include <fcntl.h>
#include <stdio.h>
#include <stdlib.h>
#include <string.h>
#include <sys/file.h>
#include <sys/ioctl.h>
#include <time.h>
#include <unistd.h>
#include <linux/i2c.h>
#include <linux/i2c-dev.h>
#include "../programs/words.h"
#include "station.h"
#include "station_text.h"

/* ---- The board: its own settings in bits that are free (station_class), rows of register, bits and value. A hot plug undoes them, and each
 * bring-up writes them again: its author fills them in, here or by -DBOARD=. A row without bits sets nothing. */
#ifndef BOARD
#define BOARD { 0x00, 0x00, 0x00 }
#endif
static const struct { uint8_t address, bits, value; } board[] = { BOARD };

const char *program = "i2c";
enum { FAILED = 3 };                                    /* beside ACCEPTED, REFUSED and MISUSE */
enum { CHIP = 0x39, OTHER_CHIP = 0x3D };                /* the chip's address, by its pin PD/AD (000, 4.1: 0x72 and 0x7A, with the bit behind) */
enum { ROW = 32, TRIES = 3, ROUNDS = 8 };               /* the most registers read in one transfer */
enum { GAP = 3 };                                       /* registers read in passing: 9 periods of the bus each, a new transfer takes 30 */
enum { POWER = 0x41, POWER_DOWN = 0x40, STATE = 0x42, SCREEN = 0x40, HOLDS = 0x4A, ALL_HOLDS = 0x70, GC_HOLD = 0x10 };
enum { MUTE = 0x4B, MUTE_BITS = 0xC0, MUTED = 0x40, OPEN = 0x80 };
enum { FLAGS = 0x96, PLUG_FLAG = 0x80, VSYNC_FLAG = 0x20, SENSE = 0xA1, SENSE_DOWN = 0x40 };
enum { EDGES = 2, PATIENCE = 250, PAUSE = 1 };           /* edges; ms for each, six frames of the slowest mode; ms between two reads */
enum { FOR_SCREEN = 1000, FOR_LOCK = 30000 };            /* ms; a run takes 13 s where the line falls in each round, with wishes 22 s */
/* The EDID (000, 4.6): its memory's own address, segment, reread and tries; the flag that it is read. */
enum { MEMORY = 0x43, SEGMENT = 0xC4, DDC = 0xC9, REREAD = 0x10, DDC_TRIES = 0x0F, TRIES_AT_START = 3, EDID_FLAG = 0x04 };
enum { TOGGLES = 10, FOR_EDID = 250, READINGS = 4 };     /* ms for each reading: 256 bytes take 23 ms at 100 kHz */
enum { EXTENSIONS = 126, BASE_BLOCK = STATION_EDID / 2 };

static unsigned long chip_at = CHIP;

static long ms(void) {
    struct timespec t;
    clock_gettime(CLOCK_MONOTONIC, &t);
    return (long)t.tv_sec * 1000 + t.tv_nsec / 1000000;
}

static void pause_a_moment(void) {
    const struct timespec pause = { 0, PAUSE * 1000000L };
    nanosleep(&pause, NULL);
}

/* ---- The bus: three functions. */

/* Opens the bus and takes the lock, which ends with the process. Where a driver of the kernel has the chip this fails (EBUSY), and where
 * somebody keeps the lock (EWOULDBLOCK). */
static int bus_open(const char *device) {
    int bus = open(device, O_RDWR | O_CLOEXEC), why = errno;
    if (bus < 0) return -1;
    if (ioctl(bus, I2C_SLAVE, chip_at) < 0) why = errno;
    else
        for (long from = ms();; pause_a_moment()) {
            if (flock(bus, LOCK_EX | LOCK_NB) == 0) return bus;
            why = errno;
            if (why != EWOULDBLOCK || ms() - from >= FOR_LOCK) break;
        }
    close(bus);
    errno = why;
    return -1;
}

/* Registers in a row, at most ROW in one transfer, of the chip or of its EDID memory. It counts the address up by itself; a repeated start, and
 * no stop, stands between the two messages. */
static int bus_read_at(int bus, unsigned long at, int first, int count, uint8_t *bytes) {
    for (int done = 0; done < count; done += ROW) {
        uint8_t address = (uint8_t)(first + done);
        uint16_t length = (uint16_t)(count - done < ROW ? count - done : ROW);
        struct i2c_msg messages[] = { { .addr = (uint16_t)at, .flags = 0, .len = 1, .buf = &address },
                                      { .addr = (uint16_t)at, .flags = I2C_M_RD, .len = length, .buf = bytes + done } };
        struct i2c_rdwr_ioctl_data transfer = { .msgs = messages, .nmsgs = 2 };
        if (ioctl(bus, I2C_RDWR, &transfer) != 2) return -1;
    }
    return 0;
}

static int bus_read(int bus, int first, int count, uint8_t *bytes) { return bus_read_at(bus, chip_at, first, count, bytes); }

/* One register, or two in one transfer. A write may be repeated, so a lost acknowledgement does no harm. */
static int bus_write_two(int bus, uint8_t *pairs, uint32_t count) {
    struct i2c_msg messages[] = { { .addr = (uint16_t)chip_at, .flags = 0, .len = 2, .buf = pairs },
                                  { .addr = (uint16_t)chip_at, .flags = 0, .len = 2, .buf = pairs + 2 } };
    struct i2c_rdwr_ioctl_data transfer = { .msgs = messages, .nmsgs = count };
    for (int t = 0; t < TRIES; t++)
        if (ioctl(bus, I2C_RDWR, &transfer) == (int)count) return 0;
    return -1;
}

static int bus_write(int bus, uint8_t address, uint8_t value) {
    uint8_t pair[] = { address, value, 0, 0 };
    return bus_write_two(bus, pair, 1);
}

/* The registers that are wanted; rows that lie near each other in one transfer. What is not read is 0. */
static int read_wanted(int bus, const uint8_t *wanted, uint8_t *image) {
    memset(image, 0, STATION_IMAGE);
    for (int first = 0, last; first < STATION_IMAGE; first = last + 1) {
        last = first;
        if (!wanted[first]) continue;
        for (int a = first; a <= last + 1 + GAP && a < STATION_IMAGE; a++)
            if (wanted[a]) last = a;
        if (bus_read(bus, first, last - first + 1, image + first) < 0) return -1;
    }
    return 0;
}

/* The registers that a list writes: planning looks at no other. */
static void find_written(uint8_t *written) {
    static const uint8_t rows[][2] = STATION_ROWS;
    memset(written, 0, STATION_IMAGE);
    for (size_t r = 0; r < sizeof rows / sizeof rows[0]; r++) memset(written + rows[r][0], 1, rows[r][1]);
}

/* ---- Bring-up. */

/* What bring-up sets: the mandated bits of registers that no list writes, and the board's. Not the flags: written as it is read, one that is up
 * would go down, that of the hot plug too. */
struct setting { uint8_t bits[STATION_IMAGE], value[STATION_IMAGE]; };
static void find_settings(struct setting *s) {
    uint8_t written[STATION_IMAGE];
    find_written(written);
    memset(s, 0, sizeof *s);
    for (int a = 0; a < STATION_IMAGE; a++) {
        struct station_masks m = station_class((uint8_t)a);
        if (!written[a] && a != FLAGS) s->bits[a] = (uint8_t)m.mandated, s->value[a] = (uint8_t)m.value;
    }
    for (size_t b = 0; b < sizeof board / sizeof board[0]; b++) {
        s->bits[board[b].address] |= board[b].bits;
        s->value[board[b].address] |= board[b].value;
    }
}

static uint8_t set_in(const struct setting *s, int a, uint8_t byte) { return (uint8_t)((byte & ~s->bits[a]) | s->value[a]); }

/* Writes each that is not so already, but for the power's register. */
static int settle(int bus, const struct setting *s) {
    uint8_t image[STATION_IMAGE];
    if (read_wanted(bus, s->bits, image) < 0) return -1;
    for (int a = 0; a < STATION_IMAGE; a++)
        if (a != POWER && set_in(s, a, image[a]) != image[a] && bus_write(bus, (uint8_t)a, set_in(s, a, image[a])) < 0) return -1;
    return 0;
}

/* The mute, the settings, the power; then the settings again, for the power's bit resets some registers too (000, Table 97: 0xAF to 0xCC). The
 * mute stands once more in the power's own transfer: a hot plug before that has undone it, and none fits in between. */
static int bring_up(int bus, uint8_t mute, uint8_t power) {
    struct setting s;
    find_settings(&s);
    mute = (uint8_t)((mute & ~MUTE_BITS) | MUTED);
    power = (uint8_t)(set_in(&s, POWER, power) & ~POWER_DOWN);
    uint8_t last[] = { MUTE, mute, POWER, power };
    if (bus_write(bus, MUTE, mute) < 0 || settle(bus, &s) < 0) return -1;
    return bus_write_two(bus, last, 2) < 0 || settle(bus, &s) < 0 ? -1 : 0;
}

/* The board's bits are free ones: what a list or the guide sets is no board's to change. */
static int board_is_free(void) {
    for (size_t b = 0; b < sizeof board / sizeof board[0]; b++)
        if (board[b].bits & ~station_class(board[b].address).free_bits || board[b].value & ~board[b].bits ||
            (board[b].bits && board[b].address == FLAGS)) return 0;
    return 1;
}

/* ---- Vsync. 0x96[5] is up once the chip has seen a leading edge; writing a 1 to it takes it down, and the other flags, written 0, stay
 * (000, 4.11 and 4.11.4). We read the mask 0x94[5] as the interrupt pin's alone, and set nothing. 0x96[7] is up once a screen was plugged in or
 * out since it was taken down. */

enum seen { SEEN, NOT_SEEN, NOT_READ, PLUGGED };

/* The next leading edge: the flag was seen down, and is up. The time is taken before the read, so that a host which slept between the two
 * does not give up too early. */
static enum seen next_edge(int bus) {
    long now, from = ms();
    int was_down = 0;
    uint8_t flags;
    do {
        now = ms();
        if (!was_down && bus_write(bus, FLAGS, VSYNC_FLAG) < 0) return NOT_READ;
        if (bus_read(bus, FLAGS, 1, &flags) < 0) return NOT_READ;
        if (flags & PLUG_FLAG) return PLUGGED;
        if (was_down && (flags & VSYNC_FLAG)) return SEEN;
        was_down |= !(flags & VSYNC_FLAG);
        pause_a_moment();
    } while (now - from < PATIENCE);
    return NOT_SEEN;
}

/* A rising edge, which is what the coefficients wait for. It is the leading one, or, where Vsync is low, the trailing one: from one leading
 * edge to the next there is one of either kind. */
static enum seen vsync(int bus) {
    enum seen s = SEEN;
    for (int e = 0; e < EDGES && s == SEEN; e++) s = next_edge(bus);
    return s;
}

/* A screen, within a second: one that is plugged in, or that starts anew, lowers its line for a while. */
static enum seen screen(int bus) {
    uint8_t state;
    for (long from = ms(), now = from;; now = ms()) {
        if (bus_read(bus, STATE, 1, &state) < 0) return NOT_READ;
        if (state & SCREEN) return SEEN;
        if (now - from >= FOR_SCREEN) return NOT_SEEN;
        pause_a_moment();
    }
}

/* A screen, and then the registers that are wanted, the screen's among them. From here on 0x96[7] tells of a hot plug; PLUGGED: one came. */
static enum seen read_back(int bus, const uint8_t *wanted, uint8_t *image) {
    uint8_t flags;
    enum seen s = screen(bus);
    if (s != SEEN) return s;
    if (bus_write(bus, FLAGS, PLUG_FLAG) < 0 || read_wanted(bus, wanted, image) < 0 || bus_read(bus, FLAGS, 1, &flags) < 0) return NOT_READ;
    return flags & PLUG_FLAG || !(image[STATE] & SCREEN) ? PLUGGED : SEEN;
}

struct answer { int status; uint32_t refusal; const char *words; };

static struct answer failed(const char *words) { return (struct answer){ FAILED, 0, words }; }
static struct answer refused(uint32_t refusal) { return (struct answer){ REFUSED, refusal, station_text(refusal) }; }

/* What was not read back, of a screen that is there or not. */
static struct answer not_read_back(enum seen s) {
    return failed(s == NOT_SEEN ? "no screen is plugged in (0x42[6]): the chip stays powered down" : "the registers cannot be read");
}

static const char no_sense[] = "monitor sense is powered down (0xA1[6]), so neither Vsync nor an EDID is seen: power it first";
static const char no_rest[] = "the registers do not stay as they are written: hot plugs, a reset, or somebody else writes";

/* ---- The EDID. The chip reads it by itself when a screen is there and it is powered: segment 0, 256 bytes, into a memory of its own; then
 * 0x96[2] goes up (000, 4.6). A hot plug takes that flag down. All that is written here are free bits. */

struct edid { uint8_t bytes[STATION_EDID]; size_t length; uint32_t refusal; };

/* Segment 0 once more, with the flag down before it. The reread's bit goes from 0 to 1 ten times, and tries that are used up are renewed
 * (000, 4.6.1.3 and 4.6.1.4). */
static int reread(int bus) {
    uint8_t ddc;
    if (bus_write(bus, FLAGS, EDID_FLAG) < 0 || bus_write(bus, SEGMENT, 0) < 0 || bus_read(bus, DDC, 1, &ddc) < 0) return -1;
    ddc = (uint8_t)((ddc & ~(REREAD | DDC_TRIES)) | TRIES_AT_START);
    for (int t = 0; t < TOGGLES; t++)
        if (bus_write(bus, DDC, ddc) < 0 || bus_write(bus, DDC, ddc | REREAD) < 0) return -1;
    return bus_write(bus, DDC, ddc);
}

static enum seen edid_ready(int bus) {
    uint8_t flags;
    for (long from = ms(), now = from;; now = ms()) {
        if (bus_read(bus, FLAGS, 1, &flags) < 0) return NOT_READ;
        if (flags & PLUG_FLAG) return PLUGGED;
        if (flags & EDID_FLAG) return SEEN;
        if (now - from >= FOR_EDID) return NOT_SEEN;
        pause_a_moment();
    }
}

/* The EDID of the screen, on a chip that is powered and was read back: what the chip has read by itself, or else, and where a header or a sum is
 * wrong, what it rereads. PLUGGED: begin again, for the bytes may be those of two screens. An EDID that stays wrong is handed on with its number. */
static enum seen get_edid(int bus, const uint8_t *image, struct edid *e) {
    uint8_t flags;
    enum seen s = NOT_SEEN;
    e->refusal = STATION_EDID_SUM;
    for (int r = 0; r < READINGS && (s != SEEN || e->refusal == STATION_EDID_LENGTH || e->refusal == STATION_EDID_SUM); r++) {
        if ((r || image[SEGMENT]) && reread(bus) < 0) return NOT_READ;
        s = edid_ready(bus);
        if (s == PLUGGED) return s;
        if (s == SEEN && bus_read_at(bus, image[MEMORY] >> 1, 0, STATION_EDID, e->bytes) < 0) s = NOT_READ;
        if (s != SEEN) continue;
        e->length = e->bytes[EXTENSIONS] ? STATION_EDID : BASE_BLOCK;
        e->refusal = station_edid(e->bytes, e->length).refusal;
    }
    if (bus_read(bus, FLAGS, 1, &flags) < 0) return NOT_READ;
    return flags & PLUG_FLAG ? PLUGGED : s;
}

static struct answer no_edid(enum seen s) {
    return failed(s == NOT_SEEN ? "no EDID came (0x96[2]): the screen does not answer on the cable's DDC lines" : "the EDID cannot be read");
}

/* The EDID alone. A chip that is powered down is brought up, and stays muted; one that shows a picture goes on. */
static struct answer ask_screen(int bus, struct edid *e) {
    uint8_t image[STATION_IMAGE], wanted[STATION_IMAGE] = { [POWER] = 1, [STATE] = 1, [MEMORY] = 1, [MUTE] = 1, [SENSE] = 1, [SEGMENT] = 1 };
    for (int round = 0; round < ROUNDS; round++) {
        enum seen s = read_back(bus, wanted, image);
        if (s == PLUGGED) continue;
        if (s != SEEN) return not_read_back(s);
        if (image[POWER] & POWER_DOWN) {
            if (bring_up(bus, image[MUTE], image[POWER]) < 0) return failed("the chip cannot be brought up");
            continue;
        }
        if (image[SENSE] & SENSE_DOWN) return failed(no_sense);
        s = get_edid(bus, image, e);
        if (s == PLUGGED) continue;
        if (s != SEEN) return no_edid(s);
        return e->refusal ? refused(e->refusal) : (struct answer){ ACCEPTED, 0, "the EDID is stored" };
    }
    return failed(no_rest);
}

/* ---- The request: read back, choose, plan, compare, send; until what is read back needs no write. */

struct bytes { uint8_t *at; size_t length; };
struct wishes { uint8_t *at; size_t length; uint32_t place; };          /* none where the length is 0; the place of the one that was chosen, from 0 */

/* The pairs in order, with one Vsync just before the last; NULL, or what failed. The picture is muted until the last. Where a hot plug came
 * since the registers were read the last is not sent: the next round reads them again. */
static const char *send_pairs(int bus, const uint8_t *list, uint32_t count) {
    for (uint32_t i = 0; i < count; i++) {
        enum seen s = i + 1 == count ? vsync(bus) : SEEN;
        if (s == PLUGGED) return NULL;
        if (s == NOT_SEEN) return "no Vsync came: is there a picture at the chip's input? It stays muted";
        if (s == NOT_READ) return "Vsync could not be read; the picture stays muted";
        if (bus_write(bus, list[2 * i], list[2 * i + 1]) < 0) return "a write failed; none was sent after it";
    }
    return NULL;
}

/* The first wish that fits the screen takes the place of the request's VIC and family. No answer: a hot plug came, begin again. */
enum { NO_ANSWER = -1 };
static struct answer choose(int bus, const uint8_t *image, struct bytes request, struct wishes *wishes) {
    struct edid e;
    enum seen s = get_edid(bus, image, &e);
    if (s == PLUGGED) return (struct answer){ NO_ANSWER, 0, NULL };
    if (s != SEEN) return no_edid(s);
    struct station_choice c = station_choose(e.bytes, e.length, request.at, request.length, wishes->at, wishes->length);
    if (c.refusal) return refused(c.refusal);
    wishes->place = c.place;
    memcpy(request.at + c.at, wishes->at + 2 * c.place, 2);
    return (struct answer){ ACCEPTED, 0, NULL };
}

/* With wishes the screen is asked in each round: after a hot plug it may be another one. */
static struct answer show(int bus, struct bytes request, struct wishes *wishes) {
    uint8_t image[STATION_IMAGE], end[STATION_IMAGE], wanted[STATION_IMAGE], list[STATION_WRITES];
    int is_up = 0;
    find_written(wanted);
    wanted[POWER] = wanted[STATE] = wanted[SENSE] = 1;
    if (wishes->length) wanted[MEMORY] = wanted[SEGMENT] = 1;
    for (int round = 0; round < ROUNDS; round++) {
        enum seen s = read_back(bus, wanted, image);
        if (s == PLUGGED) continue;
        if (s != SEEN) return not_read_back(s);
        int held = image[HOLDS] & ALL_HOLDS;
        if (held == GC_HOLD) {
            if (bus_write(bus, HOLDS, (uint8_t)(image[HOLDS] & ~GC_HOLD)) < 0) return failed("the GC hold is up and cannot be lowered");
            continue;
        }
        if (held & (held - 1)) return failed("two packet holds are up: reset the chip");
        /* A picture that is open was brought up; of any other nobody knows how far that came. */
        if (image[POWER] & POWER_DOWN || (!is_up && (image[MUTE] & MUTE_BITS) != OPEN)) {
            if (bring_up(bus, image[MUTE], image[POWER]) < 0) return failed("the chip cannot be brought up");
            is_up = 1;
            continue;
        }
        if (wishes->length) {
            if (image[SENSE] & SENSE_DOWN) return failed(no_sense);
            struct answer a = choose(bus, image, request, wishes);
            if (a.status == NO_ANSWER) continue;
            if (a.status) return a;
        }
        struct station_count plan = station_plan(request.at, request.length, image, sizeof image, list, sizeof list);
        if (plan.refusal) return refused(plan.refusal);
        memcpy(end, image, sizeof end);
        for (uint32_t i = 0; i < plan.count; i++) end[list[2 * i]] = list[2 * i + 1];
        if (!memcmp(end, image, sizeof end)) return (struct answer){ ACCEPTED, 0, "on show" };
        if (image[SENSE] & SENSE_DOWN) return failed(no_sense);
        const char *why = send_pairs(bus, list, plan.count);
        if (why) return failed(why);
    }
    return failed(no_rest);
}

/* Refused before the bus is opened, where no wish is still to be put into the request; the lock from before bring-up to the last write. With room
 * for an EDID there is no request. */
static struct answer run(const char *device, struct bytes request, struct wishes *wishes, struct edid *edid) {
    static char words[256];
    uint32_t refusal = edid || wishes->length ? 0 : station_ncts(request.at, request.length).refusal;
    if (refusal) return refused(refusal);
    int bus = bus_open(device);
    if (bus < 0) {
        const char *number = strrchr(device, '-');
        if (errno == EBUSY)
            snprintf(words, sizeof words, "%.40s: a driver of the kernel has the chip at 0x%02lx. Take it away first, as root: "
                     "echo %.10s-00%02lx >/sys/bus/i2c/devices/%.10s-00%02lx/driver/unbind", device, chip_at, number ? number + 1 : "N", chip_at,
                     number ? number + 1 : "N", chip_at);
        else if (errno == EWOULDBLOCK) snprintf(words, sizeof words, "%.40s: another host has held the lock for %d s", device, FOR_LOCK / 1000);
        else snprintf(words, sizeof words, "%.40s: %s", device, strerror(errno));
        return failed(words);
    }
    struct answer a = edid ? ask_screen(bus, edid) : show(bus, request, wishes);
    close(bus);
    return a;
}

/* ---- The command. */

static const char help[] =
    "i2c [--chip 0x3d] DEVICE BYTE...               shows a request on the chip at 0x39, or at 0x3d\n"
    "i2c [--chip 0x3d] --wish BYTES DEVICE BYTE...  the same, with the first wish that fits the screen in place of the request's mode;\n"
    "                                               up to sixteen, each a VIC and a family, in hex as the request\n"
    "i2c [--chip 0x3d] --edid FILE DEVICE           stores the screen's EDID in the file, 128 or 256 bytes\n"
    "As in: i2c /dev/i2c-1 " EXAMPLE "\n"
    "Or:    i2c --wish '10 00 04 00' /dev/i2c-1 " EXAMPLE "\n";

static void take_chip(const char *word, struct option *o) {
    (void)o;
    if (strcmp(word, "0x39") && strcmp(word, "0x3d") && strcmp(word, "0x3D")) misuse("--chip is 0x39 or 0x3d");
    chip_at = strcmp(word, "0x39") ? OTHER_CHIP : CHIP;
}

static void take_name(const char *word, struct option *o) { *(const char **)o->into = word; }

static void take_wishes(const char *word, struct option *o) {
    struct wishes *w = o->into;
    w->at = malloc(strlen(word) + 1);
    if (!w->at) misuse("no memory");
    w->length = bytes_of_word(word, w->at);
    if (w->length % 2 || w->length > STATION_WISHES) misuse("--wish takes a VIC and a family for each wish, and %d wishes at the most", STATION_WISHES / 2);
}

/* The first word is the device, the others are the request. */
struct command { const char *device; struct bytes request; };
static void take_word(const char *word, void *into) {
    struct command *c = into;
    if (!c->device) c->device = word;
    else c->request.length += bytes_of_word(word, c->request.at + c->request.length);
}

static void store(const char *name, const struct edid *e) {
    FILE *f = fopen(name, "wb");
    if (!f) misuse("%s cannot be opened", name);
    size_t got = fwrite(e->bytes, 1, e->length, f);
    if (fclose(f) || got < e->length) misuse("%s cannot be written", name);
}

int main(int count, char **arguments) {
    const char *file = NULL;
    struct wishes wishes = { NULL, 0, 0 };
    struct edid edid = { .length = 0 };
    struct command c = { NULL, { NULL, 0 } };
    struct option options[] = { { "--chip", take_chip, NULL, 0, 0 }, { "--edid", take_name, &file, 0, 0 }, { "--wish", take_wishes, &wishes, 0, 0 } };
    size_t letters = 1;
    for (int i = 1; i < count; i++) letters += strlen(arguments[i]);
    c.request.at = malloc(letters);
    if (!c.request.at) misuse("no memory");
    words_of_command(count, arguments, help, options, sizeof options / sizeof options[0], take_word, &c);
    if (!c.device) misuse("a device is missing, such as /dev/i2c-1");
    if (file && (c.request.length || wishes.length)) misuse("--edid takes no request and no wish");
    if (wishes.length && !c.request.length) misuse("--wish goes with a request");
    if (!board_is_free()) misuse("a row of BOARD sets bits that are not free, or 0x96");

    struct answer a = run(c.device, c.request, &wishes, file ? &edid : NULL);
    if (edid.length && a.status != FAILED) store(file, &edid);
    if (a.status == FAILED) fprintf(stderr, "i2c: %s\n", a.words);
    else if (a.refusal) printf("refused %u: %s\n", (unsigned)a.refusal, a.words);
    else if (wishes.length)
        printf("%s: wish %u, VIC %u, family %u\n", a.words, (unsigned)wishes.place, wishes.at[2 * wishes.place], wishes.at[2 * wishes.place + 1]);
    else printf("%s\n", a.words);
    free(wishes.at);
    free(c.request.at);
    return printed(a.status);
}
