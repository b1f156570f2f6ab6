/* The example host for a real bus, host/i2c.c, on a fake one: its own text, with the system calls that reach a bus or tell the time
 * replaced by a chip in memory, which reads the messages as an adapter would, and a clock by which Vsync comes. Writes are lost or their
 * acknowledgement is, once or for good, at each place; the chip is reset at each place; Vsync comes at any moment, or never; registers that
 * no list writes hold anything. A screen is plugged out and in at each moment, also under hosts that are killed, and what is in use is looked at
 * after every event; hosts that leave out a step are found out by it. Screens have an EDID, late or never, damaged or whole, and after a hot plug
 * another one. Prints the numbers that docs/HOST.md has (tests/i2c/run compares), then
 * 'N passed, M failed'. */
#include <fcntl.h>
#include <setjmp.h>
#include <sys/file.h>
#include <sys/ioctl.h>
#include <time.h>
#include <unistd.h>

static int fake_time(struct timespec *t);
static int fake_pause(const struct timespec *t);
#define clock_gettime(clock, t) fake_time(t)
#define nanosleep(t, rest) fake_pause(t)
static int fake_open(const char *device, int flags);
static int fake_ioctl(int bus, unsigned long what, void *data);
static int fake_lock(int bus, int how);
#define open(device, flags) fake_open(device, flags)
#define ioctl(bus, what, data) fake_ioctl(bus, what, (void *)(data))
#define flock(bus, how) fake_lock(bus, how)
#define close(bus) ((void)(bus))
#define main example_main
#define BOARD { 0x0A, 0x03, 0x01 }, { 0x48, 0x60, 0x20 }, { 0xBA, 0xE0, 0x60 }
#include "../../host/i2c.c"
#undef main
#include "../../programs/chip.h"
#include "../../programs/fields.h"
#include "../../programs/may.h"

/* ---- The chip: document 01's machine, with power, a screen that is there or not, and its flags. */

enum { BUS = 7, NOT_TAKEN = 1, NOT_HEARD = 2, COLOUR_DEPTH = 0x4C };
static struct chip chip;
static struct {
    long sent, fails, resets;                           /* writes of a list sent; the one that fails or meets a reset, from 1; 0: none */
    int how, for_good, dead, locked;                    /* how it fails, and whether all after it do; no read either; the lock is held */
    int no_flags;                                       /* no read of the flags, and no write of them */
    int turning;                                        /* the packing phase, 0x4C[7:4], is another at each read */
    long reads, registers;                              /* transfers that read, but for those of the flags and of the screen, and registers in them */
    long opened, held_until;                            /* times that the bus was opened; somebody else has the lock until then */
    int driver, first;                                  /* a driver of the kernel has the chip; the first register written, but for the flags */
} bus;
static long wrong;                                      /* messages that a real chip would not understand, and writes without the lock */
static long opened_early;                               /* times that the picture was opened while a change of the coefficients waited */

/* Time, in ms; a transfer takes one. Every `frame` ms Vsync goes up and `pulse` ms later down, or the other way round where it is `low`.
 * The chip's flag tells of the leading edge, its coefficients wait for the rising one. No frame: no Vsync. A flag may be stuck. */
static struct { long now, frame, pulse; int low, flag, stuck; } video = { .frame = 17, .pulse = 5 };

/* The defaults of the map that are not 0 (000, section 5), the screen there, and a free bit in 0xE4. */
static const uint8_t defaults[STATION_IMAGE] = {
    [0x0B] = 0x0E, [0x18] = 0x46, 0x62, 0x04, 0xA8, 0x00, 0x00, 0x1C, 0x84, 0x1C, 0xBF, 0x04, 0xA8, 0x1E, 0x70, 0x02, 0x1E, 0x00, 0x00,
    0x04, 0xA8, 0x08, 0x12, 0x1B, 0xAC, [0x3B] = 0x80, [0x41] = 0x50, [0x43] = 0x7E, [0x44] = 0x79, 0x70, [0x49] = 0xA8, 0x80, [0x52] = 0x02, 0x0D,
    [0x70] = 0x01, 0x0A, [0x94] = 0xC0, [0x98] = 0x0B, 0x02, [0x9B] = 0x18, 0x5A, 0x60, [0xA2] = 0x80, 0x80, 0x08, 0x04, [0xAB] = 0x40, [0xAF] = 0x14,
    [0xBA] = 0x10, [0xC9] = 0x03, [0xCE] = 0x01, 0x04, 0x30, 0xFF, 0x80, 0x80, 0x80, [0xDE] = 0x10, [0xE0] = 0x80, 0x78, [0xE4] = 0x5A, [0xF9] = 0x7C,
    [STATE] = 0xF0,
};

/* Which bits: 000, Table 97, the columns of the HPD pin and of the power's bit. */
static uint8_t reset_by_plug(int a) {
    if (a == STATE) return 0;
    return a <= 0x95 || (a >= 0xAF && a <= 0xCC) || (a >= 0xF9 && a <= 0xFE) ? 0xFF : a == 0x96 ? 0x3F : a == 0x97 ? 0xC0 : 0;
}
static uint8_t reset_by_power(int a) { return a == 0x94 || a == 0x95 || (a >= 0xAF && a <= 0xCC) ? 0xFF : a == 0x96 ? 0x3F : a == 0x97 ? 0xC0 : 0; }
static void reset(uint8_t (*bits)(int)) {
    for (int a = 0; a < STATION_IMAGE; a++) chip.image[a] = (uint8_t)((chip.image[a] & ~bits(a)) | (defaults[a] & bits(a)));
}

/* The screen. One hot plug, or several, each before a transfer, in its middle or after it; how long the line is low; whether writes that come
 * meanwhile are lost. Somebody who is not the host may bring the chip up when the screen is back. */
enum phase { BEFORE, IN, AFTER, PHASES };
enum { PLUGS = 4 };
static struct { long at[PLUGS]; enum phase phase[PLUGS]; long at_ms, low, stall; int lost; } plugs;      /* transfers from 1; or a time; 0: none */
static struct { int is_low; long rises, transfers, kills, powers; } line;       /* kills: the transfer at which the host is killed, from 1 */
enum by { NOBODY, CAREFUL, CARELESS };
static enum by stranger;                                /* brings the chip up outside the lock, after the mute or without it */
/* Wrong hosts: one does not see 0x96[7]; one takes that flag down after the read-back and not before; the mute of one comes after the power. */
static int no_look, late_flag, no_mute;
static jmp_buf killed;

/* The chip's reader of the EDID (000, 4.6 and Table 97). It begins when the chip is powered and a screen is there, when a segment is written, and when
 * the reread's bit has gone up ten times; a try that the screen does not answer is counted down, and at 0 it stops. When it has all 256 bytes its flag
 * goes up; until then the memory holds some old and some new ones, and after a hot plug those of the screen that came. */
static struct {
    uint8_t says[STATION_EDID], memory[STATION_EDID];   /* the screen's own bytes, and the chip's copy */
    const uint8_t *beyond;                              /* what its next segment has */
    const uint8_t *next;                                /* what the screen says that comes with a hot plug; NULL: the same */
    long takes, ready;                                  /* ms for a try; when the one under way is over, 0: none is */
    int deaf, spoiled, broken, place;                   /* to come: tries not answered, readings with a wrong byte at the place, failing transfers */
    int up, edges, readings;                            /* powered, with a screen; edges of the reread's bit; readings that ended */
    const uint8_t *remembered;                          /* a wrong host: it goes on with the EDID of before; NULL: it does not */
} ddc;

static void ddc_begin(void) {
    if (!(chip.image[DDC] & DDC_TRIES)) return;
    ddc.ready = video.now + ddc.takes;
    memset(ddc.memory, 0xA5, BASE_BLOCK);
}

static void ddc_end(void) {
    ddc.ready = 0;
    if (ddc.deaf) {
        ddc.deaf--, chip.image[DDC]--;
        ddc_begin();
        return;
    }
    memcpy(ddc.memory, chip.image[SEGMENT] && ddc.beyond ? ddc.beyond : ddc.says, sizeof ddc.memory);
    if (ddc.spoiled) ddc.spoiled--, ddc.memory[ddc.place] ^= 0x10;
    ddc.readings++;
    chip.image[FLAGS] |= EDID_FLAG;
}

static void ddc_tick(void) {
    int up = !(chip.image[POWER] & POWER_DOWN) && (chip.image[STATE] & SCREEN);
    if (up && !ddc.up) ddc_begin();
    if (!up) ddc.ready = 0;
    ddc.up = up;
    if (ddc.ready && video.now >= ddc.ready) ddc_end();
}

/* A write to one of its two registers: as it was, and as it is. */
static void ddc_written(uint8_t address, uint8_t was) {
    if (address == SEGMENT && ddc.up) ddc_begin();
    if (address != DDC || !(chip.image[DDC] & ~was & REREAD)) return;
    if (++ddc.edges % 10 == 0 && ddc.up) ddc_begin();
}

static void ddc_falls(void) {
    ddc.ready = 0, ddc.up = 0;
    if (ddc.next) memcpy(ddc.says, ddc.next, sizeof ddc.says), memcpy(ddc.memory, ddc.says, sizeof ddc.memory);
}

/* What is in use, after every event. A chip that is powered and not muted shows a finished request: that of before, or that which is asked for. */
static struct { int on; long points, open, unmuted; } judge;
static int finished(void);
static void look(void) {
    if (!judge.on) return;
    judge.points++;
    if (line.is_low || (chip.image[POWER] & POWER_DOWN)) return;
    uint32_t mute = station_mute(chip.image, STATION_IMAGE, chip.packet, STATION_PACKET).mute;
    if (mute == STATION_MUTED || finished()) return;
    judge.open += mute == STATION_OPEN, judge.unmuted += mute != STATION_OPEN;
}

static void fall(void) {
    line.is_low = 1, line.rises = video.now + plugs.low, line.powers = 0;
    reset(reset_by_plug);
    memset(chip.mark, 0, sizeof chip.mark);
    video.flag = 0;
    ddc_falls();
    chip.image[STATE] &= (uint8_t)~SCREEN;
    chip.image[FLAGS] |= PLUG_FLAG;
    look();
}

static int take(const uint8_t *pair);
static void rise(void) {
    line.is_low = 0;
    chip.image[STATE] |= SCREEN;
    chip.image[FLAGS] |= PLUG_FLAG;
    if (stranger != NOBODY) line.powers = video.now + 2;
    look();
}

static void tick(void);
static void plug_at(enum phase p) {
    for (int k = 0; k < PLUGS; k++)
        if (plugs.at[k] && plugs.at[k] == line.transfers && plugs.phase[k] == p && !line.is_low) {
            fall();
            for (long t = 0; t < plugs.stall; t++) tick();      /* the host is held up, and sees nothing of it */
        }
}

/* The stranger's bring-up. */
static void power_by_stranger(void) {
    static const uint8_t mute[] = { MUTE, MUTED }, power[] = { POWER, 0x10 };
    line.powers = 0;
    if (stranger == CAREFUL) take(mute), look();
    take(power), look();
}

static void tick(void) {
    video.now++;
    if (plugs.at_ms && video.now == plugs.at_ms) fall();
    if (line.is_low && video.now >= line.rises) rise();
    if (line.powers && video.now >= line.powers) power_by_stranger();
    ddc_tick();
    if (!video.frame) return;
    int leads = video.now % video.frame == 0, trails = video.now % video.frame == video.pulse;
    if (leads) video.flag = 1;
    if (video.low ? trails : leads) wrong += chip_vsync(&chip) != 0, look();
}

static int fake_time(struct timespec *t) {
    t->tv_sec = video.now / 1000, t->tv_nsec = video.now % 1000 * 1000000L;
    return 0;
}

static int fake_pause(const struct timespec *t) {
    for (long until = video.now + t->tv_sec * 1000 + t->tv_nsec / 1000000; video.now < until; ) tick();
    return 0;
}

/* ---- The bus. */

static int fake_open(const char *device, int flags) {
    (void)device, (void)flags;
    bus.opened++;
    return BUS;
}

static int fake_lock(int b, int how) {
    wrong += b != BUS || how != (LOCK_EX | LOCK_NB);
    bus.locked = video.now >= bus.held_until;
    errno = EWOULDBLOCK;
    return bus.locked ? 0 : -1;
}

/* A flag that is written 1 goes down, of the hot plug, of Vsync or of the EDID; no other may be written there. */
static int fake_flags(uint8_t value) {
    wrong += value != VSYNC_FLAG && value != PLUG_FLAG && value != EDID_FLAG;
    if (bus.no_flags) return -1;
    if (value == VSYNC_FLAG) video.flag = video.stuck;
    else chip.image[FLAGS] &= (uint8_t)~value;
    return 1;
}

/* The machine takes a write, but for the power's bit without a screen; powered down, some registers stay reset. The number of the refusal. */
static int take(const uint8_t *pair) {
    uint8_t taken[] = { pair[0], pair[1] };
    if (line.is_low && plugs.lost) return 0;
    if (pair[0] == POWER && line.is_low) taken[1] |= POWER_DOWN;
    if (pair[0] == STATE) return 0;
    uint8_t was = chip.image[pair[0]];
    uint32_t refusal = chip_write(&chip, taken);
    ddc_written(pair[0], was);
    if (chip.image[POWER] & POWER_DOWN) reset(reset_by_power);
    return (int)refusal;
}

static int fake_write(const uint8_t *pair, int counts) {
    if (pair[0] == FLAGS) return fake_flags(pair[1]);
    if (!bus.first) bus.first = pair[0];
    bus.sent += counts;
    if (late_flag && counts && bus.sent == 1) chip.image[FLAGS] &= (uint8_t)~PLUG_FLAG;
    if (counts && bus.resets == bus.sent) {
        reset(reset_by_plug);
        memset(chip.mark, 0, sizeof chip.mark);
    }
    int fails = counts && bus.fails && (bus.sent == bus.fails || (bus.for_good && bus.sent > bus.fails));
    if (!fails || (bus.how == NOT_HEARD && bus.sent == bus.fails)) {
        struct sent s = chip_sent(&chip);
        wrong += take(pair) != 0;
        opened_early += s.waiting && s.mute == STATION_MUTED && chip_sent(&chip).mute == STATION_OPEN;
        look();
    }
    if (fails) errno = EREMOTEIO;
    return fails ? -1 : 1;
}

/* Two writes in one transfer are the mute and the power, in this order. A host without the mute has them the other way round. */
static int fake_two(struct i2c_msg *m) {
    const uint8_t *first = m[no_mute].buf, *second = m[!no_mute].buf;
    wrong += m[0].buf[0] != MUTE || (m[0].buf[1] & MUTE_BITS) != MUTED || m[1].buf[0] != POWER || m[1].buf[1] & POWER_DOWN;
    fake_write(first, 0);
    plug_at(IN);
    fake_write(second, 0);
    return 2;
}

static int fake_read(uint8_t first, uint8_t *bytes, uint16_t length) {
    int flags = first == FLAGS;
    if (bus.dead || (bus.no_flags && flags)) return -1;
    if (!flags && first != STATE) bus.reads++, bus.registers += length;
    if (bus.turning) chip.image[COLOUR_DEPTH] = (uint8_t)(chip.image[COLOUR_DEPTH] + 0x10);
    chip.image[FLAGS] = (uint8_t)((chip.image[FLAGS] & ~VSYNC_FLAG) | (video.flag || video.stuck ? VSYNC_FLAG : 0));
    for (uint16_t k = 0; k < length; k++) {
        if (k == length / 2) plug_at(IN);
        bytes[k] = chip.image[first + k];
        if ((no_look || (late_flag && !bus.sent)) && first + k == FLAGS) bytes[k] &= (uint8_t)~PLUG_FLAG;
    }
    return 2;
}

/* The EDID memory, behind an address of its own. */
static uint16_t memory_at(void) { return chip.image[MEMORY] >> 1; }
static int fake_memory(uint8_t first, uint8_t *bytes, uint16_t length) {
    if (bus.dead || ddc.broken) {
        ddc.broken -= ddc.broken > 0;
        return -1;
    }
    for (uint16_t k = 0; k < length; k++) {
        if (k == length / 2) plug_at(IN);
        bytes[k] = (ddc.remembered ? ddc.remembered : ddc.memory)[first + k];
    }
    return 2;
}

/* Is it the mute of a bring-up, which a host without it does not send? */
static int is_early_mute(const uint8_t *pair) { return no_mute && pair[0] == MUTE && (chip.image[POWER] & POWER_DOWN); }

static int fake_transfer(struct i2c_rdwr_ioctl_data *d) {
    struct i2c_msg *m = d->msgs;
    if (d->nmsgs == 1 && m[0].flags == 0 && m[0].len == 2) {
        plug_at(IN);
        return is_early_mute(m[0].buf) ? 1 : fake_write(m[0].buf, 1);
    }
    if (d->nmsgs == 2 && m[0].flags == 0 && m[0].len == 2 && m[1].flags == 0 && m[1].len == 2) return fake_two(m);
    if (d->nmsgs == 2 && m[0].flags == 0 && m[0].len == 1 && m[1].flags == I2C_M_RD && m[0].buf[0] + m[1].len <= STATION_IMAGE)
        return m[0].addr == chip_at ? fake_read(m[0].buf[0], m[1].buf, m[1].len) : fake_memory(m[0].buf[0], m[1].buf, m[1].len);
    wrong++;
    return -1;
}

static int fake_ioctl(int b, unsigned long what, void *data) {
    if (what == I2C_SLAVE) {
        errno = EBUSY;
        wrong += data != (void *)chip_at;
        return bus.driver ? -1 : 0;
    }
    struct i2c_rdwr_ioctl_data *d = data;
    wrong += b != BUS || what != I2C_RDWR || !bus.locked;
    for (uint32_t i = 0; i < d->nmsgs; i++)
        wrong += d->msgs[i].addr != chip_at && (d->msgs[i].addr != memory_at() || d->nmsgs != 2 || d->msgs[1].flags != I2C_M_RD);
    line.transfers++;
    if (line.transfers == line.kills) longjmp(killed, 1);
    tick();
    plug_at(BEFORE);
    int answer = fake_transfer(d);
    plug_at(AFTER);
    return answer;
}

/* ---- The tests. */

static struct request asked;
static long passed, lost;

static void tell(int good, const char *what, long place) {
    if (good) passed++;
    else printf("%s, at %ld\n", what, place), lost++;
}

static uint8_t list[STATION_WRITES];
static long writes;
static struct chip start, end;
static struct sent old, new;

/* As a finished run left it: the registers, but for the flags and those of the EDID's reader, and all three groups in use; nothing waits. */
static int is_as(const struct chip *c, const struct chip *left, const struct sent *in_use) {
    struct chip now = *c;
    struct sent s = chip_sent(c);
    now.image[FLAGS] = left->image[FLAGS], now.image[SEGMENT] = left->image[SEGMENT], now.image[DDC] = left->image[DDC];
    return !memcmp(now.image, left->image, sizeof left->image) && !memcmp(&s, in_use, sizeof s);
}

static int is_end(const struct chip *c) { return is_as(c, &end, &new); }
static int ended(void) { return is_end(&chip); }
static struct chip other_end;                           /* of the second wish, for the other screen */
static struct sent other_new;
static int finished(void) { return is_as(&chip, &end, &new) || is_as(&chip, &start, &old) || is_as(&chip, &other_end, &other_new); }

/* Each group in use is all old or all new. */
static int whole(const struct chip *c) {
    struct sent s = chip_sent(c);
    for (int g = 0; g < GROUPS; g++)
        if (age((enum group)g, &s, &old, &new) == NEITHER) return 0;
    return 1;
}

static int careful(const struct chip *c) { return whole(c) && chip_sent(c).mute == STATION_MUTED; }

/* A new run of the program on the bus as it is: opened, locked, closed. */
enum { KILLED = -1 };
static struct wishes wished;                            /* of the runs to come; and where an EDID is to go, NULL: it is no such run */
static struct edid *into;
static uint32_t refusal;
static int again(struct request q) {
    bus.sent = bus.reads = bus.registers = bus.locked = bus.opened = bus.first = line.transfers = 0;
    if (setjmp(killed)) return KILLED;
    struct answer a = run("/dev/i2c-1", (struct bytes){ q.bytes, q.length }, &wished, into);
    refusal = a.refusal;
    return a.status;
}

static void heal(void) { bus.fails = bus.resets = bus.how = bus.for_good = bus.dead = bus.no_flags = bus.driver = video.stuck = 0, bus.held_until = 0; }

static void on_the_bus(void) {
    heal();
    tell(again(asked) == ACCEPTED && bus.sent == writes && ended(), "a run", 0);
    tell(again(asked) == ACCEPTED && bus.sent == 0 && ended(), "what is on show is written again", 0);
    for (int how = NOT_TAKEN; how <= NOT_HEARD; how++)
        for (long k = 1; k <= writes; k++) {
            chip = start;
            heal();
            bus.fails = k, bus.how = how;
            tell(again(asked) == ACCEPTED && bus.sent == writes + 1 && ended(), "a repeated write", k);
            chip = start;
            bus.for_good = 1;
            tell(again(asked) == FAILED && bus.sent == k - 1 + TRIES, "a failed write", k);
            if (k > 1 && k < writes) tell(careful(&chip), "muted, old or new, where a write failed", k);
            heal();
            tell(again(asked) == ACCEPTED && ended(), "started again", k);
        }
    for (long k = 1; k <= writes; k++) {
        chip = start;
        bus.resets = k;
        tell(again(asked) == ACCEPTED && bus.sent > writes && ended(), "a reset", k);
        heal();
    }
}

/* Which registers a list writes, by one on registers of which all is wrong. */
static void find_all(uint8_t *written) {
    uint8_t image[STATION_IMAGE], all[STATION_WRITES];
    for (int a = 0; a < STATION_IMAGE; a++) image[a] = (uint8_t)~end.image[a];
    image[0x4A] &= 0x8F;
    uint32_t most = station_plan(asked.bytes, asked.length, image, sizeof image, all, sizeof all).count;
    memset(written, 0, STATION_IMAGE);
    for (uint32_t w = 0; w < most; w++) written[all[2 * w]] = 1;
}

/* The other registers hold anything, but for power, the screen, monitor sense and the flags: the same list is sent, and they stay. */
static void whatever_else(void) {
    uint8_t written[STATION_IMAGE];
    uint32_t noise = 1;
    heal();
    find_all(written);
    for (long k = 0; k < 200; k++) {
        struct chip was = start;
        for (int a = 0; a < STATION_IMAGE; a++) {
            noise = noise * 1664525 + 1013904223;
            if (!written[a] && a != POWER && a != STATE && a != SENSE && a != FLAGS) was.image[a] = (uint8_t)(k ? noise >> 24 : 0xFF);
        }
        chip = was;
        int good = again(asked) == ACCEPTED && bus.sent == writes;
        for (int a = 0; a < STATION_IMAGE; a++)
            good &= a == FLAGS || chip.image[a] == (written[a] ? end.image[a] : was.image[a]);
        tell(good, "with anything in the other registers", k);
        tell(again(asked) == ACCEPTED && bus.sent == 0, "the same, on show", k);
    }
    printf("read back: %ld registers in %ld transfers\n", bus.registers, bus.reads);
}

/* Vsync at each moment of a frame, low and not, at a fast and a slow rate: the picture opens on the new coefficients, after one rising edge
 * at least. */
static void with_vsync(void) {
    static const long frames[] = { 17, 20, 42 };
    heal();
    for (size_t f = 0; f < sizeof frames / sizeof frames[0]; f++)
        for (int low = 0; low < 2; low++)
            for (long at = 0; at < frames[f]; at++) {
                chip = start;
                video.frame = frames[f], video.low = low, video.now = at;
                tell(again(asked) == ACCEPTED && bus.sent == writes && ended(), "Vsync at a moment", at);
            }
    video.frame = 17, video.low = 0;
}

/* No Vsync, a flag that is stuck: the list is sent up to its last pair, and the picture stays muted. Flags that cannot be reached, or are off:
 * nothing is sent. The next run finishes. */
static void without_vsync(void) {
    struct { long frame; int stuck, no_flags; } cases[] = { { 0, 0, 0 }, { 17, 1, 0 }, { 17, 0, 1 } };
    for (long k = 0; k < 3; k++) {
        chip = start;
        heal();
        video.frame = cases[k].frame, video.stuck = cases[k].stuck, bus.no_flags = cases[k].no_flags;
        long from = video.now;
        tell(again(asked) == FAILED && (cases[k].no_flags ? bus.sent == 0 : bus.sent == writes - 1 && careful(&chip)), "no Vsync", k);
        tell(video.now - from < 2 * writes + 3 * PATIENCE, "no Vsync, and no end of waiting", video.now - from);
        video.frame = 17;
        heal();
        tell(again(asked) == ACCEPTED && ended(), "after no Vsync", k);
    }
    chip = start;
    chip.image[SENSE] |= SENSE_DOWN;
    tell(again(asked) == FAILED && bus.sent == 0, "flags that are off", 0);
    chip = end;
    chip.image[SENSE] |= SENSE_DOWN;
    tell(again(asked) == ACCEPTED && bus.sent == 0, "flags that are off, and nothing to write", 0);
}

/* Refusals, holds left up, a bus that cannot be read, another family, deep colour, another edition. */
static void on_states(void) {
    struct request bad = request_of_text("vic 16 ycbcr422 hdmi"), none = request_of_text("vic 4 /1.001 rgb hdmi audio 32kHz 2 coherent");
    struct request above = request_of_text("vic 16 rgb hdmi twice"), deep = request_of_text("vic 4 rgb hdmi 36bit twice");
    struct request family_0 = request_of_text("vic 16 rgb hdmi audio 48kHz 2 coherent");
    struct request family_1 = request_of_text("vic 16 /1.001 rgb hdmi audio 48kHz 2 coherent");
    struct request asks_nothing = request_of_text("vic 16 rgb hdmi 861-e audio 48kHz 2 coherent");
    struct request newer = request_of_text("vic 16 rgb hdmi 861-e ycc-full photo audio 48kHz 2 coherent");
    struct request under_d = request_of_text("vic 16 rgb hdmi 861-d photo"), too_much = request_of_text("vic 2 rgb hdmi audio 192kHz 8");
    uint8_t back[STATION_REQUEST], other[STATION_WRITES];
    heal();
    chip = start;
    chip.image[0x4A] |= 0x10;
    const struct request refused[] = { bad, none, above, under_d, too_much };
    for (size_t k = 0; k < sizeof refused / sizeof refused[0]; k++)
        tell(again(refused[k]) == REFUSED && bus.opened == 0, "a refused request, and the bus opened", (long)k);
    tell(again(asked) == ACCEPTED && bus.sent == writes + 1 && ended(), "the GC hold left up", 0);
    for (int holds = 0x30; holds <= 0x70; holds += 0x10) {
        if (holds == 0x40) continue;
        chip = start;
        chip.image[0x4A] |= (uint8_t)holds;
        tell(again(asked) == FAILED && bus.sent == 0, "two holds left up", holds);
    }
    /* Who has the lock, or a driver; no screen. */
    chip = start;
    bus.held_until = video.now + FOR_LOCK / 2;
    tell(again(asked) == ACCEPTED && ended(), "a lock that comes free", 0);
    chip = start;
    bus.held_until = video.now + 10 * FOR_LOCK;
    long from = video.now;
    tell(again(asked) == FAILED && line.transfers == 0 && video.now - from < 2 * FOR_LOCK, "a lock that never comes free", video.now - from);
    heal();
    bus.driver = 1;
    tell(again(asked) == FAILED && line.transfers == 0, "a driver has the chip", 0);
    const char *words = run("/dev/i2c-12", (struct bytes){ asked.bytes, asked.length }, &wished, NULL).words;
    tell(strstr(words, "echo 12-0039 >/sys/bus/i2c/devices/12-0039/driver/unbind") != NULL, "a driver has the chip, and no word on what to do", 0);
    heal();
    chip.image[STATE] &= (uint8_t)~SCREEN;
    from = video.now;
    tell(again(asked) == FAILED && bus.sent == 0 && video.now - from < 3 * FOR_SCREEN, "no screen", video.now - from);
    chip = start;
    bus.dead = 1;
    tell(again(asked) == FAILED && bus.sent == 0, "a bus that cannot be read", 0);
    heal();
    /* The families of one mode with coherent sound differ in N and CTS, and decoding answers the same for both. */
    tell(again(family_0) == ACCEPTED, "a family", 0);
    long few = station_plan(family_1.bytes, family_1.length, chip.image, STATION_IMAGE, other, sizeof other).count;
    tell(again(family_1) == ACCEPTED && bus.sent == few &&
         station_decode(chip.image, STATION_IMAGE, back, sizeof back).count == family_0.length &&
         !memcmp(back, family_0.bytes, family_0.length), "another family", 1);
    /* The chip's packing phase is read-only: that it turns makes no write, and no end of rounds. */
    bus.turning = 1;
    tell(again(deep) == ACCEPTED && bus.sent > 0 && (chip.image[COLOUR_DEPTH] & 0x0F) == 6, "deep colour", 1);
    tell(again(deep) == ACCEPTED && bus.sent == 0, "deep colour, on show", 1);
    tell(again(family_0) == ACCEPTED && (chip.image[COLOUR_DEPTH] & 0x0F) == 0, "24 bits again", 0);
    bus.turning = 0;
    /* Edition E that asks for nothing is on show where D is; what asks for more is sent, and reads back. */
    tell(again(asks_nothing) == ACCEPTED && bus.sent == 0, "edition E that asks for nothing", 0);
    tell(again(newer) == ACCEPTED && bus.sent > 0 && chip.image[0x59] == 0x50 &&
         station_decode(chip.image, STATION_IMAGE, back, sizeof back).count == newer.length && !memcmp(back, newer.bytes, newer.length),
         "edition E", 0x59);
    tell(again(newer) == ACCEPTED && bus.sent == 0, "edition E, on show", 0x59);
    tell(again(asks_nothing) == ACCEPTED && bus.sent > 0 && chip.image[0x59] == 0 &&
         station_decode(chip.image, STATION_IMAGE, back, sizeof back).count == family_0.length &&
         !memcmp(back, family_0.bytes, family_0.length), "nothing of edition E again", 0x59);
}

/* A host that goes on past one lost write: at how many places a group in use is torn at some moment, at how many at the end, open. */
static void gone_on(void) {
    long torn = 0, open_and_torn = 0;
    for (long k = 0; k < writes; k++) {
        struct chip c = start;
        int seen = 0;
        for (long w = 0; w < writes; w++) {
            if (waits_before((uint32_t)w, (uint32_t)writes)) chip_vsync(&c), seen |= !whole(&c);
            if (w == k) continue;
            chip_write(&c, list + 2 * w);
            seen |= !whole(&c);
        }
        torn += seen;
        open_and_torn += !whole(&c) && chip_sent(&c).mute == STATION_OPEN;
    }
    printf("past a lost write: %ld of %ld, open %ld\n", torn, writes, open_and_torn);
}

/* Neighbours of rising address, but for the last pair, sent as one transfer, of which the chip takes any number of bytes; then the whole
 * transfer again. */
static void in_bursts(void) {
    long transfers = 0;
    for (long from = 0, to; from < writes; from = to) {
        for (to = from + 1; to < writes - 1 && list[2 * to] == list[2 * to - 2] + 1; to++) {}
        transfers++;
        for (long taken = from; to - from > 1 && taken <= to; taken++) {
            struct chip c = start;
            int good = 1;
            for (long w = 0; w < taken; w++) chip_write(&c, list + 2 * w);
            for (long w = from; w < writes; w++) {
                if (waits_before((uint32_t)w, (uint32_t)writes)) good &= chip_vsync(&c) == 0 && careful(&c);
                good &= chip_write(&c, list + 2 * w) == 0 && (w == writes - 1 || careful(&c));
            }
            tell(good && is_end(&c), "a burst sent again", taken);
        }
    }
    printf("bursts: %ld\n", transfers);
}

/* Registers with mandated bits that no list writes; bring-up. */
static void bring_ups(void) {
    uint8_t written[STATION_IMAGE];
    struct setting s;
    int count = 0;
    find_all(written);
    for (int a = 0; a < STATION_IMAGE; a++) count += !written[a] && station_class((uint8_t)a).mandated != 0;
    printf("bring-up: %d\n", count);
    tell(board_is_free(), "the board's bits are free", 0);
    tell((start.image[0x0A] & 0x03) == 0x01 && (start.image[0x48] & 0x60) == 0x20 && (start.image[0xBA] & 0xE0) == 0x60, "the board's bits are set", 0);
    /* A chip that somebody powered without the mute is muted first; flags that are up stay up. */
    chip = start;
    chip.image[MUTE] = 0, chip.image[0x48] ^= 0x20, chip.image[FLAGS] |= 0x08;
    tell(again(asked) == ACCEPTED && ended() && bus.first == MUTE && (chip.image[FLAGS] & 0x08), "a chip that was powered without the mute", bus.first);
    /* Each register with other bits than bring-up wants there: it sets those, and keeps the others but for the mute and the power. */
    find_settings(&s);
    for (int a = 0; a < STATION_IMAGE; a++) {
        if (!s.bits[a] || a == POWER) continue;
        chip = start;
        chip.image[POWER] |= POWER_DOWN, chip.image[a] ^= 0xFF;
        if (reset_by_power(a)) continue;
        bus.locked = 1;
        tell(bring_up(BUS, chip.image[MUTE], chip.image[POWER]) == 0 && chip.image[POWER] == start.image[POWER] &&
             (chip.image[MUTE] & MUTE_BITS) == MUTED && chip.image[a] == (uint8_t)((~start.image[a] & ~s.bits[a]) | s.value[a]), "bring-up", a);
    }
}

/* ---- Hot plugs. */

static void calm(void) {
    heal();
    memset(&plugs, 0, sizeof plugs), memset(&line, 0, sizeof line);
    stranger = NOBODY, no_look = late_flag = no_mute = 0;
    chip.image[STATE] |= SCREEN;
}

/* After the last event the screen is back, and whoever watches for hot plugs starts the host once more. */
static int again_at_last(void) {
    memset(plugs.at, 0, sizeof plugs.at), plugs.at_ms = 0, line.kills = 0, no_look = late_flag = no_mute = 0;
    for (int t = 0; t < 300; t++) tick();
    stranger = NOBODY;
    return again(asked) == ACCEPTED && ended();
}

/* One hot plug, at each moment of a run: before, in and after each transfer, with the line low for 3 and for 100 ms, and writes taken or lost
 * meanwhile. */
static long moments;                                    /* transfers of a run, three each */
static long runs, open_runs;                            /* runs with a hot plug, and those that showed an open picture that was none */
static struct { enum by stranger; int no_look, late_flag, no_mute, kills, from; long stall; } under;
enum { FROM_RESET = 1, FROM_HALF = 2 };                 /* a chip that was just reset; one that is powered and muted, with 0x41 not as it must be */
static void begin(void) {
    chip = start;
    if (under.from == FROM_RESET) memcpy(chip.image, defaults, sizeof defaults), memset(chip.mark, 0, sizeof chip.mark);
    if (under.from == FROM_HALF) chip.image[MUTE] = MUTED, chip.image[POWER] = 0x11;
}
static void one_hot_plug(const char *what, int must_finish) {
    static const long lows[] = { 3, 100 };
    runs = open_runs = 0, judge.points = judge.open = judge.unmuted = 0;
    for (int l = 0; l < 2; l++)
        for (int lost = 0; lost < 2; lost++)
            for (long at = 1; at <= moments / PHASES; at++)
                for (int p = BEFORE; p < (under.stall ? IN : PHASES); p++) {
                    calm();
                    begin();
                    plugs.stall = under.stall;
                    plugs.at[0] = at, plugs.phase[0] = (enum phase)p, plugs.low = lows[l], plugs.lost = lost;
                    stranger = under.stranger, no_look = under.no_look, late_flag = under.late_flag, no_mute = under.no_mute;
                    line.kills = under.kills ? at + under.kills : 0;
                    long before = judge.open + judge.unmuted;
                    judge.on = 1;
                    int status = again(asked);
                    if (must_finish) tell(status == ACCEPTED || (under.kills && status == KILLED), what, at);
                    int good = again_at_last();
                    judge.on = 0;
                    if (must_finish) tell(good, what, -at);
                    runs++, open_runs += judge.open + judge.unmuted > before;
                }
}

enum { STALL = 200 };
static void hot_plugs(void) {
    static const int kills[] = { 1, 2, 5, 9, 14, 20, 33, 60 };
    calm();
    chip = start;
    tell(again(asked) == ACCEPTED && ended(), "a run", 0);
    moments = PHASES * line.transfers;
    memset(&under, 0, sizeof under);
    one_hot_plug("a hot plug", 1);
    tell(open_runs == 0, "a hot plug: open or unmuted on neither request", open_runs);
    printf("hot plug: %ld moments, %ld runs, %ld points, %ld wrong\n", moments, runs, judge.points, open_runs);
    for (size_t k = 0; k < sizeof kills / sizeof kills[0]; k++) {
        under.kills = kills[k];
        one_hot_plug("a hot plug and a kill", 1);
        tell(open_runs == 0, "a hot plug and a kill: open or unmuted on neither request", open_runs);
    }
    under.kills = 0, under.stall = STALL;
    one_hot_plug("a hot plug while the host is held up", 1);
    tell(open_runs == 0, "a hot plug while the host is held up: open or unmuted on neither request", open_runs);
    printf("held up: %ld runs, %ld wrong\n", runs, open_runs);
    /* The same through a bring-up. */
    long of_a_run = moments;
    for (int from = FROM_RESET; from <= FROM_HALF; from++) {
        under.stall = 0, under.from = from;
        calm(), begin();
        tell(again(asked) == ACCEPTED && ended(), "a run through bring-up", from);
        moments = PHASES * line.transfers;
        one_hot_plug("a hot plug, through bring-up", 1);
        tell(open_runs == 0, "a hot plug, through bring-up: open or unmuted on neither request", open_runs);
        printf("through bring-up, %d: %ld moments, %ld runs, %ld wrong\n", from, moments, runs, open_runs);
        under.stall = STALL;
        one_hot_plug("a hot plug while the host is held up, through bring-up", 1);
        tell(open_runs == 0, "a hot plug while the host is held up, through bring-up: open or unmuted on neither request", open_runs);
    }
    moments = of_a_run;
    memset(&under, 0, sizeof under);
    under.stranger = CAREFUL;
    one_hot_plug("a hot plug and a stranger", 1);
    tell(open_runs == 0, "a hot plug, and somebody brings the chip up outside the lock", open_runs);
    under.stranger = CARELESS;
    one_hot_plug("a hot plug and a careless stranger", 0);
    tell(judge.open > 0 && judge.unmuted > 0, "somebody who powers the chip outside the lock and without the mute is not found out", judge.open);
    under.stranger = CAREFUL, under.late_flag = 1;
    one_hot_plug("the flag taken down late", 0);
    tell(open_runs > 0, "a host that takes 0x96[7] down after the read-back is not found out", open_runs);
    printf("late flag: %ld of %ld\n", open_runs, runs);
    under.late_flag = 0, under.no_look = 1;
    one_hot_plug("no look", 0);
    tell(open_runs > 0, "a host that does not look at 0x96[7] is not found out", open_runs);
    printf("no look: %ld of %ld\n", open_runs, runs);
    memset(&under, 0, sizeof under);
    under.no_mute = 1;
    one_hot_plug("no mute", 0);
    tell(open_runs > 0, "a host that powers the chip before the mute is not found out", open_runs);
    printf("power before mute: %ld of %ld\n", open_runs, runs);
    memset(&under, 0, sizeof under);
    calm();
}

/* A host that waits by time: at each ms of its run a hot plug. It may look at 0x41[6] before the last pair. Then the chip is brought up, after the mute
 * or without it. How many of these runs show an open picture that is none. */
enum { BY_TIME = 60 };
static long by_time(int looks, enum by afterwards) {
    const uint8_t power[] = { POWER, 0x10 };
    long count = 0;
    for (long at = 1; at < 3 * BY_TIME; at++) {
        calm();
        chip = start, judge.on = 1, bus.locked = 1, judge.open = 0;
        plugs.at_ms = video.now + at, plugs.low = 3;
        uint8_t pairs[STATION_WRITES], byte;
        uint32_t n = station_plan(asked.bytes, asked.length, chip.image, STATION_IMAGE, pairs, sizeof pairs).count;
        for (uint32_t w = 0; w + 1 < n; w++) bus_write(BUS, pairs[2 * w], pairs[2 * w + 1]);
        for (int t = 0; t < BY_TIME; t++) tick();
        if (!looks || (bus_read(BUS, POWER, 1, &byte) == 0 && !(byte & POWER_DOWN))) bus_write(BUS, pairs[2 * n - 2], pairs[2 * n - 1]);
        for (int t = 0; t < 3 * BY_TIME; t++) tick();
        if (afterwards == CARELESS && (chip.image[POWER] & POWER_DOWN)) take(power), look();
        if (afterwards == CAREFUL) tell(again_at_last(), "after a wait by time", at);
        count += judge.open > 0;
        judge.on = 0;
    }
    calm();
    return count;
}

static void hot_plugs_by_time(void) {
    long blind = by_time(0, CARELESS), looking = by_time(1, CARELESS), muted = by_time(0, CAREFUL);
    tell(blind > 0, "a wait by time without a look at 0x41[6], and bring-up without the mute, is not found out", blind);
    /* Between the look and the last pair there is a moment. */
    tell(looking <= 1, "a wait by time, with a look at 0x41[6]", looking);
    tell(muted == 0, "a wait by time, with the mute before the power", muted);
    printf("by time: %ld of %d, with a look %ld, with the mute %ld\n", blind, 3 * BY_TIME - 1, looking, muted);
}

/* Chains: hosts that are killed or not, each with up to four hot plugs anywhere, and at last one in peace. */
enum { CHAINS = 2000 };
static void hot_plugs_in_chains(void) {
    uint32_t noise = 7;
    long kills = 0, before = 0;
    judge.points = judge.open = judge.unmuted = 0;
    for (long c = 0; c < CHAINS; c++) {
        calm();
        chip = start;
        judge.on = 1;
        for (uint32_t h = 0, hosts = 1 + (noise >> 28) % 4; h < hosts; h++) {
            for (int k = 0; k < PLUGS; k++) {
                noise = noise * 1664525 + 1013904223;
                plugs.at[k] = (noise >> 24) % 3 ? (long)((noise >> 10) % 400) : 0, plugs.phase[k] = (enum phase)((noise >> 20) % PHASES);
            }
            noise = noise * 1664525 + 1013904223;
            plugs.low = 1 + (long)(noise >> 10) % 150, plugs.lost = (noise >> 30) & 1;
            line.kills = (noise >> 29) & 1 ? (long)((noise >> 12) % 300) : 0;
            kills += again(asked) == KILLED;
        }
        tell(again_at_last(), "a chain of hot plugs", c);
        judge.on = 0;
        if (judge.open + judge.unmuted > before) tell(0, "a chain of hot plugs: open or unmuted on neither request", c);
        before = judge.open + judge.unmuted;
    }
    printf("chains of hot plugs: %d, %ld kills, %ld points, %ld wrong\n", CHAINS, kills, judge.points, judge.open + judge.unmuted);
    calm();
}

/* ---- The EDID. */

/* An EDID that lists one VIC and linear PCM with so many channels at 48 kHz, whole and with its sums. */
static void sum(uint8_t *block) {
    block[BASE_BLOCK - 1] = 0;
    for (int k = 0; k < BASE_BLOCK - 1; k++) block[BASE_BLOCK - 1] = (uint8_t)(block[BASE_BLOCK - 1] - block[k]);
}
static void edid_of(uint8_t *edid, uint8_t vic, uint8_t channels) {
    static const uint8_t head[] = { 0x00, 0xFF, 0xFF, 0xFF, 0xFF, 0xFF, 0xFF, 0x00 };
    const uint8_t extension[] = { 0x02, 0x03, 10, 0x00, 0x41, vic, 0x23, (uint8_t)(0x08 | (channels - 1)), 0x04, 0x07 };
    memset(edid, 0, STATION_EDID);
    memcpy(edid, head, sizeof head), memcpy(edid + BASE_BLOCK, extension, sizeof extension);
    edid[EXTENSIONS] = 1;
    sum(edid), sum(edid + BASE_BLOCK);
}

enum { WISH = 4, OTHER_WISH = 16, WISHED_CHANNELS = 8, TRY = 30 };
static uint8_t wishes[] = { WISH, 0, OTHER_WISH, 0 }, first_screen[STATION_EDID], second_screen[STATION_EDID];
static struct edid edid;

/* A chip that shows a picture and was powered just now, with the first screen. */
static void with_screen(void) {
    calm();
    memset(&ddc, 0, sizeof ddc), memset(&edid, 0, sizeof edid);
    memcpy(ddc.says, first_screen, sizeof first_screen), ddc.takes = TRY, ddc.beyond = second_screen;
    chip = start;
    chip.image[FLAGS] &= (uint8_t)~EDID_FLAG;
}
static int is_edid(const uint8_t *e) { return edid.length == STATION_EDID && !memcmp(edid.bytes, e, STATION_EDID); }
static int is_start(void) { return is_as(&chip, &start, &old); }

/* --edid on a chip that shows a picture, in every state of the reader: what is shown stays. */
static void edids(void) {
    static const struct {
        const char *what; int deaf, spoiled, place, broken; long takes; int segment, status; uint32_t refusal; int readings;
    } rows[] = {
        { "an EDID", 0, 0, 0, 0, TRY, 0, ACCEPTED, 0, 1 },
        { "a late EDID", 0, 0, 0, 0, FOR_EDID - TRY, 0, ACCEPTED, 0, 1 },
        { "an EDID that is too late", 0, 0, 0, 0, 2 * FOR_EDID, 0, FAILED, 0, 0 },
        { "a try that is not answered", 1, 0, 0, 0, TRY, 0, ACCEPTED, 0, 1 },
        { "no try of the chip's is answered", TRIES_AT_START, 0, 0, 0, TRY, 0, ACCEPTED, 0, 1 },
        { "the last try of all is answered", READINGS * TRIES_AT_START - 1, 0, 0, 0, TRY, 0, ACCEPTED, 0, 1 },
        { "no try is answered", READINGS * TRIES_AT_START, 0, 0, 0, TRY, 0, FAILED, 0, 0 },
        { "a wrong sum of the base block, once", 0, 1, 40, 0, TRY, 0, ACCEPTED, 0, 2 },
        { "a wrong sum of the extension, once", 0, 1, 200, 0, TRY, 0, ACCEPTED, 0, 2 },
        { "a wrong header, once", 0, 1, 3, 0, TRY, 0, ACCEPTED, 0, 2 },
        { "a wrong count of extensions, once", 0, 1, EXTENSIONS, 0, TRY, 0, ACCEPTED, 0, 2 },
        { "a wrong sum, but for the last", 0, READINGS - 1, 200, 0, TRY, 0, ACCEPTED, 0, READINGS },
        { "a wrong sum for ever", 0, READINGS, 200, 0, TRY, 0, REFUSED, STATION_EDID_SUM, READINGS },
        { "a wrong header for ever", 0, READINGS, 3, 0, TRY, 0, REFUSED, STATION_EDID_LENGTH, READINGS },
        { "a transfer of the memory that fails", 0, 0, 0, 1, TRY, 0, ACCEPTED, 0, 2 },
        { "transfers that fail, but for the last", 0, 0, 0, READINGS - 1, TRY, 0, ACCEPTED, 0, READINGS },
        { "a memory that cannot be read", 0, 0, 0, READINGS, TRY, 0, FAILED, 0, READINGS },
        { "another segment", 0, 0, 0, 0, TRY, 1, ACCEPTED, 0, 2 },
    };
    into = &edid;
    for (size_t k = 0; k < sizeof rows / sizeof rows[0]; k++) {
        with_screen();
        ddc.deaf = rows[k].deaf, ddc.spoiled = rows[k].spoiled, ddc.place = rows[k].place, ddc.broken = rows[k].broken, ddc.takes = rows[k].takes;
        chip.image[SEGMENT] = (uint8_t)rows[k].segment, chip.image[DDC] |= 0xE0;
        /* That another segment was read is long past. */
        if (rows[k].segment) for (int t = 0; t < 2 * TRY; t++) tick();
        long from = video.now;
        int status = again(asked);
        tell(status == rows[k].status && refusal == rows[k].refusal && ddc.readings == rows[k].readings, rows[k].what, ddc.readings);
        if (status == ACCEPTED) tell(is_edid(first_screen), rows[k].what, -1);
        if (status == REFUSED) tell(edid.length == STATION_EDID && !memcmp(edid.bytes, ddc.memory, STATION_EDID), rows[k].what, -2);
        tell(is_start() && chip.image[SEGMENT] == 0 && (chip.image[DDC] & ~DDC_TRIES) == 0xE0, rows[k].what, -3);
        tell(video.now - from < READINGS * (FOR_EDID + 8 * TRY), rows[k].what, video.now - from);
        /* What is there is taken as it is, with no write but to the flags. */
        if (status == ACCEPTED) tell(again(asked) == ACCEPTED && is_edid(first_screen) && ddc.readings == rows[k].readings && bus.sent == 0, rows[k].what, -4);
    }
    /* A base block alone; an extension of another kind, which no reread changes. */
    with_screen();
    ddc.says[EXTENSIONS] = 0, sum(ddc.says), memset(ddc.says + BASE_BLOCK, 0xFF, BASE_BLOCK);
    tell(again(asked) == ACCEPTED && edid.length == BASE_BLOCK && !memcmp(edid.bytes, ddc.says, BASE_BLOCK) && ddc.readings == 1, "a base block", ddc.readings);
    with_screen();
    ddc.says[BASE_BLOCK] = 0xF0, sum(ddc.says + BASE_BLOCK);
    tell(again(asked) == REFUSED && refusal == STATION_EDID_BLOCK && is_edid(ddc.says) && ddc.readings == 1, "a map of extensions", ddc.readings);
    /* The memory behind another address, and a chip behind its other one. */
    with_screen();
    chip.image[MEMORY] = 0x7C, chip_at = OTHER_CHIP;
    tell(again(asked) == ACCEPTED && is_edid(first_screen), "the memory and the chip at other addresses", 0);
    chip_at = CHIP;
    /* A chip that is powered down is brought up, and muted; without monitor sense no flag counts; no screen; a bus that fails. */
    with_screen();
    memcpy(chip.image, defaults, sizeof defaults);
    tell(again(asked) == ACCEPTED && is_edid(first_screen), "an EDID after a reset", 0);
    tell((chip.image[MUTE] & MUTE_BITS) == MUTED && !(chip.image[POWER] & POWER_DOWN), "powered and muted, after a reset", 0);
    with_screen();
    chip.image[SENSE] |= SENSE_DOWN;
    tell(again(asked) == FAILED && bus.sent == 0 && edid.length == 0, "an EDID without monitor sense", 0);
    with_screen();
    chip.image[STATE] &= (uint8_t)~SCREEN;
    tell(again(asked) == FAILED && bus.sent == 0 && edid.length == 0, "an EDID of no screen", 0);
    for (int k = 0; k < 3; k++) {
        with_screen();
        bus.dead = k == 0, bus.no_flags = k == 1, bus.driver = k == 2;
        tell(again(asked) == FAILED && edid.length == 0, "an EDID, and a bus that fails", k);
    }
    /* The reread's writes fail, each for good. */
    for (long k = 1; k <= 2 + 2 * TOGGLES; k++) {
        with_screen();
        ddc.spoiled = 1, ddc.place = 200, bus.fails = k, bus.for_good = 1;
        tell(again(asked) == FAILED && bus.sent == k - 1 + TRIES && is_start(), "a write of the reread fails", k);
    }
    heal();
    /* A host that is killed before each transfer of a run with a reread; the next one has the EDID. */
    with_screen();
    ddc.spoiled = 1, ddc.place = 200;
    again(asked);
    for (long k = 1, all = line.transfers; k <= all; k++) {
        with_screen();
        ddc.spoiled = 1, ddc.place = 200, line.kills = k;
        tell(again(asked) == KILLED, "a kill", k);
        line.kills = 0;
        tell(again(asked) == ACCEPTED && is_edid(first_screen) && is_start(), "an EDID after a kill", k);
    }
    into = NULL;
    printf("EDID: %d readings, %d ms\n", READINGS, FOR_EDID);
}

/* --wish: the wish of the screen that is there is on show. */
static int other_ended(void) { return is_as(&chip, &other_end, &other_new); }
static void wish_runs(void) {
    struct request none = asked, other = asked;
    int at = 2 + asked.bytes[0];
    other.bytes[at] = OTHER_WISH, none.bytes[at] = 0;
    calm();
    chip = start;
    tell(again(other) == ACCEPTED, "the other wish", 0);
    other_end = chip, other_new = chip_sent(&chip);
    wished = (struct wishes){ wishes, sizeof wishes, 0 };
    with_screen();
    tell(again(asked) == ACCEPTED && ended() && wished.place == 0, "the first wish", wished.place);
    tell(again(asked) == ACCEPTED && ended() && bus.sent == 0, "the first wish, on show", 0);
    memcpy(ddc.says, second_screen, sizeof second_screen);
    fall();
    for (int t = 0; t < 3; t++) tick();
    tell(again(asked) == ACCEPTED && other_ended() && wished.place == 1, "another screen", wished.place);
    with_screen();
    tell(again(none) == ACCEPTED && ended(), "a request with no VIC of its own", 0);
    /* None fits: nothing is sent, and the picture stays. */
    with_screen();
    edid_of(ddc.says, WISH, 2);
    tell(again(asked) == REFUSED && refusal == STATION_NO_WISH_FITS && bus.sent == 0 && is_start(), "a screen without that sound", refusal);
    with_screen();
    edid_of(ddc.says, 5, WISHED_CHANNELS);
    tell(again(asked) == REFUSED && refusal == STATION_NO_WISH_FITS && bus.sent == 0 && is_start(), "a screen without that mode", refusal);
    none.length = 3;
    with_screen();
    tell(again(none) == REFUSED && refusal == STATION_NO_WISH_FITS && bus.sent == 0 && is_start(), "a request that ends too early", refusal);
    with_screen();
    ddc.says[BASE_BLOCK] = 0xF0, sum(ddc.says + BASE_BLOCK);
    tell(again(asked) == REFUSED && refusal == STATION_EDID_BLOCK && bus.sent == 0 && is_start(), "a wish, and another extension", refusal);
    with_screen();
    ddc.deaf = READINGS * TRIES_AT_START;
    tell(again(asked) == FAILED && is_start(), "a wish, and no EDID", 0);
    with_screen();
    chip.image[SENSE] |= SENSE_DOWN;
    tell(again(asked) == FAILED && bus.sent == 0, "a wish without monitor sense", 0);
}

/* A hot plug before, in and after each transfer of a run, without a reread and with one, and another screen with it. The EDID is the first screen's
 * or the second's, and the second's where the host had a transfer left; its wish is on show then, and in the end in any case. How many runs were
 * wrong. */
enum wrong_host { NONE, REMEMBERS, BLIND };
static long with_another_screen(int from, enum wrong_host wrong_host) {
    long bad = 0;
    under.from = from, runs = 0;
    for (int rereads = 0; rereads < 2; rereads++) {
        with_screen(), begin();
        ddc.spoiled = rereads, ddc.place = 200;
        again(asked);
        for (long at = 1, last = line.transfers; at <= last; at++)
            for (int p = BEFORE; p < PHASES; p++) {
                with_screen(), begin();
                ddc.spoiled = rereads, ddc.place = 200;
                ddc.next = second_screen, ddc.remembered = wrong_host == REMEMBERS ? first_screen : NULL, no_look = wrong_host == BLIND;
                plugs.at[0] = at, plugs.phase[0] = (enum phase)p, plugs.low = rereads ? 100 : 3;
                long before = judge.open + judge.unmuted;
                judge.on = !into;
                int good = again(asked) == ACCEPTED, seen = line.transfers > at;
                if (into) good &= is_edid(second_screen) || (!seen && is_edid(first_screen));
                else {
                    good &= other_ended() || !seen;
                    memset(plugs.at, 0, sizeof plugs.at), no_look = 0;
                    for (int t = 0; t < 300; t++) tick();
                    good &= again(asked) == ACCEPTED && other_ended() && judge.open + judge.unmuted == before;
                }
                judge.on = 0;
                if (!wrong_host) tell(good, "a hot plug, and another screen", at);
                runs++, bad += !good;
            }
    }
    memset(&under, 0, sizeof under);
    calm();
    return bad;
}

static void other_screens(void) {
    into = &edid;
    long all = 0, bad = 0, blind, remembered;
    for (int from = 0; from <= FROM_RESET; from++) bad += with_another_screen(from, NONE), all += runs;
    blind = with_another_screen(0, BLIND);
    tell(blind > 0, "a host that does not look at 0x96[7] after the EDID is not found out", blind);
    into = NULL;
    for (int from = 0; from <= FROM_RESET; from++) bad += with_another_screen(from, NONE), all += runs;
    printf("another screen: %ld runs, %ld wrong\n", all, bad);
    remembered = with_another_screen(0, REMEMBERS);
    tell(remembered > 0, "a host that remembers the first screen's EDID is not found out", remembered);
    printf("remembered: %ld of %ld\n", remembered, runs);
    wished.length = 0;
}

/* The command itself: what is stored, and the words, which tests/i2c/run compares with the page. */
static int stored(const char *name, const uint8_t *bytes, size_t length) {
    uint8_t back[STATION_EDID + 1];
    FILE *f = fopen(name, "rb");
    size_t got = f ? fread(back, 1, sizeof back, f) : 0;
    if (f) fclose(f);
    return got == length && !memcmp(back, bytes, length);
}
static void by_command(void) {
    char name[] = "/tmp/edid.XXXXXX", bytes[3 * STATION_REQUEST + 1] = "";
    char *store_it[] = { "i2c", "--edid", name, "/dev/i2c-1", NULL }, *wish_it[] = { "i2c", "/dev/i2c-1", bytes, "--wish", "04 00 10 00", NULL };
    if (mkstemp(name) < 0) return tell(0, "no temporary file", 0);
    for (size_t k = 0; k < asked.length; k++) sprintf(bytes + 3 * k, "%02x ", asked.bytes[k]);
    with_screen();
    tell(example_main(4, store_it) == ACCEPTED && stored(name, first_screen, STATION_EDID), "--edid", 0);
    with_screen();
    ddc.deaf = READINGS * TRIES_AT_START;
    tell(example_main(4, store_it) == FAILED && stored(name, first_screen, STATION_EDID), "--edid, and none comes", 0);
    with_screen();
    ddc.says[EXTENSIONS] = 0, sum(ddc.says);
    tell(example_main(4, store_it) == ACCEPTED && stored(name, ddc.says, BASE_BLOCK), "--edid of a base block", 0);
    with_screen();
    ddc.says[BASE_BLOCK] = 0xF0, sum(ddc.says + BASE_BLOCK);
    tell(example_main(4, store_it) == REFUSED && stored(name, ddc.says, STATION_EDID), "--edid of another extension", 0);
    with_screen();
    memcpy(ddc.says, second_screen, sizeof second_screen);
    tell(example_main(5, wish_it) == ACCEPTED && other_ended(), "--wish", 0);
    with_screen();
    edid_of(ddc.says, WISH, 2);
    tell(example_main(5, wish_it) == REFUSED && is_start(), "--wish, and none fits", 0);
    unlink(name);
}

static void waiting(void) {
    int without = ROUNDS * (FOR_SCREEN + EDGES * PATIENCE), with = without + ROUNDS * READINGS * FOR_EDID;
    printf("Vsync: %s, %d ms\n", EDGES == 2 ? "two" : "another number", PATIENCE);
    printf("lock: %d s, screen: %d s, waits: %d s, with wishes %d s\n", FOR_LOCK / 1000, FOR_SCREEN / 1000, without / 1000, with / 1000);
    tell(with < FOR_LOCK, "the lock is not waited for as long as a run may take", with);
}

int main(void) {
    memcpy(chip.image, defaults, sizeof defaults);
    asked = request_of_text(MAY_ASKED);
    tell(again(request_of_text(MAY_BEFORE)) == ACCEPTED, "the first request", 0);
    start = end = chip;
    writes = station_plan(asked.bytes, asked.length, start.image, STATION_IMAGE, list, sizeof list).count;
    tell(chip_run(&end, list, (uint32_t)writes) == 0, "the list", writes);
    old = chip_sent(&start), new = chip_sent(&end);
    on_the_bus();
    whatever_else();
    with_vsync();
    without_vsync();
    on_states();
    gone_on();
    in_bursts();
    bring_ups();
    hot_plugs();
    hot_plugs_by_time();
    hot_plugs_in_chains();
    edid_of(first_screen, WISH, WISHED_CHANNELS), edid_of(second_screen, OTHER_WISH, WISHED_CHANNELS);
    edids();
    wish_runs();
    other_screens();
    by_command();
    chip = start, chip_at = OTHER_CHIP;
    tell(again(asked) == ACCEPTED && ended(), "the chip at its other address", OTHER_CHIP);
    waiting();
    tell(opened_early == 0, "the picture opened while new coefficients waited", opened_early);
    tell(wrong == 0, "messages that a chip does not understand, or writes without the lock", wrong);
    printf("%ld passed, %ld failed\n", passed, lost);
    return lost != 0;
}
