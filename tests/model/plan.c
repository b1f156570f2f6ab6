/* The wanted named bits, the write list, whole and with writes left out, the finished image. */
#include "model.h"

const uint8_t model_rate_codes[RATES] = { 0x3, 0x0, 0x2, 0x8, 0xA, 0xC, 0xE };  /* 32 .. 192 kHz; 88.2 kHz is 1000 */
const uint8_t model_depth_codes[DEPTHS] = { 0x0, 0x5, 0x6 };    /* "not indicated", 30 bits, 36 bits */

/* "R is 8" and the like are frames.c's. Here: every named field, by document 01's sentence; what it gives no value for is at its
 * default. */
void model_wanted(const struct fields *f, struct pair p, uint8_t *wanted) {
    for (int i = 0; i < 256; i++) wanted[i] = 0;

    wanted[0x01] = (uint8_t)(p.n >> 16);
    wanted[0x02] = (uint8_t)(p.n >> 8);
    wanted[0x03] = (uint8_t)p.n;
    wanted[0x07] = (uint8_t)(p.cts >> 16);
    wanted[0x08] = (uint8_t)(p.cts >> 8);
    wanted[0x09] = (uint8_t)p.cts;
    wanted[0x0A] = f->coherent ? 0x80 : 0x00;               /* CTS select; audio select 0 is I2S; mode at its default, 0 */
    wanted[0x0C] = !f->sound ? 0x00 : f->channels == 2 ? 0x04 : 0x3C;   /* I2S0, or all four; standard I2S is 0 */
    wanted[0x15] = (uint8_t)((f->sound ? model_rate_codes[f->rate] : 0x2) << 4 | f->input);    /* audio off: the 48 kHz code; input ID */
    wanted[0x16] = f->encoding == 1 ? 0x80 : 0x00;          /* output 4:2:2 */
    wanted[0x16] |= (uint8_t)((f->wiring == NO_WIRING ? TODAY_DEPTH : f->input_depth) << 4 | f->style << 2);
    model_sync_registers(f->sync, wanted + SYNCS_AT);       /* 0 where no syncs are embedded */
    wanted[0x48] = (uint8_t)(f->justification << 3);

    int mode = 1, k[12] = { 2048, 0, 0, 0, 0, 2048, 0, 0, 0, 0, 2048, 0 };
    if (f->matrix) {
        mode = f->mode;
        for (int i = 0; i < 12; i++) k[i] = f->coefficient[i];
    }
    for (int i = 0; i < 12; i++) {
        int field = k[i] & 0x1FFF;                          /* 13 bits, two's complement */
        wanted[0x18 + 2 * i] = (uint8_t)(field >> 8);
        wanted[0x19 + 2 * i] = (uint8_t)field;
    }
    wanted[0x18] |= (uint8_t)((f->matrix ? 0x80 : 0x00) | mode << 5);

    wanted[0x3B] = (uint8_t)(2 << 5 | f->repetition << 3 | f->repetition << 1);     /* the clock's, and what the screen is told */
    wanted[0x3C] = (uint8_t)f->vic;
    wanted[0x40] = f->link ? 0x80 : 0x00;
    wanted[0x44] = (uint8_t)((f->link ? 0x10 : 0x00) | (f->link && f->sound ? 0x68 : 0x00));
    wanted[0x4A] = 0x80;
    wanted[0x4B] = 0x80;                                    /* open: clear 1, set 0 */
    wanted[0x4C] = model_depth_codes[f->depth];
    model_avi(f, wanted + 0x52);
    model_audio(f, wanted + 0x70);
    wanted[0xAF] = f->link ? 0x02 : 0x00;
}

static int in_table_14(int address) {
    switch (address) {
    case 0x98: case 0x9A: case 0x9C: case 0x9D: case 0xA2: case 0xA3: case 0xE0: case 0xF9: return 1;
    default: return 0;
    }
}
static int in_matrix(int address) { return address >= 0x18 && address <= 0x2F; }
static int in_avi(int address) { return address >= 0x52 && address <= 0x61; }
static int in_audio(int address) { return address >= 0x70 && address <= 0x7C; }

int model_written(int address) {
    return model_classes[address].named != 0 || in_avi(address) || in_audio(address) || in_table_14(address);
}

/* Mandated bits, the image's free and read-only bits, the wanted named bits. */
static uint8_t byte_of(uint8_t wanted, const uint8_t *image, int address) {
    const struct model_class *c = &model_classes[address];
    return (uint8_t)(c->bits | (image[address] & (c->free | c->read_only)) | (wanted & c->named));
}

static void put(struct list *l, const uint8_t *image, int address, uint8_t wanted) {
    l->pairs[2 * l->count] = (uint8_t)address;
    l->pairs[2 * l->count + 1] = byte_of(wanted, image, address);
    l->count++;
}

/* A packet under its hold: hold up, with the other one 0; its registers; hold down. */
static void packet(struct list *l, const uint8_t *image, const uint8_t *wanted, uint8_t hold, int first, int last) {
    put(l, image, 0x4A, wanted[0x4A] | hold);
    for (int a = first; a <= last; a++) put(l, image, a, wanted[a]);
    put(l, image, 0x4A, wanted[0x4A]);
}

void model_full_list(const uint8_t *wanted, const uint8_t *image, struct list *l) {
    int audio_first = (image[0x4A] & 0x20) != 0;
    l->count = 0;
    put(l, image, 0x4B, 0x40);                              /* mute: set 1, clear 0 */
    for (int a = 0; a < 256; a++)
        if (in_table_14(a)) put(l, image, a, wanted[a]);
    put(l, image, 0x1A, wanted[0x1A] | 0x20);
    for (int a = 0x18; a <= 0x2F; a++) put(l, image, a, a == 0x1A ? wanted[a] | 0x20 : wanted[a]);
    put(l, image, 0x1A, wanted[0x1A]);
    if (audio_first) packet(l, image, wanted, 0x20, 0x70, 0x7C);
    packet(l, image, wanted, 0x40, 0x52, 0x61);
    if (!audio_first) packet(l, image, wanted, 0x20, 0x70, 0x7C);
    for (int a = 0; a < 256; a++) {
        int elsewhere = a == 0x4B || a == 0x4A || in_table_14(a) || in_matrix(a) || in_avi(a) || in_audio(a);
        if (model_classes[a].named != 0 && !elsewhere) put(l, image, a, wanted[a]);
    }
    put(l, image, 0x4B, wanted[0x4B]);
}

int model_stays(int address) { return address == 0x4B || address == 0x4A || address == 0x1A; }

static int differs(uint8_t a, uint8_t b, int address) { return ((a ^ b) & ~model_classes[address].read_only) != 0; }

/* Document 02, request 09: a write is left out exactly if its register's byte in the image already equals it, read-only bits aside. */
void model_leave_out(const struct list *full, const uint8_t *image, struct list *l) {
    l->count = 0;
    for (uint32_t i = 0; i < full->count; i++) {
        uint8_t address = full->pairs[2 * i], value = full->pairs[2 * i + 1];
        if (!model_stays(address) && !differs(image[address], value, address)) continue;
        l->pairs[2 * l->count] = address;
        l->pairs[2 * l->count + 1] = value;
        l->count++;
    }
}

void model_short_list(const uint8_t *wanted, const uint8_t *image, struct list *l) {
    struct list full;
    model_full_list(wanted, image, &full);
    model_leave_out(&full, image, l);
}

/* Register by register, and not by running the list. */
void model_finished(const uint8_t *wanted, const uint8_t *image, uint8_t *finished) {
    for (int a = 0; a < 256; a++) finished[a] = model_written(a) ? byte_of(wanted[a], image, a) : image[a];
}

/* By the two images, and not by a list: two writes of the mute register, four of 0x4A, three of 0x1A. */
uint32_t model_short_count(const uint8_t *wanted, const uint8_t *image) {
    uint8_t finished[256];
    uint32_t count = 2 + 4 + 3;
    model_finished(wanted, image, finished);
    for (int a = 0; a < 256; a++) count += model_written(a) && !model_stays(a) && differs(image[a], finished[a], a);
    return count;
}

/* Does every named and mandated bit that the full list writes stand in the image as that list leaves it? */
int model_stands(const uint8_t *wanted, const uint8_t *image) {
    for (int a = 0; a < 256; a++) {
        const struct model_class *c = &model_classes[a];
        if (model_written(a) && (image[a] & (c->named | c->mandated)) != ((wanted[a] & c->named) | c->bits)) return 0;
    }
    return 1;
}
