/* InfoFrames, CEA-861-D layouts, as they stand in the registers: version, length, checksum, data bytes. In data byte 5 of the AVI InfoFrame
 * also what CEA-861-E has in bits that are reserved in 861-D: document 02, request 11. */
#include "model.h"

/* Makes the sum of all bytes zero modulo 256, the packet type included. */
static void checksum(uint8_t type, uint8_t *registers, int length) {
    int sum = type;
    registers[2] = 0;
    for (int i = 0; i < length; i++) sum += registers[i];
    while (sum % 256 != 0) {
        sum++;
        registers[2]++;
    }
}

static int one_of(int vic, const int *list, int n) {
    for (int i = 0; i < n; i++)
        if (list[i] == vic) return 1;
    return 0;
}

void model_avi(const struct fields *f, uint8_t *registers) {
    static const int narrow[] = { 1, 2, 17 }, itu601[] = { 1, 2, 3, 17, 18 };
    static const int repeats[REPETITIONS] = { 0, 1, 3 };      /* document 02, request 06: PR counts them, and not the pixels */
    int y = f->encoding, a = 1;
    int c = f->encoding == 0 ? 0 : one_of(f->vic, itu601, 5) ? 1 : 2;
    int m = one_of(f->vic, narrow, 3) ? 1 : 2;
    int r = 8;
    int q = f->encoding != 0 ? 0 : f->range == 0 ? 1 : 2;     /* document 02, request 01: 1 limited, 2 full */
    for (int i = 0; i < AVI_BYTES; i++) registers[i] = 0;
    registers[0] = 0x02;
    registers[1] = 0x0D;
    registers[3] = (uint8_t)(y * 32 + a * 16);
    registers[4] = (uint8_t)(c * 64 + m * 16 + r);
    registers[5] = (uint8_t)(q * 4);
    registers[6] = (uint8_t)f->vic;
    registers[7] = (uint8_t)(f->quantisation * 64 + f->content * 16 + repeats[f->repetition]);
    checksum(0x82, registers, AVI_BYTES);
}

void model_audio(const struct fields *f, uint8_t *registers) {
    for (int i = 0; i < AUDIO_BYTES; i++) registers[i] = 0;
    registers[0] = 0x01;
    registers[1] = 0x0A;
    if (f->sound) {
        registers[3] = (uint8_t)(f->channels - 1);
        registers[6] = f->channels == 8 ? 0x13 : 0x00;
    }
    checksum(0x84, registers, AUDIO_BYTES);
}
