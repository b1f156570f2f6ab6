/* The wiring section: document 02, request 02, and the tables of 000 that it points to. A row for each input ID of Table 15: colour and
 * syncs as that table has them ("IDs 0 and 5 count as RGB"), and what Tables 17 to 27 draw of it, by the codes of Table 28:
 *   depth          01 10 bit, 10 12 bit, 11 8 bit        00 is "invalid"
 *   style          01 style 2, 10 style 1, 11 style 3    00 is "not valid"
 *   justification  00 evenly, 01 right, 10 left          11 is "invalid"
 * Each of those tables draws all three depths in each style that it has. */
#include "model.h"

enum { CODE_0 = 1, CODE_1 = 2, CODE_2 = 4, CODE_3 = 8 };
enum {
    TEN_BIT = CODE_1, TWELVE_BIT = CODE_2, EIGHT_BIT = CODE_3, EVERY_DEPTH = TEN_BIT | TWELVE_BIT | EIGHT_BIT,
    STYLE_2 = CODE_1, STYLE_1 = CODE_2, STYLE_3 = CODE_3,
    EVENLY = CODE_0, RIGHT = CODE_1, LEFT = CODE_2, EACH_WAY = EVENLY | RIGHT | LEFT
};

static const struct { int rgb, embedded, depths, styles, justifications; } inputs[] = {
    { 1, 0, 0, 0, 0 },                                                          /* 0: today's board, by a section of count 0 alone */
    { 0, 0, EVERY_DEPTH, STYLE_1 | STYLE_2 | STYLE_3, EACH_WAY },               /* 1: Tables 17 to 19 */
    { 0, 1, EVERY_DEPTH, STYLE_1 | STYLE_2 | STYLE_3, EACH_WAY },               /* 2: the same */
    { 0, 0, EVERY_DEPTH, STYLE_1 | STYLE_2, EACH_WAY },                         /* 3: Tables 20 to 22, "two input pin assignment styles" */
    { 0, 1, EVERY_DEPTH, STYLE_1 | STYLE_2, EACH_WAY },                         /* 4: the same */
    { 1, 0, EVERY_DEPTH, STYLE_1 | STYLE_2 | STYLE_3, EVENLY },                 /* 5: Tables 23 and 24, which 0x48[5] tells apart; 0x48[4:3] is
                                                                                 * "for YCbCr 4:2:2 modes" and stays at its default */
    { 0, 0, EVERY_DEPTH, STYLE_1 | STYLE_2 | STYLE_3, EACH_WAY },               /* 6: Tables 25 to 27 */
    { 0, 0, EVERY_DEPTH, STYLE_1 | STYLE_2, EACH_WAY },                         /* 7 and 8: Tables 20 to 22 */
    { 0, 1, EVERY_DEPTH, STYLE_1 | STYLE_2, EACH_WAY },
};
enum { INPUTS = sizeof inputs / sizeof *inputs };

int model_rgb_input(int input) { return inputs[input].rgb; }
int model_embedded(int input) { return inputs[input].embedded; }

/* The one count that fits an ID. */
int model_wiring_of(int input) { return input == 0 ? NO_WIRING : model_embedded(input) ? WIRING_BYTES + SYNC_BYTES : WIRING_BYTES; }

/* Is this a combination that the tables draw, with the count that fits, and are its sync values in range? */
int model_wired(const struct fields *f) {
    if (f->wiring == NO_WIRING) return 1;
    if (f->input < 1 || f->input >= INPUTS || f->wiring != model_wiring_of(f->input)) return 0;
    if (f->input_depth > 3 || f->style > 3 || f->justification > 3) return 0;
    if (!(inputs[f->input].depths >> f->input_depth & 1) || !(inputs[f->input].styles >> f->style & 1)) return 0;
    if (!(inputs[f->input].justifications >> f->justification & 1)) return 0;
    for (int i = 0; i < SYNCS; i++)
        if (f->sync[i] < 0 || f->sync[i] > MOST_SYNC) return 0;
    return 1;
}

/* Ten bits each, one after the other from 0x30[7] on: Hsync placement and duration, Vsync placement and duration. */
void model_sync_registers(const int *sync, uint8_t *registers) {
    for (int i = 0; i < SYNC_REGISTERS; i++) registers[i] = 0;
    for (int i = 0; i < SYNCS; i++)
        for (int bit = 0; bit < SYNC_BITS; bit++) {
            int at = SYNC_BITS * i + bit, one = sync[i] >> (SYNC_BITS - 1 - bit) & 1;
            registers[at / 8] |= (uint8_t)(one << (7 - at % 8));
        }
}

void model_syncs_shown(const uint8_t *registers, int *sync) {
    for (int i = 0; i < SYNCS; i++) {
        sync[i] = 0;
        for (int at = SYNC_BITS * i; at < SYNC_BITS * (i + 1); at++) sync[i] = 2 * sync[i] + (registers[at / 8] >> (7 - at % 8) & 1);
    }
}
