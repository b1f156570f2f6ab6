#include "registers.h"
#include <stddef.h>

const struct register_words registers[256] = {
    [0x01] = { "N[19:16]", "N" },
    [0x02] = { "N[15:8]", "N" },
    [0x03] = { "N[7:0]", "N" },
    [0x07] = { "CTS[19:16]", "CTS" },
    [0x08] = { "CTS[15:8]", "CTS" },
    [0x09] = { "CTS[7:0]", "CTS" },
    [0x0A] = { "audio source", "selects, mode" },
    [0x0C] = { "I2S inputs", "I2S inputs, format" },
    [0x15] = { "rate, input", "rate, input format" },
    [0x16] = { "video format", "out, width, style" },
    [0x18] = { "CSC A1 high", "enable, mode, A1" },
    [0x19] = { "CSC A1 low", "A1" },
    [0x1A] = { "CSC A2 high", "A2" },
    [0x1B] = { "CSC A2 low", "A2" },
    [0x1C] = { "CSC A3 high", "A3" },
    [0x1D] = { "CSC A3 low", "A3" },
    [0x1E] = { "CSC A4 high", "A4" },
    [0x1F] = { "CSC A4 low", "A4" },
    [0x20] = { "CSC B1 high", "B1" },
    [0x21] = { "CSC B1 low", "B1" },
    [0x22] = { "CSC B2 high", "B2" },
    [0x23] = { "CSC B2 low", "B2" },
    [0x24] = { "CSC B3 high", "B3" },
    [0x25] = { "CSC B3 low", "B3" },
    [0x26] = { "CSC B4 high", "B4" },
    [0x27] = { "CSC B4 low", "B4" },
    [0x28] = { "CSC C1 high", "C1" },
    [0x29] = { "CSC C1 low", "C1" },
    [0x2A] = { "CSC C2 high", "C2" },
    [0x2B] = { "CSC C2 low", "C2" },
    [0x2C] = { "CSC C3 high", "C3" },
    [0x2D] = { "CSC C3 low", "C3" },
    [0x2E] = { "CSC C4 high", "C4" },
    [0x2F] = { "CSC C4 low", "C4" },
    [0x30] = { "Hsync place", "Hsync place" },
    [0x31] = { "Hsync", "place, duration" },
    [0x32] = { "Hsync, Vsync", "duration, place" },
    [0x33] = { "Vsync", "place, duration" },
    [0x34] = { "Vsync length", "Vsync duration" },
    [0x3B] = { "repetition", "repetition" },
    [0x3C] = { "VIC", "VIC" },
    [0x40] = { "GC enable", "GC enable" },
    [0x44] = { "enables", "enables" },
    [0x48] = { "input pixels", "justification" },
    [0x4A] = { "packet holds", "auto sum" },
    [0x4B] = { "AV mute", "" },
    [0x4C] = { "colour depth", "colour depth" },
    [0x52] = { "AVI version", "version" },
    [0x53] = { "AVI length", "length" },
    [0x54] = { "AVI sum", "checksum" },
    [0x55] = { "AVI byte 1", "Y, A, B, S" },
    [0x56] = { "AVI byte 2", "C, M, R" },
    [0x57] = { "AVI byte 3", "ITC, EC, Q, SC" },
    [0x58] = { "AVI byte 4", "VIC" },
    [0x59] = { "AVI byte 5", "YQ, CN, PR" },
    [0x5A] = { "AVI byte 6", "bars" },
    [0x5B] = { "AVI byte 7", "bars" },
    [0x5C] = { "AVI byte 8", "bars" },
    [0x5D] = { "AVI byte 9", "bars" },
    [0x5E] = { "AVI byte 10", "bars" },
    [0x5F] = { "AVI byte 11", "bars" },
    [0x60] = { "AVI byte 12", "bars" },
    [0x61] = { "AVI byte 13", "bars" },
    [0x70] = { "audio version", "version" },
    [0x71] = { "audio length", "length" },
    [0x72] = { "audio sum", "checksum" },
    [0x73] = { "audio byte 1", "coding type, CC" },
    [0x74] = { "audio byte 2", "frequency, size" },
    [0x75] = { "audio byte 3", "byte 3" },
    [0x76] = { "audio byte 4", "CA" },
    [0x77] = { "audio byte 5", "down-mix, level" },
    [0x78] = { "audio byte 6", "" },
    [0x79] = { "audio byte 7", "" },
    [0x7A] = { "audio byte 8", "" },
    [0x7B] = { "audio byte 9", "" },
    [0x7C] = { "audio byte 10", "" },
    [0x98] = { "fixed", "" },
    [0x9A] = { "fixed", "" },
    [0x9C] = { "fixed", "" },
    [0x9D] = { "fixed", "" },
    [0xA2] = { "fixed", "" },
    [0xA3] = { "fixed", "" },
    [0xAF] = { "HDMI/DVI mode", "HDMI/DVI" },
    [0xE0] = { "fixed", "" },
    [0xF9] = { "fixed address", "" },
};

/* The registers of the map that are in no list, by section 5 of 000; at most 13 letters. */
static const struct { uint8_t first, last; const char *name; } others[] = {
    { 0x00, 0x00, "chip revision" }, { 0x04, 0x06, "measured CTS" }, { 0x0B, 0x0B, "audio clock" }, { 0x0D, 0x0D, "I2S width" },
    { 0x0E, 0x11, "I2S sources" }, { 0x12, 0x14, "audio status" }, { 0x17, 0x17, "sync polarity" },
    { 0x35, 0x3A, "DE generator" }, { 0x3D, 0x3F, "VIC detected" }, { 0x41, 0x41, "power" }, { 0x42, 0x42, "hot plug" },
    { 0x43, 0x43, "EDID address" }, { 0x45, 0x45, "packet memory" }, { 0x46, 0x47, "audio samples" }, { 0x49, 0x49, "bit trimming" },
    { 0x4D, 0x51, "GC packet" }, { 0x62, 0x6F, "AVI, spare" }, { 0x92, 0x97, "interrupts" }, { 0x99, 0x9B, "fixed by 000" },
    { 0x9E, 0x9E, "PLL lock" }, { 0x9F, 0xA0, "fixed by 000" }, { 0xA1, 0xA1, "channel power" }, { 0xA4, 0xAE, "fixed by 000" },
    { 0xB0, 0xB7, "HDCP" }, { 0xB8, 0xB9, "fixed by 000" }, { 0xBA, 0xBA, "clock delay" }, { 0xBB, 0xBD, "fixed by 000" }, { 0xBE, 0xC3, "HDCP" },
    { 0xC4, 0xC4, "EDID segment" }, { 0xC5, 0xC6, "fixed by 000" }, { 0xC7, 0xC7, "HDCP" }, { 0xC8, 0xC8, "DDC state" },
    { 0xC9, 0xC9, "EDID tries" }, { 0xCA, 0xCB, "HDCP" }, { 0xCC, 0xCF, "fixed by 000" }, { 0xD0, 0xD0, "DDR, sync" },
    { 0xD1, 0xD4, "fixed by 000" }, { 0xD5, 0xD5, "code shift" }, { 0xD6, 0xD6, "HPD, TMDS" }, { 0xD7, 0xDD, "sync adjust" },
    { 0xDE, 0xDF, "fixed by 000" }, { 0xE1, 0xE1, "CEC address" }, { 0xE2, 0xE2, "CEC power" }, { 0xE3, 0xE4, "fixed by 000" },
    { 0xF5, 0xF6, "chip ID" }, { 0xFA, 0xFA, "sync adjust" }, { 0xFB, 0xFB, "DE generator" }, { 0xFC, 0xFE, "HDCP" },
};

const char *name_of_register(uint8_t address) {
    for (size_t o = 0; o < sizeof others / sizeof others[0]; o++)
        if (address >= others[o].first && address <= others[o].last) return others[o].name;
    return registers[address].name ? registers[address].name : "reserved";
}

const char *const step_words[STEPS] = {
    [TO_MUTE] = "mute",
    [TO_FIX] = "fixed",
    [TO_MATRIX] = "matrix",
    [TO_AVI] = "AVI",
    [TO_AUDIO] = "audio",
    [TO_OTHERS] = "others",
    [TO_OPEN] = "open",
};

/* The steps by their addresses; a register of none is one of the others. */
static const struct { uint8_t first, last; enum step step; } places[] = {
    { 0x18, 0x2F, TO_MATRIX }, { 0x4B, 0x4B, TO_MUTE },   { 0x52, 0x61, TO_AVI }, { 0x70, 0x7C, TO_AUDIO },
    { 0x98, 0x9D, TO_FIX },    { 0xA2, 0xA3, TO_FIX },    { 0xE0, 0xE0, TO_FIX }, { 0xF9, 0xF9, TO_FIX },
};

/* A hold belongs to what it holds; where both are down, to what was held before. */
enum { HOLDS = 0x4A, OF_AVI = 0x40, OF_AUDIO = 0x20, OPEN = 2, MUTE_SHIFT = 6 };

static int holds(const uint8_t *pair) { return pair[0] == HOLDS && (pair[1] & (OF_AVI | OF_AUDIO)); }

enum step step_of(const uint8_t *pairs, uint32_t write) {
    const uint8_t *pair = pairs + 2 * write, *up = pair;
    if (pair[0] == HOLDS) {
        while (up > pairs && !holds(up)) up -= 2;
        if (holds(up)) return up[1] & OF_AVI ? TO_AVI : TO_AUDIO;
    }
    for (size_t p = 0; p < sizeof places / sizeof places[0]; p++)
        if (pair[0] >= places[p].first && pair[0] <= places[p].last)
            return places[p].step == TO_MUTE && pair[1] >> MUTE_SHIFT == OPEN ? TO_OPEN : places[p].step;
    return TO_OTHERS;
}

unsigned left_out(const uint8_t *pairs, uint32_t count) {
    unsigned n = 0;
    for (int a = 0; a < 256; a++) {
        uint32_t w = 0;
        while (w < count && pairs[2 * w] != a) w++;
        n += registers[a].name && w == count;
    }
    return n;
}
