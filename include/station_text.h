/* The refusals of station.h in words, for a program that tells a person. C99, usable from C++. */
#ifndef STATION_TEXT_H
#define STATION_TEXT_H

#include "station.h"

/* A length of station.h as text. */
#define STATION_TEXT_OF(length) #length
#define STATION_TEXT(length) STATION_TEXT_OF(length)

static inline const char *station_text(uint32_t refusal) {
    static const char *const texts[] = {
        "none",
        "input ends before a count or inside a section",
        "a count the section does not allow",
        "bytes after the matrix section",
        "VIC not listed, or family not offered by it",
        "any other field outside its range (matrix mode, depth or repetition above 2; range, edition or quantisation above 1; bits 7:6 of the edition byte); input ID 0 or above 8, a wiring that is not defined for its ID or a count that does not fit it, a sync value above 1023; not twelve numbers of a meter",
        "RGB input and encoding not 0, or YCbCr input and encoding 0, without a matrix; encoding not 0 with range 1; DVI with audio or with encoding not 0; more than 24 bits with 4:2:2 or DVI; quantisation or content type under edition D",
        "image not of 256 bytes; in the machine also packet buffer not of 32, coefficient buffer not of 24, mark not of 1; bytes that are no pipe: another length, or a count above the longest request",
        "GC hold up, or AVI and audio holds both up",
        "coherent audio, and no exact pair exists",
        "write buffer shorter than 256 bytes; request buffer shorter than " STATION_TEXT(STATION_REQUEST) "; matrix buffer shorter than 25",
        "no request ends in this image",
        "an input above 4095",
        "two packet holds are up, or the write would leave two up",
        "a list of an odd length, or of more than 512 pairs",
        "a bad pair in a list; the first one's place stands beside the number",
        "a list that ends in an image in which no request ends",
        "a TMDS clock above 225,000,000 Hz",
        "a meter's number that is not a number, or infinite",
        "a meter's numbers for which there is no mode: with each factor below 2^mode in size, and every rounded field from -4096 to 4095",
        "sound that does not fit into the blanking of its mode with its repetition: too high a rate for eight channels",
        "an EDID of neither 128 nor 256 bytes, or without its header 00 FF FF FF FF FF FF 00; wishes of an odd length, or more than sixteen",
        "a block of an EDID whose bytes do not sum to zero modulo 256",
        "an extension whose tag is not 2, whose offset is 1 to 3 or above 127, or in which a data block runs past the offset",
        "no wish whose VIC the screen lists, whose sound it covers, and with which the request is accepted"
    };
    return refusal < sizeof texts / sizeof texts[0] ? texts[refusal] : "a number that this header does not know";
}

#undef STATION_TEXT
#undef STATION_TEXT_OF

#endif
