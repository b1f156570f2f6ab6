/* The fields of a request, a row each, in the order of documents 01 and 02. All that the model knows of a field is its row, beside what it
 * does:
 *   FIELD(section, byte, low, bits, name, values, shown)
 * its section; the byte of the section's body that it is in, from 0, and the bits of that byte, from bit `low` on; its name in `struct
 * fields`; the values that the documents allow, ONE_OF(..) or BELOW(..); and what a finished image shows of it, NO_REGISTER where no
 * register names it. The counts of the sections and the longest request follow. The twelve coefficients are no rows: they follow the rows
 * of the matrix section; nor are the four sync values, which follow those of the wiring section where its syncs are embedded. What a
 * wiring's four fields may be together is wiring.c's. */
#define MODEL_FIELDS(FIELD) \
    FIELD(OF_WIRING, 0, 0, 8, input, ONE_OF(inputs), image[0x15] & 15) \
    FIELD(OF_WIRING, 1, 0, 8, input_depth, ONE_OF(one_to_three), image[0x16] >> 4 & 3) \
    FIELD(OF_WIRING, 2, 0, 8, style, ONE_OF(one_to_three), image[0x16] >> 2 & 3) \
    FIELD(OF_WIRING, 3, 0, 8, justification, BELOW(3), image[0x48] >> 3 & 3) \
    FIELD(OF_VIDEO, 0, 0, 8, vic, ONE_OF(model_vics), image[0x3C] & 0x3F) \
    FIELD(OF_VIDEO, 1, 0, 8, family, BELOW(2), NO_REGISTER) \
    FIELD(OF_VIDEO, 2, 0, 8, encoding, BELOW(3), image[0x55] >> 5 & 3) \
    FIELD(OF_VIDEO, 3, 0, 8, link, BELOW(2), image[0xAF] >> 1 & 1) \
    FIELD(OF_VIDEO, 4, 0, 8, range, BELOW(2), range_of_q(image[0x55] >> 5 & 3, image[0x57] >> 2 & 3)) \
    FIELD(OF_VIDEO, 5, 0, 4, depth, BELOW(3), depth_of_code(image[0x4C] & 15)) \
    FIELD(OF_VIDEO, 5, 4, 4, repetition, BELOW(3), image[0x3B] >> 3 & 3) \
    FIELD(OF_VIDEO, 6, 0, 2, edition, BELOW(2), image[0x59] >> 4 != 0) \
    FIELD(OF_VIDEO, 6, 2, 2, quantisation, BELOW(2), image[0x59] >> 6) \
    FIELD(OF_VIDEO, 6, 4, 2, content, BELOW(4), image[0x59] >> 4 & 3) \
    FIELD(OF_VIDEO, 6, 6, 2, bits_7_6, BELOW(1), NO_REGISTER) \
    FIELD(OF_SOUND, 0, 0, 8, rate, BELOW(RATES), rate_of_code(image[0x15] >> 4)) \
    FIELD(OF_SOUND, 1, 0, 8, channels, ONE_OF(two_or_eight), (image[0x73] & 7) + 1) \
    FIELD(OF_SOUND, 2, 0, 8, coherent, BELOW(2), image[0x0A] >> 7) \
    FIELD(OF_MATRIX, 0, 0, 8, mode, BELOW(3), image[0x18] >> 5 & 3)
