/* The registers that a write list writes, in words. */
#ifndef REGISTERS_H
#define REGISTERS_H

#include <stdint.h>

/* The name of each, and its named fields; NULL for a register of no list. Source document 000, section 5. */
struct register_words { const char *name, *fields; };
extern const struct register_words registers[256];

/* The name of any register, of those that no list writes too: 0x41 is the power, which is the host's when it brings the chip up. */
const char *name_of_register(uint8_t address);

/* The steps of a list, in their order but for AVI and audio, which may change places. */
enum step { TO_MUTE, TO_FIX, TO_MATRIX, TO_AVI, TO_AUDIO, TO_OTHERS, TO_OPEN, STEPS };
extern const char *const step_words[STEPS];
enum step step_of(const uint8_t *pairs, uint32_t write);                        /* `write` is counted from 0 */

/* How many of the registers a list does not write: of a list of ours, those that are right already. */
unsigned left_out(const uint8_t *pairs, uint32_t count);

#endif
