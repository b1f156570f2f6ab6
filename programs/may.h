/* The accident of last May: what the chip showed, and what it was asked for. The old way wrote the new coefficients with no hold and no
 * mute, and the host died after the fifth. */
#ifndef MAY_H
#define MAY_H

/* What was shown: VIC 16, RGB, two channels, and the matrix of Table 39. */
#define MAY_BEFORE "vic 16 rgb hdmi audio 48kHz 2 coherent matrix table39"

/* What was asked for: VIC 4, YCbCr 4:4:4, eight channels, and the matrix of Table 43. Each of its twelve coefficients is another, in both
 * bytes, so a list of ours writes each of their registers. */
#define MAY_ASKED "vic 4 ycbcr444 hdmi audio 48kHz 8 matrix table43"

/* The first register of the coefficients, how many of them hold five, and the register with their hold. */
enum { FIRST_COEFFICIENT = 0x18, FIVE = 10, COEFFICIENT_HOLD = 0x1A };

#endif
