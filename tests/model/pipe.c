/* A request through a pipe (document 02, request 08): which answer is given at once. No section is walked here: the bytes so far are judged
 * as a whole, by N and CTS, and judged again with more bytes behind them. */
#include "model.h"
#include <stdlib.h>
#include <string.h>

uint32_t model_number(const uint8_t *bytes, size_t length) { return model_ncts(bytes, length).refusal; }

/* "A refusal that no later byte can change": the same with each number of zeros behind the bytes, up to one more than the longest request
 * has. Zeros are enough: they fill a section that has begun, and are counts of 0 after it, which the video section does not allow, so no
 * 1 stays; and after a whole request the first of them is a byte too many. The harness tries other bytes too. */
int model_final(const uint8_t *bytes, size_t length) {
    enum { ZEROS = LONGEST + 1 };
    uint8_t *more = calloc(length + ZEROS, 1);
    uint32_t number = model_number(bytes, length);
    int final = 1;
    if (!more) abort();
    if (length) memcpy(more, bytes, length);
    for (size_t zeros = 1; zeros <= ZEROS && final; zeros++) final = model_number(more, length + zeros) == number;
    free(more);
    return final;
}
