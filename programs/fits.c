#include "fits.h"
#include <stdarg.h>
#include <string.h>

static uint32_t answer(const struct request *q) { return station_ncts(q->bytes, q->length).refusal; }

int highest_rate(uint8_t vic, int repetition, int channels) {
    int highest = -1;
    for (int rate = 0; word_of_value("rate", rate); rate++) {
        struct request q = request_of_text("vic %u rgb hdmi repetition=%d audio rate=%d channels=%d", vic, repetition, rate, channels);
        if (!answer(&q)) highest = rate;
    }
    return highest;
}

static void add(char *text, const char *format, ...) {
    size_t used = strlen(text);
    va_list list;
    va_start(list, format);
    vsnprintf(text + used, TEXT_OF_A_FIT - used, format, list);
    va_end(list);
}

int is_mended(const struct request *q, const char *name, int value) {
    struct request r = with_field(*q, name, value);
    return !answer(&r);
}

const char *text_of_room(const struct request *q, char text[TEXT_OF_A_FIT]) {
    uint8_t vic = (uint8_t)value_of_field(q, "vic");
    int repetition = value_of_field(q, "repetition"), channels = value_of_field(q, "channels"), rate = value_of_field(q, "rate");
    *text = 0;
    add(text, "%d channels at %s do not fit into the blanking of vic %u with each pixel %s: there %d channels go up to %s, %d to %s.", channels,
        word_of_value("rate", rate), vic, word_of_value("repetition", repetition), MANY_CHANNELS,
        word_of_value("rate", highest_rate(vic, repetition, MANY_CHANNELS)), FEW_CHANNELS,
        word_of_value("rate", highest_rate(vic, repetition, FEW_CHANNELS)));
    return text;
}

const char *text_of_fit(const struct request *q, char text[TEXT_OF_A_FIT]) {
    int rate = value_of_field(q, "rate"), named = 0;
    text_of_room(q, text);
    add(text, " It fits with");
    while (rate >= 0 && !is_mended(q, "rate", rate)) rate--;
    const char *between = "";
    if (rate >= 0) add(text, " %s", word_of_value("rate", rate)), between = ", or";
    if (is_mended(q, "channels", FEW_CHANNELS)) add(text, "%s %d channels", between, FEW_CHANNELS), between = ", or";
    for (int r = 0; word_of_value("repetition", r); r++)
        if (is_mended(q, "repetition", r)) add(text, "%s each pixel %s", between, word_of_value("repetition", r)), between = ", or";
    for (size_t m = 0; m < number_of_modes; m++) {
        if (!is_mended(q, "vic", modes[m].vic)) continue;
        if (named++) add(text, ", %u", modes[m].vic);
        else add(text, "%s vic %u", between, modes[m].vic);
    }
    return text;
}
