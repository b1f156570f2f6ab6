/* The smallest host: the write list of a request, for a chip whose registers are all 0. */
#include <station.h>
#include <station_text.h>
#include <stdio.h>

int main(void) {
    const uint8_t request[] = { 0x00, 0x07, 0x10, 0x00, 0x00, 0x01, 0x00, 0x00, 0x00, 0x03, 0x02, 0x02, 0x01, 0x00 };
    uint8_t image[STATION_IMAGE] = { 0 }, writes[STATION_WRITES];   /* the registers as they stand, and room for the list */
    struct station_count c = station_plan(request, sizeof request, image, sizeof image, writes, sizeof writes);
    if (c.refusal) {
        fprintf(stderr, "refused %u: %s\n", (unsigned)c.refusal, station_text(c.refusal));
        return 1;
    }
    for (uint32_t i = 0; i < c.count; i++) {
        if (i + 1 == c.count) printf("wait for one Vsync\n");       /* so that the picture opens on the new coefficients */
        printf("%02x = %02x\n", writes[2 * i], writes[2 * i + 1]);
    }
    return 0;
}
