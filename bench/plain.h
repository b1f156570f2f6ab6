/* The same planner, decoder and vet, and a meter's matrix, in plain C, for the benchmark to compare with. They check as much and answer the
 * same; the tests hold them to that. Two versions of the first three: one looks N and CTS up in a table of the results, one row for each
 * clock; the other finds them as the library does, by the rule of document 01. */
#ifndef PLAIN_H
#define PLAIN_H

#include "station.h"

#define PLAIN_SIDE(side) \
    struct station_count side##_plan(const uint8_t *request, size_t request_length, const uint8_t *image, size_t image_length, \
                                     uint8_t *writes, size_t writes_length); \
    struct station_count side##_decode(const uint8_t *image, size_t image_length, uint8_t *request, size_t request_length); \
    struct station_verdict side##_vet(const uint8_t *image, size_t image_length, const uint8_t *packet, size_t packet_length, \
                                      const uint8_t *coefficients, size_t coefficients_length, uint8_t mark, const uint8_t *list, \
                                      size_t list_length)
PLAIN_SIDE(plain);
PLAIN_SIDE(rule);
struct station_count plain_meter(const float *numbers, size_t count, uint8_t *matrix, size_t matrix_length);

#endif
