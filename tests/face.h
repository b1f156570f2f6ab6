/* The C face as a table of calls. */
#ifndef FACE_H
#define FACE_H

#include "station.h"

/* One implementation of the face, as a table: the library, the model, or one of the wrong ones. */
struct face {
    struct station_count (*plan)(const uint8_t *, size_t, const uint8_t *, size_t, uint8_t *, size_t);
    struct station_count (*decode)(const uint8_t *, size_t, uint8_t *, size_t);
    struct station_pair (*ncts)(const uint8_t *, size_t);
    uint32_t (*write)(uint8_t *, size_t, uint8_t *, size_t, uint8_t *, size_t, uint8_t *, size_t, uint8_t, uint8_t);
    uint32_t (*vsync)(uint8_t *, size_t, uint8_t *, size_t, uint8_t *, size_t, uint8_t *, size_t);
    struct station_part (*sent)(const uint8_t *, size_t, const uint8_t *, size_t, uint32_t);
    struct station_state (*mute)(const uint8_t *, size_t, const uint8_t *, size_t);
    struct station_count (*matrix)(const uint8_t *, size_t, const uint8_t *, size_t, uint8_t, uint8_t *, size_t);
    struct station_pixel (*preview)(const uint8_t *, size_t, uint32_t, uint32_t, uint32_t);
    struct station_masks (*class_of)(uint8_t);
    struct station_verdict (*vet)(const uint8_t *, size_t, const uint8_t *, size_t, const uint8_t *, size_t, uint8_t, const uint8_t *,
                                  size_t);
    struct station_count (*meter)(const float *, size_t, uint8_t *, size_t);
    struct station_piped (*pipe_take)(uint8_t *, size_t, const uint8_t *, size_t);
    struct station_piped (*pipe_end)(uint8_t *, size_t);
    struct station_monitor (*edid)(const uint8_t *, size_t);
    struct station_choice (*choose)(const uint8_t *, size_t, const uint8_t *, size_t, const uint8_t *, size_t);
};

#endif
