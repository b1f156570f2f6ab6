/* Linux's own reader of InfoFrames (hdmi_infoframe_unpack) on every packet that we finish, against what was asked. For every kind of
 * request the library plans on a noisy image, its machine runs the list, and its views hand back the two packets. Each packet with one
 * bit turned over is refused by that reader, which shows that it looks. Ends with 'N passed, M failed'. */
#include "../gen.h"
#include "../model/model.h"
#include "station.h"
#include <linux/hdmi.h>
#include <stdio.h>

enum { TYPE_AVI = 0x82, TYPE_AUDIO = 0x84 };

static uint32_t passed, failed;

static void expect(int good, const struct fields *f, const char *what) {
    if (good) passed++;
    else if (failed++ < 10)
        printf("  VIC %d, encoding %d, link %d, range %d, repetition %d, edition %d, quantisation %d, type %d, sound %d, channels %d: %s\n",
               f->vic, f->encoding, f->link, f->range, f->repetition, f->edition, f->quantisation, f->content, f->sound, f->channels, what);
}

/* One of a short list of VICs, which ends with 0. */
static int among(int vic, const int *list) {
    while (*list && *list != vic) list++;
    return *list != 0;
}

static int avi_as_asked(const struct hdmi_avi_infoframe *a, const struct fields *f) {
    static const int narrow[] = { 1, 2, 17, 0 }, itu601[] = { 1, 2, 3, 17, 18, 0 };
    static const enum hdmi_colorspace spaces[] = { HDMI_COLORSPACE_RGB, HDMI_COLORSPACE_YUV422, HDMI_COLORSPACE_YUV444 };
    static const int repeats[] = { 0, 1, 3 };
    static const enum hdmi_quantization_range ranges[] = { HDMI_QUANTIZATION_RANGE_LIMITED, HDMI_QUANTIZATION_RANGE_FULL };
    static const enum hdmi_ycc_quantization_range ycc[] = { HDMI_YCC_QUANTIZATION_RANGE_LIMITED, HDMI_YCC_QUANTIZATION_RANGE_FULL };
    static const enum hdmi_content_type types[] = {
        HDMI_CONTENT_TYPE_GRAPHICS, HDMI_CONTENT_TYPE_PHOTO, HDMI_CONTENT_TYPE_CINEMA, HDMI_CONTENT_TYPE_GAME,
    };
    enum hdmi_colorimetry c = among(f->vic, itu601) ? HDMI_COLORIMETRY_ITU_601 : HDMI_COLORIMETRY_ITU_709;
    return a->type == HDMI_INFOFRAME_TYPE_AVI && a->version == 2 && a->length == HDMI_AVI_INFOFRAME_SIZE &&
           a->colorspace == spaces[f->encoding] && a->scan_mode == HDMI_SCAN_MODE_NONE &&
           a->colorimetry == (f->encoding ? c : HDMI_COLORIMETRY_NONE) &&
           a->picture_aspect == (among(f->vic, narrow) ? HDMI_PICTURE_ASPECT_4_3 : HDMI_PICTURE_ASPECT_16_9) &&
           a->active_aspect == HDMI_ACTIVE_ASPECT_PICTURE && !a->itc && a->extended_colorimetry == 0 &&
           a->quantization_range == (f->encoding ? HDMI_QUANTIZATION_RANGE_DEFAULT : ranges[f->range]) &&
           a->nups == HDMI_NUPS_UNKNOWN && a->video_code == f->vic && a->ycc_quantization_range == ycc[f->quantisation] &&
           a->content_type == types[f->content] && a->pixel_repeat == repeats[f->repetition] && !a->top_bar && !a->bottom_bar &&
           !a->left_bar && !a->right_bar;
}

/* That reader leaves the channel count as it is coded, one less than the channels. */
static int audio_as_asked(const struct hdmi_audio_infoframe *a, const struct fields *f) {
    return a->type == HDMI_INFOFRAME_TYPE_AUDIO && a->version == 1 && a->length == HDMI_AUDIO_INFOFRAME_SIZE &&
           a->channels == (f->sound ? f->channels - 1 : 0) && a->coding_type == HDMI_AUDIO_CODING_TYPE_STREAM &&
           a->sample_size == HDMI_AUDIO_SAMPLE_SIZE_STREAM && a->sample_frequency == HDMI_AUDIO_SAMPLE_FREQUENCY_STREAM &&
           a->coding_type_ext == 0 && a->channel_allocation == (f->channels == 8 ? 0x13 : 0) && a->level_shift_value == 0 &&
           !a->downmix_inhibit;
}

/* A packet as it goes over the cable: its type, version, length, checksum and data. The reserved bits beside version and length in the
 * registers are no part of it. */
static size_t on_the_cable(uint8_t *packet, uint8_t type, const uint8_t *registers, size_t count) {
    packet[0] = type;
    packet[1] = registers[0] & 0x07;
    packet[2] = registers[1] & 0x1F;
    memcpy(packet + 3, registers + 2, count - 2);
    return count + 1;
}

static void unpacked(const struct fields *f, uint8_t type, const uint8_t *registers, size_t count, uint32_t turn) {
    uint8_t packet[PACKET_BYTES];
    union hdmi_infoframe frame;
    size_t size = on_the_cable(packet, type, registers, count);
    expect(hdmi_infoframe_unpack(&frame, packet, size) == 0, f, "a packet that is refused");
    expect(type == TYPE_AVI ? avi_as_asked(&frame.avi, f) : audio_as_asked(&frame.audio, f), f, "a packet that says something else");
    packet[turn % size] ^= (uint8_t)(1 << turn % 8);
    expect(hdmi_infoframe_unpack(&frame, packet, size) != 0, f, "a damaged packet that is taken");
}

int main(void) {
    uint32_t images = 0;
    for (uint32_t n = 0; n < kinds(); n++) {
        uint8_t list[256], bytes[LONGEST];
        struct chip chip;
        struct fields f;
        seed(n);
        if (!kind_of_request(n, &f)) continue;
        any_start(&chip);
        struct station_count c = station_plan(bytes, model_bytes(&f, bytes), chip.image, IMAGE_BYTES, list, sizeof list);
        if (c.refusal == 9) continue;                   /* no exact pair: nothing is finished */
        expect(c.refusal == 0, &f, "a request that is refused");
        for (uint32_t w = 0; w < c.count; w++)
            station_write(chip.image, IMAGE_BYTES, chip.packet, PACKET_BYTES, chip.coefficients, COEFFICIENT_BYTES, &chip.mark, MARK_BYTES,
                          list[2 * w], list[2 * w + 1]);
        struct station_part avi = station_sent(chip.image, IMAGE_BYTES, chip.packet, PACKET_BYTES, 0);
        struct station_part audio = station_sent(chip.image, IMAGE_BYTES, chip.packet, PACKET_BYTES, 1);
        unpacked(&f, TYPE_AVI, (avi.held ? chip.packet : chip.image) + avi.start, avi.len, n);
        unpacked(&f, TYPE_AUDIO, (audio.held ? chip.packet : chip.image) + audio.start, audio.len, n);
        images++;
    }
    printf("%u finished images, the AVI and the audio InfoFrame of each read by Linux's hdmi.c\n", (unsigned)images);
    printf("%u passed, %u failed\n", (unsigned)passed, (unsigned)failed);
    return failed != 0 || passed == 0;
}
