/* Wrong choices from what a screen says: document 02, request 12. One library, which reads an EDID by itself, with a place for each fault. A
 * fault in what is read of a screen is a row of SCREENS, and becomes two libraries: the overview has it, or the chooser; a fault of the one call
 * alone is a row of OVERVIEWS or CHOICES. Each must be caught by hand. What shows in nothing is not here: whether the base block's sum or the
 * extension's is found wrong first, for both are 22; whether a tag or an offset is, for both are 23; whether the wishes' length or the EDID's
 * and its header is, for all are 21; VICs above 63 in the chooser, for no request has them. */
#include "wrong.h"

/* FAULT(name, in words) */
#define SCREENS(FAULT) \
    FAULT(longer_taken, "bytes behind a block or two passed over") \
    FAULT(multiples_taken, "three blocks taken, or more") \
    FAULT(length_in_two, "the EDID's length in two bytes") \
    FAULT(base_refused, "a base block alone refused") \
    FAULT(base_as_23, "a base block alone refused 23") \
    FAULT(extension_passed_over, "the extension never read") \
    FAULT(header_first, "the header's first byte not looked at") \
    FAULT(header_last, "the header's last byte not looked at") \
    FAULT(header_middle, "one of the header's bytes 255 not looked at") \
    FAULT(header_not, "the header not looked at") \
    FAULT(header_as_22, "22 for another header") \
    FAULT(length_as_22, "22 for another length") \
    FAULT(length_as_7, "7 for another length") \
    FAULT(sum_together, "one sum over both blocks") \
    FAULT(first_sum_alone, "the base block's sum alone") \
    FAULT(second_sum_alone, "the extension's sum alone") \
    FAULT(sum_not, "no sum looked at") \
    FAULT(sum_7_bits, "a sum of seven bits") \
    FAULT(sum_byte_left_out, "the sum without the last byte") \
    FAULT(sum_as_21, "21 for a sum") \
    FAULT(sum_as_23, "23 for a sum") \
    FAULT(second_sum_as_23, "23 for the extension's sum") \
    FAULT(byte_126, "an extension read where byte 126 counts it") \
    FAULT(byte_126_refused, "21 where byte 126 counts another number") \
    FAULT(tag_1, "an extension of tag 1 taken") \
    FAULT(tag_3, "an extension of tag 3 taken") \
    FAULT(tag_not, "the extension's tag not looked at") \
    FAULT(tag_bit_7, "the tag's bit 7 not looked at") \
    FAULT(tag_as_21, "21 for another tag") \
    FAULT(tag_passed_over, "an extension of another tag passed over") \
    FAULT(tag_by_revision, "another tag taken in a revision below 3") \
    FAULT(offset_0_read, "offset 0 read to the end") \
    FAULT(offset_0_refused, "offset 0 refused") \
    FAULT(offset_1, "offset 1 taken") \
    FAULT(offset_2, "offset 2 taken") \
    FAULT(offset_3, "offset 3 taken") \
    FAULT(offset_4_refused, "offset 4 refused") \
    FAULT(offset_127_refused, "offset 127 refused") \
    FAULT(offset_128, "offset 128 taken") \
    FAULT(offset_cut, "offsets above 127 taken as 127") \
    FAULT(offset_by_revision, "the offset not looked at in a revision below 3") \
    FAULT(offset_as_22, "22 for an offset") \
    FAULT(revision_0_read, "revision 0 read") \
    FAULT(revision_1_read, "revision 1 read") \
    FAULT(revision_2_read, "revision 2 read") \
    FAULT(revision_3_alone, "revision 3 read alone") \
    FAULT(revision_refused, "a revision below 3 refused") \
    FAULT(revision_walked, "a block that runs past refused in a revision below 3") \
    FAULT(past_by_one, "a block that ends one byte too late taken") \
    FAULT(ends_at_offset, "a block that ends at the offset refused") \
    FAULT(to_the_sum, "a walk to byte 126, and not to the offset") \
    FAULT(past_the_sum, "23 where a block runs past the extension alone") \
    FAULT(past_cut, "a block that runs past cut") \
    FAULT(past_stops, "a block that runs past the end of what is read") \
    FAULT(past_of_ours, "a block of another tag that runs past passed over") \
    FAULT(past_of_video, "a video block that runs past taken as far as it goes") \
    FAULT(past_as_24, "24 for a block that runs past") \
    FAULT(end_in_a_byte, "the end of a block, from the EDID's start on, in one byte") \
    FAULT(from_3, "blocks from byte 3 on") \
    FAULT(from_5, "blocks from byte 5 on") \
    FAULT(length_4_bits, "a block's length of four bits") \
    FAULT(own_byte, "a block's length with its own byte") \
    FAULT(tag_2_bits, "a block's tag of two bits") \
    FAULT(empty_ends, "a block without bytes ends the collection") \
    FAULT(zero_ends, "a byte 0 ends the collection") \
    FAULT(other_ends, "a block of another tag ends the collection") \
    FAULT(first_video, "the first video block alone") \
    FAULT(first_audio, "the first audio block alone") \
    FAULT(extended_read, "an extended block read as video") \
    FAULT(vendor_read, "a vendor's block read as video") \
    FAULT(native_kept, "bit 7 of a VIC kept") \
    FAULT(native_alone, "native VICs alone") \
    FAULT(native_dropped, "native VICs passed over") \
    FAULT(vic_6_bits, "a VIC of six bits") \
    FAULT(first_vic_missed, "a video block's first byte passed over") \
    FAULT(last_vic_missed, "a video block's last byte passed over") \
    FAULT(thirty_vics, "thirty VICs of a block at the most") \
    FAULT(any_format, "sound of any format taken") \
    FAULT(format_0, "sound of format 0 taken") \
    FAULT(ac_3, "AC-3 taken") \
    FAULT(format_3_bits, "a format of three bits") \
    FAULT(format_bit_7, "a format of five bits") \
    FAULT(exact_channels, "as many channels and no more") \
    FAULT(channels_less, "one channel less") \
    FAULT(channels_more, "one channel more") \
    FAULT(channels_not, "the channels not looked at") \
    FAULT(rates_not, "the rates not looked at") \
    FAULT(rates_shifted, "the next rate's bit") \
    FAULT(rates_below, "a rate covers those below it") \
    FAULT(joined, "rates of one descriptor with channels of another") \
    FAULT(joined_block, "rates and channels of one block joined") \
    FAULT(joined_formats, "channels of linear PCM with rates of another format") \
    FAULT(first_sound, "a block's first audio descriptor alone") \
    FAULT(last_sound, "the last audio descriptor alone") \
    FAULT(bits_asked, "sound without a number of bits passed over") \
    FAULT(rest_taken, "a rest of two bytes taken") \
    FAULT(rest_carried, "a rest joined with the next block") \
    FAULT(rest_refused, "a rest refused") \
    FAULT(rest_drops, "an audio block with a rest passed over") \
    FAULT(basic_audio, "\"basic audio\" taken for a descriptor") \
    FAULT(basic_asked, "sound without \"basic audio\" passed over") \
    FAULT(sum_before_header, "22 before 21") \
    FAULT(tag_before_header, "23 before 21") \
    FAULT(tag_before_sum, "23 before 22") \
    FAULT(walk_before_sum, "a block that runs past before the sums") \
    FAULT(tag_before_base_sum, "the extension before the base block's sum") \
    FAULT(good_remembered, "the last good screen for one that is refused 22") \
    FAULT(last_remembered, "what the last screen had as well") \
    FAULT(sum_mended, "a wrong sum made right in the EDID") \
    FAULT(sum_put_back, "the EDID's sum byte written, and put back") \
    FAULT(edid_cleared, "the extension cleared after it was read") \
    FAULT(reads_behind, "a byte behind the EDID read") \
    FAULT(reads_before, "a byte before the EDID read") \
    FAULT(reads_empty, "a byte of an empty EDID read") \
    FAULT(reads_extension, "the extension of a base block alone read") \
    FAULT(reads_past, "a block that runs past the extension read to its end")

#define OVERVIEWS(FAULT) \
    FAULT(seen_beside, "what was seen so far beside 23") \
    FAULT(rate_beside, "a rate beside a refusal") \
    FAULT(vic_0_bit, "a bit for VIC 0") \
    FAULT(vics_wrapped, "VIC 64 in VIC 0's bit, and so on") \
    FAULT(vic_63_missed, "no bit for VIC 63") \
    FAULT(vic_1_missed, "no bit for VIC 1") \
    FAULT(vic_32_low, "VIC 32 in the lower word") \
    FAULT(words_exchanged, "the two words exchanged") \
    FAULT(ours_alone, "bits of VICs that a request may have alone") \
    FAULT(rate_bit_7, "bit 7 among the rates") \
    FAULT(eight_by_seven, "seven channels as eight") \
    FAULT(eight_by_six, "six channels as eight") \
    FAULT(two_by_one, "one channel as two") \
    FAULT(two_without_eight, "eight channels not as two") \
    FAULT(rates_exchanged, "rates of two and of eight channels exchanged") \
    FAULT(nothing_as_24, "24 for a screen that lists nothing")

#define CHOICES(FAULT) \
    FAULT(last_wish, "the last wish that fits") \
    FAULT(first_wish_alone, "the first wish alone") \
    FAULT(first_listed_alone, "the first wish that is listed, or none") \
    FAULT(listed_is_enough, "the first wish that is listed") \
    FAULT(best_vic, "the wish with the highest VIC that fits") \
    FAULT(screens_order, "the first VIC of the screen that is wished") \
    FAULT(not_listed_too, "a wish that the screen does not list") \
    FAULT(own_vic_listed, "the request's own VIC asked of the screen") \
    FAULT(own_mode_judged, "the request judged with its own VIC and family") \
    FAULT(own_family, "a wish's family passed over") \
    FAULT(family_0, "family 0 for each wish") \
    FAULT(other_family, "the other family where a wish's is refused") \
    FAULT(family_1_refused, "wishes of family 1 passed over") \
    FAULT(family_bit, "a family of one bit") \
    FAULT(wish_7_bits, "a wish's VIC of seven bits") \
    FAULT(wish_6_bits, "a wish's VIC of six bits") \
    FAULT(family_first, "a wish's family before its VIC") \
    FAULT(place_from_1, "places from 1 on") \
    FAULT(place_in_bytes, "a place in bytes") \
    FAULT(place_is_vic, "a VIC for a place") \
    FAULT(at_2, "`at` always 2") \
    FAULT(at_2_mended, "the wish always put into byte 2") \
    FAULT(at_less, "`at` one less") \
    FAULT(at_more, "`at` one more") \
    FAULT(at_counts_syncs, "`at` 6 with any wiring") \
    FAULT(at_0, "`at` always 0") \
    FAULT(seventeen, "seventeen wishes taken") \
    FAULT(sixteen_of_many, "the first sixteen of many wishes taken") \
    FAULT(sixteen_refused, "sixteen wishes refused") \
    FAULT(fifteen_looked_at, "the sixteenth wish never looked at") \
    FAULT(wishes_in_a_byte, "the wishes' length in one byte") \
    FAULT(wishes_in_two, "the wishes' length in two bytes") \
    FAULT(odd_taken, "half a wish passed over") \
    FAULT(odd_as_family_0, "half a wish taken in family 0") \
    FAULT(odd_as_24, "24 for half a wish") \
    FAULT(many_as_24, "24 for seventeen wishes") \
    FAULT(many_as_14, "14 for seventeen wishes") \
    FAULT(no_wish_21, "21 for no wish") \
    FAULT(no_wish_own, "the request's own VIC where there is no wish") \
    FAULT(own_vic_too, "the request's own VIC after the wishes") \
    FAULT(own_vic_first, "the request's own VIC before the wishes") \
    FAULT(wishes_after_sums, "the wishes after the sums") \
    FAULT(wishes_last, "the wishes after 23") \
    FAULT(none_first, "24 for no wish before all") \
    FAULT(request_first, "24 for a request that no wish mends before all") \
    FAULT(none_before_sum, "24 for no wish before the sums") \
    FAULT(request_number, "the request's own number for 24") \
    FAULT(wish_number, "the number with the last wish for 24") \
    FAULT(ends_as_1, "1 for a request that ends before its VIC") \
    FAULT(no_wish_accepted, "nothing that fits accepted") \
    FAULT(one_taken, "a request that is refused 1 taken") \
    FAULT(two_taken, "a request that is refused 2 taken") \
    FAULT(three_taken, "a request that is refused 3 taken") \
    FAULT(four_taken, "a wish that is refused 4 taken") \
    FAULT(five_taken, "a request that is refused 5 taken") \
    FAULT(six_taken, "a request that is refused 6 taken") \
    FAULT(nine_taken, "a request that is refused 9 taken") \
    FAULT(seventeen_hz_taken, "a request that is refused 17 taken") \
    FAULT(twenty_taken, "a request that is refused 20 taken") \
    FAULT(four_not_mended, "a request that is refused 4 by itself never mended") \
    FAULT(nine_not_mended, "a request that is refused 9 by itself never mended") \
    FAULT(seventeen_not_mended, "a request that is refused 17 by itself never mended") \
    FAULT(twenty_not_mended, "a request that is refused 20 by itself never mended") \
    FAULT(sound_not_asked, "sound not asked of the screen") \
    FAULT(sound_always_asked, "sound asked of the screen where there is none") \
    FAULT(sound_of_coherent, "sound asked of the screen where it is coherent alone") \
    FAULT(two_asked, "two channels asked for eight") \
    FAULT(eight_asked, "eight channels asked for two") \
    FAULT(rate_asked_shifted, "the next rate asked") \
    FAULT(dvi_refused, "DVI never fits") \
    FAULT(wiring_refused, "a request with a wiring never fits") \
    FAULT(matrix_refused, "a request with a matrix never fits") \
    FAULT(sound_first, "24 for sound that no wish is covered with, before 23") \
    FAULT(place_beside, "a place beside a refusal") \
    FAULT(at_beside, "`at` beside a refusal") \
    FAULT(at_beside_24, "`at` beside 24") \
    FAULT(vic_put, "the chosen VIC put into the request") \
    FAULT(family_put, "the chosen family put into the request") \
    FAULT(tried_left, "the last tried wish left in the request") \
    FAULT(vic_put_back, "each wish put into the request, and the request's bytes put back") \
    FAULT(wish_cleared, "the chosen wish cleared") \
    FAULT(wishes_sorted, "the wishes' VICs without their highest bit") \
    FAULT(choice_remembered, "the last wish that fitted taken again") \
    FAULT(reads_wish_behind, "a byte behind the wishes read") \
    FAULT(reads_wish_first, "a wish read where there is none") \
    FAULT(reads_request_behind, "a byte behind the request read") \
    FAULT(reads_request_vic, "the place of the VIC read though the request ends before it") \
    FAULT(reads_request_empty, "a byte of an empty request read")

#define NUMBER(name, words) name##_fault,
enum fault { right_fault, SCREENS(NUMBER) OVERVIEWS(NUMBER) CHOICES(NUMBER) };     /* the first is no fault */

/* What a screen lists: VICs, as they are taken; and the rates with at least so many channels, in one descriptor. `rest` is what an audio block
 * left over. */
enum { ONE_BLOCK = 128, TWO_BLOCKS = 256, LAST_BYTE = 127, CHANNELS = 9 };
struct seen {
    uint32_t lists[256], rates[CHANNELS + 1], order[ONE_BLOCK], in_order;
    int videos, audios, union_of_rates, most_channels, rests;
    uint8_t rest[3];
};
static struct { struct seen good, last; struct station_choice choice; } remembered;

/* Reading an EDID. ------------------------------------------------------------------------------------------------------------------ */

static int wrong_length(enum fault fault, size_t *length) {
    if (fault == length_in_two_fault) *length = (uint16_t)*length;
    if (fault == longer_taken_fault && *length > ONE_BLOCK) *length = *length < TWO_BLOCKS ? ONE_BLOCK : TWO_BLOCKS;
    if (fault == multiples_taken_fault && *length > TWO_BLOCKS && *length % ONE_BLOCK == 0) *length = TWO_BLOCKS;
    if (fault == base_refused_fault && *length == ONE_BLOCK) return 1;
    return *length != ONE_BLOCK && *length != TWO_BLOCKS;
}

static int wrong_header(enum fault fault, const uint8_t *e, size_t length) {
    for (int i = 0; i < 8; i++) {
        int wrong = e[i] != (i == 0 || i == 7 ? 0x00 : 0xFF);
        if ((fault == header_first_fault && i == 0) || (fault == header_last_fault && i == 7) || (fault == header_middle_fault && i == 4)) continue;
        if (wrong && fault != header_not_fault) return 1;
    }
    return fault == byte_126_refused_fault && e[126] != length / ONE_BLOCK - 1;
}

static unsigned sum_of(const uint8_t *bytes, int count) {
    unsigned sum = 0;
    while (count > 0) sum += bytes[--count];
    return sum;
}

/* Of the base block as 1, of the extension as 2. */
static int wrong_sums(enum fault fault, const uint8_t *e, size_t length) {
    unsigned modulo = fault == sum_7_bits_fault ? 128 : 256;
    int bytes = fault == sum_byte_left_out_fault ? LAST_BYTE : ONE_BLOCK, two = length == TWO_BLOCKS;
    unsigned first = sum_of(e, bytes), second = two ? sum_of(e + ONE_BLOCK, bytes) : 0;
    if (fault == sum_not_fault) return 0;
    if (fault == sum_together_fault) return (first + second) % modulo ? 1 : 0;
    int wrong = (fault != second_sum_alone_fault || !two) && first % modulo ? 1 : 0;
    if (fault != first_sum_alone_fault && second % modulo) wrong |= 2;
    return wrong;
}

static void take_video(enum fault fault, const uint8_t *bytes, int length, struct seen *s) {
    if (fault == first_video_fault && s->videos++) return;
    for (int i = fault == first_vic_missed_fault; i < length - (fault == last_vic_missed_fault); i++) {
        int native = bytes[i] >> 7, vic = bytes[i] & 0x7F;
        if ((fault == native_alone_fault && !native) || (fault == native_dropped_fault && native)) continue;
        if (fault == thirty_vics_fault && i == 30) break;
        if (fault == native_kept_fault) vic = bytes[i];
        if (fault == vic_6_bits_fault) vic &= 0x3F;
        s->lists[vic] = 1;
        s->order[s->in_order++ % ONE_BLOCK] = (uint32_t)vic;
    }
}

static int right_format(enum fault fault, int first) {
    int format = first >> 3 & 15;
    if (fault == any_format_fault) return 1;
    if (fault == format_0_fault && format == 0) return 1;
    if (fault == ac_3_fault && format == 2) return 1;
    if (fault == format_3_bits_fault) return (format & 7) == 1;
    return format == 1 && (fault != format_bit_7_fault || first < 0x80);
}

static void take_sound(enum fault fault, const uint8_t *d, struct seen *s) {
    int channels = (d[0] & 7) + 1, rates = d[1] & 0x7F;
    s->union_of_rates |= rates;
    if (!right_format(fault, d[0])) return;
    if (fault == bits_asked_fault && d[2] == 0) return;
    if (channels > s->most_channels) s->most_channels = channels;
    if (fault == channels_less_fault) channels--;
    if (fault == channels_more_fault) channels++;
    if (fault == channels_not_fault) channels = 8;
    if (fault == rates_not_fault) rates = 0x7F;
    if (fault == rates_shifted_fault) rates >>= 1;
    for (int r = 0; fault == rates_below_fault && r < RATES; r++) rates |= rates >> 1;
    if (fault == rate_bit_7_fault) rates |= d[1] & 0x80;
    if (fault == last_sound_fault) memset(s->rates, 0, sizeof s->rates);
    for (int c = fault == exact_channels_fault ? channels : 1; c <= channels; c++) s->rates[c] |= (uint32_t)rates;
}

static void join(struct seen *s, int rates) {
    for (int c = 1; c <= s->most_channels; c++) s->rates[c] |= (uint32_t)rates;
}

static void take_audio(enum fault fault, const uint8_t *bytes, int length, struct seen *s) {
    struct seen block = { .union_of_rates = 0 };
    if (fault == first_audio_fault && s->audios++) return;
    if (fault == rest_drops_fault && length % 3) return;
    for (int i = 0; i + 3 <= length; i += 3) {
        take_sound(fault, bytes + i, s);
        if (right_format(fault, bytes[i])) take_sound(fault, bytes + i, &block);
        if (fault == first_sound_fault) break;
    }
    if (fault == joined_block_fault) join(&block, block.union_of_rates);
    for (int c = 0; fault == joined_block_fault && c <= CHANNELS; c++) s->rates[c] |= block.rates[c];
    if (fault == rest_taken_fault && length % 3 == 2) take_sound(fault, (const uint8_t[]){ bytes[length - 2], bytes[length - 1], 0 }, s);
    for (int i = length - length % 3; fault == rest_carried_fault && i < length; i++) {
        s->rest[s->rests++] = bytes[i];
        if (s->rests == 3) take_sound(fault, s->rest, s), s->rests = 0;
    }
}

/* One block; answers 1 where a fault refuses it. */
static int take_block(enum fault fault, int tag, const uint8_t *bytes, int length, struct seen *s) {
    if (fault == tag_2_bits_fault) tag &= 3;
    if (fault == extended_read_fault && tag == 7 && length) tag = 2, bytes++, length--;
    if (fault == vendor_read_fault && tag == 3) tag = 2;
    if (tag == 2) take_video(fault, bytes, length, s);
    if (tag == 1) take_audio(fault, bytes, length, s);
    return fault == rest_refused_fault && tag == 1 && length % 3;
}

/* The collection; answers 1 where it is spoiled. */
static int walked(enum fault fault, const uint8_t *x, int end, struct seen *s) {
    int at = fault == from_3_fault ? 3 : fault == from_5_fault ? 5 : 4;
    if (fault == to_the_sum_fault) end = LAST_BYTE;
    while (at < end) {
        int tag = x[at] >> 5, length = x[at] & (fault == length_4_bits_fault ? 15 : 31), next = at + 1 + length;
        int limit = fault == past_the_sum_fault ? LAST_BYTE : end + (fault == past_by_one_fault) - (fault == ends_at_offset_fault);
        if (fault == own_byte_fault && length) next--, length--;
        if (fault == zero_ends_fault && x[at] == 0) return 0;
        if (fault == end_in_a_byte_fault && next + ONE_BLOCK > 255) return 0;
        if (next > limit) {
            volatile uint8_t byte = 0;
            for (int i = at; fault == reads_past_fault && i < next; i++) byte = x[i];
            (void)byte;
            if (fault == past_stops_fault) return 0;
            if (fault == past_of_ours_fault && tag != 1 && tag != 2) return 0;
            if (fault != past_cut_fault && (fault != past_of_video_fault || tag != 2)) return 1;
            length = end - at - 1;
        }
        if (fault == empty_ends_fault && length == 0) return 0;
        if (take_block(fault, tag, x + at + 1, length, s)) return 1;
        if (fault == other_ends_fault && tag != 1 && tag != 2) return 0;
        at = next;
    }
    return 0;
}

static int read_in(enum fault fault, int revision) {
    if (fault == revision_3_alone_fault) return revision == 3;
    return revision >= 3 || (fault == revision_0_read_fault && revision == 0) || (fault == revision_1_read_fault && revision == 1) ||
           (fault == revision_2_read_fault && revision == 2);
}

static int wrong_offset(enum fault fault, const uint8_t *x) {
    int offset = x[2];
    if (fault == offset_by_revision_fault && x[1] < 3) return 0;
    if ((fault == offset_0_refused_fault && offset == 0) || (fault == offset_4_refused_fault && offset == 4)) return 1;
    if (fault == offset_127_refused_fault && offset == 127) return 1;
    if ((fault == offset_1_fault && offset == 1) || (fault == offset_2_fault && offset == 2) || (fault == offset_3_fault && offset == 3)) return 0;
    if (offset > 127) return fault != offset_cut_fault && (fault != offset_128_fault || offset != 128);
    return offset > 0 && offset < 4;
}

static int wrong_tag(enum fault fault, const uint8_t *x) {
    if (fault == tag_not_fault || (fault == tag_1_fault && x[0] == 1) || (fault == tag_3_fault && x[0] == 3)) return 0;
    if (fault == tag_by_revision_fault && x[1] < 3) return 0;
    return (x[0] & (fault == tag_bit_7_fault ? 0x7F : 0xFF)) != 2;
}

/* What refuses the extension, in the order of the numbers; 0 for none. */
enum { GOOD, TAG_WRONG, OFFSET_WRONG, PAST_THE_END };
static int wrong_extension(enum fault fault, const uint8_t *x, struct seen *s) {
    struct seen nothing = { .in_order = 0 };
    if (fault == tag_passed_over_fault && x[0] != 2) return GOOD;
    if (wrong_tag(fault, x)) return TAG_WRONG;
    if (wrong_offset(fault, x)) return OFFSET_WRONG;
    if (fault == revision_refused_fault && x[1] < 3) return TAG_WRONG;
    if (fault == basic_audio_fault && x[1] >= 3 && (x[3] & 0x40)) s->rates[1] |= 7, s->rates[2] |= 7;
    int end = x[2] > LAST_BYTE && fault == offset_cut_fault ? LAST_BYTE : x[2];
    if (x[2] == 0 && fault == offset_0_read_fault) end = LAST_BYTE;
    if (x[2] == 0 && fault == to_the_sum_fault) return GOOD;
    if (!read_in(fault, x[1])) return fault == revision_walked_fault && end && walked(fault, x, end, &nothing) ? PAST_THE_END : GOOD;
    int spoiled = end && walked(fault, x, end, s);
    if (fault == joined_fault) {
        struct seen pcm = { .union_of_rates = 0 };
        walked(right_fault, x, end, &pcm);
        int rates = 0;
        for (int c = 1; c <= CHANNELS; c++) rates |= (int)pcm.rates[c];
        join(s, rates);
    }
    if (fault == joined_formats_fault) join(s, s->union_of_rates);
    if (fault == basic_asked_fault && !(x[3] & 0x40)) memset(s->rates, 0, sizeof s->rates);
    return spoiled ? PAST_THE_END : GOOD;
}

/* 21 to 23, 0 for none; what is seen beside a refusal is nothing. */
static uint32_t refused(enum fault fault, const uint8_t *e, size_t length, struct seen *s) {
    *s = (struct seen){ .in_order = 0 };
    if (wrong_length(fault, &length)) return fault == length_as_22_fault ? 22 : fault == length_as_7_fault ? 7 : 21;
    int header = wrong_header(fault, e, length), sums = wrong_sums(fault, e, length), two = length == TWO_BLOCKS;
    if (fault == extension_passed_over_fault || (fault == byte_126_fault && e[126] == 0)) two = 0;
    int extension = two ? wrong_extension(fault, e + ONE_BLOCK, s) : GOOD;
    if (fault == sum_before_header_fault && sums) return 22;
    if (fault == tag_before_header_fault && (extension == TAG_WRONG || extension == OFFSET_WRONG)) return 23;
    if (header) return fault == header_as_22_fault ? 22 : 21;
    if (fault == tag_before_sum_fault && (extension == TAG_WRONG || extension == OFFSET_WRONG)) return 23;
    if (fault == walk_before_sum_fault && extension == PAST_THE_END) return 23;
    if (fault == tag_before_base_sum_fault && sums == 1 && extension) return 23;
    if (sums && fault == good_remembered_fault && remembered.good.in_order) {
        *s = remembered.good;
        return 0;
    }
    if (sums && fault == sum_mended_fault) {
        uint8_t *lent = (uint8_t *)(uintptr_t)e;
        lent[LAST_BYTE] = (uint8_t)(lent[LAST_BYTE] - sum_of(e, ONE_BLOCK));
    }
    if (sums) return fault == sum_as_21_fault ? 21 : fault == sum_as_23_fault || (fault == second_sum_as_23_fault && sums == 2) ? 23 : 22;
    if (extension == TAG_WRONG && fault == tag_as_21_fault) return 21;
    if (extension == OFFSET_WRONG && fault == offset_as_22_fault) return 22;
    if (extension == PAST_THE_END && fault == past_as_24_fault) return 24;
    if (length == ONE_BLOCK && fault == base_as_23_fault) return 23;
    return extension ? 23 : 0;
}

/* Bytes that were not lent, or not to be written. */
static void write_back(const uint8_t *at, uint8_t byte) {
    volatile uint8_t *lent = (volatile uint8_t *)(uintptr_t)at, was = *lent;
    *lent = byte;
    *lent = was;
}

static void touch(enum fault fault, const uint8_t *e, size_t length) {
    volatile uint8_t byte = 0;
    switch (fault) {
    case reads_behind_fault: byte = e[length]; break;
    case reads_before_fault: byte = e[-1]; break;
    case reads_empty_fault: byte = e[0]; break;
    case reads_extension_fault: if (length == ONE_BLOCK) byte = e[ONE_BLOCK]; break;
    case sum_put_back_fault: if (length) write_back(e + length - 1, 0); break;
    case edid_cleared_fault: if (length == TWO_BLOCKS) memset((uint8_t *)(uintptr_t)e + ONE_BLOCK, 0, ONE_BLOCK); break;
    default: break;
    }
    (void)byte;
}

static uint32_t looked_at(enum fault fault, const uint8_t *e, size_t length, struct seen *s) {
    uint32_t number = refused(fault, e, length, s);
    touch(fault, e, length);
    if (number) {
        if (fault != seen_beside_fault) *s = (struct seen){ .in_order = 0 };
        return number;
    }
    if (fault == good_remembered_fault) remembered.good = *s;
    if (fault == last_remembered_fault) {
        struct seen now = *s;
        for (int v = 0; v < 256; v++) s->lists[v] |= remembered.last.lists[v];
        for (int c = 0; c <= CHANNELS; c++) s->rates[c] |= remembered.last.rates[c];
        remembered.last = now;
    }
    return 0;
}

/* The overview. --------------------------------------------------------------------------------------------------------------------- */

static struct station_monitor overview(enum fault fault, const uint8_t *e, size_t length) {
    struct seen s;
    struct station_monitor m = { looked_at(fault, e, length, &s), 0, 0, s.rates[2], s.rates[8] };
    for (int v = 0; v < 256; v++) {
        int bit = fault == vics_wrapped_fault ? v % 64 : v, first = fault != vic_0_bit_fault && fault != vics_wrapped_fault;
        if (!s.lists[v] || bit < first || bit >= (fault == vic_63_missed_fault ? 63 : 64)) continue;
        if ((fault == vic_1_missed_fault && v == 1) || (fault == ours_alone_fault && !model_hertz(v)) || (v == 0 && first)) continue;
        if (fault == vics_wrapped_fault && v == 0) continue;
        *(bit < 32 + (fault == vic_32_low_fault) ? &m.vics_low : &m.vics_high) |= 1u << bit % 32;
    }
    if (fault == eight_by_seven_fault) m.rates_8 = s.rates[7];
    if (fault == eight_by_six_fault) m.rates_8 = s.rates[6];
    if (fault == two_by_one_fault) m.rates_2 = s.rates[1];
    if (fault == two_without_eight_fault) m.rates_2 &= ~m.rates_8;
    if (fault == rates_exchanged_fault) m.rates_2 = s.rates[8], m.rates_8 = s.rates[2];
    if (fault == words_exchanged_fault) {
        uint32_t low = m.vics_low;
        m.vics_low = m.vics_high, m.vics_high = low;
    }
    if (fault == rate_beside_fault && m.refusal) m.rates_2 |= 1;
    if (fault == nothing_as_24_fault && !m.refusal && !m.vics_low && !m.vics_high) m.refusal = 24;
    return m;
}

/* The choice. ----------------------------------------------------------------------------------------------------------------------- */

#define CHOICE_ARGUMENTS const uint8_t *e, size_t el, const uint8_t *r, size_t rl, const uint8_t *w, size_t wl

/* The place of a request's VIC, or 0 where it has none. */
static size_t place_of_vic(const uint8_t *r, size_t rl) { return rl && r[0] + 4u <= rl ? r[0] + 2u : 0; }

/* The request with two bytes in its place: its number, and its fields as far as they are read. */
static uint32_t judged(enum fault fault, const uint8_t *r, size_t rl, uint8_t vic, uint8_t family, struct fields *f) {
    uint8_t bytes[LONGEST];
    size_t at = place_of_vic(r, rl);
    *f = (struct fields){ .vic = vic };
    if (!at) return 1;
    if (rl > LONGEST) return 3;
    memcpy(bytes, r, rl);
    if (fault == at_2_mended_fault) at = 2;
    bytes[at] = vic, bytes[at + 1] = family;
    uint32_t number = model_read(bytes, rl, f);
    return number ? number : model_pair(f).exists ? 0 : 9;
}

static int let_pass(enum fault fault, uint32_t number) {
    switch (fault) {
    case one_taken_fault: return number == 1;
    case two_taken_fault: return number == 2;
    case three_taken_fault: return number == 3;
    case four_taken_fault: return number == 4;
    case five_taken_fault: return number == 5;
    case six_taken_fault: return number == 6;
    case nine_taken_fault: return number == 9;
    case seventeen_hz_taken_fault: return number == 17;
    case twenty_taken_fault: return number == 20;
    case listed_is_enough_fault: return 1;
    default: return 0;
    }
}

/* The sound of a request that is let pass before it was read to its sound. */
static void sound_as_it_stands(const uint8_t *r, size_t rl, struct fields *f) {
    size_t at = place_of_vic(r, rl) + VIDEO_BYTES;
    if (at + SOUND_BYTES < rl && r[at] == SOUND_BYTES) f->sound = 1, f->rate = r[at + 1], f->channels = r[at + 2];
}

static int covered(enum fault fault, const struct seen *s, const struct fields *f) {
    int any_rate = s->rates[2] != 0, channels = f->channels, rate = f->rate;
    if (fault == sound_not_asked_fault) return 1;
    if (!f->sound) return fault != sound_always_asked_fault || any_rate;
    if (fault == sound_of_coherent_fault && !f->coherent) return 1;
    if (fault == two_asked_fault) channels = 2;
    if (fault == eight_asked_fault) channels = 8;
    if (fault == rate_asked_shifted_fault) rate++;
    return channels < CHANNELS && rate < 8 && (s->rates[channels] >> rate & 1);
}

/* Does one wish fit? `number` is that of the request with it. */
static int fits(enum fault fault, const struct seen *s, const uint8_t *r, size_t rl, const uint8_t *wish, uint32_t *number) {
    struct fields f;
    uint8_t vic = wish[fault == family_first_fault], family = wish[fault != family_first_fault];
    size_t at = place_of_vic(r, rl);
    if (fault == wish_7_bits_fault) vic &= 0x7F;
    if (fault == wish_6_bits_fault) vic &= 0x3F;
    if (fault == own_family_fault && at) family = r[at + 1];
    if (fault == family_0_fault) family = 0;
    if (fault == family_bit_fault) family &= 1;
    if (fault == family_1_refused_fault && family == 1) return 0;
    if (fault == own_mode_judged_fault && at) *number = judged(fault, r, rl, r[at], r[at + 1], &f);
    else *number = judged(fault, r, rl, vic, family, &f);
    if (fault == other_family_fault && *number) *number = judged(fault, r, rl, vic, family ^ 1, &f);
    if (*number && !let_pass(fault, *number)) return 0;
    if (*number && *number < 4) sound_as_it_stands(r, rl, &f);
    if ((fault == dvi_refused_fault && !f.link) || (fault == wiring_refused_fault && f.wiring) || (fault == matrix_refused_fault && f.matrix)) return 0;
    int lists = fault == not_listed_too_fault || s->lists[fault == own_vic_listed_fault && at ? r[at] : vic];
    return vic && lists && covered(fault, s, &f);
}

/* Two conditions that a fault puts before others: no wish could mend the request; and it has sound that the screen never has. */
static int never_mended(const uint8_t *r, size_t rl) {
    struct fields f;
    uint32_t number = judged(right_fault, r, rl, 16, 0, &f);
    return number > 0 && number < 4;
}

static int not_mended(enum fault fault, const uint8_t *r, size_t rl) {
    struct fields f;
    size_t at = place_of_vic(r, rl);
    uint32_t number = at ? judged(right_fault, r, rl, r[at], r[at + 1], &f) : 1;
    return (fault == four_not_mended_fault && number == 4) || (fault == nine_not_mended_fault && number == 9) ||
           (fault == seventeen_not_mended_fault && number == 17) || (fault == twenty_not_mended_fault && number == 20);
}

/* Wishes of a bad length; `count` becomes those that are looked at. */
static int wrong_wishes(enum fault fault, size_t wl, size_t *count) {
    if (fault == wishes_in_a_byte_fault) wl = (uint8_t)wl;
    if (fault == wishes_in_two_fault) wl = (uint16_t)wl;
    size_t most = fault == seventeen_fault ? 17 : fault == sixteen_refused_fault ? 15 : 16;
    *count = wl / 2;
    if (fault == sixteen_of_many_fault && *count > 16) *count = 16, wl = 32;
    if (fault == no_wish_21_fault && wl == 0) return 1;
    if (fault == odd_as_family_0_fault && wl % 2) ++*count, wl++;
    return *count > most || (wl % 2 && fault != odd_taken_fault);
}

static void touch_others(enum fault fault, const uint8_t *r, size_t rl, const uint8_t *w, size_t wl) {
    volatile uint8_t byte = 0;
    switch (fault) {
    case reads_wish_behind_fault: byte = w[wl]; break;
    case reads_wish_first_fault: byte = w[0]; break;
    case reads_request_behind_fault: byte = r[rl]; break;
    case reads_request_vic_fault: if (rl) byte = r[r[0] + 2]; break;
    case reads_request_empty_fault: byte = r[0]; break;
    default: break;
    }
    (void)byte;
}

static struct station_choice none(enum fault fault, uint32_t number, size_t count, size_t at) {
    struct station_choice c = { number, 0, 0 };
    if (fault == place_beside_fault) c.place = (uint32_t)count;
    if (fault == at_beside_fault || (fault == at_beside_24_fault && number == 24)) c.at = (uint32_t)at;
    return c;
}

static struct station_choice found(enum fault fault, const uint8_t *r, size_t rl, const uint8_t *w, size_t k) {
    size_t at = place_of_vic(r, rl);
    struct station_choice c = { 0, (uint32_t)k, (uint32_t)at };
    uint8_t *request = (uint8_t *)(uintptr_t)r, *wishes = (uint8_t *)(uintptr_t)w;
    switch (fault) {
    case place_from_1_fault: c.place++; break;
    case place_in_bytes_fault: c.place *= 2; break;
    case place_is_vic_fault: c.place = w[2 * k]; break;
    case at_2_fault: c.at = 2; break;
    case at_less_fault: c.at--; break;
    case at_more_fault: c.at++; break;
    case at_0_fault: c.at = 0; break;
    case at_counts_syncs_fault: if (c.at > 2) c.at = 6; break;
    case vic_put_fault: request[at] = w[2 * k]; break;
    case family_put_fault: request[at + 1] = w[2 * k + 1]; break;
    case wish_cleared_fault: wishes[2 * k] = wishes[2 * k + 1] = 0; break;
    default: break;
    }
    return c;
}

/* Which of the wishes: the first that fits, or what a fault takes for it; `count` where there is none. */
static size_t picked(enum fault fault, const struct seen *s, const uint8_t *r, size_t rl, const uint8_t *w, size_t wl, size_t count,
                     uint32_t *number) {
    size_t pick = count, looked = fault == fifteen_looked_at_fault && count > 15 ? 15 : count;
    uint32_t best = 0;
    for (size_t k = 0; k < looked; k++) {
        const uint8_t wish[2] = { w[2 * k], 2 * k + 1 < wl ? w[2 * k + 1] : 0 };
        int fitting = fits(fault, s, r, rl, wish, number);
        if (fault == first_wish_alone_fault) return fitting ? k : count;
        if (fault == first_listed_alone_fault && s->lists[wish[0]]) return fitting ? k : count;
        if (fault == screens_order_fault) {
            for (uint32_t at = 0; fitting && at < s->in_order && at < ONE_BLOCK; at++)
                if (s->order[at] == wish[0] && (pick == count || at < best)) pick = k, best = at;
        } else if (fault == best_vic_fault) {
            if (fitting && wish[0] > best) pick = k, best = wish[0];
        } else if (fitting && (pick == count || fault == last_wish_fault)) pick = k;
    }
    return pick;
}

static struct station_choice chose(enum fault fault, CHOICE_ARGUMENTS) {
    struct seen s;
    size_t count, at = place_of_vic(r, rl);
    uint32_t number = 0, own, bad_wishes = (uint32_t)wrong_wishes(fault, wl, &count), refusal = looked_at(fault, e, el, &s);
    struct fields f;
    touch_others(fault, r, rl, w, wl);
    if ((fault == none_first_fault && wl == 0) || (fault == request_first_fault && never_mended(r, rl))) return none(fault, 24, count, at);
    if (fault == none_before_sum_fault && wl == 0 && refusal > 21) return none(fault, 24, count, at);
    if (bad_wishes && ((fault == wishes_after_sums_fault && refusal && refusal < 23) || (fault == wishes_last_fault && refusal)))
        return none(fault, refusal, count, at);
    if (bad_wishes) {
        uint32_t instead = fault == odd_as_24_fault && wl % 2 ? 24 : fault == many_as_24_fault && wl % 2 == 0 ? 24 : 21;
        return none(fault, fault == many_as_14_fault && wl % 2 == 0 ? 14 : instead, count, at);
    }
    if (refusal == 23 && fault == sound_first_fault && !judged(right_fault, r, rl, 16, 0, &f) && f.sound) return none(fault, 24, count, at);
    if (refusal) return none(fault, refusal, count, at);
    if (fault == wishes_sorted_fault && wl) ((uint8_t *)(uintptr_t)w)[0] &= 0x7F;
    if (fault == tried_left_fault && count && at) ((uint8_t *)(uintptr_t)r)[at] = w[2 * (count - 1)];
    for (size_t k = 0; fault == vic_put_back_fault && at && k < count; k++) write_back(r + at, w[2 * k]);
    if (not_mended(fault, r, rl)) return none(fault, 24, count, at);
    own = at ? judged(right_fault, r, rl, r[at], r[at + 1], &f) : 1;
    int own_fits = own == 0 && s.lists[r[at]] && covered(right_fault, &s, &f);
    if (own_fits && ((fault == no_wish_own_fault && count == 0) || fault == own_vic_first_fault)) return (struct station_choice){ 0, 0, (uint32_t)at };
    size_t pick = picked(fault, &s, r, rl, w, wl, count, &number);
    if (fault == choice_remembered_fault && remembered.choice.place && remembered.choice.place < count) return remembered.choice;
    if (pick < count) {
        struct station_choice c = found(fault, r, rl, w, pick);
        if (fault == choice_remembered_fault) remembered.choice = c;
        return c;
    }
    if (fault == own_vic_too_fault && own_fits) return (struct station_choice){ 0, (uint32_t)count, (uint32_t)at };
    if (fault == no_wish_accepted_fault) return (struct station_choice){ 0, 0, 0 };
    if (fault == request_number_fault && own) return none(fault, own, count, at);
    if (fault == wish_number_fault && number) return none(fault, number, count, at);
    if (fault == ends_as_1_fault && !at) return none(fault, 1, count, at);
    return none(fault, 24, count, at);
}

/* The libraries. -------------------------------------------------------------------------------------------------------------------- */

static void forget(void) { memset(&remembered, 0, sizeof remembered); }

#define OVERVIEW(name, words) \
    static struct station_monitor edid_##name(const uint8_t *e, size_t el) { return overview(name##_fault, e, el); } \
    static void put_in_overview_##name(struct face *f) { forget(), f->edid = edid_##name; }
#define CHOICE(name, words) \
    static struct station_choice choose_##name(CHOICE_ARGUMENTS) { return chose(name##_fault, e, el, r, rl, w, wl); } \
    static void put_in_choice_##name(struct face *f) { forget(), f->choose = choose_##name; }
SCREENS(OVERVIEW)
SCREENS(CHOICE)
OVERVIEWS(OVERVIEW)
CHOICES(CHOICE)

OVERVIEW(right, "")
CHOICE(right, "")
void put_right_screens(struct face *f) { put_in_overview_right(f), put_in_choice_right(f); }

#define IN_OVERVIEW(name, words) { words ", in the overview", put_in_overview_##name, BY_HAND },
#define IN_CHOICE(name, words) { words ", in the choice", put_in_choice_##name, BY_HAND },
#define OF_OVERVIEW(name, words) { words, put_in_overview_##name, BY_HAND },
#define OF_CHOICE(name, words) { words, put_in_choice_##name, BY_HAND },
const struct wrong wrong_screens[] = { SCREENS(IN_OVERVIEW) SCREENS(IN_CHOICE) OVERVIEWS(OF_OVERVIEW) CHOICES(OF_CHOICE) { NULL, NULL, 0 } };
