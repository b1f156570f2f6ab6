/* Wrong pipes: document 02, request 08. One library that walks the sections of what came, with a place for each fault; a fault is a row of
 * FAULTS. */
#include "wrong.h"

/* FAULT(name, in words, where): CUT requests must show it by themselves; or it needs ANY bytes, as a pipe or as a part. */
#define FAULTS(FAULT) \
    FAULT(empty_is_end, "the empty part taken for the end", CUT) \
    FAULT(empty_is_end_later, "the empty part taken for the end, after others", CUT) \
    FAULT(empty_refused_1, "an empty first part refused 1", CUT) \
    FAULT(empty_refused_7, "the empty part refused 7", CUT) \
    FAULT(empty_first, "the empty part answered before the pipe is looked at", CUT) \
    FAULT(empty_not_judged, "another hand's bytes not judged by an empty part", ANY) \
    FAULT(empty_twice_is_end, "the second of two empty parts taken for the end", CUT) \
    FAULT(empty_at_0_refused, "an empty part at address 0 refused 7", ANY) \
    FAULT(empty_after_whole_3, "an empty part after a whole request refused 3", CUT) \
    FAULT(empty_when_full_3, "an empty part in a full pipe refused 3", CUT) \
    FAULT(short_is_last, "a part of less than eight bytes taken for the last", CUT) \
    FAULT(zero_is_end, "a part of one 0 taken for the end", CUT) \
    FAULT(eof_byte, "a part of one 255 taken for the end", CUT) \
    FAULT(end_is_empty, "the end taken for an empty part", CUT) \
    FAULT(end_of_nothing, "the end of nothing not answered", CUT) \
    FAULT(end_of_nothing_accepted, "the end of nothing accepted", CUT) \
    FAULT(end_waits, "the end of a cut request not answered", CUT) \
    FAULT(three_late, "3 one byte late", CUT) \
    FAULT(three_next_part, "3 with the next part", CUT) \
    FAULT(three_at_end, "3 only at the end", CUT) \
    FAULT(three_early, "3 with the last byte of a whole request", CUT) \
    FAULT(three_of_long, "3 for a part longer than the longest request", CUT) \
    FAULT(three_of_longest, "3 for a part as long as the longest request", CUT) \
    FAULT(longest_refused, "3 for the last byte of the longest request", CUT) \
    FAULT(one_too_many_kept, "a byte more than the longest request counted", CUT) \
    FAULT(three_before_2, "3 for more bytes than the longest request has", CUT) \
    FAULT(three_is_2, "2 for a byte too many", CUT) \
    FAULT(three_is_full, "3 for whatever comes to a full pipe", ANY) \
    FAULT(padding_taken, "zeros behind a whole request let pass", CUT) \
    FAULT(newline_taken, "a line feed behind a whole request let pass", ANY) \
    FAULT(cut_to_room, "what does not fit into the pipe cut off", CUT) \
    FAULT(two_at_end, "2 only at the end", CUT) \
    FAULT(two_late, "2 one byte late", CUT) \
    FAULT(two_next_part, "2 with the next part", CUT) \
    FAULT(two_after_its_bytes, "2 after as many bytes as its count says", CUT) \
    FAULT(two_of_video, "2 at once of the video's count alone", CUT) \
    FAULT(two_not_of_wiring, "2 not at once of the wiring's count", CUT) \
    FAULT(two_not_of_sound, "2 of the sound's count at the end", CUT) \
    FAULT(two_not_of_matrix, "2 of the matrix's count at the end", CUT) \
    FAULT(two_where_it_ends, "2 only where its count ends a part", CUT) \
    FAULT(two_where_it_begins, "2 only where its count begins a part", CUT) \
    FAULT(zero_not_allowed, "2 for a count of 0", CUT) \
    FAULT(no_wiring_not_allowed, "2 for a wiring's count of 0", CUT) \
    FAULT(four_not_allowed, "2 for a wiring's count of 4", CUT) \
    FAULT(twelve_not_allowed, "2 for a wiring's count of 12", CUT) \
    FAULT(eight_allowed, "a wiring's count of 8 taken", CUT) \
    FAULT(wirings_between, "a wiring's count between 4 and 12 taken", CUT) \
    FAULT(old_count, "document 01's count of the video section taken", CUT) \
    FAULT(part_judged_alone, "2 and 3 by the part alone", CUT) \
    FAULT(one_at_once, "1 at once", CUT) \
    FAULT(one_in_a_section, "1 at once, in a section", CUT) \
    FAULT(four_at_once, "4 at once, where the request is whole", CUT) \
    FAULT(five_at_once, "5 at once, where the request is whole", CUT) \
    FAULT(six_at_once, "6 at once, where the request is whole", CUT) \
    FAULT(seventeen_at_once, "17 at once, where the request is whole", CUT) \
    FAULT(twenty_at_once, "20 at once, where the request is whole", CUT) \
    FAULT(nine_at_once, "9 at once, where the request is whole", CUT) \
    FAULT(accepted_at_once, "accepted at once, where the request is whole", CUT) \
    FAULT(longest_at_once, "the longest request accepted at once", CUT) \
    FAULT(four_with_its_byte, "4 with the byte of the family", CUT) \
    FAULT(five_with_its_byte, "5 with the byte of the encoding", CUT) \
    FAULT(five_with_its_wiring, "5 with the byte of the input ID", CUT) \
    FAULT(part_kept_2, "the part kept beside 2", CUT) \
    FAULT(part_kept_3, "the part kept beside 3", CUT) \
    FAULT(kept_with_deciding, "the part kept up to the byte that decides", CUT) \
    FAULT(kept_to_deciding, "the part kept up to the byte before that", CUT) \
    FAULT(bytes_kept_alone, "the bytes kept beside 2 and 3, the count not", CUT) \
    FAULT(count_kept_alone, "the count kept beside 2 and 3, the bytes not", CUT) \
    FAULT(early_clears, "the bytes so far cleared beside 2 and 3", CUT) \
    FAULT(early_clears_count, "the count cleared beside 2 and 3", CUT) \
    FAULT(late_clears, "the bytes so far cleared by a refusal at the end", CUT) \
    FAULT(late_clears_count, "the count cleared by a refusal at the end", CUT) \
    FAULT(accepted_clears_count, "the count cleared where it is accepted", CUT) \
    FAULT(accepted_clears, "the bytes cleared where it is accepted", CUT) \
    FAULT(behind_cleared, "the bytes behind the count cleared by a part", CUT) \
    FAULT(behind_cleared_at_end, "the bytes behind the count cleared by the end", CUT) \
    FAULT(next_byte_cleared, "a 0 put behind the bytes so far", CUT) \
    FAULT(count_not_grown, "the count not grown", CUT) \
    FAULT(count_one_more, "the count grown by one more", CUT) \
    FAULT(count_is_parts, "the count of parts", CUT) \
    FAULT(count_of_last, "the count of the last part alone", CUT) \
    FAULT(last_part_alone, "the last part alone kept", CUT) \
    FAULT(part_in_front, "a part put in front of the others", CUT) \
    FAULT(part_at_0, "each part put to the pipe's front", CUT) \
    FAULT(part_one_further, "a byte left out between two parts", CUT) \
    FAULT(boundary_lost, "the count after a cut between two sections dropped", CUT) \
    FAULT(coefficient_cut, "the bytes of a coefficient that is cut exchanged", CUT) \
    FAULT(sync_cut, "the bytes of a sync value that is cut exchanged", CUT) \
    FAULT(one_byte_dropped, "a part of one byte dropped", CUT) \
    FAULT(first_byte_dropped, "the first byte of a later part dropped", CUT) \
    FAULT(last_alone_dropped, "the longest request's last byte alone dropped", CUT) \
    FAULT(sixteenth_dropped, "a byte dropped after a cut at sixteen", CUT) \
    FAULT(last_byte_dropped, "the last byte of a part dropped", CUT) \
    FAULT(sixteen_at_most, "sixteen bytes of a part at the most", CUT) \
    FAULT(long_dropped, "a part of more than 4096 bytes dropped", ANY) \
    FAULT(length_in_a_byte, "a part's length in one byte", ANY) \
    FAULT(length_in_two, "a part's length in two bytes", ANY) \
    FAULT(sum_in_a_byte, "the bytes so far and the part's in one byte", ANY) \
    FAULT(length_signed, "a part's length in a byte with a sign", CUT) \
    FAULT(as_text, "a part ends at its first 0", CUT) \
    FAULT(high_bit_lost, "the highest bit of a byte lost", CUT) \
    FAULT(bytes_remembered, "the bytes so far in the library", CUT) \
    FAULT(count_remembered, "the count in the library", CUT) \
    FAULT(answer_remembered, "the answer in the library, by the pipe's address", CUT) \
    FAULT(end_remembered, "the end taken once, of all pipes", CUT) \
    FAULT(judged_again, "an answer that later parts change", CUT) \
    FAULT(accepted_judged_again, "an acceptance that later parts change", CUT) \
    FAULT(one_goes_on, "1 at the end changed by later parts", CUT) \
    FAULT(any_refusal_goes_on, "a refusal at the end changed by later parts", CUT) \
    FAULT(end_judged_again, "the end said twice: the bytes judged again", CUT) \
    FAULT(end_again_1, "the end said twice: refused 1", CUT) \
    FAULT(end_again_silent, "the end said twice: not answered", CUT) \
    FAULT(end_again_fresh, "the end said twice: a fresh pipe", CUT) \
    FAULT(end_again_7, "the end said twice: refused 7", CUT) \
    FAULT(end_after_early, "the end after 2 or 3 judges the bytes so far", CUT) \
    FAULT(part_after_silent, "a part after the answer not answered", CUT) \
    FAULT(part_after_kept, "a part after the answer kept", CUT) \
    FAULT(part_after_counted, "a part after the answer counted", CUT) \
    FAULT(part_after_7, "a part after the answer refused 7", CUT) \
    FAULT(part_after_3, "a part after acceptance refused 3", CUT) \
    FAULT(part_after_fresh, "a part after the answer begins a request", CUT) \
    FAULT(empty_after_silent, "an empty part after the answer not answered", CUT) \
    FAULT(again_count_0, "an acceptance said again with count 0", CUT) \
    FAULT(again_count, "a refusal said again with a count", CUT) \
    FAULT(again_forgotten, "an answer forgotten once it was said again", CUT) \
    FAULT(accepted_not_kept, "acceptance not kept in the pipe", CUT) \
    FAULT(early_not_kept, "2 and 3 not kept in the pipe", CUT) \
    FAULT(late_not_kept, "a refusal at the end not kept in the pipe", CUT) \
    FAULT(accepted_as_1, "acceptance kept as 1", CUT) \
    FAULT(accepted_as_254, "acceptance kept as 254", CUT) \
    FAULT(accepted_as_count, "acceptance kept as the count", CUT) \
    FAULT(refused_as_1, "a refusal at the end kept as 1", CUT) \
    FAULT(other_judged, "an answer that is none of ours judged anew", ANY) \
    FAULT(other_reset, "an answer that is none of ours judged by a part", ANY) \
    FAULT(other_7, "an answer that is none of ours refused 7", ANY) \
    FAULT(other_accepted, "an answer that is none of ours taken for acceptance", ANY) \
    FAULT(unlisted_7, "an answer above the last refusal refused 7", ANY) \
    FAULT(answer_masked, "the lower five bits of the answer", ANY) \
    FAULT(answer_signed, "the answer with a sign", ANY) \
    FAULT(high_answer_accepted, "an answer from 128 on taken for acceptance", ANY) \
    FAULT(seven_there_open, "a 7 in the answer's byte said with answered 0", ANY) \
    FAULT(longer_taken, "a longer pipe taken", ANY) \
    FAULT(longer_taken_at_end, "a longer pipe taken by the end", ANY) \
    FAULT(shorter_taken, "a pipe that is a byte short taken", ANY) \
    FAULT(pipe_in_a_byte, "the pipe's length in one byte", ANY) \
    FAULT(pipe_in_two, "the pipe's length in two bytes", ANY) \
    FAULT(length_not_asked, "the pipe's length not asked for by a part", ANY) \
    FAULT(length_not_asked_at_end, "the pipe's length not asked for by the end", ANY) \
    FAULT(above_held, "a count above taken as the longest request", ANY) \
    FAULT(above_as_0, "a count above taken as 0", ANY) \
    FAULT(above_by_one, "a count of one above taken", ANY) \
    FAULT(above_signed, "the count with a sign", ANY) \
    FAULT(above_at_end, "a count above taken by the end", ANY) \
    FAULT(above_after_answer, "a count above taken beside an answer", ANY) \
    FAULT(above_repaired, "a count above set to 0", ANY) \
    FAULT(full_refused, "a full pipe refused 7", CUT) \
    FAULT(not_fresh_refused, "bytes behind the count that are not 0 refused 7", CUT) \
    FAULT(seven_answered, "7 with answered 1", ANY) \
    FAULT(seven_kept, "7 kept as the answer", ANY) \
    FAULT(seven_counts, "7 with a count", ANY) \
    FAULT(seven_as_10, "10 for 7", ANY) \
    FAULT(seven_as_1, "1 for 7", ANY) \
    FAULT(seven_of_part, "7 for a part longer than a request", CUT) \
    FAULT(whole_pipe_judged, "the whole pipe judged at the end", CUT) \
    FAULT(less_judged, "a byte less judged at the end", CUT) \
    FAULT(last_part_judged, "the last part alone judged at the end", CUT) \
    FAULT(fields_not_judged, "accepted where the sections are whole", CUT) \
    FAULT(six_last, "refusals up to 6 alone at the end", CUT) \
    FAULT(nine_not_given, "accepted without an exact pair", CUT) \
    FAULT(seventeen_not_given, "accepted with a clock above the limit", CUT) \
    FAULT(twenty_not_given, "accepted with more sound than fits", CUT) \
    FAULT(one_is_2, "2 for a section that is cut at the end", CUT) \
    FAULT(so_far_trusted, "another hand's bytes not judged by a part", ANY) \
    FAULT(so_far_trusted_at_end, "another hand's bytes too many not seen at the end", ANY) \
    FAULT(count_beside_early, "a count beside 2 and 3", CUT) \
    FAULT(count_beside_late, "a count beside a refusal at the end", CUT) \
    FAULT(count_beside_none, "a count beside no answer", CUT) \
    FAULT(number_beside_none, "the number so far beside no answer", CUT) \
    FAULT(answered_none, "answered 1 beside no answer", CUT) \
    FAULT(early_open, "2 and 3 with answered 0", CUT) \
    FAULT(late_open, "a refusal at the end with answered 0", CUT) \
    FAULT(accepted_open, "an acceptance with answered 0", CUT) \
    FAULT(accepted_count_0, "an acceptance with count 0", CUT) \
    FAULT(accepted_count_longest, "an acceptance with the longest count", CUT) \
    FAULT(accepted_number, "an acceptance with number 255", CUT) \
    FAULT(answered_byte, "the answer's byte as answered", CUT) \
    FAULT(reads_after, "a byte behind the part read", CUT) \
    FAULT(reads_before, "a byte in front of the part read", CUT) \
    FAULT(reads_empty, "a byte of an empty part read", CUT) \
    FAULT(reads_whole_room, "as many bytes of the part read as there is room", CUT) \
    FAULT(reads_pipe_first, "the pipe read before its length", ANY) \
    FAULT(reads_behind_pipe, "a byte behind the pipe read", CUT) \
    FAULT(part_changed, "the part changed", CUT) \
    FAULT(part_wiped, "the part cleared once it is kept", CUT) \
    FAULT(written_behind_pipe, "a byte behind the pipe written", CUT) \
    FAULT(written_past_pipe, "a long part written past the pipe", CUT)

#define NUMBER(name, words, where) name##_fault,
enum fault { right_fault, FAULTS(NUMBER) };     /* the first is no fault */

/* What a library may not remember. */
static struct { uint8_t bytes[LONGEST]; size_t count, last; const uint8_t *answered; int ended, empty; } remembered;

/* Is an answer's byte one that a pipe's calls give? */
static int is_ours(int answer) {
    return answer <= STATION_COMBINATION || answer == STATION_CLOCK_ABOVE || answer == STATION_SOUND_TOO_MUCH ||
           answer == STATION_NO_EXACT_PAIR || answer == PIPE_ACCEPTED;
}

static struct station_piped none(void) { return (struct station_piped){ 0, 0, 0 }; }

/* The sections, walked. ------------------------------------------------------------------------------------------------------------- */

/* What came, as far as it matters. */
enum { LOOKED_AT = LONGEST + 2 };
struct joined { size_t so_far, length; uint8_t bytes[LOOKED_AT]; };

/* 2 or 3 with the number of bytes that decide it, 1 where it is not whole, else 0; and the section, with the bytes that are left of it. */
struct walk { uint32_t number; size_t at; int section, left; };
static int walk_allows(enum fault fault, int section, int count) {
    int of_wiring = section == OF_WIRING;
    switch (fault) {
    case old_count_fault: if (section == OF_VIDEO && count == 4) return 1; break;
    case zero_not_allowed_fault: if (!of_wiring && count == 0) return 0; break;
    case no_wiring_not_allowed_fault: if (of_wiring && count == 0) return 0; break;
    case four_not_allowed_fault: if (of_wiring && count == 4) return 0; break;
    case twelve_not_allowed_fault: if (of_wiring && count == 12) return 0; break;
    case eight_allowed_fault: if (of_wiring && count == 8) return 1; break;
    case wirings_between_fault: if (of_wiring && count > 4 && count < 12) return 1; break;
    default: break;
    }
    return model_allowed((enum part)section, count);
}
static struct walk walked(enum fault fault, const struct joined *j) {
    struct walk w = { 0, 0, OF_WIRING, 0 };
    for (size_t i = 0; i < j->length && i < LOOKED_AT; i++) {
        int byte = j->bytes[i];
        w.at = i + 1;
        if (w.section == PARTS) return w.number = 3, w;
        if (w.left) {
            if (--w.left == 0) w.section++;
        } else if (walk_allows(fault, w.section, byte)) {
            w.left = byte;
            w.section += byte == 0;
        } else return w.number = 2, w;
    }
    w.number = w.section < PARTS;
    if (fault == three_early_fault && w.section == PARTS) w.number = 3;
    return w;
}

/* The number at once, or 0; acceptance as its byte. */
static uint32_t at_once(enum fault fault, const struct joined *j) {
    struct joined part = { 0, j->length - j->so_far, { 0 } };
    memcpy(part.bytes, j->bytes + j->so_far, LOOKED_AT - j->so_far);
    struct walk w = walked(fault, fault == part_judged_alone_fault ? &part : j);
    uint32_t number = w.number == 2 || w.number == 3 ? w.number : 0, whole = w.number ? 1 : model_number(j->bytes, j->length);
    int room = j->length <= LONGEST, here = w.at > j->so_far, two = number == 2, three = number == 3;
    int counted = two ? j->bytes[w.at - 1] : 0, not_yet = 0;
    size_t video = video_at(j->bytes, j->length < LOOKED_AT ? j->length : LOOKED_AT);
    switch (fault) {
    case three_late_fault: not_yet = three && room && j->length == w.at; break;
    case three_next_part_fault: not_yet = three && room && here; break;
    case three_at_end_fault: not_yet = three && room; break;
    case one_too_many_kept_fault: not_yet = three && j->length == LONGEST + 1 && w.at > LONGEST; break;
    case two_at_end_fault: not_yet = two; break;
    case two_late_fault: not_yet = two && j->length == w.at; break;
    case two_next_part_fault: not_yet = two && room && here; break;
    case two_after_its_bytes_fault: not_yet = two && j->length < w.at + (size_t)counted; break;
    case two_of_video_fault: not_yet = two && w.section != OF_VIDEO; break;
    case two_not_of_wiring_fault: not_yet = two && w.section == OF_WIRING; break;
    case two_not_of_sound_fault: not_yet = two && w.section == OF_SOUND; break;
    case two_not_of_matrix_fault: not_yet = two && w.section == OF_MATRIX; break;
    case two_where_it_ends_fault: not_yet = two && j->length != w.at; break;
    case two_where_it_begins_fault: not_yet = two && j->so_far + 1 != w.at; break;
    case empty_not_judged_fault: not_yet = j->length == j->so_far; break;
    case so_far_trusted_fault: not_yet = !here && j->length > j->so_far; break;
    default: break;
    }
    if (not_yet) return 0;
    switch (fault) {
    case three_before_2_fault: return j->length > LONGEST ? 3 : number;
    case three_of_long_fault: return j->length - j->so_far > LONGEST ? 3 : number;
    case three_of_longest_fault: return j->length - j->so_far >= LONGEST ? 3 : number;
    case empty_after_whole_3_fault: return j->length == j->so_far && whole != 1 ? 3 : number;
    case empty_when_full_3_fault: return j->so_far == LONGEST ? 3 : number;
    case longest_refused_fault: return !number && j->length == LONGEST ? 3 : number;
    case three_is_full_fault: return j->so_far == LONGEST && j->length > LONGEST ? 3 : number;
    case three_is_2_fault: return three ? 2 : number;
    case four_with_its_byte_fault:
        return !number && j->length > video + 2 && !model_offers(j->bytes[video + 1], j->bytes[video + 2]) ? 4 : number;
    case five_with_its_byte_fault: return !number && j->length > video + 3 && j->bytes[video + 3] > 2 ? 5 : number;
    case five_with_its_wiring_fault: return !number && j->length > 1 && j->bytes[0] && (!j->bytes[1] || j->bytes[1] > 8) ? 5 : number;
    case one_at_once_fault: return !number && whole == 1 ? 1 : number;
    case one_in_a_section_fault: return !number && whole == 1 && j->length > 1 ? 1 : number;
    case four_at_once_fault: return !number && whole == 4 ? 4 : number;
    case five_at_once_fault: return !number && whole == 5 ? 5 : number;
    case six_at_once_fault: return !number && whole == 6 ? 6 : number;
    case seventeen_at_once_fault: return !number && whole == 17 ? 17 : number;
    case twenty_at_once_fault: return !number && whole == 20 ? 20 : number;
    case nine_at_once_fault: return !number && whole == 9 ? 9 : number;
    case accepted_at_once_fault: return !number && whole == 0 ? PIPE_ACCEPTED : number;
    case longest_at_once_fault: return !number && whole == 0 && j->length == LONGEST ? PIPE_ACCEPTED : number;
    case empty_refused_1_fault: return j->length == 0 ? 1 : number;
    default: return number;
    }
}

/* The number at the end. */
static uint32_t at_the_end(enum fault fault, const uint8_t *bytes, size_t count) {
    if (fault == whole_pipe_judged_fault) count = LONGEST;
    if (fault == less_judged_fault && count) count--;
    if (fault == last_part_judged_fault && remembered.last < count) bytes += count - remembered.last, count = remembered.last;
    if (fault == end_of_nothing_accepted_fault && count == 0) return 0;
    struct joined j = { 0, count, { 0 } };
    memcpy(j.bytes, bytes, count);
    uint32_t walk = walked(fault, &j).number, number = walk ? walk : model_number(bytes, count);
    switch (fault) {
    case fields_not_judged_fault: return walk;
    case six_last_fault: return number > 6 ? 0 : number;
    case nine_not_given_fault: return number == 9 ? 0 : number;
    case seventeen_not_given_fault: return number == 17 ? 0 : number;
    case twenty_not_given_fault: return number == 20 ? 0 : number;
    case one_is_2_fault: return number == 1 && count ? 2 : number;
    case old_count_fault: case eight_allowed_fault: case wirings_between_fault: return model_number(bytes, count);
    case so_far_trusted_at_end_fault: return number == 3 ? 0 : number;
    default: return number;
    }
}

/* The pipe. ------------------------------------------------------------------------------------------------------------------------- */

static int wrong_length(enum fault fault, int ends, size_t length) {
    switch (fault) {
    case longer_taken_fault: return length < PIPE_BYTES;
    case longer_taken_at_end_fault: return ends ? length < PIPE_BYTES : length != PIPE_BYTES;
    case shorter_taken_fault: return length != PIPE_BYTES && length != PIPE_BYTES - 1;
    case pipe_in_a_byte_fault: return (uint8_t)length != PIPE_BYTES;
    case pipe_in_two_fault: return (uint16_t)length != PIPE_BYTES;
    case length_not_asked_fault: return ends && length != PIPE_BYTES;
    case length_not_asked_at_end_fault: return !ends && length != PIPE_BYTES;
    default: return length != PIPE_BYTES;
    }
}

static int wrong_count(enum fault fault, int ends, const uint8_t *pipe) {
    int count = pipe[COUNT_AT], above = count > LONGEST;
    switch (fault) {
    case above_held_fault: case above_as_0_fault: return 0;
    case above_by_one_fault: return count > LONGEST + 1;
    case above_signed_fault: return above && count < 128;
    case above_at_end_fault: return above && !ends;
    case above_after_answer_fault: return above && !pipe[ANSWER_AT];
    case full_refused_fault: return count >= LONGEST;
    case not_fresh_refused_fault:
        for (int i = count; i < LONGEST && !above; i++) above = pipe[i] != 0;
        return above;
    case other_7_fault: return above || !is_ours(pipe[ANSWER_AT]);
    case unlisted_7_fault: return above || (pipe[ANSWER_AT] > STATION_SOUND_TOO_MUCH && pipe[ANSWER_AT] != PIPE_ACCEPTED);
    default: return above;
    }
}

/* The bytes so far, in numbers. */
static size_t counted(enum fault fault, const uint8_t *pipe) {
    size_t count = pipe[COUNT_AT];
    if (fault == count_remembered_fault) return count ? remembered.count : 0;
    if (count <= LONGEST) return count;
    return fault == above_as_0_fault || fault == above_signed_fault ? 0 : LONGEST;
}

static struct station_piped refused_7(enum fault fault, uint8_t *pipe, size_t length) {
    int whole = length == PIPE_BYTES;
    if (fault == seven_kept_fault && whole) pipe[ANSWER_AT] = 7;
    if (fault == above_repaired_fault && whole) pipe[COUNT_AT] = 0;
    uint32_t number = fault == seven_as_10_fault ? 10 : fault == seven_as_1_fault ? 1 : 7;
    return (struct station_piped){ number, fault == seven_answered_fault, fault == seven_counts_fault && whole ? pipe[COUNT_AT] : 0 };
}

/* An answer that was there. */
static struct station_piped said_again(enum fault fault, uint8_t *pipe) {
    int answer = pipe[ANSWER_AT], accepted = answer == PIPE_ACCEPTED;
    if (fault == other_accepted_fault) accepted |= !is_ours(answer);
    if (fault == high_answer_accepted_fault) accepted |= answer >= 128;
    struct station_piped p = { accepted ? 0 : (uint32_t)answer, 1, accepted ? pipe[COUNT_AT] : 0 };
    switch (fault) {
    case answer_masked_fault: p.refusal &= 31; break;
    case answer_signed_fault: if (!accepted) p.refusal = (uint32_t)(int8_t)answer; break;
    case seven_there_open_fault: p.answered = answer != 7; break;
    case again_count_0_fault: p.count = 0; break;
    case again_count_fault: p.count = pipe[COUNT_AT]; break;
    case again_forgotten_fault: pipe[ANSWER_AT] = 0; break;
    case answered_byte_fault: p.answered = (uint32_t)answer; break;
    case accepted_number_fault: p.refusal = (uint32_t)answer; break;
    default: break;
    }
    return p;
}

/* A refusal at once, or what a fault gives at once. The part is in `j`, after the bytes so far. */
static void keep_beside(enum fault fault, uint8_t *pipe, const struct joined *j, uint32_t number) {
    size_t to = j->length < LONGEST ? j->length : LONGEST, at = walked(fault, j).at;
    switch (fault) {
    case part_kept_2_fault: if (number != 2) return; break;
    case part_kept_3_fault: if (number != 3) return; break;
    case kept_with_deciding_fault: if (at < to) to = at; break;
    case kept_to_deciding_fault: if (at - 1 < to) to = at - 1; break;
    case bytes_kept_alone_fault: memcpy(pipe, j->bytes, to); return;
    case count_kept_alone_fault: pipe[COUNT_AT] = (uint8_t)to; return;
    case early_clears_fault: memset(pipe, 0, j->so_far); return;
    case early_clears_count_fault: pipe[COUNT_AT] = 0; return;
    default: if (number == 2 || number == 3) return; break;
    }
    if (to < j->so_far) return;
    memcpy(pipe, j->bytes, to);
    pipe[COUNT_AT] = (uint8_t)to;
}

static struct station_piped given(enum fault fault, uint8_t *pipe, uint32_t number) {
    if (fault != early_not_kept_fault) pipe[ANSWER_AT] = (uint8_t)number;
    if (fault == answer_remembered_fault) remembered.answered = pipe;
    if (number == PIPE_ACCEPTED) return (struct station_piped){ 0, 1, pipe[COUNT_AT] };
    uint32_t answered = fault == answered_byte_fault ? number : fault != early_open_fault;
    return (struct station_piped){ number, answered, fault == count_beside_early_fault ? pipe[COUNT_AT] : 0 };
}

/* A part that is kept. What does not fit, where a fault lets it come here, is left out. */
static struct station_piped go_on(enum fault fault, uint8_t *pipe, const struct joined *j) {
    size_t to = j->length < LONGEST ? j->length : LONGEST, part = to - j->so_far, at = j->so_far;
    const uint8_t *bytes = j->bytes + j->so_far;
    if (fault == last_part_alone_fault && part) at = 0, to = part;
    if (fault == part_at_0_fault) at = 0;
    if (fault == part_one_further_fault && at && part && to < LONGEST) at++, to++;
    if (fault == part_in_front_fault) memmove(pipe + part, pipe, j->so_far), at = 0;
    if (part) memcpy(pipe + at, bytes, part);
    if (fault == coefficient_cut_fault || fault == sync_cut_fault) memcpy(pipe, j->bytes, to);
    remembered.last = part;
    switch (fault) {
    case count_not_grown_fault: to = j->so_far; break;
    case count_one_more_fault: to += part && to < LONGEST; break;
    case count_is_parts_fault: to = j->so_far + (part != 0); break;
    case count_of_last_fault: to = part ? part : to; break;
    case behind_cleared_fault: memset(pipe + to, 0, LONGEST - to); break;
    case next_byte_cleared_fault: if (to < LONGEST) pipe[to] = 0; break;
    default: break;
    }
    pipe[COUNT_AT] = (uint8_t)(fault == one_too_many_kept_fault ? j->length : to);
    if (fault == bytes_remembered_fault) memcpy(remembered.bytes, pipe, LONGEST);
    remembered.count = to;
    if (fault == count_beside_none_fault) return (struct station_piped){ 0, 0, (uint32_t)to };
    if (fault == number_beside_none_fault) return (struct station_piped){ model_number(pipe, to), 0, 0 };
    return (struct station_piped){ 0, fault == answered_none_fault, 0 };
}

/* Places that are not lent, or not to be written. */
static void touch(enum fault fault, uint8_t *pipe, size_t length, const uint8_t *part, size_t part_length) {
    volatile uint8_t byte = 0;
    switch (fault) {
    case reads_after_fault: byte = part[part_length]; break;
    case reads_before_fault: if (part_length) byte = part[-1]; break;
    case reads_empty_fault: byte = part[0]; break;
    case reads_whole_room_fault: for (int i = pipe[COUNT_AT]; i < LONGEST; i++) byte = part[i - pipe[COUNT_AT]]; break;
    case reads_pipe_first_fault: byte = pipe[ANSWER_AT]; break;
    case reads_behind_pipe_fault: byte = pipe[length]; break;
    case written_behind_pipe_fault: pipe[length] = 0; break;
    case written_past_pipe_fault:
        if (length == PIPE_BYTES && part_length > LONGEST) memset(pipe + PIPE_BYTES, 0, part_length - LONGEST);
        break;
    default: break;
    }
    (void)byte;
}

/* The part's length as a fault has it. */
static size_t length_of(enum fault fault, const uint8_t *part, size_t length, size_t so_far) {
    switch (fault) {
    case one_byte_dropped_fault: return length == 1 ? 0 : length;
    case last_alone_dropped_fault: return length == 1 && so_far == LONGEST - 1 ? 0 : length;
    case sum_in_a_byte_fault: return (uint8_t)(so_far + length) < so_far ? 0 : (uint8_t)(so_far + length) - so_far;
    case last_byte_dropped_fault: return length > 1 ? length - 1 : length;
    case sixteen_at_most_fault: return length > 16 ? 16 : length;
    case long_dropped_fault: return length > 4096 ? 0 : length;
    case length_in_a_byte_fault: return (uint8_t)length;
    case length_in_two_fault: return (uint16_t)length;
    case length_signed_fault: return (int8_t)length < 0 ? 0 : length;
    case cut_to_room_fault: return so_far + length > LONGEST ? LONGEST - so_far : length;
    case as_text_fault: return length && memchr(part, 0, length) ? (size_t)((const uint8_t *)memchr(part, 0, length) - part) : length;
    default: return length;
    }
}

/* A whole request without what a fault lets pass behind it. */
static void strip(struct joined *j, uint8_t byte, size_t most) {
    struct walk w = walked(right_fault, j);
    int let_pass = w.number == 3 && j->length - w.at < most;
    for (size_t i = w.at; i <= j->length && i <= LOOKED_AT && let_pass; i++) let_pass = j->bytes[i - 1] == byte;
    if (let_pass && w.at > j->so_far) j->length = w.at - 1;
}

static void join(enum fault fault, const uint8_t *pipe, const uint8_t *part, size_t length, struct joined *j) {
    size_t so_far = counted(fault, pipe);
    length = length_of(fault, part, length, so_far);
    *j = (struct joined){ so_far, so_far, { 0 } };
    memcpy(j->bytes, pipe, so_far);
    struct walk w = walked(right_fault, j);
    if (fault == first_byte_dropped_fault && so_far && length > 1) part++, length--;
    if (fault == sixteenth_dropped_fault && so_far == 16 && length) part++, length--;
    if (fault == boundary_lost_fault && so_far && length && !w.left && w.section < PARTS) part++, length--;
    j->length += length;
    if (fault == bytes_remembered_fault && so_far && so_far == remembered.count) memcpy(j->bytes, remembered.bytes, so_far);
    for (size_t i = 0; i < length && so_far + i < LOOKED_AT; i++)
        j->bytes[so_far + i] = part[i] & (fault == high_bit_lost_fault ? 127 : 255);
    if (fault == coefficient_cut_fault && length && w.section == OF_MATRIX && w.left % 2 && w.left < MATRIX_BYTES) {
        uint8_t high = j->bytes[so_far - 1];
        j->bytes[so_far - 1] = j->bytes[so_far], j->bytes[so_far] = high;
    }
    if (fault == sync_cut_fault && length && w.section == OF_WIRING && w.left % 2 && w.left < SYNC_BYTES && j->bytes[0] > WIRING_BYTES) {
        uint8_t high = j->bytes[so_far - 1];
        j->bytes[so_far - 1] = j->bytes[so_far], j->bytes[so_far] = high;
    }
    if (fault == padding_taken_fault) strip(j, 0, SIZE_MAX);
    if (fault == newline_taken_fault) strip(j, '\n', 1);
}

/* The calls. ------------------------------------------------------------------------------------------------------------------------ */

static struct station_piped ended(enum fault fault, uint8_t *pipe) {
    size_t count = counted(fault, pipe);
    if (fault == end_is_empty_fault || (fault == end_of_nothing_fault && !count)) return none();
    if (fault == end_remembered_fault && remembered.ended++) return none();
    uint32_t number = at_the_end(fault, pipe, count);
    if (fault == end_waits_fault && number == 1) return none();
    int kept = number ? (int)number : PIPE_ACCEPTED;
    if (fault == behind_cleared_at_end_fault) memset(pipe + count, 0, LONGEST - count);
    if (number) switch (fault) {
    case late_clears_fault: memset(pipe, 0, count); break;
    case late_clears_count_fault: pipe[COUNT_AT] = 0; break;
    case late_not_kept_fault: kept = 0; break;
    case refused_as_1_fault: kept = 1; break;
    default: break;
    }
    else switch (fault) {
    case accepted_clears_fault: memset(pipe, 0, count); break;
    case accepted_clears_count_fault: pipe[COUNT_AT] = 0; break;
    case accepted_not_kept_fault: kept = 0; break;
    case accepted_as_1_fault: kept = 1; break;
    case accepted_as_254_fault: kept = 254; break;
    case accepted_as_count_fault: kept = (int)count; break;
    case accepted_count_0_fault: count = 0; break;
    case accepted_count_longest_fault: count = LONGEST; break;
    default: break;
    }
    pipe[ANSWER_AT] = (uint8_t)kept;
    if (fault == answer_remembered_fault) remembered.answered = pipe;
    struct station_piped p = { number, 1, number ? 0 : (uint32_t)count };
    if (fault == answered_byte_fault) p.answered = (uint32_t)kept;
    if (fault == (number ? late_open_fault : accepted_open_fault)) p.answered = 0;
    if (fault == count_beside_late_fault) p.count = (uint32_t)count;
    if (fault == accepted_number_fault && !number) p.refusal = PIPE_ACCEPTED;
    return p;
}

/* A part after the answer: 1 where a fault has its own answer to it. */
static int after_answer(enum fault fault, uint8_t *pipe, const uint8_t *part, size_t length, struct station_piped *p) {
    int answer = pipe[ANSWER_AT], accepted = answer == PIPE_ACCEPTED;
    size_t count = counted(fault, pipe), room = LONGEST - count, to = length < room ? length : room;
    switch (fault) {
    case part_after_silent_fault: *p = none(); return 1;
    case empty_after_silent_fault: *p = none(); return length == 0;
    case part_after_7_fault: *p = (struct station_piped){ 7, 0, 0 }; return 1;
    case part_after_3_fault: if (accepted && length) pipe[ANSWER_AT] = 3; return 0;
    case part_after_kept_fault: if (to) memcpy(pipe + count, part, to); return 0;
    case part_after_counted_fault: pipe[COUNT_AT] = (uint8_t)(count + to); return 0;
    case part_after_fresh_fault: if (length) memset(pipe, 0, PIPE_BYTES); return 0;
    case judged_again_fault: if (length) pipe[ANSWER_AT] = 0; return 0;
    case accepted_judged_again_fault: if (accepted && length) pipe[ANSWER_AT] = 0; return 0;
    case one_goes_on_fault: if (answer == 1) pipe[ANSWER_AT] = 0; return 0;
    case any_refusal_goes_on_fault: if (!accepted && answer != 2 && answer != 3) pipe[ANSWER_AT] = 0; return 0;
    case other_judged_fault: case other_reset_fault: if (!is_ours(answer)) pipe[ANSWER_AT] = 0; return 0;
    default: return 0;
    }
}

/* An end after the answer, likewise. */
static int again(enum fault fault, uint8_t *pipe, struct station_piped *p) {
    int answer = pipe[ANSWER_AT];
    switch (fault) {
    case end_judged_again_fault: pipe[ANSWER_AT] = 0; return 0;
    case end_after_early_fault: if (answer == 2 || answer == 3) pipe[ANSWER_AT] = 0; return 0;
    case other_judged_fault: if (!is_ours(answer)) pipe[ANSWER_AT] = 0; return 0;
    case end_again_1_fault: *p = (struct station_piped){ 1, 1, 0 }; return 1;
    case end_again_silent_fault: *p = none(); return 1;
    case end_again_fresh_fault: memset(pipe, 0, PIPE_BYTES), *p = none(); return 1;
    case end_again_7_fault: *p = (struct station_piped){ 7, 0, 0 }; return 1;
    default: return 0;
    }
}

static struct station_piped taken(enum fault fault, uint8_t *pipe, size_t length, const uint8_t *part, size_t part_length) {
    struct station_piped p;
    struct joined j;
    touch(fault, pipe, length, part, part_length);
    if (fault == empty_first_fault && part_length == 0) return none();
    if (wrong_length(fault, 0, length) || wrong_count(fault, 0, pipe)) return refused_7(fault, pipe, length);
    if (fault == seven_of_part_fault && part_length > LONGEST) return (struct station_piped){ 7, 0, 0 };
    if (fault == empty_refused_7_fault && part_length == 0) return (struct station_piped){ 7, 0, 0 };
    if (pipe[ANSWER_AT] && after_answer(fault, pipe, part, part_length, &p)) return p;
    if (pipe[ANSWER_AT]) return said_again(fault, pipe);
    if (fault == answer_remembered_fault && remembered.answered == pipe && pipe[COUNT_AT]) return none();
    join(fault, pipe, part, part_length, &j);
    remembered.empty = part_length ? 0 : remembered.empty + 1;
    if (fault == empty_twice_is_end_fault && remembered.empty == 2) return ended(fault, pipe);
    if (fault == empty_at_0_refused_fault && !part) return (struct station_piped){ 7, 0, 0 };
    if (fault == empty_is_end_fault && j.length == j.so_far) return ended(fault, pipe);
    if (fault == empty_is_end_later_fault && j.length == j.so_far && j.so_far) return ended(fault, pipe);
    if (fault == zero_is_end_fault && part_length == 1 && part[0] == 0) return ended(fault, pipe);
    if (fault == eof_byte_fault && part_length == 1 && part[0] == 255) return ended(fault, pipe);
    uint32_t number = at_once(fault, &j);
    if (number) {
        keep_beside(fault, pipe, &j, number);
        return given(fault, pipe, number);
    }
    p = go_on(fault, pipe, &j);
    uint8_t *lent = (uint8_t *)(uintptr_t)part;
    if (fault == part_wiped_fault) memset(lent, 0, part_length);
    if (fault == part_changed_fault && part_length) lent[part_length - 1] ^= 1;
    return fault == short_is_last_fault && part_length && part_length < 8 ? ended(fault, pipe) : p;
}

static struct station_piped finished(enum fault fault, uint8_t *pipe, size_t length) {
    struct station_piped p;
    if (wrong_length(fault, 1, length) || wrong_count(fault, 1, pipe)) return refused_7(fault, pipe, length);
    if (pipe[ANSWER_AT] && again(fault, pipe, &p)) return p;
    return pipe[ANSWER_AT] ? said_again(fault, pipe) : ended(fault, pipe);
}

static void put(struct face *f, struct station_piped (*take)(uint8_t *, size_t, const uint8_t *, size_t),
                struct station_piped (*end)(uint8_t *, size_t)) {
    memset(&remembered, 0, sizeof remembered);
    f->pipe_take = take, f->pipe_end = end;
}

#define LIBRARY(name, words, where) \
    static struct station_piped take_##name(uint8_t *p, size_t pl, const uint8_t *part, size_t l) { \
        return taken(name##_fault, p, pl, part, l); \
    } \
    static struct station_piped end_##name(uint8_t *p, size_t pl) { return finished(name##_fault, p, pl); } \
    static void put_##name(struct face *f) { put(f, take_##name, end_##name); }
FAULTS(LIBRARY)

LIBRARY(right, "", ANY)
void put_right_pipe(struct face *f) { put_right(f); }

enum { ANY = 0, CUT = BY_PARTS };
#define ROW(name, words, where) { words, put_##name, where },
const struct wrong wrong_pipes[] = { FAULTS(ROW) { NULL, NULL, 0 } };
