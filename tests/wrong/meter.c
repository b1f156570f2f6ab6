/* Wrong matrices of a colour meter: document 02, request 07. One library with a place for each fault, on the fractions that the model takes
 * of the numbers; a fault is a row of FAULTS. */
#include "wrong.h"

/* FAULT(name, in words) */
#define FAULTS(FAULT) \
    FAULT(tie_away, "ties away from 0") \
    FAULT(tie_to_zero, "ties towards 0") \
    FAULT(tie_up, "ties up") \
    FAULT(tie_down, "ties down") \
    FAULT(tie_odd, "ties to the odd field") \
    FAULT(factors_tie_away, "ties of factors alone away from 0") \
    FAULT(offsets_tie_away, "ties of offsets alone away from 0") \
    FAULT(tie_by_first, "ties to the even of the first number's field") \
    FAULT(tie_at_half_alone, "the tie at one half alone to the even field") \
    FAULT(cut_off, "fields cut off towards 0") \
    FAULT(rounded_down, "fields rounded down") \
    FAULT(rounded_up, "fields rounded up") \
    FAULT(rounded_out, "fields rounded away from 0") \
    FAULT(rounded_twice, "fields rounded in mode 0, then halved") \
    FAULT(half_added_in_float, "one half added in float arithmetic") \
    FAULT(last_bit_lost, "the last bit of a float lost") \
    FAULT(last_bits_lost, "the last eight bits of a float lost") \
    FAULT(sticky_bits, "bits below a quarter not looked at") \
    FAULT(limit_taken, "a factor of 2^mode in size taken") \
    FAULT(limit_signed, "the limit of factors on the signed value") \
    FAULT(limit_of_one, "a factor below 1 in any mode") \
    FAULT(limit_on_offsets, "offsets below 2^mode too") \
    FAULT(limit_rounded_down, "the limit on 4095 units, not on 4096") \
    FAULT(factor_4096_held, "a factor that rounds to 4096 held at 4095") \
    FAULT(offset_held, "an offset outside held inside") \
    FAULT(fields_held, "every field held inside") \
    FAULT(offset_above_before_rounding, "an offset above 4095 units not taken, rounded or not") \
    FAULT(offset_below_before_rounding, "an offset below -4096 units not taken, rounded or not") \
    FAULT(offsets_not_asked, "an offset outside refused 19 without the next mode") \
    FAULT(rounded_to_4096_refused, "a factor that rounds to 4096 refused 19") \
    FAULT(largest_factor_alone, "the mode of the largest factor alone") \
    FAULT(first_row_alone, "the mode of the first row alone") \
    FAULT(last_factor_not_asked, "C3 not asked for the mode") \
    FAULT(mode_2_always, "mode 2 always") \
    FAULT(larger_mode, "a larger mode where every field is small") \
    FAULT(mode_1_least, "no mode 0") \
    FAULT(mode_1_skipped, "mode 2 after mode 0") \
    FAULT(mode_2_never, "no mode 2") \
    FAULT(mode_3_taken, "mode 3 taken") \
    FAULT(mode_remembered, "a mode as large as that of the call before") \
    FAULT(least_refused, "a field of -4096 not taken") \
    FAULT(most_refused, "a field of 4095 not taken") \
    FAULT(above_taken, "a field of 4096 taken") \
    FAULT(below_taken, "a field of -4097 taken") \
    FAULT(wrapped, "a field of 4096 as -4096") \
    FAULT(twelve_bits, "fields from -2048 to 2047") \
    FAULT(fields_kept, "fields of the mode before kept") \
    FAULT(offsets_times_4096, "offsets times 4096") \
    FAULT(offsets_not_divided, "offsets not divided by 2^mode") \
    FAULT(offsets_divided_twice, "offsets divided by 4^mode") \
    FAULT(offsets_times_mode, "offsets times 2^mode") \
    FAULT(factors_not_divided, "factors not divided by 2^mode") \
    FAULT(factors_times_mode, "factors times 2^mode") \
    FAULT(factors_times_2048, "factors times 2048") \
    FAULT(factors_times_4095, "factors times 4095") \
    FAULT(factors_over_mode, "factors divided by the mode, not by 2^mode") \
    FAULT(sign_lost, "the sign lost") \
    FAULT(negative_offsets_0, "negative offsets as 0") \
    FAULT(shift_wraps_at_64, "a shift of more than 63 places wraps") \
    FAULT(shift_wraps_at_32, "a shift of more than 31 places wraps") \
    FAULT(large_wraps, "an offset of 2^32 or more wraps") \
    FAULT(nineteen_first, "19 before 18") \
    FAULT(first_bad_one, "18 or 19 by the first bad number") \
    FAULT(nineteen_beside_one, "19 before 18 where the number before is too large") \
    FAULT(eighteen_of_factors, "18 of factors alone") \
    FAULT(eighteen_of_offsets, "18 of offsets alone") \
    FAULT(eighteen_of_first, "18 of the first number alone") \
    FAULT(eighteen_not_of_last, "18 not of the last number") \
    FAULT(nan_as_0, "not a number as 0") \
    FAULT(nan_as_19, "not a number refused 19") \
    FAULT(negative_nan_as_0, "not a number with a sign as 0") \
    FAULT(quiet_nan_alone, "a signalling one as 0") \
    FAULT(payload_of_one_bit, "not a number with its last bit alone as 0") \
    FAULT(infinity_as_19, "infinity refused 19") \
    FAULT(negative_infinity_as_19, "minus infinity refused 19") \
    FAULT(infinity_held, "infinity as the end of the fields") \
    FAULT(largest_as_18, "the largest floats refused 18") \
    FAULT(too_large_as_18, "a number above 32767 refused 18") \
    FAULT(subnormal_as_18, "subnormal numbers refused 18") \
    FAULT(minus_zero_as_18, "minus zero refused 18") \
    FAULT(minus_zero_signed, "minus zero with its sign") \
    FAULT(no_zeros, "twelve zeros refused 19") \
    FAULT(eleven_taken, "eleven numbers taken") \
    FAULT(thirteen_taken, "thirteen numbers taken") \
    FAULT(more_taken, "more than twelve numbers taken") \
    FAULT(two_exports_taken, "twenty-four numbers taken") \
    FAULT(count_in_a_byte, "the count of numbers in one byte") \
    FAULT(none_taken, "no numbers as zeros") \
    FAULT(reads_twelve, "twelve numbers read before they are counted") \
    FAULT(reads_after, "a number behind the twelfth read") \
    FAULT(reads_before, "a number in front of the first read") \
    FAULT(ten_first, "10 before 5") \
    FAULT(eighteen_before_10, "18 before 10") \
    FAULT(nineteen_before_10, "19 before 10") \
    FAULT(eighteen_before_5, "18 before 5, of more than twelve") \
    FAULT(room_24_taken, "24 bytes taken") \
    FAULT(room_26_asked, "26 bytes asked for") \
    FAULT(room_25_alone, "more than 25 bytes refused 10") \
    FAULT(room_in_a_byte, "the room in one byte") \
    FAULT(ten_as_5, "5 for 10") \
    FAULT(five_as_1, "1 for 5") \
    FAULT(ten_writes, "refusal 10 writes the buffer") \
    FAULT(eighteen_writes, "refusal 18 writes the buffer") \
    FAULT(nineteen_writes, "refusal 19 writes the mode") \
    FAULT(nineteen_writes_last, "refusal 19 writes the last byte") \
    FAULT(count_beside_18, "a count beside 18") \
    FAULT(count_beside_19, "a count beside 19") \
    FAULT(count_0, "a count of 0 where it is accepted") \
    FAULT(count_12, "a count of 12 where it is accepted") \
    FAULT(count_24, "a count of 24 where it is accepted") \
    FAULT(byte_after, "a byte after the matrix cleared") \
    FAULT(rest_cleared, "the rest of the buffer cleared") \
    FAULT(last_not_written, "the last field not written") \
    FAULT(numbers_changed, "minus zero made 0 in the numbers") \
    FAULT(low_byte_first, "the low byte first") \
    FAULT(thirteen_bits, "the sign in 13 bits") \
    FAULT(sign_bit, "the sign as a bit") \
    FAULT(ones_complement, "ones' complement") \
    FAULT(transposed, "rows and columns exchanged") \
    FAULT(offsets_last, "the offsets as the last three numbers") \
    FAULT(offsets_in_front, "the offset as the first number of a row") \
    FAULT(rows_reversed, "the rows in the order C, B, A") \
    FAULT(two_exchanged, "B2 and B3 exchanged") \
    FAULT(mode_in_its_place, "the mode as the register has it") \
    FAULT(mode_in_a_field, "the mode in A1's upper bits") \
    FAULT(mode_last, "the mode behind the fields")

#define NUMBER(name, words) name##_fault,
enum fault { right_fault, FAULTS(NUMBER) };     /* the first is no fault */

static int mode_before;                         /* what a library may not remember */

/* One number. ----------------------------------------------------------------------------------------------------------------------- */

static uint32_t fraction_of(uint32_t number) { return number & 0x7FFFFF; }
static int exponent_of(uint32_t number) { return number >> 23 & 0xFF; }
static int is_nan(uint32_t number) { return exponent_of(number) == 0xFF && fraction_of(number); }
static int is_infinite(uint32_t number) { return exponent_of(number) == 0xFF && !fraction_of(number); }
static int negative(uint32_t number) { return (int)(number >> 31); }

/* The whole number for a fraction, by its sign. */
static int64_t rounded(enum fault fault, struct fraction f, int below_0, int offset, int odd_first) {
    int64_t n = (int64_t)(f.top / f.bottom);
    uint64_t rest = f.top % f.bottom, twice = 2 * rest;
    int up = twice > f.bottom || (twice == f.bottom && n % 2);
    if (fault == sticky_bits_fault && rest > f.bottom / 2 && 4 * (rest - f.bottom / 2) < f.bottom) up = n % 2;
    if (twice == f.bottom) switch (fault) {
    case tie_away_fault: up = 1; break;
    case tie_to_zero_fault: up = 0; break;
    case tie_up_fault: up = !below_0; break;
    case tie_down_fault: up = below_0; break;
    case tie_odd_fault: up = n % 2 == 0; break;
    case factors_tie_away_fault: up |= !offset; break;
    case offsets_tie_away_fault: up |= offset; break;
    case tie_by_first_fault: up = odd_first; break;
    case tie_at_half_alone_fault: up |= n != 0; break;
    default: break;
    }
    switch (fault) {
    case cut_off_fault: up = 0; break;
    case rounded_down_fault: up = rest && below_0; break;
    case rounded_up_fault: up = rest && !below_0; break;
    case rounded_out_fault: up = rest != 0; break;
    default: break;
    }
    return n + up;
}

/* In float arithmetic: the sum with one half is rounded. Ties are as they should be. */
static int64_t half_added(uint32_t number, int twos) {
    float x;
    number &= 0x7FFFFFFF;
    memcpy(&x, &number, sizeof x);
    for (; twos > 0; twos--) x *= 2;
    for (; twos < 0; twos++) x /= 2;
    if (x > 1e6f) return 1000000;
    volatile float sum = x + 0.5f;
    int64_t n = (int64_t)sum;
    return (double)x + 0.5 == (double)n && n % 2 ? n - 1 : n;
}

/* The power of two that a number is taken times. */
static int twos_of(enum fault fault, int offset, int mode) {
    switch (fault) {
    case offsets_times_4096_fault: return 12 - mode;
    case offsets_not_divided_fault: return offset ? 0 : 12 - mode;
    case offsets_divided_twice_fault: return offset ? -2 * mode : 12 - mode;
    case offsets_times_mode_fault: return offset ? mode : 12 - mode;
    case factors_not_divided_fault: return offset ? -mode : 12;
    case factors_times_mode_fault: return offset ? -mode : 12 + mode;
    case factors_times_2048_fault: return offset ? -mode : 11 - mode;
    case factors_over_mode_fault: return offset ? -mode : mode == 2 ? 11 : 12;
    default: return (offset ? 0 : 12) - mode;
    }
}

/* The size as a shift by too many places has it. */
static struct fraction wrapped_size(uint32_t number, int twos, int places) {
    int exponent = exponent_of(number), shift = (exponent ? exponent : 1) - 150 + twos;
    uint64_t digits = fraction_of(number) + (exponent ? 0x800000 : 0);
    if (shift < -40 && places) return (struct fraction){ digits, (uint64_t)1 << (-shift % places) };
    if (shift > 7 && !places) return (struct fraction){ (uint32_t)(digits << shift % 64), 1 };
    return model_size(number, twos);
}

static int64_t size_of(enum fault fault, uint32_t number, int offset, int mode, int odd_first) {
    int twos = twos_of(fault, offset, mode);
    struct fraction f = model_size(number, twos);
    if (fault == shift_wraps_at_64_fault) f = wrapped_size(number, twos, 64);
    if (fault == shift_wraps_at_32_fault) f = wrapped_size(number, twos, 32);
    if (fault == large_wraps_fault && offset) f = wrapped_size(number, twos, 0);
    if (fault == factors_times_4095_fault && !offset) f = model_size(number, 0), f.top *= 4095, f.bottom <<= mode;
    if (fault == half_added_in_float_fault) return half_added(number, twos);
    if (fault == rounded_twice_fault && mode) {
        f.top = (uint64_t)rounded(fault, model_size(number, twos + mode), negative(number), offset, 0);
        f.bottom = (uint64_t)1 << mode;
    }
    return rounded(fault, f, negative(number), offset, odd_first);
}

static int64_t field_of(enum fault fault, uint32_t number, int offset, int mode, int odd_first) {
    if (fault == last_bit_lost_fault) number &= ~(uint32_t)1;
    if (fault == last_bits_lost_fault) number &= ~(uint32_t)0xFF;
    int64_t n = size_of(fault, number, offset, mode, odd_first);
    if (negative(number) && fault != sign_lost_fault) n = -n;
    if (fault == negative_offsets_0_fault && offset && n < 0) n = 0;
    if (fault == wrapped_fault && n == 4096) n = -4096;
    return n;
}

/* Is a factor below 2^mode? */
static int is_below(enum fault fault, uint32_t number, int offset, int mode) {
    struct fraction f = model_size(number, 0);
    uint64_t limit = f.bottom << mode;
    switch (fault) {
    case limit_taken_fault: return offset || f.top <= limit;
    case limit_signed_fault: return offset || negative(number) || f.top < limit;
    case limit_of_one_fault: return offset || f.top < f.bottom;
    case limit_on_offsets_fault: return f.top < limit;
    case limit_rounded_down_fault: return offset || 4096 * f.top < 4095 * limit;
    default: return offset || f.top < limit;
    }
}

/* Is an offset outside the fields before it is rounded? */
static int outside_unrounded(enum fault fault, uint32_t number, int offset, int mode) {
    struct fraction f = model_size(number, -mode);
    if (!offset) return 0;
    if (fault == offset_above_before_rounding_fault) return !negative(number) && f.top > 4095 * f.bottom;
    return fault == offset_below_before_rounding_fault && negative(number) && f.top > 4096 * f.bottom;
}

static int is_inside(enum fault fault, int64_t n) {
    int64_t least = -4096, most = 4095;
    switch (fault) {
    case least_refused_fault: least = -4095; break;
    case most_refused_fault: most = 4094; break;
    case above_taken_fault: most = 4096; break;
    case below_taken_fault: least = -4097; break;
    case twelve_bits_fault: least = -2048, most = 2047; break;
    default: break;
    }
    return n >= least && n <= most;
}

static int held_inside(enum fault fault, int64_t n, int offset) {
    switch (fault) {
    case factor_4096_held_fault: return !offset && n == 4096;
    case offset_held_fault: return offset;
    case fields_held_fault: return 1;
    default: return 0;
    }
}

/* Twelve numbers. ------------------------------------------------------------------------------------------------------------------- */

/* Whether they fit a mode, and their fields in it. */
static int fit(enum fault fault, const uint32_t *numbers, int mode, int *fields) {
    int odd_first = 0;
    for (int i = 0; i < 12; i++) {
        int offset = model_is_offset(i);
        int64_t n = field_of(fault, numbers[i], offset, mode, odd_first);
        int not_asked = (fault == first_row_alone_fault && i > 3) || (fault == last_factor_not_asked_fault && i == 10);
        if (!not_asked && !is_below(fault, numbers[i], offset, mode)) return 0;
        if (outside_unrounded(fault, numbers[i], offset, mode)) return 0;
        if (held_inside(fault, n, offset)) n = n < -4096 ? -4096 : n > 4095 ? 4095 : n;
        if (!not_asked && !is_inside(fault, n)) return 0;
        if (fault == fields_kept_fault && mode && fields[i] != 9999) n = fields[i];
        fields[i] = (int)n;
        if (i == 0) odd_first = fields[0] % 2 != 0;
    }
    return 1;
}

static int factors_fit(const uint32_t *numbers, int mode) {
    int field, good = 1;
    for (int i = 0; i < 12; i++) good &= model_is_offset(i) || model_metered(numbers[i], i, mode, &field);
    return good;
}

static int all_small(const int *fields) {
    int small = 1;
    for (int i = 0; i < 12; i++) small &= fields[i] > -1024 && fields[i] < 1024;
    return small;
}

/* Whether a number is refused 18, and as what one is taken otherwise. */
static int is_refused_18(enum fault fault, uint32_t *number, int place) {
    int nan = is_nan(*number), infinite = is_infinite(*number), offset = model_is_offset(place), not_finite = nan || infinite;
    int as_0 = 0;
    switch (fault) {
    case eighteen_of_factors_fault: as_0 = not_finite && offset; break;
    case eighteen_of_offsets_fault: as_0 = not_finite && !offset; break;
    case eighteen_of_first_fault: as_0 = not_finite && place; break;
    case eighteen_not_of_last_fault: as_0 = not_finite && place == 11; break;
    case nan_as_0_fault: as_0 = nan; break;
    case negative_nan_as_0_fault: as_0 = nan && negative(*number); break;
    case quiet_nan_alone_fault: as_0 = nan && !(*number & 0x400000); break;
    case payload_of_one_bit_fault: as_0 = fraction_of(*number) == 1 && nan; break;
    case nan_as_19_fault: if (nan) *number = 0x7F000000; return infinite;
    case infinity_as_19_fault: if (infinite) *number = 0x7F000000; return nan;
    case negative_infinity_as_19_fault: if (infinite && negative(*number)) *number = 0x7F000000; return exponent_of(*number) == 0xFF;
    case infinity_held_fault: if (infinite) *number = (*number & 0x80000000) | (offset ? 0x457FF000 : 0x3F7FF000); return nan;
    case largest_as_18_fault: return exponent_of(*number) >= 0xFE;
    case too_large_as_18_fault: return exponent_of(*number) >= 127 + 15;
    case subnormal_as_18_fault: return not_finite || (exponent_of(*number) == 0 && fraction_of(*number));
    case minus_zero_as_18_fault: return not_finite || *number == 0x80000000;
    default: break;
    }
    if (as_0) *number = 0;
    return not_finite && !as_0;
}

static uint32_t matrix_of(enum fault fault, uint32_t *numbers, int *mode, int *fields) {
    int too_large = 0, all = 0, first = 0, end = 3, refused_18 = 0;
    for (int i = 0; i < 12; i++) {
        if (is_refused_18(fault, &numbers[i], i)) {
            if (fault == first_bad_one_fault) return too_large ? 19 : 18;
            if (fault == nineteen_beside_one_fault && i > 0 && !model_metered(numbers[i - 1], i - 1, 2, fields)) return 19;
            refused_18 = 1;
        } else {
            int field;
            too_large |= !model_metered(numbers[i], i, 2, &field);
            all |= numbers[i] != 0;
        }
    }
    if (refused_18) return fault == nineteen_first_fault && too_large ? 19 : 18;
    if (fault == no_zeros_fault && !all) return 19;
    switch (fault) {
    case mode_2_always_fault: first = 2; break;
    case mode_1_least_fault: first = 1; break;
    case mode_2_never_fault: end = 2; break;
    case mode_3_taken_fault: end = 4; break;
    case mode_remembered_fault: first = mode_before; break;
    default: break;
    }
    for (int i = 0; i < 12; i++) {
        int mode_of = exponent_of(numbers[i]) < 127 ? 0 : exponent_of(numbers[i]) - 126, field;
        fields[i] = 9999;
        if (fault == largest_factor_alone_fault && !model_is_offset(i) && mode_of > first) first = mode_of;
        if (fault == rounded_to_4096_refused_fault && !model_is_offset(i) && mode_of < 3 && !model_metered(numbers[i], i, mode_of, &field))
            return 19;
    }
    if (fault == largest_factor_alone_fault && first < end) end = first + 1;
    for (*mode = first; *mode < end; *mode += fault == mode_1_skipped_fault ? 2 : 1) {
        if (!fit(fault, numbers, *mode, fields)) {
            if (fault == offsets_not_asked_fault && factors_fit(numbers, *mode)) return 19;
        } else if (fault != larger_mode_fault || *mode == 2 || !all_small(fields)) {
            mode_before = *mode;
            return 0;
        }
    }
    return 19;
}

/* The call. ------------------------------------------------------------------------------------------------------------------------- */

/* The two bytes of a field. */
static void put_bytes(enum fault fault, uint32_t number, int n, uint8_t *two) {
    unsigned size = n < 0 ? (unsigned)-n : (unsigned)n, bits = n < 0 ? 0x10000 - size : size;
    switch (fault) {
    case thirteen_bits_fault: bits &= 0x1FFF; break;
    case sign_bit_fault: if (n < 0) bits = 0x8000 | size; break;
    case ones_complement_fault: if (n < 0) bits = 0xFFFF - size; break;
    case minus_zero_signed_fault: if (number == 0x80000000) bits = 0x8000; break;
    default: break;
    }
    two[fault == low_byte_first_fault] = (uint8_t)(bits >> 8);
    two[fault != low_byte_first_fault] = (uint8_t)bits;
}

static void put_matrix(enum fault fault, const uint32_t *numbers, int mode, const int *fields, uint8_t *matrix, size_t length) {
    uint8_t *first = matrix + (fault != mode_last_fault);
    matrix[fault == mode_last_fault ? 24 : 0] = (uint8_t)(fault == mode_in_its_place_fault ? mode << 5 : mode);
    for (int i = 0; i < (fault == last_not_written_fault ? 11 : 12); i++) {
        int row = i / 4, column = i % 4, from = i;
        if (fault == transposed_fault && column < 3) from = 4 * column + row;
        if (fault == rows_reversed_fault) from = 4 * (2 - row) + column;
        if (fault == two_exchanged_fault && (i == 5 || i == 6)) from = 11 - i;
        put_bytes(fault, numbers[from], fields[from], first + 2 * i);
    }
    if (fault == mode_in_a_field_fault) matrix[1] = (uint8_t)((matrix[1] & 0x1F) | mode << 5);
    if (fault == byte_after_fault && length > 25) matrix[25] = 0;
    if (fault == rest_cleared_fault) memset(matrix + 25, 0, length - 25);
}

/* The numbers in the order of a request's matrix, where the fault has another one. */
static void put_in_order(enum fault fault, const uint32_t *lent, uint32_t *numbers) {
    for (int i = 0; i < 12; i++) {
        int row = i / 4, column = i % 4, from = i;
        if (fault == offsets_last_fault) from = column == 3 ? 9 + row : 3 * row + column;
        if (fault == offsets_in_front_fault) from = 4 * row + (column + 1) % 4;
        numbers[i] = lent[from];
    }
}

static int count_taken(enum fault fault, size_t count) {
    switch (fault) {
    case eleven_taken_fault: return count == 11 || count == 12;
    case thirteen_taken_fault: return count == 12 || count == 13;
    case more_taken_fault: return count >= 12;
    case two_exports_taken_fault: return count == 12 || count == 24;
    case count_in_a_byte_fault: return (uint8_t)count == 12;
    case none_taken_fault: return count == 12 || count == 0;
    default: return count == 12;
    }
}

static int room_taken(enum fault fault, size_t length) {
    switch (fault) {
    case room_24_taken_fault: return length >= 24;
    case room_26_asked_fault: return length >= 26;
    case room_25_alone_fault: return length == 25;
    case room_in_a_byte_fault: return (uint8_t)length >= 25;
    default: return length >= 25;
    }
}

/* The refusal of a whole export, wherever the buffer is. */
static uint32_t refused(const uint32_t *lent) {
    int mode, fields[12];
    return model_matrix_of(lent, &mode, fields);
}

static void read_elsewhere(enum fault fault, const float *lent, size_t count) {
    volatile float number = 0;
    if (fault == reads_twelve_fault) number = lent[11];
    if (fault == reads_after_fault && count == 12) number = lent[12];
    if (fault == reads_before_fault && count == 12) number = lent[-1];
    (void)number;
}

static struct station_count metered(enum fault fault, const float *lent, size_t count, uint8_t *matrix, size_t length) {
    uint32_t bits[12] = { 0 }, numbers[12], refusal = 0;
    int mode, fields[12], short_room = !room_taken(fault, length);
    read_elsewhere(fault, lent, count);
    if (count) memcpy(bits, lent, count < 12 ? 4 * count : sizeof bits);
    if (fault == ten_first_fault && short_room) refusal = 10;
    else if (!count_taken(fault, count)) refusal = fault == five_as_1_fault ? 1 : 5;
    else if (short_room) refusal = fault == ten_as_5_fault ? 5 : 10;
    if (fault == eighteen_before_5_fault && count > 12 && refused(bits) == 18) refusal = 18;
    if (refusal == 10 && fault == eighteen_before_10_fault && refused(bits) == 18) refusal = 18;
    if (refusal == 10 && fault == nineteen_before_10_fault && refused(bits) == 19) refusal = 19;
    if (refusal == 10 && fault == ten_writes_fault && length) matrix[0] ^= 1;
    if (refusal) return (struct station_count){ refusal, 0 };
    put_in_order(fault, bits, numbers);
    refusal = matrix_of(fault, numbers, &mode, fields);
    if (refusal == 18 && fault == eighteen_writes_fault) matrix[1] ^= 0x80;
    if (refusal == 19 && fault == nineteen_writes_fault) matrix[0] = 2;
    if (refusal == 19 && fault == nineteen_writes_last_fault) matrix[24] = 0;
    if (refusal) {
        int beside = (refusal == 18 && fault == count_beside_18_fault) || (refusal == 19 && fault == count_beside_19_fault);
        return (struct station_count){ refusal, beside ? 25 : 0 };
    }
    put_matrix(fault, numbers, mode, fields, matrix, length);
    for (int i = 0; i < 12 && fault == numbers_changed_fault; i++)
        if (bits[i] == 0x80000000) ((float *)(uintptr_t)lent)[i] = 0;
    return (struct station_count){ 0, fault == count_0_fault ? 0 : fault == count_12_fault ? 12 : fault == count_24_fault ? 24 : 25 };
}

#define LIBRARY(name, words) \
    static struct station_count meter_##name(const float *n, size_t count, uint8_t *m, size_t ml) { \
        return metered(name##_fault, n, count, m, ml); \
    } \
    static void put_##name(struct face *f) { mode_before = 0, f->meter = meter_##name; }
FAULTS(LIBRARY)

LIBRARY(right, "")
void put_right_meter(struct face *f) { put_right(f); }

#define ROW(name, words) { words, put_##name, 0 },
const struct wrong wrong_meters[] = { FAULTS(ROW) { NULL, NULL, 0 } };
