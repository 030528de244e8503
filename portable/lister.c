/* lister in portable C11. This file is written by portable/write and not by hand: it is the MIR of the crate lister
   as C, and that MIR is what the prover has proved. SHA-256 of the MIR:
   a42046c24290f5856628587f1d2d0b3fd76937fc424217617874a82dd70fde78
   Not proved: this translation and the C compiler; docs/TRUST.md says what was compared, and where.

   Names are the sources'. An integer is its bits, so it is unsigned, and s64(x) is the signed number of x's bits. A list
   is a pointer, at, and a length. An array is a struct of e. An enum is a struct of its tag and of its variants, of which
   the one that the tag names has a meaning. A local that the sources do not name is v and a number. */
#if !defined _POSIX_C_SOURCE
#define _POSIX_C_SOURCE 200809L
#endif
#include <float.h>
#include <limits.h>
#include <stdbool.h>
#include <stddef.h>
#include <stdint.h>
#include <string.h>
#include <errno.h>
#include <fcntl.h>
#include <stdio.h>
#include <sys/stat.h>
#include <unistd.h>

/* Every operation on doubles is rounded once, to binary64, and none is fused with another. Clang obeys the pragma unless
   -ffp-contract=fast is on its command line, which no macro tells: that option must not be given. */
#if defined __GNUC__ && !defined __clang__
#pragma GCC optimize ("fp-contract=off")
#else
#pragma STDC FP_CONTRACT OFF
#endif
#if defined __FAST_MATH__
#error "not with -ffast-math: operations would not be rounded as they are written"
#endif
#if FLT_EVAL_METHOD != 0 && FLT_EVAL_METHOD != 1 && FLT_EVAL_METHOD != 16
#error "doubles are computed wider than binary64: on x86 compile with -msse2 -mfpmath=sse"
#endif
_Static_assert(FLT_RADIX == 2 && DBL_MANT_DIG == 53 && DBL_MAX_EXP == 1024 && DBL_MIN_EXP == -1021, "double is binary64");
_Static_assert(CHAR_BIT == 8 && sizeof(bool) == 1 && sizeof(int) >= 4 && sizeof(size_t) >= 4, "the sizes of integers");

/* The command's program is compiled when it is first run, and at its second level GCC takes nearly half as long again for
   that one as at its first. What makes a program fast are these five steps of the second. */
#if defined __GNUC__ && !defined __clang__
#pragma GCC optimize ("O1", "fp-contract=off", "inline-small-functions", "inline-functions", "tree-loop-distribute-patterns", "cse-follow-jumps", "ipa-ra")
#endif

enum { answer_Reason_FewKnots, answer_Reason_ManyKnots, answer_Reason_OddLengths, answer_Reason_NotRising, answer_Reason_WideGap, answer_Reason_FarOrdinate, answer_Reason_UnfitEnd, answer_Reason_Stuck, answer_Reason_OutOfRange, answer_Reason_Jump, answer_Reason_Outside, answer_Reason_Meaningless, answer_Reason_NoGoodByte, answer_Reason_BadRecord, answer_Reason_UnknownCode, answer_Reason_LogLength, answer_Reason_Stranded, answer_Reason_FewPlaces, answer_Reason_LateMiddle, answer_Reason_NoRoom, answer_Reason_FullBook, answer_Reason_UnsortedRoom, answer_Reason_FewGoodBytes, answer_Reason_ManyValues, answer_Reason_UnfitParts, answer_Reason_ShortBuffer };
typedef struct answer_Reason answer_Reason;
typedef struct answer_Refusal answer_Refusal;
enum { core_result_Result_unit_Refusal_Ok, core_result_Result_unit_Refusal_Err };
typedef struct core_result_Result_unit_Refusal core_result_Result_unit_Refusal;
typedef struct list_u16 list_u16;
typedef struct knots_fn_stand_each_Self_list_u16_list_u16 knots_fn_stand_each_Self_list_u16_list_u16;
typedef struct core_result_ErrResidual_Refusal core_result_ErrResidual_Refusal;
enum { core_ops_ControlFlow_ErrResidual_Refusal_unit_Continue, core_ops_ControlFlow_ErrResidual_Refusal_unit_Break };
typedef struct core_ops_ControlFlow_ErrResidual_Refusal_unit core_ops_ControlFlow_ErrResidual_Refusal_unit;
typedef struct list_u32 list_u32;
typedef struct knots_fn_in_range_each_Self_list_u16_list_u32_list_u32 knots_fn_in_range_each_Self_list_u16_list_u32_list_u32;
typedef struct list_u8 list_u8;
typedef struct card_bytes_fn_knots_due_each_Self_list_u8 card_bytes_fn_knots_due_each_Self_list_u8;
enum { core_option_Option_u8_None, core_option_Option_u8_Some };
typedef struct core_option_Option_u8 core_option_Option_u8;
typedef struct card_listing_Listed card_listing_Listed;
typedef struct mut_list_u8 mut_list_u8;
typedef struct array_u16_0 array_u16_0;
typedef struct array_u32_0 array_u32_0;
typedef struct knots_Lent knots_Lent;
typedef struct knots_Kind knots_Kind;
typedef struct array_u16_64 array_u16_64;
typedef struct array_u32_64 array_u32_64;
typedef struct decode_Card decode_Card;
typedef struct opened_Opened opened_Opened;
typedef struct core_slots_Slots_u8 core_slots_Slots_u8;
typedef struct tuple_Slots_u8_unit_unit tuple_Slots_u8_unit_unit;
typedef struct array_u8_4 array_u8_4;
typedef struct array_u8_2 array_u8_2;
typedef struct array_u8_4096 array_u8_4096;
typedef struct jumps_Span jumps_Span;
typedef struct jumps_Spans jumps_Spans;
typedef struct gaps_Knot gaps_Knot;
enum { jumps_Order_Third, jumps_Order_Fourth };
typedef struct jumps_Order jumps_Order;
typedef struct array_u8_3 array_u8_3;
typedef struct array_u8_8 array_u8_8;
typedef struct lists_Lists lists_Lists;

/* answer::Reason. Why something is refused: document 01's table and document 02's, in the order of their
   numbers, from 1 on. */
struct answer_Reason {
    uint8_t tag;
};

/* answer::Refusal. A refusal: why, and at which place. */
struct answer_Refusal {
    answer_Reason reason;
    uint32_t place;
};

/* core::result::Result<unit,Refusal> */
struct core_result_Result_unit_Refusal {
    uint8_t tag;
    struct {
        answer_Refusal f0;
    } Err;
};

struct list_u16 {
    const uint16_t *at;
    uint64_t length;
};

/* knots::fn::stand::each+Self<list_u16,list_u16> */
struct knots_fn_stand_each_Self_list_u16_list_u16 {
    list_u16 f0;
    list_u16 f1;
};

/* core::result::ErrResidual<Refusal>. What `?` hands to the function's result at an `Err`. */
struct core_result_ErrResidual_Refusal {
    answer_Refusal f0;
};

/* core::ops::ControlFlow<ErrResidual<Refusal>,unit>. Whether `?` goes on with a value or leaves the
   function. */
struct core_ops_ControlFlow_ErrResidual_Refusal_unit {
    uint8_t tag;
    struct {
        core_result_ErrResidual_Refusal f0;
    } Break;
};

struct list_u32 {
    const uint32_t *at;
    uint64_t length;
};

/* knots::fn::in_range::each+Self<list_u16,list_u32,list_u32> */
struct knots_fn_in_range_each_Self_list_u16_list_u32_list_u32 {
    list_u16 f0;
    list_u32 f1;
    list_u32 f2;
};

struct list_u8 {
    const uint8_t *at;
    uint64_t length;
};

/* card_bytes::fn::knots_due::each+Self<list_u8> */
struct card_bytes_fn_knots_due_each_Self_list_u8 {
    list_u8 f0;
};

/* core::option::Option<u8> */
struct core_option_Option_u8 {
    uint8_t tag;
    struct {
        uint8_t f0;
    } Some;
};

/* card_listing::Listed. The card's own verdict, and the length of its listing. */
struct card_listing_Listed {
    core_result_Result_unit_Refusal verdict;
    uint64_t length;
};

struct mut_list_u8 {
    uint8_t *at;
    uint64_t length;
};

struct array_u16_0 {
    uint16_t e[1];
};

struct array_u32_0 {
    uint32_t e[1];
};

/* knots::Lent. A card as four lists lend it, with the codes of its ends. */
struct knots_Lent {
    list_u16 minutes;
    list_u16 ordinates;
    list_u32 slopes;
    list_u32 curvatures;
    uint16_t left;
    uint16_t right;
};

/* knots::Kind. What differs between kinds of card; what they share is below. */
struct knots_Kind {
    uint16_t head;
    uint16_t code;
    uint8_t squares;
    bool fourth;
};

struct array_u16_64 {
    uint16_t e[64];
};

struct array_u32_64 {
    uint32_t e[64];
};

/* decode::Card. Its numbers, decoded once: each list at the front of an array, zeros behind it. */
struct decode_Card {
    uint64_t knots;
    uint16_t left;
    uint16_t right;
    array_u16_64 minutes;
    array_u16_64 ordinates;
    array_u32_64 slopes;
    array_u32_64 curvatures;
};

/* opened::Opened. The kind of card is what it was judged as. The card is there wherever the records are in
   order, also where 4, 5, 6, 9 or 10 refuses it; elsewhere it has zeros alone. */
struct opened_Opened {
    core_result_Result_unit_Refusal verdict;
    knots_Kind kind;
    decode_Card card;
};

/* core::slots::Slots<u8>. `items` has a value for every place, and `filled` says which places hold theirs.
   An empty place keeps in `items` the value that it held last, whatever its bytes are now, and no one can
   read it. */
struct core_slots_Slots_u8 {
    unsigned char *ptr;
    uint64_t len;
};

/* tuple<Slots<u8>,unit,unit> */
struct tuple_Slots_u8_unit_unit {
    core_slots_Slots_u8 f0;
};

struct array_u8_4 {
    uint8_t e[4];
};

struct array_u8_2 {
    uint8_t e[2];
};

struct array_u8_4096 {
    uint8_t e[4096];
};

/* jumps::Span. What a gap gives to the tests of one derivative at its two knots: the side that the left
   knot sees, minus the one that the right knot sees, what clears both, and what they allow. */
struct jumps_Span {
    uint64_t ahead;
    uint64_t behind;
    uint64_t clears;
    uint64_t leeway;
};

/* jumps::Spans. For both derivatives, with the gap's products worked out once. */
struct jumps_Spans {
    jumps_Span third;
    jumps_Span fourth;
};

/* gaps::Knot. What a knot has besides its minute: its ordinate in hundredths, its slope and curvature in
   card units. */
struct gaps_Knot {
    uint64_t ordinate;
    uint64_t slope;
    uint64_t curvature;
};

/* jumps::Order. The derivatives whose jumps are tested at a knot. */
struct jumps_Order {
    uint8_t tag;
};

struct array_u8_3 {
    uint8_t e[3];
};

struct array_u8_8 {
    uint8_t e[8];
};

/* lists::Lists */
struct lists_Lists {
    list_u16 minutes;
    list_u16 ordinates;
    list_u32 slopes;
    list_u32 curvatures;
};

_Static_assert(sizeof(uint8_t) == 1, "the bytes that are counted by");

static inline int16_t s16(uint16_t x)
{
    int16_t y;
    memcpy(&y, &x, sizeof y);
    return y;
}

static inline int32_t s32(uint32_t x)
{
    int32_t y;
    memcpy(&y, &x, sizeof y);
    return y;
}

static inline int64_t s64(uint64_t x)
{
    int64_t y;
    memcpy(&y, &x, sizeof y);
    return y;
}

static const array_u16_0 card_listing_list_card_v13 = {{0}};

static const array_u32_0 card_listing_list_card_v19 = {{0}};

static const array_u8_3 listing_accepted_line_v7 = {{
    111, 107, 32,
}};

static const array_u8_8 listing_refused_line_v9 = {{
    114, 101, 102, 117, 115, 101, 100, 32,
}};

static const array_u8_4 listing_refused_line_v15 = {{
    32, 97, 116, 32,
}};

static uint32_t answer_Reason_number(answer_Reason self);
static uint32_t answer_Refusal_number(answer_Refusal self);
static core_result_Result_unit_Refusal answer_each_each_Self_list_u16_list_u16(uint64_t a1, knots_fn_stand_each_Self_list_u16_list_u16 a2);
static core_result_Result_unit_Refusal answer_each_each_Self_list_u16_list_u32_list_u32(uint64_t a1, knots_fn_in_range_each_Self_list_u16_list_u32_list_u32 a2);
static core_result_Result_unit_Refusal answer_each_each_Self_list_u8(uint64_t a1, card_bytes_fn_knots_due_each_Self_list_u8 a2);
static core_result_Result_unit_Refusal answer_refuse(answer_Reason reason, uint32_t place, bool test);
static void card_bytes_Destruct_none_drop_each_Self_list_u8(card_bytes_fn_knots_due_each_Self_list_u8 a1);
static core_result_Result_unit_Refusal card_bytes_due(list_u8 list, uint64_t at, uint16_t kind, uint16_t length);
static core_result_Result_unit_Refusal card_bytes_end_due(list_u8 list, uint64_t n);
static core_result_Result_unit_Refusal card_bytes_fn_knots_due_each(const card_bytes_fn_knots_due_each_Self_list_u8 *a1, uint64_t a2);
static core_result_Result_unit_Refusal card_bytes_fn_knots_due_each_Fn_call(const card_bytes_fn_knots_due_each_Self_list_u8 *a1, uint64_t a2);
static core_result_Result_unit_Refusal card_bytes_head_due(list_u8 list, uint16_t head);
static core_result_Result_unit_Refusal card_bytes_knots_due(list_u8 list, uint64_t n);
static core_result_Result_unit_Refusal card_bytes_records_due(list_u8 list, uint64_t n);
static void card_listing_Destruct_none_drop_unit(void);
static core_option_Option_u8 card_listing_card_listing_no_log_Fn_call(uint64_t a2);
static card_listing_Listed card_listing_list_card(list_u8 card, mut_list_u8 text);
static core_option_Option_u8 card_listing_no_log(uint64_t _knot);
static answer_Refusal core_convert_AnyFrom_from_Refusal(answer_Refusal a1);
static tuple_Slots_u8_unit_unit core_core_slice_edits_copy_over_FnOnce_call_once_u8(core_slots_Slots_u8 a2, list_u8 a4);
static uint32_t core_int_bits_i32_from_le_bytes(array_u8_4 a1);
static uint64_t core_int_i64_abs(uint64_t a1);
static uint64_t core_int_i64_unsigned_abs(uint64_t a1);
static uint16_t core_int_u16_cast_signed(uint16_t a1);
static uint16_t core_int_u16_from_le_bytes(array_u8_2 a1);
static uint16_t core_int_u16_max(uint16_t a1, uint16_t a2);
static uint16_t core_int_u16_saturating_sub(uint16_t a1, uint16_t a2);
static uint32_t core_int_u32_cast_signed(uint32_t a1);
static uint32_t core_int_u32_from_le_bytes(array_u8_4 a1);
static uint64_t core_int_usize_min(uint64_t a1, uint64_t a2);
static uint64_t core_int_usize_saturating_sub(uint64_t a1, uint64_t a2);
static void core_ptr_copy_drop_copy_bits_u8(unsigned char *a1, unsigned char *a2, uint64_t a3);
static core_result_Result_unit_Refusal core_result_ResultFromResidualErrResidual_from_residual_unit_Refusal_Refusal(core_result_ErrResidual_Refusal a1);
static core_ops_ControlFlow_ErrResidual_Refusal_unit core_result_ResultTry_branch_unit_Refusal(core_result_Result_unit_Refusal a1);
static tuple_Slots_u8_unit_unit core_slice_edits_copy_over_u8(core_slots_Slots_u8 row, list_u8 src);
static void core_slice_edits_slice_T_copy_from_slice_u8(mut_list_u8 a1, list_u8 a2);
static void core_slots_Slots_copy_in_u8(core_slots_Slots_u8 *a1, uint64_t a2, list_u8 a3);
static void core_slots_lends_with_slots_u8_unit_list_u8_unit_unit(mut_list_u8 a1, list_u8 a3);
static uint64_t decimal_magnitude(uint64_t number);
static uint64_t decimal_put_byte(mut_list_u8 text, uint64_t at, uint8_t byte);
static uint64_t decimal_put_decimal(mut_list_u8 text, uint64_t at, uint64_t number);
static uint64_t decimal_put_field(mut_list_u8 text, uint64_t at, uint64_t number, uint8_t parting);
static uint64_t decimal_put_signed(mut_list_u8 text, uint64_t at, uint64_t number);
static uint64_t decimal_put_worded(mut_list_u8 text, uint64_t at, list_u8 words, uint64_t number);
static uint64_t decimal_put_words(mut_list_u8 text, uint64_t at, list_u8 words);
static knots_Lent decode_Card_lent(const decode_Card *a1);
static decode_Card decode_Card_none(void);
static decode_Card decode_Card_of(list_u8 list);
static array_u8_4096 io_buffer(void);
static uint64_t io_clamp(uint64_t ret, uint64_t most);
static uint64_t io_min_len(uint64_t a, uint64_t b);
static uint64_t io_read_full(uint32_t fd, mut_list_u8 buf);
static bool io_write_all(uint32_t fd, list_u8 buf);
static jumps_Span jumps_Span_none(void);
static jumps_Spans jumps_Spans_none(void);
static jumps_Spans jumps_Spans_of(bool asked, uint64_t square, uint64_t h, gaps_Knot a, gaps_Knot b);
static uint64_t jumps_cleared(jumps_Order order, uint64_t h);
static uint64_t jumps_crossed(uint64_t a, uint64_t p, uint64_t b, uint64_t q);
static bool jumps_meet(jumps_Span left, jumps_Span right);
static bool jumps_over(uint64_t jump, uint64_t allowed);
static void knots_Destruct_none_drop_each_Self_list_u16_list_u16(knots_fn_stand_each_Self_list_u16_list_u16 a1);
static void knots_Destruct_none_drop_each_Self_list_u16_list_u32_list_u32(knots_fn_in_range_each_Self_list_u16_list_u32_list_u32 a1);
static knots_Kind knots_Kind_quintic(void);
static knots_Kind knots_Kind_sloped(void);
static bool knots_beyond(uint32_t limit, uint32_t z);
static core_result_Result_unit_Refusal knots_codes(knots_Kind kind, uint16_t left, uint16_t right);
static core_result_Result_unit_Refusal knots_counted(uint64_t n);
static bool knots_curvature_beyond(list_u16 xs, list_u32 cs, uint64_t i);
static uint32_t knots_curvature_limit(uint16_t gap);
static core_result_Result_unit_Refusal knots_fn_in_range_each(const knots_fn_in_range_each_Self_list_u16_list_u32_list_u32 *a1, uint64_t a2);
static core_result_Result_unit_Refusal knots_fn_in_range_each_Fn_call(const knots_fn_in_range_each_Self_list_u16_list_u32_list_u32 *a1, uint64_t a2);
static core_result_Result_unit_Refusal knots_fn_stand_each(const knots_fn_stand_each_Self_list_u16_list_u16 *a1, uint64_t a2);
static core_result_Result_unit_Refusal knots_fn_stand_each_Fn_call(const knots_fn_stand_each_Self_list_u16_list_u16 *a1, uint64_t a2);
static core_result_Result_unit_Refusal knots_in_range(list_u16 xs, list_u32 ms, list_u32 cs);
static core_result_Result_unit_Refusal knots_in_range_at(list_u16 xs, list_u32 ms, list_u32 cs, uint64_t i);
static bool knots_slope_beyond(list_u32 ms, uint64_t i);
static core_result_Result_unit_Refusal knots_stand(list_u16 xs, list_u16 ys);
static core_result_Result_unit_Refusal knots_stands_at(list_u16 xs, list_u16 ys, uint64_t i);
static uint64_t libc_read(uint32_t a1, mut_list_u8 a2);
static uint64_t libc_write(uint32_t a1, list_u8 a2);
static void lister_main(void);
static uint64_t listing_accepted_line(mut_list_u8 text, uint64_t at, uint32_t knots);
static uint64_t listing_counted_line(mut_list_u8 text, uint64_t at, uint16_t x, uint32_t y, uint32_t m, uint32_t c, uint32_t count);
static core_option_Option_u8 listing_faults_at_unit(uint64_t a2);
static uint64_t listing_four_fields(mut_list_u8 text, uint64_t at, uint16_t x, uint32_t y, uint32_t m, uint32_t c, uint8_t last);
static uint64_t listing_knot_line(mut_list_u8 text, uint64_t at, uint16_t x, uint32_t y, uint32_t m, uint32_t c);
static uint64_t listing_knot_lines_unit(mut_list_u8 a1, list_u16 a2, list_u16 a3, list_u32 a4, list_u32 a5);
static uint64_t listing_list_unit(uint32_t a1, uint32_t a2, list_u16 a3, list_u16 a4, list_u32 a5, list_u32 a6, mut_list_u8 a8);
static uint64_t listing_listed_line(mut_list_u8 text, uint64_t at, uint16_t x, uint32_t y, uint32_t m, uint32_t c, core_option_Option_u8 faults);
static uint64_t listing_refused_line(mut_list_u8 text, uint64_t at, uint32_t number, uint32_t place);
static gaps_Knot lists_Lists_knot(lists_Lists a1, uint64_t a2);
static core_result_Result_unit_Refusal lists_Lists_smooth(lists_Lists a1, knots_Kind a2, uint16_t a3, uint16_t a4);
static jumps_Spans lists_Lists_spans(lists_Lists a1, knots_Kind a2, uint64_t a3);
static bool lists_asks(knots_Kind kind, jumps_Order order, uint16_t code);
static uint16_t lists_code_at(uint16_t left, uint16_t right, uint64_t n, uint64_t i);
static bool lists_jumps_at(knots_Kind kind, jumps_Order order, uint16_t code, jumps_Span before, jumps_Span after);
static gaps_Knot lists_knot_at(list_u16 ys, list_u32 ms, list_u32 cs, uint64_t i);
static core_result_Result_unit_Refusal lists_numbers_sound(knots_Kind kind, knots_Lent card);
static core_result_Result_unit_Refusal lists_rough_at(knots_Kind kind, uint16_t code, jumps_Spans before, jumps_Spans after, uint32_t place);
static core_result_Result_unit_Refusal lists_sound(knots_Kind kind, knots_Lent card);
static uint16_t little_endian_read_i16(list_u8 list, uint64_t at);
static uint32_t little_endian_read_i32(list_u8 list, uint64_t at);
static uint16_t little_endian_read_u16(list_u8 list, uint64_t at);
static uint64_t minutes_back(uint64_t i);
static uint16_t minutes_gap(uint16_t from, uint16_t to);
static uint16_t minutes_left_gap(list_u16 xs, uint64_t i);
static uint64_t minutes_on(uint64_t n, uint64_t i);
static uint16_t minutes_right_gap(list_u16 xs, uint64_t i);
static uint16_t minutes_wider_gap(list_u16 xs, uint64_t i);
static opened_Opened opened_Opened_by_head(list_u8 card);
static opened_Opened opened_Opened_of(knots_Kind kind, list_u8 card);
static core_result_Result_unit_Refusal opened_behind_head(knots_Kind kind, list_u8 card);
static knots_Kind opened_kind_by(list_u8 card);
static core_result_Result_unit_Refusal opened_shaped(knots_Kind kind, list_u8 card);
static core_result_Result_unit_Refusal opened_sound(knots_Kind kind, const decode_Card *card);
static bool record_is_at(list_u8 list, uint64_t at, uint16_t kind, uint16_t length);

/* answer::Reason::number. Its number in the table. */
static uint32_t answer_Reason_number(answer_Reason self)
{
    return (uint32_t)self.tag + 1u;
}

/* answer::Refusal::number */
static uint32_t answer_Refusal_number(answer_Refusal self)
{
    return answer_Reason_number(self.reason);
}

/* answer::each<each+Self<list_u16,list_u16>>. "Within one step of an order the lowest place wins": a check
   at the places before n, one after the other. */
static core_result_Result_unit_Refusal answer_each_each_Self_list_u16_list_u16(uint64_t a1, knots_fn_stand_each_Self_list_u16_list_u16 a2)
{
    core_result_Result_unit_Refusal result, v9;
    uint64_t i;
    core_ops_ControlFlow_ErrResidual_Refusal_unit v8;
    i = 0ull;
    while (i < a1) {
        v9 = knots_fn_stand_each_Fn_call(&a2, i);
        v8 = core_result_ResultTry_branch_unit_Refusal(v9);
        if (v8.tag != core_ops_ControlFlow_ErrResidual_Refusal_unit_Continue) {
            result = core_result_ResultFromResidualErrResidual_from_residual_unit_Refusal_Refusal(v8.Break.f0);
            knots_Destruct_none_drop_each_Self_list_u16_list_u16(a2);
            return result;
        }
        i = i + 1ull;
    }
    result = (core_result_Result_unit_Refusal){.tag = core_result_Result_unit_Refusal_Ok};
    knots_Destruct_none_drop_each_Self_list_u16_list_u16(a2);
    return result;
}

/* answer::each<each+Self<list_u16,list_u32,list_u32>>. "Within one step of an order the lowest place
   wins": a check at the places before n, one after the other. */
static core_result_Result_unit_Refusal answer_each_each_Self_list_u16_list_u32_list_u32(uint64_t a1, knots_fn_in_range_each_Self_list_u16_list_u32_list_u32 a2)
{
    core_result_Result_unit_Refusal result, v9;
    uint64_t i;
    core_ops_ControlFlow_ErrResidual_Refusal_unit v8;
    i = 0ull;
    while (i < a1) {
        v9 = knots_fn_in_range_each_Fn_call(&a2, i);
        v8 = core_result_ResultTry_branch_unit_Refusal(v9);
        if (v8.tag != core_ops_ControlFlow_ErrResidual_Refusal_unit_Continue) {
            result = core_result_ResultFromResidualErrResidual_from_residual_unit_Refusal_Refusal(v8.Break.f0);
            knots_Destruct_none_drop_each_Self_list_u16_list_u32_list_u32(a2);
            return result;
        }
        i = i + 1ull;
    }
    result = (core_result_Result_unit_Refusal){.tag = core_result_Result_unit_Refusal_Ok};
    knots_Destruct_none_drop_each_Self_list_u16_list_u32_list_u32(a2);
    return result;
}

/* answer::each<each+Self<list_u8>>. "Within one step of an order the lowest place wins": a check at the
   places before n, one after the other. */
static core_result_Result_unit_Refusal answer_each_each_Self_list_u8(uint64_t a1, card_bytes_fn_knots_due_each_Self_list_u8 a2)
{
    core_result_Result_unit_Refusal result, v9;
    uint64_t i;
    core_ops_ControlFlow_ErrResidual_Refusal_unit v8;
    i = 0ull;
    while (i < a1) {
        v9 = card_bytes_fn_knots_due_each_Fn_call(&a2, i);
        v8 = core_result_ResultTry_branch_unit_Refusal(v9);
        if (v8.tag != core_ops_ControlFlow_ErrResidual_Refusal_unit_Continue) {
            result = core_result_ResultFromResidualErrResidual_from_residual_unit_Refusal_Refusal(v8.Break.f0);
            card_bytes_Destruct_none_drop_each_Self_list_u8(a2);
            return result;
        }
        i = i + 1ull;
    }
    result = (core_result_Result_unit_Refusal){.tag = core_result_Result_unit_Refusal_Ok};
    card_bytes_Destruct_none_drop_each_Self_list_u8(a2);
    return result;
}

/* answer::refuse. "given exactly when". */
static core_result_Result_unit_Refusal answer_refuse(answer_Reason reason, uint32_t place, bool test)
{
    if (test) {
        return (core_result_Result_unit_Refusal){.tag = core_result_Result_unit_Refusal_Err, .Err = {(answer_Refusal){reason, place}}};
    }
    return (core_result_Result_unit_Refusal){.tag = core_result_Result_unit_Refusal_Ok};
}

/* card_bytes::Destruct++none::drop<each+Self<list_u8>> */
static void card_bytes_Destruct_none_drop_each_Self_list_u8(card_bytes_fn_knots_due_each_Self_list_u8 a1)
{
    (void)a1;
    return;
}

/* card_bytes::due. A record that is due at an offset. */
static core_result_Result_unit_Refusal card_bytes_due(list_u8 list, uint64_t at, uint16_t kind, uint16_t length)
{
    bool there;
    there = record_is_at(list, at, kind, length);
    return answer_refuse((answer_Reason){.tag = answer_Reason_BadRecord}, (uint32_t)at, !there);
}

/* card_bytes::end_due. The end, and nothing that follows it. */
static core_result_Result_unit_Refusal card_bytes_end_due(list_u8 list, uint64_t n)
{
    uint64_t size;
    core_ops_ControlFlow_ErrResidual_Refusal_unit v7;
    core_result_Result_unit_Refusal v8;
    size = 14ull + (16ull * n);
    v8 = card_bytes_due(list, 10ull + (16ull * n), 3, 0);
    v7 = core_result_ResultTry_branch_unit_Refusal(v8);
    if (v7.tag != core_ops_ControlFlow_ErrResidual_Refusal_unit_Continue) {
        return core_result_ResultFromResidualErrResidual_from_residual_unit_Refusal_Refusal(v7.Break.f0);
    }
    return answer_refuse((answer_Reason){.tag = answer_Reason_BadRecord}, (uint32_t)size, size < list.length);
}

/* card_bytes::fn::knots_due::each */
static core_result_Result_unit_Refusal card_bytes_fn_knots_due_each(const card_bytes_fn_knots_due_each_Self_list_u8 *a1, uint64_t a2)
{
    return card_bytes_due(a1->f0, 10ull + (16ull * a2), 2, 12);
}

/* card_bytes::fn::knots_due::each+Fn::call */
static core_result_Result_unit_Refusal card_bytes_fn_knots_due_each_Fn_call(const card_bytes_fn_knots_due_each_Self_list_u8 *a1, uint64_t a2)
{
    return card_bytes_fn_knots_due_each(a1, a2);
}

/* card_bytes::head_due. The head of a card, of the kind that it has for such cards. */
static core_result_Result_unit_Refusal card_bytes_head_due(list_u8 list, uint16_t head)
{
    return card_bytes_due(list, 0ull, head, 6);
}

/* card_bytes::knots_due. The knots' records. */
static core_result_Result_unit_Refusal card_bytes_knots_due(list_u8 list, uint64_t n)
{
    return answer_each_each_Self_list_u8(n, (card_bytes_fn_knots_due_each_Self_list_u8){(list_u8){list.at, list.length}});
}

/* card_bytes::records_due. "the other records". */
static core_result_Result_unit_Refusal card_bytes_records_due(list_u8 list, uint64_t n)
{
    core_ops_ControlFlow_ErrResidual_Refusal_unit v5;
    core_result_Result_unit_Refusal v6;
    v6 = card_bytes_knots_due(list, n);
    v5 = core_result_ResultTry_branch_unit_Refusal(v6);
    if (v5.tag != core_ops_ControlFlow_ErrResidual_Refusal_unit_Continue) {
        return core_result_ResultFromResidualErrResidual_from_residual_unit_Refusal_Refusal(v5.Break.f0);
    }
    return card_bytes_end_due(list, n);
}

/* card_listing::Destruct++none::drop<unit> */
static void card_listing_Destruct_none_drop_unit(void)
{
    return;
}

/* card_listing::card_listing++no_log+Fn::call */
static core_option_Option_u8 card_listing_card_listing_no_log_Fn_call(uint64_t a2)
{
    return card_listing_no_log(a2);
}

/* card_listing::list_card. The listing at the front of a buffer. */
static card_listing_Listed card_listing_list_card(list_u8 card, mut_list_u8 text)
{
    uint32_t number, place;
    uint64_t length, length_10;
    knots_Lent held;
    opened_Opened v11;
    v11 = opened_Opened_by_head(card);
    if (v11.verdict.tag == core_result_Result_unit_Refusal_Err) {
        number = answer_Refusal_number(v11.verdict.Err.f0);
        place = v11.verdict.Err.f0.place;
        length = listing_list_unit(number, place, (list_u16){card_listing_list_card_v13.e, 0ull}, (list_u16){card_listing_list_card_v13.e, 0ull}, (list_u32){card_listing_list_card_v19.e, 0ull}, (list_u32){card_listing_list_card_v19.e, 0ull}, (mut_list_u8){text.at, text.length});
        return (card_listing_Listed){v11.verdict, length};
    } else {
        held = decode_Card_lent(&v11.card);
        length_10 = listing_list_unit(0u, 0u, held.minutes, held.ordinates, held.slopes, held.curvatures, (mut_list_u8){text.at, text.length});
        return (card_listing_Listed){v11.verdict, length_10};
    }
}

/* card_listing::no_log. A card says of no knot that it was a log's. */
static core_option_Option_u8 card_listing_no_log(uint64_t _knot)
{
    (void)_knot;
    return (core_option_Option_u8){.tag = core_option_Option_u8_None};
}

/* core::convert::AnyFrom::from<Refusal> */
static answer_Refusal core_convert_AnyFrom_from_Refusal(answer_Refusal a1)
{
    return a1;
}

/* core::core++slice++edits++copy_over+FnOnce::call_once<u8> */
static tuple_Slots_u8_unit_unit core_core_slice_edits_copy_over_FnOnce_call_once_u8(core_slots_Slots_u8 a2, list_u8 a4)
{
    return core_slice_edits_copy_over_u8(a2, a4);
}

/* core::int::bits::i32::from_le_bytes */
static uint32_t core_int_bits_i32_from_le_bytes(array_u8_4 a1)
{
    uint32_t v2;
    v2 = core_int_u32_from_le_bytes(a1);
    return core_int_u32_cast_signed(v2);
}

/* core::int::i64::abs */
static uint64_t core_int_i64_abs(uint64_t a1)
{
    if (s64(a1) < s64(0ull)) {
        return 0ull - a1;
    } else {
        return a1;
    }
}

/* core::int::i64::unsigned_abs */
static uint64_t core_int_i64_unsigned_abs(uint64_t a1)
{
    if (s64(a1) < s64(0ull)) {
        return (uint64_t)((uint64_t)~a1) + 1ull;
    } else {
        return (uint64_t)a1;
    }
}

/* core::int::u16::cast_signed */
static uint16_t core_int_u16_cast_signed(uint16_t a1)
{
    if (a1 <= (uint16_t)32767) {
        return (uint16_t)a1;
    } else {
        return (uint16_t)~(uint16_t)(uint16_t)((uint32_t)65535 - a1);
    }
}

/* core::int::u16::from_le_bytes */
static uint16_t core_int_u16_from_le_bytes(array_u8_2 a1)
{
    return (uint16_t)((uint32_t)(uint16_t)a1.e[0ull] + (uint16_t)((uint32_t)(uint16_t)a1.e[1ull] * 256));
}

/* core::int::u16::max */
static uint16_t core_int_u16_max(uint16_t a1, uint16_t a2)
{
    if (a2 < a1) {
        return a1;
    } else {
        return a2;
    }
}

/* core::int::u16::saturating_sub */
static uint16_t core_int_u16_saturating_sub(uint16_t a1, uint16_t a2)
{
    if (a2 <= a1) {
        return (uint16_t)((uint32_t)a1 - a2);
    } else {
        return 0;
    }
}

/* core::int::u32::cast_signed */
static uint32_t core_int_u32_cast_signed(uint32_t a1)
{
    if (a1 <= (uint32_t)2147483647u) {
        return (uint32_t)a1;
    } else {
        return (uint32_t)~(uint32_t)(4294967295u - a1);
    }
}

/* core::int::u32::from_le_bytes */
static uint32_t core_int_u32_from_le_bytes(array_u8_4 a1)
{
    return (((uint32_t)a1.e[0ull] + ((uint32_t)a1.e[1ull] * 256u)) + ((uint32_t)a1.e[2ull] * 65536u)) + ((uint32_t)a1.e[3ull] * 16777216u);
}

/* core::int::usize::min */
static uint64_t core_int_usize_min(uint64_t a1, uint64_t a2)
{
    if (a2 < a1) {
        return a2;
    } else {
        return a1;
    }
}

/* core::int::usize::saturating_sub */
static uint64_t core_int_usize_saturating_sub(uint64_t a1, uint64_t a2)
{
    if (a2 <= a1) {
        return a1 - a2;
    } else {
        return 0ull;
    }
}

/* core::ptr::copy_drop::copy_bits<u8> */
static void core_ptr_copy_drop_copy_bits_u8(unsigned char *a1, unsigned char *a2, uint64_t a3)
{
    uint64_t v4;
    v4 = 0ull;
    while (v4 < a3) {
        *((uint8_t *)(void *)(a2 + (size_t)(v4 * 1ull))) = *((uint8_t *)(void *)(a1 + (size_t)(v4 * 1ull)));
        v4 = v4 + 1ull;
    }
    return;
}

/* core::result::ResultFromResidualErrResidual::from_residual<unit,Refusal,Refusal> */
static core_result_Result_unit_Refusal core_result_ResultFromResidualErrResidual_from_residual_unit_Refusal_Refusal(core_result_ErrResidual_Refusal a1)
{
    answer_Refusal v2;
    v2 = core_convert_AnyFrom_from_Refusal(a1.f0);
    return (core_result_Result_unit_Refusal){.tag = core_result_Result_unit_Refusal_Err, .Err = {v2}};
}

/* core::result::ResultTry::branch<unit,Refusal> */
static core_ops_ControlFlow_ErrResidual_Refusal_unit core_result_ResultTry_branch_unit_Refusal(core_result_Result_unit_Refusal a1)
{
    if (a1.tag == core_result_Result_unit_Refusal_Ok) {
        return (core_ops_ControlFlow_ErrResidual_Refusal_unit){.tag = core_ops_ControlFlow_ErrResidual_Refusal_unit_Continue};
    } else {
        return (core_ops_ControlFlow_ErrResidual_Refusal_unit){.tag = core_ops_ControlFlow_ErrResidual_Refusal_unit_Break, .Break = {(core_result_ErrResidual_Refusal){a1.Err.f0}}};
    }
}

/* core::slice::edits::copy_over<u8> */
static tuple_Slots_u8_unit_unit core_slice_edits_copy_over_u8(core_slots_Slots_u8 row, list_u8 src)
{
    core_slots_Slots_copy_in_u8(&row, 0ull, src);
    return (tuple_Slots_u8_unit_unit){row};
}

/* core::slice::edits::slice+T::copy_from_slice<u8> */
static void core_slice_edits_slice_T_copy_from_slice_u8(mut_list_u8 a1, list_u8 a2)
{
    core_slots_lends_with_slots_u8_unit_list_u8_unit_unit((mut_list_u8){a1.at, a1.length}, a2);
    return;
}

/* core::slots::Slots::copy_in<u8> */
static void core_slots_Slots_copy_in_u8(core_slots_Slots_u8 *a1, uint64_t a2, list_u8 a3)
{
    core_ptr_copy_drop_copy_bits_u8((unsigned char *)a3.at, a1->ptr + (size_t)(a2 * 1ull), a3.length);
    return;
}

/* core::slots::lends::with_slots<u8,unit,list_u8,unit,unit> */
static void core_slots_lends_with_slots_u8_unit_list_u8_unit_unit(mut_list_u8 a1, list_u8 a3)
{
    (void)core_core_slice_edits_copy_over_FnOnce_call_once_u8((core_slots_Slots_u8){(unsigned char *)a1.at, a1.length}, a3);
    return;
}

/* decimal::magnitude */
static uint64_t decimal_magnitude(uint64_t number)
{
    return core_int_i64_unsigned_abs(number);
}

/* decimal::put_byte */
static uint64_t decimal_put_byte(mut_list_u8 text, uint64_t at, uint8_t byte)
{
    text.at[at] = byte;
    return at + 1ull;
}

/* decimal::put_decimal */
static uint64_t decimal_put_decimal(mut_list_u8 text, uint64_t at, uint64_t number)
{
    uint8_t digit;
    uint64_t next;
    digit = (uint8_t)((uint32_t)48 + (uint8_t)(number % 10ull));
    if (number < 10ull) {
        return decimal_put_byte((mut_list_u8){text.at, text.length}, at, digit);
    }
    next = decimal_put_decimal((mut_list_u8){text.at, text.length}, at, number / 10ull);
    return decimal_put_byte((mut_list_u8){text.at, text.length}, next, digit);
}

/* decimal::put_field. A number, and the byte that parts it from the next one or ends the line. */
static uint64_t decimal_put_field(mut_list_u8 text, uint64_t at, uint64_t number, uint8_t parting)
{
    uint64_t next;
    next = decimal_put_signed((mut_list_u8){text.at, text.length}, at, number);
    return decimal_put_byte((mut_list_u8){text.at, text.length}, next, parting);
}

/* decimal::put_signed */
static uint64_t decimal_put_signed(mut_list_u8 text, uint64_t at, uint64_t number)
{
    uint64_t next, v10, v13;
    mut_list_u8 v9, v12;
    if (s64(number) < s64(0ull)) {
        next = decimal_put_byte((mut_list_u8){text.at, text.length}, at, 45);
        v9 = (mut_list_u8){text.at, text.length};
        v10 = decimal_magnitude(number);
        return decimal_put_decimal(v9, next, v10);
    }
    v12 = (mut_list_u8){text.at, text.length};
    v13 = decimal_magnitude(number);
    return decimal_put_decimal(v12, at, v13);
}

/* decimal::put_worded. Words, and a number behind them. */
static uint64_t decimal_put_worded(mut_list_u8 text, uint64_t at, list_u8 words, uint64_t number)
{
    uint64_t next;
    next = decimal_put_words((mut_list_u8){text.at, text.length}, at, words);
    return decimal_put_decimal((mut_list_u8){text.at, text.length}, next, number);
}

/* decimal::put_words */
static uint64_t decimal_put_words(mut_list_u8 text, uint64_t at, list_u8 words)
{
    uint64_t end;
    end = at + words.length;
    core_slice_edits_slice_T_copy_from_slice_u8((mut_list_u8){&text.at[at], end - at}, words);
    return end;
}

/* decode::Card::lent. Its lists, as long as it has knots, and the codes of its ends. */
static knots_Lent decode_Card_lent(const decode_Card *a1)
{
    uint64_t n;
    n = a1->knots;
    return (knots_Lent){(list_u16){a1->minutes.e, n}, (list_u16){a1->ordinates.e, n}, (list_u32){a1->slopes.e, n}, (list_u32){a1->curvatures.e, n}, a1->left, a1->right};
}

/* decode::Card::none. Of no knots. */
static decode_Card decode_Card_none(void)
{
    array_u16_64 v1, v2;
    array_u32_64 v3, v4;
    for (size_t n_ = 0; n_ < 64; n_++)
        v1.e[n_] = 0;
    for (size_t n_ = 0; n_ < 64; n_++)
        v2.e[n_] = 0;
    for (size_t n_ = 0; n_ < 64; n_++)
        v3.e[n_] = 0u;
    for (size_t n_ = 0; n_ < 64; n_++)
        v4.e[n_] = 0u;
    return (decode_Card){0ull, 0, 0, v1, v2, v3, v4};
}

/* decode::Card::of. Of bytes that have a head, no more knots than there is place for, and a record for
   each. */
static decode_Card decode_Card_of(list_u8 list)
{
    uint64_t n, i, at;
    array_u16_64 minutes, ordinates;
    array_u32_64 slopes, curvatures;
    uint16_t v9, v12, v16, v24;
    uint32_t v19;
    v9 = little_endian_read_u16(list, 4ull);
    n = (uint64_t)v9;
    for (size_t n_ = 0; n_ < 64; n_++)
        minutes.e[n_] = 0;
    for (size_t n_ = 0; n_ < 64; n_++)
        ordinates.e[n_] = 0;
    for (size_t n_ = 0; n_ < 64; n_++)
        slopes.e[n_] = 0u;
    for (size_t n_ = 0; n_ < 64; n_++)
        curvatures.e[n_] = 0u;
    i = 0ull;
    while (i < n) {
        at = 10ull + (16ull * i);
        v12 = little_endian_read_u16(list, at + 4ull);
        minutes.e[i] = v12;
        v16 = little_endian_read_i16(list, at + 6ull);
        ordinates.e[i] = v16;
        v19 = little_endian_read_i32(list, at + 8ull);
        slopes.e[i] = v19;
        v19 = little_endian_read_i32(list, at + 12ull);
        curvatures.e[i] = v19;
        i = i + 1ull;
    }
    v9 = little_endian_read_u16(list, 6ull);
    v24 = little_endian_read_u16(list, 8ull);
    return (decode_Card){n, v9, v24, minutes, ordinates, slopes, curvatures};
}

/* io::buffer. 4,096 zeros, which hold any path (`libc::PATH_MAX`). The `ensures` gives only the length,
   which lending the array as a slice needs. */
static array_u8_4096 io_buffer(void)
{
    array_u8_4096 result;
    for (size_t n_ = 0; n_ < 4096; n_++)
        result.e[n_] = 0;
    return result;
}

/* io::clamp. `ret` brought into `0..=most`. */
static uint64_t io_clamp(uint64_t ret, uint64_t most)
{
    if (s64(0ull) < s64(ret)) {
        return io_min_len((uint64_t)ret, most);
    } else {
        return 0ull;
    }
}

/* io::min_len */
static uint64_t io_min_len(uint64_t a, uint64_t b)
{
    if (a < b) {
        return a;
    } else {
        return b;
    }
}

/* io::read_full. Reads until buf is full, the input ends or a read fails, and returns how many bytes it
   put at the start of buf. On an empty buf it makes no call. */
static uint64_t io_read_full(uint32_t fd, mut_list_u8 buf)
{
    uint64_t done, most, n, v8;
    done = 0ull;
    while (done < buf.length) {
        most = buf.length - done;
        v8 = libc_read(fd, (mut_list_u8){&buf.at[done], buf.length - done});
        n = io_clamp(v8, most);
        if (n == 0ull) {
            break;
        }
        done = done + n;
    }
    return done;
}

/* io::write_all. Writes all of buf and returns true, or stops at the first write that takes nothing or
   fails and returns false, when some of buf may have been written. On an empty buf it makes no call. */
static bool io_write_all(uint32_t fd, list_u8 buf)
{
    uint64_t done, n, v7;
    done = 0ull;
    while (done < buf.length) {
        v7 = libc_write(fd, (list_u8){&buf.at[done], buf.length - done});
        n = io_clamp(v7, buf.length - done);
        if (n == 0ull) {
            return false;
        }
        done = done + n;
    }
    return true;
}

/* jumps::Span::none. Of no gap, or of a derivative that is not asked. */
static jumps_Span jumps_Span_none(void)
{
    return (jumps_Span){0ull, 0ull, 1ull, 0ull};
}

/* jumps::Spans::none. Of no gap, before the first knot. */
static jumps_Spans jumps_Spans_none(void)
{
    jumps_Span span;
    span = jumps_Span_none();
    return (jumps_Spans){span, span};
}

/* jumps::Spans::of. From knot a to knot b, with the fourth where it is asked; `square` is the first number
   of the third's allowance. */
static jumps_Spans jumps_Spans_of(bool asked, uint64_t square, uint64_t h, gaps_Knot a, gaps_Knot b)
{
    uint64_t rise, s, s1, area, v, v1, ahead, behind, leeway, cube, ahead4, behind4, leeway4, fourth;
    jumps_Span third, v30;
    rise = 4096ull * (b.ordinate - a.ordinate);
    s = a.slope * h;
    s1 = b.slope * h;
    area = h * h;
    v = a.curvature * area;
    v1 = b.curvature * area;
    ahead = ((20ull * rise) - ((12ull * s) + (8ull * s1))) - ((3ull * v) - v1);
    behind = (((12ull * s1) + (8ull * s)) - (20ull * rise)) - ((3ull * v1) - v);
    leeway = (square + (4ull * h)) * h;
    cube = jumps_cleared((jumps_Order){.tag = jumps_Order_Third}, h);
    third = (jumps_Span){ahead, behind, cube, leeway};
    if (!asked) {
        v30 = jumps_Span_none();
        return (jumps_Spans){third, v30};
    }
    ahead4 = (((16ull * s) + (14ull * s1)) + ((3ull * v) - (2ull * v1))) - (30ull * rise);
    behind4 = (((16ull * s1) + (14ull * s)) - ((3ull * v1) - (2ull * v))) - (30ull * rise);
    leeway4 = (20ull + (4ull * h)) * h;
    fourth = jumps_cleared((jumps_Order){.tag = jumps_Order_Fourth}, h);
    return (jumps_Spans){third, (jumps_Span){ahead4, behind4, fourth, leeway4}};
}

/* jumps::cleared. What clears a side of its fraction: h^3 or h^4, and 1 where there is no gap. */
static uint64_t jumps_cleared(jumps_Order order, uint64_t h)
{
    if (s64(h) < s64(1ull)) {
        return 1ull;
    }
    if (order.tag == jumps_Order_Third) {
        return (h * h) * h;
    } else {
        return ((h * h) * h) * h;
    }
}

/* jumps::crossed. Two fractions brought over each other's denominators, and added. */
static uint64_t jumps_crossed(uint64_t a, uint64_t p, uint64_t b, uint64_t q)
{
    return (a * p) + (b * q);
}

/* jumps::meet. Whether a derivative jumps by more than its allowance where two gaps meet. */
static bool jumps_meet(jumps_Span left, jumps_Span right)
{
    uint64_t v3, v4;
    v3 = jumps_crossed(right.ahead, left.clears, left.behind, right.clears);
    v4 = jumps_crossed(right.leeway, left.clears, left.leeway, right.clears);
    return jumps_over(v3, v4);
}

/* jumps::over. Whether a jump, of either sign, is over what is allowed. */
static bool jumps_over(uint64_t jump, uint64_t allowed)
{
    uint64_t v3;
    v3 = core_int_i64_abs(jump);
    return s64(allowed) < s64(v3);
}

/* knots::Destruct++none::drop<each+Self<list_u16,list_u16>> */
static void knots_Destruct_none_drop_each_Self_list_u16_list_u16(knots_fn_stand_each_Self_list_u16_list_u16 a1)
{
    (void)a1;
    return;
}

/* knots::Destruct++none::drop<each+Self<list_u16,list_u32,list_u32>> */
static void knots_Destruct_none_drop_each_Self_list_u16_list_u32_list_u32(knots_fn_in_range_each_Self_list_u16_list_u32_list_u32 a1)
{
    (void)a1;
    return;
}

/* knots::Kind::quintic */
static knots_Kind knots_Kind_quintic(void)
{
    return (knots_Kind){1, 2, 16, true};
}

/* knots::Kind::sloped. Document 02, order 8: the slopes are given. */
static knots_Kind knots_Kind_sloped(void)
{
    return (knots_Kind){6, 0, 0, false};
}

/* knots::beyond. Beyond a limit, on either side. */
static bool knots_beyond(uint32_t limit, uint32_t z)
{
    bool v3;
    v3 = s32(z) < s32(0u - limit);
    if (!v3) {
        v3 = s32(limit) < s32(z);
    }
    return v3;
}

/* knots::codes. 15. */
static core_result_Result_unit_Refusal knots_codes(knots_Kind kind, uint16_t left, uint16_t right)
{
    core_ops_ControlFlow_ErrResidual_Refusal_unit v6;
    core_result_Result_unit_Refusal v7;
    v7 = answer_refuse((answer_Reason){.tag = answer_Reason_UnknownCode}, 0u, kind.code < left);
    v6 = core_result_ResultTry_branch_unit_Refusal(v7);
    if (v6.tag != core_ops_ControlFlow_ErrResidual_Refusal_unit_Continue) {
        return core_result_ResultFromResidualErrResidual_from_residual_unit_Refusal_Refusal(v6.Break.f0);
    }
    return answer_refuse((answer_Reason){.tag = answer_Reason_UnknownCode}, 1u, kind.code < right);
}

/* knots::counted. 1, 2. */
static core_result_Result_unit_Refusal knots_counted(uint64_t n)
{
    core_ops_ControlFlow_ErrResidual_Refusal_unit v4;
    core_result_Result_unit_Refusal v5;
    v5 = answer_refuse((answer_Reason){.tag = answer_Reason_FewKnots}, 0u, n < 3ull);
    v4 = core_result_ResultTry_branch_unit_Refusal(v5);
    if (v4.tag != core_ops_ControlFlow_ErrResidual_Refusal_unit_Continue) {
        return core_result_ResultFromResidualErrResidual_from_residual_unit_Refusal_Refusal(v4.Break.f0);
    }
    return answer_refuse((answer_Reason){.tag = answer_Reason_ManyKnots}, 0u, 64ull < n);
}

/* knots::curvature_beyond */
static bool knots_curvature_beyond(list_u16 xs, list_u32 cs, uint64_t i)
{
    uint32_t v4;
    uint16_t v5;
    v5 = minutes_wider_gap(xs, i);
    v4 = knots_curvature_limit(v5);
    return knots_beyond(v4, cs.at[i]);
}

/* knots::curvature_limit. By the wider of the gaps beside the knot. */
static uint32_t knots_curvature_limit(uint16_t gap)
{
    (void)gap;
    return 1048576u;
}

/* knots::fn::in_range::each */
static core_result_Result_unit_Refusal knots_fn_in_range_each(const knots_fn_in_range_each_Self_list_u16_list_u32_list_u32 *a1, uint64_t a2)
{
    return knots_in_range_at(a1->f0, a1->f1, a1->f2, a2);
}

/* knots::fn::in_range::each+Fn::call */
static core_result_Result_unit_Refusal knots_fn_in_range_each_Fn_call(const knots_fn_in_range_each_Self_list_u16_list_u32_list_u32 *a1, uint64_t a2)
{
    return knots_fn_in_range_each(a1, a2);
}

/* knots::fn::stand::each */
static core_result_Result_unit_Refusal knots_fn_stand_each(const knots_fn_stand_each_Self_list_u16_list_u16 *a1, uint64_t a2)
{
    return knots_stands_at(a1->f0, a1->f1, a2);
}

/* knots::fn::stand::each+Fn::call */
static core_result_Result_unit_Refusal knots_fn_stand_each_Fn_call(const knots_fn_stand_each_Self_list_u16_list_u16 *a1, uint64_t a2)
{
    return knots_fn_stand_each(a1, a2);
}

/* knots::in_range. Knot by knot, whatever the ordinates and the codes. */
static core_result_Result_unit_Refusal knots_in_range(list_u16 xs, list_u32 ms, list_u32 cs)
{
    return answer_each_each_Self_list_u16_list_u32_list_u32(xs.length, (knots_fn_in_range_each_Self_list_u16_list_u32_list_u32){(list_u16){xs.at, xs.length}, (list_u32){ms.at, ms.length}, (list_u32){cs.at, cs.length}});
}

/* knots::in_range_at. At a knot. */
static core_result_Result_unit_Refusal knots_in_range_at(list_u16 xs, list_u32 ms, list_u32 cs, uint64_t i)
{
    bool beyond, v6;
    v6 = knots_slope_beyond(ms, i);
    if (!v6) {
        v6 = knots_curvature_beyond(xs, cs, i);
    }
    beyond = v6;
    return answer_refuse((answer_Reason){.tag = answer_Reason_OutOfRange}, (uint32_t)i, beyond);
}

/* knots::slope_beyond */
static bool knots_slope_beyond(list_u32 ms, uint64_t i)
{
    return knots_beyond(1048576u, ms.at[i]);
}

/* knots::stand. Knot by knot. */
static core_result_Result_unit_Refusal knots_stand(list_u16 xs, list_u16 ys)
{
    return answer_each_each_Self_list_u16_list_u16(xs.length, (knots_fn_stand_each_Self_list_u16_list_u16){(list_u16){xs.at, xs.length}, (list_u16){ys.at, ys.length}});
}

/* knots::stands_at. At a knot. */
static core_result_Result_unit_Refusal knots_stands_at(list_u16 xs, list_u16 ys, uint64_t i)
{
    uint32_t place;
    bool falls, v11, v12;
    uint16_t v8;
    core_ops_ControlFlow_ErrResidual_Refusal_unit v20, v23;
    core_result_Result_unit_Refusal v21;
    place = (uint32_t)i;
    v12 = 0ull < i;
    if (v12) {
        v12 = xs.at[i] <= (xs.at[i - 1ull]);
    }
    falls = v12;
    v21 = answer_refuse((answer_Reason){.tag = answer_Reason_NotRising}, place, falls);
    v20 = core_result_ResultTry_branch_unit_Refusal(v21);
    if (v20.tag != core_ops_ControlFlow_ErrResidual_Refusal_unit_Continue) {
        return core_result_ResultFromResidualErrResidual_from_residual_unit_Refusal_Refusal(v20.Break.f0);
    }
    v8 = minutes_left_gap(xs, i);
    v21 = answer_refuse((answer_Reason){.tag = answer_Reason_WideGap}, place, 60 < v8);
    v23 = core_result_ResultTry_branch_unit_Refusal(v21);
    if (v23.tag != core_ops_ControlFlow_ErrResidual_Refusal_unit_Continue) {
        return core_result_ResultFromResidualErrResidual_from_residual_unit_Refusal_Refusal(v23.Break.f0);
    }
    v11 = knots_beyond(20000u, (uint32_t)s16(ys.at[i]));
    return answer_refuse((answer_Reason){.tag = answer_Reason_FarOrdinate}, place, v11);
}

/* libc::read */
static uint64_t libc_read(uint32_t a1, mut_list_u8 a2)
{
    return (uint64_t)(int64_t)read(s32(a1), (void *)a2.at, (size_t)a2.length);
}

/* libc::write */
static uint64_t libc_write(uint32_t a1, list_u8 a2)
{
    return (uint64_t)(int64_t)write(s32(a1), (const void *)a2.at, (size_t)a2.length);
}

/* lister::main. A card of 64 knots has 1,038 bytes, and what follows a card is told by its first byte, so
   a buffer of 4,096 bytes holds all that counts. */
static void lister_main(void)
{
    array_u8_4096 card, text, v6;
    uint64_t n, length;
    card_listing_Listed listed;
    v6 = io_buffer();
    card = v6;
    n = io_read_full(0u, (mut_list_u8){card.e, 4096ull});
    v6 = io_buffer();
    text = v6;
    listed = card_listing_list_card((list_u8){card.e, n}, (mut_list_u8){text.e, 4096ull});
    length = listed.length;
    (void)io_write_all(1u, (list_u8){text.e, length});
    return;
}

/* listing::accepted_line. "then `ok n`". */
static uint64_t listing_accepted_line(mut_list_u8 text, uint64_t at, uint32_t knots)
{
    uint64_t next;
    next = decimal_put_worded((mut_list_u8){text.at, text.length}, at, (list_u8){listing_accepted_line_v7.e, 3ull}, (uint64_t)knots);
    return decimal_put_byte((mut_list_u8){text.at, text.length}, next, 10);
}

/* listing::counted_line. A count behind the four: a log's faults, or the looks for a reading. */
static uint64_t listing_counted_line(mut_list_u8 text, uint64_t at, uint16_t x, uint32_t y, uint32_t m, uint32_t c, uint32_t count)
{
    uint64_t next;
    next = listing_four_fields((mut_list_u8){text.at, text.length}, at, x, y, m, c, 32);
    return decimal_put_field((mut_list_u8){text.at, text.length}, next, (uint64_t)count, 10);
}

/* listing::faults_at<unit>. What is answered, when the faults of a knot are asked for. */
static core_option_Option_u8 listing_faults_at_unit(uint64_t a2)
{
    return card_listing_card_listing_no_log_Fn_call(a2);
}

/* listing::four_fields. A knot's four numbers, and a byte behind the last. */
static uint64_t listing_four_fields(mut_list_u8 text, uint64_t at, uint16_t x, uint32_t y, uint32_t m, uint32_t c, uint8_t last)
{
    uint64_t after_x, after_y, after_m;
    after_x = decimal_put_field((mut_list_u8){text.at, text.length}, at, (uint64_t)x, 32);
    after_y = decimal_put_field((mut_list_u8){text.at, text.length}, after_x, (uint64_t)s32(y), 32);
    after_m = decimal_put_field((mut_list_u8){text.at, text.length}, after_y, (uint64_t)s32(m), 32);
    return decimal_put_field((mut_list_u8){text.at, text.length}, after_m, (uint64_t)s32(c), last);
}

/* listing::knot_line */
static uint64_t listing_knot_line(mut_list_u8 text, uint64_t at, uint16_t x, uint32_t y, uint32_t m, uint32_t c)
{
    return listing_four_fields((mut_list_u8){text.at, text.length}, at, x, y, m, c, 10);
}

/* listing::knot_lines<unit> */
static uint64_t listing_knot_lines_unit(mut_list_u8 a1, list_u16 a2, list_u16 a3, list_u32 a4, list_u32 a5)
{
    uint64_t result, next, i, v10;
    mut_list_u8 v13;
    uint16_t v16;
    uint32_t v20, v23, v26;
    core_option_Option_u8 v27;
    next = 0ull;
    i = 0ull;
    v10 = a2.length;
    while (i < v10) {
        v13 = (mut_list_u8){a1.at, a1.length};
        v16 = a2.at[i];
        v20 = (uint32_t)s16(a3.at[i]);
        v23 = a4.at[i];
        v26 = a5.at[i];
        v27 = listing_faults_at_unit(i);
        next = listing_listed_line(v13, next, v16, v20, v23, v26, v27);
        i = i + 1ull;
    }
    result = next;
    card_listing_Destruct_none_drop_unit();
    return result;
}

/* listing::list<unit>. The whole listing at the front of a buffer, and its length, by the number and place
   that a struct has which C receives: the line of a knot has at most 60 bytes, the last line at most 33.
   The faults are asked for, knot by knot: whoever has a list of them hands on `|i|
   list.get(i).copied().flatten()`. */
static uint64_t listing_list_unit(uint32_t a1, uint32_t a2, list_u16 a3, list_u16 a4, list_u32 a5, list_u32 a6, mut_list_u8 a8)
{
    uint64_t result, next;
    if (a1 != 0u) {
        result = listing_refused_line((mut_list_u8){a8.at, a8.length}, 0ull, a1, a2);
        card_listing_Destruct_none_drop_unit();
        return result;
    }
    next = listing_knot_lines_unit((mut_list_u8){a8.at, a8.length}, a3, a4, a5, a6);
    return listing_accepted_line((mut_list_u8){a8.at, a8.length}, next, (uint32_t)a3.length);
}

/* listing::listed_line. A log's line has its faults behind the curvature, and no other knot's has any. */
static uint64_t listing_listed_line(mut_list_u8 text, uint64_t at, uint16_t x, uint32_t y, uint32_t m, uint32_t c, core_option_Option_u8 faults)
{
    uint8_t count;
    if (faults.tag == core_option_Option_u8_None) {
        return listing_knot_line((mut_list_u8){text.at, text.length}, at, x, y, m, c);
    } else {
        count = faults.Some.f0;
        return listing_counted_line((mut_list_u8){text.at, text.length}, at, x, y, m, c, (uint32_t)count);
    }
}

/* listing::refused_line. "or one line `refused NUMBER at PLACE`". */
static uint64_t listing_refused_line(mut_list_u8 text, uint64_t at, uint32_t number, uint32_t place)
{
    uint64_t after_number, after_place;
    after_number = decimal_put_worded((mut_list_u8){text.at, text.length}, at, (list_u8){listing_refused_line_v9.e, 8ull}, (uint64_t)number);
    after_place = decimal_put_worded((mut_list_u8){text.at, text.length}, after_number, (list_u8){listing_refused_line_v15.e, 4ull}, (uint64_t)place);
    return decimal_put_byte((mut_list_u8){text.at, text.length}, after_place, 10);
}

/* lists::Lists::knot */
static gaps_Knot lists_Lists_knot(lists_Lists a1, uint64_t a2)
{
    return lists_knot_at(a1.ordinates, a1.slopes, a1.curvatures, a2);
}

/* lists::Lists::smooth */
static core_result_Result_unit_Refusal lists_Lists_smooth(lists_Lists a1, knots_Kind a2, uint16_t a3, uint16_t a4)
{
    uint64_t v5, v7;
    jumps_Spans v6, v9;
    uint16_t v8;
    core_ops_ControlFlow_ErrResidual_Refusal_unit v14;
    core_result_Result_unit_Refusal v15;
    v5 = a1.minutes.length;
    v6 = jumps_Spans_none();
    v7 = 0ull;
    while (v7 < v5) {
        v8 = lists_code_at(a3, a4, v5, v7);
        v9 = lists_Lists_spans(a1, a2, v7);
        v15 = lists_rough_at(a2, v8, v6, v9, (uint32_t)v7);
        v14 = core_result_ResultTry_branch_unit_Refusal(v15);
        if (v14.tag != core_ops_ControlFlow_ErrResidual_Refusal_unit_Continue) {
            return core_result_ResultFromResidualErrResidual_from_residual_unit_Refusal_Refusal(v14.Break.f0);
        }
        v6 = v9;
        v7 = v7 + 1ull;
    }
    return (core_result_Result_unit_Refusal){.tag = core_result_Result_unit_Refusal_Ok};
}

/* lists::Lists::spans */
static jumps_Spans lists_Lists_spans(lists_Lists a1, knots_Kind a2, uint64_t a3)
{
    gaps_Knot v4, v12;
    uint64_t v7;
    uint16_t v9;
    v7 = minutes_on(a1.minutes.length, a3);
    v4 = lists_Lists_knot(a1, v7);
    v9 = minutes_right_gap(a1.minutes, a3);
    v12 = lists_Lists_knot(a1, a3);
    return jumps_Spans_of(a2.fourth, (uint64_t)a2.squares, (uint64_t)v9, v12, v4);
}

/* lists::asks. "At a free end both; with code 2 the fourth only; with code 1 nothing". */
static bool lists_asks(knots_Kind kind, jumps_Order order, uint16_t code)
{
    bool v5, v6;
    if (order.tag == jumps_Order_Third) {
        return code == 0;
    } else {
        v5 = kind.fourth;
        if (v5) {
            v6 = code == 0;
            if (!v6) {
                v6 = code == 2;
            }
            v5 = v6;
        }
        return v5;
    }
}

/* lists::code_at. The code by which a knot is tested. An inner knot is tested as a free end is. */
static uint16_t lists_code_at(uint16_t left, uint16_t right, uint64_t n, uint64_t i)
{
    if (i == 0ull) {
        return left;
    } else {
        if (i == (n - 1ull)) {
            return right;
        } else {
            return 0;
        }
    }
}

/* lists::jumps_at. Whether a derivative jumps at a knot between two gaps where its code asks for it. */
static bool lists_jumps_at(knots_Kind kind, jumps_Order order, uint16_t code, jumps_Span before, jumps_Span after)
{
    bool v6;
    v6 = lists_asks(kind, order, code);
    if (v6) {
        v6 = jumps_meet(before, after);
    }
    return v6;
}

/* lists::knot_at. A knot's numbers, as wide as the curve's arithmetic takes them. */
static gaps_Knot lists_knot_at(list_u16 ys, list_u32 ms, list_u32 cs, uint64_t i)
{
    return (gaps_Knot){(uint64_t)s16(ys.at[i]), (uint64_t)s32(ms.at[i]), (uint64_t)s32(cs.at[i])};
}

/* lists::numbers_sound. "9; 10", of lists that 4, 5 and 6 accept. */
static core_result_Result_unit_Refusal lists_numbers_sound(knots_Kind kind, knots_Lent card)
{
    core_ops_ControlFlow_ErrResidual_Refusal_unit v6;
    core_result_Result_unit_Refusal v7;
    v7 = knots_in_range(card.minutes, card.slopes, card.curvatures);
    v6 = core_result_ResultTry_branch_unit_Refusal(v7);
    if (v6.tag != core_ops_ControlFlow_ErrResidual_Refusal_unit_Continue) {
        return core_result_ResultFromResidualErrResidual_from_residual_unit_Refusal_Refusal(v6.Break.f0);
    }
    return lists_Lists_smooth((lists_Lists){card.minutes, card.ordinates, card.slopes, card.curvatures}, kind, card.left, card.right);
}

/* lists::rough_at. At a knot between two gaps. */
static core_result_Result_unit_Refusal lists_rough_at(knots_Kind kind, uint16_t code, jumps_Spans before, jumps_Spans after, uint32_t place)
{
    bool jumps, v7;
    v7 = lists_jumps_at(kind, (jumps_Order){.tag = jumps_Order_Third}, code, before.third, after.third);
    if (!v7) {
        v7 = lists_jumps_at(kind, (jumps_Order){.tag = jumps_Order_Fourth}, code, before.fourth, after.fourth);
    }
    jumps = v7;
    return answer_refuse((answer_Reason){.tag = answer_Reason_Jump}, place, jumps);
}

/* lists::sound. "Per knot 4, 5, 6; 9; 10." */
static core_result_Result_unit_Refusal lists_sound(knots_Kind kind, knots_Lent card)
{
    core_ops_ControlFlow_ErrResidual_Refusal_unit v5;
    core_result_Result_unit_Refusal v6;
    v6 = knots_stand(card.minutes, card.ordinates);
    v5 = core_result_ResultTry_branch_unit_Refusal(v6);
    if (v5.tag != core_ops_ControlFlow_ErrResidual_Refusal_unit_Continue) {
        return core_result_ResultFromResidualErrResidual_from_residual_unit_Refusal_Refusal(v5.Break.f0);
    }
    return lists_numbers_sound(kind, card);
}

/* little_endian::read_i16 */
static uint16_t little_endian_read_i16(list_u8 list, uint64_t at)
{
    uint16_t v3;
    v3 = little_endian_read_u16(list, at);
    return core_int_u16_cast_signed(v3);
}

/* little_endian::read_i32 */
static uint32_t little_endian_read_i32(list_u8 list, uint64_t at)
{
    return core_int_bits_i32_from_le_bytes((array_u8_4){{list.at[at], list.at[at + 1ull], list.at[at + 2ull], list.at[at + 3ull]}});
}

/* little_endian::read_u16. One function for each type: a trait over them would repeat in each impl the
   line that its function is. */
static uint16_t little_endian_read_u16(list_u8 list, uint64_t at)
{
    return core_int_u16_from_le_bytes((array_u8_2){{list.at[at], list.at[at + 1ull]}});
}

/* minutes::back. The place before; at the first knot its own. */
static uint64_t minutes_back(uint64_t i)
{
    return core_int_usize_saturating_sub(i, 1ull);
}

/* minutes::gap. From one minute to another; 0 where it is not after. */
static uint16_t minutes_gap(uint16_t from, uint16_t to)
{
    return core_int_u16_saturating_sub(to, from);
}

/* minutes::left_gap. The gap on the left of a knot; 0 at the first. */
static uint16_t minutes_left_gap(list_u16 xs, uint64_t i)
{
    uint64_t before;
    before = minutes_back(i);
    return minutes_gap(xs.at[before], xs.at[i]);
}

/* minutes::on. The place after, of n; at the last knot its own. */
static uint64_t minutes_on(uint64_t n, uint64_t i)
{
    return core_int_usize_min(i + 1ull, n - 1ull);
}

/* minutes::right_gap. The gap on the right of a knot; 0 at the last. */
static uint16_t minutes_right_gap(list_u16 xs, uint64_t i)
{
    uint64_t after;
    after = minutes_on(xs.length, i);
    return minutes_gap(xs.at[i], xs.at[after]);
}

/* minutes::wider_gap. The wider of the gaps beside a knot. */
static uint16_t minutes_wider_gap(list_u16 xs, uint64_t i)
{
    uint16_t v3, v4;
    v3 = minutes_left_gap(xs, i);
    v4 = minutes_right_gap(xs, i);
    return core_int_u16_max(v3, v4);
}

/* opened::Opened::by_head. The head says what kind of card it is. */
static opened_Opened opened_Opened_by_head(list_u8 card)
{
    knots_Kind v2;
    v2 = opened_kind_by(card);
    return opened_Opened_of(v2, card);
}

/* opened::Opened::of. As a card of a kind, with that kind's head. */
static opened_Opened opened_Opened_of(knots_Kind kind, list_u8 card)
{
    core_result_Result_unit_Refusal v5, v10;
    decode_Card v8, v9;
    v5 = opened_shaped(kind, card);
    if (v5.tag == core_result_Result_unit_Refusal_Err) {
        v8 = decode_Card_none();
        return (opened_Opened){(core_result_Result_unit_Refusal){.tag = core_result_Result_unit_Refusal_Err, .Err = {v5.Err.f0}}, kind, v8};
    } else {
        v9 = decode_Card_of(card);
        v10 = opened_sound(kind, &v9);
        return (opened_Opened){v10, kind, v9};
    }
}

/* opened::behind_head. 1, 2; 15; the other records 14. */
static core_result_Result_unit_Refusal opened_behind_head(knots_Kind kind, list_u8 card)
{
    uint64_t n;
    uint16_t left, right, v10;
    core_ops_ControlFlow_ErrResidual_Refusal_unit v11, v13;
    core_result_Result_unit_Refusal v12;
    v10 = little_endian_read_u16(card, 4ull);
    n = (uint64_t)v10;
    left = little_endian_read_u16(card, 6ull);
    right = little_endian_read_u16(card, 8ull);
    v12 = knots_counted(n);
    v11 = core_result_ResultTry_branch_unit_Refusal(v12);
    if (v11.tag != core_ops_ControlFlow_ErrResidual_Refusal_unit_Continue) {
        return core_result_ResultFromResidualErrResidual_from_residual_unit_Refusal_Refusal(v11.Break.f0);
    }
    v12 = knots_codes(kind, left, right);
    v13 = core_result_ResultTry_branch_unit_Refusal(v12);
    if (v13.tag != core_ops_ControlFlow_ErrResidual_Refusal_unit_Continue) {
        return core_result_ResultFromResidualErrResidual_from_residual_unit_Refusal_Refusal(v13.Break.f0);
    }
    return card_bytes_records_due(card, n);
}

/* opened::kind_by. Order 8's kind where its head stands; else document 01's, whose head is then due. */
static knots_Kind opened_kind_by(list_u8 card)
{
    knots_Kind sloped;
    bool v3;
    sloped = knots_Kind_sloped();
    v3 = record_is_at(card, 0ull, sloped.head, 6);
    if (v3) {
        return sloped;
    }
    return knots_Kind_quintic();
}

/* opened::shaped. Head 14 before them. */
static core_result_Result_unit_Refusal opened_shaped(knots_Kind kind, list_u8 card)
{
    core_ops_ControlFlow_ErrResidual_Refusal_unit v5;
    core_result_Result_unit_Refusal v6;
    v6 = card_bytes_head_due(card, kind.head);
    v5 = core_result_ResultTry_branch_unit_Refusal(v6);
    if (v5.tag != core_ops_ControlFlow_ErrResidual_Refusal_unit_Continue) {
        return core_result_ResultFromResidualErrResidual_from_residual_unit_Refusal_Refusal(v5.Break.f0);
    }
    return opened_behind_head(kind, card);
}

/* opened::sound. Per knot 4, 5, 6; 9; 10, of a card that was decoded. */
static core_result_Result_unit_Refusal opened_sound(knots_Kind kind, const decode_Card *card)
{
    knots_Lent v3;
    v3 = decode_Card_lent(card);
    return lists_sound(kind, v3);
}

/* record::is_at. Whether a whole record of the kind and the length stands at an offset, which may be any. */
static bool record_is_at(list_u8 list, uint64_t at, uint16_t kind, uint16_t length)
{
    bool v5, v6, v7;
    uint16_t v13, v14;
    v7 = at <= list.length;
    if (v7) {
        v7 = (4ull + (uint64_t)length) <= (list.length - at);
    }
    v6 = v7;
    if (v6) {
        v13 = little_endian_read_u16(list, at);
        v6 = v13 == length;
    }
    v5 = v6;
    if (v5) {
        v14 = little_endian_read_u16(list, at + 2ull);
        v5 = v14 == kind;
    }
    return v5;
}

int main(int argc, char **argv)
{
    (void)argc;
    (void)argv;
    lister_main();
    return 0;
}
