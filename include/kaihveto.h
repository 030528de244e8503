/* kaihveto.h: the curves of a drying hall's set points, for C and C++ on any processor whose double is binary64.

   There are two ways to link it, and they answer alike. Compile kaihveto.c, which is one file of C11 and needs nothing but this
   header and the C library's memcpy and memset: `cc -std=c11 -O2 -c kaihveto.c`. Or, on x86-64 Linux, take the archive that
   `sh tests/c/archive` writes. The library keeps nothing between calls and asks the system for nothing.

   Words. A knot has a minute (0 to 65,535) and an ordinate (whole hundredths, -20,000 to 20,000). A card has 3 to 64 knots
   with gaps of 1 to 60 minutes, and adds to each knot a slope and a curvature in card units: 1/4096 hundredth per minute, and
   1/4096 hundredth per minute squared, each from -1,048,576 to 1,048,576. Each end of a card has a code:

     KAIHVETO_FREE             third and fourth derivatives zero
     KAIHVETO_BOTH_GIVEN       slope and curvature given
     KAIHVETO_CURVATURE_GIVEN  curvature given, fourth derivative zero

   There are two kinds of card. Of KAIHVETO_FITTED the fit finds slopes and curvatures, so that the third and
   the fourth derivative go on without a jump through every knot. Of KAIHVETO_SLOPES_GIVEN the slopes were
   measured, one at every knot, and the fit finds the curvatures alone: the third derivative goes on without a
   jump and is zero at both ends, the fourth may jump. Both codes of such a card are 0. Whatever takes a card
   takes either kind: the card's own bytes tell which it is.

   A book holds the cards of a hall's rooms, each behind the number of its room (0 to 65,535). A card is put
   in for a room, looked up, and taken out together with its room.

   The pre-heater has no card but a plain table: 3 to 20 values, whole hundredths from -20,000 to 20,000, one
   equal step apart.

   Lists. A list is passed as a pointer and then its length, counted in elements. A list that a function may write to must
   overlap no other list of the same call, so a card that goes into a book must not lie in that book; lists that are only read
   may overlap one another. A pointer must be aligned for its type. A list of length 0 has no element to point to: pass any
   pointer that is aligned and not NULL, as the address of some variable of that type; nothing is read or written through it.

   Answers. Every answer starts with a number and a place. Number 0 is acceptance, with place 0. Any other
   number is a refusal: the fields behind number and place are then 0, and nothing has been written to any
   list. There is one exception: beside a 10, kaihveto_explain has the reason for it in its last four fields.
   Knots, values and bytes count from 0. Every input is allowed: what is not sound is refused, and a call
   always returns.

   Calls. kaihveto.c is C like any other: its functions are called as the compiler calls functions. Those of the archive follow the
   System V calling convention for x86-64, which C and C++ compilers for Linux use.

   Threads and interrupts. There is no state, not one variable, so any number of calls may run at once, in any threads, as long
   as nobody touches a list while another call may write to it, or writes to a list while another call reads it. A signal
   handler may call every function. So may an interrupt handler that has the stack for it and has saved the registers that
   compiled code may use, those for floating point too where the processor has them. On x86-64 these are the SSE registers, through
   which bytes are moved, and interrupts that come in on the stack of the code that they interrupt have to leave the 128 bytes below
   its stack pointer alone, as the convention says: these functions use them.

   Floating point. kaihveto_fit, kaihveto_fit_ends, kaihveto_fit_slopes, kaihveto_refit and kaihveto_mend
   compute in binary64, each operation rounded once. Their answers hold in the mode in which a process starts:
   rounding to nearest, subnormal numbers kept, exceptions masked. The start-up code of a small board, and a
   program that is linked with -ffast-math, may set another: it is to be set back for the call. (On x86-64 the
   mode is in MXCSR, on Arm in FPSCR or FPCR; the five may set its flags.) A compiler must not fuse a product
   and a sum into one operation: kaihveto.c forbids that to GCC and clang by itself, and refuses -ffast-math;
   but clang does fuse with -ffp-contract=fast on its command line, which is therefore not to be given, and
   -ffp-contract=off is never wrong. The other functions have no floating-point operation and answer alike in
   every mode.

   Stack. Bytes that a call needs at 64 knots, in a book at fourteen rooms with as many, in the pre-heater at
   20 values, measured and rounded up (docs/FIGURES.md, "Stack"); no proof bounds them. kaihveto.c was
   measured by GCC at -Os and -O2 on x86-64, Arm 64, Arm 32, RISC-V 64 and Cortex-M4, and by clang on x86-64;
   tests/c/stack.c measures it on others. The first call may need more, where a loader binds memcpy and memset
   in it.

                           kaihveto.c   archive                 kaihveto.c   archive
     kaihveto_mean                256       128   read, swing        5,120     4,096
     write, write_slopes        1,024     1,024   reading, explain   5,120     4,096
     kaihveto_check             4,096     3,072   table              6,144     4,096
     kaihveto_book_find         4,096     3,072   fit, fit_ends     13,312    13,312
     kaihveto_book_put          4,096     3,072   fit_slopes        12,288    13,312
     kaihveto_book_remove       1,024       256   refit, mend       16,384    15,360
     kaihveto_preheat             512       512

   Time. A reading tests the whole card every time and only then looks up the minute, and so does an
   explanation: some 1 to 2 microseconds at 64 knots (docs/FIGURES.md, "Speed"). A controller that reads once
   a minute needs to keep nothing but the card's bytes. A table tests the card once and then reads minute
   after minute, and so does the swing, through the whole card. A controller that keeps the hall's book
   instead finds its room's card with kaihveto_book_find, which goes over the book's records and tests that
   one card, and hands book + start and length to kaihveto_reading. The pre-heater's value is worked out from
   its table anew in each call. */

#ifndef KAIHVETO_H
#define KAIHVETO_H

#include <stddef.h>
#include <stdint.h>

#ifdef __cplusplus
extern "C" {
#endif

/* The version of this header and of the archive that is built beside it. MAJOR rises where a program that was right before
   has to be looked at or compiled anew: a function or an answer's fields change, a number changes its meaning, or the same
   input gets another answer. MINOR rises where something is added and all else stays. kaihveto_version() gives the library's own
   version, 65536 times MAJOR plus MINOR: where it is not KAIHVETO_VERSION, the library and this header are of two states of the
   sources, and no other function is to be called.

   6.3: kaihveto_book_remove is added.

   6.2: kaihveto_preheat is added, with the refusals 24 and 25.

   6.1: kaihveto_explain is added.

   6.0: there is a second kind of card, of which the slopes are given, and kaihveto_fit_slopes and
   kaihveto_write_slopes are added for it. The answer of kaihveto_check and of kaihveto_read has the kind,
   behind the right end's code, and is 4 bytes longer for it: a program that calls one of them is to be
   compiled anew, since one that was compiled with a header before has too little room for the answer. Bytes
   whose first record is of kind 6, which were refused with 14 at 0, may be such a card, and every function
   that takes a card takes them; kaihveto_refit gives back the slopes of such a card and fits its curvatures
   anew. A program that writes cards for one that still has a header before is to give it none of them.
   Nothing else moved: cards of the other kind are fitted, written and read as they were.

   5.2: kaihveto_swing is added.

   5.1: kaihveto_version is added, and kaihveto.c, which is the library for every processor.

   5.0: the answer of kaihveto_reading has the looks for the minute's gap, behind the curvature, and is 4 bytes longer for it: a
   program that calls it is to be compiled anew, since one that was compiled with a header before has too little room for the
   answer. Value, slope and curvature are as they were, refusals too.

   4.0: kaihveto_fit starts at rest, where before both its ends were free: the same knots get another card, and some that were
   accepted are refused with 9, or the other way round. A program that writes what it has fitted passes the codes of that fit,
   KAIHVETO_DEFAULT_LEFT and KAIHVETO_DEFAULT_RIGHT: with KAIHVETO_FREE at the left, as before, the card is as a rule refused with
   10 at 0. The former curve is that of kaihveto_fit_ends with KAIHVETO_FREE at both ends. Nothing else moved: cards are read as
   they were, and kaihveto_mend still fits between free ends.

   3.0: the answer of kaihveto_mean has the faults, behind the good bytes, and is 4 bytes longer for it: a program that calls it
   is to be compiled anew, since one that was compiled with a header before has too little room for the answer. And the mean needs
   half of the log's bytes to be good: a log with fewer, which was accepted before or was 19, is refused with 23.

   2.1: books are added, kaihveto_book_find and kaihveto_book_put with the refusals 20, 21 and 22.

   2.0: kaihveto_mean answers the minute in the log's middle, where 1.2 answered the log's first, and has the refusal 19. Cards
   that were made with the first minutes lead the rooms by half a log, and are to be made anew. */
#define KAIHVETO_VERSION_MAJOR 6
#define KAIHVETO_VERSION_MINOR 3
#define KAIHVETO_VERSION (65536u * KAIHVETO_VERSION_MAJOR + KAIHVETO_VERSION_MINOR)

uint32_t kaihveto_version(void);

/* The end codes. */
#define KAIHVETO_FREE 0
#define KAIHVETO_BOTH_GIVEN 1
#define KAIHVETO_CURVATURE_GIVEN 2

/* The kinds of card, which are the kinds of their first records: slopes fitted, or given. */
#define KAIHVETO_FITTED 1
#define KAIHVETO_SLOPES_GIVEN 6

/* The end codes of the card that kaihveto_fit gives: slope and curvature given at the left, free at the right. */
#define KAIHVETO_DEFAULT_LEFT 1
#define KAIHVETO_DEFAULT_RIGHT 0

/* The fewest and the most knots of a card, its widest gap in minutes, and the bytes of a card of n knots. */
#define KAIHVETO_FEWEST_KNOTS 3
#define KAIHVETO_MOST_KNOTS 64
#define KAIHVETO_WIDEST_GAP 60
#define KAIHVETO_CARD_BYTES(n) (14 + 16 * (n))

/* What these numbers may be, from minus the limit to the limit: an ordinate, in hundredths; a slope and a curvature, in card
   units; a number given for an end, in hundredths per minute or per minute squared. */
#define KAIHVETO_ORDINATE_LIMIT 20000
#define KAIHVETO_CARD_NUMBER_LIMIT 1048576
#define KAIHVETO_GIVEN_NUMBER_LIMIT 256

/* How far a value that is read may lie from 0, either way, in hundredths: knots of 20,000, slopes and curvatures at their limits, in
   the middle of a gap of 60 minutes. It does not fit 16 bits. */
#define KAIHVETO_VALUE_LIMIT 53600

/* How a sheet has a hole: in place of the ordinate, and for kaihveto_mend alone. */
#define KAIHVETO_HOLE (-32768)

/* The most bytes of a log, the largest good byte, and the sensor's fault code, which is skipped. */
#define KAIHVETO_LOG_MOST_BYTES 60
#define KAIHVETO_LOG_LARGEST_GOOD 200
#define KAIHVETO_LOG_FAULT 255

/* The most bytes of a book, its closing record among them; how many of them a room takes whose card has n knots; and the bytes
   of a book with no room, to begin with: uint8_t book[KAIHVETO_BOOK_MOST_BYTES] = KAIHVETO_EMPTY_BOOK; */
#define KAIHVETO_BOOK_MOST_BYTES 16384
#define KAIHVETO_BOOK_ROOM_BYTES(n) (6 + KAIHVETO_CARD_BYTES(n))
#define KAIHVETO_EMPTY_BOOK {0, 0, 3, 0}

/* The fewest and the most values of the pre-heater's table, and the fewest and the most parts to one of its
   steps. A value has an ordinate's limit. */
#define KAIHVETO_PREHEAT_FEWEST_VALUES 3
#define KAIHVETO_PREHEAT_MOST_VALUES 20
#define KAIHVETO_PREHEAT_FEWEST_PARTS 2
#define KAIHVETO_PREHEAT_MOST_PARTS 60

/* The numbers of refusal. The place is 0 where none is named. */
enum kaihveto_number {
    KAIHVETO_ACCEPTED = 0,             /* accepted */
    KAIHVETO_TOO_FEW_KNOTS = 1,        /* fewer than 3 knots, or values of the pre-heater */
    KAIHVETO_TOO_MANY_KNOTS = 2,       /* more than 64 knots */
    KAIHVETO_LENGTHS_DIFFER = 3,       /* the lists that a call lends differ in length */
    KAIHVETO_MINUTE_NOT_RISING = 4,    /* minute not above the one before; place: the knot */
    KAIHVETO_GAP_TOO_WIDE = 5,         /* gap over 60 minutes; place: its right knot */
    KAIHVETO_ORDINATE_BEYOND = 6,      /* ordinate, or the pre-heater's value, beyond 20,000 either way;
                                          place: the knot or the value */
    KAIHVETO_GIVEN_NUMBER_BEYOND = 7,  /* given end number NaN, infinite or beyond 256 either way; place: the end knot */
    KAIHVETO_NO_SOLUTION = 8,          /* the elimination met a divisor of 0 or a number not finite; place: the knot */
    KAIHVETO_CARD_NUMBER_BEYOND = 9,   /* slope or curvature beyond 1,048,576 either way; place: the knot */
    KAIHVETO_JUMP = 10,                /* third or fourth derivative jumps by more than is allowed, the fourth not where slopes
                                          are given; place: the knot */
    KAIHVETO_MINUTE_OUTSIDE = 11,      /* minute outside the card, or count behind the last value */
    KAIHVETO_LOG_BYTE = 12,            /* log byte 201 to 254; place: the byte */
    KAIHVETO_NO_GOOD_BYTE = 13,        /* no good byte in the log */
    KAIHVETO_RECORD = 14,              /* record cut short, of wrong kind or length, or ending past a book's most bytes, or bytes
                                          behind a card's end; place: its offset */
    KAIHVETO_END_CODE = 15,            /* end code not 0, 1, 2, or not 0 where slopes are given; place: 0 left, 1 right */
    KAIHVETO_LOG_LENGTH = 16,          /* log length not 1 to 60 */
    KAIHVETO_NO_SOUND_KNOT = 17,       /* a hole with no sound knot on one side; place: the hole */
    KAIHVETO_TOO_FEW_CHANGES = 18,     /* fewer places in the list of changes than holes */
    KAIHVETO_LOG_TOO_LATE = 19,        /* the log's middle is behind minute 65,535 */
    KAIHVETO_ROOM_NOT_THERE = 20,      /* the book does not have that room, to look up or to take out */
    KAIHVETO_BOOK_FULL = 21,           /* the book would be over 16,384 bytes or over its buffer; it has bytes
                                          again when a room is taken out */
    KAIHVETO_ROOM_NOT_RISING = 22,     /* room not above the one before; place: its record's offset in the book */
    KAIHVETO_TOO_FEW_GOOD_BYTES = 23,  /* good bytes in the log, but fewer than half of its bytes */
    KAIHVETO_TOO_MANY_VALUES = 24,     /* more than 20 values of the pre-heater */
    KAIHVETO_PART_COUNT = 25,          /* not 2 to 60 parts to a step of the pre-heater */
    KAIHVETO_NO_ROOM = 26              /* buffer under 14 + 16n bytes, or lists under n places */
};

/* The mean of a log of 1 to 60 bytes, one a minute from first_minute on: 0 to 200 are half percents, 255 is a fault and is
   skipped. At least half of the bytes have to be good; exactly half is enough. The answer has the minute for which the mean
   stands, its ordinate, and how many bytes were good and how many were faults, together log_length. That minute is the log's
   middle: first_minute plus half of log_length, faults among it, without the half of an odd length. It is the one to give to the
   fit, as the knot's minute, and is at most 65,535.
   Refusals, in this order: 16, 12, 13, 23, 19. Nothing is written. */
typedef struct {
    uint32_t number;
    uint32_t place;
    uint32_t minute;
    int32_t ordinate;
    uint32_t good;
    uint32_t faults;
} kaihveto_mean_answer;

kaihveto_mean_answer kaihveto_mean(uint16_t first_minute, const uint8_t *log, size_t log_length);

/* The fit: the slopes and curvatures, in card units, of the curve through these knots. All four lists have one length, the
   number of knots; on acceptance every place of slopes and curvatures is written. The curve starts at rest, with slope 0 and
   curvature 0 at the first knot, and is free at the last. Its card is written with the codes KAIHVETO_DEFAULT_LEFT and
   KAIHVETO_DEFAULT_RIGHT: with KAIHVETO_FREE at the left kaihveto_write refuses it as a rule with 10 at 0.
   Refusals, in this order: 3, 1, 2; 4, 5, 6 knot by knot; 8, 9, 10. */
typedef struct {
    uint32_t number;
    uint32_t place;
} kaihveto_fit_answer;

kaihveto_fit_answer kaihveto_fit(const uint16_t *minutes, size_t minutes_length,
                                 const int16_t *ordinates, size_t ordinates_length,
                                 int32_t *slopes, size_t slopes_length,
                                 int32_t *curvatures, size_t curvatures_length);

/* The same with ends of the caller's choice, KAIHVETO_FREE at both for a curve that may start with a slope; the card is written
   with the codes that were chosen here. The given numbers are in hundredths per minute and per minute squared, not in card units;
   those that a code does not use are not looked at.
   Refusals, in this order: 3, 1, 2, 15; 4, 5, 6 knot by knot; 7 left, then right; 8, 9, 10. */
kaihveto_fit_answer kaihveto_fit_ends(const uint16_t *minutes, size_t minutes_length,
                                      const int16_t *ordinates, size_t ordinates_length,
                                      int32_t *slopes, size_t slopes_length,
                                      int32_t *curvatures, size_t curvatures_length,
                                      uint16_t left, double left_slope, double left_curvature,
                                      uint16_t right, double right_slope, double right_curvature);

/* The fit to given slopes: the curvatures, in card units, of the curve through these knots with these slopes,
   which are in card units too: the rate in hundredths per minute times 4096, rounded, from -1,048,576 to
   1,048,576. All four lists have one length, the number of knots; on acceptance every place of curvatures is
   written, and the slopes never are. The third derivative does not jump and is zero at both ends; the fourth
   may jump. The card is written by kaihveto_write_slopes: kaihveto_write refuses it as a rule with 10.
   Refusals, in this order: 3, 1, 2; 4, 5, 6 knot by knot; 9 of the slopes; 8; 9 of the curvatures; 10. */
kaihveto_fit_answer kaihveto_fit_slopes(const uint16_t *minutes, size_t minutes_length,
                                        const int16_t *ordinates, size_t ordinates_length,
                                        const int32_t *slopes, size_t slopes_length,
                                        int32_t *curvatures, size_t curvatures_length);

/* Writes a card: on acceptance the first 14 + 16n bytes of the buffer, n being the lists' length, and no other. The answer
   has the number of bytes written.
   Refusals, in this order: 3, 1, 2, 15; 4, 5, 6 knot by knot; 9, 10, 26. */
typedef struct {
    uint32_t number;
    uint32_t place;
    uint32_t bytes;
} kaihveto_write_answer;

kaihveto_write_answer kaihveto_write(const uint16_t *minutes, size_t minutes_length,
                                     const int16_t *ordinates, size_t ordinates_length,
                                     const int32_t *slopes, size_t slopes_length,
                                     const int32_t *curvatures, size_t curvatures_length,
                                     uint16_t left, uint16_t right,
                                     uint8_t *buffer, size_t buffer_length);

/* Writes a card whose slopes are given: its first record is of kind 6 in place of 1 and has both codes 0, and
   all else is as kaihveto_write has it. Every curvature of a card that is accepted is at most 2 card units
   from the exact solution for its slopes.
   Refusals, in this order: 3, 1, 2; 4, 5, 6 knot by knot; 9, 10, 26. */
kaihveto_write_answer kaihveto_write_slopes(const uint16_t *minutes, size_t minutes_length,
                                            const int16_t *ordinates, size_t ordinates_length,
                                            const int32_t *slopes, size_t slopes_length,
                                            const int32_t *curvatures, size_t curvatures_length,
                                            uint8_t *buffer, size_t buffer_length);

/* Checks a card's bytes; nothing may follow the card. The answer has the number of knots, the two end codes,
   and the kind, KAIHVETO_FITTED or KAIHVETO_SLOPES_GIVEN.
   Refusals, in this order: 14 of the head; 1, 2, 15; 14 of the other records; 4, 5, 6 knot by knot; 9, 10. Nothing is
   written. */
typedef struct {
    uint32_t number;
    uint32_t place;
    uint32_t knots;
    uint32_t left;
    uint32_t right;
    uint32_t kind;
} kaihveto_card_answer;

kaihveto_card_answer kaihveto_check(const uint8_t *card, size_t card_length);

/* Reads a card into four lists of one length: on acceptance the first n places of each, n being the card's number of knots,
   and no other. The answer is that of kaihveto_check.
   Refusals, in this order: 3, those of kaihveto_check, 26. */
kaihveto_card_answer kaihveto_read(const uint8_t *card, size_t card_length,
                                   uint16_t *minutes, size_t minutes_length,
                                   int16_t *ordinates, size_t ordinates_length,
                                   int32_t *slopes, size_t slopes_length,
                                   int32_t *curvatures, size_t curvatures_length);

/* Reads the curve off a card's bytes at a minute: value in hundredths, slope and curvature in card units, each the exact
   curve's rounded to nearest, ties to even. The whole card is tested each time. The value of a sound card may lie below 0 and above
   10,000, where the curve swings beyond its knots: what the flap does then is the caller's to decide.

   And how many looks the minute's gap took. While more than one gap is left, of k, counted from 0, one look is at the minute of
   the knot that begins gap k/2, rounded down: if the minute asked for is before it, the gaps before that knot are left, else the
   others. So 3 knots take 1 look, 64 knots 5 or 6, and n knots at most the smallest p for which 2 to the p is not below n - 1.
   A look at knot i is at the two bytes of a card from 14 + 16 * i on. The test of the card is not counted.
   Refusals, in this order: those of kaihveto_check, 11. Nothing is written. */
typedef struct {
    uint32_t number;
    uint32_t place;
    int32_t value;
    int32_t slope;
    int32_t curvature;
    uint32_t looks;
} kaihveto_reading_answer;

kaihveto_reading_answer kaihveto_reading(const uint8_t *card, size_t card_length, uint16_t minute);

/* Reads the curve off a card's bytes at the minutes from, from + 1 and so on, into three lists of one length: place i has what
   kaihveto_reading gives at minute from + i. There are as many readings as the lists have places or as the card has minutes
   from there on, its last knot's minute being the last, whichever is less: on acceptance these first places of each list are
   written, and no other. The answer has how many they are; with lists of length 0 that is 0. The card is tested once.
   Refusals, in this order: 3, those of kaihveto_check, 11 where the first minute is outside the card. */
typedef struct {
    uint32_t number;
    uint32_t place;
    uint32_t count;
} kaihveto_table_answer;

kaihveto_table_answer kaihveto_table(const uint8_t *card, size_t card_length, uint16_t from,
                                     int32_t *values, size_t values_length,
                                     int32_t *slopes, size_t slopes_length,
                                     int32_t *curvatures, size_t curvatures_length);

/* Why a card reads what it reads at a minute, or why it is refused with 10.

   The exact value of the curve at a minute is a fraction, and its numerator is a sum of six parts: one each
   for the ordinate, the slope and the curvature of the left and of the right knot of the minute's gap. On
   acceptance the answer has the gap, as the place of its left knot; how many minutes the minute lies behind
   that knot; the six parts, whole numbers with their signs; and the denominator under all of them, which is
   8192 times the fifth power of the gap's minutes. Each part over the denominator is what its number of its
   knot brings to the value, in hundredths. The six add up to the numerator, within 64 bits in whatever order,
   and the numerator over the denominator, rounded to nearest, ties to even, is the value that
   kaihveto_reading gives. The minute of an inner knot belongs to the gap on the knot's right, that of the
   last knot to the last gap. knot, order, jump and allowance are 0.

   Beside a 10, and beside no other refusal, these four have its reason, and the fields before them are 0 but
   for number and place. knot is the place again. order is the derivative that jumps there by more than is
   allowed, 3 or 4, and 3 where both of them do. jump is the size of that jump, without a sign, and allowance
   what it may be; jump is the larger. Both are numerators over one denominator, which is not in the answer:
   with order 3 the cube of the gap on the knot's left times that of the gap on its right, with order 4 their
   fourth powers instead, and at the first and at the last knot the cube or the fourth power of the one gap
   that is there. The jump is between the right side and the left of a third of the third derivative, or of a
   twelfth of the fourth, in card units, an end's one side being held against 0; and the allowance is that of
   both sides together, or of the one. Of a card whose slopes are given, order is always 3.
   Refusals, in this order: those of kaihveto_check, 11. Nothing is written. */
typedef struct {
    uint32_t number;
    uint32_t place;
    uint32_t gap;
    uint32_t minutes;
    int64_t left_ordinate;
    int64_t right_ordinate;
    int64_t left_slope;
    int64_t right_slope;
    int64_t left_curvature;
    int64_t right_curvature;
    int64_t denominator;
    uint32_t knot;
    uint32_t order;
    int64_t jump;
    int64_t allowance;
} kaihveto_explain_answer;

kaihveto_explain_answer kaihveto_explain(const uint8_t *card, size_t card_length, uint16_t minute);

/* How far a card's curve swings beyond its knots. In a gap, between two neighbouring knots, the curve may go
   below the lower of their two ordinates and above the higher one. A gap's two numbers say how far it does,
   in hundredths: of what kaihveto_reading gives for value at the gap's minutes, both knots' among them, the
   most that one lies below the lower ordinate and the most that one lies above the higher, 0 where none does.
   The answer is of the gap that goes furthest to either side, which is the one whose larger number is the
   largest, and the first of such gaps where there are several: its left knot, its two numbers, and the first
   of its minutes at which the value is so far beyond as the larger of the two says, on whichever side. Where
   the curve stays within its knots everywhere this is knot 0 with its minute, and 0 for both numbers.

   A sound card may swing: nothing is refused for it. But a curve that goes far beyond its knots goes where
   nobody has set a point, as a rule beside a knot that was written down wrong. To warn of it where one of the
   two numbers is above 100, which is one percent, is sensible, once for each card that is loaded: knot and
   minute say where to look. Every minute of the card is read for it.
   Refusals: those of kaihveto_check. Nothing is written. */
typedef struct {
    uint32_t number;
    uint32_t place;
    uint32_t knot;
    uint32_t minute;
    uint32_t below;
    uint32_t above;
} kaihveto_swing_answer;

kaihveto_swing_answer kaihveto_swing(const uint8_t *card, size_t card_length);

/* What the pre-heater is to have between the values of its table, and at them. The values are hundredths and
   stand at equal steps, however long the plant's step is: minutes play no part here, nor do cards. A step is
   cut into equal parts, 2 to 60 of them, and count says how many parts behind the first value the asked value
   lies: with 10 parts to a step, count 25 is half a step behind the third value. A count that is a whole
   number of steps gives the table's own value there; the last value stands at parts * (values_length - 1).

   Between the values it is read off the natural cubic: one cubic on each step, through all values, whose
   slope and second derivative go on without a jump from step to step, and whose second derivative is zero at
   the first value and at the last. There is exactly one such curve. The answer has its exact value, in
   hundredths, rounded to nearest, ties to even. It may lie beyond the table's own values, where the curve
   swings, and is within 60,000 either way.
   Refusals, in this order: 1; 24; 6 value by value; 25; 11 where count lies behind the last value. Nothing is
   written. */
typedef struct {
    uint32_t number;
    uint32_t place;
    int32_t value;
} kaihveto_preheat_answer;

kaihveto_preheat_answer kaihveto_preheat(const int16_t *values, size_t values_length,
                                         uint16_t parts, uint16_t count);

/* Fits a card's own knots anew, into two lists of one length: on acceptance the first n places of each, n being the card's
   number of knots, and no other. The ends have the card's codes, and a number that a code gives is the card's own there. The
   answer has n, and how many of the card's 2n slopes and curvatures are not the fit's. A card of kaihveto_fit, or one that was
   fitted with free ends, has none as long as it was not changed. A given number is taken as it stands on the card: where it was
   changed, only the others can show it; and where the fit was given one between two card units, some others may differ by a few
   units though nothing was changed.

   Of a card whose slopes are given, the slopes come back as the card has them, and its curvatures are fitted
   anew to them: of these alone some can differ. A card of kaihveto_fit_slopes has none that does, as long as
   it was not changed.
   Refusals, in this order: 3, those of kaihveto_check, 26, and then the fit's own, 8, 9, 10. */
typedef struct {
    uint32_t number;
    uint32_t place;
    uint32_t knots;
    uint32_t changed;
} kaihveto_refit_answer;

kaihveto_refit_answer kaihveto_refit(const uint8_t *card, size_t card_length,
                                     int32_t *slopes, size_t slopes_length,
                                     int32_t *curvatures, size_t curvatures_length);

/* Mends a sheet with holes and fits it: each ordinate that is KAIHVETO_HOLE becomes the value, at its minute, of the straight line
   between the nearest knots left and right that are no holes, rounded to nearest, ties to even; then slopes and curvatures are
   fitted as by kaihveto_fit_ends with KAIHVETO_FREE at both ends, which are the codes of the card too. Minutes, ordinates, slopes
   and curvatures have one length, the number of knots; the list of changes has a place for each hole, and may have more. On
   acceptance the holes among the ordinates are filled, every place of slopes and curvatures is written, and the first places of
   the list of changes tell each hole's place, its old number and its new one, in rising order; nothing else is written. The answer
   has how many they are. Who writes the old numbers back to their places has the sheet as it came.
   Refusals, in this order: 3, 1, 2; 4, 5, 6 knot by knot, 6 not for a hole; 17, 18; then the fit's own, 8, 9, 10. */
typedef struct {
    uint32_t place;
    int32_t old_number;
    int32_t new_number;
} kaihveto_change;

typedef struct {
    uint32_t number;
    uint32_t place;
    uint32_t count;
} kaihveto_mend_answer;

kaihveto_mend_answer kaihveto_mend(const uint16_t *minutes, size_t minutes_length,
                                   int16_t *ordinates, size_t ordinates_length,
                                   int32_t *slopes, size_t slopes_length,
                                   int32_t *curvatures, size_t curvatures_length,
                                   kaihveto_change *changes, size_t changes_length);

/* Looks up a room in a book. A book is made of records as a card is, each with the length of its body and its kind in two bytes
   and two, little-endian: for every room one of kind 5, its body the room's number in two bytes and then the bytes of its card,
   the numbers strictly rising; behind them a closing record of kind 3 and length 0. It has at most 16,384 bytes. What lies behind
   the closing record is no part of it and may be anything, so book_length may be that of the buffer in which the book lies. On
   acceptance the length bytes from book + start on are the room's card, which kaihveto_check accepts: they are what
   kaihveto_reading takes, or any other function that reads a card, as long as nobody has written to the book since.
   Refusals, in this order: 14 of the book's own records; 22; 20; those of kaihveto_check for that card, with places in the card
   and not in the book. No other room's card is tested, and a 14 of the book's own comes for every room alike. Nothing is
   written. */
typedef struct {
    uint32_t number;
    uint32_t place;
    uint32_t start;
    uint32_t length;
} kaihveto_book_find_answer;

kaihveto_book_find_answer kaihveto_book_find(const uint8_t *book, size_t book_length, uint16_t room);

/* Puts a card into a book, for a room that it does not have yet or in place of the card that the room has there, which may be
   longer or shorter. book_length is the length of the buffer in which the book lies. On acceptance the new book stands at its
   front, and every other room has the card that it had, byte for byte. The answer has how many bytes the book has then: 6 and
   those of its card for each room, and 4. Behind these bytes nothing is written: if the book has become shorter, the last bytes
   of the old one still stand there. The cards that are there are not tested, so a damaged one stays and is in nobody's way.
   Refusals, in this order: 14 of the book's own records; 22; those of kaihveto_check for the new card; 21 where the new book
   would be longer than 16,384 bytes or than the buffer. */
typedef struct {
    uint32_t number;
    uint32_t place;
    uint32_t bytes;
} kaihveto_book_put_answer;

kaihveto_book_put_answer kaihveto_book_put(uint8_t *book, size_t book_length, uint16_t room,
                                           const uint8_t *card, size_t card_length);

/* Takes a room out of a book, and its card with it. book_length is the length of the buffer in which the book
   lies. On acceptance the records behind that room's have moved up into its place, the closing record with
   them, and every other room has the card that it had, byte for byte. The answer has how many bytes the book
   has then: 6 and those of its card for each room that is left, and 4. As many bytes as the room had are free
   for the next card. Behind the new closing record nothing is written: the last bytes of the old book still
   stand there, those of its closing record too. No card is tested, neither that room's nor another's, so that
   a room with a damaged card can be taken out too, and a damaged card of another room stays as it is. Where a
   card was put in for a room that the book did not have, taking that room out gives back the same book.
   Refusals, in this order: 14 of the book's own records; 22; 20 where the book does not have that room. */
typedef struct {
    uint32_t number;
    uint32_t place;
    uint32_t bytes;
} kaihveto_book_remove_answer;

kaihveto_book_remove_answer kaihveto_book_remove(uint8_t *book, size_t book_length, uint16_t room);

#ifdef __cplusplus
}
#endif

#endif
