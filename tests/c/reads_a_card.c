/* Sees that library and header belong together. Fits document 01's Table 3 through the C header, without ends
   and then between free ones, and writes its card each time, with the swing of both; checks the free one,
   reads it back, takes readings off it and explains one, and explains why the card is refused that has one
   curvature three units off; then fits document 000's Table 4 to its slopes and writes, checks, reads and
   changes that card; then a log's mean and a log with too few good bytes, a sheet with two holes
   mended and put back, a book of three rooms with readings off the cards that it holds for two of them, rooms
   taken out of it, one of them with a damaged card, and the pre-heater's values between those of document
   001's Table 2, times ten. What it prints is held against reads_a_card.expected. */

#include <stdio.h>

#include "kaihveto.h"

#define KNOTS 5

static void print_swing(const char *name, kaihveto_swing_answer swing)
{
    printf("%s: %u at %u, knot %u, minute %u, below %u, above %u\n", name, swing.number, swing.place, swing.knot,
           swing.minute, swing.below, swing.above);
}

static void print_explained(const char *name, kaihveto_explain_answer told)
{
    printf("%s: %u at %u, minute %u of gap %u, ordinates %lld %lld, slopes %lld %lld, curvatures %lld %lld, over %lld; ",
           name, told.number, told.place, told.minutes, told.gap, (long long)told.left_ordinate,
           (long long)told.right_ordinate, (long long)told.left_slope, (long long)told.right_slope,
           (long long)told.left_curvature, (long long)told.right_curvature, (long long)told.denominator);
    printf("knot %u, order %u, jump %lld, allowance %lld\n", told.knot, told.order, (long long)told.jump,
           (long long)told.allowance);
}

static void print_preheat(const char *name, kaihveto_preheat_answer heat)
{
    printf("%s: %u at %u, value %d\n", name, heat.number, heat.place, heat.value);
}

static void print_removed(const char *name, kaihveto_book_remove_answer removed)
{
    printf("%s: %u at %u, %u bytes\n", name, removed.number, removed.place, removed.bytes);
}

static void print_card(const char *name, kaihveto_card_answer card)
{
    printf("%s: %u at %u, %u knots, ends %u and %u, kind %u\n", name, card.number, card.place, card.knots, card.left,
           card.right, card.kind);
}

int main(void)
{
    const uint16_t minutes[KNOTS] = {0, 8, 16, 24, 32};
    const int16_t ordinates[KNOTS] = {500, 0, 500, 0, 500};
    int32_t slopes[KNOTS], curvatures[KNOTS];
    uint8_t card[KAIHVETO_CARD_BYTES(KNOTS)];
    uint16_t read_minutes[KAIHVETO_MOST_KNOTS];
    int16_t read_ordinates[KAIHVETO_MOST_KNOTS];
    int32_t read_slopes[KAIHVETO_MOST_KNOTS], read_curvatures[KAIHVETO_MOST_KNOTS];

    if (kaihveto_version() != KAIHVETO_VERSION) {
        printf("the library is of another version than the header\n");
        return 1;
    }
    printf("version %u.%u\n", (unsigned)(kaihveto_version() >> 16), (unsigned)(kaihveto_version() & 65535));

    kaihveto_fit_answer fit = kaihveto_fit(minutes, KNOTS, ordinates, KNOTS, slopes, KNOTS, curvatures, KNOTS);
    printf("fit without ends: %u at %u\n", fit.number, fit.place);
    for (int i = 0; i < KNOTS; i++)
        printf("%u %d %d %d\n", (unsigned)minutes[i], ordinates[i], slopes[i], curvatures[i]);
    kaihveto_write_answer written = kaihveto_write(minutes, KNOTS, ordinates, KNOTS, slopes, KNOTS, curvatures, KNOTS,
                                                   KAIHVETO_FREE, KAIHVETO_FREE, card, sizeof card);
    printf("write with the codes of free ends: %u at %u, %u bytes\n", written.number, written.place, written.bytes);
    written = kaihveto_write(minutes, KNOTS, ordinates, KNOTS, slopes, KNOTS, curvatures, KNOTS, KAIHVETO_DEFAULT_LEFT,
                             KAIHVETO_DEFAULT_RIGHT, card, sizeof card);
    printf("write with the fit's own: %u at %u, %u bytes\n", written.number, written.place, written.bytes);
    kaihveto_card_answer checked = kaihveto_check(card, sizeof card);
    print_card("check", checked);
    kaihveto_refit_answer anew = kaihveto_refit(card, sizeof card, slopes, KNOTS, curvatures, KNOTS);
    printf("fitted anew: %u at %u, %u changed\n", anew.number, anew.place, anew.changed);
    print_swing("swing", kaihveto_swing(card, sizeof card));

    fit = kaihveto_fit_ends(minutes, KNOTS, ordinates, KNOTS, slopes, KNOTS, curvatures, KNOTS, KAIHVETO_FREE, 0.0, 0.0,
                            KAIHVETO_FREE, 0.0, 0.0);
    printf("fit between free ends: %u at %u\n", fit.number, fit.place);

    written = kaihveto_write(minutes, KNOTS, ordinates, KNOTS, slopes, KNOTS, curvatures, KNOTS, KAIHVETO_FREE, KAIHVETO_FREE,
                             card, sizeof card);
    printf("write: %u at %u, %u bytes:", written.number, written.place, written.bytes);
    for (int i = 0; i < 26; i++)
        printf(" %02X", card[i]);
    printf("\n");

    checked = kaihveto_check(card, sizeof card);
    print_card("check", checked);

    kaihveto_card_answer read = kaihveto_read(card, sizeof card, read_minutes, KAIHVETO_MOST_KNOTS, read_ordinates,
                                              KAIHVETO_MOST_KNOTS, read_slopes, KAIHVETO_MOST_KNOTS, read_curvatures,
                                              KAIHVETO_MOST_KNOTS);
    for (uint32_t i = 0; i < read.knots; i++)
        printf("%u %d %d %d\n", (unsigned)read_minutes[i], read_ordinates[i], read_slopes[i], read_curvatures[i]);

    kaihveto_reading_answer reading = kaihveto_reading(card, sizeof card, 4);
    printf("minute 4: %u at %u, value %d, slope %d, curvature %d, looks %u\n", reading.number, reading.place, reading.value,
           reading.slope, reading.curvature, reading.looks);

    reading = kaihveto_reading(card, sizeof card, 33);
    printf("minute 33: %u at %u, value %d, slope %d, curvature %d, looks %u\n", reading.number, reading.place, reading.value,
           reading.slope, reading.curvature, reading.looks);

    print_explained("minute 4 explained", kaihveto_explain(card, sizeof card, 4));
    print_explained("minute 33 explained", kaihveto_explain(card, sizeof card, 33));
    /* The low byte of the curvature at place 2, which is 0 in -108800. */
    const size_t low_byte = KAIHVETO_CARD_BYTES(2) + 8;
    card[low_byte] = 3;
    print_explained("curvature -108797 at place 2 explained", kaihveto_explain(card, sizeof card, 4));
    card[low_byte] = 0;

    print_swing("swing", kaihveto_swing(card, sizeof card));
    print_swing("swing a byte short", kaihveto_swing(card, sizeof card - 1));
    checked = kaihveto_check(card, sizeof card - 1);
    print_card("a byte short", checked);

    fit = kaihveto_fit_ends(minutes, KNOTS, ordinates, KNOTS, slopes, KNOTS, curvatures, KNOTS, KAIHVETO_BOTH_GIVEN, 256.5,
                            0.0, KAIHVETO_CURVATURE_GIVEN, 0.0, 1.0);
    printf("left slope 256.5: %u at %u\n", fit.number, fit.place);
    fit = kaihveto_fit_ends(minutes, KNOTS, ordinates, KNOTS, slopes, KNOTS, curvatures, KNOTS, KAIHVETO_BOTH_GIVEN, -1.5,
                            0.25, KAIHVETO_CURVATURE_GIVEN, 0.0, 1.0);
    printf("left slope -1.5 and curvature 0.25, right curvature 1: %u at %u, left %d %d, right %d %d\n", fit.number, fit.place,
           slopes[0], curvatures[0], slopes[KNOTS - 1], curvatures[KNOTS - 1]);

    const uint16_t measured_minutes[KNOTS] = {0, 2, 3, 6, 7};
    const int16_t measured_ordinates[KNOTS] = {7, 11, 26, 56, 29};
    int32_t measured_slopes[KNOTS] = {2 * 4096, 15 * 4096, 10 * 4096, -27 * 4096, -30 * 4096};
    uint8_t measured[KAIHVETO_CARD_BYTES(KNOTS)];
    fit = kaihveto_fit_slopes(measured_minutes, KNOTS, measured_ordinates, KNOTS, measured_slopes, KNOTS, curvatures, KNOTS);
    printf("fit to slopes: %u at %u, curvatures %d %d %d %d %d\n", fit.number, fit.place, curvatures[0], curvatures[1],
           curvatures[2], curvatures[3], curvatures[4]);
    written = kaihveto_write_slopes(measured_minutes, KNOTS, measured_ordinates, KNOTS, measured_slopes, KNOTS, curvatures,
                                    KNOTS, measured, sizeof measured);
    printf("write: %u at %u, %u bytes:", written.number, written.place, written.bytes);
    for (int i = 0; i < 10; i++)
        printf(" %02X", measured[i]);
    printf("\n");
    print_card("check", kaihveto_check(measured, sizeof measured));
    reading = kaihveto_reading(measured, sizeof measured, 1);
    printf("minute 1: %u at %u, value %d, slope %d, curvature %d, looks %u\n", reading.number, reading.place, reading.value,
           reading.slope, reading.curvature, reading.looks);
    anew = kaihveto_refit(measured, sizeof measured, read_slopes, KAIHVETO_MOST_KNOTS, read_curvatures, KAIHVETO_MOST_KNOTS);
    printf("fitted anew: %u at %u, %u changed, last %d %d\n", anew.number, anew.place, anew.changed, read_slopes[KNOTS - 1],
           read_curvatures[KNOTS - 1]);
    measured[6] = KAIHVETO_BOTH_GIVEN;
    print_card("slopes given and a code", kaihveto_check(measured, sizeof measured));
    measured[6] = KAIHVETO_FREE;
    measured[2] = KAIHVETO_FITTED;
    print_card("the same numbers as the other kind", kaihveto_check(measured, sizeof measured));
    measured[2] = KAIHVETO_SLOPES_GIVEN;
    measured_slopes[2] = KAIHVETO_CARD_NUMBER_LIMIT + 1;
    fit = kaihveto_fit_slopes(measured_minutes, KNOTS, measured_ordinates, KNOTS, measured_slopes, KNOTS, curvatures, KNOTS);
    printf("a slope beyond the limit: %u at %u\n", fit.number, fit.place);

    const uint8_t log[3] = {100, 255, 102};
    kaihveto_mean_answer mean = kaihveto_mean(60, log, sizeof log);
    printf("mean: %u at %u, minute %u, ordinate %d, good %u, faults %u\n", mean.number, mean.place, mean.minute, mean.ordinate,
           mean.good, mean.faults);
    const uint8_t dead_log[3] = {255, 255, 102};
    mean = kaihveto_mean(60, dead_log, sizeof dead_log);
    printf("one good byte of three: %u at %u, minute %u, ordinate %d, good %u, faults %u\n", mean.number, mean.place, mean.minute,
           mean.ordinate, mean.good, mean.faults);

    int16_t sheet[KNOTS] = {500, KAIHVETO_HOLE, 401, KAIHVETO_HOLE, 500};
    kaihveto_change changes[KNOTS];
    kaihveto_mend_answer mended = kaihveto_mend(minutes, KNOTS, sheet, KNOTS, slopes, KNOTS, curvatures, KNOTS, changes, KNOTS);
    printf("mend: %u at %u, %u changes\n", mended.number, mended.place, mended.count);
    for (uint32_t i = 0; i < mended.count; i++) {
        printf("place %u: %d became %d, on the sheet %d\n", changes[i].place, changes[i].old_number, changes[i].new_number,
               sheet[changes[i].place]);
        sheet[changes[i].place] = (int16_t)changes[i].old_number;
    }
    printf("put back: %d %d %d %d %d\n", sheet[0], sheet[1], sheet[2], sheet[3], sheet[4]);

    const uint16_t line_minutes[3] = {0, 2, 4};
    const int16_t line_ordinates[3] = {0, 1, 2};
    const int32_t line_slopes[3] = {2048, 2048, 2048}, line_curvatures[3] = {0, 0, 0};
    uint8_t line[KAIHVETO_CARD_BYTES(3)];
    kaihveto_write(line_minutes, 3, line_ordinates, 3, line_slopes, 3, line_curvatures, 3, KAIHVETO_FREE, KAIHVETO_FREE, line,
                   sizeof line);
    uint8_t book[KAIHVETO_BOOK_MOST_BYTES] = KAIHVETO_EMPTY_BOOK;
    kaihveto_book_put_answer put = kaihveto_book_put(book, sizeof book, 9, card, sizeof card);
    printf("put in for room 9: %u at %u, %u bytes\n", put.number, put.place, put.bytes);
    put = kaihveto_book_put(book, sizeof book, 3, line, sizeof line);
    printf("put in for room 3: %u at %u, %u bytes\n", put.number, put.place, put.bytes);
    kaihveto_book_find_answer found = kaihveto_book_find(book, sizeof book, 9);
    printf("room 9: %u at %u, %u bytes from %u on\n", found.number, found.place, found.length, found.start);
    reading = kaihveto_reading(book + found.start, found.length, 4);
    printf("room 9, minute 4: %u at %u, value %d, slope %d, curvature %d, looks %u\n", reading.number, reading.place,
           reading.value, reading.slope, reading.curvature, reading.looks);
    put = kaihveto_book_put(book, sizeof book, 5, measured, sizeof measured);
    printf("put in for room 5, slopes given: %u at %u, %u bytes\n", put.number, put.place, put.bytes);
    found = kaihveto_book_find(book, sizeof book, 5);
    printf("room 5: %u at %u, %u bytes from %u on\n", found.number, found.place, found.length, found.start);
    print_card("room 5", kaihveto_check(book + found.start, found.length));
    found = kaihveto_book_find(book, sizeof book, 4);
    printf("room 4: %u at %u, %u bytes from %u on\n", found.number, found.place, found.length, found.start);
    put = kaihveto_book_put(book, put.bytes, 4, line, sizeof line);
    printf("put in for room 4, no byte left: %u at %u, %u bytes\n", put.number, put.place, put.bytes);
    put = kaihveto_book_put(book, sizeof book, 4, card, sizeof card - 1);
    printf("put in for room 4, a byte short: %u at %u, %u bytes\n", put.number, put.place, put.bytes);
    put = kaihveto_book_put(book, sizeof book, 9, line, sizeof line);
    printf("put in for room 9, a shorter card: %u at %u, %u bytes\n", put.number, put.place, put.bytes);

    const size_t full = put.bytes;
    put = kaihveto_book_put(book, full, 4, line, sizeof line);
    printf("put in for room 4, no byte left: %u at %u, %u bytes\n", put.number, put.place, put.bytes);
    print_removed("room 5 taken out", kaihveto_book_remove(book, full, 5));
    print_removed("room 5 taken out again", kaihveto_book_remove(book, full, 5));
    found = kaihveto_book_find(book, full, 5);
    printf("room 5: %u at %u, %u bytes from %u on\n", found.number, found.place, found.length, found.start);
    found = kaihveto_book_find(book, full, 9);
    printf("room 9: %u at %u, %u bytes from %u on\n", found.number, found.place, found.length, found.start);
    put = kaihveto_book_put(book, full, 4, line, sizeof line);
    printf("put in for room 4, in the bytes of room 5: %u at %u, %u bytes\n", put.number, put.place, put.bytes);
    /* Room 3's card no longer starts as one. */
    book[6] = 0;
    found = kaihveto_book_find(book, full, 3);
    printf("room 3, damaged: %u at %u, %u bytes from %u on\n", found.number, found.place, found.length, found.start);
    print_removed("room 3 taken out", kaihveto_book_remove(book, full, 3));
    print_removed("room 9 taken out, a byte short", kaihveto_book_remove(book, put.bytes - sizeof line - 6 - 1, 9));
    print_removed("room 9 taken out", kaihveto_book_remove(book, full, 9));
    print_removed("room 4 taken out", kaihveto_book_remove(book, full, 4));
    printf("the book with no room: %02X %02X %02X %02X\n", book[0], book[1], book[2], book[3]);

    int16_t heats[10] = {2440, 2210, 2080, 2080, 2115, 2160, 2190, 2210, 2215, 2200};
    printf("pre-heater:");
    for (uint16_t count = 0; count <= 90; count += 5)
        printf(" %d", kaihveto_preheat(heats, 10, 10, count).value);
    printf("\n");
    print_preheat("pre-heater, 1 of 10 parts", kaihveto_preheat(heats, 10, 10, 1));
    print_preheat("pre-heater, 25 of 10 parts", kaihveto_preheat(heats, 10, 10, 25));
    print_preheat("pre-heater, the last value", kaihveto_preheat(heats, 10, 60, 540));
    print_preheat("pre-heater, a part behind it", kaihveto_preheat(heats, 10, 60, 541));
    print_preheat("pre-heater, one part to a step", kaihveto_preheat(heats, 10, 1, 541));
    print_preheat("pre-heater, two values", kaihveto_preheat(heats, 2, 10, 0));
    heats[4] = -KAIHVETO_ORDINATE_LIMIT - 1;
    print_preheat("pre-heater, a value beyond its limit", kaihveto_preheat(heats, 10, 1, 0));
    return 0;
}
