/* How many bytes of stack each function takes at a card of 64 knots, the book's at fourteen rooms with such
   cards, the pre-heater's at 20 values: the stack below a call is painted, the call is made, and what it
   painted over is counted. The first call of each is not measured, since the loader binds symbols in it. Ends
   with 1 where a call is refused or takes 32 KiB. */
#include "kaihveto.h"

#include <stdio.h>

enum { KNOTS = KAIHVETO_MOST_KNOTS, GAP = 15, MINUTES = GAP * (KNOTS - 1) + 1, ROOMS = 14, DEPTH = 1 << 16, MOST = 1 << 15, PAINT = 0xa5 };

static uint16_t minutes[KNOTS];
static int16_t ordinates[KNOTS];
static int32_t slopes[KNOTS], curvatures[KNOTS];
static int32_t table_values[MINUTES], table_slopes[MINUTES], table_curvatures[MINUTES];
static int16_t heats[KAIHVETO_PREHEAT_MOST_VALUES];
static kaihveto_change changes[KNOTS];
static uint8_t card[KAIHVETO_CARD_BYTES(KNOTS)], sloped_card[KAIHVETO_CARD_BYTES(KNOTS)], short_card[KAIHVETO_CARD_BYTES(3)], log_bytes[60];
static uint8_t book[KAIHVETO_BOOK_MOST_BYTES] = KAIHVETO_EMPTY_BOOK;

static uint32_t mean(void) {
    return kaihveto_mean(0, log_bytes, sizeof log_bytes).number;
}

static uint32_t fit(void) {
    return kaihveto_fit(minutes, KNOTS, ordinates, KNOTS, slopes, KNOTS, curvatures, KNOTS).number;
}

static uint32_t fit_ends(void) {
    return kaihveto_fit_ends(minutes, KNOTS, ordinates, KNOTS, slopes, KNOTS, curvatures, KNOTS, KAIHVETO_FREE, 0, 0, KAIHVETO_FREE, 0, 0).number;
}

static uint32_t fit_slopes(void) {
    return kaihveto_fit_slopes(minutes, KNOTS, ordinates, KNOTS, slopes, KNOTS, curvatures, KNOTS).number;
}

static uint32_t write_slopes(void) {
    return kaihveto_write_slopes(minutes, KNOTS, ordinates, KNOTS, slopes, KNOTS, curvatures, KNOTS, sloped_card, sizeof sloped_card).number;
}

static uint32_t write_card(void) {
    return kaihveto_write(minutes, KNOTS, ordinates, KNOTS, slopes, KNOTS, curvatures, KNOTS, KAIHVETO_FREE, KAIHVETO_FREE, card, sizeof card).number;
}

static uint32_t check(void) {
    return kaihveto_check(card, sizeof card).number;
}

static uint32_t read_card(void) {
    return kaihveto_read(card, sizeof card, minutes, KNOTS, ordinates, KNOTS, slopes, KNOTS, curvatures, KNOTS).number;
}

static uint32_t reading(void) {
    return kaihveto_reading(card, sizeof card, 333).number;
}

static uint32_t table(void) {
    kaihveto_table_answer r = kaihveto_table(card, sizeof card, 0, table_values, MINUTES, table_slopes, MINUTES, table_curvatures, MINUTES);
    return r.count == MINUTES ? r.number : 1;
}

/* A minute; and the reason why the card is refused where a curvature near its end is another. */
static uint32_t explain(void) {
    uint8_t *low = card + KAIHVETO_CARD_BYTES(KNOTS) - 24;
    kaihveto_explain_answer r = kaihveto_explain(card, sizeof card, 333);
    *low ^= 128;
    kaihveto_explain_answer refused = kaihveto_explain(card, sizeof card, 333);
    *low ^= 128;
    return refused.number == KAIHVETO_JUMP && refused.jump > refused.allowance ? r.number : 1;
}

static uint32_t swing(void) {
    kaihveto_swing_answer r = kaihveto_swing(card, sizeof card);
    return r.below != 0 || r.above != 0 ? r.number : 1;
}

/* A card of either kind. */
static uint32_t refit(void) {
    uint32_t number = kaihveto_refit(sloped_card, sizeof sloped_card, slopes, KNOTS, curvatures, KNOTS).number;
    return number | kaihveto_refit(card, sizeof card, slopes, KNOTS, curvatures, KNOTS).number;
}

static uint32_t mend(void) {
    for (int i = 1; i < KNOTS - 1; i++)
        ordinates[i] = i % 3 == 0 ? ordinates[i] : KAIHVETO_HOLE;
    kaihveto_mend_answer r = kaihveto_mend(minutes, KNOTS, ordinates, KNOTS, slopes, KNOTS, curvatures, KNOTS, changes, KNOTS);
    return r.count != 0 ? r.number : 1;
}

/* In the middle of the middle step. */
static uint32_t preheat(void) {
    kaihveto_preheat_answer r = kaihveto_preheat(heats, KAIHVETO_PREHEAT_MOST_VALUES, KAIHVETO_PREHEAT_MOST_PARTS, 570);
    return r.value != 0 ? r.number : 1;
}

static uint32_t book_find(void) {
    kaihveto_book_find_answer r = kaihveto_book_find(book, sizeof book, ROOMS);
    return r.length == sizeof card ? r.number : 1;
}

/* A shorter card for the first room and the full one again, so that all the others move up and down. */
static uint32_t book_put(void) {
    uint32_t number = kaihveto_book_put(book, sizeof book, 1, short_card, sizeof short_card).number;
    kaihveto_book_put_answer r = kaihveto_book_put(book, sizeof book, 1, card, sizeof card);
    return r.bytes == ROOMS * KAIHVETO_BOOK_ROOM_BYTES(KNOTS) + 4 ? number | r.number : 1;
}

/* The first room each time, so that all the others move up: of fifteen rooms the first call leaves fourteen
   to the one that is measured. */
static uint32_t book_remove(void) {
    static uint16_t room = 1;
    kaihveto_book_remove_answer r = kaihveto_book_remove(book, sizeof book, room);
    uint32_t left = ROOMS + 1u - room++;
    return r.bytes == left * KAIHVETO_BOOK_ROOM_BYTES(KNOTS) + 4 ? r.number : 1;
}

static void paint(void) {
    volatile uint8_t below[DEPTH];
    for (size_t i = 0; i < DEPTH; i++)
        below[i] = PAINT;
    (void)below[0];
}

static void (*volatile painter)(void) = paint;

static int line(const char *name, uint32_t (*volatile call)(void)) {
    uint8_t here;
    uint32_t number = call();
    painter();
    number |= call();
    uintptr_t top = (uintptr_t)&here, at = top - DEPTH + 1024;
    while (at < top && *(volatile uint8_t *)at == PAINT)
        at++;
    printf("%-16s %6lu bytes of stack%s\n", name, (unsigned long)(top - at), number == 0 ? "" : ", refused");
    return number == 0 && top - at < MOST;
}

int main(void) {
    for (int i = 0; i < KNOTS; i++) {
        minutes[i] = (uint16_t)(GAP * i);
        ordinates[i] = (int16_t)(4000 + 100 * (i % 7) - 30 * (i % 4));
    }
    for (int i = 0; i < KAIHVETO_PREHEAT_MOST_VALUES; i++)
        heats[i] = (int16_t)(i % 2 == 0 ? KAIHVETO_ORDINATE_LIMIT : i - KAIHVETO_ORDINATE_LIMIT);
    int good = line("mean", mean);
    good &= line("preheat", preheat);
    good &= line("fit", fit);
    good &= line("fit_ends", fit_ends);
    good &= line("write", write_card);
    good &= line("fit_slopes", fit_slopes);
    good &= line("write_slopes", write_slopes);
    good &= line("check", check);
    good &= line("read", read_card);
    good &= line("reading", reading);
    good &= line("table", table);
    good &= line("explain", explain);
    good &= line("swing", swing);
    good &= line("refit", refit);
    good &= line("mend", mend);
    good &= kaihveto_fit(minutes, 3, ordinates, 3, slopes, 3, curvatures, 3).number == 0;
    good &= kaihveto_write(minutes, 3, ordinates, 3, slopes, 3, curvatures, 3, KAIHVETO_DEFAULT_LEFT, KAIHVETO_DEFAULT_RIGHT, short_card, sizeof short_card).number == 0;
    for (uint16_t room = 1; room <= ROOMS; room++)
        good &= kaihveto_book_put(book, sizeof book, room, card, sizeof card).number == 0;
    good &= line("book_find", book_find);
    good &= line("book_put", book_put);
    good &= kaihveto_book_put(book, sizeof book, ROOMS + 1, card, sizeof card).number == 0;
    good &= line("book_remove", book_remove);
    return good ? 0 : 1;
}
