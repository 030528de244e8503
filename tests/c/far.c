/* The library for a process that cannot link it: takes calls on standard input and writes their answers on
   standard output, every number in little-endian bytes, whatever the order of the machine is. A call is a
   letter and its arguments in the order of kaihveto.h: a number in 8 bytes, a list as its length in 8 bytes
   and its elements. An answer is the struct, and then each list that the function may write to. It ends with
   1 and leaves the answer unfinished where a byte before or behind a list was written. */
#include "kaihveto.h"

#include <stdio.h>
#include <stdlib.h>
#include <string.h>

/* Each list stands between so many bytes of a pattern. */
enum { GUARD = 64, PAINT = 0xa5 };
static uint8_t paint[GUARD];

/* A list whose elements are numbers of so many bytes each, or some such numbers. */
struct list {
    void *first;
    size_t length;
    size_t bytes;
    size_t width;
};

static void take(void *to, size_t bytes) {
    if (fread(to, 1, bytes, stdin) != bytes)
        exit(1);
}

static void give(const void *from, size_t bytes) {
    if (fwrite(from, 1, bytes, stdout) != bytes)
        exit(1);
}

/* Little-endian bytes become numbers of this machine, where they lie. */
static void to_numbers(uint8_t *at, size_t bytes, size_t width) {
    for (const uint8_t *end = at + bytes; width > 1 && at < end; at += width) {
        uint32_t wide = 0;
        for (size_t i = 0; i < width; i++)
            wide |= (uint32_t)at[i] << (8 * i);
        uint16_t narrow = (uint16_t)wide;
        memcpy(at, width == 2 ? (void *)&narrow : (void *)&wide, width);
    }
}

/* And back; an answer may have numbers of 8 bytes too. */
static void to_bytes(uint8_t *at, size_t bytes, size_t width) {
    for (const uint8_t *end = at + bytes; width > 1 && at < end; at += width) {
        uint64_t widest = 0;
        uint32_t wide = 0;
        uint16_t narrow = 0;
        memcpy(width == 2 ? (void *)&narrow : width == 4 ? (void *)&wide : (void *)&widest, at, width);
        for (size_t i = 0; i < width; i++)
            at[i] = (uint8_t)((narrow | wide | widest) >> (8 * i));
    }
}

static uint64_t number(void) {
    uint8_t bytes[8];
    uint64_t n = 0;
    take(bytes, sizeof bytes);
    for (size_t i = 0; i < sizeof bytes; i++)
        n |= (uint64_t)bytes[i] << (8 * i);
    return n;
}

static double real(void) {
    uint64_t bits = number();
    double x;
    memcpy(&x, &bits, sizeof x);
    return x;
}

static struct list list_of(size_t numbers, size_t width) {
    struct list l;
    l.length = (size_t)number();
    l.bytes = l.length * numbers * width;
    l.width = width;
    uint8_t *guarded = malloc(l.bytes + 2 * GUARD);
    if (guarded == NULL)
        exit(1);
    memcpy(guarded, paint, GUARD);
    memcpy(guarded + GUARD + l.bytes, paint, GUARD);
    l.first = guarded + GUARD;
    take(l.first, l.bytes);
    to_numbers(l.first, l.bytes, width);
    return l;
}

static struct list list(size_t width) {
    return list_of(1, width);
}

static void drop(struct list l) {
    uint8_t *guarded = (uint8_t *)l.first - GUARD;
    if (memcmp(guarded, paint, GUARD) != 0 || memcmp(guarded + GUARD + l.bytes, paint, GUARD) != 0)
        _Exit(1);
    free(guarded);
}

/* The list is dropped next: nothing else is done with it once it is given back. */
static void give_back(struct list l) {
    to_bytes(l.first, l.bytes, l.width);
    give(l.first, l.bytes);
}

/* Every answer but one is a struct of numbers of 4 bytes. */
static void give_answer(void *answer, size_t bytes) {
    to_bytes(answer, bytes, 4);
    give(answer, bytes);
}

/* An explanation has numbers of 4 bytes and of 8, of which none needs a byte to fill up before it. */
static void give_explanation(kaihveto_explain_answer *answer) {
    uint8_t *first = (uint8_t *)answer;
    size_t parts = offsetof(kaihveto_explain_answer, left_ordinate), knot = offsetof(kaihveto_explain_answer, knot);
    size_t jump = offsetof(kaihveto_explain_answer, jump), bytes = sizeof *answer;
    if (parts != 16 || knot != 72 || jump != 80 || bytes != 96)
        exit(1);
    to_bytes(first, parts, 4);
    to_bytes(first + parts, knot - parts, 8);
    to_bytes(first + knot, jump - knot, 4);
    to_bytes(first + jump, bytes - jump, 8);
    give(first, bytes);
}

int main(void) {
    memset(paint, PAINT, GUARD);
    int letter;
    while ((letter = getchar()) != EOF) {
        struct list a, b, c, d, e;
        switch (letter) {
        case 'm': {
            uint64_t minute = number();
            a = list(1);
            kaihveto_mean_answer r = kaihveto_mean((uint16_t)minute, a.first, a.length);
            give_answer(&r, sizeof r);
            drop(a);
            break;
        }
        case 'f':
        case 'e': {
            a = list(2), b = list(2), c = list(4), d = list(4);
            kaihveto_fit_answer r;
            if (letter == 'f') {
                r = kaihveto_fit(a.first, a.length, b.first, b.length, c.first, c.length, d.first, d.length);
            } else {
                uint64_t left = number();
                double left_slope = real(), left_curvature = real();
                uint64_t right = number();
                double right_slope = real(), right_curvature = real();
                r = kaihveto_fit_ends(a.first, a.length, b.first, b.length, c.first, c.length, d.first, d.length, (uint16_t)left,
                                      left_slope, left_curvature, (uint16_t)right, right_slope, right_curvature);
            }
            give_answer(&r, sizeof r);
            give_back(c), give_back(d);
            drop(a), drop(b), drop(c), drop(d);
            break;
        }
        case 'g': {
            a = list(2), b = list(2), c = list(4), d = list(4);
            kaihveto_fit_answer r =
                kaihveto_fit_slopes(a.first, a.length, b.first, b.length, c.first, c.length, d.first, d.length);
            give_answer(&r, sizeof r);
            give_back(d);
            drop(a), drop(b), drop(c), drop(d);
            break;
        }
        case 'w': {
            a = list(2), b = list(2), c = list(4), d = list(4);
            uint64_t left = number(), right = number();
            e = list(1);
            kaihveto_write_answer r = kaihveto_write(a.first, a.length, b.first, b.length, c.first, c.length, d.first, d.length,
                                                     (uint16_t)left, (uint16_t)right, e.first, e.length);
            give_answer(&r, sizeof r);
            give_back(e);
            drop(a), drop(b), drop(c), drop(d), drop(e);
            break;
        }
        case 'v': {
            a = list(2), b = list(2), c = list(4), d = list(4), e = list(1);
            kaihveto_write_answer r = kaihveto_write_slopes(a.first, a.length, b.first, b.length, c.first, c.length,
                                                            d.first, d.length, e.first, e.length);
            give_answer(&r, sizeof r);
            give_back(e);
            drop(a), drop(b), drop(c), drop(d), drop(e);
            break;
        }
        case 'c': {
            a = list(1);
            kaihveto_card_answer r = kaihveto_check(a.first, a.length);
            give_answer(&r, sizeof r);
            drop(a);
            break;
        }
        case 'r': {
            e = list(1), a = list(2), b = list(2), c = list(4), d = list(4);
            kaihveto_card_answer r =
                kaihveto_read(e.first, e.length, a.first, a.length, b.first, b.length, c.first, c.length, d.first, d.length);
            give_answer(&r, sizeof r);
            give_back(a), give_back(b), give_back(c), give_back(d);
            drop(a), drop(b), drop(c), drop(d), drop(e);
            break;
        }
        case 'o': {
            a = list(1);
            uint64_t minute = number();
            kaihveto_reading_answer r = kaihveto_reading(a.first, a.length, (uint16_t)minute);
            give_answer(&r, sizeof r);
            drop(a);
            break;
        }
        case 't': {
            e = list(1);
            uint64_t from = number();
            a = list(4), b = list(4), c = list(4);
            kaihveto_table_answer r =
                kaihveto_table(e.first, e.length, (uint16_t)from, a.first, a.length, b.first, b.length, c.first, c.length);
            give_answer(&r, sizeof r);
            give_back(a), give_back(b), give_back(c);
            drop(a), drop(b), drop(c), drop(e);
            break;
        }
        case 'y': {
            a = list(1);
            uint64_t minute = number();
            kaihveto_explain_answer r = kaihveto_explain(a.first, a.length, (uint16_t)minute);
            give_explanation(&r);
            drop(a);
            break;
        }
        case 's': {
            a = list(1);
            kaihveto_swing_answer r = kaihveto_swing(a.first, a.length);
            give_answer(&r, sizeof r);
            drop(a);
            break;
        }
        case 'n': {
            a = list(2);
            uint64_t parts = number(), count = number();
            kaihveto_preheat_answer r = kaihveto_preheat(a.first, a.length, (uint16_t)parts, (uint16_t)count);
            give_answer(&r, sizeof r);
            drop(a);
            break;
        }
        case 'a': {
            e = list(1), c = list(4), d = list(4);
            kaihveto_refit_answer r = kaihveto_refit(e.first, e.length, c.first, c.length, d.first, d.length);
            give_answer(&r, sizeof r);
            give_back(c), give_back(d);
            drop(c), drop(d), drop(e);
            break;
        }
        case 'h': {
            a = list(2), b = list(2), c = list(4), d = list(4), e = list_of(sizeof(kaihveto_change) / 4, 4);
            kaihveto_mend_answer r =
                kaihveto_mend(a.first, a.length, b.first, b.length, c.first, c.length, d.first, d.length, e.first, e.length);
            give_answer(&r, sizeof r);
            give_back(b), give_back(c), give_back(d), give_back(e);
            drop(a), drop(b), drop(c), drop(d), drop(e);
            break;
        }
        case 'l': {
            a = list(1);
            uint64_t room = number();
            kaihveto_book_find_answer r = kaihveto_book_find(a.first, a.length, (uint16_t)room);
            give_answer(&r, sizeof r);
            drop(a);
            break;
        }
        case 'p': {
            a = list(1);
            uint64_t room = number();
            e = list(1);
            kaihveto_book_put_answer r = kaihveto_book_put(a.first, a.length, (uint16_t)room, e.first, e.length);
            give_answer(&r, sizeof r);
            give_back(a);
            drop(a), drop(e);
            break;
        }
        case 'x': {
            a = list(1);
            uint64_t room = number();
            kaihveto_book_remove_answer r = kaihveto_book_remove(a.first, a.length, (uint16_t)room);
            give_answer(&r, sizeof r);
            give_back(a);
            drop(a);
            break;
        }
        default:
            return 1;
        }
        if (fflush(stdout) != 0)
            return 1;
    }
    return 0;
}
