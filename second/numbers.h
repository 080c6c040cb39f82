/* Numbers as exact decimals: reading them, cells and dV/dt words, and their order. */
#ifndef SECOND_NUMBERS_H
#define SECOND_NUMBERS_H

#include "words.h"

enum { MIN_POWER = -40, MAX_POWER = 24 };
#define TEN_TO_15 INT64_C(1000000000000000)
#define TEN_TO_18 UINT64_C(1000000000000000000)

/* The digits read so far: up to nineteen are in the value, later ones are counted, and `lost` if not all zero. */
struct digits {
    uint64_t value;
    int later;
    unsigned lost;
};

/*
 * No end is handed in: every line that is read is ended, and the byte after a word, or after half of a dV/dt word, is
 * a blank, the comment character, CR, LF or `/`. None of these is part of a number, so the scans stop there.
 */
static inline const uint8_t *read_digits(const uint8_t *at, struct digits *digits)
{
    for (unsigned digit; (digit = (unsigned)*at - '0') <= 9; at++) {
        if (digits->value < TEN_TO_18) {
            digits->value = digits->value * 10 + digit;
        } else {
            digits->later++;
            digits->lost |= digit;
        }
    }
    return at;
}

/* "An `e` without digits after it is such a letter": then the place does not move. */
static inline const uint8_t *read_exponent(const uint8_t *at, int *power)
{
    if (*at != 'e' && *at != 'E')
        return at;
    const uint8_t *ahead = at + 1;
    bool negative = *ahead == '-';
    ahead += negative | (*ahead == '+');
    int exponent = 0;
    for (unsigned digit; (digit = (unsigned)*ahead - '0') <= 9; at = ++ahead)
        if (exponent < 10000)                   /* far outside, whatever the other digits do */
            exponent = exponent * 10 + (int)digit;
    *power += negative ? -exponent : exponent;
    return at;
}

static inline int scale_of(uint8_t letter)
{
    static const int8_t scales[256] = {
        ['T'] = 12, ['G'] = 9, ['M'] = 6, ['k'] = 3, ['m'] = -3, ['u'] = -6, ['n'] = -9, ['p'] = -12, ['f'] = -15,
    };
    return scales[letter];
}

/* "a whole number times a power of ten, with no trailing zero"; the digits and the power are those of the result. */
static inline enum fault make_cell(bool negative, struct digits digits, int power, struct cell *cell)
{
    uint64_t whole = digits.value;
    power = whole == 0 ? 0 : power + digits.later;
    for (; whole != 0 && whole % 10 == 0; whole /= 10)
        power++;
    if (digits.lost || whole >= TEN_TO_15 || power < MIN_POWER || power > MAX_POWER)
        return OUT_OF_RANGE;
    cell->whole = negative ? -(int64_t)whole : (int64_t)whole;
    cell->power = power;
    cell->given = true;
    return NO_FAULT;
}

/* Reads a number as far as it goes; whether the word ends there is for the caller to see, before fault 12. */
static inline enum fault read_number(const uint8_t **cursor, struct cell *cell)
{
    const uint8_t *at = *cursor;
    struct digits digits = { 0 };
    bool negative = *at == '-';
    at += negative | (*at == '+');
    const uint8_t *start = at;
    at = read_digits(at, &digits);
    bool none = at == start;
    int power = 0;
    if (*at == '.') {
        start = at + 1;
        at = read_digits(start, &digits);
        none = none && at == start;
        power = (int)(start - at);
    }
    if (!none) {
        at = read_exponent(at, &power);
        power += scale_of(*at);
        while (is_letter(*at))
            at++;
    }
    *cursor = at;
    return none ? NOT_A_NUMBER : make_cell(negative, digits, power, cell);
}

/* A word of two numbers with one `/` between; "the word is the unit, 11 before 12". */
static inline enum fault read_slope(struct text word, bool may_miss, struct slope *slope)
{
    slope->dividend.given = slope->divisor.given = false;
    if (may_miss && same_in_any_case(word, &reserved_names[NA_WORD]))
        return NO_FAULT;
    const uint8_t *at = word.start;
    enum fault dividend = read_number(&at, &slope->dividend);
    if (dividend == NOT_A_NUMBER || *at != '/')
        return NOT_A_NUMBER;
    at++;
    enum fault divisor = read_number(&at, &slope->divisor);
    if (divisor == NOT_A_NUMBER || at != word.end)
        return NOT_A_NUMBER;
    return dividend != NO_FAULT ? dividend : divisor;
}

/* Reads the word at hand as a cell and goes past it. */
static inline enum fault read_cell(struct text *rest, bool may_miss, struct cell *cell)
{
    const uint8_t *start = rest->start;
    if (is_letter(*start)) {                    /* no number begins with a letter */
        skip_word(rest);
        *cell = (struct cell){ 0 };
        struct text word = { start, rest->start };
        return may_miss && same_in_any_case(word, &reserved_names[NA_WORD]) ? NO_FAULT : NOT_A_NUMBER;
    }
    enum fault fault = read_number(&rest->start, cell);
    if (rest->start == rest->end || is_blank(*rest->start))
        return fault;
    skip_word(rest);
    return NOT_A_NUMBER;
}

/* As many cells as there must be words: "on a line all 10s first, then the words from the left". */
static inline struct flaw read_cells(struct text rest, unsigned count, bool first_may_miss, struct cell *cells)
{
    struct flaw leftmost = no_flaw;
    for (unsigned i = 0; i < count; i++) {
        skip_blanks(&rest);
        if (is_empty(rest))
            return wrong_word(rest.end);
        const uint8_t *word = rest.start;
        enum fault fault = read_cell(&rest, i > 0 || first_may_miss, &cells[i]);
        if (fault != NO_FAULT && leftmost.fault == NO_FAULT)
            leftmost = (struct flaw){ fault, word };
    }
    struct flaw surplus = expect_end(rest);
    return surplus.fault == NO_FAULT ? leftmost : surplus;
}

/*
 * The exact order: below, at or above zero as a is to b. The number of the smaller power is split by the other's unit;
 * of fifteen digits nothing is left above ten to the fifteenth, so a larger difference says the same as that one.
 */
static inline int compare(const struct cell *a, const struct cell *b)
{
    if (a->power == b->power)
        return (a->whole > b->whole) - (a->whole < b->whole);
    if (a->power < b->power)
        return -compare(b, a);
    int64_t unit = 1;
    for (int power = b->power; power < a->power && unit < TEN_TO_15; power++)
        unit *= 10;
    int64_t whole = b->whole / unit;
    int64_t part = b->whole % unit;
    if (a->whole != whole)
        return a->whole < whole ? -1 : 1;
    return (part < 0) - (part > 0);
}

#endif
