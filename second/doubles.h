/* A cell as a double, in two ways that share nothing and must agree: from the decimal's text, and by whole numbers alone. */
#ifndef SECOND_DOUBLES_H
#define SECOND_DOUBLES_H

#include "dump.h"

#include <stdlib.h>
#include <string.h>

/* "24 exactly if the power is below -22 or above 22" (document 02, section 7). */
enum { FARTHEST_POWER = 22, NO_DOUBLE = 24 };

/* The double that the C library reads; this is the only floating number here. */
static inline uint64_t bits_by_text(const struct cell *cell)
{
    char text[32];
    snprintf(text, sizeof text, DECIMAL, cell->whole, cell->power);
    double value = strtod(text, NULL);
    uint64_t bits;
    memcpy(&bits, &value, sizeof bits);
    return bits;
}

/* Room for fifteen digits times ten to the 22nd, which is below 2 to the 123rd. */
typedef unsigned __int128 wide;

/* 1 for a power below 0. */
static inline wide ten_to(int power)
{
    wide product = 1;
    for (; power > 0; power--)
        product *= 10;
    return product;
}

/*
 * The quotient from its highest bit on, 53 of them; what is left then is to the divisor as the rest of the quotient is to half
 * of the last bit. A carry out of the 53 bits is right too: it raises the exponent, which lies above them.
 */
static inline uint64_t bits_by_whole_numbers(const struct cell *cell)
{
    if (cell->whole == 0)
        return 0;
    uint64_t negative = cell->whole < 0;
    wide dividend = (wide)(negative ? -cell->whole : cell->whole) * ten_to(cell->power);
    wide divisor = ten_to(-cell->power);
    uint64_t exponent = 1023;
    for (; dividend < divisor; dividend *= 2)
        exponent--;
    for (; dividend >= 2 * divisor; divisor *= 2)
        exponent++;
    uint64_t quotient = 0;
    for (int bit = 0; bit < 53; bit++) {
        bool goes = dividend >= divisor;
        quotient = 2 * quotient + goes;
        dividend = 2 * (goes ? dividend - divisor : dividend);
    }
    if (dividend > divisor || (dividend == divisor && quotient % 2 == 1))
        quotient++;
    return (negative << 63) + (exponent << 52) + (quotient - (UINT64_C(1) << 52));
}

/* Of a cell that is given: NO_FAULT, and the bits of its double; or NO_DOUBLE, and nothing is written. */
static inline int double_of(const struct cell *cell, uint64_t *bits)
{
    if (cell->power < -FARTHEST_POWER || cell->power > FARTHEST_POWER)
        return NO_DOUBLE;
    uint64_t by_text = bits_by_text(cell), by_whole_numbers = bits_by_whole_numbers(cell);
    if (by_text != by_whole_numbers) {
        fprintf(stderr, DECIMAL " is the double %016" PRIx64 " by its text and %016" PRIx64 " by whole numbers\n",
                cell->whole, cell->power, by_text, by_whole_numbers);
        exit(2);
    }
    *bits = by_text;
    return NO_FAULT;
}

#endif
