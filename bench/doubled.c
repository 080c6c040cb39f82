/*
 * doubled FILE..: the doubles that the static library gives, held to both ways of the second reader: of every word of each
 * accepted file's tables, of digits and powers at their edges, of numbers half way between two doubles, and of words that no
 * reading wrote. And rows as doubles, held to the row and its cells one by one.
 */
#define _GNU_SOURCE
#include "asking.h"
#include "../second/doubles.h"

enum { ANY_DIGITS = 100, ANY_HALF_WAY = 200, ANY_WORDS = 500000, ANY_STORES = 4000 };
enum { POWERS = 256, LEAST_POWER = -40, PAINT = 0xa5 };

/* ---- one cell */

union painted { uint64_t bits; double value; };

/* What the library has to answer; where there is no double, the bits stay as they are. */
static int answer_of(olhovest_cell word, uint64_t *bits)
{
    if (olhovest_missing(word))
        return OLHOVEST_NOT_GIVEN;
    int64_t digits = (int64_t)olhovest_digits(handed(word));
    struct cell cell = { olhovest_negative(word) ? -digits : digits, olhovest_power(word), true };
    return double_of(&cell, bits);
}

static void ask_cell(olhovest_cell word)
{
    union painted wanted, found;
    memset(&wanted, PAINT, sizeof wanted);
    found = wanted;
    int answer = answer_of(word, &wanted.bits);
    bool right = olhovest_double(word, &found.value) == answer && found.bits == wanted.bits;
    hold(right, "the double of the cell %016" PRIx64, word);
}

static olhovest_cell cell_of(uint64_t digits, int power, unsigned sign)
{
    return digits * 512 + (uint64_t)(power - LEAST_POWER) * 2 + sign;
}

static void ask_number(uint64_t digits, int power)
{
    ask_cell(cell_of(digits, power, 0));
    ask_cell(cell_of(digits, power, 1));
}

static void ask_neighbours(uint64_t digits, int power)
{
    ask_number(digits - 1, power);
    ask_number(digits, power);
    ask_number(digits + 1, power);
}

/* ---- cells at the edges */

static void ask_edges(int power)
{
    ask_number(0, power);
    for (uint64_t unit = 1; unit < TEN_TO_15; unit *= 10) {
        ask_number(unit, power);
        ask_number(10 * unit - 1, power);
        for (int i = 0; i < ANY_DIGITS; i++)
            ask_number(unit + any() % (9 * unit), power);
    }
    for (uint64_t digits = TEN_TO_15; digits < UINT64_C(1) << 55; digits += TEN_TO_15)
        ask_neighbours(digits, power);
}

/* Half way between two doubles lies an odd number that has 54 bits, once ten to the power is five to the power; and its double. */
static void ask_half_way(int power)
{
    uint64_t fives = (uint64_t)(ten_to(power) >> power);
    uint64_t lowest = ((UINT64_C(1) << 53) / fives + 1) | 1, count = ((UINT64_C(1) << 54) / fives - lowest) / 2 + 1;
    for (int i = 0; i < ANY_HALF_WAY; i++)
        for (uint64_t digits = lowest + any() % count * 2; digits < TEN_TO_15; digits *= 2)
            ask_neighbours(digits, power);
}

/* Often a number of any length at a power that has doubles, or is next to them. */
static uint64_t any_cell(void)
{
    switch (any() % 8) {
    case 0: return any();
    case 1: return any_word();
    case 2: return OLHOVEST_MISSING;
    default: return cell_of(any() >> (9 + any() % 55), (int)(any() % 47) - 23, any() % 2);
    }
}

/* ---- rows */

static void ask_row(const struct olhovest_row *rows, size_t words, size_t place)
{
    struct { double values[4]; uint8_t answers[4]; uint32_t there; } wanted, found;     /* no gaps: they are compared whole */
    memset(&wanted, PAINT, sizeof wanted);
    memset(&found, PAINT, sizeof found);
    struct olhovest_row row;
    wanted.there = olhovest_row_at(rows, words, place, &row);
    if (wanted.there) {
        const olhovest_cell cells[4] = { row.number, row.cells.typ, row.cells.min, row.cells.max };
        for (int i = 0; i < 4; i++)
            wanted.answers[i] = olhovest_double(cells[i], &wanted.values[i]);
    }
    found.there = olhovest_row_doubles(rows, words, place, found.values, found.answers);
    hold(memcmp(&found, &wanted, sizeof found) == 0, "the row at place %zu of %zu words", place, words);
}

static void ask_any_rows(void)
{
    size_t words = any_length(sizeof(struct olhovest_row));
    const struct olhovest_row *rows = (void *)lend(words, any_cell);
    for (size_t place = 0; place <= MOST_RECORDS; place++)
        ask_row(rows, words, place);
    ask_row(rows, words, any_place());
    ask_row(NULL, 0, any_place());
}

/* ---- the tables of accepted files: whatever a word of theirs means, it is a word with an answer */

static void ask_words(const void *table, size_t words)
{
    for (size_t i = 0; i < words; i++) {
        olhovest_cell word;
        memcpy(&word, (const uint8_t *)table + i * sizeof word, sizeof word);
        ask_cell(word);
    }
}

static void ask_file(const uint8_t *bytes, size_t length)
{
    static struct tables t;
    if (read_into(&t, bytes, length) != 0)
        return;
    ask_words(t.components, OLHOVEST_WORDS(t.answer.components, *t.components));
    ask_words(t.pins, OLHOVEST_WORDS(t.answer.pins, *t.pins));
    ask_words(t.models, OLHOVEST_WORDS(t.answer.models, *t.models));
    ask_words(t.waveforms, OLHOVEST_WORDS(t.answer.waveforms, *t.waveforms));
    ask_words(t.rows, OLHOVEST_WORDS(t.answer.rows, *t.rows));
    for (size_t k = 0; k <= t.answer.rows; k++)
        ask_row(t.rows, OLHOVEST_WORDS(t.answer.rows, *t.rows), k);
}

int main(int count, char **paths)
{
    ask_files(count - 1, paths + 1, ask_file);
    for (int power = LEAST_POWER; power < LEAST_POWER + POWERS; power++)
        ask_edges(power);
    for (int power = 2; power <= FARTHEST_POWER; power++)
        ask_half_way(power);
    for (uint64_t i = 0; i < 4 * POWERS; i++)
        ask_cell(OLHOVEST_MISSING - i);
    for (int i = 0; i < ANY_WORDS; i++) {
        ask_cell(any());
        ask_cell(any_cell());
    }
    for (int i = 0; i < ANY_STORES; i++)
        ask_any_rows();
    printf("doubled: %ld passed, %ld failed\n", passed, failed);
    return failed != 0;
}
