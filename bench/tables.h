/* Tables at the bounds of a file, and the calls that lend them. */
#ifndef BENCH_TABLES_H
#define BENCH_TABLES_H

#include "olhovest.h"

struct tables {
    struct olhovest_component components[OLHOVEST_COMPONENTS];
    struct olhovest_pin pins[OLHOVEST_PINS];
    struct olhovest_selector selectors[OLHOVEST_SELECTORS];
    struct olhovest_choice choices[OLHOVEST_CHOICES];
    struct olhovest_model models[OLHOVEST_MODELS];
    struct olhovest_waveform waveforms[OLHOVEST_WAVEFORMS];
    struct olhovest_row rows[OLHOVEST_ROWS];
    struct olhovest_answer answer;
};

/* With so many words of rows lent. */
static inline uint8_t read_with_rows(struct tables *t, const uint8_t *bytes, size_t length, size_t row_words)
{
    return olhovest_read(bytes, length, t->components, sizeof t->components / 8, t->pins, sizeof t->pins / 8,
                         t->selectors, sizeof t->selectors / 8, t->choices, sizeof t->choices / 8,
                         t->models, sizeof t->models / 8, t->waveforms, sizeof t->waveforms / 8,
                         t->rows, row_words, &t->answer);
}

static inline uint8_t read_into(struct tables *t, const uint8_t *bytes, size_t length)
{
    return read_with_rows(t, bytes, length, OLHOVEST_ROW_STORE_WORDS);
}

static inline uint8_t check_only(const uint8_t *bytes, size_t length, struct olhovest_answer *answer)
{
    return olhovest_check(bytes, length, OLHOVEST_COMPONENTS, OLHOVEST_PINS, OLHOVEST_SELECTORS, OLHOVEST_CHOICES,
                          OLHOVEST_MODELS, OLHOVEST_WAVEFORMS, answer);
}

#endif
