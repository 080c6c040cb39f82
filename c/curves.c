/* What an analysis in double precision starts from: the current tables of a file on standard input, in volts and amperes. */
#include "olhovest.h"

#include <stdio.h>

static uint8_t bytes[OLHOVEST_BYTES + 1];
static struct olhovest_component components[OLHOVEST_COMPONENTS];
static struct olhovest_pin pins[OLHOVEST_PINS];
static struct olhovest_selector selectors[OLHOVEST_SELECTORS];
static struct olhovest_choice choices[OLHOVEST_CHOICES];
static struct olhovest_model models[OLHOVEST_MODELS];
static struct olhovest_waveform waveforms[OLHOVEST_WAVEFORMS];
static struct olhovest_row rows[OLHOVEST_ROWS];
static struct olhovest_answer answer;

/* One row: a number that is no double, or none at all, is told by its answer. */
static void print_row(size_t place)
{
    double values[OLHOVEST_ROW_WORDS];
    uint8_t answers[OLHOVEST_ROW_WORDS];
    if (!olhovest_row_doubles(rows, OLHOVEST_WORDS(answer.rows, *rows), place, values, answers))
        return;
    for (size_t i = 0; i < OLHOVEST_ROW_WORDS; i++) {
        if (answers[i] == 0)
            printf(" %.17g", values[i]);
        else
            printf(answers[i] == OLHOVEST_NOT_GIVEN ? " NA" : " (fault %d)", answers[i]);
    }
    putchar('\n');
}

static void print_table(const char *name, const struct olhovest_table *table)
{
    for (size_t i = 0; i < table->rows.count; i++) {
        printf("%s", name);
        print_row(table->rows.start + i);
    }
}

int main(void)
{
    size_t length = fread(bytes, 1, sizeof bytes, stdin);
    uint8_t fault = olhovest_read(bytes, length, components, sizeof components / 8, pins, sizeof pins / 8, selectors,
                                  sizeof selectors / 8, choices, sizeof choices / 8, models, sizeof models / 8,
                                  waveforms, sizeof waveforms / 8, rows, sizeof rows / 8, &answer);
    if (fault != 0) {
        printf("refused: %d in line %llu, column %llu\n", fault, (unsigned long long)answer.line,
               (unsigned long long)answer.column);
        return 1;
    }
    for (size_t k = 0; k < answer.models; k++) {
        printf("%.40s\n", models[k].name.bytes);
        print_table("pulldown", &models[k].pulldown);
        print_table("pullup", &models[k].pullup);
        print_table("ground clamp", &models[k].ground_clamp);
        print_table("power clamp", &models[k].power_clamp);
    }
    return 0;
}
