/* What a bench judges by: each pin of a file on standard input whose model has thresholds, with Vinl and Vinh in volts. */
#include "olhovest.h"

#include <stdio.h>

static uint8_t bytes[OLHOVEST_BYTES + 1];
static struct olhovest_component components[OLHOVEST_COMPONENTS];
static struct olhovest_pin pins[OLHOVEST_PINS];
static struct olhovest_selector selectors[OLHOVEST_SELECTORS];
static struct olhovest_choice choices[OLHOVEST_CHOICES];
static struct olhovest_model models[OLHOVEST_MODELS];
static struct olhovest_waveform waveforms[OLHOVEST_WAVEFORMS];
static struct olhovest_row rows[OLHOVEST_ROWS];
static struct olhovest_answer answer;

static void print_cell(olhovest_cell c)
{
    printf(" %s%llue%d", olhovest_negative(c) ? "-" : "", (unsigned long long)olhovest_digits(c), olhovest_power(c));
}

int main(void)
{
    size_t length = fread(bytes, 1, sizeof bytes, stdin);
    uint8_t fault = olhovest_read(bytes, length, components, sizeof components / 8, pins, sizeof pins / 8, selectors,
                                  sizeof selectors / 8, choices, sizeof choices / 8, models, sizeof models / 8,
                                  waveforms, sizeof waveforms / 8, rows, sizeof rows / 8, &answer);
    if (fault != 0) {
        printf("refused: %d in line %llu, column %llu\n", fault, (unsigned long long)answer.line,
               (unsigned long long)answer.column);
        return 1;
    }
    for (size_t pin = 0; pin < answer.pins; pin++) {
        size_t model = olhovest_model_of_pin(pins, OLHOVEST_WORDS(answer.pins, *pins),
                                             selectors, OLHOVEST_WORDS(answer.selectors, *selectors),
                                             choices, OLHOVEST_WORDS(answer.choices, *choices),
                                             models, OLHOVEST_WORDS(answer.models, *models), pin);
        if (model == OLHOVEST_NONE || olhovest_missing(models[model].vinl) || olhovest_missing(models[model].vinh))
            continue;
        printf("%.40s", pins[pin].name.bytes);
        print_cell(models[model].vinl);
        print_cell(models[model].vinh);
        putchar('\n');
    }
    return 0;
}
