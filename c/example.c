/* The pins of a file on standard input, each with its model and that model's Vinl as digits and power. */
#include "olhovest.h"

#include <stdio.h>
#include <string.h>

static uint8_t bytes[OLHOVEST_BYTES + 1];
static struct olhovest_component components[OLHOVEST_COMPONENTS];
static struct olhovest_pin pins[OLHOVEST_PINS];
static struct olhovest_selector selectors[OLHOVEST_SELECTORS];
static struct olhovest_choice choices[OLHOVEST_CHOICES];
static struct olhovest_model models[OLHOVEST_MODELS];
static struct olhovest_waveform waveforms[OLHOVEST_WAVEFORMS];
static struct olhovest_row rows[OLHOVEST_ROWS];
static struct olhovest_answer answer;

int main(void)
{
    if (olhovest_version() != OLHOVEST_VERSION) {
        fprintf(stderr, "the library is of version %llu: compile this program with its header\n",
                (unsigned long long)olhovest_version());
        return 2;
    }
    size_t length = fread(bytes, 1, sizeof bytes, stdin);
    uint8_t fault = olhovest_read(bytes, length, components, sizeof components / 8, pins, sizeof pins / 8, selectors,
                                  sizeof selectors / 8, choices, sizeof choices / 8, models, sizeof models / 8,
                                  waveforms, sizeof waveforms / 8, rows, sizeof rows / 8, &answer);
    if (fault != 0) {
        printf("refused: %d in line %llu, column %llu\n", fault, (unsigned long long)answer.line,
               (unsigned long long)answer.column);
        return 1;
    }
    for (size_t i = 0; i < answer.pins; i++) {
        printf("%.40s %.40s", pins[i].name.bytes, pins[i].model.bytes);
        for (size_t k = 0; k < answer.models; k++)
            if (memcmp(&models[k].name, &pins[i].model, sizeof models[k].name) == 0)
                printf(" %llue%d", (unsigned long long)olhovest_digits(models[k].vinl), olhovest_power(models[k].vinl));
        putchar('\n');
    }
    return 0;
}
