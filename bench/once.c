/* once WHAT FILE: reads the file with the proved reader or the second one, once, so that its instructions can be counted. */
#include "tables.h"
#include "../second/reader.h"

#include <stdio.h>
#include <string.h>

static uint8_t bytes[MAX_BYTES + 1];
static struct tables tables;
static struct row second_rows[MAX_ROWS];
static struct file second_file = { .rows = second_rows };
static const struct lengths second_lent = {
    MAX_COMPONENTS, MAX_PINS, MAX_SELECTORS, MAX_CHOICES, MAX_MODELS, MAX_WAVEFORMS, MAX_ROWS,
};

int main(int count, char **words)
{
    FILE *file = count == 3 ? fopen(words[2], "rb") : NULL;
    if (file == NULL) {
        fprintf(stderr, "once: give nothing, check, fill or second, and a file that can be read\n");
        return 2;
    }
    size_t length = fread(bytes, 1, sizeof bytes, file);
    if (strcmp(words[1], "check") == 0)
        return check_only(bytes, length, &tables.answer);
    if (strcmp(words[1], "fill") == 0)
        return read_into(&tables, bytes, length);
    if (strcmp(words[1], "second") == 0)
        return second_read(bytes, length, &second_lent, &second_file) != 0;
    return 0;
}
