/* The program `second`: dumps one file, gives its cells as doubles or lists its pins; or the first two of a batch of files. */
#include "dump.h"

#include <string.h>

enum { BATCH_BYTES = 131072, RECORD_NUMBERS = 8 };

static uint8_t bytes[BATCH_BYTES];
static struct row rows[MAX_ROWS];
static struct file file = { .rows = rows };

static const struct lengths at_their_bounds = {
    MAX_COMPONENTS, MAX_PINS, MAX_SELECTORS, MAX_CHOICES, MAX_MODELS, MAX_WAVEFORMS, MAX_ROWS,
};

typedef void writer(FILE *, int, const struct file *);

static int read_one(const char *path, writer *write)
{
    bool standard = strcmp(path, "-") == 0;
    FILE *in = standard ? stdin : fopen(path, "rb");
    if (in == NULL) {
        perror(path);
        return 2;
    }
    size_t length = fread(bytes, 1, sizeof bytes, in);      /* what is longer is too long anyway */
    bool failed = ferror(in) != 0;
    if (!standard)
        fclose(in);
    if (failed) {
        perror(path);
        return 2;
    }
    write(stdout, second_read(bytes, length, &at_their_bounds, &file), &file);
    return 0;
}

/* Numbers of four bytes, lowest byte first; false if they are cut off. */
static bool read_record_numbers(uint32_t numbers[RECORD_NUMBERS])
{
    uint8_t head[4 * RECORD_NUMBERS];
    if (fread(head, 1, sizeof head, stdin) != sizeof head)
        return false;
    for (unsigned i = 0; i < RECORD_NUMBERS; i++) {
        const uint8_t *number = head + 4 * i;
        numbers[i] = number[0] | (uint32_t)number[1] << 8 | (uint32_t)number[2] << 16 | (uint32_t)number[3] << 24;
    }
    return true;
}

/* Behind each answer stands what tells it from the next, if it does not tell that by itself. */
static int read_batch(writer *write, const char *behind)
{
    uint32_t numbers[RECORD_NUMBERS];
    while (read_record_numbers(numbers)) {
        size_t length = numbers[7];
        if (length > sizeof bytes) {
            fputs("second: a record is too long\n", stderr);
            return 2;
        }
        if (fread(bytes, 1, length, stdin) != length)
            break;
        struct lengths lent = {
            numbers[0], numbers[1], numbers[2], numbers[3], numbers[4], numbers[5],
            numbers[6] < MAX_ROWS ? numbers[6] : MAX_ROWS,
        };
        write(stdout, second_read(bytes, length, &lent, &file), &file);
        fputs(behind, stdout);
        fflush(stdout);                                     /* for a caller that waits for each answer */
    }
    return 0;
}

int main(int count, char **words)
{
    if (count == 2 && strcmp(words[1], "--batch") == 0)
        return read_batch(write_dump, "");
    if (count == 2 && strcmp(words[1], "--batch-doubles") == 0)
        return read_batch(write_doubles, "\n");
    if (count == 3 && strcmp(words[1], "--doubles") == 0)
        return read_one(words[2], write_doubles);
    if (count == 3 && strcmp(words[1], "--listing") == 0)
        return read_one(words[2], write_listing);
    if (count == 2)
        return read_one(words[1], write_dump);
    fputs("usage: second FILE | second - | second --doubles - | second --listing - | second --batch | second --batch-doubles\n",
          stderr);
    return 2;
}
