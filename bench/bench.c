/*
 * The bench: the proved reader and the second one on the files named, in one run, turn and turn about. Each time is the
 * best of ROUNDS, each over as many calls as take about a millisecond.
 */
#define _GNU_SOURCE
#include "tables.h"
#include "../second/reader.h"

#include <stdio.h>
#include <stdlib.h>
#include <string.h>
#include <time.h>

enum { ROUNDS = 40, ROUND_NANOSECONDS = 1000000 };

static uint8_t bytes[MAX_BYTES + 1];
static size_t length;

static struct tables tables;
static struct row second_rows[MAX_ROWS];
static struct file second_file = { .rows = second_rows };
static const struct lengths second_lent = {
    MAX_COMPONENTS, MAX_PINS, MAX_SELECTORS, MAX_CHOICES, MAX_MODELS, MAX_WAVEFORMS, MAX_ROWS,
};

/* ---- what is measured: each answers something of the file, so that nothing is left out */

static uint64_t pass(void)
{
    uint64_t lines = 0;
    for (size_t i = 0; i < length; i++) {
        lines += bytes[i] == '\n';
        __asm__ volatile("" : "+r"(lines));                  /* byte by byte, as a reader must look at them */
    }
    return lines;
}

static uint64_t check(void)
{
    struct olhovest_answer answer;
    return check_only(bytes, length, &answer);
}

static uint64_t fill(void)
{
    return read_into(&tables, bytes, length);
}

static uint64_t second(void)
{
    return (uint64_t)second_read(bytes, length, &second_lent, &second_file);
}

enum { PASS, CHECK, FILL, SECOND, MEASURED };
static uint64_t (*volatile measured[MEASURED])(void) = { pass, check, fill, second };

/* ---- time */

static double now(void)
{
    struct timespec t;
    clock_gettime(CLOCK_MONOTONIC, &t);
    return 1e9 * (double)t.tv_sec + (double)t.tv_nsec;
}

static double time_calls(uint64_t (*function)(void), unsigned calls)
{
    double began = now();
    for (unsigned i = 0; i < calls; i++)
        function();                                         /* through a pointer: no call is left out */
    return (now() - began) / calls;
}

static void measure(double best[MEASURED])
{
    unsigned calls[MEASURED];
    for (int i = 0; i < MEASURED; i++) {
        best[i] = time_calls(measured[i], 4);
        calls[i] = 1 + (unsigned)(ROUND_NANOSECONDS / (best[i] + 1));
    }
    for (int round = 0; round < ROUNDS; round++)
        for (int i = 0; i < MEASURED; i++) {
            double took = time_calls(measured[i], calls[i]);
            if (took < best[i])
                best[i] = took;
        }
}

/* ---- one file */

static void load(const char *path)
{
    FILE *in = fopen(path, "rb");
    if (in == NULL) {
        perror(path);
        exit(2);
    }
    length = fread(bytes, 1, sizeof bytes, in);
    fclose(in);
}

/* Both accept the file, and agree on what is in it. */
static void agree(const char *path)
{
    uint64_t number = fill();
    const struct olhovest_answer *a = &tables.answer;
    const struct file *f = &second_file;
    if (number != second() || number != NO_FAULT || check() != NO_FAULT || a->components != f->component_count
        || a->pins != f->pin_count || a->selectors != f->selector_count || a->choices != f->choice_count
        || a->models != f->model_count || a->waveforms != f->waveform_count || a->rows != f->row_count) {
        fprintf(stderr, "bench: the readers do not agree on %s\n", path);
        exit(1);
    }
}

int main(int count, char **paths)
{
    puts("                        nanoseconds a byte              ratio to second");
    puts("file            bytes   pass  check   fill  second     check   fill");
    for (int i = 1; i < count; i++) {
        load(paths[i]);
        agree(paths[i]);
        double best[MEASURED];
        measure(best);
        const char *slash = strrchr(paths[i], '/');
        printf("%-14s %6zu  %5.2f  %5.2f  %5.2f   %5.2f     %5.2f  %5.2f\n", slash ? slash + 1 : paths[i], length,
               best[PASS] / (double)length, best[CHECK] / (double)length, best[FILL] / (double)length,
               best[SECOND] / (double)length, best[CHECK] / best[SECOND], best[FILL] / best[SECOND]);
    }
    return 0;
}
