/*
 * What programs share that question the static library: files, counted comparisons, words as a mistaken caller's tables may hold
 * them, and tables that end where a page begins that must not be touched, so that one word read behind them ends the run.
 */
#ifndef BENCH_ASKING_H
#define BENCH_ASKING_H

#include "tables.h"

#include <stdarg.h>
#include <stdbool.h>
#include <stdio.h>
#include <stdlib.h>
#include <sys/mman.h>
#include <unistd.h>

enum { MOST_RECORDS = 12, MOST_TOLD = 20 };
#define TEN_TO_15 UINT64_C(1000000000000000)

/* ---- comparisons */

static long passed, failed;

__attribute__((format(printf, 2, 3)))
static inline void hold(bool right, const char *what, ...)
{
    passed += right;
    failed += !right;
    if (right || failed > MOST_TOLD)
        return;
    va_list more;
    va_start(more, what);
    vprintf(what, more);
    va_end(more);
    puts(" is answered wrongly");
}

/* ---- files */

static inline void ask_files(int count, char **paths, void (*ask)(const uint8_t *bytes, size_t length))
{
    static uint8_t bytes[2 * OLHOVEST_BYTES];
    for (int i = 0; i < count; i++) {
        FILE *in = fopen(paths[i], "rb");
        if (in == NULL) {
            perror(paths[i]);
            exit(2);
        }
        size_t length = fread(bytes, 1, sizeof bytes, in);
        fclose(in);
        ask(bytes, length);
    }
}

/* ---- words, lengths and places */

/* A cell as the library hands it out: digits past the fifteenth are no cell of a reading's, and are left out. */
static inline olhovest_cell handed(olhovest_cell c)
{
    return olhovest_missing(c) ? c : c / 512 % TEN_TO_15 * 512 + c % 512;
}

static inline uint64_t any(void)
{
    static uint64_t state = 88172645463325252;
    state ^= state << 13, state ^= state >> 7, state ^= state << 17;
    return state;
}

/* Often small, so that names and places meet. */
static inline uint64_t any_word(void)
{
    switch (any() % 8) {
    case 0: return 0;
    case 1: return any();
    case 2: return UINT64_MAX - any() % 3;
    case 3: return 'a' + any() % 2;
    default: return any() % 4;
    }
}

/* How many words a table of such records has; the last of them may be cut. */
static inline size_t any_length(size_t record)
{
    return any() % (MOST_RECORDS * record / 8 + 1);
}

static inline size_t any_place(void)
{
    return any() % 4 == 0 ? (size_t)any_word() : (size_t)(any() % (MOST_RECORDS + 2));
}

/* So many words that end where an untouchable page begins; six such tables are there at a time. */
static inline uint64_t *lend(size_t words, uint64_t (*word)(void))
{
    static uint8_t *tables[6];
    static int next;
    size_t page = (size_t)sysconf(_SC_PAGESIZE), room = (sizeof(struct olhovest_model) * MOST_RECORDS / page + 2) * page;
    int k = next++ % 6;
    if (tables[k] == NULL) {
        tables[k] = mmap(NULL, room + page, PROT_READ | PROT_WRITE, MAP_PRIVATE | MAP_ANONYMOUS, -1, 0);
        if (tables[k] == MAP_FAILED || mprotect(tables[k] + room, page, PROT_NONE) != 0)
            exit(2);
    }
    uint64_t *table = (uint64_t *)(tables[k] + room) - words;
    for (size_t i = 0; i < words; i++)
        table[i] = word();
    return table;
}

#endif
