/* The words of a line, the flaws that words have, the names they may spell, and the reserved words. */
#ifndef SECOND_WORDS_H
#define SECOND_WORDS_H

#include "reader.h"

#include <string.h>

#define NAME(spelling) { spelling, sizeof spelling - 1 }

enum { MAX_NAME = 40, MAX_PIN_NAME = 8 };

/* Words that count in any letter case and are kept in capitals; the first three need no model. */
enum reserved { POWER_WORD, GND_WORD, NC_WORD, NA_WORD, CIRCUITCALL_WORD, NOT_RESERVED };
static const struct name reserved_names[NOT_RESERVED] = {
    NAME("POWER"), NAME("GND"), NAME("NC"), NAME("NA"), NAME("CIRCUITCALL"),
};

static inline bool is_blank(uint8_t byte)
{
    return byte == ' ' || byte == '\t';
}

static inline bool is_letter(uint8_t byte)
{
    return (unsigned)(byte | 0x20) - 'a' < 26;
}

static inline uint8_t small_letter(uint8_t byte)
{
    return (unsigned)byte - 'A' < 26 ? byte + ('a' - 'A') : byte;
}

static inline size_t length_of(struct text text)
{
    return (size_t)(text.end - text.start);
}

static inline bool is_empty(struct text text)
{
    return text.start == text.end;
}

static inline void skip_blanks(struct text *rest)
{
    while (rest->start < rest->end && is_blank(*rest->start))
        rest->start++;
}

static inline void skip_word(struct text *rest)
{
    while (rest->start < rest->end && !is_blank(*rest->start))
        rest->start++;
}

/* Where there is none, the word is empty and at the line's end: the place that is told of a missing word. */
static inline bool next_word(struct text *rest, struct text *word)
{
    skip_blanks(rest);
    word->start = rest->start;
    skip_word(rest);
    word->end = rest->start;
    return !is_empty(*word);
}

static const struct flaw no_flaw = { NO_FAULT, NULL };

/* A fault that tells no column. */
static inline struct flaw flaw_of_line(enum fault fault)
{
    return (struct flaw){ fault, NULL };
}

/* A word that begins here is wrong or one too many, or one is missing and this is the line's end. */
static inline struct flaw wrong_word(const uint8_t *at)
{
    return (struct flaw){ WRONG_WORD, at };
}

/* "of surplus words the first is at fault". */
static inline struct flaw expect_end(struct text rest)
{
    skip_blanks(&rest);
    return is_empty(rest) ? no_flaw : wrong_word(rest.start);
}

static inline bool same_bytes(struct text text, const void *bytes, size_t length)
{
    return length_of(text) == length && memcmp(text.start, bytes, length) == 0;
}

static inline unsigned find_name(struct text word, const struct name *names, unsigned count)
{
    unsigned i = 0;
    while (i < count && !same_bytes(word, names[i].spelling, names[i].length))
        i++;
    return i;
}

static inline bool same_in_any_case(struct text word, const struct name *name)
{
    if (length_of(word) != name->length)
        return false;
    for (unsigned i = 0; i < name->length; i++)
        if (small_letter(word.start[i]) != small_letter((uint8_t)name->spelling[i]))
            return false;
    return true;
}

static inline enum reserved find_reserved(struct text word)
{
    unsigned i = 0;
    while (i < NOT_RESERVED && !same_in_any_case(word, &reserved_names[i]))
        i++;
    return i;
}

/* "1 to 40 characters", or however many. */
static inline bool fits(struct text text, size_t longest)
{
    return !is_empty(text) && length_of(text) <= longest;
}

/* "No pin, model or selector name begins with `[`". */
static inline bool is_row_name(struct text word, size_t longest)
{
    return fits(word, longest) && *word.start != '[';
}

/* "no model or selector name, in selector rows too, is one of the five". */
static inline bool is_model_name(struct text word)
{
    return is_row_name(word, MAX_NAME) && find_reserved(word) == NOT_RESERVED;
}

#endif
