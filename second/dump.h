/* Writing what the second reader read: the whole dump, its cells as doubles, or the listing of pins. */
#ifndef SECOND_DUMP_H
#define SECOND_DUMP_H

#include "reader.h"

#include <inttypes.h>
#include <stdio.h>

/* How a number is spelled: its whole number and its power. */
#define DECIMAL "%" PRId64 "e%" PRId32

void write_refusal(FILE *out, int fault, const struct file *file);
void write_dump(FILE *out, int fault, const struct file *file);
void write_doubles(FILE *out, int fault, const struct file *file);
void write_listing(FILE *out, int fault, const struct file *file);

#endif
