/*
 * agree FILE..: every field that the static library and the second reader give of each file is the same, or the fault is; the
 * library's check answers as its reading does; with fewer rows lent than it asks for, it answers 25; and it uses at most 32 KiB
 * of stack.
 */
#define _GNU_SOURCE
#include "stack.h"
#include "tables.h"
#include "../second/reader.h"

#include <stdio.h>
#include <string.h>

static uint8_t bytes[2 * MAX_BYTES];
static size_t length;
static struct tables tables, before;
static struct row rows[MAX_ROWS];
static struct file file = { .rows = rows };
static const struct lengths lent = {
    MAX_COMPONENTS, MAX_PINS, MAX_SELECTORS, MAX_CHOICES, MAX_MODELS, MAX_WAVEFORMS, MAX_ROWS,
};

/* ---- values; the second reader's on the right */

static bool cell(olhovest_cell a, struct cell b)
{
    if (!b.given)
        return olhovest_missing(a);
    int64_t whole = (int64_t)olhovest_digits(a);
    return !olhovest_missing(a) && (olhovest_negative(a) ? -whole : whole) == b.whole && olhovest_power(a) == b.power;
}

static bool cells(struct olhovest_triple a, const struct cell b[CORNERS])
{
    return cell(a.typ, b[TYP]) && cell(a.min, b[MIN]) && cell(a.max, b[MAX]);
}

/* "present with a typ number or absent as a whole": of one that is absent, the library too has no cell. */
static bool group(struct olhovest_range a, const struct cell b[CORNERS])
{
    return a.given == b[TYP].given && cells(a.cells, b);
}

static bool bytes_are(const char *a, uint64_t room, uint64_t count, struct text b)
{
    return count <= room && count == (uint64_t)(b.end - b.start) && memcmp(a, b.start, count) == 0
           && (count == room || a[count] == 0);
}

static bool text(const struct olhovest_text *a, struct text b)
{
    return bytes_are(a->bytes, sizeof a->bytes, a->length, b);
}

static bool name(const struct olhovest_name *a, struct text b)
{
    return bytes_are(a->bytes, sizeof a->bytes, a->length, b);
}

static bool span(struct olhovest_span a, uint32_t first, uint32_t count)
{
    return a.start == first && a.count == count;
}

static bool table(struct olhovest_table a, struct table b)
{
    return a.given == b.given && (!b.given || span(a.rows, b.first, b.count));
}

static bool slope(struct olhovest_slope a, struct slope b)
{
    return cell(a.dividend, b.dividend) && (!b.dividend.given || cell(a.divisor, b.divisor));
}

static bool slopes(const struct olhovest_slopes *a, const struct slope b[CORNERS])
{
    return slope(a->typ, b[TYP]) && slope(a->min, b[MIN]) && slope(a->max, b[MAX]);
}

/* ---- records */

static bool component(const struct olhovest_component *a, const struct component *b)
{
    return name(&a->name, b->name) && name(&a->manufacturer, b->manufacturer) && a->si_location == b->si_location
           && a->timing_location == b->timing_location && cells(a->resistance, b->package[0])
           && cells(a->inductance, b->package[1]) && cells(a->capacitance, b->package[2])
           && span(a->pins, b->first_pin, b->pin_count);
}

static bool pin(const struct olhovest_pin *a, const struct pin *b)
{
    return name(&a->name, b->name) && name(&a->signal, b->signal) && name(&a->model, b->model)
           && cell(a->resistance, b->cells[0]) && cell(a->inductance, b->cells[1]) && cell(a->capacitance, b->cells[2]);
}

static bool selector(const struct olhovest_selector *a, const struct selector *b)
{
    return name(&a->name, b->name) && span(a->choices, b->first_choice, b->choice_count);
}

static bool choice(const struct olhovest_choice *a, const struct choice *b)
{
    return name(&a->model, b->model) && text(&a->description, b->description);
}

static bool split(const struct olhovest_split *a, const struct model *b)
{
    return group(a->pullup, b->capacitances[C_COMP_PULLUP]) && group(a->pulldown, b->capacitances[C_COMP_PULLDOWN])
           && group(a->power_clamp, b->capacitances[C_COMP_POWER_CLAMP])
           && group(a->ground_clamp, b->capacitances[C_COMP_GND_CLAMP]);
}

static bool model(const struct olhovest_model *a, const struct model *b)
{
    return name(&a->name, b->name) && a->type + 1 == b->type && a->polarity == b->polarity && a->enable == b->enable
           && cells(a->comp, b->capacitances[C_COMP]) && split(&a->split, b)
           && cell(a->vinl, b->levels[VINL]) && cell(a->vinh, b->levels[VINH])
           && cell(a->vmeas, b->levels[VMEAS]) && cell(a->cref, b->levels[CREF]) && cell(a->rref, b->levels[RREF])
           && cell(a->vref, b->levels[VREF]) && cells(a->voltage, b->voltage)
           && a->temperature.given == b->temperature[TYP].given
           && (!a->temperature.given || cells(a->temperature.cells, b->temperature))
           && table(a->pulldown, b->tables[PULLDOWN_TABLE]) && table(a->pullup, b->tables[PULLUP_TABLE])
           && table(a->ground_clamp, b->tables[GND_CLAMP_TABLE]) && table(a->power_clamp, b->tables[POWER_CLAMP_TABLE])
           && a->ramp.given == b->ramp.given
           && (!b->ramp.given || (slopes(&a->ramp.rise, b->ramp.slopes[0]) && slopes(&a->ramp.fall, b->ramp.slopes[1])
                                  && cell(a->ramp.load, b->ramp.load)))
           && span(a->waveforms, b->first_waveform, b->waveform_count);
}

static bool waveform(const struct olhovest_waveform *a, const struct waveform *b)
{
    return (a->edge == 0) == b->rising && cell(a->r_fixture, b->fixtures[R_FIXTURE])
           && cell(a->v_fixture, b->fixtures[V_FIXTURE]) && cell(a->v_fixture_min, b->fixtures[V_FIXTURE_MIN])
           && cell(a->v_fixture_max, b->fixtures[V_FIXTURE_MAX]) && cell(a->c_fixture, b->fixtures[C_FIXTURE])
           && cell(a->l_fixture, b->fixtures[L_FIXTURE]) && cell(a->r_dut, b->fixtures[R_DUT])
           && cell(a->l_dut, b->fixtures[L_DUT]) && cell(a->c_dut, b->fixtures[C_DUT])
           && span(a->rows, b->table.first, b->table.count);
}

static bool row(const struct olhovest_row *a, const struct row *b)
{
    return cell(a->number, b->cells[0]) && cells(a->cells, b->cells + 1);
}

/* Places among all sections. */
static bool sections(void)
{
    for (uint32_t i = 0; i < file.section_count; i++) {
        uint32_t k = file.sections[i].number;
        uint64_t place = file.sections[i].kind == COMPONENT_SECTION  ? tables.components[k].section
                         : file.sections[i].kind == SELECTOR_SECTION ? tables.selectors[k].section
                                                                     : tables.models[k].section;
        if (place != i)
            return false;
    }
    return true;
}

#define EACH(count, same, left, right)         \
    for (size_t i = 0; i < (count); i++)       \
        if (!same(&(left)[i], &(right)[i]))    \
            return false

static bool records(void)
{
    const struct olhovest_answer *a = &tables.answer;
    if (a->components != file.component_count || a->pins != file.pin_count || a->selectors != file.selector_count
        || a->choices != file.choice_count || a->models != file.model_count || a->waveforms != file.waveform_count
        || a->rows != file.row_count)
        return false;
    EACH(a->components, component, tables.components, file.components);
    EACH(a->pins, pin, tables.pins, file.pins);
    EACH(a->selectors, selector, tables.selectors, file.selectors);
    EACH(a->choices, choice, tables.choices, file.choices);
    EACH(a->models, model, tables.models, file.models);
    EACH(a->waveforms, waveform, tables.waveforms, file.waveforms);
    EACH(a->rows, row, tables.rows, file.rows);
    return sections() && text(&a->file_name, file.file_name) && text(&a->file_rev, file.file_rev);
}

/* ---- one file */

static struct olhovest_answer answer;           /* of the check; that of the reading stands among the tables */
static uint8_t checked, filled;
static size_t check_stack, fill_stack;

static void check(void)
{
    checked = check_only(bytes, length, &answer);
}

static void fill(void)
{
    filled = read_into(&tables, bytes, length);
}

static size_t larger(size_t a, size_t b)
{
    return a < b ? b : a;
}

/* Refused at this place, with nothing told of the file, and every table as it was. */
static bool refused(uint64_t line, uint64_t column)
{
    before.answer = (struct olhovest_answer){ .line = line, .column = column };
    return memcmp(&before, &tables, sizeof tables) == 0;
}

#define KEPT(table) \
    (memcmp(tables.table + a->table, before.table + a->table, sizeof tables.table - a->table * sizeof *tables.table) == 0)

/* "After acceptance, records and rows past those used keep their content." */
static bool accepted(void)
{
    const struct olhovest_answer *a = &tables.answer;
    return a->line == 0 && a->column == 0 && records() && KEPT(components) && KEPT(pins) && KEPT(selectors)
           && KEPT(choices) && KEPT(models) && KEPT(waveforms) && KEPT(rows);
}

/* 25 "exactly if fewer than 8,192 rows are lent": none, a row less, or a word less. */
static bool asks_for_rows(void)
{
    static const size_t too_few[] = { 0, OLHOVEST_ROW_STORE_WORDS - OLHOVEST_ROW_WORDS, OLHOVEST_ROW_STORE_WORDS - 1 };
    for (size_t i = 0; i < sizeof too_few / sizeof *too_few; i++) {
        memset(&tables.answer, 0x5a, sizeof tables.answer);
        if (read_with_rows(&tables, bytes, length, too_few[i]) != ROWS_NOT_LENT || !refused(0, 0))
            return false;
    }
    return true;
}

static bool agree(void)
{
    int fault = second_read(bytes, length, &lent, &file);
    memset(&answer, 0xa5, sizeof answer);
    memset(&tables, 0x5a, sizeof tables);
    before = tables;
    if (!asks_for_rows())
        return false;
    memset(&tables.answer, 0x5a, sizeof tables.answer);
    check_stack = larger(check_stack, stack_of(check));
    fill_stack = larger(fill_stack, stack_of(fill));
    if (filled != fault || checked != fault || memcmp(&answer, &tables.answer, sizeof answer) != 0)
        return false;
    return fault == NO_FAULT ? accepted() : refused(file.line, file.column);
}

int main(int count, char **paths)
{
    int failed = 0;
    for (int i = 1; i < count; i++) {
        FILE *in = fopen(paths[i], "rb");
        if (in == NULL) {
            perror(paths[i]);
            return 2;
        }
        length = fread(bytes, 1, sizeof bytes, in);
        fclose(in);
        if (!agree()) {
            failed++;
            printf("agree: the readers differ on %s\n", paths[i]);
        }
    }
    printf("stack at the most: check %zu bytes, read %zu\n", check_stack, fill_stack);
    if (larger(check_stack, fill_stack) > 32768)
        failed++;
    printf("agree: %d passed, %d failed\n", count - failed, failed);
    return failed != 0;
}
