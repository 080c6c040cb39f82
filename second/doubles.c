/* Writes each cell of a file as a double, one a line: its 64 bits, NA where it is missing, or 24; in the order of the dump. */
#include "doubles.h"

static void put_double(FILE *out, const struct cell *cell)
{
    uint64_t bits;
    if (!cell->given)
        fputs("NA\n", out);
    else if (double_of(cell, &bits) == NO_DOUBLE)
        fprintf(out, "%d\n", NO_DOUBLE);
    else
        fprintf(out, "%016" PRIx64 "\n", bits);
}

static void put_doubles(FILE *out, const struct cell *cells, unsigned count)
{
    for (unsigned i = 0; i < count; i++)
        put_double(out, &cells[i]);
}

/* Three cells, or nothing where there are none. */
static void put_corners(FILE *out, const struct cell corners[CORNERS])
{
    if (corners[TYP].given)
        put_doubles(out, corners, CORNERS);
}

static void put_rows(FILE *out, const struct file *file, const struct table *table)
{
    for (uint32_t i = 0; i < table->count; i++)
        put_doubles(out, file->rows[table->first + i].cells, 1 + CORNERS);
}

static void put_component(FILE *out, const struct file *file, uint32_t number)
{
    const struct component *component = &file->components[number];
    for (unsigned i = 0; i < 3; i++)
        put_doubles(out, component->package[i], CORNERS);
    for (uint32_t i = 0; i < component->pin_count; i++)
        put_doubles(out, file->pins[component->first_pin + i].cells, 3);
}

/* A dV/dt word has two cells, or one that is missing. */
static void put_slopes(FILE *out, const struct slope slopes[CORNERS])
{
    for (unsigned i = 0; i < CORNERS; i++) {
        put_double(out, &slopes[i].dividend);
        if (slopes[i].dividend.given)
            put_double(out, &slopes[i].divisor);
    }
}

static void put_ramp(FILE *out, const struct ramp *ramp)
{
    if (!ramp->given)
        return;
    put_slopes(out, ramp->slopes[0]);
    put_slopes(out, ramp->slopes[1]);
    put_double(out, &ramp->load);
}

static void put_model(FILE *out, const struct file *file, uint32_t number)
{
    const struct model *model = &file->models[number];
    for (unsigned i = 0; i < CAPACITANCES; i++)
        put_corners(out, model->capacitances[i]);
    put_doubles(out, model->levels, LEVELS);
    put_doubles(out, model->voltage, CORNERS);
    put_corners(out, model->temperature);
    for (unsigned i = 0; i < CURRENT_TABLES; i++)
        put_rows(out, file, &model->tables[i]);
    put_ramp(out, &model->ramp);
    for (uint32_t i = 0; i < model->waveform_count; i++) {
        const struct waveform *waveform = &file->waveforms[model->first_waveform + i];
        put_doubles(out, waveform->fixtures, FIXTURES);
        put_rows(out, file, &waveform->table);
    }
}

void write_doubles(FILE *out, int fault, const struct file *file)
{
    if (fault != NO_FAULT) {
        write_refusal(out, fault, file);
        return;
    }
    for (uint32_t i = 0; i < file->section_count; i++) {
        const struct section *section = &file->sections[i];
        if (section->kind == COMPONENT_SECTION)
            put_component(out, file, section->number);
        else if (section->kind == MODEL_SECTION)
            put_model(out, file, section->number);
    }
}
