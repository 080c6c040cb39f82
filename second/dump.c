/* Writes all that the tables keep, line by line, so that two readers can be compared whole; and the listing. */
#include "dump.h"

static void put_text(FILE *out, struct text text)
{
    fwrite(text.start, 1, (size_t)(text.end - text.start), out);
}

/* A label, one space, a text that may hold blanks. */
static void put_named_text(FILE *out, const char *label, struct text text)
{
    fprintf(out, "%s ", label);
    put_text(out, text);
    putc('\n', out);
}

static void put_cell(FILE *out, const struct cell *cell)
{
    if (cell->given)
        fprintf(out, DECIMAL, cell->whole, cell->power);
    else
        fputs("NA", out);
}

/* A label and its cells, with one space before each. */
static void put_cells(FILE *out, const char *label, const struct cell *cells, unsigned count)
{
    fputs(label, out);
    for (unsigned i = 0; i < count; i++) {
        putc(' ', out);
        put_cell(out, &cells[i]);
    }
    putc('\n', out);
}

/* Three cells, or `-` where there are none. */
static void put_corners(FILE *out, const char *label, const struct cell corners[CORNERS])
{
    if (corners[TYP].given)
        put_cells(out, label, corners, CORNERS);
    else
        fprintf(out, "%s -\n", label);
}

static void put_rows(FILE *out, const struct file *file, const struct table *table)
{
    for (uint32_t i = 0; i < table->count; i++)
        put_cells(out, "ROW", file->rows[table->first + i].cells, 1 + CORNERS);
}

static void put_component(FILE *out, const struct file *file, uint32_t number)
{
    const struct component *component = &file->components[number];
    fprintf(out, "COMPONENT %" PRIu32 " ", number);
    put_text(out, component->name);
    fprintf(out, "\nSI_LOCATION %s\n", second_locations[component->si_location].spelling);
    fprintf(out, "TIMING_LOCATION %s\n", second_locations[component->timing_location].spelling);
    put_named_text(out, "MANUFACTURER", component->manufacturer);
    put_cells(out, "R_PKG", component->package[0], CORNERS);
    put_cells(out, "L_PKG", component->package[1], CORNERS);
    put_cells(out, "C_PKG", component->package[2], CORNERS);
    fprintf(out, "PINS %" PRIu32 "\n", component->pin_count);
    for (uint32_t i = 0; i < component->pin_count; i++) {
        const struct pin *pin = &file->pins[component->first_pin + i];
        fputs("PIN ", out);
        put_text(out, pin->name);
        putc(' ', out);
        put_text(out, pin->signal);
        putc(' ', out);
        put_text(out, pin->model);
        put_cells(out, "", pin->cells, 3);
    }
}

static void put_selector(FILE *out, const struct file *file, uint32_t number)
{
    const struct selector *selector = &file->selectors[number];
    fprintf(out, "SELECTOR %" PRIu32 " ", number);
    put_text(out, selector->name);
    fprintf(out, "\nCHOICES %" PRIu32 "\n", selector->choice_count);
    for (uint32_t i = 0; i < selector->choice_count; i++) {
        const struct choice *choice = &file->choices[selector->first_choice + i];
        fputs("CHOICE ", out);
        put_text(out, choice->model);
        if (choice->description.start != choice->description.end)
            putc(' ', out);
        put_text(out, choice->description);
        putc('\n', out);
    }
}

static void put_slopes(FILE *out, const char *label, const struct slope slopes[CORNERS])
{
    fputs(label, out);
    for (unsigned i = 0; i < CORNERS; i++) {
        putc(' ', out);
        put_cell(out, &slopes[i].dividend);
        if (slopes[i].dividend.given) {
            putc('/', out);
            put_cell(out, &slopes[i].divisor);
        }
    }
    putc('\n', out);
}

static void put_ramp(FILE *out, const struct ramp *ramp)
{
    fputs(ramp->given ? "RAMP +\n" : "RAMP -\n", out);
    if (!ramp->given)
        return;
    put_slopes(out, "DVDT_R", ramp->slopes[0]);
    put_slopes(out, "DVDT_F", ramp->slopes[1]);
    put_cells(out, "R_LOAD", &ramp->load, 1);
}

static void put_tables(FILE *out, const struct file *file, const struct model *model)
{
    static const char *const names[CURRENT_TABLES] = { "Pulldown", "Pullup", "GND_Clamp", "POWER_Clamp" };
    for (unsigned i = 0; i < CURRENT_TABLES; i++) {
        const struct table *table = &model->tables[i];
        if (table->given)
            fprintf(out, "TABLE %s %" PRIu32 "\n", names[i], table->count);
        else
            fprintf(out, "TABLE %s -\n", names[i]);
        put_rows(out, file, table);
    }
}

static void put_waveforms(FILE *out, const struct file *file, const struct model *model)
{
    static const char *const names[FIXTURES] = {
        "R_FIXTURE", "V_FIXTURE", "V_FIXTURE_MIN", "V_FIXTURE_MAX", "C_FIXTURE", "L_FIXTURE", "R_DUT", "L_DUT", "C_DUT",
    };
    fprintf(out, "WAVEFORMS %" PRIu32 "\n", model->waveform_count);
    for (uint32_t i = 0; i < model->waveform_count; i++) {
        const struct waveform *waveform = &file->waveforms[model->first_waveform + i];
        fprintf(out, "WAVEFORM %s %" PRIu32 "\n", waveform->rising ? "Rising" : "Falling", waveform->table.count);
        for (unsigned k = 0; k < FIXTURES; k++)
            put_cells(out, names[k], &waveform->fixtures[k], 1);
        put_rows(out, file, &waveform->table);
    }
}

static void put_model(FILE *out, const struct file *file, uint32_t number)
{
    static const char *const capacitances[CAPACITANCES] = {
        "C_COMP", "C_COMP_PULLUP", "C_COMP_PULLDOWN", "C_COMP_POWER_CLAMP", "C_COMP_GND_CLAMP",
    };
    static const char *const levels[LEVELS] = { "VINL", "VINH", "VMEAS", "CREF", "RREF", "VREF" };
    const struct model *model = &file->models[number];
    fprintf(out, "MODEL %" PRIu32 " ", number);
    put_text(out, model->name);
    fprintf(out, "\nMODEL_TYPE %s\n", second_model_types[model->type].spelling);
    fprintf(out, "POLARITY %s\n", second_polarities[model->polarity].spelling);
    fprintf(out, "ENABLE %s\n", second_enables[model->enable].spelling);
    for (unsigned i = 0; i < CAPACITANCES; i++)
        put_corners(out, capacitances[i], model->capacitances[i]);
    for (unsigned i = 0; i < LEVELS; i++)
        put_cells(out, levels[i], &model->levels[i], 1);
    put_cells(out, "VOLTAGE_RANGE", model->voltage, CORNERS);
    put_corners(out, "TEMPERATURE_RANGE", model->temperature);
    put_tables(out, file, model);
    put_ramp(out, &model->ramp);
    put_waveforms(out, file, model);
}

void write_refusal(FILE *out, int fault, const struct file *file)
{
    fprintf(out, "NO %d %" PRIu32 " %" PRIu32 "\n", fault, file->line, file->column);
}

void write_dump(FILE *out, int fault, const struct file *file)
{
    static void (*const put_section[])(FILE *, const struct file *, uint32_t) = {
        [COMPONENT_SECTION] = put_component, [SELECTOR_SECTION] = put_selector, [MODEL_SECTION] = put_model,
    };
    if (fault != NO_FAULT) {
        write_refusal(out, fault, file);
        return;
    }
    fprintf(out, "OK %" PRIu32 " %" PRIu32 " %" PRIu32 " %" PRIu32, file->component_count, file->pin_count,
            file->selector_count, file->choice_count);
    fprintf(out, " %" PRIu32 " %" PRIu32 " %" PRIu32 "\n", file->model_count, file->waveform_count, file->row_count);
    put_named_text(out, "FILE_NAME", file->file_name);
    put_named_text(out, "FILE_REV", file->file_rev);
    for (uint32_t i = 0; i < file->section_count; i++)
        put_section[file->sections[i].kind](out, file, file->sections[i].number);
    fputs("END\n", out);
}

/* "model after selection": a selector stands for its first row. */
static const struct model *selected_model(const struct file *file, const struct pin *pin)
{
    if (pin->section == NO_SECTION)
        return NULL;
    const struct section *section = &file->sections[pin->section];
    if (section->kind == SELECTOR_SECTION) {
        const struct choice *choice = &file->choices[file->selectors[section->number].first_choice];
        section = &file->sections[choice->section];
    }
    return &file->models[section->number];
}

void write_listing(FILE *out, int fault, const struct file *file)
{
    static const struct cell missing[2] = { { .given = false }, { .given = false } };
    if (fault != NO_FAULT) {
        write_refusal(out, fault, file);
        return;
    }
    fprintf(out, "OK %" PRIu32 " %" PRIu32 " %" PRIu32 " %" PRIu32 " %" PRIu32 "\n", file->component_count,
            file->pin_count, file->selector_count, file->model_count, file->row_count);
    for (uint32_t i = 0; i < file->pin_count; i++) {
        const struct pin *pin = &file->pins[i];
        const struct model *model = selected_model(file, pin);
        fputs("P ", out);
        put_text(out, pin->name);
        putc(' ', out);
        put_text(out, pin->signal);
        putc(' ', out);
        put_text(out, model == NULL ? pin->model : model->name);
        put_cells(out, "", model == NULL ? missing : &model->levels[VINL], 2);
    }
}
