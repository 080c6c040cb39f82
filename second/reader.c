/* The second reader's work: takes the lines of a file from the top, once, and fills the tables as it goes. */
#include "hierarchy.h"
#include "names.h"
#include "numbers.h"

#define COUNT(array) (sizeof(array) / sizeof *(array))

enum { MIN_ROWS = 2, MAX_CURRENT_ROWS = 100, MAX_WAVEFORM_ROWS = 1000 };

/* Where a line stands: what was opened last and is not closed yet. */
enum place { BEFORE_VERSION, IN_HEADER, IN_COMPONENT, IN_SELECTOR, IN_MODEL, AFTER_END, ANY_PLACE };

/* Which lines without a keyword may stand here. */
enum list {
    NO_LINES, TEXT_LINES, COMPONENT_LINES, PACKAGE_LINES, PIN_ROWS, CHOICE_ROWS, MODEL_LINES, CURRENT_ROWS,
    RAMP_LINES, WAVEFORM_LINES
};

enum keyword {
    IBIS_VER, FILE_NAME, FILE_REV, DATE, SOURCE, NOTES, DISCLAIMER, COPYRIGHT, COMPONENT, MANUFACTURER, PACKAGE, PIN,
    MODEL_SELECTOR, MODEL, VOLTAGE_RANGE, TEMPERATURE_RANGE, PULLDOWN, PULLUP, GND_CLAMP, POWER_CLAMP, RAMP,
    RISING_WAVEFORM, FALLING_WAVEFORM, END, KEYWORDS
};

/* Keywords in small letters with underscores. [Comment Char] is known before these are looked at. */
static const struct name keyword_names[KEYWORDS] = {
    [IBIS_VER] = NAME("ibis_ver"), [FILE_NAME] = NAME("file_name"), [FILE_REV] = NAME("file_rev"),
    [DATE] = NAME("date"), [SOURCE] = NAME("source"), [NOTES] = NAME("notes"), [DISCLAIMER] = NAME("disclaimer"),
    [COPYRIGHT] = NAME("copyright"), [COMPONENT] = NAME("component"), [MANUFACTURER] = NAME("manufacturer"),
    [PACKAGE] = NAME("package"), [PIN] = NAME("pin"), [MODEL_SELECTOR] = NAME("model_selector"),
    [MODEL] = NAME("model"), [VOLTAGE_RANGE] = NAME("voltage_range"),
    [TEMPERATURE_RANGE] = NAME("temperature_range"), [PULLDOWN] = NAME("pulldown"), [PULLUP] = NAME("pullup"),
    [GND_CLAMP] = NAME("gnd_clamp"), [POWER_CLAMP] = NAME("power_clamp"), [RAMP] = NAME("ramp"),
    [RISING_WAVEFORM] = NAME("rising_waveform"), [FALLING_WAVEFORM] = NAME("falling_waveform"), [END] = NAME("end"),
};

/* The one place of each keyword; section keywords and [End] may stand anywhere and close what is open. */
static const uint8_t keyword_places[KEYWORDS] = {
    [IBIS_VER] = IN_HEADER, [FILE_NAME] = IN_HEADER, [FILE_REV] = IN_HEADER, [DATE] = IN_HEADER,
    [SOURCE] = IN_HEADER, [NOTES] = IN_HEADER, [DISCLAIMER] = IN_HEADER, [COPYRIGHT] = IN_HEADER,
    [COMPONENT] = ANY_PLACE, [MANUFACTURER] = IN_COMPONENT, [PACKAGE] = IN_COMPONENT, [PIN] = IN_COMPONENT,
    [MODEL_SELECTOR] = ANY_PLACE, [MODEL] = ANY_PLACE, [VOLTAGE_RANGE] = IN_MODEL, [TEMPERATURE_RANGE] = IN_MODEL,
    [PULLDOWN] = IN_MODEL, [PULLUP] = IN_MODEL, [GND_CLAMP] = IN_MODEL, [POWER_CLAMP] = IN_MODEL, [RAMP] = IN_MODEL,
    [RISING_WAVEFORM] = IN_MODEL, [FALLING_WAVEFORM] = IN_MODEL, [END] = ANY_PLACE,
};

/* Keywords that may be given again: each opens something new. */
static const uint32_t repeated_keywords = 1u << COMPONENT | 1u << MODEL_SELECTOR | 1u << MODEL
                                          | 1u << RISING_WAVEFORM | 1u << FALLING_WAVEFORM | 1u << END;

const struct name second_locations[LOCATIONS] = { NAME("Pin"), NAME("Die") };
const struct name second_polarities[POLARITIES] = { NAME("-"), NAME("Inverting"), NAME("Non-Inverting") };
const struct name second_enables[ENABLES] = { NAME("-"), NAME("Active-High"), NAME("Active-Low") };
const struct name second_model_types[MODEL_TYPES] = {
    NAME("-"), NAME("Input"), NAME("Output"), NAME("I/O"), NAME("3-state"), NAME("Open_drain"),
    NAME("I/O_open_drain"), NAME("Open_sink"), NAME("I/O_open_sink"), NAME("Open_source"), NAME("I/O_open_source"),
    NAME("Input_ECL"), NAME("Output_ECL"), NAME("I/O_ECL"), NAME("3-state_ECL"), NAME("Terminator"),
};

/* The names of named lines, in the order in which their values are kept. */
static const struct name component_names[] = { NAME("Si_location"), NAME("Timing_location") };
static const struct name package_names[] = { NAME("R_pkg"), NAME("L_pkg"), NAME("C_pkg") };
static const struct name ramp_names[] = { NAME("dV/dt_r"), NAME("dV/dt_f"), NAME("R_load") };
static const struct name fixture_names[FIXTURES] = {
    NAME("R_fixture"), NAME("V_fixture"), NAME("V_fixture_min"), NAME("V_fixture_max"), NAME("C_fixture"),
    NAME("L_fixture"), NAME("R_dut"), NAME("L_dut"), NAME("C_dut"),
};
enum {
    MODEL_TYPE_LINE, POLARITY_LINE, ENABLE_LINE, CAPACITANCE_LINES, LEVEL_LINES = CAPACITANCE_LINES + CAPACITANCES
};
static const struct name model_names[LEVEL_LINES + LEVELS] = {
    NAME("Model_type"), NAME("Polarity"), NAME("Enable"),
    /* document 02, section 3: four "listed after C_comp" */
    NAME("C_comp"), NAME("C_comp_pullup"), NAME("C_comp_pulldown"), NAME("C_comp_power_clamp"),
    NAME("C_comp_gnd_clamp"),
    NAME("Vinl"), NAME("Vinh"), NAME("Vmeas"), NAME("Cref"), NAME("Rref"), NAME("Vref"),
};

struct reader {
    struct file *file;
    struct lengths lent;                        /* each up to its bound */
    uint32_t line;                              /* the number of the line at hand */
    uint8_t comment;                            /* the comment character in force */
    bool long_heading;                          /* of the open [Pin] */
    enum place place;
    enum list list;
    uint32_t section_line, list_line;           /* of the keywords that opened them */
    uint32_t given;                             /* keywords given in this header or section, a bit each */
    uint32_t named;                             /* names given in this list, a bit each */
    struct component *component;
    struct selector *selector;
    struct model *model;
    struct table *table;                        /* of the open current table or waveform */
    struct waveform *waveform;
    struct used_names names;
};

/* Tells a fault that is no word's: at this line, without a column. */
static enum fault tell(struct reader *reader, enum fault fault, uint32_t line)
{
    reader->file->line = line;
    reader->file->column = 0;
    return fault;
}

/* ---- Named lines ---- */

/* "whose name (the text up to a blank or `=`) is none of theirs is fault 10"; given twice comes before wrong words. */
static struct flaw take_name(struct reader *reader, struct text *line, const struct name *names, unsigned count,
                             unsigned *which)
{
    struct text name = *line;
    while (line->start < line->end && !is_blank(*line->start) && *line->start != '=')
        line->start++;
    name.end = line->start;
    *which = find_name(name, names, count);
    if (*which == count)
        return wrong_word(name.start);
    if (reader->named >> *which & 1)
        return flaw_of_line(GIVEN_TWICE);
    reader->named |= 1u << *which;
    return no_flaw;
}

/* One word out of a list of them; `from` is 1 where the list begins with "not given". */
static struct flaw read_option(struct text rest, const struct name *options, unsigned from, unsigned count,
                               uint8_t *option)
{
    struct text word;
    next_word(&rest, &word);
    unsigned found = from + find_name(word, options + from, count - from);
    if (found == count)
        return wrong_word(word.start);
    *option = (uint8_t)found;
    return expect_end(rest);
}

/* `R_pkg=1`: the `=` right behind the name is a word where none may stand. */
static bool runs_on(struct text rest)
{
    return !is_empty(rest) && *rest.start == '=';
}

static struct flaw read_corners(struct text rest, struct cell corners[CORNERS])
{
    return runs_on(rest) ? wrong_word(rest.start) : read_cells(rest, CORNERS, false, corners);
}

/* "name, `=`, number, blanks free around it": after the first `=` exactly one word, and that a number. */
static struct flaw read_value(struct text rest, struct cell *cell)
{
    skip_blanks(&rest);
    if (!runs_on(rest))
        return wrong_word(rest.start);
    rest.start++;
    return read_cells(rest, 1, false, cell);
}

/* Three dV/dt words; 13 of a divisor comes after 11 and 12 of all words. */
static struct flaw read_slopes(struct text rest, struct slope slopes[CORNERS])
{
    if (runs_on(rest))
        return wrong_word(rest.start);
    struct flaw leftmost = no_flaw;
    bool not_above_zero = false;
    for (unsigned i = 0; i < CORNERS; i++) {
        struct text word;
        if (!next_word(&rest, &word))
            return wrong_word(word.start);
        enum fault fault = read_slope(word, i != TYP, &slopes[i]);
        if (fault != NO_FAULT && leftmost.fault == NO_FAULT)
            leftmost = (struct flaw){ fault, word.start };
        not_above_zero |= slopes[i].divisor.given && slopes[i].divisor.whole <= 0;
    }
    struct flaw surplus = expect_end(rest);
    if (surplus.fault != NO_FAULT)
        return surplus;
    return leftmost.fault == NO_FAULT && not_above_zero ? flaw_of_line(WRONG_ROWS) : leftmost;
}

static struct flaw read_component_line(struct reader *reader, struct text line)
{
    unsigned which;
    struct flaw flaw = take_name(reader, &line, component_names, COUNT(component_names), &which);
    if (flaw.fault != NO_FAULT)
        return flaw;
    struct component *component = reader->component;
    uint8_t *location = which == 0 ? &component->si_location : &component->timing_location;
    return read_option(line, second_locations, 0, LOCATIONS, location);
}

static struct flaw read_package_line(struct reader *reader, struct text line)
{
    unsigned which;
    struct flaw flaw = take_name(reader, &line, package_names, COUNT(package_names), &which);
    return flaw.fault != NO_FAULT ? flaw : read_corners(line, reader->component->package[which]);
}

static struct flaw read_model_line(struct reader *reader, struct text line)
{
    unsigned which;
    struct flaw flaw = take_name(reader, &line, model_names, COUNT(model_names), &which);
    if (flaw.fault != NO_FAULT)
        return flaw;
    struct model *model = reader->model;
    switch (which) {
    case MODEL_TYPE_LINE:
        return read_option(line, second_model_types, 1, MODEL_TYPES, &model->type);
    case POLARITY_LINE:
        return read_option(line, second_polarities, 1, POLARITIES, &model->polarity);
    case ENABLE_LINE:
        return read_option(line, second_enables, 1, ENABLES, &model->enable);
    default:
        return which < LEVEL_LINES ? read_corners(line, model->capacitances[which - CAPACITANCE_LINES])
                                   : read_value(line, &model->levels[which - LEVEL_LINES]);
    }
}

static struct flaw read_ramp_line(struct reader *reader, struct text line)
{
    unsigned which;
    struct flaw flaw = take_name(reader, &line, ramp_names, COUNT(ramp_names), &which);
    if (flaw.fault != NO_FAULT)
        return flaw;
    struct ramp *ramp = &reader->model->ramp;
    return which < 2 ? read_slopes(line, ramp->slopes[which]) : read_value(line, &ramp->load);
}

/* ---- Rows ---- */

/* "POWER, GND and NC need no model; NA and CIRCUITCALL are fault 10." */
static bool read_pin_model(struct text word, struct pin *pin)
{
    enum reserved reserved = find_reserved(word);
    pin->model = word;
    pin->section = reserved == NOT_RESERVED ? UNKNOWN_SECTION : NO_SECTION;
    if (reserved < NA_WORD) {
        pin->model.start = (const uint8_t *)reserved_names[reserved].spelling;
        pin->model.end = pin->model.start + reserved_names[reserved].length;
    }
    return is_row_name(word, MAX_NAME) && reserved != NA_WORD && reserved != CIRCUITCALL_WORD;
}

/* "pin, signal, model; under the long heading three cells may follow"; a missing word is no name. */
static struct flaw read_pin_words(struct text line, bool long_heading, struct pin *pin)
{
    struct text model;
    next_word(&line, &pin->name);
    next_word(&line, &pin->signal);
    next_word(&line, &model);
    if (!is_row_name(pin->name, MAX_PIN_NAME))
        return wrong_word(pin->name.start);
    if (!fits(pin->signal, MAX_NAME))
        return wrong_word(pin->signal.start);
    if (!read_pin_model(model, pin))
        return wrong_word(model.start);
    memset(pin->cells, 0, sizeof pin->cells);
    return long_heading && !is_empty(line) ? read_cells(line, 3, true, pin->cells) : expect_end(line);
}

/* "a lent list of pin records, one record a row"; the row's own faults come before the want of room. */
static struct flaw read_pin(struct reader *reader, struct text line)
{
    struct file *file = reader->file;
    struct pin spare, *pin = file->pin_count < reader->lent.pins ? &file->pins[file->pin_count] : &spare;
    struct flaw flaw = read_pin_words(line, reader->long_heading, pin);
    if (flaw.fault != NO_FAULT)
        return flaw;
    pin->line = reader->line;
    if (!use_name(&reader->names, SECTION_GROUPS + file->section_count, pin->name, 0))
        return flaw_of_line(NAME_USED);
    if (pin == &spare)
        return flaw_of_line(BOUND_PASSED);
    file->pin_count++;
    reader->component->pin_count++;
    return no_flaw;
}

/* "rows of a model name and a free description, maybe empty". */
static struct flaw read_choice(struct reader *reader, struct text line)
{
    struct file *file = reader->file;
    struct text model;
    next_word(&line, &model);
    skip_blanks(&line);
    if (!is_model_name(model))
        return wrong_word(model.start);
    if (!use_name(&reader->names, SECTION_GROUPS + file->section_count, model, 0))
        return flaw_of_line(NAME_USED);
    if (file->choice_count >= reader->lent.choices)
        return flaw_of_line(BOUND_PASSED);
    file->choices[file->choice_count++] = (struct choice){ model, line, reader->line, UNKNOWN_SECTION };
    reader->selector->choice_count++;
    return no_flaw;
}

/* A number, three cells, a blank between each two, and a line end. */
enum { LEAST_ROW_BYTES = 1 + CORNERS + CORNERS + 1 };
_Static_assert(MAX_BYTES / LEAST_ROW_BYTES <= MAX_ROWS, "no file has more rows than are lent");

/*
 * "the first column rises strictly". Every row that is met has room: each one before it took LEAST_ROW_BYTES or more of
 * at most MAX_BYTES, and [IBIS Ver] took some too, so they are fewer than MAX_ROWS.
 */
static struct flaw read_row(struct reader *reader, struct text line)
{
    struct file *file = reader->file;
    struct table *table = reader->table;
    struct row *row = &file->rows[file->row_count];
    struct flaw flaw = read_cells(line, 1 + CORNERS, false, row->cells);
    if (flaw.fault != NO_FAULT)
        return flaw;
    if (table->count > 0 && compare(&file->rows[file->row_count - 1].cells[0], &row->cells[0]) >= 0)
        return flaw_of_line(WRONG_ROWS);
    file->row_count++;
    table->count++;
    return no_flaw;
}

/* "A line whose first word begins with a letter is such a line [named], and 7 after the first row." */
static struct flaw read_waveform_line(struct reader *reader, struct text line)
{
    if (!is_letter(*line.start))
        return read_row(reader, line);
    if (reader->table->count > 0)
        return flaw_of_line(OUT_OF_PLACE);
    unsigned which;
    struct flaw flaw = take_name(reader, &line, fixture_names, COUNT(fixture_names), &which);
    return flaw.fault != NO_FAULT ? flaw : read_value(line, &reader->waveform->fixtures[which]);
}

/* ---- What a line closes ---- */

/* "2 to 100 rows; waveforms, 2 to 1,000; the first and last typ are numbers". */
static bool is_whole_table(const struct file *file, const struct table *table, uint32_t most)
{
    if (table->count < MIN_ROWS || table->count > most)
        return false;
    const struct row *first = &file->rows[table->first];
    const struct row *last = first + table->count - 1;
    return first->cells[1 + TYP].given && last->cells[1 + TYP].given;
}

/* What any keyword line does but [Comment Char]. */
static enum fault close_list(struct reader *reader)
{
    enum fault fault = NO_FAULT;
    switch (reader->list) {
    case PACKAGE_LINES:                         /* all three names */
        fault = reader->named == 7 ? NO_FAULT : PART_MISSING;
        break;
    case PIN_ROWS:
        fault = reader->component->pin_count > 0 ? NO_FAULT : PART_MISSING;
        break;
    case CHOICE_ROWS:
        fault = reader->selector->choice_count > 0 ? NO_FAULT : PART_MISSING;
        break;
    case RAMP_LINES:                            /* dV/dt_r and dV/dt_f */
        fault = (reader->named & 3) == 3 ? NO_FAULT : PART_MISSING;
        break;
    case CURRENT_ROWS:
        fault = is_whole_table(reader->file, reader->table, MAX_CURRENT_ROWS) ? NO_FAULT : WRONG_ROWS;
        break;
    case WAVEFORM_LINES:
        if (!reader->waveform->fixtures[R_FIXTURE].given || !reader->waveform->fixtures[V_FIXTURE].given)
            fault = PART_MISSING;
        else if (!is_whole_table(reader->file, reader->table, MAX_WAVEFORM_ROWS))
            fault = WRONG_ROWS;
        break;
    default:
        break;
    }
    reader->list = NO_LINES;
    return fault == NO_FAULT ? NO_FAULT : tell(reader, fault, reader->list_line);
}

/* "Types that begin Input or I/O" take thresholds. */
static bool takes_thresholds(const struct model *model)
{
    const char *type = second_model_types[model->type].spelling;
    return strncmp(type, "Input", 5) == 0 || strncmp(type, "I/O", 3) == 0;
}

/* Each threshold where absent; document 02, section 2: Input_ECL and I/O_ECL have defaults of their own. */
static void fill_thresholds(struct model *model)
{
    static const struct cell plain[] = { { .whole = 8, .power = -1, .given = true }, { .whole = 2, .power = 0, .given = true } };
    static const struct cell ecl[] = { { .whole = -1475, .power = -3, .given = true }, { .whole = -1165, .power = -3, .given = true } };
    const struct cell *defaults = model->type == INPUT_ECL || model->type == IO_ECL ? ecl : plain;
    if (!model->levels[VINL].given)
        model->levels[VINL] = defaults[0];
    if (!model->levels[VINH].given)
        model->levels[VINH] = defaults[1];
}

static enum fault close_model(struct model *model)
{
    bool without_ramp = model->type == INPUT || model->type == INPUT_ECL || model->type == TERMINATOR;
    if (model->type == TYPE_NOT_GIVEN || !model->capacitances[C_COMP][TYP].given || !model->voltage[TYP].given
        || (!model->ramp.given && !without_ramp))
        return PART_MISSING;
    if (!takes_thresholds(model))
        return NO_FAULT;
    fill_thresholds(model);
    return compare(&model->levels[VINL], &model->levels[VINH]) < 0 ? NO_FAULT : THRESHOLDS_CROSSED;
}

static bool all_given(const struct reader *reader, uint32_t keywords)
{
    return (reader->given & keywords) == keywords;
}

/* What a well formed section keyword or [End] does: the header's or section's own lacks, told where it began. */
static enum fault close_section(struct reader *reader)
{
    enum fault fault = NO_FAULT;
    if (reader->place == IN_HEADER && !all_given(reader, 1u << FILE_NAME | 1u << FILE_REV))
        fault = PART_MISSING;
    if (reader->place == IN_COMPONENT && !all_given(reader, 1u << MANUFACTURER | 1u << PACKAGE | 1u << PIN))
        fault = PART_MISSING;
    if (reader->place == IN_MODEL)
        fault = close_model(reader->model);
    return fault == NO_FAULT ? NO_FAULT : tell(reader, fault, reader->section_line);
}

/* ---- Keywords ---- */

static void open_list(struct reader *reader, enum list list)
{
    reader->list = list;
    reader->list_line = reader->line;
    reader->named = 0;
}

static void open_section(struct reader *reader, enum section_kind kind, uint32_t number)
{
    static const enum place places[] = { IN_COMPONENT, IN_SELECTOR, IN_MODEL };
    static const enum list lists[] = { COMPONENT_LINES, CHOICE_ROWS, MODEL_LINES };
    struct file *file = reader->file;
    file->sections[file->section_count++] = (struct section){ kind, number, reader->line };
    reader->place = places[kind];
    reader->section_line = reader->line;
    reader->given = 0;
    open_list(reader, lists[kind]);
}

static struct flaw open_component(struct reader *reader, struct text name)
{
    struct file *file = reader->file;
    if (!fits(name, MAX_NAME))
        return wrong_word(name.start);
    if (!use_name(&reader->names, COMPONENT_GROUP, name, 0))
        return flaw_of_line(NAME_USED);
    if (file->component_count >= reader->lent.components)
        return flaw_of_line(BOUND_PASSED);
    open_section(reader, COMPONENT_SECTION, file->component_count);
    reader->component = &file->components[file->component_count++];
    *reader->component = (struct component){ .name = name, .first_pin = file->pin_count };
    return no_flaw;
}

/* "one word, 1 to 40"; models and selectors are unique together. */
static struct flaw take_model_name(struct reader *reader, struct text argument, struct text *name)
{
    next_word(&argument, name);
    if (!is_model_name(*name))
        return wrong_word(name->start);
    struct flaw surplus = expect_end(argument);
    if (surplus.fault != NO_FAULT)
        return surplus;
    bool fresh = use_name(&reader->names, MODEL_GROUP, *name, reader->file->section_count);
    return fresh ? no_flaw : flaw_of_line(NAME_USED);
}

static struct flaw open_selector(struct reader *reader, struct text argument)
{
    struct file *file = reader->file;
    struct text name;
    struct flaw flaw = take_model_name(reader, argument, &name);
    if (flaw.fault != NO_FAULT)
        return flaw;
    if (file->selector_count >= reader->lent.selectors)
        return flaw_of_line(BOUND_PASSED);
    open_section(reader, SELECTOR_SECTION, file->selector_count);
    reader->selector = &file->selectors[file->selector_count++];
    *reader->selector = (struct selector){ .name = name, .first_choice = file->choice_count };
    return no_flaw;
}

static struct flaw open_model(struct reader *reader, struct text argument)
{
    struct file *file = reader->file;
    struct text name;
    struct flaw flaw = take_model_name(reader, argument, &name);
    if (flaw.fault != NO_FAULT)
        return flaw;
    if (file->model_count >= reader->lent.models)
        return flaw_of_line(BOUND_PASSED);
    open_section(reader, MODEL_SECTION, file->model_count);
    reader->model = &file->models[file->model_count++];
    *reader->model = (struct model){ .name = name, .first_waveform = file->waveform_count };
    return no_flaw;
}

/* "one word: 1 to 40 of [these characters] then `.ibs`". */
static bool is_file_name(struct text word)
{
    static const char marks[] = "_^$~!#%&-{})(@'`";
    if (length_of(word) < 5 || length_of(word) > MAX_NAME + 4 || memcmp(word.end - 4, ".ibs", 4) != 0)
        return false;
    for (const uint8_t *at = word.start; at < word.end - 4; at++)
        if (!((unsigned)*at - 'a' < 26 || (unsigned)*at - '0' < 10 || memchr(marks, *at, sizeof marks - 1) != NULL))
            return false;
    return true;
}

static struct flaw read_file_name(struct reader *reader, struct text argument)
{
    struct text *name = &reader->file->file_name;
    next_word(&argument, name);
    return is_file_name(*name) ? expect_end(argument) : wrong_word(name->start);
}

static struct flaw read_version(struct text argument)
{
    struct text word;
    next_word(&argument, &word);
    return same_bytes(word, "5.0", 3) ? expect_end(argument) : wrong_word(word.start);
}

/* An argument that may hold blanks is one word. */
static struct flaw read_text(struct text argument, size_t longest, struct text *text)
{
    *text = argument;
    return fits(argument, longest) ? no_flaw : wrong_word(argument.start);
}

static struct flaw read_pin_heading(struct reader *reader, struct text heading)
{
    static const struct name columns[] = {
        NAME("signal_name"), NAME("model_name"), NAME("R_pin"), NAME("L_pin"), NAME("C_pin"),
    };
    struct text word;
    unsigned count = 0;
    for (; next_word(&heading, &word); count++)
        if (count == COUNT(columns) || !same_bytes(word, columns[count].spelling, columns[count].length))
            return wrong_word(word.start);
    if (count != 2 && count != COUNT(columns))
        return wrong_word(heading.end);
    reader->long_heading = count > 2;
    reader->component->first_pin = reader->file->pin_count;
    open_list(reader, PIN_ROWS);
    return no_flaw;
}

static void open_table(struct reader *reader, struct table *table, enum list list)
{
    *table = (struct table){ .first = reader->file->row_count, .given = true };
    reader->table = table;
    open_list(reader, list);
}

/* "16 waveforms a model, 1,024 in all". */
static struct flaw open_waveform(struct reader *reader, bool rising)
{
    struct file *file = reader->file;
    if (reader->model->waveform_count >= MAX_MODEL_WAVEFORMS || file->waveform_count >= reader->lent.waveforms)
        return flaw_of_line(BOUND_PASSED);
    reader->waveform = &file->waveforms[file->waveform_count++];
    *reader->waveform = (struct waveform){ .rising = rising };
    reader->model->waveform_count++;
    open_table(reader, &reader->waveform->table, WAVEFORM_LINES);
    return no_flaw;
}

/* "Keywords without an argument named here take none." */
static struct flaw read_bare_keyword(struct reader *reader, enum keyword keyword, struct text argument)
{
    if (!is_empty(argument))
        return wrong_word(argument.start);
    switch (keyword) {
    case PACKAGE:
        open_list(reader, PACKAGE_LINES);
        return no_flaw;
    case RAMP:
        reader->model->ramp.given = true;
        open_list(reader, RAMP_LINES);
        return no_flaw;
    case RISING_WAVEFORM:
    case FALLING_WAVEFORM:
        return open_waveform(reader, keyword == RISING_WAVEFORM);
    case END:
        reader->place = AFTER_END;
        return no_flaw;
    default:
        open_table(reader, &reader->model->tables[PULLDOWN_TABLE + (keyword - PULLDOWN)], CURRENT_ROWS);
        return no_flaw;
    }
}

static struct flaw read_argument(struct reader *reader, enum keyword keyword, struct text argument)
{
    switch (keyword) {
    case IBIS_VER:
        return read_version(argument);
    case FILE_NAME:
        return read_file_name(reader, argument);
    case FILE_REV:
        return read_text(argument, MAX_LINE, &reader->file->file_rev);
    case DATE:
    case SOURCE:
    case NOTES:
    case DISCLAIMER:
    case COPYRIGHT:
        open_list(reader, TEXT_LINES);
        return no_flaw;
    case COMPONENT:
        return open_component(reader, argument);
    case MANUFACTURER:
        return read_text(argument, MAX_NAME, &reader->component->manufacturer);
    case PIN:
        return read_pin_heading(reader, argument);
    case MODEL_SELECTOR:
        return open_selector(reader, argument);
    case MODEL:
        return open_model(reader, argument);
    case VOLTAGE_RANGE:
        return read_cells(argument, CORNERS, false, reader->model->voltage);
    case TEMPERATURE_RANGE:
        return read_cells(argument, CORNERS, false, reader->model->temperature);
    default:
        return read_bare_keyword(reader, keyword, argument);
    }
}

/*
 * Takes the keyword off the line: "one or more parts, of characters other than blanks and underscores, joined by one
 * space or one underscore", then `]`, then nothing or a blank. The spelling is cut at what any keyword can have.
 */
static bool take_keyword(struct text *line, uint8_t spelling[LONGEST_KEYWORD + 1], size_t *length)
{
    const uint8_t *at = line->start + 1;
    bool in_part = false;
    *length = 0;
    for (; at < line->end && *at != ']'; at++) {
        bool joint = *at == ' ' || *at == '_';
        if (*at == '\t' || (joint && !in_part))
            return false;
        in_part = !joint;
        if (*length <= LONGEST_KEYWORD)
            spelling[(*length)++] = joint ? '_' : small_letter(*at);
    }
    if (at == line->end || !in_part)
        return false;
    line->start = at + 1;
    return is_empty(*line) || is_blank(*line->start);
}

/* 6 is "a keyword of that hierarchy that we don't carry; 21, in the same place in the order, means one outside it". */
static enum fault tell_unknown(struct text spelling)
{
    return find_name(spelling, hierarchy_names, HIERARCHY_NAMES) < HIERARCHY_NAMES ? NOT_CARRIED : OUTSIDE_HIERARCHY;
}

/* What stands before the argument's own faults: 7, what a section keyword closes, and 8. */
static enum fault place_keyword(struct reader *reader, enum keyword keyword)
{
    if (reader->place == BEFORE_VERSION) {
        if (keyword != IBIS_VER)
            return OUT_OF_PLACE;
        reader->place = IN_HEADER;
        reader->section_line = reader->line;
    }
    if (keyword_places[keyword] == ANY_PLACE) {
        enum fault fault = close_section(reader);
        if (fault != NO_FAULT)
            return fault;
        if (keyword == END && reader->file->component_count == 0)
            return PART_MISSING;
    } else if (keyword_places[keyword] != reader->place) {
        return OUT_OF_PLACE;
    }
    uint32_t bit = 1u << keyword;
    if (reader->given & bit & ~repeated_keywords)
        return GIVEN_TWICE;
    reader->given |= bit;
    return NO_FAULT;
}

/* At a keyword line: what it closes, then 5, 6 or 21, 7, 8, then its argument. */
static struct flaw read_keyword_line(struct reader *reader, struct text line)
{
    uint8_t spelling[LONGEST_KEYWORD + 1];
    size_t length;
    enum fault fault = close_list(reader);
    if (fault != NO_FAULT)
        return flaw_of_line(fault);
    if (!take_keyword(&line, spelling, &length))
        return flaw_of_line(BADLY_FORMED);
    struct text name = { spelling, spelling + length };
    enum keyword keyword = find_name(name, keyword_names, KEYWORDS);
    fault = keyword == KEYWORDS ? tell_unknown(name) : place_keyword(reader, keyword);
    if (fault != NO_FAULT)
        return flaw_of_line(fault);
    skip_blanks(&line);
    return read_argument(reader, keyword, line);
}

/* ---- Lines ---- */

enum { COMMENT_CHAR_LENGTH = sizeof "[Comment Char]" - 1 };

/* "known by its text up to `]`": letter case is ignored, and space equals underscore. */
static bool is_comment_char(struct text line)
{
    static const char spelling[] = "[comment_char]";
    if (length_of(line) < COMMENT_CHAR_LENGTH || *line.start != '[')
        return false;
    for (unsigned i = 1; i < COMMENT_CHAR_LENGTH; i++) {
        uint8_t byte = line.start[i] == ' ' ? '_' : small_letter(line.start[i]);
        if (byte != (uint8_t)spelling[i])
            return false;
    }
    return true;
}

/* "one of [these] and `_char`". */
static bool is_change(struct text word)
{
    static const char characters[] = "!\"#$%&'()*,:;<>?@\\^`{|}~";
    return length_of(word) == 6 && memchr(characters, *word.start, sizeof characters - 1) != NULL
           && memcmp(word.start + 1, "_char", 5) == 0;
}

/* Nothing is cut here, and nothing closed. */
static struct flaw read_comment_char(struct reader *reader, struct text line)
{
    struct text word;
    line.start += COMMENT_CHAR_LENGTH;
    if (reader->place == AFTER_END)
        return flaw_of_line(OUT_OF_PLACE);
    if (!is_empty(line) && !is_blank(*line.start))
        return flaw_of_line(BADLY_FORMED);
    if (reader->place == BEFORE_VERSION)
        return flaw_of_line(OUT_OF_PLACE);
    next_word(&line, &word);
    if (!is_change(word))
        return wrong_word(word.start);
    skip_blanks(&line);
    if (!is_empty(line) && *line.start != *word.start)
        return wrong_word(line.start);
    reader->comment = *word.start;
    return no_flaw;
}

static struct flaw read_plain_line(struct reader *reader, struct text line)
{
    skip_blanks(&line);
    switch (reader->list) {
    case TEXT_LINES:
        return no_flaw;
    case COMPONENT_LINES:
        return read_component_line(reader, line);
    case PACKAGE_LINES:
        return read_package_line(reader, line);
    case PIN_ROWS:
        return read_pin(reader, line);
    case CHOICE_ROWS:
        return read_choice(reader, line);
    case MODEL_LINES:
        return read_model_line(reader, line);
    case CURRENT_ROWS:
        return read_row(reader, line);
    case RAMP_LINES:
        return read_ramp_line(reader, line);
    case WAVEFORM_LINES:
        return read_waveform_line(reader, line);
    default:
        return flaw_of_line(OUT_OF_PLACE);
    }
}

/* "A line is cut at its first [comment character], then trailing blanks are cut. A line left empty is skipped." */
static struct flaw read_line(struct reader *reader, struct text line)
{
    if (is_comment_char(line))
        return read_comment_char(reader, line);
    const uint8_t *comment = memchr(line.start, reader->comment, length_of(line));
    if (comment != NULL)
        line.end = comment;
    while (line.end > line.start && is_blank(line.end[-1]))
        line.end--;
    if (is_empty(line))
        return no_flaw;
    if (reader->place == AFTER_END)
        return flaw_of_line(OUT_OF_PLACE);
    return *line.start == '[' ? read_keyword_line(reader, line) : read_plain_line(reader, line);
}

#define EACH(byte) (UINT64_C(0x0101010101010101) * (byte))

/* Whether any of eight bytes is neither hex 20 to 7E nor tab; the sums stay within their bytes. */
static bool any_forbidden(const uint8_t *bytes)
{
    uint64_t eight;
    memcpy(&eight, bytes, sizeof eight);
    uint64_t low = eight & EACH(0x7F);
    uint64_t above = eight | (low + EACH(0x01));                /* top bit set from hex 7F on */
    uint64_t printing = low + EACH(0x60);                       /* top bit set from hex 20 on */
    uint64_t not_tab = (low ^ EACH('\t')) + EACH(0x7F);         /* top bit clear at a tab */
    return ((above | (~printing & not_tab)) & EACH(0x80)) != 0;
}

static bool all_allowed(struct text line)
{
    const uint8_t *at = line.start;
    if (length_of(line) < 8) {
        while (at < line.end && (is_blank(*at) || (*at > ' ' && *at <= '~')))
            at++;
        return at == line.end;
    }
    for (; line.end - at > 8; at += 8)
        if (any_forbidden(at))
            return false;
    return !any_forbidden(line.end - 8);
}

static enum fault check_line(struct text line, bool ended)
{
    if (!all_allowed(line))
        return FORBIDDEN_BYTE;
    if (length_of(line) > MAX_LINE)
        return LINE_TOO_LONG;
    return ended ? NO_FAULT : LINE_NOT_ENDED;
}

/* Reads the line and tells its own number and the column of its flaw, unless what it closes tells another line. */
static enum fault tell_line(struct reader *reader, struct text line)
{
    struct file *file = reader->file;
    file->line = reader->line;
    struct flaw flaw = read_line(reader, line);
    if (flaw.at != NULL)
        file->column = (uint32_t)(flaw.at - line.start) + 1;
    return flaw.fault;
}

/* "2, 3, 4 over all lines; then lines from the top": after the first fault of a line, the rest is only checked. */
static enum fault read_lines(struct reader *reader, const uint8_t *at, const uint8_t *end)
{
    enum fault first = NO_FAULT;
    while (at < end) {
        const uint8_t *feed = memchr(at, '\n', (size_t)(end - at));
        struct text line = { at, feed != NULL ? feed : end };
        reader->line++;
        if (feed != NULL && feed > at && feed[-1] == '\r')
            line.end--;
        enum fault fault = check_line(line, feed != NULL);
        if (fault != NO_FAULT)
            return tell(reader, fault, reader->line);
        if (first == NO_FAULT)
            first = tell_line(reader, line);
        at = feed + 1;
    }
    if (first == NO_FAULT && reader->place != AFTER_END)
        return tell(reader, NO_END, reader->line + 1);
    return first;
}

/* ---- Which models are named where ---- */

static enum fault resolve_pins(struct reader *reader, const struct component *component, bool *listed)
{
    struct pin *pins = reader->file->pins + component->first_pin;
    for (uint32_t i = 0; i < component->pin_count; i++) {
        if (pins[i].section == NO_SECTION)      /* "POWER, GND and NC need no model" */
            continue;
        pins[i].section = find_section(&reader->names, pins[i].model);
        if (pins[i].section == NO_SECTION)
            return tell(reader, MODEL_NOT_FOUND, pins[i].line);
        listed[pins[i].section] = true;
    }
    return NO_FAULT;
}

/* "a selector row [names] a model": the name of a selector is not found. */
static enum fault resolve_choices(struct reader *reader, const struct selector *selector, bool *listed)
{
    struct choice *choices = reader->file->choices + selector->first_choice;
    for (uint32_t i = 0; i < selector->choice_count; i++) {
        choices[i].section = find_section(&reader->names, choices[i].model);
        if (choices[i].section == NO_SECTION || reader->file->sections[choices[i].section].kind != MODEL_SECTION)
            return tell(reader, MODEL_NOT_FOUND, choices[i].line);
        listed[choices[i].section] = true;
    }
    return NO_FAULT;
}

/* "Last, 15 over all pin and selector rows, then 16 over sections, each from the top of the file." */
static enum fault resolve(struct reader *reader)
{
    struct file *file = reader->file;
    bool listed[MAX_SECTIONS] = { false };
    for (uint32_t i = 0; i < file->section_count; i++) {
        const struct section *section = &file->sections[i];
        enum fault fault = NO_FAULT;
        if (section->kind == COMPONENT_SECTION)
            fault = resolve_pins(reader, &file->components[section->number], listed);
        if (section->kind == SELECTOR_SECTION)
            fault = resolve_choices(reader, &file->selectors[section->number], listed);
        if (fault != NO_FAULT)
            return fault;
    }
    for (uint32_t i = 0; i < file->section_count; i++)
        if (file->sections[i].kind != COMPONENT_SECTION && !listed[i])
            return tell(reader, NOT_LISTED, file->sections[i].line);
    return NO_FAULT;
}

static size_t least(size_t lent, size_t bound)
{
    return lent < bound ? lent : bound;
}

static void begin(struct reader *reader, const struct lengths *lent, struct file *file)
{
    file->line = file->column = 0;
    file->section_count = file->component_count = file->pin_count = file->selector_count = 0;
    file->choice_count = file->model_count = file->waveform_count = file->row_count = 0;
    reader->file = file;
    reader->lent.components = least(lent->components, MAX_COMPONENTS);
    reader->lent.pins = least(lent->pins, MAX_PINS);
    reader->lent.selectors = least(lent->selectors, MAX_SELECTORS);
    reader->lent.choices = least(lent->choices, MAX_CHOICES);
    reader->lent.models = least(lent->models, MAX_MODELS);
    reader->lent.waveforms = least(lent->waveforms, MAX_WAVEFORMS);
    reader->lent.rows = least(lent->rows, MAX_ROWS);
    reader->line = 0;
    reader->comment = '|';
    reader->place = BEFORE_VERSION;
    reader->list = NO_LINES;
    reader->given = reader->named = 0;
    reader->names.count = 0;
    memset(reader->names.slots, 0, sizeof reader->names.slots);
}

int second_read(const uint8_t *bytes, size_t length, const struct lengths *lent, struct file *file)
{
    struct reader reader;
    begin(&reader, lent, file);
    if (reader.lent.rows < MAX_ROWS)
        return ROWS_NOT_LENT;
    if (length > MAX_BYTES)
        return FILE_TOO_LONG;
    enum fault fault = length == 0 ? tell(&reader, NO_END, 1) : read_lines(&reader, bytes, bytes + length);
    if (fault == NO_FAULT)
        fault = resolve(&reader);
    return (int)fault;
}
