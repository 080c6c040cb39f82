/* The second reader: one IBIS 5.0 file into tables, or the fault that stands first. */
#ifndef SECOND_READER_H
#define SECOND_READER_H

#include <stdbool.h>
#include <stddef.h>
#include <stdint.h>

/*
 * The bounds of a file. MAX_ROWS is what a caller has to lend; no file has as many, as "a row takes at least eight bytes
 * of file, its line end counted" (document 02, section 8).
 */
enum {
    MAX_BYTES = 65536,
    MAX_LINE = 120,
    MAX_COMPONENTS = 8,
    MAX_PINS = 512,
    MAX_SELECTORS = 32,
    MAX_CHOICES = 256,
    MAX_MODELS = 64,
    MAX_MODEL_WAVEFORMS = 16,
    MAX_WAVEFORMS = 1024,
    MAX_ROWS = 8192,
    MAX_SECTIONS = MAX_COMPONENTS + MAX_SELECTORS + MAX_MODELS
};

/* The faults, by their numbers. */
enum fault {
    NO_FAULT = 0,
    FILE_TOO_LONG = 1,
    FORBIDDEN_BYTE = 2,
    LINE_TOO_LONG = 3,
    LINE_NOT_ENDED = 4,
    BADLY_FORMED = 5,
    NOT_CARRIED = 6,
    OUT_OF_PLACE = 7,
    GIVEN_TWICE = 8,
    PART_MISSING = 9,
    WRONG_WORD = 10,
    NOT_A_NUMBER = 11,
    OUT_OF_RANGE = 12,
    WRONG_ROWS = 13,
    NAME_USED = 14,
    MODEL_NOT_FOUND = 15,
    NOT_LISTED = 16,
    BOUND_PASSED = 17,
    NO_END = 19,
    THRESHOLDS_CROSSED = 20,
    OUTSIDE_HIERARCHY = 21,                     /* stands where 6 stands */
    ROWS_NOT_LENT = 25                          /* "before fault 1": fewer than MAX_ROWS are lent */
};

/* How many records of each kind are lent; they count up to their bound. */
struct lengths {
    size_t components, pins, selectors, choices, models, waveforms, rows;
};

/* A piece of the file as handed in (or a reserved word in capitals): no copy is made. */
struct text {
    const uint8_t *start, *end;
};

/*
 * A fault and, of 10, 11 and 12, its place: where the leftmost word at fault begins or, for a missing word, the end of
 * the line as it was cut. Other faults have none.
 */
struct flaw {
    enum fault fault;
    const uint8_t *at;
};

/* A fixed spelling. */
struct name {
    const char *spelling;
    unsigned length;
};

/* A number, whole times ten to the power, or missing; zero is 0 and power 0. */
struct cell {
    int64_t whole;
    int32_t power;
    bool given;
};

enum { TYP, MIN, MAX, CORNERS };

/* One row of a table: the first column, then typ, min and max. */
struct row {
    struct cell cells[1 + CORNERS];
};

/* Where a table's rows lie in the row store. */
struct table {
    uint32_t first, count;
    bool given;
};

enum location { PIN_LOCATION, DIE_LOCATION, LOCATIONS };

struct component {
    struct text name, manufacturer;
    uint8_t si_location, timing_location;
    struct cell package[3][CORNERS];            /* R_pkg, L_pkg, C_pkg */
    uint32_t first_pin, pin_count;
};

/* Beside the number of a section: a pin that needs none, and one whose model is still to be found. */
enum { NO_SECTION = MAX_SECTIONS, UNKNOWN_SECTION };

struct pin {
    struct text name, signal, model;
    struct cell cells[3];                       /* R_pin, L_pin, C_pin as given */
    uint32_t line;
    uint32_t section;                           /* the model or selector named, or NO_SECTION */
};

struct selector {
    struct text name;
    uint32_t first_choice, choice_count;
};

struct choice {
    struct text model, description;
    uint32_t line;
    uint32_t section;                           /* the model named */
};

enum model_type {
    TYPE_NOT_GIVEN, INPUT, OUTPUT, IO, THREE_STATE, OPEN_DRAIN, IO_OPEN_DRAIN, OPEN_SINK, IO_OPEN_SINK,
    OPEN_SOURCE, IO_OPEN_SOURCE, INPUT_ECL, OUTPUT_ECL, IO_ECL, THREE_STATE_ECL, TERMINATOR, MODEL_TYPES
};
enum polarity { POLARITY_NOT_GIVEN, INVERTING, NON_INVERTING, POLARITIES };
enum enable { ENABLE_NOT_GIVEN, ACTIVE_HIGH, ACTIVE_LOW, ENABLES };
enum { C_COMP, C_COMP_PULLUP, C_COMP_PULLDOWN, C_COMP_POWER_CLAMP, C_COMP_GND_CLAMP, CAPACITANCES };
enum { VINL, VINH, VMEAS, CREF, RREF, VREF, LEVELS };
enum { PULLDOWN_TABLE, PULLUP_TABLE, GND_CLAMP_TABLE, POWER_CLAMP_TABLE, CURRENT_TABLES };

/* One dV/dt word: missing if its dividend is. */
struct slope {
    struct cell dividend, divisor;
};

struct ramp {
    bool given;
    struct slope slopes[2][CORNERS];            /* dV/dt_r, dV/dt_f */
    struct cell load;
};

struct model {
    struct text name;
    uint8_t type, polarity, enable;
    struct cell capacitances[CAPACITANCES][CORNERS]; /* of one that is absent every cell is missing */
    struct cell levels[LEVELS];                 /* after the defaults */
    struct cell voltage[CORNERS];
    struct cell temperature[CORNERS];           /* typ is missing if there is no [Temperature Range] */
    struct table tables[CURRENT_TABLES];
    struct ramp ramp;
    uint32_t first_waveform, waveform_count;
};

enum { R_FIXTURE, V_FIXTURE, V_FIXTURE_MIN, V_FIXTURE_MAX, C_FIXTURE, L_FIXTURE, R_DUT, L_DUT, C_DUT, FIXTURES };

struct waveform {
    bool rising;
    struct cell fixtures[FIXTURES];
    struct table table;
};

enum section_kind { COMPONENT_SECTION, SELECTOR_SECTION, MODEL_SECTION };

struct section {
    enum section_kind kind;
    uint32_t number;                            /* within its kind */
    uint32_t line;
};

/* All that is kept. The caller sets `rows` to the row store it lends; the rest is filled here. */
struct file {
    uint32_t line, column;                      /* told with a fault; the column counts from 1, or is 0 */
    struct text file_name, file_rev;
    uint32_t section_count, component_count, pin_count, selector_count, choice_count, model_count;
    uint32_t waveform_count, row_count;
    struct section sections[MAX_SECTIONS];      /* in file order */
    struct component components[MAX_COMPONENTS];
    struct pin pins[MAX_PINS];
    struct selector selectors[MAX_SELECTORS];
    struct choice choices[MAX_CHOICES];
    struct model models[MAX_MODELS];
    struct waveform waveforms[MAX_WAVEFORMS];
    struct row *rows;
};

/* The spellings of the values above, for whoever writes them; index 0 stands for "not given" where there is one. */
extern const struct name second_locations[LOCATIONS];
extern const struct name second_model_types[MODEL_TYPES];
extern const struct name second_polarities[POLARITIES];
extern const struct name second_enables[ENABLES];

/*
 * Reads the file. Gives NO_FAULT, and then `file` holds all that is kept, its texts pointing into `bytes`; or the
 * fault's number, and then file->line and file->column are told and nothing else in `file` or its rows means anything.
 */
int second_read(const uint8_t *bytes, size_t length, const struct lengths *lent, struct file *file);

#endif
