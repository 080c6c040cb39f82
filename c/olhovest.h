/*
 * Olhovest for C: one IBIS 5.0 file read into tables that the caller lends, or the fault that stands first; and what users ask
 * of the tables then.
 *
 * Every function is proved to do what is said here, for any bytes and tables of any length. The archive is for x86-64
 * Linux; `rt lib` in crates/olhovest writes it to out/libolhovest.a there. It calls nothing but memcpy and memset,
 * allocates nothing, keeps nothing between calls, and needs at most 32 KiB of stack.
 */
#ifndef OLHOVEST_H
#define OLHOVEST_H

#include <stddef.h>
#include <stdint.h>

/*
 * The version of what is handed over, which moves when a record does or what a function takes. Such a function is linked
 * under a name with the version that moved it, so a program that was compiled against another header does not link: compile
 * it anew. A program that meets its library as it runs compares olhovest_version() with OLHOVEST_VERSION.
 *
 *    2  a model has its capacitance by structure
 *    3  a fault tells its column
 *    4  a check takes no number of rows and tells the whole answer
 */
#define OLHOVEST_VERSION 4
#define olhovest_check olhovest_check_4
#define olhovest_read olhovest_read_3
#define olhovest_find_model olhovest_find_model_2
#define olhovest_model_of_pin olhovest_model_of_pin_2

/*
 * Faults, as the functions answer them:
 *    0 accepted                          11 not a number
 *    1 over 65,536 bytes (line 0)        12 number out of range
 *    2 forbidden byte                    13 row order, divisor not above zero, row count or end typ
 *    3 line over 120                     14 name already used
 *    4 last line not ended               15 model name not found
 *    5 keyword badly formed              16 model or selector not listed
 *    6 keyword not carried here          17 a bound passed
 *    7 out of place                      19 no [End] (last line plus 1)
 *    8 given twice                       20 Vinl not below Vinh
 *    9 required part missing             21 keyword that the standard does not have
 *   10 wrong word, name or word count    25 fewer rows lent than OLHOVEST_ROWS (line 0)
 *
 * Of a cell alone: 24 no double, its power is below -22 or above 22 (olhovest_double).
 *
 * 10, 11 and 12 tell the column, counted in bytes from 1, of the first character of the leftmost word at fault; where a word is
 * missing, the column after the last character before comment and blanks. All others tell column 0.
 */

/* How many words of eight bytes each record is; the library counts on it. */
enum {
    OLHOVEST_COMPONENT_WORDS = 26,
    OLHOVEST_PIN_WORDS = 21,
    OLHOVEST_SELECTOR_WORDS = 9,
    OLHOVEST_CHOICE_WORDS = 22,
    OLHOVEST_MODEL_WORDS = 70,
    OLHOVEST_WAVEFORM_WORDS = 12,
    OLHOVEST_ROW_WORDS = 4,
    OLHOVEST_ANSWER_WORDS = 41
};

/*
 * The bounds of a file. A table that is lent longer is used up to its bound; a shorter one has its length as the bound.
 *
 * Rows are lent otherwise: a file never has more than OLHOVEST_ROWS, and olhovest_read asks for that many, whatever the file:
 * OLHOVEST_ROW_STORE_WORDS words of rows. Fewer are answered by 25, before the file is looked at.
 */
enum {
    OLHOVEST_BYTES = 65536,
    OLHOVEST_COMPONENTS = 8,
    OLHOVEST_PINS = 512,
    OLHOVEST_SELECTORS = 32,
    OLHOVEST_CHOICES = 256,
    OLHOVEST_MODELS = 64,
    OLHOVEST_WAVEFORMS = 1024,
    OLHOVEST_ROWS = 8192,
    OLHOVEST_ROW_STORE_WORDS = OLHOVEST_ROWS * OLHOVEST_ROW_WORDS
};

/*
 * A cell is one word: digits * 512 + power * 2 + sign, where the power 0 to 64 stands for -40 to 24, and the sign is 1
 * for a negative number. The number is digits times ten to the power, exactly. All ones: the cell is missing.
 */
typedef uint64_t olhovest_cell;
#define OLHOVEST_MISSING UINT64_MAX

static inline int olhovest_missing(olhovest_cell c) { return c == OLHOVEST_MISSING; }
static inline int olhovest_negative(olhovest_cell c) { return (int)(c & 1); }
static inline int olhovest_power(olhovest_cell c) { return (int)(c / 2 % 256) - 40; }
static inline uint64_t olhovest_digits(olhovest_cell c) { return c / 512; }

/* Texts are followed by zeros; `length` says how many bytes are the text's. */
struct olhovest_name { char bytes[40]; uint64_t length; };
struct olhovest_text { char bytes[120]; uint64_t length; };

/* Records of another table that belong to this one: the first one's place there, and how many. */
struct olhovest_span { uint64_t start, count; };

struct olhovest_triple { olhovest_cell typ, min, max; };

/* A slope is the dividend over the divisor; both are missing together. */
struct olhovest_slope { olhovest_cell dividend, divisor; };
struct olhovest_slopes { struct olhovest_slope typ, min, max; };

/* If `given` is 0 there is none, and the rest says nothing: cells are missing, the span is empty. */
struct olhovest_range { uint64_t given; struct olhovest_triple cells; };
struct olhovest_table { uint64_t given; struct olhovest_span rows; };
struct olhovest_ramp { uint64_t given; struct olhovest_slopes rise, fall; olhovest_cell load; };

/* A row of the row store: the first column is never missing. */
struct olhovest_row { olhovest_cell number; struct olhovest_triple cells; };

/* `section` is the place among all sections of the file, from 0. Locations: 0 Pin, 1 Die. */
struct olhovest_component {
    uint64_t section;
    struct olhovest_name name;
    uint64_t si_location, timing_location;
    struct olhovest_name manufacturer;
    struct olhovest_triple resistance, inductance, capacitance;
    struct olhovest_span pins;
};

/* `model` is POWER, GND or NC in capitals, or the name of a model or selector. A missing cell means the package's. */
struct olhovest_pin {
    struct olhovest_name name, signal, model;
    olhovest_cell resistance, inductance, capacitance;
};

struct olhovest_selector {
    uint64_t section;
    struct olhovest_name name;
    struct olhovest_span choices;
};

struct olhovest_choice {
    struct olhovest_name model;
    struct olhovest_text description;
};

enum olhovest_type {
    OLHOVEST_INPUT, OLHOVEST_OUTPUT, OLHOVEST_IO, OLHOVEST_3_STATE, OLHOVEST_OPEN_DRAIN, OLHOVEST_IO_OPEN_DRAIN,
    OLHOVEST_OPEN_SINK, OLHOVEST_IO_OPEN_SINK, OLHOVEST_OPEN_SOURCE, OLHOVEST_IO_OPEN_SOURCE, OLHOVEST_INPUT_ECL,
    OLHOVEST_OUTPUT_ECL, OLHOVEST_IO_ECL, OLHOVEST_3_STATE_ECL, OLHOVEST_TERMINATOR
};

/* C_comp by structure: C_comp_pullup, C_comp_pulldown, C_comp_power_clamp, C_comp_gnd_clamp. One that is given has a typ. */
struct olhovest_split { struct olhovest_range pullup, pulldown, power_clamp, ground_clamp; };

/* Polarity: 0 not given, 1 Inverting, 2 Non-Inverting. Enable: 0 not given, 1 Active-High, 2 Active-Low. */
struct olhovest_model {
    uint64_t section;
    struct olhovest_name name;
    uint64_t type, polarity, enable;
    struct olhovest_triple comp;
    struct olhovest_split split;
    olhovest_cell vinl, vinh, vmeas, cref, rref, vref;
    struct olhovest_triple voltage;
    struct olhovest_range temperature;
    struct olhovest_table pulldown, pullup, ground_clamp, power_clamp;
    struct olhovest_ramp ramp;
    struct olhovest_span waveforms;
};

/* Edge: 0 rising, 1 falling. */
struct olhovest_waveform {
    uint64_t edge;
    olhovest_cell r_fixture, v_fixture, v_fixture_min, v_fixture_max, c_fixture, l_fixture, r_dut, l_dut, c_dut;
    struct olhovest_span rows;
};

/* What is answered beside the fault: its line and column; how many records of each table are used; the header's texts. */
struct olhovest_answer {
    uint64_t line, column;
    uint64_t components, pins, selectors, choices, models, waveforms, rows;
    struct olhovest_text file_name, file_rev;
};

/* The compiler lays the records out as the library does. */
#define OLHOVEST_SIZED(record, words) _Static_assert(sizeof(struct record) == 8 * (words), "another layout of " #record)
OLHOVEST_SIZED(olhovest_component, OLHOVEST_COMPONENT_WORDS);
OLHOVEST_SIZED(olhovest_pin, OLHOVEST_PIN_WORDS);
OLHOVEST_SIZED(olhovest_selector, OLHOVEST_SELECTOR_WORDS);
OLHOVEST_SIZED(olhovest_choice, OLHOVEST_CHOICE_WORDS);
OLHOVEST_SIZED(olhovest_model, OLHOVEST_MODEL_WORDS);
OLHOVEST_SIZED(olhovest_waveform, OLHOVEST_WAVEFORM_WORDS);
OLHOVEST_SIZED(olhovest_row, OLHOVEST_ROW_WORDS);
OLHOVEST_SIZED(olhovest_answer, OLHOVEST_ANSWER_WORDS);

/* How many words `count` records of a type take. */
#define OLHOVEST_WORDS(count, type) ((count) * (sizeof(type) / sizeof(uint64_t)))

/* The version that the library has. */
uint64_t olhovest_version(void);

/*
 * Whether a file of `length` bytes would be accepted, if tables of so many records were lent. Answers the fault and writes
 * all of `answer`, both exactly as olhovest_read does with such tables and OLHOVEST_ROWS rows: the counts are those of the
 * file, its rows too. It keeps no rows and is lent none, so it never answers 25. Writes nothing but `answer`.
 */
uint8_t olhovest_check(const uint8_t *bytes, size_t length, size_t components, size_t pins, size_t selectors,
                       size_t choices, size_t models, size_t waveforms, struct olhovest_answer *answer);

/*
 * Reads a file of `length` bytes into the lent tables. Behind each table stands how many words of eight bytes it has:
 * OLHOVEST_WORDS(count, type) for `count` records; words behind the last whole record are left alone. Of rows it asks for
 * OLHOVEST_ROW_STORE_WORDS words or more: with fewer it answers 25 and line 0, and does not look at the file.
 *
 * Answers the fault, and writes all of `answer`. Accepted (0): the tables hold the file's records from the front,
 * answer->components, .. say how many, and what lies behind those is as it was. Refused: answer->line and answer->column
 * are the line and the column told, the counts are 0, the texts are empty, and every table is as it was.
 *
 * The bytes, the tables and the answer do not overlap. A table without words may be NULL.
 */
uint8_t olhovest_read(const uint8_t *bytes, size_t length,
                      struct olhovest_component *components, size_t component_words,
                      struct olhovest_pin *pins, size_t pin_words,
                      struct olhovest_selector *selectors, size_t selector_words,
                      struct olhovest_choice *choices, size_t choice_words,
                      struct olhovest_model *models, size_t model_words,
                      struct olhovest_waveform *waveforms, size_t waveform_words,
                      struct olhovest_row *rows, size_t row_words,
                      struct olhovest_answer *answer);

/*
 * ---- What is asked of filled tables.
 *
 * Lend a table with the words of the records that are used, as OLHOVEST_WORDS(answer.pins, *pins). Nothing is asked of the
 * words: tables that no reading filled, counts that are too large and places past the end get an answer too, and nothing
 * outside the words that are lent is read. A table without words may be NULL.
 */

/* No such place. It is past the end of every table: asked for, it is a place where no record lies. */
#define OLHOVEST_NONE SIZE_MAX

/* The place of the pin that is called so in a component, or OLHOVEST_NONE. The name has `length` bytes. */
size_t olhovest_find_pin(const struct olhovest_component *components, size_t component_words,
                         const struct olhovest_pin *pins, size_t pin_words,
                         size_t component, const char *name, size_t length);

/* The place of the model that is called so, or OLHOVEST_NONE. */
size_t olhovest_find_model(const struct olhovest_model *models, size_t model_words, const char *name, size_t length);

/*
 * The place of the model chosen for the pin at a place: the model that it names, or the one in the first row of the selector
 * that it names. OLHOVEST_NONE for POWER, GND and NC, and where there is no such pin or model.
 */
size_t olhovest_model_of_pin(const struct olhovest_pin *pins, size_t pin_words,
                             const struct olhovest_selector *selectors, size_t selector_words,
                             const struct olhovest_choice *choices, size_t choice_words,
                             const struct olhovest_model *models, size_t model_words, size_t pin);

/* A pin's values: its own cell stands for typ, min and max; where that is missing, the three cells of its package. */
struct olhovest_values { struct olhovest_triple resistance, inductance, capacitance; };

/* The values of the pin at a place, with the package of the component that has it; all are missing where none has. */
void olhovest_values_of_pin(const struct olhovest_component *components, size_t component_words,
                            const struct olhovest_pin *pins, size_t pin_words,
                            size_t pin, struct olhovest_values *values);

/* Answers 1 and writes the row at a place of the row store; or answers 0, where no row lies there, and writes nothing. */
uint8_t olhovest_row_at(const struct olhovest_row *rows, size_t row_words, size_t place, struct olhovest_row *row);

/*
 * ---- Cells as doubles, for analyses in double precision.
 *
 * The double is the cell's exact decimal rounded once: the nearest one, and of two as near the one whose last bit is 0. It is
 * finite, has the decimal's sign, and differs from it by at most its 2^53-th part; zero gives plus zero. The cells of every file
 * that is read are given so. Of a word that no reading writes, with more than fifteen digits, the last fifteen count.
 */

/* What is answered for a missing cell: no fault has this number. */
#define OLHOVEST_NOT_GIVEN 255

/*
 * Answers 0 and writes the double of a cell. Or answers 24 (the power is below -22 or above 22) or OLHOVEST_NOT_GIVEN (the cell
 * is missing), and writes nothing: a missing cell is no zero. A 24 says nothing about other cells.
 */
uint8_t olhovest_double(olhovest_cell cell, double *value);

/*
 * The same for the row at a place of the row store: answers 1, and for its number, typ, min and max, in this order, writes to
 * `answers` what olhovest_double answers, and to `values` the double where that is 0; or answers 0, where no row lies there, and
 * writes nothing. The rows, the values and the answers do not overlap.
 */
uint8_t olhovest_row_doubles(const struct olhovest_row *rows, size_t row_words, size_t place,
                             double values[OLHOVEST_ROW_WORDS], uint8_t answers[OLHOVEST_ROW_WORDS]);

#endif
