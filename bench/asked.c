/*
 * asked FILE..: the questions of the static library, answered again by plain loops. First on the tables of each accepted file,
 * then on tables that no reading filled: any words, any lengths, any places.
 */
#define _GNU_SOURCE
#include "asking.h"

#include <string.h>

enum { ROUNDS = 4000 };

/* ---- tables as they are lent */

struct lent {
    const struct olhovest_component *components;
    const struct olhovest_pin *pins;
    const struct olhovest_selector *selectors;
    const struct olhovest_choice *choices;
    const struct olhovest_model *models;
    const struct olhovest_row *rows;
    size_t component_words, pin_words, selector_words, choice_words, model_words, row_words;
};

/* How many whole records of a kind are lent. */
#define COUNT(l, kind, table) ((l)->kind##_words / (sizeof *(l)->table / 8))

static size_t text_length(const struct olhovest_name *n)
{
    return n->length < 40 ? n->length : 40;
}

static bool is_named(const struct olhovest_name *n, const char *name, size_t length)
{
    return text_length(n) == length && memcmp(n->bytes, name, length) == 0;
}

static size_t find_model(const struct lent *l, const char *name, size_t length)
{
    for (size_t k = 0; k < COUNT(l, model, models); k++)
        if (is_named(&l->models[k].name, name, length))
            return k;
    return OLHOVEST_NONE;
}

static size_t find_selector(const struct lent *l, const struct olhovest_name *name)
{
    for (size_t k = 0; k < COUNT(l, selector, selectors); k++)
        if (is_named(&l->selectors[k].name, name->bytes, text_length(name)))
            return k;
    return OLHOVEST_NONE;
}

static size_t find_pin(const struct lent *l, size_t component, const char *name, size_t length)
{
    if (component >= COUNT(l, component, components))
        return OLHOVEST_NONE;
    struct olhovest_span s = l->components[component].pins;
    for (size_t k = 0; k < COUNT(l, pin, pins); k++)
        if (k >= s.start && k - s.start < s.count && is_named(&l->pins[k].name, name, length))
            return k;
    return OLHOVEST_NONE;
}

static size_t model_of_pin(const struct lent *l, size_t pin)
{
    static const struct olhovest_name nobody;
    if (pin >= COUNT(l, pin, pins))
        return OLHOVEST_NONE;
    const struct olhovest_name *name = &l->pins[pin].model;
    if (is_named(name, "POWER", 5) || is_named(name, "GND", 3) || is_named(name, "NC", 2))
        return OLHOVEST_NONE;
    size_t k = find_selector(l, name);
    if (k != OLHOVEST_NONE) {
        struct olhovest_span s = l->selectors[k].choices;
        name = s.count > 0 && s.start < COUNT(l, choice, choices) ? &l->choices[s.start].model : &nobody;
    }
    return find_model(l, name->bytes, text_length(name));
}

/* ---- one question after the other, held to the loops */

static bool same_triple(struct olhovest_triple a, olhovest_cell own, struct olhovest_triple package)
{
    if (!olhovest_missing(own))
        package = (struct olhovest_triple){ own, own, own };
    return a.typ == handed(package.typ) && a.min == handed(package.min) && a.max == handed(package.max);
}

static void ask_values(const struct lent *l, size_t pin)
{
    const struct olhovest_triple missing = { OLHOVEST_MISSING, OLHOVEST_MISSING, OLHOVEST_MISSING };
    struct olhovest_triple r = missing, i = missing, c = missing;
    struct olhovest_pin p = { .resistance = OLHOVEST_MISSING, .inductance = OLHOVEST_MISSING, .capacitance = OLHOVEST_MISSING };
    if (pin < COUNT(l, pin, pins))
        p = l->pins[pin];
    for (size_t k = 0; k < COUNT(l, component, components); k++) {
        const struct olhovest_component *one = &l->components[k];
        if (pin >= one->pins.start && pin - one->pins.start < one->pins.count) {
            r = one->resistance, i = one->inductance, c = one->capacitance;
            break;
        }
    }
    struct olhovest_values v;
    olhovest_values_of_pin(l->components, l->component_words, l->pins, l->pin_words, pin, &v);
    hold(same_triple(v.resistance, p.resistance, r) && same_triple(v.inductance, p.inductance, i)
             && same_triple(v.capacitance, p.capacitance, c), "a pin's values");
}

static void ask_pin(const struct lent *l, size_t pin)
{
    hold(olhovest_model_of_pin(l->pins, l->pin_words, l->selectors, l->selector_words, l->choices, l->choice_words,
                               l->models, l->model_words, pin) == model_of_pin(l, pin), "a pin's model");
    ask_values(l, pin);
}

static void ask_name(const struct lent *l, size_t component, const char *name, size_t length)
{
    hold(olhovest_find_pin(l->components, l->component_words, l->pins, l->pin_words, component, name, length)
             == find_pin(l, component, name, length), "a pin by its name");
    hold(olhovest_find_model(l->models, l->model_words, name, length) == find_model(l, name, length), "a model by its name");
}

static void ask_row(const struct lent *l, size_t place)
{
    struct olhovest_row before = { 1, { 2, 3, 4 } }, row = before;
    bool there = place < COUNT(l, row, rows) && !olhovest_missing(l->rows[place].number);
    bool told = olhovest_row_at(l->rows, l->row_words, place, &row);
    hold(told == there, "whether a row is there");
    if (there)
        hold(row.number == handed(l->rows[place].number) && row.cells.typ == handed(l->rows[place].cells.typ)
                 && row.cells.min == handed(l->rows[place].cells.min) && row.cells.max == handed(l->rows[place].cells.max), "a row");
    else
        hold(memcmp(&row, &before, sizeof row) == 0, "no row");
}

/* ---- the tables of accepted files */

static void ask_file(const uint8_t *bytes, size_t length)
{
    static struct tables t;
    if (read_into(&t, bytes, length) != 0)
        return;
    struct lent l = {
        t.components, t.pins, t.selectors, t.choices, t.models, t.rows,
        OLHOVEST_WORDS(t.answer.components, *t.components), OLHOVEST_WORDS(t.answer.pins, *t.pins),
        OLHOVEST_WORDS(t.answer.selectors, *t.selectors), OLHOVEST_WORDS(t.answer.choices, *t.choices),
        OLHOVEST_WORDS(t.answer.models, *t.models), OLHOVEST_WORDS(t.answer.rows, *t.rows),
    };
    for (size_t k = 0; k <= t.answer.pins; k++) {
        ask_pin(&l, k);
        for (size_t c = 0; c <= t.answer.components && k < t.answer.pins; c++)
            ask_name(&l, c, t.pins[k].name.bytes, t.pins[k].name.length);
    }
    for (size_t k = 0; k < t.answer.models; k++)
        ask_name(&l, 0, t.models[k].name.bytes, t.models[k].name.length);
    for (size_t k = 0; k <= t.answer.rows; k++)
        ask_row(&l, k);
    ask_name(&l, 0, "", 0);
}

/* ---- tables that no reading filled */

static void ask_any(void)
{
    struct lent l;
#define LEND(kind, table) l.kind##_words = any_length(sizeof *l.table), l.table = (void *)lend(l.kind##_words, any_word)
    LEND(component, components);
    LEND(pin, pins);
    LEND(selector, selectors);
    LEND(choice, choices);
    LEND(model, models);
    LEND(row, rows);
    char name[48];
    size_t length = any() % 3 == 0 ? any() % sizeof name : any() % 3;
    for (size_t i = 0; i < length; i++)
        name[i] = any() % 2 ? 0 : (char)any_word();
    ask_name(&l, any_place(), name, length);
    ask_pin(&l, any_place());
    ask_row(&l, any_place());
    size_t k = any_place();
    if (k < COUNT(&l, pin, pins))
        ask_name(&l, any_place(), l.pins[k].name.bytes, text_length(&l.pins[k].name));
}

int main(int count, char **paths)
{
    ask_files(count - 1, paths + 1, ask_file);
    for (int i = 0; i < ROUNDS; i++)
        ask_any();
    printf("asked: %ld passed, %ld failed\n", passed, failed);
    return failed != 0;
}
