"""Valid files as lists of lines, each line knowing what it is, so that a damage finds its place."""

from making.decimals import digits_of, exact, normal, rising, shortest_rising, some_number
from making.names import NEEDLESS, Names, file_name, is_model_name, phrase, word

TEXTS = ['Date', 'Source', 'Notes', 'Disclaimer', 'Copyright']
TABLES = ['Pulldown', 'Pullup', 'GND Clamp', 'POWER Clamp']
TYPES = ['Input', 'Output', 'I/O', '3-state', 'Open_drain', 'I/O_open_drain', 'Open_sink', 'I/O_open_sink', 'Open_source',
         'I/O_open_source', 'Input_ECL', 'Output_ECL', 'I/O_ECL', '3-state_ECL', 'Terminator']
RAMPLESS = ['Input', 'Input_ECL', 'Terminator']
ECL_INPUTS = ['Input_ECL', 'I/O_ECL']
# The thresholds where absent, and numbers at them and beside them.
DEFAULTS = {'Vinl': (8, -1), 'Vinh': (2, 0)}
NEAR = [(800000000000001, -15), (199999999999999, -14), (8, -1), (2, 0)]
ECL_DEFAULTS = {'Vinl': (-1475, -3), 'Vinh': (-1165, -3)}
ECL_NEAR = [(-147499999999999, -14), (-116500000000001, -14), (-1475, -3), (-1165, -3)]
SPLIT = ['C_comp_pullup', 'C_comp_pulldown', 'C_comp_power_clamp', 'C_comp_gnd_clamp']
FREE_NUMBERS = ['Vmeas', 'Cref', 'Rref', 'Vref']
FIXTURES = ['V_fixture_min', 'V_fixture_max', 'C_fixture', 'L_fixture', 'R_dut', 'L_dut', 'C_dut']
SHORT_HEADING = ['signal_name', 'model_name']
LONG_HEADING = SHORT_HEADING + ['R_pin', 'L_pin', 'C_pin']
FEWEST_ROWS, MOST_CURRENT_ROWS, MOST_WAVEFORM_ROWS, MOST_WAVEFORMS = 2, 100, 1000, 16


class Line:
    """A line without its end; the kind says what it was made as, whatever damages make of it."""

    def __init__(self, kind, text, ending='\n'):
        self.kind, self.text, self.ending = kind, text, ending
        self.remarked = False  # whether a comment stands behind it for certain

    def copy(self):
        return Line(self.kind, self.text, self.ending)


class Plan:
    """How many of each part a file has."""

    def __init__(self, dice):
        self.terse, self.ending = False, '\n'  # the line end of a terse file
        self.size = 0  # the bytes of a file that is filled up with rows
        self.components = dice.weighted([(8, 1), (2, 2), (1, 3)])
        self.models = dice.weighted([(1, 0), (6, 1), (4, 2), (2, 3), (1, 5)])
        self.selectors = dice.weighted([(3, 0), (3, 1), (1, 2), (1, 3)]) if self.models else 0
        self.choices = dice.between(0, 6)
        self.pins = dice.between(1, 6)
        self.waveforms = dice.weighted([(4, (0, 0)), (3, (0, 2)), (1, (1, 4))])
        self.rows = dice.weighted([(6, (2, 4)), (2, (2, 12))])


def build(pen, plan):
    """The lines of a valid file after this plan (valid, too, but for the bound that a plan passes)."""
    dice = pen.dice
    names = Names(dice, 40, pen.odd_names, is_model_name)
    fresh = names.short if plan.terse else names.fresh
    models = [fresh() for _ in range(plan.models)]
    selectors = [fresh() for _ in range(plan.selectors)]
    rows = [dice.shuffled(models)[:count] for count in shares(dice, plan.choices, len(selectors), len(models))]
    listed = [name for row in rows for name in row]
    sections = [component(pen, plan, pins) for pins in references(dice, plan, models, selectors, listed)]
    component_names = Names(dice, 40, pen.odd_names)
    for lines in sections:
        lines[0].text = pen.keyword('Component', component_names.fresh(phrase))
    sections += [selector(pen, name, row) for name, row in zip(selectors, rows)]
    sections += [model(pen, plan, name) for name in models]
    if dice.chance(50):
        sections = dice.shuffled(sections)
    lines = header(pen) + [line for lines in sections for line in lines] + [Line('end', pen.keyword('End'))]
    return filled(pen, plan, lines) if plan.size else lines


def shares(dice, total, count, limit):
    """How many rows each selector has: at least one, together as many as planned where the models suffice."""
    rows = [1] * count
    while sum(rows) < min(total, count * limit):
        rows[dice.pick([place for place in range(count) if rows[place] < limit])] += 1
    return rows


def references(dice, plan, models, selectors, listed):
    """What the pins of each component name: every selector, every model that no selector lists, and others."""
    wanted = selectors + [name for name in models if name not in listed]
    while len(wanted) < max(plan.pins, plan.components):
        if dice.chance(40) and models:
            wanted.append(dice.pick(models + selectors))
        else:
            reserved = dice.pick(NEEDLESS)
            wanted.append(dice.pick([reserved, reserved, reserved.lower(), dice.flipped(reserved)]))
    wanted = dice.shuffled(wanted)
    return [wanted[first::plan.components] for first in range(plan.components)]


def header(pen):
    dice = pen.dice
    name = pen.keyword('File Name', file_name(dice, pen.odd_names))
    revision = pen.keyword('File Rev', phrase(dice, dice.pick([12, 100]), pen.odd_names))
    parts = [[Line('file name', name)], [Line('file rev', revision)]]
    parts += [text(pen, keyword) for keyword in dice.some(TEXTS, 0 if pen.terse else 20)]
    first = Line('version', pen.keyword('IBIS Ver', '5.0'))
    return [first] + [line for part in dice.shuffled(parts) for line in part]


def text(pen, keyword):
    """A text keyword and its text, which may begin on the keyword's line and may hold nearly anything."""
    dice = pen.dice
    opening = pen.keyword(keyword, phrase(dice, 60, pen.odd_names) if dice.chance(60) else '')
    lines = [Line('text keyword', opening)]
    for _ in range(dice.pick([0, 0, 1, 2, 4])):
        free = phrase(dice, 100, pen.odd_names)
        lines.append(Line('text', ' ' + free if free.startswith('[') else free))
    return lines


def component(pen, plan, models):
    """A component whose pins name these models; the caller writes its first line."""
    dice = pen.dice
    lines = [Line('component', '')]
    for name in dice.some(['Si_location', 'Timing_location'], 0 if pen.terse else 40):
        lines.append(Line('location', pen.line([name, dice.pick(['Pin', 'Die'])])))
    manufacturer = [Line('manufacturer', pen.keyword('Manufacturer', phrase(dice, 40, pen.odd_names)))]
    package = [Line('package value', pen.line([name, *pen.cells()])) for name in dice.shuffled(['R_pkg', 'L_pkg', 'C_pkg'])]
    package = [Line('package', pen.keyword('Package'))] + package
    parts = [manufacturer, package, pins(pen, models)]
    return lines + [line for part in dice.shuffled(parts) for line in part]


def pins(pen, models):
    dice = pen.dice
    names = Names(dice, 8, pen.odd_names, lambda name: not name.startswith('['))
    fresh = names.short if pen.terse else names.fresh
    heading = dice.pick([SHORT_HEADING, LONG_HEADING])
    lines = [Line('pin heading', pen.keyword('Pin', pen.line(heading).strip()))]
    for model_name in models:
        row = [fresh(), word(dice, 1 if pen.terse else 40, pen.odd_names), model_name]
        room = (115 - sum(map(len, row))) // 3 - 1
        if heading is LONG_HEADING and dice.chance(60):
            row += [pen.cell(room), pen.cell(room), pen.cell(room)]
        lines.append(Line('pin', pen.line(row)))
    return lines


def selector(pen, name, models):
    lines = [Line('selector', pen.keyword('Model Selector', name))]
    for model_name in models:
        free = [] if pen.terse or pen.dice.chance(40) else [phrase(pen.dice, 60, pen.odd_names)]
        lines.append(Line('choice', pen.line([model_name] + free)))
    return lines


def model(pen, plan, name):
    dice = pen.dice
    kind = dice.pick(RAMPLESS if plan.terse else TYPES)
    share = 0 if plan.terse else dice.pick([0, 30, 70])
    first = [pen.line(['Model_type', kind])]
    first += [pen.line(['Polarity', word]) for word in dice.some(['Inverting', 'Non-Inverting'], share)[:1]]
    first += [pen.line(['Enable', word]) for word in dice.some(['Active-High', 'Active-Low'], share)[:1]]
    first += [pen.equation(name, pen.number(100)) for name in dice.some(FREE_NUMBERS, share)]
    first = [Line('first', line) for line in first + thresholds(pen, kind, share)]
    first += [Line('capacitance', pen.line([name, *pen.cells()])) for name in ['C_comp', *dice.some(SPLIT, share)]]
    parts = [[Line('voltage range', pen.keyword('Voltage Range', pen.line(pen.cells()).strip()))]]
    if dice.chance(share):
        parts.append([Line('temperature range', pen.keyword('Temperature Range', pen.line(pen.cells()).strip()))])
    parts += [table(pen, plan, keyword) for keyword in dice.some(TABLES, share)]
    if kind not in RAMPLESS or dice.chance(share // 2):
        parts.append(ramp(pen))
    parts += [waveform(pen, plan) for _ in range(dice.between(*plan.waveforms))]
    lines = [Line('model', pen.keyword('Model', name))] + dice.shuffled(first)
    return lines + [line for part in dice.shuffled(parts) for line in part]


def thresholds(pen, kind, share):
    """Vinl and Vinh, both, one or none; where they must be in order, often as near to each other as digits allow."""
    dice = pen.dice
    values, near = (dict(ECL_DEFAULTS), ECL_NEAR) if kind in ECL_INPUTS else (dict(DEFAULTS), NEAR)
    given = dice.some(values, share)
    for name in given:
        values[name] = some_number(dice)
        if dice.chance(30):
            values[name] = (digits_of(dice, 15) // 10 * 10 + 9, -14)
        if dice.chance(30):
            values[name] = dice.pick(near)
    if kind.startswith(('Input', 'I/O')) and exact(values['Vinl']) >= exact(values['Vinh']):
        given = []
    return [pen.equation(name, pen.spelled(normal(*values[name]), 100)) for name in given]


def rows_of(pen, count):
    numbers = shortest_rising(count) if pen.terse else [pen.spelled(normal(*number)) for number in rising(pen.dice, count)]
    lines = []
    for place, number in enumerate(numbers):
        typ = pen.number() if place in (0, count - 1) else pen.cell()
        lines.append(Line('row', pen.line([number, typ, pen.cell(), pen.cell()])))
    return lines


def table(pen, plan, keyword):
    return [Line('table', pen.keyword(keyword))] + rows_of(pen, min(pen.dice.between(*plan.rows), MOST_CURRENT_ROWS))


def waveform(pen, plan):
    dice = pen.dice
    names = ['R_fixture', 'V_fixture'] + dice.some(FIXTURES, 0 if pen.terse else 20)
    lines = [Line('waveform', pen.keyword(dice.pick(['Rising Waveform', 'Falling Waveform'])))]
    lines += [Line('fixture', pen.equation(name, pen.number(90))) for name in dice.shuffled(names)]
    return lines + rows_of(pen, pen.dice.between(*plan.rows))


def slope(pen):
    while True:
        divisor = some_number(pen.dice)
        if exact(divisor) > 0:
            return pen.number(13) + '/' + pen.spelled(divisor, 13)


def ramp(pen):
    dice = pen.dice
    lines = []
    for name in ['dV/dt_r', 'dV/dt_f']:
        others = [pen.missing() if dice.chance(50) else slope(pen) for _ in range(2)]
        lines.append(Line('slope', pen.line([name, slope(pen), *others])))
    if dice.chance(50):
        lines.append(Line('load', pen.equation('R_load', pen.number(90))))
    return [Line('ramp', pen.keyword('Ramp'))] + dice.shuffled(lines)


def bytes_of(pen, lines):
    return sum(len(line.text) + len(pen.ending) for line in lines)


def fitting(pen, lines, room):
    """A table with as many of its rows as so many bytes have room for; nothing where those are too few for a table."""
    kept = []
    for line in lines:
        room -= bytes_of(pen, [line])
        if room < 0:
            break
        kept.append(line)
    return kept if sum(line.kind == 'row' for line in kept) >= FEWEST_ROWS else []


def some_tables(pen, plan, room):
    """The current tables and waveforms of a model, in any order, as long as so many bytes have room for them."""
    lines = []
    for keyword in pen.dice.shuffled(TABLES + [''] * MOST_WAVEFORMS):
        part = fitting(pen, table(pen, plan, keyword) if keyword else waveform(pen, plan), room - bytes_of(pen, lines))
        if not part:
            break
        lines += part
    return lines


def filled(pen, plan, lines):
    """The lines with tables in each model until the file has its planned size, the rest of it as blanks behind [End]."""
    result, room = [], plan.size - bytes_of(pen, lines)
    for line in lines:
        result.append(line)
        if line.kind == 'voltage range':
            tables = some_tables(pen, plan, room)
            room -= bytes_of(pen, tables)
            result += tables
    result[-1].text += ' ' * room
    return result
