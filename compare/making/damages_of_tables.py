"""Damages that more than one line decides: rows, divisors, thresholds, names used twice or by nobody, bounds passed."""

from making.damages_of_words import rename
from making.decimals import neighbours, spell
from making.draft import SECTIONS, NoPlace, damage, keyword_of, with_word, words
from making.names import NEEDLESS, RESERVED, is_model_name, plain_word, resembling

BOUNDS = {'components': 8, 'pins': 512, 'selectors': 32, 'choices': 256, 'models': 64, 'waveforms': 16}
THRESHOLDS = ['0.8', '8e-1', '0.800000000000001', '0.799999999999999', '2.0', '2', '+2000m', '1.99999999999999', '2.00000000000001',
              '-1e24', '1e24', '0', '1e-40', '-1e-40', '0e99', '-0', '-1.475', '-1475m', '-1.47500000000001', '-1.47499999999999', '-1.165',
              '-1165m', '-1.16500000000001', '-1.16499999999999', '-2', '-1.3']
SLOPES = ['1', '1/', '/1', '/', '1//1', '1/2/3', 'NA/1', '1/NA', 'NA/NA', 'x/1', '1/x', '1e99/x', 'x/1e99', '1e99/1', '1/1e99',
          '1e99/0', '1/1e-41', '0/1', '-1/1', '-1/-1', '1e/1e', '1V/1ns', '1 /1', '1/ 1', 'NA', 'na', '1=1', '1-1', '1,1', '1:1',
          '1\\1', '1.1.1', '1/=1', '+1/+1', '1e24/1e24', '1234567890123456/1', '1/1234567890123456']
SLOPES_OVER_NOTHING = ['1/0', '1/0.0', '1/-0', '1/0e99', '0/0', '1/0k', '1/-1', '1/-1e-40', '1/1e-40', '1/.0', '-1/0']


def rows_below(draft, at):
    end = draft.list_end(at)
    return [place for place in range(at + 1, end) if draft.lines[place].kind == 'row']


def choose_table(draft):
    at = draft.place('table', 'waveform')
    places = rows_below(draft, at)
    if not places:
        raise NoPlace
    return at, places


def set_rows(draft, at, texts):
    """Gives the table at this place these rows and no other."""
    places = rows_below(draft, at)
    first = places[0] if places else draft.list_end(at)
    for place in reversed(places):
        del draft.lines[place]
    for text in reversed(texts):
        draft.insert(first, text, 'row')


@damage('lines', 8)
def nearest_rows(draft):
    """Two rows as near as can be, rising or not."""
    dice = draft.dice
    numbers = dice.shuffled(neighbours(dice)) if dice.chance(50) else neighbours(dice)
    set_rows(draft, choose_table(draft)[0], [f'{spell(dice, number)} 1 NA 2' for number in numbers])


@damage('lines', 6)
def rows_not_rising(draft):
    dice = draft.dice
    _, places = choose_table(draft)
    one, other = dice.pick(places), dice.pick(places)
    lines = draft.lines
    if dice.chance(50):
        lines[one], lines[other] = lines[other], lines[one]
    else:
        lines[one].text = with_word(lines[one].text, 0, (words(lines[other].text) or ['0'])[0])


@damage('lines', 9)
def row_count(draft):
    at = draft.place('table', 'waveform')
    large = [(1, 100), (3, 101)] if draft.lines[at].kind == 'table' else [(1, 101), (1, 1000), (2, 1001)]
    count = draft.dice.weighted([(2, 0), (4, 1), (1, 2)] + large)
    set_rows(draft, at, [f'{row} 0 NA NA' for row in range(count)])


@damage('lines', 7)
def end_typ_missing(draft):
    _, places = choose_table(draft)
    at = draft.dice.pick([places[0], places[-1], draft.dice.pick(places)])
    if len(words(draft.lines[at].text)) > 1:
        draft.lines[at].text = with_word(draft.lines[at].text, 1, draft.pen.missing())


@damage('lines', 10)
def slope_wrong(draft):
    line = draft.lines[draft.place('slope')]
    if len(words(line.text)) < 4:
        raise NoPlace
    for number in draft.dice.some([1, 2, 3], 30) or [draft.dice.between(1, 3)]:
        line.text = with_word(line.text, number, draft.dice.pick(draft.dice.pick([SLOPES, SLOPES, SLOPES_OVER_NOTHING])))


@damage('lines', 36)
def thresholds_near(draft):
    """Vinl and Vinh of a model, or one of them, at the border of being in order."""
    dice = draft.dice
    at = draft.place('model')
    model = draft.lines[at]
    gone = [place for place in draft.section(at)
            if draft.lines[place].kind == 'first' and draft.lines[place].text.strip(' \t').startswith(('Vinl', 'Vinh'))]
    draft.lines = [line for place, line in enumerate(draft.lines) if place not in gone]
    both = [spell(dice, number) for number in neighbours(dice)]
    given = dice.pick([('Vinl',), ('Vinh',), ('Vinl', 'Vinh'), ('Vinh', 'Vinl'), ('Vinh', 'Vinl')])
    values = both if len(given) == 2 else [dice.pick(THRESHOLDS)]
    for name, value in dice.shuffled(zip(given, values)):
        draft.insert(at + 1, draft.pen.equation(name, value), 'first')
    draft.last = model
    section = [draft.lines[place] for place in draft.section(at)]
    ramp = any(line.kind == 'ramp' for line in section)
    for line in section:
        if line.text.strip(' \t').startswith('Model_type') and dice.chance(90):
            line.text = 'Model_type ' + dice.pick(['I/O', 'I/O_open_drain', 'I/O_ECL'] if ramp else ['Input', 'Input_ECL'])


def name_of(line):
    found = words(line.text) if line.kind in ('pin', 'choice') else [keyword_of(line.text)[1].strip(' \t')]
    return found[0] if found else ''


@damage('lines', 20)
def name_used(draft):
    """A name that another line of its kind has, or one that resembles it."""
    dice = draft.dice
    at = draft.place('component', 'pin', 'choice', 'model', 'selector')
    kind = draft.lines[at].kind
    kinds = ('model', 'selector') if kind in ('model', 'selector') else (kind,)
    scope = draft.section(at) if kind in ('pin', 'choice') and dice.chance(80) else range(len(draft.lines))
    others = [place for place in scope if draft.lines[place].kind in kinds and place != at]
    if not others:
        others = [draft.section(at)[-1] + 1 if kind in SECTIONS else at + 1]
        draft.lines.insert(others[0], draft.lines[at].copy())
    name = name_of(draft.lines[at])
    rename(draft.lines[dice.pick(others)], name if dice.chance(85) else resembling(dice, name, 40))


@damage('lines', 14)
def name_not_found(draft):
    """A pin or a selector row names another model, or the model itself has another name."""
    dice = draft.dice
    line = draft.lines[draft.place('pin', 'choice', 'model', 'selector')]
    number = 2 if line.kind == 'pin' else 0
    old = (words(line.text) + ['', '', ''])[number] if line.kind in ('pin', 'choice') else name_of(line)
    listed = [name_of(other) for other in draft.lines if other.kind == ('selector' if line.kind == 'choice' else 'model')]
    name = dice.pick([resembling(dice, old, 40), resembling(dice, old, 40), plain_word(dice, 40), *listed[:2], dice.pick(RESERVED) + 'X'])
    if line.kind == 'pin' and len(words(line.text)) > 2:
        line.text = with_word(line.text, 2, name)
    else:
        rename(line, name)


def model_of(line):
    """What a pin row names, or else a word that is no model's name."""
    return (words(line.text)[2:3] or ['NA'])[0] if line.kind == 'pin' else 'NA'


@damage('lines', 30)
def nobody_lists(draft):
    """A model or a selector more, or the pins that name one name something else."""
    dice = draft.dice
    kind = dice.pick(['more', 'pin', 'pins'])
    borders = [place for place, line in enumerate(draft.lines) if line.kind in ('component', 'selector', 'model', 'end')]
    if kind == 'more':
        at = draft.choose(borders)
        model = ['[Model] unlisted', 'Model_type Input', 'C_comp 1 NA NA', '[Voltage Range] 1 NA NA']
        selector = ['[Model Selector] unlisted', dice.pick([name_of(line) for line in draft.lines if line.kind == 'model'] + ['x'])]
        for text in reversed(dice.pick([model, selector])):
            draft.insert(at, text)
        return
    at = draft.choose([place for place, line in enumerate(draft.lines) if is_model_name(model_of(line))])
    name = model_of(draft.lines[at])
    for line in draft.lines:
        if model_of(line) == name and (kind == 'pins' or line is draft.lines[at]):
            line.text = with_word(line.text, 2, dice.pick(NEEDLESS))


@damage('plan', 16)
def bound(draft):
    """As many of a part as the bounds allow, or one more."""
    crowd(draft, draft.dice.pick(list(BOUNDS)), draft.dice.pick([0, 1, 1, 1]))


def crowd(draft, part, more):
    """A plan for as many of a part as the bound allows, and so many more; everything else is kept small."""
    plan, count = draft.plan, BOUNDS[part] + more
    plan.terse, plan.components, plan.pins, plan.rows, plan.waveforms = True, 1, 1, (2, 2), (0, 0)
    plan.models, plan.selectors, plan.choices = 1, 0, 0
    if part == 'waveforms':
        plan.waveforms = (count, count)
    else:
        setattr(plan, part, count)
    if part == 'choices':
        plan.models, plan.selectors = 33, 8
