"""Damages to the words of one line: one missing, one too many, one wrong, or `=` out of place, for lines of every shape, in any spacing."""

import re
from collections import namedtuple
from functools import partial

from making.damages_of_tables import SLOPES
from making.damages_of_words import VERSIONS, misplaced_equals
from making.decimals import not_number, past_limit
from making.draft import FIRST_LINES, NoPlace, damage, keyword_of, words
from making.names import RESERVED
from making.pen import LONGEST_LINE
from making.slips import letter_slip
from making.valid import LONG_HEADING, Line

EXTRA = ['x', '1', 'NA', '=', '=1', '2.5pF', '[x]', '-', '1/2', '5.0', '!', 'Pin', '_char']
FILE_NAMES = ['.ibs', 'A.ibs', 'a.IBS', 'a.ibss', 'a.pkg', 'x' * 41 + '.ibs', '=', 'a+b.ibs']
REST = {'column': LONG_HEADING[2:], 'cell': ['1', 'NA', '2']}
OUT_OF_RANGE = ['1e25', '1e-41', '-1e99', '1234567890123456', '+9999999999999999', '1.234567890123456', '1e24k', '1e-40f', '.1e26V']
IN_PLACE_OF_EQUALS = ['x', '1', ':', '-', '[', '1=', 'x=']

# What the words of a line are, and the lines written behind one of another kind where a file has none of this shape; the last is damaged.
# Shapes that can be damaged in one way only, and those that many files lack, are drawn more often.
Shape = namedtuple('Shape', 'roles sample behind often', defaults=((), '', 1))


def named(*roles):
    return ('name', *roles)


def keyword(*roles):
    return ('keyword', *roles)


CORNERS = ('number', 'cell', 'cell')
ROW = ('number', 'cell', 'cell', 'cell')
VALUE = ('=', 'number')
BEHIND = 'voltage range'
BARE = ['[Pulldown]', '[Pullup]', '[GND Clamp]', '[POWER Clamp]', '[Rising Waveform]', '[Falling Waveform]']
SHAPES = {
    'version': Shape(keyword('version')),
    'file name': Shape(keyword('file name')),
    'file rev': Shape(keyword('revision')),
    'component': Shape(keyword('text')),
    'location': Shape(named('option'), ['Timing_location Die'], 'component'),
    'manufacturer': Shape(keyword('text')),
    'package': Shape(keyword()),
    'package value': Shape(named(*CORNERS)),
    'pin heading': Shape(keyword(*['column'] * 5)),
    'short pin': Shape(('pin', 'signal', 'pin model'), often=2),
    'long pin': Shape(('pin', 'signal', 'pin model', 'cell', 'cell', 'cell'), often=2),
    'selector': Shape(keyword('model'), often=2),
    'choice': Shape(('model', 'description')),
    'model': Shape(keyword('model')),
    'Model_type': Shape(named('option')),
    'Polarity': Shape(named('option'), ['Polarity Inverting'], 'model', often=2),
    'Enable': Shape(named('option'), ['Enable Active-Low'], 'model', often=2),
    'first': Shape(named(*VALUE), ['Vref = 1'], 'model'),
    'C_comp': Shape(named(*CORNERS)),
    'capacitance': Shape(named(*CORNERS), ['C_comp_pullup 1p NA NA'], 'model'),
    'voltage range': Shape(keyword(*CORNERS)),
    'temperature range': Shape(keyword(*CORNERS), ['[Temperature Range] 25 0 85'], BEHIND),
    'ramp': Shape(keyword(), ['[Ramp]'], BEHIND, often=2),
    'slope': Shape(named('slope', 'slope', 'slope'), ['[Ramp]', 'dV/dt_f 1/1n NA 2/1n'], BEHIND),
    'load': Shape(named(*VALUE), ['[Ramp]', 'R_load = 50'], BEHIND, often=2),
    'fixture': Shape(named(*VALUE), ['[Falling Waveform]', 'V_fixture = 0'], BEHIND, often=2),
    'current row': Shape(ROW, ['[Pullup]', '0 1 NA 2'], BEHIND),
    'waveform row': Shape(ROW, ['[Rising Waveform]', 'R_fixture = 50', 'V_fixture = 0', '0 1 2 3'], BEHIND, often=2),
    **{name.lower(): Shape(keyword(), [name], BEHIND, often=2) for name in BARE},
    'end': Shape(keyword()),
}


def filled(parts, roles):
    """A [Pin] heading, or a row under the long one, with all the words that it may have."""
    return parts + REST[roles[-1]] if len(parts) == 3 and len(roles) == 6 else parts


def missing(dice, parts, roles):
    """The first word is left, or more; of a name, `=` and a number only the name."""
    return parts[:dice.between(1, max(1, len(parts) - (2 if '=' in roles else 1)))]


def last_missing(dice, parts, roles):
    """All words but the last are left, of a long heading or row maybe another less."""
    parts = filled(parts, roles)
    return parts[:max(1, len(parts) - dice.pick([1, 2] if len(parts) > 5 else [1]))]


def surplus(dice, parts, roles):
    return filled(parts, roles) + [dice.pick(EXTRA) for _ in range(dice.pick([1, 1, 2, 3]))]


def unequal(dice, parts, roles):
    """Nothing or something else where `=` must stand."""
    return parts[:1] + dice.pick([[], [dice.pick(IN_PLACE_OF_EQUALS)]]) + parts[2:]


def replaced(dice, parts, roles, wanted, make):
    """The words with one of these roles made anew, if any is left."""
    places = [place for place, role in enumerate(roles[:len(parts)]) if role in wanted]
    if not places:
        return parts
    place = dice.pick(places)
    return parts[:place] + [make(place)] + parts[place + 1:]


def no_number(dice, role):
    if role == 'slope':
        return dice.pick(SLOPES)
    return dice.flipped('NA') if role == 'number' and dice.chance(30) else not_number(dice)


def out_of_range(dice, role):
    word = past_limit(dice) if dice.chance(30) else dice.pick(OUT_OF_RANGE)
    return word if role != 'slope' else dice.pick([f'{word}/1n', f'1/{word}'])


def misnumbered(make, dice, parts, roles):
    """One of the numbers is none, or is out of range."""
    parts = filled(parts, roles)
    return replaced(dice, parts, roles, ('number', 'cell', 'slope'), lambda place: make(dice, roles[place]))


# Words that are wrong where a word of this role stands.
WRONG = {
    'version': lambda dice, word: dice.pick(VERSIONS[:5]),
    'file name': lambda dice, word: dice.pick(FILE_NAMES),
    'text': lambda dice, word: dice.pick(['x' * 41, 'a ' + 'x' * 40, 'x' * 38 + '  yz']),
    'model': lambda dice, word: dice.pick([dice.flipped(dice.pick(RESERVED)), 'm' * 41, '[m]', '[']),
    'column': letter_slip,
    'pin': lambda dice, word: dice.pick(['123456789', '[1', '[', 'p' * 40]),
    'signal': lambda dice, word: 's' * dice.pick([41, 41, 50]),
    'pin model': lambda dice, word: dice.pick([dice.flipped('NA'), dice.flipped('CIRCUITCALL'), 'm' * 41, '[m', '[']),
    'option': lambda dice, word: dice.pick([word.swapcase(), word + 'x', word[:-1] or '-', '=', 'NA', '=' + word]),
}


def miswritten(role, dice, parts, roles):
    """One word of this role is a wrong one."""
    return replaced(dice, parts, roles, (role,), lambda place: WRONG[role](dice, parts[place]))


def equals_behind(dice, parts, roles):
    """`=` right behind the name of a line that takes none."""
    return [parts[0] + dice.pick(['=', '=', '==']) + dice.pick(['', ' ']) + ' '.join(parts[1:])]


def misequal(dice, parts, roles):
    """The line as one of the forms with `=` out of place: a part of its own, blanks and all."""
    return [misplaced_equals(dice, ' '.join(parts))]


def ways_of(roles):
    """The ways in which a line with these words can be damaged."""
    if len(roles) > 1 and 'description' not in roles:
        yield missing
    if len(roles) > 5 or '=' in roles:
        yield last_missing
    if roles[-1] not in ('text', 'revision', 'description'):
        yield surplus
    if roles[0] == 'name':
        yield misequal
        yield unequal if '=' in roles else equals_behind
    if {'number', 'cell', 'slope'} & set(roles):
        yield partial(misnumbered, no_number)
        yield partial(misnumbered, out_of_range)
    yield from (partial(miswritten, role) for role in WRONG if role in roles)


WAYS = {shape: list(ways_of(SHAPES[shape].roles)) for shape in SHAPES}
CASES = [(shape, way) for shape in SHAPES for way in WAYS[shape] for _ in range(SHAPES[shape].often)]


def shape_of(line, above):
    """What tells a line from others of its kind: its keyword, its name, or the keyword line above it."""
    if line.kind == 'row':
        return 'current row' if above.kind == 'table' else 'waveform row'
    if line.kind == 'pin':
        return 'long pin' if 'R_pin' in above.text else 'short pin'
    if line.kind in ('table', 'waveform'):
        return keyword_of(line.text)[0].lower().replace('_', ' ')
    if line.kind in FIRST_LINES:
        name = re.match(r'[ \t]*([^ \t=]*)', line.text).group(1)
        return name if name in SHAPES else line.kind
    return line.kind


def places_of(draft, shape):
    above, places = Line('', ''), []
    for place, line in enumerate(draft.lines):
        if line.text.startswith('['):
            above = line
        if shape_of(line, above) == shape:
            places.append(place)
    return places


def line_of(draft, shape):
    """A line of this shape, written now if the file has none."""
    places = places_of(draft, shape)
    if places:
        return draft.lines[draft.choose(places)]
    if not SHAPES[shape].behind:
        raise NoPlace
    at = draft.place(SHAPES[shape].behind)
    for offset, text in enumerate(SHAPES[shape].sample, 1):
        draft.insert(at + offset, text)
    return draft.last


def parts_of(text, roles):
    """The words of a line; an argument that may hold blanks is one, and so is `=` behind a name."""
    if roles[0] == 'keyword':
        first, rest = keyword_of(text)
        parts = [first, rest.strip(' \t')] if roles[-1] in ('text', 'revision') else [first, *words(rest)]
    elif '=' in roles:
        parts = [part.strip(' \t') for part in re.split('(=)', text, maxsplit=1)]
    elif 'description' in roles:
        parts = text.strip(' \t').split(None, 1)
    else:
        parts = words(text)
    if len(parts) > len(roles) or not all(parts):
        raise NoPlace
    return parts


def spaced(dice, parts, roles):
    """The words with blanks of any width between them, none around the `=` of a named line now and then, and some before the first."""
    wide = dice.chance(50)

    def blank():
        return ''.join(dice.pick(' \t') for _ in range(dice.between(1, 3))) if wide else ' '

    indented = roles[0] != 'keyword' and (parts[0].startswith('[') or dice.chance(30))
    text = (blank() if indented else '') + parts[0]
    for place, part in enumerate(parts[1:], 1):
        joined = '=' in roles and '=' in parts[place - 1:place + 1] and dice.chance(50)
        text += ('' if joined else blank()) + part
    return text if len(text) <= LONGEST_LINE else ' '.join(parts)


@damage('lines', 520)
def one_word(draft):
    """A line of some shape has a word less, one more or a wrong one, now and then two of these; behind it stands a comment as often as not."""
    dice = draft.dice
    shape, way = dice.pick(CASES)
    line, roles = line_of(draft, shape), SHAPES[shape].roles
    parts = way(dice, parts_of(line.text, roles), roles)
    others = [other for other in WAYS[shape] if other is not way]
    if others and dice.chance(35):
        parts = dice.pick(others)(dice, parts, roles)
    line.text = spaced(dice, parts, roles)
    line.remarked = dice.chance(50)
