"""Damages to the words of a line: their count, fixed words, names, equals signs and numbers."""

import re

from making.decimals import not_number, past_limit
from making.draft import FIRST_LINES, NoPlace, damage, keyword_of, pieces, with_word, words
from making.names import FILE_NAME_CHARACTERS, GRAPHIC, RESERVED
from making.slips import slipped
from making.valid import LONG_HEADING, SHORT_HEADING, SPLIT, TYPES

NAMED_LINES = ('location', 'package value', *FIRST_LINES, 'slope', 'load', 'fixture')
NUMBER_LINES = ('package value', *FIRST_LINES, 'slope', 'load', 'fixture', 'row', 'pin', 'voltage range', 'temperature range')
# Nearly the names of capacitances by structure. Where one has a blank, the line's name ends there: C_comp, or no name at all.
NEAR_SPLIT = ['C_comp_Pullup', 'C_comp_Pulldown', 'C_comp_POWER_clamp', 'C_comp_power_Clamp', 'C_comp_GND_Clamp', 'C_comp_', 'C_comp_clamp',
              'C_comp_pull', 'C_comp_pull_up', 'C_comp_ground_clamp', 'C_comp pullup', 'C_comp pulldown', 'C_comp_power clamp', 'C_comp gnd_clamp']
# What may follow the name of a capacitance, and what may not.
CELLS = [' 1p NA NA', '\t5pF\t4pF\t6pF', ' 0 NA -0', ' -1p NA -2p', ' NA NA NA', ' na 1p 2p', '', ' 1p', ' 1p NA', ' 1p 2p 3p 4p', ' 1p NA NA NA',
         '=1p NA NA', '= 1p NA NA', ' =1p NA NA', ' = 1p NA NA', ' 1p x NA', ' 1e99 x NA', ' x 1e99 NA', ' 1p NA 1e-41', ' NA NA']
VERSIONS = ['5', '5.', '5.1', '05.0', '5.00', '4.2', '5.0 5.0', '5.0x', '-5.0', '', '5 .0', '5,0', '50e-1', '5.1 x', 'x 5.0']


def number_spans(line):
    """Where the numbers of a line stand, as far as its kind and form tell."""
    if line.kind not in NUMBER_LINES or re.match(r'[ \t]*(Model_type|Polarity|Enable)', line.text):
        return []
    skipped = {'row': r'', 'pin': r'[ \t]*([^ \t]+[ \t]+){2}[^ \t]+', 'voltage range': r'[^\]]*\]?',
               'temperature range': r'[^\]]*\]?'}.get(line.kind, r'[ \t]*[^ \t=]*')
    start = re.match(skipped, line.text)
    return [found.span() for found in re.finditer(r'[^ \t=/]+', line.text) if start and found.start() >= start.end()]


def replace_number(draft, word, leftmost=0):
    """Puts a word in the place of a number; the chance is that of the line's leftmost one."""
    places = [place for place, line in enumerate(draft.lines) if number_spans(line)]
    line = draft.lines[draft.choose(places)]
    spans = number_spans(line)
    first, end = spans[0] if draft.dice.chance(leftmost) else draft.dice.pick(spans)
    line.text = line.text[:first] + word + line.text[end:]


@damage('lines', 20)
def no_number(draft):
    replace_number(draft, not_number(draft.dice))


@damage('lines', 22)
def number_past_limit(draft):
    replace_number(draft, past_limit(draft.dice))


@damage('lines', 12)
def number_missing(draft):
    replace_number(draft, draft.pen.missing(), 70)


@damage('lines', 5)
def numbers_all_wrong(draft):
    """Several numbers of one line are wrong, so that the order of the words' faults shows."""
    dice = draft.dice
    places = [place for place, line in enumerate(draft.lines) if len(number_spans(line)) > 1]
    line = draft.lines[draft.choose(places)]
    for first, end in reversed(number_spans(line)):
        if dice.chance(70):
            word = dice.pick([not_number(dice), past_limit(dice), 'NA', '0', '-1'])
            line.text = line.text[:first] + word + line.text[end:]


@damage('lines', 14)
def word_count(draft):
    """A line has one word less, one more, or one word cut in two."""
    line = draft.lines[draft.place()]
    parts = pieces(line.text)
    blank = draft.pen.blank()
    at = draft.dice.below(len(parts) + 1)
    line.text = draft.dice.pick([
        ''.join(parts[:-2]), ''.join(parts[:-1]), ''.join(parts + [blank, parts[-1]]), ''.join(parts + [blank, 'x']),
        ''.join(parts[:at] + ['1', blank] + parts[at:]), ''.join(parts[:at] + [blank] + parts[at:]),
        ''.join(parts[:at] + parts[at + 1:])])


@damage('lines', 10)
def fixed_word(draft):
    """A word that is one of a few is another, or in another case, or a little longer or shorter."""
    at = draft.place('location', 'first', 'version', 'pin heading')
    dice, line = draft.dice, draft.lines[at]
    if line.kind == 'version':
        line.text = keyword_of(line.text)[0] + ' ' + dice.pick(VERSIONS)
    elif line.kind == 'pin heading':
        heading = dice.pick([SHORT_HEADING, LONG_HEADING, LONG_HEADING[::-1], LONG_HEADING[:-1], SHORT_HEADING + ['R_pin'],
                             LONG_HEADING + ['x'], SHORT_HEADING[:1], [dice.flipped(word) for word in LONG_HEADING]])
        line.text = keyword_of(line.text)[0] + ' ' + ' '.join(heading)
    else:
        word = words(line.text)[-1]
        others = TYPES + ['Pin', 'Die', 'Inverting', 'Non-Inverting', 'Active-High', 'Active-Low', 'I/O_Open_drain', 'IO', 'NA', '-']
        changed = [dice.flipped(word), word.lower(), word[:-1], word + 'x', word + '_ECL', dice.pick(others), dice.pick(others)]
        line.text = with_word(line.text, -1, dice.pick(changed))


@damage('lines', 4)
def heading_switched(draft):
    """The other [Pin] heading over the same rows, one of them with cells."""
    at = draft.place('pin heading')
    keyword, rest = keyword_of(draft.lines[at].text)
    draft.lines[at].text = keyword + ' ' + ' '.join(SHORT_HEADING if 'R_pin' in rest else LONG_HEADING)
    rows = [line for line in draft.lines[at + 1:draft.list_end(at)] if line.kind == 'pin']
    if rows:
        row = draft.dice.pick(rows)
        row.text = ' '.join(words(row.text)[:3] + draft.dice.pick([['1', 'NA', '2'], ['1', '2'], ['NA'], ['1', '2', '3', '4']]))


@damage('lines', 5)
def name_of_line(draft):
    """The name that begins a line is in another case, or a little longer or shorter."""
    line = draft.lines[draft.place(*NAMED_LINES)]
    name = re.match(r'[ \t]*([^ \t=]*)', line.text).group(1)
    other = draft.dice.pick([name.lower(), name.upper(), draft.dice.flipped(name), name + '_', name + 'x', name[:-1],
                             name + '_min', name[1:], name.replace('_', ''), name.replace('_', ' ')])
    line.text = line.text.replace(name, other, 1)


@damage('lines', 24)
def capacitance_name(draft):
    """A capacitance under another one's name, so that one may be there twice or C_comp be missing, or under a name that is nearly one."""
    dice, line = draft.dice, draft.lines[draft.place('capacitance')]
    name = dice.pick(['C_comp', *SPLIT])
    other = dice.pick([name, name, dice.flipped(name), name[:-1], name + dice.pick(['s', '_', '_min']), name.rpartition('_')[0],
                       slipped(dice, name), dice.pick(NEAR_SPLIT)])
    line.text = with_word(line.text, 0, other)


@damage('lines', 24)
def capacitance_besides(draft):
    """One of the capacitances by structure more among a model's first lines: for the second time, with wrong cells, or rightly."""
    at = draft.place('model', *FIRST_LINES)
    draft.insert(at + 1, draft.dice.pick(SPLIT) + draft.dice.pick(CELLS), 'capacitance')


def rename(line, name):
    """Writes another name into the place where this kind of line has its name."""
    if line.kind in ('pin', 'choice'):
        line.text = with_word(line.text, 0, name)
    else:
        line.text = keyword_of(line.text)[0] + ' ' + name


@damage('lines', 12)
def name_length(draft):
    """A name as long as allowed, or one longer."""
    dice = draft.dice
    at = draft.place('component', 'manufacturer', 'pin', 'selector', 'choice', 'model', 'file name')
    line = draft.lines[at]
    limit = dice.pick([0, 1]) + (8 if line.kind == 'pin' else 40)
    name = ''.join(dice.pick(FILE_NAME_CHARACTERS) for _ in range(limit))
    if line.kind in ('component', 'manufacturer') and dice.chance(50):
        name = name[:3] + ' ' + name[4:]
    if line.kind == 'pin' and dice.chance(70) and len(words(line.text)) > 2:
        line.text = with_word(line.text, dice.pick([1, 2]), name.ljust(limit + 32, 'y'))
    elif line.kind == 'file name':
        rename(line, name + dice.pick(['.ibs', '.ibs', '.ib', '.IBS', 'ibs']))
    else:
        rename(line, name)


@damage('lines', 12)
def name_not_allowed(draft):
    """A reserved word in any case, or a bracket, where a name stands."""
    dice = draft.dice
    kinds = ('pin',) if dice.chance(40) else ('choice', 'model', 'selector', 'component', 'manufacturer')
    line = draft.lines[draft.place(*kinds)]
    reserved = dice.pick(RESERVED)
    name = dice.pick([reserved, reserved.lower(), dice.flipped(reserved), '[x', '[', '[End]', reserved + 'S', 'x['])
    if line.kind == 'pin' and dice.chance(30):
        line.text = with_word(line.text, 2, dice.flipped(dice.pick(['NA', 'CIRCUITCALL'])))
    elif line.kind == 'pin' and dice.chance(60):
        line.text = with_word(line.text, dice.pick([1, 2]), name)
    elif line.kind in ('pin', 'choice') and name.startswith('['):
        line.text = ' ' + with_word(line.text.strip(), 0, name)
    else:
        rename(line, name)


@damage('lines', 6)
def file_name_wrong(draft):
    line, dice = draft.lines[draft.place('file name')], draft.dice
    if dice.chance(50):
        other = dice.pick([character for character in GRAPHIC if character not in FILE_NAME_CHARACTERS])
        name = dice.pick([other + '.ibs', other + 'a.ibs', 'a' + other + '.ibs', 'a' + other + 'b.ibs'])
    else:
        name = dice.pick(['.ibs', 'ibs', 'A.IBS', 'a.ibs x', 'a.ibss', 'a.ib', 'a.ibx', 'a.xbs', 'a.iBs', 'axibs', 'a.ibs.ibs', 'a.pkg',
                          '', 'a b.ibs', 'a .ibs', 'x' * 40 + '.ibs', 'x' * 41 + '.ibs', 'x' * 44, '..ibs'])
    rename(line, name)


def misplaced_equals(dice, text):
    """A named line with equals signs too many, too few, or where none stand."""
    if '=' not in text:
        name, rest = words(text)[0], ' '.join(words(text)[1:])
        form = dice.pick(['{0}={1}', '{0} ={1}', '{0}= {1}', '{0} = {1}', '{0}== {1}', '{0} {1} =', '={0} {1}', '{0} {1}='])
        return form.format(name, rest)
    name, number = (part.strip(' \t') for part in text.split('=', 1))
    form = dice.pick([
        '{0} = = {1}', '{0} == {1}', '{0}=={1}', '{0} = {1}=', '{0} = {1} =', '{0} = ={1}', '{0} {1}', '{0}', '{0} =', '{0}=',
        '{0} = {1} {1}', '={0} {1}', '{0} {1} =', '= {1}', '{0}{1}', '{0}\t=\t{1}', '{0}x = {1}', '{0} x = {1}', '{0} = x {1}',
        '{0} =\t', '{0} = NA', '{0}=na', '{0} = {1} x', '{0}= ={1}', '{0} x={1}', '{0}={1},', '{0}:{1}', '{0} {1} = {1}'])
    return form.format(name, number)


@damage('lines', 10)
def equals_sign(draft):
    line = draft.lines[draft.place(*NAMED_LINES)]
    line.text = misplaced_equals(draft.dice, line.text)


@damage('lines', 3)
def letters_flipped(draft):
    line = draft.lines[draft.place()]
    if not words(line.text):
        raise NoPlace
    number = draft.dice.below(len(words(line.text)))
    line.text = with_word(line.text, number, draft.dice.flipped(words(line.text)[number]))
