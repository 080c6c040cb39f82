"""Damages to keywords and to the places of lines: badly formed, not carried, misspelled, out of place, twice, missing."""

from making.draft import FIRST_LINES, SECTIONS, NoPlace, damage, keyword_of, pieces, words
from making.hierarchy import HIERARCHY
from making.slips import respelled, slipped
from making.valid import Line

CARRIED = [
    '[IBIS Ver] 5.0', '[Comment Char] !_char', '[File Name] a.ibs', '[File Rev] 1', '[Date] x', '[Source]', '[Notes] n',
    '[Disclaimer] d', '[Copyright]', '[Component] Z9', '[Manufacturer] M', '[Package]', '[Pin] signal_name model_name',
    '[Pin] signal_name model_name R_pin L_pin C_pin', '[Model Selector] sel9', '[Model] mod9', '[Voltage Range] 3.3 NA NA',
    '[Temperature Range] 25 0 85', '[Pulldown]', '[Pullup]', '[GND Clamp]', '[POWER Clamp]', '[Ramp]', '[Rising Waveform]',
    '[Falling Waveform]', '[End]',
]
CARRIED_NAMES = sorted({keyword_of(line)[0][1:-1] for line in CARRIED})
NOT_CARRIED = [name for name in HIERARCHY if name not in CARRIED_NAMES]
# Names outside the hierarchy, some of them of keywords that source document 000 has elsewhere.
UNKNOWN = [
    'Pins', 'IBIS Version', 'IBISVer', 'Ending', 'Comment', 'CommentChar', 'Comment Chars', 'Comment-Char', 'Models',
    'Model Selectors', 'Selector', 'Ramps', 'Rising', 'Waveform', 'GND', 'POWER', 'Clamp', 'Voltage', 'P', '[Pin', 'P-n', 'x|y',
    'Temperature Ranges', 'File', 'File Names', 'Rev', 'Manufacturers', 'Falling Waveform Falling Waveform Falling Waveform',
    'GND_Clamp_x', 'Reference', '!', '"', '(Pin)', '=', '1', 'Component Model', 'Notes and more notes', 'Model:', 'RI Series',
    'Component EMI', 'Voltage Reference', 'End Electrical Description', 'File Header Section', 'Vinl', 'End Model', 'Series',
    'Package Models', 'End Alternate Package Modelss', 'Diff', 'Begin EMI', 'Rising Waveform Nea', '~',
]
LOOSE = [
    'Si_location Pin', 'Timing_location Die', 'R_pkg 1 NA NA', 'L_pkg 1 NA NA', 'C_pkg 1 2 3', '1 A GND', '99 B1 NC 1 2 3', 'in1',
    'in1 with text', 'Model_type Input', 'Model_type Output', 'Polarity Inverting', 'Enable Active-Low', 'C_comp 1 NA NA',
    'Vinl = 1', 'Vinl=2', 'Vinh=3', 'Vinh = 0.8', 'Vmeas = 1', 'Cref=1p', 'Rref = 50', 'Vref=0', 'dV/dt_r 1/1 NA NA',
    'dV/dt_f 1/1n NA 2/1', 'R_load = 50', '0 0 0 0', '1 2 3 4', '1e24 NA NA NA', '-1e24 1 1 1', 'R_fixture = 50', 'V_fixture = 0',
    'V_fixture_min=1', 'V_fixture_max = 2', 'C_fixture=0', 'L_fixture=0', 'R_dut = 1', 'L_dut=1', 'C_dut=1', 'NA 1 2 3', 'x', 'x y',
    'x y z', 'x y z w', '=', '= 1', 'Vinl', 'Vinl =', ' [End]', '\t[Pin] signal_name model_name', '-', '/', '_', '! text', '5.0',
    'Vinh_ac = 1', 'Vinl+ = 1', 'R_pkgs 1 NA NA', 'V_fixture_mi = 1', 'V_fixture_minimum=1', 'C_comp_pullup 1 NA NA', 'C_comp_pulldown 0 NA 1',
    'C_comp_power_clamp NA NA NA', 'C_comp_gnd_clamp=1p NA NA', 'C_comp_power 1 NA NA', 'C_comp pullup 1p NA NA', 'e 1 2 3',
    'signal_name model_name', 'Model_type', 'C_comp', 'vinl = 1', 'VINL = 1', 'R_LOAD = 50', 'a_b 1 2 3', '+x 1 2 3', '.5 1 1 1',
]


def misformed(dice, name, rest):
    """A keyword line that is, or nearly is, badly formed."""
    place = dice.between(1, len(name)) if name else 0
    split = name[:place], name[place:]
    joint = dice.pick(['  ', '__', ' _', '_ ', '\t', ' \t', '_', ' '])
    return dice.pick([
        f'[{name}{rest}', f'[ {name}]{rest}', f'[{name} ]{rest}', f'[_{name}]{rest}', f'[{name}_]{rest}', f'[{name}\t]{rest}',
        f'[{name.replace(" ", joint)}]{rest}', f'[{split[0]}{joint}{split[1]}]{rest}', f'[{name}]x{rest}', f'[{name}]]{rest}',
        f'[{name}]={rest}', f'[{name}][x]', f'[]{rest}', '[', '[ ]', '[_]', f'[{name}', f'[{name}]{rest.strip()}', f'[[{name}]]',
    ])


@damage('lines', 19)
def badly_formed(draft):
    at = draft.keyword_place()
    keyword, rest = keyword_of(draft.lines[at].text)
    draft.lines[at].text = misformed(draft.dice, keyword[1:-1], rest)


@damage('lines', 9)
def badly_formed_besides(draft):
    keyword, rest = keyword_of(draft.dice.pick(CARRIED))
    draft.insert(draft.any_place(), misformed(draft.dice, keyword[1:-1], rest))


def misspelled(dice, name):
    """A name that is nearly this one: with a slip, its beginning, or a longer one that begins with it, up to a line's length."""
    place = dice.below(len(name) + 1)
    longer = name + 'x' * (dice.pick([24, 25, 28, 29, 32, 33, 90, 118]) - len(name))
    return dice.pick([dice.pick(UNKNOWN), slipped(dice, name), slipped(dice, name), slipped(dice, name), name[:place] or 'x', longer,
                      name + dice.pick(['s', 's', ' x', '_1', ' ' + name])])


def not_carried(dice):
    """A keyword of the hierarchy that is not carried, as the hierarchy spells it, in another spelling, or misspelled."""
    name = dice.pick(NOT_CARRIED)
    name = dice.weighted([(4, name), (4, respelled(dice, name)), (3, misspelled(dice, name))])
    return f'[{name}]'


@damage('lines', 11)
def keyword_not_carried(draft):
    at = draft.keyword_place()
    rest = keyword_of(draft.lines[at].text)[1]
    draft.lines[at].text = not_carried(draft.dice) + draft.dice.pick(['', rest])


@damage('lines', 8)
def keyword_not_carried_besides(draft):
    draft.insert(draft.any_place(), not_carried(draft.dice) + draft.dice.pick(['', '', ' x', '\t1 2 3', ' = 1']))


@damage('lines', 8)
def unknown_keyword(draft):
    at = draft.keyword_place()
    keyword, rest = keyword_of(draft.lines[at].text)
    draft.lines[at].text = '[' + misspelled(draft.dice, keyword[1:-1]) + ']' + rest


@damage('lines', 5)
def unknown_keyword_besides(draft):
    keyword, rest = keyword_of(draft.dice.pick(CARRIED))
    draft.insert(draft.any_place(), '[' + misspelled(draft.dice, keyword[1:-1]) + ']' + draft.dice.pick(['', rest]))


@damage('lines', 14)
def stray_keyword(draft):
    keyword, rest = keyword_of(draft.dice.pick(CARRIED))
    rest = draft.dice.pick([rest, rest, rest, '', rest + ' x', ' GND'])
    draft.insert(draft.any_place(), draft.pen.keyword(keyword[1:-1]) + rest)


@damage('lines', 20)
def stray_line(draft):
    draft.insert(draft.any_place(), draft.dice.pick(LOOSE))


@damage('lines', 5)
def line_after_row(draft):
    """A named line after the first or a later row of its table, or in its list, where named lines may stand or not."""
    rows = [place for place, line in enumerate(draft.lines) if line.kind == 'row']
    first = [place for place in rows if draft.lines[place - 1].kind != 'row']
    at = draft.choose(first if draft.dice.chance(60) else rows)
    named = [line.text for line in draft.lines if line.kind in ('fixture', *FIRST_LINES)] + LOOSE
    draft.insert(at + draft.dice.below(2), draft.dice.pick(named))


@damage('lines', 8)
def first_line_late(draft):
    """One of a model's first lines behind a later keyword of the model, also among that one's rows or named lines."""
    at = draft.place(*FIRST_LINES)
    line = draft.lines[at]
    behind = draft.choose(range(draft.list_end(at), draft.section(at).stop))
    draft.lines.insert(behind + 1, line)
    del draft.lines[at]
    draft.last = line


@damage('lines', 4)
def line_replaced(draft):
    draft.lines[draft.place()].text = draft.dice.pick(LOOSE + CARRIED)


@damage('lines', 5)
def blank_before_keyword(draft):
    at = draft.keyword_place()
    draft.lines[at].text = draft.dice.pick([' ', '\t']) + draft.lines[at].text


@damage('lines', 8)
def keyword_argument(draft):
    """A keyword's argument is missing, is one word longer, or stands where none may."""
    at = draft.keyword_place()
    keyword, rest = keyword_of(draft.lines[at].text)
    shorter = ''.join(pieces(rest)[:-2])
    rest = draft.dice.pick(['', ' ', shorter, rest + ' x', rest + ' 1', rest + ' =', rest + rest, ' x', ' GND'])
    draft.lines[at].text = keyword + rest


@damage('lines', 10)
def moved(draft):
    """A line, or a keyword with its list, stands elsewhere."""
    at = draft.place()
    end = draft.list_end(at) if draft.dice.chance(30) else at + 1
    part = draft.lines[at:end]
    del draft.lines[at:end]
    if not draft.lines:
        raise NoPlace
    to = draft.dice.pick([draft.any_place(), max(0, at - 1), min(len(draft.lines), at + 1)])
    draft.lines[to:to] = part


@damage('lines', 22)
def given_twice(draft):
    """A line, or a keyword with its list, again in the same section, where it was or further down, maybe changed."""
    at = draft.place('version', 'file name', 'file rev', 'text keyword', 'location', 'manufacturer', 'package', 'package value',
                     'pin heading', *FIRST_LINES, 'voltage range', 'temperature range', 'table', 'ramp', 'slope', 'load', 'fixture')
    end = draft.list_end(at) if draft.lines[at].text.startswith('[') else at + 1
    part = [line.copy() for line in draft.lines[at:end]]
    if draft.dice.chance(30):
        parts = pieces(part[0].text)
        part[0].text = ''.join(draft.dice.pick([parts[:-2] or parts, parts + [' x'], parts + ['='], parts[:1]]))
    to = draft.dice.pick([end, end, draft.dice.between(end, draft.section(at)[-1] + 1)])
    draft.lines[to:to] = part


@damage('lines', 10)
def line_dropped(draft):
    del draft.lines[draft.place()]


@damage('lines', 14)
def required_dropped(draft):
    """What a section or list must have is missing, now and then all of a kind in it."""
    at = draft.place('file name', 'file rev', 'manufacturer', 'package', 'package value', 'pin heading', *FIRST_LINES, 'voltage range',
                     'ramp', 'slope', 'fixture', 'choice', 'pin', *SECTIONS)
    kind, section = draft.lines[at].kind, draft.section(at)
    if kind in (*FIRST_LINES, 'fixture', 'package value', 'slope') or draft.dice.chance(40):
        gone = [at]
    elif kind in ('choice', 'pin'):
        gone = [place for place in section if draft.lines[place].kind == kind]
    else:
        gone = range(at, draft.list_end(at))
    draft.last = draft.lines[min(gone[-1] + 1, len(draft.lines) - 1)]
    draft.lines = [line for place, line in enumerate(draft.lines) if place not in gone]


@damage('lines', 6)
def sections_dropped(draft):
    """All sections of a kind are missing, or one."""
    at = draft.place(*SECTIONS)
    kind, one = draft.lines[at].kind, draft.dice.chance(40)
    places = [place for place, line in enumerate(draft.lines) if line.kind == kind and (place == at or not one)]
    gone = [place for first in places for place in draft.section(first)]
    draft.lines = [line for place, line in enumerate(draft.lines) if place not in gone]


def spoil(draft, at):
    """Makes the keyword line at this place faulty in some way, or a fault of its place, or no keyword line at all."""
    dice, line = draft.dice, draft.lines[at]
    keyword, rest = keyword_of(line.text)
    other = dice.pick([other.text for other in draft.lines if other.text.startswith('[')])
    line.text = dice.pick([
        misformed(dice, keyword[1:-1], rest), misformed(dice, keyword[1:-1], rest), '[' + misspelled(dice, keyword[1:-1]) + ']' + rest,
        not_carried(dice), keyword, keyword + rest + ' x', keyword + ' GND', keyword + ' ' + 'x' * 41, other, dice.pick(CARRIED), ' ' + line.text])
    draft.last = line


@damage('lines', 12)
def list_closed_faultily(draft):
    """A list or table lacks something, and the keyword line that closes it is faulty, so that the order of both shows."""
    at = draft.place('package', 'pin heading', 'selector', 'table', 'ramp', 'waveform')
    closer = draft.list_end(at)
    if closer == len(draft.lines):
        raise NoPlace
    spoil(draft, closer)
    kept = draft.dice.some(range(at + 1, closer), draft.dice.pick([0, 50, 80]))
    draft.lines = [line for place, line in enumerate(draft.lines) if not at < place < closer or place in kept]


@damage('lines', 12)
def section_closed_faultily(draft):
    """A section or the header lacks something, and the keyword line that closes it is faulty."""
    section = draft.section(draft.place('version', 'component', 'model'))
    if section[-1] + 1 == len(draft.lines):
        raise NoPlace
    spoil(draft, section[-1] + 1)
    if draft.lines[section[0]].kind == 'model' and draft.dice.chance(30):
        draft.lines[section[0] + 1:section[0] + 1] = [Line('first', 'Vinl = 5'), Line('first', 'Vinh = 5')]
        return
    part = draft.dice.pick(section[1:] or [section[0]])
    end = draft.list_end(part) if draft.lines[part].text.startswith('[') else part + 1
    del draft.lines[part:end]


@damage('lines', 22)
def end_missing(draft):
    """No [End], or nothing from some line on."""
    if draft.dice.chance(50):
        draft.lines = draft.lines[:max(1, draft.place())]
    else:
        at = draft.place('end')
        draft.lines[at].text = draft.dice.pick(['', '|[End]', '  ', '| [End]'])


@damage('lines', 5)
def after_end(draft):
    at = draft.place('end')
    draft.insert(draft.dice.between(at + 1, len(draft.lines)), draft.dice.pick(LOOSE + CARRIED + ['[x', '[', ']', '[End] x', '[Row] 1', '[Rows] 1']))


@damage('lines', 4)
def before_version(draft):
    lines = ['[x', '[', '[Unknown]', '[Diff Pin]', '[diff_pin] x', '[Diff Pni]', '[Comment Char]x', '[Comment Char] x']
    draft.insert(0, draft.dice.pick(LOOSE + CARRIED + lines))


@damage('lines', 3)
def many_moves(draft):
    """Several lines of a section change places."""
    at = draft.place()
    section = draft.section(at)
    first, end = section[0], section[-1] + 1
    middle = draft.dice.shuffled(draft.lines[first + 1:end])
    if len(words(' '.join(line.text for line in middle))) < 2:
        raise NoPlace
    draft.lines[first + 1:end] = middle
