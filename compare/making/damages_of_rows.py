"""Files of as many rows as fit, and damages to them: a byte or a row too many, and faults at rows past the thousandth."""

from making.damages_of_tables import crowd
from making.decimals import short_spellings
from making.draft import damage
from making.pen import LARGEST_FILE
from making.valid import MOST_WAVEFORM_ROWS, MOST_WAVEFORMS

LEAST_WAVEFORM = len('[Rising Waveform]\nR_fixture=0\nV_fixture=0\n')
LEAST_ROW = len('0 0 0 0\n')
# How many numbers can stand in a first column that has one character a row, and two at the most.
ONE_CHARACTER, TWO_CHARACTERS = (sum(len(text) <= most for _, text in short_spellings()) for most in (1, 2))
# Lines for the place of a row, or behind it: rows at fault and rows that may stand there, named lines and keywords.
OTHERS = ['x 1 2 3', '= 1 2 3', 'NA 0 0 0', '0 x 0 0', '+ 0 0 0', '0 0 0', '0 1 2 3 4', '0 1e99 0 0', '1e25 0 0 0', '0 0 0 1234567890123456',
          '-9T 0 0 0', '9T 0 0 0', '99T NA 0 0', '0 NA NA NA', '0 NA na 1', 'R_dut=0', '[', '[Diff Pin]', '[Diff Pni]', '[Ramp]', '[Pulldown]',
          '[Rising Waveform]', '[Voltage Range] 1 NA NA', '[Model] a', '[Component] a', '[End]', '[End] x']


def some_count(dice):
    """How many rows a table has."""
    return dice.pick([ONE_CHARACTER, TWO_CHARACTERS, MOST_WAVEFORM_ROWS, dice.between(3, MOST_WAVEFORM_ROWS)])


def crowd_rows(draft, size, count):
    """A plan for a file of so many bytes, filled up with tables of so many rows, or as many as they may have."""
    dice, plan = draft.dice, draft.plan
    crowd(draft, 'models', 0)
    plan.models = 1 + size // (MOST_WAVEFORMS * (LEAST_WAVEFORM + count * LEAST_ROW))
    plan.rows, plan.size, plan.ending = (count, count), size, dice.pick(['\n', '\n', '\r\n'])


@damage('plan', 9)
def rows_crowded(draft):
    """As many rows as fit and one byte more, or many more, or too many of them in a waveform."""
    dice = draft.dice
    if dice.chance(50):
        crowd_rows(draft, LARGEST_FILE + dice.pick([1, 1, 1, LARGEST_FILE]), some_count(dice))
    else:
        crowd_rows(draft, LARGEST_FILE, MOST_WAVEFORM_ROWS + dice.pick([1, dice.between(1, 1000)]))


@damage('lines', 14)
def late_row(draft):
    """As many rows as fit, and past the thousandth another line in the place of one or behind it, one twice, or the file's end."""
    dice = draft.dice
    crowd_rows(draft, LARGEST_FILE - 200, some_count(dice))
    draft.write()
    late = [place for place, line in enumerate(draft.lines) if line.kind == 'row'][MOST_WAVEFORM_ROWS:]
    at = dice.pick([dice.pick(late), dice.pick(late), late[-1]])
    draft.last = draft.lines[at]
    kind = dice.weighted([(8, 'other'), (3, 'behind'), (2, 'twice'), (1, 'end')])
    if kind == 'other':
        draft.last.text = dice.pick(OTHERS)
    elif kind == 'behind':
        draft.insert(at + 1, dice.pick(OTHERS))
    elif kind == 'twice':
        draft.insert(at + 1, draft.last.text, 'row')
    else:
        draft.lines = draft.lines[:at + 1]
