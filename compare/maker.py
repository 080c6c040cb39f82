"""Makes test files for readers: valid ones of every form, and ones damaged at the rules' borders, as batch records."""

import argparse
import sys

import making.damages_of_lines
import making.damages_of_places
import making.damages_of_words
from making.damages_of_bytes import LEAST_ROWS, LONGEST_RECORD
from making.damages_of_rows import crowd_rows, some_count
from making.damages_of_tables import BOUNDS, crowd
from making.dice import Dice
from making.draft import DAMAGES, KINDS, STAGES, Draft, NoPlace
from making.pen import LARGEST_FILE
from making.remarks import around
from records import PARTS, Record, packed

# What a caller lends who wants no bound but document 01's, and as many rows as loading asks for; no file has so many.
FULL = {'components': 8, 'pins': 512, 'selectors': 32, 'choices': 256, 'models': 64, 'waveforms': 1024, 'rows': LEAST_ROWS}


def make(dice):
    """One record; its label names the damages."""
    draft = Draft(dice)
    stages = [dice.weighted(DAMAGES)[0] for _ in range(dice.weighted([(30, 0), (48, 1), (15, 2), (7, 3)]))]
    if not stages:
        enlarge(draft)
    label = []
    for stage in STAGES:
        prepare(draft, stage)
        label += [inflict(draft, stage) for _ in range(stages.count(stage))]
    return Record(tuple(draft.lengths[part] for part in PARTS), draft.data, ' '.join(label) or 'valid')


def inflict(draft, stage):
    """Damages the draft at this stage in a way that it can be damaged, and names the damage."""
    while True:
        damage = draft.dice.weighted([(weight, function) for weight, (other, function) in DAMAGES if other == stage])
        try:
            damage(draft)
            return damage.__name__
        except NoPlace:
            continue


def prepare(draft, stage):
    """Brings the draft to the stage at which its damages work."""
    if stage == 'lines':
        draft.write()
    elif stage == 'written':
        draft.lines = around(draft.pen, draft.lines)
    elif stage == 'bytes':
        draft.needs = {part: sum(line.kind == kind for line in draft.lines) for part, kind in KINDS.items()}
        draft.data = ''.join(line.text + line.ending for line in draft.lines).encode('latin-1')
    elif stage == 'lent':
        draft.data = draft.data[:LONGEST_RECORD]
        draft.lengths = lend(draft.dice, draft.needs)


def lend(dice, needs):
    """Lengths that suffice: the bounds, more than the bounds, or just what the file needs; of rows what loading asks for, or a little more."""
    kind = dice.weighted([(5, 'full'), (2, 'more'), (2, 'need')])
    if kind == 'full':
        return dict(FULL)
    if kind == 'more':
        return {part: bound + dice.pick([0, 1, 7]) for part, bound in FULL.items()}
    return {part: need + dice.pick([0, 0, 1, 3]) for part, need in {**needs, 'rows': LEAST_ROWS}.items()}


def enlarge(draft):
    """Makes a few of the valid files large: at a bound, with long tables, or as full of waveforms or rows as a file can be."""
    dice, plan = draft.dice, draft.plan
    kind = dice.weighted([(180, 'no'), (10, 'bound'), (3, 'tables'), (2, 'waveform'), (1, 'waveforms'), (6, 'rows')])
    if kind == 'bound':
        crowd(draft, dice.pick(list(BOUNDS)), 0)
    elif kind == 'tables':
        plan.models, plan.selectors, plan.rows = 1, 0, (99, 100)
    elif kind == 'waveform':
        crowd(draft, 'waveforms', -15)
        plan.rows = (999, 1000)
    elif kind == 'waveforms':
        crowd(draft, 'models', 0)
        plan.waveforms = (16, 16)
    elif kind == 'rows':
        crowd_rows(draft, LARGEST_FILE - dice.pick([0, 0, 0, 1, dice.below(9)]), some_count(dice))


def records(seed, count):
    dice = Dice(seed)
    for _ in range(count):
        yield make(dice)


def main():
    parser = argparse.ArgumentParser(description=__doc__)
    parser.add_argument('--seed', type=int, default=1)
    parser.add_argument('--count', type=int, default=2000)
    parser.add_argument('--labels', action='store_true', help='write what was damaged instead of the records')
    options = parser.parse_args()
    for number, record in enumerate(records(options.seed, options.count)):
        if options.labels:
            print(number, len(record.data), record.label)
        else:
            sys.stdout.buffer.write(packed(record))


if __name__ == '__main__':
    main()
