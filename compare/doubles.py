"""Cells as doubles, from two programs and a third time from the dump, on the cases of document 02's section 7, on made files and on some of the shared cases.
Fails if the three differ, or differ from what a case says, or if a kind of file or cell is never met.
"""
import argparse
import re
import shlex
import struct
import subprocess
import sys
from collections import Counter, namedtuple
from itertools import islice, zip_longest

import maker
from cases import BOUNDS, CASES, ROOT, expected
from making.decimals import NEARLY_HALF_WAY
from records import Record, answers

FARTHEST = 22
EACH_CASE = 20  # of the shared cases one in so many is run
MOST_SHOWN = 20
SHOWN = ROOT / 'target' / 'doubles'
LABELS = {b'R_PKG', b'L_PKG', b'C_PKG', b'PIN', b'C_COMP', b'C_COMP_PULLUP', b'C_COMP_PULLDOWN', b'C_COMP_POWER_CLAMP', b'C_COMP_GND_CLAMP',
          b'VINL', b'VINH', b'VMEAS', b'CREF', b'RREF', b'VREF', b'VOLTAGE_RANGE', b'TEMPERATURE_RANGE', b'ROW', b'DVDT_R', b'DVDT_F', b'R_LOAD',
          b'R_FIXTURE', b'V_FIXTURE', b'V_FIXTURE_MIN', b'V_FIXTURE_MAX', b'C_FIXTURE', b'L_FIXTURE', b'R_DUT', b'L_DUT', b'C_DUT'}

# A file as a record, and what it is said to give, if it is one of section 7's cases.
File = namedtuple('File', 'record said')


def cells(dump):
    """The cells that a dump tells, in its order, as they are spelled there."""
    for line in dump.split(b'\n'):
        label, *words = line.split(b' ')
        if label in LABELS:
            found = b'/'.join(words[3 if label == b'PIN' else 0:]).decode().split('/')
            yield from (cell for cell in found if cell != '-')


def number(cell):
    """The whole number and the power of a cell that is no NA."""
    return map(int, cell.split('e'))


def double(cell):
    """What is said of a cell. Python makes a whole number, or the quotient of two, the nearest double, and the even one half way."""
    if cell == 'NA':
        return cell
    whole, power = number(cell)
    if abs(power) > FARTHEST:
        return '24'
    return struct.pack('>d', float(whole * 10 ** power) if power >= 0 else whole / 10 ** -power).hex()


def reckoned(dump):
    """What is said of a file, from its dump."""
    return dump if dump.startswith(b'NO ') else ''.join(double(cell) + '\n' for cell in cells(dump)).encode()


def half_way(whole, power):
    """The bits up to the last that is one, if the number lies half way between two doubles, or else nothing."""
    bits = bin(whole * 10 ** max(power, 0)).strip('-0b')
    return bits if 0 < power <= FARTHEST and len(bits) == 54 else ''


# What has to be met of numbers.
NUMBERS = {
    'plus zero': lambda whole, power: whole == 0,
    'a double above zero': lambda whole, power: whole > 0 and abs(power) <= FARTHEST,
    'a double below zero': lambda whole, power: whole < 0 and abs(power) <= FARTHEST,
    'a power below -23': lambda whole, power: power < -FARTHEST - 1,
    'the power -23': lambda whole, power: power == -FARTHEST - 1,
    'the power -22': lambda whole, power: power == -FARTHEST,
    'the power 22': lambda whole, power: power == FARTHEST,
    'the power 23': lambda whole, power: power == FARTHEST + 1,
    'a power above 23': lambda whole, power: power > FARTHEST + 1,
    'fifteen digits at the power -22': lambda whole, power: power == -FARTHEST and abs(whole) >= 10 ** 14,
    'fifteen digits at the power 0': lambda whole, power: power == 0 and abs(whole) >= 10 ** 14,
    'fifteen digits at the power 22': lambda whole, power: power == FARTHEST and abs(whole) >= 10 ** 14,
    'half way and rounded down': lambda whole, power: half_way(whole, power).endswith('01'),
    'half way and rounded up': lambda whole, power: half_way(whole, power).endswith('11'),
    'nearly half way': lambda whole, power: (abs(whole), power) in NEARLY_HALF_WAY,
}
WANTED = ['accepted', 'refused', 'a missing cell', *NUMBERS]


def kinds(dump):
    """What is met in a file, as often as it is."""
    yield 'refused' if dump.startswith(b'NO ') else 'accepted'
    for cell in cells(dump):
        if cell == 'NA':
            yield 'a missing cell'
        else:
            yield from (label for label, shows in NUMBERS.items() if shows(*number(cell)))


def files(seed, count):
    """The cases of section 7, the made files, and some of the other cases."""
    for said in sorted((CASES / 'after-07').glob('*.doubles')):
        yield File(Record(BOUNDS, said.with_suffix('.ibs').read_bytes(), said.stem), [said.read_bytes()])
    for place, record in enumerate(maker.records(seed, count)):
        yield File(record._replace(lengths=BOUNDS, label=f'{seed}-{place}'), [])
    for case, (data, _) in islice(expected().items(), 0, None, EACH_CASE):
        yield File(Record(BOUNDS, data, case), [])


def answer(command, data):
    """What the first program says of one file; one that does not end ends the comparison."""
    return subprocess.run(shlex.split(command), input=data, stdout=subprocess.PIPE, timeout=60, check=False).stdout


def blocks(output):
    """The answers to a batch, behind each an empty line."""
    return re.findall(rb'((?:[^\n]+\n)*)\n', output)


def show(file, dump, said):
    """Tells the first line that differs and the cell that it is about, and leaves the file."""
    SHOWN.mkdir(parents=True, exist_ok=True)
    path = SHOWN / f'{file.record.label}.ibs'
    path.write_bytes(file.record.data)
    lines = zip_longest(*(text.splitlines(keepends=True) for text in said), fillvalue=b'')
    place, apart = next((place, line) for place, line in enumerate(lines) if len(set(line)) > 1)
    cell = next(islice(cells(dump), place, None), 'no cell')
    print(f'{path.relative_to(ROOT)}, line {place + 1} ({cell}):', *apart)


def main():
    parser = argparse.ArgumentParser(description=__doc__)
    parser.add_argument('--first', required=True, help='command of the first program, which gives the doubles of one file')
    parser.add_argument('--second', required=True, help='the second reader')
    parser.add_argument('--seed', type=int, default=1)
    parser.add_argument('--count', type=int, default=150)
    options = parser.parse_args()
    tried = list(files(options.seed, options.count))
    first = (answer(options.first, file.record.data) for file in tried)
    second = answers(f'{options.second} --batch-doubles', [file.record for file in tried], parts=blocks)
    dumps = answers(f'{options.second} --batch', [file.record for file in tried])
    met, failed = Counter(), 0
    for file, dump, *both in zip(tried, dumps, first, second):
        said = [*both, reckoned(dump), *file.said]
        met.update(kinds(dump))
        if len(set(said)) > 1:
            failed += 1
            if failed <= MOST_SHOWN:
                show(file, dump, said)
    print('\n'.join(f'{met[label]:7}  {label}' for label in WANTED))
    unmet = [label for label in WANTED if not met[label]]
    if unmet:
        print('never met:', ', '.join(unmet))
    print(f'doubles: {len(tried) - failed} passed, {failed + len(unmet)} failed')
    return 1 if failed or unmet else 0


if __name__ == '__main__':
    sys.exit(main())
