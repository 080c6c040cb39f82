"""Both readers on every keyword of the hierarchy, carried or not, and on names near it, up to a line's length: 5, 6, 21 or none of them,
as they are spelled."""

import argparse
import re
import sys
from itertools import islice

from making.damages_of_places import CARRIED_NAMES
from making.hierarchy import HIERARCHY
from records import Record, answers, opening, verdict

CHUNK = 500
LONGEST = 118  # a line's 120 characters without the brackets
LENGTHS = (8, 512, 32, 256, 64, 1024, 8192)
FORMED = re.compile(r'[^ _\t]+([ _][^ _\t]+)*')


def spelled(name):
    return name.lower().replace(' ', '_')


CARRIED = set(map(spelled, CARRIED_NAMES))
KNOWN = set(map(spelled, HIERARCHY))
LONGEST_NAME = max(map(len, HIERARCHY))


def spellings(name):
    """The name in other letter cases and with other joints, a tab and a hyphen among them."""
    cases = {name, name.lower(), name.upper(), name.swapcase(), name[:-1] + name[-1].swapcase()}
    return cases | {case.replace(' ', joint) for case in cases for joint in ('_', '\t', '  ', '')} | {name.replace(' ', '-')}


def longer(name):
    """Names that begin with this one: for a carried keyword of every length, else one letter more, just past every keyword, and the longest."""
    every = range(len(name) + 1, LONGEST + 1)
    lengths = every if spelled(name) in CARRIED else {len(name) + 1, LONGEST_NAME + 1, LONGEST}
    return {name + 'x' * (length - len(name)) for length in lengths}


def near(name):
    """Names that are not quite this one: its beginnings and ends, one letter changed or left out, two swapped, and longer ones."""
    yield from (name[:length] for length in range(1, len(name)))
    yield from (name[start:] for start in range(1, len(name)))
    yield from (name[:place] + chr(ord(name[place]) + 1) + name[place + 1:] for place in range(len(name)))
    yield from (name[:place] + name[place + 1:] for place in range(len(name)))
    yield from (name[:place] + name[place + 1] + name[place] + name[place + 2:] for place in range(len(name) - 1))
    yield from longer(name)
    yield ' '.join([name] * ((LONGEST + 1) // (len(name) + 1)))


def decided(name):
    """The number that a keyword of this name gets for its name alone; none if it is carried."""
    if not FORMED.fullmatch(name):
        return 5
    if spelled(name) in CARRIED:
        return None
    return 6 if spelled(name) in KNOWN else 21


def expected(name, number):
    """Whether the number is one that a keyword of this name may get."""
    return number == decided(name) if decided(name) else number not in (5, 6, 21)


def main():
    parser = argparse.ArgumentParser(description=__doc__)
    parser.add_argument('--first', required=True, help='command of the first batch reader')
    parser.add_argument('--second', required=True, help='command of the second batch reader')
    options = parser.parse_args()
    names = iter(sorted({other for name in HIERARCHY for other in (*spellings(name), *near(name))}))
    passed = failed = 0
    while chunk := list(islice(names, CHUNK)):
        records = [Record(LENGTHS, f'[IBIS Ver] 5.0\n[{name}]\n'.encode(), name) for name in chunk]
        for name, *dumps in zip(chunk, answers(options.first, records), answers(options.second, records)):
            if dumps[0] == dumps[1] and expected(name, verdict(dumps[0])):
                passed += 1
            else:
                failed += 1
                print(f'[{name}]: {opening(dumps[0])} and {opening(dumps[1])}')
    print(f'keywords: {passed} passed, {failed} failed')
    return 1 if failed else 0


if __name__ == '__main__':
    sys.exit(main())
