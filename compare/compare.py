"""Runs two readers on made files and compares their answers whole; fails if they differ or if a fault is never met."""

import argparse
import sys
from collections import Counter
from itertools import islice

import maker
from records import answers, opening, verdict
from reduce import reduce_and_show

CHUNK = 250
MOST_SHOWN = 20
MEANINGS = {
    'OK': 'accepted', 1: 'over 65,536 bytes', 2: 'forbidden byte', 3: 'line over 120', 4: 'last line not ended',
    5: 'keyword badly formed', 6: 'keyword of the hierarchy, not carried', 7: 'out of place', 8: 'given twice', 9: 'required part missing',
    10: 'wrong word, name or count of words', 11: 'not a number', 12: 'number out of range', 13: 'rows or divisor',
    14: 'name already used', 15: 'model name not found', 16: 'model or selector not listed', 17: 'bound passed',
    19: 'no [End]', 20: 'Vinl not below Vinh', 21: 'keyword outside the hierarchy', 25: 'fewer than 8,192 rows lent',
}


def compared(first, second, seed, count):
    """Each record with its number and both answers."""
    stream = enumerate(maker.records(seed, count))
    while chunk := list(islice(stream, CHUNK)):
        records = [record for _, record in chunk]
        for (number, record), *dumps in zip(chunk, answers(first, records), answers(second, records)):
            yield number, record, dumps


def table(met):
    """How often each answer was met, as lines."""
    known = [f'{str(answer):>4} {met[answer]:7}  {meaning}' for answer, meaning in MEANINGS.items()]
    return known + [f'{str(answer):>4} {met[answer]:7}  (no answer of the rules)' for answer in met if answer not in MEANINGS]


def main():
    parser = argparse.ArgumentParser(description=__doc__)
    parser.add_argument('--first', required=True, help='command of the first batch reader')
    parser.add_argument('--second', required=True, help='command of the second batch reader')
    parser.add_argument('--seed', type=int, default=1)
    parser.add_argument('--count', type=int, default=2000)
    parser.add_argument('--seconds', type=int, default=60, help='time limit for finding the smallest differing file')
    options = parser.parse_args()
    met, wrong = Counter(), []
    for number, record, dumps in compared(options.first, options.second, options.seed, options.count):
        met[verdict(dumps[0])] += 1
        if dumps[0] != dumps[1] or verdict(dumps[0]) not in MEANINGS:
            wrong.append((number, record))
            if len(wrong) <= MOST_SHOWN:
                print(f'record {number} ({record.label}): {opening(dumps[0])} and {opening(dumps[1])}')
    print('\n'.join(table(met)))
    if wrong:
        number, record = min(wrong, key=lambda pair: len(pair[1].data))
        print(f'record {number} of seed {options.seed} ({record.label}), as small as it gets:')
        reduce_and_show(options.first, options.second, record, options.seconds)
    unmet = [answer for answer in MEANINGS if met[answer] == 0]
    if unmet:
        print('never met:', *unmet)
    failed = len(wrong) + len(unmet)
    print(f'comparison: {options.count - len(wrong)} passed, {failed} failed')
    return 1 if failed else 0


if __name__ == '__main__':
    sys.exit(main())
