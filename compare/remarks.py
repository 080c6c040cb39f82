"""Runs two readers on made files and the shared cases, as they are and reissued with other remarks, empty lines, blanks and line ends.

Document 02, "Comments change nothing": an answer may change by the line told alone, and that is the line of the same entry. Fails if one
changes otherwise, or if something that might change it is never met.
"""
import argparse
import sys
from collections import Counter, namedtuple
from functools import partial
from itertools import chain, islice, zip_longest

import maker
from cases import BOUNDS, ROOT, expected
from making.cutting import BLANKS, entries, passes
from making.dice import Dice
from making.draft import keyword_of, words
from making.pen import LARGEST_FILE
from making.reissue import reissued
from records import Record, answers, verdict

CHUNK = 250
MOST_SHOWN = 20
REISSUES = 2
SHOWN = ROOT / 'target' / 'remarks'
NO_ANSWERS = ('FAILED', 1, 2, 3, 4)  # to a file that passes faults 1 to 4

# A file as a record, and the entries that cutting leaves of it.
Issue = namedtuple('Issue', 'record entries')
# What a reader says of a file. The place is that of the line told among the entries, from 1 on; 0 of line 0, and none of a skipped line.
Answer = namedtuple('Answer', 'number line column place dump')
# A file and a reissue of it: the answers to both, their entries side by side, the one that is told, if any, and the reissue's size.
Pair = namedtuple('Pair', 'before after entries told size')


def answer(dump, issue):
    """What a dump says of an issue, its line laid to the issue's entries."""
    number = verdict(dump)
    if not isinstance(number, int):
        return Answer(number, 0, 0, 0, dump)
    line, column = map(int, dump.split()[2:])
    places = [0, *(entry.number for entry in issue.entries), issue.record.data.count(b'\n') + 1]
    return Answer(number, line, column, places.index(line) if line in places else None, b'')


def alike(before, after):
    """Whether the answers to a file and to a reissue of it are what the theorem says."""
    return before.number not in NO_ANSWERS and before.place is not None and before._replace(line=after.line) == after


def paired(original, reissue, dumps):
    """A file and a reissue of it as one reader's dumps tell of them."""
    before, after = answer(dumps[0], original), answer(dumps[1], reissue)
    both = list(zip(original.entries, reissue.entries))
    told = both[before.place - 1:before.place] if before.place else []
    return Pair(before, after, both, told, len(reissue.record.data))


def displaced(pair):
    """Whether another line is told of the reissue."""
    return pair.before.line != pair.after.line


def at_keyword(number, pair):
    """Whether this fault is told at a keyword that stands on another line now."""
    return pair.before.number == number and displaced(pair) and any(before.text.startswith('[') for before, _ in pair.told)


def respelled(before, after):
    """Whether a [Comment Char] line spells its keyword otherwise."""
    return after.kind == 'change' and keyword_of(before.line)[0] != keyword_of(after.line)[0]


def remarked(before, after):
    """Whether a [Comment Char] line has a remark that it had not."""
    return after.kind == 'change' and len(words(keyword_of(before.line)[1])) == 1 < len(words(keyword_of(after.line)[1]))


def ended(old, new, before, after):
    """Whether a line that had the old end has the new one."""
    return before.ending == old and after.ending == new


def some(check):
    """Whether the check holds of some entry of a pair, as it was and as it is."""
    return lambda pair: any(check(before, after) for before, after in pair.entries)


# What has to be met, and whether a pair shows it.
WANTED = {
    'accepted': lambda pair: pair.before.number == 'OK',
    'refused at another line': displaced,
    '9 at a keyword on another line': partial(at_keyword, 9),
    '13 at a keyword on another line': partial(at_keyword, 13),
    '20 at a keyword on another line': partial(at_keyword, 20),
    '19 at another line': lambda pair: pair.before.number == 19 and displaced(pair),
    'a column of a line written otherwise': lambda pair: pair.before.column and any(before.line != after.line for before, after in pair.told),
    'refused at a faulty [Comment Char] line': lambda pair: any(before.kind == 'faulty change' for before, _ in pair.told),
    'a faulty [Comment Char] line with blanks at its end': some(lambda before, _: before.kind == 'faulty change' and before.line[-1] in BLANKS),
    'a [Comment Char] line spelled otherwise': some(respelled),
    'a [Comment Char] line with a new remark': some(remarked),
    'a [Comment Char] line without its remark': some(lambda before, after: remarked(after, before)),
    'CR LF for LF': some(partial(ended, '\n', '\r\n')),
    'LF for CR LF': some(partial(ended, '\r\n', '\n')),
    'a reissue as large as a file can be': lambda pair: pair.size == LARGEST_FILE,
}


def records(seed, count):
    """The made files, then the shared cases."""
    return chain(maker.records(seed, count), (Record(BOUNDS, data, case) for case, (data, _) in expected().items()))


def issues(dice, record):
    """A file and its reissues."""
    original = Issue(record, entries(record.data))
    reissues = [record._replace(data=reissued(dice, original.entries)) for _ in range(REISSUES)]
    return [original, *(Issue(reissue, entries(reissue.data)) for reissue in reissues)]


def answered(commands, groups):
    """For each group of issues, for each reader, its dumps of them."""
    flat = [issue.record for group in groups for issue in group]
    dumps = [iter(answers(command, flat)) for command in commands]
    return [[list(islice(reader, len(group))) for reader in dumps] for group in groups]


def read(commands, dice, files):
    """Each file beside each of its reissues: a name for the two, the two, and each reader's dumps of both."""
    stream = iter(files)
    while chunk := list(islice(stream, CHUNK)):
        groups = [issues(dice, record) for _, record in chunk]
        for (number, _), group, dumps in zip(chunk, groups, answered(commands, groups)):
            yield from ((f'{number}-{place}', group[0], group[place], [(reader[0], reader[place]) for reader in dumps])
                        for place in range(1, len(group)))


def apart(old, new):
    """The first lines in which two dumps differ, or their first lines."""
    pairs = zip_longest(old.splitlines(), new.splitlines(), fillvalue=b'')
    return next((pair for pair in pairs if pair[0] != pair[1]), (old, new))


def said(line, found):
    """What a reader says of a file, for a person."""
    return line.decode('latin-1').strip() + (f' at entry {found.place or "none"}' if found.line else '')


def wrongs(original, reissue, dumps):
    """What is wrong with a reissue, or with the readers' answers to it."""
    if not passes(reissue.record.data) or [entry.text for entry in original.entries] != [entry.text for entry in reissue.entries]:
        yield 'it is no reissue: it has other entries, or one of the faults 1 to 4'
    for name, (old, new) in zip(('first', 'second'), dumps):
        before, after = answer(old, original), answer(new, reissue)
        if not alike(before, after):
            lines = apart(old, new)
            yield f'the {name} reader says {said(lines[0], before)}; of the reissue {said(lines[1], after)}'


def show(name, original, reissue, wrong):
    """Tells what is wrong and leaves both files."""
    SHOWN.mkdir(parents=True, exist_ok=True)
    paths = SHOWN / f'{name}.ibs', SHOWN / f'{name}-reissued.ibs'
    for path, issue in zip(paths, (original, reissue)):
        path.write_bytes(issue.record.data)
    print(f'{name} ({original.record.label}), lent {original.record.lengths}:', *wrong, *(path.relative_to(ROOT) for path in paths), sep='\n  ')


def main():
    parser = argparse.ArgumentParser(description=__doc__)
    parser.add_argument('--first', required=True, help='command of the first batch reader')
    parser.add_argument('--second', required=True, help='command of the second batch reader')
    parser.add_argument('--seed', type=int, default=1)
    parser.add_argument('--count', type=int, default=1000)
    options = parser.parse_args()
    files = list(enumerate(records(options.seed, options.count)))
    held = [(number, record) for number, record in files if passes(record.data)]
    met, passed, failed = Counter(), 0, 0
    for name, original, reissue, dumps in read((options.first, options.second), Dice(options.seed), held):
        wrong = list(wrongs(original, reissue, dumps))
        pair = paired(original, reissue, dumps[0])
        met.update(label for label, shows in WANTED.items() if shows(pair))
        passed, failed = passed + (not wrong), failed + bool(wrong)
        if wrong and failed <= MOST_SHOWN:
            show(f'{options.seed}-{name}', original, reissue, wrong)
    print('\n'.join(f'{met[label]:7}  {label}' for label in WANTED))
    print(f'{len(files) - len(held):7}  files left out, for one of the faults 1 to 4')
    unmet = [label for label in WANTED if not met[label]]
    if unmet:
        print('never met:', ', '.join(unmet))
    failed += len(unmet)
    print(f'remarks: {passed} passed, {failed} failed')
    return 1 if failed else 0


if __name__ == '__main__':
    sys.exit(main())
