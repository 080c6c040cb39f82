"""Finds, from a record on which two readers differ, a smaller one on which they still do, and shows it."""

import argparse
import difflib
import sys
import time

from records import PARTS, answers, unpacked

BATCH_BYTES = 1 << 20
BATCH_RECORDS = 100
SHORT_RUN = 8


def batches(records):
    """The records in lists that a reader can be run on at once."""
    batch, size = [], 0
    for record in records:
        batch.append(record)
        size += len(record.data)
        if len(batch) == BATCH_RECORDS or size > BATCH_BYTES:
            yield batch
            batch, size = [], 0
    if batch:
        yield batch


def run_lengths(count):
    """Halves down to the short runs, then each length: a keyword and its rows go only together."""
    size = count // 2
    while size > SHORT_RUN:
        yield size
        size //= 2
    yield from range(min(count, SHORT_RUN), 0, -1)


class Reducer:
    """Tries smaller records on both readers, many at a time, until the time is over."""

    def __init__(self, first, second, seconds):
        self.first, self.second = first, second
        self.deadline = time.monotonic() + seconds

    def late(self):
        return time.monotonic() > self.deadline

    def first_differing(self, tries):
        """The first of these records on which the readers differ, with its place, or nothing."""
        at = 0
        for batch in batches(tries):
            for place, dumps in enumerate(zip(answers(self.first, batch), answers(self.second, batch))):
                if dumps[0] != dumps[1]:
                    return at + place, batch[place]
            at += len(batch)
            if self.late():
                break
        return None

    def without_runs(self, record, parts):
        """Drops runs of the file's parts, long ones first, one after another while the readers differ."""
        for size in run_lengths(len(parts)):
            step, at = (1 if size <= SHORT_RUN else size), 0
            while at < len(parts) and not self.late():
                starts = range(at, len(parts), step)
                found = self.first_differing(record._replace(data=b''.join(parts[:start] + parts[start + size:])) for start in starts)
                if found is None:
                    break
                at = starts[found[0]]
                record, parts = found[1], parts[:at] + parts[at + size:]
        return record

    def with_shorter_lengths(self, record):
        for place, length in enumerate(record.lengths):
            less = sorted({0, 1, length // 2, length - 1} & set(range(length)))
            found = self.first_differing(record._replace(lengths=record.lengths[:place] + (shorter,) + record.lengths[place + 1:])
                                         for shorter in less)
            if found is not None:
                record = found[1]
        return record

    def reduce(self, record):
        """The smallest record that dropping lines, then bytes, then lent lengths leads to."""
        before = None
        while record != before and not self.late():
            before = record
            record = self.without_runs(record, record.data.splitlines(keepends=True))
            record = self.without_runs(record, [bytes([byte]) for byte in record.data])
            record = self.with_shorter_lengths(record)
        return record


def readable(data):
    """The file line by line, numbered, with blanks at the end and odd bytes made visible."""
    lines = data.split(b'\n')
    ended = [line + b'\n' for line in lines[:-1]] + ([lines[-1]] if lines[-1] else [])
    return [f'{number:5} {line.decode("latin-1").encode("unicode_escape").decode()}' for number, line in enumerate(ended, 1)]


def show(record, dumps):
    """Prints the record and both answers; two accepted files in one list, with the lines of one answer only marked."""
    print('lent:', ' '.join(f'{part} {length}' for part, length in zip(PARTS, record.lengths)))
    print(f'file of {len(record.data)} bytes:')
    print('\n'.join(readable(record.data)))
    texts = [dump.decode('latin-1').splitlines() for dump in dumps]
    if min(map(len, texts)) > 1:
        print('\n'.join(difflib.unified_diff(*texts, 'first reader', 'second reader', lineterm='', n=max(map(len, texts)))))
        return
    for name, text in zip(('first', 'second'), texts):
        print(f'{name} reader:')
        print('\n'.join(f'      {line}' for line in text))


def reduce_and_show(first, second, record, seconds):
    smallest = Reducer(first, second, seconds).reduce(record)
    show(smallest, (answers(first, [smallest])[0], answers(second, [smallest])[0]))
    return smallest


def main():
    parser = argparse.ArgumentParser(description=__doc__)
    parser.add_argument('--first', required=True, help='command of the first batch reader')
    parser.add_argument('--second', required=True, help='command of the second batch reader')
    parser.add_argument('--seconds', type=int, default=60, help='time limit')
    options = parser.parse_args()
    records = unpacked(sys.stdin.buffer.read())
    found = Reducer(options.first, options.second, options.seconds).first_differing(records)
    if found is None:
        print('no record differs')
        return 1
    place, record = found
    print(f'record {place} differs; as small as it gets:')
    reduce_and_show(options.first, options.second, record, options.seconds)
    return 0


if __name__ == '__main__':
    sys.exit(main())
