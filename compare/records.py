"""Records for batch readers: how they are packed, how readers are run on them, and how their answers are split."""

import re
import shlex
import struct
import subprocess
from collections import namedtuple

PARTS = ['components', 'pins', 'selectors', 'choices', 'models', 'waveforms', 'rows']
Record = namedtuple('Record', 'lengths data label')


def packed(record):
    return struct.pack('<8I', *record.lengths, len(record.data)) + record.data


def unpacked(stream):
    """The records of a byte string, one after another."""
    records, at = [], 0
    while at < len(stream):
        *lengths, size = struct.unpack_from('<8I', stream, at)
        records.append(Record(tuple(lengths), stream[at + 32:at + 32 + size], ''))
        at += 32 + size
    return records


def split(output):
    """The dumps in a reader's output: each one line NO, or lines from OK to END; a rest that is neither is the last."""
    dumps, lines, current = [], output.splitlines(keepends=True), []
    for line in lines:
        current.append(line)
        first = current[0]
        if first.startswith(b'NO ') or line == b'END\n' or not first.startswith(b'OK '):
            dumps.append(b''.join(current))
            current = []
    return dumps + ([b''.join(current)] if current else [])


def complaint(result):
    """How what a command said beside its output begins, on one line."""
    return ' '.join(result.stderr.decode('latin-1').split())[:200]


def answers(command, records, seconds=60, parts=split):
    """A reader's answer to each record, the parts of its output: dumps, or what else it writes. Where it fails over a batch, the batch is halved
    until the record is found."""
    try:
        result = subprocess.run(shlex.split(command), input=b''.join(map(packed, records)), stdout=subprocess.PIPE,
                                stderr=subprocess.PIPE, timeout=seconds, check=False)
    except subprocess.TimeoutExpired:
        found, failure = [], f'no end within {seconds} seconds'
    else:
        found, failure = parts(result.stdout), f'exit status {result.returncode}, {len(result.stdout)} bytes of output {complaint(result)}'
        if result.returncode == 0 and len(found) == len(records):
            return found
    if len(records) == 1:
        return [f'FAILED {failure}\n'.encode() + b''.join(found)]
    middle = len(records) // 2
    return answers(command, records[:middle], seconds, parts) + answers(command, records[middle:], seconds, parts)


def opening(dump):
    """The dump's first line: what it tells of a refused file, or the counts of an accepted one."""
    return dump.split(b'\n', 1)[0].decode('latin-1')


def verdict(dump):
    """OK, the fault's number, or FAILED."""
    found = re.fullmatch(rb'NO ([0-9]+) [0-9]+ [0-9]+\n', dump)
    if found:
        return int(found.group(1))
    return 'OK' if dump.startswith(b'OK ') and dump.endswith(b'END\n') else 'FAILED'
