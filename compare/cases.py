"""cases.py NAME COMMAND [--each]: a reader on the shared cases, each dump compared whole.

The command reads a batch of records, or with --each one file at a time from standard input. The dump expected of a case is the one in the
latest folder that has it: the cases themselves, then a folder for each request of document 02 that has landed. There is nothing to do
where the cases are not there.
"""
import os
import shlex
import subprocess
import sys
from pathlib import Path

from records import Record, answers

ROOT = Path(__file__).resolve().parent.parent
CASES = Path(os.environ.get('CASES', ROOT.parent / 'shared' / 'cases'))
LANDED = ['after-02', 'after-01', 'after-03', 'after-06', 'after-08']
BOUNDS = (8, 512, 32, 256, 64, 1024, 8192)


def expected():
    """Each case's bytes and its dump, by its name."""
    found = {}
    for folder in [CASES, *(CASES / name for name in LANDED)]:
        for dump in sorted(folder.glob('*.dump')):
            source = dump.with_suffix('.ibs')
            data = source.read_bytes() if source.is_file() else found[dump.stem][0]
            found[dump.stem] = data, dump.read_bytes()
    return found


def main():
    name, command, each = sys.argv[1], sys.argv[2], '--each' in sys.argv
    cases = expected()
    if each:
        dumps = [subprocess.run(shlex.split(command), input=data, stdout=subprocess.PIPE, check=False).stdout for data, _ in cases.values()]
    else:
        dumps = answers(command, [Record(BOUNDS, data, case) for case, (data, _) in cases.items()])
    wrong = [case for (case, (_, dump)), got in zip(cases.items(), dumps) if got != dump]
    for case in wrong:
        print(f'{name}: {case} differs from its dump')
    print(f'{name}: {len(cases) - len(wrong)} passed, {len(wrong)} failed')
    return 1 if wrong else 0


if __name__ == '__main__':
    sys.exit(main())
