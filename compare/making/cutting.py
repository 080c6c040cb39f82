"""What cutting leaves of a file: document 01's lines, comments and [Comment Char] lines, from the bytes alone."""

import re
from collections import namedtuple

from making.pen import LARGEST_FILE, LONGEST_LINE
from making.remarks import MARKS

BLANKS = ' \t'
WELL_ENDED = re.compile(rf'([\t -~]{{0,{LONGEST_LINE}}}\r?\n)*')
KEYWORD = r'(?i:\[comment[ _]char\])'
CHANGE = re.compile(KEYWORD)
SOUND = re.compile(rf'{KEYWORD}[ \t]+([{re.escape(MARKS)}])_char([ \t]+(\1.*)?)?')

# A line that is left: its number, the line as it stands and its end, what kind of line it is, what of it counts, and the comment
# character in force at its end.
Entry = namedtuple('Entry', 'number line ending kind text mark')


def passes(data):
    """Whether a file passes faults 1 to 4."""
    return len(data) <= LARGEST_FILE and WELL_ENDED.fullmatch(data.decode('latin-1')) is not None


def cut(line, mark):
    """The kind of a line, what of it counts, and the comment character that holds from there on."""
    if not CHANGE.match(line):
        return 'line', line.split(mark, 1)[0].rstrip(BLANKS), mark
    sound = SOUND.fullmatch(line)
    if not sound:
        return 'faulty change', line, mark
    return 'change', f'[Comment Char] {sound[1]}_char', sound[1]


def entries(data):
    """The lines that are left of a file which passes faults 1 to 4, from the top."""
    left, mark = [], '|'
    for number, ended in enumerate(data.decode('latin-1').split('\n')[:-1], 1):
        line = ended.removesuffix('\r')
        kind, text, mark = cut(line, mark)
        if text:
            left.append(Entry(number, line, ended[len(line):] + '\n', kind, text, mark))
    return left
