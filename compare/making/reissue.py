"""A file reissued: the same entries with other remarks, empty lines, blanks and line ends, as suppliers edit them."""

from making.pen import LARGEST_FILE, LONGEST_LINE, Pen
from making.remarks import between_lines, change, finished
from making.valid import Line

# One file in so many is filled up to the largest size.
SELDOM = 50


class Sheet:
    """A file as far as it is written. The entries that are to come have their room; whatever else is written takes of the rest."""

    def __init__(self, pen, left):
        self.pen, self.lines, self.gaps = pen, [], len(left) + 1
        self.room = LARGEST_FILE - sum(len(entry.text) + 1 for entry in left)

    def write(self, text, least=''):
        """Writes a line; where there is no room for it, the least that has to stand there."""
        line = text + (self.pen.ending or self.pen.dice.pick(['\n', '\r\n']))
        if len(line) - len(least) > self.room:
            line = least
        self.room -= len(line) - len(least)
        self.lines.append(line)

    def skip(self, mark):
        """Writes lines that are skipped, or none."""
        for line in between_lines(self.pen, mark):
            self.write(stretched(self.pen, line.text, mark))
        if self.pen.dice.below(SELDOM * self.gaps) == 0:
            self.fill(self.pen.dice.pick(['', ' ' * LONGEST_LINE, mark + 'x' * (LONGEST_LINE - 1)]))

    def fill(self, text):
        """Writes this skipped line until there is no room left."""
        while self.room:
            line = text[:self.room - 1] + '\n'
            self.room -= len(line)
            self.lines.append(line)


def lively(dice):
    """A pen that leaves out all remarks, or writes more of them than the maker's pens do."""
    pen = Pen(dice)
    pen.remarks, pen.odd_blanks, pen.stretches = dice.pick([0, 10, 50]), dice.pick([0, 10, 60]), dice.pick([0, 0, 5])
    return pen


def stretched(pen, text, mark):
    """The line, now and then with blanks or a comment up to the longest."""
    if not pen.dice.chance(pen.stretches):
        return text
    return (text + pen.dice.pick([' ', '\t', ' ' + mark]) * LONGEST_LINE)[:LONGEST_LINE]


def rewritten(pen, entry):
    """A line that leaves the same entry."""
    if entry.kind == 'faulty change':
        return entry.line
    if entry.kind == 'change':
        line = change(pen, entry.mark).text
    else:
        line = finished(pen, Line(entry.kind, entry.text), entry.mark)
    return stretched(pen, line, entry.mark)


def reissued(dice, left):
    """The bytes of a file that leaves these entries, which are those of a file that passes faults 1 to 4; so does this one."""
    pen = lively(dice)
    sheet, mark = Sheet(pen, left), '|'
    for entry in left:
        sheet.skip(mark)
        sheet.write(rewritten(pen, entry), entry.text + '\n')
        mark = entry.mark
    sheet.skip(mark)
    return ''.join(sheet.lines).encode('latin-1')
