"""What a reader leaves out: comments, empty lines, blanks at line ends, and the [Comment Char] lines that rule them."""

from making.names import GRAPHIC
from making.pen import LONGEST_LINE
from making.valid import Line

MARKS = '!"#$%&\'()*,:;<>?@\\^`{|}~'
PRINTING = GRAPHIC + [' ', '\t']
REMARKS = ['', ' ', 'text', ' more text', '[End]', ' [Model] x', '\t', '|', ' !! ', '[Comment Char] !_char', ' = 1', '[', ']']


def remark(pen, mark):
    dice = pen.dice
    if dice.chance(80):
        return mark + dice.pick(REMARKS)
    return mark + ''.join(dice.pick(PRINTING) for _ in range(dice.between(1, 30)))


def between_lines(pen, mark):
    """Empty lines and lines with a comment only."""
    lines = []
    while pen.dice.chance(pen.remarks):
        text = pen.dice.pick(['', ' ', '\t']) if pen.dice.chance(60) else pen.gap() + remark(pen, mark)
        lines.append(Line('remark', text))
    return lines


def change(pen, mark):
    """A [Comment Char] line to this mark."""
    text = pen.keyword('Comment Char', mark + '_char')
    if pen.dice.chance(pen.remarks):
        text += pen.blank() + remark(pen, mark)
    elif pen.dice.chance(pen.odd_blanks):
        text += pen.blank()
    return Line('comment char', text[:LONGEST_LINE])


def finished(pen, line, mark):
    """The line with blanks and a comment behind it, as far as there is room."""
    text = line.text
    if pen.dice.chance(pen.odd_blanks // 2):
        text += pen.blank()
    if line.remarked or pen.dice.chance(pen.remarks):
        text += pen.gap() + remark(pen, mark)
    return text[:LONGEST_LINE]


def around(pen, lines):
    """The lines as they are written, with the comment character changed before every line that would hold it."""
    result, mark, inside = [], '|', False
    for line in lines:
        result += between_lines(pen, mark)
        fits = mark not in line.text
        if inside and (not fits or pen.dice.chance(pen.changes)):
            mark = pen.dice.pick([other for other in MARKS if other not in line.text] or [mark])
            result.append(change(pen, mark))
            result += between_lines(pen, mark)
        result.append(Line(line.kind, finished(pen, line, mark)))
        inside = line.kind == 'version' or inside and line.kind != 'end'
    result += between_lines(pen, mark)
    for line in result:
        line.ending = pen.ending or pen.dice.pick(['\n', '\r\n'])
    return result
