"""Damages to the file as it is written: line lengths, bytes, line ends, comment characters, size, and lent lengths."""

from making.draft import KINDS, NoPlace, damage
from making.names import GRAPHIC
from making.pen import LARGEST_FILE
from making.remarks import MARKS

LONGEST_RECORD = 131072
LEAST_ROWS = 8192  # what loading asks for
FORBIDDEN = '\x00\x01\x07\x08\x0b\x0c\x0e\x1b\x1f\x7f\x80\x85\xa0\xe9\xff'
BORDER = '\t\x1f\x20\x7e\x7f\r'
CHANGES = [
    '{k}', '{k} ', '{k} {m}', '{k} {m}_chars', '{k} {m}_Char', '{k} {m}_char{m}', '{k} {m}_char {m}', '{k} {m}_char  {m} x',
    '{k} {m}_char x', '{k} {m}_char {m}{m}', '{k}x', '{k}{m}_char', '{k}\t{m}_char', '{k} {m}_char\t', '{k} {m}_char | x',
    '{k} {m}{m}_char', '{k} {m} _char', '{k} _char', '{k}|', '{k}|_char', '|{k} {m}_char', ' {k} {m}_char', '{k} {m}_char',
    '{k} {m}_char', '{k} {m}_cha', '{k}] {m}_char', '{k} {m}_char\t{m} [End]', '{k} {m}-char', '{k} {m}_chax', '{k} {m}_xhar',
    '{k}\t ', '{k}    ', '{k} \t\t', '{k}\t', '{k}  ', '{k}  {m}_char x {m} y', '{k} {m}_char\t[End]', '{k}\t{m}_char  =',
    '{k} {m}_char _char {m}', '{k} {m}_char \tx  ', '{k}  {m}_char{m}x', '{k}\t\t{m}_chars {m} x',
]
CHANGE_KEYWORDS = ['[Comment Char]', '[comment_char]', '[COMMENT CHAR]', '[Comment  Char]', '[Comment Char', '[ Comment Char]',
                   '[Comment_Char_]', '[CommentChar]', '[Comment\tChar]', '(Comment Char]', '[Comment Chars]']
NO_MARKS = '+-./=[]_09azAZ'
BOUNDED = [part for part in KINDS if part != 'rows']
TINY = [b'', b'', b'\n', b'\r\n', b'\r', b'\n\n', b' ', b' \n', b'x\n', b'|\n', b'[\n', b'[End]\n', b'[IBIS Ver] 5.0\n',
        b'[IBIS Ver] 5.0', b'[IBIS Ver] 5.0\n[End]\n', b'[IBIS Ver] 5.0\n[Component] x\n[End]\n']


@damage('written', 20)
def line_length(draft):
    """A line at, just below, just past or far past the longest, made so by blanks, a comment, or more text."""
    dice = draft.dice
    line = draft.any_line()
    length = dice.weighted([(1, 119), (3, 120), (4, 121), (2, 122), (1, 128), (1, 300)])
    filler = dice.pick([' ', '\t', 'x', '|', '| ' + 'x' * 400])
    line.text = (line.text + filler * length)[:length]


@damage('written', 14)
def forbidden_byte(draft):
    dice = draft.dice
    line = draft.any_line()
    at = dice.pick([0, len(line.text), dice.below(len(line.text) + 1)])
    line.text = line.text[:at] + dice.pick(FORBIDDEN + BORDER) + line.text[at:]


@damage('written', 22)
def line_end(draft):
    """Other line ends: a CR alone, two of them, or none at the end of the file."""
    dice = draft.dice
    line = draft.any_line()
    if dice.chance(60):
        draft.lines[-1].ending = dice.pick(['', '', '', '\r', ' ', '|'])
    else:
        line.ending = dice.pick(['\r', '\r\r\n', '\n\r', '\r \n', '', '\n\n', '\r\n\r\n', '\n\r\n'])


@damage('written', 40)
def comment_char(draft):
    """A [Comment Char] line of any form, at any place, also before [IBIS Ver] and after [End]."""
    dice = draft.dice
    keyword = dice.pick(CHANGE_KEYWORDS[:3] if dice.chance(80) else CHANGE_KEYWORDS)
    mark = dice.pick(MARKS if dice.chance(75) else NO_MARKS)
    text = dice.pick(CHANGES if mark in MARKS else CHANGES + ['{k} {m}_char'] * 30).format(k=keyword, m=mark)
    changes = [place for place, line in enumerate(draft.lines) if line.kind == 'comment char']
    if changes and dice.chance(40):
        draft.lines[draft.choose(changes)].text = text
    else:
        draft.insert(draft.any_place() if dice.chance(80) else dice.pick([0, len(draft.lines)]), text, 'comment char')


@damage('written', 6)
def comment_within(draft):
    """A comment character anywhere within a line."""
    line = draft.lines[draft.place()]
    at = draft.dice.below(len(line.text) + 1)
    line.text = line.text[:at] + draft.dice.pick(['|', '|', draft.dice.pick(MARKS)]) + line.text[at:]


@damage('written', 8)
def byte_edited(draft):
    """A few characters replaced, inserted or removed, near each other or on one line."""
    dice = draft.dice
    line = draft.lines[draft.place()]
    for _ in range(dice.pick([1, 1, 1, 2, 4])):
        at = dice.below(len(line.text) + 1)
        new = dice.pick(['', '', dice.pick(GRAPHIC), dice.pick(' \t[]=_/|.e-0NA')])
        line.text = line.text[:at] + new + line.text[at + dice.below(2):]


@damage('written', 6)
def lines_swapped(draft):
    one, other = draft.place(), draft.place()
    if draft.dice.chance(50):
        other = min(one + 1, len(draft.lines) - 1)
    draft.lines[one], draft.lines[other] = draft.lines[other], draft.lines[one]


@damage('written', 6)
def lines_deleted(draft):
    at = draft.place()
    del draft.lines[at:at + draft.dice.pick([1, 1, 2, 3, 8])]
    if not draft.lines:
        raise NoPlace


@damage('written', 6)
def lines_doubled(draft):
    at = draft.place()
    part = [line.copy() for line in draft.lines[at:at + draft.dice.pick([1, 1, 2, 3, 8])]]
    to = draft.dice.pick([at, at + len(part), draft.dice.below(len(draft.lines) + 1)])
    draft.lines[to:to] = part


@damage('bytes', 22)
def size(draft):
    """The file at, just below, or past the largest size, through lines of blanks or one line of anything."""
    dice = draft.dice
    target = LARGEST_FILE + dice.weighted([(2, -1), (4, 0), (8, 1), (1, 2), (1, dice.between(2, 20000)), (1, LARGEST_FILE)])
    room = target - len(draft.data)
    if room < 0:
        raise NoPlace
    filler = dice.pick([b'\n', b' ' * 119 + b'\n', b'\r\n', b'|' + b'x' * 118 + b'\n', b'\t' * 60 + b'\r\n', b' ' * 70000])
    at = dice.pick([0, len(draft.data), draft.data.find(b'\n') + 1])
    padding = filler * (room // len(filler))
    padding = b' ' * (room - len(padding)) + padding if not draft.dice.chance(50) else b'\n' * (room - len(padding)) + padding
    draft.data = draft.data[:at] + padding + draft.data[at:]


@damage('bytes', 8)
def cut_short(draft):
    """The file ends anywhere, also before it begins, or is hardly one."""
    dice = draft.dice
    if dice.chance(40):
        draft.data = dice.pick(TINY)
    else:
        draft.data = draft.data[:dice.pick([dice.below(len(draft.data) + 1), max(0, len(draft.data) - 1)])]


@damage('bytes', 3)
def any_bytes(draft):
    """Bytes anywhere become any bytes."""
    data = bytearray(draft.data)
    for _ in range(draft.dice.pick([1, 1, 2, 5])):
        if data:
            data[draft.dice.below(len(data))] = draft.dice.below(256)
    draft.data = bytes(data)


@damage('lent', 12)
def lent_short(draft):
    """One table or more, the rows aside, lent with exactly what the file needs, one less, far less, or nothing."""
    dice, lengths = draft.dice, draft.lengths
    for part in dice.shuffled(BOUNDED)[:dice.pick([1, 1, 1, 2, len(BOUNDED)])]:
        need = draft.needs[part]
        lengths[part] = max(0, dice.pick([need, need - 1, need - 1, need // 2, 0]))


@damage('lent', 30)
def lent_to_damage(draft):
    """As much lent as the parts before the last damaged line need, so that a bound is passed on that very line."""
    parts = [part for part in BOUNDED if draft.last in draft.lines and draft.last.kind == KINDS[part]]
    if not parts:
        raise NoPlace
    before = draft.lines[:draft.lines.index(draft.last)]
    draft.lengths[parts[0]] = sum(line.kind == draft.last.kind for line in before)


@damage('lent', 48)
def lent_rows_few(draft):
    """Fewer rows lent than loading asks for, whatever the file is, now and then hardly one or one past the largest size."""
    dice, need = draft.dice, draft.needs['rows']
    kind = dice.weighted([(8, 'as it is'), (1, 'tiny'), (1, 'past the largest')])
    if kind == 'tiny':
        draft.data = dice.pick(TINY)
    elif kind == 'past the largest':
        draft.data += b'\n' * (LARGEST_FILE + 1 - len(draft.data))
    rows = dice.pick([LEAST_ROWS - 1, LEAST_ROWS - 1, LEAST_ROWS - 1, 0, 1, 1000, need, need, dice.below(LEAST_ROWS)])
    draft.lengths['rows'] = min(rows, LEAST_ROWS - 1)
