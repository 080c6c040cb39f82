"""How a file is written: blanks, keywords, numbers and named lines, each file with habits of its own."""

from making.decimals import some_number, spell

LARGEST_FILE = 65536
LONGEST_LINE = 120


class Pen:
    """Writes the parts of valid lines. A terse pen writes the shortest form of everything, for files at the bounds."""

    def __init__(self, dice, terse=False, ending='\n'):
        self.dice, self.terse = dice, terse
        self.odd_names = self.habit([0, 10, 40])
        self.odd_blanks = self.habit([0, 5, 40])
        self.odd_keywords = self.habit([0, 20, 80])
        self.odd_numbers = self.habit([0, 50, 100])
        self.remarks = self.habit([0, 3, 25])
        self.changes = self.habit([0, 2, 15])
        self.ending = ending if terse else dice.pick(['\n', '\n', '\r\n', ''])

    def habit(self, percents):
        return 0 if self.terse else self.dice.pick(percents)

    def blank(self):
        """One or more blanks."""
        if not self.dice.chance(self.odd_blanks):
            return ' '
        return ''.join(self.dice.pick(' \t') for _ in range(self.dice.between(1, 4)))

    def gap(self):
        """Blanks, or nothing."""
        if self.terse:
            return ''
        return self.dice.pick(['', ' ', ' ', self.blank()])

    def line(self, words):
        """Words as a line, blanks before it too now and then; plainly spaced where that would be too long."""
        indent = self.blank() if self.dice.chance(self.odd_blanks // 2) else ''
        text = indent + words[0] + ''.join(self.blank() + word for word in words[1:])
        return text if len(text) <= LONGEST_LINE else ' '.join(words)

    def equation(self, name, number):
        text = name + self.gap() + '=' + self.gap() + number
        return text if len(text) <= LONGEST_LINE else name + '=' + number

    def keyword(self, name, argument=''):
        if self.dice.chance(self.odd_keywords):
            name = self.dice.pick([name.lower(), name.upper(), self.dice.flipped(name)])
            name = ''.join('_' if letter == ' ' and self.dice.chance(50) else letter for letter in name)
        text = f'[{name}]'
        if not argument:
            return text
        spaced = text + self.blank() + argument
        return spaced if len(spaced) <= LONGEST_LINE else text + ' ' + argument

    def spelled(self, number, room=26):
        whole, power = number
        if self.dice.chance(self.odd_numbers):
            return spell(self.dice, number, room)
        if power in range(0, 4):
            return str(whole * 10 ** power)
        return f'{whole}e{power}'

    def number(self, room=26):
        if self.terse:
            return str(self.dice.between(0, 9))
        text = self.spelled(some_number(self.dice), room)
        return text if len(text) <= room else str(self.dice.between(0, 9))

    def missing(self):
        return self.dice.pick(['NA', 'NA', 'na', 'nA', 'Na'])

    def cell(self, room=26):
        if not self.terse and (room < 2 or self.dice.chance(40)):
            return self.missing()[:max(room, 2)]
        return self.number(room)

    def cells(self):
        """Typ, min and max, the first a number."""
        return [self.number(), self.cell(), self.cell()]
