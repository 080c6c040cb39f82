"""A test file in the making: its plan, lines, bytes and lent lengths, and the list of damages that can befall it."""

import re

from making.pen import Pen
from making.valid import Line, Plan, build

SECTIONS = ('component', 'selector', 'model')
# The kinds of a model's first lines; C_comp and the capacitances by structure are one of their own.
FIRST_LINES = ('first', 'capacitance')
# The tables that a caller lends, and the kind of line of which each holds one record a line.
KINDS = {'components': 'component', 'pins': 'pin', 'selectors': 'selector', 'choices': 'choice', 'models': 'model',
         'waveforms': 'waveform', 'rows': 'row'}
STAGES = ('plan', 'lines', 'written', 'bytes', 'lent')
DAMAGES = []


class NoPlace(Exception):
    """The file has nothing that this damage could change; another one comes instead."""


def damage(stage, weight):
    """Puts a function in the list of damages: the stage at which it comes, and how often."""
    def enter(function):
        DAMAGES.append((weight, (stage, function)))
        return function
    return enter


class Draft:
    """What the damages work on. They come stage by stage: on the plan, on the valid lines, on the lines as they are
    written with comments, on the bytes, and on the lent lengths."""

    def __init__(self, dice):
        self.dice, self.plan, self.pen = dice, Plan(dice), None
        self.lines, self.needs, self.data, self.lengths = [], {}, b'', {}
        self.last = None

    def write(self):
        """Writes the lines that are planned."""
        self.pen = Pen(self.dice, self.plan.terse, self.plan.ending)
        self.lines = build(self.pen, self.plan)

    def choose(self, places):
        """One of these line places: often the one next to the last damage, so that faults meet on a line; else one of a
        kind drawn first, so that kinds of few lines are met as often as rows."""
        if not places:
            raise NoPlace
        if self.last in self.lines and self.dice.chance(60):
            last = self.lines.index(self.last)
            at = min(places, key=lambda place: (place < last, abs(place - last)))
        else:
            kind = self.dice.pick(list(dict.fromkeys(self.lines[place].kind for place in places)))
            at = self.dice.pick([place for place in places if self.lines[place].kind == kind])
        self.last = self.lines[at]
        return at

    def place(self, *kinds):
        """The place of a line of one of these kinds, or of any line but remarks, that is not blank."""
        return self.choose([place for place, line in enumerate(self.lines)
                            if (line.kind in kinds if kinds else line.kind != 'remark') and words(line.text)])

    def keyword_place(self):
        return self.choose([place for place, line in enumerate(self.lines) if line.text.startswith('[')])

    def any_place(self):
        """A place to insert a line at, before or after any line."""
        return self.choose(range(len(self.lines))) + self.dice.below(2) if self.lines else 0

    def any_line(self):
        """Any line, remarks included."""
        return self.lines[self.choose(range(len(self.lines)))]

    def insert(self, at, text, kind='stray'):
        self.last = Line(kind, text, self.lines[0].ending if self.lines else '\n')
        self.lines.insert(at, self.last)

    def list_end(self, at):
        """The place of the next keyword line after this place."""
        at += 1
        while at < len(self.lines) and not self.lines[at].text.startswith('['):
            at += 1
        return at

    def section(self, at):
        """The places of the section (or header) that holds this place."""
        first = at
        while first > 0 and self.lines[first].kind not in SECTIONS:
            first -= 1
        end = at + 1
        while end < len(self.lines) and self.lines[end].kind not in SECTIONS + ('end',):
            end += 1
        return range(first, end)


def pieces(text):
    """The words and the blanks between them."""
    return re.findall(r'[ \t]+|[^ \t]+', text)


def words(text):
    return re.findall(r'[^ \t]+', text)


def with_word(text, number, word):
    """The text with its word of this number (from 0) replaced."""
    parts = pieces(text)
    places = [place for place, part in enumerate(parts) if part.strip(' \t')]
    if number >= len(places):
        raise NoPlace
    parts[places[number]] = word
    return ''.join(parts)


def keyword_of(text):
    """The keyword with its brackets, and what follows."""
    end = text.find(']') + 1
    return text[:end], text[end:]
