"""Names and free texts: plain ones, ones at the limits of length, and ones that nearly are something else."""

import string

RESERVED = ['POWER', 'GND', 'NC', 'NA', 'CIRCUITCALL']
NEEDLESS = ['POWER', 'GND', 'NC']
GRAPHIC = [chr(code) for code in range(0x21, 0x7F)]
FILE_NAME_CHARACTERS = string.ascii_lowercase + string.digits + "_^$~!#%&-{})(@'`"
NEARLY = ['GND', 'gnd', 'NA', 'nc', 'Power', 'CIRCUITCALL', 'GNDX', 'XGND', 'NAN', 'N', 'NCC', 'POWER1', 'POWE', 'nax', 'CIRCUITCALLS', 'G.ND', '5.0', 'signal_name', 'Vinl',
          'Vinl=1', '=', '1', 'x]', 'Model_type', 'R_pkg', '-', '!x', 'a|b', '"', "it's", '(in)', '#1', '[', '[x', '[End]']


def plain_word(dice, limit):
    length = dice.between(1, min(limit, 6))
    return dice.pick(string.ascii_letters) + ''.join(dice.pick(string.ascii_letters + string.digits) for _ in range(length - 1))


def wild_word(dice, limit):
    length = dice.pick([1, 2, limit - 1, limit, dice.between(1, limit)])
    return ''.join(dice.pick(GRAPHIC) for _ in range(length))


def word(dice, limit, wildness):
    """A word of at most so many characters; the wildness is the chance that it is an odd one."""
    if not dice.chance(wildness):
        return plain_word(dice, limit)
    return dice.pick([wild_word(dice, limit), dice.pick(NEARLY)[:limit], plain_word(dice, limit).rjust(limit, 'w')])


def phrase(dice, limit, wildness):
    """One or more words of together at most so many characters, with one or more blanks between."""
    text = word(dice, limit, wildness)
    while dice.chance(30):
        more = dice.pick([' ', ' ', '  ', '\t']) + word(dice, 12, wildness)
        if len(text + more) <= limit:
            text += more
    return text


def file_name(dice, wildness):
    length = dice.pick([1, 39, 40]) if dice.chance(wildness) else dice.between(1, 8)
    return ''.join(dice.pick(FILE_NAME_CHARACTERS) for _ in range(length)) + '.ibs'


def is_model_name(text):
    return not text.startswith('[') and text.upper() not in RESERVED


def resembling(dice, name, limit):
    """A name that a careless comparison takes for this one: other case, one character more, less or different."""
    shorter, other = name[:-1], dice.pick(GRAPHIC[:-1])
    return dice.pick([dice.flipped(name), name.swapcase(), shorter, name + other, shorter + other, other + name])[:limit]


class Names:
    """Hands out names that are all different, now and then one that resembles an earlier one."""

    def __init__(self, dice, limit, wildness, fits=lambda name: True):
        self.dice, self.limit, self.wildness, self.fits = dice, limit, wildness, fits
        self.taken = []

    def fresh(self, make=word):
        while True:
            name = make(self.dice, self.limit, self.wildness)
            if self.taken and self.dice.chance(self.wildness // 2):
                name = resembling(self.dice, self.dice.pick(self.taken), self.limit).strip(' \t')
            if not name or not self.fits(name) or name in self.taken:
                continue
            self.taken.append(name)
            return name

    def short(self):
        """The next of a row of names as short as can be, where many must fit a file."""
        count = len(self.taken)
        name = 'abcdefghijklmnopqrstuvwxyz'[count % 26] + (str(count // 26) if count >= 26 else '')
        self.taken.append(name)
        return name
