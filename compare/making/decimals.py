"""Numbers as a whole number times a power of ten: values up to every limit, and the spellings of each."""

import re
import string
from functools import cache
from itertools import product

LOWEST, HIGHEST = -40, 24
SCALES = {'T': 12, 'G': 9, 'M': 6, 'k': 3, 'm': -3, 'u': -6, 'n': -9, 'p': -12, 'f': -15}
IDLE_LETTERS = [letter for letter in string.ascii_letters if letter not in SCALES]
SHORT = re.compile(r'(?=-?\.?\d)(-?\d*)\.?(\d*)([%s]?)' % ''.join(SCALES))
UNITS = ['F', 'Ohm', 'V', 'H', 's', 'e', 'E', 'K', 'NA', 'eV', 'Exp', 'Tk', 'gM']

NOT_NUMBERS = [
    '.', '+', '-', '+.', '--1', '+-1', '1.2.3', '1..2', '1_000', '1k5', '1ee5', '1e5.0', '1.5e1.5', '1e+', '1e-', '1E+',
    '1e+k', '1e-m', '1e5e5', '1e5e+5', 'x', 'NAx', 'NA1', 'N', 'NAN', 'nan', 'inf', 'e5', '.e5', '+e5', '1-', '1+1', '1,5',
    '0x10', '1e5-', 'k', '=1', '1=', '[1', '1]', '-NA', '+NA', '1%', '1k-', '1k.', '1/2', '5F5', '1e0x1', "1'", '1e5_', '_1',
]
# Exponents that a small counter would wrap round: at the limits of 8, 16, 32 and 64 bits, with and without a sign.
HUGE_EXPONENTS = ['99', '127', '128', '255', '256', '280', '65536', '65560', '2147483648', '4294967296', '4294967320',
                  '9223372036854775808', '18446744073709551616', '18446744073709551640', '9' * 30]
# Numbers so near to half way between two doubles that they would be rounded to the wrong one, had they been rounded to 64 bits before.
NEARLY_HALF_WAY = [(708500197134097, -22), (326500536095281, -22), (131756756501971, -20), (583868725217607, -16), (962219899030949, -11),
                   (650167304868059, -8), (915689278719627, 11), (488378669645417, 13), (144428659382091, 17), (265870785476049, 20)]


def normal(whole, power):
    if whole == 0:
        return 0, 0
    while whole % 10 == 0:
        whole, power = whole // 10, power + 1
    return whole, power


def exact(number):
    """The number in units of the smallest power: what numbers are compared by."""
    whole, power = number
    return whole * 10 ** (power - LOWEST)


def digits_of(dice, count):
    """A whole number of so many digits, the last of them not zero."""
    if count == 1:
        return dice.between(1, 9)
    return dice.between(10 ** (count - 2), 10 ** (count - 1) - 1) * 10 + dice.between(1, 9)


def half_way(dice):
    """A number half way between two doubles: an odd one that has 54 bits, once ten to the power is five to the power."""
    power = dice.between(2, 22)
    lowest, highest = 2 ** 53 // 5 ** power + 1 | 1, 2 ** 54 // 5 ** power
    return lowest + 2 * dice.between(0, (highest - lowest) // 2), power


def near_double(dice):
    """A number where doubles are hard to give: half way between two or nearly so, or at the powers where they end."""
    kind = dice.pick(['half way', 'nearly', 'power'])
    if kind == 'half way':
        return half_way(dice)
    if kind == 'nearly':
        return dice.pick(NEARLY_HALF_WAY)
    return dice.pick([dice.between(1, 9), 10 ** 15 - 1, digits_of(dice, 15)]), dice.pick([-23, -22, 0, 22, 23])


def some_number(dice):
    """A number within the limits, often at one."""
    kind = dice.weighted([(9, 'everyday'), (6, 'physical'), (2, 'long'), (2, 'limit'), (2, 'double'), (2, 'zero')])
    if kind == 'everyday':
        whole, power = dice.between(0, 999), dice.between(-2, 1)
    elif kind == 'physical':
        whole, power = dice.between(1, 99), dice.pick([-15, -12, -9, -6, -3, 3, 6, 9])
    elif kind == 'long':
        whole, power = digits_of(dice, 15), dice.between(-20, 5)
    elif kind == 'limit':
        whole, power = dice.pick([1, 10 ** 15 - 1, digits_of(dice, 15)]), dice.pick([LOWEST, HIGHEST])
    elif kind == 'double':
        whole, power = near_double(dice)
    else:
        whole, power = 0, 0
    return normal(-whole if dice.chance(20) else whole, power)


def neighbours(dice):
    """Two numbers that are equal, or as near to each other as the digits allow, or at the far ends of the range."""
    kind = dice.pick(['equal', 'digit', 'digit', 'carry', 'ends'])
    power = dice.pick([LOWEST, HIGHEST, dice.between(LOWEST, HIGHEST)])
    if kind == 'equal':
        first = second = some_number(dice)
    elif kind == 'digit':
        whole = digits_of(dice, 15) // 10 * 10 + dice.between(1, 8)
        first, second = (whole, power), (whole + 1, power)
    elif kind == 'carry':
        power = min(power, HIGHEST - 15)
        first, second = (10 ** 15 - 1, power), (1, power + 15)
    else:
        ends = [(1, LOWEST), (0, 0), (10 ** 15 - 1, HIGHEST), (1, HIGHEST), (10 ** 15 - 1, LOWEST)]
        first, second = dice.pick(ends), dice.pick(ends)
    if dice.chance(30):
        first, second = (-second[0], second[1]), (-first[0], first[1])
    return normal(*first), normal(*second)


def rising(dice, count):
    """So many numbers, each above the one before."""
    kind = dice.pick(['steps', 'steps', 'any', 'digits'])
    if kind == 'steps':
        start, step, power = dice.between(-50, 20), dice.between(1, 12), dice.pick([-12, -9, -3, -1, 0, 0, 3])
        return [normal(start + step * place, power) for place in range(count)]
    if kind == 'digits':
        start, power = 10 ** 15 - 1 - count - dice.below(count), dice.between(LOWEST, HIGHEST - 15)
        return [normal(start + place, power) for place in range(count)]
    values = {}
    while len(values) < count:
        number = some_number(dice) if dice.chance(50) else normal(dice.between(-9999, 9999), dice.between(-6, 3))
        values[exact(number)] = number
    return [values[key] for key in sorted(values)]


@cache
def short_spellings():
    """Numbers and a spelling of each in at most three characters, the shortest spellings first."""
    found = {}
    for length in (1, 2, 3):
        for text in map(''.join, product(string.digits + '-.' + ''.join(SCALES), repeat=length)):
            if parts := SHORT.fullmatch(text):
                before, behind, letter = parts.groups()
                found.setdefault(normal(int(before + behind), SCALES.get(letter, 0) - len(behind)), text)
    return list(found.items())


def shortest_rising(count):
    """So many numbers, each above the one before, in the fewest characters that they can be spelled with."""
    return [text for _, text in sorted(short_spellings()[:count], key=lambda pair: exact(pair[0]))]


def spell(dice, number, room=26):
    """The number in one of its spellings, of at most so many characters, or else the shortest one that always serves."""
    for _ in range(5):
        text = one_spelling(dice, number)
        if len(text) <= room:
            return text
    whole, power = number
    return f'{whole}e{power}' if power else str(whole)


def one_spelling(dice, number):
    whole, power = number
    letter = dice.pick(list(SCALES)) if dice.chance(35) else ''
    shift = power - SCALES.get(letter, 0) if whole else dice.pick([0, 0, 1, -1, 99, -99])
    zeros = 20 if dice.chance(2) else dice.pick([0, 0, 0, 0, 1, 2])
    if dice.chance(60):
        zeros, behind = max(zeros, shift), max(zeros, shift) - shift
    else:
        behind = dice.pick([0, 0, 1, 2, 5, 14])
    exponent = shift - zeros + behind
    return sign_of(dice, whole) + pointed(dice, str(abs(whole)) + '0' * zeros, behind) \
        + raised(dice, exponent, whole == 0) + letters(dice, letter)


def sign_of(dice, whole):
    if whole < 0 or whole == 0 and dice.chance(15):
        return '-'
    return '+' if dice.chance(8) else ''


def pointed(dice, digits, behind):
    """The digits with so many of them behind the point."""
    digits = '0' * (25 if dice.chance(2) else dice.pick([0, 0, 0, 0, 1, 3])) + digits.rjust(behind, '0')
    if behind == 0:
        return digits + ('.' if dice.chance(5) else '')
    before, after = digits[:-behind], digits[-behind:]
    return ('0' if before == '' and dice.chance(80) else before) + '.' + after


def raised(dice, exponent, of_zero):
    if of_zero and dice.chance(10):
        return dice.pick('eE') + dice.pick(['', '+', '-']) + dice.pick(HUGE_EXPONENTS)
    if exponent == 0 and dice.chance(90):
        return ''
    sign = '-' if exponent < 0 else dice.pick(['', '', '+'])
    return dice.pick('eE') + sign + '0' * dice.pick([0, 0, 0, 1, 2, 20]) + str(abs(exponent))


def letters(dice, scale):
    """The letters behind a number: the scale or none, then any."""
    if scale:
        return scale + (dice.pick(UNITS) if dice.chance(40) else '')
    if dice.chance(75):
        return ''
    return dice.pick(IDLE_LETTERS) + dice.pick(['', '', *UNITS, 'k', 'mm'])


def past_limit(dice):
    """A number's spelling at or just past the limits of digits and power."""
    kind = dice.pick(['digits', 'power', 'both', 'huge'])
    if kind == 'huge':
        exponent = dice.pick(['e', 'E', 'e-', 'e+']) + dice.pick(HUGE_EXPONENTS)
        return dice.pick(['1', '-1', '0', '1.5', '.001', '100']) + exponent + letters(dice, '')
    whole = digits_of(dice, dice.pick([15, 16, 16, 17, 20]) if kind != 'power' else dice.pick([1, 2, 15]))
    power = dice.pick([0, -3, 2]) if kind == 'digits' else dice.pick([-42, -41, -41, -40, 24, 25, 25, 26])
    return spell(dice, (-whole if dice.chance(20) else whole, power))


def not_number(dice):
    """A word that is no number, by a fixed list or by one foreign character in a number."""
    if dice.chance(70):
        return dice.pick(NOT_NUMBERS)
    text = spell(dice, some_number(dice))
    place = dice.below(len(text) + 1)
    return text[:place] + dice.pick('.-+_/=e9k,:') + text[place:]
