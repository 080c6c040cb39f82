"""Slips in a keyword's name: of a letter, of case, which leaves the same keyword, and of what joins its parts."""

import string

LETTERS = string.ascii_letters + string.digits + '.+/'
JOINTS = [' ', '_', '', '-', '  ', '__', ' _', '\t']


def letter_slip(dice, name):
    """The name with a letter put in, left out or changed, or two neighbours swapped."""
    at = dice.below(len(name))
    before, after, letter = name[:at], name[at:], dice.pick(LETTERS)
    return dice.pick([before + letter + after, name + letter, before + after[1:], before + letter + after[1:],
                      before + after[1:2] + after[:1] + after[2:]])


def joint_slip(dice, name):
    """The name with one of its joints, or all, joined in another way; a name of one part with a joint within."""
    joint, joints = dice.pick(JOINTS), [at for at, letter in enumerate(name) if letter in ' _']
    if not joints:
        at = dice.below(len(name))
        return name[:at] + joint + name[at:]
    changed = joints if dice.chance(40) else [dice.pick(joints)]
    return ''.join(joint if at in changed else letter for at, letter in enumerate(name))


def respelled(dice, name):
    """The same keyword: letter case is ignored, and space equals underscore."""
    name = dice.pick([name, name.lower(), name.upper(), name.swapcase(), dice.flipped(name)])
    return ''.join(dice.pick(' _') if letter in ' _' else letter for letter in name)


def slipped(dice, name):
    """The name with a slip, which now and then leaves the same keyword."""
    return dice.weighted([(5, letter_slip), (3, joint_slip), (1, respelled)])(dice, name)
