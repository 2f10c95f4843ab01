"""Which values a control is set to, to see what it takes: the ends of its range, one between, one off its steps, ones outside, and wrong
lengths."""
from told import SILENCE

# Of a control with more subranges than this, those ends alone.
MOST_ENDS = 16


class Trial:
    """A value to be set: its bytes, what it is in words, and whether a device should refuse it."""

    def __init__(self, data, words, is_bad=False):
        self.data, self.words, self.is_bad = data, words, is_bad


def ends_of(ranges):
    """The least and the greatest value of each subrange, once each; of a control with many subranges those that are left untried, too."""
    ends = []
    for least, most, _ in ranges:
        ends += [(least, "the least")] if least not in dict(ends) else []
        ends += [(most, "the greatest")] if most not in dict(ends) else []
    return ends


def untried_ends(ranges):
    """How many ends of a control aren't tried, since it has more than are tried of one."""
    return max(len(ends_of(ranges or [])) - MOST_ENDS, 0)


def is_in(value, ranges):
    return any(least <= value <= most and (step <= 1 or (value - least) % step == 0) for least, most, step in ranges)


def between_of(ranges):
    """A value between the ends of the widest subrange, on its steps; None where there is none."""
    least, most, step = max(ranges, key=lambda one: one[1] - one[0])
    count = (most - least) // step if step > 0 else 0
    return least + count // 2 * step if count >= 2 else None


def outside_of(ranges):
    """Values that the ranges don't have: one off the steps, or between two subranges; one below all and one above."""
    least, most = min(one[0] for one in ranges), max(one[1] for one in ranges)
    wide = max(ranges, key=lambda one: one[1] - one[0])
    off = next((value for value in (wide[0] + wide[2] // 2, wide[0] + 1, wide[1] + 1) if least < value < most and not is_in(value, ranges)),
               None)
    return [(off, "one off its steps"), (least - 1, "one below its range"), (most + 1, "one above its range")]


def spelt(point, value):
    """A value's bytes, None where it has no room in them."""
    try:
        return value.to_bytes(point.width, "little", signed=point.control.signed)
    except OverflowError:
        return None


def numbers_of(point, ranges):
    """Values with what they are in words, and whether a device should refuse them."""
    if point.name == "mute" or point.name == "enable":
        return [(1, "on", False), (0, "off", False), (2, "neither on nor off", True)]
    if not ranges and point.name == "selector":
        ranges = [(1, point.block["pins"], 1)]
    if not ranges:
        return []
    found = [(value, words, False) for value, words in ends_of(ranges)[:MOST_ENDS]]
    between = between_of(ranges)
    found += [(between, "one between", False)] if between is not None else []
    found += [(value, words, True) for value, words in outside_of(ranges) if value is not None]
    has_silence = point.name in ("volume", "node")
    found = [one for one in found if not (has_silence and one[0] == SILENCE)]
    return found + [(SILENCE, "silence", False)] * has_silence


def trials_of(point, first, ranges):
    """All values that a control is tried with, once its value and its ranges are known; those of wrong lengths last."""
    for value, words, is_bad in numbers_of(point, ranges):
        data = spelt(point, value)
        if data is not None:
            yield Trial(data, words, is_bad)
    yield Trial(first[:-1], "a byte too few", True)
    yield Trial(first + b"\0", "a byte too many", True)
