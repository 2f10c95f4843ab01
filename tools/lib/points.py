"""What of a device can be asked: each control of each entity and channel, and of each streaming interface, as its descriptor has them.

A point is a control at a place: an entity with a selector and a channel, or a streaming interface with a selector."""
from controls import control_of, words_of
from descriptor import is_streaming
from standard import CONTROLS_OF, OF_INTERFACES, bits_of
from terminals import entity_name
from topology import inputs_of

# The bytes of controls that aren't played here (Audio Class 2.0, 5.2.5); of the others no number is known.
WIDTHS = {"copy_protect": 1, "overload": 1, "cluster": 6, "underflow": 1, "overflow": 1, "latency": 4, "bass": 1, "mid": 1, "treble": 1,
          "automatic_gain": 1, "delay": 4, "bass_boost": 1, "loudness": 1, "input_gain": 2, "input_gain_pad": 2, "phase_inverter": 1,
          "active_setting": 1}
ANY_WIDTH = 64
RANGED = ("frequency", "selector", "numerator", "denominator", "node", "volume", "bass", "mid", "treble", "delay", "latency",
          "input_gain", "input_gain_pad")
# What can only be read, whatever the descriptor says of it (Audio Class 2.0, 5.2.5).
ONLY_READ = ("validity", "connector", "cluster", "overload", "underflow", "overflow", "latency", "active_setting", "valid_settings")
ABSENT, READ_ONLY, NOT_ALLOWED, SETTABLE = range(4)


class Point:
    """A control at a place. `bits` are the two bits that declare it (None where none do), `control` is how it is played here, or None."""

    def __init__(self, group, owner, entity, selector, channel, name, bits, control=None, block=None, is_there=True):
        self.group, self.owner, self.entity, self.selector, self.channel = group, owner, entity, selector, channel
        self.name, self.bits, self.control, self.block, self.is_there = name, bits, control, block, is_there

    @property
    def key(self):
        return self.owner, self.entity, self.selector, self.channel

    @property
    def width(self):
        return self.control.width if self.control is not None else WIDTHS.get(self.name, ANY_WIDTH)

    def is_whole(self, data):
        """Whether a value came whole, as far as its length is known."""
        return len(data) == self.width or self.width == ANY_WIDTH and 0 < len(data) < ANY_WIDTH

    @property
    def has_ranges(self):
        return self.name in RANGED

    @property
    def is_declared(self):
        return self.is_there and self.bits not in (ABSENT, NOT_ALLOWED)

    @property
    def is_only_read(self):
        return self.is_declared and (self.bits == READ_ONLY or self.name in ONLY_READ)

    @property
    def is_settable(self):
        """Whether a host may set it, as its descriptor says."""
        return self.is_declared and self.bits == SETTABLE and self.name not in ONLY_READ

    @property
    def target(self):
        element = self.control.element or self.control.name if self.control is not None else self.name
        return f"{element}.{self.entity}.{self.channel}" if self.block is not None else f"{self.name} of interface {self.owner}"

    def setup(self, kind, request, length):
        return bytes([kind, request, self.channel, self.selector, self.owner, self.entity]) + length.to_bytes(2, "little")

    def beside(self, channel):
        """The same control on a channel that there isn't."""
        return Point(self.group, self.owner, self.entity, self.selector, channel, self.name, self.bits, self.control, self.block, False)


def owner_of(blocks):
    """The number of the control interface, at which entities are asked for: that of the header, or the first where there is no header."""
    faces = [block for block in blocks if block.kind == "interface"]
    header = next((block.place for block in blocks if block.kind == "header"), -1)
    owners = [block["number"] for block in faces if block.place < header][-1:]
    return (owners or [block["number"] for block in faces if (block["class"], block["subclass"], block["protocol"]) == (1, 1, 0x20)])[0]


def points_of_feature(block, owner):
    """Each control of a feature or effect unit, on each channel that its words count."""
    selectors = CONTROLS_OF.get(block.kind, {1: ("enable", 0, False)})
    for selector, (name, place, _) in selectors.items():
        for channel, word in enumerate(words_of(block)) if place is not None else [(0, None)]:
            bits = None if word is None else word >> 2 * place & 3
            yield Point(entity_name(block), owner, block["id"], selector, channel, name, bits, control_of(block.kind, selector), block)


def points_of_mixer(block, owner, by_id):
    """Each node of a mixer, which a bit of its own declares as one that can be set, and its other controls."""
    nodes = inputs_of(block, by_id) * (block["channels"] or 0) if all(source in by_id for source in block.sources) else 0
    for node in range(min(nodes, 256, 8 * len(block["mix_bits"] or []))):
        bits = SETTABLE if block["mix_bits"][node // 8] >> 7 - node % 8 & 1 else READ_ONLY
        yield Point(entity_name(block), owner, block["id"], 1, node, "node", bits, control_of("mixer", 1), block)
    yield from points_of_plain(block, owner, range(2, 6))


def points_of_plain(block, owner, selectors=None):
    """The controls of an entity that has no channels: terminals, selectors, clocks."""
    for selector, (name, _, _) in CONTROLS_OF[block.kind].items():
        if selectors is None or selector in selectors:
            bits = bits_of(block, selector, 0)
            yield Point(entity_name(block), owner, block["id"], selector, 0, name, bits, control_of(block.kind, selector), block)


def points_of_entity(block, owner, by_id):
    if block.kind in ("feature", "effect"):
        return points_of_feature(block, owner)
    return points_of_mixer(block, owner, by_id) if block.kind == "mixer" else points_of_plain(block, owner)


def one_too_many(points):
    """For each selector of an entity's points, its control on the channel after the last."""
    last = {}
    for point in points:
        if point.selector not in last or point.channel > last[point.selector].channel:
            last[point.selector] = point
    return [point.beside(point.channel + 1) for point in last.values() if point.channel < 255]


def points_of_interface(blocks, number):
    """The controls of a streaming interface, which its first General declares."""
    inside, general = False, None
    for block in blocks:
        if block.kind in ("interface", "association"):
            inside = block.kind == "interface" and is_streaming(block) and block["number"] == number
        elif inside and block.kind == "general" and general is None:
            general = block
    for selector, name in OF_INTERFACES.items():
        known = general is not None and selector in (1, 2)
        bits = (general["controls"] or 0) >> 2 * (selector - 1) & 3 if known else ABSENT if general is None else None
        yield Point(f"streaming interface {number}", number, 0, selector, 0, name, bits)

