"""The controls of entities: their names, their bytes, their ranges and the rates that clocks can give, by docs/CONTROLS.md.

The numbers here are the profile's, told for people: which request is answered how is the program's to say."""
from descriptor import entities_of

RATES = (8000, 11025, 16000, 22050, 32000, 44100, 48000, 64000, 88200, 96000, 176400, 192000)
# The most frames that a microframe can bring at each rate.
MOST_FRAMES = dict(zip(RATES, (2, 2, 3, 3, 5, 6, 7, 9, 12, 13, 23, 25)))
START_RATE = 48000
VOLUMES = "-96 to -33 dB by 1, -32 to +12 dB by 0.5, or silence"
ACCESS = ("absent", "read-only", "not allowed", "host-programmable")


class Control:
    """A control of a kind of entity: its selector, its name, the name of its element (None where it keeps no value), the place of its
    two bits, its bytes, and whether its values may be below 0."""

    def __init__(self, selector, name, element, bits, width, signed=False):
        self.selector, self.name, self.element, self.bits, self.width, self.signed = selector, name, element, bits, width, signed

    def value_of(self, data):
        return int.from_bytes(data, "little", signed=self.signed)


CONTROLS = {
    "clock_source": [Control(1, "frequency", "rate", 0, 4), Control(2, "validity", None, 1, 1)],
    "clock_selector": [Control(1, "selector", "clock", 0, 1)],
    "clock_multiplier": [Control(1, "numerator", "times", 0, 2), Control(2, "denominator", "over", 1, 2)],
    "input_terminal": [Control(2, "connector", None, 1, 6)],
    "output_terminal": [Control(2, "connector", None, 1, 6)],
    "mixer": [Control(1, "node", "mix", None, 2, True)],
    "selector": [Control(1, "selector", "select", 0, 1)],
    "feature": [Control(1, "mute", "mute", 0, 1), Control(2, "volume", "volume", 1, 2, True)],
    "effect": [Control(1, "enable", "enable", 0, 1)],
}
INTERFACE_CONTROLS = {1: "active_setting", 2: "valid_settings"}


def control_of(kind, selector):
    """The control of a kind of entity with this selector, None where it has none."""
    return next((control for control in CONTROLS.get(kind, []) if control.selector == selector), None)


def words_of(block):
    """The control words of a block, one for each channel from the master on, or its one."""
    return block["words"] if block["words"] is not None else [block["controls"] or 0]


def access_of(block, control, channel=0):
    """What a host may do with a control on a channel."""
    words = words_of(block)
    return ACCESS[words[channel] >> 2 * control.bits & 3] if channel < len(words) else "absent"


def is_programmable(block, selector):
    return access_of(block, control_of(block.kind, selector)) == "host-programmable"


def source_rates(block):
    """The frequencies that a clock source takes: an external or fixed one has 48,000 Hz alone."""
    return RATES if block["attributes"] & 3 in (2, 3) else (START_RATE,)


def range_of(block, control):
    """The values that a control takes, in words."""
    if control.name == "frequency":
        rates = source_rates(block)
        return f"{START_RATE} Hz" if len(rates) == 1 else "the twelve rates"
    if control.name == "selector":
        return f"1 to {block['pins']}"
    others = {"validity": "1", "numerator": "1 to 8", "denominator": "1 to 8", "connector": "-", "node": VOLUMES, "volume": VOLUMES}
    return others.get(control.name, "0, 1")


def rates_of(block, by_id, known=None):
    """The rates that a clock entity can be brought to by the controls that a host may set; a selector's are those of its pins. Known are
    those of clock entities that were found already, by their ids."""
    known = {} if known is None else known
    if block is None:
        return set()
    if block["id"] not in known:
        known[block["id"]] = set()
        known[block["id"]] = rates_behind(block, by_id, known)
    return known[block["id"]]


def rates_behind(block, by_id, known):
    if block.kind == "clock_source":
        return set(source_rates(block)) if is_programmable(block, 1) else {START_RATE}
    behind = [rates_of(by_id.get(name), by_id, known) for name in block.sources]
    if block.kind == "clock_selector":
        return set().union(*behind) if is_programmable(block, 1) else behind[0]
    above = range(1, 9) if is_programmable(block, 1) else (1,)
    below = range(1, 9) if is_programmable(block, 2) else (1,)
    return {rate * n // d for rate in behind[0] for n in above for d in below if rate * n % d == 0} & set(RATES)


def terminal_of(setting, blocks):
    """The terminal to which a setting links, None where it has no format."""
    return entities_of(blocks).get(setting["general"]["link"]) if "general" in setting else None


def room_of(endpoint):
    """The bytes of a packet: the size of an endpoint, times one and the additional transactions."""
    return (endpoint["max_packet"] & 0x7FF) * (1 + (endpoint["max_packet"] >> 11 & 3))


def service_of(endpoint):
    """How many microframes pass from one packet, or report, to the next; an interval that isn't 1 to 16, which is refused, counts as the
    nearest."""
    return 1 << min(max(endpoint["interval"], 1), 16) - 1


def why_format(setting, channels):
    """Why no rate runs with a setting's format, None where nothing speaks against it."""
    general, form = setting.get("general"), setting.get("type_one")
    if general is None:
        return "it has no General, which says its format"
    if general["format_type"] != 1:
        return f"its format type is {general['format_type']}, and type 1 runs here"
    if not general["formats"] & 1:
        return f"bmFormats is {general['formats']:#010x}, and PCM, its bit 0, runs here"
    if form is None:
        return "no Type I block says the bytes and bits of its samples"
    count = general["channels"]
    return None if count == channels else f"its General has {count} channel{'' if count == 1 else 's'} and its terminal {channels}"


SYNCHRONIZATIONS = ("none", "asynchronous", "adaptive", "synchronous")


def why_endpoints(setting, is_out):
    """Why no rate runs on a setting's endpoints, None where nothing speaks against it."""
    ends = setting["endpoint"]
    if not ends:
        return "it has no endpoint"
    kind = SYNCHRONIZATIONS[ends[0]["attributes"] >> 2 & 3]
    if kind != "asynchronous":
        return (f"its first endpoint says {'no synchronization' if kind == 'none' else kind} (bmAttributes {ends[0]['attributes']:#04x}), "
                f"and asynchronous ones run here ({ends[0]['attributes'] & 0xF3 | 4:#04x})")
    if ends[0]["interval"] > 4:
        return f"it has a packet in {service_of(ends[0])} microframes (bInterval {ends[0]['interval']}), and at least one in 8 runs here"
    if not is_out:
        return "it has a second endpoint, and a stream from the device has one" if len(ends) > 1 else None
    if ends[0]["attributes"] >> 4 & 3 != 0:
        return "its first endpoint carries data that is feedback, and it leads to the device"
    if len(ends) < 2:
        return "it has no feedback endpoint"
    if ends[1]["interval"] > 4:
        return f"it has a report in {service_of(ends[1])} microframes (bInterval {ends[1]['interval']}), and at least one in 8 runs here"
    if ends[1]["interval"] < ends[0]["interval"]:
        return "its reports come more often than its packets"
    size = ends[1]["max_packet"] & 0x7FF
    return f"its feedback endpoint has {size} byte{'' if size == 1 else 's'}, and a report has 4" if size < 4 else None


def wanted_frames(rate, first):
    """The frames for which a packet has to have room at a rate, and how many an asynchronous device sends at most."""
    count = service_of(first)
    return count * MOST_FRAMES[rate], count * rate // 8000 + 1


def too_small(first, frame, rates):
    """That a packet has no room at the rates that its clock gives, with what each of them wants."""
    count, room = service_of(first), room_of(first)
    over = "a microframe" if count == 1 else f"{count} microframes"
    wants = [(rate, *wanted_frames(rate, first)) for rate in sorted(rates)]
    told = "; ".join(f"{rate:,} Hz over {over} wants {most} here, where an asynchronous device sends at most {sent}" if at == 0 else
                     f"{rate:,} Hz wants {most} ({sent})" for at, (rate, most, sent) in enumerate(wants))
    return f"a packet of {room} bytes holds {room // frame} frames; {told}"


def running_rates(setting, blocks, channels):
    """The rates of the twelve that fit a setting, and those of them that its clock can give; or why there is none."""
    by_id, terminal = entities_of(blocks), terminal_of(setting, blocks)
    is_out = terminal is not None and terminal.kind == "input_terminal"
    why = why_format(setting, channels) or why_endpoints(setting, is_out)
    if why is not None:
        return (), (), why
    first, frame = setting["endpoint"][0], channels * setting["type_one"]["subslot"]
    fits = [rate for rate in RATES if service_of(first) * MOST_FRAMES[rate] * frame <= room_of(first)]
    given = rates_of(by_id.get(terminal["clock"]), by_id)
    both = [rate for rate in fits if rate in given]
    if both:
        return fits, both, None
    return fits, both, too_small(first, frame, given) if given else "its clock gives none of the twelve rates"
