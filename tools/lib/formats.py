"""What the settings of streaming interfaces carry, by a descriptor alone: for those who play and record."""
from controls import service_of
from descriptor import cut, entities_of, settings_of

# The longest service interval that a stream here has, as an endpoint says it: 8 microframes.
LONGEST_INTERVAL = 4


class Format:
    """What a setting carries: its interface, direction, terminal, clock, channels, bytes and bits of a sample, and its endpoints."""

    def __init__(self, setting, terminal):
        general, kind, ends = setting["general"], setting["type_one"], setting["endpoint"]
        self.interface, self.setting = setting["number"], setting["setting"]
        self.is_out, self.terminal, self.clock = terminal.kind == "input_terminal", terminal["id"], terminal["clock"]
        self.channels, self.subslot, self.bits = general["channels"], kind["subslot"], kind["bits"]
        self.frame = self.channels * self.subslot
        self.data, self.period, self.room = ends[0]["address"], service_of(ends[0]), ends[0]["max_packet"] & 0x7FF
        self.room *= 1 + (ends[0]["max_packet"] >> 11 & 3)
        self.feedback = ends[1]["address"] if len(ends) > 1 else None
        self.report_period, self.report_room = (service_of(ends[1]), ends[1]["max_packet"] & 0x7FF) if len(ends) > 1 else (0, 0)

    def in_words(self):
        channels = f"{self.channels} channel" + ("" if self.channels == 1 else "s")
        return f"{'to' if self.is_out else 'from'} the device, {channels} of {self.bits} bits"


def formats_of(configuration):
    """The settings with a format of Type I, endpoints, and a terminal, by interface and setting."""
    blocks, found = cut(configuration)[0], {}
    entities = entities_of(blocks)
    for setting in settings_of(blocks):
        terminal = entities.get(setting.get("general") and setting["general"]["link"])
        is_whole = terminal is not None and setting.get("type_one") is not None and setting["endpoint"]
        if is_whole and terminal.kind in ("input_terminal", "output_terminal") and setting["endpoint"][0]["interval"] <= LONGEST_INTERVAL:
            found[setting["number"], setting["setting"]] = Format(setting, terminal)
    return found
