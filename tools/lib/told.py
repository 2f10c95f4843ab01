"""What a device told of itself so far: its ranges, its start values, the values and settings that hold. Its own choice, and no difference.

A control's key is the request's index and value: entity and interface, selector and channel."""
from request import little

SILENCE = -32768
CLOCKS = ("clock_source", "clock_selector", "clock_multiplier")


def subranges(data, control):
    """Least, greatest and step of each subrange, None where the answer isn't whole."""
    if control is None or len(data) < 2 or len(data) != 2 + 3 * control.width * little(data[:2]):
        return None
    values = [control.value_of(data[at:at + control.width]) for at in range(2, len(data), control.width)]
    return list(zip(values[::3], values[1::3], values[2::3]))


def is_in(value, ranges):
    """Whether a value lies in one of the subranges, on its steps."""
    return any(least <= value <= most and (step <= 0 or (value - least) % step == 0) for least, most, step in ranges)


class Told:
    """The values that hold by key, None where nothing is known; what was told first; ranges as far as they were told; and settings.
    After a difference the device's answer is taken for what holds, and what should have held is kept as doubted: an answer that goes back
    to it is no further difference."""

    def __init__(self):
        self.values, self.starts, self.ranges, self.settings, self.requests = {}, {}, {}, {}, {}
        self.doubted, self.is_configured = {}, False

    def note(self, request):
        """The key of a request's control, which is remembered in its order."""
        key = request.index, request.value
        self.requests.setdefault(key, request)
        return key

    def doubt(self, what, key, wanted):
        """An answer differed from what was wanted."""
        self.doubted[what, key] = wanted

    def is_doubted(self, what, key, data):
        """Whether an answer goes back to what was wanted before; that is asked once."""
        wanted = self.doubted.pop((what, key), None)
        return wanted is not None and data[:len(wanted)] == wanted[:len(data)]

    def hear(self, key, data):
        """The device told this value; where none was told or set before, it is its start value."""
        if key not in self.values:
            self.starts[key] = data
        self.values[key] = data

    def hold(self, key, data):
        """A SET was done: the value holds (None where it isn't known which)."""
        self.values[key] = data
        self.doubted.pop(("value", key), None)

    def ranges_of(self, key):
        """The subranges that the device told, None where it didn't tell them whole."""
        request = self.requests.get(key)
        return None if request is None else subranges(self.ranges.get(key, b""), request.control)

    def is_running(self):
        return any(setting != 0 for setting in self.settings.values())

    def may_run(self, interfaces):
        """Whether one of these interfaces is in another setting than 0, as far as one knows."""
        return any(self.settings.get(interface, 0 if self.is_configured else None) != 0 for interface in interfaces)

    def forget(self, is_meant):
        """Values, and ranges, of these keys may be others now."""
        for key in [key for key in self.values if is_meant(self.requests.get(key))]:
            self.values[key] = None
        for key in [key for key in self.ranges if is_meant(self.requests.get(key))]:
            del self.ranges[key]

    def clocks_may_move(self, but):
        """A clock's control was set: what other clocks' controls tell, and what settings are valid, may be another now."""
        self.forget(lambda one: one is not None and (one.index, one.value) != but
                    and (one.entity is not None and one.entity.kind in CLOCKS or one.target.startswith("valid_settings")))

    def sources_may_move(self, but):
        """A selector unit was set: what units tell may be another now."""
        self.forget(lambda one: one is not None and (one.index, one.value) != but
                    and one.entity is not None and one.entity.kind in ("feature", "mixer", "effect"))

    def message(self, data):
        """An interrupt message: the control that it names may have another value now, or any where it names none."""
        if len(data) != 6 or data[0] & 1:
            self.forget(lambda one: True)
            self.settings.clear()
            self.is_configured = False
            return
        key = little(data[4:6]), little(data[2:4])
        self.forget(lambda one: one is None or (one.index, one.value) == key)

    def configured(self):
        """The host chose a configuration: every control may be at its start, and every interface is in setting 0."""
        self.forget(lambda one: True)
        self.settings, self.is_configured = dict.fromkeys(self.settings, 0), True

    def rate_of(self, clock, by_id, depth=0):
        """The rate of a clock entity by what was told; None where it isn't known."""
        block = by_id.get(clock)
        if block is None or depth > len(by_id):
            return None
        told = {one.selector: little(self.values[key]) for key, one in self.requests.items()
                if one.entity is not None and one.entity["id"] == clock and self.values.get(key)}
        if block.kind == "clock_source":
            return told.get(1) or self.only_rate(clock)
        if block.kind == "clock_selector":
            pin = told.get(1) or (1 if len(block.sources) == 1 else 0)
            return self.rate_of(block.sources[pin - 1], by_id, depth + 1) if 0 < pin <= len(block.sources) else None
        rate = self.rate_of(block["source"], by_id, depth + 1)
        if rate is None or not told.get(1) or not told.get(2) or rate * told[1] % told[2]:
            return None
        return rate * told[1] // told[2]

    def only_rate(self, clock):
        """The one rate of a clock source that told a range with nothing else."""
        for key, one in self.requests.items():
            if one.entity is not None and one.entity["id"] == clock and one.selector == 1:
                ranges = self.ranges_of(key)
                if ranges is not None and len(ranges) == 1 and ranges[0][0] == ranges[0][1]:
                    return ranges[0][0]
        return None
