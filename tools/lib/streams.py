"""Streams judged at both ends, from what went over the bus.

`Streams` is told when a stream begins and ends, and is fed the events of one microframe (of one frame of the bus at full speed) after the
other. At the end it has what is wrong, as differences, and a row of numbers for each stream.

    streams = Streams(blocks)                       # the blocks of the descriptor, as descriptor.cut gives them
    streams.begin(1, 1, 48000)                      # interface, setting, rate (None where it isn't known)
    streams.microframe(1, [Event("o", 1, "ok", size=36), Event("f", 1, "ok", data=bytes.fromhex("00000600"))])
    streams.finish()
    streams.differences, streams.runs               # Differences; a Run each, with row()

Of the host: the sum of its packets' frames is that of the value in force (the nominal one before the first report), a remainder carried,
within a frame. Packets that it had handed in before a report came are allowed for: by `after`, the number of reports that it had heard when
it handed a packet in, or else by the least number of packets with which its sums agree.
Of the device: the bytes of its reports, and the frames of its packets."""
import bisect
from controls import room_of, service_of, terminal_of
from descriptor import little, settings_of
from differences import LIMIT, STANDARD, WARNING, Difference, Differences, counted

FRAME = 65536
# Frames of the bus in a second, and the bytes of a report.
PER_SECOND = {"high": 8000, "full": 1000}
REPORT_BYTES = {"high": 4, "full": 3}
# A host may have handed in fewer packets than this before a report came, where nothing tells; and where the number is known, a report may
# show in fewer than this after.
BEFOREHAND = 512
LATE = 64
FEEDBACK = "USB 2.0, 5.12.4.2"
PACKETS = "Audio Data Formats 2.0, 2.3.1"
SIZES = "USB 2.0, 9.6.6"


class Event:
    """What went over the bus in a microframe: the letter (o a packet to the device, i one from it, f a report), the interface, its state
    (ok, lost or untold), a packet's bytes (None where they aren't known), a report's bytes, how many reports the host had heard when it
    handed the packet in (None where that isn't known), and the line of the script."""

    def __init__(self, letter, interface, state, size=None, data=None, after=None, line=0):
        self.letter, self.interface, self.state, self.line = letter, interface, state, line
        self.size, self.data, self.after = size, data, after


class Shape:
    """What the descriptor says of a setting's stream."""

    def __init__(self, setting, blocks):
        ends, form, general = setting["endpoint"], setting.get("type_one"), setting.get("general")
        terminal = terminal_of(setting, blocks)
        self.is_out = terminal is not None and terminal.kind == "input_terminal"
        self.clock = None if terminal is None else terminal["clock"]
        self.width = service_of(ends[0]) if ends else 1
        self.room = room_of(ends[0]) if ends else None
        self.frame = general["channels"] * form["subslot"] if form is not None and general is not None else None
        self.has_reports = len(ends) > 1
        # Whether the host's pace is known: by reports, or because the device follows the bus or the host.
        self.has_pace = self.has_reports or bool(ends) and ends[0]["attributes"] >> 2 & 3 in (2, 3)


def shapes_of(blocks):
    """The shape of each setting with an endpoint, by interface and setting."""
    return {(one["number"], one["setting"]): Shape(one, blocks) for one in settings_of(blocks) if one["endpoint"]}


class Run:
    """A stream from the setting that begins it to the next."""

    def __init__(self, interface, setting, rate, shape, speed, differences):
        self.interface, self.setting, self.rate = interface, setting, rate
        self.shape, self.speed, self.differences = shape, speed, differences
        self.packets, self.reports, self.lost, self.lost_reports, self.untold = [], [], 0, 0, 0
        self.beforehand = None

    @property
    def name(self):
        return f"interface {self.interface}'s stream {'to' if self.shape.is_out else 'from'} the device"

    @property
    def nominal(self):
        """The nominal value, least and greatest by rounding; None where the rate isn't known."""
        if self.rate is None:
            return None
        whole, rest = divmod(self.rate * FRAME, PER_SECOND[self.speed])
        return whole, whole + bool(rest)

    def add(self, kind, rule, event, number, value, wanted, why, document="", party="device", what=None):
        unit = "microframe" if self.speed == "high" else "frame of the bus"
        field = f"{what or self.name}, {unit} {number}"
        self.differences.add(Difference(kind, f"stream-{rule}", event.line, field, value, wanted, why, document, party, 1, self.interface))

    # ---- the device's reports

    def report(self, number, event):
        if event.state == "lost":
            self.lost_reports += 1
            return
        if event.data is None:
            self.reports.append((number, None))
            return
        if not event.data:
            return
        value, wanted = little(event.data), REPORT_BYTES[self.speed]
        if self.speed == "full" and len(event.data) == 3:
            value *= 4
        elif self.speed == "full" and len(event.data) == 4:
            self.add(WARNING, "report-of-four-bytes", event, number, f"a report of 4 bytes, {event.data.hex()}", "3 bytes",
                     "At full speed a report has 3 bytes; some firmware sends 4 on purpose, for hosts that want so many", FEEDBACK)
        elif len(event.data) != wanted:
            self.add(STANDARD, "report-length", event, number, f"a report of {len(event.data)} bytes, {event.data.hex()}",
                     f"{wanted} bytes, or none", f"A report has {wanted} bytes at {self.speed} speed", FEEDBACK)
            self.reports.append((number, None))
            return
        self.reports.append((number, value))
        self.warn_of_value(number, event, value)

    def warn_of_value(self, number, event, value):
        if self.nominal is not None and not self.is_in_band(value):
            low, high = self.nominal[0] * 7 // 8, self.nominal[0] * 3 // 2
            self.add(WARNING, "report-out-of-band", event, number, f"a report of {in_frames(value)} frames",
                     f"{in_frames(low)} to {in_frames(high)}", "Linux 6.12 ignores reports below 7/8 or above 3/2 of the nominal value", "")

    def is_in_band(self, value):
        return self.nominal is None or self.nominal[0] * 7 <= value * 8 and value * 2 <= self.nominal[1] * 3

    # ---- packets

    def packet(self, number, event):
        self.lost += event.state == "lost"
        if event.size is None:
            self.untold += event.state == "untold"
            self.packets.append((number, None, event))
            return
        frame, party, frames = self.shape.frame, "host" if self.shape.is_out else "device", None
        if self.shape.room is not None and event.size > self.shape.room:
            self.add(STANDARD, "packet-too-large", event, number, f"a packet of {event.size} bytes", f"at most {self.shape.room} bytes",
                     "The endpoint takes no more in a packet", SIZES, party)
        elif frame and event.size % frame:
            self.add(STANDARD, "packet-not-whole", event, number, f"a packet of {event.size} bytes", f"whole frames of {frame} bytes",
                     "A packet holds whole frames", PACKETS, party)
        elif frame:
            frames = event.size // frame
        self.packets.append((number, frames, event))

    def end(self):
        """Judges what only the whole stream shows."""
        if self.shape.is_out:
            self.judge_host()
        else:
            self.judge_packets_in()

    # ---- packets from the device

    def from_first(self):
        """The packets with known frames, from the first that isn't empty on."""
        known = [(number, frames, event) for number, frames, event in self.packets if frames is not None and event.state == "ok"]
        first = next((at for at, (_, frames, _) in enumerate(known) if frames), len(known))
        return known[first:]

    def measured_mean(self, known):
        """The sum and number of the packets near the median, so that a wrong one doesn't move the mean."""
        counts = sorted(frames for _, frames, _ in known)
        middle = counts[len(counts) // 2]
        near = [count for count in counts if abs(count - middle) <= 1]
        return sum(near), len(near)

    def judge_packets_in(self):
        """Each packet has the whole number of frames below or above the mean, which is known within one frame of all."""
        known = self.from_first()
        if not known:
            return
        total, count = self.measured_mean(known)
        least, most = (total - 1) // count, (total + 1) // count + 1
        for number, frames, event in known:
            if not least <= frames <= most:
                self.add(STANDARD, "packet-off-the-mean", event, number, f"a packet of {frames} frames", f"{least} to {most} frames",
                         f"A packet holds the whole number of frames below or above the mean, here {total / count:.4f}", PACKETS)

    # ---- the host's packets against the value in force

    def judge_host(self):
        """Whether the host's sums agree with the values in force, for some number of packets in which a report doesn't show yet."""
        if not self.packets:
            return
        if not self.shape.has_pace:
            self.add(LIMIT, "implicit", self.packets[0][2], self.packets[0][0], "packets", "",
                     "its pace isn't judged: it has no feedback endpoint, and a host may take its pace from a stream of the device")
            return
        heard = self.heard()
        if heard is not None:
            self.beforehand = self.count_beforehand(heard)
            (at, amount), _ = self.parted_last(heard, LATE, False)
            allowed = f"; {counted(self.beforehand, 'packet')} handed in before a report came are allowed for"
        else:
            (at, amount), before = self.parted_last(self.come(), BEFOREHAND, True)
            self.beforehand = before if at == len(self.packets) else None
            allowed = f", whatever number of packets up to {BEFOREHAND - 1} it had handed in before a report came"
        if at < len(self.packets):
            number, _, event = self.packets[at]
            self.add(STANDARD, "host-parts", event, number, f"{counted(abs(amount), 'frame')} too {'many' if amount > 0 else 'few'} so far",
                     "at most 1 frame off", f"From here on the host's frames part from the sum of the value in force{allowed}", FEEDBACK,
                     "host")

    def heard(self):
        """How many reports the host had heard when it handed in each packet, None where nothing tells."""
        if all(event.after is None for _, _, event in self.packets):
            return None
        heard = []
        for _, _, event in self.packets:
            heard.append(event.after if event.after is not None else heard[-1] if heard else 0)
        return heard

    def come(self):
        """How many reports had come before each packet."""
        times = [number for number, _ in self.reports]
        return [bisect.bisect_left(times, number) for number, _, _ in self.packets]

    def parted_last(self, heard, count, is_free):
        """Where the sums part, and for how many packets in which a report doesn't show yet: the least such number with which they never do;
        else none, or the number with which they part last, where it is free."""
        best, least, ways = None, 0, self.ways_of_hosts()
        for late in range(count if self.reports else 1):
            parted = max((self.parted(heard, late, values) for values in ways), key=lambda one: one[0])
            if best is None or parted[0] == len(self.packets) or is_free and parted[0] > best[0]:
                best, least = parted, late
            if best[0] == len(self.packets):
                break
        return best, least

    def count_beforehand(self, heard):
        """The most packets that came after a report, and were handed in before it."""
        numbers, most = [number for number, _, _ in self.packets], 0
        for report, (number, _) in enumerate(self.reports, 1):
            begin, end = bisect.bisect_right(numbers, number), bisect.bisect_left(heard, report)
            if end < len(heard):
                most = max(most, end - begin)
        return most

    def ways_of_hosts(self):
        """The values in force of a host that follows every report, and of one that leaves those out of the band, where that is another."""
        is_plain = all(value is None or self.is_in_band(value) for _, value in self.reports)
        return [self.values_heard(ignores) for ignores in ((False,) if is_plain else (False, True))]

    def values_heard(self, ignores):
        """The least and greatest value in force after each number of reports; None where it isn't known."""
        values = [self.nominal]
        for _, value in self.reports:
            is_taken = value is None or not ignores or self.is_in_band(value)
            values.append((None if value is None else (value, value)) if is_taken else values[-1])
        return values

    def parted(self, heard, late, values):
        """The first packet at which the host's sum parts by more than a frame from the whole frames of the value's sum, and by how many;
        the number of packets where it never does. Where a packet or value isn't known the sums begin anew, with an unknown remainder."""
        total, low, high, slack, before, width = 0, 0, 0, 1, None, self.shape.width
        for at, (number, frames, _) in enumerate(self.packets):
            value = values[min(heard[at - late], len(values) - 1) if at >= late else 0]
            is_gap = before is not None and number > before + width
            before = number
            if frames is None or value is None or is_gap:
                total, low, high, slack = 0, 0, 0, 2
            if frames is None or value is None:
                continue
            total, low, high = total + frames, low + value[0] * width, high + value[1] * width
            if not low // FRAME - slack <= total <= high // FRAME + slack:
                return at, total - (low if total < low // FRAME else high) // FRAME
        return len(self.packets), 0

    # ---- the numbers

    def row(self):
        """The cells of the table of streams, by their names."""
        counts = [frames for _, frames, _ in (self.packets if self.shape.is_out else self.from_first()) if frames is not None]
        values = [value for _, value in self.reports if value is not None]
        per_second = PER_SECOND[self.speed]
        mean = sum(counts) * per_second / (len(counts) * self.shape.width) if counts else None
        return {"interface": self.interface, "setting": self.setting, "direction": "out" if self.shape.is_out else "in", "rate": self.rate,
                "packets": len(self.packets), "lost": self.lost, "least_frames": min(counts, default=None),
                "most_frames": max(counts, default=None), "reports": len(self.reports), "lost_reports": self.lost_reports,
                "least_value": min(values, default=None), "most_value": max(values, default=None), "mean_rate": mean,
                "ppm": None if mean is None or not self.rate else (mean / self.rate - 1) * 1000000, "beforehand": self.beforehand}


def in_frames(value):
    """A number of 65,536ths as frames."""
    return f"{value / FRAME:.4f}"


class Streams:
    """All streams of a device, one after the other and beside each other."""

    def __init__(self, blocks, speed="high", differences=None):
        self.shapes, self.speed = shapes_of(blocks), speed
        self.differences, self.running, self.runs = Differences() if differences is None else differences, {}, []

    def begin(self, interface, setting, rate):
        """The interface's stream begins anew, or ends where the setting has none."""
        self.end(interface)
        shape = self.shapes.get((interface, setting))
        if shape is not None:
            self.running[interface] = Run(interface, setting, rate, shape, self.speed, self.differences)
            self.runs.append(self.running[interface])

    def end(self, interface):
        run = self.running.pop(interface, None)
        if run is not None:
            run.end()

    def microframe(self, number, events):
        """What went over the bus in this microframe."""
        for event in events:
            run = self.running.get(event.interface)
            if run is not None:
                (run.report if event.letter == "f" else run.packet)(number, event)

    def finish(self):
        """The streams that still run end here."""
        for interface in list(self.running):
            self.end(interface)
