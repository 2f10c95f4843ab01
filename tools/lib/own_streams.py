"""Streams that the probe runs itself: silence to the device by its own reports, and what comes from it.

What went over the bus is kept in the form of tools/script_of, microframe by microframe."""
import time
from capture import Burst
from descriptor import settings_of
from formats import formats_of
from isochronous import Microframes
from outcome import Untaken

# Transfers that are handed in at once, with so many packets each, and transfers for reports.
TRANSFERS, PACKETS, REPORTS = 12, 8, 4
PER_SECOND = {"high": 8000, "full": 1000}
REPORT_BYTES = {"high": 4, "full": 3}
PCM = 1
# A stream may take so many times its length and so many seconds more, before it is taken for one that stands still.
SLOWER, LATER = 10, 20


class Bus:
    """The packets of all endpoints as they end, and how many ended so far."""

    def __init__(self, way, configuration, speed):
        self.way, self.waiting, self.ended = way, {}, 0
        self.microframes = Microframes(configuration, speed, has_places=False)

    def hand_in(self, stream, address, lengths, interval):
        number = self.way.packets(address, lengths, interval)
        self.waiting[number] = stream, address, lengths, self.ended

    def take(self, seconds):
        """The next transfer that ended, given to its stream; whether one did."""
        told = self.way.take(seconds)
        if told is None:
            return False
        number, data, packets = told
        if number not in self.waiting:
            return True
        stream, address, lengths, handed = self.waiting.pop(number)
        burst = Burst(None, address, 0, 0, None, packets, sum(state != 0 for state, _ in packets))
        burst.sizes, burst.handed, burst.turn = lengths, handed, self.ended
        places = [sum(size for _, size in packets[:at]) for at in range(len(packets))]
        if address & 0x80:
            burst.keep_data(data, places)
        self.ended += 1
        self.microframes.add(burst)
        stream.took(address, data, packets)
        return True


class Silence:
    """A stream to the device: silent packets whose sizes follow its reports, or the nominal pace where it sends none."""

    def __init__(self, bus, form, rate, speed):
        self.bus, self.form, self.speed = bus, form, speed
        self.value, self.parts, self.packets, self.done, self.is_ending = rate * 65536 // PER_SECOND[speed], 0, 0, 0, False

    def begin(self):
        for _ in range(TRANSFERS):
            self.hand_in()
        for _ in range(REPORTS if self.form.feedback is not None else 0):
            self.ask_report()

    def ask_report(self):
        """With room for as many bytes as its endpoint has: Linux takes no packet with room for more."""
        self.bus.hand_in(self, self.form.feedback, [self.form.report_room], self.form.report_period)

    def frames(self):
        """How many frames the next packet has, as many as fit it at most."""
        self.parts += self.value * self.form.period
        count, self.parts = self.parts >> 16, self.parts & 0xFFFF
        return min(count, self.form.room // self.form.frame)

    def hand_in(self):
        self.packets += PACKETS
        self.bus.hand_in(self, self.form.data, [self.frames() * self.form.frame for _ in range(PACKETS)], self.form.period)

    def took(self, address, data, packets):
        if address == self.form.data:
            self.done += len(packets)
            if not self.is_ending:
                self.hand_in()
        else:
            if packets[0][0] == 0 and len(data) == REPORT_BYTES[self.speed]:
                self.value = int.from_bytes(data, "little") << (2 if len(data) == 3 else 0)
            if self.done < self.packets:
                self.ask_report()


class Hearing:
    """A stream from the device. What comes is counted, and not kept."""

    def __init__(self, bus, form, rate, speed):
        self.bus, self.form, self.packets, self.done, self.is_ending = bus, form, 0, 0, False

    def begin(self):
        for _ in range(TRANSFERS):
            self.hand_in()

    def hand_in(self):
        self.packets += PACKETS
        self.bus.hand_in(self, self.form.data, [self.form.room] * PACKETS, self.form.period)

    def took(self, address, data, packets):
        self.done += len(packets)
        if not self.is_ending:
            self.hand_in()


def run(bus, stream, seconds, speed):
    """Runs a stream for so many seconds of the bus; whether all of its packets ended."""
    stream.begin()
    wanted, end = seconds * PER_SECOND[speed], time.monotonic() + SLOWER * seconds + LATER
    while stream.done * stream.form.period < wanted and time.monotonic() < end:
        bus.take(1)
    stream.is_ending = True
    while stream.done < stream.packets and time.monotonic() < end:
        bus.take(1)
    return stream.done >= stream.packets


class OwnStreams:
    """One stream to the device and one from it, of those that take a setting at the rate that holds."""

    def __init__(self, questions, configuration, speed, seconds):
        self.questions, self.dialogue, self.keeper = questions, questions.dialogue, questions.keeper
        self.configuration, self.speed, self.seconds, self.notes = configuration, speed, seconds, []
        is_pcm = {(one["number"], one["setting"]): bool((one["general"]["formats"] or 0) & PCM) for one in settings_of(questions.blocks)
                  if one.get("general") is not None}
        self.forms = [form for key, form in formats_of(configuration).items() if is_pcm.get(key)]

    def ask_all(self):
        for is_out in (True, False):
            what = f"a stream {'to' if is_out else 'from'} the device"
            forms = [form for form in self.forms if form.is_out == is_out]
            if self.keeper.is_read_only or not forms:
                self.keeper.leave_out(what, "--read-only" if self.keeper.is_read_only else "it has none of PCM")
            elif not any(self.ask_one(form) for form in forms):
                self.keeper.leave_out(what, "no setting of one was taken and ran at the rate that holds")

    def ask_one(self, form):
        """Runs this stream; whether it did."""
        rate = self.rate_of(form.clock)
        if rate is None or self.questions.interface(form.interface, form.setting).kind != "done":
            return False
        bus, is_taken = Bus(self.dialogue.way, self.configuration, self.speed), True
        bus.microframes.set_interface(form.interface, form.setting)
        try:
            is_whole = run(bus, (Silence if form.is_out else Hearing)(bus, form, rate, self.speed), self.seconds, self.speed)
            if not is_whole:
                self.notes.append(f"the stream of interface {form.interface} stood still: packets were handed in and never came back")
        except Untaken as why:
            is_taken = False
            self.notes.append(f"the stream of interface {form.interface} setting {form.setting} didn't run: {why}")
        finally:
            self.dialogue.lines += bus.microframes.lines(True)
        self.questions.interface(form.interface, 0)
        return is_taken

    def rate_of(self, clock):
        """The rate of a clock, by what its sources said last; None where that isn't known, or a multiplier may make another of it."""
        if any(block.kind == "clock_multiplier" for block in self.questions.by_id.values()):
            return None
        sources = self.questions.sources_behind(clock)
        points = [point for point in self.questions.points if point.name == "frequency" and point.entity in sources]
        rates = {self.keeper.now.get(point.key) for point in points}
        return int.from_bytes(rates.pop(), "little") if len(rates) == 1 and None not in rates else None
