"""A host that plays to a device over USB/IP and records from it, as a driver does: some transfers always handed in, packets by the reports.

It reads the device as any host does, and is used by tests; nothing here knows the program."""
import random, time
from descriptor import cut
from usbip import DONE

# Transfers that are handed in at once, and the packets of each.
TRANSFERS, PACKETS, REPORTS = 12, 8, 4
MICROFRAMES = 8000


def read_device(host):
    """The device descriptor and the configuration, asked for as a host does."""
    _, device = host.control("8006000100001200")
    _, front = host.control("8006000200000900")
    total = int.from_bytes(front[2:4], "little")
    _, configuration = host.control(b"\x80\x06\x00\x02\0\0" + total.to_bytes(2, "little"))
    host.control(b"\0\x09" + configuration[5:6] + bytes(5))
    return device, configuration


def control_interface(configuration):
    """The number of the interface at which entities are asked for."""
    return next(block["number"] for block in cut(configuration)[0]
                if block.kind == "interface" and (block["class"], block["subclass"], block["protocol"]) == (1, 1, 0x20))


def set_rate(host, configuration, clock, rate):
    """Sets a clock source's frequency; the status."""
    setup = bytes([0x21, 1, 0, 1, control_interface(configuration), clock, 4, 0])
    return host.control(setup, rate.to_bytes(4, "little"))[0]


def set_interface(host, interface, setting):
    return host.control(bytes([1, 11, setting, 0, interface, 0, 0, 0]))[0]


class Playing:
    """A stream to the device: packets of noise by the reports, unless it doesn't follow them. `played` has the bytes of all frames that
    were handed in."""

    def __init__(self, host, form, rate, seed=1, follows=True):
        self.host, self.form, self.value, self.follows = host, form, rate * 65536 // MICROFRAMES, follows
        self.parts = self.packets = self.reports = self.lost_reports = self.done = 0
        self.noise, self.played, self.is_ending, self.failed = random.Random(seed), [], False, 0

    def frames(self):
        """How many frames the next packet has."""
        self.parts += self.value * self.form.period
        count, self.parts = self.parts >> 16, self.parts & 0xFFFF
        return count

    def begin(self, transfers=TRANSFERS):
        for _ in range(transfers):
            self.hand_in()
        for _ in range(REPORTS):
            self.host.submit(self.form.feedback, lengths=[4])

    def hand_in(self, packets=PACKETS):
        lengths = [self.frames() * self.form.frame for _ in range(packets)]
        data = self.noise.randbytes(sum(lengths))
        self.played.append(data)
        self.packets += packets
        self.host.submit(self.form.data, data, lengths)

    def take(self, answer):
        """An answer to one of its transfers; whether it was one."""
        if answer.address == self.form.data:
            self.done += len(answer.packets)
            self.failed += sum(status != DONE or told != size for size, told, status in answer.packets)
            if not self.is_ending:
                self.hand_in()
        elif answer.address == self.form.feedback:
            if answer.packets and answer.packets[0][2] == DONE and len(answer.data) == 4:
                self.value = int.from_bytes(answer.data, "little") if self.follows else self.value
                self.reports += 1
            else:
                self.lost_reports += 1
            if self.done < self.packets:
                self.host.submit(self.form.feedback, lengths=[4])
        else:
            return False
        return True


class Recording:
    """A stream from the device. `recorded` has the bytes that came."""

    def __init__(self, host, form):
        self.host, self.form, self.recorded, self.packets, self.is_ending, self.failed, self.done = host, form, [], 0, False, 0, 0

    def begin(self, transfers=TRANSFERS):
        for _ in range(transfers):
            self.hand_in()

    def hand_in(self, packets=PACKETS):
        self.packets += packets
        self.host.submit(self.form.data, lengths=[self.form.room] * packets)

    def take(self, answer):
        if answer.address != self.form.data:
            return False
        self.recorded.append(answer.data)
        self.done += len(answer.packets)
        self.failed += sum(status != DONE for _, _, status in answer.packets)
        if not self.is_ending:
            self.hand_in()
        return True


def run(host, streams, seconds):
    """Runs streams for so many seconds of the bus, or of ten times that and a minute of the clock; how many seconds the clock said."""
    begin = time.monotonic()
    limit = begin + 10 * seconds + 60
    while any(stream.done * stream.form.period < seconds * MICROFRAMES for stream in streams) and time.monotonic() < limit:
        answer = host.wait()
        any(stream.take(answer) for stream in streams)
    for stream in streams:
        stream.is_ending = True
    while any(stream.done < stream.packets for stream in streams) and time.monotonic() < limit:
        answer = host.wait()
        any(stream.take(answer) for stream in streams)
    return time.monotonic() - begin
