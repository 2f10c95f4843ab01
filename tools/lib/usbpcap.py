"""Records of USBPcap under Windows (link type 249), by its published header; no capture of a real one was at hand.

Each begins with a head of at least 27 bytes: its length, the request's name, a status, a function, whether it goes up, bus, device,
endpoint, the kind of transfer, and the number of data bytes. A control transfer adds its stage, an isochronous one its packets."""
import struct
from capture import MOST_PACKETS, OVERFLOWED, STALLED, Burst, Message, Transfer

HEAD = struct.Struct("<HQIHBHHBBI")
ISOCHRONOUS, INTERRUPT, CONTROL = 0, 1, 2
SETUP, DATA, STATUS, COMPLETE = 0, 1, 2, 3
# Windows' words for a stall, for a transfer that was taken back, and for more data than was asked for.
STATUSES = {0: 0, 0xC0000004: STALLED, 0xC0000030: STALLED, 0xC0010000: -2, 0xC0000008: OVERFLOWED, 0xC000000C: OVERFLOWED}
# Another failure, as Linux would say a protocol error.
FAILED = -71


class Record:
    """A record's head, and what stands after it."""

    def __init__(self, time, data):
        self.time = time
        size, self.name, status, _, info, bus, device, self.endpoint, self.kind, length = HEAD.unpack(data[:HEAD.size])
        self.status = STATUSES.get(status, FAILED)
        self.goes_up, self.device = bool(info & 1), (bus, device)
        self.more, self.data = data[HEAD.size:size], data[size:size + length]
        self.length = length


def take_control(assembly, record):
    """The stages of a control transfer: the setup, perhaps with what is sent; the data; and its end."""
    stage, name = record.more[0] if record.more else None, ("control", record.device, record.name)
    if stage == SETUP and not record.goes_up and len(record.data) >= 8:
        assembly.ask(name, Transfer(record.device, record.data[:8], record.data[8:]))
        return
    waiting = assembly.waiting.get(name)
    if waiting is None:
        return
    if stage == DATA and not waiting.is_read:
        waiting.sent += record.data
    elif stage in (DATA, COMPLETE) and waiting.is_read:
        waiting.answered, waiting.wanted = record.data, record.length
    if stage in (STATUS, COMPLETE) and record.goes_up:
        assembly.end(name, record.status)


def take_burst(assembly, record):
    """Isochronous packets: the first frame, their number, how many failed, and for each its place, its length and its status.
    Of packets to the device the lengths follow from the places, since Windows doesn't tell them. Frames are counted by milliseconds."""
    if len(record.more) < 12:
        return
    start, count, failed = struct.unpack("<III", record.more[:12])
    told = [struct.unpack("<III", record.more[at:at + 12]) for at in range(12, len(record.more) - 11, 12)][:min(count, MOST_PACKETS)]
    places, name = [place for place, _, _ in told], ("packets", record.device, record.endpoint, record.name)
    if not record.endpoint & 0x80 and not record.goes_up:
        assembly.hand_in(name, record.device, [end - at for at, end in zip(places, [*places[1:], record.length])])
        return
    if not record.goes_up:
        assembly.hand_in(name, record.device, [length for _, length, _ in told])
        return
    sizes = [length for _, length, _ in told]
    if not record.endpoint & 0x80 and name in assembly.handed:
        sizes = assembly.handed[name][0]
    packets = [(STATUSES.get(status, FAILED), size) for (_, _, status), size in zip(told, sizes)]
    packets += [(None, None)] * (min(count, MOST_PACKETS) - len(packets))
    burst = Burst(record.device, record.endpoint, record.status, record.time, start, packets, failed)
    if record.endpoint & 0x80:
        burst.keep_data(record.data, places)
    assembly.take(name, burst)


def of_usbpcap(records, assembly):
    """Takes the records of a capture in turn."""
    assembly.counts_frames = True
    for time, data in records:
        if len(data) < HEAD.size:
            continue
        record = Record(time, data)
        if record.kind == CONTROL:
            take_control(assembly, record)
        elif record.kind == ISOCHRONOUS:
            take_burst(assembly, record)
        elif record.kind == INTERRUPT and record.goes_up and record.endpoint & 0x80:
            assembly.tell(Message(record.device, record.endpoint, record.data))
