"""USB/IP, version 1.1.1: the messages of the protocol, what a server reads of them and answers, and a host that speaks it.

The numbers stand in the Linux kernel's page on the protocol, Documentation/usb/usbip_protocol.rst."""
import collections, socket, struct

PORT = 3240
VERSION = 0x0111
REQUEST, LIST, IMPORT = 0x8000, 5, 3
# What an import is answered with.
TAKEN, BUSY, BROKEN, ABSENT = 0, 2, 3, 4
WHY_NOT = {1: "it isn't to be had", BUSY: "another host has it", BROKEN: "it can't run", ABSENT: "there is no such device"}
SUBMIT, UNLINK, SUBMITTED, UNLINKED = 1, 2, 3, 4
HEAD, RECORD = 48, 312
HIGH_SPEED = 3
# The states of transfers, as Linux numbers them.
DONE, NO_ENDPOINT, WRONG, STALLED, NO_ANSWER, TOO_MUCH, TAKEN_BACK, ENDED = 0, -2, -22, -32, -71, -75, -104, -108
# What no host sends: more packets in a transfer than the kernel's, and more bytes than a transfer of USB/IP has room for.
MOST_PACKETS = 1024
MOST_BYTES = 1 << 22
NO_PACKETS = 0xFFFFFFFF


class ProtocolError(Exception):
    """What the other side did against the protocol, or that it is gone, as a sentence."""


class Wire:
    """A connection: bytes are read as they come, and taken by whole messages."""

    def __init__(self, connection, seconds):
        self.socket, self.read, self.at = connection, bytearray(), 0
        connection.setsockopt(socket.IPPROTO_TCP, socket.TCP_NODELAY, 1)
        connection.settimeout(seconds)

    def fileno(self):
        return self.socket.fileno()

    def receive(self):
        """Reads what has come, and waits where nothing has."""
        try:
            piece = self.socket.recv(1 << 18)
        except TimeoutError:
            raise ProtocolError("nothing came any more")
        except OSError as why:
            raise ProtocolError(f"the connection broke ({why.strerror})")
        if not piece:
            raise ProtocolError("the connection was closed" + (" in the midst of a message" if self.left else ""))
        if self.at > 1 << 16:
            del self.read[:self.at]
            self.at = 0
        self.read += piece

    @property
    def left(self):
        return len(self.read) - self.at

    def peek(self, count):
        return bytes(self.read[self.at:self.at + count])

    def take(self, count):
        """So many bytes, waiting for them."""
        while self.left < count:
            self.receive()
        piece = bytes(self.read[self.at:self.at + count])
        self.at += count
        return piece

    def send(self, data):
        try:
            self.socket.sendall(data)
        except TimeoutError:
            raise ProtocolError("the other side reads nothing any more")
        except OSError as why:
            raise ProtocolError(f"the connection broke ({why.strerror})")

    def close(self):
        self.socket.close()


# ---- before a device is attached

def operation(code, status=0, body=b""):
    return struct.pack(">HHI", VERSION, code, status) + body


class Record:
    """What the protocol says of a device: its bus id, its numbers, its vendor and product, and the class of each interface."""
    LAYOUT = ">256s32sIIIHHHBBBBBB"

    def __init__(self, busid, path, bus, device, speed, ids, codes, interfaces):
        self.busid, self.path, self.bus, self.device, self.speed = busid, path, bus, device, speed
        self.vendor, self.product, self.version = ids
        # class, subclass, protocol, configuration value, number of configurations
        self.codes, self.interfaces = codes, interfaces

    def write(self, with_interfaces):
        front = struct.pack(self.LAYOUT, self.path.encode(), self.busid.encode(), self.bus, self.device, self.speed, self.vendor,
                            self.product, self.version, *self.codes, len(self.interfaces))
        return front + (b"".join(bytes(codes) + b"\0" for codes in self.interfaces) if with_interfaces else b"")

    @classmethod
    def read(cls, wire, with_interfaces):
        path, busid, bus, device, speed, vendor, product, version, *codes, count = struct.unpack(cls.LAYOUT, wire.take(RECORD))
        faces = [tuple(wire.take(4)[:3]) for _ in range(count)] if with_interfaces else []
        text = [part.rstrip(b"\0").decode("ascii", "replace") for part in (busid, path)]
        return cls(*text, bus, device, speed, (vendor, product, version), tuple(codes), faces)


def read_operation(wire):
    """What a host asks before it has a device: the list, or an import with a bus id."""
    version, code, _ = struct.unpack(">HHI", wire.take(8))
    if version != VERSION:
        raise ProtocolError(f"it speaks version {version:#06x} of the protocol, or none, and {VERSION:#06x} is wanted")
    if code == REQUEST | LIST:
        return LIST, None
    if code == REQUEST | IMPORT:
        return IMPORT, wire.take(32).partition(b"\0")[0].decode("ascii", "replace")
    raise ProtocolError(f"it asks for an operation that there isn't ({code:#06x})")


# ---- a device that is attached

class Transfer:
    """A transfer that a host handed in; of an isochronous one the place and length of each packet, and what became of them."""
    __slots__ = ("number", "endpoint", "is_in", "length", "setup", "data", "packets", "at", "done", "back", "is_failed")

    def __init__(self, number, endpoint, is_in, length, setup):
        self.number, self.endpoint, self.is_in, self.length, self.setup = number, endpoint, is_in, length, setup
        self.data, self.packets, self.at, self.done, self.back, self.is_failed = b"", None, 0, [], [], 0

    @property
    def address(self):
        return self.endpoint | (0x80 if self.is_in else 0)

    def packet(self):
        """The next packet: its place, its length and, of one to the device, its bytes."""
        place, length = self.packets[self.at]
        return place, length, self.data[place:place + length]

    def end_packet(self, data=b"", status=DONE):
        """What became of the next packet from the device."""
        place, room = self.packets[self.at]
        self.done.append((place, room, len(data), status & 0xFFFFFFFF))
        self.back.append(data)
        self.is_failed += status != DONE
        self.at += 1

    def packets_done(self):
        """What became of each packet: those to the device that didn't fail were taken whole."""
        return self.done or [(place, room, room, DONE) for place, room in self.packets]

    def fail(self, status):
        """All packets that are left fail."""
        if self.packets and not self.is_in:
            self.done = [(place, room, room, DONE) for place, room in self.packets[:self.at]]
        while self.packets and self.at < len(self.packets):
            self.end_packet(status=status)


def read_command(wire):
    """The next message of a host: a transfer, or the number of a message with that of the transfer which it takes back; None where it isn't
    whole yet."""
    if wire.left < HEAD:
        return None
    head = wire.peek(HEAD)
    command, number, _, direction, endpoint = struct.unpack_from(">IIIII", head)
    if command == UNLINK:
        wire.take(HEAD)
        return number, struct.unpack_from(">I", head, 20)[0]
    if command != SUBMIT or direction > 1 or endpoint > 15:
        raise ProtocolError(f"it sent a message that there isn't (command {command}, direction {direction}, endpoint {endpoint})")
    length, _, count = struct.unpack_from(">iiI", head, 24)
    count = 0 if count == NO_PACKETS else count
    if not 0 <= length <= MOST_BYTES or count > MOST_PACKETS:
        raise ProtocolError(f"it sent a transfer of {length} bytes and {count} packets, which no host does")
    sent = 0 if direction else length
    if wire.left < HEAD + sent + 16 * count:
        return None
    wire.take(HEAD)
    one = Transfer(number, endpoint, bool(direction), length, head[40:48])
    one.data = wire.take(sent)
    if count and endpoint:
        one.packets = [(place, size) for place, size, _, _ in struct.iter_unpack(">IIII", wire.take(16 * count))]
        if any(place + size > length for place, size in one.packets):
            raise ProtocolError("it sent a packet that lies outside of its transfer")
    return one


def answer_of(one, status, data=b""):
    """The message that tells a host what became of its transfer."""
    packets = b""
    if one.packets is not None:
        done = one.packets_done()
        packets = struct.pack(f">{4 * len(done)}I", *[number for packet in done for number in packet])
        data, actual, count = b"".join(one.back), sum([packet[2] for packet in done]), len(done)
    else:
        actual, count = (len(data) if one.is_in else one.length if status == DONE else 0), 0
    head = struct.pack(">IIIIIiiiii8x", SUBMITTED, one.number, 0, 0, 0, status, actual, 0, count, one.is_failed)
    return head + (data if one.is_in else b"") + packets


def unlinked(number, was_there):
    return struct.pack(">IIIIIi24x", UNLINKED, number, 0, 0, 0, TAKEN_BACK if was_there else DONE)


# ---- a host

# `passed` is how many bytes went over, as the server tells it.
Answer = collections.namedtuple("Answer", "number address status data packets passed", defaults=(0,))
# A transfer of isochronous packets begins as soon as it can.
AS_SOON = 2


class Host:
    """A host: it lists devices, attaches one, and hands in transfers. Every wait has an end."""

    def __init__(self, address="127.0.0.1", port=PORT, seconds=60):
        try:
            self.wire = Wire(socket.create_connection((address, port), seconds), seconds)
        except OSError as why:
            raise ProtocolError(f"nobody answers at {address}:{port} ({why.strerror or why})") from why
        self.number, self.waiting, self.kept, self.record = 0, {}, collections.deque(), None

    def begin(self, code, body=b""):
        self.wire.send(operation(REQUEST | code, 0, body))
        version, told, status = struct.unpack(">HHI", self.wire.take(8))
        if (version, told) != (VERSION, code):
            raise ProtocolError(f"the server answers {told:#06x} in version {version:#06x}")
        return status

    def devices(self):
        """The devices that the server has."""
        if self.begin(LIST):
            raise ProtocolError("the server tells no devices")
        return [Record.read(self.wire, True) for _ in range(struct.unpack(">I", self.wire.take(4))[0])]

    def attach(self, busid):
        status = self.begin(IMPORT, struct.pack("32s", busid.encode()))
        if status != TAKEN:
            raise ProtocolError(f"{busid} isn't attached: {WHY_NOT.get(status, f'status {status}')}")
        self.record = Record.read(self.wire, False)
        return self.record

    def submit(self, address, data=b"", lengths=None, setup=bytes(8), room=None, interval=0):
        """Hands in a transfer, an isochronous one with the lengths of its packets; its number. A server with a real bus behind it asks for
        the interval of isochronous and interrupt transfers, in microframes."""
        self.number += 1
        is_in, count, packets, place = bool(address & 0x80), NO_PACKETS, b"", 0
        if lengths is not None:
            count = len(lengths)
            for length in lengths:
                packets += struct.pack(">IIII", place, length, 0, 0)
                place += length
        length = room if room is not None else place if lengths is not None else len(data)
        self.waiting[self.number] = address
        head = struct.pack(">IIIIIIiiIi8s", SUBMIT, self.number, self.record.bus << 16 | self.record.device, is_in, address & 15,
                           AS_SOON if lengths is not None else 0, length, 0, count, interval, setup)
        self.wire.send(head + (b"" if is_in else data) + packets)
        return self.number

    def unlink(self, number):
        self.number += 1
        self.waiting[self.number] = None
        self.wire.send(struct.pack(">IIIIII24x", UNLINK, self.number, self.record.bus << 16 | self.record.device, 0, 0, number))
        return self.number

    def receive(self):
        """The next answer that comes."""
        head = self.wire.take(HEAD)
        command, number, _, _, _, status, actual, _, count, _ = struct.unpack_from(">IIIIIiiiii", head)
        if number not in self.waiting or command not in (SUBMITTED, UNLINKED):
            raise ProtocolError(f"the server answers what wasn't asked (command {command}, number {number})")
        address = self.waiting.pop(number)
        if command == UNLINKED:
            return Answer(number, None, status, b"", [])
        data = self.wire.take(actual) if address & 0x80 and actual > 0 else b""
        packets = []
        if count > 0 and address & 15:
            packets = [(size, told, state) for _, size, told, state in struct.iter_unpack(">IIIi", self.wire.take(16 * count))]
        return Answer(number, address, status, data, packets, max(actual, 0))

    def wait(self):
        """The next answer, in the order in which they came."""
        return self.kept.popleft() if self.kept else self.receive()

    def wait_for(self, number):
        """The answer to this one; those that come before it are kept."""
        while True:
            answer = self.receive()
            if answer.number == number:
                return answer
            self.kept.append(answer)

    def control(self, setup, sent=b""):
        """A control transfer: its status, and what came back."""
        setup = bytes.fromhex(setup) if isinstance(setup, str) else setup
        is_in = setup[0] & 0x80
        number = self.submit(is_in, sent, None, setup, int.from_bytes(setup[6:8], "little") if is_in else len(sent))
        answer = self.wait_for(number)
        return answer.status, answer.data

    def close(self):
        self.wire.close()
