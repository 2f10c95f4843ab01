"""A wrapper of tools/serve that breaks one thing of a device: it stands between a host and the server, hands all messages on, and changes
one kind of answer. Each fault says what a probe has to find."""
import select, socket, struct, threading
from usbip import HEAD, IMPORT, LIST, RECORD, REQUEST, STALLED, SUBMIT, SUBMITTED

PROFILE, STANDARD, CONTRADICTS = "profile", "standard", "contradicts itself"


class Fault:
    """What is broken. `wanted` are kind, rule and field of the one finding; `device` and `words` are the device and the probe's words,
    and `why` is what it says where it can't ask everything."""
    words, device, status, why = (), "speaker", 1, ""

    def __init__(self, name, *wanted, **more):
        self.name, self.wanted = name, wanted
        self.__dict__.update(more)

    def answer(self, setup, sent, status, data):
        """The state and bytes of an answer in place of these; None where the host gets none."""
        return status, data

    def packets(self, address, data, packets):
        """The bytes and packets (place, room, length, state) of an isochronous transfer in place of these."""
        return data, packets


class Gives(Fault):
    """A request gets these bytes, or a stall where there are none, from the time on at which it came so often."""

    def __init__(self, name, setup, data, *wanted, since=1, times=1 << 30, **more):
        super().__init__(name, *wanted, **more)
        self.setup, self.data, self.since, self.times, self.count = bytes.fromhex(setup), data, since, times, 0

    def answer(self, setup, sent, status, data):
        if not setup.startswith(self.setup):
            return status, data
        self.count += 1
        if not self.since <= self.count < self.since + self.times:
            return status, data
        return (STALLED, b"") if self.data is None else (0, self.data(data) if callable(self.data) else bytes.fromhex(self.data))


class Takes(Fault):
    """A SET that is stalled is done, and its control then has that value, until it is set to another."""

    def __init__(self, name, setup, sent, *wanted, holds=True, **more):
        super().__init__(name, *wanted, **more)
        self.setup, self.sent, self.holds, self.held = bytes.fromhex(setup), sent and bytes.fromhex(sent), holds, None

    def answer(self, setup, sent, status, data):
        is_other = setup[2:6] != self.setup[2:6]
        if is_other:
            return status, data
        if setup[:2] == b"\x21\x01":
            self.held = None if status == 0 else self.held
            if status == STALLED and setup.startswith(self.setup) and self.sent in (None, sent):
                self.held = sent if self.holds else None
                return 0, b""
        elif setup[:2] == b"\xa1\x01" and self.held is not None and status == 0:
            return status, self.held[:int.from_bytes(setup[6:8], "little")]
        return status, data


class TakesSetting(Fault):
    """A setting that is stalled is taken; the interface tells it until another is chosen, where it holds."""

    def __init__(self, name, interface, setting, *wanted, holds=False, **more):
        super().__init__(name, *wanted, **more)
        self.interface, self.setting, self.holds, self.held = interface, setting, holds, None

    def answer(self, setup, sent, status, data):
        if setup[:2] == b"\x01\x0b" and setup[4] == self.interface:
            self.held = None
            if setup[2] == self.setting and status == STALLED:
                self.held = self.setting if self.holds else None
                return 0, b""
        if setup[:2] == b"\x81\x0a" and setup[4] == self.interface and self.held is not None:
            return 0, bytes([self.held])
        return status, data


class Hangs(Fault):
    """Nothing is answered any more after the first bad request, or only one request isn't."""

    def __init__(self, name, setup, *wanted, is_for_good=True, **more):
        super().__init__(name, *wanted, **more)
        self.setup, self.is_for_good, self.has_hung = setup and bytes.fromhex(setup), is_for_good, False

    def answer(self, setup, sent, status, data):
        if self.has_hung and self.is_for_good:
            return None
        is_one = status == STALLED and setup[0] in (0x21, 0xA1) if self.setup is None else setup.startswith(self.setup)
        if is_one and not self.has_hung:
            self.has_hung = True
            return (status, data) if self.setup is None else None
        return status, data


class Packets(Fault):
    """One packet, or report, of an endpoint is cut to so many bytes."""

    def __init__(self, name, address, length, *wanted, number=20, **more):
        super().__init__(name, *wanted, **more)
        self.address, self.length, self.number, self.count = address, length, number, 0

    def packets(self, address, data, packets):
        if address != self.address:
            return data, packets
        pieces, found, at = [], [], 0
        for place, room, length, state in packets:
            piece, at = data[at:at + length], at + length
            self.count += length > 0
            if self.count == self.number and length > 0:
                self.count, piece = self.count + 1, piece[:self.length]
            pieces.append(piece)
            found.append((place, room, len(piece), state))
        return b"".join(pieces), found


class Leaves(Fault):
    """The connection ends after so many answers."""

    def __init__(self, name, count, **more):
        super().__init__(name, **more)
        self.left = count

    def answer(self, setup, sent, status, data):
        self.left -= 1
        if self.left < 0:
            raise ConnectionError
        return status, data


class Stream:
    """One side's bytes, taken by whole messages."""

    def __init__(self, connection):
        self.socket, self.read = connection, bytearray()

    def fileno(self):
        return self.socket.fileno()

    def receive(self):
        piece = self.socket.recv(1 << 16)
        if not piece:
            raise ConnectionError
        self.read += piece

    def take(self, count):
        while len(self.read) < count:
            self.receive()
        piece = bytes(self.read[:count])
        del self.read[:count]
        return piece


class Breaker:
    """Listens on a free port, and hands each connection on to the server with one fault."""

    def __init__(self, port, fault):
        self.server_port, self.fault, self.asked = port, fault, {}
        self.listener = socket.create_server(("127.0.0.1", 0))
        self.port = self.listener.getsockname()[1]
        threading.Thread(target=self.serve, daemon=True).start()

    def serve(self):
        while True:
            try:
                connection, _ = self.listener.accept()
            except OSError:
                return
            with connection, socket.create_connection(("127.0.0.1", self.server_port)) as other:
                for one in (connection, other):
                    one.setsockopt(socket.IPPROTO_TCP, socket.TCP_NODELAY, 1)
                self.sides = Stream(connection), Stream(other)
                try:
                    self.begin()
                    self.hand_on()
                except (ConnectionError, OSError):
                    pass

    def begin(self):
        """What a host asks before it has a device."""
        host, server = self.sides
        while True:
            head = host.take(8)
            code = struct.unpack(">HHI", head)[1]
            server.socket.sendall(head + (host.take(32) if code == REQUEST | IMPORT else b""))
            answer = server.take(8)
            status = struct.unpack(">HHI", answer)[2]
            if code == REQUEST | LIST:
                count = server.take(4)
                records = b""
                for _ in range(struct.unpack(">I", count)[0]):
                    record = server.take(RECORD)
                    records += record + server.take(4 * record[-1])
                host.socket.sendall(answer + count + records)
            else:
                host.socket.sendall(answer + (server.take(RECORD) if status == 0 else b""))
                if status == 0:
                    return

    def hand_on(self):
        host, server = self.sides
        while True:
            for side in select.select([host, server], [], [])[0]:
                side.receive()
            while len(host.read) >= HEAD and self.ask(host, server):
                pass
            while len(server.read) >= HEAD:
                self.answer(host, server)

    def ask(self, host, server):
        """A message of the host, which is handed on as it is; whether it was whole."""
        command, number, _, direction, endpoint = struct.unpack_from(">IIIII", host.read)
        length, _, count = struct.unpack_from(">iiI", host.read, 24)
        size = HEAD
        if command == SUBMIT:
            size += (0 if direction else length) + (16 * count if count != 0xFFFFFFFF and endpoint else 0)
        if len(host.read) < size:
            return False
        message = host.take(size)
        if command == SUBMIT:
            sent = b"" if direction else message[HEAD:HEAD + length]
            self.asked[number] = endpoint | (0x80 if direction else 0), message[40:48], sent
        server.socket.sendall(message)
        return True

    def answer(self, host, server):
        """A message of the server, changed where the fault says so."""
        head = server.take(HEAD)
        command, number, *_ = struct.unpack_from(">IIIII", head)
        if command != SUBMITTED:
            host.socket.sendall(head)
            return
        status, actual, start, count, errors = struct.unpack_from(">iiiii", head, 20)
        address, setup, sent = self.asked.pop(number)
        data = server.take(actual) if address & 0x80 and actual > 0 else b""
        packets = list(struct.iter_unpack(">IIIi", server.take(16 * count))) if count > 0 and address & 15 else []
        if not address & 15:
            told = self.fault.answer(setup, sent, status, data)
            if told is None:
                return
            status, data = told
            actual = len(data) if setup[0] & 0x80 else actual
        elif packets:
            data, packets = self.fault.packets(address, data, packets)
            actual = sum(packet[2] for packet in packets)
        host.socket.sendall(struct.pack(">IIIIIiiiii8x", command, number, 0, 0, 0, status, actual, start, count, errors) + data
                            + b"".join(struct.pack(">IIIi", *packet) for packet in packets))

    def close(self):
        self.listener.close()
