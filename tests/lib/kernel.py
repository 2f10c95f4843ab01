"""A kernel of the tests' own in place of Linux's usbfs: a device with the proved program behind it, and drivers that have its interfaces.

It keeps the calls in their order, refuses what Linux refuses, and can break: rights, claims, a driver that doesn't come back, a device that
falls silent or goes away, a bus without bandwidth."""
import ctypes, errno, os, shutil, signal, struct, time
import usbfs
from descriptor import cut
from device import Device
from proved import Proved

AUDIO = "snd-usb-audio"


def folder_of(root, name, data, speed="480"):
    """A device's folder as sysfs has it."""
    folder = os.path.join(root, name)
    os.makedirs(folder)
    texts = {"speed": speed, "busnum": "1", "devnum": "5", "bConfigurationValue": str(data[23]), "idVendor": f"{data[9]:02x}{data[8]:02x}",
             "idProduct": f"{data[11]:02x}{data[10]:02x}", "manufacturer": "Some", "product": "Thing"}
    for file, text in texts.items():
        with open(os.path.join(folder, file), "w", encoding="ascii") as out:
            out.write(text + "\n")
    with open(os.path.join(folder, "descriptors"), "wb") as out:
        out.write(data)


def resized(data, sizes):
    """A device with other sizes of its endpoints' packets."""
    data = bytearray(data)
    for block in cut(bytes(data[18:]))[0]:
        if block.kind == "endpoint" and block["address"] in sizes:
            data[18 + block.place + 4:18 + block.place + 6] = sizes[block["address"]].to_bytes(2, "little")
    return bytes(data)


class FakeKernel:
    """`breaks` names what goes wrong: rights, busy, lost (the driver doesn't come back), bandwidth; `at` is the request at which the
    device goes, falls silent, or Ctrl-C comes, and of 'late' the SET after which it comes, once the device did it. `knob` has a request
    after whose answer somebody turns a knob, the SET that this is, and the message. `folder` is the device's of sysfs, and `sizes` are
    other sizes of its endpoints than those that the program has, by their addresses."""

    def __init__(self, path, breaks=None, at=None, before=(), knob=None, folder=None, speed="480", sizes=None):
        with open(path, "rb") as file:
            data = file.read()
        self.proved, data = Proved(data[18:]), resized(data, sizes or {})
        self.device, self.configuration, self.folder, self.is_full = Device(path, data, "1-2", 1), data[18:], folder, speed == "12"
        self.breaks, self.at, self.requests, self.knob, self.listening, self.done_sets = breaks, at, 0, knob, None, 0
        self.rooms = {block["address"]: block["max_packet"] & 0x7FF for block in cut(data[18:])[0] if block.kind == "endpoint"}
        self.reports = {form.feedback for form in self.device.formats.values()}
        self.drivers = {number: "usbhid" if code[0] == 3 else AUDIO for number, code in self.device.codes.items()}
        self.had, self.claimed, self.calls, self.done, self.sets = dict(self.drivers), set(), [], [], []
        for line in before:
            setup, sent = (bytes.fromhex(word) for word in line.split(" "))
            assert self.proved.ask(setup, sent) == "done", line

    def refuse(self, number):
        raise OSError(number, os.strerror(number))

    def open(self, path):
        self.calls.append(("open", path))
        if self.breaks == "rights":
            self.refuse(errno.EACCES)
        return 7

    def close(self, file):
        self.calls.append(("close", file))

    def call(self, file, number, record=None):
        name = next(name for name in ("SETINTERFACE", "GETDRIVER", "SUBMITURB", "DISCARDURB", "REAPURBNDELAY", "CLAIMINTERFACE",
                                      "RELEASEINTERFACE", "IOCTL") if getattr(usbfs, name) == number)
        return getattr(self, name.lower())(record) or 0

    def wait(self, file, seconds):
        time.sleep(min(max(seconds, 0), 0.2) if not self.done else 0)

    # ---- drivers

    def getdriver(self, record):
        driver = self.drivers.get(record.interface)
        if driver is None:
            self.refuse(errno.ENODATA)
        record.driver = driver.encode()

    def ioctl(self, record):
        if record.code == usbfs.DISCONNECT:
            self.calls.append(("disconnect", record.interface))
            if self.drivers.get(record.interface) in (None, "usbfs"):
                self.refuse(errno.ENODATA)
            self.drivers[record.interface] = None
        else:
            assert record.code == usbfs.CONNECT, record.code
            self.calls.append(("connect", record.interface))
            self.connect(record.interface)
        return 1

    def connect(self, interface):
        """Linux's audio driver takes all interfaces of its function with the first, unless an older card of it is still there."""
        if self.drivers.get(interface) is not None:
            self.refuse(errno.EBUSY)
        if self.breaks == "lost" or self.breaks == "gone" or AUDIO in self.drivers.values() and interface == self.device.control:
            return
        for number in self.drivers:
            if self.had[number] == AUDIO and self.drivers[number] is None:
                self.drivers[number] = AUDIO

    def claiminterface(self, record):
        self.calls.append(("claim", record.value))
        if self.drivers.get(record.value) is not None or self.breaks == "busy" and record.value == 1:
            self.refuse(errno.EBUSY)
        self.drivers[record.value] = "usbfs"
        self.claimed.add(record.value)

    def releaseinterface(self, record):
        self.calls.append(("release", record.value))
        self.claimed.discard(record.value)
        self.drivers[record.value] = None

    # ---- transfers

    def setinterface(self, record):
        assert record.interface in self.claimed
        self.count()
        self.sets.append((bytes([1, 11, record.setting, 0, record.interface, 0, 0, 0]), b""))
        if self.proved.ask(*self.sets[-1]) != "done":
            self.refuse(errno.EPIPE)

    def count(self):
        """One more request: the one at which something breaks does so now."""
        self.requests += 1
        if self.is_gone:
            shutil.rmtree(self.folder, ignore_errors=True)
            self.refuse(errno.ENODEV)
        if self.requests == self.at and self.breaks == "ctrl-c":
            os.kill(os.getpid(), signal.SIGINT)

    @property
    def is_gone(self):
        return self.breaks == "gone" and self.at is not None and self.requests >= self.at

    def submiturb(self, record):
        head = record.head
        data = ctypes.string_at(head.buffer, head.buffer_length)
        if head.type == usbfs.CONTROL:
            self.control(record, data[:8], data[8:])
        elif head.type == usbfs.ISOCHRONOUS:
            self.isochronous(record)
        else:
            self.listening = record

    def control(self, record, setup, data):
        head, is_in, length = record.head, bool(setup[0] & 0x80), struct.unpack("<H", setup[6:])[0]
        assert head.endpoint == 0 and len(data) == length, (head.endpoint, setup)
        if setup[0] & 0x1F == 1 and setup[4] not in self.claimed:
            assert setup[4] not in self.drivers, f"{setup.hex()} asks an interface that wasn't claimed"
            self.refuse(errno.ENOENT)
        self.count()
        if self.breaks == "silent" and self.at is not None and self.requests >= self.at:
            return
        status, answer = self.answer(setup, data if not is_in else b"")
        ctypes.memmove(head.buffer + 8, answer, len(answer))
        head.status, head.actual = status, len(answer) if is_in else length if status == 0 else 0
        self.done.append(record)
        if self.knob is not None and setup == bytes.fromhex(self.knob[0]):
            self.turn(*self.knob[1:])
        self.done_sets += setup[:2] == b"\x21\x01" and status == 0
        if self.breaks == "late" and self.done_sets == self.at:
            self.breaks = None
            os.kill(os.getpid(), signal.SIGINT)

    def turn(self, line, message):
        """Somebody turns a knob of the device, which tells it by an interrupt message, where it tells."""
        setup, sent = (bytes.fromhex(word) for word in line.split(" "))
        assert self.proved.ask(setup, sent) == "done", line
        self.knob = None
        if message is not None:
            head = self.listening.head
            ctypes.memmove(head.buffer, bytes.fromhex(message), len(message) // 2)
            head.status, head.actual = 0, len(message) // 2
            self.done.append(self.listening)

    def answer(self, setup, sent):
        """The program's answer, or the device's own of enumeration."""
        if not setup[0] & 0x80:
            self.sets.append((setup, sent))
        if setup[:4] == b"\x80\x06\0\2":
            return 0, self.configuration[:int.from_bytes(setup[6:8], "little")]
        if not self.device.is_for_program(setup):
            found, _ = self.device.enumerate(setup, True)
            return (-errno.EPIPE, b"") if found is None else (0, found)
        words = self.proved.ask(setup, sent).split(" ")
        return -errno.EPIPE if words[0] == "stall" else 0, bytes.fromhex(words[1]) if words[0] == "bytes" and words[1] != "-" else b""

    def isochronous(self, record):
        """Packets of six frames a microframe, or 48 a frame: reports and packets from the device are made here."""
        place, head = 0, record.head
        if any(packet.length > self.rooms[head.endpoint] for packet in record.packet):
            self.refuse(errno.EMSGSIZE)
        if self.breaks == "bandwidth":
            self.refuse(errno.ENOSPC)
        report, frames = ((48 << 14).to_bytes(3, "little"), bytes(96)) if self.is_full else ((6 << 16).to_bytes(4, "little"), bytes(12))
        for packet in record.packet:
            piece = b"" if not head.endpoint & 0x80 else report if head.endpoint in self.reports else frames
            ctypes.memmove(head.buffer + place, piece, len(piece))
            packet.actual, packet.status = len(piece) if head.endpoint & 0x80 else packet.length, 0
            place += packet.length
        head.status, head.actual = 0, sum(packet.actual for packet in record.packet)
        self.done.append(record)

    def reapurbndelay(self, place):
        if self.is_gone:
            self.refuse(errno.ENODEV)
        if not self.done:
            self.refuse(errno.EAGAIN)
        place.value = ctypes.addressof(self.done.pop(0))

    def discardurb(self, record):
        record.head.status = -errno.ENOENT
        self.done.append(record)

    def ask(self, setup, sent=""):
        """What the device would answer now."""
        return self.proved.ask(bytes.fromhex(setup), bytes.fromhex(sent))

    def end(self):
        self.proved.close()
