"""Linux's usbfs: its calls and records, as linux/usbdevice_fs.h has them, and a kernel that takes them.

A transfer's record stays where it is until it is taken back, since the kernel keeps its address."""
import ctypes, os, select

NONE, WRITE, READ = 0, 1, 2


def code(direction, number, size=0):
    """The number of a call of usbfs, whose letter is U."""
    return direction << 30 | size << 16 | ord("U") << 8 | number


class SetInterface(ctypes.Structure):
    _fields_ = [("interface", ctypes.c_uint), ("setting", ctypes.c_uint)]


class GetDriver(ctypes.Structure):
    _fields_ = [("interface", ctypes.c_uint), ("driver", ctypes.c_char * 256)]


class OfInterface(ctypes.Structure):
    """A call to the driver of an interface."""
    _fields_ = [("interface", ctypes.c_int), ("code", ctypes.c_int), ("data", ctypes.c_void_p)]


class PacketRecord(ctypes.Structure):
    _fields_ = [("length", ctypes.c_uint), ("actual", ctypes.c_uint), ("status", ctypes.c_uint)]


class TransferRecord(ctypes.Structure):
    """A transfer without packets; those of an isochronous one follow it."""
    _fields_ = [("type", ctypes.c_ubyte), ("endpoint", ctypes.c_ubyte), ("status", ctypes.c_int), ("flags", ctypes.c_uint),
                ("buffer", ctypes.c_void_p), ("buffer_length", ctypes.c_int), ("actual", ctypes.c_int), ("start_frame", ctypes.c_int),
                ("packets", ctypes.c_int), ("errors", ctypes.c_int), ("signal", ctypes.c_uint), ("context", ctypes.c_void_p)]


SETINTERFACE = code(READ, 4, ctypes.sizeof(SetInterface))
GETDRIVER = code(WRITE, 8, ctypes.sizeof(GetDriver))
SUBMITURB = code(READ, 10, ctypes.sizeof(TransferRecord))
DISCARDURB = code(NONE, 11)
REAPURBNDELAY = code(WRITE, 13, ctypes.sizeof(ctypes.c_void_p))
CLAIMINTERFACE = code(READ, 15, ctypes.sizeof(ctypes.c_uint))
RELEASEINTERFACE = code(READ, 16, ctypes.sizeof(ctypes.c_uint))
IOCTL = code(READ | WRITE, 18, ctypes.sizeof(OfInterface))
DISCONNECT = code(NONE, 22)
CONNECT = code(NONE, 23)
# The types of transfers, and that packets begin as soon as they can.
ISOCHRONOUS, INTERRUPT, CONTROL = 0, 1, 2
AS_SOON = 2


class Kernel:
    """The kernel itself. What it refuses is an OSError."""

    def __init__(self):
        self.library = ctypes.CDLL(None, use_errno=True)

    def open(self, path):
        return os.open(path, os.O_RDWR | os.O_CLOEXEC)

    def close(self, file):
        os.close(file)

    def call(self, file, number, record=None):
        """A call with a record, whose address is handed over."""
        done = self.library.ioctl(file, ctypes.c_ulong(number), None if record is None else ctypes.byref(record))
        if done < 0:
            raise OSError(ctypes.get_errno(), os.strerror(ctypes.get_errno()))
        return done

    def wait(self, file, seconds):
        """Waits until a transfer ended, or the device is gone."""
        waiting = select.poll()
        waiting.register(file, select.POLLOUT)
        waiting.poll(max(0, seconds) * 1000)


class Urb:
    """A transfer: its bytes, and its record with those of its packets, in one piece."""

    def __init__(self, kind, endpoint, data, lengths=()):
        self.endpoint, self.lengths = endpoint, lengths
        self.buffer = ctypes.create_string_buffer(bytes(data), max(len(data), 1))

        class Record(ctypes.Structure):
            _fields_ = [("head", TransferRecord), ("packet", PacketRecord * len(lengths))]
        self.record = Record()
        head = self.record.head
        head.type, head.endpoint, head.buffer_length, head.packets = kind, endpoint, len(data), len(lengths)
        head.flags = AS_SOON if kind == ISOCHRONOUS else 0
        head.buffer = ctypes.addressof(self.buffer)
        for packet, length in zip(self.record.packet, lengths):
            packet.length = length

    @property
    def address(self):
        return ctypes.addressof(self.record)

    @property
    def status(self):
        return self.record.head.status

    @property
    def passed(self):
        return self.record.head.actual

    def data(self, begin=0):
        """What came, from this place of the buffer on."""
        return self.buffer.raw[begin:begin + self.passed]

    def packets(self):
        """The state of each packet, and how many bytes it has."""
        return [(ctypes.c_int(one.status).value, one.actual) for one in self.record.packet]

    def packet_bytes(self):
        """What came in packets, one after the other; each has its place by the length that was asked."""
        places = [sum(self.lengths[:at]) for at in range(len(self.lengths))]
        return b"".join(self.buffer.raw[place:place + one.actual] for place, one in zip(places, self.record.packet))
