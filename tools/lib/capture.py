"""What went over a captured bus: pcap files of usbmon (link type 220) and of USBPcap (249), either packed by gzip, pcapng through tshark,
and usbmon's text form.

Told are control transfers, interrupt messages, and bursts of isochronous packets as the host's driver hands them in, each when it ended;
and, as notes, what of it the capture doesn't hold."""
import re, shutil, struct, subprocess, zlib
from tool import Refused

# The bytes of a transfer that usbmon's text form keeps at most, and the packets of a burst.
KEPT_IN_TEXT = 32
PACKETS_IN_TEXT = 5
# More packets than a host hands in at once: a larger number is no number of packets.
MOST_PACKETS = 4096
STALLED = -32
# The device sent more than was asked for.
OVERFLOWED = -75
# The states in which the host itself took a transfer back: unlinked, or the device gone.
TAKEN_BACK = (-2, -104, -108)
MAGICS = {b"\xd4\xc3\xb2\xa1": "<", b"\x4d\x3c\xb2\xa1": "<", b"\xa1\xb2\xc3\xd4": ">", b"\xa1\xb2\x3c\x4d": ">"}
USBMON, USBPCAP = 220, 249
WANTED = "a pcap or pcapng file, or usbmon's text, is wanted"


class Transfer:
    """A control transfer: bus and device, the eight setup bytes, what was sent, what was answered, and the status (0 where it is done)."""

    def __init__(self, device, setup, sent):
        self.device, self.setup, self.sent = device, setup, sent
        self.answered, self.status, self.wanted = b"", None, None

    @property
    def is_read(self):
        return bool(self.setup[0] & 0x80)

    @property
    def is_whole(self):
        return self.wanted is None or len(self.answered) >= self.wanted

    @property
    def is_taken_back(self):
        return self.status in TAKEN_BACK


class Message:
    """What came over an interrupt endpoint."""

    def __init__(self, device, endpoint, data):
        self.device, self.endpoint, self.data = device, endpoint, data


class Burst:
    """Isochronous packets of an endpoint: when they ended (microseconds), the place of the first (None where it isn't told), for each
    a status and a length (None where they aren't told), and how many of all failed.
    `sizes` are the lengths that the host handed in, `handed` is the number of events before that (None where that wasn't captured), and
    `reports` are the bytes of packets from the device, None where they aren't kept."""

    def __init__(self, device, endpoint, status, ended, start, packets, failed):
        self.device, self.endpoint, self.status, self.ended = device, endpoint, status, ended
        self.start, self.packets, self.failed = start, packets, failed
        self.sizes, self.handed, self.reports, self.turn = None, None, [None] * len(packets), 0

    def keep_data(self, data, places):
        """Takes the bytes of packets from the device, which stand at these places."""
        for number, (at, (_, length)) in enumerate(zip(places, self.packets)):
            if length is not None and at + length <= len(data):
                self.reports[number] = data[at:at + length]


class Assembly:
    """Puts the records of a capture together: what was handed in, and what came back of it."""

    def __init__(self):
        self.events, self.notes, self.waiting, self.handed, self.missing, self.names = [], [], {}, {}, {}, set()
        # Whether places of bursts count frames of a millisecond, whatever the device's speed is.
        self.counts_frames = False

    def ask(self, name, transfer):
        self.waiting[name] = transfer

    def end(self, name, status):
        """The control transfer that ended, None where its begin wasn't captured."""
        done = self.waiting.pop(name, None)
        if done is not None:
            done.status = status
            self.events.append(done)
        return done

    def miss(self, device):
        self.missing[device] = self.missing.get(device, 0) + 1

    def hand_in(self, name, device, sizes):
        """A burst that the host handed in, with the lengths of its packets."""
        if name in self.handed:
            self.miss(device)
        self.handed[name] = sizes, len(self.events)
        self.names.add((device, name))

    def take(self, name, burst):
        """A burst that came back. Of one whose name was never handed in the capture had begun later, or it keeps no submissions."""
        if name in self.handed:
            sizes, burst.handed = self.handed.pop(name)
            burst.sizes = sizes if len(sizes) == len(burst.packets) else None
        elif (burst.device, name) in self.names:
            self.miss(burst.device)
        burst.turn = len(self.events)
        self.events.append(burst)

    def tell(self, message):
        if message.data:
            self.events.append(message)


# ---- usbmon's text


def packets_of_text(words):
    """The packets of a burst in usbmon's text: status and length, and the place of each that is told; and the words after them."""
    count = min(int(words[5]), MOST_PACKETS)
    told = [tuple(int(part) for part in word.split(":")) for word in words[6:6 + min(count, PACKETS_IN_TEXT)]]
    packets = [(status, length) for status, _, length in told] + [(None, None)] * (count - len(told))
    return packets, [place for _, place, _ in told], words[6 + len(told):]


def take_burst_of_text(assembly, words, device, endpoint):
    """A line of usbmon's text on packets: 'status:interval:start:failed', their number, up to five of them, and the bytes."""
    packets, places, rest = packets_of_text(words)
    if words[2] == "S":
        assembly.hand_in(words[0], device, [length for _, length in packets])
        return
    codes = [int(code) for code in words[4].split(":")]
    start, failed = codes[2] if len(codes) > 2 else None, codes[3] if len(codes) > 3 else 0
    burst = Burst(device, endpoint, codes[0], int(words[1]), start, packets, failed)
    if endpoint & 0x80 and rest[1:2] == ["="]:
        burst.keep_data(bytes.fromhex("".join(rest[2:])), places)
    assembly.take(words[0], burst)


def take_control_of_text(assembly, words, device):
    if words[2] == "S" and words[4] == "s" and len(words) >= 11:
        setup = struct.pack("<BBHHH", *[int(word, 16) for word in words[5:10]])
        assembly.ask(words[0], Transfer(device, setup, bytes.fromhex("".join(words[12:])) if words[11:12] == ["="] else b""))
    elif words[2] == "C":
        done = assembly.end(words[0], int(words[4].split(":")[0]))
        if done is not None:
            done.wanted = int(words[5]) if done.is_read else None
            done.answered = bytes.fromhex("".join(words[7:])) if words[6:7] == ["="] and done.is_read else b""


def of_text(text, assembly):
    """usbmon's text form: a line for each submission and each completion, told by its first word."""
    if not text.endswith("\n"):
        front, _, last = text.rpartition("\n")
        assembly.notes.append(f"the capture ends within a line: its last {len(last)} bytes are left out")
        text = front
    for line in text.splitlines():
        words = line.split()
        if len(words) < 5 or not re.match(r"[CZI][io]:", words[3]):
            continue
        kind, bus, device, endpoint = words[3].split(":")[:4]
        device, endpoint = (int(bus), int(device)), int(endpoint) | (0x80 if kind[1] == "i" else 0)
        if kind[0] == "C":
            take_control_of_text(assembly, words, device)
        elif kind[0] == "Z" and len(words) > 5:
            take_burst_of_text(assembly, words, device, endpoint)
        elif kind == "Ii" and words[2] == "C" and words[6:7] == ["="]:
            assembly.tell(Message(device, endpoint, bytes.fromhex("".join(words[7:]))))


# ---- pcap


def records_of(data, assembly):
    """The link type of a pcap file, the order of its bytes, and the time (microseconds) and bytes of each record; a record that is cut is
    left out and said."""
    if len(data) < 24:
        raise Refused(f"the capture ends within its own head: {WANTED}")
    order, found, at = MAGICS[data[:4]], [], 24
    is_fine = data[:4] in (b"\x4d\x3c\xb2\xa1", b"\xa1\xb2\x3c\x4d")
    while at < len(data):
        seconds, part, size = struct.unpack(order + "III", data[at:at + 12]) if at + 16 <= len(data) else (0, 0, len(data))
        if at + 16 + size > len(data):
            assembly.notes.append(f"the capture ends within a record: its last {len(data) - at} bytes are left out")
            break
        found.append((seconds * 1000000 + (part // 1000 if is_fine else part), data[at + 16:at + 16 + size]))
        at += 16 + size
    return struct.unpack(order + "I", data[20:24])[0], order, found


def packets_of_usbmon(order, packet):
    """The packets of a burst: their number stands in the head, and 16 bytes for each after it; their places, and the bytes after them."""
    count, told = struct.unpack(order + "i", packet[44:48])[0], struct.unpack(order + "I", packet[60:64])[0]
    packets, places, end = [], [], min(64 + 16 * told, len(packet) - (len(packet) - 64) % 16)
    for at in range(64, end, 16):
        state, place, length = struct.unpack(order + "iII", packet[at:at + 12])
        packets.append((state, length))
        places.append(place)
    packets += [(None, None)] * (min(count, MOST_PACKETS) - len(packets))
    return packets, places, packet[64 + 16 * told:]


def take_burst_of_usbmon(assembly, order, packet, device):
    name, endpoint = packet[:8], packet[10]
    packets, places, data = packets_of_usbmon(order, packet)
    if packet[8] == ord("S"):
        assembly.hand_in(name, device, [length for _, length in packets])
        return
    seconds, part, status = struct.unpack(order + "qii", packet[16:32])
    failed, start = struct.unpack(order + "i8xi", packet[40:56])
    burst = Burst(device, endpoint, status, seconds * 1000000 + part, start, packets, failed)
    if endpoint & 0x80:
        burst.keep_data(data, places)
    assembly.take(name, burst)


def take_control_of_usbmon(assembly, order, packet, device):
    status, length, kept = struct.unpack(order + "iII", packet[28:40])
    if packet[8] == ord("S") and packet[14] == 0:
        assembly.ask(packet[:8], Transfer(device, packet[40:48], packet[64:64 + kept] if not packet[40] & 0x80 else b""))
    elif packet[8] == ord("C"):
        done = assembly.end(packet[:8], status)
        if done is not None and done.is_read:
            done.answered, done.wanted = packet[64:64 + kept], length


def of_usbmon(records, order, assembly):
    """usbmon's own header of 64 bytes, in the order of the machine that captured it, and the data after it."""
    for _, packet in records:
        if len(packet) < 64 or chr(packet[8]) not in "SC":
            continue
        device = (struct.unpack(order + "H", packet[12:14])[0], packet[11])
        if packet[9] == 0:
            take_burst_of_usbmon(assembly, order, packet, device)
        elif packet[9] == 2:
            take_control_of_usbmon(assembly, order, packet, device)
        elif packet[9] == 1 and packet[10] & 0x80 and packet[8] == ord("C"):
            assembly.tell(Message(device, packet[10], packet[64:64 + struct.unpack(order + "I", packet[36:40])[0]]))


def of_pcap(data, assembly):
    from usbpcap import of_usbpcap
    link, order, records = records_of(data, assembly)
    if link == USBMON:
        of_usbmon(records, order, assembly)
    elif link == USBPCAP:
        of_usbpcap(records, assembly)
    else:
        raise Refused(f"the capture has link type {link}: one of USB is wanted ({USBMON}, usbmon under Linux, or {USBPCAP}, USBPcap under "
                      "Windows)")


# ---- any capture


def unpacked(data, assembly):
    """The bytes in a gzip file; of one that is cut the front, which is said."""
    reader = zlib.decompressobj(31)
    try:
        whole = reader.decompress(data) + reader.flush()
    except zlib.error as why:
        raise Refused(f"the capture can't be unpacked ({why})")
    if not reader.eof:
        assembly.notes.append("the gzip file is cut: what could be unpacked is taken")
    return whole


def as_pcap(name, data):
    """A pcapng file as pcap, by tshark."""
    if shutil.which("tshark") is None:
        raise Refused("a pcapng file is read through tshark: install Debian's package tshark (apt-get install tshark)")
    done = subprocess.run(["tshark", "-r", "-", "-F", "pcap", "-w", "-"], input=data, stdout=subprocess.PIPE, stderr=subprocess.PIPE)
    if done.returncode:
        raise Refused(f"tshark can't read {name}: {(done.stderr.decode(errors='replace').strip().splitlines() or ['it says nothing'])[-1]}")
    return done.stdout


def read_capture(name, data):
    """The control transfers, messages and bursts of a capture, in the order in which they ended, and what is said of it."""
    assembly = Assembly()
    if data[:2] == b"\x1f\x8b":
        data = unpacked(data, assembly)
    if data[:4] == b"\x0a\x0d\x0d\x0a":
        data = as_pcap(name, data)
    if data[:4] in MAGICS:
        of_pcap(data, assembly)
    else:
        try:
            of_text(data.decode("ascii"), assembly)
        except (UnicodeDecodeError, ValueError, IndexError, struct.error):
            raise Refused(f"{name} is no capture: {WANTED}")
    if not any(isinstance(one, Transfer) for one in assembly.events):
        raise Refused(f"{name} holds no control transfer of a USB bus: {WANTED}")
    return assembly
