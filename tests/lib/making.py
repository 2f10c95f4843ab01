"""Captures that are made in tests: records of usbmon's binary form in a pcap file, of device 5 on bus 1, and files that are changed."""
import struct
from tooling import example


def pcap(packets, link=220):
    head = struct.pack("<IHHiIII", 0xA1B2C3D4, 2, 4, 0, 0, 262144, link)
    return head + b"".join(struct.pack("<IIII", 0, 0, len(packet), len(packet)) + packet for packet in packets)


def head(name, kind, transfer, endpoint, at, status, length, data, middle, start=0, told=0):
    """usbmon's head of 64 bytes, of device 5 on bus 1."""
    front = struct.pack("<QBBBBHbbqiiII", name, ord(kind), transfer, endpoint, 5, 1, 0 if kind == "S" else 45, 0, at // 1000000,
                        at % 1000000, status, length, len(data))
    return front + middle + struct.pack("<iiII", 1, start, 0, told) + data


def control(at, setup, data=b"", sent=b"", status=0):
    setup = bytes.fromhex(setup)
    asked = head(at, "S", 2, setup[0] & 0x80, at - 60, -115, len(sent), sent, setup)
    return [asked, head(at, "C", 2, setup[0] & 0x80, at, status, len(data) or len(sent), data, bytes(8))]


def burst(at, endpoint, start, *packets, data=b"", name=None, kind="C"):
    """Isochronous packets that came back, or were handed in: a status and a length for each."""
    told, place = b"", 0
    for status, length in packets:
        told += struct.pack("<iIII", status, place, length, 0)
        place += length
    failed = sum(status != 0 for status, _ in packets) if kind == "C" else 0
    middle = struct.pack("<ii", failed, len(packets))
    return [head(at if name is None else name, kind, 0, endpoint, at, 0, 0, told + data, middle, start, len(packets))]


def handed(at, endpoint, start, *packets, data=b"", name=None):
    """A burst that was handed in and came back."""
    name = at if name is None else name
    asked = burst(at - 5, endpoint, start, *[(-18, length) for _, length in packets], name=name, kind="S")
    return asked + burst(at, endpoint, start, *packets, data=data, name=name)


def headset_told():
    return control(1000, "8006000200001301", example("examples/headset.bin")[18:])


def records(data):
    """The records of a pcap file as lists: the head's 16 bytes, and the record's own."""
    found, at = [], 24
    while at < len(data):
        size = struct.unpack("<I", data[at + 8:at + 12])[0]
        found.append([bytearray(data[at:at + 16]), bytearray(data[at + 16:at + 16 + size])])
        at += 16 + size
    return found


def joined(front, found):
    """A pcap file of these records."""
    for head, body in found:
        head[8:16] = struct.pack("<II", len(body), len(body))
    return front[:24] + b"".join(bytes(head + body) for head, body in found)
