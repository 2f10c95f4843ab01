"""The faults that are planted in a device, one at a time, each with the one finding that it has to make."""
import struct
from breaking import CONTRADICTS, PROFILE, STANDARD, Gives, Hangs, Packets, Takes, TakesSetting
from descriptor import cut
from serving import example

PROFILED, STREAMED = ("--profile",), ("--stream", "0.05")
# The devices that a server of these tests has, in their order.
DEVICES = ("speaker", "headset", "f_uac2-default")
# A range of the headset's volume whose first step is doubled.
OTHER_STEP = lambda data: data[:6] + b"\0\2"[:len(data[6:8])] + data[8:]


def speaker():
    """The headset without its microphone and its HID interface: a device with one stream, which is asked sooner."""
    kept, interface = [], 0
    for block in cut(example("headset")[18:])[0]:
        interface = block["number"] if block.kind == "interface" else interface
        if interface < 2 and block["id"] not in (5, 6, 7):
            kept.append(bytearray(block.data))
    entities = [piece for piece in kept if piece[1] == 0x24 and piece[2] in (1, 2, 3, 6, 10)][:5]
    kept[0][4], kept[1][3] = 2, 2
    entities[0][6:8] = struct.pack("<H", sum(map(len, entities)))
    kept[0][2:4] = struct.pack("<H", sum(map(len, kept)))
    return example("headset")[:18] + b"".join(kept)


def by_the_rules():
    """For each rule of requests, an answer where a stall is wanted. What a value, a length, a running clock or an unfit setting does is the
    device's own choice, and only other than the profile."""
    odd = "request a1 04 value 0x0100 index 0x0100"
    return [
        Gives("Q1", "a104000100010200", "0000", (STANDARD, "Q1", odd)),
        Gives("Q2", "a101000102010200", "0000", (STANDARD, "Q2", "GET CUR selector 1 channel 0 of entity 1 at interface 2")),
        Gives("Q3", "a101000100050200", "0000", (STANDARD, "Q3", "GET CUR selector 1 channel 0 of entity 5")),
        Gives("Q4", "a101000300010200", "0000", (STANDARD, "Q4", "GET CUR selector 3 channel 0 of entity 1")),
        Gives("Q5", "a10100020003", "0000", (STANDARD, "Q5", "GET CUR volume.3.0")),
        Gives("Q6", "a10103010003", "00", (STANDARD, "Q6", "GET CUR mute.3.3")),
        Takes("Q7", "210100020001", None, (STANDARD, "Q7", "SET CUR validity.1.0 1"), holds=False),
        Takes("Q8", "2101010200030300", None, (PROFILE, "Q8", "SET CUR volume.3.1 bytes 000000"), holds=False, words=PROFILED, status=3),
        Takes("Q9", "2101010200030200", "80a0", (PROFILE, "Q9", "SET CUR volume.3.1 -24448"), words=PROFILED, status=3),
        Takes("Q10", "2101000100010400", "112b0000", (PROFILE, "Q10", "SET CUR rate.1.0 11025"), words=PROFILED, status=3),
        TakesSetting("Q11", 1, 2, (STANDARD, "Q11", "SET_INTERFACE 1 setting 2")),
        TakesSetting("Q12", 2, 1, (PROFILE, "Q12", "SET_INTERFACE 2 setting 1"), holds=True, device="f_uac2-default", words=PROFILED,
                     status=3)]


def of_answers():
    """Stalls that shouldn't be, values that don't hold or lie outside, and lengths."""
    return [
        Gives("a stall of what is there", "a10100010003", None, (STANDARD, "stall", "GET CUR mute.3.0"), since=2, times=1),
        Gives("a mute that can't be set", "210100010003", None, (STANDARD, "stall", "SET CUR mute.3.0 1"), times=1),
        Gives("a range that changes", "a10201020003", OTHER_STEP, (CONTRADICTS, "other-range", "GET RANGE volume.3.1"), since=3),
        Gives("a value that is forgotten", "a10101020003", lambda data: bytes(len(data)),
              (CONTRADICTS, "other-value", "GET CUR volume.3.1")),
        Gives("a value cut short", "a10100010001", lambda data: data[:3], (STANDARD, "other-length", "GET CUR rate.1.0")),
        Gives("a value that is too long", "a101000200010100", "0101", (STANDARD, "longer-than-asked", "GET CUR validity.1.0")),
        Gives("a range without its end", "a10200010001", lambda data: data[:20], (STANDARD, "other-length", "GET RANGE rate.1.0")),
        Takes("a value out of range", "2101010200030200", "ff9f", (CONTRADICTS, "out-of-range", "GET CUR volume.3.1")),
        Takes("a mute of 2", "2101000100030100", "02", (STANDARD, "no-boolean", "GET CUR mute.3.0")),
        Gives("a setting that isn't held", "810a000001", "00", (CONTRADICTS, "other-setting", "GET_INTERFACE 1"), device="f_uac2-default"),
        Gives("a descriptor that changes", "8006000200000900", lambda data: data[:-1] + b"\x7f",
              (CONTRADICTS, "other-descriptor", "GET_DESCRIPTOR 0x0200, at most 9 bytes"), since=3, times=1)]


def of_enumeration():
    text = "GET_DESCRIPTOR string 2, at most 255 bytes"
    device = "GET_DESCRIPTOR device 0, at most 64 bytes"
    return [Gives("no string", "80060203", None, (STANDARD, "string", text)),
            Gives("a string of another length", "80060203", "06034100", (STANDARD, "string", text)),
            Gives("a device descriptor that changes", "8006000100004000", lambda data: data[:-1] + b"\2",
                  (STANDARD, "device-descriptor", device))]


def of_streams_and_silence():
    still = "GET_DESCRIPTOR 0x0200, at most 9 bytes"
    return [
        Packets("a report of three bytes", 0x81, 3, (STANDARD, "stream-report-length", "interface 1's stream to the device"),
                words=STREAMED),
        Packets("half a frame", 0x82, 11, (STANDARD, "stream-packet-not-whole", "interface 2's stream from the device"),
                words=STREAMED, device="headset"),
        Hangs("hangs after a bad request", None, (STANDARD, "no-answer", still), why="the device answers nothing any more after GET"),
        Hangs("one request isn't answered", "a10101010003", (STANDARD, "no-answer", "GET CUR mute.3.1"), is_for_good=False)]


def all_faults():
    """All of them, each fresh."""
    return of_streams_and_silence() + by_the_rules() + of_answers() + of_enumeration()
