"""What every USB device is asked first: its descriptors, all of its strings, its status and its configuration, and what is wrong of these.

A device's configuration is judged by `check`, tools/explain and the judge; here stand the other descriptors (USB 2.0, chapter 9)."""
from descriptor import standard_name
from differences import STANDARD, Difference

DEVICE, CONFIGURATION, STRING, QUALIFIER, OTHER_SPEED, CAPABILITIES = 1, 2, 3, 6, 7, 15
KINDS = {DEVICE: "device", CONFIGURATION: "configuration", STRING: "string", QUALIFIER: "qualifier", OTHER_SPEED: "other speed",
         CAPABILITIES: "capabilities"}
GROUP = "enumeration"
STRINGS, DEVICES = "USB 2.0, 9.6.7", "USB 2.0, 9.6.1"
# From this release on a device has capabilities; it needn't at high speed.
WITH_CAPABILITIES = 0x0201


def setup_of(kind, index, length, language=0):
    return bytes([0x80, 6, index, kind]) + language.to_bytes(2, "little") + length.to_bytes(2, "little")


def names_in(blocks, device):
    """The strings that blocks name: each number with what names it first."""
    found = {}
    for front, block in [("device", device)] * (device is not None) + [(None, block) for block in blocks]:
        for field in ("manufacturer", "product_name", "serial", "name", "names"):
            if block[field]:
                what = front or block.kind.replace("_", " ") + (f" {block['id']}" if block["id"] is not None else "")
                found.setdefault(block[field], f"{standard_name(block.kind, field)} of the {what}")
    return found


class Enumeration:
    """Asks for all descriptors. `strings` has the texts by their numbers."""

    def __init__(self, dialogue, differences):
        self.dialogue, self.differences, self.strings, self.device = dialogue, differences, {}, b""

    def get(self, kind, index, length, language=0):
        words = f"GET_DESCRIPTOR {KINDS[kind]} {index}, at most {length} bytes"
        return self.dialogue.other(GROUP, setup_of(kind, index, length, language), words)

    def wrong(self, rule, value, wanted, text, said):
        asked = self.dialogue.asked[-1]
        self.differences.append(Difference(STANDARD, rule, asked.line, asked.words, value, wanted, text, said, length=1,
                                           key=(asked.words.partition(",")[0],)))

    def read(self, device, blocks, total):
        """Asks for everything; `device` is the device descriptor's block as it was told before."""
        self.read_device()
        for length in (9, total, total + 64):
            setup = setup_of(CONFIGURATION, 0, min(length, 65535))
            self.dialogue.ask(GROUP, setup)
        if self.get(QUALIFIER, 0, 10).kind == "bytes":
            self.get(OTHER_SPEED, 0, 9)
        if device is not None and device["release"] >= WITH_CAPABILITIES:
            self.get(CAPABILITIES, 0, 5)
        self.dialogue.other(GROUP, bytes.fromhex("8000000000000200"), "GET_STATUS of the device")
        self.dialogue.other(GROUP, bytes.fromhex("8008000000000100"), "GET_CONFIGURATION")
        self.read_strings(names_in(blocks, device))

    def read_device(self):
        """The device descriptor: its front, whole, and where more is asked."""
        whole = b""
        for length in (18, 8, 64):
            said = self.get(DEVICE, 0, length)
            whole = whole or said.data
            if said.kind != "bytes" or said.data != whole[:min(length, 18)] or len(whole) != 18 or whole[:2] != b"\x12\x01":
                self.wrong("device-descriptor", said.said(), f"the {min(length, 18)} bytes of the device descriptor",
                           "A device tells its descriptor, which has 18 bytes, cut at wLength", DEVICES)

    def read_strings(self, names):
        """Each string that a descriptor names, in the first language."""
        if not names:
            return
        said = self.get(STRING, 0, 255)
        if not self.is_string(said) or len(said.data) < 4:
            self.wrong("string", said.said(), "the languages of the strings", "Descriptors name strings, so string 0 has their languages",
                       STRINGS)
            return
        language = int.from_bytes(said.data[2:4], "little")
        for number, what in sorted(names.items()):
            said = self.get(STRING, number, 255, language)
            if self.is_string(said):
                self.strings[number] = said.data[2:].decode("utf-16-le", "replace")
            else:
                self.wrong("string", said.said(), "a string", f"{what} names string {number}, which has to be there: its length, 3, and "
                           "characters of two bytes", STRINGS)

    def is_string(self, said):
        data = said.data
        return said.kind == "bytes" and len(data) >= 2 and len(data) % 2 == 0 and (data[0], data[1]) == (len(data), 3)
