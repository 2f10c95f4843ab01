"""A device as it is served: what its descriptor says of its interfaces, streams, clocks and jacks, and what enumeration is answered.

What an audio request is answered, and what a stream carries, is the program's alone."""
import os, re, struct
from controls import control_of
from descriptor import cut, entities_of, settings_of
from formats import formats_of
from program import answer_once, lines_of_descriptor
from tool import Refused
from usbip import HIGH_SPEED, Record

USB_STREAMING = 0x0101
# The test codes of pid.codes, for a descriptor without a device descriptor.
OWN_DEVICE = struct.pack("<BBHBBBBHHHBBBB", 18, 1, 0x0200, 0xEF, 2, 1, 64, 0x1209, 0x0001, 0x0100, 1, 2, 0, 1)
MAKER = "Yolktrowel"
LONGEST_STRING = 126
GET_DESCRIPTOR, GET_STATUS, GET_CONFIGURATION = (0x80, 6), 0, (0x80, 8)
SET_CONFIGURATION, SET_ADDRESS = (0x00, 9), (0x00, 5)
GET_INTERFACE, SET_INTERFACE = (0x81, 10), (0x01, 11)
# Features of the device and of endpoints, which change nothing here.
FEATURES = ((0x00, 1), (0x00, 3), (0x02, 1), (0x02, 3))


def name_of(path):
    """The file's name without its ending; in sysfs, where all have the same, that of the device's folder."""
    folder, name = os.path.split(os.path.abspath(path))
    name = os.path.basename(folder) if name == "descriptors" else name.rpartition(".")[0] or name
    return re.sub(r"[^A-Za-z0-9._-]", "_", name)[:60]


class Device:
    """One descriptor, checked: its bytes, its blocks, its elements, and the names by which lines of a script speak of it."""

    def __init__(self, path, data, busid, number):
        self.path, self.busid, self.number = path, busid, number
        self.name = name_of(path)
        self.has_own = data[:2] == b"\x12\x01" and len(data) >= 18
        self.descriptor = data[:18] if self.has_own else OWN_DEVICE
        self.data, self.configuration = data, data[18:] if self.has_own else data
        self.blocks = cut(self.configuration)[0]
        self.entities = entities_of(self.blocks)
        self.read_interfaces()
        self.read_formats()
        self.read_program()

    def read_interfaces(self):
        """The interfaces by number with their codes, and which of them are the audio function's."""
        self.codes, self.streaming, self.control = {}, [], 0
        for block in self.blocks:
            if block.kind != "interface":
                continue
            code = block["class"], block["subclass"], block["protocol"]
            self.codes.setdefault(block["number"], code)
            if code == (1, 1, 0x20):
                self.control = block["number"]
            elif code == (1, 2, 0x20) and block["number"] not in self.streaming:
                self.streaming.append(block["number"])
        self.audio = {self.control, *self.streaming}

    def read_formats(self):
        """What streams carry, and the addresses of endpoints: of all, and of the streams'."""
        self.formats = formats_of(self.configuration)
        # Blocks of foreign interfaces are known by their bytes alone.
        self.endpoints = {block.data[2] for block in self.blocks if len(block.data) >= 3 and block.data[1] == 5}
        self.of_streams = {end["address"] for setting in settings_of(self.blocks) for end in setting["endpoint"]}

    def read_program(self):
        """What the program says of it: elements with their values, domains, and the settings that can't run at the start."""
        self.elements = {}
        for line in answer_once("elements", self.data)[0]:
            name, access, value = line.split(" ")
            self.elements[name] = access == "rw", int(value)
        shown = [line.split(" ") for line in answer_once("show", self.data)[0] if line.startswith("stream ")]
        self.invalid = [(int(words[1]), int(words[3])) for words in shown if words[-2:] == ["valid", "no"]]
        told, _ = answer_once("run", (lines_of_descriptor(self.data) + "g\nq\n").encode())
        self.domains = [int(line.split(" ")[1]) for line in told if line.startswith("domain ")]
        self.jacks = [number for number, block in self.entities.items()
                      if block.kind == "input_terminal" and block["terminal_type"] != USB_STREAMING]

    def record(self):
        codes = (*self.descriptor[4:7], self.configuration[5], self.descriptor[17])
        return Record(self.busid, f"/sys/devices/{MAKER.lower()}/{self.busid}", 1, self.number + 1, HIGH_SPEED,
                      struct.unpack_from("<HHH", self.descriptor, 8), codes, [self.codes[number] for number in self.codes])

    # ---- what plays where

    def width_of(self, name):
        """The bytes of an element's control, and whether its values may be below 0."""
        kind, entity, _ = name.split(".")
        block = self.entities[int(entity)]
        control = next(control for selector in (1, 2) if (control := control_of(block.kind, selector)) and control.element == kind)
        return control.width, control.signed

    def count_out_jacks(self):
        return sum(block.kind == "output_terminal" and block["terminal_type"] != USB_STREAMING for block in self.entities.values())

    def plain_ways(self, terminal):
        """The output jacks that a USB terminal feeds through features and effects alone: for each the features on the way."""
        ways = {}
        for number, block in self.entities.items():
            if block.kind != "output_terminal" or block["terminal_type"] == USB_STREAMING:
                continue
            features, at = [], block["source"]
            while at in self.entities and self.entities[at].kind in ("feature", "effect") and len(features) < len(self.entities):
                features.append(at)
                at = self.entities[at]["source"]
            if at == terminal:
                ways[number] = features
        return ways

    # ---- enumeration

    def text_of(self, index):
        """The string of this number: the product, the maker, or what the block is that names it."""
        texts = {self.descriptor[15]: f"{MAKER} {self.name}", self.descriptor[14]: MAKER, self.descriptor[16]: f"{MAKER} {self.busid}"}
        for block in self.blocks:
            if block["name"] or block["names"]:
                what = f"{block.kind.replace('_', ' ')} {block['id'] if block['id'] is not None else ''}".strip()
                if block.kind == "interface":
                    what = f"interface {block['number']} setting {block['setting']}"
                if block["name"]:
                    texts.setdefault(block["name"], what)
                for channel in range((block["channels"] or 0) if block["names"] else 0):
                    texts.setdefault(block["names"] + channel, f"{what} channel {channel + 1}")
        texts.pop(0, None)
        return texts.get(index)

    def descriptor_of(self, kind, index):
        """A descriptor of this kind, None where there is none."""
        if kind == 1 and index == 0:
            return self.descriptor
        if kind == 6 and index == 0:
            return struct.pack("<BB", 10, 6) + self.descriptor[2:8] + bytes([self.descriptor[17], 0])
        if kind == 3 and index == 0:
            return struct.pack("<BBH", 4, 3, 0x0409)
        text = self.text_of(index) if kind == 3 else None
        if text is None:
            return None
        spelt = text[:LONGEST_STRING].encode("utf-16-le")[:2 * LONGEST_STRING]
        return bytes([2 + len(spelt), 3]) + spelt

    def is_for_program(self, setup):
        """Whether the program answers a request: those of the audio function, also of its endpoints, those of interfaces that there aren't,
        and that for the configuration."""
        kind, value, index = (setup[0], setup[1]), setup[2] | setup[3] << 8, setup[4] | setup[5] << 8
        if setup[0] in (0x21, 0xA1):
            return setup[4] in self.audio or setup[4] not in self.codes
        if setup[0] in (0x22, 0xA2):
            return setup[4] in self.of_streams
        if kind in (GET_INTERFACE, SET_INTERFACE):
            return index in self.audio or index not in self.codes
        return kind == GET_DESCRIPTOR and value == 0x0200

    def enumerate(self, setup, is_configured):
        """What any other request is answered, None for a stall, and what it was in words."""
        kind, value, length = (setup[0], setup[1]), setup[2] | setup[3] << 8, setup[6] | setup[7] << 8
        names = {1: "device", 2: "configuration", 3: "string", 6: "qualifier", 7: "other speed"}
        if kind == GET_DESCRIPTOR:
            found = self.descriptor_of(value >> 8, value & 255)
            return found and found[:length], f"descriptor of the {names.get(value >> 8, f'kind {value >> 8}')} {value & 255}"
        if setup[1] == GET_STATUS and setup[0] in (0x80, 0x82) or setup[:2] == b"\x81\0" and setup[4] in self.audio:
            powered = setup[0] == 0x80 and self.configuration[7] >> 6 & 1
            return bytes([powered, 0])[:length], "status"
        if kind == GET_CONFIGURATION:
            return bytes([self.configuration[5] if is_configured else 0])[:length], "configuration's number"
        if kind == SET_CONFIGURATION:
            return (b"" if value in (0, self.configuration[5]) else None), f"SET_CONFIGURATION {value}"
        if kind == SET_ADDRESS or kind in FEATURES:
            return b"", "address" if kind == SET_ADDRESS else "feature"
        if setup[0] & 0x1F == 1 and setup[4] not in self.audio:
            return None, f"request of interface {setup[4]}, which isn't of audio 2.0"
        return None, "request that there isn't"


def read_devices(names, read):
    """The devices of these files, each a bus id of its own; the name of a file that the program refuses."""
    devices = []
    for number, name in enumerate(names, 1):
        data = read(name)
        if answer_once("check", data)[1] != 0:
            return devices, name
        devices.append(Device(name, data, f"1-{number}", number))
    if not devices:
        raise Refused("a file with a descriptor is wanted; --help says how")
    return devices, None
