"""The USB devices of this machine, as sysfs tells them: descriptors, speed, node, and which driver has which interface."""
import os, re
from descriptor import cut
from tool import Refused

ROOT = "/sys/bus/usb/devices"
NODES = "/dev/bus/usb"
SPEEDS = {"1.5": "low", "12": "full", "480": "high", "5000": "super", "10000": "super", "20000": "super"}
NAME = re.compile(r"[0-9]+-[0-9]+(\.[0-9]+)*")


def text_of(path, otherwise=""):
    try:
        with open(path, encoding="utf-8", errors="replace") as file:
            return file.read().strip()
    except OSError:
        return otherwise


def interfaces_of(configuration):
    """The numbers of the interfaces of version 2.0 of the audio class: control and streams."""
    codes = {block["number"]: (block["class"], block["subclass"], block["protocol"]) for block in cut(configuration)[0]
             if block.kind == "interface"}
    return sorted(number for number, code in codes.items() if code in ((1, 1, 0x20), (1, 2, 0x20)))


def has_audio(configuration):
    return any((block["class"], block["subclass"], block["protocol"]) == (1, 1, 0x20) for block in cut(configuration)[0]
               if block.kind == "interface")


def first_configuration(descriptors):
    """The first configuration behind the device descriptor; what stands behind its total is left out."""
    return descriptors[18:18 + int.from_bytes(descriptors[20:22], "little")]


class Found:
    """A device of sysfs."""

    def __init__(self, root, nodes, name):
        self.name, self.folder = name, os.path.join(root, name)
        try:
            with open(os.path.join(self.folder, "descriptors"), "rb") as file:
                self.descriptors = file.read()
        except OSError as why:
            raise Refused(f"the descriptors of {name} can't be read ({why.strerror})")
        self.configuration = first_configuration(self.descriptors)
        self.speed = SPEEDS.get(self.text("speed"), "unknown")
        numbers = [self.text(name, "0") for name in ("busnum", "devnum")]
        self.node = os.path.join(nodes, *(f"{int(number):03d}" if number.isdigit() else "000" for number in numbers))

    def text(self, name, otherwise=""):
        return text_of(os.path.join(self.folder, name), otherwise)

    @property
    def is_there(self):
        """Whether the device is still plugged in."""
        return os.path.isdir(self.folder)

    @property
    def chosen(self):
        """The number of the configuration that the system chose; None where none is."""
        number = self.text("bConfigurationValue")
        return int(number) if number.isdigit() else None

    def in_words(self):
        names = " ".join(name for name in (self.text("manufacturer"), self.text("product")) if name)
        return f"{self.name} {self.text('idVendor')}:{self.text('idProduct')}{' ' if names else ''}{names}, {self.speed} speed"


def devices(root=ROOT, nodes=NODES):
    """All devices that have an audio function of version 2.0."""
    try:
        names = sorted(name for name in os.listdir(root) if NAME.fullmatch(name))
    except OSError as why:
        raise Refused(f"{root} can't be read ({why.strerror}): the devices of a Linux system stand there; "
                      "usbip:HOST/BUSID names one of a USB/IP server")
    for name in names:
        if os.path.exists(os.path.join(root, name, "descriptors")):
            found = Found(root, nodes, name)
            if has_audio(found.configuration):
                yield found


def device(name, root=ROOT, nodes=NODES):
    """The device with this name, with an audio function of version 2.0."""
    if not NAME.fullmatch(name):
        raise Refused(f"'{name}' names no device: a name of {ROOT} is wanted, as 1-2, or usbip:HOST[:PORT]/BUSID; --list names them")
    if not os.path.isdir(os.path.join(root, name)):
        raise Refused(f"there is no device {name} in {root}: 'tools/probe --list' names those with an audio function of version 2.0")
    found = Found(root, nodes, name)
    if not has_audio(found.configuration):
        raise Refused(f"{name} has no audio function of version 2.0 in its first configuration: 'tools/probe --list' names those that have")
    if found.chosen != found.configuration[5]:
        raise Refused(f"{name} isn't in its first configuration, which is asked here: as root, 'echo {found.configuration[5]} > "
                      f"{found.folder}/bConfigurationValue' chooses it")
    return found
