"""Blocks of a configuration descriptor, for the tools beside: cut, named and read field by field.

The layouts are those of docs/DESCRIPTORS.md. Nothing here decides what is sound: that is the program's."""

# The fields of each kind after length, type and (for class blocks) subtype: a name and a number of bytes. A name that ends in * is a list.
LAYOUTS = {
    "device": [("release", 2), ("class", 1), ("subclass", 1), ("protocol", 1), ("packet", 1), ("vendor", 2), ("product", 2), ("version", 2),
               ("manufacturer", 1), ("product_name", 1), ("serial", 1), ("configurations", 1)],
    "configuration": [("total", 2), ("interfaces", 1), ("value", 1), ("name", 1), ("attributes", 1), ("power", 1)],
    "association": [("first", 1), ("count", 1), ("class", 1), ("subclass", 1), ("protocol", 1), ("name", 1)],
    "interface": [("number", 1), ("setting", 1), ("endpoints", 1), ("class", 1), ("subclass", 1), ("protocol", 1), ("name", 1)],
    "endpoint": [("address", 1), ("attributes", 1), ("max_packet", 2), ("interval", 1)],
    "header": [("version", 2), ("category", 1), ("total", 2), ("controls", 1)],
    "input_terminal": [("id", 1), ("terminal_type", 2), ("assoc", 1), ("clock", 1), ("channels", 1), ("locations", 4), ("names", 1),
                       ("controls", 2), ("name", 1)],
    "output_terminal": [("id", 1), ("terminal_type", 2), ("assoc", 1), ("source", 1), ("clock", 1), ("controls", 2), ("name", 1)],
    "mixer": [("id", 1), ("pins", 1), ("sources*", "pins"), ("channels", 1), ("locations", 4), ("names", 1), ("mix_bits*", -2),
              ("controls", 1), ("name", 1)],
    "selector": [("id", 1), ("pins", 1), ("sources*", "pins"), ("controls", 1), ("name", 1)],
    "feature": [("id", 1), ("source", 1), ("words*4", -1), ("name", 1)],
    "effect": [("id", 1), ("effect_type", 2), ("source", 1), ("words*4", -1), ("name", 1)],
    "clock_source": [("id", 1), ("attributes", 1), ("controls", 1), ("assoc", 1), ("name", 1)],
    "clock_selector": [("id", 1), ("pins", 1), ("sources*", "pins"), ("controls", 1), ("name", 1)],
    "clock_multiplier": [("id", 1), ("source", 1), ("controls", 1), ("name", 1)],
    "general": [("link", 1), ("controls", 1), ("format_type", 1), ("formats", 4), ("channels", 1), ("locations", 4), ("names", 1)],
    "type_one": [("format_type", 1), ("subslot", 1), ("bits", 1)],
    "class_endpoint": [("attributes", 1), ("controls", 1), ("lock_units", 1), ("lock_delay", 2)],
}
CONTROL_SUBTYPES = {1: "header", 2: "input_terminal", 3: "output_terminal", 4: "mixer", 5: "selector", 6: "feature", 7: "effect",
                    10: "clock_source", 11: "clock_selector", 12: "clock_multiplier"}
# The units that no layout here reads, by their subtypes; each has its id where an entity has it.
UNREAD_UNITS = {8: "processing unit", 9: "extension unit", 13: "rate converter unit"}
ENTITY_KINDS = [kind for kind in CONTROL_SUBTYPES.values() if kind != "header"]
FIXED_LENGTHS = {"configuration": 9, "association": 8, "interface": 9, "endpoint": 7, "header": 9, "input_terminal": 17,
                 "output_terminal": 12, "clock_source": 8, "clock_multiplier": 7, "general": 16, "type_one": 6, "class_endpoint": 8}
# The spatial locations of a cluster, from bit 0 on (Audio Class 2.0, 4.1).
LOCATIONS = ("front left, front right, front center, low frequency, back left, back right, front left of center, "
             "front right of center, back center, side left, side right, top center, top front left, top front center, "
             "top front right, top back left, top back center, top back right, top front left of center, top front right of center, "
             "left low frequency, right low frequency, top side left, top side right, bottom center, back left of center, "
             "back right of center").split(", ")

# The standard's names of the fields, where a kind has no other of its own.
STANDARD_NAMES = {
    "length": "bLength", "type": "bDescriptorType", "subtype": "bDescriptorSubtype", "total": "wTotalLength",
    "interfaces": "bNumInterfaces", "value": "bConfigurationValue", "attributes": "bmAttributes", "power": "bMaxPower",
    "first": "bFirstInterface", "count": "bInterfaceCount", "number": "bInterfaceNumber", "setting": "bAlternateSetting",
    "endpoints": "bNumEndpoints",
    "address": "bEndpointAddress", "max_packet": "wMaxPacketSize", "interval": "bInterval", "version": "bcdADC", "category": "bCategory",
    "controls": "bmControls", "id": "bUnitID", "terminal_type": "wTerminalType", "assoc": "bAssocTerminal", "clock": "bCSourceID",
    "source": "bSourceID", "sources": "baSourceID", "pins": "bNrInPins", "channels": "bNrChannels", "locations": "bmChannelConfig",
    "names": "iChannelNames", "mix_bits": "bmMixerControls", "words": "bmaControls", "effect_type": "wEffectType", "link": "bTerminalLink",
    "format_type": "bFormatType", "formats": "bmFormats", "subslot": "bSubslotSize", "bits": "bBitResolution",
    "lock_units": "bLockDelayUnits", "lock_delay": "wLockDelay", "release": "bcdUSB", "class": "bDeviceClass",
    "subclass": "bDeviceSubClass", "protocol": "bDeviceProtocol", "packet": "bMaxPacketSize0", "vendor": "idVendor",
    "product": "idProduct", "manufacturer": "iManufacturer", "product_name": "iProduct", "serial": "iSerialNumber",
    "configurations": "bNumConfigurations"}
OWN_NAMES = {
    "configuration": {"name": "iConfiguration"}, "interface": {"name": "iInterface", "class": "bInterfaceClass",
                                                               "subclass": "bInterfaceSubClass", "protocol": "bInterfaceProtocol"},
    "association": {"name": "iFunction", "class": "bFunctionClass", "subclass": "bFunctionSubClass", "protocol": "bFunctionProtocol"},
    "input_terminal": {"id": "bTerminalID", "name": "iTerminal"}, "output_terminal": {"id": "bTerminalID", "name": "iTerminal"},
    "mixer": {"name": "iMixer"}, "selector": {"name": "iSelector"}, "feature": {"name": "iFeature"}, "effect": {"name": "iEffects"},
    "clock_source": {"id": "bClockID", "name": "iClockSource"},
    "clock_selector": {"id": "bClockID", "sources": "baCSourceID", "name": "iClockSelector"},
    "clock_multiplier": {"id": "bClockID", "source": "bCSourceID", "name": "iClockMultiplier"}, "device": {"version": "bcdDevice"}}


class Block:
    def __init__(self, place, data, kind):
        self.place, self.data, self.kind = place, data, kind
        self.fields = list(read_fields(kind, data))

    def __getitem__(self, name):
        return next((value for field, value, _, _ in self.fields if field == name), None)

    @property
    def sources(self):
        one = self["source"]
        return self["sources"] if one is None else [one]

    def span(self, name):
        """Where a field stands in the block, also `length`, `type` and `subtype`, or one of a list as `words[1]`; None where it doesn't."""
        fixed = {"length": (0, 1), "type": (1, 2), "subtype": (2, 3)}
        if name in fixed:
            return fixed[name]
        name, _, index = name.partition("[")
        for field, value, at, end in self.fields:
            if field == name and index and isinstance(value, list):
                size = 4 if name == "words" else 1
                begin = at + int(index[:-1]) * size
                return begin, begin + size
            if field == name:
                return at, end
        return None

    def value(self, name):
        """The number in a field, as its span has it."""
        span = self.span(name)
        return None if span is None else little(self.data[span[0]:span[1]])


def standard_name(kind, field):
    """What the standard calls a field, as `wTotalLength`; one of a list as `baSourceID(2)`, counted from 1, or `bmaControls(0)`."""
    name, _, index = field.partition("[")
    called = OWN_NAMES.get(kind, {}).get(name) or STANDARD_NAMES.get(name, name)
    if not index:
        return called
    return f"{called}({int(index[:-1]) + (0 if name == 'words' else 1)})"


def little(data):
    return int.from_bytes(data, "little")


def read_fields(kind, data):
    """The fields of a block as far as its bytes go: name, value, and where they stand in it."""
    at, seen = (3 if len(data) > 1 and data[1] in (0x24, 0x25) else 2), {}
    for name, size in LAYOUTS.get(kind, []):
        star = name.partition("*")
        width = int(star[2] or 1)
        if isinstance(size, str):
            end = min(at + seen.get(size, 0), len(data))
        elif size < 0:
            end = max(at, len(data) + size)
        else:
            end = at + size
        if end > len(data):
            return
        if star[1]:
            value = [little(data[i:i + width]) for i in range(at, end - (end - at) % width, width)]
        else:
            value = little(data[at:end])
        seen[star[0]] = value
        yield star[0], value, at, end
        at = end


def kind_of(data, context):
    """The layout's name for a block in this context; None where no layout reads it."""
    kind, subtype = data[1], data[2] if len(data) > 2 else None
    parting = {2: "configuration", 0x0B: "association", 4: "interface"}
    if kind in parting:
        return parting[kind]
    if context == "foreign":
        return None
    if kind == 5:
        return "endpoint"
    if kind == 0x25 and subtype == 1:
        return "class_endpoint"
    if kind == 0x24 and context == "control":
        return CONTROL_SUBTYPES.get(subtype)
    if kind == 0x24 and context == "stream":
        if subtype == 2 and len(data) > 3 and data[3] == 1:
            return "type_one"
        return "general" if subtype == 1 else None
    return None


def cut(data):
    """The blocks of these bytes, as far as they can be cut, and what is left after them."""
    blocks, place, context = [], 0, None
    while place + 2 <= len(data) and data[place] >= 2 and place + data[place] <= len(data):
        piece = data[place:place + data[place]]
        kind = "device" if place == 0 and len(piece) == 18 and piece[1] == 1 else kind_of(piece, context)
        block = Block(place, piece, kind)
        if kind == "interface" and len(piece) == 9:
            code = (block["class"], block["subclass"], block["protocol"])
            context = {(1, 1, 0x20): "control", (1, 2, 0x20): "stream"}.get(code, "foreign")
        elif kind == "association" and not is_of_audio(block):
            context = "foreign"
        blocks.append(block)
        place += len(piece)
    return blocks, data[place:]


def is_of_audio(block):
    """Whether an association is one of version 2.0 of the audio class."""
    return block["class"] == 1 and block["protocol"] == 0x20


def is_streaming(block):
    """Whether an interface block begins a streaming interface of version 2.0."""
    return (block["class"], block["subclass"], block["protocol"]) == (1, 2, 0x20)


def is_whole(block):
    """Whether a block has all fields of its layout: one that is cut short lacks some."""
    return len(block.fields) == len(LAYOUTS[block.kind])


def settings_of(blocks):
    """Each setting of a streaming interface: its number, its setting, and its whole blocks by kind."""
    found, setting = [], None
    for block in blocks:
        if block.kind in ("interface", "association", "configuration"):
            setting = None
            if block.kind == "interface" and is_streaming(block):
                setting = {"number": block["number"], "setting": block["setting"], "endpoint": []}
                found.append(setting)
        elif setting is None or block.kind not in ("endpoint", "general", "type_one") or not is_whole(block):
            continue
        elif block.kind == "endpoint":
            setting["endpoint"].append(block)
        else:
            setting.setdefault(block.kind, block)
    return found


def entities_of(blocks):
    """The entities by their ids."""
    return {block["id"]: block for block in blocks if block.kind in ENTITY_KINDS}


def unread_units_of(blocks):
    """The units of control interfaces that no layout reads, by their ids, in words."""
    found, is_inside = {}, False
    for block in blocks:
        if block.kind in ("interface", "association", "configuration"):
            is_inside = block.kind == "interface" and (block["class"], block["subclass"], block["protocol"]) == (1, 1, 0x20)
        elif is_inside and block.kind is None and block.data[1] == 0x24 and len(block.data) > 3:
            found[block.data[3]] = f"{UNREAD_UNITS.get(block.data[2], f'block of subtype {block.data[2]} with id')} {block.data[3]}"
    return found
