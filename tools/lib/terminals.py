"""The names of terminal types, by the standard's list (USB Device Class Definition for Terminal Types 2.0), and of what an entity is."""

USB_STREAMING = 0x0101
TYPES = {
    0x0100: "USB", 0x0101: "USB streaming", 0x01FF: "USB, of the vendor's own",
    0x0200: "input", 0x0201: "microphone", 0x0202: "desktop microphone", 0x0203: "personal microphone",
    0x0204: "omni-directional microphone", 0x0205: "microphone array", 0x0206: "processing microphone array",
    0x0300: "output", 0x0301: "speaker", 0x0302: "headphones", 0x0303: "head-mounted display", 0x0304: "desktop speaker",
    0x0305: "room speaker", 0x0306: "communication speaker", 0x0307: "low frequency speaker",
    0x0400: "input and output", 0x0401: "handset", 0x0402: "headset", 0x0403: "speakerphone", 0x0404: "echo-suppressing speakerphone",
    0x0405: "echo-canceling speakerphone",
    0x0500: "telephony", 0x0501: "phone line", 0x0502: "telephone", 0x0503: "down line phone",
    0x0600: "external", 0x0601: "analog connector", 0x0602: "digital audio interface", 0x0603: "line connector",
    0x0604: "legacy audio connector", 0x0605: "S/PDIF", 0x0606: "1394 audio stream", 0x0607: "1394 video's soundtrack",
    0x0608: "ADAT", 0x0609: "TDIF", 0x060A: "MADI",
    0x0700: "embedded", 0x0701: "level calibration noise", 0x0702: "equalization noise", 0x0703: "CD player", 0x0704: "DAT", 0x0705: "DCC",
    0x0706: "compressed audio player", 0x0707: "analog tape", 0x0708: "phonograph", 0x0709: "VCR audio", 0x070A: "video disc audio",
    0x070B: "DVD audio", 0x070C: "TV tuner audio", 0x070D: "satellite receiver audio", 0x070E: "cable tuner audio", 0x070F: "DSS audio",
    0x0710: "radio receiver", 0x0711: "radio transmitter", 0x0712: "multi-track recorder", 0x0713: "synthesizer", 0x0714: "piano",
    0x0715: "guitar", 0x0716: "drums", 0x0717: "musical instrument"}
CLOCK_TYPES = ("external", "internal, fixed", "internal, variable", "internal, programmable")


def type_name(code):
    """The name of a terminal's type, as 'speaker'."""
    return TYPES.get(code, f"type {code:#06x}")


def detail_of(block):
    """What kind of a terminal or clock source an entity is, '-' of all others."""
    if block["terminal_type"] is not None:
        return type_name(block["terminal_type"])
    return CLOCK_TYPES[block["attributes"] & 3] if block.kind == "clock_source" else "-"


def kind_words(kind):
    """A kind of an entity in words, as 'feature unit'."""
    return f"{kind} unit" if kind in ("mixer", "selector", "feature", "effect") else kind.replace("_", " ")


def entity_name(block):
    """An entity in words, as 'output terminal 4 (speaker)'."""
    detail = f" ({type_name(block['terminal_type'])})" if block["terminal_type"] is not None else ""
    return f"{kind_words(block.kind)} {block['id']}{detail}"
