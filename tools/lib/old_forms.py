"""Blocks in the form of audio 1.0: how they are known, and the same in version 2.0 where nothing has to be guessed."""
from topology import channels_of

# The lengths that a block has in audio 1.0, and what differs there; None where the length varies.
LENGTHS = {"input_terminal": (12, "no bCSourceID, no bmControls, and bmChannelConfig in 2 bytes"),
           "output_terminal": (9, "no bCSourceID and no bmControls"), "header": (None, "the streaming interfaces' numbers at its end"),
           "general": (7, "a delay and a format's number"), "class_endpoint": (7, "no bmControls"),
           "endpoint": (9, "bRefresh and bSynchAddress at its end"), "type_one": (None, "channels and a list of rates")}


def difference(block):
    """How the form of a block in audio 1.0 differs, None where it hasn't that form."""
    size, data = len(block.data), block.data
    old, differs = LENGTHS.get(block.kind, (None, None))
    if block.kind == "feature" and size > 6 and data[5] in (1, 2, 4) and (size - 7) % data[5] == 0:
        return "bControlSize, and then that many bytes for each channel"
    if block.kind == "header" and size == 8 + (data[7] if size > 7 else -1):
        return differs
    if block.kind == "type_one" and size > 7 and size == 8 + 3 * (data[7] or 2):
        return differs
    return differs if old == size else None


def is_old_feature(block, channels):
    """Whether a feature unit has the form of audio 1.0: the size of a control word, then one for the master and each channel."""
    size = block.data[5] if len(block.data) > 6 else 0
    return size in (1, 2, 4) and len(block.data) == 7 + (channels + 1) * size


def two_bits(word):
    """A control word of audio 1.0, with one bit for each control, as one of version 2.0: each control may be set."""
    return sum(3 << 2 * bit for bit in range(16) if word >> bit & 1)


def renewed_feature(data):
    size = data[5]
    words = [int.from_bytes(data[at:at + size], "little") for at in range(6, len(data) - size, size)]
    body = b"".join(two_bits(word).to_bytes(4, "little") for word in words)
    return bytes((6 + 4 * len(words),)) + data[1:5] + body + data[-1:]


def renewed(block, by_id):
    """A block in the form of version 2.0, None where more is needed than it says. A terminal takes the one clock source that is there."""
    data, clocks = block.data, [one["id"] for one in by_id.values() if one.kind == "clock_source"]
    clock = bytes(clocks[:1]) if len(clocks) == 1 else None
    if block.kind == "feature":
        return renewed_feature(data)
    if block.kind == "endpoint":
        return bytes((7,)) + data[1:7]
    if block.kind == "class_endpoint":
        return bytes((8,)) + data[1:4] + bytes(1) + data[4:7]
    if block.kind == "type_one":
        return bytes((6,)) + data[1:4] + data[5:7]
    if block.kind == "input_terminal" and clock:
        return bytes((17,)) + data[1:7] + clock + data[7:10] + bytes(2) + data[10:11] + bytes(2) + data[11:12]
    if block.kind == "output_terminal" and clock:
        return bytes((12,)) + data[1:8] + clock + bytes(2) + data[8:9]
    return None


def fits_channels(block, by_id):
    """Whether a feature in the old form has a word for the master and each channel of its source."""
    source = by_id.get(block.data[4])
    return source is not None and is_old_feature(block, channels_of(source, by_id))
