"""What a broken rule of the grammar (G) finds in a descriptor: the mistake, in the words of who sees it, and what to write.

Which rule is broken, and where, is the program's answer; here the words are found for it. docs/DESCRIPTORS.md has the rules."""
from controls import CONTROLS, words_of
from descriptor import ENTITY_KINDS, FIXED_LENGTHS, LAYOUTS, cut, entities_of, is_of_audio, kind_of, standard_name
from finding import Finding, kind_name, with_article, write
from old_forms import difference, renewed
from order import order_finding
from terminals import entity_name
from topology import channels_of, counted

VERSIONS = {0x00: "1.0", 0x20: "2.0", 0x30: "3.0"}
# The lengths that count what a block lists.
COUNTED_LENGTHS = {"mixer": "13, a byte for each pin, and the bytes of its bits", "selector": "7 and a byte for each pin",
                   "clock_selector": "7 and a byte for each pin", "feature": "6 + 4 × words (10, 14, 18 ..)",
                   "effect": "8 + 4 × words (12, 16, 20 ..)"}
UNITS_LEFT_OUT = {8: "a processing unit", 9: "an extension unit", 13: "a sampling rate converter"}


def is_text(data):
    """Whether bytes are printed text: nothing but it, and some of it."""
    return len(data) > 1 and all(byte in (9, 10, 13) or 32 <= byte < 127 for byte in data)


def swapped(value, size=2):
    return int.from_bytes(value.to_bytes(size, "little"), "big")


def named(block):
    """A block by its name and place, as 'the endpoint at 191'; an entity with its id."""
    words = entity_name(block) if block.kind in ENTITY_KINDS and block["id"] is not None else kind_name(block)
    return f"the {words} at {block.place}"


def cut_short(place, data):
    if is_text(data):
        return Finding("text", "this is text, not bytes", "give it with --text, which reads hex, xxd, od -tx1, hexdump -C and a C array")
    left = len(data) - place
    blocks, _ = cut(data)
    owner = next((one for one in blocks if one.kind == "configuration"), None)
    short = owner is not None and owner.place + owner["total"] > len(data)
    more = f"; wTotalLength says {owner['total']}, and {len(data) - owner.place} are there" if short else ""
    if left == 0:
        return Finding("no-configuration", "the input ends before its configuration (type 0x02)",
                       "give the configuration descriptor too, as a device's folder of sysfs has it in the file 'descriptors'")
    if left == 1:
        return Finding("cut", f"one byte alone is left at {place}{more}", "give the whole block" if short else "leave it out", at=place,
                       wanted=0 if not short else None)
    return Finding("cut", f"{left} bytes are left at {place}, and bLength says {data[place]} there{more}",
                   "give the whole block" if short else f"give the whole block, or write {left} in byte {place}", at=place,
                   wanted=None if short else left, length=("bLength", data[place]))


def context_at(place, blocks):
    """How a block at a place is read: as one of the control interface, of a stream, or of a foreign part."""
    last = next((one for one in reversed(blocks) if one.kind == "interface" and one.place < place), None)
    if last is None:
        return None
    return {(1, 1, 0x20): "control", (1, 2, 0x20): "stream"}.get((last["class"], last["subclass"], last["protocol"]), "foreign")


def likely_length(place, data):
    """The length of the block at a place by its type and subtype, where the next block begins there; None where that isn't known."""
    blocks, _ = cut(data)
    kind = kind_of(bytes((255,)) + data[place + 1:place + 8], context_at(place, blocks))
    if kind in FIXED_LENGTHS:
        return FIXED_LENGTHS[kind] if begins_block(data, place + FIXED_LENGTHS[kind]) else None
    able = [length for length in range(3, 64) if begins_block(data, place + length)]
    return able[0] if kind and able else None


def without_length(place, data):
    rest, least = data[place:], likely_length(place, data)
    owner = next((one for one in cut(data)[0] if one.kind == "configuration"), None)
    if owner is not None and place >= owner.place + owner["total"] and not any(rest):
        return Finding("padding", f"{counted(len(rest), 'zero byte')} stand behind the configuration, whose total ends at {place}",
                       "leave them out", at=place, wanted=0)
    advice = f"write {least} in byte {place}: then the next block begins at {place + least}" if least else \
        "write the number of bytes of the block, which counts its own length and type"
    return Finding("no-length", f"bLength is {rest[0]} at {place}, so no block can follow", advice, at=place, wanted=least,
                   length=("bLength", rest[0]))


def begins_block(data, place):
    """Whether what stands at a place looks like the begin of a block: a known type, and a length that fits it."""
    if place == len(data):
        return True
    if place + 2 > len(data) or place + data[place] > len(data):
        return False
    known = {2: (9,), 4: (9,), 5: (7, 9), 11: (8,), 0x21: range(3, 256), 0x24: range(3, 256), 0x25: range(3, 256), 0x30: (6,)}
    return data[place] in known.get(data[place + 1], ())


def old_form(block, form, by_id):
    """A block in the form of audio 1.0, and the same in version 2.0 where that is known."""
    wanted, fresh, what = FIXED_LENGTHS.get(block.kind), renewed(block, by_id), kind_name(block)
    length = f"{wanted} bytes" if wanted else f"of {COUNTED_LENGTHS[block.kind]}"
    advice = f"in version 2.0 it has {length}: {layout_words(block)}"
    if fresh is not None:
        advice = f"write {fresh.hex(' ')}, and count its bytes in the totals: {advice}"
    return Finding("audio-1.0", f"this is the audio 1.0 form of {with_article(what)}: {len(block.data)} bytes, with {form}", advice, block,
                   {"length": None}, wanted=fresh.hex(" ") if fresh else wanted)


def wrong_length(block, data):
    """G3: the length isn't that of the layout."""
    size = len(block.data)
    if block.kind is None:
        return Finding("no-subtype", f"the class block at {block.place} has {size} bytes, and a subtype stands third in one",
                       "give the whole block", block, {"length": None})
    wanted, form, what, by_id = FIXED_LENGTHS.get(block.kind), difference(block), kind_name(block), entities_of(cut(data)[0])
    if form:
        return old_form(block, form, by_id)
    if wanted is None:
        return counted_length(block, what, by_id)
    text = f"bLength of the {what} at {block.place} is {size}, and {with_article(what)} has {wanted}"
    if begins_block(data, block.place + wanted) and not begins_block(data, block.place + size):
        return Finding("wrong-length", f"{text}: the next block begins at {block.place + wanted}", write(block, "length", wanted), block,
                       {"length": wanted})
    case = "too-short" if size < wanted else "too-long"
    more = "give the bytes that are missing" if size < wanted else "leave the last bytes out"
    return Finding(case, text, f"{more}, or {write(block, 'length', wanted)}", block, {"length": wanted})


def layout_words(block):
    """The fields of a block's layout, as '24 02, then bTerminalID, wTerminalType (2)'."""
    head = block.data[1:3].hex(" ") if block.data[1] in (0x24, 0x25) else f"{block.data[1]:02x}"
    fields = [(name.partition("*"), size) for name, size in LAYOUTS[block.kind]]
    words = [standard_name(block.kind, name) + (" (4 each)" if star and more == "4" else f" ({size})" if isinstance(size, int)
                                                and size > 1 else "")
             for (name, star, more), size in fields]
    return f"{head}, then " + ", ".join(words)


def counted_length(block, what, by_id):
    """G3 of a block whose length counts what it lists."""
    size, pins, wanted, why = len(block.data), block["pins"], None, ""
    if block.kind in ("feature", "effect"):
        source = by_id.get(block["source"])
        channels = channels_of(source, by_id) if source is not None else 0
        first = 6 if block.kind == "feature" else 8
        wanted = first + 4 * (channels + 1) if channels else max(first + 4, size - (size - first) % 4)
        why = f" for {counted(channels, 'channel')}" if channels else ""
    elif pins is not None:
        wanted = 7 + pins if block.kind != "mixer" else 14 + pins
        why = f" for {counted(pins, 'pin')}" + (" and a byte of bits" if block.kind == "mixer" else "")
    case = "effect-length" if block.kind == "effect" else "too-short" if wanted is None or size < wanted else "too-long"
    return Finding(case, f"the {what} at {block.place} has {size} bytes, and its length is {COUNTED_LENGTHS[block.kind]}",
                   f"give it {wanted} bytes{why}" if wanted else "give it as many bytes as it lists", block, {"length": wanted})


# ---- values

def wrong_value(block):
    """G4: which field has a value that is not allowed."""
    kind, place = block.kind, block.place
    if kind == "header" and block["version"] != 0x0200:
        version = block["version"]
        why = ", audio 1.0" if version == 0x0100 else ": its two bytes look swapped" if version == 0x0002 else ""
        return Finding("version", f"bcdADC of the header is {version:#06x}{why}, and a function of version 2.0 has 0x0200",
                       write(block, "version", 0x0200, "0x0200"), block, {"version": 0x0200})
    if kind in ("mixer", "selector", "clock_selector") and block["pins"] == 0:
        return Finding("no-pins", f"bNrInPins of the {entity_name(block)} is 0", "give it a pin at least, and the id of its source", block,
                       {"pins": 1})
    if kind == "type_one":
        return wrong_sample(block)
    if kind == "endpoint":
        return wrong_packet(block)
    if kind in CONTROLS or kind in ("general", "effect"):
        return wrong_bits(block)
    return Finding("control-bits", f"a field of the {kind_name(block)} at {place} has a value that isn't allowed",
                   "docs/DESCRIPTORS.md has the values", block)


def wrong_sample(block):
    subslot, bits = block["subslot"], block["bits"]
    if not 1 <= subslot <= 4:
        right = min(max(1, -(-bits // 8)), 4)
        return Finding("sample-bytes", f"bSubslotSize is {subslot}, and a sample has 1 to 4 bytes",
                       write(block, "subslot", right) + f", which holds {bits} bits" * (bits <= 8 * right), block, {"subslot": right})
    if bits == 0:
        return Finding("no-bits", "bBitResolution is 0", write(block, "bits", 8 * subslot), block, {"bits": 8 * subslot})
    advice = write(block, "bits", 8 * subslot) + (f", or {write(block, 'subslot', -(-bits // 8))}" if bits <= 32 else "")
    return Finding("sample-bits", f"bBitResolution is {bits}, and a sample of {subslot} byte{'s' * (subslot > 1)} holds {8 * subslot} bits",
                   advice, block, {"bits": 8 * subslot})


def wrong_packet(block):
    size, more = block["max_packet"] & 0x7FF, block["max_packet"] >> 11 & 3
    name = f"of the endpoint {block['address']:#04x} at {block.place}"
    if not 1 <= block["interval"] <= 16:
        return Finding("interval", f"bInterval {name} is {block['interval']}, and an isochronous endpoint has 1 to 16",
                       write(block, "interval", 1) + " for a packet in each microframe", block, {"interval": 1})
    if more == 3:
        least = size or 1024
        right = least | 0x1000 if 683 <= least <= 1024 else min(least, 1024)
        return Finding("transactions", f"wMaxPacketSize {name} is {block['max_packet']:#06x}: its bits 12 and 11 are 11, which is reserved",
                       write(block, "max_packet", right, f"{right:#06x}") + f" for {'3 packets' if right > 1024 else 'one packet'} of "
                       f"{right & 0x7FF} bytes in a microframe", block, {"max_packet": right})
    return Finding("packet", f"wMaxPacketSize {name} is {block['max_packet']:#06x}: {size} bytes, and an isochronous packet has at most "
                   "1024",
                   write(block, "max_packet", 1024) + ", or use additional transactions (bits 12 and 11)", block, {"max_packet": 1024})


def field_of_bits(block, word):
    return f"words[{word}]" if block["words"] is not None else "controls"


def bits_of_kind(block):
    """The controls of which G4 speaks, each with the place of its two bits."""
    if block.kind == "general":
        return (("active setting", 0), ("valid settings", 1))
    return [(control.name, control.bits) for control in CONTROLS[block.kind] if control.bits is not None]


def wrong_bits(block):
    for number, word in enumerate(words_of(block)):
        for name, bits in bits_of_kind(block):
            if word >> 2 * bits & 3 == 2:
                return of_bits(block, number, word, name, bits)
    return Finding("control-bits", f"a control of the {kind_name(block)} at {block.place} has bits 10", "write 00, 01 or 11", block)


def of_bits(block, number, word, name, bits):
    """Bits 10 in a word: two bits for each control, of which 10 isn't allowed."""
    field = field_of_bits(block, number)
    right = word | 1 << 2 * bits
    where = f"word {number}, {name}" if block["words"] is not None else name
    owner = entity_name(block) if block.kind in ENTITY_KINDS else f"the {kind_name(block)} at {block.place}"
    shown = f"{right:#010x}" if block["words"] is not None else f"{right:#04x}"
    text = f"bits 10 in {where}, of {owner}: {standard_name(block.kind, field)} is {word:#x}"
    if block.kind == "feature" and word == 2 and max(block["words"]) < 4:
        return Finding("control-bits", text, f"{write(block, field, 12, '0x0000000c')} for a volume that a host may set: 0x02 is the "
                       "volume in audio 1.0, where a control has one bit, and here it has two; for a mute it is 0x00000003", block,
                       {field: 12})
    advice = f"{write(block, field, right, shown)}: bits 11, where a host may set it; 01 where it only reads it, 00 where it isn't there"
    return Finding("enable-bits" if block.kind == "effect" else "control-bits", text, advice, block, {field: right})


# ---- totals

def entity_list(blocks, header):
    """The header and the entities behind it, as the header's total counts them."""
    at = blocks.index(header)
    end = next((k for k in range(at + 1, len(blocks)) if blocks[k].data[1] not in (0x24, 0x25) or blocks[k].kind == "header"
                or len(blocks[k].data) < 3), len(blocks))
    return blocks[at:end]


def total_text(owner, said, real, what):
    """A total and where it should be, with what it looks like."""
    field = "wTotalLength" if owner.kind == "configuration" else "wTotalLength of the header"
    text = f"{field} says {said}, and {what} {real}"
    if swapped(said) == real:
        return f"{text}; {said} is {said:#06x}: the two bytes look swapped ({real:#06x} is {real})"
    if owner.kind == "header" and said == real - len(owner.data):
        return f"{text}: it leaves its own {len(owner.data)} bytes out"
    return text


def wrong_total(place, data):
    """G5: the configuration's total, or the header's."""
    blocks, rest = cut(data)
    owner = next(one for one in blocks if one.kind == "configuration")
    header = next((one for one in blocks if one.kind == "header"), None)
    block = next((one for one in blocks if one.place == place), None)
    end = len(data) - len(rest)
    limit = owner.place + owner["total"]
    if block is None or block.place + len(block.data) > limit:
        if limit < end and limit in [one.place for one in blocks] and data[limit + 1] == 2:
            return Finding("behind-total", f"another configuration stands behind the first, at {limit}",
                           "give one configuration alone: the bytes from there on left out", owner, {"total": None}, at=limit)
        if header is None or block is not None or end != limit:
            return configuration_total(owner, block, end, blocks)
    if block is not None and block.kind == "header" and block is not header:
        return Finding("second-header", f"a second header stands at {place}; the first, at {header.place}, counts all entities",
                       f"leave it out: {len(block.data)} bytes less in wTotalLength of the configuration", block, {"subtype": None},
                       at=place)
    return header_total(header, block, blocks)


def is_cut_off(owner, blocks):
    """Whether the bytes end before the total, and before all interfaces that the configuration counts."""
    end = blocks[-1].place + len(blocks[-1].data)
    return owner.place + owner["total"] > end and len({one["number"] for one in blocks if one.kind == "interface"}) < owner["interfaces"]


def configuration_total(owner, block, end, blocks):
    real = end - owner.place
    text = total_text(owner, owner["total"], real, "the blocks end at")
    missing = f"give the {counted(owner['total'] - real, 'byte')} missing at the end"
    if is_cut_off(owner, blocks):
        there = len({one["number"] for one in blocks if one.kind == "interface"})
        return Finding("total", f"{text}; bNumInterfaces says {owner['interfaces']}, and {there} are there: the input looks cut off",
                       missing, owner, {"total": None})
    is_swapped = swapped(owner["total"]) == real
    if block is not None and not is_swapped:
        text += f"; {named(block)} is the first that ends past it"
    advice = write(owner, "total", real) + ("" if block is not None or is_swapped else f", or {missing}")
    return Finding("total", text, advice, owner, {"total": real})


def block_between(parts, blocks):
    """The block that ends the list of entities, where more entities stand behind it in the control interface; else None."""
    rest = blocks[blocks.index(parts[-1]) + 1:]
    end = next((at for at, one in enumerate(rest) if one.kind in ("interface", "association")), len(rest))
    return rest[0] if any(one.kind in ENTITY_KINDS for one in rest[1:end]) else None


def header_total(header, block, blocks):
    parts = entity_list(blocks, header)
    real = sum(len(one.data) for one in parts)
    between = block_between(parts, blocks)
    if between is not None:
        return Finding("list-broken", f"{with_article(kind_name(between))} stands at {between.place} among the entities: the list that the "
                       f"header counts ends there, after {real} bytes, and its wTotalLength says {header['total']}",
                       "put it behind the last entity", between, {"type": None})
    text = total_text(header, header["total"], real, "the header and the entities behind it have")
    if block is not None and header["total"] < real - len(header.data):
        text += f"; {named(block)} is the first that ends past it"
    return Finding("header-total", text, write(header, "total", real), header, {"total": real})


# ---- the audio association

def audio_interfaces(blocks, subclass=None):
    """The interface blocks of class 1, of all versions."""
    return [one for one in blocks if one.kind == "interface" and one["class"] == 1 and subclass in (None, one["subclass"])]


def without_association(place, data):
    """G7: what stands in place of the association and the control interface."""
    blocks, _ = cut(data)
    block = next((one for one in blocks if one.place == place), None)
    before = [one for one in blocks if one.place < place]
    last = before[-1] if before else None
    if last is not None and last.kind == "association":
        return behind_association(last, block, blocks, len(data))
    if block is not None:
        return no_association(block, blocks)
    versions = sorted({one["protocol"] for one in audio_interfaces(blocks, 1)})
    if any(one.kind == "association" and is_of_audio(one) for one in before):
        return Finding("control-not-first", "no control interface (class 1, subclass 1, protocol 0x20) stands behind the audio association",
                       "put it right behind the association", before[-1], at=place)
    if versions:
        named_versions = " and ".join(VERSIONS.get(one, f"protocol {one:#04x}") for one in versions)
        first = audio_interfaces(blocks, 1)[0]
        return Finding("other-version", f"the audio function is of version {named_versions}, and version 2.0 alone is taken",
                       "give the configuration in which the device has its function of version 2.0, where it has one", first,
                       {"protocol": None})
    first = next((one for one in blocks if one.kind == "interface"), None)
    classes = sorted({one["class"] for one in blocks if one.kind == "interface"})
    what = "has interfaces of " + ("class " if len(classes) == 1 else "classes ") + ", ".join(f"{one:#04x}" for one in classes) \
        if classes else "has no interface"
    return Finding("no-audio", f"no audio function is here: the configuration {what}, and an audio interface has class 0x01",
                   "give the configuration of the audio device", first, {"class": None} if first else {}, wanted=1)


def association_bytes(block, blocks):
    """The association that would stand in front of a control interface."""
    numbers = {one["number"] for one in audio_interfaces(blocks) if one["subclass"] in (1, 2)}
    last = block["number"]
    while last + 1 in numbers:
        last += 1
    return bytes((8, 0x0B, block["number"], last - block["number"] + 1, 1, 0, 0x20, 0))


def no_association(block, blocks):
    what = "control interface" if block["subclass"] == 1 else "streaming interface"
    other = next((one for one in blocks if one.kind == "association" and one["first"] == block["number"] and not is_of_audio(one)), None)
    if other is not None:
        return wrong_association(other, block)
    fresh = association_bytes(block, blocks).hex(" ")
    return Finding("no-association", f"no audio association (type 0x0B) stands in front of the {what} at {block.place}",
                   f"put {fresh} there; its 8 bytes count in wTotalLength", block, at=block.place, wanted=fresh)


def wrong_association(last, block):
    """An association in front of audio interfaces that isn't one of audio."""
    fields = {name: right for name, right in (("class", 1), ("protocol", 0x20)) if last[name] != right}
    said = " and ".join(f"{standard_name('association', name)} {last[name]:#04x}" for name in fields)
    advice = " and ".join(write(last, name, right, f"{right:#04x}") for name, right in fields.items())
    return Finding("association-codes", f"the association at {last.place}, in front of the audio interface at {block.place}, has {said}: "
                   "it isn't an audio association (class 0x01, protocol 0x20)", advice, last, fields)


def behind_association(last, block, blocks, end):
    is_interface = block is not None and block.kind == "interface"
    if not is_of_audio(last):
        return wrong_association(last, block) if block is not None else Finding(
            "no-audio", f"the input ends behind the association at {last.place}", "give the audio function too", last, at=end)
    if is_interface and block["class"] == 1 and block["subclass"] == 1:
        others = [one for one in audio_interfaces(blocks) if one is not block and one["protocol"] != 0x20 and one.place > last.place]
        protocol = block["protocol"]
        also = f"; so have {len(others)} interface blocks behind it, at {', '.join(str(one.place) for one in others)}" if others else ""
        return Finding("control-protocol", f"the control interface at {block.place} has bInterfaceProtocol {protocol:#04x}"
                       + (f", audio {VERSIONS[protocol]}" if protocol in VERSIONS else "")
                       + f", behind an association of version 2.0{also}",
                       write(block, "protocol", 0x20, "0x20") + (" and in theirs" if others else "")
                       + ("; the blocks behind have to be those of version 2.0, too" if protocol == 0x30 else ""), block,
                       {"protocol": 0x20})
    if block is None:
        return Finding("control-not-first", f"the input ends behind the audio association at {last.place}",
                       "give the control interface too", last, at=end)
    codes = f"class {block['class']:#04x}, subclass {block['subclass']:#04x}" if is_interface else ""
    what = f"the interface at {block.place} ({codes})" if is_interface else named(block)
    return Finding("control-not-first" if is_interface else "behind-association",
                   f"{what} stands right behind the audio association, where the control interface has its place",
                   f"put the control interface (class 1, subclass 1, protocol 0x20) right behind the association at {last.place}", block,
                   {"subclass": 1} if is_interface else {"type": None}, at=block.place)


# ---- the other rules

def unknown_unit(block):
    subtype = block.data[2]
    if block.data[1] == 0x24 and subtype in UNITS_LEFT_OUT:
        return Finding("unit-kind", f"{UNITS_LEFT_OUT[subtype]} (subtype {subtype:#04x}) stands at {block.place}, and none is taken here",
                       "nothing is wrong with it by the standard; to try the rest here, leave it out and have who names it name its source",
                       block, {"subtype": None})
    return Finding("unknown-kind", f"the class block at {block.place} has type {block.data[1]:#04x} and subtype {subtype:#04x}, "
                   "which no entity has", "write the subtype of its kind: 2 to 13", block, {"subtype": None})


def comes_again(block, blocks):
    if block.kind == "association":
        return Finding("second-function", f"a second audio association stands at {block.place}, and one function is taken here",
                       "give the first function alone", block, {"protocol": None}, at=block.place)
    first = next(one for one in blocks if one.kind == "interface" and (one["class"], one["subclass"], one["protocol"]) == (1, 1, 0x20))
    text = f"a second control interface stands at {block.place}; the first is at {first.place}"
    if block["number"] == first["number"] and block["setting"] != first["setting"]:
        text = f"the control interface has a second setting at {block.place}, and it has setting 0 alone"
    return Finding("second-control", text, "leave it out, or give it the subclass 2 of a streaming interface", block, {"subclass": 2})


def grammar_finding(rule, place, data):
    """The finding of a broken rule of the grammar."""
    blocks, _ = cut(data)
    block = next((one for one in blocks if one.place == place), None)
    if is_text(data):
        return cut_short(place, data)
    makers = {"G1": lambda: cut_short(place, data), "G2": lambda: without_length(place, data), "G3": lambda: wrong_length(block, data),
              "G4": lambda: wrong_value(block), "G5": lambda: wrong_total(place, data), "G6": lambda: order_finding(place, data),
              "G7": lambda: without_association(place, data), "G8": lambda: unknown_unit(block),
              "G9": lambda: comes_again(block, blocks)}
    finding = makers[rule]()
    finding.rule = rule
    return finding
