"""What a sound descriptor is warned of: what the program doesn't look at, and hosts do. Each warning is a row of rules.py."""
from controls import access_of, control_of, words_of
from descriptor import ENTITY_KINDS, entities_of, is_of_audio, is_streaming, settings_of, standard_name
from finding import Finding, kind_name, low_first, write
from refusals import VERSIONS, swapped
from terminals import entity_name
from topology import counted, is_usb, list_of, locations_of, channels_of, place_names


def interfaces(blocks):
    return [one for one in blocks if one.kind == "interface"]


def endpoints(blocks):
    """Each endpoint of any interface with its interface block: read by its bytes, since those of foreign interfaces are kept whole."""
    owner = None
    for block in blocks:
        if block.kind == "interface":
            owner = block
        elif block.data[1] == 5 and len(block.data) >= 7 and owner is not None:
            yield owner, block, block.data[2]


def same_address(blocks):
    """Two endpoints of one address in one setting, or in two interfaces: told once for each address and pair of interfaces."""
    seen, told = [], set()
    for owner, block, address in endpoints(blocks):
        for other, first, named in seen:
            is_same = owner is other or owner["number"] != other["number"]
            if named == address and is_same and (address, owner["number"], other["number"]) not in told:
                told.add((address, owner["number"], other["number"]))
                where = f"setting {owner['setting']} of interface {owner['number']}" if owner is other else \
                    f"interfaces {other['number']} and {owner['number']}"
                taken = {one for _, _, one in endpoints(blocks)}
                free = next(one for one in range(address & 0x80 | 1, (address & 0x80) + 16) if one not in taken or one & 15 == 15)
                yield Finding("same-address", f"two endpoints of {where} have the address {address:#04x}, at {first.place} and "
                              f"{block.place}", f"write an address that none has in byte {block.place + 2}, as {free:#04x}", block,
                              {"address": free} if block.kind == "endpoint" else {}, wanted=free)
        seen.append((owner, block, address))


def function_numbers(blocks):
    """The numbers of the function's interfaces: the control interface's and the streaming ones', hidden ones too."""
    streams = [one for one in interfaces(blocks) if is_streaming(one)] + list(hidden(blocks))
    return sorted({control_block(blocks)["number"]} | {one["number"] for one in streams})


def control_block(blocks):
    return next(one for one in interfaces(blocks) if (one["class"], one["subclass"], one["protocol"]) == (1, 1, 0x20))


def associations(blocks):
    numbers, there = function_numbers(blocks), {one["number"] for one in interfaces(blocks)}
    for block in (one for one in blocks if one.kind == "association"):
        first, count = block["first"], block["count"]
        if not is_of_audio(block):
            missing = [one for one in range(first, first + count) if one not in there]
            if missing:
                are = f"interface {missing[0]} isn't" if len(missing) == 1 else f"interfaces {list_of(missing)} aren't"
                left = count - len(missing)
                yield Finding("association-count", f"the association at {block.place} counts {counted(count, 'interface')} from {first} "
                              f"on, and {are} there", write(block, "count", left) if left else "leave it out", block,
                              {"count": left or None})
            continue
        yield from of_audio_association(block, numbers)


def of_audio_association(block, numbers):
    first, count, control = block["first"], block["count"], numbers[0]
    if first != numbers[0]:
        yield Finding("association-first", f"bFirstInterface of the audio association is {first}, and its first interface has the number "
                      f"{control}", write(block, "first", control), block, {"first": control})
    if count != len(numbers):
        yield Finding("association-count", f"bInterfaceCount of the audio association is {count}, and its function has "
                      f"{counted(len(numbers), 'interface')} ({list_of(numbers)})", write(block, "count", len(numbers)), block,
                      {"count": len(numbers)})
    if numbers != list(range(numbers[0], numbers[0] + len(numbers))):
        yield Finding("association-count", f"the function's interfaces {list_of(numbers)} don't follow one another, and an association "
                      "names those that do", "number them in turn", block, {"count": None})
    if block["subclass"] != 0:
        yield Finding("association-subclass", f"bFunctionSubClass of the audio association is {block['subclass']:#04x}, and an audio "
                      "association has 0x00 there", write(block, "subclass", 0, "0x00"), block, {"subclass": 0})


def configuration(blocks):
    block = next(one for one in blocks if one.kind == "configuration")
    numbers = sorted({one["number"] for one in interfaces(blocks)})
    if block["interfaces"] != len(numbers):
        yield Finding("interface-count", f"bNumInterfaces is {block['interfaces']}, and {counted(len(numbers), 'interface')} "
                      f"{'is' if len(numbers) == 1 else 'are'} there ({list_of(numbers)})", write(block, "interfaces", len(numbers)), block,
                      {"interfaces": len(numbers)})
    if not block["attributes"] & 0x80:
        right = block["attributes"] | 0x80
        yield Finding("reserved-bit", f"bmAttributes of the configuration is {block['attributes']:#04x}, and its bit 7 is always 1",
                      write(block, "attributes", right, f"{right:#04x}"), block, {"attributes": right})


def control_interface(blocks):
    block = control_block(blocks)
    at = blocks.index(block)
    end = next((k for k in range(at + 1, len(blocks)) if blocks[k].kind in ("interface", "association")), len(blocks))
    count = sum(one.data[1] == 5 for one in blocks[at:end])
    if block["setting"] != 0:
        yield Finding("control-setting", f"bAlternateSetting of the control interface is {block['setting']}, and it has setting 0 alone",
                      write(block, "setting", 0), block, {"setting": 0})
    if block["endpoints"] != count:
        there = f"{counted(count, 'endpoint')} stand" if count > 1 else "1 endpoint stands" if count else "none stands"
        yield Finding("control-endpoints", f"bNumEndpoints of the control interface is {block['endpoints']}, and {there} there",
                      write(block, "endpoints", count), block, {"endpoints": count})


def name_of(setting):
    return f"interface {setting['number']} setting {setting['setting']}"


def class_endpoints(blocks):
    """Data endpoints of streaming interfaces without their class endpoint."""
    for setting in settings_of(blocks):
        for block in setting["endpoint"]:
            at = blocks.index(block)
            following = blocks[at + 1] if at + 1 < len(blocks) else None
            is_data = block["attributes"] >> 4 & 3 != 1
            if is_data and (following is None or following.kind != "class_endpoint"):
                yield Finding("class-endpoint", f"the data endpoint {block['address']:#04x} of {name_of(setting)}, at {block.place}, has "
                              "no class endpoint (25 01) behind it", f"put 08 25 01 00 00 00 00 00 at {block.place + 7}; its 8 bytes "
                              "count in wTotalLength", block, {}, at=block.place, wanted="08 25 01 00 00 00 00 00")


def formats(blocks):
    for setting in settings_of(blocks):
        general, ends = setting.get("general"), setting["endpoint"]
        if not ends:
            continue
        if general is None:
            yield Finding("no-format", f"{name_of(setting)} has endpoints and no General (24 01)",
                          "put its General, 16 bytes, in front of them", ends[0], {}, at=ends[0].place)
        elif general["format_type"] == 1 and "type_one" not in setting:
            yield Finding("no-format", f"{name_of(setting)} says format type 1, and no Type I block (24 02 01) stands behind its General "
                          f"at {general.place}", f"put 06 24 02 01, the bytes of a sample and its bits at {general.place + 16}; its 6 "
                          "bytes count in wTotalLength", general, {}, at=general.place)


def hidden(blocks):
    """Streaming interfaces of another protocol, which no control interface of theirs stands in front of."""
    control = None
    for block in interfaces(blocks):
        if block["class"] == 1 and block["subclass"] == 1:
            control = block["protocol"]
        if block["class"] == 1 and block["subclass"] == 2 and block["protocol"] not in (0x20, control):
            yield block


def hidden_streams(blocks):
    for block in hidden(blocks):
        version = VERSIONS.get(block["protocol"])
        yield Finding("hidden-stream", f"interface {block['number']} setting {block['setting']}, at {block.place}, has "
                      f"bInterfaceProtocol {block['protocol']:#04x}" + (f" (audio {version})" if version else "") + " in a function "
                      "of version 2.0: it counts as none of its streams", write(block, "protocol", 0x20, "0x20"), block, {"protocol": 0x20})


def terminals(blocks):
    by_id = entities_of(blocks)
    links = {one["general"]["link"] for one in settings_of(blocks) if "general" in one}
    for block in by_id.values():
        if is_usb(block) and block["id"] not in links and not any(hidden(blocks)):
            kind = "0x0301 for a speaker" if block.kind == "output_terminal" else "0x0201 for a microphone"
            yield Finding("unlinked-terminal", f"{entity_name(block)}, at {block.place}, is a terminal of the bus, and no interface links "
                          "to it", f"write the type of a jack in wTerminalType, as {kind}, or link an interface to it", block,
                          {"terminal_type": None})
        if block["assoc"] and block["terminal_type"] is not None and not is_terminal(by_id.get(block["assoc"])):
            yield Finding("associated-terminal", f"bAssocTerminal of {entity_name(block)} is {block['assoc']}, and no terminal has that id",
                          write(block, "assoc", 0) + ", which names none", block, {"assoc": 0})


def is_terminal(block):
    return block is not None and block["terminal_type"] is not None


def clusters(blocks):
    """Generals whose channels lie elsewhere than their terminal's, or that have more locations than channels."""
    by_id = entities_of(blocks)
    for setting in settings_of(blocks):
        general = setting.get("general")
        if general is None or by_id.get(general["link"]) is None:
            continue
        terminal = by_id[general["link"]]
        wanted, there = locations_of(terminal, by_id), general["locations"]
        name = f"the General of {name_of(setting)}, at {general.place},"
        if there != wanted and general["channels"] == channels_of(terminal, by_id):
            yield Finding("general-locations", f"{name} has its channels at {words_of_places(there)}, and {entity_name(terminal)} at "
                          f"{words_of_places(wanted)}", write(general, "locations", wanted, f"{wanted:#010x}"), general,
                          {"locations": wanted})
        elif bin(there).count("1") > general["channels"]:
            yield Finding("general-locations", f"{name} has {counted(general['channels'], 'channel')} and "
                          f"{counted(bin(there).count('1'), 'location')} ({', '.join(place_names(there))})",
                          f"{write(general, 'channels', bin(there).count('1'))}, or take locations away", general,
                          {"channels": bin(there).count("1")})


def words_of_places(locations):
    names = place_names(locations)
    return list_of(names) if names else "no location"


def is_swapped(word):
    """Whether a control word looks like one whose bytes stand the other way round: nothing in its low half, and mute or volume in it
    when turned."""
    turned = swapped(word, 4)
    return word != 0 and word & 0xFFFF == 0 and turned & 0xF and all(turned >> 2 * at & 3 != 2 for at in range(16))


def control_words(blocks):
    for block in (one for one in blocks if one.kind in ("feature", "effect")):
        wrong = {f"words[{at}]": swapped(word, 4) for at, word in enumerate(block["words"]) if is_swapped(word)}
        if wrong:
            shown = list_of(f"{at} ({block['words'][at]:#010x})" for at in range(len(block["words"])) if f"words[{at}]" in wrong)
            first = next(iter(wrong))
            yield Finding("swapped-controls", f"the bytes of the control {'word' if len(wrong) == 1 else 'words'} {shown} of "
                          f"{entity_name(block)}, at {block.place}, look swapped", write(block, first, wrong[first], f"{wrong[first]:#x}")
                          + (f", and the others likewise: {', '.join(low_first(one, 4) for one in list(wrong.values())[1:])}"
                             if len(wrong) > 1 else ""), block, wrong)


def unplayed_bits(blocks):
    """Bits 10 of controls of which G4 doesn't speak: nothing here plays them."""
    for block in blocks:
        if block.kind == "header" or block.kind in ENTITY_KINDS or block.kind in ("general", "class_endpoint"):
            words = words_of(block)
            for at, word in enumerate(words):
                bits = [bit for bit in range(16) if word >> 2 * bit & 3 == 2]
                if bits and not is_swapped(word):
                    field = f"words[{at}]" if block["words"] is not None else "controls"
                    right = word | sum(1 << 2 * bit for bit in bits)
                    name = entity_name(block) if block.kind in ENTITY_KINDS else f"the {kind_name(block)} at {block.place}"
                    yield Finding("unplayed-bits", f"{standard_name(block.kind, field)} of {name} is {word:#x}: bits "
                                  f"{2 * bits[0] + 1}..{2 * bits[0]} are 10, which no control may have",
                                  f"{write(block, field, right, f'{right:#x}')}, or 00 where it isn't there", block, {field: right})


def packets(blocks):
    """Sizes that additional transactions don't allow, and reports that are too small."""
    least = {0: 0, 1: 513, 2: 683}
    for setting in settings_of(blocks):
        for at, block in enumerate(setting["endpoint"]):
            size, more = block["max_packet"] & 0x7FF, block["max_packet"] >> 11 & 3
            name = f"the endpoint {block['address']:#04x} of {name_of(setting)}, at {block.place},"
            if size < least.get(more, 0):
                right = size * (1 + more)
                fits = right if right <= 1024 else None
                advice = f"{write(block, 'max_packet', fits)} for the same {right} bytes in a microframe" if fits else \
                    f"write {least[more]} bytes or more, or fewer transactions"
                yield Finding("packet-size", f"{name} has {size} bytes and {counted(more, 'additional transaction')}, where {least[more]} "
                              "to 1024 bytes are allowed", advice, block, {"max_packet": fits})
            if at == 1 and block["attributes"] >> 4 & 3 == 1 and size < 4:
                yield Finding("feedback-size", f"{name} sends feedback in {size} bytes; at high speed it has 4 (3 is full speed's)",
                              write(block, "max_packet", 4), block, {"max_packet": 4})


def fixed_clocks(blocks):
    for block in (one for one in blocks if one.kind == "clock_source"):
        if block["attributes"] & 3 == 1 and access_of(block, control_of("clock_source", 1)) == "host-programmable":
            right = block["controls"] & ~2
            advice = (f"{write(block, 'controls', right, f'{right:#04x}')} where it is fixed, "
                      "or 3 (programmable) in bits 1..0 of bmAttributes")
            yield Finding("fixed-writable", f"{entity_name(block)}, at {block.place}, is internal and fixed, and a host may set its "
                          "frequency", advice, block, {"controls": right})


def companions(blocks):
    for block in blocks:
        if block.data[1] == 0x30:
            yield Finding("super-speed", f"a companion of super speed (type 0x30) stands at {block.place}: this is what the device tells "
                          "at super speed, and the rules of high speed judge it", "give what the device tells at high speed", block,
                          {"type": None})


SPEEDS = {"1.5": "low speed", "12": "full speed", "5000": "super speed", "10000": "super speed", "20000": "super speed"}


def other_speed(speed):
    """The warning of a `speed` file beside a descriptor, as sysfs has it; None where that is high speed, or says nothing known."""
    name = SPEEDS.get(speed)
    if name is None:
        return None
    more = ", where packets and reports come every millisecond and a report has 3 bytes" if name == "full speed" else ""
    return Finding("speed", f"the device runs at {name} ({speed} Mbit/s in the file 'speed' beside){more}: the rules of high speed judge "
                   "it, so intervals, packet sizes and rates below aren't its own", "plug it in at high speed for a verdict of its own")


def cautions(blocks, speed=None):
    """All warnings and limits of a sound descriptor, those of streams that can't run left out (see streams.py), by their places."""
    makers = (configuration, associations, control_interface, same_address, class_endpoints, formats, hidden_streams, terminals, clusters,
              control_words, unplayed_bits, packets, fixed_clocks, companions)
    found = [one for make in makers for one in make(blocks)]
    found.sort(key=lambda one: (one.place or 0))
    first = other_speed(speed)
    return ([first] if first else []) + found
