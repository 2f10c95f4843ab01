"""What a broken rule of streaming interfaces (U12, U13, and U14 of them) finds: the mistake in words, and what to write."""
from descriptor import entities_of, is_streaming, settings_of
from finding import Finding, write
from old_forms import fits_channels, renewed
from terminals import entity_name
from topology import counted, entity_finding, is_usb, list_of


def interface_block(blocks, number, setting=None):
    return next((one for one in blocks if one.kind == "interface" and is_streaming(one) and one["number"] == number
                 and setting in (None, one["setting"])), None)


def is_out(setting):
    """Whether a setting's first endpoint that isn't feedback leads to the device; None where it has none."""
    data = [one for one in setting["endpoint"] if one["attributes"] >> 4 & 3 != 1] or setting["endpoint"]
    return data[0]["address"] < 128 if data else None


def ways(settings):
    """The way of an interface's endpoints, by its settings; None where it has none."""
    return next((is_out(one) for one in settings if one["endpoint"]), None)


def fits_way(terminal, out):
    """Whether a USB terminal is of the way of an endpoint: an input terminal takes what an OUT endpoint brings."""
    return out is None or (terminal.kind == "input_terminal") == out


def interfaces_of(blocks):
    """The settings of each streaming interface, by its number, in their order."""
    found = {}
    for one in settings_of(blocks):
        found.setdefault(one["number"], []).append(one)
    return found


def links_of(settings):
    return [one["general"]["link"] for one in settings if "general" in one]


def free_terminal(blocks, number, out):
    """A USB terminal of an endpoint's way that no other interface links to."""
    taken = {link for other, settings in interfaces_of(blocks).items() if other != number for link in links_of(settings)}
    fits = [one for one in entities_of(blocks).values() if is_usb(one) and fits_way(one, out) and one["id"] not in taken]
    return fits[0] if len(fits) == 1 else None


def way_words(out):
    return "an OUT endpoint" if out else "an IN endpoint"


def advise_link(general, blocks, number, out):
    """What link would be right, and where a terminal's type is wrong in its place, that."""
    by_id = entities_of(blocks)
    terminal = free_terminal(blocks, number, out)
    if terminal is not None:
        return f"{write(general, 'link', terminal['id'])}, the id of {entity_name(terminal)}", terminal["id"]
    taken = {link for other, settings in interfaces_of(blocks).items() if other != number for link in links_of(settings)}
    usb = [entity_name(one) for one in by_id.values() if is_usb(one) and fits_way(one, out) and one["id"] not in taken]
    kind = "input" if out else "output"
    return (f"link to one that no other interface has: {list_of(usb)}" if usb
            else f"give it an {kind} terminal of type 0x0101 (USB streaming) of its own, and link to that"), None


def wrong_link(number, blocks):
    """U12."""
    by_id, every = entities_of(blocks), interfaces_of(blocks)
    settings = every.get(number, [])
    generals = [one["general"] for one in settings if "general" in one]
    general, out = generals[0], ways(settings)
    other = next((one for one in generals if one["link"] != general["link"]), None)
    bad = next((one for one in generals if not is_usb(by_id.get(one["link"]))), None)
    if bad is not None:
        return link_elsewhere(number, bad, blocks, out)
    if other is not None:
        return Finding("links-differ", f"a setting of interface {number} links to {other['link']}, and its first to {general['link']}",
                       write(other, "link", general["link"]), other, {"link": general["link"]})
    earlier = next(one for one in list(every)[:list(every).index(number)] if general["link"] in links_of(every[one]))
    return link_taken(number, earlier, general, blocks)


def link_elsewhere(number, general, blocks, out):
    """A link to what is no USB terminal: the link is wrong, or the terminal's type is."""
    by_id, link = entities_of(blocks), general["link"]
    terminal = by_id.get(link)
    advice, right = advise_link(general, blocks, number, out)
    if terminal is None:
        return Finding("link-missing", f"interface {number} links to {link} at {general.place}, and no entity has that id", advice, general,
                       {"link": right})
    if right is None and terminal["terminal_type"] is not None and fits_way(terminal, out):
        return Finding("link-elsewhere", f"interface {number} links to {entity_name(terminal)} at {terminal.place}, whose type is "
                       f"{terminal['terminal_type']:#06x}; a terminal of the bus has 0x0101 (USB streaming)",
                       write(terminal, "terminal_type", 0x0101, "0x0101"), terminal, {"terminal_type": 0x0101})
    what = f", of type {terminal['terminal_type']:#06x}: it" if terminal["terminal_type"] is not None else ": that"
    return Finding("link-elsewhere", f"interface {number} links to {entity_name(terminal)}{what} isn't a terminal of the bus (0x0101)",
                   advice, general, {"link": right})


def link_taken(number, earlier, general, blocks):
    """Two interfaces with one link: named is the one whose endpoint goes the other way than the terminal."""
    by_id, every = entities_of(blocks), interfaces_of(blocks)
    terminal = by_id[general["link"]]
    first = next(one["general"] for one in every[earlier] if "general" in one and one["general"]["link"] == general["link"])
    for wrong, block, other, there in ((earlier, first, number, general), (number, general, earlier, first)):
        out = ways(every[wrong])
        if not fits_way(terminal, out):
            advice, right = advise_link(block, blocks, wrong, out)
            settings = [one for one in every[wrong] if one["endpoint"]]
            end = settings[0]["endpoint"][0]
            takes = "takes what an OUT endpoint brings" if terminal.kind == "input_terminal" else "sends by an IN endpoint"
            return Finding("link-wrong-way", f"interfaces {earlier} and {number} both link to {entity_name(terminal)}, which {takes}; "
                           f"interface {wrong} has {way_words(out)} ({end['address']:#04x}), so its link at {block.place} is wrong and "
                           f"that of interface {other} at {there.place} is right", advice, block, {"link": right})
    advice, right = advise_link(general, blocks, number, ways(every[number]))
    return Finding("link-taken", f"interface {number} links to {entity_name(terminal)}, and interface {earlier} links to it already, at "
                   f"{first.place}", advice, general, {"link": right})


# ---- endpoints

def miscounted(blocks, number):
    """The first setting of an interface that has other endpoints than it says, or is setting 0 and has some, with their number."""
    for at, block in enumerate(blocks):
        if block.kind == "interface" and is_streaming(block) and block["number"] == number:
            ends = next((k for k in range(at + 1, len(blocks)) if blocks[k].kind in ("interface", "association")), len(blocks))
            there = [one for one in blocks[at:ends] if one.kind == "endpoint"]
            if len(there) != block["endpoints"] or block["setting"] == 0 and there:
                return block, there
    return None


def wrong_count(block, there):
    name = f"setting {block['setting']} of interface {block['number']}"
    if block["setting"] == 0 and there:
        case = "setting-0-endpoint" if any(one["max_packet"] & 0x7FF for one in there) else "setting-0-idle"
        return Finding(case, f"{name}, at {block.place}, has {counted(len(there), 'endpoint')}, at {list_of(one.place for one in there)}; "
                       "setting 0 has none, since it takes nothing of the bus", "put what streams into setting 1, and " + write(block,
                                                                                                                                "endpoints",
                                                                                                                        0),
                       block, {"endpoints": 0})
    said, real = block["endpoints"], len(there)
    advice = write(block, "endpoints", real)
    if real == 1 and said == 2 and there[0]["address"] < 128:
        advice += (f", or put the feedback endpoint (07 05 {there[0]['address'] | 0x80:02x} 11 04 00 04) behind the class endpoint; its 7 "
                   "bytes count in wTotalLength")
    return Finding("endpoint-count", f"bNumEndpoints of {name}, at {block.place}, is {said}, and {counted(real, 'endpoint')} "
                   f"{'stands' if real == 1 else 'stand'} behind it", advice, block, {"endpoints": real})


def wrong_endpoint(blocks, number):
    """The first endpoint of an interface that may not stand there, and what would be right."""
    settings = interfaces_of(blocks)[number]
    link = next(iter(links_of(settings)), 0)
    terminal = entities_of(blocks).get(link)
    to_device = terminal is not None and terminal.kind == "input_terminal"
    for setting in settings:
        name = f"setting {setting['setting']} of interface {number}"
        for at, (block, out) in enumerate(zip(setting["endpoint"], (to_device, not to_device))):
            usage = block["attributes"] >> 4 & 3
            is_right = block["attributes"] & 3 == 1 and usage in ((0, 2), (1,))[at]
            if not is_right or (block["address"] < 128) != out:
                return (data_endpoint, feedback_endpoint)[at](block, out, name, terminal, is_right)
    return None


def turned(block, out):
    """The address of an endpoint in the other direction."""
    return block["address"] & 0x7F | (0 if out else 0x80)


def data_endpoint(block, out, name, terminal, is_right):
    address, attributes = block["address"], block["attributes"]
    front = f"the first endpoint of {name}, at {block.place},"
    if attributes & 3 == 1 and attributes >> 4 & 3 == 1:
        return Finding("feedback-first", f"{front} is feedback (bmAttributes {attributes:#04x}); the data endpoint has to come first",
                       "put the endpoint that carries data in front", block, {"attributes": 0x05})
    if not is_right:
        return Finding("data-endpoint", f"{front} has bmAttributes {attributes:#04x}: it isn't isochronous data",
                       write(block, "attributes", 0x05, "0x05") + " (isochronous, asynchronous, data)", block, {"attributes": 0x05})
    what = entity_name(terminal) if terminal is not None else "no terminal"
    right = turned(block, out)
    return Finding("data-endpoint", f"{front} has the address {address:#04x}, {'IN' if address & 0x80 else 'OUT'}, and its interface "
                   f"links to {what}, which wants an {'OUT' if out else 'IN'} endpoint", write(block, "address", right, f"{right:#04x}"),
                   block,
                   {"address": right})


def feedback_endpoint(block, out, name, terminal, is_right):
    address, attributes = block["address"], block["attributes"]
    front = f"the second endpoint of {name}, at {block.place},"
    if not is_right:
        return Finding("feedback-endpoint", f"{front} has bmAttributes {attributes:#04x}, which doesn't say feedback",
                       write(block, "attributes", 0x11, "0x11") + " (isochronous, feedback)", block, {"attributes": 0x11})
    right = turned(block, out)
    return Finding("feedback-endpoint", f"{front} has the address {address:#04x}, {'IN' if address & 0x80 else 'OUT'}; feedback goes the "
                   "other way than the data", write(block, "address", right, f"{right:#04x}"), block, {"address": right})


def interface_finding(rule, number, blocks):
    if rule == "U12":
        return wrong_link(number, blocks)
    if rule == "U13":
        counts = miscounted(blocks, number)
        return wrong_count(*counts) if counts else wrong_endpoint(blocks, number)
    every, block = interfaces_of(blocks), interface_block(blocks, number)
    if list(every).index(number) >= 8:
        return Finding("interfaces", f"interface {number} is the ninth streaming interface, and 8 are taken here", "leave it out", block,
                       {"number": None})
    return Finding("settings", f"interface {number} has {len(every[number])} settings, and 16 are taken here", "leave the last ones out",
                   block, {"number": None})


def old_feature(rule, number, blocks):
    """The finding of a rule that an entity breaks; a feature that breaks U9 may have the form of audio 1.0."""
    by_id = entities_of(blocks)
    block = by_id.get(number)
    if rule != "U9" or block.kind != "feature" or not fits_channels(block, by_id):
        return entity_finding(rule, number, blocks)
    fresh = renewed(block, by_id).hex(" ")
    return Finding("feature-1.0", f"this is the audio 1.0 form of a feature unit: bControlSize {block.data[5]} in byte {block.place + 5}, "
                   "and then as many bytes for the master and each channel", f"write {fresh}, and count its bytes in the totals: version "
                   "2.0 has no bControlSize, and 4 bytes for the master and each channel, two bits a control", block, {"length": None},
                   wanted=fresh)


def topology_finding(rule, which, number, blocks):
    """The finding of a broken rule of the topology, by what the program names: an entity, or an interface."""
    finding = old_feature(rule, number, blocks) if which == "entity" else interface_finding(rule, number, blocks)
    finding.rule = rule
    return finding
