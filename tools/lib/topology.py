"""What a broken rule of the topology (U) finds in a descriptor: the mistake, in the words of who sees it, and what to write.

Which rule is broken by whom is the program's answer; here the words are found for it. Rules of lesser number hold by then."""
from descriptor import ENTITY_KINDS, LOCATIONS, entities_of
from finding import Finding, write
from terminals import USB_STREAMING, entity_name, kind_words

CLOCKS = ("clock_source", "clock_selector", "clock_multiplier")


def list_of(items):
    items = [str(item) for item in items]
    return ", ".join(items[:-1]) + " and " + items[-1] if len(items) > 1 else "".join(items)


def counted(count, word):
    return f"{count} {word}{'' if count == 1 else 's'}"


def signal_sources(block):
    """The signal sources of a unit or an output terminal."""
    return [] if block.kind in CLOCKS or block.kind == "input_terminal" else block.sources or []


def is_silent(block):
    return block.kind in CLOCKS or block.kind == "output_terminal"


def channels_of(block, by_id):
    """The channels that an entity puts out: a cluster of its own, or that of its first source."""
    seen = set()
    while block["channels"] is None and signal_sources(block) and block["id"] not in seen:
        seen.add(block["id"])
        following = by_id.get(signal_sources(block)[0])
        if following is None:
            return 0
        block = following
    return block["channels"] or 0


def locations_of(block, by_id):
    """The locations that an entity puts out, as the standard hands them on: a unit has those of its first source."""
    seen = set()
    while block is not None and block["locations"] is None and signal_sources(block) and block["id"] not in seen:
        seen.add(block["id"])
        block = by_id.get(signal_sources(block)[0])
    return (block["locations"] if block is not None else None) or 0


def behind(block, by_id):
    """The ids to which signal links lead from an entity, its own too."""
    seen, waiting = set(), [block["id"]]
    while waiting:
        one = waiting.pop()
        if one not in seen and one in by_id:
            seen.add(one)
            waiting += signal_sources(by_id[one])
    return seen


def clocks_behind(block, by_id):
    """The clocks of the input terminals to which signal links lead, by the terminals."""
    return {one: by_id[one]["clock"] for one in sorted(behind(block, by_id)) if by_id[one].kind == "input_terminal"}


def way_round(block, by_id):
    """Ids along links, from an entity until one comes again."""
    links = (lambda one: one.sources or []) if block.kind in CLOCKS else signal_sources
    left = set()

    def follow(one, way):
        if one in way:
            return way + [one]
        ways = (follow(source, way + [one]) for source in links(by_id[one]) if source in by_id and source not in left)
        found = next((way for way in ways if way), None)
        left.update([] if found else [one])
        return found
    return follow(block["id"], [])


def inputs_of(block, by_id):
    return sum(channels_of(by_id[source], by_id) for source in block.sources)


def place_names(locations):
    """The names of the locations in a field."""
    return [LOCATIONS[bit] if bit < len(LOCATIONS) else f"bit {bit}" for bit in range(32) if locations >> bit & 1]


# ---- what would be right

def source_field(block, source):
    """The field in which an entity names this source."""
    if block["source"] is not None:
        return "source"
    return f"sources[{block['sources'].index(source)}]"


def free_id(blocks):
    """An id that is named and nobody has, else the least that nobody has."""
    entities = [one for one in blocks if one.kind in ENTITY_KINDS]
    taken = {one["id"] for one in entities}
    named = [name for one in entities for name in [*(one.sources or []), one["clock"]] if name and name not in taken]
    named += [one["link"] for one in blocks if one.kind == "general" and one["link"] and one["link"] not in taken]
    return named[0] if named else next((one for one in range(1, 256) if one not in taken), None)


def able_sources(block, by_id):
    """The entities that may be a source of this one: they put out a signal, and aren't fed by it."""
    return [one for one in by_id.values() if not is_silent(one) and block["id"] not in behind(one, by_id)]


def likely_source(block, by_id, blocks):
    """The entity that most likely was meant as a source: one that nothing takes yet, of as many channels as a feature has words; None
    where several or none would do."""
    entities = [one for one in blocks if one.kind in ENTITY_KINDS]
    taken = {name for one in entities if one is not block for name in signal_sources(one)}
    fits = [one for one in able_sources(block, by_id) if one["id"] not in taken]
    if block.kind == "feature":
        words = [one for one in fits if channels_of(one, by_id) + 1 == len(block["words"])]
        fits = words or fits
    return fits[0]["id"] if len(fits) == 1 else None


def advise_source(block, field, by_id, blocks):
    """What to write for a source, and the one value that would be right."""
    right = likely_source(block, by_id, blocks)
    if right is not None:
        return f"{write(block, field, right)}, the id of {entity_name(by_id[right])}, which nothing takes yet", right
    able = [entity_name(one) for one in able_sources(block, by_id)]
    return f"name one that puts out a signal: {list_of(able)}" if able else "give it an input terminal or a unit as its source", None


def advise_clock(block, field, by_id):
    """What to write for a clock, and the one value that would be right; where no clock is there, one to put in front, by the id named."""
    clocks = [one for one in by_id.values() if one.kind in CLOCKS and one is not block]
    if not clocks:
        named, first = block.value(field), next(iter(by_id.values()))
        name = named if named and named not in by_id else next(one for one in range(1, 256) if one not in by_id)
        fresh = bytes((8, 0x24, 10, name, 3, 7, 0, 0)).hex(" ")
        return f"put a clock source, {fresh}, at {first.place}; its 8 bytes count in both totals" + (
            "" if name == named else f", and {write(block, field, name)}"), name if name != named else None
    best = next((one for one in clocks if one.kind == "clock_source"), clocks[0])
    return f"{write(block, field, best['id'])}, the id of {entity_name(best)}", best["id"]


# ---- rules of entities

def wrong_id(rule, block, blocks):
    right = free_id(blocks)
    name = f"the {kind_words(block.kind)} at {block.place}"
    if rule == "U1":
        return Finding("id-0", f"{name} has the id 0, which no entity may have", write(block, "id", right), block, {"id": right})
    first = next(one for one in blocks if one.kind in ENTITY_KINDS and one["id"] == block["id"])
    return Finding("id-twice", f"{name} has the id {block['id']}, and the {kind_words(first.kind)} at {first.place} has it already",
                   write(block, "id", right), block, {"id": right})


def wrong_source(rule, block, by_id, blocks):
    """U3 and U4: a source that isn't there, or puts out no signal."""
    source = next(one for one in signal_sources(block) if one not in by_id or rule == "U4" and is_silent(by_id[one]))
    field = source_field(block, source)
    advice, right = advise_source(block, field, by_id, blocks)
    name = entity_name(block)
    if source not in by_id:
        return Finding("source-missing", f"{name} names {source} as its source, and no entity has that id", advice, block, {field: right})
    what = "itself" if by_id[source] is block else entity_name(by_id[source])
    return Finding("source-silent", f"{name} names {what} as its source, and "
                   f"{'an output terminal' if by_id[source].kind == 'output_terminal' else 'a clock'} puts out no signal", advice, block,
                   {field: right})


def wrong_clock(block, by_id):
    """U5: a clock that isn't there or is none."""
    named = [("clock", block["clock"])] if block.kind not in CLOCKS else \
        [(source_field(block, source), source) for source in block.sources]
    field, clock = next((field, one) for field, one in named if one not in by_id or by_id[one].kind not in CLOCKS)
    advice, right = advise_clock(block, field, by_id)
    why = f"no entity has the id {clock}" if clock not in by_id else f"that is {entity_name(by_id[clock])}, no clock"
    role = "clock" if block.kind not in CLOCKS else "source"
    return Finding("clock-missing", f"{entity_name(block)} names {clock} as its {role}, and {why}", advice, block, {field: right},
                   wanted=right if right is not None else f"a clock source of id {clock}")


def wrong_loop(rule, block, by_id, blocks):
    """U6 and U7: links that come round."""
    way = way_round(block, by_id) or [block["id"]]
    again = way[way.index(way[-1]):]
    begins = by_id[again[0]]
    following = again[1] if len(again) > 1 else again[0]
    field = source_field(begins, following)
    if rule == "U6":
        advice, right = advise_source(begins, field, by_id, blocks)
    else:
        advice, right = advise_clock(begins, field, by_id)
    text = f"{entity_name(begins)} feeds itself: {' → '.join(map(str, again))}"
    if begins is not block:
        text = f"{entity_name(block)} is fed by a ring: {text}"
    return Finding("signal-loop" if rule == "U6" else "clock-loop", text, advice, begins, {field: right})


def wrong_cluster(block):
    """U8: channels and locations."""
    channels, locations, name = block["channels"], block["locations"], entity_name(block)
    count = bin(locations).count("1")
    if channels == 0:
        return Finding("no-channels", f"{name} has 0 channels, and 1 to 32 are taken here", write(block, "channels", max(1, count)), block,
                       {"channels": max(1, count)})
    if channels > 32:
        return Finding("many-channels", f"{name} has {channels} channels, and 1 to 32 are taken here", write(block, "channels", 32), block,
                       {"channels": 32})
    names = place_names(locations)
    kept = sum(1 << bit for bit in [bit for bit in range(32) if locations >> bit & 1][:channels])
    text = f"{name} has {counted(channels, 'channel')} and {counted(count, 'location')} ({', '.join(names)})"
    case = "raw-data" if count == channels + 1 and locations >> 31 else "locations"
    fields = {"locations": kept, "channels": min(count, 32)}
    return Finding(case, f"{text}; no more locations than channels are allowed",
                   f"{write(block, 'channels', min(count, 32))}, or {write(block, 'locations', kept, f'{kept:#010x}')}", block, fields,
                   wanted=min(count, 32))


def wrong_size(block, by_id):
    """U9: a mixer's bitmap, a feature's or an effect's words. Those of a feature in the form of audio 1.0 are told by old_forms.py."""
    channels, name = channels_of(block, by_id), entity_name(block)
    if block.kind == "mixer":
        inputs = inputs_of(block, by_id)
        nodes = inputs * channels
        right, there = (nodes + 7) // 8, len(block["mix_bits"])
        wanted = len(block.data) - there + right
        return Finding("mixer-bits", f"{name} has {inputs} input and {counted(channels, 'output channel')}, so {counted(nodes, 'node')}, "
                       f"whose bits take {counted(right, 'byte')}; {there} {'is' if there == 1 else 'are'} there",
                       f"give bmMixerControls {counted(right, 'byte')}, and {write(block, 'length', wanted)}", block, {"length": wanted})
    first = 8 if block.kind == "effect" else 6
    wanted, words = first + 4 * (channels + 1), len(block["words"])
    more = f" or {channels + 2}" if block.kind == "effect" else ""
    return Finding("feature-words" if block.kind == "feature" else "effect-words",
                   f"{name} has {counted(channels, 'channel')}, so {channels + 1}{more} control words are wanted, the first for the "
                   f"master; {words} {'is' if words == 1 else 'are'} there",
                   f"give it {channels + 1}, and {write(block, 'length', wanted)}", block,
                   {"length": wanted})


def wrong_pins(block, by_id):
    """U10: the pins of a selector."""
    channels = [channels_of(by_id[source], by_id) for source in block.sources]
    at = next(k for k, count in enumerate(channels) if count != channels[0])
    pins = list_of(f"{counted(count, 'channel') if at == 0 else count} from {entity_name(by_id[source])}"
                   for at, (source, count) in enumerate(zip(block.sources, channels)))
    fits = [one["id"] for one in by_id.values() if not is_silent(one) and one is not block and channels_of(one, by_id) == channels[0]
            and one["id"] not in block.sources and block["id"] not in signal_sources(one)]
    advice = f"{write(block, f'sources[{at}]', fits[0])}, the id of {entity_name(by_id[fits[0]])}, which has {channels[0]} too" if fits \
        else f"give each pin a source of {counted(channels[0], 'channel')}"
    return Finding("pins-differ", f"the pins of {entity_name(block)} have {pins}; all have to be equal", advice, block,
                   {f"sources[{at}]": fits[0] if fits else None})


def wrong_domain(block, by_id):
    """U11: another clock than an input terminal's."""
    behind = {one: clock for one, clock in clocks_behind(block, by_id).items() if clock != block["clock"]}
    one, clock = next(iter(behind.items()))
    return Finding("other-clock", f"{entity_name(block)} has clock {block['clock']}, and {entity_name(by_id[one])}, which it is fed by, "
                   f"has clock {clock}", write(block, "clock", clock) + "; nothing here brings a signal from one clock to another", block,
                   {"clock": clock})


def past_limit(block, by_id):
    """U14 of an entity."""
    if block.kind in ("input_terminal", "output_terminal"):
        return Finding("clocks", f"the clock {block['clock']} of {entity_name(block)} is the ninth that a terminal names, and 8 are taken "
                       "here",
                       "name one of the eight clocks before it", block, {"clock": None})
    inputs = inputs_of(block, by_id)
    nodes = inputs * block["channels"] if block.kind == "mixer" else 0
    if nodes > 256:
        return Finding("nodes", f"{entity_name(block)} has {inputs} input and {counted(block['channels'], 'output channel')}, so {nodes} "
                       "nodes, and 256 are taken here", "give it fewer pins or channels", block, {"channels": None})
    return Finding("inputs", f"{entity_name(block)} has {inputs} input channels, and 256 are taken here", "give it fewer pins", block,
                   {"pins": None})


def entity_finding(rule, number, blocks):
    """The finding of a rule that an entity breaks."""
    by_id = entities_of(blocks)
    same = [one for one in blocks if one.kind in ENTITY_KINDS and one["id"] == number]
    block = same[1] if rule == "U2" and len(same) > 1 else same[0]
    makers = {"U1": lambda: wrong_id(rule, block, blocks), "U2": lambda: wrong_id(rule, block, blocks),
              "U3": lambda: wrong_source(rule, block, by_id, blocks), "U4": lambda: wrong_source(rule, block, by_id, blocks),
              "U5": lambda: wrong_clock(block, by_id), "U6": lambda: wrong_loop(rule, block, by_id, blocks),
              "U7": lambda: wrong_loop(rule, block, by_id, blocks), "U8": lambda: wrong_cluster(block),
              "U9": lambda: wrong_size(block, by_id), "U10": lambda: wrong_pins(block, by_id), "U11": lambda: wrong_domain(block, by_id),
              "U14": lambda: past_limit(block, by_id)}
    return makers[rule]()


def is_usb(block):
    return block is not None and block["terminal_type"] == USB_STREAMING
