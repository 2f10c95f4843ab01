"""A sound descriptor as tables: its entities, its streams with the rates at which each setting runs, its controls.

What the descriptor doesn't say, and this project's profile adds, stands in a column of its own, headed 'profile'."""
from controls import (ACCESS, CONTROLS, INTERFACE_CONTROLS, RATES, SYNCHRONIZATIONS, VOLUMES, access_of, range_of, room_of, running_rates,
                      service_of, terminal_of, words_of)
from descriptor import ENTITY_KINDS, entities_of, settings_of
from finding import Finding
from terminals import detail_of
from topology import locations_of, place_names

PROFILE = "Columns headed 'profile' are this project's own choice; the descriptor doesn't say them."


def locations_text(block, by_id, channels):
    names = place_names(locations_of(block, by_id))
    return ", ".join(names) if names else ("-" if channels in ("-", "0") else "no location")


def entity_table(lines, blocks):
    by_id = entities_of(blocks)
    rows = [("entity", "kind", "type", "sources", "clock", "channels", "locations")]
    for words in (line.split() for line in lines if line.startswith("entity ")):
        block = by_id[int(words[1])]
        rows.append((words[1], words[2].replace("_", " "), detail_of(block), words[6], words[8], words[4],
                     locations_text(block, by_id, words[4])))
    return rows


def in_words(rates):
    """Rates, as a stretch of the twelve where they are one."""
    if not rates:
        return "none"
    first, last = RATES.index(rates[0]), RATES.index(rates[-1])
    if len(rates) > 2 and last - first + 1 == len(rates):
        return f"{rates[0]} to {rates[-1]}"
    return ", ".join(str(rate) for rate in rates)


def channels_of(lines):
    """The channels that each entity puts out, by its id."""
    rows = [line.split() for line in lines if line.startswith("entity ")]
    return {int(words[1]): int(words[4]) for words in rows if words[4] != "-"}


def above_zero(blocks):
    return [setting for setting in settings_of(blocks) if setting["setting"]]


def stream_row(one, rates):
    """The row of a setting: what its blocks say, and the rates at which it runs."""
    ends, general, form = one["endpoint"], one.get("general"), one.get("type_one")
    first = ends[0] if ends else None
    return (one["number"], one["setting"], "-" if first is None else "in" if first["address"] & 0x80 else "out",
            general["channels"] if general else "-", form["subslot"] if form else "-", form["bits"] if form else "-",
            room_of(first) if first else "-", service_of(first) if first else "-",
            SYNCHRONIZATIONS[first["attributes"] >> 2 & 3] if first else "-", service_of(ends[1]) if len(ends) > 1 else "-",
            in_words(rates))


def cannot_run(one, why):
    """The limit that a setting meets: no rate runs it here."""
    block = (one["endpoint"] or [one.get("general")])[0]
    return Finding("cannot-run", f"interface {one['number']} setting {one['setting']} can't run here: {why}",
                   "docs/STREAMS.md, \"Settings that can run\", has what is wanted", block, {}, at=block.place if block else None)


def stream_table(lines, blocks):
    """A row for each setting above 0, a sentence for each that some rate doesn't run, and a limit for each that none does."""
    rows = [("interface", "setting", "way", "channels", "bytes", "bits", "packet", "interval (microframes)", "synchronization",
             "feedback (microframes)", "profile: rates")]
    notes, limits, channels = [], [], channels_of(lines)
    for one in above_zero(blocks):
        terminal = terminal_of(one, blocks)
        fits, both, why = running_rates(one, blocks, channels[terminal["id"]] if terminal is not None else 0)
        rows.append(stream_row(one, both))
        name = f"Interface {one['number']} setting {one['setting']}"
        if why is not None:
            limits.append(cannot_run(one, why))
        elif fits != both:
            notes.append(f"{name}: its packets are large enough for {in_words(fits)} Hz, and its clock gives {in_words(both)} Hz of these.")
        elif len(both) < len(RATES):
            notes.append(f"{name}: its packets are too small for {RATES[len(both)]} Hz and more.")
    return rows, notes, limits


def mixer_row(block, channels):
    """A mixer's nodes, and how many a host may set."""
    count = sum(channels[source] for source in block.sources) * block["channels"]
    bits = [byte >> 7 - bit & 1 for byte in block["mix_bits"] for bit in range(8)]
    return (block["id"], "nodes", f"0 to {count - 1}", f"{sum(bits[:count])} of {count} host-programmable", VOLUMES)


def interface_rows(blocks):
    """The controls that the first General of each streaming interface declares."""
    seen = set()
    for one in settings_of(blocks):
        if "general" in one and one["number"] not in seen:
            seen.add(one["number"])
            for selector, name in INTERFACE_CONTROLS.items():
                access = one["general"]["controls"] >> 2 * (selector - 1) & 3
                if access:
                    yield (f"interface {one['number']}", name.replace("_", " "), "-", ACCESS[access], "-")


def control_table(lines, blocks):
    rows, channels = [("entity", "control", "channel", "access", "profile: values")], channels_of(lines)
    for block in (one for one in blocks if one.kind in ENTITY_KINDS):
        if block.kind == "mixer":
            rows.append(mixer_row(block, channels))
            continue
        for channel in range(len(words_of(block))):
            for control in CONTROLS[block.kind]:
                access = access_of(block, control, channel)
                if access != "absent" and (block.kind != "effect" or channel <= channels[block["id"]]):
                    shown = "-" if block["words"] is None else channel or "master"
                    rows.append((block["id"], control.name, shown, access, range_of(block, control)))
    return rows + list(interface_rows(blocks))


def as_objects(rows):
    """The rows of a table as objects of JSON, by their columns."""
    head, *rest = rows
    return [dict(zip(head, row)) for row in rest]
