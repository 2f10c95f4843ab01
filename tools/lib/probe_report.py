"""The account that tools/probe gives of a device: what was asked, what was left out, and the verdict, as text and as one object."""
import collections, textwrap
from account import account_of
from differences import CONTRADICTS, STANDARD, counted
from judging import lines_of, notes_of
from tables import WIDTH, table


# Of what was left out for one reason so many are named; --json has all.
NAMED = 6


def groups_of(probe):
    """What was asked of each thing: counts of requests, answers, stalls and silences, and of what is wrong."""
    wrong = collections.Counter()
    by_line = {one.line: one.group for one in probe.dialogue.asked}
    for one in probe.verdict.differences.of(STANDARD, CONTRADICTS):
        wrong[by_line.get(one.places[0], "streams")] += 1
    groups = {}
    for one in probe.dialogue.asked:
        kinds = groups.setdefault(one.group, collections.Counter())
        kinds["asked"] += 1
        kinds[{"bytes": "answered", "done": "answered", "stall": "stalled"}.get(one.outcome.kind, "otherwise")] += 1
    if wrong["streams"]:
        groups["streams"] = collections.Counter()
    for name, kinds in groups.items():
        yield {"of": name, **{key: kinds[key] for key in ("asked", "answered", "stalled", "otherwise")}, "wrong": wrong[name]}


def group_rows(probe):
    rows = [("Of", "Asked", "Answered", "Stalled", "Otherwise", "Wrong")]
    for group in groups_of(probe):
        rows.append((group["of"], *(str(group[key] or "") for key in ("asked", "answered", "stalled", "otherwise", "wrong"))))
    return rows


def stall_lines(probe):
    """Where stalls came, where that was told."""
    stages = collections.Counter(one.stage for one in probe.dialogue.asked if one.stage)
    if stages:
        told = {"setup": "before any byte of data", "data": "after bytes of data", "status": "after all data that was sent"}
        yield "Stalls came " + ", ".join(f"{told[stage]} {count} time{'' if count == 1 else 's'}" for stage, count in stages.items()) + "."
        yield ""


def left_out_lines(probe):
    """What wasn't asked, by why."""
    by_why = collections.defaultdict(list)
    for what, why in probe.keeper.left_out:
        by_why[why].append(what)
    if by_why:
        yield "Left out"
        for why, names in by_why.items():
            more = f" and {len(names) - NAMED} more" if len(names) > NAMED else ""
            yield f"  {why}"
            yield from textwrap.wrap(f"{'; '.join(names[:NAMED])}{more}", WIDTH, initial_indent="    ", subsequent_indent="    ")
        yield ""


def descriptor_lines(probe):
    """What check and tools/explain say of the descriptor."""
    told = probe.explained
    yield f"Descriptor: {told['check']}" + ("" if told["sound"] else " (refused)")
    for one in told["findings"]:
        yield f"  {one['kind']}, {one['rule']}: {one['text']} {one['advice']}"
    yield ""


def head_lines(probe):
    way, device = probe.way, probe.device
    numbers = f"{int.from_bytes(device[8:10], 'little'):04x}:{int.from_bytes(device[10:12], 'little'):04x}"
    strings = getattr(probe, "enumeration", None)
    names = [] if strings is None else [strings.strings[number] for number in (device[14], device[15]) if number in strings.strings]
    yield f"Device {way.name}: {numbers}{''.join(f', {name}' for name in names)}, {way.speed} speed"


def end_lines(probe):
    """Whether everything was asked, and is as it was."""
    if probe.why is not None:
        yield f"Not everything was asked: {probe.why}."
    if probe.not_as_it_was:
        yield f"Not as it was: {', '.join(probe.not_as_it_was)}."
    elif probe.why is None and not probe.options.is_read_only:
        yield "Every value that was set is again as it was."
    for trouble in probe.troubles:
        yield f"Not given back: {trouble}."
    if probe.verdict.differences.of(*probe.kinds) and probe.options.out is None:
        yield "The lines are those of the dialogue, which --out FOLDER keeps."


def report_lines(probe):
    """The account as text; the judge's part of it ends with the counts."""
    yield from head_lines(probe)
    yield from descriptor_lines(probe)
    for note in probe.notes:
        yield f"note: {note}"
    yield "What was asked"
    yield from table(group_rows(probe))
    yield ""
    yield from stall_lines(probe)
    yield from left_out_lines(probe)
    *lines, last = lines_of(probe.verdict, probe.script, probe.refusal, probe.kinds)
    yield from lines
    yield from end_lines(probe)
    yield last


def object_of(probe):
    """Everything as one object, for --json."""
    told = account_of(probe.way.name, probe.status, probe.verdict, probe.script, probe.refusal, probe.kinds)
    enumeration = getattr(probe, "enumeration", None)
    told.update({"tool": "probe", "device": probe.device.hex(), "configuration": probe.configuration.hex(), "speed": probe.way.speed,
                 "strings": {} if enumeration is None else enumeration.strings, "descriptor": probe.explained,
                 "asked": list(groups_of(probe)), "dialogue": [one.as_data() for one in probe.dialogue.asked],
                 "notes": [*notes_of(probe.script, None), *probe.notes],
                 "left_out": [{"what": what, "why": why} for what, why in probe.keeper.left_out],
                 "is_whole": probe.why is None, "why": probe.why, "not_as_it_was": probe.not_as_it_was, "not_given_back": probe.troubles})
    del told["file"]
    return told


def plan_lines(probe):
    """For --dry-run: each request that would be asked, what it speaks of, and what would be left out."""
    group = None
    for one in probe.dialogue.asked:
        if one.group != group:
            group = one.group
            yield group
        yield f"  {one.words}" + (f", {counted(int.from_bytes(one.setup[6:8], 'little'), 'byte')}" if one.words.startswith("GET ") else "")
    if probe.options.seconds:
        yield "streams"
        yield f"  {probe.options.seconds:g} seconds of silence to the device, and {probe.options.seconds:g} seconds from it"
    yield ""
    yield from left_out_lines(probe)
    yield f"{counted(len(probe.dialogue.asked), 'request')}; the values are those of the proved program, and a device has its own"
