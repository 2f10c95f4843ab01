"""The account that tools/judge gives of a device: the tables of its own choices and of its streams, and all of it as plain data."""
from controls import RATES
from streams import in_frames
from told import subranges


def spell_volume(value):
    """A volume in decibels."""
    return "silence" if value == -32768 else f"{value / 256:g}"


def spell_range(ranges, control):
    """Subranges in words: rates as a list, volumes in decibels."""
    if control.name == "frequency" and all(least == most for least, most, _ in ranges):
        rates = [least for least, _, _ in ranges]
        return "the twelve rates" if tuple(rates) == RATES else ", ".join(str(rate) for rate in rates) + " Hz"
    spell, unit = (spell_volume, " dB") if control.name in ("volume", "node") else (str, "")
    parts = [f"{spell(least)} to {spell(most)}{unit}" + (f" by {spell(step)}" if step else "") if least != most else f"{spell(least)}{unit}"
             for least, most, step in ranges]
    return ", ".join(parts)


def spell_value(data, request):
    """A value in words, where its bytes are the control's; else its bytes."""
    number = request.number(data)
    if number is None or request.control.name == "connector":
        return data.hex(" ") or "none"
    return f"{spell_volume(number)} dB" if request.control.name in ("volume", "node") and number != -32768 else \
        spell_volume(number) if request.control.name in ("volume", "node") else str(number)


def own_of(verdict):
    """What the device chose, control by control: its name, its range and its value at the start, None where they weren't told."""
    told = verdict.told
    for key, request in told.requests.items():
        start, range_data = told.starts.get(key), told.ranges.get(key)
        if start is None and (range_data is None or len(range_data) <= 2):
            continue
        ranges = None if range_data is None else subranges(range_data, request.control)
        yield request, ranges, range_data, start


def own_rows(verdict):
    rows = [("Control", "Range", "At the start")]
    for request, ranges, data, start in own_of(verdict):
        said = "" if data is None else data.hex(" ")
        rows.append((request.target, said if ranges is None else spell_range(ranges, request.control),
                     "" if start is None else spell_value(start, request)))
    return rows


def stream_rows(verdict):
    rows = [("Stream", "Rate", "Packets", "Lost", "Frames", "Reports", "Lost", "Values, frames", "Mean rate", "Off by", "Ahead")]
    for run in verdict.streams.runs:
        row = run.row()
        if not row["packets"] and not row["reports"]:
            continue
        frames = "" if row["least_frames"] is None else f"{row['least_frames']} to {row['most_frames']}"
        reports = (str(row["reports"]), str(row["lost_reports"])) if row["reports"] or run.shape.has_reports else ("", "")
        values = "" if row["least_value"] is None else f"{in_frames(row['least_value'])} to {in_frames(row['most_value'])}"
        rows.append((f"{row['interface']} {row['direction']} setting {row['setting']}", f"{row['rate'] or 'unknown'}", str(row["packets"]),
                     str(row["lost"]), frames, *reports, values, "" if row["mean_rate"] is None else f"{row['mean_rate']:.1f}",
                     "" if row["ppm"] is None else f"{row['ppm']:+.0f} ppm", "" if row["beforehand"] is None else str(row["beforehand"])))
    return rows


def filled(rows):
    """The rows without columns that have nothing below their heads."""
    kept = [at for at in range(len(rows[0])) if any(row[at] for row in rows[1:])]
    return [[row[at] for at in kept] for row in rows]


def account_of(name, status, verdict, script, refusal, kinds):
    """One object with everything, for --json."""
    own = [{"control": request.target, "range": ranges, "start": None if start is None else request.number(start),
            "start_bytes": None if start is None else start.hex()} for request, ranges, _, start in own_of(verdict)]
    return {"tool": "judge", "file": name, "status": status, "transfers": verdict.compared, "passed_over": verdict.passed_over,
            "notes": script.notes, "refused": refusal, "findings": [one.as_data() for one in verdict.differences.of(*kinds)],
            "own": own, "streams": [run.row() for run in verdict.streams.runs]}
