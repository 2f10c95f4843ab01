"""A script judged: its items in turn, the verdict on its device and its host, and the verdict as text."""
from account import filled, own_rows, stream_rows
from descriptor import cut
from differences import CONTRADICTS, LIMIT, PROFILE, STANDARD, WARNING, Differences, counted
from kept import Configured, Kept, Message, Moment
from proved import Proved
from streams import Streams
from tables import table
from verdict import Verdict


def judge(script, verdict, after):
    """Takes the script's items in turn; `after` is called with each transfer that was judged."""
    for item in script.items:
        if isinstance(item, Kept):
            verdict.transfer(item)
            after(item)
        elif isinstance(item, Moment):
            verdict.streams.microframe(item.number, item.events)
        elif isinstance(item, Message):
            verdict.told.message(item.data)
        elif isinstance(item, Configured):
            verdict.told.configured()
    verdict.streams.finish()


def verdict_of(script, speed, proved=None, after=lambda item: None):
    """The verdict on a script, and the line with which the program refuses its descriptor, if it does."""
    differences, descriptor = Differences(), bytes.fromhex(script.descriptor)
    proved = Proved(descriptor) if proved is None else proved
    try:
        is_there = proved.refusal is None
        verdict = Verdict(descriptor, proved if is_there else None, Streams(cut(descriptor)[0], speed, differences), differences, speed)
        judge(script, verdict, after)
    finally:
        proved.close()
    return verdict, proved.refusal


def kinds_of(is_profile):
    """The kinds of differences that are told."""
    return (STANDARD, CONTRADICTS, WARNING, *((PROFILE,) if is_profile else ()), LIMIT)


def status_of(verdict, is_profile):
    """1 where something is wrong, 3 where it only differs from the profile and that is asked, else 0."""
    if verdict.differences.of(STANDARD, CONTRADICTS):
        return 1
    return 3 if is_profile and verdict.differences.of(PROFILE) else 0


def notes_of(script, refusal):
    """The notes of a script, and that the program doesn't take its descriptor."""
    yield from script.notes
    if refusal is not None:
        yield f"the program doesn't take this descriptor ({refusal}; tools/explain says why), so which control is there isn't judged"


def lines_of(verdict, script, refusal, kinds):
    """The verdict as text."""
    for note in notes_of(script, refusal):
        yield f"note: {note}"
    yield from verdict.differences.lines(kinds)
    for title, rows in (("This device's own", own_rows(verdict)), ("Streams", stream_rows(verdict))):
        if len(rows) > 1:
            yield title
            yield from table(filled(rows))
            yield ""
    yield last_line(verdict)


def last_line(verdict):
    """How much was compared, and how much of it is wrong."""
    runs, is_wrong = verdict.streams.runs, verdict.differences.of(STANDARD, CONTRADICTS)
    counts = [counted(verdict.compared, "transfer")]
    if runs:
        counts += [counted(sum(len(run.packets) for run in runs), "packet"), counted(sum(len(run.reports) for run in runs), "report")]
    passed = verdict.passed_over
    more = f" ({counted(passed, 'more transfer')} {'is' if passed == 1 else 'are'}n't to the audio function)" if passed else ""
    return f"{', '.join(counts)}: {f'{len(is_wrong)} wrong' if is_wrong else 'nothing wrong'}{more}"
