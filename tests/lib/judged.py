"""Tests of tools/judge: captures of correct devices, and ones made from them by changing one answer, packet or report; tests/tools runs
them."""
import functools, json, re, struct
from devices import answered_by_program, random_script
from making import joined, records
from needs import as_lines
from tooling import example, one_sentence, same, tool

GADGET = "tests/captures/f_uac2-bint1-s24-48k"
HEADSET = "tests/captures/linux-host-headset"
CONTRADICTS, STANDARD = "contradicts itself", "standard"


@functools.lru_cache(None)
def script_of(name, *words):
    return tool("script_of", name, *words).stdout.decode()


def judged(script, *words):
    """The status and the object of a verdict."""
    done = tool("judge", "-", "--json", *words, data=script.encode())
    same(done.stderr, b"", "judge")
    return done.returncode, json.loads(done.stdout)


def wrong_of(told):
    """What is wrong, as kind, rule, field and count."""
    wrong = [one for one in told["findings"] if one["kind"] in (STANDARD, CONTRADICTS)]
    return [(one["kind"], one["rule"], one["field"], one["count"]) for one in wrong]


def answered(script, line, value, number=1, count=1):
    """The script with other answers to a line, from the numbered one of its kind on."""
    lines, seen = script.split("\n"), 0
    for at in range(len(lines) - 1):
        if lines[at] == f"c {line}":
            seen += 1
            if number <= seen < number + count:
                lines[at + 1] = f"# said {value}"
    assert seen >= number + count - 1, f"{line} comes {seen} times"
    return "\n".join(lines)


def without_streams(script):
    return "".join(line + "\n" for line in script.split("\n")[:-1] if not line.startswith(("# bus ", "m ")))


def only(script, *wanted, of=""):
    """That these are wrong, and nothing else."""
    status, told = judged(script)
    same((wrong_of(told), status), (list(wanted), 1 if wanted else 0), of or "judge")


# ---- correct devices


def test_captures_of_correct_devices(_):
    for words in ((GADGET + ".pcap",), (GADGET + ".usbmon", "--descriptor", GADGET + ".bin"), (HEADSET + ".pcap",)):
        status, told = judged(script_of(*words))
        same((status, [one for one in told["findings"] if one["kind"] != "limit"]), (0, []), words[0])
    status, told = judged(example(HEADSET + ".txt").decode())
    same((status, told["findings"], told["transfers"], told["passed_over"]), (0, [], 84, 8), HEADSET + ".txt")


def test_what_is_a_devices_own(_):
    """Ranges and values at the start may be any; the same stays so with other ones."""
    told = judged(script_of(HEADSET + ".pcap"))[1]
    own = {one["control"]: (one["range"], one["start"]) for one in told["own"]}
    same((own["volume.3.1"], own["volume.3.2"], own["mute.6.0"]), (([[-24576, 0, 256]], 0), (None, 0), (None, 0)), "judge")
    same(told["streams"][-1]["packets"], 938, "judge")
    headset, gadget = script_of(HEADSET + ".pcap"), script_of(GADGET + ".pcap")
    wide = "0200" + "00a0fffe0100" + "0000000c8000"
    for script in (answered(headset, "a102010200030800", f"bytes {wide[:16]}", count=3),
                   answered(headset, "a101010200030200", "bytes 00f6"), answered(headset, "a101020200030200", "bytes 0080"),
                   answered(headset, "a101000100030100", "bytes 01"), answered(headset, "a101000100010400", "bytes 44ac0000"),
                   answered(headset, "a101000200010100", "bytes 00", 2), answered(headset, "a101000200010100", "bytes 00", 1),
                   without_streams(headset).replace("80bb0000", "00770100"),
                   gadget.replace("9c00000001", "9000000001"), answered(gadget, "a101000200060200", "bytes 0080"),
                   answered(gadget, "a101000100050100", "bytes 01"), gadget.replace("80bb0000", "00770100"),
                   gadget.replace("80bb0000", "d0fb0100")):
        assert script not in (headset, gadget)
        only(script)


def test_the_program_is_a_correct_device(_):
    """Whatever it is asked, and whatever is lost: nothing is wrong, and nothing is other than the profile."""
    for seed, name in enumerate(("headset", "composite-uac2-midi", "f_uac2-default")):
        data = example(f"examples/{name}.bin")
        script = answered_by_program(data, random_script(seed, data, 60))
        done = tool("judge", "-", "--profile", data=script.encode())
        same((done.returncode, done.stderr), (0, b""), f"judge of {name}: {done.stdout.decode()}")


# ---- one answer that is wrong

PLANTED = [
    ("a101010200030200", "bytes 0001", 1, CONTRADICTS, "out-of-range", "GET CUR volume.3.1"),
    ("a101010200030200", "bytes 00fe", 2, CONTRADICTS, "other-value", "GET CUR volume.3.1"),
    ("a101000100010400", "bytes 80bb0000", 2, CONTRADICTS, "other-value", "GET CUR rate.1.0"),
    ("a101000100010400", "bytes 44ac0000", 3, CONTRADICTS, "other-value", "GET CUR rate.1.0"),
    ("a101000100010400", "bytes 80bb00", 1, STANDARD, "other-length", "GET CUR rate.1.0"),
    ("a101000100010400", "stall", 2, STANDARD, "stall", "GET CUR rate.1.0"),
    ("a102010200030800", "bytes 010000a000010001", 2, CONTRADICTS, "other-range", "GET RANGE volume.3.1"),
    ("a102010200030800", "bytes 0100000100a00001", 1, STANDARD, "min-above-max", "GET RANGE volume.3.1"),
    ("a102010200030800", "bytes 010000a0000000", 1, STANDARD, "other-length", "GET RANGE volume.3.1"),
    ("a102010200060800", "bytes 010000a00000000100", 1, STANDARD, "longer-than-asked", "GET RANGE volume.6.1"),
    ("a102010200060800", "stall", 1, STANDARD, "stall", "GET RANGE volume.6.1"),
    ("a102000100010200", "bytes 0b00", 2, CONTRADICTS, "other-range", "GET RANGE rate.1.0"),
    ("a101000100030100", "bytes 02", 1, STANDARD, "no-boolean", "GET CUR mute.3.0"),
    ("a101000200010100", "bytes 0101", 3, STANDARD, "longer-than-asked", "GET CUR validity.1.0"),
    ("a101000200010100", "more than was asked for", 3, STANDARD, "longer-than-asked", "GET CUR validity.1.0"),
    ("a101000200010100", "stall", 3, STANDARD, "stall", "GET CUR validity.1.0"),
    ("2101010200030200 00ff", "stall", 1, CONTRADICTS, "stall", "SET CUR volume.3.1 -256"),
    ("2101000100030100 01", "stall", 1, STANDARD, "stall", "SET CUR mute.3.0 1"),
    ("2101000100010400 00ee0200", "stall", 1, CONTRADICTS, "stall", "SET CUR rate.1.0 192000"),
    ("010b010001000000", "stall", 1, STANDARD, "stall", "SET_INTERFACE 1 setting 1"),
    ("010b000002000000", "stall", 1, STANDARD, "stall", "SET_INTERFACE 2 setting 0"),
    ("8006000200000900", "bytes 090213010401008033", 1, CONTRADICTS, "other-descriptor", "GET_DESCRIPTOR 0x0200, at most 9 bytes"),
    ("8006000200000900", "bytes 0902130104010080", 1, STANDARD, "other-length", "GET_DESCRIPTOR 0x0200, at most 9 bytes"),
    ("8006000200000900", "stall", 1, STANDARD, "stall", "GET_DESCRIPTOR 0x0200, at most 9 bytes"),
]


def test_each_planted_answer_is_told_once(_):
    script = script_of(HEADSET + ".pcap")
    for line, value, number, *wanted in PLANTED:
        only(answered(script, line, value, number), (*wanted, 1), of=f"{line} answered with {value}")


def test_the_same_difference_is_one(_):
    """A device that answers each range with another MAX, and one that never tells a volume's range whole."""
    script = script_of(GADGET + ".pcap")
    only(answered(script, "a102000200060800", "bytes 0100009c0000", 1, 3), (STANDARD, "other-length", "GET RANGE volume.6.0", 3))
    only(answered(script, "a101000100070400", "bytes 44ac0000"), (CONTRADICTS, "out-of-range", "GET CUR rate.7.0", 1))


def test_a_message_in_between(_):
    """After an interrupt message of a control its value may be another; of another control it may not."""
    script = script_of(HEADSET + ".pcap")
    line = "c a101010200030200\n# said bytes 00ff"
    for message, wanted in (("000101020003", []), ("000101020006", [(CONTRADICTS, "other-value", "GET CUR volume.3.1", 1)])):
        only(script.replace(line, f"# message {message}\nc a101010200030200\n# said bytes 00fe"), *wanted, of=message)


def test_a_configuration_in_between(_):
    script = script_of(HEADSET + ".pcap")
    line = "c a101010200030200\n# said bytes 00ff"
    chosen = "# 0009010000000000: not of the audio function; said done\nc a101010200030200\n# said bytes 0000"
    only(script.replace(line, chosen))


# ---- the profile, and what the program can't hold


def test_the_profile(_):
    """With --profile the ranges that aren't ours are told, and the status is 3 where nothing is wrong."""
    script = script_of(HEADSET + ".pcap")
    status, told = judged(script, "--profile")
    found = [(one["kind"], one["rule"], one["field"], one["count"]) for one in told["findings"]]
    ranges = [("profile", "range", f"GET RANGE volume.{unit}.1", 3) for unit in (3, 6)]
    same((status, found), (3, ranges), "judge")
    status, told = judged(answered(script, "a101000100030100", "bytes 02"), "--profile")
    same((status, {one["kind"] for one in told["findings"]}), (1, {"standard", "profile"}), "judge")
    same(tool("judge", "-", "--profile", data=as_script(["c a101010200030200", "# said bytes 0000"])).returncode, 0, "judge")


def as_script(lines, name="headset"):
    return as_lines(example(f"examples/{name}.bin")) + b"g\n" + "".join(line + "\n" for line in lines).encode()


def test_values_that_the_program_cannot_hold(_):
    """A rate that is none of the twelve, and a quarter of a decibel: the device holds them, and is judged by its own words."""
    lines = ["c 2101000100010400 00710200", "# said done", "c a101000100010400", "# said bytes 00710200",
             "c 2101010200030200 4000", "# said done", "c a101010200030200", "# said bytes 4000"]
    done = tool("judge", "-", "--json", data=as_script(lines))
    told = json.loads(done.stdout)
    limits = ["SET CUR rate.1.0 160000", "GET CUR rate.1.0", "SET CUR volume.3.1 64", "GET CUR volume.3.1"]
    same((done.returncode, [(one["kind"], one["field"]) for one in told["findings"]]), (0, [("limit", field) for field in limits]), "judge")
    told = json.loads(tool("judge", "-", "--json", data=as_script([*lines[:-1], "# said bytes 0000"])).stdout)
    same(wrong_of(told), [(CONTRADICTS, "other-value", "GET CUR volume.3.1", 1)], "judge")


def test_controls_that_the_program_does_not_play(_):
    """A declared bass control answers, and one that isn't declared may not; of one that can only be read no value may be set."""
    data = bytearray(example("examples/headset.bin"))
    data[83:87] = (0x03 | 0x30 | 0x40).to_bytes(4, "little")
    lines = ["c a101000300030100", "# said bytes 05", "c 2101000300030100 06", "# said done", "c a101000300030100", "# said bytes 06",
             "c a101000400030100", "# said bytes 01", "c 2101000400030100 06", "# said done", "c a101000500030100", "# said bytes 00",
             "c a101002000030100", "# said bytes 00", "c a101000300030100", "# said bytes 05"]
    script = as_lines(bytes(data)) + b"g\n" + "".join(line + "\n" for line in lines).encode()
    only(script.decode(), (STANDARD, "Q7", "SET CUR mid.3.0 bytes 06", 1), (STANDARD, "Q5", "GET CUR treble.3.0", 1),
         (STANDARD, "Q4", "GET CUR selector 32 channel 0 of entity 3", 1), (CONTRADICTS, "other-value", "GET CUR bass.3.0", 1))


def test_a_descriptor_that_the_program_refuses(_):
    """Which control is there isn't judged then; what the device contradicts itself in is told all the same."""
    data = bytearray(example("examples/headset.bin"))
    data[83] = 2
    lines = ["c 2101010200030200 00ff", "# said done", "c a101010200030200", "# said bytes 00fe", "c a101030200030200", "# said bytes 0000"]
    done = tool("judge", "-", data=as_lines(bytes(data)) + b"g\n" + "\n".join(lines).encode())
    assert b"note: the program doesn't take this descriptor (descriptor G4 at 78; tools/explain says why)" in done.stdout, done.stdout
    assert b"3 transfers: 1 wrong" in done.stdout and done.returncode == 1, done.stdout


# ---- streams


def microframes(count, packet="o 1 6 ok 36", report="f 1 00060000 ok 00000600"):
    """Lines of the bus: a packet in each microframe, a report in each eighth."""
    return [f"# bus {at}: {packet}" + (f", {report}" if report and at % 8 == 0 else "") for at in range(1, count + 1)]


def streamed(lines, interface=1, rate="80bb0000"):
    return as_script(["c a101000100010400", f"# said bytes {rate}", f"c 010b01000{interface}000000", "# said done", *lines,
                      f"c 010b00000{interface}000000", "# said done"]).decode()


def stream_wrong(rule, party="device", count=1):
    return STANDARD, f"stream-{rule}", party, count


def streams_are(script, *wanted, words=()):
    """What is said of streams, as kind, rule, party and count; warnings, too."""
    told = judged(script, *words)[1]
    told["findings"] = [one for one in told["findings"] if one["kind"] != "limit"]
    same([(one["kind"], one["rule"], one["party"], one["count"]) for one in told["findings"]], list(wanted), "judge")
    return told


def changed(lines, at, event):
    """The lines with another event in this microframe."""
    copy = list(lines)
    copy[at - 1] = f"# bus {at}: {event}" + ("" if at % 8 or event.startswith("f") else ", f 1 00060000 ok 00000600")
    return copy


def test_streams_to_the_device(_):
    plain = microframes(400)
    streams_are(streamed(plain))
    for event in ("o 1 7 ok 42", "o 1 5 ok 30", "o 1 6 lost 36", "o 1 - lost -"):
        streams_are(streamed(changed(plain, 99, event)))
    for event, rule in (("o 1 8 ok 48", "host-parts"), ("o 1 4 ok 24", "host-parts"), ("o 1 6 ok 37", "packet-not-whole"),
                        ("o 1 26 ok 156", "packet-too-large")):
        told = streams_are(streamed(changed(plain, 99, event)), stream_wrong(rule, "host"))
        assert told["findings"][0]["field"].endswith("microframe 99"), told["findings"][0]


def test_reports(_):
    plain = microframes(400)
    out_of_band = "warning", "stream-report-out-of-band", "device", 1
    for event, wanted in (("f 1 000006 ok 000006", stream_wrong("report-length")),
                          ("f 1 0000060000 ok 0000060000", stream_wrong("report-length")),
                          ("f 1 00050000 ok 00000500", out_of_band), ("f 1 06000000 ok 00000006", out_of_band)):
        streams_are(streamed(changed(plain, 96, f"o 1 6 ok 36, {event}")), wanted)
    for event in ("f 1 - ok -", "f 1 - lost -", "f 1 00060020 ok 20000600", "f 1 - untold -"):
        streams_are(streamed(changed(plain, 96, f"o 1 6 ok 36, {event}")))
    streams_are(streamed(microframes(400, report="f 1 000006 ok 000006")), stream_wrong("report-length", count=50))


def paced(values, ahead, count=4000, is_told=True, follows=True):
    """A host that follows reports with so many packets handed in beforehand, each eighth microframe the next value."""
    lines, total, made = [], 0, 0
    for at in range(count):
        heard = max(at - ahead, 0) // 8
        value = values[(heard - 1) % len(values)] if heard and follows else 6 * 65536
        total += value
        frames, made = (total >> 16) - made, total >> 16
        report = values[at // 8 % len(values)]
        after = f" after {heard}" if is_told else ""
        lines.append(f"# bus {at + 1}: o 1 {frames} ok {6 * frames}{after}"
                     + (f", f 1 {report:08x} ok {report.to_bytes(4, 'little').hex()}" if at % 8 == 7 else ""))
    return lines


def test_hosts(_):
    """Hosts that follow the reports, packets handed in beforehand allowed for; one that doesn't is told with the microframe at which it
    parts: 1,000 65,536ths too few in each from the ninth on come to two whole frames with the 132nd."""
    for values in ([394216], [393216, 394216, 396216, 392016]):
        for ahead in (0, 20, 85):
            for is_told in (True, False):
                told = streams_are(streamed(paced(values, ahead, is_told=is_told)))
                beforehand = told["streams"][0]["beforehand"]
                assert beforehand == ahead if is_told else beforehand <= ahead, f"{beforehand} packets beforehand, {ahead} were"
    told = streams_are(streamed(paced([394216], 0, follows=False)), stream_wrong("host-parts", "host"))
    same(told["findings"][0]["field"], "interface 1's stream to the device, microframe 140", "judge")


def test_streams_without_reports(_):
    """A host before an adaptive endpoint keeps the nominal pace, a remainder carried; before an asynchronous one without a feedback
    endpoint it may follow a stream of the device, so its pace isn't judged."""
    data = bytearray(example("examples/headset.bin"))
    at, feedback = data.index(bytes.fromhex("07050105960001")), data.index(bytes.fromhex("07058111040004"))
    data[data.index(bytes.fromhex("090401010201022000")) + 4] = 1
    del data[feedback:feedback + 7]
    data[20:22] = struct.pack("<H", len(data) - 18)
    for attributes, off, wanted in ((0x09, 0, []), (0x0D, 0, []), (0x09, 30, [stream_wrong("host-parts", "host")]), (0x05, 30, [])):
        data[at + 3] = attributes
        lines = ["c a101000100010400", "# said bytes 44ac0000", "c 010b010001000000", "# said done"]
        total, made = 0, 0
        for number in range(1, 2001):
            total += 361267 + off * 16
            frames, made = (total >> 16) - made, total >> 16
            lines.append(f"# bus {number}: o 1 {frames} ok {6 * frames}")
        script = as_lines(bytes(data)).decode() + "g\n" + "".join(line + "\n" for line in lines)
        streams_are(script, *wanted)
        limits = {one["rule"] for one in judged(script)[1]["findings"] if one["kind"] == "limit"}
        same("stream-implicit" in limits, attributes == 0x05, "judge")


def test_streams_from_the_device(_):
    plain = microframes(40, "i 2 - ok 0", None)[:3] + microframes(400, "i 2 6 ok 12", None)[3:]
    streams_are(streamed(plain, 2))
    for event in ("i 2 7 ok 14", "i 2 5 ok 10", "i 2 - lost -"):
        streams_are(streamed(changed(plain, 99, event), 2))
    off = "packet-off-the-mean"
    for event, rule in (("i 2 8 ok 16", off), ("i 2 0 ok 0", off), ("i 2 4 ok 8", off), ("i 2 6 ok 13", "packet-not-whole"),
                        ("i 2 26 ok 52", "packet-too-large")):
        told = streams_are(streamed(changed(plain, 99, event), 2), stream_wrong(rule))
        assert told["findings"][0]["field"].endswith("microframe 99"), told["findings"][0]


def test_full_speed_streams(_):
    """At full speed a report has three bytes; four are a remark."""
    lines = microframes(80, "o 1 25 ok 150", "f 1 064000 ok 004006")
    head = "# bus 1, device 5, 275 bytes of configuration, full speed\n"
    streams_are(head + streamed(lines, rate="a8610000"))
    streams_are(streamed(lines, rate="a8610000"), words=("--speed", "full"))
    four = microframes(80, "o 1 25 ok 150", "f 1 00190000 ok 00001900")
    told = streams_are(head + streamed(four, rate="a8610000"), ("warning", "stream-report-of-four-bytes", "device", 10))
    assert "some firmware sends 4 on purpose" in told["findings"][0]["text"]
    short = microframes(80, "o 1 25 ok 150", "f 1 1900 ok 0019")
    streams_are(head + streamed(short, rate="a8610000"), stream_wrong("report-length", count=10))


def test_planted_in_a_capture(_):
    """A report of three bytes, and a packet that the host made two frames too long, in the records of the capture itself."""
    data = example(HEADSET + ".pcap")
    for endpoint, length, wanted in ((0x81, 3, stream_wrong("report-length")), (0x01, 48, stream_wrong("host-parts", "host"))):
        found = records(data)
        mine = [body for _, body in found if body[9] == 0 and body[10] == endpoint and body[8] == ord("C") and body[28:32] == bytes(4)]
        mine[40][72:76] = struct.pack("<I", length)
        done = tool("script_of", "-", data=joined(data, found))
        streams_are(done.stdout.decode(), wanted)


# ---- what is printed


def test_docs_have_the_rules_of_judge(_):
    """Each rule that is told stands in the table of docs/TOOLS.md."""
    page = example("docs/TOOLS.md").decode().partition("## tools/judge")[2].partition("### `--json` of judge")[0]
    told = {name for row in page.split("\n") if row.startswith("| `") for name in re.findall("`([a-zA-Z0-9-]+)`", row.split("|")[1])}
    pattern = r'(?:wrong|contradicts|own|alone|add|is_own else self\.wrong\))\((?:[A-Z]+, )?"([a-zA-Z0-9-]+)"'
    answers, streams = (set(re.findall(pattern, example(f"tools/lib/{name}.py").decode())) for name in ("verdict", "streams"))
    wanted = answers | {f"stream-{name}" for name in streams} | {"Q2", "Q3", "Q4", "Q5", "Q6", "Q7", "Q11"}
    same({name for name in told if not name.startswith("-")}, wanted | {"stall"}, "docs/TOOLS.md")


def test_judge_as_text(_):
    """What docs/TOOLS.md shows is what is printed."""
    done = tool("judge", "-", data=script_of(HEADSET + ".pcap").encode())
    shown = example("docs/TOOLS.md").decode().partition(f"$ tools/script_of {HEADSET}.pcap | tools/judge -\n")[2].partition("```")[0]
    same((done.stdout.decode(), done.returncode, done.stderr), (shown, 0, b""), "judge")


def test_differences_as_text(_):
    """One of each party; the same several times is told once, with the lines."""
    script = answered(script_of(HEADSET + ".pcap"), "a101000200010100", "bytes 0101", 3, 2)
    done = tool("judge", "-", data=script.replace(": o 1 6 ok 36 after 30", ": o 1 8 ok 48 after 30", 1).encode())
    lines = done.stdout.decode().split("\n")
    at = lines.index("Wrong by the standard")
    first = next(number for number, line in enumerate(script.split("\n"), 1) if line == "# said bytes 0101")
    wanted = [f"line {first - 1}: GET CUR validity.1.0", "  the device said: bytes 0101", "  wanted: at most 1 byte",
              "  An answer is no longer than wLength (USB 2.0, 9.4).", f"  2 times: lines {first - 1} and "]
    for line, front in zip(lines[at + 1:], wanted):
        assert line.startswith(front), f"{line!r}, wanted {front!r}"
    host = next(at for at, line in enumerate(lines) if line.startswith("line ") and "stream" in line)
    same(lines[host + 1:host + 3], ["  the host sent: 2 frames too many so far", "  wanted: at most 1 frame off"], "judge")


def test_judge_of_what_is_none(_):
    text = as_script(["c 8006000200000900", "# said bytes 090213010401008032", "zz"])
    one_sentence(tool("judge", "-", data=text), 2, "line 11 is no line of a script (S2): it begins with none of the letters d g c h")
    one_sentence(tool("judge", "-", data=as_script(["c 8006000200000900"])), 2, "keeps no answer of a device")
    done = tool("judge", "-", data=as_script(["c c000000000000000", "# said done"]))
    one_sentence(done, 2, "keeps no answer of a device's audio function")
    one_sentence(tool("judge", "-", "--speed", "super", data=text), 2, "no speed super: high or full is wanted")
    for line in ("# bus 1: x 1 6 ok 36", "# bus 1: o 1", "# bus 1: o a 6 ok 36", "# said bytes 0", "c 00", "d 0"):
        front = "c 8006000200000900\n" if line.startswith("# said") else ""
        one_sentence(tool("judge", "-", data=as_script([front + line, "c 8006000200000900", "# said stall"])), 2, "- is no script")
