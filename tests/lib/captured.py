"""Tests of tools/script_of, on captures that are made here and on the real ones; tests/tools runs them."""
import gzip, os, struct
from making import burst, control, handed, head, headset_told, pcap
from tooling import example, need, one_sentence, same, tool

REAL = "tests/captures/linux-host-headset"
START, STOP = ["c 010b010001000000", "# said done"], ["c 010b000001000000", "# said done"]
# Eight packets of six frames each.
EIGHT = [(0, 36)] * 8


def told_of(packets, words=(), has_bus=False):
    """The lines of a script after its descriptor and the first transfer; those of the bus only where they are asked for."""
    done = tool("script_of", "-", *words, data=pcap(packets))
    assert done.returncode == 0, done.stderr.decode()
    lines = done.stdout.decode().partition("\ng\n")[2].split("\n")[2:-1]
    return [line for line in lines if has_bus or not line.startswith("# bus ")]


def test_microframes_of_packets(_):
    """Two bursts of eight packets and a report: lost are the third packet, the report, and the first of the second burst; then a stop.
    No other report comes until the stop."""
    good, lost = (0, 36), (-18, 0)
    packets = headset_told() + control(5000, "010b010001000000")
    packets += burst(8000, 0x01, 100, good, good, lost, good, good, good, good, good)
    packets += burst(8100, 0x81, 100, (0, 0))
    packets += burst(9000, 0x01, 108, lost, good, good, good, good, good, good, good)
    packets += control(9500, "2101010200030200", sent=b"\x00\xf6")
    packets += burst(10000, 0x01, 118, good, good, good, good, good, good, good, good)
    packets += control(12000, "010b000001000000")
    same(told_of(packets), [*START, "m 2 f1", "m 1 o1 f1", "m 5 f1", "c 2101010200030200 00f6", "# said done", "m 1 o1 f1", "m 7 f1",
                            "m 2 o1 f1", "m 8 f1", *STOP], "script_of")


def test_comments_of_the_bus(_):
    """What the host handed in before the first report, and after it; a lost packet has the length that was handed in."""
    packets = headset_told() + control(5000, "010b010001000000")
    first, second = handed(8000, 0x01, 0, *EIGHT), handed(9000, 0x01, 0, (-18, 0), *EIGHT[1:])
    second[0] = burst(8995, 0x01, 0, *[(-18, 36)] * 8, name=9000, kind="S")[0]
    packets += [first[0], second[0], first[1]] + handed(8500, 0x81, 0, (0, 4), data=b"\x00\x00\x06\x00") + [second[1]]
    packets += handed(10000, 0x01, 0, *EIGHT) + control(12000, "010b000001000000")
    lines = [line for line in told_of(packets, has_bus=True) if line.startswith("# bus")]
    wanted = [f"# bus {at}: o 1 6 ok 36 after 0" for at in range(1, 9)]
    wanted[7] += ", f 1 00060000 ok 00000600"
    wanted += ["# bus 9: o 1 6 lost 36 after 0"] + [f"# bus {at}: o 1 6 ok 36 after 0" for at in range(10, 17)]
    same(lines, wanted + [f"# bus {at}: o 1 6 ok 36 after 1" for at in range(17, 25)], "script_of")


def test_a_pause_between_streams(_):
    good = (0, 18)
    packets = headset_told() + control(5000, "010b010002000000") + burst(8000, 0x82, 7, good, good) + control(9000, "010b000002000000")
    packets += control(3009000, "010b010002000000") + burst(3012000, 0x82, 9, good, (-84, 0)) + control(3013000, "010b000002000000")
    starts, ends = ["c 010b010002000000", "# said done"], ["c 010b000002000000", "# said done"]
    pause = "# a pause of 24030 microframes without packets is left out"
    same(told_of(packets), [*starts, "m 2", *ends, *starts, pause, "m 1", "m 1 i2", *ends], "script_of")


def test_packets_without_places(_):
    """A capture whose packets have no place of their own: they are counted, whatever the time; the host's last packets never came."""
    packets = headset_told() + control(5000, "010b010001000000") + handed(90000, 0x01, 0, *EIGHT)
    packets += handed(190000, 0x81, 0, (0, 4), data=bytes(4)) + handed(390000, 0x81, 0, (0, 4), data=bytes(4))
    packets += handed(690000, 0x01, 0, *EIGHT[:5]) + control(700000, "010b000001000000")
    same(told_of(packets), [*START, "m 13", "m 3 o1", *STOP], "script_of")


def test_a_real_stream(_):
    """The device of this capture counted 944 microframes, which are 118 reports; packets to it came for 938."""
    lines = tool("script_of", REAL + ".pcap").stdout.decode().split("\n")
    same([line for line in lines if line.startswith("m ")], ["m 938", "m 6 o1"], "script_of")
    events = [event for line in lines if line.startswith("# bus ") for event in line.partition(": ")[2].split(", ")]
    packets, reports = sum(event.startswith("o 1 6 ok 36 after ") for event in events), events.count("f 1 00060000 ok 00000600")
    same((packets, reports), (938, 118), "script_of")


def test_full_speed(folder):
    """At full speed there are no lines m, and places count frames of a millisecond; a file 'speed' beside the descriptor says so, too."""
    report = bytes.fromhex("00000c")
    packets = headset_told() + control(5000, "010b010001000000") + burst(9000, 0x01, 3, (0, 36), (0, 36))
    packets += burst(9500, 0x81, 3, (0, 3), data=report) + control(12000, "010b000001000000")
    wanted = [*START, "# bus 1: o 1 6 ok 36", "# bus 2: o 1 6 ok 36", "# bus 8: f 1 0c0000 ok 00000c", *STOP]
    same(told_of(packets, ("--speed", "full"), True), wanted, "script_of")
    with open(os.path.join(folder, "descriptors"), "wb") as file:
        file.write(example("examples/headset.bin"))
    with open(os.path.join(folder, "speed"), "w") as file:
        file.write("12\n")
    done = tool("script_of", "-", "--descriptor", os.path.join(folder, "descriptors"), data=pcap(packets))
    assert done.stdout.startswith(b"# bus 1, device 5, 275 bytes of configuration, full speed\n"), done.stdout[:99]
    with open(os.path.join(folder, "speed"), "w") as file:
        file.write("5000\n")
    done = tool("script_of", "-", "--descriptor", os.path.join(folder, "descriptors"), data=pcap(packets))
    one_sentence(done, 1, "speed says 5000: a device of high or full speed is wanted")
    one_sentence(tool("script_of", "-", "--speed", "super", data=pcap(packets)), 1, "no speed super: high or full is wanted")


def test_interrupt_messages(_):
    """A message of the control interface's endpoint is kept, one of another interface isn't."""
    configuration = bytearray(example("examples/headset.bin")[18:])
    at = configuration.index(bytes.fromhex("0c2403070101000601000000")) + 12
    configuration[at:at] = bytes.fromhex("07058403060009")
    configuration[2:4] = struct.pack("<H", len(configuration))
    said = bytes.fromhex("000100020003")
    packets = control(1000, "8006000200001a01", bytes(configuration)) + [head(7, "C", 1, 0x84, 2000, 0, 6, said, bytes(8))]
    packets += [head(8, "C", 1, 0x83, 2000, 0, 4, bytes(4), bytes(8))]
    same(told_of(packets), ["# message 000100020003"], "script_of")


def test_packets_of_usbmon_text(_):
    """The text keeps five packets of a burst; how many more failed it tells."""
    text = (b"ff01 2000 S Co:1:005:0 s 01 0b 0001 0001 0000 0\nff01 2100 C Co:1:005:0 0 0\n"
            b"ff02 3900 S Zo:1:005:1 -115:1:40 8 -18:0:36 -18:36:36 -18:72:36 -18:108:36 -18:144:36 288 = 00000000\n"
            b"ff02 4000 C Zo:1:005:1 0:1:40:2 8 0:0:36 -18:36:0 0:36:36 0:72:36 0:108:36 252 >\n"
            b"ff01 5000 S Co:1:005:0 s 01 0b 0000 0001 0000 0\nff01 5100 C Co:1:005:0 0 0\n")
    done = tool("script_of", "-", "--descriptor", "examples/headset.bin", data=text)
    lines = [line for line in done.stdout.decode().partition("\ng\n")[2].split("\n") if not line.startswith("# bus")]
    same(lines, [*START, "m 1", "m 1 o1", "m 6", "# 1 more packet was lost, and the capture doesn't keep which", *STOP, ""], "script_of")
    assert "# bus 2: o 1 6 lost 36 after 0\n" in done.stdout.decode() and "# bus 8: o 1 - untold - after 0\n" in done.stdout.decode()
    note = "script_of: note: 3 packets are counted and not told: usbmon's text keeps five of each burst, its binary form (tcpdump) all\n"
    same(done.stderr.decode(), note, "script_of")


def test_what_a_capture_lacks(_):
    """A record that is cut, records that are missing, packets before any setting, a gzip file that is cut: each is said, and kept."""
    lost = headset_told() + handed(3000, 0x01, 0, *EIGHT) + control(5000, "010b010001000000") + burst(8000, 0x01, 1, *EIGHT, name=3000)
    whole = pcap(headset_told() + control(3000, "a101000200010100", b"\x01"))
    for data, words in ((whole[:-5], "the capture ends within a record: its last 76 bytes are left out"),
                        (whole + b"\x01\x02", "the capture ends within a record: its last 2 bytes are left out"),
                        (pcap(lost), "at least 1 record of isochronous packets is missing, since"),
                        (pcap(lost), "8 packets of endpoint 0x01 are left out"),
                        (gzip.compress(whole)[:-9], "the gzip file is cut")):
        done = tool("script_of", "-", "--descriptor", "examples/headset.bin", data=data)
        assert f"script_of: note: {words}" in done.stderr.decode(), f"{done.stderr.decode()!r} without {words!r}"
        assert f"# note: {words}" in done.stdout.decode() and done.returncode == 0, words


def test_missing_records_are_no_losses(_):
    """A burst that came back and isn't there was neither sent nor lost, as far as one knows."""
    packets = headset_told() + control(5000, "010b010001000000") + handed(8000, 0x01, 1, *EIGHT)
    packets += handed(9000, 0x01, 9, *EIGHT)[:1] + burst(8995, 0x01, 17, *EIGHT, name=9000, kind="S")
    packets += burst(9990, 0x01, 17, *EIGHT, name=9000) + control(12000, "010b000001000000")
    same(told_of(packets), [*START, "m 24", *STOP], "script_of")


def test_gzip(_):
    for name in (REAL + ".pcap", "tests/captures/f_uac2-bint1-s24-48k.pcap"):
        same(tool("script_of", "-", data=gzip.compress(example(name))).stdout, tool("script_of", name).stdout, "script_of")


def test_captures_that_are_refused(_):
    device = bytes.fromhex("12010003ef02010934127856000101020001")
    old = example("examples/headset.bin")[18:].replace(b"\x01\x01\x20", b"\x01\x01\x00").replace(b"\x01\x02\x20", b"\x01\x02\x00")
    one_sentence(tool("script_of", "-", data=pcap([], 1)), 1, "link type 1")
    one_sentence(tool("script_of", "-", data=pcap([])), 1, "no control transfer")
    one_sentence(tool("script_of", "-", data=pcap(control(10, "8006000100001200", device))), 1, "no device told a whole configuration")
    one_sentence(tool("script_of", "-", data=pcap(control(10, "8006000100001200", device) + headset_told())), 1, "--speed full takes it")
    done = tool("script_of", "-", data=pcap(control(10, "8006000200001301", old)))
    one_sentence(done, 1, "bus 1, device 5 has an audio function of version 1.0")
    done = tool("script_of", "-", data=pcap(control(10, "a101000100010400", bytes(4))))
    one_sentence(done, 1, "the capture was begun after the device was plugged in: give its descriptor with --descriptor FILE")
    one_sentence(tool("script_of", "-", data=b"\x1f\x8b" + bytes(30)), 1, "can't be unpacked")


def test_several_devices(_):
    other = [packet[:11] + b"\x06" + packet[12:] for packet in headset_told()]
    done = tool("script_of", "-", data=pcap(headset_told() + other))
    one_sentence(done, 1, "several audio devices are there: --device 1:5, --device 1:6 chooses one")
    assert tool("script_of", "-", "--device", "1:6", data=pcap(headset_told() + other)).stdout.startswith(b"# bus 1, device 6, 275 bytes")


def test_pcapng(_):
    need("tshark")
    def block(kind, body):
        return struct.pack("<II", kind, len(body) + 12) + body + struct.pack("<I", len(body) + 12)
    plain = pcap(headset_told())[24:]
    data = block(0x0A0D0D0A, struct.pack("<IHHq", 0x1A2B3C4D, 1, 0, -1)) + block(1, struct.pack("<HHI", 220, 0, 262144))
    while plain:
        size = struct.unpack("<I", plain[8:12])[0]
        data += block(6, struct.pack("<IIIII", 0, 0, 0, size, size) + plain[16:16 + size] + bytes(-size % 4))
        plain = plain[16 + size:]
    done = tool("script_of", "-", data=data)
    same((done.stdout, done.stderr), (tool("script_of", "-", data=pcap(headset_told())).stdout, b""), "script_of")


# ---- USBPcap


def windows(name, kind, endpoint, goes_up, more, data, status=0):
    """A record of USBPcap, of device 5 on bus 1: its head of 27 bytes, what its kind adds, and its data."""
    return struct.pack("<HQIHBHHBBI", 27 + len(more), name, status, 8, goes_up, 1, 5, endpoint, kind, len(data)) + more + data


def windows_control(name, setup, data=b"", sent=b"", is_old=False, status=0):
    """A control transfer: in the old form its data and its end are records of their own."""
    setup, side = bytes.fromhex(setup), int(setup[:2], 16) & 0x80
    if not is_old:
        return [windows(name, 2, side, 0, b"\x00", setup + sent), windows(name, 2, side, 1, b"\x03", data, status)]
    middle = [windows(name, 2, side, 1, b"\x01", data)] if data else [windows(name, 2, side, 0, b"\x01", sent)] if sent else []
    return [windows(name, 2, side, 0, b"\x00", setup), *middle, windows(name, 2, side, 1, b"\x02", b"", status)]


def windows_burst(name, endpoint, goes_up, start, lengths, data=b"", status=0):
    """Packets one after the other; of packets to the device Windows tells the places alone."""
    more, place = struct.pack("<III", start, len(lengths), 0), 0
    for length in lengths:
        more += struct.pack("<III", place, length if endpoint & 0x80 else 0, status)
        place += length
    return windows(name, 0, endpoint, goes_up, more, data)


def test_usbpcap(_):
    told = example("examples/headset.bin")[18:]
    for is_old in (False, True):
        packets = windows_control(1, "8006000200001301", told, is_old=is_old)
        packets += windows_control(2, "2101010200030200", sent=b"\x00\xf6", is_old=is_old)
        packets += windows_control(3, "a101000200030200", is_old=is_old, status=0xC0000004)
        packets += windows_control(4, "010b010001000000", is_old=is_old)
        packets += [windows_burst(5, 0x01, 0, 0, [36] * 8, bytes(288)), windows_burst(6, 0x81, 0, 0, [4])]
        packets += [windows_burst(5, 0x01, 1, 100, [36] * 8), windows_burst(6, 0x81, 1, 100, [4], b"\x00\x00\x06\x00")]
        packets += [windows_burst(7, 0x01, 0, 0, [36] * 8, bytes(288)), windows_burst(7, 0x01, 1, 101, [36] * 8, status=0xC0000011)]
        packets += windows_control(8, "010b000001000000", is_old=is_old)
        done = tool("script_of", "-", data=pcap(packets, 249))
        lines = done.stdout.decode().partition("\ng\n")[2].split("\n")[2:-1]
        wanted = ["c 2101010200030200 00f6", "# said done", "c a101000200030200", "# said stall", *START]
        wanted += [f"# bus {at}: o 1 6 ok 36 after 0" for at in range(1, 8)]
        wanted += ["# bus 8: o 1 6 ok 36 after 0, f 1 00060000 ok 00000600", "m 8"]
        wanted += [f"# bus {at}: o 1 6 lost 36 after 1" for at in range(9, 17)] + ["m 8 o1 f1", *STOP]
        same(lines, wanted, "script_of")


def test_usbpcap_that_is_cut(_):
    """Records whose heads say more than is there are left out, and none breaks the tool."""
    packets = windows_control(1, "8006000200001301", example("examples/headset.bin")[18:])
    packets += [b"", bytes(26), windows(2, 2, 0, 0, b"", b"\x01"), windows(3, 0, 1, 1, b"\x00", b""), windows(4, 0, 1, 1, bytes(11), b"")]
    same(told_of_windows(packets), [], "script_of")


def told_of_windows(packets):
    done = tool("script_of", "-", data=pcap(packets, 249))
    same((done.returncode, done.stderr), (0, b""), "script_of")
    return done.stdout.decode().partition("\ng\n")[2].split("\n")[2:-1]
