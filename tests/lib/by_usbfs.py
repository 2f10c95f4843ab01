"""Tests of tools/probe by usbfs, with a kernel of the tests' own (tests/lib/kernel.py), and with a real one where one is there."""
import contextlib, ctypes, json, os, shutil, subprocess, sys, tempfile, time
from needs import PROGRAM, TOP
from serving import SECONDS, Server, Skipped, same
from kernel import AUDIO, FakeKernel, folder_of, resized
import sysfs, usbfs
from descriptor import cut
from harmless import Keeper
from outcome import Outcome
from over_usbfs import OverUsbfs
from probe_report import report_lines
from probing import Probe
from questions import Questions
from tool import Refused

HEADSET = os.path.join(TOP, "examples/headset.bin")
COMPOSITE = os.path.join(TOP, "examples/composite-uac2-midi.bin")
# The headset before it is probed: a volume of -10 dB, muted, at 44,100 Hz.
BEFORE = ("2101010200030200 00f6", "2101000100030100 01", "2101000100010400 44ac0000")
VALUES = {"a101010200030200": "bytes 00f6", "a101000100030100": "bytes 01", "a101000100010400": "bytes 44ac0000",
          "a101020200030200": "bytes 0000", "810a000001000100": "bytes 00", "810a000002000100": "bytes 00"}
# The numbers of the calls on a machine of 64 bits, as linux/usbdevice_fs.h gives them.
CALLS = {"SETINTERFACE": 0x80085504, "GETDRIVER": 0x41045508, "SUBMITURB": 0x8038550A, "DISCARDURB": 0x550B, "REAPURBNDELAY": 0x4008550D,
         "CLAIMINTERFACE": 0x8004550F, "RELEASEINTERFACE": 0x80045510, "IOCTL": 0xC0105512, "DISCONNECT": 0x5516, "CONNECT": 0x5517}
C_SOURCE = """#include <sys/ioctl.h>
#include <linux/usbdevice_fs.h>
#include <stddef.h>
#include <stdio.h>
int main(void) {
    printf("%s", "");
%s    printf("%%zu %%zu %%zu %%zu\\n", offsetof(struct usbdevfs_urb, iso_frame_desc), sizeof(struct usbdevfs_iso_packet_desc),
           offsetof(struct usbdevfs_urb, number_of_packets), offsetof(struct usbdevfs_urb, buffer));
}
"""


class Words:
    """The words of a probe."""

    def __init__(self, **words):
        self.is_profile, self.is_read_only, self.is_loud, self.seconds, self.limit, self.out = False, False, False, 0, 1, None
        self.__dict__.update(words)


@contextlib.contextmanager
def fake(path=HEADSET, before=BEFORE, speed="480", **breaks):
    """A kernel of the tests with this device, and the device as sysfs has it."""
    with tempfile.TemporaryDirectory() as root:
        with open(path, "rb") as file:
            folder_of(root, "1-2", resized(file.read(), breaks.get("sizes") or {}), speed)
        kernel = FakeKernel(path, before=before, folder=os.path.join(root, "1-2"), speed=speed, **breaks)
        try:
            yield kernel, sysfs.device("1-2", root, "/dev/bus/usb")
        finally:
            kernel.end()


def probed(kernel, found, **words):
    """A probe that was run, with what it said on the way."""
    said, words = [], Words(**words)
    probe = Probe(OverUsbfs(found, words.limit, said.append, kernel), words, said.append)
    probe.run()
    probe.said = said
    return probe


def wrong(probe):
    return [(one.kind, one.rule, one.field) for one in probe.verdict.differences.of("standard", "contradicts itself", "warning")]


def is_given_back(kernel):
    """Drivers as before, nothing claimed, and all calls in their order."""
    same((kernel.drivers, kernel.claimed), (kernel.had, set()), "drivers")
    order = [name for name, _ in kernel.calls]
    for first, second in (("disconnect", "claim"), ("claim", "release"), ("release", "connect"), ("connect", "close")):
        ends = max(at for at, name in enumerate(order) if name == first), min(at for at, name in enumerate(order) if name == second)
        assert ends[0] < ends[1], f"{second} came before a {first}: {order}"


def is_as_before(kernel):
    same({setup: kernel.ask(setup) for setup in VALUES}, VALUES, "values")


# ---- how the kernel is called

def test_usbfs_calls(_):
    """The numbers of calls and the places in records are those of the kernel's header."""
    if ctypes.sizeof(ctypes.c_void_p) != 8:
        raise Skipped("this machine isn't one of 64 bits")
    same({name: getattr(usbfs, name) for name in CALLS}, CALLS, "calls")
    same(ctypes.sizeof(usbfs.TransferRecord), 56, "a transfer's record")
    urb = usbfs.Urb(usbfs.CONTROL, 0, bytes.fromhex("a101000200010100") + b"\0")
    data = bytes(urb.record)
    same((data[:2], data[4:12], data[24:28], data[36:40]), (b"\x02\0", bytes(8), b"\x09\0\0\0", bytes(4)), "a control transfer")
    same(ctypes.string_at(int.from_bytes(data[16:24], "little"), 9), bytes.fromhex("a10100020001010000"), "its bytes")
    urb = usbfs.Urb(usbfs.ISOCHRONOUS, 0x82, bytes(30), [10, 20])
    data = bytes(urb.record)
    same((data[:2], data[8:12], data[36:40], len(data)), (b"\0\x82", b"\2\0\0\0", b"\2\0\0\0", 80), "an isochronous one")
    same((data[56:68], data[68:80]), (b"\x0a" + bytes(11), b"\x14" + bytes(11)), "its packets")
    urb.record.packet[0].actual, urb.record.packet[1].actual = 2, 3
    ctypes.memmove(urb.buffer, b"ab" + bytes(8) + b"cde", 13)
    same((urb.packet_bytes(), urb.packets()), (b"abcde", [(0, 2), (0, 3)]), "what came")


def test_usbfs_header(folder):
    """The same from the header itself, where a compiler and the header are there."""
    if shutil.which("cc") is None or not os.path.exists("/usr/include/linux/usbdevice_fs.h"):
        raise Skipped("cc, or linux/usbdevice_fs.h, isn't installed")
    source, program = os.path.join(folder, "calls.c"), os.path.join(folder, "calls")
    lines = "".join(f'    printf("%lu\\n", (unsigned long)USBDEVFS_{name});\n' for name in CALLS)
    with open(source, "w", encoding="ascii") as file:
        file.write(C_SOURCE.replace('    printf("%s", "");\n', "").replace("%s", lines, 1).replace("%%", "%"))
    subprocess.run(["cc", "-o", program, source], check=True, stderr=subprocess.PIPE)
    told = subprocess.run([program], stdout=subprocess.PIPE).stdout.decode().split()
    record = usbfs.TransferRecord
    wanted = [getattr(usbfs, name) for name in CALLS] + [ctypes.sizeof(record), ctypes.sizeof(usbfs.PacketRecord), record.packets.offset,
                                                         record.buffer.offset]
    same([int(word) for word in told], wanted, "linux/usbdevice_fs.h")


def test_usbfs_list(folder):
    for name, path in (("1-2", HEADSET), ("2-1.4", COMPOSITE)):
        with open(path, "rb") as file:
            folder_of(folder, name, file.read())
    with open(HEADSET, "rb") as file:
        data = bytearray(file.read())
    data[42] = 0
    folder_of(folder, "1-7", bytes(data))
    os.makedirs(os.path.join(folder, "1-0:1.0"))
    same([one.in_words() for one in sysfs.devices(folder)],
         ["1-2 1234:5678 Some Thing, high speed", "2-1.4 1d6b:0101 Some Thing, high speed"], "devices")
    for name, why in (("1-7", "1-7 has no audio function of version 2.0"), ("1-9", "there is no device 1-9")):
        refused(lambda: sysfs.device(name, folder), why)
    with open(os.path.join(folder, "1-2", "bConfigurationValue"), "w", encoding="ascii") as file:
        file.write("\n")
    refused(lambda: sysfs.device("1-2", folder), "isn't in its first configuration")


def refused(call, words):
    try:
        call()
    except Refused as why:
        assert words in str(why), f"{why}, wanted {words}"
        return
    raise AssertionError(f"it wasn't refused, wanted {words}")


def test_places_of_stalls(_):
    """Of 8 bytes that come or are sent; a request without data has its stall where nothing tells it from one in the status."""
    for is_in, passed, length, wanted in ((True, 0, 8, "setup"), (True, 3, 8, "data"), (False, 0, 8, "setup"), (False, 3, 8, "data"),
                                          (False, 8, 8, "status"), (False, 0, 0, None), (True, None, 8, None)):
        same(Outcome("stall", passed=passed).stage(is_in, length), wanted, f"{passed} of {length} bytes")
    same(Outcome("done", passed=8).stage(False, 8), None, "no stall")


class Quiet(Questions):
    """Questions of which none is asked: each control is as it was."""

    def set(self, point, data, is_bad=False):
        self.keeper.now[point.key] = self.keeper.first[point.key]

    def read(self, point):
        pass


def test_what_is_too_many_is_told(_):
    """Of a control with very many ends, and of a clock with very many rates, those alone are tried that there is time for."""
    with open(HEADSET, "rb") as file:
        questions = Quiet(None, Keeper(False, False), cut(file.read()[18:])[0])
    clock = next(point for point in questions.points if point.name == "frequency")
    questions.keeper.hear(clock, (48000).to_bytes(4, "little"))
    questions.keeper.left_out.clear()
    for count, wanted in ((16, []), (30, [("SET CUR rate.1.0, 14 more ends of its subranges", "of a control 16 ends are tried"),
                                          ("settings at 6 more rates of rate.1.0", "of a clock 24 rates are visited")])):
        questions.ranges[clock.key] = [(8000 + at, 8000 + at, 0) for at in range(count)]
        questions.try_point(clock)
        same((len(questions.rates_of(clock)), questions.keeper.left_out), (min(count, 24), wanted), f"{count} rates")


# ---- a device that is probed

def test_usbfs_nothing_is_wrong(_):
    """The driver is detached and comes back, the HID interface is left alone, and every value is as it was."""
    with fake() as (kernel, found):
        probe = probed(kernel, found)
        same((wrong(probe), probe.status, probe.why, probe.troubles), ([], 0, None, []), "verdict")
        is_given_back(kernel)
        is_as_before(kernel)
        same([number for name, number in kernel.calls if name == "claim"], [0, 1, 2], "claimed")
        assert ("disconnect", 3) not in kernel.calls, "the HID interface lost its driver"
        assert any("detached from interfaces 0, 1, 2" in line for line in probe.said), probe.said
        assert any("has its interfaces again" in line for line in probe.said), probe.said
        unsent = [one.setup[4] for one in probe.dialogue.asked if one.outcome.kind == "unsent"]
        assert unsent and set(unsent) == {4}, f"the kernel didn't send requests of interfaces {unsent}"
        assert "Every value that was set is again as it was." in list(report_lines(probe)), "the report"


def volumes_and_mutes(kernel):
    """What volume 3.1 and mute 3.0 were set to, with done or not."""
    of = lambda front: [int.from_bytes(sent, "little", signed=True) for setup, sent in kernel.sets
                        if setup.startswith(bytes.fromhex(front)) and len(sent) == setup[6]]
    return of("2101010200030200"), of("2101000100030100")


def test_usbfs_does_no_harm(_):
    """Nothing above what it was, nothing unmuted; --loud does both, and sets all again; --read-only sets nothing."""
    with fake() as (kernel, found):
        probed(kernel, found)
        volumes, mutes = volumes_and_mutes(kernel)
        assert volumes and max(volumes) == -2560 and mutes and set(mutes) == {1}, (volumes, mutes)
    with fake() as (kernel, found):
        probe = probed(kernel, found, is_loud=True)
        volumes, mutes = volumes_and_mutes(kernel)
        assert max(volumes) >= 3072 and {0, 1, 2} <= set(mutes), (volumes, mutes)
        same(wrong(probe), [], "verdict")
        is_as_before(kernel)
        is_given_back(kernel)
    with fake() as (kernel, found):
        probe = probed(kernel, found, is_read_only=True)
        same((kernel.sets, wrong(probe), probe.status), ([], [], 0), "--read-only")
        is_given_back(kernel)


def test_usbfs_streams(_):
    with fake(before=()) as (kernel, found):
        probe = probed(kernel, found, seconds=0.1)
        same((wrong(probe), probe.status), ([], 0), "verdict")
        rows = [run.row() for run in probe.verdict.streams.runs if run.packets]
        same([(row["direction"], row["packets"] >= 800, row["mean_rate"]) for row in rows], [("out", True, 48000.0), ("in", True, 48000.0)],
             "streams")
        is_given_back(kernel)


def test_usbfs_shared_driver(_):
    """A driver that has another interface of the device, too, gives up its card: all that it has come back, and only audio is asked."""
    with fake(COMPOSITE, ()) as (kernel, found):
        probe = probed(kernel, found)
        same((wrong(probe), probe.status), ([], 0), "verdict")
        is_given_back(kernel)
        same([sorted(number for name, number in kernel.calls if name == what) for what in ("disconnect", "claim")],
             [[0, 1, 2, 3, 4], [0, 1, 2]], "interfaces")


def test_usbfs_messages(_):
    """A knob that is turned meanwhile is no fault of a device that tells it by an interrupt message, and one of a device that doesn't."""
    read, turned = "a101000200050200", "2101000200050200 00fe"
    for message, wanted in (("000100020005", []), (None, [("contradicts itself", "other-value", "GET CUR volume.5.0")])):
        with fake(COMPOSITE, (), knob=(read, turned, message)) as (kernel, found):
            probe = probed(kernel, found)
            same(wrong(probe), wanted, f"message {message}")
            kept = [line for line in probe.dialogue.lines if line.startswith("# message")]
            same(kept, [f"# message {message}"] if message else [], "script")
            is_given_back(kernel)


def test_usbfs_full_speed(_):
    """A device of full speed is judged as one, and the script says so. Its reports have three bytes, and so has their endpoint."""
    with fake(before=(), speed="12", sizes={0x01: 600, 0x81: 3, 0x82: 200}) as (kernel, found):
        probe = probed(kernel, found, seconds=0.1)
        same((wrong(probe), probe.status, probe.speed, probe.script.speed, probe.notes), ([], 0, "full", "full", []), "verdict")
        rows = [run.row() for run in probe.verdict.streams.runs if run.packets]
        same([(row["direction"], row["packets"] >= 100, row["mean_rate"], row["reports"] > 0) for row in rows],
             [("out", True, 48000.0, True), ("in", True, 48000.0, False)], "streams")
        is_given_back(kernel)


def test_usbfs_packets_that_are_not_taken(_):
    """A bus without bandwidth says nothing of the device: the streams are left out, all else is asked, and every value is as it was."""
    with fake(breaks="bandwidth") as (kernel, found):
        probe = probed(kernel, found, seconds=0.1)
        same((wrong(probe), probe.status, probe.why), ([], 0, None), "verdict")
        assert any("didn't run: the kernel takes no packets of endpoint 0x01 (No space left" in note for note in probe.notes), probe.notes
        why = "no setting of one was taken and ran at the rate that holds"
        assert ("a stream to the device", why) in probe.keeper.left_out, probe.keeper.left_out
        is_given_back(kernel)
        is_as_before(kernel)


# ---- what goes wrong

def test_usbfs_ctrl_c(_):
    """Before anything was asked, early, amid the values and late: the driver has its interfaces again, and every value is as it was."""
    with fake(breaks="ctrl-c", at=2) as (kernel, found):
        refused(lambda: probed(kernel, found), "ended by Ctrl-C")
        same(kernel.drivers, kernel.had, "drivers")
    with fake() as (kernel, found):
        probed(kernel, found)
        most = kernel.requests
    for at in (30, most // 2, 2 * most // 3, most - 60):
        with fake(breaks="ctrl-c", at=at) as (kernel, found):
            probe = probed(kernel, found)
            assert "ended by Ctrl-C" in probe.why and kernel.requests < at + 40, (at, probe.why, kernel.requests)
            same((wrong(probe), probe.status), ([], 2), f"verdict at {at}")
            is_given_back(kernel)
            is_as_before(kernel)


def test_usbfs_ctrl_c_before_an_answer(_):
    """The device did what a SET asks, and Ctrl-C comes before its answer was heard: every value is as it was all the same."""
    for at in (1, 2, 3, 8, 20):
        with fake(breaks="late", at=at) as (kernel, found):
            probe = probed(kernel, found)
            assert "ended by Ctrl-C" in (probe.why or ""), (at, probe.why)
            same((wrong(probe), probe.status, probe.not_as_it_was), ([], 2, []), f"verdict at SET {at}")
            is_given_back(kernel)
            is_as_before(kernel)


def test_usbfs_ctrl_c_while_all_is_set_again(_):
    """Once everything was asked, Ctrl-C doesn't disturb what is set as it was."""
    with fake() as (kernel, found):
        probed(kernel, found)
        last = kernel.requests
    with fake(breaks="ctrl-c", at=last) as (kernel, found):
        probe = probed(kernel, found)
        same((probe.why, wrong(probe), probe.status), (None, [], 0), "verdict")
        is_given_back(kernel)
        is_as_before(kernel)


def test_usbfs_goes_away(_):
    """What it had can't be given back, which is said once, with what to do."""
    with fake(breaks="gone", at=300) as (kernel, found):
        probe = probed(kernel, found)
        assert "the device went away" in probe.why, probe.why
        same((wrong(probe), probe.status), ([], 2), "verdict")
        gone = f"1-2 is gone, so the driver {AUDIO} couldn't be given back: plug it in again, and the driver takes it"
        same(probe.said[1:], [gone], "said")


def test_usbfs_goes_away_amid_enumeration(_):
    """Where no request of the class was answered, there is nothing to judge: why is said."""
    with fake(breaks="gone", at=6) as (kernel, found):
        refused(lambda: probed(kernel, found), "the device went away")


def test_usbfs_falls_silent(_):
    """A device that answers nothing any more is told, and loses no driver; one that never answers is refused."""
    with fake(breaks="silent", at=300) as (kernel, found):
        probe = probed(kernel, found)
        assert "answers nothing any more after" in probe.why, probe.why
        same(([one.rule for one in probe.verdict.differences.of("warning")], probe.status), (["no-answer"], 2), "verdict")
        is_given_back(kernel)
    with fake(breaks="silent", at=1) as (kernel, found):
        refused(lambda: probed(kernel, found), "1-2 doesn't tell its device descriptor: it said nothing within 1 second")
        same(kernel.drivers, kernel.had, "drivers")


def test_usbfs_driver_is_lost(_):
    with fake(breaks="lost") as (kernel, found):
        probe = probed(kernel, found)
        same((wrong(probe), probe.status, len(probe.troubles)), ([], 2, 3), "verdict")
        for words in (f"the driver {AUDIO} couldn't be given back to interface 0 of 1-2", f"/sys/bus/usb/drivers/{AUDIO}/bind' as root"):
            assert words in probe.troubles[0] and any(words in line for line in probe.said), probe.troubles
        assert any(line.startswith("Not given back: ") for line in report_lines(probe)), "the report"


def test_usbfs_is_refused(_):
    """No rights, and an interface that another program has: what was taken before is given back."""
    with fake(breaks="rights") as (kernel, found):
        refused(lambda: probed(kernel, found), "'sudo -E tools/probe 1-2' asks as root")
    with fake(breaks="busy") as (kernel, found):
        refused(lambda: probed(kernel, found), "interface 1 of 1-2 can't be taken (another program has it: end that first)")
        same((kernel.drivers, kernel.claimed), (kernel.had, set()), "drivers")


# ---- a real kernel

def test_usbfs_of_linux(_):
    """Linux attaches the headset over USB/IP, and it is probed by usbfs, where usbip, its module and the right to use them are there."""
    if shutil.which("usbip") is None:
        raise Skipped("usbip isn't installed")
    if not os.path.exists("/sys/devices/platform/vhci_hcd.0") or os.geteuid() != 0:
        raise Skipped("the module vhci-hcd isn't loaded, or this isn't root")
    before = {one.name for one in sysfs.devices()}
    with Server("examples/headset.bin") as server:
        subprocess.run(["usbip", "--tcp-port", str(server.port), "attach", "-r", "127.0.0.1", "-b", "1-1"], check=True, timeout=SECONDS)
        end = time.monotonic() + SECONDS
        while not (names := {one.name for one in sysfs.devices()} - before) and time.monotonic() < end:
            time.sleep(0.2)
        time.sleep(2)
        done = subprocess.run([sys.executable, os.path.join(TOP, "tools/probe"), names.pop(), "--json", "--stream", "0.2"],
                              stdout=subprocess.PIPE, stderr=subprocess.PIPE, timeout=SECONDS, env={**os.environ, "UAC_CLI": PROGRAM})
        told = json.loads(done.stdout)
        wanted = [one for one in told["findings"] if one["kind"] in ("standard", "contradicts itself")]
        same((done.returncode, wanted, told["not_given_back"]), (0, [], []), done.stderr.decode())
