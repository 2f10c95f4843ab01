"""A device of this machine as one that is asked, by usbfs. The driver of its audio interfaces is detached for as long as it is asked, and
given back at the end, whatever happened.

A driver that has several interfaces of a device gives up its card with the first of them, and begins anew only once it has lost all; so all
that it has are detached, and the audio function's alone are claimed and asked."""
import collections, ctypes, errno, time
import usbfs
from descriptor import cut
from outcome import Gone, Outcome, Untaken, outcome_of
from tool import Refused
from usbfs import CONTROL, INTERRUPT, ISOCHRONOUS, GetDriver, OfInterface, SetInterface, Urb

# Seconds in which a transfer is taken back, and that the kernel itself gives a setting.
DISCARDING, KERNELS = 1, 5
# The kernel itself doesn't send requests of interfaces that there aren't.
UNSENT = (errno.ENOENT, errno.EINVAL, errno.EBUSY, errno.EHOSTUNREACH)


def why_not_open(found, why):
    """Why a device's node can't be opened, and what to do."""
    if why.errno in (errno.EACCES, errno.EPERM):
        return (f"{found.node} may not be written by you: 'sudo -E tools/probe {found.name}' asks as root, and "
                f"'sudo chmod a+rw {found.node}' gives you the right until the device is unplugged")
    if why.errno in (errno.ENOENT, errno.ENODEV):
        return f"{found.node} isn't there: {found.name} was unplugged, or this system has no usbfs ('mount' names /dev)"
    return f"{found.node} can't be opened ({why.strerror})"


class OverUsbfs:
    """A device of sysfs that is asked; `say` is told of drivers that are detached. `limit` is how many seconds a request may take."""
    # The system chose its configuration.
    is_configured = True

    def __init__(self, found, limit, say, kernel=None):
        self.found, self.limit, self.say, self.kernel = found, limit, say, usbfs.Kernel() if kernel is None else kernel
        self.name, self.speed, self.chosen, self.messages, self.listening = found.name, found.speed, found.chosen, [], None
        self.detached, self.claimed, self.waiting, self.done, self.has_left = {}, [], {}, collections.deque(), False
        try:
            self.file = self.kernel.open(found.node)
        except OSError as why:
            raise Refused(why_not_open(found, why))

    # ---- drivers

    def driver_of(self, interface):
        """The driver of an interface, None where it has none."""
        record = GetDriver(interface)
        try:
            self.kernel.call(self.file, usbfs.GETDRIVER, record)
        except OSError:
            return None
        return record.driver.decode("ascii", "replace")

    def to_driver(self, interface, number):
        return self.kernel.call(self.file, usbfs.IOCTL, OfInterface(interface, number, None))

    def begin(self, interfaces):
        """Detaches the drivers of these interfaces, with all that they have of the device, and claims the interfaces."""
        had = {number: self.driver_of(number) for number in interfaces}
        drivers = {driver for driver in had.values() if driver is not None} - {"usbfs"}
        every = [(number, driver) for number in self.all_interfaces() if (driver := self.driver_of(number)) in drivers]
        if every:
            names = ", ".join(str(number) for number, _ in every)
            self.say(f"the driver {' and '.join(sorted(drivers))} is detached from interfaces {names} for as long as {self.name} is asked "
                     f"(were this killed: '{self.by_hand(*every[0])}' gives it back)")
        try:
            for number, driver in every:
                self.detached[number] = driver
                self.to_driver(number, usbfs.DISCONNECT)
            for number in interfaces:
                self.claimed.append(number)
                self.kernel.call(self.file, usbfs.CLAIMINTERFACE, ctypes.c_uint(number))
        except OSError as why:
            what = "another program has it: end that first" if why.errno == errno.EBUSY else why.strerror
            raise Refused(f"interface {number} of {self.name} can't be taken ({what})")

    def all_interfaces(self):
        return sorted({block["number"] for block in cut(self.found.configuration)[0] if block.kind == "interface"})

    def end(self):
        """Gives all back, and closes the device; a sentence for each thing that couldn't be given back."""
        for urb in list(self.waiting.values()):
            self.discard(urb)
        for number in self.claimed:
            self.quietly(usbfs.RELEASEINTERFACE, ctypes.c_uint(number))
        for number in self.detached:
            self.quietly(usbfs.IOCTL, OfInterface(number, usbfs.CONNECT, None))
        missing = {number: driver for number, driver in self.detached.items() if self.driver_of(number) != driver}
        try:
            self.kernel.close(self.file)
        except OSError:
            pass
        if self.detached and not missing:
            self.say(f"the driver {' and '.join(sorted(set(self.detached.values())))} has its interfaces again")
        if missing and (self.has_left or not self.found.is_there):
            names = " and ".join(sorted(set(missing.values())))
            return [f"{self.name} is gone, so the driver {names} couldn't be given back: plug it in again, and the driver takes it"]
        return [f"the driver {driver} couldn't be given back to interface {number} of {self.name}: '{self.by_hand(number, driver)}' as "
                "root does it, or unplug the device and plug it in again" for number, driver in missing.items()]

    def by_hand(self, interface, driver):
        """What gives an interface back to its driver."""
        return f"echo {self.name}:{self.chosen}.{interface} > /sys/bus/usb/drivers/{driver}/bind"

    def quietly(self, number, record):
        """A call whose failing is seen by what comes after it."""
        try:
            self.kernel.call(self.file, number, record)
        except OSError:
            pass

    # ---- transfers

    def submit(self, urb):
        self.waiting[urb.address] = urb
        try:
            self.kernel.call(self.file, usbfs.SUBMITURB, urb.record)
        except OSError as why:
            del self.waiting[urb.address]
            self.stop_where_left(why)
            raise
        return urb

    def stop_where_left(self, why):
        """Ends the questions where a call failed since the device is gone."""
        if why.errno in (errno.ENODEV, errno.ESHUTDOWN):
            self.has_left = True
            raise Gone("the device went away: it was unplugged, or it reset itself")

    def reap(self, end):
        """The next transfer that ended, None where none does until this time."""
        place = ctypes.c_void_p()
        while True:
            try:
                self.kernel.call(self.file, usbfs.REAPURBNDELAY, place)
                return self.waiting.pop(place.value, None)
            except OSError as why:
                self.stop_where_left(why)
                if why.errno not in (errno.EAGAIN, errno.EINTR):
                    raise Gone(f"usbfs gives no transfer back ({why.strerror})")
            left = end - time.monotonic()
            if left <= 0:
                return None
            self.kernel.wait(self.file, left)

    def discard(self, urb):
        """Takes a transfer back."""
        try:
            self.kernel.call(self.file, usbfs.DISCARDURB, urb.record)
            end = time.monotonic() + DISCARDING
            while (done := self.reap(end)) is not None and done is not urb:
                self.keep(done)
        except (OSError, Gone):
            pass

    def control(self, setup, sent=b""):
        """What a control transfer is answered."""
        is_in, length = bool(setup[0] & 0x80), int.from_bytes(setup[6:8], "little")
        urb = Urb(CONTROL, 0, setup + (bytes(length) if is_in else sent))
        try:
            self.submit(urb)
        except OSError as why:
            kind = "unsent" if why.errno in UNSENT else "broken"
            return Outcome(kind, status=-why.errno)
        end = time.monotonic() + self.limit
        while (done := self.reap(end)) is not None:
            if done is urb:
                return outcome_of(urb.status, is_in, urb.data(8) if is_in else b"", urb.passed, self.limit)
            self.keep(done)
        self.discard(urb)
        return Outcome("silent", seconds=self.limit)

    def set_interface(self, interface, setting):
        """A setting that is there is chosen by the kernel, which has to know it; another one is asked of the device alone."""
        if not self.has_setting(interface, setting):
            return self.control(bytes([1, 11, setting, 0, interface, 0, 0, 0]))
        try:
            self.kernel.call(self.file, usbfs.SETINTERFACE, SetInterface(interface, setting))
        except OSError as why:
            return outcome_of(-why.errno, False, b"", None, KERNELS)
        return Outcome("done")

    def has_setting(self, interface, setting):
        return any(block.kind == "interface" and (block["number"], block["setting"]) == (interface, setting)
                   for block in cut(self.found.configuration)[0])

    # ---- messages and packets

    def keep(self, urb):
        """A transfer that ended beside: a message is kept and asked for again, packets wait."""
        if urb is None:
            return
        if self.listening is None or urb.endpoint != self.listening[0]:
            self.done.append(urb)
        elif urb.status == 0:
            self.messages.append(urb.data())
            self.listen(*self.listening)

    def listen(self, address, size, interval):
        """Asks for the next interrupt message of an endpoint."""
        self.listening = address, size, interval
        try:
            self.submit(Urb(INTERRUPT, address, bytes(size)))
        except OSError:
            self.listening = None

    def packets(self, address, lengths, interval):
        """Hands in isochronous packets, silent ones to the device; the transfer's number. That the kernel doesn't take them, for their
        size or the bus's bandwidth, says nothing of the device."""
        try:
            return self.submit(Urb(ISOCHRONOUS, address, bytes(sum(lengths)), lengths)).address
        except OSError as why:
            raise Untaken(f"the kernel takes no packets of endpoint {address:#04x} ({why.strerror})")

    def take(self, seconds):
        """The next transfer of packets that ended: its number, its bytes, each packet's state and length; None where none comes."""
        end = time.monotonic() + seconds
        while not self.done:
            urb = self.reap(end)
            if urb is None:
                return None
            self.keep(urb)
        urb = self.done.popleft()
        return urb.address, urb.packet_bytes() if urb.endpoint & 0x80 else b"", urb.packets()
