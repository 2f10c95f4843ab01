"""The proved program behind pipes, as a device of a descriptor that is asked one control transfer after the other."""
import subprocess
from tool import Refused, program


class Proved:
    """A run of the program after the descriptor's end. `refusal` is its line where it doesn't take the descriptor."""

    def __init__(self, descriptor):
        try:
            self.run = subprocess.Popen([program(), "run"], stdin=subprocess.PIPE, stdout=subprocess.PIPE, text=True, encoding="ascii")
        except OSError as why:
            raise Refused(f"the program {program()} can't be run ({why.strerror})")
        lines = [f"d {descriptor[at:at + 48].hex()}\n" for at in range(0, len(descriptor), 48)]
        first = self.say("".join(lines) + "g\n")
        self.refusal = None if first.startswith("ready") else first
        if self.refusal is not None:
            self.close()

    def say(self, lines):
        """The line that answers these lines."""
        try:
            self.run.stdin.write(lines)
            self.run.stdin.flush()
        except BrokenPipeError:
            pass
        answer = self.run.stdout.readline()
        if not answer:
            status = self.run.wait()
            raise Refused("the program could not be built; its own words stand above" if status == 70
                          else f"the program ended with status {status}")
        return answer.rstrip("\n")

    def ask(self, setup, sent=b""):
        """What the program answers to a transfer, as 'bytes 0200', 'done', 'stall Q9'."""
        answer = self.say(f"c {setup.hex()}" + (f" {sent.hex()}" if sent else "") + "\n")
        if not answer.startswith("c "):
            raise Refused(f"the program answered '{answer}'")
        return answer[2:]

    def has(self, request, data):
        """Whether a control has this value."""
        answer = self.ask(bytes([0xA1, 1]) + request.setup[2:6] + len(data).to_bytes(2, "little"))
        return answer == f"bytes {data.hex()}"

    def hold(self, request, data):
        """Sets a control to this value; whether it is held."""
        return self.ask(bytes([0x21, 1]) + request.setup[2:6] + len(data).to_bytes(2, "little"), data) == "done"

    def ask_setting(self, interface, setting):
        """Whether an interface goes into a setting."""
        return self.ask(bytes([0x01, 11, setting, 0, interface & 0xFF, interface >> 8, 0, 0])) == "done"

    def ask_in_setting(self, setup, interface, setting):
        """What is answered while an interface is in a setting, as far as it can be. Between transfers every interface is in setting 0,
        so that clocks can be set."""
        is_in = setting != 0 and self.ask_setting(interface, setting)
        answer = self.ask(setup)
        if is_in:
            self.ask_setting(interface, 0)
        return answer

    def close(self):
        """Ends the run."""
        try:
            self.run.stdin.close()
        except BrokenPipeError:
            pass
        self.run.stdout.close()
        self.run.wait()
