"""What a test needs besides Python and the program as it is: a test that lacks it is skipped, and counted as skipped, by name."""
import os, shutil

TOP = os.path.dirname(os.path.dirname(os.path.dirname(os.path.abspath(__file__))))
# The built program; the environment may name another, as a build that stands elsewhere.
PROGRAM = os.environ.get("UAC_CLI") or os.path.join(TOP, "crates/uac_cli/out/uac_cli")
HEADSET = os.path.join(TOP, "examples/headset.bin")


def as_lines(data):
    """The lines `d` of a descriptor, 48 bytes each."""
    return "".join(f"d {data[at:at + 48].hex()}\n" for at in range(0, len(data), 48)).encode()


def why_missing(need):
    """Why a test that needs this is skipped; None where it is there."""
    return None if shutil.which(need) else f"{need} isn't installed"
