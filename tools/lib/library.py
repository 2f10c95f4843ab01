"""The library of the program's commands, where it is built: what a command prints, without a process."""
import functools, os, re, sys
from tool import TOP, Refused, sources_since

HEADER = os.path.join(TOP, "c/yolktrowel.h")
OUT = os.path.join(TOP, "c/out")


@functools.lru_cache(None)
def version():
    """The version of the functions, by their header."""
    with open(HEADER, encoding="utf-8") as file:
        return re.search(r'^#define YOLKTROWEL_VERSION "(\d+\.\d+)"$', file.read(), re.M)[1]


def static_name():
    return f"libyolktrowel-{version()}.a"


def shared_name(major=False):
    return "libyolktrowel.so." + (version().split(".")[0] if major else version())


def is_current():
    """Whether it is built, and no source is newer."""
    stamp = os.path.join(OUT, "stamp")
    if not os.path.exists(stamp) or not all(os.path.exists(os.path.join(OUT, name)) for name in (static_name(), shared_name())):
        return False
    return not sources_since(os.stat(stamp).st_mtime_ns)


@functools.lru_cache(None)
def library():
    """Its functions; None where it isn't built, or the environment names a program to ask."""
    if os.environ.get("UAC_CLI") or not is_current():
        return None
    sys.path.append(os.path.join(TOP, "python"))
    import yolktrowel
    return yolktrowel


def told(command, data):
    """What a command that takes an input and no number says of it, and its status; None where the library isn't there to ask."""
    if library() is None:
        return None
    given = (data, len(data)) + ((False,) if command == "run" else ())
    try:
        status, text = library().answer(command, *given)
    except MemoryError:
        raise Refused(f"there is no memory for what {command} says of {len(data)} bytes")
    except (OSError, AttributeError, ValueError) as why:
        raise Refused(f"the library in {os.path.relpath(OUT)} can't be asked ({why}): remove that folder, and tools/library builds it "
                      "anew; UAC_CLI=PROGRAM asks a program in its place")
    return text, int(status)
