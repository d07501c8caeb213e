"""The core's calls over bytes, from the shared object where that is built; each is told in the line that the core's program prints for it."""
import functools
import struct

from lineup import home
from lineup.answers import KINDS, OUT_BLANK
from lineup.trouble import Trouble
from lineup.wordfile import binary, packed

REFUSED = 2_147_483_648  # from here on what a firing returns is no node, but this and the number of a refusal
BYTES = 4  # of a word
REPLY = struct.Struct("<6Q")
NO_NODE, NOT_OFFERED = 18, 20
wanted = True  # whether it is asked where it can be

# the functions of include/wulthrein.h: how many inputs they are handed before their numbers, how many numbers, and how many buffers
SHAPES = {"wulthrein_check": (2, 0, 2), "wulthrein_run": (3, 0, 3), "wulthrein_short_form": (2, 0, 3), "wulthrein_fire": (2, 2, 1)}


def has(calls=()):
    """Whether it is there and can answer calls."""
    return wanted and all(call.operation in LINES for call in calls) and loaded() is not None


@functools.lru_cache(None)
def loaded():
    """The shared object; nothing where it is not built."""
    path = home.library()
    if path is None:
        return None
    import ctypes  # slow to load

    try:
        found = ctypes.CDLL(path)
        for name, (inputs, numbers, buffers) in SHAPES.items():
            lent = [ctypes.c_void_p, ctypes.c_size_t]
            function = getattr(found, name)
            function.argtypes, function.restype = lent * inputs + [ctypes.c_uint32] * numbers + lent * buffers, ctypes.c_uint32
    except (OSError, AttributeError) as error:
        raise Trouble(f"cannot be loaded: {error}; without it lineup asks its program", path) from None
    return found


def line(call):
    """The line for a call. Each has buffers of its own, so that threads may call at once."""
    return LINES[call.operation](*(given for _, given in call.parts))


def called(name, *arguments):
    """What a function returns; each buffer is handed over with its length."""
    lent = []
    for argument in arguments:
        lent += [argument] if isinstance(argument, int) else [argument, len(argument)]
    return getattr(loaded(), name)(*lent)


def blank(words, word=0):
    import ctypes

    return ctypes.create_string_buffer(packed([word]) * words, words * BYTES)


def check(net, sheet, scratch):
    return answered("wulthrein_check", ("nodes", "arcs", "awaits"), [net, sheet], None, scratch)


def run(net, sheet, record, out, scratch):
    return answered("wulthrein_run", ("fired", "node", "entry"), [net, sheet, record], out, scratch)


def short_form(net, sheet, out, scratch):
    return answered("wulthrein_short_form", ("length",), [net, sheet], out, scratch)


def answered(name, own, inputs, out, scratch):
    """The line of a call that writes a reply."""
    outs = [] if out is None else [blank(out, OUT_BLANK)]
    reply = blank(REPLY.size // BYTES)
    called(name, *map(packed, inputs), *outs, blank(scratch), reply)
    number, kind, position, *numbers = REPLY.unpack(reply.raw)
    return f"answer {number} {KINDS[kind]} {position}" + "".join(f" {name} {value}" for name, value in zip(own, numbers)) + "".join(map(held, outs))


def held(out):
    """What an output buffer holds: the words up to the last that is not blank, and how many follow."""
    words = binary(out.raw, len(out))[0]
    many = len(words)
    while words and words[-1] == OUT_BLANK:
        words.pop()
    return f" out{''.join(f' {word}' for word in words)} rest {many - len(words)}"


def fire(net, sheet, node, counts, transition, scratch):
    """A firing returns a node or a number. Where net or sheet is refused, a check tells the position, too."""
    returned = called("wulthrein_fire", packed(net), packed(sheet), node, transition, blank(scratch))
    if returned < REFUSED:
        return f"answer 0 none 0 node {returned}"
    if returned - REFUSED in (NO_NODE, NOT_OFFERED):
        return f"answer {returned - REFUSED} none 0"
    return check(net, sheet, scratch)


LINES = {2: check, 5: fire, 6: run, 7: short_form}  # by the number of the program's operation
