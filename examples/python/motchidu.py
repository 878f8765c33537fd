"""The library for C as a Python module: compile and explain profiles; verify, run and compare filters.

    import motchidu
    library = motchidu.Library("libmotchidu.so")
    profile = open("profile.json", "rb").read()
    judged = library.compile(profile)
    judged.run(motchidu.call(83))                          # (value, steps)
    library.verify(open("filter.bpf", "rb").read())        # None, or Refused with the first fault
    library.explain(profile, motchidu.call(library.call_number("mkdir")))

A status of the library that is not an answer is raised as Refused, with its name and, if it has one, its
place: the index of an instruction, or a path in the profile's text.
"""
import ctypes
import struct
from collections import namedtuple

X86_64 = 0xC000003E
MAX_FILTER = 32768  # bytes: room for any filter
MAX_PROFILE = 262144  # bytes: room for any text
MAX_PLACE = 128  # bytes: room for any place in a text
ACCEPTED, UNKNOWN_CALL, SAME, DIFFER, BUDGET, ARITHMETIC = 0, 25, 30, 31, 32, 33
NEWEST = (0xFFFFFFFF, 0xFFFFFFFF)  # newer than any kernel that a template asks for
# In the order of enum motchidu_status.
NAMES = """Accepted Length TooLong BadCode Empty BadOffset BadJump BadWord BadShift ZeroDivisor NoFinalReturn
Unstored Memory Lengths NotJson NotObject Missing WrongType UnknownAction UnknownOp BadIndex EmptyNames
RepeatedIndex ErrnoNotAllowed ErrnoTooLarge UnknownCall Notify TooLarge TooHeavy NoRoom Same Differ Budget
Arithmetic Both UnknownErrno BadKernel UnknownVersion""".split()
# The statuses that have a place in a filter.
PLACED = {"BadCode", "BadOffset", "BadJump", "BadWord", "BadShift", "ZeroDivisor", "Unstored"}
# In the order of enum motchidu_decider.
ENTRY, DEFAULT, ARCHITECTURE, X32 = range(4)
# In the order of enum motchidu_version.
LINUX_5_8, LINUX_6_12 = range(2)

_BYTES, _SIZE, _WORDS = ctypes.c_char_p, ctypes.c_size_t, ctypes.POINTER(ctypes.c_uint32)
_WORD, _MASK, _PLACE = ctypes.c_uint32, ctypes.c_uint64, ctypes.POINTER(ctypes.c_size_t)
_MASKS = ctypes.POINTER(ctypes.c_uint64)
_ARGUMENTS = {
    "motchidu_call_name_with": [_WORD, _WORD, _BYTES, _SIZE, _PLACE],
    "motchidu_call_number_with": [_WORD, _BYTES, _SIZE, _WORDS],
    "motchidu_compare": [_BYTES, _SIZE, _BYTES, _SIZE, ctypes.c_bool, ctypes.c_uint64, _BYTES, _WORDS],
    "motchidu_compile_with": [_WORD, _BYTES, _SIZE, _BYTES, _SIZE, _PLACE, _BYTES, _SIZE, _PLACE],
    "motchidu_default": [_BYTES, _SIZE, _PLACE],
    "motchidu_explain_name": [_WORD, _BYTES, _SIZE, _BYTES, _SIZE, _MASKS, _WORDS, _PLACE, _WORDS],
    "motchidu_explain_with": [_WORD, _BYTES, _SIZE, _BYTES, _WORDS, _PLACE, _WORDS],
    "motchidu_longest": [_BYTES, _SIZE, _WORDS, _PLACE],
    "motchidu_resolve_with": [_WORD, _BYTES, _SIZE, _MASK, _WORD, _WORD, _BYTES, _SIZE, _PLACE],
    "motchidu_run_all": [_BYTES, _SIZE, _BYTES, _SIZE, _WORDS, _SIZE, _WORDS, _SIZE],
    "motchidu_verify": [_BYTES, _SIZE, _PLACE],
}

# What decides a call: one of the four numbers above, the index of the entry if it is ENTRY, and the value.
Explanation = namedtuple("Explanation", "decider entry value")


class Refused(Exception):
    """What the library refused: the name of its status, and the place of the fault."""

    def __init__(self, status, place=None):
        self.status, self.place = NAMES[status], place
        super().__init__(self.status if place is None else f"{self.status} at {place}")


def call(number, *arguments, arch=X86_64, ip=0):
    """A struct seccomp_data: number, architecture, instruction pointer, six arguments."""
    return struct.pack("<IIQ6Q", number, arch, ip, *arguments, *[0] * (6 - len(arguments)))


class Library:
    """The shared library at a path."""

    def __init__(self, path):
        self._library = ctypes.CDLL(path)
        for name, arguments in _ARGUMENTS.items():
            function = getattr(self._library, name)
            function.argtypes, function.restype = arguments, ctypes.c_int

    def _text(self, function, room, *arguments):
        """The text that a function writes into its room."""
        text, length = ctypes.create_string_buffer(room), ctypes.c_size_t()
        status = function(*arguments, text, room, length)
        if status != ACCEPTED:
            raise Refused(status)
        return text.raw[: length.value]

    def compile(self, profile, calls=LINUX_5_8):
        """The filter of a profile, the bytes of OCI's linux.seccomp as JSON. calls is a version of Linux."""
        code, length = ctypes.create_string_buffer(MAX_FILTER), ctypes.c_size_t()
        place, place_length = ctypes.create_string_buffer(MAX_PLACE), ctypes.c_size_t()
        status = self._library.motchidu_compile_with(
            calls, profile, len(profile), code, MAX_FILTER, length, place, MAX_PLACE, place_length)
        if status != ACCEPTED:
            raise Refused(status, place.raw[: place_length.value].decode() or None)
        return Filter(self, code.raw[: length.value])

    def explain(self, profile, one, calls=LINUX_5_8):
        """What decides a call under a profile, and the value that its filter returns."""
        decider, entry, value = ctypes.c_uint32(), ctypes.c_size_t(), ctypes.c_uint32()
        status = self._library.motchidu_explain_with(
            calls, profile, len(profile), one, decider, entry, value)
        return self._explanation(status, decider, entry, value)

    def explain_name(self, profile, name, *arguments, calls=LINUX_5_8):
        """What decides the call of x86-64 with this name and these arguments, and the value."""
        decider, entry, value = ctypes.c_uint32(), ctypes.c_size_t(), ctypes.c_uint32()
        name, six = name.encode(), (ctypes.c_uint64 * 6)(*arguments)
        status = self._library.motchidu_explain_name(
            calls, profile, len(profile), name, len(name), six, decider, entry, value)
        return self._explanation(status, decider, entry, value)

    @staticmethod
    def _explanation(status, decider, entry, value):
        if status != ACCEPTED:
            raise Refused(status)
        index = entry.value if decider.value == ENTRY else None
        return Explanation(decider.value, index, value.value)

    def default(self):
        """The bytes of RuntimeDefault, the profile of a container whose manifest asks for it."""
        return self._text(self._library.motchidu_default, MAX_PROFILE)

    def resolve(self, template, caps=0, kernel=NEWEST, calls=LINUX_5_8):
        """The profile that a container engine's template is. Bit n of caps is capability n."""
        return self._text(
            self._library.motchidu_resolve_with, MAX_PROFILE, calls, template, len(template), caps, *kernel)

    def call_number(self, name, calls=LINUX_5_8):
        """The number of the call with this name, or None."""
        number, name = ctypes.c_uint32(), name.encode()
        status = self._library.motchidu_call_number_with(calls, name, len(name), number)
        if status == UNKNOWN_CALL:
            return None
        if status != ACCEPTED:
            raise Refused(status)
        return number.value

    def call_name(self, number, calls=LINUX_5_8):
        """The name of the call with this number, or None."""
        try:
            return self._text(self._library.motchidu_call_name_with, 32, calls, number).decode()
        except Refused as refused:
            if refused.status != NAMES[UNKNOWN_CALL]:
                raise
            return None

    def verify(self, code):
        """Returns None if the filter of these bytes is sound; else raises Refused with its first fault."""
        place = ctypes.c_size_t()
        status = self._library.motchidu_verify(code, len(code), place)
        if status != ACCEPTED:
            raise Refused(status, place.value if NAMES[status] in PLACED else None)

    def filter(self, code):
        """The filter of these bytes, if it is sound."""
        return Filter(self, code)


class Filter:
    """A sound filter."""

    def __init__(self, library, code):
        library.verify(code)
        self._library, self.code = library._library, code

    def longest(self):
        """The largest number of instructions on any way through the filter."""
        longest, place = ctypes.c_uint32(), ctypes.c_size_t()
        status = self._library.motchidu_longest(self.code, len(self.code), longest, place)
        if status != ACCEPTED:
            raise Refused(status)
        return longest.value

    def run_all(self, calls):
        """For each call the value that the filter returns, and the number of steps."""
        count, data = len(calls), b"".join(calls)
        values, steps = (ctypes.c_uint32 * count)(), (ctypes.c_uint32 * count)()
        status = self._library.motchidu_run_all(
            self.code, len(self.code), data, len(data), values, count, steps, count)
        if status != ACCEPTED:
            raise Refused(status)
        return list(zip(values, steps))

    def run(self, one):
        """For one call the value that the filter returns, and the number of steps."""
        return self.run_all([one])[0]

    def compare(self, other, native=False, budget=100_000_000):
        """None if both return the same on every call; else a call on which they differ, and both values."""
        data, values = ctypes.create_string_buffer(64), (ctypes.c_uint32 * 2)()
        status = self._library.motchidu_compare(
            self.code, len(self.code), other.code, len(other.code), native, budget, data, values)
        if status == SAME:
            return None
        if status != DIFFER:
            raise Refused(status)
        return data.raw, values[0], values[1]
