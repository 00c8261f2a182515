"""Region-checked modules: the proved library librcm, over ctypes.

    import rcm
    module = rcm.Module(open("ranking", "rb").read())   # checked here; rcm.Refused where it is refused
    run = module.open()                                 # function 0, without arguments
    answer = run.go(form)                               # Answer(status='ended', value=6, steps=335)
    run.output                                          # the list, as bytes

A module file, a form and a state are bytes; answers are named tuples; a refusal is the exception Refused, with number, place and texts. The
buffers that the library writes are this module's own and of the right lengths, so no call can break what include/rcm.h asks of a host. Calls
of different runs may be made by different threads at once; those of one run wait for one another.

The shared library is the one that the variable RCM_LIBRARY names, else the one that was installed with this module, else the one that the
system's linker finds as librcm.so.0.
"""

import ctypes
import os
import pathlib
import re
import threading
from typing import NamedTuple, Optional

__all__ = ["Answer", "Module", "Object", "Refused", "Run", "Verdict", "check", "refusal_advice", "refusal_text", "stop_advice", "stop_text"]

# `make install` fills in the version and the folder of the shared library.
__version__ = "@VERSION@"
_LIBDIR = "@LIBDIR@"
_SHARED = "librcm.so.0"

# The lengths and answers of include/rcm.h.
MODULE_MAX = 32768
FORM_MAX = 4096
STATE_BYTES = 24576
OUTPUT_BYTES = 4096
_BLOCK_BYTES = 512
_ARGUMENT_BYTES = 4
_FUNCTIONS_UNIT = 65536
_REFUSED, _GOOD, _ENDED, _STOPPED, _RUNNING = range(5)
_STATUS = {_ENDED: "ended", _STOPPED: "stopped", _RUNNING: "running"}

# Where a state holds what this module reads (docs/STATE.md).
_STATUS_AT = 0
_STATE_STATUS = {0: "running", 1: "ended"}
_OUTPUT_COUNT = slice(2, 4)
_RESULT = slice(4, 8)
_MEMORY_AT = 8192

_DEFAULT_BUDGET = 1_000_000


class Refused(Exception):
    """A call was refused: nothing has run and nothing has changed. `number` and `place` are those of include/rcm.h, `text` says what
    the number means and `advice` what to do."""

    def __init__(self, number: int, place: int):
        self.number = number
        self.place = place
        self.text = refusal_text(number)
        self.advice = refusal_advice(number)
        # With the same arguments, as copies and pickles are made of them.
        super().__init__(number, place)

    def __str__(self) -> str:
        return f"refused {self.number} {self.place}: {self.text}"


class Verdict(NamedTuple):
    """What an accepted module has."""

    types: int
    structs: int
    functions: int
    instructions: int


class Answer(NamedTuple):
    """What a call of going on came to: status "ended" with the module's value, "stopped" with the stop's number (stop_text says what it
    means), or "running" with None; and the steps of this call."""

    status: str
    value: Optional[int]
    steps: int


class Object(NamedTuple):
    """An object of the module's memory: the address of its first byte, and its bytes."""

    address: int
    bytes: bytes


def _read_texts() -> dict:
    lines = (pathlib.Path(__file__).parent / "numbers.def").read_text(encoding="utf-8")
    entries = re.findall(r'^(REFUSAL|STOP)\((\d+), "(.*)", "(.*)"\)$', lines, re.MULTILINE)
    return {(kind, int(number)): (text, advice) for kind, number, text, advice in entries}


_TEXTS = _read_texts()


def _text(kind: str, number: int, which: int) -> str:
    unknown = (f"no number of a {kind.lower()}", f"Look the number up again: it is none of a {kind.lower()}.")
    return _TEXTS.get((kind, number), unknown)[which]


def refusal_text(number: int) -> str:
    """What a refusal's number means, in a few words."""
    return _text("REFUSAL", number, 0)


def refusal_advice(number: int) -> str:
    """What to do about a refusal."""
    return _text("REFUSAL", number, 1)


def stop_text(number: int) -> str:
    """What a stop's number means, in a few words."""
    return _text("STOP", number, 0)


def stop_advice(number: int) -> str:
    """What to do about a stop."""
    return _text("STOP", number, 1)


def _find_library() -> str:
    installed = pathlib.Path(_LIBDIR) / _SHARED
    return os.environ.get("RCM_LIBRARY") or (str(installed) if installed.is_file() else _SHARED)


def _load_library() -> ctypes.CDLL:
    path = _find_library()
    try:
        library = ctypes.CDLL(path)
    except OSError as error:
        raise ImportError(f"expected the shared library of rcm at {path}; RCM_LIBRARY may name another place ({error})") from error
    lent, length, answer = ctypes.c_void_p, ctypes.c_size_t, ctypes.POINTER(ctypes.c_uint64)
    buffer = [lent, length]
    for name, arguments in {
        "rcm_check": buffer,
        "rcm_open": buffer * 3,
        "rcm_go": buffer * 4 + [ctypes.c_uint64],
        "rcm_test": buffer * 2,
        "rcm_object": buffer * 2 + [ctypes.c_uint32],
    }.items():
        function = getattr(library, name)
        function.argtypes = arguments + [answer]
        function.restype = None
    return library


_LIBRARY = _load_library()


def _call(function, *arguments) -> tuple:
    """A call with bytes, buffers and numbers; gives the four numbers of the answer. No pointer is null: bytes of length 0 have an address
    too."""
    lent = []
    for argument in arguments:
        lent += [argument] if isinstance(argument, int) else [argument, len(argument)]
    answer = (ctypes.c_uint64 * 4)()
    function(*lent, answer)
    return tuple(answer)


def _accepted(answer: tuple) -> tuple:
    if answer[0] == _REFUSED:
        raise Refused(answer[1], answer[2])
    return answer


def _bytes(value, what: str) -> bytes:
    if not isinstance(value, (bytes, bytearray, memoryview)):
        raise TypeError(f"{what}: expected bytes, found {type(value).__name__}")
    return bytes(value)


def _number(value, what: str, least: int, most: int) -> int:
    if not isinstance(value, int):
        raise TypeError(f"{what}: expected a number, found {type(value).__name__}")
    if not least <= value <= most:
        raise ValueError(f"{what}: expected a number from {least} to {most}, found {value}")
    return value


def check(file) -> Verdict:
    """The verdict on a module file: what it has, or Refused."""
    answer = _accepted(_call(_LIBRARY.rcm_check, _bytes(file, "the module")))
    functions, instructions = divmod(answer[3], _FUNCTIONS_UNIT)
    return Verdict(answer[1], answer[2], functions, instructions)


class Module:
    """An accepted module file. Making one checks it: Refused where the checker refuses it."""

    def __init__(self, file):
        self.file = _bytes(file, "the module")
        self.verdict = check(self.file)

    @property
    def parameters(self) -> int:
        """How many arguments `open` asks for."""
        # Types and structs (kinds 1 to 6) stand before the first function (kind 7), whose byte 5 is the number.
        for block in range(0, len(self.file), _BLOCK_BYTES):
            for record in range(block + 4, block + _BLOCK_BYTES - 4, 8):
                if self.file[record] == 7:
                    return self.file[record + 5]
        raise AssertionError("an accepted module has a function")

    def open(self, *arguments: int) -> "Run":
        """A run of function 0 from its start with these arguments, numbers of 32 bits, signed or not. Refused (9) where they are not as
        many as `parameters`."""
        words = [_number(argument, "an argument", -(2**31), 2**32 - 1) % 2**32 for argument in arguments]
        state = (ctypes.c_uint8 * STATE_BYTES)()
        lent = b"".join(word.to_bytes(_ARGUMENT_BYTES, "little") for word in words)
        _accepted(_call(_LIBRARY.rcm_open, self.file, lent, state))
        return Run(self, state, (ctypes.c_uint8 * OUTPUT_BYTES)())

    def resume(self, state, output) -> "Run":
        """A run that goes on from a saved state and the output that was saved with it. Refused where the state is no sound one of this
        module (20, 21); ValueError where the output lacks bytes that the state says were written."""
        state, output = _bytes(state, "the state"), _bytes(output, "the output")
        self.test(state)
        count = int.from_bytes(state[_OUTPUT_COUNT], "little")
        if not count <= len(output) <= OUTPUT_BYTES:
            raise ValueError(f"the output: expected {count} to {OUTPUT_BYTES} bytes, found {len(output)}")
        own_state = (ctypes.c_uint8 * STATE_BYTES).from_buffer_copy(state)
        return Run(self, own_state, (ctypes.c_uint8 * OUTPUT_BYTES)(*output))

    def test(self, state) -> None:
        """The state test: Refused where the state is no sound one of this module (20, 21)."""
        _accepted(_call(_LIBRARY.rcm_test, self.file, _bytes(state, "the state")))


class Run:
    """A module that has been opened, with its state and output. Made by Module.open and Module.resume."""

    def __init__(self, module: Module, state, output):
        self.module = module
        self._state = state
        self._output = output
        self._lock = threading.Lock()

    def go(self, form=b"", budget: int = _DEFAULT_BUDGET) -> Answer:
        """Goes on for at most `budget` steps with this form, the same at every call. Refused where the form is too long (9) or the
        module has already ended or stopped (22)."""
        form = _bytes(form, "the form")
        budget = _number(budget, "the budget", 0, 2**64 - 1)
        with self._lock:
            answer = _accepted(_call(_LIBRARY.rcm_go, self.module.file, form, self._state, self._output, budget))
        return Answer(_STATUS[answer[0]], None if answer[0] == _RUNNING else answer[1], answer[2])

    @property
    def state(self) -> bytes:
        """The state's bytes, to be saved with the output's."""
        with self._lock:
            return bytes(self._state)

    @property
    def output(self) -> bytes:
        """What the module has written so far."""
        with self._lock:
            count = int.from_bytes(bytes(self._state[_OUTPUT_COUNT]), "little")
            return bytes(self._output[:count])

    @property
    def status(self) -> str:
        """ "running", "ended" or "stopped"."""
        return _STATE_STATUS.get(self.state[_STATUS_AT], "stopped")

    @property
    def stop(self) -> Optional[int]:
        """The number of the stop, None where the module has not stopped."""
        state = self.state
        return None if state[_STATUS_AT] in _STATE_STATUS else state[_STATUS_AT]

    @property
    def result(self) -> Optional[int]:
        """The value with which the module ended, from 0 to 4,294,967,295; None where it has not."""
        state = self.state
        return int.from_bytes(state[_RESULT], "little") if _STATE_STATUS.get(state[_STATUS_AT]) == "ended" else None

    def object(self, address: int) -> Optional[Object]:
        """The object around an address of the module's memory, None where none lies there."""
        address = _number(address, "the address", 0, 2**32 - 1)
        state = self.state
        found, at, size, _ = _call(_LIBRARY.rcm_object, self.module.file, state, address)
        return Object(at - _MEMORY_AT, state[at : at + size]) if found == _GOOD else None
