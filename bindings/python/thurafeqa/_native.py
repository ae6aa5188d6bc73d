"""The shared library: where it is found, and its calls as ctypes knows them."""

import ctypes
import ctypes.util
import os
import platform
import sys
from ctypes import POINTER, Structure, c_double, c_size_t, c_uint16, c_uint32, c_uint64
from pathlib import Path
from typing import Any, Iterator, Sequence, Tuple, Type, TypeVar

from .refusals import Refused

VERSION = (7, 0, 2)  # of this package; version() tells the library's
FORMAT = 4  # of a module's memory
CARD_FORMAT = 1  # of a card's


class NoLibrary(ImportError):
    """The shared library is not found, or does not fit this package."""


# ---- memory, as include/thurafeqa.h and include/thurafeqa_card.h lay it out


class SpiMemory(Structure):
    _fields_ = [("memory", c_uint16 * 96)]


class TiMemory(Structure):
    _fields_ = [("memory", c_uint16 * 20)]


class CardMemory(Structure):
    _fields_ = [("memory", c_uint32 * 40)]


class ClockReport(Structure):
    _fields_ = [("rate", c_double), ("bittime", c_double), ("below", c_double)]


_spi = POINTER(SpiMemory)
_ti = POINTER(TiMemory)
_card = POINTER(CardMemory)
_report = POINTER(ClockReport)
_bytes = ctypes.c_char_p
_lent = ctypes.c_void_p
_number = POINTER(c_double)

# Each call: what it returns, then what it takes. tests/header compares this
# table with the source, so a call has a line of its own.
CALLS = {
    "thurafeqa_power_up": (None, _spi),
    "thurafeqa_power_up_with": (c_uint32, _spi, c_uint32),
    "thurafeqa_read": (c_uint32, _spi, c_uint32),
    "thurafeqa_write": (c_uint32, _spi, c_uint32, c_uint32),
    "thurafeqa_clock_step": (c_uint32, _spi, c_uint32, c_uint32, c_uint32),
    "thurafeqa_tick": (c_uint32, _spi, c_uint32, c_uint32),
    "thurafeqa_pins": (c_uint32, _spi, c_uint32, c_uint32, c_uint32),
    "thurafeqa_word": (c_uint32, _spi, c_uint32, c_uint32),
    "thurafeqa_next": (c_uint32, _spi),
    "thurafeqa_edges_owed": (c_uint32, _spi),
    "thurafeqa_words_owed": (c_uint32, _spi),
    "thurafeqa_clear": (None, _spi),
    "thurafeqa_levels": (c_uint32, _spi),
    "thurafeqa_linked": (c_uint32, _spi, _spi, c_uint32),
    "thurafeqa_clock": (c_uint32, _spi, c_uint32, _report),
    "thurafeqa_prescalers": (c_uint32, c_uint32, c_uint32),
    "thurafeqa_play": (c_uint32, _spi, _bytes, c_size_t),
    "thurafeqa_save": (c_uint32, _bytes, c_size_t, _lent, c_size_t),
    "thurafeqa_salvage": (c_uint64, _bytes, c_size_t, _lent, c_size_t),
    "thurafeqa_board_call": (c_uint64, _spi, c_size_t, c_uint32, c_uint32, c_uint32, c_uint32, c_uint32, c_uint32, _report),
    "thurafeqa_board_tick_call": (c_uint64, _spi, c_size_t, c_uint32, c_uint32, c_uint32, c_uint32),
    "thurafeqa_board_linked": (c_uint64, _spi, c_size_t, c_uint32, c_uint32, c_uint32, c_uint32),
    "thurafeqa_board_owed": (c_uint32, c_size_t, c_uint32),
    "thurafeqa_ti_power_up": (None, _ti),
    "thurafeqa_ti_enter_reset": (None, _ti),
    "thurafeqa_ti_leave_reset": (None, _ti),
    "thurafeqa_ti_set_mode": (c_uint32, _ti, c_uint32, c_uint32, c_uint32, c_uint32),
    "thurafeqa_ti_set_length": (c_uint32, _ti, c_uint32),
    "thurafeqa_ti_write": (c_uint32, _ti, c_uint32),
    "thurafeqa_ti_read": (c_uint32, _ti),
    "thurafeqa_ti_tick": (c_uint32, _ti, c_uint32),
    "thurafeqa_ti_pins": (c_uint32, _ti, c_uint32, c_uint32, c_uint32),
    "thurafeqa_ti_clear_overrun": (None, _ti),
    "thurafeqa_ti_status": (c_uint32, _ti),
    "thurafeqa_ti_levels": (c_uint32, _ti),
    "thurafeqa_ti_settings": (c_uint32, _ti),
    "thurafeqa_ti_rate": (None, c_uint32, c_uint32, _number),
    "thurafeqa_card_power_up": (None, _card),
    "thurafeqa_card_set_protocol": (c_uint64, _card, c_uint32),
    "thurafeqa_card_set_length": (c_uint64, _card, c_uint32, c_uint32),
    "thurafeqa_card_enable": (c_uint64, _card),
    "thurafeqa_card_disable": (c_uint64, _card),
    "thurafeqa_card_write": (c_uint64, _card, c_uint32),
    "thurafeqa_card_read": (c_uint64, _card),
    "thurafeqa_card_edge": (c_uint64, _card, c_uint32),
    "thurafeqa_card_clear_underrun": (None, _card),
    "thurafeqa_card_clear_overflow": (None, _card),
    "thurafeqa_card_look": (c_uint32, _card),
    "thurafeqa_version": (c_uint32,),
    "thurafeqa_format": (c_uint32,),
}

# ---- where it is


def _target() -> Tuple[str, str]:
    """The library's name for this machine, and that of its file."""
    machine = {"AMD64": "x86_64", "arm64": "aarch64"}.get(platform.machine(), platform.machine())
    if sys.platform == "darwin":
        return machine + "-apple-darwin", "libthurafeqa.dylib"
    if sys.platform == "win32":
        return machine + "-windows-gnu", "thurafeqa.dll"
    return machine + "-linux-gnu", "libthurafeqa.so"


def _places() -> Iterator[str]:
    """Where the file may be: beside the package, in the repository, in the bundle, and where the system's loader looks."""
    target, name = _target()
    here = Path(__file__).resolve().parent
    above = list(here.parents)
    repository = [folder / "target" / "lib" / target for folder in above[2:3]]
    bundle = [folder / "lib" for folder in above[3:4]]  # which has this package in share/thurafeqa/python
    for folder in [here, here.parent] + repository + bundle:
        if (folder / name).is_file():
            yield str(folder / name)
    yield ctypes.util.find_library("thurafeqa") or name


def _load() -> "ctypes.CDLL":
    named = os.environ.get("THURAFEQA_LIBRARY")
    if named and os.path.exists(named):
        named = os.path.abspath(named)
    said = []
    for place in [named] if named else _places():
        try:
            # Python's lock is kept during a call: no two threads are in one module at once
            return ctypes.PyDLL(place)
        except OSError as error:
            said.append(str(error))
    if named:
        raise NoLibrary("THURAFEQA_LIBRARY names a file that cannot be loaded: %s" % said[0])
    target, name = _target()
    raise NoLibrary(
        "%s cannot be loaded, neither beside the package thurafeqa, nor from target/lib/%s of the repository, nor from lib of "
        "a bundle, nor where the system's loader looks (%s). ./library --shared builds it; or let THURAFEQA_LIBRARY name its file"
        % (name, target, "; ".join(said))
    )


def _declare(loaded: Any) -> Any:
    """The library with its calls declared. Its version is asked first, since an older one may not have them all."""
    for name in ["thurafeqa_version", "thurafeqa_format"] + list(CALLS):
        result, *arguments = CALLS[name]
        try:
            call = getattr(loaded, name)
        except AttributeError:
            raise NoLibrary("the library %s has no call %s" % (loaded._name, name)) from None
        call.restype = result
        call.argtypes = arguments
        if name == "thurafeqa_format":
            _fits(loaded)
    return loaded


def _fits(loaded: Any) -> None:
    number = loaded.thurafeqa_version()
    told = (number >> 16, number >> 8 & 0xFF, number & 0xFF, loaded.thurafeqa_format())
    if told[0] != VERSION[0] or told[1] < VERSION[1] or told[3] != FORMAT:
        raise NoLibrary(
            "the library %s has version %d.%d.%d and format %d, which do not fit this package, %d.%d.%d and format %d"
            % ((loaded._name,) + told + VERSION + (FORMAT,))
        )


library: Any = _declare(_load())

# ---- numbers there and back


def number(what: str, value: int, most: int = 0xFFFFFFFF) -> int:
    """A number that the library can be given; ctypes alone would cut it."""
    if not 0 <= value <= most:
        raise ValueError("%s is not within 0 and %d: %d" % (what, most, value))
    return value


def level(value: object) -> int:
    """A level: 0, False and None, as of a pin that is not driven, are low; anything else is high."""
    return 1 if value else 0


def value(answer: int) -> int:
    """What an answer tells; a refusal is raised."""
    if answer >> 16:
        raise Refused(answer >> 16)
    return answer


# ---- memory as a value

Self = TypeVar("Self", bound="Kept")


class Kept:
    """Memory that a caller holds and only the library understands: it can be copied, compared, saved and restored."""

    _layout: Type[Structure]
    _width: int
    _format: int
    _memory: Any

    @property
    def words(self) -> Tuple[int, ...]:
        """The numbers of the memory. What they mean is the library's affair."""
        return tuple(self._memory.memory)

    @classmethod
    def from_words(cls: Type[Self], words: Sequence[int]) -> Self:
        """From the numbers of :attr:`words`. Any numbers are safe; those of another format stand for something else."""
        kept = cls.__new__(cls)
        kept._memory = cls._layout()
        cells = kept._memory.memory
        if len(words) != len(cells):
            raise ValueError("there are %d numbers and not %d" % (len(words), len(cells)))
        cells[:] = [number("a number of the memory", word, (1 << 8 * cls._width) - 1) for word in words]
        return kept

    def to_bytes(self) -> bytes:
        """The memory to save: the format in two bytes, then the numbers, each with its low byte first."""
        return self._format.to_bytes(2, "little") + b"".join(word.to_bytes(self._width, "little") for word in self.words)

    @classmethod
    def from_bytes(cls: Type[Self], saved: bytes) -> Self:
        """What :meth:`to_bytes` saved. ValueError: the bytes are of another format, or too few or too many."""
        if int.from_bytes(saved[:2], "little") != cls._format:
            raise ValueError("this is not memory of format %d" % cls._format)
        if (len(saved) - 2) % cls._width:
            raise ValueError("the last number is cut")
        return cls.from_words([int.from_bytes(saved[i : i + cls._width], "little") for i in range(2, len(saved), cls._width)])

    def __copy__(self: Self) -> Self:
        return self.from_words(self.words)

    def __deepcopy__(self: Self, memo: object) -> Self:
        return self.from_words(self.words)

    def copy(self: Self) -> Self:
        """A second one in the same state."""
        return self.from_words(self.words)

    def __reduce__(self) -> Any:
        return self.from_bytes, (self.to_bytes(),)

    def __eq__(self, other: object) -> bool:
        if type(other) is not type(self):
            return NotImplemented
        return self.words == other.words  # type: ignore[attr-defined]

    __hash__ = None  # type: ignore[assignment] # it changes
