"""TI's SPI module: source document 002's, without its FIFO."""

from ctypes import c_double
from typing import NamedTuple, Optional

from ._native import FORMAT, Kept, TiMemory, level, library, number, value

__all__ = ["Ti", "TiMode"]


class TiMode(NamedTuple):
    """What the mode call sets."""

    master: bool = False
    """MASTER/SLAVE: it makes its own clock."""
    talk: bool = False
    """TALK: it drives its output."""
    polarity: bool = False
    """CLOCK POLARITY: the clock rests high."""
    phase: bool = False
    """CLOCK PHASE: the first bit stands there before the first edge."""


class Ti(Kept):
    """A TI module, at power-up: in software reset, a slave, talk off, length 1.

    Its characters have 1 to 16 bits: one waits to be sent, one is in the shift
    register, one unread. Refusal 2 says of it that it is in software reset, 3
    that it is not.
    """

    _layout = TiMemory
    _width = 2
    _format = FORMAT

    def __init__(self) -> None:
        self._memory = TiMemory()
        library.thurafeqa_ti_power_up(self._memory)

    def power_up(self) -> None:
        """Power-up. Never refused."""
        library.thurafeqa_ti_power_up(self._memory)

    def enter_reset(self) -> None:
        """Enters software reset, which empties both buffers and the shift register and clears the flags. Never refused."""
        library.thurafeqa_ti_enter_reset(self._memory)

    def leave_reset(self) -> None:
        """Leaves software reset. Never refused."""
        library.thurafeqa_ti_leave_reset(self._memory)

    def set_mode(
        self, master: object = False, talk: object = False, polarity: object = False, phase: object = False
    ) -> None:
        """Sets the mode. Out of reset talk alone may change.

        Refused: 3.
        """
        value(library.thurafeqa_ti_set_mode(self._memory, level(master), level(talk), level(polarity), level(phase)))

    def set_length(self, length: int) -> None:
        """Sets the bits of a character, 1 to 16.

        Refused: 3, also for the present length; 24.
        """
        value(library.thurafeqa_ti_set_length(self._memory, number("the length", length)))

    @property
    def mode(self) -> TiMode:
        """The mode."""
        bits = library.thurafeqa_ti_settings(self._memory)
        return TiMode(bool(bits & 256), bool(bits & 128), bool(bits & 64), bool(bits & 32))

    @property
    def length(self) -> int:
        """The bits of a character."""
        return int(library.thurafeqa_ti_settings(self._memory) & 31)

    @property
    def in_reset(self) -> bool:
        """Is it in software reset?"""
        return bool(library.thurafeqa_ti_settings(self._memory) & 512)

    def write(self, character: int) -> None:
        """Writes a character, left-justified: the top bits of 16.

        Refused: 2, 5.
        """
        value(library.thurafeqa_ti_write(self._memory, number("the character", character, 0xFFFF)))

    def read(self) -> int:
        """Reads the unread character, right-justified, and takes the interrupt flag down.

        Refused: 2, 6.
        """
        return value(library.thurafeqa_ti_read(self._memory))

    def tick(self, sdi: object = False) -> bool:
        """One tick of a master: did it make an edge? It makes none with nothing to send.

        Refused: 2, 7.
        """
        return value(library.thurafeqa_ti_tick(self._memory, level(sdi))) != 0

    def pins(self, sck: object, sdi: object, select: object = False) -> None:
        """Shows the levels of the clock, the input and SPISTE to a slave. Select that is high pauses a character.

        Refused: 2, 7.
        """
        value(library.thurafeqa_ti_pins(self._memory, level(sck), level(sdi), level(select)))

    def clear_overrun(self) -> None:
        """Clears the overrun flag. Never refused."""
        library.thurafeqa_ti_clear_overrun(self._memory)

    @property
    def overrun(self) -> bool:
        """A character was finished while one was unread, which is lost."""
        return bool(library.thurafeqa_ti_status(self._memory) & 128)

    @property
    def interrupt(self) -> bool:
        """A character is ready to be read."""
        return bool(library.thurafeqa_ti_status(self._memory) & 64)

    @property
    def transmit_full(self) -> bool:
        """A character waits to be sent."""
        return bool(library.thurafeqa_ti_status(self._memory) & 32)

    @property
    def sck(self) -> bool:
        """The clock level, last made here or seen at the pin."""
        return bool(library.thurafeqa_ti_levels(self._memory) & 2)

    @property
    def sdo(self) -> Optional[bool]:
        """The output pin, None if it is not driven."""
        bits = library.thurafeqa_ti_levels(self._memory)
        return bool(bits & 4) if bits & 8 else None

    @staticmethod
    def rate(spibrr: int, lspclk: int) -> float:
        """The bit rate of a master: LSPCLK / (SPIBRR + 1), or LSPCLK / 4 for SPIBRR 0 to 2. Never refused."""
        rate = c_double()
        library.thurafeqa_ti_rate(number("SPIBRR", spibrr), number("LSPCLK", lspclk), rate)
        return rate.value
