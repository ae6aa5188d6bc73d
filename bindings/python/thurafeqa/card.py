"""The audio card of request Nine: I2S, left justified, right justified and PCM/DSP."""

from enum import IntEnum
from typing import NamedTuple, Optional

from ._native import CARD_FORMAT, CardMemory, Kept, level, library, number
from .refusals import CARD_TEXTS, Refused

__all__ = ["Card", "Look", "Protocol"]


class Protocol(IntEnum):
    """Where a sample's bits lie in its frame; docs/AUDIO.md has a picture of each."""

    I2S = 0
    LEFT_JUSTIFIED = 1
    RIGHT_JUSTIFIED = 2
    PCM_DSP = 3


class Look(NamedTuple):
    """What can be looked at."""

    sck: bool
    lrck: bool
    sdo: Optional[bool]
    """None while SDO is not driven, which is while the card is disabled."""
    underrun: bool
    overflow: bool
    right_next: bool
    """The right channel takes a sample next; else the left one does."""
    waiting: int
    unread: int
    protocol: Protocol
    bits: int
    frame: int


def _told(answer: int) -> int:
    if answer >> 32:
        raise Refused(answer >> 32, CARD_TEXTS)
    return answer


class Card(Kept):
    """One card, at power-up: I2S with 16 bits in 32 clocks, disabled."""

    _layout = CardMemory
    _width = 4
    _format = CARD_FORMAT

    def __init__(self) -> None:
        self._memory = CardMemory()
        library.thurafeqa_card_power_up(self._memory)

    def power_up(self) -> None:
        """Power-up. Never refused."""
        library.thurafeqa_card_power_up(self._memory)

    def set_protocol(self, protocol: Protocol) -> None:
        """Sets the protocol.

        Refused: 3.
        """
        _told(library.thurafeqa_card_set_protocol(self._memory, Protocol(protocol)))

    def set_length(self, bits: int, frame: int) -> None:
        """Sets the bits of a sample and the clocks of a frame: 16 in 32; 16, 24 or 32 in 64.

        Refused: 3, 23.
        """
        _told(library.thurafeqa_card_set_length(self._memory, number("the bits", bits), number("the frame", frame)))

    def enable(self) -> None:
        """Enables the card, which then holds nothing. An enabled card stays as it is. Never refused."""
        library.thurafeqa_card_enable(self._memory)

    def disable(self) -> None:
        """Disables the card, which empties it; the flags stay. A disabled card stays as it is. Never refused."""
        library.thurafeqa_card_disable(self._memory)

    def write(self, sample: int) -> None:
        """Writes a sample, of which the low bits of its length are kept.

        Refused: 2, 5.
        """
        _told(library.thurafeqa_card_write(self._memory, number("the sample", sample)))

    def read(self) -> int:
        """Reads the oldest unread sample.

        Refused: 2, 6.
        """
        return _told(library.thurafeqa_card_read(self._memory))

    def edge(self, sdi: object = False) -> None:
        """One edge of the clock: the first of a clock changes LRCK and SDO, the second one samples SDI.

        Refused: 2.
        """
        _told(library.thurafeqa_card_edge(self._memory, level(sdi)))

    def clear_underrun(self) -> None:
        """Clears the underrun flag. Never refused."""
        library.thurafeqa_card_clear_underrun(self._memory)

    def clear_overflow(self) -> None:
        """Clears the overflow flag. Never refused."""
        library.thurafeqa_card_clear_overflow(self._memory)

    def look(self) -> Look:
        """A look at the card. Never refused."""
        bits = library.thurafeqa_card_look(self._memory)
        return Look(
            bool(bits & 1),
            bool(bits & 2),
            bool(bits & 4) if bits & 8 else None,
            bool(bits & 16),
            bool(bits & 32),
            bool(bits & 64),
            bits >> 8 & 15,
            bits >> 12 & 15,
            Protocol(bits >> 16 & 3),
            bits >> 18 & 63,
            bits >> 24 & 127,
        )
