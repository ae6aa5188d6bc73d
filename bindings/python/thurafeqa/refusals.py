"""Why a call was refused: the numbers of documents 01 and 02, and their texts."""

from enum import IntEnum
from typing import Dict

__all__ = ["Refusal", "Refused"]


class Refusal(IntEnum):
    """The refusal numbers."""

    NO_SUCH_REGISTER = 1
    DISABLED = 2
    ENABLED = 3
    TRANSMIT_FULL = 5
    RECEIVE_EMPTY = 6
    WRONG_CLOCK = 7
    NO_RATE = 8
    UNREADABLE_LINE = 9
    DIFFERENT_MODES = 10
    TOO_MANY_EDGES = 11
    UNDIVIDED = 13
    LATE_SAMPLING = 14
    UNSELECTED_CKE = 15
    OVERFLOWED = 16
    BAD_CONTENTS = 17
    BAD_RECORD = 18
    TOO_MANY_CALLS = 19
    NO_ROOM = 20
    BAD_LIST = 21
    NO_MODULE = 22
    WRONG_LENGTH = 24
    NO_SUCH_DEPTH = 25


NOT_NAMED = 23  # of the audio card alone

TEXTS: Dict[int, str] = {
    1: "no such register",
    2: "the module is disabled",
    3: "the module is enabled",
    5: "the transmit buffer is full",
    6: "nothing is unread",
    7: "the module is clocked in another way, or is no end for a linked run",
    8: "the instruction rate is 0",
    9: "the line cannot be read",
    10: "the linked modules differ in clock mode or width",
    11: "more than 544 edges are asked for",
    13: "both prescalers are 1:1",
    14: "late sampling is not modelled",
    15: "a client with CKE needs SSEN",
    16: "received words were lost in enhanced operation",
    17: "the trace's table of contents or length is wrong",
    18: "a record of the trace is wrong",
    19: "the trace would make more than 65,535 calls",
    20: "the trace does not fit",
    21: "a board has one to four modules",
    22: "the board has no such module, or it is named twice",
    24: "a character has 1 to 16 bits",
    25: "buffers hold 4, 8 or 16 words",
}

CARD_TEXTS: Dict[int, str] = {
    2: "the card is disabled",
    3: "the card is enabled",
    5: "eight samples wait",
    6: "no sample is unread",
    23: "no card has this length and frame",
}


class Refused(Exception):
    """A call was refused, and has changed nothing.

    `number` is the refusal number and `text` says it in words; as text the
    exception has both: ``refusal 6: nothing is unread``.
    """

    number: int
    text: str

    def __init__(self, number: int, texts: Dict[int, str] = TEXTS) -> None:
        self.number = number
        self.text = texts.get(number, "no such refusal")
        super().__init__("refusal %d: %s" % (number, self.text))

    def __reduce__(self) -> object:
        texts = CARD_TEXTS if self.text == CARD_TEXTS.get(self.number) else TEXTS
        return Refused, (self.number, texts)
