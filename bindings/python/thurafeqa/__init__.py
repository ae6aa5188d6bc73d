"""A proved model of the dsPIC33/PIC24 SPI module, for testers who write in Python.

:class:`Module` is one module, :class:`Board` up to four, :class:`Ti` TI's module
without its FIFO, and :class:`Card` an audio card. A refused call raises
:class:`Refused`, which has the number and the text, and has changed nothing.
A host that sends a word and reads what came back with it; its output is joined
to its input:

    >>> from thurafeqa import BUF, CON1, CON1_MSTEN, STAT, STAT_SPIEN, Module
    >>> m = Module()
    >>> m.write(CON1, CON1_MSTEN)
    >>> m.write(STAT, STAT_SPIEN)
    >>> m.write(BUF, 0xA5)
    >>> m.run(lambda seen: seen.sdo)
    16
    >>> hex(m.read(BUF))
    '0xa5'
    >>> m.read(BUF)
    Traceback (most recent call last):
    thurafeqa.refusals.Refused: refusal 6: nothing is unread

The package needs the shared library, libthurafeqa.so, which ./library --shared
builds. THURAFEQA_LIBRARY may name its file; else it is looked for beside the
package, in target/lib of the repository, and where the system's loader looks.
"""

from typing import Tuple

from ._native import CARD_FORMAT, FORMAT, VERSION, NoLibrary
from ._native import library as _library
from .card import *
from .refusals import *
from .registers import *
from .spi import *
from .ti import *


def version() -> Tuple[int, int, int]:
    """The version of the library: major, minor and patch numbers."""
    number = _library.thurafeqa_version()
    return number >> 16, number >> 8 & 0xFF, number & 0xFF
