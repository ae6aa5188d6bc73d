"""One SPI module, a board of up to four, and traces."""

from ctypes import create_string_buffer
from typing import Any, Callable, List, NamedTuple, Optional, Tuple, Union

from ._native import FORMAT, ClockReport, Kept, SpiMemory, level, library, number, value

__all__ = ["Board", "Clock", "Levels", "Module", "Salvaged", "Step", "Word", "prescalers", "salvage", "save"]

Bytes = Union[bytes, bytearray, memoryview]

_LONGEST = 65535  # bytes of a trace


class Levels(NamedTuple):
    """The interrupt flag and the pins. SDO and SS are None where the module does not drive them."""

    interrupt: bool
    sck: bool
    """The clock level, last made here or seen at the pin."""
    sdo: Optional[bool]
    ss: Optional[bool]


class Step(NamedTuple):
    """What a clock step tells: whether it was done, and what is seen after it."""

    done: bool
    """False where a host's own clock stands still, unframed and with nothing to send."""
    interrupt: bool
    sck: bool
    sdo: Optional[bool]
    ss: Optional[bool]


class Word(NamedTuple):
    """What a word at a time tells."""

    done: bool
    """False where a host's own clock stands still, unframed and with nothing to send."""
    levels: int
    """The levels that SDO has, or would have, at the edges that sample: the first is the highest bit."""
    count: int
    """How many levels there are: 0 where nothing was clocked."""


class Clock(NamedTuple):
    """A clock report. With the instruction rate in hertz, rates are in hertz and the bit time is in seconds."""

    kind: str
    """``"none"``: disabled; ``"internal"``: a host with its own clock; ``"external"``: clocked from its pin."""
    rate: float
    """Internal: the clock's rate, else 0."""
    bit_time: float
    """Internal: the time of one bit, which is two ticks; else 0."""
    below: float
    """External: what the clock's rate must stay below, else 0."""


def _levels(bits: int) -> Levels:
    return Levels(
        bool(bits & 1),
        bool(bits & 2),
        bool(bits & 4) if bits & 8 else None,
        bool(bits & 16) if bits & 32 else None,
    )


def _step(bits: int) -> Step:
    return Step(not bits & 64, *_levels(bits))


def _word(answer: int) -> Word:
    value(answer & 0xFF0000)
    return Word(not answer >> 29 & 1, answer & 0xFFFF, answer >> 24 & 31)


def _clock(answer: int, report: ClockReport) -> Clock:
    kind = ("none", "internal", "external")[value(answer)]
    return Clock(kind, report.rate, report.bittime, report.below)


class Module(Kept):
    """One module, at power-up: disabled, every register 0.

    Every call takes any module and ends. A refused call raises
    :class:`Refused` and has changed nothing; each method names the numbers of
    its refusals, in the order in which they are tested. Levels are bools, or
    numbers of which 0 is low; None, which is told of a pin that is not driven,
    is low where it is given. A number that does not fit raises ValueError.
    """

    _layout = SpiMemory
    _width = 2
    _format = FORMAT

    def __init__(self, depth: Optional[int] = None) -> None:
        """With a depth, buffers of 4, 8 or 16 words in enhanced operation; without one, of 8.

        Refused: 25.
        """
        self._memory = SpiMemory()
        self.power_up()
        if depth is not None:
            self.power_up_with(depth)

    def power_up(self) -> None:
        """Power-up: disabled, every register 0, buffers of 8 words. Never refused."""
        library.thurafeqa_power_up(self._memory)

    def power_up_with(self, depth: int) -> None:
        """Power-up of a part whose buffers hold 4, 8 or 16 words in enhanced operation.

        Refused: 25.
        """
        value(library.thurafeqa_power_up_with(self._memory, number("the depth", depth)))

    def read(self, register: int) -> int:
        """Reads a register. Reading BUF takes the oldest unread word.

        Refused: 1; for BUF 2, 16, 6.
        """
        return value(library.thurafeqa_read(self._memory, number("the register", register)))

    def write(self, register: int, word: int) -> None:
        """Writes 16 bits to a register. Writing BUF accepts a word for sending.

        Refused: 1; for BUF 2, 5; for CON1 and CON2 3; for STAT 13, 14, 15.
        """
        value(library.thurafeqa_write(self._memory, number("the register", register), number("the value", word, 0xFFFF)))

    def clock_step(self, sck: object = False, sdi: object = False, ss: object = False) -> Step:
        """One step of the clock, for whatever module it is, with the levels at its pins: what is seen after it?

        A host with its own clock makes its next edge: it does not look at SCK,
        and at SS as a frame client alone. An unframed one with nothing to send
        makes none. Any other module sees the levels: an SCK level unlike the
        last is an edge.

        Refused: 2.
        """
        return _step(value(library.thurafeqa_clock_step(self._memory, level(sck), level(sdi), level(ss))))

    def tick(self, sdi: object = False, ss: object = False) -> bool:
        """One tick of a host with its own clock: did it make an edge? It makes none with nothing to send, unless framed.

        Refused: 2, 7.
        """
        return value(library.thurafeqa_tick(self._memory, level(sdi), level(ss))) != 0

    def pins(self, sck: object, sdi: object, ss: object = False) -> None:
        """Shows levels to the pins of a module without a clock of its own.

        Refused: 2, 7.
        """
        value(library.thurafeqa_pins(self._memory, level(sck), level(sdi), level(ss)))

    def word(self, word: int, ss: object = False) -> Word:
        """A word at a time: all clock steps that the word under way still takes, or else the next word.

        At the edges that sample, SDI has the low bits of `word`, as many as
        are still to come. A module that is clocked from its pin sees SCK go to
        its other level for each edge. A framed module makes one edge, with the
        lowest bit.

        Refused: 2.
        """
        return _word(library.thurafeqa_word(self._memory, level(ss), number("the word", word, 0xFFFF)))

    @property
    def next_word(self) -> Optional[int]:
        """The word that would go out next, or None: the one under way, the one loaded, or the first that waits in a client with SSEN."""
        answer = library.thurafeqa_next(self._memory)
        return answer & 0xFFFF if answer & 0x10000 else None

    @property
    def edges_owed(self) -> int:
        """The edges that an unframed host with its own clock still makes until it is idle; 0 of any other module."""
        return library.thurafeqa_edges_owed(self._memory)

    @property
    def words_owed(self) -> int:
        """The words that were accepted and are not finished, as a board counts them."""
        return library.thurafeqa_words_owed(self._memory)

    def run(self, wire: Callable[[Levels], object], most: int = 544) -> int:
        """Clocks a host with its own clock until it has no more to send, or for `most` edges: how many were made?

        `wire` is what stands at the other end. It is asked once before the
        first edge and once after each, so that it sees every level that the
        host shows, also the last. It answers the level at SDI for the edge
        that comes next; the last answer is not used. 544 edges end with an
        idle host if it is not framed; a framed one is never idle. SS is low.

        Refused: 2, 7, and the wire is not asked.
        """
        self.copy().tick()
        edges = 0
        sdi = wire(self.levels())
        while edges < most:
            bits = library.thurafeqa_clock_step(self._memory, 0, level(sdi), 0)
            if bits >= 64:
                break
            edges += 1
            sdi = wire(_levels(bits))
        return edges

    def clear(self) -> None:
        """Clears the interrupt flag. Never refused."""
        library.thurafeqa_clear(self._memory)

    def levels(self) -> Levels:
        """The interrupt flag and the pins. Never refused."""
        return _levels(library.thurafeqa_levels(self._memory))

    @property
    def interrupt(self) -> bool:
        """The interrupt flag."""
        return self.levels().interrupt

    @property
    def sck(self) -> bool:
        """The clock level, last made here or seen at the pin."""
        return self.levels().sck

    @property
    def sdo(self) -> Optional[bool]:
        """The SDO pin, None if it is not driven."""
        return self.levels().sdo

    @property
    def ss(self) -> Optional[bool]:
        """The SS pin, None if it is not driven: only an enabled frame host drives it."""
        return self.levels().ss

    def clock(self, rate: int) -> Clock:
        """The clock report for an instruction rate.

        Refused: 8.
        """
        report = ClockReport()
        return _clock(library.thurafeqa_clock(self._memory, number("the rate", rate), report), report)

    def linked(self, client: "Module", limit: int = 544) -> int:
        """Runs this host and a client on one wire, both unframed: how many edges did the host make?

        ValueError: both are the same object. Refused: 11, 2, 7, 10.
        """
        if client is self:
            raise ValueError("a linked run takes two modules")
        return value(library.thurafeqa_linked(self._memory, client._memory, number("the limit", limit)))

    def play(self, trace: Bytes) -> int:
        """Powers this module up and plays a trace on it: how many calls were made?

        Calls that are refused and each repeat of a section count too. If the
        trace itself is refused, this module is as it was.

        Refused: 17, 18, 19.
        """
        trace = bytes(trace)
        return value(library.thurafeqa_play(self._memory, trace, len(trace)))

    def __repr__(self) -> str:
        stat, con1, con2 = (library.thurafeqa_read(self._memory, n) for n in range(3))
        return "<thurafeqa.Module STAT %04X CON1 %04X CON2 %04X>" % (stat, con1, con2)


# ---- traces


def prescalers(rate: int, wanted: int) -> Optional[int]:
    """The prescalers, as bits of CON1, for the highest clock rate that does not pass `wanted` at the instruction rate `rate`.

    None if even 512:1 passes it. Never both at 1:1, which cannot be enabled;
    of two settings that divide alike the one with the smaller PPRE.
    """
    bits = library.thurafeqa_prescalers(number("the rate", rate), number("the wanted rate", wanted))
    return None if bits == 32 else bits


def save(script: Union[str, Bytes]) -> bytes:
    """Saves a script as a trace of one section, which :meth:`Module.play` plays to the module that the script ends in.

    A text counts in UTF-8, of which the first 65,535 bytes are taken. Left out
    are lines that cannot be read and lines that name register 4 or above.

    Refused: 20 for more than 16,381 other lines.
    """
    script = script.encode() if isinstance(script, str) else bytes(script)
    lent = create_string_buffer(_LONGEST)
    length = value(library.thurafeqa_save(script, len(script), lent, _LONGEST))
    return lent.raw[:length]


class Salvaged(NamedTuple):
    """What was salvaged of a cut trace."""

    trace: bytes
    """The new trace."""
    cut: int
    """How many sections were cut."""
    lost: int
    """How many bytes were lost, the old lengths' sum less the new ones'."""


def salvage(trace: Bytes) -> Salvaged:
    """Salvages a trace that broke off: a new one, in which each section ends before its first record that is wrong or cut.

    Refused: 17 if the table of contents is not whole and gapless.
    """
    trace = bytes(trace)
    lent = create_string_buffer(_LONGEST)
    told = library.thurafeqa_salvage(trace, len(trace), lent, _LONGEST)
    length = value(told & 0xFFFFFFFF)
    return Salvaged(lent.raw[:length], told >> 48, told >> 32 & 0xFFFF)


# ---- a board


class Board:
    """A board of one to four modules, all at power-up. The first, SPI1, has the number 0.

    Each call names a module by its number, and is answered as that call on the
    module alone; no other module changes. Every call is refused with 22 if
    there is no module with that number, before the call's own refusals. The
    board keeps how many words its modules still owe.

    Traces are played and scripts saved on single modules alone.
    """

    def __init__(self, count: int = 4) -> None:
        """Refused: 21 if there would be no module, or more than four."""
        value(library.thurafeqa_board_owed(number("the count", count), 0))
        self._list: Any = (SpiMemory * count)()
        self._owed = 0
        for n in range(count):
            self.power_up(n)

    @classmethod
    def of(cls, modules: List[Module], owed: int = 0) -> "Board":
        """A board of copies of these modules, which owe so many words: what :attr:`owed` told where they were saved.

        Refused: 21.
        """
        board = cls(len(modules))
        for n, module in enumerate(modules):
            board._list[n].memory[:] = module.words
        board._owed = number("the words owed", owed, 0xFFFF)
        return board

    def __len__(self) -> int:
        return len(self._list)

    @property
    def modules(self) -> Tuple[Module, ...]:
        """Copies of the modules, to look at or to save with :attr:`owed`."""
        return tuple(Module.from_words(memory.memory) for memory in self._list)

    @property
    def owed(self) -> int:
        """How many words were accepted and are not yet finished, in the shift registers and waiting. A filler is none."""
        return value(library.thurafeqa_board_owed(len(self._list), self._owed))

    def _ask(self, n: int, kind: int, x: int = 0, y: int = 0, z: int = 0, report: Optional[ClockReport] = None) -> int:
        both = library.thurafeqa_board_call(
            self._list, len(self._list), self._owed, number("the module", n), kind, x, y, z, report or ClockReport()
        )
        return self._keep(both)

    def _keep(self, both: int) -> int:
        self._owed = both >> 32 & 0xFFFF
        return both & 0xFFFFFFFF

    def _call(self, n: int, kind: int, x: int = 0, y: int = 0, z: int = 0, report: Optional[ClockReport] = None) -> int:
        return value(self._ask(n, kind, x, y, z, report))

    def power_up(self, n: int) -> None:
        """See :meth:`Module.power_up`."""
        self._call(n, 0)

    def power_up_with(self, n: int, depth: int) -> None:
        """See :meth:`Module.power_up_with`."""
        self._call(n, 9, number("the depth", depth))

    def read(self, n: int, register: int) -> int:
        """See :meth:`Module.read`."""
        return self._call(n, 1, number("the register", register))

    def write(self, n: int, register: int, word: int) -> None:
        """See :meth:`Module.write`."""
        self._call(n, 2, number("the register", register), number("the value", word, 0xFFFF))

    def clock_step(self, n: int, sck: object = False, sdi: object = False, ss: object = False) -> Step:
        """See :meth:`Module.clock_step`."""
        return _step(self._call(n, 8, level(sck), level(sdi), level(ss)))

    def tick(self, n: int, sdi: object = False, ss: object = False) -> bool:
        """See :meth:`Module.tick`."""
        both = library.thurafeqa_board_tick_call(
            self._list, len(self._list), self._owed, number("the module", n), level(sdi), level(ss)
        )
        return value(self._keep(both)) != 0

    def pins(self, n: int, sck: object, sdi: object, ss: object = False) -> None:
        """See :meth:`Module.pins`."""
        self._call(n, 4, level(sck), level(sdi), level(ss))

    def word(self, n: int, word: int, ss: object = False) -> Word:
        """See :meth:`Module.word`."""
        return _word(self._ask(n, 10, level(ss), number("the word", word, 0xFFFF)))

    def clear(self, n: int) -> None:
        """See :meth:`Module.clear`."""
        self._call(n, 5)

    def levels(self, n: int) -> Levels:
        """See :meth:`Module.levels`."""
        return _levels(self._call(n, 7))

    def clock(self, n: int, rate: int) -> Clock:
        """See :meth:`Module.clock`."""
        report = ClockReport()
        return _clock(self._call(n, 6, number("the rate", rate), report=report), report)

    def linked(self, host: int, client: int, limit: int = 544) -> int:
        """A linked run of two modules of the board; see :meth:`Module.linked`. Refused with 22 also if both are the same."""
        both = library.thurafeqa_board_linked(
            self._list,
            len(self._list),
            self._owed,
            number("the host", host),
            number("the client", client),
            number("the limit", limit),
        )
        self._owed = both >> 32 & 0xFFFF
        return value(both & 0xFFFFFFFF)
