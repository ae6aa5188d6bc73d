"""A small port: firmware reads a receipt out of a cartridge's memory, through the library's module as host in SPI mode 0.

The parts stand in the order in which a word travels from the wire to the
firmware: the memory, the board with its wires and its clock, the CPU's bus, the
firmware, and a day of it. It prints what port.c prints:

    PYTHONPATH=bindings/python python3 examples/port/port.py
"""

from typing import Optional

from thurafeqa import BUF, CON1, CON1_CKE, CON1_MSTEN, STAT, STAT_SPIEN, STAT_SPIRBF, Module, Refused

# ---- the memory

SIZE = 8192
READ = 0x03
COMMAND_BITS = 24


class Eeprom:
    """A serial EEPROM of the 25LC kind at its pins, as far as reading goes. It speaks SPI mode 0, highest bit first.

    Selected, it takes in the instruction READ and an address of 16 bits; then it
    shows the bytes from there on, one after the other, until it is deselected.
    """

    def __init__(self, memory: bytes) -> None:
        self.memory = memory
        self.sck = self.si = False  # the levels last seen
        self.taken = self.command = 0  # bits taken in since selected: instruction, then address
        self.next = 0  # the bit to show next, of the whole memory
        self.so: Optional[bool] = None  # the level at SO, if it is driven

    def pins(self, cs: bool, sck: bool, si: bool) -> None:
        """SI is taken in as it stood before the edge, so a wrong mode does not go unnoticed."""
        if cs:
            self.taken = self.command = 0
            self.so = None
        elif sck and not self.sck and self.taken < COMMAND_BITS:
            self.command = self.command << 1 | self.si
            self.taken += 1
            self.next = (self.command & 0xFFFF) % SIZE * 8
        elif self.sck and not sck and self.taken == COMMAND_BITS and self.command >> 16 == READ:
            self.so = self.memory[self.next // 8] >> 7 - self.next % 8 & 1 == 1
            self.next = (self.next + 1) % (SIZE * 8)
        self.sck, self.si = sck, si


# ---- the board

CYCLES_A_SECOND = 40000000
NAME = ("STAT", "CON1", "CON2", "BUF")


class Machine:
    def __init__(self, memory: bytes) -> None:
        self.spi = Module()
        self.memory = Eeprom(memory)
        self.cs = True  # a port pin, which selects the memory when low
        self.cycles = 0  # instruction cycles since power-up
        self.set_clock()
        self.show_wires()

    def show_wires(self) -> None:
        """Shows the module's levels and the port pin to the memory."""
        levels = self.spi.levels()
        self.memory.pins(self.cs, levels.sck, bool(levels.sdo))

    def edge(self) -> None:
        """One edge: SDI has the level from before it, the memory sees the levels after it.

        A resistor pulls SDI up while the memory does not drive it.
        """
        step = self.spi.clock_step(sdi=self.memory.so is not False)
        if step.done:
            self.memory.pins(self.cs, step.sck, bool(step.sdo))

    def cycle(self) -> None:
        """One instruction cycle. Two edges fall into a bit's cycles."""
        self.cycles += 1
        if self.bit_cycles == 0:
            return
        self.phase += 2
        if self.phase >= self.bit_cycles:
            self.phase -= self.bit_cycles
            self.edge()

    def set_clock(self) -> None:
        """Asks how long a bit is, if the module now has a clock of its own."""
        self.phase = 0  # half cycles since the last edge was due
        self.bit_cycles = round(self.spi.clock(CYCLES_A_SECOND).bit_time * CYCLES_A_SECOND)

    # ---- the CPU's bus

    def load(self, number: int) -> int:
        """A load takes a cycle, then reads. What is refused shows 0 on the bus: never a word from before."""
        self.cycle()
        try:
            return self.spi.read(number)
        except Refused as refused:
            print("port: %s read refused with %d" % (NAME[number], refused.number))
            return 0

    def store(self, number: int, value: int) -> None:
        """A store takes a cycle, then writes. What is refused has changed nothing."""
        self.cycle()
        try:
            self.spi.write(number, value)
        except Refused as refused:
            print("port: %s write refused with %d" % (NAME[number], refused.number))
            return
        if number == STAT:
            self.set_clock()
        self.show_wires()

    def store_cs(self, level: bool) -> None:
        """A store to the port pin."""
        self.cycle()
        self.cs = level
        self.show_wires()


# ---- the firmware


def spi_open(b: Machine) -> None:
    """Mode 0, words of 8 bits, prescalers 4:1 and 2:1."""
    b.store(CON1, CON1_MSTEN | CON1_CKE | 6 << 2 | 2)
    b.store(STAT, STAT_SPIEN)


def spi_exchange(b: Machine, out: int) -> int:
    """Sends a byte and waits for the one that comes back with it."""
    b.store(BUF, out)
    while not b.load(STAT) & STAT_SPIRBF:
        pass
    return b.load(BUF)


def memory_select(b: Machine, address: int) -> None:
    b.store_cs(False)
    for byte in (READ, address >> 8, address & 0xFF):
        spi_exchange(b, byte)


# ---- a day of it

RECEIPT_AT = 0x01A0
RECEIPT = b"RECEIPT 0042: OUTFIT 7, PAID"


def read_receipt(b: Machine) -> None:
    before = b.cycles
    memory_select(b, RECEIPT_AT)
    receipt = bytes(spi_exchange(b, 0) for _ in RECEIPT)
    b.store_cs(True)
    print('firmware: read "%s" in %d cycles' % (receipt.decode(), b.cycles - before))


def read_once_more(b: Machine) -> None:
    """Nothing has arrived since the receipt's last byte was read."""
    byte = b.load(BUF)
    print("firmware: read %02X, the receipt was %s again" % (byte, "SERVED" if byte == RECEIPT[-1] else "not served"))


def abort_transfer(b: Machine) -> None:
    """Deselects the memory and disables the module within a byte: all that was under way is forgotten, at both ends."""
    memory_select(b, RECEIPT_AT)
    b.store(BUF, 0)
    for _ in range(20):
        b.load(STAT)
    b.store_cs(True)
    b.store(STAT, 0)
    print("firmware: aborted within a byte, STAT %04X" % b.load(STAT))


def main() -> None:
    memory = bytearray(b"\xff" * SIZE)
    memory[RECEIPT_AT : RECEIPT_AT + len(RECEIPT)] = RECEIPT
    b = Machine(bytes(memory))

    spi_open(b)
    print("port: a bit takes %d cycles" % b.bit_cycles)
    read_receipt(b)
    read_once_more(b)

    abort_transfer(b)
    read_once_more(b)
    spi_open(b)
    read_once_more(b)
    read_receipt(b)


main()
