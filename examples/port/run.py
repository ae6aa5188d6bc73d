"""A shift register on a host's wire, clocked by Module.run: what the host sends comes back a word later.

What is refused is told in words. It prints what run.c prints:

    PYTHONPATH=bindings/python python3 examples/port/run.py
"""

from thurafeqa import BUF, CON1, CON1_CKE, CON1_MSTEN, STAT, STAT_SPIEN, Levels, Module, Refused


class Shifter:
    """It takes a bit in as SCK rises and shows the oldest of eight as SCK falls: SPI mode 0.

    The bit that it takes stood there before the edge.
    """

    def __init__(self) -> None:
        self.sck = self.si = self.so = False
        self.bits = 0

    def sees(self, seen: Levels) -> bool:
        if seen.sck and not self.sck:
            self.bits = (self.bits << 1 | self.si) & 0xFF
        elif self.sck and not seen.sck:
            self.so = self.bits >> 7 == 1
        self.sck = seen.sck
        self.si = bool(seen.sdo)
        return self.so


def exchange(m: Module, s: Shifter, word: int, most: int) -> None:
    """One word there and back, in runs of at most so many edges."""
    m.write(BUF, word)
    edges = most
    while edges == most:
        edges = m.run(s.sees, most)
        print(edges, "edges")
    print("sent %02X, received %02X" % (word, m.read(BUF)))


def main() -> None:
    s = Shifter()
    m = Module()
    try:
        m.run(s.sees)
    except Refused as refused:
        print("run:", refused)
    m.write(CON1, CON1_MSTEN | CON1_CKE)
    m.write(STAT, STAT_SPIEN)
    exchange(m, s, 0xA5, 544)
    exchange(m, s, 0x3C, 10)
    exchange(m, s, 0x00, 544)
    try:
        m.read(BUF)
    except Refused as refused:
        print("BUF read:", refused)


main()
