"""Sessions with the library by the package thurafeqa. They run by unittest and by pytest alike:

    python3 -m unittest discover -s bindings/python
    python3 -m pytest bindings/python
"""

import copy
import doctest
import os
import pickle
import re
import subprocess
import sys
import tempfile
import threading
import unittest
from pathlib import Path

import thurafeqa
from thurafeqa import *

HERE = Path(__file__).resolve().parent
EXAMPLES = HERE.parents[1] / "examples"


def enabled(con1, con2=0, depth=None):
    m = Module(depth)
    m.write(CON1, con1)
    m.write(CON2, con2)
    m.write(STAT, STAT_SPIEN)
    return m


def brings(word, bits=8):
    """A wire that brings a word, a bit in two edges."""
    edges = iter([word >> bit & 1 for bit in reversed(range(bits)) for _ in range(2)])
    return lambda seen: next(edges, 0)


class Case(unittest.TestCase):
    def refused(self, number, call, *words):
        with self.assertRaises(Refused) as caught:
            call(*words)
        self.assertEqual(caught.exception.number, number)
        return caught.exception


class OneModule(Case):
    def test_a_word_is_read_once(self):
        m = Module()
        self.assertEqual([m.read(n) for n in (STAT, CON1, CON2)], [0, 0, 0])
        m.write(CON1, CON1_MSTEN)
        m.write(STAT, STAT_SPIEN)
        self.refused(Refusal.RECEIVE_EMPTY, m.read, BUF)
        m.write(BUF, 0xA5)
        self.assertEqual(m.run(brings(0x5A)), 16)
        self.assertEqual((m.read(STAT), m.interrupt), (0x8001, True))
        self.assertEqual(m.read(BUF), 0x5A)
        refusal = self.refused(6, m.read, BUF)
        self.assertEqual((refusal.text, str(refusal)), ("nothing is unread", "refusal 6: nothing is unread"))
        m.clear()
        self.assertFalse(m.interrupt)

    def test_a_word_at_a_time(self):
        m = Module()
        self.assertRaises(Refused, m.word, 0)
        m.write(CON1, CON1_MSTEN)
        m.write(STAT, STAT_SPIEN)
        self.assertEqual((m.next_word, m.word(0x3C)), (None, (False, 0, 0)))
        m.write(BUF, 0xA5)
        m.write(BUF, 0x40)
        for _ in range(3):
            m.clock_step(sdi=True)
        self.assertEqual((m.edges_owed, m.words_owed), (29, 2))
        self.assertEqual((m.next_word, m.word(0xFF95)), (0xA5, (True, 0x25, 7)))
        self.assertEqual((m.edges_owed, m.words_owed), (16, 1))
        self.assertEqual((m.interrupt, m.next_word, m.read(BUF)), (True, 0x40, 0x95))
        self.assertEqual((m.word(0x3C), m.read(BUF), m.next_word), ((True, 0x40, 8), 0x3C, None))

    def test_refusals_of_each_call(self):
        m = Module()
        self.refused(1, m.read, 4)
        self.refused(1, m.write, 4, 0)
        self.refused(2, m.read, BUF)
        self.refused(2, m.tick)
        self.refused(2, m.clock_step)
        self.refused(8, m.clock, 0)
        self.refused(25, m.power_up_with, 5)
        self.refused(25, Module, 12)
        for con1, number in ((0x003F, 13), (0x0200, 14), (0x0100, 15)):
            m.write(CON1, con1)
            self.refused(number, m.write, STAT, STAT_SPIEN)
        host = enabled(CON1_MSTEN)
        kept = host.copy()
        self.refused(3, host.write, CON1, 0)
        self.refused(7, host.pins, 1, 0, 0)
        self.refused(7, enabled(0).tick)
        self.assertEqual(host, kept)
        host.write(BUF, 1)
        host.write(BUF, 2)
        self.refused(5, host.write, BUF, 3)

    def test_words_lost_in_enhanced_operation(self):
        for depth in (4, 8, 16):
            m = enabled(CON1_MSTEN, CON2_SPIBEN, depth)
            for word in range(depth + 1):
                m.write(BUF, word)
            self.refused(5, m.write, BUF, 0)
            self.assertEqual(m.run(lambda seen: seen.sdo, 600), 16 * (depth + 1))
            self.assertTrue(m.read(STAT) & STAT_SPIROV)
            self.refused(16, m.read, BUF)

    def test_levels_and_steps(self):
        m = enabled(CON1_MSTEN | CON1_CKP)
        self.assertEqual(m.levels(), Levels(False, True, False, None))
        self.assertEqual((m.sck, m.sdo, m.ss), (True, False, None))
        m.write(BUF, 0x80)
        self.assertEqual(m.clock_step(), Step(True, False, False, True, None))
        client = enabled(CON1_SSEN)
        client.write(BUF, 0x80)
        client.pins(0, 0, 1)
        self.assertIsNone(client.sdo)
        client.pins(True, False, False)
        self.assertIs(client.sdo, True)
        framed = enabled(CON1_MSTEN, CON2_FRMEN)
        self.assertIs(framed.ss, True)
        self.assertEqual(framed.run(lambda seen: 0, 700), 700)
        idle = enabled(CON1_MSTEN)
        self.assertEqual((idle.tick(), idle.clock_step().done), (False, False))

    def test_a_run_is_its_clock_steps(self):
        for con1 in (CON1_MSTEN, CON1_MSTEN | CON1_CKE, CON1_MSTEN | CON1_CKP | CON1_MODE16):
            for most in (0, 5, 544):
                m = enabled(con1)
                m.write(BUF, 0x12A5)
                by_hand, shown, wanted = m.copy(), [], [m.levels()]
                edges = m.run(lambda seen: shown.append(seen) or len(shown) % 3 == 0, most)
                while len(wanted) <= most:
                    step = by_hand.clock_step(sdi=len(wanted) % 3 == 0)
                    if not step.done:
                        break
                    wanted.append(by_hand.levels())
                    self.assertEqual(wanted[-1], step[1:])
                self.assertEqual((edges, shown, m), (len(wanted) - 1, wanted, by_hand))

    def test_a_run_is_of_hosts_alone(self):
        def asked(levels):
            raise AssertionError("the wire is asked")

        for number, m in ((2, Module()), (7, enabled(0)), (7, enabled(CON1_MSTEN | CON1_DISSCK))):
            kept = m.copy()
            self.refused(number, m.run, asked)
            self.assertEqual(m, kept)

    def test_clock_reports(self):
        self.assertEqual(Module().clock(1), Clock("none", 0, 0, 0))
        self.assertEqual(enabled(0x003A).clock(40000000), Clock("internal", 5e6, 2e-7, 0))
        self.assertEqual(enabled(0).clock(100), Clock("external", 0, 0, 100))

    def test_prescalers(self):
        self.assertEqual([prescalers(40000000, rate) for rate in (10000000, 20000000, 78125, 78124)], [30, 27, 0, None])
        self.assertEqual(enabled(0x0020 | prescalers(40000000, 5000000)).clock(40000000).rate, 5e6)

    def test_numbers_that_do_not_fit(self):
        m = Module()
        for call, *words in ((m.read, -1), (m.read, 1 << 32), (m.write, 0, 0x10000), (m.write, 0, -1), (m.clock, 1 << 32)):
            with self.assertRaises(ValueError):
                call(*words)
        with self.assertRaises(ValueError):
            m.linked(m)


class Memory(Case):
    def test_saved_and_restored(self):
        m = enabled(CON1_MSTEN)
        m.write(BUF, 0xA5)
        saved = m.to_bytes()
        self.assertEqual((len(saved), saved[:2]), (194, bytes([FORMAT, 0])))
        self.assertEqual(Module.from_bytes(saved), m)
        for wrong in (b"", saved[:-1], saved[:-2], saved + b"\0\0", b"\3" + saved[1:]):
            with self.assertRaises(ValueError):
                Module.from_bytes(wrong)
        self.assertEqual(Module.from_words(m.words), m)
        with self.assertRaises(ValueError):
            Module.from_words((0x10000,) + m.words[1:])

    def test_copies_are_apart(self):
        m = enabled(CON1_MSTEN)
        for other in (m.copy(), copy.copy(m), copy.deepcopy(m), pickle.loads(pickle.dumps(m))):
            self.assertEqual(other, m)
            other.write(BUF, 1)
            self.assertNotEqual(other, m)
        self.assertNotEqual(m, Ti())
        with self.assertRaises(TypeError):
            hash(m)
        refusal = pickle.loads(pickle.dumps(self.refused(6, m.read, BUF)))
        self.assertEqual((refusal.number, str(refusal)), (6, "refusal 6: nothing is unread"))
        self.assertIn("STAT 8000 CON1 0020", repr(m))

    def test_threads_each_with_a_module(self):
        def work(n):
            m = enabled(CON1_MSTEN)
            for word in range(50):
                m.write(BUF, (word + n) & 0xFF)
                m.run(lambda seen: seen.sdo)
                read[n].append(m.read(BUF) - n)

        read = [[] for _ in range(4)]
        threads = [threading.Thread(target=work, args=(n,)) for n in range(4)]
        for thread in threads:
            thread.start()
        for thread in threads:
            thread.join()
        self.assertEqual(read, [list(range(50))] * 4)


class Wire(Case):
    def test_two_modules_change_words(self):
        host, client = enabled(CON1_MSTEN | CON1_CKE), enabled(CON1_CKE | CON1_SSEN)
        host.write(BUF, 0xA5)
        client.write(BUF, 0x3C)
        self.refused(11, host.linked, client, 545)
        self.refused(7, client.linked, host)
        self.refused(10, host.linked, enabled(0))
        self.assertEqual(host.linked(client), 16)
        self.assertEqual((host.read(BUF), client.read(BUF)), (0x3C, 0xA5))

    def test_two_modules_by_hand(self):
        host, client = enabled(CON1_MSTEN), enabled(CON1_SSEN)
        host.write(BUF, 0xA5)
        client.write(BUF, 0x3C)

        def wire(seen):
            client.pins(seen.sck, seen.sdo, False)
            return client.sdo

        self.assertEqual(host.run(wire), 16)
        self.assertEqual((host.read(BUF), client.read(BUF)), (0x3C, 0xA5))


class Traces(Case):
    def test_played(self):
        m = Module()
        for name, calls, registers, flag in (
            ("receipt.trace", 31, (0x80A0, 0x0020, 0x0001), True),
            ("overflow.trace", 310, (0x80C1, 0x0020, 0x0001), False),
        ):
            self.assertEqual(m.play((EXAMPLES / name).read_bytes()), calls)
            self.assertEqual((tuple(m.read(n) for n in range(3)), m.interrupt), (registers, flag))

    def test_refused(self):
        m = enabled(CON1_MSTEN)
        kept = m.copy()
        many = bytes([2, 0, 18, 0, 0, 0, 8, 0, 0, 0, 26, 0, 0, 0, 0, 0, 0, 0, 5, 1, 255, 255, 4, 0, 0, 0])
        self.refused(17, m.play, b"")
        self.refused(18, m.play, bytes([1, 0, 10, 0, 0, 0, 4, 0, 0, 0, 5, 1, 0, 0]))
        self.refused(19, m.play, bytearray(many))
        self.assertEqual(m, kept)

    def test_saved(self):
        script = (EXAMPLES / "refusals.txt").read_bytes()
        trace = save(script)
        self.assertEqual(len(trace), 106)
        m = Module()
        self.assertEqual((m.play(trace), m.read(STAT)), (24, 0x8002))
        self.assertEqual(save(""), bytes([1, 0, 10, 0, 0, 0, 0, 0, 0, 0]))
        self.assertEqual((m.play(save("W 1 0020\nW 0 8000\n")), m), (2, enabled(CON1_MSTEN)))
        self.refused(20, save, "C\n" * 16382)

    def test_salvaged(self):
        trace = (EXAMPLES / "receipt.trace").read_bytes()
        self.assertEqual(salvage(trace), Salvaged(trace, 0, 0))
        new = salvage(trace[:95])
        self.assertEqual((len(new.trace), new.cut, new.lost), (94, 1, 4))
        m = Module()
        self.assertEqual((m.play(new.trace), m.read(STAT)), (27, 0x8020))
        self.refused(17, salvage, trace[:9])


def answer(m, line):
    """A line of a script, answered as ./run answers it."""
    try:
        if re.match("W [0-9] [0-9A-F]{4}$", line):
            m.write(int(line[2]), int(line[4:], 16))
            return "OK"
        if re.match("R [0-9]$", line):
            return "%04X" % m.read(int(line[2]))
        if line == "C":
            m.clear()
            return "OK"
        if re.match("T [01]( [01])?$", line):
            if not m.tick(*map(int, line[2:].split())):
                return "N"
        elif re.match("P [01] [01] [01]$", line):
            m.pins(*map(int, line[2:].split()))
        else:
            return "E 9"
    except Refused as refused:
        return "E %d" % refused.number
    seen = m.levels()
    shown = [seen.sck] if line[0] == "T" else []
    shown += [seen.sdo, seen.interrupt] + ([] if seen.ss is None else [seen.ss])
    return " ".join("Z" if level is None else str(int(level)) for level in shown)


class Scripts(Case):
    """The scripts of examples/, line by line: what examples/README.md tells of them, and the traces that they are saved as."""

    def test_answers(self):
        told = (EXAMPLES / "README.md").read_text()
        for script in sorted(EXAMPLES.glob("*.txt")):
            lines = script.read_text().split("\n")
            m = Module()
            answers = {str(n): answer(m, line) for n, line in enumerate(lines[:-1] if not lines[-1] else lines, 1)}
            wanted = re.search("^## %s$(.*?)^## " % re.escape(script.name), told, re.M | re.S).group(1)
            wanted = dict(re.findall("^    ([0-9]+) (.*)$", wanted, re.M))
            self.assertGreater(len(wanted), 3)
            self.assertEqual({n: answers[n] for n in wanted}, wanted, script.name)
            played = Module()
            played.play(save(script.read_bytes()))
            self.assertEqual([played.read(n) for n in range(3)], [m.read(n) for n in range(3)])
            self.assertEqual(played.levels(), m.levels())


class Boards(Case):
    def test_words_owed(self):
        b = Board(4)
        for n, con1 in ((2, CON1_MSTEN), (0, CON1_SSEN)):
            b.write(n, CON1, con1)
            b.write(n, STAT, STAT_SPIEN)
        b.write(2, BUF, 0xA5)
        b.write(0, BUF, 0x3C)
        self.assertEqual((len(b), b.owed), (4, 2))
        again = Board.of(b.modules, b.owed)
        self.assertEqual(again.modules, b.modules)
        for board in (b, again):
            self.refused(22, board.linked, 2, 2)
            self.assertEqual((board.linked(2, 0), board.owed), (16, 0))
            self.assertEqual((board.read(2, BUF), board.read(0, BUF)), (0x3C, 0xA5))
            self.refused(6, board.read, 2, BUF)

    def test_each_call_is_that_of_the_module(self):
        b, m = Board(2), Module()
        b.power_up_with(1, 4)
        m.power_up_with(4)
        for call, *words in (
            ("write", CON1, CON1_MSTEN),
            ("write", STAT, STAT_SPIEN),
            ("write", BUF, 0xA5),
            ("clock", 40000000),
            ("tick", 1),
            ("clock_step", 0, 1, 0),
            ("levels",),
            ("word", 0x3C),
            ("word", 0x3C, True),
            ("write", BUF, 0x40),
            ("clear",),
            ("read", STAT),
            ("read", BUF),
        ):
            self.assertEqual(getattr(b, call)(1, *words), getattr(m, call)(*words))
            self.assertEqual((b.modules[1], b.owed), (m, m.words_owed))
        self.assertEqual((b.owed, b.modules[0]), (1, Module()))
        self.refused(7, b.pins, 1, 0, 0, 0)
        b.power_up(1)
        self.assertEqual((b.owed, b.modules[1]), (0, Module()))

    def test_refused(self):
        for count in (0, 5, 1 << 31):
            self.refused(21, Board, count)
        self.refused(21, Board.of, [Module()] * 5)
        b = Board(1)
        for call, *words in ((b.read, 1, 9), (b.clock, 1, 0), (b.levels, 1), (b.linked, 0, 1), (b.word, 1, 0)):
            self.refused(22, call, *words)
        self.refused(8, b.clock, 0, 0)
        self.refused(2, b.word, 0, 0)
        with self.assertRaises(ValueError):
            b.word(0, 0x10000)


class Others(Case):
    def test_a_ti_master_and_slave(self):
        master, slave = Ti(), Ti()
        self.refused(2, master.read)
        self.refused(24, master.set_length, 17)
        for m, role in ((master, True), (slave, False)):
            m.set_length(5)
            m.set_mode(role, talk=True, phase=True)
            m.leave_reset()
        self.assertEqual((master.mode, slave.length, slave.in_reset), (TiMode(True, True, False, True), 5, False))
        self.refused(3, master.set_length, 5)
        slave.write(0xD000)
        master.write(0x5800)
        self.refused(7, slave.tick)
        self.refused(7, master.pins, 0, 0)
        edges = 0
        slave.pins(master.sck, master.sdo)
        while master.tick(slave.sdo):
            edges += 1
            slave.pins(master.sck, master.sdo)
        self.assertEqual((edges, slave.interrupt, slave.read(), master.read()), (10, True, 0x0B, 0x1A))
        self.refused(6, slave.read)
        master.write(0)
        self.assertFalse(master.transmit_full or master.overrun)
        self.assertEqual(Ti.from_bytes(master.to_bytes()), master)
        master.enter_reset()
        master.power_up()
        self.assertEqual((master, Ti.rate(6, 40000000)), (Ti(), 40000000 / 7))

    def test_a_card_plays_to_itself(self):
        c = Card()
        self.assertEqual(str(self.refused(2, c.read)), "refusal 2: the card is disabled")
        self.assertEqual(str(self.refused(23, c.set_length, 8, 32)), "refusal 23: no card has this length and frame")
        c.set_length(16, 32)
        c.set_protocol(Protocol.LEFT_JUSTIFIED)
        c.enable()
        self.refused(3, c.set_protocol, Protocol.I2S)
        for sample in (0x1234, 0xABCD):
            c.write(sample)
        self.assertEqual(c.look()[6:], (2, 0, Protocol.LEFT_JUSTIFIED, 16, 32))
        for _ in range(64):
            c.edge(c.look().sdo)
        self.assertEqual((c.read(), c.read()), (0x1234, 0xABCD))
        self.refused(6, c.read)
        self.assertEqual(Card.from_bytes(c.to_bytes()), c)
        for _ in range(2):
            c.edge()
        self.assertTrue(c.look().underrun)
        c.clear_underrun()
        c.clear_overflow()
        self.assertFalse(c.look().underrun)
        c.disable()
        self.assertIsNone(c.look().sdo)
        c.power_up()
        self.assertEqual(c, Card())


class Package(Case):
    def test_the_documentation(self):
        self.assertEqual(doctest.testmod(thurafeqa).failed, 0)

    def test_versions(self):
        self.assertEqual(thurafeqa.version()[0], thurafeqa.VERSION[0])
        self.assertGreaterEqual(thurafeqa.version()[1], thurafeqa.VERSION[1])

    def test_every_refusal_has_a_text(self):
        from thurafeqa.refusals import TEXTS

        self.assertEqual(sorted(TEXTS), sorted(Refusal))
        self.assertEqual(Refused(99).text, "no such refusal")

    def test_no_library(self):
        with tempfile.TemporaryDirectory() as folder:
            wrong = Path(folder) / "wrong.so"
            wrong.write_text("this is no library")
            environment = dict(os.environ, THURAFEQA_LIBRARY=str(wrong), PYTHONPATH=str(HERE))
            done = subprocess.run([sys.executable, "-B", "-c", "import thurafeqa"], env=environment, stderr=subprocess.PIPE)
            self.assertEqual(done.returncode, 1)
            self.assertIn(b"NoLibrary: THURAFEQA_LIBRARY names a file that cannot be loaded", done.stderr)


if __name__ == "__main__":
    unittest.main()
