//! A small port: firmware reads a receipt out of a cartridge's memory, through the library's module as host in SPI mode 0.
//! The parts stand in the order in which a word travels from the wire to the firmware: the board with its wires and its
//! clock, the CPU's bus, the firmware, and a day of it. It prints what port.c prints.

mod eeprom;
#[path = "../../bindings/thurafeqa.rs"]
mod thurafeqa;

use eeprom::Eeprom;
use thurafeqa::register::{BUF, CON1, CON1_CKE, CON1_MSTEN, STAT, STAT_SPIEN, STAT_SPIRBF};
use thurafeqa::{Clock, Module, Sdo};

// ---- the board

const CYCLES_A_SECOND: u32 = 40_000_000;
const NAME: [&str; 4] = ["STAT", "CON1", "CON2", "BUF"];

struct Board {
    spi: Module,
    memory: Eeprom,
    cs: bool,        // a port pin, which selects the memory when low
    cycles: u32,     // instruction cycles since power-up
    bit_cycles: u32, // instruction cycles in a bit, 0 without a clock
    phase: u32,      // half cycles since the last edge was due
}

impl Board {
    fn power_up(bytes: [u8; eeprom::SIZE]) -> Board {
        let (spi, memory) = (Module::new(), Eeprom::new(bytes));
        let mut board = Board { spi, memory, cs: true, cycles: 0, bit_cycles: 0, phase: 0 };
        board.set_clock();
        board.show_wires();
        board
    }

    /// Shows the module's levels and the port pin to the memory.
    fn show_wires(&mut self) {
        self.memory.pins(self.cs, self.spi.sck(), self.spi.sdo() == Sdo::High);
    }

    /// One edge: SDI has the level from before it, the memory sees the levels after it, which the step tells. A resistor pulls
    /// SDI up while the memory does not drive it. SCK and SS do not count at this host.
    fn edge(&mut self) {
        let sdi = self.memory.so().unwrap_or(true);
        match self.spi.clock_step(false, sdi, false) {
            Ok(step) if step.done => self.memory.pins(self.cs, step.sck, step.sdo == Sdo::High),
            Ok(_) => (),
            Err(refusal) => println!("port: step refused with {}", refusal as u32),
        }
    }

    /// One instruction cycle. Two edges fall into a bit's cycles.
    fn cycle(&mut self) {
        self.cycles += 1;
        if self.bit_cycles == 0 {
            return;
        }
        self.phase += 2;
        if self.phase >= self.bit_cycles {
            self.phase -= self.bit_cycles;
            self.edge();
        }
    }

    /// Asks how long a bit is, if the module now has a clock of its own.
    fn set_clock(&mut self) {
        self.phase = 0;
        self.bit_cycles = match self.spi.clock(CYCLES_A_SECOND) {
            Ok(Clock::Internal { bit_time, .. }) => (bit_time * f64::from(CYCLES_A_SECOND)).round() as u32,
            Ok(_) => 0,
            Err(refusal) => {
                println!("port: clock refused with {}", refusal as u32);
                0
            }
        };
    }
}

// ---- the CPU's bus

impl Board {
    /// A load takes a cycle, then reads. What is refused shows 0 on the bus: never a word from before.
    fn load(&mut self, number: u32) -> u16 {
        self.cycle();
        self.spi.read(number).unwrap_or_else(|refusal| {
            println!("port: {} read refused with {}", NAME[number as usize], refusal as u32);
            0
        })
    }

    /// A store takes a cycle, then writes. What is refused has changed nothing.
    fn store(&mut self, number: u32, value: u16) {
        self.cycle();
        if let Err(refusal) = self.spi.write(number, value) {
            println!("port: {} write refused with {}", NAME[number as usize], refusal as u32);
            return;
        }
        if number == STAT {
            self.set_clock();
        }
        self.show_wires();
    }

    /// A store to the port pin.
    fn store_cs(&mut self, level: bool) {
        self.cycle();
        self.cs = level;
        self.show_wires();
    }
}

// ---- the firmware

/// Mode 0, words of 8 bits, prescalers 4:1 and 2:1.
fn spi_open(b: &mut Board) {
    b.store(CON1, CON1_MSTEN | CON1_CKE | 6 << 2 | 2);
    b.store(STAT, STAT_SPIEN);
}

fn spi_close(b: &mut Board) {
    b.store(STAT, 0);
}

/// Sends a byte and waits for the one that comes back with it.
fn spi_exchange(b: &mut Board, out: u8) -> u8 {
    b.store(BUF, out.into());
    while b.load(STAT) & STAT_SPIRBF == 0 {}
    b.load(BUF) as u8
}

fn memory_select(b: &mut Board, address: u16) {
    b.store_cs(false);
    spi_exchange(b, eeprom::READ);
    spi_exchange(b, (address >> 8) as u8);
    spi_exchange(b, address as u8);
}

fn memory_read(b: &mut Board, address: u16, to: &mut [u8]) {
    memory_select(b, address);
    for byte in to {
        *byte = spi_exchange(b, 0);
    }
    b.store_cs(true);
}

// ---- a day of it

const RECEIPT_AT: u16 = 0x01A0;
const RECEIPT: &[u8; 28] = b"RECEIPT 0042: OUTFIT 7, PAID";

fn read_receipt(b: &mut Board) {
    let mut receipt = [0; RECEIPT.len()];
    let before = b.cycles;
    memory_read(b, RECEIPT_AT, &mut receipt);
    println!("firmware: read \"{}\" in {} cycles", String::from_utf8_lossy(&receipt), b.cycles - before);
}

/// Nothing has arrived since the receipt's last byte was read.
fn read_once_more(b: &mut Board) {
    let last = RECEIPT[RECEIPT.len() - 1];
    let byte = b.load(BUF) as u8;
    println!("firmware: read {byte:02X}, the receipt was {} again", if byte == last { "SERVED" } else { "not served" });
}

/// Deselects the memory and disables the module within a byte: all that was under way is forgotten, at both ends of the
/// wire.
fn abort_transfer(b: &mut Board) {
    memory_select(b, RECEIPT_AT);
    b.store(BUF, 0);
    for _ in 0..20 {
        b.load(STAT);
    }
    b.store_cs(true);
    spi_close(b);
    println!("firmware: aborted within a byte, STAT {:04X}", b.load(STAT));
}

fn main() {
    let mut bytes = [0xFF; eeprom::SIZE];
    bytes[RECEIPT_AT as usize..][..RECEIPT.len()].copy_from_slice(RECEIPT);
    let mut b = Board::power_up(bytes);

    spi_open(&mut b);
    println!("port: a bit takes {} cycles", b.bit_cycles);
    read_receipt(&mut b);
    read_once_more(&mut b);

    abort_transfer(&mut b);
    read_once_more(&mut b);
    spi_open(&mut b);
    read_once_more(&mut b);
    read_receipt(&mut b);
}
