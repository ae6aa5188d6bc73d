//! A serial EEPROM of the 25LC kind at its pins, as far as reading goes: the cartridge's memory. It speaks SPI mode 0,
//! highest bit first. Selected, it takes in the instruction READ and an address of 16 bits; then it shows the bytes from
//! there on, one after the other, until it is deselected.

pub const SIZE: usize = 8192;
pub const READ: u8 = 0x03;

const COMMAND_BITS: u32 = 24;

pub struct Eeprom {
    bytes: [u8; SIZE],
    sck: bool,        // the level last seen there
    si: bool,         // and here
    taken: u32,       // bits taken in since selected, 24 at most
    command: u32,     // these bits: instruction, then address
    next: usize,      // the bit to show next, of the whole memory
    so: Option<bool>, // the level at SO, if it is driven
}

impl Eeprom {
    pub fn new(bytes: [u8; SIZE]) -> Eeprom {
        Eeprom { bytes, sck: false, si: false, taken: 0, command: 0, next: 0, so: None }
    }

    /// The level at SO, if it is driven.
    pub fn so(&self) -> Option<bool> {
        self.so
    }

    /// Shows levels to the pins; an SCK level unlike the last is an edge. SI is taken in as it stood before the edge, so a
    /// wrong mode does not go unnoticed.
    pub fn pins(&mut self, cs: bool, sck: bool, si: bool) {
        if cs {
            self.deselect();
        } else if sck && !self.sck {
            self.take();
        } else if !sck && self.sck {
            self.show();
        }
        self.sck = sck;
        self.si = si;
    }

    /// CS is high: whatever was going on ends, and SO is let go.
    fn deselect(&mut self) {
        self.taken = 0;
        self.command = 0;
        self.so = None;
    }

    /// SCK rises: one more bit of the command.
    fn take(&mut self) {
        if self.taken == COMMAND_BITS {
            return;
        }
        self.command = self.command << 1 | u32::from(self.si);
        self.taken += 1;
        self.next = (self.command & 0xFFFF) as usize % SIZE * 8;
    }

    /// SCK falls: the next bit, if the command is whole and is READ.
    fn show(&mut self) {
        if self.taken < COMMAND_BITS || self.command >> 16 != u32::from(READ) {
            return;
        }
        self.so = Some(self.bytes[self.next / 8] >> (7 - self.next % 8) & 1 == 1);
        self.next = (self.next + 1) % (SIZE * 8);
    }
}
