//! A shift register on a host's wire, clocked by `Module::run`: what the host sends comes back a word later. What is refused is
//! told in words. It prints what run.c prints, and it takes the crate: `cargo run --example run` in bindings/rust.

use thurafeqa::register::{BUF, CON1, CON1_CKE, CON1_MSTEN, STAT, STAT_SPIEN};
use thurafeqa::{Module, Refusal, Sdo, Step};

/// It takes a bit in as SCK rises and shows the oldest of eight as SCK falls: SPI mode 0. The bit that it takes stood there
/// before the edge.
#[derive(Default)]
struct Shifter {
    sck: bool,
    si: bool,
    bits: u8,
    so: bool,
}

impl Shifter {
    fn sees(&mut self, seen: Step) -> bool {
        if seen.sck && !self.sck {
            self.bits = self.bits << 1 | u8::from(self.si);
        } else if !seen.sck && self.sck {
            self.so = self.bits >> 7 == 1;
        }
        self.sck = seen.sck;
        self.si = seen.sdo == Sdo::High;
        self.so
    }
}

/// One word there and back, in runs of at most so many edges.
fn exchange(m: &mut Module, s: &mut Shifter, word: u8, most: u16) -> Result<(), Refusal> {
    m.write(BUF, word.into())?;
    loop {
        let edges = m.run(most.into(), |seen| s.sees(seen))?;
        println!("{edges} edges");
        if edges < most {
            break;
        }
    }
    println!("sent {word:02X}, received {:02X}", m.read(BUF)?);
    Ok(())
}

fn main() -> Result<(), Refusal> {
    let mut s = Shifter::default();
    let mut m = Module::new();

    if let Err(refusal) = m.run(544, |seen| s.sees(seen)) {
        println!("run: {refusal}");
    }
    m.write(CON1, CON1_MSTEN | CON1_CKE)?;
    m.write(STAT, STAT_SPIEN)?;
    exchange(&mut m, &mut s, 0xA5, 544)?;
    exchange(&mut m, &mut s, 0x3C, 10)?;
    exchange(&mut m, &mut s, 0x00, 544)?;
    if let Err(refusal) = m.read(BUF) {
        println!("BUF read: {refusal}");
    }
    Ok(())
}
