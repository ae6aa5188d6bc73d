//! Two TI modules on one wire: the data transfer that source document 002 shows in its figure of five bits a character, and then
//! a character that nobody reads in time.
#[path = "../../bindings/thurafeqa.rs"]
mod thurafeqa;

use thurafeqa::{Refusal, Sdo, Ti, TiMode};

struct Wire {
    master: Ti,
    slave: Ti,
}

fn start(master: bool) -> Result<Ti, Refusal> {
    let mut m = Ti::new();
    m.set_length(5)?;
    m.set_mode(TiMode { master, talk: true, polarity: false, phase: true })?;
    m.leave_reset();
    Ok(m)
}

impl Wire {
    /// The master clocks until it has nothing left to send. Each end sees the level that the other one drives.
    fn run(&mut self) -> Result<u32, Refusal> {
        let mut edges = 0;
        self.slave.pins(self.master.sck(), self.master.sdo() == Sdo::High, false)?;
        while self.master.tick(self.slave.sdo() == Sdo::High)? {
            edges += 1;
            self.slave.pins(self.master.sck(), self.master.sdo() == Sdo::High, false)?;
        }
        Ok(edges)
    }
}

fn tell(who: &str, m: &mut Ti) {
    let lost = if m.overrun() { ", overrun" } else { "" };
    match m.read() {
        Ok(character) => println!("{who} reads {character:02X}{lost}"),
        Err(refusal) => println!("{who} is refused with {}{lost}", refusal as u32),
    }
}

fn main() -> Result<(), Refusal> {
    let mut w = Wire { master: start(true)?, slave: start(false)? };

    for (from_slave, from_master) in [(0xD000, 0x5800), (0x4C00, 0x6C00)] {
        w.slave.write(from_slave)?;
        w.master.write(from_master)?;
        println!("{} edges", w.run()?);
        tell("slave", &mut w.slave);
        tell("master", &mut w.master);
    }

    // two characters without a read between them
    w.master.write(0x0800)?;
    w.master.write(0x1000)?;
    println!("{} edges", w.run()?);
    tell("slave", &mut w.slave);
    tell("slave", &mut w.slave);
    w.slave.clear_overrun();
    tell("slave", &mut w.slave);

    println!("{:.1} bits a second", Ti::rate(6, 40_000_000));
    Ok(())
}
