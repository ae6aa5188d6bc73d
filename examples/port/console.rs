//! A console with a board of four modules. SPI1 and SPI2 are joined by a wire on the board, SPI3 has its output joined to its
//! input, and SPI4, which has buffers of 16 words, is joined to nothing. The firmware names a module by its place in the list,
//! from 0. A screen shows how many words are still to be sent. It prints what console.c prints.

#[path = "../../bindings/thurafeqa.rs"]
mod thurafeqa;

use thurafeqa::register::{BUF, CON1, CON1_MODE16, CON1_MSTEN, CON1_SSEN, CON2, CON2_SPIBEN, STAT, STAT_SPIEN};
use thurafeqa::{Board, Module, Refusal, Sdo};

const SPI1: u32 = 0;
const SPI2: u32 = 1;
const SPI3: u32 = 2;
const SPI4: u32 = 3;

fn open(b: &mut Board, n: u32, con1: u16, con2: u16) -> Result<(), Refusal> {
    b.write(n, CON1, con1)?;
    b.write(n, CON2, con2)?;
    b.write(n, STAT, STAT_SPIEN)
}

fn print_board(b: &mut Board) -> Result<(), Refusal> {
    print!("owed {}, STAT", b.owed()?);
    for n in SPI1..=SPI4 {
        print!(" SPI{} {:04X}", n + 1, b.read(n, STAT)?);
    }
    println!();
    Ok(())
}

/// SPI1 sends a text to SPI2, two letters in a word, while SPI2 sends words of its own.
fn send_text(b: &mut Board, text: &[u8]) -> Result<(), Refusal> {
    for two in text.chunks(2) {
        b.write(SPI1, BUF, u16::from_be_bytes([two[0], two[1]]))?;
        b.write(SPI2, BUF, 0x4F4B)?;
    }
    print_board(b)?;
    println!("SPI1 and SPI2: {} edges", b.linked(SPI1, SPI2, 544)?);
    print_board(b)?;
    print!("SPI2 read \"");
    for _ in text.chunks(2) {
        let [high, low] = b.read(SPI2, BUF)?.to_be_bytes();
        print!("{}{}", high as char, low as char);
    }
    println!("\"");
    Ok(())
}

/// SPI3 sends a byte to itself, edge by edge.
fn send_round(b: &mut Board, byte: u8) -> Result<(), Refusal> {
    let mut edges = 0;
    b.write(SPI3, BUF, byte.into())?;
    print_board(b)?;
    let mut sdi = b.sdo(SPI3)? == Sdo::High;
    loop {
        let step = b.clock_step(SPI3, false, sdi, false)?;
        if !step.done {
            break;
        }
        sdi = step.sdo == Sdo::High;
        edges += 1;
    }
    println!("SPI3 read {:02X} after {edges} edges", b.read(SPI3, BUF)?);
    Ok(())
}

/// SPI4 takes words until its transmit buffer is full: one is in the shift register and 16 wait, which SPIBEC shows as 7. The
/// first is sent, all its edges in one call, while another comes in. Power-up drops the rest.
fn fill_deep(b: &mut Board) -> Result<(), Refusal> {
    let mut words = 0;
    b.power_up_with(SPI4, 16)?;
    open(b, SPI4, CON1_MSTEN | CON1_MODE16, CON2_SPIBEN)?;
    while b.write(SPI4, BUF, 0x1000 + words).is_ok() {
        words += 1;
    }
    println!("SPI4 took {words} words");
    print_board(b)?;
    let sent = b.word(SPI4, false, 0x600D)?.levels;
    println!("SPI4 sent {sent:04X} and read {:04X} in one call", b.read(SPI4, BUF)?);
    print_board(b)?;
    b.power_up_with(SPI4, 16)?;
    print_board(b)
}

fn refused<T>(what: &str, answer: Result<T, Refusal>) {
    if let Err(refusal) = answer {
        println!("port: {what} refused with {}", refusal as u32);
    }
}

fn main() -> Result<(), Refusal> {
    let mut spi = [(); 5].map(|_| Module::new());
    let mut b = Board::new(&mut spi[..4])?;
    open(&mut b, SPI1, CON1_MSTEN | CON1_MODE16, CON2_SPIBEN)?;
    open(&mut b, SPI2, CON1_SSEN | CON1_MODE16, CON2_SPIBEN)?;
    open(&mut b, SPI3, CON1_MSTEN, 0)?;
    send_text(&mut b, b"OUTFIT 7")?;
    send_round(&mut b, 0xA5)?;
    print_board(&mut b)?;

    // two words, one of them under way, are dropped by disabling
    b.write(SPI3, BUF, 1)?;
    b.write(SPI3, BUF, 2)?;
    b.tick(SPI3, false, false)?;
    print_board(&mut b)?;
    b.write(SPI3, STAT, 0)?;
    print_board(&mut b)?;

    fill_deep(&mut b)?;

    // what a port may get wrong: nothing changes
    refused("read of SPI5", b.read(4, STAT));
    refused("run of SPI1 with itself", b.linked(SPI1, SPI1, 544));
    let owed = b.owed()?;
    let mut longer = Board::with(&mut spi, owed);
    refused("read on a board of five", longer.read(SPI1, STAT));
    refused("question to a board of five", longer.owed());
    let mut b = Board::with(&mut spi[..4], owed);
    refused("tick of SPI4", b.tick(SPI4, false, false));
    refused("power-up of SPI4 with 12 words", b.power_up_with(SPI4, 12));
    print_board(&mut b)
}
