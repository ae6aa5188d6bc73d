//! The audio card of request Nine, over the library libthurafeqa.a: I2S, left justified, right justified and PCM/DSP.
//!
//! In the crate of `bindings/rust` it is the module `card`. Without cargo take this file in by `mod thurafeqa_card;`. It needs nothing
//! but `core`, and Rust 1.82 or later.
//!
//! A card is a value: a clone is a second card in the same state. Every call takes any card and any numbers, ends, and never
//! panics. A refused call has changed nothing; [`Refusal`] says why.

use core::fmt;

/// The format of a card's words. It rises wherever their meaning changes, so save it beside them.
#[allow(dead_code)]
pub const FORMAT: u32 = 1;

/// One card.
#[repr(C)]
#[derive(Clone, Debug, PartialEq, Eq)]
pub struct Card([u32; 40]);

// Each takes any card and any numbers, and ends; what else a caller owes, Rust's references bring along.
unsafe extern "C" {
    safe fn thurafeqa_card_power_up(c: &mut Card);
    safe fn thurafeqa_card_set_protocol(c: &mut Card, protocol: u32) -> u64;
    safe fn thurafeqa_card_set_length(c: &mut Card, bits: u32, frame: u32) -> u64;
    safe fn thurafeqa_card_enable(c: &mut Card) -> u64;
    safe fn thurafeqa_card_disable(c: &mut Card) -> u64;
    safe fn thurafeqa_card_write(c: &mut Card, sample: u32) -> u64;
    safe fn thurafeqa_card_read(c: &mut Card) -> u64;
    safe fn thurafeqa_card_edge(c: &mut Card, sdi: u32) -> u64;
    safe fn thurafeqa_card_clear_underrun(c: &mut Card);
    safe fn thurafeqa_card_clear_overflow(c: &mut Card);
    safe fn thurafeqa_card_look(c: &Card) -> u32;
}

/// Where a sample's bits lie in its frame. `docs/AUDIO.md` has a picture of each.
#[derive(Clone, Copy, Debug, PartialEq, Eq)]
pub enum Protocol {
    /// I2S.
    I2s = 0,
    /// Left justified.
    LeftJustified = 1,
    /// Right justified.
    RightJustified = 2,
    /// PCM/DSP.
    PcmDsp = 3,
}

/// Why a call was refused, under the numbers of documents 01 and 02. A later version may have more: let a `match` on it have a
/// default, which the compiler asks for outside of the crate that this file stands in.
#[derive(Clone, Copy, Debug, PartialEq, Eq)]
#[non_exhaustive]
pub enum Refusal {
    /// A sample or an edge, and the card is disabled.
    Disabled = 2,
    /// A setting while the card is enabled.
    Enabled = 3,
    /// Eight samples wait.
    TransmitFull = 5,
    /// No sample is unread.
    ReceiveEmpty = 6,
    /// A length and frame that are not named.
    NotNamed = 23,
}

#[allow(dead_code)] // a program need not make every call
impl Refusal {
    /// The number.
    pub fn number(self) -> u32 {
        self as u32
    }

    /// The refusal in words, without its number. [`Display`](fmt::Display) has both.
    pub fn text(self) -> &'static str {
        match self {
            Refusal::Disabled => "the card is disabled",
            Refusal::Enabled => "the card is enabled",
            Refusal::TransmitFull => "eight samples wait",
            Refusal::ReceiveEmpty => "no sample is unread",
            Refusal::NotNamed => "no card has this length and frame",
        }
    }
}

impl fmt::Display for Refusal {
    fn fmt(&self, f: &mut fmt::Formatter<'_>) -> fmt::Result {
        write!(f, "refusal {}: {}", self.number(), self.text())
    }
}

impl core::error::Error for Refusal {}

fn told(answer: u64) -> Result<u32, Refusal> {
    match answer >> 32 {
        0 => Ok(answer as u32),
        2 => Err(Refusal::Disabled),
        3 => Err(Refusal::Enabled),
        5 => Err(Refusal::TransmitFull),
        6 => Err(Refusal::ReceiveEmpty),
        _ => Err(Refusal::NotNamed),
    }
}

fn done(answer: u64) -> Result<(), Refusal> {
    told(answer).map(|_| ())
}

/// What can be looked at.
#[derive(Clone, Copy, Debug, PartialEq, Eq)]
pub struct Look {
    /// The clock level.
    pub sck: bool,
    /// The level of the channel clock.
    pub lrck: bool,
    /// The SDO pin; `None` while SDO is not driven, which is while the card is disabled.
    pub sdo: Option<bool>,
    /// A sample was missed.
    pub underrun: bool,
    /// A received sample was lost.
    pub overflow: bool,
    /// The right channel takes a sample next; else the left one does.
    pub right_next: bool,
    /// How many samples wait to be sent.
    pub waiting: u32,
    /// How many samples are unread.
    pub unread: u32,
    /// The protocol.
    pub protocol: Protocol,
    /// The bits of a sample.
    pub bits: u32,
    /// The clocks of a frame.
    pub frame: u32,
}

impl Default for Card {
    fn default() -> Self {
        Self::new()
    }
}

#[allow(dead_code)] // a program need not make every call
impl Card {
    /// Power-up: I2S with 16 bits in 32 clocks, disabled.
    pub fn new() -> Self {
        let mut c = Card([0; 40]);
        thurafeqa_card_power_up(&mut c);
        c
    }

    /// Sets the protocol. Refused: `Enabled`.
    pub fn set_protocol(&mut self, protocol: Protocol) -> Result<(), Refusal> {
        done(thurafeqa_card_set_protocol(self, protocol as u32))
    }

    /// Sets the bits of a sample and the clocks of a frame. Refused: `Enabled`, then `NotNamed`.
    pub fn set_length(&mut self, bits: u32, frame: u32) -> Result<(), Refusal> {
        done(thurafeqa_card_set_length(self, bits, frame))
    }

    /// Enables the card, which then holds nothing. An enabled card stays as it is. Never refused.
    pub fn enable(&mut self) {
        thurafeqa_card_enable(self);
    }

    /// Disables the card, which empties it; the flags stay. A disabled card stays as it is. Never refused.
    pub fn disable(&mut self) {
        thurafeqa_card_disable(self);
    }

    /// Writes a sample, of which the low bits of its length are kept. Refused: `Disabled`, then `TransmitFull`.
    pub fn write(&mut self, sample: u32) -> Result<(), Refusal> {
        done(thurafeqa_card_write(self, sample))
    }

    /// Reads the oldest unread sample. Refused: `Disabled`, then `ReceiveEmpty`.
    pub fn read(&mut self) -> Result<u32, Refusal> {
        told(thurafeqa_card_read(self))
    }

    /// One edge, with the level at SDI. Refused: `Disabled`.
    pub fn edge(&mut self, sdi: bool) -> Result<(), Refusal> {
        done(thurafeqa_card_edge(self, sdi as u32))
    }

    /// Clears the underrun flag. Never refused.
    pub fn clear_underrun(&mut self) {
        thurafeqa_card_clear_underrun(self);
    }

    /// Clears the overflow flag. Never refused.
    pub fn clear_overflow(&mut self) {
        thurafeqa_card_clear_overflow(self);
    }

    /// A look at the card. Never refused.
    pub fn look(&self) -> Look {
        let l = thurafeqa_card_look(self);
        Look {
            sck: l & 1 != 0,
            lrck: l & 2 != 0,
            sdo: if l & 8 != 0 { Some(l & 4 != 0) } else { None },
            underrun: l & 16 != 0,
            overflow: l & 32 != 0,
            right_next: l & 64 != 0,
            waiting: l >> 8 & 15,
            unread: l >> 12 & 15,
            protocol: match l >> 16 & 3 {
                0 => Protocol::I2s,
                1 => Protocol::LeftJustified,
                2 => Protocol::RightJustified,
                _ => Protocol::PcmDsp,
            },
            bits: l >> 18 & 63,
            frame: l >> 24 & 127,
        }
    }

    /// The words to save, with [`FORMAT`].
    pub fn words(&self) -> &[u32; 40] {
        &self.0
    }

    /// A card from saved words. Any words are a card.
    pub fn from_words(words: [u32; 40]) -> Self {
        Card(words)
    }
}
