//! A proved model of one dsPIC33/PIC24 SPI module, and of a board of up to four, over the library libthurafeqa.a.
//!
//! The crate in `bindings/rust` is this file and the audio card's. Without cargo take it in by `mod thurafeqa;` or `include!`. It
//! needs nothing but `core`, and Rust 1.82 or later. The program that uses it links the library that `./library` builds for its
//! target: `rustc -L target/lib/x86_64-linux-gnu -l static=thurafeqa ..`, or the same from build.rs.
//!
//! A module is a value: a clone is a second module in the same state, and [`Module::words`] are what to save. Every call
//! takes any module and any numbers, ends, and never panics. A refused call has changed nothing; [`Refusal`] says why, and
//! each method names the refusals that it gives, in the order in which they are tested.

use core::fmt;

/// Register numbers and the bits of the registers.
#[allow(dead_code)] // a program need not name every bit
pub mod register {
    /// Status: enabling, the buffers' state, which event sets the interrupt flag.
    pub const STAT: u32 = 0;
    /// Control: width, clock mode, role, prescalers.
    pub const CON1: u32 = 1;
    /// Control: frames, the buffers' depth.
    pub const CON2: u32 = 2;
    /// The data register.
    pub const BUF: u32 = 3;

    /// Enabled.
    pub const STAT_SPIEN: u16 = 0x8000;
    /// Kept, without effect.
    pub const STAT_SPISIDL: u16 = 0x2000;
    /// Host: how many words wait; client: how many are unread. It shows more than 7 as 7.
    pub const STAT_SPIBEC: u16 = 0x0700;
    /// The shift register is empty.
    pub const STAT_SRMPT: u16 = 0x0080;
    /// A received word was lost. A 0 that is written clears it.
    pub const STAT_SPIROV: u16 = 0x0040;
    /// The receive buffer is empty.
    pub const STAT_SRXMPT: u16 = 0x0020;
    /// Which event sets the interrupt flag.
    pub const STAT_SISEL: u16 = 0x001C;
    /// The transmit buffer is full.
    pub const STAT_SPITBF: u16 = 0x0002;
    /// The receive buffer is full.
    pub const STAT_SPIRBF: u16 = 0x0001;

    /// A host is clocked from its pin.
    pub const CON1_DISSCK: u16 = 0x1000;
    /// SDO is not driven.
    pub const CON1_DISSDO: u16 = 0x0800;
    /// Words of 16 bits, else of 8.
    pub const CON1_MODE16: u16 = 0x0400;
    /// Late sampling. It is not modelled: the module cannot be enabled.
    pub const CON1_SMP: u16 = 0x0200;
    /// SDO changes on the way to idle.
    pub const CON1_CKE: u16 = 0x0100;
    /// A client heeds SS as its select.
    pub const CON1_SSEN: u16 = 0x0080;
    /// The clock idles high.
    pub const CON1_CKP: u16 = 0x0040;
    /// Host, else client.
    pub const CON1_MSTEN: u16 = 0x0020;
    /// Secondary prescaler, 8 - SPRE.
    pub const CON1_SPRE: u16 = 0x001C;
    /// Primary prescaler: 64, 16, 4, 1.
    pub const CON1_PPRE: u16 = 0x0003;

    /// Framed: pulses at SS begin the words.
    pub const CON2_FRMEN: u16 = 0x8000;
    /// Frame client, else frame host.
    pub const CON2_SPIFSD: u16 = 0x4000;
    /// A pulse is high, else low.
    pub const CON2_FRMPOL: u16 = 0x2000;
    /// A pulse comes with the first bit, else before it.
    pub const CON2_FRMDLY: u16 = 0x0002;
    /// Enhanced: buffers of the depth's words, else of one.
    pub const CON2_SPIBEN: u16 = 0x0001;

    /// Where SPIBEC begins.
    pub const STAT_SPIBEC_SHIFT: u32 = 8;
    /// Where SISEL begins.
    pub const STAT_SISEL_SHIFT: u32 = 2;
    /// Where SPRE begins.
    pub const CON1_SPRE_SHIFT: u32 = 2;
    /// Where PPRE begins.
    pub const CON1_PPRE_SHIFT: u32 = 0;
}

/// The version of this file: major, minor and patch numbers. [`version`] tells the library's.
#[allow(dead_code)]
pub const VERSION: (u8, u8, u8) = (7, 0, 2);

/// The format of a module's words. It rises wherever their meaning changes, so save it beside them.
#[allow(dead_code)]
pub const FORMAT: u32 = 4;

/// One module. Equal modules have equal words; two that differ may still behave alike.
#[repr(C)]
#[derive(Clone, Debug, PartialEq, Eq)]
pub struct Module([u16; 96]);

#[repr(C)]
#[derive(Default)]
struct ClockReport {
    rate: f64,
    bittime: f64,
    below: f64,
}

// Each takes any module and any numbers, and ends. What else a caller owes, Rust's references bring along: no null, no
// call on a module while another changes it, and two different modules in a linked run. So all are safe but those that
// take slices apart: each pointer must have as many bytes or modules as the length behind it says, and none of them in
// the module or in the other slice.
unsafe extern "C" {
    safe fn thurafeqa_power_up(m: &mut Module);
    safe fn thurafeqa_power_up_with(m: &mut Module, depth: u32) -> u32;
    safe fn thurafeqa_read(m: &mut Module, register: u32) -> u32;
    safe fn thurafeqa_write(m: &mut Module, register: u32, value: u32) -> u32;
    safe fn thurafeqa_clock_step(m: &mut Module, sck: u32, sdi: u32, ss: u32) -> u32;
    safe fn thurafeqa_tick(m: &mut Module, sdi: u32, ss: u32) -> u32;
    safe fn thurafeqa_pins(m: &mut Module, sck: u32, sdi: u32, ss: u32) -> u32;
    safe fn thurafeqa_word(m: &mut Module, ss: u32, word: u32) -> u32;
    safe fn thurafeqa_next(m: &Module) -> u32;
    safe fn thurafeqa_edges_owed(m: &Module) -> u32;
    safe fn thurafeqa_words_owed(m: &Module) -> u32;
    safe fn thurafeqa_clear(m: &mut Module);
    safe fn thurafeqa_levels(m: &Module) -> u32;
    safe fn thurafeqa_linked(host: &mut Module, client: &mut Module, limit: u32) -> u32;
    safe fn thurafeqa_clock(m: &Module, rate: u32, report: &mut ClockReport) -> u32;
    safe fn thurafeqa_prescalers(rate: u32, wanted: u32) -> u32;
    unsafe fn thurafeqa_play(m: &mut Module, file: *const u8, length: usize) -> u32;
    unsafe fn thurafeqa_save(script: *const u8, length: usize, file: *mut u8, room: usize) -> u32;
    unsafe fn thurafeqa_salvage(file: *const u8, length: usize, salvaged: *mut u8, room: usize) -> u64;
    unsafe fn thurafeqa_board_call(
        modules: *mut Module, count: usize, owed: u32, n: u32, kind: u32, x: u32, y: u32, z: u32,
        report: &mut ClockReport,
    ) -> u64;
    unsafe fn thurafeqa_board_tick_call(
        modules: *mut Module, count: usize, owed: u32, n: u32, sdi: u32, ss: u32,
    ) -> u64;
    unsafe fn thurafeqa_board_linked(
        modules: *mut Module, count: usize, owed: u32, host: u32, client: u32, limit: u32,
    ) -> u64;
    safe fn thurafeqa_board_owed(count: usize, owed: u32) -> u32;
    safe fn thurafeqa_ti_power_up(m: &mut Ti);
    safe fn thurafeqa_ti_enter_reset(m: &mut Ti);
    safe fn thurafeqa_ti_leave_reset(m: &mut Ti);
    safe fn thurafeqa_ti_set_mode(m: &mut Ti, master: u32, talk: u32, polarity: u32, phase: u32) -> u32;
    safe fn thurafeqa_ti_set_length(m: &mut Ti, length: u32) -> u32;
    safe fn thurafeqa_ti_write(m: &mut Ti, value: u32) -> u32;
    safe fn thurafeqa_ti_read(m: &mut Ti) -> u32;
    safe fn thurafeqa_ti_tick(m: &mut Ti, sdi: u32) -> u32;
    safe fn thurafeqa_ti_pins(m: &mut Ti, sck: u32, sdi: u32, select: u32) -> u32;
    safe fn thurafeqa_ti_clear_overrun(m: &mut Ti);
    safe fn thurafeqa_ti_status(m: &Ti) -> u32;
    safe fn thurafeqa_ti_levels(m: &Ti) -> u32;
    safe fn thurafeqa_ti_settings(m: &Ti) -> u32;
    safe fn thurafeqa_ti_rate(spibrr: u32, lspclk: u32, rate: &mut f64);
    safe fn thurafeqa_version() -> u32;
    safe fn thurafeqa_format() -> u32;
}

/// Why a call was refused, under the numbers of documents 01 and 02. A later version may have more: let a `match` on it have a
/// default, which the compiler asks for outside of the crate that this file stands in.
#[derive(Clone, Copy, Debug, PartialEq, Eq)]
#[non_exhaustive]
pub enum Refusal {
    /// The register number is above 3.
    NoSuchRegister = 1,
    /// SPIEN is 0.
    Disabled = 2,
    /// CON1 or CON2 is written while SPIEN is 1.
    Enabled = 3,
    /// BUF is written, and the transmit buffer is full.
    TransmitFull = 5,
    /// BUF is read, and nothing is unread.
    ReceiveEmpty = 6,
    /// A tick where the pin gives the clock, a pin call where the module makes its own, or wrong roles or a framed module in
    /// a linked run.
    WrongClock = 7,
    /// The instruction rate is 0.
    NoRate = 8,
    /// Of scripts. No call here gives it, unless the library is of another version and gives a number unknown to this file.
    UnreadableLine = 9,
    /// Linked modules differ in CKP, CKE or width.
    DifferentModes = 10,
    /// A linked run is asked for more than 544 edges.
    TooManyEdges = 11,
    /// Both prescalers of a host with its own clock are 1:1 where STAT would enable it.
    Undivided = 13,
    /// SMP is set there.
    LateSampling = 14,
    /// A client that is not framed has CKE and no SSEN there.
    UnselectedCke = 15,
    /// BUF is read in enhanced operation, and a received word was lost since the module was enabled. Disable it and enable it
    /// again.
    Overflowed = 16,
    /// A trace's section count, its table of contents or its length is wrong.
    BadContents = 17,
    /// A record of a trace is wrong.
    BadRecord = 18,
    /// A trace would make more than 65,535 calls.
    TooManyCalls = 19,
    /// A saved or salvaged trace does not fit what is lent for it, or a saved one would be longer than 65,535 bytes.
    NoRoom = 20,
    /// A board's list has no module, or more than four.
    BadList = 21,
    /// A board has no module with that number, or the same one is named twice in a linked run.
    NoModule = 22,
    /// A TI module is given a character length of 0 or above 16.
    WrongLength = 24,
    /// Power-up is asked for buffers of another depth than 4, 8 or 16 words.
    NoSuchDepth = 25,
}

#[allow(dead_code)] // a program need not make every call
impl Refusal {
    /// The refusal with this number.
    pub fn from_number(number: u32) -> Option<Refusal> {
        use Refusal::*;
        #[rustfmt::skip]
        let all = [NoSuchRegister, Disabled, Enabled, TransmitFull, ReceiveEmpty, WrongClock, NoRate, UnreadableLine,
            DifferentModes, TooManyEdges, Undivided, LateSampling, UnselectedCke, Overflowed, BadContents, BadRecord,
            TooManyCalls, NoRoom, BadList, NoModule, WrongLength, NoSuchDepth];
        all.iter().copied().find(|r| *r as u32 == number)
    }

    /// The number.
    pub fn number(self) -> u32 {
        self as u32
    }

    /// The refusal in words, without its number: `nothing is unread`. [`Display`](fmt::Display) has both.
    pub fn text(self) -> &'static str {
        match self {
            Refusal::NoSuchRegister => "no such register",
            Refusal::Disabled => "the module is disabled",
            Refusal::Enabled => "the module is enabled",
            Refusal::TransmitFull => "the transmit buffer is full",
            Refusal::ReceiveEmpty => "nothing is unread",
            Refusal::WrongClock => "the module is clocked in another way, or is no end for a linked run",
            Refusal::NoRate => "the instruction rate is 0",
            Refusal::UnreadableLine => "the line cannot be read",
            Refusal::DifferentModes => "the linked modules differ in clock mode or width",
            Refusal::TooManyEdges => "more than 544 edges are asked for",
            Refusal::Undivided => "both prescalers are 1:1",
            Refusal::LateSampling => "late sampling is not modelled",
            Refusal::UnselectedCke => "a client with CKE needs SSEN",
            Refusal::Overflowed => "received words were lost in enhanced operation",
            Refusal::BadContents => "the trace's table of contents or length is wrong",
            Refusal::BadRecord => "a record of the trace is wrong",
            Refusal::TooManyCalls => "the trace would make more than 65,535 calls",
            Refusal::NoRoom => "the trace does not fit",
            Refusal::BadList => "a board has one to four modules",
            Refusal::NoModule => "the board has no such module, or it is named twice",
            Refusal::WrongLength => "a character has 1 to 16 bits",
            Refusal::NoSuchDepth => "buffers hold 4, 8 or 16 words",
        }
    }
}

impl fmt::Display for Refusal {
    fn fmt(&self, f: &mut fmt::Formatter<'_>) -> fmt::Result {
        write!(f, "refusal {}: {}", self.number(), self.text())
    }
}

impl core::error::Error for Refusal {}

/// The SDO pin.
#[derive(Clone, Copy, Debug, PartialEq, Eq)]
pub enum Sdo {
    /// It is driven low.
    Low,
    /// It is driven high.
    High,
    /// It is not driven.
    Undriven,
}

/// The SS pin, as far as the module drives it: only an enabled frame host does.
#[derive(Clone, Copy, Debug, PartialEq, Eq)]
pub enum Ss {
    /// It is driven low.
    Low,
    /// It is driven high.
    High,
    /// It is not driven.
    Undriven,
}

/// What a word at a time tells.
#[derive(Clone, Copy, Debug, PartialEq, Eq)]
pub struct Word {
    /// Whether anything was done. It is not where a host's own clock stands still, unframed and with nothing to send.
    pub done: bool,
    /// The levels that SDO has, or would have if it were driven, at the edges that sample: the first is the highest bit.
    pub levels: u16,
    /// How many levels there are: 0 where nothing was clocked.
    pub count: u8,
}

/// What a clock step tells, of every module alike: done or no edge, and what is seen after it.
#[derive(Clone, Copy, Debug, PartialEq, Eq)]
pub struct Step {
    /// Whether the step was done. It is not where a host's own clock stands still, unframed and with nothing to send.
    pub done: bool,
    /// The interrupt flag.
    pub interrupt: bool,
    /// The clock level, last made here or seen at the pin.
    pub sck: bool,
    /// The SDO pin.
    pub sdo: Sdo,
    /// The SS pin.
    pub ss: Ss,
}

/// What a clock report says. With the instruction rate in hertz, rates are in hertz and the bit time is in seconds.
#[derive(Clone, Copy, Debug, PartialEq)]
pub enum Clock {
    /// The module is disabled.
    None,
    /// A host with its own clock. A bit is two ticks.
    Internal {
        /// The clock's rate.
        rate: f64,
        /// The time of one bit.
        bit_time: f64,
    },
    /// A module clocked from its pin, whose clock must stay below this rate.
    External {
        /// That rate.
        below: f64,
    },
}

// What the library's numbers mean.
fn value(answer: u32) -> Result<u16, Refusal> {
    match answer >> 16 {
        0 => Ok(answer as u16),
        number => Err(Refusal::from_number(number).unwrap_or(Refusal::UnreadableLine)),
    }
}

fn done(answer: u32) -> Result<(), Refusal> {
    value(answer).map(|_| ())
}

fn sdo(levels: u32) -> Sdo {
    match (levels & 8 != 0, levels & 4 != 0) {
        (false, _) => Sdo::Undriven,
        (true, false) => Sdo::Low,
        (true, true) => Sdo::High,
    }
}

fn ss(levels: u32) -> Ss {
    match (levels & 32 != 0, levels & 16 != 0) {
        (false, _) => Ss::Undriven,
        (true, false) => Ss::Low,
        (true, true) => Ss::High,
    }
}

fn step(levels: u16) -> Step {
    let levels = u32::from(levels);
    Step {
        done: levels & 64 == 0,
        interrupt: levels & 1 != 0,
        sck: levels & 2 != 0,
        sdo: sdo(levels),
        ss: ss(levels),
    }
}

fn worded(answer: u32) -> Result<Word, Refusal> {
    value(answer & 0xFF_0000)?;
    Ok(Word { done: answer >> 29 & 1 == 0, levels: answer as u16, count: (answer >> 24 & 31) as u8 })
}

fn clock(answer: u32, report: ClockReport) -> Result<Clock, Refusal> {
    Ok(match value(answer)? {
        1 => Clock::Internal { rate: report.rate, bit_time: report.bittime },
        2 => Clock::External { below: report.below },
        _ => Clock::None,
    })
}

/// The version of the library: major, minor and patch numbers. Its major number must be that of [`VERSION`], and its minor
/// number not lower.
#[allow(dead_code)]
pub fn version() -> (u8, u8, u8) {
    let v = thurafeqa_version();
    ((v >> 16) as u8, (v >> 8) as u8, v as u8)
}

/// The prescalers, as bits of CON1, with which a host at the instruction rate `rate` has the highest clock rate that does not
/// pass `wanted`; `None` if even 512:1 passes it. Never both at 1:1, which cannot be enabled; of two settings that divide alike
/// the one with the smaller PPRE.
#[allow(dead_code)]
pub fn prescalers(rate: u32, wanted: u32) -> Option<u16> {
    let bits = thurafeqa_prescalers(rate, wanted);
    (bits != 32).then_some(bits as u16)
}

/// The number of the format that the library reads and writes. Words that were saved with another must not be restored.
#[allow(dead_code)]
pub fn format() -> u32 {
    thurafeqa_format()
}

/// Saves a script session as a trace file of one section, which [`Module::play`] plays to the module that the script ends in:
/// how long is the file? Of a script the first 65,535 bytes are taken. The file is written from the first lent byte on, and
/// the bytes behind it keep their values. A line that the module would refuse is kept; left out are lines that cannot be read
/// and lines that name register 4 or above. If it is refused, all that is lent is as it was.
///
/// Refused: `NoRoom`.
#[allow(dead_code)]
pub fn save(script: &[u8], file: &mut [u8]) -> Result<usize, Refusal> {
    // SAFETY: the pointers and lengths are those of slices, and no other overlaps one that can be changed
    let answer = unsafe { thurafeqa_save(script.as_ptr(), script.len(), file.as_mut_ptr(), file.len()) };
    value(answer).map(usize::from)
}

/// What was salvaged of a cut trace.
#[allow(dead_code)]
#[derive(Clone, Copy, Debug, PartialEq, Eq)]
pub struct Salvaged {
    /// How long is the new file?
    pub length: usize,
    /// How many sections were cut?
    pub cut: u16,
    /// How many bytes were lost, the old lengths' sum less the new ones'?
    pub lost: u16,
}

/// Salvages a trace that broke off: from a file whose table of contents is whole and gapless, a new one that [`Module::play`] refuses
/// neither with `BadContents` nor with `BadRecord`. Each section is cut before its first record that is wrong or runs past the
/// section's or the file's end; sections keep their numbers, and what stands behind the last one is left off. The new file is
/// written from the first lent byte on, and the bytes behind it keep their values. If it is refused, all that is lent is as it was.
///
/// Refused: `BadContents`, `NoRoom`.
#[allow(dead_code)]
pub fn salvage(file: &[u8], salvaged: &mut [u8]) -> Result<Salvaged, Refusal> {
    // SAFETY: the pointers and lengths are those of slices, and no other overlaps one that can be changed
    let told = unsafe { thurafeqa_salvage(file.as_ptr(), file.len(), salvaged.as_mut_ptr(), salvaged.len()) };
    let length = value(told as u32).map(usize::from)?;
    Ok(Salvaged { length, cut: (told >> 48) as u16, lost: (told >> 32) as u16 })
}

#[allow(dead_code)] // a program need not make every call
impl Module {
    /// A module at power-up: disabled, every register 0. Never refused.
    pub fn new() -> Module {
        let mut m = Module([0; 96]);
        thurafeqa_power_up(&mut m);
        m
    }

    /// Power-up of a part whose buffers hold 4, 8 or 16 words in enhanced operation. [`Module::new`] has 8, and no other call changes
    /// the depth.
    ///
    /// Refused: `NoSuchDepth`, and the module is as it was.
    pub fn power_up_with(&mut self, depth: u32) -> Result<(), Refusal> {
        value(thurafeqa_power_up_with(self, depth)).map(|_| ())
    }

    /// The module's words, to save beside [`FORMAT`].
    pub fn words(&self) -> [u16; 96] {
        self.0
    }

    /// A module from saved words. Any words are safe; words of another format stand for another module.
    pub fn from_words(words: [u16; 96]) -> Module {
        Module(words)
    }

    /// Reads a register. Reading BUF takes the oldest unread word. A received word that finds the receive buffer full is lost.
    /// In enhanced operation that ends reception until the module is disabled: BUF cannot be read, and every word received is
    /// lost.
    ///
    /// Refused: `NoSuchRegister`; for BUF `Disabled`, `Overflowed`, `ReceiveEmpty`.
    pub fn read(&mut self, register: u32) -> Result<u16, Refusal> {
        value(thurafeqa_read(self, register))
    }

    /// Writes a register. Writing BUF accepts a word for sending.
    ///
    /// Refused: `NoSuchRegister`; for BUF `Disabled`, `TransmitFull`; for CON1 and CON2 `Enabled`; for STAT
    /// `Undivided`, `LateSampling`, `UnselectedCke`.
    pub fn write(&mut self, register: u32, value: u16) -> Result<(), Refusal> {
        done(thurafeqa_write(self, register, value.into()))
    }

    /// One step of the clock, for whatever module it is, with the levels at its pins: what is seen after it? A host with its own
    /// clock makes its next edge: it does not look at SCK, and at SS as a frame client alone. An unframed one with nothing to
    /// send makes none. Any other module sees the levels: an SCK level unlike the last is an edge, and SS counts for a client with
    /// SSEN, as its select, and for a frame client.
    ///
    /// Refused: `Disabled`.
    pub fn clock_step(&mut self, sck: bool, sdi: bool, ss: bool) -> Result<Step, Refusal> {
        value(thurafeqa_clock_step(self, sck.into(), sdi.into(), ss.into())).map(step)
    }

    /// One tick of a host with its own clock, with the levels at SDI and SS: did it make an edge? It makes none with nothing to
    /// send, unless it is framed. SS counts for a frame client alone.
    ///
    /// Refused: `Disabled`, `WrongClock`.
    pub fn tick(&mut self, sdi: bool, ss: bool) -> Result<bool, Refusal> {
        Ok(value(thurafeqa_tick(self, sdi.into(), ss.into()))? != 0)
    }

    /// Shows levels to the pins of a module without a clock of its own. An SCK level unlike the last is an edge. SS counts for
    /// a client with SSEN, as its select, and for a frame client.
    ///
    /// Refused: `Disabled`, `WrongClock`.
    pub fn pins(&mut self, sck: bool, sdi: bool, ss: bool) -> Result<(), Refusal> {
        done(thurafeqa_pins(self, sck.into(), sdi.into(), ss.into()))
    }

    /// A word at a time: all clock steps that the word under way still takes, or else the next word. At the edges that sample, SDI has the low
    /// bits of `word`, as many as are still to come. A module that is clocked from its pin sees SCK go to its other level for each
    /// edge; one that is not selected, or has nothing to send and sends no zeros, sees its levels once. A framed module makes one edge,
    /// with the lowest bit.
    ///
    /// Refused: `Disabled`.
    pub fn word(&mut self, ss: bool, word: u16) -> Result<Word, Refusal> {
        worded(thurafeqa_word(self, ss.into(), word.into()))
    }

    /// The word that would go out next: the one under way, the one loaded, or the first that waits in a client with SSEN. Never
    /// refused.
    pub fn next_word(&self) -> Option<u16> {
        let next = thurafeqa_next(self);
        (next & 0x1_0000 != 0).then_some(next as u16)
    }

    /// The edges that an unframed host with its own clock still makes until it is idle, so that a scheduler can skip so many half
    /// bit times: 0 where it is idle, and of any other module. Never refused.
    pub fn edges_owed(&self) -> u32 {
        thurafeqa_edges_owed(self)
    }

    /// The words that were accepted and are not finished, as a board counts them. Never refused.
    pub fn words_owed(&self) -> u32 {
        thurafeqa_words_owed(self)
    }

    /// Clocks a host with its own clock until it has no more to send, or for `most` edges: how many were made? `wire` is what
    /// stands at the other end. It is asked once before the first edge and once after each, so that it sees every level that the
    /// host shows, also the last; [`Step::done`] tells whether an edge came before. It answers the level at SDI for the edge that
    /// comes next; the last answer is not used.
    ///
    /// 544 edges end with an idle host if it is not framed; a framed one is never idle and makes them all. More than 65,535 count
    /// as 65,535. SS is low, which matters to a frame client alone: give it its pulses by [`Module::clock_step`].
    ///
    /// Refused: `Disabled`, `WrongClock`, and the wire is not asked.
    pub fn run(&mut self, most: u32, mut wire: impl FnMut(Step) -> bool) -> Result<u16, Refusal> {
        self.clone().tick(false, false)?; // is it such a host?
        let mut sdi = wire(Step { done: false, ..step(thurafeqa_levels(self) as u16) });
        let mut edges = 0;
        while u32::from(edges) < most && edges < u16::MAX {
            match self.clock_step(false, sdi, false) {
                Ok(seen) if seen.done => sdi = wire(seen),
                _ => break,
            }
            edges += 1;
        }
        Ok(edges)
    }

    /// Clears the interrupt flag. Never refused.
    pub fn clear(&mut self) {
        thurafeqa_clear(self)
    }

    /// The interrupt flag. Never refused.
    pub fn interrupt(&self) -> bool {
        thurafeqa_levels(self) & 1 != 0
    }

    /// The clock level, last made here or seen at the pin. Never refused.
    pub fn sck(&self) -> bool {
        thurafeqa_levels(self) & 2 != 0
    }

    /// The SDO pin. Never refused.
    pub fn sdo(&self) -> Sdo {
        sdo(thurafeqa_levels(self))
    }

    /// The SS pin. Never refused.
    pub fn ss(&self) -> Ss {
        ss(thurafeqa_levels(self))
    }

    /// Runs this host and a client on one wire, both unframed, for at most `limit` edges: how many did the host make?
    ///
    /// Refused: `TooManyEdges`, `Disabled`, `WrongClock`, `DifferentModes`.
    pub fn linked(&mut self, client: &mut Module, limit: u32) -> Result<u16, Refusal> {
        value(thurafeqa_linked(self, client, limit))
    }

    /// Plays a trace file: this module is powered up, then section 0 is played on it. How many calls were made, refused ones
    /// and each repeat of a section included? A call in it that is refused changes nothing, and play goes on. If the trace
    /// itself is refused, this module is as it was. It needs about 35 kB of stack.
    ///
    /// Refused: `BadContents`, `BadRecord`, `TooManyCalls`.
    pub fn play(&mut self, file: &[u8]) -> Result<u16, Refusal> {
        // SAFETY: the pointer and the length are a slice's, which no module that can be changed overlaps
        value(unsafe { thurafeqa_play(self, file.as_ptr(), file.len()) })
    }

    /// The clock report for an instruction rate.
    ///
    /// Refused: `NoRate`.
    pub fn clock(&self, rate: u32) -> Result<Clock, Refusal> {
        let mut report = ClockReport::default();
        let answer = thurafeqa_clock(self, rate, &mut report);
        clock(answer, report)
    }
}

impl Default for Module {
    fn default() -> Module {
        Module::new()
    }
}

/// A board: one to four modules in a list that is lent to it, SPI1 first, with the number 0. Each call names a module by its
/// number, and is answered as that call on the module alone; no other module changes.
///
/// Every call is refused with `BadList` if the list has no module or more than four, then with `NoModule` if there is no module
/// with that number. Both come before the refusals that the call has on a module alone, and change nothing.
///
/// The board keeps how many words its modules have accepted and not yet finished, see [`Board::owed`].
///
/// Traces are played and scripts saved on single modules alone.
#[allow(dead_code)]
#[derive(Debug)]
pub struct Board<'a> {
    modules: &'a mut [Module],
    owed: u16,
}

// The kinds of calls on a board; 3 is a tick, which has a call of its own, and 6 and 7 are looks.
const POWER_UP: u32 = 0;
const READ: u32 = 1;
const WRITE: u32 = 2;
const PINS: u32 = 4;
const CLEAR: u32 = 5;
const CLOCK_STEP: u32 = 8;
const POWER_UP_WITH: u32 = 9;
const WORD: u32 = 10;

#[allow(dead_code)] // a program need not make every call
impl<'a> Board<'a> {
    /// A board of these modules, all of which it powers up.
    ///
    /// Refused: `BadList`, and the modules are as they were.
    pub fn new(modules: &'a mut [Module]) -> Result<Board<'a>, Refusal> {
        let mut board = Board::with(modules, 0);
        board.power_up(0)?;
        for n in 1..board.modules.len() as u32 {
            board.power_up(n)?;
        }
        Ok(board)
    }

    /// A board of these modules as they are, which owe so many words: what [`Board::owed`] told of the same modules, as where a
    /// board is restored. With another number the modules are what they are, and the number only moves with them, within 0 and
    /// 65,535. A list of the wrong length is told by each call.
    pub fn with(modules: &'a mut [Module], owed: u16) -> Board<'a> {
        Board { modules, owed }
    }

    /// How many words do the modules still owe: accepted and not yet finished, in their shift registers and waiting? A filler is
    /// none. It is what the board keeps: no module is looked at.
    ///
    /// Refused: `BadList`.
    pub fn owed(&self) -> Result<u16, Refusal> {
        value(thurafeqa_board_owed(self.modules.len(), self.owed.into()))
    }

    /// The modules.
    pub fn modules(&self) -> &[Module] {
        self.modules
    }

    // The words owed are in the upper half, the answer in the lower.
    fn keep(&mut self, both: u64) -> u32 {
        self.owed = (both >> 32) as u16;
        both as u32
    }

    fn ask(&mut self, n: u32, kind: u32, x: u32, y: u32, z: u32) -> u32 {
        let (list, count) = (self.modules.as_mut_ptr(), self.modules.len());
        let mut report = ClockReport::default();
        // SAFETY: the pointer and the length are a slice's, which can be changed
        let both = unsafe { thurafeqa_board_call(list, count, self.owed.into(), n, kind, x, y, z, &mut report) };
        self.keep(both)
    }

    fn call(&mut self, n: u32, kind: u32, x: u32, y: u32, z: u32) -> Result<u16, Refusal> {
        value(self.ask(n, kind, x, y, z))
    }

    // One module, to look at. Its call on a board takes modules that can be changed, so what that call tests first is tested here.
    fn at(&self, n: u32) -> Result<&Module, Refusal> {
        self.owed()?;
        self.modules.get(n as usize).ok_or(Refusal::NoModule)
    }

    /// Power-up of one module: disabled, every register 0.
    pub fn power_up(&mut self, n: u32) -> Result<(), Refusal> {
        self.call(n, POWER_UP, 0, 0, 0).map(|_| ())
    }

    /// See [`Module::power_up_with`].
    pub fn power_up_with(&mut self, n: u32, depth: u32) -> Result<(), Refusal> {
        self.call(n, POWER_UP_WITH, depth, 0, 0).map(|_| ())
    }

    /// See [`Module::read`].
    pub fn read(&mut self, n: u32, register: u32) -> Result<u16, Refusal> {
        self.call(n, READ, register, 0, 0)
    }

    /// See [`Module::write`].
    pub fn write(&mut self, n: u32, register: u32, value: u16) -> Result<(), Refusal> {
        self.call(n, WRITE, register, value.into(), 0).map(|_| ())
    }

    /// See [`Module::clock_step`].
    pub fn clock_step(&mut self, n: u32, sck: bool, sdi: bool, ss: bool) -> Result<Step, Refusal> {
        self.call(n, CLOCK_STEP, sck.into(), sdi.into(), ss.into()).map(step)
    }

    /// See [`Module::tick`].
    pub fn tick(&mut self, n: u32, sdi: bool, ss: bool) -> Result<bool, Refusal> {
        let (list, count) = (self.modules.as_mut_ptr(), self.modules.len());
        // SAFETY: the pointer and the length are a slice's, which can be changed
        let both = unsafe { thurafeqa_board_tick_call(list, count, self.owed.into(), n, sdi.into(), ss.into()) };
        Ok(value(self.keep(both))? != 0)
    }

    /// See [`Module::pins`].
    pub fn pins(&mut self, n: u32, sck: bool, sdi: bool, ss: bool) -> Result<(), Refusal> {
        self.call(n, PINS, sck.into(), sdi.into(), ss.into()).map(|_| ())
    }

    /// See [`Module::word`].
    pub fn word(&mut self, n: u32, ss: bool, word: u16) -> Result<Word, Refusal> {
        worded(self.ask(n, WORD, ss.into(), word.into(), 0))
    }

    /// Clears the interrupt flag of one module.
    pub fn clear(&mut self, n: u32) -> Result<(), Refusal> {
        self.call(n, CLEAR, 0, 0, 0).map(|_| ())
    }

    /// The interrupt flag of one module.
    pub fn interrupt(&self, n: u32) -> Result<bool, Refusal> {
        self.at(n).map(Module::interrupt)
    }

    /// See [`Module::sck`].
    pub fn sck(&self, n: u32) -> Result<bool, Refusal> {
        self.at(n).map(Module::sck)
    }

    /// The SDO pin of one module.
    pub fn sdo(&self, n: u32) -> Result<Sdo, Refusal> {
        self.at(n).map(Module::sdo)
    }

    /// The SS pin of one module.
    pub fn ss(&self, n: u32) -> Result<Ss, Refusal> {
        self.at(n).map(Module::ss)
    }

    /// See [`Module::clock`].
    pub fn clock(&self, n: u32, rate: u32) -> Result<Clock, Refusal> {
        self.at(n)?.clock(rate)
    }

    /// A linked run of two modules of the board, which changes those two; see [`Module::linked`]. `NoModule` also if both are
    /// the same.
    pub fn linked(&mut self, host: u32, client: u32, limit: u32) -> Result<u16, Refusal> {
        let (list, count) = (self.modules.as_mut_ptr(), self.modules.len());
        // SAFETY: the pointer and the length are a slice's, which can be changed
        let both = unsafe { thurafeqa_board_linked(list, count, self.owed.into(), host, client, limit) };
        value(self.keep(both))
    }
}

/// A TI module: source document 002's, without its FIFO. Master or slave, with characters of 1 to 16 bits: one that waits to be
/// sent, one in the shift register, one unread. It is a value like [`Module`]. `Disabled` says of it that it is in software
/// reset, `Enabled` that it is not.
#[repr(C)]
#[derive(Clone, Debug, PartialEq, Eq)]
#[allow(dead_code)]
pub struct Ti([u16; 20]);

/// What the mode call sets.
#[derive(Clone, Copy, Debug, Default, PartialEq, Eq)]
#[allow(dead_code)]
pub struct TiMode {
    /// MASTER/SLAVE: it makes its own clock.
    pub master: bool,
    /// TALK: it drives its output.
    pub talk: bool,
    /// CLOCK POLARITY: the clock rests high.
    pub polarity: bool,
    /// CLOCK PHASE: the first bit stands there before the first edge.
    pub phase: bool,
}

#[allow(dead_code)] // a program need not make every call
impl Ti {
    /// A module at power-up: in software reset, a slave, talk off, length 1. Never refused.
    pub fn new() -> Ti {
        let mut m = Ti([0; 20]);
        thurafeqa_ti_power_up(&mut m);
        m
    }

    /// The module's words, to save beside [`FORMAT`].
    pub fn words(&self) -> [u16; 20] {
        self.0
    }

    /// A module from saved words. Any words are safe; words of another format stand for another module.
    pub fn from_words(words: [u16; 20]) -> Ti {
        Ti(words)
    }

    /// Enters software reset, which empties both buffers and the shift register and clears the flags. Never refused.
    pub fn enter_reset(&mut self) {
        thurafeqa_ti_enter_reset(self)
    }

    /// Leaves software reset. Never refused.
    pub fn leave_reset(&mut self) {
        thurafeqa_ti_leave_reset(self)
    }

    /// Sets the mode. Out of reset talk alone may change.
    ///
    /// Refused: `Enabled`.
    pub fn set_mode(&mut self, mode: TiMode) -> Result<(), Refusal> {
        let TiMode { master, talk, polarity, phase } = mode;
        done(thurafeqa_ti_set_mode(self, master.into(), talk.into(), polarity.into(), phase.into()))
    }

    /// The mode.
    pub fn mode(&self) -> TiMode {
        let s = thurafeqa_ti_settings(self);
        TiMode { master: s & 256 != 0, talk: s & 128 != 0, polarity: s & 64 != 0, phase: s & 32 != 0 }
    }

    /// Sets the bits of a character, 1 to 16.
    ///
    /// Refused: `Enabled`, also for the present length; `WrongLength`.
    pub fn set_length(&mut self, length: u32) -> Result<(), Refusal> {
        done(thurafeqa_ti_set_length(self, length))
    }

    /// The bits of a character.
    pub fn length(&self) -> u32 {
        thurafeqa_ti_settings(self) & 31
    }

    /// Is it in software reset?
    pub fn in_reset(&self) -> bool {
        thurafeqa_ti_settings(self) & 512 != 0
    }

    /// Writes a character, left-justified: the top bits of the value.
    ///
    /// Refused: `Disabled`, `TransmitFull`.
    pub fn write(&mut self, value: u16) -> Result<(), Refusal> {
        done(thurafeqa_ti_write(self, value.into()))
    }

    /// Reads the unread character, right-justified, and takes the interrupt flag down.
    ///
    /// Refused: `Disabled`, `ReceiveEmpty`.
    pub fn read(&mut self) -> Result<u16, Refusal> {
        value(thurafeqa_ti_read(self))
    }

    /// One tick of a master, with the level at its input: did it make an edge? It makes none with nothing to send.
    ///
    /// Refused: `Disabled`, `WrongClock`.
    pub fn tick(&mut self, sdi: bool) -> Result<bool, Refusal> {
        Ok(value(thurafeqa_ti_tick(self, sdi.into()))? != 0)
    }

    /// Shows the levels of the clock, the input and SPISTE to a slave. Select that is high pauses a character.
    ///
    /// Refused: `Disabled`, `WrongClock`.
    pub fn pins(&mut self, sck: bool, sdi: bool, select: bool) -> Result<(), Refusal> {
        done(thurafeqa_ti_pins(self, sck.into(), sdi.into(), select.into()))
    }

    /// Clears the overrun flag. Never refused.
    pub fn clear_overrun(&mut self) {
        thurafeqa_ti_clear_overrun(self)
    }

    /// The overrun flag: a character was finished while one was unread, which is lost.
    pub fn overrun(&self) -> bool {
        thurafeqa_ti_status(self) & 128 != 0
    }

    /// The interrupt flag: a character is ready to be read.
    pub fn interrupt(&self) -> bool {
        thurafeqa_ti_status(self) & 64 != 0
    }

    /// A character waits to be sent.
    pub fn transmit_full(&self) -> bool {
        thurafeqa_ti_status(self) & 32 != 0
    }

    /// The clock level, last made here or seen at the pin.
    pub fn sck(&self) -> bool {
        thurafeqa_ti_levels(self) & 2 != 0
    }

    /// The output pin.
    pub fn sdo(&self) -> Sdo {
        sdo(thurafeqa_ti_levels(self))
    }

    /// The bit rate of a master: LSPCLK / (SPIBRR + 1), or LSPCLK / 4 for SPIBRR 0 to 2. Never refused.
    pub fn rate(spibrr: u32, lspclk: u32) -> f64 {
        let mut rate = 0.0;
        thurafeqa_ti_rate(spibrr, lspclk, &mut rate);
        rate
    }
}

impl Default for Ti {
    fn default() -> Ti {
        Ti::new()
    }
}

#[cfg(test)]
mod thurafeqa_tests {
    use super::*;

    #[test]
    fn memory_is_laid_out_as_in_c() {
        assert_eq!([size_of::<Module>(), align_of::<Module>()], [192, 2]);
        assert_eq!([size_of::<ClockReport>(), align_of::<ClockReport>()], [24, 8]);
        assert_eq!(size_of::<[Module; 4]>(), 4 * 192);
        assert_eq!([size_of::<Ti>(), align_of::<Ti>()], [40, 2]);
    }

    #[test]
    fn numbers_mean_what_the_header_says() {
        assert_eq!((1..25).filter_map(Refusal::from_number).map(|r| r as u32).sum::<u32>(), 253 - 4 - 12 + 24);
        assert_eq!([0, 4, 12, 23].map(Refusal::from_number), [None; 4]);
        assert_eq!((value(0), value(0xFFFF), value(0x6_0000)), (Ok(0), Ok(0xFFFF), Err(Refusal::ReceiveEmpty)));
        assert_eq!(value(0x10_0000), Err(Refusal::Overflowed));
        assert_eq!([0x13_0000, 0x14_0000].map(value), [Err(Refusal::TooManyCalls), Err(Refusal::NoRoom)]);
        assert_eq!([0x15_0000, 0x16_0000].map(value), [Err(Refusal::BadList), Err(Refusal::NoModule)]);
        assert_eq!([3, 7, 8, 11, 12].map(sdo), [Sdo::Undriven, Sdo::Undriven, Sdo::Low, Sdo::Low, Sdo::High]);
        assert_eq!([15, 31, 32, 47, 48].map(ss), [Ss::Undriven, Ss::Undriven, Ss::Low, Ss::Low, Ss::High]);
        let seen = Step { done: true, interrupt: true, sck: false, sdo: Sdo::High, ss: Ss::Low };
        assert_eq!([value(45).map(step), value(109).map(step)], [Ok(seen), Ok(Step { done: false, ..seen })]);
        let told = Word { done: true, levels: 0x12A5, count: 16 };
        assert_eq!([0x1000_12A5, 0x2000_0000].map(worded), [Ok(told), Ok(Word { done: false, levels: 0, count: 0 })]);
        assert_eq!([0x2_0000, 0x15_0000].map(worded), [Err(Refusal::Disabled), Err(Refusal::BadList)]);
        let said = |answer| clock(answer, ClockReport { rate: 5e6, bittime: 2e-7, below: 4e7 });
        assert_eq!((said(8 << 16), said(0)), (Err(Refusal::NoRate), Ok(Clock::None)));
        assert_eq!(said(1), Ok(Clock::Internal { rate: 5e6, bit_time: 2e-7 }));
        assert_eq!(said(2), Ok(Clock::External { below: 4e7 }));
    }

    #[test]
    fn refusals_speak() {
        assert_eq!(Refusal::ReceiveEmpty.to_string(), "refusal 6: nothing is unread");
    }
}
