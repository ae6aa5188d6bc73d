//! A proved model of the dsPIC33/PIC24 SPI module, of a board of up to four ([`Board`]), of TI's SPI module without its FIFO
//! ([`Ti`]) and of an audio card ([`card`]).
//!
//! A host that sends a word and reads what came back with it; its output is joined to its input:
//!
//! ```
//! use thurafeqa::register::{BUF, CON1, CON1_MSTEN, STAT, STAT_SPIEN};
//! use thurafeqa::{Module, Refusal, Sdo};
//!
//! # fn main() -> Result<(), Refusal> {
//! let mut m = Module::new();
//! m.write(CON1, CON1_MSTEN)?;
//! m.write(STAT, STAT_SPIEN)?;
//! m.write(BUF, 0xA5)?;
//! let edges = m.run(544, |seen| seen.sdo == Sdo::High)?;
//! assert_eq!((edges, m.read(BUF)), (16, Ok(0xA5)));
//! assert_eq!(m.read(BUF), Err(Refusal::ReceiveEmpty)); // never the word before
//! # Ok(())
//! # }
//! ```
//!
//! A module is a value: a clone is a second module in the same state, and [`Module::words`] are what to save. Every call takes any
//! module and any numbers, ends, and never panics. A refused call has changed nothing; [`Refusal`] says why, and each method names
//! the refusals that it gives, in the order in which they are tested.
//!
//! The crate needs nothing but `core` and the library, which its build script finds: libthurafeqa.a in the folder that
//! THURAFEQA_LIB_DIR names, or else that of the bundle that the crate came in, or else what `./library` builds in the repository.
//! `docs/PORTING.md` says how a machine, its clock and a device on the wire meet these calls.

#![cfg_attr(not(test), no_std)]
#![warn(missing_docs)]

#[path = "../../thurafeqa.rs"]
mod spi;

pub use spi::*;

#[path = "../../thurafeqa_card.rs"]
pub mod card;

/// A `match` on a refusal needs a default, also one that names them all. This compiles,
///
/// ```
/// use thurafeqa::{card, Refusal, Refusal::*};
///
/// let module = |refusal: Refusal| match refusal {
///     NoSuchRegister | Disabled | Enabled | TransmitFull | ReceiveEmpty | WrongClock | NoRate | UnreadableLine => 1,
///     DifferentModes | TooManyEdges | Undivided | LateSampling | UnselectedCke | Overflowed | BadContents => 2,
///     BadRecord | TooManyCalls | NoRoom | BadList | NoModule | WrongLength | NoSuchDepth => 3,
///     _ => 4,
/// };
/// let card = |refusal: card::Refusal| match refusal {
///     card::Refusal::Disabled | card::Refusal::Enabled | card::Refusal::TransmitFull => 1,
///     card::Refusal::ReceiveEmpty | card::Refusal::NotNamed => 2,
///     _ => 3,
/// };
/// assert_eq!((module(NoSuchDepth), card(card::Refusal::NotNamed)), (3, 2));
/// ```
///
/// and neither does without its last line:
///
/// ```compile_fail
/// use thurafeqa::{Refusal, Refusal::*};
///
/// let module = |refusal: Refusal| match refusal {
///     NoSuchRegister | Disabled | Enabled | TransmitFull | ReceiveEmpty | WrongClock | NoRate | UnreadableLine => 1,
///     DifferentModes | TooManyEdges | Undivided | LateSampling | UnselectedCke | Overflowed | BadContents => 2,
///     BadRecord | TooManyCalls | NoRoom | BadList | NoModule | WrongLength | NoSuchDepth => 3,
/// };
/// ```
///
/// ```compile_fail
/// use thurafeqa::card;
///
/// let card = |refusal: card::Refusal| match refusal {
///     card::Refusal::Disabled | card::Refusal::Enabled | card::Refusal::TransmitFull => 1,
///     card::Refusal::ReceiveEmpty | card::Refusal::NotNamed => 2,
/// };
/// ```
#[cfg(doctest)]
pub struct MatchesNeedADefault;
