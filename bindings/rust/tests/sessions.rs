//! Sessions with the compiled library, by the crate as a program sees it.

use thurafeqa::card::{self, Card, Protocol};
use thurafeqa::register::*;
use thurafeqa::{prescalers, salvage, save, Board, Clock, Module, Refusal, Salvaged, Sdo, Ss, Step, Ti, TiMode, Word};

fn enabled(con1: u16) -> Module {
    let mut m = Module::new();
    m.write(CON1, con1).unwrap();
    m.write(STAT, STAT_SPIEN).unwrap();
    m
}

/// A wire that brings a word of 8 bits, a bit in two edges.
fn brings(word: u8) -> impl FnMut(Step) -> bool {
    let mut edges = 0;
    move |_| {
        let bit = word >> (7 - edges / 2 % 8) & 1 == 1;
        edges += 1;
        bit
    }
}

#[test]
fn the_file_and_the_library_fit() {
    let (ours, library) = (thurafeqa::VERSION, thurafeqa::version());
    assert!(ours.0 == library.0 && ours.1 <= library.1, "{ours:?}, the library is {library:?}");
    assert_eq!(thurafeqa::FORMAT, thurafeqa::format());
    let [major, minor, patch] = [ours.0, ours.1, ours.2];
    assert_eq!(env!("CARGO_PKG_VERSION"), format!("{major}.{minor}.{patch}"));
}

#[test]
fn prescalers_for_a_wanted_rate() {
    assert_eq!([10_000_000, 20_000_000, 78_125, 78_124].map(|rate| prescalers(40_000_000, rate)), [Some(30), Some(27), Some(0), None]);
    let m = enabled(CON1_MSTEN | prescalers(40_000_000, 5_000_000).unwrap());
    assert_eq!(m.clock(40_000_000), Ok(Clock::Internal { rate: 5e6, bit_time: 2e-7 }));
}

#[test]
fn a_word_at_a_time_is_its_clock_steps() {
    let mut m = enabled(CON1_MSTEN);
    assert_eq!((m.next_word(), m.word(false, 0x3C)), (None, Ok(Word { done: false, levels: 0, count: 0 })));
    m.write(BUF, 0xA5).unwrap();
    m.write(BUF, 0x40).unwrap();
    for _ in 0..3 {
        m.clock_step(false, true, false).unwrap();
    }
    assert_eq!((m.next_word(), m.edges_owed(), m.words_owed()), (Some(0xA5), 29, 2));
    assert_eq!(m.word(false, 0xFF95), Ok(Word { done: true, levels: 0x25, count: 7 }));
    assert_eq!((m.interrupt(), m.next_word(), m.read(BUF)), (true, Some(0x40), Ok(0x95)));
    assert_eq!(m.word(false, 0x3C), Ok(Word { done: true, levels: 0x40, count: 8 }));
    assert_eq!((m.read(BUF), m.next_word()), (Ok(0x3C), None));
    assert_eq!(Module::new().word(false, 0), Err(Refusal::Disabled));
}

#[test]
fn a_word_is_read_once() {
    let mut m = enabled(CON1_MSTEN);
    assert_eq!(m.read(BUF), Err(Refusal::ReceiveEmpty));
    m.write(BUF, 0xA5).unwrap();
    assert_eq!(m.run(544, brings(0x5A)), Ok(16));
    assert_eq!((m.interrupt(), m.read(BUF), m.read(BUF)), (true, Ok(0x5A), Err(Refusal::ReceiveEmpty)));
    m.clear();
    assert!(!m.interrupt());
}

#[test]
fn a_run_is_its_clock_steps() {
    for con1 in [CON1_MSTEN, CON1_MSTEN | CON1_CKE, CON1_MSTEN | CON1_CKP | CON1_MODE16] {
        let mut m = enabled(con1);
        m.write(BUF, 0xA53C).unwrap();
        m.write(BUF, 0x0FF0).unwrap();
        let mut by_hand = m.clone();
        let mut shown = Vec::new();
        let most = 37;
        let edges = m.run(most, |seen| {
            shown.push(seen);
            shown.len() % 3 == 0
        });
        let first = Step {
            done: false,
            interrupt: by_hand.interrupt(),
            sck: by_hand.sck(),
            sdo: by_hand.sdo(),
            ss: by_hand.ss(),
        };
        let mut wanted = vec![first];
        while wanted.len() <= most as usize {
            let seen = by_hand.clock_step(false, wanted.len() % 3 == 0, false).unwrap();
            if !seen.done {
                break;
            }
            wanted.push(seen);
        }
        assert_eq!(edges, Ok(wanted.len() as u16 - 1));
        assert_eq!((m, shown), (by_hand, wanted));
    }
}

#[test]
fn a_run_is_of_hosts_alone() {
    let asked = |mut m: Module| {
        let kept = m.clone();
        let refused = m.run(544, |_| panic!("the wire is asked")).unwrap_err();
        assert_eq!(m, kept);
        refused
    };
    assert_eq!(asked(Module::new()), Refusal::Disabled);
    assert_eq!(asked(enabled(0)), Refusal::WrongClock);
    assert_eq!(asked(enabled(CON1_MSTEN | CON1_DISSCK)), Refusal::WrongClock);
    let mut framed = Module::new();
    framed.write(CON1, CON1_MSTEN).unwrap();
    framed.write(CON2, CON2_FRMEN).unwrap();
    framed.write(STAT, STAT_SPIEN).unwrap();
    assert_eq!(framed.run(u32::MAX, |_| false), Ok(65_535));
    assert_eq!(framed.run(3, |_| false), Ok(3));
    assert_eq!((framed.ss(), enabled(0).ss()), (Ss::High, Ss::Undriven));
    let mut calls = 0;
    assert_eq!(enabled(CON1_MSTEN).run(544, |seen| { calls += 1; seen.done }), Ok(0));
    assert_eq!(calls, 1);
}

#[test]
fn two_modules_change_words() {
    let (mut host, mut client) = (enabled(CON1_MSTEN | CON1_CKE), enabled(CON1_CKE | CON1_SSEN));
    host.write(BUF, 0xA5).unwrap();
    client.write(BUF, 0x3C).unwrap();
    assert_eq!(host.linked(&mut client, 545), Err(Refusal::TooManyEdges));
    assert_eq!(host.linked(&mut client, 544), Ok(16));
    assert_eq!((host.read(BUF), client.read(BUF)), (Ok(0x3C), Ok(0xA5)));
}

#[test]
fn traces_are_played_saved_and_salvaged() {
    let trace = include_bytes!("../../../examples/receipt.trace");
    let mut m = Module::new();
    assert_eq!((m.play(trace), m.read(STAT)), (Ok(31), Ok(0x80A0)));
    assert_eq!(m.play(&trace[..95]), Err(Refusal::BadContents));
    let mut file = [0; 200];
    assert_eq!(salvage(&trace[..95], &mut file), Ok(Salvaged { length: 94, cut: 1, lost: 4 }));
    assert_eq!((m.play(&file[..94]), m.read(STAT)), (Ok(27), Ok(0x8020)));
    assert_eq!(save(b"W 1 0020\nW 0 8000\n", &mut file[..17]), Err(Refusal::NoRoom));
    assert_eq!(save(b"W 1 0020\nW 0 8000\n", &mut file), Ok(18));
    assert_eq!((m.play(&file[..18]), m), (Ok(2), enabled(CON1_MSTEN)));
}

#[test]
fn a_copy_and_saved_words_are_the_module() {
    let mut m = enabled(CON1_MSTEN);
    m.write(BUF, 0xA5).unwrap();
    let copy = Module::from_words(m.words());
    assert_eq!(copy, m);
    m.run(544, |_| true).unwrap();
    assert_ne!(copy, m);
}

/// What a board's looks tell without changing it is what its own call tells, refusals included.
#[test]
fn looks_at_a_board_are_those_at_its_modules() {
    let mut spi: [Module; 5] = std::array::from_fn(|_| Module::new());
    for count in 0..=5 {
        let mut b = Board::with(&mut spi[..count], 0);
        for n in [0, 1, 3, 4, 5, u32::MAX] {
            let refused = b.clear(n).err();
            assert_eq!(refused.is_none(), (1..=4).contains(&count) && n < count as u32);
            let b: &Board = &b;
            assert_eq!(b.interrupt(n).err(), refused);
            assert_eq!(b.sck(n).err(), refused);
            assert_eq!(b.sdo(n).err(), refused);
            assert_eq!(b.ss(n).err(), refused);
            assert_eq!(b.clock(n, 1).err(), refused);
            assert_eq!(b.clock(n, 0).unwrap_err(), refused.unwrap_or(Refusal::NoRate));
        }
    }
}

#[test]
fn a_board_knows_what_it_owes() {
    let mut spi: [Module; 4] = std::array::from_fn(|_| Module::new());
    let mut b = Board::new(&mut spi).unwrap();
    b.write(2, CON1, CON1_MSTEN).unwrap();
    b.write(0, CON1, CON1_SSEN).unwrap();
    b.write(2, STAT, STAT_SPIEN).unwrap();
    b.write(0, STAT, STAT_SPIEN).unwrap();
    b.write(2, BUF, 0xA5).unwrap();
    b.write(0, BUF, 0x3C).unwrap();
    let look = &b;
    assert_eq!((look.owed(), look.sdo(2), look.interrupt(2)), (Ok(2), Ok(Sdo::Low), Ok(false)));
    assert_eq!(look.clock(0, 100), Ok(Clock::External { below: 100.0 }));
    assert_eq!((b.linked(2, 2, 544), b.linked(2, 0, 544)), (Err(Refusal::NoModule), Ok(16)));
    assert_eq!((b.owed(), b.read(2, BUF), b.read(0, BUF)), (Ok(0), Ok(0x3C), Ok(0xA5)));
    assert_eq!((b.interrupt(2), b.modules()[2].interrupt()), (Ok(true), true));
    let look = &b;
    let flags = std::thread::scope(|threads| {
        let asked = [0, 1, 2, 3].map(|n| threads.spawn(move || look.interrupt(n)));
        asked.map(|thread| thread.join().unwrap())
    });
    assert_eq!(flags, [Ok(true), Ok(false), Ok(true), Ok(false)]);
}

#[test]
fn a_board_makes_words_at_a_time() {
    let mut spi: [Module; 4] = std::array::from_fn(|_| Module::new());
    let mut b = Board::new(&mut spi).unwrap();
    b.write(3, CON1, CON1_MSTEN).unwrap();
    b.write(3, STAT, STAT_SPIEN).unwrap();
    b.write(3, BUF, 0xA5).unwrap();
    b.write(3, BUF, 0x40).unwrap();
    b.tick(3, true, false).unwrap();
    let mut alone = b.modules()[3].clone();
    assert_eq!((b.owed(), b.modules()[3].next_word(), b.modules()[3].edges_owed()), (Ok(2), Some(0xA5), 31));
    assert_eq!(b.word(3, false, 0x3C), Ok(Word { done: true, levels: 0xA5, count: 8 }));
    assert_eq!(b.word(3, false, 0x3C), Ok(Word { done: true, levels: 0x40, count: 8 }));
    assert_eq!(b.word(3, false, 0x3C), Ok(Word { done: false, levels: 0, count: 0 }));
    assert_eq!((b.owed(), b.word(2, false, 0), b.word(4, false, 0)), (Ok(0), Err(Refusal::Disabled), Err(Refusal::NoModule)));
    for _ in 0..3 {
        alone.word(false, 0x3C).unwrap();
    }
    assert_eq!(b.modules()[3], alone);
    assert_eq!(Board::with(&mut [], 0).word(0, false, 0), Err(Refusal::BadList));
}

#[test]
fn refusals_have_numbers_and_words() {
    assert_eq!((Refusal::ReceiveEmpty.number(), Refusal::ReceiveEmpty.text()), (6, "nothing is unread"));
    assert_eq!(card::Refusal::NotNamed.to_string(), "refusal 23: no card has this length and frame");
    let told: Box<dyn std::error::Error> = Box::new(Refusal::NoSuchDepth);
    assert_eq!(told.to_string(), "refusal 25: buffers hold 4, 8 or 16 words");
}

#[test]
fn a_ti_master_sends_to_itself() {
    let mut m = Ti::new();
    m.set_length(5).unwrap();
    m.set_mode(TiMode { master: true, talk: true, ..TiMode::default() }).unwrap();
    m.leave_reset();
    m.write(0xA800).unwrap();
    let mut edges = 0;
    while m.tick(m.sdo() == Sdo::High).unwrap() {
        edges += 1;
    }
    assert_eq!((edges, m.read(), m.read()), (10, Ok(0x15), Err(Refusal::ReceiveEmpty)));
}

#[test]
fn a_card_plays_to_itself() {
    let mut c = Card::new();
    c.set_protocol(Protocol::LeftJustified).unwrap();
    assert_eq!(c.set_length(8, 32), Err(card::Refusal::NotNamed));
    c.enable();
    c.write(0x1234).unwrap();
    c.write(0xABCD).unwrap();
    for _ in 0..64 {
        c.edge(c.look().sdo == Some(true)).unwrap();
    }
    assert_eq!((c.look().unread, c.read(), c.read(), c.read()), (2, Ok(0x1234), Ok(0xABCD), Err(card::Refusal::ReceiveEmpty)));
    assert_eq!(Card::from_words(*c.words()), c);
}
