//! A safe wrapper of the library's card, and its use: rustc alone builds it.
//!
//!     rustc -L FOLDER -l static=upc examples/rust/card.rs

use std::ptr::null_mut;
use std::thread;

/// The structs of `include/upc.h`, with the same fields in the same order.
#[repr(C)]
#[derive(Clone, Copy, Debug, Default)]
pub struct Fault { kind: u32, number: u32, place: usize, word: u32, code: u32, column: usize }

#[repr(C)]
pub struct Shape { pub side: u32, pub programs: u64, pub lines: u64, pub ports: u64, pub journal: u64 }

#[repr(C)]
#[derive(Clone, Copy, Debug, Default)]
pub struct Id { slot: u16, generation: u32 }

#[repr(C)]
pub struct Contract { pub kind: u32, pub peak: [u64; 2], pub sustained: [u64; 2] }

#[repr(C)]
#[derive(Clone, Copy, Debug, Default)]
pub struct Answer { pub verdict: u32, pub value: u32, pub number: u64, pub moment: u64, pub program: Id, pub line: u16 }

#[repr(C)]
#[derive(Clone, Copy, Debug, Default)]
pub struct Entry { pub moment: u64, pub program: Id, pub value: u32, pub clp: u32, pub verdict: u32 }

#[repr(C)]
#[derive(Clone, Copy, Debug, Default)]
pub struct Counts { pub passed: u64, pub tagged: u64, pub discarded: u64, pub refused: u64 }

#[repr(C)]
#[derive(Clone, Copy, Debug, Default)]
struct Journal { cells: usize, before: Counts, after: Counts }

#[repr(C)]
struct Held { live: u32, at: *mut () }

extern "C" {
    fn upc_card_new(shape: &Shape, card: &mut Held, fault: &mut Fault) -> u32;
    fn upc_card_free(card: &mut Held);
    fn upc_card_load(card: &mut Held, octets: *const u8, length: usize, id: &mut Id, fault: &mut Fault) -> u32;
    fn upc_card_setup(card: &mut Held, path: u16, channel: u16, id: &Id, contracts: *const Contract, count: usize, fault: &mut Fault) -> u32;
    fn upc_card_arrive(card: &mut Held, octets: *mut u8, length: usize, moment: u64, answer: &mut Answer, fault: &mut Fault) -> u32;
    fn upc_card_arrive_many(
        card: &mut Held, octets: *mut u8, length: usize, stride: usize, moments: *const u64, count: usize, answers: *mut Answer, room: usize,
        done: &mut usize, fault: &mut Fault,
    ) -> u32;
    fn upc_card_journal(card: &Held, path: u16, channel: u16, cells: &mut usize, fault: &mut Fault) -> u32;
    fn upc_card_counts(card: &Held, path: u16, channel: u16, counts: &mut Counts, fault: &mut Fault) -> u32;
    fn upc_card_cut(card: &mut Held, path: u16, channel: u16, room: *mut Entry, length: usize, journal: &mut Journal, fault: &mut Fault) -> u32;
}

/// A card. It is dropped once and has no copy. One thread at a time may use it: a raw pointer is not `Sync`.
pub struct Card { held: Held }

/// The library proves that a card may go to another thread.
unsafe impl Send for Card {}

/// Makes a call that fills a value, or a fault if it returns another number than 0.
fn ask<T: Default>(call: impl FnOnce(&mut T, &mut Fault) -> u32) -> Result<T, Fault> {
    let (mut value, mut fault) = (T::default(), Fault::default());
    if call(&mut value, &mut fault) == 0 { Ok(value) } else { Err(fault) }
}

/// References are never null, slices are as long as they say, and a `&mut` is lent to nobody else: no call asks for more.
impl Card {
    pub fn new(shape: &Shape) -> Result<Card, Fault> {
        let mut card = Card { held: Held { live: 0, at: null_mut() } };
        ask(|_: &mut (), fault| unsafe { upc_card_new(shape, &mut card.held, fault) })?;
        Ok(card)
    }

    pub fn load(&mut self, program: &[u8]) -> Result<Id, Fault> {
        ask(|id, fault| unsafe { upc_card_load(&mut self.held, program.as_ptr(), program.len(), id, fault) })
    }

    pub fn set_up(&mut self, path: u16, channel: u16, program: Id, contracts: &[Contract]) -> Result<(), Fault> {
        let (first, count) = (contracts.as_ptr(), contracts.len());
        ask(|_: &mut (), fault| unsafe { upc_card_setup(&mut self.held, path, channel, &program, first, count, fault) })
    }

    pub fn arrive(&mut self, cell: &mut [u8; 52], moment: u64) -> Result<Answer, Fault> {
        ask(|answer, fault| unsafe { upc_card_arrive(&mut self.held, cell.as_mut_ptr(), cell.len(), moment, answer, fault) })
    }

    /// Judges a cell for each of the moments, up to the first that is refused. Returns the answers, and the fault of that cell.
    pub fn arrive_all(&mut self, cells: &mut [[u8; 52]], moments: &[u64]) -> (Vec<Answer>, Option<Fault>) {
        let mut answers = vec![Answer::default(); moments.len()];
        let (octets, length) = (cells.as_mut_ptr().cast(), 52 * cells.len());
        let (first, count, room) = (moments.as_ptr(), moments.len(), answers.as_mut_ptr());
        let (mut done, mut fault) = (0, Fault::default());
        let result = unsafe {
            upc_card_arrive_many(&mut self.held, octets, length, 52, first, count, room, count, &mut done, &mut fault)
        };
        answers.truncate(done);
        (answers, (result != 0).then_some(fault))
    }

    pub fn counts(&self, path: u16, channel: u16) -> Result<Counts, Fault> {
        ask(|counts, fault| unsafe { upc_card_counts(&self.held, path, channel, counts, fault) })
    }

    /// Empties the connection's journal, and returns its cells.
    pub fn cut(&mut self, path: u16, channel: u16) -> Result<Vec<Entry>, Fault> {
        let cells = ask(|cells, fault| unsafe { upc_card_journal(&self.held, path, channel, cells, fault) })?;
        let mut room = vec![Entry::default(); cells];
        ask(|it, fault| unsafe { upc_card_cut(&mut self.held, path, channel, room.as_mut_ptr(), cells, it, fault) })
            .map(|_: Journal| room)
    }
}

impl Drop for Card {
    fn drop(&mut self) {
        unsafe { upc_card_free(&mut self.held) }
    }
}

fn police(mut card: Card) -> Result<(), Fault> {
    // ldb [3]; jset #8, over one; ret #1; ret #0: contract 1 for user cells, and none for others, which are refused.
    let program = [[0, 0x30, 0, 0, 0, 0, 0, 3], [0, 0x45, 1, 0, 0, 0, 0, 8], [0, 6, 0, 0, 0, 0, 0, 1], [0, 6, 0, 0, 0, 0, 0, 0]];
    let program = card.load(&program.concat())?;
    card.set_up(1, 100, program, &[Contract { kind: 4, peak: [5, 0], sustained: [20, 20] }])?;
    let user = [0, 5, 10, 12, 15, 20].map(|moment| (moment, 0x40));
    let other = [26, 27, 28].map(|moment| (moment, 0x48));
    for (moment, last) in [&user[..], &[(25, 0x41)], &other].concat() {
        let mut cell = [0; 52];
        cell[..4].copy_from_slice(&[0x00, 0x10, 0x06, last]);
        println!("{} {}", card.arrive(&mut cell, moment)?.verdict, cell[3] & 1);
    }
    println!("{:?}", card.counts(1, 100)?);
    for entry in card.cut(1, 100)? {
        println!("{} {} {}", entry.moment, entry.value, entry.verdict);
    }
    println!("{} {}", card.cut(1, 100)?.len(), card.cut(1, 101).unwrap_err().number);
    // The third cell comes before the second.
    let mut cells = [[0; 52]; 3];
    cells.iter_mut().for_each(|cell| cell[..4].copy_from_slice(&[0x00, 0x10, 0x06, 0x40]));
    let (answers, fault) = card.arrive_all(&mut cells, &[30, 40, 39]);
    println!("{:?} {:?}", answers.iter().map(|it| it.verdict).collect::<Vec<_>>(), cells.map(|cell| cell[3] & 1));
    println!("{:?}", fault.map(|it| (it.number, it.place)));
    Ok(())
}

fn main() {
    // The card is made on this thread, and used and freed on another.
    let card = Card::new(&Shape { side: 0, programs: 1, lines: 1, ports: 1, journal: 16 });
    if let Err(fault) = card.and_then(|card| thread::spawn(move || police(card)).join().expect("no panic")) {
        println!("{fault:?}");
    }
}
