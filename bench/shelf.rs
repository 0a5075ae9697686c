//! Polices batches of arrivals on one, two and four cards that share nothing, as a plain program that nothing is proved of:
//! the arrivals are dealt to the cards, each card polices its own on a thread of its own (the last card on the thread that
//! is there already), and the answers come in the arrivals' order. Prints for each how many cells passed, and the least
//! time of a round.

mod plain_cards;

use plain_cards::{Arrival, CELLS, Card, REFUSED, Decision, Verdict, arrivals_of, cards_with, key_of, traffic_among};
use std::thread;
use std::time::Instant;

const ROUNDS: u64 = 100;
const CONNECTIONS: u64 = 256;
const JOURNAL: usize = 1024;

fn card_of(cell: &[u8; 52], cards: usize) -> usize {
    key_of(cell) as usize % cards
}

fn police(cards: &mut [Card], arrivals: &[Arrival]) -> Vec<Decision> {
    let many = cards.len();
    let mut dealt = vec![Vec::new(); many];
    for (place, arrival) in arrivals.iter().enumerate() {
        dealt[card_of(&arrival.cell, many)].push(place);
    }
    thread::scope(|scope| {
        let mut own = cards.iter_mut().zip(&dealt);
        let last = own.next_back();
        for (card, places) in own {
            scope.spawn(move || card.police(arrivals, places));
        }
        if let Some((card, places)) = last {
            card.police(arrivals, places);
        }
    });
    let mut next = vec![0; many];
    arrivals
        .iter()
        .map(|arrival| {
            let number = card_of(&arrival.cell, many);
            next[number] += 1;
            cards[number].decisions[next[number] - 1]
        })
        .collect()
}

/// How many cells passed in all rounds, and the least time of a round.
fn measure(all: &[u32], headers: &[u32], many: usize, size: usize) -> (u64, u128) {
    let mut cards = cards_with(all, many, JOURNAL);
    let copies = if size > CELLS { 16 } else { 1 };
    let (mut passed, mut least) = (0, u128::MAX);
    for round in 0..ROUNDS {
        let arrivals = arrivals_of(headers, copies, round * (3 * copies * CELLS) as u64);
        let begun = Instant::now();
        for batch in arrivals.chunks(size) {
            for decision in police(&mut cards, batch) {
                passed += decision.map_or(REFUSED, |judgement| u64::from(judgement.verdict == Verdict::Pass));
            }
        }
        least = least.min(begun.elapsed().as_nanos());
        cards.iter_mut().for_each(Card::cut);
    }
    (passed, least)
}

fn main() {
    let (all, headers) = traffic_among(CONNECTIONS);
    for size in [256, 4096, 65536] {
        for many in [1, 2, 4] {
            let (passed, least) = measure(&all, &headers, many, size);
            println!("police {size} {many} {passed} {least}");
        }
    }
}
