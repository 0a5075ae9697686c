//! Gives each card a queue of arrivals and a thread of its own (the last card has the thread that is there already), as a plain
//! program that nothing is proved of. Prints how many cells passed, and the least time of a round. Its words are those of
//! `feeds.rt.in`.

#[allow(dead_code)]
mod plain_cards;

use plain_cards::{Arrival, CELLS, Card, REFUSED, Verdict, arrivals_of, cards_with, traffic_among};
use std::time::Instant;
use std::{env, thread};

/// What is measured: the connections of each card, the entries of a journal, how often the cells come in a round, and how many
/// rounds there are.
struct Size {
    connections: u64,
    journal: usize,
    copies: usize,
    rounds: u64,
}

/// How many of these cells pass.
fn police(card: &mut Card, arrivals: &[Arrival]) -> u64 {
    let mut passed = 0;
    for arrival in arrivals {
        passed += card.arrive(arrival).map_or(REFUSED, |judgement| u64::from(judgement.verdict == Verdict::Pass));
    }
    passed
}

/// How many pass on all cards, each on a thread of its own.
fn police_all(cards: &mut [Card], queues: &[Vec<Arrival>]) -> u64 {
    thread::scope(|scope| {
        let mut own = cards.iter_mut().zip(queues);
        let last = own.next_back();
        let threads: Vec<_> = own.map(|(card, queue)| scope.spawn(move || police(card, queue))).collect();
        let passed = last.map_or(0, |(card, queue)| police(card, queue));
        threads.into_iter().fold(passed, |sum, thread| sum + thread.join().unwrap())
    })
}

/// How many cells passed in all rounds, and the least time of a round.
fn measure(all: &[u32], headers: &[u32], size: &Size, many: usize) -> (u64, u128) {
    let mut cards: Vec<Card> = (0..many).flat_map(|_| cards_with(all, 1, size.journal)).collect();
    let (mut passed, mut least) = (0, u128::MAX);
    for round in 0..size.rounds {
        let start = round * (3 * size.copies * CELLS) as u64;
        let queues: Vec<_> = (0..many).map(|_| arrivals_of(headers, size.copies, start)).collect();
        let begun = Instant::now();
        passed += police_all(&mut cards, &queues);
        least = least.min(begun.elapsed().as_nanos());
        cards.iter_mut().for_each(Card::cut);
    }
    (passed, least)
}

fn main() {
    let words: Vec<u64> = env::args().skip(1).map(|word| word.parse().unwrap()).collect();
    let (numbers, size) = match words[..] {
        [cards, connections, journal, copies, rounds] => {
            (vec![cards as usize], Size { connections, journal: journal as usize, copies: copies as usize, rounds })
        }
        _ => (vec![1, 2, 4], Size { connections: 256, journal: 1024, copies: 16, rounds: 60 }),
    };
    let (all, headers) = traffic_among(size.connections);
    for many in numbers {
        let (passed, least) = measure(&all, &headers, &size, many);
        println!("feed {many} {passed} {least}");
    }
}
