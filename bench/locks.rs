//! Takes the locks that a cell takes at a port of a running card, in the same order, and does nothing while it holds
//! them: the programs' to read, the directory's and back, a line's and the books'. Prints for one, two and four threads,
//! each on lines of its own, how often, the time of the slowest, and the least time of a hundredth part.
use std::hint::black_box;
use std::sync::{Mutex, RwLock};
use std::thread;
use std::time::Instant;

const CONNECTIONS: usize = 8;
const PARTS: usize = 100;
const ROUNDS: usize = 600;

struct Locks {
    store: RwLock<u64>,
    places: Mutex<u64>,
    lines: Vec<Mutex<u64>>,
    books: Mutex<u64>,
}

impl Locks {
    fn new(lines: usize) -> Locks {
        Locks {
            store: RwLock::new(0),
            places: Mutex::new(0),
            lines: (0..lines).map(|_| Mutex::new(0)).collect(),
            books: Mutex::new(0),
        }
    }

    #[inline(never)]
    fn take(&self, line: usize) {
        let store = self.store.read().unwrap();
        black_box(*self.places.lock().unwrap());
        let slot = self.lines[line].lock().unwrap();
        let books = self.books.lock().unwrap();
        black_box((*store, *slot, *books));
    }
}

/// The nanoseconds in which a thread took the locks of its lines as often as a port does, and the least of a part.
fn at_port(locks: &Locks, number: usize) -> (u128, u128) {
    let mut whole = 0;
    let mut least = u128::MAX;
    for _ in 0..PARTS {
        let start = Instant::now();
        for _ in 0..ROUNDS {
            for line in number * CONNECTIONS..(number + 1) * CONNECTIONS {
                locks.take(line);
            }
        }
        let time = start.elapsed().as_nanos();
        whole += time;
        least = least.min(time);
    }
    (whole, least)
}

fn measure(threads: usize) {
    let locks = Locks::new(threads * CONNECTIONS);
    let times = thread::scope(|scope| {
        let running: Vec<_> = (0..threads)
            .map(|number| {
                let locks = &locks;
                scope.spawn(move || at_port(locks, number))
            })
            .collect();
        running
            .into_iter()
            .map(|thread| thread.join().unwrap())
            .collect::<Vec<_>>()
    });
    let whole = times.iter().map(|time| time.0).max().unwrap_or(0);
    let least = times.iter().map(|time| time.1).min().unwrap_or(0);
    println!("{threads} {} {whole} {least}", threads * CONNECTIONS * PARTS * ROUNDS);
}

fn main() {
    for threads in [1, 2, 4] {
        measure(threads);
    }
}
