// The same work on a vector of entries with a free list through them, as the crate `slab` has it,
// with a generation in each entry. Nothing of it is proved.
use std::time::Instant;

const SLOTS: usize = 1024;
const ROUNDS: u32 = 4000;

#[derive(Clone, Copy)]
struct Id {
    slot: u16,
    generation: u32,
}

enum State<T> {
    Vacant(usize),
    Occupied(T),
}

struct Entry<T> {
    generation: u32,
    state: State<T>,
}

struct Slab<T> {
    entries: Vec<Entry<T>>,
    next: usize,
    free: usize,
}

impl<T> Slab<T> {
    fn new(slots: usize) -> Self {
        let entries = (0..slots)
            .map(|k| Entry { generation: 0, state: State::Vacant(k + 1) })
            .collect();
        Slab { entries, next: 0, free: slots }
    }

    fn insert(&mut self, value: T) -> Result<Id, T> {
        let slot = self.next;
        let Some(entry) = self.entries.get_mut(slot) else {
            return Err(value);
        };
        let State::Vacant(next) = entry.state else {
            unreachable!()
        };
        entry.generation += 1;
        entry.state = State::Occupied(value);
        self.next = next;
        self.free -= 1;
        Ok(Id { slot: slot as u16, generation: entry.generation })
    }

    fn get(&self, id: Id) -> Option<&T> {
        match self.entries.get(usize::from(id.slot)) {
            Some(Entry { generation, state: State::Occupied(value) }) if *generation == id.generation => Some(value),
            _ => None,
        }
    }

    fn remove(&mut self, id: Id) -> Option<T> {
        let entry = self.entries.get_mut(usize::from(id.slot))?;
        if entry.generation != id.generation || matches!(entry.state, State::Vacant(_)) {
            return None;
        }
        let worn = entry.generation == u32::MAX;
        let next = if worn { SLOTS } else { self.next };
        let State::Occupied(value) = std::mem::replace(&mut entry.state, State::Vacant(next)) else {
            return None;
        };
        if !worn {
            self.next = usize::from(id.slot);
            self.free += 1;
        }
        Some(value)
    }
}

#[inline(never)]
fn fill(slab: &mut Slab<u64>, ids: &mut [Id]) -> u64 {
    let mut value = 0u64;
    for id in ids {
        if let Ok(given) = slab.insert(value) {
            *id = given;
        }
        value = value.wrapping_add(3);
    }
    value
}

#[inline(never)]
fn look_up(slab: &Slab<u64>, ids: &[Id]) -> u64 {
    let mut sum = 0u64;
    for id in ids {
        if let Some(value) = slab.get(*id) {
            sum = sum.wrapping_add(*value);
        }
    }
    sum
}

#[inline(never)]
fn empty(slab: &mut Slab<u64>, ids: &[Id]) -> u64 {
    let mut sum = 0u64;
    for id in ids {
        if let Some(value) = slab.remove(*id) {
            sum = sum.wrapping_add(value);
        }
    }
    sum
}

#[inline(never)]
fn change(slab: &mut Slab<u64>, ids: &mut [Id]) -> u64 {
    let mut sum = 0u64;
    for id in ids {
        if let Some(value) = slab.remove(*id) {
            sum = sum.wrapping_add(value);
            if let Ok(given) = slab.insert(value) {
                *id = given;
            }
        }
    }
    sum
}

fn main() {
    let mut slab = Slab::new(SLOTS);
    let mut ids = vec![Id { slot: 0, generation: 0 }; SLOTS];
    let mut least = [u128::MAX; 4];
    let mut sum = 0u64;
    for _ in 0..ROUNDS {
        let start = Instant::now();
        sum = sum.wrapping_add(fill(&mut slab, &mut ids));
        let filled = start.elapsed().as_nanos();
        let mut others: Vec<Id> = (0..SLOTS).map(|k| ids[k * 389 % SLOTS]).collect();
        let start = Instant::now();
        sum = sum.wrapping_add(look_up(&slab, &others));
        let found = start.elapsed().as_nanos();
        let start = Instant::now();
        sum = sum.wrapping_add(change(&mut slab, &mut others));
        let changed = start.elapsed().as_nanos();
        let start = Instant::now();
        sum = sum.wrapping_add(empty(&mut slab, &others));
        let emptied = start.elapsed().as_nanos();
        least = [least[0].min(filled), least[1].min(found), least[2].min(emptied), least[3].min(changed)];
    }
    assert_eq!(slab.free, SLOTS);
    println!("{} {} {} {} {sum}", least[0], least[1], least[2], least[3]);
}
