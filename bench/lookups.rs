//! Look-ups of 4096 connections in tables of three and four levels, beside std's hash map with a hash that multiplies, without seats
//! and then with the read of a seat of 32 octets. Nanoseconds a look-up, in brackets with each look-up waiting for the one before: of
//! connections that are there, that aren't, and of both at random.

use std::collections::HashMap;
use std::hash::{BuildHasherDefault, Hasher};
use std::hint::black_box;
use std::time::Instant;

#[derive(Default)]
struct H(u64);
impl Hasher for H { fn finish(&self) -> u64 { self.0 } fn write(&mut self, _: &[u8]) { unreachable!() }
    fn write_u32(&mut self, x: u32) { let m = (x as u64 ^ 0x9E37_79B9_7F4A_7C15) as u128 * 0xD6E8_FEB8_6659_FD93u128; self.0 = (m as u64) ^ (m >> 64) as u64; } }
type Hm = HashMap<u32, [u64; 4], BuildHasherDefault<H>>;

struct R(u64);
impl R { fn next(&mut self) -> u64 { self.0 ^= self.0 << 13; self.0 ^= self.0 >> 7; self.0 ^= self.0 << 17; self.0 } }

fn measure<F: Fn(u32) -> u16>(f: F, asked: &[u32]) -> (f64, f64) {
    let (mut best, mut chained) = (f64::MAX, f64::MAX);
    for _ in 0..300 {
        let t = Instant::now();
        let mut s = 0u64;
        for &vc in asked { s += f(black_box(vc)) as u64; }
        black_box(s);
        best = best.min(t.elapsed().as_nanos() as f64 / asked.len() as f64);
        let t = Instant::now();
        let mut w = 0u32;
        for &vc in asked { w = f(vc ^ w) as u32 & black_box(0); }
        black_box(w);
        chained = chained.min(t.elapsed().as_nanos() as f64 / asked.len() as f64);
    }
    (best, chained)
}


/// A row, then blocks of 2^A, 2^B and 2^C numbers; C is 0 if there are two kinds of blocks.
struct Gen<const A: u32, const B: u32, const C: u32> { row: Vec<u16>, a: Vec<u16>, b: Vec<u16>, c: Vec<u16> }
impl<const A: u32, const B: u32, const C: u32> Gen<A, B, C> {
    fn new() -> Self { Gen { row: vec![0; 1 << (28 - A - B - C)], a: vec![0; 1 << A], b: vec![0; 1 << B], c: vec![0; 1 << C] } }
    fn link(from: &mut Vec<u16>, i: usize, to: &mut Vec<u16>, bits: u32) -> usize {
        if from[i] == 0 { from[i] = (to.len() >> bits) as u16; to.resize(to.len() + (1 << bits), 0); }
        (from[i] as usize) << bits
    }
    fn put(&mut self, vc: u32, line: u16) {
        let vc = vc as usize;
        let i = Self::link(&mut self.row, vc >> (A + B + C), &mut self.a, A) + (vc >> (B + C) & ((1 << A) - 1));
        let j = Self::link(&mut self.a, i, &mut self.b, B) + (vc >> C & ((1 << B) - 1));
        if C == 0 { self.b[j] = line + 1; return; }
        let k = Self::link(&mut self.b, j, &mut self.c, C) + (vc & ((1 << C) - 1));
        self.c[k] = line + 1;
    }
    #[inline(always)]
    fn find(&self, vc: u32) -> u16 { unsafe {
        let vc = vc as usize & 0xfff_ffff;
        let i = ((*self.row.get_unchecked(vc >> (A + B + C)) as usize) << A) + (vc >> (B + C) & ((1 << A) - 1));
        let j = ((*self.a.get_unchecked(i) as usize) << B) + (vc >> C & ((1 << B) - 1));
        if C == 0 { return *self.b.get_unchecked(j); }
        let k = ((*self.b.get_unchecked(j) as usize) << C) + (vc & ((1 << C) - 1));
        *self.c.get_unchecked(k)
    } }
    fn kib(&self) -> usize { (self.row.len() + self.a.len() + self.b.len() + self.c.len()) * 2 / 1024 }
}

/// Measures one table, and prints its size and its times.
fn one<const A: u32, const B: u32, const C: u32>(name: &str, vcs: &[u32], order: &[usize], asked: [&[u32]; 3]) {
    let mut g: Gen<A, B, C> = Gen::new();
    for &k in order { g.put(vcs[k], k as u16); }
    print!("  {name:9} {:5} KiB ", g.kib());
    for a in asked { let m = measure(|v| g.find(v), a); print!(" {:5.2} ({:5.2})", m.0, m.1); }
    // with the seat read
    let seats: Vec<[u64; 4]> = (0..4097u64).map(|i| [i; 4]).collect();
    for a in asked { let m = measure(|v| { let n = g.find(v); if n == 0 { 0 } else { seats[n as usize][0] as u16 } }, a); print!(" {:5.2} ({:5.2})", m.0, m.1); }
    println!();
}
fn main() {
    let mut r = R(88172645463325252);
    let usual: Vec<u32> = (0..4096u32).map(|i| (i / 1024) << 16 | (32 + i % 1024)).collect();
    let mut random: Vec<u32> = (0..4096).map(|_| (r.next() >> 20) as u32 & 0xfff_ffff).collect();
    random.sort(); random.dedup();
    let paths: Vec<u32> = (0..4096u32).map(|i| i << 16).collect();
    let apart: Vec<u32> = (0..4096u32).map(|i| i << 16 | (i * 37 % 256) << 8 | (i * 91 % 256)).collect();
    let nibbles: Vec<u32> = (0..4096u32).map(|i| i << 12).collect();
    let nibbles2: Vec<u32> = (0..4096u32).map(|i| (i / 16) << 16 | (i % 16) << 12 | (i * 37 % 64) << 6 | (i * 29 % 64)).collect();
    let nibbles3: Vec<u32> = (0..4096u32).map(|i| i << 16 | (i / 2 % 16) << 12).collect();
    for (name, vcs) in [("usual", &usual), ("random", &random), ("paths", &paths), ("apart", &apart), ("nibbles", &nibbles), ("nibbles2", &nibbles2), ("nibbles3", &nibbles3)] {
        let mut order: Vec<usize> = (0..vcs.len()).collect();
        for i in (1..order.len()).rev() { let j = r.next() as usize % (i + 1); order.swap(i, j); }
        let found: Vec<u32> = (0..8192).map(|_| vcs[r.next() as usize % vcs.len()]).collect();
        let missed: Vec<u32> = (0..8192).map(|_| { let v = vcs[r.next() as usize % vcs.len()]; match r.next() % 3 { 0 => v ^ 0x1, 1 => v ^ 0x40, _ => v ^ 0x8000000 } }).collect();
        let mixed: Vec<u32> = (0..8192).map(|i| if r.next() % 2 == 0 { found[i] } else { missed[i] }).collect();
        let asked = [&found[..], &missed[..], &mixed[..]];
        println!("{name}: found, missed, mixed; then with the seat");
        let mut hm: Hm = HashMap::default();
        for &k in &order { hm.insert(vcs[k], [k as u64; 4]); }
        print!("  hash               ");
        for a in asked { let m = measure(|v| hm.get(&v).map_or(0, |s| s[0] as u16), a); print!(" {:5.2} ({:5.2})", m.0, m.1); }
        println!();
        one::<8, 8, 0>("12+8+8", vcs, &order, asked);
        one::<7, 7, 0>("14+7+7", vcs, &order, asked);
        one::<6, 6, 0>("16+6+6", vcs, &order, asked);
        one::<6, 5, 5>("12+6+5+5", vcs, &order, asked);
        one::<5, 5, 5>("13+5+5+5", vcs, &order, asked);
    }
}
