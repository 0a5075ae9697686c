//! A safe wrapper of the library's meter, and its use. Built with rustc alone:
//!
//!     rustc -L FOLDER -l static=upc examples/rust/meter.rs

use std::fmt;

/// An error: `upc_fault` of `include/upc.h`.
#[repr(C)]
#[derive(Clone, Copy, Default)]
pub struct Fault {
    kind: u32,
    number: u32,
    place: usize,
    word: u32,
    code: u32,
    column: usize,
}

impl fmt::Display for Fault {
    fn fmt(&self, f: &mut fmt::Formatter<'_>) -> fmt::Result {
        write!(f, "fault kind {} number {} place {}", self.kind, self.number, self.place)
    }
}

/// A contract: its kind (1 CBR.1, 2 VBR.1, 3 VBR.2, 4 VBR.3), and both rates.
#[repr(C)]
#[derive(Clone, Copy)]
pub struct Contract {
    pub kind: u32,
    pub peak_increment: u64,
    pub peak_limit: u64,
    pub sustained_increment: u64,
    pub sustained_limit: u64,
}

/// The state of one contract.
#[repr(C)]
#[derive(Clone, Copy, Default)]
pub struct Levels {
    first: u64,
    second: u64,
}

#[derive(Debug)]
pub enum Verdict {
    Pass,
    Tag,
    Discard,
}

extern "C" {
    fn upc_judge(contract: &Contract, levels: &mut Levels, clp: u32, moment: u64, verdict: &mut u32, fault: &mut Fault) -> u32;
}

impl Levels {
    /// The verdict on a cell. The call requires pointers that aren't null and exclusive access through `&mut`; references
    /// guarantee both.
    pub fn judge(&mut self, contract: &Contract, clp: bool, moment: u64) -> Result<Verdict, Fault> {
        let (mut verdict, mut fault) = (0, Fault::default());
        match unsafe { upc_judge(contract, self, clp.into(), moment, &mut verdict, &mut fault) } {
            0 if verdict == 0 => Ok(Verdict::Pass),
            0 if verdict == 1 => Ok(Verdict::Tag),
            0 => Ok(Verdict::Discard),
            _ => Err(fault),
        }
    }
}

fn main() {
    let contract = Contract { kind: 4, peak_increment: 5, peak_limit: 0, sustained_increment: 20, sustained_limit: 20 };
    let mut levels = Levels::default();
    for moment in [0, 5, 10, 12, 20, 1 << 63] {
        match levels.judge(&contract, false, moment) {
            Ok(verdict) => println!("{verdict:?}"),
            Err(fault) => println!("{fault}"),
        }
    }
}
