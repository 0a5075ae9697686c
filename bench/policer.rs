//! What `upc run` answers to lawful scripts, by a plain program that nothing is proved of: the cells' path is
//! written for speed, and the desk's commands by the structures that std has for them. It prints the faults that a
//! cell may have; on any other it ends with status 1.

use std::collections::HashMap;
use std::hash::{BuildHasherDefault, Hasher};
use std::process::exit;

use crate::{Step, Text, decode, each_line, run};

/// Spreads the one number that a connection's path and channel are.
#[derive(Default)]
pub struct Spread(u64);

impl Hasher for Spread {
    fn finish(&self) -> u64 {
        self.0
    }

    fn write(&mut self, _: &[u8]) {
        unreachable!()
    }

    fn write_u32(&mut self, number: u32) {
        self.0 = u64::from(number).wrapping_mul(0x9e37_79b9_7f4a_7c15).rotate_left(20);
    }
}

struct Bucket {
    increment: u64,
    limit: u64,
    due: u64,
}

impl Bucket {
    fn read(word: &[u8]) -> Bucket {
        let slash = word.iter().position(|&octet| octet == b'/').unwrap_or_else(|| exit(1));
        Bucket { increment: number(&word[..slash]), limit: number(&word[slash + 1..]), due: 0 }
    }

    fn conforms(&self, moment: u64) -> bool {
        self.due <= moment + self.limit
    }

    fn charge(&mut self, moment: u64) {
        self.due = self.due.max(moment) + self.increment;
    }

    /// By how many ticks a cell is over the limit.
    fn excess(&self, moment: u64) -> u64 {
        self.due.saturating_sub(moment + self.limit)
    }
}

#[derive(Clone, Copy, PartialEq)]
pub enum Verdict {
    Pass,
    Tag,
    Discard,
    Refuse,
}

struct Contract {
    kind: u8,
    peak: Bucket,
    sustained: Bucket,
}

impl Contract {
    fn read(word: &[u8]) -> Contract {
        let mut parts = word.split(|&octet| octet == b':');
        let kind = match parts.next() {
            Some(b"cbr1") => 0,
            Some(b"vbr1") => 1,
            Some(b"vbr2") => 2,
            Some(b"vbr3") => 3,
            _ => exit(1),
        };
        let peak = Bucket::read(parts.next().unwrap_or_else(|| exit(1)));
        let sustained = parts.next().map_or(Bucket { increment: 1, limit: 0, due: 0 }, Bucket::read);
        Contract { kind, peak, sustained }
    }

    fn judge(&mut self, moment: u64, low: bool) -> Verdict {
        if !self.peak.conforms(moment) {
            return Verdict::Discard;
        }
        if self.kind == 1 || (self.kind > 1 && !low) {
            if self.sustained.conforms(moment) {
                self.sustained.charge(moment);
            } else if self.kind == 3 {
                self.peak.charge(moment);
                return Verdict::Tag;
            } else {
                return Verdict::Discard;
            }
        }
        self.peak.charge(moment);
        Verdict::Pass
    }

    /// Which bucket a cell is over, before it is judged, and by how many ticks.
    fn excess(&self, moment: u64, low: bool) -> Option<(u32, u64)> {
        let meets_sustained = self.kind == 1 || (self.kind > 1 && !low);
        match (self.peak.excess(moment), self.sustained.excess(moment)) {
            (0, 0) => None,
            (0, ticks) => meets_sustained.then_some((2, ticks)),
            (ticks, _) => Some((1, ticks)),
        }
    }
}

/// What a journal keeps of a cell.
#[allow(dead_code)]
struct Entry {
    moment: u64,
    program: u32,
    value: u32,
    low: bool,
    verdict: Verdict,
}

pub struct Connection {
    pub program: u32,
    contracts: Vec<Contract>,
    last: u64,
    journal: Vec<Entry>,
}

/// A program that was put in, and how many connections name it. It is none once it was taken out.
#[derive(Default)]
pub struct Stored {
    pub code: Option<Vec<Step>>,
    pub uses: u32,
}

#[derive(Default)]
pub struct Card {
    pub most: usize,
    pub ports: usize,
    /// The bits of a cell's path and channel.
    pub mask: u32,
    pub programs: Vec<Stored>,
    pub connections: HashMap<u32, Connection, BuildHasherDefault<Spread>>,
}

pub fn number(word: &[u8]) -> u64 {
    let mut number = 0u64;
    for &octet in word {
        let digit = octet.wrapping_sub(b'0');
        if digit > 9 {
            exit(1);
        }
        number = number.wrapping_mul(10).wrapping_add(u64::from(digit));
    }
    number
}

/// The first word of a line, and the rest of the line after the blank that ends it.
pub fn first(line: &[u8]) -> (&[u8], &[u8]) {
    match line.iter().position(|&octet| octet == b' ') {
        Some(end) => (&line[..end], &line[end + 1..]),
        None => (line, &[]),
    }
}

pub fn name(answers: &mut impl Text, key: u32) {
    answers.number(key >> 16);
    answers.text(b"/");
    answers.number(key & 0xffff);
}

/// The moment and the cell in the rest of a line, after its command.
pub fn arrival(line: &[u8]) -> Option<(u64, [u8; 52])> {
    let (moment, word) = first(line);
    let moment = number(moment);
    let mut cell = [0; 52];
    let is_cell = match word.len() {
        8 => decode(word, &mut cell[..4]),
        104 => decode(word, &mut cell),
        _ => exit(1),
    };
    is_cell.then_some((moment, cell))
}

pub fn header_of(cell: &[u8; 52]) -> u32 {
    u32::from_be_bytes([cell[0], cell[1], cell[2], cell[3]])
}

/// The bits of a path and a channel between users and the network, and within the network.
const UNI: u32 = 0x00ff_ffff;
const NNI: u32 = 0x0fff_ffff;

/// A connection's path and channel, as one number, at the side of users.
pub fn key_of(cell: &[u8; 52]) -> u32 {
    header_of(cell) >> 4 & UNI
}

impl Connection {
    pub fn judge(&mut self, moment: u64, value: u32, cell: &[u8; 52], most: usize) -> Verdict {
        if moment < self.last || self.journal.len() >= most {
            exit(1);
        }
        let low = header_of(cell) & 1 == 1;
        let verdict = self.verdict(moment, value, low);
        self.journal.push(Entry { moment, program: self.program, value, low, verdict });
        verdict
    }

    /// The verdict alone, for a moment that isn't before the last one.
    pub fn verdict(&mut self, moment: u64, value: u32, low: bool) -> Verdict {
        self.last = moment;
        match self.contracts.get_mut((value as usize).wrapping_sub(1)) {
            Some(contract) => contract.judge(moment, low),
            None => Verdict::Refuse,
        }
    }

    /// Which bucket a cell is over, before it is judged, and by how many ticks.
    pub fn excess(&self, moment: u64, value: u32, low: bool) -> Option<(u32, u64)> {
        self.contracts.get((value as usize).wrapping_sub(1))?.excess(moment, low)
    }

    pub fn is_late(&self, moment: u64) -> bool {
        moment < self.last
    }
}

/// The answer to a judged cell.
pub fn write_answer(answers: &mut impl Text, program: u32, key: u32, value: u32, verdict: Verdict, cell: &[u8; 52]) {
    answers.text(match verdict {
        Verdict::Pass => b"pass ",
        Verdict::Tag => b"tag ",
        Verdict::Discard => b"discard ",
        Verdict::Refuse => b"refuse ",
    });
    name(answers, key);
    answers.text(b" p");
    answers.number(program + 1);
    answers.text(b" ");
    answers.number(value);
    if matches!(verdict, Verdict::Pass | Verdict::Tag) {
        let header = header_of(cell);
        let leaving = if verdict == Verdict::Tag { header | 1 } else { header };
        let mut digits = *b" 00000000\n";
        for (place, digit) in digits[1..9].iter_mut().enumerate() {
            *digit = b"0123456789abcdef"[(leaving >> (28 - 4 * place) & 15) as usize];
        }
        answers.text(&digits);
    } else {
        answers.text(b"\n");
    }
}

/// The number of a program by its name.
pub fn program(word: &[u8]) -> u32 {
    number(&word[1..]) as u32 - 1
}

/// The steps that the digits spell.
pub fn steps_of(word: &[u8]) -> Vec<Step> {
    let steps = word.as_chunks::<16>().0.iter().map(|digits| {
        let mut eight = [0; 8];
        if !decode(digits, &mut eight) {
            exit(1);
        }
        Step::read(&eight)
    });
    steps.collect()
}

/// The answer to a cut or a release: how many cells the returned journal has, and how many of each verdict.
fn write_journal(answers: &mut impl Text, command: &[u8], key: u32, journal: &[Entry]) {
    answers.text(command);
    name(answers, key);
    answers.text(b" ");
    answers.number(journal.len() as u32);
    for verdict in [Verdict::Pass, Verdict::Tag, Verdict::Discard, Verdict::Refuse] {
        answers.text(b" ");
        answers.number(journal.iter().filter(|entry| entry.verdict == verdict).count() as u32);
    }
    answers.text(b"\n");
}

impl Card {
    fn connection(&mut self, key: u32) -> &mut Connection {
        self.connections.get_mut(&key).unwrap_or_else(|| exit(1))
    }

    fn cell(&mut self, line: &[u8], answers: &mut impl Text) {
        let Some((moment, cell)) = arrival(line) else {
            return answers.text(b"fault script 3 BadHex\n");
        };
        let key = header_of(&cell) >> 4 & self.mask;
        let Some(connection) = self.connections.get_mut(&key) else {
            return answers.text(b"fault arrive 1 NoConnection\n");
        };
        let Some(code) = &self.programs[connection.program as usize].code else { exit(1) };
        let (value, _) = run(code, &cell);
        let verdict = connection.judge(moment, value, &cell, self.most);
        write_answer(answers, connection.program, key, value, verdict, &cell);
    }

    pub fn desk(&mut self, command: &[u8], line: &[u8], answers: &mut impl Text) {
        let words: Vec<&[u8]> = line.split(|&octet| octet == b' ').collect();
        let key = |words: &[&[u8]]| (number(words[0]) << 16 | number(words[1])) as u32;
        match command {
            b"card" => {
                self.ports = number(words[2]) as usize;
                self.most = number(words[3]) as usize;
                self.mask = if words.get(4) == Some(&&b"nni"[..]) { NNI } else { UNI };
                answers.text(b"ready\n");
            }
            b"load" => {
                self.programs.push(Stored { code: Some(steps_of(words[0])), uses: 0 });
                answers.text(b"loaded p");
                answers.number(self.programs.len() as u32);
                answers.text(b"\n");
            }
            b"retire" => {
                let stored = &mut self.programs[program(words[0]) as usize];
                if stored.uses > 0 {
                    return answers.text(b"fault desk 5 InUse\n");
                }
                if stored.code.take().is_none() {
                    exit(1);
                }
                answers.text(b"retired ");
                answers.text(words[0]);
                answers.text(b"\n");
            }
            b"setup" => {
                let connection = Connection {
                    program: program(words[2]),
                    contracts: words[3..].iter().map(|word| Contract::read(word)).collect(),
                    last: 0,
                    journal: Vec::with_capacity(self.most),
                };
                self.programs[connection.program as usize].uses += 1;
                self.connections.insert(key(&words), connection);
                answers.text(b"set ");
                name(answers, key(&words));
                answers.text(b"\n");
            }
            b"reload" => {
                let next = program(words[2]);
                let old = std::mem::replace(&mut self.connection(key(&words)).program, next);
                self.programs[old as usize].uses -= 1;
                self.programs[next as usize].uses += 1;
                answers.text(b"reloaded ");
                name(answers, key(&words));
                answers.text(b" ");
                answers.text(words[2]);
                answers.text(b"\n");
            }
            b"cut" => {
                let most = self.most;
                let journal = &mut self.connection(key(&words)).journal;
                let full = std::mem::replace(journal, Vec::with_capacity(most));
                write_journal(answers, b"cut ", key(&words), &full);
            }
            b"release" => {
                let gone = self.connections.remove(&key(&words)).unwrap_or_else(|| exit(1));
                self.programs[gone.program as usize].uses -= 1;
                write_journal(answers, b"released ", key(&words), &gone.journal);
            }
            _ => exit(1),
        }
    }
}

pub fn police() {
    let mut card = Card::default();
    each_line(|line, answers| match first(line) {
        (b"cell", rest) => card.cell(rest, answers),
        ([] | [b'#', ..], _) => {}
        (command, rest) => card.desk(command, rest, answers),
    });
}
