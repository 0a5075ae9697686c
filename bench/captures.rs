//! What `upc-lab police` prints of a lawful script without cells and of a file of ERF records, by a plain program that nothing is
//! proved of: records that are read in blocks, a hash map of connections, and plain buckets without journals. It ends with the status 1 where
//! a cell isn't judged or a record has no cell.
//!
//!     plain police SETUP NANOSECONDS all|refused|none < CAPTURE

use std::collections::HashMap;
use std::hash::BuildHasherDefault;
use std::io::{self, Read};
use std::process::exit;
use std::{env, fs};

use crate::policer::{Card, Connection, Spread, Verdict, first, header_of, key_of};
use crate::{Answers, Text, run};

const HEADER: usize = 16;
const ATM: u8 = 3;
const MULTI_CHANNEL: u8 = 7;

struct Policed {
    connection: Connection,
    counts: [u64; 4],
}

/// A number of 64 bits.
fn long(answers: &mut Answers, number: u64) {
    let mut digits = [0; 20];
    let mut start = digits.len();
    let mut left = number;
    loop {
        start -= 1;
        digits[start] = b'0' + (left % 10) as u8;
        left /= 10;
        if left == 0 {
            break;
        }
    }
    answers.text(&digits[start..]);
}

/// The cell of a record.
fn cell_of(record: &[u8]) -> Option<&[u8; 52]> {
    let kind = record[8] & 0x7f;
    if (kind != ATM && kind != MULTI_CHANNEL) || record[9] & 0x30 != 0 {
        return None;
    }
    let (mut at, mut has_more) = (HEADER, record[8] & 0x80 != 0);
    while has_more {
        has_more = record.get(at)? & 0x80 != 0;
        at += 8;
    }
    at += if kind == MULTI_CHANNEL { 4 } else { 0 };
    record.get(at..)?.first_chunk()
}

struct Police {
    programs: Vec<Vec<crate::Step>>,
    connections: HashMap<u32, Policed, BuildHasherDefault<Spread>>,
    tick: u64,
    /// Which cells have a line: none, those that don't pass, or all.
    lines: u8,
    begun: Option<u64>,
    count: u64,
    is_headed: bool,
    answers: Answers,
}

impl Police {
    fn new(setup: &str, tick: u64, lines: u8) -> Police {
        let mut card = Card::default();
        let script = fs::read(setup).unwrap_or_else(|_| exit(3));
        for line in script.split(|&octet| octet == b'\n') {
            match first(line) {
                ([] | [b'#', ..], _) => {}
                (command, rest) => card.desk(command, rest, &mut Vec::new()),
            }
        }
        Police {
            programs: card.programs.into_iter().map(|stored| stored.code.unwrap_or_default()).collect(),
            connections: card.connections.drain().map(|(key, connection)| (key, Policed { connection, counts: [0; 4] })).collect(),
            tick,
            lines,
            begun: None,
            count: 0,
            is_headed: false,
            answers: Answers::new(),
        }
    }

    fn record(&mut self, record: &[u8]) {
        self.count += 1;
        let time = u64::from_le_bytes(*record.first_chunk().unwrap());
        let Some(cell) = cell_of(record) else { exit(1) };
        let since = time.checked_sub(*self.begun.get_or_insert(time)).unwrap_or_else(|| exit(1));
        let moment = (u128::from(since) * 1_000_000_000 + (u128::from(self.tick) << 31) >> 32) as u64 / self.tick;
        let Some(policed) = self.connections.get_mut(&key_of(cell)) else { exit(1) };
        if policed.connection.is_late(moment) {
            exit(1);
        }
        let low = header_of(cell) & 1 == 1;
        let (value, _) = run(&self.programs[policed.connection.program as usize], cell);
        let excess = if self.lines > 0 { policed.connection.excess(moment, value, low) } else { None };
        let verdict = policed.connection.verdict(moment, value, low);
        policed.counts[verdict as usize] += 1;
        if self.lines > u8::from(verdict == Verdict::Pass) {
            self.write_row(moment, header_of(cell), value, verdict, excess);
        }
    }

    fn write_row(&mut self, moment: u64, header: u32, value: u32, verdict: Verdict, excess: Option<(u32, u64)>) {
        let answers = &mut self.answers;
        answers.reserve();
        if !self.is_headed {
            answers.text(b"record\tmoment\tvpi\tvci\tclp\tvalue\tverdict\tbucket\texcess\n");
            self.is_headed = true;
            answers.reserve();
        }
        for number in [self.count, moment, (header >> 20 & 0xff).into(), (header >> 4 & 0xffff).into(), (header & 1).into(), value.into()] {
            long(answers, number);
            answers.text(b"\t");
        }
        answers.text([&b"pass"[..], b"tag", b"discard", b"refuse"][verdict as usize]);
        match excess {
            None => answers.text(b"\t-\t-\n"),
            Some((bucket, ticks)) => {
                answers.text(b"\t");
                answers.number(bucket);
                answers.text(b"\t");
                long(answers, ticks);
                answers.text(b"\n");
            }
        }
    }

    fn close(mut self) {
        let answers = &mut self.answers;
        answers.reserve();
        if self.is_headed {
            answers.text(b"\n");
        }
        answers.text(b"vpi\tvci\tpassed\ttagged\tdiscarded\trefused\n");
        let mut rows: Vec<_> = self.connections.iter().collect();
        rows.sort_unstable_by_key(|row| row.0);
        for (key, policed) in rows {
            answers.reserve();
            answers.number(key >> 16);
            answers.text(b"\t");
            answers.number(key & 0xffff);
            for count in policed.counts {
                answers.text(b"\t");
                long(answers, count);
            }
            answers.text(b"\n");
        }
        answers.reserve();
        answers.text(b"# a tick is ");
        long(answers, self.tick);
        answers.text(b" ns\n");
        answers.give();
    }
}

pub fn police() {
    let words: Vec<String> = env::args().skip(2).collect();
    let [setup, tick, lines] = &words[..] else { exit(2) };
    let lines = ["none", "refused", "all"].iter().position(|word| word == lines).unwrap_or_else(|| exit(2));
    let mut police = Police::new(setup, tick.parse().unwrap_or_else(|_| exit(2)), lines as u8);
    let mut room = vec![0; 1 << 17];
    let mut input = io::stdin().lock();
    let mut end = 0;
    loop {
        let count = input.read(&mut room[end..]).unwrap_or_else(|_| exit(3));
        if count == 0 {
            break;
        }
        end += count;
        let mut start = 0;
        while let Some(head) = room[start..end].first_chunk::<HEADER>() {
            let length = usize::from(u16::from_be_bytes([head[10], head[11]]));
            if length < HEADER {
                exit(1);
            }
            if end - start < length {
                break;
            }
            police.record(&room[start..start + length]);
            start += length;
        }
        room.copy_within(start..end, 0);
        end -= start;
    }
    if end > 0 {
        exit(1);
    }
    police.close();
}
