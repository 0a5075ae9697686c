//! What `upc ports` answers: a thread for each port, and the locks that the running card has. After the first cell line it knows
//! the commands that load, retire and reload, lines that are no command, and cells with bad digits.

use std::io::{self, Read, Write};
use std::process::exit;
use std::sync::{Mutex, RwLock};
use std::thread;

use crate::policer::{Card, Connection, Stored, Verdict, arrival, first, key_of, name, number, program, steps_of, write_answer};
use crate::{Text, find_feed, run};

/// What the order of the answers has for a line that no port answers.
const NO_COMMAND: u8 = 16;
const BAD_DIGITS: u8 = 17;
const DESK: u8 = 18;

/// The cells of a port, and their answers, one text after the other.
#[derive(Default)]
struct Port {
    cells: Vec<(u64, [u8; 52])>,
    answers: Vec<u8>,
    ends: Vec<usize>,
}

/// A card that ports share.
struct Shared {
    most: usize,
    programs: RwLock<Vec<Stored>>,
    /// Each connection's line, by its path and channel.
    directory: Mutex<std::collections::HashMap<u32, usize, std::hash::BuildHasherDefault<crate::policer::Spread>>>,
    lines: Vec<Mutex<Connection>>,
    books: Mutex<[u64; 4]>,
}

impl Shared {
    /// A command while cells arrive. The answer ends with a line feed.
    fn desk(&self, command: &[u8], line: &[u8], answers: &mut Vec<u8>) {
        let words: Vec<&[u8]> = line.split(|&octet| octet == b' ').collect();
        match command {
            b"load" => {
                let code = Some(steps_of(words[0]));
                let mut programs = self.programs.write().unwrap();
                programs.push(Stored { code, uses: 0 });
                answers.text(b"loaded p");
                answers.number(programs.len() as u32);
            }
            b"retire" => {
                let stored = &mut self.programs.write().unwrap()[program(words[0]) as usize];
                if stored.uses > 0 || stored.code.take().is_none() {
                    exit(1);
                }
                answers.text(b"retired ");
                answers.text(words[0]);
            }
            b"reload" => {
                let (key, next) = ((number(words[0]) << 16 | number(words[1])) as u32, program(words[2]));
                let mut programs = self.programs.write().unwrap();
                let line = self.directory.lock().unwrap().get(&key).copied().unwrap_or_else(|| exit(1));
                let old = std::mem::replace(&mut self.lines[line].lock().unwrap().program, next);
                programs[old as usize].uses -= 1;
                programs[next as usize].uses += 1;
                answers.text(b"reloaded ");
                name(answers, key);
                answers.text(b" ");
                answers.text(words[2]);
            }
            _ => exit(1),
        }
        answers.text(b"\n");
    }

    /// All commands, one after another.
    fn manage(&self, commands: &[(&[u8], &[u8])], desk: &mut Port) {
        for (command, line) in commands {
            self.desk(command, line, &mut desk.answers);
            desk.ends.push(desk.answers.len());
        }
    }

    fn cell(&self, moment: u64, cell: &[u8; 52], answers: &mut Vec<u8>) {
        let key = key_of(cell);
        let programs = self.programs.read().unwrap();
        let Some(line) = self.directory.lock().unwrap().get(&key).copied() else {
            return answers.text(b"fault arrive 1 NoConnection\n");
        };
        let mut connection = self.lines[line].lock().unwrap();
        let Some(code) = &programs[connection.program as usize].code else { exit(1) };
        let (value, _) = run(code, cell);
        let verdict = connection.judge(moment, value, cell, self.most);
        self.books.lock().unwrap()[verdict as usize] += 1;
        write_answer(answers, connection.program, key, value, verdict, cell);
    }

    fn police(&self, port: &mut Port) {
        for (moment, cell) in &port.cells {
            self.cell(*moment, cell, &mut port.answers);
            port.ends.push(port.answers.len());
        }
    }
}

pub fn police() {
    let mut script = Vec::new();
    io::stdin().read_to_end(&mut script).unwrap_or_else(|_| exit(3));
    let mut card = Card::default();
    let mut answers = Vec::new();
    let mut ports: Vec<Port> = Vec::new();
    let mut order = Vec::new();
    let mut commands = Vec::new();
    let mut left = &script[..];
    while !left.is_empty() {
        let length = find_feed(left).unwrap_or(left.len());
        let line = &left[..length];
        left = &left[left.len().min(length + 1)..];
        match first(line) {
            (b"cell", rest) => {
                let Some((moment, cell)) = arrival(rest) else {
                    order.push(BAD_DIGITS);
                    continue;
                };
                ports.resize_with(card.ports, Port::default);
                let number = key_of(&cell) as usize % card.ports;
                ports[number].cells.push((moment, cell));
                order.push(number as u8);
            }
            ([] | [b'#', ..], _) => {}
            (command, rest) if order.is_empty() => card.desk(command, rest, &mut answers),
            (b"card" | b"load" | b"retire" | b"setup" | b"reload" | b"cut" | b"release", _) => {
                commands.push(first(line));
                order.push(DESK);
            }
            _ => order.push(NO_COMMAND),
        }
    }
    let mut lines = Vec::new();
    let mut directory = std::collections::HashMap::default();
    for (key, connection) in card.connections {
        directory.insert(key, lines.len());
        lines.push(Mutex::new(connection));
    }
    let shared = Shared {
        most: card.most,
        programs: RwLock::new(card.programs),
        directory: Mutex::new(directory),
        lines,
        books: Mutex::new([0; 4]),
    };
    let mut desk = Port::default();
    thread::scope(|scope| {
        for port in &mut ports {
            scope.spawn(|| shared.police(port));
        }
        shared.manage(&commands, &mut desk);
    });
    let last = ports.len();
    ports.push(desk);
    let mut next = vec![(0, 0); ports.len()];
    for number in order {
        let number = match number {
            NO_COMMAND => {
                answers.text(b"fault script 1 BadLine\n");
                continue;
            }
            BAD_DIGITS => {
                answers.text(b"fault script 3 BadHex\n");
                continue;
            }
            DESK => last,
            number => number.into(),
        };
        let port = &ports[number];
        let (place, start) = next[number];
        answers.text(&port.answers[start..port.ends[place]]);
        next[number] = (place + 1, port.ends[place]);
    }
    answers.text(b"totals");
    let books = shared.books.into_inner().unwrap();
    for verdict in [Verdict::Pass, Verdict::Tag, Verdict::Discard, Verdict::Refuse] {
        answers.text(b" ");
        answers.number(books[verdict as usize] as u32);
    }
    answers.text(b"\n");
    io::stdout().write_all(&answers).unwrap_or_else(|_| exit(3));
}
