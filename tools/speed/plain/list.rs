//! A call list from standard input, run on the memory that headcard has: docs/FORMATS.md and docs/REFUSALS.md.

use crate::memory::{Answer, Board, Buffer, Cache, Call, Line, Map, Store};
use std::io::{self, Read, Write};

const MOST_BYTES: usize = 16_384;

// A call with its name.
type Named = (&'static str, Call);

// The calls of a list, or the number and place of its refusal.
fn calls(bytes: &[u8]) -> Result<Vec<Named>, (u8, usize)> {
    if bytes.len() % 4 != 0 || bytes.len() > MOST_BYTES {
        return Err((8, 0));
    }
    let mut words = bytes
        .chunks_exact(4)
        .map(|b| u32::from_le_bytes([b[0], b[1], b[2], b[3]]))
        .enumerate()
        .peekable();
    let mut calls = Vec::new();
    while let Some((at, head)) = words.next() {
        let word = head & 0x7f_ffff;
        let lanes = (head >> 23 & 3) as u8;
        let kind = head >> 28;
        let stores = matches!(kind, 1 | 2 | 6 | 10);
        let names = stores || matches!(kind, 0 | 5 | 9 | 12);
        if head >> 25 & 7 != 0 || kind >= 14 || !stores && lanes != 0 || !names && word != 0 {
            return Err((9, at));
        }
        let mut value = 0;
        if stores {
            match words.peek() {
                Some(&(next, data)) if data >> 28 == 15 => {
                    if data & 0x0fff_0000 != 0 {
                        return Err((9, next));
                    }
                    value = data as u16;
                    words.next();
                }
                _ => return Err((9, at)),
            }
        }
        let store = Store { word, lanes, value };
        calls.push(match kind {
            0 => ("read", Call::Read(word)),
            1 => ("write", Call::Write(store)),
            2 => ("unposted", Call::Unposted(store)),
            3 => ("advance", Call::Advance),
            4 => ("lock", Call::Lock),
            5 => ("locked-read", Call::LockedRead(word)),
            6 => ("locked-write", Call::LockedWrite(store)),
            7 => ("unlock", Call::Unlock),
            8 => ("ask", Call::Ask),
            9 => ("master-read", Call::MasterRead(word)),
            10 => ("master-write", Call::MasterWrite(store)),
            11 => ("give", Call::Give),
            12 => ("snoop", Call::Snoop(word)),
            _ => ("flush", Call::Flush),
        });
    }
    Ok(calls)
}

fn stock() -> Map {
    let mut ram = vec![Line::ZEROED; 2_048];
    ram[2_047].cacheable = false;
    ram[4].readable[5] = false;
    Map::new(ram, (0..1_024u32).map(|i| i as u8).collect())
}

pub fn run() -> io::Result<()> {
    let mut bytes = Vec::new();
    io::stdin().take(MOST_BYTES as u64 + 1).read_to_end(&mut bytes)?;
    let mut out = io::BufWriter::new(io::stdout().lock());
    let mut board = Board::new(Cache::new(Buffer::new(stock())));
    writeln!(out, "board {} words", board.words())?;
    match calls(&bytes) {
        Err((number, place)) => writeln!(out, "list refused {number} at {place}")?,
        Ok(calls) => {
            for (number, (name, call)) in (1..).zip(calls) {
                match board.call(call) {
                    Ok(Answer::Done) => writeln!(out, "{number} {name} ok")?,
                    Ok(Answer::Word(value)) => writeln!(out, "{number} {name} {value:04X}")?,
                    Err(fault) => writeln!(
                        out,
                        "{number} {name} refused {} at {} floor {}",
                        fault.number, fault.place, fault.floor
                    )?,
                }
            }
            writeln!(out, "waiting {}", board.waiting())?;
        }
    }
    out.flush()
}
