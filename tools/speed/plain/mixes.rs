//! The lists of calls, as the program `speed` makes them (`crates/speed/src/mixes.rt`, which says what is in them).

use crate::memory::{Call, Store};

const CALLS: u32 = 2_048;
const HELD_WORDS: u32 = 4_096;

fn scattered(number: u32) -> u32 {
    let once = number.wrapping_add(1).wrapping_mul(0x9e37_79b1);
    let twice = (once ^ (once >> 15)).wrapping_mul(0x85eb_ca6b);
    twice ^ (twice >> 13)
}

fn among(number: u32, places: u32) -> u32 {
    scattered(number) % places
}

fn store(number: u32, words: u32) -> Store {
    Store {
        word: among(number, words),
        lanes: (number % 3) as u8 + 1,
        value: (scattered(number) >> 16) as u16,
    }
}

fn far(number: u32, lines: u32) -> u32 {
    number * 769 % lines * 8 + number % 8
}

fn any_call(number: u32, words: u32) -> Call {
    match number % 32 {
        3 | 7 | 12 | 18 | 25 | 29 => Call::Write(store(number, words)),
        5 | 15 => Call::Advance,
        8 => Call::Lock,
        9 => Call::LockedRead(among(number, words)),
        10 => Call::LockedWrite(store(number, words)),
        11 => Call::Unlock,
        13 => Call::Unposted(store(number, words)),
        20 => Call::Ask,
        21 => Call::MasterRead(among(number, words)),
        22 => Call::MasterWrite(store(number, HELD_WORDS)),
        23 => Call::Snoop(among(number - 1, HELD_WORDS)),
        24 => Call::Give,
        30 => Call::Read(far(number, words / 8)),
        31 if number == 31 => Call::Flush,
        _ => Call::Read(among(number, HELD_WORDS)),
    }
}

fn granted(number: u32, call: Call) -> Call {
    match number {
        0 => Call::Ask,
        _ if number == CALLS - 1 => Call::Give,
        _ => call,
    }
}

fn call_at(mix: &str, number: u32, words: u32) -> Call {
    match mix {
        "hits" => Call::Read(among(number, HELD_WORDS)),
        "misses" => Call::Read(far(number, words / 8)),
        "writes" => Call::Write(store(number, words)),
        "masters" if number % 2 == 0 => granted(number, Call::MasterWrite(store(number, words))),
        "masters" => granted(number, Call::Snoop(among(number - 1, words))),
        "settled" => granted(number, Call::MasterRead(among(number, words))),
        "unposted" => Call::Unposted(store(number, words)),
        _ => any_call(number, words),
    }
}

pub fn list(mix: &str, words: u32) -> Vec<Call> {
    (0..CALLS).map(|number| call_at(mix, number, words)).collect()
}
