//! The plain model's programs: `plain mixes LINES STAGES ROUNDS MIX..` does as the program `speed`, and `plain list < LIST` as `headcard`.

mod list;
mod memory;
mod mixes;

use memory::{Answer, Board, Buffer, Cache, Call, Fault, Line, Map, Memory};

// An answer as a number.
fn told(answer: Result<Answer, Fault>) -> u32 {
    match answer {
        Ok(Answer::Done) => 1,
        Ok(Answer::Word(value)) => u32::from(value),
        Err(fault) => fault.place ^ (u32::from(fault.number) << 24) ^ (u32::from(fault.floor) << 16),
    }
}

// The sum of the answers to a list that is given so many times.
fn give<M: Memory>(board: &mut Board<M>, list: &[Call], rounds: u32) -> u32 {
    let mut sum = 0u32;
    for _ in 0..rounds {
        for call in list {
            sum = sum.wrapping_mul(31).wrapping_add(told(board.call(*call)));
        }
    }
    sum
}

fn run_on<M: Memory>(memory: M, mix: &str, rounds: u32) -> u32 {
    let mut board = Board::new(memory);
    let words = board.words();
    let writes = mixes::list("writes", words);
    let reads = mixes::list("hits", words);
    let list = mixes::list(mix, words);
    give(&mut board, &writes, 1);
    give(&mut board, &reads, 1);
    let sum = give(&mut board, &list, rounds).wrapping_add(board.waiting());
    sum.wrapping_add(give(&mut board, &reads, 1))
}

fn two_more<M: Memory>(memory: M) -> Cache<Buffer<M>> {
    Cache::new(Buffer::new(memory))
}

fn run_mix(lines: usize, stages: u32, mix: &str, rounds: u32) -> u32 {
    let map = Map::new(vec![Line::ZEROED; lines], vec![0x5a; 1_024]);
    match stages {
        0 => run_on(map, mix, rounds),
        4 => run_on(two_more(two_more(map)), mix, rounds),
        6 => run_on(two_more(two_more(two_more(map))), mix, rounds),
        8 => run_on(two_more(two_more(two_more(two_more(map)))), mix, rounds),
        10 => run_on(two_more(two_more(two_more(two_more(two_more(map))))), mix, rounds),
        12 => run_on(two_more(two_more(two_more(two_more(two_more(two_more(map)))))), mix, rounds),
        _ => run_on(two_more(map), mix, rounds),
    }
}

fn main() {
    let arguments: Vec<String> = std::env::args().skip(1).collect();
    match arguments.iter().map(String::as_str).collect::<Vec<_>>()[..] {
        ["mixes", lines, stages, rounds, ref mixes @ ..] => {
            let number = |text: &str| text.parse::<u32>().unwrap_or(0);
            for mix in mixes {
                let sum = run_mix(number(lines) as usize, number(stages), mix, number(rounds));
                println!("{mix} {sum:08X}");
            }
        }
        ["list"] => list::run().expect("input and output"),
        _ => eprintln!("plain mixes LINES STAGES ROUNDS MIX.., or plain list < LIST"),
    }
}
