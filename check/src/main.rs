//! A second opinion on the setter: a setter of its own, by the rules, and the library get the same calls.

mod compare;
mod counts;
mod generate;
mod library;
mod lines;
mod model;
mod random;
mod tell;
mod wire;

use compare::{Failure, Pair, When, call_unopened, try_opening};
use counts::Counts;
use generate::Caller;
use library::Library;
use model::Book;
use std::process::ExitCode;
use std::time::Instant;

const USAGE: &str = "check [TEXTS [CALLS [SEED]]]: numbers; 100, 10000 and 1 where not given";

/// How many openings and calls are tried before a book is opened.
const ODD_OPENINGS: u32 = 20;
const UNOPENED_CALLS: u32 = 20;

struct Wish {
    texts: u64,
    calls: u64,
    seed: u64,
}

impl Wish {
    fn read(arguments: impl Iterator<Item = String>) -> Option<Wish> {
        let numbers: Vec<u64> = arguments
            .map(|word| word.parse().ok())
            .collect::<Option<_>>()?;
        if numbers.len() > 3 {
            return None;
        }
        let number = |at: usize, default| numbers.get(at).copied().unwrap_or(default);
        Some(Wish {
            texts: number(0, 100),
            calls: number(1, 10_000),
            seed: number(2, 1),
        })
    }
}

/// Everything that is tried with one text.
fn try_text(wish: &Wish, number: u64, counts: &mut Counts) -> Result<(), Box<Failure>> {
    let mut caller = Caller::new(wish.seed, number);
    for _ in 0..ODD_OPENINGS {
        let odd = caller.odd_opening();
        try_opening(&odd).map_err(|found| Failure::new(When::Opening, odd, &[], found))?;
        counts.openings += 1;
    }

    let opening = caller.opening();
    let failed = |when, calls: &[_], found| Failure::new(when, opening, calls, found);
    let mut library = Library::unopened(opening.lent);
    let empty = Book::open(opening.limits, opening.looks, opening.lent).expect("a good opening");
    for _ in 0..UNOPENED_CALLS {
        let bytes = caller.next(&empty);
        call_unopened(&bytes, &mut library)
            .map_err(|found| failed(When::Before, &[bytes], found))?;
        counts.unopened += 1;
    }

    let mut pair =
        Pair::open(&opening, library).map_err(|found| failed(When::Opening, &[], found))?;
    let mut calls = Vec::new();
    for _ in 0..wish.calls {
        let bytes = caller.next(&pair.model);
        calls.push(bytes.clone());
        let answer = pair
            .call(&bytes)
            .map_err(|found| failed(When::Open, &calls, found))?;
        caller.heard(&bytes, &pair.model);
        counts.add(&answer);
    }
    Ok(())
}

fn main() -> ExitCode {
    let Some(wish) = Wish::read(std::env::args().skip(1)) else {
        eprintln!("{USAGE}");
        return ExitCode::from(2);
    };
    let Wish { texts, calls, seed } = wish;
    let start = Instant::now();
    let mut counts = Counts::default();
    for number in 0..texts {
        if let Err(failure) = try_text(&wish, number, &mut counts) {
            println!(
                "seed {seed}, text {number}, after {} calls",
                failure.calls()
            );
            println!("{}", failure.shortened());
            return ExitCode::from(1);
        }
    }
    let seconds = start.elapsed().as_secs_f64();
    println!("seed {seed}: {texts} texts with {calls} calls each, all agreed, {seconds:.1} s");
    println!("{counts}");
    ExitCode::SUCCESS
}
