//! Compares the proved library with the independent implementation on random
//! tasks, plans, amounts and areas, valid and damaged: `compare [COUNT [FIRST SEED]]`.
//! `compare search [COUNT [FIRST SEED]]` searches that many tasks, and does nothing else.
//!
//! It prints how often each answer came up, and fails where a result differs, a
//! byte outside it was written, or an answer never came up.

mod library;
mod losing;
mod pddl;
mod searching;
mod settling;
mod singling;
mod sources;
mod spelling;
mod stored;
mod tally;
mod texts;
mod translating;
mod walking;
mod weekly;

use std::process::exit;

fn main() {
    let words: Vec<String> = std::env::args().skip(1).collect();
    let only_search = words.first().is_some_and(|word| word == "search");
    let mut numbers = words
        .iter()
        .skip(usize::from(only_search))
        .map(|word| word.parse::<u64>().expect("a number"));
    let count = numbers.next().unwrap_or(200_000);
    let first = numbers.next().unwrap_or(1);
    println!("{count} cases, first seed {first}");
    let done = match only_search {
        true => searching::vectors()
            .and_then(|()| searching::edges())
            .and_then(|()| searching::compare(first, count)),
        false => everything(first, count),
    };
    if let Err(why) = done {
        println!("{why}");
        exit(1);
    }
}

fn everything(first: u64, count: u64) -> Result<(), String> {
    walking::compare(first, count)
        .and_then(|()| settling::edges())
        .and_then(|()| settling::compare(first, count))
        .and_then(|()| translating::vectors())
        .and_then(|()| translating::edges())
        .and_then(|()| translating::compare(first, count))
        .and_then(|()| spelling::edges())
        .and_then(|()| spelling::compare(first, count))
        .and_then(|()| spelling::properties(first, count / 4))
        .and_then(|()| singling::vectors())
        .and_then(|()| singling::edges())
        .and_then(|()| singling::compare(first, count / 8))
        .and_then(|()| singling::properties(first, count / 20))
        .and_then(|()| weekly::edges())
        .and_then(|()| weekly::vectors())
        .and_then(|()| weekly::compare(first, count / 10))
        .and_then(|()| losing::edges())
        .and_then(|()| losing::vectors())
        .and_then(|()| losing::compare(first, count / 10))
        .and_then(|()| losing::continuations(first, count / 10))
        .and_then(|()| texts::compare(first, count))
        .and_then(|()| sources::vectors())
        .and_then(|()| sources::edges())
        .and_then(|()| sources::compare(first, count))
        .and_then(|()| pddl::edges())
        .and_then(|()| pddl::vectors())
        .and_then(|()| pddl::compare(first, count / 10))
        .and_then(|()| searching::vectors())
        .and_then(|()| searching::edges())
        .and_then(|()| searching::compare(first, count / 10))
}
