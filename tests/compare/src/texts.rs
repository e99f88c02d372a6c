//! Plans as text: read, written and walked by the library, beside the independent implementation.

use crate::library::{self, expected, Left};
use crate::tally::Tally;
use crate::walking::{same, walked};
use peer::text;

/// What comes up in reading.
const ANSWERS: [&str; 4] = ["read", "refused 12", "refused 10", "refused 9"];

fn equal(operation: &str, library: Left, peer: Left) -> Result<(), String> {
    if library == peer {
        return Ok(());
    }
    Err(format!(
        "{operation}: the library answers {:?}, the independent implementation {:?}, or the areas differ",
        library.1, peer.1
    ))
}

fn try_text(seed: u64, bytes: &[u8], room: usize) -> Result<(), String> {
    equal(
        "read",
        library::read_plan(bytes, room),
        expected(room, text::read(bytes, room)),
    )?;
    let case = peer::random::case(seed);
    let room = case.room % 40;
    equal(
        "write",
        library::write_plan(&case.plan, room),
        expected(room, text::write(&case.plan, room)),
    )?;
    let room = text::MAX_TEXT;
    equal(
        "write",
        library::write_plan(&case.plan, room),
        expected(room, text::write(&case.plan, room)),
    )?;
    let expected = text::walk_text(&case.file, bytes).map(walked);
    same("walk_text", library::walk_text(&case.file, bytes), expected)
}

pub fn compare(first: u64, count: u64) -> Result<(), String> {
    let mut tally = Tally::new(&ANSWERS);
    for seed in first..first + count {
        let bytes = text::text(seed);
        let room = if seed % 4 == 0 {
            (seed / 4 % 9) as usize
        } else {
            2_048
        };
        try_text(seed, &bytes, room).map_err(|why| format!("text of seed {seed}: {why}"))?;
        tally.count(match text::read(&bytes, room) {
            Ok(_) => "read",
            Err(refusal) => match refusal.number {
                12 => "refused 12",
                10 => "refused 10",
                _ => "refused 9",
            },
        });
    }
    tally.finish()
}
