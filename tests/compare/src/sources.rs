//! The way back from a planner: the source part that the library writes, beside the independent implementation's, and what it is worth.

use crate::library::{self, expected, Verdict, MAX_STEPS};
use crate::stored::{hold, number};
use crate::tally::Tally;
use peer::random::{case, MAX_FILE};
use peer::source::printed;
use peer::text::{parse, MAX_TEXT};

const ANSWERS: [&str; 14] = [
    "refused 1",
    "refused 2",
    "refused 3",
    "refused 4",
    "refused 5",
    "refused 6",
    "refused 7",
    "refused 8",
    "refused 9",
    "refused 10",
    "refused 11",
    "refused 12",
    "source part",
    "the whole way",
];

// The most steps, as callers are told.
const _: () = assert!(peer::task::MAX_STEPS == MAX_STEPS);

fn same(file: &[u8], text: &[u8], room: usize) -> Result<Option<Vec<u8>>, String> {
    let (out, answer) = library::source(file, text, room);
    let (wanted_out, wanted) = expected(room, peer::source(file, text, room));
    if answer != wanted || out != wanted_out {
        return Err(format!(
            "an area of {room}: the library answers {answer:?}, and not {wanted:?}, or writes other bytes"
        ));
    }
    Ok(answer.ok().map(|length| out[..length].to_vec()))
}

/// Where the list in the text solves the translation, walk and settle give its source part the metric that the list costs.
fn whole_way(file: &[u8], text: &[u8], part: &[u8]) -> Result<bool, String> {
    let (compiled, length) = library::translate(file, MAX_FILE);
    let compiled = &compiled[..length.map_err(|why| format!("translate: {why:?}"))?];
    let list = parse(text).expect("a text that was read");
    let walked = library::walk(compiled, &list).map_err(|why| format!("the list: {why:?}"))?;
    let Verdict::Solved { cost: paid, .. } = walked.verdict else {
        return Ok(false);
    };
    let walked = library::walk(file, part).map_err(|why| format!("the source part: {why:?}"))?;
    let Verdict::Solved { cost, met } = walked.verdict else {
        return Err(
            "the list solves the translation, and its source part does not solve".to_string(),
        );
    };
    let worth = library::settle(file, cost, met).map_err(|why| format!("settle: {why:?}"))?;
    match worth.metric == paid {
        true => Ok(true),
        false => Err(format!(
            "the list costs {paid}, and its source part comes to {}",
            worth.metric
        )),
    }
}

pub fn compare(first: u64, count: u64) -> Result<(), String> {
    let mut tally = Tally::new(&ANSWERS);
    for seed in first..first + count {
        let case = case(seed);
        let text = printed(seed, &case.file, &case.plan);
        let at = |why| format!("source part of seed {seed}: {why}");
        let room = if seed % 5 == 0 {
            (seed / 5 % 4) as usize
        } else {
            MAX_STEPS
        };
        match same(&case.file, &text, room).map_err(at)? {
            Some(part) => {
                tally.count("source part");
                if whole_way(&case.file, &text, &part).map_err(at)? {
                    tally.count("the whole way");
                }
            }
            None => {
                let refusal = peer::source(&case.file, &text, room).expect_err("refused");
                tally.count(ANSWERS[usize::from(refusal.number) - 1]);
            }
        }
    }
    tally.finish()
}

/// The library gives the answers that the account in Python gave.
pub fn vectors() -> Result<(), String> {
    hold("source", 3, |records| {
        let (file, text, room) = (&records[0], &records[1], number(&records[2], 0) as usize);
        let (out, answer) = library::source(file, text, room);
        same(file, text, room)?;
        Ok(match answer {
            Ok(length) => {
                let steps = out[..length].iter().map(|step| format!(" {step}"));
                format!("plan{}\n", steps.collect::<String>())
            }
            Err(refusal) => format!("refused {} {}\n", refusal.number, refusal.place),
        })
    })
}

/// Texts and areas at their limits, on the belt.
pub fn edges() -> Result<(), String> {
    let belt = std::fs::read(concat!(
        env!("CARGO_MANIFEST_DIR"),
        "/../../examples/belt/task"
    ))
    .expect("the belt");
    for (text, rooms) in [
        (b"(a0)\n".repeat(2_048), vec![2_048, 2_047, 0]),
        (b"(a0)\n".repeat(2_049), vec![4_096]),
        (b";".repeat(MAX_TEXT - 1), vec![0]),
        (
            [b";".repeat(MAX_TEXT - 1), b"\n".to_vec()].concat(),
            vec![0],
        ),
        ([b";".repeat(MAX_TEXT), b"\n".to_vec()].concat(), vec![0]),
        (b"(a6)\n(a7)\n(a255)\n".to_vec(), vec![0, 8]),
        (b"(a256)\n".to_vec(), vec![8]),
    ] {
        for room in rooms {
            same(&belt, &text, room).map_err(|why| format!("a text of {}: {why}", text.len()))?;
        }
    }
    Ok(())
}
