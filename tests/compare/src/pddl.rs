//! PDDL texts: the library's beside the independent implementation's.

use crate::library;
use crate::stored::{hold, number, refused, written};
use crate::tally::Tally;
use peer::encode;
use peer::pddl::{longest_domain, longest_problem, MAX_DOMAIN, MAX_PROBLEM};
use peer::random::MAX_FILE;
use peer::task::MAX_ROWS;

// The area that callers are told to lend holds the longest texts.
const _: () = assert!(MAX_DOMAIN <= library::MAX_PDDL && MAX_PROBLEM <= library::MAX_PDDL);

const ANSWERS: [&str; 9] = [
    "refused 1",
    "refused 2",
    "refused 3",
    "refused 4",
    "refused 5",
    "refused 6",
    "refused 13",
    "refused 14",
    "both texts",
];

/// The library's answer on a file and areas of so many bytes, held to the independent implementation's: the same refusal and
/// nothing written, or the same texts and nothing written behind them.
fn same(file: &[u8], rooms: (usize, usize)) -> Result<&'static str, String> {
    let got = library::pddl(file, rooms);
    let wanted = library::both_expected(rooms, peer::pddl::write(file, rooms.0, rooms.1));
    if got != wanted {
        return Err(format!(
            "areas of {rooms:?}: the library answers {:?}, and not {:?}, or writes other bytes",
            got.answer, wanted.answer
        ));
    }
    Ok(match got.answer {
        Ok(_) => "both texts",
        Err(refusal) => match refusal.number {
            13 => "refused 13",
            14 => "refused 14",
            number => ANSWERS[number as usize - 1],
        },
    })
}

/// Areas that hold every text, areas that fit, and areas of which the first or the second is a byte too short. It answers both
/// lengths.
fn fitting(file: &[u8]) -> Result<(usize, usize), String> {
    let (domain, problem) = library::pddl(file, (MAX_DOMAIN, MAX_PROBLEM))
        .answer
        .map_err(|refusal| format!("{refusal:?}"))?;
    for (rooms, wanted) in [
        ((library::MAX_PDDL, library::MAX_PDDL), "both texts"),
        ((library::MAX_PDDL, problem - 1), "refused 14"),
        ((domain - 1, library::MAX_PDDL), "refused 14"),
        ((domain, problem), "both texts"),
        ((domain - 1, problem), "refused 14"),
        ((domain, problem - 1), "refused 14"),
        ((0, 0), "refused 14"),
    ] {
        if same(file, rooms)? != wanted {
            return Err(format!("areas of {rooms:?} are not {wanted}"));
        }
    }
    Ok((domain, problem))
}

/// The library gives the answers that the account in Python gave.
pub fn vectors() -> Result<(), String> {
    hold("pddl", 2, |records| {
        let room = |at| number(&records[1], at) as usize;
        let got = library::pddl(&records[0], (room(0), room(8)));
        let (domain, problem) = got.answer.unwrap_or((0, 0));
        let texts = [
            written(&got.domain, domain)?,
            written(&got.problem, problem)?,
        ]
        .concat();
        let texts = String::from_utf8_lossy(&texts);
        let lengths = format!("domain {domain} problem {problem}\n");
        Ok(got.answer.map_or_else(refused, |_| lengths + &texts))
    })
}

pub fn edges() -> Result<(), String> {
    let domain = fitting(&encode(&longest_domain(MAX_ROWS)))?.0;
    let problem = fitting(&encode(&longest_problem(MAX_ROWS)))?.1;
    if (domain, problem) != (MAX_DOMAIN, MAX_PROBLEM) {
        return Err(format!(
            "the longest texts have {domain} and {problem} bytes"
        ));
    }
    println!("longest texts: as they should be");
    Ok(())
}

pub fn compare(first: u64, count: u64) -> Result<(), String> {
    let mut tally = Tally::new(&ANSWERS);
    for seed in first..first + count {
        let case = peer::random::case(seed);
        let at = |why| format!("PDDL of seed {seed}: {why}");
        // Where nothing fits, 1 to 6 and 13 still come before 14.
        for rooms in [(MAX_DOMAIN, MAX_PROBLEM), (0, 0)] {
            tally.count(same(&case.file, rooms).map_err(at)?);
        }
        if let Ok(compiled) = peer::translate(&case.file, MAX_FILE) {
            let room = case.room % 4_000;
            tally.count(same(&compiled, (room, MAX_PROBLEM)).map_err(at)?);
            fitting(&compiled).map_err(at)?;
        }
    }
    tally.finish()
}
