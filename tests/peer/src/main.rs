//! Program peer: the operations on files, and random cases.

use peer::random::{arguments, case, MAX_FILE};
use peer::search::MAX_NODES;
use peer::settle::is_met;
use peer::{
    check, decode, lost_text, pddl, refused_text, report, search, settle, single, spell, translate,
    walk, week_text, Found, Refusal, Verdict,
};
use std::collections::BTreeMap;
use std::fs;

const USAGE: &str = "usage:
  peer check FILE
  peer judge TASK PLAN
  peer week TASK PLANS
  peer lost TASK STEPS
  peer translate TASK OUT
  peer spell TASK OUT
  peer single TASK OUT
  peer pddl TASK DOMAIN PROBLEM
  peer search TASK LIMIT  print what a search finds, and how many nodes it keeps
  peer case SEED DIR      write the files task and plan of a random case
  peer tally FIRST COUNT  count the answers on the cases of seeds from FIRST";

const NO_FILE: &str = "no file\n";

fn main() {
    let arguments: Vec<String> = std::env::args().skip(1).collect();
    let words: Vec<&str> = arguments.iter().map(String::as_str).collect();
    match answer(&words) {
        Some(text) => print!("{text}"),
        None => {
            eprintln!("{USAGE}");
            std::process::exit(2);
        }
    }
}

/// What to print; none if the words are no command.
fn answer(words: &[&str]) -> Option<String> {
    match words {
        ["check", file] => Some(check_file(file)),
        ["judge", task, plan] => Some(two_files(report, task, plan)),
        ["lost", task, steps] => Some(two_files(lost_text, task, steps)),
        ["week", task, plans] => Some(two_files(week_text, task, plans)),
        ["translate", task, out] => Some(write_file(translate, task, out)),
        ["spell", task, out] => Some(write_file(spell, task, out)),
        ["single", task, out] => Some(write_file(single, task, out)),
        ["pddl", task, domain, problem] => Some(write_pddl(task, domain, problem)),
        ["search", task, limit] => Some(search_file(task, limit.parse().ok()?)),
        ["case", seed, folder] => Some(write_case(seed.parse().ok()?, folder)),
        ["tally", first, count] => Some(tally(first.parse().ok()?, count.parse().ok()?)),
        _ => None,
    }
}

fn check_file(path: &str) -> String {
    let Ok(file) = fs::read(path) else {
        return NO_FILE.to_string();
    };
    match check(&file) {
        Ok(s) => format!(
            "accepted {} {} {} {}\n",
            s.facts, s.actions, s.preferences, s.rows
        ),
        Err(refusal) => refused_text(refusal),
    }
}

/// The lines about a task and another file.
fn two_files(lines: fn(&[u8], &[u8]) -> String, task: &str, other: &str) -> String {
    let (Ok(task), Ok(other)) = (fs::read(task), fs::read(other)) else {
        return NO_FILE.to_string();
    };
    lines(&task, &other)
}

/// An operation that makes a task file, with the room that it is given.
type Write = fn(&[u8], usize) -> Result<Vec<u8>, Refusal>;

/// The output file is opened only once its bytes stand.
fn write_file(operation: Write, task: &str, out: &str) -> String {
    let Ok(task) = fs::read(task) else {
        return NO_FILE.to_string();
    };
    match operation(&task, MAX_FILE) {
        Ok(bytes) => match fs::write(out, bytes) {
            Ok(()) => String::new(),
            Err(_) => NO_FILE.to_string(),
        },
        Err(refusal) => refused_text(refusal),
    }
}

/// The output files are opened only once the texts stand.
fn write_pddl(task: &str, domain: &str, problem: &str) -> String {
    let Ok(task) = fs::read(task) else {
        return NO_FILE.to_string();
    };
    match pddl::write(&task, pddl::MAX_DOMAIN, pddl::MAX_PROBLEM) {
        Ok(texts) => {
            let written =
                fs::write(domain, &texts.domain).and_then(|()| fs::write(problem, &texts.problem));
            match written {
                Ok(()) => String::new(),
                Err(_) => NO_FILE.to_string(),
            }
        }
        Err(refusal) => refused_text(refusal),
    }
}

fn search_file(task: &str, limit: u64) -> String {
    let Ok(task) = fs::read(task) else {
        return NO_FILE.to_string();
    };
    match search(&task, limit, MAX_NODES) {
        Ok(searched) => {
            let found = match searched.found {
                Found::Plan { steps, cost } => format!("found cost {cost} {steps:?}"),
                Found::NoPlan => "none".to_string(),
                Found::Full => "full".to_string(),
            };
            format!("{found}, {} nodes\n", searched.nodes.len())
        }
        Err(refusal) => refused_text(refusal),
    }
}

fn write_case(seed: u64, folder: &str) -> String {
    let case = case(seed);
    let written = fs::create_dir_all(folder)
        .and_then(|()| fs::write(format!("{folder}/task"), &case.file))
        .and_then(|()| fs::write(format!("{folder}/plan"), &case.plan));
    match written {
        Ok(()) => format!("room {}\n", case.room),
        Err(_) => NO_FILE.to_string(),
    }
}

/// How often each answer comes up.
fn tally(first: u64, count: u64) -> String {
    let mut counts: BTreeMap<String, u64> = BTreeMap::new();
    let mut add = |answer: String| *counts.entry(answer).or_insert(0) += 1;
    for seed in first..first + count {
        let case = case(seed);
        add(match check(&case.file) {
            Ok(_) => "check accepted".to_string(),
            Err(refusal) => format!("check refused {:2}", refusal.number),
        });
        add(
            match walk(&case.file, &case.plan).map(|walked| walked.verdict) {
                Ok(Verdict::Solved { .. }) => "walk solved".to_string(),
                Ok(Verdict::Stopped(_)) => "walk stopped".to_string(),
                Ok(Verdict::GoalMissed) => "walk goal missed".to_string(),
                Ok(Verdict::RuleMissed(_)) => "walk rule missed".to_string(),
                Err(refusal) => format!("walk refused {:2}", refusal.number),
            },
        );
        let (cost, met) = arguments(seed, &case.file);
        add(match settle(&case.file, cost, met) {
            Ok(_) => "settle given".to_string(),
            Err(refusal) => format!("settle refused {:2}", refusal.number),
        });
        add(match translate(&case.file, case.room) {
            Ok(_) => "translate written".to_string(),
            Err(refusal) => format!("translate refused {:2}", refusal.number),
        });
        add(match spell(&case.file, case.room) {
            Ok(_) => "spell written".to_string(),
            Err(refusal) => format!("spell refused {:2}", refusal.number),
        });
        add(match single(&case.file, case.room) {
            Ok(_) => "single written".to_string(),
            Err(refusal) => format!("single refused {:2}", refusal.number),
        });
        if let Ok(Verdict::Solved { met, .. }) =
            walk(&case.file, &case.plan).map(|walked| walked.verdict)
        {
            let task = decode(&case.file).expect("walked, so accepted");
            for (k, preference) in task.preferences.iter().enumerate() {
                let outcome = if is_met(met, k) { "met" } else { "missed" };
                add(format!("preference {} {outcome}", preference.name()));
            }
        }
    }
    counts
        .iter()
        .map(|(answer, count)| format!("{count:>8} {answer}\n"))
        .collect()
}
