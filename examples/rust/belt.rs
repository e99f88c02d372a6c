//! Checks the belt's task, translates it, writes the translation as PDDL and with single literals in its effects, searches it for a
//! cheapest plan, spells the task, walks a plan on it, as bytes and as text, takes the source part of a translated one, settles
//! what it is worth, puts a week of plans into figures, says what beginnings of translated runs have lost, and prints the answers:
//! `belt TASK PLAN`.

#[path = "../../include/route_rules.rs"]
mod route_rules;

use route_rules::{
    Found, Lost, Node, Refusal, Verdict, Walked, MAX_COST, MAX_FILE, MAX_FOUND, MAX_NODES,
    MAX_PDDL, MAX_REPORT, MAX_STEPS, MAX_TEXT,
};
use std::fs;

fn refused(refusal: Refusal) -> String {
    format!("refused {} {}", refusal.number, refusal.place)
}

fn check(file: &[u8]) {
    let line = route_rules::check(file).map_or_else(refused, |sizes| {
        format!(
            "facts {} actions {} preferences {} rows {}",
            sizes.facts, sizes.actions, sizes.preferences, sizes.rows
        )
    });
    println!("check: {line}");
}

/// Prints the problem in PDDL, and how long the domain is.
fn pddl(file: &[u8]) {
    let (mut domain, mut problem) = (vec![0; MAX_PDDL], vec![0; MAX_PDDL]);
    match route_rules::pddl(file, &mut domain, &mut problem) {
        Ok((of_domain, of_problem)) => {
            println!("pddl: domain {of_domain} bytes, problem:");
            print!("{}", String::from_utf8_lossy(&problem[..of_problem]));
        }
        Err(refusal) => println!("pddl: {}", refused(refusal)),
    }
}

/// Says how long the task with single literals is.
fn single(file: &[u8], room: usize) {
    let mut out = vec![0; room];
    let line = route_rules::single(file, &mut out)
        .map_or_else(refused, |length| format!("{length} bytes"));
    println!("single: {line}");
}

/// Prints a cheapest plan, and how the last node came about.
fn search(file: &[u8], limit: u64) {
    let (mut nodes, mut plan) = (vec![Node::default(); MAX_NODES], [0; MAX_FOUND]);
    let line =
        route_rules::search(file, limit, &mut nodes, &mut plan).map_or_else(refused, |searched| {
            let found = match searched.found {
                Found::Plan { cost, steps } => {
                    format!("found cost {cost} steps{}", self::steps(&plan[..steps]))
                }
                Found::NoPlan => "none".to_string(),
                Found::Full => "full".to_string(),
            };
            let last = nodes[searched.nodes - 1];
            let (count, origin, action) = (searched.nodes, last.origin(), last.action());
            format!("{found}, nodes {count}, the last from {origin} by {action}")
        });
    println!("search: {line}");
}

fn translate(file: &[u8]) {
    let mut out = vec![0; MAX_FILE];
    match route_rules::translate(file, &mut out) {
        Ok(length) => {
            println!("translate: {length} bytes");
            check(&out[..length]);
            single(&out[..length], MAX_FILE); // every clause of an effect has one literal already
            single(&out[..length], length - 1); // an area that is a byte short
            pddl(&out[..length]);
            search(&out[..length], MAX_NODES as u64);
            search(&out[..length], 2); // full
            search(&out[..length], MAX_NODES as u64 + 1); // no such limit
        }
        Err(refusal) => println!("translate: {}", refused(refusal)),
    }
}

/// Says whether the file is its own spelling.
fn spell(file: &[u8], room: usize) {
    let mut out = vec![0; room];
    let line = route_rules::spell(file, &mut out).map_or_else(refused, |length| {
        let same = match out[..length] == *file {
            true => "the same file",
            false => "another file",
        };
        format!("{length} bytes, {same}")
    });
    println!("spell: {line}");
}

fn walked(walked: Walked) -> String {
    let verdict = match walked.verdict {
        Verdict::Solved { cost, met } => {
            let met: String = (0..16)
                .filter(|k| met >> k & 1 == 1)
                .map(|k| format!(" {k}"))
                .collect();
            format!("solved cost {cost} met{met}")
        }
        Verdict::Stopped(step) => format!("stopped {step}"),
        Verdict::GoalMissed => "goal missed".to_string(),
        Verdict::RuleMissed(k) => format!("rule missed {k}"),
    };
    format!("{verdict} literals {}", walked.literals)
}

fn settle(file: &[u8], cost: u64, met: u64) {
    let line = route_rules::settle(file, cost, met).map_or_else(refused, |worth| {
        format!("metric {} utility {}", worth.metric, worth.utility)
    });
    println!("settle: {line}");
}

/// Cost and met preferences first; then, of a plan that solves, what they are worth.
fn walk(file: &[u8], plan: &[u8]) {
    let answer = route_rules::walk(file, plan);
    println!("walk: {}", answer.map_or_else(refused, walked));
    if let Ok(Verdict::Solved { cost, met }) = answer.map(|walked| walked.verdict) {
        settle(file, cost, met);
    }
}

fn write_plan(plan: &[u8]) {
    let mut text = vec![0; MAX_TEXT];
    match route_rules::write_plan(plan, &mut text) {
        Ok(length) => print!("write_plan: {}", String::from_utf8_lossy(&text[..length])),
        Err(refusal) => println!("write_plan: {}", refused(refusal)),
    }
}

/// The steps of a plan that was read.
fn steps(plan: &[u8]) -> String {
    plan.iter().map(|n| format!(" {n}")).collect()
}

fn read_plan(text: &[u8], room: usize) {
    let mut plan = vec![0; room];
    match route_rules::read_plan(text, &mut plan) {
        Ok(length) => println!("read_plan:{}", steps(&plan[..length])),
        Err(refusal) => println!("read_plan: {}", refused(refusal)),
    }
}

/// From what a planner prints for the translation back to a plan of the source.
fn source(file: &[u8], text: &[u8]) {
    let mut plan = vec![0; MAX_STEPS];
    match route_rules::source(file, text, &mut plan) {
        Ok(length) => println!("source:{}", steps(&plan[..length])),
        Err(refusal) => println!("source: {}", refused(refusal)),
    }
}

fn walk_text(file: &[u8], text: &[u8]) {
    let line = route_rules::walk_text(file, text).map_or_else(refused, walked);
    println!("walk_text: {line}");
}

fn report(file: &[u8], plan: &[u8]) {
    let mut text = vec![0; MAX_REPORT];
    match route_rules::report(file, plan, &mut text) {
        Ok(length) => print!("{}", String::from_utf8_lossy(&text[..length])),
        Err(refusal) => println!("report: {}", refused(refusal)),
    }
}

/// The figures of the plans that solve; where none does there are none.
fn week(file: &[u8], plans: &[u8]) {
    let line = match route_rules::week(file, plans) {
        Ok(Some(f)) => format!(
            "solving {} least {} greatest {} sum {} mean {} remainder {} meeting {} {}",
            f.solving, f.least, f.greatest, f.sum, f.mean, f.remainder, f.meeting[0], f.meeting[1]
        ),
        Ok(None) => "solving 0".to_string(),
        Err(refusal) => refused(refusal),
    };
    println!("week: {line}");
}

/// Cost and lost weights together: no solution that begins so costs less.
fn lost(file: &[u8], steps: &[u8]) {
    let line = match route_rules::lost(file, steps) {
        Ok(Lost::Run { cost, lost }) => format!("cost {cost} lost {lost}"),
        Ok(Lost::Stopped(step)) => format!("stopped {step}"),
        Err(refusal) => refused(refusal),
    };
    println!("lost: {line}");
}

fn main() {
    let mut names = std::env::args().skip(1);
    let mut read = || fs::read(names.next().expect("a file's name")).expect("a file");
    let (file, plan) = (read(), read());

    check(&file);
    translate(&file);
    pddl(&file); // a task with preferences
    search(&file, MAX_NODES as u64); // likewise
    spell(&file, MAX_FILE);
    spell(&file, file.len() - 1); // an area that is a byte short
    walk(&file, &plan);
    walk(&file, &[]); // the goal is missed
    walk(&file, &[0, 1, 1, 0]); // utility below 0
    walk(&file, &[2]); // no action 2
    settle(&file, 3, 0b11); // if preference 0 were met as well
    settle(&file, 3, 0b100); // no preference 2
    settle(&file, MAX_COST + 1, 0); // more than any plan costs
    check(&file[..file.len() - 1]); // a byte is missing

    write_plan(&plan);
    read_plan(b"; from a planner\n(a0)\n(a1)\n(a300)\n", MAX_STEPS); // too large for a byte is 255
    read_plan(b"; from a planner\n(a0)\n(a1)\n", 1); // an area that is a byte short
    walk_text(&file, b"; from a planner\n(a0)\n");
    walk_text(&file, b"; from a planner\n(a00)\n"); // line 1 has a leading zero
    source(&file, b"(a0)\n(a2)\n(a4)\n(a5)\n; cost = 8\n");
    source(&file, b"(a0)\n(a7)\n"); // no translated action 7

    report(&file, &plan);
    report(&file, &[2]); // no action 2

    // Two plans that overlap, 0 1 0 and its last step, and one without steps, which misses the goal: starts, lengths, steps.
    let plans = [3, 0, 0, 0, 2, 0, 3, 0, 3, 0, 1, 0, 0, 0, 0, 1, 0];
    week(&file, &plans);
    week(&file, &[1, 0, 0, 0, 0, 0]); // the goal is missed
    week(&file, &plans[..plans.len() - 1]); // a step is missing

    lost(&file, &[]);
    lost(&file, &[0]); // the opening state, which has amber on the belt, is left
    lost(&file, &[0, 2, 4, 5]); // the solution: end, forgo 0, collect 1
    lost(&file, &[0, 2, 3]); // rule 0 is missed, and can't be collected
    lost(&file, &[0, 7]); // no translated action 7
}
