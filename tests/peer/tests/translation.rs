//! A translated task and its source: the completed list of a plan that solves is
//! a solution whose cost is the metric, and there are no other solutions.

mod common;

use common::course;
use peer::meaning::{after, condition_true, opening, State};
use peer::random::{case, kinds, task_and_plan, up_to, Random, Shape};
use peer::*;

const ROOM: usize = 60_008;

/// The metric of a plan that solves.
fn metric(source: &Task, plan: &[u8]) -> Option<u128> {
    match verdict(source, plan) {
        Verdict::Solved { cost, met } => Some(u128::from(worth(source, cost, met).metric)),
        _ => None,
    }
}

/// The list of a plan of `steps` steps with one of its closing actions dropped, or
/// with another action in its place: all others if few, else some of them, and
/// always collect k for forgo k and forgo k for collect k.
fn spoiled(list: &[usize], steps: usize, actions: usize, r: &mut Random) -> Vec<Vec<usize>> {
    let end = list[steps];
    let mut lists = Vec::new();
    for at in steps..list.len() {
        let mut shorter = list.to_vec();
        shorter.remove(at);
        lists.push(shorter);
        let mut others: Vec<usize> = match actions <= 12 {
            true => (0..actions).collect(),
            false => (0..12).map(|_| r.below(actions)).collect(),
        };
        if at > steps {
            let k = at - steps - 1;
            others.extend([end + 1 + 2 * k, end + 2 + 2 * k]);
        }
        others.retain(|&other| other != list[at]);
        for other in others {
            let mut changed = list.to_vec();
            changed[at] = other;
            lists.push(changed);
        }
    }
    lists
}

#[test]
fn completed_lists_of_random_cases() {
    let mut tried = 0;
    for seed in 0..12_000 {
        let case = case(seed);
        let Ok(Verdict::Solved { cost, met }) =
            walk(&case.file, &case.plan).map(|walked| walked.verdict)
        else {
            continue;
        };
        let metric = settle(&case.file, cost, met).expect("a walk's own").metric;
        let Ok(bytes) = translate(&case.file, ROOM) else {
            continue;
        };
        let source = decode(&case.file).unwrap();
        let task = decode(&bytes).unwrap();
        let list = complete(&source, &case.plan);
        assert_eq!(run(&task, &list), Some(u128::from(metric)), "seed {seed}");
        if list.len() <= 100 {
            let r = &mut Random::new(seed);
            for wrong in spoiled(&list, case.plan.len(), task.actions.len(), r) {
                assert_eq!(run(&task, &wrong), None, "seed {seed}, list {wrong:?}");
            }
        }
        tried += 1;
    }
    assert!(tried > 4_000, "{tried}");
}

/// A plan that doesn't solve has no solution either, whatever its closing actions.
#[test]
fn plans_that_do_not_solve() {
    // Without a missed rule, and with one.
    let mut tried = [0, 0];
    for seed in 0..12_000 {
        let case = case(seed);
        let verdict = walk(&case.file, &case.plan).map(|walked| walked.verdict);
        if matches!(verdict, Err(_) | Ok(Verdict::Solved { .. })) {
            continue;
        }
        let rule = matches!(verdict, Ok(Verdict::RuleMissed(_)));
        let Ok(bytes) = translate(&case.file, ROOM) else {
            continue;
        };
        let source = decode(&case.file).unwrap();
        let task = decode(&bytes).unwrap();
        let preferences = source.preferences.len();
        if preferences > 6 {
            continue;
        }
        for choice in 0..1usize << preferences {
            let mut list: Vec<usize> = case.plan.iter().map(|&step| usize::from(step)).collect();
            let end = source.actions.len();
            list.push(end);
            list.extend((0..preferences).map(|k| end + 1 + 2 * k + (choice >> k & 1)));
            assert_eq!(run(&task, &list), None, "seed {seed}");
        }
        tried[usize::from(rule)] += 1;
    }
    assert!(tried[0] > 400 && tried[1] > 400, "{tried:?}");
}

/// Each kind, those with a deadline having several.
fn kinds_and_deadlines() -> Vec<Kind> {
    let mut kinds = Kind::all(0).to_vec();
    for t in [1, 2, 3, 4, 5, 15] {
        kinds.extend([Kind::Within(t), Kind::AlwaysWithin(t)]);
    }
    kinds
}

/// Every course of φ and ψ over up to 6 states, for each kind.
#[test]
fn all_courses() {
    for kind in kinds_and_deadlines() {
        for length in 1..=6usize {
            for bits in 0..1u32 << (2 * length) {
                let phi: Vec<bool> = (0..length).map(|i| bits >> i & 1 == 1).collect();
                let psi: Vec<bool> = (0..length).map(|i| bits >> (length + i) & 1 == 1).collect();
                let (source, plan) = course(kind, &phi, &psi);
                let task = translated(&source, 12_000).unwrap();
                let Verdict::Solved { met, .. } = verdict(&source, &plan) else {
                    panic!()
                };
                let end = source.actions.len();
                let list =
                    |closing: usize| -> Vec<usize> { (0..end).chain([end, closing]).collect() };
                let (collect, forgo) = (list(end + 1), list(end + 2));
                assert_eq!(run(&task, &collect), (met == 1).then_some(0));
                assert_eq!(run(&task, &forgo), (met == 0).then_some(1));
                let cost = run(&task, &complete(&source, &plan));
                assert_eq!(cost, metric(&source, &plan));
                // The same made hard: collect as before, and forgo never.
                let mut source = source;
                source.preferences[0].hard = true;
                source.preferences[0].weight = 0;
                let task = translated(&source, 12_000).unwrap();
                match met {
                    1 => assert!(matches!(verdict(&source, &plan), Verdict::Solved { .. })),
                    _ => assert_eq!(verdict(&source, &plan), Verdict::RuleMissed(0)),
                }
                assert_eq!(run(&task, &collect), (met == 1).then_some(0));
                assert_eq!(run(&task, &forgo), None);
            }
        }
    }
}

fn tiny(r: &mut Random) -> Shape {
    Shape {
        facts: r.between(1, 3),
        actions: r.between(0, 2),
        kinds: up_to(r, 2),
        hard: r.pick(&[0, 0, 30, 60]),
        clauses: 2,
        literals: 2,
        effects: 2,
        steps: 3,
    }
}

/// Calls `visit` with every list of numbers below `numbers`, up to a length.
fn all_lists(numbers: usize, length: usize, visit: &mut impl FnMut(&[usize])) {
    fn grow(
        list: &mut Vec<usize>,
        numbers: usize,
        length: usize,
        visit: &mut impl FnMut(&[usize]),
    ) {
        visit(list);
        if list.len() < length {
            for number in 0..numbers {
                list.push(number);
                grow(list, numbers, length, visit);
                list.pop();
            }
        }
    }
    grow(&mut Vec::new(), numbers, length, visit);
}

/// How many plans up to a length solve the source; each completed list is looked at.
fn solving_plans(source: &Task, task: &Task, steps: usize) -> usize {
    let mut count = 0;
    all_lists(source.actions.len(), steps, &mut |list| {
        let plan: Vec<u8> = list.iter().map(|&step| step as u8).collect();
        if let Some(metric) = metric(source, &plan) {
            assert_eq!(run(task, &complete(source, &plan)), Some(metric));
            count += 1;
        }
    });
    count
}

/// A solution's source part solves the source, the solution completes it, and its
/// cost is the metric.
fn look_at_solution(source: &Task, list: &[usize], cost: u128) {
    let below = source.actions.len();
    let plan: Vec<u8> = list
        .iter()
        .filter(|&&n| n < below)
        .map(|&n| n as u8)
        .collect();
    let Some(metric) = metric(source, &plan) else {
        panic!("the source part of {list:?} doesn't solve");
    };
    assert_eq!(complete(source, &plan), list);
    assert_eq!(metric, cost);
}

/// All lists over tiny tasks, each run from the beginning.
#[test]
fn every_list_over_tiny_tasks() {
    let mut found = 0;
    for seed in 0..150 {
        let r = &mut Random::new(seed);
        let mut shape = tiny(r);
        shape.kinds = up_to(r, 1 + usize::from(shape.actions < 2));
        let (source, _) = task_and_plan(r, &shape);
        let task = translated(&source, 12_000).unwrap();
        let length = 5;
        let mut solutions = 0;
        all_lists(task.actions.len(), length, &mut |list| {
            if let Some(cost) = run(&task, list) {
                look_at_solution(&source, list, cost);
                solutions += 1;
            }
        });
        let steps = length - 1 - source.preferences.len();
        assert_eq!(
            solutions,
            solving_plans(&source, &task, steps),
            "seed {seed}"
        );
        found += solutions;
    }
    assert!(found > 500, "{found}");
}

/// The same with longer lists; a list whose last step doesn't apply isn't
/// lengthened, as no list that begins so can solve.
#[test]
fn every_longer_list_that_applies() {
    struct Search<'a> {
        source: &'a Task,
        task: &'a Task,
        length: usize,
        list: Vec<usize>,
        solutions: usize,
    }
    impl Search<'_> {
        fn from(&mut self, state: &State, cost: u128) {
            if condition_true(&self.task.goal, state) {
                look_at_solution(self.source, &self.list, cost);
                self.solutions += 1;
            }
            if self.list.len() == self.length {
                return;
            }
            for (number, action) in self.task.actions.iter().enumerate() {
                if condition_true(&action.precondition, state) {
                    self.list.push(number);
                    self.from(&after(action, state), cost + u128::from(action.cost));
                    self.list.pop();
                }
            }
        }
    }
    let mut found = 0;
    for seed in 1_000..2_500 {
        let r = &mut Random::new(seed);
        let mut shape = tiny(r);
        shape.kinds = up_to(r, 4);
        let (source, _) = task_and_plan(r, &shape);
        let task = translated(&source, 12_000).unwrap();
        let steps = 6;
        let mut search = Search {
            source: &source,
            task: &task,
            length: steps + 1 + source.preferences.len(),
            list: Vec::new(),
            solutions: 0,
        };
        search.from(&opening(&task), 0);
        assert_eq!(
            search.solutions,
            solving_plans(&source, &task, steps),
            "seed {seed}"
        );
        found += search.solutions;
    }
    assert!(found > 10_000, "{found}");
}

/// The least metric of a plan of at most so many steps that solves.
fn least_metric(source: &Task, steps: usize) -> Option<u128> {
    let mut least: Option<u128> = None;
    all_lists(source.actions.len(), steps, &mut |list| {
        let plan: Vec<u8> = list.iter().map(|&step| step as u8).collect();
        least = least.into_iter().chain(metric(source, &plan)).min();
    });
    least
}

/// The least cost of a list of at most so many steps that solves from a state on.
fn least_cost(task: &Task, state: &State, steps: usize) -> Option<u128> {
    let here = condition_true(&task.goal, state).then_some(0);
    if steps == 0 {
        return here;
    }
    let applies = |action: &&Action| condition_true(&action.precondition, state);
    let by = |action: &Action| {
        let behind = least_cost(task, &after(action, state), steps - 1)?;
        Some(u128::from(action.cost) + behind)
    };
    let behind = task.actions.iter().filter(applies).filter_map(by);
    here.into_iter().chain(behind).min()
}

/// On tasks where every preference has a deadline, most of them one that plans of 7
/// steps meet or miss.
#[test]
fn least_cost_is_least_metric() {
    let (mut solved, mut paid) = (0, 0);
    for seed in 5_000..6_000 {
        let r = &mut Random::new(seed);
        let mut shape = tiny(r);
        shape.actions = r.between(1, 2);
        shape.kinds = kinds(r, 60);
        shape.kinds.retain(|kind| kind.deadline().is_some());
        shape.kinds.truncate(r.between(1, 4));
        let (source, _) = task_and_plan(r, &shape);
        let task = translated(&source, 12_000).unwrap();
        let steps = 7;
        let closing = 1 + source.preferences.len();
        let metric = least_metric(&source, steps);
        let cost = least_cost(&task, &opening(&task), steps + closing);
        assert_eq!(cost, metric, "seed {seed}");
        solved += usize::from(metric.is_some());
        paid += usize::from(metric > Some(0));
    }
    assert!(solved > 500 && paid > 200, "{solved} {paid}");
}
