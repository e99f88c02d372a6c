//! The tasks and plans that are measured.

use peer::random::{task_and_plan, Random, Shape, MAX_FILE};
use peer::task::{MAX_DEADLINE, MAX_ROWS, MAX_STEPS};
use peer::week::{joined, split, MAX_PLANS};
use peer::{
    complete, decode, encode, pddl, singled, text, translate, translated, verdict, walk, Action,
    Clause, Condition, Effect, Kind, Literal, Preference, Task, Verdict,
};
use std::fs;
use std::path::Path;

/// A task file and a plan, with its text, its list of translated actions and that as text, what it costs and meets where it solves,
/// and a week in which it comes as often as it may.
pub struct Input {
    pub name: String,
    pub file: Vec<u8>,
    pub plan: Vec<u8>,
    pub text: Vec<u8>,
    pub list: Vec<u8>,
    pub printed: Vec<u8>,
    pub plans: Vec<u8>,
    pub cost: u64,
    pub met: u64,
}

impl Input {
    /// Written as files, with the name of an operation.
    pub fn save(&self, folder: &Path, operation: &str) {
        fs::create_dir_all(folder).expect("a folder");
        let amounts = [self.cost.to_le_bytes(), self.met.to_le_bytes()].concat();
        for (name, bytes) in [
            ("operation", operation.as_bytes()),
            ("file", &self.file),
            ("plan", &self.plan),
            ("text", &self.text),
            ("list", &self.list),
            ("printed", &self.printed),
            ("plans", &self.plans),
            ("amounts", &amounts),
        ] {
            fs::write(folder.join(name), bytes).expect("a file");
        }
    }

    /// Read again, with the name of the operation.
    pub fn load(folder: &Path) -> (String, Input) {
        let read = |name: &str| fs::read(folder.join(name)).expect("a file");
        let amount = |at: usize| {
            let bytes = read("amounts")[at..at + 8].try_into();
            u64::from_le_bytes(bytes.expect("eight bytes"))
        };
        let input = Input {
            name: String::new(),
            file: read("file"),
            plan: read("plan"),
            text: read("text"),
            list: read("list"),
            printed: read("printed"),
            plans: read("plans"),
            cost: amount(0),
            met: amount(8),
        };
        (String::from_utf8(read("operation")).expect("a name"), input)
    }
}

impl Input {
    /// The steps of the week's plans together.
    pub fn planned_steps(&self) -> u64 {
        let plans = split(&self.plans).expect("plans");
        plans.iter().map(|plan| plan.len() as u64).sum()
    }
}

/// A plan with end and the closings after it, where there is room for them and it runs.
fn completed(file: &[u8], plan: &[u8]) -> Vec<u8> {
    let task = decode(file).expect("a task");
    let runs = !matches!(verdict(&task, plan), Verdict::Stopped(_));
    match runs && plan.len() + 1 + task.preferences.len() <= MAX_STEPS {
        true => complete(&task, plan).iter().map(|&n| n as u8).collect(),
        false => plan.to_vec(),
    }
}

fn of_file(name: &str, file: Vec<u8>, plan: Vec<u8>) -> Input {
    let (cost, met) = match walk(&file, &plan).map(|walked| walked.verdict) {
        Ok(Verdict::Solved { cost, met }) => (cost, met),
        _ => (0, 0),
    };
    let list = completed(&file, &plan);
    let text = |steps: &[u8]| text::write(steps, text::MAX_TEXT).expect("a text");
    Input {
        name: name.to_string(),
        text: text(&plan),
        printed: text(&list),
        list,
        plans: joined(&[(0, plan.len()); MAX_PLANS], &plan),
        file,
        plan,
        cost,
        met,
    }
}

fn input(name: &str, task: &Task, plan: Vec<u8>) -> Input {
    of_file(name, encode(task), plan)
}

/// The belt of document 01.
pub fn belt() -> Input {
    let literal = |holds, fact| vec![vec![Literal { holds, fact }]];
    let action = |cost, adds, deletes| Action {
        cost,
        precondition: vec![],
        effects: vec![Effect {
            condition: vec![],
            adds,
            deletes,
        }],
    };
    let rule = |kind, weight, phi| Preference {
        kind,
        hard: false,
        weight,
        phi,
        psi: vec![],
    };
    let task = Task {
        facts: 2,
        start: vec![1],
        goal: literal(false, 1),
        actions: vec![action(3, vec![0], vec![1]), action(1, vec![1], vec![0])],
        preferences: vec![
            rule(Kind::Always, 5, literal(false, 1)),
            rule(Kind::Sometime, 7, literal(true, 0)),
        ],
    };
    input("belt", &task, vec![0])
}

/// The belt, swept and loaded so many times.
pub fn belt_again(steps: usize) -> Input {
    let plan = (0..steps).map(|i| (i % 2) as u8).collect();
    of_file(&format!("belt, {steps} steps"), belt().file, plan)
}

/// The same task with a plan of so many steps by all its actions in turn.
pub fn in_turn(source: Input, steps: usize) -> Input {
    let actions = source.file[2];
    let plan = (0..steps)
        .map(|i| (i % usize::from(actions)) as u8)
        .collect();
    let name = format!("{}, {steps} steps", source.name);
    of_file(&name, source.file, plan)
}

/// A random task with every kind of preference, and a plan of 200 steps that solves it.
pub fn middle() -> Input {
    let shape = Shape {
        facts: 60,
        actions: 40,
        kinds: Kind::all(6).to_vec(),
        hard: 0,
        clauses: 3,
        literals: 3,
        effects: 3,
        steps: 200,
    };
    let fits = |task: &Task, plan: &[u8]| {
        plan.len() == 200
            && matches!(verdict(task, plan), Verdict::Solved { .. })
            && translated(task, MAX_ROWS).is_some()
    };
    let (task, plan) = (1..)
        .map(|seed| task_and_plan(&mut Random::new(seed), &shape))
        .find(|(task, plan)| fits(task, plan))
        .expect("such a task");
    input("middle", &task, plan)
}

/// A clause whose last literal alone is true: facts from 2 on are never held.
fn clause(literals: usize) -> Clause {
    let fact = |n| 2 + n % 40;
    let mut clause: Clause = (1..literals)
        .map(|n| Literal {
            holds: true,
            fact: fact(n),
        })
        .collect();
    clause.push(Literal {
        holds: false,
        fact: fact(literals),
    });
    clause
}

/// A true condition of so many rows (not 1), in clauses of up to 8 literals.
fn condition(rows: usize) -> Condition {
    let mut clauses = vec![];
    let mut left = rows;
    while left > 0 {
        let next = if left > 10 { 9 } else { left };
        clauses.push(clause(next - 1));
        left -= next;
    }
    clauses
}

/// An action that turns two facts over, with so many more rows of conditions in its effect.
fn action(rows: usize, adds: usize) -> Action {
    Action {
        cost: 1,
        precondition: vec![],
        effects: vec![Effect {
            condition: condition(rows),
            adds: vec![adds],
            deletes: vec![1 - adds],
        }],
    }
}

fn task(actions: Vec<Action>, preferences: Vec<Preference>) -> Task {
    Task {
        facts: 60,
        start: vec![0],
        goal: condition(2),
        actions,
        preferences,
    }
}

/// Preferences of these kinds with so many rows of conditions between them.
fn preferences(kinds: &[Kind], rows: usize) -> Vec<Preference> {
    let mut left = rows;
    let mut still: usize = kinds.iter().map(|&kind| sides(kind)).sum();
    let mut share = || {
        let n = left / still;
        left -= n;
        still -= 1;
        condition(n)
    };
    let preference = |&kind: &Kind| Preference {
        kind,
        hard: false,
        weight: 7,
        phi: share(),
        psi: if kind.has_second() { share() } else { vec![] },
    };
    kinds.iter().map(preference).collect()
}

/// 16 preferences of the six kinds without a deadline.
fn six_kinds() -> Vec<Kind> {
    (0..16).map(|k| Kind::all(0)[k % 6]).collect()
}

/// So many preferences with a deadline, the latest.
fn deadlines(count: usize) -> Vec<Kind> {
    (0..count)
        .map(|k| Kind::all(MAX_DEADLINE)[6 + k % 2])
        .collect()
}

fn sides(kind: Kind) -> usize {
    if kind.has_second() {
        2
    } else {
        1
    }
}

/// A task of so many rows, nearly all in its preferences, none of which is decided early.
pub fn in_preferences(rows: usize, steps: usize) -> Input {
    let name = format!("{rows} rows in preferences, {steps} steps");
    in_conditions(&name, rows, steps, |n| preferences(&six_kinds(), n))
}

/// The same with deadlines: each always-within is open in every other state.
pub fn in_deadlines(rows: usize, steps: usize) -> Input {
    let name = format!("{rows} rows in deadlines, {steps} steps");
    in_conditions(&name, rows, steps, |n| {
        let mut preferences = preferences(&deadlines(16), n);
        for preference in &mut preferences {
            if preference.kind.has_second() {
                preference.psi.push(vec![Literal {
                    holds: true,
                    fact: 0,
                }]);
            }
        }
        preferences
    })
}

/// The same with hard rules, all met: of every kind but sometime-before, since φ is true in the opening state.
pub fn in_hard_rules(rows: usize, steps: usize) -> Input {
    let name = format!("{rows} rows in hard rules, {steps} steps");
    let mut kinds = Kind::all(MAX_DEADLINE).to_vec();
    kinds.retain(|&kind| kind != Kind::SometimeBefore);
    let sixteen: Vec<Kind> = kinds.iter().copied().cycle().take(16).collect();
    in_conditions(&name, rows, steps, |n| made_hard(preferences(&sixteen, n)))
}

fn made_hard(mut preferences: Vec<Preference>) -> Vec<Preference> {
    for preference in &mut preferences {
        preference.hard = true;
        preference.weight = 0;
    }
    preferences
}

/// A task of so many rows with two actions and preferences that have as many rows as it takes; the steps take both by turns.
fn in_conditions(
    name: &str,
    rows: usize,
    steps: usize,
    preferences: impl Fn(usize) -> Vec<Preference>,
) -> Input {
    let with = |n| task(vec![action(0, 0), action(0, 1)], preferences(n));
    let full = with(rows + 64 - with(64).rows());
    assert_eq!(full.rows(), rows);
    let plan = (0..steps).map(|i| (i % 2) as u8).collect();
    input(name, &full, plan)
}

/// A task of so many rows, nearly all in the one action that every step takes.
pub fn in_action(rows: usize, steps: usize) -> Input {
    let with = |n| task(vec![action(n, 0)], preferences(&six_kinds(), 64));
    let full = with(rows + 2 - with(2).rows());
    assert_eq!(full.rows(), rows);
    input(
        &format!("{rows} rows in an action, {steps} steps"),
        &full,
        vec![0; steps],
    )
}

/// A task of 128 actions, 46 rows each, and a plan of 2,048 steps by the actions named, in turn.
pub fn many_actions(name: &str, taken: &[u8]) -> Input {
    let actions = (0..128).map(|_| action(42, 0)).collect();
    let full = task(actions, preferences(&six_kinds(), 64));
    let plan = taken.iter().copied().cycle().take(2_048).collect();
    input(&format!("128 actions, 2048 steps by {name}"), &full, plan)
}

/// A task whose translation has so many rows, most of them in the trackers of its actions.
pub fn in_trackers(rows: usize, actions: usize) -> Input {
    let name = format!("{rows} rows written, {actions} actions");
    in_trackers_of(&name, |n| preferences(&six_kinds(), n), rows, actions)
}

/// The same with hard rules.
pub fn in_hard_trackers(rows: usize, actions: usize) -> Input {
    let name = format!("{rows} rows written, hard rules, {actions} actions");
    in_trackers_of(
        &name,
        |n| made_hard(preferences(&six_kinds(), n)),
        rows,
        actions,
    )
}

/// The same with two of the latest deadlines.
pub fn in_deadline_trackers(rows: usize, actions: usize) -> Input {
    let name = format!("{rows} rows written, deadlines, {actions} actions");
    in_trackers_of(&name, |n| preferences(&deadlines(2), n), rows, actions)
}

fn in_trackers_of(
    name: &str,
    preferences: impl Fn(usize) -> Vec<Preference>,
    rows: usize,
    actions: usize,
) -> Input {
    let of = |clauses: usize, goal: usize| Task {
        goal: vec![clause(goal)],
        ..task(
            (0..actions).map(|k| action(8, k % 2)).collect(),
            preferences(clauses),
        )
    };
    let length = |task: &Task| translated(task, 2 * MAX_ROWS).map(|t| t.rows());
    let clauses = (20..)
        .map(|n| 2 * n)
        .take_while(|&n| length(&of(n, 1)).is_some_and(|found| found <= rows))
        .last()
        .expect("room");
    let missing = rows - length(&of(clauses, 1)).expect("rows");
    let full = of(clauses, 1 + missing);
    assert_eq!(length(&full), Some(rows));
    input(name, &full, vec![])
}

/// A task whose translation has so many rows, nearly all of them copied.
pub fn copied(rows: usize) -> Input {
    let of = |goal: usize| Task {
        goal: condition(goal),
        ..task(vec![], vec![])
    };
    let more = translated(&of(2), MAX_ROWS).expect("rows").rows() - 2;
    input(
        &format!("{rows} rows written, copied"),
        &of(rows - more),
        vec![],
    )
}

/// A task whose translation would have about a million rows, so that it is refused by 8.
pub fn a_million_rows() -> Input {
    let literal = |fact| Literal { holds: true, fact };
    let rule = Preference {
        kind: Kind::Always,
        hard: false,
        weight: 7,
        phi: (0..220).map(|n| vec![literal(n % 60)]).collect(),
        psi: vec![],
    };
    let actions = (0..95).map(|k| action(0, k % 2)).collect();
    let full = task(actions, vec![rule; 16]);
    input("refused by 8, a million rows", &full, vec![])
}

/// A goal of one clause of so many literals, in no order.
pub fn one_clause(literals: usize) -> Input {
    let literal = |n: usize| Literal {
        holds: n % 3 > 0,
        fact: 37 * n % 128,
    };
    let goal = vec![(0..literals).map(literal).collect()];
    spelled(&format!("one clause of {literals} literals"), goal)
}

/// A goal of so many clauses of two literals, which rise by fact or fall.
pub fn clauses_of_two(clauses: usize, rising: bool) -> Input {
    let literal = |fact, n: usize| Literal {
        holds: n % 3 > 0,
        fact,
    };
    let pair = |n: usize| {
        let (low, high) = (literal(n % 64, n), literal(64 + n % 63, n + 1));
        match rising {
            true => vec![low, high],
            false => vec![high, low],
        }
    };
    let order = if rising { "rising" } else { "falling" };
    let name = format!("{clauses} clauses of two literals, {order}");
    spelled(&name, (0..clauses).map(pair).collect())
}

/// A goal alone, to be spelled.
fn spelled(name: &str, goal: Condition) -> Input {
    let full = Task {
        facts: 128,
        start: vec![],
        goal,
        ..task(vec![], vec![])
    };
    input(name, &full, vec![])
}

/// A task that has so many rows once its effects have single literals: effects with so many clauses of so many literals each, as many
/// as fit, and the rest in the goal.
pub fn choices(rows: usize, literals: usize, clauses: usize) -> Input {
    let name = format!("{rows} rows written, {clauses} × {literals} literals in each effect");
    let literal = |fact| Literal { holds: true, fact };
    let effect = Effect {
        condition: vec![(2..2 + literals).map(literal).collect(); clauses],
        adds: vec![0],
        deletes: vec![1],
    };
    let with = |effects: usize, goal: usize| Task {
        facts: 128,
        goal: vec![clause(goal)],
        ..task(
            vec![Action {
                cost: 1,
                precondition: vec![],
                effects: vec![effect.clone(); effects],
            }],
            vec![],
        )
    };
    let (one, none) = (singled(&with(1, 1)).rows(), with(0, 1).rows());
    let effects = (rows - none) / (one - none);
    let full = with(effects, 1 + (rows - none) % (one - none));
    assert_eq!(singled(&full).rows(), rows);
    input(&name, &full, vec![])
}

/// The last of many effects has clauses of two, as many as fit.
pub fn too_many_choices() -> Input {
    let pair = vec![clause(1)[0], clause(2)[0]];
    let effect = |clauses| Effect {
        condition: vec![pair.clone(); clauses],
        adds: vec![0],
        deletes: vec![],
    };
    let actions = vec![Action {
        cost: 1,
        precondition: vec![],
        effects: [vec![effect(0); 1_000], vec![effect(3_300)]].concat(),
    }];
    let name = "refused by 17, 3300 clauses of two";
    input(name, &task(actions, vec![]), vec![])
}

/// The translation of a task, for PDDL.
pub fn compiled(source: Input) -> Input {
    let name = format!("translation: {}", source.name);
    let file = translate(&source.file, MAX_FILE).expect("a translation");
    of_file(&name, file, vec![])
}

/// A task of so many rows with the longest domain in PDDL.
pub fn longest_domain(rows: usize) -> Input {
    let task = pddl::longest_domain(rows);
    input(&format!("{rows} rows, the longest domain"), &task, vec![])
}

/// A task of so many rows with the longest problem in PDDL.
pub fn longest_problem(rows: usize) -> Input {
    let task = pddl::longest_problem(rows);
    input(&format!("{rows} rows, the longest problem"), &task, vec![])
}

/// A task of so many actions that turn so many facts over, each costing more than those before it, whose goal is the state that is
/// taken last: all of its states are found, most of them on many ways.
pub fn lattice(facts: usize, actions: usize) -> Input {
    let literal = |holds, fact| vec![vec![Literal { holds, fact }]];
    let turning = |n: usize| {
        let fact = n % facts;
        let change = |holds: bool| Effect {
            condition: literal(holds, fact),
            adds: Vec::from_iter((!holds).then_some(fact)),
            deletes: Vec::from_iter(holds.then_some(fact)),
        };
        Action {
            cost: 1 + (n / facts) as u32,
            precondition: vec![],
            effects: vec![change(true), change(false)],
        }
    };
    let goal = (0..facts).flat_map(|fact| literal(true, fact)).collect();
    let full = Task {
        start: vec![],
        goal,
        ..task((0..actions).map(turning).collect(), vec![])
    };
    let name = format!("{} nodes, {actions} actions", 1 << facts);
    input(&name, &full, vec![])
}

/// 1,024 states whose hashes meet in one slot of a table of 2,048.
pub fn one_slot() -> Input {
    let name = "1024 nodes in one slot, 64 actions";
    input(name, &peer::colliding::one_slot(), vec![])
}
