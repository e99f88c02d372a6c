//! Random cases by seed: a task file, often damaged, a plan and an output room.
//! Shapes and choices are weighed so that every answer comes up often.

use crate::decode::decode;
use crate::encode::{encode, rows, to_bytes, Row};
use crate::meaning::{after, condition_true, opening, states, State};
use crate::single::{allowed, singled};
use crate::spelling::{lists, List};
use crate::task::*;
use crate::translate::{complete, deadline_facts, translate, translated};
use crate::walk::admit;
use crate::week::{joined, MAX_PLANS};

/// The length of the longest accepted file.
pub const MAX_FILE: usize = 8 + 5 * MAX_ROWS;

#[derive(Clone, PartialEq, Eq, Debug)]
pub struct Case {
    pub file: Vec<u8>,
    pub plan: Vec<u8>,
    /// The length of the output area lent to translate.
    pub room: usize,
}

/// The random case of a seed.
pub fn case(seed: u64) -> Case {
    let r = &mut Random::new(seed);
    let shape = Shape::any(r);
    let (mut task, mut plan) = task_and_plan(r, &shape);
    if r.chance(2) {
        pad(r, &mut task);
    }
    if r.chance(4) {
        unknown_step(r, &task, &mut plan);
    }
    let mut file = encode(&task);
    if r.chance(30) {
        file = damaged(r, &task);
    }
    let room = room(r, &file);
    Case { file, plan, room }
}

/// A cost and a set of met preferences to settle on the file of a seed: often ones
/// that are allowed, and often at a limit or just past it.
pub fn arguments(seed: u64, file: &[u8]) -> (u64, u64) {
    let r = &mut Random::new(!seed);
    let preferences = match file.get(4..6) {
        Some(two) => usize::from(two[0].min(63)),
        None => r.below(17),
    };
    (cost(r), met_set(r, preferences))
}

fn cost(r: &mut Random) -> u64 {
    let (small, any) = (r.below(20) as u64, r.draw());
    match r.below(10) {
        0..=3 => any % (MAX_COST + 1),
        4 | 5 => small,
        6 | 7 => r.pick(&[0, (1 << 32) - 1, 1 << 32, MAX_COST - 1, MAX_COST]),
        // Past the limit, also by the bits that a narrower number would drop.
        _ => {
            let wide = (1 << r.between(43, 63)) + small;
            r.pick(&[MAX_COST + 1, MAX_COST + small + 1, wide, u64::MAX, any])
        }
    }
}

fn met_set(r: &mut Random, preferences: usize) -> u64 {
    let all = (1 << preferences) - 1;
    let (some, any) = (r.draw() & all, r.draw());
    match r.below(10) {
        0..=5 => some,
        6 | 7 => r.pick(&[0, all]),
        // With a bit that is no preference's.
        _ => {
            let bit = r.between(preferences, 63);
            r.pick(&[
                some | 1 << bit,
                some | 1 << preferences,
                1 << bit,
                u64::MAX,
                any,
            ])
        }
    }
}

/// A file of plans for the task of a case: its plan, beginnings of it, plans of chance and
/// pieces of all these, which overlap; and now and then a damaged one.
pub fn plans(seed: u64, case: &Case) -> Vec<u8> {
    let r = &mut Random::new(seed ^ 0x7EEC);
    let (mut steps, mut whole) = (case.plan.clone(), vec![(0, case.plan.len())]);
    steps.truncate(MAX_STEPS + 2);
    whole[0].1 = steps.len();
    if let Ok(task) = decode(&case.file) {
        for _ in 0..r.between(0, 4) {
            let length = r.between(0, 6);
            let (more, _) = plan(r, &task, length);
            whole.push((steps.len(), more.len()));
            steps.extend(more);
        }
    }
    let many = r.between(1, MAX_PLANS);
    let count = r.pick(&[1, 2, 3, 4, 6, many, MAX_PLANS]);
    let mut entries: Vec<(usize, usize)> = (0..count).map(|_| r.pick(&whole)).collect();
    for entry in &mut entries {
        match r.below(20) {
            0 => *entry = (entry.0, r.between(0, entry.1)),
            1 => {
                let start = r.between(0, steps.len());
                *entry = (start, r.between(0, (steps.len() - start).min(8)));
            }
            _ => {}
        }
    }
    if r.chance(4) {
        let length = MAX_STEPS + r.below(2);
        steps.resize(steps.len().max(length), 0);
        let at = r.below(count);
        entries[at] = (r.between(0, steps.len() - length), length);
    }
    match r.chance(15) {
        true => damaged_plans(r, entries, steps),
        false => joined(&entries, &steps),
    }
}

/// A file of plans with one fault in it, or something at the edge of one.
fn damaged_plans(r: &mut Random, mut entries: Vec<(usize, usize)>, mut steps: Vec<u8>) -> Vec<u8> {
    let (at, end) = (r.below(entries.len()), steps.len());
    match r.below(8) {
        // At the end and past it, without steps and with one.
        0 => entries[at] = (end, 0),
        1 => entries[at] = (end + 1, 0),
        2 => entries[at] = (end, 1),
        3 => entries[at] = (r.between(0, 65_535), r.between(0, 65_535)),
        4 if end > 0 => {
            let (step, any) = (r.below(end), r.between(0, 255));
            steps[step] = r.pick(&[any, 255, 128]) as u8;
        }
        5 => {
            let length = r.between(0, 2 + 4 * entries.len());
            let mut file = joined(&entries, &steps);
            file.truncate(length);
            return file;
        }
        _ => {
            let any = r.between(0, 65_535);
            let count = r.pick(&[0, 64, 65, 256, 257, entries.len() + 1, any]) as u16;
            let mut file = joined(&entries, &steps);
            file[..2].copy_from_slice(&count.to_le_bytes());
            return file;
        }
    }
    joined(&entries, &steps)
}

/// A list of translated actions for the task of a case: a beginning of its plan or of
/// another one, often with *end* and closings after it, in their order or not; often
/// changed in a place, and now and then with an unknown number.
pub fn beginning(seed: u64, case: &Case) -> Vec<u8> {
    let r = &mut Random::new(seed ^ 0x1057);
    let Ok(task) = decode(&case.file) else {
        return case.plan.clone();
    };
    let (actions, closings) = (task.actions.len(), 2 * task.preferences.len());
    let mut list = match r.chance(50) {
        true => case.plan.clone(),
        false => {
            let length = r.between(0, 8);
            plan(r, &task, length).0
        }
    };
    if r.chance(20) {
        list.truncate(r.between(0, list.len()));
    }
    if r.chance(40) && admit(&task, &list).is_ok() && states(&task, &list).is_ok() {
        let whole: Vec<u8> = complete(&task, &list).iter().map(|&n| n as u8).collect();
        let length = r.between(list.len(), whole.len());
        list = match r.chance(25) {
            true => whole,
            false => whole[..length].to_vec(),
        };
    }
    for _ in 0..r.pick(&[0, 0, 0, 0, 0, 0, 1, 2]) {
        let any = r.between(0, actions + closings);
        let step = r.pick(&[any, actions, actions + 1]).min(actions + closings) as u8;
        let at = r.between(0, list.len());
        match r.chance(50) && at < list.len() {
            true => list[at] = step,
            false => list.insert(at, step),
        }
    }
    if r.chance(3) {
        let at = r.between(0, list.len());
        let any = r.between(0, 255);
        list.insert(
            at,
            r.pick(&[actions + closings + 1, any, 255]).min(255) as u8,
        );
    }
    list
}

/// A small source of random numbers (splitmix64).
pub struct Random(u64);

impl Random {
    pub fn new(seed: u64) -> Random {
        Random(seed)
    }

    pub fn draw(&mut self) -> u64 {
        self.0 = self.0.wrapping_add(0x9E37_79B9_7F4A_7C15);
        let mut z = self.0;
        z = (z ^ (z >> 30)).wrapping_mul(0xBF58_476D_1CE4_E5B9);
        z = (z ^ (z >> 27)).wrapping_mul(0x94D0_49BB_1331_11EB);
        z ^ (z >> 31)
    }

    /// A number from 0 up to, not including, `bound`.
    pub fn below(&mut self, bound: usize) -> usize {
        (self.draw() % bound as u64) as usize
    }

    /// A number from `low` to `high`, both included.
    pub fn between(&mut self, low: usize, high: usize) -> usize {
        low + self.below(high - low + 1)
    }

    /// True in so many of a hundred draws.
    pub fn chance(&mut self, percent: usize) -> bool {
        self.below(100) < percent
    }

    pub fn pick<T: Copy>(&mut self, choices: &[T]) -> T {
        choices[self.below(choices.len())]
    }
}

/// How large the parts of a task are.
#[derive(Clone, Debug)]
pub struct Shape {
    pub facts: usize,
    pub actions: usize,
    /// The kinds of the preferences.
    pub kinds: Vec<Kind>,
    /// How many of a hundred preferences are hard.
    pub hard: usize,
    /// The most clauses of a condition.
    pub clauses: usize,
    /// The most literals of a clause.
    pub literals: usize,
    /// The most effects of an action.
    pub effects: usize,
    /// The length of the plan aimed at.
    pub steps: usize,
}

impl Shape {
    /// In most tasks all rules are soft, so that most plans solve.
    pub fn any(r: &mut Random) -> Shape {
        let hard = r.pick(&[0, 0, 0, 15, 50, 100]);
        let shape = match r.below(100) {
            0..=63 => Shape::small(r),
            64..=78 => Shape::middle(r),
            79..=88 => Shape::wide(r),
            89..=95 => Shape::at_limits(r),
            _ => Shape::long(r),
        };
        Shape { hard, ..shape }
    }

    pub fn small(r: &mut Random) -> Shape {
        Shape {
            facts: r.between(1, 6),
            actions: r.between(0, 4),
            kinds: up_to(r, 4),
            hard: 0,
            clauses: 2,
            literals: 3,
            effects: 3,
            steps: steps(r),
        }
    }

    fn middle(r: &mut Random) -> Shape {
        Shape {
            facts: r.between(1, 30),
            actions: r.between(1, 12),
            kinds: up_to(r, 10),
            hard: 0,
            clauses: 4,
            literals: 4,
            effects: 4,
            steps: steps(r),
        }
    }

    /// Facts on both sides of the word border and up to the last.
    fn wide(r: &mut Random) -> Shape {
        let many = r.between(60, 128);
        Shape {
            facts: r.pick(&[63, 64, 65, 66, 113, 126, 127, 128, many, many]),
            actions: r.between(1, 6),
            kinds: up_to(r, 4),
            hard: 0,
            clauses: 3,
            literals: 3,
            effects: 3,
            steps: steps(r),
        }
    }

    /// Just at or over the facts or actions a translation may have.
    fn at_limits(r: &mut Random) -> Shape {
        let many = r.between(0, 16);
        let preferences = r.pick(&[0, 1, 15, 16, 16, many]);
        let kinds = kinds(r, preferences);
        let total: usize = r.pick(&[127, 128, 128, 129]);
        let few = r.between(1, 8);
        // Many long deadlines alone may have more facts than that.
        let added = 2 + 3 * preferences + kinds.iter().map(|&k| deadline_facts(k)).sum::<usize>();
        let facts = total.saturating_sub(added).max(1);
        let (facts, actions) = match r.below(3) {
            0 => (facts, few),
            1 => (few, total - 1 - 2 * preferences),
            _ => (facts, 128 - 1 - 2 * preferences),
        };
        Shape {
            facts,
            actions,
            kinds,
            hard: 0,
            clauses: 1,
            literals: 2,
            effects: 1,
            steps: steps(r),
        }
    }

    /// Long conditions, up to some thousand rows.
    fn long(r: &mut Random) -> Shape {
        let many = r.between(1, 100);
        Shape {
            facts: r.pick(&[5, 64, 80, 100, many]),
            actions: r.between(0, 10),
            kinds: up_to(r, 8),
            hard: 0,
            clauses: r.between(1, 30),
            literals: r.between(1, 20),
            effects: r.between(0, 6),
            steps: r.between(0, 10),
        }
    }
}

/// The kinds of at most so many preferences.
pub fn up_to(r: &mut Random, most: usize) -> Vec<Kind> {
    let count = r.between(0, most);
    kinds(r, count)
}

/// The kinds of so many preferences. Most deadlines are short, so that short plans
/// meet some and miss others.
pub fn kinds(r: &mut Random, count: usize) -> Vec<Kind> {
    let mut kind = || {
        let any = r.between(0, MAX_DEADLINE);
        let deadline = r.pick(&[0, 1, 1, 2, 2, 3, 4, any, any, MAX_DEADLINE]);
        r.pick(&Kind::all(deadline))
    };
    (0..count).map(|_| kind()).collect()
}

/// The length of a plan: mostly short, now and then at the limit or over it.
fn steps(r: &mut Random) -> usize {
    match r.below(1000) {
        0..=749 => r.between(0, 8),
        750..=919 => r.between(9, 40),
        920..=949 => r.between(41, 300),
        950..=959 => r.between(2_000, 2_048),
        960..=969 => 2_048,
        970..=984 => 2_049,
        985..=998 => r.between(2_050, 2_400),
        _ => 100_000,
    }
}

/// A task of a shape, and a plan that often solves it.
pub fn task_and_plan(r: &mut Random, shape: &Shape) -> (Task, Vec<u8>) {
    let pool = pool(r, shape.facts);
    let often = r.pick(&[10, 50, 90]);
    let chance = |fact: &usize| if pool.contains(fact) { often } else { 5 };
    let start = (0..shape.facts)
        .filter(|fact| r.chance(chance(fact)))
        .collect();
    let mut task = Task {
        facts: shape.facts,
        start,
        goal: vec![],
        actions: vec![],
        preferences: vec![],
    };
    let state = opening(&task);
    let parts = &mut Parts { r, pool, shape };
    task.actions = (0..shape.actions).map(|_| parts.action(&state)).collect();
    task.preferences = shape
        .kinds
        .iter()
        .map(|&kind| parts.preference(kind))
        .collect();
    let (plan, last) = plan(parts.r, &task, shape.steps);
    task.goal = match parts.r.chance(75) {
        true => parts.condition(Some(&last)),
        false => parts.condition(None),
    };
    (task, plan)
}

/// The few facts that most rows speak of, so that they touch each other.
fn pool(r: &mut Random, facts: usize) -> Vec<usize> {
    if facts <= 6 {
        return (0..facts).collect();
    }
    let mut pool: Vec<usize> = (0..4).map(|_| r.below(facts)).collect();
    for fact in [0, 63, 64, 127, facts - 1] {
        if fact < facts && r.chance(50) {
            pool.push(fact);
        }
    }
    pool
}

/// The parts of a random task.
struct Parts<'a> {
    r: &'a mut Random,
    pool: Vec<usize>,
    shape: &'a Shape,
}

impl Parts<'_> {
    fn fact(&mut self) -> usize {
        if self.r.chance(90) {
            self.r.pick(&self.pool)
        } else {
            self.r.below(self.shape.facts)
        }
    }

    /// A cost or a weight.
    fn amount(&mut self) -> u32 {
        let small = self.r.below(20) as u32;
        let any = self.r.draw() as u32;
        let near = MAX_AMOUNT - small;
        self.r.pick(&[0, 1, small, small, any, near, MAX_AMOUNT])
    }

    fn literal(&mut self) -> Literal {
        Literal {
            holds: self.r.chance(50),
            fact: self.fact(),
        }
    }

    /// A clause, made true in a state if one is given.
    fn clause(&mut self, length: usize, state: Option<&State>) -> Clause {
        let mut clause: Clause = (0..length).map(|_| self.literal()).collect();
        if let Some(state) = state {
            let chosen = &mut clause[self.r.below(length)];
            chosen.holds = state[chosen.fact];
        }
        clause
    }

    /// A condition, made true in a state if one is given.
    fn condition(&mut self, state: Option<&State>) -> Condition {
        let clauses = self.r.between(0, self.shape.clauses);
        (0..clauses)
            .map(|_| {
                let length = self.r.between(1, self.shape.literals);
                self.clause(length, state)
            })
            .collect()
    }

    fn effect(&mut self) -> Effect {
        let condition = match self.r.chance(40) {
            true => vec![],
            false => self.condition(None),
        };
        let (adds, deletes) = (self.r.between(0, 2), self.r.between(0, 2));
        let mut effect = Effect {
            condition,
            adds: (0..adds).map(|_| self.fact()).collect(),
            deletes: (0..deletes).map(|_| self.fact()).collect(),
        };
        if self.r.chance(15) {
            let both = self.fact();
            effect.adds.push(both);
            effect.deletes.push(both);
        }
        effect
    }

    /// An action, most often one that applies in the opening state.
    fn action(&mut self, opening: &State) -> Action {
        let cost = self.amount();
        let precondition = match self.r.below(10) {
            0..=3 => vec![],
            4..=7 => self.condition(Some(opening)),
            _ => self.condition(None),
        };
        let effects = self.r.between(0, self.shape.effects);
        let mut effects: Vec<Effect> = (0..effects).map(|_| self.effect()).collect();
        if self.r.chance(40) {
            effects.extend(turned(self.fact()));
        }
        Action {
            cost,
            precondition,
            effects,
        }
    }

    /// The condition of a preference, often one that a few facts decide.
    fn rule(&mut self) -> Condition {
        match self.r.chance(50) {
            true => vec![self.clause(1, None)],
            false => self.condition(None),
        }
    }

    fn preference(&mut self, kind: Kind) -> Preference {
        let hard = self.r.chance(self.shape.hard);
        let weight = if hard { 0 } else { self.amount() };
        let phi = self.rule();
        let psi = match kind.has_second() {
            true => self.rule(),
            false => vec![],
        };
        Preference {
            kind,
            hard,
            weight,
            phi,
            psi,
        }
    }
}

/// A plan of about so many steps, and the last state it is known to reach. Most
/// plans take only steps that apply and end early where none does.
fn plan(r: &mut Random, task: &Task, steps: usize) -> (Vec<u8>, State) {
    let mut state = opening(task);
    let mut plan = Vec::new();
    let actions = task.actions.len();
    if actions == 0 {
        return (plan, state);
    }
    let careless = if r.chance(30) {
        r.below(steps + 1)
    } else {
        steps
    };
    let simulated = if steps > MAX_STEPS { 0 } else { careless };
    while plan.len() < simulated {
        let applies = |&a: &usize| condition_true(&task.actions[a].precondition, &state);
        let able: Vec<usize> = (0..actions).filter(applies).collect();
        if able.is_empty() {
            return (plan, state);
        }
        let step = r.pick(&able);
        plan.push(step as u8);
        state = after(&task.actions[step], &state);
    }
    while plan.len() < steps {
        plan.push(r.below(actions) as u8);
    }
    (plan, state)
}

/// Puts one or two steps that are no action into a plan.
fn unknown_step(r: &mut Random, task: &Task, plan: &mut Vec<u8>) {
    let actions = task.actions.len();
    for _ in 0..r.between(1, 2) {
        let any = r.between(actions, 255);
        let step = r.pick(&[actions, actions + 1, any, 255]) as u8;
        if plan.is_empty() {
            plan.push(step);
        } else {
            let at = r.below(plan.len());
            plan[at] = step;
        }
    }
}

/// Lengthens the goal until the task, or its translation, has just the most rows
/// allowed or one more.
fn pad(r: &mut Random, task: &mut Task) {
    let aim = MAX_ROWS + r.below(2);
    let now = match r.chance(30) {
        true => task.rows(),
        false => translated(task, aim).map_or(aim, |translation| translation.rows()),
    };
    lengthen(r, task, aim.saturating_sub(now));
}

/// Lengthens the goal by so many rows, or by none where it is one.
fn lengthen(r: &mut Random, task: &mut Task, mut missing: usize) {
    while missing >= 2 {
        let mut rows = r.between(2, 3_000).min(missing);
        if missing - rows == 1 {
            rows = missing;
        }
        // Two literals that deny each other make the clause true.
        let fact = r.below(task.facts);
        let literal = |i: usize| Literal {
            holds: i % 2 == 1,
            fact,
        };
        task.goal.push((0..rows - 1).map(literal).collect());
        missing -= rows;
    }
}

/// A task without preferences whose search meets the same states on several ways, with
/// ties, costs of 0 and costs that are lowered: actions that turn a few of so many
/// facts over, or set them, and a goal that asks for some of them.
pub fn searchable(r: &mut Random, facts: usize) -> Task {
    let costs: &[u32] = r.pick(&[
        &[0][..],
        &[1],
        &[0, 1],
        &[1, 1, 2, 3],
        &[0, 1, 2, 5, 9, 20],
        &[1, MAX_AMOUNT - 1, MAX_AMOUNT],
    ]);
    // The facts that are used stand anywhere among all.
    let all = r.pick(&[facts, 64.max(facts), MAX_FACTS]);
    let first = r.below(all - facts + 1);
    let literal = |r: &mut Random, holds| Literal {
        holds,
        fact: first + r.below(facts),
    };
    let turns = r.pick(&[0, facts / 2, facts]);
    let others = r.between(usize::from(turns == 0), 4);
    let actions = (0..turns + others).map(|n| {
        let cost = r.pick(costs);
        let mut effects = vec![];
        let several = if n < turns { 1 } else { r.between(1, 3) };
        for _ in 0..several {
            let fact = if n < turns {
                first + n
            } else {
                first + r.below(facts)
            };
            effects.extend(turned(fact));
        }
        if n >= turns && r.chance(50) {
            effects = vec![Effect {
                condition: vec![],
                adds: (0..r.below(3)).map(|_| first + r.below(facts)).collect(),
                deletes: (0..r.below(3)).map(|_| first + r.below(facts)).collect(),
            }];
        }
        let precondition = match r.chance(30) {
            true => {
                let holds = r.chance(50);
                vec![vec![literal(r, holds)]]
            }
            false => vec![],
        };
        Action {
            cost,
            precondition,
            effects,
        }
    });
    let actions = actions.collect();
    let asked = r.pick(&[1, 2, facts, facts]);
    let goal = (0..asked)
        .map(|_| {
            let holds = r.chance(70);
            vec![literal(r, holds)]
        })
        .collect();
    let start = (first..first + facts).filter(|_| r.chance(20)).collect();
    Task {
        facts: all,
        start,
        goal,
        actions,
        preferences: vec![],
    }
}

/// Two effects that turn a fact over.
fn turned(fact: usize) -> [Effect; 2] {
    let when = |holds| vec![vec![Literal { holds, fact }]];
    [
        Effect {
            condition: when(true),
            adds: vec![],
            deletes: vec![fact],
        },
        Effect {
            condition: when(false),
            adds: vec![fact],
            deletes: vec![],
        },
    ]
}

/// Clauses by their lengths, with about as many choices as an effect may have.
const WIDE: [&[usize]; 14] = [
    &[64],
    &[65],
    &[63],
    &[8, 8],
    &[4, 4, 4],
    &[2, 2, 2, 2, 2, 2],
    &[1, 32, 1, 2, 1],
    &[5, 13],
    &[13, 5],
    &[2, 33],
    &[3, 21],
    &[3, 22],
    &[2, 2, 2, 2, 2, 2, 2],
    &[1, 1, 1, 1, 1],
];

/// The task with other conditions in some of its effects, about as wide as single
/// literals allow; now and then as long as makes the singled task just as long as is
/// allowed, or a row longer.
pub fn widened(r: &mut Random, task: &Task) -> Task {
    let mut wide = task.clone();
    let facts = task.facts;
    let often = r.pick(&[5, 30, 100]);
    for effect in wide.actions.iter_mut().flat_map(|a| &mut a.effects) {
        if !r.chance(often) {
            continue;
        }
        let lengths = r.pick(&WIDE[..]);
        let mut literal = || Literal {
            holds: r.chance(50),
            fact: r.below(facts),
        };
        let clause = |&length: &usize| (0..length).map(|_| literal()).collect();
        effect.condition = lengths.iter().map(clause).collect();
    }
    if r.chance(10) {
        let aim = MAX_ROWS + r.below(2);
        let now = if allowed(&wide) {
            singled(&wide).rows()
        } else {
            aim
        };
        lengthen(r, &mut wide, aim.saturating_sub(now));
    }
    wide
}

/// The file of a task with one fault or two in it.
fn damaged(r: &mut Random, task: &Task) -> Vec<u8> {
    let mut sizes = [task.facts, task.actions.len(), task.preferences.len()].map(|s| s as u16);
    let mut rows = rows(task);
    if r.chance(3) {
        rows = noise(r);
    }
    let (in_rows, in_bytes) = r.pick(&[(1, 0), (1, 0), (1, 0), (2, 0), (0, 1), (0, 1), (1, 1)]);
    for _ in 0..in_rows {
        damage_rows(r, &mut sizes, &mut rows);
    }
    let mut file = to_bytes(sizes, &rows);
    for _ in 0..in_bytes {
        damage_bytes(r, &mut file);
    }
    file
}

/// The same task in another spelling: its literals and the facts added and deleted in
/// another order, some of them repeated, as far as the rows allow.
pub fn respelled(r: &mut Random, task: &Task) -> Task {
    let mut other = task.clone();
    let mut left = MAX_ROWS.saturating_sub(task.rows());
    for list in lists(&mut other) {
        match list {
            List::Literals(clause) => shuffle(r, clause, &mut left),
            List::Facts(facts) => shuffle(r, facts, &mut left),
        }
    }
    other
}

fn shuffle<T: Copy>(r: &mut Random, list: &mut Vec<T>, left: &mut usize) {
    while !list.is_empty() && *left > 0 && r.chance(30) {
        list.push(r.pick(list));
        *left -= 1;
    }
    for at in 1..list.len() {
        list.swap(at, r.below(at + 1));
    }
}

/// The file of a task with one row changed, gone, repeated or exchanged with the next.
pub fn altered(r: &mut Random, task: &Task) -> Vec<u8> {
    let sizes = [task.facts, task.actions.len(), task.preferences.len()].map(|s| s as u16);
    let mut rows = rows(task);
    let (at, count) = (r.below(rows.len()), rows.len());
    match r.below(6) {
        // HOLDS and LACKS, or ADD and DELETE.
        0 => rows[at].mark ^= 1,
        1 | 2 => rows[at].value = r.below(task.facts) as u32,
        3 => rows.swap(at, (at + 1) % count),
        4 => {
            rows.remove(at);
        }
        _ => rows.insert(at, rows[at]),
    }
    to_bytes(sizes, &rows)
}

/// Rows without order.
fn noise(r: &mut Random) -> Vec<Row> {
    let count = r.between(0, 12);
    let row = |_| Row {
        mark: r.below(36) as u8,
        value: r.below(3) as u32,
    };
    (0..count).map(row).collect()
}

/// Marks at the ends of their ranges, and just past them.
const NEAR: [u8; 24] = [
    0, 1, 2, 3, 8, 9, 10, 14, 16, 17, 18, 19, 20, 25, 26, 30, 31, 32, 33, 34, 35, 42, 128, 255,
];

/// One fault among the rows or the counts; the length of the file stays right.
fn damage_rows(r: &mut Random, sizes: &mut [u16; 3], rows: &mut Vec<Row>) {
    if rows.is_empty() {
        return;
    }
    let count = rows.len();
    let (at, other) = (r.below(count), r.below(count));
    let facts = u32::from(sizes[0]);
    match r.below(14) {
        0 => rows[at].mark = r.below(36) as u8,
        1 => rows[at].mark = r.pick(&NEAR),
        2 | 3 => rows[at].value = past_limit(r, rows[at], facts),
        4 => rows.swap(at, other),
        5 => rows.swap(at, (at + 1) % count),
        6 => {
            rows.remove(at);
        }
        7 => rows.insert(other, rows[at]),
        8 => {
            let row = Row {
                mark: r.between(1, 35) as u8,
                value: r.below(2) as u32,
            };
            rows.insert(at, row);
        }
        9 => rows.truncate(at),
        10 | 11 => {
            // A count one off, within its range.
            let (which, most) = r.pick(&[(1, MAX_ACTIONS), (2, MAX_PREFERENCES)]);
            let count = usize::from(sizes[which]);
            let changed = if r.chance(50) {
                count + 1
            } else {
                count.saturating_sub(1)
            };
            sizes[which] = changed.min(most) as u16;
        }
        // A rule made hard with its weight, or a mark that is none.
        12 => rows[at].mark = rows[at].mark.wrapping_add(16),
        _ => sizes[0] = r.between(1, sizes[0] as usize) as u16,
    }
}

/// A value just past what its mark allows, or just allowed, or far off. A cost and a soft rule's weight have no limit.
fn past_limit(r: &mut Random, row: Row, facts: u32) -> u32 {
    let high = row
        .value
        .wrapping_add(r.pick(&[1 << 8, 1 << 16, 1 << 24, 1 << 31]));
    match row.mark {
        1 | 10..=15 | 17 | 18 => r.pick(&[1_000_000, 1_000_001, MAX_AMOUNT, high]),
        2 | 3 | 8 | 16 | 26..=31 | 33 | 34 => r.pick(&[1, 2, u32::MAX, high]),
        19 => r.pick(&[15, 16, 17, 31, u32::MAX, high]),
        _ => r.pick(&[facts - 1, facts, facts + 1, 128, u32::MAX, high]),
    }
}

/// One fault in the bytes of a file.
fn damage_bytes(r: &mut Random, file: &mut Vec<u8>) {
    let at = r.below(file.len());
    match r.below(10) {
        0 | 1 => file.truncate(r.between(0, 8)),
        2 => {
            let fault = r.pick(&[(0, 0), (0, 129), (2, 129), (4, 17), (6, 12_001)]);
            set_size(file, fault.0, fault.1);
        }
        3 => {
            let size = 2 * r.below(4);
            let value = r.pick(&[0, 1, 2, 16, 17, 128, 129, 256, 12_000, 12_001, 65_535]);
            set_size(file, size, value);
        }
        4 => {
            let less = r.between(1, 5);
            file.truncate(r.pick(&[at, file.len().saturating_sub(less)]));
        }
        5 => {
            let more = r.between(1, 5);
            file.extend((0..more).map(|_| r.below(256) as u8));
        }
        6 => {
            let rows = u16::from_le_bytes([file[6], file[7]]);
            let wrong = r.pick(&[rows + 1, rows.saturating_sub(1)]);
            set_size(file, 6, wrong);
        }
        7 => file[at] = r.below(256) as u8,
        _ => file[at] ^= 1 << r.below(8),
    }
}

fn set_size(file: &mut [u8], at: usize, size: u16) {
    file[at..at + 2].copy_from_slice(&size.to_le_bytes());
}

/// The room lent to translate: mostly enough for any translation, otherwise
/// about the length needed or far less.
fn room(r: &mut Random, file: &[u8]) -> usize {
    if r.chance(85) {
        return MAX_FILE;
    }
    let needed = translate(file, MAX_FILE).map_or(MAX_FILE, |bytes| bytes.len());
    let less = r.below(needed);
    r.pick(&[needed, needed - 1, needed + 1, less, 0, 8])
}
