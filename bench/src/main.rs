//! Measures every operation of the library beside the independent Rust and beside C, on the same inputs, and writes the medians:
//! `bench`. It fails where two of them differ. `bench once N WHO` makes the one call of line N, for counting its instructions;
//! `bench only OPERATION` prints the lines of one operation, and writes nothing.

mod contenders;
mod inputs;
mod measure;
mod operations;

use contenders::{Answer, Areas, NAMES};
use inputs::Input;
use operations::Operation::{self, *};
use peer::search::MAX_NODES;
use std::fs;
use std::hint::black_box;
use std::path::PathBuf;

/// Where the medians and the inputs of each line are written.
fn folder() -> PathBuf {
    PathBuf::from(concat!(env!("CARGO_MANIFEST_DIR"), "/../target/bench"))
}

/// ROUTE_RULES_MAX_PDDL of the header: an area of this length is never too short, for any operation.
const ENOUGH: usize = 262_144;

fn areas(filled: u8) -> Areas {
    Areas {
        out: vec![filled; ENOUGH],
        other: vec![filled; ENOUGH],
        nodes: vec![u64::from(filled); 4 * MAX_NODES],
    }
}

/// Fails where the answers or the outputs of two implementations differ, or are refusals that are not measured as such.
fn agree(operation: Operation, input: &Input) {
    let result = |who| {
        let mut areas = areas(0xA5);
        let answers: [Answer; 3] = operation.call(who, input, &mut areas);
        (answers, areas.out, areas.other, areas.nodes)
    };
    let first = result(0);
    let refused = first.0[0].0 != 0;
    assert_eq!(refused, input.name.starts_with("refused"), "{}", input.name);
    for (who, name) in NAMES.iter().enumerate().take(operation.contenders()) {
        assert!(result(who) == first, "{}: {name} differs", input.name);
    }
}

/// For each input the times of so many implementations; all take turns.
fn times(operation: Operation, inputs: &[&Input], contenders: usize) -> Vec<Vec<f64>> {
    inputs.iter().for_each(|input| agree(operation, input));
    let mut areas = areas(0);
    let times = measure::medians(inputs.len() * contenders, |n| {
        let (input, who) = (inputs[n / contenders], n % contenders);
        black_box(operation.call(who, input, &mut areas));
    });
    times.chunks(contenders).map(<[f64]>::to_vec).collect()
}

/// The lines beside the others.
fn lines() -> Vec<(Operation, Vec<Input>)> {
    let belt = inputs::belt;
    let middle = inputs::middle;
    let preferences = || inputs::in_preferences(12_000, 2_048);
    let action = || inputs::in_action(12_000, 2_048);
    let each_in_turn = || inputs::many_actions("each in turn", &Vec::from_iter(0..128));
    let walked = || vec![belt(), middle(), preferences()];
    vec![
        (Check, vec![belt(), middle(), preferences(), action()]),
        (
            WalkAndSettle,
            vec![
                belt(),
                middle(),
                preferences(),
                action(),
                each_in_turn(),
                inputs::in_deadlines(12_000, 2_048),
                inputs::in_hard_rules(12_000, 2_048),
            ],
        ),
        (Walk, walked()),
        (Settle, walked()),
        (
            Week,
            vec![
                belt(),
                middle(),
                inputs::in_preferences(12_000, 32),
                each_in_turn(),
            ],
        ),
        (
            Lost,
            vec![
                belt(),
                middle(),
                inputs::belt_again(2_048),
                inputs::in_turn(inputs::in_trackers(12_000, 40), 2_048),
                inputs::in_turn(inputs::in_trackers(12_000, 2), 2_048),
            ],
        ),
        (
            Translate,
            vec![
                belt(),
                middle(),
                inputs::in_trackers(12_000, 40),
                inputs::in_deadline_trackers(12_000, 4),
                inputs::in_hard_trackers(12_000, 40),
                inputs::copied(12_000),
                inputs::a_million_rows(),
            ],
        ),
        (
            Spell,
            vec![
                belt(),
                middle(),
                preferences(),
                inputs::one_clause(11_998),
                inputs::clauses_of_two(3_999, true),
                inputs::clauses_of_two(3_999, false),
            ],
        ),
        (
            Single,
            vec![
                belt(),
                preferences(),
                inputs::choices(12_000, 2, 6),
                inputs::choices(12_000, 64, 1),
                inputs::choices(12_000, 1, 40),
                inputs::compiled(belt()),
                inputs::too_many_choices(),
            ],
        ),
        (
            Pddl,
            vec![
                inputs::compiled(belt()),
                inputs::compiled(middle()),
                inputs::compiled(inputs::in_trackers(12_000, 40)),
                inputs::longest_domain(12_000),
                inputs::longest_problem(12_000),
            ],
        ),
        (ReadPlan, vec![belt(), middle(), each_in_turn()]),
        (WritePlan, vec![belt(), middle(), each_in_turn()]),
        (WalkText, walked()),
        (
            Source,
            vec![
                belt(),
                middle(),
                inputs::belt_again(2_048),
                inputs::in_turn(inputs::in_trackers(12_000, 40), 2_048),
            ],
        ),
        (Report, walked()),
        (
            Search,
            vec![
                inputs::compiled(belt()),
                inputs::lattice(4, 4),
                inputs::lattice(8, 8),
                inputs::lattice(10, 10),
                inputs::lattice(4, 128),
                inputs::lattice(8, 128),
                inputs::lattice(10, 128),
                inputs::one_slot(),
            ],
        ),
    ]
}

/// The times of each line, of one operation alone where it is named.
fn comparison(only: Option<&str>) -> String {
    let mut table = format!("operation,input,work,of,{}\n", NAMES.join(","));
    let wanted = |operation: Operation| only.is_none_or(|name| operation.name() == name);
    for (number, (operation, input)) in lines()
        .iter()
        .filter(|(operation, _)| wanted(*operation))
        .flat_map(|(operation, inputs)| inputs.iter().map(move |input| (*operation, input)))
        .enumerate()
    {
        let times = times(operation, &[input], operation.contenders()).remove(0);
        let (work, of) = operation.work(input, &mut areas(0));
        if only.is_none() {
            input.save(&folder().join(format!("inputs/{number}")), operation.name());
        }
        let mut line = format!("{},\"{}\",{work},{of}", operation.name(), input.name);
        for who in 0..NAMES.len() {
            line += &times
                .get(who)
                .map_or(",".to_string(), |time| format!(",{time:.1}"));
        }
        println!("{line}");
        table += &format!("{line}\n");
    }
    table
}

/// One series of the plot: an operation, what grows, and the inputs with how much of it they have.
type Series = (Operation, &'static str, Vec<(usize, Input)>);

fn grown(of: impl Fn(usize) -> Input, sizes: &[usize]) -> Vec<(usize, Input)> {
    sizes.iter().map(|&size| (size, of(size))).collect()
}

fn series() -> Vec<Series> {
    let rows = [1_500, 3_000, 6_000, 12_000];
    let steps = [128, 256, 512, 1_024, 2_048];
    let by_rows = |rows| inputs::in_preferences(rows, 2_048);
    let by_steps = |steps| inputs::in_preferences(12_000, steps);
    let by_action = |k: usize| inputs::many_actions(&format!("action {k}"), &[k as u8]);
    vec![
        (Check, "rows", grown(by_rows, &rows)),
        (Settle, "rows", grown(by_rows, &rows)),
        (
            Translate,
            "rows written, 2 actions",
            grown(|rows| inputs::in_trackers(rows, 2), &rows),
        ),
        (
            Spell,
            "rows, clauses of two",
            grown(|rows| inputs::clauses_of_two((rows - 1) / 3, false), &rows),
        ),
        (
            Single,
            "rows written, 6 × 2 literals",
            grown(|rows| inputs::choices(rows, 2, 6), &rows),
        ),
        (Walk, "rows, 2,048 steps", grown(by_rows, &rows)),
        (Walk, "steps, 12,000 rows", grown(by_steps, &steps)),
        (
            Walk,
            "number of the action, 2,048 steps",
            grown(by_action, &[0, 31, 63, 95, 127]),
        ),
        (
            Week,
            "steps of each of 64 plans, 12,000 rows",
            grown(by_steps, &[2, 4, 8, 16, 32]),
        ),
        (
            Lost,
            "steps, 12,000 rows in the translation",
            grown(
                |steps| inputs::in_turn(inputs::in_trackers(12_000, 2), steps),
                &steps,
            ),
        ),
        (
            Pddl,
            "rows, the longest domain",
            grown(inputs::longest_domain, &rows),
        ),
        (
            Search,
            "nodes, 10 actions",
            [4, 6, 8, 10]
                .map(|facts| (1 << facts, inputs::lattice(facts, 10)))
                .into(),
        ),
        (ReadPlan, "steps", grown(by_steps, &steps)),
        (WritePlan, "steps", grown(by_steps, &steps)),
    ]
}

fn growth() -> String {
    let mut table = format!("operation,grows,size,{}\n", NAMES[..3].join(","));
    for (operation, grows, sized) in series() {
        let inputs: Vec<&Input> = sized.iter().map(|(_, input)| input).collect();
        for ((size, _), times) in sized.iter().zip(times(operation, &inputs, 3)) {
            let [library, rust, plain] = times[..] else {
                unreachable!("three times")
            };
            let name = operation.name();
            let line = format!("{name},\"{grows}\",{size},{library:.1},{rust:.1},{plain:.1}");
            println!("{line}");
            table += &format!("{line}\n");
        }
    }
    table
}

fn main() {
    let words: Vec<String> = std::env::args().collect();
    if let [_, once, number, who] = words.as_slice() {
        assert_eq!(once, "once");
        let (name, input) = Input::load(&folder().join(format!("inputs/{number}")));
        let operation = operations::ALL
            .into_iter()
            .find(|operation| operation.name() == name);
        let operation = operation.expect("an operation");
        let who = NAMES.iter().position(|name| name == who).expect("a name");
        black_box(operation.call(who, &input, &mut areas(0)));
        return;
    }
    if let [_, only, name] = words.as_slice() {
        assert_eq!(only, "only");
        comparison(Some(name));
        return;
    }
    fs::write(folder().join("times.csv"), comparison(None)).expect("times");
    fs::write(folder().join("growth.csv"), growth()).expect("growth");
}
