//! A program outside the repository, over the release alone: it checks the belt and says which version it has.

#[path = "route_rules/include/route_rules.rs"]
mod route_rules;

fn main() {
    let belt = std::fs::read("task").expect("a task");
    let sizes = route_rules::check(&belt).expect("an accepted task");
    println!(
        "{}: {} facts, {} actions, {} preferences, {} rows",
        route_rules::VERSION,
        sizes.facts,
        sizes.actions,
        sizes.preferences,
        sizes.rows
    );
}
