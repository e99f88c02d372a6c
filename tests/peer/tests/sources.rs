//! The source part of what a planner prints.

use peer::{decode, encode, source, Refusal};

/// The belt: two actions, two preferences, so seven translated actions.
fn belt() -> Vec<u8> {
    std::fs::read("../../examples/belt/task").expect("the belt")
}

fn refused(number: u8, place: u16) -> Result<Vec<u8>, Refusal> {
    Err(Refusal { number, place })
}

#[test]
fn source_steps_in_their_order() {
    assert_eq!(
        source(&belt(), b"(a0)\n(a2)\n(a4)\n(a5)\n; cost = 8\n", 1),
        Ok(vec![0])
    );
    assert_eq!(
        source(&belt(), b"(a6)\n(a1)\n(a2)\n(a0)\n(a1)\n", 3),
        Ok(vec![1, 0, 1])
    );
    assert_eq!(source(&belt(), b"", 0), Ok(vec![]));
}

#[test]
fn refusals_in_their_order() {
    assert_eq!(source(b"", b"(", 0), refused(1, 0));
    assert_eq!(source(&belt(), b"(a7)\n(", 0), refused(12, 1));
    assert_eq!(source(&belt(), &b"(a7)\n".repeat(2_049), 0), refused(10, 0));
    assert_eq!(source(&belt(), b"(a6)\n(a7)\n", 0), refused(11, 1));
    assert_eq!(source(&belt(), b"(a6)\n(a0)\n", 0), refused(9, 0));
    let mut wide = decode(&belt()).expect("a task");
    wide.facts = 128;
    assert_eq!(source(&encode(&wide), b"(", 0), refused(7, 0));
}
