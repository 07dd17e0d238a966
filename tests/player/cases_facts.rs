//! Facts that are known from elsewhere, compared: what the words of the language mean, and what
//! textbooks tell. The answers are written down by hand.

use crate::case::Case;

const NOTHING: &str = "0 times { mix 0; }";
const SWAP: &str = "flip 1 if 0; flip 0 if 1; flip 1 if 0;";
/// The Fourier transform of two qubits: a Hadamard, a controlled quarter turn, a Hadamard, a swap.
const FOURIER: &str = "
    mix 0;
    turn 1 of 0; turn 1 of 1; flip 1 if 0; turn 7 of 1; flip 1 if 0;
    mix 1;
    flip 1 if 0; flip 0 if 1; flip 1 if 0;";
/// The same in the other order, with the quarter turn made on the other side.
const FOURIER_FROM_END: &str = "
    flip 0 if 1; flip 1 if 0; flip 0 if 1;
    mix 1;
    flip 0 if 1; turn 7 of 0; flip 0 if 1; turn 1 of 0; turn 1 of 1;
    mix 0;";
/// Teleportation with its corrections made by gates: qubit 0 goes to qubit 2.
const TELEPORTATION: &str = "
    mix 1; flip 2 if 1;
    flip 1 if 0; mix 0;
    flip 2 if 1;
    mix 2; flip 2 if 0; mix 2;";
/// What it comes to: for qubits 1 and 2 at 0, an exchange of 0 and 2 and two Hadamards.
const TELEPORTED: &str = "
    mix 1; flip 1 if 0; mix 1;
    flip 0 if 2;
    flip 0 if 2; flip 2 if 0; flip 0 if 2;
    mix 0; mix 1;";
const TOFFOLI_BY_TURNS: &str = "
    mix 2; flip 2 if 1; turn 7 of 2; flip 2 if 0; turn 1 of 2; flip 2 if 1; turn 7 of 2;
    flip 2 if 0; turn 1 of 1; turn 1 of 2; mix 2; flip 1 if 0; turn 1 of 0; turn 7 of 1;
    flip 1 if 0;";

/// What the words of the language mean.
const DEFINITIONS: &[(&str, &str, &str)] = &[
    ("flip 0;", "mix 0; turn 4 of 0; mix 0;", "alike, turn 0"),
    ("mix 0; mix 0;", NOTHING, "alike, turn 0"),
    ("turn 8 of 0;", NOTHING, "alike, turn 0"),
    (
        "flip 0; turn 1 of 0; flip 0; turn 1 of 0;",
        NOTHING,
        "alike, turn 1",
    ),
    ("3 times { turn 2 of 0; mix 0; }", NOTHING, "alike, turn 1"),
    (
        "mix 0; turn 1 of 0;",
        "turn 1 of 0; mix 0;",
        "different at 0 from 1",
    ),
    ("turn 1 of 0;", "turn 7 of 0;", "different at 1 from 1"),
    (
        "flip 1 if 0;",
        "mix 0; mix 1; flip 0 if 1; mix 0; mix 1;",
        "alike, turn 0",
    ),
    (
        SWAP,
        "flip 0 if 1; flip 1 if 0; flip 0 if 1;",
        "alike, turn 0",
    ),
    ("flip 2 if 0 1;", TOFFOLI_BY_TURNS, "alike, turn 0"),
];

/// What textbooks tell of one qubit. The gate Y is i X Z, and S X S^-1 is Y: so the first text of
/// the fact about it is the second turned by i, which is two eighths.
const ONE_QUBIT: &[(&str, &str, &str)] = &[
    ("mix 0; turn 4 of 0; mix 0;", "flip 0;", "alike, turn 0"),
    ("mix 0; flip 0; mix 0;", "turn 4 of 0;", "alike, turn 0"),
    ("2 times { turn 2 of 0; }", "turn 4 of 0;", "alike, turn 0"),
    ("2 times { turn 1 of 0; }", "turn 2 of 0;", "alike, turn 0"),
    (
        "turn 6 of 0; flip 0; turn 2 of 0;",
        "turn 4 of 0; flip 0;",
        "alike, turn 2",
    ),
    (
        "flip 0; turn 4 of 0;",
        "turn 4 of 0; flip 0;",
        "alike, turn 4",
    ),
    (NOTHING, "3 times { turn 2 of 0; mix 0; }", "alike, turn 7"),
    (
        "undo { turn 1 of 0; mix 0; }",
        "mix 0; turn 7 of 0;",
        "alike, turn 0",
    ),
    ("mix 0;", NOTHING, "different at 0 from 0"),
    ("flip 0;", NOTHING, "different at 0 from 0"),
    ("turn 4 of 0;", NOTHING, "different at 1 from 1"),
];

/// What textbooks tell of more qubits.
const MORE_QUBITS: &[(&str, &str, &str)] = &[
    (
        "2 times { flip 1 if 0; }",
        "0 times { flip 1 if 0; }",
        "alike, turn 0",
    ),
    (
        "mix 1; flip 1 if 0; mix 1;",
        "mix 0; flip 0 if 1; mix 0;",
        "alike, turn 0",
    ),
    (
        "flip 0; flip 1 if 0;",
        "flip 1 if 0; flip 0; flip 1;",
        "alike, turn 0",
    ),
    (
        "flip 1; flip 1 if 0;",
        "flip 1 if 0; flip 1;",
        "alike, turn 0",
    ),
    (
        "turn 4 of 1; flip 1 if 0;",
        "flip 1 if 0; turn 4 of 0; turn 4 of 1;",
        "alike, turn 0",
    ),
    (
        "turn 3 of 0; flip 1 if 0;",
        "flip 1 if 0; turn 3 of 0;",
        "alike, turn 0",
    ),
    ("flip 1 if 0;", "flip 0 if 1;", "different at 01 from 01"),
    (
        "mix 0; flip 1 if 0;",
        "mix 1; flip 0 if 1;",
        "different at 00 from 01",
    ),
    (TELEPORTATION, TELEPORTED, "alike, turn 0"),
    (FOURIER, FOURIER_FROM_END, "alike, turn 0"),
    (
        "mix 0; flip 1 if 0; flip 2 if 0;",
        "mix 0; flip 2 if 0; flip 1 if 0;",
        "alike, turn 0",
    ),
    (
        "mix 0; flip 1 if 0; flip 2 if 1;",
        "mix 0; flip 2 if 1; flip 2 if 0; flip 1 if 0;",
        "alike, turn 0",
    ),
    (
        "mix 0; flip 1 if 0; flip 2 if 0;",
        "mix 0; flip 1 if 0; flip 2 if 1;",
        "different at 010 from 010",
    ),
    ("flip 2 if 0 1;", "flip 2 if 1 0;", "alike, turn 0"),
    (
        "flip 2 if 0 1;",
        "0 times { mix 2; }",
        "different at 110 from 110",
    ),
    (
        "flip 1 if 2; flip 2 if 0 1; flip 1 if 2;",
        "flip 2 if 1; flip 1 if 0 2; flip 2 if 1;",
        "alike, turn 0",
    ),
    (
        "flip 1 if 2; flip 2 if 0 1; flip 1 if 2;",
        "flip 1 if 0 2; flip 2 if 0 1; flip 1 if 0 2;",
        "alike, turn 0",
    ),
    (
        "mix 2; flip 2 if 0 1; mix 2;",
        "mix 0; flip 0 if 1 2; mix 0;",
        "alike, turn 0",
    ),
];

/// All facts, each as a case.
pub fn cases() -> Vec<Case> {
    let facts = [DEFINITIONS, ONE_QUBIT, MORE_QUBITS].concat();
    let mut cases: Vec<Case> = facts
        .iter()
        .map(|(first, second, known)| known_pair(first, second, known))
        .collect();
    // Twice the Fourier transform takes each number to its negative: of 0 to 3, written in two
    // digits, 1 and 3 change places, which is a flip of the first digit where the second is 1.
    cases.push(known_pair(
        &FOURIER.repeat(2),
        "flip 0 if 1;",
        "alike, turn 0",
    ));
    cases.push(known_pair(
        &FOURIER.repeat(4),
        "0 times { mix 1; }",
        "alike, turn 0",
    ));
    cases
}

fn known_pair(first: &str, second: &str, known: &str) -> Case {
    Case::Compare {
        first: first.into(),
        second: second.into(),
        known: Some(known.into()),
    }
}
