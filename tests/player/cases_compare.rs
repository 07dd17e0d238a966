//! Pairs of texts, compared: random ones, ones that are alike, and ones that are nearly alike.

use crate::case::Case;
use crate::circuit::{mixes, Gate};
use crate::expect::MOST_MIXES;
use crate::random::Random;
use crate::rewrite::{retold, rewrite, spoil, turn_whole};
use crate::write::{random_text, Shape};

/// So many pairs.
pub fn cases(random: &mut Random, many: usize) -> Vec<Case> {
    (0..many).map(|number| pair(random, number)).collect()
}

/// A pair with few Hadamards enough to be compared.
fn pair(random: &mut Random, number: usize) -> Case {
    let qubits = if number.is_multiple_of(40) {
        random.byte(6, 8)
    } else {
        random.byte(1, 5)
    };
    let statements = if qubits > 5 { 12 } else { 20 };
    let shape = Shape {
        qubits,
        statements,
        gates: 50,
        mixes: 14,
    };
    let (first, said) = random_text(random, shape);
    let qubits = u8::try_from(said.qubits).expect("the text has few qubits");
    if number.is_multiple_of(6) {
        let (second, _) = random_text(random, Shape { qubits, ..shape });
        return Case::pair(first, second);
    }
    let mut gates = said.gates.clone();
    for _ in 0..random.below(12) {
        rewrite_within(random, &mut gates, qubits, mixes(&said.gates));
    }
    if number % 3 == 1 {
        let eighths = random.byte(0, 7);
        turn_whole(random, &mut gates, qubits, eighths);
    }
    if number % 2 == 1 {
        spoil(random, &mut gates, qubits);
    }
    let second = retold(random, &gates);
    if random.chance(1, 2) {
        Case::pair(first, second)
    } else {
        Case::pair(second, first)
    }
}

/// Rewrites the circuit, unless there would be too many Hadamards with those of the other.
fn rewrite_within(random: &mut Random, gates: &mut Vec<Gate>, qubits: u8, others: usize) {
    let mut rewritten = gates.clone();
    rewrite(random, &mut rewritten, qubits);
    // Spoiling may add two more.
    if mixes(&rewritten) + others + 2 <= MOST_MIXES {
        *gates = rewritten;
    }
}
