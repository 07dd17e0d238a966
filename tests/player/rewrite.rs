//! Rewriting circuits by identities, spoiling them, and telling them in other words.

use crate::circuit::Gate;
use crate::random::Random;
use crate::write::{random_gate, signs_of, spaced};

/// Rewrites the circuit somewhere by an identity. What it does is the same, with no turn.
pub fn rewrite(random: &mut Random, gates: &mut Vec<Gate>, qubits: u8) {
    match random.below(6) {
        0..=2 if !gates.is_empty() => {
            let at = random.below(gates.len());
            let same = in_other_words(random, &gates[at]);
            gates.splice(at..=at, same);
        }
        3 => exchange(random, gates),
        4 if qubits > 1 => {
            let names = random.different(2, qubits);
            let (a, b) = (names[0], names[1]);
            let both = [swap_by_cnots(a, b), swap_by_cnots(b, a)].concat();
            insert(random, gates, both);
        }
        _ => {
            let gate = random_gate(random, qubits);
            insert(random, gates, vec![gate.clone(), gate.undone()]);
        }
    }
}

/// Other gates that do the same as the gate.
fn in_other_words(random: &mut Random, gate: &Gate) -> Vec<Gate> {
    match gate {
        Gate::Turn { eighths, qubit } => {
            let part = random.byte(0, 7);
            let rest = (eighths % 8 + 8 - part) % 8;
            let turn = |eighths| Gate::Turn {
                eighths,
                qubit: *qubit,
            };
            vec![turn(part), turn(rest)]
        }
        Gate::Mix(qubit) => vec![Gate::Mix(*qubit); 3],
        Gate::Flip { target, controls } => match controls[..] {
            [] => not_by_mixes(*target),
            [control] => cnot_reversed(*target, control),
            [first, second, ..] => toffoli_by_turns(*target, first, second),
        },
    }
}

/// Inserts gates that turn the whole by so many eighths.
pub fn turn_whole(random: &mut Random, gates: &mut Vec<Gate>, qubits: u8, eighths: u8) {
    let qubit = random.byte(0, qubits - 1);
    let half = [Gate::not(qubit), Gate::Turn { eighths, qubit }];
    insert(random, gates, [half.clone(), half].concat());
}

/// Changes the circuit a little, so that it most often does something else.
pub fn spoil(random: &mut Random, gates: &mut Vec<Gate>, qubits: u8) {
    let qubit = random.byte(0, qubits - 1);
    match random.below(6) {
        0 if !gates.is_empty() => {
            gates.remove(random.below(gates.len()));
        }
        1 if !gates.is_empty() => {
            let at = random.below(gates.len());
            gates[at] = random_gate(random, qubits);
        }
        2 if qubits > 2 => gates.push(Gate::Flip {
            target: qubits - 1,
            controls: vec![0, 1],
        }),
        3 if qubits > 2 => {
            let mix = Gate::Mix(qubits - 1);
            let toffoli = Gate::Flip {
                target: qubits - 1,
                controls: vec![0, 1],
            };
            gates.extend([mix.clone(), toffoli, mix]);
        }
        4 if qubits > 1 => gates.push(Gate::cnot(qubits - 1, 0)),
        _ => insert(random, gates, vec![Gate::Turn { eighths: 1, qubit }]),
    }
}

/// A text that says the gates, in runs that are told plainly, undone, once, or as blocks.
pub fn retold(random: &mut Random, gates: &[Gate]) -> String {
    let mut blocks = Vec::new();
    let mut many_blocks = 0;
    let mut body = Vec::new();
    let mut rest = gates;
    while !rest.is_empty() {
        let (run, after) = rest.split_at(random.between(1, rest.len().min(6)));
        rest = after;
        match random.below(8) {
            0 => body.extend(in_braces("undo {", &undone(run))),
            1 => body.extend(
                in_braces("undo { undo {", run)
                    .into_iter()
                    .chain(signs_of("}")),
            ),
            2 => body.extend(in_braces("1 times {", run)),
            3 if many_blocks < 8 => {
                let (block, on) = as_block(random, run);
                let names: Vec<String> = on.iter().map(u8::to_string).collect();
                let opening = format!("block {many_blocks} of {} {{", on.len());
                blocks.extend(in_braces(&opening, &block));
                body.extend(signs_of(&format!(
                    "call {many_blocks} on {};",
                    names.join(" ")
                )));
                many_blocks += 1;
            }
            _ => body.extend(told(run)),
        }
    }
    blocks.extend(body);
    spaced(random, &blocks)
}

/// The gates backwards, each undone.
fn undone(gates: &[Gate]) -> Vec<Gate> {
    gates.iter().rev().map(Gate::undone).collect()
}

/// The gates with numbers of a block's qubits, and the qubits on which it has to be called.
fn as_block(random: &mut Random, gates: &[Gate]) -> (Vec<Gate>, Vec<u8>) {
    let mut on: Vec<u8> = gates.iter().flat_map(Gate::qubits).collect();
    on.sort_unstable();
    on.dedup();
    random.shuffle(&mut on);
    let mut numbers = [0; 256];
    for (number, qubit) in (0..).zip(&on) {
        numbers[usize::from(*qubit)] = number;
    }
    (
        gates.iter().map(|gate| gate.renamed(&numbers)).collect(),
        on,
    )
}

fn told(gates: &[Gate]) -> Vec<String> {
    gates
        .iter()
        .flat_map(|gate| signs_of(&gate.to_string()))
        .collect()
}

fn in_braces(opening: &str, gates: &[Gate]) -> Vec<String> {
    let mut signs = signs_of(opening);
    signs.extend(told(gates));
    signs.push("}".to_owned());
    signs
}

fn insert(random: &mut Random, gates: &mut Vec<Gate>, new: Vec<Gate>) {
    let at = random.below(gates.len() + 1);
    gates.splice(at..at, new);
}

/// Exchanges two neighbours that share no qubit, if there are any.
fn exchange(random: &mut Random, gates: &mut [Gate]) {
    let apart = |at: &usize| {
        let after = gates[at + 1].qubits();
        gates[*at]
            .qubits()
            .iter()
            .all(|qubit| !after.contains(qubit))
    };
    let fitting: Vec<usize> = (0..gates.len().saturating_sub(1)).filter(apart).collect();
    if !fitting.is_empty() {
        let at = random.pick(&fitting);
        gates.swap(at, at + 1);
    }
}

fn not_by_mixes(qubit: u8) -> Vec<Gate> {
    vec![
        Gate::Mix(qubit),
        Gate::Turn { eighths: 4, qubit },
        Gate::Mix(qubit),
    ]
}

fn cnot_reversed(target: u8, control: u8) -> Vec<Gate> {
    let mixes = [Gate::Mix(target), Gate::Mix(control)];
    [&mixes[..], &[Gate::cnot(control, target)], &mixes[..]].concat()
}

fn swap_by_cnots(a: u8, b: u8) -> Vec<Gate> {
    vec![Gate::cnot(a, b), Gate::cnot(b, a), Gate::cnot(a, b)]
}

/// The Toffoli gate by fifteen gates, as textbooks have it.
fn toffoli_by_turns(target: u8, first: u8, second: u8) -> Vec<Gate> {
    let turn = |eighths, qubit| Gate::Turn { eighths, qubit };
    vec![
        Gate::Mix(target),
        Gate::cnot(target, second),
        turn(7, target),
        Gate::cnot(target, first),
        turn(1, target),
        Gate::cnot(target, second),
        turn(7, target),
        Gate::cnot(target, first),
        turn(1, second),
        turn(1, target),
        Gate::Mix(target),
        Gate::cnot(second, first),
        turn(1, first),
        turn(7, second),
        Gate::cnot(second, first),
    ]
}
