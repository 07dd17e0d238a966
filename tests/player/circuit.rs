//! Gates, and states played through them.

use crate::ring::Amplitude;
use std::fmt;

/// A gate. Its numbers are qubits, or places of a device.
#[derive(Clone, Debug, PartialEq, Eq)]
pub enum Gate {
    /// Amplitudes of rows with 1 at the qubit are turned by that many eighths.
    Turn { eighths: u8, qubit: u8 },
    /// The Hadamard gate, its root of two counted apart.
    Mix(u8),
    /// The target is flipped where all of the at most two controls are 1.
    Flip { target: u8, controls: Vec<u8> },
}

impl Gate {
    /// A flip with no control.
    pub fn not(target: u8) -> Self {
        Self::Flip {
            target,
            controls: Vec::new(),
        }
    }

    /// A flip with one control.
    pub fn cnot(target: u8, control: u8) -> Self {
        Self::Flip {
            target,
            controls: vec![control],
        }
    }

    /// The qubits that the gate names, in the order in which they are written.
    pub fn qubits(&self) -> Vec<u8> {
        match self {
            Self::Turn { qubit, .. } | Self::Mix(qubit) => vec![*qubit],
            Self::Flip { target, controls } => {
                let mut qubits = vec![*target];
                qubits.extend(controls);
                qubits
            }
        }
    }

    /// Whether it names no qubit twice.
    pub fn is_sound(&self) -> bool {
        let qubits = self.qubits();
        (1..qubits.len()).all(|index| !qubits[..index].contains(&qubits[index]))
    }

    /// The gate that undoes it.
    pub fn undone(&self) -> Self {
        match self {
            Self::Turn { eighths, qubit } => Self::Turn {
                eighths: (8 - eighths % 8) % 8,
                qubit: *qubit,
            },
            other => other.clone(),
        }
    }

    /// The same gate with `names[q]` put in for each qubit `q`.
    pub fn renamed(&self, names: &[u8]) -> Self {
        let name = |qubit: &u8| names[usize::from(*qubit)];
        match self {
            Self::Turn { eighths, qubit } => Self::Turn {
                eighths: *eighths,
                qubit: name(qubit),
            },
            Self::Mix(qubit) => Self::Mix(name(qubit)),
            Self::Flip { target, controls } => Self::Flip {
                target: name(target),
                controls: controls.iter().map(name).collect(),
            },
        }
    }

    /// How many turns by an odd number of eighths it stands for: a Toffoli for 7.
    fn odd_turns(&self) -> usize {
        match self {
            Self::Turn { eighths, .. } => usize::from(eighths % 2),
            Self::Flip { controls, .. } if controls.len() == 2 => 7,
            _ => 0,
        }
    }
}

impl fmt::Display for Gate {
    fn fmt(&self, out: &mut fmt::Formatter<'_>) -> fmt::Result {
        match self {
            Self::Turn { eighths, qubit } => write!(out, "turn {eighths} of {qubit};"),
            Self::Mix(qubit) => write!(out, "mix {qubit};"),
            Self::Flip { target, controls } => {
                write!(out, "flip {target}")?;
                for (index, control) in controls.iter().enumerate() {
                    write!(out, "{}{control}", if index == 0 { " if " } else { " " })?;
                }
                write!(out, ";")
            }
        }
    }
}

/// How many Hadamards there are.
pub fn mixes(gates: &[Gate]) -> usize {
    gates
        .iter()
        .filter(|gate| matches!(gate, Gate::Mix(_)))
        .count()
}

/// How many turns by an odd number of eighths there are, a Toffoli counting 7.
pub fn odd_turns(gates: &[Gate]) -> usize {
    gates.iter().map(Gate::odd_turns).sum()
}

/// The number of a row's digit for a qubit: qubit 0 is written first, so that rows in the order of
/// their numbers are in the order in which they are written.
pub fn digit(qubits: usize, qubit: u8) -> u32 {
    1 << (qubits - 1 - usize::from(qubit))
}

/// A row as it is written, qubit 0 first.
pub fn written(qubits: usize, row: u32) -> String {
    (0..qubits)
        .rev()
        .map(|shift| if row >> shift & 1 == 1 { '1' } else { '0' })
        .collect()
}

/// A state: the amplitudes of rows, all divided by the root of two `roots` times. Rows that are
/// not listed have the amplitude 0, and no row is listed twice.
#[derive(Clone, Debug)]
pub struct State {
    qubits: usize,
    /// The roots of two that are counted apart.
    pub roots: usize,
    amplitudes: Vec<(u32, Amplitude)>,
}

impl State {
    /// The state with these amplitudes of different rows.
    pub fn new(qubits: usize, amplitudes: Vec<(u32, Amplitude)>) -> Self {
        Self {
            qubits,
            roots: 0,
            amplitudes,
        }
    }

    /// The basis state of a row.
    pub fn of_row(qubits: usize, row: u32) -> Self {
        Self::new(qubits, vec![(row, Amplitude::ONE)])
    }

    /// The rows whose amplitude is not 0, in order.
    pub fn rows(&self) -> Vec<(u32, Amplitude)> {
        let mut rows = self.amplitudes.clone();
        rows.retain(|(_, amplitude)| *amplitude != Amplitude::ZERO);
        rows.sort_unstable_by_key(|(row, _)| *row);
        rows
    }

    /// Does the gates, the first first.
    pub fn play(&mut self, gates: &[Gate]) {
        for gate in gates {
            self.apply(gate);
        }
    }

    /// The same, and takes out roots of two on the way, so that amplitudes stay small however many
    /// Hadamards there are.
    pub fn play_reduced(&mut self, gates: &[Gate]) {
        for gate in gates {
            self.apply(gate);
            if matches!(gate, Gate::Mix(_)) {
                while self.roots > 0 && self.take_root_out() {}
            }
        }
    }

    /// The same state on the places of a device: qubit `q` at place `layout[q]`, and 0 elsewhere.
    pub fn laid_out(&self, layout: &[u8], places: usize) -> Self {
        let lay = |row: u32| {
            let ones = (0..)
                .zip(layout)
                .filter(|(q, _)| row & digit(self.qubits, *q) != 0);
            ones.map(|(_, &place)| digit(places, place)).sum()
        };
        let amplitudes = self
            .amplitudes
            .iter()
            .map(|&(row, amplitude)| (lay(row), amplitude));
        Self {
            qubits: places,
            roots: self.roots,
            amplitudes: amplitudes.collect(),
        }
    }

    /// The number of eighths by which the other state has to be turned to be this one, if there is
    /// one.
    pub fn turn_from(&self, other: &Self) -> Option<u8> {
        let common = self.roots.min(other.roots);
        let scaled = |state: &Self, roots: usize| -> Vec<(u32, Amplitude)> {
            let scale = |(row, amplitude): (u32, Amplitude)| (row, amplitude.times_roots(roots));
            state.rows().into_iter().map(scale).collect()
        };
        let ours = scaled(self, other.roots - common);
        let theirs = scaled(other, self.roots - common);
        (0..8).find(|&turn| {
            let turned = theirs
                .iter()
                .map(|(row, amplitude)| (*row, amplitude.turned(turn)));
            turned.eq(ours.iter().copied())
        })
    }

    fn apply(&mut self, gate: &Gate) {
        match gate {
            Gate::Turn { eighths, qubit } => {
                let digit = digit(self.qubits, *qubit);
                for (_, amplitude) in self.amplitudes.iter_mut().filter(|(r, _)| r & digit != 0) {
                    *amplitude = amplitude.turned(*eighths);
                }
            }
            Gate::Mix(qubit) => self.mix(*qubit),
            Gate::Flip { target, controls } => {
                let all: u32 = controls
                    .iter()
                    .map(|control| digit(self.qubits, *control))
                    .sum();
                let target = digit(self.qubits, *target);
                for (row, _) in self.amplitudes.iter_mut().filter(|(r, _)| r & all == all) {
                    *row ^= target;
                }
            }
        }
    }

    fn mix(&mut self, qubit: u8) {
        let digit = digit(self.qubits, qubit);
        let mut before = std::mem::take(&mut self.amplitudes);
        before.sort_unstable_by_key(|(row, _)| (row & !digit, row & digit));
        let mut rest = before.into_iter().peekable();
        while let Some((row, amplitude)) = rest.next() {
            let partner = rest.next_if(|(other, _)| *other == row | digit && row & digit == 0);
            let (at_0, at_1) = match partner {
                Some((_, of_partner)) => (amplitude, of_partner),
                None if row & digit == 0 => (amplitude, Amplitude::ZERO),
                None => (Amplitude::ZERO, amplitude),
            };
            self.put(row & !digit, at_0.plus(at_1));
            self.put(row | digit, at_0.minus(at_1));
        }
        self.roots += 1;
    }

    fn put(&mut self, row: u32, amplitude: Amplitude) {
        if amplitude != Amplitude::ZERO {
            self.amplitudes.push((row, amplitude));
        }
    }

    fn take_root_out(&mut self) -> bool {
        let divide = |&(row, amplitude): &(u32, Amplitude)| Some((row, amplitude.over_root()?));
        let divided: Option<Vec<_>> = self.amplitudes.iter().map(divide).collect();
        let Some(divided) = divided else { return false };
        self.amplitudes = divided;
        self.roots -= 1;
        true
    }
}
