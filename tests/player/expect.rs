//! What the programs should do with an input, by the documents alone.

use crate::circuit::{mixes, written, Gate, State};
use crate::device::{Device, MOST_PLACES};
use crate::job::{self, Fault, Lines};
use crate::reader::{self, Said, Unreadable};
use crate::ring::Amplitude;

/// The most gates that a text may say to be compiled.
pub const MOST_COMPILED: u64 = 256;
/// The most gates that a text may say to be compared.
pub const MOST_COMPARED: u64 = 1024;
/// The most qubits that are compared, or whose amplitudes are printed.
pub const MOST_QUBITS: usize = 8;
/// The most Hadamards in what is compared or printed.
pub const MOST_MIXES: usize = 60;
/// The index, in a refusal with number 2, of a layout of the wrong length.
const LAYOUT_LIST: usize = 1;

/// What a program should do with an input.
pub enum Expected {
    /// Print the device's gates for this task.
    Compiled(Task),
    /// Print exactly this.
    Printed(String),
    /// Refuse the input, in one of these ways.
    Refused(Vec<Refusal>),
    /// Refuse its arguments, in any words.
    NotTaken,
    /// Answer or refuse: the documents leave it open which.
    Open,
}

/// A circuit to be brought onto a device.
pub struct Task {
    pub source: Said,
    pub device: Device,
    pub layout: Vec<u8>,
}

/// A refusal, or a fault of a job's line.
#[derive(Clone, Debug)]
pub enum Refusal {
    /// Number 9: the text with this index cannot be read.
    Text(usize, Unreadable),
    /// Another number, and its place.
    Numbered(u8, usize),
    /// Number 6: the place has to be a pair with no way between.
    Unconnected(Device),
    /// A fault of the job's line.
    Line(usize),
}

impl Refusal {
    /// Its number, but for a fault of a line.
    pub fn number(&self) -> Option<u8> {
        match self {
            Self::Text(..) => Some(9),
            Self::Numbered(number, _) => Some(*number),
            Self::Unconnected(_) => Some(6),
            Self::Line(_) => None,
        }
    }
}

impl Expected {
    fn refused(number: u8, place: usize) -> Self {
        Self::Refused(vec![Refusal::Numbered(number, place)])
    }
}

/// What `compile` should do with a job.
pub fn compile(job: &[u8]) -> Expected {
    let (text, rest) = job::cut(job);
    let (first_line, _) = reader::line_and_column(text, text.len());
    let read = reader::read(text, MOST_COMPILED);
    match (read, job::read_lines(rest, first_line)) {
        (_, Err(Fault::Open)) => Expected::Open,
        // The documents do not say which of two faults is told.
        (Err(text), Err(Fault::Line(line))) => {
            Expected::Refused(vec![Refusal::Text(0, text), Refusal::Line(line)])
        }
        (Err(text), Ok(_)) => Expected::Refused(vec![Refusal::Text(0, text)]),
        (Ok(_), Err(Fault::Line(line))) => Expected::Refused(vec![Refusal::Line(line)]),
        (Ok(source), Ok(lines)) => match lines {
            Lines {
                state: Some(row), ..
            } => amplitudes(&source, &row),
            Lines {
                device: Some(device),
                layout: Some(layout),
                ..
            } => compiled(Task {
                source,
                device,
                layout,
            }),
            _ => unreachable!("a job's lines are complete"),
        },
    }
}

fn compiled(task: Task) -> Expected {
    let Task {
        source,
        device,
        layout,
    } = &task;
    if source.qubits == 0 {
        return Expected::refused(1, 0);
    }
    if source.qubits > device.places.into() || device.places > MOST_PLACES {
        return Expected::refused(1, 1);
    }
    if layout.len() != source.qubits {
        return Expected::refused(2, LAYOUT_LIST);
    }
    if let Some(gate) = unsound(&source.gates) {
        return Expected::refused(4, gate);
    }
    let wrong =
        |&qubit: &usize| layout[qubit] >= device.places || layout[..qubit].contains(&layout[qubit]);
    if let Some(qubit) = (0..layout.len()).find(wrong) {
        return Expected::refused(5, qubit);
    }
    if !device.connected() {
        return Expected::Refused(vec![Refusal::Unconnected(device.clone())]);
    }
    Expected::Compiled(task)
}

/// What a job with a row to begin from should print.
fn amplitudes(source: &Said, row: &[u8]) -> Expected {
    let Said { qubits, gates } = source;
    if *qubits == 0 || *qubits > MOST_QUBITS {
        return Expected::refused(1, 0);
    }
    if row.len() != *qubits {
        return Expected::refused(2, 0);
    }
    if let Some(gate) = unsound(gates) {
        return Expected::refused(4, gate);
    }
    if mixes(gates) > MOST_MIXES {
        return Expected::refused(8, mixes(gates));
    }
    let begun = row
        .iter()
        .fold(0, |row, digit| row << 1 | u32::from(*digit == b'1'));
    let mut state = State::of_row(*qubits, begun);
    state.play(gates);
    let line = |(row, amplitude)| format!("{}: {amplitude}\n", written(*qubits, row));
    let lines: String = state.rows().into_iter().map(line).collect();
    Expected::Printed(format!("{lines}with {} mixes\n", mixes(gates)))
}

/// What `compare` should do with two texts.
pub fn compare(first: &[u8], second: &[u8]) -> Expected {
    let read = |index: usize, text: &[u8]| {
        let refused = |unreadable| Expected::Refused(vec![Refusal::Text(index, unreadable)]);
        reader::read(text, MOST_COMPARED).map_err(refused)
    };
    let (first, second) = match (read(0, first), read(1, second)) {
        (Ok(first), Ok(second)) => (first, second),
        (Err(refused), _) | (_, Err(refused)) => return refused,
    };
    let qubits = first.qubits.max(second.qubits);
    if qubits == 0 || qubits > MOST_QUBITS {
        return Expected::refused(1, 0);
    }
    if let Some(gate) = unsound(&first.gates).or_else(|| unsound(&second.gates)) {
        return Expected::refused(4, gate);
    }
    let both = mixes(&first.gates) + mixes(&second.gates);
    if both > MOST_MIXES {
        return Expected::refused(8, both);
    }
    Expected::Printed(compared(qubits, &first.gates, &second.gates))
}

/// The line that tells whether two circuits are alike: the first pair of rows at which an amplitude
/// is not 0 leaves at most one turn, and each pair after it has to agree with that turn.
fn compared(qubits: usize, first: &[Gate], second: &[Gate]) -> String {
    let ours = columns(qubits, first, mixes(second));
    let theirs = columns(qubits, second, mixes(first));
    let mut turns: Vec<u8> = (0..8).collect();
    for row in 0..ours.len() {
        for from in 0..ours.len() {
            let (our, their) = (ours[from][row], theirs[from][row]);
            turns.retain(|turn| our == their.turned(*turn));
            if turns.is_empty() {
                let [row, from] = [row, from].map(|it| u32::try_from(it).expect("a row"));
                return format!(
                    "different at {} from {}\n",
                    written(qubits, row),
                    written(qubits, from)
                );
            }
        }
    }
    format!("alike, turn {}\n", turns[0])
}

/// The amplitudes of all rows, begun from each row, multiplied by so many roots of two.
fn columns(qubits: usize, gates: &[Gate], roots: usize) -> Vec<Vec<Amplitude>> {
    let column = |from| {
        let mut state = State::of_row(qubits, from);
        state.play(gates);
        let mut column = vec![Amplitude::ZERO; 1 << qubits];
        for (row, amplitude) in state.rows() {
            column[usize::try_from(row).expect("a row")] = amplitude.times_roots(roots);
        }
        column
    };
    (0..1 << qubits).map(column).collect()
}

/// The first gate that names a qubit twice.
fn unsound(gates: &[Gate]) -> Option<usize> {
    gates.iter().position(|gate| !gate.is_sound())
}
