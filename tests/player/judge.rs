//! Whether what a program has done is what it should have done.

use crate::circuit::{odd_turns, Gate, State};
use crate::drive::{Command, End, Outcome};
use crate::expect::{Expected, Refusal, Task};
use crate::random::Random;
use crate::reader;
use crate::ring::Amplitude;

/// Why a case fails.
pub type Wrong = String;

/// The most qubits for which random states have an amplitude at every row.
const MOST_DENSE: usize = 6;

/// Judges the outcome of a command.
pub fn judge(expected: &Expected, command: &Command, outcome: &Outcome) -> Result<(), Wrong> {
    match (expected, outcome.end) {
        (Expected::Refused(refusals), End::Status(1)) => refused(refusals, command, outcome),
        (Expected::Printed(line), End::Status(0)) => printed(line, outcome),
        (Expected::Compiled(task), End::Status(0)) => {
            // The same input is always judged by the same states.
            let mut random = Random::from_bytes(command.input);
            compiled(task, &outcome.output, &mut random)
        }
        (Expected::NotTaken | Expected::Open, End::Status(1)) => silent(outcome),
        (Expected::Open, End::Status(0)) => Ok(()),
        (Expected::Refused(refusals), _) => Err(format!("expected one of {refusals:?}")),
        (Expected::Printed(line), _) => Err(format!("expected status 0 and {line}")),
        (Expected::Compiled(_), _) => Err("expected status 0 and the device's gates".into()),
        (Expected::NotTaken, _) => Err("expected status 1".into()),
        (Expected::Open, _) => Err("expected status 0 or 1".into()),
    }
}

/// A refusal prints nothing on standard output, and something on standard error.
fn silent(outcome: &Outcome) -> Result<(), Wrong> {
    if !outcome.output.is_empty() {
        return Err("a refusal must leave standard output empty".into());
    }
    if outcome.errors.is_empty() {
        return Err("a refusal must tell why on standard error".into());
    }
    Ok(())
}

fn printed(line: &str, outcome: &Outcome) -> Result<(), Wrong> {
    if outcome.output == line.as_bytes() {
        Ok(())
    } else {
        Err(format!("expected {line}"))
    }
}

/// What the first line on standard error tells.
struct Told<'a> {
    file: &'a str,
    /// The numbers after the file: none, the line, or the line and the column.
    place: Vec<usize>,
    /// The refusal's number and place, unless it is none with a number.
    refused: Option<(usize, usize)>,
}

impl<'a> Told<'a> {
    /// Reads `FILE[:LINE[:COLUMN]]: refused N at [word ]PLACE: ..` or `FILE[:LINE]: ..`.
    fn read(errors: &'a [u8]) -> Option<Self> {
        let first = errors.split(|byte| *byte == b'\n').next()?;
        let (head, rest) = std::str::from_utf8(first).ok()?.split_once(": ")?;
        let mut parts = head.split(':');
        let file = parts.next()?;
        let place = parts.map(|part| part.parse().ok()).collect::<Option<_>>()?;
        let refused = match rest.strip_prefix("refused ") {
            Some(told) => Some(number_and_place(told)?),
            None => None,
        };
        Some(Self {
            file,
            place,
            refused,
        })
    }

    fn is(&self, refusal: &Refusal, command: &Command) -> bool {
        match refusal {
            Refusal::Text(index, text) => {
                self.refused == Some((9, text.sign))
                    && self.place == [text.line, text.column]
                    && self.names(&command.names[*index], command)
            }
            Refusal::Numbered(number, place) => {
                self.refused == Some((usize::from(*number), *place)) && self.place.is_empty()
            }
            Refusal::Unconnected(device) => self.refused.is_some_and(|(number, pair)| {
                let places = usize::from(device.places);
                let pair = (u8::try_from(pair / places), u8::try_from(pair % places));
                let (Ok(a), Ok(b)) = pair else { return false };
                number == 6 && a < device.places && !device.way(a, b)
            }),
            Refusal::Line(line) => {
                self.refused.is_none()
                    && self.place == [*line]
                    && self.names(&command.names[0], command)
            }
        }
    }

    /// Whether the file told is this one; standard input may be told by the program's name.
    fn names(&self, name: &str, command: &Command) -> bool {
        self.file == name || (name == "-" && self.file == command.program.name())
    }
}

/// Reads `N at [word ]PLACE: ..`.
fn number_and_place(told: &str) -> Option<(usize, usize)> {
    let (numbers, _) = told.split_once(':')?;
    let (number, place) = numbers.split_once(" at ")?;
    let place = place.rsplit(' ').next()?;
    Some((number.parse().ok()?, place.parse().ok()?))
}

fn refused(refusals: &[Refusal], command: &Command, outcome: &Outcome) -> Result<(), Wrong> {
    silent(outcome)?;
    let told = Told::read(&outcome.errors).ok_or("standard error begins with no refusal")?;
    let right = refusals.iter().any(|refusal| told.is(refusal, command));
    if right {
        Ok(())
    } else {
        Err(format!("expected one of {refusals:?}"))
    }
}

/// Judges the gates of a device: they have to be gates that the device can do, and to do what the
/// source does, but for a turn of the whole.
fn compiled(task: &Task, output: &[u8], random: &mut Random) -> Result<(), Wrong> {
    let (gates, at_end) = device_gates(output)?;
    for gate in &gates {
        possible(task, gate)?;
    }
    let places = task.device.places;
    let twice = |index: usize| at_end[..index].contains(&at_end[index]);
    if at_end.len() != task.source.qubits
        || at_end.iter().any(|place| *place >= places)
        || (0..at_end.len()).any(twice)
    {
        return Err("the line `at the end` tells no layout".into());
    }
    let (ours, theirs) = (odd_turns(&task.source.gates), odd_turns(&gates));
    if theirs > ours {
        return Err(format!("{theirs} odd turns, where the source has {ours}"));
    }
    same_states(task, &gates, &at_end, random)
}

/// Reads the gates, a line each, and the layout at the end.
fn device_gates(output: &[u8]) -> Result<(Vec<Gate>, Vec<u8>), Wrong> {
    let output = std::str::from_utf8(output).map_err(|_| "the output is no text")?;
    let output = output
        .strip_suffix('\n')
        .ok_or("the output does not end its last line")?;
    let mut lines: Vec<&str> = output.split('\n').collect();
    let last = lines
        .pop()
        .and_then(|line| line.strip_prefix("at the end "));
    let last = last.ok_or("the last line does not begin with `at the end`")?;
    let places: Option<Vec<u8>> = last.split(' ').map(|place| place.parse().ok()).collect();
    let gate = |line: &str| {
        let said = reader::read(line.as_bytes(), 1).ok()?;
        said.gates
            .into_iter()
            .next()
            .filter(|gate| gate.to_string() == line)
    };
    let mut gates = Vec::new();
    for line in lines {
        gates.push(gate(line).ok_or_else(|| format!("`{line}` is not one gate"))?);
    }
    Ok((
        gates,
        places.ok_or("the last line has something else than places")?,
    ))
}

/// Whether the device can do the gate.
fn possible(task: &Task, gate: &Gate) -> Result<(), Wrong> {
    let inside = gate
        .qubits()
        .iter()
        .all(|place| *place < task.device.places);
    let joined = match gate {
        Gate::Turn { .. } | Gate::Mix(_) => true,
        Gate::Flip { target, controls } => match controls[..] {
            [] => true,
            [control] => *target != control && task.device.joined(*target, control),
            _ => false,
        },
    };
    if inside && joined {
        Ok(())
    } else {
        Err(format!("the device cannot do `{gate}`"))
    }
}

/// Plays rows and random states through both circuits.
fn same_states(
    task: &Task,
    gates: &[Gate],
    at_end: &[u8],
    random: &mut Random,
) -> Result<(), Wrong> {
    let places = usize::from(task.device.places);
    let mut turn = None;
    for state in states(task.source.qubits, random) {
        let mut there = state.laid_out(&task.layout, places);
        there.play_reduced(gates);
        let mut here = state.clone();
        here.play_reduced(&task.source.gates);
        let found = there.turn_from(&here.laid_out(at_end, places));
        let found = found.ok_or_else(|| format!("another result from {:?}", state.rows()))?;
        if *turn.get_or_insert(found) != found {
            return Err(format!(
                "turn {found} from {:?}, another before",
                state.rows()
            ));
        }
    }
    Ok(())
}

/// The states to be played: rows, and sums of rows (of all rows, unless there are too many).
fn states(qubits: usize, random: &mut Random) -> Vec<State> {
    let end = 1_u32 << qubits;
    let mut some_rows = |many: usize, of: u32| -> Vec<u32> {
        let mut rows: Vec<u32> = (0..of).collect();
        random.shuffle(&mut rows);
        rows.truncate(many);
        rows
    };
    let basis = some_rows(if qubits > MOST_DENSE { 3 } else { 8 }, end);
    let sums = [(); 2].map(|()| some_rows(if qubits > MOST_DENSE { 6 } else { 64 }, end));
    let mut states: Vec<State> = basis
        .into_iter()
        .map(|row| State::of_row(qubits, row))
        .collect();
    for rows in sums {
        let amplitudes = rows.into_iter().map(|row| (row, amplitude(random)));
        states.push(State::new(qubits, amplitudes.collect()));
    }
    states
}

/// A small random amplitude that is not 0.
fn amplitude(random: &mut Random) -> Amplitude {
    let mut part = || i128::from(random.byte(0, 6)) - 3;
    let amplitude = Amplitude::new([part(), part(), part(), part()]);
    if amplitude == Amplitude::ZERO {
        Amplitude::ONE
    } else {
        amplitude
    }
}
