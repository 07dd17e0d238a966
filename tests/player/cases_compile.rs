//! Random texts for random devices, compiled.

use crate::case::Case;
use crate::device::{Device, MOST_PLACES};
use crate::random::Random;
use crate::reader::Said;
use crate::write::{random_text, Shape};

/// So many random jobs, a part of them with `--plain`.
pub fn cases(random: &mut Random, many: usize) -> Vec<Case> {
    (0..many)
        .map(|number| {
            let job = if number.is_multiple_of(12) {
                wide_job(random)
            } else {
                narrow_job(random)
            };
            Case::Compile {
                plain: random.chance(1, 4),
                job: job.into_bytes(),
            }
        })
        .collect()
}

/// A job with few qubits.
pub fn narrow_job(random: &mut Random) -> String {
    let shape = Shape {
        qubits: random.byte(1, 6),
        statements: 25,
        gates: 60,
        mixes: 16,
    };
    let (text, said) = random_text(random, shape);
    let least = u8::try_from(said.qubits).expect("the text has few qubits");
    let places = random.byte(least, MOST_PLACES);
    with_device(random, text, &said, places)
}

/// A job for a device of 16 places, with up to as many qubits.
fn wide_job(random: &mut Random) -> String {
    let shape = Shape {
        qubits: random.byte(7, MOST_PLACES),
        statements: 40,
        gates: 80,
        mixes: 6,
    };
    let (text, said) = random_text(random, shape);
    with_device(random, text, &said, MOST_PLACES)
}

fn with_device(random: &mut Random, mut text: String, said: &Said, places: u8) -> String {
    text.push_str(&Device::random(random, places).lines());
    let layout = random.different(said.qubits, places);
    text.push_str(&lay(&layout));
    text
}

/// The layout's line.
pub fn lay(layout: &[u8]) -> String {
    let places: Vec<String> = layout.iter().map(u8::to_string).collect();
    format!("lay {}\n", places.join(" "))
}
