//! Jobs with a row to begin from, whose amplitudes are printed.

use crate::case::Case;
use crate::device::Device;
use crate::random::Random;
use crate::write::{random_text, Shape};

/// So many jobs.
pub fn cases(random: &mut Random, many: usize) -> Vec<Case> {
    (0..many).map(|_| Case::job(job(random))).collect()
}

/// A job with a row to begin from, in a part of the cases with a device and a layout too.
pub fn job(random: &mut Random) -> String {
    let qubits = if random.chance(1, 8) {
        random.byte(6, 8)
    } else {
        random.byte(1, 5)
    };
    let shape = Shape {
        qubits,
        statements: 25,
        gates: 80,
        mixes: 40,
    };
    let (mut text, said) = random_text(random, shape);
    let row: String = (0..said.qubits).map(|_| random.pick(&['0', '1'])).collect();
    let state = format!("state {row}\n");
    if random.chance(1, 3) {
        let places = random.byte(1, 20);
        let device = Device::random(random, places).lines();
        let layout = if random.chance(1, 2) {
            "lay 0 0 99\n"
        } else {
            ""
        };
        let first = random.chance(1, 2);
        let parts = if first {
            [&state, &device, layout]
        } else {
            [&device, layout, &state]
        };
        text.push_str(&parts.concat());
    } else {
        text.push_str(&state);
    }
    text
}
