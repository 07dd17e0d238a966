//! Input that has to be refused: some for every number that texts and jobs can lead to, faults of
//! job lines, and random mutations of good input.

use crate::case::Case;
use crate::cases_compile::{lay, narrow_job};
use crate::cases_state;
use crate::device::{Device, MOST_PLACES};
use crate::expect::{Expected, Refusal};
use crate::random::Random;
use crate::write::{random_signs, random_text, signs_of, spaced, Shape};

/// The numbers of refusals that texts and jobs can lead to.
const NUMBERS: [u8; 7] = [1, 2, 4, 5, 6, 8, 9];

/// Signs that a mutation puts in.
const WORDS: &[&str] = &[
    "turn", "of", "mix", "flip", "if", "undo", "times", "block", "call", "on", "{", "}", ";", "0",
    "1", "2", "7", "255", "256", "00003", "1000", "mix0", "x", "-", "\u{e9}", "device", "lay",
    "joined",
];

/// So many cases, three quarters of them made for a number or a fault of a line. Jobs with a row to
/// begin from are among them if `with_state` says so.
pub fn cases(random: &mut Random, many: usize, with_state: bool) -> Vec<Case> {
    let case = |index: usize| match (index % 4, NUMBERS.get(index / 4 % 8)) {
        (3, _) => mutated(random, with_state),
        (_, Some(number)) => refused_with(*number, random, with_state),
        (_, None) => Case::job(line_fault(random)),
    };
    (0..many).map(case).collect()
}

/// A case that is refused with this number.
fn refused_with(number: u8, random: &mut Random, with_state: bool) -> Case {
    loop {
        let case = match random.below(3) {
            0 if with_state => Case::job(bad_state(number, random)),
            1 => bad_pair(number, random),
            _ => Case::job(bad_job(number, random)),
        };
        if let Expected::Refused(refusals) = case.expected() {
            if refusals.first().and_then(Refusal::number) == Some(number) {
                return case;
            }
        }
    }
}

/// A job that is meant for a number, as far as jobs can lead to it.
fn bad_job(number: u8, random: &mut Random) -> String {
    let text = match number {
        1 if random.chance(1, 3) => no_qubits(random),
        _ => bad_text(number, random),
    };
    let mut places = random.byte(3, MOST_PLACES);
    let mut layout = random.different(3, places);
    match (number, random.below(3)) {
        (1, 0) => places = random.byte(0, 2),
        (1, _) => places = random.byte(17, 255),
        (2, 0) => layout.truncate(random.below(3)),
        (2, _) => layout.push(random.byte(0, places)),
        (5, 0) => layout[random.below(3)] = random.byte(places, 255),
        (5, _) => layout[random.below(3)] = layout[random.below(3)],
        _ => (),
    }
    let mut device = Device::random(random, places.clamp(1, MOST_PLACES));
    device.places = places;
    device.wires.retain(|(a, b)| *a < places && *b < places);
    if number == 6 {
        let lone = random.byte(0, places - 1);
        device.wires.retain(|(a, b)| *a != lone && *b != lone);
    }
    [text, device.lines(), lay(&layout)].concat()
}

/// A job with a row to begin from that is meant for a number.
fn bad_state(number: u8, random: &mut Random) -> String {
    let text = match number {
        1 if random.chance(1, 2) => no_qubits(random),
        1 => format!("mix {};\n", random.byte(8, 255)),
        _ => bad_text(number, random),
    };
    let digits = if number == 2 {
        random.between(1, 12)
    } else {
        3
    };
    let row: String = (0..digits).map(|_| random.pick(&['0', '1'])).collect();
    format!("{text}state {row}\n")
}

/// A pair of texts that is meant for a number.
fn bad_pair(number: u8, random: &mut Random) -> Case {
    let good = bad_text(0, random);
    let bad = match number {
        1 if random.chance(1, 2) => return Case::pair(no_qubits(random), no_qubits(random)),
        1 => format!("mix {};\n", random.byte(8, 255)),
        8 => format!("{} times {{ mix 1; }}\n", random.byte(40, 255)),
        _ => bad_text(number, random),
    };
    if random.chance(1, 2) {
        Case::pair(good, bad)
    } else {
        Case::pair(bad, good)
    }
}

/// A text of three qubits that is meant for a number, or for none.
fn bad_text(number: u8, random: &mut Random) -> String {
    let shape = Shape {
        qubits: 3,
        statements: 12,
        gates: 60,
        mixes: 30,
    };
    let (mut signs, _) = random_signs(random, shape);
    signs.extend(signs_of("turn 1 of 2;"));
    match number {
        4 => {
            let twice = random.pick(&["flip 1 if 1;", "flip 2 if 0 0;", "flip 0 if 0 1;"]);
            signs.extend(signs_of(twice));
            signs.extend(signs_of("mix 1; flip 0 if 0;"));
        }
        8 => signs.extend(signs_of(&format!(
            "{} times {{ mix 1; }}",
            random.byte(31, 120)
        ))),
        9 => unreadable(random, &mut signs),
        _ => (),
    }
    spaced(random, &signs)
}

/// Makes a text unreadable, most often.
fn unreadable(random: &mut Random, signs: &mut Vec<String>) {
    match random.below(8) {
        0 => {
            let many = random.byte(100, 255);
            signs.extend(signs_of(&format!(
                "mix 0; {many} times {{ 11 times {{ flip 0; }} }}"
            )));
        }
        1 => signs.extend(signs_of(&"0 times { mix 0; } ".repeat(700))),
        2 => signs.truncate(random.below(signs.len())),
        _ => mutate_signs(random, signs),
    }
}

/// A text that names no qubits.
fn no_qubits(random: &mut Random) -> String {
    let texts = [
        "",
        "\n",
        " 0 times { }\n",
        "block 0 of 2 { mix 0; }\n",
        "undo { undo { } }\n",
    ];
    random.pick(&texts).to_owned()
}

/// A job with a line at fault.
fn line_fault(random: &mut Random) -> String {
    let shape = Shape {
        qubits: 2,
        statements: 5,
        gates: 20,
        mixes: 10,
    };
    let (text, said) = random_text(random, shape);
    let mut lines: Vec<String> = ["device 3", "joined 0 1", "joined 1 2"]
        .map(str::to_owned)
        .into();
    lines.push(lay(&random.different(said.qubits, 3)).trim_end().to_owned());
    let at = random.between(1, lines.len());
    match random.below(5) {
        // Without its first line, all others would be part of the text.
        0 => lines.clear(),
        1 => lines.truncate(3),
        2..=3 => {
            let word = random.pick(&["joined", "lay", "device", "mix", "at", "{", "Device"]);
            let numbers = random.pick(&["", " 0", " 0 x", " 0 1 2", " 1 3", " 0 256", " 0 -1"]);
            lines.insert(at, format!("{word}{numbers}"));
        }
        _ => lines.insert(
            at,
            random.pick(&["device 3", "lay 0 1", "lay", "a"]).to_owned(),
        ),
    }
    let end = random.pick(&["", "\n", "\n\n \n"]);
    text + &lines.join(random.pick(&["\n", " \r\n", "\n\n\t"])) + end
}

/// A mutation of good input; it may still be good.
fn mutated(random: &mut Random, with_state: bool) -> Case {
    let shape = Shape {
        qubits: 4,
        statements: 12,
        gates: 60,
        mixes: 20,
    };
    match random.below(4) {
        0 => {
            let (mut signs, _) = random_signs(random, shape);
            mutate_signs(random, &mut signs);
            let (second, _) = random_text(random, shape);
            Case::pair(spaced(random, &signs), second)
        }
        1 => {
            let (first, _) = random_text(random, shape);
            let (second, _) = random_text(random, shape);
            let mut first = first.into_bytes();
            mutate_bytes(random, &mut first);
            Case::pair(first, second)
        }
        choice => {
            let state = with_state && random.chance(1, 2);
            let job = if state {
                cases_state::job(random)
            } else {
                narrow_job(random)
            };
            let mut job = job.into_bytes();
            if choice == 2 {
                mutate_bytes(random, &mut job);
            } else {
                job = mutate_lines(random, &job);
            }
            Case::job(job)
        }
    }
}

/// Takes a sign out, puts one in, changes, doubles or exchanges some.
fn mutate_signs(random: &mut Random, signs: &mut Vec<String>) {
    let (at, other) = (random.below(signs.len()), random.below(signs.len()));
    let word = random.pick(WORDS).to_owned();
    match random.below(5) {
        0 => {
            signs.remove(at);
        }
        1 => signs.insert(at, word),
        2 => signs.insert(at, signs[at].clone()),
        3 => signs.swap(at, other),
        _ => signs[at] = word,
    }
}

/// Takes a byte out, puts one in, changes or doubles one, or cuts the bytes short.
fn mutate_bytes(random: &mut Random, bytes: &mut Vec<u8>) {
    for _ in 0..random.between(1, 3) {
        let at = random.below(bytes.len());
        let byte = match random.below(3) {
            0 => random.pick(b"0123456789"),
            1 => random.pick(b" \n\t;{}amx"),
            _ => random.byte(0, 255),
        };
        match random.below(10) {
            0..=2 if bytes.len() > 1 => {
                bytes.remove(at);
            }
            3..=5 => bytes.insert(at, byte),
            6 => bytes.insert(at, bytes[at]),
            7 => bytes.truncate(at + 1),
            _ => bytes[at] = byte,
        }
    }
}

/// Takes a line out, doubles one, or exchanges two.
fn mutate_lines(random: &mut Random, job: &[u8]) -> Vec<u8> {
    let mut lines: Vec<&[u8]> = job.split(|byte| *byte == b'\n').collect();
    let (at, other) = (random.below(lines.len()), random.below(lines.len()));
    match random.below(3) {
        0 => {
            lines.remove(at);
        }
        1 => lines.insert(other, lines[at]),
        _ => lines.swap(at, other),
    }
    lines.join(&b'\n')
}
