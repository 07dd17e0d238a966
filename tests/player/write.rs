//! Writing random texts.

use crate::circuit::{mixes, Gate};
use crate::random::Random;
use crate::reader::{self, Said};

/// How large a random text may be.
#[derive(Clone, Copy)]
pub struct Shape {
    /// It names no qubit from this one on.
    pub qubits: u8,
    /// The most statements outside of blocks.
    pub statements: usize,
    /// The most gates that it says.
    pub gates: u64,
    /// The most Hadamards that it says.
    pub mixes: usize,
}

/// The most braces around a statement.
const MOST_DEPTH: usize = 3;

/// A random text that can be compiled and compared, as signs, and what it says.
pub fn random_signs(random: &mut Random, shape: Shape) -> (Vec<String>, Said) {
    loop {
        let mut writer = Writer {
            random,
            signs: Vec::new(),
            blocks: Vec::new(),
        };
        writer.text(shape);
        let signs = writer.signs;
        let Ok(said) = reader::read(signs.join(" ").as_bytes(), shape.gates) else {
            continue;
        };
        let sound = said.gates.iter().all(Gate::is_sound);
        if sound && said.qubits > 0 && mixes(&said.gates) <= shape.mixes {
            return (signs, said);
        }
    }
}

/// A random text that can be compiled and compared, and what it says.
pub fn random_text(random: &mut Random, shape: Shape) -> (String, Said) {
    let (signs, said) = random_signs(random, shape);
    (spaced(random, &signs), said)
}

/// The signs of words that are written as in a text.
pub fn signs_of(words: &str) -> Vec<String> {
    let owned = |sign: reader::Sign| String::from_utf8_lossy(sign.bytes).into_owned();
    reader::signs(words.as_bytes())
        .into_iter()
        .map(owned)
        .collect()
}

/// The signs as a text, either tidily or with random blanks and leading zeros.
pub fn spaced(random: &mut Random, signs: &[String]) -> String {
    let wild = random.chance(1, 3);
    let mut text = String::new();
    for sign in signs {
        let word = |c: char| c.is_ascii_alphanumeric();
        let needed = text.ends_with(word) && sign.starts_with(word);
        if wild {
            if needed || random.chance(1, 2) {
                text.push_str(random.pick(&[" ", "  ", "\t", "\n", "\r\n", " \n\n\t "]));
            }
            if sign.starts_with(|c: char| c.is_ascii_digit()) && random.chance(1, 20) {
                text.push_str("00");
            }
            text.push_str(sign);
        } else {
            let tight = text.is_empty() || text.ends_with('\n') || sign == ";";
            text.push_str(if tight && !needed { "" } else { " " });
            text.push_str(sign);
            text.push_str(if matches!(sign.as_str(), ";" | "{" | "}") {
                "\n"
            } else {
                ""
            });
        }
    }
    if !text.ends_with('\n') {
        text.push('\n');
    }
    text
}

struct Writer<'a> {
    random: &'a mut Random,
    signs: Vec<String>,
    /// How many qubits each block has.
    blocks: Vec<u8>,
}

impl Writer<'_> {
    fn text(&mut self, shape: Shape) {
        for number in 0..self.random.below(4) {
            let qubits = self.random.byte(1, shape.qubits.min(4));
            self.write(&format!("block {number} of {qubits} {{"));
            for _ in 0..self.random.below(6) {
                self.statement(qubits, 1);
            }
            self.write("}");
            self.blocks.push(qubits);
        }
        for _ in 0..self.random.between(1, shape.statements) {
            self.statement(shape.qubits, 0);
        }
    }

    fn write(&mut self, words: &str) {
        self.signs.extend(signs_of(words));
    }

    fn statement(&mut self, qubits: u8, depth: usize) {
        let deeper = depth < MOST_DEPTH;
        match self.random.below(16) {
            0 if deeper => self.braces("undo {", qubits, depth),
            1 if deeper => {
                let many = self.random.below(5);
                self.braces(&format!("{many} times {{"), qubits, depth);
            }
            2..=4 if !self.blocks.is_empty() => self.call(qubits),
            _ => {
                let gate = random_gate(self.random, qubits);
                self.write(&gate.to_string());
            }
        }
    }

    fn braces(&mut self, opening: &str, qubits: u8, depth: usize) {
        self.write(opening);
        for _ in 0..self.random.below(5) {
            self.statement(qubits, depth + 1);
        }
        self.write("}");
    }

    /// A call of a random block, unless it has too many qubits.
    fn call(&mut self, qubits: u8) {
        let block = self.random.below(self.blocks.len());
        let many = self.blocks[block];
        if many > qubits {
            return;
        }
        let on = self.random.different(many.into(), qubits);
        let on: Vec<String> = on.iter().map(u8::to_string).collect();
        self.write(&format!("call {block} on {};", on.join(" ")));
    }
}

/// A random gate on qubits before this one.
pub fn random_gate(random: &mut Random, qubits: u8) -> Gate {
    let names = random.different(usize::from(qubits.min(3)), qubits);
    match (random.below(12), &names[..]) {
        (0..=2, [target, control, ..]) => Gate::cnot(*target, *control),
        (3, [target, first, second]) => Gate::Flip {
            target: *target,
            controls: vec![*first, *second],
        },
        (4..=6, [qubit, ..]) => Gate::Mix(*qubit),
        (7, [qubit, ..]) => Gate::not(*qubit),
        (8, [qubit, ..]) => Gate::Turn {
            eighths: random.byte(0, 255),
            qubit: *qubit,
        },
        (_, [qubit, ..]) => Gate::Turn {
            eighths: random.byte(1, 7),
            qubit: *qubit,
        },
        (_, []) => unreachable!("there is a qubit"),
    }
}
