//! Reading texts: signs, statements, and the gates that they say.

use crate::circuit::Gate;

/// The most signs that a text may have.
pub const MOST_SIGNS: usize = 4096;

/// A sign, and where it begins.
#[derive(Clone, Copy, Debug)]
pub struct Sign<'a> {
    pub bytes: &'a [u8],
    pub at: usize,
}

impl Sign<'_> {
    /// Whether it is this word.
    pub fn is(&self, word: &str) -> bool {
        self.bytes == word.as_bytes()
    }

    /// Its value as a number of at most 255, if it is one.
    pub fn number(&self) -> Option<u8> {
        let digits = std::str::from_utf8(self.bytes).ok()?;
        if !digits.bytes().all(|byte| byte.is_ascii_digit()) {
            return None;
        }
        match digits.trim_start_matches('0') {
            "" => Some(0),
            rest => rest.parse().ok(),
        }
    }
}

/// Cuts bytes into signs.
pub fn signs(bytes: &[u8]) -> Vec<Sign<'_>> {
    let mut signs = Vec::new();
    let mut at = 0;
    while at < bytes.len() {
        let run = bytes[at..]
            .iter()
            .take_while(|byte| byte.is_ascii_alphanumeric())
            .count();
        let blank = matches!(bytes[at], b' ' | b'\t' | b'\n' | b'\r');
        let length = run.max(1);
        if !blank {
            signs.push(Sign {
                bytes: &bytes[at..at + length],
                at,
            });
        }
        at += length;
    }
    signs
}

/// The line and the column, both counted from 1, of a byte.
pub fn line_and_column(bytes: &[u8], at: usize) -> (usize, usize) {
    let lines = || bytes[..at].split(|byte| *byte == b'\n');
    let last = lines().next_back().map_or(0, <[u8]>::len);
    (lines().count(), last + 1)
}

/// A text that is refused with number 9: the sign, and where it stands.
#[derive(Clone, Copy, Debug, PartialEq, Eq)]
pub struct Unreadable {
    pub sign: usize,
    pub line: usize,
    pub column: usize,
}

/// What a text says.
#[derive(Clone, Debug)]
pub struct Said {
    /// How many qubits it has.
    pub qubits: usize,
    /// Its gates, the first done first.
    pub gates: Vec<Gate>,
}

/// Reads a text that may say at most so many gates.
pub fn read(text: &[u8], most_gates: u64) -> Result<Said, Unreadable> {
    let signs = signs(text);
    said(&signs, most_gates).map_err(|sign| {
        let at = signs.get(sign).map_or(text.len(), |sign| sign.at);
        let (line, column) = line_and_column(text, at);
        Unreadable { sign, line, column }
    })
}

/// The index of the sign at which a text is refused.
type Refused = usize;

/// Where a statement stands: in a block of so many qubits, or outside of blocks.
type Scope = Option<u8>;

/// A statement, and how many gates it says (as many as fit in the number).
struct Statement {
    says: u64,
    kind: Kind,
}

enum Kind {
    Gate(Gate),
    Undo(Vec<Statement>),
    Times(u8, Vec<Statement>),
    Call { block: usize, on: Vec<u8> },
}

struct Block {
    qubits: u8,
    body: Vec<Statement>,
}

fn said(signs: &[Sign], most_gates: u64) -> Result<Said, Refused> {
    let mut parser = Parser {
        signs,
        next: 0,
        blocks: Vec::new(),
        qubits: 0,
    };
    let body = parser.text()?;
    let mut total = 0_u64;
    for (first_sign, statement) in &body {
        total = total.saturating_add(statement.says);
        if total > most_gates {
            return Err(*first_sign);
        }
    }
    let names: Vec<u8> = (0..=255).collect();
    let mut gates = Vec::new();
    for (_, statement) in &body {
        say(statement, &parser.blocks, &names, false, &mut gates);
    }
    Ok(Said {
        qubits: parser.qubits,
        gates,
    })
}

/// Appends the gates of a statement, its qubits renamed, and undone or not. Statements that say
/// nothing are passed over, however often they say it.
fn say(one: &Statement, blocks: &[Block], names: &[u8], undone: bool, out: &mut Vec<Gate>) {
    if one.says == 0 {
        return;
    }
    match &one.kind {
        Kind::Gate(gate) => {
            let gate = gate.renamed(names);
            out.push(if undone { gate.undone() } else { gate });
        }
        Kind::Undo(body) => say_all(body, blocks, names, !undone, out),
        Kind::Times(many, body) => {
            for _ in 0..*many {
                say_all(body, blocks, names, undone, out);
            }
        }
        Kind::Call { block, on } => {
            let names: Vec<u8> = on.iter().map(|qubit| names[usize::from(*qubit)]).collect();
            say_all(&blocks[*block].body, blocks, &names, undone, out);
        }
    }
}

fn say_all(all: &[Statement], blocks: &[Block], names: &[u8], undone: bool, out: &mut Vec<Gate>) {
    let mut one = |statement| say(statement, blocks, names, undone, out);
    if undone {
        all.iter().rev().for_each(&mut one);
    } else {
        all.iter().for_each(&mut one);
    }
}

fn sum(statements: &[Statement]) -> u64 {
    statements
        .iter()
        .fold(0, |total, statement| total.saturating_add(statement.says))
}

struct Parser<'a> {
    signs: &'a [Sign<'a>],
    next: usize,
    blocks: Vec<Block>,
    /// One more than the largest qubit named so far outside of blocks, or 0.
    qubits: usize,
}

impl<'a> Parser<'a> {
    /// The whole text: the statements outside of blocks, each with the index of its first sign.
    fn text(&mut self) -> Result<Vec<(usize, Statement)>, Refused> {
        while self.peek()?.is_some_and(|sign| sign.is("block")) {
            let block = self.block()?;
            self.blocks.push(block);
        }
        let mut body = Vec::new();
        while self.peek()?.is_some() {
            body.push((self.next, self.statement(None)?));
        }
        Ok(body)
    }

    fn block(&mut self) -> Result<Block, Refused> {
        self.word("block")?;
        let due = self.blocks.len();
        self.number_that(|number| usize::from(number) == due)?;
        self.word("of")?;
        let qubits = self.number_that(|_| true)?;
        let body = self.body(Some(qubits))?;
        Ok(Block { qubits, body })
    }

    /// Statements in braces.
    fn body(&mut self, scope: Scope) -> Result<Vec<Statement>, Refused> {
        self.word("{")?;
        let mut statements = Vec::new();
        while !self.peek()?.is_some_and(|sign| sign.is("}")) {
            statements.push(self.statement(scope)?);
        }
        self.word("}")?;
        Ok(statements)
    }

    fn statement(&mut self, scope: Scope) -> Result<Statement, Refused> {
        let first = self.peek()?.ok_or(self.next)?;
        match first.bytes {
            b"turn" | b"mix" | b"flip" => {
                self.next += 1;
                let gate = self.gate(first, scope)?;
                Ok(Statement {
                    says: 1,
                    kind: Kind::Gate(gate),
                })
            }
            b"undo" => {
                self.next += 1;
                let body = self.body(scope)?;
                Ok(Statement {
                    says: sum(&body),
                    kind: Kind::Undo(body),
                })
            }
            b"call" => {
                self.next += 1;
                self.call(scope)
            }
            _ => {
                let many = self.number_that(|_| true)?;
                self.word("times")?;
                let body = self.body(scope)?;
                let says = sum(&body).saturating_mul(many.into());
                Ok(Statement {
                    says,
                    kind: Kind::Times(many, body),
                })
            }
        }
    }

    /// The rest of a gate after its word.
    fn gate(&mut self, word: Sign, scope: Scope) -> Result<Gate, Refused> {
        let gate = if word.is("turn") {
            let eighths = self.number_that(|_| true)?;
            self.word("of")?;
            Gate::Turn {
                eighths,
                qubit: self.qubit(scope)?,
            }
        } else if word.is("mix") {
            Gate::Mix(self.qubit(scope)?)
        } else {
            let target = self.qubit(scope)?;
            let mut controls = Vec::new();
            if self.peek()?.is_some_and(|sign| sign.is("if")) {
                self.word("if")?;
                controls.push(self.qubit(scope)?);
                if !self.peek()?.is_some_and(|sign| sign.is(";")) {
                    controls.push(self.qubit(scope)?);
                }
            }
            Gate::Flip { target, controls }
        };
        self.word(";")?;
        Ok(gate)
    }

    /// The rest of a call after its word.
    fn call(&mut self, scope: Scope) -> Result<Statement, Refused> {
        let known = self.blocks.len();
        let block = usize::from(self.number_that(|number| usize::from(number) < known)?);
        self.word("on")?;
        let mut on = Vec::new();
        for _ in 0..self.blocks[block].qubits {
            let at = self.next;
            let qubit = self.qubit(scope)?;
            if on.contains(&qubit) {
                return Err(at);
            }
            on.push(qubit);
        }
        self.word(";")?;
        Ok(Statement {
            says: sum(&self.blocks[block].body),
            kind: Kind::Call { block, on },
        })
    }

    fn qubit(&mut self, scope: Scope) -> Result<u8, Refused> {
        let qubit = self.number_that(|number| scope.is_none_or(|qubits| number < qubits))?;
        if scope.is_none() {
            self.qubits = self.qubits.max(usize::from(qubit) + 1);
        }
        Ok(qubit)
    }

    fn number_that(&mut self, fits: impl Fn(u8) -> bool) -> Result<u8, Refused> {
        let number = self
            .peek()?
            .and_then(|sign| sign.number())
            .filter(|number| fits(*number));
        let number = number.ok_or(self.next)?;
        self.next += 1;
        Ok(number)
    }

    fn word(&mut self, word: &str) -> Result<(), Refused> {
        if !self.peek()?.is_some_and(|sign| sign.is(word)) {
            return Err(self.next);
        }
        self.next += 1;
        Ok(())
    }

    /// The next sign, unless the text has ended or has too many signs.
    fn peek(&self) -> Result<Option<Sign<'a>>, Refused> {
        match self.signs.get(self.next) {
            Some(_) if self.next == MOST_SIGNS => Err(MOST_SIGNS),
            sign => Ok(sign.copied()),
        }
    }
}
