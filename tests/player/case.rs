//! A case: an input for a program. It can be run, and kept in a file to be run again.

use crate::drive::{shown, Command, Outcome, Program};
use crate::expect::{self, Expected};
use crate::judge::{judge, Wrong};
use std::fmt;

/// What a case's file begins with.
const HEAD: &str = "player case: ";

/// A case.
#[derive(Clone, Debug, PartialEq, Eq)]
pub enum Case {
    /// A job.
    Compile { plain: bool, job: Vec<u8> },
    /// Two texts, and the answer if it is known beforehand.
    Compare {
        first: Vec<u8>,
        second: Vec<u8>,
        known: Option<String>,
    },
    /// Arguments that a program has to refuse.
    Arguments {
        program: Program,
        arguments: Vec<String>,
    },
}

/// Where the programs are, and where files may be written.
pub struct Place {
    pub programs: String,
    /// A file of this run alone, for what is not passed on standard input.
    pub file: String,
}

impl Place {
    /// Writes the file, and gives its name.
    fn keep(&self, bytes: &[u8]) -> String {
        std::fs::write(&self.file, bytes).expect("a file can be written");
        self.file.clone()
    }
}

impl Case {
    /// A job to be compiled with tidying.
    pub fn job(job: impl Into<Vec<u8>>) -> Self {
        Self::Compile {
            plain: false,
            job: job.into(),
        }
    }

    /// Two texts to be compared.
    pub fn pair(first: impl Into<Vec<u8>>, second: impl Into<Vec<u8>>) -> Self {
        Self::Compare {
            first: first.into(),
            second: second.into(),
            known: None,
        }
    }

    /// What the program should do.
    pub fn expected(&self) -> Expected {
        match self {
            Self::Compile { job, .. } => expect::compile(job),
            Self::Compare { first, second, .. } => expect::compare(first, second),
            Self::Arguments { .. } => Expected::NotTaken,
        }
    }

    /// Runs the case. A wrong outcome is told with what was expected.
    pub fn check(&self, place: &Place) -> Result<(), (Wrong, Outcome)> {
        let command = self.command(place);
        let outcome = command.run(&place.programs);
        let expected = self.expected();
        self.agrees(&expected)
            .and_then(|()| judge(&expected, &command, &outcome))
            .map_err(|wrong| (wrong, outcome))
    }

    /// Whether the player itself finds the answer that is known beforehand.
    fn agrees(&self, expected: &Expected) -> Result<(), Wrong> {
        match (self, expected) {
            (
                Self::Compare {
                    known: Some(known), ..
                },
                Expected::Printed(line),
            ) if line.trim_end() != known => {
                Err(format!("known to be `{known}`, the player finds {line}"))
            }
            _ => Ok(()),
        }
    }

    fn command(&self, place: &Place) -> Command<'_> {
        match self {
            Self::Compile { plain, job } => compile_command(*plain, job, place),
            Self::Compare { first, second, .. } => compare_command(first, second, place),
            Self::Arguments { program, arguments } => Command {
                program: *program,
                arguments: arguments.clone(),
                names: Vec::new(),
                input: &[],
            },
        }
    }

    /// The case as the bytes of a file.
    pub fn kept(&self) -> Vec<u8> {
        let mut file = HEAD.as_bytes().to_vec();
        let mut part = |bytes: &[u8]| {
            file.extend_from_slice(format!("{} ", bytes.len()).as_bytes());
            file.extend_from_slice(bytes);
            file.push(b'\n');
        };
        match self {
            Self::Compile { plain, job } => {
                part(if *plain { b"compile plain" } else { b"compile" });
                part(job);
            }
            Self::Compare {
                first,
                second,
                known,
            } => {
                part(b"compare");
                part(first);
                part(second);
                if let Some(known) = known {
                    part(known.as_bytes());
                }
            }
            Self::Arguments { program, arguments } => {
                part(format!("arguments of {}", program.name()).as_bytes());
                for argument in arguments {
                    part(argument.as_bytes());
                }
            }
        }
        file
    }

    /// The case that a file keeps.
    pub fn from_kept(file: &[u8]) -> Option<Self> {
        let mut rest = file.strip_prefix(HEAD.as_bytes())?;
        let mut parts = Vec::new();
        while !rest.is_empty() {
            let blank = rest.iter().position(|byte| *byte == b' ')?;
            let length: usize = std::str::from_utf8(&rest[..blank]).ok()?.parse().ok()?;
            parts.push(rest.get(blank + 1..)?.get(..length)?.to_vec());
            rest = rest.get(blank + 1 + length + 1..)?;
        }
        let words = |part: &Vec<u8>| String::from_utf8(part.clone()).ok();
        let kind = words(parts.first()?)?;
        match (kind.as_str(), &parts[1..]) {
            ("compile", [job]) => Some(Self::job(job.clone())),
            ("compile plain", [job]) => Some(Self::Compile {
                plain: true,
                job: job.clone(),
            }),
            ("compare", [first, second]) => Some(Self::pair(first.clone(), second.clone())),
            ("compare", [first, second, known]) => Some(Self::Compare {
                first: first.clone(),
                second: second.clone(),
                known: Some(words(known)?),
            }),
            ("arguments of compile", arguments) => Some(Self::Arguments {
                program: Program::Compile,
                arguments: arguments.iter().map(words).collect::<Option<_>>()?,
            }),
            ("arguments of compare", arguments) => Some(Self::Arguments {
                program: Program::Compare,
                arguments: arguments.iter().map(words).collect::<Option<_>>()?,
            }),
            _ => None,
        }
    }
}

/// In turns, the job is passed in a file, on standard input without any name, and as `-`.
fn compile_command<'a>(plain: bool, job: &'a [u8], place: &Place) -> Command<'a> {
    let name = match job.len() % 3 {
        0 => place.keep(job),
        _ => "-".to_owned(),
    };
    let mut arguments = Vec::new();
    if plain {
        arguments.push("--plain".to_owned());
    }
    if job.len() % 3 != 1 {
        arguments.push(name.clone());
    }
    Command {
        program: Program::Compile,
        arguments,
        names: vec![name],
        input: job,
    }
}

/// In turns, the first text and the second are passed in a file, and the other one as `-`.
fn compare_command<'a>(first: &'a [u8], second: &'a [u8], place: &Place) -> Command<'a> {
    let input = "-".to_owned();
    let (names, input) = if (first.len() + second.len()).is_multiple_of(2) {
        (vec![place.keep(first), input], second)
    } else {
        (vec![input, place.keep(second)], first)
    };
    Command {
        program: Program::Compare,
        arguments: names.clone(),
        names,
        input,
    }
}

impl fmt::Display for Case {
    fn fmt(&self, out: &mut fmt::Formatter<'_>) -> fmt::Result {
        match self {
            Self::Compile { plain, job } => {
                write!(
                    out,
                    "compile{}\n{}",
                    if *plain { " --plain" } else { "" },
                    shown(job)
                )
            }
            Self::Compare { first, second, .. } => {
                write!(
                    out,
                    "compare\n{}\n--- with\n{}",
                    shown(first),
                    shown(second)
                )
            }
            Self::Arguments { program, arguments } => {
                write!(out, "{} {}", program.name(), arguments.join(" "))
            }
        }
    }
}
