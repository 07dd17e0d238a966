//! Reading jobs: a text, and the lines for the device, the layout and the row to begin from.

use crate::device::Device;
use crate::reader::{signs, Sign};

/// A job's lines after its text.
#[derive(Default)]
pub struct Lines {
    pub device: Option<Device>,
    pub layout: Option<Vec<u8>>,
    /// The digits of the row to begin from.
    pub state: Option<Vec<u8>>,
}

/// Why a job's lines give no answer.
#[derive(Clone, Copy, Debug, PartialEq, Eq)]
pub enum Fault {
    /// A line is at fault, counted from 1.
    Line(usize),
    /// The documents do not say what such lines mean: a wire before its device, or a row of no
    /// digits.
    Open,
}

/// Cuts a job into its text and the lines after it.
pub fn cut(job: &[u8]) -> (&[u8], &[u8]) {
    let mut at = 0;
    for line in job.split_inclusive(|byte| *byte == b'\n') {
        let first = signs(line).first().copied();
        if first.is_some_and(|sign| sign.is("device") || sign.is("state")) {
            return job.split_at(at);
        }
        at += line.len();
    }
    (job, &[])
}

/// Reads the lines after the text, the first of which has the number `first`.
pub fn read_lines(rest: &[u8], first: usize) -> Result<Lines, Fault> {
    let mut lines = Lines::default();
    let mut last = first;
    for (number, line) in (first..).zip(rest.split(|byte| *byte == b'\n')) {
        lines.take(&signs(line), number)?;
        last = number;
    }
    let enough = lines.state.is_some() || (lines.device.is_some() && lines.layout.is_some());
    if enough {
        Ok(lines)
    } else {
        Err(Fault::Line(last))
    }
}

impl Lines {
    /// Takes one line, given by its signs.
    fn take(&mut self, line: &[Sign], number: usize) -> Result<(), Fault> {
        let fault = Fault::Line(number);
        let Some((word, rest)) = line.split_first() else {
            return Ok(());
        };
        match word.bytes {
            b"device" if self.device.is_none() => {
                let [places] = numbers(rest).ok_or(fault)?[..] else {
                    return Err(fault);
                };
                self.device = Some(Device {
                    places,
                    wires: Vec::new(),
                });
            }
            b"joined" => {
                let [a, b] = numbers(rest).ok_or(fault)?[..] else {
                    return Err(fault);
                };
                let device = self.device.as_mut().ok_or(Fault::Open)?;
                if a >= device.places || b >= device.places {
                    return Err(fault);
                }
                device.wires.push((a, b));
            }
            b"lay" if self.layout.is_none() => {
                self.layout = Some(numbers(rest).ok_or(fault)?);
            }
            b"state" if self.state.is_none() => {
                let row = rest.first().ok_or(Fault::Open)?;
                if rest.len() > 1 || !row.bytes.iter().all(|digit| b"01".contains(digit)) {
                    return Err(fault);
                }
                self.state = Some(row.bytes.to_vec());
            }
            _ => return Err(fault),
        }
        Ok(())
    }
}

fn numbers(signs: &[Sign]) -> Option<Vec<u8>> {
    signs.iter().map(Sign::number).collect()
}
