//! Command lines and reply lines.

use crate::calibration::Values;
use crate::gate::{Kind, Timing};
use crate::listing::Operation;
use crate::refusal::Refusal;

/// No command has more bytes.
pub const GREATEST_LINE: usize = 80;
/// No number has more digits.
const GREATEST_DIGITS: usize = 7;

/// What a line asks for.
#[derive(Debug, Clone, Copy, PartialEq, Eq)]
pub enum Command {
    Open { columns: u32, rows: u32, labels: u32 },
    Add { kind: Kind, first: u32, second: u32 },
    Close,
    Reopen,
    Calibrate { cell: u32, values: Values },
    Place { label: u32, cell: u32 },
    Time { gate: u32, timing: Timing },
    Try { gate: u32, timing: Timing },
    Judge,
    Agenda,
    List,
}

impl Command {
    /// The command of a line without its line feed, if it is one.
    pub fn parse(line: &[u8]) -> Option<Command> {
        if line.len() > GREATEST_LINE {
            return None;
        }
        let (&letter, rest) = line.split_first()?;
        let command = match letter {
            b'o' => {
                let [columns, rows, labels] = numbers(rest)?;
                Command::Open { columns, rows, labels }
            }
            b'k' => {
                let [cell, single, read, window, east, south] = numbers(rest)?;
                Command::Calibrate { cell, values: Values { single, read, window, east, south } }
            }
            b'p' => {
                let [label, cell] = numbers(rest)?;
                Command::Place { label, cell }
            }
            b't' => {
                let [gate, start, choice] = numbers(rest)?;
                Command::Time { gate, timing: Timing { start, choice } }
            }
            b'y' => {
                let [gate, start, choice] = numbers(rest)?;
                Command::Try { gate, timing: Timing { start, choice } }
            }
            b'e' => bare(rest, Command::Close)?,
            b'n' => bare(rest, Command::Reopen)?,
            b'j' => bare(rest, Command::Judge)?,
            b'a' => bare(rest, Command::Agenda)?,
            b'l' => bare(rest, Command::List)?,
            letter => match Kind::from_letter(letter)? {
                Kind::C => {
                    let [first, second] = numbers(rest)?;
                    Command::Add { kind: Kind::C, first, second }
                }
                kind => {
                    let [first] = numbers(rest)?;
                    Command::Add { kind, first, second: 0 }
                }
            },
        };
        Some(command)
    }
}

/// The command, if nothing stands after its letter.
fn bare(rest: &[u8], command: Command) -> Option<Command> {
    rest.is_empty().then_some(command)
}

/// So many numbers, each after one space, and nothing else.
fn numbers<const N: usize>(text: &[u8]) -> Option<[u32; N]> {
    let mut found = [0; N];
    let mut left = text;
    for number in &mut found {
        let digits = left.strip_prefix(b" ")?;
        (*number, left) = leading_number(digits)?;
    }
    left.is_empty().then_some(found)
}

/// The number at the start of a text and what stands after it.
fn leading_number(text: &[u8]) -> Option<(u32, &[u8])> {
    let length = text.iter().take_while(|byte| byte.is_ascii_digit()).count();
    let (digits, rest) = text.split_at(length);
    let lawful = match digits {
        [] => false,
        [b'0', _, ..] => false,
        digits => digits.len() <= GREATEST_DIGITS,
    };
    let value = || digits.iter().fold(0, |value, digit| value * 10 + u32::from(digit - b'0'));
    lawful.then(|| (value(), rest))
}

/// Writes the reply of a call that was done.
pub fn write_ok(out: &mut Vec<u8>, number: u64) {
    out.extend_from_slice(b"ok ");
    write_number(out, number);
    out.push(b'\n');
}

/// Writes the reply of a line that was refused.
pub fn write_no(out: &mut Vec<u8>, refusal: Refusal, line: u64) {
    out.extend_from_slice(b"no ");
    for part in refusal.parts() {
        write_number(out, u64::from(part));
        out.push(b' ');
    }
    write_number(out, line);
    out.push(b'\n');
}

/// Writes an entry of an agenda.
pub fn write_entry(out: &mut Vec<u8>, (start, gate): (u32, u16)) {
    write_number(out, u64::from(start));
    out.push(b' ');
    write_number(out, u64::from(gate));
    out.push(b'\n');
}

/// Writes an operation of a listing.
pub fn write_operation(out: &mut Vec<u8>, operation: &Operation) {
    write_number(out, u64::from(operation.start));
    out.push(b' ');
    write_number(out, u64::from(operation.length));
    out.extend_from_slice(&[b' ', operation.kind.letter(), b' ']);
    write_number(out, u64::from(operation.first));
    out.push(b' ');
    match operation.kind {
        Kind::C => write_number(out, u64::from(operation.second)),
        _ => out.push(b'-'),
    }
    out.push(b' ');
    write_number(out, u64::from(operation.gate));
    out.push(b'\n');
}

/// Writes a number in decimal digits.
fn write_number(out: &mut Vec<u8>, number: u64) {
    let mut digits = [0; 20];
    let mut first = digits.len();
    let mut left = number;
    loop {
        first -= 1;
        digits[first] = b'0' + (left % 10) as u8;
        left /= 10;
        if left == 0 {
            break;
        }
    }
    out.extend_from_slice(&digits[first..]);
}

#[cfg(test)]
mod tests {
    use super::*;

    #[test]
    fn only_exact_texts_are_commands() {
        for good in ["e", "o 1 2 3", "o 0 9999999 10", "C 0 1", "R 7", "k 0 1 2 3 4 5", "t 0 0 0"] {
            assert!(Command::parse(good.as_bytes()).is_some(), "{good:?}");
        }
        for bad in [
            "",
            " ",
            "e ",
            " e",
            "ee",
            "E",
            "o 1 2",
            "o 1 2 3 4",
            "o 1 2 03",
            "o 1  2 3",
            "o1 2 3",
            "o 1 2 3 ",
            "o 1 2 3\r",
            "H",
            "H ",
            "H 00",
            "H 10000000",
            "H +1",
            "H -1",
            "H\t1",
            "Q 1",
            "C 1",
            "h 1",
            "c 0 1",
            "r 1",
            "j 0",
            "t 1 2",
            "k 0 1 2 3 4",
            "H 1\0",
            "\0",
        ] {
            assert!(Command::parse(bad.as_bytes()).is_none(), "{bad:?}");
        }
        assert!(Command::parse(&[b'H', b' ', 0xff]).is_none());
    }
}
