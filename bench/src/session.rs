//! The job program over a stream of bytes.

use std::io::{self, Write};

use crate::job::Job;
use crate::listing::Operation;
use crate::refusal::Refusal;
use crate::route::Rule;
use crate::text::{self, Command, GREATEST_LINE};

/// How many entries an agenda may have.
pub const AGENDA_PLACES: usize = 256;
/// How many operations a listing may have.
pub const LISTING_PLACES: usize = 4_000;

/// Replies are handed on whenever they are as long as this.
const BLOCK: usize = 32 * 1024;

/// A run of the job program. It takes its input in pieces of any length and holds no more of it
/// than the start of one line.
#[derive(Debug, Default)]
pub struct Session {
    job: Option<Job>,
    /// How many lines were answered.
    lines: u64,
    /// The line that has not ended yet, or its first bytes: one more than a command may have, so
    /// that a line that is too long is known to be.
    begun: Vec<u8>,
    replies: Vec<u8>,
}

/// What a command that is done answers.
enum Answer {
    Number(u64),
    Agenda(Vec<(u32, u16)>),
    Listing(Vec<Operation>),
}

impl Session {
    pub fn new() -> Session {
        Session::default()
    }

    /// Takes a piece of the input and writes the replies to the lines that end in it.
    pub fn feed(&mut self, piece: &[u8], output: &mut impl Write) -> io::Result<()> {
        let mut left = piece;
        while let Some(end) = left.iter().position(|&byte| byte == b'\n') {
            self.end_line(&left[..end]);
            left = &left[end + 1..];
            if self.replies.len() >= BLOCK {
                self.hand_on(output)?;
            }
        }
        self.hold(left);
        self.hand_on(output)
    }

    /// Ends the input, and with it a line that has begun.
    pub fn finish(&mut self, output: &mut impl Write) -> io::Result<()> {
        if !self.begun.is_empty() {
            self.end_line(&[]);
        }
        self.hand_on(output)
    }

    /// How many lines were answered so far.
    pub fn lines(&self) -> u64 {
        self.lines
    }

    fn hand_on(&mut self, output: &mut impl Write) -> io::Result<()> {
        output.write_all(&self.replies)?;
        self.replies.clear();
        Ok(())
    }

    /// Adds to the line that has begun.
    fn hold(&mut self, bytes: &[u8]) {
        let room = GREATEST_LINE + 1 - self.begun.len();
        self.begun.extend_from_slice(&bytes[..bytes.len().min(room)]);
    }

    /// Answers the line that ends with these bytes.
    fn end_line(&mut self, end: &[u8]) {
        if self.begun.is_empty() {
            self.answer(end);
        } else {
            self.hold(end);
            let mut line = std::mem::take(&mut self.begun);
            self.answer(&line);
            line.clear();
            self.begun = line;
        }
    }

    fn answer(&mut self, line: &[u8]) {
        self.lines += 1;
        let outcome = match Command::parse(line) {
            Some(command) => self.perform(command),
            None => Err(Refusal::Malformed),
        };
        let replies = &mut self.replies;
        match outcome {
            Ok(Answer::Number(number)) => text::write_ok(replies, number),
            Ok(Answer::Agenda(entries)) => {
                text::write_ok(replies, entries.len() as u64);
                entries.iter().for_each(|&entry| text::write_entry(replies, entry));
            }
            Ok(Answer::Listing(operations)) => {
                text::write_ok(replies, operations.len() as u64);
                operations.iter().for_each(|operation| text::write_operation(replies, operation));
            }
            Err(refusal) => text::write_no(replies, refusal, self.lines),
        }
    }

    fn perform(&mut self, command: Command) -> Result<Answer, Refusal> {
        if let Command::Open { columns, rows, labels } = command {
            let job = Job::open(columns, rows, labels, Rule::OneBend)?;
            let cells = job.cells();
            self.job = Some(job);
            return Ok(Answer::Number(u64::from(cells)));
        }
        let job = self.job.as_mut().ok_or(Refusal::WrongState)?;
        let number = match command {
            Command::Open { .. } => job.cells(),
            Command::Add { kind, first, second } => job.add(kind, first, second)?,
            Command::Close => job.close()?,
            Command::Reopen => job.reopen()?,
            Command::Calibrate { cell, values } => job.calibrate(cell, values)?,
            Command::Place { label, cell } => job.place(label, cell)?,
            Command::Time { gate, timing } => job.time(gate, timing)?,
            Command::Try { gate, timing } => {
                return job.try_timing(gate, timing).map(Answer::Number)
            }
            Command::Judge => return job.judge().map(Answer::Number),
            Command::Agenda => return job.agenda(AGENDA_PLACES).map(Answer::Agenda),
            Command::List => return job.list(LISTING_PLACES).map(Answer::Listing),
        };
        Ok(Answer::Number(u64::from(number)))
    }
}

#[cfg(test)]
mod tests {
    use super::*;

    const INPUT: &str = "o 3 1 2\nC 0 1\ne\nk 0 1 1 100 2 0\nk 1 1 1 100 3 0\np 0 0\np 1 2\n\
                         t 0 5 0\nj\nl\n";
    const REPLIES: &str = "ok 3\nok 0\nok 1\nok 0\nok 1\nok 0\nok 1\nok 0\nok 20\nok 7\n\
                           5 2 C 0 1 0\n7 2 C 1 0 0\n9 2 C 0 1 0\n11 3 C 1 2 0\n\
                           14 2 C 0 1 0\n16 2 C 1 0 0\n18 2 C 0 1 0\n";

    fn answer(input: &[u8]) -> String {
        let mut replies = Vec::new();
        crate::answer(input, &mut replies).unwrap();
        String::from_utf8(replies).unwrap()
    }

    #[test]
    fn the_example() {
        assert_eq!(answer(INPUT.as_bytes()), REPLIES);
        assert_eq!(answer(INPUT.trim_end().as_bytes()), REPLIES);
    }

    #[test]
    fn pieces_of_any_length() {
        for length in 1..12 {
            let mut replies = Vec::new();
            let mut session = Session::new();
            for piece in INPUT.as_bytes().chunks(length) {
                session.feed(piece, &mut replies).unwrap();
            }
            session.finish(&mut replies).unwrap();
            assert_eq!(replies, REPLIES.as_bytes());
        }
    }

    #[test]
    fn lines_that_are_none() {
        assert_eq!(answer(b""), "");
        assert_eq!(answer(b"\n"), "no 51 0 0 1\n");
        assert_eq!(answer(b"\n\ne"), "no 51 0 0 1\nno 51 0 0 2\nno 52 0 0 3\n");
        assert_eq!(answer(b"o 1 1 1\r\n\r"), "no 51 0 0 1\nno 51 0 0 2\n");
        let mut long = vec![b'x'; 100_000];
        long.extend_from_slice(b"\no 2 2 5\no 9 1 1");
        assert_eq!(answer(&long), "no 51 0 0 1\nno 2 0 0 2\nno 1 0 0 3\n");
    }

    #[test]
    fn a_refused_opening_leaves_the_job() {
        assert_eq!(
            answer(b"o 2 2 4\nR 3\no 0 1 1\nC 3 4\nC 3 3\nC 0 3\nH 0\ne\nH 0\nj\n"),
            "ok 4\nok 0\nno 1 0 0 3\nno 4 4 0 4\nno 5 0 0 5\nno 6 3 0 6\nok 1\nok 2\n\
             no 52 0 0 9\nno 21 0 0 10\n"
        );
    }
}
