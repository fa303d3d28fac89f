//! Random scripts: inputs of the job program of many kinds.

use std::fmt::{Arguments, Write};

use crate::calibration::{Values, GREATEST_LINK, GREATEST_READ, GREATEST_SINGLE, GREATEST_WINDOW};
use crate::draft::{Draft, Style};
use crate::gate::{Gate, Kind, Timing};
use crate::machine::{Cell, Machine};
use crate::random::Random;

/// Numbers at which something changes, and their neighbours.
const EDGES: [u32; 25] = [
    0, 1, 2, 7, 8, 9, 31, 32, 33, 63, 64, 65, 255, 256, 257, 999, 1000, 1001, 65_535, 65_536,
    999_999, 1_000_000, 1_000_001, 9_999_998, 9_999_999,
];

/// Words that stand where a number should and are none.
const NO_NUMBERS: [&str; 14] = [
    "00",
    "01",
    "007",
    "0000000",
    "00000000",
    "10000000",
    "09999999",
    "99999999999",
    "-1",
    "+1",
    "1.0",
    "0x1",
    "",
    "a",
];

/// The lengths that over-long lines have, and their neighbours.
const LENGTHS: [usize; 12] = [40, 79, 80, 81, 82, 83, 160, 161, 162, 4_096, 10_000, 70_000];

/// The script of a seed.
pub fn script(seed: u64) -> Vec<u8> {
    let mut random = Random::new(seed);
    let mut bytes = Vec::new();
    match random.below(50) {
        0 => {}
        1 => bytes = odd_bytes(&mut random),
        _ => {
            for _ in 0..chapters(&mut random) {
                bytes.extend(chapter(&mut random));
            }
        }
    }
    if random.once_in(4) && bytes.last() == Some(&b'\n') {
        bytes.pop();
    }
    if random.once_in(20) {
        bytes.extend_from_slice(
            random.pick(&[" ", "\r", "e", "\n", "\0", "j\r", "o 1 1 1"]).as_bytes(),
        );
    }
    bytes
}

fn chapters(random: &mut Random) -> u32 {
    match random.below(10) {
        0..=3 => 1,
        4..=7 => random.between(2, 5),
        _ => random.between(6, 20),
    }
}

fn odd_bytes(random: &mut Random) -> Vec<u8> {
    let length = random.below(40);
    let alphabet = b"\n\n\n  \r\0ojeal019HC\xff\x80\t";
    (0..length).map(|_| random.pick(alphabet)).collect()
}

/// A few lines up to a few thousand that have a subject.
fn chapter(random: &mut Random) -> Vec<u8> {
    let mut pages = Pages { text: String::new(), random: random.clone() };
    let subject = pages.random.below(40);
    match subject {
        0..=8 => pages.lawful_job(),
        9..=20 => pages.nearly_right_job(),
        21..=26 => pages.random_commands(),
        27..=31 => pages.edge_numbers(),
        32 => pages.full_program(),
        33 => pages.long_listing(),
        34 => pages.bad_lines(),
        35 => pages.program_errors(),
        36..=37 => pages.lawful_job(),
        _ => pages.nearly_right_job(),
    }
    *random = pages.random;
    if subject >= 36 {
        damage(random, pages.text.as_bytes())
    } else {
        pages.text.into_bytes()
    }
}

/// The lines of a chapter while they are written.
struct Pages {
    text: String,
    random: Random,
}

impl Pages {
    fn line(&mut self, line: Arguments<'_>) {
        self.text.write_fmt(line).expect("a string takes all");
        self.text.push('\n');
    }

    fn lines(&mut self, lines: &[&str]) {
        lines.iter().for_each(|line| self.line(format_args!("{line}")));
    }

    fn open(&mut self, draft: &Draft) {
        let (columns, rows) = (draft.machine().columns(), draft.machine().rows());
        self.line(format_args!("o {columns} {rows} {}", draft.labels()));
    }

    fn gate(&mut self, gate: &Gate) {
        match gate.kind {
            Kind::C => self.line(format_args!("C {} {}", gate.first, gate.second)),
            kind => self.line(format_args!("{} {}", char::from(kind.letter()), gate.first)),
        }
    }

    fn values(&mut self, cell: u32, v: &Values) {
        let Values { single, read, window, east, south } = v;
        self.line(format_args!("k {cell} {single} {read} {window} {east} {south}"));
    }

    /// Calibrates a cell of the draft and in the script.
    fn calibrate(&mut self, draft: &mut Draft, cell: Cell, values: Values) {
        self.values(u32::from(cell), &values);
        // Values out of range are refused in the script as they are here.
        let _ = draft.calibration.set(u32::from(cell), values);
    }

    fn timing(&mut self, letter: char, gate: usize, timing: Timing) {
        self.line(format_args!("{letter} {gate} {} {}", timing.start, timing.choice));
    }

    /// Writes the draft's timings, seldom leaving one out.
    fn timings(&mut self, draft: &Draft, omit: bool) {
        let mut order: Vec<usize> = (0..draft.gates.len()).collect();
        if self.random.once_in(3) {
            self.random.shuffle(&mut order);
        }
        for gate in order {
            let left_out = omit && self.random.once_in(12);
            if let (Some(timing), false) = (draft.timings[gate], left_out) {
                self.timing('t', gate, timing);
            }
        }
    }

    fn places(&mut self, draft: &Draft, omit: bool) {
        for label in 0..draft.labels() as u8 {
            if !(omit && self.random.once_in(6)) {
                self.line(format_args!("p {label} {}", draft.home(label)));
            }
        }
    }

    fn calibrations(&mut self, draft: &mut Draft) {
        let seldom = self.random.between(1, 4);
        for cell in 0..draft.machine().cells() {
            if self.random.once_in(seldom) {
                let values = draft.sensible_values(&mut self.random, cell);
                self.calibrate(draft, cell, values);
            }
        }
    }

    fn style(&mut self) -> Style {
        let styles = [
            Style::Sequential,
            Style::Parallel,
            Style::Parallel,
            Style::LabelsOnly,
            Style::LabelsOnly,
            Style::Reckless,
        ];
        self.random.pick(&styles)
    }

    /// Adds so many random gates to the draft and in the script.
    fn grow(&mut self, draft: &mut Draft, gates: u32) {
        let reads = self.random.once_in(2);
        for _ in 0..gates {
            match draft.grow(&mut self.random, reads) {
                Some(gate) => self.gate(&gate),
                None => break,
            }
        }
    }

    fn gate_count(&mut self) -> u32 {
        match self.random.below(10) {
            0 => 0,
            1..=4 => self.random.between(1, 6),
            5..=8 => self.random.between(5, 40),
            _ => self.random.between(30, 120),
        }
    }

    /// A job up to its timings.
    fn job(&mut self, styles: &[Style], omit: bool) -> Draft {
        let mut draft = Draft::any(&mut self.random);
        self.open(&draft);
        let gates = self.gate_count();
        self.grow(&mut draft, gates);
        self.line(format_args!("e"));
        self.calibrations(&mut draft);
        self.places(&draft, omit);
        let style = self.random.pick(styles);
        draft.schedule(&mut self.random, style);
        self.timings(&draft, omit);
        draft
    }

    fn ask(&mut self, letter: char) {
        self.line(format_args!("{letter}"));
    }

    fn ask_all(&mut self, letters: &str) {
        letters.chars().for_each(|letter| self.ask(letter));
    }

    /// Tries a timing near the one that a gate has.
    fn try_near(&mut self, draft: &Draft) {
        if let Some((gate, timing)) = self.near_timing(draft) {
            self.timing('y', gate, timing);
        }
    }

    fn near_timing(&mut self, draft: &Draft) -> Option<(usize, Timing)> {
        let gate = self.any_gate(draft)?;
        let Timing { start, choice } = draft.timings[gate]?;
        let start = match self.random.below(6) {
            0 => start + 1,
            1 => start.saturating_sub(1),
            2 => self.random.below(start + 10),
            3 => draft.end(self.any_gate(draft)?),
            4 => draft.end(self.any_gate(draft)?).saturating_sub(1),
            _ => start,
        };
        let choice = if self.random.once_in(3) { self.random.below(3) } else { choice };
        Some((gate, Timing { start, choice }))
    }

    fn any_gate(&mut self, draft: &Draft) -> Option<usize> {
        let gates = draft.gates.len();
        (gates > 0).then(|| self.random.below(gates as u32) as usize)
    }

    fn any_cell(&mut self, draft: &Draft) -> Cell {
        self.random.below(u32::from(draft.machine().cells())) as Cell
    }

    /// A job that passes, as a rule, and questions about it.
    fn lawful_job(&mut self) {
        let mut draft = self.job(&[Style::Sequential, Style::Parallel], false);
        self.ask_all("jal");
        for _ in 0..self.random.below(6) {
            self.try_near(&draft);
        }
        if self.random.once_in(3) {
            self.line(format_args!("n"));
            let gates = self.random.below(8);
            self.grow(&mut draft, gates);
            self.ask_all("eja");
            draft.schedule(&mut self.random, Style::Parallel);
            self.timings(&draft, false);
            self.ask_all("jla");
        }
    }

    /// A job that passes or fails by a little, changed step by step.
    fn nearly_right_job(&mut self) {
        let style = self.style();
        let omit = self.random.once_in(8);
        let mut draft = self.job(&[style], omit);
        self.ask('j');
        for _ in 0..self.random.between(1, 12) {
            self.change(&mut draft);
            let question = self.random.pick(&['j', 'j', 'j', 'l', 'a']);
            self.ask(question);
        }
    }

    /// Changes one thing of a job.
    fn change(&mut self, draft: &mut Draft) {
        match self.random.below(10) {
            0..=2 => {
                if let Some((gate, timing)) = self.near_timing(draft) {
                    self.timing('t', gate, timing);
                    draft.timings[gate] = Some(timing);
                }
            }
            3..=4 => self.tight_window(draft),
            5 => self.move_label(draft),
            6 => self.try_near(draft),
            7 => {
                let cell = self.any_cell(draft);
                let values = draft.sensible_values(&mut self.random, cell);
                self.calibrate(draft, cell, values);
            }
            8 => {
                let style = self.style();
                draft.schedule(&mut self.random, style);
                self.timings(draft, false);
            }
            _ => {
                if let (Some(a), Some(b)) = (self.any_gate(draft), self.any_gate(draft)) {
                    draft.timings.swap(a, b);
                    for gate in [a, b] {
                        if let Some(timing) = draft.timings[gate] {
                            self.timing('t', gate, timing);
                        }
                    }
                }
            }
        }
    }

    /// Ends the window of a home where a gate on it ends, or one earlier or later.
    fn tight_window(&mut self, draft: &mut Draft) {
        let Some(gate) = self.any_gate(draft) else { return };
        let labels: Vec<u8> = draft.gates[gate].labels().collect();
        let cell = draft.home(self.random.pick(&labels));
        let window = (draft.end(gate) + self.random.below(3)).saturating_sub(1).max(1);
        let values = Values { window, ..*draft.calibration.of(cell) };
        self.calibrate(draft, cell, values);
        if self.random.once_in(2) {
            self.ask('j');
            self.calibrate(draft, cell, Values { window: GREATEST_WINDOW, ..values });
        }
    }

    /// Moves a label to a random cell, which may be another's home; moves it back at times.
    fn move_label(&mut self, draft: &mut Draft) {
        let label = self.random.below(draft.labels());
        let old = draft.home(label as u8);
        let new = self.any_cell(draft);
        self.line(format_args!("p {label} {new}"));
        let shared = draft.homes.contains(&Some(new));
        if shared || self.random.once_in(2) {
            self.ask('j');
            if self.random.once_in(4) {
                let gate = self.random.below(4);
                self.line(format_args!("y {gate} 0 0"));
            }
            self.line(format_args!("p {label} {old}"));
        } else {
            draft.homes[label as usize] = Some(new);
        }
    }

    /// Commands of all sorts, whatever the state.
    fn random_commands(&mut self) {
        match self.random.below(4) {
            0 => {}
            1 => self.line(format_args!("o 2 2 3")),
            2 => self.lines(&["o 3 2 4", "C 0 1", "H 2", "C 1 2", "e"]),
            _ => {
                let (columns, rows) = (self.random.below(10), self.random.below(10));
                let labels = self.random.below(34);
                self.line(format_args!("o {columns} {rows} {labels}"));
            }
        }
        for _ in 0..self.random.between(1, 120) {
            self.random_command();
        }
    }

    fn random_command(&mut self) {
        let letter = match self.random.below(60) {
            0 => 'o',
            1..=2 => 'e',
            3 => 'n',
            _ => self.random.pick(&[
                'H', 'X', 'Y', 'Z', 'S', 'T', 'R', 'C', 'C', 'k', 'p', 'p', 't', 't', 'y', 'j',
                'a', 'l',
            ]),
        };
        let words = arguments(letter);
        self.text.push(letter);
        for position in 0..words {
            let bound = match (letter, position) {
                ('k', 1..=3) => 30,
                ('k', 4..=5) => 3,
                ('t' | 'y', 1) => 40,
                ('t' | 'y', 2) => 3,
                _ => 7,
            };
            let number = match self.random.below(12) {
                0 => self.random.pick(&EDGES),
                _ => self.random.below(bound),
            };
            write!(self.text, " {number}").expect("a string takes all");
        }
        self.text.push('\n');
    }

    /// Commands with numbers at the edges of what is allowed.
    fn edge_numbers(&mut self) {
        let draft = Draft::any(&mut self.random);
        for _ in 0..self.random.below(4) {
            self.edge_command("o");
        }
        self.open(&draft);
        for _ in 0..self.random.below(8) {
            self.edge_command("HXYZSTRCC");
        }
        let mut draft = draft;
        let gates = self.random.below(4);
        self.grow(&mut draft, gates);
        self.ask('e');
        self.places(&draft, false);
        for _ in 0..self.random.between(5, 40) {
            match self.random.below(3) {
                0 => self.edge_command("pttyy"),
                1 => self.edge_timing(&draft),
                _ => self.edge_values(&mut draft),
            }
            if self.random.once_in(6) {
                let question = self.random.pick(&['j', 'l', 'a', 'n', 'e']);
                self.ask(question);
            }
        }
    }

    /// A command of one of the letters; each number is likely an edge.
    fn edge_command(&mut self, letters: &str) {
        let letter = char::from(self.random.pick(letters.as_bytes()));
        self.text.push(letter);
        let plain_words = self.random.once_in(2);
        for _ in 0..arguments(letter) {
            match self.random.below(10) {
                0 if !plain_words => {
                    let word = self.random.pick(&NO_NUMBERS);
                    write!(self.text, " {word}")
                }
                0..=4 => write!(self.text, " {}", self.random.pick(&EDGES)),
                5..=7 => write!(self.text, " {}", self.random.pick(&[0, 1, 7, 8, 9])),
                _ => write!(self.text, " {}", self.random.below(33)),
            }
            .expect("a string takes all");
        }
        self.text.push('\n');
    }

    fn edge_timing(&mut self, draft: &Draft) {
        let gates = draft.gates.len() as u32;
        let gate = self.random.below(gates + 2);
        let start = self.random.pick(&[0, 0, 1, 999_998, 999_999, 1_000_000, 1_000_001, 9_999_999]);
        let choice = self.random.pick(&[0, 0, 0, 1, 1, 2, 255, 256, 9_999_999]);
        let letter = self.random.pick(&['t', 't', 'y']);
        self.timing(letter, gate as usize, Timing { start, choice });
    }

    /// Lawful values for a cell, but for one of them, which is at an edge.
    fn edge_values(&mut self, draft: &mut Draft) {
        let cell = self.any_cell(draft);
        let mut values = draft.sensible_values(&mut self.random, cell);
        let greatest =
            [GREATEST_SINGLE, GREATEST_READ, GREATEST_WINDOW, GREATEST_LINK, GREATEST_LINK];
        for _ in 0..self.random.below(3) {
            let which = self.random.below(5) as usize;
            let top = greatest[which];
            let edge = self.random.pick(&[0, 1, 2, top - 1, top, top + 1, 9_999_999]);
            *match which {
                0 => &mut values.single,
                1 => &mut values.read,
                2 => &mut values.window,
                3 => &mut values.east,
                _ => &mut values.south,
            } = edge;
        }
        if self.random.once_in(10) {
            let cells = u32::from(draft.machine().cells());
            let beyond = self.random.pick(&[cells, cells + 1, 64, 255, 256, 9_999_999]);
            self.values(beyond, &values);
        } else {
            self.calibrate(draft, cell, values);
        }
    }

    /// A program of as many gates as a job has, or one less, or one or two more.
    fn full_program(&mut self) {
        let mut draft = Draft::any(&mut self.random);
        self.open(&draft);
        let gates = self.random.pick(&[255, 256, 257, 258]);
        for _ in 0..gates {
            if let Some(gate) = draft.grow(&mut self.random, false) {
                self.gate(&gate);
            }
        }
        if gates > 256 {
            // The refusals that come before that of a full program.
            self.lines(&["C 0 0", "H 40", "C 0 33", "H 0"]);
            draft.gates.truncate(256);
            draft.timings.truncate(256);
        }
        self.ask('e');
        self.calibrations(&mut draft);
        self.places(&draft, false);
        let style = self.random.pick(&[Style::Sequential, Style::Parallel, Style::Parallel]);
        draft.schedule(&mut self.random, style);
        self.timings(&draft, false);
        self.ask_all("jalnea");
        for _ in 0..10 {
            self.change(&mut draft);
            self.ask('j');
        }
    }

    /// A job whose listing has 4,000 operations, or one less or more, or many more.
    fn long_listing(&mut self) {
        let machine = Machine::new(8, self.random.between(6, 8)).expect("a size from 1 to 8");
        let labels = self.random.between(4, 32);
        let mut draft = Draft::new(&mut self.random, machine, labels);
        let wanted = self.random.pick(&[3_998, 3_999, 4_000, 4_000, 4_001, 4_001, 4_100, 20_000]);
        self.open(&draft);
        let mut left = wanted;
        while left > 0 && draft.gates.len() < 256 {
            let first = self.random.below(labels) as u8;
            let second = self.random.below(labels) as u8;
            let far = Gate::cnot(first, second);
            let fits = first != second && draft.operations(&far) <= left;
            let gate = if fits { far } else { Gate::single(Kind::T, first) };
            // A single gate in the place of a CNOT that does not fit is for the last few only.
            if fits || left < 80 {
                left -= draft.operations(&gate);
                draft.add(gate);
                self.gate(&gate);
            }
        }
        self.ask('e');
        self.calibrations(&mut draft);
        self.places(&draft, false);
        let style = self.random.pick(&[Style::Sequential, Style::Parallel]);
        draft.schedule(&mut self.random, style);
        self.timings(&draft, false);
        self.ask_all("jl");
        self.change(&mut draft);
        self.ask('l');
    }

    /// Programs that use labels again that were read, or that are none.
    fn program_errors(&mut self) {
        let draft = Draft::any(&mut self.random);
        self.open(&draft);
        let bound = draft.labels() + u32::from(self.random.once_in(2));
        for _ in 0..self.random.between(5, 60) {
            let letter = char::from(self.random.pick(b"HXYZSTCCCCCRRR"));
            let (first, second) = (self.random.below(bound), self.random.below(bound));
            match letter {
                'C' => self.line(format_args!("C {first} {second}")),
                _ => self.line(format_args!("{letter} {first}")),
            }
            if self.random.once_in(20) {
                self.ask_all("en");
            }
        }
        self.ask_all("ejla");
    }

    /// Lines that are no commands, and some that are.
    fn bad_lines(&mut self) {
        for _ in 0..self.random.between(1, 20) {
            let length = self.random.pick(&LENGTHS);
            let line = match self.random.below(9) {
                0 => " ".repeat(length),
                1 => "e".repeat(length),
                2 => format!("H {}", "0".repeat(length - 2)),
                3 => format!("o 2 2 2{}", " ".repeat(length - 7)),
                4 => format!("{}o 2 2 2", " ".repeat(length - 7)),
                5 => " ".repeat(self.random.below(4) as usize),
                6 => "o 2 2 2".to_string(),
                7 => format!("H {}", self.random.pick(&NO_NUMBERS)),
                _ => self.random.pick(&["Q 0", "h 0", "E", "J", "c 0 1", "ok", "r 0"]).to_string(),
            };
            self.line(format_args!("{line}"));
        }
    }
}

/// How many numbers follow a command's letter.
fn arguments(letter: char) -> u32 {
    match letter {
        'o' | 't' | 'y' => 3,
        'k' => 6,
        'p' | 'C' => 2,
        'e' | 'n' | 'j' | 'a' | 'l' => 0,
        _ => 1,
    }
}

/// A text with some of its lines damaged.
fn damage(random: &mut Random, text: &[u8]) -> Vec<u8> {
    let seldom = random.between(2, 30);
    let mut damaged = Vec::with_capacity(text.len() + 100);
    for line in text.split_inclusive(|&byte| byte == b'\n') {
        let mut line = line.to_vec();
        if random.once_in(seldom) {
            damage_line(random, &mut line);
        }
        damaged.extend(line);
    }
    damaged
}

/// Damages a line that ends with a line feed.
fn damage_line(random: &mut Random, line: &mut Vec<u8>) {
    let end = line.len() - 1;
    let position = random.below(end.max(1) as u32) as usize;
    let space = line.iter().position(|&byte| byte == b' ').unwrap_or(end);
    let odd = random.pick(b"\0\r\t\x0b +-.,0:/;@AZaz\x7f\x80\xa0\xff");
    match random.below(16) {
        0 if space < end => drop(line.remove(space)),
        1 => line.insert(space, b' '),
        2 => line.insert(end, b' '),
        3 => line.insert(0, b' '),
        4 => line.insert(end, b'\r'),
        5 if space < end => line.insert(space + 1, b'0'),
        6 => line[position] = odd,
        7 => line.insert(position, odd),
        8 => drop(line.remove(position)),
        9 => drop(line.pop()),
        10 => line.insert(position, b'\n'),
        11 => line[0] ^= 0x20,
        12 => {
            let length = random.pick(&LENGTHS);
            let filler = random.pick(b" 0x\0\xff\r");
            line.splice(end..end, std::iter::repeat_n(filler, length.saturating_sub(end)));
        }
        13 => line.extend_from_within(..),
        14 => line.insert(0, b'\n'),
        _ => line.truncate(position),
    }
}

#[cfg(test)]
mod tests {
    use super::*;

    /// Scripts of many seeds together are answered in all the ways that a script can be.
    #[test]
    fn scripts_meet_every_refusal() {
        let mut met = std::collections::BTreeSet::new();
        for seed in 0..400 {
            let mut replies = Vec::new();
            crate::answer(&script(seed), &mut replies).unwrap();
            for reply in replies.split(|&byte| byte == b'\n') {
                let mut words = reply.split(|&byte| byte == b' ');
                if words.next() == Some(b"no") {
                    met.extend(words.next().map(|word| String::from_utf8_lossy(word).into_owned()));
                }
            }
        }
        for number in [1, 2, 4, 5, 6, 7, 8, 9, 10, 11, 12, 21, 22, 23, 24, 25, 26, 27, 31, 51, 52] {
            assert!(met.contains(&number.to_string()), "{number} is not met");
        }
    }
}
