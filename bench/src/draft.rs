//! Random jobs that are lawful, as plain values: for scripts and for measuring.

use crate::calibration::{Calibration, Values, GREATEST_WINDOW};
use crate::gate::{Gate, Kind, Timing};
use crate::job::GREATEST_LABELS;
use crate::listing::routed_operations;
use crate::machine::{Cell, Machine};
use crate::plan::{routed_length, Plan};
use crate::random::Random;
use crate::route::{set_of, CellSet, Rule};

/// A job that is being drafted. Every label has a home, and no two have one.
#[derive(Debug, Clone)]
pub struct Draft {
    pub calibration: Calibration,
    pub homes: Vec<Option<Cell>>,
    pub gates: Vec<Gate>,
    pub timings: Vec<Option<Timing>>,
    read: u32,
}

/// How gates are timed.
#[derive(Debug, Clone, Copy, PartialEq, Eq)]
pub enum Style {
    /// One after another.
    Sequential,
    /// Each as early as its labels and its cells allow.
    Parallel,
    /// Each as early as its labels allow, whatever cells it crosses.
    LabelsOnly,
    /// Each at an early time, whatever the others do.
    Reckless,
}

impl Draft {
    /// A job without gates on a machine of this size, its labels at random homes.
    pub fn new(random: &mut Random, machine: Machine, labels: u32) -> Draft {
        let mut cells: Vec<Cell> = (0..machine.cells()).collect();
        random.shuffle(&mut cells);
        Draft {
            calibration: Calibration::new(machine),
            homes: cells.into_iter().take(labels as usize).map(Some).collect(),
            gates: Vec::new(),
            timings: Vec::new(),
            read: 0,
        }
    }

    /// A job without gates on a machine of random size.
    pub fn any(random: &mut Random) -> Draft {
        let (columns, rows) = match random.below(6) {
            0 => (random.between(1, 8), 1),
            1 => (1, random.between(1, 8)),
            2 => (8, 8),
            3 => (random.between(1, 3), random.between(1, 3)),
            _ => (random.between(1, 8), random.between(1, 8)),
        };
        let machine = Machine::new(columns, rows).expect("a size from 1 to 8");
        let most = u32::from(machine.cells()).min(GREATEST_LABELS);
        let labels = if random.once_in(4) { most } else { random.between(1, most) };
        Draft::new(random, machine, labels)
    }

    pub fn machine(&self) -> Machine {
        self.calibration.machine()
    }

    pub fn labels(&self) -> u32 {
        self.homes.len() as u32
    }

    pub fn plan(&self) -> Plan<'_> {
        Plan {
            calibration: &self.calibration,
            rule: Rule::OneBend,
            homes: &self.homes,
            gates: &self.gates,
            timings: &self.timings,
        }
    }

    /// Values that a cell may have: small times and a wide window.
    pub fn sensible_values(&self, random: &mut Random, cell: Cell) -> Values {
        let mut link = |present: bool| if present { random.between(1, 9) } else { 0 };
        let east = link(self.machine().east(cell).is_some());
        let south = link(self.machine().south(cell).is_some());
        Values {
            single: random.between(1, 5),
            read: random.between(1, 30),
            window: GREATEST_WINDOW - random.below(1000),
            east,
            south,
        }
    }

    /// Adds a random gate, if a label is left that was not read.
    pub fn grow(&mut self, random: &mut Random, reads: bool) -> Option<Gate> {
        let mut left: Vec<u8> =
            (0..self.labels() as u8).filter(|label| self.read >> label & 1 == 0).collect();
        random.shuffle(&mut left);
        let first = *left.first()?;
        let gate = match (left.get(1), random.below(12)) {
            (Some(&second), 0..=5) => Gate::cnot(first, second),
            (_, 11) if reads => Gate::single(Kind::R, first),
            _ => Gate::single(random.pick(&Kind::ALL[..6]), first),
        };
        self.add(gate);
        Some(gate)
    }

    /// Adds a gate.
    pub fn add(&mut self, gate: Gate) {
        if gate.kind == Kind::R {
            self.read |= 1 << gate.first;
        }
        self.gates.push(gate);
        self.timings.push(None);
    }

    /// How many operations a gate has.
    pub fn operations(&self, gate: &Gate) -> usize {
        match gate.kind {
            Kind::C => {
                let [from, to] = [gate.first, gate.second].map(|label| self.home(label));
                let route = Rule::OneBend.route(self.machine(), from, to, 0);
                routed_operations(route.path.cells().len())
            }
            _ => 1,
        }
    }

    /// The home of a label, 0 where the draft has none for it.
    pub fn home(&self, label: u8) -> Cell {
        self.homes.get(usize::from(label)).copied().flatten().unwrap_or(0)
    }

    /// How long a gate lasts with a choice, and which cells it reserves.
    pub fn extent(&self, gate: &Gate, choice: u32) -> (u32, CellSet) {
        let home = self.home(gate.first);
        let values = self.calibration.of(home);
        match gate.kind {
            Kind::C => {
                let target = self.home(gate.second);
                let route = Rule::OneBend.route(self.machine(), home, target, choice);
                (routed_length(&self.calibration, route.path.cells()), route.reserved)
            }
            Kind::R => (values.read, set_of(home)),
            _ => (values.single, set_of(home)),
        }
    }

    /// Gives every gate a timing.
    pub fn schedule(&mut self, random: &mut Random, style: Style) {
        let mut free_from = [0; 64];
        let mut all_free_from = 0;
        for number in 0..self.gates.len() {
            let gate = self.gates[number];
            let choice = if gate.kind == Kind::C { random.below(2) } else { 0 };
            let (length, reserved) = self.extent(&gate, choice);
            let homes = gate.labels().fold(0, |set, label| set | set_of(self.home(label)));
            let cells = if style == Style::Parallel { reserved } else { homes };
            let ready = (0..64).filter(|cell| cells >> cell & 1 == 1).map(|cell| free_from[cell]);
            let earliest = match style {
                Style::Sequential => all_free_from,
                Style::Reckless => random.below(40),
                Style::Parallel | Style::LabelsOnly => ready.max().unwrap_or(0),
            };
            let idle = if random.once_in(8) { random.below(5) } else { 0 };
            let start = earliest + idle;
            self.timings[number] = Some(Timing { start, choice });
            all_free_from = start + length;
            for cell in (0..64).filter(|cell| cells >> cell & 1 == 1) {
                free_from[cell] = start + length;
            }
        }
    }

    /// When a gate ends by its timing, 0 without one.
    pub fn end(&self, number: usize) -> u32 {
        let Some(Timing { start, choice }) = self.timings[number] else { return 0 };
        start + self.extent(&self.gates[number], choice.min(1)).0
    }
}
