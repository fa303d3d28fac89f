//! The job with its calls.

use crate::calibration::{Calibration, Values};
use crate::gate::{Gate, Kind, Timing};
use crate::listing::Operation;
use crate::machine::{Cell, Machine};
use crate::plan::{Plan, GREATEST_GATES};
use crate::refusal::Refusal;
use crate::register::Register;
use crate::route::Rule;

pub const GREATEST_LABELS: u32 = 32;
pub const GREATEST_START: u32 = 1_000_000;
pub const GREATEST_CHOICE: u32 = 255;

/// A machine, its calibration, labels with homes, and a program with timings.
#[derive(Debug, Clone)]
pub struct Job {
    calibration: Calibration,
    rule: Rule,
    homes: Vec<Option<Cell>>,
    gates: Vec<Gate>,
    timings: Vec<Option<Timing>>,
    /// The labels that the program has read.
    read: u32,
    closed: bool,
}

impl Job {
    /// Opens a job.
    pub fn open(columns: u32, rows: u32, labels: u32, rule: Rule) -> Result<Job, Refusal> {
        let machine = Machine::new(columns, rows)?;
        if labels == 0 || labels > GREATEST_LABELS || labels > u32::from(machine.cells()) {
            return Err(Refusal::LabelCount);
        }
        Ok(Job {
            calibration: Calibration::new(machine),
            rule,
            homes: vec![None; labels as usize],
            gates: Vec::with_capacity(GREATEST_GATES),
            timings: Vec::with_capacity(GREATEST_GATES),
            read: 0,
            closed: false,
        })
    }

    /// How many cells the machine has.
    pub fn cells(&self) -> u32 {
        u32::from(self.calibration.machine().cells())
    }

    /// The job as a plan.
    pub fn plan(&self) -> Plan<'_> {
        Plan {
            calibration: &self.calibration,
            rule: self.rule,
            homes: &self.homes,
            gates: &self.gates,
            timings: &self.timings,
        }
    }

    fn opened(&self) -> Result<(), Refusal> {
        if self.closed {
            Err(Refusal::WrongState)
        } else {
            Ok(())
        }
    }

    fn closed(&self) -> Result<(), Refusal> {
        if self.closed {
            Ok(())
        } else {
            Err(Refusal::WrongState)
        }
    }

    /// Adds a gate by its kind's letter.
    pub fn add_letter(&mut self, letter: u8, first: u32, second: u32) -> Result<u32, Refusal> {
        self.opened()?;
        let kind = Kind::from_letter(letter).ok_or(Refusal::NoKind)?;
        self.add(kind, first, second)
    }

    /// Adds a gate.
    pub fn add(&mut self, kind: Kind, first: u32, second: u32) -> Result<u32, Refusal> {
        self.opened()?;
        let both = [first, second];
        let used = if kind == Kind::C { &both[..] } else { &both[..1] };
        if let Some(&label) = used.iter().find(|&&label| !self.has_label(label)) {
            return Err(Refusal::NoLabel { label });
        }
        if kind == Kind::C && first == second {
            return Err(Refusal::OneLabelTwice);
        }
        if let Some(&label) = used.iter().find(|&&label| self.read >> label & 1 == 1) {
            return Err(Refusal::LabelRead { label });
        }
        if self.gates.len() == GREATEST_GATES {
            return Err(Refusal::ProgramFull);
        }
        self.gates.push(match kind {
            Kind::C => Gate::cnot(first as u8, second as u8),
            kind => Gate::single(kind, first as u8),
        });
        self.timings.push(None);
        if kind == Kind::R {
            self.read |= 1 << first;
        }
        Ok(self.gates.len() as u32 - 1)
    }

    fn has_label(&self, label: u32) -> bool {
        (label as usize) < self.homes.len()
    }

    /// Closes the job.
    pub fn close(&mut self) -> Result<u32, Refusal> {
        self.opened()?;
        self.closed = true;
        Ok(self.gates.len() as u32)
    }

    /// Opens the job again and forgets its timings.
    pub fn reopen(&mut self) -> Result<u32, Refusal> {
        self.closed()?;
        self.closed = false;
        self.timings.fill(None);
        Ok(self.gates.len() as u32)
    }

    /// Gives a cell other values.
    pub fn calibrate(&mut self, cell: u32, values: Values) -> Result<u32, Refusal> {
        self.closed()?;
        self.calibration.set(cell, values)?;
        Ok(cell)
    }

    /// Places a label on a cell.
    pub fn place(&mut self, label: u32, cell: u32) -> Result<u32, Refusal> {
        self.closed()?;
        if !self.has_label(label) {
            return Err(Refusal::NoLabel { label });
        }
        let home = self.calibration.machine().cell(cell).ok_or(Refusal::NoCell { cell })?;
        self.homes[label as usize] = Some(home);
        Ok(label)
    }

    /// Times a gate.
    pub fn time(&mut self, gate: u32, timing: Timing) -> Result<u32, Refusal> {
        self.closed()?;
        self.timing_allowed(gate, timing)?;
        self.timings[gate as usize] = Some(timing);
        Ok(gate)
    }

    fn timing_allowed(&self, gate: u32, timing: Timing) -> Result<(), Refusal> {
        if gate as usize >= self.gates.len() {
            return Err(Refusal::NoGate { gate });
        }
        if timing.start > GREATEST_START {
            return Err(Refusal::LateStart { gate });
        }
        if timing.choice > GREATEST_CHOICE {
            return Err(Refusal::GreatChoice { gate });
        }
        Ok(())
    }

    /// What judging would answer if the gate had the timing.
    pub fn try_timing(&mut self, gate: u32, timing: Timing) -> Result<u64, Refusal> {
        self.closed()?;
        self.timing_allowed(gate, timing)?;
        let held = self.timings[gate as usize].replace(timing);
        let verdict = self.plan().judge();
        self.timings[gate as usize] = held;
        verdict
    }

    /// Judges the job.
    pub fn judge(&self) -> Result<u64, Refusal> {
        self.closed()?;
        self.plan().judge()
    }

    /// The agenda of the job.
    pub fn agenda(&self, places: usize) -> Result<Vec<(u32, u16)>, Refusal> {
        self.closed()?;
        self.plan().agenda(places)
    }

    /// The listing of the job.
    pub fn list(&self, places: usize) -> Result<Vec<Operation>, Refusal> {
        self.closed()?;
        self.plan().list(places)
    }

    /// Runs the program's gates on a register; answers how many reads there are.
    pub fn run_on(&self, register: &mut impl Register) -> Result<u32, Refusal> {
        self.closed()?;
        self.plan().run_on(register)
    }
}
