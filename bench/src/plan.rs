//! A plan and its judging.

use crate::calibration::Calibration;
use crate::gate::{Gate, Kind, Timing};
use crate::machine::{Cell, GREATEST_CELLS};
use crate::refusal::Refusal;
use crate::register::Register;
use crate::route::{set_of, CellSet, Rule};

/// No program has more gates.
pub const GREATEST_GATES: usize = 256;

/// A calibrated machine, the homes of labels, and a program's gates with their timings.
#[derive(Debug, Clone, Copy)]
pub struct Plan<'a> {
    pub calibration: &'a Calibration,
    pub rule: Rule,
    /// The home of each label. One that is no cell of the machine counts as none.
    pub homes: &'a [Option<Cell>],
    pub gates: &'a [Gate],
    /// The timing of each gate, as many as there are gates.
    pub timings: &'a [Option<Timing>],
}

/// A timed gate as judging sees it.
#[derive(Debug, Clone, Copy)]
struct Span {
    start: u64,
    end: u64,
    /// The homes of the gate's labels.
    homes: CellSet,
    /// The cells that the gate reserves.
    reserved: CellSet,
}

impl Plan<'_> {
    /// The home of a label, if it has one.
    pub fn home(&self, label: u8) -> Option<Cell> {
        let home = (*self.homes.get(usize::from(label))?)?;
        self.calibration.machine().cell(u32::from(home))
    }

    /// Judges the plan: its latest end, or the first constraint that it breaks.
    pub fn judge(&self) -> Result<u64, Refusal> {
        if self.gates.len() > GREATEST_GATES {
            return Err(Refusal::ProgramFull);
        }
        self.every_used_label_has_a_home()?;
        self.no_home_is_shared()?;
        self.every_gate_has_a_timing()?;
        self.every_choice_is_offered()?;
        let spans = self.spans();
        dependent_gates_wait(&spans)?;
        reserved_cells_are_free(&spans)?;
        self.windows_hold(&spans)?;
        Ok(spans.iter().map(|span| span.end).max().unwrap_or(0))
    }

    /// Runs the gates on a register whose wires are the cells; answers how many reads there are.
    /// The register changes only if it takes every gate.
    pub fn run_on(&self, register: &mut impl Register) -> Result<u32, Refusal> {
        self.every_used_label_has_a_home()?;
        self.no_home_is_shared()?;
        let wire = |label: u8| self.home(label).map_or(0, usize::from);
        let action = |gate: &Gate| (gate.kind, wire(gate.first), wire(gate.second));
        register.apply_all(self.gates.iter().map(action))?;
        Ok(self.gates.iter().filter(|gate| gate.kind == Kind::R).count() as u32)
    }

    /// Tests that every label of a gate has a home.
    pub fn every_used_label_has_a_home(&self) -> Result<(), Refusal> {
        let homeless = self
            .gates
            .iter()
            .flat_map(Gate::labels)
            .filter(|&label| self.home(label).is_none())
            .min();
        match homeless {
            Some(label) => Err(Refusal::NoHome { label: u32::from(label) }),
            None => Ok(()),
        }
    }

    /// Tests that no two labels have one home.
    pub fn no_home_is_shared(&self) -> Result<(), Refusal> {
        let mut first_at: [Option<u32>; GREATEST_CELLS] = [None; GREATEST_CELLS];
        let mut lowest: Option<(u32, u32)> = None;
        for label in 0..self.homes.len().min(256) {
            let Some(home) = self.home(label as u8) else { continue };
            match first_at[usize::from(home)] {
                None => first_at[usize::from(home)] = Some(label as u32),
                Some(first) if lowest.is_none_or(|(lower, _)| first < lower) => {
                    lowest = Some((first, label as u32));
                }
                Some(_) => {}
            }
        }
        match lowest {
            Some((lower, higher)) => Err(Refusal::SharedHome { lower, higher }),
            None => Ok(()),
        }
    }

    fn every_gate_has_a_timing(&self) -> Result<(), Refusal> {
        match (0..self.gates.len()).find(|&gate| self.timing(gate).is_none()) {
            Some(gate) => Err(Refusal::NoTiming { gate: gate as u32 }),
            None => Ok(()),
        }
    }

    fn timing(&self, gate: usize) -> Option<Timing> {
        self.timings.get(gate).copied().flatten()
    }

    fn every_choice_is_offered(&self) -> Result<(), Refusal> {
        let offered = |gate: &Gate| if gate.kind == Kind::C { self.rule.choices() } else { 1 };
        let broken = self
            .gates
            .iter()
            .zip(self.timings)
            .position(|(gate, timing)| timing.is_some_and(|t| t.choice >= offered(gate)));
        match broken {
            Some(gate) => Err(Refusal::ChoiceNotOffered { gate: gate as u32 }),
            None => Ok(()),
        }
    }

    /// The spans of all gates. Every gate must have a timing with an offered choice, and its
    /// labels distinct homes.
    fn spans(&self) -> Vec<Span> {
        let timed = self.gates.iter().zip(self.timings);
        timed.filter_map(|(gate, timing)| self.span(gate, (*timing)?)).collect()
    }

    fn span(&self, gate: &Gate, timing: Timing) -> Option<Span> {
        let first = self.home(gate.first)?;
        let start = u64::from(timing.start);
        let (length, homes, reserved) = match gate.kind {
            Kind::C => {
                let second = self.home(gate.second)?;
                let machine = self.calibration.machine();
                let route = self.rule.route(machine, first, second, timing.choice);
                let length = routed_length(self.calibration, route.path.cells());
                (length, set_of(first) | set_of(second), route.reserved)
            }
            Kind::R => (self.calibration.of(first).read, set_of(first), set_of(first)),
            _ => (self.calibration.of(first).single, set_of(first), set_of(first)),
        };
        Some(Span { start, end: start + u64::from(length), homes, reserved })
    }

    fn windows_hold(&self, spans: &[Span]) -> Result<(), Refusal> {
        for (number, (gate, span)) in self.gates.iter().zip(spans).enumerate() {
            let late = gate
                .labels()
                .filter_map(|label| self.home(label))
                .find(|&home| span.end > u64::from(self.calibration.of(home).window));
            if let Some(cell) = late {
                return Err(Refusal::Window { gate: number as u32, cell: u32::from(cell) });
            }
        }
        Ok(())
    }
}

/// How long a CNOT lasts that is routed along a path.
pub fn routed_length(calibration: &Calibration, path: &[Cell]) -> u32 {
    let mut swaps = 0;
    let mut last = 0;
    for link in path.windows(2) {
        swaps += last;
        last = calibration.link(link[0], link[1]);
    }
    6 * swaps + last
}

/// Tests that of two gates with a common label the later in the program waits for the earlier.
/// Homes are distinct, so two gates have a common label where they have a common home.
fn dependent_gates_wait(spans: &[Span]) -> Result<(), Refusal> {
    let mut free_from = [0; GREATEST_CELLS];
    if spans.iter().all(|span| take(&mut free_from, span.homes, span)) {
        return Ok(());
    }
    let broken = |a: &Span, b: &Span| a.homes & b.homes != 0 && b.start < a.end;
    match lowest_pair(spans, broken) {
        Some((earlier, later)) => Err(Refusal::Dependence { earlier, later }),
        None => Ok(()),
    }
}

/// Tests that no two gates reserve a common cell at one time.
fn reserved_cells_are_free(spans: &[Span]) -> Result<(), Refusal> {
    let mut by_start: Vec<&Span> = spans.iter().collect();
    by_start.sort_by_key(|span| span.start);
    let mut free_from = [0; GREATEST_CELLS];
    if by_start.iter().all(|span| take(&mut free_from, span.reserved, span)) {
        return Ok(());
    }
    let broken =
        |a: &Span, b: &Span| a.reserved & b.reserved != 0 && a.start < b.end && b.start < a.end;
    match lowest_pair(spans, broken) {
        Some((lower, higher)) => Err(Refusal::Collision { lower, higher }),
        None => Ok(()),
    }
}

/// Whether every cell of a set is free when a span starts; each is then free from its end on.
fn take(free_from: &mut [u64; GREATEST_CELLS], cells: CellSet, span: &Span) -> bool {
    let mut left = cells;
    while left != 0 {
        let free = &mut free_from[left.trailing_zeros() as usize];
        if span.start < *free {
            return false;
        }
        *free = span.end;
        left &= left - 1;
    }
    true
}

/// The pair of spans, the lower before the higher, with the lowest places of all that are broken.
fn lowest_pair(spans: &[Span], broken: impl Fn(&Span, &Span) -> bool) -> Option<(u32, u32)> {
    spans.iter().enumerate().find_map(|(lower, a)| {
        let after = lower + 1;
        let found = spans[after..].iter().position(|b| broken(a, b))?;
        Some((lower as u32, (after + found) as u32))
    })
}

#[cfg(test)]
mod tests {
    use super::*;
    use crate::calibration::Values;
    use crate::draft::{Draft, Style};
    use crate::random::Random;

    /// Constraints 25 to 27 as they are said, on a draft whose labels have distinct homes.
    fn plainly(draft: &Draft) -> Result<u64, Refusal> {
        let gates = draft.gates.len();
        let start = |gate: usize| draft.timings[gate].unwrap().start;
        let shares = |a: usize, b: usize| {
            draft.gates[a].labels().any(|label| draft.gates[b].labels().any(|l| l == label))
        };
        let reserved =
            |gate: usize| draft.extent(&draft.gates[gate], draft.timings[gate].unwrap().choice).1;
        let pairs = || (0..gates).flat_map(|a| (a + 1..gates).map(move |b| (a, b)));
        if let Some((a, b)) = pairs().find(|&(a, b)| shares(a, b) && start(b) < draft.end(a)) {
            return Err(Refusal::Dependence { earlier: a as u32, later: b as u32 });
        }
        let meet = |a: usize, b: usize| start(a) < draft.end(b) && start(b) < draft.end(a);
        if let Some((a, b)) = pairs().find(|&(a, b)| reserved(a) & reserved(b) != 0 && meet(a, b)) {
            return Err(Refusal::Collision { lower: a as u32, higher: b as u32 });
        }
        for gate in 0..gates {
            for label in draft.gates[gate].labels() {
                let cell = draft.home(label);
                if draft.end(gate) > draft.calibration.of(cell).window {
                    return Err(Refusal::Window { gate: gate as u32, cell: u32::from(cell) });
                }
            }
        }
        Ok((0..gates).map(|gate| u64::from(draft.end(gate))).max().unwrap_or(0))
    }

    #[test]
    fn judging_is_as_said() {
        let mut random = Random::new(7);
        let mut passed = 0;
        for _ in 0..2_000 {
            let mut draft = Draft::any(&mut random);
            let gates = random.pick(&[0, 1, 3, 10, 40]);
            while draft.gates.len() < gates && draft.grow(&mut random, true).is_some() {}
            let wide = random.once_in(2);
            for cell in 0..draft.machine().cells() {
                let window = if wide { 100_000 } else { random.between(1, 400) };
                let values = Values { window, ..draft.sensible_values(&mut random, cell) };
                draft.calibration.set(u32::from(cell), values).unwrap();
            }
            let styles = [Style::Sequential, Style::Parallel, Style::LabelsOnly, Style::Reckless];
            let style = random.pick(&styles);
            draft.schedule(&mut random, style);
            if let Some(Some(timing)) = draft.timings.last_mut() {
                timing.start = timing.start.saturating_sub(random.below(2));
            }
            assert_eq!(draft.plan().judge(), plainly(&draft), "{draft:?}");
            passed += u32::from(draft.plan().judge().is_ok());
        }
        assert!(passed > 300, "{passed} passed");
    }
}
