//! Operations, the CNOT between distant cells and the listing of a plan.

use crate::calibration::Calibration;
use crate::gate::{Gate, Kind, Timing};
use crate::machine::Cell;
use crate::plan::Plan;
use crate::refusal::Refusal;
use crate::register::Action;

/// An action on cells at a time. The order of operations is the order of the fields.
#[derive(Debug, Clone, Copy, PartialEq, Eq, PartialOrd, Ord)]
pub struct Operation {
    pub start: u32,
    pub first: Cell,
    pub length: u32,
    pub kind: Kind,
    /// The target of a CNOT, 0 where there is none.
    pub second: Cell,
    /// The number of the gate that the operation belongs to.
    pub gate: u16,
}

impl Operation {
    /// The operation's action, its wires the cells.
    pub fn action(&self) -> Action {
        (self.kind, usize::from(self.first), usize::from(self.second))
    }
}

/// How many operations a CNOT has that is routed along a path of so many cells.
pub fn routed_operations(cells: usize) -> usize {
    match cells {
        0 | 1 => 0,
        cells => 6 * (cells - 2) + 1,
    }
}

/// Hands the operations of a CNOT that is routed along a path to `emit`, first to last.
pub fn route_cnot(
    calibration: &Calibration,
    path: &[Cell],
    start: u32,
    gate: u16,
    mut emit: impl FnMut(Operation),
) {
    let [swapped @ .., target] = path else { return };
    let Some(&control) = swapped.last() else { return };
    let mut now = start;
    let mut cnot = |first: Cell, second: Cell| {
        let length = calibration.link(first, second);
        emit(Operation { start: now, first, length, kind: Kind::C, second, gate });
        now += length;
    };
    for link in swapped.windows(2) {
        swap(link[0], link[1], &mut cnot);
    }
    cnot(control, *target);
    for link in swapped.windows(2).rev() {
        swap(link[0], link[1], &mut cnot);
    }
}

/// The three CNOTs of a swap.
fn swap(a: Cell, b: Cell, mut cnot: impl FnMut(Cell, Cell)) {
    cnot(a, b);
    cnot(b, a);
    cnot(a, b);
}

impl Plan<'_> {
    /// The operations of all gates in order, at most so many as there are places.
    pub fn list(&self, places: usize) -> Result<Vec<Operation>, Refusal> {
        self.judge()?;
        let count = self.timed().map(|(_, gate, timing)| self.operations_of(gate, timing)).sum();
        if count > places {
            return Err(Refusal::NoRoom);
        }
        let mut operations = Vec::with_capacity(count);
        for (number, gate, timing) in self.timed() {
            self.emit_gate(number as u16, gate, timing, |operation| operations.push(operation));
        }
        // The operations of one gate are in order already, which a stable sort makes use of.
        operations.sort();
        Ok(operations)
    }

    /// The timed gates with their numbers, in program order.
    fn timed(&self) -> impl Iterator<Item = (usize, &Gate, Timing)> {
        let pairs = self.gates.iter().zip(self.timings).enumerate();
        pairs.filter_map(|(number, (gate, timing))| Some((number, gate, (*timing)?)))
    }

    fn operations_of(&self, gate: &Gate, timing: Timing) -> usize {
        if gate.kind != Kind::C {
            return 1;
        }
        let (Some(from), Some(to)) = (self.home(gate.first), self.home(gate.second)) else {
            return 0;
        };
        let machine = self.calibration.machine();
        let route = self.rule.route(machine, from, to, timing.choice);
        routed_operations(route.path.cells().len())
    }

    fn emit_gate(&self, number: u16, gate: &Gate, timing: Timing, mut emit: impl FnMut(Operation)) {
        let Some(first) = self.home(gate.first) else { return };
        let values = self.calibration.of(first);
        let length = match gate.kind {
            Kind::C => {
                let Some(second) = self.home(gate.second) else { return };
                let machine = self.calibration.machine();
                let route = self.rule.route(machine, first, second, timing.choice);
                let path = route.path.cells();
                return route_cnot(self.calibration, path, timing.start, number, emit);
            }
            Kind::R => values.read,
            _ => values.single,
        };
        let (start, kind) = (timing.start, gate.kind);
        emit(Operation { start, first, length, kind, second: 0, gate: number });
    }

    /// The agenda: start and number of each timed gate, in order of start, then number.
    pub fn agenda(&self, places: usize) -> Result<Vec<(u32, u16)>, Refusal> {
        if self.timed().count() > places {
            return Err(Refusal::NoRoom);
        }
        let mut entries: Vec<(u32, u16)> =
            self.timed().map(|(number, _, timing)| (timing.start, number as u16)).collect();
        entries.sort_unstable();
        Ok(entries)
    }
}
