//! Calibration: the values of each cell.

use crate::machine::{Cell, Machine, GREATEST_CELLS};
use crate::refusal::Refusal;

pub const GREATEST_SINGLE: u32 = 255;
pub const GREATEST_READ: u32 = 65_535;
pub const GREATEST_WINDOW: u32 = 1_000_000;
pub const GREATEST_LINK: u32 = 1_000;

/// The five values of a cell. A link's time is 0 where there is no link.
#[derive(Debug, Clone, Copy, PartialEq, Eq)]
pub struct Values {
    pub single: u32,
    pub read: u32,
    pub window: u32,
    pub east: u32,
    pub south: u32,
}

impl Values {
    /// Whether a cell of a machine may have these values.
    fn lawful(&self, machine: Machine, cell: Cell) -> bool {
        (1..=GREATEST_SINGLE).contains(&self.single)
            && (1..=GREATEST_READ).contains(&self.read)
            && (1..=GREATEST_WINDOW).contains(&self.window)
            && lawful_link(self.east, machine.east(cell).is_some())
            && lawful_link(self.south, machine.south(cell).is_some())
    }
}

fn lawful_link(time: u32, present: bool) -> bool {
    if present {
        (1..=GREATEST_LINK).contains(&time)
    } else {
        time == 0
    }
}

/// A machine with the values of all its cells.
#[derive(Debug, Clone)]
pub struct Calibration {
    machine: Machine,
    values: [Values; GREATEST_CELLS],
}

impl Calibration {
    /// The values that a machine has at first.
    pub fn new(machine: Machine) -> Calibration {
        let values = std::array::from_fn(|number| {
            let cell = machine.cell(number as u32);
            Values {
                single: 1,
                read: 1,
                window: GREATEST_WINDOW,
                east: u32::from(cell.and_then(|c| machine.east(c)).is_some()),
                south: u32::from(cell.and_then(|c| machine.south(c)).is_some()),
            }
        });
        Calibration { machine, values }
    }

    pub fn machine(&self) -> Machine {
        self.machine
    }

    /// The values of a cell of the machine.
    pub fn of(&self, cell: Cell) -> &Values {
        &self.values[usize::from(cell)]
    }

    /// Gives a cell other values.
    pub fn set(&mut self, number: u32, values: Values) -> Result<(), Refusal> {
        let cell = self.machine.cell(number).ok_or(Refusal::NoCell { cell: number })?;
        if !values.lawful(self.machine, cell) {
            return Err(Refusal::CalibrationRange { cell: number });
        }
        self.values[usize::from(cell)] = values;
        Ok(())
    }

    /// The time of the link between two cells, 0 where they are no neighbours.
    ///
    /// A cell's link to the east, and to the south, has a time above 0 exactly where it is there.
    pub fn link(&self, a: Cell, b: Cell) -> u32 {
        let (low, high) = if a < b { (a, b) } else { (b, a) };
        let Values { east, south, .. } = *self.of(low);
        match high - low {
            1 if east > 0 => east,
            gap if gap == self.machine.columns() => south,
            _ => 0,
        }
    }
}

#[cfg(test)]
mod tests {
    use super::*;

    /// The time of a link as it is said: by the places of the cells.
    fn plainly(calibration: &Calibration, a: Cell, b: Cell) -> u32 {
        let machine = calibration.machine();
        let (a_place, b_place) = (machine.place(a), machine.place(b));
        let low = calibration.of(a.min(b));
        match (a_place.0.abs_diff(b_place.0), a_place.1.abs_diff(b_place.1)) {
            (1, 0) => low.east,
            (0, 1) => low.south,
            _ => 0,
        }
    }

    #[test]
    fn links_are_as_said() {
        for (columns, rows) in (1..=8).flat_map(|c| (1..=8).map(move |r| (c, r))) {
            let machine = Machine::new(columns, rows).unwrap();
            let mut calibration = Calibration::new(machine);
            for cell in 0..machine.cells() {
                let time = |there: bool, base: u32| if there { base + u32::from(cell) } else { 0 };
                let east = time(machine.east(cell).is_some(), 100);
                let south = time(machine.south(cell).is_some(), 200);
                let values = Values { single: 1, read: 1, window: 1, east, south };
                calibration.set(u32::from(cell), values).unwrap();
            }
            for (a, b) in
                (0..machine.cells()).flat_map(|a| (0..machine.cells()).map(move |b| (a, b)))
            {
                assert_eq!(calibration.link(a, b), plainly(&calibration, a, b));
            }
        }
    }
}
