//! Paths through the machine and the route rules.

use crate::machine::{Cell, Machine};

/// No path of a delivered rule has more cells than one from corner to corner.
const GREATEST_PATH: usize = 15;

/// A set of cells: bit c is cell c.
pub type CellSet = u64;

/// The set of one cell.
pub fn set_of(cell: Cell) -> CellSet {
    1 << cell
}

/// A sequence of cells, each the neighbour of the one before.
#[derive(Debug, Clone, Copy)]
pub struct Path {
    cells: [Cell; GREATEST_PATH],
    length: usize,
}

impl Path {
    fn starting_at(cell: Cell) -> Path {
        let mut cells = [0; GREATEST_PATH];
        cells[0] = cell;
        Path { cells, length: 1 }
    }

    fn push(&mut self, cell: Cell) {
        self.cells[self.length] = cell;
        self.length += 1;
    }

    /// The cells in order.
    pub fn cells(&self) -> &[Cell] {
        &self.cells[..self.length]
    }

    /// The cells as a set.
    pub fn set(&self) -> CellSet {
        self.cells().iter().fold(0, |set, &cell| set | set_of(cell))
    }
}

/// What a rule gives for two cells and a choice.
#[derive(Debug, Clone, Copy)]
pub struct Route {
    pub path: Path,
    pub reserved: CellSet,
}

/// The two delivered route rules.
#[derive(Debug, Clone, Copy, PartialEq, Eq)]
pub enum Rule {
    OneBend,
    Rectangle,
}

impl Rule {
    /// How many choices the rule offers.
    pub fn choices(self) -> u32 {
        match self {
            Rule::OneBend => 2,
            Rule::Rectangle => 1,
        }
    }

    /// The route between two different cells of the machine for a choice that is offered.
    pub fn route(self, machine: Machine, from: Cell, to: Cell, choice: u32) -> Route {
        let path = one_bend(machine, from, to, choice == 0);
        let reserved = match self {
            Rule::OneBend => path.set(),
            Rule::Rectangle => rectangle(machine, from, to),
        };
        Route { path, reserved }
    }
}

/// The path with at most one bend that goes along the row first, or along the column first.
fn one_bend(machine: Machine, from: Cell, to: Cell, row_first: bool) -> Path {
    let (from_place, to_place) = (machine.place(from), machine.place(to));
    let (along_row, along_column) = (1, machine.columns());
    let mut path = Path::starting_at(from);
    if row_first {
        let bend = machine.at(to_place.0, from_place.1);
        go_straight(&mut path, from, bend, along_row);
        go_straight(&mut path, bend, to, along_column);
    } else {
        let bend = machine.at(from_place.0, to_place.1);
        go_straight(&mut path, from, bend, along_column);
        go_straight(&mut path, bend, to, along_row);
    }
    path
}

/// Adds the cells after `from` up to `to`, whose numbers differ by `step` from one to the next.
fn go_straight(path: &mut Path, from: Cell, to: Cell, step: u8) {
    let mut cell = from;
    while cell != to {
        cell = if cell < to { cell + step } else { cell - step };
        path.push(cell);
    }
}

/// The cells of the bounding rectangle of two cells.
fn rectangle(machine: Machine, a: Cell, b: Cell) -> CellSet {
    let (a, b) = (machine.place(a), machine.place(b));
    let (west, east) = (a.0.min(b.0), a.0.max(b.0));
    let (north, south) = (a.1.min(b.1), a.1.max(b.1));
    (north..=south)
        .flat_map(|row| (west..=east).map(move |column| machine.at(column, row)))
        .fold(0, |set, cell| set | set_of(cell))
}
