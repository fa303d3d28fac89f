//! The machine: a grid of cells.

use crate::refusal::Refusal;

/// The greatest number of columns, and of rows.
pub const GREATEST_SIDE: u32 = 8;
/// The greatest number of cells.
pub const GREATEST_CELLS: usize = 64;

/// A cell's number. Every cell of a machine has a number below 64.
pub type Cell = u8;

/// A grid of 1 to 8 columns and 1 to 8 rows; its cells are numbered row by row.
#[derive(Debug, Clone, Copy, PartialEq, Eq)]
pub struct Machine {
    columns: u8,
    rows: u8,
}

impl Machine {
    pub fn new(columns: u32, rows: u32) -> Result<Machine, Refusal> {
        let lawful = 1..=GREATEST_SIDE;
        if !lawful.contains(&columns) || !lawful.contains(&rows) {
            return Err(Refusal::MachineSize);
        }
        Ok(Machine { columns: columns as u8, rows: rows as u8 })
    }

    pub fn columns(self) -> u8 {
        self.columns
    }

    pub fn rows(self) -> u8 {
        self.rows
    }

    /// How many cells there are.
    pub fn cells(self) -> u8 {
        self.columns * self.rows
    }

    /// The cell with this number, if there is one.
    pub fn cell(self, number: u32) -> Option<Cell> {
        (number < u32::from(self.cells())).then_some(number as Cell)
    }

    /// The number of the cell at a column and a row.
    pub fn at(self, column: u8, row: u8) -> Cell {
        row * self.columns + column
    }

    /// The column and the row of a cell.
    pub fn place(self, cell: Cell) -> (u8, u8) {
        (cell % self.columns, cell / self.columns)
    }

    /// The neighbour to the east of a cell.
    pub fn east(self, cell: Cell) -> Option<Cell> {
        (self.place(cell).0 + 1 < self.columns).then_some(cell + 1)
    }

    /// The neighbour to the south of a cell.
    pub fn south(self, cell: Cell) -> Option<Cell> {
        (self.place(cell).1 + 1 < self.rows).then_some(cell + self.columns)
    }
}
