//! Kinds, gates and timings.

/// What a gate does. The order of the kinds is the order of comparison.
#[derive(Debug, Clone, Copy, PartialEq, Eq, PartialOrd, Ord, Hash)]
pub enum Kind {
    H,
    X,
    Y,
    Z,
    S,
    T,
    C,
    R,
}

impl Kind {
    pub const ALL: [Kind; 8] =
        [Kind::H, Kind::X, Kind::Y, Kind::Z, Kind::S, Kind::T, Kind::C, Kind::R];

    pub fn letter(self) -> u8 {
        b"HXYZSTCR"[self as usize]
    }

    pub fn from_letter(letter: u8) -> Option<Kind> {
        Kind::ALL.into_iter().find(|kind| kind.letter() == letter)
    }
}

/// A kind with the labels it acts on. Only a CNOT has a second label, its target; every other
/// gate holds 0 there.
#[derive(Debug, Clone, Copy, PartialEq, Eq)]
pub struct Gate {
    pub kind: Kind,
    pub first: u8,
    pub second: u8,
}

impl Gate {
    pub fn single(kind: Kind, label: u8) -> Gate {
        Gate { kind, first: label, second: 0 }
    }

    pub fn cnot(control: u8, target: u8) -> Gate {
        Gate { kind: Kind::C, first: control, second: target }
    }

    /// The labels that the gate uses, the control's before the target's.
    pub fn labels(&self) -> impl Iterator<Item = u8> {
        let second = (self.kind == Kind::C).then_some(self.second);
        std::iter::once(self.first).chain(second)
    }
}

/// When a gate starts, and the choice that its route is made by.
#[derive(Debug, Clone, Copy, PartialEq, Eq)]
pub struct Timing {
    pub start: u32,
    pub choice: u32,
}
