//! Refusals.

/// Why a call was refused, with the places that the refusal names.
#[derive(Debug, Clone, Copy, PartialEq, Eq)]
pub enum Refusal {
    MachineSize,
    LabelCount,
    NoKind,
    NoLabel { label: u32 },
    OneLabelTwice,
    LabelRead { label: u32 },
    ProgramFull,
    NoCell { cell: u32 },
    CalibrationRange { cell: u32 },
    NoGate { gate: u32 },
    LateStart { gate: u32 },
    GreatChoice { gate: u32 },
    NoHome { label: u32 },
    SharedHome { lower: u32, higher: u32 },
    NoTiming { gate: u32 },
    ChoiceNotOffered { gate: u32 },
    Dependence { earlier: u32, later: u32 },
    Collision { lower: u32, higher: u32 },
    Window { gate: u32, cell: u32 },
    NoRoom,
    NoWire { place: u32 },
    KindNotTaken { place: u32 },
    TooManyH,
    Malformed,
    WrongState,
}

impl Refusal {
    /// The refusal's number and its two places, 0 where it names none.
    pub fn parts(self) -> [u32; 3] {
        match self {
            Refusal::MachineSize => [1, 0, 0],
            Refusal::LabelCount => [2, 0, 0],
            Refusal::NoKind => [3, 0, 0],
            Refusal::NoLabel { label } => [4, label, 0],
            Refusal::OneLabelTwice => [5, 0, 0],
            Refusal::LabelRead { label } => [6, label, 0],
            Refusal::ProgramFull => [7, 0, 0],
            Refusal::NoCell { cell } => [8, cell, 0],
            Refusal::CalibrationRange { cell } => [9, cell, 0],
            Refusal::NoGate { gate } => [10, gate, 0],
            Refusal::LateStart { gate } => [11, gate, 0],
            Refusal::GreatChoice { gate } => [12, gate, 0],
            Refusal::NoHome { label } => [21, label, 0],
            Refusal::SharedHome { lower, higher } => [22, lower, higher],
            Refusal::NoTiming { gate } => [23, gate, 0],
            Refusal::ChoiceNotOffered { gate } => [24, gate, 0],
            Refusal::Dependence { earlier, later } => [25, earlier, later],
            Refusal::Collision { lower, higher } => [26, lower, higher],
            Refusal::Window { gate, cell } => [27, gate, cell],
            Refusal::NoRoom => [31, 0, 0],
            Refusal::NoWire { place } => [41, place, 0],
            Refusal::KindNotTaken { place } => [42, place, 0],
            Refusal::TooManyH => [43, 0, 0],
            Refusal::Malformed => [51, 0, 0],
            Refusal::WrongState => [52, 0, 0],
        }
    }
}

impl std::fmt::Display for Refusal {
    fn fmt(&self, f: &mut std::fmt::Formatter<'_>) -> std::fmt::Result {
        let [number, first, second] = self.parts();
        write!(f, "{number} {first} {second}")
    }
}

impl std::error::Error for Refusal {}
