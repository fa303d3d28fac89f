//! Gate registers.
//!
//! A register has wires and a state, takes a fixed set of kinds, and counts the H done.

use crate::gate::Kind;
use crate::refusal::Refusal;

/// A kind with the wires that it acts on; only a CNOT looks at the second.
pub type Action = (Kind, usize, usize);

/// What a plain gate does to its wire.
#[derive(Debug, Clone, Copy, PartialEq, Eq)]
pub struct Plain {
    pub flips: bool,
    /// The turn where the wire is 0 before the gate, and where it is 1.
    pub turns: [u8; 2],
}

/// The row of a plain gate, none for the other kinds.
pub fn plain(kind: Kind) -> Option<Plain> {
    let (flips, turns) = match kind {
        Kind::X => (true, [0, 0]),
        Kind::Y => (true, [2, 6]),
        Kind::Z => (false, [0, 4]),
        Kind::S => (false, [0, 2]),
        Kind::T => (false, [0, 1]),
        Kind::H | Kind::C | Kind::R => return None,
    };
    Some(Plain { flips, turns })
}

/// What all registers have in common.
pub trait Register {
    /// How many wires there are.
    fn wires(&self) -> usize;

    /// Whether the register takes a kind.
    fn takes(&self, kind: Kind) -> bool;

    /// How many more H it may do.
    fn h_left(&self) -> u32;

    /// Does an action that is not refused.
    fn act(&mut self, action: Action);

    /// Applies an action that stands alone.
    fn apply(&mut self, action: Action) -> Result<(), Refusal>
    where
        Self: Sized,
    {
        self.apply_all([action].into_iter())
    }

    /// Applies all actions, or none where one is refused; the refusal names the lowest position of the first test that fails.
    fn apply_all(&mut self, actions: impl Iterator<Item = Action> + Clone) -> Result<(), Refusal>
    where
        Self: Sized,
    {
        let first_that = |fails: &dyn Fn(Action) -> bool| {
            actions.clone().position(fails).map(|position| position as u32)
        };
        if let Some(place) = first_that(&|action| !is_on_wires(action, self.wires())) {
            return Err(Refusal::NoWire { place });
        }
        if let Some(place) = first_that(&|action| !self.takes(action.0)) {
            return Err(Refusal::KindNotTaken { place });
        }
        let h_more = actions.clone().filter(|action| action.0 == Kind::H).count();
        if h_more > self.h_left() as usize {
            return Err(Refusal::TooManyH);
        }
        actions.for_each(|action| self.act(action));
        Ok(())
    }
}

/// Whether an action is on wires below a number, a CNOT on two.
fn is_on_wires((kind, first, second): Action, wires: usize) -> bool {
    match kind {
        Kind::C => first < wires && second < wires && first != second,
        _ => first < wires,
    }
}

/// One bit for each of at most 64 wires and a turn; all kinds but H.
#[derive(Debug, Clone, Copy, PartialEq, Eq)]
pub struct PhaseRegister {
    wires: usize,
    bits: u64,
    turn: u8,
}

impl PhaseRegister {
    pub const GREATEST_WIRES: usize = 64;

    /// A blank register, if it may have so many wires.
    pub fn blank(wires: usize) -> Option<PhaseRegister> {
        (wires <= Self::GREATEST_WIRES).then_some(PhaseRegister { wires, bits: 0, turn: 0 })
    }

    /// The bits: bit w is wire w.
    pub fn bits(&self) -> u64 {
        self.bits
    }

    /// The turn, 0 to 7.
    pub fn turn(&self) -> u8 {
        self.turn
    }
}

impl Register for PhaseRegister {
    fn wires(&self) -> usize {
        self.wires
    }

    fn takes(&self, kind: Kind) -> bool {
        kind != Kind::H
    }

    fn h_left(&self) -> u32 {
        0
    }

    fn act(&mut self, (kind, first, second): Action) {
        let bit = self.bits >> first & 1;
        if let Some(plain) = plain(kind) {
            self.turn = (self.turn + plain.turns[bit as usize]) % 8;
            self.bits ^= u64::from(plain.flips) << first;
        } else if kind == Kind::C {
            self.bits ^= bit << second;
        }
    }
}

/// A word for each of at most 32 wires, which tells the wires it is joined from; X, C and R.
#[derive(Debug, Clone, PartialEq, Eq)]
pub struct ParityRegister {
    words: Vec<u64>,
}

impl ParityRegister {
    pub const GREATEST_WIRES: usize = 32;
    /// What a flip joins to a word.
    pub const MARK: u64 = 1 << 32;

    /// A blank register, if it may have so many wires.
    pub fn blank(wires: usize) -> Option<ParityRegister> {
        let words = || (0..wires).map(|wire| 1 << wire).collect();
        (wires <= Self::GREATEST_WIRES).then(|| ParityRegister { words: words() })
    }

    /// The word of each wire.
    pub fn words(&self) -> &[u64] {
        &self.words
    }
}

impl Register for ParityRegister {
    fn wires(&self) -> usize {
        self.words.len()
    }

    fn takes(&self, kind: Kind) -> bool {
        matches!(kind, Kind::X | Kind::C | Kind::R)
    }

    fn h_left(&self) -> u32 {
        0
    }

    fn act(&mut self, (kind, first, second): Action) {
        match kind {
            Kind::X => self.words[first] ^= Self::MARK,
            Kind::C => self.words[second] ^= self.words[first],
            _ => {}
        }
    }
}

/// a + bω + cω² + dω³ in whole numbers, where ω⁴ = −1.
pub type Amplitude = [i64; 4];

/// An amplitude for each index, of which bit w is wire w, of at most 10 wires; all kinds.
///
/// Each H at most doubles the greatest of the whole numbers, so 60 of them stay within an `i64`.
#[derive(Debug, Clone, PartialEq, Eq)]
pub struct AmplitudeRegister {
    wires: usize,
    amplitudes: Vec<Amplitude>,
    h_done: u32,
}

impl AmplitudeRegister {
    pub const GREATEST_WIRES: usize = 10;
    pub const GREATEST_H: u32 = 60;

    /// A blank register, if it may have so many wires.
    pub fn blank(wires: usize) -> Option<AmplitudeRegister> {
        if wires > Self::GREATEST_WIRES {
            return None;
        }
        let mut amplitudes = vec![[0; 4]; 1 << wires];
        amplitudes[0] = [1, 0, 0, 0];
        Some(AmplitudeRegister { wires, amplitudes, h_done: 0 })
    }

    /// The amplitude of each index.
    pub fn amplitudes(&self) -> &[Amplitude] {
        &self.amplitudes
    }

    /// How many H were done.
    pub fn h_done(&self) -> u32 {
        self.h_done
    }

    /// Changes the amplitudes of every two indices that differ in one wire only, the one where
    /// the wire is 0 first.
    fn on_pairs(&mut self, wire: usize, change: impl Fn(&mut Amplitude, &mut Amplitude)) {
        for block in self.amplitudes.chunks_exact_mut(2 << wire) {
            let (zeros, ones) = block.split_at_mut(1 << wire);
            zeros.iter_mut().zip(ones).for_each(|(zero, one)| change(zero, one));
        }
    }

    fn plain(&mut self, wire: usize, Plain { flips, turns }: Plain) {
        match (flips, turns) {
            (true, [0, 0]) => self.on_pairs(wire, std::mem::swap),
            (true, [from_zero, from_one]) => self.on_pairs(wire, |zero, one| {
                (*zero, *one) = (turned(*one, from_one), turned(*zero, from_zero));
            }),
            (false, [from_zero, from_one]) => self.on_pairs(wire, |zero, one| {
                (*zero, *one) = (turned(*zero, from_zero), turned(*one, from_one));
            }),
        }
    }

    fn cnot(&mut self, control: usize, target: usize) {
        let (control, target) = (1 << control, 1 << target);
        for index in 0..self.amplitudes.len() {
            if index & control != 0 && index & target == 0 {
                self.amplitudes.swap(index, index | target);
            }
        }
    }
}

/// An amplitude times ω to the `turn`, which is below 8.
fn turned([a, b, c, d]: Amplitude, turn: u8) -> Amplitude {
    match turn {
        0 => [a, b, c, d],
        1 => [-d, a, b, c],
        2 => [-c, -d, a, b],
        3 => [-b, -c, -d, a],
        4 => [-a, -b, -c, -d],
        5 => [d, -a, -b, -c],
        6 => [c, d, -a, -b],
        _ => [b, c, d, -a],
    }
}

impl Register for AmplitudeRegister {
    fn wires(&self) -> usize {
        self.wires
    }

    fn takes(&self, _: Kind) -> bool {
        true
    }

    fn h_left(&self) -> u32 {
        Self::GREATEST_H - self.h_done
    }

    fn act(&mut self, (kind, first, second): Action) {
        match kind {
            Kind::H => {
                self.h_done += 1;
                self.on_pairs(first, |zero, one| {
                    for (z, o) in zero.iter_mut().zip(one) {
                        (*z, *o) = (*z + *o, *z - *o);
                    }
                });
            }
            Kind::C => self.cnot(first, second),
            Kind::R => {}
            kind => {
                if let Some(row) = plain(kind) {
                    self.plain(first, row);
                }
            }
        }
    }
}

#[cfg(test)]
mod tests {
    use super::*;

    fn swap(register: &mut impl Register, a: usize, b: usize) {
        for (control, target) in [(a, b), (b, a), (a, b)] {
            register.apply((Kind::C, control, target)).unwrap();
        }
    }

    #[test]
    fn a_swap_done_twice_leaves_the_state() {
        let mut register = AmplitudeRegister::blank(3).unwrap();
        for kind in [Kind::H, Kind::T, Kind::Y, Kind::S, Kind::H] {
            register.apply((kind, 1, 0)).unwrap();
        }
        let before = register.clone();
        swap(&mut register, 1, 2);
        assert_ne!(register, before);
        swap(&mut register, 1, 2);
        assert_eq!(register, before);
    }

    #[test]
    fn eight_turns_are_none() {
        let amplitude = [1, 2, 3, 4];
        let turn_by_one = |a, _| turned(a, 1);
        for n in 0..8 {
            assert_eq!((0..n).fold(amplitude, turn_by_one), turned(amplitude, n));
        }
        assert_eq!((0..8).fold(amplitude, turn_by_one), amplitude);
    }

    /// The phase register and the amplitude register agree on every short program without H.
    #[test]
    fn phase_and_amplitude_agree() {
        let actions: Vec<Action> = Kind::ALL[1..6]
            .iter()
            .flat_map(|&kind| [(kind, 0, 0), (kind, 1, 0)])
            .chain([(Kind::C, 0, 1), (Kind::C, 1, 0)])
            .collect();
        for a in &actions {
            for b in &actions {
                for c in &actions {
                    let mut phase = PhaseRegister::blank(2).unwrap();
                    let mut amplitude = AmplitudeRegister::blank(2).unwrap();
                    for action in [*a, *b, *c] {
                        phase.apply(action).unwrap();
                        amplitude.apply(action).unwrap();
                    }
                    let mut expected = vec![[0; 4]; 4];
                    expected[phase.bits() as usize] = turned([1, 0, 0, 0], phase.turn());
                    assert_eq!(amplitude.amplitudes(), expected);
                }
            }
        }
    }

    #[test]
    fn refusals_come_in_order() {
        let mut phase = PhaseRegister::blank(2).unwrap();
        assert_eq!(phase.apply((Kind::H, 2, 0)), Err(Refusal::NoWire { place: 0 }));
        assert_eq!(phase.apply((Kind::H, 1, 0)), Err(Refusal::KindNotTaken { place: 0 }));
        assert_eq!(phase.apply((Kind::C, 1, 1)), Err(Refusal::NoWire { place: 0 }));
        let mut amplitude = AmplitudeRegister::blank(1).unwrap();
        let all = std::iter::repeat((Kind::H, 0, 0));
        assert_eq!(amplitude.apply_all(all.clone().take(61)), Err(Refusal::TooManyH));
        assert_eq!(amplitude.apply_all(all.take(60)), Ok(()));
        assert_eq!(amplitude.amplitudes()[0], [1 << 30, 0, 0, 0]);
        assert_eq!(amplitude.apply((Kind::H, 0, 0)), Err(Refusal::TooManyH));
    }
}
