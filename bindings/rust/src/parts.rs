//! The parts of a board as a caller lends them, and memory for them.

use crate::{index_places, mark_places, pair_places};
use crate::{Refusal, OPERATORS_MOST, RIDES_MOST};

const PAIR_PLACES: usize = pair_places(OPERATORS_MOST, RIDES_MOST);
const INDEX_PLACES: usize = index_places(OPERATORS_MOST, RIDES_MOST);
pub(crate) const MARK_PLACES: usize = mark_places(OPERATORS_MOST, RIDES_MOST);

/// The parts of a board, lent. Each may be longer than the board needs.
#[derive(Debug)]
pub struct Parts<'m> {
    /// The operator numbers of the pairs, [`pair_places`] long.
    pub operators: &'m mut [u16],
    /// The ride numbers of the pairs, [`pair_places`] long.
    pub rides: &'m mut [u16],
    /// The stamp of each pair, listed or not, [`pair_places`] long.
    pub stamps: &'m mut [u32],
    /// The revision of each pair, listed or not, [`pair_places`] long.
    pub revisions: &'m mut [u16],
    /// The levels, [`index_places`] long.
    pub index: &'m mut [u16],
    /// The presence stamp of each operator and each ride, [`mark_places`] long.
    pub presence_stamps: &'m mut [u32],
    /// The presence revision of each operator and each ride, [`mark_places`] long.
    pub presence_revisions: &'m mut [u16],
    /// The presence word of each operator and each ride, [`mark_places`] long.
    pub presence: &'m mut [u16],
}

impl Parts<'_> {
    /// The same parts, to be read.
    pub fn words(&self) -> Words<'_> {
        Words {
            operators: self.operators,
            rides: self.rides,
            stamps: self.stamps,
            revisions: self.revisions,
            index: self.index,
            presence_stamps: self.presence_stamps,
            presence_revisions: self.presence_revisions,
            presence: self.presence,
        }
    }

    /// The lowest number that a build of these pairs gives. The exported build reads the pairs in the pair arrays; this
    /// one reads them before they are written there.
    pub(crate) fn check_build(
        &self,
        operators: u16,
        rides: u16,
        pairs: &[(u16, u16)],
        start: u32,
    ) -> Result<(), Refusal> {
        let (places, nodes) = (pair_places(operators, rides), mark_places(operators, rides));
        let shortest = self.operators.len().min(self.rides.len()).min(self.stamps.len()).min(self.revisions.len());
        let shortest_of_nodes = self.presence_stamps.len().min(self.presence_revisions.len()).min(self.presence.len());
        if OPERATORS_MOST < operators {
            return Err(Refusal::OperatorsOver);
        }
        if RIDES_MOST < rides {
            return Err(Refusal::RidesOver);
        }
        if shortest < places || shortest_of_nodes < nodes || self.index.len() < index_places(operators, rides) {
            return Err(Refusal::PartShort);
        }
        if places < pairs.len() {
            return Err(Refusal::PairsOver);
        }
        let in_range = pairs.iter().all(|&(operator, ride)| operator < operators && ride < rides);
        if !in_range || !pairs.windows(2).all(|two| two[0] < two[1]) {
            return Err(Refusal::PairMisplaced);
        }
        if start == 0 {
            return Err(Refusal::StampZero);
        }
        Ok(())
    }
}

/// Memory for the parts of any board, up to 200 operators and 60 rides. `new` is const, so that it can stand in a static.
pub struct Memory {
    operators: [u16; PAIR_PLACES],
    rides: [u16; PAIR_PLACES],
    stamps: [u32; PAIR_PLACES],
    revisions: [u16; PAIR_PLACES],
    index: [u16; INDEX_PLACES],
    presence_stamps: [u32; MARK_PLACES],
    presence_revisions: [u16; MARK_PLACES],
    presence: [u16; MARK_PLACES],
}

impl Memory {
    /// Memory filled with zeros. It holds no board until one is built in it.
    pub const fn new() -> Memory {
        Memory {
            operators: [0; PAIR_PLACES],
            rides: [0; PAIR_PLACES],
            stamps: [0; PAIR_PLACES],
            revisions: [0; PAIR_PLACES],
            index: [0; INDEX_PLACES],
            presence_stamps: [0; MARK_PLACES],
            presence_revisions: [0; MARK_PLACES],
            presence: [0; MARK_PLACES],
        }
    }

    /// Lends every part in its whole length.
    pub fn parts(&mut self) -> Parts<'_> {
        Parts {
            operators: &mut self.operators,
            rides: &mut self.rides,
            stamps: &mut self.stamps,
            revisions: &mut self.revisions,
            index: &mut self.index,
            presence_stamps: &mut self.presence_stamps,
            presence_revisions: &mut self.presence_revisions,
            presence: &mut self.presence,
        }
    }
}

impl Default for Memory {
    fn default() -> Memory {
        Memory::new()
    }
}

/// The words of a board: its parts, to be read.
#[derive(Clone, Copy, Debug, PartialEq, Eq)]
pub struct Words<'b> {
    /// The operator numbers of the pairs, then zeros.
    pub operators: &'b [u16],
    /// The ride numbers of the pairs, then zeros.
    pub rides: &'b [u16],
    /// The stamp of each pair, listed or not.
    pub stamps: &'b [u32],
    /// The revision of each pair, listed or not.
    pub revisions: &'b [u16],
    /// The levels.
    pub index: &'b [u16],
    /// The presence stamp of each operator, then each ride.
    pub presence_stamps: &'b [u32],
    /// The presence revision of each operator, then each ride.
    pub presence_revisions: &'b [u16],
    /// The presence word of each operator, then each ride: [`PRESENT`](crate::PRESENT) for on or in, any other for off or out.
    pub presence: &'b [u16],
}

impl<'b> Words<'b> {
    /// What a [`peel`](crate::peel), an [`own_cover`](crate::own_cover) and a [`crowd_cover`](crate::crowd_cover) read.
    pub fn clearances(&self) -> Clearances<'b> {
        Clearances { operators: self.operators, rides: self.rides, presence: self.presence }
    }
}

/// Who is cleared for which ride, and who is on and in: what a [`peel`](crate::peel), an [`own_cover`](crate::own_cover)
/// and a [`crowd_cover`](crate::crowd_cover) read of a board. They use no index.
#[derive(Clone, Copy, Debug, PartialEq, Eq)]
pub struct Clearances<'b> {
    /// The operator numbers of the pairs, [`pair_places`] long.
    pub operators: &'b [u16],
    /// The ride numbers of the pairs, [`pair_places`] long.
    pub rides: &'b [u16],
    /// The presence word of each operator and each ride, [`mark_places`] long.
    pub presence: &'b [u16],
}
