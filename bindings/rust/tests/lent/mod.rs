//! Lent parts of any lengths.

use board::{Parts, Words};

#[derive(Clone, Debug, PartialEq, Eq)]
pub struct Lent {
    pub operators: Vec<u16>,
    pub rides: Vec<u16>,
    pub stamps: Vec<u32>,
    pub revisions: Vec<u16>,
    pub index: Vec<u16>,
    pub presence_stamps: Vec<u32>,
    pub presence_revisions: Vec<u16>,
    pub presence: Vec<u16>,
}

impl Lent {
    /// Parts of these lengths, filled with a word that no build of a small board leaves.
    pub fn new(lengths: [usize; 8]) -> Lent {
        let [operators, rides, stamps, revisions, index, presence_stamps, presence_revisions, presence] = lengths;
        Lent {
            operators: vec![777; operators],
            rides: vec![777; rides],
            stamps: vec![777; stamps],
            revisions: vec![777; revisions],
            index: vec![777; index],
            presence_stamps: vec![777; presence_stamps],
            presence_revisions: vec![777; presence_revisions],
            presence: vec![777; presence],
        }
    }

    pub fn lengths(&self) -> [usize; 8] {
        [
            self.operators.len(),
            self.rides.len(),
            self.stamps.len(),
            self.revisions.len(),
            self.index.len(),
            self.presence_stamps.len(),
            self.presence_revisions.len(),
            self.presence.len(),
        ]
    }

    /// The first places of each part.
    pub fn first(&mut self, lengths: [usize; 8]) -> Parts<'_> {
        let [operators, rides, stamps, revisions, index, presence_stamps, presence_revisions, presence] = lengths;
        Parts {
            operators: &mut self.operators[..operators],
            rides: &mut self.rides[..rides],
            stamps: &mut self.stamps[..stamps],
            revisions: &mut self.revisions[..revisions],
            index: &mut self.index[..index],
            presence_stamps: &mut self.presence_stamps[..presence_stamps],
            presence_revisions: &mut self.presence_revisions[..presence_revisions],
            presence: &mut self.presence[..presence],
        }
    }

    pub fn parts(&mut self) -> Parts<'_> {
        self.first(self.lengths())
    }
}

/// A copy of a board's words.
impl From<Words<'_>> for Lent {
    fn from(words: Words) -> Lent {
        Lent {
            operators: words.operators.to_vec(),
            rides: words.rides.to_vec(),
            stamps: words.stamps.to_vec(),
            revisions: words.revisions.to_vec(),
            index: words.index.to_vec(),
            presence_stamps: words.presence_stamps.to_vec(),
            presence_revisions: words.presence_revisions.to_vec(),
            presence: words.presence.to_vec(),
        }
    }
}
