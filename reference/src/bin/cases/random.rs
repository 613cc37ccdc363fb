//! The random numbers that every case is made of, and the tables and lent parts that they give.

use reference::frames::Part;
use reference::samples::Pair;
use reference::{Head, Lengths, Parts};

/// Words that are near an edge of 16 bits, of a size or of a mark.
const ODD_WORDS: [u16; 8] = [0, 1, 2, 7, 255, 256, 32768, 65535];

/// The generator splitmix64.
pub struct Random(pub u64);

impl Random {
    pub fn next(&mut self) -> u64 {
        self.0 = self.0.wrapping_add(0x9e37_79b9_7f4a_7c15);
        let mut z = self.0;
        z = (z ^ (z >> 30)).wrapping_mul(0xbf58_476d_1ce4_e5b9);
        z = (z ^ (z >> 27)).wrapping_mul(0x94d0_49bb_1331_11eb);
        z ^ (z >> 31)
    }

    pub fn below(&mut self, n: usize) -> usize {
        (self.next() % n as u64) as usize
    }

    pub fn one_in(&mut self, n: usize) -> bool {
        self.below(n) == 0
    }

    pub fn pick<T: Copy>(&mut self, from: &[T]) -> T {
        from[self.below(from.len())]
    }

    pub fn word(&mut self) -> u16 {
        if self.one_in(3) {
            self.next() as u16
        } else {
            self.pick(&ODD_WORDS)
        }
    }

    pub fn shuffle<T>(&mut self, items: &mut [T]) {
        for last in (1..items.len()).rev() {
            items.swap(last, self.below(last + 1));
        }
    }

    /// A table in which about `listed` of `of` pairs are listed, in ascending order.
    pub fn table(&mut self, operators: u16, rides: u16, listed: usize, of: usize) -> Vec<Pair> {
        let all = (0..operators).flat_map(|o| (0..rides).map(move |r| (o, r)));
        all.filter(|_| self.below(of) < listed).collect()
    }

    /// A table with exactly so many pairs.
    pub fn table_of(&mut self, operators: u16, rides: u16, pairs: usize) -> Vec<Pair> {
        let mut all: Vec<Pair> = (0..operators).flat_map(|o| (0..rides).map(move |r| (o, r))).collect();
        self.shuffle(&mut all);
        all.truncate(pairs);
        all.sort_unstable();
        all
    }

    /// A length that is at least the one needed.
    pub fn length(&mut self, needed: usize) -> usize {
        needed + self.pick(&[0, 0, 1, 2, 5])
    }

    /// A part that is at least as long as needed, with one word at all places.
    pub fn filled(&mut self, needed: usize) -> Part<u16> {
        Part::filled(self.length(needed), self.word())
    }

    /// These words, and one at all places past them.
    pub fn given(&mut self, words: &[u16]) -> Part<u16> {
        Part::given(self.length(words.len()), words, self.word())
    }

    /// A generator of its own, for what document 02 adds to a call: what other calls and `cover` are given doesn't depend
    /// on it.
    pub fn others(&self) -> Random {
        Random(!self.0)
    }

    /// For each part of a board a length that is at least the one needed.
    pub fn lengths(&mut self, head: Head) -> Lengths {
        let needed = head.lengths();
        let mut others = self.others();
        Parts {
            operators: self.length(needed.operators),
            rides: self.length(needed.rides),
            stamps: self.length(needed.stamps),
            revisions: others.length(needed.revisions),
            index: self.length(needed.index),
            presence_stamps: others.length(needed.presence_stamps),
            presence_revisions: others.length(needed.presence_revisions),
            presence: others.length(needed.presence),
        }
    }

    /// A length that is too short, where there is one.
    pub fn short(&mut self, needed: usize) -> usize {
        match needed {
            0 => 0,
            _ if self.one_in(2) => needed - 1,
            _ => self.below(needed),
        }
    }
}
