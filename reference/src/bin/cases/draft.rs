//! Boards as they are lent, what they are made of at random, and document 01's.

use crate::random::Random;
use reference::crowd::Bands;
use reference::crowd_samples::Lent;
use reference::frames::{Call, Framed, Part, PLACES};
use reference::minimums::Sample;
use reference::presence::Words;
use reference::samples::{Pair, PAIRS};
use reference::{Head, Lengths, Parts, Vectors, PRESENT};

/// Words of who is off or out. Every word but 1 is one.
const ABSENT: [u16; 8] = [0, 0, 0, 2, 7, 256, 257, 65535];

/// A board with what is lent of it, before damage is done to it.
#[derive(Clone)]
pub struct Draft {
    pub head: Head,
    pub words: Vectors,
    /// What the places after the given words hold.
    pub others: u16,
    pub lengths: Lengths,
}

impl Draft {
    pub fn new(random: &mut Random, operators: u16, rides: u16, pairs: &[Pair]) -> Self {
        let head = Head { operators, rides, pairs: pairs.len() as u16 };
        let (operators, rides) = pairs.iter().copied().unzip();
        let words = Vectors { operators, rides, ..Vectors::default() };
        Draft { head, words, others: random.word(), lengths: random.lengths(head) }
    }

    /// A small board, at times with no operator or no ride, or with one row as long as it may be.
    pub fn small(random: &mut Random) -> Self {
        let (operators, rides) = match random.below(40) {
            0 => (200, 1),
            1 => (1, 60),
            2 => (0, random.below(4) as u16),
            3 => (random.below(4) as u16, 0),
            _ => (1 + random.below(7) as u16, 1 + random.below(6) as u16),
        };
        let listed = random.pick(&[0, 1, 2, 3, 3, 4, 5, 6]);
        let pairs = random.table(operators, rides, listed, 6);
        Self::new(random, operators, rides, &pairs)
    }

    /// A board for limits to be tried on: a small one, or one in five times one with no operator or no ride.
    pub fn small_or_one_sided(random: &mut Random) -> Self {
        let nodes = random.below(4) as u16;
        match random.below(10) {
            0 => Self::new(random, 0, nodes, &[]),
            1 => Self::new(random, nodes, 0, &[]),
            _ => Self::small(random),
        }
    }

    pub fn parts(&self) -> Framed {
        let lengths = self.lengths.zip(PLACES).map_all(|(length, most)| length.min(most));
        self.words.view().zip(lengths).map(
            |(words, length)| Part::given(length, words, self.others),
            |(stamps, length)| Part::given(length, stamps, self.others as u32 * 65_537),
        )
    }

    pub fn build(&self, start: u32) -> Call {
        Call::Build { head: self.head, start, parts: self.parts() }
    }

    pub fn peel(&self, (alpha, beta): (u16, u16), steps: u16, minimums: Part<u16>, marks: Part<u16>) -> Call {
        let Parts { operators, rides, presence, .. } = self.parts();
        Call::Peel { head: self.head, alpha, beta, steps, operators, rides, presence, minimums, marks }
    }

    pub fn own_cover(&self, (alpha, beta): (u16, u16), minimums: Part<u16>, marks: Part<u16>) -> Call {
        let Parts { operators, rides, presence, .. } = self.parts();
        Call::OwnCover { head: self.head, alpha, beta, operators, rides, presence, minimums, marks }
    }

    pub fn crowd_cover(&self, (bands, guests): (Bands, u16), minimums: Part<u16>, marks: Part<u16>) -> Call {
        let Parts { operators, rides, presence, .. } = self.parts();
        Call::CrowdCover { head: self.head, guests, bands, operators, rides, presence, minimums, marks }
    }
}

/// Who is on and in: everybody, most, few or nobody.
pub fn presence_of(random: &mut Random, nodes: usize) -> Vec<u16> {
    let absent = random.pick(&[0, 1, 1, 2, 2, 5, 6]);
    (0..nodes).map(|_| if random.below(6) < absent { random.pick(&ABSENT) } else { PRESENT }).collect()
}

/// Limits at and around those that can be met; one in four is 0.
pub fn limit(random: &mut Random, most: u16) -> u16 {
    match random.below(8) {
        0..=1 => 0,
        2 => most.saturating_add(1),
        3 => random.pick(&[most.saturating_add(2), 65_535, most.max(1)]),
        _ => 1 + random.below(most.clamp(1, 4) as usize) as u16,
    }
}

/// One for the operators of a board, and one for its rides.
pub fn some_limits(random: &mut Random, head: Head) -> (u16, u16) {
    (limit(random, head.rides), limit(random, head.operators))
}

/// Document 01's board.
pub fn sample_draft(random: &mut Random) -> Draft {
    Draft::new(random, 4, 3, &PAIRS)
}

/// The same, with these words of presence.
pub fn with_presence(random: &mut Random, words: &Words) -> Draft {
    let mut draft = sample_draft(random);
    draft.words.presence = words.to_vec();
    draft
}

/// A board with this head, whether it fits the pairs or not, and with everybody on and in.
pub fn with_all(random: &mut Random, head: Head, pairs: &[Pair]) -> Draft {
    let mut draft = Draft::new(random, head.operators, head.rides, pairs);
    (draft.head, draft.words.presence) = (head, vec![PRESENT; head.nodes()]);
    draft
}

/// The board of a cover that was worked out by hand.
pub fn of_sample(random: &mut Random, sample: &Sample) -> Draft {
    let mut draft = Draft::new(random, sample.operators, sample.rides, sample.pairs);
    draft.words.presence = sample.presence.to_vec();
    draft
}

/// The same, lent as a sample says that may be refused for it.
pub fn of_lent(random: &mut Random, Lent { head, pairs, places, .. }: &Lent) -> Draft {
    let mut draft = with_all(random, *head, pairs);
    (draft.lengths.operators, draft.lengths.rides, draft.lengths.presence) = (places[0], places[1], places[2]);
    draft
}

/// A board that stays, lent in its whole length.
pub fn whole_parts(random: &mut Random, head: Head) -> Framed {
    Framed::kept(random.lengths(head))
}
