//! Document 02's own minimums of rides, worked out by hand: on document 01's board of `samples::PAIRS`, and on a board with
//! a coaster that needs five and a carousel that needs two.

use crate::presence::{Words, EVERYBODY, NEITHER, NOBODY, NO_OPERATOR_2, NO_RIDE_1, ODD};
use crate::samples::{counts, head, steps, Pair, BUILT, PAIRS};
use crate::Head;

/// A minimum for each of 3 rides.
pub type Three = [u16; 3];

const NONE: Three = [0; 3];

// Covers

/// A board, who is on and in, minimums and limits.
pub struct Sample {
    pub operators: u16,
    pub rides: u16,
    pub pairs: &'static [Pair],
    pub presence: &'static [u16],
    pub minimums: &'static [u16],
    pub limits: (u16, u16),
    /// What an own cover and a crowd cover mark, and a settled peel from all ones leaves.
    pub marks: &'static [u16],
}

impl Sample {
    pub fn head(&self) -> Head {
        head(self.operators, self.rides, self.pairs.len() as u16)
    }

    /// How many operators and rides are in.
    pub fn counts(&self) -> [u16; 2] {
        counts(self.operators, self.marks)
    }

    /// The steps of a settled peel from all ones.
    pub fn steps(&self) -> u16 {
        steps(self.marks)
    }
}

/// Document 01's board, with everybody on and in.
const fn all(minimums: &'static Three, limits: (u16, u16), marks: &'static Words) -> Sample {
    with(&EVERYBODY, minimums, limits, marks)
}

/// Document 01's board, with these words of presence.
const fn with(presence: &'static Words, minimums: &'static Three, limits: (u16, u16), marks: &'static Words) -> Sample {
    Sample { operators: 4, rides: 3, pairs: &PAIRS, presence, minimums, limits, marks }
}

/// A word for each of 6 operators, then for the coaster and the carousel.
type Park = [u16; 8];

/// Operators 0 to 4 are cleared for the coaster, ride 0, and operators 4 and 5 for the carousel, ride 1.
const fn park(
    presence: &'static Park,
    minimums: &'static [u16; 2],
    limits: (u16, u16),
    marks: &'static Park,
) -> Sample {
    const CLEARED: [Pair; 7] = [(0, 0), (1, 0), (2, 0), (3, 0), (4, 0), (4, 1), (5, 1)];
    Sample { operators: 6, rides: 2, pairs: &CLEARED, presence, minimums, limits, marks }
}

/// A board of three operators and no ride.
const fn without_rides(limits: (u16, u16), marks: &'static [u16; 3]) -> Sample {
    Sample { operators: 3, rides: 0, pairs: &[], presence: &[1; 3], minimums: &[], limits, marks }
}

/// A board of three rides and no operator.
const fn without_operators(minimums: &'static Three, limits: (u16, u16), marks: &'static [u16; 3]) -> Sample {
    Sample { operators: 0, rides: 3, pairs: &[], presence: &[1; 3], minimums, limits, marks }
}

pub const COVERS: &[Sample] = &[
    // Document 02's: ride 0 stays by its 2 with two operators; ride 1 goes by its 4 with three.
    all(&[2, 0, 0], (1, 3), &[1, 1, 1, 0, 1, 1, 0]),
    all(&NONE, (1, 3), &[1, 1, 1, 0, 0, 1, 0]),
    all(&[0, 4, 0], (1, 2), &[1, 1, 1, 1, 1, 0, 1]),
    all(&NONE, (1, 2), &EVERYBODY),
    // The rides have 2, 3, 2 operators: a minimum that is met, and one more.
    all(&[0, 3, 0], (1, 2), &EVERYBODY),
    all(&[2, 3, 2], (1, 1), &EVERYBODY),
    all(&[3, 0, 0], (1, 2), &[1, 1, 1, 1, 0, 1, 1]),
    all(&[0, 0, 3], (1, 2), &[1, 1, 1, 0, 1, 1, 0]),
    // The minimum of a ride is that at its own place.
    all(&[0, 0, 2], (1, 3), &[1, 1, 1, 1, 0, 1, 1]),
    all(&[0, 2, 0], (1, 4), &[1, 1, 1, 0, 0, 1, 0]),
    all(&[2, 4, 2], (1, 3), &[1, 1, 1, 1, 1, 0, 1]),
    // A smaller minimum goes first too, whatever beta is.
    all(&[1, 1, 1], (1, 65_535), &EVERYBODY),
    all(&[0, 3, 0], (1, 65_535), &[1, 1, 1, 0, 0, 1, 0]),
    all(&[1, 0, 0], (2, 65_535), &NOBODY),
    // Operator 3 has one ride. Ride 2 stays by its 1 with operator 2, who stays by it.
    all(&[0, 0, 1], (2, 2), &[1, 1, 1, 0, 1, 1, 1]),
    all(&NONE, (2, 2), &[1, 1, 0, 0, 1, 1, 0]),
    // Without ride 0 operators 0 and 1 have one ride, without them ride 1 has operator 2, and so on.
    all(&[3, 0, 0], (2, 2), &NOBODY),
    all(&[0, 4, 0], (2, 1), &NOBODY),
    // Beta 0 is no limit for the rides that have no minimum.
    all(&[0, 4, 0], (1, 0), &[1, 1, 1, 1, 1, 0, 1]),
    all(&[0, 0, 3], (1, 0), &[1, 1, 1, 0, 1, 1, 0]),
    all(&[0, 0, 65_535], (0, 0), &[1, 1, 1, 1, 1, 1, 0]),
    all(&[1, 0, 0], (65_535, 0), &[0, 0, 0, 0, 0, 1, 1]),
    all(&[0, 3, 0], (65_535, 0), &[0, 0, 0, 0, 1, 0, 1]),
    // With alpha 0 all operators are in.
    all(&[2, 0, 0], (0, 3), &[1, 1, 1, 1, 1, 1, 0]),
    all(&[65_535, 65_535, 65_535], (0, 0), &[1, 1, 1, 1, 0, 0, 0]),
    // 256 and 257 are no 0 and no 1.
    all(&[256, 0, 0], (1, 1), &[1, 1, 1, 1, 0, 1, 1]),
    all(&[257, 0, 0], (1, 1), &[1, 1, 1, 1, 0, 1, 1]),
    // All equal: covers (1, 3), (2, 2), (1, 4) and (0, 1).
    all(&[3, 3, 3], (1, 0), &[1, 1, 1, 0, 0, 1, 0]),
    all(&[2, 2, 2], (2, 9), &[1, 1, 0, 0, 1, 1, 0]),
    all(&[4, 4, 4], (1, 1), &NOBODY),
    all(&[1, 1, 1], (0, 65_535), &EVERYBODY),
    // Without operator 2 the rides have 2, 2, 1 operators.
    with(&NO_OPERATOR_2, &[2, 0, 0], (1, 3), &[1, 1, 0, 0, 1, 0, 0]),
    with(&NO_OPERATOR_2, &[0, 0, 1], (1, 2), &NO_OPERATOR_2),
    with(&NO_OPERATOR_2, &[0, 3, 0], (1, 1), &[1, 1, 0, 1, 1, 0, 1]),
    // A ride that is out falls short, whatever its minimum is.
    with(&NO_RIDE_1, &[0, 1, 0], (1, 2), &NO_RIDE_1),
    with(&NO_RIDE_1, &[0, 1, 0], (0, 0), &NO_RIDE_1),
    with(&NO_RIDE_1, &[2, 2, 2], (1, 3), &NO_RIDE_1),
    with(&NEITHER, &[0, 0, 1], (1, 2), &NEITHER),
    with(&NEITHER, &[3, 0, 0], (1, 1), &[0, 0, 0, 1, 0, 0, 1]),
    with(&NOBODY, &[1, 0, 2], (0, 0), &NOBODY),
    // Operator 1 and ride 1 are here.
    with(&ODD, &[0, 1, 0], (1, 5), &[0, 1, 0, 0, 0, 1, 0]),
    with(&ODD, &[0, 2, 0], (1, 0), &NOBODY),
    with(&ODD, &[0, 2, 0], (0, 0), &[0, 1, 0, 0, 0, 0, 0]),
    // The coaster has the five that it needs, the carousel its two.
    park(&[1; 8], &[5, 2], (1, 1), &[1; 8]),
    park(&[1; 8], &[6, 2], (1, 1), &[0, 0, 0, 0, 1, 1, 0, 1]),
    park(&[1; 8], &[5, 3], (1, 1), &[1, 1, 1, 1, 1, 0, 1, 0]),
    // Without operator 0 the coaster goes, without operator 5 the carousel, and without operator 4 both.
    park(&[0, 1, 1, 1, 1, 1, 1, 1], &[5, 2], (1, 1), &[0, 0, 0, 0, 1, 1, 0, 1]),
    park(&[0, 1, 1, 1, 1, 1, 1, 1], &[5, 2], (0, 1), &[0, 1, 1, 1, 1, 1, 0, 1]),
    park(&[0, 1, 1, 1, 1, 1, 1, 1], &[0, 0], (1, 2), &[0, 1, 1, 1, 1, 1, 1, 1]),
    park(&[1, 1, 1, 1, 1, 0, 1, 1], &[5, 2], (1, 1), &[1, 1, 1, 1, 1, 0, 1, 0]),
    park(&[1, 1, 1, 1, 0, 1, 1, 1], &[5, 2], (1, 1), &[0; 8]),
    // One has a minimum, and beta is for the other.
    park(&[1; 8], &[5, 0], (1, 2), &[1; 8]),
    park(&[1; 8], &[5, 0], (1, 3), &[1, 1, 1, 1, 1, 0, 1, 0]),
    park(&[1; 8], &[0, 2], (1, 5), &[1; 8]),
    park(&[1; 8], &[0, 2], (1, 6), &[0, 0, 0, 0, 1, 1, 0, 1]),
    // Operator 4 alone has two rides.
    park(&[1; 8], &[5, 2], (2, 1), &[0; 8]),
    park(&[1; 8], &[1, 0], (2, 1), &[0, 0, 0, 0, 1, 0, 1, 1]),
    // The list is empty.
    without_rides((0, 5), &[1, 1, 1]),
    without_rides((1, 0), &[0, 0, 0]),
    // No ride has an operator: one with a minimum is out.
    without_operators(&NONE, (3, 0), &[1, 1, 1]),
    without_operators(&[1, 0, 65_535], (0, 0), &[0, 1, 0]),
    without_operators(&[1, 0, 1], (0, 1), &[0, 0, 0]),
];

// Peels

/// A peel of document 01's board: words of presence, minimums, marks, limits, allowed steps, the answer's numbers, and the
/// marks that are left.
pub type Peel = (Words, Three, Words, (u16, u16), u16, [u16; 3], Words);

const RIDES_ALONE: Words = [0, 0, 0, 0, 1, 1, 1];

/// Peels that start from other marks than all ones, or are allowed few steps.
pub const PEELS: &[Peel] = &[
    // Ride 2 goes, and then operator 3.
    (EVERYBODY, [2, 0, 0], EVERYBODY, (1, 3), 0, [0, 0, 0], EVERYBODY),
    (EVERYBODY, [2, 0, 0], EVERYBODY, (1, 3), 1, [0, 0, 1], [1, 1, 1, 1, 1, 1, 0]),
    (EVERYBODY, [2, 0, 0], EVERYBODY, (1, 3), 2, [0, 1, 2], [1, 1, 1, 0, 1, 1, 0]),
    (EVERYBODY, [0, 4, 0], EVERYBODY, (1, 2), 0, [0, 0, 0], EVERYBODY),
    (EVERYBODY, [0, 4, 0], EVERYBODY, (1, 2), 1, [0, 1, 1], [1, 1, 1, 1, 1, 0, 1]),
    // Operator 3, ride 0, operators 0 and 1, ride 1, operator 2, ride 2.
    (EVERYBODY, [3, 0, 0], EVERYBODY, (2, 2), 2, [0, 0, 2], [1, 1, 1, 0, 0, 1, 1]),
    (EVERYBODY, [3, 0, 0], EVERYBODY, (2, 2), 3, [0, 0, 3], [0, 1, 1, 0, 0, 1, 1]),
    (EVERYBODY, [3, 0, 0], EVERYBODY, (2, 2), 5, [0, 0, 5], [0, 0, 1, 0, 0, 0, 1]),
    (EVERYBODY, [3, 0, 0], EVERYBODY, (2, 2), 6, [0, 0, 6], [0, 0, 0, 0, 0, 0, 1]),
    (EVERYBODY, [3, 0, 0], EVERYBODY, (2, 2), 7, [0, 1, 7], NOBODY),
    // The lowest-numbered ride that falls short goes first, by a minimum or by beta.
    (EVERYBODY, [0, 4, 65_535], EVERYBODY, (0, 1), 1, [0, 0, 1], [1, 1, 1, 1, 1, 0, 1]),
    (EVERYBODY, [0, 4, 65_535], EVERYBODY, (0, 1), 2, [0, 1, 2], [1, 1, 1, 1, 1, 0, 0]),
    (EVERYBODY, [0, 4, 0], EVERYBODY, (0, 3), 1, [0, 0, 1], [1, 1, 1, 1, 0, 1, 1]),
    // Without operator 1 the rides have 1, 2, 2 operators.
    (EVERYBODY, [1, 0, 0], [1, 0, 1, 1, 1, 1, 1], (0, 2), 0, [0, 1, 0], [1, 0, 1, 1, 1, 1, 1]),
    (EVERYBODY, [1, 3, 0], [1, 0, 1, 1, 1, 1, 1], (0, 2), 65_535, [0, 1, 1], [1, 0, 1, 1, 1, 0, 1]),
    (EVERYBODY, NONE, [1, 0, 1, 1, 1, 1, 1], (0, 2), 65_535, [0, 1, 1], [1, 0, 1, 1, 0, 1, 1]),
    // A minimum that ride 0 meets brings no mark back.
    (EVERYBODY, [1, 0, 1], [1, 1, 1, 1, 0, 1, 1], (1, 3), 65_535, [0, 1, 0], [1, 1, 1, 1, 0, 1, 1]),
    // No ride has an operator.
    (EVERYBODY, [1, 0, 0], RIDES_ALONE, (0, 0), 0, [0, 0, 0], RIDES_ALONE),
    (EVERYBODY, [1, 0, 0], RIDES_ALONE, (0, 0), 1, [0, 1, 1], [0, 0, 0, 0, 0, 1, 1]),
    (EVERYBODY, [0, 1, 2], RIDES_ALONE, (0, 0), 65_535, [0, 1, 2], [0, 0, 0, 0, 1, 0, 0]),
    // Whoever is off or out goes by a step of its own.
    (NO_RIDE_1, [0, 1, 0], EVERYBODY, (0, 0), 0, [0, 0, 0], EVERYBODY),
    (NO_RIDE_1, [0, 1, 0], EVERYBODY, (0, 0), 1, [0, 1, 1], NO_RIDE_1),
    (NO_OPERATOR_2, [0, 0, 1], EVERYBODY, (1, 2), 65_535, [0, 1, 1], NO_OPERATOR_2),
    (NO_OPERATOR_2, [0, 0, 2], EVERYBODY, (1, 1), 65_535, [0, 1, 3], [1, 1, 0, 0, 1, 1, 0]),
    // A mark of 2 is refused, whatever the minimums are.
    (EVERYBODY, [9, 9, 9], [1, 1, 1, 1, 1, 1, 2], (1, 1), 65_535, [12, 0, 0], [1, 1, 1, 1, 1, 1, 2]),
    (EVERYBODY, NONE, [2, 1, 1, 1, 1, 1, 1], (0, 0), 65_535, [12, 0, 0], [2, 1, 1, 1, 1, 1, 1]),
];

// Short lists

/// A head, so many places of minimums, and the number that a peel and the covers get, with every other part long enough.
pub type Short = (Head, usize, u16);

/// As far as a head counts them, the pairs are the board's.
pub const SHORT: &[Short] = &[
    // 3 rides need 3 places.
    (BUILT, 3, 0),
    (BUILT, 4, 0),
    (BUILT, 70, 0),
    (BUILT, 2, 3),
    (BUILT, 0, 3),
    // 60 need 60.
    (head(4, 60, 7), 60, 0),
    (head(4, 60, 7), 59, 3),
    (head(4, 60, 7), 4, 3),
    // Without a ride none is needed, and operators need none.
    (head(3, 0, 0), 0, 0),
    (head(200, 1, 0), 1, 0),
    (head(200, 1, 0), 0, 3),
    (head(0, 3, 0), 3, 0),
    (head(0, 3, 0), 2, 3),
    // 1 and 2 come before 3, and 4 after it.
    (head(201, 3, 7), 2, 1),
    (head(201, 61, 7), 60, 1),
    (head(4, 61, 7), 60, 2),
    (head(4, 61, 7), 61, 2),
    (head(4, 3, 13), 2, 3),
    (head(4, 3, 13), 3, 4),
    (head(4, 3, 13), 70, 4),
];
