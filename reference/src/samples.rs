//! Document 02's limits from 0 on boards that are small enough to work each cover out by hand.

use crate::Head;

/// An operator and a ride.
pub type Pair = (u16, u16);

/// The pairs of document 01's board of 4 operators and 3 rides. An operator is cleared for 2, 2, 2, 1 rides, a ride has
/// 2, 3, 2 operators. Row 1 is 3 3 3 2, then 2 3 2; row 2 is 2 2 1 0, then 2 2 1; row 3 is all 0.
pub const PAIRS: [Pair; 7] = [(0, 0), (0, 1), (1, 0), (1, 1), (2, 1), (2, 2), (3, 2)];

/// The head of that board, and the stamp that it is built at where messages follow.
pub const BUILT: Head = head(4, 3, 7);
pub const START: u32 = 5;

pub const fn head(operators: u16, rides: u16, pairs: u16) -> Head {
    Head { operators, rides, pairs }
}

/// A board, limits, and who is in.
pub struct Sample {
    pub operators: u16,
    pub rides: u16,
    pub pairs: &'static [Pair],
    pub alpha: u16,
    pub beta: u16,
    /// What a query after a build, a settled peel from all ones and a crowd cover leave.
    pub marks: &'static [u16],
    /// What `cover` prints.
    pub text: &'static str,
}

impl Sample {
    pub fn head(&self) -> Head {
        Head { operators: self.operators, rides: self.rides, pairs: self.pairs.len() as u16 }
    }

    /// How many operators and rides are in.
    pub fn counts(&self) -> [u16; 2] {
        counts(self.operators, self.marks)
    }

    /// The steps of a settled peel from all ones.
    pub fn steps(&self) -> u16 {
        steps(self.marks)
    }
}

/// How many operators and rides are marked, of so many operators.
pub fn counts(operators: u16, marks: &[u16]) -> [u16; 2] {
    let (operators, rides) = marks.split_at(operators as usize);
    [operators.iter().sum(), rides.iter().sum()]
}

/// The steps of a peel from all ones that settles at these marks: one for each who is not in.
pub fn steps(marks: &[u16]) -> u16 {
    marks.iter().map(|mark| 1 - mark).sum()
}

/// Document 01's board.
const fn sample(alpha: u16, beta: u16, marks: &'static [u16; 7], text: &'static str) -> Sample {
    Sample { operators: 4, rides: 3, pairs: &PAIRS, alpha, beta, marks, text }
}

/// A board of two operators and one ride, all cleared: row 1, the only one, is 2 2, then 2.
const fn full(alpha: u16, beta: u16, marks: &'static [u16; 3], text: &'static str) -> Sample {
    Sample { operators: 2, rides: 1, pairs: &[(0, 0), (1, 0)], alpha, beta, marks, text }
}

/// A board of three operators and no ride: there is no pair, and the index has no row.
const fn without_rides(alpha: u16, beta: u16, marks: &'static [u16; 3], text: &'static str) -> Sample {
    Sample { operators: 3, rides: 0, pairs: &[], alpha, beta, marks, text }
}

/// A board of three rides and no operator: there is no pair, and the three rows of the index are all 0.
const fn without_operators(alpha: u16, beta: u16, marks: &'static [u16; 3], text: &'static str) -> Sample {
    Sample { operators: 0, rides: 3, pairs: &[], alpha, beta, marks, text }
}

pub const LIMITS_FROM_0: &[Sample] = &[
    // All operators. The rides' row 1 levels 2 3 2 are all at least 2.
    sample(
        0,
        2,
        &[1, 1, 1, 1, 1, 1, 1],
        "cover 0 2 4 3\noperator 0 3\noperator 1 3\noperator 2 3\noperator 3 2\nride 0 2\nride 1 3\nride 2 2\n",
    ),
    // All rides. Of the operators' row 2 levels 2 2 1 0 the first three are at least 1.
    sample(
        2,
        0,
        &[1, 1, 1, 0, 1, 1, 1],
        "cover 2 0 3 3\noperator 0 2\noperator 1 2\noperator 2 1\nride 0 2\nride 1 2\nride 2 1\n",
    ),
    // Everyone, with the levels of row 1.
    sample(
        0,
        0,
        &[1, 1, 1, 1, 1, 1, 1],
        "cover 0 0 4 3\noperator 0 3\noperator 1 3\noperator 2 3\noperator 3 2\nride 0 2\nride 1 3\nride 2 2\n",
    ),
    // All operators. Of the rides' row 1 levels 2 3 2 only the second is at least 3.
    sample(
        0,
        3,
        &[1, 1, 1, 1, 0, 1, 0],
        "cover 0 3 4 1\noperator 0 3\noperator 1 3\noperator 2 3\noperator 3 2\nride 1 3\n",
    ),
    // All operators, and no ride: no row 1 level is 4.
    sample(0, 4, &[1, 1, 1, 1, 0, 0, 0], "cover 0 4 4 0\noperator 0 3\noperator 1 3\noperator 2 3\noperator 3 2\n"),
    // The rides alone: row 3 is all 0.
    sample(3, 0, &[0, 0, 0, 0, 1, 1, 1], "cover 3 0 0 3\nride 0 0\nride 1 0\nride 2 0\n"),
    // The rides alone: there is no row 4 and no row 9.
    sample(4, 0, &[0, 0, 0, 0, 1, 1, 1], "cover 4 0 0 3\nride 0 0\nride 1 0\nride 2 0\n"),
    sample(9, 0, &[0, 0, 0, 0, 1, 1, 1], "cover 9 0 0 3\nride 0 0\nride 1 0\nride 2 0\n"),
    // Both operators' row 1 levels are at least 1.
    full(1, 0, &[1, 1, 1], "cover 1 0 2 1\noperator 0 2\noperator 1 2\nride 0 2\n"),
    // The ride alone, with level 0: there is no row 2.
    full(2, 0, &[0, 0, 1], "cover 2 0 0 1\nride 0 0\n"),
    // All operators, with level 0: there is no row 1.
    without_rides(0, 0, &[1, 1, 1], "cover 0 0 3 0\noperator 0 0\noperator 1 0\noperator 2 0\n"),
    without_rides(0, 5, &[1, 1, 1], "cover 0 5 3 0\noperator 0 0\noperator 1 0\noperator 2 0\n"),
    // Nobody: no operator has a ride, and there is no ride.
    without_rides(1, 0, &[0, 0, 0], "cover 1 0 0 0\n"),
    // All rides, with level 0.
    without_operators(0, 0, &[1, 1, 1], "cover 0 0 0 3\nride 0 0\nride 1 0\nride 2 0\n"),
    without_operators(3, 0, &[1, 1, 1], "cover 3 0 0 3\nride 0 0\nride 1 0\nride 2 0\n"),
    // Nobody: no ride has an operator, and there is no operator.
    without_operators(0, 1, &[0, 0, 0], "cover 0 1 0 0\n"),
];

/// Words that are the index of no board of 2 operators and 2 rides. Row 1 is 0 5, then 0 7; row 2 is 1 0, then 9 0.
pub const NO_INDEX: [u16; 8] = [0, 5, 0, 7, 1, 0, 9, 0];

/// Limits, and the marks of a query that goes by these words.
pub const BY_NO_INDEX: &[(u16, u16, [u16; 4])] = &[
    // All operators; of the rides' 0 7 in row 1 the second is at least 1, and at least 7, and none is at least 8.
    (0, 1, [1, 1, 0, 1]),
    (0, 7, [1, 1, 0, 1]),
    (0, 8, [1, 1, 0, 0]),
    // All rides; of the operators' 0 5 in row 1 the second is at least 1, of their 1 0 in row 2 the first.
    (1, 0, [0, 1, 1, 1]),
    (2, 0, [1, 0, 1, 1]),
    // There is no row 3.
    (3, 0, [0, 0, 1, 1]),
    (0, 0, [1, 1, 1, 1]),
];

/// A query of a board of so many operators and rides that is lent so many words of the index and so many marks.
pub type Short = (u16, u16, usize, usize, (u16, u16));

/// Queries that are refused with 3.
pub const SHORT_FROM_0: &[Short] = &[
    // 4 operators and 3 rides need 3 × 7 words and 7 marks, also where no row is read.
    (4, 3, 20, 7, (9, 0)),
    (4, 3, 20, 7, (0, 0)),
    (4, 3, 20, 7, (0, 2)),
    (4, 3, 20, 7, (2, 0)),
    (4, 3, 0, 7, (4, 0)),
    (4, 3, 21, 6, (0, 0)),
    (4, 3, 21, 0, (9, 0)),
    // No operator and 3 rides need 3 × 3 words and 3 marks.
    (0, 3, 8, 3, (0, 0)),
    (0, 3, 9, 2, (0, 0)),
    // 3 operators and no ride need no word and 3 marks.
    (3, 0, 0, 2, (0, 0)),
];

/// A peel of document 01's board: marks, limits, allowed steps, the answer's numbers, and the marks that are left.
pub type Peel = ([u16; 7], (u16, u16), u16, [u16; 3], [u16; 7]);

const RIDES_ALONE: [u16; 7] = [0, 0, 0, 0, 1, 1, 1];

/// Peels that start from other marks than all ones, or are allowed few steps.
pub const PEELS_FROM_0: &[Peel] = &[
    // Of the operators, who have 2, 2, 2, 1 rides, only the last falls short of 2.
    ([1; 7], (2, 0), 0, [0, 0, 0], [1; 7]),
    ([1; 7], (2, 0), 1, [0, 1, 1], [1, 1, 1, 0, 1, 1, 1]),
    // Every operator falls short of 4, and the lowest go first.
    ([1; 7], (4, 0), 3, [0, 0, 3], [0, 0, 0, 1, 1, 1, 1]),
    ([1; 7], (4, 0), 4, [0, 1, 4], RIDES_ALONE),
    // Without operator 1 only ride 0 falls short of 2; operator 0 keeps its mark with one ride less.
    ([1, 0, 1, 1, 1, 1, 1], (0, 2), 65_535, [0, 1, 1], [1, 0, 1, 1, 0, 1, 1]),
    // Without ride 1 the operators have 1, 1, 1, 1 rides left, and the rides keep their marks without them.
    ([1, 1, 1, 1, 1, 0, 1], (2, 0), 65_535, [0, 1, 4], [0, 0, 0, 0, 1, 0, 1]),
    // No ride has an operator.
    (RIDES_ALONE, (0, 1), 2, [0, 0, 2], [0, 0, 0, 0, 0, 0, 1]),
    (RIDES_ALONE, (0, 1), 3, [0, 1, 3], [0; 7]),
    (RIDES_ALONE, (0, 0), 0, [0, 1, 0], RIDES_ALONE),
    // A mark of 2 is refused, whatever the limits are.
    ([1, 1, 1, 1, 1, 1, 2], (0, 0), 65_535, [12, 0, 0], [1, 1, 1, 1, 1, 1, 2]),
];
