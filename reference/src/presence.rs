//! Document 02's operators who have gone home and rides out of service, worked out by hand on document 01's board of
//! `samples::PAIRS`, built at 5.

use crate::samples::{head, Pair, BUILT, PAIRS};
use crate::{Head, Message, GRANT, OPERATOR_OFF, OPERATOR_ON, RIDE_IN, RIDE_OUT, WITHDRAWAL};

const fn message(kind: u16, operator: u16, ride: u16, revision: u16, stamp: u32) -> Message {
    Message { kind, operator, ride, revision, stamp }
}

/// A word for each of 4 operators, then for each of 3 rides.
pub type Words = [u16; 7];

pub const EVERYBODY: Words = [1; 7];
pub const NOBODY: Words = [0; 7];
pub const NO_OPERATOR_2: Words = [1, 1, 0, 1, 1, 1, 1];
pub const NO_RIDE_1: Words = [1, 1, 1, 1, 1, 0, 1];
pub const NEITHER: Words = [1, 1, 0, 1, 1, 0, 1];

/// Rows 1 and 2 of the index. Row 3 is all 0 in every sample.
pub type Rows = [Words; 2];

/// The index with these rows.
pub const fn index(rows: &Rows) -> [u16; 21] {
    let mut index = [0; 21];
    let mut place = 0;
    while place < 14 {
        index[place] = rows[place / 7][place % 7];
        place += 1;
    }
    index
}

/// Those of the build.
pub const ALL_COUNT: Rows = [[3, 3, 3, 2, 2, 3, 2], [2, 2, 1, 0, 2, 2, 1]];
/// (0, 0), (0, 1), (1, 0), (1, 1), (3, 2) count. Operators 0 and 1 are cleared for rides 0 and 1, operator 3 alone for
/// ride 2.
const WITHOUT_OPERATOR_2: Rows = [[2, 2, 0, 1, 2, 2, 1], [2, 2, 0, 0, 2, 2, 0]];
/// (0, 0), (0, 1), (1, 0), (1, 1), (2, 1), (2, 2) count. Ride 1 has three operators, ride 2 has operator 2 alone.
const WITHOUT_OPERATOR_3: Rows = [[3, 3, 3, 0, 2, 3, 1], [2, 2, 1, 0, 2, 2, 1]];
/// (0, 0), (0, 1), (1, 0), (1, 1) count.
const WITHOUT_OPERATORS_2_3: Rows = [[2, 2, 0, 0, 2, 2, 0], [2, 2, 0, 0, 2, 2, 0]];
/// (0, 0), (1, 0), (2, 2), (3, 2) count. Each operator is cleared for one ride, and each ride has two operators.
const WITHOUT_RIDE_1: Rows = [[2, 2, 2, 2, 2, 0, 2], [0; 7]];
/// (0, 0), (1, 0), (3, 2) count.
const WITHOUT_BOTH: Rows = [[2, 2, 0, 1, 2, 0, 1], [0; 7]];
/// Document 01's sample: all count, and (3, 1) is granted.
const ALL_AND_3_1: Rows = [[4, 4, 4, 4, 2, 4, 2], [2; 7]];
/// (0, 0), (0, 1), (1, 0), (1, 1), (2, 2), (3, 2) count. Each ride has two operators, operators 2 and 3 have one ride.
const ALL_BUT_2_1: Rows = [[2; 7], [2, 2, 0, 0, 2, 2, 0]];

const NO_ROWS: Rows = [[0; 7]; 2];

// Messages that change who is on and in

/// Messages to the board, one after another.
pub struct Delivery {
    /// The words of presence before them.
    pub came: Words,
    /// What is sent, its number, and how many words of the index differ.
    pub sent: &'static [(Message, u16, u16)],
    /// After them the words of presence, the pairs that are listed, and the index.
    pub left: Words,
    pub pairs: &'static [Pair],
    pub rows: Rows,
}

impl Delivery {
    pub fn messages(&self) -> Vec<Message> {
        self.sent.iter().map(|sent| sent.0).collect()
    }

    pub fn numbers(&self) -> Vec<u16> {
        self.sent.iter().map(|sent| sent.1).collect()
    }
}

/// All the pairs of the build stay listed, and everybody was on and in.
const fn delivery(sent: &'static [(Message, u16, u16)], left: Words, rows: Rows) -> Delivery {
    came(EVERYBODY, sent, left, rows)
}

const fn came(came: Words, sent: &'static [(Message, u16, u16)], left: Words, rows: Rows) -> Delivery {
    Delivery { came, sent, left, pairs: &PAIRS, rows }
}

const WITH_3_1: [Pair; 8] = [(0, 0), (0, 1), (1, 0), (1, 1), (2, 1), (2, 2), (3, 1), (3, 2)];
const NOT_2_1: [Pair; 6] = [(0, 0), (0, 1), (1, 0), (1, 1), (2, 2), (3, 2)];
const NOT_3_2: [Pair; 6] = [(0, 0), (0, 1), (1, 0), (1, 1), (2, 1), (2, 2)];

const fn on(operator: u16, stamp: u32) -> Message {
    message(OPERATOR_ON, operator, 0, 0, stamp)
}

const fn off(operator: u16, stamp: u32) -> Message {
    message(OPERATOR_OFF, operator, 0, 0, stamp)
}

const fn ride_in(ride: u16, stamp: u32) -> Message {
    message(RIDE_IN, 0, ride, 0, stamp)
}

const fn ride_out(ride: u16, stamp: u32) -> Message {
    message(RIDE_OUT, 0, ride, 0, stamp)
}

const fn grant(operator: u16, ride: u16, stamp: u32) -> Message {
    message(GRANT, operator, ride, 0, stamp)
}

const fn withdrawal(operator: u16, ride: u16, stamp: u32) -> Message {
    message(WITHDRAWAL, operator, ride, 0, stamp)
}

pub const DELIVERIES: &[Delivery] = &[
    // 6 words of row 1 differ, and 2 of row 2.
    delivery(&[(off(2, 9), 0, 8)], NO_OPERATOR_2, WITHOUT_OPERATOR_2),
    // 4 words of row 1 differ, and 6 of row 2: the levels of operators 0 and 1 there move by 2.
    delivery(&[(ride_out(1, 9), 0, 10)], NO_RIDE_1, WITHOUT_RIDE_1),
    // Both in either order, and back again in either order.
    delivery(&[(off(2, 9), 0, 8), (ride_out(1, 9), 0, 5)], NEITHER, WITHOUT_BOTH),
    delivery(&[(ride_out(1, 9), 0, 10), (off(2, 9), 0, 3)], NEITHER, WITHOUT_BOTH),
    delivery(
        &[(off(2, 9), 0, 8), (ride_out(1, 9), 0, 5), (on(2, 10), 0, 3), (ride_in(1, 10), 0, 10)],
        EVERYBODY,
        ALL_COUNT,
    ),
    delivery(
        &[(off(2, 9), 0, 8), (ride_out(1, 9), 0, 5), (ride_in(1, 10), 0, 5), (on(2, 10), 0, 8)],
        EVERYBODY,
        ALL_COUNT,
    ),
    // What was sent first arrives last: nobody goes.
    delivery(&[(on(2, 10), 0, 0), (off(2, 9), 10, 0)], EVERYBODY, ALL_COUNT),
    delivery(&[(ride_in(1, 10), 0, 0), (ride_out(1, 9), 10, 0)], EVERYBODY, ALL_COUNT),
    // The stamps of operators and rides are not those of pairs, and each operator and ride has its own.
    delivery(&[(off(2, 1), 0, 8), (ride_out(1, 1), 0, 5), (withdrawal(0, 0, 4), 10, 0)], NEITHER, WITHOUT_BOTH),
    delivery(&[(on(1, 9), 0, 0), (off(2, 8), 0, 8), (ride_out(1, 7), 0, 5)], NEITHER, WITHOUT_BOTH),
    // A clearance that is granted while its operator is off is listed, and counts once the operator is on. The others
    // move by one level.
    Delivery {
        came: EVERYBODY,
        sent: &[(off(3, 9), 0, 2), (grant(3, 1, 9), 0, 0)],
        left: [1, 1, 1, 0, 1, 1, 1],
        pairs: &WITH_3_1,
        rows: WITHOUT_OPERATOR_3,
    },
    Delivery {
        came: EVERYBODY,
        sent: &[(off(3, 9), 0, 2), (grant(3, 1, 9), 0, 0), (on(3, 10), 0, 9)],
        left: EVERYBODY,
        pairs: &WITH_3_1,
        rows: ALL_AND_3_1,
    },
    Delivery {
        came: EVERYBODY,
        sent: &[(grant(3, 1, 9), 0, 8), (off(3, 9), 0, 9), (on(3, 10), 0, 9)],
        left: EVERYBODY,
        pairs: &WITH_3_1,
        rows: ALL_AND_3_1,
    },
    // The same while its ride is out.
    Delivery {
        came: EVERYBODY,
        sent: &[(ride_out(1, 9), 0, 10), (grant(3, 1, 9), 0, 0), (ride_in(1, 10), 0, 12)],
        left: EVERYBODY,
        pairs: &WITH_3_1,
        rows: ALL_AND_3_1,
    },
    // A withdrawal while the operator is off.
    Delivery {
        came: EVERYBODY,
        sent: &[(off(2, 9), 0, 8), (withdrawal(2, 1, 9), 0, 0)],
        left: NO_OPERATOR_2,
        pairs: &NOT_2_1,
        rows: WITHOUT_OPERATOR_2,
    },
    Delivery {
        came: EVERYBODY,
        sent: &[(off(2, 9), 0, 8), (withdrawal(2, 1, 9), 0, 0), (on(2, 10), 0, 3)],
        left: EVERYBODY,
        pairs: &NOT_2_1,
        rows: ALL_BUT_2_1,
    },
    // Every ride goes, and then nothing counts.
    delivery(&[(ride_out(0, 9), 0, 5), (ride_out(1, 9), 0, 7), (ride_out(2, 9), 0, 3)], [1, 1, 1, 1, 0, 0, 0], NO_ROWS),
    // Words other than 1 are off and out, and those of others stay. The index that comes in is the build's.
    came([1, 1, 1, 7, 1, 1, 1], &[(off(2, 9), 0, 8)], [1, 1, 0, 7, 1, 1, 1], WITHOUT_OPERATORS_2_3),
    came([1, 1, 1, 1, 1, 65_535, 1], &[(off(2, 9), 0, 12)], [1, 1, 0, 1, 1, 65_535, 1], WITHOUT_BOTH),
    came([1, 1, 257, 1, 1, 1, 1], &[(ride_out(1, 9), 0, 12)], [1, 1, 257, 1, 1, 0, 1], WITHOUT_BOTH),
    came([1, 1, 2, 1, 1, 1, 1], &[(ride_in(1, 9), 0, 8)], [1, 1, 2, 1, 1, 1, 1], WITHOUT_OPERATOR_2),
    Delivery {
        came: [1, 1, 1, 7, 1, 1, 1],
        sent: &[(withdrawal(3, 2, 9), 0, 2)],
        left: [1, 1, 1, 7, 1, 1, 1],
        pairs: &NOT_3_2,
        rows: WITHOUT_OPERATOR_3,
    },
    Delivery {
        came: [1, 1, 1, 7, 1, 1, 1],
        sent: &[(grant(3, 1, 9), 0, 2)],
        left: [1, 1, 1, 7, 1, 1, 1],
        pairs: &WITH_3_1,
        rows: WITHOUT_OPERATOR_3,
    },
    // A taken message writes 1 or 0 over any word.
    came([1, 1, 7, 1, 1, 1, 1], &[(off(2, 9), 0, 8)], NO_OPERATOR_2, WITHOUT_OPERATOR_2),
    came([1, 1, 7, 1, 1, 1, 1], &[(on(2, 9), 0, 0)], EVERYBODY, ALL_COUNT),
    came([1, 1, 1, 1, 1, 7, 1], &[(ride_out(1, 9), 0, 10)], NO_RIDE_1, WITHOUT_RIDE_1),
    came([1, 1, 1, 1, 1, 7, 1], &[(ride_in(1, 9), 0, 0)], EVERYBODY, ALL_COUNT),
];

// When a message for an operator or ride is later

/// What an operator or ride has of its last message: word, revision and stamp.
pub type Last = (u16, u16, u32);

/// A message for an operator or ride: whether it comes or goes, revision and stamp.
pub type Turn = (bool, u16, u32);

/// On, or in.
const COMES: bool = true;
/// Off, or out.
const GOES: bool = false;

/// Messages for one operator or ride, one after another.
pub struct Turns {
    /// Its last before them.
    pub stored: Last,
    /// What is sent, and its number.
    pub sent: &'static [(Turn, u16)],
    /// Its last after them.
    pub left: Last,
}

/// An operator or ride of the samples: its place among the words, and the index without it.
pub struct Node {
    pub place: usize,
    pub without: Rows,
}

/// Operator 2 and ride 1. The samples hold for each.
pub const NODES: [Node; 2] =
    [Node { place: 2, without: WITHOUT_OPERATOR_2 }, Node { place: 5, without: WITHOUT_RIDE_1 }];

/// The last of every other operator and ride: later than what is sent.
pub const OTHERS: Last = (1, 255, 4_000_000_000);

impl Turns {
    pub fn messages(&self, node: &Node) -> Vec<Message> {
        let one = |&((comes, revision, stamp), _): &(Turn, u16)| match (node.place, comes) {
            (2, COMES) => message(OPERATOR_ON, 2, 0, revision, stamp),
            (2, GOES) => message(OPERATOR_OFF, 2, 0, revision, stamp),
            (_, COMES) => message(RIDE_IN, 0, 1, revision, stamp),
            (_, GOES) => message(RIDE_OUT, 0, 1, revision, stamp),
        };
        self.sent.iter().map(one).collect()
    }

    pub fn numbers(&self) -> Vec<u16> {
        self.sent.iter().map(|&(_, number)| number).collect()
    }

    /// The index after the messages. Where none was taken it is the one that came in, the build's.
    pub fn rows(&self, node: &Node) -> Rows {
        let is_taken = self.sent.iter().any(|&(_, number)| number == 0);
        if is_taken && self.left.0 != 1 {
            node.without
        } else {
            ALL_COUNT
        }
    }
}

/// As the build leaves an operator or ride: on or in, with stamp and revision 0.
const fn built(sent: &'static [(Turn, u16)], left: Last) -> Turns {
    stored((1, 0, 0), sent, left)
}

const fn stored(stored: Last, sent: &'static [(Turn, u16)], left: Last) -> Turns {
    Turns { stored, sent, left }
}

pub const TURNS: &[Turns] = &[
    // After a build the first message is taken, of whatever stamp and revision.
    built(&[((GOES, 0, 1), 0)], (0, 0, 1)),
    built(&[((COMES, 0, 1), 0)], (1, 0, 1)),
    built(&[((COMES, 255, 4_294_967_295), 0)], (1, 255, 4_294_967_295)),
    // The later one stands, in either order: the larger stamp, then the larger revision.
    built(&[((GOES, 0, 9), 0), ((COMES, 0, 10), 0)], (1, 0, 10)),
    built(&[((COMES, 0, 10), 0), ((GOES, 0, 9), 10)], (1, 0, 10)),
    built(&[((GOES, 1, 9), 0), ((COMES, 2, 9), 0)], (1, 2, 9)),
    built(&[((COMES, 2, 9), 0), ((GOES, 1, 9), 10)], (1, 2, 9)),
    built(&[((COMES, 255, 9), 0), ((GOES, 0, 10), 0)], (0, 0, 10)),
    built(&[((GOES, 0, 10), 0), ((COMES, 255, 9), 10)], (0, 0, 10)),
    // Twice the same: the word stays as it is, and gets the larger revision.
    built(&[((COMES, 1, 9), 0), ((COMES, 3, 9), 0), ((COMES, 2, 9), 10)], (1, 3, 9)),
    built(&[((GOES, 1, 9), 0), ((GOES, 3, 9), 0), ((GOES, 2, 9), 10)], (0, 3, 9)),
    // Equal stamp and revision: off is later than on, and out than in, and nothing else is.
    built(&[((COMES, 3, 9), 0), ((GOES, 3, 9), 0)], (0, 3, 9)),
    built(&[((GOES, 3, 9), 0), ((COMES, 3, 9), 10)], (0, 3, 9)),
    built(&[((COMES, 3, 9), 0), ((COMES, 3, 9), 10)], (1, 3, 9)),
    built(&[((GOES, 3, 9), 0), ((GOES, 3, 9), 10)], (0, 3, 9)),
    // At a full tie a word other than 1 is off or out already, and stays as it is.
    stored((7, 3, 9), &[((GOES, 3, 9), 10), ((COMES, 3, 9), 10)], (7, 3, 9)),
    stored((2, 3, 9), &[((GOES, 3, 9), 10)], (2, 3, 9)),
    stored((257, 3, 9), &[((GOES, 3, 9), 10)], (257, 3, 9)),
    stored((65_535, 3, 9), &[((GOES, 3, 9), 10)], (65_535, 3, 9)),
    stored((0, 3, 9), &[((GOES, 3, 9), 10)], (0, 3, 9)),
    stored((1, 3, 9), &[((COMES, 3, 9), 10)], (1, 3, 9)),
    stored((1, 3, 9), &[((GOES, 3, 9), 0)], (0, 3, 9)),
    // Past the tie it is written over.
    stored((7, 3, 9), &[((GOES, 4, 9), 0)], (0, 4, 9)),
    stored((7, 3, 9), &[((COMES, 4, 9), 0)], (1, 4, 9)),
    stored((7, 3, 9), &[((COMES, 2, 9), 10), ((GOES, 0, 10), 0)], (0, 0, 10)),
    stored((7, 0, 0), &[((COMES, 0, 1), 0)], (1, 0, 1)),
    // Revisions go to 255. A larger one is refused with 14, and a stored one is compared as a number.
    built(&[((GOES, 256, 9), 14), ((GOES, 65_535, 9), 14), ((GOES, 255, 9), 0)], (0, 255, 9)),
    stored((1, 300, 9), &[((GOES, 255, 9), 10), ((GOES, 300, 9), 14), ((GOES, 0, 10), 0)], (0, 0, 10)),
    stored((0, 256, 9), &[((COMES, 1, 9), 10), ((COMES, 255, 9), 10)], (0, 256, 9)),
    // Beside stamp 0 a stored revision says nothing.
    stored((1, 300, 0), &[((GOES, 0, 1), 0)], (0, 0, 1)),
    // The stamp 0 isn't valid.
    built(&[((GOES, 0, 0), 9), ((GOES, 255, 0), 9)], (1, 0, 0)),
];

// Numbers

/// What every operator and ride has of its last before a message of `BESIDE_15`.
pub const BEFORE_15: Last = (1, 3, 9);

/// Messages, with the number given.
pub const BESIDE_15: &[(Message, u16)] = &[
    // A field that the kind doesn't use isn't 0, whether it is in range or not.
    (message(OPERATOR_ON, 2, 1, 0, 10), 15),
    (message(OPERATOR_OFF, 2, 1, 0, 10), 15),
    (message(OPERATOR_ON, 2, 65_535, 0, 10), 15),
    (message(OPERATOR_OFF, 2, 3, 0, 10), 15),
    (message(OPERATOR_OFF, 2, 256, 0, 10), 15),
    (message(RIDE_IN, 1, 1, 0, 10), 15),
    (message(RIDE_OUT, 1, 1, 0, 10), 15),
    (message(RIDE_IN, 65_535, 1, 0, 10), 15),
    (message(RIDE_OUT, 4, 1, 0, 10), 15),
    (message(RIDE_OUT, 256, 1, 0, 10), 15),
    // Grants and withdrawals use both.
    (message(GRANT, 3, 1, 0, 10), 0),
    (message(WITHDRAWAL, 3, 2, 0, 10), 0),
    // For 8 the field that the kind uses is read, by its own size: there is an operator 3, and no ride 3.
    (message(OPERATOR_ON, 3, 0, 0, 10), 0),
    (message(OPERATOR_OFF, 3, 0, 0, 10), 0),
    (message(OPERATOR_ON, 4, 0, 0, 10), 8),
    (message(OPERATOR_OFF, 4, 0, 0, 10), 8),
    (message(OPERATOR_OFF, 65_535, 0, 0, 10), 8),
    (message(RIDE_IN, 0, 2, 0, 10), 0),
    (message(RIDE_OUT, 0, 2, 0, 10), 0),
    (message(RIDE_IN, 0, 3, 0, 10), 8),
    (message(RIDE_OUT, 0, 3, 0, 10), 8),
    (message(RIDE_OUT, 0, 65_535, 0, 10), 8),
    // 7, 8, 9 and 14 come before 15.
    (message(0, 2, 1, 0, 10), 7),
    (message(7, 2, 1, 0, 10), 7),
    (message(7, 2, 0, 0, 10), 7),
    (message(259, 2, 0, 0, 10), 7),
    (message(7, 65_535, 65_535, 256, 0), 7),
    (message(OPERATOR_OFF, 4, 1, 0, 10), 8),
    (message(RIDE_OUT, 1, 3, 0, 10), 8),
    (message(OPERATOR_OFF, 4, 1, 256, 0), 8),
    (message(RIDE_OUT, 1, 3, 256, 0), 8),
    (message(OPERATOR_OFF, 2, 1, 0, 0), 9),
    (message(RIDE_OUT, 1, 1, 0, 0), 9),
    (message(OPERATOR_OFF, 2, 1, 256, 0), 9),
    (message(OPERATOR_OFF, 2, 1, 256, 10), 14),
    (message(RIDE_OUT, 1, 1, 256, 10), 14),
    (message(OPERATOR_OFF, 2, 0, 256, 8), 14),
    (message(RIDE_OUT, 0, 1, 256, 8), 14),
    // 10 comes after it: an older one, and an on or in of equal stamp and revision.
    (message(OPERATOR_OFF, 2, 1, 0, 8), 15),
    (message(RIDE_OUT, 1, 1, 0, 8), 15),
    (message(OPERATOR_ON, 2, 1, 3, 9), 15),
    (message(RIDE_IN, 1, 1, 3, 9), 15),
    (message(OPERATOR_OFF, 2, 0, 0, 8), 10),
    (message(RIDE_OUT, 0, 1, 0, 8), 10),
    (message(OPERATOR_ON, 2, 0, 3, 9), 10),
    (message(RIDE_IN, 0, 1, 3, 9), 10),
    (message(OPERATOR_OFF, 2, 0, 3, 9), 0),
    (message(RIDE_OUT, 0, 1, 3, 9), 0),
];

/// A listed pair. With stamp 0, all messages get 6, whether it counts or not.
pub const UNSTAMPED: Pair = (2, 1);
pub const WORDS_BESIDE_6: [Words; 4] = [EVERYBODY, NO_OPERATOR_2, NO_RIDE_1, NEITHER];
pub const BESIDE_6: &[Message] = &[
    grant(0, 0, 9),
    withdrawal(0, 0, 9),
    withdrawal(2, 1, 9),
    on(2, 9),
    off(2, 9),
    off(0, 9),
    ride_in(1, 9),
    ride_out(1, 9),
    ride_out(0, 9),
    // 6 comes before 7, 8, 9, 14 and 15.
    message(7, 2, 0, 0, 9),
    off(4, 9),
    ride_out(1, 0),
    message(OPERATOR_ON, 2, 0, 256, 9),
    message(OPERATOR_ON, 2, 1, 0, 9),
];

/// A board without operators or rides, a message, and its number. No word of the index differs.
pub const ONE_SIDED: &[(Head, Message, u16)] = &[
    // 3 operators: ride 0 isn't read.
    (head(3, 0, 0), off(2, 9), 0),
    (head(3, 0, 0), on(0, 9), 0),
    (head(3, 0, 0), off(3, 9), 8),
    (head(3, 0, 0), ride_out(0, 9), 8),
    (head(3, 0, 0), ride_in(0, 9), 8),
    (head(3, 0, 0), grant(0, 0, 9), 8),
    // 3 rides: operator 0 isn't read.
    (head(0, 3, 0), ride_out(2, 9), 0),
    (head(0, 3, 0), ride_in(0, 9), 0),
    (head(0, 3, 0), ride_out(3, 9), 8),
    (head(0, 3, 0), off(0, 9), 8),
    (head(0, 3, 0), on(0, 9), 8),
    (head(0, 3, 0), withdrawal(0, 0, 9), 8),
];

/// A head and so many places of one of the parts of presence, and the number that a build, a message, a list and a peel
/// get. A query gets it too, but for 4.
pub type Short = (Head, usize, u16);

/// With the board's pair arrays, and every other part long enough.
pub const SHORT_PRESENCE: &[Short] = &[
    // 4 operators and 3 rides need 4 + 3 places.
    (BUILT, 7, 0),
    (BUILT, 6, 3),
    (BUILT, 0, 3),
    // 1 and 2 come before 3, and 4 after it.
    (head(201, 3, 7), 6, 1),
    (head(4, 61, 7), 6, 2),
    (head(4, 3, 13), 6, 3),
    (head(4, 3, 13), 7, 4),
];

// Builds, queries and peels

/// Words of presence that a build finds. It sets everybody on and in, with the index of all pairs.
pub const BUILT_OVER: [Words; 4] = [[7; 7], NOBODY, NO_OPERATOR_2, [0, 1, 2, 7, 256, 257, 65_535]];

/// A query: words of presence, the words of the index, limits, and the marks.
pub type Query = (Words, [u16; 21], (u16, u16), Words);

const INDEX_0: [u16; 21] = [0; 21];
const INDEX_9: [u16; 21] = [9; 21];
/// The build's.
const INDEX: [u16; 21] = index(&ALL_COUNT);

/// Words of which the second operator and the second ride alone are 1.
pub const ODD: Words = [7, 1, 65_535, 257, 0, 1, 2];

pub const QUERIES: &[Query] = &[
    // Both limits 0: all who are on or in, whatever the index is.
    (NO_OPERATOR_2, INDEX_0, (0, 0), NO_OPERATOR_2),
    (NO_OPERATOR_2, INDEX_9, (0, 0), NO_OPERATOR_2),
    (NO_RIDE_1, INDEX_0, (0, 0), NO_RIDE_1),
    (NEITHER, INDEX, (0, 0), NEITHER),
    (NOBODY, INDEX_9, (0, 0), NOBODY),
    (ODD, INDEX_9, (0, 0), [0, 1, 0, 0, 0, 1, 0]),
    // All operators who are on; no ride by an index of 0.
    (NO_OPERATOR_2, INDEX_0, (0, 1), [1, 1, 0, 1, 0, 0, 0]),
    // All rides that are in; no operator by an index of 0.
    (NO_RIDE_1, INDEX_0, (1, 0), [0, 0, 0, 0, 1, 0, 1]),
    // There is no row 4.
    (NO_RIDE_1, INDEX_9, (4, 0), [0, 0, 0, 0, 1, 0, 1]),
    (NO_OPERATOR_2, INDEX_9, (4, 1), NOBODY),
    // By an index of 9 everybody is in, and nobody by one of 0.
    (NO_OPERATOR_2, INDEX_9, (1, 1), NO_OPERATOR_2),
    (NO_RIDE_1, INDEX_9, (3, 9), NO_RIDE_1),
    (NEITHER, INDEX_9, (2, 2), NEITHER),
    (ODD, INDEX_9, (1, 1), [0, 1, 0, 0, 0, 1, 0]),
    (NOBODY, INDEX_9, (1, 1), NOBODY),
    (NO_OPERATOR_2, INDEX_0, (1, 1), NOBODY),
    (EVERYBODY, INDEX_9, (3, 9), EVERYBODY),
    // By the build's index: operators 0, 1, 2 and ride 1, then operators 0, 1 and rides 0, 1.
    (EVERYBODY, INDEX, (1, 3), [1, 1, 1, 0, 0, 1, 0]),
    (NO_OPERATOR_2, INDEX, (1, 3), [1, 1, 0, 0, 0, 1, 0]),
    (NO_RIDE_1, INDEX, (1, 3), [1, 1, 1, 0, 0, 0, 0]),
    (NEITHER, INDEX, (2, 2), [1, 1, 0, 0, 1, 0, 0]),
];

/// A peel of the board: words of presence, marks, limits, allowed steps, the answer's numbers, and the marks that are
/// left.
pub type Peel = (Words, Words, (u16, u16), u16, [u16; 3], Words);

pub const PEELS: &[Peel] = &[
    // Whoever is off falls short of 0, and goes by a step of its own. Without steps the mark stays.
    (NO_OPERATOR_2, EVERYBODY, (0, 0), 65_535, [0, 1, 1], NO_OPERATOR_2),
    (NO_OPERATOR_2, EVERYBODY, (0, 0), 1, [0, 1, 1], NO_OPERATOR_2),
    (NO_OPERATOR_2, EVERYBODY, (0, 0), 0, [0, 0, 0], EVERYBODY),
    (NO_RIDE_1, EVERYBODY, (0, 0), 65_535, [0, 1, 1], NO_RIDE_1),
    (NO_RIDE_1, EVERYBODY, (0, 0), 0, [0, 0, 0], EVERYBODY),
    // The operator goes before the ride.
    (NEITHER, EVERYBODY, (0, 0), 1, [0, 0, 1], NO_OPERATOR_2),
    (NEITHER, EVERYBODY, (0, 0), 2, [0, 1, 2], NEITHER),
    // Nobody is on or in: all go in the order of their numbers.
    (NOBODY, EVERYBODY, (0, 0), 3, [0, 0, 3], [0, 0, 0, 1, 1, 1, 1]),
    (NOBODY, EVERYBODY, (0, 0), 6, [0, 0, 6], [0, 0, 0, 0, 0, 0, 1]),
    (NOBODY, EVERYBODY, (0, 0), 7, [0, 1, 7], NOBODY),
    // Words other than 1 are off and out.
    (ODD, EVERYBODY, (0, 0), 65_535, [0, 1, 5], [0, 1, 0, 0, 0, 1, 0]),
    // Who isn't marked takes no step.
    (NO_OPERATOR_2, NO_OPERATOR_2, (0, 0), 0, [0, 1, 0], NO_OPERATOR_2),
    (NOBODY, NOBODY, (0, 0), 0, [0, 1, 0], NOBODY),
    (NEITHER, [0, 0, 1, 0, 0, 1, 0], (0, 0), 1, [0, 0, 1], [0, 0, 0, 0, 0, 1, 0]),
    // Those who fall short go in the order of their numbers, on or off: every operator falls short of 3.
    ([1, 1, 1, 0, 1, 1, 1], EVERYBODY, (3, 0), 1, [0, 0, 1], [0, 1, 1, 1, 1, 1, 1]),
    ([1, 1, 1, 0, 1, 1, 1], EVERYBODY, (3, 0), 3, [0, 0, 3], [0, 0, 0, 1, 1, 1, 1]),
    ([1, 1, 1, 0, 1, 1, 1], EVERYBODY, (3, 0), 4, [0, 1, 4], [0, 0, 0, 0, 1, 1, 1]),
    // A pair of a ride that is out doesn't count while the ride is marked: without ride 1 every operator has one ride.
    (NO_RIDE_1, EVERYBODY, (2, 0), 1, [0, 0, 1], [0, 1, 1, 1, 1, 1, 1]),
    (NO_RIDE_1, EVERYBODY, (2, 0), 65_535, [0, 1, 5], [0, 0, 0, 0, 1, 0, 1]),
    (NO_RIDE_1, EVERYBODY, (1, 0), 65_535, [0, 1, 1], NO_RIDE_1),
    // Without operator 2 the rides have 2, 2, 1 operators.
    (NO_OPERATOR_2, EVERYBODY, (0, 2), 65_535, [0, 1, 2], [1, 1, 0, 1, 1, 1, 0]),
    (NO_OPERATOR_2, EVERYBODY, (0, 3), 65_535, [0, 1, 4], [1, 1, 0, 1, 0, 0, 0]),
    // Operators 2 and 3 go, and then ride 2.
    (NO_OPERATOR_2, EVERYBODY, (2, 2), 2, [0, 0, 2], [1, 1, 0, 0, 1, 1, 1]),
    (NO_OPERATOR_2, EVERYBODY, (2, 2), 3, [0, 1, 3], [1, 1, 0, 0, 1, 1, 0]),
    // 12 reads the mark of who is off or out too.
    (NO_OPERATOR_2, [1, 1, 2, 1, 1, 1, 1], (0, 0), 65_535, [12, 0, 0], [1, 1, 2, 1, 1, 1, 1]),
    (NO_RIDE_1, [1, 1, 1, 1, 1, 7, 1], (0, 0), 65_535, [12, 0, 0], [1, 1, 1, 1, 1, 7, 1]),
];
