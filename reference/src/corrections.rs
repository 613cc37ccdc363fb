//! Document 02's corrections within one stamp, worked out by hand on document 01's board of `samples::PAIRS`, built at 5.

use crate::samples::{head, Pair, BUILT, PAIRS, START};
use crate::{Head, Message, GRANT, WITHDRAWAL};

/// What decides which of two messages for one pair is later: kind, revision and stamp.
pub type Entry = (u16, u16, u32);

/// Messages for one pair, one after another.
pub struct Corrections {
    pub pair: Pair,
    /// The pair's last before them. The pair is listed exactly if that is a grant.
    pub stored: Entry,
    /// What is sent, and its number.
    pub sent: &'static [(Entry, u16)],
    /// The pair's last after them.
    pub left: Entry,
}

impl Corrections {
    /// Where the pair's stamp and revision are.
    pub fn place(&self) -> usize {
        BUILT.place(self.pair.0, self.pair.1)
    }

    pub fn messages(&self) -> Vec<Message> {
        let (operator, ride) = self.pair;
        let message = |&((kind, revision, stamp), _)| Message { kind, operator, ride, revision, stamp };
        self.sent.iter().map(message).collect()
    }

    pub fn numbers(&self) -> Vec<u16> {
        self.sent.iter().map(|&(_, number)| number).collect()
    }

    /// The pairs listed after the messages.
    pub fn pairs(&self) -> Vec<Pair> {
        let mut pairs: Vec<Pair> = PAIRS.into_iter().filter(|pair| *pair != self.pair).collect();
        if self.left.0 == GRANT {
            pairs.push(self.pair);
        }
        pairs.sort_unstable();
        pairs
    }
}

/// A pair that the build lists, with the revision 0.
const fn built(sent: &'static [(Entry, u16)], left: Entry) -> Corrections {
    listed((GRANT, 0, START), sent, left)
}

/// A pair that the build doesn't list: it has stamp 0 and revision 0.
const fn unheard(sent: &'static [(Entry, u16)], left: Entry) -> Corrections {
    unlisted((WITHDRAWAL, 0, 0), sent, left)
}

/// A listed pair.
const fn listed(stored: Entry, sent: &'static [(Entry, u16)], left: Entry) -> Corrections {
    Corrections { pair: (0, 0), stored, sent, left }
}

/// A pair that isn't listed.
const fn unlisted(stored: Entry, sent: &'static [(Entry, u16)], left: Entry) -> Corrections {
    Corrections { pair: (2, 0), stored, sent, left }
}

pub const CORRECTIONS: &[Corrections] = &[
    // Two corrections within one stamp: the larger revision stands, in either order.
    built(&[((WITHDRAWAL, 1, 9), 0), ((GRANT, 2, 9), 0)], (GRANT, 2, 9)),
    built(&[((GRANT, 2, 9), 0), ((WITHDRAWAL, 1, 9), 10)], (GRANT, 2, 9)),
    unheard(&[((GRANT, 1, 9), 0), ((WITHDRAWAL, 2, 9), 0)], (WITHDRAWAL, 2, 9)),
    unheard(&[((WITHDRAWAL, 2, 9), 0), ((GRANT, 1, 9), 10)], (WITHDRAWAL, 2, 9)),
    // Two grants, and two withdrawals: the pair stays as it is, and gets the larger revision.
    built(&[((GRANT, 1, 9), 0), ((GRANT, 3, 9), 0), ((GRANT, 2, 9), 10)], (GRANT, 3, 9)),
    built(&[((WITHDRAWAL, 1, 9), 0), ((WITHDRAWAL, 3, 9), 0), ((WITHDRAWAL, 2, 9), 10)], (WITHDRAWAL, 3, 9)),
    // Equal stamp and revision: a withdrawal is later than a grant, and nothing else is.
    unheard(&[((GRANT, 3, 9), 0), ((WITHDRAWAL, 3, 9), 0)], (WITHDRAWAL, 3, 9)),
    unheard(&[((WITHDRAWAL, 3, 9), 0), ((GRANT, 3, 9), 10)], (WITHDRAWAL, 3, 9)),
    unheard(&[((GRANT, 3, 9), 0), ((GRANT, 3, 9), 10)], (GRANT, 3, 9)),
    unheard(&[((WITHDRAWAL, 3, 9), 0), ((WITHDRAWAL, 3, 9), 10)], (WITHDRAWAL, 3, 9)),
    // The stamp decides before the revision does.
    built(&[((GRANT, 255, 9), 0), ((WITHDRAWAL, 0, 10), 0)], (WITHDRAWAL, 0, 10)),
    built(&[((WITHDRAWAL, 0, 10), 0), ((GRANT, 255, 9), 10)], (WITHDRAWAL, 0, 10)),
    // The build's grant has revision 0: at its own stamp a grant of revision 0 isn't later, and each of the others is.
    built(&[((GRANT, 0, 5), 10)], (GRANT, 0, 5)),
    built(&[((WITHDRAWAL, 0, 5), 0)], (WITHDRAWAL, 0, 5)),
    built(&[((GRANT, 1, 5), 0)], (GRANT, 1, 5)),
    built(&[((WITHDRAWAL, 1, 5), 0)], (WITHDRAWAL, 1, 5)),
    built(&[((WITHDRAWAL, 255, 4), 10)], (GRANT, 0, 5)),
    // A pair never heard of takes the first message, of whatever revision.
    unheard(&[((GRANT, 0, 1), 0)], (GRANT, 0, 1)),
    unheard(&[((WITHDRAWAL, 0, 1), 0), ((GRANT, 0, 1), 10), ((GRANT, 1, 1), 0)], (GRANT, 1, 1)),
    // Revisions go to 255. A larger one is refused with 14, whether it would be later or not, and leaves the pair.
    built(&[((WITHDRAWAL, 255, 9), 0), ((GRANT, 255, 9), 10), ((GRANT, 256, 9), 14)], (WITHDRAWAL, 255, 9)),
    built(
        &[((WITHDRAWAL, 256, 9), 14), ((WITHDRAWAL, 65_535, 9), 14), ((WITHDRAWAL, 255, 9), 0)],
        (WITHDRAWAL, 255, 9),
    ),
    built(&[((GRANT, 256, 5), 14), ((GRANT, 256, 4), 14), ((WITHDRAWAL, 256, 4), 14)], (GRANT, 0, 5)),
    unheard(&[((GRANT, 256, 1), 14), ((GRANT, 255, 1), 0)], (GRANT, 255, 1)),
    // A stored revision above 255 is compared as a number. No board is refused for it.
    listed((GRANT, 300, 5), &[((WITHDRAWAL, 255, 5), 10), ((GRANT, 255, 5), 10)], (GRANT, 300, 5)),
    listed((GRANT, 300, 5), &[((WITHDRAWAL, 300, 5), 14), ((WITHDRAWAL, 0, 6), 0)], (WITHDRAWAL, 0, 6)),
    listed((GRANT, 65_535, 5), &[((GRANT, 0, 6), 0), ((WITHDRAWAL, 0, 6), 0)], (WITHDRAWAL, 0, 6)),
    unlisted((WITHDRAWAL, 256, 5), &[((GRANT, 1, 5), 10), ((GRANT, 255, 5), 10)], (WITHDRAWAL, 256, 5)),
    unlisted((WITHDRAWAL, 256, 5), &[((GRANT, 255, 6), 0), ((WITHDRAWAL, 255, 6), 0)], (WITHDRAWAL, 255, 6)),
    // Beside stamp 0 a stored revision says nothing.
    unlisted((WITHDRAWAL, 300, 0), &[((GRANT, 0, 1), 0)], (GRANT, 0, 1)),
    // A listed pair with stamp 0: 6 comes before 14.
    listed((GRANT, 0, 0), &[((WITHDRAWAL, 256, 9), 6), ((WITHDRAWAL, 0, 9), 6)], (GRANT, 0, 0)),
];

/// A message of revision 256.
const fn too_large(kind: u16, operator: u16, ride: u16, stamp: u32) -> Message {
    Message { kind, operator, ride, revision: 256, stamp }
}

/// Messages of revision 256 that other numbers apply to as well, with the number given.
pub const BESIDE_14: &[(Message, u16)] = &[
    (too_large(WITHDRAWAL, 1, 0, 9), 14),
    // 7, 8 and 9 come before 14.
    (too_large(0, 1, 0, 9), 7),
    (too_large(7, 1, 0, 9), 7),
    (too_large(WITHDRAWAL, 4, 0, 9), 8),
    (too_large(GRANT, 1, 3, 9), 8),
    (too_large(WITHDRAWAL, 1, 0, 0), 9),
    (too_large(7, 4, 3, 0), 7),
    (too_large(GRANT, 4, 3, 0), 8),
    // 10 comes after it: an older one, and a grant of the build's own stamp.
    (too_large(WITHDRAWAL, 1, 0, 4), 14),
    (too_large(GRANT, 1, 0, 5), 14),
];

/// A head and so many places of the revisions, and the number that a build, a message and a list get.
pub type Short = (Head, usize, u16);

/// With the board's pair arrays, and every other part long enough.
pub const SHORT_REVISIONS: &[Short] = &[
    // 4 operators and 3 rides need 4 × 3 places.
    (BUILT, 12, 0),
    (BUILT, 11, 3),
    (BUILT, 0, 3),
    // 1 and 2 come before 3, and 4 after it.
    (head(201, 3, 7), 11, 1),
    (head(4, 61, 7), 11, 2),
    (head(4, 3, 13), 11, 3),
    (head(4, 3, 13), 12, 4),
];
