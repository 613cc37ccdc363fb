//! Corrections within one stamp: which of two messages is later, revisions over 255, and what a board stores.

mod lent;
mod orders;

use board::*;
use lent::Lent;
use orders::orders;

const PAIRS: [(u16, u16); 7] = [(0, 0), (0, 1), (1, 0), (1, 1), (2, 1), (2, 2), (3, 2)];
const LENGTHS: [usize; 8] = [12, 12, 12, 12, 21, 7, 7, 7];

/// Document 01's board, built at stamp 5.
fn built(lent: &mut Lent) -> Board<'_> {
    Board::build(lent.parts(), 4, 3, &PAIRS, 5).unwrap()
}

/// Each message in its turn, with its answer and the stamp, the revision and the state of its pair after it.
#[test]
fn corrections_of_one_pair() {
    let mut lent = Lent::new(LENGTHS);
    let mut board = built(&mut lent);
    let (grant, withdrawal) = (|stamp| Message::grant(0, 0, stamp), |stamp| Message::withdrawal(0, 0, stamp));
    let late = Err(Refusal::NotLater);
    for (one, answer, after) in [
        (grant(5), late, (5, 0, true)),
        (grant(5).with_revision(1), Ok(()), (5, 1, true)),
        (withdrawal(5), late, (5, 1, true)),
        (withdrawal(5).with_revision(3), Ok(()), (5, 3, false)),
        (grant(5).with_revision(2), late, (5, 3, false)),
        (grant(5).with_revision(3), late, (5, 3, false)),
        (withdrawal(5).with_revision(3), late, (5, 3, false)),
        (grant(5).with_revision(4), Ok(()), (5, 4, true)),
        (withdrawal(5).with_revision(4), Ok(()), (5, 4, false)),
        (grant(4).with_revision(255), late, (5, 4, false)),
        (grant(6), Ok(()), (6, 0, true)),
        (withdrawal(5).with_revision(255), late, (6, 0, true)),
        (withdrawal(6).with_revision(255), Ok(()), (6, 255, false)),
    ] {
        assert_eq!(board.message(one).map(|_| ()), answer, "{one:?}");
        let listed = board.pairs().any(|pair| pair == (0, 0));
        let (stamp, revision, given) = after;
        assert_eq!((board.stamp(0, 0), board.revision(0, 0), listed), (Some(stamp), Some(revision), given), "{one:?}");
    }
    assert_eq!((board.revision(4, 0), board.revision(0, 3)), (None, None));
}

/// Two pairs corrected within one stamp end in the same board in every order, one by one and as a list. One message is
/// not valid, and one full tie is among them.
#[test]
fn corrections_in_every_order() {
    let messages = [
        Message::grant(3, 1, 9),
        Message::grant(3, 1, 9).with_revision(2),
        Message::withdrawal(3, 1, 9).with_revision(1),
        Message::withdrawal(0, 0, 9).with_revision(1),
        Message::grant(0, 0, 9).with_revision(1),
        Message::grant(0, 0, 9).with_revision(256),
    ];
    let mut last = Lent::new(LENGTHS);
    let mut expected = built(&mut last);
    for one in [messages[1], messages[3]] {
        expected.message(one).unwrap();
    }
    assert!(expected.pairs().eq([(0, 1), (1, 0), (1, 1), (2, 1), (2, 2), (3, 1), (3, 2)]));
    assert_eq!((expected.revision(3, 1), expected.revision(0, 0)), (Some(2), Some(1)));
    for order in orders(&messages) {
        let (mut lent, mut other, mut answers) = (Lent::new(LENGTHS), Lent::new(LENGTHS), [77; 6]);
        let (mut board, mut listed) = (built(&mut lent), built(&mut other));
        let answered = listed.messages(&order, &mut answers).unwrap();
        for (one, answer) in order.iter().zip(answered) {
            assert_eq!(board.message(*one).map(|_| ()), answer, "{order:?}");
        }
        for board in [board, listed] {
            assert_eq!((board.head(), board.words()), (expected.head(), expected.words()), "{order:?}");
        }
    }
}

/// A revision over 255 is refused after 7, 8 and 9 and before 10, and leaves every word.
#[test]
fn revisions_over_255() {
    let mut lent = Lent::new(LENGTHS);
    let mut board = built(&mut lent);
    let one = Message::grant(3, 1, 9);
    for (refused, refusal) in [
        (one.with_revision(REVISION_MOST + 1), Refusal::RevisionOver),
        (one.with_revision(u16::MAX), Refusal::RevisionOver),
        (Message { kind: 7, ..one.with_revision(256) }, Refusal::KindUnknown),
        (Message { operator: 4, ..one.with_revision(256) }, Refusal::OutOfRange),
        (Message { ride: 3, ..one.with_revision(256) }, Refusal::OutOfRange),
        (Message { stamp: 0, ..one.with_revision(256) }, Refusal::StampZero),
        (Message::grant(0, 0, 4).with_revision(256), Refusal::RevisionOver),
        (Message::grant(0, 0, 4), Refusal::NotLater),
    ] {
        assert_eq!(board.message(refused), Err(refusal), "{refused:?}");
    }
    let mut same = Lent::new(LENGTHS);
    let fresh = built(&mut same);
    assert_eq!((board.head(), board.words()), (fresh.head(), fresh.words()));
    assert_eq!(board.message(one.with_revision(REVISION_MOST)), Ok(8));
    assert_eq!(board.revision(3, 1), Some(255));
    assert_eq!(Refusal::RevisionOver.to_string(), "14: message: revision over 255");
}
