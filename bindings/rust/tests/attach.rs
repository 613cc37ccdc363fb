//! `Board::attach`: a stored board is taken up and goes on, or is refused with 1 to 6.

mod lent;

use board::*;
use lent::Lent;

const PAIRS: [(u16, u16); 7] = [(0, 0), (0, 1), (1, 0), (1, 1), (2, 1), (2, 2), (3, 2)];
const LENGTHS: [usize; 8] = [12, 12, 12, 12, 21, 7, 7, 7];

/// Document 01's board in parts longer than it needs, and its head.
fn stored() -> (Lent, Head) {
    let mut lent = Lent::new(LENGTHS.map(|length| length + 2));
    let head = Board::build(lent.parts(), 4, 3, &PAIRS, 5).unwrap().head();
    (lent, head)
}

/// A board whose head and words were copied to other memory answers as the one that went on, before and after messages.
#[test]
fn the_board_goes_on() {
    let (mut lent, _) = stored();
    let mut board = Board::attach(lent.parts(), Head { operators: 4, rides: 3, pairs: 7 }).unwrap();
    board.message(Message::grant(3, 1, 9).with_revision(2)).unwrap();
    board.message(Message::operator_off(1, 9).with_revision(2)).unwrap();
    let head = board.head();
    let mut copy = Lent::from(board.words());
    let before = copy.clone();
    let mut attached = Board::attach(copy.parts(), head).unwrap();
    assert_eq!((attached.head(), head.pairs), (head, 8));
    let later = [
        Message::withdrawal(0, 0, 4),
        Message::withdrawal(0, 0, 6),
        Message::withdrawal(3, 1, 9).with_revision(1),
        Message::withdrawal(3, 1, 9).with_revision(2),
        Message::grant(3, 0, 7),
        Message::operator_on(1, 9).with_revision(2),
        Message::operator_on(1, 9).with_revision(3),
        Message::ride_out(2, 8),
        Message::ride_in(2, 7),
    ];
    let mut refused = 0;
    for message in std::iter::once(None).chain(later.map(Some)) {
        if let Some(one) = message {
            let answer = board.message(one);
            assert_eq!(attached.message(one), answer);
            refused += answer.is_err() as usize;
        }
        assert_eq!((attached.head(), attached.words()), (board.head(), board.words()));
        for (alpha, beta) in (0..5).flat_map(|alpha| (0..6).map(move |beta| (alpha, beta))) {
            assert_eq!(attached.cover(alpha, beta), board.cover(alpha, beta));
        }
    }
    assert_eq!(refused, 4);
    assert_ne!(copy, before);
}

/// Nothing is written by an attach, taken or refused, and each of 1 to 6 refuses, the lowest that applies.
#[test]
fn refusals() {
    let (lent, head) = stored();
    let attach = |mut lent: Lent, lengths, head| {
        let before = lent.clone();
        let answer = Board::attach(lent.first(lengths), head).map(|board| board.head());
        assert_eq!(lent, before);
        answer
    };
    let whole = lent.lengths();
    assert_eq!(attach(lent.clone(), whole, head), Ok(head));
    assert_eq!(attach(lent.clone(), LENGTHS, head), Ok(head));
    assert_eq!(attach(lent.clone(), whole, Head { operators: 201, ..head }), Err(Refusal::OperatorsOver));
    assert_eq!(attach(lent.clone(), whole, Head { rides: 61, ..head }), Err(Refusal::RidesOver));
    for part in 0..LENGTHS.len() {
        let mut lengths = LENGTHS;
        lengths[part] -= 1;
        assert_eq!(attach(lent.clone(), lengths, head), Err(Refusal::PartShort));
    }
    assert_eq!(attach(lent.clone(), whole, Head { pairs: 13, ..head }), Err(Refusal::PairsOver));
    assert_eq!(attach(lent.clone(), whole, Head { pairs: 8, ..head }), Err(Refusal::PairMisplaced));
    let mut damaged = lent.clone();
    damaged.rides[6] = 3;
    assert_eq!(attach(damaged, whole, head), Err(Refusal::PairMisplaced));
    let mut damaged = lent;
    damaged.stamps[3 * 3 + 2] = 0;
    assert_eq!(attach(damaged, whole, head), Err(Refusal::StampMissing));
}

/// Memory that no board was built in holds none.
#[test]
fn zeros() {
    let mut memory = Memory::new();
    let head = Head { operators: 4, rides: 3, pairs: 1 };
    assert_eq!(Board::attach(memory.parts(), head).map(|_| ()), Err(Refusal::StampMissing));
}

/// A damaged index is taken up: covers are wrong, a peel from all ones is right, and the next taken message fills it anew.
/// Whoever has the limit 0 is in whatever the index holds.
#[test]
fn a_damaged_index() {
    let (mut lent, head) = stored();
    lent.index[..21].fill(9);
    let mut board = Board::attach(lent.parts(), head).unwrap();
    assert_eq!(board.cover(2, 2).unwrap().counts(), Counts { operators: 4, rides: 3 });
    let mut marks = [1; 7];
    assert_eq!(board.peel(&[0; 3], &mut marks, 2, 2, u16::MAX), Ok(Peeled { settled: true, steps: 3 }));
    assert_eq!(marks, [1, 1, 0, 0, 1, 1, 0]);
    assert_eq!(board.cover(0, 10).unwrap().counts(), Counts { operators: 4, rides: 0 });
    assert_eq!(board.cover(3, 0).unwrap().counts(), Counts { operators: 4, rides: 3 });
    assert_eq!(board.cover(4, 0).unwrap().counts(), Counts { operators: 0, rides: 3 });
    assert_eq!(board.message(Message::grant(0, 0, 6)), Ok(21));
    assert_eq!(board.cover(2, 2).unwrap().counts(), Counts { operators: 2, rides: 2 });
    assert!(board.words().index == [3, 3, 3, 2, 2, 3, 2, 2, 2, 1, 0, 2, 2, 1, 0, 0, 0, 0, 0, 0, 0]);
}

/// A stored revision over 255, which no call writes, is taken up and compared as a number.
#[test]
fn a_revision_over_255() {
    let (mut lent, head) = stored();
    lent.revisions[0] = 300;
    let mut board = Board::attach(lent.parts(), head).unwrap();
    assert_eq!(board.revision(0, 0), Some(300));
    assert_eq!(board.message(Message::withdrawal(0, 0, 5).with_revision(255)), Err(Refusal::NotLater));
    assert_eq!(board.message(Message::withdrawal(0, 0, 5).with_revision(301)), Err(Refusal::RevisionOver));
    assert!(board.message(Message::grant(0, 1, 5).with_revision(1)).is_ok());
    assert_eq!(board.revision(0, 0), Some(300));
    assert!(board.message(Message::withdrawal(0, 0, 6)).is_ok());
    assert_eq!((board.stamp(0, 0), board.revision(0, 0)), (Some(6), Some(0)));
}

/// Any stored word but 1, which no call writes but 0, is taken up as off or out and stays; its owner's next message writes 1
/// or 0.
#[test]
fn words_of_no_meaning() {
    for word in [0, 2, 7, 257, u16::MAX] {
        let (mut lent, head) = stored();
        (lent.presence[2], lent.presence[4 + 2]) = (word, word);
        let mut board = Board::attach(lent.parts(), head).unwrap();
        let gone = Some(Presence { present: false, stamp: 0, revision: 0 });
        assert_eq!((board.operator_presence(2), board.ride_presence(2)), (gone, gone));
        assert!(board.cover(0, 0).unwrap().operators().eq([0, 1, 3]));
        assert!(board.cover(0, 0).unwrap().rides().eq([0, 1]));
        assert!(board.message(Message::grant(0, 0, 6)).is_ok());
        assert_eq!(board.words().presence, [1, 1, word, 1, 1, 1, word]);
        assert_eq!(board.row(1), Some(&[2, 2, 0, 0, 2, 2, 0][..]));
        assert!(board.message(Message::ride_in(2, 1)).is_ok());
        assert!(board.message(Message::operator_off(2, 1)).is_ok());
        assert_eq!(board.words().presence, [1, 1, 0, 1, 1, 1, 1]);
        assert_eq!(board.row(1), Some(&[2, 2, 0, 1, 2, 2, 1][..]));
    }
}
