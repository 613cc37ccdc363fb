//! Operators who are off and rides that are out: which of two messages is later, which pairs count, whom queries mark and
//! peels drop, and what a board stores.

mod lent;
mod orders;

use board::*;
use lent::Lent;
use orders::orders;

const PAIRS: [(u16, u16); 7] = [(0, 0), (0, 1), (1, 0), (1, 1), (2, 1), (2, 2), (3, 2)];
const LENGTHS: [usize; 8] = [12, 12, 12, 12, 21, 7, 7, 7];
const HEAD: Head = Head { operators: 4, rides: 3, pairs: 7 };

/// No ride has a minimum.
const NONE: [u16; 3] = [0; 3];

/// Document 01's board, built at stamp 5.
fn built(lent: &mut Lent) -> Board<'_> {
    Board::build(lent.parts(), 4, 3, &PAIRS, 5).unwrap()
}

/// Each message for one operator or ride in its turn, with its answer and what the board has of that one after it.
fn check_turns(on: fn(u32) -> Message, off: fn(u32) -> Message, read: fn(&Board) -> Option<Presence>, place: usize) {
    let mut lent = Lent::new(LENGTHS);
    let mut board = built(&mut lent);
    let late = Err(Refusal::NotLater);
    assert_eq!(read(&board), Some(Presence { present: true, stamp: 0, revision: 0 }));
    for (one, answer, (present, stamp, revision)) in [
        (off(5), Ok(()), (false, 5, 0)),
        (off(5), late, (false, 5, 0)),
        (on(5), late, (false, 5, 0)),
        (on(4).with_revision(255), late, (false, 5, 0)),
        (on(5).with_revision(1), Ok(()), (true, 5, 1)),
        (on(5).with_revision(1), late, (true, 5, 1)),
        (off(5), late, (true, 5, 1)),
        (off(5).with_revision(1), Ok(()), (false, 5, 1)),
        (on(5).with_revision(1), late, (false, 5, 1)),
        (off(5).with_revision(3), Ok(()), (false, 5, 3)),
        (on(5).with_revision(2), late, (false, 5, 3)),
        (on(6), Ok(()), (true, 6, 0)),
        (off(5).with_revision(255), late, (true, 6, 0)),
        (on(6).with_revision(255), Ok(()), (true, 6, 255)),
        (off(6).with_revision(255), Ok(()), (false, 6, 255)),
        (on(1), late, (false, 6, 255)),
    ] {
        assert_eq!(board.message(one).map(|_| ()), answer, "{one:?}");
        assert_eq!(read(&board), Some(Presence { present, stamp, revision }), "{one:?}");
        let words = board.words();
        for other in (0..7).filter(|other| *other != place) {
            let kept = (words.presence[other], words.presence_stamps[other], words.presence_revisions[other]);
            assert_eq!(kept, (1, 0, 0), "{one:?}");
        }
        assert_eq!(words.presence[place], present as u16, "{one:?}");
    }
    assert!(board.pairs().eq(PAIRS));
    assert!((0..12).all(|place| board.words().revisions[place] == 0 && [0, 5].contains(&board.words().stamps[place])));
}

#[test]
fn turns_of_one_operator_and_one_ride() {
    let operator = |board: &Board| board.operator_presence(2);
    check_turns(|stamp| Message::operator_on(2, stamp), |stamp| Message::operator_off(2, stamp), operator, 2);
    let ride = |board: &Board| board.ride_presence(2);
    check_turns(|stamp| Message::ride_in(2, stamp), |stamp| Message::ride_out(2, stamp), ride, 4 + 2);
    let mut lent = Lent::new(LENGTHS);
    let board = built(&mut lent);
    assert_eq!((board.operator_presence(4), board.ride_presence(3)), (None, None));
}

/// The rows by hand. Without operator 2 the pairs (0,0), (0,1), (1,0), (1,1) and (3,2) count, without ride 1 (0,0), (1,0),
/// (2,2) and (3,2), and without both (0,0), (1,0) and (3,2).
#[test]
fn pairs_that_count() {
    let all = ([3, 3, 3, 2, 2, 3, 2], [2, 2, 1, 0, 2, 2, 1]);
    let without_operator = ([2, 2, 0, 1, 2, 2, 1], [2, 2, 0, 0, 2, 2, 0]);
    let without_ride = ([2, 2, 2, 2, 2, 0, 2], [0; 7]);
    let without_both = ([2, 2, 0, 1, 2, 0, 1], [0; 7]);
    let mut lent = Lent::new(LENGTHS);
    let mut board = built(&mut lent);
    for (one, differ, rows) in [
        (Message::operator_off(2, 9), 8, without_operator),
        (Message::ride_out(1, 9), 5, without_both),
        (Message::operator_on(2, 10), 3, without_ride),
        (Message::operator_on(2, 11), 0, without_ride),
        (Message::ride_in(1, 10), 10, all),
    ] {
        assert_eq!(board.message(one), Ok(differ), "{one:?}");
        assert_eq!((board.row(1), board.row(2)), (Some(&rows.0[..]), Some(&rows.1[..])), "{one:?}");
        assert_eq!(board.row(3), Some(&[0; 7][..]), "{one:?}");
        assert!(board.pairs().eq(PAIRS), "{one:?}");
    }
}

/// A clearance granted or withdrawn while its operator is off: listed or not at once, and counted once the operator is on.
#[test]
fn a_clearance_of_someone_off() {
    let (mut lent, mut other) = (Lent::new(LENGTHS), Lent::new(LENGTHS));
    let (mut board, mut present) = (built(&mut lent), built(&mut other));
    assert_eq!(board.message(Message::operator_off(3, 9)), Ok(2));
    assert_eq!(board.message(Message::grant(3, 1, 9)), Ok(0));
    assert_eq!(board.message(Message::withdrawal(3, 2, 9)), Ok(0));
    assert!(board.pairs().eq([(0, 0), (0, 1), (1, 0), (1, 1), (2, 1), (2, 2), (3, 1)]));
    assert!(!board.cover(0, 0).unwrap().has_operator(3));
    for one in [Message::grant(3, 1, 9), Message::withdrawal(3, 2, 9), Message::operator_on(3, 10)] {
        present.message(one).unwrap();
    }
    assert!(board.message(Message::operator_on(3, 10)).is_ok());
    assert_eq!((board.head(), board.words()), (present.head(), present.words()));
}

/// Whether a node is among these, a bit for each.
fn has(nodes: u32, node: usize) -> bool {
    nodes >> node & 1 == 1
}

/// Cover (alpha, beta) by the definition, on document 01's clearances: of all sets of present nodes in which nobody falls
/// short the union.
fn cover_by_definition(present: u32, alpha: usize, beta: usize) -> u32 {
    let cleared = |operator: usize, ride: usize| PAIRS.contains(&(operator as u16, ride as u16));
    let meets = |set: u32| {
        (0..4).filter(|&u| has(set, u)).all(|u| alpha <= (0..3).filter(|&v| has(set, 4 + v) && cleared(u, v)).count())
            && (0..3)
                .filter(|&v| has(set, 4 + v))
                .all(|v| beta <= (0..4).filter(|&u| has(set, u) && cleared(u, v)).count())
    };
    (0..1 << 7).filter(|&set| set & !present == 0 && meets(set)).fold(0, |union, set| union | set)
}

/// Every choice of operators off and rides out, sent one after another: rows, queries and peels from all ones are those of
/// the definition.
#[test]
fn covers_of_every_choice() {
    for present in 0..1 << 7 {
        let mut lent = Lent::new(LENGTHS);
        let mut board = built(&mut lent);
        for node in (0..7).filter(|&node| !has(present, node)) {
            let place = node as u16;
            let one = if place < 4 { Message::operator_off(place, 1) } else { Message::ride_out(place - 4, 1) };
            board.message(one).unwrap();
        }
        assert!((0..7).all(|node| board.words().presence[node] == has(present, node) as u16));
        for (alpha, beta) in (0..6).flat_map(|alpha| (0..6).map(move |beta| (alpha, beta))) {
            let cover = cover_by_definition(present, alpha, beta);
            let expected: Vec<u16> = (0..7).map(|node| has(cover, node) as u16).collect();
            let (mut queried, mut peeled) = ([9; 7], [1; 7]);
            let (alpha, beta) = (alpha as u16, beta as u16);
            let counts = board.query(alpha, beta, &mut queried).unwrap();
            let steps = 7 - cover.count_ones() as u16;
            assert_eq!(counts.operators + counts.rides, 7 - steps, "{present:07b} ({alpha},{beta})");
            let answer = board.peel(&NONE, &mut peeled, alpha, beta, 7);
            assert_eq!(answer, Ok(Peeled { settled: true, steps }), "{present:07b} ({alpha},{beta})");
            assert_eq!((&queried[..], &peeled[..]), (&expected[..], &expected[..]), "{present:07b} ({alpha},{beta})");
        }
        for alpha in 1..=3 {
            let level = |node| (1..=4).rev().find(|&beta| has(cover_by_definition(present, alpha, beta), node));
            let row: Vec<u16> = (0..7).map(|node| level(node).unwrap_or(0) as u16).collect();
            assert_eq!(board.row(alpha as u16), Some(&row[..]), "{present:07b} row {alpha}");
        }
    }
}

/// A query over slices, with any index and any words: exactly those whose word is 1 are marked, where their level suffices.
#[test]
fn queries_of_any_index() {
    let indices: [[u16; 21]; 4] =
        [[0; 21], [60_000; 21], [1; 21], core::array::from_fn(|place| (place as u16 * 5) % 7)];
    for (index, words) in indices.iter().flat_map(|index| (0..3 << 7).map(move |words| (index, words))) {
        let present = |node: usize| has(words, node);
        let gone = [0, 7, 257][words as usize >> 7];
        let presence: Vec<u16> = (0..7).map(|node| if present(node) { 1 } else { gone }).collect();
        for (alpha, beta) in (0..6u16).flat_map(|alpha| (0..6u16).map(move |beta| (alpha, beta))) {
            let row = alpha.max(1) as usize;
            let level = |node: usize| if row <= 3 { index[(row - 1) * 7 + node] } else { 0 };
            let in_cover = |node: usize| match (node < 4, alpha, beta) {
                (true, 0, _) | (false, _, 0) => true,
                (true, _, _) => beta.max(1) <= level(node),
                (false, _, _) => beta <= level(node),
            };
            let expected: [u16; 7] = core::array::from_fn(|node| (present(node) && in_cover(node)) as u16);
            let mut marks = [9; 8];
            let counts = query(HEAD, index, &presence, alpha, beta, &mut marks).unwrap();
            assert_eq!((&marks[..7], marks[7]), (&expected[..], 9), "{presence:?} ({alpha},{beta})");
            assert_eq!(counts.operators, expected[..4].iter().sum(), "{presence:?} ({alpha},{beta})");
            assert_eq!(counts.rides, expected[4..].iter().sum(), "{presence:?} ({alpha},{beta})");
        }
    }
}

/// Whoever is off or out takes a step of its own, in the order of the numbers among those that fall short. Operator 1 is
/// off and ride 2 out: under (2,2) operator 1, then 2 and 3 with one ride and none, then ride 0 with operator 0 alone, then
/// operator 0 with ride 1 alone, then rides 1 and 2.
#[test]
fn steps_of_a_peel() {
    let mut lent = Lent::new(LENGTHS);
    let mut board = built(&mut lent);
    for one in [Message::operator_off(1, 9), Message::ride_out(2, 9)] {
        board.message(one).unwrap();
    }
    for (limits, order) in [((0, 0), &[1, 6][..]), ((0, 2), &[1, 4, 6][..]), ((2, 2), &[1, 2, 3, 4, 0, 5, 6][..])] {
        let mut expected = [1; 7];
        for allowed in 0..=8 {
            let (mut marks, steps) = ([1; 7], order.len().min(allowed));
            let answer = board.peel(&NONE, &mut marks, limits.0, limits.1, allowed as u16);
            let settled = steps == order.len();
            assert_eq!(answer, Ok(Peeled { settled, steps: steps as u16 }), "{limits:?}, {allowed} allowed");
            assert_eq!(marks, expected, "{limits:?}, {allowed} allowed");
            if allowed < order.len() {
                expected[order[allowed]] = 0;
            }
        }
    }

    // Any word but 1 is off or out.
    let words = board.words();
    for gone in [0, 2, 7, 257, u16::MAX] {
        let (mut marks, presence) = ([1; 7], [1, gone, 1, 1, 1, 1, gone]);
        let clearances = Clearances { presence: &presence, ..words.clearances() };
        let answer = peel(HEAD, clearances, &NONE, &mut marks, 0, 0, 2);
        assert_eq!((answer, marks), (Ok(Peeled { settled: true, steps: 2 }), [1, 0, 1, 1, 1, 1, 0]), "word {gone}");
    }

    // Nobody unmarked takes a step, and the mark of somebody off is checked like any other.
    let mut marks = [1, 0, 1, 0, 1, 0, 1];
    assert_eq!(board.peel(&NONE, &mut marks, 0, 0, 9), Ok(Peeled { settled: true, steps: 1 }));
    assert_eq!(marks, [1, 0, 1, 0, 1, 0, 0]);
    let mut marks = [0, 2, 0, 0, 0, 0, 0];
    assert_eq!(board.peel(&NONE, &mut marks, 0, 0, 9), Err(Refusal::MarkUnknown));
    assert_eq!(marks, [0, 2, 0, 0, 0, 0, 0]);
}

/// 8 reads the fields that the kind uses, and no other; 15 comes after 7, 8, 9 and 14 and before 10. A refusal leaves every
/// word.
#[test]
fn numbers_of_a_message() {
    let mut lent = Lent::new(LENGTHS);
    let mut board = built(&mut lent);
    for one in [Message::operator_off(2, 9), Message::ride_out(2, 9)] {
        board.message(one).unwrap();
    }
    let before = Lent::from(board.words());
    let (of_operator, of_ride) = (Message::operator_off(2, 9), Message::ride_out(2, 9));
    let with_ride = Message { ride: 1, ..of_operator };
    let with_operator = Message { operator: 1, ..of_ride };
    for (refused, refusal) in [
        (of_operator, Refusal::NotLater),
        (of_ride, Refusal::NotLater),
        (Message::operator_on(4, 10), Refusal::OutOfRange),
        (Message::operator_off(u16::MAX, 10), Refusal::OutOfRange),
        (Message::ride_in(3, 10), Refusal::OutOfRange),
        (Message::ride_out(u16::MAX, 10), Refusal::OutOfRange),
        (with_ride, Refusal::UnusedField),
        (with_operator, Refusal::UnusedField),
        (Message { ride: 3, ..Message::operator_on(2, 10) }, Refusal::UnusedField),
        (Message { ride: u16::MAX, ..Message::operator_off(2, 10) }, Refusal::UnusedField),
        (Message { operator: 4, ..Message::ride_in(2, 10) }, Refusal::UnusedField),
        (Message { operator: u16::MAX, ..Message::ride_out(2, 10) }, Refusal::UnusedField),
        (with_ride.with_revision(256), Refusal::RevisionOver),
        (with_operator.with_revision(256), Refusal::RevisionOver),
        (Message { stamp: 0, ..with_ride.with_revision(256) }, Refusal::StampZero),
        (Message { stamp: 0, ..with_operator }, Refusal::StampZero),
        (Message { operator: 4, stamp: 0, ..with_ride }, Refusal::OutOfRange),
        (Message { ride: 3, stamp: 0, ..with_operator }, Refusal::OutOfRange),
        (Message { kind: 0, ..with_ride }, Refusal::KindUnknown),
        (Message { kind: 7, operator: 4, ..with_ride }, Refusal::KindUnknown),
        (of_operator.with_revision(256), Refusal::RevisionOver),
        (Message { stamp: 0, ..of_ride }, Refusal::StampZero),
    ] {
        assert_eq!(board.message(refused), Err(refusal), "{refused:?}");
        assert_eq!((board.head(), &Lent::from(board.words())), (HEAD, &before), "{refused:?}");
    }
    assert_eq!(Refusal::UnusedField.to_string(), "15: message: an unused field is not 0");
}

/// A stored word of no meaning at a full tie: its owner is off or out already, so that neither off nor on is later.
#[test]
fn a_tie_with_any_word() {
    for (word, off_taken) in [(0, false), (1, true), (2, false), (7, false), (257, false), (u16::MAX, false)] {
        for place in [1, 4 + 1] {
            let (mut lent, head) = (Lent::new(LENGTHS), HEAD);
            built(&mut lent);
            (lent.presence_stamps[place], lent.presence_revisions[place], lent.presence[place]) = (8, 3, word);
            let (on, off) = if place < 4 {
                (Message::operator_on(1, 8), Message::operator_off(1, 8))
            } else {
                (Message::ride_in(1, 8), Message::ride_out(1, 8))
            };
            let mut board = Board::attach(lent.parts(), head).unwrap();
            assert_eq!(board.message(on.with_revision(3)), Err(Refusal::NotLater), "word {word}");
            let answer = board.message(off.with_revision(3)).map(|_| ());
            assert_eq!(answer, if off_taken { Ok(()) } else { Err(Refusal::NotLater) }, "word {word}");
            assert_eq!(board.words().presence[place], if off_taken { 0 } else { word });
            assert!(board.message(on.with_revision(4)).is_ok(), "word {word}");
            assert_eq!(board.words().presence, [1; 7], "word {word}");
        }
    }
}

/// A taken message of every kind leaves zeros behind the pairs and the index of the pairs that count, whatever stood there,
/// and answers how many words of the index differ.
#[test]
fn a_damaged_board_taken_up() {
    for one in [
        Message::grant(3, 1, 9),
        Message::withdrawal(2, 2, 9),
        Message::operator_on(2, 9),
        Message::operator_off(2, 9),
        Message::ride_in(1, 9),
        Message::ride_out(1, 9),
    ] {
        let (mut clean, mut damaged) = (Lent::new(LENGTHS), Lent::new(LENGTHS));
        built(&mut damaged);
        damaged.operators[7..].fill(3);
        damaged.rides[7..].fill(60_000);
        damaged.index.fill(777);
        let (mut expected, mut board) = (built(&mut clean), Board::attach(damaged.parts(), HEAD).unwrap());
        assert!(expected.message(one).is_ok(), "{one:?}");
        assert_eq!(board.message(one), Ok(21), "{one:?}");
        assert_eq!((board.head(), board.words()), (expected.head(), expected.words()), "{one:?}");
    }
}

/// Messages for a pair, its operator and its ride end in the same board in every order, one by one and as a list. Full ties
/// of on and off and of in and out are among them, a correction within one stamp, and one that is not valid.
#[test]
fn in_every_order() {
    let messages = [
        Message::operator_off(3, 9),
        Message::operator_on(3, 9).with_revision(1),
        Message::grant(3, 1, 9),
        Message::ride_in(1, 9),
        Message::ride_out(1, 9),
        Message::operator_off(0, 7),
        Message { ride: 1, ..Message::operator_on(0, 8) },
    ];
    let mut last = Lent::new(LENGTHS);
    let mut expected = built(&mut last);
    for one in [messages[1], messages[2], messages[4], messages[5]] {
        expected.message(one).unwrap();
    }
    assert_eq!(expected.words().presence, [0, 1, 1, 1, 1, 0, 1]);
    assert_eq!(expected.words().presence_stamps, [7, 0, 0, 9, 0, 9, 0]);
    assert_eq!(expected.words().presence_revisions, [0, 0, 0, 1, 0, 0, 0]);
    assert_eq!(expected.row(1), Some(&[0, 1, 2, 2, 1, 0, 2][..]));
    for order in orders(&messages) {
        let (mut lent, mut other, mut answers) = (Lent::new(LENGTHS), Lent::new(LENGTHS), [77; 7]);
        let (mut board, mut listed) = (built(&mut lent), built(&mut other));
        let answered = listed.messages(&order, &mut answers).unwrap();
        for (one, answer) in order.iter().zip(answered) {
            assert_eq!(board.message(*one).map(|_| ()), answer, "{order:?}");
        }
        for board in [board, listed] {
            assert_eq!((board.head(), board.words()), (expected.head(), expected.words()), "{order:?}");
        }
    }
}

/// A query goes by the index and the words that it is lent: words of another board, or one written without a message, give
/// marks that are no cover, and a peel on the board finds the cover.
#[test]
fn words_of_another_board() {
    let mut lent = Lent::new(LENGTHS);
    let mut board = built(&mut lent);
    board.message(Message::operator_off(0, 9)).unwrap();
    let words = board.words();
    let mut marks = [9; 7];
    query(HEAD, words.index, &[1; 7], 0, 1, &mut marks).unwrap();
    assert_eq!(marks, [1; 7]);
    query(HEAD, words.index, words.presence, 0, 1, &mut marks).unwrap();
    assert_eq!(marks, [0, 1, 1, 1, 1, 1, 1]);

    built(&mut lent);
    lent.presence[0] = 0;
    let board = Board::attach(lent.parts(), HEAD).unwrap();
    assert!(board.cover(2, 2).unwrap().has_ride(0));
    let mut marks = [1; 7];
    assert_eq!(board.peel(&NONE, &mut marks, 2, 2, 7), Ok(Peeled { settled: true, steps: 7 }));
    assert_eq!(marks, [0; 7]);
}
