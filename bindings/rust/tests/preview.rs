//! A preview: in spare memory the words that the message leaves on a copy, or a refusal that leaves the spare memory.

mod lent;

use board::*;
use lent::Lent;

const PAIRS: [(u16, u16); 7] = [(0, 0), (0, 1), (1, 0), (1, 1), (2, 1), (2, 2), (3, 2)];
const LENGTHS: [usize; 8] = [12, 12, 12, 12, 21, 7, 7, 7];

/// Parts longer than document 01's board needs, with no board in them.
fn longer() -> Lent {
    Lent::new(LENGTHS.map(|length| length + 2))
}

/// Document 01's board built at stamp 5, after a withdrawal, operator 1 off and ride 0 in at stamp 7 with revision 2, in
/// longer parts; and its head. Past the needed lengths the parts hold another word than those without a board.
fn stored() -> (Lent, Head) {
    let mut lent = longer();
    let mut board = Board::build(lent.parts(), 4, 3, &PAIRS, 5).unwrap();
    for one in [Message::withdrawal(3, 2, 7), Message::operator_off(1, 7), Message::ride_in(0, 7)] {
        board.message(one.with_revision(2)).unwrap();
    }
    let head = board.head();
    let [operators, rides, stamps, revisions, index, presence_stamps, presence_revisions, presence] = LENGTHS;
    lent.operators[operators..].fill(555);
    lent.rides[rides..].fill(555);
    lent.stamps[stamps..].fill(555);
    lent.revisions[revisions..].fill(555);
    lent.index[index..].fill(555);
    lent.presence_stamps[presence_stamps..].fill(555);
    lent.presence_revisions[presence_revisions..].fill(555);
    lent.presence[presence..].fill(555);
    (lent, head)
}

/// Every message of a kind, an operator, a ride, a stamp and a revision in range or just past it.
fn messages_of_all_sorts() -> Vec<Message> {
    let pairs = || (0..5).flat_map(|operator| (0..4).map(move |ride| (operator, ride)));
    let sent =
        || [0, 4, 5, 6, 7, 8].into_iter().flat_map(|stamp| [0, 1, 2, 3, 255, 256].map(|revision| (stamp, revision)));
    let message = |kind, (operator, ride), (stamp, revision)| Message { kind, operator, ride, revision, stamp };
    let of = |kind| pairs().flat_map(move |pair| sent().map(move |sent| message(kind, pair, sent)));
    (0..8).flat_map(of).collect()
}

/// Whether the places past the needed lengths are as they came.
fn tails_stand(lent: &Lent) -> bool {
    let [operators, rides, stamps, revisions, index, presence_stamps, presence_revisions, presence] = LENGTHS;
    let words = [
        &lent.operators[operators..],
        &lent.rides[rides..],
        &lent.revisions[revisions..],
        &lent.index[index..],
        &lent.presence_revisions[presence_revisions..],
        &lent.presence[presence..],
    ];
    let stamps = [&lent.stamps[stamps..], &lent.presence_stamps[presence_stamps..]];
    words.iter().all(|tail| *tail == [777; 2]) && stamps.iter().all(|tail| *tail == [777; 2])
}

/// A preview answers as the message does on a copy, and leaves the same words. The message sent afterwards answers so
/// too and leaves those words in the board, which the preview has not changed.
#[test]
fn as_on_a_copy() {
    let (lent, head) = stored();
    let mut counts = [0; 16];
    for one in messages_of_all_sorts() {
        let (mut memory, mut copy, mut spare) = (lent.clone(), lent.clone(), longer());
        let mut copied = Board::attach(copy.parts(), head).unwrap();
        let answer = copied.message(one);
        let previewed = Board::attach(memory.parts(), head).unwrap().preview(one, spare.parts());
        assert_eq!(memory, lent, "{one:?}");
        match previewed {
            Ok((differ, after)) => {
                assert_eq!(Ok(differ), answer, "{one:?}");
                assert_eq!((after.head(), after.words()), (copied.head(), copied.words()), "{one:?}");
                let mut board = Board::attach(memory.parts(), head).unwrap();
                assert_eq!(board.message(one), Ok(differ), "{one:?}");
                assert_eq!((board.head(), board.words()), (after.head(), after.words()), "{one:?}");
                assert!(tails_stand(&spare), "{one:?}");
                counts[0] += 1;
            }
            Err(refusal) => {
                assert_eq!(Err(refusal), answer, "{one:?}");
                assert_eq!(spare, longer(), "{one:?}");
                counts[refusal.number() as usize] += 1;
            }
        }
    }
    for (number, count) in counts.into_iter().enumerate() {
        assert_eq!(count != 0, matches!(number, 0 | 7..=10 | 14 | 15), "{number}: {counts:?}");
    }
}

/// The spare memory is a board of its own: covers, peels, messages and previews on it.
#[test]
fn a_board_of_its_own() {
    let (mut memory, mut spare, mut further) = (Memory::new(), Memory::new(), Memory::new());
    let board = Board::build(memory.parts(), 4, 3, &PAIRS, 1).unwrap();
    let one = Message::grant(3, 1, 2).with_revision(6);
    let (differ, mut granted) = board.preview(one, spare.parts()).unwrap();
    assert_eq!((differ, granted.head().pairs), (8, 8));
    assert_eq!((granted.stamp(3, 1), granted.revision(3, 1)), (Some(2), Some(6)));
    assert_eq!(granted.row(1), Some(&[4, 4, 4, 4, 2, 4, 2][..]));
    assert_eq!(granted.row(2), Some(&[2; 7][..]));
    assert!(granted.cover(2, 2).unwrap().rides().eq([0, 1, 2]));
    let mut marks = [1; 7];
    assert_eq!(granted.peel(&[0; 3], &mut marks, 2, 2, 9), Ok(Peeled { settled: true, steps: 0 }));

    let (_, withdrawn) = granted.preview(Message::withdrawal(0, 0, 3), further.parts()).unwrap();
    assert!(withdrawn.cover(2, 2).unwrap().rides().eq([1, 2]));
    assert!(granted.cover(2, 2).unwrap().rides().eq([0, 1, 2]));

    assert_eq!(granted.message(Message::withdrawal(3, 1, 3)), Ok(8));
    assert!(granted.pairs().eq(PAIRS));
    assert_eq!(granted.words().index, board.words().index);
    assert_eq!((board.stamp(3, 1), granted.stamp(3, 1)), (Some(0), Some(3)));
    assert_eq!((board.revision(3, 1), granted.revision(3, 1)), (Some(0), Some(0)));
    let head = granted.head();
    assert_eq!(Board::attach(spare.parts(), head).unwrap().row(1), board.row(1));
    assert!(Board::build(spare.parts(), 4, 3, &PAIRS, 1).unwrap().words() == board.words());
}

/// Spare memory that is too short by a place, each part in turn.
#[test]
fn a_spare_part_too_short() {
    let (mut memory, head) = stored();
    let mut spare = longer();
    let board = Board::attach(memory.parts(), head).unwrap();
    let one = Message::grant(3, 1, 9);
    for part in 0..LENGTHS.len() {
        let mut lengths = LENGTHS;
        lengths[part] -= 1;
        assert_eq!(board.preview(one, spare.first(lengths)).map(|_| ()), Err(Refusal::PartShort), "part {part}");
        assert_eq!(spare, longer(), "part {part}");
    }
    assert!(board.preview(one, spare.first(LENGTHS)).is_ok());
    assert_ne!(spare, longer());
}

/// The board's parts, the spare head and the spare parts that a preview over slices is lent.
#[derive(Clone, Debug, PartialEq)]
struct Loan {
    head: Head,
    board: Lent,
    spare_head: Head,
    spare: Lent,
}

impl Loan {
    fn new() -> Loan {
        let (board, head) = stored();
        Loan { head, board, spare_head: Head { operators: 7, rides: 77, pairs: 777 }, spare: longer() }
    }

    fn preview(&mut self, one: Message) -> Result<u16, Refusal> {
        let spare = &mut self.spare.parts();
        preview(self.head, self.board.parts().words(), one, &mut self.spare_head, spare)
    }
}

type Damage = fn(&mut Loan, &mut Message);

/// The damages of 1 to 9, 14 and 15 to a message for an operator, in the order in which they are checked; that of 3 shortens
/// a spare part.
const DAMAGES: [(Refusal, Damage); 11] = [
    (Refusal::OperatorsOver, |loan, _| loan.head.operators = 201),
    (Refusal::RidesOver, |loan, _| loan.head.rides = 61),
    (Refusal::PartShort, |loan, _| loan.spare.stamps.truncate(11)),
    (Refusal::PairsOver, |loan, _| loan.head.pairs = 13),
    (Refusal::PairMisplaced, |loan, _| loan.board.rides[2] = 3),
    (Refusal::StampMissing, |loan, _| loan.board.stamps[0] = 0),
    (Refusal::KindUnknown, |_, one| one.kind = 7),
    (Refusal::OutOfRange, |_, one| one.operator = 4),
    (Refusal::StampZero, |_, one| one.stamp = 0),
    (Refusal::RevisionOver, |_, one| one.revision = 256),
    (Refusal::UnusedField, |_, one| one.ride = 3),
];

/// Of two damages the one that is checked first gives its number, and every lent word is as it was, the spare head too.
#[test]
fn the_first_number() {
    for (first, (refusal, damage)) in DAMAGES.into_iter().enumerate() {
        for (_, other) in &DAMAGES[first..] {
            let (mut loan, mut one) = (Loan::new(), Message::operator_off(3, 9));
            other(&mut loan, &mut one);
            damage(&mut loan, &mut one);
            let before = loan.clone();
            assert_eq!(loan.preview(one), Err(refusal));
            assert_eq!(loan, before);
        }
    }
    let mut loan = Loan::new();
    assert_eq!(loan.preview(Message::grant(3, 2, 7).with_revision(2)), Err(Refusal::NotLater));
    assert_eq!(loan.preview(Message::grant(3, 2, 6).with_revision(256)), Err(Refusal::RevisionOver));
    assert_eq!(loan.preview(Message::operator_on(1, 7).with_revision(2)), Err(Refusal::NotLater));
    assert_eq!(loan.preview(Message { ride: 3, ..Message::operator_on(1, 6) }), Err(Refusal::UnusedField));
    assert_eq!(loan, Loan::new());
    assert!(loan.preview(Message::grant(3, 2, 7).with_revision(3)).is_ok());
    assert_eq!((loan.head, loan.spare_head), (Head { pairs: 6, ..loan.head }, Head { pairs: 7, ..loan.head }));
}

/// A part of the board that is too short, each in turn, where the spare parts are long.
#[test]
fn a_part_of_the_board_too_short() {
    for part in 0..LENGTHS.len() {
        let mut loan = Loan::new();
        let mut lengths = LENGTHS;
        lengths[part] -= 1;
        let [operators, rides, stamps, revisions, index, presence_stamps, presence_revisions, presence] = lengths;
        loan.board.operators.truncate(operators);
        loan.board.rides.truncate(rides);
        loan.board.stamps.truncate(stamps);
        loan.board.revisions.truncate(revisions);
        loan.board.index.truncate(index);
        loan.board.presence_stamps.truncate(presence_stamps);
        loan.board.presence_revisions.truncate(presence_revisions);
        loan.board.presence.truncate(presence);
        let before = loan.clone();
        assert_eq!(loan.preview(Message::grant(3, 1, 9)), Err(Refusal::PartShort), "part {part}");
        assert_eq!(loan, before, "part {part}");
    }
}

/// At the largest size: previews from one memory to another and back leave what the messages leave in one board.
#[test]
fn previews_in_turn() {
    let pairs: Vec<(u16, u16)> =
        (0..200).flat_map(|operator| (0..60).map(move |ride| (operator, ride))).step_by(2).collect();
    let (mut memory, mut now, mut next) = (Box::new(Memory::new()), Box::new(Memory::new()), Box::new(Memory::new()));
    let mut board = Board::build(memory.parts(), 200, 60, &pairs, 1).unwrap();
    let mut head = Board::build(now.parts(), 200, 60, &pairs, 1).unwrap().head();
    for turn in 1..40 {
        let (operator, ride, stamp) = ((turn * 89 % 200) as u16, (turn * 37 % 60) as u16, turn + 1);
        let of_the_pair = [Message::withdrawal(operator, ride, stamp), Message::grant(operator, ride, stamp)];
        let of_its_nodes = [Message::operator_off(operator, stamp), Message::ride_out(ride, stamp)];
        for one in
            of_the_pair.into_iter().chain(of_its_nodes).zip(3..).map(|(one, revision)| one.with_revision(revision))
        {
            let (differ, after) = Board::attach(now.parts(), head).unwrap().preview(one, next.parts()).unwrap();
            assert_eq!(board.message(one), Ok(differ), "{one:?}");
            assert_eq!((after.head(), after.words()), (board.head(), board.words()), "{one:?}");
            head = after.head();
            std::mem::swap(&mut now, &mut next);
        }
    }
}
