//! The wrapper over the library: document 01's samples, each refusal, and what it leaves in lent memory.

mod lent;

use board::*;
use lent::Lent;
use std::sync::Mutex;

const SAMPLE: [(u16, u16); 7] = [(0, 0), (0, 1), (1, 0), (1, 1), (2, 1), (2, 2), (3, 2)];

/// No ride has a minimum.
const NONE: [u16; 60] = [0; 60];

/// The board of document 01's samples.
fn sample(memory: &mut Memory, start: u32) -> Board<'_> {
    Board::build(memory.parts(), 4, 3, &SAMPLE, start).unwrap()
}

#[test]
fn rows() {
    let mut memory = Memory::new();
    let board = sample(&mut memory, 1);
    assert_eq!(board.row(0), None);
    assert_eq!(board.row(1), Some(&[3, 3, 3, 2, 2, 3, 2][..]));
    assert_eq!(board.row(2), Some(&[2, 2, 1, 0, 2, 2, 1][..]));
    assert_eq!(board.row(3), Some(&[0; 7][..]));
    assert_eq!(board.row(4), None);
    assert_eq!(board.head(), Head { operators: 4, rides: 3, pairs: 7 });
    assert!(board.pairs().eq(SAMPLE));
}

#[test]
fn covers() {
    let mut memory = Memory::new();
    let board = sample(&mut memory, 1);
    let cover = board.cover(1, 3).unwrap();
    assert_eq!(cover.counts(), Counts { operators: 3, rides: 1 });
    assert!(cover.operators().eq([0, 1, 2]));
    assert!(cover.rides().eq([1]));
    assert!(!cover.has_operator(3) && !cover.has_operator(4) && !cover.has_ride(3));
    assert_eq!(board.cover(1, 4).unwrap().counts(), Counts { operators: 0, rides: 0 });
    assert_eq!(board.cover(4, 1).unwrap().counts(), Counts { operators: 0, rides: 0 });
}

/// The operators and the rides in cover (alpha, beta). A query and a peel from all ones mark the same.
fn members(board: &Board, alpha: u16, beta: u16) -> (Vec<u16>, Vec<u16>) {
    let head = board.head();
    let nodes = head.operators + head.rides;
    let (mut queried, mut peeled) = (vec![9; nodes as usize], vec![1; nodes as usize]);
    let counts = board.query(alpha, beta, &mut queried).unwrap();
    let steps = nodes - counts.operators - counts.rides;
    assert_eq!(
        board.peel(&NONE, &mut peeled, alpha, beta, nodes),
        Ok(Peeled { settled: true, steps }),
        "({alpha},{beta})"
    );
    assert_eq!(queried, peeled, "({alpha},{beta})");
    let cover = board.cover(alpha, beta).unwrap();
    assert_eq!(cover.counts(), counts);
    (cover.operators().collect(), cover.rides().collect())
}

/// A limit of 0 is no limit.
#[test]
fn limits_of_zero() {
    let mut memory = Memory::new();
    let board = sample(&mut memory, 1);
    let (operators, rides) = (vec![0, 1, 2, 3], vec![0, 1, 2]);
    for beta in [0, 1, 2] {
        assert_eq!(members(&board, 0, beta), (operators.clone(), rides.clone()));
    }
    assert_eq!(members(&board, 0, 3), (operators.clone(), vec![1]));
    for beta in [4, u16::MAX] {
        assert_eq!(members(&board, 0, beta), (operators.clone(), vec![]));
    }
    assert_eq!(members(&board, 1, 0), (operators, rides.clone()));
    assert_eq!(members(&board, 2, 0), (vec![0, 1, 2], rides.clone()));
    for alpha in [3, 4, 9, u16::MAX] {
        assert_eq!(members(&board, alpha, 0), (vec![], rides.clone()));
    }

    // Unsettled under limits of 0, and a set that stands.
    let mut marks = [1; 7];
    assert_eq!(board.peel(&NONE, &mut marks, 2, 0, 0), Ok(Peeled { settled: false, steps: 0 }));
    assert_eq!(board.peel(&NONE, &mut marks, 0, 3, 1), Ok(Peeled { settled: false, steps: 1 }));
    assert_eq!(marks, [1, 1, 1, 1, 0, 1, 1]);
    let mut marks = [0, 0, 0, 0, 1, 0, 1];
    assert_eq!(board.peel(&NONE, &mut marks, 1, 0, 9), Ok(Peeled { settled: true, steps: 0 }));
    assert_eq!(marks, [0, 0, 0, 0, 1, 0, 1]);
    marks[3] = 2;
    assert_eq!(board.peel(&NONE, &mut marks, 0, 0, 9), Err(Refusal::MarkUnknown));

    // A ride that nobody is cleared for.
    let board = Board::build(memory.parts(), 1, 2, &[(0, 0)], 1).unwrap();
    assert_eq!(members(&board, 1, 0), (vec![0], vec![0, 1]));
    for alpha in [0, 1] {
        assert_eq!(members(&board, alpha, 1), (vec![0], vec![0]));
    }
}

/// Limits of 0 on boards without rides, where the index has no row, without operators, and without either.
#[test]
fn limits_of_zero_on_empty_sides() {
    let mut memory = Memory::new();
    let board = Board::build(memory.parts(), 3, 0, &[], 1).unwrap();
    for (alpha, beta) in [(0, 0), (0, 1), (0, 5)] {
        assert_eq!(members(&board, alpha, beta), (vec![0, 1, 2], vec![]));
    }
    for (alpha, beta) in [(1, 0), (9, 0), (1, 1)] {
        assert_eq!(members(&board, alpha, beta), (vec![], vec![]));
    }
    let board = Board::build(memory.parts(), 0, 3, &[], 1).unwrap();
    for (alpha, beta) in [(0, 0), (1, 0), (3, 0), (4, 0)] {
        assert_eq!(members(&board, alpha, beta), (vec![], vec![0, 1, 2]));
    }
    for (alpha, beta) in [(0, 1), (1, 1), (4, 1)] {
        assert_eq!(members(&board, alpha, beta), (vec![], vec![]));
    }
    let board = Board::build(memory.parts(), 0, 0, &[], 1).unwrap();
    assert_eq!(members(&board, 0, 0), (vec![], vec![]));
}

#[test]
fn peels() {
    let mut memory = Memory::new();
    let board = sample(&mut memory, 1);
    let mut marks = [1; 7];
    assert_eq!(board.peel(&NONE, &mut marks, 2, 2, 2), Ok(Peeled { settled: false, steps: 2 }));
    assert_eq!(marks, [1, 1, 1, 0, 1, 1, 0]);
    let mut marks = [1; 7];
    assert_eq!(board.peel(&NONE, &mut marks, 2, 2, 3), Ok(Peeled { settled: true, steps: 3 }));
    assert_eq!(board.peel(&NONE, &mut marks, 2, 2, 0), Ok(Peeled { settled: true, steps: 0 }));
    assert_eq!(marks, [1, 1, 0, 0, 1, 1, 0]);
    marks[3] = 2;
    assert_eq!(board.peel(&NONE, &mut marks, 2, 2, 9), Err(Refusal::MarkUnknown));
    assert_eq!(marks, [1, 1, 0, 2, 1, 1, 0]);
}

#[test]
fn messages_of_one_pair() {
    let mut memory = Memory::new();
    let mut board = sample(&mut memory, 1);
    assert_eq!(board.message(Message::grant(3, 1, 2)), Ok(8));
    assert_eq!(board.row(1), Some(&[4, 4, 4, 4, 2, 4, 2][..]));
    assert_eq!(board.row(2), Some(&[2; 7][..]));
    assert_eq!(board.head().pairs, 8);
    assert_eq!(board.stamp(3, 1), Some(2));
    assert_eq!((board.stamp(0, 2), board.stamp(4, 0), board.stamp(0, 3)), (Some(0), None, None));

    let mut board = sample(&mut memory, 5);
    assert_eq!(board.message(Message::grant(0, 0, 5)), Err(Refusal::NotLater));
    assert!(board.message(Message::withdrawal(0, 0, 5)).is_ok());
    assert!(board.message(Message::grant(0, 0, 6)).is_ok());
    for kind in [0, 7, 256, u16::MAX] {
        assert_eq!(board.message(Message { kind, ..Message::grant(3, 0, 6) }), Err(Refusal::KindUnknown));
    }
    assert_eq!(board.message(Message::grant(4, 0, 6)), Err(Refusal::OutOfRange));
    assert_eq!(board.message(Message::grant(0, 3, 6)), Err(Refusal::OutOfRange));
    assert_eq!(board.message(Message::grant(3, 0, 0)), Err(Refusal::StampZero));
}

#[test]
fn a_list_is_its_messages() {
    let list = [
        Message::withdrawal(3, 2, 9),
        Message::grant(3, 2, 8),
        Message { kind: 9, stamp: 1, ..Message::default() },
        Message::grant(2, 0, 7).with_revision(256),
        Message::grant(2, 0, 7).with_revision(2),
        Message::withdrawal(2, 0, 7).with_revision(1),
        Message::operator_off(1, 3),
        Message { ride: 1, ..Message::operator_on(1, 4) },
        Message::operator_on(1, 3),
        Message::ride_out(0, 2),
    ];
    let (mut memory, mut other) = (Memory::new(), Memory::new());
    let mut board = sample(&mut memory, 5);
    let mut answers = [77; 11];
    let read = board.messages(&list, &mut answers).unwrap();
    assert!(read.iter().eq([
        Ok(()),
        Err(Refusal::NotLater),
        Err(Refusal::KindUnknown),
        Err(Refusal::RevisionOver),
        Ok(()),
        Err(Refusal::NotLater),
        Ok(()),
        Err(Refusal::UnusedField),
        Err(Refusal::NotLater),
        Ok(()),
    ]));
    assert_eq!((read.get(1), read.get(4), read.get(10)), (Some(Err(Refusal::NotLater)), Some(Ok(())), None));
    let mut one_by_one = sample(&mut other, 5);
    for (message, answer) in list.into_iter().zip(read) {
        assert_eq!(one_by_one.message(message).map(|_| ()), answer);
    }
    assert_eq!(answers, [0, 10, 7, 14, 0, 10, 0, 15, 10, 0, 77]);
    assert_eq!(board.head(), one_by_one.head());
    assert_eq!(board.words(), one_by_one.words());
    assert_eq!(board.messages(&list, &mut answers[..9]), Err(Refusal::PartShort));
    assert_eq!(board.messages(&[], &mut []).unwrap().iter().len(), 0);
}

/// A part too short by one place, each in turn; and places past the needed length.
#[test]
fn lengths() {
    let head = Head { operators: 4, rides: 3, pairs: 7 };
    for short in 0..9 {
        let length = |part, places: usize| if part == short { places - 1 } else { places + 2 };
        let mut operators = [7; 14];
        let mut rides = [7; 14];
        for (place, pair) in SAMPLE.iter().enumerate() {
            (operators[place], rides[place]) = *pair;
        }
        let (mut stamps, mut revisions, mut index) = ([7; 14], [7; 14], [7; 23]);
        let (mut presence_stamps, mut presence_revisions, mut presence) = ([7; 9], [7; 9], [7; 9]);
        let before = (operators, rides, stamps, revisions, index, presence_stamps, presence_revisions, presence);
        let mut parts = Parts {
            operators: &mut operators[..length(0, 12)],
            rides: &mut rides[..length(1, 12)],
            stamps: &mut stamps[..length(2, 12)],
            revisions: &mut revisions[..length(3, 12)],
            index: &mut index[..length(4, 21)],
            presence_stamps: &mut presence_stamps[..length(5, 7)],
            presence_revisions: &mut presence_revisions[..length(6, 7)],
            presence: &mut presence[..length(7, 7)],
        };
        let answer = build(head, &mut parts, 1);
        if short < 8 {
            assert_eq!(answer, Err(Refusal::PartShort));
            let after = (operators, rides, stamps, revisions, index, presence_stamps, presence_revisions, presence);
            assert_eq!(after, before);
        } else {
            assert_eq!(answer, Ok(()));
            let tails = [&operators[12..], &rides[12..], &revisions[12..], &index[21..]];
            assert_eq!((tails, &stamps[12..]), ([&[7; 2][..]; 4], &[7; 2][..]));
            let tails = [&presence_revisions[7..], &presence[7..]];
            assert_eq!((tails, &presence_stamps[7..]), ([&[7; 2][..]; 2], &[7; 2][..]));
        }
    }
    let mut marks = [9; 7];
    for (alpha, beta) in [(1, 1), (0, 0), (0, 1), (4, 0)] {
        assert_eq!(query(head, &[0; 20], &[1; 7], alpha, beta, &mut marks), Err(Refusal::PartShort));
        assert_eq!(query(head, &[0; 21], &[1; 6], alpha, beta, &mut marks), Err(Refusal::PartShort));
        assert_eq!(query(head, &[0; 21], &[1; 7], alpha, beta, &mut marks[..6]), Err(Refusal::PartShort));
        for short in 0..5 {
            let [operators, rides, presence, minimums, marked] =
                core::array::from_fn(|part| [12, 12, 7, 3, 7][part] - (part == short) as usize);
            let (operators, rides, presence) = (&[0; 12][..operators], &[0; 12][..rides], &[1; 7][..presence]);
            let clearances = Clearances { operators, rides, presence };
            let (minimums, marks) = (&NONE[..minimums], &mut marks[..marked]);
            let peeled = peel(head, clearances, minimums, marks, alpha, beta, 1);
            assert_eq!(peeled, Err(Refusal::PartShort));
            let covered = own_cover(head, clearances, minimums, alpha, beta, marks);
            assert_eq!(covered, Err(Refusal::PartShort));
        }
    }
    assert_eq!(marks, [9; 7]);
}

/// A message call and a list call of that message, over lent parts.
fn send(mut parts: Parts, head: &mut Head, one: Message, answers: &mut [u16]) -> [Result<(), Refusal>; 2] {
    let sent = message(head, &mut parts, one);
    let listed = messages(head, &mut parts, &[one], answers);
    [sent.map(|_| ()), listed.map(|_| ())]
}

/// A message of each kind, valid on a board of one operator and one ride.
const OF_EACH_KIND: [Message; 6] = [
    Message::grant(0, 0, 6),
    Message::withdrawal(0, 0, 6),
    Message::operator_on(0, 6),
    Message::operator_off(0, 6),
    Message::ride_in(0, 6),
    Message::ride_out(0, 6),
];

/// A part one place too short, each in turn, is 3 for a message and for a list of every kind, before 7, 8, 9, 14 and 15. No
/// lent word changes.
#[test]
fn a_part_too_short() {
    let needed = [12, 12, 12, 12, 21, 7, 7, 7];
    let mut lent = Lent::new(needed);
    let mut head = Board::build(lent.parts(), 4, 3, &SAMPLE, 5).unwrap().head();
    let (before, mut answers) = (lent.clone(), [77]);
    let invalid = [
        Message { kind: 7, ..Message::default() },
        Message::ride_out(3, 6),
        Message::operator_on(0, 0),
        Message::grant(3, 1, 6).with_revision(256),
        Message { ride: 1, ..Message::operator_off(0, 6) },
    ];
    for part in 0..needed.len() {
        let mut lengths = needed;
        lengths[part] -= 1;
        for one in OF_EACH_KIND.into_iter().chain(invalid) {
            let answer = send(lent.first(lengths), &mut head, one, &mut answers);
            assert_eq!(answer, [Err(Refusal::PartShort); 2], "part {part}, {one:?}");
            assert_eq!((&lent, head.pairs, answers), (&before, 7, [77]), "part {part}, {one:?}");
        }
    }
    assert_eq!(send(lent.first(needed), &mut head, OF_EACH_KIND[3], &mut answers), [Ok(()); 2]);
    assert_eq!(answers, [10]);
}

/// A listed pair with stamp 0, which no board of [`Board`] has, is 6 for every kind, whether the pair counts or not.
#[test]
fn a_stamp_missing() {
    for presence in [vec![1, 1], vec![0, 1], vec![1, 0]] {
        let before = Lent {
            operators: vec![0],
            rides: vec![0],
            stamps: vec![0],
            revisions: vec![3],
            index: vec![5, 5],
            presence_stamps: vec![5, 5],
            presence_revisions: vec![5, 5],
            presence,
        };
        let (mut lent, mut answers) = (before.clone(), [9]);
        let mut head = Head { operators: 1, rides: 1, pairs: 1 };
        for one in OF_EACH_KIND {
            let answer = send(lent.parts(), &mut head, one, &mut answers);
            assert_eq!(answer, [Err(Refusal::StampMissing); 2], "{one:?}");
        }
        assert_eq!((head.pairs, lent, answers), (1, before, [9]));
    }
}

/// A board in static memory.
#[test]
fn in_a_static() {
    static MEMORY: Mutex<Memory> = Mutex::new(Memory::new());
    let mut memory = MEMORY.lock().unwrap();
    let mut board = Board::build(memory.parts(), 200, 60, &[(0, 5), (3, 5), (17, 4)], 1).unwrap();
    assert!(!board.cover(1, 3).unwrap().has_ride(5));
    board.message(Message::grant(17, 5, 1_700_000_000)).unwrap();
    assert!(board.cover(1, 3).unwrap().has_ride(5));
}

#[test]
fn numbers_and_texts() {
    assert_eq!(Refusal::check(0), Ok(()));
    for (place, refusal) in Refusal::ALL.iter().enumerate() {
        let number = place as u16 + 1;
        assert_eq!((refusal.number(), Refusal::from_number(number)), (number, Some(*refusal)));
        assert_eq!(Refusal::check(number), Err(*refusal));
    }
    assert_eq!((Refusal::from_number(0), Refusal::from_number(19)), (None, None));
    assert_eq!(Refusal::NotLater.to_string(), "10: message not later than the last of its pair, operator or ride");
}

/// The C header has the same numbers, texts, kinds and sizes, its texts in ASCII.
#[test]
fn the_header_agrees() {
    let header = include_str!("../../../include/board.h");
    for refusal in Refusal::ALL {
        let text = refusal.text().replace('×', "x").replace('α', "alpha").replace('β', "beta");
        let number = format!(" = {}", refusal.number());
        let constant = header.lines().find(|line| line.trim_start().starts_with("BOARD_") && line.contains(&number));
        let constant = constant.unwrap().split('=').next().unwrap().trim();
        assert!(header.contains(&format!("case {constant}:\n        return \"{text}\";\n")), "{refusal}");
    }
    assert!(header.contains(&format!("BOARD_OPERATORS_MOST {OPERATORS_MOST}\n")));
    assert!(header.contains(&format!("BOARD_RIDES_MOST {RIDES_MOST}\n")));
    assert!(header.contains(&format!("BOARD_REVISION_MOST {REVISION_MOST}\n")));
    assert!(header.contains(&format!("BOARD_BANDS_MOST {BANDS_MOST}\n")));
    assert!(header.contains(&format!("BOARD_GUESTS_MOST {GUESTS_MOST}\n")));
    assert!(header.contains(&format!("BOARD_PRESENT {PRESENT}\n")));
    for (name, kind) in [
        ("GRANT", GRANT),
        ("WITHDRAWAL", WITHDRAWAL),
        ("OPERATOR_ON", OPERATOR_ON),
        ("OPERATOR_OFF", OPERATOR_OFF),
        ("RIDE_IN", RIDE_IN),
        ("RIDE_OUT", RIDE_OUT),
    ] {
        assert!(header.contains(&format!("    BOARD_{name} = {kind}")), "{name}");
    }
    assert_eq!((size_of::<Head>(), size_of::<Message>()), (6, 12));
    assert_eq!((size_of::<Band>(), size_of::<Bands>(), size_of::<exported::CrowdLimits>()), (8, 66, 6));
    assert_eq!(core::mem::offset_of!(Bands, bands), 2);
    assert_eq!((core::mem::offset_of!(Message, revision), core::mem::offset_of!(Message, stamp)), (6, 8));
}
