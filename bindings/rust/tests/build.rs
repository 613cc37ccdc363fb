//! A refused `Board::build`: its number is the exported build's, and every lent word is as it was.

mod lent;

use board::*;
use lent::Lent;

/// The lengths that a board needs, of a size that is allowed or not.
fn needed(operators: u16, rides: u16) -> [usize; 8] {
    let (places, nodes) = (pair_places(operators, rides), mark_places(operators, rides));
    [places, places, places, places, index_places(operators, rides), nodes, nodes, nodes]
}

/// The exported build, over pair arrays in which the pairs stand, as many as there is room for.
fn exported(lent: &mut Lent, operators: u16, rides: u16, pairs: &[(u16, u16)], start: u32) -> Result<(), Refusal> {
    for ((operator, ride), pair) in lent.operators.iter_mut().zip(&mut lent.rides).zip(pairs) {
        (*operator, *ride) = *pair;
    }
    let head = Head { operators, rides, pairs: u16::try_from(pairs.len()).unwrap_or(u16::MAX) };
    build(head, &mut lent.parts(), start)
}

/// Both builds from the same words: one answer, and the same words where it is `Ok`. Its number.
fn compare(lengths: [usize; 8], operators: u16, rides: u16, pairs: &[(u16, u16)], start: u32) -> usize {
    let mut lent = Lent::new(lengths);
    let (before, mut other) = (lent.clone(), lent.clone());
    let answer = Board::build(lent.parts(), operators, rides, pairs, start).map(|_| ());
    let given = (lengths, operators, rides, pairs, start);
    assert_eq!(answer, exported(&mut other, operators, rides, pairs, start), "{given:?}");
    assert!(lent == if answer.is_ok() { other } else { before }, "{given:?}");
    answer.map_or_else(|refusal| refusal.number() as usize, |_| 0)
}

/// How often each number was answered, all that a build has among them.
fn check_counts(counts: [usize; 16]) {
    for (number, count) in counts.into_iter().enumerate() {
        assert_eq!(count != 0, matches!(number, 0..=5 | 9), "{number}: {counts:?}");
    }
}

/// Every list of up to three pairs, in range or one past it, on every board up to 2 × 2 and four over a limit, with each
/// part too short in turn.
#[test]
fn numbers_of_every_small_table() {
    let mut counts = [0; 16];
    let small = (0..3).flat_map(|operators| (0..3).map(move |rides| (operators, rides)));
    for (operators, rides) in small.chain([(201, 1), (1, 61), (201, 61), (u16::MAX, u16::MAX)]) {
        let lengths = needed(operators.min(2), rides.min(2));
        let of: Vec<(u16, u16)> =
            (0..=operators.min(2)).flat_map(|operator| (0..=rides.min(2)).map(move |ride| (operator, ride))).collect();
        for count in 0..4 {
            for list in 0..of.len().pow(count) {
                let pairs: Vec<_> = (0..count).map(|place| of[list / of.len().pow(place) % of.len()]).collect();
                for short in 0..=lengths.len() {
                    let mut lengths = lengths;
                    if short < lengths.len() {
                        lengths[short] = lengths[short].saturating_sub(1);
                    }
                    for start in [0, 1] {
                        counts[compare(lengths, operators, rides, &pairs, start)] += 1;
                    }
                }
            }
        }
    }
    check_counts(counts);
}

/// A sequence of numbers from a seed (xorshift).
struct Numbers(u64);

impl Numbers {
    fn below(&mut self, limit: usize) -> usize {
        self.0 ^= self.0 << 13;
        self.0 ^= self.0 >> 7;
        self.0 ^= self.0 << 17;
        (self.0 >> 16) as usize % limit
    }

    fn one_in(&mut self, limit: usize) -> bool {
        self.below(limit) == 0
    }
}

/// Larger tables at random, whole or with one or more damages.
#[test]
fn numbers_of_damaged_tables() {
    let mut counts = [0; 16];
    let mut numbers = Numbers(20_260_101);
    for _ in 0..4000 {
        let (operators, rides) = match numbers.below(40) {
            0 => (200, 60),
            1 => (201, numbers.below(62) as u16),
            2 => (numbers.below(202) as u16, 61),
            _ => (numbers.below(13) as u16, numbers.below(9) as u16),
        };
        let mut lengths = needed(operators, rides).map(|length| length + numbers.below(3));
        let mut pairs: Vec<(u16, u16)> = (0..operators)
            .flat_map(|operator| (0..rides).map(move |ride| (operator, ride)))
            .filter(|_| numbers.one_in(2))
            .collect();
        if numbers.one_in(4) && !pairs.is_empty() {
            let (one, other) = (numbers.below(pairs.len()), numbers.below(pairs.len()));
            match numbers.below(4) {
                0 => pairs[one].0 = operators,
                1 => pairs[one].1 = rides,
                2 => pairs[one] = pairs[other],
                _ => pairs.swap(one, other),
            }
        }
        if numbers.one_in(12) {
            let most = if numbers.one_in(4) { 66_000 } else { pair_places(operators, rides) + numbers.below(3) };
            pairs.resize(most, (0, 0));
        }
        if numbers.one_in(8) {
            let part = numbers.below(lengths.len());
            lengths[part] = numbers.below(lengths[part] + 1);
        }
        let start = if numbers.one_in(8) { 0 } else { u32::MAX };
        counts[compare(lengths, operators, rides, &pairs, start)] += 1;
    }
    check_counts(counts);
}

/// A board that took a message stands through a refused build of each number, in every word of the lent parts.
#[test]
fn the_board_before_stands() {
    let pairs = [(0, 0), (0, 1), (1, 0), (1, 1), (2, 1), (2, 2), (3, 2)];
    let mut lent = Lent::new(needed(4, 3).map(|length| length + 2));
    let mut board = Board::build(lent.parts(), 4, 3, &pairs, 1).unwrap();
    board.message(Message::grant(3, 1, 2).with_revision(4)).unwrap();
    board.message(Message::operator_off(0, 2).with_revision(1)).unwrap();
    let (head, cover) = (board.head(), board.cover(2, 2).unwrap());
    let before = lent.clone();

    let mut refused = |lengths, operators, rides, pairs: &[(u16, u16)], start| {
        let answer = Board::build(lent.first(lengths), operators, rides, pairs, start).map(|_| ());
        assert_eq!(lent, before);
        assert_eq!(Board::attach(lent.parts(), head).unwrap().cover(2, 2), Ok(cover));
        answer.unwrap_err()
    };
    let whole = before.lengths();
    assert_eq!(refused(whole, 201, 61, &[(1, 1)], 1), Refusal::OperatorsOver);
    assert_eq!(refused(whole, 4, 61, &[(1, 1)], 1), Refusal::RidesOver);
    for (part, length) in needed(4, 3).into_iter().enumerate() {
        let mut lengths = whole;
        lengths[part] = length - 1;
        assert_eq!(refused(lengths, 4, 3, &[(1, 1)], 1), Refusal::PartShort);
    }
    assert_eq!(refused(whole, 1, 1, &[(0, 0), (0, 1)], 1), Refusal::PairsOver);
    assert_eq!(refused(whole, 1, 1, &[(0, 0); 70_000], 1), Refusal::PairsOver);
    assert_eq!(refused(whole, 2, 2, &[(1, 0), (2, 0)], 1), Refusal::PairMisplaced);
    assert_eq!(refused(whole, 2, 2, &[(1, 0), (1, 2)], 1), Refusal::PairMisplaced);
    assert_eq!(refused(whole, 2, 2, &[(1, 0), (1, 0)], 1), Refusal::PairMisplaced);
    assert_eq!(refused(whole, 2, 2, &[(1, 0), (0, 1)], 1), Refusal::PairMisplaced);
    assert_eq!(refused(whole, 2, 2, &[(1, 0), (1, 1)], 0), Refusal::StampZero);
}

/// A build sets the revision of every pair to 0, listed or not, whatever stood there, and no place behind them.
#[test]
fn revisions_of_a_build() {
    let mut lent = Lent::new(needed(4, 3).map(|length| length + 2));
    for turn in 0..2 {
        let mut board = Board::build(lent.parts(), 4, 3, &[(0, 0), (3, 2)], 5).unwrap();
        assert_eq!(board.words().revisions, [0; 12], "turn {turn}");
        board.message(Message::withdrawal(0, 0, 5).with_revision(255)).unwrap();
        board.message(Message::grant(2, 1, 1).with_revision(7)).unwrap();
        assert_eq!(board.words().revisions, [255, 0, 0, 0, 0, 0, 0, 7, 0, 0, 0, 0], "turn {turn}");
        assert_eq!(lent.revisions[12..], [777; 2], "turn {turn}");
    }
}

/// A build sets every operator on and every ride in, with stamp and revision 0, whatever stood there, and no place behind
/// them; and whatever words stood there, the index is that of all pairs.
#[test]
fn presence_of_a_build() {
    let mut lent = Lent::new(needed(4, 3).map(|length| length + 2));
    let row = [1, 0, 0, 1, 1, 0, 1];
    for turn in 0..2 {
        let mut board = Board::build(lent.parts(), 4, 3, &[(0, 0), (3, 2)], 5).unwrap();
        assert_eq!((board.words().presence_stamps, board.words().presence_revisions), (&[0; 7][..], &[0; 7][..]));
        assert_eq!((board.words().presence, board.row(1)), (&[1; 7][..], Some(&row[..])), "turn {turn}");
        board.message(Message::operator_off(3, 1).with_revision(255)).unwrap();
        board.message(Message::ride_in(1, 4).with_revision(7)).unwrap();
        assert_eq!(board.words().presence_stamps, [0, 0, 0, 1, 0, 4, 0], "turn {turn}");
        assert_eq!(board.words().presence_revisions, [0, 0, 0, 255, 0, 7, 0], "turn {turn}");
        assert_eq!(board.words().presence, [1, 1, 1, 0, 1, 1, 1], "turn {turn}");
        assert_eq!(lent.presence_stamps[7..], [777; 2], "turn {turn}");
        assert_eq!((&lent.presence_revisions[7..], &lent.presence[7..]), (&[777; 2][..], &[777; 2][..]), "turn {turn}");
    }
}
