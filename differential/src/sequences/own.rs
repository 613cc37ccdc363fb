//! Lists of minimums, of peels and covers, and own covers.

use super::{asked, cover_marks, crowd, damage, length, lent, limits, marks, peel, resize, table, Size};
use crate::compared::{Compared, Lent, MINIMUMS_MOST};
use crate::numbers::Numbers;
use differential::Library;
use reference::Head;

/// How many lists there are for a board.
const LISTS: usize = 2;

/// A minimum of a ride's own: below beta or around the rides' mean degree; now and then beta or one above it, 1, one that
/// no ride has the operators for, or any.
fn minimum(numbers: &mut Numbers, head: Head, beta: u16) -> u16 {
    let degree = (head.pairs / head.rides.max(1)).min(head.operators);
    let others = [beta, beta.saturating_add(1), 1, 256, 257, 65535, numbers.word()];
    match numbers.below(8) {
        0..=2 if beta > 1 => 1 + numbers.below(beta as usize - 1) as u16,
        3..=4 => numbers.of(&others),
        _ => 1 + numbers.below(degree as usize + 2) as u16,
    }
}

/// Any words past the rides, which no call reads: none, one or a few.
fn lengthen(numbers: &mut Numbers, list: &mut Vec<u16>) {
    let words = [0, 1, 2, 65535, numbers.word()];
    let places = length(numbers, list.len());
    list.resize_with(places, || numbers.of(&words));
}

/// A list of minimums: none of the rides, some or all of them have one, in some lists the same one. It is as long as needed or
/// a little longer; one in six is one too short, and one in twelve of any length.
pub fn minimums(numbers: &mut Numbers, head: Head, beta: u16) -> Vec<u16> {
    let rides = (head.rides as usize).min(MINIMUMS_MOST);
    let share = numbers.of(&[0, 30, 60, 90, 100]);
    let same = numbers.one_in(5).then(|| minimum(numbers, head, beta));
    let one = |numbers: &mut Numbers| same.unwrap_or_else(|| minimum(numbers, head, beta));
    let mut list: Vec<u16> = (0..rides).map(|_| if numbers.below(100) < share { one(numbers) } else { 0 }).collect();
    lengthen(numbers, &mut list);
    match numbers.below(12) {
        0..=1 => list.truncate(rides.saturating_sub(1)),
        2 => resize(numbers, &mut list, MINIMUMS_MOST),
        _ => {}
    }
    list.truncate(MINIMUMS_MOST);
    list
}

/// Each ride has none, or beta.
pub fn idle_minimums(numbers: &mut Numbers, head: Head, beta: u16) -> Vec<u16> {
    let mut list: Vec<u16> = (0..head.rides).map(|_| numbers.of(&[0, beta])).collect();
    lengthen(numbers, &mut list);
    list
}

/// A board and some lists: an own cover and a peel with minimums for each; some are given a damaged board. Then come a
/// query, which takes no minimums, and a crowd cover with others.
pub fn own<B: Library>(compared: &mut Compared<B>, numbers: &mut Numbers, size: Size) {
    let (n, m) = size.numbers(numbers);
    let pairs = table(numbers, n, m);
    let board = lent(numbers, n, m, &pairs);
    for _ in 0..LISTS {
        let mut lent = asked(numbers, &board);
        if numbers.one_in(3) {
            damage(numbers, &mut lent);
        }
        let (alpha, beta) = limits(numbers, lent.head);
        let minimums = minimums(numbers, lent.head, beta);
        let mut marks = cover_marks(numbers, lent.head);
        compared.own_cover(&lent, &minimums, alpha, beta, &mut marks);
        peel(compared, numbers, &lent);
    }
    let (alpha, beta) = limits(numbers, board.head);
    let mut marks = marks(numbers, board.head);
    compared.query(&board, alpha, beta, &mut marks);
    crowd::one(compared, numbers, &board);
}

/// Own covers on a board whose index is its own: for any minimums a peel from all ones, and for one minimum of all rides, or
/// none, a query for it.
pub fn queried<B: Library>(compared: &mut Compared<B>, numbers: &mut Numbers, board: &Lent) {
    for _ in 0..LISTS {
        let (alpha, beta) = limits(numbers, board.head);
        let minimums = minimums(numbers, board.head, beta);
        let mut covered = cover_marks(numbers, board.head);
        let counts = compared.own_cover(board, &minimums, alpha, beta, &mut covered);
        if counts.code == 0 {
            let mut left = vec![1; board.head.nodes()];
            let peeled = compared.peel(board, &minimums, &mut left, alpha, beta, 65535);
            compared.totals.same_as_peeled(board.head, (counts, &covered), (peeled, &left));
        }

        let one = if numbers.one_in(2) { 0 } else { minimum(numbers, board.head, beta) };
        let mut minimums = vec![one; board.head.rides as usize];
        lengthen(numbers, &mut minimums);
        let mut covered = cover_marks(numbers, board.head);
        let mut queried = covered.clone();
        let counts = compared.own_cover(board, &minimums, alpha, beta, &mut covered);
        if counts.code == 0 {
            let limit = if one == 0 { beta } else { one };
            let answer = compared.query(board, alpha, limit, &mut queried);
            compared.totals.own.queried += 1;
            compared.totals.same_as("own cover", "a query", (counts, &covered), (answer, &queried));
        }
    }
}
