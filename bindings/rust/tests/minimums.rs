//! Minimums of rides: whom a peel drops, and an own cover and a crowd cover mark, where a ride has a minimum of its own,
//! which places of the list are read, and which lists are too short.

mod boards;
mod lent;

use board::*;
use boards::{built, every_choice, largest, HEAD, LENGTHS, PAIRS};
use lent::Lent;

/// A guest count in the second band.
const GUESTS: u16 = 8_000;

/// Two bands, the second with these limits.
fn bands(alpha: u16, beta: u16) -> Bands {
    let second = Band { first: GUESTS, last: GUESTS_MOST, alpha, beta };
    Bands::new(&[Band { first: 0, last: GUESTS - 1, alpha: 9, beta: 9 }, second])
}

/// An own cover gives these marks and counts, whatever marks came in, and leaves those past the nodes. So does a crowd cover
/// for a band with the same limits, and a peel from all ones settles at the same.
fn check(board: &Board, minimums: &[u16], (alpha, beta): (u16, u16), expected: &[u16]) {
    let Head { operators, rides, .. } = board.head();
    let (nodes, case) = (expected.len(), format!("minimums {minimums:?}, ({alpha},{beta})"));
    let counts = Counts {
        operators: expected[..operators as usize].iter().sum(),
        rides: expected[nodes - rides as usize..].iter().sum(),
    };
    for came in [0, 1, 7, u16::MAX] {
        let mut marks = vec![came; nodes + 2];
        assert_eq!(board.own_cover(minimums, alpha, beta, &mut marks), Ok(counts), "{case}");
        assert_eq!((&marks[..nodes], &marks[nodes..]), (expected, &[came; 2][..]), "{case}");
        let mut crowded = vec![came; nodes + 2];
        assert_eq!(board.crowd_cover(bands(alpha, beta), GUESTS, minimums, &mut crowded), Ok(counts), "{case}");
        assert_eq!(crowded, marks, "{case}");
    }
    let cover = board.cover_with(minimums, alpha, beta).unwrap();
    assert_eq!(board.cover_for(bands(alpha, beta), GUESTS, minimums), Ok(cover), "{case}");
    assert_eq!(cover.counts(), counts, "{case}");
    assert!(
        (0..operators).all(|operator| cover.has_operator(operator) == (expected[operator as usize] == 1)),
        "{case}"
    );
    assert!((0..rides).all(|ride| cover.has_ride(ride) == (expected[(operators + ride) as usize] == 1)), "{case}");

    let mut peeled = vec![1; nodes];
    peeled.extend([7; 2]);
    let steps = operators + rides - counts.operators - counts.rides;
    for allowed in [steps, u16::MAX] {
        let mut left = peeled.clone();
        let answer = board.peel(minimums, &mut left, alpha, beta, allowed);
        assert_eq!(answer, Ok(Peeled { settled: true, steps }), "{case}");
        assert_eq!((&left[..nodes], &left[nodes..]), (expected, &[7; 2][..]), "{case}");
    }
}

/// Covers of document 01's board by hand, document 02's two among them.
#[test]
fn covers_of_the_sample() {
    let mut lent = Lent::new(LENGTHS);
    let board = built(&mut lent);
    let high = u16::MAX;
    for (limits, minimums, expected) in [
        ((1, 3), [0, 0, 0], [1, 1, 1, 0, 0, 1, 0]),
        ((1, 3), [2, 0, 0], [1, 1, 1, 0, 1, 1, 0]),
        ((1, 2), [0, 0, 0], [1, 1, 1, 1, 1, 1, 1]),
        ((1, 2), [0, 4, 0], [1, 1, 1, 1, 1, 0, 1]),
        ((1, 2), [0, 3, 0], [1, 1, 1, 1, 1, 1, 1]),
        ((2, 2), [0, 0, 0], [1, 1, 0, 0, 1, 1, 0]),
        ((2, 2), [0, 0, 1], [1, 1, 1, 0, 1, 1, 1]),
        ((2, 2), [0, 3, 1], [1, 1, 1, 0, 1, 1, 1]),
        ((2, 2), [0, 4, 1], [0, 0, 0, 0, 0, 0, 0]),
        ((1, high), [0, 0, 0], [0, 0, 0, 0, 0, 0, 0]),
        ((1, high), [2, 3, 2], [1, 1, 1, 1, 1, 1, 1]),
        ((1, high), [2, 3, 0], [1, 1, 1, 0, 1, 1, 0]),
        ((1, 0), [0, 0, 0], [1, 1, 1, 1, 1, 1, 1]),
        ((1, 0), [0, 0, high], [1, 1, 1, 0, 1, 1, 0]),
        ((2, 0), [0, 3, 0], [1, 1, 1, 0, 1, 1, 1]),
        ((2, 0), [0, 4, 0], [0, 0, 0, 0, 1, 0, 1]),
        ((0, 0), [3, 3, 3], [1, 1, 1, 1, 0, 1, 0]),
        ((0, 1), [high, 3, high], [1, 1, 1, 1, 0, 1, 0]),
    ] {
        check(&board, &minimums, limits, &expected);
    }
}

/// Document 02's picture, where every other ride needs three: the coaster, ride 0, needs five operators and has 0 to 4; the
/// carousel, ride 1, needs two and has 4 and 5.
#[test]
fn a_coaster_of_five_and_a_carousel_of_two() {
    let pairs = [(0, 0), (0, 2), (1, 0), (1, 2), (2, 0), (2, 2), (3, 0), (4, 0), (4, 1), (5, 1)];
    let mut memory = Memory::new();
    let mut board = Board::build(memory.parts(), 6, 3, &pairs, 1).unwrap();
    let (none, minimums, limits) = ([0, 0, 0], [5, 2, 0], (1, 3));
    check(&board, &none, limits, &[1, 1, 1, 1, 1, 0, 1, 0, 1]);
    check(&board, &minimums, limits, &[1, 1, 1, 1, 1, 1, 1, 1, 1]);
    board.message(Message::withdrawal(0, 0, 2)).unwrap();
    check(&board, &none, limits, &[1, 1, 1, 1, 1, 0, 1, 0, 1]);
    check(&board, &minimums, limits, &[1, 1, 1, 0, 1, 1, 0, 1, 1]);
    board.message(Message::grant(0, 0, 3)).unwrap();
    board.message(Message::operator_off(4, 3)).unwrap();
    check(&board, &none, limits, &[1, 1, 1, 1, 0, 0, 1, 0, 1]);
    check(&board, &minimums, limits, &[1, 1, 1, 0, 0, 0, 0, 0, 1]);
}

/// Whether a node is among these, a bit for each.
fn has(nodes: u32, node: usize) -> bool {
    nodes >> node & 1 == 1
}

/// These nodes as marks.
fn marks_of(nodes: u32) -> [u16; 7] {
    core::array::from_fn(|node| has(nodes, node) as u16)
}

/// How many pairs of document 01's clearances a node has in each set.
fn degrees() -> Vec<[u16; 7]> {
    let pairs = |set: u32| PAIRS.into_iter().filter(move |&(u, v)| has(set, u as usize) && has(set, 4 + v as usize));
    let degree =
        |set: u32, node: usize| pairs(set).filter(|&(u, v)| node == u as usize || node == 4 + v as usize).count();
    (0..1 << 7).map(|set| core::array::from_fn(|node| degree(set, node) as u16)).collect()
}

/// Every list of minimums from 0 to 4, under smaller and larger betas, inside every set: an own cover and a crowd cover where
/// these are present and a peel from these marks leave the largest set under the limits, by the definition the union of all in
/// which nobody falls short.
#[test]
fn every_list_by_the_definition() {
    let mut lent = Lent::new(LENGTHS);
    let board = built(&mut lent);
    let (words, degrees) = (board.words(), degrees());
    for (place, (alpha, beta)) in
        (0..125).flat_map(|place| [(0, 2), (1, 0), (1, 3), (2, 2)].map(|limits| (place, limits)))
    {
        let minimums = [place % 5, place / 5 % 5, place / 25];
        let limit = |node: usize| match node {
            0..4 => alpha,
            _ if minimums[node - 4] == 0 => beta,
            _ => minimums[node - 4],
        };
        let meets = |set: &u32| (0..7).all(|node| !has(*set, node) || limit(node) <= degrees[*set as usize][node]);
        let sets: Vec<u32> = (0..1 << 7).filter(meets).collect();
        for inside in 0..1 << 7u32 {
            let largest = sets.iter().filter(|&set| set & !inside == 0).fold(0, |union, set| union | set);
            let case = format!("minimums {minimums:?}, ({alpha},{beta}) inside {inside:07b}");
            let (presence, mut marks) = (marks_of(inside), [9; 7]);
            let clearances = Clearances { presence: &presence, ..words.clearances() };
            let counts = own_cover(HEAD, clearances, &minimums, alpha, beta, &mut marks).unwrap();
            assert_eq!(marks, marks_of(largest), "{case}");
            assert_eq!((counts.operators, counts.rides), (marks[..4].iter().sum(), marks[4..].iter().sum()), "{case}");
            let (bands, mut crowded) = (bands(alpha, beta), [9; 7]);
            let answer = crowd_cover(HEAD, clearances, bands, GUESTS, &minimums, &mut crowded);
            assert_eq!((answer, crowded), (Ok(counts), marks), "{case}");
            let (mut left, steps) = (presence, (inside.count_ones() - largest.count_ones()) as u16);
            let answer = board.peel(&minimums, &mut left, alpha, beta, 7);
            assert_eq!((answer, left), (Ok(Peeled { settled: true, steps }), marks), "{case}");
        }
    }
}

/// All minimums 0 give what a query gives for (alpha, beta), and all the same m what it gives for (alpha, m), whatever beta
/// is.
fn check_all_the_same(board: &Board, alphas: &[u16], betas: &[u16]) {
    let Head { operators, rides, .. } = board.head();
    let mut queried = vec![9; mark_places(operators, rides)];
    for (&alpha, &beta) in alphas.iter().flat_map(|alpha| betas.iter().map(move |beta| (alpha, beta))) {
        board.query(alpha, beta, &mut queried).unwrap();
        check(board, &vec![0; rides as usize], (alpha, beta), &queried);
        if beta != 0 {
            for other in [0, 1, beta, u16::MAX] {
                check(board, &vec![beta; rides as usize], (alpha, other), &queried);
            }
        }
    }
}

/// Every choice of operators off and rides out.
#[test]
fn all_the_same() {
    every_choice(|board| check_all_the_same(board, &[0, 1, 2, 3, 4], &[0, 1, 2, 3, 4]));
}

/// Boards without rides, to which an empty list is lent, without operators, and without either.
#[test]
fn empty_sides() {
    let mut memory = Memory::new();
    for (operators, rides) in [(3, 0), (0, 3), (0, 0)] {
        let board = Board::build(memory.parts(), operators, rides, &[], 1).unwrap();
        check_all_the_same(&board, &[0, 1, 2], &[0, 1, 2]);
    }
    let board = Board::build(memory.parts(), 0, 3, &[], 1).unwrap();
    check(&board, &[0, 1, 0], (1, 0), &[1, 0, 1]);
    let board = Board::build(memory.parts(), 3, 0, &[], 1).unwrap();
    check(&board, &[], (0, 1), &[1, 1, 1]);
}

/// Ride v has the operators 0 to v + 2. Under alpha 0 it is in exactly if v + 3 is at least its limit: each minimum is held
/// against its own ride, and against no operator.
#[test]
fn each_minimum_at_its_ride() {
    let mut memory = Box::new(Memory::new());
    for operators in [62, 200] {
        let pairs: Vec<(u16, u16)> = (0..62).flat_map(|u| (u.max(2) - 2..60).map(move |v| (u, v))).collect();
        let board = Board::build(memory.parts(), operators, 60, &pairs, 1).unwrap();
        let marks = |rides: &dyn Fn(u16) -> bool| {
            let everybody = std::iter::repeat_n(1, operators as usize);
            everybody.chain((0..60).map(|ride| rides(ride) as u16)).collect::<Vec<u16>>()
        };
        // Every other ride needs just what it has, those between one more.
        let minimums: [u16; 60] = core::array::from_fn(|ride| ride as u16 + 3 + ride as u16 % 2);
        check(&board, &minimums, (0, 30), &marks(&|ride| ride % 2 == 0));
        let minimums = minimums.map(|minimum| minimum - 1);
        check(&board, &minimums, (0, 30), &marks(&|_| true));
        // One ride has a minimum, the others have none.
        for place in 0..60 {
            let mut minimums = [0; 60];
            minimums[place as usize] = 3;
            check(&board, &minimums, (0, 30), &marks(&|ride| ride == place || 27 <= ride));
            minimums[place as usize] = 63;
            check(&board, &minimums, (0, 30), &marks(&|ride| ride != place && 27 <= ride));
        }
    }
}

/// The largest board: minimums all the same, and minimums of many sizes, where whoever falls short goes until nobody does.
#[test]
fn the_largest_board() {
    let mut memory = Box::new(Memory::new());
    let board = largest(&mut memory, |u, v| (u * 37 + v * 61 + u * v * 13) % 211 < u / 4 + 60);
    check_all_the_same(&board, &[0, 20, 61], &[0, 20, 70]);

    let mut sizes = Vec::new();
    for (alpha, beta, spread) in (15..30).flat_map(|alpha| [(alpha, 60, 29), (alpha, 80, 101), (alpha, 0, 90)]) {
        let minimums: [u16; 60] = core::array::from_fn(|v| (v as u16 * 23 + alpha) % spread * (v as u16 % 4).min(1));
        let limit = |v: usize| if minimums[v] == 0 { beta } else { minimums[v] };
        let mut expected: Vec<u16> = board.words().presence.to_vec();
        loop {
            let mut degrees = [0; 260];
            for (u, v) in board.pairs().map(|(u, v)| (u as usize, 200 + v as usize)) {
                let both = expected[u] * expected[v];
                (degrees[u], degrees[v]) = (degrees[u] + both, degrees[v] + both);
            }
            let stays =
                |node: usize| if node < 200 { alpha <= degrees[node] } else { limit(node - 200) <= degrees[node] };
            let left: Vec<u16> = (0..260).map(|node| expected[node] * stays(node) as u16).collect();
            if left == expected {
                break;
            }
            expected = left;
        }
        check(&board, &minimums, (alpha, beta), &expected);
        sizes.push(expected.iter().sum::<u16>());
    }
    assert!(sizes.contains(&0) && sizes.iter().any(|size| (100..230).contains(size)), "{sizes:?}");
}

/// A step clears the lowest-numbered operator that falls short, else the lowest-numbered ride below its own limit. An
/// unsettled peel is carried on from the marks that it left.
#[test]
fn steps_of_a_peel() {
    for (gone, minimums, limits, order) in [
        (&[][..], [0, 4, 0], (2, 2), &[3, 5, 0, 1, 2, 4, 6][..]),
        (&[], [0, 0, 0], (2, 2), &[3, 6, 2]),
        (&[], [2, 0, 0], (1, 3), &[6, 3]),
        (&[], [0, 4, 0], (1, 2), &[5]),
        (&[], [3, 0, 3], (0, 0), &[4, 6]),
        (&[], [2, 3, 2], (1, 9), &[]),
        (&[1, 6], [1, 2, 9], (1, 3), &[1, 3, 6]),
        (&[1, 6], [1, 3, 1], (1, 2), &[1, 3, 5, 2, 6]),
        (&[1, 6], [0, 0, 0], (1, 0), &[1, 3, 6]),
    ] {
        let mut lent = Lent::new(LENGTHS);
        built(&mut lent);
        gone.iter().for_each(|&node: &usize| lent.presence[node] = 0);
        let board = Board::attach(lent.parts(), HEAD).unwrap();
        let (mut expected, mut carried_on) = ([1; 7], [1; 7]);
        for allowed in 0..=8 {
            let case = format!("minimums {minimums:?}, {limits:?}, {allowed} allowed");
            let (mut marks, steps) = ([1; 7], order.len().min(allowed));
            let settled = steps == order.len();
            let answer = board.peel(&minimums, &mut marks, limits.0, limits.1, allowed as u16);
            assert_eq!((answer, marks), (Ok(Peeled { settled, steps: steps as u16 }), expected), "{case}");
            assert_eq!(carried_on, expected, "{case}");
            let answer = board.peel(&minimums, &mut carried_on, limits.0, limits.1, 1);
            assert_eq!(answer.map(|peeled| peeled.steps), Ok(!settled as u16), "{case}");
            if allowed < order.len() {
                expected[order[allowed]] = 0;
            }
        }
    }
}

/// Whoever's word is not 1 is in no cover: a ride that is out with a minimum, and without one under beta 0. An operator who
/// is off doesn't count towards a minimum.
#[test]
fn somebody_off() {
    for gone in [0, 2, 7, 257, u16::MAX] {
        for (minimums, limits, expected) in [
            ([0, 0, 0], (0, 0), [1, 0, 1, 1, 1, 1, 0]),
            ([0, 0, 0], (0, 2), [1, 0, 1, 1, 0, 1, 0]),
            ([0, 0, 0], (2, 1), [1, 0, 0, 0, 1, 1, 0]),
            ([0, 2, 1], (0, 0), [1, 0, 1, 1, 1, 1, 0]),
            ([0, 3, 0], (0, 0), [1, 0, 1, 1, 1, 0, 0]),
            ([1, 2, 1], (1, 9), [1, 0, 1, 0, 1, 1, 0]),
            ([2, 2, 2], (1, 1), [1, 0, 1, 0, 0, 1, 0]),
        ] {
            let mut lent = Lent::new(LENGTHS);
            built(&mut lent);
            (lent.presence[1], lent.presence[4 + 2]) = (gone, gone);
            check(&Board::attach(lent.parts(), HEAD).unwrap(), &minimums, limits, &expected);
        }
    }
}

/// A list may be longer than the rides: what stands past them doesn't matter.
#[test]
fn a_longer_list() {
    let mut lent = Lent::new(LENGTHS);
    let board = built(&mut lent);
    for behind in [0, 1, 4, u16::MAX] {
        for length in [3, 4, 7, 8, 60, 61, 300] {
            let list = |minimums: [u16; 3]| [&minimums[..], &vec![behind; length - 3]].concat();
            check(&board, &list([2, 0, 0]), (1, 3), &[1, 1, 1, 0, 1, 1, 0]);
            check(&board, &list([0, 4, 0]), (1, 2), &[1, 1, 1, 1, 1, 0, 1]);
            check(&board, &list([0, 0, 1]), (2, 2), &[1, 1, 1, 0, 1, 1, 1]);
        }
    }
}

/// What is lent to a peel and to an own cover: document 01's board, in parts longer than it needs.
#[derive(Clone, Debug, PartialEq, Eq)]
struct Loan {
    head: Head,
    operators: Vec<u16>,
    rides: Vec<u16>,
    presence: Vec<u16>,
    minimums: Vec<u16>,
    marks: Vec<u16>,
}

impl Loan {
    fn new() -> Loan {
        let mut lent = Lent::new(LENGTHS.map(|length| length + 2));
        built(&mut lent);
        let Lent { operators, rides, presence, .. } = lent;
        Loan { head: HEAD, operators, rides, presence, minimums: vec![2, 0, 0, 9, 9], marks: vec![1; 9] }
    }

    fn cover(&mut self) -> exported::Counts {
        unsafe {
            exported::board_own_cover(
                self.head,
                self.operators.as_ptr(),
                self.operators.len(),
                self.rides.as_ptr(),
                self.rides.len(),
                self.presence.as_ptr(),
                self.presence.len(),
                self.minimums.as_ptr(),
                self.minimums.len(),
                1,
                3,
                self.marks.as_mut_ptr(),
                self.marks.len(),
            )
        }
    }

    fn peel(&mut self) -> exported::Peeled {
        unsafe {
            exported::board_peel(
                self.head,
                self.operators.as_ptr(),
                self.operators.len(),
                self.rides.as_ptr(),
                self.rides.len(),
                self.presence.as_ptr(),
                self.presence.len(),
                self.minimums.as_ptr(),
                self.minimums.len(),
                self.marks.as_mut_ptr(),
                self.marks.len(),
                1,
                3,
                9,
            )
        }
    }

    /// The peel is refused with this, every number beside it is 0, and every lent word is as it was.
    fn check_peel_refused(&mut self, refusal: Refusal) {
        let before = self.clone();
        assert_eq!(self.peel(), exported::Peeled { code: refusal.number(), settled: 0, steps: 0 }, "{before:?}");
        assert_eq!(*self, before);
        let Loan { head, operators, rides, presence, minimums, marks } = self;
        let clearances = Clearances { operators, rides, presence };
        assert_eq!(peel(*head, clearances, minimums, marks, 1, 3, 9), Err(refusal), "{before:?}");
        assert_eq!(*self, before);
    }

    /// The own cover is refused so, too.
    fn check_refused(&mut self, refusal: Refusal) {
        let before = self.clone();
        assert_eq!(self.cover(), exported::Counts { code: refusal.number(), operators: 0, rides: 0 }, "{before:?}");
        assert_eq!(*self, before);
        let Loan { head, operators, rides, presence, minimums, marks } = self;
        let clearances = Clearances { operators, rides, presence };
        assert_eq!(own_cover(*head, clearances, minimums, 1, 3, marks), Err(refusal), "{before:?}");
        assert_eq!(*self, before);
        self.check_peel_refused(refusal);
    }
}

type Damage = fn(&mut Loan);

/// The damages of 1 to 5, in the order in which they are checked: each part one place too short, and no minimum at all.
const DAMAGES: [(Refusal, Damage); 10] = [
    (Refusal::OperatorsOver, |loan| loan.head.operators = 201),
    (Refusal::RidesOver, |loan| loan.head.rides = 61),
    (Refusal::PartShort, |loan| loan.minimums.truncate(2)),
    (Refusal::PartShort, |loan| loan.minimums.clear()),
    (Refusal::PartShort, |loan| loan.operators.truncate(11)),
    (Refusal::PartShort, |loan| loan.rides.truncate(11)),
    (Refusal::PartShort, |loan| loan.presence.truncate(6)),
    (Refusal::PartShort, |loan| loan.marks.truncate(6)),
    (Refusal::PairsOver, |loan| loan.head.pairs = 13),
    (Refusal::PairMisplaced, |loan| loan.rides[2] = 3),
];

/// Of two damages the one that is checked first gives its number, and every lent word is as it was. A mark that is not 0
/// or 1 comes last, and refuses a peel alone: an own cover doesn't read it.
#[test]
fn the_first_number() {
    let whole = Loan::new();
    let (covered, peeled) = (whole.clone().cover(), whole.clone().peel());
    assert_eq!(covered, exported::Counts { code: 0, operators: 3, rides: 2 });
    assert_eq!(peeled, exported::Peeled { code: 0, settled: 1, steps: 2 });
    for (first, (refusal, damage)) in DAMAGES.into_iter().enumerate() {
        for (_, other) in &DAMAGES[first..] {
            let mut loan = whole.clone();
            other(&mut loan);
            damage(&mut loan);
            loan.check_refused(refusal);
            loan.marks[3] = 2;
            loan.check_refused(refusal);
        }
    }
    let mut loan = whole.clone();
    loan.marks[3] = 2;
    loan.check_peel_refused(Refusal::MarkUnknown);
    assert_eq!(loan.cover(), covered);
    assert_eq!(loan.marks, [1, 1, 1, 0, 1, 1, 0, 1, 1]);
}

/// Parts as long as needed suffice, for the largest board too; with a minimum less they are 3.
#[test]
fn as_long_as_needed() {
    let mut loan = Loan::new();
    loan.operators.truncate(12);
    loan.rides.truncate(12);
    loan.presence.truncate(7);
    loan.minimums.truncate(3);
    loan.marks.truncate(7);
    assert_eq!((loan.peel().code, &loan.marks[..]), (0, &[1, 1, 1, 0, 1, 1, 0][..]));
    loan.marks.fill(9);
    assert_eq!((loan.cover().code, &loan.marks[..]), (0, &[1, 1, 1, 0, 1, 1, 0][..]));

    let mut memory = Box::new(Memory::new());
    let board = Board::build(memory.parts(), 200, 60, &[(0, 0), (0, 59)], 1).unwrap();
    let (list, mut marks) = ([1; 60], [1; 260]);
    assert_eq!(board.own_cover(&list, 1, 1, &mut marks), Ok(Counts { operators: 1, rides: 2 }));
    let before = marks;
    for length in 0..60 {
        assert_eq!(board.own_cover(&list[..length], 1, 1, &mut marks), Err(Refusal::PartShort), "{length} places");
        assert_eq!(board.cover_with(&list[..length], 1, 1), Err(Refusal::PartShort), "{length} places");
        let crowded = board.crowd_cover(bands(1, 1), GUESTS, &list[..length], &mut marks);
        assert_eq!(crowded, Err(Refusal::PartShort), "{length} places");
        assert_eq!(board.cover_for(bands(1, 1), GUESTS, &list[..length]), Err(Refusal::PartShort), "{length} places");
        assert_eq!(board.peel(&list[..length], &mut marks, 1, 1, 9), Err(Refusal::PartShort), "{length} places");
    }
    assert_eq!(marks, before);
}

/// An own cover and a crowd cover go by the pairs that are listed and not by the index: on a damaged one a query is wrong and
/// they are right.
#[test]
fn a_damaged_index() {
    let mut lent = Lent::new(LENGTHS);
    built(&mut lent);
    lent.index.fill(60_000);
    lent.operators[7..].fill(3);
    lent.rides[7..].fill(60_000);
    let board = Board::attach(lent.parts(), HEAD).unwrap();
    assert_eq!(board.cover(1, 3).unwrap().counts(), Counts { operators: 4, rides: 3 });
    check(&board, &[2, 0, 0], (1, 3), &[1, 1, 1, 0, 1, 1, 0]);
}
