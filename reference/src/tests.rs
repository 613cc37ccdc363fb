//! The samples of documents 01 and 02, and the definitions against what they say of every set.

mod crowd;
mod minimums;

use super::corrections::{Corrections, BESIDE_14, CORRECTIONS, SHORT_REVISIONS};
use super::presence::{Delivery, Node, Rows, Turns, Words, BEFORE_15, BESIDE_15, BESIDE_6, BUILT_OVER, DELIVERIES};
use super::presence::{ALL_COUNT, NODES, ONE_SIDED, OTHERS, PEELS, QUERIES, SHORT_PRESENCE, TURNS};
use super::presence::{UNSTAMPED, WORDS_BESIDE_6};
use super::samples::{BY_NO_INDEX, LIMITS_FROM_0, NO_INDEX, PAIRS, PEELS_FROM_0, SHORT_FROM_0, START};
use super::*;

/// Memory for a board, longer by two places in each part than it needs.
#[derive(Clone, Debug, PartialEq)]
struct Store {
    head: Head,
    parts: Vectors,
}

impl Store {
    fn new(operators: u16, rides: u16, pairs: &[(u16, u16)]) -> Self {
        let head = Head { operators, rides, pairs: pairs.len() as u16 };
        let mut parts = head.lengths().map(|needed| vec![7; needed + 2], |needed| vec![7; needed + 2]);
        for (place, pair) in pairs.iter().enumerate() {
            (parts.operators[place], parts.rides[place]) = *pair;
        }
        Store { head, parts }
    }

    fn build(&mut self, start: u32) -> u16 {
        build(self.head, &mut self.parts.lend(), start)
    }

    fn query(&self, alpha: u16, beta: u16) -> (Counts, Vec<u16>) {
        let mut marks = vec![9; self.head.nodes()];
        let counts = query(self.head, &self.parts.index, &self.parts.presence, alpha, beta, &mut marks);
        (counts, marks)
    }

    /// A peel without minimums.
    fn peel(&self, marks: &mut [u16], alpha: u16, beta: u16, steps: u16) -> Peeled {
        self.peel_with(&vec![0; self.head.rides as usize], marks, (alpha, beta), steps)
    }

    fn peel_with(&self, minimums: &[u16], marks: &mut [u16], (alpha, beta): (u16, u16), steps: u16) -> Peeled {
        let Vectors { operators, rides, presence, .. } = &self.parts;
        peel(self.head, operators, rides, presence, minimums, marks, alpha, beta, steps)
    }

    fn message(&mut self, one: Message) -> Answer {
        message(&mut self.head, &mut self.parts.lend(), one)
    }

    /// A list. Its own number, and those of its messages.
    fn messages(&mut self, list: &[Message]) -> (u16, Vec<u16>) {
        let mut answers = vec![9; list.len()];
        let code = messages(&mut self.head, &mut self.parts.lend(), list, &mut answers);
        (code, answers)
    }

    fn preview(&self, one: Message, spare: &mut Store) -> Answer {
        preview(self.head, &self.parts.view(), one, &mut spare.head, &mut spare.parts.lend())
    }

    fn row(&self, alpha: usize) -> &[u16] {
        &self.parts.index[(alpha - 1) * self.head.nodes()..alpha * self.head.nodes()]
    }
}

/// The board of document 01's samples.
fn sample(start: u32) -> Store {
    let mut store = Store::new(4, 3, &PAIRS);
    assert_eq!(store.build(start), 0);
    store
}

/// A message of revision 0.
const fn unrevised(kind: u16, operator: u16, ride: u16, stamp: u32) -> Message {
    Message { kind, operator, ride, revision: 0, stamp }
}

#[test]
fn rows() {
    let board = sample(1);
    assert_eq!(board.row(1), [3, 3, 3, 2, 2, 3, 2]);
    assert_eq!(board.row(2), [2, 2, 1, 0, 2, 2, 1]);
    assert_eq!(board.row(3), [0; 7]);
    assert_eq!(board.parts.index[21..], [7, 7]);
    assert_eq!(board.parts.operators, [0, 0, 1, 1, 2, 2, 3, 0, 0, 0, 0, 0, 7, 7]);
    assert_eq!(board.parts.rides, [0, 1, 0, 1, 1, 2, 2, 0, 0, 0, 0, 0, 7, 7]);
    assert_eq!(board.parts.stamps, [1, 1, 0, 1, 1, 0, 0, 1, 1, 0, 0, 1, 7, 7]);
    assert_eq!(board.parts.revisions, [0, 0, 0, 0, 0, 0, 0, 0, 0, 0, 0, 0, 7, 7]);
    assert_eq!(board.parts.presence_stamps, [0, 0, 0, 0, 0, 0, 0, 7, 7]);
    assert_eq!(board.parts.presence_revisions, [0, 0, 0, 0, 0, 0, 0, 7, 7]);
    assert_eq!(board.parts.presence, [1, 1, 1, 1, 1, 1, 1, 7, 7]);
}

#[test]
fn covers() {
    let board = sample(1);
    assert_eq!(board.query(1, 3), (Counts { code: 0, operators: 3, rides: 1 }, vec![1, 1, 1, 0, 0, 1, 0]));
    assert_eq!(board.query(1, 4), (Counts { code: 0, operators: 0, rides: 0 }, vec![0; 7]));
    assert_eq!(board.query(4, 1), (Counts { code: 0, operators: 0, rides: 0 }, vec![0; 7]));
}

/// Document 02: by a query after a build, by a peel from all ones, and by the program.
#[test]
fn limits_from_0() {
    for sample in LIMITS_FROM_0 {
        let (alpha, beta) = (sample.alpha, sample.beta);
        let mut board = Store::new(sample.operators, sample.rides, sample.pairs);
        assert_eq!(board.build(1), 0);
        let [operators, rides] = sample.counts();
        assert_eq!(board.query(alpha, beta), (Counts { code: 0, operators, rides }, sample.marks.to_vec()));
        let mut marks = vec![1; sample.marks.len()];
        let peeled = board.peel(&mut marks, alpha, beta, 65535);
        assert_eq!((peeled, &marks[..]), (Peeled { code: 0, settled: 1, steps: sample.steps() }, sample.marks));
        let listed = sample.pairs.iter().map(|pair| pair.0).chain(sample.pairs.iter().map(|pair| pair.1));
        let words: Vec<u16> =
            [sample.operators, sample.rides, board.head.pairs].into_iter().chain(listed).chain([alpha, beta]).collect();
        assert_eq!(String::from_utf8(cover(&input(&words))).unwrap(), sample.text);
    }
}

#[test]
fn queries_go_by_the_index() {
    let head = Head { operators: 2, rides: 2, pairs: 0 };
    for &(alpha, beta, expected) in BY_NO_INDEX {
        let mut marks = [9; 4];
        let counts = query(head, &NO_INDEX, &[PRESENT; 4], alpha, beta, &mut marks);
        let (operators, rides) = (expected[0] + expected[1], expected[2] + expected[3]);
        assert_eq!((counts, marks), (Counts { code: 0, operators, rides }, expected));
    }
}

/// Short parts get 3, also where no row is read; with the lengths that are needed the same limits are accepted. Sizes get
/// 1 and 2 before that.
#[test]
fn refused_queries() {
    for &(operators, rides, index, marks, (alpha, beta)) in SHORT_FROM_0 {
        let head = Head { operators, rides, pairs: 0 };
        let presence = vec![PRESENT; head.nodes()];
        let mut left = vec![9; marks];
        let counts = query(head, &vec![1; index], &presence, alpha, beta, &mut left);
        assert_eq!((counts, left), (Counts { code: 3, operators: 0, rides: 0 }, vec![9; marks]));
        assert_eq!(query(head, &vec![1; head.words()], &presence, alpha, beta, &mut vec![9; head.nodes()]).code, 0);
    }
    for (alpha, beta) in [(0, 0), (0, 1), (1, 0)] {
        for (operators, rides, code) in [(201, 61, 1), (200, 61, 2)] {
            let counts = query(Head { operators, rides, pairs: 0 }, &[], &[], alpha, beta, &mut []);
            assert_eq!(counts, Counts { code, operators: 0, rides: 0 });
        }
    }
}

#[test]
fn peels() {
    let board = sample(1);
    let mut marks = [1; 7];
    for (steps, after) in [[1, 1, 1, 0, 1, 1, 1], [1, 1, 1, 0, 1, 1, 0], [1, 1, 0, 0, 1, 1, 0]].iter().enumerate() {
        let mut marks = [1; 7];
        let settled = (steps == 2) as u16;
        let steps = steps as u16 + 1;
        assert_eq!(board.peel(&mut marks, 2, 2, steps), Peeled { code: 0, settled, steps });
        assert_eq!(marks, *after);
    }
    assert_eq!(board.peel(&mut marks, 2, 2, 65535), Peeled { code: 0, settled: 1, steps: 3 });
    assert_eq!(board.peel(&mut marks, 2, 2, 0), Peeled { code: 0, settled: 1, steps: 0 });
    assert_eq!(marks, [1, 1, 0, 0, 1, 1, 0]);
}

#[test]
fn peels_with_limits_from_0() {
    let board = sample(1);
    for &(marks, (alpha, beta), steps, numbers, expected) in PEELS_FROM_0 {
        let mut left = marks;
        let Peeled { code, settled, steps } = board.peel(&mut left, alpha, beta, steps);
        assert_eq!(([code, settled, steps], left), (numbers, expected));
    }
}

/// Document 01's board: its cover under a list of limits where everybody is here.
fn under(limits: [u16; 7]) -> Vec<u16> {
    under_with([1; 7], limits)
}

/// The same where those with a byte of 1 are here.
fn under_with(here: [u8; 7], limits: [u16; 7]) -> Vec<u16> {
    let (operators, rides): (Vec<u16>, Vec<u16>) = PAIRS.into_iter().unzip();
    cover_under_limits(Head { operators: 4, rides: 3, pairs: 7 }, &operators, &rides, &here, &limits)
}

#[test]
fn covers_under_limits() {
    assert_eq!(under([2; 7]), [1, 1, 0, 0, 1, 1, 0]);
    assert_eq!(under([0; 7]), [1; 7]);
    assert_eq!(under([65535; 7]), [0; 7]);
    // Ride 1 has a limit of its own. It has three operators.
    assert_eq!(under([0, 0, 0, 0, 0, 3, 0]), [1; 7]);
    assert_eq!(under([0, 0, 0, 0, 0, 4, 0]), [1, 1, 1, 1, 1, 0, 1]);
    assert_eq!(under([1, 1, 1, 1, 1, 4, 1]), [1, 1, 1, 1, 1, 0, 1]);
    // Without it operator 2 has one ride, without him ride 2 one operator, and without that operator 3 none.
    assert_eq!(under([1, 1, 2, 1, 1, 4, 2]), [1, 1, 0, 0, 1, 0, 0]);
    // A limit that is never met drops one operator, and whoever needs him.
    assert_eq!(under([65535, 0, 0, 0, 2, 2, 2]), [0, 1, 1, 1, 0, 1, 1]);
    assert_eq!(under([65535, 2, 2, 1, 2, 2, 2]), [0; 7]);
    // 256 is no 0.
    assert_eq!(under([0, 0, 0, 256, 0, 0, 0]), [1, 1, 1, 0, 1, 1, 1]);
}

/// Whoever isn't here has no pair, and stays where its limit is 0.
#[test]
fn covers_under_limits_of_those_here() {
    assert_eq!(under_with([0; 7], [0; 7]), [1; 7]);
    assert_eq!(under_with([0; 7], [1; 7]), [0; 7]);
    assert_eq!(under_with([0; 7], [0, 1, 0, 1, 0, 1, 65535]), [1, 0, 1, 0, 1, 0, 0]);
    assert_eq!(under_with([0, 1, 1, 1, 1, 1, 1], [0, 1, 1, 1, 2, 2, 2]), [1, 1, 1, 1, 0, 1, 1]);
    assert_eq!(under_with([1, 1, 1, 1, 1, 0, 1], [1, 2, 2, 1, 1, 0, 2]), [1, 0, 0, 0, 1, 1, 0]);
    assert_eq!(cover_under_limits(Head { operators: 0, rides: 0, pairs: 0 }, &[], &[], &[], &[]), [0; 0]);
}

/// A cover (alpha, beta) is the one under the limits alpha for operators and beta for rides, where those who are off or out
/// have a limit that nobody meets.
#[test]
fn covers_are_under_limits() {
    for absent in 0..1 << 7 {
        let mut board = sample(1);
        let here: [u8; 7] = std::array::from_fn(|node| (absent >> node & 1 == 0) as u8);
        board.parts.presence[..7].iter_mut().zip(here).for_each(|(word, bit)| *word = bit as u16);
        for (alpha, beta) in (0..5).flat_map(|alpha| (0..6).map(move |beta| (alpha, beta))) {
            let limit = |node: usize| if node < 4 { alpha } else { beta };
            let limits = std::array::from_fn(|node| if here[node] == 1 { limit(node) } else { 65535 });
            let mut marks = vec![1; 7];
            assert_eq!(board.peel(&mut marks, alpha, beta, 65535).settled, 1);
            assert_eq!(under_with(here, limits), marks);
        }
    }
}

#[test]
fn granted() {
    let mut board = sample(1);
    assert_eq!(board.message(unrevised(GRANT, 3, 1, 2)), Answer { code: 0, differ: 8 });
    assert_eq!(board.row(1), [4, 4, 4, 4, 2, 4, 2]);
    assert_eq!(board.row(2), [2; 7]);
    assert_eq!(board.row(3), [0; 7]);
    assert_eq!(board.head.pairs, 8);
}

#[test]
fn built_at_stamp_5() {
    let mut board = sample(5);
    assert_eq!(board.message(unrevised(GRANT, 0, 0, 5)), Answer { code: 10, differ: 0 });
    assert_eq!(board.message(unrevised(WITHDRAWAL, 0, 0, 5)).code, 0);
    assert_eq!(board.head.pairs, 6);
    assert_eq!(board.message(unrevised(GRANT, 0, 0, 6)).code, 0);
    assert_eq!(board.head.pairs, 7);
}

#[test]
fn sizes() {
    for (operators, rides, code) in [(200, 60, 0), (201, 60, 1), (200, 61, 2), (201, 61, 1)] {
        let mut board = Store::new(operators, rides, &[(3, 4)]);
        assert_eq!(board.build(1), code);
    }
}

#[test]
fn an_old_grant_stays_away() {
    let mut board = sample(5);
    assert_eq!(board.message(unrevised(WITHDRAWAL, 3, 0, 9)), Answer { code: 0, differ: 0 });
    assert_eq!(board.message(unrevised(GRANT, 3, 0, 9)).code, 10);
    assert_eq!(board.message(unrevised(GRANT, 3, 0, 8)).code, 10);
    assert_eq!(board.head.pairs, 7);
}

fn input(words: &[u16]) -> Vec<u8> {
    words.iter().flat_map(|word| word.to_le_bytes()).collect()
}

#[test]
fn cover_sample() {
    let words = [4, 3, 7, 0, 0, 1, 1, 2, 2, 3, 0, 1, 0, 1, 1, 2, 2, 2, 2];
    assert_eq!(cover(&input(&words)), b"cover 2 2 2 2\noperator 0 2\noperator 1 2\nride 0 2\nride 1 2\n");
    assert_eq!(cover(&input(&words)[..37]), b"refused 13\n");
    assert_eq!(cover(&[]), b"refused 13\n");
    assert_eq!(cover(&input(&[201, 61, 65535])), b"refused 1\n");
    assert_eq!(cover(&input(&[4, 61, 65535])), b"refused 2\n");
    assert_eq!(cover(&input(&[4, 3, 13])), b"refused 4\n");
    assert_eq!(cover(&input(&[4, 3, 1, 0, 3, 0, 2])), b"refused 5\n");
    assert_eq!(cover(&input(&[4, 3, 1, 0, 3, 0, 0])), b"refused 5\n");
    assert_eq!(cover(&input(&[4, 3, 1, 0, 2, 0])), b"refused 13\n");
}

/// Sends an operator home, or takes a ride out of service.
fn absent(board: &mut Store, node: usize) {
    let n = board.head.operators as usize;
    let one = if node < n {
        unrevised(OPERATOR_OFF, node as u16, 0, 9)
    } else {
        unrevised(RIDE_OUT, 0, (node - n) as u16, 9)
    };
    assert_eq!(board.message(one).code, 0);
}

/// The boards of every table of so many operators and rides, with each of these sets off or out, as bits.
fn boards(n: usize, m: usize, absences: &[u32]) -> Vec<(Store, u32)> {
    let of_table = |table: u32, absence: u32| {
        let places = (0..n * m).filter(|place| table >> place & 1 == 1);
        let pairs: Vec<(u16, u16)> = places.map(|place| ((place / m) as u16, (place % m) as u16)).collect();
        let mut board = Store::new(n as u16, m as u16, &pairs);
        assert_eq!(board.build(1), 0);
        (0..n + m).filter(|node| absence >> node & 1 == 1).for_each(|node| absent(&mut board, node));
        (board, absence)
    };
    (0..1 << (n * m)).flat_map(|table| absences.iter().map(move |&absence| of_table(table, absence))).collect()
}

/// Definition 2.1 over every set of a board, with limits from 0, one for each ride, and whoever is off and out: inside any
/// marks there is a largest set that meets the limits, and a peel settles on it. Gives the marks of the one from all ones.
fn largest(board: &(Store, u32), minimums: &[u16], (alpha, beta): (u16, u16)) -> Vec<u16> {
    let (board, absence) = board;
    let (n, m) = (board.head.operators as usize, board.head.rides as usize);
    let pairs = listed(board.head, &board.parts.operators, &board.parts.rides);
    let table = pairs.iter().fold(0u32, |table, &(o, r)| table | 1 << (o as usize * m + r as usize));
    let at = |o: usize, r: usize| table >> (o * m + r) & 1 == 1;
    let limit = |r: usize| if minimums[r] == 0 { beta } else { minimums[r] };
    // Whoever meets a limit is on or in, and so are all that it is counted with.
    let meets = |set: &u32| {
        let has = |node: usize| set >> node & 1 == 1;
        let rides = |o: usize| (0..m).filter(|&r| has(n + r) && at(o, r)).count();
        let operators = |r: usize| (0..n).filter(|&o| has(o) && at(o, r)).count();
        set & absence == 0
            && (0..n).all(|o| !has(o) || rides(o) >= alpha as usize)
            && (0..m).all(|r| !has(n + r) || operators(r) >= limit(r) as usize)
    };
    let marks = |set: u32| (0..n + m).map(|node| (set >> node & 1) as u16).collect::<Vec<u16>>();
    let sets: Vec<u32> = (0..1u32 << (n + m)).filter(meets).collect();
    for came in 0..1u32 << (n + m) {
        let largest = sets.iter().filter(|&set| set & !came == 0).fold(0, |all, set| all | set);
        assert!(meets(&largest));
        let mut left = marks(came);
        let steps = came.count_ones() as u16 - largest.count_ones() as u16;
        let peeled = board.peel_with(minimums, &mut left, (alpha, beta), 65_535);
        assert_eq!((peeled, left), (Peeled { code: 0, settled: 1, steps }, marks(largest)));
    }
    marks(sets.iter().fold(0, |all, set| all | set))
}

/// On every table of up to 3 by 3 the largest set from all ones is the cover, and what a query marks.
#[test]
fn cover_is_the_largest() {
    for (n, m) in [(0, 0), (0, 2), (2, 0), (2, 2), (1, 3), (3, 1), (2, 3), (3, 2), (3, 3)] {
        // Those who are off or out, as bits: all such sets on the smaller boards, and a few on the others.
        let absences: Vec<u32> = match n + m {
            0..=4 => (0..1 << (n + m)).collect(),
            5 => vec![0, 1, 1 << n, 1 | 1 << 4, (1 << 5) - 1],
            _ => vec![0, 1 << 1 | 1 << n],
        };
        for board in boards(n, m, &absences) {
            let (head, Vectors { operators, rides, presence, .. }) = (board.0.head, &board.0.parts);
            let counting = Counting::new(head, &listed(head, operators, rides), presence);
            for (alpha, beta) in (0..=m + 1).flat_map(|a| (0..=n + 1).map(move |b| (a, b))) {
                let limits = (alpha as u16, beta as u16);
                let largest = largest(&board, &vec![0; m], limits);
                let (operators, rides) = core(&counting, alpha, beta);
                let found: Vec<u16> =
                    (0..n).map(|o| operators.has(o)).chain((0..m).map(|r| rides.has(r))).map(u16::from).collect();
                assert_eq!(found, largest);
                let (operators, rides) = (largest[..n].iter().sum(), largest[n..].iter().sum());
                let counts = Counts { code: 0, operators, rides };
                assert_eq!(board.0.query(limits.0, limits.1), (counts, largest));
            }
        }
    }
}

/// What a cover gives that marks these, where the two marks behind came in as this word.
fn shown(head: Head, marks: &[u16], word: u16) -> (Counts, Vec<u16>) {
    let [operators, rides] = samples::counts(head.operators, marks);
    (Counts { code: 0, operators, rides }, [marks, &[word; 2]].concat())
}

// Corrections within one stamp

/// Document 01's board, built at 5, with the stamp and the revision that a pair has before its messages.
fn before(corrections: &Corrections) -> Store {
    let mut board = sample(START);
    let (_, revision, stamp) = corrections.stored;
    let place = corrections.place();
    (board.parts.revisions[place], board.parts.stamps[place]) = (revision, stamp);
    board
}

/// That board with the pair's last after its messages.
fn after(corrections: &Corrections) -> Store {
    let (was, place, (_, revision, stamp)) = (before(corrections), corrections.place(), corrections.left);
    let mut board = Store::new(4, 3, &corrections.pairs());
    assert_eq!(board.build(START), 0);
    (board.parts.stamps, board.parts.revisions) = (was.parts.stamps, was.parts.revisions);
    (board.parts.revisions[place], board.parts.stamps[place]) = (revision, stamp);
    board
}

/// By message calls, each with its preview first, and by a list.
#[test]
fn corrected() {
    for corrections in CORRECTIONS {
        let (messages, numbers) = (corrections.messages(), corrections.numbers());
        let mut board = before(corrections);
        for (one, number) in messages.iter().zip(&numbers) {
            let came = spare(board.head, 2, 8);
            let (answer, left) = previewed(&board, *one, came.clone());
            assert_eq!((answer.code, board.message(*one)), (*number, answer));
            assert_eq!(left, if answer.code == 0 { held(&board, &came) } else { came });
        }
        assert_eq!(board, after(corrections));
        let mut board = before(corrections);
        let code = if numbers[0] <= 6 { numbers[0] } else { 0 };
        let answers = if code == 0 { numbers } else { vec![9; messages.len()] };
        assert_eq!((board.messages(&messages), board), ((code, answers), after(corrections)));
    }
}

#[test]
fn numbers_beside_14() {
    for &(one, code) in BESIDE_14 {
        let mut board = sample(START);
        let came = spare(board.head, 2, 8);
        assert_eq!(previewed(&board, one, came.clone()), (Answer { code, differ: 0 }, came));
        assert_eq!(board.message(one), Answer { code, differ: 0 });
        assert_eq!(board.messages(&[one]), (0, vec![code]));
        assert_eq!(board, sample(START));
    }
}

#[test]
fn short_revisions() {
    for &(head, places, code) in SHORT_REVISIONS {
        let mut came = Store { head, ..Store::new(head.operators, head.rides, &PAIRS) };
        came.parts.revisions.truncate(places);
        let mut board = came.clone();
        assert_eq!((board.build(START), board == came), (code, code != 0));
        let mut board = came.clone();
        assert_eq!((board.message(WITHDRAWN).code, board == came), (code, code != 0));
        let mut board = came.clone();
        let answers = if code == 0 { vec![0] } else { vec![9] };
        assert_eq!((board.messages(&[WITHDRAWN]), board == came), ((code, answers), code != 0));
        assert_eq!(previewed(&came, WITHDRAWN, spare(head, 0, 8)).0.code, code);
    }
}

/// A build writes 0 over any revisions, and leaves what lies behind.
#[test]
fn built_revisions() {
    for word in [0, 1, 255, 256, 65_535] {
        let mut board = sample(START);
        board.parts.revisions.fill(word);
        assert_eq!(board.build(START), 0);
        assert_eq!(board.parts.revisions, [&[0; 12][..], &[word; 2]].concat());
    }
}

// Operators who have gone home, and rides out of service

/// Document 01's board, built at 5, with these words of presence.
fn with_presence(words: &[u16]) -> Store {
    let mut board = sample(START);
    board.parts.presence[..words.len()].copy_from_slice(words);
    board
}

/// What a board has of a message that was taken: its stamp and revision, and of an operator or ride its word.
fn stored(board: &mut Store, one: Message) {
    let Store { head, parts } = board;
    let node = match one.kind {
        1 | 2 => {
            let place = head.place(one.operator, one.ride);
            (parts.stamps[place], parts.revisions[place]) = (one.stamp, one.revision);
            return;
        }
        3 | 4 => one.operator as usize,
        _ => head.operators as usize + one.ride as usize,
    };
    (parts.presence_stamps[node], parts.presence_revisions[node]) = (one.stamp, one.revision);
    parts.presence[node] = one.kind % 2;
}

/// The index with these rows, and the two places behind it.
fn index_of_rows(rows: &Rows) -> Vec<u16> {
    [&presence::index(rows)[..], &[7; 2]].concat()
}

/// Sends messages, each with its preview first. Gives the answers.
fn previewed_and_sent(board: &mut Store, messages: &[Message]) -> Vec<Answer> {
    let mut answers = Vec::new();
    for one in messages {
        let came = spare(board.head, 2, 8);
        let (answer, left) = previewed(board, *one, came.clone());
        assert_eq!(board.message(*one), answer);
        assert_eq!(left, if answer.code == 0 { held(board, &came) } else { came });
        answers.push(answer);
    }
    answers
}

/// The board after the messages of a delivery.
fn delivered(delivery: &Delivery) -> Store {
    let mut board = Store::new(4, 3, delivery.pairs);
    assert_eq!(board.build(START), 0);
    board.parts.stamps = sample(START).parts.stamps;
    delivery.sent.iter().filter(|sent| sent.1 == 0).for_each(|sent| stored(&mut board, sent.0));
    board.parts.presence[..7].copy_from_slice(&delivery.left);
    board.parts.index = index_of_rows(&delivery.rows);
    board
}

/// By message calls, each with its preview first, and by a list. Whatever index came in, the one that is left is the
/// same.
#[test]
fn present_and_absent() {
    for delivery in DELIVERIES {
        let messages = delivery.messages();
        let mut board = with_presence(&delivery.came);
        let answers: Vec<Answer> = delivery.sent.iter().map(|&(_, code, differ)| Answer { code, differ }).collect();
        assert_eq!(previewed_and_sent(&mut board, &messages), answers);
        assert_eq!(board, delivered(delivery));
        for word in [0, 9] {
            let mut board = with_presence(&delivery.came);
            board.parts.index[..21].fill(word);
            assert_eq!((board.messages(&messages), board), ((0, delivery.numbers()), delivered(delivery)));
        }
    }
}

/// Words past the pair count are zeroed by a taken message of each kind, and left by a refused one.
#[test]
fn tails_of_all_kinds() {
    for (kind, operator, ride) in [
        (GRANT, 3, 1),
        (WITHDRAWAL, 0, 0),
        (OPERATOR_ON, 2, 0),
        (OPERATOR_OFF, 2, 0),
        (RIDE_IN, 0, 1),
        (RIDE_OUT, 0, 1),
    ] {
        let mut came = sample(START);
        came.parts.operators[7..].fill(8);
        came.parts.rides[7..].fill(8);
        let mut board = came.clone();
        assert_eq!(board.message(unrevised(kind, operator, ride, 0)).code, 9);
        assert_eq!(board, came);
        assert_eq!(board.message(unrevised(kind, operator, ride, 9)).code, 0);
        let pairs = board.head.pairs as usize;
        assert_eq!(board.parts.operators[pairs..], [&vec![0; 12 - pairs][..], &[8; 2]].concat());
        assert_eq!(board.parts.rides[pairs..], [&vec![0; 12 - pairs][..], &[8; 2]].concat());
    }
}

/// Document 01's board, built at 5, with an operator's or ride's last before its messages.
fn before_turns(turns: &Turns, node: &Node) -> Store {
    let mut board = sample(START);
    lasts(&mut board, OTHERS);
    last_at(&mut board, node.place, turns.stored);
    board
}

fn last_at(board: &mut Store, node: usize, (word, revision, stamp): (u16, u16, u32)) {
    board.parts.presence[node] = word;
    board.parts.presence_revisions[node] = revision;
    board.parts.presence_stamps[node] = stamp;
}

fn lasts(board: &mut Store, last: (u16, u16, u32)) {
    (0..board.head.nodes()).for_each(|node| last_at(board, node, last));
}

#[test]
fn later_of_an_operator_or_ride() {
    for (turns, node) in TURNS.iter().flat_map(|turns| NODES.iter().map(move |node| (turns, node))) {
        let (messages, numbers) = (turns.messages(node), turns.numbers());
        let mut expected = before_turns(turns, node);
        last_at(&mut expected, node.place, turns.left);
        expected.parts.index = index_of_rows(&turns.rows(node));
        let mut board = before_turns(turns, node);
        let codes: Vec<u16> = previewed_and_sent(&mut board, &messages).iter().map(|answer| answer.code).collect();
        assert_eq!((&codes, &board), (&numbers, &expected));
        let mut board = before_turns(turns, node);
        assert_eq!((board.messages(&messages), board), ((0, numbers), expected));
    }
}

#[test]
fn numbers_beside_15() {
    for &(one, code) in BESIDE_15 {
        let mut came = sample(START);
        lasts(&mut came, BEFORE_15);
        let mut board = came.clone();
        assert_eq!(previewed_and_sent(&mut board, &[one])[0].code, code);
        assert_eq!(board == came, code != 0);
        assert_eq!(came.messages(&[one]), (0, vec![code]));
        assert_eq!(came, board);
    }
}

/// For each kind of message, and whether the pair counts or not.
#[test]
fn unstamped_pairs() {
    for words in WORDS_BESIDE_6 {
        let mut came = with_presence(&words);
        came.parts.stamps[came.head.place(UNSTAMPED.0, UNSTAMPED.1)] = 0;
        for &one in BESIDE_6 {
            let mut board = came.clone();
            assert_eq!(previewed_and_sent(&mut board, &[one]), [Answer { code: 6, differ: 0 }]);
            assert_eq!(board.messages(&[one]), (6, vec![9]));
            assert_eq!(board, came);
        }
    }
}

#[test]
fn one_sided_boards() {
    for &(head, one, code) in ONE_SIDED {
        let mut built = Store::new(head.operators, head.rides, &[]);
        assert_eq!(built.build(START), 0);
        let mut expected = built.clone();
        if code == 0 {
            stored(&mut expected, one);
        }
        let mut board = built.clone();
        assert_eq!(previewed_and_sent(&mut board, &[one]), [Answer { code, differ: 0 }]);
        assert_eq!(board, expected);
        assert_eq!(built.messages(&[one]), (0, vec![code]));
        assert_eq!(built, expected);
        // With both limits 0 those who are on or in are marked, and nobody else.
        let present: Vec<u16> = board.parts.presence[..3].iter().map(|word| (*word == 1) as u16).collect();
        assert_eq!(board.query(0, 0).1, present);
        let mut marks = [1; 3];
        board.peel(&mut marks, 0, 0, 65535);
        assert_eq!(marks[..], present);
    }
}

#[test]
fn short_presence() {
    let cuts: [fn(&mut Vectors, usize); 3] = [
        |parts, places| parts.presence_stamps.truncate(places),
        |parts, places| parts.presence_revisions.truncate(places),
        |parts, places| parts.presence.truncate(places),
    ];
    for &(head, places, code) in SHORT_PRESENCE {
        for cut in cuts {
            let mut came = Store { head, ..Store::new(head.operators, head.rides, &PAIRS) };
            cut(&mut came.parts, places);
            let mut board = came.clone();
            assert_eq!((board.build(START), board == came), (code, code != 0));
            for one in [WITHDRAWN, unrevised(OPERATOR_OFF, 2, 0, 9), unrevised(RIDE_OUT, 0, 1, 9)] {
                let mut board = came.clone();
                assert_eq!((board.message(one).code, board == came), (code, code != 0));
                let mut board = came.clone();
                let answers = if code == 0 { vec![0] } else { vec![9] };
                assert_eq!((board.messages(&[one]), board == came), ((code, answers), code != 0));
                assert_eq!(previewed(&came, one, spare(head, 0, 8)).0.code, code);
            }
        }
        let mut board = Store { head, ..Store::new(head.operators, head.rides, &PAIRS) };
        board.parts.presence.truncate(places);
        let mut marks = vec![1; head.nodes()];
        assert_eq!(board.peel(&mut marks, 1, 1, 65535).code, code);
        // A query reads no pairs.
        assert_eq!(board.query(1, 1).0.code, if code == 4 { 0 } else { code });
    }
}

/// A build writes 1 over any words of presence, and 0 over their stamps and revisions; it leaves what lies behind.
#[test]
fn built_presence() {
    for words in BUILT_OVER {
        let mut board = sample(START);
        lasts(&mut board, (1, 300, 9));
        board.parts.presence[..7].copy_from_slice(&words);
        assert_eq!(board.build(START), 0);
        assert_eq!(board, sample(START));
        assert_eq!(board.parts.index, index_of_rows(&ALL_COUNT));
    }
}

#[test]
fn queries_of_the_absent() {
    for &(words, index, (alpha, beta), marks) in QUERIES {
        let mut board = with_presence(&words);
        board.parts.index[..21].copy_from_slice(&index);
        let (operators, rides) = (marks[..4].iter().sum(), marks[4..].iter().sum());
        assert_eq!(board.query(alpha, beta), (Counts { code: 0, operators, rides }, marks.to_vec()));
    }
}

#[test]
fn peels_of_the_absent() {
    for &(words, marks, (alpha, beta), steps, numbers, expected) in PEELS {
        let mut left: Words = marks;
        let Peeled { code, settled, steps } = with_presence(&words).peel(&mut left, alpha, beta, steps);
        assert_eq!(([code, settled, steps], left), (numbers, expected));
    }
}

/// The furthest that a level moves of somebody else than this operator or ride.
fn furthest(before: &Store, after: &Store, node: usize) -> u16 {
    let moved = before.parts.index.iter().zip(&after.parts.index).map(|(before, after)| before.abs_diff(*after));
    let others = moved.enumerate().filter(|(place, _)| place % before.head.nodes() != node);
    others.map(|(_, moved)| moved).max().unwrap()
}

/// On every table of 3 by 3, with everybody on and in and with operator 0 off: a clearance or an operator's coming or
/// going moves the levels of all but that operator by one at most. A ride's going moves others further.
#[test]
fn levels_move_by_one() {
    let mut by_rides = 0;
    for (table, is_off) in (0..512).flat_map(|table| [(table, false), (table, true)]) {
        let places = (0..9u16).filter(|place| table >> place & 1 == 1);
        let pairs: Vec<(u16, u16)> = places.map(|place| (place / 3, place % 3)).collect();
        let mut board = Store::new(3, 3, &pairs);
        assert_eq!(board.build(5), 0);
        if is_off {
            absent(&mut board, 0);
        }
        let moved = |kind, operator, ride, node| {
            let mut after = board.clone();
            assert_eq!(after.message(unrevised(kind, operator, ride, 10)).code, 0);
            furthest(&board, &after, node)
        };
        for operator in 0..3 {
            let node = operator as usize;
            for kind in [OPERATOR_ON, OPERATOR_OFF] {
                assert!(moved(kind, operator, 0, node) <= 1);
            }
            for ride in 0..3 {
                assert!(moved(GRANT, operator, ride, node) <= 1 && moved(WITHDRAWAL, operator, ride, node) <= 1);
            }
        }
        by_rides = (0..3).map(|ride| moved(RIDE_OUT, 0, ride, 3 + ride as usize)).fold(by_rides, u16::max);
    }
    assert!(by_rides > 1);
}

// Demand 3 on small boards

/// The latest entry of a pair, an operator or a ride in the book: stamp, revision and kind; all 0 where it has none.
type Latest = (u32, u16, u16);

/// The book: for each pair, and for each operator and ride, its latest entry.
#[derive(Clone)]
struct Book {
    head: Head,
    pairs: Vec<Latest>,
    nodes: Vec<Latest>,
}

impl Book {
    /// That of a table.
    fn new(head: Head, pairs: &[(u16, u16)], start: u32) -> Self {
        let mut book = Book { head, pairs: vec![(0, 0, 0); head.places()], nodes: vec![(0, 0, 0); head.nodes()] };
        pairs.iter().for_each(|&(operator, ride)| book.pairs[head.place(operator, ride)] = (start, 0, GRANT));
        book
    }

    /// Enters a message that is in range, where it is valid.
    fn enter(&mut self, one: Message) {
        let (latest, unused) = match one.kind {
            1 | 2 => (&mut self.pairs[self.head.place(one.operator, one.ride)], 0),
            3 | 4 => (&mut self.nodes[one.operator as usize], one.ride),
            _ => (&mut self.nodes[self.head.operators as usize + one.ride as usize], one.operator),
        };
        if one.revision <= 255 && unused == 0 {
            *latest = (one.stamp, one.revision, one.kind).max(*latest);
        }
    }

    /// Whether an operator or ride is on or in: without an entry, or with a latest one of kind 3 or 5.
    fn is_present(&self, node: usize) -> bool {
        matches!(self.nodes[node].2, 0 | OPERATOR_ON | RIDE_IN)
    }

    /// The board that is worked out from it. Its index is that of a build of the pairs that count, and of no others.
    fn worked_out(&self) -> Store {
        let head = self.head;
        let listed: Vec<(u16, u16)> = (0..head.operators)
            .flat_map(|operator| (0..head.rides).map(move |ride| (operator, ride)))
            .filter(|&(operator, ride)| self.pairs[head.place(operator, ride)].2 == GRANT)
            .collect();
        let mut board = Store::new(head.operators, head.rides, &listed);
        assert_eq!(board.build(1), 0);
        for (place, &(stamp, revision, _)) in self.pairs.iter().enumerate() {
            (board.parts.stamps[place], board.parts.revisions[place]) = (stamp, revision);
        }
        for (node, &(stamp, revision, _)) in self.nodes.iter().enumerate() {
            last_at(&mut board, node, (self.is_present(node) as u16, revision, stamp));
        }
        let operators = head.operators as usize;
        let counts =
            |pair: &(u16, u16)| self.is_present(pair.0 as usize) && self.is_present(operators + pair.1 as usize);
        let counting: Vec<(u16, u16)> = listed.into_iter().filter(counts).collect();
        let mut counted = Store::new(head.operators, head.rides, &counting);
        assert_eq!(counted.build(1), 0);
        board.parts.index = counted.parts.index;
        board
    }
}

/// For each pair, operator and ride of 2 by 2 a message of each of its two kinds, of the stamps 4, 5 and 6 and of the
/// revisions 0, 1, 255 and 256; and messages for an operator or ride whose unused field is 1.
fn few_messages() -> Vec<Message> {
    let mut messages = Vec::new();
    for (revision, stamp) in [0, 1, 255, 256].into_iter().flat_map(|revision| [4, 5, 6].map(|stamp| (revision, stamp)))
    {
        let message = |kind, operator, ride| Message { kind, operator, ride, revision, stamp };
        for kind in [GRANT, WITHDRAWAL] {
            messages.extend([(0, 0), (0, 1), (1, 0), (1, 1)].map(|(operator, ride)| message(kind, operator, ride)));
        }
        for number in [0, 1] {
            messages.extend([OPERATOR_ON, OPERATOR_OFF].map(|kind| message(kind, number, 0)));
            messages.extend([RIDE_IN, RIDE_OUT].map(|kind| message(kind, 0, number)));
        }
        messages.extend([message(OPERATOR_OFF, stamp as u16 % 2, 1), message(RIDE_OUT, 1, stamp as u16 % 2)]);
    }
    messages
}

/// After each list of messages of the six kinds the board is the one worked out from the latest message of each pair,
/// operator and ride.
#[test]
fn delivered_is_the_latest_of_each() {
    let pool = few_messages();
    let (pairs, start) = ([(0, 1), (1, 0), (1, 1)], 5);
    let mut state = 1u32;
    for _ in 0..2000 {
        let mut board = Store::new(2, 2, &pairs);
        assert_eq!(board.build(start), 0);
        let mut book = Book::new(board.head, &pairs, start);
        for _ in 0..24 {
            state = state.wrapping_mul(1_664_525).wrapping_add(1_013_904_223);
            let one = pool[(state >> 16) as usize % pool.len()];
            board.message(one);
            book.enter(one);
            assert_eq!(board, book.worked_out());
        }
    }
}

/// Every list of three messages for one pair, listed or not, for one operator and for one ride, by message calls and by
/// a list.
#[test]
fn three_messages_for_one() {
    let built = [&[][..], &[(0, 0)]].map(|pairs| {
        let mut board = Store::new(1, 1, pairs);
        assert_eq!(board.build(5), 0);
        let book = Book::new(board.head, pairs, 5);
        (board, book)
    });
    for kinds in [[GRANT, WITHDRAWAL], [OPERATOR_ON, OPERATOR_OFF], [RIDE_IN, RIDE_OUT]] {
        let is_for_one = |one: &Message| kinds.contains(&one.kind) && (one.operator, one.ride) == (0, 0);
        let pool: Vec<Message> = few_messages().into_iter().filter(is_for_one).collect();
        assert_eq!(pool.len(), 24);
        let lists = pool.iter().flat_map(|a| pool.iter().flat_map(|b| pool.iter().map(|c| [*a, *b, *c])));
        for list in lists {
            for (board, book) in &built {
                let (mut sent, mut listed, mut book) = (board.clone(), board.clone(), book.clone());
                let answers: Vec<u16> = list.iter().map(|one| sent.message(*one).code).collect();
                assert_eq!(listed.messages(&list), (0, answers));
                list.iter().for_each(|one| book.enter(*one));
                let expected = book.worked_out();
                assert_eq!((&sent, &listed), (&expected, &expected));
            }
        }
    }
}

// Previews

const NO_HEAD: Head = Head { operators: 65535, rides: 65535, pairs: 65535 };

/// On document 01's board, built at 5: a withdrawal that is taken.
const WITHDRAWN: Message = Message { kind: WITHDRAWAL, operator: 1, ride: 0, revision: 4, stamp: 9 };

/// Spare memory for a board of this head: one word in every place, the head of no board, and so many places more in each
/// part than are needed.
fn spare(head: Head, longer: usize, word: u16) -> Store {
    let parts = head.lengths().map(|needed| vec![word; needed + longer], |needed| vec![word as u32; needed + longer]);
    Store { head: NO_HEAD, parts }
}

/// Cuts the last place of one of the eight parts.
fn cut(parts: &mut Vectors, part: usize) {
    match part {
        0 => drop(parts.operators.pop()),
        1 => drop(parts.rides.pop()),
        2 => drop(parts.stamps.pop()),
        3 => drop(parts.revisions.pop()),
        4 => drop(parts.index.pop()),
        5 => drop(parts.presence_stamps.pop()),
        6 => drop(parts.presence_revisions.pop()),
        _ => drop(parts.presence.pop()),
    }
}

/// The spare memory for a preview, as the preview leaves it, with the answer. The board is never written.
fn previewed(board: &Store, one: Message, mut spare: Store) -> (Answer, Store) {
    let before = board.clone();
    let answer = board.preview(one, &mut spare);
    assert_eq!(*board, before);
    (answer, spare)
}

/// For each of 1 to 10, 14 and 15 boards and messages that it alone applies to.
fn refused() -> Vec<(u16, Store, Message)> {
    let changed = |code, change: fn(&mut Store, &mut Message)| {
        let (mut board, mut one) = (sample(5), WITHDRAWN);
        change(&mut board, &mut one);
        (code, board, one)
    };
    vec![
        (1, Store::new(201, 3, &PAIRS), WITHDRAWN),
        (2, Store::new(4, 61, &PAIRS), WITHDRAWN),
        changed(3, |board, _| board.parts.operators.truncate(11)),
        changed(3, |board, _| board.parts.rides.truncate(11)),
        changed(3, |board, _| board.parts.stamps.truncate(11)),
        changed(3, |board, _| board.parts.revisions.truncate(11)),
        changed(3, |board, _| board.parts.index.truncate(20)),
        changed(3, |board, _| board.parts.presence_stamps.truncate(6)),
        changed(3, |board, _| board.parts.presence_revisions.truncate(6)),
        changed(3, |board, _| board.parts.presence.truncate(6)),
        changed(4, |board, _| board.head.pairs = 13),
        changed(5, |board, _| board.parts.operators[6] = 4),
        changed(5, |board, _| board.parts.rides.swap(0, 1)),
        changed(6, |board, _| board.parts.stamps[0] = 0),
        changed(7, |_, one| one.kind = 0),
        changed(7, |_, one| one.kind = 7),
        changed(8, |_, one| one.operator = 4),
        changed(8, |_, one| one.ride = 3),
        changed(8, |_, one| (one.kind, one.operator) = (OPERATOR_OFF, 4)),
        changed(8, |_, one| *one = unrevised(RIDE_OUT, 0, 3, 9)),
        changed(9, |_, one| one.stamp = 0),
        changed(10, |_, one| one.stamp = 4),
        changed(10, |_, one| *one = unrevised(GRANT, 1, 0, 5)),
        changed(10, |board, one| (board.parts.stamps[3], board.parts.revisions[3]) = (one.stamp, 5)),
        changed(10, |board, one| {
            one.kind = OPERATOR_OFF;
            last_at(board, 1, (0, one.revision, one.stamp));
        }),
        changed(10, |board, one| {
            *one = unrevised(RIDE_IN, 0, 2, 9);
            last_at(board, 6, (1, 0, 9));
        }),
        changed(14, |_, one| one.revision = 256),
        changed(14, |_, one| one.revision = 65_535),
        changed(15, |_, one| (one.kind, one.ride) = (OPERATOR_OFF, 1)),
        changed(15, |_, one| one.kind = RIDE_IN),
    ]
}

/// Without (1, 0) ride 0 has operator 0 alone: its level in row 1 is 1, and nobody is in cover (2, 2). In row 2 operator 1
/// is out, and the others that are in have level 1. 1 and 4 words differ.
#[test]
fn previewed_withdrawal() {
    let board = sample(5);
    let (answer, spare) = previewed(&board, WITHDRAWN, spare(board.head, 3, 8));
    assert_eq!(answer, Answer { code: 0, differ: 5 });
    assert_eq!(spare.head, Head { operators: 4, rides: 3, pairs: 6 });
    assert_eq!(spare.parts.operators, [0, 0, 1, 2, 2, 3, 0, 0, 0, 0, 0, 0, 8, 8, 8]);
    assert_eq!(spare.parts.rides, [0, 1, 1, 1, 2, 2, 0, 0, 0, 0, 0, 0, 8, 8, 8]);
    assert_eq!(spare.parts.stamps, [5, 5, 0, 9, 5, 0, 0, 5, 5, 0, 0, 5, 8, 8, 8]);
    assert_eq!(spare.parts.revisions, [0, 0, 0, 4, 0, 0, 0, 0, 0, 0, 0, 0, 8, 8, 8]);
    assert_eq!(spare.parts.presence_stamps, [0, 0, 0, 0, 0, 0, 0, 8, 8, 8]);
    assert_eq!(spare.parts.presence_revisions, [0, 0, 0, 0, 0, 0, 0, 8, 8, 8]);
    assert_eq!(spare.parts.presence, [1, 1, 1, 1, 1, 1, 1, 8, 8, 8]);
    assert_eq!(spare.row(1), [3, 3, 3, 2, 1, 3, 2]);
    assert_eq!(spare.row(2), [1, 0, 1, 0, 1, 1, 1]);
    assert_eq!(spare.row(3), [0; 7]);
    assert_eq!(spare.parts.index[21..], [8, 8, 8]);
    assert_eq!((board.query(1, 2).1, spare.query(1, 2).1), (vec![1; 7], vec![1, 1, 1, 1, 0, 1, 1]));
    assert_eq!((board.query(2, 2).1, spare.query(2, 2).1), (vec![1, 1, 0, 0, 1, 1, 0], vec![0; 7]));
}

#[test]
fn previewed_grant() {
    let mut board = sample(1);
    board.parts.revisions[0] = 300;
    let one = Message { kind: GRANT, operator: 3, ride: 1, revision: 255, stamp: 2 };
    let (answer, spare) = previewed(&board, one, spare(board.head, 1, 8));
    assert_eq!(answer, Answer { code: 0, differ: 8 });
    assert_eq!(spare.head, Head { operators: 4, rides: 3, pairs: 8 });
    assert_eq!(spare.parts.operators, [0, 0, 1, 1, 2, 2, 3, 3, 0, 0, 0, 0, 8]);
    assert_eq!(spare.parts.rides, [0, 1, 0, 1, 1, 2, 1, 2, 0, 0, 0, 0, 8]);
    assert_eq!(spare.parts.stamps, [1, 1, 0, 1, 1, 0, 0, 1, 1, 0, 2, 1, 8]);
    assert_eq!(spare.parts.revisions, [300, 0, 0, 0, 0, 0, 0, 0, 0, 0, 255, 0, 8]);
    assert_eq!(spare.row(1), [4, 4, 4, 4, 2, 4, 2]);
    assert_eq!(spare.row(2), [2; 7]);
    assert_eq!(spare.row(3), [0; 7]);
    assert_eq!(spare.parts.index[21..], [8]);
}

/// Operator 2 goes while ride 2 has the word 7: (0, 0), (0, 1), (1, 0), (1, 1) count. Of row 1 and row 2 the words of
/// operators 2 and 3 and ride 2 are 0, and the others 2: 6 and 2 words differ from the build's.
#[test]
fn previewed_presence() {
    let mut board = sample(1);
    last_at(&mut board, 6, (7, 300, 4));
    let one = Message { kind: OPERATOR_OFF, operator: 2, ride: 0, revision: 255, stamp: 2 };
    let (answer, spare) = previewed(&board, one, spare(board.head, 1, 8));
    assert_eq!(answer, Answer { code: 0, differ: 8 });
    assert_eq!(spare.head, board.head);
    assert_eq!(spare.parts.operators, [0, 0, 1, 1, 2, 2, 3, 0, 0, 0, 0, 0, 8]);
    assert_eq!(spare.parts.rides, [0, 1, 0, 1, 1, 2, 2, 0, 0, 0, 0, 0, 8]);
    assert_eq!(spare.parts.stamps, [1, 1, 0, 1, 1, 0, 0, 1, 1, 0, 0, 1, 8]);
    assert_eq!(spare.parts.revisions, [0, 0, 0, 0, 0, 0, 0, 0, 0, 0, 0, 0, 8]);
    assert_eq!(spare.parts.presence_stamps, [0, 0, 2, 0, 0, 0, 4, 8]);
    assert_eq!(spare.parts.presence_revisions, [0, 0, 255, 0, 0, 0, 300, 8]);
    assert_eq!(spare.parts.presence, [1, 1, 0, 1, 1, 1, 7, 8]);
    assert_eq!(spare.row(1), [2, 2, 0, 0, 2, 2, 0]);
    assert_eq!(spare.row(2), [2, 2, 0, 0, 2, 2, 0]);
    assert_eq!(spare.row(3), [0; 7]);
    assert_eq!(spare.parts.index[21..], [8]);
}

/// A withdrawal of a pair never granted is taken for its stamp and revision: no index word differs, and the words are
/// copied.
#[test]
fn previewed_stamp() {
    let board = sample(5);
    let one = Message { kind: WITHDRAWAL, operator: 3, ride: 0, revision: 2, stamp: 9 };
    let mut expected = board.clone();
    (expected.parts.stamps[9], expected.parts.revisions[9]) = (9, 2);
    let mut came = spare(board.head, 2, 7);
    came.head = Head { operators: 0, rides: 0, pairs: 0 };
    assert_eq!(previewed(&board, one, came), (Answer { code: 0, differ: 0 }, expected));
}

/// The words compared are those of the board's index, whatever they are, and not those of the spare one.
#[test]
fn previewed_differences() {
    let mut board = sample(5);
    let mut came = spare(board.head, 0, 8);
    (_, came) = previewed(&board, WITHDRAWN, came);
    let index = came.parts.index.clone();
    board.parts.index.fill(9);
    let (answer, spare) = previewed(&board, WITHDRAWN, came);
    assert_eq!((answer, spare.parts.index), (Answer { code: 0, differ: 21 }, index));
}

#[test]
fn refused_previews() {
    for (code, board, one) in refused() {
        for longer in [0, 2] {
            let came = spare(board.head, longer, 8);
            assert_eq!(previewed(&board, one, came.clone()), (Answer { code, differ: 0 }, came));
        }
    }
}

/// Spare memory of the lengths that are needed is accepted, and a place less is 3: after 1 and 2, and before the others.
#[test]
fn short_spare_memory() {
    let taken = (0, sample(5), WITHDRAWN);
    assert_eq!(previewed(&taken.1, taken.2, spare(taken.1.head, 0, 8)).0.code, 0);
    for (code, board, one) in refused().into_iter().chain([taken]) {
        for part in 0..8 {
            let mut came = spare(board.head, 0, 8);
            cut(&mut came.parts, part);
            let code = if code == 1 || code == 2 { code } else { 3 };
            assert_eq!(previewed(&board, one, came.clone()), (Answer { code, differ: 0 }, came));
        }
    }
}

#[test]
fn sizes_of_previews() {
    for (operators, rides, code) in [(200, 60, 0), (201, 60, 1), (200, 61, 2), (201, 61, 1)] {
        let board = Store::new(operators, rides, &[(3, 4)]);
        let one = unrevised(WITHDRAWAL, 3, 4, 9);
        assert_eq!(previewed(&board, one, spare(board.head, 0, 8)).0.code, code);
    }
}

/// Without a ride the parts of presence alone need some places, and without an operator these and the index. There is
/// no pair, so that a grant and a withdrawal get 8.
#[test]
fn previews_of_boards_without_pairs() {
    for (operators, rides) in [(0, 0), (3, 0), (0, 3)] {
        let mut board = Store::new(operators, rides, &[]);
        assert_eq!(board.build(5), 0);
        let off = if operators > 0 { 0 } else { 8 };
        let out = if rides > 0 { 0 } else { 8 };
        for (kind, code) in [(GRANT, 8), (WITHDRAWAL, 8), (OPERATOR_OFF, off), (RIDE_OUT, out), (7, 7)] {
            let one = unrevised(kind, 0, 0, 9);
            let came = spare(board.head, 0, 8);
            let (answer, left) = previewed(&board, one, came.clone());
            assert_eq!((answer, left == came), (Answer { code, differ: 0 }, code != 0));
            for part in 0..8 {
                let mut short = came.clone();
                cut(&mut short.parts, part);
                if short != came {
                    assert_eq!(previewed(&board, one, short.clone()), (Answer { code: 3, differ: 0 }, short));
                }
            }
        }
    }
}

/// The first places of one part, and from there on those of another.
fn joined<T: Clone>(first: &[T], other: &[T], places: usize) -> Vec<T> {
    [&first[..places], &other[places..]].concat()
}

/// Spare memory that held other words before, with a board in it.
fn held(board: &Store, came: &Store) -> Store {
    let both = board.parts.view().zip(came.parts.view()).zip(board.head.lengths());
    let parts =
        both.map(|((new, old), places)| joined(new, old, places), |((new, old), places)| joined(new, old, places));
    Store { head: board.head, parts }
}

/// On every table of 2 by 2: whatever the words, the lengths and the head of the spare memory are, a preview that isn't
/// refused leaves the board in it that the message then leaves, with the same answer.
#[test]
fn previews_are_what_the_message_does() {
    for table in 0..16 {
        let places = (0..4u16).filter(|place| table >> place & 1 == 1);
        let pairs: Vec<(u16, u16)> = places.map(|place| (place / 2, place % 2)).collect();
        for one in few_messages() {
            let mut board = Store::new(2, 2, &pairs);
            assert_eq!(board.build(5), 0);
            let spares = [spare(board.head, 2, 7), Store { head: board.head, ..spare(board.head, 0, 65535) }];
            let outcomes = spares.clone().map(|came| previewed(&board, one, came));
            let sent = board.message(one);
            for (came, outcome) in spares.into_iter().zip(outcomes) {
                let left = if sent.code == 0 { held(&board, &came) } else { came };
                assert_eq!(outcome, (sent, left));
            }
        }
    }
}

/// What a frame says is what was written into it.
#[test]
fn frames_are_read_as_written() {
    use crate::crowd::{Band, Bands};
    use crate::frames::{write_end, Call, Cursor, Part};
    let head = Head { operators: 4, rides: 3, pairs: 65535 };
    let one = Message { kind: 1, operator: 2, ride: 3, revision: 4, stamp: 4_294_901_760 };
    let kept = Part::kept(12);
    let given = Part::given(14, &[1, 65535], 256);
    let changed = Part::changed(21, 19, &[5, 6, 7]);
    let parts = Parts {
        operators: kept.clone(),
        rides: given.clone(),
        stamps: Part::given(12, &[70_000, 1], 65_536),
        revisions: Part::given(13, &[256, 2], 3),
        index: Part::filled(3, 1),
        presence_stamps: Part::given(7, &[65_537, 9], 80_000),
        presence_revisions: Part::given(8, &[255, 300], 4),
        presence: Part::given(9, &[0, 7], 1),
    };
    let presence = parts.presence.clone();
    let band = |place| Band { first: place, last: 65_535, alpha: 256 + place, beta: 300 * place };
    let bands = Bands { count: 9, bands: std::array::from_fn(|place| band(place as u16)) };
    let calls = [
        Call::Build { head, start: 65_537, parts: parts.clone() },
        Call::Query {
            head,
            alpha: 1,
            beta: 2,
            index: changed.clone(),
            presence: presence.clone(),
            marks: given.clone(),
        },
        Call::Peel {
            head,
            alpha: 1,
            beta: 2,
            steps: 3,
            operators: given.clone(),
            rides: kept.clone(),
            presence: presence.clone(),
            minimums: Part::given(5, &[0, 65_535, 2], 9),
            marks: changed.clone(),
        },
        Call::Message { head, message: one, parts: Parts { index: changed.clone(), ..parts.clone() } },
        Call::Messages { head, messages: vec![one; 3], parts, answers: given.clone() },
        Call::CrowdLimits { guests: 65_535, bands },
        Call::CrowdCover {
            head,
            guests: 256,
            bands,
            operators: kept.clone(),
            rides: given.clone(),
            presence: presence.clone(),
            minimums: Part::given(6, &[7, 0, 256], 1),
            marks: changed.clone(),
        },
        Call::OwnCover {
            head,
            alpha: 256,
            beta: 2,
            operators: kept,
            rides: given.clone(),
            presence,
            minimums: given,
            marks: changed,
        },
    ];
    let mut stream = Vec::new();
    calls.iter().for_each(|call| call.write(&mut stream));
    write_end(&mut stream);
    let mut cursor = Cursor::new(&stream);
    for call in calls {
        assert_eq!(cursor.call(), Some(call));
    }
    assert_eq!(cursor.call(), None);
}
